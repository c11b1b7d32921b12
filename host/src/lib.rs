//! SPIR-V types laid out, and chains of indices into them as plain steps, by the proved functions of libqptr.a.
//!
//! What the functions promise is proved of them for every input (docs/PROMISE.md). This wrapper is ordinary Rust: it lends lists of the
//! lengths that it says, and turns words into structs and enums.
pub mod calls;
mod refusal;
mod shapes;
mod steps;
mod table;

pub use refusal::Refusal;
pub use shapes::{Components, Handle, MaybeDynMemLayout, MemLayout, MemTypeLayout, TypeLayout};
pub use steps::{Index, Op, QPtrChainStep, Step};
pub use table::{BufferDynLen, Table};

/// How many words the table of a sheet has.
pub const TABLE_WORDS: usize = 7175;
/// How many bytes an index has.
pub const INDEX_BYTES: usize = 8;
/// How many bytes a step has.
pub const STEP_BYTES: usize = 20;
/// How many steps a chain can have: one more than the 255 indices.
pub const MOST_STEPS: usize = 256;
/// How many members a sheet can have in all, and so how many components can hold a range.
pub const MOST_MEMBERS: usize = 1024;

/// The answer lines of a sheet, as `lay` writes them. A bad sheet's is one refusal line.
pub fn answer_sheet(sheet: &[u8]) -> Vec<u8> {
    let mut out = vec![0; 4096];
    loop {
        match calls::answer_sheet(sheet, &mut out) {
            Ok(bytes) => {
                out.truncate(bytes);
                return out;
            }
            // All that it refuses is a short list.
            Err(_) => out = vec![0; 4 * out.len()],
        }
    }
}
