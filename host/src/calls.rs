//! The C functions of libqptr.a over slices, one each: a slice is lent as its address and its length. All unsafe code is here.
//!
//! Any content and length of each list is allowed, and a refusal leaves every list as it was.
use crate::{QPtrChainStep, Refusal};

mod ffi {
    use crate::QPtrChainStep;

    unsafe extern "C" {
        pub fn qptr_answer_sheet(sheet: *const u8, sheet_len: usize, out: *mut u8, out_len: usize) -> i64;
        pub fn qptr_read_sheet(sheet: *const u8, sheet_len: usize, table: *mut u32, table_len: usize) -> i64;
        pub fn qptr_lower_chain(
            table: *const u32,
            table_len: usize,
            op: u32,
            ptr: u32,
            indices: *const u8,
            indices_len: usize,
            steps: *mut u8,
            steps_len: usize,
        ) -> i64;
        pub fn qptr_lower_chain_steps(
            table: *const u32,
            table_len: usize,
            op: u32,
            ptr: u32,
            indices: *const u8,
            indices_len: usize,
            steps: *mut QPtrChainStep,
            steps_len: usize,
        ) -> i64;
        pub fn qptr_type_layout(table: *const u32, table_len: usize, ty: u32, out: *mut u32, out_len: usize) -> i64;
        pub fn qptr_find_components(
            table: *const u32,
            table_len: usize,
            ty: u32,
            start: u32,
            end: u32,
            out: *mut u32,
            out_len: usize,
        ) -> i64;
        pub fn qptr_array_length(
            table: *const u32,
            table_len: usize,
            ptr: u32,
            member: u32,
            out: *mut u32,
            out_len: usize,
        ) -> i64;
        pub fn qptr_local_variable(table: *const u32, table_len: usize, ptr: u32, out: *mut u32, out_len: usize) -> i64;
    }
}

/// What a negative answer refuses, what another counts.
fn answered(answer: i64) -> Result<usize, Refusal> {
    usize::try_from(answer).map_err(|_| Refusal::of(answer))
}

/// The answer lines of a sheet, as `lay` writes them; how many bytes.
pub fn answer_sheet(sheet: &[u8], out: &mut [u8]) -> Result<usize, Refusal> {
    answered(unsafe { ffi::qptr_answer_sheet(sheet.as_ptr(), sheet.len(), out.as_mut_ptr(), out.len()) })
}

/// Reads a sheet into a table of [`TABLE_WORDS`](crate::TABLE_WORDS) words; how many types.
pub fn read_sheet(sheet: &[u8], table: &mut [u32]) -> Result<usize, Refusal> {
    answered(unsafe { ffi::qptr_read_sheet(sheet.as_ptr(), sheet.len(), table.as_mut_ptr(), table.len()) })
}

/// The steps of a chain, bytes to bytes: 8 an index, 20 a step, little-endian words; how many steps.
pub fn lower_chain(table: &[u32], op: u32, ptr: u32, indices: &[u8], steps: &mut [u8]) -> Result<usize, Refusal> {
    let (at, len) = (indices.as_ptr(), indices.len());
    answered(unsafe { ffi::qptr_lower_chain(table.as_ptr(), table.len(), op, ptr, at, len, steps.as_mut_ptr(), steps.len()) })
}

/// The same into records; how many steps.
pub fn lower_chain_steps(table: &[u32], op: u32, ptr: u32, indices: &[u8], steps: &mut [QPtrChainStep]) -> Result<usize, Refusal> {
    let (at, len) = (indices.as_ptr(), indices.len());
    answered(unsafe { ffi::qptr_lower_chain_steps(table.as_ptr(), table.len(), op, ptr, at, len, steps.as_mut_ptr(), steps.len()) })
}

/// The layout of a type, 7 words and the offsets of its fields; how many words.
///
/// The 7: form (1 memory, 2 buffer, 3 opaque, 4 and 5 arrays of these), length of a handle array or 0, size, alignment, legacy alignment, runtime
/// stride or 0, stride of an array or 0.
pub fn type_layout(table: &[u32], ty: u32, out: &mut [u32]) -> Result<usize, Refusal> {
    answered(unsafe { ffi::qptr_type_layout(table.as_ptr(), table.len(), ty, out.as_mut_ptr(), out.len()) })
}

/// The components of a type that hold the bytes from start to end, rising; how many.
pub fn find_components(table: &[u32], ty: u32, start: u32, end: u32, out: &mut [u32]) -> Result<usize, Refusal> {
    answered(unsafe { ffi::qptr_find_components(table.as_ptr(), table.len(), ty, start, end, out.as_mut_ptr(), out.len()) })
}

/// Where a runtime array that ends a block begins, and its stride: 2 words.
pub fn array_length(table: &[u32], ptr: u32, member: u32, out: &mut [u32]) -> Result<usize, Refusal> {
    answered(unsafe { ffi::qptr_array_length(table.as_ptr(), table.len(), ptr, member, out.as_mut_ptr(), out.len()) })
}

/// The size, alignment and legacy alignment of a local variable, 3 words; or none where it isn't memory of a fixed size.
pub fn local_variable(table: &[u32], ptr: u32, out: &mut [u32]) -> Result<usize, Refusal> {
    answered(unsafe { ffi::qptr_local_variable(table.as_ptr(), table.len(), ptr, out.as_mut_ptr(), out.len()) })
}
