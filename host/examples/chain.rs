//! Lowers document 01's chain: `cargo run --offline --example chain`.
use qptr::{Index, Op, Table};

fn main() -> Result<(), qptr::Refusal> {
    let sheet = include_bytes!("../../sheets/example.sheet");
    let table = Table::read(sheet)?;
    println!("{} types", table.types());
    let indices = [Index::Known(0), Index::Unknown(1), Index::Known(1)];
    for step in table.lower_chain(Op::AccessChain, 5, &indices)? {
        println!("{step:?}");
    }
    Ok(())
}
