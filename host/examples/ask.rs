//! Answers a sheet, question by question through the C functions, with the lines that `lay` writes for the whole of it: `ask < sheet`.
//! oracle/compare holds it against the original program.
use qptr::{Components, Handle, Index, MemTypeLayout, Op, Refusal, Step, Table, TypeLayout};
use std::fmt::Write as _;
use std::io::{Read as _, Write as _};
use std::num::NonZeroU32;

fn number(field: &str) -> u32 {
    field.parse().expect("a number")
}

fn index(field: &str) -> Index {
    field.strip_prefix('v').map_or_else(|| Index::Known(number(field)), |unknown| Index::Unknown(number(unknown)))
}

fn shown(index: Index) -> String {
    match index {
        Index::Known(word) => word.to_string(),
        Index::Unknown(unknown) => format!("v{unknown}"),
    }
}

fn or_zero(number: Option<NonZeroU32>) -> u32 {
    number.map_or(0, NonZeroU32::get)
}

fn layout_line(layout: TypeLayout) -> String {
    let (form, len, handle) = match layout {
        TypeLayout::Concrete(memory) => return memory_line("c", 0, &memory),
        TypeLayout::Handle(handle) => (["b", "o"], 0, handle),
        TypeLayout::HandleArray(handle, len) => (["ab", "ao"], or_zero(len), handle),
    };
    match handle {
        Handle::Buffer(memory) => memory_line(form[0], len, &memory),
        Handle::Opaque => format!("t,{},{len},0,0,0,0", form[1]),
    }
}

fn memory_line(form: &str, len: u32, memory: &MemTypeLayout) -> String {
    let (mem, base) = (memory.mem_layout, memory.mem_layout.fixed_base);
    let mut line = format!("t,{form},{len},{},{},{},{}", base.size, base.align, base.legacy_align, or_zero(mem.dyn_unit_stride));
    match &memory.components {
        Components::Scalar => {}
        Components::Elements { stride } => write!(line, ",{stride}").unwrap(),
        Components::Fields { offsets } => offsets.iter().for_each(|offset| write!(line, ",{offset}").unwrap()),
    }
    line
}

fn step(step: Step) -> String {
    match step {
        Step::HandleArrayIndex(index) => format!(",H,{}", shown(index)),
        Step::BufferData => ",B".to_string(),
        Step::Offset(bytes) => format!(",O,{bytes}"),
        Step::DynOffset { stride, bound, index } => format!(",D,{stride},{},{}", or_zero(bound), shown(index)),
    }
}

fn op(field: &str) -> Op {
    match field {
        "65" => Op::AccessChain,
        "66" => Op::InBoundsAccessChain,
        "67" => Op::PtrAccessChain,
        _ => Op::InBoundsPtrAccessChain,
    }
}

fn answer(table: &Table, question: &str) -> Result<String, Refusal> {
    let fields: Vec<&str> = question.split(',').collect();
    let n = |i: usize| number(fields[i]);
    let layout = |i: usize| table.type_layout(n(i)).map(layout_line);
    Ok(match fields[0] {
        "T" => layout(1)?,
        "E" => if layout(1)? == layout(2)? { "y" } else { "n" }.to_string(),
        "Q" => table.find_components(n(1), n(2)..n(3))?.iter().fold("q".to_string(), |line, found| format!("{line},{found}")),
        "C" => {
            let indices: Vec<Index> = fields[3..].iter().map(|field| index(field)).collect();
            table.lower_chain(op(fields[1]), n(2), &indices)?.into_iter().map(step).fold("c".to_string(), |line, step| line + &step)
        }
        "L" => {
            let length = table.array_length(n(1), n(2))?;
            format!("l,{},{}", length.fixed_base_size, length.dyn_unit_stride)
        }
        _ => match table.local_variable(n(1))? {
            Some(mem) => format!("x,{},{},{}", mem.size, mem.align, mem.legacy_align),
            None => "x".to_string(),
        },
    })
}

fn main() -> std::io::Result<()> {
    let mut sheet = vec![];
    std::io::stdin().read_to_end(&mut sheet)?;
    let refused = |refusal: Refusal| format!("e,{}", refusal.number());
    let mut out = String::new();
    match Table::read(&sheet) {
        Err(refusal) => writeln!(out, "{}", refused(refusal)).unwrap(),
        Ok(table) => {
            let text = std::str::from_utf8(&sheet).expect("a sheet that was read is ASCII");
            for question in text.lines().filter(|line| line.starts_with(['T', 'E', 'Q', 'C', 'L', 'X'])) {
                writeln!(out, "{}", answer(&table, question).unwrap_or_else(refused)).unwrap();
            }
        }
    }
    std::io::stdout().write_all(out.as_bytes())
}
