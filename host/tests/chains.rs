//! Chains through the archive: steps of each kind, refusals, short lists, bytes that are no indices.
mod common;
use common::*;
use qptr::{calls, Index, Op, Refusal, Step, Table, INDEX_BYTES, MOST_STEPS, STEP_BYTES};
use std::num::NonZeroU32;
use Index::{Known, Unknown};

/// A chain's steps as bytes.
fn lowered(table: &[u32], op: u32, ptr: u32, indices: &[u8], room: usize) -> Result<Vec<u8>, u32> {
    full(room, BYTES, &|steps| calls::lower_chain(table, op, ptr, indices, steps).map(|n| STEP_BYTES * n))
}

/// The bytes of known indices.
fn known(words: &[u32]) -> Vec<u8> {
    words.iter().flat_map(|&word| u64::from(word).to_le_bytes()).collect()
}

#[test]
fn document_01s_chain() {
    let table = Table::read(EXAMPLE).unwrap();
    let chain = |is: &[Index]| table.lower_chain(Op::AccessChain, 5, is);
    assert_eq!(
        chain(&[Known(0), Unknown(1), Known(1)]),
        Ok(vec![Step::BufferData, Step::DynOffset { stride: 16, bound: None, index: Unknown(1) }, Step::Offset(12)])
    );
    assert_eq!(chain(&[Known(0), Known(2), Known(0)]), Ok(vec![Step::BufferData, Step::Offset(32)]));
    assert_eq!(chain(&[Known(0), Known(u32::MAX), Known(1)]), Ok(vec![Step::BufferData, Step::Offset(-4)]));
    assert_eq!(chain(&[Known(0), Known(0), Known(1)]), Ok(vec![Step::BufferData, Step::Offset(12)]));
    assert_eq!(number(chain(&[Known(0), Known(2), Known(1), Known(0)])), 19);
    assert_eq!(chain(&[]), Ok(vec![]));
}

#[test]
fn steps_of_each_kind() {
    let table = types("I,32\nA,0,4,-\nS,1,1,1\nR,2,-\nP,12,3\n");
    let steps = table.lower_chain(Op::InBoundsAccessChain, 4, &[Unknown(9), Known(0), Known(4)]).unwrap();
    let dynamic = Step::DynOffset { stride: 4, bound: NonZeroU32::new(4), index: Known(4) };
    assert_eq!(steps, [Step::HandleArrayIndex(Unknown(9)), Step::BufferData, dynamic]);
    assert_eq!(
        lowered(table.words(), 66, 4, &[9, 0, 0, 0, 1, 0, 0, 0, 0, 0, 0, 0, 0, 0, 0, 0, 4, 0, 0, 0, 0, 0, 0, 0], 99).unwrap(),
        [1, 0, 0, 1, 9, 2, 0, 0, 0, 0, 4, 4, 4, 0, 4u32].iter().flat_map(|w| w.to_le_bytes()).collect::<Vec<u8>>()
    );
    // A merged 0 stays.
    let table = types("F,32\nR,0,-\nS,1,1,1\nD,0,35,4\nP,12,2\n");
    assert_eq!(table.lower_chain(Op::AccessChain, 3, &[Known(0), Known(u32::MAX)]), Ok(vec![Step::BufferData, Step::Offset(0)]));
}

#[test]
fn chains_over_a_runtime_array_of_the_pointee() {
    let table = Table::read(LIGHTS).unwrap();
    let steps = [Step::DynOffset { stride: 32, bound: None, index: Unknown(1) }, Step::Offset(12)];
    for op in [Op::PtrAccessChain, Op::InBoundsPtrAccessChain] {
        assert_eq!(table.lower_chain(op, 7, &[Unknown(1), Known(1)]).unwrap(), steps);
        assert_eq!(table.lower_chain(op, 7, &[Known(2), Known(1)]), Ok(vec![Step::Offset(76)]));
    }
}

/// 255 indices, the most there can be, give 256 steps: a handle, a buffer, an offset and 253 arrays.
#[test]
fn the_longest_chain() {
    let arrays: String = (0..253).map(|elem| format!("A,{elem},1,4\n")).collect();
    let table = types(&format!("F,32\n{arrays}S,1,1,253\nD,0,35,4\nP,12,254\n"));
    let indices: Vec<Index> = [Unknown(0), Known(0)].into_iter().chain((1..254).map(Unknown)).collect();
    let steps = table.lower_chain(Op::PtrAccessChain, 255, &indices).unwrap();
    assert_eq!(steps[..3], [Step::HandleArrayIndex(Unknown(0)), Step::BufferData, Step::Offset(4)]);
    assert!((1..254).map(|v| Step::DynOffset { stride: 4, bound: NonZeroU32::new(1), index: Unknown(v) }).eq(steps[3..].iter().copied()));
    assert_eq!(steps.len(), MOST_STEPS);
    let bytes: Vec<u8> = indices
        .iter()
        .flat_map(|i| match i {
            Known(w) => u64::from(*w).to_le_bytes(),
            Unknown(v) => (1 << 32 | u64::from(*v)).to_le_bytes(),
        })
        .collect();
    assert_eq!(lowered(table.words(), 67, 255, &bytes, STEP_BYTES * MOST_STEPS).map(|b| b.len()), Ok(STEP_BYTES * MOST_STEPS));
    assert_eq!(lowered(table.words(), 67, 255, &bytes, STEP_BYTES * MOST_STEPS - 1), Err(24));
    assert_eq!(number(table.lower_chain(Op::PtrAccessChain, 255, &vec![Known(0); 256])), 2);
}

/// The walk goes one call deeper with each index, refused or not.
#[test]
fn half_a_megabyte_of_stack_is_enough() {
    let arrays: String = (0..253).map(|elem| format!("A,{elem},1,4\n")).collect();
    let chain = |op: u32, last: u32| format!("C,{op},255{},{last}\n", ",0".repeat(254));
    let sheet = format!("G,1,1,1,1,1,1\nF,32\n{arrays}S,1,1,253\nD,0,35,4\nP,12,254\n{}{}", chain(67, 0), chain(65, 1));
    let thread = std::thread::Builder::new().stack_size(512 << 10);
    let answers = thread.spawn(move || qptr::answer_sheet(sheet.as_bytes())).unwrap().join().unwrap();
    assert_eq!(String::from_utf8(answers).unwrap(), "c,H,0,B,O,4\ne,19\n");
}

#[test]
fn chains_are_refused() {
    let table = types("F,32\nU\nO\nS,0,2,0,0\nD,0,35,0\nD,1,35,2147483648\nP,7,3\nP,7,1\nP,7,2\nP,7,0\n");
    let refused = |op: u32, ptr: u32, words: &[u32]| {
        let answer = lowered(table.words(), op, ptr, &known(words), 99);
        answer.expect_err("a refusal")
    };
    assert_eq!(refused(65, 8, &[]), 1);
    assert_eq!(refused(65, u32::MAX, &[0]), 1);
    for op in [0, 64, 68, 69, 71, 65 + 256] {
        assert_eq!(refused(op, 4, &[0]), 1);
    }
    assert_eq!(refused(65, 4, &[0; 256]), 2);
    assert_eq!(refused(65, 8, &[0; 256]), 1);
    assert_eq!(refused(65, 5, &[]), 4);
    assert_eq!(refused(65, 3, &[0]), 18);
    assert_eq!(refused(65, 6, &[0]), 19);
    assert_eq!(refused(65, 7, &[0]), 19);
    assert_eq!(number(table.lower_chain(Op::AccessChain, 4, &[Unknown(0)])), 20);
    assert_eq!(refused(65, 4, &[2]), 21);
    assert_eq!(refused(65, 4, &[u32::MAX]), 21);
    assert_eq!(refused(65, 4, &[1]), 22);
    let table = types("F,32\nS,0,2,0,0\nD,0,35,0\nD,1,35,8\nS,0,1,1\nD,0,35,2147483644\nP,7,2\n");
    assert_eq!(lowered(table.words(), 65, 3, &known(&[0, 1]), 99), Err(23));
    assert_eq!(number(table.lower_chain(Op::AccessChain, 3, &[Known(0), Known(1)])), 23);
}

#[test]
fn refusals_have_words() {
    assert_eq!(Refusal::SHORT_LIST.to_string(), "short list (24)");
    let refused = Table::read(EXAMPLE).unwrap().lower_chain(Op::AccessChain, 4, &[]).unwrap_err();
    assert_eq!((refused.number(), refused.word()), (18, "no pointer"));
    let as_error: &dyn std::error::Error = &refused;
    assert_eq!(as_error.to_string(), "no pointer (18)");
}

#[test]
fn bytes_that_are_no_indices() {
    let table = Table::read(EXAMPLE).unwrap();
    let good = known(&[0, 2, 1]);
    for len in 0..=good.len() {
        let whole = len % INDEX_BYTES == 0;
        assert_eq!(lowered(table.words(), 65, 5, &good[..len], 99).err(), (!whole).then_some(1), "{len} bytes");
    }
    for bytes in [[0, 0, 0, 0, 2, 0, 0, 0], [0, 0, 0, 0, 0, 1, 0, 0], [0, 0, 0, 0, 1, 0, 0, 1], [0, 0, 0, 0, 255, 255, 255, 255]] {
        assert_eq!(lowered(table.words(), 65, 5, &bytes, 99), Err(1));
        assert_eq!(lowered(table.words(), 65, 5, &[&known(&[0; 256]), &bytes[..]].concat(), 99), Err(1));
    }
}

#[test]
fn tables_of_every_length() {
    let table = Table::read(EXAMPLE).unwrap();
    let good = lowered(table.words(), 65, 5, &known(&[0, 2, 1]), 99);
    assert_eq!(good.as_ref().map(|b| b.len()), Ok(2 * STEP_BYTES));
    assert_eq!(lowered(&[table.words(), &[7; 5]].concat(), 65, 5, &known(&[0, 2, 1]), 99), good);
    assert_eq!(lowered(&[], 65, 5, &known(&[0, 2, 1]), 99), Err(1));
    // Type 5, the pointer, is the last that the chain reads of the types; type 4, the block, the last of the layouts.
    let (pointer, block) = (7 + 6 * 6, 4615 + 10 * 5);
    for len in 0..table.words().len() {
        let answer = lowered(&table.words()[..len], 65, 5, &known(&[0, 2, 1]), 99);
        if len < pointer {
            assert_eq!(answer, Err(1), "{len} words");
        }
        if len >= block {
            assert_eq!(answer, good, "{len} words");
        }
    }
}
