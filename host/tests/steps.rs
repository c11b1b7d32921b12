//! Chains as records, through the archive: a slice of structs between guards, steps of each kind, refusals, short slices.
mod common;
use common::*;
use qptr::{calls, Index, QPtrChainStep, Table, MOST_STEPS};
use Index::{Known, Unknown};

const FILLS: [QPtrChainStep; 2] = [filled(WORDS[0]), filled(WORDS[1])];
const NONE: QPtrChainStep = filled(0);

const fn filled(word: u32) -> QPtrChainStep {
    QPtrChainStep { op: word, bytes: word as i32, stride: word, length: word, index_kind: word, index: word }
}

/// The bytes of indices.
fn bytes(indices: &[Index]) -> Vec<u8> {
    let words = |index: &Index| match *index {
        Known(word) => [word, 0],
        Unknown(number) => [number, 1],
    };
    indices.iter().flat_map(words).flat_map(u32::to_le_bytes).collect()
}

fn lowered(table: &Table, op: u32, ptr: u32, indices: &[u8], room: usize) -> Result<Vec<QPtrChainStep>, u32> {
    full(room, FILLS, &|steps| calls::lower_chain_steps(table.words(), op, ptr, indices, steps))
}

#[test]
fn a_record_has_24_bytes() {
    assert_eq!((size_of::<QPtrChainStep>(), align_of::<QPtrChainStep>()), (24, 4));
}

#[test]
fn document_01s_chain() {
    let table = Table::read(EXAMPLE).unwrap();
    let chain = bytes(&[Known(0), Unknown(1), Known(1)]);
    let steps = vec![
        QPtrChainStep { op: 2, ..NONE },
        QPtrChainStep { op: 4, stride: 16, index_kind: 1, index: 1, ..NONE },
        QPtrChainStep { op: 3, bytes: 12, ..NONE },
    ];
    for room in [3, 4, MOST_STEPS] {
        assert_eq!(lowered(&table, 65, 5, &chain, room).as_ref(), Ok(&steps));
    }
    let back = bytes(&[Known(0), Known(u32::MAX), Known(1)]);
    assert_eq!(lowered(&table, 65, 5, &back, 2).unwrap()[1], QPtrChainStep { op: 3, bytes: -4, ..NONE });
    assert_eq!(lowered(&table, 65, 5, &[], 0), Ok(vec![]));
}

#[test]
fn records_of_each_kind() {
    let table = types("I,32\nA,0,4,-\nS,1,1,1\nR,2,-\nP,12,3\n");
    let steps = lowered(&table, 66, 4, &bytes(&[Unknown(9), Known(0), Known(4)]), 5).unwrap();
    assert_eq!(steps[0], QPtrChainStep { op: 1, index_kind: 1, index: 9, ..NONE });
    assert_eq!(steps[1], QPtrChainStep { op: 2, ..NONE });
    assert_eq!(steps[2], QPtrChainStep { op: 4, stride: 4, length: 4, index: 4, ..NONE });
}

#[test]
fn refusals_leave_the_records() {
    let table = Table::read(EXAMPLE).unwrap();
    let one = bytes(&[Known(0)]);
    for (op, ptr, indices, refusal) in [
        (64, 5, &one[..], 1),
        (65, 5, &one[..7], 1),
        (65, 6, &one[..], 1),
        (65, 5, &[0, 0, 0, 0, 2, 0, 0, 0], 1),
        (65, 5, &bytes(&[Known(0); 256])[..], 2),
        (65, 4, &one[..], 18),
        (65, 5, &bytes(&[Unknown(0)])[..], 20),
        (65, 5, &bytes(&[Known(1)])[..], 21),
    ] {
        assert_eq!(lowered(&table, op, ptr, indices, 300), Err(refusal));
    }
    let chain = bytes(&[Known(0), Unknown(1), Known(1)]);
    for room in 0..3 {
        assert_eq!(lowered(&table, 65, 5, &chain, room), Err(24));
    }
}
