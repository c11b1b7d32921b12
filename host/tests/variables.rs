//! Local variables, through the archive: of a fixed size or not, refusals, short lists.
mod common;
use common::*;
use qptr::{calls, MemLayout, Table};

fn variable(table: &[u32], ptr: u32, room: usize) -> Result<Vec<u32>, u32> {
    full(room, WORDS, &|out| calls::local_variable(table, ptr, out))
}

#[test]
fn variables_of_a_fixed_size() {
    let lights = Table::read(LIGHTS).unwrap();
    assert_eq!(lights.local_variable(8), Ok(Some(MemLayout { align: 4, legacy_align: 16, size: 32 })));
    assert_eq!(variable(lights.words(), 8, 5), Ok(vec![32, 4, 16]));
}

/// A runtime array, a block, an opaque handle: no words, for which no room is needed.
#[test]
fn other_variables() {
    let table = types("F,32\nR,0,-\nS,1,1,0\nO\nS,0,2,0,1\nP,7,1\nP,7,2\nP,7,3\nP,7,4\n");
    for ptr in 5..9 {
        assert_eq!(table.local_variable(ptr), Ok(None));
        assert_eq!(variable(table.words(), ptr, 0), Ok(vec![]));
    }
}

#[test]
fn three_words_are_needed() {
    let lights = Table::read(LIGHTS).unwrap();
    for room in 0..3 {
        assert_eq!(variable(lights.words(), 8, room), Err(24));
    }
    assert_eq!(variable(lights.words(), 8, 3), Ok(vec![32, 4, 16]));
}

#[test]
fn variables_are_refused() {
    let table = types("F,32\nF,4\nP,7,1\nA,0,4,0\nP,7,3\n");
    for (ptr, refusal) in [(0, 18), (1, 18), (2, 5), (4, 8), (5, 1), (u32::MAX, 1)] {
        assert_eq!(variable(table.words(), ptr, 9), Err(refusal));
        assert_eq!(variable(table.words(), ptr, 0), Err(refusal));
        assert_eq!(number(table.local_variable(ptr)), refusal);
    }
}

#[test]
fn tables_of_every_length() {
    let table = Table::read(LIGHTS).unwrap();
    assert_eq!(variable(&[table.words(), &[7; 5]].concat(), 8, 3), Ok(vec![32, 4, 16]));
    // The layouts are read up to the struct's, type 3.
    let end = 4615 + 10 * 4;
    for len in 0..table.words().len() {
        assert_eq!(variable(&table.words()[..len], 8, 3), if len < end { Err(1) } else { Ok(vec![32, 4, 16]) }, "{len} words");
    }
}
