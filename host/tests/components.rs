//! Components that hold a range of bytes, through the archive: found, none, refused, short lists.
mod common;
use common::*;
use qptr::{calls, Table, MOST_MEMBERS};

fn found(table: &[u32], ty: u32, start: u32, end: u32, room: usize) -> Result<Vec<u32>, u32> {
    full(room, WORDS, &|out| calls::find_components(table, ty, start, end, out))
}

#[test]
fn components_are_found() {
    let example = Table::read(EXAMPLE).unwrap();
    assert_eq!(example.find_components(2, 12..16), Ok(vec![1]));
    assert_eq!(example.find_components(2, 0..12), Ok(vec![0]));
    assert_eq!(example.find_components(2, 12..12), Ok(vec![0, 1]));
    assert_eq!(example.find_components(2, 8..16), Ok(vec![]));
    assert_eq!(example.find_components(0, 0..4), Ok(vec![]));
    let lights = Table::read(LIGHTS).unwrap();
    assert_eq!(lights.find_components(3, 16..28), Ok(vec![2]));
    assert_eq!(lights.find_components(4, 64..96), Ok(vec![2]));
    assert_eq!(lights.find_components(4, u32::MAX - 63..u32::MAX - 31), Ok(vec![134_217_726]));
}

/// Document 01's edge table: an array of 4 F32, at its end and past it.
#[test]
fn the_end_of_an_array() {
    let table = types("F,32\nA,0,4,-\n");
    assert_eq!(table.find_components(1, 16..16), Ok(vec![4]));
    assert_eq!(table.find_components(1, 16..17), Ok(vec![]));
    assert_eq!(table.find_components(1, 20..20), Ok(vec![]));
    assert_eq!(table.find_components(1, 12..16), Ok(vec![3]));
}

/// 1,024 fields, all at byte 0, hold an empty range.
fn overlapping(members: usize) -> Table {
    let decorations: String = (0..members).map(|m| format!("D,{m},35,0\n")).collect();
    types(&format!("F,32\nS,0,{members}{}\n{decorations}", ",0".repeat(members)))
}

#[test]
fn as_many_as_there_can_be() {
    let table = overlapping(MOST_MEMBERS);
    let all: Vec<u32> = (0..MOST_MEMBERS as u32).collect();
    assert_eq!(table.find_components(1, 0..4).as_ref(), Ok(&all));
    assert_eq!(found(table.words(), 1, 2, 3, MOST_MEMBERS + 1), Ok(all));
    assert_eq!(found(table.words(), 1, 4, 5, 9), Ok(vec![]));
}

#[test]
fn what_is_found_does_not_fit() {
    let table = overlapping(3);
    for room in 0..3 {
        assert_eq!(found(table.words(), 1, 0, 0, room), Err(24));
    }
    assert_eq!(found(table.words(), 1, 0, 0, 3), Ok(vec![0, 1, 2]));
    assert_eq!(found(table.words(), 0, 0, 0, 0), Ok(vec![]));
}

#[test]
fn lookups_are_refused() {
    let table = types("F,32\nF,4\nO\nS,1,1,0\nA,2,3,-\nR,3,-\n");
    assert_eq!(number(table.find_components(6, 0..4)), 1);
    assert_eq!(found(table.words(), u32::MAX, 4, 0, 9), Err(1));
    assert_eq!(found(table.words(), 0, 4, 3, 9), Err(28));
    assert_eq!(found(table.words(), 1, 4, 3, 9), Err(28));
    assert_eq!(found(table.words(), 1, 3, 4, 9), Err(5));
    for handle in 2..6 {
        assert_eq!(found(table.words(), handle, 0, 0, 9), Err(19));
    }
}

#[test]
fn tables_of_every_length() {
    let table = Table::read(EXAMPLE).unwrap();
    let find = |words: &[u32]| found(words, 2, 12, 16, 9);
    assert_eq!(find(&[table.words(), &[7; 5]].concat()), Ok(vec![1]));
    // The layouts are read up to the struct's, type 2.
    let end = 4615 + 10 * 3;
    for len in 0..table.words().len() {
        assert_eq!(find(&table.words()[..len]), if len < end { Err(1) } else { Ok(vec![1]) }, "{len} words");
    }
}
