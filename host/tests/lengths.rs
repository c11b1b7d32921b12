//! Runtime arrays at the end of a buffer, through the archive: found, refused, short lists.
mod common;
use common::*;
use qptr::{calls, BufferDynLen, Table};

fn length(table: &[u32], ptr: u32, member: u32, room: usize) -> Result<Vec<u32>, u32> {
    full(room, WORDS, &|out| calls::array_length(table, ptr, member, out))
}

#[test]
fn lengths_are_found() {
    let lights = Table::read(LIGHTS).unwrap();
    assert_eq!(lights.array_length(6, 1), Ok(BufferDynLen { fixed_base_size: 16, dyn_unit_stride: 32 }));
    assert_eq!(length(lights.words(), 6, 1, 5), Ok(vec![16, 32]));
    let example = Table::read(EXAMPLE).unwrap();
    assert_eq!(example.array_length(5, 0), Ok(BufferDynLen { fixed_base_size: 0, dyn_unit_stride: 16 }));
}

#[test]
fn two_words_are_needed() {
    let lights = Table::read(LIGHTS).unwrap();
    assert_eq!(length(lights.words(), 6, 1, 0), Err(24));
    assert_eq!(length(lights.words(), 6, 1, 1), Err(24));
    assert_eq!(length(lights.words(), 6, 1, 2), Ok(vec![16, 32]));
}

#[test]
fn lengths_are_refused() {
    let table = types("F,32\nR,0,-\nS,1,2,0,1\nP,12,2\nP,12,1\nU\nP,12,5\nS,1,2,1,0\nD,0,35,4\nD,1,35,0\nP,12,7\nS,1,2,1,0\nD,0,35,0\nD,1,35,4\nP,12,9\n");
    let refused = |ptr: u32, member: u32| {
        assert_eq!(length(table.words(), ptr, member, 0), length(table.words(), ptr, member, 9));
        number(table.array_length(ptr, member))
    };
    assert_eq!(refused(11, 0), 1);
    assert_eq!(refused(u32::MAX, 0), 1);
    assert_eq!(refused(2, 1), 18);
    assert_eq!(refused(6, 0), 4);
    assert_eq!(refused(4, 0), 25);
    assert_eq!(refused(3, 2), 21);
    assert_eq!(refused(3, u32::MAX), 21);
    assert_eq!(refused(3, 0), 26);
    assert_eq!(refused(10, 0), 27);
    // Its offset is the block's size, though it is not the last member.
    assert_eq!(table.array_length(8, 0), Ok(BufferDynLen { fixed_base_size: 4, dyn_unit_stride: 4 }));
}

#[test]
fn tables_of_every_length() {
    let table = Table::read(LIGHTS).unwrap();
    let find = |words: &[u32]| length(words, 6, 1, 2);
    assert_eq!(find(&[table.words(), &[7; 5]].concat()), Ok(vec![16, 32]));
    // The layouts are read up to the block's, type 5.
    let end = 4615 + 10 * 6;
    for len in 0..table.words().len() {
        assert_eq!(find(&table.words()[..len]), if len < end { Err(1) } else { Ok(vec![16, 32]) }, "{len} words");
    }
}
