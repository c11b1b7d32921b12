//! Layouts of types, through the archive: each form, refusals, short lists.
mod common;
use common::*;
use qptr::{calls, Components, Handle, MaybeDynMemLayout, MemLayout, MemTypeLayout, Table, TypeLayout, MOST_MEMBERS};
use std::num::NonZeroU32;

fn layout(table: &[u32], ty: u32, room: usize) -> Result<Vec<u32>, u32> {
    full(room, WORDS, &|out| calls::type_layout(table, ty, out))
}

fn memory(size: u32, align: u32, legacy_align: u32, unit: u32, components: Components) -> MemTypeLayout {
    let fixed_base = MemLayout { align, legacy_align, size };
    MemTypeLayout { mem_layout: MaybeDynMemLayout { fixed_base, dyn_unit_stride: NonZeroU32::new(unit) }, components }
}

fn elements(stride: u32) -> Components {
    Components::Elements { stride: NonZeroU32::new(stride).unwrap() }
}

fn fields(offsets: &[u32]) -> Components {
    Components::Fields { offsets: offsets.to_vec() }
}

/// The lights' types: {vec3, float, vec3, uint}, an array of it, a block over it.
#[test]
fn layouts_of_memory_and_a_buffer() {
    let table = Table::read(LIGHTS).unwrap();
    let laid = |ty| table.type_layout(ty).unwrap();
    assert_eq!(laid(1), TypeLayout::Concrete(memory(4, 4, 4, 0, Components::Scalar)));
    assert_eq!(laid(2), TypeLayout::Concrete(memory(12, 4, 16, 0, elements(4))));
    assert_eq!(laid(3), TypeLayout::Concrete(memory(32, 4, 16, 0, fields(&[0, 12, 16, 28]))));
    assert_eq!(laid(4), TypeLayout::Concrete(memory(0, 4, 16, 32, elements(32))));
    assert_eq!(laid(5), TypeLayout::Handle(Handle::Buffer(memory(16, 4, 16, 32, fields(&[0, 16])))));
    assert_eq!(layout(table.words(), 5, 99), Ok(vec![2, 0, 16, 4, 16, 32, 0, 0, 16]));
    assert_eq!(layout(table.words(), 4, 99), Ok(vec![1, 0, 0, 4, 16, 32, 32]));
}

#[test]
fn layouts_of_handles() {
    let table = types("O\nF,32\nS,1,1,1\nA,0,3,-\nR,0,-\nA,2,5,-\nR,2,-\nS,0,0\n");
    let buffer = || Handle::Buffer(memory(4, 4, 4, 0, fields(&[0])));
    let laid = |ty| table.type_layout(ty).unwrap();
    assert_eq!(laid(0), TypeLayout::Handle(Handle::Opaque));
    assert_eq!(laid(2), TypeLayout::Handle(buffer()));
    assert_eq!(laid(3), TypeLayout::HandleArray(Handle::Opaque, NonZeroU32::new(3)));
    assert_eq!(laid(4), TypeLayout::HandleArray(Handle::Opaque, None));
    assert_eq!(laid(5), TypeLayout::HandleArray(buffer(), NonZeroU32::new(5)));
    assert_eq!(laid(6), TypeLayout::HandleArray(buffer(), None));
    assert_eq!(laid(7), TypeLayout::Concrete(memory(0, 1, 1, 0, Components::Scalar)));
    assert_eq!(layout(table.words(), 3, 7), Ok(vec![5, 3, 0, 0, 0, 0, 0]));
    assert_eq!(layout(table.words(), 5, 8), Ok(vec![4, 5, 4, 4, 4, 0, 0, 0]));
}

#[test]
fn as_many_fields_as_there_can_be() {
    let table = types(&format!("F,32\nS,0,{MOST_MEMBERS}{}\n", ",0".repeat(MOST_MEMBERS)));
    let offsets: Vec<u32> = (0..MOST_MEMBERS as u32).map(|i| 4 * i).collect();
    assert_eq!(table.type_layout(1), Ok(TypeLayout::Concrete(memory(4096, 4, 4, 0, fields(&offsets)))));
    assert_eq!(layout(table.words(), 1, 7 + MOST_MEMBERS).map(|words| words.len()), Ok(7 + MOST_MEMBERS));
}

#[test]
fn layouts_do_not_fit() {
    let table = Table::read(LIGHTS).unwrap();
    for room in 0..7 {
        assert_eq!(layout(table.words(), 1, room), Err(24));
    }
    assert_eq!(layout(table.words(), 1, 7).map(|words| words.len()), Ok(7));
    for room in 0..11 {
        assert_eq!(layout(table.words(), 3, room), Err(24));
    }
    assert_eq!(layout(table.words(), 3, 11).map(|words| words.len()), Ok(11));
}

#[test]
fn layouts_are_refused() {
    let table = types("F,32\nU\nF,4\nA,0,0,-\nA,0,s,-\nA,0,4,0\nR,0,-\nA,6,2,-\nO\nS,0,1,8\nA,0,1073741824,-\n");
    for (ty, refusal) in [(1, 4), (2, 5), (3, 6), (4, 7), (5, 8), (7, 10), (9, 11), (10, 16), (11, 1), (u32::MAX, 1)] {
        assert_eq!(layout(table.words(), ty, 9), Err(refusal));
        assert_eq!(layout(table.words(), ty, 0), Err(refusal));
        assert_eq!(number(table.type_layout(ty)), refusal);
    }
}

#[test]
fn tables_of_every_length() {
    let table = Table::read(LIGHTS).unwrap();
    let good = layout(table.words(), 1, 9);
    assert_eq!(good.as_ref().map(|words| words.len()), Ok(7));
    assert_eq!(layout(&[table.words(), &[7; 5]].concat(), 1, 9), good);
    // The float is type 1.
    let end = 4615 + 10 * 2;
    for len in 0..table.words().len() {
        assert_eq!(layout(&table.words()[..len], 1, 9), if len < end { Err(1) } else { good.clone() }, "{len} words");
    }
}
