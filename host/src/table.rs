//! The table of a sheet, and the questions that it answers.
use crate::shapes::HEAD;
use crate::{calls, Index, MemLayout, Op, QPtrChainStep, Refusal, Step, TypeLayout, MOST_MEMBERS, MOST_STEPS, TABLE_WORDS};
use std::ops::Range;

/// The types of a sheet, read and laid out.
#[derive(Clone, Debug)]
pub struct Table {
    words: Vec<u32>,
}

/// A buffer's runtime array: where it begins, and its stride (QPtrOp).
#[derive(Clone, Copy, Debug, PartialEq, Eq, Hash)]
pub struct BufferDynLen {
    pub fixed_base_size: u32,
    pub dyn_unit_stride: u32,
}

impl Table {
    /// Reads a sheet: its types are laid out once, for all questions.
    pub fn read(sheet: &[u8]) -> Result<Table, Refusal> {
        let mut words = vec![0; TABLE_WORDS];
        calls::read_sheet(sheet, &mut words)?;
        Ok(Table { words })
    }

    /// How many types there are.
    pub fn types(&self) -> u32 {
        self.words[0]
    }

    /// Its words, for [`calls`].
    pub fn words(&self) -> &[u32] {
        &self.words
    }

    /// The steps of a chain from a pointer's type.
    pub fn lower_chain(&self, op: Op, ptr: u32, indices: &[Index]) -> Result<Vec<Step>, Refusal> {
        let indices: Vec<u8> = indices.iter().flat_map(|i| i.bytes()).collect();
        let mut steps = [QPtrChainStep::default(); MOST_STEPS];
        let count = calls::lower_chain_steps(&self.words, op as u32, ptr, &indices, &mut steps)?;
        Ok(steps[..count].iter().copied().map(Step::from).collect())
    }

    /// The layout of a type.
    pub fn type_layout(&self, ty: u32) -> Result<TypeLayout, Refusal> {
        let mut out = [0; HEAD + MOST_MEMBERS];
        let count = calls::type_layout(&self.words, ty, &mut out)?;
        Ok(TypeLayout::of(&out[..count]))
    }

    /// The components of a type that hold a range of its bytes, rising.
    pub fn find_components(&self, ty: u32, range: Range<u32>) -> Result<Vec<u32>, Refusal> {
        let mut out = [0; MOST_MEMBERS];
        let count = calls::find_components(&self.words, ty, range.start, range.end, &mut out)?;
        Ok(out[..count].to_vec())
    }

    /// The runtime array that a member of a pointer's block is.
    pub fn array_length(&self, ptr: u32, member: u32) -> Result<BufferDynLen, Refusal> {
        let mut out = [0; 2];
        calls::array_length(&self.words, ptr, member, &mut out)?;
        Ok(BufferDynLen { fixed_base_size: out[0], dyn_unit_stride: out[1] })
    }

    /// The layout of a local variable, by its pointer's type; none where it isn't memory of a fixed size.
    pub fn local_variable(&self, ptr: u32) -> Result<Option<MemLayout>, Refusal> {
        let mut out = [0; 3];
        let count = calls::local_variable(&self.words, ptr, &mut out)?;
        Ok((count == 3).then(|| MemLayout { size: out[0], align: out[1], legacy_align: out[2] }))
    }
}
