//! Indices and steps of a chain, and the records and bytes that hold them.
use crate::{INDEX_BYTES, STEP_BYTES};
use std::num::NonZeroU32;

/// The four chain instructions, by their opcodes.
#[derive(Clone, Copy, Debug, PartialEq, Eq, Hash)]
pub enum Op {
    AccessChain = 65,
    InBoundsAccessChain = 66,
    PtrAccessChain = 67,
    InBoundsPtrAccessChain = 70,
}

/// An index: a known 32-bit word, or the number of an unknown.
#[derive(Clone, Copy, Debug, PartialEq, Eq, Hash)]
pub enum Index {
    Known(u32),
    Unknown(u32),
}

impl Index {
    fn of(mark: u32, word: u32) -> Index {
        if mark == 0 { Index::Known(word) } else { Index::Unknown(word) }
    }

    pub(crate) fn bytes(self) -> [u8; INDEX_BYTES] {
        let (word, mark) = match self {
            Index::Known(word) => (word, 0u64),
            Index::Unknown(number) => (number, 1),
        };
        (mark << 32 | u64::from(word)).to_le_bytes()
    }
}

/// A step of a plain pointer (QPtrOp).
#[derive(Clone, Copy, Debug, PartialEq, Eq, Hash)]
pub enum Step {
    HandleArrayIndex(Index),
    BufferData,
    Offset(i32),
    DynOffset { stride: u32, bound: Option<NonZeroU32>, index: Index },
}

/// A step as a record, as the C functions write it. Op 1 is H, 2 B, 3 O, 4 D; an index of kind 0 is known; what a step does not have is 0.
#[repr(C)]
#[derive(Clone, Copy, Debug, Default, PartialEq, Eq, Hash)]
pub struct QPtrChainStep {
    pub op: u32,
    pub bytes: i32,
    pub stride: u32,
    pub length: u32,
    pub index_kind: u32,
    pub index: u32,
}

impl From<QPtrChainStep> for Step {
    fn from(step: QPtrChainStep) -> Step {
        let index = Index::of(step.index_kind, step.index);
        match step.op {
            1 => Step::HandleArrayIndex(index),
            3 => Step::Offset(step.bytes),
            4 => Step::DynOffset { stride: step.stride, bound: NonZeroU32::new(step.length), index },
            _ => Step::BufferData,
        }
    }
}

impl Step {
    /// The step that its 20 bytes hold.
    pub fn from_bytes(bytes: &[u8; STEP_BYTES]) -> Step {
        let word = |i: usize| u32::from_le_bytes(std::array::from_fn(|k| bytes[4 * i + k]));
        match word(0) {
            1 => Step::HandleArrayIndex(Index::of(word(3), word(4))),
            3 => Step::Offset(word(1) as i32),
            4 => Step::DynOffset { stride: word(1), bound: NonZeroU32::new(word(2)), index: Index::of(word(3), word(4)) },
            _ => Step::BufferData,
        }
    }
}
