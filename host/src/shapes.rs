//! Layouts of types, as shapes.rs and layout.rs have them, and the words that hold one.
use std::num::NonZeroU32;

#[derive(Clone, Copy, Debug, PartialEq, Eq, Hash)]
pub struct MemLayout {
    pub align: u32,
    pub legacy_align: u32,
    pub size: u32,
}

#[derive(Clone, Copy, Debug, PartialEq, Eq, Hash)]
pub struct MaybeDynMemLayout {
    pub fixed_base: MemLayout,
    pub dyn_unit_stride: Option<NonZeroU32>,
}

/// A struct without members is as a scalar.
#[derive(Clone, Debug, PartialEq, Eq, Hash)]
pub enum Components {
    Scalar,
    Elements { stride: NonZeroU32 },
    Fields { offsets: Vec<u32> },
}

#[derive(Clone, Debug, PartialEq, Eq, Hash)]
pub struct MemTypeLayout {
    pub mem_layout: MaybeDynMemLayout,
    pub components: Components,
}

#[derive(Clone, Debug, PartialEq, Eq, Hash)]
pub enum Handle {
    Opaque,
    Buffer(MemTypeLayout),
}

#[derive(Clone, Debug, PartialEq, Eq, Hash)]
pub enum TypeLayout {
    Handle(Handle),
    HandleArray(Handle, Option<NonZeroU32>),
    Concrete(MemTypeLayout),
}

/// How many words stand before the offsets of the fields.
pub(crate) const HEAD: usize = 7;

impl TypeLayout {
    /// Of a form (1 memory, 2 buffer, 3 opaque, 4 and 5 arrays of these), a length, size, both alignments, runtime stride, stride; then offsets.
    pub(crate) fn of(words: &[u32]) -> TypeLayout {
        let (head, offsets) = words.split_at(HEAD);
        let len = NonZeroU32::new(head[1]);
        let memory = || MemTypeLayout {
            mem_layout: MaybeDynMemLayout {
                fixed_base: MemLayout { size: head[2], align: head[3], legacy_align: head[4] },
                dyn_unit_stride: NonZeroU32::new(head[5]),
            },
            components: match NonZeroU32::new(head[6]) {
                Some(stride) => Components::Elements { stride },
                None if offsets.is_empty() => Components::Scalar,
                None => Components::Fields { offsets: offsets.to_vec() },
            },
        };
        match head[0] {
            1 => TypeLayout::Concrete(memory()),
            2 => TypeLayout::Handle(Handle::Buffer(memory())),
            3 => TypeLayout::Handle(Handle::Opaque),
            4 => TypeLayout::HandleArray(Handle::Buffer(memory()), len),
            _ => TypeLayout::HandleArray(Handle::Opaque, len),
        }
    }
}
