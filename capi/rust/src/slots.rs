// SPDX-License-Identifier: MIT
//! The memory of a controller's commands.
use crate::sys;

/// A slot of a controller: it holds one command from its fetch until its completion is posted. An array of them is memory
/// that the caller gives a controller, whatever lies there. Its generations are kept ([`Tag`](crate::Tag)).
#[derive(Clone, Copy)]
#[repr(transparent)]
pub struct Slot(sys::nvmearb_slot);

impl Slot {
    /// A slot to make arrays of.
    pub const EMPTY: Slot = Slot(sys::nvmearb_slot { words: [0; 11] });

    pub(crate) fn words(&self) -> &[u64] {
        &self.0.words
    }

    pub(crate) fn words_mut(&mut self) -> &mut [u64] {
        &mut self.0.words
    }
}

impl Default for Slot {
    fn default() -> Slot {
        Slot::EMPTY
    }
}

/// Memory for the slots of a controller: `[Slot; N]`, which lies in the controller and moves with it, `&mut [Slot]`, as
/// where it is static, or with the feature `alloc` `Box<[Slot]>` (`boxed_slots`). Other crates can't implement it: a
/// controller is to get the same slots each time, with what it wrote there.
pub trait Slots: sealed::Slots {}

pub(crate) mod sealed {
    use super::Slot;

    pub trait Slots {
        fn all(&self) -> &[Slot];
        fn all_mut(&mut self) -> &mut [Slot];
    }
}

impl<const N: usize> Slots for [Slot; N] {}

impl<const N: usize> sealed::Slots for [Slot; N] {
    fn all(&self) -> &[Slot] {
        self
    }

    fn all_mut(&mut self) -> &mut [Slot] {
        self
    }
}

impl Slots for &mut [Slot] {}

impl sealed::Slots for &mut [Slot] {
    fn all(&self) -> &[Slot] {
        self
    }

    fn all_mut(&mut self) -> &mut [Slot] {
        self
    }
}

#[cfg(feature = "alloc")]
impl Slots for alloc::boxed::Box<[Slot]> {}

#[cfg(feature = "alloc")]
impl sealed::Slots for alloc::boxed::Box<[Slot]> {
    fn all(&self) -> &[Slot] {
        self
    }

    fn all_mut(&mut self) -> &mut [Slot] {
        self
    }
}

/// So many slots on the heap.
#[cfg(feature = "alloc")]
pub fn boxed_slots(count: usize) -> alloc::boxed::Box<[Slot]> {
    alloc::vec![Slot::EMPTY; count].into_boxed_slice()
}
