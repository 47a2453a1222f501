//! Totals of each heap and class, kept from call to call.

use crate::size_class::SIZE_CLASSES;
use crate::state::{Superblock, SUPERBLOCKS};

/// Heaps that totals are kept of: the global heap and those of eight processors.
pub const HEAPS: usize = 9;
/// Classes that totals are kept of.
pub const CLASSES: usize = SIZE_CLASSES.len();

/// The totals of every heap and class, by heap, then class. In a state that has
/// passed they are at most 64 superblocks and 64 x 256 live blocks; handed in they
/// may be any numbers.
#[derive(Clone, Debug, PartialEq, Eq)]
pub struct Totals {
    /// Superblocks owned.
    pub superblocks: [[u8; CLASSES]; HEAPS],
    /// Live blocks in them.
    pub live: [[u16; CLASSES]; HEAPS],
}

/// Superblocks and live blocks of one heap and class.
#[derive(Clone, Copy, Debug, Default, PartialEq, Eq)]
pub struct Usage {
    pub superblocks: u32,
    /// Live blocks (u).
    pub live: u32,
}

impl Totals {
    /// The totals where no heap owns a superblock.
    pub const NONE: Totals = Totals {
        superblocks: [[0; CLASSES]; HEAPS],
        live: [[0; CLASSES]; HEAPS],
    };

    /// The totals of superblocks counted anew, for those who build states. A
    /// superblock of no heap or of an unknown class counts nowhere.
    pub fn recount(superblocks: &[Superblock; SUPERBLOCKS]) -> Totals {
        let mut totals = Totals::NONE;
        for superblock in superblocks {
            let Superblock { owner, class, .. } = *superblock;
            if usize::from(owner) < HEAPS && usize::from(class) < CLASSES {
                totals.add(owner, class, superblock.live_count());
            }
        }
        totals
    }

    /// Superblocks and live blocks of a heap and class.
    pub fn usage(&self, heap: u8, class: u8) -> Usage {
        let (heap, class) = (usize::from(heap), usize::from(class));
        Usage {
            superblocks: self.superblocks[heap][class].into(),
            live: self.live[heap][class].into(),
        }
    }

    /// Counts in a superblock of a heap and class with so many live blocks.
    pub(crate) fn add(&mut self, heap: u8, class: u8, live: u32) {
        let (heap, class) = (usize::from(heap), usize::from(class));
        self.superblocks[heap][class] += 1;
        self.live[heap][class] += live as u16;
    }

    /// Counts such a superblock out.
    pub(crate) fn remove(&mut self, heap: u8, class: u8, live: u32) {
        let (heap, class) = (usize::from(heap), usize::from(class));
        self.superblocks[heap][class] -= 1;
        self.live[heap][class] -= live as u16;
    }

    /// Counts in a block of a heap and class that is live now.
    pub(crate) fn add_live(&mut self, heap: u8, class: u8) {
        self.live[usize::from(heap)][usize::from(class)] += 1;
    }

    /// Counts out a block that is live no more.
    pub(crate) fn remove_live(&mut self, heap: u8, class: u8) {
        self.live[usize::from(heap)][usize::from(class)] -= 1;
    }
}
