//! Blocks called by name.

use crate::state::{Superblock, ORDER_PLACES, SUPERBLOCKS};

/// Names that a state may hold: 0 to 1023.
pub const NAMES: usize = 1024;
/// Number that stands for no block: the name is not held.
pub const NOT_HELD: u16 = u16::MAX;
/// Names that are passed over together where none is held.
pub(crate) const NAMES_AT_ONCE: usize = 16;

/// A block, by its superblock and its number there.
#[derive(Clone, Copy, Debug, PartialEq, Eq)]
pub struct BlockId {
    pub superblock: usize,
    pub block: u32,
}

impl BlockId {
    /// The block that a held name's number stands for.
    pub fn from_number(number: u16) -> BlockId {
        BlockId {
            superblock: usize::from(number) / ORDER_PLACES,
            block: u32::from(number) % ORDER_PLACES as u32,
        }
    }

    /// The number of a name that holds this block: superblock x 256 + block.
    pub fn number(self) -> u16 {
        (self.superblock * ORDER_PLACES) as u16 + self.block as u16
    }
}

/// The number of each name's block.
#[derive(Clone, Debug, PartialEq, Eq)]
pub struct Names(pub [u16; NAMES]);

impl Names {
    /// No name held.
    pub const NONE: Names = Names([NOT_HELD; NAMES]);

    /// Whether a take may bind the name: it is below 1024 and not held.
    pub fn is_available(&self, name: u16) -> bool {
        self.0.get(usize::from(name)) == Some(&NOT_HELD)
    }

    /// The block that a name holds; names above 1023 hold none.
    pub fn block_of(&self, name: u16) -> Option<BlockId> {
        let number = *self.0.get(usize::from(name))?;
        (number != NOT_HELD).then(|| BlockId::from_number(number))
    }

    /// The held names and their blocks, names rising.
    pub fn held(&self) -> impl Iterator<Item = (u16, BlockId)> + '_ {
        (0..NAMES as u16).filter_map(|name| Some((name, self.block_of(name)?)))
    }

    /// Makes an available name hold a block.
    pub fn bind(&mut self, name: u16, block: BlockId) {
        self.0[usize::from(name)] = block.number();
    }

    /// Lets the name of a block go, if it has one.
    pub fn release(&mut self, block: BlockId) {
        let freed = block.number();
        // Without an early end the compiler compares many names at once.
        for number in &mut self.0 {
            if *number == freed {
                *number = NOT_HELD;
            }
        }
    }

    /// Lets the names go of blocks that are live no more, in one pass for all of them.
    pub(crate) fn release_freed(&mut self, superblocks: &[Superblock; SUPERBLOCKS]) {
        let live = superblocks.map(|superblock| superblock.blocks_to_name());
        let words = live.as_flattened();
        let groups = self.0.chunks_exact_mut(NAMES_AT_ONCE);
        let numbers = groups.filter(|group| any_held(group)).flatten();
        for number in numbers.filter(|number| **number != NOT_HELD) {
            if words[usize::from(*number / 64)] >> (*number % 64) & 1 == 0 {
                *number = NOT_HELD;
            }
        }
    }
}

/// Whether any of a few names is held. There is no early end, so that the compiler
/// compares them at once.
pub(crate) fn any_held(group: &[u16]) -> bool {
    group
        .iter()
        .fold(false, |held, &number| held | (number != NOT_HELD))
}
