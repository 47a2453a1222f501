//! Setup, superblocks and the state handed from call to call, names and totals
//! included.

use crate::names::{BlockId, Names};
use crate::size_class::{SizeClass, SIZE_CLASSES, SUPERBLOCK_BYTES};
use crate::totals::Totals;

/// Superblocks that a state carries, used or not.
pub const SUPERBLOCKS: usize = 64;
/// Order places of each superblock.
pub const ORDER_PLACES: usize = 256;
/// Owner of an unused superblock.
pub const UNUSED_OWNER: u8 = 255;
/// Owner of the superblocks of a run, which hold a long block.
pub const RUN_OWNER: u8 = 254;
/// Owner number of the global heap.
pub const GLOBAL_HEAP: u8 = 0;

/// The five numbers of a setup.
#[derive(Clone, Copy, Debug, Default, PartialEq, Eq)]
pub struct Setup {
    /// Processors (P), each with a heap.
    pub processors: u8,
    /// Superblocks in use (N).
    pub superblocks: u8,
    /// Spare superblocks a heap may keep free for each class (K).
    pub spare: u8,
    /// Empty fraction p/q: p.
    pub p: u8,
    /// Empty fraction p/q: q.
    pub q: u8,
}

impl Setup {
    /// Setup from its numbers in record order: P, N, K, p, q.
    pub fn from_numbers(numbers: [u8; 5]) -> Setup {
        let [processors, superblocks, spare, p, q] = numbers;
        Setup {
            processors,
            superblocks,
            spare,
            p,
            q,
        }
    }

    /// The numbers in record order.
    pub fn numbers(&self) -> [u8; 5] {
        [
            self.processors,
            self.superblocks,
            self.spare,
            self.p,
            self.q,
        ]
    }

    /// Order places that the superblocks of this setup need.
    pub fn order_places(&self) -> usize {
        usize::from(self.superblocks) * ORDER_PLACES
    }
}

/// One superblock: its owner, size class, live marks, one bit a block, rank and, if a
/// run begins with it, how long that is.
#[derive(Clone, Copy, Debug, PartialEq, Eq)]
pub struct Superblock {
    pub owner: u8,
    pub class: u8,
    pub live: [u64; 4],
    /// Place among the superblocks freed into since they were last renewed, 1 for
    /// the latest; 0 for the others.
    pub rank: u8,
    /// Superblocks of the run that begins here; 0 for every other superblock.
    pub run_length: u8,
}

impl Superblock {
    /// A superblock of no heap and no run.
    pub const UNUSED: Superblock = Superblock {
        owner: UNUSED_OWNER,
        class: 0,
        live: [0; 4],
        rank: 0,
        run_length: 0,
    };

    /// A superblock of a run, but not its first: "class field 0, no marks and no rank".
    pub const IN_RUN: Superblock = Superblock {
        owner: RUN_OWNER,
        ..Superblock::UNUSED
    };

    /// The first superblock of a run.
    pub fn first_of_run(length: u8) -> Superblock {
        Superblock {
            run_length: length,
            ..Superblock::IN_RUN
        }
    }

    /// Whether a run begins here; the superblock must have passed its check.
    pub fn begins_run(&self) -> bool {
        self.run_length > 0
    }

    /// Marks of the blocks that a name may hold: the live ones and, where a run begins,
    /// block 0, which stands for the long block.
    pub(crate) fn blocks_to_name(&self) -> [u64; 4] {
        match self.begins_run() {
            true => [1, 0, 0, 0],
            false => self.live,
        }
    }

    /// Number of live blocks, by the marks: 0 for a superblock of a run.
    pub fn live_count(&self) -> u32 {
        self.live.iter().map(|marks| marks.count_ones()).sum()
    }

    /// Whether `block` (0 to 255) is marked live.
    pub fn is_live(&self, block: u32) -> bool {
        self.live[block as usize / 64] >> (block % 64) & 1 == 1
    }

    /// Marks `block` (0 to 255) live.
    pub fn mark(&mut self, block: u32) {
        self.live[block as usize / 64] |= 1 << (block % 64);
    }

    /// Clears the live mark of `block` (0 to 255).
    pub fn unmark(&mut self, block: u32) {
        self.live[block as usize / 64] &= !(1 << (block % 64));
    }

    /// The size class; the class number must be below 27.
    pub fn size_class(&self) -> SizeClass {
        SIZE_CLASSES[usize::from(self.class)]
    }

    /// How late it was freed into: higher is later, 0 is not since it was renewed.
    pub fn recency(&self) -> u8 {
        self.rank.wrapping_neg()
    }

    /// Blocks that are not live; the superblock must have passed its check.
    pub fn free_count(&self) -> u32 {
        self.size_class().blocks - self.live_count()
    }
}

/// What goes from call to call beside the superblocks.
#[derive(Clone, Debug, PartialEq, Eq)]
pub struct Control {
    pub setup: Setup,
    pub names: Names,
    pub totals: Totals,
}

impl Control {
    /// A setup with no name held and totals of 0.
    pub fn new(setup: Setup) -> Control {
        Control {
            setup,
            names: Names::NONE,
            totals: Totals::NONE,
        }
    }
}

/// What a call is handed and hands back: setup, names, totals and 64 superblocks.
#[derive(Clone, Debug, PartialEq, Eq)]
pub struct State {
    pub control: Control,
    pub superblocks: [Superblock; SUPERBLOCKS],
}

impl State {
    /// A state with every superblock unused, no name held and totals of 0.
    pub fn new(setup: Setup) -> State {
        State {
            control: Control::new(setup),
            superblocks: [Superblock::UNUSED; SUPERBLOCKS],
        }
    }

    /// The superblocks of the setup, 0 to N - 1; N must be within its limit.
    pub(crate) fn of_setup(&self) -> &[Superblock] {
        &self.superblocks[..usize::from(self.control.setup.superblocks)]
    }

    /// The address of a block; its superblock must be one of the 64, of a known class.
    pub fn address_of(&self, block: BlockId) -> u32 {
        let class = self.superblocks[block.superblock].size_class();
        block.superblock as u32 * SUPERBLOCK_BYTES + block.block * class.block_size
    }
}
