//! A small generator of calls: takes of a few sizes and frees, plain and by name, some
//! of them refused.

use hoard::{BlockId, Command, State, ORDER_PLACES};

/// What to choose from.
pub struct Choices {
    pub sizes: &'static [u16],
    /// Names below this.
    pub names: u64,
    /// One call in eight has any processor, 0 and P + 1 too.
    pub any_processor: bool,
    /// What is added to a live block's address.
    pub offsets: [u32; 8],
}

pub struct Calls {
    pub seed: u64,
    pub choices: Choices,
}

impl Calls {
    pub fn below(&mut self, bound: u64) -> u64 {
        self.seed = self.seed.wrapping_mul(6364136223846793005).wrapping_add(1);
        (self.seed >> 33) % bound
    }

    /// A take, in so many calls of ten, or a free.
    pub fn next(&mut self, takes: u64, state: &State) -> Command {
        let processor = self.processor(u64::from(state.control.setup.processors));
        let name = self.below(self.choices.names) as u16;
        let size = self.choices.sizes[self.below(self.choices.sizes.len() as u64) as usize];
        let address = self.address(state);
        match (self.below(10) < takes, self.below(3)) {
            (true, 0) => Command::Take { processor, size },
            (true, _) => Command::NamedTake {
                processor,
                name,
                size,
            },
            (false, 0) => Command::NamedFree { processor, name },
            (false, _) => Command::Free { processor, address },
        }
    }

    fn processor(&mut self, processors: u64) -> u8 {
        let any = self.choices.any_processor && self.below(8) == 7;
        let number = if any {
            self.below(processors + 2)
        } else {
            1 + self.below(processors)
        };
        number as u8
    }

    /// The address of any live block, if there is one, or one beside it.
    fn address(&mut self, state: &State) -> u32 {
        let superblocks = usize::from(state.control.setup.superblocks);
        let blocks = (0..superblocks).flat_map(|superblock| {
            let block = move |block| BlockId { superblock, block };
            (0..ORDER_PLACES as u32).map(block)
        });
        let live = |it: &BlockId| state.superblocks[it.superblock].is_live(it.block);
        let live: Vec<BlockId> = blocks.filter(live).collect();
        let off = self.choices.offsets[self.below(8) as usize];
        match live.len() as u64 {
            0 => off,
            count => state.address_of(live[self.below(count) as usize]) + off,
        }
    }
}
