//! A state and its order storage, built superblock by superblock.

use hoard::{
    decode, over_emptiness_threshold, run, BlockId, Command, Setup, State, Superblock, Totals,
    GLOBAL_HEAP, NAMES, ORDER_PLACES, RUN_OWNER, SIZE_CLASSES, SUPERBLOCKS, SUPERBLOCK_BYTES,
    UNUSED_OWNER,
};

use crate::call_form::CallInput;
use crate::make_record::{any_processor, size_or_zero, zero_or_beside};
use crate::naming::{name_to_bind, name_to_free};
use crate::rank_faults::rank_any;
use crate::xorshift::Xorshift;

/// A state and its order storage.
pub struct Table {
    pub state: State,
    pub order: Vec<u16>,
}

impl Table {
    /// A table with every superblock unused and the order places filled with anything.
    pub fn new(setup: Setup, random: &mut Xorshift) -> Table {
        let places = SUPERBLOCKS * ORDER_PLACES;
        Table {
            state: State::new(setup),
            order: (0..places).map(|_| random.word() as u16).collect(),
        }
    }

    /// The state and storage at the end of a record.
    pub fn after(record: &[u8]) -> Table {
        let mut table = Table {
            state: State::new(Setup::default()),
            order: vec![0; SUPERBLOCKS * ORDER_PLACES],
        };
        let mut offset = 0;
        while let Ok((command, next_offset)) = decode(record, offset) {
            table.state = run(&command, &table.state, &mut table.order).state;
            offset = next_offset;
        }
        table
    }

    /// Makes superblock `number` one of `owner` and `class`, any `live` of its
    /// blocks live and the others in its order in any order.
    pub fn own(&mut self, number: usize, owner: u8, class: u8, live: u32, random: &mut Xorshift) {
        let mut blocks: Vec<u16> = (0..SIZE_CLASSES[usize::from(class)].blocks as u16).collect();
        random.shuffle(&mut blocks);
        let (marked, free) = blocks.split_at(live as usize);
        let mut superblock = Superblock {
            owner,
            class,
            ..Superblock::UNUSED
        };
        marked
            .iter()
            .for_each(|&block| superblock.mark(block.into()));
        self.state.superblocks[number] = superblock;
        let first = number * ORDER_PLACES;
        self.order[first..first + free.len()].copy_from_slice(free);
    }

    /// Makes superblocks a run, whatever they were.
    pub fn lay_run(&mut self, first: usize, length: u8) {
        self.state.superblocks[first..][..length.into()].fill(Superblock::IN_RUN);
        self.state.superblocks[first] = Superblock::first_of_run(length);
    }

    /// Brings the owners within the state check: too full superblocks of the
    /// global heap go to heap 1, then each heap transfers its excess.
    pub fn restore_invariants(&mut self) {
        let setup = self.state.control.setup;
        for superblock in &mut self.state.superblocks {
            if superblock.owner == GLOBAL_HEAP
                && superblock.live_count() > most_live_of_global(&setup, superblock.class)
            {
                superblock.owner = 1;
            }
        }
        for heap in 1..=setup.processors {
            for class in 0..SIZE_CLASSES.len() as u8 {
                while self.is_over_threshold(heap, class) {
                    self.transfer_emptiest(heap, class);
                }
            }
        }
    }

    fn is_over_threshold(&self, heap: u8, class: u8) -> bool {
        let usage = Totals::recount(&self.state.superblocks).usage(heap, class);
        let class = &SIZE_CLASSES[usize::from(class)];
        over_emptiness_threshold(&self.state.control.setup, class, &usage)
    }

    fn transfer_emptiest(&mut self, heap: u8, class: u8) {
        self.state
            .superblocks
            .iter_mut()
            .filter(|superblock| superblock.owner == heap && superblock.class == class)
            .min_by_key(|superblock| superblock.live_count())
            .expect("a heap over its threshold has a superblock")
            .owner = GLOBAL_HEAP;
    }

    /// Gives any names to any live blocks, to at most so many.
    pub fn name_blocks(&mut self, most: usize, random: &mut Xorshift) {
        let mut blocks = owned_blocks(&self.state, true);
        let mut names: Vec<u16> = (0..NAMES as u16).collect();
        random.shuffle(&mut blocks);
        random.shuffle(&mut names);
        for (name, block) in names.into_iter().zip(blocks).take(most) {
            self.state.control.names.bind(name, block);
        }
    }

    /// Gives names to none, some or all of the live blocks.
    pub fn name_some_blocks(&mut self, random: &mut Xorshift) {
        let most = random.pick(&[0, 4, 40, NAMES]);
        self.name_blocks(most, random);
    }

    /// Ranks none, some or all of the owned superblocks, in any order.
    pub fn rank_some_superblocks(&mut self, random: &mut Xorshift) {
        let most = random.pick(&[0, 4, SUPERBLOCKS, SUPERBLOCKS]);
        rank_any(random, &mut self.state, most);
    }

    /// Puts the totals right for the superblocks as they are, sound or not.
    pub fn recount_totals(&mut self) {
        self.state.control.totals = Totals::recount(&self.state.superblocks);
    }

    /// The table with right totals, a call and, at random, as much storage as it
    /// needs or more.
    pub fn with_call(mut self, random: &mut Xorshift) -> CallInput {
        self.recount_totals();
        if random.chance(1, 2) {
            self.order.truncate(self.state.control.setup.order_places());
        }
        CallInput {
            call: any_call(random, &self.state),
            state: self.state,
            order: self.order,
        }
    }
}

/// Most live blocks that a superblock of the global heap may have.
pub fn most_live_of_global(setup: &Setup, class: u8) -> u32 {
    let (p, q) = (u32::from(setup.p), u32::from(setup.q));
    ((q - p) * SIZE_CLASSES[usize::from(class)].blocks).div_ceil(q) - 1
}

/// A take or free for a state, mostly with a processor and size within limits
/// and a live address. One in three is by name.
pub fn any_call(random: &mut Xorshift, state: &State) -> Command {
    if random.chance(1, 3) {
        return named_call(random, state, 12);
    }
    let processor = any_processor(random, state.control.setup.processors, 12);
    if random.chance(1, 2) {
        let size = any_size(random, state);
        Command::Take { processor, size }
    } else {
        let address = any_address(random, state);
        Command::Free { processor, address }
    }
}

/// A take or free by name for a state, one in `whole` with a processor out of range.
pub fn named_call(random: &mut Xorshift, state: &State, whole: u32) -> Command {
    let names = &state.control.names;
    let processor = any_processor(random, state.control.setup.processors, whole);
    if random.chance(1, 2) {
        Command::NamedTake {
            processor,
            name: name_to_bind(random, names, 12),
            size: match random.below(6) {
                0 => random.pick(&[2049, 65535]),
                1 => random.between(0, 2048) as u16,
                _ => any_size(random, state),
            },
        }
    } else {
        let name = name_to_free(random, names);
        Command::NamedFree { processor, name }
    }
}

/// Mostly a size of a class that the state has superblocks of, at times 0 or a size
/// beside it, or one at the upper limit.
fn any_size(random: &mut Xorshift, state: &State) -> u16 {
    match random.below(12) {
        0 => return random.pick(&[2048, 2049, 65535]),
        1..=3 => return zero_or_beside(random),
        _ => {}
    }
    let owned = state
        .superblocks
        .iter()
        .filter(|it| it.owner <= state.control.setup.processors);
    let classes: Vec<u8> = owned
        .map(|it| it.class)
        .filter(|&class| class < 27)
        .collect();
    let class = match random.below(3) {
        0 => random.byte_between(0, 26),
        _ if classes.is_empty() => 0,
        _ => random.pick(&classes),
    };
    size_or_zero(random, class)
}

/// Mostly the address of a live block of the state, if it has one.
fn any_address(random: &mut Xorshift, state: &State) -> u32 {
    let live = live_addresses(state);
    if live.is_empty() || random.chance(1, 8) {
        let end = u32::from(state.control.setup.superblocks) * SUPERBLOCK_BYTES;
        return random.pick(&[0, 16, 17, end, end.wrapping_sub(1), u32::MAX]);
    }
    let address = random.pick(&live);
    match random.below(10) {
        0 => address + 8,
        1 => address ^ 2048,
        _ => address,
    }
}

/// The live blocks, or the free ones, of owned superblocks with a known class. A long
/// block is a live one, block 0 of its run's first superblock.
pub fn owned_blocks(state: &State, live: bool) -> Vec<BlockId> {
    let mut found = Vec::new();
    for (number, superblock) in state.superblocks.iter().enumerate() {
        let Some(class) = SIZE_CLASSES.get(usize::from(superblock.class)) else {
            continue;
        };
        let count = match superblock.owner {
            UNUSED_OWNER => 0,
            RUN_OWNER => u32::from(live && superblock.begins_run()),
            _ => class.blocks,
        };
        let is_live = |block| superblock.owner == RUN_OWNER || superblock.is_live(block);
        let blocks = (0..count).filter(|&block| is_live(block) == live);
        found.extend(blocks.map(|block| BlockId {
            superblock: number,
            block,
        }));
    }
    found
}

/// The addresses of all live blocks.
pub fn live_addresses(state: &State) -> Vec<u32> {
    let blocks = owned_blocks(state, true).into_iter();
    blocks.map(|block| state.address_of(block)).collect()
}
