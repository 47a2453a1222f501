//! A record under way: each command is written down and given to the engine, so
//! that the next one can be chosen by what is live.

use hoard::{
    class_of_size, write_command, Command, Outcome, Refusal, Setup, State, LONGEST_RECORD,
    MOST_DROPPED, ORDER_PLACES, SUPERBLOCKS, SUPERBLOCK_BYTES,
};

use crate::naming::{free_of_live, name_to_bind};
use crate::xorshift::Xorshift;

/// A record, the state after it, and the addresses that are live.
pub struct Run {
    pub record: Vec<u8>,
    pub state: State,
    pub order: Vec<u16>,
    pub live: Vec<u32>,
    pub calls: usize,
    /// Whether size 0 is refused here, as it once was: its takes are written and
    /// the record goes on as if they had not been made.
    pub refuses_zero: bool,
    /// Whether equals go by the ranking. If not, ranks are forgotten after each call
    /// and the lower number comes first, as it once did: so the records made then
    /// keep their bytes.
    pub keeps_ranks: bool,
    /// Whether long blocks are taken here. If not, their sizes are refused as they once
    /// were: such takes are written and the record goes on as if they had not been made.
    pub takes_long: bool,
    /// Of 100 calls that may be by name, how many are.
    pub named: u32,
}

/// Which superblock of a heap and class a free picks its block from.
#[derive(Clone, Copy, Debug, PartialEq, Eq)]
pub enum PickFrom {
    Emptiest,
    Fullest,
    Any,
}

impl Run {
    /// Starts a record with a setup, within limits or not.
    pub fn new(setup: Setup) -> Run {
        let mut record = Vec::new();
        write_command(&mut record, &Command::Setup(setup));
        let mut order = vec![0; SUPERBLOCKS * ORDER_PLACES];
        let answer = hoard::setup(setup, &mut order);
        Run {
            record,
            state: answer.state,
            order,
            live: Vec::new(),
            calls: 0,
            refuses_zero: false,
            keeps_ranks: false,
            takes_long: false,
            named: 0,
        }
    }

    /// Whether the record has room for one more command.
    pub fn has_room(&self) -> bool {
        self.record.len() + 6 <= LONGEST_RECORD
    }

    /// Writes and runs a take, free or drop.
    pub fn call(&mut self, command: Command) -> Outcome {
        write_command(&mut self.record, &command);
        self.calls += 1;
        if self.refuses_size(&command) {
            return Outcome::Refused(Refusal::Size);
        }
        let freed = self.addresses_freed(&command);
        let answer = hoard::run(&command, &self.state, &mut self.order);
        match answer.outcome {
            Outcome::At(address) => self.live.push(address),
            Outcome::Moved(_) => self.live.retain(|live| !freed.contains(live)),
            _ => {}
        }
        self.state = answer.state;
        if !self.keeps_ranks {
            let superblocks = self.state.superblocks.iter_mut();
            superblocks.for_each(|superblock| superblock.rank = 0);
        }
        answer.outcome
    }

    /// Whether this is a take of a size that is refused here, as it once was.
    fn refuses_size(&self, command: &Command) -> bool {
        match *command {
            Command::Take { size: 0, .. } => self.refuses_zero,
            Command::Take { size, .. } | Command::NamedTake { size, .. } => {
                !self.takes_long && class_of_size(size).is_none()
            }
            _ => false,
        }
    }

    /// The addresses that a free or drop, if it is accepted, frees.
    fn addresses_freed(&self, command: &Command) -> Vec<u32> {
        match command {
            Command::Free { address, .. } => vec![*address],
            Command::NamedFree { name, .. } => self.address_of_name(*name).into_iter().collect(),
            Command::Drop { addresses, .. } => addresses.clone(),
            _ => Vec::new(),
        }
    }

    /// Writes and runs a plain take.
    pub fn take(&mut self, processor: u8, size: u16) -> Outcome {
        self.call(Command::Take { processor, size })
    }

    /// Writes and runs a plain free.
    pub fn free(&mut self, processor: u8, address: u32) -> Outcome {
        self.call(Command::Free { processor, address })
    }

    /// Writes and runs a take by name.
    pub fn take_named(&mut self, processor: u8, name: u16, size: u16) -> Outcome {
        self.call(Command::NamedTake {
            processor,
            name,
            size,
        })
    }

    /// Writes and runs a free by name.
    pub fn free_named(&mut self, processor: u8, name: u16) -> Outcome {
        self.call(Command::NamedFree { processor, name })
    }

    /// Writes and runs a drop, of the first addresses where there is no room for all.
    pub fn drop(&mut self, processor: u8, mut addresses: Vec<u32>) -> Outcome {
        let room = (LONGEST_RECORD - self.record.len()).saturating_sub(3) / 4;
        addresses.truncate(room.min(MOST_DROPPED));
        self.call(Command::Drop {
            processor,
            addresses,
        })
    }

    /// Takes, in the run's share of cases by a name.
    pub fn take_either_way(&mut self, random: &mut Xorshift, processor: u8, size: u16) -> Outcome {
        if self.is_next_named(random) {
            let name = name_to_bind(random, &self.state.control.names, 40);
            self.take_named(processor, name, size)
        } else {
            self.take(processor, size)
        }
    }

    /// Frees a live block, in the run's share of cases by its name.
    pub fn free_either_way(
        &mut self,
        random: &mut Xorshift,
        processor: u8,
        address: u32,
    ) -> Outcome {
        self.call(free_of_live(
            random,
            &self.state,
            processor,
            address,
            self.named,
        ))
    }

    /// Whether the next call is by name. Where none is to be, no number is drawn.
    pub fn is_next_named(&self, random: &mut Xorshift) -> bool {
        self.named > 0 && random.chance(self.named, 100)
    }

    /// The address that a name holds.
    pub fn address_of_name(&self, name: u16) -> Option<u32> {
        let block = self.state.control.names.block_of(name)?;
        Some(self.state.address_of(block))
    }

    /// Any live address.
    pub fn any_live(&self, random: &mut Xorshift) -> Option<u32> {
        if self.live.is_empty() {
            return None;
        }
        Some(random.pick(&self.live))
    }

    /// Live blocks of a heap and class.
    pub fn live_count_of(&self, heap: u8, class: u8) -> u32 {
        let superblocks = self.state.superblocks.iter();
        superblocks
            .filter(|it| it.owner == heap && it.class == class)
            .map(|it| it.live_count())
            .sum()
    }

    /// A live address of a heap and class, from the superblock asked for.
    pub fn live_of(
        &self,
        heap: u8,
        class: u8,
        from: PickFrom,
        random: &mut Xorshift,
    ) -> Option<u32> {
        let mut live_counts = Vec::new();
        for (number, superblock) in self.state.superblocks.iter().enumerate() {
            let live = superblock.live_count();
            if superblock.owner == heap && superblock.class == class && live > 0 {
                live_counts.push((live, number));
            }
        }
        let emptiest = *live_counts.iter().min()?;
        let (_, number) = match from {
            PickFrom::Emptiest => emptiest,
            PickFrom::Fullest => *live_counts.iter().max()?,
            PickFrom::Any => random.pick(&live_counts),
        };
        Some(self.live_in(number, random))
    }

    /// A live address of a superblock, which has one.
    pub fn live_in(&self, number: usize, random: &mut Xorshift) -> u32 {
        let first = number as u32 * SUPERBLOCK_BYTES;
        let addresses = first..first + SUPERBLOCK_BYTES;
        let here = |address: &u32| addresses.contains(address);
        let candidates: Vec<u32> = self.live.iter().copied().filter(here).collect();
        random.pick(&candidates)
    }
}
