//! Heap records of a Hoard allocator.
//!
//! A record is a setup and a list of takes, frees and drops, which free many blocks
//! together. Heap 0 is the global heap, heaps 1 to P belong to processors. Each
//! superblock holds blocks of one size class and has a free list, kept in the lent order
//! storage. A take may give its block a name, by which it may be freed. The state has
//! the totals of each heap and class: its superblocks and live blocks. Superblocks carry
//! a rank by when they were last freed into, which decides among equally full ones. A
//! long block, of a size above the largest class, has a run of superblocks to itself.
//! [`setup`], [`take`], [`free`], [`take_named`], [`free_named`] and [`drop`] are the
//! calls, [`run`] makes the one that a command asks for; those on superblocks lent as a
//! row end in `_row`; [`key`] answers a whole record.
//!
//! The engine scans: nothing but the state goes from call to call, and each call
//! checks the whole state it is given.

mod check;
mod engine;
mod key;
mod names;
mod outcome;
mod ranking;
mod record;
mod row;
mod runs;
mod size_class;
mod state;
mod totals;

pub use check::{check_handed_in, setup_within_limits};
pub use engine::{
    drop, free, free_named, over_emptiness_threshold, renew, run, setup, take, take_named,
};
pub use key::key;
pub use names::{BlockId, Names, NAMES, NOT_HELD};
pub use outcome::{Answer, Outcome, Refusal, RowAnswer};
pub use record::{
    decode, read_command, write_command, Bytes, Command, Stop, DROP_BYTE, FREE_BYTE,
    LONGEST_RECORD, MOST_DROPPED, NAMED_FREE_BYTE, NAMED_TAKE_BYTE, SETUP_BYTE, TAKE_BYTE,
};
pub use row::{drop_row, free_named_row, free_row, run_row, setup_row, take_named_row, take_row};
pub use runs::{may_join_run, run_length_of_size, runs, LONGEST_RUN};
pub use size_class::{class_of_size, SizeClass, SIZE_CLASSES, SUPERBLOCK_BYTES};
pub use state::{
    Control, Setup, State, Superblock, GLOBAL_HEAP, ORDER_PLACES, RUN_OWNER, SUPERBLOCKS,
    UNUSED_OWNER,
};
pub use totals::{Totals, Usage, CLASSES, HEAPS};
