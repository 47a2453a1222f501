//! The ranking of superblocks by when they were last freed into. It is one for all
//! heaps and classes.

use crate::state::{Superblock, SUPERBLOCKS};

/// Ranks a superblock that was freed into as the latest: those ahead of it, all that
/// are ranked if it was not, fall back by one.
pub(crate) fn rank_latest(superblocks: &mut [Superblock; SUPERBLOCKS], number: usize) {
    let recency = superblocks[number].recency();
    for superblock in superblocks.iter_mut() {
        superblock.rank += u8::from(superblock.recency() > recency);
    }
    superblocks[number].rank = 1;
}

/// Takes a renewed superblock out: those behind it move up by one.
pub(crate) fn take_out(superblocks: &mut [Superblock; SUPERBLOCKS], number: usize) {
    let rank = std::mem::take(&mut superblocks[number].rank);
    if rank == 0 {
        return;
    }
    for superblock in superblocks {
        superblock.rank -= u8::from(superblock.rank > rank);
    }
}

/// Whether the ranks, which may be any bytes, are 1 upwards, each once without a gap.
/// As many superblocks as are ranked have then set the lowest bits, one each.
pub(crate) fn ranks_are_sound(superblocks: &[Superblock; SUPERBLOCKS]) -> bool {
    // Bit r - 1 for rank r; 0 and those above 64 have none.
    let mut met = 0u64;
    let mut ranked = 0;
    for superblock in superblocks {
        let bit = u32::from(superblock.rank.wrapping_sub(1));
        met |= 1u64.checked_shl(bit).unwrap_or(0);
        ranked += u32::from(superblock.rank != 0);
    }
    met == u64::MAX.checked_shr(u64::BITS - ranked).unwrap_or(0)
}
