//! Size classes: the block sizes and how many blocks a superblock holds.

/// Bytes in one superblock.
pub const SUPERBLOCK_BYTES: u32 = 4096;

/// One size class.
#[derive(Clone, Copy, Debug, PartialEq, Eq)]
pub struct SizeClass {
    /// Bytes in a block.
    pub block_size: u32,
    /// Blocks in a superblock (n): whole blocks only, the tail stays unused.
    pub blocks: u32,
}

const fn class(block_size: u32) -> SizeClass {
    SizeClass {
        block_size,
        blocks: SUPERBLOCK_BYTES / block_size,
    }
}

/// The 27 size classes, block sizes rising.
pub const SIZE_CLASSES: [SizeClass; 27] = [
    class(16),
    class(24),
    class(32),
    class(40),
    class(48),
    class(56),
    class(64),
    class(80),
    class(96),
    class(112),
    class(128),
    class(160),
    class(192),
    class(224),
    class(256),
    class(320),
    class(384),
    class(448),
    class(512),
    class(640),
    class(768),
    class(896),
    class(1024),
    class(1280),
    class(1536),
    class(1792),
    class(2048),
];

/// The smallest class that holds `size`, for size 0 class 0; none for a long block,
/// above the largest of a class.
pub fn class_of_size(size: u16) -> Option<u8> {
    (0u8..)
        .zip(SIZE_CLASSES.iter())
        .find(|(_, class)| class.block_size >= u32::from(size))
        .map(|(number, _)| number)
}
