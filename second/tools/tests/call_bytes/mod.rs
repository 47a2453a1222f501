//! The bytes of a call, for tests of its form.

/// A call on unused superblocks with no name held, totals of 0 and 256 order places:
/// the bytes up to the superblocks, and those behind them.
pub fn on_unused(call: &[u8]) -> Vec<u8> {
    let mut bytes = call.to_vec();
    for _ in 0..64 {
        bytes.push(255);
        bytes.extend([0; 35]);
    }
    bytes.extend([255; 2048]);
    bytes.extend([0; 243 + 2 * 243]);
    bytes.extend(256u32.to_le_bytes());
    bytes.extend([0; 512]);
    bytes
}
