//! Bytes that docs/FORMAT.md works out by hand.

/// The table of 1 to 2, 3 to 4 and 5 to 6, made for 3 items at 95 percent, from keys of 64 bits to values of 32 bits.
pub fn three_pairs() -> Vec<u8> {
    let mut bytes = vec![0; 256];
    bytes[..8].copy_from_slice(&[0x4f, 0x44, 0x48, 0x54, 1, 8, 4, 0x20]);
    bytes[8] = 3;
    bytes[16] = 16;
    bytes[24..32].copy_from_slice(&[0, 0, 0, 2, 0x32, 0xf3, 0, 0]);
    (bytes[92], bytes[100]) = (1, 2);
    (bytes[140], bytes[148]) = (5, 6);
    (bytes[212], bytes[220]) = (3, 4);
    bytes[224..].fill(255);
    for mirror in [0, 16] {
        (bytes[229 + mirror], bytes[233 + mirror], bytes[239 + mirror]) = (0x13, 0x61, 0x3a);
    }
    bytes
}

/// These bytes with some changed: each with its index.
pub fn changed(bytes: &[u8], changes: &[(usize, u8)]) -> Vec<u8> {
    let mut bytes = bytes.to_vec();
    for (index, byte) in changes {
        bytes[*index] = *byte;
    }
    bytes
}

/// A header: the lengths of a key and of a value, the items, the slots, and the load factor's two bytes.
pub fn header(lengths: (u8, u8), items: u64, slots: u64, factor: [u8; 2]) -> Vec<u8> {
    let mut bytes = vec![0x4f, 0x44, 0x48, 0x54, 1, lengths.0, lengths.1, 0x20];
    bytes.extend(items.to_le_bytes());
    bytes.extend(slots.to_le_bytes());
    bytes.extend([0, 0, 0, 2, factor[0], factor[1], 0, 0]);
    bytes
}
