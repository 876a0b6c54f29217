// Generated from lists/shapes.txt by make generate.

// Hands each configuration to a macro: its name, key, value, their lengths, hash function, and text.
macro_rules! each_configuration {
    ($each:ident) => { $each! {
        U32ToU32: u32 => u32, 4, 4, FxHashFn, "From 32-bit numbers to 32-bit numbers";
        DirectU32ToU32: u32 => u32, 4, 4, UnHashFn, "From 32-bit numbers that are their own hashes to 32-bit numbers";
        U64ToU32: u64 => u32, 8, 4, FxHashFn, "From 64-bit numbers to 32-bit numbers";
        U64ToU64: u64 => u64, 8, 8, FxHashFn, "From 64-bit numbers to 64-bit numbers";
        U64Set: u64 => (), 8, 0, FxHashFn, "A set of 64-bit numbers";
        Bytes8ToU32: [u8; 8] => u32, 8, 4, UnHashFn, "From hashes of 8 bytes to 32-bit numbers";
        Bytes8ToU64: [u8; 8] => u64, 8, 8, UnHashFn, "From hashes of 8 bytes to 64-bit numbers";
        Bytes16ToU32: [u8; 16] => u32, 16, 4, UnHashFn, "From hashes of 16 bytes to 32-bit numbers";
        Bytes16ToU64: [u8; 16] => u64, 16, 8, UnHashFn, "From hashes of 16 bytes to 64-bit numbers";
        Bytes20ToU64: [u8; 20] => u64, 20, 8, UnHashFn, "From hashes of 20 bytes to 64-bit numbers";
        Bytes32ToU64: [u8; 32] => u64, 32, 8, UnHashFn, "From hashes of 32 bytes to 64-bit numbers";
        Bytes16ToBytes16: [u8; 16] => [u8; 16], 16, 16, UnHashFn, "From hashes of 16 bytes to hashes of 16 bytes";
        Bytes32ToBytes32: [u8; 32] => [u8; 32], 32, 32, UnHashFn, "From hashes of 32 bytes to hashes of 32 bytes";
        Bytes8Set: [u8; 8] => (), 8, 0, UnHashFn, "A set of hashes of 8 bytes";
        Bytes16Set: [u8; 16] => (), 16, 0, UnHashFn, "A set of hashes of 16 bytes";
        Bytes20Set: [u8; 20] => (), 20, 0, UnHashFn, "A set of hashes of 20 bytes";
        Bytes32Set: [u8; 32] => (), 32, 0, UnHashFn, "A set of hashes of 32 bytes";
    } };
}
