// Generated from lists/shapes.txt by make generate.

// Hands each shape to a macro: its calls, its type, its configuration, its key, its value, and its text.
macro_rules! each_shape {
    ($each:ident) => { $each! {
        u32_u32, U32U32, U32ToU32: u32 as number => u32 as number, "From 32-bit numbers to 32-bit numbers";
        u64_u32, U64U32, U64ToU32: u64 as number => u32 as number, "From 64-bit numbers to 32-bit numbers";
        u64_u64, U64U64, U64ToU64: u64 as number => u64 as number, "From 64-bit numbers to 64-bit numbers";
        u64, U64, U64Set: u64 as number => (), "A set of 64-bit numbers";
        b8_u32, B8U32, Bytes8ToU32: [u8; 8] as bytes => u32 as number, "From hashes of 8 bytes to 32-bit numbers";
        b8_u64, B8U64, Bytes8ToU64: [u8; 8] as bytes => u64 as number, "From hashes of 8 bytes to 64-bit numbers";
        b16_u32, B16U32, Bytes16ToU32: [u8; 16] as bytes => u32 as number, "From hashes of 16 bytes to 32-bit numbers";
        b16_u64, B16U64, Bytes16ToU64: [u8; 16] as bytes => u64 as number, "From hashes of 16 bytes to 64-bit numbers";
        b20_u64, B20U64, Bytes20ToU64: [u8; 20] as bytes => u64 as number, "From hashes of 20 bytes to 64-bit numbers";
        b32_u64, B32U64, Bytes32ToU64: [u8; 32] as bytes => u64 as number, "From hashes of 32 bytes to 64-bit numbers";
        b16_b16, B16B16, Bytes16ToBytes16: [u8; 16] as bytes => [u8; 16] as bytes, "From hashes of 16 bytes to hashes of 16 bytes";
        b32_b32, B32B32, Bytes32ToBytes32: [u8; 32] as bytes => [u8; 32] as bytes, "From hashes of 32 bytes to hashes of 32 bytes";
        b8, B8, Bytes8Set: [u8; 8] as bytes => (), "A set of hashes of 8 bytes";
        b16, B16, Bytes16Set: [u8; 16] as bytes => (), "A set of hashes of 16 bytes";
        b20, B20, Bytes20Set: [u8; 20] as bytes => (), "A set of hashes of 20 bytes";
        b32, B32, Bytes32Set: [u8; 32] as bytes => (), "A set of hashes of 32 bytes";
    } };
}
