//! Moves all other code, of the library and of the original: it is linked before them. Nothing
//! calls it. Functions begin at multiples of 16 bytes, so its size is an odd number of times 16:
//! what began a half of 32 bytes now ends one. `R` says that the linker keeps it.

std::arch::global_asm!(
    ".section .text.odht_bench_moves, \"axR\", @progbits",
    ".p2align 4",
    ".globl odht_bench_moves",
    ".type odht_bench_moves, @function",
    "odht_bench_moves:",
    ".skip 1040, 0xcc",
    ".size odht_bench_moves, 1040",
    ".text",
);
