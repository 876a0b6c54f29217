//! One vector of sixteen bytes, and what the searches ask of it. Rust's own is not in its stable part.

#[cfg(all(target_arch = "x86_64", target_feature = "sse2", not(any(feature = "no_simd", miri))))]
mod sse2;
// For other targets; where there is SSE2 it is tested, and not used.
#[allow(dead_code)]
mod words;

#[cfg(all(
    target_arch = "x86_64",
    target_feature = "sse2",
    not(any(feature = "no_simd", miri))
))]
pub use sse2::u8x16;
#[cfg(not(all(
    target_arch = "x86_64",
    target_feature = "sse2",
    not(any(feature = "no_simd", miri))
)))]
pub use words::u8x16;

/// How often sixteen bytes were taken into lanes, in a thread: the tests of this crate count that.
#[cfg(test)]
pub mod loads {
    use std::cell::Cell;

    thread_local! {
        pub static COUNT: Cell<usize> = const { Cell::new(0) };
    }
}

#[cfg(test)]
mod tests {
    // Each pair of bytes in each lane, with its neighbours at the extremes, against the comparisons of bytes.
    macro_rules! compare_each_pair_of_bytes {
        ($lanes:ty) => {
            for (a, b) in (0..=255_u8).flat_map(|a| (0..=255_u8).map(move |b| (a, b))) {
                for around in [0, 127, 128, 255, b, b ^ 1] {
                    let mut bytes = [around; 16];
                    bytes[usize::from(a ^ b) % 16] = a;
                    let (x, y) = (<$lanes>::from_slice(&bytes), <$lanes>::splat(b));
                    let bits = |of: fn(u8, u8) -> bool| {
                        (0..16).map(|i| u64::from(of(bytes[i], b)) << i).sum::<u64>()
                    };
                    assert_eq!(x.simd_eq(y).to_bitmask(), bits(|a, b| a == b));
                    assert_eq!(x.simd_ge(y).to_bitmask(), bits(|a, b| a >= b));
                }
            }
        };
    }

    #[test]
    fn the_lanes_compare_each_pair_of_bytes() {
        compare_each_pair_of_bytes!(super::u8x16);
    }

    #[test]
    fn two_words_compare_each_pair_of_bytes() {
        compare_each_pair_of_bytes!(super::words::u8x16);
    }
}
