//! How long the proved square root takes, in nanoseconds a call.
//!
//! Over patterns made at random, normal values and subnormal ones apart. 'One by one' hands each call a pattern that waits for the answer before it; 'beside each
//! other' does not, and the processor may work on several at once. The least of 200 rounds counts.

use std::hint::black_box;
use std::time::Instant;

extern "C" {
    fn helper_sqrt(x: f32) -> f32;
}

/// 4,096 patterns from `first` up to below `end`
fn patterns(first: u32, end: u32) -> Vec<u32> {
    let mut seed = 0x2545_f491_4f6c_dd1du64;
    let next = |_| {
        seed ^= seed << 13;
        seed ^= seed >> 7;
        seed ^= seed << 17;
        first + (seed >> 33) as u32 % (end - first)
    };
    (0..4096).map(next).collect()
}

/// nanoseconds a call. One by one, the sign of the root before goes into the pattern: it is 0, but the processor must have it.
fn time(all: &[u32], one_by_one: bool) -> f64 {
    let mut least = f64::MAX;
    for _ in 0..200 {
        let start = Instant::now();
        let mut last = 0u32;
        for &b in all {
            let wait = if one_by_one { last >> 31 } else { 0 };
            last = unsafe { helper_sqrt(f32::from_bits(b | wait)) }.to_bits();
        }
        black_box(last);
        least = least.min(start.elapsed().as_nanos() as f64 / all.len() as f64);
    }
    least
}

fn main() {
    println!("{:<12}{:>13}{:>21}", "values", "one by one", "beside each other");
    for (values, all) in [("normal", patterns(0x80_0000, 0x7f80_0000)), ("subnormal", patterns(1, 0x80_0000))] {
        println!("{:<12}{:>10.1} ns{:>18.1} ns", values, time(&all, true), time(&all, false));
    }
}
