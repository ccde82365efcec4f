//! The number helpers against the machine and against document 01's rules, on every f32 in their range.
//!
//!   helpers [STRIDE] [FIRST]
//!
//! With STRIDE 1, which is the default, every bit pattern is tried; with another, each STRIDE-th from FIRST on. The square root,
//! floor, round, abs, is_finite and the cast are held to the standard library's (the hardware's square root), cos, sin and exp_neg to
//! document 01's rules as tools/oracle/rules.rs has them. Two NaNs count as equal.

#[allow(dead_code)]
#[path = "../oracle/rules.rs"]
mod rules;

use std::io::Write;
use std::sync::atomic::{AtomicU64, Ordering};
use std::thread;

#[allow(improper_ctypes)]
extern "C" {
    fn helper_sqrt(x: f32) -> f32;
    fn helper_cos(x: f32) -> f32;
    fn helper_sin(x: f32) -> f32;
    fn helper_exp_neg(x: f32) -> f32;
    fn helper_floor(x: f32) -> f32;
    fn helper_round(x: f32) -> f32;
    fn helper_abs(x: f32) -> f32;
    fn helper_is_finite(x: f32) -> bool;
    fn helper_as_usize(x: f32) -> usize;
    fn helper_to_f32(n: usize) -> f32;
}

fn equal(x: f32, y: f32) -> bool {
    x.to_bits() == y.to_bits() || (x.is_nan() && y.is_nan())
}

struct Test {
    name: &'static str,
    /// patterns 0 up to and with this one, and with the sign bit set where `signs`
    last: u32,
    signs: bool,
    agrees: fn(u32) -> bool,
}

const ALL: u32 = 0x7fff_ffff;

fn tests() -> Vec<Test> {
    fn x(b: u32) -> f32 {
        f32::from_bits(b)
    }
    vec![
        Test { name: "sqrt", last: ALL, signs: true, agrees: |b| equal(unsafe { helper_sqrt(x(b)) }, x(b).sqrt()) },
        Test { name: "cos", last: 0x4000_0000, signs: true, agrees: |b| equal(unsafe { helper_cos(x(b)) }, rules::cos(x(b))) },
        Test { name: "sin", last: 0x4000_0000, signs: true, agrees: |b| equal(unsafe { helper_sin(x(b)) }, rules::sin(x(b))) },
        Test { name: "exp_neg", last: 0x40c0_0000, signs: false, agrees: |b| equal(unsafe { helper_exp_neg(x(b)) }, rules::exp_neg(x(b))) },
        Test { name: "floor", last: ALL, signs: true, agrees: |b| equal(unsafe { helper_floor(x(b)) }, x(b).floor()) },
        Test { name: "round", last: ALL, signs: true, agrees: |b| equal(unsafe { helper_round(x(b)) }, x(b).round()) },
        Test { name: "abs", last: ALL, signs: true, agrees: |b| equal(unsafe { helper_abs(x(b)) }, x(b).abs()) },
        Test { name: "is_finite", last: ALL, signs: true, agrees: |b| unsafe { helper_is_finite(x(b)) } == x(b).is_finite() },
        Test { name: "as_usize", last: ALL, signs: true, agrees: |b| unsafe { helper_as_usize(x(b)) } == x(b) as usize },
        Test { name: "to_f32", last: 1 << 24, signs: false, agrees: |n| equal(unsafe { helper_to_f32(n as usize) }, n as f32) },
    ]
}

const BLOCK: u64 = 1 << 22;

fn main() {
    let words: Vec<u64> = std::env::args().skip(1).map(|a| a.parse().expect("a number")).collect();
    let stride = *words.first().unwrap_or(&1);
    let first = *words.get(1).unwrap_or(&0);
    let cores = thread::available_parallelism().map_or(1, |n| n.get() as u64);
    let mut total = 0;
    for test in tests() {
        let each = test.last as u64 + 1;
        let count = if test.signs { 2 * each } else { each };
        let (next, tried, differ) = (AtomicU64::new(0), AtomicU64::new(0), AtomicU64::new(0));
        thread::scope(|s| {
            for _ in 0..cores {
                s.spawn(|| loop {
                    let block = next.fetch_add(1, Ordering::Relaxed) * BLOCK;
                    if block >= count {
                        break;
                    }
                    let end = (block + BLOCK).min(count);
                    let mut i = block + (first + stride - block % stride) % stride;
                    let mut here = 0;
                    while i < end {
                        let b = if i < each { i as u32 } else { 0x8000_0000 + (i - each) as u32 };
                        if !(test.agrees)(b) && differ.fetch_add(1, Ordering::Relaxed) == 0 {
                            println!("\n{}: differs at {:08x}", test.name, b);
                        }
                        here += 1;
                        i += stride;
                    }
                    let done = tried.fetch_add(here, Ordering::Relaxed) + here;
                    print!("\r{}: {} of {} tried", test.name, done, count / stride);
                    let _ = std::io::stdout().flush();
                });
            }
        });
        let differ = differ.into_inner();
        println!("\r{}: {} tried, {} differences{}", test.name, tried.into_inner(), differ, " ".repeat(12));
        total += differ;
    }
    println!("{} differences", total);
    std::process::exit((total > 0) as i32);
}
