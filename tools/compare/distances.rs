//! Document 000 against document 01's rules: how often the numbers and pass counts differ, how far the poses are apart, and what document 000
//! answers where the rules refuse with 10.
//!
//!   distances [SEED]
//!
//! How both are run is in ends.rs.

#[allow(dead_code)]
#[path = "../oracle"]
mod by_machine {
    pub mod ecc;
    #[path = "machine.rs"]
    pub mod rules;
}
#[allow(dead_code)]
#[path = "../oracle"]
mod by_rules {
    pub mod ecc;
    pub mod rules;
}
#[allow(dead_code)]
#[path = "../../docs/source/ecc.rs"]
mod document_000;
mod ends;
#[allow(dead_code)]
#[path = "../vectors/frames.rs"]
mod frames;
#[allow(dead_code)]
#[path = "../vectors/lines.rs"]
mod lines;
mod nalgebra;

/// document 001's errors that document 000 names
mod error {
    pub enum BoostTrackErr {
        InvalidInput,
        NotConverged,
    }
}

use by_rules::ecc;
use ends::{Ends, Pair};
use ecc::EccConfig;
use frames::{board, faint_frame, pair, seen};
use lines::{about, below, pick, Stream};
use std::collections::BTreeMap;

const SEED: u64 = 20260120;

struct Group {
    name: &'static str,
    pairs: usize,
    make: fn(&mut Stream) -> Pair,
}

const GROUPS: [Group; 9] = [
    Group { name: "textures, known motion", pairs: 20_000, make: textured },
    Group { name: "the same, eps 1e-6", pairs: 10_000, make: |s| Pair { cfg: plain(1e-6, 100), ..textured(s) } },
    Group { name: "nearly flat", pairs: 50_000, make: faint },
    Group { name: "large turns", pairs: 10_000, make: turned },
    Group { name: "small frames of all sorts", pairs: 50_000, make: small },
    Group { name: "small noise", pairs: 50_000, make: |s| noise(s, plain(1e-4, 100)) },
    Group { name: "small noise, never stopped", pairs: 20_000, make: |s| noise(s, plain(-1.0, 1000)) },
    Group { name: "640 by 480, resized to 350", pairs: 300, make: resized },
    Group { name: "1,024 and 2,048 squared", pairs: 12, make: large },
];

fn plain(eps: f32, max_iter: usize) -> EccConfig {
    EccConfig { eps, max_iter, gauss_filt_size: 1, resize_long_edge: None }
}

/// a texture seen from two places
fn moved(s: &mut Stream, w: usize, h: usize, pose: [f32; 3], cfg: EccConfig) -> Pair {
    let (seed, cell) = (s.next() as u64, pick(s, &[4.0, 6.0, 9.0]));
    Pair { w, h, frames: (seen(seed, cell, w, h, pose), seen(seed, cell, w, h, [0.0; 3])), cfg }
}

fn textured(s: &mut Stream) -> Pair {
    let (w, h) = (16 + below(s, 49), 16 + below(s, 49));
    let pose = [about(s, 0.05), about(s, 1.5), about(s, 1.5)];
    let cfg = EccConfig { gauss_filt_size: pick(s, &[1, 3, 5, 9]), ..EccConfig::default() };
    moved(s, w, h, pose, cfg)
}

fn faint(s: &mut Stream) -> Pair {
    let (w, h) = (5 + below(s, 20), 5 + below(s, 20));
    let cfg = EccConfig { gauss_filt_size: 1 + 2 * below(s, 16), ..EccConfig::default() };
    Pair { w, h, frames: (faint_frame(s, w, h), faint_frame(s, w, h)), cfg }
}

/// turns of 0.2 to 1.5 about the corner
fn turned(s: &mut Stream) -> Pair {
    let (w, h) = (24 + below(s, 41), 24 + below(s, 41));
    let turn = 0.2 + about(s, 0.65) + 0.65;
    let pose = [if below(s, 2) == 0 { turn } else { -turn }, about(s, 2.0), about(s, 2.0)];
    let cfg = EccConfig { gauss_filt_size: pick(s, &[1, 5]), ..EccConfig::default() };
    moved(s, w, h, pose, cfg)
}

fn small(s: &mut Stream) -> Pair {
    let (w, h) = (5 + below(s, 8), 5 + below(s, 8));
    let cfg = EccConfig { gauss_filt_size: pick(s, &[1, 3, 5, 31]), ..EccConfig::default() };
    Pair { w, h, frames: pair(s, w, h), cfg }
}

fn noise(s: &mut Stream, cfg: EccConfig) -> Pair {
    let (w, h) = (5 + below(s, 5), 5 + below(s, 5));
    Pair { w, h, frames: (s.bytes(w * h), s.bytes(w * h)), cfg }
}

fn resized(s: &mut Stream) -> Pair {
    let pose = [about(s, 0.01), about(s, 3.0), about(s, 3.0)];
    moved(s, 640, 480, pose, EccConfig::default())
}

fn large(s: &mut Stream) -> Pair {
    let side = pick(s, &[1024, 1024, 2048]);
    let pose = [about(s, 0.0005), about(s, 1.0), about(s, 1.0)];
    moved(s, side, side, pose, plain(1e-4, 30))
}

/// how far two poses are apart (theta, tx, ty, rho), and whether their pass counts are the same
type Apart = ([f32; 4], bool);

/// what the pairs of a group have shown; `numbers[a][b]` counts those that the rules end with a and document 000 with b
#[derive(Default)]
struct Tally {
    apart: Vec<Apart>,
    passes: usize,
    numbers: [[usize; 11]; 11],
    tens: BTreeMap<&'static str, usize>,
    not_held: usize,
}

/// what document 000 does where the rules refuse with 10
fn instead(o: &by_machine::ecc::Outcome) -> &'static str {
    match o.number {
        0 if !(o.theta.is_finite() && o.tx.is_finite() && o.ty.is_finite()) => "Ok, a number of the matrix is not finite",
        0 if o.theta.abs() > 2.0 => "Ok, finite, theta outside -2..2",
        0 => "Ok, finite, theta within -2..2",
        5 => "NotConverged, under 16 marked (5)",
        6 => "NotConverged, norm (6)",
        8 => "NotConverged, determinant (8)",
        9 => "NotConverged, lambda (9)",
        _ => "NotConverged, rho (7)",
    }
}

impl Tally {
    fn add(&mut self, e: &Ends) {
        let (a, b) = (e.rules, e.rust);
        self.not_held += !e.held as usize;
        self.numbers[a.number as usize][b.number as usize] += 1;
        self.passes += (a.number == b.number && a.passes != b.passes) as usize;
        if a.number == 10 {
            *self.tens.entry(instead(&b)).or_default() += 1;
        }
        if (a.number, b.number) == (0, 0) {
            let far = [(a.theta, b.theta), (a.tx, b.tx), (a.ty, b.ty), (a.rho, b.rho)].map(|(x, y)| (x - y).abs());
            self.apart.push((far, a.passes == b.passes));
        }
    }

    fn join(&mut self, other: &Tally) {
        (0..121).for_each(|i| self.numbers[i / 11][i % 11] += other.numbers[i / 11][i % 11]);
        other.tens.iter().for_each(|(what, n)| *self.tens.entry(what).or_default() += n);
        self.not_held += other.not_held;
    }

    fn print(&self, g: &Group) {
        let differ: usize = (0..121).filter(|i| i / 11 != i % 11).map(|i| self.numbers[i / 11][i % 11]).sum();
        let (rules, rust) = (self.numbers[0][1..].iter().sum::<usize>(), self.numbers[1..].iter().map(|row| row[0]).sum::<usize>());
        println!("{}: {} pairs", g.name, g.pairs);
        println!("  number differs {}; a pose by the rules alone {}, by document 000 alone {}, by both {}", differ, rules, rust, self.apart.len());
        println!("  number the same, passes differ: {}", self.passes);
        for (i, name) in ["theta", "tx", "ty", "rho"].iter().enumerate().filter(|_| !self.apart.is_empty()) {
            let mut all: Vec<f32> = self.apart.iter().map(|a| a.0[i]).collect();
            all.sort_by(f32::total_cmp);
            let last = all.len() - 1;
            let largest = self.apart.iter().filter(|a| a.1).fold(0.0f32, |m, a| m.max(a.0[i]));
            let equal = all.iter().filter(|x| **x == 0.0).count();
            println!(
                "  {:6} equal {}, median {:.1e}, 99 of 100 within {:.1e}, largest {:.1e}, with the same passes {:.1e}",
                name, equal, all[last / 2], all[last * 99 / 100], all[last], largest
            );
        }
    }

    fn print_numbers(&self) {
        let pairs: usize = self.numbers.iter().flatten().sum();
        println!("all {} pairs, by the rules' number (down) and document 000's (across)", pairs);
        let told = [0, 5, 6, 7, 8, 9];
        println!("      {}", told.map(|b| format!("{:>7}", b)).concat());
        for a in [0, 5, 6, 7, 8, 9, 10] {
            println!("  {:>4}{}", a, told.map(|b| format!("{:>7}", self.numbers[a][b])).concat());
        }
        println!("the rules refuse with 10: {}; document 000 answers", self.tens.values().sum::<usize>());
        self.tens.iter().for_each(|(what, n)| println!("  {}: {}", what, n));
    }
}

/// frames of full contrast: boards of squares and textures, with the squares' sides or the texture's cells
const KINDS: [(&str, usize); 9] = [
    ("board", 4),
    ("board", 8),
    ("board", 16),
    ("board", 32),
    ("texture", 2),
    ("texture", 3),
    ("texture", 5),
    ("texture", 10),
    ("texture", 20),
];

/// a square frame and the same one pixel further; so many passes, no resizing
fn one_further(kind: (&str, usize), side: usize, max_iter: usize) -> Pair {
    let (name, cell) = kind;
    let frame = |further: usize| match name {
        "board" => board(cell, side, side, further),
        _ => seen(7, cell as f32, side, side, [0.0, further as f32, 0.0]),
    };
    Pair { w: side, h: side, frames: (frame(0), frame(1)), cfg: plain(1e-4, max_iter) }
}

/// a pose that has not moved at all
fn still(o: &ecc::Outcome) -> bool {
    o.number == 0 && [o.theta, o.tx, o.ty] == [0.0; 3]
}

/// the smallest side, in steps of 16 up to 4,096, whose first pass ends so; found by halves, as if all larger sides ended so too
fn first_side(kind: (&str, usize), so: fn(&ecc::Outcome) -> bool) -> Option<usize> {
    let ends_so = |steps: usize| {
        so(&one_further(kind, 16 * steps, 1).by_the_rules())
    };
    let (mut low, mut high) = (16, 256);
    if !ends_so(high) {
        return None;
    }
    while high - low > 1 {
        let middle = (low + high) / 2;
        if ends_so(middle) {
            high = middle;
        } else {
            low = middle;
        }
    }
    Some(16 * high)
}

/// how a whole call ends at a side, by both
fn print_end(kind: (&str, usize), side: usize) -> usize {
    let e = one_further(kind, side, 30).ends();
    let (a, b) = (e.rules, e.rust);
    println!("    {}: rules {} after {} passes, tx {}; document 000 {} after {}, tx {}", side, a.number, a.passes, a.tx, b.number, b.passes, b.tx);
    !e.held as usize
}

/// from which side on the first pass of square frames does not move the pose, and from which it is refused
fn sizes() -> usize {
    println!("a square frame and the same one pixel further, no resizing: the smallest sides (steps of 16, up to 4,096) whose first pass");
    println!("leaves the pose where it is, or is refused with 9; and whole calls there and at the step before");
    let mut not_held = 0;
    for kind in KINDS {
        let stuck = first_side(kind, |o| still(o) || o.number == 9);
        let lost = first_side(kind, |o| o.number == 9);
        println!("  {} of {}: not moved {:?}, refused {:?}", kind.0, kind.1, stuck, lost);
        let sides: Vec<usize> = [stuck.map(|s| s - 16), stuck, lost].iter().flatten().copied().collect();
        not_held += sides.iter().map(|side| print_end(kind, *side)).sum::<usize>();
    }
    not_held
}

fn main() {
    let seed = std::env::args().nth(1).map_or(SEED, |n| n.parse().expect("SEED is a number"));
    let mut total = Tally::default();
    for (i, g) in GROUPS.iter().enumerate() {
        let (mut s, mut t) = (Stream(seed + i as u64), Tally::default());
        (0..g.pairs).for_each(|_| t.add(&(g.make)(&mut s).ends()));
        t.print(g);
        total.join(&t);
    }
    total.print_numbers();
    total.not_held += sizes();
    println!("held to docs/source/ecc.rs on every pair: {} differences", total.not_held);
    std::process::exit((total.not_held > 0) as i32);
}
