//! What flat and nearly flat frames give: how often each number, how large rho gets where a pose comes, and how far such a pose moves.
//!
//!   flat [SEED]
//!
//! By document 01's rules, through the oracle (tools/oracle/ecc.rs), which the library equals bit for bit; document 000 beside it where ends.rs is
//! used. 'Flat' is a frame of one gray, 'grain' one gray with noise of a few levels on it, 'sharp' a texture or noise of full contrast.

#[allow(dead_code)]
#[path = "../oracle"]
mod by_machine {
    pub mod ecc;
    #[path = "machine.rs"]
    pub mod rules;
}
#[allow(dead_code)]
#[path = "../oracle"]
mod by_rules {
    pub mod ecc;
    pub mod rules;
}
#[allow(dead_code)]
#[path = "../../docs/source/ecc.rs"]
mod document_000;
mod ends;
#[allow(dead_code)]
#[path = "../vectors/frames.rs"]
mod frames;
#[allow(dead_code)]
#[path = "../vectors/lines.rs"]
mod lines;
mod nalgebra;

/// document 001's errors that document 000 names
mod error {
    pub enum BoostTrackErr {
        InvalidInput,
        NotConverged,
    }
}

use by_rules::ecc;
use ends::{EccConfig, Pair};
use frames::seen;
use lines::{about, below, pick, Stream};

const SEED: u64 = 20261115;

/// the least rho that a caller who wants silence on flat ground may take
const FLOOR: f32 = 0.8;

type Make = fn(&mut Stream, usize, usize) -> Vec<u8>;

fn flat(s: &mut Stream, w: usize, h: usize) -> Vec<u8> {
    vec![1 + below(s, 255) as u8; w * h]
}

/// one gray, and 1, 3 or 7 levels of noise on it
fn grain(s: &mut Stream, w: usize, h: usize) -> Vec<u8> {
    let (level, most) = (below(s, 240) as u8, pick(s, &[1, 3, 7]));
    (0..w * h).map(|_| level + below(s, most + 1) as u8).collect()
}

fn sharp(s: &mut Stream, w: usize, h: usize) -> Vec<u8> {
    match below(s, 2) {
        0 => s.bytes(w * h),
        _ => {
            let (seed, cell) = (s.next() as u64, pick(s, &[4.0, 6.0, 9.0]));
            seen(seed, cell, w, h, [0.0; 3])
        }
    }
}

/// sides and settings
type Shape = fn(&mut Stream) -> (usize, usize, EccConfig);

/// the default settings but for the filter and the edge
fn with(filter: usize, edge: usize) -> EccConfig {
    EccConfig { gauss_filt_size: filter, resize_long_edge: Some(edge), ..EccConfig::default() }
}

fn sides(s: &mut Stream, least: usize, most: usize) -> (usize, usize) {
    (least + below(s, most - least + 1), least + below(s, most - least + 1))
}

fn wide(s: &mut Stream) -> usize {
    3 + 2 * below(s, 15)
}

fn small_sharp(s: &mut Stream) -> (usize, usize, EccConfig) {
    let (w, h) = sides(s, 5, 64);
    (w, h, with(1, 0))
}

fn small_blurred(s: &mut Stream) -> (usize, usize, EccConfig) {
    let (w, h) = sides(s, 5, 32);
    (w, h, with(wide(s), 0))
}

fn middle_blurred(s: &mut Stream) -> (usize, usize, EccConfig) {
    let (w, h) = sides(s, 33, 128);
    (w, h, with(wide(s), 0))
}

fn resized(s: &mut Stream) -> (usize, usize, EccConfig) {
    let (w, h) = sides(s, 65, 256);
    (w, h, with(1, 8 + below(s, 57)))
}

fn resized_blurred(s: &mut Stream) -> (usize, usize, EccConfig) {
    let (w, h) = sides(s, 65, 256);
    (w, h, with(wide(s), 8 + below(s, 57)))
}

fn full(s: &mut Stream) -> (usize, usize, EccConfig) {
    let (w, h) = sides(s, 257, 350);
    (w, h, with(1, 350))
}

fn full_blurred(s: &mut Stream) -> (usize, usize, EccConfig) {
    let (w, h) = sides(s, 257, 350);
    (w, h, with(pick(s, &[3, 5, 9]), 350))
}

fn camera(s: &mut Stream) -> (usize, usize, EccConfig) {
    (640, 480, with(pick(s, &[1, 1, 3, 5]), 350))
}

fn camera_256(s: &mut Stream) -> (usize, usize, EccConfig) {
    (640, 480, with(pick(s, &[1, 1, 3, 5]), 256))
}

fn one_pass(s: &mut Stream) -> (usize, usize, EccConfig) {
    let (w, h, cfg) = full(s);
    (w, h, EccConfig { max_iter: 1, ..cfg })
}

fn large(s: &mut Stream) -> (usize, usize, EccConfig) {
    let side = pick(s, &[512, 768, 1024]);
    (side, side, EccConfig { max_iter: 20, ..with(1, 0) })
}

/// what the calls of a row have given
#[derive(Default)]
struct Row {
    numbers: [usize; 11],
    rho: Vec<f32>,
    far: f32,
}

impl Row {
    fn add(&mut self, o: &ecc::Outcome) {
        self.numbers[o.number as usize] += 1;
        if o.number == 0 {
            self.rho.push(o.rho);
            self.far = self.far.max(o.tx.abs()).max(o.ty.abs());
        }
    }

    fn largest(&self) -> f32 {
        self.rho.iter().fold(0.0, |m, r| m.max(r.abs()))
    }

    fn from(&self, floor: f32) -> usize {
        self.rho.iter().filter(|r| **r >= floor).count()
    }

    fn print(&self, name: &str) {
        let n = &self.numbers;
        let told = [n.iter().sum(), n[6], n[8], n[9], n[5], n[10], n[0]].map(|k| format!("{k:>7}")).concat();
        println!("{name:44}{told}  {:8.1e}{:>6}{:>8.1}", self.largest(), self.from(FLOOR), self.far);
    }
}

/// so many pairs, template and input of these kinds
fn row(seed: u64, count: usize, shape: Shape, template: Make, input: Make) -> Row {
    let (mut s, mut row) = (Stream(seed), Row::default());
    for _ in 0..count {
        let (w, h, cfg) = shape(&mut s);
        let frames = (template(&mut s, w, h), input(&mut s, w, h));
        row.add(&Pair { w, h, frames, cfg }.by_the_rules());
    }
    row
}

/// a frame of one gray: shapes, with how many pairs of each
const SHAPES: [(&str, Shape, usize); 11] = [
    ("filter 1, sides 5 to 64", small_sharp, 20_000),
    ("filter 3 to 31, sides 5 to 32", small_blurred, 60_000),
    ("filter 3 to 31, sides 33 to 128", middle_blurred, 2_000),
    ("filter 1, 65..256 resized to 8..64", resized, 10_000),
    ("filter 3 to 31, 65..256 resized to 8..64", resized_blurred, 10_000),
    ("filter 1, sides 257 to 350", full, 400),
    ("the same, one pass", one_pass, 400),
    ("filter 3, 5, 9, sides 257 to 350", full_blurred, 300),
    ("640 by 480 resized to 256, filter 1, 3, 5", camera_256, 300),
    ("640 by 480 resized to 350, filter 1, 3, 5", camera, 200),
    ("filter 1, 512, 768, 1,024 squared", large, 60),
];

fn one_gray(seed: u64) {
    for (what, template, input) in [
        ("a flat template, a sharp input", flat as Make, sharp as Make),
        ("a flat template, an input of grain", flat, grain),
        ("a sharp template, a flat input", sharp, flat),
        ("a template of grain, a flat input", grain, flat),
        ("two flat frames", flat, flat),
    ] {
        println!("{what:44}  pairs      6      8      9      5     10   pose  |rho| to >=.8  shift");
        SHAPES.iter().for_each(|(name, shape, count)| row(seed, *count, *shape, template, input).print(&format!("  {name}")));
    }
}

/// a faint texture moved a little, with grain on both frames; the pose it was moved by
fn moved(s: &mut Stream, side: usize, cfg: EccConfig) -> (Pair, [f32; 3]) {
    let (seed, cell) = (s.next() as u64, pick(s, &[6.0, 9.0]));
    let pose = [about(s, 0.02), about(s, 1.0), about(s, 1.0)];
    let mut seen_from = |pose| seen(seed, cell, side, side, pose).iter().map(|v| 100 + v / 8 + below(s, 4) as u8).collect::<Vec<u8>>();
    let frames = (seen_from(pose), seen_from([0.0; 3]));
    (Pair { w: side, h: side, frames, cfg }, pose)
}

/// a pose within a pixel and 0.05 of the one that the frame was moved by
fn is_right(o: &ecc::Outcome, pose: [f32; 3]) -> bool {
    o.number == 0 && (o.theta - pose[0]).abs() < 0.05 && (o.tx - pose[1]).abs() < 1.0 && (o.ty - pose[2]).abs() < 1.0
}

/// grain on flat ground in both frames, unrelated: so many pairs
fn of_grain(s: &mut Stream, side: usize, filter: usize, count: usize) -> Row {
    let mut row = Row::default();
    for _ in 0..count {
        let frames = (grain(s, side, side), grain(s, side, side));
        row.add(&Pair { w: side, h: side, frames, cfg: with(filter, 350) }.by_the_rules());
    }
    row
}

/// the rho of the right poses, of so many faint textures under grain that did move
fn of_moved(s: &mut Stream, side: usize, filter: usize, count: usize) -> Vec<f32> {
    let mut ends = (0..count).map(|_| {
        let (pair, pose) = moved(s, side, with(filter, 350));
        (pair.by_the_rules(), pose)
    });
    ends.by_ref().filter(|(o, pose)| is_right(o, *pose)).map(|(o, _)| o.rho).collect()
}

/// both, side by side
fn ground(seed: u64, sides: &[(usize, usize)], filters: &[usize]) {
    println!("  side filter  pairs  poses  rho to  >=.8   moved  right  rho from  >=.8");
    for &(side, count) in sides {
        for &filter in filters {
            let mut s = Stream(seed);
            let row = of_grain(&mut s, side, filter, count);
            let right = of_moved(&mut s, side, filter, count);
            let least = right.iter().fold(f32::INFINITY, |m, r| m.min(*r));
            let kept = right.iter().filter(|r| **r >= FLOOR).count();
            println!(
                "{side:>6}{filter:>7}{count:>7}{:>7}{:>8.3}{:>6}{count:>8}{:>7}{least:>10.3}{kept:>6}",
                row.numbers[0], row.largest(), row.from(FLOOR), right.len()
            );
        }
    }
}

/// grain in both frames, not resized: sums above 2^24 round, and the means are off
fn rounded_means(seed: u64) {
    println!("grain in both frames, not resized, filter 1, at most three passes: numbers, rho");
    for side in [256, 350, 512, 1024, 2048, 4096] {
        let mut s = Stream(seed);
        let ends: Vec<String> = (0..6)
            .map(|_| {
                let frames = (grain(&mut s, side, side), grain(&mut s, side, side));
                let o = Pair { w: side, h: side, frames, cfg: EccConfig { max_iter: 3, ..with(1, 0) } }.by_the_rules();
                if o.number == 0 { format!("0 {:.4}", o.rho) } else { o.number.to_string() }
            })
            .collect();
        println!("  {side}: {}", ends.join(", "));
    }
}

/// 5 by 5, a flat template, a black input with one white pixel, the default settings but for the filter: the first pair that ends in a pose
fn smallest() -> bool {
    let all = (1..32).step_by(2).flat_map(|filter| (0..25).flat_map(move |place| (1..=255u8).map(move |gray| (filter, place, gray))));
    let pair = |(filter, place, gray): (usize, usize, u8)| {
        let input = (0..25).map(|i| if i == place { 255 } else { 0 }).collect();
        Pair { w: 5, h: 5, frames: (vec![gray; 25], input), cfg: with(filter, 350) }
    };
    let mut poses = all.filter(|p| pair(*p).by_the_rules().number == 0);
    let (filter, place, gray) = poses.next().expect("there is one");
    let e = pair((filter, place, gray)).ends();
    println!("5 by 5, a template of gray {gray}, a black input with a white pixel at {place}, filter {filter}; such poses in all: {}", 1 + poses.count());
    let (a, b) = (e.rules, e.rust);
    println!("  rules:        number {}, passes {}, theta {:e}, tx {:e}, ty {:e}, rho {:e}", a.number, a.passes, a.theta, a.tx, a.ty, a.rho);
    println!("  document 000: number {}, passes {}, theta {:e}, tx {:e}, ty {:e}, rho {:e}; its own answer: {}", b.number, b.passes, b.theta, b.tx, b.ty, b.rho, e.held);
    e.held
}

/// whether flat frames stay of one number, and of their own gray, when they are made ready: resized, and then blurred too
fn stays_flat(seed: u64) {
    let mut s = Stream(seed);
    let mut told = |what: &str, count: usize, blurred: bool| {
        let (mut uneven, mut other) = (0, 0);
        for _ in 0..count {
            let (w, h) = sides(&mut s, 5, 300);
            let (tw, th, _, _) = ecc::resized(w, h, Some(below(&mut s, 300)));
            let (gray, filter) = (1 + below(&mut s, 255) as u8, if blurred { wide(&mut s) } else { 1 });
            let image = ecc::prepared(&vec![gray; w * h], w, h, tw, th, filter);
            uneven += image.iter().any(|x| *x != image[0]) as usize;
            other += (image[0] != gray as f32) as usize;
        }
        println!("flat frames {what}: {count}; not of one number {uneven}; of another number than their gray {other}");
    };
    told("resized", 20_000, false);
    told("resized and blurred", 2_000, true);
}

fn main() {
    let seed = std::env::args().nth(1).map_or(SEED, |n| n.parse().expect("SEED is a number"));
    let held = smallest();
    stays_flat(seed);
    one_gray(seed);
    println!("grain in both frames, and a faint texture (32 levels) under grain, moved by up to a pixel and 0.02");
    ground(seed, &[(16, 4000), (24, 4000), (32, 4000), (48, 1500), (64, 1000), (128, 200), (256, 60)], &[1, 3, 5, 9, 15, 31]);
    println!("the floor was chosen from that table; held to pairs of another seed, and more of them");
    ground(seed + 1, &[(24, 60_000), (32, 40_000), (48, 15_000), (64, 8_000), (128, 1_000), (256, 100)], &[1, 3, 5]);
    rounded_means(seed);
    std::process::exit(!held as i32);
}
