//! The library's time against document 000's (the oracle of tools/oracle), on the same frames in one run.
//!
//!   speed [ROUNDS]
//!
//! A round times both, one after the other, with ten passes and with none; a short call is repeated until it lasts some milliseconds. Then come
//! pairs whose first pass leads to a far pose (tools/vectors/frames.rs), with two passes and with one: what is timed is a pass at that pose.
//! There are at least ROUNDS rounds (15 where it is left out), and as many as fit a second and a half; at 4096x4096 there are two passes and at
//! most five rounds, since one takes seconds. What is printed comes from their medians. Time is the thread's processor time: it goes on in the kernel, as where memory is handed out, and stands while other programs
//! run. That clock is the C library's, for 64-bit Linux. Each call must do all its passes and give number 0, and both sides must give the
//! same bits.

extern crate oracle;
#[allow(dead_code)]
#[path = "../vectors/frames.rs"]
mod frames;
#[allow(dead_code)]
#[path = "../vectors/lines.rs"]
mod lines;
#[allow(dead_code)]
#[path = "../../rust/quayhollow.rs"]
mod quayhollow;
use oracle::ecc::{self, EccConfig};
use oracle::rules;
use quayhollow::{Answer, Settings};
use std::hint::black_box;

const PASSES: usize = 10;
/// the side from which on there are fewer passes and rounds, with how many of them
const WIDE: usize = 4096;
const WIDE_PASSES: usize = 2;
const WIDE_ROUNDS: usize = 5;
/// the shortest measurement and the shortest case, in nanoseconds
const LEAST: f64 = 4e6;
const LONG: f64 = 1.5e9;

/// two frames with their settings, the memory that is lent, and with how many passes the longer and the shorter call is made
struct Case {
    side: usize,
    passes: [usize; 2],
    settings: Settings,
    template: Vec<u8>,
    input: Vec<u8>,
    work: Vec<f32>,
    marks: Vec<u64>,
}

/// number, passes, and the bits of theta, tx, ty, rho
type Said = (u8, usize, [u32; 4]);

/// nanoseconds of a call with all passes and of one with none
#[derive(Clone, Copy)]
struct Times {
    whole: f64,
    none: f64,
}

impl Times {
    fn passes(self) -> f64 {
        self.whole - self.none
    }
}

/// a smooth texture in the whole plane, 0 to 255
fn texture(x: f64, y: f64) -> u8 {
    let waves = 45.0 * (0.31 * x + 0.17 * y).sin() + 35.0 * (0.23 * y - 0.12 * x + 1.0).sin() + 25.0 * (0.09 * x - 0.05 * y + 2.0).sin();
    (waves + 20.0 * (0.04 * x * (0.02 * y).cos() + 0.06 * y).sin() + 128.0).round() as u8
}

/// the texture turned about the top left corner and shifted
fn frame(side: usize, turn: f64, dx: f64, dy: f64) -> Vec<u8> {
    let (s, c) = turn.sin_cos();
    let at = |i: usize| ((i % side) as f64, (i / side) as f64);
    (0..side * side).map(at).map(|(x, y)| texture(c * x - s * y + dx, s * x + c * y + dy)).collect()
}

impl Case {
    fn new(side: usize, filter: usize, edge: usize) -> Case {
        Case {
            side,
            passes: [if side < WIDE { PASSES } else { WIDE_PASSES }, 0],
            settings: Settings { eps: -1.0, max_iter: PASSES, filter, edge },
            template: frame(side, 0.0, 0.0, 0.0),
            input: frame(side, 0.16 / side as f64, 0.7, -0.4),
            work: vec![0.0; quayhollow::work_len(side, side, edge)],
            marks: vec![0; quayhollow::marks_len(side, side, edge)],
        }
    }

    /// a pair whose first pass leads near a pose
    fn far(side: usize, phases: [f64; 3], pose: [f64; 3]) -> Case {
        let (template, input) = frames::jumped(phases, side, side, pose);
        Case { passes: [2, 1], template, input, ..Case::new(side, 31, 0) }
    }

    /// how many rows the second pass walks: from the first to the last that hold a mark
    fn rows(&self) -> usize {
        let (side, n) = (self.side, self.side * self.side);
        let [theta, tx, ty, _] = self.rust(1).2.map(f32::from_bits);
        let (map, zero) = (ecc::affine_from_theta_tx_ty(theta, tx, ty), vec![0.0; n]);
        let (mut out, mut valid) = ([zero.clone(), zero.clone(), zero.clone()], vec![false; n]);
        let [a, b, c] = &mut out;
        ecc::warp_three_inverse_map(&zero, &zero, &zero, side, side, &map, a, b, c, &mut valid);
        ecc::marked_rows(&valid, side).map_or(0, |(first, last)| last - first + 1)
    }

    /// pixels after resizing
    fn pixels(&self) -> usize {
        self.work.len() / 12
    }

    fn rust(&self, max_iter: usize) -> Said {
        let s = self.settings;
        let cfg = EccConfig { eps: s.eps, max_iter, gauss_filt_size: s.filter, resize_long_edge: (s.edge > 0).then_some(s.edge) };
        let o = ecc::find_transform_ecc_euclidean(&self.template, &self.input, self.side, self.side, cfg, self.work.len(), self.marks.len());
        (o.number, o.passes, [o.theta, o.tx, o.ty, o.rho].map(f32::to_bits))
    }

    fn ours(&mut self, max_iter: usize) -> Said {
        let settings = Settings { max_iter, ..self.settings };
        let o = quayhollow::align(&self.template, &self.input, self.side, self.side, settings, &mut self.work, &mut self.marks);
        let pose = match o.answer {
            Answer::Posed(p) => [p.theta, p.tx, p.ty, p.rho].map(f32::to_bits),
            Answer::Refused(_) => [0; 4],
        };
        (o.answer.number(), o.passes as usize, pose)
    }

    /// both sides say the same, with number 0 and all passes, and the library leaves zeros
    fn check(&mut self) {
        for max_iter in self.passes {
            let (theirs, ours) = (self.rust(max_iter), self.ours(max_iter));
            assert_eq!(theirs, ours, "different bits, side {}", self.side);
            assert_eq!((0, max_iter), (ours.0, ours.1), "number or passes, side {}", self.side);
        }
        let clear = self.work.iter().all(|v| v.to_bits() == 0) && self.marks.iter().all(|&m| m == 0);
        assert!(clear, "memory not cleared, side {}", self.side);
    }
}

extern "C" {
    fn clock_gettime(clock: i32, time: *mut [i64; 2]) -> i32;
}

/// nanoseconds that this thread has run
fn now() -> f64 {
    const THREAD: i32 = 3;
    let mut time = [0; 2];
    // SAFETY: time is seconds and nanoseconds, two numbers of 64 bits
    let failed = unsafe { clock_gettime(THREAD, &mut time) };
    assert_eq!(failed, 0, "no clock");
    time[0] as f64 * 1e9 + time[1] as f64
}

/// nanoseconds of one call, of `times` calls in a row
fn timed(times: usize, mut call: impl FnMut() -> Said) -> f64 {
    let start = now();
    for _ in 0..times {
        black_box(call());
    }
    (now() - start) / times as f64
}

/// how many calls last long enough
fn repeats(call: impl FnMut() -> Said) -> usize {
    (LEAST / timed(1, call)).ceil().max(1.0) as usize
}

fn median(mut xs: Vec<f64>) -> f64 {
    xs.sort_by(f64::total_cmp);
    xs[xs.len() / 2]
}

/// the medians of document 000 and of the library, taken in turn
fn measured(case: &mut Case, rounds: usize) -> [Times; 2] {
    let mut taken = [const { Vec::new() }; 4];
    let [many, few] = case.passes;
    let rounds = if case.side < WIDE { rounds } else { rounds.min(WIDE_ROUNDS) };
    let long = if case.side < WIDE { LONG } else { 0.0 };
    let (whole, none) = (repeats(|| case.rust(many)), repeats(|| case.rust(few)));
    let start = now();
    while taken[0].len() < rounds || now() - start < long {
        taken[0].push(timed(whole, || case.rust(many)));
        taken[1].push(timed(whole, || case.ours(many)));
        taken[2].push(timed(none, || case.rust(few)));
        taken[3].push(timed(none, || case.ours(few)));
    }
    let [a, b, c, d] = taken.map(median);
    [Times { whole: a, none: c }, Times { whole: b, none: d }]
}

/// a line of the table
fn line(case: &Case, [theirs, ours]: [Times; 2]) -> String {
    let n = case.pixels() as f64;
    let three = |a: f64, b: f64, per: f64| format!("{:>6.2} {:>6.2} {:>5.2}", a / per, b / per, a / b);
    let edge = if case.settings.edge == 0 { "none".into() } else { case.settings.edge.to_string() };
    format!(
        "{:>9} {:>6} {:>6} | {} | {} | {:>5.2}",
        format!("{0}x{0}", case.side),
        case.settings.filter,
        edge,
        three(theirs.passes(), ours.passes(), n * (case.passes[0] - case.passes[1]) as f64),
        three(theirs.none, ours.none, n),
        theirs.whole / ours.whole,
    )
}

/// poses far from rest, the shift as a share of the side, and phases of the waves at which a second pass goes through: a steep turn, and half a frame
/// down
const FAR: [(&str, [f64; 3], [f64; 3]); 2] = [("turned by 1.2", [0.0, 0.9, 2.7], [1.2, 0.0, 0.0]), ("half a frame", [0.0, 1.8, 2.7], [0.0, 0.0, 0.5])];

/// a second table: a pass at a far pose
fn far(side: usize, rounds: usize) {
    println!("\nOne pass at a far pose, {side}x{side}: the second of a call, whose first pass led there.");
    println!("{:>16} {:>5} | {:>6} {:>6} {:>5}", "pose", "rows", "000", "ours", "ratio");
    for (name, phases, [theta, tx, ty]) in FAR {
        let mut case = Case::far(side, phases, [theta, tx * side as f64, ty * side as f64]);
        case.check();
        let [theirs, ours] = measured(&mut case, rounds);
        let (a, b, n) = (theirs.passes(), ours.passes(), case.pixels() as f64);
        println!("{name:>16} {:>5} | {:>6.2} {:>6.2} {:>5.2}", case.rows(), a / n, b / n, a / b);
    }
}

/// nanoseconds that the rules' sine and cosine take the oracle in a pass: twice each
fn mathematics() -> f64 {
    let call = || {
        let theta = black_box(0.0123f32);
        (0, 0, [rules::cos(theta), rules::sin(theta), 0.0, 0.0].map(f32::to_bits))
    };
    2.0 * median((0..11).map(|_| timed(10_000, call)).collect())
}

const HEAD: &str = "\
Document 000 in Rust against the library: one thread, its processor time, both compiled for no processor in particular, and document 000 as a
crate of its own, optimised across its files. The ratio is document 000's time over the library's: above 1 the library is faster. Passes:
nanoseconds for each pixel and pass, ten passes less none (two at 4096x4096).
Preparing: nanoseconds for each pixel, a call with max_iter 0. Pixels are counted after resizing; an edge of 350 changes nothing at sides up
to 350. Memory: document 000 allocates its images in each call, zeroed, and frees them; what the system takes to hand out pages is in its
times, mostly in preparing, and where a page is first touched by a pass, in the passes. The library works in lent memory that the call before
left cleared, and clears work and marks at the end of each call, which is in preparing.";

fn main() {
    let rounds = std::env::args().nth(1).map_or(15, |a| a.parse().expect("ROUNDS is a number"));
    println!("{HEAD}\n");
    println!("{:>24} | passes             | preparing          | call", "");
    println!("{:>9} {:>6} {:>6} | {:>6} {:>6} {:>5} | {:>6} {:>6} {:>5} | ratio", "sides", "filter", "edge", "000", "ours", "ratio", "000", "ours", "ratio");
    for (side, edges) in [(32, &[0][..]), (128, &[0]), (350, &[0]), (1024, &[0, 350]), (WIDE, &[0])] {
        for &edge in edges {
            for filter in [1, 5] {
                let mut case = Case::new(side, filter, edge);
                case.check();
                let times = measured(&mut case, rounds);
                case.check();
                println!("{}", line(&case, times));
            }
        }
    }
    far(350, rounds);
    println!("\nEvery call: number 0, all passes, the same bits on both sides. Medians of {rounds} rounds or more, at {WIDE}x{WIDE} of at most {WIDE_ROUNDS}.");
    println!("The oracle has the rules' sine and cosine in place of the machine's: {:.0} ns a pass.", mathematics());
}
