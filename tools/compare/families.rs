//! The families of cases: each case depends on the seed, its family and its index alone.
//!
//! Marks are lent in words of sixty-four, as many as the pixels need (document 02, request 5), with garbage in all their bits. The ninth family,
//! 'around whole words', is for that: 63, 64, 65, 127, 128 and 129 pixels, rows that are whole words or a pixel off, and a word too few, just
//! enough and one more, by the alignment and by the aligner. 'Lengths one off' and 'aligner sequences' lend a word too few as well.
//! The tenth, 'far poses', has pairs whose first pass leads to a large turn or shift, so that later passes mark some rows only (request 8).

use aligner::pixels;
use case::{Call, Case};
use ecc::words;
use frames::{board, faint_frame, frame, jumped, pair, seen};
use lines::{about, below, pick, Stream};
use quayhollow::Settings;

pub struct Family {
    pub name: &'static str,
    /// calls of a million
    pub share: u64,
    /// calls in each case
    pub calls: u64,
    make: fn(&mut Stream, u64) -> Case,
}

/// frames in a sequence
const LONG: u64 = 250;

pub const FAMILIES: [Family; 10] = [
    Family { name: "small frames, all of a kind", share: 260_000, calls: 1, make: exhaustive },
    Family { name: "around the limits", share: 140_000, calls: 1, make: limits },
    Family { name: "textures with known motion", share: 110_000, calls: 1, make: textured },
    Family { name: "nearly flat", share: 110_000, calls: 1, make: faint },
    Family { name: "damaged settings", share: 95_000, calls: 1, make: damaged },
    Family { name: "lengths one off", share: 84_600, calls: 1, make: lengths },
    Family { name: "large sides", share: 400, calls: 1, make: large },
    Family { name: "aligner sequences", share: 100_000, calls: LONG, make: sequence },
    Family { name: "around whole words", share: 40_000, calls: 4, make: wordy },
    Family { name: "far poses", share: 60_000, calls: 1, make: far },
];

impl Family {
    /// how many cases are run for so many calls in all; at least one
    pub fn cases(&self, count: u64) -> u64 {
        (count * self.share / 1_000_000 / self.calls).max(1)
    }
}

/// the case of a family at an index
pub fn case(seed: u64, family: usize, index: u64) -> Case {
    let mut z = seed ^ (family as u64 + 1).wrapping_mul(0x9e37_79b9_7f4a_7c15) ^ index.wrapping_mul(0xd134_2543_de82_ef95);
    z = (z ^ z >> 30).wrapping_mul(0xbf58_476d_1ce4_e5b9);
    z = (z ^ z >> 27).wrapping_mul(0x94d0_49bb_1331_11eb);
    (FAMILIES[family].make)(&mut Stream(z ^ z >> 31), index)
}

/// settings that are taken
fn settings(s: &mut Stream) -> Settings {
    Settings {
        eps: pick(s, &[1e-4, 1e-4, 1e-3, 1e-6, 0.05, -1.0, 0.0, f32::NAN]),
        max_iter: pick(s, &[1, 2, 3, 10, 10, 30, 100]),
        filter: pick(s, &[1, 1, 1, 3, 5, 7, 31]),
        edge: pick(s, &[0, 0, 350, 8, 9, 12]),
    }
}

/// a call of the alignment, with room for no more or a little more than it needs
fn single(s: &mut Stream, w: usize, h: usize, frames: (Vec<u8>, Vec<u8>), settings: Settings) -> Case {
    let n = pixels(w, h, settings.edge);
    let call = Call { template: Some(frames.0), input: frames.1, w, h, settings };
    Case { state: [0; 3], store: 0, work: 12 * n + below(s, 4), marks: words(n) + below(s, 4), salt: s.next(), calls: vec![call] }
}

/// a ground of w by h, places in it and values: every pair of frames with these values at these places is a case
struct Kind {
    w: usize,
    h: usize,
    ground: fn(usize) -> u8,
    places: &'static [usize],
    values: &'static [u8],
}

const TINY: [usize; 5] = [0, 1, 2, 3, 4];

impl Kind {
    const fn tiny(w: usize, h: usize) -> Kind {
        Kind { w, h, ground: |_| 0, places: TINY.split_at(w * h).0, values: &[3, 200] }
    }

    const fn five(ground: fn(usize) -> u8, places: &'static [usize], values: &'static [u8]) -> Kind {
        Kind { w: 5, h: 5, ground, places, values }
    }

    /// how many frames
    fn frames(&self) -> u64 {
        (self.values.len() as u64).pow(self.places.len() as u32)
    }

    fn frame(&self, mut i: u64) -> Vec<u8> {
        let mut f: Vec<u8> = (0..self.w * self.h).map(self.ground).collect();
        for &p in self.places {
            f[p] = self.values[i as usize % self.values.len()];
            i /= self.values.len() as u64;
        }
        f
    }
}

/// two-valued frames of up to five pixels; 5x5 frames: bright pixels on black, steps of one, columns, a slope
const KINDS: [Kind; 14] = [
    Kind::tiny(1, 1),
    Kind::tiny(2, 1),
    Kind::tiny(1, 2),
    Kind::tiny(3, 1),
    Kind::tiny(1, 3),
    Kind::tiny(4, 1),
    Kind::tiny(1, 4),
    Kind::tiny(2, 2),
    Kind::tiny(5, 1),
    Kind::tiny(1, 5),
    Kind::five(|_| 0, &[0, 6, 8, 12, 16, 18, 13, 24], &[0, 255]),
    Kind::five(|_| 7, &[6, 8, 12, 16, 23], &[6, 7, 8]),
    Kind::five(|i| (i % 5 * 10) as u8, &[6, 12, 13, 17], &[0, 15, 40, 255]),
    Kind::five(|i| (i % 5 * 10 + i / 5 * 23) as u8, &[2, 11, 12, 18], &[9, 77, 130, 250]),
];

/// every pair of every kind once, in mixed order and with the default settings; further on with others
fn exhaustive(s: &mut Stream, index: u64) -> Case {
    let pairs = |k: &Kind| k.frames() * k.frames();
    let total: u64 = KINDS.iter().map(pairs).sum();
    let mut at = index % total * 1_000_003 % total;
    let set = if index < total { Settings::default() } else { settings(s) };
    let mut kinds = KINDS.iter();
    let mut kind = kinds.next().unwrap();
    while at >= pairs(kind) {
        at -= pairs(kind);
        kind = kinds.next().unwrap();
    }
    let both = (kind.frame(at % kind.frames()), kind.frame(at / kind.frames()));
    single(s, kind.w, kind.h, both, set)
}

/// one setting or side at or next to a limit
fn limits(s: &mut Stream, _: u64) -> Case {
    let (mut w, mut h) = (5 + below(s, 8), 5 + below(s, 8));
    let mut set = settings(s);
    match below(s, 6) {
        0 => set.filter = below(s, 36),
        1 => set.max_iter = pick(s, &[0, 1, 2, 999, 1000, 1001, 1002]),
        2 => set.edge = pick(s, &[1, 7, 8, 9, w.max(h) - 1, w.max(h), w.max(h) + 1, w.min(h), 4096, 4097]),
        3 => w = below(s, 6),
        4 => h = below(s, 6),
        _ => {
            (w, h) = (below(s, 7), below(s, 7));
            set = Settings { filter: below(s, 36), max_iter: pick(s, &[0, 1, 5, 1000, 1001]), edge: below(s, 12), ..set };
        }
    }
    let both = pair(s, w, h);
    single(s, w, h, both, set)
}

/// a texture seen from two places
fn textured(s: &mut Stream, _: u64) -> Case {
    let side = |s: &mut Stream| 8 + below(s, 57) * below(s, 57) / 56;
    let (w, h) = (side(s), side(s));
    let reach = pick(s, &[0.3, 1.0, 1.0, 3.0]);
    let pose = [about(s, 0.05 * reach), about(s, reach), about(s, reach)];
    let (seed, cell) = (s.next() as u64, pick(s, &[3.0, 5.0, 8.0, 13.0]));
    let set = Settings { eps: pick(s, &[1e-4, 1e-4, 1e-5, 1e-6]), max_iter: pick(s, &[5, 20, 100]), ..settings(s) };
    let edge = pick(s, &[set.edge, 0, 0, w.max(h) / 2, w.max(h) - 1]);
    let both = (seen(seed, cell, w, h, pose), seen(seed, cell, w, h, [0.0; 3]));
    single(s, w, h, both, Settings { edge, ..set })
}

/// frames with next to nothing on them
fn faint(s: &mut Stream, _: u64) -> Case {
    let (w, h) = (5 + below(s, 12), 5 + below(s, 12));
    let a = faint_frame(s, w, h);
    let b = match below(s, 4) {
        0 => a.clone(),
        1 => a.iter().skip(1).chain(&a[..1]).copied().collect(),
        2 => frame(s, w, h),
        _ => faint_frame(s, w, h),
    };
    let both = if below(s, 2) == 0 { (a, b) } else { (b, a) };
    let set = Settings { filter: 1 + 2 * below(s, 16), ..settings(s) };
    single(s, w, h, both, set)
}

/// any bits of eps; the other settings of any size, some at a time
fn damaged(s: &mut Stream, _: u64) -> Case {
    let (w, h) = (5 + below(s, 6), 5 + below(s, 6));
    let wild = |s: &mut Stream| match below(s, 4) {
        0 => usize::MAX - below(s, 3),
        1 => (s.next() as usize) << 32 | s.next() as usize,
        2 => (1usize << below(s, 64)).wrapping_add(below(s, 3)).wrapping_sub(1),
        _ => s.next() as usize,
    };
    let mut set = settings(s);
    let special = [f32::NAN, -f32::NAN, f32::INFINITY, f32::NEG_INFINITY, -0.0, f32::MAX, f32::MIN, f32::MIN_POSITIVE, 1e-45, -1e-45];
    set.eps = if below(s, 3) == 0 { pick(s, &special) } else { f32::from_bits(s.next()) };
    match below(s, 8) {
        0 => set.filter = wild(s),
        1 => set.max_iter = wild(s),
        2 | 3 => set.edge = wild(s),
        4 => set = Settings { filter: wild(s), max_iter: wild(s), edge: wild(s), ..set },
        _ => (),
    }
    let both = pair(s, w, h);
    single(s, w, h, both, set)
}

/// each length right, one short or one long; by the alignment and by the aligner
fn lengths(s: &mut Stream, _: u64) -> Case {
    let (w, h) = (5 + below(s, 6), 5 + below(s, 6));
    let (mut a, mut b) = pair(s, w, h);
    let set = settings(s);
    let n = pixels(w, h, set.edge);
    let off = |s: &mut Stream, right: usize| right + pick(s, &[0, 1, 1, 1, 1, 2]) - 1;
    let aligner = below(s, 2) == 0;
    a.resize(off(s, w * h), 9);
    b.resize(off(s, w * h), 9);
    let (work, marks, store) = (off(s, 12 * n), off(s, words(n)), off(s, w * h));
    let held = pick(s, &[0, 1, 1, 1, 1, 7, u64::MAX]);
    let state = [held, pick(s, &[w, w, w, w, w, h, w + 1]) as u64, pick(s, &[h, h, h, h, h, w, 0]) as u64];
    let call = Call { template: if aligner { None } else { Some(a) }, input: b, w, h, settings: set };
    Case { state, store, work, marks, salt: s.next(), calls: vec![call] }
}

/// the place of the family of large sides, and the indexes in it at which the largest frames stand
pub const LARGE: usize = 6;
pub const LARGEST: [u64; 3] = [100, 101, 102];

/// sides of 4,096 and 4,097, and frames of up to a million pixels
fn large(s: &mut Stream, index: u64) -> Case {
    if let Some(which) = LARGEST.iter().position(|i| *i == index) {
        return largest(s, which);
    }
    let (mut set, seed, cell) = (settings(s), s.next() as u64, pick(s, &[5.0, 8.0, 20.0]));
    let side = pick(s, &[4096, 4096, 4096, 4097, 4095]);
    let thin = pick(s, &[1, 2, 5, 8, 17, 40]);
    let (w, h) = match below(s, 40) {
        0 => (1024, 1024),
        1..=4 => (200 + below(s, 500), 200 + below(s, 500)),
        5..=22 => (side, thin),
        _ => (thin, side),
    };
    set.edge = pick(s, &[0, 0, 350, 100, 4095, 4096]);
    set.max_iter = pick(s, &[1, 2, 5]);
    let pose = [about(s, 0.001), about(s, 1.0), about(s, 1.0)];
    let both = (seen(seed, cell, w, h, pose), seen(seed, cell, w, h, [0.0; 3]));
    single(s, w, h, both, set)
}

/// a texture of 4,096 by 4,096; boards whose determinant is no number and infinite
fn largest(s: &mut Stream, which: usize) -> Case {
    let (side, filter) = [(4096, 5), (4096, 1), (2496, 1)][which];
    let both = match which {
        0 => (seen(5, 8.0, side, side, [0.0002, 0.7, -0.4]), seen(5, 8.0, side, side, [0.0; 3])),
        _ => (board(4, side, side, 0), board(4, side, side, 1)),
    };
    single(s, side, side, both, Settings { eps: 1e-4, max_iter: 3, filter, edge: 0 })
}

/// the next frame of a sequence: most go on with a moving texture; some are of another sort, of other sides, or refused
fn next_frame(s: &mut Stream, last: &Call, scene: u64, place: [f32; 3]) -> Call {
    let mut c = last.clone();
    let dice = below(s, 40);
    if dice < 4 {
        (c.w, c.h) = (5 + below(s, 14), 5 + below(s, 14));
    }
    if dice == 4 || dice == 5 {
        c.settings = settings(s);
    }
    c.input = match dice {
        6..=12 => frame(s, c.w, c.h),
        13..=15 => faint_frame(s, c.w, c.h),
        16 if c.w * c.h == last.input.len() => last.input.clone(),
        _ => seen(scene, 6.0, c.w, c.h, place),
    };
    c
}

/// a frame that is refused, or one with no pixels
fn odd_frame(s: &mut Stream, last: &Call) -> Call {
    let mut c = last.clone();
    match below(s, 8) {
        0 => (c.w, c.input) = (0, vec![]),
        1 => (c.h, c.input) = (0, vec![]),
        2 => (c.w, c.h) = (pick(s, &[4097, usize::MAX]), 1),
        3 => c.h = pick(s, &[4097, usize::MAX]),
        4 => c.input.push(1),
        5 => drop(c.input.pop()),
        6 => c.settings = Settings { filter: pick(s, &[0, 2, 33]), ..c.settings },
        _ => (c.w, c.h, c.input) = (40, 30, frame(s, 40, 30)),
    }
    c
}

/// one aligner over many frames
fn sequence(s: &mut Stream, _: u64) -> Case {
    let scene = s.next() as u64;
    let mut place = [0.0; 3];
    let (w, h) = (6 + below(s, 12), 6 + below(s, 12));
    let mut last = Call { template: None, input: vec![], w, h, settings: settings(s) };
    let mut calls = Vec::new();
    for _ in 0..LONG {
        place = [about(s, 0.05), place[1] + about(s, 1.0), place[2] + about(s, 1.0)];
        if below(s, 12) == 0 {
            calls.push(odd_frame(s, &last));
        } else {
            last = next_frame(s, &last, scene, place);
            calls.push(last.clone());
        }
    }
    let n = pick(s, &[w * h, 324, 324, 400, 150]);
    let (work, marks) = (12 * n + below(s, 4), words(n) + below(s, 4) - 1);
    let state = pick(s, &[[0; 3], [0; 3], [0, 9, 9], [1, 9, 9], [u64::MAX; 3], [3, w as u64, h as u64]]);
    Case { state, store: pick(s, &[w * h, 324, 324, 1200, 150]), work, marks, salt: s.next(), calls }
}

/// sides with 63, 64, 65, 127, 128 and 129 pixels
const PIXELS: [&[(usize, usize)]; 6] = [
    &[(9, 7), (7, 9), (21, 3), (3, 21)],
    &[(8, 8), (16, 4), (4, 16), (32, 2)],
    &[(13, 5), (5, 13)],
    &[(127, 1), (1, 127)],
    &[(16, 8), (8, 16), (32, 4), (4, 32)],
    &[(43, 3), (3, 43)],
];

/// sides and an edge: pixels at and around whole words, rows of whole words or a pixel off, and both by resizing
fn wordy_sides(s: &mut Stream) -> (usize, usize, usize) {
    let edge = pick(s, &[0, 350]);
    match below(s, 8) {
        0..=3 => {
            let sides = pick(s, &PIXELS);
            let (w, h) = pick(s, sides);
            (w, h, edge)
        }
        4 | 5 => (pick(s, &[64, 64, 128]), 1 + below(s, 7), edge),
        6 => (pick(s, &[63, 65, 127, 129, 192]), 1 + below(s, 5), edge),
        _ => {
            let edge = pick(s, &[8, 16, 64]);
            let (long, short) = (edge + 1 + below(s, edge), 1 + below(s, edge));
            let (w, h) = if below(s, 2) == 0 { (long, short) } else { (short, long) };
            (w, h, edge)
        }
    }
}

/// a pair by the alignment, then the aligner over the template, the input and the template again; with no pass, the garbage is there to be cleared
fn wordy(s: &mut Stream, _: u64) -> Case {
    let (w, h, edge) = wordy_sides(s);
    let set = Settings { edge, max_iter: pick(s, &[0, 1, 3, 10, 30, 100]), ..settings(s) };
    let reach = pick(s, &[0.3, 1.0, 3.0]);
    let pose = [about(s, 0.1 * reach), about(s, reach), about(s, reach)];
    let (seed, cell) = (s.next() as u64, pick(s, &[3.0, 5.0, 8.0]));
    let (a, b) = match below(s, 3) {
        0 => pair(s, w, h),
        _ => (seen(seed, cell, w, h, pose), seen(seed, cell, w, h, [0.0; 3])),
    };
    let call = |template: Option<&Vec<u8>>, input: &Vec<u8>| Call { template: template.cloned(), input: input.clone(), w, h, settings: set };
    let calls = vec![call(Some(&a), &b), call(None, &a), call(None, &b), call(None, &a)];
    let n = pixels(w, h, edge);
    let marks = words(n) + pick(s, &[0, 1, 1, 1, 2, 2]) - 1;
    Case { state: [0; 3], store: w * h + below(s, 2), work: 12 * n + pick(s, &[0, 0, 1]), marks, salt: s.next(), calls }
}

/// the place of the family of far poses
pub const FAR: usize = 9;

/// a pair whose first pass leads far: up to a turn of 2, and up to twice the sides; mostly one of them alone
fn far(s: &mut Stream, _: u64) -> Case {
    let (w, h) = (6 + below(s, 40), 6 + below(s, 40));
    let reach = |s: &mut Stream, side: usize| {
        let most = pick(s, &[0.5, 1.0, 2.0]) * side as f32;
        about(s, most) as f64
    };
    let turn = about(s, 2.0) as f64;
    let pose = match below(s, 5) {
        0 | 1 => [turn, 0.0, 0.0],
        2 => [0.0, 0.0, reach(s, h)],
        3 => [0.0, reach(s, w), 0.0],
        _ => [turn, reach(s, w), reach(s, h)],
    };
    let phases = [(); 3].map(|_| about(s, 3.0) as f64);
    let both = jumped(phases, w, h, pose);
    let set = Settings { eps: pick(s, &[1e-4, -1.0, -1.0]), max_iter: pick(s, &[2, 2, 3, 5, 10, 100]), filter: pick(s, &[1, 5, 31]), edge: 0 };
    single(s, w, h, both, set)
}
