//! Made frames: a smooth texture seen from a pose, a pair whose first pass leads far away, a board, small frames of many sorts and pairs of them, nearly flat ones. Each depends on its arguments alone.

use ecc;
use lines::{below, Stream};

/// a height of the texture, at a corner of its grid
fn height(seed: u64, i: i64, j: i64) -> f32 {
    let place = (i as u64).wrapping_mul(7919).wrapping_add((j as u64).wrapping_mul(104_729)).wrapping_add(1);
    let mut s = Stream(seed ^ place);
    s.next();
    (s.next() % 256) as f32
}

/// a smooth frame: random heights some pixels apart (`cell`) and even slopes between, seen from a pose
pub fn seen(seed: u64, cell: f32, w: usize, h: usize, pose: [f32; 3]) -> Vec<u8> {
    let m = ecc::affine_from_theta_tx_ty(pose[0], pose[1], pose[2]);
    let pixel = |x: f32, y: f32| {
        let (u, v) = ((m[0][0] * x + m[0][1] * y + m[0][2] + 64.0) / cell, (m[1][0] * x + m[1][1] * y + m[1][2] + 64.0) / cell);
        let (i, j) = (u.floor() as i64, v.floor() as i64);
        let ease = |t: f32| t * t * (3.0 - 2.0 * t);
        let (a, b) = (ease(u - i as f32), ease(v - j as f32));
        let row = |j| height(seed, i, j) * (1.0 - a) + height(seed, i + 1, j) * a;
        (row(j) * (1.0 - b) + row(j + 1) * b + 0.5) as u8
    };
    (0..w * h).map(|i| pixel((i % w) as f32, (i / w) as f32)).collect()
}

/// long waves: how fast each runs across and down in a frame of 350 pixels, and how high it is
const WAVES: [[f64; 3]; 3] = [[0.031, 0.012, 1.0], [-0.014, 0.027, 1.0], [0.019, -0.022, 0.8]];

/// their sum at a point, and its slopes across and down; `long` is the frame's longer side
fn wave(phases: [f64; 3], long: f64, x: f64, y: f64) -> [f64; 3] {
    let mut sum = [0.0; 3];
    for ([across, down, high], phase) in WAVES.iter().zip(phases) {
        let (across, down) = (across * 350.0 / long, down * 350.0 / long);
        let (s, c) = (across * x + down * y + phase).sin_cos();
        sum = [sum[0] + high * s, sum[1] + high * across * c, sum[2] + high * down * c];
    }
    sum
}

/// a template and an input of which the first pass ends near a pose, however far it is: the template is the input and what the pose adds to it
/// to first order, gx * (tx - theta * y) + gy * (ty + theta * x), which is what a pass solves for
pub fn jumped(phases: [f64; 3], w: usize, h: usize, pose: [f64; 3]) -> (Vec<u8>, Vec<u8>) {
    let at = |i: usize| {
        let (x, y) = ((i % w) as f64, (i / w) as f64);
        let [v, gx, gy] = wave(phases, w.max(h) as f64, x, y);
        (v + gx * (pose[1] - pose[0] * y) + gy * (pose[2] + pose[0] * x), v)
    };
    let both: Vec<(f64, f64)> = (0..w * h).map(at).collect();
    let high = both.iter().fold(1.0, |m: f64, b| m.max(b.0.abs()).max(b.1.abs()));
    let level = |v: f64| (128.0 + 126.0 * v / high).round() as u8;
    both.iter().map(|b| (level(b.0), level(b.1))).unzip()
}

/// a board of black and white squares, seen so many pixels further right
pub fn board(cell: usize, w: usize, h: usize, further: usize) -> Vec<u8> {
    (0..w * h).map(|i| ((i % w + further) / cell + i / w / cell) as u8 % 2 * 255).collect()
}

/// a small frame of some sort: noise, nearly flat, one bright pixel, two levels, columns, rows, a board, a slope
pub fn frame(s: &mut Stream, w: usize, h: usize) -> Vec<u8> {
    let n = w * h;
    let (a, b) = (s.next() as u8, s.next() as u8);
    let (across, down) = (s.bytes(w), s.bytes(h));
    let mut f: Vec<u8> = match s.next() % 8 {
        0 => s.bytes(n),
        1 => vec![a; n],
        2 => vec![0; n],
        3 => (0..n).map(|_| (s.next() % 2) as u8).collect(),
        4 => (0..n).map(|i| across[i % w]).collect(),
        5 => (0..n).map(|i| down[i / w]).collect(),
        6 => (0..n).map(|i| if (i % w + i / w) % 2 == 0 { a } else { b }).collect(),
        _ => (0..n).map(|i| (i % w * (a % 8) as usize + i / w * (b % 8) as usize) as u8).collect(),
    };
    for _ in 0..s.next() % 3 {
        if n > 0 {
            f[s.next() as usize % n] ^= 1 << (s.next() % 8);
        }
    }
    f
}

/// a small frame, and the same, its negative, the same moved by a pixel, or another
pub fn pair(s: &mut Stream, w: usize, h: usize) -> (Vec<u8>, Vec<u8>) {
    let a = frame(s, w, h);
    let b = match s.next() % 5 {
        0 => a.clone(),
        1 => a.iter().map(|b| 255 - b).collect(),
        2 => a.iter().skip(1).chain(a.iter().take(1)).copied().collect(),
        _ => frame(s, w, h),
    };
    (a, b)
}

/// a frame with next to nothing on it: flat, one pixel a step off, an edge of one level, two levels in noise, a slope of one level a few pixels
pub fn faint_frame(s: &mut Stream, w: usize, h: usize) -> Vec<u8> {
    let (level, x, y) = (s.next() as u8 % 255, below(s, w), below(s, h));
    let (across, down) = (below(s, 2), below(s, 2));
    let step = 1 + below(s, 6);
    match below(s, 6) {
        0 => vec![level; w * h],
        1 => (0..w * h).map(|i| level + (i == y * w + x) as u8).collect(),
        2 => (0..w * h).map(|i| level + (i % w >= x) as u8).collect(),
        3 => (0..w * h).map(|i| level + (i % w * down + i / w * (1 - down) >= x) as u8).collect(),
        4 => (0..w * h).map(|_| level + (s.next() >> 31) as u8).collect(),
        _ => (0..w * h).map(|i| ((i % w * across + i / w) / step) as u8).collect(),
    }
}
