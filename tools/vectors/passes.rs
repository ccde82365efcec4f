//! Vectors for the parts of a pass, from the oracle (tools/oracle): warp, centred statistics, inverse, rows that hold a mark. Each line is a kind and its words in
//! hexadecimal; floats stand by their bit patterns. tools/vectors/make runs it.

#[allow(dead_code)]
#[path = "../oracle/ecc.rs"]
mod ecc;
#[allow(dead_code)]
mod lines;
#[allow(dead_code)]
#[path = "../oracle/rules.rs"]
mod rules;
use lines::{Line, Stream};

type Matrix = [[f32; 3]; 3];

/// maps of poses: at rest, turned, shifted inside and past each edge, huge, subnormal, and with numbers that are not finite
fn maps(w: usize, h: usize) -> Vec<Matrix> {
    let (w, h) = (w as f32, h as f32);
    let poses = [
        (0.0, 0.0, 0.0),
        (-0.0, -0.0, -0.0),
        (0.3, 1.25, -0.5),
        (-1.7, 2.0, h - 1.0),
        (2.0, w, 0.5),
        (-2.0, w / 2.0, h / 2.0),
        (0.0, w - 1.0, 0.0),
        (0.0, -w, h),
        (0.0, 0.5, 0.75),
        (0.01, -0.001, 0.0),
        (1e-40, 1e-40, -1e-40),
        (0.0, 0.0, 1e-45),
        (0.0, f32::MAX, 0.0),
        (1.0, -1e30, 1e30),
        (0.0, f32::NAN, 0.0),
        (0.0, 0.0, f32::INFINITY),
    ];
    let mut maps: Vec<Matrix> = poses.iter().map(|p| ecc::affine_from_theta_tx_ty(p.0, p.1, p.2)).collect();
    maps.push([[f32::MAX, -f32::MAX, 0.0], [0.0, 1.0, 0.0], [0.0, 0.0, 1.0]]);
    maps.push([[f32::NAN, 0.0, 0.0], [0.0, f32::NAN, 0.0], [0.0, 0.0, 1.0]]);
    maps
}

fn warp(s: &mut Stream) {
    println!("# warp_three_inverse_map: sides, map, three images, three images after, marks, count");
    for (w, h) in [(5, 5), (4, 5), (1, 1), (1, 7), (7, 1), (2, 2), (9, 6)] {
        for map in maps(w, h) {
            let n = w * h;
            let src = [s.floats(n), s.floats(n), s.floats(n)];
            let mut out = [vec![1.0; n], vec![1.0; n], vec![1.0; n]];
            let mut valid = vec![true; n];
            let [a, b, c] = &mut out;
            let count = ecc::warp_three_inverse_map(&src[0], &src[1], &src[2], w, h, &map, a, b, c, &mut valid);
            let marks: Vec<u8> = valid.iter().map(|v| *v as u8).collect();
            let line = Line::new(23).words(&[w, h]).floats(&map[0]).floats(&map[1]).floats(&src.concat()).floats(&out.concat());
            println!("{}", line.bytes(&marks).words(&[count]).0);
        }
    }
}

/// an image of each sort: noise, flat, one bright pixel, large enough for the sums to overflow, with a NaN, with an infinity
fn images(s: &mut Stream, n: usize) -> Vec<Vec<f32>> {
    let mut bright = vec![0.0; n];
    bright[n / 2] = 255.0;
    let mut broken = s.floats(n);
    broken[n - 1] = f32::NAN;
    let mut endless = s.floats(n);
    endless[0] = f32::NEG_INFINITY;
    vec![s.floats(n), vec![17.5; n], bright, s.floats(n).iter().map(|x| x * 1e32).collect(), broken, endless]
}

fn stats(s: &mut Stream) {
    println!("# centered_stats_in_place: pixels, marks, image, template, centred template, centred image, norms, correlation");
    for n in [1, 2, 12, 31] {
        let every: Vec<bool> = vec![true; n];
        let some: Vec<bool> = (0..n).map(|_| s.next() % 3 > 0).collect();
        let one: Vec<bool> = (0..n).map(|i| i == n / 2).collect();
        for mask in [every, some, one, vec![false; n]] {
            for image in images(s, n) {
                let template = s.floats(n);
                let (mut tz, mut iz) = (vec![1.0; n], vec![1.0; n]);
                let (t, i, c) = ecc::centered_stats_in_place(&template, &image, &mask, &mut tz, &mut iz);
                let marks: Vec<u8> = mask.iter().map(|v| *v as u8).collect();
                let line = Line::new(24).words(&[n]).bytes(&marks).floats(&image).floats(&template).floats(&tz).floats(&iz);
                println!("{}", line.floats(&[t, i, c]).0);
            }
        }
    }
}

fn inverse(s: &mut Stream) {
    println!("# try_inverse: nine entries; 1 and the inverse's entries, or 0 and nothing");
    let mut all: Vec<Matrix> = vec![
        ecc::identity3(),
        [[0.0; 3]; 3],
        [[1.0, 2.0, 3.0], [2.0, 4.0, 6.0], [0.0, 1.0, 5.0]],
        [[-0.0, 0.0, 0.0], [0.0, 1.0, 0.0], [0.0, 0.0, 1.0]],
        [[1e-20, 0.0, 0.0], [0.0, 1e-20, 0.0], [0.0, 0.0, 1e-20]],
        [[1e-14, 0.0, 0.0], [0.0, 1e-15, 0.0], [0.0, 0.0, 1e-15]],
        [[1e20, 0.0, 0.0], [0.0, 1e20, 0.0], [0.0, 0.0, 1e20]],
        [[f32::NAN, 0.0, 0.0], [0.0, 1.0, 0.0], [0.0, 0.0, 1.0]],
        [[f32::INFINITY, 1.0, 0.0], [1.0, 1.0, 0.0], [0.0, 0.0, 1.0]],
    ];
    for _ in 0..40 {
        let v = s.floats(9);
        all.push([[v[0], v[1], v[2]], [v[3], v[4], v[5]], [v[6], v[7], v[8]]]);
    }
    for h in all {
        let line = Line::new(25).floats(&h.concat());
        let line = match rules::inverse(&h) {
            Some(inv) => line.words(&[1]).floats(&inv.concat()),
            None => line.words(&[0]),
        };
        println!("{}", line.0);
    }
}

/// marks of each sort: none, all, one pixel at each end of a row, one row, some rows, noise thick and thin, and the marks of a far pose
fn masks(s: &mut Stream, w: usize, h: usize) -> Vec<Vec<bool>> {
    let n = w * h;
    let only = |f: &dyn Fn(usize, usize) -> bool| (0..n).map(|i| f(i % w, i / w)).collect::<Vec<bool>>();
    let (a, b) = (s.next() as usize % h, s.next() as usize % h);
    let mut all = vec![vec![false; n], vec![true; n], only(&|_, y| y == a), only(&|_, y| y >= a.min(b) && y <= a.max(b))];
    for y in [0, a, h - 1] {
        all.extend([only(&|i, j| i == 0 && j == y), only(&|i, j| i == w - 1 && j == y)]);
    }
    all.push(only(&|x, y| (y == a && x == w - 1) || (y == b && x == 0)));
    all.extend([2, 8, 60].map(|thin| (0..n).map(|_| s.next() % thin == 0).collect()));
    for pose in [[1.2, 0.0, 0.0], [0.0, 0.0, h as f32 / 2.0], [-0.7, w as f32 / 3.0, 0.0], [0.0, -1.5, -(h as f32) / 2.0]] {
        let (map, zero) = (ecc::affine_from_theta_tx_ty(pose[0], pose[1], pose[2]), vec![0.0; n]);
        let (mut out, mut valid) = ([zero.clone(), zero.clone(), zero.clone()], vec![false; n]);
        let [a, b, c] = &mut out;
        ecc::warp_three_inverse_map(&zero, &zero, &zero, w, h, &map, a, b, c, &mut valid);
        all.push(valid);
    }
    all
}

fn rows(s: &mut Stream) {
    println!("# rows that hold a mark: sides, marks; 1 and the first and the last, or 0");
    for (w, h) in [(5, 5), (1, 1), (1, 9), (9, 1), (8, 8), (64, 3), (63, 4), (65, 4), (32, 32), (3, 43), (200, 5)] {
        for valid in masks(s, w, h) {
            let marks: Vec<u8> = valid.iter().map(|v| *v as u8).collect();
            let line = Line::new(28).words(&[w, h]).bytes(&marks);
            let line = match ecc::marked_rows(&valid, w) {
                Some((first, last)) => line.words(&[1, first, last]),
                None => line.words(&[0]),
            };
            println!("{}", line.0);
        }
    }
}

fn main() {
    let mut s = Stream(20260103);
    warp(&mut s);
    stats(&mut s);
    inverse(&mut s);
    rows(&mut s);
}
