//! Poses and sides at which the driver numbers are hard to get right: exact halves by the turn with a tiny shift and the reverse, shifts that bring the
//! middle of the frame to a half step or to an end of the range, huge shifts under steep turns, and any numbers.

use super::ecc::affine_from_theta_tx_ty;
use super::lines::{pick, Stream};

pub type Posed = (f32, f32, f32, usize, usize);

fn sign(s: &mut Stream) -> f32 {
    pick(s, &[1.0, -1.0])
}

fn side(s: &mut Stream) -> usize {
    match s.next() % 16 {
        0 => pick(s, &[0, 4097, 1 << 32, usize::MAX]),
        1 | 2 => pick(s, &[1, 2, 4095, 4096]),
        3 => (1 << (s.next() % 12)) + 1,
        _ => s.next() as usize % 4096 + 1,
    }
}

/// a number below 2^-24 in size, often below 2^-126
fn tiny(s: &mut Stream) -> f32 {
    let field = match s.next() % 3 {
        0 => 0,
        1 => s.next() % 20,
        _ => s.next() % 102,
    };
    sign(s) * f32::from_bits(field << 23 | pick(s, &[0, 1, 0x7f_ffff, s.0 as u32 & 0x7f_ffff]))
}

/// any finite number; those of everyday size most often
fn number(s: &mut Stream) -> f32 {
    let field = match s.next() % 6 {
        0 => s.next() % 255,
        1 => 0,
        _ => 80 + s.next() % 70,
    };
    sign(s) * f32::from_bits(field << 23 | pick(s, &[0, 0x7f_ffff, 1 << (s.0 % 23), s.0 as u32 & 0x7f_ffff]))
}

fn turn(s: &mut Stream) -> f32 {
    match s.next() % 8 {
        0 => pick(s, &[0.0, -0.0, 2.0, -2.0, 1.5707964, 2.0000002]),
        1 => tiny(s),
        2 => sign(s) * (2.0f32).powi(-((s.next() % 40) as i32)),
        3 => number(s),
        _ => sign(s) * (s.next() % 2000) as f32 / 1000.0,
    }
}

/// the f32 for which a row brings the point to a whole number of half steps, or one beside it
fn aimed(s: &mut Stream, row: [f32; 2], x: usize, y: usize) -> f32 {
    let halves = pick(s, &[65535, -65537, 1, -1, 2 * (s.0 % 70000) as i64 - 69999, (s.0 % 200) as i64 - 100]);
    let (x, y) = (x as f64, y as f64);
    let exact = (halves as f64 / 2.0 - 128.0 * ((row[0] as f64 - 1.0) * x + row[1] as f64 * y)) / 256.0;
    let near = f32::from_bits((exact as f32).to_bits().wrapping_add(s.next() % 5).wrapping_sub(2));
    if near.is_finite() { near } else { exact as f32 }
}

/// the pose numbered i: every kind in turn
pub fn pose(s: &mut Stream, i: usize) -> Posed {
    let (w, h) = (side(s), side(s));
    match i % 5 {
        0 => {
            let j = 4 + s.next() % 8;
            let theta = sign(s) * (2 * (s.next() % 4) + 1) as f32 / 256.0 / (1 << j) as f32 / (1 << (s.next() % 3)) as f32;
            (theta, tiny(s), tiny(s), (1 << j) + 1, (1 << j) + 1)
        }
        1 => {
            let half = |s: &mut Stream, most: u32| sign(s) * (2 * (s.next() % most) + 1) as f32 / 512.0;
            (tiny(s), half(s, 70000), half(s, 20), w, h)
        }
        2 => {
            let far = |s: &mut Stream| {
                let bits = pick(s, &[0x4580_0000, 0x459a_0000, 0x4600_0000, 0x4680_0000]) + s.next() % 9 - 4;
                sign(s) * f32::from_bits(bits)
            };
            let theta = sign(s) * (1.5 + (s.next() % (1 << 20)) as f32 / (1 << 21) as f32);
            (theta, far(s), far(s), 4096 - s.next() as usize % 3, 4096 - s.next() as usize % 3)
        }
        3 => {
            let (theta, w, h) = (sign(s) * (s.next() % 2000) as f32 / 1000.0, w.clamp(1, 4096), h.clamp(1, 4096));
            let m = affine_from_theta_tx_ty(theta, 0.0, 0.0);
            let tx = aimed(s, [m[0][0], m[0][1]], w - 1, h - 1);
            let ty = aimed(s, [m[1][1], m[1][0]], h - 1, w - 1);
            (theta, tx, ty, w, h)
        }
        _ => (turn(s), number(s), number(s), w, h),
    }
}
