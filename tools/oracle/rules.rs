//! Document 01's mathematics, in Rust with the standard library alone: what stands in document 000's place of the platform's sine,
//! cosine and exponential and of nalgebra's inverse. Written from document 01, in signed whole numbers; shares nothing with the
//! Rattle code.

/// the tests for numbers 2, 3, 4 and 10 are made, which document 000 has not
pub const ADDED: bool = true;

const ONE: i64 = 1 << 30;

/// a finite f32 as (digits, exponent): its size is digits * 2^exponent
fn parts(x: f32) -> (i128, i32) {
    let b = x.to_bits();
    let (field, digits) = ((b >> 23 & 0xff) as i32, (b & 0x7f_ffff) as i128);
    if field == 0 {
        (digits, -149)
    } else {
        (digits | 0x80_0000, field - 150)
    }
}

/// floor(m * 2^s), where the answer is below 2^62
fn shifted(m: i128, s: i32) -> i64 {
    if s >= 0 {
        (m << s) as i64
    } else if s > -120 {
        (m >> -s) as i64
    } else {
        0
    }
}

/// Z = floor(theta^2 * 2^30)
fn z_of(theta: f32) -> i64 {
    let (m, e) = parts(theta);
    shifted(m * m, 2 * e + 30)
}

/// U after the steps for k = top down to 1
fn recur(z: i64, top: i64, divisor: fn(i64) -> i64) -> i64 {
    let mut u = ONE;
    for k in (1..=top).rev() {
        u = ONE - (z * u).div_euclid(ONE * divisor(k));
    }
    u
}

/// v / 2^30 to f32: the quotient is exact in f64, so it is rounded once
fn over30(v: i64) -> f32 {
    (v as f64 / ONE as f64) as f32
}

/// the cosine, -2 <= theta <= 2
pub fn cos(theta: f32) -> f32 {
    over30(recur(z_of(theta), 8, |k| (2 * k - 1) * 2 * k))
}

/// the sine, -2 <= theta <= 2
pub fn sin(theta: f32) -> f32 {
    over30(recur(z_of(theta), 8, |k| 2 * k * (2 * k + 1))) * theta
}

/// e^-a, 0 <= a <= 6
pub fn exp_neg(a: f32) -> f32 {
    let (m, e) = parts(a);
    let mut e = recur(shifted(m, e + 27), 12, |k| k);
    for _ in 0..3 {
        e = e * e / ONE;
    }
    over30(e)
}

/// the inverse of h, or none where its determinant is a zero
pub fn inverse(h: &[[f32; 3]; 3]) -> Option<[[f32; 3]; 3]> {
    let p = h[1][1] * h[2][2] - h[2][1] * h[1][2];
    let q = h[1][0] * h[2][2] - h[2][0] * h[1][2];
    let r = h[1][0] * h[2][1] - h[2][0] * h[1][1];
    let d = (h[0][0] * p - h[0][1] * q) + h[0][2] * r;
    if d == 0.0 {
        return None;
    }
    Some([
        [
            p / d,
            (h[0][2] * h[2][1] - h[2][2] * h[0][1]) / d,
            (h[0][1] * h[1][2] - h[1][1] * h[0][2]) / d,
        ],
        [
            -q / d,
            (h[0][0] * h[2][2] - h[2][0] * h[0][2]) / d,
            (h[0][2] * h[1][0] - h[1][2] * h[0][0]) / d,
        ],
        [
            r / d,
            (h[0][1] * h[2][0] - h[2][1] * h[0][0]) / d,
            (h[0][0] * h[1][1] - h[1][0] * h[0][1]) / d,
        ],
    ])
}

/// a matrix times a vector, and a dot product, added left to right
pub fn times(m: &[[f32; 3]; 3], v: &[f32; 3]) -> [f32; 3] {
    [dot(&m[0], v), dot(&m[1], v), dot(&m[2], v)]
}

pub fn dot(a: &[f32; 3], b: &[f32; 3]) -> f32 {
    a[0] * b[0] + a[1] * b[1] + a[2] * b[2]
}
