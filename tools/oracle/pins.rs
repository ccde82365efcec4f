//! The driver numbers of documents 01 and 02 in exact whole numbers: a model for tests. It shares nothing with the Rattle code.
//!
//! Every finite f32 is a whole number of 2^-149. A sum of products of such numbers is kept whole here, over the whole range of f32, in places of 32
//! bits with room above for carries that are left until the end.

use super::ecc::{matrix, Outcome};

const PLACES: usize = 12;

/// a whole number, place i counting 2^(32 i); a place may be above 2^32 or below 0
#[derive(Clone, Copy)]
struct Exact([i64; PLACES]);

impl Exact {
    /// adds x * times, x in units of 2^-149; times is below 2^25 in size
    fn add(&mut self, x: f32, times: i64) {
        let (field, digits) = ((x.to_bits() >> 23 & 0xff) as usize, (x.to_bits() & 0x7f_ffff) as i128);
        assert!(field < 255);
        let (size, shift) = if field == 0 { (digits, 0) } else { (digits + 0x80_0000, field - 1) };
        let all = size * times as i128 * (1 << (shift % 32)) * if x.is_sign_negative() { -1 } else { 1 };
        for place in 0..3 {
            self.0[shift / 32 + place] += (all >> (32 * place)) as i64 & if place < 2 { 0xffff_ffff } else { -1 };
        }
    }

    /// the same number, each place but the last from 0 to 2^32 - 1
    fn carried(mut self) -> Exact {
        for place in 0..PLACES - 1 {
            self.0[place + 1] += self.0[place] >> 32;
            self.0[place] &= 0xffff_ffff;
        }
        self
    }

    fn negative(self) -> bool {
        self.carried().0[PLACES - 1] < 0
    }

    fn opposite(self) -> Exact {
        Exact(self.0.map(|place| -place))
    }

    /// of a number that is not negative, over 2^149: the nearest whole number, half up, or 2^40 for any from there on
    fn nearest(mut self) -> i64 {
        self.0[148 / 32] += 1 << (148 % 32); // a half
        let own = self.carried().0;
        if own[149 / 32 + 2..].iter().any(|place| *place != 0) {
            return 1 << 40;
        }
        ((own[149 / 32] as i128 + ((own[149 / 32 + 1] as i128) << 32)) >> (149 % 32)) as i64
    }

    /// whether it is an odd number of halves, over 2^149
    fn is_half(self) -> bool {
        let own = self.carried().0;
        own[..148 / 32].iter().all(|place| *place == 0) && own[148 / 32] & ((2 << (148 % 32)) - 1) == 1 << (148 % 32)
    }

    /// the nearest whole number, half away from zero, held to the range of i16
    fn held(self) -> i16 {
        if self.negative() {
            (-self.opposite().nearest()).max(-32768) as i16
        } else {
            self.nearest().min(32767) as i16
        }
    }
}

/// 256 times (the number that a row gives for the point (x/2, y/2), less half of what is named)
fn moved(row: [f32; 3], x: i64, y: i64, less: i64) -> Exact {
    let mut sum = Exact([0; PLACES]);
    sum.add(row[0], 128 * x);
    sum.add(row[1], 128 * y);
    sum.add(row[2], 256);
    sum.add(-1.0, 128 * less);
    sum
}

/// how far the middle of a frame moves along both axes, for sides that a frame has and a pose that is finite
fn middle(o: &Outcome, w: usize, h: usize) -> Option<[Exact; 2]> {
    let sides = (1..=4096).contains(&w) && (1..=4096).contains(&h);
    if o.number != 0 || !sides || ![o.theta, o.tx, o.ty].iter().all(|x| x.is_finite()) {
        return None;
    }
    let (m, x, y) = (matrix(o), w as i64 - 1, h as i64 - 1);
    Some([moved(m[0], x, y, x), moved(m[1], x, y, y)])
}

/// dx, dy, turn. Zeros for a refusal, for a pose that is not finite and for a side of 0 or above 4,096
pub fn pins(o: &Outcome, w: usize, h: usize) -> [i16; 3] {
    let Some([x, y]) = middle(o, w, h) else {
        return [0; 3];
    };
    let mut turn = Exact([0; PLACES]);
    turn.add(o.theta, 8192);
    [x.held(), y.held(), turn.held()]
}

/// how many of dx and dy lie exactly between two whole numbers
#[allow(dead_code)]
pub fn halves(o: &Outcome, w: usize, h: usize) -> usize {
    middle(o, w, h).map_or(0, |both| both.iter().filter(|v| v.is_half()).count())
}
