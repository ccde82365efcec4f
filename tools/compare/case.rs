//! A case: lent memory, and calls made on it one after another. The library makes them by way of the Rust wrapper, the model
//! (tools/oracle/aligner.rs) beside it; answers and memory are compared bit for bit after each call.

use aligner::{self, Memory};
use ecc;
use quayhollow::{self, Answer, Settings, State};

/// one call: of the alignment where there is a template, of the aligner where there is none
#[derive(Clone, Debug)]
pub struct Call {
    pub template: Option<Vec<u8>>,
    pub input: Vec<u8>,
    pub w: usize,
    pub h: usize,
    pub settings: Settings,
}

/// the state, how much memory is lent (bytes, floats, words of marks), what it is filled with (`salt`), and the calls
#[derive(Clone, Debug)]
pub struct Case {
    pub state: [u64; 3],
    pub store: usize,
    pub work: usize,
    pub marks: usize,
    pub salt: u32,
    pub calls: Vec<Call>,
}

/// an answer: number, passes, the bits of the four numbers
#[derive(Clone, Copy, Debug, PartialEq)]
pub struct Told {
    pub number: u8,
    pub passes: usize,
    pub bits: [u32; 4],
}

/// the first call of a case that differs: which, what both sides told, and which parts of the memory differ
#[derive(Debug)]
pub struct Difference {
    pub call: usize,
    pub expected: Told,
    pub got: Told,
    pub memory: Vec<&'static str>,
}

/// any bits, for memory before a call
fn filled(salt: u32, i: usize) -> u32 {
    (salt ^ i as u32).wrapping_mul(0x9e37_79b9) ^ salt.rotate_left(16)
}

/// any bits in all sixty-four of a word
fn filled_word(salt: u32, i: usize) -> u64 {
    (filled(!salt, i) as u64) << 32 | filled(salt, i) as u64
}

impl Call {
    fn model(&self, m: &mut Memory) -> Told {
        let s = self.settings;
        let cfg = aligner::config(s.eps, s.max_iter, s.filter, s.edge);
        let o = match &self.template {
            Some(t) => aligner::align(t, &self.input, self.w, self.h, cfg, m),
            None => aligner::estimate(&self.input, self.w, self.h, cfg, m),
        };
        told(&o)
    }

    /// the first and the last row that the second pass marks, where there is one and the frames are not resized: by the oracle
    pub fn second_rows(&self) -> Option<(usize, usize)> {
        let (s, n) = (self.settings, self.w * self.h);
        let cfg = ecc::EccConfig { eps: s.eps, max_iter: 1, gauss_filt_size: s.filter, resize_long_edge: None };
        let o = ecc::find_transform_ecc_euclidean(self.template.as_ref()?, &self.input, self.w, self.h, cfg, 12 * n, ecc::words(n));
        let map = ecc::affine_from_theta_tx_ty(o.theta, o.tx, o.ty);
        let zero = vec![0.0; n];
        let (mut out, mut valid) = ([zero.clone(), zero.clone(), zero.clone()], vec![false; n]);
        let [a, b, c] = &mut out;
        ecc::warp_three_inverse_map(&zero, &zero, &zero, self.w, self.h, &map, a, b, c, &mut valid);
        ecc::marked_rows(&valid, self.w).filter(|_| o.number == 0)
    }

    fn library(&self, m: &mut Memory) -> Told {
        let o = match &self.template {
            Some(t) => quayhollow::align(t, &self.input, self.w, self.h, self.settings, &mut m.work, &mut m.marks),
            None => {
                let mut state = State([m.state[0], m.state[1], m.state[2]]);
                let o = quayhollow::estimate(&self.input, self.w, self.h, self.settings, &mut state, &mut m.store, &mut m.work, &mut m.marks);
                m.state = state.0.to_vec();
                o
            }
        };
        let four = match o.answer {
            Answer::Posed(p) => [p.theta, p.tx, p.ty, p.rho],
            Answer::Refused(_) => [0.0; 4],
        };
        Told { number: o.answer.number(), passes: o.passes as usize, bits: four.map(f32::to_bits) }
    }
}

fn told(o: &ecc::Outcome) -> Told {
    Told { number: o.number, passes: o.passes, bits: [o.theta, o.tx, o.ty, o.rho].map(f32::to_bits) }
}

impl Case {
    fn memory(&self) -> Memory {
        Memory {
            state: self.state.to_vec(),
            store: (0..self.store).map(|i| (filled(self.salt, i) >> 24) as u8).collect(),
            work: vec![0.0; self.work],
            marks: vec![0; self.marks],
            pose: vec![],
        }
    }

    /// makes every call on both sides, up to the first that differs; `ends` counts them by the model's number
    pub fn run(&self, ends: &mut [u64; 14]) -> Option<Difference> {
        let mut expected = self.memory();
        let mut got = expected.clone();
        for (call, c) in self.calls.iter().enumerate() {
            let salt = self.salt.wrapping_add(call as u32);
            for m in [&mut expected, &mut got] {
                m.work.iter_mut().enumerate().for_each(|(i, x)| *x = f32::from_bits(filled(salt, i)));
                m.marks.iter_mut().enumerate().for_each(|(i, x)| *x = filled_word(salt, i));
            }
            let (e, g) = (c.model(&mut expected), c.library(&mut got));
            ends[e.number as usize] += 1;
            let memory = got.differs(&expected);
            if e != g || !memory.is_empty() {
                return Some(Difference { call, expected: e, got: g, memory });
            }
        }
        None
    }
}
