//! A whole call by document 01 and document 02's request 5, over the oracle (ecc.rs): what the alignment and the aligner answer, what they leave
//! in the lent memory, and the lengths that they need. A model for tests. It shares nothing with the Rattle code.

use super::ecc::{self, EccConfig, Outcome};

/// the memory lent to a call
#[derive(Clone, Debug, Default)]
pub struct Memory {
    pub state: Vec<u64>,
    pub store: Vec<u8>,
    pub work: Vec<f32>,
    pub marks: Vec<u64>,
    pub pose: Vec<f32>,
}

/// two lists of f32 hold the same bits
fn same_bits(a: &[f32], b: &[f32]) -> bool {
    a.len() == b.len() && a.iter().zip(b).all(|(x, y)| x.to_bits() == y.to_bits())
}

impl Memory {
    /// the parts in which two memories differ, bit for bit
    pub fn differs(&self, other: &Memory) -> Vec<&'static str> {
        let parts = [
            ("state", self.state == other.state),
            ("store", self.store == other.store),
            ("work", same_bits(&self.work, &other.work)),
            ("marks", self.marks == other.marks),
            ("pose", same_bits(&self.pose, &other.pose)),
        ];
        parts.iter().filter(|p| !p.1).map(|p| p.0).collect()
    }
}

/// settings from numbers: an edge of 0 is none
pub fn config(eps: f32, max_iter: usize, filter: usize, edge: usize) -> EccConfig {
    EccConfig { eps, max_iter, gauss_filt_size: filter, resize_long_edge: (edge > 0).then_some(edge) }
}

/// document 01's n; 0 for sides that are 0 or above 4,096
pub fn pixels(w: usize, h: usize, edge: usize) -> usize {
    if w == 0 || h == 0 || w > 4096 || h > 4096 {
        return 0;
    }
    let (tw, th, _, _) = ecc::resized(w, h, Some(edge));
    tw * th
}

/// the oracle's answer; with 0 and 5 to 10 the first 12n floats are cleared, and all words that n marks take, whole
pub fn align(template: &[u8], input: &[u8], w: usize, h: usize, cfg: EccConfig, m: &mut Memory) -> Outcome {
    let o = ecc::find_transform_ecc_euclidean(template, input, w, h, cfg, m.work.len(), m.marks.len());
    if o.number == 0 || o.number > 4 {
        let n = pixels(w, h, cfg.resize_long_edge.unwrap_or(0));
        m.work[..12 * n].fill(0.0);
        m.marks[..ecc::words(n)].fill(0);
    }
    o
}

/// document 01's aligner: 2, length, 13; then the frame is kept, with 11, 12 or the alignment's answer
pub fn estimate(frame: &[u8], w: usize, h: usize, cfg: EccConfig, m: &mut Memory) -> Outcome {
    if w > 4096 || h > 4096 {
        return ecc::refusal(2, 0);
    }
    if frame.len() != w * h {
        return ecc::refusal(1, 0);
    }
    if m.store.len() < w * h {
        return ecc::refusal(13, 0);
    }
    let o = match m.state[..] {
        [held, pw, ph, ..] if held != 0 && (pw, ph) == (w as u64, h as u64) => align(&m.store[..w * h].to_vec(), frame, w, h, cfg, m),
        [held, _, _, ..] if held != 0 => ecc::refusal(12, 0),
        _ => ecc::refusal(11, 0),
    };
    m.store[..w * h].copy_from_slice(frame);
    if m.state.len() >= 3 {
        m.state[..3].copy_from_slice(&[1, w as u64, h as u64]);
    }
    o
}
