//! What pinlog prints, by document 01's section 'For the pin driver' and document 02's requests 2 and 5: a model over the oracle (ecc.rs), for tests. It shares nothing
//! with the Rattle code.

use super::aligner::{self, Memory};
use super::ecc::{self, EccConfig};
use super::pins::pins;

/// the store, work and marks of the program, for a fresh aligner: sixteen words are its 1,024 marks
fn memory() -> Memory {
    Memory { state: vec![0; 3], store: vec![0; 1024], work: vec![0.0; 12288], marks: vec![0; 16], pose: vec![] }
}

fn number(bytes: &[u8]) -> usize {
    bytes.iter().rev().fold(0, |n, b| n * 256 + *b as usize)
}

fn settings(body: &[u8]) -> EccConfig {
    let eps = f32::from_bits(number(&body[..4]) as u32);
    aligner::config(eps, number(&body[4..8]), number(&body[8..10]), number(&body[10..14]))
}

/// what is printed for a stream
pub fn log(mut s: &[u8]) -> String {
    let mut text = String::new();
    let (mut cfg, mut m) = (EccConfig::default(), memory());
    let mut frames = 0;
    while !s.is_empty() {
        let rest = if s.len() < 4 { 0 } else { number(&s[..4]) };
        if rest < 2 || s.len() < 4 + rest {
            return text + &format!("cut {}\n", frames);
        }
        let (kind, body) = (number(&s[4..6]), &s[6..4 + rest]);
        s = &s[4 + rest..];
        if (kind == 1 && body.len() != 14) || (kind == 2 && body.len() < 4) {
            return text + &format!("cut {}\n", frames);
        }
        if kind == 1 {
            (cfg, m) = (settings(body), memory());
        }
        if kind == 2 {
            let (w, h) = (number(&body[..2]), number(&body[2..4]));
            let o = if body.len() > 1028 {
                ecc::refusal(13, 0)
            } else {
                aligner::estimate(&body[4..], w, h, cfg, &mut m)
            };
            frames += 1;
            let [dx, dy, turn] = pins(&o, w, h);
            text += &format!("{} {} {} {} {} {}\n", frames, o.number, o.passes, dx, dy, turn);
        }
    }
    text + &format!("done {}\n", frames)
}
