//! Vectors for the image stages, from the oracle (tools/oracle). Each line is a kind and its words in hexadecimal; floats stand by their
//! bit patterns. tools/vectors/make runs it.

#[allow(dead_code)]
#[path = "../oracle/ecc.rs"]
mod ecc;
#[allow(dead_code)]
#[path = "../oracle/rules.rs"]
mod rules;
#[allow(dead_code)]
mod lines;
use lines::{Line, Stream};

fn main() {
    let mut s = Stream(20260102);

    println!("# resized sides: edge, sides, sides after");
    let mut cases = vec![(350, 700, 350), (350, 400, 4), (350, 400, 12), (13, 22, 11), (7, 8, 8), (0, 4096, 4096), (1, 4096, 4096), (4095, 4096, 1), (4096, 4096, 1), (350, 1024, 1), (usize::MAX, 9, 9)];
    for _ in 0..60 {
        let long = 1 + s.next() as usize % 4096;
        cases.push((s.next() as usize % 4200, long, 1 + s.next() as usize % 4096));
    }
    for (edge, w, h) in cases {
        let (tw, th, _, _) = ecc::resized(w, h, Some(edge));
        println!("{}", Line::new(16).words(&[edge, w, h, tw, th]).0);
    }

    println!("# resize_bilinear: sides, sides after, bytes, numbers");
    for (w, h, tw, th) in [(4, 4, 8, 8), (1, 1, 8, 8), (1, 9, 8, 8), (9, 1, 8, 8), (20, 12, 10, 8), (13, 7, 8, 8), (30, 8, 11, 8), (8, 30, 8, 11), (16, 16, 9, 9), (2, 3, 8, 9)] {
        let bytes = if (w, tw) == (4, 8) { (0..16).map(|i| (i % 4 * 8) as u8).collect() } else { s.bytes(w * h) };
        let out = ecc::resize_bilinear(&ecc::gray_u8_to_f32(&bytes), w, h, tw, th);
        println!("{}", Line::new(17).words(&[w, h, tw, th]).bytes(&bytes).floats(&out).0);
    }

    println!("# gaussian_kernel: size, weights");
    for ksize in (3..=31).step_by(2) {
        println!("{}", Line::new(18).words(&[ksize]).floats(&ecc::gaussian_kernel(ksize)).0);
    }

    println!("# gaussian_blur_separable: sides, size, numbers, numbers after");
    for (i, ksize) in (3..=31).step_by(2).enumerate() {
        for (w, h) in [(1, 1), (1, 7), (9, 1), (5, 4), (3 + i, 6), (12, 2 + i)] {
            let src = s.floats(w * h);
            let out = ecc::gaussian_blur_separable(&src, w, h, ksize);
            println!("{}", Line::new(19).words(&[w, h, ksize]).floats(&src).floats(&out).0);
        }
    }

    println!("# gradient_x and gradient_y: sides, numbers, numbers after");
    for (w, h) in [(3, 1), (1, 3), (1, 1), (2, 2), (5, 4), (4, 5), (16, 3), (3, 16), (11, 11)] {
        let src = if (w, h) == (3, 1) { vec![0.0, 10.0, 40.0] } else { s.floats(w * h) };
        println!("{}", Line::new(20).words(&[w, h]).floats(&src).floats(&ecc::gradient_x(&src, w, h)).0);
        println!("{}", Line::new(21).words(&[w, h]).floats(&src).floats(&ecc::gradient_y(&src, w, h)).0);
    }

    println!("# prepared images: sides, sides after, size, bytes, numbers");
    for (w, h, edge, ksize) in [(1, 1, 0, 1), (5, 5, 0, 1), (5, 4, 0, 3), (4, 5, 0, 31), (12, 9, 8, 1), (12, 9, 8, 5), (20, 3, 10, 7), (3, 20, 10, 1), (8, 8, 7, 3), (16, 12, 0, 9)] {
        let bytes = s.bytes(w * h);
        let (tw, th, _, _) = ecc::resized(w, h, Some(edge));
        println!("{}", Line::new(22).words(&[w, h, tw, th, ksize]).bytes(&bytes).floats(&ecc::prepared(&bytes, w, h, tw, th, ksize)).0);
    }
}
