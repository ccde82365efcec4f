//! Two frames of a pattern, the second shifted: their alignment, its matrix and its pins; then the aligner over four frames.
#[path = "../rust/quayhollow.rs"]
mod quayhollow;
use quayhollow::{Aligner, Answer, Outcome, Pose, Room, Settings};

const W: usize = 64;
const H: usize = 48;

/// A frame of w by h from the pattern: a number that goes up to 16 and down again, each 32, along x and along y.
fn drawn(right: usize, down: usize) -> Vec<u8> {
    let tent = |t: usize| if t % 32 < 16 { t % 32 } else { 32 - t % 32 };
    (0..W * H).map(|i| (8 * tent(i % W + right) + 7 * tent(i / W + down)) as u8).collect()
}

fn tell(what: &str, o: Outcome) {
    let (p, words) = match o.answer {
        Answer::Posed(pose) => (pose, "a pose"),
        Answer::Refused(refusal) => (Pose { theta: 0.0, tx: 0.0, ty: 0.0, rho: 0.0 }, refusal.words()),
    };
    let number = o.answer.number();
    println!("{what}: number {number}, passes {}, theta {:.6}, tx {:.6}, ty {:.6}, rho {:.6}: {words}", o.passes, p.theta, p.tx, p.ty, p.rho);
}

fn main() {
    let settings = Settings { filter: 3, edge: 40, ..Settings::default() };
    let edge = settings.edge;
    println!(
        "version {}, work {}, marks {}, store {}",
        quayhollow::version(),
        quayhollow::work_len(W, H, edge),
        quayhollow::marks_len(W, H, edge),
        quayhollow::store_len(W, H)
    );

    let o = Room::new(W, H, edge).align(&drawn(0, 0), &drawn(3, 2), W, H, settings);
    tell("align", o);
    let rows = o.answer.matrix().map(|row| row.map(|x| format!("{x:.6}")).join(" "));
    println!("matrix: {}", rows.join(", "));
    let pins = o.answer.pins(W, H);
    println!("pins: {} {} {}", pins.dx, pins.dy, pins.turn);

    let mut aligner = Aligner::new(W, H, settings);
    for i in 0..4 {
        let h = if i < 3 { H } else { 0 };
        tell("frame", aligner.estimate(&drawn(i, 2 * i)[..W * h], W, h));
    }
}
