//! Vectors for whole calls of the alignment, from the oracle (tools/oracle). Each line is a kind and its words in hexadecimal; floats
//! stand by their bit patterns. tools/vectors/make runs it; how many calls end with each number is told on standard error.
//!
//! Document 01's cases 2 and 10, where they have no star, are on the list: filter 33 (`refused_settings`), filter 31 taken (`settings`),
//! a side of 4,096 taken and one of 4,097 refused by 2 (`limits`), 12n-1 floats refused by 4 (`refused_room`). Marks are lent in words of
//! sixty-four (document 02, request 5); pixels at, just below and just above a whole word are in `whole_words`. Poses that leave whole rows
//! without a mark (request 8) are in `far`.
//!
//! What is not on the list. Number 7 can't be had: prepared pixels stay below 2^22, so both norms are finite, and their product is no zero
//! once each is above 1e-6. Number 9 is here by lambda_d <= 0 and number 10 by theta outside -2..2. Nine million small calls gave none by
//! their other reasons. A lambda_d that is not finite can be had where the determinant leaves f32's range, as with a strong pattern of
//! 4,096 by 4,096 pixels: too large for a line.

#[allow(dead_code)]
#[path = "../oracle/ecc.rs"]
mod ecc;
#[allow(dead_code)]
mod frames;
#[allow(dead_code)]
mod lines;
#[allow(dead_code)]
#[path = "../oracle/rules.rs"]
mod rules;
use ecc::{EccConfig, Outcome};
use frames::{jumped, pair, seen};
use lines::{Line, Stream};

const LAST: usize = usize::MAX;

/// the texture's heights are five pixels apart
const CELL: f32 = 5.0;

#[derive(Clone)]
struct Call {
    w: usize,
    h: usize,
    template: Vec<u8>,
    input: Vec<u8>,
    cfg: EccConfig,
    room: Option<(usize, usize)>,
}

/// a call with plain settings, and room for a little more than it needs
fn call(w: usize, h: usize, template: &[u8], input: &[u8]) -> Call {
    let cfg = EccConfig { eps: 1e-4, max_iter: 10, gauss_filt_size: 1, resize_long_edge: None };
    Call { w, h, template: template.to_vec(), input: input.to_vec(), cfg, room: None }
}

impl Call {
    fn eps(mut self, eps: f32) -> Call {
        self.cfg.eps = eps;
        self
    }

    fn passes(mut self, most: usize) -> Call {
        self.cfg.max_iter = most;
        self
    }

    fn filter(mut self, size: usize) -> Call {
        self.cfg.gauss_filt_size = size;
        self
    }

    fn edge(mut self, edge: usize) -> Call {
        self.cfg.resize_long_edge = Some(edge);
        self
    }

    fn room(mut self, work: usize, marks: usize) -> Call {
        self.room = Some((work, marks));
        self
    }

    /// how many floats and words of marks are lent
    fn lent(&self) -> (usize, usize) {
        let n = pixels(self.w, self.h, self.cfg.resize_long_edge);
        self.room.unwrap_or((12 * n + 5, words(n) + 3))
    }

    fn ends(&self) -> Outcome {
        let (work, marks) = self.lent();
        ecc::find_transform_ecc_euclidean(&self.template, &self.input, self.w, self.h, self.cfg, work, marks)
    }

    fn line(&self) -> String {
        let (work, marks) = self.lent();
        let (o, edge) = (self.ends(), self.cfg.resize_long_edge);
        let line = Line::new(26).words(&[self.w, self.h, self.template.len(), self.input.len()]).floats(&[self.cfg.eps]);
        let line = line.words(&[self.cfg.max_iter, self.cfg.gauss_filt_size, edge.is_some() as usize, edge.unwrap_or(0), work, marks]);
        let line = line.bytes(&self.template).bytes(&self.input).words(&[o.number as usize, o.passes]);
        let line = line.floats(&[o.theta, o.tx, o.ty, o.rho]).floats(&ecc::matrix(&o).concat());
        line.words(&cleared(o.number, pixels(self.w, self.h, edge))).0
    }
}

/// document 01's n, of sides in range: where the longer side exceeds the edge, each side times edge / longer side, rounded, at least 8
fn pixels(w: usize, h: usize, edge: Option<usize>) -> usize {
    let (edge, long) = (edge.unwrap_or(0), w.max(h));
    if long > 4096 {
        return 0;
    }
    if edge == 0 || long <= edge {
        return w * h;
    }
    let scale = edge as f32 / long as f32;
    let side = |s: usize| ((s as f32 * scale).round() as usize).max(8);
    side(w) * side(h)
}

/// document 02's words for n marks, sixty-four to a word: the last may be filled in part
fn words(n: usize) -> usize {
    n / 64 + (n % 64 > 0) as usize
}

/// documents 01 and 02: with 0 and 5 to 10 the first 12n floats are +0 and the words of n marks 0; with 1 to 4 all stay
fn cleared(number: u8, n: usize) -> [usize; 2] {
    if (1..=4).contains(&number) {
        return [0, 0];
    }
    [12 * n, words(n)]
}

/// a template and an input between which the frame moved by a pose
fn moved(seed: u64, w: usize, h: usize, pose: [f32; 3]) -> Call {
    call(w, h, &seen(seed, CELL, w, h, pose), &seen(seed, CELL, w, h, [0.0; 3]))
}

/// sides above the limit, sides at it, and the smallest
fn limits(s: &mut Stream) -> Vec<Call> {
    let (wide, over) = (s.bytes(4096), s.bytes(4097));
    let (other, dark) = (s.bytes(4096), vec![0; 4096]);
    vec![
        call(4097, 1, &over, &over).room(12 * 4097, 65),
        call(1, 4097, &over, &over).room(12 * 4097, 65),
        call(4097, 1, &[], &[]).edge(8).room(2000, 4),
        call(1, 4097, &[], &[]).room(10, 1),
        call(4097, 0, &[], &[]).filter(0).room(0, 0),
        call(0, 4097, &[1], &[]).filter(33).passes(1001).room(0, 0),
        call(LAST, LAST, &[1], &[1]).room(12, 1),
        call(1 << 32, 1 << 32, &[], &[]).room(12, 1),
        call(4096, 4096, &[1], &[1]).room(12, 1),
        call(4096, 1, &wide, &other).passes(0),
        call(4096, 1, &wide, &other).filter(31),
        call(1, 4096, &dark, &dark).passes(0),
        call(1, 4096, &dark, &dark).passes(0).room(12 * 4096 - 1, 64),
        call(4096, 1, &dark, &dark).passes(0).room(12 * 4096, 63),
        call(1, 4096, &other, &wide).filter(31).room(12 * 4096, 64),
        call(4096, 1, &wide, &other).edge(350),
        call(1, 4096, &wide, &wide).edge(350).filter(3).eps(-1.0).passes(3),
        call(16, 256, &wide, &other).filter(31).room(12 * 4096, 64),
        call(16, 256, &wide, &wide).edge(255),
        call(1, 1, &[9], &[200]).passes(0),
        call(1, 1, &[9], &[200]).passes(0).room(12, 1),
        call(1, 1, &[9], &[200]),
        call(1, 1, &[9], &[200]).filter(31).edge(1),
        call(2, 2, &[1, 2, 3, 4], &[4, 3, 2, 1]),
    ]
}

/// number 1 for each of its reasons, and where others hold too; number 3
fn refused_settings(s: &mut Stream) -> Vec<Call> {
    let (a, b) = (s.bytes(31), s.bytes(31));
    let whole = || call(6, 5, &a[..30], &b[..30]);
    let mut all = vec![
        call(0, 5, &[], &[]),
        call(5, 0, &[], &[]),
        call(0, 0, &[], &[]).filter(33),
        call(0, 5, &a[..5], &b[..5]).room(60, 1),
        call(6, 5, &a[..29], &b[..30]),
        call(6, 5, &a, &b[..30]),
        call(6, 5, &[], &b[..30]),
        call(6, 5, &a[..30], &b[..29]),
        call(6, 5, &a[..30], &b),
        call(6, 5, &a[..30], &[]),
        call(6, 5, &a, &b).filter(33).room(0, 0),
    ];
    for even in [0, 2, 30, 32, 34, 1 << 63] {
        all.push(whole().filter(even));
    }
    all.push(whole().filter(2).passes(1001).room(0, 0));
    for odd in [33, 35, LAST] {
        all.push(whole().filter(odd));
    }
    for most in [1001, LAST] {
        all.push(whole().passes(most));
    }
    all.push(whole().filter(33).room(0, 0));
    all.push(whole().passes(1001).room(359, 0));
    all
}

/// number 4: a float too few, a word too few, none at all; and just enough, with and without resizing
fn refused_room(s: &mut Stream) -> Vec<Call> {
    let mut all = Vec::new();
    for (w, h, edge, n) in [(6, 5, 0, 30), (9, 1, 8, 64), (12, 9, 8, 64), (20, 30, 15, 150), (5, 5, 5, 25), (1, 1, 0, 1)] {
        let c = call(w, h, &s.bytes(w * h), &s.bytes(w * h)).edge(edge);
        let k = words(n);
        for (work, marks) in [(12 * n - 1, k), (12 * n, k - 1), (12 * n - 1, k - 1), (0, k), (0, 0), (12 * n, k), (12 * n + 40, k), (12 * n, k + 40)] {
            all.push(c.clone().room(work, marks));
        }
    }
    all
}

/// pixels at, just below and just above one, two and three whole words, and rows that are whole words or a pixel off: a word too few, just
/// enough, one more. The frames are a texture that moved, noise, flat ones (with passes and with none) and columns; the calls end with 0, 4 to 6
/// and 8 to 10
fn whole_words(s: &mut Stream) -> Vec<Call> {
    let mut all = Vec::new();
    let mut lend = |c: Call, n: usize| all.extend([words(n) - 1, words(n), words(n) + 1].map(|marks| c.clone().room(12 * n, marks)));
    for (w, h) in [(9, 7), (8, 8), (13, 5), (127, 1), (16, 8), (43, 3), (1, 191), (24, 8), (193, 1), (64, 1), (64, 2), (64, 5), (128, 3), (63, 4), (65, 4)] {
        lend(moved(90, w, h, [0.02, 0.4, -0.3]).passes(30), w * h);
    }
    for (w, h, edge, n) in [(20, 9, 8, 64), (20, 10, 16, 128), (100, 8, 64, 512), (8, 90, 64, 512)] {
        lend(moved(90, w, h, [0.0, 0.5, 0.25]).edge(edge), n);
    }
    for (w, h) in [(9, 7), (8, 8), (13, 5), (16, 8), (43, 3), (64, 3), (128, 2)] {
        let n = w * h;
        let columns: Vec<u8> = (0..n).map(|i| (i % w * 10) as u8).collect();
        let pairs = [(s.bytes(n), s.bytes(n)), (vec![7; n], vec![7; n]), (columns.clone(), columns)];
        all.extend(pairs.map(|(a, b)| call(w, h, &a, &b).room(12 * n, words(n) + 1)));
        all.push(call(w, h, &vec![7; n], &vec![7; n]).passes(0).room(12 * n, words(n) + 1));
    }
    all
}

/// pairs of 5x5 frames: flat, nearly flat, with one bright pixel, in columns and rows, noise, negatives
fn pairs(s: &mut Stream) -> Vec<[Vec<u8>; 2]> {
    let (noise, flat, dark) = (s.bytes(25), vec![7; 25], vec![0; 25]);
    let columns: Vec<u8> = (0..25).map(|i| i % 5 * 10).collect();
    let rows: Vec<u8> = (0..25).map(|i| i / 5 * 10).collect();
    let negative: Vec<u8> = noise.iter().map(|b| 255 - b).collect();
    let with = |f: &[u8], i: usize, b: u8| [&f[..i], &[b], &f[i + 1..]].concat();
    let both = |f: &[u8], b: u8, i: usize, j: usize| [with(f, i, b), with(f, j, b)];
    let mut all = vec![[with(&flat, 12, 8), flat.clone()], [flat.clone(), with(&flat, 12, 8)], [with(&dark, 12, 1), noise.clone()]];
    all.extend([(12, 12), (12, 13), (0, 6), (24, 24)].map(|(i, j)| both(&flat, 8, i, j)));
    all.extend([(12, 12), (12, 7), (0, 1)].map(|(i, j)| both(&dark, 255, i, j)));
    all.push([noise.clone(), with(&noise, 12, !noise[12])]);
    let plain = [
        [&flat, &flat],
        [&flat, &noise],
        [&noise, &flat],
        [&dark, &dark],
        [&columns, &columns],
        [&rows, &rows],
        [&columns, &rows],
        [&noise, &columns],
        [&columns, &noise],
        [&noise, &negative],
        [&negative, &noise],
        [&noise, &noise],
    ];
    all.extend(plain.map(|pair| pair.map(|f| f.clone())));
    all
}

/// numbers 5, 6, 8 and 9 by plain frames; document 01's case 9 first
fn plain(s: &mut Stream) -> Vec<Call> {
    let columns: Vec<u8> = (0..25).map(|i| i % 5 * 10).collect();
    let mut all = vec![call(5, 5, &columns, &columns)];
    all[0].cfg = EccConfig::default();
    for (w, h) in [(4, 5), (5, 4), (4, 4), (2, 12)] {
        let f = s.bytes(w * h);
        all.push(call(w, h, &f, &f));
    }
    for [a, b] in pairs(s) {
        for filter in [1, 3, 31] {
            all.push(call(5, 5, &a, &b).filter(filter));
        }
        all.push(call(5, 5, &a, &b).edge(4));
    }
    all
}

/// flat frames, blurred: their norm comes from rounding alone. The smallest that ends in a pose (docs/DIFFERENCES.md), and those nearest to 1e-6 from
/// below and from above, as template and as input
fn faint() -> Vec<Call> {
    let (mut below, mut above) = ((0.0, 0, 0, 0), (1.0, 0, 0, 0));
    for (w, level, filter) in (5..10).flat_map(|w| (1..=255).flat_map(move |v| (3..=31).step_by(2).map(move |f| (w, v, f)))) {
        let n = w * w;
        let image = ecc::prepared(&vec![level; n], w, w, w, w, filter);
        let mask: Vec<bool> = (0..n).map(|i| i % w + 1 < w && i / w + 1 < w).collect();
        let norm = ecc::centered_stats_in_place(&image, &image, &mask, &mut vec![0.0; n], &mut vec![0.0; n]).0;
        if norm <= 1e-6 && norm > below.0 {
            below = (norm, w, level, filter);
        }
        if norm > 1e-6 && norm < above.0 {
            above = (norm, w, level, filter);
        }
    }
    let mut white = vec![0; 25];
    white[9] = 255;
    let mut all = vec![call(5, 5, &[8; 25], &white).filter(3).passes(100)];
    for (_, w, level, filter) in [below, above] {
        let (flat, other) = (vec![level; w * w], seen(80, CELL, w, w, [0.0; 3]));
        all.extend([call(w, w, &flat, &other).filter(filter), call(w, w, &other, &flat).filter(filter), call(w, w, &flat, &flat).filter(filter)]);
    }
    all
}

const POSES: [[f32; 3]; 7] =
    [[0.0, 0.0, 0.0], [0.0, 0.5, -0.25], [0.0, 1.5, 0.75], [0.02, 0.3, -0.4], [-0.05, 1.0, 1.0], [0.08, -0.5, 0.25], [-0.03, -1.25, 2.0]];

/// known motions, which the passes find; and larger frames with none: noise, a negative
fn motions(s: &mut Stream) -> Vec<Call> {
    let still = seen(60, CELL, 24, 20, [0.0; 3]);
    let negative: Vec<u8> = still.iter().map(|b| 255 - b).collect();
    let mut all = vec![call(24, 20, &s.bytes(480), &s.bytes(480)), call(24, 20, &still, &negative), call(24, 20, &still, &s.bytes(480)).filter(7)];
    for (i, &pose) in POSES.iter().enumerate() {
        for (w, h) in [(16, 12), (20, 18)] {
            let c = moved(40 + i as u64, w, h, pose).passes(100).eps(1e-6);
            let o = c.ends();
            let near = |a: f32, b: f32| (a - b).abs() < 0.15;
            assert!(o.number == 0 && near(o.theta, pose[0]) && near(o.tx, pose[1]) && near(o.ty, pose[2]), "{:?} {:?}", pose, o);
            all.extend([c.clone(), c.clone().eps(1e-4), c.filter(5)]);
        }
    }
    for (w, h, edge) in [(40, 30, 20), (30, 40, 39), (64, 64, 0), (64, 64, 33), (16, 256, 0), (256, 16, 128)] {
        all.push(moved(60, w, h, [0.01, 0.75, -0.5]).passes(100).edge(edge).filter(3));
    }
    all
}

/// each eps, pass limit, filter and resize choice on one pair
fn settings() -> Vec<Call> {
    let c = moved(70, 14, 11, [0.03, 0.6, -0.8]);
    let mut all = Vec::new();
    for eps in [f32::NAN, 0.0, -0.0, -1.0, f32::INFINITY, f32::NEG_INFINITY, 1e-4, 1e-45, 0.05, f32::MAX] {
        for most in [0, 1, 2, 10] {
            all.push(c.clone().eps(eps).passes(most));
        }
    }
    all.extend([f32::NAN, 0.0, -1.0, 1e-4, 1e-9].map(|eps| c.clone().eps(eps).passes(1000)));
    for filter in (1..=31).step_by(2) {
        all.push(c.clone().filter(filter));
    }
    for edge in [0, 1, 8, 9, 13, 14, 15, 350, LAST] {
        for filter in [1, 5, 31] {
            all.push(c.clone().edge(edge).filter(filter));
        }
    }
    all
}

/// a small call of any kind; a few have a length wrong or a float or a word of marks too few
fn small(s: &mut Stream) -> Call {
    let (w, h) = (5 + s.next() as usize % 8, 5 + s.next() as usize % 8);
    let (a, b) = pair(s, w, h);
    let mut pick = |of: &[usize]| of[s.next() as usize % of.len()];
    let eps = [1e-4, -1.0, f32::NAN, 1e-3, f32::INFINITY, 0.0][pick(&[0, 0, 1, 1, 2, 3, 4, 5])];
    let c = call(w, h, &a, &b).eps(eps).passes(pick(&[0, 1, 3, 10, 10, 30])).filter(pick(&[1, 1, 3, 5, 7, 31]));
    let edge = pick(&[0, 8, 9, w.max(h), w.max(h) + 1]);
    let c = if pick(&[0, 1, 2]) == 0 { c } else { c.edge(edge) };
    let (work, marks) = c.lent();
    match pick(&[0, 1, 2, 3]) * 16 + pick(&[0, 1, 2, 3]) {
        0x00 => c.room(work - 6, marks),
        0x11 => c.room(work - 5, marks - pick(&[3, 4])),
        0x22 => call(w, h, &a, &b[1..]),
        _ => c,
    }
}

/// frames whose first pass leads far away, so that the next passes mark few rows or none: steep turns, large shifts, both
fn far() -> Vec<Call> {
    let mut all = Vec::new();
    for (i, &(w, h)) in [(20, 16), (12, 24), (9, 7)].iter().enumerate() {
        let (x, y) = (w as f64, h as f64);
        for pose in [[1.2, 0.0, 0.0], [-0.6, 0.0, y / 3.0], [0.0, 0.0, y / 2.0], [0.0, 0.0, -y / 2.0], [0.0, x / 2.0, 0.0], [0.3, -x / 3.0, -y / 3.0], [0.0, 0.0, 2.0 * y]] {
            let phases = [i as f64, 2.0, 0.4 + pose[0]];
            let (template, input) = jumped(phases, w, h, pose);
            all.extend([call(w, h, &template, &input).eps(-1.0).passes(2), call(w, h, &template, &input).filter(5).passes(30)]);
        }
    }
    all
}

/// what a call that ends rarely so is looked for as: its number, whether it ends after the first pass, and for a pose whether it lies far
/// away; poses are looked for only far away or settled after many passes
fn sort(c: &Call) -> Option<(u8, bool, bool)> {
    let o = c.ends();
    if o.number != 0 {
        return Some((o.number, o.passes > 1, false));
    }
    let settled = o.passes > 5 && o.passes < c.cfg.max_iter;
    let far = o.tx.abs() > 1000.0;
    (far || settled).then_some((0, settled, far))
}

/// a few calls of each sort
fn rare(s: &mut Stream) -> Vec<Call> {
    let mut wanted = vec![((0, false, true), 4), ((0, true, false), 6), ((5, true, false), 8), ((6, true, false), 8)];
    wanted.extend([((8, false, false), 4), ((8, true, false), 8), ((9, false, false), 4), ((9, true, false), 8)]);
    wanted.extend([((10, false, false), 8), ((10, true, false), 8)]);
    let mut all = Vec::new();
    for _ in 0..100_000 {
        let c = small(s);
        let at = sort(&c).and_then(|k| wanted.iter().position(|w| w.0 == k && w.1 > 0));
        if let Some(i) = at {
            wanted[i].1 -= 1;
            all.push(c);
        }
    }
    assert!(wanted.iter().all(|w| w.1 == 0), "{:?}", wanted);
    all
}

fn main() {
    let mut s = Stream(20260104);
    let mut counts = [0; 11];
    println!("# whole calls: sides, lengths of template and input, eps, max_iter, filter, whether there is an edge, the edge, lengths of work and marks (floats, words), both frames;");
    println!("# number, passes, theta, tx, ty, rho, matrix, how many floats and words of marks from the front are cleared");
    let groups = [
        ("sides at their limits", limits(&mut s)),
        ("settings and lengths refused", refused_settings(&mut s)),
        ("room refused and just enough", refused_room(&mut s)),
        ("plain frames", plain(&mut s)),
        ("faint frames", faint()),
        ("known motions", motions(&mut s)),
        ("settings", settings()),
        ("rare ends", rare(&mut s)),
        ("small calls", (0..150).map(|_| small(&mut s)).collect()),
        ("marks at whole words", whole_words(&mut s)),
        ("far poses", far()),
    ];
    for (name, calls) in groups {
        println!("# {}", name);
        for c in calls {
            counts[c.ends().number as usize] += 1;
            println!("{}", c.line());
        }
    }
    counts.iter().enumerate().for_each(|(number, count)| eprintln!("whole calls that end with {}: {}", number, count));
}
