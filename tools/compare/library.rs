//! The library against the oracle (tools/oracle), by way of the header (library.c) and of the Rust wrapper: every parameter of each call differs
//! from those that it could be taken for, and what is handed back and what the lent memory holds afterwards is compared bit for bit.
//!
//!   library [CALLS]            prints how many comparisons were made, and how many failed
//!   library --write [CALLS]    prints neither: it writes each call by the header to standard output, with what the oracle expects of it, for the
//!                              library of another machine. archive.c reads that, and says how a record is made up
//!
//! The aligner and the lengths are held to the rules of documents 01 and 02 as tools/oracle/aligner.rs has them, the pins as tools/oracle/pins.rs
//! has them. Marks are lent in words, with any bits in them before; some sides have pixels at, just below and just above whole words.

#[path = "../oracle/aligner.rs"]
mod aligner;
#[allow(dead_code)]
#[path = "../oracle/ecc.rs"]
mod ecc;
#[allow(dead_code)]
#[path = "../vectors/lines.rs"]
mod lines;
#[allow(dead_code)]
#[path = "../../rust/quayhollow.rs"]
mod quayhollow;
#[allow(dead_code)]
#[path = "../oracle/pins.rs"]
mod pins;
mod poses;
#[allow(dead_code)]
#[path = "../oracle/rules.rs"]
mod rules;
use aligner::{pixels, Memory};
use ecc::{words, EccConfig};
use lines::{pick, Stream};
use pins::pins;
use quayhollow::{Answer, Outcome, Pose, Settings, State};
use std::io::{stdout, BufWriter, Stdout, Write};
use std::ptr::{null, null_mut};

#[repr(C)]
struct Call {
    template: *const u8,
    template_len: usize,
    input: *const u8,
    input_len: usize,
    w: usize,
    h: usize,
    eps: f32,
    max_iter: usize,
    filter: usize,
    edge: usize,
    state: *mut u64,
    state_len: usize,
    store: *mut u8,
    store_len: usize,
    work: *mut f32,
    work_len: usize,
    marks: *mut u64,
    marks_len: usize,
    pose: *mut f32,
    pose_len: usize,
}

#[repr(C)]
struct Handed {
    number: u8,
    theta: f32,
    tx: f32,
    ty: f32,
    w: usize,
    h: usize,
    matrix: *mut f32,
    matrix_len: usize,
    pins: *mut i16,
    pins_len: usize,
}

extern "C" {
    fn c_align(c: *const Call) -> u32;
    fn c_estimate(c: *const Call) -> u32;
    fn c_matrix(a: *const Handed);
    fn c_pins(a: *const Handed);
    fn c_lengths(c: *const Call, out: *mut usize);
    fn c_told(code: u32, out: *mut u32);
    fn c_defaults(c: *mut Call);
}

/// what a record is of
#[derive(Clone, Copy)]
enum Kind {
    Align,
    Estimate,
    Answer,
    Lengths,
}

/// a call by the header as bytes: its kind and numbers, then parts
struct Record(Vec<u8>);

impl Record {
    fn new(kind: Kind, numbers: &[u64]) -> Record {
        Record([&[kind as u64], numbers].concat().iter().flat_map(|n| n.to_le_bytes()).collect())
    }

    /// memory: how many bytes, what they are before the call, and what they must be afterwards
    fn part<T: Copy, const N: usize>(mut self, before: &[T], after: &[T], bytes: fn(T) -> [u8; N]) -> Record {
        assert_eq!(before.len(), after.len());
        self.0.extend(((N * before.len()) as u64).to_le_bytes());
        self.0.extend(before.iter().chain(after).flat_map(|&x| bytes(x)));
        self
    }
}

/// memory of no length is at null
fn shown<T>(of: &[T]) -> *const T {
    match of {
        [] => null(),
        _ => of.as_ptr(),
    }
}

/// the same, for memory that a call may write
fn lent<T>(of: &mut [T]) -> *mut T {
    match of {
        [] => null_mut(),
        _ => of.as_mut_ptr(),
    }
}

fn bits(of: &[f32]) -> Vec<u32> {
    of.iter().map(|x| x.to_bits()).collect()
}

/// what a call is handed beside the memory
struct Given {
    template: Vec<u8>,
    input: Vec<u8>,
    w: usize,
    h: usize,
    settings: Settings,
}

impl Given {
    fn record(&self, m: &mut Memory) -> Call {
        let s = self.settings;
        Call {
            template: shown(&self.template),
            template_len: self.template.len(),
            input: shown(&self.input),
            input_len: self.input.len(),
            w: self.w,
            h: self.h,
            eps: s.eps,
            max_iter: s.max_iter,
            filter: s.filter,
            edge: s.edge,
            state: lent(&mut m.state),
            state_len: m.state.len(),
            store: lent(&mut m.store),
            store_len: m.store.len(),
            work: lent(&mut m.work),
            work_len: m.work.len(),
            marks: lent(&mut m.marks),
            marks_len: m.marks.len(),
            pose: lent(&mut m.pose),
            pose_len: m.pose.len(),
        }
    }

    fn config(&self) -> EccConfig {
        let s = self.settings;
        aligner::config(s.eps, s.max_iter, s.filter, s.edge)
    }
}

/// how many comparisons were made, and how many failed; where records go, if they are asked for
struct Tally {
    tried: usize,
    wrong: usize,
    out: Option<BufWriter<Stdout>>,
}

impl Tally {
    fn hold(&mut self, agrees: bool, what: &str) {
        self.tried += 1;
        if !agrees {
            self.wrong += 1;
            if self.wrong <= 10 {
                eprintln!("differs: {what}");
            }
        }
    }

    /// a record goes out, behind the count of its bytes
    fn write(&mut self, record: impl FnOnce() -> Record) {
        if let Some(out) = &mut self.out {
            let Record(bytes) = record();
            let long = bytes.len() as u64;
            out.write_all(&long.to_le_bytes()).and_then(|_| out.write_all(&bytes)).expect("a record is written");
        }
    }

    /// a call by the header: code, and all memory. What the oracle answers and leaves is handed back
    fn by_c(&mut self, kind: Kind, g: &Given, before: &Memory) -> (ecc::Outcome, Memory) {
        let (s, mut m, mut expected) = (g.settings, before.clone(), before.clone());
        let c = g.record(&mut m);
        let (what, o, code) = match kind {
            Kind::Align => {
                let o = aligner::align(&g.template, &g.input, g.w, g.h, g.config(), &mut expected);
                ("align by the header", o, unsafe { c_align(&c) })
            }
            _ => {
                let o = aligner::estimate(&g.input, g.w, g.h, g.config(), &mut expected);
                ("estimate by the header", o, unsafe { c_estimate(&c) })
            }
        };
        if expected.pose.len() >= 4 {
            expected.pose[..4].copy_from_slice(&[o.theta, o.tx, o.ty, o.rho]);
        }
        let (mut told, number_passes) = ([0; 2], [o.number as u32, o.passes as u32]);
        unsafe { c_told(code, told.as_mut_ptr()) };
        self.hold(told == number_passes, what);
        self.hold(m.differs(&expected).is_empty(), what);
        self.write(|| {
            let eps = s.eps.to_bits() as usize;
            Record::new(kind, &[g.w, g.h, eps, s.max_iter, s.filter, s.edge].map(|n| n as u64))
                .part(&g.template, &g.template, u8::to_le_bytes)
                .part(&g.input, &g.input, u8::to_le_bytes)
                .part(&before.state, &expected.state, u64::to_le_bytes)
                .part(&before.store, &expected.store, u8::to_le_bytes)
                .part(&before.work, &expected.work, f32::to_le_bytes)
                .part(&before.marks, &expected.marks, u64::to_le_bytes)
                .part(&before.pose, &expected.pose, f32::to_le_bytes)
                .part(&[u32::MAX; 2], &number_passes, u32::to_le_bytes)
        });
        (o, expected)
    }

    /// a call by the wrapper: its outcome, with the matrix and the pins, and the memory but for the pose
    fn by_rust(&mut self, what: &str, got: Outcome, o: &ecc::Outcome, (w, h): (usize, usize), m: &mut Memory, expected: &Memory) {
        m.pose = expected.pose.clone();
        let numbers = match got.answer {
            Answer::Posed(p) => [p.theta, p.tx, p.ty, p.rho],
            Answer::Refused(_) => [0.0; 4],
        };
        let same = numbers.map(f32::to_bits) == [o.theta, o.tx, o.ty, o.rho].map(f32::to_bits);
        self.hold(same && (got.answer.number(), got.passes as usize) == (o.number, o.passes), what);
        self.hold(m.differs(expected).is_empty(), what);
        self.hold(got.answer.matrix().map(|r| r.map(f32::to_bits)) == ecc::matrix(o).map(|r| r.map(f32::to_bits)), what);
        let p = got.answer.pins(w, h);
        self.hold([p.dx, p.dy, p.turn] == pins(o, w, h), what);
    }
}

/// a frame of ramps and noise, and one like it; some are flat
fn frames(s: &mut Stream, w: usize, h: usize) -> (Vec<u8>, Vec<u8>) {
    let most = pick(s, &[40, 40, 40, 40, 40, 1]);
    let (a, b, c) = (s.next() as usize % most, s.next() as usize % most, s.next() as usize % most.min(8));
    let noise = s.bytes(w * h);
    let at = |i: usize, d: usize| ((i % w + d) * a + (i / w) * b + (noise[i] as usize % 16) * c) as u8;
    let first = (0..w * h).map(|i| at(i, 0)).collect();
    (first, (0..w * h).map(|i| at(i, 1)).collect())
}

/// sides that differ, frames, settings and memory: as a call needs them most of the time, a little off at others
fn given(s: &mut Stream) -> (Given, Memory) {
    let (w, h) = pick(s, &[(7, 6), (6, 9), (9, 5), (5, 11), (12, 8), (8, 10), (9, 7), (16, 4), (13, 5), (8, 16), (43, 3), (64, 2)]);
    let (mut template, mut input) = frames(s, w, h);
    let settings = Settings {
        eps: pick(s, &[1e-4, 1e-3, 0.05, -1.0, f32::NAN]),
        max_iter: pick(s, &[0, 1, 3, 8, 20, 1001]),
        filter: pick(s, &[1, 3, 5, 7, 9, 33, 2]),
        edge: pick(s, &[0, 8, 9, 10, 11]),
    };
    let n = pixels(w, h, settings.edge);
    let off = s.next() % 16;
    let mut w = w;
    match off {
        0 => template.truncate(w * h - 1),
        1 => input.truncate(w * h - 1),
        2 => w = pick(s, &[0, 4097, usize::MAX]),
        _ => (),
    }
    let room = |count: usize, s: &mut Stream| if off == 3 { count.saturating_sub(s.next() as usize % 2) } else { count + s.next() as usize % 9 };
    let (work, marks, store) = (room(12 * n, s), room(words(n), s), room(w.min(99) * h, s));
    let held = pick(s, &[0, 1, 1, 1, 7, u64::MAX]);
    let state = [held, w as u64, pick(s, &[h, h, h, h, h + 1]) as u64, 77, 78, 79];
    let pose = pick(s, &[4, 4, 5, 9, 3, 0]);
    let memory = Memory {
        state: state[..pick(s, &[3, 3, 3, 3, 4, 6, 2, 0])].to_vec(),
        store: s.bytes(store),
        work: s.floats(work),
        marks: (0..marks).map(|_| (s.next() as u64) << 32 | s.next() as u64).collect(),
        pose: s.floats(pose),
    };
    (Given { template, input, w, h, settings }, memory)
}

/// calls of the alignment and of the aligner, one after another on the same memory
fn calls(t: &mut Tally, count: usize) {
    let mut s = Stream(20260117);
    let mut ends = [0; 14];
    for _ in 0..count {
        let (g, m) = given(&mut s);
        let (set, w, h) = (g.settings, g.w, g.h);

        let (o, expected) = t.by_c(Kind::Align, &g, &m);
        let mut by_rust = m.clone();
        let got = quayhollow::align(&g.template, &g.input, w, h, set, &mut by_rust.work, &mut by_rust.marks);
        t.by_rust("align by the wrapper", got, &o, (w, h), &mut by_rust, &expected);
        ends[o.number as usize] += 1;

        // the store holds the frame before, or what it held
        let mut m = m;
        if s.next() % 4 > 0 && m.store.len() >= g.template.len() {
            m.store[..g.template.len()].copy_from_slice(&g.template);
        }
        let (o, expected) = t.by_c(Kind::Estimate, &g, &m);
        ends[o.number as usize] += 1;
        if let [a, b, c] = m.state[..] {
            let (mut by_rust, mut state) = (m.clone(), State([a, b, c]));
            let got = quayhollow::estimate(&g.input, w, h, set, &mut state, &mut by_rust.store, &mut by_rust.work, &mut by_rust.marks);
            by_rust.state = state.0.to_vec();
            t.by_rust("estimate by the wrapper", got, &o, (w, h), &mut by_rust, &expected);
        }
    }
    if t.out.is_none() {
        println!("calls that end with each number from 0 to 13: {ends:?}");
    }
}

/// lengths for sides and edges of all kinds; the version, the defaults, and memory of no length at null
fn lengths(t: &mut Tally) {
    let sides = [0, 1, 4, 7, 8, 9, 12, 63, 64, 65, 350, 351, 400, 700, 4095, 4096, 4097, 1 << 32, usize::MAX];
    let nothing = |w: usize, h: usize| Given { template: vec![], input: vec![], w, h, settings: Settings::default() };
    let mut c = nothing(0, 0).record(&mut Memory::default());
    for (w, h, edge) in sides.iter().flat_map(|&w| sides.iter().flat_map(move |&h| sides.map(|edge| (w, h, edge)))) {
        let n = pixels(w, h, edge);
        let store = if w > 4096 || h > 4096 { 0 } else { w * h };
        let expected = [12 * n, words(n), store, 3];
        (c.w, c.h, c.edge) = (w, h, edge);
        let mut out = [9; 4];
        unsafe { c_lengths(&c, out.as_mut_ptr()) };
        t.hold(out == expected, "lengths by the header");
        t.write(|| Record::new(Kind::Lengths, &[w, h, edge].map(|n| n as u64)).part(&[9; 4], &expected, usize::to_le_bytes));
        let got = [quayhollow::work_len(w, h, edge), quayhollow::marks_len(w, h, edge), quayhollow::store_len(w, h), quayhollow::version() as usize];
        t.hold(got == expected, "lengths by the wrapper");
    }
    unsafe { c_defaults(&mut c) };
    let defaults = Settings { eps: c.eps, max_iter: c.max_iter, filter: c.filter, edge: c.edge };
    let oracle = EccConfig::default();
    let expected = Settings { eps: oracle.eps, max_iter: oracle.max_iter, filter: oracle.gauss_filt_size, edge: oracle.resize_long_edge.unwrap() };
    t.hold(defaults == expected && Settings::default() == expected, "defaults");

    for (w, h, align, estimate) in [(0, 0, 1, 11), (0, 9, 1, 11), (5000, 0, 2, 2), (3, 4, 1, 1)] {
        let (g, m) = (nothing(w, h), Memory::default());
        let numbers = [Kind::Align, Kind::Estimate].map(|kind| t.by_c(kind, &g, &m).0.number);
        t.hold(numbers == [align, estimate], "null");
    }
}

/// the matrix and the pins of answers handed in, with any bits, and slices of any length
fn answers(t: &mut Tally, count: usize) {
    let mut s = Stream(20260118);
    for i in 0..count {
        let number = |s: &mut Stream| match s.next() % 8 {
            0 => f32::from_bits(s.next()),
            1 => pick(s, &[f32::NAN, f32::INFINITY, f32::NEG_INFINITY, 2.0, -2.0, 2.0000002, -0.0, 128.0, -128.0, 0.001953125]),
            _ => (s.next() as f32 / 4294967296.0 - 0.5) * pick(s, &[0.1, 4.0, 40.0, 300.0]),
        };
        let (theta, tx, ty, w, h) = match poses::pose(&mut s, i) {
            (_, _, _, w, h) if i % 2 == 0 => (number(&mut s), number(&mut s), number(&mut s), w, h),
            posed => posed,
        };
        let no = pick(&mut s, &[0, 0, 0, 1, 10, 13, 128, 255]);
        let o = ecc::Outcome { number: no, passes: 0, theta, tx, ty, rho: 0.0 };
        let (three, nine) = (pins(&o, w, h), ecc::matrix(&o).concat());

        let long = pick(&mut s, &[9, 9, 10, 12, 8, 0]);
        let (floats, numbers) = (s.floats(long), (0..pick(&mut s, &[3, 3, 4, 6, 2, 0])).map(|i| 1000 + i).collect::<Vec<i16>>());
        let (mut all, mut whole) = (floats.clone(), numbers.clone());
        if all.len() >= 9 {
            all[..9].copy_from_slice(&nine);
        }
        if whole.len() >= 3 {
            whole[..3].copy_from_slice(&three);
        }
        let (mut matrix, mut got) = (floats.clone(), numbers.clone());
        let (matrix_len, pins_len) = (matrix.len(), got.len());
        let a = Handed { number: no, theta, tx, ty, w, h, matrix: lent(&mut matrix), matrix_len, pins: lent(&mut got), pins_len };
        unsafe { c_matrix(&a) };
        unsafe { c_pins(&a) };
        t.hold(bits(&matrix) == bits(&all), "matrix by the header");
        t.hold(got == whole, "pins by the header");
        t.write(|| {
            Record::new(Kind::Answer, &[no as u64, theta.to_bits() as u64, tx.to_bits() as u64, ty.to_bits() as u64, w as u64, h as u64])
                .part(&floats, &all, f32::to_le_bytes)
                .part(&numbers, &whole, i16::to_le_bytes)
        });
        if no == 0 {
            let answer = Answer::Posed(Pose { theta, tx, ty, rho: 0.0 });
            t.hold(bits(&answer.matrix().concat()) == bits(&nine), "matrix by the wrapper");
            let p = answer.pins(w, h);
            t.hold([p.dx, p.dy, p.turn] == three, "pins by the wrapper");
        }
    }
}

/// the pins of many poses at which they are hard to get right
fn posed(t: &mut Tally, count: usize) {
    let mut s = Stream(20260119);
    let (mut out, mut halves, mut tiny, mut far) = ([0; 3], 0, 0, 0);
    for i in 0..count {
        let (theta, tx, ty, w, h) = poses::pose(&mut s, i);
        let o = ecc::Outcome { number: 0, passes: 0, theta, tx, ty, rho: 0.0 };
        let a = Handed { number: 0, theta, tx, ty, w, h, matrix: null_mut(), matrix_len: 0, pins: lent(&mut out), pins_len: 3 };
        unsafe { c_pins(&a) };
        t.hold(out == pins(&o, w, h), "pins of a pose");
        halves += pins::halves(&o, w, h);
        tiny += (theta != 0.0 && theta.abs() < 1.0 / 16777216.0) as usize;
        far += (tx.abs().max(ty.abs()) >= 4096.0) as usize;
    }
    if t.out.is_none() {
        println!("poses {count}: {halves} exact halves among dx and dy, {tiny} turns below 2^-24, {far} shifts from 4,096 on");
    }
}

fn main() {
    let mut words = std::env::args().skip(1).peekable();
    let out = words.next_if(|w| w == "--write").map(|_| BufWriter::new(stdout()));
    let count = words.next().map_or(20_000, |n| n.parse().expect("CALLS is a number"));
    let mut t = Tally { tried: 0, wrong: 0, out };
    lengths(&mut t);
    answers(&mut t, count);
    if t.out.is_none() {
        posed(&mut t, 100 * count);
    }
    calls(&mut t, count);
    match &mut t.out {
        Some(out) => out.flush().expect("the records are written"),
        None => println!("compared {}, {} differences", t.tried, t.wrong),
    }
    std::process::exit((t.wrong > 0) as i32);
}
