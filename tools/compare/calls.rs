//! The library against the oracle at scale, by way of the Rust wrapper: answers and all lent memory, bit for bit.
//!
//!   calls [COUNT] [SEED]
//!   calls --again SEED FAMILY INDEX
//!
//! The first form makes about COUNT calls, shared among the families (families.rs), on two threads. It prints for each family how many calls
//! ended with each number. Of each family's first difference it prints the smallest input found and the words for the second form, which
//! makes that one case again. It ends with 1 if anything differed, and if a call ended with 7, which is never given (docs/PROMISES.md).

#[allow(dead_code)]
#[path = "../oracle/aligner.rs"]
mod aligner;
mod case;
#[allow(dead_code)]
#[path = "../oracle/ecc.rs"]
mod ecc;
mod families;
#[path = "../vectors/frames.rs"]
mod frames;
#[allow(dead_code)]
#[path = "../vectors/lines.rs"]
mod lines;
#[allow(dead_code)]
#[path = "../../rust/quayhollow.rs"]
mod quayhollow;
#[allow(dead_code)]
#[path = "../oracle/rules.rs"]
mod rules;
mod shrink;
use case::{Call, Case, Told};
use families::{FAMILIES, FAR, LARGE, LARGEST};
use std::sync::atomic::{AtomicU64, Ordering};
use std::thread;

const COUNT: u64 = 1_000_000;
const SEED: u64 = 20260119;
const STEP: u64 = 20_000;

/// what a worker has seen: for each family how its calls ended, and the indexes of cases that differ
#[derive(Default)]
struct Tally {
    ends: [[u64; 14]; FAMILIES.len()],
    differ: [Vec<u64>; FAMILIES.len()],
    /// of the family of far poses: calls whose second pass marks some rows and not others, their rows, and those before the first and after the
    /// last that hold a mark
    far: [u64; 3],
}

impl Tally {
    fn add(&mut self, other: &Tally) {
        for f in 0..FAMILIES.len() {
            (0..14).for_each(|n| self.ends[f][n] += other.ends[f][n]);
            self.differ[f].extend(&other.differ[f]);
        }
        (0..3).for_each(|i| self.far[i] += other.far[i]);
    }
}

/// whether there is memory for frames of 4,096 by 4,096 on both threads: 8 GB are enough
fn roomy() -> bool {
    let text = std::fs::read_to_string("/proc/meminfo").unwrap_or_default();
    let line = text.lines().find(|l| l.starts_with("MemAvailable:")).unwrap_or("");
    line.split_whitespace().nth(1).map_or(false, |k| k.parse::<u64>().map_or(false, |k| k > 8_000_000))
}

/// the family and the index of a job
fn placed(mut job: u64, count: u64) -> (usize, u64) {
    for (f, family) in FAMILIES.iter().enumerate() {
        if job < family.cases(count) {
            return (f, job);
        }
        job -= family.cases(count);
    }
    unreachable!()
}

struct Run {
    count: u64,
    seed: u64,
    jobs: u64,
    roomy: bool,
    next: AtomicU64,
    done: AtomicU64,
    wrong: AtomicU64,
}

impl Run {
    fn work(&self) -> Tally {
        let mut t = Tally::default();
        loop {
            let job = self.next.fetch_add(1, Ordering::Relaxed);
            if job >= self.jobs {
                return t;
            }
            let (family, index) = placed(job, self.count);
            if family == LARGE && LARGEST.contains(&index) && !self.roomy {
                println!("left out, as there is too little memory: the largest frames, case {}", index);
                continue;
            }
            self.one(&mut t, family, index);
            if family == FAR {
                self.left(&mut t, index);
            }
        }
    }

    /// what the second pass of a far pose leaves out, by the oracle
    fn left(&self, t: &mut Tally, index: u64) {
        let case = families::case(self.seed, FAR, index);
        let rows = case.calls[0].second_rows();
        if let Some((first, last)) = rows.filter(|(first, last)| last - first + 1 < case.calls[0].h) {
            let h = case.calls[0].h as u64;
            let out = h - (last - first + 1) as u64;
            t.far.iter_mut().zip([1, h, out]).for_each(|(sum, x)| *sum += x);
        }
    }

    fn one(&self, t: &mut Tally, family: usize, index: u64) {
        let case = families::case(self.seed, family, index);
        if case.run(&mut t.ends[family]).is_some() {
            t.differ[family].push(index);
            if self.wrong.fetch_add(1, Ordering::Relaxed) == 0 {
                eprintln!("differs: --again {} {} {}", self.seed, family + 1, index);
            }
        }
        let calls = case.calls.len() as u64;
        let before = self.done.fetch_add(calls, Ordering::Relaxed);
        if before / STEP != (before + calls) / STEP {
            eprintln!("{} calls, {} differences", before + calls, self.wrong.load(Ordering::Relaxed));
        }
    }
}

fn told(t: &Told) -> String {
    let [theta, tx, ty, rho] = t.bits.map(f32::from_bits);
    format!("number {}, {} passes, theta {} tx {} ty {} rho {}, bits {:08x?}", t.number, t.passes, theta, tx, ty, rho, t.bits)
}

fn print_frame(name: &str, f: &[u8], w: usize) {
    println!("    {} of {} bytes", name, f.len());
    if f.len() > 4096 {
        println!("      too long to print");
        return;
    }
    f.chunks(w.clamp(1, 64)).for_each(|row| println!("      {}", row.iter().map(|b| b.to_string()).collect::<Vec<_>>().join(" ")));
}

fn print_call(c: &Call) {
    let s = c.settings;
    println!("  {} by {}, eps {} (bits {:08x}), max_iter {}, filter {}, edge {}", c.w, c.h, s.eps, s.eps.to_bits(), s.max_iter, s.filter, s.edge);
    c.template.iter().for_each(|t| print_frame("template", t, c.w));
    print_frame("input", &c.input, c.w);
}

/// a case that differs, made as small as can be
fn print_smallest(seed: u64, family: usize, index: u64, case: &Case) {
    let small = shrink::shrunk(case);
    println!("a difference in '{}'; the smallest input found:", FAMILIES[family].name);
    println!("  state {:?}, store of {} bytes, work of {} floats, marks of {} words", small.state, small.store, small.work, small.marks);
    small.calls.iter().for_each(print_call);
    if let Some(d) = small.run(&mut [0; 14]) {
        println!("  call {} of {}", d.call + 1, small.calls.len());
        println!("  expected {}", told(&d.expected));
        println!("  got      {}", told(&d.got));
        println!("  memory that differs: {}", if d.memory.is_empty() { "none".to_string() } else { d.memory.join(", ") });
    }
    println!("  the input as it was found: tools/compare-calls --again {} {} {}", seed, family + 1, index);
}

fn print_table(t: &Tally) {
    println!("{:28}{:>9}{:>7}   calls that ended with 0 to 13", "family", "calls", "differ");
    for (f, family) in FAMILIES.iter().enumerate() {
        let ends = t.ends[f].map(|n| n.to_string()).join(" ");
        println!("{} {:26}{:>9}{:>7}   {}", f + 1, family.name, t.ends[f].iter().sum::<u64>(), t.differ[f].len(), ends);
    }
}

fn all(count: u64, seed: u64) -> bool {
    let jobs = FAMILIES.iter().map(|f| f.cases(count)).sum();
    let run = Run { count, seed, jobs, roomy: roomy(), next: AtomicU64::new(0), done: AtomicU64::new(0), wrong: AtomicU64::new(0) };
    let mut total = Tally::default();
    thread::scope(|s| {
        let workers: Vec<_> = (0..2).map(|_| s.spawn(|| run.work())).collect();
        workers.into_iter().for_each(|w| total.add(&w.join().expect("a worker ends")));
    });
    print_table(&total);
    for family in 0..FAMILIES.len() {
        if let Some(&index) = total.differ[family].iter().min() {
            print_smallest(seed, family, index, &families::case(seed, family, index));
        }
    }
    let [calls, rows, out] = total.far;
    println!("far poses: in {} calls the second pass leaves out rows, {} of {}", calls, out, rows);
    let wrong = run.wrong.into_inner();
    let sevens: u64 = total.ends.iter().map(|e| e[7]).sum();
    if sevens > 0 {
        println!("{} calls ended with 7, which is never given", sevens);
    }
    println!("compared {} calls, {} differences", total.ends.iter().flatten().sum::<u64>(), wrong);
    wrong + sevens > 0
}

/// one case once more
fn again(seed: u64, family: usize, index: u64) -> bool {
    let case = families::case(seed, family, index);
    let mut ends = [0; 14];
    let differs = case.run(&mut ends).is_some();
    println!("'{}', case {}: calls that ended with 0 to 13: {:?}", FAMILIES[family].name, index, ends);
    if differs {
        print_smallest(seed, family, index, &case);
    }
    println!("{}", if differs { "differs" } else { "0 differences" });
    differs
}

fn main() {
    let words: Vec<String> = std::env::args().skip(1).collect();
    let number = |i: usize, default: u64| words.get(i).map_or(default, |w| w.parse().expect("a number"));
    let differs = if words.first().map_or(false, |w| w == "--again") {
        let family = number(2, 0) as usize;
        assert!(words.len() == 4 && (1..=FAMILIES.len()).contains(&family), "--again SEED FAMILY INDEX, families 1 to {}", FAMILIES.len());
        again(number(1, SEED), family - 1, number(3, 0))
    } else {
        all(number(0, COUNT), number(1, SEED))
    };
    std::process::exit(differs as i32);
}
