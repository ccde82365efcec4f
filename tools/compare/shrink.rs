//! A case that differs made smaller, as long as it still differs: fewer calls, fewer passes, plain settings, smaller sides, black pixels.

use aligner::pixels;
use case::{Call, Case};
use ecc::words;
use std::ops::Range;

/// how many smaller cases are tried at most
const TRIES: usize = 20_000;

struct Shrinker {
    best: Case,
    tries: usize,
}

impl Shrinker {
    /// takes the changed case if it still differs
    fn attempt(&mut self, change: &mut dyn FnMut(&mut Case)) -> bool {
        if self.tries == TRIES {
            return false;
        }
        self.tries += 1;
        let mut c = self.best.clone();
        change(&mut c);
        if c.run(&mut [0; 14]).is_none() {
            return false;
        }
        self.best = c;
        true
    }

    /// runs of calls left out, long runs first
    fn fewer_calls(&mut self) -> bool {
        let mut any = false;
        let mut run = self.best.calls.len() / 2;
        while run > 0 {
            let mut at = 0;
            while at + run < self.best.calls.len() {
                if self.attempt(&mut |c| drop(c.calls.drain(at..at + run))) {
                    any = true;
                } else {
                    at += run;
                }
            }
            run /= 2;
        }
        any
    }

    /// fewer passes and plain settings, all calls alike
    fn plainer(&mut self) -> bool {
        let most = self.best.calls.iter().map(|c| c.settings.max_iter).max().unwrap_or(0);
        let at_most = |&m: &usize| m < most && self.attempt(&mut |c| each(c, |k| k.settings.max_iter = m));
        let fewer = [0, 1, 2, most / 2, most.saturating_sub(1)].iter().any(at_most);
        let odd = |f: &dyn Fn(&Call) -> bool, s: &Shrinker| s.best.calls.iter().any(f);
        let unblurred = odd(&|k| k.settings.filter != 1, self) && self.attempt(&mut |c| each(c, |k| k.settings.filter = 1));
        let unscaled = odd(&|k| k.settings.edge != 0, self) && self.attempt(&mut |c| each(c, |k| k.settings.edge = 0));
        let eps = odd(&|k| k.settings.eps != -1.0, self) && self.attempt(&mut |c| each(c, |k| k.settings.eps = -1.0));
        fewer || unblurred || unscaled || eps
    }

    /// half of the columns or rows, or one, taken off in all calls with the same sides
    fn smaller(&mut self) -> bool {
        let sides: Vec<(usize, usize)> = self.best.calls.iter().map(|c| (c.w, c.h)).filter(|s| s.0 > 0 && s.1 > 0).collect();
        let mut any = false;
        for (w, h) in sides {
            let kept = [(0..w - w / 2, 0..h), (0..w, 0..h - h / 2), (0..w - 1, 0..h), (0..w, 0..h - 1), (1..w, 0..h), (0..w, 1..h)];
            let mut less = kept.iter().filter(|(xs, ys)| xs.len() < w || ys.len() < h);
            any |= less.any(|(xs, ys)| self.attempt(&mut |c| each(c, |k| crop(k, w, h, xs, ys))));
        }
        any
    }

    /// pixels set to 0: whole frames first, then halves of what was tried, down to single pixels
    fn blacker(&mut self) -> bool {
        let mut any = false;
        for call in 0..self.best.calls.len() {
            for template in [false, true] {
                let mut run = frame(&mut self.best.calls[call], template).len();
                while run > 0 {
                    any |= self.black_runs(call, template, run);
                    run /= 2;
                }
            }
        }
        any
    }

    fn black_runs(&mut self, call: usize, template: bool, run: usize) -> bool {
        let len = frame(&mut self.best.calls[call], template).len();
        let mut any = false;
        for at in (0..len).step_by(run) {
            let end = (at + run).min(len);
            if frame(&mut self.best.calls[call], template)[at..end].iter().any(|&b| b != 0) {
                any |= self.attempt(&mut |c| frame(&mut c.calls[call], template)[at..end].fill(0));
            }
        }
        any
    }

    /// no more memory than the calls need
    fn tighter(&mut self) {
        let most = |f: &dyn Fn(&Call) -> usize| self.best.calls.iter().map(f).max().unwrap_or(0);
        let n = most(&|c| pixels(c.w, c.h, c.settings.edge));
        let store = most(&|c| if c.template.is_none() { c.input.len() } else { 0 });
        self.attempt(&mut |c| (c.work, c.marks, c.store) = (12 * n, words(n), store));
        self.attempt(&mut |c| c.state = [0; 3]);
    }
}

fn each(c: &mut Case, change: impl Fn(&mut Call)) {
    c.calls.iter_mut().for_each(change);
}

fn frame(c: &mut Call, template: bool) -> &mut [u8] {
    match &mut c.template {
        Some(t) if template => t,
        None if template => &mut [],
        _ => &mut c.input,
    }
}

/// a call with the sides w, h and frames of their length keeps some columns and rows
fn crop(c: &mut Call, w: usize, h: usize, xs: &Range<usize>, ys: &Range<usize>) {
    let whole = |f: &Vec<u8>| Some(f.len()) == w.checked_mul(h);
    if (c.w, c.h) != (w, h) || !whole(&c.input) || !c.template.iter().all(whole) {
        return;
    }
    let kept = |f: &Vec<u8>| ys.clone().flat_map(|y| f[y * w..][xs.clone()].to_vec()).collect();
    (c.w, c.h) = (xs.len(), ys.len());
    c.input = kept(&c.input);
    c.template = c.template.as_ref().map(kept);
}

/// the smallest case found
pub fn shrunk(case: &Case) -> Case {
    let mut s = Shrinker { best: case.clone(), tries: 0 };
    if let Some(d) = case.run(&mut [0; 14]) {
        s.best.calls.truncate(d.call + 1);
    }
    while s.fewer_calls() | s.smaller() | s.plainer() | s.blacker() {}
    s.tighter();
    s.best
}
