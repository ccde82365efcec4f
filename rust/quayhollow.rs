//! quayhollow: the turn and shift under which two frames agree best. Safe Rust over the library libquayhollow.a, in one file:
//!
//! ```text
//! #[path = "rust/quayhollow.rs"]
//! mod quayhollow;
//! ```
//!
//! It compiles in every edition, without a warning, and was tried with Rust 1.85 and 1.95; `unsafe extern` asks for 1.82. The compiler is told
//! where the archive is by `-L DIR -l static=quayhollow`, or in build.rs:
//!
//! ```text
//! fn main() {
//!     println!("cargo:rustc-link-search=native=target/staticlib");
//!     println!("cargo:rustc-link-lib=static=quayhollow");
//! }
//! ```
//!
//! include/quayhollow.h says what every number means and what a caller sees to; the names are the same here. `align` and `estimate` work in memory
//! that the caller lends and allocate nothing. `Room` and `Aligner` hold that memory, and their `new` panics where the archive has another version
//! than this file. A call takes less than 56 KiB of stack (measured on x86-64).
#![allow(dead_code)]

use std::fmt;
use std::num::NonZeroU8;

/// What `version()` answers where the archive belongs to this file.
pub const VERSION: u32 = 3;

/// The largest side, filter and max_iter.
pub const MOST_SIDE: usize = 4096;
pub const MOST_FILTER: usize = 31;
pub const MOST_PASSES: usize = 1000;

/// How the passes are run.
#[derive(Clone, Copy, Debug, PartialEq)]
pub struct Settings {
    /// The passes stop once rho changes by less. A NaN, zero or negative eps never stops them.
    pub eps: f32,
    /// The most passes, 0 to 1,000.
    pub max_iter: usize,
    /// The width of the blur, odd, 1 to 31; 1 for none.
    pub filter: usize,
    /// The longer side after resizing, where it is longer; 0 for no resizing.
    pub edge: usize,
}

impl Default for Settings {
    fn default() -> Settings {
        Settings { eps: 0.0001, max_iter: 100, filter: 1, edge: 350 }
    }
}

/// theta in radians, tx and ty in pixels, and rho, the correlation of the last warp: after max_iter passes it belongs to the pose before the
/// last update, and with max_iter 0 it is -1. A pose is no proof that the frames match: the header says how far a floor of rho helps on flat ground.
#[derive(Clone, Copy, Debug, PartialEq)]
pub struct Pose {
    pub theta: f32,
    pub tx: f32,
    pub ty: f32,
    pub rho: f32,
}

/// Why there is no pose: a number of the header's table, never 0.
#[derive(Clone, Copy, Debug, Eq, Hash, PartialEq)]
pub struct Refusal(NonZeroU8);

impl Refusal {
    pub const INVALID_INPUT: Refusal = Refusal::numbered(1);
    pub const SIDE_TOO_LARGE: Refusal = Refusal::numbered(2);
    pub const SETTING_TOO_LARGE: Refusal = Refusal::numbered(3);
    pub const ROOM_TOO_SHORT: Refusal = Refusal::numbered(4);
    pub const FEW_PIXELS: Refusal = Refusal::numbered(5);
    pub const FLAT: Refusal = Refusal::numbered(6);
    pub const RHO_NOT_FINITE: Refusal = Refusal::numbered(7);
    pub const NO_INVERSE: Refusal = Refusal::numbered(8);
    pub const NO_STEP: Refusal = Refusal::numbered(9);
    pub const POSE_LOST: Refusal = Refusal::numbered(10);
    pub const NO_PREVIOUS: Refusal = Refusal::numbered(11);
    pub const OTHER_SIDES: Refusal = Refusal::numbered(12);
    pub const STORE_TOO_SHORT: Refusal = Refusal::numbered(13);

    const fn numbered(number: u8) -> Refusal {
        match NonZeroU8::new(number) {
            Some(number) => Refusal(number),
            None => panic!("0 is a pose"),
        }
    }

    /// None for 0, which is a pose.
    pub fn new(number: u8) -> Option<Refusal> {
        NonZeroU8::new(number).map(Refusal)
    }

    pub fn number(self) -> u8 {
        self.0.get()
    }

    pub fn words(self) -> &'static str {
        match self {
            Refusal::INVALID_INPUT => "a side is 0, a frame has not w * h bytes, or the filter is 0 or even",
            Refusal::SIDE_TOO_LARGE => "a side is above 4096",
            Refusal::SETTING_TOO_LARGE => "the filter is above 31 or max_iter above 1000",
            Refusal::ROOM_TOO_SHORT => "work or marks are too short",
            Refusal::FEW_PIXELS => "fewer than 16 pixels are left where the frames overlap",
            Refusal::FLAT => "a frame is flat",
            Refusal::RHO_NOT_FINITE => "never given (proved)",
            Refusal::NO_INVERSE => "the input has too little on it to tell its motion",
            Refusal::NO_STEP => "the frames do not agree, and no step is found",
            Refusal::POSE_LOST => "the pose went out of range",
            Refusal::NO_PREVIOUS => "no previous frame",
            Refusal::OTHER_SIDES => "the previous frame has other sides",
            Refusal::STORE_TOO_SHORT => "the store is shorter than the frame",
            _ => "no such number",
        }
    }
}

impl fmt::Display for Refusal {
    fn fmt(&self, f: &mut fmt::Formatter<'_>) -> fmt::Result {
        write!(f, "{}: {}", self.number(), self.words())
    }
}

/// How a call ends.
#[derive(Clone, Copy, Debug, PartialEq)]
pub enum Answer {
    Posed(Pose),
    Refused(Refusal),
}

impl fmt::Display for Answer {
    fn fmt(&self, f: &mut fmt::Formatter<'_>) -> fmt::Result {
        match self {
            Answer::Posed(p) => write!(f, "theta {}, tx {}, ty {}, rho {}", p.theta, p.tx, p.ty, p.rho),
            Answer::Refused(refusal) => write!(f, "refused, {}", refusal),
        }
    }
}

/// An answer with the number of warps done.
#[derive(Clone, Copy, Debug, PartialEq)]
pub struct Outcome {
    pub answer: Answer,
    pub passes: u32,
}

/// How far the middle of the frame moves, in 1/256 pixel, and the turn in 1/8192 radian.
#[derive(Clone, Copy, Debug, Eq, PartialEq)]
pub struct Pins {
    pub dx: i16,
    pub dy: i16,
    pub turn: i16,
}

impl Answer {
    /// 0 for a pose.
    pub fn number(self) -> u8 {
        match self {
            Answer::Posed(_) => 0,
            Answer::Refused(refusal) => refusal.number(),
        }
    }

    /// The pose; zeros for a refusal.
    fn pose(self) -> Pose {
        match self {
            Answer::Posed(pose) => pose,
            Answer::Refused(_) => Pose { theta: 0.0, tx: 0.0, ty: 0.0, rho: 0.0 },
        }
    }

    /// The matrix, row after row: the identity for a refusal.
    pub fn matrix(self) -> [[f32; 3]; 3] {
        let (number, p) = (self.number(), self.pose());
        let mut m = [[0.0; 3]; 3];
        let out = m.as_flattened_mut();
        // SAFETY: out is lent for the call, with its own length
        unsafe { raw::quayhollow_matrix(number, p.theta, p.tx, p.ty, out.as_mut_ptr(), out.len()) };
        m
    }

    /// The numbers for the pins, of an answer to a frame of w by h pixels: 0, 0, 0 for a refusal, and for a side that is 0 or above 4,096.
    pub fn pins(self, w: usize, h: usize) -> Pins {
        let (number, p) = (self.number(), self.pose());
        let mut out = [0; 3];
        // SAFETY: out is lent for the call, with its own length
        unsafe { raw::quayhollow_pins(number, p.theta, p.tx, p.ty, w, h, out.as_mut_ptr(), out.len()) };
        Pins { dx: out[0], dy: out[1], turn: out[2] }
    }
}

/// What a code and a pose say.
fn outcome(code: u32, pose: [f32; 4]) -> Outcome {
    let [theta, tx, ty, rho] = pose;
    let answer = match Refusal::new((code % 256) as u8) {
        None => Answer::Posed(Pose { theta, tx, ty, rho }),
        Some(refusal) => Answer::Refused(refusal),
    };
    Outcome { answer, passes: code / 256 }
}

/// `VERSION`, of the file that the archive was made with.
pub fn version() -> u32 {
    // SAFETY: it takes nothing
    unsafe { raw::quayhollow_version() }
}

/// How many floats of work frames of w by h need; 0 for a side that is 0 or above 4,096.
pub fn work_len(w: usize, h: usize, edge: usize) -> usize {
    // SAFETY: it takes numbers alone
    unsafe { raw::quayhollow_work_len(w, h, edge) }
}

/// How many words of marks: a bit for each pixel after resizing, sixty-four to a word.
pub fn marks_len(w: usize, h: usize, edge: usize) -> usize {
    // SAFETY: it takes numbers alone
    unsafe { raw::quayhollow_marks_len(w, h, edge) }
}

/// How many bytes of store.
pub fn store_len(w: usize, h: usize) -> usize {
    // SAFETY: it takes numbers alone
    unsafe { raw::quayhollow_store_len(w, h) }
}

/// Aligns the input with the template, two frames of w by h.
pub fn align(template: &[u8], input: &[u8], w: usize, h: usize, settings: Settings, work: &mut [f32], marks: &mut [u64]) -> Outcome {
    let mut pose = [0.0; 4];
    // SAFETY: each slice goes with its own length, and those that are written are borrowed for writing, so they overlap none
    let code = unsafe {
        raw::quayhollow_align(
            template.as_ptr(),
            template.len(),
            input.as_ptr(),
            input.len(),
            w,
            h,
            settings.eps,
            settings.max_iter,
            settings.filter,
            settings.edge,
            work.as_mut_ptr(),
            work.len(),
            marks.as_mut_ptr(),
            marks.len(),
            pose.as_mut_ptr(),
            pose.len(),
        )
    };
    outcome(code, pose)
}

/// What is remembered between two frames, beside the frame itself: whether one is held, and its sides.
#[derive(Clone, Copy, Debug, Default, Eq, PartialEq)]
pub struct State(pub [u64; 3]);

/// Aligns a frame of w by h with the one before it, which stands at the front of the store.
#[allow(clippy::too_many_arguments)]
pub fn estimate(
    frame: &[u8],
    w: usize,
    h: usize,
    settings: Settings,
    state: &mut State,
    store: &mut [u8],
    work: &mut [f32],
    marks: &mut [u64],
) -> Outcome {
    let mut pose = [0.0; 4];
    // SAFETY: each slice goes with its own length, and those that are written are borrowed for writing, so they overlap none
    let code = unsafe {
        raw::quayhollow_estimate(
            frame.as_ptr(),
            frame.len(),
            w,
            h,
            settings.eps,
            settings.max_iter,
            settings.filter,
            settings.edge,
            state.0.as_mut_ptr(),
            state.0.len(),
            store.as_mut_ptr(),
            store.len(),
            work.as_mut_ptr(),
            work.len(),
            marks.as_mut_ptr(),
            marks.len(),
            pose.as_mut_ptr(),
            pose.len(),
        )
    };
    outcome(code, pose)
}

/// Work and marks for frames of some sides.
#[derive(Clone, Debug)]
pub struct Room {
    work: Vec<f32>,
    marks: Vec<u64>,
}

impl Room {
    /// Panics where the archive has another version than this file.
    pub fn new(w: usize, h: usize, edge: usize) -> Room {
        assert_eq!(version(), VERSION, "libquayhollow.a and quayhollow.rs do not belong together");
        Room { work: vec![0.0; work_len(w, h, edge)], marks: vec![0; marks_len(w, h, edge)] }
    }

    pub fn align(&mut self, template: &[u8], input: &[u8], w: usize, h: usize, settings: Settings) -> Outcome {
        align(template, input, w, h, settings, &mut self.work, &mut self.marks)
    }
}

/// An aligner with its own memory, for frames of some sides. A frame of other sides is answered too; one that needs more room is refused
/// with 4 or 13.
#[derive(Clone, Debug)]
pub struct Aligner {
    settings: Settings,
    state: State,
    store: Vec<u8>,
    room: Room,
}

impl Aligner {
    pub fn new(w: usize, h: usize, settings: Settings) -> Aligner {
        Aligner { settings, state: State::default(), store: vec![0; store_len(w, h)], room: Room::new(w, h, settings.edge) }
    }

    /// Forgets the previous frame: the next one is refused with 11.
    pub fn reset(&mut self) {
        self.state = State::default();
    }

    pub fn estimate(&mut self, frame: &[u8], w: usize, h: usize) -> Outcome {
        estimate(frame, w, h, self.settings, &mut self.state, &mut self.store, &mut self.room.work, &mut self.room.marks)
    }
}

/// The library's functions, as include/quayhollow.h has them.
mod raw {
    unsafe extern "C" {
        pub fn quayhollow_version() -> u32;

        pub fn quayhollow_work_len(w: usize, h: usize, edge: usize) -> usize;

        pub fn quayhollow_marks_len(w: usize, h: usize, edge: usize) -> usize;

        pub fn quayhollow_store_len(w: usize, h: usize) -> usize;

        pub fn quayhollow_align(
            template: *const u8,
            template_len: usize,
            input: *const u8,
            input_len: usize,
            w: usize,
            h: usize,
            eps: f32,
            max_iter: usize,
            filter: usize,
            edge: usize,
            work: *mut f32,
            work_len: usize,
            marks: *mut u64,
            marks_len: usize,
            pose: *mut f32,
            pose_len: usize,
        ) -> u32;

        pub fn quayhollow_matrix(number: u8, theta: f32, tx: f32, ty: f32, out: *mut f32, out_len: usize);

        pub fn quayhollow_pins(number: u8, theta: f32, tx: f32, ty: f32, w: usize, h: usize, out: *mut i16, out_len: usize);

        pub fn quayhollow_estimate(
            frame: *const u8,
            frame_len: usize,
            w: usize,
            h: usize,
            eps: f32,
            max_iter: usize,
            filter: usize,
            edge: usize,
            state: *mut u64,
            state_len: usize,
            store: *mut u8,
            store_len: usize,
            work: *mut f32,
            work_len: usize,
            marks: *mut u64,
            marks_len: usize,
            pose: *mut f32,
            pose_len: usize,
        ) -> u32;
    }
}
