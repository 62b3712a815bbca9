//! Reports which call was stopped by a signal.

use crate::case::{CALLS, Call};
use std::io::Write;
use std::sync::atomic::Ordering::{Relaxed, SeqCst};
use std::sync::atomic::{AtomicBool, AtomicU64};

unsafe extern "C" {
    fn signal(number: i32, handler: extern "C" fn(i32)) -> usize;
    fn write(file: i32, bytes: *const u8, count: usize) -> isize;
    fn _exit(status: i32) -> !;
}

/// Illegal instruction, abort, bus error, arithmetic, and memory that may not be accessed.
const SIGNALS: [i32; 5] = [4, 6, 7, 8, 11];

static SEED: AtomicU64 = AtomicU64::new(0);
static CALL: AtomicU64 = AtomicU64::new(0);
static CASE: AtomicU64 = AtomicU64::new(0);
static OVERLONG: AtomicBool = AtomicBool::new(false);
static INSIDE: AtomicBool = AtomicBool::new(false);

/// From now on a signal ends the program: with status 1 in a call, else with 2.
pub fn watch(seed: u64) {
    SEED.store(seed, Relaxed);
    for number in SIGNALS {
        // SAFETY: the handler takes no lock and no memory except its own.
        unsafe { signal(number, stopped) };
    }
}

/// Makes a call. A signal during it is a difference.
pub fn during(call: Call, case: u64, overlong: bool, make: impl FnOnce() -> u32) -> u32 {
    CALL.store(call as u64, Relaxed);
    CASE.store(case, Relaxed);
    OVERLONG.store(overlong, Relaxed);
    INSIDE.store(true, SeqCst);
    let number = make();
    INSIDE.store(false, SeqCst);
    number
}

/// Goes before the name of a call.
pub fn kind(overlong: bool) -> &'static str {
    if overlong { "overlong " } else { "" }
}

extern "C" fn stopped(number: i32) {
    let name = CALLS[CALL.load(Relaxed) as usize].1;
    let (case, seed) = (CASE.load(Relaxed), SEED.load(Relaxed));
    let (what, status) = match INSIDE.load(SeqCst) {
        true => ("FAULT", 1),
        false => ("stopped outside the library, near", 2),
    };
    let of = kind(OVERLONG.load(Relaxed));
    let mut line = [0; 160];
    let mut rest = &mut line[..];
    let _ = writeln!(
        rest,
        "{what} {of}{name}:{case}, seed {seed}: signal {number}"
    );
    let length = 160 - rest.len();
    // SAFETY: the bytes are there; nothing runs after it.
    unsafe {
        write(1, line.as_ptr(), length);
        _exit(status)
    }
}
