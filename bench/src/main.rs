//! The original and ours side by side, in one program: `times` measures times, `count` does each piece of work once for callgrind and
//! prints what its functions are called, `heap` counts what is allocated. bench/run.sh runs all and puts the figures together.
mod heap;
mod work;

use std::hint::black_box;
use work::{Both, Ours, Theirs};

/// Seconds and nanoseconds of the C library.
#[repr(C)]
struct Timespec(i64, i64);

unsafe extern "C" {
    fn clock_gettime(clock: i32, to: *mut Timespec) -> i32;
}

/// Nanoseconds, on Linux: of this thread on a processor, which others on the machine do not lengthen, or of the wall's clock, which costs less
/// to read and is for pieces so short that they are seldom interrupted.
fn now(long: bool) -> f64 {
    let mut t = Timespec(0, 0);
    // SAFETY: `t` has the layout of struct timespec on 64-bit Linux; 3 is the thread's own clock, 1 the monotonic one.
    assert_eq!(unsafe { clock_gettime(if long { 3 } else { 1 }, &mut t) }, 0);
    t.0 as f64 * 1e9 + t.1 as f64
}

/// Time of `reps` repetitions of a piece of work on both sides, in turns; medians in nanoseconds.
fn times(b: &Both, reps: usize) -> (f64, f64) {
    let (mut ours, mut theirs) = (Vec::new(), Vec::new());
    for _ in 0..reps {
        let mut state = (b.ours_start)();
        let t = now(b.long);
        (b.ours)(black_box(&mut state));
        ours.push(now(b.long) - t);
        let mut state = (b.theirs_start)();
        let t = now(b.long);
        (b.theirs)(black_box(&mut state));
        theirs.push(now(b.long) - t);
    }
    (median(&mut ours), median(&mut theirs))
}

fn median(v: &mut [f64]) -> f64 {
    v.sort_by(f64::total_cmp);
    v[v.len() / 2]
}

/// Done once on each side, each in a function of its own that callgrind can tell apart.
fn count(b: &Both) {
    let mut ours: Ours = (b.ours_start)();
    (b.ours)(black_box(&mut ours));
    let mut theirs: Theirs = (b.theirs_start)();
    (b.theirs)(black_box(&mut theirs));
}

/// Bytes allocated at the peak, and calls of the allocator, while the work was done.
fn heap_used(f: impl FnOnce()) -> (usize, usize) {
    heap::reset();
    f();
    heap::read()
}

fn main() {
    let mode = std::env::args().nth(1).unwrap_or_default();
    let reps: usize = std::env::args().nth(2).map_or(301, |n| n.parse().unwrap());
    work::warm();
    if mode != "count" {
        work::agree();
    }
    for b in work::all() {
        match &mode[..] {
            "times" => {
                let (ours, theirs) = times(&b, if b.long { reps } else { reps * 20 });
                println!("{}\t{ours:.0}\t{theirs:.0}", b.name);
            }
            "count" => {
                count(&b);
                println!("{}\t{}\t{}", b.name, b.symbols[0], b.symbols[1]);
            }
            "heap" => {
                let mut state = (b.ours_start)();
                let ours = heap_used(|| (b.ours)(black_box(&mut state)));
                let mut state = (b.theirs_start)();
                let theirs = heap_used(|| (b.theirs)(black_box(&mut state)));
                println!("{}\t{}\t{}\t{}\t{}", b.name, ours.0, ours.1, theirs.0, theirs.1);
            }
            _ => panic!("times, count or heap"),
        }
    }
    if mode == "count" {
        work::split();
    }
}
