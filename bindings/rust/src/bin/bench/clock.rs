//! The clock, and how often a call is made.

/// Runs go on until they took so long in all, in nanoseconds, and are at least three.
const ENOUGH: u64 = 15_000_000;

/// A run repeats its passes until it takes about so long, in nanoseconds: the clock's steps are then far below it.
const RUN: u64 = 300_000;

/// When the first pass has taken so long, in nanoseconds, it has no more plants; when all passes have, they are over.
const LONG: u64 = 100_000_000;

/// The mean time of a call over these, each in turn, in nanoseconds: the least of several runs.
pub fn mean_in_turn<T>(items: &mut [T], mut call: impl FnMut(&mut T)) -> f64 {
    let (count, first) = first_pass(items, &mut call);
    let items = &mut items[..count];
    let repeats = (RUN / first.max(1)).max(1);
    let (mut least, mut total, mut runs) = (first as f64 / count as f64, first, 0);
    while total < LONG && (total < ENOUGH || runs < 3) {
        let start = cpu_time();
        for _ in 0..repeats {
            items.iter_mut().for_each(&mut call);
        }
        let time = cpu_time() - start;
        least = least.min(time as f64 / (repeats * count as u64) as f64);
        total += time;
        runs += 1;
    }
    least
}

/// One pass, which ends early if it takes long: how many were called, and the time.
fn first_pass<T>(items: &mut [T], call: &mut impl FnMut(&mut T)) -> (usize, u64) {
    let start = cpu_time();
    let (mut count, mut time) = (0, 0);
    while count < items.len() && time < LONG {
        call(&mut items[count]);
        count += 1;
        time = cpu_time() - start;
    }
    (count, time)
}

/// The CPU time of this thread, in nanoseconds.
pub fn cpu_time() -> u64 {
    #[repr(C)]
    struct TimeSpec {
        seconds: i64,
        nanoseconds: i64,
    }
    extern "C" {
        fn clock_gettime(clock: i32, time: *mut TimeSpec) -> i32;
    }
    const THREAD_CPU_TIME: i32 = 3;
    let mut time = TimeSpec { seconds: 0, nanoseconds: 0 };
    // SAFETY: libc's clock_gettime fills the struct, which has its layout on 64-bit Linux.
    let failed = unsafe { clock_gettime(THREAD_CPU_TIME, &mut time) };
    assert_eq!(failed, 0, "the thread's clock can be read");
    (time.seconds * 1_000_000_000 + time.nanoseconds) as u64
}
