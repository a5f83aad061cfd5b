//! The time that this thread has had a processor, in seconds: on a busy machine the side that takes longer would
//! otherwise wait more.
use std::hint::black_box;

/// As C has it on 64-bit Linux.
#[repr(C)]
struct Timespec {
    seconds: i64,
    nanoseconds: i64,
}

const CLOCK_THREAD_CPUTIME_ID: i32 = 3;

extern "C" {
    fn clock_gettime(clock: i32, time: *mut Timespec) -> i32;
}

fn now() -> f64 {
    let mut time = Timespec { seconds: 0, nanoseconds: 0 };
    // SAFETY: the call writes one Timespec, which is lent to it.
    let status = unsafe { clock_gettime(CLOCK_THREAD_CPUTIME_ID, &mut time) };
    assert_eq!(status, 0, "the thread has a clock of its own");
    time.seconds as f64 + time.nanoseconds as f64 / 1e9
}

/// How long the work takes. What it gives is dropped after the time is taken.
pub fn seconds<T>(work: impl FnOnce() -> T) -> f64 {
    let start = now();
    let _given = black_box(work());
    now() - start
}

/// The least time of each side. They take turns, so that what else happens on the machine meets all of them.
pub fn least<const SIDES: usize>(turns: usize, mut turn: impl FnMut() -> [f64; SIDES]) -> Vec<f64> {
    let mut least = [f64::INFINITY; SIDES];
    for _ in 0..turns {
        let times = turn();
        least.iter_mut().zip(times).for_each(|(least, time)| *least = least.min(time));
    }
    least.to_vec()
}
