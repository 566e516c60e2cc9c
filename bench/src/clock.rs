//! Processor time, which other programs on the machine disturb less than the time on the wall.

#[repr(C)]
struct Moment {
    seconds: i64,
    nanoseconds: i64,
}

extern "C" {
    fn clock_gettime(clock: i32, moment: *mut Moment) -> i32;
    fn getrusage(who: i32, usage: *mut [i64; 18]) -> i32;
}

/// Nanoseconds of processor time used by this thread.
pub fn own() -> f64 {
    const THREAD_CPUTIME: i32 = 3;
    let mut moment = Moment { seconds: 0, nanoseconds: 0 };
    unsafe { clock_gettime(THREAD_CPUTIME, &mut moment) };
    moment.seconds as f64 * 1e9 + moment.nanoseconds as f64
}

/// Nanoseconds of processor time used by programs that were started and have ended, for them and by the system.
pub fn children() -> f64 {
    const CHILDREN: i32 = -1;
    let mut usage = [0i64; 18];
    unsafe { getrusage(CHILDREN, &mut usage) };
    (usage[0] + usage[2]) as f64 * 1e9 + (usage[1] + usage[3]) as f64 * 1e3
}

/// The median and the distance of the quartiles.
pub fn median(mut times: Vec<f64>) -> (f64, f64) {
    times.sort_by(f64::total_cmp);
    let at = |part: usize| times[(times.len() - 1) * part / 4];
    (at(2), at(3) - at(1))
}
