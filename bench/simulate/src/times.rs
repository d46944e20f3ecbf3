//! Processor time, so that what other processes take does not count.

#[repr(C)]
#[derive(Clone, Copy)]
struct Timespec {
    seconds: i64,
    fraction: i64,
}

#[repr(C)]
struct Usage {
    user: Timespec,
    system: Timespec,
    rest: [i64; 14],
}

unsafe extern "C" {
    fn clock_gettime(clock: i32, time: *mut Timespec) -> i32;
    fn getrusage(who: i32, usage: *mut Usage) -> i32;
}

/// Seconds that this thread has had.
fn of_thread() -> f64 {
    const THREAD_CPUTIME: i32 = 3;
    let mut now = Timespec { seconds: 0, fraction: 0 };
    assert_eq!(unsafe { clock_gettime(THREAD_CPUTIME, &mut now) }, 0);
    now.seconds as f64 + now.fraction as f64 * 1e-9
}

/// Seconds that all children that have ended have had, in user and system mode.
fn of_children() -> f64 {
    const CHILDREN: i32 = -1;
    let zero = Timespec { seconds: 0, fraction: 0 };
    let mut usage = Usage { user: zero, system: zero, rest: [0; 14] };
    assert_eq!(unsafe { getrusage(CHILDREN, &mut usage) }, 0);
    let seconds = |time: Timespec| time.seconds as f64 + time.fraction as f64 * 1e-6;
    seconds(usage.user) + seconds(usage.system)
}

fn one(clock: fn() -> f64, call: &mut impl FnMut()) -> f64 {
    let start = clock();
    call();
    clock() - start
}

/// The least of several calls: at least `least`, more while they take less than a second in all.
fn several(clock: fn() -> f64, least: usize, mut call: impl FnMut()) -> f64 {
    let mut best = f64::INFINITY;
    let mut spent = 0.0;
    let mut calls = 0;
    while calls < least || (spent < 1.0 && calls < 200) {
        let time = one(clock, &mut call);
        best = best.min(time);
        spent += time;
        calls += 1;
    }
    best
}

/// Seconds of a call in this thread.
pub fn call(least: usize, call: impl FnMut()) -> f64 {
    several(of_thread, least, call)
}

/// Seconds of the processes that a call starts and waits for.
pub fn processes(least: usize, call: impl FnMut()) -> f64 {
    several(of_children, least, call)
}

/// Seconds of the processes of one call.
pub fn process_once(mut call: impl FnMut()) -> f64 {
    one(of_children, &mut call)
}
