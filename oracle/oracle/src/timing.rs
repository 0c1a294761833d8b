//! The time of a call, and how it is shown.

/// Each figure is the best of this many turns.
const TURNS: usize = 15;

/// A turn takes about this long, in seconds.
const TURN: f64 = 0.01;

/// The processor time of this thread, so that other work on the machine does not count.
mod clock {
    #[repr(C)]
    struct Time {
        seconds: i64,
        nanoseconds: i64,
    }

    extern "C" {
        fn clock_gettime(clock: i32, time: *mut Time) -> i32;
    }

    /// `CLOCK_THREAD_CPUTIME_ID` of Linux.
    const THREAD: i32 = 3;

    pub fn seconds() -> f64 {
        let mut time = Time { seconds: 0, nanoseconds: 0 };
        // SAFETY: the C library fills the struct that it is handed.
        unsafe { clock_gettime(THREAD, &mut time) };
        time.seconds as f64 + time.nanoseconds as f64 * 1e-9
    }
}

/// Seconds for one call: the best of several turns, each of as many calls as fill its time. A call that takes long by
/// itself is made less often.
pub fn time(call: impl FnMut()) -> f64 {
    best_of(TURNS, TURN, call)
}

/// As [`time`], for a first look: fewer and shorter turns.
pub fn glance(call: impl FnMut()) -> f64 {
    best_of(3, TURN / 10.0, call)
}

fn best_of(turns: usize, seconds: f64, mut call: impl FnMut()) -> f64 {
    let once = turn(&mut call, 1).max(20e-9);
    let calls = (seconds / once).clamp(1.0, 200_000.0) as usize;
    let left = match once {
        long if long > 100.0 * seconds => 0,
        long if long > 10.0 * seconds => 2,
        _ => turns,
    };
    (0..left).map(|_| turn(&mut call, calls)).fold(once, f64::min)
}

fn turn(call: &mut impl FnMut(), calls: usize) -> f64 {
    let start = clock::seconds();
    for _ in 0..calls {
        call();
    }
    (clock::seconds() - start) / calls as f64
}

/// A time in the unit that suits it; a dash where there is none.
pub fn shown(seconds: Option<f64>) -> String {
    match seconds {
        None => "–".to_string(),
        Some(s) if s < 1e-6 => format!("{:.0} ns", s * 1e9),
        Some(s) if s < 1e-3 => format!("{:.2} µs", s * 1e6),
        Some(s) if s < 1.0 => format!("{:.2} ms", s * 1e3),
        Some(s) => format!("{s:.2} s"),
    }
}
