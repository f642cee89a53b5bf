//! Timing the kernel and the plain program side by side.

use std::ffi::{c_int, c_long};

/// Nanoseconds for one unit of work, on either side.
#[derive(Clone, Copy)]
pub struct Times {
    pub kernel: f64,
    pub plain: f64,
}

impl Times {
    pub fn ratio(self) -> f64 {
        self.kernel / self.plain
    }
}

/// The least time over several rounds, divided by `units`. The two take turns, so that whatever else
/// the machine does falls on both; each gets its input fresh before its clock starts.
pub fn compare<T: Clone>(
    rounds: usize,
    units: usize,
    input: &T,
    mut kernel: impl FnMut(&mut T),
    mut plain: impl FnMut(&mut T),
) -> Times {
    let mut best = [f64::INFINITY; 2];
    for _ in 0..rounds {
        best[0] = best[0].min(time(input, &mut kernel));
        best[1] = best[1].min(time(input, &mut plain));
    }
    let [kernel, plain] = best.map(|nanos| nanos / units as f64);
    Times { kernel, plain }
}

fn time<T: Clone>(input: &T, work: &mut impl FnMut(&mut T)) -> f64 {
    let mut fresh = input.clone();
    let start = processor_nanos();
    work(&mut fresh);
    let nanos = processor_nanos() - start;
    std::hint::black_box(fresh);
    nanos
}

#[repr(C)]
struct Timespec {
    seconds: i64,
    nanos: c_long,
}

const THREAD_CPU_TIME: c_int = 3;

unsafe extern "C" {
    fn clock_gettime(clock: c_int, time: *mut Timespec) -> c_int;
}

/// The time that this thread has had a processor: what other processes use does not count.
fn processor_nanos() -> f64 {
    let mut time = Timespec {
        seconds: 0,
        nanos: 0,
    };
    // SAFETY: the C library writes to the struct, which has its layout, and keeps no pointer.
    let status = unsafe { clock_gettime(THREAD_CPU_TIME, &mut time) };
    assert_eq!(status, 0, "there is no clock");
    time.seconds as f64 * 1e9 + time.nanos as f64
}
