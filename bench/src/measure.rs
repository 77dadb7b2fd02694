//! Processor time of the calling thread, and medians of samples of it.

#[repr(C)]
struct Timespec {
    seconds: i64,
    nanoseconds: i64,
}

unsafe extern "C" {
    fn clock_gettime(clock: i32, time: *mut Timespec) -> i32;
}

/// Linux's CLOCK_THREAD_CPUTIME_ID.
const THREAD_TIME: i32 = 3;

const SAMPLES: usize = 9;

/// The least time of a sample, in microseconds.
const SAMPLE_TIME: f64 = 4_000.0;

fn now() -> f64 {
    let mut time = Timespec {
        seconds: 0,
        nanoseconds: 0,
    };
    // Safe: the pointer is that of a live struct of the form that C's has.
    let status = unsafe { clock_gettime(THREAD_TIME, &mut time) };
    assert_eq!(status, 0, "the clock can be read");
    time.seconds as f64 * 1e6 + time.nanoseconds as f64 / 1e3
}

type Call<'a> = Box<dyn FnMut() + 'a>;

fn time(call: &mut Call, calls: u64) -> f64 {
    let start = now();
    for _ in 0..calls {
        call();
    }
    now() - start
}

/// How many calls take the time of a sample.
fn calls_for(call: &mut Call) -> u64 {
    let mut calls = 1;
    while time(call, calls) < SAMPLE_TIME {
        calls *= 2;
    }
    calls
}

/// The median time of one call of each, in microseconds. The samples are taken
/// in turn, so that what else the machine does falls on all alike.
pub fn medians(calls: &mut [Call]) -> Vec<f64> {
    let counts: Vec<u64> = calls.iter_mut().map(calls_for).collect();
    let mut samples = vec![[0.0; SAMPLES]; calls.len()];
    for turn in 0..SAMPLES {
        for (i, call) in calls.iter_mut().enumerate() {
            samples[i][turn] = time(call, counts[i]) / counts[i] as f64;
        }
    }
    let median = |side: &mut [f64; SAMPLES]| {
        side.sort_by(f64::total_cmp);
        side[SAMPLES / 2]
    };
    samples.iter_mut().map(median).collect()
}
