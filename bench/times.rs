//! Times of the runs of a part.

use std::time::Instant;

/// Milliseconds by the clock, and of processor time of all threads.
#[derive(Clone, Copy)]
pub struct Time {
    pub clock: f64,
    pub processor: f64,
}

/// One for each run.
#[derive(Default)]
pub struct Times(Vec<Time>);

impl Times {
    pub fn add<T>(&mut self, f: impl FnOnce() -> T) -> T {
        let (start, processor) = (Instant::now(), processor_time());
        let value = f();
        self.0.push(Time { clock: start.elapsed().as_secs_f64() * 1e3, processor: processor_time() - processor });
        value
    }

    pub fn less(&self, other: &Self) -> Self {
        self.with(other, |a, b| a - b)
    }

    pub fn plus(&self, other: &Self) -> Self {
        self.with(other, |a, b| a + b)
    }

    /// Run by run.
    fn with(&self, other: &Self, f: impl Fn(f64, f64) -> f64) -> Self {
        let pairs = self.0.iter().zip(&other.0);
        Self(pairs.map(|(a, b)| Time { clock: f(a.clock, b.clock), processor: f(a.processor, b.processor) }).collect())
    }

    pub fn median(&self) -> Time {
        Time { clock: self.median_of(|time| time.clock), processor: self.median_of(|time| time.processor) }
    }

    pub fn least(&self) -> Time {
        let least = |part: fn(&Time) -> f64| self.0.iter().map(part).fold(f64::INFINITY, f64::min);
        Time { clock: least(|time| time.clock), processor: least(|time| time.processor) }
    }

    /// Of processor time: median to median, least to least.
    pub fn ratios(&self, other: &Self) -> [f64; 2] {
        [self.median().processor / other.median().processor, self.least().processor / other.least().processor]
    }

    fn median_of(&self, part: impl Fn(&Time) -> f64) -> f64 {
        let mut times: Vec<f64> = self.0.iter().map(part).collect();
        times.sort_by(f64::total_cmp);
        let middle = times.len() / 2;
        if times.len() % 2 == 1 {
            times[middle]
        } else {
            (times[middle - 1] + times[middle]) / 2.0
        }
    }
}

#[repr(C)]
struct Timespec {
    seconds: i64,
    nanoseconds: i64,
}

extern "C" {
    fn clock_gettime(clock: i32, time: *mut Timespec) -> i32;
}

/// Milliseconds of processor time that it takes.
pub fn processor_time_of(f: impl FnOnce()) -> f64 {
    let start = processor_time();
    f();
    processor_time() - start
}

/// Of all threads of the process, by Linux on x86-64.
fn processor_time() -> f64 {
    const CLOCK_PROCESS_CPUTIME_ID: i32 = 2;
    let mut time = Timespec { seconds: 0, nanoseconds: 0 };
    // Sound: the structure is live and is the system's.
    assert_eq!(unsafe { clock_gettime(CLOCK_PROCESS_CPUTIME_ID, &mut time) }, 0);
    time.seconds as f64 * 1e3 + time.nanoseconds as f64 / 1e6
}
