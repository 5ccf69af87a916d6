//! Times of single calls, in the CPU time of the calling thread: what other programs do meanwhile
//! does not count.

use std::fmt;
use std::hint::black_box;
use std::time::Duration;

/// How many samples are taken at most.
pub const SAMPLES: usize = 101;

/// How many samples are taken of what takes longest.
const FEWEST_SAMPLES: usize = 2;

/// About how long one sample takes, and all those of one function together, where fewer will do.
const SAMPLE_TIME: Duration = Duration::from_micros(500);
const SAMPLES_TIME: Duration = Duration::from_secs(2);

/// The least and the median time of one call, in microseconds.
pub struct Times {
    pub minimum: f64,
    median: f64,
}

impl Times {
    /// The times in milliseconds, for calls that take long.
    pub fn in_milliseconds(&self) -> Times {
        Times { minimum: self.minimum / 1e3, median: self.median / 1e3 }
    }
}

impl fmt::Display for Times {
    fn fmt(&self, f: &mut fmt::Formatter) -> fmt::Result {
        write!(f, "{:>8.2} /{:>8.2}", self.minimum, self.median)
    }
}

/// A function that is timed: from what it is given it makes an answer, and stores more.
pub type Function<Given, Stored> = fn(&Given, &mut Stored) -> u64;

/// The times of each function. All of them come to the answer and store the same. They take turns,
/// so that all of them meet the same state of the machine.
pub fn times<Given, Stored: Clone + PartialEq, const N: usize>(
    functions: [Function<Given, Stored>; N],
    given: &Given,
    stored: Stored,
    answer: u64,
) -> [Times; N] {
    let mut series = functions.map(|function| Series::new(function, given, &stored, answer));
    assert!(series.iter().all(|one| one.stored == series[0].stored), "all store the same");
    for round in 0..SAMPLES {
        for one in series.iter_mut().filter(|one| round < one.count) {
            one.sample(given);
        }
    }
    series.map(|mut one| {
        one.samples.sort_by(f64::total_cmp);
        Times { minimum: one.samples[0], median: one.samples[one.count / 2] }
    })
}

/// The samples of one function: how many there are to be, and how often each repeats the call.
struct Series<Given, Stored> {
    function: Function<Given, Stored>,
    stored: Stored,
    repeats: u32,
    count: usize,
    samples: Vec<f64>,
}

impl<Given, Stored: Clone> Series<Given, Stored> {
    fn new(
        function: Function<Given, Stored>,
        given: &Given,
        stored: &Stored,
        answer: u64,
    ) -> Series<Given, Stored> {
        let (mut stored, start) = (stored.clone(), thread_time());
        assert_eq!(function(given, &mut stored), answer, "the answer is the expected one");
        let once = (thread_time() - start).as_nanos().max(10);
        let repeats = (SAMPLE_TIME.as_nanos() / once).max(1);
        let count = SAMPLES_TIME.as_nanos() / (once * repeats);
        Series {
            function,
            stored,
            repeats: repeats as u32,
            count: (count as usize).clamp(FEWEST_SAMPLES, SAMPLES),
            samples: Vec::new(),
        }
    }

    /// Takes one sample, in microseconds a call.
    fn sample(&mut self, given: &Given) {
        let start = thread_time();
        for _ in 0..self.repeats {
            black_box((self.function)(black_box(given), &mut self.stored));
        }
        let time = (thread_time() - start).as_secs_f64() * 1e6;
        self.samples.push(time / f64::from(self.repeats));
    }
}

/// C's `struct timespec` on 64-bit Linux.
#[repr(C)]
struct Timespec {
    seconds: i64,
    nanoseconds: i64,
}

/// The number of the calling thread's clock on Linux.
const CLOCK_THREAD_CPUTIME_ID: i32 = 3;

extern "C" {
    fn clock_gettime(clock: i32, time: *mut Timespec) -> i32;
}

/// The CPU time that this thread has taken so far.
fn thread_time() -> Duration {
    let mut time = Timespec { seconds: 0, nanoseconds: 0 };
    // SAFETY: `time` is laid out as the C library has it, and outlives the call that writes it.
    let answer = unsafe { clock_gettime(CLOCK_THREAD_CPUTIME_ID, &mut time) };
    assert_eq!(answer, 0, "the thread's clock can be read");
    Duration::new(time.seconds as u64, time.nanoseconds as u32)
}
