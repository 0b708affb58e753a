//! Interleaved turns, and what is kept of their times.
//!
//! Each timing is by two clocks. The thread's processor time leaves out waiting for a core, but now and then it comes out
//! too low, where the machine is itself a guest and its host took time away: that does no harm to a median, and would make
//! a least worthless. The wall clock counts the waiting and is never too low. So medians are of the one, and the least is
//! of the other.

use crate::workloads::RECORDS;
use std::time::{Duration, Instant};

/// A timing lasts at least about so long: a call that takes less is run several times.
const LEAST_TIMING: Duration = Duration::from_micros(20);

/// The processor time of this thread, in which waiting for a core doesn't count.
fn clock() -> Duration {
    #[repr(C)]
    struct Reading {
        seconds: i64,
        nanoseconds: i64,
    }
    const THREAD_CPUTIME: i32 = 3;
    extern "C" {
        fn clock_gettime(clock: i32, reading: *mut Reading) -> i32;
    }
    let mut reading = Reading { seconds: 0, nanoseconds: 0 };
    // SAFETY: the C library, which every Rust program on Linux is linked with, fills in the reading.
    let failed = unsafe { clock_gettime(THREAD_CPUTIME, &mut reading) };
    assert_eq!(failed, 0, "the thread has a clock");
    Duration::new(reading.seconds as u64, reading.nanoseconds as u32)
}

/// How long a call took, by both clocks.
#[derive(Clone, Copy)]
struct Time {
    thread: Duration,
    wall: Duration,
}

/// A call of one side, on the record of a number.
pub type Run<'a> = Box<dyn FnMut(usize) + 'a>;

/// How long a call takes, of so many on one record after the other.
fn timed(first: usize, number: usize, run: &mut Run) -> Time {
    let wall = Instant::now();
    let thread = clock();
    (first..first + number).for_each(run);
    let thread = clock().saturating_sub(thread);
    Time { thread: thread / number as u32, wall: wall.elapsed() / number as u32 }
}

fn micros(time: Duration) -> f64 {
    time.as_secs_f64() * 1e6
}

/// One of the sides that take turns, with the times of its turns.
struct Side<'a> {
    run: Run<'a>,
    times: Vec<Time>,
}

impl<'a> Side<'a> {
    fn new(run: Run<'a>) -> Side<'a> {
        Side { run, times: Vec::new() }
    }

    /// By the thread's clock, in microseconds.
    fn median(&self) -> f64 {
        let mut sorted: Vec<Duration> = self.times.iter().map(|time| time.thread).collect();
        sorted.sort();
        micros(sorted[sorted.len() / 2])
    }

    /// By the wall clock.
    fn least(&self) -> f64 {
        micros(self.times.iter().map(|time| time.wall).min().expect("there was a turn"))
    }
}

/// The places of the sides that a case always has.
const PRODUCT: usize = 0;
const BASELINE: usize = 1;

/// What is measured of one case.
pub struct Case<'a> {
    pub call: &'static str,
    pub workload: &'static str,
    /// The size in words, and as a part of the full one.
    pub size: String,
    pub part: usize,
    /// The library, the baseline, and others that the case has.
    sides: Vec<Side<'a>>,
    /// The place of the tuned heap, and of what belongs to another step in the library's time.
    tuned: Option<usize>,
    other: Option<usize>,
    number: usize,
}

/// The times of the sides, in microseconds.
pub struct Times {
    pub product: f64,
    pub baseline: f64,
    pub tuned: Option<f64>,
}

impl Times {
    pub fn ratio(&self) -> f64 {
        self.product / self.baseline
    }

    pub fn tuned_ratio(&self) -> Option<f64> {
        self.tuned.map(|tuned| self.product / tuned)
    }
}

impl<'a> Case<'a> {
    pub fn new(
        (call, workload): (&'static str, &'static str),
        (size, part): (String, usize),
        product: Run<'a>,
        baseline: Run<'a>,
    ) -> Case<'a> {
        let sides = vec![Side::new(product), Side::new(baseline)];
        Case { call, workload, size, part, sides, tuned: None, other: None, number: 1 }
    }

    /// With the tuned heap.
    pub fn tuned(mut self, run: Option<Run<'a>>) -> Case<'a> {
        self.tuned = run.map(|run| self.add(run));
        self
    }

    /// With what belongs to another step.
    pub fn less(mut self, run: Run<'a>) -> Case<'a> {
        self.other = Some(self.add(run));
        self
    }

    fn add(&mut self, run: Run<'a>) -> usize {
        self.sides.push(Side::new(run));
        self.sides.len() - 1
    }

    /// A few turns that aren't counted, which also tell how many calls make a timing.
    pub fn warm_up(&mut self, budget: Duration) {
        let start = Instant::now();
        for turn in 0.. {
            let times = self.sides.iter_mut().map(|side| timed(turn, 1, &mut side.run).wall);
            let least = times.min().expect("there are sides").as_nanos().max(1);
            self.number = LEAST_TIMING.as_nanos().div_ceil(least) as usize;
            if start.elapsed() >= budget {
                break;
            }
        }
    }

    /// Turns for so long, at least one. In a turn all sides get the same records; they take turns at going first, by another order when
    /// the records have come round.
    pub fn measure(&mut self, budget: Duration) {
        let start = Instant::now();
        while {
            let turn = self.turns();
            let sides = self.sides.len();
            for place in 0..sides {
                let side = &mut self.sides[(turn + turn / RECORDS + place) % sides];
                let time = timed(turn * self.number, self.number, &mut side.run);
                side.times.push(time);
            }
            start.elapsed() < budget
        } {}
    }

    pub fn turns(&self) -> usize {
        self.sides[BASELINE].times.len()
    }

    fn times(&self, of: fn(&Side<'a>) -> f64) -> Times {
        let at = |place: usize| of(&self.sides[place]);
        let product = at(PRODUCT) - self.other.map_or(0.0, at);
        Times { product, baseline: at(BASELINE), tuned: self.tuned.map(at) }
    }

    pub fn medians(&self) -> Times {
        self.times(Side::median)
    }

    pub fn least(&self) -> Times {
        self.times(Side::least)
    }
}
