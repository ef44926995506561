//! Times of several series on the same bodies, taken in turn.
use std::time::{Duration, Instant};

/// A batch runs at least so long, and over all bodies at least once.
const BATCH: Duration = Duration::from_millis(4);
/// After so much of a batch it is looked whether another process has run in between.
const BLOCK: Duration = Duration::from_millis(1);
/// So often a block is run again where one has.
const AGAIN: usize = 10;
/// Before the first batch each series runs at least so long.
const WARM_UP: Duration = Duration::from_millis(20);

/// Nanoseconds for a body.
#[derive(Clone, Copy)]
pub struct Figure {
    pub median: f64,
    pub least: f64,
    pub batches: usize,
}

impl Figure {
    /// Of the values of all batches.
    fn of(mut batches: Vec<f64>) -> Figure {
        batches.sort_by(f64::total_cmp);
        Figure { median: batches[batches.len() / 2], least: batches[0], batches: batches.len() }
    }

    pub fn once(time: Duration) -> Figure {
        Figure::of_times(&[time])
    }

    /// Of single calls.
    pub fn of_times(times: &[Duration]) -> Figure {
        Figure::of(times.iter().map(|time| nanoseconds(*time)).collect())
    }
}

fn nanoseconds(time: Duration) -> f64 {
    time.as_nanos() as f64
}

/// The clock that a call is timed by.
#[derive(Clone, Copy, PartialEq)]
pub enum Clock {
    Monotonic,
    /// The processor time of this thread, for calls so long that other processes run in between.
    Thread,
}

/// Calls that take longer are timed by the processor time.
const SHORT: Duration = Duration::from_millis(1);

/// How long one call on a body takes, by this clock.
pub type Series<'a> = Box<dyn FnMut(usize, Clock) -> Duration + 'a>;

/// Times a call.
#[inline]
pub fn timed<T>(clock: Clock, call: impl FnOnce() -> T) -> Duration {
    match clock {
        Clock::Monotonic => {
            let start = Instant::now();
            std::hint::black_box(call());
            start.elapsed()
        }
        Clock::Thread => {
            let start = thread_time();
            std::hint::black_box(call());
            thread_time() - start
        }
    }
}

/// The processor time of this thread.
fn thread_time() -> Duration {
    unsafe extern "C" {
        fn clock_gettime(clock: i32, time: *mut [i64; 2]) -> i32;
    }
    const THREAD: i32 = 3;
    let mut time = [0; 2];
    let answer = unsafe { clock_gettime(THREAD, &mut time) };
    assert_eq!(answer, 0);
    Duration::new(time[0] as u64, time[1] as u32)
}

/// The series in turn, a batch of each, so many turns.
pub fn measure(series: &mut [Series], bodies: usize, turns: usize) -> Vec<Figure> {
    let batches: Vec<(usize, Clock)> = series.iter_mut().map(|s| warm_up(s, bodies)).collect();
    let mut values: Vec<Vec<f64>> = vec![Vec::new(); series.len()];
    for _ in 0..turns {
        for (at, one) in series.iter_mut().enumerate() {
            let (rounds, clock) = batches[at];
            let calls = rounds * bodies;
            values[at].push(batch(one, bodies, calls, clock) / calls as f64);
        }
    }
    values.into_iter().map(Figure::of).collect()
}

/// Runs a series warm; how many rounds over the bodies make a batch, and the clock.
fn warm_up(series: &mut Series, bodies: usize) -> (usize, Clock) {
    let start = Instant::now();
    let (mut rounds, mut inside) = (0, Duration::ZERO);
    while rounds < 1 || (start.elapsed() < WARM_UP && inside < 10 * BATCH) {
        inside += (0..bodies).map(|body| series(body, Clock::Thread)).sum();
        rounds += 1;
    }
    let of_round = nanoseconds(inside) / rounds as f64;
    let clock = if of_round > nanoseconds(SHORT) * bodies as f64 { Clock::Thread } else { Clock::Monotonic };
    (((nanoseconds(BATCH) / of_round).ceil() as usize).max(1), clock)
}

/// Nanoseconds of so many calls, the bodies taken in turn.
fn batch(series: &mut Series, bodies: usize, calls: usize, clock: Clock) -> f64 {
    let mut total = 0.0;
    let mut done = 0;
    while done < calls {
        let (mut ended, mut least) = (done, f64::MAX);
        for _ in 0..AGAIN {
            let before = switches();
            let mut time = Duration::ZERO;
            if ended == done {
                // The first run finds the block's end.
                while ended < calls && time < BLOCK {
                    time += series(ended % bodies, clock);
                    ended += 1;
                }
            } else {
                time += (done..ended).map(|call| series(call % bodies, clock)).sum();
            }
            least = least.min(nanoseconds(time));
            if clock == Clock::Thread || switches() == before {
                // This run counts, though a disturbed one before it may have been shorter.
                least = nanoseconds(time);
                break;
            }
        }
        total += least;
        done = ended;
    }
    total
}

/// How often this thread was set aside for another.
fn switches() -> i64 {
    // Two times of two words, then 14 counts, of which this is the last.
    unsafe extern "C" {
        fn getrusage(who: i32, usage: *mut [i64; 18]) -> i32;
    }
    const THREAD: i32 = 1;
    let mut usage = [0; 18];
    let answer = unsafe { getrusage(THREAD, &mut usage) };
    assert_eq!(answer, 0);
    usage[17]
}
