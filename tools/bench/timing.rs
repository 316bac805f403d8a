//! The time of a call: the thread's own processor time, so that what else the machine does is left out, in many short rounds.

use std::hint::black_box;

#[repr(C)]
struct Timespec {
    seconds: i64,
    nanoseconds: i64,
}

unsafe extern "C" {
    fn clock_gettime(clock: i32, time: *mut Timespec) -> i32;
}

const THREAD_CPU_TIME: i32 = 3;
const ROUNDS: usize = 41;
const ROUND_NANOSECONDS: f64 = 1_000_000.0;

fn now() -> f64 {
    let mut time = Timespec { seconds: 0, nanoseconds: 0 };
    // The clock writes the struct that it is given; it exists on every Linux.
    unsafe { clock_gettime(THREAD_CPU_TIME, &mut time) };
    time.seconds as f64 * 1e9 + time.nanoseconds as f64
}

/// Nanoseconds a call: the median of the rounds and the least.
#[derive(Clone, Copy)]
pub struct Time {
    pub median: f64,
    pub least: f64,
}

/// Both sides, their rounds in turn.
pub fn measure(mut ours: impl FnMut() -> usize, mut theirs: impl FnMut() -> usize) -> (Time, Time) {
    let (our_calls, their_calls) = (calls_in_round(&mut ours), calls_in_round(&mut theirs));
    let rounds = (0..ROUNDS).map(|_| (round(&mut ours, our_calls), round(&mut theirs, their_calls)));
    let (our_rounds, their_rounds): (Vec<f64>, Vec<f64>) = rounds.unzip();
    (time_of(our_rounds), time_of(their_rounds))
}

/// Nanoseconds of a call, the median of as many as a number of nanoseconds has room for: one at least, 200 at most. The fastest of them would not do: a
/// thread's clock now and then misses time while other programs run.
pub fn usual(mut call: impl FnMut() -> u64, budget: f64) -> f64 {
    let begin = now();
    let mut rounds = Vec::new();
    for calls in 0..200 {
        let start = now();
        if calls > 0 && start - begin > budget {
            break;
        }
        black_box(call());
        rounds.push(now() - start);
    }
    time_of(rounds).median
}

fn calls_in_round(call: &mut impl FnMut() -> usize) -> usize {
    round(call, 3);
    let once = round(call, 10).max(1.0);
    ((ROUND_NANOSECONDS / once) as usize).max(1)
}

fn round(call: &mut impl FnMut() -> usize, calls: usize) -> f64 {
    let start = now();
    for _ in 0..calls {
        black_box(call());
    }
    (now() - start) / calls as f64
}

fn time_of(mut rounds: Vec<f64>) -> Time {
    rounds.sort_by(f64::total_cmp);
    Time { median: rounds[rounds.len() / 2], least: rounds[0] }
}
