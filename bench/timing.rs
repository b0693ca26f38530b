//! Timing of two ways of doing the same, turn by turn. Time is the processor time of the thread, so that other work on
//! the machine counts little.

use std::time::Duration;

/// How often each way is timed: so many times, or fewer where that takes too long.
const MOST_TURNS: usize = 101;
const LEAST_TURNS: usize = 5;
/// About how long one turn takes, and when it is too long for all turns of both ways.
const TURN: Duration = Duration::from_millis(1);
const TOO_LONG: Duration = Duration::from_millis(500);

/// The processor time that this thread has used.
fn now() -> Duration {
    #[repr(C)]
    struct Time {
        seconds: i64,
        nanoseconds: i64,
    }
    extern "C" {
        fn clock_gettime(clock: i32, time: *mut Time) -> i32;
    }
    const THREAD_CLOCK: i32 = 3;
    let mut time = Time {
        seconds: 0,
        nanoseconds: 0,
    };
    // Sound: the place outlives the call and has the layout that 64-bit Linux asks for.
    let status = unsafe { clock_gettime(THREAD_CLOCK, &mut time) };
    assert_eq!(status, 0, "there is no clock of the thread's time");
    Duration::new(time.seconds as u64, time.nanoseconds as u32)
}

fn time(times: u32, work: &mut dyn FnMut()) -> Duration {
    let start = now();
    for _ in 0..times {
        work();
    }
    now() - start
}

/// How many times the work is done in a turn.
fn times_in_turn(work: &mut dyn FnMut()) -> u32 {
    let mut times = 1;
    while time(times, work) < TURN / 2 {
        times *= 2;
    }
    times
}

fn median(mut turns: Vec<f64>) -> f64 {
    turns.sort_by(f64::total_cmp);
    turns[turns.len() / 2]
}

/// Seconds that each of two ways takes for its work once: the median of turns that alternate, so that a drift of the
/// machine hits both.
pub fn alternate(mut first: impl FnMut(), mut second: impl FnMut()) -> (f64, f64) {
    let once =
        |times: u32, work: &mut dyn FnMut()| time(times, work).as_secs_f64() / f64::from(times);
    let first_times = times_in_turn(&mut first);
    let second_times = times_in_turn(&mut second);
    let mut turns = (Vec::new(), Vec::new());
    let start = now();
    while turns.0.len() < LEAST_TURNS || turns.0.len() < MOST_TURNS && now() - start < TOO_LONG {
        turns.0.push(once(first_times, &mut first));
        turns.1.push(once(second_times, &mut second));
    }
    (median(turns.0), median(turns.1))
}
