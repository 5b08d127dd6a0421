//! Times of both, taken in turns; the shortest of many counts.

use crate::compare::Tally;
use std::hint::black_box;
use std::time::Instant;

/// How often each is timed.
const ROUNDS: usize = 40;

/// About so many nanoseconds are timed at once.
const AT_ONCE: f64 = 2e6;

/// Where twice the calls take no longer than half of them, one call takes half the time; this leaves room for a loaded machine.
const LEFT_OUT: f64 = 0.6;

/// What is timed: the work made so many times, which answers the sum of the verdicts.
pub type Timed<'a> = &'a mut dyn FnMut(u64) -> u64;

/// The nanoseconds of one call, and the sum that was answered.
fn time(f: Timed, times: u64) -> (f64, u64) {
    let start = Instant::now();
    let sum = black_box(f(black_box(times)));
    (start.elapsed().as_nanos() as f64 / times as f64, sum)
}

/// The shortest times of one call of each, in nanoseconds. What both answer is compared each time, and that the time of the proved
/// library doubles with the calls, so that none of them is left out.
pub fn both(tally: &mut Tally, what: &'static str, proved: Timed, plain: Timed) -> (f64, f64) {
    let once = time(proved, 3).0.max(time(plain, 3).0).max(1.0);
    let times = (AT_ONCE / once).ceil().max(2.0) as u64;
    let (mut shortest, mut half) = ((f64::MAX, f64::MAX), f64::MAX);
    for _ in 0..ROUNDS {
        let (of_proved, of_plain) = (time(proved, times), time(plain, times));
        tally.timed(what, of_proved.1, of_plain.1);
        shortest.0 = shortest.0.min(of_proved.0);
        shortest.1 = shortest.1.min(of_plain.0);
        half = half.min(time(proved, times / 2).0);
    }
    if shortest.0 < LEFT_OUT * half {
        tally.left_out(what);
    }
    shortest
}

/// The shortest time of one call, in nanoseconds.
pub fn one(f: Timed) -> f64 {
    let times = (AT_ONCE / 4.0 / time(f, 3).0.max(1.0)).ceil() as u64;
    (0..ROUNDS)
        .map(|_| time(f, times).0)
        .fold(f64::MAX, f64::min)
}
