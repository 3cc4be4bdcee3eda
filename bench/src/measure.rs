//! How long a call takes: the best of many short rounds, the two sides in turn, so that both see the same machine.

use std::time::Instant;

/// Makes so many calls.
pub type Calls<'a> = Box<dyn FnMut(u64) + 'a>;

/// How many rounds each side has.
const ROUNDS: u32 = 60;
/// How long a round should take, in seconds.
const ROUND: f64 = 0.003;

/// The seconds that so many calls take.
fn seconds(calls: &mut Calls, count: u64) -> f64 {
    let start = Instant::now();
    calls(count);
    start.elapsed().as_secs_f64()
}

/// How many calls make a round.
fn calls_in_a_round(calls: &mut Calls) -> u64 {
    let mut count = 1;
    while seconds(calls, count) < ROUND {
        count *= 2;
    }
    count
}

/// The microseconds of one call, in the best round of each side.
pub fn best_of_both(first: &mut Calls, second: &mut Calls) -> (f64, f64) {
    let (first_count, second_count) = (calls_in_a_round(first), calls_in_a_round(second));
    let (mut first_best, mut second_best) = (f64::MAX, f64::MAX);
    for _ in 0..ROUNDS {
        first_best = first_best.min(seconds(first, first_count) / first_count as f64);
        second_best = second_best.min(seconds(second, second_count) / second_count as f64);
    }
    (first_best * 1e6, second_best * 1e6)
}
