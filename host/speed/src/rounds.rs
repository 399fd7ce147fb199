//! The one loop that times both sides: each is warmed up, then they take turns, and each keeps the time of one call in every round.

use std::time::{Duration, Instant};

const ROUNDS: usize = 101;
const ROUND: Duration = Duration::from_millis(5);

/// Nanoseconds of one call on each side: the median and the least of the rounds.
pub struct Times {
    pub proved: Side,
    pub second: Side,
}

pub struct Side {
    pub median: f64,
    pub best: f64,
}

/// Each closure makes so many calls.
pub fn take_turns(mut proved: impl FnMut(u32), mut second: impl FnMut(u32)) -> Times {
    let proved_calls = calls_of_a_round(&mut proved);
    let second_calls = calls_of_a_round(&mut second);
    let (mut proved_times, mut second_times) = (Vec::new(), Vec::new());
    for _ in 0..ROUNDS {
        proved_times.push(time_of_one(&mut proved, proved_calls));
        second_times.push(time_of_one(&mut second, second_calls));
    }
    Times { proved: side(proved_times), second: side(second_times) }
}

/// As many calls as take a round whenever they are made; finding it warms the side up.
fn calls_of_a_round(calls: &mut impl FnMut(u32)) -> u32 {
    let mut count = 1;
    while (0..3).any(|_| time_of(calls, count) < ROUND) {
        count *= 2;
    }
    count
}

fn time_of(calls: &mut impl FnMut(u32), count: u32) -> Duration {
    let begin = Instant::now();
    calls(count);
    begin.elapsed()
}

fn time_of_one(calls: &mut impl FnMut(u32), count: u32) -> f64 {
    time_of(calls, count).as_secs_f64() * 1e9 / count as f64
}

fn side(mut times: Vec<f64>) -> Side {
    times.sort_by(f64::total_cmp);
    Side { median: times[times.len() / 2], best: times[0] }
}
