//! Times of several implementations, taken in turns.

use crate::contender::Contender;
use std::hint::black_box;
use std::time::{Duration, Instant};

/// Turns that each implementation has, and the least that one of them lasts.
const TURNS: usize = 31;
const TURN: Duration = Duration::from_millis(10);

/// The times of one digest in nanoseconds, turn by turn for each implementation.
/// They take turns, so that what slows the machine down for a while slows all of
/// them.
pub struct Times(Vec<Vec<f64>>);

impl Times {
    pub fn of(contenders: &[&Contender], bits: u64, message: &[u8]) -> Times {
        let calls: Vec<u32> = contenders
            .iter()
            .map(|contender| calls_of_a_turn(contender, bits, message))
            .collect();
        let mut times = vec![Vec::new(); contenders.len()];
        for _ in 0..TURNS {
            for (place, contender) in contenders.iter().enumerate() {
                let time = turn(contender, bits, message, calls[place]);
                times[place].push(time.as_nanos() as f64 / f64::from(calls[place]));
            }
        }
        Times(times)
    }

    /// The median of an implementation's turns, if it was timed.
    pub fn nanoseconds(&self, place: usize) -> Option<f64> {
        self.0.get(place).map(|times| median(times.clone()))
    }

    /// How many times as long one takes as another: the median of this ratio in
    /// each turn, and not the ratio of two medians, which may come from different
    /// whiles.
    pub fn ratio(&self, one: usize, other: usize) -> Option<f64> {
        let (one, other) = (self.0.get(one)?, self.0.get(other)?);
        let ratios = one.iter().zip(other).map(|(one, other)| one / other);
        Some(median(ratios.collect()))
    }
}

/// How many calls last as long as a turn has to, and not much longer.
fn calls_of_a_turn(contender: &Contender, bits: u64, message: &[u8]) -> u32 {
    let mut calls = 1;
    loop {
        let time = turn(contender, bits, message, calls);
        if time >= TURN {
            return calls;
        }
        // A tenth more than would do, but no leap: few calls say little of many.
        let more = (1.1 * TURN.as_secs_f64() / time.as_secs_f64()).min(10.0);
        calls = (f64::from(calls) * more).ceil() as u32;
    }
}

fn turn(contender: &Contender, bits: u64, message: &[u8], calls: u32) -> Duration {
    let mut out = [0; 64];
    let start = Instant::now();
    for _ in 0..calls {
        (contender.digest)(bits, black_box(message), &mut out);
        black_box(&out);
    }
    start.elapsed()
}

fn median(mut times: Vec<f64>) -> f64 {
    times.sort_by(f64::total_cmp);
    times[times.len() / 2]
}

#[cfg(test)]
mod tests {
    use super::*;

    /// The machine is half as fast from the third turn on, and in the second one
    /// while the other has its turn.
    #[test]
    fn a_slow_while_leaves_the_ratio_as_it_is() {
        let one = vec![3.0, 3.0, 6.0, 6.0, 6.0];
        let other = vec![4.0, 8.0, 8.0, 8.0, 8.0];
        let times = Times(vec![one, other]);
        assert_eq!(times.nanoseconds(0), Some(6.0));
        assert_eq!(times.nanoseconds(1), Some(8.0));
        assert_eq!(times.ratio(0, 1), Some(0.75));
    }

    #[test]
    fn what_was_not_timed_has_no_time_and_no_ratio() {
        let times = Times(vec![vec![3.0]]);
        assert_eq!(times.nanoseconds(1), None);
        assert_eq!(times.ratio(0, 1), None);
    }
}
