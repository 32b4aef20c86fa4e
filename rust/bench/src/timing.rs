//! Bytes a second of a call, of both sides in turn, and nanoseconds of a call of the archive.

use crate::case::Side;
use crate::work::Work;
use std::time::{Duration, Instant};

/// Odd, so that one round is the median.
const ROUNDS: usize = 9;
/// Long enough that the clock and a short pause of the machine do not count.
const ROUND: Duration = Duration::from_millis(100);

/// Millions of bytes a second of archive and oracle, the median of several rounds. The rounds of the two alternate,
/// so that a slow spell of the machine meets both.
pub fn speeds(work: &mut Work) -> [f64; 2] {
    let calls = Side::ALL.map(|side| calls_in_round(work, side));
    let rounds = [(); ROUNDS].map(|()| [0, 1].map(|index| seconds(work, Side::ALL[index], calls[index])));
    [0, 1].map(|index| {
        let bytes = work.bytes() as f64 * f64::from(calls[index]);
        bytes / median(rounds.map(|round| round[index])) / 1e6
    })
}

/// Nanoseconds of one call of the archive, the median of as many rounds.
pub fn nanoseconds(work: &mut Work) -> f64 {
    let calls = calls_in_round(work, Side::Archive);
    let rounds = [(); ROUNDS].map(|()| seconds(work, Side::Archive, calls));
    median(rounds) / f64::from(calls) * 1e9
}

/// How many calls a round takes, from a short trial that also warms the caches.
fn calls_in_round(work: &mut Work, side: Side) -> u32 {
    let mut calls = 1;
    loop {
        let taken = seconds(work, side, calls);
        if taken > ROUND.as_secs_f64() / 10.0 {
            return (f64::from(calls) * ROUND.as_secs_f64() / taken).ceil() as u32;
        }
        calls *= 2;
    }
}

fn seconds(work: &mut Work, side: Side, calls: u32) -> f64 {
    let start = Instant::now();
    for _ in 0..calls {
        std::hint::black_box(work.run(side));
    }
    start.elapsed().as_secs_f64()
}

fn median(mut times: [f64; ROUNDS]) -> f64 {
    times.sort_by(f64::total_cmp);
    times[ROUNDS / 2]
}
