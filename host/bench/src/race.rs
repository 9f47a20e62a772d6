//! Runs of two or more by turns, so that the machine's moods meet all of them alike.

use std::hint::black_box;
use std::time::{Duration, Instant};

/// A turn is short, so that few of them are interrupted: the median then is of those that weren't.
const TURN: Duration = Duration::from_micros(300);
/// How long a race takes, within limits for the number of its rounds.
const RACE: Duration = Duration::from_millis(700);
const ROUNDS: (usize, usize) = (31, 301);

/// Makes a number of calls and gives the time that they took.
pub type Runner<'a> = Box<dyn FnMut(u32) -> Duration + 'a>;

/// Times a call as a whole.
pub fn timed<'a, T>(mut call: impl FnMut() -> T + 'a) -> Runner<'a> {
    Box::new(move |times| {
        let begin = Instant::now();
        for _ in 0..times {
            black_box(call());
        }
        begin.elapsed()
    })
}

/// Seconds for one call, for each runner and each round.
pub fn race(runners: &mut [Runner]) -> Vec<Vec<f64>> {
    let times: Vec<u32> = runners.iter_mut().map(times_for).collect();
    let begin = Instant::now();
    for (runner, &times) in runners.iter_mut().zip(&times) {
        runner(times);
    }
    let rounds = (RACE.as_nanos() / begin.elapsed().as_nanos()) as usize;
    let mut seconds = vec![Vec::new(); runners.len()];
    for round in 0..rounds.clamp(ROUNDS.0, ROUNDS.1) {
        for turn in 0..runners.len() {
            let at = (round + turn) % runners.len(); // none is always the first
            let taken = runners[at](times[at]);
            seconds[at].push(taken.as_secs_f64() / f64::from(times[at]));
        }
    }
    seconds
}

/// How many calls fill a turn. Warms the caches on the way.
fn times_for(runner: &mut Runner) -> u32 {
    let mut times = 1;
    while runner(times) * 2 < TURN {
        times *= 2;
    }
    times
}

/// The median of some measurements, and the range that holds the middle eight of ten.
#[derive(Clone, Copy)]
pub struct Spread {
    pub low: f64,
    pub median: f64,
    pub high: f64,
}

impl Spread {
    pub fn of(mut values: Vec<f64>) -> Spread {
        values.sort_unstable_by(f64::total_cmp);
        let at = |tenths: usize| values[(values.len() - 1) * tenths / 10];
        Spread { low: at(1), median: at(5), high: at(9) }
    }

    /// The ratios of two runners, round by round.
    pub fn of_ratios(ours: &[f64], theirs: &[f64]) -> Spread {
        Spread::of(ours.iter().zip(theirs).map(|(our, their)| our / their).collect())
    }
}
