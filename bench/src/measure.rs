//! Takes the times: ours and the others' in turn, and the median of each.

use crate::timed::{sides, Side, Timed, CALLS, QUESTIONS};
use std::hint::black_box;
use std::time::Instant;

/// One figure of the tables: medians in seconds.
pub struct Figure {
    pub call: usize,
    pub family: usize,
    pub zones: usize,
    pub arcs: usize,
    /// One for each of the call's sides.
    pub times: Vec<f64>,
}

impl Figure {
    pub fn time(&self, side: Side) -> f64 {
        self.times[side as usize]
    }

    /// One side's time over another's.
    pub fn over(&self, side: Side, other: Side) -> f64 {
        self.time(side) / self.time(other)
    }

    pub fn ratio(&self) -> f64 {
        self.over(Side::Ours, Side::Model)
    }
}

/// A sample takes at least this long, by calling more than once where a call
/// is shorter, so that the clock's own steps do not matter.
pub const SAMPLE_SECONDS: f64 = 50e-6;

/// Medians of `runs` samples of each side of the call.
pub fn medians(timed: &mut Timed, call: usize, runs: usize) -> Vec<f64> {
    let sides = sides(call);
    let many: Vec<usize> = sides.iter().map(|&side| how_many(timed, call, side)).collect();
    let mut times = vec![Vec::new(); sides.len()];
    for _ in 0..runs {
        for (index, &side) in sides.iter().enumerate() {
            times[index].push(sample(timed, call, side, many[index]));
        }
    }
    let each = if CALLS[call] == "reach" { QUESTIONS as f64 } else { 1.0 };
    times.into_iter().map(|times| median(times) / each).collect()
}

fn how_many(timed: &mut Timed, call: usize, side: Side) -> usize {
    sample(timed, call, side, 1); // the first one finds nothing in the caches
    let seconds = sample(timed, call, side, 1).max(1e-9);
    (SAMPLE_SECONDS / seconds).ceil().clamp(1.0, 1000.0) as usize
}

/// Seconds for one call, as the mean over `many` in a row.
fn sample(timed: &mut Timed, call: usize, side: Side, many: usize) -> f64 {
    timed.soil();
    let start = Instant::now();
    for _ in 0..many {
        black_box(timed.answer(side, call));
    }
    start.elapsed().as_secs_f64() / many as f64
}

fn median(mut times: Vec<f64>) -> f64 {
    times.sort_by(f64::total_cmp);
    let half = times.len() / 2;
    if times.len() % 2 == 1 {
        times[half]
    } else {
        (times[half - 1] + times[half]) / 2.0
    }
}
