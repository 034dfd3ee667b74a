//! Times of a call.

use std::hint::black_box;
use std::time::Instant;

use crate::calls::Call;
use crate::subject::Subject;
use crate::Failure;

/// The least time of one reading of the clock, in nanoseconds: shorter jobs are timed many at once.
const LEAST: f64 = 100_000.0;

/// How often two calls take turns.
const TURNS: usize = 11;

/// The nanoseconds of so many jobs.
fn time(jobs: usize, job: &mut impl FnMut()) -> f64 {
    let start = Instant::now();
    for _ in 0..jobs {
        job();
    }
    start.elapsed().as_secs_f64() * 1e9
}

fn median(mut numbers: Vec<f64>) -> f64 {
    numbers.sort_by(f64::total_cmp);
    numbers[numbers.len() / 2]
}

/// The median over the runs of the nanoseconds of one job.
fn typical(runs: usize, mut job: impl FnMut()) -> f64 {
    let once = time(1, &mut job);
    let jobs = (LEAST / once).ceil().clamp(1.0, 10_000.0) as usize;
    median(
        (0..runs)
            .map(|_| time(jobs, &mut job) / jobs as f64)
            .collect(),
    )
}

/// Makes a call on both sides, and fails unless they leave the same. Both rooms are touched by this.
pub fn compared<C: Call>(on: &Subject) -> Result<C, Failure> {
    let (mut library, mut reference) = (C::lent(on), C::lent(on));
    C::compare(&mut library, &mut reference, on)?;
    Ok(library)
}

/// The nanoseconds of the library's call.
pub fn library<C: Call>(rooms: &mut C, on: &Subject, runs: usize) -> f64 {
    typical(C::runs(runs), || {
        black_box(rooms.library(on));
    })
}

/// The nanoseconds of the reference's call.
pub fn reference<C: Call>(rooms: &mut C, on: &Subject, runs: usize) -> f64 {
    typical(C::runs(runs), || {
        black_box(rooms.reference(on));
    })
}

/// The time of one call of the library as a part of another's. They are timed in turns of some runs each, so that other work on the machine does not slow one of them alone; the median
/// over the turns.
pub fn part<One: Call, Other: Call>(on: &Subject, runs: usize) -> Result<f64, Failure> {
    let (mut one, mut other) = (compared::<One>(on)?, compared::<Other>(on)?);
    let each = runs.div_ceil(TURNS);
    let parts = (0..TURNS).map(|_| library(&mut one, on, each) / library(&mut other, on, each));
    Ok(median(parts.collect()))
}

/// The nanoseconds of some calls, timed in turns as for a part: of each the median over the turns. Each is handed how many runs to make in a turn.
pub fn in_turns<const N: usize>(
    runs: usize,
    mut calls: [&mut dyn FnMut(usize) -> f64; N],
) -> [f64; N] {
    let each = runs.div_ceil(TURNS);
    let turns: Vec<[f64; N]> = (0..TURNS)
        .map(|_| std::array::from_fn(|call| calls[call](each)))
        .collect();
    std::array::from_fn(|call| median(turns.iter().map(|turn| turn[call]).collect()))
}
