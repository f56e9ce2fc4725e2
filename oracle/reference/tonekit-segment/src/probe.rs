//! The inner functions that are compared one by one. Runs are `(first, last)`.

use crate::runs::Run;
use crate::smooth::Extremum;
use tonekit_core::{EnergyTrack, F0Track};

pub fn floor_db(e: &EnergyTrack) -> Option<f32> {
    crate::region::floor_db(e)
}

pub fn level(db: &[f32]) -> Vec<f32> {
    crate::smooth::smoothed_db(db)
}

pub fn maxima(s: &[f32], lo: usize, hi: usize) -> Vec<usize> {
    crate::smooth::local_extrema(s, lo, hi, Extremum::Max)
}

pub fn minima(s: &[f32], lo: usize, hi: usize) -> Vec<usize> {
    crate::smooth::local_extrema(s, lo, hi, Extremum::Min)
}

pub fn argmin_middle(s: &[f32], a: usize, b: usize) -> usize {
    crate::smooth::argmin_middle(s, a, b)
}

pub fn argmax_middle(s: &[f32], a: usize, b: usize) -> usize {
    crate::smooth::argmax_middle(s, a, b)
}

pub fn shallow_valley(s: &[f32], a: usize, b: usize, dip: f32) -> bool {
    crate::smooth::shallow_valley(s, a, b, dip)
}

pub fn split(sonority: &[f32], first: usize, last: usize, nucleus: usize) -> Option<usize> {
    crate::split::split(sonority, first, last, nucleus)
}

pub fn long_runs(f0: &F0Track) -> Vec<(usize, usize)> {
    pairs(crate::runs::long_runs(f0))
}

pub fn syllable_runs(f0: &F0Track) -> Vec<(usize, usize)> {
    pairs(crate::runs::syllable_runs(f0))
}

/// `(before, after)` of each dropout.
pub fn dropouts(f0: &F0Track) -> Vec<(usize, usize)> {
    let found = crate::runs::dropouts(f0);
    found.into_iter().map(|d| (d.before, d.after)).collect()
}

/// `run_of` at the radius that every caller uses.
pub fn run_of(runs: &[(usize, usize)], at: usize) -> Option<usize> {
    let runs: Vec<Run> = runs
        .iter()
        .map(|&(first, last)| Run { first, last })
        .collect();
    crate::runs::run_of(&runs, at, crate::runs::VOICING_RADIUS)
}

fn pairs(runs: Vec<Run>) -> Vec<(usize, usize)> {
    runs.into_iter().map(|r| (r.first, r.last)).collect()
}
