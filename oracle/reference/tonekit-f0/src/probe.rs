//! The inner functions that are compared one by one.

/// The periodicity at one lag.
pub fn nsdf(pcm: &[f32], centre: usize, lag: usize) -> f64 {
    crate::nsdf::nsdf(pcm, centre, lag)
}

/// The pitch around a sample, if there is one.
pub fn estimate(pcm: &[f32], centre: usize) -> Option<f64> {
    crate::recover::probe::estimate(pcm, centre)
}

/// The stretches of estimates that go together, `[start, end)`.
pub fn stretches(estimates: &[Option<f64>]) -> Vec<(usize, usize)> {
    crate::recover::probe::stretches(estimates)
}
