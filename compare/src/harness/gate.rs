//! The fixed runs that the gate makes.

use super::counts::Counts;
use super::planned;
use super::random::Random;
use super::session::{Checked, Session};
use super::walk;
use crate::engine::Engine;

/// The seeds of the gate.
pub const SEEDS: [u64; 8] = [1, 2, 3, 5, 8, 13, 21, 34];
/// So many calls are made at random under each seed.
pub const CALLS: u64 = 20_000;

/// The plans once, and the walks of all seeds.
pub fn gate(left: &dyn Engine, right: &dyn Engine) -> Checked<Counts> {
    let mut session = Session::new(left, right, "plans", SEEDS[0]);
    planned::all(&mut session, SEEDS[0])?;
    let mut counts = session.counts;
    for seed in SEEDS {
        counts.add(&single(left, right, seed, CALLS)?);
    }
    Ok(counts)
}

/// One walk.
pub fn single(left: &dyn Engine, right: &dyn Engine, seed: u64, calls: u64) -> Checked<Counts> {
    let mut session = Session::new(left, right, "walk", seed);
    walk::walk(&mut session, Random::new(seed), calls)?;
    Ok(session.counts)
}
