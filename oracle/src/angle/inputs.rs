//! Inputs of the angle functions.

use crate::util::bits::step;
use crate::util::floats::{self, Family, some, with_neighbours};
use crate::util::rng::SplitMix64;
use crate::util::timing::Pair;
use std::f64::consts::FRAC_PI_4;

/// Angles from -128 to 128.
pub fn angles(seed: u64) -> Vec<Family<f64>> {
    let r = &mut SplitMix64::new(seed);
    // 162 eighths of a turn are 127.2, so that what lies beside them stays within 128.
    let eighths: Vec<f64> = (-162..=162).map(|k| f64::from(k) * FRAC_PI_4).collect();
    let beside = |r: &mut SplitMix64| r.pick(&eighths) + r.sign() * small(r, -16.0, -1.0);
    let special = floats::special().into_iter().filter(|x| x.abs() <= 128.0);
    vec![
        Family::new(
            "from -128 to 128",
            some(4_000_000, || r.between(-128.0, 128.0)),
        ),
        Family::new("from -7 to 7", some(2_000_000, || r.between(-7.0, 7.0))),
        Family::new(
            "multiples of pi/4, 500 neighbours on each side",
            with_neighbours(eighths.iter().copied(), 500),
        ),
        Family::new(
            "multiples of pi/4, 1e-16 to 0.1 beside them",
            some(1_000_000, || beside(r)),
        ),
        Family::new(
            "sizes from 2^-1022 to 2^7",
            some(500_000, || floats::scaled(r, -1022, 6)),
        ),
        Family::new("subnormal", some(100_000, || floats::subnormal(r))),
        Family::new("special values, both zeros among them", special.collect()),
    ]
}

/// Ten to a random power.
fn small(r: &mut SplitMix64, lo: f64, hi: f64) -> f64 {
    10f64.powf(r.between(lo, hi))
}

/// The greatest difference of two coordinates of the domain.
const REACH: f64 = 2e6;

/// Differences of coordinates: y, then x.
pub fn vectors(seed: u64) -> Vec<Family<Pair>> {
    let r = &mut SplitMix64::new(seed);
    let lattice: Vec<f64> = (-40..=40).map(f64::from).collect();
    let special = floats::special();
    let special: Vec<f64> = special.into_iter().filter(|x| x.abs() <= REACH).collect();
    vec![
        Family::new(
            "coordinates up to 2e6",
            some(4_000_000, || {
                (r.between(-REACH, REACH), r.between(-REACH, REACH))
            }),
        ),
        Family::new("lattice points up to 40", floats::square(&lattice)),
        Family::new(
            "lattice points up to 1,000",
            some(500_000, || lattice_point(r)),
        ),
        Family::new(
            "decimals up to 1e6",
            some(500_000, || (floats::decimal(r), floats::decimal(r))),
        ),
        Family::new(
            "axes and diagonals, 3 neighbours on each side",
            axes_and_diagonals(r),
        ),
        Family::new("300 floats on each side of a ratio of eighths", eighths()),
        Family::new(
            "of like size, from 2^-1000",
            some(500_000, || {
                let y = floats::scaled(r, -1000, 18);
                (y, y * r.between(-4.0, 4.0))
            }),
        ),
        Family::new(
            "sizes from 2^-1022 to 2^20",
            some(500_000, || {
                (floats::scaled(r, -1022, 19), floats::scaled(r, -1022, 19))
            }),
        ),
        Family::new(
            "subnormal",
            some(200_000, || (floats::subnormal(r), floats::subnormal(r))),
        ),
        Family::new(
            "all pairs of special values up to 2e6",
            floats::square(&special),
        ),
    ]
}

fn lattice_point(r: &mut SplitMix64) -> Pair {
    (r.whole(-1000, 1000) as f64, r.whole(-1000, 1000) as f64)
}

fn axes_and_diagonals(r: &mut SplitMix64) -> Vec<Pair> {
    let mut out = Vec::new();
    for _ in 0..5_000 {
        let m = floats::scaled(r, -1000, 19);
        for near in with_neighbours([m, -m], 3) {
            for other in [m, 0.0, -0.0] {
                out.extend([(near, other), (other, near)]);
            }
        }
    }
    out
}

/// Ratios at which the written list passes from one centre to the next (1/8, 3/8, 5/8, 7/8), and
/// the centres between them.
fn eighths() -> Vec<Pair> {
    let mut out = Vec::new();
    for size in [1.0, 3.3, 1e6, 7e-9, 1e-200] {
        let ratios = (1..=8).map(|k| f64::from(k) / 8.0 * size);
        for n in with_neighbours(ratios, 300) {
            for (a, b) in [(n, size), (size, n)] {
                out.extend([(a, b), (-a, b), (a, -b), (-a, -b)]);
            }
        }
    }
    out
}

/// Numbers from -1 to 1.
pub fn cosines(seed: u64) -> Vec<Family<f64>> {
    let r = &mut SplitMix64::new(seed);
    let ends = (0..=50_000).flat_map(|d| [step(1.0, -d), step(-1.0, d)]);
    let special = floats::special().into_iter().filter(|x| x.abs() <= 1.0);
    vec![
        Family::new("from -1 to 1", some(4_000_000, || r.between(-1.0, 1.0))),
        Family::new(
            "1e-17 to 1 beside 1 and -1",
            some(500_000, || r.sign() * (1.0 - small(r, -17.0, 0.0))),
        ),
        Family::new("50,000 floats beside 1 and -1", ends.collect()),
        Family::new(
            "10,000 floats on each side of 0, 0.5 and -0.5",
            with_neighbours([0.0, 0.5, -0.5], 10_000),
        ),
        Family::new(
            "sizes from 2^-1022 to 1/2",
            some(200_000, || floats::scaled(r, -1022, -2)),
        ),
        Family::new(
            "1 - tolerance / range, as `arc_step` makes it",
            some(500_000, || arc_step(r)),
        ),
        Family::new("special values", special.collect()),
    ]
}

/// The Rust raises the tolerance to 1e-9 and asks for the acos only where it is below the range.
fn arc_step(r: &mut SplitMix64) -> f64 {
    loop {
        let range = small(r, -9.0, 6.0);
        let other = small(r, -9.0, 6.0);
        // The default tolerance is worth a share of its own.
        let tolerance = r.pick(&[0.1, other]);
        if tolerance < range {
            return 1.0 - tolerance / range;
        }
    }
}
