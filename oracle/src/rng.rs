//! Crate `rng` against the published `Rng`, bit for bit: what is drawn, and the state it leaves.
//! The Rust keeps its state to itself, so it is read off the seam of crate `oracle`, whose `Rng` is
//! the same text; what is drawn comes from the Rust unaltered.

use crate::util::floats::{self, Family, some};
use crate::util::rng::SplitMix64;
use crate::util::tally::{self, Tally};
use crate::util::timing::{Bench, INPUTS, Limit, Pair};
use std::hint::black_box;

/// A state, and the two ends of a range.
type Draw = (u64, u64, u64);

pub fn compare() -> bool {
    let (states, ranges) = (states(501), ranges(502));
    floats::print("inputs: states", &states);
    floats::print("inputs: a state, lo and hi", &ranges);
    let states = floats::all(&states);
    let seeds = states.iter().copied();
    tally::print(&[
        Tally::of(
            ["next_u64", "Rng::next_u64"],
            seeds.clone(),
            |s| ours(|next| ffi::bf_rng_next_u64(s, next)),
            |s| {
                (
                    plain::Rng::new(s).next_u64(),
                    state_after(s, |r| r.next_u64()),
                )
            },
        ),
        Tally::of(
            ["next_f64", "Rng::next_f64"],
            seeds.clone(),
            |s| ours(|next| ffi::bf_rng_next_f64(s, next)),
            |s| {
                (
                    plain::Rng::new(s).next_f64(),
                    state_after(s, |r| r.next_f64()),
                )
            },
        ),
        Tally::of(
            ["range", "Rng::range"],
            floats::all(&ranges),
            |(s, lo, hi)| ours(|next| ffi::bf_rng_range(s, lo, hi, next)),
            |(s, lo, hi)| {
                let after = state_after(s, |r| r.range(lo, hi));
                (plain::Rng::new(s).range(lo, hi), after)
            },
        ),
        Tally::of(
            ["a hundred draws", "the same of one Rng"],
            seeds.take(20_000),
            our_chain,
            rust_chain,
        ),
    ])
}

/// What is drawn, and the state that it leaves.
fn ours<T>(draw: impl FnOnce(&mut u64) -> T) -> (T, u64) {
    let mut next = 0;
    (draw(&mut next), next)
}

fn state_after<T>(seed: u64, draw: impl FnOnce(&mut oracle::Rng) -> T) -> u64 {
    let mut rng = oracle::Rng::new(seed);
    draw(&mut rng);
    rng.oracle_state()
}

/// Draws of all kinds, each from the state that the last one left, folded into one number.
fn our_chain(seed: u64) -> u64 {
    let (mut state, mut all) = (seed, 0u64);
    for k in 0..100u64 {
        let (value, next) = match k % 3 {
            0 => ours(|next| ffi::bf_rng_next_u64(state, next)),
            1 => ours(|next| ffi::bf_rng_next_f64(state, next).to_bits()),
            _ => ours(|next| ffi::bf_rng_range(state, k / 3, 30, next)),
        };
        (state, all) = (next, all.rotate_left(7) ^ value);
    }
    all
}

fn rust_chain(seed: u64) -> u64 {
    let (mut rng, mut all) = (plain::Rng::new(seed), 0u64);
    for k in 0..100u64 {
        let value = match k % 3 {
            0 => rng.next_u64(),
            1 => rng.next_f64().to_bits(),
            // From k = 90 on the range is empty, and nothing is drawn.
            _ => rng.range(k / 3, 30),
        };
        all = all.rotate_left(7) ^ value;
    }
    all
}

/// Numbers at which sums and products of halves carry.
fn edges() -> Vec<u64> {
    let powers = (0..64).map(|e| 1u64 << e);
    let beside = |p: u64| [p.wrapping_sub(1), p, p.wrapping_add(1), p.wrapping_neg()];
    [0, u64::MAX, 0x5EED]
        .into_iter()
        .chain(powers.flat_map(beside))
        .collect()
}

fn states(seed: u64) -> Vec<Family<u64>> {
    let r = &mut SplitMix64::new(seed);
    vec![
        Family::new("powers of two and beside them", edges()),
        Family::new("from 0 to 99,999", (0..100_000).collect()),
        Family::new("random", some(2_000_000, || r.bits())),
    ]
}

fn ranges(seed: u64) -> Vec<Family<Draw>> {
    let r = &mut SplitMix64::new(seed);
    let edges = edges();
    let of_edges = |r: &mut SplitMix64| (r.bits(), r.pick(&edges), r.pick(&edges));
    // What `Scene::random` asks for: points, centres, radii, colours.
    let asked = [
        (3, 9),
        (0, 0),
        (0, 1),
        (0, 2_000),
        (0, 900_000),
        (5, 60),
        (0, 10),
    ];
    let as_asked = |r: &mut SplitMix64| {
        let (lo, hi) = r.pick(&asked);
        (r.bits(), lo, hi)
    };
    let close = |r: &mut SplitMix64| {
        let lo = r.bits();
        (
            r.bits(),
            lo,
            lo.saturating_add(r.below(4)).wrapping_sub(r.below(2)),
        )
    };
    vec![
        Family::new(
            "as random sites ask for them",
            some(500_000, || as_asked(r)),
        ),
        Family::new(
            "ends at powers of two and beside them",
            some(500_000, || of_edges(r)),
        ),
        Family::new(
            "ends equal, crossed or up to 3 apart",
            some(500_000, || close(r)),
        ),
        Family::new(
            "random ends, half of them crossed",
            some(1_000_000, || (r.bits(), r.bits(), r.bits())),
        ),
    ]
}

// Rust's side of the timings, behind one call as ours is.
extern "C" fn rust_next_u64(state: u64, next: &mut u64) -> u64 {
    let mut rng = oracle::Rng::new(state);
    let value = rng.next_u64();
    *next = rng.oracle_state();
    value
}
extern "C" fn rust_range(state: u64, lo: u64, hi: u64, next: &mut u64) -> u64 {
    let mut rng = oracle::Rng::new(state);
    let value = rng.range(lo, hi);
    *next = rng.oracle_state();
    value
}

/// The state comes as a float's bits, since that is what the driver hands out.
fn drawing(f: extern "C" fn(u64, &mut u64) -> u64) -> impl Fn(Pair) -> u64 {
    let f = black_box(f);
    move |(x, _)| {
        let (value, next) = ours(|next| f(x.to_bits(), next));
        value ^ next
    }
}

fn drawing_from(f: extern "C" fn(u64, u64, u64, &mut u64) -> u64) -> impl Fn(Pair) -> u64 {
    let f = black_box(f);
    move |(x, _)| {
        let (value, next) = ours(|next| f(x.to_bits(), 5, 60, next));
        value ^ next
    }
}

pub fn bench(table: &mut Bench) {
    let r = &mut SplitMix64::new(601);
    let states: Vec<Pair> = some(INPUTS, || (f64::from_bits(r.bits()), 0.0));
    let (ours, rust) = (drawing(ffi::bf_rng_next_u64), drawing(rust_next_u64));
    table.add("`Rng::next_u64`", Limit::None, &states, ours, rust);
    let (ours, rust) = (drawing_from(ffi::bf_rng_range), drawing_from(rust_range));
    table.add("`Rng::range`, 5 to 60", Limit::None, &states, ours, rust);
}
