//! Crate `num` against Rust's own functions on f64, bit for bit.

mod bench;
mod inputs;

pub use bench::bench;

use crate::util::floats;
use crate::util::tally::{self, Tally};
use crate::util::timing::Pair;
use std::cmp::Ordering;

pub fn compare() -> bool {
    let singles = floats::singles(101);
    let pairs = floats::pairs(102);
    let roots = inputs::near_roots(103);
    let remainders = inputs::near_multiples(104);
    let bounds = inputs::bounds(105, &pairs);
    floats::print("inputs: one float", &singles);
    floats::print("inputs: two floats", &pairs);
    floats::print("inputs: besides, for `sqrt`", &roots);
    floats::print("inputs: besides, for `rem_euclid`", &remainders);
    floats::print("inputs: for `clamp`, lo <= hi", &bounds);

    let mut tallies = of_one(&floats::all(&singles), &floats::all(&roots));
    tallies.extend(of_two(&floats::all(&pairs), &floats::all(&remainders)));
    tallies.push(Tally::of(
        ["clamp", "f64::clamp"],
        floats::all(&bounds),
        |(x, lo, hi)| ffi::bf_clamp(x, lo, hi),
        |(x, lo, hi)| x.clamp(lo, hi),
    ));
    tally::print(&tallies)
}

fn of_one(xs: &[f64], roots: &[f64]) -> Vec<Tally> {
    let xs = || xs.iter().copied();
    let with_roots = xs().chain(roots.iter().copied());
    let rust_is_nan = |x: f64| u32::from(x.is_nan());
    vec![
        Tally::of(
            ["floor", "f64::floor"],
            xs(),
            |x| ffi::bf_floor(x),
            f64::floor,
        ),
        Tally::of(["ceil", "f64::ceil"], xs(), |x| ffi::bf_ceil(x), f64::ceil),
        Tally::of(["abs", "f64::abs"], xs(), |x| ffi::bf_abs(x), f64::abs),
        Tally::of(
            ["is_nan", "f64::is_nan"],
            xs(),
            |x| ffi::bf_is_nan(x),
            rust_is_nan,
        ),
        Tally::of(
            ["to_u64", "as u64"],
            xs(),
            |x| ffi::bf_to_u64(x),
            |x| x as u64,
        ),
        Tally::of(
            ["to_i64", "as i64"],
            xs(),
            |x| ffi::bf_to_i64(x),
            |x| x as i64,
        ),
        Tally::of(
            ["sqrt", "f64::sqrt"],
            with_roots,
            |x| ffi::bf_sqrt(x),
            f64::sqrt,
        ),
    ]
}

fn of_two(pairs: &[Pair], remainders: &[Pair]) -> Vec<Tally> {
    let pairs = || pairs.iter().copied();
    vec![
        Tally::of(
            ["min", "f64::min"],
            pairs(),
            |(x, y)| ffi::bf_min(x, y),
            |(x, y)| x.min(y),
        ),
        Tally::of(
            ["max", "f64::max"],
            pairs(),
            |(x, y)| ffi::bf_max(x, y),
            |(x, y)| x.max(y),
        ),
        Tally::of(
            ["total_cmp", "f64::total_cmp"],
            pairs(),
            |(x, y)| ffi::bf_total_cmp(x, y),
            |(x, y)| order(one_nan(x), one_nan(y)),
        ),
        Tally::of(
            ["rem_euclid", "f64::rem_euclid"],
            pairs().chain(remainders.iter().copied()),
            |(x, y)| ffi::bf_rem_euclid(x, y),
            |(x, y)| x.rem_euclid(y),
        ),
    ]
}

/// The logic has one NaN, without a sign, and it comes last. For Rust that is the positive one.
fn one_nan(x: f64) -> f64 {
    if x.is_nan() { f64::NAN } else { x }
}

/// Rust's order under the numbers that `bf_total_cmp` gives.
fn order(x: f64, y: f64) -> u32 {
    match x.total_cmp(&y) {
        Ordering::Less => 0,
        Ordering::Equal => 1,
        Ordering::Greater => 2,
    }
}
