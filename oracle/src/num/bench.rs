//! Timings of `num`.

use super::order;
use crate::util::floats::some;
use crate::util::rng::SplitMix64;
use crate::util::timing::{Bench, INPUTS, Limit, Pair, one, two};
use std::f64::consts::TAU;
use std::hint::black_box;

// Rust's side, behind one call as ours is.
extern "C" fn rust_sqrt(x: f64) -> f64 {
    x.sqrt()
}
extern "C" fn rust_floor(x: f64) -> f64 {
    x.floor()
}
extern "C" fn rust_rem_euclid(x: f64, y: f64) -> f64 {
    x.rem_euclid(y)
}
extern "C" fn rust_total_cmp(x: f64, y: f64) -> u32 {
    order(x, y)
}

fn comparing(f: extern "C" fn(f64, f64) -> u32) -> impl Fn(Pair) -> u64 {
    let f = black_box(f);
    move |(x, y)| u64::from(f(x, y))
}

pub fn bench(table: &mut Bench) {
    let r = &mut SplitMix64::new(201);

    let squares = some(INPUTS, || (r.between(0.0, 1e6), 0.0));
    let ours = one(ffi::bf_sqrt);
    let inlined = |(x, _): Pair| x.sqrt().to_bits();
    table.add(
        "`sqrt`, 0 to 1e6",
        Limit::Times(25.0),
        &squares,
        &ours,
        one(rust_sqrt),
    );
    table.add(
        "`sqrt`, Rust's inlined",
        Limit::None,
        &squares,
        &ours,
        inlined,
    );

    let coordinates = some(INPUTS, || (r.between(-1e3, 1e3), 0.0));
    let ours = one(ffi::bf_floor);
    let inlined = |(x, _): Pair| x.floor().to_bits();
    table.add(
        "`floor`, -1e3 to 1e3",
        Limit::None,
        &coordinates,
        &ours,
        one(rust_floor),
    );
    table.add(
        "`floor`, Rust's inlined",
        Limit::None,
        &coordinates,
        &ours,
        inlined,
    );

    let angles = some(INPUTS, || (r.between(-20.0, 20.0), TAU));
    let (ours, rust) = (two(ffi::bf_rem_euclid), two(rust_rem_euclid));
    table.add(
        "`rem_euclid` by 2 pi, -20 to 20",
        Limit::None,
        &angles,
        ours,
        rust,
    );

    let pairs = some(INPUTS, || (r.between(-10.0, 10.0), r.between(-10.0, 10.0)));
    let (ours, rust) = (comparing(ffi::bf_total_cmp), comparing(rust_total_cmp));
    table.add("`total_cmp`, -10 to 10", Limit::None, &pairs, ours, rust);
}
