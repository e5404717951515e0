//! Timings of `angle`.

use crate::util::floats::some;
use crate::util::rng::SplitMix64;
use crate::util::timing::{Bench, INPUTS, Limit, Pair, one, two};
use std::f64::consts::TAU;
use std::hint::black_box;

// Rust's side, behind one call as ours is.
extern "C" fn rust_sin_cos(x: f64, sin: &mut f64, cos: &mut f64) {
    (*sin, *cos) = x.sin_cos();
}
extern "C" fn rust_atan2(y: f64, x: f64) -> f64 {
    y.atan2(x)
}
extern "C" fn rust_acos(x: f64) -> f64 {
    x.acos()
}

/// Sine and cosine together: the next call waits for both.
fn both(f: extern "C" fn(f64, &mut f64, &mut f64)) -> impl Fn(Pair) -> u64 {
    let f = black_box(f);
    move |(x, _)| {
        let (mut sin, mut cos) = (0.0, 0.0);
        f(x, &mut sin, &mut cos);
        sin.to_bits() ^ cos.to_bits()
    }
}

pub fn bench(table: &mut Bench) {
    let r = &mut SplitMix64::new(401);
    let spans = [
        ("`sin_cos`, -2 pi to 2 pi", TAU),
        ("`sin_cos`, -100 to 100", 100.0),
    ];
    for (name, reach) in spans {
        let angles = some(INPUTS, || (r.between(-reach, reach), 0.0));
        let (ours, rust) = (both(ffi::bf_sin_cos), both(rust_sin_cos));
        table.add(name, Limit::Times(1.3), &angles, ours, rust);
    }

    let vectors = some(INPUTS, || (r.between(-1e3, 1e3), r.between(-1e3, 1e3)));
    let (ours, rust) = (two(ffi::bf_atan2), two(rust_atan2));
    table.add(
        "`atan2`, -1e3 to 1e3",
        Limit::Times(1.3),
        &vectors,
        ours,
        rust,
    );

    let cosines = some(INPUTS, || (r.between(-1.0, 1.0), 0.0));
    let (ours, rust) = (one(ffi::bf_acos), one(rust_acos));
    table.add("`acos`, -1 to 1", Limit::None, &cosines, ours, rust);
}
