//! Crate `angle` against Rust's own sine, cosine, atan2 and acos. Equality is not asked: document 01
//! asks that none differs by more than 2^-40, at angles from -128 to 128.

mod bench;
mod inputs;

pub use bench::bench;

use crate::util::bits::show;
use crate::util::floats::{self, some};
use crate::util::gap::{self, Gap};
use crate::util::rng::SplitMix64;
use crate::util::table::{Table, count, verdict};
use crate::util::tally::{self, Tally};
use crate::util::timing::Pair;

pub fn compare() -> bool {
    let angles = inputs::angles(301);
    let vectors = inputs::vectors(302);
    let cosines = inputs::cosines(303);
    floats::print("inputs: angles", &angles);
    floats::print("inputs: vectors, y first", &vectors);
    floats::print("inputs: cosines", &cosines);
    let angles = floats::all(&angles);
    let anything = floats::all(&floats::singles(304));

    let within = gap::print(&[
        Gap::of("`sin`", &angles, |x| ffi::bf_sin(x), f64::sin),
        Gap::of("`cos`", &angles, |x| ffi::bf_cos(x), f64::cos),
        atan2("`atan2`", &floats::all(&vectors)),
        Gap::of(
            "`acos`",
            &floats::all(&cosines),
            |x| ffi::bf_acos(x),
            f64::acos,
        ),
    ]);
    let together = sin_cos_is_both(angles.iter().chain(&anything));
    let answered = any_float_is_answered(&anything);
    outside_the_domain(305, &anything);
    within && together && answered
}

fn atan2(name: &str, vectors: &[Pair]) -> Gap {
    Gap::of(
        name,
        vectors,
        |(y, x)| ffi::bf_atan2(y, x),
        |(y, x)| y.atan2(x),
    )
}

/// The bit pattern, sign of zero and all, with one NaN.
fn pattern(x: f64) -> u64 {
    if x.is_nan() { u64::MAX } else { x.to_bits() }
}

/// The call for both must give what the two calls give, in every bit.
fn sin_cos_is_both<'a>(xs: impl Iterator<Item = &'a f64>) -> bool {
    let together = |x| {
        let (sin, cos) = ffi::sin_cos(x);
        (pattern(sin), pattern(cos))
    };
    let apart = |x| (pattern(ffi::bf_sin(x)), pattern(ffi::bf_cos(x)));
    let names = ["sin_cos", "our sin and cos"];
    tally::print(&[Tally::of(names, xs.copied(), together, apart)])
}

/// Calls with any float at all: each comes back, with a NaN where Rust's has one.
fn any_float_is_answered(anything: &[f64]) -> bool {
    let mut table = Table::new(&["any float", "calls", "a NaN is due", "and given", "verdict"]);
    let mut good = true;
    let mut row = |name: &str, f: extern "C" fn(f64) -> f64, due: fn(f64) -> bool| {
        let nan_due = anything.iter().filter(|x| due(**x)).count() as u64;
        let given = anything
            .iter()
            .filter(|x| f(**x).is_nan() && due(**x))
            .count() as u64;
        let cells = [anything.len() as u64, nan_due, given].map(count);
        table.row(
            [
                &[name.to_string()],
                &cells[..],
                &[verdict(given == nan_due)],
            ]
            .concat(),
        );
        good &= given == nan_due;
    };
    row("`sin`", ffi::bf_sin, |x| !x.is_finite());
    row("`cos`", ffi::bf_cos, |x| !x.is_finite());
    row("`acos`", ffi::bf_acos, |x| x.is_nan() || x.abs() > 1.0);
    table.print();
    good
}

/// For information: document 01 asks nothing here.
fn outside_the_domain(seed: u64, anything: &[f64]) {
    println!("Outside the domain, for information:\n");
    let r = &mut SplitMix64::new(seed);
    let huge = some(300_000, || {
        (floats::scaled(r, 21, 1023), floats::scaled(r, 21, 1023))
    });
    let alike = some(300_000, || {
        let e = r.whole(21, 1023) as i32;
        (floats::scaled(r, e, e), floats::scaled(r, e, e))
    });
    gap::tell(&[
        atan2("`atan2`, sizes from 2^21 to 2^1024", &huge),
        atan2("`atan2`, the same, y and x of one size", &alike),
    ]);
    endless_vectors();
    far_angles(anything);
}

/// Pairs with an infinity or a NaN, by kind. Only the kinds that differ are listed.
fn endless_vectors() {
    let (inf, nan) = (f64::INFINITY, f64::NAN);
    let kinds = [-inf, -2.5, -0.0, 0.0, 2.5, inf, nan];
    let mut table = Table::new(&["`atan2`: y", "x", "ours", "Rust"]);
    let mut alike = 0;
    for (y, x) in floats::square(&kinds) {
        let (ours, rust) = (ffi::bf_atan2(y, x), y.atan2(x));
        if pattern(ours) != pattern(rust) {
            table.row([y, x, ours, rust].map(show).to_vec());
        } else if !y.is_finite() || !x.is_finite() {
            alike += 1;
        }
    }
    println!(
        "With an infinity or a NaN {alike} kinds of pair are answered as by Rust, and these not:\n"
    );
    table.print();
}

fn far_angles(anything: &[f64]) {
    let far = |x: &&f64| x.is_finite() && x.abs() > 128.0;
    let strange = |x: &&f64| !ffi::bf_sin(**x).abs().le(&1.0) || !ffi::bf_cos(**x).abs().le(&1.0);
    let all = anything.iter().filter(far).count() as u64;
    let odd = anything.iter().filter(far).filter(strange).count() as u64;
    println!(
        "Of {} finite angles beyond 128, {} have a sine or cosine that is no number from -1 to 1.\n",
        count(all),
        count(odd)
    );
}
