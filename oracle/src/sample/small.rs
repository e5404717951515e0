//! The calls of `num`, `angle` and `rng` under their numbers, and a few ugly inputs of each.

use super::{Asked, argument};
use crate::util::bits::step;
use crate::util::call::{Answer, Call};
use crate::util::floats::{any, decimal, scaled, some, special, subnormal};
use crate::util::rng::SplitMix64;
use std::cmp::Ordering;
use std::f64::consts::{FRAC_PI_4, TAU};

type Side = fn(&[u64]) -> Answer;
type Inputs = Vec<Vec<u64>>;

fn asked(
    number: u64,
    [name, against]: [&'static str; 2],
    inputs: Inputs,
    ours: Side,
    rust: Side,
) -> Asked {
    let call = Call {
        number,
        name,
        against,
        arguments: inputs[0].len(),
        points: false,
        ours,
        rust,
    };
    Asked::of_call(call, inputs)
}

pub fn calls() -> Vec<Asked> {
    [num_of_one(), num_of_more(), angle(), rng()]
        .into_iter()
        .flatten()
        .collect()
}

fn f(words: &[u64], i: usize) -> f64 {
    f64::from_bits(words[i])
}

// ---- num

fn num_of_one() -> Vec<Asked> {
    vec![
        asked(
            101,
            ["floor", "f64::floor"],
            singles(101),
            |w| Answer::float(ffi::bf_floor(f(w, 0))),
            |w| Answer::float(f(w, 0).floor()),
        ),
        asked(
            102,
            ["ceil", "f64::ceil"],
            singles(102),
            |w| Answer::float(ffi::bf_ceil(f(w, 0))),
            |w| Answer::float(f(w, 0).ceil()),
        ),
        asked(
            103,
            ["abs", "f64::abs"],
            singles(103),
            |w| Answer::float(ffi::bf_abs(f(w, 0))),
            |w| Answer::float(f(w, 0).abs()),
        ),
        asked(
            104,
            ["is_nan", "f64::is_nan"],
            singles(104),
            |w| Answer::whole(ffi::bf_is_nan(f(w, 0))),
            |w| Answer::whole(u64::from(f(w, 0).is_nan())),
        ),
        asked(
            108,
            ["to_u64", "as u64"],
            singles(108),
            |w| Answer::whole(ffi::bf_to_u64(f(w, 0))),
            |w| Answer::whole(f(w, 0) as u64),
        ),
        asked(
            112,
            ["sqrt", "f64::sqrt"],
            singles(112),
            |w| Answer::float(ffi::bf_sqrt(f(w, 0))),
            |w| Answer::float(f(w, 0).sqrt()),
        ),
    ]
}

fn num_of_more() -> Vec<Asked> {
    vec![
        asked(
            105,
            ["min", "f64::min"],
            pairs(105),
            |w| Answer::float(ffi::bf_min(f(w, 0), f(w, 1))),
            |w| Answer::float(f(w, 0).min(f(w, 1))),
        ),
        asked(
            106,
            ["max", "f64::max"],
            pairs(106),
            |w| Answer::float(ffi::bf_max(f(w, 0), f(w, 1))),
            |w| Answer::float(f(w, 0).max(f(w, 1))),
        ),
        asked(
            107,
            ["clamp", "f64::clamp"],
            bounds(107),
            |w| Answer::float(ffi::bf_clamp(f(w, 0), f(w, 1), f(w, 2))),
            |w| Answer::float(f(w, 0).clamp(f(w, 1), f(w, 2))),
        ),
        asked(
            110,
            ["total_cmp", "f64::total_cmp"],
            pairs(110),
            |w| Answer::whole(ffi::bf_total_cmp(f(w, 0), f(w, 1))),
            |w| {
                Answer::whole(match f(w, 0).total_cmp(&f(w, 1)) {
                    Ordering::Less => 0u64,
                    Ordering::Equal => 1,
                    Ordering::Greater => 2,
                })
            },
        ),
        asked(
            111,
            ["rem_euclid", "f64::rem_euclid"],
            remainders(111),
            |w| Answer::float(ffi::bf_rem_euclid(f(w, 0), f(w, 1))),
            |w| Answer::float(f(w, 0).rem_euclid(f(w, 1))),
        ),
    ]
}

// ---- angle: the Rust's answers hang on the C library, and with our functions put in they would be
// ours. So both sides are ours here: these lines pin the bits and compare nothing.

const OURS: &str = "ours";

fn angle() -> Vec<Asked> {
    let sin: Side = |w| Answer::float(ffi::bf_sin(f(w, 0)));
    let cos: Side = |w| Answer::float(ffi::bf_cos(f(w, 0)));
    let sin_cos: Side = |w| {
        let (sin, cos) = ffi::sin_cos(f(w, 0));
        Answer::floats(&[sin, cos])
    };
    let atan2: Side = |w| Answer::float(ffi::bf_atan2(f(w, 0), f(w, 1)));
    let acos: Side = |w| Answer::float(ffi::bf_acos(f(w, 0)));
    vec![
        asked(201, ["sin", OURS], angles(201), sin, sin),
        asked(202, ["cos", OURS], angles(202), cos, cos),
        asked(203, ["sin_cos", OURS], angles(203), sin_cos, sin_cos),
        asked(204, ["atan2", OURS], vectors(204), atan2, atan2),
        asked(205, ["acos", OURS], cosines(205), acos, acos),
    ]
}

// ---- rng: the state, what is drawn, the state after it

fn rng() -> Vec<Asked> {
    vec![
        asked(
            301,
            ["next_u64", "Rng::next_u64"],
            states(301),
            |w| {
                let mut next = 0;
                let value = ffi::bf_rng_next_u64(w[0], &mut next);
                Answer::wholes(value, next)
            },
            |w| {
                let mut rng = oracle::Rng::new(w[0]);
                Answer::wholes(rng.next_u64(), rng.oracle_state())
            },
        ),
        asked(
            302,
            ["next_f64", "Rng::next_f64"],
            states(302),
            |w| {
                let mut next = 0;
                let value = ffi::bf_rng_next_f64(w[0], &mut next);
                Answer::wholes(value.to_bits(), next)
            },
            |w| {
                let mut rng = oracle::Rng::new(w[0]);
                Answer::wholes(rng.next_f64().to_bits(), rng.oracle_state())
            },
        ),
        asked(
            303,
            ["range", "Rng::range"],
            ranges(303),
            |w| {
                let mut next = 0;
                let value = ffi::bf_rng_range(w[0], w[1], w[2], &mut next);
                Answer::wholes(value, next)
            },
            |w| {
                let mut rng = oracle::Rng::new(w[0]);
                Answer::wholes(rng.range(w[1], w[2]), rng.oracle_state())
            },
        ),
    ]
}

// ---- inputs

/// A few random ones beside the special values.
const FEW: usize = 24;

fn words<const N: usize>(inputs: impl IntoIterator<Item = [f64; N]>) -> Inputs {
    let row = |numbers: [f64; N]| numbers.map(argument).to_vec();
    inputs.into_iter().map(row).collect()
}

/// The special values, with one NaN.
fn few_special() -> Vec<f64> {
    let (nans, mut rest): (Vec<f64>, Vec<f64>) = special().into_iter().partition(|x| x.is_nan());
    rest.push(nans[0]);
    rest
}

fn ugly(r: &mut SplitMix64) -> f64 {
    match r.below(6) {
        0 => any(r),
        1 => decimal(r),
        2 => subnormal(r),
        3 => step(r.whole(-40, 40) as f64 / 2.0, r.whole(-2, 2)),
        4 => step(scaled(r, 50, 65).trunc(), r.whole(-2, 2)),
        _ => scaled(r, -70, 70),
    }
}

fn singles(seed: u64) -> Inputs {
    let r = &mut SplitMix64::new(seed);
    let random = some(FEW, || ugly(r));
    words(few_special().into_iter().chain(random).map(|x| [x]))
}

fn pairs(seed: u64) -> Inputs {
    let r = &mut SplitMix64::new(seed);
    let special = few_special();
    let one = |r: &mut SplitMix64| {
        let (x, s, t) = (ugly(r), r.pick(&special), r.pick(&special));
        let beside = step(x, r.whole(-1, 1));
        r.pick(&[[s, t], [s, t], [x, s], [s, x], [x, beside], [s, s], [s, -s]])
    };
    let zeros = [[0.0, -0.0], [-0.0, 0.0], [f64::NAN, 1.0], [1.0, f64::NAN]];
    words(zeros.into_iter().chain(some(80, || one(r))))
}

/// Rust's clamp panics unless lo <= hi.
fn bounds(seed: u64) -> Inputs {
    let r = &mut SplitMix64::new(seed);
    let special = few_special();
    let mut found = Vec::new();
    while found.len() < 80 {
        let (x, s, t) = (ugly(r), r.pick(&special), r.pick(&special));
        let (lo, hi) = r.pick(&[(s, t), (t, s), (x, s), (0.0, 1.0), (s, s)]);
        if lo <= hi {
            let beside = step(r.pick(&[lo, hi]), r.whole(-1, 1));
            found.push([r.pick(&[x, beside, s, t]), lo, hi]);
        }
    }
    words(found)
}

fn remainders(seed: u64) -> Inputs {
    let r = &mut SplitMix64::new(seed);
    let near = some(60, || {
        let y = r.pick(&[TAU, TAU, -TAU, 0.1, 3.0]);
        [step(r.whole(-50, 50) as f64 * y, r.whole(-2, 2)), y]
    });
    let tiny = some(10, || [-scaled(r, -1022, -40).abs(), TAU]);
    let mut all = words(near.into_iter().chain(tiny));
    all.extend(pairs(seed + 1));
    all
}

fn angles(seed: u64) -> Inputs {
    let r = &mut SplitMix64::new(seed);
    let eighths = some(30, || {
        step(r.whole(-162, 162) as f64 * FRAC_PI_4, r.whole(-2, 2))
    });
    let random = some(30, || r.between(-128.0, 128.0));
    let all = few_special().into_iter().chain(eighths).chain(random);
    words(all.map(|x| [x]))
}

fn vectors(seed: u64) -> Inputs {
    let r = &mut SplitMix64::new(seed);
    let random = some(40, || [r.between(-2e6, 2e6), r.between(-2e6, 2e6)]);
    let lattice = some(40, || [r.whole(-3, 3) as f64, r.whole(-3, 3) as f64]);
    let mut all = words(random.into_iter().chain(lattice));
    all.extend(pairs(seed + 1));
    all
}

fn cosines(seed: u64) -> Inputs {
    let r = &mut SplitMix64::new(seed);
    let random = some(30, || r.between(-1.0, 1.0));
    let ends = some(10, || r.sign() * step(1.0, -r.whole(0, 4)));
    let all = few_special().into_iter().chain(random).chain(ends);
    words(all.map(|x| [x]))
}

/// Numbers at which sums and products of halves carry.
fn edge(r: &mut SplitMix64) -> u64 {
    let power = 1u64 << r.below(64);
    let beside = [power, power - 1, power + 1, power.wrapping_neg()];
    let (near, random) = (r.pick(&beside), r.bits());
    r.pick(&[near, near, random, 0, u64::MAX])
}

fn states(seed: u64) -> Inputs {
    let r = &mut SplitMix64::new(seed);
    let mut all = vec![vec![0], vec![1], vec![0x5EED], vec![u64::MAX]];
    all.extend(some(80, || vec![edge(r)]));
    all
}

fn ranges(seed: u64) -> Inputs {
    let r = &mut SplitMix64::new(seed);
    let asked = [(5, 5), (3, 9), (0, 0), (0, 1), (0, 2_000), (9, 3)];
    let mut all: Inputs = asked.map(|(lo, hi)| vec![r.bits(), lo, hi]).to_vec();
    all.extend(some(100, || vec![r.bits(), edge(r), edge(r)]));
    all
}
