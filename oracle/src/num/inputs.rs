//! Inputs that belong to one function of `num`.

use crate::util::bits::step;
use crate::util::floats::{self, Family, power_of_two, some, with_neighbours};
use crate::util::rng::SplitMix64;
use crate::util::timing::Pair;
use std::f64::consts::TAU;

/// Floats whose roots are whole, and floats whose roots lie next to the middle of two floats.
pub fn near_roots(seed: u64) -> Vec<Family<f64>> {
    let r = &mut SplitMix64::new(seed);
    let squares = some(60_000, || {
        let k = (1 + r.below(1 << 26)) as f64;
        k * k * power_of_two(2 * r.whole(-500, 480) as i32)
    });
    let middles = (-20_000..=20_000).flat_map(|k| root_near_middle(8 * k + 1));
    let spread = |x: f64| [x, x * power_of_two(-700), x * power_of_two(700)];
    vec![
        Family::new(
            "squares, 2 neighbours on each side",
            with_neighbours(squares, 2),
        ),
        Family::new(
            "roots next to the middle of two floats",
            middles.flat_map(spread).collect(),
        ),
    ]
}

/// Floats x = y * y - rest for an odd y of 54 bits. The root of x is just beside y, which lies
/// midway between two floats, so the rounding hangs on the sign of `rest` alone. There are such x
/// only where `rest` is 1 modulo 8.
fn root_near_middle(rest: i64) -> Vec<f64> {
    let mut found = Vec::new();
    // y * y has 107 or 108 bits, and x may have 53.
    for n in [54u32, 55] {
        let root = root_modulo(rest, n);
        // With a root modulo 2^n, its negative and both plus 2^(n-1) are roots.
        let half = 1u64 << (n - 1);
        for y in [
            root,
            root.wrapping_neg(),
            root + half,
            half.wrapping_sub(root),
        ] {
            let y = i128::from(y % (1 << 54));
            let square = y * y - i128::from(rest);
            let x = square >> n;
            if (1 << 52..1 << 53).contains(&x) && x << n == square {
                found.push(x as f64 * power_of_two(n as i32));
            }
        }
    }
    found
}

/// A root of `a` modulo 2^n for n up to 55; `a` is 1 modulo 8. Newton's step for 1 / root takes k
/// right bits to 2 k - 2, and 1 has three.
fn root_modulo(a: i64, n: u32) -> u64 {
    let a = i128::from(a);
    let mut inverse = 1i128;
    for _ in 0..6 {
        let rest = 3i128.wrapping_sub(a.wrapping_mul(inverse).wrapping_mul(inverse));
        inverse = inverse.wrapping_mul(rest) >> 1;
        inverse &= (1 << 64) - 1;
    }
    a.wrapping_mul(inverse) as u64 & ((1 << n) - 1)
}

/// Dividends close to a multiple of the divisor, where the remainder jumps.
pub fn near_multiples(seed: u64) -> Vec<Family<Pair>> {
    let r = &mut SplitMix64::new(seed);
    let turns = with_neighbours((-25_000..=25_000).map(|k| f64::from(k) * TAU), 3);
    let either_way = |x: f64| [(x, TAU), (x, -TAU)];
    vec![
        Family::new(
            "multiples of 2 pi, 3 neighbours on each side, by 2 pi and -2 pi",
            turns.into_iter().flat_map(either_way).collect(),
        ),
        Family::new(
            "multiples of any float, up to 2 floats beside them",
            some(300_000, || near_multiple(r)),
        ),
        Family::new(
            "angles from -200 to 200, by 2 pi",
            some(300_000, || (r.between(-200.0, 200.0), TAU)),
        ),
        Family::new(
            "coordinates up to 1e6, by 2 pi",
            some(100_000, || (r.between(-1e6, 1e6), TAU)),
        ),
        Family::new(
            "tiny and negative, by 2 pi",
            some(100_000, || (-floats::scaled(r, -1022, -40).abs(), TAU)),
        ),
        Family::new(
            "subnormal, by 2 pi",
            some(100_000, || (floats::subnormal(r), TAU)),
        ),
    ]
}

fn near_multiple(r: &mut SplitMix64) -> Pair {
    let y = floats::scaled(r, -300, 300);
    let k = r.whole(-(1 << 53), 1 << 53) >> r.below(53);
    (step(k as f64 * y, r.whole(-2, 2)), y)
}

/// A number and its bounds. Rust's clamp panics unless lo <= hi, so only such bounds are made.
pub fn bounds(seed: u64, pairs: &[Family<Pair>]) -> Vec<Family<(f64, f64, f64)>> {
    let r = &mut SplitMix64::new(seed);
    let special = floats::special();
    let special_bounds: Vec<Pair> = floats::square(&special)
        .into_iter()
        .filter_map(sorted)
        .collect();
    let all_bounds: Vec<Pair> = floats::all(pairs).into_iter().filter_map(sorted).collect();
    let of_special = |&x: &f64| special_bounds.iter().map(move |&(lo, hi)| (x, lo, hi));
    let mut beside = |&(lo, hi): &Pair| (step(r.pick(&[lo, hi]), r.whole(-2, 2)), lo, hi);
    let near = all_bounds.iter().map(&mut beside).collect();
    let mut any = |&(lo, hi): &Pair| (floats::any(r), lo, hi);
    let anywhere = all_bounds.iter().map(&mut any).collect();
    vec![
        Family::new(
            "all triples of special values",
            special.iter().flat_map(of_special).collect(),
        ),
        Family::new("a bound, or up to 2 floats beside it", near),
        Family::new("random bit patterns", anywhere),
    ]
}

fn sorted((a, b): Pair) -> Option<Pair> {
    if a <= b {
        Some((a, b))
    } else if b <= a {
        Some((b, a))
    } else {
        None
    }
}
