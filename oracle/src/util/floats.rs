//! Ugly floats: the inputs of the comparisons, in named families.

use super::bits::step;
use super::rng::SplitMix64;
use super::table::{Table, count};

/// Inputs of one kind. The name goes into the printed list.
pub struct Family<T> {
    pub what: &'static str,
    pub values: Vec<T>,
}

impl<T> Family<T> {
    pub fn new(what: &'static str, values: Vec<T>) -> Self {
        Self { what, values }
    }
}

/// All the values of some families, one after the other.
pub fn all<T: Copy>(families: &[Family<T>]) -> Vec<T> {
    families.iter().flat_map(|f| f.values.clone()).collect()
}

/// Prints what the inputs are made of.
pub fn print<T>(title: &str, families: &[Family<T>]) {
    let mut table = Table::new(&[title, "points"]);
    for f in families {
        table.row(vec![f.what.to_string(), count(f.values.len() as u64)]);
    }
    table.print();
}

/// `n` values of one generator.
pub fn some<T>(n: usize, mut make: impl FnMut() -> T) -> Vec<T> {
    (0..n).map(|_| make()).collect()
}

/// Each value with the `reach` floats on either side of it.
pub fn with_neighbours(values: impl IntoIterator<Item = f64>, reach: i64) -> Vec<f64> {
    values
        .into_iter()
        .flat_map(|x| (-reach..=reach).map(move |d| step(x, d)))
        .collect()
}

/// Two to the power `e`, also where it is subnormal.
pub fn power_of_two(e: i32) -> f64 {
    match e {
        -1074..=-1023 => f64::from_bits(1 << (e + 1074)),
        -1022..=1023 => f64::from_bits(((e + 1023) as u64) << 52),
        _ => panic!("no float is two to the power {e}"),
    }
}

/// Both signs of the values at which float code breaks.
pub fn special() -> Vec<f64> {
    let sizes = [
        0.0,
        f64::from_bits(1),
        f64::from_bits(2),
        f64::from_bits(0x000F_FFFF_FFFF_FFFF),
        f64::MIN_POSITIVE,
        step(f64::MIN_POSITIVE, 1),
        1e-300,
        1e-160,
        1e-12,
        1e-9,
        f64::EPSILON,
        0.1,
        0.49999999999999994,
        0.5,
        0.9999999999999999,
        1.0,
        1.0000000000000002,
        1.5,
        2.0,
        2.5,
        std::f64::consts::FRAC_PI_4,
        std::f64::consts::FRAC_PI_2,
        std::f64::consts::PI,
        std::f64::consts::TAU,
        1e6,
        2e6,
        4503599627370495.5,
        4503599627370496.0,
        9007199254740991.0,
        9007199254740992.0,
        9223372036854774784.0,
        9223372036854775808.0,
        18446744073709549568.0,
        18446744073709551616.0,
        1e300,
        f64::MAX,
        f64::INFINITY,
    ];
    // A quiet NaN, a signalling one, and the greatest payload.
    let nans = [0x7FF8_0000_0000_0000, 0x7FF0_0000_0000_0001, u64::MAX >> 1];
    let sizes = sizes.into_iter().chain(nans.map(f64::from_bits));
    sizes.flat_map(|x| [x, -x]).collect()
}

/// Any bit pattern at all.
pub fn any(r: &mut SplitMix64) -> f64 {
    f64::from_bits(r.bits())
}

/// A NaN of either sign and any payload. All must be answered alike.
pub fn nan(r: &mut SplitMix64) -> f64 {
    let (sign, payload) = (r.below(2) << 63, 1 + r.below((1 << 52) - 1));
    f64::from_bits(sign | 0x7FF0_0000_0000_0000 | payload)
}

pub fn subnormal(r: &mut SplitMix64) -> f64 {
    // Few bits as well as many.
    let bits = (r.bits() >> 12) >> r.below(52);
    r.sign() * f64::from_bits(bits)
}

/// A random fraction under a power of two from `lo` to `hi`.
pub fn scaled(r: &mut SplitMix64, lo: i32, hi: i32) -> f64 {
    let e = r.whole(i64::from(lo), i64::from(hi)) as i32;
    r.sign() * (1.0 + r.unit()) * power_of_two(e)
}

/// A decimal of at most six places, as a person or a file writes a coordinate: -1e6 to 1e6.
pub fn decimal(r: &mut SplitMix64) -> f64 {
    let scale = 10f64.powi(r.below(7) as i32);
    let reach = (1e6 * scale) as i64;
    r.whole(-reach, reach) as f64 / scale
}

fn powers_of_two() -> Vec<f64> {
    let powers = (-1074..=1023).flat_map(|e| [power_of_two(e), -power_of_two(e)]);
    with_neighbours(powers, 4)
}

fn wholes_and_halves(r: &mut SplitMix64) -> Vec<f64> {
    let small = (-20_000..=20_000).map(|k| f64::from(k) * 0.5);
    let large = some(20_000, || {
        let k = r.below(1 << 53) >> r.below(52);
        r.sign() * k as f64 * 0.5
    });
    with_neighbours(small.chain(large), 2)
}

fn around_the_edges() -> Vec<f64> {
    let edges = [52, 53, 63, 64].map(power_of_two);
    with_neighbours(edges.into_iter().flat_map(|x| [x, -x]), 5_000)
}

/// More than a million floats for a function of one float.
pub fn singles(seed: u64) -> Vec<Family<f64>> {
    let r = &mut SplitMix64::new(seed);
    vec![
        Family::new("special values, infinities and NaNs among them", special()),
        Family::new(
            "powers of two and 4 neighbours on each side",
            powers_of_two(),
        ),
        Family::new(
            "wholes and halves, 2 neighbours on each side",
            wholes_and_halves(r),
        ),
        Family::new(
            "5,000 floats on each side of 2^52, 2^53, 2^63, 2^64",
            around_the_edges(),
        ),
        Family::new("decimals from -1e6 to 1e6", some(200_000, || decimal(r))),
        Family::new("subnormal", some(100_000, || subnormal(r))),
        Family::new(
            "tiny and negative",
            some(50_000, || -scaled(r, -1022, -40).abs()),
        ),
        Family::new(
            "sizes from 2^-70 to 2^70",
            some(300_000, || scaled(r, -70, 70)),
        ),
        Family::new("NaNs of any payload", some(20_000, || nan(r))),
        Family::new("random bit patterns", some(300_000, || any(r))),
    ]
}

/// All pairs of some values.
pub fn square(values: &[f64]) -> Vec<(f64, f64)> {
    let row = |x: f64| values.iter().map(move |&y| (x, y));
    values.iter().flat_map(|&x| row(x)).collect()
}

fn near_equal(r: &mut SplitMix64) -> (f64, f64) {
    let x = any(r);
    (x, step(x, r.whole(-3, 3)))
}

fn same_exponent(r: &mut SplitMix64) -> (f64, f64) {
    let exponent = r.bits() & (0x7FF << 52);
    let mut one = || f64::from_bits(exponent | (r.bits() & !(0x7FF << 52)));
    (one(), one())
}

fn one_special(r: &mut SplitMix64, special: &[f64]) -> (f64, f64) {
    let (x, y) = (r.pick(special), any(r));
    if r.bits() & 1 == 0 { (x, y) } else { (y, x) }
}

/// A NaN on one side or both.
fn with_nan(r: &mut SplitMix64) -> (f64, f64) {
    let (x, y, z) = (nan(r), nan(r), any(r));
    r.pick(&[(x, y), (x, z), (z, x)])
}

/// More than a million pairs for a function of two floats.
pub fn pairs(seed: u64) -> Vec<Family<(f64, f64)>> {
    let r = &mut SplitMix64::new(seed);
    let special = special();
    vec![
        Family::new("all pairs of special values", square(&special)),
        Family::new(
            "one special value",
            some(150_000, || one_special(r, &special)),
        ),
        Family::new(
            "equal or up to 3 floats apart",
            some(200_000, || near_equal(r)),
        ),
        Family::new("the same exponent", some(200_000, || same_exponent(r))),
        Family::new(
            "decimals from -1e6 to 1e6",
            some(200_000, || (decimal(r), decimal(r))),
        ),
        Family::new("subnormal", some(100_000, || (subnormal(r), subnormal(r)))),
        Family::new(
            "sizes from 2^-70 to 2^70",
            some(200_000, || (scaled(r, -70, 70), scaled(r, -70, 70))),
        ),
        Family::new("with NaNs of any payload", some(30_000, || with_nan(r))),
        Family::new("random bit patterns", some(300_000, || (any(r), any(r)))),
    ]
}
