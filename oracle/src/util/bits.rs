//! Floats as bit patterns: equality, neighbours and distance.

/// Where a float stands in the order of all floats. Both zeros stand at 0.
fn place(x: f64) -> i64 {
    let b = x.to_bits() as i64;
    if b < 0 { i64::MIN - b } else { b }
}

/// The float `steps` places after `x`. Stops at the infinities; a NaN stays as it is.
pub fn step(x: f64, steps: i64) -> f64 {
    if x.is_nan() {
        return x;
    }
    let end = place(f64::INFINITY);
    let p = place(x).saturating_add(steps).clamp(-end, end);
    if p < 0 {
        -f64::from_bits(p.unsigned_abs())
    } else {
        f64::from_bits(p as u64)
    }
}

/// How many floats lie from `a` to `b`, one end counted.
pub fn ulps(a: f64, b: f64) -> u64 {
    place(a).abs_diff(place(b))
}

/// Bit for bit, but the sign of zero does not count (adding 0.0 takes -0 to +0), and a NaN
/// equals a NaN: the logic has one NaN only.
pub fn same(a: f64, b: f64) -> bool {
    (a.is_nan() && b.is_nan()) || (a + 0.0).to_bits() == (b + 0.0).to_bits()
}

/// The shortest decimal that reads back as `x`, with a plain NaN.
pub fn show(x: f64) -> String {
    let size = x.abs();
    if x != 0.0 && x.is_finite() && !(1e-5..1e15).contains(&size) {
        format!("{x:e}")
    } else {
        format!("{x:?}")
    }
}
