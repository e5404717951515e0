//! The proved functions, as crate `exports` hands them to C (crates/exports/src/lib.rt).
//!
//! Nothing checks these declarations against the Rattle source: keep the two side by side.
//! A function may be declared `safe` here only if its contract has no `requires`, so that every
//! number is allowed. A `&mut f64` of Rattle is a pointer in C, and a `&mut f64` here.
//!
//! This is a crate of its own, because both the comparison and the altered Rust call it.

#[link(name = "exports", kind = "static")]
unsafe extern "C" {
    // num
    pub safe fn bf_floor(x: f64) -> f64;
    pub safe fn bf_ceil(x: f64) -> f64;
    pub safe fn bf_abs(x: f64) -> f64;
    /// 0 or 1.
    pub safe fn bf_is_nan(x: f64) -> u32;
    pub safe fn bf_min(x: f64, y: f64) -> f64;
    pub safe fn bf_max(x: f64, y: f64) -> f64;
    pub safe fn bf_clamp(x: f64, lo: f64, hi: f64) -> f64;
    pub safe fn bf_to_u64(x: f64) -> u64;
    pub safe fn bf_to_i64(x: f64) -> i64;
    /// 0 less, 1 equal, 2 greater.
    pub safe fn bf_total_cmp(x: f64, y: f64) -> u32;
    pub safe fn bf_rem_euclid(x: f64, y: f64) -> f64;
    pub safe fn bf_sqrt(x: f64) -> f64;

    // angle
    pub safe fn bf_sin(x: f64) -> f64;
    pub safe fn bf_cos(x: f64) -> f64;
    pub safe fn bf_sin_cos(x: f64, sin: &mut f64, cos: &mut f64);
    pub safe fn bf_atan2(y: f64, x: f64) -> f64;
    pub safe fn bf_acos(x: f64) -> f64;

    // rng: the state goes in as a number, and the state after the draw is left in `next`
    pub safe fn bf_rng_next_u64(state: u64, next: &mut u64) -> u64;
    pub safe fn bf_rng_next_f64(state: u64, next: &mut u64) -> f64;
    pub safe fn bf_rng_range(state: u64, lo: u64, hi: u64, next: &mut u64) -> u64;

    // geom: a vector is two numbers; a box is four, its smallest corner first; a list of points is
    // numbers, x and y by turns. A `u32` is 1 for yes and 0 for no, and on a no the outputs are 0.0.
    pub safe fn bf_vec2_from_angle(angle: f64, out: &mut [f64; 2]);
    pub safe fn bf_vec2_dot(ax: f64, ay: f64, bx: f64, by: f64) -> f64;
    pub safe fn bf_vec2_cross(ax: f64, ay: f64, bx: f64, by: f64) -> f64;
    pub safe fn bf_vec2_length_sq(x: f64, y: f64) -> f64;
    pub safe fn bf_vec2_length(x: f64, y: f64) -> f64;
    pub safe fn bf_vec2_distance(ax: f64, ay: f64, bx: f64, by: f64) -> f64;
    pub safe fn bf_vec2_distance_sq(ax: f64, ay: f64, bx: f64, by: f64) -> f64;
    pub safe fn bf_vec2_angle(x: f64, y: f64) -> f64;
    pub safe fn bf_vec2_lerp(ax: f64, ay: f64, bx: f64, by: f64, t: f64, out: &mut [f64; 2]);
    pub safe fn bf_vec2_add(ax: f64, ay: f64, bx: f64, by: f64, out: &mut [f64; 2]);
    pub safe fn bf_vec2_sub(ax: f64, ay: f64, bx: f64, by: f64, out: &mut [f64; 2]);
    pub safe fn bf_vec2_mul(x: f64, y: f64, s: f64, out: &mut [f64; 2]);
    pub safe fn bf_vec2_neg(x: f64, y: f64, out: &mut [f64; 2]);

    fn bf_aabb_from_points(points: *const f64, len: usize, out: &mut [f64; 4]);
    pub safe fn bf_aabb_around(cx: f64, cy: f64, radius: f64, out: &mut [f64; 4]);
    pub safe fn bf_aabb_include(b: &[f64; 4], x: f64, y: f64, out: &mut [f64; 4]);
    pub safe fn bf_aabb_union(a: &[f64; 4], b: &[f64; 4], out: &mut [f64; 4]);
    pub safe fn bf_aabb_is_empty(b: &[f64; 4]) -> u32;
    pub safe fn bf_aabb_contains(b: &[f64; 4], x: f64, y: f64) -> u32;
    pub safe fn bf_aabb_intersects(a: &[f64; 4], b: &[f64; 4]) -> u32;
    pub safe fn bf_aabb_distance_sq_to(b: &[f64; 4], x: f64, y: f64) -> f64;
    pub safe fn bf_aabb_width(b: &[f64; 4]) -> f64;
    pub safe fn bf_aabb_height(b: &[f64; 4]) -> f64;

    pub safe fn bf_normalize_angle(a: f64) -> f64;
    pub safe fn bf_ray_segment(
        ox: f64,
        oy: f64,
        dx: f64,
        dy: f64,
        ax: f64,
        ay: f64,
        bx: f64,
        by: f64,
        t: &mut f64,
    ) -> u32;
    pub safe fn bf_segment_intersection(
        p1x: f64,
        p1y: f64,
        p2x: f64,
        p2y: f64,
        p3x: f64,
        p3y: f64,
        p4x: f64,
        p4y: f64,
        out: &mut [f64; 2],
    ) -> u32;
    pub safe fn bf_segments_intersect(
        p1x: f64,
        p1y: f64,
        p2x: f64,
        p2y: f64,
        p3x: f64,
        p3y: f64,
        p4x: f64,
        p4y: f64,
    ) -> u32;
    pub safe fn bf_clip_segment_to_disk(
        ax: f64,
        ay: f64,
        bx: f64,
        by: f64,
        cx: f64,
        cy: f64,
        radius: f64,
        out: &mut [f64; 2],
    ) -> u32;
    /// Bit 0: the first point is met. Bit 1: the second. A missing point is (0, 0).
    pub safe fn bf_segment_circle_points(
        ax: f64,
        ay: f64,
        bx: f64,
        by: f64,
        cx: f64,
        cy: f64,
        radius: f64,
        out: &mut [f64; 4],
    ) -> u32;
    pub safe fn bf_point_segment_distance(
        px: f64,
        py: f64,
        ax: f64,
        ay: f64,
        bx: f64,
        by: f64,
    ) -> f64;
    fn bf_point_in_polygon(px: f64, py: f64, points: *const f64, len: usize) -> u32;
    fn bf_signed_area(points: *const f64, len: usize) -> f64;
}

/// Sine and cosine from the one call.
#[inline]
pub fn sin_cos(x: f64) -> (f64, f64) {
    let (mut sin, mut cos) = (0.0, 0.0);
    bf_sin_cos(x, &mut sin, &mut cos);
    (sin, cos)
}

/// The box around some points.
#[inline]
pub fn aabb_from_points(points: &[f64], out: &mut [f64; 4]) {
    // SAFETY: pointer and length are those of one slice, which outlives the call.
    unsafe { bf_aabb_from_points(points.as_ptr(), points.len(), out) }
}

#[inline]
pub fn point_in_polygon(px: f64, py: f64, points: &[f64]) -> u32 {
    // SAFETY: as above.
    unsafe { bf_point_in_polygon(px, py, points.as_ptr(), points.len()) }
}

#[inline]
pub fn signed_area(points: &[f64]) -> f64 {
    // SAFETY: as above.
    unsafe { bf_signed_area(points.as_ptr(), points.len()) }
}
