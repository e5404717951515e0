//! Timings of `geom`. The Rust's function is called by its own types, and behind one call as ours is:
//! the compiler is not told which it is. Ours needs no such box, being foreign.

use super::inputs::{Point, flat, near, on_circle, point};
use crate::util::floats::some;
use crate::util::rng::SplitMix64;
use crate::util::timing::{Bench, INPUTS, Input, Limit, waiting};
use plain::Vec2;
use std::f64::consts::TAU;
use std::hint::black_box;

type Ray = [f64; 8];
type Disk = [f64; 7];
type Two = [f64; 4];

fn v(x: f64, y: f64) -> Vec2 {
    Vec2::new(x, y)
}

fn folded(told: bool, numbers: &[f64]) -> u64 {
    let bits = numbers.iter().map(|x| x.to_bits());
    bits.fold(u64::from(told), |all, b| all ^ b)
}

pub fn bench(table: &mut Bench) {
    let r = &mut SplitMix64::new(801);
    ray_segment(table, r);
    polygons(table, r);
    clip_segment_to_disk(table, r);
    vectors(table, r);
}

/// Unit directions and short edges round about. The places of the edge that are met lie up to `over`
/// of its length beyond its ends, where they are misses.
fn ray(r: &mut SplitMix64, over: f64) -> Ray {
    let (o, d) = (point(r, near), on_circle(r.between(-0.999, 0.999)));
    let t = r.between(1.0, 100.0);
    let meet = (o.0 + d.0 * t, o.1 + d.1 * t);
    let e = (r.between(-30.0, 30.0), r.between(-30.0, 30.0));
    let u = r.between(-over, 1.0 + over);
    let a = (meet.0 - e.0 * u, meet.1 - e.1 * u);
    [o.0, o.1, d.0, d.1, a.0, a.1, a.0 + e.0, a.1 + e.1]
}

/// Where hits cannot be foretold, a jump costs more than the arithmetic: so there are two rows.
fn ray_segment(table: &mut Bench, r: &mut SplitMix64) {
    let ours = |[ox, oy, dx, dy, ax, ay, bx, by]: Ray| {
        let mut t = 0.0;
        let hit = ffi::bf_ray_segment(ox, oy, dx, dy, ax, ay, bx, by, &mut t);
        folded(hit == 1, &[t])
    };
    let told = |t: Option<f64>| folded(t.is_some(), &[t.unwrap_or(0.0)]);
    let called = black_box(plain::ray_segment as fn(_, _, _, _) -> _);
    let rust = move |[ox, oy, dx, dy, ax, ay, bx, by]: Ray| {
        told(called(v(ox, oy), v(dx, dy), v(ax, ay), v(bx, by)))
    };
    let inlined = move |[ox, oy, dx, dy, ax, ay, bx, by]: Ray| {
        let (o, d) = (v(ox, oy), v(dx, dy));
        told(plain::ray_segment(o, d, v(ax, ay), v(bx, by)))
    };
    let hits = some(INPUTS, || ray(r, 0.0));
    let halves = some(INPUTS, || ray(r, 0.5));
    table.add("`ray_segment`, all hits", Limit::None, &hits, ours, rust);
    table.add(
        "`ray_segment`, half of them misses",
        Limit::None,
        &halves,
        ours,
        rust,
    );
    table.add(
        "`ray_segment`, all hits, Rust's inlined",
        Limit::None,
        &hits,
        ours,
        inlined,
    );
}

/// A point and a polygon as either side has it.
#[derive(Clone, Copy)]
struct Asked<'a> {
    point: Point,
    ours: &'a [f64],
    rust: &'a [Vec2],
}

impl Input for Asked<'_> {
    fn waiting(self, zero: u64) -> Self {
        Self {
            point: (waiting(self.point.0, zero), self.point.1),
            ours: &self.ours[zero as usize..],
            rust: &self.rust[zero as usize..],
        }
    }
}

/// Polygons enough for variety and few enough for the cache.
const POLYGONS: usize = 128;
const CORNERS: usize = 8;

/// Corners in order round a centre, at distances from 10 to 20.
fn polygon(r: &mut SplitMix64) -> Vec<Point> {
    let centre = point(r, near);
    let corner = |i: usize| {
        let (x, y) = on_circle((i as f64 + r.unit()) * 2.0 / CORNERS as f64 - 1.0);
        let d = r.between(10.0, 20.0);
        (centre.0 + x * d, centre.1 + y * d)
    };
    (0..CORNERS).map(corner).collect()
}

fn polygons(table: &mut Bench, r: &mut SplitMix64) {
    let rings = some(POLYGONS, || polygon(r));
    let numbers: Vec<Vec<f64>> = rings.iter().map(|p| flat(p)).collect();
    let as_rust = |p: &Vec<Point>| p.iter().map(|&(x, y)| v(x, y)).collect();
    let vectors: Vec<Vec<Vec2>> = rings.iter().map(as_rust).collect();
    let asked = some(INPUTS, || {
        let i = r.below(POLYGONS as u64) as usize;
        let (x, y) = rings[i][0];
        Asked {
            point: (x + r.between(-30.0, 30.0), y + r.between(-30.0, 30.0)),
            ours: &numbers[i],
            rust: &vectors[i],
        }
    });

    let rust = black_box(plain::point_in_polygon as fn(_, &[Vec2]) -> _);
    table.add(
        "`point_in_polygon`, 8 corners",
        Limit::None,
        &asked,
        |a| u64::from(ffi::point_in_polygon(a.point.0, a.point.1, a.ours)),
        |a| u64::from(rust(v(a.point.0, a.point.1), a.rust)),
    );

    let rust = black_box(plain::signed_area as fn(&[Vec2]) -> f64);
    table.add(
        "`signed_area`, 8 corners",
        Limit::None,
        &asked,
        |a| ffi::signed_area(a.ours).to_bits(),
        |a| rust(a.rust).to_bits(),
    );
}

fn clip_segment_to_disk(table: &mut Bench, r: &mut SplitMix64) {
    // The greatest distance is some 280, so about half of the segments are clipped.
    let disks: Vec<Disk> = some(INPUTS, || {
        let [a, b, c] = [0; 3].map(|_| point(r, near));
        [a.0, a.1, b.0, b.1, c.0, c.1, r.between(20.0, 120.0)]
    });
    let ours = |[ax, ay, bx, by, cx, cy, radius]: Disk| {
        let mut out = [0.0; 2];
        let part = ffi::bf_clip_segment_to_disk(ax, ay, bx, by, cx, cy, radius, &mut out);
        folded(part == 1, &out)
    };
    let called = black_box(plain::clip_segment_to_disk as fn(_, _, _, _) -> _);
    let rust = move |[ax, ay, bx, by, cx, cy, radius]: Disk| {
        let part: Option<Point> = called(v(ax, ay), v(bx, by), v(cx, cy), radius);
        let (t0, t1) = part.unwrap_or((0.0, 0.0));
        folded(part.is_some(), &[t0, t1])
    };
    table.add("`clip_segment_to_disk`", Limit::None, &disks, ours, rust);
}

fn vectors(table: &mut Bench, r: &mut SplitMix64) {
    let pairs: Vec<Two> = some(INPUTS, || [0; 4].map(|_| near(r)));
    let ours = |[ax, ay, bx, by]: Two| ffi::bf_vec2_distance(ax, ay, bx, by).to_bits();
    let called = black_box(Vec2::distance as fn(_, _) -> f64);
    let rust = move |[ax, ay, bx, by]: Two| called(v(ax, ay), v(bx, by)).to_bits();
    let inlined = |[ax, ay, bx, by]: Two| v(ax, ay).distance(v(bx, by)).to_bits();
    table.add("`distance`", Limit::None, &pairs, ours, rust);
    table.add(
        "`distance`, Rust's inlined",
        Limit::None,
        &pairs,
        ours,
        inlined,
    );

    let angles: Vec<[f64; 1]> = some(INPUTS, || [r.between(-TAU, TAU)]);
    let ours = |[angle]: [f64; 1]| {
        let mut out = [0.0; 2];
        ffi::bf_vec2_from_angle(angle, &mut out);
        folded(false, &out)
    };
    let called = black_box(Vec2::from_angle as fn(_) -> Vec2);
    let rust = move |[angle]: [f64; 1]| {
        let p = called(angle);
        folded(false, &[p.x, p.y])
    };
    table.add(
        "`from_angle`, -2 pi to 2 pi",
        Limit::None,
        &angles,
        ours,
        rust,
    );
}
