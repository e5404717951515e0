//! What a site is asked: boxes, points and rays, each of many kinds. The kinds are taken in turn, so
//! that each site meets all of them. No number is a NaN, but for the lengths that say so.

use super::sites::Site;
use crate::probe::Ray;
use crate::util::bits::step;
use crate::util::rng::SplitMix64;

type Point = (f64, f64);

/// Kinds of boxes, points and rays.
pub const BOXES: usize = 14;
pub const POINTS: usize = 12;
pub const RAYS: usize = 14;

/// On the border before some column or up to 2 floats beside it. The grid's ends are among them.
fn border(r: &mut SplitMix64, origin: f64, cell: f64, n: u32) -> f64 {
    let k = r.whole(-1, i64::from(n) + 1);
    let k = r.pick(&[k, k, k, 0, i64::from(n)]);
    step(origin + k as f64 * cell, r.pick(&[0, 0, 0, -1, 1, -2, 2]))
}

fn corner(r: &mut SplitMix64, site: &Site) -> Point {
    let g = &site.grid;
    (
        border(r, g.origin.0, g.cell, g.cols),
        border(r, g.origin.1, g.cell, g.rows),
    )
}

/// The grid's own ends, which may lie past those of the bounds.
fn far_end(site: &Site) -> Point {
    let g = &site.grid;
    (
        g.origin.0 + f64::from(g.cols) * g.cell,
        g.origin.1 + f64::from(g.rows) * g.cell,
    )
}

/// Anywhere from `lo` to `hi` of the grid's width and height.
fn anywhere(r: &mut SplitMix64, site: &Site, lo: f64, hi: f64) -> Point {
    let (near, far) = (site.grid.origin, far_end(site));
    (
        near.0 + (far.0 - near.0) * r.between(lo, hi),
        near.1 + (far.1 - near.1) * r.between(lo, hi),
    )
}

fn inside(r: &mut SplitMix64, site: &Site) -> Point {
    anywhere(r, site, 0.0, 1.0)
}

fn around(p: Point, w: f64, h: f64) -> [f64; 4] {
    [p.0 - w, p.1 - h, p.0 + w, p.1 + h]
}

fn between(a: Point, b: Point) -> [f64; 4] {
    [a.0.min(b.0), a.1.min(b.1), a.0.max(b.0), a.1.max(b.1)]
}

/// A polygon's box, or a corner's where there is no polygon.
fn owned(r: &mut SplitMix64, site: &Site) -> [f64; 4] {
    if site.polygons() == 0 {
        return between(corner(r, site), corner(r, site));
    }
    let i = 4 * r.below(site.polygons() as u64) as usize;
    std::array::from_fn(|k| site.boxes[i + k])
}

pub fn asked_box(r: &mut SplitMix64, site: &Site, kind: usize) -> [f64; 4] {
    let (cell, huge) = (site.grid.cell, r.pick(&[1e6, f64::INFINITY]));
    let (near, far) = (site.grid.origin, far_end(site));
    match kind {
        0 => between(inside(r, site), inside(r, site)),
        1 => owned(r, site),
        2 => between(corner(r, site), corner(r, site)),
        3 => [near.0, near.1, far.0, far.1],
        4 => {
            let lo = r.pick(&[-0.5, 1.0]);
            between(anywhere(r, site, 1.0, 3.0), anywhere(r, site, lo, 3.0))
        }
        5 => between(anywhere(r, site, -3.0, -0.01), anywhere(r, site, -3.0, 0.0)),
        // Turned: its first corner past its last, in one direction or in both.
        6 => {
            let [x0, y0, x1, y1] = between(inside(r, site), corner(r, site));
            r.pick(&[[x1, y0, x0, y1], [x0, y1, x1, y0], [x1, y1, x0, y0]])
        }
        7 => [
            f64::INFINITY,
            f64::INFINITY,
            f64::NEG_INFINITY,
            f64::NEG_INFINITY,
        ],
        8 => {
            let p = corner(r, site);
            [p.0, p.1, p.0, p.1]
        }
        9 => {
            let p = inside(r, site);
            [p.0, p.1, p.0, p.1]
        }
        10 => around(
            anywhere(r, site, -0.1, 1.1),
            cell * r.unit(),
            cell * r.unit(),
        ),
        11 => [-huge, -huge, huge, huge],
        12 => {
            let (p, s) = (corner(r, site), r.pick(&[1.0, 2.0, 0.5]) * cell);
            [p.0, p.1, p.0 + s, p.1 + s]
        }
        // One line of cells, whole or cut off.
        _ => {
            let p = corner(r, site);
            r.pick(&[
                [-huge, p.1, huge, p.1],
                [p.0, -huge, p.0, huge],
                [p.0, p.1, huge, p.1],
                [-huge, p.1, p.0, huge],
            ])
        }
    }
}

pub fn asked_point(r: &mut SplitMix64, site: &Site, kind: usize) -> Point {
    let [x0, y0, x1, y1] = owned(r, site);
    let (near, far) = (site.grid.origin, far_end(site));
    match kind {
        0..4 => corner(r, site),
        4 => (corner(r, site).0, inside(r, site).1),
        5 => (inside(r, site).0, corner(r, site).1),
        6 => r.pick(&[near, far, (near.0, far.1), (far.0, near.1)]),
        7 => anywhere(r, site, -2.0, 3.0),
        8 => r.pick(&[(x0, y0), (x1, y1), (x0, y1), (x1, y0)]),
        9 => (r.pick(&[-1e6, 1e6]), inside(r, site).1),
        10 => (inside(r, site).0, step(far.1, r.whole(-2, 2))),
        _ => inside(r, site),
    }
}

fn direction(r: &mut SplitMix64) -> Point {
    (r.between(-1.0, 1.0), r.between(-1.0, 1.0))
}

fn to(a: Point, b: Point) -> Point {
    (b.0 - a.0, b.1 - a.1)
}

/// Of either sign. The Rust takes a direction of less than 1e-300 for none, but not everywhere.
fn tiny(r: &mut SplitMix64) -> f64 {
    let size = r.pick(&[
        0.0,
        f64::from_bits(1),
        1e-320,
        f64::MIN_POSITIVE,
        1e-301,
        step(1e-300, -1),
        1e-300,
        step(1e-300, 1),
        1e-299,
    ]);
    r.sign() * size
}

fn axis(r: &mut SplitMix64) -> Point {
    let d = r.sign() * r.pick(&[1.0, 0.5, 1e6]);
    let zero = r.pick(&[0.0, 0.0, -0.0]);
    r.pick(&[(d, zero), (zero, d)])
}

fn length(r: &mut SplitMix64, site: &Site) -> f64 {
    let (near, far) = (site.grid.origin, far_end(site));
    let whole = (far.0 - near.0) + (far.1 - near.1);
    let part = whole * r.unit();
    r.pick(&[part, whole, site.grid.cell, f64::INFINITY, 1e6])
}

pub fn asked_ray(r: &mut SplitMix64, site: &Site, kind: usize) -> Ray {
    let (origin, direction) = match kind {
        0 => (inside(r, site), direction(r)),
        1 => {
            let (from, at) = (anywhere(r, site, -2.0, 3.0), inside(r, site));
            (from, to(from, at))
        }
        2 => (corner(r, site), axis(r)),
        3 => {
            let diagonals = [(1.0, 1.0), (-1.0, 1.0), (1.0, -1.0), (-1.0, -1.0)];
            (corner(r, site), r.pick(&diagonals))
        }
        4 => (inside(r, site), axis(r)),
        5 => {
            let zero = r.pick(&[(0.0, 0.0), (-0.0, 0.0), (0.0, -0.0)]);
            let (within, on) = (inside(r, site), corner(r, site));
            (r.pick(&[within, on]), zero)
        }
        6 => (inside(r, site), (tiny(r), tiny(r))),
        7 => {
            let (p, d, t) = (corner(r, site), direction(r), tiny(r));
            (p, r.pick(&[(t, d.1), (d.0, t)]))
        }
        8 => {
            let (from, at) = (corner(r, site), corner(r, site));
            (from, to(from, at))
        }
        9 => (anywhere(r, site, 1.0, 3.0), direction(r)),
        10 => {
            let d = direction(r);
            (inside(r, site), (d.0 * 1e6, d.1 * 1e6))
        }
        11 => {
            let (a, b) = (owned(r, site), owned(r, site));
            let (from, at) = ((a[0], a[1]), (b[2], b[3]));
            let known = [from.0, from.1, at.0, at.1].iter().all(|x| x.is_finite());
            if known {
                (from, to(from, at))
            } else {
                (inside(r, site), direction(r))
            }
        }
        // Along the grid's own ends.
        12 => {
            let (near, far) = (site.grid.origin, far_end(site));
            let p = r.pick(&[near, far, (near.0, far.1), (far.0, near.1)]);
            (p, axis(r))
        }
        _ => {
            let (p, d) = (inside(r, site), direction(r));
            let n = (d.0 * d.0 + d.1 * d.1).sqrt().max(0.01);
            (p, (d.0 / n, d.1 / n))
        }
    };
    let long = length(r, site);
    let short = r.pick(&[0.0, -0.0, -1.0, f64::NEG_INFINITY, 1e-300]);
    Ray {
        origin,
        direction,
        length: r.pick(&[long, long, long, f64::INFINITY, short]),
    }
}

/// Of no length, which document 01 leaves out: here the Rust may walk without end.
pub fn nan_ray(r: &mut SplitMix64, site: &Site) -> Ray {
    let kind = r.pick(&[0, 4, 5, 5, 6, 6, 7]);
    Ray {
        length: f64::NAN,
        ..asked_ray(r, site, kind)
    }
}
