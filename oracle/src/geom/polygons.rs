//! Rings of 0 to 12 points, alone or after a point that is asked about.

use super::inputs::{
    Group, Point, along, coordinate, each, end, flat, huge, jitter, lattice, near, on_circle,
    one_strange, point, strange_number, tiny,
};
use crate::util::bits::step;
use crate::util::floats;
use crate::util::rng::SplitMix64;

type Ring = Vec<Point>;

/// Corners: 0 to 12.
fn few(r: &mut SplitMix64) -> usize {
    r.below(13) as usize
}

/// A ring with corners taken anywhere: it crosses itself more often than not.
fn wild(r: &mut SplitMix64, one: fn(&mut SplitMix64) -> f64) -> Ring {
    (0..few(r)).map(|_| point(r, one)).collect()
}

/// Corners in order round a centre, either way, at one distance or at many: convex or concave.
fn star(r: &mut SplitMix64, reach: f64) -> Ring {
    let mut places: Vec<f64> = (0..few(r)).map(|_| r.between(-0.999, 0.999)).collect();
    places.sort_by(f64::total_cmp);
    if r.bits() & 1 == 0 {
        places.reverse();
    }
    let centre = (r.between(-reach, reach), r.between(-reach, reach));
    let concave = r.bits() & 1 == 0;
    let mut corner = |x: f64| {
        let d = if concave { r.between(0.1, 1.0) } else { 1.0 };
        let (x, y) = on_circle(x);
        (centre.0 + x * d * reach, centre.1 + y * d * reach)
    };
    places.into_iter().map(&mut corner).collect()
}

/// Some corners stand twice, or the first one again at the end.
fn repeating(r: &mut SplitMix64) -> Ring {
    let mut ring: Ring = (0..r.below(7)).map(|_| point(r, lattice)).collect();
    for _ in 0..r.below(6) {
        if ring.is_empty() {
            break;
        }
        let i = r.below(ring.len() as u64) as usize;
        let copy = ring[i];
        let at = r.pick(&[i, i, 0, ring.len()]);
        ring.insert(at, copy);
    }
    ring
}

fn on_one_line(r: &mut SplitMix64) -> Ring {
    let (a, b) = (point(r, lattice), point(r, lattice));
    let corner = |r: &mut SplitMix64| along(a, b, r.whole(-4, 4) as f64);
    (0..few(r)).map(|_| corner(r)).collect()
}

/// Stairs, combs and other shapes with sides along the axes.
fn square_cut(r: &mut SplitMix64) -> Ring {
    let mut ring = vec![point(r, lattice)];
    for i in 1..few(r).max(1) {
        let last = ring[i - 1];
        let next = if i % 2 == 0 {
            (lattice(r), last.1)
        } else {
            (last.0, lattice(r))
        };
        ring.push(next);
    }
    ring
}

fn some_ring(r: &mut SplitMix64) -> Ring {
    match r.below(6) {
        0 => wild(r, lattice),
        1 => wild(r, near),
        2 => star(r, 8.0),
        3 => repeating(r),
        4 => on_one_line(r),
        _ => square_cut(r),
    }
}

fn corner(r: &mut SplitMix64, ring: &Ring) -> usize {
    r.below(ring.len() as u64) as usize
}

/// A corner, or any point where there is none.
fn at_corner(r: &mut SplitMix64, ring: &Ring) -> Point {
    if ring.is_empty() {
        return point(r, lattice);
    }
    ring[corner(r, ring)]
}

/// On the edge after some corner: its middle, a quarter, or anywhere.
fn on_edge(r: &mut SplitMix64, ring: &Ring) -> Point {
    if ring.is_empty() {
        return point(r, lattice);
    }
    let i = corner(r, ring);
    let t = r.pick(&[0.5, 0.25, 0.75, 0.125]);
    let t = if r.bits() & 1 == 0 { t } else { r.unit() };
    along(ring[i], ring[(i + 1) % ring.len()], t)
}

/// Level with a corner, or straight above or below it.
fn level(r: &mut SplitMix64, ring: &Ring) -> Point {
    let (x, y) = at_corner(r, ring);
    if r.below(4) == 0 {
        (x, near(r))
    } else {
        (r.pick(&[x - 1.0, x + 1.0, -20.0, x * 0.5]), y)
    }
}

fn beside(r: &mut SplitMix64, p: Point) -> Point {
    (step(p.0, r.whole(-2, 2)), step(p.1, r.whole(-2, 2)))
}

/// The point stands first, where one is asked about: `n` is 2 then, otherwise 0.
fn asked(n: usize, p: Point, ring: &Ring) -> Vec<f64> {
    let mut numbers = if n == 2 { vec![p.0, p.1] } else { vec![] };
    numbers.extend(flat(ring));
    numbers
}

/// Inside the domain.
pub fn rings() -> Vec<Group> {
    vec![
        Group::new("0 to 12 corners anywhere, -1e6 to 1e6", 200_000, |r, n| {
            let (p, ring) = (point(r, coordinate), wild(r, coordinate));
            asked(n, p, &ring)
        }),
        Group::new("anywhere on whole numbers from -8 to 8", 200_000, |r, n| {
            let (p, ring) = (point(r, lattice), wild(r, lattice));
            asked(n, p, &ring)
        }),
        Group::new("convex and concave round a centre", 150_000, |r, n| {
            let reach = r.pick(&[1.0, 50.0, 4e5]);
            let ring = star(r, reach);
            let p = (r.between(-reach, reach), r.between(-reach, reach));
            asked(n, p, &ring)
        }),
        Group::new("sides along the axes", 50_000, |r, n| {
            let (p, ring) = (point(r, lattice), square_cut(r));
            asked(n, p, &ring)
        }),
        Group::new("repeated corners", 50_000, |r, n| {
            let (p, ring) = (point(r, lattice), repeating(r));
            asked(n, p, &ring)
        }),
        Group::new("all corners on one line", 50_000, |r, n| {
            let (p, ring) = (point(r, lattice), on_one_line(r));
            asked(n, p, &ring)
        }),
        Group::new("any of these, the point on a corner", 100_000, |r, n| {
            let ring = some_ring(r);
            let p = at_corner(r, &ring);
            asked(n, p, &ring)
        }),
        Group::new("the point on an edge", 100_000, |r, n| {
            let ring = some_ring(r);
            let p = on_edge(r, &ring);
            asked(n, p, &ring)
        }),
        Group::new("the point level with a corner", 100_000, |r, n| {
            let ring = some_ring(r);
            let p = level(r, &ring);
            asked(n, p, &ring)
        }),
        Group::new("up to 2 floats beside an edge or level", 100_000, |r, n| {
            let ring = some_ring(r);
            let (on, even) = (on_edge(r, &ring), level(r, &ring));
            let p = r.pick(&[on, even]);
            asked(n, beside(r, p), &ring)
        }),
        Group::new(
            "corners up to 3 floats beside whole numbers",
            100_000,
            |r, n| {
                let ring = some_ring(r);
                let p = at_corner(r, &ring);
                let numbers = asked(n, p, &ring);
                jitter(r, numbers, 3)
            },
        ),
        Group::new(
            "the domain's ends, up to 3 floats within",
            50_000,
            |r, n| {
                let (p, ring) = (point(r, end), wild(r, end));
                asked(n, p, &ring)
            },
        ),
        Group::new("tiny, subnormal ones among them", 50_000, |r, n| {
            let (p, ring) = (point(r, tiny), wild(r, tiny));
            asked(n, p, &ring)
        }),
        Group::new("decimals", 50_000, |r, n| {
            let (p, ring) = (point(r, floats::decimal), wild(r, floats::decimal));
            asked(n, p, &ring)
        }),
    ]
}

/// Outside the domain.
pub fn strange() -> Vec<Group> {
    vec![
        Group::new("special values, infinities and NaNs", 100_000, |r, n| {
            let (p, ring) = (point(r, strange_number), wild(r, strange_number));
            asked(n, p, &ring)
        }),
        Group::new("one of these among whole numbers", 100_000, |r, n| {
            let ring = some_ring(r);
            let p = at_corner(r, &ring);
            let numbers = asked(n, p, &ring);
            one_strange(r, numbers)
        }),
        Group::new("sizes from 2^20 to 2^1023", 100_000, |r, n| {
            let (p, ring) = (point(r, huge), wild(r, huge));
            asked(n, p, &ring)
        }),
        Group::new("random bit patterns", 100_000, |r, n| {
            let (p, ring) = (point(r, floats::any), wild(r, floats::any));
            asked(n, p, &ring)
        }),
        Group::new(
            "an odd last number, which is not a point",
            100_000,
            |r, n| {
                let ring = some_ring(r);
                let p = at_corner(r, &ring);
                let mut numbers = asked(n, p, &ring);
                numbers.extend(each(r, 1, lattice));
                numbers
            },
        ),
    ]
}
