//! Sites whose edges are often at equal distances: polygons given twice, walls and corners in common,
//! on numbers at which computed distances come out equal. And where to stand before them.

use super::{Group, Plan, Point, Ring, rectangle, world};
use crate::util::rng::SplitMix64;
use oracle::Scene;

pub fn groups() -> Vec<Group> {
    let group = |what, sites, make| Group { what, sites, make };
    vec![
        group("polygons given once to three times", 4_000, repeated),
        group("rectangles with walls in common", 4_000, walls),
        group("triangles with a corner in common", 3_000, corners),
        group("squares of a chessboard", 1_500, chessboard),
        group("polygons on a few whole numbers", 2_000, whole),
    ]
}

fn shuffle(r: &mut SplitMix64, rings: &mut [Ring]) {
    for i in 1..rings.len() {
        rings.swap(i, r.below(i as u64 + 1) as usize);
    }
}

/// The same ring from another corner on, at times the other way round.
fn turned(r: &mut SplitMix64, ring: &Ring) -> Ring {
    let mut ring = ring.clone();
    let from = r.below(ring.len() as u64) as usize;
    ring.rotate_left(from);
    if r.below(3) == 0 {
        ring.reverse();
    }
    ring
}

fn ring(r: &mut SplitMix64) -> Ring {
    let unit = r.pick(&[1.0, 1.0, 0.5, 0.1]);
    let at = |r: &mut SplitMix64| (r.whole(0, 24) as f64 * unit, r.whole(0, 24) as f64 * unit);
    let any = |r: &mut SplitMix64| (r.between(0.0, 24.0), r.between(0.0, 24.0));
    let sides = 3 + r.below(3);
    match r.below(4) {
        0 => (0..sides).map(|_| any(r)).collect(),
        1 => (0..sides).map(|_| at(r)).collect(),
        _ => {
            let (width, height) = (r.whole(1, 8) as f64, r.whole(1, 8) as f64);
            rectangle(at(r), width * unit, height * unit)
        }
    }
}

fn repeated(r: &mut SplitMix64) -> Plan {
    let mut rings: Vec<Ring> = Vec::new();
    for _ in 0..1 + r.below(8) {
        let ring = ring(r);
        for _ in 0..1 + r.below(3) {
            rings.push(turned(r, &ring));
        }
    }
    shuffle(r, &mut rings);
    Plan::new(world(r), rings)
}

/// On one side of a line and on the other; with the same wall there, or with others that lie in it.
pub fn walls(r: &mut SplitMix64) -> Plan {
    let mut rings: Vec<Ring> = Vec::new();
    for _ in 0..1 + r.below(6) {
        let unit = r.pick(&[1.0, 1.0, 1.0, 0.5, 0.1]);
        let number = |r: &mut SplitMix64, lo: i64, hi: i64| r.whole(lo, hi) as f64 * unit;
        let (line, wall) = (number(r, 0, 20), (number(r, 0, 20), number(r, 1, 8)));
        let (upright, side) = (r.bits() & 1 == 0, r.sign());
        for _ in 0..2 + r.below(4) {
            let other = (wall.0 + number(r, -2, 2), r.pick(&[1.0, 2.0, 4.0]) * unit);
            let (from, length) = r.pick(&[wall, wall, other]);
            let depth = number(r, 1, 6) * r.pick(&[side, side, side, -side]);
            let at = |along: f64, away: f64| {
                let (u, v) = (from + along, line + away);
                if upright { (v, u) } else { (u, v) }
            };
            let ring = vec![
                at(0.0, 0.0),
                at(length, 0.0),
                at(length, depth),
                at(0.0, depth),
            ];
            rings.push(turned(r, &ring));
        }
    }
    shuffle(r, &mut rings);
    Plan::new(world(r), rings)
}

fn corners(r: &mut SplitMix64) -> Plan {
    let mut rings: Vec<Ring> = Vec::new();
    for _ in 0..1 + r.below(4) {
        let (x, y) = (r.whole(0, 20), r.whole(0, 20));
        let near = |r: &mut SplitMix64| {
            let (i, j) = (x + r.whole(-5, 5), y + r.whole(-5, 5));
            (i as f64, j as f64)
        };
        for _ in 0..2 + r.below(6) {
            rings.push(vec![(x as f64, y as f64), near(r), near(r)]);
        }
    }
    shuffle(r, &mut rings);
    Plan::new(world(r), rings)
}

/// Neighbours have one corner in common; some squares stand there twice.
fn chessboard(r: &mut SplitMix64) -> Plan {
    let (across, up) = (r.whole(1, 8), r.whole(1, 8));
    let side = r.pick(&[1.0, 1.0, 2.0, 0.5, 0.1, 3.0]);
    let mut rings: Vec<Ring> = Vec::new();
    for (i, j) in (0..up).flat_map(|j| (0..across).map(move |i| (i, j))) {
        if (i + j) % 2 == 0 {
            let square = rectangle((i as f64 * side, j as f64 * side), side, side);
            let times = r.pick(&[1, 1, 1, 2]);
            rings.extend((0..times).map(|_| square.clone()));
        }
    }
    shuffle(r, &mut rings);
    Plan::new(world(r), rings)
}

fn whole(r: &mut SplitMix64) -> Plan {
    let corner = |r: &mut SplitMix64| (r.whole(0, 12) as f64, r.whole(0, 12) as f64);
    let ring = |r: &mut SplitMix64| (0..3 + r.below(4)).map(|_| corner(r)).collect();
    let rings = (0..2 + r.below(16)).map(|_| ring(r)).collect();
    Plan::new(world(r), rings)
}

// ---- where to stand

/// A place before a wall, on the side that faces it, and the place on the wall that it is square on.
pub fn before_wall(r: &mut SplitMix64, scene: &Scene) -> Option<(Point, Point)> {
    let vertices = scene.vertices();
    if vertices.is_empty() {
        return None;
    }
    let (p, q) = scene.edge(r.below(vertices.len() as u64) as u32);
    let along = r.unit();
    let along = r.pick(&[0.0, 0.5, 0.5, 0.25, 1.0, along]);
    let (ex, ey) = (q.x - p.x, q.y - p.y);
    let foot = (p.x + ex * along, p.y + ey * along);
    let any = r.between(0.1, 20.0);
    let far = r.pick(&[1.0, 2.0, 3.0, 4.0, 5.0, 10.0, 0.5, 0.1, 0.7, any]);
    let level = |x: f64| if x == 0.0 { 0.0 } else { x.signum() };
    let away = if ex == 0.0 || ey == 0.0 {
        // Of a wall along an axis the distance is as written.
        (level(ey) * far, -level(ex) * far)
    } else {
        let share = far * r.pick(&[0.1, 0.5, 1.0]);
        (ey * share, -ex * share)
    };
    Some(((foot.0 + away.0, foot.1 + away.1), foot))
}

/// Whole numbers, halves, or level with a corner.
pub fn on_lattice(r: &mut SplitMix64, scene: &Scene) -> Point {
    let b = scene.bounds();
    let whole = (
        r.between(b.min.x - 3.0, b.max.x + 3.0).round(),
        r.between(b.min.y - 3.0, b.max.y + 3.0).round(),
    );
    let vertices = scene.vertices();
    if vertices.is_empty() {
        return whole;
    }
    let v = vertices[r.below(vertices.len() as u64) as usize];
    match r.below(6) {
        0 => (whole.0 + 0.5, whole.1 + 0.5),
        1 => (v.x, whole.1),
        2 => (whole.0, v.y),
        3 => (v.x + r.whole(-4, 4) as f64, v.y + r.whole(-4, 4) as f64),
        _ => whole,
    }
}
