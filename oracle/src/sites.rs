//! Sites as a caller gives them, in named groups: what every comparison over sites is made from.

pub mod ties;

use crate::util::bits::{show, step};
use crate::util::rng::SplitMix64;
use crate::util::table::{Table, count};
use oracle::{PolygonDesc, Scene, SceneConfig, Vec2};

pub type Point = (f64, f64);
pub type Ring = Vec<Point>;

/// Width and height, and the points of each polygon.
pub struct Plan {
    pub size: Point,
    pub rings: Vec<Ring>,
}

impl Plan {
    fn new(size: Point, rings: Vec<Ring>) -> Self {
        Self { size, rings }
    }

    fn of_scene(scene: &Scene) -> Self {
        let ring = |id: usize| {
            let points = scene.polygon_vertices(id as u32).iter();
            points.map(|v| (v.x, v.y)).collect()
        };
        Self {
            size: (scene.width(), scene.height()),
            rings: (0..scene.polygons().len()).map(ring).collect(),
        }
    }

    /// As the Rust builds it.
    pub fn scene(&self) -> Scene {
        let vectors = |ring: &Ring| ring.iter().map(|&(x, y)| Vec2::new(x, y)).collect();
        let descs = self.rings.iter().map(|r| PolygonDesc::new(vectors(r)));
        Scene::new(self.size.0, self.size.1, descs)
    }

    pub fn show(&self) -> String {
        let point = |p: &Point| format!("{} {}", show(p.0), show(p.1));
        let ring = |r: &Ring| r.iter().map(point).collect::<Vec<_>>().join(", ");
        let rings: Vec<String> = self
            .rings
            .iter()
            .map(|r| format!("({})", ring(r)))
            .collect();
        format!(
            "site {} by {} [{}]",
            show(self.size.0),
            show(self.size.1),
            rings.join(", ")
        )
    }
}

// ---- groups

#[derive(Clone, Copy)]
pub struct Group {
    pub what: &'static str,
    pub sites: usize,
    pub make: fn(&mut SplitMix64) -> Plan,
}

pub fn groups() -> Vec<Group> {
    let group = |what, sites, make| Group { what, sites, make };
    vec![
        group("as `Scene::random` makes them", 5_000, random),
        group("squares on a lattice", 3_000, lattice),
        group("rooms that share their walls", 3_000, rooms),
        group("overlapping and repeated polygons", 2_000, overlaps),
        group("slivers", 2_000, slivers),
        group("points and lines", 2_000, points_and_lines),
        group("at the domain's ends", 1_500, ends),
        group("fewer than three points among squares", 1_500, too_few),
        group("no polygon or one", 1_000, one_or_none),
        group("1,000 to 4,096 polygons", 60, many),
        group("up to 1,048,576 cells and just over", 24, largest),
    ]
}

pub fn print(groups: &[Group]) {
    let mut table = Table::new(&["inputs: sites", "sites"]);
    for g in groups {
        table.row(vec![g.what.to_string(), count(g.sites as u64)]);
    }
    table.print();
}

/// 0 to 200 polygons, small numbers more often.
pub fn some(r: &mut SplitMix64) -> usize {
    let most = r.pick(&[4, 20, 60, 201]);
    r.below(most) as usize
}

fn rectangle((x, y): Point, width: f64, height: f64) -> Ring {
    let (right, top) = (x + width, y + height);
    vec![(x, y), (right, y), (right, top), (x, top)]
}

fn world(r: &mut SplitMix64) -> Point {
    let round = r.pick(&[0.0, 1.0, 10.0, 24.0, 100.0]);
    let any = r.between(0.0, 100.0);
    (r.pick(&[round, any]), r.pick(&[round, any, 24.0]))
}

fn random(r: &mut SplitMix64) -> Plan {
    let polygons = some(r);
    random_of(r, polygons)
}

fn random_of(r: &mut SplitMix64, polygon_count: usize) -> Plan {
    let any = r.between(50.0, 2_500.0);
    let (width, height) = (
        r.pick(&[2_000.0, 2_000.0, any, 0.0]),
        r.pick(&[2_000.0, any]),
    );
    Plan::of_scene(&Scene::random(&SceneConfig {
        width,
        height,
        polygon_count,
        seed: r.bits(),
    }))
}

pub fn many(r: &mut SplitMix64) -> Plan {
    let polygons = r.pick(&[1_000, 1_000, 2_000, 3_000, 4_095, 4_096]);
    random_of(r, polygons)
}

/// Unit squares, so that the cells have their size.
fn largest(r: &mut SplitMix64) -> Plan {
    let any = r.between(300.0, 1_030.0);
    let side = r.pick(&[any, any, 1_023.0, step(1_023.0, -1), 1_023.5, 1_024.0]);
    let square = |r: &mut SplitMix64| {
        let at = (r.whole(0, 900) as f64, r.between(0.0, 900.0).floor());
        rectangle(at, 1.0, 1.0)
    };
    let squares = (0..some(r)).map(|_| square(r)).collect();
    Plan::new((side, side), squares)
}

/// All of one size, so that the cells have it too, or of many.
fn lattice(r: &mut SplitMix64) -> Plan {
    let (unit, one) = (r.pick(&[1.0, 1.0, 0.5, 0.1, 3.0]), r.bits() & 1 == 0);
    let size = r.whole(1, 6);
    let square = |r: &mut SplitMix64| {
        let at = (r.whole(-4, 20) as f64 * unit, r.whole(-4, 20) as f64 * unit);
        let side = if one { size } else { r.whole(1, 6) } as f64 * unit;
        rectangle(at, side, side)
    };
    let squares = (0..some(r)).map(|_| square(r)).collect();
    Plan::new(world(r), squares)
}

fn rooms(r: &mut SplitMix64) -> Plan {
    let (across, up) = (r.whole(1, 14), r.whole(1, 14));
    let any = r.between(0.5, 30.0);
    let (w, h) = (
        r.pick(&[1.0, 2.0, 0.1, 10.0, any]),
        r.pick(&[1.0, 3.3, any]),
    );
    let corner = (r.pick(&[0.0, 0.0, -7.0, any]), r.pick(&[0.0, 0.1, any]));
    let room = |i: i64, j: i64| {
        let (x, y) = (corner.0 + i as f64 * w, corner.1 + j as f64 * h);
        let (right, top) = (corner.0 + (i + 1) as f64 * w, corner.1 + (j + 1) as f64 * h);
        vec![(x, y), (right, y), (right, top), (x, top)]
    };
    let all = (0..up).flat_map(|j| (0..across).map(move |i| room(i, j)));
    Plan::new(world(r), all.collect())
}

fn overlaps(r: &mut SplitMix64) -> Plan {
    let centre = (r.between(0.0, 50.0), r.between(0.0, 50.0));
    let mut rings: Vec<Ring> = Vec::new();
    for _ in 0..some(r) {
        let again = !rings.is_empty() && r.below(3) == 0;
        let ring = if again {
            rings[r.below(rings.len() as u64) as usize].clone()
        } else {
            let (w, h) = (r.between(0.1, 40.0), r.between(0.1, 40.0));
            let shift = r.pick(&[0.0, 0.0, 5.0]);
            rectangle((centre.0 - w / 2.0 + shift, centre.1 - h / 2.0), w, h)
        };
        rings.push(ring);
    }
    Plan::new(world(r), rings)
}

fn slivers(r: &mut SplitMix64) -> Plan {
    let sliver = |r: &mut SplitMix64| {
        let at = (r.between(-50.0, 150.0), r.between(-50.0, 150.0));
        let long = r.between(1.0, 200.0);
        let thin = r.pick(&[1e-12, 1e-9, 1e-6, 1e-3, 0.1]);
        match r.below(4) {
            0 => rectangle(at, long, thin),
            1 => rectangle(at, thin, long),
            2 => vec![
                at,
                (at.0 + long, at.1 + long),
                (at.0 + long, at.1 + long + thin),
            ],
            _ => vec![
                at,
                (at.0 - long, at.1 + long),
                (at.0 - long + thin, at.1 + long),
            ],
        }
    };
    let slivers = (0..some(r)).map(|_| sliver(r)).collect();
    Plan::new(world(r), slivers)
}

/// Three or more points that coincide or lie on one line: the box is no area, but not empty.
fn points_and_lines(r: &mut SplitMix64) -> Plan {
    let ring = |r: &mut SplitMix64| {
        let at = (r.whole(0, 24) as f64, r.whole(0, 24) as f64);
        let far = r.whole(0, 6) as f64;
        let end = r.pick(&[
            at,
            (at.0 + far, at.1),
            (at.0, at.1 + far),
            (at.0 + far, at.1 + far),
        ]);
        let mut ring = vec![at; 2 + r.below(2) as usize];
        ring.push(end);
        ring
    };
    let rings = (0..some(r)).map(|_| ring(r)).collect();
    Plan::new(world(r), rings)
}

/// Coordinates reach from -1e6 to 1e6.
const REACH: f64 = 1e6;

fn ends(r: &mut SplitMix64) -> Plan {
    let small = r.pick(&[1e5, 1e5, 3e4, 1e5, 2.5e3]);
    let size = r.pick(&[1e6, 3e5, 1e5, small]);
    let coordinate = |r: &mut SplitMix64| {
        let end = r.sign() * step(REACH, -r.whole(0, 3));
        let (any, beside) = (r.between(-REACH, REACH), end - r.sign() * size);
        r.pick(&[end, end, beside, any]).clamp(-REACH, REACH)
    };
    let ring = |r: &mut SplitMix64| {
        let (x, y) = (coordinate(r), coordinate(r));
        let (w, h) = (r.between(0.5, 1.5) * size, r.between(0.5, 1.5) * size);
        let (right, top) = ((x + w).min(REACH), (y + h).min(REACH));
        vec![(x, y), (right, y), (right, top)]
    };
    let mut rings: Vec<Ring> = (0..1 + some(r) / 2).map(|_| ring(r)).collect();
    // Some full-sized ones, so that tiny ones in a corner do not make the cells small.
    rings.push(vec![
        (-REACH, -REACH),
        (REACH, -REACH),
        (REACH, size - REACH),
    ]);
    let side = r.pick(&[0.0, REACH, REACH, 1.0]);
    Plan::new((side, r.pick(&[0.0, REACH])), rings)
}

fn too_few(r: &mut SplitMix64) -> Plan {
    let ring = |r: &mut SplitMix64| {
        let at = (r.whole(-4, 20) as f64, r.between(-4.0, 20.0));
        let mut ring = rectangle(at, r.whole(1, 5) as f64, r.between(0.5, 5.0));
        ring.truncate(r.pick(&[0, 1, 2, 2, 4]));
        ring
    };
    let rings = (0..some(r)).map(|_| ring(r)).collect();
    Plan::new(world(r), rings)
}

fn one_or_none(r: &mut SplitMix64) -> Plan {
    let any = r.between(0.0, 50.0);
    let sides = [0.0, 0.5, 1.0, 4.0, 10.0, step(10.0, 1), step(1.0, -1), any];
    let site = (r.pick(&sides), r.pick(&sides));
    let (w, h) = (r.pick(&sides), r.pick(&sides));
    let at = (r.pick(&sides) - 2.0, r.pick(&sides) - 2.0);
    let rings = match r.below(3) {
        0 => vec![],
        1 => vec![rectangle(at, w, h)],
        _ => {
            let huge = r.pick(&[REACH, 1e5]);
            return Plan::new((huge, r.pick(&[huge, 0.0])), vec![]);
        }
    };
    Plan::new(site, rings)
}
