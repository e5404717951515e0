//! The published Rust beside the Rust as altered for the oracle, in one program: how much do our
//! angle functions and the stable sorts move? Nothing is decided here, for document 01 allows both
//! alterations; docs/DIFFERENCES.md takes the figures.

use crate::util::rng::SplitMix64;
use crate::util::table::{Table, count};

type Point = (f64, f64);
type Polygons = Vec<Vec<Point>>;

/// Where from, how far and which way.
#[derive(Clone, Copy)]
struct View {
    post: Point,
    range: f64,
    direction: f64,
    fov: f64,
}

/// All that an outline answers. Adding 0.0 has been done, so that the sign of zero does not count.
#[derive(PartialEq)]
struct Look {
    lists: Lists,
    points: Vec<Point>,
}

#[derive(PartialEq)]
struct Lists {
    blocked: bool,
    visible: Vec<u32>,
    /// Candidates, front edges, events, rays and refinements.
    stats: [usize; 5],
}

/// The same few functions over each of the two crates, whose types differ.
macro_rules! side {
    ($side:ident) => {
        mod $side {
            use super::{Lists, Look, Point, View};
            use ::$side::*;

            fn vec2((x, y): Point) -> Vec2 {
                Vec2::new(x, y)
            }

            pub fn site(size: f64, polygons: &[Vec<Point>]) -> Scene {
                let points = |p: &Vec<Point>| p.iter().copied().map(vec2).collect();
                let descs = polygons.iter().map(|p| PolygonDesc::new(points(p)));
                Scene::new(size, size, descs)
            }

            pub fn look(site: &Scene, view: View) -> Look {
                let post = vec2(view.post);
                let cone = ViewCone::sector(post, view.range, view.direction, view.fov);
                let v = compute_visibility(site, &cone, &VisibilityOptions::default());
                let s = v.stats;
                Look {
                    lists: Lists {
                        blocked: v.blocked,
                        visible: v.visible,
                        stats: [
                            s.candidate_polygons,
                            s.front_edges,
                            s.events,
                            s.rays_cast,
                            s.refinements,
                        ],
                    },
                    points: v.polygon.iter().map(|p| (p.x + 0.0, p.y + 0.0)).collect(),
                }
            }
        }
    };
}
side!(plain);
side!(oracle);

/// How alike the two sides' outlines are.
#[derive(Default)]
struct Alike {
    outlines: u64,
    equal: u64,
    /// Another count, list of ids or number of points.
    reshaped: u64,
    /// The rest: the greatest distance along an axis between two points that belong together.
    moved: f64,
}

impl Alike {
    fn add(&mut self, a: &Look, b: &Look) {
        self.outlines += 1;
        if a == b {
            self.equal += 1;
        } else if a.lists != b.lists || a.points.len() != b.points.len() {
            self.reshaped += 1;
        } else {
            let apart = |(p, q): (&Point, &Point)| (p.0 - q.0).abs().max((p.1 - q.1).abs());
            let farthest = a.points.iter().zip(&b.points).map(apart);
            self.moved = farthest.fold(self.moved, f64::max);
        }
    }

    fn row(&self, kind: &str) -> Vec<String> {
        vec![
            kind.to_string(),
            count(self.outlines),
            count(self.equal),
            count(self.reshaped),
            format!("{:.1e}", self.moved),
        ]
    }
}

/// Polygons and the side of the square that they stand in.
const SITES: [(usize, f64); 6] = [
    (10, 200.0),
    (64, 100.0),
    (60, 500.0),
    (100, 2000.0),
    (500, 2000.0),
    (2000, 2000.0),
];
const SITES_OF_EACH: u64 = 4;
const VIEWS: usize = 60;

pub fn compare() -> bool {
    let mut table = Table::new(&[
        "sites",
        "outlines",
        "equal",
        "reshaped",
        "else moved by at most",
    ]);
    let mut peaks = [0; ::oracle::seam::COUNTERS];
    for (kind, make) in KINDS {
        let mut alike = Alike::default();
        for (n, size) in SITES {
            for seed in 0..SITES_OF_EACH {
                look_round(&mut alike, &mut peaks, size, &make(n, size, seed));
            }
        }
        table.row(alike.row(kind));
    }
    println!("The published Rust beside the same with our angle functions and stable sorts:\n");
    table.print();
    print_peaks(&peaks);
    true
}

fn look_round(alike: &mut Alike, peaks: &mut [usize], size: f64, polygons: &Polygons) {
    let r = &mut SplitMix64::new(polygons.len() as u64);
    let (a, b) = (plain::site(size, polygons), oracle::site(size, polygons));
    for _ in 0..VIEWS {
        let view = view(r, size);
        ::oracle::seam::reset();
        alike.add(&plain::look(&a, view), &oracle::look(&b, view));
        for (peak, now) in peaks.iter_mut().zip(::oracle::seam::counts()) {
            *peak = now.max(*peak);
        }
    }
}

fn view(r: &mut SplitMix64, size: f64) -> View {
    let (x, y) = (r.between(0.0, size), r.between(0.0, size));
    // A post on whole numbers meets corners, edges and equal angles.
    let on_lattice = r.bits() & 1 == 0;
    View {
        post: if on_lattice {
            (x.round(), y.round())
        } else {
            (x, y)
        },
        range: r.pick(&[10.0, 100.0, 300.0, 1000.0, 3000.0]),
        direction: r.between(-100.0, 100.0),
        fov: r.pick(&[7.0, 6.2831853062, 6.2831853061, 3.0, 1.57, 0.1, 2e-9]),
    }
}

type Make = fn(usize, f64, u64) -> Polygons;
const KINDS: [(&str, Make); 3] = [
    ("random", random),
    ("random, on whole numbers", rounded),
    ("squares on a lattice", squares),
];

fn random(n: usize, size: f64, seed: u64) -> Polygons {
    let site = ::plain::Scene::random(&::plain::SceneConfig {
        width: size,
        height: size,
        polygon_count: n,
        seed,
    });
    let polygon = |id| {
        site.polygon_vertices(id)
            .iter()
            .map(|v| (v.x, v.y))
            .collect()
    };
    (0..n as u32).map(polygon).collect()
}

fn rounded(n: usize, size: f64, seed: u64) -> Polygons {
    let mut polygons = random(n, size, seed);
    for point in polygons.iter_mut().flatten() {
        *point = (point.0.round(), point.1.round());
    }
    polygons
}

fn squares(n: usize, size: f64, seed: u64) -> Polygons {
    let r = &mut SplitMix64::new(seed);
    let mut square = |_| {
        let (x, y) = (
            r.below(size as u64 / 8) as f64 * 8.0,
            r.below(size as u64 / 8) as f64 * 8.0,
        );
        vec![(x, y), (x + 8.0, y), (x + 8.0, y + 8.0), (x, y + 8.0)]
    };
    (0..n).map(&mut square).collect()
}

/// The greatest lengths met, to choose rooms by.
fn print_peaks(peaks: &[usize]) {
    use ::oracle::seam;
    let lists = [
        ("ids of the box query", seam::IDS),
        ("front edges", seam::EDGES),
        ("unmerged events", seam::UNMERGED),
        ("kept-aside corners", seam::CORNERS),
        ("bucket starts", seam::STARTS),
        ("angular references", seam::REFS),
        ("owners", seam::OWNERS),
        ("corners seen at one event", seam::SEEN),
    ];
    let mut table = Table::new(&["list", "greatest length met"]);
    for (what, i) in lists {
        table.row(vec![what.to_string(), count(peaks[i] as u64)]);
    }
    table.print();
}
