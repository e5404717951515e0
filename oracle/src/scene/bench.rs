//! Timings of questions on random sites of 2000 by 2000: with the test of the tables that each call
//! begins with, and without it, beside the Rust as published. Without it, points and rays are asked
//! many in one call, as inner functions are used, and each question through a C call of its own, whose
//! cost is then in the time. The engine without tables has a table of its own, in `engines`.

mod engines;

use super::given::{self, Given};
use crate::lent::Lent;
use crate::sites::Plan;
use crate::util::floats::some;
use crate::util::rng::SplitMix64;
use crate::util::timing::{Bench, Limit, TIED};
use std::cell::RefCell;
use std::hint::black_box;

const SIZES: [usize; 4] = [100, 500, 2_000, 4_096];
const SIDE: f64 = 2_000.0;
pub const QUESTIONS: usize = 1_024;
/// Calls of a run where each takes long.
const FEW: usize = 8;

const LIMIT: Limit = Limit::Times(1.5);

/// How long the rays are.
pub const LENGTHS: [f64; 2] = [100.0, 1_000.0];

struct Timed {
    given: Given,
    site: Lent,
    rust: plain::Scene,
}

impl Timed {
    fn new(polygons: usize) -> Self {
        let config = plain::SceneConfig {
            width: SIDE,
            height: SIDE,
            polygon_count: polygons,
            seed: 0x5EED,
        };
        let rust = plain::Scene::random(&config);
        let ring = |id: usize| {
            rust.polygon_vertices(id as u32)
                .iter()
                .map(|v| (v.x, v.y))
                .collect()
        };
        let plan = Plan {
            size: (SIDE, SIDE),
            rings: (0..polygons).map(ring).collect(),
        };
        let given = Given::new(&plan);
        let mut site = Lent::blank(given::rooms(&given::of_scene(&plan.scene())));
        let status = site.build(given.size, &given.points, &given.lens);
        assert!(status == 0, "room enough");
        Self { given, site, rust }
    }
}

pub fn bench(table: &mut Bench) {
    engines::print();
    let r = &mut SplitMix64::new(1_901);
    for polygons in SIZES {
        let timed = Timed::new(polygons);
        building(table, &timed, polygons);
        sound(table, &timed, polygons);
        polygon_at(table, r, &timed, polygons);
        cast_ray(table, r, &timed, polygons);
        near(table, r, &timed, polygons);
        reads(table, r, &timed, polygons);
    }
}

fn building(table: &mut Bench, timed: &Timed, polygons: usize) {
    let site = RefCell::new(timed.site.clone());
    let given = &timed.given;
    let ours = |[w]: [f64; 1]| {
        u64::from(
            site.borrow_mut()
                .build((w, SIDE), &given.points, &given.lens),
        )
    };
    let points: Vec<Vec<plain::Vec2>> = (0..polygons)
        .map(|id| timed.rust.polygon_vertices(id as u32).to_vec())
        .collect();
    let rust = |[w]: [f64; 1]| {
        let descs = points.iter().map(|p| plain::PolygonDesc::new(p.clone()));
        black_box(plain::Scene::new(w, SIDE, descs))
            .polygons()
            .len() as u64
    };
    table.add_few(
        &format!("`new`, {polygons} polygons"),
        Limit::None,
        &[[SIDE]; FEW],
        ours,
        rust,
    );
}

/// The Rust has no such test: beside it stands a pass that reads every table once.
fn sound(table: &mut Bench, timed: &Timed, polygons: usize) {
    let ours = |[_]: [f64; 1]| u64::from(black_box(&timed.site).is_sound());
    let rust = |[_]: [f64; 1]| {
        let s = black_box(&timed.site);
        let floats = s.points.iter().chain(&s.boxes).fold(0.0, |a, b| a + b);
        let words = s
            .polygons
            .iter()
            .chain(&s.owners)
            .chain(&s.starts)
            .chain(&s.items);
        words.fold(floats.to_bits(), |a, &b| a ^ u64::from(b))
    };
    table.add(
        &format!("the table test beside a sum of the tables, {polygons} polygons"),
        Limit::None,
        &[[0.0]; 64],
        ours,
        rust,
    );
}

fn polygon_at(table: &mut Bench, r: &mut SplitMix64, timed: &Timed, polygons: usize) {
    let points: Vec<[f64; 2]> = some(QUESTIONS, || [r.between(0.0, SIDE), r.between(0.0, SIDE)]);
    let called = black_box(plain::Scene::polygon_at as fn(&_, _) -> _);
    let rust = |[x, y]: [f64; 2]| {
        let id: Option<u32> = called(&timed.rust, plain::Vec2::new(x, y));
        id.map_or(0, |id| u64::from(id) + 1)
    };
    let asked = points.concat();
    table.add_many(
        &format!("`polygon_at` without the table test, in one call for {QUESTIONS} points, {polygons} polygons"),
        LIMIT,
        QUESTIONS,
        || timed.site.inner_held(black_box(&asked)),
        || {
            let held = |&[x, y]: &[f64; 2]| called(&timed.rust, plain::Vec2::new(x, y)).is_some();
            black_box(&points).iter().map(|p| u64::from(held(p))).sum()
        },
    );
    let inner = |[x, y]: [f64; 2]| u64::from(timed.site.inner_polygon_at((x, y))[1]);
    table.add(
        &format!("`polygon_at` without the table test, through the C call, {polygons} polygons"),
        Limit::None,
        &points,
        inner,
        rust,
    );
    let ours = |[x, y]: [f64; 2]| u64::from(timed.site.polygon_at((x, y)).1[1]);
    table.add(
        &format!("`polygon_at`, {polygons} polygons"),
        Limit::None,
        &points[..FEW],
        ours,
        rust,
    );
}

/// Rays from anywhere, in any direction.
pub fn rays(r: &mut SplitMix64, number: usize, length: f64) -> Vec<[f64; 5]> {
    some(number, || {
        let (x, y) = (r.between(0.0, SIDE), r.between(0.0, SIDE));
        let (dx, dy) = (r.between(-1.0, 1.0), r.between(-1.0, 1.0));
        let n = (dx * dx + dy * dy).sqrt().max(1e-9);
        [x, y, dx / n, dy / n, length]
    })
}

fn cast_ray(table: &mut Bench, r: &mut SplitMix64, timed: &Timed, polygons: usize) {
    for length in LENGTHS {
        let rays = rays(r, QUESTIONS, length);
        let called = black_box(plain::Scene::cast_ray as fn(&_, _, _, _) -> _);
        let rust = |[ox, oy, dx, dy, t]: [f64; 5]| {
            let (o, d) = (plain::Vec2::new(ox, oy), plain::Vec2::new(dx, dy));
            let hit: Option<plain::RayHit> = called(&timed.rust, o, d, t);
            hit.map_or(0, |h| h.t.to_bits())
        };
        let asked = rays.concat();
        table.add_many(
            &format!("`cast_ray` of {length} without the table test, in one call for {QUESTIONS} rays, {polygons} polygons"),
            LIMIT,
            QUESTIONS,
            || timed.site.inner_hits(black_box(&asked)),
            || {
                let hit = |&[ox, oy, dx, dy, t]: &[f64; 5]| {
                    let (o, d) = (plain::Vec2::new(ox, oy), plain::Vec2::new(dx, dy));
                    called(&timed.rust, o, d, t).is_some()
                };
                black_box(&rays).iter().map(|ray| u64::from(hit(ray))).sum()
            },
        );
        let inner = |[ox, oy, dx, dy, t]: [f64; 5]| {
            timed
                .site
                .inner_cast_ray((ox, oy), (dx, dy), t, 0)
                .0
                .to_bits()
        };
        table.add(
            &format!("`cast_ray` of {length} without the table test, through the C call, {polygons} polygons"),
            Limit::None,
            &rays,
            inner,
            rust,
        );
        let tied = |[ox, oy, dx, dy, t]: [f64; 5]| {
            timed
                .site
                .inner_cast_ray((ox, oy), (dx, dy), t, 1)
                .0
                .to_bits()
        };
        table.add(
            &format!("`cast_ray` of {length} in mode 1 without the table test, through the C call, with ours in mode 0 in the Rust's place, {polygons} polygons"),
            TIED,
            &rays,
            tied,
            inner,
        );
        let ours = |[ox, oy, dx, dy, t]: [f64; 5]| {
            timed.site.cast_ray((ox, oy), (dx, dy), t, 0).1.to_bits()
        };
        table.add(
            &format!("`cast_ray` of {length}, {polygons} polygons"),
            Limit::None,
            &rays[..FEW],
            ours,
            rust,
        );
    }
}

/// Boxes with sides of this length, anywhere in the site.
fn boxes(r: &mut SplitMix64, side: f64) -> Vec<[f64; 4]> {
    some(FEW, || {
        let (x, y) = (r.between(0.0, SIDE - side), r.between(0.0, SIDE - side));
        [x, y, x + side, y + side]
    })
}

/// The Rust's box query: how many ids it lists, into a list with room for so many from the start.
fn rust_near(timed: &Timed, polygons: usize, room: usize) -> impl Fn([f64; 4]) -> u64 {
    let own = RefCell::new((plain::Stamps::new(polygons), Vec::with_capacity(room)));
    move |[x0, y0, x1, y1]| {
        let (stamps, ids) = &mut *own.borrow_mut();
        ids.clear();
        let b = plain::Aabb::new(plain::Vec2::new(x0, y0), plain::Vec2::new(x1, y1));
        timed
            .rust
            .for_each_polygon_near(&b, stamps, |id| ids.push(id));
        ids.len() as u64
    }
}

fn near(table: &mut Bench, r: &mut SplitMix64, timed: &Timed, polygons: usize) {
    let lent = RefCell::new((vec![0; polygons], 0, vec![0; 256]));
    let ours = |b: [f64; 4]| {
        let (marks, epoch, ids) = &mut *lent.borrow_mut();
        timed.site.polygons_near(&b, marks, epoch, ids).1[0]
    };
    table.add(
        &format!("`polygons_near`, 100 x 100, {polygons} polygons"),
        Limit::None,
        &boxes(r, 100.0),
        ours,
        rust_near(timed, polygons, 256),
    );
}

/// A point on the diagonal of the site.
fn place(k: u32) -> (f64, f64) {
    (f64::from(k), f64::from(k))
}

/// One number that hangs on all of these: no side may leave a part of its answer out.
fn mixed<const N: usize>(numbers: [u64; N]) -> u64 {
    numbers.iter().fold(0, |all, n| all.rotate_left(7) ^ n)
}

fn mixed_floats<const N: usize>(floats: [f64; N]) -> u64 {
    mixed(floats.map(f64::to_bits))
}

fn four(b: plain::Aabb) -> [f64; 4] {
    [b.min.x, b.min.y, b.max.x, b.max.y]
}

fn shape([first, len]: [u32; 2], b: [f64; 4]) -> u64 {
    mixed([u64::from(first), u64::from(len), mixed_floats(b)])
}

/// The questions that only read, asked by number.
struct Reads<'a> {
    table: &'a mut Bench,
    r: &'a mut SplitMix64,
    timed: &'a Timed,
    polygons: usize,
    few: Vec<[f64; 1]>,
}

impl Reads<'_> {
    /// One question with the test of the tables and without it, for numbers below `known`. Ours is
    /// one C call, and the Rust's stands behind one call that the compiler does not know.
    fn add(
        &mut self,
        name: &str,
        known: u32,
        ours: impl Fn(&Lent, u32) -> u64,
        inner: impl Fn(&Lent, u32) -> u64,
        rust: fn(&plain::Scene, u32) -> u64,
    ) {
        let (timed, polygons, rust) = (self.timed, self.polygons, black_box(rust));
        let many: Vec<[f64; 1]> = some(QUESTIONS, || {
            [self.r.between(0.0, f64::from(known)).floor()]
        });
        for k in many.iter().map(|&[k]| k as u32) {
            let same = inner(&timed.site, k) == rust(&timed.rust, k);
            assert!(same, "{name} of {k}: the same answer");
        }
        self.table.add(
            &format!("`{name}` without the table test, through the C call, {polygons} polygons"),
            Limit::None,
            &many,
            |[k]| inner(&timed.site, k as u32),
            |[k]| rust(&timed.rust, k as u32),
        );
        self.table.add(
            &format!("`{name}`, {polygons} polygons"),
            Limit::None,
            &self.few,
            |[k]| ours(&timed.site, k as u32),
            |[k]| rust(&timed.rust, k as u32),
        );
    }
}

/// With the test of the tables, what they take is the test, whose own row says how much. The head's
/// questions use no number, so their calls never wait for each other: the two times are alike.
fn reads(table: &mut Bench, r: &mut SplitMix64, timed: &Timed, polygons: usize) {
    let few = some(FEW, || [r.between(0.0, polygons as f64).floor()]);
    let [_, _, ids, edges, _] = timed.site.head.counts;
    let mut reads = Reads {
        table,
        r,
        timed,
        polygons,
        few,
    };
    reads.add(
        "items_at_number",
        SIDE as u32,
        |s, k| s.items_at_number(place(k)).1,
        |s, k| s.inner_items_at_number(place(k)).1,
        |s, k| {
            let (x, y) = place(k);
            s.grid().items_at(plain::Vec2::new(x, y)).len() as u64
        },
    );
    reads.add(
        "edge",
        edges,
        |s, k| mixed_floats(s.edge(k).1),
        |s, k| mixed_floats(s.inner_edge(k).1),
        |s, k| {
            let (a, b) = s.edge(k);
            mixed_floats([a.x, a.y, b.x, b.y])
        },
    );
    reads.add(
        "edge_end",
        edges,
        |s, k| u64::from(s.edge_end(k).1),
        |s, k| u64::from(s.inner_edge_end(k).1),
        |s, k| u64::from(s.edge_end(k)),
    );
    reads.add(
        "edge_owner",
        edges,
        |s, k| u64::from(s.edge_owner(k).1),
        |s, k| u64::from(s.inner_edge_owner(k).1),
        |s, k| u64::from(s.edge_owner(k)),
    );
    reads.add(
        "polygon",
        ids,
        |s, k| {
            let (_, place, b) = s.polygon(k);
            shape(place, b)
        },
        |s, k| {
            let (_, place, b) = s.inner_polygon(k);
            shape(place, b)
        },
        |s, k| {
            let p = s.polygon(k);
            shape([p.first, p.len], four(p.aabb))
        },
    );
    reads.add(
        "polygon_vertices_number",
        ids,
        |s, k| s.polygon_vertices_number(k).1,
        |s, k| s.inner_polygon_vertices_number(k).1,
        |s, k| s.polygon_vertices(k).len() as u64,
    );
    reads.add(
        "bounds",
        ids,
        |s, _| mixed_floats(s.bounds().1),
        |s, _| mixed_floats(s.inner_bounds().1),
        |s, _| mixed_floats(four(s.bounds())),
    );
    reads.add(
        "width",
        ids,
        |s, _| s.width().1.to_bits(),
        |s, _| s.inner_width().1.to_bits(),
        |s, _| s.width().to_bits(),
    );
    reads.add(
        "height",
        ids,
        |s, _| s.height().1.to_bits(),
        |s, _| s.inner_height().1.to_bits(),
        |s, _| s.height().to_bits(),
    );
    reads.add(
        "dims",
        ids,
        |s, _| mixed(s.dims().1.map(u64::from)),
        |s, _| mixed(s.inner_dims().1.map(u64::from)),
        |s, _| {
            let (cols, rows) = s.grid().dims();
            mixed([cols as u64, rows as u64])
        },
    );
}
