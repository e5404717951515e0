//! Crate `visibility` against the published `visibility.rs`, with document 01's two substitutions:
//! outlines, visible ids, every count, blocked, and the stamps, bit for bit (zero's sign apart), in
//! rooms that are just enough, longer, and one entry short of each need. The Rust's own needs are
//! counted by the seams of crate `oracle`. The area of each outline is held against the Rust unaltered.
//! A cone's own outline is in `cones`, and the mode that credits ties in `ties`.

pub mod bench;
mod cones;
pub mod lines;
mod ties;

pub use bench::bench;

use crate::lent::{Cone, Entries, Lent, PATTERN, Work, area, room_for};
use crate::scene::given::{self, Given};
use crate::sites::{self, Plan, Point};
use crate::util::bits::{same, show, step};
use crate::util::rng::SplitMix64;
use crate::util::table::{Table, count};
use crate::util::tally::{self, Tally, Value};
use oracle::ties::in_mode;
use oracle::{Scene, Stamps, Vec2, ViewCone, VisibilityOptions, compute_visibility, seam};
use std::f64::consts::{FRAC_PI_2, FRAC_PI_4, PI, TAU};

/// The work lists, in the order of their entries.
pub const LISTS: [&str; 9] = [
    "ids of the box query",
    "front edges",
    "unmerged events",
    "kept-aside corners",
    "samples",
    "bucket starts",
    "angular references",
    "owners",
    "corners seen at one event",
];

/// Outlines of each site.
const VIEWS: usize = 12;

pub fn compare() -> bool {
    let groups = groups();
    let mut table = Table::new(&["inputs: sites", "sites", "outlines"]);
    for (what, n, _) in &groups {
        table.row(vec![
            what.to_string(),
            count(*n as u64),
            count((n * VIEWS) as u64),
        ]);
    }
    table.print();
    let mut held = Held::new(0);
    for (i, (_, sites, make)) in groups.iter().enumerate() {
        let r = &mut SplitMix64::new(7_000 + i as u64);
        for _ in 0..*sites {
            let plan = make(r);
            held.site(r, &plan, cone, |_| ());
        }
    }
    let sites = held.print();
    let cones = cones::compare();
    ties::compare() && cones && sites
}

type Make = fn(&mut SplitMix64) -> Plan;

fn groups() -> Vec<(&'static str, usize, Make)> {
    let mut all: Vec<(&'static str, usize, Make)> = Vec::new();
    for g in sites::groups().into_iter().take(9) {
        all.push((g.what, 1_500, g.make));
    }
    all.push(("triangles that cross each other", 2_000, crossing));
    all.push(("squares on a lattice, close together", 2_000, close_lattice));
    all.push(("1,000 to 4,096 polygons", 20, sites::many));
    all.push(("4,096 polygons of 16 corners around a yard", 12, around));
    all
}

/// Long triangles across one small square, so that edges cross and refining has work.
pub fn crossing(r: &mut SplitMix64) -> Plan {
    let n = 3 + r.below(20) as usize;
    let corner = |r: &mut SplitMix64| (r.between(0.0, 40.0), r.between(0.0, 40.0));
    let ring = |r: &mut SplitMix64| (0..3 + r.below(3)).map(|_| corner(r)).collect();
    Plan {
        size: (40.0, 40.0),
        rings: (0..n).map(|_| ring(r)).collect(),
    }
}

/// Equal angles and equal distances, many at once.
pub fn close_lattice(r: &mut SplitMix64) -> Plan {
    let (across, up) = (1 + r.below(8) as i64, 1 + r.below(8) as i64);
    let (step, side) = (r.pick(&[2.0, 3.0, 4.0]), r.pick(&[1.0, 2.0]));
    let square = |i: i64, j: i64| {
        let (x, y) = (i as f64 * step, j as f64 * step);
        vec![(x, y), (x + side, y), (x + side, y + side), (x, y + side)]
    };
    Plan {
        size: (across as f64 * step, up as f64 * step),
        rings: (0..up)
            .flat_map(|j| (0..across).map(move |i| square(i, j)))
            .collect(),
    }
}

/// As many corners as a site may have, most of them on the side of the yard: there are more front edges
/// than half of the most buckets, from where on the index counts its references first.
fn around(r: &mut SplitMix64) -> Plan {
    let (middle, radius) = (500.0, r.between(460.0, 485.0));
    let (width, depth) = (r.between(1.5, 3.0), r.between(0.5, 2.0));
    let ring = |k: usize| {
        let (sin, cos) = (k as f64 * TAU / 4_096.0).sin_cos();
        let at = |along: f64, out: f64| {
            (
                middle + out * cos - along * sin,
                middle + out * sin + along * cos,
            )
        };
        let near = (0..14).map(|j| {
            let u = f64::from(j) / 13.0 - 0.5;
            at(u * width, radius - width / 4.0 * (1.0 - 4.0 * u * u))
        });
        let far = [0.5, -0.5].map(|u| at(u * width, radius + depth));
        near.chain(far).collect()
    };
    Plan {
        size: (2.0 * middle, 2.0 * middle),
        rings: (0..4_096).map(ring).collect(),
    }
}

// ---- what is asked

pub fn post(r: &mut SplitMix64, scene: &Scene, kind: u64) -> Point {
    let b = scene.bounds();
    let any = (r.between(b.min.x, b.max.x), r.between(b.min.y, b.max.y));
    let vertices = scene.vertices();
    if vertices.is_empty() {
        return any;
    }
    let e = r.below(vertices.len() as u64) as u32;
    let (p, q) = scene.edge(e);
    let t = r.unit();
    let on = (p.x + (q.x - p.x) * t, p.y + (q.y - p.y) * t);
    let off = r.pick(&[1e-10, 9e-10, 1.1e-9, 1e-8, 1e-6, 1e-3]) * r.sign();
    match kind {
        0 => (p.x, p.y),
        1 => on,
        2 => (on.0 + off, on.1),
        3 => (on.0, on.1 + off),
        4 => (step(p.x, r.whole(-2, 2)), step(p.y, r.whole(-2, 2))),
        5 => (any.0.round(), any.1.round()),
        6 => (any.0.round() + 0.5, any.1.round() + 0.5),
        7 => (p.x + r.between(-5.0, 5.0), p.y + r.between(-5.0, 5.0)),
        _ => any,
    }
}

fn cone(r: &mut SplitMix64, scene: &Scene) -> Cone {
    let kind = r.below(12);
    let post = post(r, scene, kind);
    let (small, wide) = (r.between(0.5, 60.0), r.between(60.0, 3_000.0));
    let odd = r.pick(&[
        0.0,
        -0.0,
        f64::NAN,
        -1.0,
        f64::NEG_INFINITY,
        1e6,
        1e-9,
        1e-300,
    ]);
    let any = r.between(0.0, 6.3);
    let sector = r.pick(&[any, any, FRAC_PI_2, PI, 0.1, 1e-6]);
    let turned = r.pick(&[
        6.2831853062,
        6.2831853061,
        1e-9,
        2e-9,
        0.0,
        -1.0,
        f64::INFINITY,
        f64::NEG_INFINITY,
        7.0,
    ]);
    let lattice = r.whole(-8, 8) as f64 * FRAC_PI_4;
    let any = r.between(-100.0, 100.0);
    Cone {
        post,
        range: r.pick(&[small, small, wide, wide, 100.0, 10.0, odd]),
        direction: r.pick(&[0.0, lattice, any, any, 100.0, -100.0]),
        fov: r.pick(&[7.0, TAU, sector, sector, sector, turned]),
    }
}

fn tolerance(r: &mut SplitMix64) -> f64 {
    let any = r.between(0.001, 5.0);
    r.pick(&[
        0.1,
        0.1,
        0.1,
        any,
        0.0,
        -1.0,
        f64::NAN,
        1e-9,
        1e-4,
        1e9,
        f64::INFINITY,
    ])
}

// ---- what the Rust answers

pub struct Seen {
    answer: [u64; 9],
    pub outline: Vec<f64>,
    pub visible: Vec<u32>,
    /// The entries of each work list, at their most.
    pub needs: Entries,
    /// Entries of owners for tied edges, beside those of the edges answered.
    shared: u64,
    stamps: Stamps,
}

pub fn rust(scene: &Scene, c: Cone, tolerance: f64, mode: u32, marks: &[u32], epoch: u32) -> Seen {
    let c = c.loaded();
    let at = Vec2::new(c.post.0, c.post.1);
    let cone = ViewCone::sector(at, c.range, c.direction, c.fov);
    let opts = VisibilityOptions {
        arc_tolerance: tolerance + 0.0,
        ..VisibilityOptions::default()
    };
    seam::reset();
    let v = in_mode(mode, || compute_visibility(scene, &cone, &opts));
    let n = seam::counts();
    let s = v.stats;
    // The box query, by the public call, on stamps that a caller lends.
    let mut stamps = Stamps::oracle_from(marks.to_vec(), epoch);
    let fov = if cone.is_full() {
        TAU
    } else {
        cone.fov_clamped()
    };
    let asks = !(cone.range.is_nan() || cone.range <= 0.0 || fov <= 1e-9)
        && scene.polygon_at(at).is_none();
    if asks {
        scene.for_each_polygon_near(&cone.aabb(), &mut stamps, |_| ());
    }
    Seen {
        answer: [
            u64::from(v.blocked),
            u64::from(v.full),
            v.polygon.len() as u64,
            v.visible.len() as u64,
            s.candidate_polygons as u64,
            s.front_edges as u64,
            s.events as u64,
            s.rays_cast as u64,
            s.refinements as u64,
        ],
        outline: v.polygon.iter().flat_map(|p| [p.x, p.y]).collect(),
        visible: v.visible,
        needs: [
            n[seam::IDS],
            n[seam::EDGES],
            n[seam::UNMERGED],
            n[seam::CORNERS],
            s.rays_cast,
            n[seam::STARTS],
            n[seam::REFS],
            n[seam::OWNERS],
            n[seam::SEEN],
        ]
        .map(|n| n as u32),
        shared: n[seam::SHARED] as u64,
        stamps,
    }
}

/// `Visibility::area` uses no angle function, so it is the unaltered one.
fn rust_area(outline: &[f64]) -> f64 {
    let point = |p: &[f64]| plain::Vec2::new(p[0], p[1]);
    plain::Visibility {
        polygon: outline.chunks_exact(2).map(point).collect(),
        ..Default::default()
    }
    .area()
}

// ---- both sides

/// A question: the site, the cone, the tolerance, the mode and the entries.
#[derive(Clone, Copy)]
struct At<'a>(&'a Plan, Cone, f64, u32, Entries);

impl Value for At<'_> {
    fn same(self, _: Self) -> bool {
        unreachable!("inputs are only shown")
    }
    fn show(self) -> String {
        let c = self.1;
        format!(
            "post ({}, {}), range {}, direction {}, view {}, tolerance {}, mode {}, entries {:?}; {}",
            show(c.post.0),
            show(c.post.1),
            show(c.range),
            show(c.direction),
            show(c.fov),
            show(self.2),
            self.3,
            self.4,
            self.0.show()
        )
    }
}

#[derive(Clone, Copy)]
struct Told<'a> {
    status: u32,
    answer: [u64; 9],
    epoch: u32,
    words: [&'a [u32]; 3],
    floats: [&'a [f64]; 2],
}

impl Value for Told<'_> {
    fn same(self, o: Self) -> bool {
        let alike = |(a, b): (&&[f64], &&[f64])| {
            a.len() == b.len() && a.iter().zip(b.iter()).all(|(&x, &y)| same(x, y))
        };
        self.status == o.status
            && self.answer == o.answer
            && self.epoch == o.epoch
            && self.words == o.words
            && self.floats.iter().zip(&o.floats).all(alike)
    }
    fn show(self) -> String {
        format!(
            "{} {:?} epoch {} marks {:?} visible {:?} outline {:?}",
            self.status, self.answer, self.epoch, self.words[0], self.words[2], self.floats[1]
        )
    }
}

/// The status and the numbers of an answer, and all that was lent.
fn told((status, answer): (u32, [u64; 9]), w: &Work) -> Told<'_> {
    Told {
        status,
        answer,
        epoch: w.epoch,
        words: [&w.marks, &w.words, &w.visible],
        floats: [&w.floats, &w.outline],
    }
}

const FLOAT: f64 = 0.123_456_789;

fn lent(marks: &[u32], epoch: u32, room: (usize, usize), outline: usize, visible: usize) -> Work {
    Work {
        marks: marks.to_vec(),
        epoch,
        floats: vec![FLOAT; room.0],
        words: vec![PATTERN; room.1],
        outline: vec![FLOAT; outline],
        visible: vec![PATTERN; visible],
    }
}

struct Held {
    mode: u32,
    exact: Tally,
    inner: Tally,
    longer: Tally,
    short: Tally,
    room: Tally,
    refused: Tally,
    area: Tally,
    seen: Reach,
}

#[derive(Default)]
struct Reach {
    outlines: u64,
    blocked: u64,
    empty: u64,
    full: u64,
    points: u64,
    visible: u64,
    refinements: u64,
    corners: u64,
    wide: u64,
    wraps: u64,
    most: Entries,
}

/// One outline of a site: what was asked, and the Rust's answer.
struct Asked<'a> {
    scene: &'a Scene,
    plan: &'a Plan,
    site: &'a Lent,
    cone: Cone,
    tolerance: f64,
    marks: &'a [u32],
    epoch: u32,
    rust: &'a Seen,
    first: bool,
}

impl Held {
    fn new(mode: u32) -> Self {
        let rust = if mode == 0 {
            "compute_visibility"
        } else {
            "compute_visibility, ties credited"
        };
        Self {
            mode,
            exact: Tally::new(["compute_visibility, room just enough", rust]),
            inner: Tally::new(["the same without the tests", rust]),
            longer: Tally::new(["longer room", "zeros after each list"]),
            short: Tally::new(["a list one entry short", "8, all zero, stamps the same"]),
            room: Tally::new(["room one number short", "8, all zero, stamps the same"]),
            refused: Tally::new([
                "outside the domain, or marks missing",
                "1 or 7, nothing written",
            ]),
            area: Tally::new(["area, of these outlines", "Visibility::area"]),
            seen: Reach::default(),
        }
    }

    /// All about one site. `note` is told of each outline.
    fn site(
        &mut self,
        r: &mut SplitMix64,
        plan: &Plan,
        cone: fn(&mut SplitMix64, &Scene) -> Cone,
        mut note: impl FnMut(Asked),
    ) {
        let scene = plan.scene();
        let given = Given::new(plan);
        let whole = given::of_scene(&scene);
        if whole.starts.len() > 1_048_577 {
            return;
        }
        let mut site = Lent::blank(given::rooms(&whole));
        assert!(
            site.build(given.size, &given.points, &given.lens) == 0,
            "a site of ours"
        );
        let polygons = scene.polygons().len();
        let mut marks = vec![0; polygons + r.below(2) as usize];
        let mut epoch = 0;
        for view in 0..VIEWS {
            // Stamps as a caller keeps them: no mark is above the epoch. The Rust brings stamps of its own.
            if r.below(4) == 0 {
                epoch = r.pick(&[0, 7, u32::MAX - 1, u32::MAX]);
                marks.fill_with(|| r.pick(&[0, epoch.min(1), epoch]));
            }
            let c = cone(r, &scene);
            let tolerance = tolerance(r);
            if !c.post.0.is_finite() || c.post.0.abs() > 1e6 || c.post.1.abs() > 1e6 {
                continue;
            }
            let rust = rust(&scene, c, tolerance, self.mode, &marks, epoch);
            self.seen.add(&rust);
            self.one(r, plan, &site, c, tolerance, &marks, epoch, &rust);
            note(Asked {
                scene: &scene,
                plan,
                site: &site,
                cone: c,
                tolerance,
                marks: &marks,
                epoch,
                rust: &rust,
                first: view == 0,
            });
            if view == 0 {
                self.outside(r, plan, &site, c, tolerance, &marks, epoch, polygons);
            }
            self.seen.wraps += u64::from(epoch == u32::MAX && rust.stamps.oracle_epoch() == 1);
            marks = rust.stamps.oracle_marks().to_vec();
            epoch = rust.stamps.oracle_epoch();
        }
    }

    #[allow(clippy::too_many_arguments)]
    fn one(
        &mut self,
        r: &mut SplitMix64,
        plan: &Plan,
        site: &Lent,
        c: Cone,
        tolerance: f64,
        marks: &[u32],
        epoch: u32,
        rust: &Seen,
    ) {
        let (points, ids) = (rust.outline.len(), rust.visible.len());
        let mode = self.mode;
        let left = |room: (usize, usize), outline: usize, visible: usize, fits: bool| {
            let (mut out, mut seen) = (vec![], vec![]);
            if fits {
                out.clone_from(&rust.outline);
                seen.clone_from(&rust.visible);
            }
            out.resize(outline, 0.0);
            seen.resize(visible, 0);
            Work {
                marks: rust.stamps.oracle_marks().to_vec(),
                epoch: rust.stamps.oracle_epoch(),
                floats: vec![0.0; room.0],
                words: vec![0; room.1],
                outline: out,
                visible: seen,
            }
        };
        let held = |tally: &mut Tally,
                    k: Entries,
                    room: (usize, usize),
                    outline: usize,
                    visible: usize,
                    fits: bool| {
            let mut w = lent(marks, epoch, room, outline, visible);
            let (status, answer) = site.outline(c, tolerance, mode, k, &mut w);
            let expected = if fits { (0, rust.answer) } else { (8, [0; 9]) };
            tally.add(
                At(plan, c, tolerance, mode, k),
                told((status, answer), &w),
                told(expected, &left(room, outline, visible, fits)),
            );
        };
        let k = rust.needs;
        self.area.add(
            At(plan, c, tolerance, mode, k),
            area(&rust.outline),
            rust_area(&rust.outline),
        );
        held(&mut self.exact, k, room_for(k), points, ids, true);
        let mut w = lent(marks, epoch, room_for(k), points, ids);
        let inner = site.inner_outline(c.loaded(), tolerance + 0.0, mode, k, &mut w);
        self.inner.add(
            At(plan, c, tolerance, mode, k),
            told(inner, &w),
            told((0, rust.answer), &left(room_for(k), points, ids, true)),
        );
        let more = k.map(|n| n + r.below(3) as u32);
        let (f, w) = room_for(more);
        let (f, w) = (f + r.below(4) as usize, w + r.below(4) as usize);
        held(
            &mut self.longer,
            more,
            (f, w),
            points + r.below(5) as usize,
            ids + r.below(3) as usize,
            true,
        );
        for i in 0..9 {
            if k[i] > 0 {
                let mut less = k;
                less[i] -= 1;
                held(&mut self.short, less, room_for(less), points, ids, false);
            }
        }
        if points > 0 {
            held(&mut self.short, k, room_for(k), points - 1, ids, false);
            held(&mut self.short, k, room_for(k), points - 2, ids, false);
        }
        if ids > 0 {
            held(&mut self.short, k, room_for(k), points, ids - 1, false);
        }
        let (f, w) = room_for(k);
        if f > 0 {
            held(&mut self.room, k, (f - 1, w), points, ids, false);
        }
        if w > 0 {
            held(&mut self.room, k, (f, w - 1), points, ids, false);
        }
    }

    #[allow(clippy::too_many_arguments)]
    fn outside(
        &mut self,
        r: &mut SplitMix64,
        plan: &Plan,
        site: &Lent,
        c: Cone,
        tolerance: f64,
        marks: &[u32],
        epoch: u32,
        polygons: usize,
    ) {
        let bad = r.pick(&[f64::NAN, f64::INFINITY, step(1e6, 1), -1_000_001.0]);
        let mut cones = vec![
            (
                Cone {
                    post: (bad, c.post.1),
                    ..c
                },
                1,
            ),
            (
                Cone {
                    post: (c.post.0, bad),
                    ..c
                },
                1,
            ),
            (
                Cone {
                    range: r.pick(&[step(1e6, 1), f64::INFINITY]),
                    ..c
                },
                1,
            ),
            (
                Cone {
                    direction: r.pick(&[step(100.0, 1), -101.0, f64::NAN, f64::INFINITY]),
                    ..c
                },
                1,
            ),
            (Cone { fov: f64::NAN, ..c }, 1),
        ];
        let short = if polygons > 0 {
            &marks[..polygons - 1]
        } else {
            marks
        };
        if polygons > 0 {
            cones.push((c, 7));
        }
        for (c, no) in cones {
            let marks = if no == 7 { short } else { marks };
            let k = [1; 9];
            let room = room_for(k);
            let mut w = lent(marks, epoch, room, 4, 2);
            let answer = site.outline(c, tolerance, self.mode, k, &mut w);
            let blank = lent(marks, epoch, room, 4, 2);
            self.refused.add(
                At(plan, c, tolerance, self.mode, k),
                told(answer, &w),
                told((no, [0; 9]), &blank),
            );
        }
    }

    fn print(self) -> bool {
        self.seen.print();
        tally::print(&[
            self.exact,
            self.inner,
            self.longer,
            self.short,
            self.room,
            self.refused,
            self.area,
        ])
    }
}

impl Reach {
    fn add(&mut self, s: &Seen) {
        self.outlines += 1;
        self.blocked += s.answer[0];
        self.full += s.answer[1];
        self.empty += u64::from(s.answer[0] == 0 && s.outline.is_empty());
        self.points += s.answer[2];
        self.visible += s.answer[3];
        self.refinements += s.answer[8];
        self.wide += u64::from(s.answer[5] >= 32_768);
        self.corners += u64::from(s.needs[3]);
        for (most, need) in self.most.iter_mut().zip(s.needs) {
            *most = need.max(*most);
        }
    }

    fn print(&self) {
        let mut table = Table::new(&["what the inputs reach", "count"]);
        for (what, n) in [
            ("outlines", self.outlines),
            ("blocked", self.blocked),
            ("empty and not blocked", self.empty),
            ("full views", self.full),
            ("outline points", self.points),
            ("visible ids", self.visible),
            ("refinements", self.refinements),
            ("kept-aside corners", self.corners),
            ("of 32,768 front edges or more", self.wide),
            ("epochs that wrapped", self.wraps),
        ] {
            table.row(vec![what.to_string(), count(n)]);
        }
        for (what, n) in LISTS.iter().zip(self.most) {
            table.row(vec![format!("greatest need of {what}"), count(n.into())]);
        }
        table.print();
    }
}
