//! Crates `build`, `scene` and `random` against the published `scene.rs`: the tables that building
//! makes, and every question, through the C interface that users link (crate `exports_scene`), tests
//! of the tables included. Besides: each refusal in its order, and questions over damaged tables.

pub mod bench;
mod damage;
mod edited;
pub mod given;
pub mod lines;
mod near;
mod ties;

pub use bench::bench;
pub use damage::unsound;

use crate::grid::questions;
use crate::grid::sites::Site as Gridded;
use crate::lent::{Lent, PATTERN};
use crate::probe::Ray;
use crate::sites::{self, Plan, Point};
use crate::util::bits;
use crate::util::rng::SplitMix64;
use crate::util::table::{Table, count};
use crate::util::tally::{self, Tally, Value};
use given::Given;
use near::Engines;
use oracle::{Aabb, Scene, SceneConfig, Stamps, Vec2, seam};

pub fn compare() -> bool {
    let groups = sites::groups();
    sites::print(&groups);
    let mut held = Held::new();
    for (i, group) in groups.iter().enumerate() {
        let r = &mut SplitMix64::new(5_000 + i as u64);
        for _ in 0..group.sites {
            let plan = (group.make)(r);
            held.site(r, plan);
        }
    }
    held.faults();
    held.random();
    let built = held.print();
    let damaged = damage::compare();
    let edited = edited::compare();
    ties::compare() && edited && damaged && built
}

// ---- what is compared and shown

/// Whole numbers, then lists of numbers, then lists of floats.
#[derive(Clone, Copy)]
struct Told<'a> {
    numbers: &'a [u64],
    words: &'a [&'a [u32]],
    floats: &'a [&'a [f64]],
}

impl Value for Told<'_> {
    fn same(self, other: Self) -> bool {
        let alike = |(a, b): (&&[f64], &&[f64])| {
            a.len() == b.len() && a.iter().zip(b.iter()).all(|(&x, &y)| bits::same(x, y))
        };
        self.numbers == other.numbers
            && self.words == other.words
            && self.floats.len() == other.floats.len()
            && self.floats.iter().zip(other.floats).all(alike)
    }
    fn show(self) -> String {
        format!("{:?} {:?} {:?}", self.numbers, self.words, self.floats)
    }
}

/// A status and all of a lent site.
macro_rules! told_of {
    ($status:expr, $site:expr) => {
        Told {
            numbers: &[u64::from($status)],
            words: &[
                &$site.head.counts,
                &$site.polygons,
                &$site.owners,
                &$site.starts,
                &$site.items,
            ],
            floats: &[&$site.head.floats, &$site.points, &$site.boxes],
        }
    };
}

/// A question to a site.
#[derive(Clone, Copy)]
struct At<'a>(&'a Plan, &'a str);

impl Value for At<'_> {
    fn same(self, _: Self) -> bool {
        unreachable!("inputs are only shown")
    }
    fn show(self) -> String {
        format!("{}; {}", self.1, self.0.show())
    }
}

fn padded<T: Copy>(list: &[T], room: usize, zero: T) -> Vec<T> {
    let mut all = list.to_vec();
    all.resize(room, zero);
    all
}

fn four(b: Aabb) -> [f64; 4] {
    [b.min.x, b.min.y, b.max.x, b.max.y]
}

fn aabb([x0, y0, x1, y1]: [f64; 4]) -> Aabb {
    Aabb::new(Vec2::new(x0, y0), Vec2::new(x1, y1))
}

fn vec2((x, y): Point) -> Vec2 {
    Vec2::new(x, y)
}

/// Minus zero is loaded as plus zero, and the Rust gets the loaded value.
fn loaded(x: f64) -> f64 {
    x + 0.0
}

// ---- document 01, "Domain"

const MILLION: f64 = 1e6;

pub fn is_coordinate(x: f64) -> bool {
    x.is_finite() && x.abs() <= MILLION
}

fn in_domain(coordinates: &[f64]) -> bool {
    coordinates.iter().all(|&x| is_coordinate(x))
}

// ---- both sides

struct Held {
    build: Tally,
    long: Tally,
    short: Tally,
    refused: Tally,
    random: Tally,
    random_refused: Tally,
    near: Tally,
    near_short: Tally,
    near_refused: Tally,
    engines: Engines,
    items_at: Tally,
    polygon_at: Tally,
    cast_ray: Tally,
    many: Tally,
    reads: Tally,
    edges: Tally,
    polygons: Tally,
    heads: Tally,
    stamps: Tally,
    seen: Seen,
}

/// A site's points and rays inside the domain, and how many the Rust finds in a polygon and hitting.
#[derive(Default)]
struct Many {
    points: Vec<f64>,
    rays: Vec<f64>,
    held: u64,
    hits: u64,
}

/// How much the inputs reach.
#[derive(Default)]
struct Seen {
    sites: u64,
    too_fine: u64,
    turned: u64,
    minus_zeros: u64,
    listed: u64,
    found: u64,
    hits: u64,
    misses: u64,
    cells: u64,
    outside: u64,
    faults: [u64; 6],
}

impl Held {
    fn new() -> Self {
        Self {
            build: Tally::new(["new", "Scene::new: head and six tables"]),
            long: Tally::new(["new, longer room", "zeros after each table"]),
            short: Tally::new(["new, a room one short", "5, nothing written"]),
            refused: Tally::new(["new, faulty input", "the first of 2, 3, 1, 4, 5"]),
            random: Tally::new(["random", "Scene::random: head and six tables"]),
            random_refused: Tally::new(["random, faulty", "the first of 2, 1, 4, 5"]),
            near: Tally::new([
                "polygons_near",
                "for_each_polygon_near, stamps, entries read",
            ]),
            near_short: Tally::new([
                "polygons_near, room one short",
                "8, ids zero, stamps the same",
            ]),
            near_refused: Tally::new(["polygons_near, faulty", "1 or 7, nothing written"]),
            engines: Engines::new(),
            items_at: Tally::new(["items_at, items_at_number", "items_at, or 1"]),
            polygon_at: Tally::new(["polygon_at", "polygon_at, or 1"]),
            cast_ray: Tally::new(["cast_ray", "cast_ray, cells entered, or 1"]),
            many: Tally::new([
                "held, hits: many in one call, no test",
                "polygon_at and cast_ray, counted",
            ]),
            reads: Tally::new([
                "ten questions that only read, no test",
                "our answers with it, in the domain",
            ]),
            edges: Tally::new(["edge, edge_end, edge_owner", "the same, or 1"]),
            polygons: Tally::new(["polygon, polygon_vertices", "the same, or 1"]),
            heads: Tally::new(["bounds, width, height, dims", "the same"]),
            stamps: Tally::new(["new_stamps", "new_stamps"]),
            seen: Seen::default(),
        }
    }

    /// All about one site. Where its tables differ, nothing more is asked.
    fn site(&mut self, r: &mut SplitMix64, plan: Plan) {
        let plan = self.ugly(r, plan);
        let clean = Plan {
            size: (loaded(plan.size.0), loaded(plan.size.1)),
            rings: plan
                .rings
                .iter()
                .map(|ring| ring.iter().map(|p| (loaded(p.0), loaded(p.1))).collect())
                .collect(),
        };
        let scene = clean.scene();
        let given = Given::new(&plan);
        self.seen.sites += 1;
        let Some(site) = self.tables(r, &clean, &scene, &given) else {
            return;
        };
        let gridded = Gridded::of_scene(&scene);
        self.heads(&clean, &scene, &site);
        self.queries(r, &clean, &scene, &gridded, &site);
        let mut many = Many::default();
        for kind in 0..questions::POINTS + 6 {
            let p = self.point(r, &scene, &gridded, kind);
            many.held += u64::from(self.points(&clean, &scene, &site, p));
            if in_domain(&[p.0, p.1]) {
                many.points.extend([loaded(p.0), loaded(p.1)]);
            }
        }
        for kind in 0..questions::RAYS + 4 {
            let ray = self.ray(r, &scene, &gridded, kind);
            many.hits += u64::from(self.rays(&clean, &scene, &site, ray));
            let (o, d) = (ray.origin, ray.direction);
            if in_domain(&[o.0, o.1, d.0, d.1]) && !ray.length.is_nan() {
                many.rays
                    .extend([o.0, o.1, d.0, d.1, ray.length].map(loaded));
            }
        }
        self.many(&clean, &site, many);
        self.places(r, &clean, &scene, &site);
    }

    /// Some rings turned, some zeros with a minus.
    fn ugly(&mut self, r: &mut SplitMix64, mut plan: Plan) -> Plan {
        for ring in &mut plan.rings {
            if r.below(3) == 0 {
                ring.reverse();
                self.seen.turned += 1;
            }
        }
        if r.below(3) == 0 {
            let seen = &mut self.seen.minus_zeros;
            let mut minus = |x: &mut f64| {
                if *x == 0.0 {
                    *x = -0.0;
                    *seen += 1;
                }
            };
            for p in plan.rings.iter_mut().flatten() {
                minus(&mut p.0);
                minus(&mut p.1);
            }
            minus(&mut plan.size.0);
        }
        plan
    }

    /// Room that is just enough, longer, and one short in each table.
    fn tables(
        &mut self,
        r: &mut SplitMix64,
        plan: &Plan,
        scene: &Scene,
        given: &Given,
    ) -> Option<Lent> {
        let rust = given::of_scene(scene);
        let cells = u64::from(rust.head.counts[0]) * u64::from(rust.head.counts[1]);
        let exact = given::rooms(&rust);
        if cells > 1_048_576 {
            self.seen.too_fine += 1;
            let mut ours = Lent::blank(exact);
            let status = ours.build(given.size, &given.points, &given.lens);
            let blank = given::refused(exact);
            self.refused.add(
                At(plan, "too many cells"),
                told_of!(status, &ours),
                told_of!(4u32, &blank),
            );
            return None;
        }
        let mut ours = Lent::blank(exact);
        let status = ours.build(given.size, &given.points, &given.lens);
        let before = self.build.differing();
        self.build.add(
            At(plan, "built"),
            told_of!(status, &ours),
            told_of!(0u32, &rust),
        );
        let same = self.build.differing() == before;

        let longer = given::longer(r, exact);
        let mut long = Lent::blank(longer);
        let status = long.build(given.size, &given.points, &given.lens);
        let theirs = given::stretched(&rust, longer);
        self.long.add(
            At(plan, "longer"),
            told_of!(status, &long),
            told_of!(0u32, &theirs),
        );

        for table in 0..6 {
            let Some(less) = given::one_short(exact, table) else {
                continue;
            };
            let mut short = Lent::blank(less);
            let status = short.build(given.size, &given.points, &given.lens);
            let blank = given::refused(less);
            self.short.add(
                At(plan, "one short"),
                told_of!(status, &short),
                told_of!(5u32, &blank),
            );
        }
        same.then_some(ours)
    }

    fn heads(&mut self, plan: &Plan, scene: &Scene, site: &Lent) {
        let (a, b) = site.bounds();
        let ((c, width), (e, height)) = (site.width(), site.height());
        let (d, dims) = site.dims();
        let (cols, rows) = scene.grid().dims();
        let rust = [cols as u32, rows as u32];
        self.heads.add(
            At(plan, "head"),
            Told {
                numbers: &[a.into(), c.into(), d.into(), e.into()],
                words: &[&dims],
                floats: &[&b, &[width, height]],
            },
            Told {
                numbers: &[0; 4],
                words: &[&rust],
                floats: &[&four(scene.bounds()), &[scene.width(), scene.height()]],
            },
        );
        let (f, inner_b) = site.inner_bounds();
        let ((g, inner_width), (h, inner_height)) = (site.inner_width(), site.inner_height());
        let (i, inner_dims) = site.inner_dims();
        self.reads.add(
            At(plan, "head"),
            Told {
                numbers: &[f.into(), g.into(), h.into(), i.into()],
                words: &[&inner_dims],
                floats: &[&inner_b, &[inner_width, inner_height]],
            },
            Told {
                numbers: &[a.into(), c.into(), e.into(), d.into()],
                words: &[&dims],
                floats: &[&b, &[width, height]],
            },
        );
        let (mut marks, mut epoch) = (vec![PATTERN; scene.polygons().len()], PATTERN);
        let status = site.new_stamps(&mut marks, &mut epoch);
        let stamps = scene.new_stamps();
        self.stamps.add(
            At(plan, "stamps"),
            Told {
                numbers: &[status.into(), epoch.into()],
                words: &[&marks],
                floats: &[],
            },
            Told {
                numbers: &[0, stamps.oracle_epoch().into()],
                words: &[stamps.oracle_marks()],
                floats: &[],
            },
        );
    }

    /// The stamps go on from query to query, or are set anew, often just before the epoch wraps.
    fn queries(
        &mut self,
        r: &mut SplitMix64,
        plan: &Plan,
        scene: &Scene,
        gridded: &Gridded,
        site: &Lent,
    ) {
        let n = scene.polygons().len();
        let mut marks = vec![0; n + r.below(2) as usize];
        let mut epoch = 0;
        for kind in 0..questions::BOXES {
            if r.below(3) == 0 {
                let any = r.bits() as u32;
                epoch = r.pick(&[0, 1, any, u32::MAX - 1, u32::MAX]);
                let next = epoch.wrapping_add(1);
                marks.fill_with(|| r.pick(&[0, 0, 1, epoch, next, any]));
            }
            let b = questions::asked_box(r, gridded, kind);
            self.engines.ask(scene, site, &b);
            if !in_domain(&b) {
                self.seen.outside += 1;
                self.not_near(plan, site, b, &marks, epoch, 1);
                continue;
            }
            if n > 0 {
                self.not_near(plan, site, b, &marks[..n - 1], epoch, 7);
            }
            let b = b.map(loaded);
            let mut stamps = Stamps::oracle_from(marks.clone(), epoch);
            let mut ids = Vec::new();
            scene.for_each_polygon_near(&aabb(b), &mut stamps, |id| ids.push(id));
            let read = scene.grid().oracle_entries(&aabb(b)) as u64;
            self.seen.listed += ids.len() as u64;
            for room in [
                ids.len(),
                ids.len() + 1 + r.below(3) as usize,
                ids.len().wrapping_sub(1),
            ] {
                if room == usize::MAX {
                    continue;
                }
                let (mut our_marks, mut our_epoch) = (marks.clone(), epoch);
                let mut ours = vec![PATTERN; room];
                let (status, tally) =
                    site.polygons_near(&b, &mut our_marks, &mut our_epoch, &mut ours);
                let fits = room >= ids.len();
                let (numbers, theirs) = if fits {
                    ([0, ids.len() as u64, read], padded(&ids, room, 0))
                } else {
                    ([8, 0, 0], vec![0; room])
                };
                let tally_of = if fits {
                    &mut self.near
                } else {
                    &mut self.near_short
                };
                tally_of.add(
                    At(
                        plan,
                        &format!("box {b:?}, epoch {epoch}, marks {marks:?}, room {room}"),
                    ),
                    Told {
                        numbers: &[status.into(), tally[0], tally[1], our_epoch.into()],
                        words: &[&ours, &our_marks],
                        floats: &[],
                    },
                    Told {
                        numbers: &[
                            numbers[0],
                            numbers[1],
                            numbers[2],
                            stamps.oracle_epoch().into(),
                        ],
                        words: &[&theirs, stamps.oracle_marks()],
                        floats: &[],
                    },
                );
            }
            marks = stamps.oracle_marks().to_vec();
            epoch = stamps.oracle_epoch();
        }
    }

    /// Refused, and nothing written.
    fn not_near(
        &mut self,
        plan: &Plan,
        site: &Lent,
        b: [f64; 4],
        marks: &[u32],
        epoch: u32,
        no: u64,
    ) {
        let (mut our_marks, mut our_epoch) = (marks.to_vec(), epoch);
        let mut ids = [PATTERN; 3];
        let (status, tally) = site.polygons_near(&b, &mut our_marks, &mut our_epoch, &mut ids);
        self.near_refused.add(
            At(plan, &format!("box {b:?}, {} marks", marks.len())),
            Told {
                numbers: &[status.into(), tally[0], tally[1], our_epoch.into()],
                words: &[&ids, &our_marks],
                floats: &[],
            },
            Told {
                numbers: &[no, 0, 0, epoch.into()],
                words: &[&[PATTERN; 3], marks],
                floats: &[],
            },
        );
    }

    /// The grid's points, and points on and beside corners and edges, and out of the domain.
    fn point(
        &mut self,
        r: &mut SplitMix64,
        scene: &Scene,
        gridded: &Gridded,
        kind: usize,
    ) -> Point {
        let vertices = scene.vertices();
        if kind < questions::POINTS || vertices.is_empty() {
            return questions::asked_point(r, gridded, kind % questions::POINTS);
        }
        let v = r.below(vertices.len() as u64) as u32;
        let (a, b) = scene.edge(v);
        let beside = |r: &mut SplitMix64, x: f64| bits::step(x, r.whole(-2, 2));
        match kind - questions::POINTS {
            0 => (a.x, a.y),
            1 => (beside(r, a.x), beside(r, a.y)),
            2 => ((a.x + b.x) / 2.0, (a.y + b.y) / 2.0),
            3 => {
                let t = r.unit();
                (a.x + (b.x - a.x) * t, beside(r, a.y + (b.y - a.y) * t))
            }
            4 => {
                let box_ = scene.polygon(scene.edge_owner(v)).aabb;
                if box_.is_empty() {
                    return (a.x, -0.0);
                }
                (
                    r.between(box_.min.x, box_.max.x),
                    r.between(box_.min.y, box_.max.y),
                )
            }
            _ => {
                let bad = r.pick(&[
                    f64::NAN,
                    f64::INFINITY,
                    bits::step(MILLION, 1),
                    -1_000_001.0,
                ]);
                r.pick(&[(bad, a.y), (a.x, bad)])
            }
        }
    }

    /// Whether the Rust finds a polygon.
    fn points(&mut self, plan: &Plan, scene: &Scene, site: &Lent, p: Point) -> bool {
        let at = format!("point {p:?}");
        let inside = in_domain(&[p.0, p.1]);
        self.seen.outside += u64::from(!inside);
        let q = vec2((loaded(p.0), loaded(p.1)));

        let (status, number) = site.items_at_number(p);
        let shown = number.min(8_192) as usize;
        let ours: Vec<u32> = (0..shown + 2).map(|i| site.item_at(p, i)).collect();
        let rust = if inside {
            scene.grid().items_at(q)
        } else {
            &[]
        };
        self.items_at.add(
            At(plan, &at),
            Told {
                numbers: &[status.into(), number],
                words: &[&ours],
                floats: &[],
            },
            Told {
                numbers: &[u64::from(!inside), rust.len() as u64],
                words: &[&padded(rust, rust.len() + 2, 0)],
                floats: &[],
            },
        );

        if inside {
            let (inner_status, inner_number) = site.inner_items_at_number(p);
            self.reads.add(
                At(plan, &at),
                (inner_status, inner_number),
                (status, number),
            );
        }

        let (status, found) = site.polygon_at(p);
        let rust = if inside { scene.polygon_at(q) } else { None };
        self.seen.found += u64::from(rust.is_some());
        self.polygon_at.add(
            At(plan, &at),
            Told {
                numbers: &[status.into()],
                words: &[&found],
                floats: &[],
            },
            Told {
                numbers: &[u64::from(!inside)],
                words: &[&[u32::from(rust.is_some()), rust.unwrap_or(0)]],
                floats: &[],
            },
        );
        rust.is_some()
    }

    /// The grid's rays, and rays at corners and along edges, and out of the domain.
    fn ray(&mut self, r: &mut SplitMix64, scene: &Scene, gridded: &Gridded, kind: usize) -> Ray {
        let vertices = scene.vertices();
        if kind < questions::RAYS || vertices.is_empty() {
            return questions::asked_ray(r, gridded, kind % questions::RAYS);
        }
        let (e, f) = (
            r.below(vertices.len() as u64) as u32,
            r.below(vertices.len() as u64) as u32,
        );
        let ((a, b), (c, _)) = (scene.edge(e), scene.edge(f));
        let away = (r.between(-50.0, 150.0), r.between(-50.0, 150.0));
        let length = r.pick(&[1.0, 100.0, f64::INFINITY, 1e6, 2.0]);
        let (origin, direction) = match kind - questions::RAYS {
            0 => (away, (a.x - away.0, a.y - away.1)),
            1 => ((a.x, a.y), (b.x - a.x, b.y - a.y)),
            2 => ((c.x, c.y), (a.x - c.x, a.y - c.y)),
            _ => {
                let bad = r.pick(&[f64::NAN, f64::INFINITY, bits::step(MILLION, 1)]);
                r.pick(&[
                    ((bad, a.y), (1.0, 0.0)),
                    ((a.x, a.y), (0.0, bad)),
                    ((a.x, a.y), (0.6, 0.8)),
                ])
            }
        };
        let length = if kind == questions::RAYS + 3 && r.below(2) == 0 {
            f64::NAN
        } else {
            length
        };
        Ray {
            origin,
            direction,
            length,
        }
    }

    /// Whether the Rust finds a hit.
    fn rays(&mut self, plan: &Plan, scene: &Scene, site: &Lent, ray: Ray) -> bool {
        let (o, d) = (ray.origin, ray.direction);
        let inside = in_domain(&[o.0, o.1, d.0, d.1]) && !ray.length.is_nan();
        self.seen.outside += u64::from(!inside);
        let (status, t, found) = site.cast_ray(o, d, ray.length, 0);
        seam::reset();
        let rust = if inside {
            scene.cast_ray(
                vec2((loaded(o.0), loaded(o.1))),
                vec2((loaded(d.0), loaded(d.1))),
                loaded(ray.length),
            )
        } else {
            None
        };
        let cells = seam::counts()[seam::CELLS] as u64;
        self.seen.cells += cells;
        self.seen.hits += u64::from(rust.is_some());
        self.seen.misses += u64::from(rust.is_none() && inside);
        let hit = [
            u64::from(rust.is_some()),
            rust.map_or(0, |h| h.edge.into()),
            cells,
        ];
        self.cast_ray.add(
            At(plan, &format!("ray {o:?} {d:?} {}", ray.length)),
            Told {
                numbers: &[status.into(), found[0], found[1], found[2]],
                words: &[],
                floats: &[&[t]],
            },
            Told {
                numbers: &[u64::from(!inside), hit[0], hit[1], hit[2]],
                words: &[],
                floats: &[&[rust.map_or(0.0, |h| h.t)]],
            },
        );
        rust.is_some()
    }

    /// The site's questions inside the domain once more, many in one call and without the tests. A
    /// number too many is no point, and four are no ray.
    fn many(&mut self, plan: &Plan, site: &Lent, mut many: Many) {
        many.points.push(0.5);
        many.rays.extend([0.5; 4]);
        let ours = [site.inner_held(&many.points), site.inner_hits(&many.rays)];
        let told = |numbers| Told {
            numbers,
            words: &[],
            floats: &[],
        };
        self.many.add(
            At(plan, "many in one call"),
            told(&ours),
            told(&[many.held, many.hits]),
        );
    }

    /// Edges and polygons by number, one past the last and any number too.
    fn places(&mut self, r: &mut SplitMix64, plan: &Plan, scene: &Scene, site: &Lent) {
        let (points, polygons) = (scene.vertices().len() as u32, scene.polygons().len() as u32);
        for k in 0..4 {
            let some = r.below(u64::from(points) + 1) as u32;
            let any = r.bits() as u32;
            let e = [some, points.wrapping_sub(1), points, any][k];
            let known = e < points;
            let (a, ends) = site.edge(e);
            let (b, end) = site.edge_end(e);
            let (c, owner) = site.edge_owner(e);
            let rust = known.then(|| (scene.edge(e), scene.edge_end(e), scene.edge_owner(e)));
            let theirs = rust.map_or(([0.0; 4], 0, 0), |((p, q), end, owner)| {
                ([p.x, p.y, q.x, q.y], end, owner)
            });
            let no = u64::from(!known);
            self.edges.add(
                At(plan, &format!("edge {e}")),
                Told {
                    numbers: &[a.into(), b.into(), c.into()],
                    words: &[&[end, owner]],
                    floats: &[&ends],
                },
                Told {
                    numbers: &[no; 3],
                    words: &[&[theirs.1, theirs.2]],
                    floats: &[&theirs.0],
                },
            );

            if known {
                let (f, inner_ends) = site.inner_edge(e);
                let (g, inner_end) = site.inner_edge_end(e);
                let (h, inner_owner) = site.inner_edge_owner(e);
                self.reads.add(
                    At(plan, &format!("edge {e}")),
                    Told {
                        numbers: &[f.into(), g.into(), h.into()],
                        words: &[&[inner_end, inner_owner]],
                        floats: &[&inner_ends],
                    },
                    Told {
                        numbers: &[a.into(), b.into(), c.into()],
                        words: &[&[end, owner]],
                        floats: &[&ends],
                    },
                );
            }

            let some = r.below(u64::from(polygons) + 1) as u32;
            let id = [some, polygons.wrapping_sub(1), polygons, any][k];
            let known = id < polygons;
            let no = u64::from(!known);
            let (a, place, b) = site.polygon(id);
            let rust = known.then(|| scene.polygon(id));
            let corners = if known {
                scene.polygon_vertices(id)
            } else {
                &[]
            };
            let flat: Vec<f64> = corners
                .iter()
                .flat_map(|v| [v.x, v.y])
                .chain([f64::NAN; 2])
                .collect();
            let (c, number) = site.polygon_vertices_number(id);
            let ours: Vec<f64> = (0..flat.len())
                .map(|i| site.polygon_vertex(id, i))
                .collect();
            self.polygons.add(
                At(plan, &format!("polygon {id}")),
                Told {
                    numbers: &[a.into(), c.into(), number],
                    words: &[&place],
                    floats: &[&b, &ours],
                },
                Told {
                    numbers: &[no, no, corners.len() as u64],
                    words: &[&rust.map_or([0; 2], |p| [p.first, p.len])],
                    floats: &[&rust.map_or([0.0; 4], |p| four(p.aabb)), &flat],
                },
            );
            if known {
                let (f, inner_place, inner_b) = site.inner_polygon(id);
                let (g, inner_number) = site.inner_polygon_vertices_number(id);
                self.reads.add(
                    At(plan, &format!("polygon {id}")),
                    Told {
                        numbers: &[f.into(), g.into(), inner_number],
                        words: &[&inner_place],
                        floats: &[&inner_b],
                    },
                    Told {
                        numbers: &[a.into(), c.into(), number],
                        words: &[&place],
                        floats: &[&b],
                    },
                );
            }
        }
    }

    /// Inputs with one fault or several: the first of the order answers, and nothing is written.
    fn faults(&mut self) {
        let r = &mut SplitMix64::new(5_900);
        let groups = sites::groups();
        for i in 0..60_000 {
            let group = &groups[i % 9];
            let plan = (group.make)(r);
            let (mut given, mut rooms) = (Given::new(&plan), given::some_rooms(r));
            given.spoil(r, &mut rooms);
            let expected = given.verdict(rooms);
            self.seen.faults[expected as usize] += 1;
            if expected == 0 {
                continue;
            }
            let mut ours = Lent::blank(rooms);
            let status = ours.build(given.size, &given.points, &given.lens);
            let blank = given::refused(rooms);
            self.refused.add(
                At(&plan, &given.show()),
                told_of!(status, &ours),
                told_of!(expected, &blank),
            );
        }
    }

    /// Random sites, from one and no polygon to 4,096, in wide and narrow worlds; a room one short in each
    /// table; sizes and numbers outside the limits, alone and with others.
    fn random(&mut self) {
        let r = &mut SplitMix64::new(5_950);
        for i in 0..6_000 {
            let some = sites::some(r) as u32;
            let number = if i % 200 == 0 { 4_096 } else { some };
            let any = r.between(0.0, 3_000.0);
            let sides = [
                2_000.0, any, 0.0, -0.0, 0.5, 1.0, 1.999, 9e5, 899_999.5, 300.0,
            ];
            let size = (r.pick(&sides), r.pick(&[any, 2_000.0, 0.0, 0.9, 9e5]));
            let any_seed = r.bits();
            let seed = r.pick(&[any_seed, any_seed, 0, u64::MAX, 0x5EED]);
            let scene = Scene::random(&SceneConfig {
                width: loaded(size.0),
                height: loaded(size.1),
                polygon_count: number as usize,
                seed,
            });
            let plan = Plan {
                size,
                rings: Vec::new(),
            };
            let at = format!("{number} polygons, seed {seed}");
            let rust = given::of_scene(&scene);
            let exact = given::rooms(&rust);
            let (cols, rows) = scene.grid().dims();
            if cols * rows > 1_048_576 {
                let mut ours = Lent::blank(given::some_rooms(r));
                let blank = given::refused(given::rooms(&ours));
                let status = ours.random(size, number, seed);
                self.random_refused.add(
                    At(&plan, &at),
                    told_of!(status, &ours),
                    told_of!(4u32, &blank),
                );
                continue;
            }
            let longer = given::longer(r, exact);
            let mut ours = Lent::blank(longer);
            let status = ours.random(size, number, seed);
            let theirs = given::stretched(&rust, longer);
            self.random.add(
                At(&plan, &at),
                told_of!(status, &ours),
                told_of!(0u32, &theirs),
            );
            let table = r.below(6) as usize;
            if let Some(less) = given::one_short(exact, table) {
                let mut short = Lent::blank(less);
                let status = short.random(size, number, seed);
                let blank = given::refused(less);
                self.random_refused.add(
                    At(&plan, &at),
                    told_of!(status, &short),
                    told_of!(5u32, &blank),
                );
            }
            let far = r.pick(&[bits::step(9e5, 1), f64::NAN, -1.0, f64::INFINITY, 1e6]);
            let many = r.pick(&[4_097, u32::MAX]);
            for (size, number, no) in [
                ((far, size.1), number, 1u32),
                ((size.0, far), number, 1),
                (size, many, 2),
                ((far, far), many, 2),
            ] {
                let mut ours = Lent::blank(exact);
                let status = ours.random(size, number, seed);
                let blank = given::refused(exact);
                self.random_refused.add(
                    At(&plan, &at),
                    told_of!(status, &ours),
                    told_of!(no, &blank),
                );
            }
        }
    }

    fn print(self) -> bool {
        self.seen.print();
        tally::print(&[
            self.build,
            self.long,
            self.short,
            self.refused,
            self.random,
            self.random_refused,
            self.near,
            self.near_short,
            self.near_refused,
            self.engines.rust.listed,
            self.engines.rust.short,
            self.engines.rust.refused,
            self.engines.tables,
            self.engines.cells,
            self.items_at,
            self.polygon_at,
            self.cast_ray,
            self.many,
            self.reads,
            self.edges,
            self.polygons,
            self.heads,
            self.stamps,
        ])
    }
}

impl Seen {
    fn print(&self) {
        let mut table = Table::new(&["what the inputs reach", "count"]);
        for (what, n) in [
            ("sites", self.sites),
            ("refused 4, over the limit of cells", self.too_fine),
            ("rings turned", self.turned),
            ("minus zeros given", self.minus_zeros),
            ("ids listed", self.listed),
            ("points in a polygon", self.found),
            ("rays that hit", self.hits),
            ("rays that miss", self.misses),
            ("cells entered", self.cells),
            ("questions outside the domain", self.outside),
            ("faulty inputs refused 1", self.faults[1]),
            ("refused 2", self.faults[2]),
            ("refused 3", self.faults[3]),
            ("refused 4", self.faults[4]),
            ("refused 5", self.faults[5]),
        ] {
            table.row(vec![what.to_string(), count(n)]);
        }
        table.print();
    }
}
