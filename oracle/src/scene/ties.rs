//! The single ray in mode 1, ties credited (document 02's Q-3): held against the published Rust with one
//! arm more in `cast_ray`, and against our own answer in mode 0, from which only the edge may differ.

use super::given::{self, Given};
use super::{At, Held, Told, in_domain, loaded, unsound, vec2};
use crate::grid::questions;
use crate::grid::sites::Site as Gridded;
use crate::lent::Lent;
use crate::probe::Ray;
use crate::sites::{self, Group, Plan, Point, ties};
use crate::util::bits::step;
use crate::util::rng::SplitMix64;
use crate::util::table::{Table, count};
use crate::util::tally::{self, Tally};
use oracle::ties::in_mode;
use oracle::{RayHit, Scene, seam};

/// Rays of each site.
const RAYS: usize = 24;

pub fn compare() -> bool {
    println!("`cast_ray` in mode 1, ties credited:\n");
    let mut rays = Rays::new();
    for (i, group) in groups().iter().enumerate() {
        let r = &mut SplitMix64::new(5_300 + i as u64);
        let mut reach = Reach::default();
        for _ in 0..group.sites {
            let plan = (group.make)(r);
            rays.site(r, &plan, &mut reach);
        }
        rays.group(group, reach);
    }
    rays.print()
}

/// The groups of ties, and all sites that other questions are asked over.
fn groups() -> Vec<Group> {
    let mut all = ties::groups();
    for g in sites::groups().into_iter().take(9) {
        all.push(Group { sites: 500, ..g });
    }
    all
}

/// Square on walls, through corners, along lattices and edges; of just the distance, and as other rays are.
pub fn ray(r: &mut SplitMix64, held: &mut Held, scene: &Scene, gridded: &Gridded) -> Ray {
    let kind = r.below(8);
    let vertices = scene.vertices();
    let lattice = ties::on_lattice(r, scene);
    let (Some((post, foot)), 0..=6) = (ties::before_wall(r, scene), kind) else {
        let other = r.below(questions::RAYS as u64 + 4);
        return held.ray(r, scene, gridded, other as usize);
    };
    let corner = |r: &mut SplitMix64| {
        let v = vertices[r.below(vertices.len() as u64) as usize];
        (v.x, v.y)
    };
    let (from, to) = (corner(r), corner(r));
    let towards = |from: Point, to: Point| (to.0 - from.0, to.1 - from.1);
    let level = |x: f64| if x == 0.0 { 0.0 } else { x.signum() };
    let (dx, dy) = towards(post, foot);
    let away = dx.abs() + dy.abs();
    let ways = [
        (1.0, 0.0),
        (-1.0, 0.0),
        (0.0, 1.0),
        (0.0, -1.0),
        (1.0, 1.0),
        (1.0, -1.0),
        (-1.0, 1.0),
        (2.0, 1.0),
        (0.6, 0.8),
        (-0.8, 0.6),
    ];
    let (origin, direction, reach) = match kind {
        0 => (post, (dx, dy), 1.0),
        1 if dx == 0.0 || dy == 0.0 => (post, (level(dx), level(dy)), away),
        1 | 2 => (lattice, towards(lattice, to), 1.0),
        3 => (lattice, r.pick(&ways), 5.0),
        4 => (post, towards(post, to), 1.0),
        5 => (from, towards(from, to), 1.0),
        _ => {
            let (dx, dy) = towards(from, to);
            ((from.0 - dx, from.1 - dy), (dx, dy), 1.0)
        }
    };
    let beside = step(reach, r.whole(-2, 2));
    let whole = r.whole(1, 30) as f64;
    Ray {
        origin,
        direction,
        length: r.pick(&[
            f64::INFINITY,
            f64::INFINITY,
            1e6,
            reach,
            reach,
            beside,
            whole,
        ]),
    }
}

/// What the rays of a group reach.
#[derive(Clone, Copy, Default)]
struct Reach {
    rays: u64,
    hits: u64,
    edges: u64,
    owners: u64,
    at_length: u64,
}

impl Reach {
    fn join(&mut self, o: Self) {
        self.rays += o.rays;
        self.hits += o.hits;
        self.edges += o.edges;
        self.owners += o.owners;
        self.at_length += o.at_length;
    }
}

struct Rays {
    held: Held,
    table: Table,
    all: Reach,
    sites: u64,
    tied: Tally,
    old: Tally,
    alike: Tally,
    inner: Tally,
    refused: Tally,
    unsound: Tally,
}

/// The Rust's answer, and the cells that it entered.
pub fn rust(scene: &Scene, ray: Ray, mode: u32) -> (Option<RayHit>, u64) {
    let (o, d) = (ray.origin, ray.direction);
    let (o, d) = (
        vec2((loaded(o.0), loaded(o.1))),
        vec2((loaded(d.0), loaded(d.1))),
    );
    seam::reset();
    let hit = in_mode(mode, || scene.cast_ray(o, d, loaded(ray.length)));
    (hit, seam::counts()[seam::CELLS] as u64)
}

fn told<'a>(numbers: &'a [u64], floats: &'a [&'a [f64]]) -> Told<'a> {
    Told {
        numbers,
        words: &[],
        floats,
    }
}

impl Rays {
    fn new() -> Self {
        Self {
            held: Held::new(),
            table: Table::new(&[
                "inputs: sites",
                "sites",
                "rays",
                "hits",
                "another edge than in mode 0",
                "of another polygon",
                "misses with an edge at just the length",
            ]),
            all: Reach::default(),
            sites: 0,
            tied: Tally::new([
                "cast_ray, mode 1",
                "cast_ray with the lowest of equal edges, cells entered, or 1",
            ]),
            old: Tally::new(["cast_ray, mode 0", "cast_ray, cells entered, or 1"]),
            alike: Tally::new([
                "status, hit, distance and cells, mode 1",
                "ours in mode 0; the edge not above",
            ]),
            inner: Tally::new([
                "cast_ray without the tests, mode 1",
                "our answer with them, in the domain",
            ]),
            refused: Tally::new(["a mode above 1, alone or with a NaN", "1, all zero"]),
            unsound: Tally::new(["any mode over unsound tables", "6, all zero"]),
        }
    }

    fn site(&mut self, r: &mut SplitMix64, plan: &Plan, reach: &mut Reach) {
        let scene = plan.scene();
        let (cols, rows) = scene.grid().dims();
        if cols * rows > 1_048_576 {
            return;
        }
        let given = Given::new(plan);
        let mut site = Lent::blank(given::rooms(&given::of_scene(&scene)));
        assert!(
            site.build(given.size, &given.points, &given.lens) == 0,
            "a site of ours"
        );
        let gridded = Gridded::of_scene(&scene);
        for _ in 0..RAYS {
            let ray = ray(r, &mut self.held, &scene, &gridded);
            self.one(plan, &scene, &site, ray, reach);
        }
        let ray = ray(r, &mut self.held, &scene, &gridded);
        self.modes(r, plan, &site, ray);
    }

    fn one(&mut self, plan: &Plan, scene: &Scene, site: &Lent, ray: Ray, reach: &mut Reach) {
        let (o, d) = (ray.origin, ray.direction);
        let inside = in_domain(&[o.0, o.1, d.0, d.1]) && !ray.length.is_nan();
        let text = format!("ray {o:?} {d:?} {}", ray.length);
        let at = At(plan, &text);
        let mut ours = [(0, 0.0, [0; 3]); 2];
        let mut theirs = [None; 2];
        for mode in [0, 1] {
            let (status, t, found) = site.cast_ray(o, d, ray.length, mode);
            let (hit, cells) = if inside {
                rust(scene, ray, mode)
            } else {
                (None, 0)
            };
            let edge = hit.map_or(0, |h| h.edge.into());
            let tally = if mode == 0 {
                &mut self.old
            } else {
                &mut self.tied
            };
            tally.add(
                at,
                told(&[status.into(), found[0], found[1], found[2]], &[&[t]]),
                told(
                    &[u64::from(!inside), hit.is_some().into(), edge, cells],
                    &[&[hit.map_or(0.0, |h| h.t)]],
                ),
            );
            ours[mode as usize] = (status, t, found);
            theirs[mode as usize] = hit;
        }
        let [(status, t, found), (status_1, t_1, found_1)] = ours;
        self.alike.add(
            at,
            told(
                &[
                    status_1.into(),
                    found_1[0],
                    found_1[2],
                    u64::from(found_1[1] <= found[1]),
                ],
                &[&[t_1]],
            ),
            told(&[status.into(), found[0], found[2], 1], &[&[t]]),
        );
        if inside {
            let (o, d) = ((loaded(o.0), loaded(o.1)), (loaded(d.0), loaded(d.1)));
            let (t, found) = site.inner_cast_ray(o, d, loaded(ray.length), 1);
            self.inner
                .add(at, told(&found, &[&[t]]), told(&found_1, &[&[t_1]]));
        }
        reach.rays += 1;
        let [old, tied] = theirs;
        reach.hits += u64::from(tied.is_some());
        if let (Some(old), Some(tied)) = (old, tied) {
            let other = scene.edge_owner(old.edge) != scene.edge_owner(tied.edge);
            reach.edges += u64::from(old.edge != tied.edge);
            reach.owners += u64::from(other);
        }
        if inside && tied.is_none() {
            let endless = Ray {
                length: f64::INFINITY,
                ..ray
            };
            let next = rust(scene, endless, 1).0;
            reach.at_length += u64::from(next.is_some_and(|h| h.t == ray.length));
        }
    }

    /// Modes that there are not: 1, after 6.
    fn modes(&mut self, r: &mut SplitMix64, plan: &Plan, site: &Lent, ray: Ray) {
        let broken = unsound(r, site);
        let any = 2 + r.below(u64::from(u32::MAX) - 1) as u32;
        let (o, d) = (ray.origin, ray.direction);
        for mode in [2, 3, u32::MAX, any, 0, 1] {
            for (no, site, length) in [
                (1, site, ray.length),
                (1, site, f64::NAN),
                (6, &broken, ray.length),
                (6, &broken, f64::NAN),
            ] {
                if mode < 2 && no == 1 {
                    continue;
                }
                let (status, t, found) = site.cast_ray(o, d, length, mode);
                let tally = if no == 1 {
                    &mut self.refused
                } else {
                    &mut self.unsound
                };
                tally.add(
                    At(plan, &format!("ray {o:?} {d:?} {length}, mode {mode}")),
                    told(&[status.into(), found[0], found[1], found[2]], &[&[t]]),
                    told(&[no, 0, 0, 0], &[&[0.0]]),
                );
            }
        }
    }

    fn row(&mut self, what: &str, sites: u64, c: Reach) {
        let numbers = [sites, c.rays, c.hits, c.edges, c.owners, c.at_length];
        let cells = numbers.map(count);
        self.table
            .row([what.to_string()].into_iter().chain(cells).collect());
    }

    fn group(&mut self, group: &Group, reach: Reach) {
        self.row(group.what, group.sites as u64, reach);
        self.all.join(reach);
        self.sites += group.sites as u64;
    }

    fn print(mut self) -> bool {
        self.row("all", self.sites, self.all);
        self.table.print();
        tally::print(&[
            self.tied,
            self.old,
            self.alike,
            self.inner,
            self.refused,
            self.unsound,
        ])
    }
}
