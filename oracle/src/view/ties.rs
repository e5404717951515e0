//! Outlines in mode 1, ties credited (document 02's Q-3): all that `view` compares, held against the
//! published Rust with the five places of `prepare.rs`, on sites whose edges are often at equal
//! distances. Besides: how much the mode changes there, and modes that there are not.

use super::{Asked, At, Held, VIEWS, close_lattice, crossing, lent, rust, told};
use crate::lent::{Cone, room_for};
use crate::scene;
use crate::sites::{self, Group, ties};
use crate::util::bits::step;
use crate::util::rng::SplitMix64;
use crate::util::table::{Table, count};
use crate::util::tally::{self, Tally};
use ffi::bf_atan2;
use oracle::{Scene, Vec2};
use std::f64::consts::{FRAC_PI_2, FRAC_PI_4, PI, TAU};

pub fn compare() -> bool {
    println!("Mode 1, ties credited:\n");
    let mut beside = Beside::new();
    let mut held = Held::new(1);
    for (i, group) in groups().iter().enumerate() {
        let r = &mut SplitMix64::new(7_300 + i as u64);
        let mut changes = Changes::default();
        for _ in 0..group.sites {
            let plan = (group.make)(r);
            held.site(r, &plan, cone, |asked| {
                changes.add(&asked);
                if asked.first {
                    beside.modes(&asked);
                }
            });
        }
        beside.group(group, changes);
    }
    beside.print();
    let outlines = held.print();
    tally::print(&[beside.refused, beside.unsound]) && outlines
}

/// The groups of ties, and all that mode 0 is asked over.
fn groups() -> Vec<Group> {
    let group = |what, sites, make| Group { what, sites, make };
    let mut all = ties::groups();
    for g in sites::groups().into_iter().take(9) {
        all.push(group(g.what, 400, g.make));
    }
    all.push(group("triangles that cross each other", 400, crossing));
    all.push(group(
        "squares on a lattice, close together",
        1_000,
        close_lattice,
    ));
    all.push(group("1,000 to 4,096 polygons", 8, sites::many));
    all
}

/// One of four as mode 0 is asked. The rest stand square before a wall, at times with just its distance as
/// the range, or on a lattice, and often look along a lattice or past the place that they are square on.
pub fn cone(r: &mut SplitMix64, scene: &Scene) -> Cone {
    if r.below(4) == 0 {
        return super::cone(r, scene);
    }
    let (mut post, mut at) = standing(r, scene);
    for _ in 0..3 {
        if scene.polygon_at(Vec2::new(post.0, post.1)).is_some() {
            (post, at) = standing(r, scene);
        }
    }
    let (dx, dy) = (at.0 - post.0, at.1 - post.1);
    let (ahead, distance) = (bf_atan2(dy, dx), (dx * dx + dy * dy).sqrt());
    let any = r.between(0.01, 6.2);
    let narrow = r.pick(&[2e-9, 1e-8, 3e-8, 1e-6, 1e-3]);
    let fov = r.pick(&[
        7.0, 7.0, 7.0, TAU, FRAC_PI_4, FRAC_PI_2, FRAC_PI_2, PI, any, narrow,
    ]);
    let lattice = r.whole(-8, 8) as f64 * FRAC_PI_4;
    let direction = r.pick(&[
        ahead,
        ahead,
        ahead + fov.min(TAU) / 2.0,
        ahead - fov.min(TAU) / 2.0,
        lattice,
        lattice,
        0.0,
    ]);
    let beside = step(distance, r.whole(-3, 3));
    let near = r.between(distance, 3.0 * distance + 1.0);
    let range = r.pick(&[
        distance, beside, near, near, 100.0, 100.0, 30.0, 10.0, 5.0, 1_000.0,
    ]);
    Cone {
        post,
        range: range.min(1e6),
        direction,
        fov,
    }
}

/// A post, and a place to look at.
fn standing(r: &mut SplitMix64, scene: &Scene) -> (sites::Point, sites::Point) {
    let square = ties::before_wall(r, scene);
    let (lattice, other) = (ties::on_lattice(r, scene), ties::on_lattice(r, scene));
    match square {
        Some(both) if r.below(2) == 0 => both,
        Some((_, foot)) if r.below(2) == 0 => (lattice, foot),
        _ => (lattice, other),
    }
}

/// How far the outlines of a group differ from those of mode 0.
#[derive(Clone, Copy, Default)]
struct Changes {
    outlines: u64,
    tied: u64,
    shared: u64,
    ids: u64,
    lost: u64,
    points: u64,
    counts: u64,
}

impl Changes {
    fn add(&mut self, a: &Asked) {
        let old = rust(a.scene, a.cone, a.tolerance, 0, a.marks, a.epoch);
        let lost = |id: &u32| a.rust.visible.binary_search(id).is_err();
        self.outlines += 1;
        self.tied += u64::from(a.rust.shared > 0);
        self.shared += a.rust.shared;
        self.ids += u64::from(a.rust.visible != old.visible);
        self.lost += u64::from(old.visible.iter().any(lost));
        self.points += u64::from(a.rust.outline != old.outline);
        self.counts += u64::from(a.rust.answer[4..] != old.answer[4..]);
    }

    fn join(&mut self, other: Self) {
        self.outlines += other.outlines;
        self.tied += other.tied;
        self.shared += other.shared;
        self.ids += other.ids;
        self.lost += other.lost;
        self.points += other.points;
        self.counts += other.counts;
    }
}

struct Beside {
    r: SplitMix64,
    table: Table,
    all: Changes,
    refused: Tally,
    unsound: Tally,
}

impl Beside {
    fn new() -> Self {
        Self {
            r: SplitMix64::new(7_390),
            table: Table::new(&[
                "inputs: sites",
                "sites",
                "outlines",
                "with a tie of two owners",
                "owners credited more",
                "other ids than in mode 0",
                "an id of mode 0 missing",
                "another outline",
                "other counts",
            ]),
            all: Changes::default(),
            refused: Tally::new([
                "a mode above 1, alone or with other faults",
                "1, nothing written",
            ]),
            unsound: Tally::new(["any mode over unsound tables", "6, nothing written"]),
        }
    }

    fn row(&mut self, what: &str, sites: u64, c: Changes) {
        let numbers = [
            sites, c.outlines, c.tied, c.shared, c.ids, c.lost, c.points, c.counts,
        ];
        let cells = numbers.map(count);
        self.table
            .row([what.to_string()].into_iter().chain(cells).collect());
    }

    fn group(&mut self, group: &Group, changes: Changes) {
        assert!(changes.outlines <= (group.sites * VIEWS) as u64);
        self.row(group.what, group.sites as u64, changes);
        self.all.join(changes);
    }

    fn print(&mut self) {
        let sites = groups().iter().map(|g| g.sites as u64).sum();
        self.row("all", sites, self.all);
        self.table.print();
    }

    /// Modes that there are not: 1, after 6 and before 7 and 8, whatever else is wrong.
    fn modes(&mut self, a: &Asked) {
        let r = &mut self.r;
        let broken = scene::unsound(r, a.site);
        let any = 2 + r.below(u64::from(u32::MAX) - 1) as u32;
        let outside = Cone {
            direction: r.pick(&[f64::NAN, 101.0]),
            ..a.cone
        };
        let few = &a.marks[..a.scene.polygons().len().saturating_sub(1)];
        let (enough, none) = (a.rust.needs, [0; 9]);
        let faults = [
            (1, a.site, a.cone, a.marks, enough),
            (1, a.site, a.cone, few, enough),
            (1, a.site, a.cone, a.marks, none),
            (1, a.site, outside, few, none),
            (6, &broken, a.cone, a.marks, enough),
            (6, &broken, outside, few, none),
        ];
        for mode in [2, 3, u32::MAX, any, 0, 1] {
            for (no, site, cone, marks, k) in faults {
                if mode < 2 && no == 1 {
                    continue;
                }
                let (points, ids) = (a.rust.outline.len(), a.rust.visible.len());
                let blank = lent(marks, a.epoch, room_for(k), points, ids);
                let mut w = blank.clone();
                let answer = site.outline(cone, a.tolerance, mode, k, &mut w);
                let tally = if no == 1 {
                    &mut self.refused
                } else {
                    &mut self.unsound
                };
                tally.add(
                    At(a.plan, cone, a.tolerance, mode, k),
                    told(answer, &w),
                    told((no, [0; 9]), &blank),
                );
            }
        }
    }
}
