//! A cone's own outline against `ViewCone::outline` of the Rust with our angle functions, bit for bit
//! (zero's sign apart), in lists that are just enough, longer, and too short by an entry, by a number
//! and altogether, filled with a pattern before; and the area of each.

use super::{FLOAT, area, rust_area};
use crate::lent::Cone;
use crate::util::bits::{same, show, step};
use crate::util::rng::SplitMix64;
use crate::util::table::{Table, count};
use crate::util::tally::{self, Tally, Value};
use oracle::{Vec2, ViewCone};
use std::f64::consts::{FRAC_PI_2, FRAC_PI_4, PI, TAU};

/// Cones with nothing ugly but by chance, and of these each how many are put outside the domain.
const PLAIN: usize = 160_000;
const SPOILT: usize = 2_000;

pub fn compare() -> bool {
    let r = &mut SplitMix64::new(8_000);
    let mut held = Held::new();
    for range in ranges() {
        for direction in directions() {
            for fov in views() {
                for tolerance in tolerances() {
                    let post = post(r);
                    let cone = Cone {
                        post,
                        range,
                        direction,
                        fov,
                    };
                    held.one(r, cone, tolerance);
                }
            }
        }
    }
    for k in 0..PLAIN {
        let (cone, tolerance) = any(r);
        held.one(r, cone, tolerance);
        if k < SPOILT {
            held.outside(r, cone, tolerance);
        }
    }
    held.print()
}

// ---- what is asked

/// Just below this a view is a sector, and from it on a circle.
fn limit() -> f64 {
    TAU - 1e-9
}

fn ranges() -> Vec<f64> {
    vec![
        f64::NAN,
        0.0,
        -0.0,
        -1.0,
        f64::NEG_INFINITY,
        f64::from_bits(1),
        1e-300,
        step(1e-9, -1),
        1e-9,
        step(1e-9, 1),
        0.1,
        1.0,
        300.0,
        step(1e6, -1),
        1e6,
    ]
}

fn directions() -> Vec<f64> {
    vec![
        0.0,
        -0.0,
        -100.0,
        100.0,
        PI,
        -FRAC_PI_2,
        FRAC_PI_4,
        1e-300,
        step(-100.0, 1),
        33.3,
    ]
}

fn views() -> Vec<f64> {
    vec![
        0.0,
        -0.0,
        -1.0,
        f64::NEG_INFINITY,
        f64::from_bits(1),
        1e-300,
        1e-9,
        step(1e-9, 1),
        2e-9,
        1e-3,
        1.0,
        FRAC_PI_2,
        PI,
        step(limit(), -1),
        limit(),
        step(limit(), 1),
        6.2831853061,
        6.2831853062,
        step(TAU, -1),
        TAU,
        step(TAU, 1),
        7.0,
        f64::INFINITY,
    ]
}

fn tolerances() -> Vec<f64> {
    vec![
        f64::NAN,
        0.0,
        -0.0,
        -1.0,
        f64::NEG_INFINITY,
        1e-300,
        1e-9,
        1e-4,
        0.1,
        1.0,
        1e6,
        f64::MAX,
        f64::INFINITY,
    ]
}

fn post(r: &mut SplitMix64) -> (f64, f64) {
    let coordinate = |r: &mut SplitMix64| {
        let (any, near) = (r.between(-1e6, 1e6), r.between(-50.0, 50.0));
        r.pick(&[
            0.0,
            -0.0,
            1e6,
            -1e6,
            f64::from_bits(1),
            any,
            near,
            near.round(),
            near.round() + 0.5,
        ])
    };
    (coordinate(r), coordinate(r))
}

/// Views as a caller has them.
fn any(r: &mut SplitMix64) -> (Cone, f64) {
    let (small, wide) = (r.between(0.5, 60.0), r.between(60.0, 3_000.0));
    let odd = r.pick(&ranges());
    let lattice = r.whole(-8, 8) as f64 * FRAC_PI_4;
    let turn = r.between(-100.0, 100.0);
    let part = r.between(0.0, 6.3);
    let near = step(limit(), r.whole(-3, 3));
    let ugly = r.pick(&views());
    let fine = r.between(0.001, 5.0);
    let strange = r.pick(&tolerances());
    let cone = Cone {
        post: post(r),
        range: r.pick(&[small, small, wide, wide, 10.0, 100.0, odd]),
        direction: r.pick(&[0.0, lattice, turn, turn, 100.0, -100.0]),
        fov: r.pick(&[7.0, TAU, TAU, part, part, part, near, ugly]),
    };
    (cone, r.pick(&[0.1, 0.1, 0.1, fine, strange]))
}

/// One of the five numbers outside the domain, in each way.
fn spoilt(c: Cone) -> Vec<Cone> {
    let far = [
        f64::NAN,
        f64::INFINITY,
        f64::NEG_INFINITY,
        step(1e6, 1),
        step(-1e6, -1),
        1_000_001.0,
    ];
    let turned = [
        f64::NAN,
        f64::INFINITY,
        f64::NEG_INFINITY,
        step(100.0, 1),
        step(-100.0, -1),
    ];
    let mut all = vec![Cone { fov: f64::NAN, ..c }];
    all.extend(far.map(|x| Cone {
        post: (x, c.post.1),
        ..c
    }));
    all.extend(far.map(|y| Cone {
        post: (c.post.0, y),
        ..c
    }));
    all.extend([step(1e6, 1), 1e300, f64::INFINITY].map(|range| Cone { range, ..c }));
    all.extend(turned.map(|direction| Cone { direction, ..c }));
    all
}

// ---- what the Rust answers

fn rust(c: Cone, tolerance: f64) -> Vec<f64> {
    let at = Vec2::new(c.post.0 + 0.0, c.post.1 + 0.0);
    ViewCone::sector(at, c.range + 0.0, c.direction + 0.0, c.fov + 0.0)
        .outline(tolerance + 0.0)
        .iter()
        .flat_map(|p| [p.x, p.y])
        .collect()
}

// ---- both sides

/// A cone, its tolerance, and how many numbers are lent.
#[derive(Clone, Copy)]
struct At(Cone, f64, usize);

impl Value for At {
    fn same(self, _: Self) -> bool {
        unreachable!("inputs are only shown")
    }
    fn show(self) -> String {
        let c = self.0;
        format!(
            "post ({}, {}), range {}, direction {}, view {}, tolerance {}, {} numbers lent",
            show(c.post.0),
            show(c.post.1),
            show(c.range),
            show(c.direction),
            show(c.fov),
            show(self.1),
            self.2,
        )
    }
}

#[derive(Clone, Copy)]
struct Told<'a> {
    status: u32,
    points: u64,
    list: &'a [f64],
}

impl Value for Told<'_> {
    fn same(self, o: Self) -> bool {
        self.status == o.status
            && self.points == o.points
            && self.list.len() == o.list.len()
            && self.list.iter().zip(o.list).all(|(&x, &y)| same(x, y))
    }
    fn show(self) -> String {
        format!("{} {} {:?}", self.status, self.points, self.list)
    }
}

struct Held {
    exact: Tally,
    longer: Tally,
    short: Tally,
    refused: Tally,
    area: Tally,
    circles: u64,
    points: u64,
    most: u64,
}

impl Held {
    fn new() -> Self {
        let rust = "ViewCone::outline";
        Self {
            exact: Tally::new(["a cone's outline, list just enough", rust]),
            longer: Tally::new(["longer list", "zeros after the points"]),
            short: Tally::new([
                "list an entry short, a number short, or empty",
                "8, all zero",
            ]),
            refused: Tally::new([
                "outside the domain, list long or short",
                "1, nothing written",
            ]),
            area: Tally::new(["area, of these outlines", "Visibility::area"]),
            circles: 0,
            points: 0,
            most: 0,
        }
    }

    fn one(&mut self, r: &mut SplitMix64, c: Cone, tolerance: f64) {
        let rust = rust(c, tolerance);
        let (n, points) = (rust.len(), rust.len() as u64 / 2);
        self.circles += u64::from(c.fov >= limit());
        self.points += points;
        self.most = self.most.max(points);
        self.area
            .add(At(c, tolerance, n), area(&rust), rust_area(&rust));
        let held = |tally: &mut Tally, numbers: usize| {
            let mut out = vec![FLOAT; numbers];
            let (status, number) = c.outline(tolerance, &mut out);
            let mut list = if numbers < n { vec![] } else { rust.clone() };
            list.resize(numbers, 0.0);
            let told = Told {
                status,
                points: number,
                list: &out,
            };
            let expected = Told {
                status: if numbers < n { 8 } else { 0 },
                points: if numbers < n { 0 } else { points },
                list: &list,
            };
            tally.add(At(c, tolerance, numbers), told, expected);
        };
        held(&mut self.exact, n);
        held(&mut self.longer, n + 1);
        held(&mut self.longer, n + 2 + r.below(20) as usize);
        held(&mut self.short, n - 1);
        held(&mut self.short, n - 2);
        held(&mut self.short, 0);
    }

    fn outside(&mut self, r: &mut SplitMix64, c: Cone, tolerance: f64) {
        for c in spoilt(c) {
            let numbers = r.pick(&[0, 1, 2, 7, 20_000]);
            let mut out = vec![FLOAT; numbers];
            let (status, points) = c.outline(tolerance, &mut out);
            let told = Told {
                status,
                points,
                list: &out,
            };
            let expected = Told {
                status: 1,
                points: 0,
                list: &vec![FLOAT; numbers],
            };
            self.refused.add(At(c, tolerance, numbers), told, expected);
        }
    }

    fn print(self) -> bool {
        let mut table = Table::new(&["cones: what the inputs reach", "count"]);
        for (what, n) in [
            ("full circles", self.circles),
            ("points", self.points),
            ("points of one outline, at most", self.most),
        ] {
            table.row(vec![what.to_string(), count(n)]);
        }
        table.print();
        tally::print(&[self.exact, self.longer, self.short, self.refused, self.area])
    }
}
