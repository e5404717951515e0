//! Inputs of `geom`, in named groups. A group makes its inputs one after the other, so that millions
//! of them take no room. No function of the C library is called, so they are the same everywhere.

use crate::util::bits::step;
use crate::util::floats::{self, scaled, special, subnormal};
use crate::util::rng::SplitMix64;
use crate::util::table::{Table, count};
use std::f64::consts::{FRAC_PI_4, TAU};
use std::sync::LazyLock;

/// The numbers of one call; the second argument says how many a fixed call takes.
type Make = fn(&mut SplitMix64, usize) -> Vec<f64>;

#[derive(Clone, Copy)]
pub struct Group {
    pub what: &'static str,
    pub points: usize,
    pub make: Make,
}

impl Group {
    pub const fn new(what: &'static str, points: usize, make: Make) -> Self {
        Self { what, points, make }
    }
}

pub fn print(title: &str, groups: &[Group]) {
    let mut table = Table::new(&[title, "points"]);
    for g in groups {
        table.row(vec![g.what.to_string(), count(g.points as u64)]);
    }
    table.print();
}

/// Coordinates of the domain reach from -1e6 to 1e6.
pub const REACH: f64 = 1e6;

/// The Rust's `Aabb::EMPTY`.
pub const EMPTY: [f64; 4] = [
    f64::INFINITY,
    f64::INFINITY,
    f64::NEG_INFINITY,
    f64::NEG_INFINITY,
];

/// In the domain: coordinates, and the empty box, which the Rust makes itself.
pub fn is_inside(numbers: &[f64]) -> bool {
    let all_within = |four: &[f64]| four.iter().all(|x| x.abs() <= REACH);
    numbers
        .chunks(4)
        .all(|four| four == EMPTY || all_within(four))
}

// ---- one number

type One = fn(&mut SplitMix64) -> f64;

pub fn coordinate(r: &mut SplitMix64) -> f64 {
    r.between(-REACH, REACH)
}

pub fn near(r: &mut SplitMix64) -> f64 {
    r.between(-100.0, 100.0)
}

pub fn lattice(r: &mut SplitMix64) -> f64 {
    r.whole(-8, 8) as f64
}

pub fn tiny(r: &mut SplitMix64) -> f64 {
    if r.below(3) == 0 {
        subnormal(r)
    } else {
        scaled(r, -1022, -20)
    }
}

fn any_size(r: &mut SplitMix64) -> f64 {
    scaled(r, -60, 18)
}

/// The ends of the domain, up to 3 floats within them, and small numbers beside those.
pub fn end(r: &mut SplitMix64) -> f64 {
    let last = step(REACH, -r.whole(0, 3));
    let size = r.pick(&[last, last, REACH, 0.0, 0.5, 1.0]);
    r.sign() * size
}

static SPECIAL: LazyLock<Vec<f64>> = LazyLock::new(special);

pub fn strange_number(r: &mut SplitMix64) -> f64 {
    r.pick(&SPECIAL)
}

pub fn huge(r: &mut SplitMix64) -> f64 {
    scaled(r, 20, 1023)
}

// ---- some numbers

pub fn each(r: &mut SplitMix64, n: usize, one: One) -> Vec<f64> {
    (0..n).map(|_| one(r)).collect()
}

/// Every number up to `reach` floats beside its place.
pub fn jitter(r: &mut SplitMix64, mut numbers: Vec<f64>, reach: i64) -> Vec<f64> {
    for x in &mut numbers {
        *x = step(*x, r.whole(-reach, reach)).clamp(-REACH, REACH);
    }
    numbers
}

/// Points that all but coincide.
fn close(r: &mut SplitMix64, n: usize) -> Vec<f64> {
    let centre = [coordinate(r), coordinate(r)];
    let numbers = (0..n).map(|i| centre[i % 2]).collect();
    jitter(r, numbers, 3)
}

/// One number replaced.
pub fn one_strange(r: &mut SplitMix64, mut numbers: Vec<f64>) -> Vec<f64> {
    if !numbers.is_empty() {
        let i = r.below(numbers.len() as u64) as usize;
        numbers[i] = strange_number(r);
    }
    numbers
}

/// For every function of `geom`: more than a million inputs.
pub fn anywhere() -> Vec<Group> {
    vec![
        Group::new("coordinates from -1e6 to 1e6", 300_000, |r, n| {
            each(r, n, coordinate)
        }),
        Group::new("from -100 to 100", 150_000, |r, n| each(r, n, near)),
        Group::new("whole numbers from -8 to 8", 200_000, |r, n| {
            each(r, n, lattice)
        }),
        Group::new("decimals from -1e6 to 1e6", 100_000, |r, n| {
            each(r, n, floats::decimal)
        }),
        Group::new("tiny, subnormal ones among them", 100_000, |r, n| {
            each(r, n, tiny)
        }),
        Group::new("sizes from 2^-60 to 2^19", 100_000, |r, n| {
            each(r, n, any_size)
        }),
        Group::new(
            "the domain's ends, up to 3 floats within",
            100_000,
            |r, n| each(r, n, end),
        ),
        Group::new("points up to 6 floats apart", 100_000, close),
    ]
}

/// Outside the domain.
pub fn strange() -> Vec<Group> {
    vec![
        Group::new("special values, infinities and NaNs", 100_000, |r, n| {
            each(r, n, strange_number)
        }),
        Group::new("one of these among coordinates", 100_000, |r, n| {
            let numbers = each(r, n, coordinate);
            one_strange(r, numbers)
        }),
        Group::new("one of these among whole numbers", 100_000, |r, n| {
            let numbers = each(r, n, lattice);
            one_strange(r, numbers)
        }),
        Group::new("sizes from 2^20 to 2^1023", 100_000, |r, n| {
            each(r, n, huge)
        }),
        Group::new("random bit patterns", 100_000, |r, n| {
            each(r, n, floats::any)
        }),
    ]
}

fn anywhere_and(more: Vec<Group>) -> Vec<Group> {
    anywhere().into_iter().chain(more).collect()
}

// ---- angles

/// A multiple of `part`, up to `reach` floats beside it.
fn multiple(r: &mut SplitMix64, part: f64, most: i64, reach: i64) -> Vec<f64> {
    let x = r.whole(-most, most) as f64 * part;
    vec![step(x, r.whole(-reach, reach))]
}

/// For `from_angle`: from -128 to 128.
pub fn angles() -> Vec<Group> {
    vec![
        Group::new("angles from -128 to 128", 600_000, |r, _| {
            vec![r.between(-128.0, 128.0)]
        }),
        Group::new("angles from -7 to 7", 300_000, |r, _| {
            vec![r.between(-7.0, 7.0)]
        }),
        Group::new(
            "multiples of pi/4, up to 50 floats beside",
            200_000,
            |r, _| multiple(r, FRAC_PI_4, 162, 50),
        ),
        Group::new("tiny, subnormal ones among them", 100_000, |r, n| {
            each(r, n, tiny)
        }),
    ]
}

/// For `normalize_angle`.
pub fn turns() -> Vec<Group> {
    anywhere_and(vec![
        Group::new("angles from -100 to 100", 300_000, |r, _| {
            vec![r.between(-100.0, 100.0)]
        }),
        Group::new(
            "multiples of 2 pi, up to 5 floats beside",
            200_000,
            |r, _| multiple(r, TAU, 159_000, 5),
        ),
        Group::new(
            "multiples of pi/4, up to 5 floats beside",
            100_000,
            |r, _| multiple(r, FRAC_PI_4, 200, 5),
        ),
        Group::new("tiny and negative", 100_000, |r, n| {
            each(r, n, |r| -tiny(r).abs())
        }),
    ])
}

// ---- points

pub type Point = (f64, f64);

pub fn point(r: &mut SplitMix64, one: One) -> Point {
    (one(r), one(r))
}

pub fn flat(points: &[Point]) -> Vec<f64> {
    points.iter().flat_map(|p| [p.0, p.1]).collect()
}

/// a + d * t
fn from(a: Point, d: Point, t: f64) -> Point {
    (a.0 + d.0 * t, a.1 + d.1 * t)
}

pub fn along(a: Point, b: Point, t: f64) -> Point {
    from(a, (b.0 - a.0, b.1 - a.1), t)
}

/// A point of the unit circle; `x` goes round from -1 to 1.
pub fn on_circle(x: f64) -> Point {
    let t = x / (1.0 - x.abs());
    ((1.0 - t * t) / (1.0 + t * t), 2.0 * t / (1.0 + t * t))
}

pub fn direction(r: &mut SplitMix64) -> Point {
    on_circle(r.between(-0.999, 0.999))
}

/// A place on a segment: an end, a quarter, or anywhere.
fn share(r: &mut SplitMix64) -> f64 {
    let anywhere = r.unit();
    r.pick(&[0.0, 0.25, 0.5, 0.75, 1.0, anywhere])
}

/// For `lerp`.
pub fn shares() -> Vec<Group> {
    anywhere_and(vec![
        Group::new("the last number from 0 to 1", 200_000, |r, n| {
            let mut numbers = each(r, n - 1, coordinate);
            numbers.push(r.unit());
            numbers
        }),
        Group::new(
            "the last 0, 1, a quarter, or 3 floats beside",
            100_000,
            |r, n| {
                let mut numbers = each(r, n - 1, lattice);
                let t = share(r);
                numbers.push(step(t, r.whole(-3, 3)));
                numbers
            },
        ),
    ])
}

// ---- boxes: one, and a point or a second one as far as there are numbers for them

fn a_box(r: &mut SplitMix64, one: One) -> Vec<f64> {
    let (a, b) = (point(r, one), point(r, one));
    vec![a.0.min(b.0), a.1.min(b.1), a.0.max(b.0), a.1.max(b.1)]
}

fn box_and_more(r: &mut SplitMix64, n: usize, one: One) -> Vec<f64> {
    let mut numbers = a_box(r, one);
    numbers.extend(a_box(r, one));
    numbers.truncate(n);
    numbers
}

/// The second box or the point has each number at a side of the first, or a float beside it.
fn touching_box(r: &mut SplitMix64, n: usize) -> Vec<f64> {
    let one = r.pick(&[lattice as One, near, coordinate]);
    let mut numbers = a_box(r, one);
    while numbers.len() < n {
        let i = numbers.len() % 2;
        let side = r.pick(&[numbers[i], numbers[i + 2]]);
        let x = r.pick(&[side, step(side, 1), step(side, -1)]);
        numbers.push(x);
    }
    numbers
}

fn flat_box(r: &mut SplitMix64, n: usize) -> Vec<f64> {
    let mut numbers = box_and_more(r, n, lattice);
    let i = r.below(2) as usize;
    numbers[i + 2] = numbers[i];
    numbers
}

fn empty_box(r: &mut SplitMix64, n: usize) -> Vec<f64> {
    let mut numbers = box_and_more(r, n, near);
    let which = if n == 8 { r.below(3) } else { 0 };
    if which != 1 {
        numbers[..4].copy_from_slice(&EMPTY);
    }
    if which != 0 {
        numbers[4..].copy_from_slice(&EMPTY);
    }
    numbers
}

pub fn boxes() -> Vec<Group> {
    anywhere_and(vec![
        Group::new("boxes that are not empty, -1e6 to 1e6", 200_000, |r, n| {
            box_and_more(r, n, coordinate)
        }),
        Group::new("such boxes on whole numbers", 200_000, |r, n| {
            box_and_more(r, n, lattice)
        }),
        Group::new(
            "touching at a side or a float beside it",
            200_000,
            touching_box,
        ),
        Group::new("without width or height", 50_000, flat_box),
        Group::new("the Rust's empty box", 50_000, empty_box),
    ])
}

// ---- two segments, or a ray (a point, a direction) and a segment

/// Four points of one line; a direction of that line as second for a ray.
fn collinear(r: &mut SplitMix64, ray: bool) -> Vec<f64> {
    let (o, d) = (point(r, lattice), point(r, lattice));
    let mut points = [0; 4].map(|_| from(o, d, r.whole(-6, 6) as f64 / 2.0));
    if ray {
        points[1] = from((0.0, 0.0), d, r.whole(-4, 4) as f64);
    }
    flat(&points)
}

fn parallel(r: &mut SplitMix64, ray: bool) -> Vec<f64> {
    let (o, p, d) = (point(r, lattice), point(r, lattice), point(r, near));
    let second = if ray { d } else { from(o, d, r.unit()) };
    let last = from(p, d, r.between(-2.0, 2.0));
    flat(&[o, second, p, last])
}

/// The cross product of the two directions lies up to 3 floats beside 1e-14.
fn barely_crossing(r: &mut SplitMix64, ray: bool) -> Vec<f64> {
    let s = scaled(r, -10, 6).abs();
    let rise = step(1e-14 / s, r.whole(-3, 3)) * r.sign();
    let t = share(r);
    let (o, d) = if ray {
        ((-s * r.unit(), 0.0), (s, 0.0))
    } else {
        ((0.0, 0.0), (s, 0.0))
    };
    let a = (s * t, 0.0);
    let mut points = [o, d, a, (a.0 + near(r), rise)];
    if r.bits() & 1 == 0 {
        points = points.map(|(x, y)| (y, x));
    }
    flat(&points)
}

/// Some ends coincide.
fn without_length(r: &mut SplitMix64, ray: bool) -> Vec<f64> {
    let one = r.pick(&[lattice as One, near, coordinate]);
    let mut p = [0; 4].map(|_| point(r, one));
    let which = r.below(3);
    if which != 1 {
        p[1] = if ray { (0.0, 0.0) } else { p[0] };
    }
    if which != 0 {
        p[3] = p[2];
    }
    flat(&p)
}

/// The same for two segments and for a ray and a segment.
macro_rules! lines {
    ($ray:literal) => {
        vec![
            Group::new("on one line", 100_000, |r, _| collinear(r, $ray)),
            Group::new("on one line, up to 3 floats beside", 100_000, |r, _| {
                let numbers = collinear(r, $ray);
                jitter(r, numbers, 3)
            }),
            Group::new("parallel", 50_000, |r, _| parallel(r, $ray)),
            Group::new("parallel, up to 3 floats beside", 50_000, |r, _| {
                let numbers = parallel(r, $ray);
                jitter(r, numbers, 3)
            }),
            Group::new("a cross product of about 1e-14", 100_000, |r, _| {
                barely_crossing(r, $ray)
            }),
            Group::new("lengths of about 1e-7", 50_000, |r, n| {
                each(r, n, |r| r.between(-3e-7, 3e-7))
            }),
            Group::new("without length", 50_000, |r, _| without_length(r, $ray)),
        ]
    };
}

/// Two segments: an end of the second, and no more, lies on the first. Then in any order.
fn touching(r: &mut SplitMix64, one: One) -> Vec<f64> {
    let (a, b, d) = (point(r, one), point(r, one), point(r, one));
    let c = along(a, b, share(r));
    let second = if r.bits() & 1 == 0 { [c, d] } else { [d, c] };
    if r.bits() & 1 == 0 {
        flat(&[a, b, second[0], second[1]])
    } else {
        flat(&[second[0], second[1], a, b])
    }
}

pub fn crossings() -> Vec<Group> {
    let mut groups = anywhere_and(lines!(false));
    groups.extend([
        Group::new("an end on the other, whole numbers", 100_000, |r, _| {
            touching(r, lattice)
        }),
        Group::new("an end on the other but for rounding", 100_000, |r, _| {
            touching(r, near)
        }),
        Group::new("such, up to 3 floats beside", 100_000, |r, _| {
            let numbers = touching(r, lattice);
            jitter(r, numbers, 3)
        }),
    ]);
    groups
}

/// A ray that meets a segment `t` along it, at the place `u` of the segment.
fn hitting(r: &mut SplitMix64, t: f64, u: f64, meet: Point) -> Vec<f64> {
    let (unit, random) = (direction(r), point(r, near));
    let whole = point(r, lattice);
    let d = r.pick(&[unit, random, whole]);
    let e = point(r, near);
    let (o, a) = (from(meet, d, -t), from(meet, e, -u));
    let b = from(a, e, 1.0);
    flat(&[o, d, a, b])
}

/// A number up to 2^-40 of itself beside `x`, in few or many steps.
fn beside(r: &mut SplitMix64, x: f64) -> f64 {
    let reach = 1i64 << r.below(13);
    step(x, r.whole(-reach, reach))
}

/// Beyond the ends by the Rust's slack, within them, and at them.
fn slack_end(r: &mut SplitMix64) -> f64 {
    let u = r.pick(&[-1e-9, 1.0 + 1e-9, 0.0, 1.0, -2e-9, 1.0 + 2e-9]);
    beside(r, u)
}

pub fn rays() -> Vec<Group> {
    let mut groups = anywhere_and(lines!(true));
    groups.extend([
        Group::new("meeting within the segment", 100_000, |r, _| {
            let (t, u, meet) = (r.between(-5.0, 50.0), r.unit(), point(r, near));
            hitting(r, t, u, meet)
        }),
        Group::new("meeting 1e-9 beyond an end, or at it", 200_000, |r, _| {
            let (t, u, meet) = (r.unit(), slack_end(r), point(r, lattice));
            let meet = r.pick(&[(0.0, 0.0), meet]);
            hitting(r, t, u, meet)
        }),
        Group::new("meeting about 1e-9 along the ray", 100_000, |r, _| {
            let (t, u) = (beside(r, 1e-9), share(r));
            hitting(r, t, u, (0.0, 0.0))
        }),
        Group::new("unit directions over 1e3", 100_000, |r, _| {
            let far = |r: &mut SplitMix64| r.between(-1e3, 1e3);
            let (o, a) = ((far(r), far(r)), (far(r), far(r)));
            let b = from(a, direction(r), r.between(0.0, 60.0));
            flat(&[o, direction(r), a, b])
        }),
    ]);
    groups
}

// ---- a segment and a disk: a, b, the centre, the radius

fn disk(a: Point, b: Point, centre: Point, radius: f64) -> Vec<f64> {
    let mut numbers = flat(&[a, b, centre]);
    numbers.push(radius);
    numbers
}

/// Touches the circle in one point, exactly: 3, 4 and 5 times k.
fn tangent(r: &mut SplitMix64) -> Vec<f64> {
    let (k, centre) = (r.whole(1, 5) as f64, point(r, lattice));
    let (x, y) = r.pick(&[(3.0, 4.0), (4.0, 3.0), (5.0, 0.0), (0.0, 5.0)]);
    let (x, y) = (r.sign() * x, r.sign() * y);
    let meet = from(centre, (x, y), k);
    let end = |m: i64| from(meet, (-y, x), m as f64 / 2.0);
    let (a, b) = (end(r.whole(-4, 1)), end(r.whole(-1, 4)));
    disk(a, b, centre, 5.0 * k)
}

/// Level with the top or the bottom of a circle.
fn level_tangent(r: &mut SplitMix64) -> Vec<f64> {
    let (centre, radius) = (point(r, near), r.between(0.0, 100.0));
    let y = centre.1 + r.sign() * radius;
    let (a, b) = ((near(r), y), (near(r), y));
    disk(a, b, centre, radius)
}

fn end_on_circle(r: &mut SplitMix64) -> Vec<f64> {
    let (centre, radius) = (point(r, near), r.between(0.0, 100.0));
    let on = |r: &mut SplitMix64| from(centre, direction(r), radius);
    let (a, b, c) = (on(r), on(r), point(r, near));
    let (a, b) = r.pick(&[(a, b), (a, c), (c, b)]);
    disk(a, b, centre, radius)
}

fn through_centre(r: &mut SplitMix64) -> Vec<f64> {
    let (centre, d) = (point(r, lattice), point(r, lattice));
    let end = |r: &mut SplitMix64| from(centre, d, r.whole(-6, 6) as f64 / 2.0);
    let (a, b) = (end(r), end(r));
    disk(a, b, centre, r.whole(0, 12) as f64 / 2.0)
}

/// About 1e-12 long, where the Rust starts to take a segment for a point; on a circle.
fn dot_sized(r: &mut SplitMix64) -> Vec<f64> {
    let (x, y) = r.pick(&[(1e-12, 0.0), (0.0, 1e-12), (6e-13, 8e-13)]);
    let b = (beside(r, x), beside(r, y));
    let whole = r.whole(0, 4) as f64;
    let small = r.between(0.0, 2e-12);
    let radius = r.pick(&[whole, small]);
    let out = r.pick(&[(1.0, 0.0), (0.0, -1.0), (0.6, 0.8)]);
    disk((0.0, 0.0), b, from((0.0, 0.0), out, radius), radius)
}

fn disk_without(r: &mut SplitMix64) -> Vec<f64> {
    let one = r.pick(&[lattice as One, near, coordinate]);
    let (a, b, c) = (point(r, one), point(r, one), point(r, one));
    let far = (a.0 - c.0).abs();
    match r.below(4) {
        0 => disk(a, a, c, one(r)),
        1 => disk(a, a, (c.0, a.1), far.min(REACH)),
        2 => disk(a, along(a, b, 0.5), a, 0.0),
        _ => disk(a, b, c, 0.0),
    }
}

pub fn disks() -> Vec<Group> {
    anywhere_and(vec![
        Group::new("a radius from 0 to 1e6, coordinates", 100_000, |r, _| {
            let [a, b, c] = [0; 3].map(|_| point(r, coordinate));
            disk(a, b, c, r.between(0.0, REACH))
        }),
        Group::new("whole numbers, a radius from 0 to 8", 100_000, |r, _| {
            let [a, b, c] = [0; 3].map(|_| point(r, lattice));
            disk(a, b, c, r.whole(0, 8) as f64)
        }),
        Group::new("touching the circle", 100_000, |r, _| tangent(r)),
        Group::new(
            "touching the circle, up to 2 floats beside",
            100_000,
            |r, _| {
                let numbers = tangent(r);
                jitter(r, numbers, 2)
            },
        ),
        Group::new("level with its top or bottom", 100_000, |r, _| {
            level_tangent(r)
        }),
        Group::new("ends on the circle but for rounding", 100_000, |r, _| {
            end_on_circle(r)
        }),
        Group::new("through the centre", 50_000, |r, _| through_centre(r)),
        Group::new("about 1e-12 long", 100_000, |r, _| dot_sized(r)),
        Group::new("without length or radius", 50_000, |r, _| disk_without(r)),
    ])
}

// ---- a point and a segment

/// On the segment's line, before, on or behind it.
fn on_line(r: &mut SplitMix64, one: One) -> Vec<f64> {
    let (a, b) = (point(r, one), point(r, one));
    let t = share(r) * r.pick(&[1.0, 1.0, -1.0, 2.0]);
    flat(&[along(a, b, t), a, b])
}

/// Square to the segment at an end or at a quarter.
fn beside_line(r: &mut SplitMix64) -> Vec<f64> {
    let (a, b) = (point(r, lattice), point(r, lattice));
    let across = (a.1 - b.1, b.0 - a.0);
    let foot = along(a, b, share(r));
    let p = from(foot, across, r.whole(-4, 4) as f64 / 2.0);
    flat(&[p, a, b])
}

pub fn feet() -> Vec<Group> {
    anywhere_and(vec![
        Group::new("on the segment's line, whole numbers", 100_000, |r, _| {
            on_line(r, lattice)
        }),
        Group::new("on the segment's line but for rounding", 100_000, |r, _| {
            on_line(r, near)
        }),
        Group::new("square to an end or a quarter", 100_000, |r, _| {
            beside_line(r)
        }),
        Group::new("such, up to 3 floats beside", 100_000, |r, _| {
            let numbers = beside_line(r);
            jitter(r, numbers, 3)
        }),
        Group::new("without length", 50_000, |r, _| {
            let one = r.pick(&[lattice as One, near, coordinate]);
            let (p, a) = (point(r, one), point(r, one));
            flat(&[p, a, a])
        }),
        Group::new("squares that underflow", 100_000, |r, n| {
            each(r, n, |r| scaled(r, -560, -500))
        }),
    ])
}
