//! Texts as laid out, in named groups: sites of all kinds, and ones that come to each refusal, to 9 by their
//! length alone.

use super::expected::{self, MOST_POINTS, MOST_POLYGONS};
use super::reader::MOST_BYTES;
use crate::sites::{self, Plan, Point, Ring};
use crate::util::rng::SplitMix64;
use crate::view;
use oracle::Vec2;
use std::f64::consts::TAU;
use std::ops::Range;

pub type Text = Vec<u8>;

pub struct Group {
    pub what: &'static str,
    pub texts: usize,
    pub make: Box<dyn Fn(&mut SplitMix64) -> Text>,
}

/// The first groups are sites of all kinds, with no fault put in.
pub const OF_SITES: usize = 13;

pub fn groups() -> Vec<Group> {
    let mut all: Vec<Group> = Vec::new();
    let mut sites_of = |what, texts, make: fn(&mut SplitMix64) -> Plan| {
        let make = Box::new(move |r: &mut SplitMix64| on_site(r, make));
        all.push(Group { what, texts, make });
    };
    sites_of("a school: buildings, sheds, trees, a fence", 5_000, school);
    for g in sites::groups().into_iter().take(9) {
        sites_of(g.what, 1_200, g.make);
    }
    sites_of("triangles that cross each other", 2_000, view::crossing);
    sites_of(
        "squares on a lattice, close together",
        2_000,
        view::close_lattice,
    );
    sites_of("rings that cross themselves", 2_000, crossed_rings);
    assert_eq!(all.len(), OF_SITES);
    let mut add = |what, texts, make: fn(&mut SplitMix64) -> Text| {
        let make = Box::new(make);
        all.push(Group { what, texts, make });
    };
    add("a number outside the domain", 1_000, outside);
    add("60 to 66 polygons, or 500 to 520 points", 800, counted);
    add("small polygons far apart: many cells", 1_000, far_apart);
    add("no polygon, a range about 85,000", 1_000, wide_range);
    add("one polygon more or less decides", 3_000, brink);
    add(
        "corners in one line with the post, or in one place",
        1_000,
        tips,
    );
    add(
        "64 polygons and 512 points in 16,383 bytes or more",
        200,
        longest,
    );
    add("saws whose teeth alone are in range", 400, saws);
    add(
        "edges that cross half-way between two decimals",
        1_000,
        halves,
    );
    add("several faults at once", 1_000, faults);
    all
}

/// The numbers of a stretch of text.
pub fn numbers(text: &[u8], within: Range<usize>) -> Vec<Range<usize>> {
    let of_number = |i: &usize| text[*i].is_ascii_digit() || b".-".contains(&text[*i]);
    let mut all: Vec<Range<usize>> = Vec::new();
    for i in within.filter(of_number) {
        match all.last_mut() {
            Some(last) if last.end == i => last.end += 1,
            _ => all.push(i..i + 1),
        }
    }
    all
}

// ---- a text from a site

/// How numbers are written.
#[derive(Clone, Copy)]
struct Style {
    /// At most so many decimals.
    decimals: usize,
    /// With zeros before and behind, or a minus at zero, now and then.
    odd: bool,
}

impl Style {
    fn any(r: &mut SplitMix64) -> Self {
        Self {
            decimals: r.below(7) as usize,
            odd: r.below(2) == 0,
        }
    }

    /// The value that is written.
    fn round(self, x: f64) -> f64 {
        let word = format!("{x:.*}", self.decimals);
        word.parse().expect("a decimal number")
    }

    fn number(self, r: &mut SplitMix64, x: f64) -> String {
        let plain = format!("{x:.*}", self.decimals);
        if !self.odd {
            return plain;
        }
        let (minus, size) = match plain.strip_prefix('-') {
            Some(size) => ("-", size),
            None => ("", plain.as_str()),
        };
        let (whole, part) = size.split_once('.').unwrap_or((size, ""));
        let zero = size.bytes().all(|b| b == b'0' || b == b'.');
        let minus = if zero { r.pick(&["", "-"]) } else { minus };
        let long = r.pick(&[1, 1, 1, 3, 7]);
        let behind = r.pick(&[0, part.len(), 3, 5, 6]);
        let part = part.trim_end_matches('0');
        let point = if part.is_empty() && behind == 0 {
            ""
        } else {
            "."
        };
        format!("{minus}{whole:0>long$}{point}{part:0<behind$}")
    }

    fn point(self, r: &mut SplitMix64, (x, y): Point) -> String {
        format!("{} {}", self.number(r, x), self.number(r, y))
    }

    /// The closing point is written anew, so it may look different.
    fn polygon(self, r: &mut SplitMix64, ring: &Ring) -> String {
        let all = ring.iter().chain(ring.first());
        let words: Vec<String> = all.map(|&p| self.point(r, p)).collect();
        format!("POLYGON (({}))\n", words.join(", "))
    }

    fn text(self, r: &mut SplitMix64, post: Point, range: f64, rings: &[Ring]) -> Text {
        let at = Self {
            decimals: 6,
            ..self
        };
        let (post, range) = (at.point(r, post), at.number(r, range));
        let lines: String = rings.iter().map(|ring| self.polygon(r, ring)).collect();
        format!("POINT M ({post} {range})\n{lines}").into_bytes()
    }
}

/// As much of the plan as a text may hold, as it will be read.
fn cut(plan: Plan, style: Style) -> Plan {
    let mut points = 0;
    let fits = |ring: &Ring| {
        points += ring.len();
        points <= MOST_POINTS
    };
    let rings = plan.rings.into_iter().filter(|ring| ring.len() >= 3);
    let round = |ring: Ring| {
        let point = |&(x, y): &Point| (style.round(x), style.round(y));
        ring.iter().map(point).collect()
    };
    Plan {
        size: (0.0, 0.0),
        rings: rings
            .take(MOST_POLYGONS)
            .take_while(fits)
            .map(round)
            .collect(),
    }
}

fn on_site(r: &mut SplitMix64, make: fn(&mut SplitMix64) -> Plan) -> Text {
    let style = Style::any(r);
    let mut plan = cut(make(r), style);
    // Fewer polygons more often: the refusal of cells and of entries is not to hide the rest.
    let few = r.pick(&[3, 12, 30, MOST_POLYGONS]);
    plan.rings.truncate(few);
    turn(r, &mut plan);
    let post = post(r, &plan);
    let range = range(r);
    style.text(r, post, range, &plan.rings)
}

/// Some rings the other way round.
fn turn(r: &mut SplitMix64, plan: &mut Plan) {
    for ring in &mut plan.rings {
        if r.below(3) == 0 {
            ring.reverse();
        }
    }
}

/// In the open, inside, on walls and corners, and just beside them; more often in the open.
fn post(r: &mut SplitMix64, plan: &Plan) -> Point {
    let scene = plan.scene();
    let (tries, first) = r.pick(&[(1, 0), (9, 5), (9, 5)]);
    let mut at = (0.0, 0.0);
    for _ in 0..tries {
        let kind = first + r.below(12 - first);
        let (x, y) = view::post(r, &scene, kind);
        let off = r.pick(&[0.0, 0.0, 0.001, -0.001, 0.000_001, -0.000_001]);
        at = ((x + off).clamp(-1e6, 1e6), y.clamp(-1e6, 1e6));
        if scene.polygon_at(Vec2::new(at.0, at.1)).is_none() {
            break;
        }
    }
    at
}

fn range(r: &mut SplitMix64) -> f64 {
    let (small, wide) = (r.between(0.5, 60.0), r.between(60.0, 3_000.0));
    let any = r.between(0.0, 1e6);
    let odd = r.pick(&[0.0, 0.001, 0.000_001, 1e6, 1e-9, -1.0, -9_999_999.999]);
    r.pick(&[small, small, small, wide, wide, 100.0, 10.0, any, odd])
}

// ---- sites

fn rectangle(x: f64, y: f64, w: f64, h: f64) -> Ring {
    vec![(x, y), (x + w, y), (x + w, y + h), (x, y + h)]
}

/// A yard of 60 to 160 with buildings (some with a wing), sheds, trees and at times a fence around.
fn school(r: &mut SplitMix64) -> Plan {
    let (w, h) = (r.between(60.0, 160.0), r.between(60.0, 160.0));
    let mut rings: Vec<Ring> = Vec::new();
    if r.below(3) == 0 {
        let t = 0.3;
        rings.push(rectangle(0.0, -t, w, t));
        rings.push(rectangle(0.0, h, w, t));
        rings.push(rectangle(-t, 0.0, t, h));
        rings.push(rectangle(w, 0.0, t, h));
    }
    for _ in 0..1 + r.below(8) {
        let (x, y) = (r.between(0.0, w), r.between(0.0, h));
        let (a, b) = (r.between(8.0, 40.0), r.between(6.0, 15.0));
        if r.below(2) == 0 {
            rings.push(rectangle(x, y, a, b));
        } else {
            let (c, d) = (r.between(2.0, a), b + r.between(3.0, 20.0));
            let wing = [(x, y), (x + a, y), (x + a, y + b), (x + c, y + b)];
            rings.push([&wing[..], &[(x + c, y + d), (x, y + d)]].concat());
        }
    }
    for _ in 0..r.below(8) {
        let at = (r.between(0.0, w), r.between(0.0, h));
        rings.push(rectangle(at.0, at.1, 3.0, 2.5));
    }
    for _ in 0..r.below(12) {
        let at = (r.between(0.0, w), r.between(0.0, h));
        let size = r.between(0.2, 1.5);
        let sides = 5 + r.below(4);
        rings.push(star(at, size, sides, 1));
    }
    Plan {
        size: (w, h),
        rings,
    }
}

/// Every `by`-th corner of a regular polygon: 1 for the polygon itself, 2 for a pentagram.
fn star((x, y): Point, size: f64, sides: u64, by: u64) -> Ring {
    let corner = |k: u64| {
        let at = Vec2::from_angle((k * by) as f64 * TAU / sides as f64) * size;
        (x + at.x, y + at.y)
    };
    (0..sides).map(corner).collect()
}

fn crossed_rings(r: &mut SplitMix64) -> Plan {
    let ring = |r: &mut SplitMix64| {
        let at = (r.between(0.0, 60.0), r.between(0.0, 60.0));
        let size = r.between(1.0, 25.0);
        match r.below(3) {
            0 => star(at, size, r.pick(&[5, 7, 9]), 2),
            1 => {
                let mut bow = rectangle(at.0, at.1, size, size / 2.0);
                bow.swap(1, 2);
                bow
            }
            _ => {
                let any = |r: &mut SplitMix64| (r.between(0.0, 60.0), r.between(0.0, 60.0));
                (0..4 + r.below(6)).map(|_| any(r)).collect()
            }
        }
    };
    Plan {
        size: (60.0, 60.0),
        rings: (0..1 + r.below(14)).map(|_| ring(r)).collect(),
    }
}

// ---- refusals

/// Up to 7 digits and beyond the domain, or at its very end.
fn far(r: &mut SplitMix64) -> f64 {
    let any = r.between(1e6, 9_999_999.0).floor();
    r.sign()
        * r.pick(&[
            1e6,
            1_000_000.001,
            1_000_000.000_001,
            1_000_001.0,
            9_999_999.999,
            9_999_999.999_999,
            999_999.999,
            999_999.999_999,
            any,
        ])
}

fn outside(r: &mut SplitMix64) -> Text {
    let style = Style {
        decimals: 6,
        ..Style::any(r)
    };
    let mut plan = cut(school(r), style);
    let (mut at, mut reach) = (post(r, &plan), range(r));
    match r.below(4) {
        0 => at.0 = far(r),
        1 => at.1 = far(r),
        2 => reach = far(r),
        _ => {
            let i = r.below(plan.rings.len() as u64) as usize;
            let ring = &mut plan.rings[i];
            let j = r.below(ring.len() as u64) as usize;
            if r.below(2) == 0 {
                ring[j].0 = far(r);
            } else {
                ring[j].1 = far(r);
            }
        }
    }
    style.text(r, at, reach, &plan.rings)
}

/// A site of so many polygons of so many points together, all of them small numbers.
fn site_of(r: &mut SplitMix64, polygons: usize, points: usize) -> Plan {
    let ring = |r: &mut SplitMix64, i: usize| {
        let sides = points / polygons + usize::from(i < points % polygons);
        let at = (r.whole(0, 60) as f64, r.whole(0, 60) as f64);
        star(at, r.between(0.5, 6.0), sides as u64, 1)
    };
    Plan {
        size: (0.0, 0.0),
        rings: (0..polygons).map(|i| ring(r, i)).collect(),
    }
}

fn counted(r: &mut SplitMix64) -> Text {
    let style = Style::any(r);
    let polygons = r.pick(&[60, 63, 64, 64, 65, 65, 66, 20, 1]);
    let few = 3 * polygons + r.below(60) as usize;
    let points = r.pick(&[few, 500, 511, 512, 512, 513, 513, 520]);
    let plan = site_of(r, polygons, points);
    let (post, range) = ((r.between(-9.0, 70.0), -9.0), range(r));
    style.text(r, post, range, &plan.rings)
}

/// 2,048 and 1,048,576 cells, and more and less of them.
fn far_apart(r: &mut SplitMix64) -> Text {
    let style = Style::any(r);
    let (across, up) = r.pick(&[(31, 63), (63, 31), (2, 682), (1_023, 1_023), (1_400, 900)]);
    let more = |r: &mut SplitMix64| r.pick(&[-1.0, -0.5, 0.0, 0.0, 0.5, 1.0, 40.0]);
    let (x, y) = (across as f64 + more(r), up as f64 + more(r));
    // Squares of one size, so that it is the cell's.
    let k = r.pick(&[1.0, 1.0, 2.0, 0.5, 100.0]);
    let size = f64::max(k, 1.0);
    let corner = rectangle(x * size - k, y * size - k, k, k);
    let mut rings = vec![corner, rectangle(0.0, 0.0, k, k)];
    for _ in 0..r.below(6) {
        rings.push(rectangle(r.between(0.0, x) * size, 0.0, k, k));
    }
    let at = (r.between(-5.0, 20.0), r.between(-5.0, 20.0));
    let at = r.pick(&[at, at, at, (2e6, 0.0)]);
    let range = range(r);
    style.text(r, at, range, &rings)
}

/// 2,048 points on a circle, and a few more or less.
fn wide_range(r: &mut SplitMix64) -> Text {
    let style = Style::any(r);
    let at = (r.between(-1e6, 1e6), r.between(-1e6, 1e6));
    let (near, any) = (r.between(84_700.0, 85_100.0), r.between(0.0, 1e5));
    let range = r.pick(&[near, near, near, any]);
    style.text(r, at, range, &[])
}

/// The most polygons of a site that are answered, or one more, which are refused.
fn brink(r: &mut SplitMix64) -> Text {
    let style = Style::any(r);
    let kind = r.below(6);
    let plan = match kind {
        0 => view::crossing(r),
        1 => piled(r),
        2 => {
            let points = r.whole(192, 512) as usize;
            site_of(r, MOST_POLYGONS, points)
        }
        3 => fenced(r),
        4 => ringed(r),
        _ => around(r),
    };
    let plan = cut(plan, style);
    let post = match kind {
        3.. => (style.round(r.between(29.0, 31.0)), 30.0),
        _ => (-3.0, r.whole(-5, 30) as f64),
    };
    let range = r.pick(&[60.0, 200.0, 1_000.0]);
    let number = |r: &mut SplitMix64, n: usize| {
        let text = style.text(r, post, range, &plan.rings[..n]);
        expected::answer(&text).number
    };
    // The first number of polygons that is refused 8, or all.
    let (mut low, mut high) = (0, plan.rings.len());
    while low < high {
        let middle = (low + high) / 2;
        if number(r, middle + 1) == 8 {
            high = middle;
        } else {
            low = middle + 1;
        }
    }
    let n = (low + r.below(2) as usize).min(plan.rings.len());
    style.text(r, post, range, &plan.rings[..n])
}

/// One rectangle many times, and triangles with one of its corners.
fn piled(r: &mut SplitMix64) -> Plan {
    let whole = rectangle(5.0, 5.0, r.whole(1, 9) as f64, r.whole(1, 9) as f64);
    let ring = |r: &mut SplitMix64| match r.below(5) {
        0 => {
            let (x, y) = (r.between(20.0, 30.0), r.between(0.0, 30.0));
            vec![whole[0], (x, y), (x, y + 1.0)]
        }
        _ => whole.clone(),
    };
    Plan {
        size: (0.0, 0.0),
        rings: (0..MOST_POLYGONS).map(|_| ring(r)).collect(),
    }
}

/// Small polygons around a middle, none behind another.
fn ringed(r: &mut SplitMix64) -> Plan {
    let ring = |r: &mut SplitMix64, k: usize| {
        let at = Vec2::from_angle(k as f64 * TAU / MOST_POLYGONS as f64) * 12.0;
        let (sides, size) = (r.pick(&[3, 4, 4, 5]), r.between(0.2, 0.5));
        star((30.0 + at.x, 30.0 + at.y), size, sides, 1)
    };
    Plan {
        size: (0.0, 0.0),
        rings: (0..MOST_POLYGONS).map(|k| ring(r, k)).collect(),
    }
}

/// Trees inside four walls, one of them shorter at times, so that nearly every sample meets something.
fn fenced(r: &mut SplitMix64) -> Plan {
    let mut rings = vec![
        rectangle(0.0, 0.0, 60.0, 1.0),
        rectangle(0.0, 59.0, 60.0, 1.0),
        rectangle(0.0, 0.0, 1.0, 60.0),
        rectangle(59.0, 0.0, 1.0, r.pick(&[60.0, 40.0])),
    ];
    while rings.len() < MOST_POLYGONS {
        let at = (r.between(2.0, 58.0), r.between(2.0, 58.0));
        if (at.0 - 30.0).abs().max((at.1 - 30.0).abs()) > 3.0 {
            rings.push(star(at, r.between(0.1, 1.0), 3 + r.below(5), 1));
        }
    }
    Plan {
        size: (0.0, 0.0),
        rings,
    }
}

/// Long walls around a middle, one behind the other, so that each spans many buckets.
fn around(r: &mut SplitMix64) -> Plan {
    let wall = |r: &mut SplitMix64| {
        let (from, long) = (r.between(0.0, 6.2), r.between(0.2, 1.5));
        let (near, far) = (r.between(3.0, 28.0), r.between(0.1, 1.0));
        let at = |a: f64, d: f64| {
            let p = Vec2::from_angle(a) * d;
            (30.0 + p.x, 30.0 + p.y)
        };
        vec![
            at(from, near),
            at(from + long, near),
            at(from + long, near + far),
            at(from, near + far),
        ]
    };
    Plan {
        size: (0.0, 0.0),
        rings: (0..MOST_POLYGONS).map(|_| wall(r)).collect(),
    }
}

/// Triangles that touch one line through the post with a corner each, from one side; or all at one
/// place, where every corner is seen.
fn tips(r: &mut SplitMix64) -> Text {
    let style = Style::any(r);
    let n = r.whole(24, 44);
    let (dx, dy) = r.pick(&[(1.0, 0.0), (0.0, 1.0), (-1.0, 0.0), (1.0, 1.0), (3.0, 4.0)]);
    let one = r.below(2) == 0;
    let tip = |i: i64| {
        let (at, wide) = if one {
            (9.0, i as f64)
        } else {
            (i as f64, 0.25)
        };
        let (x, y) = (at * dx, at * dy);
        let (left, up) = (x - dy, y + dx);
        vec![(x, y), (left + dx * wide, up + dy * wide), (left, up)]
    };
    let mut plan = Plan {
        size: (0.0, 0.0),
        rings: (1..=n).map(tip).collect(),
    };
    turn(r, &mut plan);
    let range = r.pick(&[1_000.0, 100.0, 30.0]);
    style.text(r, (0.0, 0.0), range, &plan.rings)
}

/// Two edges that cross half-way between two decimals: at sixteenths for three decimals, at 128ths for
/// six. Turned and mirrored; moved by whole numbers, or by sixteenths, where corners too lie half-way.
fn halves(r: &mut SplitMix64) -> Text {
    let (decimals, parts) = r.pick(&[(0, 1), (4, 16)]);
    let style = Style {
        decimals,
        ..Style::any(r)
    };
    let (rise, at) = (r.pick(&[1.0, 3.0, 5.0, 7.0]), r.pick(&[9.0, 11.0, 13.0]));
    let wide = r.pick(&[16.0, 128.0]);
    let long = vec![(0.0, 0.0), (wide, rise), (wide / 2.0, rise + 9.0)];
    let upright = vec![(at, -5.0), (at + 3.0, -4.0), (at, 11.0)];
    let by = |r: &mut SplitMix64| r.whole(-50 * parts, 50 * parts) as f64 / parts as f64;
    let by = (by(r), by(r));
    let (over, up, swap) = (r.sign(), r.sign(), r.below(2) == 0);
    let place = |(x, y): Point| {
        let (x, y) = if swap { (y, x) } else { (x, y) };
        (by.0 + over * x, by.1 + up * y)
    };
    let rings = [long, upright].map(|ring| ring.into_iter().map(place).collect());
    let post = (r.whole(4, 8) as f64, r.whole(-20, -8) as f64);
    style.text(r, place(post), 60.0, &rings)
}

/// Around the post, about 128 teeth with one front edge each that reach into the range, so that every
/// event is one by itself and half of the samples miss.
fn saws(r: &mut SplitMix64) -> Text {
    let style = Style {
        decimals: 3,
        ..Style::any(r)
    };
    let teeth = r.whole(122, 134) as u64;
    // Clockwise, in teeth.
    let at = |k: f64, d: f64| {
        let p = Vec2::from_angle(-k * TAU / teeth as f64) * d;
        (30.0 + p.x, 30.0 + p.y)
    };
    let (mut rings, mut next): (Vec<Ring>, u64) = (Vec::new(), 0);
    while next < teeth {
        let (first, end) = (next, (next + 2 + r.below(8)).min(teeth));
        let tooth = |k: u64| [at(k as f64 - 1.2, 22.0), at(k as f64, 18.0)];
        let mut ring: Ring = (first..end).flat_map(tooth).collect();
        ring.extend([at(end as f64 - 1.5, 24.0), at(first as f64 - 1.2, 24.0)]);
        rings.push(ring);
        next = end;
    }
    style.text(r, (30.0, 30.0), 19.0, &rings)
}

/// Every number of 15 characters, the range at times of 14: 19,770 or 19,769 bytes. From most of them zeros
/// are taken away in front, so that the text has just as many bytes as it may have, or one less or more.
fn longest(r: &mut SplitMix64) -> Text {
    let number = |x: f64| format!("-{x:014.6}");
    let near = r.between(0.0, 10.0);
    let (range, size) = (r.pick(&["", "-"]), r.between(0.0, 9.0));
    let mut text = format!("POINT M ({0} {0} {range}{size:014.6})\n", number(near));
    for _ in 0..MOST_POLYGONS {
        let at = (r.between(2.0, 28.0), r.between(2.0, 28.0));
        let ring = star(at, 1.0, (MOST_POINTS / MOST_POLYGONS) as u64, 1);
        let word = |p: &Point| format!("{} {}", number(near + p.0), number(near + p.1));
        let words: Vec<String> = ring.iter().chain(ring.first()).map(word).collect();
        text += &format!("POLYGON (({}))\n", words.join(", "));
    }
    assert_eq!(text.len(), 19_769 + range.len());
    let long = r.pick(&[
        MOST_BYTES - 1,
        MOST_BYTES,
        MOST_BYTES,
        MOST_BYTES + 1,
        19_770,
    ]);
    let mut text = text.into_bytes();
    // From the last, so that places stay true.
    for place in numbers(&text, 0..text.len()).into_iter().rev() {
        let from = place.start + usize::from(text[place.start] == b'-');
        let zeros = text[from..place.end - 8].iter().take_while(|&&b| b == b'0');
        let many = zeros.count().min(text.len().saturating_sub(long));
        text.drain(from..from + many);
    }
    text
}

/// The first of the order must answer.
fn faults(r: &mut SplitMix64) -> Text {
    let style = Style {
        decimals: 6,
        ..Style::any(r)
    };
    let polygons = r.pick(&[3, 30, 64, 65]);
    let points = r.pick(&[3 * polygons, 512, 513]);
    let mut plan = site_of(r, polygons, points);
    let apart = r.pick(&[1.0, 1.0, 3.0, 300.0]);
    for ring in &mut plan.rings {
        let by = (r.between(0.0, 90.0) * apart, r.between(0.0, 90.0) * apart);
        ring.iter_mut().for_each(|p| *p = (p.0 + by.0, p.1 + by.1));
    }
    if r.below(3) == 0 {
        plan.rings[0][1].0 = far(r);
    }
    let mut at = (r.between(-9.0, 70.0), -9.0);
    if r.below(3) == 0 {
        at.1 = far(r);
    }
    let (usual, huge) = (range(r), far(r));
    let range = r.pick(&[usual, usual, huge]);
    style.text(r, at, range, &plan.rings)
}
