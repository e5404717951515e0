//! The functions of `geom` under their numbers, ours and the Rust's, with the inputs of each. What
//! uses no angle function is held against `plain`; `from_angle` and `angle` against `oracle`.

use super::inputs::{self, Group};
use super::polygons;
use crate::util::call::{Answer, Call, floats};
use plain::{Aabb, Vec2};

/// A call, and the groups of its inputs.
pub struct Row {
    pub call: Call,
    pub inside: Vec<Group>,
    pub outside: Vec<Group>,
}

type Side = fn(&[u64]) -> Answer;

/// A function of `arguments` floats.
fn row(
    (number, arguments): (u64, usize),
    [name, against]: [&'static str; 2],
    inside: Vec<Group>,
    ours: Side,
    rust: Side,
) -> Row {
    let call = Call {
        number,
        name,
        against,
        arguments,
        points: false,
        ours,
        rust,
    };
    Row {
        call,
        inside,
        outside: inputs::strange(),
    }
}

/// A function of some floats and a list of points.
fn of_points(
    (number, arguments): (u64, usize),
    [name, against]: [&'static str; 2],
    ours: Side,
    rust: Side,
) -> Row {
    let call = Call {
        number,
        name,
        against,
        arguments,
        points: true,
        ours,
        rust,
    };
    Row {
        call,
        inside: polygons::rings(),
        outside: polygons::strange(),
    }
}

pub fn rows() -> Vec<Row> {
    [vectors(), boxes(), segments(), lists()]
        .into_iter()
        .flatten()
        .collect()
}

/// The vector in words 2 i and 2 i + 1.
fn v(words: &[u64], i: usize) -> Vec2 {
    let [x, y] = floats(&words[2 * i..]);
    Vec2::new(x, y)
}

/// The float in word i.
fn f(words: &[u64], i: usize) -> f64 {
    f64::from_bits(words[i])
}

/// The box in words 2 i to 2 i + 3.
fn b(words: &[u64], i: usize) -> Aabb {
    Aabb::new(v(words, i), v(words, i + 1))
}

/// A list of points. An odd last number is not a point.
fn points(words: &[u64]) -> Vec<Vec2> {
    words.chunks_exact(2).map(|pair| v(pair, 0)).collect()
}

/// The same list for ours, odd last number and all.
fn numbers(words: &[u64]) -> Vec<f64> {
    words.iter().map(|w| f64::from_bits(*w)).collect()
}

fn vector(p: Vec2) -> Answer {
    Answer::floats(&[p.x, p.y])
}

fn corners(b: Aabb) -> Answer {
    Answer::floats(&[b.min.x, b.min.y, b.max.x, b.max.y])
}

fn yes(told: bool) -> Answer {
    Answer::told(u32::from(told), &[])
}

/// What a call of ours writes.
fn written<const N: usize>(call: impl FnOnce(&mut [f64; N])) -> Answer {
    // Not zero, so that a cell left as it was shows.
    let mut out = [7.0; N];
    call(&mut out);
    Answer::floats(&out)
}

/// What it tells and writes.
fn told<const N: usize>(call: impl FnOnce(&mut [f64; N]) -> u32) -> Answer {
    let mut out = [7.0; N];
    let which = call(&mut out);
    Answer::told(which, &out)
}

fn vectors() -> Vec<Row> {
    let anywhere = inputs::anywhere;
    vec![
        row(
            (401, 1),
            ["from_angle", "oracle: Vec2::from_angle"],
            inputs::angles(),
            |w| {
                let [angle] = floats(w);
                written(|out| ffi::bf_vec2_from_angle(angle, out))
            },
            |w| {
                let p = oracle::Vec2::from_angle(f(w, 0));
                Answer::floats(&[p.x, p.y])
            },
        ),
        row(
            (402, 4),
            ["dot", "Vec2::dot"],
            anywhere(),
            |w| {
                let [ax, ay, bx, by] = floats(w);
                Answer::float(ffi::bf_vec2_dot(ax, ay, bx, by))
            },
            |w| Answer::float(v(w, 0).dot(v(w, 1))),
        ),
        row(
            (403, 4),
            ["cross", "Vec2::cross"],
            anywhere(),
            |w| {
                let [ax, ay, bx, by] = floats(w);
                Answer::float(ffi::bf_vec2_cross(ax, ay, bx, by))
            },
            |w| Answer::float(v(w, 0).cross(v(w, 1))),
        ),
        row(
            (404, 2),
            ["length_sq", "Vec2::length_sq"],
            anywhere(),
            |w| {
                let [x, y] = floats(w);
                Answer::float(ffi::bf_vec2_length_sq(x, y))
            },
            |w| Answer::float(v(w, 0).length_sq()),
        ),
        row(
            (405, 2),
            ["length", "Vec2::length"],
            anywhere(),
            |w| {
                let [x, y] = floats(w);
                Answer::float(ffi::bf_vec2_length(x, y))
            },
            |w| Answer::float(v(w, 0).length()),
        ),
        row(
            (406, 4),
            ["distance", "Vec2::distance"],
            anywhere(),
            |w| {
                let [ax, ay, bx, by] = floats(w);
                Answer::float(ffi::bf_vec2_distance(ax, ay, bx, by))
            },
            |w| Answer::float(v(w, 0).distance(v(w, 1))),
        ),
        row(
            (407, 4),
            ["distance_sq", "Vec2::distance_sq"],
            anywhere(),
            |w| {
                let [ax, ay, bx, by] = floats(w);
                Answer::float(ffi::bf_vec2_distance_sq(ax, ay, bx, by))
            },
            |w| Answer::float(v(w, 0).distance_sq(v(w, 1))),
        ),
        row(
            (408, 2),
            ["angle", "oracle: Vec2::angle"],
            anywhere(),
            |w| {
                let [x, y] = floats(w);
                Answer::float(ffi::bf_vec2_angle(x, y))
            },
            |w| Answer::float(oracle::Vec2::new(f(w, 0), f(w, 1)).angle()),
        ),
        row(
            (409, 5),
            ["lerp", "Vec2::lerp"],
            inputs::shares(),
            |w| {
                let [ax, ay, bx, by, t] = floats(w);
                written(|out| ffi::bf_vec2_lerp(ax, ay, bx, by, t, out))
            },
            |w| vector(v(w, 0).lerp(v(w, 1), f(w, 4))),
        ),
        row(
            (410, 4),
            ["add", "Vec2 + and +="],
            anywhere(),
            |w| {
                let [ax, ay, bx, by] = floats(w);
                written(|out| ffi::bf_vec2_add(ax, ay, bx, by, out))
            },
            |w| {
                let mut stored = v(w, 0);
                stored += v(w, 1);
                let sum = vector(v(w, 0) + v(w, 1));
                assert!(vector(stored) == sum, "the Rust's two ways to add agree");
                sum
            },
        ),
        row(
            (411, 4),
            ["sub", "Vec2 -"],
            anywhere(),
            |w| {
                let [ax, ay, bx, by] = floats(w);
                written(|out| ffi::bf_vec2_sub(ax, ay, bx, by, out))
            },
            |w| vector(v(w, 0) - v(w, 1)),
        ),
        row(
            (412, 3),
            ["mul", "Vec2 *"],
            anywhere(),
            |w| {
                let [x, y, s] = floats(w);
                written(|out| ffi::bf_vec2_mul(x, y, s, out))
            },
            |w| vector(v(w, 0) * f(w, 2)),
        ),
        row(
            (413, 2),
            ["neg", "-Vec2"],
            anywhere(),
            |w| {
                let [x, y] = floats(w);
                written(|out| ffi::bf_vec2_neg(x, y, out))
            },
            |w| vector(-v(w, 0)),
        ),
    ]
}

fn boxes() -> Vec<Row> {
    vec![
        of_points(
            (421, 0),
            ["from_points", "Aabb::from_points"],
            |w| written(|out| ffi::aabb_from_points(&numbers(w), out)),
            |w| corners(Aabb::from_points(&points(w))),
        ),
        row(
            (422, 3),
            ["around", "Aabb::around"],
            inputs::anywhere(),
            |w| {
                let [cx, cy, radius] = floats(w);
                written(|out| ffi::bf_aabb_around(cx, cy, radius, out))
            },
            |w| corners(Aabb::around(v(w, 0), f(w, 2))),
        ),
        row(
            (423, 6),
            ["include", "Aabb::include"],
            inputs::boxes(),
            |w| written(|out| ffi::bf_aabb_include(&floats(w), f(w, 4), f(w, 5), out)),
            |w| {
                let mut b = b(w, 0);
                b.include(v(w, 2));
                corners(b)
            },
        ),
        row(
            (424, 8),
            ["union", "Aabb::union"],
            inputs::boxes(),
            |w| written(|out| ffi::bf_aabb_union(&floats(w), &floats(&w[4..]), out)),
            |w| corners(b(w, 0).union(b(w, 2))),
        ),
        row(
            (425, 4),
            ["is_empty", "Aabb::is_empty"],
            inputs::boxes(),
            |w| Answer::told(ffi::bf_aabb_is_empty(&floats(w)), &[]),
            |w| yes(b(w, 0).is_empty()),
        ),
        row(
            (426, 6),
            ["contains", "Aabb::contains"],
            inputs::boxes(),
            |w| Answer::told(ffi::bf_aabb_contains(&floats(w), f(w, 4), f(w, 5)), &[]),
            |w| yes(b(w, 0).contains(v(w, 2))),
        ),
        row(
            (427, 8),
            ["intersects", "Aabb::intersects"],
            inputs::boxes(),
            |w| Answer::told(ffi::bf_aabb_intersects(&floats(w), &floats(&w[4..])), &[]),
            |w| yes(b(w, 0).intersects(&b(w, 2))),
        ),
        row(
            (428, 6),
            ["distance_sq_to", "Aabb::distance_sq_to"],
            inputs::boxes(),
            |w| Answer::float(ffi::bf_aabb_distance_sq_to(&floats(w), f(w, 4), f(w, 5))),
            |w| Answer::float(b(w, 0).distance_sq_to(v(w, 2))),
        ),
        row(
            (429, 4),
            ["width", "Aabb::width"],
            inputs::boxes(),
            |w| Answer::float(ffi::bf_aabb_width(&floats(w))),
            |w| Answer::float(b(w, 0).width()),
        ),
        row(
            (430, 4),
            ["height", "Aabb::height"],
            inputs::boxes(),
            |w| Answer::float(ffi::bf_aabb_height(&floats(w))),
            |w| Answer::float(b(w, 0).height()),
        ),
    ]
}

fn segments() -> Vec<Row> {
    vec![
        row(
            (441, 1),
            ["normalize_angle", "normalize_angle"],
            inputs::turns(),
            |w| Answer::float(ffi::bf_normalize_angle(f(w, 0))),
            |w| Answer::float(plain::normalize_angle(f(w, 0))),
        ),
        row(
            (442, 8),
            ["ray_segment", "ray_segment"],
            inputs::rays(),
            |w| {
                let [ox, oy, dx, dy, ax, ay, bx, by] = floats(w);
                told(|[t]| ffi::bf_ray_segment(ox, oy, dx, dy, ax, ay, bx, by, t))
            },
            |w| {
                let t = plain::ray_segment(v(w, 0), v(w, 1), v(w, 2), v(w, 3));
                Answer::told(u32::from(t.is_some()), &[t.unwrap_or(0.0)])
            },
        ),
        row(
            (443, 8),
            ["segment_intersection", "segment_intersection"],
            inputs::crossings(),
            |w| {
                let [ax, ay, bx, by, cx, cy, dx, dy] = floats(w);
                told(|out| ffi::bf_segment_intersection(ax, ay, bx, by, cx, cy, dx, dy, out))
            },
            |w| {
                let met = plain::segment_intersection(v(w, 0), v(w, 1), v(w, 2), v(w, 3));
                let p = met.unwrap_or(Vec2::ZERO);
                Answer::told(u32::from(met.is_some()), &[p.x, p.y])
            },
        ),
        row(
            (444, 8),
            ["segments_intersect", "segments_intersect"],
            inputs::crossings(),
            |w| {
                let [ax, ay, bx, by, cx, cy, dx, dy] = floats(w);
                Answer::told(
                    ffi::bf_segments_intersect(ax, ay, bx, by, cx, cy, dx, dy),
                    &[],
                )
            },
            |w| {
                yes(plain::segments_intersect(
                    v(w, 0),
                    v(w, 1),
                    v(w, 2),
                    v(w, 3),
                ))
            },
        ),
        row(
            (445, 7),
            ["clip_segment_to_disk", "clip_segment_to_disk"],
            inputs::disks(),
            |w| {
                let [ax, ay, bx, by, cx, cy, radius] = floats(w);
                told(|out| ffi::bf_clip_segment_to_disk(ax, ay, bx, by, cx, cy, radius, out))
            },
            |w| {
                let part = plain::clip_segment_to_disk(v(w, 0), v(w, 1), v(w, 2), f(w, 6));
                let (t0, t1) = part.unwrap_or((0.0, 0.0));
                Answer::told(u32::from(part.is_some()), &[t0, t1])
            },
        ),
        row(
            (446, 7),
            ["segment_circle_points", "segment_circle_points"],
            inputs::disks(),
            |w| {
                let [ax, ay, bx, by, cx, cy, radius] = floats(w);
                told(|out| ffi::bf_segment_circle_points(ax, ay, bx, by, cx, cy, radius, out))
            },
            |w| {
                let met = plain::segment_circle_points(v(w, 0), v(w, 1), v(w, 2), f(w, 6));
                let which = met.map(|m| u32::from(m.is_some()));
                let [p, q] = met.map(|m| m.unwrap_or(Vec2::ZERO));
                Answer::told(which[0] + 2 * which[1], &[p.x, p.y, q.x, q.y])
            },
        ),
        row(
            (447, 6),
            ["point_segment_distance", "point_segment_distance"],
            inputs::feet(),
            |w| {
                let [px, py, ax, ay, bx, by] = floats(w);
                Answer::float(ffi::bf_point_segment_distance(px, py, ax, ay, bx, by))
            },
            |w| Answer::float(plain::point_segment_distance(v(w, 0), v(w, 1), v(w, 2))),
        ),
    ]
}

fn lists() -> Vec<Row> {
    vec![
        of_points(
            (448, 2),
            ["point_in_polygon", "point_in_polygon"],
            |w| {
                let [px, py] = floats(w);
                Answer::told(ffi::point_in_polygon(px, py, &numbers(&w[2..])), &[])
            },
            |w| yes(plain::point_in_polygon(v(w, 0), &points(&w[2..]))),
        ),
        of_points(
            (449, 0),
            ["signed_area", "signed_area"],
            |w| Answer::float(ffi::signed_area(&numbers(w))),
            |w| Answer::float(plain::signed_area(&points(w))),
        ),
    ]
}
