//! What documents 01 and 02 say that a text is answered with, worked out without our code: the reader and the
//! printer beside this file, the order of refusals, the Rust's own tables and the Rust's own outline. It is
//! worked out once and printed with six decimals and with three.

use super::print::{decimal, is_half};
use super::reader::{self, Read};
use crate::lent::{Cone, Entries, Rooms};
use crate::scene::given::Given;
use crate::scene::is_coordinate;
use crate::sites::{Point, Ring};
use crate::view;
use oracle::Scene;
use std::f64::consts::TAU;

/// "Text is checked first (9), then 64 and 512".
pub const MOST_POLYGONS: usize = 64;
pub const MOST_POINTS: usize = 512;

pub const MOST_CELLS: usize = 2_048;

/// The tables of a site: 64 polygons of 512 points, 2,048 cells and 4,096 items.
const TABLES: Rooms = Rooms {
    points: 2 * MOST_POINTS,
    boxes: 4 * MOST_POLYGONS,
    polygons: 2 * MOST_POLYGONS,
    owners: MOST_POINTS,
    starts: MOST_CELLS + 1,
    items: 4_096,
};

/// The work lists.
pub const ENTRIES: Entries = [64, 128, 256, 128, 512, 257, 1_024, 256, 32];
pub const MOST_OUTLINE: usize = 2_048;
const MOST_VISIBLE: usize = 64;

const TOLERANCE: f64 = 0.1;

/// What a text comes to.
pub struct Expected {
    /// 0 where it is answered.
    pub number: u32,
    /// The outline and each polygon seen, where it is answered.
    rings: Vec<Ring>,
    /// The cells of the grid, where it came to one.
    pub cells: usize,
    /// What the Rust's run needed, where it came to one.
    pub run: Option<Run>,
}

pub struct Run {
    pub needs: Entries,
    pub points: usize,
    pub visible: usize,
}

impl Expected {
    /// With so many decimals.
    pub fn printed(&self, places: usize) -> Vec<u8> {
        if self.number > 0 {
            return refusal(self.number);
        }
        let lines: String = self.rings.iter().map(|ring| line(ring, places)).collect();
        lines.into_bytes()
    }

    /// Coordinates that lie half-way between two that can be printed so.
    pub fn halves(&self, places: usize) -> usize {
        let all = self.rings.iter().flatten().flat_map(|&(x, y)| [x, y]);
        all.filter(|&x| is_half(x, places)).count()
    }
}

pub fn refusal(number: u32) -> Vec<u8> {
    format!("REFUSED {number}\n").into_bytes()
}

/// A closed polygon.
fn line(ring: &Ring, places: usize) -> String {
    let point = |&(x, y): &Point| format!("{} {}", decimal(x, places), decimal(y, places));
    let words: Vec<String> = ring.iter().chain(ring.first()).map(point).collect();
    if words.is_empty() {
        return "POLYGON EMPTY\n".to_string();
    }
    format!("POLYGON (({}))\n", words.join(", "))
}

pub fn answer(text: &[u8]) -> Expected {
    match reader::read(text) {
        None => refused(9),
        Some(read) => planned(read),
    }
}

fn refused(number: u32) -> Expected {
    Expected {
        number,
        rings: Vec::new(),
        cells: 0,
        run: None,
    }
}

fn planned(Read { post, range, plan }: Read) -> Expected {
    let points: usize = plan.rings.iter().map(Vec::len).sum();
    if plan.rings.len() > MOST_POLYGONS || points > MOST_POINTS {
        return refused(2);
    }
    let building = Given::new(&plan).verdict(TABLES);
    if building == 1 {
        return refused(1);
    }
    let scene = plan.scene();
    let (columns, rows) = scene.grid().dims();
    let told = match building {
        0 if !is_coordinate(post.0) || !is_coordinate(post.1) || range > 1e6 => refused(1),
        0 => shown(&scene, post, range),
        n => refused(n),
    };
    Expected {
        cells: columns * rows,
        ..told
    }
}

/// The outline and each polygon seen.
fn shown(scene: &Scene, post: Point, range: f64) -> Expected {
    let cone = Cone {
        post,
        range,
        direction: 0.0,
        fov: TAU,
    };
    let marks = vec![0; scene.polygons().len()];
    let seen = view::rust(scene, cone, TOLERANCE, 0, &marks, 0);
    let run = Run {
        needs: seen.needs,
        points: seen.outline.len() / 2,
        visible: seen.visible.len(),
    };
    let fits = run.needs.iter().zip(ENTRIES).all(|(&n, k)| n <= k)
        && run.points <= MOST_OUTLINE
        && run.visible <= MOST_VISIBLE;
    if !fits {
        return Expected {
            run: Some(run),
            ..refused(8)
        };
    }
    let outline = seen.outline.chunks_exact(2).map(|p| (p[0], p[1])).collect();
    let polygon = |&id| {
        let corners = scene.polygon_vertices(id).iter();
        corners.map(|v| (v.x, v.y)).collect()
    };
    let mut rings = vec![outline];
    rings.extend(seen.visible.iter().map(polygon));
    Expected {
        number: 0,
        rings,
        cells: 0,
        run: Some(run),
    }
}
