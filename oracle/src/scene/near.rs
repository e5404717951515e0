//! The box query without tables (document 02's Q-6): what a box is to be answered with, by the Rust and
//! by a list made cell by cell, and the calls that are held against that.

use super::{aabb, in_domain, loaded, padded};
use crate::lent::{Lent, PATTERN};
use crate::util::tally::{self, Tally, Value};
use oracle::Scene;
use std::ops::RangeInclusive;

// ---- what is due

/// Ids in the order of the list, and entries.
#[derive(Default)]
pub struct Found {
    pub ids: Vec<u32>,
    pub entries: u64,
}

/// Or the refusal that no room mends.
pub type Verdict = Result<Found, u32>;

/// A call's status, ids written and entries, and the list that it leaves.
#[derive(PartialEq)]
pub struct Answer {
    pub numbers: [u64; 3],
    pub ids: Vec<u32>,
}

impl Value for &Answer {
    fn same(self, other: Self) -> bool {
        self == other
    }
    fn show(self) -> String {
        format!("{:?} {:?}", self.numbers, self.ids)
    }
}

/// Just enough, longer, and one short.
pub fn rooms(verdict: &Verdict) -> impl Iterator<Item = usize> + use<> {
    let n = verdict.as_ref().map_or(0, |found| found.ids.len());
    let short = n.checked_sub(1);
    [n, n + 3].into_iter().chain(short)
}

/// What the verdict comes to in such a room.
pub fn due(verdict: &Verdict, room: usize) -> Answer {
    match verdict {
        Err(no) => Answer {
            numbers: [u64::from(*no), 0, 0],
            ids: vec![PATTERN; room],
        },
        Ok(found) if found.ids.len() > room => Answer {
            numbers: [8, 0, 0],
            ids: vec![0; room],
        },
        Ok(found) => Answer {
            numbers: [0, found.ids.len() as u64, found.entries],
            ids: padded(&found.ids, room, 0),
        },
    }
}

/// By the Rust, with new stamps.
fn by_rust(scene: &Scene, b: &[f64; 4]) -> Verdict {
    if !in_domain(b) {
        return Err(1);
    }
    let b = aabb(b.map(loaded));
    let mut ids = Vec::new();
    scene.for_each_polygon_near(&b, &mut scene.new_stamps(), |id| ids.push(id));
    let entries = scene.grid().oracle_entries(&b) as u64;
    Ok(Found { ids, entries })
}

// ---- the same cell by cell

/// What document 02 has tested, and nothing of the tables.
fn is_plain_sound(s: &Lent) -> bool {
    let [_, _, ox, oy, cell, inverse] = s.head.floats;
    let [cols, rows, polygons, points, _] = s.head.counts.map(u64::from);
    let numbers = s.points.get(..2 * points as usize);
    let places = s.polygons.get(..2 * polygons as usize);
    let (Some(numbers), Some(places)) = (numbers, places) else {
        return false;
    };
    let inside = |place: &[u32]| u64::from(place[0]) + u64::from(place[1]) <= points;
    (polygons <= 4_096 && points <= 65_536)
        && (in_domain(&[ox, oy]) && in_domain(numbers))
        && ((1.0..f64::INFINITY).contains(&cell) && inverse == 1.0 / cell)
        && (1..=1_048_576).contains(&(cols * rows))
        && places.chunks_exact(2).all(inside)
}

/// Columns and rows, perhaps none.
pub struct Cells {
    cols: RangeInclusive<i64>,
    rows: RangeInclusive<i64>,
}

impl Cells {
    pub fn number(&self) -> usize {
        self.cols.clone().count() * self.rows.clone().count()
    }
}

/// From the first column and row that one of the points lies in to the last, as far as the grid has
/// them; none for no point. No box is made: floors do not fall where coordinates rise.
fn around(s: &Lent, points: &[f64]) -> Cells {
    let [_, _, ox, oy, _, inverse] = s.head.floats;
    let [cols, rows, ..] = s.head.counts.map(i64::from);
    let lines = |from: usize, origin: f64, n: i64| {
        let line = |&x: &f64| ((x - origin) * inverse).floor() as i64;
        let met = points.iter().skip(from).step_by(2).map(line);
        let ends = (i64::MAX, i64::MIN);
        let (first, last) = met.fold(ends, |(lo, hi), k| (lo.min(k), hi.max(k)));
        first.max(0)..=last.min(n - 1)
    };
    Cells {
        cols: lines(0, ox, cols),
        rows: lines(1, oy, rows),
    }
}

/// The cells of a box.
pub fn asked_cells(s: &Lent, b: &[f64; 4]) -> Cells {
    let turned = b[0] > b[2] || b[1] > b[3];
    around(s, if turned { &[] } else { b })
}

/// The cells of each polygon. Fewer than three points are in none.
fn polygons_cells(s: &Lent) -> Vec<Cells> {
    let polygons = s.head.counts[2] as usize;
    let places = s.polygons.chunks_exact(2).take(polygons);
    let cells = |place: &[u32]| {
        let [first, len] = [place[0], place[1]].map(|n| n as usize);
        let points = &s.points[2 * first..2 * (first + len)];
        around(s, if len < 3 { &[] } else { points })
    };
    places.map(cells).collect()
}

/// Cell after cell of the box, row by row, and in each all ids by their size: one is listed where it is
/// met first, and each meeting is an entry.
pub fn cell_by_cell(s: &Lent, b: &[f64; 4]) -> Verdict {
    if !is_plain_sound(s) {
        return Err(6);
    }
    if !in_domain(b) {
        return Err(1);
    }
    let asked = asked_cells(s, b);
    let of = polygons_cells(s);
    let mut found = Found::default();
    let mut listed = vec![false; of.len()];
    for row in asked.rows {
        let mut here: Vec<usize> = (0..of.len()).collect();
        here.retain(|&id| of[id].rows.contains(&row));
        for col in asked.cols.clone() {
            for &id in here.iter().filter(|&&id| of[id].cols.contains(&col)) {
                found.entries += 1;
                if !listed[id] {
                    listed[id] = true;
                    found.ids.push(id as u32);
                }
            }
        }
    }
    Ok(found)
}

// ---- the calls

pub fn without_tables(site: &Lent, b: &[f64; 4], room: usize) -> Answer {
    let mut ids = vec![PATTERN; room];
    let (status, [written, entries]) = site.polygons_near_plain(b, &mut ids);
    Answer {
        numbers: [status.into(), written, entries],
        ids,
    }
}

/// With new stamps, as many as there may be.
pub fn with_tables(site: &Lent, b: &[f64; 4], room: usize) -> Answer {
    let (mut marks, mut epoch) = (vec![0; site.head.counts[2].min(4_096) as usize], 0);
    let mut ids = vec![PATTERN; room];
    let (status, [written, entries]) = site.polygons_near(b, &mut marks, &mut epoch, &mut ids);
    Answer {
        numbers: [status.into(), written, entries],
        ids,
    }
}

// ---- held against each other

/// A box asked of a site as it stands, in such a room.
#[derive(Clone, Copy)]
struct Asked<'a>(&'a Lent, &'a [f64; 4], usize);

impl Value for Asked<'_> {
    fn same(self, _: Self) -> bool {
        unreachable!("inputs are only shown")
    }
    fn show(self) -> String {
        let Self(site, b, room) = self;
        format!(
            "box {b:?}, room {room}; {:?}, points {:?}, polygons {:?}",
            site.head, site.points, site.polygons
        )
    }
}

/// The engine without tables, by what is due.
pub struct Rows {
    pub listed: Tally,
    pub short: Tally,
    pub refused: Tally,
}

impl Rows {
    fn new(listed: [&'static str; 2], refused: &'static str) -> Self {
        Self {
            listed: Tally::new(listed),
            short: Tally::new(["polygons_near_plain, room one short", "8, ids zero"]),
            refused: Tally::new(["polygons_near_plain, faulty", refused]),
        }
    }

    /// Over sites that were not built so.
    pub fn by_cells(what: &'static str) -> Self {
        let no = "6 by document 02's words, or 1; nothing written";
        Self::new([what, "the oracle's list cell by cell"], no)
    }

    fn add(&mut self, at: Asked, ours: &Answer, theirs: &Answer) {
        let tally = match theirs.numbers[0] {
            0 => &mut self.listed,
            8 => &mut self.short,
            _ => &mut self.refused,
        };
        tally.add(at, ours, theirs);
    }

    /// In every room.
    pub fn ask(&mut self, site: &Lent, b: &[f64; 4], verdict: &Verdict) {
        for room in rooms(verdict) {
            let ours = without_tables(site, b, room);
            self.add(Asked(site, b, room), &ours, &due(verdict, room));
        }
    }

    pub fn print(self) -> bool {
        tally::print(&[self.listed, self.short, self.refused])
    }
}

const RUST: &str = "for_each_polygon_near with new stamps, entries read";

/// Both engines and the Rust over sites as they were built.
pub struct Engines {
    pub rust: Rows,
    pub tables: Tally,
    pub cells: Tally,
}

impl Engines {
    pub fn new() -> Self {
        Self {
            rust: Rows::new(["polygons_near_plain", RUST], "1, nothing written"),
            tables: Tally::new([
                "polygons_near_plain, all of these",
                "our polygons_near with new stamps, 8 and 1 too",
            ]),
            cells: Tally::new(["the oracle's list cell by cell", RUST]),
        }
    }

    pub fn ask(&mut self, scene: &Scene, site: &Lent, b: &[f64; 4]) {
        let verdict = by_rust(scene, b);
        self.rust.ask(site, b, &verdict);
        for room in rooms(&verdict) {
            let at = Asked(site, b, room);
            let (plain, tables) = (without_tables(site, b, room), with_tables(site, b, room));
            self.tables.add(at, &plain, &tables);
        }
        let room = rooms(&verdict).max().unwrap_or(0);
        let (cells, rust) = (due(&cell_by_cell(site, b), room), due(&verdict, room));
        self.cells.add(Asked(site, b, room), &cells, &rust);
    }
}
