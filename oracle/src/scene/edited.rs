//! Sites edited after they were built, as the tablet edition does (document 02's Q-6): points, polygons
//! and the head are changed, and no table is built anew. The engine without tables is asked boxes, and
//! must list what the oracle lists cell by cell.

use super::damage::{box_of, damage, some_of};
use super::given::{self, Given};
use super::near::{self, Rows};
use crate::grid::questions;
use crate::grid::sites::Site as Gridded;
use crate::lent::{Lent, Rooms};
use crate::sites::{self, Group, Plan, Point};
use crate::util::bits::step;
use crate::util::rng::SplitMix64;
use crate::util::table::{Table, count};

/// Editions of each site, and boxes asked of each.
const EDITIONS: usize = 3;
const BOXES: usize = 6;

/// Points and polygons that there is room for behind the last ones.
const MORE: usize = 8;

/// Cells of a box, times polygons, up to which the list cell by cell is made.
const DEAR: usize = 1 << 24;

const MOST_POLYGONS: u32 = 4_096;
const MOST_POINTS: u32 = 65_536;
const MOST_CELLS: u32 = 1_048_576;

pub fn compare() -> bool {
    println!("`polygons_near_plain` over edited sites:\n");
    let mut edited = Edited::new();
    for (i, group) in groups().iter().enumerate() {
        let r = &mut SplitMix64::new(6_300 + i as u64);
        for _ in 0..group.sites {
            let plan = (group.make)(r);
            edited.site(r, &plan);
        }
    }
    edited.largest();
    edited.print()
}

/// As other comparisons have them, fewer of each, and the fullest.
fn groups() -> Vec<Group> {
    let fewer = |g: Group| Group {
        sites: (g.sites / 4).min(700),
        ..g
    };
    let mut all: Vec<Group> = sites::groups().into_iter().map(fewer).collect();
    all.push(Group {
        what: "4,096 polygons of 65,536 points",
        sites: 3,
        make: fullest,
    });
    all
}

/// As many polygons and points as there may be, some of the points on whole numbers.
fn fullest(r: &mut SplitMix64) -> Plan {
    let ring = |r: &mut SplitMix64| {
        let at = (r.between(0.0, 1_900.0).floor(), r.between(0.0, 1_900.0));
        let corner = |_| {
            let (x, y) = (r.between(0.0, 40.0).floor(), r.between(0.0, 40.0));
            (at.0 + x, at.1 + y)
        };
        (0..MOST_POINTS / MOST_POLYGONS).map(corner).collect()
    };
    Plan {
        size: (2_000.0, 2_000.0),
        rings: (0..MOST_POLYGONS).map(|_| ring(r)).collect(),
    }
}

// ---- edits

const EDITS: [&str; 13] = [
    "a point moved",
    "a polygon moved",
    "a polygon of fewer points",
    "two polygons swapped",
    "a polygon over any stretch of the points",
    "a polygon more, at the end",
    "a polygon less, at the end",
    "a point more, at the end",
    "another origin",
    "another cell, and its inverse",
    "other columns and rows",
    "all points moved into one place",
    "all that is not read cleared",
];

/// The edits by their places above, as often as they are tried: after some of them little is left to find.
const OFTEN: [usize; 24] = [
    0, 0, 0, 0, 0, 1, 1, 1, 2, 3, 3, 3, 4, 4, 5, 5, 6, 7, 8, 9, 9, 10, 11, 12,
];

/// A site under the pen, and the grid and boxes that questions are made from.
struct Draft {
    site: Lent,
    gridded: Gridded,
}

impl Draft {
    /// As it is built, unless it has too many cells. What stands behind its points and polygons would be
    /// refused if it were read.
    fn new(plan: &Plan) -> Option<Self> {
        let scene = plan.scene();
        let gridded = Gridded::of_scene(&scene);
        if !gridded.is_allowed() {
            return None;
        }
        let exact = given::rooms(&given::of_scene(&scene));
        let mut site = Lent::blank(Rooms {
            points: exact.points + 2 * MORE,
            polygons: exact.polygons + 2 * MORE,
            ..exact
        });
        let given = Given::new(plan);
        let status = site.build(given.size, &given.points, &given.lens);
        assert!(status == 0, "a site of ours");
        site.points[exact.points..].fill(f64::NAN);
        site.polygons[exact.polygons..].fill(u32::MAX);
        Some(Self { site, gridded })
    }

    fn polygons(&mut self) -> &mut [[u32; 2]] {
        let number = self.site.head.counts[2] as usize;
        &mut self.site.polygons.as_chunks_mut().0[..number]
    }

    fn points(&mut self) -> &mut [[f64; 2]] {
        let number = self.site.head.counts[3] as usize;
        &mut self.site.points.as_chunks_mut().0[..number]
    }

    /// On and beside borders, on and off the grid, at the domain's ends; some zeros have a minus.
    fn place(&self, r: &mut SplitMix64) -> Point {
        let kind = r.below(questions::POINTS as u64) as usize;
        let (x, y) = questions::asked_point(r, &self.gridded, kind);
        let mut ugly = |x: f64| {
            let near = if x.is_finite() { x } else { 0.0 };
            let near = near.clamp(-1e6, 1e6);
            r.pick(&[near, near, near, near, near, near, -0.0, 1e6])
        };
        (ugly(x), ugly(y))
    }

    /// Any points of the list that follow each other, often few.
    fn stretch(&self, r: &mut SplitMix64) -> [u32; 2] {
        let points = self.site.head.counts[3];
        let first = r.below(u64::from(points) + 1) as u32;
        let most = r.pick(&[3, 4, 8, points]).min(points - first);
        [first, r.below(u64::from(most) + 1) as u32]
    }

    fn edit(&mut self, r: &mut SplitMix64, kind: usize) {
        let (x, y) = self.place(r);
        let stretch = self.stretch(r);
        let [_, _, polygons, points, _] = self.site.head.counts;
        match kind {
            0 => some_of(r, self.points(), |_, p| *p = [x, y]),
            1 => self.drag(r, (x, y)),
            2 => some_of(r, self.polygons(), |r, [_, len]| {
                *len = r.pick(&[0, 1, 2, 3, len.saturating_sub(1)]).min(*len);
            }),
            3 => {
                let (a, b) = (r.bits() as usize, r.bits() as usize);
                let all = self.polygons();
                let n = all.len();
                if n > 0 {
                    all.swap(a % n, b % n);
                }
            }
            4 => some_of(r, self.polygons(), |_, place| *place = stretch),
            5 if self.site.polygons.len() > 2 * polygons as usize + 1
                && polygons < MOST_POLYGONS =>
            {
                self.site.head.counts[2] += 1;
                self.polygons()[polygons as usize] = stretch;
            }
            6 => self.site.head.counts[2] = polygons.saturating_sub(1),
            7 if self.site.points.len() > 2 * points as usize + 1 && points < MOST_POINTS => {
                self.site.head.counts[3] += 1;
                self.points()[points as usize] = [x, y];
            }
            8 => self.site.head.floats[2..4].copy_from_slice(&[x, y]),
            9 => self.measure(r),
            10 => self.lay(r),
            11 => self.points().fill([x, y]),
            12 => self.clear(r),
            _ => (),
        }
        self.look();
    }

    /// A polygon with its first point to the place, no point past the domain's ends.
    fn drag(&mut self, r: &mut SplitMix64, (x, y): Point) {
        let mut place = [0; 2];
        some_of(r, self.polygons(), |_, p| place = *p);
        let [first, len] = place.map(|n| n as usize);
        let moved = &mut self.points()[first..first + len];
        let Some(&[from_x, from_y]) = moved.first() else {
            return;
        };
        for p in moved {
            let to = [p[0] - from_x + x, p[1] - from_y + y];
            *p = to.map(|x| x.clamp(-1e6, 1e6));
        }
    }

    fn measure(&mut self, r: &mut SplitMix64) {
        let (old, any) = (self.site.head.floats[4], r.between(1.0, 60.0));
        let cell = r.pick(&[
            1.0,
            step(1.0, 1),
            any,
            any,
            any,
            3.0,
            (old / 2.0).max(1.0),
            (old / 3.0).max(1.0),
            1e6,
            1e300,
            f64::MAX,
        ]);
        self.site.head.floats[4..].copy_from_slice(&[cell, 1.0 / cell]);
    }

    fn lay(&mut self, r: &mut SplitMix64) {
        let (a, b) = (1 + r.below(40) as u32, 1 + r.below(40) as u32);
        let cells = r.pick(&[
            [a, b],
            [a, b],
            [1, a],
            [a, 1],
            [1, 1],
            [1_024, 1_024],
            [1, MOST_CELLS],
            [MOST_CELLS, 1],
        ]);
        self.site.head.counts[..2].copy_from_slice(&cells);
    }

    fn clear(&mut self, r: &mut SplitMix64) {
        let s = &mut self.site;
        s.head.floats[..2].fill(r.pick(&[f64::NAN, -1.0, 0.0]));
        s.head.counts[4] = r.pick(&[0, u32::MAX]);
        s.boxes.clear();
        for table in [&mut s.owners, &mut s.starts, &mut s.items] {
            table.clear();
        }
    }

    /// Questions are made from the grid and the boxes as they are now.
    fn look(&mut self) {
        let [_, _, ox, oy, cell, inv] = self.site.head.floats;
        let [cols, rows, ..] = self.site.head.counts;
        let grid = &mut self.gridded.grid;
        grid.origin = (ox, oy);
        (grid.cell, grid.inv) = (cell, inv);
        (grid.cols, grid.rows) = (cols, rows);
        let places = self.polygons().to_vec();
        let points = self.points().as_flattened();
        let own = |[first, len]: [u32; 2]| {
            let [from, to] = [first, first + len].map(|n| 2 * n as usize);
            box_of(&points[from..to])
        };
        self.gridded.boxes = places.into_iter().flat_map(own).collect();
    }

    /// One cell's where more would take too long.
    fn asked_box(&self, r: &mut SplitMix64) -> [f64; 4] {
        let kind = r.below(questions::BOXES as u64) as usize;
        let b = questions::asked_box(r, &self.gridded, kind);
        let b = b.map(|x| if x == 0.0 { r.sign() * x } else { x });
        let polygons = self.site.head.counts[2] as usize;
        if near::asked_cells(&self.site, &b).number() * polygons > DEAR {
            return [b[0], b[1], b[0], b[1]];
        }
        b
    }
}

/// Damage as to tables, or a cell that may not be, with its inverse.
fn spoil(r: &mut SplitMix64, s: &mut Lent) {
    if r.below(4) > 0 {
        return damage(r, s);
    }
    let tiny = f64::MIN_POSITIVE;
    let cell = r.pick(&[step(1.0, -1), 0.5, tiny, 0.0, -1.0, f64::INFINITY, f64::NAN]);
    s.head.floats[4..].copy_from_slice(&[cell, 1.0 / cell]);
}

// ---- held against the list cell by cell

struct Edited {
    rows: Rows,
    edits: [u64; EDITS.len()],
    sites: u64,
    editions: u64,
    boxes: u64,
    turned: u64,
    damaged: u64,
    unsound: u64,
    outside: u64,
    listed: u64,
    entries: u64,
    most: u64,
    unordered: u64,
}

impl Edited {
    fn new() -> Self {
        Self {
            rows: Rows::by_cells("polygons_near_plain, edited site"),
            edits: [0; EDITS.len()],
            sites: 0,
            editions: 0,
            boxes: 0,
            turned: 0,
            damaged: 0,
            unsound: 0,
            outside: 0,
            listed: 0,
            entries: 0,
            most: 0,
            unordered: 0,
        }
    }

    fn site(&mut self, r: &mut SplitMix64, plan: &Plan) {
        let Some(mut draft) = Draft::new(plan) else {
            return;
        };
        self.sites += 1;
        for _ in 0..EDITIONS {
            for _ in 0..1 + r.below(4) {
                let kind = r.pick(&OFTEN);
                draft.edit(r, kind);
                self.edits[kind] += 1;
            }
            self.editions += 1;
            for _ in 0..BOXES {
                let b = draft.asked_box(r);
                self.ask(&draft.site, &b);
            }
            let mut broken = draft.site.clone();
            spoil(r, &mut broken);
            self.damaged += 1;
            let [x, y, ..] = draft.asked_box(r);
            self.ask(&broken, &[x, y, x, y]);
        }
    }

    fn ask(&mut self, site: &Lent, b: &[f64; 4]) {
        let verdict = near::cell_by_cell(site, b);
        self.boxes += 1;
        self.turned += u64::from(b[0] > b[2] || b[1] > b[3]);
        match &verdict {
            Err(6) => self.unsound += 1,
            Err(_) => self.outside += 1,
            Ok(found) => {
                self.listed += found.ids.len() as u64;
                self.entries += found.entries;
                self.most = self.most.max(found.entries);
                self.unordered += u64::from(!found.ids.is_sorted());
            }
        }
        self.rows.ask(site, b, &verdict);
    }

    /// As many polygons, points, cells and entries as there may be, and each limit passed by one.
    fn largest(&mut self) {
        let r = &mut SplitMix64::new(6_390);
        let full = fullest(r);
        let mut draft = Draft::new(&full).expect("few cells");
        draft.site.points.resize(2 * MOST_POINTS as usize + 2, 0.5);
        draft.site.points[2 * MOST_POINTS as usize..].fill(0.5);
        draft.site.polygons[2 * MOST_POLYGONS as usize..].fill(0);
        let all = [-1e6, -1e6, 1e6, 1e6];
        let side = MOST_CELLS.isqrt();
        for [cols, rows] in [
            [side, side],
            [1, MOST_CELLS],
            [MOST_CELLS, 1],
            [side, side + 1],
            [1, MOST_CELLS + 1],
            [u32::MAX, u32::MAX],
            [0, 1],
            [1, 0],
            [1, 1],
        ] {
            draft.site.head.counts[..2].copy_from_slice(&[cols, rows]);
            draft.look();
            let [x, y] = draft.points()[r.below(u64::from(MOST_POINTS)) as usize];
            self.ask(&draft.site, &[x, y, x + 60.0, y + 60.0]);
            self.ask(&draft.site, &[x, y, x, y]);
        }
        for (count, over) in [(2, MOST_POLYGONS + 1), (3, MOST_POINTS + 1)] {
            let mut broken = draft.site.clone();
            broken.head.counts[count] = over;
            self.ask(&broken, &all);
        }
        self.ask(&draft.site, &all);
        // Each polygon in each cell.
        draft.points()[..3].copy_from_slice(&[[-1e6, -1e6], [1e6, 1e6], [0.0, -0.0]]);
        draft.polygons().fill([0, 3]);
        draft.site.head.counts[..2].copy_from_slice(&[side, side]);
        self.ask(&draft.site, &all);
    }

    fn print(self) -> bool {
        let mut table = Table::new(&["what the edited sites reach", "count"]);
        let mut row = |what: &str, n| table.row(vec![what.to_string(), count(n)]);
        row("sites", self.sites);
        for (what, n) in EDITS.iter().zip(self.edits) {
            row(&format!("edit tried: {what}"), n);
        }
        row("editions", self.editions);
        row("of them once more with damage", self.damaged);
        row("boxes", self.boxes);
        row("of them turned", self.turned);
        row("refused 6", self.unsound);
        row("refused 1", self.outside);
        row("ids listed", self.listed);
        row("lists that do not rise by id", self.unordered);
        row("entries", self.entries);
        row("most entries of a box", self.most);
        table.print();
        self.rows.print()
    }
}
