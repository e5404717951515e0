//! Crates `grid`, `tables` and `walk` against the published `grid.rs`, number for number: the tables
//! of some thousand sites, and box queries, points and ray walks on each. The Rust keeps its tables
//! to itself, so they are read off the seams of crate `oracle`, whose `grid.rs` is the published text
//! with one line more, which notes the cell that a walk enters.

mod bench;
pub mod lines;
pub mod questions;
pub mod sites;

pub use bench::bench;
pub use lines::asked;

use crate::probe::{self, Grid, Ray, Tables};
use crate::util::floats;
use crate::util::rng::SplitMix64;
use crate::util::table::{Table, count};
use crate::util::tally::{self, Tally, Value};
use oracle::{Stamps, UniformGrid, Vec2, seam};
use sites::{Site, aabb, list};

pub fn compare() -> bool {
    let groups = sites::groups();
    sites::print(&groups);
    let mut held = Held::new();
    for (i, group) in groups.iter().enumerate() {
        let r = &mut SplitMix64::new(1_000 + i as u64);
        for _ in 0..group.sites {
            let site = group.make(r);
            held.site(r, &site);
        }
    }
    held.columns();
    held.print()
}

/// What lent room is filled with, so that a cell that is not written shows.
const PATTERN: u32 = 0xA5A5_A5A5;

// ---- what the Rust answers

/// A box query: ids in order, entries read, and the stamps after it.
struct Listed {
    ids: Vec<u32>,
    read: usize,
    stamps: Stamps,
}

fn rust_query(grid: &UniformGrid, b: [f64; 4], marks: &[u32], epoch: u32) -> Listed {
    let mut stamps = Stamps::oracle_from(marks.to_vec(), epoch);
    let mut ids = Vec::new();
    grid.for_each_in_aabb(&aabb(b), &mut stamps, |id| ids.push(id));
    Listed {
        ids,
        read: grid.oracle_entries(&aabb(b)),
        stamps,
    }
}

/// The cells that a ray enters, and whether the walk has no end. It has none where it steps and yet
/// stays in its cell; it is given up there, and the cells are those up to there. A walk that leaves
/// each cell it enters has fewer than columns plus rows.
fn rust_walk(grid: &UniformGrid, ray: Ray) -> (Vec<u32>, bool) {
    let (cols, rows) = grid.dims();
    let mut cells: Vec<u32> = Vec::new();
    let mut stays = false;
    let (o, d) = (ray.origin, ray.direction);
    let (o, d) = (Vec2::new(o.0, o.1), Vec2::new(d.0, d.1));
    grid.traverse_ray(o, d, ray.length, |_, _, _| {
        let cell = seam::place() as u32;
        stays = cells.last() == Some(&cell);
        if !stays {
            cells.push(cell);
        }
        assert!(cells.len() < cols + rows, "a walk never turns back");
        !stays
    });
    (cells, stays)
}

// ---- what is shown of a difference

#[derive(Clone, Copy)]
enum Question<'a> {
    Tables,
    Room {
        starts: usize,
        items: usize,
    },
    Box([f64; 4]),
    Query {
        b: [f64; 4],
        epoch: u32,
        marks: &'a [u32],
        room: usize,
    },
    Point((f64, f64)),
    Ray(Ray),
    Epoch(u32),
}

/// A question to a site.
#[derive(Clone, Copy)]
struct At<'a>(&'a Site, Question<'a>);

impl Value for At<'_> {
    fn same(self, _: Self) -> bool {
        unreachable!("inputs are only shown")
    }
    fn show(self) -> String {
        let question = match self.1 {
            Question::Tables => "the tables".to_string(),
            Question::Room { starts, items } => format!("room {starts} and {items}"),
            Question::Box(b) => format!("box ({})", list(&b)),
            Question::Query {
                b,
                epoch,
                marks,
                room,
            } => {
                let b = list(&b);
                format!("box ({b}), epoch {epoch}, marks {marks:?}, room {room}")
            }
            Question::Point((x, y)) => format!("point ({})", list(&[x, y])),
            Question::Ray(ray) => {
                let (o, d) = (ray.origin, ray.direction);
                format!("ray ({})", list(&[o.0, o.1, d.0, d.1, ray.length]))
            }
            Question::Epoch(epoch) => format!("epoch {epoch}"),
        };
        format!("{question}; {}", self.0.show())
    }
}

/// Whole numbers, then lists: a status and counts, and all that was lent.
#[derive(Clone, Copy, PartialEq)]
struct Answer<'a, const N: usize, const L: usize> {
    numbers: [u64; N],
    lists: [&'a [u32]; L],
}

impl<const N: usize, const L: usize> Value for Answer<'_, N, L> {
    fn same(self, other: Self) -> bool {
        self == other
    }
    fn show(self) -> String {
        format!("{:?} {:?}", self.numbers, self.lists)
    }
}

fn answer<'a, const N: usize, const L: usize>(
    numbers: [u64; N],
    lists: [&'a [u32]; L],
) -> Answer<'a, N, L> {
    Answer { numbers, lists }
}

/// A list, and zeros up to `room`.
fn padded(list: &[u32], room: usize) -> Vec<u32> {
    let mut all = list.to_vec();
    all.resize(room, 0);
    all
}

// ---- both sides

struct Held {
    columns: Tally,
    dims: Tally,
    build: Tally,
    build_long: Tally,
    build_short: Tally,
    cell_range: Tally,
    query: Tally,
    query_long: Tally,
    query_short: Tally,
    items_at: Tally,
    next_epoch: Tally,
    walk: Tally,
    walk_short: Tally,
    walk_nan: Tally,
    seen: Seen,
}

/// How much the inputs reach.
#[derive(Default)]
struct Seen {
    sites: u64,
    refused: u64,
    polygons: u64,
    cells: u64,
    most_cells: u64,
    items: u64,
    ranges: u64,
    ids: u64,
    read: u64,
    wraps: u64,
    points: u64,
    walks: u64,
    entered: u64,
    endless: u64,
    endless_nan: u64,
}

impl Held {
    fn new() -> Self {
        let query = "for_each_in_aabb, marks, epoch";
        Self {
            columns: Tally::new(["columns", "the same sum"]),
            dims: Tally::new(["columns of a site", "dims"]),
            build: Tally::new(["build", "starts and items"]),
            build_long: Tally::new(["build, longer room", "zeros after them"]),
            build_short: Tally::new(["build, room one short", "5, nothing written"]),
            cell_range: Tally::new(["cell_range", "cell_range"]),
            query: Tally::new(["box_query", query]),
            query_long: Tally::new(["box_query, longer room", "zeros after them"]),
            query_short: Tally::new(["box_query, room one short", "8, ids zero, stamps the same"]),
            items_at: Tally::new(["items_at, items_at_number", "items_at"]),
            next_epoch: Tally::new(["next_epoch", "Stamps::next_epoch"]),
            walk: Tally::new(["ray walk", "traverse_ray"]),
            walk_short: Tally::new(["ray walk, room one short", "all but the last, counted"]),
            walk_nan: Tally::new(["ray walk, length NaN", "traverse_ray up to its stay"]),
            seen: Seen::default(),
        }
    }

    /// All about one site. Its tables are the start: where they differ, nothing more is asked.
    fn site(&mut self, r: &mut SplitMix64, site: &Site) {
        let seen = &mut self.seen;
        seen.sites += 1;
        if !site.is_allowed() {
            seen.refused += 1;
            return;
        }
        seen.polygons += site.polygons() as u64;
        seen.cells += site.grid.cells();
        seen.most_cells = seen.most_cells.max(site.grid.cells());
        seen.items += site.rust.oracle_items().len() as u64;

        self.dims(site);
        let Some(tables) = self.tables(site) else {
            return;
        };
        self.rooms(r, site);
        self.queries(r, site, &tables);
        for kind in 0..questions::POINTS {
            let p = questions::asked_point(r, site, kind);
            self.point(site, &tables, p);
        }
        for kind in 0..questions::RAYS {
            let ray = questions::asked_ray(r, site, kind);
            self.walk(site, ray);
        }
        let ray = questions::nan_ray(r, site);
        self.nan_walk(site, ray);
    }

    fn dims(&mut self, site: &Site) {
        let (width, height) = site.extent;
        let ours = [width, height].map(|x| probe::bf_inner_columns(x, site.grid.cell));
        let (cols, rows) = site.rust.dims();
        self.dims.add(
            At(site, Question::Tables),
            answer(ours, []),
            answer([cols as u64, rows as u64], []),
        );
    }

    /// In room that is just enough.
    fn tables(&mut self, site: &Site) -> Option<Tables> {
        let (starts, items) = (site.rust.oracle_starts(), site.rust.oracle_items());
        let at = At(site, Question::Tables);
        let rust = answer([0], [starts, items]);
        match Tables::new(site.grid, &site.boxes, items.len()) {
            Ok(tables) => {
                let ours = answer([0], [tables.starts(), tables.items()]);
                self.build.add(at, ours, rust);
                (ours == rust).then_some(tables)
            }
            Err(status) => {
                let ours = answer([u64::from(status)], [&[], &[]]);
                self.build.add(at, ours, rust);
                None
            }
        }
    }

    /// In other room: longer, or one short in either table.
    fn rooms(&mut self, r: &mut SplitMix64, site: &Site) {
        let (starts, items) = (site.rust.oracle_starts(), site.rust.oracle_items());
        let (s, i) = (starts.len(), items.len());
        let build = |s: usize, i: usize| {
            let (mut starts, mut items) = (vec![PATTERN; s], vec![PATTERN; i]);
            let (status, count) = site.grid.build(&site.boxes, &mut starts, &mut items);
            ([u64::from(status), count], starts, items)
        };
        let at = |starts, items| At(site, Question::Room { starts, items });

        let (s2, i2) = (s + r.below(5) as usize, i + r.below(5) as usize);
        let (numbers, a, b) = build(s2, i2);
        self.build_long.add(
            at(s2, i2),
            answer(numbers, [&a, &b]),
            answer([0, i as u64], [&padded(starts, s2), &padded(items, i2)]),
        );

        // No starts at all is as short as it gets.
        let mut short = vec![(s - 1, i), (s - 1, i + 3), (0, i)];
        if i > 0 {
            short.extend([(s, i - 1), (s + 2, i - 1), (s, 0), (s - 1, i - 1)]);
        }
        let (s2, i2) = r.pick(&short);
        for (s2, i2) in [(s - 1, i), (s, i.saturating_sub(1)), (s2, i2)] {
            if s2 >= s && i2 >= i {
                continue;
            }
            let (numbers, a, b) = build(s2, i2);
            self.build_short.add(
                at(s2, i2),
                answer(numbers, [&a, &b]),
                answer([5, 0], [&vec![PATTERN; s2], &vec![PATTERN; i2]]),
            );
        }
    }

    /// The stamps go on from query to query, or are set anew: at the last epochs, and with marks that
    /// an old epoch left or that a coming one will use.
    fn queries(&mut self, r: &mut SplitMix64, site: &Site, tables: &Tables) {
        let mut marks = vec![0; site.polygons() + r.below(2) as usize];
        let mut epoch = 0;
        for kind in 0..questions::BOXES {
            if r.below(3) == 0 {
                let any = r.bits() as u32;
                epoch = r.pick(&[0, 1, any, u32::MAX - 1, u32::MAX]);
                let next = epoch.wrapping_add(1);
                marks.fill_with(|| r.pick(&[0, 0, 1, epoch, next, any]));
            }
            let b = questions::asked_box(r, site, kind);
            self.range(site, b);
            let after = self.query(r, site, tables, b, &marks, epoch);
            marks = after.oracle_marks().to_vec();
            epoch = after.oracle_epoch();
        }
        self.epoch(site, &marks, epoch);
        let last = r.pick(&[0, u32::MAX - 1, u32::MAX]);
        self.epoch(site, &marks, last);
    }

    fn range(&mut self, site: &Site, b: [f64; 4]) {
        let (found, range) = site.grid.cell_range(&b);
        let rust = site.rust.oracle_range(&aabb(b));
        self.seen.ranges += u64::from(rust.is_some());
        let rust_range = rust.unwrap_or([0; 4]).map(|n| n as u32);
        self.cell_range.add(
            At(site, Question::Box(b)),
            answer([u64::from(found)], [&range]),
            answer([u64::from(rust.is_some())], [&rust_range]),
        );
    }

    /// One query in room that is just enough, longer, and one short. Hands back the Rust's stamps.
    fn query(
        &mut self,
        r: &mut SplitMix64,
        site: &Site,
        tables: &Tables,
        b: [f64; 4],
        marks: &[u32],
        epoch: u32,
    ) -> Stamps {
        let rust = rust_query(&site.rust, b, marks, epoch);
        let (n, read) = (rust.ids.len(), rust.read as u64);
        let after = (rust.stamps.oracle_marks(), rust.stamps.oracle_epoch());
        self.seen.ids += n as u64;
        self.seen.read += read;
        self.seen.wraps += u64::from(epoch == u32::MAX && after.1 == 1);

        let longer = n + 1 + r.below(4) as usize;
        for room in [n, longer, n.wrapping_sub(1)] {
            if room == usize::MAX {
                continue;
            }
            let (mut our_marks, mut our_epoch) = (marks.to_vec(), epoch);
            let mut ids = vec![PATTERN; room];
            let (status, [written, our_read]) =
                tables.box_query(&b, &mut our_marks, &mut our_epoch, &mut ids);
            let ours = answer(
                [u64::from(status), written, our_read, u64::from(our_epoch)],
                [&ids, &our_marks],
            );
            let (numbers, ids) = if room < n {
                ([8, 0, 0], vec![0; room])
            } else {
                ([0, n as u64, read], padded(&rust.ids, room))
            };
            let [status, written, read] = numbers;
            let theirs = answer([status, written, read, u64::from(after.1)], [&ids, after.0]);
            let tally = match room {
                _ if room < n => &mut self.query_short,
                _ if room > n => &mut self.query_long,
                _ => &mut self.query,
            };
            let question = Question::Query {
                b,
                epoch,
                marks,
                room,
            };
            tally.add(At(site, question), ours, theirs);
        }
        rust.stamps
    }

    fn epoch(&mut self, site: &Site, marks: &[u32], epoch: u32) {
        let mut stamps = Stamps::oracle_from(marks.to_vec(), epoch);
        stamps.next_epoch();
        let (mut our_marks, mut our_epoch) = (marks.to_vec(), epoch);
        probe::next_epoch(&mut our_marks, &mut our_epoch);
        self.next_epoch.add(
            At(site, Question::Epoch(epoch)),
            answer([u64::from(our_epoch)], [&our_marks]),
            answer([u64::from(stamps.oracle_epoch())], [stamps.oracle_marks()]),
        );
    }

    /// The cell's ids one by one, and two zeros past their end.
    fn point(&mut self, site: &Site, tables: &Tables, p: (f64, f64)) {
        let rust = site.rust.items_at(Vec2::new(p.0, p.1));
        let n = tables.items_at_number(p);
        // A wrong number must not take for ever.
        let shown = n.min(2 * probe::MOST_POLYGONS);
        let ours: Vec<u32> = (0..shown + 2).map(|i| tables.item_at(p, i)).collect();
        self.seen.points += u64::from(!rust.is_empty());
        self.items_at.add(
            At(site, Question::Point(p)),
            answer([n as u64], [&ours]),
            answer([rust.len() as u64], [&padded(rust, rust.len() + 2)]),
        );
    }

    fn walk(&mut self, site: &Site, ray: Ray) {
        let (rust, stays) = rust_walk(&site.rust, ray);
        self.seen.endless += u64::from(stays);
        self.seen.walks += u64::from(!rust.is_empty());
        self.seen.entered += rust.len() as u64;
        add_walk(&mut self.walk, site, ray, &rust, rust.len() + 2);
        if !rust.is_empty() {
            add_walk(&mut self.walk_short, site, ray, &rust, rust.len() - 1);
        }
    }

    fn nan_walk(&mut self, site: &Site, ray: Ray) {
        let (rust, stays) = rust_walk(&site.rust, ray);
        self.seen.endless_nan += u64::from(stays);
        add_walk(&mut self.walk_nan, site, ray, &rust, rust.len() + 2);
    }

    /// `build` works columns out within itself, so the sum is written out here. Where it would
    /// overflow, ours stays at the greatest number.
    fn columns(&mut self) {
        for (extent, cell) in floats::all(&floats::pairs(1_099)) {
            let n = (extent / cell).floor() as usize;
            let rust = n.saturating_add(1).max(1) as u64;
            let ours = probe::bf_inner_columns(extent, cell);
            self.columns.add((extent, cell), ours, rust);
        }
    }

    fn print(self) -> bool {
        self.seen.print();
        tally::print(&[
            self.columns,
            self.dims,
            self.build,
            self.build_long,
            self.build_short,
            self.cell_range,
            self.query,
            self.query_long,
            self.query_short,
            self.items_at,
            self.next_epoch,
            self.walk,
            self.walk_short,
            self.walk_nan,
        ])
    }
}

/// The cells in room for `room` of them, and what is not written.
fn add_walk(tally: &mut Tally, site: &Site, ray: Ray, rust: &[u32], room: usize) {
    let mut ours = vec![PATTERN; room];
    let n = site.grid.ray_cells(ray, &mut ours);
    let mut theirs = rust[..rust.len().min(room)].to_vec();
    theirs.resize(room, PATTERN);
    tally.add(
        At(site, Question::Ray(ray)),
        answer([n as u64], [&ours]),
        answer([rust.len() as u64], [&theirs]),
    );
}

impl Seen {
    fn print(&self) {
        let mut table = Table::new(&["what the inputs reach", "count"]);
        for (what, n) in [
            ("sites", self.sites),
            ("left out, over the limit of cells", self.refused),
            ("polygons", self.polygons),
            ("cells", self.cells),
            ("cells of the largest grid", self.most_cells),
            ("items", self.items),
            ("boxes asked that have a range", self.ranges),
            ("ids listed", self.ids),
            ("entries read", self.read),
            ("epochs that wrapped", self.wraps),
            ("points in a cell with items", self.points),
            ("walks that enter a cell", self.walks),
            ("cells entered", self.entered),
            ("walks of the Rust without end", self.endless),
            (
                "the same of length NaN, ours held up to there",
                self.endless_nan,
            ),
        ] {
            table.row(vec![what.to_string(), count(n)]);
        }
        table.print();
    }
}

/// The grid's six numbers as words of a line.
fn grid_words(g: &Grid) -> Vec<u64> {
    let floats = [g.origin.0, g.origin.1, g.cell, g.inv].map(f64::to_bits);
    let mut words = floats.to_vec();
    words.extend([g.cols, g.rows].map(u64::from));
    words
}
