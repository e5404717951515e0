//! Damaged tables: sites of ours with some numbers changed at random. Every question is answered or
//! refused, and refused 6 exactly where the check here, written from document 01's words alone, finds
//! the tables unsound. A box is asked of the engine without tables too, which refuses fewer of them.

use super::given::{self, Given};
use super::is_coordinate;
use super::near::{self, Rows};
use crate::lent::{Lent, PATTERN};
use crate::sites;
use crate::util::bits::step;
use crate::util::rng::SplitMix64;
use crate::util::table::{Table, count, verdict};

const QUESTIONS: u64 = 1_200_000;
/// Questions of one damaged site.
const EACH: u64 = 6;

/// The box that a polygon's points give: empty if they are fewer than three.
pub fn box_of(points: &[f64]) -> [f64; 4] {
    let mut b = [
        f64::INFINITY,
        f64::INFINITY,
        f64::NEG_INFINITY,
        f64::NEG_INFINITY,
    ];
    if points.len() >= 6 {
        for p in points.chunks_exact(2) {
            b = [
                b[0].min(p[0]),
                b[1].min(p[1]),
                b[2].max(p[0]),
                b[3].max(p[1]),
            ];
        }
    }
    b
}

/// Document 01, "Sound tables", line by line.
fn is_sound(s: &Lent) -> bool {
    let [width, height, ox, oy, cell, inverse] = s.head.floats;
    let [cols, rows, polygons, points, items] = s.head.counts.map(|n| n as usize);
    if polygons > 4_096 || points > 65_536 {
        return false;
    }
    if cols < 1 || rows < 1 || cols * rows > 1_048_576 {
        return false;
    }
    let long = s.points.len() >= 2 * points
        && s.boxes.len() >= 4 * polygons
        && s.polygons.len() >= 2 * polygons
        && s.owners.len() >= points
        && s.starts.len() > cols * rows
        && s.items.len() >= items;
    if !long {
        return false;
    }
    let is_size = |x: f64| (0.0..=1e6).contains(&x);
    if !is_size(width) || !is_size(height) || !is_coordinate(ox) || !is_coordinate(oy) {
        return false;
    }
    if !s.points[..2 * points].iter().all(|&x| is_coordinate(x)) {
        return false;
    }
    if !(cell.is_finite() && cell >= 1.0 && inverse == 1.0 / cell) {
        return false;
    }
    let starts = &s.starts[..=cols * rows];
    if starts[0] != 0
        || starts.windows(2).any(|w| w[0] > w[1])
        || starts[cols * rows] as usize != items
    {
        return false;
    }
    let place = |k: usize| (s.polygons[2 * k] as usize, s.polygons[2 * k + 1] as usize);
    let named = |&id: &u32| (id as usize) < polygons && place(id as usize).1 >= 3;
    if !s.items[..items].iter().all(named) {
        return false;
    }
    let mut holders = vec![None; points];
    for k in 0..polygons {
        let (first, len) = place(k);
        if first + len > points {
            return false;
        }
        for holder in &mut holders[first..first + len] {
            if holder.is_some() {
                return false;
            }
            *holder = Some(k as u32);
        }
        if s.boxes[4 * k..4 * k + 4] != box_of(&s.points[2 * first..2 * (first + len)]) {
            return false;
        }
    }
    holders
        .iter()
        .zip(&s.owners)
        .all(|(holder, owner)| *holder == Some(*owner))
}

fn number(r: &mut SplitMix64, old: u32) -> u32 {
    let any = r.bits() as u32;
    let small = r.below(12) as u32;
    r.pick(&[
        old.wrapping_add(1),
        old.wrapping_sub(1),
        small,
        any,
        0,
        u32::MAX,
        old,
    ])
}

fn float(r: &mut SplitMix64, old: f64) -> f64 {
    let any = f64::from_bits(r.bits());
    let near = step(old, r.whole(-2, 2));
    r.pick(&[
        near,
        near,
        any,
        f64::NAN,
        f64::INFINITY,
        -old,
        0.0,
        1e6,
        step(1e6, 1),
        1.0,
        old + 1.0,
        0.5,
    ])
}

pub fn some_of<T>(
    r: &mut SplitMix64,
    list: &mut [T],
    change: impl FnOnce(&mut SplitMix64, &mut T),
) {
    if !list.is_empty() {
        let i = r.below(list.len() as u64) as usize;
        change(r, &mut list[i]);
    }
}

fn cut<T: Clone>(r: &mut SplitMix64, list: &mut Vec<T>, more: T) {
    if r.below(2) == 0 {
        list.pop();
    } else {
        list.push(more);
    }
}

/// One number more, or one table a place shorter or longer.
pub fn damage(r: &mut SplitMix64, s: &mut Lent) {
    let words = |r: &mut SplitMix64, x: &mut u32| *x = number(r, *x);
    let floats = |r: &mut SplitMix64, x: &mut f64| *x = float(r, *x);
    match r.below(22) {
        0 | 1 => some_of(r, &mut s.head.floats, floats),
        2 | 3 => some_of(r, &mut s.head.counts, words),
        4..=6 => some_of(r, &mut s.points, floats),
        7 | 8 => some_of(r, &mut s.boxes, floats),
        9..=11 => some_of(r, &mut s.polygons, words),
        12 | 13 => some_of(r, &mut s.owners, words),
        14 | 15 => some_of(r, &mut s.starts, words),
        16 | 17 => some_of(r, &mut s.items, words),
        18 => {
            let n = s.items.len() as u64;
            if n > 1 {
                s.items.swap(r.below(n) as usize, r.below(n) as usize);
            }
        }
        19 => {
            let n = s.polygons.len() as u64 / 2;
            if n > 1 {
                let (a, b) = (2 * r.below(n) as usize, 2 * r.below(n) as usize);
                s.polygons.swap(a, b);
                s.polygons.swap(a + 1, b + 1);
            }
        }
        20 => match r.below(3) {
            0 => cut(r, &mut s.points, 0.5),
            1 => cut(r, &mut s.boxes, 0.5),
            _ => cut(r, &mut s.polygons, 1),
        },
        _ => match r.below(3) {
            0 => cut(r, &mut s.owners, 1),
            1 => cut(r, &mut s.starts, 1),
            _ => cut(r, &mut s.items, 1),
        },
    }
}

/// The site with damage enough to be unsound.
pub fn unsound(r: &mut SplitMix64, site: &Lent) -> Lent {
    let mut s = site.clone();
    while is_sound(&s) {
        damage(r, &mut s);
    }
    s
}

#[derive(Default)]
struct Counts {
    sites: u64,
    sound: u64,
    asked: u64,
    six: u64,
    wrong: u64,
    first: Option<String>,
}

impl Counts {
    /// The status of one question, and whether a refusal left all as it was.
    fn add(&mut self, sound: bool, status: u32, kept: bool, what: &str, site: &Lent) {
        self.asked += 1;
        self.six += u64::from(status == 6);
        let right = (status == 6) != sound && kept && matches!(status, 0 | 1 | 6 | 7 | 8);
        if right {
            return;
        }
        self.wrong += 1;
        if self.first.is_none() {
            self.first = Some(format!(
                "{what}: status {status}, sound {sound}, kept {kept}; head {:?}, points {:?}, boxes {:?}, polygons {:?}, owners {:?}, starts {:?}, items {:?}",
                site.head,
                site.points,
                site.boxes,
                site.polygons,
                site.owners,
                site.starts,
                site.items
            ));
        }
    }
}

fn ask(r: &mut SplitMix64, c: &mut Counts, s: &Lent, sound: bool) {
    let p = (r.between(-20.0, 120.0), r.between(-20.0, 120.0));
    let n = r.below(40) as u32;
    match r.below(11) {
        0 => {
            let mut marks = vec![PATTERN; r.below(64) as usize];
            let mut ids = vec![PATTERN; r.below(40) as usize];
            let mut epoch = r.bits() as u32;
            let old = (marks.clone(), ids.clone(), epoch);
            let b = [p.0, p.1, p.0 + 30.0, p.1 + 30.0];
            let (status, tally) = s.polygons_near(&b, &mut marks, &mut epoch, &mut ids);
            let untouched = (marks, ids.clone(), epoch) == old;
            let kept = match status {
                6 | 7 => untouched && tally == [0, 0],
                8 => ids.iter().all(|&x| x == 0) && tally == [0, 0],
                _ => true,
            };
            c.add(sound, status, kept, "polygons_near", s);
        }
        1 => {
            let (status, number) = s.items_at_number(p);
            c.add(
                sound,
                status,
                status == 0 || number == 0,
                "items_at_number",
                s,
            );
        }
        2 => {
            let (status, found) = s.polygon_at(p);
            c.add(
                sound,
                status,
                status == 0 || found == [0, 0],
                "polygon_at",
                s,
            );
        }
        3 | 4 => {
            let d = (r.between(-1.0, 1.0), r.between(-1.0, 1.0));
            let (status, t, found) = s.cast_ray(p, d, r.pick(&[100.0, f64::INFINITY, 1e6]), 0);
            c.add(
                sound,
                status,
                status == 0 || (t == 0.0 && found == [0; 3]),
                "cast_ray",
                s,
            );
        }
        5 => {
            let (status, ends) = s.edge(n);
            c.add(sound, status, status == 0 || ends == [0.0; 4], "edge", s);
        }
        6 => {
            let (status, end) = s.edge_end(n);
            c.add(sound, status, status == 0 || end == 0, "edge_end", s);
        }
        7 => {
            let (status, owner) = s.edge_owner(n);
            c.add(sound, status, status == 0 || owner == 0, "edge_owner", s);
        }
        8 => {
            let (status, place, b) = s.polygon(n / 2);
            c.add(
                sound,
                status,
                status == 0 || (place == [0, 0] && b == [0.0; 4]),
                "polygon",
                s,
            );
        }
        9 => {
            let (status, number) = s.polygon_vertices_number(n / 2);
            let corner = s.polygon_vertex(n / 2, r.below(5) as usize);
            let kept = status == 0 || (number == 0 && corner.is_nan());
            c.add(sound, status, kept, "polygon_vertices", s);
        }
        _ => {
            let (status, b) = s.bounds();
            c.add(sound, status, status == 0 || b == [0.0; 4], "bounds", s);
            let (status, width) = s.width();
            c.add(sound, status, status == 0 || width == 0.0, "width", s);
            let (status, height) = s.height();
            c.add(sound, status, status == 0 || height == 0.0, "height", s);
            let (status, dims) = s.dims();
            c.add(sound, status, status == 0 || dims == [0; 2], "dims", s);
        }
    }
}

// ---- both engines of the box query

type Differ = fn(&Lent, &Lent) -> bool;

/// What the engine without tables is not lent or does not read, and whether two sites differ in it.
const UNREAD: [(&str, Differ); 7] = [
    ("starts", |a, b| a.starts != b.starts),
    ("items", |a, b| a.items != b.items),
    ("boxes", |a, b| a.boxes != b.boxes),
    ("owners", |a, b| a.owners != b.owners),
    ("width", |a, b| a.head.floats[0] != b.head.floats[0]),
    ("height", |a, b| a.head.floats[1] != b.head.floats[1]),
    ("number of items", |a, b| {
        a.head.counts[4] != b.head.counts[4]
    }),
];

/// All that it reads.
fn reads_alike(a: &Lent, b: &Lent) -> bool {
    a.points == b.points
        && a.polygons == b.polygons
        && a.head.floats[2..] == b.head.floats[2..]
        && a.head.counts[..4] == b.head.counts[..4]
}

/// Which engine refuses a site as 6.
struct Engines {
    rows: Rows,
    both: u64,
    tables_alone: u64,
    plain_alone: u64,
    neither: u64,
    /// Of those that only the tables' engine refuses: the points and all else that is read are as
    /// they were built, and this part is not.
    unread: [u64; UNREAD.len()],
    read: u64,
}

impl Engines {
    fn new() -> Self {
        Self {
            rows: Rows::by_cells("polygons_near_plain, damaged site"),
            both: 0,
            tables_alone: 0,
            plain_alone: 0,
            neither: 0,
            unread: [0; UNREAD.len()],
            read: 0,
        }
    }

    fn ask(&mut self, r: &mut SplitMix64, built: &Lent, damaged: &Lent) {
        let b = some_box(r);
        let verdict = near::cell_by_cell(damaged, &b);
        self.rows.ask(damaged, &b, &verdict);
        let room = damaged.polygons.len();
        let refused = |a: near::Answer| a.numbers[0] == 6;
        let by_plain = refused(near::without_tables(damaged, &b, room));
        let by_tables = refused(near::with_tables(damaged, &b, room));
        match (by_plain, by_tables) {
            (true, true) => self.both += 1,
            (true, false) => self.plain_alone += 1,
            (false, false) => self.neither += 1,
            (false, true) => self.answered(verdict.is_ok(), built, damaged),
        }
    }

    /// A site that the tables' engine refuses, and the other one does not.
    fn answered(&mut self, in_domain: bool, built: &Lent, damaged: &Lent) {
        self.tables_alone += 1;
        if !in_domain {
            return;
        }
        if !reads_alike(built, damaged) {
            self.read += 1;
            return;
        }
        for (n, (_, differ)) in self.unread.iter_mut().zip(UNREAD) {
            *n += u64::from(differ(built, damaged));
        }
    }

    fn print(self) -> bool {
        let reached = self.unread.iter().chain([&self.both, &self.read]);
        let right = reached.into_iter().all(|&n| n > 0) && self.plain_alone == 0;
        let mut table = Table::new(&["damaged sites, by both engines of the box query", "count"]);
        let mut row = |what: &str, n| table.row(vec![what.to_string(), count(n)]);
        row("refused 6 by both", self.both);
        row("refused 6 by neither", self.neither);
        row("refused 6 without tables alone", self.plain_alone);
        row("refused 6 with tables alone", self.tables_alone);
        row(
            "of these, answered over other points, polygons or head",
            self.read,
        );
        for (n, (part, _)) in self.unread.iter().zip(UNREAD) {
            row(
                &format!("answered over points and polygons as built, the {part} damaged"),
                *n,
            );
        }
        table.row(vec!["verdict".to_string(), verdict(right)]);
        table.print();
        self.rows.print() && right
    }
}

/// Some of them turned, of no area, over all of the site, and out of the domain.
fn some_box(r: &mut SplitMix64) -> [f64; 4] {
    let (x, y) = (r.between(-20.0, 120.0), r.between(-20.0, 120.0));
    let (w, h) = (r.between(-3.0, 60.0), r.between(-3.0, 60.0));
    let bad = r.pick(&[f64::NAN, f64::INFINITY, step(1e6, 1)]);
    let near = [x, y, x + w, y + h];
    r.pick(&[
        near,
        near,
        near,
        near,
        [x, y, x, y],
        [-1e6, -1e6, 1e6, 1e6],
        [-0.0, -0.0, x, y],
        [x, y, bad, y],
    ])
}

pub fn compare() -> bool {
    let r = &mut SplitMix64::new(6_100);
    let boxes = &mut SplitMix64::new(6_150);
    let groups = sites::groups();
    let mut c = Counts::default();
    let mut engines = Engines::new();
    let mut turn = 0;
    while c.asked < QUESTIONS {
        let plan = (groups[turn % 9].make)(r);
        turn += 1;
        if plan.rings.len() > 40 {
            continue;
        }
        let scene = plan.scene();
        let whole = given::of_scene(&scene);
        if whole.starts.len() > 3_000 || whole.items.len() > 3_000 {
            continue;
        }
        let given = Given::new(&plan);
        let mut site = Lent::blank(given::rooms(&whole));
        if site.build(given.size, &given.points, &given.lens) != 0 {
            c.wrong += 1;
            continue;
        }
        for _ in 0..20 {
            let mut damaged = site.clone();
            for _ in 0..r.pick(&[0, 1, 1, 1, 1, 2, 3]) {
                damage(r, &mut damaged);
            }
            let sound = is_sound(&damaged);
            c.sites += 1;
            c.sound += u64::from(sound);
            if damaged.is_sound() != sound {
                c.add(sound, 99, false, "is_sound", &damaged);
            }
            for _ in 0..EACH {
                ask(r, &mut c, &damaged, sound);
            }
            engines.ask(boxes, &site, &damaged);
        }
    }
    let mut table = Table::new(&["damaged tables", "count"]);
    for (what, n) in [
        ("tables", c.sites),
        ("of them still sound by the check here", c.sound),
        ("questions", c.asked),
        ("refused 6", c.six),
        ("answered or refused wrongly", c.wrong),
    ] {
        table.row(vec![what.to_string(), count(n)]);
    }
    table.row(vec!["verdict".to_string(), verdict(c.wrong == 0)]);
    table.print();
    if let Some(first) = c.first {
        println!("- {first}\n");
    }
    engines.print() && c.wrong == 0
}
