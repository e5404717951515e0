//! Lines of the sample: the inner functions of the grid under their numbers, on small sites.

use super::questions::{self, BOXES, RAYS};
use super::sites::{self, Site, aabb};
use super::{grid_words, padded, rust_query, rust_walk};
use crate::probe::{self, Grid, Ray, Tables};
use crate::sample::Asked;
use crate::util::call::floats;
use crate::util::floats::pairs;
use crate::util::rng::SplitMix64;
use oracle::{Aabb, UniformGrid};

/// Lines of each function.
const LINES: usize = 60;

/// What the program `replay` has room for: polygons, cells, and items, for which it lends this much.
const POLYGONS: usize = 16;
const CELLS: u64 = 64;
const ITEMS: usize = 64;

type Words = Vec<u64>;

pub fn asked() -> Vec<Asked> {
    vec![
        Asked::new(501, |_| Some(2), our_columns, rust_columns, extents()),
        Asked::new(502, |_| Some(10), our_range, rust_range, ranges()),
        Asked::new(503, |w| after_list(w, 6), our_build, rust_build, builds()),
        Asked::new(504, query_length, our_query, rust_listing, queries()),
        Asked::new(507, |_| Some(11), our_cells, rust_cells, walks()),
    ]
}

// ---- inputs

fn fits(site: &Site) -> bool {
    let items = site.rust.oracle_items().len();
    site.polygons() <= POLYGONS && site.grid.cells() <= CELLS && items <= ITEMS
}

/// There is something to find, and a way to walk.
fn is_rich(site: &Site) -> bool {
    site.rust.oracle_items().len() >= 4 && site.grid.cells() >= 6
}

/// Small sites of all the large groups, every sixth one poor or not.
fn small_sites(r: &mut SplitMix64) -> Vec<Site> {
    let groups = sites::groups();
    let mut found = Vec::new();
    for group in groups.iter().filter(|g| g.sites >= 1_000).cycle() {
        let site = group.make(r);
        if fits(&site) && (is_rich(&site) || found.len() % 6 == 0) {
            found.push(site);
        }
        if found.len() == LINES {
            break;
        }
    }
    found
}

fn of_sites(number: u64, make: impl Fn(&mut SplitMix64, &Site, usize) -> Words) -> Vec<Words> {
    let r = &mut SplitMix64::new(9_000 + number);
    let sites = small_sites(r).into_iter().enumerate();
    sites.map(|(i, site)| make(r, &site, i)).collect()
}

/// Each kind of question in turn, but more often one that finds something.
pub fn kind(i: usize, kinds: usize, good: &[usize]) -> usize {
    if i.is_multiple_of(3) {
        i / 3 % kinds
    } else {
        good[i % good.len()]
    }
}

fn kind_of_box(i: usize) -> usize {
    kind(i, BOXES, &[0, 1, 3, 2, 10, 11, 12])
}

fn bits(numbers: &[f64]) -> impl Iterator<Item = u64> {
    numbers.iter().map(|x| x.to_bits())
}

/// Half from sites, half ugly.
fn extents() -> Vec<Words> {
    let mut all = of_sites(501, |_, site, _| {
        bits(&[site.extent.0, site.grid.cell]).collect()
    });
    all.truncate(LINES / 2);
    for family in pairs(9_501) {
        let known = family
            .values
            .iter()
            .filter(|v| !v.0.is_nan() && !v.1.is_nan());
        all.extend(known.take(4).map(|v| bits(&[v.0, v.1]).collect::<Words>()));
    }
    all
}

fn ranges() -> Vec<Words> {
    of_sites(502, |r, site, i| {
        let mut words = grid_words(&site.grid);
        words.extend(bits(&questions::asked_box(r, site, kind_of_box(i))));
        words
    })
}

/// The grid and the boxes, as `build` and `box_query` take them.
fn built(site: &Site) -> Words {
    let mut words = grid_words(&site.grid);
    words.push(site.boxes.len() as u64);
    words.extend(bits(&site.boxes));
    words
}

fn builds() -> Vec<Words> {
    of_sites(503, |_, site, _| built(site))
}

fn queries() -> Vec<Words> {
    of_sites(504, |r, site, i| {
        let b = questions::asked_box(r, site, kind_of_box(i));
        let any = r.bits() as u32;
        let epoch = r.pick(&[0, 1, any, u32::MAX - 1, u32::MAX]);
        let next = epoch.wrapping_add(1);
        let marks: Vec<u32> = (0..site.polygons())
            .map(|_| r.pick(&[0, 0, 0, 1, epoch, next]))
            .collect();
        let n = rust_query(&site.rust, b, &marks, epoch).ids.len();
        let room = r.pick(&[n, n + 2, n.saturating_sub(1)]);
        let mut words = built(site);
        words.extend(bits(&b));
        words.extend([u64::from(epoch), marks.len() as u64]);
        words.extend(marks.into_iter().map(u64::from));
        words.push(room as u64);
        words
    })
}

fn walks() -> Vec<Words> {
    of_sites(507, |r, site, i| {
        let ray = questions::asked_ray(r, site, kind(i, RAYS, &[0, 1, 2, 3, 4, 8, 13]));
        let (o, d) = (ray.origin, ray.direction);
        let mut words = grid_words(&site.grid);
        words.extend(bits(&[o.0, o.1, d.0, d.1, ray.length]));
        words
    })
}

// ---- the arguments of a line

/// How many words there are up to the end of the list whose count stands at `i`.
fn after_list(words: &[u64], i: usize) -> Option<usize> {
    let count = usize::try_from(*words.get(i)?).ok()?;
    count.checked_add(i + 1)
}

fn query_length(words: &[u64]) -> Option<usize> {
    let marks = after_list(words, 6)? + 5;
    after_list(words, marks)?.checked_add(1)
}

fn grid(words: &[u64]) -> Grid {
    let [gx, gy, cell, inv] = floats(words);
    let whole = |w: u64| u32::try_from(w).expect("columns and rows fit");
    Grid {
        origin: (gx, gy),
        cell,
        inv,
        cols: whole(words[4]),
        rows: whole(words[5]),
    }
}

fn boxes(words: &[u64]) -> Vec<f64> {
    let end = after_list(words, 6).expect("a count");
    words[7..end].iter().map(|w| f64::from_bits(*w)).collect()
}

/// The Rust's grid with these numbers. It takes bounds, so they are half a cell less than the grid.
fn rust_grid(g: &Grid, boxes: &[f64]) -> UniformGrid {
    let end = |origin: f64, n: u32| origin + (f64::from(n) - 0.5) * g.cell;
    let (x, y) = g.origin;
    let bounds = aabb([x, y, end(x, g.cols), end(y, g.rows)]);
    let boxes: Vec<Aabb> = boxes
        .chunks_exact(4)
        .map(|b| aabb([b[0], b[1], b[2], b[3]]))
        .collect();
    let grid = UniformGrid::build(bounds, g.cell, &boxes);
    assert!(grid.dims() == (g.cols as usize, g.rows as usize) && grid.oracle_inv_cell() == g.inv);
    grid
}

fn widened(list: &[u32]) -> impl Iterator<Item = u64> {
    list.iter().copied().map(u64::from)
}

// ---- both sides

fn our_columns(words: &[u64]) -> Words {
    let [extent, cell] = floats(words);
    vec![probe::bf_inner_columns(extent, cell)]
}

fn rust_columns(words: &[u64]) -> Words {
    let [extent, cell]: [f64; 2] = floats(words);
    let n = (extent / cell).floor() as usize;
    vec![n.saturating_add(1).max(1) as u64]
}

fn our_range(words: &[u64]) -> Words {
    let (found, range) = grid(words).cell_range(&floats(&words[6..]));
    [u64::from(found)]
        .into_iter()
        .chain(widened(&range))
        .collect()
}

fn rust_range(words: &[u64]) -> Words {
    let range = rust_grid(&grid(words), &[]).oracle_range(&aabb(floats(&words[6..])));
    let numbers = range.unwrap_or([0; 4]).map(|n| n as u64);
    [u64::from(range.is_some())]
        .into_iter()
        .chain(numbers)
        .collect()
}

/// The status and the count, all the starts, and the items without the rest of their room.
fn our_build(words: &[u64]) -> Words {
    let g = grid(words);
    let (mut starts, mut items) = (vec![0; g.cells() as usize + 1], vec![0; ITEMS]);
    let (status, count) = g.build(&boxes(words), &mut starts, &mut items);
    items.truncate(count as usize);
    let mut all = vec![u64::from(status), count];
    all.extend(widened(&starts).chain(widened(&items)));
    all
}

fn rust_build(words: &[u64]) -> Words {
    let built = rust_grid(&grid(words), &boxes(words));
    let (starts, items) = (built.oracle_starts(), built.oracle_items());
    let mut all = vec![0, items.len() as u64];
    all.extend(widened(starts).chain(widened(items)));
    all
}

/// A query: the box, the epoch, the marks, the room.
fn query(words: &[u64]) -> ([f64; 4], u32, Vec<u32>, usize) {
    let at = after_list(words, 6).expect("a count of boxes");
    let end = after_list(words, at + 5).expect("a count of marks");
    let narrow = |w: &u64| u32::try_from(*w).expect("a mark fits");
    (
        floats(&words[at..]),
        narrow(&words[at + 4]),
        words[at + 6..end].iter().map(narrow).collect(),
        words[end] as usize,
    )
}

fn listing(numbers: [u64; 3], epoch: u32, marks: &[u32], ids: &[u32]) -> Words {
    let mut all = numbers.to_vec();
    all.push(u64::from(epoch));
    all.extend(widened(marks).chain(widened(ids)));
    all
}

fn our_query(words: &[u64]) -> Words {
    let (b, mut epoch, mut marks, room) = query(words);
    let tables = Tables::new(grid(words), &boxes(words), ITEMS).expect("room enough");
    let mut ids = vec![0; room];
    let (status, [written, read]) = tables.box_query(&b, &mut marks, &mut epoch, &mut ids);
    listing([u64::from(status), written, read], epoch, &marks, &ids)
}

fn rust_listing(words: &[u64]) -> Words {
    let (b, epoch, marks, room) = query(words);
    let listed = rust_query(&rust_grid(&grid(words), &boxes(words)), b, &marks, epoch);
    let (n, after) = (listed.ids.len(), &listed.stamps);
    let (epoch, marks) = (after.oracle_epoch(), after.oracle_marks());
    if room < n {
        listing([8, 0, 0], epoch, marks, &vec![0; room])
    } else {
        let ids = padded(&listed.ids, room);
        listing([0, n as u64, listed.read as u64], epoch, marks, &ids)
    }
}

fn ray(words: &[u64]) -> Ray {
    let [ox, oy, dx, dy, length] = floats(&words[6..]);
    Ray {
        origin: (ox, oy),
        direction: (dx, dy),
        length,
    }
}

fn our_cells(words: &[u64]) -> Words {
    let mut cells = vec![0; CELLS as usize];
    let n = grid(words).ray_cells(ray(words), &mut cells);
    cells.truncate(n);
    [n as u64].into_iter().chain(widened(&cells)).collect()
}

fn rust_cells(words: &[u64]) -> Words {
    let (cells, _) = rust_walk(&rust_grid(&grid(words), &[]), ray(words));
    [cells.len() as u64]
        .into_iter()
        .chain(widened(&cells))
        .collect()
}
