//! Timings of the grid on random sites of 2000 by 2000. The Rust is the one as published, and each of
//! its functions stands behind one call, as ours does.

use super::sites::Site;
use crate::probe::{Grid, Ray, Tables};
use crate::util::floats::some;
use crate::util::rng::SplitMix64;
use crate::util::timing::{Bench, Limit};
use oracle::{Scene, SceneConfig};
use plain::{Aabb, Stamps, UniformGrid, Vec2};
use std::cell::RefCell;
use std::hint::black_box;

const SIZES: [usize; 4] = [100, 500, 2_000, 4_096];
const SIDE: f64 = 2_000.0;

/// Calls of a run: tables take long enough for a few to do.
const BUILDS: usize = 8;
const QUESTIONS: usize = 1_024;

/// Room for ids and cells, which is enough for each of the questions here.
const ROOM: usize = 256;

const LIMIT: Limit = Limit::Times(1.5);

/// A site as either side has it.
struct Timed {
    site: Site,
    tables: Tables,
    bounds: Aabb,
    boxes: Vec<Aabb>,
    rust: UniformGrid,
}

impl Timed {
    fn new(polygons: usize) -> Self {
        let scene = Scene::random(&SceneConfig {
            width: SIDE,
            height: SIDE,
            polygon_count: polygons,
            seed: 0x5EED,
        });
        let site = Site::of_scene(&scene);
        let items = site.rust.oracle_items().len();
        let tables = Tables::new(site.grid, &site.boxes, items).expect("room enough");
        let (b, cell) = (scene.bounds(), site.grid.cell);
        let bounds = aabb([b.min.x, b.min.y, b.max.x, b.max.y]);
        let four = site.boxes.chunks_exact(4);
        let boxes: Vec<Aabb> = four.map(|b| aabb([b[0], b[1], b[2], b[3]])).collect();
        let rust = UniformGrid::build(bounds, cell, &boxes);
        Self {
            site,
            tables,
            bounds,
            boxes,
            rust,
        }
    }
}

fn aabb([x0, y0, x1, y1]: [f64; 4]) -> Aabb {
    Aabb::new(Vec2::new(x0, y0), Vec2::new(x1, y1))
}

pub fn bench(table: &mut Bench) {
    let r = &mut SplitMix64::new(1_801);
    for polygons in SIZES {
        let timed = Timed::new(polygons);
        cell_range(table, &timed, polygons);
        build(table, &timed, polygons);
        box_query(table, r, &timed, ROOM, &format!("{polygons} polygons"));
        for length in [300.0, 1_000.0] {
            ray_walk(table, r, &timed, length, polygons);
        }
        if polygons == SIZES[SIZES.len() - 1] {
            let what = format!("{polygons} polygons, room for each id");
            box_query(table, r, &timed, polygons, &what);
        }
    }
}

/// What `build` asks for each polygon, in each of its passes. The Rust keeps it to itself, so this is
/// the seam of crate `oracle`.
fn cell_range(table: &mut Bench, timed: &Timed, polygons: usize) {
    let site = &timed.site;
    let four = site.boxes.chunks_exact(4);
    let boxes: Vec<[f64; 4]> = four.map(|b| [b[0], b[1], b[2], b[3]]).collect();
    let ours = |b: [f64; 4]| {
        let (found, [c0, r0, c1, r1]) = site.grid.cell_range(&b);
        u64::from(found ^ c0 ^ r0 ^ c1 ^ r1)
    };
    let called = black_box(oracle::UniformGrid::oracle_range as fn(&_, &_) -> _);
    let rust = |b: [f64; 4]| {
        let range: Option<[usize; 4]> = called(&site.rust, &super::aabb(b));
        range.map_or(0, |[c0, r0, c1, r1]| (c0 ^ r0 ^ c1 ^ r1) as u64)
    };
    let what = format!("`cell_range`, {polygons} polygons");
    table.add(&what, Limit::None, &boxes, ours, rust);
}

/// Ours into room that is there, the Rust's into lists of its own. The cell's size is the argument.
fn build(table: &mut Bench, timed: &Timed, polygons: usize) {
    let (site, cells) = (&timed.site, timed.site.grid.cells() as usize);
    let items = site.rust.oracle_items().len();
    let room = RefCell::new((vec![0; cells + 1], vec![0; items]));
    let ours = |[cell]: [f64; 1]| {
        let (starts, items) = &mut *room.borrow_mut();
        let grid = Grid { cell, ..site.grid };
        let (status, count) = grid.build(&site.boxes, starts, items);
        u64::from(status) ^ count
    };
    let called = black_box(UniformGrid::build as fn(_, _, &[Aabb]) -> UniformGrid);
    let rust = |[cell]: [f64; 1]| {
        let grid = black_box(called(timed.bounds, cell, &timed.boxes));
        grid.dims().0 as u64
    };
    let inputs = [[site.grid.cell]; BUILDS];
    let what = format!("`build`, {polygons} polygons");
    table.add(&what, LIMIT, &inputs, ours, rust);
}

/// Lists the ids as ours does; the Rust's caller brings the list.
fn rust_query(grid: &UniformGrid, b: [f64; 4], stamps: &mut Stamps, ids: &mut Vec<u32>) -> usize {
    ids.clear();
    grid.for_each_in_aabb(&aabb(b), stamps, |id| ids.push(id));
    ids.len()
}

fn box_query(table: &mut Bench, r: &mut SplitMix64, timed: &Timed, room: usize, what: &str) {
    let boxes: Vec<[f64; 4]> = some(QUESTIONS, || {
        let (x, y) = (r.between(0.0, SIDE - 100.0), r.between(0.0, SIDE - 100.0));
        [x, y, x + 100.0, y + 100.0]
    });
    let polygons = timed.site.polygons();
    let lent = RefCell::new((vec![0; polygons], 0, vec![0; room]));
    let ours = |b: [f64; 4]| {
        let (marks, epoch, ids) = &mut *lent.borrow_mut();
        let (status, counts) = timed.tables.box_query(&b, marks, epoch, ids);
        assert!(status == 0, "room enough");
        counts[0]
    };
    let called = black_box(rust_query as fn(&_, _, &mut _, &mut Vec<u32>) -> _);
    let own = RefCell::new((Stamps::new(polygons), Vec::with_capacity(room)));
    let rust = |b: [f64; 4]| {
        let (stamps, ids) = &mut *own.borrow_mut();
        called(&timed.rust, b, stamps, ids) as u64
    };
    let what = format!("`box_query`, 100 x 100, {what}");
    table.add(&what, LIMIT, &boxes, ours, rust);
}

/// Ours lists the cells' numbers. The Rust's visitor is not told them, so it lists how many items
/// each has.
fn rust_walk(grid: &UniformGrid, [ox, oy, dx, dy, t]: [f64; 5], cells: &mut Vec<u32>) -> usize {
    cells.clear();
    grid.traverse_ray(Vec2::new(ox, oy), Vec2::new(dx, dy), t, |items, _, _| {
        cells.push(items.len() as u32);
        true
    });
    cells.len()
}

fn ray_walk(table: &mut Bench, r: &mut SplitMix64, timed: &Timed, length: f64, polygons: usize) {
    let rays: Vec<[f64; 5]> = some(QUESTIONS, || {
        let (x, y) = (r.between(0.0, SIDE), r.between(0.0, SIDE));
        let (dx, dy) = (r.between(-1.0, 1.0), r.between(-1.0, 1.0));
        let n = (dx * dx + dy * dy).sqrt().max(1e-9);
        [x, y, dx / n, dy / n, length]
    });
    let lent = RefCell::new(vec![0; ROOM]);
    let ours = |[ox, oy, dx, dy, length]: [f64; 5]| {
        let ray = Ray {
            origin: (ox, oy),
            direction: (dx, dy),
            length,
        };
        timed.site.grid.ray_cells(ray, &mut lent.borrow_mut()) as u64
    };
    let called = black_box(rust_walk as fn(&_, _, &mut Vec<u32>) -> _);
    let own = RefCell::new(Vec::with_capacity(ROOM));
    let rust = |ray: [f64; 5]| called(&timed.rust, ray, &mut own.borrow_mut()) as u64;
    let what = format!("ray walk of {length}, {polygons} polygons");
    table.add(&what, LIMIT, &rays, ours, rust);
}
