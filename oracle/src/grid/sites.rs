//! Sites, in named groups: the Rust's grid of each, and the boxes it was built from.

use crate::probe::{Grid, MOST_CELLS};
use crate::sites::{self, Plan, Point};
use crate::util::bits::show;
use crate::util::rng::SplitMix64;
use crate::util::table::{Table, count};
use oracle::{Aabb, Scene, UniformGrid, Vec2};

/// The Rust's grid, and what ours is made of.
pub struct Site {
    pub rust: UniformGrid,
    pub grid: Grid,
    /// Four numbers a polygon: the smallest corner and the largest.
    pub boxes: Vec<f64>,
    /// Width and height of what the grid covers.
    pub extent: Point,
}

impl Site {
    fn new(rust: UniformGrid, boxes: &[Aabb], bounds: Aabb) -> Self {
        let (cols, rows) = rust.dims();
        let origin = rust.oracle_origin();
        let grid = Grid {
            origin: (origin.x, origin.y),
            cell: rust.oracle_cell(),
            inv: rust.oracle_inv_cell(),
            cols: u32::try_from(cols).expect("columns fit"),
            rows: u32::try_from(rows).expect("rows fit"),
        };
        Self {
            rust,
            grid,
            boxes: boxes.iter().flat_map(numbers).collect(),
            extent: (bounds.width(), bounds.height()),
        }
    }

    /// As a scene has it.
    pub fn of_scene(scene: &Scene) -> Self {
        let boxes: Vec<Aabb> = scene.polygons().iter().map(|p| p.aabb).collect();
        Self::new(scene.grid().clone(), &boxes, scene.bounds())
    }

    /// A site that no scene has: any cell, and boxes that may lie off the grid.
    fn of_boxes(bounds: Aabb, cell: f64, boxes: &[Aabb]) -> Self {
        Self::new(UniformGrid::build(bounds, cell, boxes), boxes, bounds)
    }

    pub fn polygons(&self) -> usize {
        self.boxes.len() / 4
    }

    /// Document 01 refuses more cells (4).
    pub fn is_allowed(&self) -> bool {
        self.grid.cells() <= MOST_CELLS
    }

    pub fn show(&self) -> String {
        let g = &self.grid;
        let four = |b: &[f64]| format!("({})", list(b));
        let boxes: Vec<String> = self.boxes.chunks(4).map(four).collect();
        format!(
            "grid at ({}), cell {}, {} by {}, boxes [{}]",
            list(&[g.origin.0, g.origin.1]),
            show(g.cell),
            g.cols,
            g.rows,
            boxes.join(", ")
        )
    }
}

pub fn list(numbers: &[f64]) -> String {
    let shown: Vec<String> = numbers.iter().map(|x| show(*x)).collect();
    shown.join(", ")
}

fn numbers(b: &Aabb) -> [f64; 4] {
    [b.min.x, b.min.y, b.max.x, b.max.y]
}

pub fn aabb([x0, y0, x1, y1]: [f64; 4]) -> Aabb {
    Aabb::new(Vec2::new(x0, y0), Vec2::new(x1, y1))
}

// ---- groups

/// A site of a scene, or a grid that no scene has.
#[derive(Clone, Copy)]
enum Make {
    Planned(fn(&mut SplitMix64) -> Plan),
    Free(fn(&mut SplitMix64) -> Site),
}

#[derive(Clone, Copy)]
pub struct Group {
    what: &'static str,
    pub sites: usize,
    make: Make,
}

impl Group {
    pub fn make(&self, r: &mut SplitMix64) -> Site {
        match self.make {
            Make::Planned(make) => Site::of_scene(&make(r).scene()),
            Make::Free(make) => make(r),
        }
    }
}

pub fn groups() -> Vec<Group> {
    let planned = |g: sites::Group| Group {
        what: g.what,
        sites: g.sites,
        make: Make::Planned(g.make),
    };
    let mut all: Vec<Group> = sites::groups().into_iter().map(planned).collect();
    all.push(Group {
        what: "boxes on and off a grid of any cell",
        sites: 2_000,
        make: Make::Free(boxes),
    });
    all
}

pub fn print(groups: &[Group]) {
    let mut table = Table::new(&["inputs: sites", "sites"]);
    for g in groups {
        table.row(vec![g.what.to_string(), count(g.sites as u64)]);
    }
    table.print();
}

/// Bounds and cell are chosen freely here, and boxes reach far over, infinite and empty ones too.
fn boxes(r: &mut SplitMix64) -> Site {
    let any = r.between(0.01, 20.0);
    let cell = r.pick(&[0.1, 0.3, 1.0 / 3.0, 1.0, 7.0, 1e-3, any, any]);
    let corner = (r.between(-50.0, 50.0), r.pick(&[0.0, -1.0, 0.1, 50.0]));
    let across = r.whole(0, 40) as f64 + r.pick(&[0.0, 0.0, 0.5, 0.999]);
    let up = r.whole(0, 40) as f64 + r.pick(&[0.0, 0.0, 0.5, 0.999]);
    let (width, height) = (across * cell, up * cell);
    let bounds = aabb([corner.0, corner.1, corner.0 + width, corner.1 + height]);
    let one = |r: &mut SplitMix64| {
        let (x, y) = (
            corner.0 + width * r.between(-1.0, 2.0),
            corner.1 + height * r.between(-1.0, 2.0),
        );
        let (w, h) = (r.between(-1.0, 5.0) * cell, r.between(-0.5, 5.0) * cell);
        let snapped = (
            corner.0 + r.whole(-2, 42) as f64 * cell,
            corner.1 + r.whole(-2, 42) as f64 * cell,
        );
        let reach = r.pick(&[f64::INFINITY, 1e6]);
        match r.below(16) {
            0 => Aabb::EMPTY,
            1 => aabb([-reach, y, reach, y]),
            2 => aabb([x, -reach, x, reach]),
            3 => aabb([x, y, reach, reach]),
            4 => aabb([-reach, -reach, x, y]),
            5..9 => aabb([snapped.0, snapped.1, snapped.0 + cell, snapped.1 + cell]),
            _ => aabb([x, y, x + w, y + h]),
        }
    };
    let boxes: Vec<Aabb> = (0..sites::some(r)).map(|_| one(r)).collect();
    Site::of_boxes(bounds, cell, &boxes)
}
