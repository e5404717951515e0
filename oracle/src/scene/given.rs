//! What building is given, what it should leave by the Rust's own tables, and inputs with faults.

use crate::lent::{Head, Lent, Rooms};
use crate::sites::{Plan, Point};
use crate::util::bits::step;
use crate::util::rng::SplitMix64;
use oracle::{PolygonDesc, Scene, Vec2};

/// The numbers of all points, and how many points each polygon has.
pub struct Given {
    pub size: Point,
    pub points: Vec<f64>,
    pub lens: Vec<u32>,
}

impl Given {
    pub fn new(plan: &Plan) -> Self {
        Self {
            size: plan.size,
            points: plan
                .rings
                .iter()
                .flatten()
                .flat_map(|p| [p.0, p.1])
                .collect(),
            lens: plan.rings.iter().map(|r| r.len() as u32).collect(),
        }
    }

    /// One fault or more of those that document 01 numbers.
    pub fn spoil(&mut self, r: &mut SplitMix64, rooms: &mut Rooms) {
        let faults = 1 + r.below(3);
        for _ in 0..faults {
            match r.below(8) {
                0 => self.lens.resize(4_097 + r.below(3) as usize, 0),
                1 => self.points.resize(
                    2 * (65_536 + r.below(3) as usize) + r.below(2) as usize,
                    1.0,
                ),
                2 | 3 => self.miscount(r),
                4 | 5 => self.misplace(r),
                6 => {
                    self.size = (
                        r.pick(&[1_500.0, 1_100.0]),
                        r.pick(&[1_500.0, 1_023.0, 1_200.0]),
                    );
                    let unit = [1.0, 1.0, 2.0, 1.0, 2.0, 2.0, 1.0, 2.0];
                    self.points = unit.to_vec();
                    self.lens = vec![4];
                }
                _ => {
                    let tables = [
                        &mut rooms.points,
                        &mut rooms.boxes,
                        &mut rooms.polygons,
                        &mut rooms.owners,
                        &mut rooms.starts,
                        &mut rooms.items,
                    ];
                    let few = r.below(8) as usize;
                    for (i, table) in tables.into_iter().enumerate() {
                        if i as u64 == r.below(6) {
                            *table = few;
                        }
                    }
                }
            }
        }
    }

    fn miscount(&mut self, r: &mut SplitMix64) {
        if r.below(2) == 0 || self.lens.is_empty() {
            let more = 1 + r.below(3) as usize;
            self.points.resize(self.points.len() + more, 2.0);
            return;
        }
        let i = r.below(self.lens.len() as u64) as usize;
        self.lens[i] = r.pick(&[self.lens[i] + 1, self.lens[i].wrapping_sub(1), u32::MAX, 0]);
    }

    fn misplace(&mut self, r: &mut SplitMix64) {
        let bad = r.pick(&[
            f64::NAN,
            f64::INFINITY,
            f64::NEG_INFINITY,
            step(1e6, 1),
            -1_000_001.0,
            1e300,
        ]);
        match r.below(4) {
            0 => self.size.0 = r.pick(&[bad, -1.0, -f64::MIN_POSITIVE]),
            1 => self.size.1 = r.pick(&[bad, -0.5]),
            _ if self.points.is_empty() => self.size.0 = bad,
            _ => {
                let i = r.below(self.points.len() as u64) as usize;
                self.points[i] = bad;
            }
        }
    }

    /// The first refusal of the order 2, 3, 1, 4, 5, or 0: worked out from document 01's words and
    /// the Rust's own grid.
    pub fn verdict(&self, rooms: Rooms) -> u32 {
        let points = self.points.len() / 2;
        if self.lens.len() > 4_096 || points > 65_536 {
            return 2;
        }
        let sum: u64 = self.lens.iter().map(|&n| u64::from(n)).sum();
        if !self.points.len().is_multiple_of(2) || sum != points as u64 {
            return 3;
        }
        let is_size = |x: f64| (0.0..=1e6).contains(&x);
        if !is_size(self.size.0)
            || !is_size(self.size.1)
            || !self.points.iter().all(|&x| super::is_coordinate(x))
        {
            return 1;
        }
        let mut next = self
            .points
            .chunks_exact(2)
            .map(|p| Vec2::new(p[0] + 0.0, p[1] + 0.0));
        let descs: Vec<PolygonDesc> = self
            .lens
            .iter()
            .map(|&n| PolygonDesc::new(next.by_ref().take(n as usize).collect()))
            .collect();
        let scene = Scene::new(self.size.0 + 0.0, self.size.1 + 0.0, descs);
        let (cols, rows) = scene.grid().dims();
        if cols * rows > 1_048_576 {
            return 4;
        }
        let need = self::rooms(&of_scene(&scene));
        let fits = need.points <= rooms.points
            && need.boxes <= rooms.boxes
            && need.polygons <= rooms.polygons
            && need.owners <= rooms.owners
            && need.starts <= rooms.starts
            && need.items <= rooms.items;
        if fits { 0 } else { 5 }
    }

    pub fn show(&self) -> String {
        format!(
            "{:?}, {} numbers, {} lengths",
            self.size,
            self.points.len(),
            self.lens.len()
        )
    }
}

/// The six tables as the Rust has them.
pub fn of_scene(scene: &Scene) -> Lent {
    let grid = scene.grid();
    let (cols, rows) = grid.dims();
    let o = grid.oracle_origin();
    let polygons = scene.polygons();
    let vertices = scene.vertices();
    Lent {
        head: Head {
            floats: [
                scene.width(),
                scene.height(),
                o.x,
                o.y,
                grid.oracle_cell(),
                grid.oracle_inv_cell(),
            ],
            counts: [
                cols as u32,
                rows as u32,
                polygons.len() as u32,
                vertices.len() as u32,
                grid.oracle_items().len() as u32,
            ],
        },
        points: vertices.iter().flat_map(|v| [v.x, v.y]).collect(),
        boxes: polygons.iter().flat_map(|p| super::four(p.aabb)).collect(),
        polygons: polygons.iter().flat_map(|p| [p.first, p.len]).collect(),
        owners: (0..vertices.len() as u32)
            .map(|e| scene.edge_owner(e))
            .collect(),
        starts: grid.oracle_starts().to_vec(),
        items: grid.oracle_items().to_vec(),
    }
}

/// Just enough for a site.
pub fn rooms(site: &Lent) -> Rooms {
    Rooms {
        points: site.points.len(),
        boxes: site.boxes.len(),
        polygons: site.polygons.len(),
        owners: site.owners.len(),
        starts: site.starts.len(),
        items: site.items.len(),
    }
}

pub fn longer(r: &mut SplitMix64, k: Rooms) -> Rooms {
    let mut more = |n: usize| n + r.below(5) as usize;
    Rooms {
        points: more(k.points),
        boxes: more(k.boxes),
        polygons: more(k.polygons),
        owners: more(k.owners),
        starts: more(k.starts),
        items: more(k.items),
    }
}

/// Enough for many sites, but not for all.
pub fn some_rooms(r: &mut SplitMix64) -> Rooms {
    let starts = r.pick(&[600, 5_000, 60_000]);
    Rooms {
        points: 2_048,
        boxes: 1_024,
        polygons: 512,
        owners: 1_024,
        starts,
        items: 8_192,
    }
}

/// One less for the table, unless it has none.
pub fn one_short(k: Rooms, table: usize) -> Option<Rooms> {
    let mut less = k;
    let room = match table {
        0 => &mut less.points,
        1 => &mut less.boxes,
        2 => &mut less.polygons,
        3 => &mut less.owners,
        4 => &mut less.starts,
        _ => &mut less.items,
    };
    *room = room.checked_sub(1)?;
    Some(less)
}

/// The same tables with zeros after them.
pub fn stretched(site: &Lent, k: Rooms) -> Lent {
    use super::padded;
    Lent {
        head: site.head,
        points: padded(&site.points, k.points, 0.0),
        boxes: padded(&site.boxes, k.boxes, 0.0),
        polygons: padded(&site.polygons, k.polygons, 0),
        owners: padded(&site.owners, k.owners, 0),
        starts: padded(&site.starts, k.starts, 0),
        items: padded(&site.items, k.items, 0),
    }
}

/// What a refusal leaves: the tables as they were, and a head of zeros.
pub fn refused(k: Rooms) -> Lent {
    let mut site = Lent::blank(k);
    site.head = Head {
        floats: [0.0; 6],
        counts: [0; 5],
    };
    site
}
