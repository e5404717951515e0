//! The inner functions of crates `grid`, `tables`, `walk`, `wkt` and `wkt_print`, as crate `probe` hands
//! them to C (crates/probe/src/lib.rt). They are for comparing and timing alone, and no part of the
//! interface for users.
//!
//! Nothing checks these declarations against the Rattle source: keep the two side by side. What has a
//! `requires` there stands behind a safe function here that sees to it.

#[link(name = "probe", kind = "static")]
unsafe extern "C" {
    pub safe fn bf_inner_columns(extent: f64, cell: f64) -> u64;
    safe fn bf_inner_cell_range(
        gx: f64,
        gy: f64,
        cell: f64,
        inv: f64,
        cols: u32,
        rows: u32,
        b: &[f64; 4],
        out: &mut [u32; 4],
    ) -> u32;
    fn bf_inner_build(
        gx: f64,
        gy: f64,
        cell: f64,
        inv: f64,
        cols: u32,
        rows: u32,
        boxes: *const f64,
        boxes_len: usize,
        polygons: usize,
        starts: *mut u32,
        starts_len: usize,
        items: *mut u32,
        items_len: usize,
        count: &mut u64,
    ) -> u32;
    fn bf_inner_box_query(
        gx: f64,
        gy: f64,
        cell: f64,
        inv: f64,
        cols: u32,
        rows: u32,
        starts: *const u32,
        starts_len: usize,
        items: *const u32,
        items_len: usize,
        b: &[f64; 4],
        marks: *mut u32,
        marks_len: usize,
        epoch: &mut u32,
        ids: *mut u32,
        ids_len: usize,
        counts: &mut [u64; 2],
    ) -> u32;
    fn bf_inner_item_at(
        gx: f64,
        gy: f64,
        cell: f64,
        inv: f64,
        cols: u32,
        rows: u32,
        starts: *const u32,
        starts_len: usize,
        items: *const u32,
        items_len: usize,
        x: f64,
        y: f64,
        i: usize,
    ) -> u32;
    fn bf_inner_items_at_number(
        gx: f64,
        gy: f64,
        cell: f64,
        inv: f64,
        cols: u32,
        rows: u32,
        starts: *const u32,
        starts_len: usize,
        items: *const u32,
        items_len: usize,
        x: f64,
        y: f64,
    ) -> usize;
    fn bf_inner_ray_cells(
        gx: f64,
        gy: f64,
        cell: f64,
        inv: f64,
        cols: u32,
        rows: u32,
        ox: f64,
        oy: f64,
        dx: f64,
        dy: f64,
        length: f64,
        out: *mut u32,
        out_len: usize,
    ) -> usize;
    fn bf_inner_next_epoch(marks: *mut u32, marks_len: usize, epoch: &mut u32);
    fn bf_inner_print_number(x: f64, places: usize, out: *mut u8, out_len: usize) -> usize;
    fn bf_inner_read_input(
        text: *const u8,
        text_len: usize,
        pts: *mut f64,
        pts_len: usize,
        lens: *mut u32,
        lens_len: usize,
    ) -> u32;
}

/// Document 01's limits, which `build` asks for.
pub const MOST_CELLS: u64 = 1_048_576;
pub const MOST_POLYGONS: usize = 4_096;

/// A grid without its tables.
#[derive(Clone, Copy)]
pub struct Grid {
    pub origin: (f64, f64),
    pub cell: f64,
    pub inv: f64,
    pub cols: u32,
    pub rows: u32,
}

/// Where from, which way and how far.
#[derive(Clone, Copy)]
pub struct Ray {
    pub origin: (f64, f64),
    pub direction: (f64, f64),
    pub length: f64,
}

impl Grid {
    pub fn cells(&self) -> u64 {
        u64::from(self.cols) * u64::from(self.rows)
    }

    /// Whether there is a range, and c0, r0, c1, r1.
    #[inline]
    pub fn cell_range(&self, b: &[f64; 4]) -> (u32, [u32; 4]) {
        let ((gx, gy), mut out) = (self.origin, [u32::MAX; 4]);
        let (cell, inv, cols, rows) = (self.cell, self.inv, self.cols, self.rows);
        let found = bf_inner_cell_range(gx, gy, cell, inv, cols, rows, b, &mut out);
        (found, out)
    }

    /// Writes the tables of some boxes, four numbers each. The status and the item count.
    #[inline]
    pub fn build(&self, boxes: &[f64], starts: &mut [u32], items: &mut [u32]) -> (u32, u64) {
        let polygons = boxes.len() / 4;
        assert!(self.cols > 0 && self.rows > 0 && self.cells() <= MOST_CELLS);
        assert!(polygons <= MOST_POLYGONS);
        let mut count = u64::MAX;
        // SAFETY: pointers and lengths are those of three slices, which outlive the call; the limits
        // were tested.
        let status = unsafe {
            bf_inner_build(
                self.origin.0,
                self.origin.1,
                self.cell,
                self.inv,
                self.cols,
                self.rows,
                boxes.as_ptr(),
                boxes.len(),
                polygons,
                starts.as_mut_ptr(),
                starts.len(),
                items.as_mut_ptr(),
                items.len(),
                &mut count,
            )
        };
        (status, count)
    }

    /// How many cells the ray enters. They are written as far as there is room.
    #[inline]
    pub fn ray_cells(&self, ray: Ray, out: &mut [u32]) -> usize {
        // SAFETY: pointer and length are those of one slice, which outlives the call.
        unsafe {
            bf_inner_ray_cells(
                self.origin.0,
                self.origin.1,
                self.cell,
                self.inv,
                self.cols,
                self.rows,
                ray.origin.0,
                ray.origin.1,
                ray.direction.0,
                ray.direction.1,
                ray.length,
                out.as_mut_ptr(),
                out.len(),
            )
        }
    }
}

/// A grid with the tables that `build` made for it: they are sound, as the questions ask.
pub struct Tables {
    grid: Grid,
    starts: Vec<u32>,
    items: Vec<u32>,
}

impl Tables {
    /// With room for so many items. Where that does not do, the status.
    pub fn new(grid: Grid, boxes: &[f64], room: usize) -> Result<Self, u32> {
        let mut starts = vec![0; grid.cells() as usize + 1];
        let mut items = vec![0; room];
        match grid.build(boxes, &mut starts, &mut items) {
            (0, _) => Ok(Self {
                grid,
                starts,
                items,
            }),
            (status, _) => Err(status),
        }
    }

    pub fn starts(&self) -> &[u32] {
        &self.starts
    }

    pub fn items(&self) -> &[u32] {
        &self.items
    }

    /// The status, and how many ids were written and entries read.
    #[inline]
    pub fn box_query(
        &self,
        b: &[f64; 4],
        marks: &mut [u32],
        epoch: &mut u32,
        ids: &mut [u32],
    ) -> (u32, [u64; 2]) {
        let mut counts = [u64::MAX; 2];
        // SAFETY: pointers and lengths are those of four slices, which outlive the call; the tables
        // are sound.
        let status = unsafe {
            bf_inner_box_query(
                self.grid.origin.0,
                self.grid.origin.1,
                self.grid.cell,
                self.grid.inv,
                self.grid.cols,
                self.grid.rows,
                self.starts.as_ptr(),
                self.starts.len(),
                self.items.as_ptr(),
                self.items.len(),
                b,
                marks.as_mut_ptr(),
                marks.len(),
                epoch,
                ids.as_mut_ptr(),
                ids.len(),
                &mut counts,
            )
        };
        (status, counts)
    }

    /// The i-th id of the cell that holds a point, 0 past the last.
    #[inline]
    pub fn item_at(&self, (x, y): (f64, f64), i: usize) -> u32 {
        // SAFETY: pointers and lengths are those of two slices, which outlive the call.
        unsafe {
            bf_inner_item_at(
                self.grid.origin.0,
                self.grid.origin.1,
                self.grid.cell,
                self.grid.inv,
                self.grid.cols,
                self.grid.rows,
                self.starts.as_ptr(),
                self.starts.len(),
                self.items.as_ptr(),
                self.items.len(),
                x,
                y,
                i,
            )
        }
    }

    #[inline]
    pub fn items_at_number(&self, (x, y): (f64, f64)) -> usize {
        // SAFETY: as above.
        unsafe {
            bf_inner_items_at_number(
                self.grid.origin.0,
                self.grid.origin.1,
                self.grid.cell,
                self.grid.inv,
                self.grid.cols,
                self.grid.rows,
                self.starts.as_ptr(),
                self.starts.len(),
                self.items.as_ptr(),
                self.items.len(),
                x,
                y,
            )
        }
    }
}

#[inline]
pub fn next_epoch(marks: &mut [u32], epoch: &mut u32) {
    // SAFETY: pointer and length are those of one slice, which outlives the call.
    unsafe { bf_inner_next_epoch(marks.as_mut_ptr(), marks.len(), epoch) }
}

/// How long a number is with so many decimals. As much of it as there is room for is written, and nothing
/// behind it.
pub fn print_number(x: f64, places: usize, out: &mut [u8]) -> usize {
    assert!(places <= 6, "as `bf_inner_print_number` asks");
    // SAFETY: pointer and length are those of one slice, which outlives the call; the places were tested.
    unsafe { bf_inner_print_number(x, places, out.as_mut_ptr(), out.len()) }
}

/// The refusal of a text or 0; the coordinates of all rings and their lengths are written as far as there
/// is room, with zeros behind.
pub fn read_input(text: &[u8], pts: &mut [f64], lens: &mut [u32]) -> u32 {
    // SAFETY: pointers and lengths are those of three slices, which outlive the call; there is no
    // `requires`.
    unsafe {
        bf_inner_read_input(
            text.as_ptr(),
            text.len(),
            pts.as_mut_ptr(),
            pts.len(),
            lens.as_mut_ptr(),
            lens.len(),
        )
    }
}
