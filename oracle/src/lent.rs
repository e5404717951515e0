//! The proved functions over sites, as the crates `exports_scene`, `exports_view` and `exports_text` hand
//! them to C (crates/exports_scene/src/lib.rt and so on), each behind a safe function.
//!
//! Nothing checks these declarations against the Rattle source: keep the two side by side. None of the
//! functions has a `requires`, so every content of every slice is allowed.

/// Six floats and five counts: width, height, the grid's origin, cell and inverse; columns, rows,
/// polygons, points and items.
#[derive(Clone, Copy, Debug, PartialEq)]
pub struct Head {
    pub floats: [f64; 6],
    pub counts: [u32; 5],
}

/// A site as it is lent: the head and the six tables.
#[derive(Clone)]
pub struct Lent {
    pub head: Head,
    pub points: Vec<f64>,
    pub boxes: Vec<f64>,
    pub polygons: Vec<u32>,
    pub owners: Vec<u32>,
    pub starts: Vec<u32>,
    pub items: Vec<u32>,
}

/// How long each of the six tables is lent.
#[derive(Clone, Copy, Debug)]
pub struct Rooms {
    pub points: usize,
    pub boxes: usize,
    pub polygons: usize,
    pub owners: usize,
    pub starts: usize,
    pub items: usize,
}

/// Functions of a site, its head and tables in front, by what they return.
macro_rules! with_site {
    ($answer:ty; $(fn $name:ident($($arg:ident: $t:ty),*);)*) => {
        unsafe extern "C" {
            $(fn $name(
                head: &[f64; 6], counts: &[u32; 5],
                points: *const f64, points_len: usize,
                boxes: *const f64, boxes_len: usize,
                polygons: *const u32, polygons_len: usize,
                owners: *const u32, owners_len: usize,
                starts: *const u32, starts_len: usize,
                items: *const u32, items_len: usize,
                $($arg: $t),*
            ) -> $answer;)*
        }
    };
}

with_site! { u32;
    fn bf_scene_is_sound();
    fn bf_scene_polygons_near(b: &[f64; 4], marks: *mut u32, marks_len: usize, epoch: &mut u32,
        ids: *mut u32, ids_len: usize, tally: &mut [u64; 2]);
    fn bf_scene_items_at_number(x: f64, y: f64, number: &mut u64);
    fn bf_scene_item_at(x: f64, y: f64, i: usize);
    fn bf_scene_polygon_at(x: f64, y: f64, found: &mut [u32; 2]);
    fn bf_scene_cast_ray(ox: f64, oy: f64, dx: f64, dy: f64, length: f64, mode: u32, t: &mut f64, found: &mut [u64; 3]);
    fn bf_scene_edge(edge: u32, ends: &mut [f64; 4]);
    fn bf_scene_edge_end(edge: u32, end: &mut u32);
    fn bf_scene_edge_owner(edge: u32, owner: &mut u32);
    fn bf_scene_polygon(id: u32, place: &mut [u32; 2], b: &mut [f64; 4]);
    fn bf_scene_polygon_vertices_number(id: u32, number: &mut u64);
    fn bf_scene_bounds(b: &mut [f64; 4]);
    fn bf_scene_width(width: &mut f64);
    fn bf_scene_height(height: &mut f64);
    fn bf_scene_dims(dims: &mut [u32; 2]);
    fn bf_scene_new_stamps(marks: *mut u32, marks_len: usize, epoch: &mut u32);
}
unsafe extern "C" {
    fn bf_scene_polygon_vertex(
        head: &[f64; 6],
        counts: &[u32; 5],
        points: *const f64,
        points_len: usize,
        boxes: *const f64,
        boxes_len: usize,
        polygons: *const u32,
        polygons_len: usize,
        owners: *const u32,
        owners_len: usize,
        starts: *const u32,
        starts_len: usize,
        items: *const u32,
        items_len: usize,
        id: u32,
        i: usize,
    ) -> f64;
}
with_site! { u32;
    fn bf_inner_polygon_at(x: f64, y: f64, found: &mut [u32; 2]);
    fn bf_inner_cast_ray(ox: f64, oy: f64, dx: f64, dy: f64, length: f64, mode: u32, t: &mut f64, found: &mut [u64; 3]);
    fn bf_inner_site_items_at_number(x: f64, y: f64, number: &mut u64);
    fn bf_inner_edge(edge: u32, ends: &mut [f64; 4]);
    fn bf_inner_edge_end(edge: u32, end: &mut u32);
    fn bf_inner_edge_owner(edge: u32, owner: &mut u32);
    fn bf_inner_polygon(id: u32, place: &mut [u32; 2], b: &mut [f64; 4]);
    fn bf_inner_polygon_vertices_number(id: u32, number: &mut u64);
    fn bf_inner_bounds(b: &mut [f64; 4]);
    fn bf_inner_width(width: &mut f64);
    fn bf_inner_height(height: &mut f64);
    fn bf_inner_dims(dims: &mut [u32; 2]);
}
with_site! { u64;
    fn bf_inner_held(asked: *const f64, asked_len: usize);
    fn bf_inner_hits(asked: *const f64, asked_len: usize);
}

/// A view: the post, its range, direction and opening angle.
#[derive(Clone, Copy, Debug)]
pub struct Cone {
    pub post: (f64, f64),
    pub range: f64,
    pub direction: f64,
    pub fov: f64,
}

impl Cone {
    /// As it is handed over.
    fn five(self) -> [f64; 5] {
        [
            self.post.0,
            self.post.1,
            self.range,
            self.direction,
            self.fov,
        ]
    }

    /// With no minus at zero.
    pub fn loaded(self) -> Self {
        Self {
            post: (self.post.0 + 0.0, self.post.1 + 0.0),
            range: self.range + 0.0,
            direction: self.direction + 0.0,
            fov: self.fov + 0.0,
        }
    }

    /// Its own outline, as if nothing stood in it: the status and how many points.
    pub fn outline(self, tolerance: f64, out: &mut [f64]) -> (u32, u64) {
        let mut number = u64::MAX;
        // SAFETY: pointer and length are those of a slice that outlives the call, and the function
        // has no `requires`.
        let status = unsafe {
            bf_cone_outline(
                &self.five(),
                tolerance,
                out.as_mut_ptr(),
                out.len(),
                &mut number,
            )
        };
        (status, number)
    }
}

/// The area of an outline.
pub fn area(outline: &[f64]) -> f64 {
    // SAFETY: as above.
    unsafe { bf_area(outline.as_ptr(), outline.len()) }
}

#[link(name = "exports_view", kind = "static")]
unsafe extern "C" {
    fn bf_cone_outline(
        cone: &[f64; 5],
        tolerance: f64,
        out: *mut f64,
        out_len: usize,
        number: &mut u64,
    ) -> u32;
    fn bf_area(outline: *const f64, outline_len: usize) -> f64;
}

/// The entries allowed to each work list of an outline, in document 01's order: ids of the box query,
/// front edges, unmerged events, kept-aside corners, samples, bucket starts, angular references,
/// owners, corners seen at one event.
pub type Entries = [u32; 9];

/// Floats and words that so many entries take (docs/ROOM.md).
pub fn room_for(k: Entries) -> (usize, usize) {
    let [
        ids,
        edges,
        events,
        corners,
        samples,
        starts,
        refs,
        _owners,
        seen,
    ] = k.map(|n| n as usize);
    (
        7 * edges + 2 * events + 4 * samples,
        ids + 3 * edges + 7 * events + 2 * corners + 6 * samples + starts + refs + seen,
    )
}

/// What is lent for an outline.
#[derive(Clone, PartialEq, Debug)]
pub struct Work {
    pub marks: Vec<u32>,
    pub epoch: u32,
    pub floats: Vec<f64>,
    pub words: Vec<u32>,
    pub outline: Vec<f64>,
    pub visible: Vec<u32>,
}

macro_rules! outline_call {
    ($lib:literal, $name:ident) => {
        #[link(name = $lib, kind = "static")]
        unsafe extern "C" {
            fn $name(
                head: &[f64; 6],
                counts: &[u32; 5],
                points: *const f64,
                points_len: usize,
                boxes: *const f64,
                boxes_len: usize,
                polygons: *const u32,
                polygons_len: usize,
                owners: *const u32,
                owners_len: usize,
                starts: *const u32,
                starts_len: usize,
                items: *const u32,
                items_len: usize,
                cone: &[f64; 5],
                tolerance: f64,
                mode: u32,
                entries: &[u32; 9],
                marks: *mut u32,
                marks_len: usize,
                epoch: &mut u32,
                floats: *mut f64,
                floats_len: usize,
                words: *mut u32,
                words_len: usize,
                outline: *mut f64,
                outline_len: usize,
                visible: *mut u32,
                visible_len: usize,
                answer: &mut [u64; 9],
            ) -> u32;
        }
    };
}
outline_call!("exports_view", bf_compute_visibility);
outline_call!("exports_view", bf_inner_compute_visibility);

#[link(name = "exports_scene", kind = "static")]
unsafe extern "C" {
    #[rustfmt::skip]
    fn bf_scene_random(
        width: f64,
        height: f64,
        number: u32,
        seed: u64,
        points: *mut f64,
        points_len: usize,
        boxes: *mut f64,
        boxes_len: usize,
        polygons: *mut u32,
        polygons_len: usize,
        owners: *mut u32,
        owners_len: usize,
        starts: *mut u32,
        starts_len: usize,
        items: *mut u32,
        items_len: usize,
        head: &mut [f64; 6],
        counts: &mut [u32; 5],
    ) -> u32;
    fn bf_scene_new(
        width: f64,
        height: f64,
        given: *const f64,
        given_len: usize,
        lens: *const u32,
        lens_len: usize,
        points: *mut f64,
        points_len: usize,
        boxes: *mut f64,
        boxes_len: usize,
        polygons: *mut u32,
        polygons_len: usize,
        owners: *mut u32,
        owners_len: usize,
        starts: *mut u32,
        starts_len: usize,
        items: *mut u32,
        items_len: usize,
        head: &mut [f64; 6],
        counts: &mut [u32; 5],
    ) -> u32;
    fn bf_scene_polygons_near_plain(
        head: &[f64; 6],
        counts: &[u32; 5],
        points: *const f64,
        points_len: usize,
        polygons: *const u32,
        polygons_len: usize,
        b: &[f64; 4],
        ids: *mut u32,
        ids_len: usize,
        tally: &mut [u64; 2],
    ) -> u32;
}

/// Calls a function of a site, its head and tables in front.
macro_rules! ask {
    ($f:ident, $site:expr $(, $arg:expr)*) => {{
        let s = $site;
        // SAFETY: pointers and lengths are those of slices that outlive the call, and the function
        // has no `requires`.
        unsafe {
            $f(
                &s.head.floats, &s.head.counts,
                s.points.as_ptr(), s.points.len(),
                s.boxes.as_ptr(), s.boxes.len(),
                s.polygons.as_ptr(), s.polygons.len(),
                s.owners.as_ptr(), s.owners.len(),
                s.starts.as_ptr(), s.starts.len(),
                s.items.as_ptr(), s.items.len()
                $(, $arg)*
            )
        }
    }};
}

/// What outputs hold before a call, so that a cell that is not written shows.
pub const PATTERN: u32 = 0xA5A5_A5A5;
const FLOAT: f64 = 0.123_456_789;

/// Questions that only read: with the tests, by the first function, and without them, by the second.
/// Each answers its status and a value, which is lent filled with a pattern.
macro_rules! reads {
    ($($name:ident, $inner:ident($($asked:pat, $kind:ty => $($given:expr),*)?) -> $value:ty = $pattern:expr,
        $with:ident, $without:ident;)*) => {
        impl Lent {
            $(
                pub fn $name(&self $(, $asked: $kind)?) -> (u32, $value) {
                    let mut value = $pattern;
                    (ask!($with, self $($(, $given)*)?, &mut value), value)
                }

                pub fn $inner(&self $(, $asked: $kind)?) -> (u32, $value) {
                    let mut value = $pattern;
                    (ask!($without, self $($(, $given)*)?, &mut value), value)
                }
            )*
        }
    };
}

reads! {
    items_at_number, inner_items_at_number((x, y), (f64, f64) => x, y) -> u64 = u64::MAX,
        bf_scene_items_at_number, bf_inner_site_items_at_number;
    edge, inner_edge(edge, u32 => edge) -> [f64; 4] = [FLOAT; 4], bf_scene_edge, bf_inner_edge;
    edge_end, inner_edge_end(edge, u32 => edge) -> u32 = PATTERN, bf_scene_edge_end, bf_inner_edge_end;
    edge_owner, inner_edge_owner(edge, u32 => edge) -> u32 = PATTERN, bf_scene_edge_owner, bf_inner_edge_owner;
    polygon_vertices_number, inner_polygon_vertices_number(id, u32 => id) -> u64 = u64::MAX,
        bf_scene_polygon_vertices_number, bf_inner_polygon_vertices_number;
    bounds, inner_bounds() -> [f64; 4] = [FLOAT; 4], bf_scene_bounds, bf_inner_bounds;
    width, inner_width() -> f64 = FLOAT, bf_scene_width, bf_inner_width;
    height, inner_height() -> f64 = FLOAT, bf_scene_height, bf_inner_height;
    dims, inner_dims() -> [u32; 2] = [PATTERN; 2], bf_scene_dims, bf_inner_dims;
}

impl Lent {
    /// Tables of these lengths, filled with a pattern.
    pub fn blank(rooms: Rooms) -> Self {
        Self {
            head: Head {
                floats: [FLOAT; 6],
                counts: [PATTERN; 5],
            },
            points: vec![FLOAT; rooms.points],
            boxes: vec![FLOAT; rooms.boxes],
            polygons: vec![PATTERN; rooms.polygons],
            owners: vec![PATTERN; rooms.owners],
            starts: vec![PATTERN; rooms.starts],
            items: vec![PATTERN; rooms.items],
        }
    }

    pub fn build(&mut self, (width, height): (f64, f64), given: &[f64], lens: &[u32]) -> u32 {
        // SAFETY: pointers and lengths are those of slices that outlive the call, and the function
        // has no `requires`.
        unsafe {
            bf_scene_new(
                width,
                height,
                given.as_ptr(),
                given.len(),
                lens.as_ptr(),
                lens.len(),
                self.points.as_mut_ptr(),
                self.points.len(),
                self.boxes.as_mut_ptr(),
                self.boxes.len(),
                self.polygons.as_mut_ptr(),
                self.polygons.len(),
                self.owners.as_mut_ptr(),
                self.owners.len(),
                self.starts.as_mut_ptr(),
                self.starts.len(),
                self.items.as_mut_ptr(),
                self.items.len(),
                &mut self.head.floats,
                &mut self.head.counts,
            )
        }
    }

    /// A random site.
    pub fn random(&mut self, (width, height): (f64, f64), number: u32, seed: u64) -> u32 {
        // SAFETY: as above.
        unsafe {
            bf_scene_random(
                width,
                height,
                number,
                seed,
                self.points.as_mut_ptr(),
                self.points.len(),
                self.boxes.as_mut_ptr(),
                self.boxes.len(),
                self.polygons.as_mut_ptr(),
                self.polygons.len(),
                self.owners.as_mut_ptr(),
                self.owners.len(),
                self.starts.as_mut_ptr(),
                self.starts.len(),
                self.items.as_mut_ptr(),
                self.items.len(),
                &mut self.head.floats,
                &mut self.head.counts,
            )
        }
    }

    pub fn is_sound(&self) -> bool {
        ask!(bf_scene_is_sound, self) != 0
    }

    /// The status, ids written and entries read.
    pub fn polygons_near(
        &self,
        b: &[f64; 4],
        marks: &mut [u32],
        epoch: &mut u32,
        ids: &mut [u32],
    ) -> (u32, [u64; 2]) {
        let mut tally = [u64::MAX; 2];
        let status = ask!(
            bf_scene_polygons_near,
            self,
            b,
            marks.as_mut_ptr(),
            marks.len(),
            epoch,
            ids.as_mut_ptr(),
            ids.len(),
            &mut tally
        );
        (status, tally)
    }

    /// The same from points and polygons alone: the status, ids written and entries counted.
    pub fn polygons_near_plain(&self, b: &[f64; 4], ids: &mut [u32]) -> (u32, [u64; 2]) {
        let mut tally = [u64::MAX; 2];
        // SAFETY: as above.
        let status = unsafe {
            bf_scene_polygons_near_plain(
                &self.head.floats,
                &self.head.counts,
                self.points.as_ptr(),
                self.points.len(),
                self.polygons.as_ptr(),
                self.polygons.len(),
                b,
                ids.as_mut_ptr(),
                ids.len(),
                &mut tally,
            )
        };
        (status, tally)
    }

    /// The i-th id of the point's cell, 0 past the last and on refusal.
    pub fn item_at(&self, (x, y): (f64, f64), i: usize) -> u32 {
        ask!(bf_scene_item_at, self, x, y, i)
    }

    /// The status; whether there is one, and which.
    pub fn polygon_at(&self, (x, y): (f64, f64)) -> (u32, [u32; 2]) {
        let mut found = [PATTERN; 2];
        (ask!(bf_scene_polygon_at, self, x, y, &mut found), found)
    }

    /// The status and the distance; whether there is a hit, its edge, and cells entered. The mode is 0
    /// for the Rust's rule and 1 for ties credited, here and below; any other is refused.
    pub fn cast_ray(
        &self,
        o: (f64, f64),
        d: (f64, f64),
        length: f64,
        mode: u32,
    ) -> (u32, f64, [u64; 3]) {
        let (mut t, mut found) = (FLOAT, [u64::MAX; 3]);
        let status = ask!(
            bf_scene_cast_ray,
            self,
            o.0,
            o.1,
            d.0,
            d.1,
            length,
            mode,
            &mut t,
            &mut found
        );
        (status, t, found)
    }

    /// The same without the tests.
    pub fn inner_polygon_at(&self, (x, y): (f64, f64)) -> [u32; 2] {
        let mut found = [PATTERN; 2];
        ask!(bf_inner_polygon_at, self, x, y, &mut found);
        found
    }

    pub fn inner_cast_ray(
        &self,
        o: (f64, f64),
        d: (f64, f64),
        length: f64,
        mode: u32,
    ) -> (f64, [u64; 3]) {
        let (mut t, mut found) = (FLOAT, [u64::MAX; 3]);
        ask!(
            bf_inner_cast_ray,
            self,
            o.0,
            o.1,
            d.0,
            d.1,
            length,
            mode,
            &mut t,
            &mut found
        );
        (t, found)
    }

    /// How many of the points, x and y by turns, lie in a polygon, in one call and without the tests.
    pub fn inner_held(&self, asked: &[f64]) -> u64 {
        ask!(bf_inner_held, self, asked.as_ptr(), asked.len())
    }

    /// How many of the rays hit: five numbers each, the origin, the direction and the length.
    pub fn inner_hits(&self, asked: &[f64]) -> u64 {
        self.hits_by(bf_inner_hits, asked)
    }

    /// The same by the function of any build.
    pub fn hits_by(&self, f: Hits, asked: &[f64]) -> u64 {
        ask!(f, self, asked.as_ptr(), asked.len())
    }

    /// First point, number of points and box.
    pub fn polygon(&self, id: u32) -> (u32, [u32; 2], [f64; 4]) {
        let (mut place, mut b) = ([PATTERN; 2], [FLOAT; 4]);
        let status = ask!(bf_scene_polygon, self, id, &mut place, &mut b);
        (status, place, b)
    }

    /// The same without the tests.
    pub fn inner_polygon(&self, id: u32) -> (u32, [u32; 2], [f64; 4]) {
        let (mut place, mut b) = ([PATTERN; 2], [FLOAT; 4]);
        let status = ask!(bf_inner_polygon, self, id, &mut place, &mut b);
        (status, place, b)
    }

    /// The i-th number of a polygon's points, NaN past the last and on refusal.
    pub fn polygon_vertex(&self, id: u32, i: usize) -> f64 {
        ask!(bf_scene_polygon_vertex, self, id, i)
    }

    pub fn new_stamps(&self, marks: &mut [u32], epoch: &mut u32) -> u32 {
        ask!(
            bf_scene_new_stamps,
            self,
            marks.as_mut_ptr(),
            marks.len(),
            epoch
        )
    }

    /// An outline: the status, and blocked, full, points, visible ids, candidates, front edges, events,
    /// samples and refinements.
    pub fn outline(
        &self,
        cone: Cone,
        tolerance: f64,
        mode: u32,
        k: Entries,
        w: &mut Work,
    ) -> (u32, [u64; 9]) {
        let f = Drawing::InMode(bf_compute_visibility);
        self.draw(f, cone, tolerance, mode, k, w)
    }

    /// The same without the test of the tables, for a site that building has made.
    pub fn inner_outline(
        &self,
        cone: Cone,
        tolerance: f64,
        mode: u32,
        k: Entries,
        w: &mut Work,
    ) -> (u32, [u64; 9]) {
        self.draw(INNER, cone, tolerance, mode, k, w)
    }

    /// The same by either function, of this build or another.
    pub fn draw(
        &self,
        f: Drawing,
        cone: Cone,
        tolerance: f64,
        mode: u32,
        k: Entries,
        w: &mut Work,
    ) -> (u32, [u64; 9]) {
        let mut answer = [u64::MAX; 9];
        macro_rules! drawn {
            ($f:ident $(, $mode:ident)?) => {
                ask!(
                    $f,
                    self,
                    &cone.five(),
                    tolerance,
                    $($mode,)?
                    &k,
                    w.marks.as_mut_ptr(),
                    w.marks.len(),
                    &mut w.epoch,
                    w.floats.as_mut_ptr(),
                    w.floats.len(),
                    w.words.as_mut_ptr(),
                    w.words.len(),
                    w.outline.as_mut_ptr(),
                    w.outline.len(),
                    w.visible.as_mut_ptr(),
                    w.visible.len(),
                    &mut answer
                )
            };
        }
        let status = match f {
            Drawing::InMode(f) => drawn!(f, mode),
            Drawing::Modeless(f) => drawn!(f),
        };
        (status, answer)
    }
}

/// The type of a function of a site, its head and tables in front.
macro_rules! of_site {
    ($answer:ty; $($arg:ty),*) => {
        unsafe extern "C" fn(
            &[f64; 6], &[u32; 5],
            *const f64, usize, *const f64, usize,
            *const u32, usize, *const u32, usize, *const u32, usize, *const u32, usize,
            $($arg),*
        ) -> $answer
    };
}

macro_rules! draws {
    ($($mode:ty)?) => {
        of_site!(u32; &[f64; 5], f64, $($mode,)? &[u32; 9], *mut u32, usize, &mut u32, *mut f64, usize,
            *mut u32, usize, *mut f64, usize, *mut u32, usize, &mut [u64; 9])
    };
}

/// How many rays hit.
pub type Hits = of_site!(u64; *const f64, usize);
/// An outline.
pub type Draw = draws!(u32);
/// An outline, before there was a mode.
pub type DrawModeless = draws!();

/// A function that draws an outline. One without a mode draws as mode 0 does.
#[derive(Clone, Copy)]
pub enum Drawing {
    InMode(Draw),
    Modeless(DrawModeless),
}

/// This build's, without the test of the tables.
pub const INNER: Drawing = Drawing::InMode(bf_inner_compute_visibility);

#[link(name = "exports_text", kind = "static")]
unsafe extern "C" {
    fn bf_answer(text: *const u8, text_len: usize, out: *mut u8, out_len: usize) -> usize;
    fn bf_answer_three(text: *const u8, text_len: usize, out: *mut u8, out_len: usize) -> usize;
}

/// The text program's answer: how long it is. As much of it as there is room for is written.
pub fn answer(text: &[u8], out: &mut [u8]) -> usize {
    // SAFETY: pointers and lengths are those of slices that outlive the call, and the function has
    // no `requires`.
    unsafe { bf_answer(text.as_ptr(), text.len(), out.as_mut_ptr(), out.len()) }
}

/// The same with three decimals.
pub fn answer_three(text: &[u8], out: &mut [u8]) -> usize {
    // SAFETY: as above.
    unsafe { bf_answer_three(text.as_ptr(), text.len(), out.as_mut_ptr(), out.len()) }
}
