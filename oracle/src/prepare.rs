//! Makes two crates from the published Rust, by exact and counted substitutions of text.
//!
//!     prepare PUBLISHED OUT
//!
//! OUT/plain: the published Rust, without rayon's parallel branch (document 01 leaves it behind) and
//! otherwise as it is.
//! OUT/oracle: besides, (a) sin, cos, atan2 and acos are ours, (b) the sorts on floats are stable,
//! (c) ties are credited where `oracle::ties` says so, and read-only seams show what the public
//! interface does not.
//!
//! Each substitution names the text and how often it must occur. A count that differs stops the
//! program: the source is then not the one that was read. docs/DIFFERENCES.md lists (a) and (b).

use std::fmt::Display;
use std::path::Path;
use std::process::exit;

const FILES: [&str; 4] = ["geom.rs", "grid.rs", "scene.rs", "visibility.rs"];

fn main() {
    let words: Vec<String> = std::env::args().skip(1).collect();
    let [published, out] = words.as_slice() else {
        stop("usage: prepare PUBLISHED OUT");
    };
    let published = Path::new(published).join("crates/visibility-core/src");
    let mut sources = FILES.map(|name| Source::read(&published, name));

    without_rayon(&mut sources);
    write(&Path::new(out).join("plain"), &sources, &[]);

    our_angles(&mut sources);
    stable_sorts(&mut sources);
    credited_ties(&mut sources);
    seams(&mut sources);
    write(
        &Path::new(out).join("oracle"),
        &sources,
        &[("seam.rs", SEAM), ("ties.rs", TIES)],
    );
}

fn stop(why: impl Display) -> ! {
    eprintln!("prepare: {why}");
    exit(1)
}

struct Source {
    name: &'static str,
    text: String,
}

impl Source {
    fn read(folder: &Path, name: &'static str) -> Self {
        let path = folder.join(name);
        match std::fs::read_to_string(&path) {
            Ok(text) => Self { name, text },
            Err(e) => stop(format_args!("{}: {e}", path.display())),
        }
    }

    /// Replaces `old`, which must occur exactly `times` times.
    fn substitute(&mut self, old: &str, new: &str, times: usize) {
        let found = self.text.matches(old).count();
        if found != times {
            let name = self.name;
            stop(format_args!(
                "{name}: expected {times} of {old:?}, found {found}"
            ));
        }
        self.text = self.text.replace(old, new);
    }

    /// Adds `new` before the one place of `old`.
    fn before(&mut self, old: &str, new: &str) {
        self.substitute(old, &format!("{new}{old}"), 1);
    }

    /// Adds `new` after the one place of `old`.
    fn after(&mut self, old: &str, new: &str) {
        self.substitute(old, &format!("{old}{new}"), 1);
    }

    fn absent(&self, word: &str) {
        if self.text.contains(word) {
            stop(format_args!("{}: {word:?} is still there", self.name));
        }
    }
}

fn without_rayon([.., visibility]: &mut [Source; 4]) {
    visibility.substitute("use rayon::prelude::*;\n\n", "", 1);
    visibility.substitute(PARALLEL, IN_TURN, 1);
    visibility.absent("rayon::");
    visibility.absent("par_");
}

const PARALLEL: &str = "    if samples.len() >= opts.parallel_min_rays {
        // Rays are cheap (tens of ns), so hand out large chunks to keep scheduling cheap.
        samples
            .par_chunks_mut(1024)
            .for_each(|chunk| chunk.iter_mut().for_each(cast));
    } else {
        samples.iter_mut().for_each(cast);
    }
";
const IN_TURN: &str = "    samples.iter_mut().for_each(cast);\n";

fn our_angles(sources: &mut [Source; 4]) {
    let [geom, .., visibility] = &mut *sources;
    geom.substitute("angle.sin_cos()", "ffi::sin_cos(angle)", 1);
    geom.substitute("self.y.atan2(self.x)", "ffi::bf_atan2(self.y, self.x)", 1);
    visibility.substitute(
        "(1.0 - tolerance / r).acos()",
        "ffi::bf_acos(1.0 - tolerance / r)",
        1,
    );
    // Nothing is left whose bits hang on the C library.
    let others = [
        ".sin(",
        ".cos(",
        ".sin_cos(",
        ".tan(",
        ".asin(",
        ".acos(",
        ".atan(",
        ".atan2(",
        ".sinh(",
        ".exp(",
        ".ln(",
        ".log",
        ".powf(",
        ".powi(",
        ".cbrt(",
        ".hypot(",
        ".mul_add(",
    ];
    for source in sources {
        others.iter().for_each(|word| source.absent(word));
    }
}

/// `extra_corners.sort_unstable_by_key` and `visible.sort_unstable` stay: equal keys there belong
/// to equal values.
fn stable_sorts([.., visibility]: &mut [Source; 4]) {
    for (list, key) in [("events", "angle"), ("samples", "angle"), ("edges", "near")] {
        let by = format!("(|a, b| a.{key}.total_cmp(&b.{key}));");
        let old = format!(" {list}.sort_unstable_by{by}");
        visibility.substitute(&old, &format!(" {list}.sort_by{by}"), 1);
    }
    visibility.absent(".sort_unstable_by(");
}

/// Document 02's Q-3, mode 1: of equal distances the lowest edge that was tested is answered, and each
/// polygon that owns one is credited. Mode 0 is the text as it was: an equal nearness stops, an equal
/// distance is passed over, and the edge answered is the one owner. Five places, and no other.
fn credited_ties([.., scene, visibility]: &mut [Source; 4]) {
    visibility.substitute(
        "            if e.near >= best {\n",
        "            if e.near > best || (e.near == best && !crate::ties::count()) {\n",
        1,
    );
    visibility.substitute(
        "                best_edge = e.edge;\n            }\n",
        NEAREST_OR_TIED,
        1,
    );
    // A sample's cast was made before. It is made once more, so that the tied edges are its own.
    visibility.substitute(
        "                owners.push(h.edge);\n                outline.push(sweep",
        "                assert_eq!(sweep.cast(s.angle), s.hit);
                owners.extend(crate::ties::owners(scene, h.edge));
                outline.push(sweep",
        1,
    );
    visibility.substitute(
        "                owners.push(h.edge);\n                self.refine",
        "                owners.extend(crate::ties::owners(self.scene, h.edge));
                self.refine",
        1,
    );
    visibility.absent("owners.push(");
    scene.substitute(
        "                        best_edge = (first + prev_index) as u32;\n                    }\n",
        NEAREST_OR_LOWER,
        1,
    );
}

const NEAREST_OR_TIED: &str = "                best_edge = e.edge;
                crate::ties::only(e.edge);
            } else if let Some(t) = ray_segment(o, dir, e.a, e.b)
                && crate::ties::count() && t == best && best_edge != u32::MAX
            {
                best_edge = best_edge.min(e.edge);
                crate::ties::also(e.edge);
            }
";
const NEAREST_OR_LOWER: &str = "                        best_edge = (first + prev_index) as u32;
                    } else if let Some(t) = ray_segment(origin, dir, verts[prev_index], v)
                        && crate::ties::count() && t == best_t && best_edge != u32::MAX
                    {
                        best_edge = best_edge.min((first + prev_index) as u32);
                    }
";

/// Read-only additions. The lines put into the text count and change no answer.
fn seams([_, grid, scene, visibility]: &mut [Source; 4]) {
    grid.text += GRID_SEAMS;
    scene.text += SCENE_SEAMS;
    visibility.text += VISIBILITY_SEAMS;
    grid.after(
        "            let c = row as usize * self.cols + col as usize;\n",
        "            crate::seam::enter(c);\n",
    );
    scene.after(
        "        self.grid.traverse_ray(origin, dir, max_t, |items, _t_enter, t_exit| {\n",
        "            crate::seam::cell();\n",
    );
    visibility.after(
        "        scene.for_each_polygon_near(&cone.aabb(), stamps, |id| {\n",
        "            crate::seam::add(crate::seam::IDS, 1);\n",
    );
    // A post on an edge is answered after the scan, so the scan's lists are noted before that.
    visibility.before(
        "    if on_boundary {\n",
        &(note("    ", "EDGES", "edges.len()") + &note("    ", "UNMERGED", "events.len()")),
    );
    visibility.before(
        "    events.sort_by(",
        &note("    ", "UNMERGED", "events.len()"),
    );
    visibility.before(
        "    extra_corners.sort_unstable_by_key",
        &note("    ", "CORNERS", "extra_corners.len()"),
    );
    visibility.after(
        "        let mut refs = vec![0u32; starts[buckets] as usize];\n",
        &(note("        ", "STARTS", "starts.len()") + &note("        ", "REFS", "refs.len()")),
    );
    visibility.before(
        "    let mut visible: Vec<u32> = owners",
        &note("    ", "OWNERS", "owners.len()"),
    );
    visibility.before(
        "            for (_, v) in seen {\n",
        &note("            ", "SEEN", "seen.len()"),
    );
}

fn note(indent: &str, list: &str, length: &str) -> String {
    format!("{indent}crate::seam::note(crate::seam::{list}, {length});\n")
}

const GRID_SEAMS: &str = "
// Added for the oracle: the private tables.
impl UniformGrid {
    pub fn oracle_origin(&self) -> Vec2 {
        self.origin
    }
    pub fn oracle_cell(&self) -> f64 {
        self.cell
    }
    pub fn oracle_inv_cell(&self) -> f64 {
        self.inv_cell
    }
    pub fn oracle_starts(&self) -> &[u32] {
        &self.starts
    }
    pub fn oracle_items(&self) -> &[u32] {
        &self.items
    }
    /// Columns and rows that a box covers: c0, r0, c1, r1.
    pub fn oracle_range(&self, b: &Aabb) -> Option<[usize; 4]> {
        self.cell_range(b).map(|r| [r.c0, r.r0, r.c1, r.r1])
    }
    /// Entries that a box query reads.
    pub fn oracle_entries(&self, b: &Aabb) -> usize {
        let Some(r) = self.cell_range(b) else { return 0 };
        let cells = (r.r0..=r.r1).flat_map(|row| (r.c0..=r.c1).map(move |col| row * self.cols + col));
        cells.map(|c| self.cell_items(c).len()).sum()
    }
}
impl Stamps {
    pub fn oracle_from(marks: Vec<u32>, epoch: u32) -> Self {
        Self { marks, epoch }
    }
    pub fn oracle_marks(&self) -> &[u32] {
        &self.marks
    }
    pub fn oracle_epoch(&self) -> u32 {
        self.epoch
    }
}
";

const SCENE_SEAMS: &str = "
// Added for the oracle.
impl Rng {
    pub fn oracle_state(&self) -> u64 {
        self.0
    }
}
pub fn oracle_ray_hits_aabb(o: Vec2, inv: Vec2, b: &Aabb, t_max: f64) -> bool {
    ray_hits_aabb(o, inv, b, t_max)
}
pub fn oracle_cell_size(boxes: &[Aabb], bounds: &Aabb) -> f64 {
    Scene::pick_cell_size(boxes, bounds)
}
";

const VISIBILITY_SEAMS: &str = "
// Added for the oracle.
pub fn oracle_arc_step(r: f64, tolerance: f64) -> f64 {
    arc_step(r, tolerance)
}
";

const SEAM: &str = "//! Counters of the oracle. They change no answer.
use std::cell::Cell;

/// Cells that a ray enters.
pub const CELLS: usize = 0;
/// Ids that the box query of an outline hands out.
pub const IDS: usize = 1;
// The greatest lengths of the lists of an outline.
pub const EDGES: usize = 2;
pub const UNMERGED: usize = 3;
pub const CORNERS: usize = 4;
pub const STARTS: usize = 5;
pub const REFS: usize = 6;
pub const OWNERS: usize = 7;
/// Corners seen at one event.
pub const SEEN: usize = 8;
/// Owners credited beside that of the edge answered.
pub const SHARED: usize = 9;
pub const COUNTERS: usize = 10;

/// More cells than any walk over a grid of 1,048,576 cells enters.
pub const ENDLESS: usize = 4_000_000;

thread_local! {
    static COUNTS: Cell<[usize; COUNTERS]> = const { Cell::new([0; COUNTERS]) };
    static PLACE: Cell<usize> = const { Cell::new(0) };
}

/// Notes the cell that a walk enters, before its visitor is called.
pub fn enter(cell: usize) {
    PLACE.set(cell);
}

/// The cell that a walk entered last. A visitor may ask.
pub fn place() -> usize {
    PLACE.get()
}

pub fn reset() {
    COUNTS.set([0; COUNTERS]);
}

pub fn counts() -> [usize; COUNTERS] {
    COUNTS.get()
}

fn change(i: usize, f: impl FnOnce(usize) -> usize) {
    let mut counts = COUNTS.get();
    counts[i] = f(counts[i]);
    COUNTS.set(counts);
}

pub fn add(i: usize, k: usize) {
    change(i, |n| n + k);
}

/// Keeps the greatest.
pub fn note(i: usize, k: usize) {
    change(i, |n| n.max(k));
}

/// Panics in a walk without end, which the caller may catch.
pub fn cell() {
    add(CELLS, 1);
    assert!(counts()[CELLS] < ENDLESS, \"a walk without end\");
}
";

const TIES: &str = "//! Document 02's Q-3: the mode in force, and the tied edges of the last cast of an outline.
use crate::scene::Scene;
use std::cell::{Cell, RefCell};

thread_local! {
    static COUNT: Cell<bool> = const { Cell::new(false) };
    static TIED: RefCell<Vec<u32>> = const { RefCell::new(Vec::new()) };
}

/// What `f` answers in this mode. All that is called otherwise is in mode 0.
pub fn in_mode<R>(mode: u32, f: impl FnOnce() -> R) -> R {
    COUNT.set(mode == 1);
    let answer = f();
    COUNT.set(false);
    answer
}

/// Do ties count, as in mode 1?
pub fn count() -> bool {
    COUNT.get()
}

/// A cast found an edge nearer than all before.
pub fn only(edge: u32) {
    if count() {
        TIED.replace(vec![edge]);
    }
}

/// A cast found an edge as near as the nearest.
pub fn also(edge: u32) {
    TIED.with_borrow_mut(|tied| tied.push(edge));
}

/// The entries for the last cast, which answered `edge`: that edge, and where ties count one edge of
/// each polygon that owns a tied one.
pub fn owners(scene: &Scene, edge: u32) -> Vec<u32> {
    if !count() {
        return vec![edge];
    }
    let mut tied = TIED.take();
    tied.sort_unstable();
    assert_eq!(tied.first(), Some(&edge));
    // Edges are numbered polygon after polygon, so those of one polygon stand together.
    tied.dedup_by_key(|e| scene.edge_owner(*e));
    crate::seam::add(crate::seam::SHARED, tied.len() - 1);
    tied
}
";

/// Writes one crate: the sources, what is added, and a root that names them.
fn write(folder: &Path, sources: &[Source], added: &[(&str, &str)]) {
    let mut root = String::from("#![allow(dead_code)]\n");
    for source in sources {
        let module = source.name.trim_end_matches(".rs");
        root += &format!("pub mod {module};\npub use {module}::*;\n");
        put(folder, source.name, &source.text);
    }
    for (name, text) in added {
        root += &format!("pub mod {};\n", name.trim_end_matches(".rs"));
        put(folder, name, text);
    }
    put(folder, "lib.rs", &root);
}

fn put(folder: &Path, name: &str, text: &str) {
    let written =
        std::fs::create_dir_all(folder).and_then(|()| std::fs::write(folder.join(name), text));
    if let Err(e) = written {
        stop(format_args!("{}/{name}: {e}", folder.display()));
    }
}
