//! Times the library beside an earlier build of it: outlines and single rays, without the test of the
//! tables. `run` makes a shared object of either, so that both have their own code under the same names.
//!
//! Where code and data come to lie in memory moves a row by some hundredths. So one process is not
//! enough: the program starts itself anew some times, and tells the means and the medians of them all.

use crate::lent::{Draw, DrawModeless, Drawing, Hits};
use crate::scene::bench::{LENGTHS, QUESTIONS, rays};
use crate::util::rng::SplitMix64;
use crate::util::table::Table;
use crate::util::timing::{INPUTS, Limit, TIED};
use crate::view::bench::{each, sites};
use std::ffi::{CStr, CString, c_char, c_int, c_void};
use std::hint::black_box;
use std::mem::transmute;
use std::process::{Command, Stdio};
use std::time::{Duration, Instant};

const PROCESSES: usize = 10;
/// Turns of each side of a row, and how long one is, or one pass if that is longer.
const TURNS: usize = 8;
const TURN: Duration = Duration::from_millis(10);

/// How many times the earlier time mode 0 may take.
const AS_BEFORE: Limit = Limit::Times(1.03);

/// What a process is told: which object to open first.
const FIRST: [&str; 2] = ["now-first", "earlier-first"];

/// A call, and what each process measured: now and earlier, and for an outline mode 1 and mode 0 of the
/// present library, which take turns by themselves.
struct Row {
    what: String,
    runs: Vec<Vec<f64>>,
}

/// Starts the processes and prints what they measured.
pub fn times(now: &str, earlier: &str, no_mode: bool) -> Result<bool, String> {
    let program = std::env::current_exe().map_err(|e| e.to_string())?;
    let mut rows: Vec<Row> = Vec::new();
    for process in 0..PROCESSES {
        let done = Command::new(&program)
            .args(["earlier-once", FIRST[process % FIRST.len()], now, earlier])
            .args(no_mode.then_some("no-mode"))
            .stderr(Stdio::inherit())
            .output()
            .map_err(|e| e.to_string())?;
        if !done.status.success() {
            return Err(format!("process {process}: {}", done.status));
        }
        for (i, line) in String::from_utf8_lossy(&done.stdout).lines().enumerate() {
            let mut words = line.split('\t');
            let what = words.next().unwrap_or_default().to_string();
            if process == 0 {
                let runs = Vec::new();
                rows.push(Row { what, runs });
            }
            let times: Result<_, _> = words.map(str::parse).collect();
            rows[i].runs.push(times.map_err(|_| "a time is no number")?);
        }
    }
    print(&rows);
    Ok(true)
}

fn mean(numbers: &[f64]) -> f64 {
    numbers.iter().sum::<f64>() / numbers.len() as f64
}

impl Row {
    /// The mean and the median of one side.
    fn middle(&self, side: usize) -> [f64; 2] {
        let mut times: Vec<f64> = self.runs.iter().map(|run| run[side]).collect();
        times.sort_by(f64::total_cmp);
        let half = times.len() / 2;
        let median = (times[half] + times[times.len() - 1 - half]) / 2.0;
        [mean(&times), median]
    }

    /// One side over another, by the means and by the medians.
    fn ratio(&self, side: usize, other: usize) -> [f64; 2] {
        let (a, b) = (self.middle(side), self.middle(other));
        [a[0] / b[0], a[1] / b[1]]
    }

    fn has_modes(&self) -> bool {
        self.runs[0].len() > 2
    }

    /// What its name begins with.
    fn kind(&self) -> &str {
        self.what.split(',').next().unwrap_or_default()
    }
}

fn print(rows: &[Row]) {
    println!("Timed beside an earlier build, {}.", crate::processor());
    println!("Nanoseconds per call: mean over {PROCESSES} processes of the best of {TURNS} turns.");
    println!("Without the test of the tables. A limit is for the ratio of the medians.\n");
    let mut table = Table::new(&[
        "call",
        "now",
        "earlier",
        "ratio of means",
        "of medians",
        &format!("within {}", AS_BEFORE.show()),
        "mode 1 over mode 0: ratio of means",
        "of medians",
        &format!("within {}", TIED.show()),
    ]);
    for row in rows {
        let mut cells = vec![row.what.clone()];
        cells.extend([0, 1].map(|side| format!("{:.2}", row.middle(side)[0])));
        cells.extend(shown(AS_BEFORE, row.ratio(0, 1)));
        cells.extend(match row.has_modes() {
            true => shown(TIED, row.ratio(2, 3)),
            false => ["-"; 3].map(str::to_string),
        });
        table.row(cells);
    }
    table.print();
    for kind in rows.chunk_by(|a, b| a.kind() == b.kind()) {
        let ratios: Vec<_> = kind.iter().map(|row| row.ratio(0, 1)).collect();
        let what = format!("{}, now in mode 0 over earlier", kind[0].kind());
        sum_up(&what, AS_BEFORE, &ratios);
    }
    let tied = rows.iter().filter(|row| row.has_modes());
    let tied: Vec<_> = tied.map(|row| row.ratio(2, 3)).collect();
    sum_up("outlines, now in mode 1 over mode 0", TIED, &tied);
}

/// The cells of a ratio.
fn shown(limit: Limit, ratio: [f64; 2]) -> [String; 3] {
    let [means, medians] = ratio.map(|r| format!("{r:.3}"));
    [means, medians, limit.verdict(&ratio[1..])]
}

fn sum_up(what: &str, limit: Limit, ratios: &[[f64; 2]]) {
    let within = ratios.iter().filter(|r| limit.verdict(&r[1..]) == "PASS");
    let (within, all, limit) = (within.count(), ratios.len(), limit.show());
    print!("{what}: {within} of {all} rows within {limit}");
    for (i, of) in ["means", "medians"].into_iter().enumerate() {
        let mut by: Vec<f64> = ratios.iter().map(|r| r[i]).collect();
        by.sort_by(f64::total_cmp);
        let (lowest, highest, mean) = (by[0], by[all - 1], mean(&by));
        print!("; ratio of {of} {lowest:.3} to {highest:.3}, mean {mean:.3}");
    }
    println!(".");
}

/// One process: a line for each row, with the best time of each side.
pub fn once(first: &str, now: &str, earlier: &str, no_mode: bool) -> Result<bool, String> {
    let (now, earlier) = if first == FIRST[0] {
        let now = Build::open(now, false)?;
        (now, Build::open(earlier, no_mode)?)
    } else {
        let earlier = Build::open(earlier, no_mode)?;
        (Build::open(now, false)?, earlier)
    };
    let sites = sites();
    each(&sites, |what, views| {
        for &post in &views.posts {
            let [a, b] = [&now, &earlier].map(|build| views.by(build.outline, 0, post));
            assert_eq!(a, b, "{what}: the same answer");
        }
        let pass = |build: &Build, mode| {
            let draw = |&post| views.by(build.outline, mode, post)[2];
            views.posts.iter().map(draw).sum()
        };
        let posts = views.posts.len();
        let [a, b] = best(posts, [&|| pass(&now, 0), &|| pass(&earlier, 0)]);
        // Not all three in turn: the two modes are the same code, and it would run twice as often as the
        // earlier one, whose branches the processor would then know less well.
        let [tied, level] = best(posts, [&|| pass(&now, 1), &|| pass(&now, 0)]);
        println!("outline, {what}\t{a}\t{b}\t{tied}\t{level}");
    });
    let r = &mut SplitMix64::new(1_901);
    // The processor learns some of the few by heart, more or fewer as the code lies; not the many.
    for number in [QUESTIONS, INPUTS] {
        for ((scene, site), length) in sites.iter().flat_map(|s| LENGTHS.map(|l| (s, l))) {
            let asked = rays(r, number, length).concat();
            let polygons = scene.polygons().len();
            let what = format!(
                "`cast_ray` of {number} rays in one call, length {length}, {polygons} polygons"
            );
            let pass = |build: &Build| site.hits_by(build.hits, black_box(&asked));
            assert_eq!(pass(&now), pass(&earlier), "{what}: the same answer");
            let [a, b] = best(number, [&|| pass(&now), &|| pass(&earlier)]);
            println!("{what}\t{a}\t{b}");
        }
    }
    Ok(true)
}

/// The best turn of each side, in nanoseconds for each of the questions that a pass asks. The sides
/// take turns, so that all see the same machine.
fn best(questions: usize, sides: [&dyn Fn() -> u64; 2]) -> [f64; 2] {
    let mut best = [f64::INFINITY; 2];
    for _ in 0..TURNS {
        for (best, pass) in best.iter_mut().zip(sides) {
            // One turn is not counted: the processor learns the branches of a few posts by heart, and
            // forgets them while the other side runs.
            turn(pass);
            *best = best.min(turn(pass) / questions as f64);
        }
    }
    best
}

/// Nanoseconds of a pass.
fn turn(pass: &dyn Fn() -> u64) -> f64 {
    let (start, mut passes) = (Instant::now(), 0);
    while passes == 0 || start.elapsed() < TURN {
        black_box(pass());
        passes += 1;
    }
    start.elapsed().as_secs_f64() * 1e9 / f64::from(passes)
}

/// The functions of one build.
struct Build {
    outline: Drawing,
    hits: Hits,
}

unsafe extern "C" {
    fn dlopen(file: *const c_char, flags: c_int) -> *mut c_void;
    fn dlsym(object: *mut c_void, name: *const c_char) -> *mut c_void;
    safe fn dlerror() -> *const c_char;
}
/// glibc's numbers: every name is looked up on opening, and none is lent to other objects.
const RTLD_NOW: c_int = 2;
const RTLD_LOCAL: c_int = 0;

impl Build {
    /// The object is never closed.
    fn open(path: &str, no_mode: bool) -> Result<Self, String> {
        let file = CString::new(path).map_err(|e| e.to_string())?;
        // SAFETY: a C string; the object has no code that runs on opening but the C compiler's own.
        let object = found(unsafe { dlopen(file.as_ptr(), RTLD_NOW | RTLD_LOCAL) })?;
        // SAFETY: an open object and a C string.
        let named = |name: &CStr| found(unsafe { dlsym(object, name.as_ptr()) });
        let outline = named(c"bf_inner_compute_visibility")?;
        let hits = named(c"bf_inner_hits")?;
        // SAFETY: they have these types, if the caller is right about the mode.
        unsafe {
            let outline = match no_mode {
                true => Drawing::Modeless(transmute::<*mut c_void, DrawModeless>(outline)),
                false => Drawing::InMode(transmute::<*mut c_void, Draw>(outline)),
            };
            let hits = transmute::<*mut c_void, Hits>(hits);
            Ok(Self { outline, hits })
        }
    }
}

/// What was looked for, or the loader's word on why it is not there.
fn found(address: *mut c_void) -> Result<*mut c_void, String> {
    if !address.is_null() {
        return Ok(address);
    }
    // SAFETY: after a failure this is a C string.
    let why = unsafe { CStr::from_ptr(dlerror()) };
    Err(why.to_string_lossy().into_owned())
}
