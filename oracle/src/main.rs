//! Compares the proved functions with the Rust's, and times both.
//!
//!     compare [module..]   every module, or those named; exit status 1 if a comparison fails
//!     bench [module..]     times, which decide nothing
//!     sample FILE FILE     writes the samples for crates `replay` and `replay_sites`, and reads them back
//!     texts FOLDER         writes texts and their answers, for a reader of Well-Known Text that is not ours
//!     cases FILE           prints the worked out answers to the stored cases
//!     earlier NOW EARLIER [no-mode]   times beside an earlier build, both as shared objects
//!
//! A further crate is compared by a module of its own here, with an entry in a list below.

mod angle;
#[cfg(published)]
mod earlier;
#[cfg(published)]
mod geom;
#[cfg(published)]
mod grid;
#[cfg(published)]
mod lent;
mod num;
#[cfg(published)]
mod probe;
#[cfg(published)]
mod published;
#[cfg(published)]
mod rng;
#[cfg(published)]
mod sample;
#[cfg(published)]
mod scene;
#[cfg(published)]
mod sites;
#[cfg(published)]
mod text;
mod util;
#[cfg(published)]
mod view;

use std::ffi::{CStr, c_char};
use std::process::ExitCode;
use util::table::count;
use util::timing::{Bench, INPUTS};

struct Module {
    name: &'static str,
    /// Prints its tables and says whether all comparisons passed.
    compare: fn() -> bool,
    /// Adds its rows.
    bench: fn(&mut Bench),
}

/// Held against Rust's own library.
const WITH_STD: &[Module] = &[
    Module {
        name: "num",
        compare: num::compare,
        bench: num::bench,
    },
    Module {
        name: "angle",
        compare: angle::compare,
        bench: angle::bench,
    },
];

/// Held against the published Rust, where it is at hand.
#[cfg(published)]
const WITH_PUBLISHED: &[Module] = &[
    Module {
        name: "rng",
        compare: rng::compare,
        bench: rng::bench,
    },
    Module {
        name: "geom",
        compare: geom::compare,
        bench: geom::bench,
    },
    Module {
        name: "grid",
        compare: grid::compare,
        bench: grid::bench,
    },
    Module {
        name: "scene",
        compare: scene::compare,
        bench: scene::bench,
    },
    Module {
        name: "view",
        compare: view::compare,
        bench: view::bench,
    },
    Module {
        name: "text",
        compare: text::compare,
        bench: text::bench,
    },
    Module {
        name: "published",
        compare: published::compare,
        bench: |_| (),
    },
];
#[cfg(not(published))]
const WITH_PUBLISHED: &[Module] = &[];

const USAGE: &str = "usage: compare|bench [module..], or sample FILE FILE, or texts FOLDER, or cases FILE, or earlier NOW EARLIER [no-mode]";

fn main() -> ExitCode {
    let words: Vec<String> = std::env::args().skip(1).collect();
    let Some((command, names)) = words.split_first() else {
        return refuse(USAGE);
    };
    match command.as_str() {
        "sample" => return sample(names),
        "texts" => return texts(names),
        "cases" => return cases(names),
        "earlier" | "earlier-once" => return earlier(command, names),
        _ => (),
    }
    let all: Vec<&Module> = WITH_STD.iter().chain(WITH_PUBLISHED).collect();
    if let Some(name) = names.iter().find(|n| all.iter().all(|m| m.name != **n)) {
        return refuse(&format!("no module {name} here\n{USAGE}"));
    }
    let chosen = |m: &&Module| names.is_empty() || names.iter().any(|n| n == m.name);
    let modules: Vec<&Module> = all.into_iter().filter(chosen).collect();
    match command.as_str() {
        "compare" => {
            let part = names.is_empty() && WITH_PUBLISHED.is_empty();
            compare(&modules, part)
        }
        "bench" => bench(&modules),
        _ => refuse(USAGE),
    }
}

fn refuse(why: &str) -> ExitCode {
    eprintln!("{why}");
    ExitCode::from(2)
}

/// Fails also where all was asked for and only a part could be built.
fn compare(modules: &[&Module], part: bool) -> ExitCode {
    let mut failed = Vec::new();
    println!("Compared with {}.\n", other_side());
    for module in modules {
        println!("## {}\n", module.name);
        if !(module.compare)() {
            failed.push(module.name);
        }
    }
    if !failed.is_empty() {
        println!("FAILED: {}", failed.join(", "));
        return ExitCode::FAILURE;
    }
    if part {
        println!("NOT COMPARED: all that needs the published Rust, which was not at hand");
        return ExitCode::FAILURE;
    }
    println!("All comparisons passed.");
    ExitCode::SUCCESS
}

#[cfg(published)]
fn sample(words: &[String]) -> ExitCode {
    let [calls, sites] = words else {
        return refuse(USAGE);
    };
    let both = sample::write(calls).and_then(|a| Ok(scene::lines::write(sites)? && a));
    written("sample", both)
}

#[cfg(published)]
fn texts(words: &[String]) -> ExitCode {
    let [folder] = words else {
        return refuse(USAGE);
    };
    written("texts", text::write(folder).map_err(|e| e.to_string()))
}

#[cfg(published)]
fn cases(words: &[String]) -> ExitCode {
    let [file] = words else {
        return refuse(USAGE);
    };
    written("cases", text::cases::print(file).map_err(|e| e.to_string()))
}

#[cfg(published)]
fn earlier(command: &str, words: &[String]) -> ExitCode {
    let no_mode = words.last().is_some_and(|w| w == "no-mode");
    match (command, &words[..words.len() - usize::from(no_mode)]) {
        ("earlier", [now, before]) => written(command, earlier::times(now, before, no_mode)),
        ("earlier-once", [first, now, before]) => {
            written(command, earlier::once(first, now, before, no_mode))
        }
        _ => refuse(USAGE),
    }
}

#[cfg(published)]
fn written(command: &str, done: Result<bool, String>) -> ExitCode {
    match done {
        Ok(true) => ExitCode::SUCCESS,
        Ok(false) => ExitCode::FAILURE,
        Err(why) => {
            eprintln!("{command}: {why}");
            ExitCode::FAILURE
        }
    }
}

#[cfg(not(published))]
fn sample(_: &[String]) -> ExitCode {
    not_at_hand("sample")
}
#[cfg(not(published))]
fn texts(_: &[String]) -> ExitCode {
    not_at_hand("texts")
}
#[cfg(not(published))]
fn cases(_: &[String]) -> ExitCode {
    not_at_hand("cases")
}
#[cfg(not(published))]
fn earlier(command: &str, _: &[String]) -> ExitCode {
    not_at_hand(command)
}
#[cfg(not(published))]
fn not_at_hand(command: &str) -> ExitCode {
    eprintln!("{command}: the published Rust was not at hand");
    ExitCode::FAILURE
}

fn bench(modules: &[&Module]) -> ExitCode {
    let calls = count(INPUTS as u64);
    println!("Timed beside {}, {}.", other_side(), processor());
    println!("Nanoseconds per call, best of many runs of {calls} calls, fewer for the grid.");
    println!(
        "Throughput: calls that do not wait for each other. Latency: each waits for the last."
    );
    println!(
        "Ours is called through the C interface and not inlined. Rust's stands behind one such"
    );
    println!(
        "call too, but for the rows that say that it is inlined. Rows \"in one call\" ask many"
    );
    println!("questions by one call of ours. A limit is for either ratio.\n");
    let mut table = Bench::new();
    for module in modules {
        (module.bench)(&mut table);
    }
    table.print();
    ExitCode::SUCCESS
}

/// The compiler, and the C library that Rust takes its angle functions from.
fn other_side() -> String {
    unsafe extern "C" {
        safe fn gnu_get_libc_version() -> *const c_char;
    }
    // SAFETY: glibc hands back a constant string.
    let libc = unsafe { CStr::from_ptr(gnu_get_libc_version()) };
    let (rustc, arch) = (env!("ORACLE_RUSTC"), std::env::consts::ARCH);
    format!("{rustc} with glibc {} on {arch}", libc.to_string_lossy())
}

fn processor() -> String {
    let info = std::fs::read_to_string("/proc/cpuinfo").unwrap_or_default();
    let line = info.lines().find(|l| l.starts_with("model name"));
    let name = line.and_then(|l| l.split_once(": ")).map(|(_, name)| name);
    name.unwrap_or("processor not named").to_string()
}
