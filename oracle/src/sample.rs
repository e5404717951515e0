//! A fixed sample of the Rust's answers, for the program `replay`, which holds the proved functions
//! against it where no Rust is at hand. The format is in crates/replay/src/main.rt.
//!
//! What is written is read back, by a reader that shares nothing with the writer but the list of
//! calls, and held against the functions that are linked here.

mod small;

use crate::geom::{self, Group};
use crate::grid;
use crate::util::call::{Call, NAN};
use crate::util::rng::SplitMix64;
use std::collections::BTreeSet;

/// Lines of each function of `geom`: some of each group, those outside the domain too.
const LINES: usize = 100;

/// Arguments and results in words, as they stand on a line.
type Side = Box<dyn Fn(&[u64]) -> Vec<u64>>;

/// How many of the words after the number are arguments, unless there are too few.
type Length = Box<dyn Fn(&[u64]) -> Option<usize>>;

/// A function under its number, and its inputs.
pub struct Asked {
    number: u64,
    length: Length,
    ours: Side,
    rust: Side,
    inputs: Vec<Vec<u64>>,
}

impl Asked {
    pub fn new(
        number: u64,
        length: impl Fn(&[u64]) -> Option<usize> + 'static,
        ours: impl Fn(&[u64]) -> Vec<u64> + 'static,
        rust: impl Fn(&[u64]) -> Vec<u64> + 'static,
        inputs: Vec<Vec<u64>>,
    ) -> Self {
        Self {
            number,
            length: Box::new(length),
            ours: Box::new(ours),
            rust: Box::new(rust),
            inputs,
        }
    }

    /// On a line a list of points stands behind its count, which the call itself does not take.
    fn of_call(call: Call, inputs: Vec<Vec<u64>>) -> Self {
        let (fixed, points) = (call.arguments, call.points);
        let length = move |words: &[u64]| {
            if !points {
                return Some(fixed);
            }
            let count = usize::try_from(*words.get(fixed)?).ok()?;
            count.checked_add(fixed + 1)
        };
        let counted = |mut input: Vec<u64>| {
            if points {
                input.insert(fixed, (input.len() - fixed) as u64);
            }
            input
        };
        let plain = move |words: &[u64]| {
            let mut words = words.to_vec();
            if points {
                words.remove(fixed);
            }
            words
        };
        Self::new(
            call.number,
            length,
            move |words| (call.ours)(&plain(words)).words().to_vec(),
            move |words| (call.rust)(&plain(words)).words().to_vec(),
            inputs.into_iter().map(counted).collect(),
        )
    }
}

/// Writes the sample. Says whether ours answers as it has it.
pub fn write(path: &str) -> Result<bool, String> {
    let small = small::calls().into_iter();
    let calls: Vec<Asked> = small.chain(plane()).chain(grid::asked()).collect();
    let text: String = calls.iter().map(lines).collect();
    std::fs::write(path, &text).map_err(|e| format!("{path}: {e}"))?;
    let read = std::fs::read_to_string(path).map_err(|e| format!("{path}: {e}"))?;
    replayed(&read, &calls)
}

fn plane() -> impl Iterator<Item = Asked> {
    geom::rows().into_iter().map(|row| {
        let inputs = some_of_each(&row.call, &[row.inside, row.outside].concat());
        Asked::of_call(row.call, inputs)
    })
}

/// The groups in turn, until there are enough.
fn some_of_each(call: &Call, groups: &[Group]) -> Vec<Vec<u64>> {
    let r = &mut SplitMix64::new(9_000 + call.number);
    let turns = groups.iter().cycle().take(LINES);
    turns
        .map(|g| {
            let numbers = (g.make)(r, call.arguments);
            numbers.into_iter().map(argument).collect()
        })
        .collect()
}

/// A float as an argument: as it is, but for the one NaN.
pub fn argument(x: f64) -> u64 {
    if x.is_nan() { NAN } else { x.to_bits() }
}

fn lines(asked: &Asked) -> String {
    let one = |input: &Vec<u64>| line(&[&[asked.number], input, &(asked.rust)(input)]);
    asked.inputs.iter().map(one).collect()
}

/// A line of these words: a number, arguments, results.
pub fn line(parts: &[&[u64]]) -> String {
    let words: Vec<String> = parts.concat().iter().map(|w| format!("{w:x}")).collect();
    words.join(" ") + "\n"
}

/// Reads a sample as crate `replay` does, and prints what that prints.
fn replayed(text: &str, calls: &[Asked]) -> Result<bool, String> {
    let (mut functions, mut differ, mut last) = (Vec::new(), 0, 0);
    if !text.ends_with('\n') {
        return Err("the last line has no end".to_string());
    }
    for (i, line) in text.lines().enumerate() {
        let at = |why: &str| format!("line {}: {why}: {line}", i + 1);
        let words = words(line).ok_or_else(|| at("not words of hexadecimal digits"))?;
        let (number, rest) = words.split_first().ok_or_else(|| at("empty"))?;
        let found = calls.iter().find(|a| a.number == *number);
        let asked = found.ok_or_else(|| at("no such function"))?;
        let cut = (asked.length)(rest).and_then(|n| rest.split_at_checked(n));
        let (arguments, results) = cut.ok_or_else(|| at("too short"))?;
        if (asked.ours)(arguments) != results {
            differ += 1;
            println!("{}", at("ours differs"));
        }
        if *number != last {
            functions.push(*number);
            last = *number;
        }
    }
    let once: BTreeSet<&u64> = functions.iter().collect();
    if once.len() != functions.len() || once.len() != calls.len() {
        return Err("a function's lines do not stand together, or are missing".to_string());
    }
    let (n, f) = (text.lines().count(), functions.len());
    println!("{n} answers of {f} functions, {differ} differ");
    Ok(differ == 0)
}

/// The words of a line, unless it has others.
pub fn words(line: &str) -> Option<Vec<u64>> {
    let good = |b: u8| b.is_ascii_digit() || (b'a'..=b'f').contains(&b);
    let word = |w: &str| {
        let fits = (1..=16).contains(&w.len()) && w.bytes().all(good);
        fits.then(|| u64::from_str_radix(w, 16).ok()).flatten()
    };
    line.split(' ').map(word).collect()
}
