//! Texts as a survey office writes them (document 02, Q-2): a text of the comparison with its keywords in
//! any mix of cases, and with EMPTY lines among its polygons. Ours must answer both alike, unless those
//! lines alone put the text over a limit.

use super::expected::{self, MOST_POLYGONS};
use super::inputs::Text;
use super::reader::MOST_BYTES;
use super::{Both, Counts, SIX, counts_table, hash, ours};
use crate::util::rng::SplitMix64;
use crate::util::table::{Table, count};
use crate::util::tally::Tally;
use std::collections::HashSet;

// ---- cases of letters

type Cases = fn(&mut SplitMix64, &mut [u8]);

/// Only keywords have letters, so all letters are theirs.
const CASES: [Cases; 5] = [
    |_, _| (),
    |_, text| text.make_ascii_lowercase(),
    titled,
    |r, text| text.iter_mut().for_each(|b| any_case(r, b)),
    one_letter,
];

/// `Point M`, `Polygon Empty`.
fn titled(_: &mut SplitMix64, text: &mut [u8]) {
    for word in text.split_mut(|b| !b.is_ascii_alphabetic()) {
        word.iter_mut()
            .skip(1)
            .for_each(|b| b.make_ascii_lowercase());
    }
}

fn any_case(r: &mut SplitMix64, b: &mut u8) {
    if r.below(2) == 0 {
        b.make_ascii_lowercase();
    }
}

fn one_letter(r: &mut SplitMix64, text: &mut [u8]) {
    let letters = text.iter_mut().filter(|b| b.is_ascii_uppercase());
    let mut letters: Vec<&mut u8> = letters.collect();
    if !letters.is_empty() {
        let i = r.below(letters.len() as u64) as usize;
        letters[i].make_ascii_lowercase();
    }
}

/// All of it in one way, or each line in its own.
pub fn recased(r: &mut SplitMix64, text: &mut [u8]) {
    if r.below(4) > 0 {
        return r.pick(&CASES)(r, text);
    }
    for line in text.split_inclusive_mut(|&b| b == b'\n') {
        r.pick(&CASES)(r, line);
    }
}

// ---- EMPTY lines

pub const EMPTY: &[u8] = b"POLYGON EMPTY\n";

/// How many EMPTY lines a text gets, if it can have so many.
type Many = fn(&mut SplitMix64, &[u8]) -> Option<usize>;

const MANY: [(&str, Many); 10] = [
    ("no EMPTY line", |_, _| Some(0)),
    ("one EMPTY line", |_, _| Some(1)),
    ("2 to 9 of them", |r, _| Some(2 + r.below(8) as usize)),
    ("one more than polygons", |_, text| Some(polygons(text) + 1)),
    ("63 polygons with them", |_, text| up_to(text, 63)),
    ("64 polygons with them", |_, text| up_to(text, 64)),
    ("65 polygons with them", |_, text| up_to(text, 65)),
    ("66 polygons with them", |_, text| up_to(text, 66)),
    ("as many as 16,384 bytes hold", |r, text| brim(r, text)),
    ("one more than 16,384 bytes hold", |r, text| {
        brim(r, text).map(|many| many + 1)
    }),
];

/// Of a text as laid out: each line but the first.
fn polygons(text: &[u8]) -> usize {
    text.iter().filter(|&&b| b == b'\n').count() - 1
}

fn up_to(text: &[u8], all: usize) -> Option<usize> {
    all.checked_sub(polygons(text)).filter(|&many| many > 0)
}

/// Seldom: such a text is long, and always refused.
fn brim(r: &mut SplitMix64, text: &[u8]) -> Option<usize> {
    let left = MOST_BYTES.checked_sub(text.len())?;
    (r.below(8) == 0).then_some(left / EMPTY.len())
}

/// So many EMPTY lines: all first, all last, all in one place, in turn between the others, or anywhere.
fn with_empty(r: &mut SplitMix64, text: &[u8], many: usize) -> Text {
    let last = polygons(text);
    let any = |r: &mut SplitMix64| r.below(last as u64 + 1) as usize;
    let (place, one) = (r.below(5), any(r));
    let mut before = vec![0; last + 1];
    for i in 0..many {
        let at = match place {
            0 => 0,
            1 => last,
            2 => one,
            3 => i % (last + 1),
            _ => any(r),
        };
        before[at] += 1;
    }
    let mut lines = text.split_inclusive(|&b| b == b'\n');
    let mut out = lines.next().unwrap_or_default().to_vec();
    for many in before {
        out.extend(EMPTY.repeat(many));
        out.extend(lines.next().unwrap_or_default());
    }
    out
}

/// Another text than the one in capitals, and which of `MANY` it is.
pub fn written(r: &mut SplitMix64, capitals: &[u8]) -> (usize, Text) {
    loop {
        let which = r.below(MANY.len() as u64) as usize;
        let Some(many) = MANY[which].1(r, capitals) else {
            continue;
        };
        let mut text = with_empty(r, capitals, many);
        recased(r, &mut text);
        if text != capitals {
            return (which, text);
        }
    }
}

// ---- what is in a text

pub fn small_letters(text: &[u8]) -> u64 {
    text.iter().filter(|b| b.is_ascii_lowercase()).count() as u64
}

pub fn empty_lines(text: &[u8]) -> u64 {
    let lines = text.split_inclusive(|&b| b == b'\n');
    lines
        .filter(|line| line.eq_ignore_ascii_case(EMPTY))
        .count() as u64
}

/// The refusal of too many bytes or polygons, or 0.
fn over(text: &[u8]) -> u32 {
    if text.len() > MOST_BYTES {
        9
    } else if polygons(text) > MOST_POLYGONS {
        2
    } else {
        0
    }
}

// ---- both sides

/// Texts made of each text of the comparison.
const EACH: usize = 2;

pub struct Survey {
    pub worked_out: Both,
    pub capitals: Tally,
    pub over: Tally,
    counts: [Counts; MANY.len()],
    different: u64,
    with_small: u64,
    small: u64,
    with_empty: u64,
    empty: u64,
    empty_answered: u64,
    /// Texts without another polygon.
    empty_alone: u64,
}

impl Survey {
    pub fn new() -> Self {
        let what = "answer to mixed case and EMPTY lines";
        Self {
            worked_out: Both::new([what, "answer_three to mixed case and EMPTY lines"]),
            capitals: Tally::new([what, "the answer to capitals without them"]),
            over: Tally::new([
                "the same, over a limit by EMPTY lines alone",
                "9 over 16,384 bytes, else 2",
            ]),
            counts: Default::default(),
            different: 0,
            with_small: 0,
            small: 0,
            with_empty: 0,
            empty: 0,
            empty_answered: 0,
            empty_alone: 0,
        }
    }

    /// Texts made of one in capitals.
    pub fn hold(&mut self, r: &mut SplitMix64, capitals: &[u8], asked: &mut HashSet<u64>) {
        let like = ours(capitals);
        for _ in 0..EACH {
            let (which, text) = written(r, capitals);
            let expected = expected::answer(&text);
            self.counts[which].add(&expected);
            self.different += u64::from(asked.insert(hash(&text)));
            self.count(&text, expected.number == 0);
            self.worked_out.hold(r, &text, &expected);
            let number = over(&text);
            if number == over(capitals) {
                SIX.hold(&mut self.capitals, &text, &like, like.len());
            } else {
                let refusal = expected::refusal(number);
                SIX.hold(&mut self.over, &text, &refusal, refusal.len());
            }
        }
    }

    fn count(&mut self, text: &[u8], answered: bool) {
        let (small, empty) = (small_letters(text), empty_lines(text));
        self.with_small += u64::from(small > 0);
        self.small += small;
        self.with_empty += u64::from(empty > 0);
        self.empty += empty;
        self.empty_answered += if answered { empty } else { 0 };
        self.empty_alone += u64::from(empty > 0 && empty == polygons(text) as u64);
    }

    pub fn print(&self) {
        let mut table = counts_table("inputs: texts of mixed case, with EMPTY lines");
        let mut all = Counts::default();
        for ((what, _), counts) in MANY.iter().zip(&self.counts) {
            table.row(counts.row(what));
            all.join(counts);
        }
        table.row(all.row("all"));
        table.print();
        let mut table = Table::new(&["what these texts hold", "count"]);
        for (what, n) in [
            ("different texts", self.different),
            ("texts with a small letter", self.with_small),
            ("small letters", self.small),
            ("texts with an EMPTY line", self.with_empty),
            ("texts with EMPTY lines alone", self.empty_alone),
            ("EMPTY lines", self.empty),
            (
                "EMPTY lines of texts that are answered",
                self.empty_answered,
            ),
        ] {
            table.row(vec![what.to_string(), count(n)]);
        }
        table.print();
    }
}
