//! Texts in which one number alone is given so many decimals, from none to seven (document 02, Q-7): up to
//! six are read, seven are 9. The number stands anywhere, and all others are as they were; only where a
//! first or closing point changes its value, the other one of the two changes with it.

use super::damage::{a_ring, one_of, pool, put};
use super::inputs::{Text, numbers};
use super::{Both, Given, Told, expected, hash, ours};
use crate::util::rng::SplitMix64;
use crate::util::table::{Table, count};
use crate::util::tally::Tally;
use std::collections::HashSet;
use std::ops::Range;

/// Seven decimals are one too many.
const MOST: usize = 7;

/// Where the number stands.
const PLACES: [&str; 6] = [
    "the post's x",
    "its y",
    "its range",
    "a first point",
    "a point between",
    "a closing point",
];

/// Texts of each count of decimals at each place.
const EACH: usize = 600;

/// A number's place in the text, and that of the number that must equal it.
type Place = (Range<usize>, Option<Range<usize>>);

/// The place of that number in `PLACES`, if the text has one.
fn place(r: &mut SplitMix64, text: &Text, which: usize) -> Option<Place> {
    // The first three numbers are the post's line.
    if which < 3 {
        return Some((numbers(text, 0..text.len()).swap_remove(which), None));
    }
    let ring = numbers(text, a_ring(r, text)?);
    let closing = ring.len() - 2;
    let i = r.below(2) as usize;
    let (first, last) = (ring[i].clone(), ring[closing + i].clone());
    match which {
        3 => Some((first, Some(last))),
        5 => Some((last, Some(first))),
        _ => Some((one_of(r, ring[2..closing].to_vec())?, None)),
    }
}

fn with_decimals(whole: &str, decimals: &str) -> String {
    let point = if decimals.is_empty() { "" } else { "." };
    format!("{whole}{point}{decimals}")
}

/// Gives one number exactly so many decimals: others, or, if it has not more, at random its own and zeros.
/// Whether it was its own, so that its value is the same.
fn give(r: &mut SplitMix64, text: &mut Text, (at, equal): Place, many: usize) -> bool {
    let word = String::from_utf8(text[at.clone()].to_vec()).expect("a number");
    let (whole, part) = word.split_once('.').unwrap_or((&word, ""));
    let own = part.trim_end_matches('0');
    if own.len() <= many && r.below(2) == 0 {
        let longer = with_decimals(whole, &format!("{own:0<many$}"));
        put(text, at, longer.as_bytes());
        return true;
    }
    let mut other: String = (0..many)
        .map(|_| char::from(b'0' + r.below(10) as u8))
        .collect();
    let Some(equal) = equal else {
        put(text, at, with_decimals(whole, &other).as_bytes());
        return false;
    };
    // Six are enough for the equal number, so that a seventh alone is the fault.
    if many == MOST {
        other.replace_range(MOST - 1.., "0");
    }
    let short = other.trim_end_matches('0');
    let behind = r.pick(&[short.len(), 6]);
    let same = with_decimals(whole, &format!("{short:0<behind$}"));
    let mut both = [(at, with_decimals(whole, &other)), (equal, same)];
    // The later one first, so that the other's place stays true.
    both.sort_by_key(|(place, _)| std::cmp::Reverse(place.start));
    for (place, word) in both {
        put(text, place, word.as_bytes());
    }
    false
}

/// What the texts of one count of decimals come to.
#[derive(Default)]
struct Counts {
    at: [u64; PLACES.len()],
    padded: u64,
    refused: u64,
    answered: u64,
}

pub struct Decimals {
    pub worked_out: Both,
    pub nine: Tally,
    pub alike: Tally,
    counts: [Counts; MOST + 1],
    /// Numbers of the texts as laid out.
    laid_out: [u64; MOST + 1],
}

impl Decimals {
    pub fn new() -> Self {
        Self {
            worked_out: Both::new([
                "answer to one number of 0 to 7 decimals",
                "answer_three to one number of 0 to 7 decimals",
            ]),
            nine: Tally::new(["9 to one number of 0 to 7 decimals", "7 of them"]),
            alike: Tally::new([
                "answer to one number with zeros behind, up to six decimals",
                "our answer without them",
            ]),
            counts: Default::default(),
            laid_out: Default::default(),
        }
    }

    /// Counts the decimals of a text's numbers.
    pub fn count(&mut self, text: &[u8]) {
        for place in numbers(text, 0..text.len()) {
            let point = text[place.clone()].iter().position(|&b| b == b'.');
            self.laid_out[point.map_or(0, |i| place.len() - i - 1)] += 1;
        }
    }

    pub fn hold(&mut self, asked: &mut HashSet<u64>) {
        for many in 0..=MOST {
            let r = &mut SplitMix64::new(8_400 + many as u64);
            for which in 0..PLACES.len() {
                let mut texts = Vec::new();
                for i in 0..EACH {
                    // Anew soon: without decimals a post or range can be written in one way only.
                    if i % 200 == 0 {
                        texts = pool(r);
                        texts.retain(|text| expected::answer(text).number == 0);
                    }
                    while !self.one(r, &texts, many, which, asked) {}
                }
            }
        }
    }

    /// Whether a text was found and asked that was not asked before. A value that changes may come to a
    /// refusal of its own, such as 8, and is left: here 9 alone is in question.
    fn one(
        &mut self,
        r: &mut SplitMix64,
        texts: &[Text],
        many: usize,
        which: usize,
        asked: &mut HashSet<u64>,
    ) -> bool {
        let before = &texts[r.below(texts.len() as u64) as usize];
        let Some(place) = place(r, before, which) else {
            return false;
        };
        let mut text = before.clone();
        let padded = give(r, &mut text, place, many);
        let expected = expected::answer(&text);
        let left = ![0, 9].contains(&expected.number);
        if left || text == *before || !asked.insert(hash(&text)) {
            return false;
        }
        self.worked_out.hold(r, &text, &expected);
        let out = ours(&text);
        let nine = out == expected::refusal(9);
        self.nine.add(Given(&text), nine, many == MOST);
        if padded && many < MOST {
            let like = ours(before);
            let (out, like) = (Told(out.len(), &out), Told(like.len(), &like));
            self.alike.add(Given(&text), out, like);
        }
        let counts = &mut self.counts[many];
        counts.at[which] += 1;
        counts.padded += u64::from(padded);
        counts.refused += u64::from(expected.number == 9);
        counts.answered += u64::from(expected.number == 0);
        true
    }

    pub fn print(&self) {
        let mut head = vec!["decimals", "numbers of the texts above"];
        head.push("texts with one number of so many");
        head.extend(PLACES);
        head.extend(["with its own and zeros", "refused 9", "answered"]);
        let mut table = Table::new(&head);
        for (many, counts) in self.counts.iter().enumerate() {
            let mut row = vec![many.to_string(), count(self.laid_out[many])];
            row.push(count(counts.at.iter().sum()));
            row.extend(counts.at.map(count));
            row.extend([counts.padded, counts.refused, counts.answered].map(count));
            table.row(row);
        }
        table.print();
    }
}
