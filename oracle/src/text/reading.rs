//! Numbers of every count of digits allowed, many in a text, as our reader stores them: the bits of Rust's
//! own `parse`.

use super::Given;
use super::expected::{MOST_POINTS, MOST_POLYGONS};
use super::inputs::Text;
use super::reader::MOST_BYTES;
use crate::probe::read_input;
use crate::util::bits::show;
use crate::util::rng::SplitMix64;
use crate::util::table::{Table, count};
use crate::util::tally::{Tally, Value};
use crate::util::timing::{Bench, Limit, Pair};
use std::hint::black_box;

const AT_LEAST: u64 = 1_000_000;

/// One to so many digits before the point, and none to so many behind it.
const MOST_WHOLE: usize = 7;
const MOST_DECIMALS: usize = 6;

// ---- numbers

/// A number without its minus and its point, and how many of its digits stand behind the point.
#[derive(Clone, Copy)]
struct Number {
    digits: u64,
    decimals: usize,
}

impl Number {
    fn fives(self) -> u64 {
        5u64.pow(self.decimals as u32)
    }

    /// In steps from one float to the next, the number is its digits times so many twos, over its fives.
    /// What is left over then decides how it is rounded.
    fn twos(self) -> u32 {
        let value = self.digits as f64 / 10f64.powi(self.decimals as i32);
        let exponent = (value.to_bits() >> 52) as u32;
        1_023 + 52 - exponent - self.decimals as u32
    }

    /// As near to the middle of two floats as so many decimals come.
    fn is_near_middle(self) -> bool {
        if self.digits == 0 || self.decimals == 0 {
            return false;
        }
        let fives = self.fives();
        let left = (0..self.twos()).fold(self.digits % fives, |n, _| 2 * n % fives);
        (2 * left).abs_diff(fives) == 1
    }

    /// Such a number, not far from this one.
    fn near_middle(self, r: &mut SplitMix64, end: u64) -> Self {
        let fives = self.fives();
        let halved = |n: u64| {
            if n.is_multiple_of(2) {
                n / 2
            } else {
                (n + fives) / 2
            }
        };
        let left = fives / 2 + r.below(2);
        let rest = (0..self.twos()).fold(left, |n, _| halved(n));
        let digits = self.digits - self.digits % fives + rest;
        Self {
            digits: if digits < end { digits } else { digits - fives },
            ..self
        }
    }

    /// Of so many digits: of any size, near zero, at the ends, or near the middle of two floats.
    fn any(r: &mut SplitMix64, whole: usize, decimals: usize) -> Self {
        let ten_to = |n: usize| 10u64.pow(n as u32);
        let end = ten_to(whole + decimals);
        let few = ten_to(r.below((whole + decimals) as u64) as usize);
        let kind = r.below(8);
        let digits = match kind {
            0 => r.pick(&[0, 1, end - 1]),
            1 => r.below(few),
            _ => r.below(end),
        };
        let number = Self { digits, decimals };
        if kind < 5 || digits == 0 || decimals == 0 {
            return number;
        }
        number.near_middle(r, end)
    }

    fn word(self, whole: usize) -> String {
        let long = whole + self.decimals;
        let mut word = format!("{:0long$}", self.digits);
        if self.decimals > 0 {
            word.insert(whole, '.');
        }
        word
    }
}

// ---- what is read

#[derive(Default)]
struct Counts {
    numbers: u64,
    /// By digits before the point, and behind it.
    digits: [[u64; MOST_DECIMALS + 1]; MOST_WHOLE],
    minus: u64,
    minus_zeros: u64,
    near_middle: u64,
}

impl Counts {
    /// The next number, each count of digits in its turn.
    fn next(&mut self, r: &mut SplitMix64) -> String {
        let turn = self.numbers as usize;
        let whole = 1 + turn % MOST_WHOLE;
        let decimals = turn / MOST_WHOLE % (MOST_DECIMALS + 1);
        let number = Number::any(r, whole, decimals);
        let minus = r.below(2) == 0;
        self.numbers += 1;
        self.digits[whole - 1][decimals] += 1;
        self.minus += u64::from(minus);
        self.minus_zeros += u64::from(minus && number.digits == 0);
        self.near_middle += u64::from(number.is_near_middle());
        let word = number.word(whole);
        if minus { format!("-{word}") } else { word }
    }

    fn print(&self) {
        let behind: Vec<String> = (0..=MOST_DECIMALS).map(|n| n.to_string()).collect();
        let mut head = vec!["numbers read: digits before the point, and behind it"];
        head.extend(behind.iter().map(String::as_str));
        let mut table = Table::new(&head);
        for (i, counts) in self.digits.iter().enumerate() {
            let mut row = vec![(i + 1).to_string()];
            row.extend(counts.iter().map(|&n| count(n)));
            table.row(row);
        }
        table.print();
        let mut table = Table::new(&["of these numbers", "count"]);
        for (what, n) in [
            ("all", self.numbers),
            ("with a minus", self.minus),
            ("zero with a minus", self.minus_zeros),
            (
                "as near to the middle of two floats as their decimals come",
                self.near_middle,
            ),
        ] {
            table.row(vec![what.to_string(), count(n)]);
        }
        table.print();
    }
}

/// A number as it is written.
#[derive(Clone, Copy)]
struct Word<'a>(&'a str);

impl Value for Word<'_> {
    fn same(self, _: Self) -> bool {
        unreachable!("inputs are only shown")
    }
    fn show(self) -> String {
        self.0.to_string()
    }
}

/// A float whose sign counts at zero too.
#[derive(Clone, Copy)]
struct Bits(f64);

impl Value for Bits {
    fn same(self, other: Self) -> bool {
        self.0.to_bits() == other.0.to_bits()
    }
    fn show(self) -> String {
        format!("{} (0x{:016X})", show(self.0), self.0.to_bits())
    }
}

/// Rings of so many points, as many as a text may have, without and with their closing points.
fn text(sides: usize, words: &[String]) -> Text {
    let mut text = "POINT M (0 0 1)\n".to_string();
    for ring in words.chunks(2 * sides) {
        let points: Vec<String> = ring.chunks(2).map(|p| p.join(" ")).collect();
        let points = points.join(", ");
        text += &format!("POLYGON (({points}, {} {}))\n", ring[0], ring[1]);
    }
    assert!(text.len() <= MOST_BYTES);
    text.into_bytes()
}

pub fn compare() -> [Tally; 2] {
    let mut numbers = Tally::new(["number read", "parse of Rust"]);
    let mut texts = Tally::new([
        "text of many numbers: refusal, lengths, zeros behind",
        "0, those of its rings, zeros",
    ]);
    let mut counts = Counts::default();
    let r = &mut SplitMix64::new(8_960);
    while counts.numbers < AT_LEAST {
        let sides = r.pick(&[3, 8, 60, MOST_POINTS]);
        let rings = (MOST_POINTS / sides).min(MOST_POLYGONS);
        let all = 2 * sides * rings;
        let words: Vec<String> = (0..all).map(|_| counts.next(r)).collect();
        let text = text(sides, &words);
        let (mut points, mut lens) = ([f64::NAN; 2 * MOST_POINTS], [u32::MAX; MOST_POLYGONS]);
        let refusal = read_input(&text, &mut points, &mut lens);
        let (read, behind) = points.split_at(all);
        for (word, &x) in words.iter().zip(read) {
            let value: f64 = word.parse().expect("a decimal number");
            numbers.add(Word(word), Bits(x), Bits(value + 0.0));
        }
        let mut lengths = [0; MOST_POLYGONS];
        lengths[..rings].fill(sides as u32);
        let zeros = behind.iter().all(|x| x.to_bits() == 0);
        let told = (refusal, lens == lengths, zeros);
        texts.add(Given(&text), told, (0, true, true));
    }
    counts.print();
    [numbers, texts]
}

// ---- timings

/// A text of six decimals with as many numbers as it may have, read whole, and Rust's `parse` of its words:
/// no layout is tested there, no ring and no limit.
pub fn bench(table: &mut Bench) {
    let r = &mut SplitMix64::new(8_971);
    let words: Vec<String> = (0..2 * MOST_POINTS)
        .map(|_| format!("{:.6}", r.between(-1e3, 1e3)))
        .collect();
    let text = text(8, &words);
    let (text, words) = (black_box(&text), black_box(&words));
    let ours = |_: Pair| {
        let (mut points, mut lens) = ([0.0; 2 * MOST_POINTS], [0; MOST_POLYGONS]);
        let refusal = read_input(text, &mut points, &mut lens);
        assert_eq!(refusal, 0);
        points[2 * MOST_POINTS - 1].to_bits()
    };
    let rust = |_: Pair| {
        let mut points = [0.0f64; 2 * MOST_POINTS];
        for (x, word) in points.iter_mut().zip(words) {
            *x = word.parse().expect("a decimal number");
        }
        black_box(&points)[2 * MOST_POINTS - 1].to_bits()
    };
    let calls = [(0.0, 0.0); 8];
    let what = "a text of 1,024 numbers with six decimals read, Rust's `parse` of them alone";
    table.add_few(what, Limit::None, &calls, ours, rust);
}
