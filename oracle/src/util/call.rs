//! A call by its number: arguments and answer are words, as a line of the replay has them. A list of
//! such calls is both compared and sampled.

use super::bits;
use super::tally::Value;

/// One NaN stands for all.
pub const NAN: u64 = 0x7FF8_0000_0000_0000;

/// A float of an answer: the sign of zero does not count, and all NaNs are one.
pub fn pattern(x: f64) -> u64 {
    if x.is_nan() { NAN } else { (x + 0.0).to_bits() }
}

/// The most words that an answer has.
const ROOM: usize = 5;

/// A whole number or none, then floats: equal answers have equal words.
#[derive(Clone, Copy, PartialEq)]
pub struct Answer {
    words: [u64; ROOM],
    len: usize,
    /// How many of the words, all in front, are whole numbers.
    wholes: usize,
}

impl Answer {
    fn new(wholes: &[u64], floats: &[f64]) -> Self {
        let mut words = [0; ROOM];
        let all = wholes
            .iter()
            .copied()
            .chain(floats.iter().copied().map(pattern));
        words.iter_mut().zip(all).for_each(|(w, a)| *w = a);
        Self {
            words,
            len: wholes.len() + floats.len(),
            wholes: wholes.len(),
        }
    }

    pub fn whole(x: impl Into<u64>) -> Self {
        Self::new(&[x.into()], &[])
    }

    pub fn wholes(x: u64, y: u64) -> Self {
        Self::new(&[x, y], &[])
    }

    pub fn float(x: f64) -> Self {
        Self::new(&[], &[x])
    }

    pub fn floats(xs: &[f64]) -> Self {
        Self::new(&[], xs)
    }

    /// A yes or no, or which of two there is, and floats.
    pub fn told(which: u32, floats: &[f64]) -> Self {
        Self::new(&[u64::from(which)], floats)
    }

    pub fn words(&self) -> &[u64] {
        &self.words[..self.len]
    }
}

impl Value for Answer {
    fn same(self, other: Self) -> bool {
        self == other
    }
    fn show(self) -> String {
        let (wholes, floats) = self.words().split_at(self.wholes);
        let wholes = wholes.iter().map(u64::to_string);
        let floats = floats.iter().map(|w| f64::from_bits(*w).show());
        wholes.chain(floats).collect::<Vec<_>>().join(", ")
    }
}

/// Arguments, all floats.
impl Value for &[u64] {
    fn same(self, other: Self) -> bool {
        self == other
    }
    fn show(self) -> String {
        let floats = self.iter().map(|w| bits::show(f64::from_bits(*w)));
        format!("({})", floats.collect::<Vec<_>>().join(", "))
    }
}

/// A function under its number in crate `replay` (crates/replay/src/call.rt).
pub struct Call {
    pub number: u64,
    pub name: &'static str,
    pub against: &'static str,
    /// Arguments of one word each. Where `points` is true, a list of points follows them.
    pub arguments: usize,
    pub points: bool,
    pub ours: fn(&[u64]) -> Answer,
    pub rust: fn(&[u64]) -> Answer,
}

/// The first arguments, all floats.
pub fn floats<const N: usize>(words: &[u64]) -> [f64; N] {
    std::array::from_fn(|i| f64::from_bits(words[i]))
}
