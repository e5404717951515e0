//! Comparison bit for bit: how often ours and the Rust's answer differ.

use super::bits;
use super::table::{Table, count, verdict};

/// What can be compared and shown.
pub trait Value: Copy {
    fn same(self, other: Self) -> bool;
    fn show(self) -> String;
}

impl Value for f64 {
    fn same(self, other: Self) -> bool {
        bits::same(self, other)
    }
    fn show(self) -> String {
        format!("{} (0x{:016X})", bits::show(self), self.to_bits())
    }
}

macro_rules! whole_values {
    ($($t:ty),*) => {$(
        impl Value for $t {
            fn same(self, other: Self) -> bool {
                self == other
            }
            fn show(self) -> String {
                self.to_string()
            }
        }
    )*};
}
whole_values!(u32, u64, i64, bool);

impl<A: Value, B: Value> Value for (A, B) {
    fn same(self, other: Self) -> bool {
        self.0.same(other.0) && self.1.same(other.1)
    }
    fn show(self) -> String {
        format!("{}, {}", self.0.show(), self.1.show())
    }
}

impl<A: Value, B: Value, C: Value> Value for (A, B, C) {
    fn same(self, other: Self) -> bool {
        self.0.same(other.0) && self.1.same(other.1) && self.2.same(other.2)
    }
    fn show(self) -> String {
        format!("{}, {}, {}", self.0.show(), self.1.show(), self.2.show())
    }
}

/// Examples kept of each function that differs: those that take the least room to write.
const EXAMPLES: usize = 5;

pub struct Tally {
    ours: &'static str,
    rust: &'static str,
    points: u64,
    differ: u64,
    examples: Vec<String>,
}

impl Tally {
    /// Runs both sides on every input.
    pub fn of<I: Value, O: Value>(
        names: [&'static str; 2],
        inputs: impl IntoIterator<Item = I>,
        ours: impl Fn(I) -> O,
        rust: impl Fn(I) -> O,
    ) -> Self {
        let mut tally = Self::new(names);
        for input in inputs {
            tally.add(input, ours(input), rust(input));
        }
        tally
    }

    pub fn new([ours, rust]: [&'static str; 2]) -> Self {
        Self {
            ours,
            rust,
            points: 0,
            differ: 0,
            examples: Vec::new(),
        }
    }

    pub fn differing(&self) -> u64 {
        self.differ
    }

    pub fn add<I: Value, O: Value>(&mut self, input: I, ours: O, rust: O) {
        self.points += 1;
        if ours.same(rust) {
            return;
        }
        self.differ += 1;
        let (i, o, r) = (input.show(), ours.show(), rust.show());
        let example = format!("- `{}` of {i}: ours {o}, Rust {r}", self.ours);
        let longer = |e: &String| e.len() > example.len();
        let at = self.examples.iter().position(longer);
        let at = at.unwrap_or(self.examples.len());
        self.examples.insert(at, example);
        self.examples.truncate(EXAMPLES);
    }
}

/// Prints the table and says whether nothing differs.
pub fn print(tallies: &[Tally]) -> bool {
    let mut table = Table::new(&["function", "against", "points", "differ", "verdict"]);
    for t in tallies {
        table.row(vec![
            format!("`{}`", t.ours),
            format!("`{}`", t.rust),
            count(t.points),
            count(t.differ),
            verdict(t.differ == 0),
        ]);
    }
    table.print();
    for t in tallies.iter().filter(|t| t.differ > 0) {
        println!("{}\n", t.examples.join("\n"));
    }
    tallies.iter().all(|t| t.differ == 0)
}
