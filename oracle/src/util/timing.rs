//! Timing of single calls: throughput (calls that do not wait for each other) and latency (each
//! call's argument hangs on the answer before it). One driver runs both sides on the same inputs.

use super::table::Table;
use std::hint::black_box;
use std::time::{Duration, Instant};

/// Runs of each side: so many, and further ones until the time is over. The best one counts: other
/// work on the machine only ever adds time.
#[derive(Clone, Copy)]
struct Runs {
    fewest: usize,
    time: Duration,
}

const RUNS: Runs = Runs {
    fewest: 101,
    time: Duration::ZERO,
};

/// The same where one run takes long.
const FEW_RUNS: Runs = Runs {
    fewest: 11,
    time: Duration::from_secs(3),
};

/// How long small and large calls take turns, and how long a turn is, or one run if that is longer.
const GROWTH: Duration = Duration::from_secs(15);
const TURN: Duration = Duration::from_millis(100);

/// Inputs per run: too many for the branch predictor to learn by heart.
pub const INPUTS: usize = 1 << 16;

pub type Pair = (f64, f64);

/// What a call is timed on.
pub trait Input: Copy {
    /// The same for `zero` 0, which the compiler does not know.
    fn waiting(self, zero: u64) -> Self;
}

/// A float that hangs on `zero`.
pub fn waiting(x: f64, zero: u64) -> f64 {
    f64::from_bits(x.to_bits() ^ zero)
}

impl Input for Pair {
    fn waiting(self, zero: u64) -> Self {
        (waiting(self.0, zero), self.1)
    }
}

impl<const N: usize> Input for [f64; N] {
    fn waiting(mut self, zero: u64) -> Self {
        self[0] = waiting(self[0], zero);
        self
    }
}

fn throughput<I: Input>(inputs: &[I], call: &impl Fn(I) -> u64) -> u64 {
    inputs.iter().fold(0, |all, &input| all ^ call(input))
}

fn latency<I: Input>(inputs: &[I], call: &impl Fn(I) -> u64) -> u64 {
    // The compiler does not know that this is 0, so it must wait for the last answer.
    let zero = black_box(0);
    inputs
        .iter()
        .fold(0, |last, input| call(input.waiting(last & zero)))
}

/// The time of a run, for each of so many calls.
fn nanoseconds(calls: usize, run: impl FnOnce() -> u64) -> f64 {
    let start = Instant::now();
    black_box(run());
    start.elapsed().as_secs_f64() * 1e9 / calls as f64
}

/// Best times in nanoseconds per call.
#[derive(Clone, Copy)]
struct Best {
    throughput: f64,
    latency: f64,
}

impl Best {
    const NONE: Self = Self {
        throughput: f64::INFINITY,
        latency: f64::INFINITY,
    };

    fn run<I: Input>(&mut self, inputs: &[I], call: &impl Fn(I) -> u64) {
        let inputs = black_box(inputs);
        let t = nanoseconds(inputs.len(), || throughput(inputs, call));
        let l = nanoseconds(inputs.len(), || latency(inputs, call));
        self.throughput = self.throughput.min(t);
        self.latency = self.latency.min(l);
    }
}

/// Both sides of a call, and what they are timed on.
pub trait Sides<I> {
    fn inputs(&self) -> &[I];
    fn ours(&self, input: I) -> u64;
    fn rust(&self, input: I) -> u64;
}

/// A table of timings.
pub struct Bench(Table);

impl Bench {
    pub fn new() -> Self {
        Self(Table::new(&[
            "call",
            "throughput: ours",
            "Rust",
            "ratio",
            "latency: ours",
            "Rust",
            "ratio",
            "limit",
            "verdict",
        ]))
    }

    /// Times one function. The two sides take turns, so that both see the same machine.
    pub fn add<I: Input>(
        &mut self,
        what: &str,
        limit: Limit,
        inputs: &[I],
        ours: impl Fn(I) -> u64,
        rust: impl Fn(I) -> u64,
    ) {
        self.add_runs(RUNS, what, limit, inputs, ours, rust);
    }

    /// The same for calls that take long.
    pub fn add_few<I: Input>(
        &mut self,
        what: &str,
        limit: Limit,
        inputs: &[I],
        ours: impl Fn(I) -> u64,
        rust: impl Fn(I) -> u64,
    ) {
        self.add_runs(FEW_RUNS, what, limit, inputs, ours, rust);
    }

    fn add_runs<I: Input>(
        &mut self,
        runs: Runs,
        what: &str,
        limit: Limit,
        inputs: &[I],
        ours: impl Fn(I) -> u64,
        rust: impl Fn(I) -> u64,
    ) {
        let (mut a, mut b) = (Best::NONE, Best::NONE);
        let (begin, mut run) = (Instant::now(), 0);
        while run < runs.fewest || begin.elapsed() < runs.time {
            a.run(inputs, &ours);
            b.run(inputs, &rust);
            run += 1;
        }
        self.row(what, limit, a, b);
    }

    fn row(&mut self, what: &str, limit: Limit, a: Best, b: Best) {
        let ratios = (a.throughput / b.throughput, a.latency / b.latency);
        self.0.row(vec![
            what.to_string(),
            format!("{:.2}", a.throughput),
            format!("{:.2}", b.throughput),
            format!("{:.2}", ratios.0),
            format!("{:.2}", a.latency),
            format!("{:.2}", b.latency),
            format!("{:.2}", ratios.1),
            limit.show(),
            limit.verdict(&[ratios.0, ratios.1]),
        ]);
    }

    /// How many times as long the large calls take as the small ones, on either side. The small and the
    /// large take turns, so that a slow while of the machine falls on both; within a turn the two sides do.
    pub fn add_growth<I: Input, S: Sides<I>>(&mut self, what: &str, small: &S, large: &S) {
        let mut best = [Best::NONE; 4];
        let begin = Instant::now();
        while begin.elapsed() < GROWTH {
            for (size, sides) in [small, large].into_iter().enumerate() {
                let turn = Instant::now();
                while turn.elapsed() < TURN {
                    best[2 * size].run(sides.inputs(), &|i| sides.ours(i));
                    best[2 * size + 1].run(sides.inputs(), &|i| sides.rust(i));
                }
            }
        }
        let grown = |large: Best, small: Best| Best {
            throughput: large.throughput / small.throughput,
            latency: large.latency / small.latency,
        };
        self.row(
            what,
            Limit::Times(1.0),
            grown(best[2], best[0]),
            grown(best[3], best[1]),
        );
    }

    /// Times runs that answer so many questions each, per question. The answers do not wait for each
    /// other, so there is no latency. Both sides must answer the same.
    pub fn add_many(
        &mut self,
        what: &str,
        limit: Limit,
        questions: usize,
        ours: impl Fn() -> u64,
        rust: impl Fn() -> u64,
    ) {
        assert_eq!(ours(), rust(), "{what}: the same answer");
        let (mut a, mut b) = (f64::INFINITY, f64::INFINITY);
        for _ in 0..RUNS.fewest {
            a = a.min(nanoseconds(questions, &ours));
            b = b.min(nanoseconds(questions, &rust));
        }
        let none = || "-".to_string();
        self.0.row(vec![
            what.to_string(),
            format!("{a:.2}"),
            format!("{b:.2}"),
            format!("{:.2}", a / b),
            none(),
            none(),
            none(),
            limit.show(),
            limit.verdict(&[a / b]),
        ]);
    }

    pub fn print(&self) {
        self.0.print();
    }
}

/// Best times of several sides, for each of so many questions that a run of theirs answers. They take
/// turns, and all must answer the same.
pub fn best_of<const N: usize>(questions: usize, sides: [&dyn Fn() -> u64; N]) -> [f64; N] {
    let answers = sides.map(|side| side());
    assert!(answers.iter().all(|a| *a == answers[0]), "{answers:?}");
    let mut best = [f64::INFINITY; N];
    let (begin, mut run) = (Instant::now(), 0);
    while run < FEW_RUNS.fewest || begin.elapsed() < FEW_RUNS.time {
        for (best, side) in best.iter_mut().zip(sides) {
            *best = best.min(nanoseconds(questions, side));
        }
        run += 1;
    }
    best
}

/// How many times the Rust's time ours may take. It is no test: a busy machine may go over.
#[derive(Clone, Copy)]
pub enum Limit {
    None,
    Times(f64),
}

/// How many times the time of mode 0 mode 1 may take.
pub const TIED: Limit = Limit::Times(1.3);

impl Limit {
    pub fn show(self) -> String {
        match self {
            Self::None => "-".to_string(),
            Self::Times(t) => t.to_string(),
        }
    }

    /// For throughput, then for latency, if there is one.
    pub fn verdict(self, ratios: &[f64]) -> String {
        let Self::Times(t) = self else {
            return "-".to_string();
        };
        let word = |&ratio: &f64| if ratio <= t { "PASS" } else { "OVER" };
        ratios.iter().map(word).collect::<Vec<_>>().join(", ")
    }
}

/// One call of a function that the compiler does not know, so that it inlines neither side.
pub fn one(f: extern "C" fn(f64) -> f64) -> impl Fn(Pair) -> u64 {
    let f = black_box(f);
    move |(x, _)| f(x).to_bits()
}

pub fn two(f: extern "C" fn(f64, f64) -> f64) -> impl Fn(Pair) -> u64 {
    let f = black_box(f);
    move |(x, y)| f(x, y).to_bits()
}
