//! Comparison within a bound: how far ours and the Rust's answer lie apart.

use super::bits;
use super::table::{Table, count, verdict};

/// Document 01: none of our angle functions may differ from the Rust's by more than 2^-40.
const BOUND: f64 = 1.0 / (1u64 << 40) as f64;

/// An argument that can be named in a table.
pub trait Argument: Copy {
    fn show(self) -> String;
}

impl Argument for f64 {
    fn show(self) -> String {
        bits::show(self)
    }
}

impl Argument for (f64, f64) {
    fn show(self) -> String {
        format!("({}, {})", bits::show(self.0), bits::show(self.1))
    }
}

pub struct Gap {
    name: String,
    points: u64,
    differ: u64,
    /// Answers that are a NaN on one side only. They have no distance, and none is allowed.
    lone_nans: u64,
    ulps: u64,
    ulps_at: String,
    distance: f64,
    distance_at: String,
}

impl Gap {
    /// Runs both sides on every argument.
    pub fn of<A: Argument>(
        name: &str,
        arguments: &[A],
        ours: impl Fn(A) -> f64,
        rust: impl Fn(A) -> f64,
    ) -> Self {
        let mut gap = Self {
            name: name.to_string(),
            points: 0,
            differ: 0,
            lone_nans: 0,
            ulps: 0,
            ulps_at: "-".to_string(),
            distance: 0.0,
            distance_at: "-".to_string(),
        };
        for &a in arguments {
            gap.add(a, ours(a), rust(a));
        }
        gap
    }

    fn add(&mut self, at: impl Argument, ours: f64, rust: f64) {
        self.points += 1;
        if bits::same(ours, rust) {
            return;
        }
        self.differ += 1;
        if ours.is_nan() || rust.is_nan() {
            self.lone_nans += 1;
            return;
        }
        let (ulps, distance) = (bits::ulps(ours, rust), (ours - rust).abs());
        if ulps > self.ulps {
            (self.ulps, self.ulps_at) = (ulps, at.show());
        }
        if distance > self.distance {
            (self.distance, self.distance_at) = (distance, at.show());
        }
    }

    fn is_within(&self) -> bool {
        self.lone_nans == 0 && self.distance <= BOUND
    }

    fn row(&self) -> Vec<String> {
        let share = 100.0 * self.differ as f64 / self.points.max(1) as f64;
        let distance = if self.distance > 0.0 {
            format!("{:.3e} = 2^{:.1}", self.distance, self.distance.log2())
        } else {
            "0".to_string()
        };
        vec![
            self.name.clone(),
            count(self.points),
            format!("{} ({share:.1}%)", count(self.differ)),
            count(self.ulps),
            self.ulps_at.clone(),
            distance,
            self.distance_at.clone(),
            count(self.lone_nans),
        ]
    }
}

const HEAD: [&str; 8] = [
    "function",
    "points",
    "differ",
    "most ulp",
    "at",
    "most absolute",
    "at",
    "NaN on one side",
];

/// Prints the table and says whether all lie within the bound.
pub fn print(gaps: &[Gap]) -> bool {
    let mut table = Table::new(&[&HEAD[..], &["within 2^-40"]].concat());
    for gap in gaps {
        table.row([gap.row(), vec![verdict(gap.is_within())]].concat());
    }
    table.print();
    gaps.iter().all(Gap::is_within)
}

/// Prints the table with no verdict.
pub fn tell(gaps: &[Gap]) {
    let mut table = Table::new(&HEAD);
    gaps.iter().for_each(|gap| table.row(gap.row()));
    table.print();
}
