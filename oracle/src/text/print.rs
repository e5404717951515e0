//! Floats with up to six decimals, in whole numbers: the value is m times a power of two, and nothing is
//! rounded but once, halves to even. This printer and ours are each held against Rust's own `{:.6}`,
//! `{:.3}` and so on.

use super::{FILL, Told};
use crate::probe::print_number;
use crate::util::bits::step;
use crate::util::floats::some;
use crate::util::rng::SplitMix64;
use crate::util::table::{Table, count};
use crate::util::tally::Tally;
use crate::util::timing::{Bench, INPUTS, Limit, Pair};
use std::hint::black_box;
use std::io::Write;

/// The value times 10^places as a whole number, and whether it was a half that was rounded.
fn scaled(x: f64, places: usize) -> (u128, bool) {
    let bits = x.to_bits();
    let (exponent, part) = ((bits >> 52) & 0x7FF, bits & ((1 << 52) - 1));
    assert!(exponent < 1_023 + 64, "below 2^64");
    // |x| = m / 2^down
    let (m, down) = match exponent {
        0 => (part, 1_074),
        e => (part | 1 << 52, 1_075 - e as i32),
    };
    let m = u128::from(m) * u128::from(ten_to(places));
    if down <= 0 {
        return (m << -down, false);
    }
    // m is below 2^73: shifted by 75 and more it is less than a half.
    if down >= 75 {
        return (0, false);
    }
    let (whole, rest, half) = (m >> down, m & ((1 << down) - 1), 1 << (down - 1));
    let up = rest > half || (rest == half && whole % 2 == 1);
    (whole + u128::from(up), rest == half)
}

fn ten_to(places: usize) -> u64 {
    assert!(places <= 6);
    10u64.pow(places as u32)
}

pub fn is_half(x: f64, places: usize) -> bool {
    scaled(x, places).1
}

/// With so many decimals, never a signed zero.
pub fn decimal(x: f64, places: usize) -> String {
    let n = scaled(x, places).0;
    let minus = if x < 0.0 && n > 0 { "-" } else { "" };
    let unit = u128::from(ten_to(places));
    format!("{minus}{}.{:0places$}", n / unit, n % unit)
}

// ---- both printers beside Rust's

/// Ours prints what is below it in size.
const END: f64 = (1 << 25) as f64;

/// Zeros, the ends, the smallest floats, and what lies next to a half of the last decimal.
const FIXED: [f64; 12] = [
    0.0,
    -0.0,
    5e-324,
    -5e-324,
    f64::MIN_POSITIVE,
    END.next_down(),
    -END.next_down(),
    9_999_999.999_999_5,
    0.000_5,
    0.001_5,
    0.000_000_5,
    0.000_001_5,
];

/// Halves of the last decimal, their neighbours, and floats of many sizes.
fn values(r: &mut SplitMix64, places: usize, at_least: usize) -> Vec<f64> {
    let mut all = FIXED.to_vec();
    let unit = ten_to(places) as f64;
    // Half-way between two decimals lie the odd multiples of 1 / 2^(places + 1), and no other floats.
    let two_to = (1u64 << (places + 1)) as f64;
    let odd = |r: &mut SplitMix64, most: f64| (2 * r.whole(-most as i64, most as i64) + 1) as f64;
    while all.len() < at_least {
        let most = r.pick(&[10.0, 1_000.0, 2e6, 2e6, END - 1.0]);
        let small = r.pick(&[1e-3, 1e-6, 1e-7, 1e-20, 1e-300, 1e-310]);
        let half = odd(r, most * two_to / 2.0 - 1.0) / two_to;
        let near_half = odd(r, most * unit - 1.0) / (2.0 * unit);
        let near_decimal = r.whole(-(most * unit) as i64, (most * unit) as i64) as f64 / unit;
        let any_exponent = r.below(1_023 + 25) << 52;
        let any = f64::from_bits(any_exponent | r.bits() >> 12) * r.sign();
        all.extend([
            half,
            step(half, r.pick(&[-1, 1])),
            step(near_half, r.whole(-2, 2)),
            step(near_decimal, r.whole(-2, 2)),
            r.between(-2e6, 2e6),
            r.between(-most, most),
            r.between(-small, small),
            any,
        ]);
    }
    all
}

fn is_zero(word: &str) -> bool {
    word.bytes().all(|b| b == b'0' || b == b'.')
}

/// Without a sign where all digits are zero.
fn by_rust(x: f64, places: usize) -> String {
    let word = format!("{x:.places$}");
    let zero = word.strip_prefix('-').filter(|size| is_zero(size));
    zero.map(str::to_string).unwrap_or(word)
}

/// More than the longest number takes: a minus, 8 digits, the point and 6 more.
const ROOM: usize = 20;

struct Printers {
    ours: Tally,
    own: Tally,
}

impl Printers {
    fn new(names: [&'static str; 3]) -> Self {
        let [ours, own, rust] = names;
        Self {
            ours: Tally::new([ours, rust]),
            own: Tally::new([own, rust]),
        }
    }

    /// Both on so many values.
    fn hold(&mut self, short: &mut Tally, table: &mut Table, places: usize, at_least: usize) {
        let r = &mut SplitMix64::new(8_900 + places as u64);
        let (mut halves, mut negative, mut zeros) = (0, 0, 0);
        let all = values(r, places, at_least);
        for &x in &all {
            assert!(x.abs() < END);
            let rust = by_rust(x, places);
            let word = rust.as_bytes();
            halves += u64::from(is_half(x, places));
            negative += u64::from(rust.starts_with('-'));
            zeros += u64::from(x != 0.0 && is_zero(&rust));
            let own = decimal(x, places);
            self.own
                .add(x, Told(own.len(), own.as_bytes()), Told(word.len(), word));
            hold_in(&mut self.ours, x, places, word, ROOM);
            if r.below(8) == 0 {
                let room = r.below(word.len() as u64) as usize;
                hold_in(short, x, places, word, room);
            }
        }
        let mut row = vec![places.to_string()];
        row.extend([all.len() as u64, halves, negative, zeros].map(count));
        table.row(row);
    }
}

/// Our printer in so much room: behind the number the room stays as it was.
fn hold_in(tally: &mut Tally, x: f64, places: usize, word: &[u8], room: usize) {
    let mut out = vec![FILL; room];
    let n = print_number(x, places, &mut out);
    let mut all = word.to_vec();
    all.resize(room, FILL);
    tally.add(x, Told(n, &out), Told(word.len(), &all));
}

pub fn compare() -> Vec<Tally> {
    let mut six = Printers::new([
        "number with six decimals",
        "the oracle's own six decimals",
        "{:.6} of Rust",
    ]);
    let mut three = Printers::new([
        "number with three decimals",
        "the oracle's own three decimals",
        "{:.3} of Rust",
    ]);
    let mut others = Printers::new([
        "number with 1, 2, 4 or 5 decimals",
        "the oracle's own 1, 2, 4 or 5 decimals",
        "{:.1} of Rust, and so on",
    ]);
    let mut short = Tally::new(["number in room too short", "what fits, the same length"]);
    let mut table = Table::new(&[
        "decimals",
        "numbers printed",
        "half-way between two decimals",
        "with a minus",
        "printed as zero, though not zero",
    ]);
    for places in 1..=6 {
        let (printers, at_least) = match places {
            6 => (&mut six, 1_000_000),
            3 => (&mut three, 1_000_000),
            _ => (&mut others, 100_000),
        };
        printers.hold(&mut short, &mut table, places, at_least);
    }
    table.print();
    let mut all: Vec<Tally> = [six, three, others]
        .into_iter()
        .flat_map(|p| [p.ours, p.own])
        .collect();
    all.push(short);
    all
}

// ---- timings

/// What is printed by a call, as a number that hangs on its last byte.
fn printing(print: fn(f64, usize, &mut [u8]) -> usize, places: usize) -> impl Fn(Pair) -> u64 {
    let print = black_box(print);
    move |(x, _)| {
        let mut out = [0; ROOM];
        let n = print(x, places, &mut out);
        n as u64 ^ u64::from(out[n - 1])
    }
}

/// Rust's side, behind one call as ours is.
fn rust_print(x: f64, places: usize, out: &mut [u8]) -> usize {
    let mut left = &mut *out;
    write!(left, "{x:.places$}").expect("room for a number");
    let left = left.len();
    out.len() - left
}

pub fn bench(table: &mut Bench) {
    let r = &mut SplitMix64::new(8_970);
    let coordinates = some(INPUTS, || (r.between(-1e3, 1e3), 0.0));
    for (what, places) in [
        ("a number printed with six decimals, -1e3 to 1e3", 6),
        ("with three", 3),
    ] {
        let (ours, rust) = (printing(print_number, places), printing(rust_print, places));
        table.add(what, Limit::None, &coordinates, ours, rust);
    }
}
