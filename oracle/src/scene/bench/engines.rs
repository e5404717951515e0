//! Both engines of the box query, each with its tests, beside the Rust's; and what the one without tables
//! replaces: building afresh, then asking.

use super::{SIDE, Timed, boxes, rust_near};
use crate::lent::Lent;
use crate::util::rng::SplitMix64;
use crate::util::table::Table;
use crate::util::timing::best_of;
use std::cell::RefCell;
use std::hint::black_box;

const SIZES: [usize; 7] = [100, 250, 500, 1_000, 2_000, 4_000, 4_096];

/// A small box, a post's surroundings, a quarter of the site, and all of it.
const SIDES: [f64; 4] = [100.0, 300.0, SIDE / 2.0, SIDE];

/// How many times as long building afresh and asking takes, at least.
const LEAST: f64 = 4.0;

pub fn print() {
    println!("The box query without tables, nanoseconds per question:\n");
    let mut table = Table::new(&[
        "polygons, box",
        "without tables",
        "with tables",
        "Rust",
        "build afresh, then ask",
        "the same with `new_stamps`",
        "without / with tables",
        "without tables / Rust",
        "afresh / without tables",
        "at least",
        "verdict",
        "with `new_stamps`",
        "verdict",
    ]);
    let r = &mut SplitMix64::new(1_951);
    for polygons in SIZES {
        let timed = Timed::new(polygons);
        for side in SIDES {
            let times = times(&timed, polygons, &boxes(r, side));
            let [plain, tables, rust, afresh, stamped] = times;
            let mut row = vec![format!("{polygons}, {side} x {side}")];
            row.extend(times.map(|t| format!("{t:.0}")));
            row.extend([plain / tables, plain / rust].map(|x| format!("{x:.2}")));
            let [a, b] = [afresh / plain, stamped / plain];
            row.extend([format!("{a:.2}"), LEAST.to_string(), verdict(a)]);
            row.extend([format!("{b:.2}"), verdict(b)]);
            table.row(row);
        }
    }
    table.print();
}

fn verdict(ratio: f64) -> String {
    if ratio >= LEAST { "PASS" } else { "UNDER" }.to_string()
}

/// Without tables, with them, the Rust, and built afresh with new marks and by `new_stamps`, which tests
/// the tables once more. Ours have room for each id of the site.
fn times(timed: &Timed, polygons: usize, boxes: &[[f64; 4]]) -> [f64; 5] {
    let (site, given) = (&timed.site, &timed.given);
    let list = RefCell::new(vec![0; polygons]);
    let stamps = RefCell::new((vec![0; polygons], 0));
    let own = RefCell::new(site.clone());
    let ask = |site: &Lent, b: [f64; 4]| {
        let (marks, epoch) = &mut *stamps.borrow_mut();
        let ids = &mut list.borrow_mut();
        site.polygons_near(&b, marks, epoch, ids).1[0]
    };
    let afresh = |b: [f64; 4], new: fn(&Lent, &mut [u32], &mut u32) -> u32| {
        let site = &mut *own.borrow_mut();
        let built = site.build(given.size, black_box(&given.points), &given.lens);
        let stamped = {
            let (marks, epoch) = &mut *stamps.borrow_mut();
            new(site, marks, epoch)
        };
        assert!(built == 0 && stamped == 0, "room enough");
        ask(site, b)
    };
    let new_marks = |_: &Lent, marks: &mut [u32], epoch: &mut u32| {
        marks.fill(0);
        *epoch = 0;
        0
    };
    let plain = |b| site.polygons_near_plain(&b, &mut list.borrow_mut()).1[0];
    let rust = rust_near(timed, polygons, polygons);
    let sum = |ask: &dyn Fn([f64; 4]) -> u64| black_box(boxes).iter().map(|b| ask(*b)).sum();
    best_of(
        boxes.len(),
        [
            &|| sum(&plain),
            &|| sum(&|b| ask(site, b)),
            &|| sum(&rust),
            &|| sum(&|b| afresh(b, new_marks)),
            &|| sum(&|b| afresh(b, Lent::new_stamps)),
        ],
    )
}
