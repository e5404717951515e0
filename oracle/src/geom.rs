//! Crate `geom` against the published `geom.rs`, bit for bit: inside the domain of document 01, and
//! outside it too, where nothing is asked but the Rust never panics.

mod bench;
mod calls;
mod inputs;
mod polygons;

pub use bench::bench;
pub use calls::rows;
pub use inputs::Group;

use crate::util::call::Call;
use crate::util::rng::SplitMix64;
use crate::util::tally::{self, Tally};

pub fn compare() -> bool {
    print_groups();
    let rows = rows();
    let inside: Vec<Tally> = rows.iter().map(|r| held(&r.call, &r.inside, 0)).collect();
    let outside: Vec<Tally> = rows.iter().map(|r| held(&r.call, &r.outside, 1)).collect();
    println!("Inside the domain:\n");
    let good = tally::print(&inside);
    println!("Outside the domain, where document 01 asks nothing:\n");
    tally::print(&outside) && good
}

fn print_groups() {
    for (title, groups) in [
        ("inputs: numbers for any call", inputs::anywhere()),
        ("besides, for `lerp`", besides(inputs::shares())),
        ("inputs: for `from_angle`", inputs::angles()),
        ("besides, for `normalize_angle`", besides(inputs::turns())),
        ("besides, for boxes", besides(inputs::boxes())),
        ("besides, for `ray_segment`", besides(inputs::rays())),
        ("besides, for two segments", besides(inputs::crossings())),
        (
            "besides, for a segment and a disk",
            besides(inputs::disks()),
        ),
        (
            "besides, for `point_segment_distance`",
            besides(inputs::feet()),
        ),
        ("inputs: lists of points", polygons::rings()),
        ("outside the domain: numbers", inputs::strange()),
        ("outside the domain: lists of points", polygons::strange()),
    ] {
        inputs::print(title, &groups);
    }
}

/// The groups that come after those for any call.
fn besides(mut groups: Vec<Group>) -> Vec<Group> {
    groups.split_off(inputs::anywhere().len())
}

/// Both sides on every input of the groups. `part` is 0 inside the domain and 1 outside.
fn held(call: &Call, groups: &[Group], part: u64) -> Tally {
    let r = &mut SplitMix64::new(2 * call.number + part);
    let mut tally = Tally::new([call.name, call.against]);
    for group in groups {
        for _ in 0..group.points {
            let numbers = (group.make)(r, call.arguments);
            assert!(
                part == 1 || inputs::is_inside(&numbers),
                "{} of {}: {numbers:?} is outside the domain",
                group.what,
                call.name
            );
            let words: Vec<u64> = numbers.iter().map(|x| x.to_bits()).collect();
            tally.add(&words[..], (call.ours)(&words), (call.rust)(&words));
        }
    }
    tally
}
