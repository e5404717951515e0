//! Lines 701 and 702 of the sample over sites: an outline of the site, as
//! crates/replay_sites/src/outlines.rt asks for it. A line 702 has the mode before the cone.

use super::{Seen, lent, post, rust, ties};
use crate::lent::{Cone, Entries, Lent, room_for};
use crate::sample::argument;
use crate::sites::Plan;
use crate::util::bits::step;
use crate::util::call::{floats, pattern};
use crate::util::rng::SplitMix64;
use oracle::Scene;
use std::f64::consts::{FRAC_PI_4, TAU};

/// The words after the number: the cone's five and the tolerance.
pub const ARGUMENTS: usize = 6;

/// What the program lends.
const ENTRIES: Entries = [16, 96, 194, 96, 600, 257, 3_000, 600, 32];
const POINTS: usize = 700;
const IDS: usize = 16;

/// Longer outlines are left out, so that the sample stays small.
const LONGEST: usize = 130;

type Words = Vec<u64>;

// ---- what is asked

/// One kind of post after the other; two of three have points, where some are soon found.
pub fn question(r: &mut SplitMix64, scene: &Scene, turn: usize) -> Words {
    let mut tries: u32 = if turn.is_multiple_of(3) { 0 } else { 12 };
    loop {
        let (cone, tolerance) = asked(r, scene, turn);
        if is_spoilt(turn) || (tries == 0 && !in_domain(cone)) {
            return words(cone, tolerance);
        }
        let seen = in_domain(cone).then(|| rust_outline(scene, 0, cone, tolerance));
        let rich = |seen: &Seen| tries == 0 || !seen.outline.is_empty();
        if seen.is_some_and(|seen| is_short(&seen) && rich(&seen)) {
            return words(cone, tolerance);
        }
        tries = tries.saturating_sub(1);
    }
}

/// A question with its mode, from a place where two owners are tied, if one is soon found; where other ids
/// are seen than in mode 0, if that is. Most often in mode 1; each sixth is in mode 0, and now and then there
/// is no such mode.
pub fn tied_question(r: &mut SplitMix64, scene: &Scene, turn: usize) -> Option<Words> {
    let mode = match turn {
        _ if turn % 13 == 12 => r.pick(&[2, 3, u32::MAX]),
        _ if turn % 6 == 5 => 0,
        _ => 1,
    };
    let mut found = None;
    for _ in 0..200 {
        let (cone, tolerance) = (ties::cone(r, scene), r.pick(&[0.1, 0.1, 0.5, 2.0]));
        if !in_domain(cone) {
            continue;
        }
        let [old, seen] = [0, 1].map(|mode| rust_outline(scene, mode, cone, tolerance));
        if seen.shared > 0 && is_short(&old) && is_short(&seen) {
            found = Some(moded(mode, cone, tolerance));
            if old.visible != seen.visible {
                break;
            }
        }
    }
    found
}

/// Small sites, each with an outline in both modes. First two sheds with their front wall in common, in
/// either order: the Rust credits the one that is given first, mode 1 both. Then what follows from a
/// nearness that is rounded above the distance: a triangle given twice whose second wall is not tested; a
/// wall at the range that mode 1 sees; a polygon that only mode 0 sees.
pub fn pinned() -> Vec<(Plan, [Words; 2])> {
    let shed = |depth: f64| vec![(0.0, 0.0), (8.0, 0.0), (8.0, depth), (0.0, depth)];
    let twice = vec![(7.0, 3.0), (6.0, 0.0), (8.0, 9.0)];
    let at_range = vec![(0.0, 2.0), (5.0, 2.0), (8.0, -4.0)];
    let nearer = vec![(4.0, 0.0), (1.0, -7.0), (7.0, 7.0)];
    let farther = vec![(-7.0, 5.0), (4.0, 0.0), (4.0, 1.0)];
    let before = (4.0, -6.0);
    let all = [
        (before, 40.0, 0.0, TAU, vec![shed(5.0), shed(9.0)]),
        (before, 40.0, 0.0, TAU, vec![shed(9.0), shed(5.0)]),
        ((0.0, 0.0), 9.0, -1.0, 2.0, vec![twice.clone(), twice]),
        ((0.0, 0.0), 1.6, 0.0, TAU, vec![at_range]),
        ((0.0, 0.0), 9.0, -0.5, 1.0, vec![nearer, farther]),
    ];
    let asked = |(post, range, direction, fov, rings)| {
        let size = (0.0, 0.0);
        let cone = Cone {
            post,
            range,
            direction,
            fov,
        };
        let both = [0, 1].map(|mode| moded(mode, cone, 0.1));
        (Plan { size, rings }, both)
    };
    all.into_iter().map(asked).collect()
}

fn moded(mode: u32, cone: Cone, tolerance: f64) -> Words {
    let mut all = vec![u64::from(mode)];
    all.extend(words(cone, tolerance));
    all
}

/// Every seventeenth is outside the domain.
fn is_spoilt(turn: usize) -> bool {
    turn % 17 == 16
}

fn words(c: Cone, tolerance: f64) -> Words {
    let all = [c.post.0, c.post.1, c.range, c.direction, c.fov, tolerance];
    all.map(argument).to_vec()
}

fn asked(r: &mut SplitMix64, scene: &Scene, turn: usize) -> (Cone, f64) {
    let far = r.between(60.0, 200.0);
    let near = r.between(0.5, 60.0);
    let odd = r.pick(&[0.0, -0.0, f64::NAN, -1.0, 1e-9, f64::NEG_INFINITY]);
    let lattice = r.whole(-8, 8) as f64 * FRAC_PI_4;
    let any = r.between(-100.0, 100.0);
    let part = r.between(0.01, 6.2);
    let edge = r.pick(&[
        6.2831853062,
        6.2831853061,
        1e-9,
        2e-9,
        0.0,
        -1.0,
        f64::INFINITY,
        f64::NEG_INFINITY,
    ]);
    let coarse = r.between(0.1, 5.0);
    let strange = r.pick(&[0.0, -1.0, f64::NAN, 1e-9, 1e-4, 1e9, f64::INFINITY]);
    // On a corner, on an edge, just off a wall, near a corner, and anywhere, most often the last two.
    let place = [7, 0, 8, 1, 7, 2, 8, 3, 7, 4, 8, 5, 7, 6][turn % 14];
    let mut cone = Cone {
        post: post(r, scene, place),
        range: r.pick(&[near, near, near, far, far, 10.0, 100.0, 200.0, odd]),
        direction: r.pick(&[0.0, lattice, any, any, 100.0, -100.0]),
        fov: r.pick(&[7.0, TAU, part, part, part, edge]),
    };
    if is_spoilt(turn) {
        spoil(r, &mut cone);
    }
    (cone, r.pick(&[0.1, 0.1, 0.1, 0.1, coarse, strange]))
}

/// Puts one of the five outside the domain.
fn spoil(r: &mut SplitMix64, cone: &mut Cone) {
    let bad = r.pick(&[f64::NAN, f64::INFINITY, step(1e6, 1), -1_000_001.0]);
    match r.below(5) {
        0 => cone.post.0 = bad,
        1 => cone.post.1 = bad,
        2 => cone.range = r.pick(&[step(1e6, 1), f64::INFINITY]),
        3 => cone.direction = r.pick(&[step(100.0, 1), -101.0, f64::NAN, f64::INFINITY]),
        _ => cone.fov = f64::NAN,
    }
}

/// The fault that is carried (docs/DIFFERENCES.md): a long wall, and a post before it whose side rays
/// at the near corner hit the wall, so that the outline has four points.
pub fn carried() -> (Plan, Words) {
    let wall = vec![(0.0, 0.0), (1_000.0, 0.0), (1_000.0, 10.0), (0.0, 10.0)];
    let plan = Plan {
        size: (0.0, 0.0),
        rings: vec![wall],
    };
    let cone = Cone {
        post: (20.0, -20.0),
        range: 1_000.0,
        direction: 0.0,
        fov: TAU,
    };
    let seen = rust_outline(&plan.scene(), 0, cone, 0.1);
    assert!(fits(&seen) && seen.answer[2] == 4, "four points");
    (plan, words(cone, 0.1))
}

// ---- answers

/// Document 01, "Domain".
fn in_domain(c: Cone) -> bool {
    let coordinate = |x: f64| x.is_finite() && x.abs() <= 1e6;
    coordinate(c.post.0)
        && coordinate(c.post.1)
        && (c.range.is_nan() || c.range <= 1e6)
        && c.direction.is_finite()
        && c.direction.abs() <= 100.0
        && !c.fov.is_nan()
}

fn fits(seen: &Seen) -> bool {
    let enough = |(need, room): (&u32, &u32)| need <= room;
    seen.needs.iter().zip(&ENTRIES).all(enough)
        && seen.outline.len() <= 2 * POINTS
        && seen.visible.len() <= IDS
}

fn is_short(seen: &Seen) -> bool {
    fits(seen) && seen.outline.len() <= 2 * LONGEST
}

fn rust_outline(scene: &Scene, mode: u32, cone: Cone, tolerance: f64) -> Seen {
    let marks = vec![0; scene.polygons().len()];
    rust(scene, cone, tolerance, mode, &marks, 0)
}

fn cone_of(words: &[u64]) -> (Cone, f64) {
    let [x, y, range, direction, fov, tolerance] = floats(words);
    let cone = Cone {
        post: (x, y),
        range,
        direction,
        fov,
    };
    (cone, tolerance)
}

/// The status, the nine numbers, the points' numbers and the visible ids.
fn told(status: u32, answer: [u64; 9], outline: &[f64], visible: &[u32]) -> Words {
    let mut all = vec![u64::from(status)];
    all.extend(answer);
    all.extend(outline.iter().map(|x| pattern(*x)));
    all.extend(visible.iter().copied().map(u64::from));
    all
}

/// No outline, with document 01's number of the refusal.
pub fn refused(status: u32) -> Words {
    told(status, [0; 9], &[], &[])
}

pub fn rust_answer(scene: &Scene, mode: u32, words: &[u64]) -> Words {
    let (cone, tolerance) = cone_of(words);
    if !in_domain(cone) || mode > 1 {
        return refused(1);
    }
    let seen = rust_outline(scene, mode, cone, tolerance);
    assert!(fits(&seen), "chosen to fit");
    told(0, seen.answer, &seen.outline, &seen.visible)
}

pub fn our_answer(site: &Lent, mode: u32, words: &[u64]) -> Words {
    let (cone, tolerance) = cone_of(words);
    let mut work = lent(&[0; IDS], 0, room_for(ENTRIES), 2 * POINTS, IDS);
    let (status, answer) = site.outline(cone, tolerance, mode, ENTRIES, &mut work);
    let (points, ids) = (answer[2] as usize, answer[3] as usize);
    let (outline, visible) = (&work.outline[..2 * points], &work.visible[..ids]);
    told(status, answer, outline, visible)
}
