//! Lines of the sample over sites, for the program `replay_sites`: a line 601 builds a site, and the
//! lines after it ask that site. The format is in crates/replay_sites/src/main.rt and current.rt.
//!
//! What is written is read back, and held against the functions that are linked here.

use super::given::{self, Given};
use super::{Held, aabb, four, is_coordinate, loaded, padded, ties, vec2};
use crate::grid::lines::kind;
use crate::grid::questions::{self, BOXES, POINTS, RAYS};
use crate::grid::sites::Site as Gridded;
use crate::lent::{Lent, Rooms};
use crate::probe::Ray;
use crate::sample::{argument, line, words};
use crate::sites::{self, Plan};
use crate::util::bits::step;
use crate::util::call::{floats, pattern};
use crate::util::rng::SplitMix64;
use crate::view::lines as outlines;
use oracle::{Scene, Stamps};

/// Sites that are built, and questions of each function to each. Lines with a mode come after all others.
const SITES: usize = 60;
const QUESTIONS: [(u64, usize); 9] = [
    (602, 3),
    (603, 4),
    (604, 4),
    (605, 2),
    (606, 2),
    (607, 2),
    (608, 1),
    (609, 3),
    (701, 9),
];
const MODED: [u64; 2] = [702, 703];

/// Sites with ties, and outlines and rays of each.
const TIED: usize = 15;
const TIED_QUESTIONS: usize = 4;

/// What the program has room for: polygons, numbers of points, and what it lends for the tables.
const POLYGONS: usize = 16;
const NUMBERS: usize = 192;
const ROOM: Rooms = Rooms {
    points: NUMBERS,
    boxes: 4 * POLYGONS,
    polygons: 2 * POLYGONS,
    owners: NUMBERS / 2,
    starts: 257,
    items: 512,
};

type Words = Vec<u64>;

/// Writes the sample. Says whether ours answers as it has it.
pub fn write(path: &str) -> Result<bool, String> {
    let text = built() + &refused() + &tied();
    std::fs::write(path, &text).map_err(|e| format!("{path}: {e}"))?;
    let read = std::fs::read_to_string(path).map_err(|e| format!("{path}: {e}"))?;
    replayed(&read)
}

// ---- inputs

fn bits(numbers: &[f64]) -> impl Iterator<Item = u64> {
    numbers.iter().map(|x| argument(*x))
}

fn widened(list: &[u32]) -> impl Iterator<Item = u64> {
    list.iter().copied().map(u64::from)
}

/// As the Rust gets it: every number loaded.
fn clean(plan: &Plan) -> Plan {
    Plan {
        size: (loaded(plan.size.0), loaded(plan.size.1)),
        rings: plan
            .rings
            .iter()
            .map(|ring| ring.iter().map(|p| (loaded(p.0), loaded(p.1))).collect())
            .collect(),
    }
}

/// Small sites of all the large groups, some rings turned and some zeros with a minus. There is
/// something to find in them and a way to walk, but for every sixth one.
fn small_sites(r: &mut SplitMix64, held: &mut Held) -> Vec<(Given, Scene)> {
    let groups = sites::groups();
    let mut found: Vec<(Given, Scene)> = Vec::new();
    for group in groups.iter().filter(|g| g.sites >= 1_000).cycle() {
        if found.len() == SITES {
            break;
        }
        let plan = (group.make)(r);
        let plan = held.ugly(r, plan);
        let given = Given::new(&plan);
        if given.lens.len() > POLYGONS || given.points.len() > NUMBERS {
            continue;
        }
        let scene = clean(&plan).scene();
        let (cols, rows) = scene.grid().dims();
        let rich = given.lens.len() >= 2 && cols * rows >= 6;
        if given.verdict(ROOM) == 0 && (rich || found.len().is_multiple_of(6)) {
            found.push((given, scene));
        }
    }
    found
}

/// Kinds that often find something: in a polygon's box, on its edges; at corners and along edges.
const GOOD_POINTS: [usize; 5] = [11, POINTS + 4, POINTS + 2, POINTS + 4, POINTS + 3];
const GOOD_RAYS: [usize; 5] = [RAYS, 1, RAYS + 2, 11, RAYS + 1];

/// The arguments of a question, of each kind in turn, but more often of one that finds something.
fn question(
    r: &mut SplitMix64,
    held: &mut Held,
    scene: &Scene,
    gridded: &Gridded,
    number: u64,
    turn: usize,
) -> Words {
    let any = r.bits() as u32;
    match number {
        602 => {
            let b = questions::asked_box(r, gridded, kind(turn, BOXES, &[0, 1, 2, 3, 10, 12]));
            let epoch = r.pick(&[0, 1, any, u32::MAX - 1, u32::MAX]);
            let n = near(scene, b, epoch).map_or(0, |found| found.0.len());
            let room = r.pick(&[n, n + 2, n.saturating_sub(1)]).min(POLYGONS);
            bits(&b).chain([u64::from(epoch), room as u64]).collect()
        }
        603 | 605 => {
            let p = held.point(r, scene, gridded, kind(turn, POINTS + 6, &GOOD_POINTS));
            bits(&[p.0, p.1]).collect()
        }
        604 => {
            let ray = held.ray(r, scene, gridded, kind(turn, RAYS + 4, &GOOD_RAYS));
            let (o, d) = (ray.origin, ray.direction);
            bits(&[o.0, o.1, d.0, d.1, ray.length]).collect()
        }
        606 | 607 => {
            let all = if number == 606 {
                scene.vertices().len()
            } else {
                scene.polygons().len()
            } as u32;
            let some = r.below(u64::from(all) + 1) as u32;
            let places = [some, all.wrapping_sub(1), some, all, some, any];
            vec![places[turn % places.len()].into()]
        }
        701 => outlines::question(r, scene, turn),
        _ => vec![],
    }
}

/// The same box in the same room, without stamps.
fn without_epoch(asked: &[u64]) -> Words {
    let mut asked = asked.to_vec();
    asked.remove(EPOCH[0]);
    asked
}

/// Sites and their questions, by rising number; 609 asks the boxes of 602.
fn built() -> String {
    let (r, views) = (&mut SplitMix64::new(9_601), &mut SplitMix64::new(9_701));
    let held = &mut Held::new();
    let mut text = String::new();
    for (i, (given, scene)) in small_sites(r, held).iter().enumerate() {
        text += &line(&[
            &[601],
            &given_words(given)[..],
            &told(0, &given::of_scene(scene)),
        ]);
        let gridded = Gridded::of_scene(scene);
        let mut boxes: Vec<Words> = Vec::new();
        for (number, times) in QUESTIONS {
            let r = if number == 701 { &mut *views } else { &mut *r };
            for k in 0..times {
                let asked = if number == 609 {
                    without_epoch(&boxes[k])
                } else {
                    question(r, held, scene, &gridded, number, times * i + k)
                };
                let answer = rust_answer(scene, number, &asked);
                text += &line(&[&[number], &asked, &answer]);
                if number == 602 {
                    boxes.push(asked);
                }
            }
        }
    }
    text + &carried()
}

/// A site with one outline, which shows a fault that we carry.
fn carried() -> String {
    let (plan, asked) = outlines::carried();
    let scene = plan.scene();
    let answer = rust_answer(&scene, 701, &asked);
    site_line(&plan, &scene) + &line(&[&[701], &asked, &answer])
}

/// Inputs that are refused, each with questions after it: there is no sound site then.
fn refused() -> String {
    let square = [1.0, 1.0, 2.0, 1.0, 2.0, 2.0, 1.0, 2.0];
    let given = |size, points: &[f64], lens: &[u32]| Given {
        size,
        points: points.to_vec(),
        lens: lens.to_vec(),
    };
    let with = |i: usize, x: f64| {
        let mut points = square;
        points[i] = x;
        given((10.0, 10.0), &points, &[4])
    };
    let all = [
        given((10.0, 10.0), &square[..7], &[4]),
        given((10.0, 10.0), &square, &[3]),
        given((10.0, 10.0), &square, &[4, u32::MAX]),
        given((f64::NAN, 10.0), &square, &[4]),
        given((10.0, -1.0), &square, &[4]),
        given((step(1e6, 1), 10.0), &square, &[4]),
        with(0, f64::NAN),
        with(3, f64::INFINITY),
        with(7, -1_000_001.0),
        given((1_500.0, 1_500.0), &square, &[4]),
        given((100.0, 100.0), &square, &[4]),
        given((f64::NAN, 1_500.0), &square, &[5]),
    ];
    let lines = |given: &Given| {
        let status = given.verdict(ROOM);
        assert!(status != 0, "this is a site: {}", given.show());
        let blank = given::refused(ROOM);
        let build = line(&[&[601], &given_words(given)[..], &told(status, &blank)]);
        let outline = line(&[&[701], &outlines::carried().1, &outlines::refused(6)]);
        build + &line(&[&[608], &[6; 4], &[0; 8]]) + &outline
    };
    all.iter().map(lines).collect()
}

/// Small sites of the groups of ties, each with outlines and rays in a mode. Before them stand the sites
/// that are pinned, and last one that is refused: 6 goes before the mode.
fn tied() -> String {
    let r = &mut SplitMix64::new(9_702);
    let held = &mut Held::new();
    let mut text = String::new();
    for (plan, asked) in outlines::pinned() {
        let scene = plan.scene();
        text += &site_line(&plan, &scene);
        for asked in asked {
            text += &line(&[&[702], &asked, &rust_answer(&scene, 702, &asked)]);
        }
    }
    let groups = sites::ties::groups();
    let mut found = 0;
    for group in groups.iter().cycle() {
        if found == TIED {
            break;
        }
        let plan = (group.make)(r);
        let given = Given::new(&plan);
        if given.lens.len() > POLYGONS || given.points.len() > NUMBERS || given.verdict(ROOM) != 0 {
            continue;
        }
        let scene = plan.scene();
        let gridded = Gridded::of_scene(&scene);
        let turns = found * TIED_QUESTIONS..(found + 1) * TIED_QUESTIONS;
        let views = turns
            .clone()
            .map(|turn| outlines::tied_question(r, &scene, turn));
        let Some(views) = views.collect::<Option<Vec<Words>>>() else {
            continue;
        };
        text += &site_line(&plan, &scene);
        for asked in views {
            text += &line(&[&[702], &asked, &rust_answer(&scene, 702, &asked)]);
        }
        for turn in turns {
            let asked = tied_look(r, held, &scene, &gridded, turn);
            text += &line(&[&[703], &asked, &rust_answer(&scene, 703, &asked)]);
        }
        found += 1;
    }
    let none = Given {
        size: (10.0, 10.0),
        points: vec![1.0; 7],
        lens: vec![4],
    };
    let build = line(&[
        &[601],
        &given_words(&none)[..],
        &told(3, &given::refused(ROOM)),
    ]);
    let cone = &outlines::carried().1[..];
    let outline = line(&[&[702], &[2], cone, &outlines::refused(6)]);
    let ray = [2, 0, 0, argument(1.0), 0, argument(5.0)];
    text + &build + &outline + &line(&[&[703], &ray, &told_look(6, 0.0, [0; 3])])
}

fn site_line(plan: &Plan, scene: &Scene) -> String {
    let given = Given::new(plan);
    assert!(given.verdict(ROOM) == 0, "a site of ours");
    line(&[
        &[601],
        &given_words(&given)[..],
        &told(0, &given::of_scene(scene)),
    ])
}

/// A ray with its mode: most often 1, with another edge than in mode 0 where one is soon found.
fn tied_look(
    r: &mut SplitMix64,
    held: &mut Held,
    scene: &Scene,
    gridded: &Gridded,
    turn: usize,
) -> Words {
    let mode = match turn {
        _ if turn % 13 == 11 => r.pick(&[2, 3, u32::MAX]),
        _ if turn % 6 == 4 => 0,
        _ => 1,
    };
    let tries = if turn % 4 == 3 { 0 } else { 200 };
    let mut asked = ties::ray(r, held, scene, gridded);
    for _ in 0..tries {
        if is_inside(asked) && ties::rust(scene, asked, 0) != ties::rust(scene, asked, 1) {
            break;
        }
        asked = ties::ray(r, held, scene, gridded);
    }
    let (o, d) = (asked.origin, asked.direction);
    let numbers = [o.0, o.1, d.0, d.1, asked.length];
    [u64::from(mode)]
        .into_iter()
        .chain(bits(&numbers))
        .collect()
}

// ---- words

fn given_words(given: &Given) -> Words {
    let mut all: Words = bits(&[given.size.0, given.size.1]).collect();
    all.push(given.points.len() as u64);
    all.extend(bits(&given.points));
    all.push(given.lens.len() as u64);
    all.extend(widened(&given.lens));
    all
}

fn given_of(words: &[u64]) -> Given {
    let end = after_list(words, 2).expect("a count of numbers");
    let narrow = |w: &u64| u32::try_from(*w).expect("a length fits");
    Given {
        size: (f64::from_bits(words[0]), f64::from_bits(words[1])),
        points: words[3..end].iter().map(|w| f64::from_bits(*w)).collect(),
        lens: words[end + 1..].iter().map(narrow).collect(),
    }
}

/// How many words there are up to the end of the list whose count stands at `i`.
fn after_list(words: &[u64], i: usize) -> Option<usize> {
    let count = usize::try_from(*words.get(i)?).ok()?;
    count.checked_add(i + 1)
}

/// How many of the words after the number are arguments.
fn length(number: u64, words: &[u64]) -> Option<usize> {
    match number {
        601 => after_list(words, after_list(words, 2)?),
        602 => Some(6),
        603 | 605 => Some(2),
        604 | 609 => Some(5),
        606 | 607 => Some(1),
        608 => Some(0),
        701 => Some(outlines::ARGUMENTS),
        702 => Some(1 + outlines::ARGUMENTS),
        703 => Some(6),
        _ => None,
    }
}

/// The status and the head, and of a site that was built the tables as far as its counts say.
fn told(status: u32, site: &Lent) -> Words {
    let patterns = |list: &[f64], n: usize| -> Words {
        let part = list[..n].iter();
        part.map(|x| pattern(*x)).collect()
    };
    let part = |list: &[u32], n: usize| -> Words { widened(&list[..n]).collect() };
    let counts = site.head.counts.map(|n| n as usize);
    let mut all = vec![u64::from(status)];
    all.extend(patterns(&site.head.floats, 6));
    all.extend(widened(&site.head.counts));
    if status == 0 {
        let [cols, rows, polygons, points, items] = counts;
        all.extend(patterns(&site.points, 2 * points));
        all.extend(patterns(&site.boxes, 4 * polygons));
        all.extend(part(&site.polygons, 2 * polygons));
        all.extend(part(&site.owners, points));
        all.extend(part(&site.starts, cols * rows + 1));
        all.extend(part(&site.items, items));
    }
    all
}

fn told_near(status: u32, tally: [u64; 2], epoch: u32, ids: &[u32]) -> Words {
    let mut told = told_near_plain(status, tally, ids);
    told.insert(EPOCH[1], epoch.into());
    told
}

fn told_near_plain(status: u32, tally: [u64; 2], ids: &[u32]) -> Words {
    let numbers = [status.into(), tally[0], tally[1]];
    numbers.into_iter().chain(widened(ids)).collect()
}

fn told_look(status: u32, t: f64, found: [u64; 3]) -> Words {
    vec![status.into(), pattern(t), found[0], found[1], found[2]]
}

fn told_edge(statuses: [u32; 3], ends: [f64; 4], end: u32, owner: u32) -> Words {
    widened(&statuses)
        .chain(ends.map(pattern))
        .chain([u64::from(end), u64::from(owner)])
        .collect()
}

fn told_polygon(status: u32, place: [u32; 2], b: [f64; 4]) -> Words {
    widened(&[status, place[0], place[1]])
        .chain(b.map(pattern))
        .collect()
}

fn told_extent(statuses: [u32; 4], b: [f64; 4], size: [f64; 2], dims: [u32; 2]) -> Words {
    widened(&statuses)
        .chain(b.map(pattern))
        .chain(size.map(pattern))
        .chain(widened(&dims))
        .collect()
}

// ---- both sides

/// Ids, entries read and the epoch then, from marks that are all zero; nothing outside the domain.
fn near(scene: &Scene, b: [f64; 4], epoch: u32) -> Option<(Vec<u32>, u64, u32)> {
    if !b.iter().all(|&x| is_coordinate(x)) {
        return None;
    }
    let b = aabb(b.map(loaded));
    let mut stamps = Stamps::oracle_from(vec![0; scene.polygons().len()], epoch);
    let mut ids = Vec::new();
    scene.for_each_polygon_near(&b, &mut stamps, |id| ids.push(id));
    let read = scene.grid().oracle_entries(&b) as u64;
    Some((ids, read, stamps.oracle_epoch()))
}

fn ray(words: &[u64]) -> Ray {
    let [ox, oy, dx, dy, length] = floats(words);
    Ray {
        origin: (ox, oy),
        direction: (dx, dy),
        length,
    }
}

/// Where the epoch stands among the arguments and the results of 602. 609 has the others.
const EPOCH: [usize; 2] = [4, 3];

/// The Rust's answer, or the refusal that document 01 numbers.
fn rust_answer(scene: &Scene, number: u64, words: &[u64]) -> Words {
    match number {
        602 => {
            let (epoch, room) = (words[4] as u32, words[5] as usize);
            match near(scene, floats(words), epoch) {
                None => told_near(1, [0; 2], epoch, &vec![0; room]),
                Some((ids, _, after)) if room < ids.len() => {
                    told_near(8, [0; 2], after, &vec![0; room])
                }
                Some((ids, read, after)) => {
                    let tally = [ids.len() as u64, read];
                    told_near(0, tally, after, &padded(&ids, room, 0))
                }
            }
        }
        609 => {
            let mut asked = words.to_vec();
            asked.insert(EPOCH[0], 0);
            let mut told = rust_answer(scene, 602, &asked);
            told.remove(EPOCH[1]);
            told
        }
        603 | 605 => {
            let [x, y]: [f64; 2] = floats(words);
            let p = vec2((loaded(x), loaded(y)));
            let inside = is_coordinate(x) && is_coordinate(y);
            if !inside {
                return [1, 0, 0][..if number == 603 { 3 } else { 2 }].to_vec();
            }
            if number == 603 {
                let found = scene.polygon_at(p);
                let which = [u32::from(found.is_some()), found.unwrap_or(0)];
                return widened(&[0, which[0], which[1]]).collect();
            }
            let ids = scene.grid().items_at(p);
            let numbers = [0, ids.len() as u64];
            numbers.into_iter().chain(widened(ids)).collect()
        }
        604 => rust_look(scene, 0, ray(words)),
        606 => {
            let e = words[0] as u32;
            if e as usize >= scene.vertices().len() {
                return told_edge([1; 3], [0.0; 4], 0, 0);
            }
            let (a, b) = scene.edge(e);
            let (end, owner) = (scene.edge_end(e), scene.edge_owner(e));
            told_edge([0; 3], [a.x, a.y, b.x, b.y], end, owner)
        }
        607 => {
            let id = words[0] as u32;
            if id as usize >= scene.polygons().len() {
                return told_polygon(1, [0; 2], [0.0; 4]);
            }
            let p = scene.polygon(id);
            told_polygon(0, [p.first, p.len], four(p.aabb))
        }
        701 => outlines::rust_answer(scene, 0, words),
        702 => outlines::rust_answer(scene, words[0] as u32, &words[1..]),
        703 => rust_look(scene, words[0] as u32, ray(&words[1..])),
        _ => {
            let (cols, rows) = scene.grid().dims();
            let size = [scene.width(), scene.height()];
            told_extent(
                [0; 4],
                four(scene.bounds()),
                size,
                [cols as u32, rows as u32],
            )
        }
    }
}

fn is_inside(ray: Ray) -> bool {
    let (o, d) = (ray.origin, ray.direction);
    [o.0, o.1, d.0, d.1].iter().all(|&x| is_coordinate(x)) && !ray.length.is_nan()
}

fn rust_look(scene: &Scene, mode: u32, ray: Ray) -> Words {
    if !is_inside(ray) || mode > 1 {
        return told_look(1, 0.0, [0; 3]);
    }
    let (hit, cells) = ties::rust(scene, ray, mode);
    let (t, edge) = hit.map_or((0.0, 0), |h| (h.t, h.edge.into()));
    told_look(0, t, [u64::from(hit.is_some()), edge, cells])
}

fn our_look(site: &Lent, mode: u32, ray: Ray) -> Words {
    let (status, t, found) = site.cast_ray(ray.origin, ray.direction, ray.length, mode);
    told_look(status, t, found)
}

fn our_answer(site: &Lent, number: u64, words: &[u64]) -> Words {
    match number {
        609 => {
            let mut ids = vec![0; words[4] as usize];
            let (status, tally) = site.polygons_near_plain(&floats(words), &mut ids);
            told_near_plain(status, tally, &ids)
        }
        602 => {
            let mut epoch = words[4] as u32;
            let (mut marks, mut ids) = ([0; POLYGONS], vec![0; words[5] as usize]);
            let (status, tally) =
                site.polygons_near(&floats(words), &mut marks, &mut epoch, &mut ids);
            told_near(status, tally, epoch, &ids)
        }
        603 => {
            let [x, y] = floats(words);
            let (status, found) = site.polygon_at((x, y));
            widened(&[status, found[0], found[1]]).collect()
        }
        604 => our_look(site, 0, ray(words)),
        605 => {
            let [x, y] = floats(words);
            let (status, number) = site.items_at_number((x, y));
            let ids: Vec<u32> = (0..number as usize)
                .map(|i| site.item_at((x, y), i))
                .collect();
            let numbers = [status.into(), number];
            numbers.into_iter().chain(widened(&ids)).collect()
        }
        606 => {
            let e = words[0] as u32;
            let ((a, ends), (b, end)) = (site.edge(e), site.edge_end(e));
            let (c, owner) = site.edge_owner(e);
            told_edge([a, b, c], ends, end, owner)
        }
        607 => {
            let (status, place, b) = site.polygon(words[0] as u32);
            told_polygon(status, place, b)
        }
        701 => outlines::our_answer(site, 0, words),
        702 => outlines::our_answer(site, words[0] as u32, &words[1..]),
        703 => our_look(site, words[0] as u32, ray(&words[1..])),
        _ => {
            let ((a, four), (b, width)) = (site.bounds(), site.width());
            let ((c, height), (d, dims)) = (site.height(), site.dims());
            told_extent([a, b, c, d], four, [width, height], dims)
        }
    }
}

// ---- reading back

/// Reads a sample as crate `replay_sites` does, and prints what that prints.
fn replayed(text: &str) -> Result<bool, String> {
    let (mut site, mut sites) = (Lent::blank(ROOM), 0);
    let (mut functions, mut top, mut differ) = (Vec::new(), 0, 0);
    if !text.ends_with('\n') {
        return Err("the last line has no end".to_string());
    }
    for (i, line) in text.lines().enumerate() {
        let at = |why: &str| format!("line {}: {why}: {line}", i + 1);
        let words = words(line).ok_or_else(|| at("not words of hexadecimal digits"))?;
        let (&number, rest) = words.split_first().ok_or_else(|| at("empty"))?;
        let cut = length(number, rest).and_then(|n| rest.split_at_checked(n));
        let (arguments, results) = cut.ok_or_else(|| at("no such function, or too short"))?;
        if sites == 0 && number != 601 {
            return Err(at("there is no site yet"));
        }
        let ours = if number == 601 {
            sites += 1;
            let given = given_of(arguments);
            site = Lent::blank(ROOM);
            let status = site.build(given.size, &given.points, &given.lens);
            told(status, &site)
        } else {
            our_answer(&site, number, arguments)
        };
        if ours != results {
            differ += 1;
            println!("{}", at("ours differs"));
        }
        if number > top {
            functions.push(number);
            top = number;
        }
    }
    let first = [601].into_iter().chain(QUESTIONS.map(|(number, _)| number));
    if !functions.iter().copied().eq(first.chain(MODED)) {
        return Err("new functions are not asked in the order of the numbers".to_string());
    }
    let (n, f) = (text.lines().count(), functions.len());
    println!("{n} answers of {f} functions over {sites} sites, {differ} differ");
    Ok(differ == 0)
}
