//! Ways to damage a text. Some leave it as laid out; the reader beside this file decides.

use super::inputs::{self, Text, numbers};
use super::reader::MOST_BYTES;
use super::survey::{self, EMPTY};
use crate::util::rng::SplitMix64;
use std::ops::Range;

type Harm = fn(&mut SplitMix64, &mut Text);

pub struct Kind {
    pub what: &'static str,
    pub texts: usize,
    pub harm: Harm,
}

const KINDS: [(&str, Harm); 23] = [
    ("a byte changed", byte_changed),
    ("a byte changed to one of the layout", byte_in_layout),
    ("a byte deleted", byte_deleted),
    ("a byte inserted", byte_inserted),
    ("two neighbours swapped", neighbours_swapped),
    ("cut short", cut_short),
    ("a stretch deleted or doubled", stretch),
    ("a line doubled, deleted or swapped", lines_moved),
    ("CR, tab, NUL or a high byte", foreign),
    ("a letter or word in another case", other_case),
    ("a byte 32 away, or with another high bit", step_of_32),
    (
        "a letter's neighbour, or a letter that is not ASCII",
        no_letter,
    ),
    ("EMPTY, as laid out or not", empty),
    ("a number of many digits", many_digits),
    ("a number written oddly", odd_number),
    ("the last LF missing, or one too many", last_end),
    ("the closing point altered", closing_point),
    ("two lines on one", joined),
    ("POINT twice, late or missing", points),
    ("a space doubled, moved or missing", spaces),
    ("a ring with fewer points", fewer_points),
    ("a bracket or comma more or less", brackets),
    ("two or three of these", several),
];

const EACH: usize = 52_000;

pub fn kinds() -> Vec<Kind> {
    let kind = |(what, harm)| Kind {
        what,
        texts: EACH,
        harm,
    };
    let mut all: Vec<Kind> = KINDS.into_iter().map(kind).collect();
    let long: [(&str, Harm); 3] = [
        ("as laid out, of 16,383 or 16,384 bytes", within),
        ("as laid out otherwise, of 16,385 bytes or more", beyond),
        ("of 16,383 to 16,385 bytes, a byte changed", beside),
    ];
    all.extend(long.map(|(what, harm)| Kind {
        what,
        texts: 6_000,
        harm,
    }));
    all
}

/// Texts to be damaged, most of them small: one damage is to matter. Every other one is as a survey office
/// writes it, unless that is long.
pub fn pool(r: &mut SplitMix64) -> Vec<Text> {
    let groups = inputs::groups();
    let mut all = Vec::new();
    while all.len() < 600 {
        let group = &groups[r.below(inputs::OF_SITES as u64) as usize];
        let text = (group.make)(r);
        if text.len() >= 700 {
            continue;
        }
        all.push(text);
        let (_, text) = survey::written(r, &all[all.len() - 1]);
        if text.len() < 700 + 66 * EMPTY.len() {
            all.push(text);
        }
    }
    all
}

// ---- places

const LAYOUT: &[u8] = b"POINT M POLYGON EMPTY pointmlyge (()), ,..--01234567890123456789\n";

/// A place in the text, or behind it.
fn at(r: &mut SplitMix64, text: &Text) -> usize {
    r.below(text.len() as u64 + 1) as usize
}

/// One of the places where such a byte stands.
fn at_one_of(r: &mut SplitMix64, text: &Text, bytes: &[u8]) -> Option<usize> {
    let places = (0..text.len()).filter(|&i| bytes.contains(&text[i]));
    one_of(r, places.collect())
}

fn a_letter(r: &mut SplitMix64, text: &Text) -> Option<usize> {
    let places = (0..text.len()).filter(|&i| text[i].is_ascii_alphabetic());
    one_of(r, places.collect())
}

pub fn one_of<T>(r: &mut SplitMix64, mut from: Vec<T>) -> Option<T> {
    let n = from.len() as u64;
    (n > 0).then(|| from.swap_remove(r.below(n) as usize))
}

/// The lines with their ends.
fn lines(text: &[u8]) -> Vec<Text> {
    let lines = text.split_inclusive(|&b| b == b'\n');
    lines.map(<[u8]>::to_vec).collect()
}

/// Where a ring's points stand in the text.
pub fn a_ring(r: &mut SplitMix64, text: &Text) -> Option<Range<usize>> {
    let mut rings = Vec::new();
    let mut begin = 0;
    for line in lines(text) {
        let end = begin + line.len();
        let capitals = line.to_ascii_uppercase();
        if capitals.starts_with(b"POLYGON ((") && line.ends_with(b"))\n") {
            rings.push(begin + 10..end - 3);
        }
        begin = end;
    }
    one_of(r, rings)
}

pub fn put(text: &mut Text, place: Range<usize>, bytes: &[u8]) {
    text.splice(place, bytes.iter().copied());
}

// ---- damages

fn byte_changed(r: &mut SplitMix64, text: &mut Text) {
    let i = r.below(text.len() as u64) as usize;
    text[i] = r.bits() as u8;
}

fn byte_in_layout(r: &mut SplitMix64, text: &mut Text) {
    let i = r.below(text.len() as u64) as usize;
    text[i] = r.pick(LAYOUT);
}

fn byte_deleted(r: &mut SplitMix64, text: &mut Text) {
    let i = r.below(text.len() as u64) as usize;
    text.remove(i);
}

fn byte_inserted(r: &mut SplitMix64, text: &mut Text) {
    let any = r.bits() as u8;
    let (i, b) = (at(r, text), r.pick(LAYOUT));
    text.insert(i, r.pick(&[b, b, b, any]));
}

fn neighbours_swapped(r: &mut SplitMix64, text: &mut Text) {
    let i = r.below(text.len() as u64 - 1) as usize;
    text.swap(i, i + 1);
}

fn cut_short(r: &mut SplitMix64, text: &mut Text) {
    let i = at(r, text);
    let end = at_one_of(r, text, b"\n").map_or(i, |end| end + r.below(2) as usize);
    text.truncate(r.pick(&[i, end]));
}

fn stretch(r: &mut SplitMix64, text: &mut Text) {
    let from = at(r, text);
    let to = (from + 1 + r.below(30) as usize).min(text.len());
    if r.below(2) == 0 {
        text.drain(from..to);
    } else {
        let again = text[from..to].to_vec();
        let any = at(r, text);
        let i = r.pick(&[from, to, any]);
        put(text, i..i, &again);
    }
}

fn lines_moved(r: &mut SplitMix64, text: &mut Text) {
    let mut all = lines(text);
    let n = all.len() as u64;
    let (i, j) = (r.below(n) as usize, r.below(n) as usize);
    match r.below(3) {
        0 => all.insert(j, all[i].clone()),
        1 => drop(all.remove(i)),
        _ => all.swap(i, j),
    }
    *text = all.concat();
}

fn foreign(r: &mut SplitMix64, text: &mut Text) {
    let high = 128 + r.below(128) as u8;
    let b = r.pick(&[b'\r', b'\r', b'\t', 0, 0x0B, 0xC2, 0xA0, high]);
    let any = at(r, text);
    let at = at_one_of(r, text, b" \n").unwrap_or(any);
    let i = r.pick(&[any, at, at]);
    match r.below(3) {
        0 if i < text.len() => text[i] = b,
        1 => put(text, i..i, "\u{A0}".as_bytes()),
        _ => text.insert(i, b),
    }
}

/// A letter's case is the bit of 32.
fn other_case(r: &mut SplitMix64, text: &mut Text) {
    let Some(i) = a_letter(r, text) else {
        return;
    };
    match r.below(3) {
        0 => text[i] ^= 32,
        1 => {
            let word = text[i..].iter_mut().take_while(|b| b.is_ascii_alphabetic());
            word.for_each(|b| *b ^= 32);
        }
        _ => survey::recased(r, text),
    }
}

/// A byte that folding by a bit, or by a step of 32, would take for the one that stood there: NUL for a
/// space, tab for a bracket.
fn step_of_32(r: &mut SplitMix64, text: &mut Text) {
    let any = r.below(text.len() as u64) as usize;
    let at = at_one_of(r, text, b" (),\n").unwrap_or(any);
    let i = r.pick(&[any, at, at]);
    let b = text[i];
    text[i] = r.pick(&[
        b ^ 32,
        b.wrapping_add(32),
        b.wrapping_sub(32),
        b ^ 128,
        b ^ 160,
    ]);
}

/// In a letter's place or beside it: what stands beside the ASCII letters, what Unicode folds to one of
/// them (s, k, i), what looks like one (O, M), and a P in two bytes.
fn no_letter(r: &mut SplitMix64, text: &mut Text) {
    let dots = ["\u{131}", "\u{130}"].map(str::as_bytes);
    if let (0, Some(i)) = (r.below(4), at_one_of(r, text, b"Ii")) {
        return put(text, i..i + 1, r.pick(&dots));
    }
    let Some(i) = a_letter(r, text) else {
        return;
    };
    let bytes: [&[u8]; 5] = [b"@", b"[", b"`", b"{", b"\xC1\x90"];
    let others = ["\u{17F}", "\u{212A}", "\u{FF2F}", "\u{39F}", "\u{41C}"].map(str::as_bytes);
    let all = [&bytes[..], &dots, &others].concat();
    let (from, to) = r.pick(&[(i, i), (i, i + 1), (i, i + 1), (i + 1, i + 1)]);
    put(text, from..to, r.pick(&all));
}

/// A line with EMPTY put among the others or in the place of one, in any mix of cases.
fn empty(r: &mut SplitMix64, text: &mut Text) {
    let posts: [&[u8]; 6] = [
        b"POINT M EMPTY\n",
        b"POINT M EMPTY\n",
        b"POINT EMPTY\n",
        b"POINT M (EMPTY)\n",
        b"POINT EMPTY M\n",
        EMPTY,
    ];
    let polygons: [&[u8]; 20] = [
        b"POLYGON  EMPTY\n",
        b" POLYGON EMPTY\n",
        b"POLYGON EMPTY \n",
        b"POLYGONEMPTY\n",
        b"POLYGON EMPTY",
        b"POLYGON EMPTY\r\n",
        b"POLYGON\tEMPTY\n",
        b"POLYGON EMPT\n",
        b"POLYGON EMPTYY\n",
        b"POLYGON EMPTY EMPTY\n",
        b"POLYGON EMPTY((0 0, 1 0, 0 1, 0 0))\n",
        b"POLYGON M EMPTY\n",
        b"POLYGON (EMPTY)\n",
        b"POLYGON ((EMPTY))\n",
        b"POLYGON (())\n",
        b"POLYGON ()\n",
        b"POLYGON \n",
        b"POLYGON\n",
        b"EMPTY\n",
        b"POINT M EMPTY\n",
    ];
    let mut all = lines(text);
    let n = all.len() as u64;
    let (i, line) = match r.below(6) {
        0 => (0, r.pick(&posts)),
        1 | 2 => (r.below(n + 1) as usize, EMPTY),
        _ => (r.below(n + 1) as usize, r.pick(&polygons)),
    };
    let mut line = line.to_vec();
    survey::recased(r, &mut line);
    if i < all.len() && r.below(2) == 0 {
        all[i] = line;
    } else {
        all.insert(i, line);
    }
    *text = all.concat();
}

/// One number put in the place of another.
fn replaced(r: &mut SplitMix64, text: &mut Text, number: &[u8]) {
    let all = numbers(text, 0..text.len());
    if let Some(place) = one_of(r, all) {
        put(text, place, number);
    }
}

fn many_digits(r: &mut SplitMix64, text: &mut Text) {
    let digits = |r: &mut SplitMix64, n: u64| -> String {
        (0..n)
            .map(|_| char::from(b'0' + r.below(10) as u8))
            .collect()
    };
    let long = r.pick(&[1, 6, 7, 7, 8, 8, 9, 20, 400]);
    let zeros = r.below(2) == 0;
    let mut number = r.pick(&["", "-"]).to_string();
    number += &if zeros {
        "0".repeat(long as usize)
    } else {
        digits(r, long)
    };
    let part = r.pick(&[0, 0, 1, 2, 3, 4, 5, 6, 6, 7, 7, 8, 17]);
    if part > 0 {
        number += ".";
        number += &digits(r, part);
    }
    replaced(r, text, number.as_bytes());
}

fn odd_number(r: &mut SplitMix64, text: &mut Text) {
    let number = r.pick(&[
        "1.",
        ".5",
        "-.5",
        "+1",
        "1e3",
        "1E3",
        "-",
        "--1",
        "1-",
        "-0",
        "-0.000",
        "00",
        "0000000.000",
        "-0000000",
        "00000000",
        "0.0000",
        "0.000000",
        "0.0000000",
        "-0.000000",
        "0000000.000000",
        "0000000.0000000",
        "1.2.3",
        "1..2",
        "inf",
        "NaN",
        "1,5",
        "0x1",
        "",
        ".",
        "9999999.999",
        "-9999999.999",
        "9999999.999999",
        "-9999999.999999",
        "9999999.9999999",
        "1000000",
        "1000000.0",
        "1000000.001",
        "1000000.000001",
        "1_0",
        "\u{0661}",
        "\u{FF11}",
        "- 1",
        "1 ",
        " 1",
    ]);
    replaced(r, text, number.as_bytes());
}

fn last_end(r: &mut SplitMix64, text: &mut Text) {
    match r.below(5) {
        0 => drop(text.pop()),
        1 => text.push(b'\n'),
        2 => text.insert(0, b'\n'),
        3 => text.push(r.pick(b" \r\0)P")),
        _ => {
            let i = at_one_of(r, text, b"\n").expect("a line");
            text.insert(i, b'\n');
        }
    }
}

/// The closing point in other words, or moved.
fn closing_point(r: &mut SplitMix64, text: &mut Text) {
    let Some(ring) = a_ring(r, text) else {
        return byte_changed(r, text);
    };
    let all = numbers(text, ring);
    let Some(i) = all.len().checked_sub(1 + r.below(2) as usize) else {
        return;
    };
    let last = all[i].clone();
    let word = String::from_utf8(text[last.clone()].to_vec()).expect("a number");
    let size = word.strip_prefix('-').unwrap_or(&word);
    let minus = if word.len() > size.len() { "-" } else { "" };
    let whole = |s: &str| format!("{minus}{s}");
    let new = match r.below(8) {
        0 => whole(&format!("0{size}")),
        1 => format!("{word}0"),
        2 if !size.contains('.') => format!("{word}.0"),
        3 if !size.contains('.') => word.clone() + r.pick(&[".001", ".000001"]),
        4 => size.to_string(),
        5 => format!("-{size}"),
        6 => whole(size.trim_end_matches('0').trim_end_matches('.')),
        _ => {
            let mut bytes = word.clone().into_bytes();
            let i = r.below(bytes.len() as u64) as usize;
            bytes[i] = b'0' + r.below(10) as u8;
            String::from_utf8(bytes).expect("digits")
        }
    };
    put(text, last, new.as_bytes());
}

fn joined(r: &mut SplitMix64, text: &mut Text) {
    let Some(i) = at_one_of(r, text, b"\n") else {
        return;
    };
    let between: [&[u8]; 6] = [b"", b" ", b", ", b",", b"\r", b";"];
    put(text, i..i + 1, r.pick(&between));
}

fn points(r: &mut SplitMix64, text: &mut Text) {
    let mut all = lines(text);
    let post = all[0].clone();
    let other: [&[u8]; 7] = [
        &post,
        b"POINT (1 2)\n",
        b"POINT M (1 2)\n",
        b"POINT M (1 2 3 4)\n",
        b"POINT ZM (1 2 3 4)\n",
        b"POINT Z (1 2 3)\n",
        b"POINTM (1 2 3)\n",
    ];
    let mut line = r.pick(&other).to_vec();
    survey::recased(r, &mut line);
    let i = r.below(all.len() as u64 + 1) as usize;
    match r.below(4) {
        0 => all.insert(i, line),
        1 => all[0] = line,
        2 => drop(all.remove(0)),
        _ => {
            all.remove(0);
            all.insert(i.min(all.len()), post);
        }
    }
    *text = all.concat();
}

fn spaces(r: &mut SplitMix64, text: &mut Text) {
    let Some(i) = at_one_of(r, text, b" ") else {
        return;
    };
    let any = at(r, text);
    match r.below(4) {
        0 => text.insert(i, b' '),
        1 => drop(text.remove(i)),
        2 => text.insert(any, b' '),
        _ => {
            text.remove(i);
            text.insert(any.min(text.len()), b' ');
        }
    }
}

fn fewer_points(r: &mut SplitMix64, text: &mut Text) {
    let Some(ring) = a_ring(r, text) else {
        return cut_short(r, text);
    };
    let words = String::from_utf8_lossy(&text[ring.clone()]).into_owned();
    let mut all: Vec<&str> = words.split(", ").collect();
    let first = all[0];
    if r.below(3) == 0 {
        let i = r.below(all.len() as u64) as usize;
        all.remove(i);
    } else {
        all.truncate(r.below(5) as usize);
    }
    if r.below(2) == 0 {
        all.push(first);
    }
    if r.below(8) == 0 {
        all.push("");
    }
    let between = r.pick(&[", ", ", ", ", ", ", ", ",", " , ", "), ("]);
    put(text, ring, all.join(between).as_bytes());
}

fn brackets(r: &mut SplitMix64, text: &mut Text) {
    let Some(i) = at_one_of(r, text, b"(),") else {
        return;
    };
    let b = r.pick(b"(),[]{};");
    match r.below(3) {
        0 => text.insert(i, text[i]),
        1 => text[i] = b,
        _ => drop(text.remove(i)),
    }
}

fn several(r: &mut SplitMix64, text: &mut Text) {
    for _ in 0..2 + r.below(2) {
        let (_, harm) = KINDS[r.below(KINDS.len() as u64 - 1) as usize];
        if text.len() > 1 && text.contains(&b'\n') {
            harm(r, text);
        }
    }
}

// ---- the greatest length

fn within(r: &mut SplitMix64, text: &mut Text) {
    let less = r.below(2) as usize;
    sized(r, text, MOST_BYTES - less);
}

fn beyond(r: &mut SplitMix64, text: &mut Text) {
    let more = r.pick(&[1, 1, 1, 2, 4_000, 60_000]);
    sized(r, text, MOST_BYTES + more);
}

fn beside(r: &mut SplitMix64, text: &mut Text) {
    let more = r.below(3) as usize;
    sized(r, text, MOST_BYTES - 1 + more);
    byte_in_layout(r, text);
}

/// A text of a length: the last bytes are zeros in front of numbers. Without sides a line is EMPTY.
fn sized(r: &mut SplitMix64, text: &mut Text, long: usize) {
    let sides = r.pick(&[0, 3, 3, 5, 30, 500]);
    let wide = r.pick(&[1, 3, 7]);
    let part = r.pick(&["", "", ".25", ".000001"]);
    let number = |r: &mut SplitMix64| format!("{:0>wide$}{part}", r.below(100));
    // A line, and the next, as long as they fit.
    loop {
        let mut words: Vec<String> = Vec::new();
        for _ in 0..sides {
            words.push(format!("{} {}", number(r), number(r)));
        }
        words.extend(words.first().cloned());
        let line = if words.is_empty() {
            EMPTY.to_vec()
        } else {
            format!("POLYGON (({}))\n", words.join(", ")).into_bytes()
        };
        if text.len() + line.len() + TRIANGLE.len() > long {
            break;
        }
        text.extend(line);
    }
    lengthen(r, text, long);
    survey::recased(r, text);
}

/// The shortest line with numbers: these take more zeros than it has bytes.
const TRIANGLE: &[u8] = b"POLYGON ((0 0, 1 0, 0 1, 0 0))\n";

/// With small triangles as long as they fit, then with zeros in front of numbers.
fn lengthen(r: &mut SplitMix64, text: &mut Text, long: usize) {
    while text.len() + TRIANGLE.len() <= long {
        text.extend(TRIANGLE);
    }
    let mut places = numbers(text, 0..text.len());
    // Towards the front, so that places stay true.
    places.truncate(places.len() - r.below(3) as usize);
    for place in places.iter().rev() {
        let from = place.start + usize::from(text[place.start] == b'-');
        let whole = text[from..place.end]
            .iter()
            .take_while(|b| b.is_ascii_digit());
        let zeros = (7 - whole.count()).min(long - text.len());
        put(text, from..from, &b"0".repeat(zeros));
    }
    assert_eq!(text.len(), long);
}
