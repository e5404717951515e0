//! A text read line by line, straight from the words of document 01, "The text program", and of document
//! 02, Q-2 and Q-7: split at LF, at comma and space, and at spaces, with keywords in any mix of cases and
//! up to six decimals. It shares nothing with our reader, which runs a cursor over bytes.

use crate::sites::{Plan, Point, Ring};

/// A text as laid out.
pub struct Read {
    pub post: Point,
    pub range: f64,
    /// The rings without their closing points, on a site without width and height.
    pub plan: Plan,
}

/// More is not as laid out.
pub const MOST_BYTES: usize = 16_384;

/// Nothing where the text is not as laid out.
pub fn read(text: &[u8]) -> Option<Read> {
    if text.len() > MOST_BYTES {
        return None;
    }
    // Every byte of the layout is ASCII.
    let text = std::str::from_utf8(text).ok()?;
    let mut lines = text.strip_suffix('\n')?.split('\n');
    let inner = behind(lines.next()?, "POINT M (")?.strip_suffix(')')?;
    let [x, y, range] = numbers(inner)?;
    let rings = lines.map(ring).collect::<Option<_>>()?;
    Some(Read {
        post: (x, y),
        range,
        plan: Plan {
            size: (0.0, 0.0),
            rings,
        },
    })
}

/// What stands behind a line's first words, whose ASCII letters may be small; no other byte is folded.
fn behind<'a>(line: &'a str, words: &str) -> Option<&'a str> {
    let (first, rest) = line.split_at_checked(words.len())?;
    first.eq_ignore_ascii_case(words).then_some(rest)
}

/// A line of a polygon: without points, or closed and of at least four with the closing one.
fn ring(line: &str) -> Option<Ring> {
    if behind(line, "POLYGON EMPTY") == Some("") {
        return Some(Ring::new());
    }
    let inner = behind(line, "POLYGON ((")?.strip_suffix("))")?;
    let point = |p: &str| numbers(p).map(|[x, y]| (x, y));
    let mut ring = inner.split(", ").map(point).collect::<Option<Ring>>()?;
    if ring.len() < 4 {
        return None;
    }
    let last = ring.pop()?;
    (last == ring[0]).then_some(ring)
}

/// Exactly N numbers, one space between them.
fn numbers<const N: usize>(words: &str) -> Option<[f64; N]> {
    let all = words.split(' ').map(number).collect::<Option<Vec<f64>>>()?;
    all.try_into().ok()
}

/// The float nearest to it, by Rust's library; minus zero is loaded as plus zero.
fn number(word: &str) -> Option<f64> {
    let size = word.strip_prefix('-').unwrap_or(word);
    let (whole, part) = match size.split_once('.') {
        Some((whole, part)) => (whole, Some(part)),
        None => (size, None),
    };
    let digits = |s: &str, most: usize| {
        (1..=most).contains(&s.len()) && s.bytes().all(|b| b.is_ascii_digit())
    };
    let laid_out = digits(whole, 7) && part.is_none_or(|p| digits(p, 6));
    let value = || word.parse::<f64>().expect("a decimal number");
    laid_out.then(|| value() + 0.0)
}
