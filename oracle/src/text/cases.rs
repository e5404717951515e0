//! The stored cases with the answers worked out here, with six decimals and with three.

use super::{BOTH, expected};
use std::io::{Error, Result, Write, stdout};

/// A case is a line `BYTES NAME`, then so many bytes, then LF. Each is printed as its line, the answer with
/// six decimals, a line `3 DECIMALS`, and the answer with three, as crate `cases` does.
pub fn print(file: &str) -> Result<bool> {
    let stored = std::fs::read(file)?;
    let mut rest = &stored[..];
    let mut out = stdout().lock();
    let [six, three] = BOTH.map(|program| program.places);
    while !rest.is_empty() {
        let (line, text, behind) = split(rest).ok_or_else(|| {
            let at = stored.len() - rest.len();
            Error::other(format!("no case at byte {at} of {file}"))
        })?;
        let expected = expected::answer(text);
        out.write_all(line)?;
        out.write_all(b"\n")?;
        out.write_all(&expected.printed(six))?;
        writeln!(out, "{three} DECIMALS")?;
        out.write_all(&expected.printed(three))?;
        rest = behind;
    }
    Ok(true)
}

/// The first case's line without its end, its text, and what stands behind it.
fn split(stored: &[u8]) -> Option<(&[u8], &[u8], &[u8])> {
    let end = stored.iter().position(|&b| b == b'\n')?;
    let (line, rest) = (&stored[..end], &stored[end + 1..]);
    let bytes = line.split(|&b| b == b' ').next()?;
    let bytes = std::str::from_utf8(bytes).ok()?.parse().ok()?;
    let (text, rest) = rest.split_at_checked(bytes)?;
    Some((line, text, rest.strip_prefix(b"\n")?))
}
