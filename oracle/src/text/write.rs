//! Texts and their answers in two files, one geometry on each line, for a reader of Well-Known Text
//! that is not ours.

use super::survey::{self, empty_lines, small_letters};
use super::{inputs, ours};
use crate::util::rng::SplitMix64;
use crate::util::table::{Table, count};
use std::fs::{File, create_dir_all};
use std::io::{BufWriter, Result, Write};
use std::path::Path;

/// So many texts in capitals are answered and not refused.
const ANSWERS: u64 = 10_000;

/// Writes FOLDER/given.wkt, the lines of the texts that are as laid out, and FOLDER/answers.wkt, what was
/// answered; refusals are no geometry and are left out. Each text is there in capitals, and as a survey
/// office writes it.
pub fn write(folder: &str) -> Result<bool> {
    let folder = Path::new(folder);
    create_dir_all(folder)?;
    let create = |name: &str| File::create(folder.join(name)).map(BufWriter::new);
    let mut files = [create("given.wkt")?, create("answers.wkt")?];
    let (mut capitals, mut survey) = (Written::default(), Written::default());
    let groups = inputs::groups();
    let (r, s) = (&mut SplitMix64::new(8_950), &mut SplitMix64::new(8_951));
    while capitals.answered < ANSWERS {
        let group = &groups[capitals.texts as usize % groups.len()];
        let text = (group.make)(r);
        capitals.add(&text, &mut files)?;
        survey.add(&survey::written(s, &text).1, &mut files)?;
    }
    for file in &mut files {
        file.flush()?;
    }
    let mut table = Table::new(&[
        "",
        "texts",
        "refused 9, left out",
        "refused otherwise",
        "answered",
        "lines not left out",
        "of them with a small letter",
        "of them EMPTY",
        "lines answered",
    ]);
    table.row(capitals.row("in capitals"));
    table.row(survey.row("the same of mixed case, with EMPTY lines"));
    table.print();
    Ok(true)
}

/// What was written, counted.
#[derive(Default)]
struct Written {
    texts: u64,
    bad: u64,
    refused: u64,
    answered: u64,
    lines: u64,
    small: u64,
    empty: u64,
    printed: u64,
}

impl Written {
    fn add(&mut self, text: &[u8], [given, answers]: &mut [BufWriter<File>; 2]) -> Result<()> {
        self.texts += 1;
        let out = ours(text);
        if out == b"REFUSED 9\n" {
            self.bad += 1;
            return Ok(());
        }
        given.write_all(text)?;
        let lines = || text.split_inclusive(|&b| b == b'\n');
        self.lines += lines().count() as u64;
        self.small += lines().filter(|line| small_letters(line) > 0).count() as u64;
        self.empty += empty_lines(text);
        if out.starts_with(b"REFUSED") {
            self.refused += 1;
            return Ok(());
        }
        self.answered += 1;
        self.printed += out.split_inclusive(|&b| b == b'\n').count() as u64;
        answers.write_all(&out)
    }

    fn row(&self, what: &str) -> Vec<String> {
        let numbers = [
            self.texts,
            self.bad,
            self.refused,
            self.answered,
            self.lines,
            self.small,
            self.empty,
            self.printed,
        ];
        let mut row = vec![what.to_string()];
        row.extend(numbers.map(count));
        row
    }
}
