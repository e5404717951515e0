//! Crate `planner`, the text program's whole answer (crate `exports_text`), with six decimals and with
//! three: byte for byte the answer that is worked out here from the documents' words and the published
//! Rust, with both substitutions (`text/expected.rs`). Texts as laid out, in rooms that are just enough,
//! longer and too short; the same as a survey office writes them; ones with up to seven decimals; and
//! damaged ones, refused 9 exactly where a second reader, of another shape, says so. Besides, single numbers
//! as ours prints and reads them.

pub mod cases;
mod damage;
mod decimals;
mod expected;
mod inputs;
mod print;
mod reader;
mod reading;
mod survey;
mod write;

pub use write::write;

use crate::lent;
use crate::util::rng::SplitMix64;
use crate::util::table::{Table, count};
use crate::util::tally::{self, Tally, Value};
use crate::util::timing::Bench;
use crate::view::LISTS;
use decimals::Decimals;
use expected::{ENTRIES, Expected, MOST_CELLS, MOST_OUTLINE};
use inputs::Text;
use std::collections::HashSet;
use std::hash::{DefaultHasher, Hasher};
use survey::Survey;

pub fn compare() -> bool {
    let printing = print::compare();
    let reading = reading::compare();
    let mut held = Held::new();
    let mut survey = Survey::new();
    let mut decimals = Decimals::new();
    let mut table = counts_table("inputs: texts");
    for (i, group) in inputs::groups().iter().enumerate() {
        let r = &mut SplitMix64::new(8_000 + i as u64);
        let s = &mut SplitMix64::new(8_200 + i as u64);
        let mut counts = Counts::default();
        for _ in 0..group.texts {
            let text = (group.make)(r);
            let expected = expected::answer(&text);
            counts.add(&expected);
            decimals.count(&text);
            held.whole(r, &text, &expected);
            survey.hold(s, &text, &mut held.asked);
        }
        table.row(counts.row(group.what));
        held.all.join(&counts);
    }
    table.row(held.all.row("all"));
    table.print();
    held.reach.print();
    decimals.hold(&mut held.asked);
    decimals.print();
    survey.print();
    let mut table = counts_table("inputs: damaged texts");
    let mut all = Counts::default();
    for (i, kind) in damage::kinds().iter().enumerate() {
        let r = &mut SplitMix64::new(8_500 + i as u64);
        let counts = held.damaged(r, kind);
        table.row(counts.row(kind.what));
        all.join(&counts);
    }
    table.row(all.row("all"));
    table.print();
    let mut tallies = vec![
        held.sample,
        held.exact,
        held.longer,
        held.short,
        held.three,
        held.three_short,
    ];
    tallies.extend(survey.worked_out.0);
    tallies.extend([survey.capitals, survey.over]);
    tallies.extend(decimals.worked_out.0);
    tallies.extend([decimals.nine, decimals.alike]);
    tallies.extend(held.damaged.0);
    tallies.extend(printing);
    tallies.extend(reading);
    tally::print(&tallies)
}

/// Of single numbers: the Rust has no text program.
pub fn bench(table: &mut Bench) {
    print::bench(table);
    reading::bench(table);
}

// ---- what is counted

/// How many texts come to each number, 0 being an answer.
#[derive(Default)]
struct Counts([u64; 10]);

/// The numbers that a text can come to, in the order in which they are asked.
const NUMBERS: [usize; 6] = [9, 2, 1, 4, 5, 8];

fn counts_table(what: &str) -> Table {
    let refused = NUMBERS.map(|n| format!("refused {n}"));
    let mut head = vec![what, "texts"];
    head.extend(refused.iter().map(String::as_str));
    head.push("answered");
    Table::new(&head)
}

impl Counts {
    fn add(&mut self, expected: &Expected) {
        self.0[expected.number as usize] += 1;
    }

    fn join(&mut self, other: &Self) {
        self.0.iter_mut().zip(other.0).for_each(|(n, m)| *n += m);
    }

    fn row(&self, what: &str) -> Vec<String> {
        let mut row = vec![what.to_string(), count(self.0.iter().sum())];
        row.extend(NUMBERS.map(|n| count(self.0[n])));
        row.push(count(self.0[0]));
        row
    }
}

/// The entries of what `Reach` counts.
fn entries() -> impl Iterator<Item = u64> {
    let work = ENTRIES.map(u64::from).into_iter();
    let cells = std::iter::once(MOST_CELLS as u64);
    cells.chain(work).chain([MOST_OUTLINE as u64])
}

/// What the texts reach of the entries that document 01 gives.
#[derive(Default)]
struct Reach {
    distinct: u64,
    /// For cells, each work list and the outline: the greatest need, how often all entries are needed
    /// and enough, how often more, how often more of this one alone, and then by one.
    lists: [[u64; 5]; 11],
    empty: u64,
    points: u64,
    visible: u64,
    /// Of six decimals, and of three.
    halves: [u64; 2],
    longest: [u64; 2],
}

impl Reach {
    fn add(&mut self, expected: &Expected) {
        let mut needs = vec![expected.cells as u64];
        if let Some(run) = &expected.run {
            needs.extend(run.needs.map(u64::from));
            needs.push(run.points as u64);
        }
        let over = needs.iter().zip(entries()).filter(|(n, k)| *n > k).count();
        for ((list, &n), k) in self.lists.iter_mut().zip(&needs).zip(entries()) {
            list[0] = list[0].max(n);
            list[1] += u64::from(n == k && expected.number == 0);
            list[2] += u64::from(n > k);
            list[3] += u64::from(n > k && over == 1);
            list[4] += u64::from(n == k + 1 && over == 1);
        }
        if let (0, Some(run)) = (expected.number, &expected.run) {
            self.empty += u64::from(run.points == 0);
            self.points += run.points as u64;
            self.visible += run.visible as u64;
            for (n, program) in self.halves.iter_mut().zip(BOTH) {
                *n += expected.halves(program.places) as u64;
            }
        }
    }

    fn print(&self) {
        let mut table = Table::new(&["what the answers reach", "count"]);
        for (what, n) in [
            ("different texts", self.distinct),
            ("outline points", self.points),
            ("outlines without points", self.empty),
            ("visible polygons", self.visible),
            (
                "printed coordinates half-way between two of six decimals",
                self.halves[0],
            ),
            ("between two of three decimals", self.halves[1]),
            (
                "bytes of the longest answer with six decimals",
                self.longest[0],
            ),
            ("with three decimals", self.longest[1]),
        ] {
            table.row(vec![what.to_string(), count(n)]);
        }
        table.print();
        let mut table = Table::new(&[
            "texts that need",
            "entries",
            "at most",
            "all of them, and are answered",
            "more",
            "more of these alone",
            "one more of these alone",
        ]);
        let names = [&["cells"], &LISTS[..], &["outline points"]].concat();
        for ((name, k), list) in names.iter().zip(entries()).zip(self.lists) {
            let mut row = vec![name.to_string(), count(k)];
            row.extend(list.map(count));
            table.row(row);
        }
        table.print();
    }
}

// ---- both sides

/// A text, shown with escapes.
#[derive(Clone, Copy)]
struct Given<'a>(&'a [u8]);

impl Value for Given<'_> {
    fn same(self, _: Self) -> bool {
        unreachable!("inputs are only shown")
    }
    fn show(self) -> String {
        format!("\"{}\"", self.0.escape_ascii())
    }
}

/// The length answered, and all of the lent room.
#[derive(Clone, Copy)]
struct Told<'a>(usize, &'a [u8]);

impl Value for Told<'_> {
    fn same(self, other: Self) -> bool {
        self.0 == other.0 && self.1 == other.1
    }
    fn show(self) -> String {
        format!("{} \"{}\"", self.0, self.1.escape_ascii())
    }
}

/// What the room holds before a call.
const FILL: u8 = 0xA5;

/// A call of the text program, and how many decimals it prints.
#[derive(Clone, Copy)]
struct Program {
    answer: fn(&[u8], &mut [u8]) -> usize,
    places: usize,
}

const SIX: Program = Program {
    answer: lent::answer,
    places: 6,
};
const THREE: Program = Program {
    answer: lent::answer_three,
    places: 3,
};
const BOTH: [Program; 2] = [SIX, THREE];

impl Program {
    fn hold(self, tally: &mut Tally, text: &[u8], expected: &[u8], room: usize) {
        let mut out = vec![FILL; room];
        let n = (self.answer)(text, &mut out);
        let mut all = expected.to_vec();
        all.resize(room, 0);
        tally.add(Given(text), Told(n, &out), Told(expected.len(), &all));
    }
}

/// What `expected::answer` says.
const WORKED_OUT: &str = "worked out here, by the Rust";

/// Both calls beside it, in room just enough or a few bytes longer.
struct Both([Tally; 2]);

impl Both {
    fn new(names: [&'static str; 2]) -> Self {
        Self(names.map(|name| Tally::new([name, WORKED_OUT])))
    }

    fn hold(&mut self, r: &mut SplitMix64, text: &[u8], expected: &Expected) {
        for (tally, program) in self.0.iter_mut().zip(BOTH) {
            let bytes = expected.printed(program.places);
            let room = bytes.len() + r.below(9) as usize;
            program.hold(tally, text, &bytes, room);
        }
    }
}

/// Our whole answer, with six decimals.
fn ours(text: &[u8]) -> Text {
    let mut out = vec![0; lent::answer(text, &mut [])];
    lent::answer(text, &mut out);
    out
}

struct Held {
    sample: Tally,
    exact: Tally,
    longer: Tally,
    short: Tally,
    three: Tally,
    three_short: Tally,
    damaged: Both,
    all: Counts,
    reach: Reach,
    /// Texts that were asked before, by their hash.
    asked: HashSet<u64>,
}

fn hash(text: &[u8]) -> u64 {
    let mut hasher = DefaultHasher::new();
    hasher.write(text);
    hasher.finish()
}

/// Document 01's own example, and its answer with six decimals and with three.
const SAMPLE: &[u8] = b"POINT M (0 0 0.1)\n";
const ANSWERS: [&[u8]; 2] = [
    b"POLYGON ((-0.100000 0.000000, 0.000000 -0.100000, 0.100000 0.000000, 0.000000 0.100000, -0.100000 0.000000))\n",
    b"POLYGON ((-0.100 0.000, 0.000 -0.100, 0.100 0.000, 0.000 0.100, -0.100 0.000))\n",
];

impl Held {
    fn new() -> Self {
        let mut sample = Tally::new([
            "answer and answer_three to document 01's example",
            "its words",
        ]);
        for (program, answer) in BOTH.into_iter().zip(ANSWERS) {
            program.hold(&mut sample, SAMPLE, answer, answer.len());
        }
        let fits = "what fits, the same length";
        Self {
            sample,
            exact: Tally::new(["answer, room just enough", WORKED_OUT]),
            longer: Tally::new(["answer, longer room", "zeros after it"]),
            short: Tally::new(["answer, room too short", fits]),
            three: Tally::new(["answer_three, room just enough", WORKED_OUT]),
            three_short: Tally::new(["answer_three, room one byte short", fits]),
            damaged: Both::new(["answer to a damaged text", "answer_three to a damaged text"]),
            all: Counts::default(),
            reach: Reach::default(),
            asked: HashSet::new(),
        }
    }

    fn whole(&mut self, r: &mut SplitMix64, text: &[u8], expected: &Expected) {
        self.reach.add(expected);
        self.reach.distinct += u64::from(self.asked.insert(hash(text)));
        let all = BOTH.map(|program| expected.printed(program.places));
        for (longest, all) in self.reach.longest.iter_mut().zip(&all) {
            *longest = (*longest).max(all.len() as u64);
        }
        let [six, three] = all;
        let n = six.len();
        SIX.hold(&mut self.exact, text, &six, n);
        SIX.hold(&mut self.longer, text, &six, n + 1 + r.below(200) as usize);
        for room in [0, 1, n / 2, n - 1] {
            SIX.hold(&mut self.short, text, &six, room);
        }
        let n = three.len();
        THREE.hold(&mut self.three, text, &three, n);
        THREE.hold(&mut self.three_short, text, &three, n - 1);
    }

    /// A text of the pool with a damage that changes it, and not one that was asked before.
    fn unseen(&mut self, r: &mut SplitMix64, pool: &[Text], kind: &damage::Kind) -> Text {
        loop {
            let whole = &pool[r.below(pool.len() as u64) as usize];
            let mut text = whole.clone();
            (kind.harm)(r, &mut text);
            if text != *whole && self.asked.insert(hash(&text)) {
                return text;
            }
        }
    }

    fn damaged(&mut self, r: &mut SplitMix64, kind: &damage::Kind) -> Counts {
        let mut counts = Counts::default();
        let mut pool = Vec::new();
        for i in 0..kind.texts {
            if i % 2_000 == 0 {
                pool = damage::pool(r);
            }
            let text = self.unseen(r, &pool, kind);
            let expected = expected::answer(&text);
            counts.add(&expected);
            self.damaged.hold(r, &text, &expected);
        }
        counts
    }
}
