//! Program `edges`: a table of runs at the edges of the sizes, each over memory that is longer than what is lent
//! of it. For each a line with the seven numbers and a checksum of the whole of each memory, then a line for each answer.
//! `tools/edge_cases.py` makes the table and says what it holds.

use crate::evaluator::{evaluate, Memory};
use crate::expand::{answer_lines, take_apart, Input};
use crate::lent::{four, lengthy, put_lengthy, Sizes, Whole, ANSWER_BYTES, NODE_NUMBERS, PLACES, TABLE_BYTES};
use crate::make::{self, Made};
use crate::random::Random;
use crate::seen::Seen;
use crate::sizes::{ENTRIES, NODES};
use crate::text::items;

/// One row: a label, how much of each memory is lent, the fuel, a book and a question.
struct Row<'a> {
    label: &'a [u8],
    sizes: Sizes,
    fuel: u32,
    book: &'a [u8],
    question: &'a [u8],
}

fn row<'a>(rest: &mut &'a [u8]) -> Option<Row<'a>> {
    Some(Row {
        label: lengthy(rest)?,
        sizes: Sizes::read(rest)?,
        fuel: four(rest)?,
        book: lengthy(rest)?,
        question: lengthy(rest)?,
    })
}

/// The lines of a row.
fn lines(row: &Row, seen: &mut Seen) -> String {
    let mut whole = Whole::marked();
    let outcome = whole.lend(&row.sizes, |memory| evaluate(row.book, row.question, row.fuel, memory, seen));
    if outcome.nodes == 0 && outcome.number > 20 {
        seen.note(SEEN.iter().find(|name| name.ends_with(&outcome.number.to_string())).expect("21, 23 or 25"));
    }
    let mut answer_text = String::new();
    answer_lines(&whole.0.answers, outcome.answers, false, &mut answer_text);
    let label = String::from_utf8_lossy(row.label);
    format!("{label}:{}; {}\n{answer_text}", items(&outcome.numbers()[..7]), whole.sums(false))
}

/// About as much as was used: all, less than that, or within two of it.
pub fn about(random: &mut Random, used: usize, all: usize) -> usize {
    match random.below(5) {
        0 | 1 => all,
        2 => random.below(used + 2).min(all),
        _ => (used + random.below(4)).saturating_sub(2).min(all),
    }
}

/// The lines of a whole table.
pub fn program(input: &[u8], seen: &mut Seen) -> (String, Option<u8>) {
    let mut rest = input;
    let mut text = String::new();
    while !rest.is_empty() {
        let row = row(&mut rest).expect("a whole table");
        text.push_str(&lines(&row, seen));
    }
    (text, Some(0))
}

/// A table of a few runs, as `expand` gets them, over memory lent in part.
pub fn make(seed: u64, number: u64) -> Made {
    let random = &mut Random::new(seed ^ 0xED6E, number);
    let mut input = Vec::new();
    let mut kind = "empty";
    for step in 0..random.from(1, 4) as u64 {
        let made = make::make(seed, 4 * number + step);
        let Some(Input { book, question, fuel }) = take_apart(&made.input) else { continue };
        if input.len() + book.len() + question.len() + 30 > TABLE_BYTES {
            continue;
        }
        kind = made.kind;
        // What the run would use of each memory, if it had all; lent is a little less, as much, a little more, or all.
        let mut memory = Memory::sized(NODES, ENTRIES, ANSWER_BYTES);
        let outcome = evaluate(book, question, fuel.min(3_500), &mut memory, &mut Seen::default());
        let numbers = (about(random, outcome.nodes, NODE_NUMBERS / 10) * 10 + random.below(10)).min(NODE_NUMBERS);
        let places = about(random, outcome.waiting.max(3), PLACES);
        let used = memory.answers.iter().rposition(|byte| *byte != 0).map_or(0, |last| last + 1);
        let answer_bytes = about(random, used, ANSWER_BYTES);
        put_lengthy(&mut input, b"run");
        Sizes { numbers, places, answer_bytes }.put(&mut input);
        input.extend(fuel.to_be_bytes());
        put_lengthy(&mut input, book);
        put_lengthy(&mut input, question);
    }
    Made { kind, input, sound: true }
}

/// Refusals at loading, and those of `expand`.
pub const SEEN: &[&str] = &["loading 21", "loading 23", "loading 25"];
