//! Program `jobs`: books, each with its questions and their fuels, every job over cleared memory. For each a line with the seven
//! numbers. `tools/job_cases.py` makes the table and says what it holds.

use crate::evaluator::{evaluate, Memory};
use crate::lent::{four, lengthy, two};
use crate::seen::Seen;
use crate::sizes::*;
use crate::text::items;

/// The line of a job.
fn line(book: &[u8], question: &[u8], fuel: u32) -> String {
    let mut memory = Memory::sized(EXPAND_NODES, EXPAND_PLACES, EXPAND_ANSWER_BYTES);
    let outcome = evaluate(book, question, fuel, &mut memory, &mut Seen::default());
    format!("R{}\n", items(&outcome.numbers()[..7]))
}

/// The lines of a whole table; None where it is cut short.
pub fn jobs(table: &[u8]) -> Option<String> {
    let mut rest = table;
    let mut text = String::new();
    while !rest.is_empty() {
        let book = lengthy(&mut rest)?;
        for _ in 0..two(&mut rest)? {
            let question = lengthy(&mut rest)?;
            text.push_str(&line(book, question, four(&mut rest)?));
        }
    }
    Some(text)
}
