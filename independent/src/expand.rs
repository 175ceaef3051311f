//! Program `expand` of the document: input bytes to output text.

use crate::evaluator::{evaluate, Memory};
use crate::seen::{result_name, Seen};
use crate::sizes::*;
use crate::text::items;

/// An input taken apart: the book, the question and the fuel.
pub struct Input<'a> {
    pub book: &'a [u8],
    pub question: &'a [u8],
    pub fuel: u32,
}

/// "a two-byte book length, the book, a two-byte question length, the question, a four-byte fuel".
/// None where it "is cut short or has bytes left over".
pub fn take_apart(input: &[u8]) -> Option<Input<'_>> {
    let (book, rest) = take_lengthy(input)?;
    let (question, rest) = take_lengthy(rest)?;
    let fuel: [u8; 4] = rest.try_into().ok()?;
    Some(Input { book, question, fuel: u32::from_be_bytes(fuel) })
}

pub fn take_lengthy(bytes: &[u8]) -> Option<(&[u8], &[u8])> {
    let length = u16::from_be_bytes([*bytes.first()?, *bytes.get(1)?]) as usize;
    let rest = &bytes[2..];
    if rest.len() < length {
        return None;
    }
    Some(rest.split_at(length))
}

/// The output text, and the result's number where there is one.
pub fn expand(input: &[u8], seen: &mut Seen) -> (String, Option<u8>) {
    let Some(Input { book, question, fuel }) = take_apart(input) else {
        seen.note("result J");
        return ("J\n".to_string(), None);
    };
    let mut memory = Memory::sized(EXPAND_NODES, EXPAND_PLACES, EXPAND_ANSWER_BYTES);
    let outcome = evaluate(book, question, fuel, &mut memory, seen);
    seen.note(result_name(outcome.number));
    let mut text = String::new();
    answer_lines(&memory.answers, outcome.answers, false, &mut text);
    text.push_str(&format!("R{}\n", items(&outcome.numbers()[..7])));
    (text, Some(outcome.number))
}

/// "per answer `A`, the symbols, `|`, the decision numbers", read back from the answer bytes. In the layout of request L3 the question's
/// number stands in front of the line.
pub fn answer_lines(bytes: &[u8], answers: usize, row: bool, text: &mut String) {
    let two = |at: usize| u16::from_be_bytes([bytes[at], bytes[at + 1]]) as usize;
    let mut at = 1;
    for _ in 0..answers {
        let mut length = two(at);
        if row {
            text.push_str(&format!("{} ", two(at + 2)));
            length -= 2;
            at += 2;
        }
        let symbols = two(at + 2);
        text.push('A');
        for place in 0..(length - 2) / 2 {
            if place == symbols {
                text.push_str(" |");
            }
            text.push_str(&format!(" {}", two(at + 4 + 2 * place)));
        }
        if symbols == (length - 2) / 2 {
            text.push_str(" |");
        }
        text.push('\n');
        at += 2 + length;
    }
}
