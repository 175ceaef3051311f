//! The 500 jobs of request L13 in plain Rust: standard input to standard output, as the program `jobs`.
//! `tools/speed` holds its time against that program's. Admission is the independent evaluator's.

#[allow(dead_code)]
#[path = "../../independent/src/admit.rs"]
mod admit;
mod rules;
#[allow(dead_code)]
#[path = "../../independent/src/seen.rs"]
mod seen;
#[allow(dead_code)]
#[path = "../../independent/src/sizes.rs"]
mod sizes;
mod turns;

use std::io::{Read, Write};
use turns::{Entry, Memory, Node, Outcome};

fn take<'a>(rest: &mut &'a [u8], count: usize) -> &'a [u8] {
    let (front, behind) = rest.split_at(count);
    *rest = behind;
    front
}

fn number(rest: &mut &[u8], bytes: usize) -> usize {
    take(rest, bytes).iter().fold(0, |n, byte| 256 * n + *byte as usize)
}

fn counted<'a>(rest: &mut &'a [u8]) -> &'a [u8] {
    let length = number(rest, 2);
    take(rest, length)
}

fn clear(memory: &mut Memory) {
    memory.nodes.fill(Node::CLEAR);
    memory.list.fill(Entry::CLEAR);
    memory.answers.fill(0);
}

fn job(book: &[u8], question: &[u8], fuel: u32, memory: &mut Memory) -> Outcome {
    match admit::both(book, question, &mut seen::Seen::default()) {
        Err(fault) => Outcome { number: fault.number, place: fault.place, ..Outcome::default() },
        Ok((book, question)) => turns::run(&rules::symbols(&book), &rules::rule(&question.top), fuel, memory),
    }
}

fn main() {
    let mut table = Vec::new();
    std::io::stdin().read_to_end(&mut table).expect("standard input");
    let mut memory = Box::new(Memory {
        nodes: [Node::CLEAR; sizes::NODES],
        list: [Entry::CLEAR; sizes::ENTRIES],
        answers: [0; sizes::EXPAND_ANSWER_BYTES],
    });
    let mut out = std::io::BufWriter::new(std::io::stdout().lock());
    let mut rest = &table[..];
    while !rest.is_empty() {
        let book = counted(&mut rest);
        for _ in 0..number(&mut rest, 2) {
            let question = counted(&mut rest);
            let fuel = number(&mut rest, 4) as u32;
            clear(&mut memory);
            let Outcome { number, place, turns, answers, nodes, choices, waiting } =
                job(book, question, fuel, &mut memory);
            writeln!(out, "R {number} {place} {turns} {answers} {nodes} {choices} {waiting}").expect("standard output");
        }
    }
}
