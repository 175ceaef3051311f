//! Request L12: the states that a run may go on from. "It accepts exactly those states where counts fit the room, at least one
//! node is used ..., answers don't pass turns, kinds and symbols are known, all arrows point into used nodes, no path returns to its
//! start, arguments fit their sorts through forwards and choices, choice numbers lie below the count, decisions on choices not yet
//! made are open and root nodes exist."

use crate::admit::Book;
use crate::evaluator::{node_room, places, Decision, Memory, Node, Outcome, APPLY, CHOICE, FORWARD};
use crate::sizes::*;

/// Where 30 is given, and a name for counting.
#[derive(Clone, Copy, Debug, PartialEq, Eq)]
pub struct Bad {
    pub place: usize,
    pub name: &'static str,
}

/// "its place the first bad count (1 turns to 5 waiting), else 6 plus the node, else 3,206 plus the entry".
pub const FIRST_NODE: usize = 6;
pub const FIRST_ENTRY: usize = FIRST_NODE + NODES;

/// Reading, where the documents leave two: an unknown symbol has "no sort", so the node of which it is an argument has one that does
/// not fit. With `true` it would read as a fail, which fits every sort; only the place of 30 differs.
pub const UNKNOWN_SYMBOL_FITS: bool = false;

/// What can be bad, for counting.
pub const SEEN: &[&str] = &[
    "30 turns and fuel past 32 bits",
    "30 answers past turns",
    "30 no node",
    "30 nodes past the room",
    "30 choices past 256",
    "30 waiting past the places",
    "30 kind not known",
    "30 symbol not known",
    "30 arrow past the nodes",
    "30 a path that returns",
    "30 an argument of another sort",
    "30 an argument of an unknown symbol",
    "30 choice number past the count",
    "30 root past the nodes",
    "30 a decision on a choice not made",
    "30 both bits of a choice",
];

/// Whether a run may go on from this state, with so much fuel more.
pub fn judge(book: &Book, memory: &Memory, last: &Outcome, fuel: u32) -> Result<(), Bad> {
    counts(memory, last, fuel)?;
    nodes(book, &memory.nodes, last.nodes, last.choices)?;
    entries(memory, last)
}

fn bad(place: usize, name: &'static str) -> Result<(), Bad> {
    Err(Bad { place, name })
}

fn counts(memory: &Memory, last: &Outcome, fuel: u32) -> Result<(), Bad> {
    // "A sum of turns and fuel past 32 bits is 30": judged first, also where nothing waits.
    if last.turns.checked_add(fuel).is_none() {
        return bad(1, "30 turns and fuel past 32 bits");
    }
    if last.answers as u64 > last.turns as u64 {
        return bad(2, "30 answers past turns");
    }
    if last.nodes == 0 {
        return bad(3, "30 no node");
    }
    if last.nodes > node_room(memory) {
        return bad(3, "30 nodes past the room");
    }
    if last.choices > CHOICES {
        return bad(4, "30 choices past 256");
    }
    if last.waiting > places(memory) {
        return bad(5, "30 waiting past the places");
    }
    Ok(())
}

/// All used nodes are judged, reached or not; the lowest at which something is wrong is named.
fn nodes(book: &Book, numbers: &[u16], count: usize, choices: usize) -> Result<(), Bad> {
    let nodes: Vec<Node> = (0..count).map(|number| Node::of(numbers, number)).collect();
    let returning = returning(book, &nodes);
    for (number, node) in nodes.iter().enumerate() {
        let place = FIRST_NODE + number;
        if node.kind > FORWARD {
            return bad(place, "30 kind not known");
        }
        if node.kind == APPLY && node.label as usize >= book.symbols.len() {
            return bad(place, "30 symbol not known");
        }
        if node.kind == CHOICE && node.label as usize >= choices {
            return bad(place, "30 choice number past the count");
        }
        if node.used(book).iter().any(|arrow| *arrow as usize >= count) {
            return bad(place, "30 arrow past the nodes");
        }
        if returning[number] {
            return bad(place, "30 a path that returns");
        }
        if node.kind == APPLY {
            let sorts = &book.symbols[node.label as usize].arguments;
            for (arrow, sort) in node.used(book).iter().zip(sorts) {
                if let Err(name) = fits(book, &nodes, *arrow, *sort) {
                    return bad(place, name);
                }
            }
        }
    }
    Ok(())
}

/// For each node, if a path of used arrows leads from it back to it. An arrow past the nodes leads nowhere.
fn returning(book: &Book, nodes: &[Node]) -> Vec<bool> {
    let below =
        |number: usize| nodes[number].used(book).iter().map(|arrow| *arrow as usize).filter(|at| *at < nodes.len());
    // Nodes without an arrow to them are taken away one after another; what is left is on a way that returns, or below one.
    let mut users = vec![0; nodes.len()];
    for number in 0..nodes.len() {
        below(number).for_each(|at| users[at] += 1);
    }
    let mut free: Vec<usize> = (0..nodes.len()).filter(|number| users[*number] == 0).collect();
    while let Some(number) = free.pop() {
        for at in below(number) {
            users[at] -= 1;
            if users[at] == 0 {
                free.push(at);
            }
        }
    }
    let returns = |start: usize| {
        let mut met = vec![false; nodes.len()];
        let mut open: Vec<usize> = below(start).collect();
        while let Some(number) = open.pop() {
            if !std::mem::replace(&mut met[number], true) {
                open.extend(below(number));
            }
        }
        met[start]
    };
    (0..nodes.len()).map(|number| users[number] > 0 && returns(number)).collect()
}

/// If what an arrow leads to fits a sort, "through forwards and choices". A node is not blamed for what lies below it: a way that
/// returns or leads past the nodes is no misfit here.
fn fits(book: &Book, nodes: &[Node], arrow: u16, sort: u8) -> Result<(), &'static str> {
    let mut met = vec![false; nodes.len()];
    let mut open = vec![arrow as usize];
    let mut unknown = false;
    while let Some(number) = open.pop() {
        if number >= nodes.len() || std::mem::replace(&mut met[number], true) {
            continue;
        }
        let node = &nodes[number];
        match node.kind {
            APPLY => match book.symbols.get(node.label as usize) {
                Some(symbol) if symbol.sort != sort => return Err("30 an argument of another sort"),
                Some(_) => {}
                None => unknown |= !UNKNOWN_SYMBOL_FITS,
            },
            CHOICE | FORWARD => open.extend(node.used(book).iter().map(|arrow| *arrow as usize)),
            _ => {} // "A fail fits every sort"; an unknown kind reads as a fail.
        }
    }
    if unknown {
        return Err("30 an argument of an unknown symbol");
    }
    Ok(())
}

/// The waiting entries; those behind them, and their questions' numbers, are not judged.
fn entries(memory: &Memory, last: &Outcome) -> Result<(), Bad> {
    for (number, entry) in memory.list[..last.waiting].iter().enumerate() {
        let place = FIRST_ENTRY + number;
        if entry.root as usize >= last.nodes {
            return bad(place, "30 root past the nodes");
        }
        if entry.decisions.contains(&Decision::Both) {
            return bad(place, "30 both bits of a choice");
        }
        if entry.decisions[last.choices..].iter().any(|decision| *decision != Decision::Open) {
            return bad(place, "30 a decision on a choice not made");
        }
    }
    Ok(())
}
