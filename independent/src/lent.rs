//! What the table programs have in common: a table's fields, memory that is longer than what is lent of it and holds marks, and the
//! checksums of it.

use crate::evaluator::{Decision, Entry, Memory};
use crate::text::checksum;

/// How long each memory is, lent or not.
pub const NODE_NUMBERS: usize = 32_010;
pub const PLACES: usize = 100;
pub const ANSWER_BYTES: usize = 16_400;

/// What stands in it before a run.
const NODE_MARK: u16 = 48_879;
const ANSWER_MARK: u8 = 170;

/// A list place has a root, a question, choice 3 decided left and choice 200 right.
fn place_mark() -> Entry {
    let mut place = Entry { question: 5, ..Entry::new(7) };
    place.decisions[3] = Decision::Left;
    place.decisions[200] = Decision::Right;
    place
}

/// How many bytes of a table the programs read.
pub const TABLE_BYTES: usize = 65_536;

pub fn take<'a>(rest: &mut &'a [u8], count: usize) -> Option<&'a [u8]> {
    if rest.len() < count {
        return None;
    }
    let (front, behind) = rest.split_at(count);
    *rest = behind;
    Some(front)
}

pub fn byte(rest: &mut &[u8]) -> Option<u8> {
    take(rest, 1).map(|bytes| bytes[0])
}

pub fn two(rest: &mut &[u8]) -> Option<usize> {
    take(rest, 2).map(|bytes| bytes[0] as usize * 256 + bytes[1] as usize)
}

pub fn four(rest: &mut &[u8]) -> Option<u32> {
    take(rest, 4).map(|bytes| u32::from_be_bytes(bytes.try_into().expect("four bytes")))
}

pub fn lengthy<'a>(rest: &mut &'a [u8]) -> Option<&'a [u8]> {
    let length = two(rest)?;
    take(rest, length)
}

pub fn put_two(out: &mut Vec<u8>, number: usize) {
    out.extend((number as u16).to_be_bytes());
}

pub fn put_lengthy(out: &mut Vec<u8>, bytes: &[u8]) {
    put_two(out, bytes.len());
    out.extend(bytes);
}

/// How much of each memory is lent to a call.
#[derive(Clone, Copy, Debug)]
pub struct Sizes {
    pub numbers: usize,
    pub places: usize,
    pub answer_bytes: usize,
}

impl Sizes {
    /// Two bytes each.
    pub fn read(rest: &mut &[u8]) -> Option<Sizes> {
        let sizes = Sizes { numbers: two(rest)?, places: two(rest)?, answer_bytes: two(rest)? };
        assert!(sizes.numbers <= NODE_NUMBERS && sizes.places <= PLACES && sizes.answer_bytes <= ANSWER_BYTES);
        Some(sizes)
    }

    pub fn put(&self, out: &mut Vec<u8>) {
        for lent in [self.numbers, self.places, self.answer_bytes] {
            put_two(out, lent);
        }
    }
}

/// All the memory that a program has.
pub struct Whole(pub Memory);

impl Whole {
    pub fn marked() -> Whole {
        Whole(Memory {
            nodes: vec![NODE_MARK; NODE_NUMBERS],
            list: vec![place_mark(); PLACES],
            answers: vec![ANSWER_MARK; ANSWER_BYTES],
        })
    }

    /// Request L12: "fresh answer room".
    pub fn fresh_answers(&mut self) {
        self.0.answers.fill(ANSWER_MARK);
    }

    /// A call over the first part of each memory.
    pub fn lend<T>(&mut self, sizes: &Sizes, call: impl FnOnce(&mut Memory) -> T) -> T {
        let mut lent = Memory {
            nodes: self.0.nodes[..sizes.numbers].to_vec(),
            list: self.0.list[..sizes.places].to_vec(),
            answers: self.0.answers[..sizes.answer_bytes].to_vec(),
        };
        let given = call(&mut lent);
        self.0.nodes[..sizes.numbers].copy_from_slice(&lent.nodes);
        self.0.list[..sizes.places].clone_from_slice(&lent.list);
        self.0.answers[..sizes.answer_bytes].copy_from_slice(&lent.answers);
        given
    }

    /// `nodes`, `list` and `bytes`, each with the checksum of the whole. An entry's numbers are its root, its question's number if these
    /// are told, and its decisions.
    pub fn sums(&self, questions: bool) -> String {
        let decision = |d: &Decision| match d {
            Decision::Open => 0,
            Decision::Left => 1,
            Decision::Right => 2,
            Decision::Both => 3,
        };
        let entry = |e: &Entry| -> Vec<u64> {
            let head = if questions { vec![e.root as u64, e.question as u64] } else { vec![e.root as u64] };
            head.into_iter().chain(e.decisions.iter().map(decision)).collect()
        };
        let of_nodes = checksum(self.0.nodes.iter().map(|number| *number as u64));
        let of_list = checksum(self.0.list.iter().flat_map(entry));
        let of_bytes = checksum(self.0.answers.iter().map(|byte| *byte as u64));
        format!("nodes {of_nodes} list {of_list} bytes {of_bytes}")
    }
}
