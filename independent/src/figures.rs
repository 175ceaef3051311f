//! The index figures of request L13: in how many answers each symbol stands, over answer books one behind the other.

use crate::lent::{four, lengthy, two};
use crate::make::Made;
use crate::random::Random;
use crate::seen::Seen;
use crate::sizes::*;
use crate::text::checksum;
use std::collections::HashSet;

/// The refusal's number (60 to 62) and place: of a book its length or its version byte, of a record its length, of a symbol its first byte.
pub type Refused = (u8, usize);

fn number(bytes: &[u8], at: usize) -> usize {
    bytes[at] as usize * 256 + bytes[at + 1] as usize
}

/// The totals after it, "in reading order, the row untouched" where it is refused.
pub fn figures(buffer: &[u8], row: &[u32], seen: &mut Seen) -> Result<Vec<u32>, Refused> {
    let mut refuse = |number: u8, place: usize, name: &'static str| -> Result<(), Refused> {
        seen.note(name);
        Err((number, place))
    };
    let mut row = row.to_vec();
    let mut at = 0;
    while at < buffer.len() {
        let mut rest = &buffer[at..];
        let length = four(&mut rest).unwrap_or(0) as usize;
        // "a book cut short": a book of no bytes has not even its version.
        if length == 0 || length > rest.len() {
            refuse(60, at, "60 a book cut short")?;
        }
        let version = rest[0];
        if version != 1 && version != 2 {
            refuse(60, at + 4, "60 version")?;
        }
        let end = at + 4 + length;
        at += 5;
        while at < end {
            let record = at;
            // Its length, what it counts, and whether that fits and is even.
            if end - at < 2 || end - at - 2 < number(buffer, at) {
                refuse(60, record, "60 a record cut short")?;
            }
            let behind = at + 2 + number(buffer, at);
            // The question's number may be any two bytes.
            let mut place = at + 2 + if version == 2 { 2 } else { 0 };
            if behind < place + 2 || (behind - place) % 2 != 0 {
                refuse(60, record, "60 no symbol count, or an odd byte")?;
            }
            let count = number(buffer, place);
            place += 2;
            if count == 0 || behind - place < 2 * count {
                refuse(60, record, "60 symbol count")?;
            }
            let mut stands = HashSet::new();
            for _ in 0..count {
                let symbol = number(buffer, place);
                if stands.insert(symbol) {
                    if symbol >= row.len() {
                        refuse(61, place, "61")?;
                    }
                    if row[symbol] == u32::MAX {
                        refuse(62, place, "62")?;
                    }
                    row[symbol] += 1;
                }
                place += 2;
            }
            let mut before = None;
            while place < behind {
                let decision = number(buffer, place);
                let choice = decision / 2;
                if choice >= CHOICES || before.is_some_and(|other| other >= choice) {
                    refuse(60, record, "60 decisions")?;
                }
                before = Some(choice);
                place += 2;
            }
            at = behind;
        }
    }
    seen.note("0");
    Ok(row)
}

/// How many totals program `figured` has, lent or not; those not given are 7.
const TOTALS: usize = 1_100;

/// Program `figured`: of each row a field of two bytes for the totals lent and a label, a field with totals, and the books.
pub fn table(table: &[u8], seen: &mut Seen) -> Option<String> {
    let mut rest = table;
    let mut text = String::new();
    while !rest.is_empty() {
        let mut head = lengthy(&mut rest)?;
        let lent = two(&mut head)?;
        let mut given = lengthy(&mut rest)?;
        let books = lengthy(&mut rest)?;
        let mut totals = Vec::new();
        while !given.is_empty() {
            totals.push(four(&mut given)?);
        }
        totals.resize(TOTALS, 7);
        let (number, place) = match figures(books, &totals[..lent], seen) {
            Ok(row) => {
                totals[..lent].copy_from_slice(&row);
                (0, 0)
            }
            Err(refused) => refused,
        };
        let first: Vec<String> = totals[..5].iter().map(u32::to_string).collect();
        let label = String::from_utf8_lossy(head);
        let sum = checksum(totals.iter().map(|total| *total as u64));
        text.push_str(&format!("{label}: {number} {place}; {}; all {sum}\n", first.join(" ")));
    }
    Some(text)
}

pub fn table_program(input: &[u8], seen: &mut Seen) -> (String, Option<u8>) {
    (table(input, seen).expect("a whole table"), Some(0))
}

pub const SEEN: &[&str] = &[
    "0",
    "60 a book cut short",
    "60 version",
    "60 a record cut short",
    "60 no symbol count, or an odd byte",
    "60 symbol count",
    "60 decisions",
    "61",
    "62",
];

/// An input of the program `figured`: one row of its table.
pub fn make_table(seed: u64, number: u64) -> Made {
    let random = &mut Random::new(seed, number);
    let lent = *random.pick(&[5, 5, 5, 4, 0, 1_024, 1_100]);
    let odd = random.percent(40);
    let mut books = Vec::new();
    for _ in 0..random.from(0, 3) {
        books.extend(book(random, lent, odd));
    }
    if random.percent(25) && !books.is_empty() {
        let at = random.below(books.len());
        match random.below(3) {
            0 => books.truncate(at),
            1 => books[at] = *random.pick(&[0, 1, 2, 3, 4, 255]),
            _ => books.insert(at, 0),
        }
    }
    let mut totals = Vec::new();
    for _ in 0..5 {
        let total = if random.percent(10) { u32::MAX - random.below(3) as u32 } else { random.below(10) as u32 };
        totals.extend(total.to_be_bytes());
    }
    let mut input = Vec::new();
    for field in [[&(lent as u16).to_be_bytes()[..], b"row"].concat(), totals, books] {
        input.extend((field.len() as u16).to_be_bytes());
        input.extend(field);
    }
    Made { kind: if odd { "with odd numbers" } else { "sound, or a byte changed" }, input, sound: true }
}

/// A book by chance; where `odd`, a symbol, a decision, a question's number, a length or a version may be odd.
fn book(random: &mut Random, lent: usize, odd: bool) -> Vec<u8> {
    let strange = |random: &mut Random| odd && random.percent(12);
    let version = if random.percent(3) { *random.pick(&[0, 3, 255]) } else { random.from(1, 2) as u8 };
    let mut body = vec![version];
    for _ in 0..random.below(4) {
        let mut rest: Vec<usize> = Vec::new();
        if version == 2 {
            rest.push(if strange(random) { *random.pick(&[32, 255, 65_535]) } else { random.below(32) });
        }
        let count = random.from(1, 5);
        rest.push(if strange(random) { random.below(8) } else { count });
        for _ in 0..count {
            let high = if lent > 5 && random.percent(30) { lent } else { 5 };
            let high = if high > lent && !strange(random) { lent.max(1) } else { high };
            rest.push(if strange(random) {
                *random.pick(&[4, 5, 1_023, 1_024, 1_099, 1_100, 65_535])
            } else {
                random.below(high)
            });
        }
        let mut choice = 0;
        for _ in 0..random.below(4) {
            choice += random.from(1, 80);
            rest.push(2 * (choice - 1) + random.below(2));
        }
        if strange(random) {
            rest.push(*random.pick(&[0, 1, 510, 511, 512, 513, 65_535]));
        }
        let mut bytes: Vec<u8> = rest.iter().flat_map(|n| (*n as u16).to_be_bytes()).collect();
        if strange(random) {
            bytes.push(0);
        }
        let length = if strange(random) { (bytes.len() + random.below(5)).saturating_sub(2) } else { bytes.len() };
        body.extend((length as u16).to_be_bytes());
        body.extend(bytes);
    }
    let length = if strange(random) { (body.len() + random.below(3)).saturating_sub(1) } else { body.len() };
    [&(length as u32).to_be_bytes()[..], &body].concat()
}
