//! The converter of request L9: any admitted book of version 1 as one of version 2, with a fail rule in each exempt spot.

use crate::admit::{self, Expression, Tree};
use crate::encode;
use crate::expand::take_lengthy;
use crate::lent::{lengthy, two};
use crate::make::{self, Made};
use crate::random::Random;
use crate::seen::Seen;
use crate::sizes::*;
use crate::text::{checksum, hexadecimal};

/// The new book, or the number and place of the refusal.
pub fn convert(book: &[u8], room: usize, seen: &mut Seen) -> Result<Vec<u8>, (u8, usize)> {
    // "2 if the converter is lent version 2": it reads version 1 only. A book over its size is 1 before that.
    if book.len() <= BOOK_BYTES && book.first().is_some_and(|version| *version != 1) {
        seen.note(if book[0] == 2 { "2 lent version 2" } else { "2 another version" });
        return Err((2, 0));
    }
    let mut read = admit::book(book).map_err(|fault| {
        seen.note("the reader's own");
        (fault.number, fault.place)
    })?;
    assert_eq!(encode::book(&read).bytes, book);
    let mut spots = 0;
    for symbol in &mut read.symbols {
        if let Some(tree) = &mut symbol.tree {
            spots += without_exempt(tree);
        }
    }
    read.version = 2;
    let new = encode::book(&read).bytes;
    assert_eq!(new.len(), book.len() + spots);
    // "52 when the converted book would pass 32,768 bytes or the room lent".
    if new.len() > BOOK_BYTES {
        seen.note("52 past 32,768 bytes");
        return Err((52, 0));
    }
    if new.len() > room {
        seen.note("52 past the room");
        return Err((52, 0));
    }
    seen.note(if spots == 0 { "converted, no exempt" } else { "converted" });
    Ok(new)
}

/// A fail rule in each exempt spot, and how many there were.
fn without_exempt(tree: &mut Tree) -> usize {
    match tree {
        Tree::Exempt => {
            *tree = Tree::Rule(Expression::Fail);
            1
        }
        Tree::Rule(_) => 0,
        Tree::Branch(_, cases) => cases.iter_mut().map(without_exempt).sum(),
    }
}

/// Program `convert`: a two-byte book length and the book. It prints `R number place bytes`, then the new book.
pub fn program(input: &[u8], seen: &mut Seen) -> (String, Option<u8>) {
    let Some((book, [])) = take_lengthy(input) else {
        seen.note("J");
        return ("J\n".to_string(), None);
    };
    match convert(book, BOOK_BYTES, seen) {
        Ok(new) => (format!("R 0 0 {}\n{}", new.len(), hexadecimal(&new)), Some(0)),
        Err((number, place)) => (format!("R {number} {place} 0\n"), Some(number)),
    }
}

/// How many bytes the table's program has, of which so many as the row says are lent; each is 170 before.
const TABLE_BYTES: usize = 32_800;

/// A table: of each row a field of two bytes for the room lent and a label, and a field with the book. None where it is cut short.
pub fn table(table: &[u8]) -> Option<String> {
    let mut rest = table;
    let mut text = String::new();
    while !rest.is_empty() {
        let mut head = lengthy(&mut rest)?;
        let room = two(&mut head)?;
        let book = lengthy(&mut rest)?;
        let mut bytes = vec![170; TABLE_BYTES];
        let (number, place, length) = match convert(book, room, &mut Seen::default()) {
            Ok(new) => {
                bytes[..new.len()].copy_from_slice(&new);
                (0, 0, new.len())
            }
            Err((number, place)) => (number, place, 0),
        };
        let label = String::from_utf8_lossy(head);
        let sum = checksum(bytes.into_iter().map(u64::from));
        text.push_str(&format!("{label}: {number} {place} {length}; bytes {sum}\n"));
    }
    Some(text)
}

/// What a comparison must have seen.
pub const SEEN: &[&str] = &[
    "J",
    "2 lent version 2",
    "2 another version",
    "the reader's own",
    "52 past 32,768 bytes",
    "converted, no exempt",
    "converted",
];

/// An input of the program: mostly sound books of version 1, some that just fit when converted, some wrong ones.
pub fn make(seed: u64, number: u64) -> Made {
    let random = &mut Random::new(seed, number);
    let (kind, book) = match random.weighted(&[50, 15, 20, 5, 5, 2]) {
        0 => ("well-sorted", encode::book(&make::some_book_of(random, 1)).bytes),
        1 => ("about 32,768 bytes", about_full(random)),
        2 => ("damaged", make::damaged_book(random).0),
        5 => {
            let mut bytes = encode::book(&make::some_book_of(random, 1)).bytes;
            bytes[0] = *random.pick(&[0, 3, 4, 255]);
            ("another version", bytes)
        }
        3 => ("version 2", encode::book(&make::some_book_of(random, 2)).bytes),
        _ => {
            let mut input = lengthy_bytes(&encode::book(&make::some_book_of(random, 1)).bytes);
            if random.percent(50) {
                input.truncate(random.below(input.len()));
            } else {
                input.push(random.byte());
            }
            return Made { kind: "input cut or too long", input, sound: false };
        }
    };
    Made { kind, input: lengthy_bytes(&book), sound: kind == "well-sorted" }
}

fn lengthy_bytes(book: &[u8]) -> Vec<u8> {
    [&(book.len() as u16).to_be_bytes()[..], book].concat()
}

/// A book that has 32,764 to 32,772 bytes when it is converted, or before: exempt operations, one to a tree, and rules to fail.
fn about_full(random: &mut Random) -> Vec<u8> {
    use crate::sorted::operation;
    let wanted = random.from(BOOK_BYTES - 4, BOOK_BYTES + 4);
    let mut book = admit::Book::of(Vec::new());
    let mut size = 5;
    // Of three trees of an operation with eight branches of sort 0 each, most spots are exempt.
    book.symbols.push(crate::sorted::constructor(0, &[]));
    book.symbols.push(crate::sorted::constructor(0, &[]));
    size += 6;
    while size + 80 < wanted && book.symbols.len() < 1000 {
        let (mut tree, mut cost) = (Tree::Exempt, 2);
        for variable in 0..random.from(3, 8) {
            let other = if random.percent(80) { Tree::Exempt } else { Tree::Rule(Expression::Fail) };
            tree = Tree::Branch(variable, vec![tree, other]);
            cost += 4;
        }
        size += 3 + 8 + 2 + cost;
        book.symbols.push(operation(0, &[0; 8], tree));
    }
    while size + 7 <= wanted && book.symbols.len() < SYMBOLS {
        let left = wanted - size - 7;
        let arguments = left.min(8);
        book.symbols.push(operation(0, &vec![0; arguments], Tree::Exempt));
        size += 7 + arguments;
    }
    encode::book(&book).bytes
}
