//! The tagged listing: a book from it (request L5), and its levels or its shortest circle (request L6).

use crate::admit::{Book, Expression, Tree};
use crate::encode;
use crate::lent::{four, take, two};
use crate::make::Made;
use crate::random::Random;
use crate::seen::Seen;
use crate::sizes::*;
use crate::sorted::{constructor, operation};
use crate::text::{checksum, hexadecimal};
use std::collections::{HashMap, HashSet, VecDeque};

/// A refusal's number (40 to 44) and line.
pub type Refused = (u8, usize);

/// A BT or NT line: its number in the listing (from 1), and the heading that it names.
struct Tagged<'a> {
    line: usize,
    broader: bool,
    names: &'a [u8],
}

/// A heading and what stands under it.
struct Heading<'a> {
    name: &'a [u8],
    tagged: Vec<Tagged<'a>>,
}

pub struct Listing<'a> {
    headings: Vec<Heading<'a>>,
    numbers: HashMap<&'a [u8], usize>,
}

/// "a heading (one or more bytes 32 to 126, not opening with a space)".
fn is_heading(bytes: &[u8]) -> bool {
    !bytes.is_empty() && bytes[0] != b' ' && bytes.iter().all(|byte| (32..=126).contains(byte))
}

/// "two spaces, BT or NT, one space and a heading": whether it is BT, and the heading.
fn tagged(line: &[u8]) -> Option<(bool, &[u8])> {
    let broader = line.starts_with(b"  BT ");
    if (broader || line.starts_with(b"  NT ")) && is_heading(&line[5..]) {
        return Some((broader, &line[5..]));
    }
    None
}

impl<'a> Listing<'a> {
    /// Refusals 40 to 42: "in this order for each line: 40 ..., 41 ...; after the last line 42".
    pub fn read(bytes: &'a [u8]) -> Result<Listing<'a>, Refused> {
        if bytes.is_empty() {
            return Err((40, 1));
        }
        let mut listing = Listing { headings: Vec::new(), numbers: HashMap::new() };
        let mut rest = bytes;
        let mut number = 0;
        while !rest.is_empty() {
            number += 1;
            // "lines ended by a newline": a last line without one is not of this form.
            let end = rest.iter().position(|byte| *byte == b'\n').ok_or((40, number))?;
            let line = &rest[..end];
            rest = &rest[end + 1..];
            if is_heading(line) {
                if listing.numbers.contains_key(line) {
                    return Err((41, number));
                }
                listing.numbers.insert(line, listing.headings.len());
                listing.headings.push(Heading { name: line, tagged: Vec::new() });
            } else {
                let (broader, names) = tagged(line).ok_or((40, number))?;
                let above = listing.headings.last_mut().ok_or((40, number))?;
                above.tagged.push(Tagged { line: number, broader, names });
            }
        }
        listing.mirrors()?;
        Ok(listing)
    }

    /// "42 a BT or NT whose mirror line is missing or whose heading has no line of its own", at the lowest such line.
    fn mirrors(&self) -> Result<(), Refused> {
        let mut lines: HashSet<(&[u8], bool, &[u8])> = HashSet::new();
        for heading in &self.headings {
            for tagged in &heading.tagged {
                lines.insert((heading.name, tagged.broader, tagged.names));
            }
        }
        for heading in &self.headings {
            for tagged in &heading.tagged {
                let mirrored = lines.contains(&(tagged.names, !tagged.broader, heading.name));
                if !mirrored || !self.numbers.contains_key(tagged.names) {
                    return Err((42, tagged.line));
                }
            }
        }
        Ok(())
    }

    /// The BT headings of each heading, in listing order.
    pub fn broader(&self) -> Vec<Vec<usize>> {
        let of = |heading: &Heading| {
            heading.tagged.iter().filter(|tagged| tagged.broader).map(|tagged| self.numbers[tagged.names]).collect()
        };
        self.headings.iter().map(of).collect()
    }

    /// The book, if it passes no size of document 01.
    fn book(&self) -> Result<Vec<u8>, Refused> {
        let count = self.headings.len();
        let broader = self.broader();
        let term = |number: usize| Expression::Apply(number, vec![]);
        let mut first_operations = Vec::new();
        let mut second_operations = Vec::new();
        for terms in &broader {
            let one_hop: Vec<Expression> = terms.iter().map(|t| term(*t)).collect();
            let all: Vec<Expression> = terms.iter().flat_map(|t| [term(*t), term(2 * count + t)]).collect();
            for (row, operations) in [(one_hop, &mut first_operations), (all, &mut second_operations)] {
                let rule = nested(row);
                if rule.nodes() > EXPRESSION_NODES {
                    return Err((43, 0));
                }
                operations.push(operation(0, &[], Tree::Rule(rule)));
            }
        }
        let mut symbols: Vec<_> = (0..count).map(|_| constructor(0, &[])).collect();
        symbols.extend(first_operations);
        symbols.extend(second_operations);
        if symbols.len() > SYMBOLS {
            return Err((43, 0));
        }
        let bytes = encode::book(&Book::of(symbols)).bytes;
        if bytes.len() > BOOK_BYTES {
            return Err((43, 0));
        }
        assert!(crate::admit::book(&bytes).is_ok());
        Ok(bytes)
    }
}

/// "fail without a BT, else the BT terms as choices in listing order, nested to the right".
fn nested(mut row: Vec<Expression>) -> Expression {
    let Some(mut made) = row.pop() else {
        return Expression::Fail;
    };
    while let Some(before) = row.pop() {
        made = Expression::Choice(Box::new(before), Box::new(made));
    }
    made
}

/// Request L5: the book that a listing gives, in a room of so many bytes.
pub fn book_of(bytes: &[u8], room: usize) -> Result<Vec<u8>, Refused> {
    let book = Listing::read(bytes)?.book()?;
    if book.len() > room {
        return Err((43, 0));
    }
    Ok(book)
}

/// Request L6: a level for every heading, or the shortest circle.
pub enum Saved {
    Levels(Vec<usize>),
    Circle(Vec<usize>),
}

/// "Refusals: those of L5 (43 for sizes only), and 44 if the lent row of levels is shorter than the headings."
pub fn saved<'a>(bytes: &'a [u8], row: usize) -> Result<(Listing<'a>, Saved), Refused> {
    let listing = Listing::read(bytes)?;
    listing.book()?;
    if row < listing.headings.len() {
        return Err((44, 0));
    }
    let broader = listing.broader();
    let saved = match shortest_circle(&broader) {
        Some(circle) => Saved::Circle(circle),
        None => Saved::Levels(levels(&broader)),
    };
    Ok((listing, saved))
}

/// The longest chain of hops above each heading, where there is no circle: raised until nothing changes.
fn levels(broader: &[Vec<usize>]) -> Vec<usize> {
    let mut levels = vec![0; broader.len()];
    loop {
        let before = levels.clone();
        for (number, terms) in broader.iter().enumerate() {
            levels[number] = terms.iter().map(|term| 1 + levels[*term]).max().unwrap_or(0);
        }
        if levels == before {
            return levels;
        }
    }
}

/// How many hops from each heading to `goal`, where there is a way.
fn hops_to(broader: &[Vec<usize>], goal: usize) -> Vec<Option<usize>> {
    let mut below: Vec<Vec<usize>> = vec![Vec::new(); broader.len()];
    for (number, terms) in broader.iter().enumerate() {
        for term in terms {
            below[*term].push(number);
        }
    }
    let mut hops = vec![None; broader.len()];
    hops[goal] = Some(0);
    let mut queue = VecDeque::from([goal]);
    while let Some(at) = queue.pop_front() {
        for number in &below[at] {
            if hops[*number].is_none() {
                hops[*number] = hops[at].map(|count: usize| count + 1);
                queue.push_back(*number);
            }
        }
    }
    hops
}

/// "the shortest circle of headings, the first in number order": of the shortest rows the first, compared number by number.
fn shortest_circle(broader: &[Vec<usize>]) -> Option<Vec<usize>> {
    let mut best: Option<Vec<usize>> = None;
    for start in 0..broader.len() {
        let hops = hops_to(broader, start);
        // The row from `start`, always on to the lowest heading from which the way back is as short as can be.
        let mut circle = vec![start];
        let mut at = start;
        loop {
            let fewest = broader[at].iter().filter_map(|term| hops[*term]).min();
            let Some(fewest) = fewest else { break };
            at = *broader[at].iter().filter(|term| hops[**term] == Some(fewest)).min().expect("one of them");
            if at == start {
                break;
            }
            circle.push(at);
        }
        let closed = broader[*circle.last().expect("a start")].contains(&start);
        if closed && best.as_ref().is_none_or(|row| circle.len() < row.len()) {
            best = Some(circle);
        }
    }
    best
}

/// Program `listing`: one listing, the room of a whole book.
pub fn program(input: &[u8], seen: &mut Seen) -> (String, Option<u8>) {
    match book_of(input, BOOK_BYTES) {
        Ok(book) => {
            seen.note("0");
            (format!("R 0 0 {}\n{}", book.len(), hexadecimal(&book)), Some(0))
        }
        Err((number, line)) => {
            seen.note(name_of(number));
            (format!("R {number} {line} 0\n"), Some(number))
        }
    }
}

fn name_of(number: u8) -> &'static str {
    ["40", "41", "42", "43", "44"][number as usize - 40]
}

/// How long the row of program `circle` is: no book has more headings.
const LEVELS: usize = SYMBOLS;

/// Program `circle`: one listing; a line for each level, or for each heading of the circle its first BT line that leads on.
pub fn circle_program(input: &[u8], seen: &mut Seen) -> (String, Option<u8>) {
    let (listing, saved) = match saved(input, LEVELS) {
        Ok(both) => both,
        Err((number, line)) => {
            seen.note(name_of(number));
            return (format!("R {number} {line} 0 0\n"), Some(number));
        }
    };
    let name = |number: usize| String::from_utf8_lossy(listing.headings[number].name);
    let headings = listing.headings.len();
    let mut text;
    match saved {
        Saved::Levels(levels) => {
            seen.note("levels");
            text = format!("R 0 0 {headings} 0\n");
            for (number, level) in levels.into_iter().enumerate() {
                text.push_str(&format!("{level} {}\n", name(number)));
            }
        }
        Saved::Circle(circle) => {
            seen.note(circle_name(circle.len()));
            text = format!("R 0 0 {headings} {}\n", circle.len());
            for (place, number) in circle.iter().enumerate() {
                let next = listing.headings[circle[(place + 1) % circle.len()]].name;
                let lines = &listing.headings[*number].tagged;
                let leads_on = lines.iter().find(|tagged| tagged.broader && tagged.names == next);
                text.push_str(&format!("{} {}\n", leads_on.expect("a hop").line, name(*number)));
            }
        }
    }
    (text, Some(0))
}

fn circle_name(length: usize) -> &'static str {
    ["circle of 1", "circle of 2", "circle of 3", "circle of 4 or more"][length.min(4) - 1]
}

/// The table's memories: bytes of 170, and numbers of 43,690.
const TABLE_BYTES: usize = 33_000;
const TABLE_ROW: usize = 400;
const ROW_MARK: usize = 43_690;

/// A table: of each listing the room and the row lent (two bytes each), its length (four bytes) and its bytes. None where it is cut short.
pub fn table(table: &[u8], seen: &mut Seen) -> Option<String> {
    let mut rest = table;
    let mut text = String::new();
    while !rest.is_empty() {
        let room = two(&mut rest)?;
        let row = two(&mut rest)?;
        let length = four(&mut rest)? as usize;
        let listing = take(&mut rest, length)?;
        text.push_str(&book_line(listing, room, seen));
        text.push_str(&row_line(listing, row, seen));
    }
    Some(text)
}

fn book_line(listing: &[u8], room: usize, seen: &mut Seen) -> String {
    assert!(room <= TABLE_BYTES);
    let mut bytes = vec![170; TABLE_BYTES];
    let (number, line, length) = match book_of(listing, room) {
        Ok(book) => {
            seen.note("0");
            bytes[..book.len()].copy_from_slice(&book);
            (0, 0, book.len())
        }
        Err((number, line)) => {
            seen.note(name_of(number));
            (number, line, 0)
        }
    };
    format!("L {number} {line} {length} {}\n", checksum(bytes.into_iter().map(u64::from)))
}

fn row_line(bytes: &[u8], lent: usize, seen: &mut Seen) -> String {
    assert!(lent <= TABLE_ROW);
    let mut row = vec![ROW_MARK; TABLE_ROW];
    let mut text = match saved(bytes, lent) {
        Ok((listing, saved)) => {
            let (numbers, circle) = match saved {
                Saved::Levels(levels) => {
                    seen.note("levels");
                    (levels, 0)
                }
                Saved::Circle(circle) => {
                    seen.note(circle_name(circle.len()));
                    let length = circle.len();
                    (circle, length)
                }
            };
            row[..numbers.len()].copy_from_slice(&numbers);
            format!("O 0 0 {} {circle}:", listing.headings.len())
        }
        Err((number, line)) => {
            if number == 44 {
                seen.note("44");
            }
            format!("O {number} {line} 0 0:")
        }
    };
    for number in row.into_iter().filter(|number| *number != ROW_MARK) {
        text.push_str(&format!(" {number}"));
    }
    text.push('\n');
    text
}

/// Program `listed`: a whole table.
pub fn table_program(input: &[u8], seen: &mut Seen) -> (String, Option<u8>) {
    (table(input, seen).expect("a whole table"), Some(0))
}

pub const SEEN: &[&str] = &["0", "40", "41", "42", "43"];
pub const CIRCLE_SEEN: &[&str] =
    &["40", "41", "42", "43", "levels", "circle of 1", "circle of 2", "circle of 3", "circle of 4 or more"];
pub const TABLE_SEEN: &[&str] =
    &["0", "40", "41", "42", "43", "44", "levels", "circle of 1", "circle of 2", "circle of 3", "circle of 4 or more"];

/// An input of the programs `listing` and `circle`.
pub fn make(seed: u64, number: u64) -> Made {
    let random = &mut Random::new(seed, number);
    let (kind, input, sound) = listing_by_chance(random);
    Made { kind, input, sound }
}

/// An input of the program `listed`: some listings, each with its room and row.
pub fn make_table(seed: u64, number: u64) -> Made {
    let random = &mut Random::new(seed, number);
    let mut input: Vec<u8> = Vec::new();
    let mut kind = "";
    for _ in 0..random.from(1, 6) {
        let (of, listing, _) = listing_by_chance(random);
        kind = of;
        // Room and row at or about what is needed, or all.
        let read = Listing::read(&listing);
        let headings = read.as_ref().map_or(0, |read| read.headings.len());
        let bytes = read.ok().and_then(|read| read.book().ok()).map_or(0, |book| book.len());
        let room = if random.percent(70) { 32_768 } else { (bytes + random.below(3)).saturating_sub(1) };
        let row =
            if random.percent(70) { TABLE_ROW } else { (headings + random.below(3)).saturating_sub(1).min(TABLE_ROW) };
        input.extend((room as u16).to_be_bytes());
        input.extend((row as u16).to_be_bytes());
        input.extend((listing.len() as u32).to_be_bytes());
        input.extend(listing);
    }
    Made { kind, input, sound: true }
}

/// A listing in the making: headings, and for each the lines under it.
struct Draft {
    names: Vec<Vec<u8>>,
    lines: Vec<Vec<(bool, Vec<u8>)>>,
}

impl Draft {
    fn bytes(&self) -> Vec<u8> {
        let mut out = Vec::new();
        for (name, lines) in self.names.iter().zip(&self.lines) {
            out.extend(name);
            out.push(b'\n');
            for (broader, names) in lines {
                out.extend(if *broader { b"  BT " } else { b"  NT " });
                out.extend(names);
                out.push(b'\n');
            }
        }
        out
    }

    /// A BT line and its mirror, now and then one of them twice, now and then one of them left out (where `wrong`).
    fn hop(&mut self, random: &mut Random, from: usize, to: usize, wrong: bool) {
        let (below, above) = (self.names[from].clone(), self.names[to].clone());
        for _ in 0..if random.percent(5) { 2 } else { 1 } {
            self.lines[from].push((true, above.clone()));
        }
        if wrong && random.percent(30) {
            return;
        }
        for _ in 0..if random.percent(5) { 2 } else { 1 } {
            self.lines[to].push((false, below.clone()));
        }
    }
}

fn names(random: &mut Random, count: usize) -> Vec<Vec<u8>> {
    let mut names: Vec<Vec<u8>> = Vec::new();
    while names.len() < count {
        let length = if random.percent(50) { random.from(1, 3) } else { random.from(1, 12) };
        let name: Vec<u8> = (0..length).map(|_| random.from(32, 126) as u8).collect();
        let name = if random.percent(10) { [b"BT ".to_vec(), name].concat() } else { name };
        if name[0] != b' ' && !names.contains(&name) {
            names.push(name);
        }
    }
    names
}

fn listing_by_chance(random: &mut Random) -> (&'static str, Vec<u8>, bool) {
    let (kind, count, hops) = match random.weighted(&[60, 4, 3, 3]) {
        0 => {
            let count = random.from(1, 9);
            ("small", count, random.below(2 * count + 1))
        }
        1 => ("about 341 headings", random.from(339, 343), random.from(0, 300)),
        2 => ("about 32,768 bytes", random.from(250, 341), 0),
        _ => {
            let count = random.from(18, 30);
            ("about 16 broader terms", count, random.from(0, 20))
        }
    };
    let mut draft = Draft { names: names(random, count), lines: vec![Vec::new(); count] };
    // Hops go to headings later in a row by chance, so there is no circle; then rings close some.
    let mut order: Vec<usize> = (0..count).collect();
    random.shuffle(&mut order);
    let wrong = kind == "small" && random.percent(15);
    let any = random.percent(10);
    for _ in 0..hops {
        let (mut from, mut to) = (random.below(count), random.below(count));
        if !any {
            if from == to {
                continue;
            }
            (from, to) = (from.min(to), from.max(to));
        }
        draft.hop(random, order[from], order[to], wrong);
    }
    if random.percent(40) {
        for _ in 0..random.from(1, 3) {
            random.shuffle(&mut order);
            let length = random.from(1, 6).min(count);
            for place in 0..length {
                draft.hop(random, order[place], order[(place + 1) % length], wrong);
            }
        }
    }
    if kind == "about 16 broader terms" {
        let from = random.below(count);
        let already = draft.lines[from].iter().filter(|line| line.0).count();
        for _ in already..random.from(15, 17) {
            let to = random.below(count);
            draft.hop(random, from, to, false);
        }
    }
    if kind == "about 32,768 bytes" {
        // 12 bytes for each BT line.
        let wanted = random.from(32_700, 32_800);
        let size = |draft: &Draft| {
            let broader = draft.lines.iter().map(|lines| lines.iter().filter(|line| line.0).count());
            broader.map(|k| 13 + if k == 0 { 4 } else { 12 * k }).sum::<usize>() + 5
        };
        let mut at = 0;
        while size(&draft) < wanted {
            let (from, to) = (order[at % count], order[(at * 7 + at / count + 1) % count]);
            at += 1;
            draft.hop(random, from, to, false);
        }
    }
    let mut bytes = draft.bytes();
    if random.percent(25) {
        damage(random, &mut bytes);
    }
    (kind, bytes, false)
}

/// A byte changed, put in, taken out; lines given twice, taken out, or a cut end.
fn damage(random: &mut Random, bytes: &mut Vec<u8>) {
    if bytes.is_empty() {
        return;
    }
    let odd =
        |random: &mut Random| *random.pick(&[0, 9, 10, 13, 31, 32, 32, 126, 127, 128, 255, b'B', b'N', b'T', b'a']);
    let place = random.below(bytes.len());
    let mut lines: Vec<Vec<u8>> = bytes.split_inclusive(|byte| *byte == b'\n').map(<[u8]>::to_vec).collect();
    let which = random.below(lines.len());
    match random.below(9) {
        0 => bytes[place] = odd(random),
        1 => bytes.insert(place, odd(random)),
        2 => {
            bytes.remove(place);
        }
        3 => {
            bytes.pop();
        }
        4 => bytes.truncate(place),
        5 | 6 => {
            let line = lines[which].clone();
            lines.insert(random.below(lines.len() + 1), line);
            *bytes = lines.concat();
        }
        7 => {
            lines.remove(which);
            *bytes = lines.concat();
        }
        _ => {
            let other = random.below(lines.len());
            lines.swap(which, other);
            *bytes = lines.concat();
        }
    }
}
