//! The book writer of request L1: rows of numbers to the bytes of a book of version 1.
//!
//! Rows stand one behind the other, each behind the count of its numbers: those of the symbols (kind, sort, sorts of the arguments), and
//! those of the trees (codes, variables and symbols in the order written, each one number).

use crate::admit::{self, Book, Expression, Symbol, Tree};
use crate::encode;
use crate::lent::{lengthy, two};
use crate::make::{self, Made};
use crate::random::Random;
use crate::seen::Seen;
use crate::sizes::*;
use crate::sorted::{constructor, constructors, operation};
use crate::text::checksum;

/// 50 with the row, or 51 with row 0.
pub type Refused = (u8, usize);

/// A row, and whether all its numbers are there.
struct Row<'a> {
    numbers: &'a [u16],
    whole: bool,
}

fn rows(numbers: &[u16]) -> Vec<Row<'_>> {
    let mut out = Vec::new();
    let mut rest = numbers;
    while let Some((count, behind)) = rest.split_first() {
        let whole = behind.len() >= *count as usize;
        let (row, more) = behind.split_at((*count as usize).min(behind.len()));
        out.push(Row { numbers: row, whole });
        rest = more;
    }
    out
}

/// "50 rows not a book, with the first row at fault (the count of rows if some are missing or the book is too large)": the first
/// at fault among the rows whose bytes lie within the size of a book, else the count of rows.
pub fn write(symbols: &[u16], trees: &[u16], room: usize, seen: &mut Seen) -> Result<Vec<u8>, Refused> {
    let symbol_rows = rows(symbols);
    let tree_rows = rows(trees);
    let count = symbol_rows.len() + tree_rows.len();
    let mut book = Book::of(Vec::new());
    for (number, row) in symbol_rows.iter().enumerate() {
        // The 1,025th lies within the first 11,275 bytes, so no size hides a symbol's row.
        let Some(symbol) = symbol(row).filter(|_| number < SYMBOLS) else {
            seen.note("50 a symbol's row");
            return Err((50, number));
        };
        book.symbols.push(symbol);
    }
    let operations: Vec<usize> = (0..book.symbols.len()).filter(|n| book.symbols[*n].operation).collect();
    // The version byte, the two parts' lengths, and the symbols: each a length byte and its numbers.
    let mut size = 5 + symbol_rows.iter().map(|row| 1 + row.numbers.len()).sum::<usize>();
    for (number, row) in tree_rows.iter().enumerate() {
        let mut reader = RowReader { book: &book, row: row.numbers, at: 0, symbols: 0 };
        let read = operations.get(number).and_then(|own| {
            let symbol = &book.symbols[*own];
            let branched = vec![false; symbol.arguments.len()];
            let tree = reader.tree(symbol.sort, &symbol.arguments, &branched)?;
            (row.whole && reader.at == row.numbers.len()).then_some(tree)
        });
        // Two bytes for its length, one for each number, one more for a symbol.
        size += 2 + row.numbers.len() + reader.symbols;
        if size > BOOK_BYTES {
            break;
        }
        let Some(tree) = read else {
            seen.note("50 a tree's row");
            return Err((50, symbol_rows.len() + number));
        };
        book.symbols[operations[number]].tree = Some(tree);
    }
    if size > BOOK_BYTES {
        seen.note("50 too large");
        return Err((50, count));
    }
    if book.symbols.is_empty() || tree_rows.len() < operations.len() {
        seen.note("50 rows missing");
        return Err((50, count));
    }
    let bytes = encode::book(&book).bytes;
    assert_eq!(bytes.len(), size);
    assert!(admit::book(&bytes).is_ok());
    if bytes.len() > room {
        seen.note("51");
        return Err((51, 0));
    }
    seen.note("written");
    Ok(bytes)
}

fn symbol(row: &Row) -> Option<Symbol> {
    let length_fits = SYMBOL_LENGTHS.contains(&row.numbers.len());
    if !row.whole
        || !length_fits
        || row.numbers[0] > 1
        || row.numbers[1..].iter().any(|sort| *sort > HIGHEST_SORT as u16)
    {
        return None;
    }
    let sorts: Vec<u8> = row.numbers[1..].iter().map(|sort| *sort as u8).collect();
    Some(match row.numbers[0] {
        0 => constructor(sorts[0], &sorts[1..]),
        _ => operation(sorts[0], &sorts[1..], Tree::Exempt),
    })
}

/// Reads the numbers of a tree's row; None at a fault.
struct RowReader<'a> {
    book: &'a Book,
    row: &'a [u16],
    at: usize,
    /// How many symbols were read: each takes two bytes.
    symbols: usize,
}

impl RowReader<'_> {
    fn number(&mut self) -> Option<usize> {
        self.at += 1;
        self.row.get(self.at - 1).map(|number| *number as usize)
    }

    fn tree(&mut self, sort: u8, variables: &[u8], branched: &[bool]) -> Option<Tree> {
        match self.number()? {
            0 => Some(Tree::Exempt),
            1 => {
                let rule = self.expression(sort, variables)?;
                (rule.nodes() <= EXPRESSION_NODES).then_some(Tree::Rule(rule))
            }
            2 => {
                let variable = self.number()?;
                if variable >= variables.len() || branched[variable] {
                    return None;
                }
                let mut cases = Vec::new();
                for number in constructors(self.book, variables[variable]) {
                    let more = [variables, &self.book.symbols[number].arguments].concat();
                    if more.len() > VARIABLES {
                        return None;
                    }
                    let mut done = branched.to_vec();
                    done[variable] = true;
                    done.resize(more.len(), false);
                    cases.push(self.tree(sort, &more, &done)?);
                }
                Some(Tree::Branch(variable, cases))
            }
            _ => None,
        }
    }

    fn expression(&mut self, sort: u8, variables: &[u8]) -> Option<Expression> {
        match self.number()? {
            0 => {
                let variable = self.number()?;
                (variables.get(variable) == Some(&sort)).then_some(Expression::Variable(variable))
            }
            1 => {
                let number = self.number()?;
                self.symbols += 1;
                let symbol = self.book.symbols.get(number).filter(|symbol| symbol.sort == sort)?;
                let mut row = Vec::new();
                for argument in &symbol.arguments {
                    row.push(self.expression(*argument, variables)?);
                }
                Some(Expression::Apply(number, row))
            }
            2 => {
                let left = self.expression(sort, variables)?;
                let right = self.expression(sort, variables)?;
                Some(Expression::Choice(Box::new(left), Box::new(right)))
            }
            3 => Some(Expression::Fail),
            _ => None,
        }
    }
}

/// How many bytes program `writings` has, of which so many as the row says are lent; each is 170 before.
const TABLE_BYTES: usize = 32_800;

/// Numbers in blocks: how often the block is repeated, how many numbers it has, these numbers, two bytes each.
fn blocks(mut field: &[u8]) -> Option<Vec<u16>> {
    let mut numbers = Vec::new();
    while !field.is_empty() {
        let times = two(&mut field)?;
        let length = two(&mut field)?;
        let mut block = Vec::new();
        for _ in 0..length {
            block.push(two(&mut field)? as u16);
        }
        for _ in 0..times {
            numbers.extend(&block);
        }
    }
    Some(numbers)
}

/// Program `writings`: of each row a field of two bytes for the room lent and a label, the symbols' and the trees' numbers.
pub fn table(table: &[u8], seen: &mut Seen) -> Option<String> {
    let mut rest = table;
    let mut text = String::new();
    while !rest.is_empty() {
        let mut head = lengthy(&mut rest)?;
        let room = two(&mut head)?;
        let symbols = blocks(lengthy(&mut rest)?)?;
        let trees = blocks(lengthy(&mut rest)?)?;
        let mut bytes = vec![170; TABLE_BYTES];
        let (number, row, length) = match write(&symbols, &trees, room, seen) {
            Ok(book) => {
                bytes[..book.len()].copy_from_slice(&book);
                (0, 0, book.len())
            }
            Err((number, row)) => (number, row, 0),
        };
        let label = String::from_utf8_lossy(head);
        text.push_str(&format!(
            "{label}: {number} {row} {length}; bytes {}\n",
            checksum(bytes.into_iter().map(u64::from))
        ));
    }
    Some(text)
}

pub fn table_program(input: &[u8], seen: &mut Seen) -> (String, Option<u8>) {
    (table(input, seen).expect("a whole table"), Some(0))
}

pub const SEEN: &[&str] = &["written", "51", "50 a symbol's row", "50 a tree's row", "50 too large", "50 rows missing"];

/// The rows of a book.
fn rows_of(book: &Book) -> (Vec<Vec<u16>>, Vec<Vec<u16>>) {
    let items = encode::items(book);
    let symbols = items.symbols.iter().map(|item| item.iter().map(|byte| *byte as u16).collect()).collect();
    let mut trees = Vec::new();
    for symbol in &book.symbols {
        if let Some(tree) = &symbol.tree {
            let mut row = Vec::new();
            tree_row(tree, &mut row);
            trees.push(row);
        }
    }
    (symbols, trees)
}

fn tree_row(tree: &Tree, out: &mut Vec<u16>) {
    match tree {
        Tree::Exempt => out.push(0),
        Tree::Rule(rule) => {
            out.push(1);
            expression_row(rule, out);
        }
        Tree::Branch(variable, cases) => {
            out.extend([2, *variable as u16]);
            cases.iter().for_each(|case| tree_row(case, out));
        }
    }
}

fn expression_row(expression: &Expression, out: &mut Vec<u16>) {
    match expression {
        Expression::Variable(variable) => out.extend([0, *variable as u16]),
        Expression::Apply(symbol, row) => {
            out.extend([1, *symbol as u16]);
            row.iter().for_each(|argument| expression_row(argument, out));
        }
        Expression::Choice(left, right) => {
            out.push(2);
            expression_row(left, out);
            expression_row(right, out);
        }
        Expression::Fail => out.push(3),
        Expression::Share(..) => unreachable!("the writer writes version 1"),
    }
}

/// "writing what was read from an admitted book gives the same bytes".
#[cfg(test)]
pub fn writes_back(book: &Book) -> bool {
    let (symbols, trees) = rows_of(book);
    let numbers = |rows: &[Vec<u16>]| -> Vec<u16> {
        rows.iter().flat_map(|row| std::iter::once(row.len() as u16).chain(row.iter().copied())).collect()
    };
    let written = write(&numbers(&symbols), &numbers(&trees), BOOK_BYTES, &mut Seen::default());
    written == Ok(encode::book(book).bytes)
}

/// Equal rows as one block; some numbers of the last row may be missing.
fn as_blocks(rows: &[Vec<u16>], missing: usize) -> Vec<u8> {
    let mut out = Vec::new();
    let mut at = 0;
    while at < rows.len() {
        let mut times = rows[at..].iter().take_while(|row| **row == rows[at]).count();
        if missing > 0 && at + times == rows.len() && times > 1 {
            times -= 1;
        }
        let mut block = vec![rows[at].len() as u16];
        block.extend(&rows[at]);
        at += times;
        if at == rows.len() {
            block.truncate(block.len().saturating_sub(missing));
        }
        for number in [times as u16, block.len() as u16].iter().chain(&block) {
            out.extend(number.to_be_bytes());
        }
    }
    out
}

/// An input of the program `writings`: one row of its table.
pub fn make_table(seed: u64, number: u64) -> Made {
    let random = &mut Random::new(seed, number);
    let (kind, (mut symbols, mut trees)) = match random.weighted(&[70, 12, 8]) {
        0 => ("a book's rows", rows_of(&make::some_book_of(random, 1))),
        1 => ("rows of about 32,768 bytes", large(random)),
        _ => {
            let count = random.from(1_020, 1_030);
            ("about 1,024 symbols", (vec![vec![0, 0]; count], Vec::new()))
        }
    };
    if random.percent(60) {
        for _ in 0..random.from(1, 3) {
            let part = if random.percent(40) { &mut symbols } else { &mut trees };
            change(random, part);
        }
    }
    let missing = |random: &mut Random| if random.percent(6) { random.from(1, 3) } else { 0 };
    let (of_symbols, of_trees) = (as_blocks(&symbols, missing(random)), as_blocks(&trees, missing(random)));
    let room = *random.pick(&[TABLE_BYTES, TABLE_BYTES, 32_768, 200, 100]);
    let mut input = Vec::new();
    for field in [[&(room as u16).to_be_bytes()[..], b"row"].concat(), of_symbols, of_trees] {
        input.extend((field.len() as u16).to_be_bytes());
        input.extend(field);
    }
    Made { kind, input, sound: true }
}

/// Operations whose rules are rows of choices; a few bytes below or above the size.
fn large(random: &mut Random) -> (Vec<Vec<u16>>, Vec<Vec<u16>>) {
    let comb = |count: usize| [vec![1], [2, 3].repeat(count), vec![3]].concat();
    // 475 operations: 3 bytes each, and 66 or 54 for each tree: 32,768 bytes with the last one shorter.
    let mut symbols = vec![vec![1, 0]; 475];
    let mut trees = vec![comb(31); 474];
    trees.push(comb(25));
    match random.below(5) {
        0 => symbols[474].push(0),
        1 => trees[474] = comb(random.from(20, 31)),
        2 => {
            for _ in 0..random.from(1, 20) {
                symbols.push(vec![1, 0]);
                trees.push(vec![1, 3]);
            }
        }
        3 => {
            symbols.truncate(470);
            trees.truncate(470);
        }
        _ => {}
    }
    (symbols, trees)
}

fn change(random: &mut Random, part: &mut Vec<Vec<u16>>) {
    const ODD: &[u16] = &[0, 0, 1, 1, 2, 3, 4, 5, 63, 64, 255, 256, 1_023, 1_024, 65_535];
    let at = random.below(part.len().max(1));
    let act = random.below(6);
    if part.is_empty() || act == 0 {
        let row = random.pick(&[vec![0], vec![0, 0], vec![1, 0], vec![1, 3], vec![]]).clone();
        part.insert(at.min(part.len()), row);
    } else if act == 1 {
        part.remove(at);
    } else if act == 2 && !part[at].is_empty() {
        let place = random.below(part[at].len());
        part[at].remove(place);
    } else if act == 3 {
        let place = random.below(part[at].len() + 1);
        let number = *random.pick(ODD);
        part[at].insert(place, number);
    } else if !part[at].is_empty() {
        let place = random.below(part[at].len());
        part[at][place] = *random.pick(ODD);
    }
}
