//! Admission: "The book and the question, as bytes" and numbers 1 to 5 and 11 to 15, with requests L3, L8 and L9.
//!
//! Bytes are read front to back; the first fault met is given.

use crate::seen::Seen;
use crate::sizes::*;

/// A fault's number (1 to 5 in the book, 11 to 15 in a question, 16 for the row), its place, the number of the question that has it
/// (else 0), and a name for counting.
#[derive(Clone, Copy, Debug, PartialEq, Eq)]
pub struct Fault {
    pub number: u8,
    pub place: usize,
    pub question: usize,
    pub name: &'static str,
}

#[derive(Clone, Debug)]
pub enum Expression {
    Variable(usize),
    Apply(usize, Vec<Expression>),
    Choice(Box<Expression>, Box<Expression>),
    Fail,
    /// Request L8, code 4: a sort, the first of that sort, and the body in which it takes the next free variable number.
    Share(u8, Box<Expression>, Box<Expression>),
}

impl Expression {
    /// "64 nodes in one expression (variables don't count)". A code 4 is no node either.
    pub fn nodes(&self) -> usize {
        match self {
            Expression::Variable(_) => 0,
            Expression::Apply(_, row) => 1 + row.iter().map(Expression::nodes).sum::<usize>(),
            Expression::Choice(left, right) => 1 + left.nodes() + right.nodes(),
            Expression::Fail => 1,
            Expression::Share(_, first, body) => first.nodes() + body.nodes(),
        }
    }

    pub fn choices(&self) -> usize {
        match self {
            Expression::Variable(_) | Expression::Fail => 0,
            Expression::Apply(_, row) => row.iter().map(Expression::choices).sum(),
            Expression::Choice(left, right) => 1 + left.choices() + right.choices(),
            Expression::Share(_, first, body) => first.choices() + body.choices(),
        }
    }

    /// What stands on top: under a code 4, its body's.
    pub fn top(&self) -> &Expression {
        match self {
            Expression::Share(_, _, body) => body.top(),
            other => other,
        }
    }
}

#[derive(Clone, Debug)]
pub enum Tree {
    Exempt,
    Rule(Expression),
    /// The variable, and one tree for each constructor of its sort, in symbol order.
    Branch(usize, Vec<Tree>),
}

#[derive(Clone, Debug)]
pub struct Symbol {
    pub operation: bool,
    pub sort: u8,
    pub arguments: Vec<u8>,
    /// Operations only.
    pub tree: Option<Tree>,
    /// Constructors only: which of its sort's constructors it is, in symbol order.
    pub rank: usize,
}

#[derive(Clone, Debug)]
pub struct Book {
    /// The version byte, 1 or 2.
    pub version: u8,
    pub symbols: Vec<Symbol>,
}

impl Book {
    /// A book of version 1.
    pub fn of(symbols: Vec<Symbol>) -> Book {
        Book { version: 1, symbols }
    }

    /// The constructors of a sort, in symbol order.
    fn constructors(&self, sort: u8) -> Vec<usize> {
        let fits = |n: &usize| !self.symbols[*n].operation && self.symbols[*n].sort == sort;
        (0..self.symbols.len()).filter(fits).collect()
    }
}

#[derive(Clone, Debug)]
pub struct Question {
    pub expression: Expression,
}

/// Which of the two is read: fixes the numbers, and the names for counting.
#[derive(Clone, Copy, PartialEq, Eq)]
enum Reading {
    Book,
    Question,
}

use Reading::{Book as InBook, Question as InQuestion};

impl Reading {
    /// "11 to 15: the same in the question".
    fn fault<T>(self, number: u8, place: usize, what: &str) -> Result<T, Fault> {
        let (start, base) = match self {
            InBook => ("fault book", 0),
            InQuestion => ("fault question", 10),
        };
        let wanted = format!("{start} {number} {what}");
        let name = crate::seen::FAULTS.iter().find(|name| **name == wanted).expect(&wanted);
        Err(Fault { number: base + number, place, question: 0, name })
    }
}

/// A run of bytes up to `end`, read from `at`: a whole book or question, a part, or an item.
#[derive(Clone, Copy)]
struct Reader<'a> {
    bytes: &'a [u8],
    at: usize,
    end: usize,
    reading: Reading,
    /// The version byte of these bytes, once it is read.
    version: u8,
}

impl<'a> Reader<'a> {
    fn over(bytes: &'a [u8], reading: Reading) -> Reader<'a> {
        Reader { bytes, at: 0, end: bytes.len(), reading, version: 0 }
    }

    /// Request L8: "2 and 12 now mean neither 1 nor 2". Book and question have versions of their own.
    fn version(&mut self) -> Result<(), Fault> {
        self.version = self.byte()?;
        if self.version != 1 && self.version != 2 {
            return self.reading.fault(2, 0, "version");
        }
        Ok(())
    }

    /// "a needed byte lies past its part or item (place: that end)".
    fn byte(&mut self) -> Result<u8, Fault> {
        if self.at >= self.end {
            return self.reading.fault(1, self.end, "needed byte");
        }
        self.at += 1;
        Ok(self.bytes[self.at - 1])
    }

    /// "Numbers are big-endian."
    fn two_bytes(&mut self) -> Result<usize, Fault> {
        let high = self.byte()? as usize;
        let low = self.byte()? as usize;
        Ok(high * 256 + low)
    }

    /// A two-byte length and what it counts. "a length runs past what encloses it (place: the length)".
    fn part(&mut self) -> Result<Reader<'a>, Fault> {
        let place = self.at;
        let length = self.two_bytes()?;
        if self.at + length > self.end {
            return self.reading.fault(1, place, "length past");
        }
        let part = Reader { end: self.at + length, ..*self };
        self.at += length;
        Ok(part)
    }

    /// "bytes left over (place: the first)".
    fn finish(&self) -> Result<(), Fault> {
        if self.at < self.end {
            return self.reading.fault(1, self.at, "left over");
        }
        Ok(())
    }
}

/// Admission of a book.
pub fn book(bytes: &[u8]) -> Result<Book, Fault> {
    if bytes.len() > BOOK_BYTES {
        return InBook.fault(1, 0, "over its size");
    }
    let mut whole = Reader::over(bytes, InBook);
    whole.version()?;
    let length_place = whole.at;
    let symbol_part = whole.part()?;
    if symbol_part.at == symbol_part.end {
        return InBook.fault(3, length_place, "no symbols");
    }
    let mut book = Book { version: whole.version, symbols: symbols(symbol_part)? };
    let mut tree_part = whole.part()?;
    for number in 0..book.symbols.len() {
        if book.symbols[number].operation {
            let mut item = tree_part.part()?;
            let variables = book.symbols[number].arguments.clone();
            let branched = vec![false; variables.len()];
            let sort = book.symbols[number].sort;
            let read = tree(&book, &mut item, sort, &variables, &branched)?;
            item.finish()?;
            book.symbols[number].tree = Some(read);
        }
    }
    tree_part.finish()?;
    whole.finish()?;
    Ok(book)
}

/// "Symbols are numbered from 0. Each opens with one length byte (2 to 10), then kind ..., result sort
/// ..., and the sorts of its arguments".
fn symbols(mut part: Reader) -> Result<Vec<Symbol>, Fault> {
    let mut symbols: Vec<Symbol> = Vec::new();
    while part.at < part.end {
        let place = part.at;
        let length = part.byte()? as usize;
        // Three faults have the length byte for their place: "two at one place, the lower number".
        if part.at + length > part.end {
            return InBook.fault(1, place, "length past");
        }
        if symbols.len() == SYMBOLS {
            return InBook.fault(3, place, "1,025th symbol");
        }
        if !SYMBOL_LENGTHS.contains(&length) {
            return InBook.fault(3, place, "symbol length");
        }
        let kind = part.byte()?;
        if kind > 1 {
            return InBook.fault(3, part.at - 1, "kind");
        }
        let mut sorts = Vec::new();
        for _ in 1..length {
            let sort = part.byte()?;
            if sort > HIGHEST_SORT {
                return InBook.fault(3, part.at - 1, "sort");
            }
            sorts.push(sort);
        }
        let sort = sorts.remove(0);
        let rank = symbols.iter().filter(|other| !other.operation && other.sort == sort).count();
        symbols.push(Symbol { operation: kind == 1, sort, arguments: sorts, tree: None, rank });
    }
    Ok(symbols)
}

/// One tree. `variables` are the sorts of the variables of this path, `branched` those already branched on.
fn tree(book: &Book, item: &mut Reader, sort: u8, variables: &[u8], branched: &[bool]) -> Result<Tree, Fault> {
    let place = item.at;
    match item.byte()? {
        // Request L9: "Version 2 books with tree code 0 are refused."
        0 if item.version == 2 => InBook.fault(4, place, "exempt in version 2"),
        0 => Ok(Tree::Exempt),
        1 => {
            // "a rule has its operation's result sort".
            let mut nodes = 0;
            Ok(Tree::Rule(expression(book, item, sort, variables, &mut nodes)?))
        }
        2 => {
            let place = item.at;
            let variable = item.byte()? as usize;
            if variable >= variables.len() {
                return InBook.fault(4, place, "variable not there, branch");
            }
            if branched[variable] {
                return InBook.fault(4, place, "branched on twice");
            }
            // The place of "a branch that would bind past 32" is the variable's byte, so it is met
            // before anything in the trees below.
            let constructors = book.constructors(variables[variable]);
            for number in &constructors {
                if variables.len() + book.symbols[*number].arguments.len() > VARIABLES {
                    return InBook.fault(4, place, "binds past 32");
                }
            }
            let mut cases = Vec::new();
            for number in &constructors {
                // "the constructor's arguments take the next free numbers on that path".
                let mut more = variables.to_vec();
                more.extend(&book.symbols[*number].arguments);
                let mut done = branched.to_vec();
                done[variable] = true;
                done.resize(more.len(), false);
                cases.push(tree(book, item, sort, &more, &done)?);
            }
            Ok(Tree::Branch(variable, cases))
        }
        _ => InBook.fault(4, place, "tree code"),
    }
}

/// "At an expression: code, node count, its symbol or variable byte, sort, then its arguments or sides."
fn expression(
    book: &Book,
    item: &mut Reader,
    sort: u8,
    variables: &[u8],
    nodes: &mut usize,
) -> Result<Expression, Fault> {
    let reading = item.reading;
    let code_place = item.at;
    let code = item.byte()?;
    // "code 4 in version 1 stays 4 or 14".
    if code == 4 && item.version == 1 {
        return reading.fault(4, code_place, "code 4 in version 1");
    }
    if code > 4 {
        return reading.fault(4, code_place, "expression code");
    }
    // "65th node (place: its code)"; "variables don't count".
    if code != 0 && code != 4 {
        *nodes += 1;
        if *nodes > EXPRESSION_NODES {
            return reading.fault(4, code_place, "65th node");
        }
    }
    match code {
        0 => {
            let place = item.at;
            let variable = item.byte()? as usize;
            if variable >= variables.len() {
                return reading.fault(4, place, "variable not there, expression");
            }
            if variables[variable] != sort {
                return reading.fault(5, code_place, "variable");
            }
            Ok(Expression::Variable(variable))
        }
        1 => {
            let place = item.at;
            let number = item.two_bytes()?;
            if number >= book.symbols.len() {
                return reading.fault(4, place, "symbol not there");
            }
            let symbol = &book.symbols[number];
            if symbol.sort != sort {
                return reading.fault(5, code_place, "apply");
            }
            let mut row = Vec::new();
            for argument in &symbol.arguments {
                row.push(expression(book, item, *argument, variables, nodes)?);
            }
            Ok(Expression::Apply(number, row))
        }
        2 => {
            // "a choice has the sort asked for on both sides".
            let left = expression(book, item, sort, variables, nodes)?;
            let right = expression(book, item, sort, variables, nodes)?;
            Ok(Expression::Choice(Box::new(left), Box::new(right)))
        }
        3 => Ok(Expression::Fail), // "A fail fits every sort".
        _ => {
            // "a 33rd variable is 4 or 14 at its code".
            if variables.len() == VARIABLES {
                return reading.fault(4, code_place, "33rd variable");
            }
            let place = item.at;
            let first_sort = item.byte()?;
            if first_sort > HIGHEST_SORT {
                return reading.fault(3, place, "sort of a shared part");
            }
            let first = expression(book, item, first_sort, variables, nodes)?;
            // "the body, in which the first takes the next free variable number, there only".
            let mut more = variables.to_vec();
            more.push(first_sort);
            let body = expression(book, item, sort, &more, nodes)?;
            Ok(Expression::Share(first_sort, Box::new(first), Box::new(body)))
        }
    }
}

/// Admission of a question against an admitted book.
pub fn question(book: &Book, bytes: &[u8]) -> Result<Question, Fault> {
    if bytes.len() > QUESTION_BYTES {
        return InQuestion.fault(1, 0, "over its size");
    }
    let mut whole = Reader::over(bytes, InQuestion);
    whole.version()?;
    let mut part = whole.part()?;
    let place = part.at;
    let sort = part.byte()?;
    if sort > HIGHEST_SORT {
        return InQuestion.fault(3, place, "sort");
    }
    // "one expression of that sort with no variables bound".
    let mut nodes = 0;
    let expression = expression(book, &mut part, sort, &[], &mut nodes)?;
    part.finish()?;
    whole.finish()?;
    Ok(Question { expression })
}

/// Both, "Book before question".
pub fn both(book_bytes: &[u8], question_bytes: &[u8], seen: &mut Seen) -> Result<(Book, Question), Fault> {
    let admitted = book(book_bytes).and_then(|b| question(&b, question_bytes).map(|q| (b, q)));
    if let Err(fault) = &admitted {
        seen.note(fault.name);
    }
    admitted
}

/// What can be wrong with a row of lengths and the bytes behind them.
pub const ROW_FAULTS: &[&str] =
    &["fault row 16 none", "fault row 16 more than 32", "fault row 11 bytes too few", "fault row 11 bytes left over"];

/// Request L3: "A run takes a row of up to 32 lengths and the questions' bytes end to end, loaded in order (bytes too few or left
/// over: 11 at 0)". Questions are met in order; of one whose bytes are not all there nothing is read.
pub fn row(book_bytes: &[u8], lengths: &[u16], bytes: &[u8], seen: &mut Seen) -> Result<(Book, Vec<Question>), Fault> {
    let admitted = book(book_bytes).and_then(|b| questions(&b, lengths, bytes).map(|q| (b, q)));
    if let Err(fault) = &admitted {
        seen.note(fault.name);
    }
    admitted
}

fn questions(book: &Book, lengths: &[u16], bytes: &[u8]) -> Result<Vec<Question>, Fault> {
    let fault = |number, question, name| Err(Fault { number, place: 0, question, name: ROW_FAULTS[name] });
    // "16 for none or more than 32 questions, between 5 and 11".
    if lengths.is_empty() {
        return fault(16, 0, 0);
    }
    if lengths.len() > QUESTIONS {
        return fault(16, 0, 1);
    }
    let mut rest = bytes;
    let mut read = Vec::new();
    for (number, length) in lengths.iter().enumerate() {
        if rest.len() < *length as usize {
            return fault(11, number, 2);
        }
        let (own, behind) = rest.split_at(*length as usize);
        read.push(question(book, own).map_err(|fault| Fault { question: number, ..fault })?);
        rest = behind;
    }
    // "bytes left over: the last's".
    if !rest.is_empty() {
        return fault(11, lengths.len() - 1, 3);
    }
    Ok(read)
}
