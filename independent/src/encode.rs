//! Books and questions as bytes, with the places of their lengths, so that these can be damaged.

use crate::admit::{Book, Expression, Symbol, Tree};

/// Bytes, and where lengths stand in them: (place, bytes of the length).
#[derive(Clone, Default)]
pub struct Encoded {
    pub bytes: Vec<u8>,
    pub lengths: Vec<(usize, usize)>,
}

/// The items of a book before they are put together.
#[derive(Clone)]
pub struct Items {
    pub version: u8,
    pub symbols: Vec<Vec<u8>>,
    pub trees: Vec<Vec<u8>>,
}

pub fn expression(expression: &Expression, out: &mut Vec<u8>) {
    match expression {
        Expression::Variable(variable) => out.extend([0, *variable as u8]),
        Expression::Apply(symbol, row) => {
            out.push(1);
            out.extend((*symbol as u16).to_be_bytes());
            for argument in row {
                self::expression(argument, out);
            }
        }
        Expression::Choice(left, right) => {
            out.push(2);
            self::expression(left, out);
            self::expression(right, out);
        }
        Expression::Fail => out.push(3),
        Expression::Share(sort, first, body) => {
            out.extend([4, *sort]);
            self::expression(first, out);
            self::expression(body, out);
        }
    }
}

pub fn tree(tree: &Tree, out: &mut Vec<u8>) {
    match tree {
        Tree::Exempt => out.push(0),
        Tree::Rule(rule) => {
            out.push(1);
            expression(rule, out);
        }
        Tree::Branch(variable, cases) => {
            out.extend([2, *variable as u8]);
            for case in cases {
                self::tree(case, out);
            }
        }
    }
}

fn symbol(symbol: &Symbol) -> Vec<u8> {
    let mut out = vec![symbol.operation as u8, symbol.sort];
    out.extend(&symbol.arguments);
    out
}

pub fn items(book: &Book) -> Items {
    let mut items = Items { version: book.version, symbols: Vec::new(), trees: Vec::new() };
    for one in &book.symbols {
        items.symbols.push(symbol(one));
        if let Some(of_one) = &one.tree {
            let mut out = Vec::new();
            tree(of_one, &mut out);
            items.trees.push(out);
        }
    }
    items
}

impl Items {
    pub fn assemble(&self) -> Encoded {
        let mut out = Encoded { bytes: vec![self.version], lengths: vec![(1, 2)] };
        let symbols: usize = self.symbols.iter().map(|item| 1 + item.len()).sum();
        out.bytes.extend((symbols as u16).to_be_bytes());
        for item in &self.symbols {
            out.lengths.push((out.bytes.len(), 1));
            out.bytes.push(item.len() as u8);
            out.bytes.extend(item);
        }
        let trees: usize = self.trees.iter().map(|item| 2 + item.len()).sum();
        out.lengths.push((out.bytes.len(), 2));
        out.bytes.extend((trees as u16).to_be_bytes());
        for item in &self.trees {
            out.lengths.push((out.bytes.len(), 2));
            out.bytes.extend((item.len() as u16).to_be_bytes());
            out.bytes.extend(item);
        }
        out
    }
}

pub fn book(book: &Book) -> Encoded {
    items(book).assemble()
}

pub fn question(version: u8, sort: u8, asked: &Expression) -> Encoded {
    let mut part = vec![sort];
    expression(asked, &mut part);
    question_of(version, &part)
}

/// A question with this part.
pub fn question_of(version: u8, part: &[u8]) -> Encoded {
    let mut bytes = vec![version];
    bytes.extend((part.len() as u16).to_be_bytes());
    bytes.extend(part);
    Encoded { bytes, lengths: vec![(1, 2)] }
}

/// The input of `expand`.
pub fn input(book: &[u8], question: &[u8], fuel: u32) -> Vec<u8> {
    let mut input = (book.len() as u16).to_be_bytes().to_vec();
    input.extend(book);
    input.extend((question.len() as u16).to_be_bytes());
    input.extend(question);
    input.extend(fuel.to_be_bytes());
    input
}
