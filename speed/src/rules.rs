//! An admitted book as the turns use it: trees parsed once, each rule a row of nodes to be copied.

use crate::admit::{Book, Expression, Tree as Read};
use crate::sizes::ARROWS;
use crate::turns::{APPLY, CHOICE, FAIL};

pub struct Symbol {
    pub operation: bool,
    pub arity: usize,
    /// Of a constructor: which of its sort's it is.
    pub rank: usize,
    pub tree: Tree,
}

pub enum Tree {
    Exempt,
    /// A rule that is one variable.
    Forward(usize),
    Rewrite(Rule),
    Branch(usize, Box<[Tree]>),
}

/// The nodes of an expression in the order written, the top node first.
pub struct Rule {
    pub parts: Box<[Part]>,
    pub choices: usize,
}

pub struct Part {
    pub kind: u16,
    /// A symbol, or which of the rule's choices it is.
    pub label: u16,
    pub arity: usize,
    pub arrows: [Source; ARROWS],
}

/// Where an arrow comes from: a node of the same rule, or a variable.
#[derive(Clone, Copy)]
pub enum Source {
    Made(u16),
    Variable(u16),
}

pub fn symbols(book: &Book) -> Vec<Symbol> {
    let symbol = |s: &crate::admit::Symbol| Symbol {
        operation: s.operation,
        arity: s.arguments.len(),
        rank: s.rank,
        tree: s.tree.as_ref().map_or(Tree::Exempt, tree),
    };
    book.symbols.iter().map(symbol).collect()
}

fn tree(read: &Read) -> Tree {
    match read {
        Read::Exempt => Tree::Exempt,
        Read::Rule(Expression::Variable(variable)) => Tree::Forward(*variable),
        Read::Rule(expression) => Tree::Rewrite(rule(expression)),
        Read::Branch(variable, cases) => Tree::Branch(*variable, cases.iter().map(tree).collect()),
    }
}

/// An expression that is no variable.
pub fn rule(expression: &Expression) -> Rule {
    let mut parts = Vec::with_capacity(expression.nodes());
    let mut choices = 0;
    part(expression, &mut parts, &mut choices);
    Rule { parts: parts.into(), choices }
}

fn part(expression: &Expression, parts: &mut Vec<Part>, choices: &mut usize) -> Source {
    let (kind, label, below): (u16, usize, Vec<&Expression>) = match expression {
        Expression::Variable(variable) => return Source::Variable(*variable as u16),
        Expression::Apply(symbol, row) => (APPLY, *symbol, row.iter().collect()),
        Expression::Choice(left, right) => {
            *choices += 1;
            (CHOICE, *choices - 1, vec![left, right])
        }
        Expression::Fail => (FAIL, 0, Vec::new()),
    };
    let at = parts.len();
    let none = [Source::Made(0); ARROWS];
    parts.push(Part { kind, label: label as u16, arity: below.len(), arrows: none });
    for (arrow, argument) in below.into_iter().enumerate() {
        parts[at].arrows[arrow] = part(argument, parts, choices);
    }
    Source::Made(at as u16)
}
