//! Well-sorted books and questions, by chance.

use crate::admit::{Book, Expression, Symbol, Tree};
use crate::random::Random;
use crate::sizes::*;

/// How likely each form of an expression is, in one book.
struct Taste {
    variable: usize,
    constructor: usize,
    operation: usize,
    choice: usize,
    fail: usize,
    exempt: usize,
    branch: usize,
    /// Steps down after which an expression is closed off.
    height: usize,
}

pub fn constructor(sort: u8, arguments: &[u8]) -> Symbol {
    Symbol { operation: false, sort, arguments: arguments.to_vec(), tree: None, rank: 0 }
}

pub fn operation(sort: u8, arguments: &[u8], tree: Tree) -> Symbol {
    Symbol { operation: true, sort, arguments: arguments.to_vec(), tree: Some(tree), rank: 0 }
}

/// A book by chance.
pub fn book(random: &mut Random) -> Book {
    let mut sorts: Vec<u8> = vec![0, 1, 2, 63, 17];
    random.shuffle(&mut sorts);
    let count = random.from(1, 3);
    sorts.truncate(count);
    let mut symbols = Vec::new();
    for sort in &sorts {
        let some = if random.percent(7) { 0 } else { random.from(1, 4) };
        for number in 0..some {
            let arguments = if number == 0 && random.percent(90) { 0 } else { arity(random, 3) };
            symbols.push(constructor(*sort, &row(random, &sorts, arguments)));
        }
    }
    for _ in 0..random.from(1, 7) {
        let sort = *random.pick(&sorts);
        let arguments = arity(random, 4);
        symbols.push(operation(sort, &row(random, &sorts, arguments), Tree::Exempt));
    }
    random.shuffle(&mut symbols);
    let mut book = Book::of(symbols);
    let taste = Taste {
        variable: random.from(5, 40),
        constructor: random.from(10, 50),
        operation: random.from(5, 40),
        choice: if random.percent(25) { 0 } else { random.from(2, 25) },
        fail: if random.percent(40) { 0 } else { random.from(1, 10) },
        exempt: if random.percent(40) { 0 } else { random.from(2, 25) },
        branch: random.from(40, 80),
        height: random.from(1, 4),
    };
    for number in 0..book.symbols.len() {
        if book.symbols[number].operation {
            let Symbol { sort, arguments, .. } = book.symbols[number].clone();
            let branched = vec![false; arguments.len()];
            let mut leaves = 24;
            let tree = tree(random, &book, &taste, sort, &arguments, &branched, &mut leaves);
            book.symbols[number].tree = Some(tree);
        }
    }
    book
}

fn arity(random: &mut Random, high: usize) -> usize {
    if random.percent(4) {
        random.from(5, 8)
    } else {
        random.from(0, high)
    }
}

fn row(random: &mut Random, sorts: &[u8], count: usize) -> Vec<u8> {
    (0..count).map(|_| *random.pick(sorts)).collect()
}

/// The constructors of a sort, in symbol order.
pub fn constructors(book: &Book, sort: u8) -> Vec<usize> {
    (0..book.symbols.len()).filter(|n| !book.symbols[*n].operation && book.symbols[*n].sort == sort).collect()
}

fn tree(
    random: &mut Random,
    book: &Book,
    taste: &Taste,
    sort: u8,
    variables: &[u8],
    branched: &[bool],
    leaves: &mut usize,
) -> Tree {
    if random.percent(taste.branch) {
        let open: Vec<usize> = (0..variables.len()).filter(|n| !branched[*n]).collect();
        if !open.is_empty() {
            // The later variables more often, so that patterns nest.
            let variable = if random.percent(50) { open[open.len() - 1] } else { *random.pick(&open) };
            if let Some(tree) = branch(random, book, taste, sort, variables, branched, leaves, variable) {
                return tree;
            }
        }
    }
    if random.percent(taste.exempt) {
        return Tree::Exempt;
    }
    Tree::Rule(rule(random, book, taste, sort, variables))
}

#[allow(clippy::too_many_arguments)]
fn branch(
    random: &mut Random,
    book: &Book,
    taste: &Taste,
    sort: u8,
    variables: &[u8],
    branched: &[bool],
    leaves: &mut usize,
    variable: usize,
) -> Option<Tree> {
    let constructors = constructors(book, variables[variable]);
    let most = constructors.iter().map(|n| book.symbols[*n].arguments.len()).max().unwrap_or(0);
    if variables.len() + most > VARIABLES || *leaves < constructors.len() {
        return None;
    }
    *leaves -= constructors.len();
    let mut cases = Vec::new();
    for number in constructors {
        let mut more = variables.to_vec();
        more.extend(&book.symbols[number].arguments);
        let mut done = branched.to_vec();
        done[variable] = true;
        done.resize(more.len(), false);
        cases.push(tree(random, book, taste, sort, &more, &done, leaves));
    }
    Some(Tree::Branch(variable, cases))
}

/// A rule's expression; now and then one variable alone.
fn rule(random: &mut Random, book: &Book, taste: &Taste, sort: u8, variables: &[u8]) -> Expression {
    if random.percent(20) {
        if let Some(variable) = variable(random, sort, variables) {
            return variable;
        }
    }
    fitting(random, book, taste, sort, variables, taste.height)
}

/// An expression of at most 64 nodes.
fn fitting(random: &mut Random, book: &Book, taste: &Taste, sort: u8, variables: &[u8], height: usize) -> Expression {
    for height in (0..=height).rev() {
        let mut left = EXPRESSION_NODES + 1;
        let made = expression(random, book, taste, sort, variables, height, &mut left);
        if made.nodes() <= EXPRESSION_NODES {
            return made;
        }
    }
    Expression::Fail
}

fn variable(random: &mut Random, sort: u8, variables: &[u8]) -> Option<Expression> {
    let fit: Vec<usize> = (0..variables.len()).filter(|n| variables[*n] == sort).collect();
    if fit.is_empty() {
        return None;
    }
    Some(Expression::Variable(*random.pick(&fit)))
}

/// An expression by chance; once `left` nodes are made the rest are fails.
fn expression(
    random: &mut Random,
    book: &Book,
    taste: &Taste,
    sort: u8,
    variables: &[u8],
    height: usize,
    left: &mut usize,
) -> Expression {
    if *left == 0 {
        return Expression::Fail;
    }
    *left -= 1;
    for _ in 0..4 {
        let weights = [taste.variable, taste.constructor, taste.operation, taste.choice, taste.fail];
        match random.weighted(&weights) {
            0 => {
                if let Some(made) = variable(random, sort, variables) {
                    return made;
                }
            }
            form @ (1 | 2) => {
                let fits = |n: &usize| {
                    let symbol = &book.symbols[*n];
                    symbol.sort == sort
                        && symbol.operation == (form == 2)
                        && (height > 0 || symbol.arguments.is_empty())
                };
                let fit: Vec<usize> = (0..book.symbols.len()).filter(fits).collect();
                if !fit.is_empty() {
                    let number = *random.pick(&fit);
                    // Now and then one variable stands in all arguments of its sort: shared.
                    let shared = random.percent(20).then(|| random.below(variables.len().max(1)));
                    let mut row = Vec::new();
                    for argument in &book.symbols[number].arguments {
                        row.push(match shared {
                            Some(variable) if variables.get(variable) == Some(argument) => {
                                Expression::Variable(variable)
                            }
                            _ => expression(random, book, taste, *argument, variables, height - 1, left),
                        });
                    }
                    return Expression::Apply(number, row);
                }
            }
            3 => {
                if height > 0 {
                    let one = expression(random, book, taste, sort, variables, height - 1, left);
                    let other = expression(random, book, taste, sort, variables, height - 1, left);
                    return Expression::Choice(Box::new(one), Box::new(other));
                }
            }
            _ => return Expression::Fail,
        }
    }
    closed_off(random, book, sort, variables, 4)
}

/// The end of an expression: a variable, or a small value if there is one, or else a fail.
fn closed_off(random: &mut Random, book: &Book, sort: u8, variables: &[u8], height: usize) -> Expression {
    if let Some(made) = variable(random, sort, variables) {
        return made;
    }
    let mut fit = constructors(book, sort);
    fit.retain(|n| book.symbols[*n].arguments.is_empty());
    if fit.is_empty() {
        fit = constructors(book, sort);
    }
    if fit.is_empty() || height == 0 {
        return Expression::Fail;
    }
    let number = *random.pick(&fit);
    let arguments = &book.symbols[number].arguments;
    let row = arguments.iter().map(|argument| closed_off(random, book, *argument, &[], height - 1)).collect();
    Expression::Apply(number, row)
}

/// A question by chance: its sort, and its expression.
pub fn question(random: &mut Random, book: &Book) -> (u8, Expression) {
    let taste = Taste {
        variable: 0,
        constructor: random.from(10, 40),
        operation: random.from(20, 60),
        choice: random.from(0, 40),
        fail: if random.percent(60) { 0 } else { random.from(1, 10) },
        exempt: 0,
        branch: 0,
        height: random.from(1, 7),
    };
    let sort = random.pick(&book.symbols).sort;
    (sort, fitting(random, book, &taste, sort, &[], taste.height))
}
