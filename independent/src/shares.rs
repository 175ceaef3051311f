//! Edition 2 (request L8): shared parts put into books and questions made as version 1, and inputs at the edges of it.

use crate::admit::{Book, Expression, Tree};
use crate::random::Random;
use crate::sizes::*;
use crate::sorted::operation;
use crate::special::{self, add, leaf, numbers, one, or, times, P, S, Z};
use Expression::{Apply, Choice, Fail, Share, Variable};
use Tree::{Branch, Exempt, Rule};

pub fn share(sort: u8, first: Expression, body: Expression) -> Expression {
    Share(sort, Box::new(first), Box::new(body))
}

/// Makes a sound book of version 1 one of version 2: no exempt, and so many in a hundred expressions with a shared part.
pub fn to_version_2(random: &mut Random, book: &mut Book, percent: usize) {
    book.version = 2;
    for number in 0..book.symbols.len() {
        if let Some(mut tree) = book.symbols[number].tree.take() {
            let symbol = &book.symbols[number];
            in_tree(random, book, symbol.sort, &symbol.arguments, &mut tree, percent);
            book.symbols[number].tree = Some(tree);
        }
    }
}

fn in_tree(random: &mut Random, book: &Book, sort: u8, variables: &[u8], tree: &mut Tree, percent: usize) {
    match tree {
        Exempt => *tree = Rule(Fail),
        Rule(rule) => {
            let old = std::mem::replace(rule, Fail);
            *rule = with_shares(random, book, sort, variables, old, percent);
        }
        Branch(variable, cases) => {
            let mine = crate::sorted::constructors(book, variables[*variable]);
            for (number, case) in mine.iter().zip(cases) {
                let mut more = variables.to_vec();
                more.extend(&book.symbols[*number].arguments);
                in_tree(random, book, sort, &more, case, percent);
            }
        }
    }
}

/// A sound expression with shared parts at so many in a hundred of its places, and at most 64 nodes if it had no more.
pub fn with_shares(
    random: &mut Random,
    book: &Book,
    sort: u8,
    variables: &[u8],
    old: Expression,
    percent: usize,
) -> Expression {
    let mut spare = EXPRESSION_NODES.saturating_sub(old.nodes());
    let mut variables = variables.to_vec();
    wrapped(random, book, sort, &mut variables, old, percent, &mut spare)
}

/// `spare` is how many nodes may still be added.
fn wrapped(
    random: &mut Random,
    book: &Book,
    sort: u8,
    variables: &mut Vec<u8>,
    old: Expression,
    percent: usize,
    spare: &mut usize,
) -> Expression {
    let old = match old {
        Apply(symbol, row) => {
            let sorts = &book.symbols[symbol].arguments;
            let wrap =
                |(argument, sort): (Expression, &u8)| wrapped(random, book, *sort, variables, argument, percent, spare);
            Apply(symbol, row.into_iter().zip(sorts).map(wrap).collect())
        }
        Choice(left, right) => {
            let left = wrapped(random, book, sort, variables, *left, percent, spare);
            or(left, wrapped(random, book, sort, variables, *right, percent, spare))
        }
        other => other,
    };
    if !random.percent(percent) || variables.len() + bound(&old) + 1 > VARIABLES {
        return old;
    }
    let next = variables.len();
    match random.below(6) {
        // let x = old in x
        0 => share(sort, old, Variable(next)),
        // a first that the body does not use
        1 if *spare >= 3 => {
            let first_sort = random.pick(&book.symbols).sort;
            let mut first = small(random, book, first_sort, variables);
            if random.percent(40) {
                first = or(first, small(random, book, first_sort, variables));
            }
            *spare -= first.nodes();
            share(first_sort, first, shifted(old, next))
        }
        _ => match old {
            Apply(symbol, mut row) if !row.is_empty() => {
                // One argument is the first; others of its sort may be it too.
                let sorts = &book.symbols[symbol].arguments;
                let place = random.below(row.len());
                let shared_sort = sorts[place];
                let first = std::mem::replace(&mut row[place], Variable(next));
                let mut body = Vec::new();
                for (other, argument) in row.into_iter().enumerate() {
                    if other == place || (sorts[other] == shared_sort && random.percent(60)) {
                        body.push(Variable(next));
                    } else {
                        body.push(shifted(argument, next));
                    }
                }
                share(shared_sort, first, Apply(symbol, body))
            }
            Choice(left, right) => match random.below(3) {
                0 => share(sort, *left, or(Variable(next), shifted(*right, next))),
                1 => share(sort, *right, or(shifted(*left, next), Variable(next))),
                _ => share(sort, *left, or(Variable(next), Variable(next))),
            },
            other => share(sort, other, Variable(next)),
        },
    }
}

/// How many variables an expression binds on one path.
fn bound(expression: &Expression) -> usize {
    match expression {
        Variable(_) | Fail => 0,
        Apply(_, row) => row.iter().map(bound).max().unwrap_or(0),
        Choice(left, right) => bound(left).max(bound(right)),
        Share(_, first, body) => bound(first).max(1 + bound(body)),
    }
}

/// The same under one more variable: those numbered from `next` are bound inside and move up.
fn shifted(expression: Expression, next: usize) -> Expression {
    match expression {
        Variable(variable) => Variable(if variable >= next { variable + 1 } else { variable }),
        Fail => Fail,
        Apply(symbol, row) => Apply(symbol, row.into_iter().map(|argument| shifted(argument, next)).collect()),
        Choice(left, right) => or(shifted(*left, next), shifted(*right, next)),
        Share(sort, first, body) => share(sort, shifted(*first, next), shifted(*body, next)),
    }
}

/// A variable, a symbol without arguments, or a fail.
fn small(random: &mut Random, book: &Book, sort: u8, variables: &[u8]) -> Expression {
    let fit: Vec<usize> = (0..variables.len()).filter(|n| variables[*n] == sort).collect();
    if !fit.is_empty() && random.percent(30) {
        return Variable(*random.pick(&fit));
    }
    let bare = |n: &usize| book.symbols[*n].sort == sort && book.symbols[*n].arguments.is_empty();
    let bare: Vec<usize> = (0..book.symbols.len()).filter(bare).collect();
    if bare.is_empty() || random.percent(15) {
        return Fail;
    }
    leaf(*random.pick(&bare))
}

/// A book and a question of sort 0, both of version 2, and whether they must be admitted.
pub type Made = (Book, Expression, bool);

/// Firsts in firsts, up to thousands; at the bottom something sound, or a fault.
pub fn deep_firsts(random: &mut Random) -> Made {
    let mut book = numbers();
    book.version = 2;
    let same = add(&mut book, operation(0, &[0], Rule(Variable(0))));
    let in_book = random.percent(60);
    let most = if in_book { 8_160 } else { 1_018 };
    let deep = match random.below(4) {
        0 => most,
        1 => random.from(most / 2, most),
        2 => random.from(30, 70),
        _ => random.from(1, 400),
    };
    let variables = if in_book { random.below(3) } else { 0 };
    let (bottom, sound) = match random.below(8) {
        0 => (Fail, true),
        1 => (leaf(Z), true),
        2 => (or(leaf(Z), one(S, leaf(Z))), true),
        3 if variables > 0 => (Variable(0), true),
        4 => (Variable(variables), false),
        5 => (Apply(9, vec![]), false),
        6 => (Share(64, Box::new(Fail), Box::new(Fail)), false),
        _ => (one(same, leaf(Z)), true),
    };
    let mut made = bottom;
    for _ in 0..deep {
        made = share(0, made, Variable(variables));
    }
    if random.percent(30) {
        made = one(S, made);
    }
    if !in_book {
        return (book, made, sound);
    }
    let own = add(&mut book, operation(0, &vec![0; variables], Rule(made)));
    let row = (0..variables).map(|_| or(leaf(Z), one(S, leaf(Z)))).collect();
    (book, Apply(own, row), sound)
}

/// Bodies in bodies: 30 to 34 variables in scope, some of them an operation's or a branch's, and firsts in which numbers are free again.
pub fn many_variables(random: &mut Random) -> Made {
    let mut book = numbers();
    book.version = 2;
    let total = random.from(30, 34);
    let in_book = random.percent(60);
    let arguments = if in_book { random.below(9) } else { 0 };
    // A branch on variable 0 binds two more under P.
    let branched = in_book && arguments > 0 && random.percent(50);
    let start = arguments + if branched { 2 } else { 0 };
    let mut made = match random.below(4) {
        0 => Variable(total - 1),
        1 => Apply(P, vec![Variable(start.min(total - 1)), Variable(total - 1)]),
        2 => Variable(total), // not there
        _ => leaf(Z),
    };
    let not_there = matches!(made, Variable(variable) if variable == total);
    let mut left = 50;
    for next in (start..total).rev() {
        let first = match random.below(4) {
            0 if next > 0 => Variable(random.below(next)),
            1 if left > 4 => {
                left -= 4;
                or(leaf(Z), one(S, leaf(Z)))
            }
            // inside a first the number is free again
            2 if left > 1 && next + 1 < VARIABLES => {
                left -= 1;
                share(0, leaf(Z), Variable(next))
            }
            _ if left > 0 => {
                left -= 1;
                leaf(Z)
            }
            _ if next > 0 => Variable(next - 1),
            _ => leaf(Z),
        };
        made = share(0, first, made);
    }
    let sound = total <= VARIABLES && !not_there;
    if !in_book {
        return (book, made, sound);
    }
    let mut tree = Rule(made);
    if branched {
        // What a fault in the last case leaves unread stands behind it.
        tree = Branch(0, vec![Rule(leaf(Z)), Rule(Variable(arguments)), tree]);
    }
    let own = add(&mut book, operation(0, &vec![0; arguments], tree));
    let row = (0..arguments).map(|n| if n == 0 { Apply(P, vec![leaf(Z), leaf(Z)]) } else { leaf(Z) }).collect();
    (book, Apply(own, row), sound)
}

/// One choice, shared by code 4, that two users take the same way; also behind a forward and in two parts of a value.
pub fn shared_by_4(random: &mut Random) -> Made {
    let (mut book, _) = special::shared_choices(random);
    to_version_2(random, &mut book, 0);
    // The operations of that book, in the order made there.
    let (low, double, same, both) = (3, 4, 5, 6);
    let first = match random.below(4) {
        0 => or(leaf(Z), one(S, leaf(Z))),
        1 => one(same, or(leaf(Z), one(S, leaf(Z)))),
        2 => one(low, or(one(S, leaf(Z)), leaf(Z))),
        _ => share(0, or(leaf(Z), one(S, leaf(Z))), one(double, Variable(0))),
    };
    let user = |random: &mut Random, at: usize| match random.below(4) {
        0 => Variable(at),
        1 => one(same, Variable(at)),
        2 => one(low, Variable(at)),
        _ => one(S, Variable(at)),
    };
    let at = random.below(3);
    let with = if random.percent(50) { both } else { P };
    let body = Apply(with, vec![user(random, at), user(random, at)]);
    let made = share(0, first, body);
    if at == 0 {
        return (book, made, true);
    }
    let own = add(&mut book, operation(0, &vec![0; at], Rule(made)));
    let row = (0..at).map(|_| leaf(Z)).collect();
    (book, Apply(own, row), true)
}

/// Firsts that no body uses take nodes and choices: about 3,200 nodes, 256 choices, or both; the body is a lone variable or not.
pub fn unused_firsts(random: &mut Random) -> Made {
    let mut book = numbers();
    book.version = 2;
    let (choices, fresh) = match random.below(6) {
        0 | 1 => (3, 37),
        2 | 3 => (4, 49),
        4 => (5, 61),
        _ => (random.from(0, 5), random.from(5, 62)),
    };
    let own = book.symbols.len();
    let mut first = times(S, fresh - choices, Variable(0));
    for _ in 0..choices {
        first = or(first, Variable(0));
    }
    // A lone variable on top leads on to the second first.
    let body = match random.below(3) {
        0 => one(own, Variable(0)),
        1 => share(0, one(own, Variable(0)), Variable(2)),
        _ => share(0, one(own, Variable(1)), Variable(2)),
    };
    add(&mut book, operation(0, &[0], Rule(share(0, first, body))));
    let asked = one(own, times(S, random.below(60), leaf(Z)));
    let asked = if random.percent(30) { share(0, leaf(Z), asked) } else { asked };
    (book, asked, true)
}
