//! Inputs made to stand at the edges of "Sizes": 3,200 nodes, 256 choices, 64 entries, 4,096 arrivals,
//! 255 arrows and the answer bytes; and a book of usual functions.

use crate::admit::{Book, Expression, Symbol, Tree};
use crate::random::Random;
use crate::sorted::{constructor, operation};
use Expression::{Apply, Choice, Fail, Variable};
use Tree::{Branch, Exempt, Rule};

/// A book and a question of sort 0.
pub type Made = (Book, Expression);

pub fn add(book: &mut Book, symbol: Symbol) -> usize {
    book.symbols.push(symbol);
    book.symbols.len() - 1
}

pub fn leaf(symbol: usize) -> Expression {
    Apply(symbol, vec![])
}

pub fn one(symbol: usize, argument: Expression) -> Expression {
    Apply(symbol, vec![argument])
}

fn two(symbol: usize, left: Expression, right: Expression) -> Expression {
    Apply(symbol, vec![left, right])
}

pub fn or(left: Expression, right: Expression) -> Expression {
    Choice(Box::new(left), Box::new(right))
}

pub fn times(symbol: usize, count: usize, mut inner: Expression) -> Expression {
    for _ in 0..count {
        inner = one(symbol, inner);
    }
    inner
}

/// The sort most of these use: Z, S(x) and P(x, y).
pub const Z: usize = 0;
pub const S: usize = 1;
pub const P: usize = 2;

pub fn numbers() -> Book {
    Book::of(vec![constructor(0, &[]), constructor(0, &[0]), constructor(0, &[0, 0])])
}

/// A branch on a variable of the sort above.
fn by(variable: usize, z: Tree, s: Tree, p: Tree) -> Tree {
    Branch(variable, vec![z, s, p])
}

/// down(Z) = Z, down(S y) = S (down y), down(P y z) = P (down y) z.
fn down(book: &mut Book) -> usize {
    let own = book.symbols.len();
    let s = Rule(one(S, one(own, Variable(1))));
    let p = Rule(two(P, one(own, Variable(1)), Variable(2)));
    add(book, operation(0, &[0], by(0, Rule(leaf(Z)), s, p)))
}

/// An operation that holds its argument under more and more constructors and never looks at it.
fn grower(book: &mut Book, fresh: usize) -> usize {
    let own = book.symbols.len();
    add(book, operation(0, &[0], Rule(one(own, times(S, fresh, Variable(0))))))
}

/// A small closed expression of constructors, for the question's own nodes.
fn number(random: &mut Random, high: usize) -> Expression {
    let count = random.from(0, high);
    times(S, count, leaf(Z))
}

/// Runs out of nodes in a rewrite or a pull-up.
pub fn many_nodes(random: &mut Random) -> Made {
    let mut book = numbers();
    let fresh = random.from(1, 62);
    let grow = grower(&mut book, fresh);
    let again = grower(&mut book, random.from(1, 5));
    let low = down(&mut book);
    // pull = down(pull or Z): ever more pull-ups.
    let pull = book.symbols.len();
    add(&mut book, operation(0, &[], Rule(one(low, or(leaf(pull), leaf(Z))))));
    let mut top = one(grow, number(random, 30));
    if random.percent(50) {
        // Some 3,100 nodes are taken, then one choice is pulled up through 60 operations.
        let through = add(&mut book, operation(0, &[0], Rule(times(low, 60, Variable(0)))));
        let mut stage = add(&mut book, operation(0, &[0], Rule(one(through, or(leaf(Z), Variable(0))))));
        for _ in 0..random.from(48, 50) {
            stage = add(&mut book, operation(0, &[0], Rule(one(stage, times(S, 62, Variable(0))))));
        }
        return (book, one(stage, number(random, 30)));
    }
    match random.below(4) {
        0 => top = or(top, leaf(pull)),
        1 => top = or(one(again, number(random, 20)), or(leaf(pull), top)),
        2 => top = two(P, leaf(Z), top),
        _ => {}
    }
    (book, top)
}

/// Choices past 256, with about as many fresh nodes for each choice as the two rooms have together:
/// both may run out in one rewrite.
pub fn nodes_and_choices(random: &mut Random) -> Made {
    let mut book = numbers();
    // 85 rewrites of 3 choices and 37 nodes, 64 of 4 and 49, or 51 of 5 and 62 leave too little of both.
    let (choices, fresh) = match random.below(6) {
        0 | 1 => (3, 37),
        2 | 3 => (4, 49),
        4 => (5, 62),
        _ => (random.from(1, 5), random.from(5, 63)),
    };
    let plain = fresh - choices;
    let own = book.symbols.len();
    let mut held = times(S, plain, Variable(0));
    for _ in 0..choices {
        held = if random.percent(50) { or(held, Variable(0)) } else { or(Variable(0), held) };
    }
    add(&mut book, operation(0, &[0], Rule(one(own, held))));
    (book, one(own, number(random, 61)))
}

/// 256 choices, or a few more or less, decided one after another.
pub fn many_choices(random: &mut Random) -> Made {
    let mut book = numbers();
    let mut left = random.from(250, 262);
    let mut last = number(random, 3);
    while left > 0 {
        let now = random.from(1, 30).min(left);
        left -= now;
        let mut rule = last;
        for _ in 0..now {
            rule = if random.percent(50) { or(Fail, rule) } else { or(rule, Fail) };
        }
        let own = add(&mut book, operation(0, &[], Rule(rule)));
        last = leaf(own);
    }
    (book, last)
}

/// A choice tree with so many leaves.
fn choice_tree(random: &mut Random, mut leaves: Vec<Expression>) -> Expression {
    if leaves.len() == 1 {
        return leaves.remove(0);
    }
    let middle = random.from(1, leaves.len() - 1);
    let right = leaves.split_off(middle);
    or(choice_tree(random, leaves), choice_tree(random, right))
}

/// About 64 entries that all wait.
pub fn many_entries(random: &mut Random) -> Made {
    let mut book = numbers();
    let idle = book.symbols.len();
    add(&mut book, operation(0, &[], Rule(leaf(idle))));
    let mut left = random.from(61, 67);
    let mut parts = Vec::new();
    while left > 0 {
        let now = random.from(1, 30).min(left);
        left -= now;
        let leaves = (0..now).map(|_| leaf(idle)).collect();
        let rule = choice_tree(random, leaves);
        let own = add(&mut book, operation(0, &[], Rule(rule)));
        parts.push(leaf(own));
    }
    // Some answer or fail on the way.
    for _ in 0..random.below(4) {
        parts.push(if random.percent(50) { number(random, 2) } else { Fail });
    }
    random.shuffle(&mut parts);
    (book, choice_tree(random, parts))
}

/// nest(k): branches k deep (30 at most: P binds two) into S(S(...)), then gives the last variable or Z.
fn nest(random: &mut Random, book: &mut Book, deep: usize) -> usize {
    let mut tree = Rule(if random.percent(50) { Variable(deep) } else { leaf(Z) });
    for variable in (0..deep).rev() {
        let z = if random.percent(50) { Exempt } else { Rule(leaf(Z)) };
        tree = by(variable, z, tree, Exempt);
    }
    add(book, operation(0, &[0], tree))
}

/// Paths about 255 arrows long, made of constructors, operations, nested branches and forwards.
pub fn deep(random: &mut Random) -> Made {
    let mut book = numbers();
    let low = down(&mut book);
    let same = add(&mut book, operation(0, &[0], Rule(Variable(0))));
    let mut top = match random.below(6) {
        0 => leaf(Z),
        1 => Fail,
        2 => or(leaf(Z), number(random, 2)),
        3 => two(P, leaf(Z), Fail),
        4 => one(same, leaf(Z)),
        _ => number(random, 3),
    };
    let plain = random.percent(50); // constructors and forwards alone
    let mut left = if plain { random.from(252, 257) } else { random.from(244, 258) };
    while left > 0 {
        let now = random.from(1, 60).min(left);
        left -= now;
        match random.below(if plain { 4 } else { 8 }) {
            0..=3 => {
                let chain = if random.percent(70) { S } else { same };
                let rule = times(chain, now, Variable(0));
                let own = add(&mut book, operation(0, &[0], Rule(rule)));
                top = one(own, top);
                if chain == same {
                    left += now; // forwards count for nothing
                }
            }
            4 => {
                let few = now.min(10);
                left += now - few;
                let own = add(&mut book, operation(0, &[0], Rule(times(low, few, Variable(0)))));
                top = one(own, top);
            }
            5 => {
                // P with a finished left side.
                let mut rule = Variable(0);
                for _ in 0..now.min(30) {
                    rule = two(P, leaf(Z), rule);
                }
                left += now - now.min(30);
                let own = add(&mut book, operation(0, &[0], Rule(rule)));
                top = one(own, top);
            }
            _ => {
                let deep = now.min(30);
                left += now - deep;
                let own = nest(random, &mut book, deep);
                let spine = add(&mut book, operation(0, &[0], Rule(times(S, deep, Variable(0)))));
                top = one(own, one(spine, top));
            }
        }
        if top.nodes() > 50 {
            break;
        }
    }
    (book, top)
}

/// A path of S of an exact length down to a nested branch, whose last arrival is 253 to 257 arrows down.
pub fn deep_branch(random: &mut Random) -> Made {
    let mut book = numbers();
    let low = down(&mut book);
    let inner = random.from(1, 30);
    let total = random.from(253, 257);
    let own = nest(random, &mut book, inner);
    let last = match random.below(5) {
        0 => Fail,
        1 => or(leaf(Z), leaf(Z)),
        2 => one(low, leaf(Z)),
        _ => leaf(Z),
    };
    let spine = add(&mut book, operation(0, &[0], Rule(times(S, inner - 1, Variable(0)))));
    let mut top = one(own, one(spine, last));
    // Above it: constructors, or operations that walk into their argument.
    let mut left = total - inner;
    while left > 0 {
        let now = random.from(1, 60).min(left);
        left -= now;
        let through = if random.percent(80) { S } else { low };
        let now_low = if through == low { now.min(6) } else { now };
        left += now - now_low;
        let above = add(&mut book, operation(0, &[0], Rule(times(through, now_low, Variable(0)))));
        top = one(above, top);
    }
    (book, top)
}

/// A value of exactly so many symbols, in few nodes: double(x) = P x x.
pub fn sized(double: usize, size: usize) -> Expression {
    if size == 1 {
        leaf(Z)
    } else if size % 2 == 0 {
        one(S, sized(double, size - 1))
    } else {
        one(double, sized(double, (size - 1) / 2))
    }
}

pub fn doubler(book: &mut Book) -> usize {
    add(book, operation(0, &[0], Rule(two(P, Variable(0), Variable(0)))))
}

/// Puts an operation that becomes a forward above some nodes.
fn with_forwards(random: &mut Random, same: usize, expression: Expression) -> Expression {
    let made = match expression {
        Apply(symbol, row) => {
            Apply(symbol, row.into_iter().map(|argument| with_forwards(random, same, argument)).collect())
        }
        Choice(left, right) => or(with_forwards(random, same, *left), with_forwards(random, same, *right)),
        other => other,
    };
    if random.percent(15) {
        one(same, made)
    } else {
        made
    }
}

/// About 4,096 arrivals in a turn: a large value, alone or before something that still steps.
pub fn many_arrivals(random: &mut Random) -> Made {
    let mut book = numbers();
    let double = doubler(&mut book);
    let same = add(&mut book, operation(0, &[0], Rule(Variable(0))));
    let total = random.from(4092, 4100);
    if random.percent(40) {
        let top = with_forwards(random, same, sized(double, total));
        return (book, top);
    }
    let low = down(&mut book);
    let deep = random.from(1, 6);
    let own = nest(random, &mut book, deep);
    let after = match random.below(5) {
        0 => one(own, times(S, deep, leaf(Z))),
        1 => one(low, one(low, times(S, deep, leaf(Z)))),
        2 => or(leaf(Z), number(random, 3)),
        3 => Fail,
        _ => one(own, times(S, deep - 1, or(leaf(Z), one(S, leaf(Z))))),
    };
    let before = total - random.from(1, deep + 3);
    let after = with_forwards(random, same, after);
    let before = with_forwards(random, same, sized(double, before));
    (book, two(P, before, after))
}

/// Answers that together need about 16,384 bytes.
pub fn many_answer_bytes(random: &mut Random) -> Made {
    let mut book = numbers();
    match random.below(3) {
        0 => {
            // Two or three large answers: 1 + 4 and 2 for each symbol and decision.
            let double = doubler(&mut book);
            let total = random.from(8181, 8189);
            if random.percent(50) {
                let first = random.from(total - 4096, 4096);
                (book, or(sized(double, first), sized(double, total - first)))
            } else {
                let total = total - 4; // one more record, and five decisions in place of two
                let first = random.from(1, 2000);
                let second = random.from(total - first - 4096, 4096);
                let last = total - first - second;
                (book, or(sized(double, second), or(sized(double, last), sized(double, first))))
            }
        }
        1 => {
            // count(x) = x or count(S x)
            let own = book.symbols.len();
            let step = random.from(0, 3);
            let rule = or(Variable(0), one(own, times(S, step, Variable(0))));
            add(&mut book, operation(0, &[0], Rule(rule)));
            (book, one(own, number(random, 40)))
        }
        _ => {
            // Many middling answers: a choice tree over values.
            let double = doubler(&mut book);
            let mut leaves = Vec::new();
            for _ in 0..random.from(6, 10) {
                let size = random.from(1, 4) * random.from(200, 500);
                let value = add(&mut book, operation(0, &[], Rule(sized(double, size))));
                leaves.push(leaf(value));
            }
            let top = choice_tree(random, leaves);
            (book, top)
        }
    }
}

/// One or two choices under operations that use them more than once, so that entries meet choices that
/// they have decided.
pub fn shared_choices(random: &mut Random) -> Made {
    let mut book = numbers();
    let low = down(&mut book);
    let double = doubler(&mut book);
    let same = add(&mut book, operation(0, &[0], Rule(Variable(0))));
    // both x y: P of both, once both are looked at.
    let both_tree = by(
        0,
        Rule(Variable(1)),
        Branch(1, vec![Rule(Variable(2)), Rule(two(P, Variable(2), Variable(3))), Exempt]),
        Exempt,
    );
    let both = add(&mut book, operation(0, &[0, 0], both_tree));
    let twice = add(&mut book, operation(0, &[0], Rule(two(both, Variable(0), Variable(0)))));
    let crossed_rule = two(P, two(both, Variable(0), Variable(1)), two(both, Variable(1), Variable(0)));
    let crossed = add(&mut book, operation(0, &[0, 0], Rule(crossed_rule)));
    let fork = add(&mut book, operation(0, &[0], Rule(or(Variable(0), one(S, Variable(0))))));
    let mut made = Vec::new();
    for _ in 0..2 {
        let mut inner = or(number(random, 2), number(random, 2));
        for _ in 0..random.from(0, 4) {
            inner = match random.below(8) {
                0 => one(low, inner),
                1 => one(double, inner),
                2 => one(same, inner),
                3 => one(S, inner),
                4 => one(fork, inner),
                5 => two(both, inner, number(random, 2)),
                _ => one(twice, inner),
            };
        }
        made.push(inner);
    }
    let last = made.pop().expect("two");
    let first = made.pop().expect("two");
    let top = match random.below(5) {
        0 => one(twice, first),
        1 => one(double, first),
        2 => two(both, first, last),
        3 => one(twice, two(both, first, last)),
        _ => two(crossed, first, last),
    };
    (book, top)
}

/// Chains of up to some 240 forwards (request L7), with users that follow them from their start, from the middle, or only when the
/// whole chain is there.
pub fn forward_chains(random: &mut Random) -> Made {
    let mut book = numbers();
    let same = add(&mut book, operation(0, &[0], Rule(Variable(0))));
    let low = down(&mut book);
    let count = random.from(1, 4);
    let long = random.percent(40);
    let mut inner = match random.below(5) {
        0 => leaf(Z),
        1 => or(leaf(Z), one(S, leaf(Z))),
        2 => Fail,
        3 => one(low, number(random, 3)),
        _ => number(random, 3),
    };
    for _ in 0..count {
        let length = if long { random.from(45, 60) } else { random.from(1, 12) };
        inner = match random.below(3) {
            // the forwards of a question itself
            0 if inner.nodes() < 20 => times(same, length.min(30), inner),
            _ => one(add(&mut book, operation(0, &[0], Rule(times(same, length, Variable(0))))), inner),
        };
    }
    // A first user, then others of the same argument: in the same constructor, below it, in a branch, or behind forwards of their own.
    let user = |random: &mut Random| match random.below(6) {
        0 => Variable(0),
        1 => one(S, Variable(0)),
        2 => one(low, Variable(0)),
        3 => one(S, one(low, one(same, Variable(0)))),
        4 => one(S, times(same, random.from(1, 4), Variable(0))),
        _ => one(same, Variable(0)),
    };
    let mut rule = user(random);
    for _ in 0..random.from(0, 3) {
        rule = if random.percent(70) { two(P, rule, user(random)) } else { two(P, user(random), rule) };
    }
    let users = add(&mut book, operation(0, &[0], Rule(rule)));
    let top = one(users, inner);
    let top = match random.below(5) {
        0 => or(top, leaf(Z)),
        1 => two(P, number(random, 2), top),
        2 => one(low, top),
        _ => top,
    };
    (book, top)
}

/// Runs that take many nodes in all and few at a time (request L10): circles that drop what they made, counters in counters that end,
/// sides of choices that fail; some choose on the way.
pub fn used_again(random: &mut Random) -> Made {
    let mut book = numbers();
    let low = down(&mut book);
    let same = add(&mut book, operation(0, &[0], Rule(Variable(0))));
    // What is made and not used: S^n Z, or with some choices in it.
    let mut waste = leaf(Z);
    if random.percent(40) {
        waste = (0..random.from(1, 9)).fold(waste, |rest, _| or(rest, leaf(Z)));
    }
    let waste = times(S, random.from(1, 40), waste);
    // spin(x) = spin(waste): what x was is over.
    let spin = book.symbols.len();
    add(&mut book, operation(0, &[0], Rule(one(spin, waste.clone()))));
    // count(n, x) = Z at Z, at S m: count(m, waste)
    let count = book.symbols.len();
    let again = Rule(two(count, Variable(2), waste));
    add(&mut book, operation(0, &[0, 0], by(0, Rule(leaf(Z)), again, Rule(leaf(Z)))));
    // outer(S n, x) = outer(n, count(S^k Z, x)), and looks at it first
    let outer = book.symbols.len();
    let turn = two(outer, Variable(2), two(count, times(S, random.from(1, 20), leaf(Z)), Variable(1)));
    let inner = Branch(1, vec![Rule(turn.clone()), Rule(turn), Exempt]);
    add(&mut book, operation(0, &[0, 0], by(0, Rule(Variable(1)), inner, Exempt)));
    // tries(x): a choice whose left side fails after some work
    let work = two(count, times(S, random.from(1, 6), leaf(Z)), leaf(Z));
    let fails = add(&mut book, operation(0, &[0], by(0, Exempt, Rule(leaf(Z)), Exempt)));
    let tries = add(&mut book, operation(0, &[0], Rule(or(one(fails, work), one(same, Variable(0))))));
    let part = |random: &mut Random| match random.below(6) {
        0 => one(spin, number(random, 5)),
        1 => two(count, number(random, 20), number(random, 5)),
        2 | 3 => two(outer, number(random, 12), leaf(Z)),
        4 => times(tries, random.from(1, 6), number(random, 3)),
        _ => one(low, or(number(random, 6), one(low, number(random, 4)))),
    };
    let mut top = part(random);
    for _ in 0..random.below(3) {
        let next = part(random);
        top = match random.below(4) {
            0 => or(top, next),
            1 => two(P, top, next),
            2 => or(next, one(tries, top)),
            _ => one(S, two(P, next, top)),
        };
    }
    (book, top)
}

/// A book of usual functions: truth values, numbers, lists with nondeterministic insertion, sharing.
pub fn usual(random: &mut Random) -> Made {
    // Sort 0: truth values; 1: numbers; 2: lists of numbers; 3: pairs of truth values.
    let mut book = Book::of(Vec::new());
    let b = &mut book;
    let no = add(b, constructor(0, &[]));
    let yes = add(b, constructor(0, &[]));
    let zero = add(b, constructor(1, &[]));
    let next = add(b, constructor(1, &[1]));
    let nil = add(b, constructor(2, &[]));
    let cons = add(b, constructor(2, &[1, 2]));
    let pair = add(b, constructor(3, &[0, 0]));
    let rule = Rule;
    let v = Variable;
    let not = add(b, operation(0, &[0], Branch(0, vec![rule(leaf(yes)), rule(leaf(no))])));
    let and = add(b, operation(0, &[0, 0], Branch(0, vec![rule(leaf(no)), rule(v(1))])));
    let xor = add(b, operation(0, &[0, 0], Branch(0, vec![rule(v(1)), rule(one(not, v(1)))])));
    let same = add(b, operation(0, &[0], rule(two(xor, v(0), v(0)))));
    let twice = add(b, operation(3, &[0], rule(two(pair, v(0), v(0)))));
    let swap = add(b, operation(3, &[3], Branch(0, vec![rule(two(pair, v(2), v(1)))])));
    let plus = b.symbols.len();
    let plus_tree = Branch(0, vec![rule(v(1)), rule(one(next, two(plus, v(2), v(1))))]);
    add(b, operation(1, &[1, 1], plus_tree));
    let least = b.symbols.len(); // least x y: x is at most y
    let inner = Branch(1, vec![rule(leaf(no)), rule(two(least, v(2), v(3)))]);
    add(b, operation(0, &[1, 1], Branch(0, vec![rule(leaf(yes)), inner])));
    let put = b.symbols.len(); // put x l: x somewhere in l
    let front = two(cons, v(0), v(1));
    let later = two(cons, v(2), two(put, v(0), v(3)));
    let put_tree = Branch(1, vec![rule(two(cons, v(0), leaf(nil))), rule(or(front, later))]);
    add(b, operation(2, &[1, 2], put_tree));
    let mix = b.symbols.len(); // mix l: any order of l
    let mix_tree = Branch(0, vec![rule(leaf(nil)), rule(two(put, v(1), one(mix, v(2))))]);
    add(b, operation(2, &[2], mix_tree));
    let rising = b.symbols.len(); // rising l: l if in order, else exempt
    let guard = b.symbols.len() + 1;
    let of_two = Branch(2, vec![rule(v(0)), rule(Apply(guard, vec![two(least, v(1), v(3)), v(1), v(2)]))]);
    add(b, operation(2, &[2], Branch(0, vec![rule(v(0)), of_two])));
    let held = rule(two(cons, v(1), one(rising, v(2))));
    let guard_tree = Branch(0, vec![Exempt, held]);
    add(b, operation(2, &[0, 1, 2], guard_tree));
    let head = add(b, operation(1, &[2], Branch(0, vec![Exempt, rule(v(1))])));
    let any = add(b, operation(1, &[], rule(or(leaf(zero), or(one(next, leaf(zero)), Fail)))));
    let idle = b.symbols.len();
    add(b, operation(0, &[], rule(leaf(idle))));
    // Deep pattern: half of a number, by two at a time.
    let half = b.symbols.len();
    let half_tree =
        Branch(0, vec![rule(leaf(zero)), Branch(1, vec![rule(leaf(zero)), rule(one(next, one(half, v(2))))])]);
    add(b, operation(1, &[1], half_tree));

    let n = |random: &mut Random| {
        let count = random.below(4);
        times(next, count, if random.percent(20) { leaf(any) } else { leaf(zero) })
    };
    let t = |random: &mut Random| match random.below(8) {
        0 => leaf(no),
        1 => leaf(yes),
        2 => or(leaf(no), leaf(yes)),
        3 => or(leaf(yes), Fail),
        4 => or(leaf(yes), leaf(idle)),
        5 => one(not, or(leaf(yes), leaf(no))),
        6 => one(same, or(leaf(yes), leaf(no))),
        _ => two(least, leaf(any), n(random)),
    };
    let l = |random: &mut Random| {
        let mut list = leaf(nil);
        for _ in 0..random.below(5) {
            list = two(cons, n(random), list);
        }
        list
    };
    // Wrapped so that every question has sort 0.
    let first = |list: Expression| one(head, list);
    let top = match random.below(8) {
        0 => two(xor, t(random), two(and, t(random), t(random))),
        1 => one(same, two(xor, t(random), t(random))),
        2 => two(least, first(one(mix, l(random))), n(random)),
        3 => two(least, first(one(rising, one(mix, l(random)))), two(plus, leaf(any), leaf(any))),
        4 => two(least, one(half, two(plus, n(random), leaf(any))), one(half, n(random))),
        5 => two(and, one(not, t(random)), t(random)),
        6 => two(least, two(plus, n(random), n(random)), leaf(any)),
        _ => {
            // A list or a pair: its own sort, through a constructor of sort 0 added for it.
            let boxed = add(&mut book, constructor(0, &[2, 3]));
            // Trees that branch on sort 0 need one more case.
            for symbol in &mut book.symbols {
                if let Some(tree) = &mut symbol.tree {
                    widen(tree, &symbol.arguments.clone());
                }
            }
            let list = one(if random.percent(50) { mix } else { rising }, l(random));
            let list = if random.percent(30) { one(rising, list) } else { list };
            let pair = one(twice, t(random));
            let pair = if random.percent(50) { one(swap, pair) } else { pair };
            two(boxed, list, pair)
        }
    };
    (book, top)
}

/// Adds an exempt case to each branch on an argument of sort 0 at the top of a tree (the only ones there
/// are in the book above).
fn widen(tree: &mut Tree, arguments: &[u8]) {
    if let Branch(variable, cases) = tree {
        if arguments.get(*variable) == Some(&0) {
            cases.push(Exempt);
        }
    }
}
