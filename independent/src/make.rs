//! Input number n of a seed: what kind it is, its bytes, its fuel, and damage.

use crate::admit::{Book, Expression, Tree};
use crate::encode::{self, Encoded};
use crate::evaluator::{evaluate, Memory, Outcome};
use crate::random::Random;
use crate::seen::Seen;
use crate::shares;
use crate::sizes::*;
use crate::sorted::{self, constructor, constructors, operation};
use crate::special;

/// An input, and the name of the kind it was made as.
pub struct Made {
    pub kind: &'static str,
    pub input: Vec<u8>,
    /// Made to be admitted: any fault found in it would be an error of the maker.
    pub sound: bool,
}

type Special = fn(&mut Random) -> special::Made;

const SPECIALS: &[(&str, Special, usize)] = &[
    ("usual functions", special::usual, 8),
    ("shared choices", special::shared_choices, 4),
    ("many nodes", special::many_nodes, 3),
    ("nodes and choices", special::nodes_and_choices, 3),
    ("many choices", special::many_choices, 2),
    ("many entries", special::many_entries, 3),
    ("deep", special::deep, 4),
    ("deep branch", special::deep_branch, 3),
    ("many arrivals", special::many_arrivals, 3),
    ("many answer bytes", special::many_answer_bytes, 3),
    ("forward chains", special::forward_chains, 3),
    ("nodes to use again", special::used_again, 3),
];

type SharesMaker = fn(&mut Random) -> shares::Made;

const SHARES: &[(&str, SharesMaker, usize)] = &[
    ("deep firsts", shares::deep_firsts, 2),
    ("many variables", shares::many_variables, 4),
    ("shared by code 4", shares::shared_by_4, 3),
    ("unused firsts", shares::unused_firsts, 3),
];

pub fn make(seed: u64, number: u64) -> Made {
    let random = &mut Random::new(seed, number);
    let (kind, bytes, sound) = match random.weighted(&[21, 30, 24, 19, 7, 3, 2, 3, 11]) {
        0 => {
            let mut book = sorted::book(random);
            some_edition(random, &mut book);
            let asked = asked(random, &book);
            ("well-sorted", (encode::book(&book).bytes, asked.encoded().bytes), true)
        }
        1 => {
            let (kind, book, top) = some_special(random);
            let asked = some_version(random, &book, 0, top);
            let sound = asked.expression.nodes() <= EXPRESSION_NODES;
            (kind, (encode::book(&book).bytes, asked.encoded().bytes), sound)
        }
        8 => {
            let weights: Vec<usize> = SHARES.iter().map(|maker| maker.2).collect();
            let (kind, maker, _) = SHARES[random.weighted(&weights)];
            let (book, expression, sound) = maker(random);
            let asked =
                Asked { version: if has_share(&expression) { 2 } else { version(random) }, sort: 0, expression };
            (kind, (encode::book(&book).bytes, asked.encoded().bytes), sound)
        }
        2 => ("damaged book", damaged_book(random), false),
        3 => ("damaged question", damaged_question(random), false),
        4 => ("odd trees", odd_tree(random), false),
        5 => ("large book", large_book(random), false),
        6 => ("random bytes", random_bytes(random), false),
        _ => return Made { kind: "input cut or too long", input: odd_input(random), sound: false },
    };
    let fuel = fuel(random, &bytes.0, &bytes.1);
    Made { kind, input: encode::input(&bytes.0, &bytes.1, fuel), sound }
}

/// A question before it is laid out as bytes.
pub struct Asked {
    pub version: u8,
    pub sort: u8,
    pub expression: Expression,
}

impl Asked {
    pub fn encoded(&self) -> Encoded {
        encode::question(self.version, self.sort, &self.expression)
    }
}

pub fn version(random: &mut Random) -> u8 {
    random.from(1, 2) as u8
}

/// How many in a hundred expressions get a shared part.
fn some_shares(random: &mut Random) -> usize {
    *random.pick(&[0, 5, 15, 30])
}

/// A book of a kind of `SPECIALS`, in either edition, with its question of sort 0.
pub fn some_special(random: &mut Random) -> (&'static str, Book, Expression) {
    let weights: Vec<usize> = SPECIALS.iter().map(|special| special.2).collect();
    let (kind, maker, _) = SPECIALS[random.weighted(&weights)];
    let (mut book, top) = maker(random);
    some_edition(random, &mut book);
    (kind, book, top)
}

/// Half of the books are of version 2, with or without shared parts.
fn some_edition(random: &mut Random, book: &mut Book) {
    if random.percent(50) {
        let percent = some_shares(random);
        shares::to_version_2(random, book, percent);
    }
}

/// The question of this expression in either version; shared parts come into version 2.
pub fn some_version(random: &mut Random, book: &Book, sort: u8, expression: Expression) -> Asked {
    if version(random) == 1 {
        return Asked { version: 1, sort, expression };
    }
    let percent = some_shares(random);
    let expression = shares::with_shares(random, book, sort, &[], expression, percent);
    Asked { version: 2, sort, expression }
}

pub fn asked(random: &mut Random, book: &Book) -> Asked {
    let (sort, expression) = sorted::question(random, book);
    some_version(random, book, sort, expression)
}

fn has_share(expression: &Expression) -> bool {
    match expression {
        Expression::Variable(_) | Expression::Fail => false,
        Expression::Apply(_, row) => row.iter().any(has_share),
        Expression::Choice(left, right) => has_share(left) || has_share(right),
        Expression::Share(..) => true,
    }
}

/// Past the 3,200 rewrites that can each take a node; with L10 a run may go on behind it.
pub const FAR: u32 = 3_500;

fn fuel(random: &mut Random, book: &[u8], question: &[u8]) -> u32 {
    let mut memory = Memory::sized(EXPAND_NODES, EXPAND_PLACES, EXPAND_ANSWER_BYTES);
    let outcome = evaluate(book, question, FAR, &mut memory, &mut Seen::default());
    fuel_about(random, &outcome)
}

/// A fuel at or about the end of a run that got `FAR`, or any; the largest only where the run surely ends.
pub fn fuel_about(random: &mut Random, outcome: &Outcome) -> u32 {
    let turns = outcome.turns;
    if outcome.number == 20 {
        let bound = *random.pick(&[1, 10, 100, 1_000, FAR as usize]);
        return random.below(bound) as u32;
    }
    match random.below(20) {
        0 => turns,
        1 => turns + 1,
        2 | 3 => turns.saturating_sub(1),
        4 | 5 => random.below(turns as usize + 1) as u32,
        6 => 0,
        7..=9 => u32::MAX,
        10 => random.next() as u32 | 0x8000_0000,
        _ => FAR,
    }
}

pub fn some_book(random: &mut Random) -> Book {
    let edition = version(random);
    some_book_of(random, edition)
}

/// A sound book of this version, with or without shared parts in version 2.
pub fn some_book_of(random: &mut Random, version: u8) -> Book {
    let mut book = if random.percent(70) { sorted::book(random) } else { special::usual(random).0 };
    if version == 2 {
        let percent = some_shares(random);
        shares::to_version_2(random, &mut book, percent);
    }
    book
}

/// Changes bytes: one changed, cut, inserted, taken out, or a length off.
fn damage(random: &mut Random, encoded: &mut Encoded) {
    let bytes = &mut encoded.bytes;
    let place = random.below(bytes.len());
    match random.below(7) {
        0 | 1 => bytes[place] = small_or_any(random),
        2 => bytes[place] ^= 1 << random.below(8),
        3 => bytes.truncate(place),
        4 => bytes.insert(place, small_or_any(random)),
        5 => {
            bytes.remove(place);
        }
        _ => {
            let (place, count) = *random.pick(&encoded.lengths);
            if random.percent(15) {
                bytes[place] = random.byte();
            } else {
                let last = place + count - 1;
                let off = random.from(1, 3) as u8;
                bytes[last] =
                    if random.percent(50) { bytes[last].wrapping_add(off) } else { bytes[last].wrapping_sub(off) };
            }
        }
    }
    if random.percent(15) {
        let count = random.from(1, 4);
        for _ in 0..count {
            bytes.push(random.byte());
        }
    }
}

fn small_or_any(random: &mut Random) -> u8 {
    match random.below(4) {
        0 => random.byte(),
        1 => random.from(0, 8) as u8,
        2 => *random.pick(&[62, 63, 64, 65, 255]),
        _ => random.from(0, 4) as u8,
    }
}

/// The same inside one item, so that the lengths around it stay right.
fn damage_item(random: &mut Random, item: &mut Vec<u8>) {
    if item.is_empty() {
        return;
    }
    let place = random.below(item.len());
    match random.below(5) {
        0 | 1 => item[place] = small_or_any(random),
        2 => item.insert(place, small_or_any(random)),
        3 => {
            item.remove(place);
        }
        _ => item.truncate(place),
    }
}

pub fn damaged_book(random: &mut Random) -> (Vec<u8>, Vec<u8>) {
    let mut book = some_book(random);
    let question = asked(random, &book).encoded().bytes;
    let bytes = match random.below(15) {
        14 => {
            let mut items = encode::items(&book);
            items.version = if random.percent(90) { 2 } else { 1 };
            let operations = book.symbols.iter().filter(|symbol| symbol.operation);
            for (number, symbol) in operations.enumerate() {
                if random.percent(60) {
                    let wrong = any_share(random, symbol.sort, symbol.arguments.len());
                    items.trees[number] = vec![1];
                    encode::expression(&wrong, &mut items.trees[number]);
                }
            }
            items.assemble().bytes
        }
        0..=2 => {
            let mut encoded = encode::book(&book);
            damage(random, &mut encoded);
            encoded.bytes
        }
        3 | 4 => {
            // A symbol: its kind, a sort, its length.
            let mut items = encode::items(&book);
            let number = random.below(items.symbols.len());
            let item = &mut items.symbols[number];
            match random.below(5) {
                0 => item[0] = random.from(1, 255) as u8,
                1 | 2 => {
                    let place = random.below(item.len());
                    item[place] = random.from(60, 70) as u8;
                }
                3 => {
                    let length = *random.pick(&[0, 1, 10, 11, 12]);
                    item.resize(length, 0);
                }
                _ => damage_item(random, item),
            }
            items.assemble().bytes
        }
        5..=7 => {
            let mut items = encode::items(&book);
            if !items.trees.is_empty() {
                let number = random.below(items.trees.len());
                if random.percent(25) {
                    let operations = book.symbols.iter().filter(|symbol| symbol.operation);
                    let variables = operations.map(|symbol| symbol.arguments.len()).nth(number).expect("its operation");
                    items.trees[number] = [vec![1], about_the_65th(random, &book, variables)].concat();
                } else {
                    damage_item(random, &mut items.trees[number]);
                }
                if random.percent(5) {
                    items.trees.remove(number);
                }
            }
            items.assemble().bytes
        }
        8 => {
            // The version, an empty part, or bytes left over.
            let mut encoded = encode::book(&book);
            match random.below(5) {
                0 | 1 => encoded.bytes[0] = random.byte(),
                2 => encoded.bytes = [&[book.version, 0, 0][..], &encoded.bytes[3..]].concat(),
                3 => {
                    let (place, size) = (encoded.bytes.len(), random.from(1, 3));
                    encoded.bytes.resize(place + size, 1);
                    let (tree_part, _) = encoded.lengths[1 + book.symbols.len()];
                    if random.percent(50) {
                        // Inside the tree part.
                        let inside = ((place + size - tree_part - 2) as u16).to_be_bytes();
                        encoded.bytes[tree_part..tree_part + 2].copy_from_slice(&inside);
                    }
                }
                _ => encoded.bytes = vec![1, 0, 0, 0, 0],
            }
            if random.percent(20) {
                let end = random.below(6).min(encoded.bytes.len());
                encoded.bytes.truncate(end);
            }
            encoded.bytes
        }
        _ => {
            // A wrong expression in a rule.
            let numbers: Vec<usize> = (0..book.symbols.len()).filter(|n| book.symbols[*n].operation).collect();
            if !numbers.is_empty() {
                let number = *random.pick(&numbers);
                let mut tree = book.symbols[number].tree.take().expect("an operation");
                let arguments = book.symbols[number].arguments.clone();
                damage_tree(random, &book, &mut tree, &arguments);
                book.symbols[number].tree = Some(tree);
            }
            if random.percent(10) {
                // The other version: a code 4 or an exempt is then a fault.
                book.version = 3 - book.version;
            }
            encode::book(&book).bytes
        }
    };
    (bytes, question)
}

/// Damages one rule's expression, found by chance.
fn damage_tree(random: &mut Random, book: &Book, tree: &mut Tree, variables: &[u8]) {
    match tree {
        Tree::Exempt => *tree = Tree::Rule(any_expression(random, book, variables.len())),
        Tree::Rule(_) if random.percent(15) => *tree = Tree::Exempt,
        Tree::Rule(rule) => damage_expression(random, book, rule, variables.len()),
        Tree::Branch(variable, cases) => {
            let mine = variables.get(*variable).map(|sort| constructors(book, *sort)).unwrap_or_default();
            if cases.is_empty() || random.percent(10) {
                *variable = random.from(0, variables.len());
                return;
            }
            let which = random.below(cases.len());
            let mut more = variables.to_vec();
            if let Some(number) = mine.get(which) {
                more.extend(&book.symbols[*number].arguments);
            }
            damage_tree(random, book, &mut cases[which], &more);
        }
    }
}

fn count_all(expression: &Expression) -> usize {
    match expression {
        Expression::Variable(_) | Expression::Fail => 1,
        Expression::Apply(_, row) => 1 + row.iter().map(count_all).sum::<usize>(),
        Expression::Choice(left, right) => 1 + count_all(left) + count_all(right),
        Expression::Share(_, first, body) => 1 + count_all(first) + count_all(body),
    }
}

/// The expression at a place in the order written.
fn nth<'a>(expression: &'a mut Expression, left: &mut usize) -> Option<&'a mut Expression> {
    if *left == 0 {
        return Some(expression);
    }
    *left -= 1;
    match expression {
        Expression::Variable(_) | Expression::Fail => None,
        Expression::Apply(_, row) => row.iter_mut().find_map(|argument| nth(argument, left)),
        Expression::Choice(one, other) | Expression::Share(_, one, other) => match nth(one, left) {
            Some(found) => Some(found),
            None => nth(other, left),
        },
    }
}

fn damage_expression(random: &mut Random, book: &Book, top: &mut Expression, variables: usize) {
    if random.percent(40) {
        fill(random, top);
        return;
    }
    let mut place = random.below(count_all(top));
    let at = nth(top, &mut place).expect("a place in it");
    *at = any_expression(random, book, variables);
}

/// An expression that may be wrong in its sort, its symbol or its variable.
fn any_expression(random: &mut Random, book: &Book, variables: usize) -> Expression {
    let symbols = book.symbols.len();
    match random.below(10) {
        8 | 9 => {
            let sort = random.pick(&book.symbols).sort;
            any_share(random, sort, variables)
        }
        0..=2 => Expression::Variable(random.from(0, variables)),
        3 => Expression::Variable(*random.pick(&[variables, 31, 32, 255])),
        4 => Expression::Apply(*random.pick(&[symbols, symbols + 1, 1023, 1024, 65535]), vec![]),
        _ => {
            let number = random.below(symbols);
            let row = book.symbols[number].arguments.iter().map(|_| Expression::Fail).collect();
            Expression::Apply(number, row)
        }
    }
}

/// A shared part that may be wrong: its sort byte, its first's sort, its variable, or the 33rd variable.
fn any_share(random: &mut Random, sort: u8, variables: usize) -> Expression {
    let first_sort = *random.pick(&[sort, 0, 1, 63, 64, 64, 65, 255]);
    let first = match random.below(4) {
        0 => Expression::Variable(random.from(0, variables)),
        1 => shares::share(first_sort, Expression::Fail, Expression::Variable(variables)),
        _ => Expression::Fail,
    };
    match random.below(4) {
        0 => shares::share(first_sort, first, Expression::Variable(random.from(variables, variables + 1))),
        1 => shares::share(first_sort, first, Expression::Fail),
        2 => shares::share(sort.wrapping_add(1) & 63, Expression::Fail, Expression::Variable(variables)),
        _ => {
            // About the 33rd variable, counted from what is bound outside.
            let wanted = random.from(31, 34).saturating_sub(variables);
            (0..wanted).fold(Expression::Fail, |body, _| shares::share(sort, Expression::Fail, body))
        }
    }
}

/// Brings an expression to 62 to 67 nodes by choices with fails at a place by chance.
fn fill(random: &mut Random, top: &mut Expression) {
    let wanted = random.from(63, 67);
    while top.nodes() + 2 <= wanted {
        let mut place = random.below(count_all(top));
        let at = nth(top, &mut place).expect("a place in it");
        let old = std::mem::replace(at, Expression::Fail);
        *at = if random.percent(50) {
            Expression::Choice(Box::new(old), Box::new(Expression::Fail))
        } else {
            Expression::Choice(Box::new(Expression::Fail), Box::new(old))
        };
    }
}

/// The bytes of an expression whose last node is the 63rd to 66th and may be wrong or cut in other ways too.
fn about_the_65th(random: &mut Random, book: &Book, variables: usize) -> Vec<u8> {
    let mut made = any_expression(random, book, variables);
    let fails = random.from(31, 33);
    for _ in 0..fails {
        made = Expression::Choice(Box::new(Expression::Fail), Box::new(made));
    }
    let mut bytes = Vec::new();
    encode::expression(&made, &mut bytes);
    if random.percent(40) {
        bytes.truncate(bytes.len() - random.from(1, 3));
    }
    bytes
}

fn damaged_question(random: &mut Random) -> (Vec<u8>, Vec<u8>) {
    let book = some_book(random);
    let bytes = damaged_question_of(random, &book);
    (encode::book(&book).bytes, bytes)
}

/// A question that is wrong for this sound book, or nearly so.
pub fn damaged_question_of(random: &mut Random, book: &Book) -> Vec<u8> {
    let mut asked = asked(random, book);
    let Asked { version, sort, .. } = asked;
    match random.below(24) {
        18..=21 => {
            asked.version = if random.percent(90) { 2 } else { 1 };
            asked.expression = any_share(random, sort, 0);
            asked.encoded().bytes
        }
        0..=3 => {
            let mut encoded = asked.encoded();
            damage(random, &mut encoded);
            encoded.bytes
        }
        4 => {
            let mut encoded = asked.encoded();
            encoded.bytes[0] = random.byte();
            encoded.bytes.truncate(random.from(1, 9));
            encoded.bytes
        }
        5 | 6 => {
            asked.sort = *random.pick(&[sort, 1, 2, 63, 64, 65, 255, 70]);
            asked.encoded().bytes
        }
        7 | 8 => {
            let mut part = vec![sort];
            encode::expression(&asked.expression, &mut part);
            damage_item(random, &mut part);
            encode::question_of(version, &part).bytes
        }
        9 | 22 | 23 => {
            // Over its size, or just not.
            let mut encoded = asked.encoded();
            const FULL: usize = QUESTION_BYTES;
            let length = *random.pick(&[FULL - 1, FULL, FULL, FULL + 1, FULL + 1, FULL + 1, FULL + 2, 65_535]);
            encoded.bytes.resize(length, 3);
            if random.percent(30) {
                encoded.bytes[0] = 0;
            }
            if random.percent(30) {
                // The part reaches to the end.
                let inside = ((length - 3) as u16).to_be_bytes();
                encoded.bytes[1..3].copy_from_slice(&inside);
            }
            encoded.bytes
        }
        10 => {
            fill(random, &mut asked.expression);
            asked.encoded().bytes
        }
        12 => {
            let part = [vec![sort], about_the_65th(random, book, 0)].concat();
            encode::question_of(version, &part).bytes
        }
        11 => {
            // Bytes left over, in the part or after it.
            let mut part = vec![sort];
            encode::expression(&asked.expression, &mut part);
            let more = random.from(0, 2);
            part.resize(part.len() + more, 3);
            let mut bytes = encode::question_of(version, &part).bytes;
            let after = random.from(0, 2);
            bytes.resize(bytes.len() + after, 3);
            bytes
        }
        13 => {
            asked.version = 3 - version; // a code 4 is then a fault
            asked.encoded().bytes
        }
        _ => {
            damage_expression(random, book, &mut asked.expression, 0);
            asked.encoded().bytes
        }
    }
}

/// Trees that bind up to 32 variables or just past, that branch twice or on a variable not there; some
/// are sound, and their questions run.
fn odd_tree(random: &mut Random) -> (Vec<u8>, Vec<u8>) {
    // Sort 0 has one constructor without arguments, and one or two with.
    let mut book = Book::of(vec![constructor(0, &[])]);
    for _ in 0..random.from(1, 2) {
        let arguments = random.from(1, 8);
        book.symbols.push(constructor(0, &vec![0; arguments]));
    }
    let own = random.from(0, 8);
    book.symbols.push(operation(0, &vec![0; own], Tree::Exempt));
    if random.percent(50) {
        random.shuffle(&mut book.symbols);
    }
    let number = book.symbols.iter().position(|symbol| symbol.operation).expect("the operation");
    let wrong = *random.pick(&[0, 1, 2, 2, 3, 3, 3]); // 3: nothing is
    let tree = odd_path(random, &book, own, &mut Vec::new(), wrong);
    book.symbols[number].tree = Some(tree);
    // A question of the operation over constructors alone, so that long paths are taken.
    let mut left = 60;
    let big = constructors(&book, 0);
    let row = (0..own).map(|_| spine(random, &book, &big, &mut left)).collect();
    let top = Expression::Apply(number, row);
    if random.percent(30) {
        if wrong == 3 {
            let percent = some_shares(random);
            shares::to_version_2(random, &mut book, percent);
        } else {
            book.version = 2; // an exempt is then a fault, but for one met before
        }
    }
    let mut items = encode::items(&book);
    if random.percent(25) {
        damage_item(random, &mut items.trees[0]);
    }
    (items.assemble().bytes, some_version(random, &book, 0, top).encoded().bytes)
}

/// A value that goes deep on one side.
fn spine(random: &mut Random, book: &Book, big: &[usize], left: &mut usize) -> Expression {
    let number = *random.pick(big);
    let arguments = book.symbols[number].arguments.len();
    if *left < arguments + 10 {
        let bare = big.iter().find(|n| book.symbols[**n].arguments.is_empty()).expect("one without arguments");
        *left = left.saturating_sub(1);
        return Expression::Apply(*bare, vec![]);
    }
    *left -= arguments + 1;
    let row = (0..arguments).map(|_| spine(random, book, big, left)).collect();
    Expression::Apply(number, row)
}

fn odd_path(random: &mut Random, book: &Book, variables: usize, branched: &mut Vec<usize>, wrong: usize) -> Tree {
    let mine = constructors(book, 0);
    let most = mine.iter().map(|n| book.symbols[*n].arguments.len()).max().unwrap_or(0);
    let open: Vec<usize> = (0..variables).filter(|n| !branched.contains(n)).collect();
    let mut variable = open.last().copied().unwrap_or(0);
    if !open.is_empty() && random.percent(30) {
        variable = *random.pick(&open);
    }
    if wrong == 0 && !branched.is_empty() && random.percent(15) {
        variable = *random.pick(branched); // branched on twice
    } else if wrong == 1 && random.percent(15) {
        variable = variables + random.below(3); // not there
    } else if open.is_empty() || (variables + most > VARIABLES && wrong != 2) || random.percent(5) {
        return match random.below(4) {
            0 => Tree::Exempt,
            _ if variables > 0 => Tree::Rule(Expression::Variable(variables - 1 - random.below(variables.min(3)))),
            _ => Tree::Rule(Expression::Fail),
        };
    }
    if variable >= variables || branched.contains(&variable) || variables + most > VARIABLES {
        // What stands below comes after the fault at the variable's byte, even where it is wrong too.
        let below = if random.percent(50) { Tree::Exempt } else { Tree::Rule(Expression::Variable(200)) };
        return Tree::Branch(variable, mine.iter().map(|_| below.clone()).collect());
    }
    branched.push(variable);
    let deep = *random.pick(&mine);
    let mut cases = Vec::new();
    for number in &mine {
        let more = variables + book.symbols[*number].arguments.len();
        cases.push(if *number == deep || (branched.len() < 4 && random.percent(40)) {
            odd_path(random, book, more, branched, wrong)
        } else if more > 0 && random.percent(60) {
            Tree::Rule(Expression::Variable(random.below(more)))
        } else {
            Tree::Exempt
        });
    }
    branched.pop();
    Tree::Branch(variable, cases)
}

/// Books of about 1,024 symbols or about 32,768 bytes.
fn large_book(random: &mut Random) -> (Vec<u8>, Vec<u8>) {
    let mut book = Book::of(Vec::new());
    if random.percent(50) {
        let count = random.from(1023, 1027);
        let with_trees = random.percent(50);
        for number in 0..count {
            let sort = random.from(0, 3) as u8;
            let arguments = vec![0; random.below(3)];
            if with_trees && random.percent(30) {
                book.symbols.push(operation(sort, &arguments, Tree::Exempt));
            } else if number == 0 {
                book.symbols.push(constructor(0, &[]));
            } else {
                book.symbols.push(constructor(sort, &arguments));
            }
        }
        let mut encoded = encode::book(&book);
        if count > SYMBOLS && random.percent(50) {
            // The 1,025th symbol's length byte is wrong too, or runs past the part.
            let (place, _) = encoded.lengths[SYMBOLS + 1];
            encoded.bytes[place] = *random.pick(&[0, 1, 11, 255]);
        }
        let last = (book.symbols.len().min(SYMBOLS) - 1 + random.below(2)) as u16;
        let mut part = vec![book.symbols[book.symbols.len().min(SYMBOLS) - 1].sort];
        part.push(1);
        part.extend(last.to_be_bytes());
        for _ in &book.symbols[(last as usize).min(book.symbols.len() - 1)].arguments {
            part.push(3);
        }
        return (encoded.bytes, encode::question_of(version(random), &part).bytes);
    }
    // Operations with large rules, then filled up to an exact size with exempt operations.
    book.symbols.push(constructor(0, &[]));
    let wanted =
        *random.pick(&[BOOK_BYTES - 1, BOOK_BYTES, BOOK_BYTES, BOOK_BYTES + 1, BOOK_BYTES + 2, 40_000, 65_000]);
    let mut size = encode::book(&book).bytes.len();
    while size + 240 < wanted {
        let mut rule = Expression::Fail;
        for _ in 0..31 {
            let value = Expression::Apply(random.below(book.symbols.len().max(1)), vec![]);
            rule = Expression::Choice(Box::new(value), Box::new(rule));
        }
        let symbol = operation(0, &[], Tree::Rule(rule));
        let mut tree = Vec::new();
        encode::tree(symbol.tree.as_ref().expect("a tree"), &mut tree);
        size += 3 + 2 + tree.len();
        book.symbols.push(symbol);
    }
    // A symbol of 3 and a tree of 3 bytes, plus a byte for each argument.
    while size + 6 <= wanted {
        let left = wanted - size - 6;
        let arguments = if left < 6 { left } else { 0 };
        book.symbols.push(operation(0, &vec![0; arguments], Tree::Exempt));
        size += 6 + arguments;
    }
    let mut bytes = encode::book(&book).bytes;
    assert_eq!(bytes.len(), wanted);
    if random.percent(15) {
        bytes[0] = *random.pick(&[2, 3]);
    }
    let top = Expression::Apply(random.below(book.symbols.len().min(100)), vec![]);
    (bytes, encode::question(version(random), 0, &top).bytes)
}

/// Bytes by chance, with a right start now and then.
fn random_bytes(random: &mut Random) -> (Vec<u8>, Vec<u8>) {
    let low = random.percent(50);
    let row = |random: &mut Random, high: usize| -> Vec<u8> {
        (0..random.below(high)).map(|_| if low { random.below(5) as u8 } else { random.byte() }).collect()
    };
    let mut book = row(random, 80);
    let mut question = row(random, 40);
    if random.percent(70) {
        if let Some(first) = book.first_mut() {
            *first = version(random);
        }
        if let Some(second) = book.get_mut(1) {
            *second = 0;
        }
    }
    if random.percent(50) {
        let sound = some_book(random);
        book = encode::book(&sound).bytes;
        if random.percent(70) {
            question = encode::question_of(version(random), &question).bytes;
        }
    }
    (book, question)
}

/// Inputs cut short, with bytes left over, or bytes by chance.
fn odd_input(random: &mut Random) -> Vec<u8> {
    let book = some_book(random);
    let question = asked(random, &book).encoded().bytes;
    let mut input = encode::input(&encode::book(&book).bytes, &question, 10);
    match random.below(5) {
        0 => input.truncate(random.below(input.len())),
        1 => {
            let end = input.len() - random.from(1, 8);
            input.truncate(end);
        }
        2 => {
            for _ in 0..random.from(1, 5) {
                input.push(random.byte());
            }
        }
        3 => input.resize(*random.pick(&[0, 1, 2, 40_000, 65_535, 65_536, 131_078, 131_079, 140_000]), 0),
        _ => {
            let length = random.below(60);
            input = (0..length).map(|_| random.byte()).collect();
        }
    }
    input
}
