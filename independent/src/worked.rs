//! The worked cases of "The small book and what it gives", and some of the tables, as tests.

use crate::evaluator::{evaluate, start, Asked, Decision, Entry, Memory, Outcome};
use crate::expand::expand;
use crate::requests::Requests;
use crate::seen::Seen;

/// Document 01's cases are without requests L7 and L10; `later.rs` has those.
const PLAIN: Requests = Requests { shorten: false, again: false };

const SMALL_BOOK: &str =
    "01 0012 020000 020000 0401000000 020100 03010000 0021 000F 0200 010001 0201 01010001 01010000 \
                          0004 01010003 0008 0101000200000000";
const D: &str = "01 000B 00 010004 02 010000 010001";

fn bytes(hex: &str) -> Vec<u8> {
    let digits: Vec<u32> = hex.chars().filter_map(|c| c.to_digit(16)).collect();
    digits.chunks(2).map(|pair| (pair[0] * 16 + pair[1]) as u8).collect()
}

/// A run of the small book over memory that holds marks, so that untouched room shows.
fn run(question: &str, fuel: u32, nodes: usize, places: usize, answers: usize) -> (Outcome, Memory) {
    run_book(&bytes(SMALL_BOOK), &bytes(question), fuel, nodes, places, answers)
}

fn marked(nodes: usize, places: usize, answers: usize) -> Memory {
    let mut memory = Memory::sized(nodes, places, answers);
    memory.nodes.fill(7777);
    memory.answers.fill(77);
    for entry in &mut memory.list {
        entry.root = 77;
        entry.decisions.fill(Decision::Right);
    }
    memory
}

fn run_book(book: &[u8], question: &[u8], fuel: u32, nodes: usize, places: usize, answers: usize) -> (Outcome, Memory) {
    let mut memory = marked(nodes, places, answers);
    let outcome = start(PLAIN, book, Asked::One(question), fuel, &mut memory, &mut Seen::default());
    (outcome, memory)
}

fn of(number: u8, place: usize, counts: [usize; 5]) -> Outcome {
    let [turns, answers, nodes, choices, waiting] = counts;
    Outcome { number, place, turns: turns as u32, answers, nodes, choices, waiting, question: 0 }
}

fn input(book: &[u8], question: &[u8], fuel: u32) -> Vec<u8> {
    let mut input = (book.len() as u16).to_be_bytes().to_vec();
    input.extend(book);
    input.extend((question.len() as u16).to_be_bytes());
    input.extend(question);
    input.extend(fuel.to_be_bytes());
    input
}

fn printed(input: &[u8]) -> String {
    expand(input, &mut Seen::default()).0
}

#[test]
fn the_small_book_is_56_bytes() {
    assert_eq!(bytes(SMALL_BOOK).len(), 56);
}

#[test]
fn d_with_fuel_10() {
    let whole = input(&bytes(SMALL_BOOK), &bytes(D), 10);
    assert_eq!(printed(&whole), "A 0 | 0\nA 0 | 1\nR 0 0 10 2 8 1 0\n");
    for end in 0..whole.len() {
        assert_eq!(printed(&whole[..end]), "J\n");
    }
    assert_eq!(printed(&[&whole[..], &[0]].concat()), "J\n");
}

#[test]
fn d_with_fuel_9_and_0() {
    let (outcome, memory) = run(D, 9, 3200, 64, 16384);
    assert_eq!(outcome, of(20, 0, [9, 1, 8, 1, 1]));
    assert_eq!(memory.list[0].decisions[0], Decision::Right);
    assert!(memory.list[1..].iter().all(|entry| *entry == Entry::new(0)));
    let (outcome, memory) = run(D, 0, 3200, 70, 16384);
    assert_eq!(outcome, of(20, 0, [0, 0, 4, 1, 1]));
    let loaded = [[0, 4, 1], [1, 0, 2], [0, 0, 0], [0, 1, 0]];
    for (number, start) in loaded.iter().enumerate() {
        assert_eq!(memory.nodes[10 * number..10 * number + 3], *start);
    }
    assert_eq!(memory.nodes[10 * 1 + 3], 3);
    assert!(memory.nodes[40..].iter().all(|n| *n == 7777));
    assert_eq!(memory.answers[..2], [1, 77]);
    assert!(memory.list[..64].iter().all(|entry| *entry == Entry::new(0)));
    assert!(memory.list[64..].iter().all(|entry| entry.root == 77)); // "list places past 64, are untouched"
}

#[test]
fn d_with_8_7_and_3_nodes() {
    assert_eq!(run(D, 10, 8, 64, 16384).0, of(0, 0, [10, 2, 8, 1, 0]));
    assert_eq!(run(D, 10, 7, 64, 16384).0, of(21, 0, [4, 0, 6, 1, 2]));
    let (outcome, memory) = run(D, 10, 3, 64, 16384);
    assert_eq!(outcome, of(21, 0, [0; 5]));
    assert_eq!(memory, marked(3, 64, 16384));
}

#[test]
fn d_with_17_and_16_answer_bytes() {
    let (outcome, memory) = run(D, 10, 3200, 64, 17);
    assert_eq!(outcome, of(0, 0, [10, 2, 8, 1, 0]));
    assert_eq!(memory.answers, bytes("01 0006 0001 0000 0000 0006 0001 0000 0001"));
    let (outcome, memory) = run(D, 10, 3200, 64, 16);
    assert_eq!(outcome, of(25, 0, [9, 1, 8, 1, 1]));
    assert_eq!(memory.answers[9..], [77; 7]);
}

#[test]
fn loading_refuses_25_then_21_then_23() {
    assert_eq!(run(D, 10, 3, 0, 0), (of(25, 0, [0; 5]), marked(3, 0, 0)));
    assert_eq!(run(D, 10, 3, 0, 1), (of(21, 0, [0; 5]), marked(3, 0, 1)));
    assert_eq!(run(D, 10, 4, 0, 1), (of(23, 0, [0; 5]), marked(4, 0, 1)));
    assert_eq!(run(D, 10, 4, 1, 1).0.number, 21); // the pull-up of the second turn
    assert_eq!(run(D, 10, 8, 1, 1).0, of(23, 0, [2, 0, 6, 1, 1]));
}

#[test]
fn loop_or_false() {
    let (outcome, memory) = run("01 0008 00 02 010003 010000", 10, 3200, 64, 16384);
    assert_eq!(outcome, of(20, 0, [10, 1, 3, 1, 1]));
    assert_eq!(memory.answers[..9], bytes("01 0006 0001 0000 0001"));
}

#[test]
fn xor_of_fail_and_loop() {
    assert_eq!(run("01 0008 00 010002 03 010003", 10, 3200, 64, 16384).0, of(0, 0, [2, 0, 3, 0, 0]));
}

#[test]
fn faults_of_the_book() {
    let small = bytes(SMALL_BOOK);
    let at = |book: &[u8]| {
        let (outcome, memory) = run_book(book, &bytes(D), 10, 8, 64, 17);
        assert_eq!(memory, marked(8, 64, 17));
        (outcome.number, outcome.place)
    };
    assert_eq!(at(&[]), (1, 0));
    assert_eq!(at(&small[..55]), (1, 21));
    assert_eq!(at(&[&small[..], &[0]].concat()), (1, 56));
    assert_eq!(at(&vec![3; 32769]), (1, 0));
    assert_eq!(at(&vec![3; 32768]), (2, 0));
    assert_eq!(at(&bytes("01 0000 0000")), (3, 1));
    assert_eq!(at(&bytes("01 0001 0B")), (1, 3)); // runs past the part: the lower number
    assert_eq!(at(&bytes("01 0001 00 0000")), (3, 3));
    assert_eq!(at(&bytes("01 0003 020100 0004 0002 0200")), (4, 11)); // no variable 0
}

#[test]
fn a_branch_on_a_sort_without_constructors_has_no_trees() {
    let book = bytes("01 0004 03010001 0004 0002 0200");
    assert!(crate::admit::book(&book).is_ok());
}

#[test]
fn faults_of_the_question() {
    let at = |question: &str| {
        let (outcome, memory) = run(question, 10, 8, 64, 17);
        assert_eq!(memory, marked(8, 64, 17));
        (outcome.number, outcome.place)
    };
    assert_eq!(at("01 0003 00 0000"), (14, 5));
    assert_eq!(at("01 0004 01 010000"), (15, 4));
    assert_eq!(at(""), (11, 0));
    assert_eq!(at("00"), (12, 0));
    assert_eq!(at("01 00"), (11, 2));
    assert_eq!(at("01 0000"), (11, 3));
    assert_eq!(at("01 0001 40"), (13, 3));
    assert_eq!(at("01 0001 3F"), (11, 4));
}

/// "Run by a program: 256 choices and 257, 64 entries and 65, values of 4,096 and 4,097 symbols, depth 255
/// and 256."
mod at_the_edges {
    use super::*;
    use crate::admit::Expression::{Apply, Fail, Variable};
    use crate::admit::{Book, Expression, Tree::Rule};
    use crate::encode;
    use crate::sorted::operation;
    use crate::special::{add, doubler, leaf, numbers, one, or, sized, times, S, Z};

    fn run(book: &Book, top: &Expression, fuel: u32) -> Outcome {
        run_book(&encode::book(book).bytes, &encode::question(1, 0, top).bytes, fuel, 3200, 64, 16384).0
    }

    #[test]
    fn depth() {
        let mut book = numbers();
        let many = add(&mut book, operation(0, &[0], Rule(times(S, 51, Variable(0)))));
        let top = times(many, 5, leaf(Z));
        assert_eq!(run(&book, &top, 100), of(0, 0, [6, 1, 6 + 5 * 50, 0, 0]));
        assert_eq!(run(&book, &one(S, top), 100), of(24, 0, [5, 0, 7 + 5 * 50, 0, 1]));
    }

    #[test]
    fn symbols_of_a_value() {
        let mut book = numbers();
        let double = doubler(&mut book);
        let outcome = run(&book, &sized(double, 4096), 100);
        assert_eq!((outcome.number, outcome.answers, outcome.turns), (0, 1, 12));
        let outcome = run(&book, &sized(double, 4097), 100);
        assert_eq!((outcome.number, outcome.answers, outcome.waiting), (24, 0, 1));
    }

    #[test]
    fn choices() {
        let mut book = numbers();
        let mut last = leaf(Z);
        for _ in 0..8 {
            last = leaf(add(&mut book, operation(0, &[], Rule((0..31).fold(last, |rest, _| or(Fail, rest))))));
        }
        let mut more = book.clone();
        let eight = add(&mut book, operation(0, &[], Rule((0..8).fold(last.clone(), |rest, _| or(Fail, rest)))));
        let outcome = run(&book, &leaf(eight), 10_000);
        assert_eq!((outcome.number, outcome.answers, outcome.choices), (0, 1, 256));
        let nine = add(&mut more, operation(0, &[], Rule((0..9).fold(last, |rest, _| or(Fail, rest)))));
        let outcome = run(&more, &leaf(nine), 10_000);
        assert_eq!((outcome.number, outcome.answers, outcome.choices), (22, 0, 9 + 7 * 31));
    }

    #[test]
    fn entries() {
        let mut book = numbers();
        let idle = book.symbols.len();
        add(&mut book, operation(0, &[], Rule(Apply(idle, vec![]))));
        let many = add(&mut book, operation(0, &[], Rule((1..32).fold(leaf(idle), |rest, _| or(leaf(idle), rest)))));
        let top = or(leaf(many), leaf(many));
        let outcome = run(&book, &top, 10_000);
        assert_eq!((outcome.number, outcome.turns, outcome.waiting), (20, 10_000, 64));
        let outcome = run(&book, &or(top, leaf(idle)), 10_000);
        assert_eq!((outcome.number, outcome.waiting), (23, 64));
    }
}

/// Change request L2. Symbols: 0 pair of two, 1 nil, 2 loop.
const PAIRS: &str = "01 000B 0400000000 020000 020100 0006 0004 01010002";

#[test]
fn a_failed_part_ends_its_line_of_thought() {
    // pair of loop and fail: the fail is seen at once, in the first turn
    let (outcome, _) = run_book(&bytes(PAIRS), &bytes("01 0008 00 010000 010002 03"), 10, 10, 4, 100);
    assert_eq!(outcome, of(0, 0, [1, 0, 3, 0, 0]));
    // pair of (nil or nil) and fail: the fail comes before the choice
    let (outcome, _) = run_book(&bytes(PAIRS), &bytes("01 000C 00 010000 02 010001 010001 03"), 10, 10, 4, 100);
    assert_eq!(outcome, of(0, 0, [1, 0, 5, 1, 0]));
}

#[test]
fn the_leftmost_choice_is_pulled_up_past_what_is_unfinished() {
    // pair of loop and (nil or nil): two fresh nodes in the first turn
    let question = bytes("01 000E 00 010000 010002 02 010001 010001");
    let (outcome, memory) = run_book(&bytes(PAIRS), &question, 1, 10, 4, 100);
    assert_eq!(outcome, of(20, 0, [1, 0, 7, 1, 1]));
    assert_eq!(memory.nodes[..4], [1, 0, 5, 6]);
    assert_eq!(memory.nodes[50..54], [0, 0, 1, 3]);
    assert_eq!(memory.nodes[60..64], [0, 0, 1, 4]);
}

/// Change requests L8 and L9, over a book with symbols 0 pair of two, 1 nil, 2 one, all of sort 0.
mod edition_2 {
    use super::*;

    fn book(version: u8, tree: &str) -> Vec<u8> {
        let tree = bytes(tree);
        let mut out = vec![version];
        out.extend(bytes("000E 0400000000 020000 020000 020100"));
        out.extend((tree.len() as u16 + 2).to_be_bytes());
        out.extend((tree.len() as u16).to_be_bytes());
        out.extend(tree);
        out
    }

    fn asked(version: u8, part: &str) -> Vec<u8> {
        let part = bytes(part);
        let mut out = vec![version];
        out.extend((part.len() as u16).to_be_bytes());
        out.extend(part);
        out
    }

    fn result(book: &[u8], question: &[u8]) -> (u8, usize) {
        let outcome = run_book(book, question, 100, 100, 8, 100).0;
        (outcome.number, outcome.place)
    }

    const TREE: usize = 1 + 2 + 14 + 2 + 2;
    const FAIL_RULE: &str = "01 03";

    #[test]
    fn versions_of_book_and_question_are_their_own() {
        for version in 1..=2 {
            for other in 1..=2 {
                assert_eq!(result(&book(version, FAIL_RULE), &asked(other, "00 010001")), (0, 0));
            }
        }
        assert_eq!(result(&book(3, FAIL_RULE), &asked(1, "00 010001")), (2, 0));
        assert_eq!(result(&book(2, FAIL_RULE), &asked(3, "00 010001")), (12, 0));
        assert_eq!(result(&book(1, "01 04 00 03 03"), &asked(2, "00 010001")), (4, TREE + 1));
        assert_eq!(result(&book(2, "01 04 00 03 03"), &asked(1, "00 04 00 03 03")), (14, 4));
        assert_eq!(result(&book(1, FAIL_RULE), &asked(2, "00 04 00 03 03")), (0, 0));
    }

    #[test]
    fn refusals_at_a_shared_part() {
        let at = |part: &str| result(&book(1, FAIL_RULE), &asked(2, part));
        assert_eq!(at("00 04"), (11, 5));
        assert_eq!(at("00 04 40 03 03"), (13, 5));
        assert_eq!(at("00 04 3F 03 0000"), (15, 7)); // the variable has sort 63
        assert_eq!(at("00 04 00 0000 03"), (14, 7)); // the first does not see its variable
        assert_eq!(at("00 04 00 03"), (11, 7));
        let bodies = |count: usize, last: &str| at(&format!("00 {}{last}", "04 00 03 ".repeat(count)));
        assert_eq!(bodies(32, "00 1F"), (0, 0));
        assert_eq!(bodies(33, "00 1F"), (14, 4 + 3 * 32));
        assert_eq!(bodies(32, "04"), (14, 4 + 3 * 32)); // before the sort byte is missed
        assert_eq!(result(&book(2, "00"), &asked(1, "00 03")), (4, TREE));
        assert_eq!(result(&book(1, "00"), &asked(2, "00 03")), (0, 0));
        assert_eq!(result(&book(2, "01 04 40 03 03"), &asked(1, "00 03")), (3, TREE + 2));
    }

    #[test]
    fn the_body_s_top_takes_the_old_place_and_the_first_is_made_first() {
        // symbol 3 = let x = nil or one in pair x x
        let rule = "01 04 00 02 010001 010002 01 0000 0000 0000";
        let (outcome, memory) = run_book(&book(2, rule), &asked(1, "00 010003"), 100, 100, 8, 100);
        assert_eq!((outcome.number, outcome.answers, outcome.choices), (0, 2, 1));
        let answers = "01 000A 0003 0000 0001 0001 0000 000A 0003 0000 0002 0002 0001";
        assert_eq!(memory.answers[..25], bytes(answers));
        let (_, memory) = run_book(&book(2, rule), &asked(1, "00 010003"), 1, 100, 8, 100);
        assert_eq!(memory.nodes[..4], [0, 0, 1, 1]);
        assert_eq!(memory.nodes[10..14], [1, 0, 2, 3]);
    }

    #[test]
    fn a_lone_variable_on_top() {
        // symbol 3 = let x = one in x: a forward to a fresh node
        let (outcome, memory) = run_book(&book(2, "01 04 00 010002 0000"), &asked(1, "00 010003"), 1, 100, 8, 100);
        assert_eq!(outcome, of(20, 0, [1, 0, 2, 0, 1]));
        assert_eq!(memory.nodes[..3], [3, 0, 1]);
        assert_eq!(memory.nodes[10..13], [0, 2, 0]);
        // let x = nil in let y = one in x: the entry waits on node 0, with two made; and y: on node 1
        let question = |variable: &str| asked(2, &format!("00 04 00 010001 04 00 010002 {variable}"));
        for (variable, root) in [("0000", 0), ("0001", 1)] {
            let (outcome, memory) = run_book(&book(1, FAIL_RULE), &question(variable), 0, 100, 8, 100);
            assert_eq!(outcome, of(20, 0, [0, 0, 2, 0, 1]));
            assert_eq!(memory.list[0].root, root);
        }
    }

    #[test]
    fn firsts_nest_deep() {
        let deep = |count: usize| format!("{}03 {}", "04 00 ".repeat(count), "00 00 ".repeat(count));
        let worker = move || {
            assert_eq!(result(&book(1, FAIL_RULE), &asked(2, &format!("00 {}", deep(1022)))), (0, 0));
            assert_eq!(result(&book(1, FAIL_RULE), &asked(2, &format!("00 {}", deep(1023)))), (11, 0));
            assert_eq!(result(&book(2, &format!("01 {}", deep(8180))), &asked(1, "00 010003")), (0, 0));
        };
        std::thread::Builder::new().stack_size(crate::STACK).spawn(worker).expect("a thread").join().expect("no panic");
    }
}

/// Requests L5, L6 and L9 against the evaluator itself, over inputs by chance.
mod against_runs {
    use super::*;
    use crate::admit::{Book, Expression};
    use crate::random::Random;
    use crate::{convert, encode, listing, make, sorted};
    use std::collections::BTreeSet;

    /// L9: "both give the same results, answers and nodes for every question and fuel".
    #[test]
    fn a_converted_book_runs_alike() {
        let mut exempt_steps = 0;
        for number in 0..400 {
            let random = &mut Random::new(9, number);
            let book = make::some_book_of(random, 1);
            let (sort, asked) = sorted::question(random, &book);
            let old = encode::book(&book).bytes;
            let new = convert::convert(&old, 32_768, &mut Seen::default()).expect("it fits");
            let question = encode::question(1, sort, &asked).bytes;
            let fuel = random.below(300) as u32;
            let mut seen = Seen::default();
            let (mut before, mut after) = (marked(300, 20, 1000), marked(300, 20, 1000));
            let outcome = evaluate(&old, &question, fuel, &mut before, &mut seen);
            assert_eq!(outcome, evaluate(&new, &question, fuel, &mut after, &mut Seen::default()));
            assert_eq!(before, after);
            exempt_steps += seen.count("exempt step");
        }
        assert!(exempt_steps > 10);
    }

    /// The symbols of the answers to an operation without arguments; None where the run did not finish.
    fn values(book: &[u8], symbol: usize) -> Option<BTreeSet<usize>> {
        let question = encode::question(1, 0, &Expression::Apply(symbol, vec![])).bytes;
        let mut memory = Memory::sized(3200, 64, 16384);
        let outcome = evaluate(book, &question, 10_000, &mut memory, &mut Seen::default());
        let at = |place: usize| u16::from_be_bytes([memory.answers[place], memory.answers[place + 1]]) as usize;
        let mut found = BTreeSet::new();
        let mut place = 1;
        for _ in 0..outcome.answers {
            assert_eq!(at(place + 2), 1);
            found.insert(at(place + 4));
            place += 2 + at(place);
        }
        (outcome.number == 0).then_some(found)
    }

    /// L5: "the values the first can reach are exactly its BT headings, and the second's are those one or more BT hops up".
    #[test]
    fn a_listing_s_book_answers_with_its_terms() {
        let mut finished = 0;
        for number in 0..300 {
            let made = listing::make(5, number);
            let Ok(listing) = listing::Listing::read(&made.input) else { continue };
            let Ok(book) = listing::book_of(&made.input, 32_768) else { continue };
            let broader = listing.broader();
            let count = broader.len();
            if count > 20 {
                continue;
            }
            for (heading, terms) in broader.iter().enumerate() {
                let direct: BTreeSet<usize> = terms.iter().copied().collect();
                let mut above = direct.clone();
                for _ in 0..count {
                    above = above
                        .iter()
                        .flat_map(|term| broader[*term].iter().copied())
                        .chain(above.iter().copied())
                        .collect();
                }
                assert_eq!(values(&book, count + heading), Some(direct));
                if let Some(found) = values(&book, 2 * count + heading) {
                    finished += 1;
                    assert_eq!(found, above);
                }
            }
        }
        assert!(finished > 300, "{finished}");
    }

    /// L6 on small listings, by trying every row of headings.
    #[test]
    fn the_circle_is_the_first_of_the_shortest() {
        let (mut circles, mut without) = (0, 0);
        for number in 0..600 {
            let made = listing::make(6, number);
            let Ok((listing, saved)) = listing::saved(&made.input, 400) else { continue };
            let broader = listing.broader();
            if broader.len() > 6 {
                continue;
            }
            let mut rows: Vec<Vec<usize>> = (0..broader.len()).map(|heading| vec![heading]).collect();
            let mut first = None;
            for _ in 0..broader.len() {
                rows.sort();
                let closed = |row: &&Vec<usize>| broader[row[row.len() - 1]].contains(&row[0]);
                first = rows.iter().find(closed).cloned();
                if first.is_some() {
                    break;
                }
                let longer = |row: &Vec<usize>| -> Vec<Vec<usize>> {
                    broader[row[row.len() - 1]].iter().map(|term| [&row[..], &[*term]].concat()).collect()
                };
                rows = rows.iter().flat_map(longer).collect::<BTreeSet<_>>().into_iter().collect();
            }
            match saved {
                listing::Saved::Circle(circle) => {
                    circles += 1;
                    assert_eq!(Some(circle), first);
                }
                listing::Saved::Levels(levels) => {
                    without += 1;
                    assert_eq!(first, None);
                    for (heading, terms) in broader.iter().enumerate() {
                        assert_eq!(levels[heading], terms.iter().map(|term| 1 + levels[*term]).max().unwrap_or(0));
                    }
                }
            }
        }
        assert!(circles > 50 && without > 50, "{circles} {without}");
    }

    #[test]
    fn a_writer_s_book_is_the_one_read() {
        for number in 0..200 {
            let book: Book = make::some_book_of(&mut Random::new(1, number), 1);
            assert!(crate::writer::writes_back(&book));
        }
    }
}
