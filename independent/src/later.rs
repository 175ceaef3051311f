//! What requests L3, L7, L10 and L12 promise, tried over inputs by chance, and cases of them worked out by hand.

use crate::admit::{self, Book, Expression};
use crate::encode;
use crate::evaluator::{go_on, go_on_told, start, start_told, Asked, Decision, Entry, Memory, Node, Outcome, FORWARD};
use crate::going::{FIRST_ENTRY, FIRST_NODE};
use crate::random::Random;
use crate::requests::{Requests, ALL};
use crate::rows::{least_room, some_book, sound_questions, Questions};
use crate::seen::Seen;
use crate::sizes::*;
use crate::sorted::operation;
use crate::special::{add, leaf, numbers, one, or, times, S, Z};
use Expression::{Apply, Variable};

const PLAIN: Requests = Requests { shorten: false, again: false };
const SHORTEN: Requests = Requests { shorten: true, again: false };
const AGAIN: Requests = Requests { shorten: false, again: true };
const BOTH: Requests = Requests { shorten: true, again: true };

fn bytes(hex: &str) -> Vec<u8> {
    let digits: Vec<u32> = hex.chars().filter_map(|c| c.to_digit(16)).collect();
    digits.chunks(2).map(|pair| (pair[0] * 16 + pair[1]) as u8).collect()
}

/// The small book of document 01: symbols 0 False, 1 True, 2 xor, 3 loop, 4 dup; and D, dup of False or True.
fn small() -> Vec<u8> {
    bytes(
        "01 0012 020000 020000 0401000000 020100 03010000 0021 000F 0200 010001 0201 01010001 01010000 0004 01010003 \
         0008 0101000200000000",
    )
}

fn d() -> Vec<u8> {
    bytes("01 000B 00 010004 02 010000 010001")
}

/// Memory that holds marks, so that untouched room shows.
fn marked(nodes: usize, places: usize, answers: usize) -> Memory {
    let mut memory = Memory::sized(nodes, places, answers);
    memory.nodes.fill(7777);
    memory.answers.fill(77);
    for entry in &mut memory.list {
        *entry = Entry { root: 77, question: 7, decisions: vec![Decision::Right; CHOICES] };
    }
    memory
}

fn run(requests: Requests, book: &[u8], asked: Asked, fuel: u32, memory: &mut Memory) -> Outcome {
    start(requests, book, asked, fuel, memory, &mut Seen::default())
}

fn go(requests: Requests, book: &[u8], last: &Outcome, row: bool, fuel: u32, memory: &mut Memory) -> Outcome {
    go_on(requests, book, last, row, fuel, memory, &mut Seen::default())
}

fn of(number: u8, place: usize, counts: [usize; 5]) -> Outcome {
    let [turns, answers, nodes, choices, waiting] = counts;
    Outcome { number, place, turns: turns as u32, answers, nodes, choices, waiting, question: 0 }
}

/// The records of an answer book, without its version byte; `answers` of them stand in it.
fn records(book: &[u8], answers: usize) -> Vec<Vec<u16>> {
    let two = |at: usize| u16::from_be_bytes([book[at], book[at + 1]]);
    let mut at = 1;
    let mut found = Vec::new();
    for _ in 0..answers {
        let end = at + 2 + two(at) as usize;
        found.push((at..end).step_by(2).map(two).collect());
        at = end;
    }
    found
}

/// A book, its bytes and some sound questions, by chance.
fn by_chance(seed: u64, number: u64, count: usize) -> (Random, Book, Vec<u8>, Vec<Vec<u8>>) {
    let mut random = Random::new(seed, number);
    loop {
        let (_, book, top) = some_book(&mut random);
        let questions = sound_questions(&mut random, &book, &top, count);
        let bytes = encode::book(&book).bytes;
        // Its maker may give a question more nodes than 64.
        let admitted = admit::book(&bytes).expect("a sound book");
        if questions.iter().all(|question| admit::question(&admitted, question).is_ok()) {
            return (random, book, bytes, questions);
        }
    }
}

/// So many inputs, or more by the variable INDEPENDENT_SCALE.
fn inputs(count: u64) -> std::ops::Range<u64> {
    let scale = std::env::var("INDEPENDENT_SCALE").map_or(1, |scale| scale.parse().expect("a number"));
    0..count * scale
}

/// Work with a stack for shared parts that nest deep.
fn deep(work: impl FnOnce() + Send + 'static) {
    std::thread::Builder::new().stack_size(crate::STACK).spawn(work).expect("a thread").join().expect("no panic");
}

/// The node to which a node's forwards lead.
fn end_of(numbers: &[u16], mut number: u16) -> u16 {
    loop {
        let node = Node::of(numbers, number as usize);
        if node.kind != FORWARD {
            return number;
        }
        number = node.arrows[0];
    }
}

/// The reachable nodes of a state, moved down in their order, and the roots; as L10 leaves them.
fn moved_down(book: &Book, memory: &Memory, outcome: &Outcome) -> (Vec<u16>, Vec<Entry>) {
    let mut reached = vec![false; outcome.nodes];
    let mut open: Vec<usize> = memory.list[..outcome.waiting].iter().map(|entry| entry.root as usize).collect();
    while let Some(number) = open.pop() {
        if !reached[number] {
            reached[number] = true;
            open.extend(Node::of(&memory.nodes, number).used(book).iter().map(|arrow| *arrow as usize));
        }
    }
    let new = |number: u16| reached[..number as usize].iter().filter(|kept| **kept).count() as u16;
    let mut nodes = Vec::new();
    for number in (0..outcome.nodes).filter(|number| reached[*number]) {
        let node = Node::of(&memory.nodes, number);
        let used = node.used(book).len();
        let mut arrows = node.arrows;
        arrows[..used].iter_mut().for_each(|arrow| *arrow = new(*arrow));
        nodes.extend([node.kind, node.label]);
        nodes.extend(arrows);
    }
    let entries =
        memory.list[..outcome.waiting].iter().map(|entry| Entry { root: new(entry.root), ..entry.clone() }).collect();
    (nodes, entries)
}

mod shorten {
    use super::*;

    /// "Demand 2 reads: same turns, answers and counts, with these arrows in the nodes left."
    #[test]
    fn only_forwards_arrows_differ_and_lead_to_the_same_nodes() {
        deep(|| {
            let (mut tried, mut shortened, mut refused) = (0, 0, 0);
            for number in inputs(300) {
                let (mut random, _, book, questions) = by_chance(7, number, 2);
                let row = Questions::of(&questions);
                let asked = if number % 3 == 0 { row.asked() } else { Asked::One(&questions[0]) };
                let sizes = match random.below(3) {
                    0 => (random.from(1, 200), random.from(1, 8), random.from(1, 400)),
                    _ => (NODES, ENTRIES, 16_384),
                };
                let ended = run(PLAIN, &book, asked, 3_000, &mut marked(sizes.0, sizes.1, sizes.2));
                let turns = ended.turns as usize;
                for fuel in [turns + 1, turns, random.below(turns + 1), random.below(turns + 1)] {
                    let mut plain = marked(sizes.0, sizes.1, sizes.2);
                    let mut short = plain.clone();
                    let first = run(PLAIN, &book, asked, fuel as u32, &mut plain);
                    let second = run(SHORTEN, &book, asked, fuel as u32, &mut short);
                    assert_eq!(first, second);
                    assert_eq!(plain.list, short.list);
                    assert_eq!(plain.answers, short.answers);
                    for node in 0..first.nodes {
                        let (one, other) = (Node::of(&plain.nodes, node), Node::of(&short.nodes, node));
                        if one.kind == FORWARD {
                            assert_eq!((other.kind, other.label), (FORWARD, 0));
                            assert_eq!(one.arrows[1..], other.arrows[1..]);
                            assert_eq!(end_of(&plain.nodes, node as u16), end_of(&short.nodes, node as u16));
                            shortened += (one.arrows != other.arrows) as usize;
                        } else {
                            assert_eq!((one.kind, one.label, one.arrows), (other.kind, other.label, other.arrows));
                        }
                    }
                    assert_eq!(plain.nodes[10 * first.nodes..], short.nodes[10 * first.nodes..]);
                    tried += 1;
                    refused += (first.nodes > 0 && first.number > 20) as usize;
                }
            }
            assert!(shortened > 150 && refused > 50, "{tried} {shortened} {refused}");
            println!("{tried} runs, {shortened} shortened forwards left, {refused} runs refused with 21 to 25");
        });
    }

    /// same(x) = x; users(x) = P(same(x), S(x)).
    fn chain(length: usize) -> (Vec<u8>, Vec<u8>) {
        let mut book = numbers();
        let same = add(&mut book, operation(0, &[0], crate::admit::Tree::Rule(Variable(0))));
        let many = add(&mut book, operation(0, &[0], crate::admit::Tree::Rule(times(same, length / 4, Variable(0)))));
        let rule = Apply(2, vec![one(same, Variable(0)), one(S, Variable(0))]);
        let users = add(&mut book, operation(0, &[0], crate::admit::Tree::Rule(rule)));
        let top = one(users, times(many, 4, leaf(Z)));
        (encode::book(&book).bytes, encode::question(1, 0, &top).bytes)
    }

    /// 200 forwards in a chain: the second user follows them all at once, when the first is a value.
    #[test]
    fn a_chain_of_200_forwards_is_shortened_at_once() {
        let (book, question) = chain(200);
        let turns = run(PLAIN, &book, Asked::One(&question), 10_000, &mut marked(NODES, 64, 1000)).turns;
        assert_eq!(turns, 1 + 1 + 200 + 4 + 1); // users, its same, the chain's, their makers, the answer
        let longest = |requests: Requests, fuel: u32| {
            let mut memory = marked(NODES, 64, 1000);
            let outcome = run(requests, &book, Asked::One(&question), fuel, &mut memory);
            let steps = |start: u16| {
                let mut count = 0;
                let mut at = start;
                while Node::of(&memory.nodes, at as usize).kind == FORWARD {
                    at = Node::of(&memory.nodes, at as usize).arrows[0];
                    count += 1;
                }
                count
            };
            (0..outcome.nodes as u16).map(steps).max().expect("nodes")
        };
        assert_eq!(longest(PLAIN, turns), 201);
        assert_eq!(longest(SHORTEN, turns - 1), 200); // the users' own same leads to the end; from the chain's first all 200 stand
        assert_eq!(longest(SHORTEN, turns), 1);
    }

    /// same(x) = x, look(x) = Z by a branch: forwards of the root and of a branch variable.
    #[test]
    fn what_follows_and_what_does_not() {
        let mut book = numbers();
        let same = add(&mut book, operation(0, &[0], crate::admit::Tree::Rule(Variable(0))));
        let tree = crate::admit::Tree::Branch(0, vec![crate::admit::Tree::Rule(leaf(Z)); 3]);
        let look = add(&mut book, operation(0, &[0], tree));
        let book = encode::book(&book).bytes;
        // same(same(same Z)): each turn makes the next forward; the root's own arrow leads to the last before it.
        let asked = encode::question(1, 0, &times(same, 3, leaf(Z))).bytes;
        let arrows = |fuel: u32| {
            let mut memory = marked(10, 4, 100);
            run(SHORTEN, &book, Asked::One(&asked), fuel, &mut memory);
            [memory.nodes[2], memory.nodes[12], memory.nodes[22]]
        };
        assert_eq!(arrows(1), [1, 2, 3]);
        assert_eq!(arrows(2), [1, 2, 3]); // 0 to 1 is final when the turn begins
        assert_eq!(arrows(3), [2, 2, 3]); // followed over 1 to 2, then 2 becomes a forward
        assert_eq!(arrows(4), [3, 2, 3]); // 1 is not on the chain that was followed
                                          // look(same(same Z)): the branch variable's chain.
        let asked = encode::question(1, 0, &one(look, times(same, 2, leaf(Z)))).bytes;
        let nodes = |fuel: u32| {
            let mut memory = marked(10, 4, 100);
            run(SHORTEN, &book, Asked::One(&asked), fuel, &mut memory);
            [memory.nodes[2], memory.nodes[12], memory.nodes[22]]
        };
        assert_eq!(nodes(2), [1, 2, 3]);
        assert_eq!(nodes(3), [0, 3, 3]); // followed, then look's rule: Z has no arrow
    }

    /// "a turn refused otherwise keeps the shortened arrows", "A turn refused with 20 follows nothing".
    #[test]
    fn refused_turns_keep_what_they_shortened() {
        let mut book = numbers();
        let same = add(&mut book, operation(0, &[0], crate::admit::Tree::Rule(Variable(0))));
        let book = encode::book(&book).bytes;
        // same(same(Z or Z)): after two turns the root's chain is 0, 1; the third splits.
        let asked = encode::question(1, 0, &times(same, 2, or(leaf(Z), leaf(Z)))).bytes;
        let after = |fuel: u32, places: usize| {
            let mut memory = marked(10, places, 100);
            let outcome = run(SHORTEN, &book, Asked::One(&asked), fuel, &mut memory);
            (outcome.number, outcome.turns, memory.nodes[2], memory.nodes[12], memory.list[0].root)
        };
        assert_eq!(after(2, 1), (20, 2, 1, 2, 0));
        assert_eq!(after(3, 1), (23, 2, 2, 2, 0)); // no place for the split, the chain is shortened
        assert_eq!(after(3, 2), (20, 3, 2, 2, 3));
        // same(same Z): the answer has no room.
        let asked = encode::question(1, 0, &times(same, 2, leaf(Z))).bytes;
        let mut memory = marked(10, 4, 2);
        let outcome = run(SHORTEN, &book, Asked::One(&asked), 10, &mut memory);
        assert_eq!((outcome.number, outcome.turns, memory.nodes[2], memory.nodes[12]), (25, 2, 2, 2));
    }
}

mod again {
    use super::*;

    #[test]
    fn d_with_7_nodes_finishes() {
        let mut memory = marked(7, 64, 100);
        assert_eq!(run(AGAIN, &small(), Asked::One(&d()), 10, &mut memory), of(0, 0, [10, 2, 7, 1, 0]));
        assert_eq!(memory.answers[..17], bytes("01 0006 0001 0000 0000 0006 0001 0000 0001"));
        // The fifth turn drops node 0: 1 to 5 become 0 to 4, and the pull-up takes 5 and 6.
        let mut memory = marked(7, 64, 100);
        assert_eq!(run(AGAIN, &small(), Asked::One(&d()), 5, &mut memory), of(20, 0, [5, 0, 7, 1, 2]));
        let heads: Vec<[u16; 4]> = memory.nodes.chunks(10).map(|node| [node[0], node[1], node[2], node[3]]).collect();
        let wanted = [[1, 0, 1, 2], [0, 0, 0, 0], [0, 1, 0, 0], [3, 0, 0, 0], [1, 0, 5, 6], [0, 2, 2, 1], [0, 2, 2, 2]];
        assert_eq!(heads, wanted);
        assert_eq!((memory.list[0].root, memory.list[1].root), (3, 4));
        // With 6 nodes it lacks one still: five are left, and the sixth place is zero.
        let mut memory = marked(6, 64, 100);
        assert_eq!(run(AGAIN, &small(), Asked::One(&d()), 10, &mut memory), of(21, 0, [4, 0, 5, 1, 2]));
        assert_eq!(memory.nodes[50..], [0; 10]);
        assert_eq!((memory.list[0].root, memory.list[1].root), (4, 3));
        // Loading drops nothing.
        let mut memory = marked(3, 64, 100);
        assert_eq!(run(AGAIN, &small(), Asked::One(&d()), 10, &mut memory), of(21, 0, [0; 5]));
        assert_eq!(memory, marked(3, 64, 100));
    }

    /// "same turns and answers as with room enough, up to the node numbers", at the least room, one less, and some more.
    #[test]
    fn turns_and_answers_are_those_of_room_enough() {
        deep(|| {
            let (mut dropped, mut short_of, mut tried) = (0, 0, 0);
            for number in inputs(120) {
                let (mut random, _, book_bytes, questions) = by_chance(10, number, 2);
                let book = admit::book(&book_bytes).expect("a sound book");
                let row = Questions::of(&questions);
                let asked = if number % 3 == 0 { row.asked() } else { Asked::One(&questions[0]) };
                let requests = if number % 2 == 0 { AGAIN } else { BOTH };
                let all = run(requests, &book_bytes, asked, 2_000, &mut marked(NODES, 64, 16_384));
                let least = least_room(requests, &book_bytes, asked, 2_000);
                for room in [least, least.saturating_sub(1), least / 2, least + random.below(9)] {
                    for fuel in [all.turns + 1, random.below(all.turns as usize + 1) as u32] {
                        let mut wide = marked(NODES, 64, 16_384);
                        let mut narrow = marked(room, 64, 16_384);
                        let first = run(requests, &book_bytes, asked, fuel, &mut wide);
                        let (second, told) =
                            start_told(requests, &book_bytes, asked, fuel, &mut narrow, &mut Seen::default());
                        tried += 1;
                        if second.number != 21 {
                            assert_eq!(Outcome { nodes: 0, ..first }, Outcome { nodes: 0, ..second });
                            assert_eq!(wide.answers, narrow.answers);
                            assert_eq!(moved_down(&book, &wide, &first), moved_down(&book, &narrow, &second));
                        } else {
                            // It lacks room: as far as it came it is the same, and what is left is what can be reached.
                            short_of += 1;
                            let mut wide = marked(NODES, 64, 16_384);
                            let first = run(requests, &book_bytes, asked, second.turns, &mut wide);
                            if second.nodes > 0 {
                                assert_eq!(wide.answers, narrow.answers);
                                if !requests.shorten {
                                    let (nodes, list) = moved_down(&book, &wide, &first);
                                    assert_eq!(nodes, narrow.nodes[..10 * second.nodes]);
                                    assert_eq!(list, narrow.list[..second.waiting]);
                                }
                            }
                        }
                        // Vacated places are zero, those never used are untouched.
                        if second.nodes > 0 {
                            let behind = &narrow.nodes[10 * second.nodes..];
                            let zeros = behind.iter().take_while(|number| **number == 0).count();
                            assert!(zeros % 10 == 0 && behind[zeros..].iter().all(|number| *number == 7777));
                            assert!(zeros == 0 || told.drops > 0);
                        }
                        dropped += told.drops;
                    }
                }
            }
            assert!(dropped > 500 && short_of > 100, "{tried} {dropped} {short_of}");
            println!("{tried} runs, {dropped} drops, {short_of} runs ended in 21");
        });
    }

    /// With L10 off and room enough, and with L7: the same turns and answers.
    #[test]
    fn all_four_switches_agree_where_none_lacks_room() {
        deep(|| {
            for number in inputs(80) {
                let (_, _, book, questions) = by_chance(11, number, 1);
                let asked = Asked::One(&questions[0]);
                let mut plain = marked(NODES, 64, 16_384);
                let first = run(PLAIN, &book, asked, 1_500, &mut plain);
                if first.number == 21 {
                    continue;
                }
                for requests in ALL {
                    let room = least_room(requests, &book, asked, 1_500);
                    let mut memory = marked(room, 64, 16_384);
                    let outcome = run(requests, &book, asked, 1_500, &mut memory);
                    assert_eq!(Outcome { nodes: 0, ..first }, Outcome { nodes: 0, ..outcome });
                    assert_eq!(plain.answers, memory.answers);
                }
            }
        });
    }

    /// Counters in counters, so many levels that count from `high` each, and some nodes wasted at each step of the innermost.
    fn counters(levels: usize, high: usize, waste: usize) -> (Vec<u8>, Vec<u8>) {
        use crate::admit::Tree::{Branch, Rule};
        let mut book = numbers();
        // work(x) = Z, at once: what it got is over.
        let work = add(&mut book, operation(0, &[0], Rule(leaf(Z))));
        // level 0 is work over a waste; level k + 1 counts: at S m it waits for level k, then goes on with m.
        let mut below: Expression = one(work, times(S, waste - 1, leaf(Z)));
        for _ in 0..levels {
            let own = book.symbols.len();
            // own(n, x): x first, a value Z; then at Z the value, at S m again with what is below.
            let step = Rule(Apply(own, vec![Variable(2), below.clone()]));
            let by_number = Branch(0, vec![Rule(leaf(Z)), step, Rule(leaf(Z))]);
            add(&mut book, operation(0, &[0, 0], Branch(1, vec![by_number, Rule(leaf(Z)), Rule(leaf(Z))])));
            below = Apply(own, vec![times(S, high, leaf(Z)), leaf(Z)]);
        }
        (encode::book(&book).bytes, encode::question(1, 0, &below).bytes)
    }

    /// "Long jobs stop for room although most nodes belong to lines of thought that are over."
    #[test]
    fn a_job_of_100_000_nodes_finishes_in_a_small_room() {
        let (book, question) = counters(5, 6, 12);
        let asked = Asked::One(&question);
        let needs = |requests: Requests, room: usize| {
            let mut memory = marked(room, 4, 100);
            start_told(requests, &book, asked, u32::MAX, &mut memory, &mut Seen::default())
        };
        assert_eq!(needs(PLAIN, NODES).0.number, 21);
        let (outcome, told) = needs(AGAIN, 50);
        assert_eq!((outcome.number, outcome.answers), (0, 1));
        assert!(told.taken > 100_000, "{} nodes in {} turns", told.taken, outcome.turns);
        let least = (1..=50).find(|room| needs(AGAIN, *room).0.number == 0).expect("a room");
        println!("{} nodes taken in {} turns, {} drops; least room {least}", told.taken, outcome.turns, told.drops);
        // In pieces: stopped every 1,000 turns and gone on with, it comes to the same.
        let mut memory = marked(50, 4, 100);
        let mut last = run(AGAIN, &book, asked, 1_000, &mut memory);
        while last.number == 20 {
            memory.answers.fill(77);
            last = go(AGAIN, &book, &last, false, 1_000, &mut memory);
        }
        let mut whole = marked(50, 4, 100);
        assert_eq!(run(AGAIN, &book, asked, u32::MAX, &mut whole), last);
        assert_eq!(whole, memory);
    }

    /// spin(x) = spin(S^40 Z) never ends: in 100 nodes it goes on as long as there is fuel.
    #[test]
    fn a_circle_of_rewriting_goes_on_in_a_small_room() {
        let mut book = numbers();
        let spin = book.symbols.len();
        add(&mut book, operation(0, &[0], crate::admit::Tree::Rule(one(spin, times(S, 40, leaf(Z))))));
        let book = encode::book(&book).bytes;
        let question = encode::question(1, 0, &one(spin, leaf(Z))).bytes;
        // 42 can be reached, 41 are needed.
        for (room, number) in [(83, 20), (82, 21)] {
            let mut memory = marked(room, 1, 1);
            let (outcome, told) =
                start_told(BOTH, &book, Asked::One(&question), 3_000, &mut memory, &mut Seen::default());
            assert_eq!(outcome.number, number, "{room}");
            if number == 20 {
                assert_eq!(told.taken, 2 + 3_000 * 41);
            } else {
                assert_eq!((outcome.turns, outcome.nodes, memory.list[0].root), (1, 42, 0));
            }
        }
    }

    /// "Order: lack, drop, 21, 22": a turn that "drops nodes and then ends in 22, leaves nodes and roots moved".
    #[test]
    fn a_drop_before_22() {
        // make(x) = make(8 choices of Z): 256 choices in 32 turns, all of them over but the last eight.
        let mut book = numbers();
        let make = book.symbols.len();
        let eight = (0..8).fold(leaf(Z), |rest, _| or(leaf(Z), rest));
        add(&mut book, operation(0, &[0], crate::admit::Tree::Rule(one(make, eight))));
        let book = encode::book(&book).bytes;
        let question = encode::question(1, 0, &one(make, leaf(Z))).bytes;
        let ends = |room: usize| {
            let mut memory = marked(room, 1, 1);
            let outcome = run(AGAIN, &book, Asked::One(&question), 1_000, &mut memory);
            (outcome.number, outcome.turns, outcome.nodes, memory)
        };
        // 17 fresh nodes a turn, 18 can be reached behind the first.
        let (number, turns, nodes, _) = ends(35);
        assert_eq!((number, turns, nodes), (22, 32, 18)); // it lacked room, dropped, and was then refused
        let (number, turns, nodes, memory) = ends(3_200);
        assert_eq!((number, turns, nodes), (22, 32, 2 + 32 * 17)); // no lack, no drop
        assert_eq!(memory.nodes[10 * (2 + 32 * 17)], 7777);
        assert_eq!(ends(34).0, 21);
        let (_, _, nodes, memory) = ends(35);
        assert_eq!((nodes, memory.list[0].root, memory.nodes[0], memory.nodes[1]), (18, 0, 0, make as u16));
        assert_eq!(memory.nodes[180..], [0; 170]);
    }
}

mod questions {
    use super::*;

    fn result(lengths: &[u16], bytes: &[u8]) -> Outcome {
        let mut memory = marked(100, 8, 200);
        let outcome = run(PLAIN, &small(), Asked::Row(lengths, bytes), 100, &mut memory);
        if (1..20).contains(&outcome.number) {
            assert_eq!(memory, marked(100, 8, 200));
        }
        outcome
    }

    fn fault(number: u8, place: usize, question: usize) -> Outcome {
        Outcome { number, place, question, ..Outcome::default() }
    }

    #[test]
    fn refusals() {
        let (d, bad) = (d(), bytes("01 0003 00 0000"));
        assert_eq!(result(&[], &[]), fault(16, 0, 0));
        assert_eq!(result(&[0; 33], &[]), fault(16, 0, 0));
        assert_eq!(result(&[0], &[]), fault(11, 0, 0));
        assert_eq!(result(&[14, 6], &[&d[..], &bad].concat()), fault(14, 5, 1));
        assert_eq!(result(&[6, 14], &[&bad[..], &d].concat()), fault(14, 5, 0));
        assert_eq!(result(&[14, 14], &d), fault(11, 0, 1)); // too few: the first that is not all there
        assert_eq!(result(&[14, 13], &[&d[..], &d].concat()), fault(11, 1, 1)); // its own length runs past its 13 bytes
        assert_eq!(result(&[14, 14], &[&d[..], &d, &[0]].concat()), fault(11, 0, 1)); // left over: the last's
        assert_eq!(result(&[14, 65535, 14], &[&d[..], &d].concat()), fault(11, 0, 1));
        assert_eq!(result(&[6, 65535], &[&bad[..], &d].concat()), fault(14, 5, 0)); // met in order
        let long = vec![3; 4097];
        assert_eq!(result(&[14, 4097], &[&d[..], &long].concat()), fault(11, 0, 1));
        assert_eq!(result(&[14, 4096], &[&d[..], &long[1..]].concat()), fault(12, 0, 1));
        // book before 16
        let mut memory = marked(1, 1, 1);
        assert_eq!(run(PLAIN, &[], Asked::Row(&[], &[]), 1, &mut memory), fault(1, 0, 0));
    }

    #[test]
    fn loading_is_judged_over_all() {
        // three choices of D's kind: 4 nodes and 1 choice each
        let three = d().repeat(3);
        let loaded = |nodes: usize, places: usize, answers: usize| {
            let mut memory = marked(nodes, places, answers);
            let outcome = run(PLAIN, &small(), Asked::Row(&[14; 3], &three), 0, &mut memory);
            if outcome.number != 20 {
                assert_eq!(memory, marked(nodes, places, answers));
                assert_eq!(outcome.nodes, 0);
            }
            outcome.number
        };
        assert_eq!(loaded(12, 3, 1), 20);
        assert_eq!(loaded(11, 2, 0), 25);
        assert_eq!(loaded(11, 2, 1), 21);
        assert_eq!(loaded(12, 2, 1), 23);
        // 257 choices: 9 questions of 28 and one of 5, of fails: 22 between 21 and 23
        let fails = |count: usize| {
            let choice = (0..count).fold(Expression::Fail, |rest, _| or(Expression::Fail, rest));
            encode::question(1, 0, &choice).bytes
        };
        for (last, number) in [(4, 20), (5, 22)] {
            let mut questions: Vec<Vec<u8>> = (0..9).map(|_| fails(28)).collect();
            questions.push(fails(last));
            let row = Questions::of(&questions);
            let nodes = 9 * 57 + 2 * last + 1;
            let number_of = |nodes: usize, places: usize| {
                run(PLAIN, &small(), row.asked(), 0, &mut marked(nodes, places, 1)).number
            };
            assert_eq!(number_of(nodes, 10), number);
            assert_eq!(number_of(nodes, 9), if number == 22 { 22 } else { 23 });
            assert_eq!(number_of(nodes - 1, 9), 21);
        }
    }

    /// D and (loop or False) share a run: entries take turns, choices are numbered on, records have the question's number.
    #[test]
    fn a_row_by_hand() {
        let other = bytes("01 0008 00 02 010003 010000");
        let both = [&d()[..], &other].concat();
        let mut memory = marked(3200, 64, 200);
        let outcome = run(PLAIN, &small(), Asked::Row(&[14, 11], &both), 0, &mut memory);
        assert_eq!(outcome, of(20, 0, [0, 0, 7, 2, 2]));
        assert_eq!(memory.nodes[..2], [0, 4]);
        assert_eq!(memory.nodes[40..44], [1, 1, 5, 6]);
        assert_eq!((memory.list[0].root, memory.list[0].question), (0, 0));
        assert_eq!((memory.list[1].root, memory.list[1].question), (4, 1));
        assert!(memory.list[2..].iter().all(|entry| *entry == Entry::new(0)));
        assert_eq!(memory.answers[..2], [2, 77]);
        // a row of one gives version 2 answers; an entry's number stands behind the length, which counts it
        let mut memory = marked(3200, 64, 200);
        assert_eq!(run(PLAIN, &small(), Asked::Row(&[14], &d()), 10, &mut memory), of(0, 0, [10, 2, 8, 1, 0]));
        assert_eq!(memory.answers[..21], bytes("02 0008 0000 0001 0000 0000 0008 0000 0001 0000 0001"));
        // as second question: choice 1
        let both = [&other[..], &d()].concat();
        let mut memory = marked(3200, 64, 200);
        let outcome = run(PLAIN, &small(), Asked::Row(&[11, 14], &both), 1_000, &mut memory);
        assert_eq!((outcome.number, outcome.turns, outcome.answers, outcome.waiting), (20, 1_000, 3, 1));
        let answers = bytes("02 0008 0000 0001 0000 0001 0008 0001 0001 0000 0002 0008 0001 0001 0000 0003");
        assert_eq!(memory.answers[..31], answers);
    }

    /// "the answers of one question are, in order, a first part of those it gets alone under enough fuel and room, with its choices
    /// renumbered in order of making; all of them, if the run ends as finished".
    #[test]
    fn each_question_answers_as_alone() {
        deep(|| {
            let (mut finished, mut parts, mut answers) = (0, 0, 0);
            for number in inputs(250) {
                let mut random = Random::new(33, number);
                let count = if random.percent(80) { random.from(1, 5) } else { random.from(6, 32) };
                let (mut random, _, book, questions) = by_chance(3, number, count);
                let row = Questions::of(&questions);
                let requests = *random.pick(&ALL);
                let fuel = if random.percent(50) { 3_000 } else { random.below(200) as u32 };
                let room = if random.percent(50) { NODES } else { random.from(count, 400) };
                let mut memory = marked(room, 64, 16_384);
                let (outcome, told) = start_told(requests, &book, row.asked(), fuel, &mut memory, &mut Seen::default());
                if outcome.nodes == 0 {
                    continue;
                }
                assert_eq!(told.makers.len(), outcome.choices);
                let found = records(&memory.answers, outcome.answers);
                for (asked, question) in questions.iter().enumerate() {
                    let mut alone = marked(NODES, 64, 400_000);
                    let single = run(requests, &book, Asked::One(question), fuel, &mut alone);
                    let alone = records(&alone.answers, single.answers);
                    // The choices of this question, in order of making.
                    let own: Vec<usize> =
                        (0..told.makers.len()).filter(|choice| told.makers[*choice] as usize == asked).collect();
                    let renumbered = |decision: u16| {
                        let place = own.iter().position(|choice| *choice == decision as usize / 2).expect("its own");
                        2 * place as u16 + decision % 2
                    };
                    let mut mine = 0;
                    for record in found.iter().filter(|record| record[1] as usize == asked) {
                        // length, question, count, symbols, decisions
                        let symbols = record[2] as usize;
                        let mut expected = vec![record[0] - 2];
                        expected.extend(&record[2..3 + symbols]);
                        expected.extend(record[3 + symbols..].iter().map(|decision| renumbered(*decision)));
                        assert_eq!(alone.get(mine), Some(&expected), "answer {mine} of question {asked}");
                        mine += 1;
                        answers += 1;
                    }
                    if outcome.number == 0 {
                        assert_eq!((mine, single.number), (alone.len(), 0));
                        finished += 1;
                    } else {
                        parts += 1;
                    }
                }
            }
            assert!(finished > 100 && parts > 100 && answers > 300, "{finished} {parts} {answers}");
            println!("{finished} questions of finished rows, {parts} of others, {answers} answers");
        });
    }

    /// A row of one question is the run over it, but for the layout of its answers.
    #[test]
    fn a_row_of_one() {
        deep(|| {
            for number in inputs(100) {
                let (mut random, _, book, questions) = by_chance(1, number, 1);
                let requests = *random.pick(&ALL);
                let fuel = random.below(500) as u32;
                let (mut one, mut row) = (marked(300, 20, 16_384), marked(300, 20, 16_384));
                let first = run(requests, &book, Asked::One(&questions[0]), fuel, &mut one);
                let second = run(requests, &book, Questions::of(&questions).asked(), fuel, &mut row);
                if first.number == 25 || second.number == 25 {
                    continue;
                }
                assert_eq!(first, second);
                assert_eq!((one.nodes, one.list), (row.nodes, row.list));
                let without = |record: &Vec<u16>| {
                    assert_eq!(record[1], 0);
                    [&[record[0] - 2][..], &record[2..]].concat()
                };
                let of_row: Vec<Vec<u16>> = records(&row.answers, second.answers).iter().map(without).collect();
                assert_eq!(records(&one.answers, first.answers), of_row);
            }
        });
    }
}

mod going_on {
    use super::*;

    /// D stopped after so many turns, in marked memory of 8 nodes, 4 places and 17 answer bytes.
    fn stopped(fuel: u32) -> (Memory, Outcome) {
        let mut memory = marked(8, 4, 17);
        let outcome = run(PLAIN, &small(), Asked::One(&d()), fuel, &mut memory);
        (memory, outcome)
    }

    #[test]
    fn d_in_every_two_pieces() {
        let (whole, outcome) = stopped(10);
        for first in 0..=10 {
            let (mut memory, last) = stopped(first);
            let before = memory.answers.clone();
            memory.answers.fill(77);
            assert_eq!(go(PLAIN, &small(), &last, false, 10 - first, &mut memory), outcome);
            assert_eq!((&memory.nodes, &memory.list), (&whole.nodes, &whole.list));
            let used = 1 + 8 * last.answers;
            let rest = 1 + 8 * (outcome.answers - last.answers);
            assert_eq!([&before[..used], &memory.answers[1..rest]].concat(), whole.answers);
            assert!(memory.answers[rest..].iter().all(|byte| *byte == 77));
        }
    }

    /// 30 at this place with memory untouched, for a state of D after nine turns with something changed.
    fn refused(place: usize, fuel: u32, change: impl FnOnce(&mut Memory, &mut Outcome)) {
        let (mut memory, mut last) = stopped(6);
        change(&mut memory, &mut last);
        let before = memory.clone();
        assert_eq!(
            go(PLAIN, &small(), &last, false, fuel, &mut memory),
            Outcome { number: 30, place, ..Outcome::default() }
        );
        assert_eq!(memory, before);
    }

    fn accepted(change: impl FnOnce(&mut Memory, &mut Outcome)) {
        let (mut memory, mut last) = stopped(6);
        change(&mut memory, &mut last);
        let whole = stopped(10);
        memory.answers = marked(0, 0, 17).answers;
        assert_eq!(go(PLAIN, &small(), &last, false, 4, &mut memory), whole.1);
        assert_eq!((memory.nodes, memory.list), (whole.0.nodes, whole.0.list));
        assert_eq!(memory.answers, whole.0.answers);
    }

    /// After six turns: 0 choice 0 (4, 5), 1 choice 0 (2, 3), 2 False, 3 True, 4 forward 1, 5 choice 0 (6, 7), 6 xor(3, 2), 7 xor(3, 3);
    /// entries (5, right), (2, left).
    #[test]
    fn refusals_by_place() {
        refused(1, u32::MAX, |_, _| {});
        refused(1, u32::MAX - 5, |_, _| {});
        refused(1, 1, |_, last| last.turns = u32::MAX);
        refused(1, u32::MAX, |_, last| last.answers = 7);
        refused(2, 4, |_, last| last.answers = 7);
        refused(3, 4, |_, last| last.nodes = 0);
        refused(3, 4, |_, last| last.nodes = 9);
        refused(3, 4, |memory, _| memory.nodes.truncate(79));
        refused(4, 4, |_, last| last.choices = 257);
        refused(5, 4, |_, last| last.waiting = 5);
        refused(5, 4, |memory, _| memory.list.truncate(1));
        refused(3, 4, |_, last| *last = Outcome::default());
    }

    #[test]
    fn refusals_at_nodes() {
        let node = FIRST_NODE;
        refused(node + 3, 4, |memory, _| memory.nodes[30] = 4);
        refused(node + 3, 4, |memory, _| memory.nodes[30] = 65_535);
        // an unknown symbol is no argument's sort: the lowest node that has it as an argument is named
        refused(node + 6, 4, |memory, _| memory.nodes[61] = 5);
        refused(node + 3, 4, |memory, _| memory.nodes[31] = 5); // its users, 6 and 7, stand behind it
        refused(node, 4, |memory, _| memory.nodes[1] = 1); // choice 1 is not made
        refused(node, 4, |_, last| last.choices = 0);
        refused(node + 4, 4, |memory, _| memory.nodes[42] = 8);
        refused(node + 6, 4, |memory, _| memory.nodes[63] = 8);
        refused(node + 4, 4, |memory, _| memory.nodes[42] = 4); // a forward to itself
        refused(node, 4, |memory, _| memory.nodes[42] = 0); // 0 to 4 to 0
        refused(node + 5, 4, |memory, _| memory.nodes[72] = 5); // 5 to 7 to 5
        refused(node + 5, 4, |_, last| last.nodes = 7); // its right arrow is past them now
                                                        // two faults: the lowest
        refused(node + 2, 4, |memory, _| (memory.nodes[20], memory.nodes[30]) = (9, 9));
        // counts come before nodes, nodes before entries
        refused(2, 4, |memory, last| (memory.nodes[20], last.answers) = (9, 7));
        refused(node + 2, 4, |memory, _| (memory.nodes[20], memory.list[0].root) = (9, 8));
    }

    #[test]
    fn refusals_at_entries() {
        let entry = FIRST_ENTRY;
        refused(entry, 4, |memory, _| memory.list[0].root = 8);
        refused(entry + 1, 4, |memory, _| memory.list[1].root = 65_535);
        refused(entry + 1, 4, |memory, _| memory.list[1].decisions[1] = Decision::Left);
        refused(entry + 1, 4, |memory, _| memory.list[1].decisions[255] = Decision::Right);
        refused(entry, 4, |memory, _| memory.list[0].decisions[0] = Decision::Both);
        refused(entry, 4, |memory, _| memory.list[0].decisions[7] = Decision::Both);
    }

    #[test]
    fn what_is_not_judged() {
        accepted(|_, _| {});
        accepted(|_, last| (last.number, last.place, last.question) = (9, 99, 999));
        // unused arrows, the second number of a fail or forward
        accepted(|memory, _| {
            memory.nodes[9] = 1;
            memory.nodes[22] = 65_535;
            memory.nodes[41] = 300;
            memory.nodes[43] = 9;
        });
        // vacant places
        accepted(|memory, _| {
            memory.list[2].root = 500;
            memory.list[3].decisions[9] = Decision::Both;
            memory.list[3].question = 9;
        });
    }

    #[test]
    fn question_numbers_and_layout_are_as_told() {
        let (mut memory, last) = stopped(9);
        memory.answers = vec![77; 30];
        memory.list[0].question = 500;
        let outcome = go(PLAIN, &small(), &last, true, 5, &mut memory);
        assert_eq!(outcome, of(0, 0, [10, 2, 8, 1, 0]));
        assert_eq!(memory.answers[..12], bytes("02 0008 01F4 0001 0000 0001 4D"));
        // stopped at once: the version byte is written, a question's number stays
        let (mut memory, last) = stopped(9);
        memory.answers = vec![77; 30];
        memory.list[0].question = 500;
        assert_eq!(go(PLAIN, &small(), &last, false, 0, &mut memory), of(20, 0, [9, 1, 8, 1, 1]));
        assert_eq!((memory.answers[0], memory.list[0].question), (1, 500));
        // no room for it: 25, all counts 0, memory untouched
        let (mut memory, last) = stopped(9);
        memory.answers.clear();
        memory.nodes[9] = 5;
        let before = memory.clone();
        assert_eq!(go(PLAIN, &small(), &last, false, 0, &mut memory), of(25, 0, [0; 5]));
        assert_eq!(memory, before);
        // 1 to 5 come before 30
        let mut memory = stopped(9).0;
        assert_eq!(go(PLAIN, &[], &Outcome::default(), false, 0, &mut memory).number, 1);
        // finished, and gone on with
        let (mut memory, last) = stopped(10);
        assert_eq!(go(PLAIN, &small(), &last, false, 1_000, &mut memory), last);
        assert_eq!(memory.answers[0], 1);
    }

    /// Sorts: pair of a truth value and a number, by a book with two sorts.
    #[test]
    fn arguments_fit_through_forwards_and_choices() {
        // 0 f: sort 0; 1 n: sort 1; 2 p(0, 1): sort 0
        let book = bytes("01 000B 020000 020001 0400000001 0000");
        let question = bytes("01 0004 00 010000");
        let judge = |nodes: &[[u16; 4]]| {
            let mut memory = marked(20, 2, 20);
            let mut last = run(PLAIN, &book, Asked::One(&question), 0, &mut memory);
            for (number, node) in nodes.iter().enumerate() {
                memory.nodes[10 * number..10 * number + 4].copy_from_slice(node);
            }
            (last.nodes, last.choices) = (nodes.len(), 9);
            let outcome = go(PLAIN, &book, &last, false, 0, &mut memory);
            (outcome.number, outcome.place)
        };
        let (f, n, fail) = ([0, 0, 9, 9], [0, 1, 9, 9], [2, 9, 9, 9]);
        assert_eq!(judge(&[[0, 2, 1, 2], f, n]), (20, 0));
        assert_eq!(judge(&[[0, 2, 2, 1], f, n]), (30, 6));
        assert_eq!(judge(&[[0, 2, 1, 2], f, fail]), (20, 0));
        assert_eq!(judge(&[[0, 2, 1, 3], f, n, [3, 9, 2, 9]]), (20, 0));
        assert_eq!(judge(&[[0, 2, 1, 3], f, n, [3, 9, 1, 9]]), (30, 6));
        assert_eq!(judge(&[[0, 2, 1, 3], f, n, [1, 0, 2, 4], [1, 0, 2, 5], fail]), (20, 0));
        assert_eq!(judge(&[[0, 2, 1, 3], f, n, [1, 0, 2, 4], [1, 0, 5, 1], fail]), (30, 6));
        // a choice of two sorts, for which no argument asks
        assert_eq!(judge(&[[1, 0, 1, 2], f, n]), (20, 0));
        // what lies below is not blamed on the user: a forward past the nodes, a way that returns, an unknown kind
        assert_eq!(judge(&[[0, 2, 1, 2], f, [3, 0, 9, 0]]), (30, 6 + 2));
        assert_eq!(judge(&[[0, 2, 1, 2], f, [3, 0, 2, 0]]), (30, 6 + 2));
        assert_eq!(judge(&[[0, 2, 1, 2], f, [4, 0, 0, 0]]), (30, 6 + 2));
        // an unknown symbol has no sort: the reading of `going::UNKNOWN_SYMBOL_FITS`
        let blamed = if crate::going::UNKNOWN_SYMBOL_FITS { 8 } else { 6 };
        assert_eq!(judge(&[[0, 2, 1, 2], f, [0, 3, 0, 0]]), (30, blamed));
    }

    /// "Fuel a followed by b more equals fuel a plus b, where the first ended in 0 or 20 ... and no run lacks answer room: the same state,
    /// and the answer records joined."
    #[test]
    fn a_then_b_is_a_plus_b() {
        deep(|| {
            let (mut tried, mut drops, mut pieces) = (0, 0, 0);
            for number in inputs(250) {
                let (mut random, _, book, questions) = by_chance(12, number, 3);
                let row = Questions::of(&questions);
                let is_row = number % 2 == 0;
                let asked = if is_row { row.asked() } else { Asked::One(&questions[0]) };
                let requests = ALL[number as usize / 2 % 4];
                let least = least_room(requests, &book, asked, 1_000);
                let (nodes, places) = (least + random.below(8), *random.pick(&[ENTRIES, 70, 3, 9]));
                let empty = || marked(nodes, places, 400_000);
                let ended = run(requests, &book, asked, 1_000, &mut empty());
                for _ in 0..3 {
                    let first = random.below(ended.turns as usize + 2) as u32;
                    let more = random.below(ended.turns as usize + 2) as u32;
                    let mut whole = empty();
                    let sum = run(requests, &book, asked, first + more, &mut whole);
                    let mut memory = empty();
                    let mut last = run(requests, &book, asked, first, &mut memory);
                    if last.nodes == 0 || (last.number != 0 && last.number != 20) || sum.number == 25 {
                        continue;
                    }
                    let mut joined = records(&memory.answers, last.answers);
                    // In two pieces, or in many.
                    let mut left = more;
                    loop {
                        let now = if random.percent(50) { left } else { random.below(left as usize + 1) as u32 };
                        left -= now;
                        memory.answers = empty().answers;
                        let before = last;
                        let (outcome, told) =
                            go_on_told(requests, &book, &before, is_row, now, &mut memory, &mut Seen::default());
                        last = outcome;
                        drops += told.drops;
                        pieces += 1;
                        assert_ne!(last.number, 30);
                        assert_eq!(memory.answers[0], if is_row { 2 } else { 1 });
                        joined.extend(records(&memory.answers, last.answers - before.answers));
                        if left == 0 || (last.number != 0 && last.number != 20) {
                            break;
                        }
                    }
                    assert_eq!(last, sum);
                    assert_eq!((&memory.nodes, &memory.list), (&whole.nodes, &whole.list));
                    assert_eq!(joined, records(&whole.answers, sum.answers));
                    tried += 1;
                }
            }
            assert!(tried > 300 && drops > 50, "{tried} {drops} {pieces}");
            println!("{tried} sums, {pieces} goings on, {drops} drops in them");
        });
    }

    /// A run refused with 21 to 25 may be gone on with; with the room that it lacked it comes to what it would have been.
    #[test]
    fn more_room_after_a_refusal() {
        deep(|| {
            let mut refused = [0; 6];
            for number in inputs(300) {
                let (mut random, _, book, questions) = by_chance(21, number, 1);
                let asked = Asked::One(&questions[0]);
                let requests = if number % 2 == 0 { PLAIN } else { SHORTEN };
                let (nodes, places, answers) = (random.from(5, 90), random.from(1, 6), random.from(1, 60));
                let mut memory = marked(nodes, places, answers);
                let last = run(requests, &book, asked, 1_000, &mut memory);
                if last.nodes == 0 || last.number <= 20 || last.number == 24 || last.number == 22 {
                    continue;
                }
                refused[last.number as usize - 20] += 1;
                // The same refusal again, and nothing changes.
                let before = memory.clone();
                memory.answers = vec![0; answers];
                let again = go(requests, &book, &last, false, 1_000, &mut memory);
                if last.number != 25 {
                    assert_eq!(again, last);
                    assert_eq!((&before.nodes, &before.list), (&memory.nodes, &memory.list));
                    memory = before;
                } else {
                    memory = before; // fresh answer room takes more
                }
                let mut joined = records(&memory.answers, last.answers);
                let mut wide = marked(NODES, 64, 65_000);
                wide.nodes[..memory.nodes.len()].copy_from_slice(&memory.nodes);
                wide.list[..memory.list.len()].clone_from_slice(&memory.list);
                let outcome = go(requests, &book, &last, false, 1_000 - last.turns, &mut wide);
                joined.extend(records(&wide.answers, outcome.answers - last.answers));
                let mut whole = marked(NODES, 64, 65_000);
                let sum = run(requests, &book, asked, 1_000, &mut whole);
                assert_eq!(outcome, sum);
                assert_eq!((&wide.nodes, &wide.list), (&whole.nodes, &whole.list));
                assert_eq!(joined, records(&whole.answers, sum.answers));
            }
            assert!(refused[1] > 20 && refused[3] > 20 && refused[5] > 20, "{refused:?}");
            println!("refused with 21, 23 and 25, then gone on with: {} {} {}", refused[1], refused[3], refused[5]);
        });
    }
}
