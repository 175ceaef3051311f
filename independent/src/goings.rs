//! Program `goings` (request L12): a table of runs that are stopped and gone on with, with numbers of their state changed between.
//! `tools/going_cases.py` makes the table and says what it holds and what is printed.

use crate::admit::Book;
use crate::encode;
use crate::evaluator::{go_on, start, Asked, Decision, Memory, Node, Outcome, APPLY, CHOICE};
use crate::lent::{
    byte, four, lengthy, put_lengthy, put_two, two, Sizes, Whole, ANSWER_BYTES, NODE_NUMBERS, PLACES, TABLE_BYTES,
};
use crate::make::Made;
use crate::random::Random;
use crate::requests;
use crate::rows::{call_lines, note_result, some_book, some_sizes, sound_questions, Questions};
use crate::seen::Seen;
use crate::sizes::{CHOICES, ENTRIES, NODES};

/// One number of the state that a call is given, changed before it.
#[derive(Clone, Copy, Debug, PartialEq, Eq)]
pub enum Change {
    /// A node number at this place of the node room.
    Number(usize, u16),
    /// The root, the question's number, or a choice's decision of the entry at this place of the list.
    Root(usize, u16),
    Question(usize, u16),
    Decision(usize, u8, Decision),
    /// A number of the last result, by its place among the eight.
    Result(usize, u32),
}

const SIDES: [Decision; 4] = [Decision::Open, Decision::Left, Decision::Right, Decision::Both];

impl Change {
    /// Its kind in a byte, its place in two and its value in four.
    fn read(rest: &mut &[u8]) -> Option<Change> {
        let (kind, place, value) = (byte(rest)?, two(rest)?, four(rest)?);
        Some(match kind {
            0 => Change::Number(place, value as u16),
            1 => Change::Root(place, value as u16),
            2 => Change::Question(place, value as u16),
            3 => Change::Decision(place, (value / 4) as u8, SIDES[value as usize % 4]),
            4 => Change::Result(place, value),
            _ => panic!("no such change"),
        })
    }

    fn put(&self, out: &mut Vec<u8>) {
        let side = |decision: Decision| SIDES.iter().position(|one| *one == decision).expect("a side") as u32;
        let (kind, place, value) = match *self {
            Change::Number(place, value) => (0, place, value as u32),
            Change::Root(place, value) => (1, place, value as u32),
            Change::Question(place, value) => (2, place, value as u32),
            Change::Decision(place, choice, decision) => (3, place, 4 * choice as u32 + side(decision)),
            Change::Result(place, value) => (4, place, value),
        };
        out.push(kind);
        put_two(out, place);
        out.extend(value.to_be_bytes());
    }
}

/// A call that goes on.
#[derive(Clone, Debug)]
pub struct Going {
    /// Whether it is told that the run took a row.
    pub row: bool,
    pub sizes: Sizes,
    pub fuel: u32,
    pub changes: Vec<Change>,
    /// Another book than the run's.
    pub book: Option<Vec<u8>>,
}

impl Going {
    fn read(rest: &mut &[u8]) -> Option<Going> {
        let told = byte(rest)?;
        let sizes = Sizes::read(rest)?;
        let fuel = four(rest)?;
        let count = two(rest)?;
        let changes = (0..count).map(|_| Change::read(rest)).collect::<Option<Vec<Change>>>()?;
        let book = if told & 2 != 0 { Some(lengthy(rest)?.to_vec()) } else { None };
        Some(Going { row: told & 1 != 0, sizes, fuel, changes, book })
    }

    fn put(&self, out: &mut Vec<u8>) {
        out.push(self.row as u8 + 2 * self.book.is_some() as u8);
        self.sizes.put(out);
        out.extend(self.fuel.to_be_bytes());
        put_two(out, self.changes.len());
        self.changes.iter().for_each(|change| change.put(out));
        if let Some(book) = &self.book {
            put_lengthy(out, book);
        }
    }
}

/// A run and the calls that go on with it.
struct Case {
    label: Vec<u8>,
    row: bool,
    questions: Questions,
    sizes: Sizes,
    fuel: u32,
    goings: Vec<Going>,
}

impl Case {
    fn read(rest: &mut &[u8]) -> Option<Case> {
        let label = lengthy(rest)?.to_vec();
        let row = byte(rest)? != 0;
        let questions = Questions::read(rest)?;
        let sizes = Sizes::read(rest)?;
        let fuel = four(rest)?;
        let count = two(rest)?;
        let goings = (0..count).map(|_| Going::read(rest)).collect::<Option<Vec<Going>>>()?;
        Some(Case { label, row, questions, sizes, fuel, goings })
    }

    fn put(&self, out: &mut Vec<u8>) {
        put_lengthy(out, &self.label);
        out.push(self.row as u8);
        self.questions.put(out);
        self.sizes.put(out);
        out.extend(self.fuel.to_be_bytes());
        put_two(out, self.goings.len());
        self.goings.iter().for_each(|going| going.put(out));
    }

    fn asked(&self) -> Asked<'_> {
        if self.row {
            self.questions.asked()
        } else {
            Asked::One(&self.questions.bytes)
        }
    }
}

/// The memory between the calls, and the result in hand.
struct State {
    whole: Whole,
    last: Outcome,
}

impl State {
    /// The first call, over marked memory; its lines.
    fn begin(book: &[u8], asked: Asked, row: bool, sizes: &Sizes, fuel: u32, seen: &mut Seen) -> (State, String) {
        let mut whole = Whole::marked();
        let last = whole.lend(sizes, |memory| start(requests::current(), book, asked, fuel, memory, seen));
        let lines = call_lines(&last, last.answers, row, &whole);
        (State { whole, last }, lines)
    }

    fn change(&mut self, change: Change) {
        let Memory { nodes, list, .. } = &mut self.whole.0;
        match change {
            Change::Number(place, value) => nodes[place] = value,
            Change::Root(place, value) => list[place].root = value,
            Change::Question(place, value) => list[place].question = value,
            Change::Decision(place, choice, decision) => list[place].decisions[choice as usize] = decision,
            Change::Result(place, value) => {
                let count = value as usize;
                match place {
                    0 => self.last.number = value as u8,
                    1 => self.last.place = count,
                    2 => self.last.turns = value,
                    3 => self.last.answers = count,
                    4 => self.last.nodes = count,
                    5 => self.last.choices = count,
                    6 => self.last.waiting = count,
                    _ => self.last.question = count,
                }
            }
        }
    }

    /// The change that takes a change back.
    fn back(&self, change: Change) -> Change {
        let Memory { nodes, list, .. } = &self.whole.0;
        match change {
            Change::Number(place, _) => Change::Number(place, nodes[place]),
            Change::Root(place, _) => Change::Root(place, list[place].root),
            Change::Question(place, _) => Change::Question(place, list[place].question),
            Change::Decision(place, choice, _) => {
                Change::Decision(place, choice, list[place].decisions[choice as usize])
            }
            Change::Result(place, _) => Change::Result(place, self.last.numbers()[place] as u32),
        }
    }

    /// A call that goes on: its result and its lines. The result in hand is the last but those with number 30.
    fn go(&mut self, book: &[u8], going: &Going, seen: &mut Seen) -> (Outcome, String) {
        going.changes.iter().for_each(|change| self.change(*change));
        self.whole.fresh_answers();
        let book = going.book.as_deref().unwrap_or(book);
        let (last, row, fuel) = (self.last, going.row, going.fuel);
        let call = |memory: &mut Memory| go_on(requests::current(), book, &last, row, fuel, memory, seen);
        let outcome = self.whole.lend(&going.sizes, call);
        // "The answer room holds this call's records only, while the answers in the result count on."
        let count = outcome.answers.saturating_sub(last.answers);
        let lines = call_lines(&outcome, count, row, &self.whole);
        if outcome.number != 30 {
            self.last = outcome;
        }
        (outcome, lines)
    }
}

/// The lines of a whole table.
pub fn program(input: &[u8], seen: &mut Seen) -> (String, Option<u8>) {
    let mut rest = input;
    let mut text = String::new();
    while !rest.is_empty() {
        text.push_str(&group(&mut rest, seen).expect("a whole table"));
    }
    (text, Some(0))
}

/// A book and the cases over it.
fn group(rest: &mut &[u8], seen: &mut Seen) -> Option<String> {
    let book = lengthy(rest)?;
    let mut text = String::new();
    for _ in 0..two(rest)? {
        let case = Case::read(rest)?;
        text.push_str(&format!("{}\n", String::from_utf8_lossy(&case.label)));
        let (mut state, lines) = State::begin(book, case.asked(), case.row, &case.sizes, case.fuel, seen);
        text.push_str(&lines);
        for going in &case.goings {
            let stopped = state.last.number;
            let (outcome, lines) = state.go(book, going, seen);
            note_result(&outcome, seen);
            note_going(stopped, going, &outcome, seen);
            text.push_str(&lines);
        }
    }
    Some(text)
}

fn note_going(stopped: u8, going: &Going, outcome: &Outcome, seen: &mut Seen) {
    if outcome.nodes == 0 {
        return;
    }
    seen.note(match stopped {
        0 => "gone on after 0",
        20 => "gone on after 20",
        21 => "gone on after 21",
        22 => "gone on after 22",
        23 => "gone on after 23",
        24 => "gone on after 24",
        25 => "gone on after 25",
        _ => "gone on after a number that is not judged",
    });
    if !going.changes.is_empty() {
        seen.note("gone on from a state that was changed");
    }
    if going.book.is_some() {
        seen.note("gone on with another book");
    }
    seen.note(if going.row { "gone on with version 2" } else { "gone on with version 1" });
}

/// What a comparison must have seen; with the names of `going::SEEN`.
pub const SEEN: &[&str] = &[
    "gone on after 0",
    "gone on after 20",
    "gone on after 21",
    "gone on after 22",
    "gone on after 23",
    "gone on after 24",
    "gone on after 25",
    "gone on from a state that was changed",
    "gone on with another book",
    "gone on with version 1",
    "gone on with version 2",
    "going on without room for the version byte",
    "unused numbers of a node cleaned",
];

pub const RESULTS: &[&str] = &[
    "result 0",
    "result 20",
    "result 21",
    "result 22",
    "result 23",
    "result 24",
    "result 25",
    "loading 25",
    "result 30",
];

/// All memory, or so much that a call finds what it needs.
const ALL: Sizes = Sizes { numbers: 10 * NODES, places: ENTRIES, answer_bytes: ANSWER_BYTES };

/// One or two changes of the state in hand, of any kind that document 02 names and some that it leaves open.
fn some_changes(random: &mut Random, state: &State, book: &Book, sizes: &Sizes, fuel: &mut u32) -> Vec<Change> {
    let last = &state.last;
    let nodes = last.nodes.clamp(1, sizes.numbers.max(10) / 10);
    let waiting = last.waiting.clamp(1, PLACES);
    let node = random.below(nodes);
    let at = |number: usize, which: usize| (10 * number + which).min(NODE_NUMBERS - 1);
    let near = |random: &mut Random, count: usize| match random.below(6) {
        0 => count as u32,
        1 => count as u32 + 1,
        2 => count.saturating_sub(1) as u32,
        3 => *random.pick(&[3_199, 3_200, 3_201, 65_535, 65_536, 4_294_967_295]),
        _ => random.below(count + 2) as u32,
    };
    let room = sizes.numbers / 10;
    match random.below(20) {
        0 => {
            // Turns near the end of 32 bits, and a fuel that reaches it or passes it.
            let turns = u32::MAX - random.below(6) as u32;
            *fuel = random.below(8) as u32;
            vec![Change::Result(2, turns)]
        }
        1 => vec![Change::Result(3, *random.pick(&[last.turns, last.turns.wrapping_add(1), u32::MAX, 0]))],
        2 => {
            let count = *random.pick(&[last.nodes, room, 0]);
            vec![Change::Result(4, near(random, count))]
        }
        3 => {
            let count = *random.pick(&[last.choices, CHOICES]);
            vec![Change::Result(5, near(random, count))]
        }
        4 => {
            let count = *random.pick(&[last.waiting, sizes.places, ENTRIES]);
            vec![Change::Result(6, near(random, count))]
        }
        5 => {
            let place = *random.pick(&[0, 1, 7]);
            vec![Change::Result(place, random.below(256) as u32)]
        }
        6 => vec![Change::Number(at(node, 0), *random.pick(&[0, 1, 2, 3, 3, 4, 5, 65_535]))],
        7 => {
            let symbols = book.symbols.len();
            let any = *random.pick(&[last.choices, last.choices + 1, symbols, symbols + 1, 65_535]);
            let value = if random.percent(50) { any } else { random.below(any + 1) };
            vec![Change::Number(at(node, 1), value as u16)]
        }
        8..=10 => {
            // An arrow: past the nodes, to any node, to the node itself.
            let count = Node::of(&state.whole.0.nodes, node).used(book).len().max(1);
            let value = match random.below(6) {
                0 => nodes,
                1 => 65_535,
                2 => node,
                _ => random.below(nodes),
            };
            vec![Change::Number(at(node, 2 + random.below(count)), value as u16)]
        }
        11 | 12 => {
            // A way that returns: an arrow of a node below leads back.
            let mut end = node;
            for _ in 0..random.from(1, 6) {
                let used: Vec<u16> = Node::of(&state.whole.0.nodes, end).used(book).to_vec();
                match used.first() {
                    Some(_) => end = (*random.pick(&used) as usize).min(nodes - 1),
                    None => break,
                }
            }
            let count = Node::of(&state.whole.0.nodes, end).used(book).len();
            if count == 0 {
                // It has none: it becomes a forward.
                return vec![Change::Number(at(end, 0), 3), Change::Number(at(end, 2), node as u16)];
            }
            vec![Change::Number(at(end, 2 + random.below(count)), node as u16)]
        }
        13 => {
            // Unused numbers.
            let found = Node::of(&state.whole.0.nodes, node);
            let used = found.used(book).len();
            let mut changes = Vec::new();
            if used < 8 {
                changes.push(Change::Number(at(node, random.from(2 + used, 9)), random.next() as u16));
            }
            if found.kind != APPLY && found.kind != CHOICE {
                changes.push(Change::Number(at(node, 1), random.next() as u16));
            }
            changes
        }
        14 => vec![Change::Root(random.below(waiting), near(random, nodes).min(65_535) as u16)],
        15 | 16 => {
            let choice = match random.below(3) {
                0 => last.choices.min(255),
                1 => random.below(256),
                _ => random.below(last.choices.clamp(1, 256)),
            };
            vec![Change::Decision(random.below(waiting), choice as u8, *random.pick(&SIDES))]
        }
        17 => vec![Change::Question(random.below(waiting), *random.pick(&[0, 1, 31, 32, 65_535]))],
        18 => {
            // A place behind the waiting entries.
            let place = random.from(last.waiting.min(PLACES - 1), PLACES - 1);
            vec![Change::Root(place, 65_535), Change::Decision(place, random.byte(), *random.pick(&SIDES))]
        }
        _ => {
            // A fail or a forward in place of a node.
            if random.percent(50) {
                vec![Change::Number(at(node, 0), 2)]
            } else {
                vec![Change::Number(at(node, 0), 3), Change::Number(at(node, 2), random.below(nodes) as u16)]
            }
        }
    }
}

/// The turns that a case may take before it is stopped.
const FAR: u32 = 1_500;

/// A run over a sound book, stopped, and calls that go on with it.
fn some_case(random: &mut Random, book: &Book, bytes: &[u8], row: bool, questions: &Questions) -> Case {
    let asked = if row { questions.asked() } else { Asked::One(&questions.bytes) };
    let mut memory = Memory::sized(NODES, ENTRIES, ANSWER_BYTES);
    let ended = start(requests::current(), bytes, asked, FAR, &mut memory, &mut Seen::default());
    let sizes = match random.below(3) {
        0 => ALL,
        _ => some_sizes(random, bytes, asked, 1_000),
    };
    // Stopped somewhere, or run to its end.
    let fuel = match random.below(6) {
        0 => 0,
        1 => FAR,
        _ => random.below(ended.turns as usize + 2) as u32,
    };
    let quiet = &mut Seen::default();
    let (mut state, _) = State::begin(bytes, asked, row, &sizes, fuel, quiet);
    let mut goings = Vec::new();
    let style = random.below(5);
    let count = if style == 0 { random.from(3, 40) } else { random.from(1, 5) };
    let mut undone: Vec<Change> = Vec::new();
    let mut idle = 0;
    for _ in 0..count {
        // A run that is over, or never began, is gone on with once or twice.
        idle += (state.last.nodes == 0 || state.last.number == 0) as usize;
        if idle > 2 {
            break;
        }
        let mut fuel = match style {
            0 => random.from(0, 2) as u32,
            _ => *random.pick(&[0, 1, 2, 5, 20, 100, 300, 1_000]),
        };
        let mut of_going = sizes;
        match random.below(8) {
            0 if style > 0 => of_going = ALL,
            1 if style > 0 => of_going.numbers = (10 * state.last.nodes + random.below(40)).min(NODE_NUMBERS),
            2 if style > 0 => of_going.places = (state.last.waiting + random.below(3)).saturating_sub(1).min(PLACES),
            3 if style > 0 => of_going.answer_bytes = random.below(40),
            4 if style == 1 => of_going.answer_bytes = 0,
            _ => {}
        }
        let mut changes = std::mem::take(&mut undone);
        changes.iter().for_each(|change| state.change(*change));
        if style >= 3 {
            for change in some_changes(random, &state, book, &of_going, &mut fuel) {
                undone.insert(0, state.back(change));
                state.change(change);
                changes.push(change);
            }
        }
        let other = (style == 2 && random.percent(50)).then(|| {
            let (_, other, _) = some_book(random);
            encode::book(if random.percent(50) { &other } else { book }).bytes
        });
        if random.percent(3) {
            fuel = u32::MAX - state.last.turns.min(u32::MAX - 3) - random.below(2) as u32;
            if ended.number == 20 || style >= 2 {
                fuel = 1;
            }
        }
        let told = if random.percent(10) { !row } else { row };
        let going = Going { row: told, sizes: of_going, fuel, changes, book: other };
        let (outcome, _) = state.go(bytes, &going, quiet);
        if outcome.number != 30 {
            undone.clear(); // it went on from there
        }
        goings.push(going);
    }
    Case { label: b"going".to_vec(), row, questions: questions.clone(), sizes, fuel, goings }
}

/// A table of a few cases.
pub fn make(seed: u64, number: u64) -> Made {
    let random = &mut Random::new(seed ^ 0x6019, number);
    let mut input = Vec::new();
    let mut kind = "empty";
    for _ in 0..random.from(1, 3) {
        let (made, book, top) = some_book(random);
        let bytes = encode::book(&book).bytes;
        let row = random.percent(40);
        let count = if row { random.from(1, 4) } else { 1 };
        let questions = sound_questions(random, &book, &top, count);
        if !row && questions[0].len() > 4_000 {
            continue;
        }
        let mut questions = Questions::of(&questions);
        if !row {
            questions.lengths.clear();
        }
        let mut group = Vec::new();
        put_lengthy(&mut group, &bytes);
        let count = random.from(1, 3);
        put_two(&mut group, count);
        for _ in 0..count {
            some_case(random, &book, &bytes, row, &questions).put(&mut group);
        }
        if input.len() + group.len() <= TABLE_BYTES {
            kind = made;
            input.extend(group);
        }
    }
    Made { kind, input, sound: true }
}
