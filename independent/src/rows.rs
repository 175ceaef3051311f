//! Program `rows` (request L3): a table of runs over rows of questions, each over memory that is longer than what is lent of it.
//! `tools/row_cases.py` makes the table and says what it holds and what is printed.

use crate::admit::{Book, Expression};
use crate::edges::about;
use crate::encode;
use crate::evaluator::{node_room, start, Asked, Memory, Outcome};
use crate::expand::answer_lines;
use crate::lent::{
    four, lengthy, put_lengthy, put_two, two, Sizes, Whole, ANSWER_BYTES, NODE_NUMBERS, PLACES, TABLE_BYTES,
};
use crate::make::{self, Made};
use crate::random::Random;
use crate::requests::{self, Requests};
use crate::seen::Seen;
use crate::sizes::*;
use crate::special;
use crate::text::items;

/// A row of lengths and the questions' bytes, as a table has them.
#[derive(Clone, Debug, Default)]
pub struct Questions {
    pub lengths: Vec<u16>,
    pub bytes: Vec<u8>,
}

impl Questions {
    pub fn of(questions: &[Vec<u8>]) -> Questions {
        let lengths = questions.iter().map(|question| question.len() as u16).collect();
        Questions { lengths, bytes: questions.concat() }
    }

    pub fn asked(&self) -> Asked<'_> {
        Asked::Row(&self.lengths, &self.bytes)
    }

    /// The count of lengths, the lengths, and the bytes behind their length: two bytes each.
    pub fn read(rest: &mut &[u8]) -> Option<Questions> {
        let count = two(rest)?;
        let lengths = (0..count).map(|_| two(rest).map(|length| length as u16)).collect::<Option<Vec<u16>>>()?;
        Some(Questions { lengths, bytes: lengthy(rest)?.to_vec() })
    }

    pub fn put(&self, out: &mut Vec<u8>) {
        put_two(out, self.lengths.len());
        for length in &self.lengths {
            put_two(out, *length as usize);
        }
        put_lengthy(out, &self.bytes);
    }
}

/// The lines of a call: the result, its answers (`count` of them stand in the memory), and the checksums.
pub fn call_lines(outcome: &Outcome, count: usize, row: bool, whole: &Whole) -> String {
    let mut text = format!("R{}\n", items(&outcome.numbers()));
    answer_lines(&whole.0.answers, count, row, &mut text);
    text.push_str(&whole.sums(true));
    text.push('\n');
    text
}

/// Counts a result for the comparison's report.
pub fn note_result(outcome: &Outcome, seen: &mut Seen) {
    let loading = if outcome.number > 20 && outcome.number < 30 && outcome.nodes == 0 { "loading" } else { "result" };
    let wanted = format!("{loading} {}", outcome.number);
    seen.note(RESULTS.iter().find(|name| **name == wanted).expect("a number of the documents"));
    if outcome.question > 0 {
        seen.note("fault of a question behind the first");
    }
}

/// The lines of a whole table.
pub fn program(input: &[u8], seen: &mut Seen) -> (String, Option<u8>) {
    let mut rest = input;
    let mut text = String::new();
    while !rest.is_empty() {
        text.push_str(&group(&mut rest, seen).expect("a whole table"));
    }
    (text, Some(0))
}

/// A book and the rows over it.
fn group(rest: &mut &[u8], seen: &mut Seen) -> Option<String> {
    let book = lengthy(rest)?;
    let mut text = String::new();
    for _ in 0..two(rest)? {
        let label = String::from_utf8_lossy(lengthy(rest)?);
        let sizes = Sizes::read(rest)?;
        let fuel = four(rest)?;
        let questions = Questions::read(rest)?;
        let mut whole = Whole::marked();
        let call = |memory: &mut Memory| start(requests::current(), book, questions.asked(), fuel, memory, seen);
        let outcome = whole.lend(&sizes, call);
        note_result(&outcome, seen);
        text.push_str(&format!("{label}\n{}", call_lines(&outcome, outcome.answers, true, &whole)));
    }
    Some(text)
}

/// The numbers that a run over a row or a going on may give.
pub const RESULTS: &[&str] = &[
    "result 0",
    "result 1",
    "result 2",
    "result 3",
    "result 4",
    "result 5",
    "result 11",
    "result 12",
    "result 13",
    "result 14",
    "result 15",
    "result 16",
    "result 20",
    "result 21",
    "result 22",
    "result 23",
    "result 24",
    "result 25",
    "loading 21",
    "loading 22",
    "loading 23",
    "loading 25",
    "result 30",
];

/// Those of a run over a row.
pub const ROW_RESULTS: &[&str] = RESULTS.split_at(RESULTS.len() - 1).0;

pub const SEEN: &[&str] = &["fault of a question behind the first"];

/// The least node room in which a run ends as in all of it, with these requests; 0 if loading is refused in any.
pub fn least_room(requests: Requests, book: &[u8], asked: Asked, fuel: u32) -> usize {
    let ends = |room: usize| {
        let mut memory = Memory::sized(room, ENTRIES, ANSWER_BYTES);
        let outcome = start(requests, book, asked, fuel, &mut memory, &mut Seen::default());
        (outcome.number, outcome.turns)
    };
    let wanted = ends(NODES);
    let (mut low, mut high) = (0, NODES);
    while low < high {
        let middle = (low + high) / 2;
        if ends(middle) == wanted {
            high = middle;
        } else {
            low = middle + 1;
        }
    }
    high
}

/// Memory lent about as far as a run needs it, by what it used when it had all.
pub fn some_sizes(random: &mut Random, book: &[u8], asked: Asked, fuel: u32) -> Sizes {
    let mut memory = Memory::sized(NODES, ENTRIES, ANSWER_BYTES);
    let fuel = fuel.min(make::FAR);
    let requests = requests::current();
    let outcome = start(requests, book, asked, fuel, &mut memory, &mut Seen::default());
    let mut nodes = about(random, outcome.nodes, NODE_NUMBERS / 10);
    if requests.again && random.percent(35) {
        // Where nodes are used again, about the least room.
        let least = least_room(requests, book, asked, fuel.min(600));
        nodes = (least + random.below(5)).saturating_sub(2).min(node_room(&memory));
    }
    let asks = match asked {
        Asked::One(_) => 1,
        Asked::Row(lengths, _) => lengths.len(),
    };
    let most = outcome.waiting.max(asks).max(2) + 1;
    let used = memory.answers.iter().rposition(|byte| *byte != 0).map_or(0, |last| last + 1);
    Sizes {
        numbers: (nodes * 10 + random.below(10)).min(NODE_NUMBERS),
        places: about(random, most, PLACES),
        answer_bytes: about(random, used, ANSWER_BYTES),
    }
}

/// How many questions a row has.
fn some_count(random: &mut Random) -> usize {
    match random.below(20) {
        0 => 0,
        1 => random.from(33, 40),
        2 | 3 => random.from(30, 32),
        4 | 5 => random.from(5, 29),
        6..=8 => 1,
        _ => random.from(2, 4),
    }
}

/// A sound book, and a question that its maker has for it.
pub fn some_book(random: &mut Random) -> (&'static str, Book, Option<Expression>) {
    if random.percent(45) {
        let (kind, book, top) = make::some_special(random);
        return (kind, book, Some(top));
    }
    ("well-sorted", make::some_book(random), None)
}

/// Sound questions of a book; now and then one of them several times.
pub fn sound_questions(random: &mut Random, book: &Book, top: &Option<Expression>, count: usize) -> Vec<Vec<u8>> {
    let mut questions: Vec<Vec<u8>> = Vec::new();
    for _ in 0..count {
        let made = match top {
            Some(top) if random.percent(60) => make::some_version(random, book, 0, top.clone()).encoded().bytes,
            _ if !questions.is_empty() && random.percent(20) => random.pick(&questions).clone(),
            _ => make::asked(random, book).encoded().bytes,
        };
        questions.push(made);
    }
    questions
}

/// Questions whose choices are together about 256, and which answer or fail at once.
fn choosy(random: &mut Random) -> (Book, Vec<Vec<u8>>) {
    let book = special::numbers();
    let total = random.from(252, 260);
    let mut left = total;
    let mut questions = Vec::new();
    while left > 0 {
        let most = if questions.len() == 31 { left } else { random.from(4, 31).min(left) };
        left -= most;
        let value = special::leaf(special::Z);
        let choice = (0..most).fold(value, |rest, n| {
            if n % 3 == 0 {
                special::or(rest, Expression::Fail)
            } else {
                special::or(Expression::Fail, rest)
            }
        });
        questions.push(make::some_version(random, &book, 0, choice).encoded().bytes);
    }
    questions.truncate(34);
    (book, questions)
}

/// What is wrong with the row's bytes and lengths.
fn damage(random: &mut Random, row: &mut Questions) {
    match random.below(6) {
        0 => row.bytes.truncate(row.bytes.len().saturating_sub(random.from(1, 9))),
        1 => row.bytes.extend(vec![random.byte(); random.from(1, 9)]),
        2 => {
            let length = random.below(row.bytes.len() + 1);
            row.bytes.truncate(length);
        }
        _ if row.lengths.is_empty() => {}
        3 => {
            let place = random.below(row.lengths.len());
            let old = row.lengths[place];
            row.lengths[place] = *random.pick(&[0, old.wrapping_sub(1), old.wrapping_add(1), 4_096, 4_097, 65_535]);
        }
        4 => {
            // One byte from a question to its neighbour.
            let place = random.below(row.lengths.len());
            let next = (place + 1) % row.lengths.len();
            row.lengths[place] = row.lengths[place].wrapping_add(1);
            row.lengths[next] = row.lengths[next].wrapping_sub(1);
        }
        _ => {
            // Lengths whose sum would come round to the bytes' count.
            let count = row.lengths.len();
            row.lengths.fill(65_535);
            row.lengths[count - 1] = (row.bytes.len() + count - 1) as u16;
        }
    }
}

/// A book and a row of questions: sound, or wrong in one of the ways that a refusal names.
fn some_row(random: &mut Random) -> (&'static str, Vec<u8>, Questions) {
    let of = |book: &Book, questions: &[Vec<u8>]| (encode::book(book).bytes, Questions::of(questions));
    match random.weighted(&[40, 22, 14, 8, 10]) {
        0 => {
            let (kind, book, top) = some_book(random);
            let count = some_count(random);
            let (bytes, row) = of(&book, &sound_questions(random, &book, &top, count));
            (kind, bytes, row)
        }
        1 => {
            let (_, book, top) = some_book(random);
            let count = some_count(random);
            let mut questions = sound_questions(random, &book, &top, count);
            for _ in 0..random.from(1, 2) {
                if count > 0 {
                    let bad = make::damaged_question_of(random, &book);
                    questions[random.below(count)] = bad;
                }
            }
            let (bytes, row) = of(&book, &questions);
            ("row with a damaged question", bytes, row)
        }
        2 => {
            let (_, book, top) = some_book(random);
            let count = some_count(random);
            let (bytes, mut row) = of(&book, &sound_questions(random, &book, &top, count));
            damage(random, &mut row);
            ("damaged row", bytes, row)
        }
        3 => {
            let (book, question) = make::damaged_book(random);
            let count = some_count(random);
            ("row for a damaged book", book, Questions::of(&vec![question; count]))
        }
        _ => {
            let (book, questions) = choosy(random);
            let (bytes, row) = of(&book, &questions);
            ("choices of a row", bytes, row)
        }
    }
}

/// A table of a few runs over rows.
pub fn make(seed: u64, number: u64) -> Made {
    let random = &mut Random::new(seed ^ 0x2085, number);
    let mut input = Vec::new();
    let mut kind = "empty";
    for _ in 0..random.from(1, 3) {
        let (made, book, row) = some_row(random);
        let mut group = Vec::new();
        put_lengthy(&mut group, &book);
        let count = random.from(1, 2);
        put_two(&mut group, count);
        let mut memory = Memory::sized(NODES, ENTRIES, ANSWER_BYTES);
        let ended = start(requests::current(), &book, row.asked(), make::FAR, &mut memory, &mut Seen::default());
        for _ in 0..count {
            let fuel = make::fuel_about(random, &ended);
            put_lengthy(&mut group, b"row");
            let mut sizes = some_sizes(random, &book, row.asked(), fuel);
            if made == "choices of a row" && random.percent(60) {
                sizes.numbers = NODE_NUMBERS;
            }
            sizes.put(&mut group);
            group.extend(fuel.to_be_bytes());
            row.put(&mut group);
        }
        if row.bytes.len() < 65_536 && input.len() + group.len() <= TABLE_BYTES {
            kind = made;
            input.extend(group);
        }
    }
    Made { kind, input, sound: true }
}
