//! Counts of what the own evaluator did: kinds of steps, result numbers, and where faults were found.

use std::collections::BTreeMap;

/// Names are counted as they come; a mode of the comparison lists those that it must have seen.
#[derive(Clone, Default)]
pub struct Seen {
    counts: BTreeMap<&'static str, u64>,
}

impl Seen {
    pub fn note(&mut self, name: &'static str) {
        *self.counts.entry(name).or_insert(0) += 1;
    }

    pub fn count(&self, name: &str) -> u64 {
        self.counts.get(name).copied().unwrap_or(0)
    }

    pub fn add(&mut self, other: &Seen) {
        for (name, n) in &other.counts {
            *self.counts.entry(name).or_insert(0) += n;
        }
    }

    /// The names that were counted.
    pub fn names(&self) -> impl Iterator<Item = &'static str> + '_ {
        self.counts.keys().copied()
    }
}

/// The kinds of steps of "One turn".
pub const STEPS: &[&str] = &[
    "fail goes",
    "decided choice left",
    "decided choice right",
    "split",
    "exempt step",
    "rewrite",
    "one-variable forward rewrite",
    "rewrite with a shared part on top",
    "forward rewrite to a shared part",
    "question with a shared part on top",
    "question that ends in a lone variable",
    "pull-up through a constructor, as a child",
    "pull-up through a constructor, as a child behind another",
    "pull-up through a constructor, in a branch",
    "pull-up through an operation",
    "operation made a fail by a failed branch variable",
    "entry ends by a failed child",
    "entry ends by a failed child behind another",
    "answer written",
];

/// The numbers of "Numbers returned" that `expand` can print, and `J`.
pub const RESULTS: &[&str] = &[
    "result 0",
    "result 1",
    "result 2",
    "result 3",
    "result 4",
    "result 5",
    "result 11",
    "result 12",
    "result 13",
    "result 14",
    "result 15",
    "result 20",
    "result 21",
    "result 22",
    "result 23",
    "result 24",
    "result 25",
    "result J",
];

/// The name of a result number in the list above.
pub fn result_name(number: u8) -> &'static str {
    let wanted = format!("result {number}");
    RESULTS.iter().find(|name| **name == wanted).expect("a number of the document")
}

/// Where a fault of the book or question was met: one name for each row of the table's text.
pub const FAULTS: &[&str] = &[
    "fault book 1 over its size",
    "fault book 1 needed byte",
    "fault book 1 length past",
    "fault book 1 left over",
    "fault book 2 version",
    "fault book 3 no symbols",
    "fault book 3 1,025th symbol",
    "fault book 3 symbol length",
    "fault book 3 kind",
    "fault book 3 sort",
    "fault book 3 sort of a shared part",
    "fault book 4 tree code",
    "fault book 4 exempt in version 2",
    "fault book 4 expression code",
    "fault book 4 code 4 in version 1",
    "fault book 4 33rd variable",
    "fault book 4 symbol not there",
    "fault book 4 variable not there, expression",
    "fault book 4 variable not there, branch",
    "fault book 4 branched on twice",
    "fault book 4 binds past 32",
    "fault book 4 65th node",
    "fault book 5 apply",
    "fault book 5 variable",
    "fault question 1 over its size",
    "fault question 1 needed byte",
    "fault question 1 length past",
    "fault question 1 left over",
    "fault question 2 version",
    "fault question 3 sort",
    "fault question 3 sort of a shared part",
    "fault question 4 expression code",
    "fault question 4 code 4 in version 1",
    "fault question 4 33rd variable",
    "fault question 4 symbol not there",
    "fault question 4 variable not there, expression",
    "fault question 4 65th node",
    "fault question 5 apply",
    "fault question 5 variable",
];

/// The refusals of the turns by what asked for the room.
pub const REFUSALS: &[&str] = &[
    "refused 21 rewrite",
    "refused 21 rewrite that also needs choices past 256",
    "refused 21 pull-up",
    "refused 22",
    "refused 23 split",
    "refused 24 the 4,097th arrival",
    "refused 24 256 arrows down, as a child",
    "refused 24 256 arrows down, in a branch",
    "refused 25 record",
];

/// With request L7.
pub const SHORTEN: &[&str] = &["forward shortened"];

/// With request L10. "refused 22 after a drop" is too rare by chance; the tables have it.
pub const AGAIN: &[&str] = &["nodes dropped", "no node to drop", "rewrite after a drop", "pull-up after a drop"];
