//! Requests L7 (shorten chains of forwards) and L10 (use nodes again): which of them a run has.

use std::sync::atomic::{AtomicU8, Ordering};

#[derive(Clone, Copy, Debug, PartialEq, Eq)]
pub struct Requests {
    /// L7: "Following forwards now also points each forward of the chain at the final node".
    pub shorten: bool,
    /// L10: "nodes that no waiting entry can reach ... are dropped and the rest moved down in their old order".
    pub again: bool,
}

/// What the proved programs have; `--requests` takes its place.
pub const LANDED: Requests = Requests { shorten: false, again: false };

/// All four, for checks that hold in each.
#[cfg(test)]
pub const ALL: [Requests; 4] = [
    Requests { shorten: false, again: false },
    Requests { shorten: true, again: false },
    Requests { shorten: false, again: true },
    Requests { shorten: true, again: true },
];

impl Requests {
    /// `7`, `10`, `7,10`, or `none`.
    pub fn named(words: &str) -> Option<Requests> {
        let mut requests = Requests { shorten: false, again: false };
        if words == "none" {
            return Some(requests);
        }
        for word in words.split(',') {
            match word {
                "7" => requests.shorten = true,
                "10" => requests.again = true,
                _ => return None,
            }
        }
        Some(requests)
    }
}

const fn packed(requests: Requests) -> u8 {
    requests.shorten as u8 + 2 * requests.again as u8
}

static CURRENT: AtomicU8 = AtomicU8::new(packed(LANDED));

/// Set once, before anything runs.
pub fn set(requests: Requests) {
    CURRENT.store(packed(requests), Ordering::SeqCst);
}

/// The requests that every mode runs with.
pub fn current() -> Requests {
    let packed = CURRENT.load(Ordering::SeqCst);
    Requests { shorten: packed & 1 != 0, again: packed & 2 != 0 }
}
