//! "Sizes" of document 01, and of request L3.

pub const BOOK_BYTES: usize = 32_768;
pub const QUESTION_BYTES: usize = 4_096;
pub const SYMBOLS: usize = 1_024;
pub const VARIABLES: usize = 32;
pub const EXPRESSION_NODES: usize = 64;
pub const NODES: usize = 3_200;
pub const CHOICES: usize = 256;
pub const ENTRIES: usize = 64;
pub const ARRIVALS: usize = 4_096;
pub const ARROWS_DOWN: usize = 255;

/// Request L3: "a row of up to 32 lengths".
pub const QUESTIONS: usize = 32;

/// "The book and the question, as bytes": sorts are 0 to 63, a symbol's length is 2 to 10.
pub const HIGHEST_SORT: u8 = 63;
pub const SYMBOL_LENGTHS: std::ops::RangeInclusive<usize> = 2..=10;

/// "Nodes and entries": ten 16-bit numbers to a node, eight of them arrows.
pub const NODE_NUMBERS: usize = 10;
pub const ARROWS: usize = 8;

/// "Program `expand` ... has 3,200 nodes, 64 places, 16,384 answer bytes."
pub const EXPAND_NODES: usize = 3_200;
pub const EXPAND_PLACES: usize = 64;
pub const EXPAND_ANSWER_BYTES: usize = 16_384;
