//! Program `admissions`: a table of books and questions. For each a line with number, place (0 0: both admitted) and label.
//! `tools/admission_cases.py` makes the table, with what was worked out by hand.

use crate::admit;
use crate::lent::lengthy;
use crate::seen::Seen;

/// The lines of a whole table; None where it is cut short.
pub fn admissions(table: &[u8]) -> Option<String> {
    let mut rest = table;
    let mut text = String::new();
    while !rest.is_empty() {
        let label = String::from_utf8_lossy(lengthy(&mut rest)?);
        let book = lengthy(&mut rest)?;
        let question = lengthy(&mut rest)?;
        let (number, place) = match admit::both(book, question, &mut Seen::default()) {
            Ok(_) => (0, 0),
            Err(fault) => (fault.number, fault.place),
        };
        text.push_str(&format!("{number} {place} {label}\n"));
    }
    Some(text)
}
