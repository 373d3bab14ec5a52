//! Records that are not answered: too many entries, questions that there are not, and at the very end a record that is cut. Between them stand
//! records that are answered, so that a reader who lost its place is seen.

use crate::build::*;
use crate::routine::store_routine;
use crate::rows::{record, Row, ALL_QUESTIONS, MOST_ENTRIES};

/// The row of 01's worked example, on a store of so many entries.
fn setting(entries: usize) -> Row {
    let mut store = vec![0; entries];
    store[0] = 1875;
    Row { bytes: store_routine(1, &assign(0, plus(deref(0), int(25)))), fuel: 10, store }
}

/// A record of that row; for `s` of its text, with just the room that the row needs, for `n` of the parts of its text, each once, and for `w` with just the room that
/// the text needs.
fn asks(question: u8, entries: usize) -> Vec<u8> {
    let mut row = setting(entries);
    match question {
        b's' => {
            row.fuel = row.bytes.len() as u32;
            row.bytes = b"(l0 := (!l0 + 25))".to_vec();
        }
        b'n' => {
            row.fuel = 1;
            row.bytes = b"(l0 := \0(!l0 + 25)\0)".to_vec();
        }
        b'w' => row.fuel = 18,
        _ => {}
    }
    record(question, &row)
}

/// A record for each question, of a row whose entries just have room, and of one with an entry more.
pub fn entries_at_limit() -> Vec<u8> {
    ALL_QUESTIONS.bytes().flat_map(|q| [asks(q, MOST_ENTRIES), asks(q, MOST_ENTRIES + 1), asks(q, 1)]).flatten().collect()
}

/// As many entries and bytes as a record can say.
fn largest() -> Vec<u8> {
    record(b'c', &Row { bytes: vec![0; 65_535], fuel: 0, store: vec![0; 65_535] })
}

/// Questions that there are not, in front of rows of every length, and one in front of too many entries.
pub fn unknown_questions() -> Vec<u8> {
    let empty = Row { bytes: vec![], fuel: 0, store: vec![] };
    let mut out = record(0, &empty);
    out.extend(record(b'C', &setting(1)));
    out.extend(record(b'\n', &setting(MOST_ENTRIES)));
    out.extend(record(255, &setting(MOST_ENTRIES + 1)));
    out.extend(record(b'c', &empty));
    out
}

/// A small record for each question.
pub fn small() -> Vec<u8> {
    ALL_QUESTIONS.bytes().flat_map(|q| asks(q, 1)).collect()
}

pub fn faults() -> Vec<u8> {
    let mut out = entries_at_limit();
    out.extend(largest());
    out.extend(unknown_questions());
    out.extend(small());
    out.pop();
    out
}
