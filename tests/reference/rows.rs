//! The rows file: records one after another until the end of input.

use crate::bytes::{four_bytes, two_bytes};

/// A row's bytes (whatever they are), the fuel and the lent store.
pub struct Row {
    pub bytes: Vec<u8>,
    pub fuel: u32,
    pub store: Vec<i32>,
}

/// The questions about a row and its store, in the order in which a row is asked all of them.
pub const QUESTIONS: &str = "crxt";

/// All questions: these, and the three about texts.
pub const ALL_QUESTIONS: &str = "crxtsnw";

/// The entries that a record may have.
pub const MOST_ENTRIES: usize = 1000;

/// A record: a row with its question, or why there is none.
pub enum Record {
    Asks(u8, Row),
    TooManyEntries(usize),
    Cut,
}

/// Bytes not yet read.
struct Rest<'a>(&'a [u8]);

impl<'a> Rest<'a> {
    /// The next bytes, if there are as many.
    fn take(&mut self, count: usize) -> Option<&'a [u8]> {
        if self.0.len() < count {
            return None;
        }
        let (taken, rest) = self.0.split_at(count);
        self.0 = rest;
        Some(taken)
    }

    fn two(&mut self) -> Option<usize> {
        Some(two_bytes(self.take(2)?, 0))
    }

    fn four(&mut self) -> Option<u32> {
        Some(four_bytes(self.take(4)?, 0))
    }

    /// The next record, if it is whole.
    fn record(&mut self) -> Option<Record> {
        let question = self.take(1)?[0];
        let length = self.two()?;
        let fuel = self.four()?;
        let entries = self.two()?;
        let store: Option<Vec<i32>> = (0..entries).map(|_| Some(self.four()? as i32)).collect();
        let row = Row { store: store?, bytes: self.take(length)?.to_vec(), fuel };
        Some(if entries > MOST_ENTRIES { Record::TooManyEntries(entries) } else { Record::Asks(question, row) })
    }
}

/// All records of a rows file. One that is cut is the last.
pub fn read_records(file: &[u8]) -> Vec<Record> {
    let mut rest = Rest(file);
    let mut records = Vec::new();
    while !rest.0.is_empty() {
        let Some(record) = rest.record() else {
            records.push(Record::Cut);
            break;
        };
        records.push(record);
    }
    records
}

/// The rows of a rows file, with their questions.
pub fn read_rows(file: &[u8]) -> Vec<(u8, Row)> {
    let row = |record| match record {
        Record::Asks(question, row) => Some((question, row)),
        _ => None,
    };
    read_records(file).into_iter().filter_map(row).collect()
}

fn two(count: usize) -> [u8; 2] {
    assert!(count < 65536, "a count doesn't fit 2 bytes");
    (count as u16).to_be_bytes()
}

/// The record that asks a question of a row.
pub fn record(question: u8, row: &Row) -> Vec<u8> {
    let mut out = vec![question];
    out.extend(two(row.bytes.len()));
    out.extend(row.fuel.to_be_bytes());
    out.extend(two(row.store.len()));
    for value in &row.store {
        out.extend(value.to_be_bytes());
    }
    out.extend(&row.bytes);
    out
}

/// A record for each of the questions.
pub fn records(questions: &str, row: &Row) -> Vec<u8> {
    questions.bytes().flat_map(|question| record(question, row)).collect()
}

/// The row as an input for `trace`: the routine, the fuel, m values (m is what
/// byte 3 says, 0 if there is no byte 3; zeros where the store has fewer).
pub fn trace_input(row: &Row) -> Vec<u8> {
    let m = row.bytes.get(3).copied().unwrap_or(0) as usize;
    let mut out = row.bytes.clone();
    out.extend(row.fuel.to_be_bytes());
    for l in 0..m {
        out.extend(row.store.get(l).copied().unwrap_or(0).to_be_bytes());
    }
    out
}

/// The record as an input for `trace`: the row's bytes, the fuel, and all the entries of the store, which need not be m.
pub fn whole_input(row: &Row) -> Vec<u8> {
    let mut out = row.bytes.clone();
    out.extend(row.fuel.to_be_bytes());
    for value in &row.store {
        out.extend(value.to_be_bytes());
    }
    out
}
