//! `answers`: the lines for each record of a rows file. A record is asked one question: `c` check, `r` run, `x` text, `t` trace, `s` store, `n` store a
//! long text, `w` write.

use crate::long;
use crate::reading;
use crate::refusal::Refusal;
use crate::rows::{self, Record, Row};
use crate::run;
use crate::trace;
use crate::typing::{self, Type};
use std::io::{self, Write};

/// The first room of a text, and the most that a record lends.
const LARGE_ROOM: usize = 65_536;

pub fn answers(file: &[u8], out: &mut impl Write) -> io::Result<()> {
    rows::read_records(file).iter().try_for_each(|record| answer(record, out))
}

fn answer(record: &Record, out: &mut impl Write) -> io::Result<()> {
    match record {
        Record::Asks(b'c', row) => line(check_line(row), out),
        Record::Asks(b'r', row) => line(run_line(row), out),
        Record::Asks(b'x', row) => text_lines(row, out),
        Record::Asks(b't', row) => trace::trace(&rows::whole_input(row), out),
        Record::Asks(b's', row) => line(store_line(row), out),
        Record::Asks(b'n', row) => line(long_line(row), out),
        Record::Asks(b'w', row) => line(write_line(row), out),
        Record::Asks(question, _) => writeln!(out, "unknown question {question}"),
        Record::TooManyEntries(entries) => writeln!(out, "too many entries {entries}"),
        Record::Cut => writeln!(out, "cut record"),
    }
}

fn line(answer: Result<String, Refusal>, out: &mut impl Write) -> io::Result<()> {
    match answer {
        Ok(told) => writeln!(out, "{told}"),
        Err(refusal) => writeln!(out, "{refusal}"),
    }
}

fn check_line(row: &Row) -> Result<String, Refusal> {
    let told = typing::check(&row.bytes)?;
    let name = match told.the_type {
        Type::Int => "int",
        Type::Bool => "bool",
        Type::Unit => "unit",
    };
    Ok(format!("{name} {} {} {}", told.w, told.reads, told.writes))
}

fn run_line(row: &Row) -> Result<String, Refusal> {
    let mut store = row.store.clone();
    let run = run::run(&row.bytes, &mut store, row.fuel)?;
    Ok(format!("{run} |{}", trace::entries_text(&store)))
}

fn text_line(row: &Row, room: usize) -> Result<String, Refusal> {
    let (text, steps) = run::text_after(&row.bytes, &row.store, row.fuel, room)?;
    Ok(format!("{} {steps} {text}", text.len()))
}

/// The text after as many steps as the row's fuel, in a large room, and where one was written, with a byte too little room and with just enough.
fn text_lines(row: &Row, out: &mut impl Write) -> io::Result<()> {
    let mut rooms = vec![LARGE_ROOM];
    if let Ok((text, _)) = run::text_after(&row.bytes, &row.store, row.fuel, LARGE_ROOM) {
        rooms.extend([text.len() - 1, text.len()]);
    }
    rooms.into_iter().try_for_each(|room| line(text_line(row, room), out))
}

/// The room that the row's fuel says.
fn lent(row: &Row) -> usize {
    (row.fuel as usize).min(LARGE_ROOM)
}

/// The row's bytes are a text, and m is the number of its entries.
fn store_line(row: &Row) -> Result<String, Refusal> {
    stored_line(&row.bytes, row.store.len(), lent(row))
}

fn stored_line(text: &[u8], m: usize, room: usize) -> Result<String, Refusal> {
    let stored = reading::store(text, m, room)?;
    let digits: String = stored.iter().map(|byte| format!("{byte:02x}")).collect();
    Ok(format!("{} {digits}", stored.len()))
}

/// The row's bytes are the parts of a text, and the fuel is k.
fn long_line(row: &Row) -> Result<String, Refusal> {
    match long::text(&row.bytes, row.fuel) {
        Ok(text) => stored_line(&text, row.store.len(), LARGE_ROOM),
        Err(length) => Ok(format!("too long {length}")),
    }
}

fn write_line(row: &Row) -> Result<String, Refusal> {
    let text = reading::write(&row.bytes, lent(row))?;
    Ok(format!("{} {text}", text.len()))
}
