//! An independent reference for L1 as 01 fixes it. See README.md.

mod answers;
mod build;
mod bytes;
mod cases;
mod chains;
mod damaged;
mod deep;
mod edges;
mod expr;
mod faults;
mod form;
mod generate;
mod good;
mod illtyped;
mod inputs;
mod limits;
mod long;
mod nests;
mod programs;
mod random;
mod reading;
mod refusal;
mod routine;
mod rows;
mod run;
mod spoilt;
mod step;
mod textcases;
mod texts;
mod trace;
mod typing;

#[cfg(test)]
mod counttests;
#[cfg(test)]
mod definition;
#[cfg(test)]
mod parse;
#[cfg(test)]
mod tests;
#[cfg(test)]
mod texttests;

use rows::{read_rows, ALL_QUESTIONS, QUESTIONS};
use std::io::{self, BufWriter, Read, Write};
use textcases::{text_cases, TextCase};

/// Room for what recurs over a tree: one of 4,096 nodes may be thousands deep.
const STACK: usize = 256 << 20;

/// Does the work on a stack of that room.
fn with_room<T: Send>(work: impl FnOnce() -> T + Send) -> T {
    std::thread::scope(|scope| {
        let thread = std::thread::Builder::new().stack_size(STACK).spawn_scoped(scope, work).unwrap();
        thread.join().unwrap_or_else(|panic| std::panic::resume_unwind(panic))
    })
}

fn main() {
    let arguments: Vec<String> = std::env::args().skip(1).collect();
    let words: Vec<&str> = arguments.iter().map(String::as_str).collect();
    let written = with_room(|| {
        let mut out = BufWriter::new(io::stdout().lock());
        obey(&words, &mut out).and_then(|()| out.flush())
    });
    if written.is_err() {
        std::process::exit(1);
    }
}

fn obey(words: &[&str], out: &mut impl Write) -> io::Result<()> {
    match words {
        ["answers"] => answers::answers(&input(u64::MAX)?, out),
        ["store", rest @ ..] => program(programs::store(rest, &input(u64::MAX)?), out),
        ["show", rest @ ..] => program(programs::show(rest, &input(u64::MAX)?), out),
        ["runs"] => programs::runs().iter().try_for_each(|run| writeln!(out, "{}", run.words)),
        ["runinputs", folder] => programs::runs().iter().enumerate().try_for_each(|(i, run)| std::fs::write(format!("{folder}/{i}"), &run.input)),
        ["trace"] => trace::trace(&input(trace::MOST_INPUT as u64)?, out),
        ["traceinput", i] => {
            let rows = read_rows(&input(u64::MAX)?);
            out.write_all(&rows::trace_input(&rows[number(i) as usize].1))
        }
        ["short", bytes, printed] => short_rows(number(bytes) as usize, number(printed) as usize, out),
        ["cases"] => write_cases(ALL_QUESTIONS, out),
        ["cases", questions] => write_cases(questions, out),
        ["lines", questions] => write_lines(questions, out),
        ["deep", questions] => out.write_all(&deep::deep_records(questions)),
        ["deeplines"] => deep::deep_rows().iter().try_for_each(|row| writeln!(out, "{}", row.line)),
        ["deepruns"] => out.write_all(&deep::run_records()),
        ["deeptraces"] => out.write_all(&deep::trace_records()),
        ["deepnames"] => deep::names().iter().try_for_each(|name| writeln!(out, "{name}")),
        ["deepgate", question] => out.write_all(&deep::gate_records(question.as_bytes()[0])),
        ["names"] => cases::cases().iter().try_for_each(|case| writeln!(out, "{}", case.name)),
        ["faults"] => out.write_all(&faults::faults()),
        ["small"] => out.write_all(&faults::small()),
        ["generate", kind, seed, count] => generate::generate(kind, number(seed), number(count), QUESTIONS, out),
        ["generate", kind, seed, count, questions] => generate::generate(kind, number(seed), number(count), questions, out),
        _ => usage(),
    }
}

fn usage() -> ! {
    eprintln!("answers | trace | store WORDS | show WORDS | runs | runinputs FOLDER | traceinput I | short BYTES PRINTED | cases [QUESTIONS] | lines QUESTIONS | names | deep QUESTIONS | deepnames | deepruns | deeplines | deeptraces | deepgate QUESTION | faults | small | generate KIND SEED COUNT [QUESTIONS]");
    std::process::exit(2)
}

fn number(word: &str) -> u64 {
    word.parse().unwrap_or_else(|_| usage())
}

fn input(most: u64) -> io::Result<Vec<u8>> {
    let mut bytes = Vec::new();
    io::stdin().lock().take(most).read_to_end(&mut bytes)?;
    Ok(bytes)
}

/// What a program writes, on standard output or on standard error.
fn program(written: Result<Vec<u8>, programs::Said>, out: &mut impl Write) -> io::Result<()> {
    match written {
        Ok(bytes) => out.write_all(&bytes),
        Err(said) => writeln!(io::stderr(), "{said}"),
    }
}

/// The named rows, each asked those of the questions that are about a row and its store; behind them the named texts and rows of `s`, `n` and `w`, if they are asked.
fn write_cases(questions: &str, out: &mut impl Write) -> io::Result<()> {
    let of_rows: String = questions.chars().filter(|&q| QUESTIONS.contains(q)).collect();
    cases::cases().iter().try_for_each(|case| out.write_all(&rows::records(&of_rows, &case.row)))?;
    asked_cases(questions).try_for_each(|case| out.write_all(&rows::record(case.question, &case.row)))
}

/// The lines of the named texts and rows, as they were worked out by hand.
fn write_lines(questions: &str, out: &mut impl Write) -> io::Result<()> {
    asked_cases(questions).try_for_each(|case| writeln!(out, "{}", case.line))
}

fn asked_cases(questions: &str) -> impl Iterator<Item = TextCase> + '_ {
    text_cases().into_iter().filter(|case| questions.contains(case.question as char))
}

/// The records of at most so many bytes whose lines have at most so many.
fn short_rows(bytes: usize, printed: usize, out: &mut impl Write) -> io::Result<()> {
    for (question, row) in read_rows(&input(u64::MAX)?) {
        let record = rows::record(question, &row);
        if record.len() > bytes {
            continue;
        }
        let mut lines = Vec::new();
        answers::answers(&record, &mut lines)?;
        if lines.len() <= printed {
            out.write_all(&record)?;
        }
    }
    Ok(())
}
