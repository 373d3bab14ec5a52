//! The programs `store` and `show`: what each writes for its words and its input; and the runs of them that are compared.

use crate::build;
use crate::cases::cases;
use crate::expr::text;
use crate::nests::{deepest, list, skips};
use crate::reading;
use crate::refusal::Refusal;
use crate::textcases::text_cases;
use std::collections::HashSet;

/// The bytes of text that `store` takes.
const MOST_TEXT: usize = 1_048_576;

/// No text of a row is longer.
const MOST_WRITTEN: usize = 65_536;

/// A line for standard error, in whose place nothing stands on standard output. Of `usage:` and of a text that is too long only the kind of line is told.
pub type Said = String;

const USAGE: &str = "usage:";

/// m, and the fuel and the m values that stand behind the row, if they are asked.
struct Asked {
    m: usize,
    behind: Vec<u8>,
}

/// `store M [FUEL V0 V1 ..]`: the row of the text, and what `trace` reads behind it.
pub fn store(words: &[&str], input: &[u8]) -> Result<Vec<u8>, Said> {
    let asked = asked(words).ok_or_else(|| USAGE.to_string())?;
    let text = input.strip_suffix(b"\n").unwrap_or(input);
    if text.len() > MOST_TEXT {
        return Err("store: the text is too long".to_string());
    }
    let row = reading::store(text, asked.m, usize::MAX).map_err(said)?;
    Ok([row, asked.behind].concat())
}

/// `show`: the text of the row and a line end.
pub fn show(words: &[&str], row: &[u8]) -> Result<Vec<u8>, Said> {
    if !words.is_empty() {
        return Err(USAGE.to_string());
    }
    let text = reading::write(row, MOST_WRITTEN).map_err(said)?;
    Ok((text + "\n").into_bytes())
}

fn asked(words: &[&str]) -> Option<Asked> {
    let (m, rest) = words.split_first()?;
    // an m that is large beyond 64 bits is as any over 64
    let m = digits(m)?.parse().unwrap_or(usize::MAX);
    let mut behind = Vec::new();
    if let Some((fuel, values)) = rest.split_first() {
        if values.len() != m {
            return None;
        }
        behind.extend(digits(fuel)?.parse::<u32>().ok()?.to_be_bytes());
        for value in values {
            digits(value.strip_prefix('-').unwrap_or(value))?;
            behind.extend(value.parse::<i32>().ok()?.to_be_bytes());
        }
    }
    Some(Asked { m, behind })
}

/// The word, if it is one digit or more and nothing else.
fn digits(word: &str) -> Option<&str> {
    (!word.is_empty() && word.bytes().all(|byte| byte.is_ascii_digit())).then_some(word)
}

/// Here the bytes needed are told with ` at` as well.
fn said(refusal: Refusal) -> Said {
    match refusal {
        Refusal::Plain(c) => format!("refused {c}"),
        Refusal::At(c, n) | Refusal::Needs(c, n) => format!("refused {c} at {n}"),
    }
}

/// A run of a program: its name and words, with a space between them, and its input.
pub struct ProgramRun {
    pub words: String,
    pub input: Vec<u8>,
}

/// The bytes of the longest named text that is stored by a program of its own.
const SHORT: usize = 4000;

/// Each short named text without a line end; with one or with two every third, and each that is accepted, with values too.
fn stored_texts() -> Vec<ProgramRun> {
    let mut seen = HashSet::new();
    let mut runs = Vec::new();
    for case in text_cases().iter().filter(|case| case.question == b's' && case.row.bytes.len() <= SHORT) {
        let m = case.row.store.len();
        if !seen.insert((case.row.bytes.clone(), m)) {
            continue;
        }
        let accepted = reading::store(&case.row.bytes, m, usize::MAX).is_ok();
        let mut add = |words: String, end: &str| runs.push(ProgramRun { words, input: [&case.row.bytes, end.as_bytes()].concat() });
        add(format!("store {m}"), "");
        if accepted || seen.len() % 3 == 0 {
            add(format!("store {m}{}", fuel_and_values(m, seen.len())), "\n");
        }
        if accepted || seen.len() % 3 == 1 {
            add(format!("store {m}"), "\n\n");
        }
    }
    runs
}

/// A fuel and m values, the ends of their ranges among them.
fn fuel_and_values(m: usize, turn: usize) -> String {
    let fuel = [0, 1, 100, 255, 256, 65_536, 2147483648, u32::MAX][turn % 8];
    let value = |l: usize| [0, -1, 1875, i32::MIN, i32::MAX, 256, -256, 65_536, -65_537][(turn + l) % 9];
    let values: String = (0..m).map(|l| format!(" {}", value(l))).collect();
    format!(" {fuel}{values}")
}

/// The largest m with its values, and one more; other line ends; the longest text that is taken, and longer ones, which are never taken for the shorter one that they
/// begin with.
fn other_texts() -> Vec<ProgramRun> {
    let run = |words: &str, input: Vec<u8>| ProgramRun { words: words.to_string(), input };
    // 131,071 assignments of 8 bytes, and 8 more
    let chain = ["(l0 := ".repeat(131_071), "-1234567".to_string(), ")".repeat(131_071)].concat();
    assert_eq!(chain.len(), MOST_TEXT);
    let with = |end: &str| (chain.clone() + end).into_bytes();
    let opened = |count: usize| vec![b'('; count];
    let skip = [b"skip".to_vec(), vec![b'\n'; MOST_TEXT]].concat();
    vec![
        run(&format!("store 64{}", fuel_and_values(64, 3)), b"!l255".to_vec()),
        run(&format!("store 65{}", fuel_and_values(65, 3)), b"!l255".to_vec()),
        run("store 65 10", b"skip".to_vec()),
        run("store 0", b"\n".to_vec()),
        run("store 0", b"7\r\n".to_vec()),
        run("store 1", with("")),
        run("store 1", with("\n")),
        run("store 1", with("\n\n")),
        run("store 1", with(")")),
        run("store 1", opened(MOST_TEXT)),
        run("store 1", opened(MOST_TEXT + 1)),
        run("store 1", opened(3 * MOST_TEXT)),
        run("store 1", skip),
        run("store 3", text(&list(1300)).into_bytes()),
        run("store 3 5 0 0 0", (text(&list(1365)) + "\n").into_bytes()),
        run("store 0", text(&skips(2047, build::skip())).into_bytes()),
        run("store 0", text(&skips(2048, build::skip())).into_bytes()),
        run("store 1 1 1", text(&deepest()).into_bytes()),
    ]
}

/// The rows of `w` and those of the course; a row with what `trace` reads behind it; and rows about the longest that bytes 0-1 can count.
fn shown_rows() -> Vec<ProgramRun> {
    let named = text_cases().into_iter().filter(|case| case.question == b'w').map(|case| case.row.bytes);
    let course = cases().into_iter().take(15).map(|case| case.row.bytes);
    let mut rows: Vec<Vec<u8>> = named.chain(course).collect();
    rows.push([&rows[0][..], &[0, 0, 0, 10, 0, 0, 7, 83]].concat());
    rows.push([&rows[0][..], b"\n"].concat());
    for length in [65_537, 65_538, 200_000] {
        let mut row = vec![255, 255, 1, 0, 16, 0];
        row.resize(length, 0);
        rows.push(row);
    }
    let mut seen = HashSet::new();
    rows.retain(|row| seen.insert(row.clone()));
    rows.into_iter().map(|row| ProgramRun { words: "show".to_string(), input: row }).collect()
}

pub fn runs() -> Vec<ProgramRun> {
    let mut all = stored_texts();
    all.extend(other_texts());
    all.extend(shown_rows());
    all
}
