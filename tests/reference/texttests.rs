//! Run by `rustc --test`: what request 1 says of texts, on the named ones, on all short ones, and on generated ones.

use crate::answers::answers;
use crate::definition::{all_texts, offset};
use crate::form::form;
use crate::generate::a_row;
use crate::long;
use crate::programs;
use crate::random::Random;
use crate::reading::{store, write};
use crate::refusal::Refusal::{At, Needs, Plain};
use crate::routine::read;
use crate::rows::{record, Row};
use crate::textcases::text_cases;
use crate::with_room;
use std::collections::HashSet;

fn some_rows(kind: &str, count: usize) -> Vec<Row> {
    let mut random = Random::new(11);
    (0..count).map(|_| a_row(kind, &mut random)).collect()
}

#[test]
fn named_texts_have_their_lines() {
    with_room(|| {
        for case in text_cases() {
            let mut line = Vec::new();
            answers(&record(case.question, &case.row), &mut line).unwrap();
            assert_eq!(String::from_utf8(line).unwrap(), case.line + "\n", "{}", String::from_utf8_lossy(&case.row.bytes));
        }
    })
}

/// Calls it for each word of these bytes of the length.
fn each_word(bytes: &[u8], length: usize, seen: &mut impl FnMut(&[u8])) {
    let mut word = vec![bytes[0]; length];
    for mut i in 0..bytes.len().pow(length as u32) {
        for place in &mut word {
            *place = bytes[i % bytes.len()];
            i /= bytes.len();
        }
        seen(&word);
    }
}

/// Each byte that a text can have, of the digits 0 and 1 alone, and one that no text has.
const ALPHABET: &[u8] = b"()!-01l ifthenswakpurdo+>=;:x";

/// 50 by an enumeration of texts: two bytes that a text begins with begin one of at most 20 bytes, the longest `(if 0 then 0 else 0)`. And a text of the form that is
/// cut only stops too soon, wherever it is cut.
#[test]
fn offsets_by_all_texts() {
    let texts: HashSet<Vec<u8>> = all_texts(20).into_iter().flatten().collect();
    assert!(texts.len() > 50_000, "{}", texts.len());
    let begun: HashSet<&[u8]> = texts.iter().flat_map(|text| (0..=text.len().min(2)).map(move |to| &text[..to])).collect();
    for length in 0..=2 {
        each_word(ALPHABET, length, &mut |word| {
            let first = (0..length).find(|&at| !begun.contains(&word[..=at])).unwrap_or(length);
            let expected = if texts.contains(word) { None } else { Some(first) };
            assert_eq!(form(word).err(), expected, "{}", String::from_utf8_lossy(word));
        });
    }
    for text in &texts {
        assert!(form(text).is_ok());
        for cut in (0..text.len()).map(|to| &text[..to]) {
            assert!(texts.contains(cut) || form(cut).err() == Some(cut.len()), "{}", String::from_utf8_lossy(text));
        }
    }
}

/// The same by asking whether any text begins with some bytes: all words of up to four bytes, and of three after an opening.
#[test]
fn offsets_by_their_sentence() {
    let mut same = |text: &[u8]| assert_eq!(form(text).err(), offset(text), "{}", String::from_utf8_lossy(text));
    (0..=4).for_each(|length| each_word(ALPHABET, length, &mut same));
    let openings = ["(0 ", "(if 0 ", "(while 0 ", "(l0 ", "(0 + ", "(if 0 then 0 ", "(while 0 do 0 ", "(l0 := ", "(0 >= 0", "(l1", "(l0 := (", "((0 + 1) "];
    for opening in openings {
        each_word(ALPHABET, 3, &mut |word| same(&[opening.as_bytes(), word].concat()));
    }
}

#[test]
fn offsets_of_generated_texts() {
    with_room(|| {
        for kind in ["texts", "spoilt", "edges"] {
            for row in some_rows(kind, 2000).iter().filter(|row| row.bytes.len() < 150) {
                assert_eq!(form(&row.bytes).err(), offset(&row.bytes), "{}", String::from_utf8_lossy(&row.bytes));
            }
        }
    })
}

/// Reading an accepted text and writing gives the text; the row passes 1 to 9 and needs the bytes that were told.
#[test]
fn texts_come_back() {
    with_room(|| {
        for kind in ["texts", "spoilt", "edges"] {
            for row in some_rows(kind, 2000) {
                let Ok(bytes) = store(&row.bytes, row.store.len(), 65_536) else { continue };
                assert_eq!(write(&bytes, row.bytes.len()).unwrap().into_bytes(), row.bytes);
                assert_eq!(write(&bytes, row.bytes.len() - 1), Err(Needs(32, row.bytes.len())));
                assert_eq!(store(&row.bytes, row.store.len(), bytes.len()).as_ref(), Ok(&bytes));
                assert_eq!(store(&row.bytes, row.store.len(), bytes.len() - 1), Err(Needs(53, bytes.len())));
            }
        }
    })
}

/// Writing and reading with the same m gives the same bytes.
#[test]
fn rows_come_back() {
    with_room(|| {
        for kind in ["good", "illtyped", "damaged", "limits", "written"] {
            for row in some_rows(kind, 2000) {
                match (read(&row.bytes), write(&row.bytes, usize::MAX)) {
                    (Ok(routine), Ok(text)) => assert_eq!(store(text.as_bytes(), routine.m, 65_536), Ok(row.bytes)),
                    (Err(why), Err(told)) => assert_eq!(why, told),
                    _ => panic!("one refuses"),
                }
            }
        }
    })
}

/// The kinds reach every refusal, and rows at both limits.
#[test]
fn every_refusal_is_met() {
    with_room(|| {
        let mut met = HashSet::new();
        for kind in ["texts", "spoilt", "edges"] {
            for row in some_rows(kind, 3000) {
                match store(&row.bytes, row.store.len(), (row.fuel as usize).min(65_536)) {
                    Ok(bytes) => met.insert(1000 + read(&bytes).unwrap().m as u32 / 64),
                    Err(Plain(c) | At(c, _) | Needs(c, _)) => met.insert(c),
                };
            }
        }
        for wanted in [4, 50, 51, 52, 5, 9, 53, 1000, 1001] {
            assert!(met.contains(&wanted), "{wanted}");
        }
    })
}

/// A million deep, well formed; with the last bracket missing; and only opened.
#[test]
fn deep_texts() {
    let depth = 1_000_000;
    let whole = ["(".repeat(depth), "1".to_string(), " + 1)".repeat(depth)].concat();
    assert_eq!(store(whole.as_bytes(), 0, 65_536), Err(Plain(5)));
    assert_eq!(store(&whole.as_bytes()[..whole.len() - 1], 0, 65_536), Err(At(50, whole.len() - 1)));
    assert_eq!(store("(".repeat(depth).as_bytes(), 0, 0), Err(At(50, depth)));
    assert_eq!(store("1".repeat(depth).as_bytes(), 0, 0), Err(At(51, 0)));
}

/// The parts of a long text.
#[test]
fn long_texts() {
    assert_eq!(long::text(b"ab\0c\0de\0f", 3), Ok(b"abababcdededef".to_vec()));
    assert_eq!(long::text(b"ab\0c\0de\0f\0g", 1), Ok(b"abcdef\0g".to_vec()));
    assert_eq!(long::text(b"\0c\0\0", 4), Ok(b"c".to_vec()));
    assert_eq!(long::text(b"ab", 2), Ok(b"abab".to_vec()));
    assert_eq!(long::text(b"", u32::MAX), Ok(vec![]));
    assert_eq!(long::text(b"ab\0c\0de\0f", 350_000), Err(1_400_002));
}

/// What the programs write, worked out by hand.
#[test]
fn programs_write() {
    with_room(programs_write_by_hand);
}

fn programs_write_by_hand() {
    let row = [0, 36, 1, 1, 0, 4, 6, 0, 0, 0, 0, 0, 0, 0, 0, 0, 0, 0, 0, 0, 0, 25, 2, 0, 0, 0, 0, 1, 0, 0, 5, 0, 0, 2, 0, 0, 0, 0];
    let setting = |words: &[&str], end: &str| programs::store(words, format!("(l0 := (!l0 + 25)){end}").as_bytes());
    let said = |line: &str| Err(line.to_string());
    assert_eq!(setting(&["1"], ""), Ok(row.to_vec()));
    assert_eq!(setting(&["1"], "\n"), Ok(row.to_vec()));
    assert_eq!(setting(&["1"], "\n\n"), said("refused 50 at 18"));
    assert_eq!(setting(&["1"], "\r\n"), said("refused 50 at 18"));
    assert_eq!(setting(&["65"], ""), said("refused 4"));
    assert_eq!(setting(&["256"], ""), said("refused 4"));
    assert_eq!(setting(&["1", "10", "1875"], "\n"), Ok([&row[..], &[0, 0, 0, 10, 0, 0, 7, 83]].concat()));
    assert_eq!(setting(&["1", "4294967295", "-2"], "\n"), Ok([&row[..], &[255, 255, 255, 255, 255, 255, 255, 254]].concat()));
    let wrong: [&[&str]; 9] = [&[], &[""], &["x"], &["-1"], &["1", "10"], &["1", "10", "1", "2"], &["1", "4294967296", "0"], &["1", "10", "2147483648"], &["0", "10", "0"]];
    wrong.iter().for_each(|words| assert_eq!(setting(words, ""), said("usage:")));
    assert_eq!(programs::store(&["0"], b"2147483648"), said("refused 51 at 0"));
    assert_eq!(programs::store(&["0"], b"\n"), said("refused 50 at 0"));
    assert_eq!(programs::show(&[], &row), Ok(b"(l0 := (!l0 + 25))\n".to_vec()));
    assert_eq!(programs::show(&[], &row[..5]), said("refused 1"));
    assert_eq!(programs::show(&[], &[&row[..37], &[1]].concat()), said("refused 7 at 3"));
    assert_eq!(programs::show(&["1"], &row), said("usage:"));
    assert!(programs::runs().len() < 420, "{}", programs::runs().len());
}
