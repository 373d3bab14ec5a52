//! For the tests: the form of texts as a list of forms, and 50's offset by its own sentence, in two ways: by making all the texts up to a length, and by asking of
//! some bytes whether any text begins with them.

/// A part of a form.
#[derive(Clone, Copy)]
enum Part {
    Word(&'static str),
    Expression,
    /// With a minus, or none.
    Integer,
    Digits,
}

use Part::{Digits, Expression, Integer, Word};

const FORMS: &[&[Part]] = &[
    &[Word("("), Expression, Word(" + "), Expression, Word(")")],
    &[Word("("), Expression, Word(" >= "), Expression, Word(")")],
    &[Word("(if "), Expression, Word(" then "), Expression, Word(" else "), Expression, Word(")")],
    &[Word("(l"), Digits, Word(" := "), Expression, Word(")")],
    &[Word("!l"), Digits],
    &[Word("skip")],
    &[Word("("), Expression, Word(" ; "), Expression, Word(")")],
    &[Word("(while "), Expression, Word(" do "), Expression, Word(" done)")],
    &[Word("true")],
    &[Word("false")],
    &[Integer],
];

/// No leading zeros.
fn are_digits(text: &[u8]) -> bool {
    text == b"0" || !text.is_empty() && text[0] != b'0' && text.iter().all(u8::is_ascii_digit)
}

/// No minus before 0.
fn is_integer(text: &[u8]) -> bool {
    are_digits(text) || text.len() > 1 && text[0] == b'-' && text[1] != b'0' && are_digits(&text[1..])
}

/// All texts of the form of each length up to `most`, whose numbers are of the digits 0 and 1, at most three of them.
pub fn all_texts(most: usize) -> Vec<Vec<Vec<u8>>> {
    let mut texts: Vec<Vec<Vec<u8>>> = vec![vec![]];
    for length in 1..=most {
        let made = FORMS.iter().flat_map(|form| made_of(form, length, &texts)).collect();
        texts.push(made);
    }
    texts
}

/// The words of exactly this length that the parts make, from the shorter texts.
fn made_of(parts: &[Part], length: usize, texts: &[Vec<Vec<u8>>]) -> Vec<Vec<u8>> {
    let Some((first, rest)) = parts.split_first() else {
        return if length == 0 { vec![vec![]] } else { vec![] };
    };
    let mut made = Vec::new();
    for taken in 1..=length {
        let heads = made_of_one(*first, taken, texts);
        if heads.is_empty() {
            continue;
        }
        let tails = made_of(rest, length - taken, texts);
        for tail in &tails {
            made.extend(heads.iter().map(|head| [&head[..], tail].concat()));
        }
    }
    made
}

fn made_of_one(part: Part, length: usize, texts: &[Vec<Vec<u8>>]) -> Vec<Vec<u8>> {
    match part {
        Word(word) if word.len() == length => vec![word.as_bytes().to_vec()],
        Word(_) => vec![],
        Expression => texts.get(length).cloned().unwrap_or_default(),
        Integer => binary(length).filter(|word| is_integer(word)).collect(),
        Digits => binary(length).filter(|word| are_digits(word)).collect(),
    }
}

/// The words of so many bytes of 0, 1 and a minus.
fn binary(length: usize) -> impl Iterator<Item = Vec<u8>> {
    let count = if length <= 3 { 3usize.pow(length as u32) } else { 0 };
    (0..count).map(move |i| (0..length).map(|k| b"01-"[i / 3usize.pow(k as u32) % 3]).collect())
}

/// How far some parts can go in a text from a place: the places where a word of them may end, and whether one goes on behind the text's end.
#[derive(Default)]
struct Ends {
    places: Vec<usize>,
    beyond: bool,
}

impl Ends {
    fn add(&mut self, other: Ends) {
        self.places.extend(other.places);
        self.beyond |= other.beyond;
    }
}

fn ends(parts: &[Part], text: &[u8], from: usize) -> Ends {
    let Some((first, rest)) = parts.split_first() else {
        return Ends { places: vec![from], beyond: false };
    };
    let one = ends_of_one(*first, text, from);
    let mut all = Ends { places: vec![], beyond: one.beyond };
    for place in one.places {
        all.add(ends(rest, text, place));
    }
    all
}

fn ends_of_one(part: Part, text: &[u8], from: usize) -> Ends {
    let left = &text[from..];
    match part {
        Word(word) => {
            let whole = left.starts_with(word.as_bytes());
            let beyond = left.len() < word.len() && word.as_bytes().starts_with(left);
            Ends { places: if whole { vec![from + word.len()] } else { vec![] }, beyond }
        }
        Expression => {
            let mut all = Ends::default();
            // every text has a byte, so there is one to come
            if left.is_empty() {
                return Ends { places: vec![], beyond: true };
            }
            FORMS.iter().for_each(|form| all.add(ends(form, text, from)));
            all
        }
        Integer => number_ends(text, from, is_integer),
        Digits => number_ends(text, from, are_digits),
    }
}

/// A number may end at any place to which the bytes are one; one begins with all that is left where a digit more, or none, makes it one.
fn number_ends(text: &[u8], from: usize, is_number: fn(&[u8]) -> bool) -> Ends {
    let places = (from + 1..=text.len()).filter(|&to| is_number(&text[from..to])).collect();
    let beyond = is_number(&[&text[from..], b"1"].concat());
    Ends { places, beyond }
}

/// Some text of the form begins with these bytes.
fn begins_a_text(bytes: &[u8]) -> bool {
    let ends = ends(&[Expression], bytes, 0);
    ends.beyond || ends.places.contains(&bytes.len())
}

/// 50 by its sentence: none for a text of the form; else the first byte that no text can have after those before it, or the length.
pub fn offset(text: &[u8]) -> Option<usize> {
    if ends(&[Expression], text, 0).places.contains(&text.len()) {
        return None;
    }
    Some((0..text.len()).find(|&at| !begins_a_text(&text[..=at])).unwrap_or(text.len()))
}
