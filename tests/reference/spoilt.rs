//! KIND spoilt: texts with their bytes spoiled, with numbers that are too large, and bytes that look like a text.

use crate::expr::{size, text};
use crate::good::an_m;
use crate::random::Random;
use crate::rows::Row;
use crate::texts::{any_tree, asked};

pub fn spoilt_row(random: &mut Random) -> Row {
    let m = if random.percent(97) { an_m(random) } else { random.pick(&[65, 66, 255, 256, 257, 320]) };
    if random.percent(6) {
        let text = bytes_of_the_form(random);
        return asked(random, text, m, 14);
    }
    let tree = any_tree(random);
    let mut text = text(&tree).into_bytes();
    for _ in 0..random.pick(&[1, 1, 1, 1, 2, 3, 5]) {
        spoil(random, &mut text);
    }
    asked(random, text, m, 6 + 8 * size(&tree))
}

/// Every byte that a text of the form can have, and some that none has.
const BYTES: &[u8] = b"(((()))))!!--00123456789lllifthenelsewhiledodonesktruefalp  ++>>==;;::";
const OTHERS: &[u8] = b"\0\n\t\r,.x_LIT<*/&|[]{}'\"\x7f\x80\xc3\xff";

const WORDS: &[&str] = &[
    "(", ")", " ", "(if ", " then ", " else ", "(while ", " do ", " done)", "(l0", "(l", " := ", "!l", "!l1", "!", "skip", "true", "false", " + ", " >= ", " ; ", "0", "1", "-1", "-", "12", "(l3 := ",
];

/// Random bytes, or words of the form in any order.
fn bytes_of_the_form(random: &mut Random) -> Vec<u8> {
    let count = random.below(12);
    if random.percent(50) {
        return (0..count).map(|_| random.pick(BYTES)).collect();
    }
    (0..count).flat_map(|_| random.pick(WORDS).bytes()).collect()
}

fn a_byte(random: &mut Random) -> u8 {
    match random.below(10) {
        0 => random.next() as u8,
        1 => random.pick(OTHERS),
        _ => random.pick(BYTES),
    }
}

fn spoil(random: &mut Random, text: &mut Vec<u8>) {
    if text.is_empty() {
        return text.push(a_byte(random));
    }
    let at = random.below(text.len());
    match random.below(24) {
        0 | 1 => text[at] = a_byte(random),
        2 => text[at] ^= 1 << random.below(8),
        3 | 4 => drop(text.remove(at)),
        5 => text.insert(at, text[at]),
        6 => text.insert(at, a_byte(random)),
        7 => text.truncate(at),
        8 => text.truncate(text.len() - 1 - random.below(text.len().min(4))),
        9 => text.extend((0..1 + random.below(4)).map(|_| a_byte(random))),
        10 => text.insert(0, a_byte(random)),
        11 => {
            let other = random.below(text.len());
            text.swap(at, other);
        }
        12 => two_spaces(random, text),
        13 => put_before_a_number(random, text, b"0"),
        14 => put_before_a_number(random, text, b"-"),
        15 => replace_a_number(random, text, "-0"),
        16 => another_word(random, text),
        17 => repeat_a_piece(random, text),
        _ => large_numbers(random, text),
    }
}

/// Where a byte of a text is one of these, picked among all such places.
fn a_place(random: &mut Random, text: &[u8], wanted: impl Fn(usize) -> bool) -> Option<usize> {
    let places: Vec<usize> = (0..text.len()).filter(|&at| wanted(at)).collect();
    if places.is_empty() { None } else { Some(random.pick(&places)) }
}

fn two_spaces(random: &mut Random, text: &mut Vec<u8>) {
    if let Some(at) = a_place(random, text, |at| text[at] == b' ') {
        if random.percent(70) {
            text.insert(at, b' ');
        } else {
            text.remove(at);
        }
    }
}

/// The first digit of a number: of an integer (without its minus) or of a location.
fn a_number(random: &mut Random, text: &[u8]) -> Option<usize> {
    a_place(random, text, |at| text[at].is_ascii_digit() && (at == 0 || !text[at - 1].is_ascii_digit()))
}

fn put_before_a_number(random: &mut Random, text: &mut Vec<u8>, what: &[u8]) {
    if let Some(at) = a_number(random, text) {
        text.splice(at..at, what.iter().copied());
    }
}

fn digits_from(text: &[u8], at: usize) -> usize {
    text[at..].iter().take_while(|byte| byte.is_ascii_digit()).count()
}

fn replace_a_number(random: &mut Random, text: &mut Vec<u8>, with: &str) {
    if let Some(at) = a_number(random, text) {
        text.splice(at..at + digits_from(text, at), with.bytes());
    }
}

fn another_word(random: &mut Random, text: &mut Vec<u8>) {
    let at = random.below(text.len());
    text.splice(at..at, random.pick(WORDS).bytes());
}

fn repeat_a_piece(random: &mut Random, text: &mut Vec<u8>) {
    let from = random.below(text.len());
    let count = 1 + random.below((text.len() - from).min(12));
    let piece = text[from..from + count].to_vec();
    text.splice(from..from, piece);
}

/// One number or some, each at an end of its range, over it, or far over.
fn large_numbers(random: &mut Random, text: &mut Vec<u8>) {
    for _ in 0..random.pick(&[1, 1, 2, 3]) {
        let Some(at) = a_number(random, text) else { return };
        let is_location = at > 0 && text[at - 1] == b'l';
        let with = if is_location { a_location(random) } else { an_integer(random) };
        let minus = !is_location && at > 0 && text[at - 1] == b'-';
        let from = if minus && random.percent(50) { at - 1 } else { at };
        text.splice(from..at + digits_from(text, at), with.bytes());
        // a minus that stays is the number's own
        if from == at && minus && text[at] == b'-' {
            text.remove(at);
        }
    }
}

const INTEGERS: &[&str] = &[
    "2147483646", "2147483647", "2147483648", "2147483649", "2147483650", "2999999999", "3000000000", "4294967295", "4294967296", "4294967297",
    "9999999999", "10000000000", "21474836470", "21474836480", "9223372036854775807", "9223372036854775808", "18446744073709551615",
    "18446744073709551616", "18446744073709551617", "340282366920938463463374607431768211456", "1000000000", "999999999",
];

const LOCATIONS: &[&str] = &[
    "63", "64", "99", "100", "199", "200", "249", "250", "254", "255", "256", "257", "259", "260", "299", "300", "511", "512", "999", "1000", "2550", "2559", "65535",
    "65536", "65791", "4294967296", "4294967551", "18446744073709551616", "18446744073709551619", "2147483648",
];

fn an_integer(random: &mut Random) -> String {
    let minus = if random.percent(50) { "-" } else { "" };
    let number = if random.percent(80) { random.pick(INTEGERS).to_string() } else { many_digits(random) };
    format!("{minus}{number}")
}

fn a_location(random: &mut Random) -> String {
    if random.percent(85) { random.pick(LOCATIONS).to_string() } else { many_digits(random) }
}

/// Some, hundreds, or thousands.
fn many_digits(random: &mut Random) -> String {
    let count = match random.below(10) {
        0 => 1000 + random.below(9000),
        1..=4 => 100 + random.below(500),
        _ => 9 + random.below(15),
    };
    let digit = |k: usize, random: &mut Random| if k == 0 { random.between(1, 9) } else { random.between(0, 9) };
    (0..count).map(|k| char::from(b'0' + digit(k, random) as u8)).collect()
}
