//! The question `n`: a text that no record has room for, told by its parts; named ones with their lines, worked out by hand; and KIND nested.

use crate::build::*;
use crate::nests::*;
use crate::random::Random;
use crate::rows::Row;
use crate::textcases::{tree_line, TextCase};

/// The bytes that a text may have here.
const MOST_TEXT: u64 = 1_400_000;

/// The text: A k times, B, C k times and D, which stand in the record's bytes with a byte 0 between them. Its length alone, if that is over the most.
pub fn text(parts: &[u8], k: u32) -> Result<Vec<u8>, u64> {
    let mut parts = parts.splitn(4, |&byte| byte == 0);
    let [a, b, c, d] = [(); 4].map(|()| parts.next().unwrap_or(&[]));
    let length = k as u64 * (a.len() + c.len()) as u64 + (b.len() + d.len()) as u64;
    if length > MOST_TEXT {
        return Err(length);
    }
    Ok([&a.repeat(k as usize)[..], b, &c.repeat(k as usize), d].concat())
}

/// A long text with m locations: its parts with a byte 0 between them.
fn long(m: usize, k: u32, parts: &str, line: &str) -> TextCase {
    TextCase { question: b'n', row: Row { bytes: parts.as_bytes().to_vec(), fuel: k, store: vec![0; m] }, line: line.to_string() }
}

/// Numbers of a million digits, and zeros.
fn digits() -> Vec<TextCase> {
    let million = |parts: &str, line: &str| long(0, 1_000_000, parts, line);
    vec![
        million("1", "refused 51 at 0"),
        million("9", "refused 51 at 0"),
        million("\01\02", "refused 51 at 0"),
        million("\0-\01", "refused 51 at 0"),
        million("\0-\01\0x", "refused 50 at 1000001"),
        million("\0(1 + \09\0)", "refused 51 at 5"),
        million("\0(1 + -\09\0)", "refused 51 at 5"),
        million("\0(1 + \09", "refused 50 at 1000005"),
        million("\0!l\01", "refused 52 at 2"),
        million("\0(l\01\0 := 1)", "refused 52 at 2"),
        million("\0(l\01\0 := 2147483648)", "refused 51 at 1000006"),
        million("\0(l\01\0 =: 1)", "refused 50 at 1000003"),
        million("0", "refused 50 at 1"),
        million("-", "refused 50 at 1"),
        million("\0-\00", "refused 50 at 1"),
        million("\0!l\00", "refused 50 at 3"),
    ]
}

/// Nests of a hundred thousand forms and more: closed, not closed, closed once too often, and with a number out of range inside.
fn nests() -> Vec<TextCase> {
    let deep = |parts: &str, line: &str| long(0, 100_000, parts, line);
    let twice = |parts: &str, line: &str| long(0, 200_000, parts, line);
    vec![
        deep("(", "refused 50 at 100000"),
        deep("(\0)", "refused 50 at 100000"),
        deep("(\01\0 + 1)", "refused 5"),
        deep("(\01\0 + 1)\0)", "refused 50 at 600001"),
        deep("(\01\0 + 1)\0x", "refused 50 at 600001"),
        deep("(\01\0 + 1)\0\n", "refused 50 at 600001"),
        deep("(\01\0 - 1)", "refused 50 at 100002"),
        deep("(\02147483648\0 + 1)", "refused 51 at 100000"),
        deep("(\0-2147483649\0 + 1)", "refused 51 at 100000"),
        deep("(\0!l256\0 + 1)", "refused 52 at 100002"),
        deep("(\0(!l256 + 2147483648)\0 + 1)", "refused 51 at 100009"),
        deep("(\0!l256\0 + 1)\0 ", "refused 50 at 600005"),
        deep("(\0!l256\0 + 1)\0", "refused 52 at 100002"),
        long(0, 90_000, "(\01\0 + 2147483648)", "refused 51 at 90004"),
        deep("(l256 := \01\0)", "refused 52 at 2"),
        deep("(l255 := \02147483648\0)", "refused 51 at 900000"),
        deep("(\01\0 ; -0)", "refused 50 at 100005"),
        long(0, 199_999, "(\0(1\0 + 1)\0 + 1", "refused 50 at 1200000"),
        twice("(1 ; \01\0)", "refused 5"),
        twice("(1 ; \0(1 ; 1\0)", "refused 50 at 1200006"),
        twice("(1 ; \01\0)\0)", "refused 50 at 1200001"),
        long(0, 70_000, "(if \01\0 then 1 else 0)", "refused 5"),
        long(0, 70_000, "(if \01\0 then 1 else)", "refused 50 at 280013"),
        long(0, 60_000, "(while \0true\0 do skip done)", "refused 5"),
        long(0, 60_000, "(while true do \0skip\0 done)", "refused 5"),
        long(0, 60_000, "(while true do \0skip\0 done", "refused 50 at 900009"),
    ]
}

/// The count, nodes and m, both sides, and short texts that are stored.
fn limits() -> Vec<TextCase> {
    let sums = sums_left(100, int(1));
    vec![
        long(0, 100, "(\01\0 + 1)", &tree_line(0, &sums)),
        long(64, 100, "(\01\0 + 1)", &tree_line(64, &sums)),
        long(65, 100, "(\01\0 + 1)", "refused 4"),
        long(65, 100_000, "(", "refused 4"),
        long(1000, 1_000_000, "1", "refused 4"),
        long(1, 256, "(l0 := \01\0)", &tree_line(1, &assignments(256))),
        long(1, 257, "(l0 := \01\0)", "refused 9"),
        long(1, 256, "(l0 := \0(l0 := 1)\0)", "refused 9"),
        long(1, 256, "(l0 := \01\0)\0)", "refused 50 at 2049"),
        long(0, 256, "(\01\0 + 1)", &tree_line(0, &sums_left(256, int(1)))),
        long(0, 257, "(\01\0 + 1)", "refused 9"),
        long(0, 257, "(1 >= \01\0)", "refused 9"),
        long(0, 257, "(\0skip\0 ; skip)", "refused 9"),
        long(0, 257, "(if \0true\0 then 1 else 0)", "refused 9"),
        long(0, 257, "(while \0true\0 do skip done)", "refused 9"),
        long(0, 257, "(while true do \0skip\0 done)", "refused 9"),
        long(1, 4095, "(l0 := \01\0)", "refused 9"),
        long(1, 4096, "(l0 := \01\0)", "refused 5"),
    ]
}

/// Second parts and branches, which don't count: as many as there are nodes, and one more.
fn free() -> Vec<TextCase> {
    // 257 assignments are 258 nodes; behind 1,919 skips they are 4,096
    let behind_skips = ["(skip ; \0", &"(l0 := ".repeat(257), "1", &")".repeat(257), "\0)"].concat();
    vec![
        long(1, 300, &behind_skips, "refused 9"),
        long(1, 1919, &behind_skips, "refused 9"),
        long(1, 1920, &behind_skips, "refused 5"),
        long(0, 2047, "(skip ; \0skip\0)", &tree_line(0, &skips(2047, skip()))),
        long(0, 2048, "(skip ; \0skip\0)", "refused 5"),
        long(0, 1366, "(if true then 1 else \01\0)", "refused 5"),
        long(0, 1366, "(if true then \01\0 else 1)", "refused 5"),
        // 1,365 before one more: 4,097 nodes
        long(1, 1365, "((l0 := 1) ; \0(l0 := 1)\0)", "refused 5"),
        long(0, 2047, "(skip ; \02147483648\0)", "refused 51 at 16376"),
        long(0, 2047, "(skip ; \0!l256\0)", "refused 52 at 16378"),
        long(0, 1000, "(skip ; \0(l0 := 1\0)", "refused 50 at 9008"),
        long(0, 1000, "(skip ; \0skip\0)\0)", "refused 50 at 9004"),
        long(0, 100_000, "(skip ; \0skip\0)", "refused 5"),
    ]
}

/// Parts that are not there, or empty, and more bytes 0 than three.
fn parts() -> Vec<TextCase> {
    let skip = "14 000c010000010700000000000000";
    vec![
        long(0, 5, "", "refused 50 at 0"),
        long(0, 5, "\0\0\0", "refused 50 at 0"),
        long(0, 0, "skip", "refused 50 at 0"),
        long(0, 1, "skip", skip),
        long(0, 2, "skip", "refused 50 at 4"),
        long(0, 0, "x\0skip\0x", skip),
        long(0, 7, "\0skip", skip),
        long(0, 1, "\0\0skip", skip),
        long(0, 7, "\0\0\0skip", skip),
        long(0, 1, "s\0k\0i\0p", skip),
        long(0, 2, "s\0k\0i\0p", "refused 50 at 1"),
        long(0, 1, "\0\0\0skip\0", "refused 50 at 4"),
        long(0, 1, "s\0k\0i\0p\0", "refused 50 at 4"),
        long(0, 1, "\0\0\0\0skip", "refused 50 at 0"),
        long(0, u32::MAX, "\0skip", skip),
        long(0, u32::MAX, "\0sk\0\0ip", skip),
    ]
}

/// The most bytes that are read here, and more, up to lengths that don't fit 32 bits: whatever m is.
fn lengths() -> Vec<TextCase> {
    let whole = "1".repeat(65_535);
    vec![
        long(0, 1_400_000, "1", "refused 51 at 0"),
        long(0, 1_400_001, "1", "too long 1400001"),
        long(0, 1_399_999, "(\0x", "refused 50 at 1399999"),
        long(0, 1_400_000, "(\0x", "too long 1400001"),
        long(0, 700_000, "(\0\0)", "refused 50 at 700000"),
        long(0, 700_000, "(\0\0)\0)", "too long 1400001"),
        long(65, 1_400_000, "1", "refused 4"),
        long(65, 1_400_001, "1", "too long 1400001"),
        long(0, u32::MAX, "1", "too long 4294967295"),
        long(0, 1 << 31, "1\0\02", "too long 4294967296"),
        long(0, 1 << 30, "1111\0skip", "too long 4294967300"),
        long(0, 21, &whole, "refused 51 at 0"),
        long(0, 22, &whole, "too long 1441770"),
        long(0, u32::MAX, &whole, "too long 281470681677825"),
    ]
}

pub fn long_cases() -> Vec<TextCase> {
    let mut all = digits();
    all.extend(nests());
    all.extend(limits());
    all.extend(free());
    all.extend(parts());
    all.extend(lengths());
    all
}

/// Forms around a form, k from 0 to 300,000: closed or not, with a fault inside, behind or nowhere.
pub fn nested_row(random: &mut Random) -> Row {
    let (open, close) = random.pick(&[
        ("(", " + 1)"),
        ("(", " ; skip)"),
        ("(", " >= -7)"),
        ("(-1 + ", ")"),
        ("(l7 := ", ")"),
        ("(l255 := ", ")"),
        ("(l256 := ", ")"),
        ("(", " + 2147483648)"),
        ("(if ", " then 1 else 0)"),
        ("(if 1 then ", " else 0)"),
        ("(if 1 then 0 else ", ")"),
        ("(while ", " do 1 done)"),
        ("(while !l0 do ", " done)"),
        ("(skip ; ", ")"),
        ("(l1 := 2 ; ", ")"),
        ("((l1 := 2) ; ", ")"),
        ("(if true then ", " else skip)"),
        ("(", ""),
        ("", "7"),
        ("3", ""),
    ]);
    let inner = random.pick(&["1", "1", "1", "1", "skip", "skip", "true", "!l0", "!l0", "-", "!l", "(l", "2147483648", "!l256", "", "(1"]);
    let behind = random.pick(&["", "", "", "", "", "", "", "", " + 1", ")", " ", " := 1)", "\0"]);
    let k = match random.below(6) {
        0 => random.below(12),
        1 => random.pick(&[100, 254, 255, 256, 257, 258, 1364, 1365, 1366, 2047, 2048, 4095, 4096]),
        2 | 3 => random.below(30_000),
        4 => random.below(100_000),
        _ => random.below(300_001),
    };
    let parts = [open, inner, close, behind].join("\0");
    let m = random.pick(&[0, 0, 0, 0, 1, 1, 1, 1, 64, 65]);
    Row { bytes: parts.into_bytes(), fuel: k as u32, store: vec![0; m] }
}
