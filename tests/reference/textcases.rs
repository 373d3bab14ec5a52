//! Named texts and rows for `s`, `n` and `w`, each with its line, worked out from 01 and requests 1 and 2 of 02 by hand.

use crate::build::*;
use crate::cases::wide;
use crate::expr::{text, Tree};
use crate::long::long_cases;
use crate::nests::*;
use crate::routine::{store_nodes, store_routine, with_header};
use crate::rows::Row;

pub struct TextCase {
    pub question: u8,
    pub row: Row,
    pub line: String,
}

const LARGE: u32 = 65_536;

/// A text with m locations and a room.
fn reads(m: usize, room: u32, text: &[u8], line: &str) -> TextCase {
    TextCase { question: b's', row: Row { bytes: text.to_vec(), fuel: room, store: vec![0; m] }, line: line.to_string() }
}

fn reads_1(text: &str, line: &str) -> TextCase {
    reads(1, LARGE, text.as_bytes(), line)
}

/// The line of a row: the nodes in hexadecimal digits, a node each.
fn row_line(m: u8, nodes: &[&str]) -> String {
    let n = nodes.len();
    format!("{} {:04x}01{m:02x}{n:04x}{}", 6 + 8 * n, 4 + 8 * n, nodes.concat())
}

/// The line of a tree's row.
pub fn tree_line(m: u8, tree: &Tree) -> String {
    let row = store_routine(m, tree);
    let digits: String = row.iter().map(|byte| format!("{byte:02x}")).collect();
    format!("{} {digits}", row.len())
}

const COURSE: &str = "(l0 := (!l0 + 25))";
const COURSE_NODES: [&str; 4] = ["0600000000000000", "0000000000000019", "0200000000010000", "0500000200000000"];
const CHOICE: &str = "(if true then (l1 := 2) else (while false do skip done))";
const CHOICE_NODES: [&str; 7] = [
    "0101000000000000", "0000000000000002", "0501000100000000", "0100000000000000", "0700000000000000", "0900000300040000", "0400000000020005",
];

/// Every form, and the ends of the ranges.
fn accepted() -> Vec<TextCase> {
    let one = |text: &str, node: &str| reads_1(text, &format!("14 000c01010001{node}"));
    vec![
        reads_1(COURSE, &row_line(1, &COURSE_NODES)),
        reads(2, LARGE, CHOICE.as_bytes(), &row_line(2, &CHOICE_NODES)),
        reads(
            0,
            LARGE,
            b"((1 >= -2) ; (3 + 4))",
            &row_line(0, &["0000000000000001", "00000000fffffffe", "0300000000010000", "0000000000000003", "0000000000000004", "0200000300040000", "0800000200050000"]),
        ),
        reads_1("(true + skip)", &row_line(1, &["0101000000000000", "0700000000000000", "0200000000010000"])),
        reads(0, LARGE, b"(l255 := 1)", &row_line(0, &["0000000000000001", "05ff000000000000"])),
        one("0", "0000000000000000"),
        one("7", "0000000000000007"),
        one("10", "000000000000000a"),
        one("-1", "00000000ffffffff"),
        one("-10", "00000000fffffff6"),
        one("2147483647", "000000007fffffff"),
        one("-2147483648", "0000000080000000"),
        one("true", "0101000000000000"),
        one("false", "0100000000000000"),
        one("skip", "0700000000000000"),
        one("!l0", "0600000000000000"),
        one("!l10", "060a000000000000"),
        one("!l255", "06ff000000000000"),
    ]
}

/// Texts that are not of the form, with the byte.
fn not_of_the_form() -> Vec<TextCase> {
    let numbers = [("", 0), ("-", 1), ("-0", 1), ("-01", 1), ("01", 1), ("00", 1), ("7 ", 1), (" 7", 0), ("7\n", 1), ("+7", 0), ("--7", 1), ("1.5", 1), ("1,000", 1), ("02147483648", 1)];
    let words = [("ski", 3), ("sky", 2), ("skip1", 4), ("skipp", 4), ("True", 0), ("tru", 3), ("t", 1), ("fals", 4), ("falso", 4), ("x0", 0), ("l0", 0)];
    let locations = [("!", 1), ("!0", 1), ("!l", 2), ("!l-1", 2), ("!l01", 3), ("!l 1", 2), ("!l1l", 3), ("(l", 2), ("(l := 1)", 2), ("(l-1 := 1)", 2), ("(l00 := 1)", 3)];
    let operators = [
        ("(", 1), ("()", 1), (")", 0), ("( 1 + 1)", 1), ("(1)", 2), ("(1 + 1", 6), ("(1 + 1))", 7), ("(1 + 1) ", 7), ("(1  + 1)", 3), ("(1 +1)", 4), ("(1+ 1)", 2), ("(1 - 1)", 3), ("(1 > 1)", 4),
        ("(1 >== 1)", 5), ("(1 = 1)", 3), ("(1 ; 2 ; 3)", 6), ("1 + 2", 1), ("(1 + )", 5), ("(1 + 01)", 6), ("(-0 + 1)", 2), ("(1 + 1 )", 6), ("(1\t+ 1)", 2),
    ];
    let forms = [
        ("(l0 + 1)", 4), ("(l0 := 1", 8), ("(l0:= 1)", 3), ("(l0 := )", 7), ("(l0 =: 1)", 4), ("(l0 :: 1)", 5), ("(l0)", 3), ("(x", 1), ("(i", 2), ("(in", 2), ("(iftrue then 1 else 2)", 3), ("(if true then 1)", 15),
        ("(if true then 1 else 2", 22), ("(if true then 1 else 2 ", 22), ("(if true else 1 then 2)", 9), ("(w", 2), ("(while true do skip)", 19), ("(while true do skip done", 24),
        ("(while true do skip done )", 24), ("(while true then skip done)", 12), ("(if(true) then 1 else 2)", 3), ("(((((", 5), ("(((((l0", 7),
    ];
    let all = [&numbers[..], &words, &locations, &operators, &forms].concat();
    let mut cases: Vec<TextCase> = all.iter().map(|(text, at)| reads_1(text, &format!("refused 50 at {at}"))).collect();
    cases.push(reads(1, LARGE, b"\xff", "refused 50 at 0"));
    cases.push(reads(1, LARGE, b"7\0", "refused 50 at 1"));
    cases.push(reads(1, LARGE, "(1 + −1)".as_bytes(), "refused 50 at 5"));
    cases.push(reads(1, LARGE, &[b'('; 60_000], "refused 50 at 60000"));
    cases
}

/// Numbers over their range, several of them, and in what order they are told.
fn large_numbers() -> Vec<TextCase> {
    let digits = "1".repeat(10_000);
    let with = |before: &str, behind: &str, line: &str| reads_1(&format!("{before}{digits}{behind}"), line);
    vec![
        reads_1("2147483648", "refused 51 at 0"),
        reads_1("-2147483649", "refused 51 at 0"),
        reads_1("4294967296", "refused 51 at 0"),
        reads_1("18446744073709551616", "refused 51 at 0"),
        reads_1("-18446744073709551617", "refused 51 at 0"),
        reads_1("(1 + -2147483649)", "refused 51 at 5"),
        reads_1("(-2147483649 ; -2147483650)", "refused 51 at 1"),
        reads_1("(2147483647 ; 2147483648)", "refused 51 at 14"),
        reads_1("!l256", "refused 52 at 2"),
        reads_1("(l256 := 1)", "refused 52 at 2"),
        reads_1("!l4294967296", "refused 52 at 2"),
        reads_1("(l999 := !l1000)", "refused 52 at 2"),
        reads_1("(l9 := !l1000)", "refused 52 at 9"),
        reads_1("((l1 := 1) ; (l300 := 2147483647))", "refused 52 at 15"),
        reads_1("(2147483648 + ", "refused 50 at 14"),
        reads_1("(!l256 ; 2147483648)", "refused 51 at 9"),
        reads_1("(2147483648 ; !l256)", "refused 51 at 1"),
        reads_1("(!l256 ; 2147483648) ", "refused 50 at 20"),
        reads_1("(l256 := 2147483648)", "refused 51 at 9"),
        with("", "", "refused 51 at 0"),
        with("-", "", "refused 51 at 0"),
        with("!l", "", "refused 52 at 2"),
        with("(l", " := 1)", "refused 52 at 2"),
        with("(1 + ", ")", "refused 51 at 5"),
        with("", " ", "refused 50 at 10000"),
        with("0", "", "refused 50 at 1"),
        with("(", "", "refused 50 at 10001"),
    ]
}

/// m, n, the count and the room, both sides.
fn limits() -> Vec<TextCase> {
    let chain = |count: usize| ["(l0 := ".repeat(count), "1".to_string(), ")".repeat(count)].concat();
    let of = |m: u8, room: u32, tree: Tree| reads(m as usize, room, text(&tree).as_bytes(), &tree_line(m, &tree));
    let refused = |room: u32, tree: Tree, line: &str| reads(1, room, text(&tree).as_bytes(), line);
    let skip_row = "14 000c01400001".to_string() + "0700000000000000";
    vec![
        reads(64, LARGE, b"skip", &skip_row),
        reads(65, LARGE, b"skip", "refused 4"),
        reads(256, LARGE, b"skip", "refused 4"),
        reads(1000, LARGE, b"skip", "refused 4"),
        reads(65, 0, b"", "refused 4"),
        reads(65, 0, b"2147483648", "refused 4"),
        of(1, LARGE, wide(4096)),
        of(1, 32_774, wide(4096)),
        refused(32_773, wide(4096), "refused 53 needs 32774"),
        refused(LARGE, wide(4097), "refused 5"),
        refused(0, wide(4097), "refused 5"),
        refused(LARGE, seq(deref(0), wide(4095)), "refused 5"),
        reads_1(&format!("({} ; 2147483648)", text(&wide(4095))), &format!("refused 51 at {}", text(&wide(4095)).len() + 4)),
        reads_1(&format!("({} ; !l256)", text(&wide(4095))), &format!("refused 52 at {}", text(&wide(4095)).len() + 6)),
        reads_1(&chain(256), &tree_line(1, &assignments(256))),
        reads_1(&chain(257), "refused 9"),
        reads_1(&chain(4095), "refused 9"),
        reads_1(&chain(4096), "refused 5"),
        reads_1(&chain(4096)[1..], "refused 50 at 0"),
        of(0, LARGE, sums_left(256, int(1))),
        of(0, LARGE, sums_right(256, int(1))),
        refused(0, sums_right(257, int(1)), "refused 9"),
        reads(1, 38, COURSE.as_bytes(), &row_line(1, &COURSE_NODES)),
        reads(1, 39, COURSE.as_bytes(), &row_line(1, &COURSE_NODES)),
        reads(1, u32::MAX, COURSE.as_bytes(), &row_line(1, &COURSE_NODES)),
        reads(1, 37, COURSE.as_bytes(), "refused 53 needs 38"),
        reads(1, 0, COURSE.as_bytes(), "refused 53 needs 38"),
        reads(1, 0, b"", "refused 50 at 0"),
        reads(1, 0, b"2147483648", "refused 51 at 0"),
        reads(1, 0, b"!l256", "refused 52 at 2"),
    ]
}

/// The nodes of `by_each_form(256)`, by hand.
const NODES: [usize; 15] = [513, 513, 513, 513, 513, 769, 512, 257, 513, 513, 513, 641, 1529, 1788, 682];

/// Counts 256 and 257 by each form. Those of 256 have a byte too little room, so that they are read to their end and no row is told.
fn counts() -> Vec<TextCase> {
    let of = |room: u32, tree: &Tree, line: &str| reads(1, room, text(tree).as_bytes(), line);
    let in_range = by_each_form(256).into_iter().zip(NODES).map(|((_, tree), n)| of(5 + 8 * n as u32, &tree, &format!("refused 53 needs {}", 6 + 8 * n)));
    let over = by_each_form(257).into_iter().map(|(_, tree)| of(LARGE, &tree, "refused 9"));
    // of the plain forms 257 is told by parts, in `long`
    in_range.chain(over.skip(11)).collect()
}

/// The text of `list`.
fn list_text(count: usize) -> String {
    let one = |i: usize| format!("(l{} := {i})", i % 3);
    let before: String = (1..count).map(|i| format!("({} ; ", one(i))).collect();
    format!("{before}{}{}", one(count), ")".repeat(count - 1))
}

/// Far deeper than their count: 300 assignments joined to the right are stored, and of the longest lists the bytes are told that they need.
fn lists() -> Vec<TextCase> {
    let needs = |m: usize, tree: Tree, bytes: u32| reads(m, bytes - 1, text(&tree).as_bytes(), &format!("refused 53 needs {bytes}"));
    vec![
        reads(3, LARGE, list_text(300).as_bytes(), &tree_line(3, &list(300))),
        needs(3, list(1365), 6 + 8 * 4094),
        needs(1, skips(2047, assign(0, int(7))), 6 + 8 * 4096),
        needs(1, thirds(1365, deref(0)), 6 + 8 * 4096),
        needs(1, deepest(), 6 + 8 * 4095),
    ]
}

/// A row and the room of the buffer.
fn writes(room: u32, bytes: Vec<u8>, line: &str) -> TextCase {
    TextCase { question: b'w', row: Row { bytes, fuel: room, store: vec![] }, line: line.to_string() }
}

/// Rows that are written, ill typed ones too, with the room just right and one short.
fn written() -> Vec<TextCase> {
    let course = || store_routine(1, &assign(0, plus(deref(0), int(25))));
    let choice = iff(boolean(true), assign(1, int(2)), whilst(boolean(false), skip()));
    let mut cases = vec![
        writes(18, course(), "18 (l0 := (!l0 + 25))"),
        writes(17, course(), "refused 32 needs 18"),
        writes(0, course(), "refused 32 needs 18"),
        writes(u32::MAX, course(), "18 (l0 := (!l0 + 25))"),
        writes(LARGE, store_routine(2, &choice), &format!("56 {CHOICE}")),
        writes(21, store_routine(0, &seq(geq(int(1), int(-2)), plus(int(3), int(4)))), "21 ((1 >= -2) ; (3 + 4))"),
        writes(13, store_routine(1, &plus(boolean(true), skip())), "13 (true + skip)"),
        writes(5, store_routine(0, &deref(255)), "5 !l255"),
        writes(4, store_routine(0, &deref(255)), "refused 32 needs 5"),
        writes(11, store_routine(0, &int(-2147483648)), "11 -2147483648"),
        writes(10, store_routine(0, &int(-2147483648)), "refused 32 needs 11"),
        writes(10, store_routine(0, &int(2147483647)), "10 2147483647"),
        writes(1, store_routine(0, &int(0)), "1 0"),
        writes(0, store_routine(0, &int(0)), "refused 32 needs 1"),
    ];
    // count 256: as many sums of 5 bytes around a digit, each with a digit more
    let deep = ["(".repeat(256), "1".to_string(), " + 1)".repeat(256)].concat();
    cases.push(writes(1537, store_routine(0, &sums_left(256, int(1))), &format!("1537 {deep}")));
    cases.push(writes(1536, store_routine(0, &sums_left(256, int(1))), "refused 32 needs 1537"));
    let list_300 = list_text(300);
    cases.push(writes(LARGE, store_routine(3, &list(300)), &format!("{} {list_300}", list_300.len())));
    let skips_2048 = ["(skip ; ".repeat(2047), "skip".to_string(), ")".repeat(2047)].concat();
    cases.push(writes(18_427, store_routine(0, &skips(2047, skip())), &format!("18427 {skips_2048}")));
    // 1,919 times 9, 256 times 8, and a digit
    cases.push(writes(19_319, store_routine(1, &deepest()), "refused 32 needs 19320"));
    cases
}

/// 1 to 9 before 32.
fn not_written() -> Vec<TextCase> {
    let with = |at: usize, byte: u8| {
        let mut bytes = store_routine(1, &assign(0, plus(deref(0), int(25))));
        bytes[at] = byte;
        bytes
    };
    let mut forest = Vec::new();
    store_nodes(&skip(), &mut forest);
    store_nodes(&plus(boolean(true), skip()), &mut forest);
    vec![
        writes(LARGE, vec![], "refused 1"),
        writes(0, vec![0, 3, 1, 0, 0], "refused 1"),
        writes(0, with(1, 37), "refused 2"),
        writes(0, with(2, 2), "refused 3"),
        writes(0, store_routine(65, &skip()), "refused 4"),
        writes(0, vec![0, 4, 1, 0, 0, 0], "refused 5"),
        writes(0, store_routine(1, &wide(4097)), "refused 5"),
        writes(0, with(5, 3), "refused 6"),
        writes(0, with(6, 10), "refused 7 at 0"),
        writes(0, with(33, 1), "refused 7 at 3"),
        writes(0, with(15, 1), "refused 7 at 1"),
        writes(0, with_header(0, &forest), "refused 8"),
        writes(0, store_routine(0, &sums_left(257, int(1))), "refused 9"),
        writes(LARGE, store_routine(0, &sums_right(257, int(1))), "refused 9"),
        writes(LARGE, store_routine(0, &firsts(257)), "refused 9"),
        writes(LARGE, store_routine(0, &tests(257)), "refused 9"),
        writes(LARGE, store_routine(1, &assignments(257)), "refused 9"),
        writes(LARGE, store_routine(1, &skips(300, assignments(257))), "refused 9"),
        writes(18, with(7, 5), "18 (l0 := (!l5 + 25))"),
    ]
}

pub fn text_cases() -> Vec<TextCase> {
    let mut all = accepted();
    all.extend(not_of_the_form());
    all.extend(large_numbers());
    all.extend(limits());
    all.extend(counts());
    all.extend(lists());
    all.extend(long_cases());
    all.extend(written());
    all.extend(not_written());
    all
}
