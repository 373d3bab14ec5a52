//! Named rows of 02's request 2, with the line of each run, worked out by hand: runs of rows of count 256 whose deepest place is worked at, counts 256 and 257 by each form
//! and each place that can carry them, and rows that are far deeper than their count.

use crate::build::*;
use crate::expr::{text, Tree};
use crate::nests::*;
use crate::routine::store_routine;
use crate::rows::{record, Row, QUESTIONS};

const LOW: i32 = i32::MIN;
const HIGH: i32 = i32::MAX;
const LARGE: u32 = 65_536;

pub struct DeepRow {
    pub name: &'static str,
    pub tree: Tree,
    /// The store at the start, with an entry for each location.
    pub store: Vec<i32>,
    /// T of the run with fuel enough; 0 for a row that is refused.
    pub steps: u32,
    /// The line of that run.
    pub line: String,
    /// Fuels, and what the gate asks of the row with each.
    pub gate: Vec<(u32, &'static str)>,
}

/// A run and its end: the outcome, T, K and the store.
fn ends(name: &'static str, tree: Tree, store: &[i32], outcome: &str, steps: u32, loops: u32, after: &[i32]) -> DeepRow {
    let entries: String = after.iter().map(|value| format!(" {value}")).collect();
    let line = format!("{outcome} steps {steps} loops {loops} |{entries}");
    DeepRow { name, tree, store: store.to_vec(), steps, line, gate: vec![] }
}

impl DeepRow {
    fn asked(self, gate: &[(u32, &'static str)]) -> DeepRow {
        DeepRow { gate: gate.to_vec(), ..self }
    }

    /// Run with these fuels.
    fn run(self, fuels: &[u32]) -> DeepRow {
        let gate: Vec<_> = fuels.iter().map(|&fuel| (fuel, "r")).collect();
        self.asked(&gate)
    }

    pub fn row(&self, fuel: u32) -> Row {
        Row { bytes: store_routine(self.store.len() as u8, &self.tree), fuel, store: self.store.clone() }
    }
}

/// l0 := (!l0 + n)
fn add(n: i32) -> Tree {
    assign(0, plus(deref(0), int(n)))
}

/// Loops in bodies about the step l0 := (!l0 + 1).
fn counting(loops: usize, test: impl Fn() -> Tree) -> Tree {
    times(loops, add(1), |e| whilst(test(), e))
}

/// Count 256, l0 read or written at the deepest place: 256 forms around it.
pub fn values() -> Vec<DeepRow> {
    let below = |e: Tree| iff(geq(e, int(0)), int(-1), int(1));
    let not = |e: Tree| iff(e, boolean(false), boolean(true));
    // enter d loops, each by `while`, `deref`, `geq` and `if-true`; two turns of the innermost and its last test; then `seq` and the last test of each other
    let d = 254;
    let nested = 4 * d + 4 + (4 + 4) + 4 + 5 * (d - 1);
    vec![
        ends("256 sums to the right of l0", sums_right(256, deref(0)), &[7], "value 263", 257, 0, &[7])
            .asked(&[(0, "cr"), (1, "r"), (2, "r"), (3, "r"), (255, "r"), (256, "rx"), (257, "r"), (258, "r"), (u32::MAX, "r")]),
        ends("256 sums to the left of l0", sums_left(256, deref(0)), &[7], "value 263", 257, 0, &[7])
            .asked(&[(0, "cr"), (1, "r"), (2, "r"), (3, "r"), (255, "r"), (256, "rx"), (257, "r"), (258, "r"), (u32::MAX, "r")]),
        ends("an assignment of 255 sums to the right", assign(0, sums_right(255, deref(0))), &[7], "value skip", 257, 0, &[262]).run(&[0, 1, 2, 255, 256, 257]),
        ends("an assignment of 255 sums to the left", assign(0, sums_left(255, deref(0))), &[7], "value skip", 257, 0, &[262]).run(&[0, 1, 2, 255, 256, 257]),
        // each turns the sign about, the first makes -1 of 7
        ends("128 ifs over comparisons", times(128, deref(0), below), &[7], "value 1", 257, 0, &[7]).run(&[0, 1, 2, 3, 256, 257]),
        ends("255 ifs in tests over a comparison", times(255, geq(deref(0), int(7)), not), &[7], "value false", 257, 0, &[7]).run(&[0, 1, 2, 257]),
        ends("254 first parts over an assignment", times(254, add(1), |e| seq(e, add(1))), &[7], "value skip", 3 + 254 * 4, 0, &[262]).run(&[2, 1019]),
        ends("254 loops in bodies", counting(d as usize, || geq(int(1), deref(0))), &[0], "value skip", nested, 2 * d + 1, &[2])
            .asked(&[(4 * d - 1, "r"), (4 * d, "r"), (4 * d + 1, "rx"), (4 * d + 2, "r"), (4 * d + 3, "r"), (nested - 1, "r"), (nested, "r")]),
        // the test: `while`, `deref`, 254 sums, `geq`, an if; three of them, and two bodies with their `seq`
        ends("a loop's test of 255", whilst(geq(sums_right(254, deref(0)), int(255)), add(-1)), &[2], "value skip", 3 * 258 + 2 * 4, 3, &[0])
            .run(&[0, 1, 2, 3, 262, 263, 264, 265, 782]),
        // the body: `deref`, 254 sums, `assign`; two of them with their `seq`, and three tests of 4 steps
        ends(
            "a loop's body of 255",
            whilst(geq(deref(0), int(1)), assign(0, sums_right(253, plus(deref(0), int(-254))))),
            &[2],
            "value skip",
            3 * 4 + 2 * 257,
            3,
            &[0],
        )
        .run(&[4, 5, 6, 265, 266, 267, 526]),
        ends("both sides of 255", plus(sums_left(255, deref(0)), sums_right(255, deref(0))), &[7], "value 524", 513, 0, &[7]).run(&[256, 257, 513]),
        // 2 sums, and 127 times two sums, two ifs and a sequence
        ends("256 sums, second parts and branches", sums_and_free(256, deref(0)), &[7], "value 263", 1 + 2 + 127 * 5, 0, &[7]).run(&[381, 382, 638]),
        // the last sum of all is just in the range
        ends("the range's end outside 255 sums", plus(int(HIGH), sums_right(255, deref(0))), &[-255], "value 2147483647", 257, 0, &[-255]).run(&[257]),
    ]
}

/// Sums out of range at the deepest place, and outside all others.
pub fn overflows() -> Vec<DeepRow> {
    let high = || plus(deref(0), int(HIGH));
    let first_steps = [(0, "r"), (1, "rt"), (2, "r")];
    vec![
        ends("an overflow inside 255 sums to the right", sums_right(255, high()), &[1], "overflow at 257", 1, 0, &[1]).asked(&first_steps),
        ends("an overflow inside 255 sums to the left", sums_left(255, high()), &[1], "overflow at 2", 1, 0, &[1]).asked(&first_steps),
        ends("an overflow inside an assignment of 254 sums", assign(0, sums_right(254, plus(deref(0), int(LOW)))), &[-1], "overflow at 256", 1, 0, &[-1]).asked(&first_steps),
        ends("an overflow outside 255 sums", plus(int(HIGH), sums_right(255, deref(0))), &[-254], "overflow at 512", 256, 0, &[-254]).run(&[254, 255, 256, 257]),
        // enter 254 loops by `while` and `if-true`, then `deref`
        ends("an overflow inside 254 loops", counting(254, || boolean(true)), &[HIGH], "overflow at 256", 509, 254, &[HIGH]).run(&[507, 508, 509, 510]),
    ]
}

/// The ends of `by_each_form(256)` with l0 = 7: the outcome, T and K; or the refusal.
const ENDS: [Result<(&str, u32, u32), &str>; 15] = [
    Ok(("value 263", 257, 0)),
    Ok(("value 263", 257, 0)),
    // the second comparison from within; to the right all the other numbers stand before it
    Err("refused 21 at 4"),
    Err("refused 22 at 258"),
    Ok(("value skip", 256, 0)),
    Ok(("value true", 256, 0)),
    Ok(("value skip", 257, 0)),
    Err("refused 21 at 2"),
    // the second loop from within
    Err("refused 21 at 4"),
    // each loop: `while`, the loop in its test, `seq`, `if-false`; but the innermost test has no loop
    Ok(("value skip", 128 * 3, 128)),
    // the outermost only
    Ok(("value skip", 2, 1)),
    // 128 times the sign turned about
    Ok(("value 1", 257, 0)),
    Ok(("value 263", 638, 0)),
    Ok(("value skip", 2, 1)),
    // 85 skips, the integer, an assignment, the sequence, and the assignment about it
    Err("refused 21 at 88"),
];

/// Counts 256 and 257 by each form that can carry them.
fn counts() -> Vec<DeepRow> {
    let in_range = by_each_form(256).into_iter().zip(ENDS).map(|((name, tree), end)| match end {
        Ok((outcome, steps, loops)) => {
            let after = if name == "an assignment of sums" { 262 } else { 7 };
            ends(name, tree, &[7], outcome, steps, loops, &[after]).asked(&[(1, "c")])
        }
        Err(line) => refused(name, tree, line, "c"),
    });
    let over = by_each_form(257).into_iter().enumerate().map(|(i, (name, tree))| refused(name, tree, "refused 9", ["c", "cr", "cx", "ct"][i % 4]));
    in_range.chain(over).collect()
}

/// A row that is refused, with m 1.
fn refused(name: &'static str, tree: Tree, line: &str, asked: &'static str) -> DeepRow {
    DeepRow { name, tree, store: vec![7], steps: 0, line: line.to_string(), gate: vec![(1, asked)] }
}

/// Where 256 and 257 meet.
fn places() -> Vec<DeepRow> {
    let line = |at: Option<usize>| at.map_or("refused 9".to_string(), |node| format!("refused 21 at {node}"));
    by_each_place().into_iter().map(|(name, tree, at)| refused(name, tree, &line(at), "c")).collect()
}

/// Depths in the hundreds and thousands, and a count of 1 or 2, or of 256 at the end.
fn lists() -> Vec<DeepRow> {
    let zeros = [0, 0, 0];
    let turn = || joined((1..=300).map(|i| assign(1, int(i))).chain([add(-1)]).collect());
    vec![
        ends("300 assignments", list(300), &zeros, "value skip", 599, 0, &[300, 298, 299]).asked(&[(300, "r"), (590, "x"), (598, "r"), (599, "r"), (u32::MAX, "r")]),
        ends("1300 assignments", list(1300), &zeros, "value skip", 2599, 0, &[1299, 1300, 1298]).asked(&[(5, "xt"), (u32::MAX, "r")]),
        ends("1365 assignments", list(1365), &zeros, "value skip", 2729, 0, &[1365, 1363, 1364]).asked(&[(2728, "cr")]),
        ends("2048 skips", skips(2047, skip()), &[], "value skip", 2047, 0, &[]).asked(&[(2047, "r"), (2, "t")]),
        ends("4096 nodes, skips before an assignment", skips(2047, assign(0, int(7))), &[0], "value skip", 2048, 0, &[7]).asked(&[(2040, "x")]),
        refused("4097 nodes, skips", skips(2048, skip()), "refused 5", ""),
        ends("1365 ifs in third parts", thirds(1365, deref(0)), &[7], "value 7", 1366, 0, &[7]).asked(&[(1366, "r")]),
        ends("1365 ifs in second parts", seconds(1365, deref(0)), &[7], "value 7", 1366, 0, &[7]).asked(&[(1365, "r"), (3, "t")]),
        ends("a table of 818, the 700th", table(818), &[700], "value 700", 2100, 0, &[700]).asked(&[(2100, "cr")]),
        ends("a table of 818, none", table(818), &[819], "value 0", 2454, 0, &[819]),
        // each of two turns: 4 for the test, 300 assignments with a `seq`, 3, and the loop's `seq`; and the last test
        ends("a loop over 300 assignments", whilst(geq(deref(0), int(1)), turn()), &[2, 0], "value skip", 2 * (4 + 600 + 3 + 1) + 4, 3, &[0, 300])
            .asked(&[(609, "rx"), (1219, "r"), (u32::MAX, "r")]),
        ends("300 assignments in the first part of 300", seq(list(300), list(300)), &zeros, "value skip", 1199, 0, &[300, 298, 299]).run(&[1199]),
        ends("1300 assignments in a branch not taken", iff(boolean(true), skip(), list(1300)), &zeros, "value skip", 1, 0, &zeros),
        ends("256 sums behind 300 skips", skips(300, sums_right(256, deref(0))), &[7], "value 263", 557, 0, &[7]).run(&[300, 301, 302, 557]),
        ends("256 sums behind 1791 skips", skips(1791, sums_right(256, deref(0))), &[7], "value 263", 2048, 0, &[7]).run(&[2048]),
        refused("257 sums behind 1791 skips", skips(1791, sums_right(257, deref(0))), "refused 5", ""),
        refused("257 sums behind 1700 skips", skips(1700, sums_right(257, deref(0))), "refused 9", "c"),
        // 1,919 skips, an integer, and the second assignment
        refused("as deep as can be", deepest(), "refused 21 at 1921", "c"),
    ]
}

pub fn deep_rows() -> Vec<DeepRow> {
    let mut all = values();
    all.extend(overflows());
    all.extend(counts());
    all.extend(places());
    all.extend(lists());
    all
}

/// What the gate asks of these rows, as far as it is one of the questions.
pub fn gate_records(question: u8) -> Vec<u8> {
    let asks = |row: &DeepRow| {
        let fuels = row.gate.iter().filter(|(_, questions)| questions.as_bytes().contains(&question));
        fuels.flat_map(|&(fuel, _)| record(question, &row.row(fuel))).collect::<Vec<u8>>()
    };
    deep_rows().iter().flat_map(asks).collect()
}

/// A row with the fuels that are told for it, and those about its start and its end.
fn fuels(row: &DeepRow) -> Vec<u32> {
    let mut fuels: Vec<u32> = row.gate.iter().map(|&(fuel, _)| fuel).collect();
    fuels.extend([0, 1, 2, row.steps.saturating_sub(1), row.steps, row.steps + 1, traced(row), u32::MAX]);
    fuels.sort();
    fuels.dedup();
    fuels
}

/// Each row run with the largest fuel: these have the lines of the rows.
pub fn run_records() -> Vec<u8> {
    deep_rows().iter().flat_map(|row| record(b'r', &row.row(u32::MAX))).collect()
}

/// The steps that a row is traced for: all of them. But where each loop under way keeps a copy of its body, the text of a moment can be of a million bytes: such rows are
/// traced for a few steps only.
fn traced(row: &DeepRow) -> u32 {
    if row.name.contains("254 loops") { 40 } else { row.steps }
}

/// Each row traced.
pub fn trace_records() -> Vec<u8> {
    deep_rows().iter().flat_map(|row| record(b't', &row.row(traced(row)))).collect()
}

/// All these rows, with all fuels: the questions about a row and its store of each, and of each row once that its text is stored and that it is written.
pub fn deep_records(questions: &str) -> Vec<u8> {
    let mut out = Vec::new();
    for row in deep_rows() {
        for fuel in fuels(&row) {
            let asked = questions.bytes().filter(|&q| QUESTIONS.as_bytes().contains(&q) && (q != b't' || fuel <= 2 || fuel == traced(&row)));
            asked.for_each(|question| out.extend(record(question, &row.row(fuel))));
        }
        if questions.contains('s') {
            let text = text(&row.tree).into_bytes();
            out.extend(record(b's', &Row { bytes: text, fuel: LARGE, store: row.store.clone() }));
        }
        if questions.contains('w') {
            out.extend(record(b'w', &row.row(LARGE)));
        }
    }
    out
}

/// A line for each row and fuel.
pub fn names() -> Vec<String> {
    deep_rows().iter().flat_map(|row| fuels(row).into_iter().map(|fuel| format!("{}, fuel {fuel}", row.name))).collect()
}
