//! Run by `rustc --test`: 01's example, its rows, its limits, and properties
//! that 01 and 2.3 state, on generated rows.

use crate::answers::answers;
use crate::expr::{count, size, text, Tree};
use crate::faults;
use crate::generate::a_row;
use crate::nests::{assignments, sums_left};
use crate::parse::parse;
use crate::random::Random;
use crate::refusal::Refusal::{self, At, Needs, Plain};
use crate::routine::{read, store_nodes, store_routine, with_header};
use crate::rows::{read_rows, record, trace_input, Row};
use crate::run::{run, run_tree, text_after, End};
use crate::step::Rule;
use crate::trace::trace;
use crate::typing::{accept, check, type_of, work_nodes, write_set, Told, Type};
use crate::with_room;

const EXAMPLE: &[u8] = &[
    0x00, 0x24, 0x01, 0x01, 0x00, 0x04, //
    0x06, 0, 0, 0, 0, 0, 0, 0, //
    0x00, 0, 0, 0, 0, 0, 0, 0x19, //
    0x02, 0, 0, 0, 0, 1, 0, 0, //
    0x05, 0, 0, 2, 0, 0, 0, 0, //
    0, 0, 0, 0x0A, //
    0, 0, 0x07, 0x53,
];

const LOOP: &str = "(while (!l0 >= 1) do (l0 := (!l0 + -1)) done)";

fn traced(input: &[u8]) -> String {
    let mut out = Vec::new();
    trace(input, &mut out).unwrap();
    String::from_utf8(out).unwrap()
}

fn bytes_of(m: u8, routine: &str) -> Vec<u8> {
    store_routine(m, &parse(routine))
}

/// The outcome line and the store after a run with one lent entry (or none for m 0).
fn ran(m: u8, routine: &str, l0: i32, fuel: u32) -> (String, i32) {
    let mut store = vec![l0];
    match run(&bytes_of(m, routine), &mut store[..m as usize], fuel) {
        Ok(run) => (run.to_string(), store[0]),
        Err(refusal) => (refusal.to_string(), store[0]),
    }
}

fn ends(routine: &str, l0: i32, fuel: u32, line: &str, l0_after: i32) {
    assert_eq!(ran(1, routine, l0, fuel), (line.to_string(), l0_after), "{routine}");
}

fn refused(m: u8, routine: &str) -> Refusal {
    check(&bytes_of(m, routine)).unwrap_err()
}

#[test]
fn worked_example() {
    let whole = "0 start (l0 := (!l0 + 25)) | 1875\n\
                 1 deref (l0 := (1875 + 25)) | 1875\n\
                 2 plus (l0 := 1900) | 1875\n\
                 3 assign skip | 1900\n\
                 value skip steps 3 loops 0\n";
    assert_eq!(traced(EXAMPLE), whole);
    assert_eq!(bytes_of(1, "(l0 := (!l0 + 25))"), EXAMPLE[..38]);
    let told = Told { the_type: Type::Unit, w: 3, reads: 1, writes: 1 };
    assert_eq!(check(&EXAMPLE[..38]).unwrap(), told);
}

#[test]
fn rows_from_the_training_course() {
    ends("(l0 := (!l0 + 25))", 1875, 100, "value skip steps 3 loops 0", 1900);
    ends("7", 0, 0, "value 7 steps 0 loops 0", 0);
    ends("(l0 := 1)", 9, 0, "fuel steps 0 loops 0", 9);
    ends("((l0 := 1) ; !l0)", 9, 100, "value 1 steps 3 loops 0", 1);
    ends("(true + skip)", 0, 100, "refused 21 at 2", 0);
    ends("(5 ; skip)", 0, 100, "refused 21 at 2", 0);
    ends("(if true then 1 else skip)", 0, 100, "refused 23 at 3", 0);
    assert_eq!(ran(0, "!l0", 0, 100).0, "refused 20 at 0");
    ends("(2147483647 + 0)", 0, 100, "value 2147483647 steps 1 loops 0", 0);
    ends("(2147483647 + 1)", 0, 0, "overflow at 2 steps 0 loops 0", 0);
    ends("(while false do skip done)", 0, 100, "value skip steps 2 loops 1", 0);
    ends("(while true do skip done)", 0, 5, "fuel steps 5 loops 2", 0);
    ends(LOOP, 2, 100, "value skip steps 20 loops 3", 0);
    ends(LOOP, 2, 19, "fuel steps 19 loops 3", 0);
    ends("(-2147483648 + -1)", 0, 100, "overflow at 2 steps 0 loops 0", 0);
}

#[test]
fn text_of_the_endless_loop() {
    let bytes = bytes_of(1, "(while true do skip done)");
    let expected = "(skip ; (while true do skip done))";
    assert_eq!(text_after(&bytes, &[0], 5, 34).unwrap(), (expected.to_string(), 5));
    assert_eq!(text_after(&bytes, &[0], 5, 33).unwrap_err(), Needs(32, 34));
    assert_eq!(text_after(&bytes, &[], 5, 33).unwrap_err(), Plain(30));
}

#[test]
fn loop_row_w() {
    assert_eq!(check(&bytes_of(1, LOOP)).unwrap(), Told { the_type: Type::Unit, w: 6, reads: 1, writes: 1 });
}

#[test]
fn sets_count_untaken_branches() {
    let told = check(&bytes_of(64, "(if true then skip else (l63 := !l5))")).unwrap();
    assert_eq!((told.w, told.reads, told.writes), (3, 32, 1 << 63));
}

#[test]
fn typing_refusals() {
    assert_eq!(refused(1, "(l5 := (1 + true))"), At(22, 2));
    assert_eq!(refused(1, "(l5 := true)"), At(20, 1));
    assert_eq!(refused(1, "(l0 := true)"), At(21, 1));
    assert_eq!(refused(1, "(if 1 then 2 else skip)"), At(21, 3));
    assert_eq!(refused(1, "(if true then (true ; 1) else (1 ; true))"), At(21, 3));
    assert_eq!(refused(1, "(if true then 1 else (1 >= skip))"), At(22, 4));
    assert_eq!(refused(1, "(while 1 do 2 done)"), At(21, 2));
    assert_eq!(refused(1, "(while false do 2 done)"), At(22, 2));
    assert_eq!(refused(1, "((1 >= 2) + 3)"), At(21, 4));
    assert_eq!(refused(1, "(1 >= true)"), At(22, 2));
    assert_eq!(refused(1, "(!l0 + !l1)"), At(20, 1));
    assert_eq!(check(&bytes_of(1, "(skip ; true)")).unwrap().the_type, Type::Bool);
}

#[test]
fn header_refusals_in_order() {
    let good = &EXAMPLE[..38];
    let with = |changes: &[(usize, u8)]| {
        let mut bytes = good.to_vec();
        changes.iter().for_each(|&(at, byte)| bytes[at] = byte);
        check(&bytes).unwrap_err()
    };
    for length in 0..38 {
        assert_eq!(check(&good[..length]).unwrap_err(), Plain(if length < 6 { 1 } else { 2 }));
    }
    assert_eq!(with(&[(1, 0x25), (2, 2)]), Plain(2));
    assert_eq!(with(&[(2, 2), (3, 65)]), Plain(3));
    assert_eq!(with(&[(3, 65), (5, 0)]), Plain(4));
    assert_eq!(with(&[(5, 0), (6, 10)]), Plain(5));
    assert_eq!(with(&[(4, 0x10), (5, 1)]), Plain(5));
    assert_eq!(with(&[(4, 0x10), (5, 0)]), Plain(6));
    assert_eq!(with(&[(5, 3), (6, 10)]), Plain(6));
    assert_eq!(with(&[(3, 0)]), At(20, 0));
}

#[test]
fn layout_refusals() {
    let with = |at: usize, byte: u8| {
        let mut bytes = EXAMPLE[..38].to_vec();
        bytes[at] = byte;
        check(&bytes).err()
    };
    assert_eq!(with(6, 10), Some(At(7, 0)));
    assert_eq!(with(6, 9), Some(At(7, 0)));
    assert_eq!(with(7, 64), Some(At(20, 0)));
    assert_eq!(with(8, 1), Some(At(7, 0)));
    assert_eq!(with(15, 1), Some(At(7, 1)));
    assert_eq!(with(18, 1), None);
    assert_eq!(with(17, 1), Some(At(7, 1)));
    assert_eq!(with(23, 1), Some(At(7, 2)));
    assert_eq!(with(25, 1), Some(At(7, 2)));
    assert_eq!(with(27, 0), Some(At(7, 2)));
    assert_eq!(with(29, 1), Some(At(7, 2)));
    assert_eq!(with(30, 4), Some(At(7, 3)));
    assert_eq!(with(33, 1), Some(At(7, 3)));
    assert_eq!(with(31, 1), Some(At(20, 3)));
}

#[test]
fn boolean_byte() {
    let leaf = |argument| check(&with_header(0, &[1, argument, 0, 0, 0, 0, 0, 0])).err();
    assert_eq!((leaf(0), leaf(1), leaf(2)), (None, None, Some(At(7, 0))));
}

#[test]
fn forests_and_counts() {
    let mut nodes = Vec::new();
    store_nodes(&parse("(1 + 2)"), &mut nodes);
    store_nodes(&parse("(true + skip)"), &mut nodes);
    assert_eq!(check(&with_header(0, &nodes)).unwrap_err(), Plain(8));
    assert_eq!(check(&store_routine(0, &sums_left(256, parse("1")))).unwrap().w, 256);
    assert_eq!(check(&store_routine(0, &sums_left(257, parse("1")))).unwrap_err(), Plain(9));
}

#[test]
fn limits_of_n_and_m() {
    assert_eq!(check(&[0, 4, 1, 0, 0, 0]).unwrap_err(), Plain(5));
    let straight = |n: usize| with_header(0, &[7, 0, 0, 0, 0, 0, 0, 0].repeat(n));
    assert_eq!(check(&straight(1)).unwrap().the_type, Type::Unit);
    assert_eq!(check(&straight(4096)).unwrap_err(), Plain(8));
    assert_eq!(check(&straight(4097)).unwrap_err(), Plain(5));
    assert_eq!(check(&bytes_of(64, "!l63")).unwrap().reads, 1 << 63);
    assert_eq!(check(&bytes_of(65, "!l63")).unwrap_err(), Plain(4));
}

#[test]
fn trace_inputs() {
    assert_eq!(traced(&[]), "refused 1\n");
    assert_eq!(traced(&[0]), "refused 1\n");
    assert_eq!(traced(&[0, 3, 1, 1, 0, 4, 6, 0, 0]), "refused 1\n");
    assert_eq!(traced(&EXAMPLE[..37]), "refused 2\n");
    assert_eq!(traced(&EXAMPLE[..38]), "refused 40\n");
    assert_eq!(traced(&EXAMPLE[..45]), "refused 40\n");
    assert_eq!(traced(&[EXAMPLE, &[0]].concat()), "refused 40\n");
    let mut long = vec![0; 70_000];
    long[..6].copy_from_slice(&[255, 255, 1, 0, 0, 1]);
    assert_eq!(traced(&long), "refused 2\n");
    assert_eq!(traced(&[&bytes_of(0, "7")[..], &[0; 4]].concat()), "0 start 7 |\nvalue 7 steps 0 loops 0\n");
}

#[test]
fn trace_of_a_full_input() {
    let nodes = [7, 0, 0, 0, 0, 0, 0, 0].repeat(4096);
    let good = [with_header(64, &nodes), vec![0; 4 + 4 * 64]].concat();
    assert_eq!(good.len(), 33_034);
    assert_eq!(traced(&good), "refused 8\n");
}

#[test]
fn long_texts_in_the_trace() {
    for (first, shown) in [("0", false), ("10", false), ("100", true)] {
        let tree = crate::build::plus(parse(first), balanced_digits(1365));
        let line = traced(&[store_routine(0, &tree), vec![0; 4]].concat());
        assert_eq!(line.starts_with("0 start #8193 |\n"), shown);
    }
}

fn balanced_digits(count: usize) -> Tree {
    if count == 1 {
        return parse("1");
    }
    crate::build::plus(balanced_digits(count / 2), balanced_digits(count - count / 2))
}

#[test]
fn overflow_before_spent_fuel_and_value_before_both() {
    ends("((l0 := 3) ; (!l0 + 2147483647))", 9, 3, "overflow at 4 steps 3 loops 0", 3);
    ends("((l0 := 3) ; (!l0 + 2147483647))", 9, 2, "fuel steps 2 loops 0", 3);
    ends("(1 + 1)", 9, 1, "value 2 steps 1 loops 0", 9);
    ends("(1 + 1)", 9, 0, "fuel steps 0 loops 0", 9);
    ends("(if true then 1 else (2147483647 + 1))", 9, 9, "value 1 steps 1 loops 0", 9);
}

#[test]
fn overflow_in_a_second_turn_keeps_the_number() {
    let routine = "(while true do (l0 := (!l0 + 1)) done)";
    ends(routine, 2147483646, 100, "overflow at 3 steps 9 loops 2", 2147483647);
}

#[test]
fn a_longer_store_declares_nothing() {
    assert_eq!(run(&bytes_of(1, "!l1"), &mut [1, 2, 3], 9).err(), Some(At(20, 0)));
    assert_eq!(run(&bytes_of(2, "7"), &mut [1], 9).err(), Some(Plain(30)));
}

/// Rows of every kind.
fn some_rows(kind: &str, count: usize) -> Vec<Row> {
    let mut random = Random::new(7);
    (0..count).map(|_| a_row(kind, &mut random)).collect()
}

#[test]
fn rows_files_come_back() {
    with_room(|| {
        for row in some_rows("mixed", 300) {
            let (question, back) = read_rows(&record(b'x', &row)).pop().unwrap();
            assert_eq!((question, &back.bytes, back.fuel, &back.store), (b'x', &row.bytes, row.fuel, &row.store));
        }
    })
}

fn answered(file: &[u8]) -> String {
    let mut out = Vec::new();
    answers(file, &mut out).unwrap();
    String::from_utf8(out).unwrap()
}

/// The lines of 01's worked example for the seven questions.
const SMALL: [&str; 7] = [
    "unit 3 1 1\n",
    "value skip steps 3 loops 0 | 1900\n",
    "4 3 skip\nrefused 32 needs 4\n4 3 skip\n",
    "0 start (l0 := (!l0 + 25)) | 1875\n1 deref (l0 := (1875 + 25)) | 1875\n2 plus (l0 := 1900) | 1875\n\
     3 assign skip | 1900\nvalue skip steps 3 loops 0\n",
    "38 0024010100040600000000000000000000000000001902000000000100000500000200000000\n",
    "38 0024010100040600000000000000000000000000001902000000000100000500000200000000\n",
    "18 (l0 := (!l0 + 25))\n",
];

/// Where the records of `small` end: all are of one length, but that of `s`, which has a text of 18 bytes for a row of 38, and that of `n`, which has 20.
const SMALL_ENDS: [usize; 8] = [0, 51, 102, 153, 204, 235, 268, 319];

#[test]
fn each_question_has_its_lines() {
    assert_eq!(answered(&faults::small()), SMALL.concat());
}

/// A file that ends inside a record: the records before it, and a line for it, wherever it is cut.
#[test]
fn a_cut_record_is_said() {
    let file = faults::small();
    assert_eq!(file.len(), SMALL_ENDS[7]);
    for end in 0..file.len() {
        let cut = if SMALL_ENDS.contains(&end) { "" } else { "cut record\n" };
        let whole = SMALL_ENDS[1..].iter().filter(|&&ends| ends <= end).count();
        assert_eq!(answered(&file[..end]), SMALL[..whole].concat() + cut);
    }
}

#[test]
fn records_that_are_not_answered() {
    let zeros = " 0".repeat(999);
    let run = format!("value skip steps 3 loops 0 | 1900{zeros}\n");
    let room = [SMALL[0], &run, SMALL[2], "refused 40\n", "refused 4\n", "refused 4\n", SMALL[6]];
    let lines: String = (0..7).map(|q| format!("{}too many entries 1001\n{}", room[q], SMALL[q])).collect();
    assert_eq!(answered(&faults::entries_at_limit()), lines);
    let unknown = "unknown question 0\nunknown question 67\nunknown question 10\ntoo many entries 1001\nrefused 1\n";
    assert_eq!(answered(&faults::unknown_questions()), unknown);
    let whole = format!("{lines}too many entries 65535\n{unknown}{}cut record\n", SMALL[..6].concat());
    assert_eq!(answered(&faults::faults()), whole);
}

#[test]
fn kinds_are_what_they_say() {
    with_room(|| {
        assert!(some_rows("good", 2000).iter().all(|row| run(&row.bytes, &mut row.store.clone(), 0).is_ok()));
        for row in some_rows("illtyped", 2000) {
            assert!(matches!(check(&row.bytes), Err(At(20..=23, _))));
        }
    })
}

#[test]
fn texts_parse_back_and_store_back() {
    with_room(|| {
        for row in some_rows("good", 2000) {
            let routine = read(&row.bytes).unwrap();
            assert_eq!(bytes_of(routine.m as u8, &text(&routine.tree)), row.bytes);
        }
    })
}

/// A text has the length that stands with its tree. Each step keeps the type and lowers the work left by one or more, a while
/// step raises it by at most W + 1; so T is at most W + K x (W + 2). Only the
/// locations of the write set change.
#[test]
fn properties_of_steps() {
    with_room(|| {
        for row in some_rows("good", 1500) {
            let (routine, t) = accept(&row.bytes).unwrap();
            let w = work_nodes(&routine.tree);
            let mut left = w;
            let mut store = row.store.clone();
            let run = run_tree(&routine.tree, &mut store, row.fuel.min(500), |_, rule, e, _| {
                assert_eq!(type_of(e, routine.m), Ok(t));
                assert_eq!(text(e).len(), e.width);
                let now = work_nodes(e);
                assert!(if rule == Rule::While { now <= left + w + 1 } else { now < left });
                left = now;
            });
            assert!(run.steps as usize <= w + run.loops as usize * (w + 2));
            for (l, (before, after)) in row.store.iter().zip(&store).enumerate() {
                assert!(before == after || write_set(&routine.tree) >> l & 1 == 1);
            }
        }
    })
}

/// The text after k steps is the trace's line k; the last line is the run's.
#[test]
fn trace_run_and_text_agree() {
    with_room(|| {
        for mut row in some_rows("good", 400) {
            row.fuel = row.fuel.min(60);
            let lines = traced(&trace_input(&row));
            let lines: Vec<&str> = lines.lines().collect();
            for k in 0..lines.len() - 1 {
                let (written, steps) = text_after(&row.bytes, &row.store, k as u32, usize::MAX).unwrap();
                assert_eq!(steps as usize, k);
                assert!(written.len() > 8192 || lines[k].contains(&format!(" {written} |")));
            }
            let run = run(&row.bytes, &mut row.store, row.fuel).unwrap();
            assert_eq!(lines[lines.len() - 1], run.to_string());
            assert_eq!(lines.len() as u64, run.steps + 2);
        }
    })
}

/// A run with fuel T ends as with more; with less it ends by fuel (a value or
/// an overflow can't come sooner), and the stores agree with the step counts.
#[test]
fn fuel_cuts_only() {
    with_room(|| {
        for row in some_rows("good", 400) {
            let mut store = row.store.clone();
            let full = run(&row.bytes, &mut store, 300).unwrap();
            let mut again = row.store.clone();
            let exact = run(&row.bytes, &mut again, full.steps as u32).unwrap();
            assert_eq!((&exact.end, exact.steps, &again), (&full.end, full.steps, &store));
            if full.steps > 0 {
                let less = run(&row.bytes, &mut row.store.clone(), full.steps as u32 - 1).unwrap();
                assert_eq!((less.end, less.steps), (End::Fuel, full.steps - 1));
            }
        }
    })
}

/// The rows of `limits` reach every refusal of the run and both sides of the limits.
#[test]
fn limits_are_reached() {
    with_room(|| {
        let rows = some_rows("limits", 6000);
        let met = |refusal: &str| rows.iter().any(|row| {
            let answer = run(&row.bytes, &mut row.store.clone(), 0);
            answer.err().map_or(false, |r| r.to_string().split(" at").next() == Some(refusal))
        });
        for number in [1, 2, 3, 4, 5, 6, 7, 8, 9, 20, 21, 22, 23, 30] {
            assert!(met(&format!("refused {number}")), "{}", number);
        }
        let accepted: Vec<_> = rows.iter().filter_map(|row| accept(&row.bytes).ok()).collect();
        assert!(accepted.iter().any(|(routine, _)| count(&routine.tree) == 256));
        assert!(accepted.iter().any(|(routine, _)| size(&routine.tree) == 4096));
        assert!(accepted.iter().any(|(routine, _)| size(&routine.tree) == 1));
        assert!(accepted.iter().any(|(routine, _)| routine.m == 64));
    })
}

#[test]
fn deepest_layout() {
    with_room(|| {
        assert_eq!(check(&store_routine(1, &assignments(4095))).unwrap_err(), Plain(9));
    })
}
