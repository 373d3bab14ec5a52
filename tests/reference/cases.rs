//! Named rows: 01's table of the training course, the mistakes of every intake, and both sides of each limit and refusal.

use crate::build::*;
use crate::expr::Tree;
use crate::inputs::inputs;
use crate::nests::{list, sums_left, sums_right};
use crate::routine::{store_nodes, store_routine, with_header};
use crate::rows::Row;

pub struct Case {
    pub name: String,
    pub row: Row,
}

pub fn case(name: &str, bytes: Vec<u8>, fuel: u32, store: Vec<i32>) -> Case {
    Case { name: name.to_string(), row: Row { bytes, fuel, store } }
}

/// A row with m declared locations, a store of zeros for them, and fuel 100.
fn tree_case(name: &str, m: u8, tree: Tree) -> Case {
    case(name, store_routine(m, &tree), 100, vec![0; m as usize])
}

pub fn countdown() -> Tree {
    whilst(geq(deref(0), int(1)), assign(0, plus(deref(0), int(-1))))
}

/// 01's table, in its order.
fn course() -> Vec<Case> {
    let row = |name: &str, tree: Tree, fuel: u32, l0: i32| case(name, store_routine(1, &tree), fuel, vec![l0]);
    vec![
        row("course 1", assign(0, plus(deref(0), int(25))), 100, 1875),
        row("course 2", int(7), 0, 0),
        row("course 3", assign(0, int(1)), 0, 9),
        row("course 4", seq(assign(0, int(1)), deref(0)), 100, 9),
        row("course 5", plus(boolean(true), skip()), 100, 0),
        row("course 6", seq(int(5), skip()), 100, 0),
        row("course 7", iff(boolean(true), int(1), skip()), 100, 0),
        tree_case("course 8", 0, deref(0)),
        row("course 9", plus(int(2147483647), int(0)), 100, 0),
        row("course 10", plus(int(2147483647), int(1)), 0, 0),
        row("course 11", whilst(boolean(false), skip()), 100, 0),
        row("course 12", whilst(boolean(true), skip()), 5, 0),
        row("course 13", countdown(), 100, 2),
        row("course 14", countdown(), 19, 2),
        row("course 15", plus(int(-2147483648), int(-1)), 100, 0),
    ]
}

/// What trainees write, and what they meant.
fn mistakes() -> Vec<Case> {
    vec![
        tree_case("a comparison in a sum", 1, plus(geq(deref(0), int(1)), int(2))),
        tree_case("a comparison on the right of a sum", 1, plus(int(2), geq(deref(0), int(1)))),
        tree_case("a number before a semicolon", 1, seq(int(5), assign(0, int(1)))),
        tree_case("a location nobody declared, written", 1, assign(1, int(3))),
        tree_case("a location nobody declared, read", 1, assign(0, deref(1))),
        tree_case("location 255 of 64", 64, deref(255)),
        tree_case("branches of two types", 1, iff(boolean(true), int(1), skip())),
        tree_case("a wrong branch that is never taken", 1, iff(boolean(true), int(1), plus(skip(), int(1)))),
        tree_case("a number as a test", 1, iff(int(1), skip(), skip())),
        tree_case("a number as a loop's test", 1, whilst(deref(0), skip())),
        tree_case("a number as a loop's body", 1, whilst(boolean(false), int(1))),
        tree_case("a boolean assigned", 1, assign(0, boolean(true))),
        tree_case("undeclared and wrong child", 1, assign(5, boolean(true))),
        tree_case("undeclared over a wrong sum", 1, assign(5, plus(int(1), boolean(true)))),
        tree_case("test not bool and branches that differ", 1, iff(int(1), int(1), skip())),
        tree_case("the second part of a sequence is free", 1, seq(skip(), boolean(true))),
    ]
}

/// n nodes: assignments in a balanced sequence.
pub fn wide(n: usize) -> Tree {
    match n {
        1 => skip(),
        2 => assign(0, int(1)),
        _ => {
            let left = (n - 1) / 2;
            seq(wide(left), wide(n - 1 - left))
        }
    }
}

fn limits() -> Vec<Case> {
    let forest = |trees: &[Tree]| {
        let mut nodes = Vec::new();
        for tree in trees {
            store_nodes(tree, &mut nodes);
        }
        with_header(1, &nodes)
    };
    vec![
        tree_case("m 64", 64, assign(63, deref(63))),
        tree_case("m 65", 65, assign(63, deref(63))),
        case("n 0", vec![0, 4, 1, 0, 0, 0], 100, vec![]),
        tree_case("n 1", 0, skip()),
        tree_case("n 4096", 1, wide(4096)),
        tree_case("n 4097", 1, wide(4097)),
        case("two trees", forest(&[skip(), skip()]), 100, vec![0]),
        case("count 256, left", store_routine(1, &sums_left(256, deref(0))), 3, vec![7]),
        case("count 257, left", store_routine(1, &sums_left(257, deref(0))), 3, vec![7]),
        case("count 256, right", store_routine(1, &sums_right(256, deref(0))), 3, vec![7]),
        case("count 257, right", store_routine(1, &sums_right(257, deref(0))), 3, vec![7]),
        case("300 assignments joined to the right", store_routine(3, &list(300)), 1, vec![0; 3]),
        case("two trees, one of count 257", forest(&[skip(), sums_left(257, int(1))]), 100, vec![0]),
        case("a store one short", store_routine(2, &assign(1, int(1))), 100, vec![4]),
        case("a store just long enough", store_routine(2, &assign(1, int(1))), 100, vec![4, 5]),
        case("a store longer than m declares nothing", store_routine(1, &assign(1, int(1))), 100, vec![4, 5]),
        case("a store longer than m", store_routine(1, &assign(0, int(1))), 100, vec![4, 5, 6]),
        tree_case("the range's lower end", 0, plus(int(-2147483648), int(0))),
        tree_case("the least number", 0, int(-2147483648)),
        tree_case("an overflow on the right first comes second", 0, plus(plus(int(2147483647), int(1)), plus(int(-2147483648), int(-1)))),
    ]
}

/// The row with one byte changed.
fn with_byte(name: &str, tree: &Tree, at: usize, byte: u8) -> Case {
    let mut bytes = store_routine(1, tree);
    bytes[at] = byte;
    case(name, bytes, 100, vec![0])
}

/// One byte of a good row made wrong: each field of the head and of a node.
fn damage() -> Vec<Case> {
    let row = assign(0, plus(deref(0), int(25)));
    let choice = iff(boolean(true), skip(), skip());
    let mut cases = vec![
        case("no bytes", vec![], 100, vec![0]),
        case("five bytes", vec![0, 3, 1, 0, 0], 100, vec![0]),
        with_byte("the count of bytes, one more", &row, 1, 37),
        with_byte("version 0", &row, 2, 0),
        with_byte("version 2", &row, 2, 2),
        with_byte("n one less", &row, 5, 3),
        with_byte("n one more", &row, 5, 5),
        with_byte("a kind not in the table", &row, 6, 10),
        with_byte("a location of 255", &row, 7, 255),
        with_byte("an unused byte of a dereference", &row, 8, 1),
        with_byte("byte 1 of an integer", &row, 15, 1),
        with_byte("bytes 2-3 of an integer", &row, 17, 1),
        with_byte("an integer's own bytes", &row, 18, 255),
        with_byte("byte 1 of a sum", &row, 23, 1),
        with_byte("the first child of a sum", &row, 25, 1),
        with_byte("the second child of a sum", &row, 27, 0),
        with_byte("the third child of a sum", &row, 29, 1),
        with_byte("the child of an assignment", &row, 33, 1),
        with_byte("the second child of an assignment", &row, 35, 1),
        with_byte("true is 1", &choice, 7, 1),
        with_byte("false is 0", &choice, 7, 0),
        with_byte("a boolean of 2", &choice, 7, 2),
        with_byte("an unused byte of skip", &choice, 15, 1),
        with_byte("the third child of an if", &choice, 37, 1),
        with_byte("the first child of an if", &choice, 33, 1),
        with_byte("a sum with no children before it", &skip(), 6, 2),
    ];
    let mut longer = store_routine(1, &row);
    longer.push(0);
    cases.push(case("a byte more than the count says", longer.clone(), 100, vec![0]));
    longer[1] += 1;
    cases.push(case("a byte more, counted", longer, 100, vec![0]));
    let mut shorter = store_routine(1, &row);
    shorter.pop();
    cases.push(case("a byte less than the count says", shorter, 100, vec![0]));
    cases
}

pub fn cases() -> Vec<Case> {
    let mut all = course();
    all.extend(mistakes());
    all.extend(limits());
    all.extend(damage());
    all.extend(inputs());
    all
}
