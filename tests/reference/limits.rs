//! KIND limits: both sides of every limit, and several faults in one row.

use crate::build::*;
use crate::chains::chain_row;
use crate::expr::{size, Tree};
use crate::generate::{a_fuel, a_plain_fuel, a_store, a_store_of_any_length, entries, steps_taken};
use crate::good::{an_m, good_tree, Maker};
use crate::illtyped::course_mistake;
use crate::nests::*;
use crate::random::Random;
use crate::routine::{store_nodes, store_routine, with_header};
use crate::rows::Row;
use crate::typing::Type;

const LOW: i32 = -2147483648;
const HIGH: i32 = 2147483647;

pub fn limits_row(random: &mut Random) -> Row {
    match random.below(100) {
        0..=7 => short_input(random),
        8..=17 => locations_at_limit(random),
        18..=22 => few_nodes(random),
        23 | 24 => many_nodes(random),
        25..=29 => deep(random),
        30..=39 => store_at_limit(random),
        40..=54 => range_ends(random),
        55..=59 => literals(random),
        60..=64 => long_straight(random),
        65..=72 => header_faults(random),
        73..=77 => faults_of_several_parts(random),
        78..=92 => fuel_at_limit(random),
        93 => nested_loops(random),
        94 => text_at_limit(random),
        _ => named_locations(random),
    }
}

/// A row of a tree with a store that serves.
fn row_of(random: &mut Random, m: usize, tree: &Tree) -> Row {
    let bytes = store_routine(m as u8, tree);
    let store = a_store(random, m);
    Row { bytes, fuel: a_plain_fuel(random), store }
}

fn bare_row(random: &mut Random, bytes: Vec<u8>) -> Row {
    Row { bytes, fuel: a_plain_fuel(random), store: entries(random, 2) }
}

/// Empty input and inputs of 1 to 7 bytes.
fn short_input(random: &mut Random) -> Row {
    let length = random.below(8);
    let mut bytes = vec![0, length.saturating_sub(2) as u8, 1, 1, 0, 1, 7, 0];
    bytes.truncate(length);
    if length > 0 && random.percent(60) {
        let at = random.below(length);
        bytes[at] = random.below(9) as u8;
    }
    bare_row(random, bytes)
}

/// m of 63, 64, 65 and more, with the locations about 64 in use.
fn locations_at_limit(random: &mut Random) -> Row {
    let m = random.pick(&[0, 1, 63, 64, 64, 64, 65, 65, 66, 128, 255]);
    let l = random.pick(&[0, 1, 62, 63, 63, 64, 65, 255]);
    let tree = match random.below(4) {
        0 => deref(l),
        1 => assign(l, int(random.integer())),
        2 => seq(assign(l, plus(deref(l), int(1))), deref(random.pick(&[0, 63]))),
        _ => good_tree(random, m.min(64)),
    };
    row_of(random, m, &tree)
}

/// n of 0 and 1.
fn few_nodes(random: &mut Random) -> Row {
    let m = random.below(3);
    let mut row = match random.below(6) {
        0 => bare_row(random, vec![0, 4, 1, m as u8, 0, 0]),
        1 => row_of(random, m, &int(5)),
        2 => row_of(random, m, &boolean(true)),
        3 => row_of(random, m, &deref(0)),
        4 => row_of(random, m, &skip()),
        _ => bare_row(random, with_header(m as u8, &[0; 8])),
    };
    if random.percent(20) {
        row.bytes[5] ^= 1;
    }
    row
}

/// n of 4,095 to 4,098 and a few far over.
fn many_nodes(random: &mut Random) -> Row {
    let n = random.pick(&[4095, 4096, 4096, 4097, 4097, 4098, 5000, 8000]);
    let tree = nodes_exactly(random, n);
    let mut row = row_of(random, 1, &tree);
    if random.percent(50) {
        row.fuel = random.pick(&[2045, 2046, 2047, 2048, 4294967295]);
    }
    row
}

/// A sum of n nodes, or an assignment of one.
pub fn nodes_exactly(random: &mut Random, n: usize) -> Tree {
    if n % 2 == 1 { balanced(random, n) } else { assign(0, balanced(random, n - 1)) }
}

/// An evenly split sum of n nodes (n odd), from small numbers.
fn balanced(random: &mut Random, n: usize) -> Tree {
    if n == 1 {
        return int(random.between(-9, 9) as i32);
    }
    let left = (n - 1) / 4 * 2 + 1;
    let e1 = balanced(random, left);
    let e2 = balanced(random, n - 1 - left);
    plus(e1, e2)
}

/// Counts 255 to 257 and others, nested in one way or in many.
fn deep(random: &mut Random) -> Row {
    if random.percent(50) {
        return chain_row(random);
    }
    let tree = if random.percent(5) { assignments(random.pick(&[1, 255, 256, 257, 1000, 4095])) } else { nested(random) };
    let mut row = row_of(random, 1, &tree);
    row.fuel = row.fuel.min(random.pick(&[0, 3, 100, 600]));
    row
}

/// A tree nested in one way: of a count about the limit, by a form that counts, or as deep as thousands by one that doesn't, around a tree of another count.
pub fn nested(random: &mut Random) -> Tree {
    let count = random.pick(&[100, 254, 255, 255, 256, 256, 256, 257, 257, 258, 300, 700]);
    let mut trees = by_each_form(count);
    let (_, tree) = trees.swap_remove(random.below(trees.len()));
    let around = random.pick(&[0, 0, 1, 2, 300, 1000, 1500, 1800]);
    // a record has room for 8,191 nodes
    if size(&tree) + 3 * around > 8000 {
        return tree;
    }
    match random.below(4) {
        0 => skips(around, tree),
        1 => thirds(around, tree),
        2 => seconds(around, tree),
        _ => tree,
    }
}

/// A store of m-1, m and m+1 entries.
fn store_at_limit(random: &mut Random) -> Row {
    let m = if random.percent(20) { 64 } else { an_m(random) };
    let tree = good_tree(random, m);
    let mut row = row_of(random, m, &tree);
    let count = random.pick(&[m.saturating_sub(1), m.saturating_sub(1), m, m + 1, 0, m + 200]);
    row.store = entries(random, count);
    row
}

/// Sums that end exactly in the range or one outside of it.
fn range_ends(random: &mut Random) -> Row {
    let part = random.integer();
    let end = random.pick(&[LOW, HIGH]);
    let past = random.between(-1, 1);
    let other = (end as i64 - part as i64 + past).clamp(LOW as i64, HIGH as i64) as i32;
    let sum = match random.below(4) {
        0 => plus(int(part), int(other)),
        1 => plus(deref(0), int(other)),
        2 => plus(plus(int(end), int(random.between(-1, 1) as i32)), int(random.between(-1, 1) as i32)),
        _ => plus(int(random.integer()), plus(int(part), int(other))),
    };
    let tree = used(random, sum);
    let mut row = row_of(random, 1, &tree);
    row.store[0] = part;
    row.fuel = random.below(8) as u32;
    row
}

/// A sum at some place of work, or at a place where none is done.
fn used(random: &mut Random, sum: Tree) -> Tree {
    match random.below(8) {
        0 => assign(0, sum),
        1 => geq(sum, int(HIGH)),
        2 => geq(int(LOW), sum),
        3 => iff(geq(sum, deref(0)), int(1), int(2)),
        4 => iff(boolean(false), sum, int(LOW)),
        5 => seq(assign(0, int(3)), sum),
        6 => whilst(geq(sum, int(0)), assign(0, plus(deref(0), int(1)))),
        _ => sum,
    }
}

/// The numbers at the range's ends as literals, in the store and compared.
fn literals(random: &mut Random) -> Row {
    let ends = [LOW, LOW + 1, -1, 0, 1, HIGH - 1, HIGH, -10, 10, -1000000000, 1000000000];
    let (a, b) = (random.pick(&ends), random.pick(&ends));
    let tree = match random.below(5) {
        0 => int(a),
        1 => geq(int(a), int(b)),
        2 => assign(0, int(a)),
        3 => geq(deref(0), int(b)),
        _ => seq(assign(0, int(a)), plus(deref(0), int(b))),
    };
    let mut row = row_of(random, 1, &tree);
    row.store[0] = a;
    row
}

/// Many assignments one after another, nested to the left or to the right: to the left each counts, to the right none.
fn long_straight(random: &mut Random) -> Row {
    let left = random.percent(50);
    let count = if left { random.pick(&[10, 40, 100, 254, 255, 256, 256, 257, 300]) } else { random.pick(&[10, 40, 256, 257, 300, 700, 1364, 1365, 1366]) };
    let mut tree = skip();
    for _ in 0..count {
        let l = random.below(3) as u8;
        let next = assign(l, if random.percent(50) { deref(0) } else { int(random.integer()) });
        tree = if left { seq(tree, next) } else { seq(next, tree) };
    }
    let mut row = row_of(random, 3, &tree);
    if random.percent(50) {
        row.fuel = (2 * count + random.below(3)) as u32;
    }
    row
}

/// Header fields wrong one by one and together.
fn header_faults(random: &mut Random) -> Row {
    let m = an_m(random);
    let tree = if random.percent(80) { good_tree(random, m) } else { skip() };
    let mut row = row_of(random, m, &tree);
    for _ in 0..random.pick(&[1, 1, 2, 3, 4]) {
        header_fault(random, &mut row.bytes);
    }
    row
}

fn header_fault(random: &mut Random, bytes: &mut Vec<u8>) {
    let count = (bytes.len() - 2) as u16;
    match random.below(8) {
        0 => bytes[..2].copy_from_slice(&random.pick(&[count + 1, count - 1, 0, 65535]).to_be_bytes()),
        1 => bytes[2] = random.pick(&[0, 2, 255]),
        2 => bytes[3] = random.pick(&[65, 66, 255]),
        3 => bytes[4..6].copy_from_slice(&random.pick(&[0u16, 4097, 65535]).to_be_bytes()),
        4 => bytes[5] ^= 1,
        5 => bytes.push(0),
        6 => bytes[6] = 10,
        _ => {
            bytes.push(0);
            bytes[..2].copy_from_slice(&(count + 1).to_be_bytes());
        }
    }
}

/// Faults of different parts in one row: 8 and 9, 7 and 8, 9 and 20 to 23, 20 to 23 and 30.
fn faults_of_several_parts(random: &mut Random) -> Row {
    let m = random.below(3);
    let deep = if random.percent(50) { firsts(260) } else { skips(100, assignments(260)) };
    let mistake = course_mistake(random, m);
    let bytes = match random.below(6) {
        0 => forest(m, &[&skip(), &deep]),
        1 => forest(m, &[&mistake, &mistake]),
        2 => store_routine(m as u8, &seq(mistake, deep)),
        3 => store_routine(m as u8, &seq(deep, mistake)),
        4 => {
            let mut bytes = forest(m, &[&skip(), &skip(), &mistake]);
            bytes[7] = 1;
            bytes
        }
        _ => store_routine(m as u8, &mistake),
    };
    Row { bytes, fuel: a_plain_fuel(random), store: a_store_of_any_length(random, m) }
}

/// A sound layout of several trees in a row.
fn forest(m: usize, trees: &[&Tree]) -> Vec<u8> {
    let mut nodes = Vec::new();
    for tree in trees {
        store_nodes(tree, &mut nodes);
    }
    with_header(m as u8, &nodes)
}

/// Fuel one below, exactly and one over what the run takes.
fn fuel_at_limit(random: &mut Random) -> Row {
    let m = 1 + random.below(3);
    let tree = if random.percent(50) { good_tree(random, m) } else { countdown(random) };
    let mut row = row_of(random, m, &tree);
    let taken = steps_taken(&row.bytes, &row.store, 1500);
    row.fuel = (taken + random.below(3) as u32).saturating_sub(1);
    row
}

/// The course's loop, its overflowing brother and the like.
fn countdown(random: &mut Random) -> Tree {
    let turns = random.below(20) as i32;
    let down = assign(0, plus(deref(0), int(-1)));
    let up = assign(0, plus(deref(0), int(1)));
    match random.below(4) {
        0 => seq(assign(0, int(turns)), whilst(geq(deref(0), int(1)), down)),
        1 => seq(assign(0, int(HIGH - turns)), whilst(boolean(true), up)),
        2 => seq(assign(0, int(LOW + turns)), seq(whilst(geq(int(0), deref(0)), down), skip())),
        _ => whilst(geq(int(turns), deref(0)), seq(skip(), up)),
    }
}

/// Loops in loops: each loop under way adds a copy of its body to the text.
fn nested_loops(random: &mut Random) -> Row {
    // with 254 of them the count is 256
    let loops: u32 = random.pick(&[3, 10, 40, 120, 253, 254, 255]);
    let mut tree = assign(0, plus(deref(0), int(1)));
    for _ in 0..loops {
        tree = whilst(geq(deref(0), int(random.between(-3, 3) as i32)), tree);
    }
    let mut row = row_of(random, 1, &tree);
    // the innermost is entered after 4 steps for each
    row.fuel = random.pick(&[1, 10, 100, 500, 1000, 4 * loops, 4 * loops + 3]);
    row.store[0] = random.integer();
    row
}

/// Texts of 8,189 to 8,195 bytes: 1,366 one-digit numbers give 8,191.
fn text_at_limit(random: &mut Random) -> Row {
    let first = random.pick(&[0, 10, 100, 1000, 10000, -1]);
    let tree = plus(int(first), digits(random, 1365));
    let mut row = row_of(random, 1, &tree);
    row.fuel = random.below(5) as u32;
    row
}

/// An evenly split sum of this many one-digit numbers.
fn digits(random: &mut Random, count: usize) -> Tree {
    if count == 1 {
        return int(random.between(0, 9) as i32);
    }
    let e1 = digits(random, count / 2);
    let e2 = digits(random, count - count / 2);
    plus(e1, e2)
}

/// Locations m-1, m and 255, and a store longer than m.
fn named_locations(random: &mut Random) -> Row {
    let m: usize = random.pick(&[0, 1, 2, 63, 64]);
    let l = random.pick(&[m.saturating_sub(1), m, m + 1, 255]) as u8;
    let mut maker = Maker::new(random, m, 0);
    let e = maker.tree(Type::Int, 4);
    let tree = if random.percent(50) { assign(l, e) } else { plus(e, deref(l)) };
    let bytes = store_routine(m as u8, &tree);
    let store = entries(random, m + 3);
    let fuel = a_fuel(random, &bytes, &store);
    Row { bytes, fuel, store }
}
