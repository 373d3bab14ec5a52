//! KIND edges: texts at the limits of what is read: the count, nodes, m, and nests of thousands.

use crate::chains::chain_tree;
use crate::expr::{size, text, Tree};
use crate::good::an_m;
use crate::limits::{nodes_exactly, nested};
use crate::random::Random;
use crate::rows::Row;
use crate::texts::{any_tree, asked};

pub fn edges_row(random: &mut Random) -> Row {
    match random.below(10) {
        0..=2 => deep(random),
        3 => many_nodes(random),
        4 => nest(random),
        5 => several_faults(random),
        _ => locations_at_limit(random),
    }
}

fn of_tree(random: &mut Random, tree: &Tree, m: usize) -> Row {
    asked(random, text(tree).into_bytes(), m, 6 + 8 * size(tree))
}

/// Counts 254 to 258, nested in one way or in many.
fn deep(random: &mut Random) -> Row {
    let m = random.below(3);
    let tree = if random.percent(50) { chain_tree(random, m) } else { nested(random) };
    of_tree(random, &tree, m)
}

/// Nodes 4,094 to 4,098.
fn many_nodes(random: &mut Random) -> Row {
    let n = random.pick(&[4094, 4095, 4096, 4096, 4097, 4097, 4098, 5000]);
    let tree = nodes_exactly(random, n);
    let m = an_m(random);
    of_tree(random, &tree, m)
}

fn locations_at_limit(random: &mut Random) -> Row {
    let tree = any_tree(random);
    let m = random.pick(&[0, 1, 62, 63, 63, 64, 64, 64, 65, 65, 66, 255, 256, 257, 319, 320, 321, 1000]);
    let mut row = of_tree(random, &tree, m);
    // 4 comes before all others
    if m > 64 && random.percent(30) {
        row.bytes.insert(0, random.pick(b" 0)x-"));
    }
    row
}

/// Thousands of openings, mostly closed, with a fault or none.
fn nest(random: &mut Random) -> Row {
    let depth = random.pick(&[255, 256, 257, 1000, 1365, 1366, 2000, 2047, 2048, 4095, 4096, 4097, 8000]);
    let (open, close) = random.pick(&[
        ("(", " + 1)"),
        ("(", " ; 1)"),
        ("(", " >= -7)"),
        ("(1 + ", ")"),
        ("(l7 := ", ")"),
        ("(l255 := ", ")"),
        ("(l256 := ", ")"),
        ("(if ", " then 1 else 0)"),
        ("(if 1 then ", " else 0)"),
        ("(while ", " do 1 done)"),
        ("(while 1 do ", " done)"),
        ("(skip ; ", ")"),
        ("(1 ; ", ")"),
        ("(if 1 then 0 else ", ")"),
        ("(if 1 then ", " else 0)"),
    ]);
    let inner = random.pick(&["1", "skip", "2147483648", "!l256", "", "("]);
    let closed = random.pick(&[0, 1, depth - 1, depth, depth, depth, depth + 1]);
    let text = [open.repeat(depth), inner.to_string(), close.repeat(closed)].concat();
    asked(random, text.into_bytes(), 1, 32_774)
}

/// Each of 51, 52, 5 and 9, or some of them in one text, and sometimes 50 behind them; a room too short for each.
fn several_faults(random: &mut Random) -> Row {
    let mut parts: Vec<&str> = Vec::new();
    for _ in 0..1 + random.below(4) {
        parts.push(random.pick(&["2147483648", "-2147483649", "!l256", "!l1000", "(l300 := 1)", "7", "(l255 := 2147483647)"]));
    }
    let count = random.pick(&[255, 256, 257]);
    let deep = ["(l0 := ".repeat(count), "1".to_string(), ")".repeat(count)].concat();
    let wide = ["((1 + 1) ; ".repeat(100), "1".to_string(), ")".repeat(100)].concat();
    if random.percent(30) {
        parts.push(&deep);
    }
    if random.percent(30) {
        parts.push(&wide);
    }
    let first = random.below(parts.len());
    parts.swap(0, first);
    let mut text = parts[1..].iter().fold(parts[0].to_string(), |text, part| format!("({text} ; {part})"));
    match random.below(8) {
        0 => text.push(' '),
        1 => drop(text.pop()),
        2 => text.insert(0, '('),
        _ => {}
    }
    let m = random.pick(&[0, 64, 64, 65]);
    let needed = random.below(1000);
    asked(random, text.into_bytes(), m, needed)
}
