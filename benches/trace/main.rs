//! How fast the proved `trace` is beside a plain safe program in Rust: the same inputs, the same bytes, lines and bytes a second of each.
//!
//! Its arguments are the paths of the two programs, the proved one first.

#[path = "../random.rs"]
mod random;
#[path = "../run/rows.rs"]
mod rows;

use random::Random;
use rows::Nodes;
use std::env;
use std::io::{BufRead, BufReader, Write};
use std::process::{Child, Command, Stdio};
use std::time::Instant;

const ROUNDS: usize = 15;

/// The program with all its input in its pipe, which has room for it.
fn start(program: &str, input: &[u8], output: Stdio) -> Child {
    let mut child = Command::new(program).stdin(Stdio::piped()).stdout(output).spawn().expect(program);
    child.stdin.take().unwrap().write_all(input).expect(program);
    child
}

/// Checks that both write the same, and gives how many lines and bytes.
fn compare(programs: &[String; 2], input: &[u8]) -> (usize, usize) {
    let mut children = programs.each_ref().map(|program| start(program, input, Stdio::piped()));
    let [mut ours, mut plain] = children.each_mut().map(|child| BufReader::with_capacity(1 << 16, child.stdout.take().unwrap()));
    let (mut lines, mut bytes) = (0, 0);
    loop {
        let (a, b) = (ours.fill_buf().unwrap(), plain.fill_buf().unwrap());
        let n = a.len().min(b.len());
        if n == 0 {
            assert_eq!(a.len(), b.len(), "one ends after {lines} lines");
            break;
        }
        assert!(a[..n] == b[..n], "they differ after {lines} lines");
        lines += a[..n].iter().filter(|&&byte| byte == b'\n').count();
        bytes += n;
        ours.consume(n);
        plain.consume(n);
    }
    for mut child in children {
        assert!(child.wait().unwrap().success());
    }
    (lines, bytes)
}

/// Seconds of a whole run of the program.
fn time(program: &str, input: &[u8]) -> f64 {
    let from = Instant::now();
    let status = start(program, input, Stdio::null()).wait().unwrap();
    let seconds = from.elapsed().as_secs_f64();
    assert!(status.success());
    seconds
}

/// The routine, the fuel and the values.
fn input(row: Vec<u8>, fuel: u32, store: &[i32]) -> Vec<u8> {
    let mut input = row;
    let m = input[3] as usize;
    input.extend(fuel.to_be_bytes());
    input.extend(store[..m].iter().flat_map(|n| n.to_be_bytes()));
    input
}

fn bench(programs: &[String; 2], name: &str, input: &[u8]) {
    let (lines, bytes) = compare(programs, input);
    let mut best = [f64::MAX; 2];
    for _ in 0..ROUNDS {
        for (best, program) in best.iter_mut().zip(programs) {
            *best = best.min(time(program, input));
        }
    }
    let [ours, plain] = best;
    println!(
        "{name:<28} {lines:>8} {:>8} {:>12.0} {:>12.0} {:>10.1} {:>10.1} {:>10.2}",
        bytes / lines,
        lines as f64 / ours,
        lines as f64 / plain,
        bytes as f64 / ours / 1e6,
        bytes as f64 / plain / 1e6,
        plain / ours
    );
}

/// Loops inside one another down to depth 256, the innermost over an assignment: each holds a copy of all those within it.
fn nested_loops() -> Vec<u8> {
    let mut nodes = Nodes(Vec::new());
    let tests: Vec<_> = (0..254).map(|_| nodes.boolean(true)).collect();
    let one = nodes.int(1);
    let mut body = nodes.add(5, 0, &[one]);
    for &test in tests.iter().rev() {
        body = nodes.add(9, 0, &[test, body]);
    }
    nodes.bytes(1)
}

fn main() {
    let words: Vec<_> = env::args().skip(1).collect();
    let programs: [String; 2] = words.try_into().expect("two programs");
    let mut random = Random(2026);

    let count = 500;
    let (mut lines, mut bytes) = (0, 0);
    for _ in 0..count {
        let store: Vec<_> = (0..4).map(|_| random.below(9) as i32 - 4).collect();
        let (l, b) = compare(&programs, &input(rows::random(&mut random), random.below(100) as u32, &store));
        lines += l;
        bytes += b;
    }
    println!("{count} random rows printed alike: {lines} lines, {bytes} bytes");
    println!(
        "{:<28} {:>8} {:>8} {:>12} {:>12} {:>10} {:>10} {:>10}",
        "set", "lines", "bytes/l", "ours lines/s", "Rust lines/s", "ours MB/s", "Rust MB/s", "ours/Rust"
    );

    let mut store: Vec<_> = (0..64).map(|l| 7 * l - 90).collect();
    store[0] = 125_000;
    let mut tight = rows::tight_loop();
    tight[3] = 1;
    bench(&programs, "tight loop", &input(tight, u32::MAX, &store));
    bench(&programs, "140 assignments", &input(rows::straight(&mut random, 140), 15_000, &store));
    bench(&programs, "depth 256, to the left", &input(rows::deep_left(&mut random), 25_000, &store));
    bench(&programs, "depth 256, to the right", &input(rows::deep_right(&mut random), 25_000, &store));
    bench(&programs, "800 assignments, #", &input(rows::straight(&mut random, 800), 300_000, &store));
    bench(&programs, "254 loops under way, #", &input(nested_loops(), 300_000, &store));
    bench(&programs, "a list of 1,300, #", &input(rows::list(&mut random, 1300), 300_000, &store));
    bench(&programs, "a list of 300", &input(rows::list(&mut random, 300), 15_000, &store));
}
