//! How fast the proved run is beside a plain safe one in Rust, in one process: the same rows, the same answers, steps a second of each.

#[path = "../answer.rs"]
mod answer;
mod plain;
#[path = "../random.rs"]
mod random;
mod rows;
#[path = "../state.rs"]
mod state;

use answer::Answer;
use plain::{Ended, Machine, Outcome, Value};
use random::Random;
use std::hint::black_box;
use std::time::Instant;

extern "C" {
    // A lent slice passes as a pointer and a length, a lent array as a pointer.
    fn rigvanesh_check(bytes: *const u8, length: usize, out: *mut [u64; 4]) -> Answer;
    fn rigvanesh_run(bytes: *const u8, length: usize, store: *mut i32, entries: usize, fuel: u32, out: *mut [u64; 4]) -> Answer;
}

/// The number (0 for a run) and four words: the kind of ending, its value or node, T and K.
fn ours(bytes: &[u8], store: &mut [i32], fuel: u32) -> (u64, [u64; 4]) {
    let mut out = [0; 4];
    let answer = unsafe { rigvanesh_run(bytes.as_ptr(), bytes.len(), store.as_mut_ptr(), store.len(), fuel, &mut out) };
    (answer.number, out)
}

/// The answer of the plain run in the same numbers.
fn in_numbers(ended: Ended) -> (u64, [u64; 4]) {
    let (kind, word) = match ended.outcome {
        Outcome::Value(Value::Int(n)) => (0, n as u32 as u64),
        Outcome::Value(Value::Bool(t)) => (1, t as u64),
        Outcome::Value(Value::Skip) => (2, 0),
        Outcome::Overflow(i) => (3, i as u64),
        Outcome::Fuel => (4, 0),
    };
    (0, [kind, word, ended.steps as u64, ended.loops as u64])
}

/// Checks that both answer the same and leave the same store; gives the kind of ending, T and K.
fn compare(row: &[u8], start: &[i32], fuel: u32) -> (usize, u64, u64) {
    let (mut ours_store, mut plain_store) = (start.to_vec(), start.to_vec());
    let answer = ours(row, &mut ours_store, fuel);
    assert_eq!(answer, in_numbers(Machine::new(row, &mut plain_store, fuel).run()), "{row:?} fuel {fuel}");
    assert_eq!(ours_store, plain_store, "{row:?} fuel {fuel}");
    let (_, [kind, _, steps, loops]) = answer;
    (kind as usize, steps, loops)
}

/// Seconds of one call, with the store put back before.
fn time(store: &mut [i32], start: &[i32], one: impl FnOnce(&mut [i32]) -> u64) -> f64 {
    store.copy_from_slice(start);
    let from = Instant::now();
    black_box(one(black_box(store)));
    from.elapsed().as_secs_f64()
}

fn bench(name: &str, row: &[u8], fuel: u32, rounds: usize) {
    let mut start = vec![0i32; 64];
    for (l, entry) in start.iter_mut().enumerate() {
        *entry = 7 * l as i32 - 90;
    }
    start[0] = 250_000;
    let (_, steps, loops) = compare(row, &start, fuel);
    let mut store = start.clone();
    let (mut best_check, mut best_ours, mut best_plain) = (f64::MAX, f64::MAX, f64::MAX);
    for _ in 0..rounds {
        best_ours = best_ours.min(time(&mut store, &start, |s| ours(black_box(row), s, fuel).1[2]));
        best_plain = best_plain.min(time(&mut store, &start, |s| Machine::new(black_box(row), s, fuel).run().steps as u64));
        let mut out = [0u64; 4];
        best_check = best_check.min(time(&mut store, &start, |_| {
            let row = black_box(row);
            unsafe { rigvanesh_check(row.as_ptr(), row.len(), &mut out) }.number
        }));
    }
    println!(
        "{name:<24} {:>6} {steps:>10} {loops:>8} {:>14.1} {:>14.1} {:>10.2} {:>9.3}%",
        (row.len() - 6) / 8,
        steps as f64 / best_ours / 1e6,
        steps as f64 / best_plain / 1e6,
        best_plain / best_ours,
        100.0 * best_check / best_ours
    );
}

fn main() {
    let mut random = Random(2026);
    let mut kinds = [0usize; 5];
    let count = 200_000;
    for _ in 0..count {
        let row = rows::random(&mut random);
        let start: Vec<_> = (0..4 + random.below(2)).map(|_| random.below(9) as i32 - 4).collect();
        let fuel = random.below(100) as u32;
        kinds[compare(&row, &start, fuel).0] += 1;
    }
    let [int, boolean, skip, overflow, fuel] = kinds;
    println!("{count} random rows ended alike: {int} int, {boolean} bool, {skip} skip, {overflow} overflow, {fuel} fuel");
    println!(
        "{:<24} {:>6} {:>10} {:>8} {:>14} {:>14} {:>10} {:>10}",
        "set", "nodes", "T", "K", "ours M steps/s", "Rust M steps/s", "ours/Rust", "check/run"
    );
    let fuel = 2_000_000;
    bench("tight loop", &rows::tight_loop(), u32::MAX, 200);
    bench("depth 256, to the left", &rows::deep_left(&mut random), fuel, 200);
    bench("depth 256, to the right", &rows::deep_right(&mut random), fuel, 200);
    bench("straight", &rows::straight(&mut random, 800), fuel, 200);
    bench("list of 1,300", &rows::list(&mut random, 1300), fuel, 200);
}
