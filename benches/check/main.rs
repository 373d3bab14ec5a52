//! How fast the proved check is beside a plain safe one in Rust, in one process: the same rows, the same answers, rows a second of each.

#[path = "../answer.rs"]
mod answer;
mod plain;
#[path = "../random.rs"]
mod random;
mod rows;

use answer::Answer;
use plain::{Checker, Refusal, Told, Ty};
use random::Random;
use std::hint::black_box;
use std::time::Instant;

/// The words of out before a call.
const UNTOUCHED: [u64; 4] = [u64::MAX; 4];

extern "C" {
    // A lent slice passes as a pointer and a length, a lent array as a pointer.
    fn rigvanesh_check(bytes: *const u8, length: usize, out: *mut [u64; 4]) -> Answer;
}

/// The number of the refusal and its node; after 0 the four words are type, W, read set and write set.
fn ours(bytes: &[u8], out: &mut [u64; 4]) -> Answer {
    unsafe { rigvanesh_check(bytes.as_ptr(), bytes.len(), out) }
}

/// The answer of the plain check in the same numbers; a refusal leaves the words as they were.
fn in_numbers(answer: Result<Told, Refusal>) -> (Answer, [u64; 4]) {
    match answer {
        Ok(t) => (Answer { number: 0, also: 0 }, [t.ty as u64, t.working, t.reads, t.writes]),
        Err(Refusal::Plain(c)) => (Answer { number: c as u64, also: 0 }, UNTOUCHED),
        Err(Refusal::At(c, i)) => (Answer { number: c as u64, also: i as u64 }, UNTOUCHED),
    }
}

/// Checks that both answer the same to all rows, and gives how often each code came.
fn compare(rows: &[Vec<u8>]) -> Vec<usize> {
    let mut checker = Checker::new();
    let mut codes = vec![0; 24];
    for row in rows {
        let mut out = UNTOUCHED;
        let answer = ours(row, &mut out);
        assert_eq!((answer, out), in_numbers(checker.check(row)), "{row:?}");
        codes[answer.number as usize] += 1;
    }
    codes
}

fn time(rows: &[Vec<u8>], mut one: impl FnMut(&[u8]) -> u64) -> f64 {
    let start = Instant::now();
    let mut sum = 0u64;
    for row in rows {
        sum = sum.wrapping_add(one(black_box(row)));
    }
    black_box(sum);
    start.elapsed().as_secs_f64()
}

fn bench(name: &str, rows: &[Vec<u8>], rounds: usize) {
    let codes = compare(rows);
    let mut checker = Checker::new();
    let mut out = [0u64; 4];
    let (mut best_ours, mut best_plain) = (f64::MAX, f64::MAX);
    for _ in 0..rounds {
        best_ours = best_ours.min(time(rows, |row| ours(row, &mut out).number + out[1]));
        best_plain = best_plain.min(time(rows, |row| match checker.check(row) {
            Ok(t) => t.working + (t.reads ^ t.writes) % 7 + (t.ty == Ty::Int) as u64,
            Err(_) => 1,
        }));
    }
    let count = rows.len() as f64;
    println!(
        "{name:<28} {:>8} {:>8} {:>14.0} {:>14.0} {:>8.2}",
        rows.len(),
        rows.len() - codes[0],
        count / best_ours,
        count / best_plain,
        best_plain / best_ours
    );
}

fn main() {
    let mut random = Random(2026);
    // Many refused rows, for the comparison alone.
    let odd: Vec<_> = (0..20_000).map(|_| { let size = 1 + random.below(60); rows::bad(&mut random, size) }).collect();
    let codes = compare(&odd);
    let seen: Vec<_> = codes.iter().enumerate().filter(|(_, &k)| k > 0).map(|(c, k)| format!("{c}: {k}")).collect();
    println!("{} damaged or ill-typed rows answered alike; code: rows  {}", odd.len(), seen.join(", "));
    println!("{:<28} {:>8} {:>8} {:>14} {:>14} {:>8}", "set", "rows", "refused", "ours rows/s", "Rust rows/s", "ours/Rust");
    let small = rows::rows(&mut random, 11_000, 20, 60);
    bench("20 to 60 nodes", &small, 100);
    let large = rows::rows(&mut random, 200, 4096, 4096);
    bench("4,096 nodes", &large, 100);
}
