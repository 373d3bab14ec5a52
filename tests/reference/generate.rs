//! `generate`: rows files from a seed, and the stores and fuels of the rows.

use crate::chains::chain_row;
use crate::damaged::damaged_row;
use crate::edges::edges_row;
use crate::good::good_row;
use crate::illtyped::illtyped_row;
use crate::limits::limits_row;
use crate::long::nested_row;
use crate::random::Random;
use crate::rows::{records, Row};
use crate::run::run;
use crate::spoilt::spoilt_row;
use crate::texts::{text_row, written_row};
use std::io::{self, Write};

/// So many rows, each asked each of the questions.
pub fn generate(kind: &str, seed: u64, count: u64, questions: &str, out: &mut impl Write) -> io::Result<()> {
    let mut random = Random::new(seed);
    for _ in 0..count {
        out.write_all(&records(questions, &a_row(kind, &mut random)))?;
    }
    Ok(())
}

pub fn a_row(kind: &str, random: &mut Random) -> Row {
    match kind {
        "good" => good_row(random),
        "illtyped" => illtyped_row(random),
        "damaged" => damaged_row(random),
        "limits" => limits_row(random),
        "texts" => text_row(random),
        "spoilt" => spoilt_row(random),
        "edges" => edges_row(random),
        "nested" => nested_row(random),
        "written" => written_row(random),
        "chains" => chain_row(random),
        "mixed" => {
            let one = random.pick(&["good", "good", "good", "illtyped", "damaged", "limits"]);
            a_row(one, random)
        }
        _ => {
            eprintln!("kinds: good, illtyped, damaged, limits, chains, mixed; texts, spoilt, edges for s; nested for n; written for w");
            std::process::exit(2)
        }
    }
}

pub fn entries(random: &mut Random, count: usize) -> Vec<i32> {
    (0..count).map(|_| random.integer()).collect()
}

/// A store of m entries, sometimes of more.
pub fn a_store(random: &mut Random, m: usize) -> Vec<i32> {
    let more = if random.percent(20) { 1 + random.below(5) } else { 0 };
    entries(random, m + more)
}

/// A store that may be too short as well.
pub fn a_store_of_any_length(random: &mut Random, m: usize) -> Vec<i32> {
    if random.percent(70) {
        return a_store(random, m);
    }
    let count = random.below(m + 1);
    entries(random, count)
}

/// 0, small, or some hundreds.
pub fn a_plain_fuel(random: &mut Random) -> u32 {
    match random.below(8) {
        0 => 0,
        1 | 2 => random.below(12) as u32,
        _ => random.below(1200) as u32,
    }
}

/// A fuel for an accepted routine: plain, or about what the run takes, or far
/// more than an ending run takes, or (seldom) large for a run without an end.
pub fn a_fuel(random: &mut Random, bytes: &[u8], store: &[i32]) -> u32 {
    if random.percent(30) {
        return a_plain_fuel(random);
    }
    // a long list takes thousands of steps and ends
    let most = if bytes.len() > 4000 { 3000 } else { 1000 };
    let taken = steps_taken(bytes, store, most);
    if taken < most && random.percent(40) {
        random.pick(&[u32::MAX, 4294967294, 2147483648, 100_000, 65_536])
    } else if taken < most {
        (taken + random.below(5) as u32).saturating_sub(2)
    } else if bytes.len() < 500 && random.below(200) == 0 {
        random.below(100_000) as u32
    } else {
        random.below(2000) as u32
    }
}

/// T of the run with this fuel.
pub fn steps_taken(bytes: &[u8], store: &[i32], fuel: u32) -> u32 {
    match run(bytes, &mut store.to_vec(), fuel) {
        Ok(run) => run.steps as u32,
        Err(_) => 0,
    }
}
