//! The printing program `trace`.

use crate::bytes::{four_bytes, two_bytes};
use crate::expr::{text, Tree};
use crate::refusal::Refusal;
use crate::routine::Routine;
use crate::run::run_tree;
use crate::typing::accept;
use std::io::{self, Write};

/// It reads at most this many bytes.
pub const MOST_INPUT: usize = 33_035;

/// Prints the run of the input, or the refusal.
pub fn trace(input: &[u8], out: &mut impl Write) -> io::Result<()> {
    let input = &input[..input.len().min(MOST_INPUT)];
    match open_input(input) {
        Err(refusal) => writeln!(out, "{refusal}"),
        Ok((routine, fuel, values)) => print_run(&routine, fuel, values, out),
    }
}

/// The routine, the fuel and the m values.
fn open_input(input: &[u8]) -> Result<(Routine, u32, Vec<i32>), Refusal> {
    let (bytes, rest) = input.split_at(routine_length(input));
    let (routine, _) = accept(bytes)?;
    if rest.len() != 4 + 4 * routine.m {
        return Err(Refusal::Plain(40));
    }
    let fuel = four_bytes(rest, 0);
    let values = (0..routine.m).map(|l| four_bytes(rest, 4 + 4 * l) as i32).collect();
    Ok((routine, fuel, values))
}

/// 2 + L, or all the input if there are fewer.
fn routine_length(input: &[u8]) -> usize {
    if input.len() < 2 {
        return input.len();
    }
    input.len().min(2 + two_bytes(input, 0))
}

fn print_run(routine: &Routine, fuel: u32, mut values: Vec<i32>, out: &mut impl Write) -> io::Result<()> {
    print_moment(0, "start", &routine.tree, &values, out)?;
    let run = run_tree(&routine.tree, &mut values, fuel, |steps, rule, tree, store| {
        if print_moment(steps, rule.name(), tree, store, out).is_err() {
            std::process::exit(1);
        }
    });
    writeln!(out, "{run}")
}

/// One line a moment: step number, rule, text, ` |`, each location's value.
fn print_moment(steps: u64, rule: &str, tree: &Tree, store: &[i32], out: &mut impl Write) -> io::Result<()> {
    let written = if tree.width > 8192 { format!("#{}", tree.width) } else { text(tree) };
    writeln!(out, "{steps} {rule} {written} |{}", entries_text(store))
}

/// Each entry after one space.
pub fn entries_text(store: &[i32]) -> String {
    store.iter().map(|value| format!(" {value}")).collect()
}
