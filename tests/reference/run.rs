//! The run: the repetition of one step. The text after k steps.

use crate::expr::{is_value, text, Tree};
use crate::refusal::Refusal;
use crate::step::{step, Happened, Rule};
use crate::typing::accept;
use std::fmt;

/// How a run ends.
#[derive(PartialEq, Eq, Debug)]
pub enum End {
    /// With the value's text.
    Value(String),
    Overflow(usize),
    Fuel,
}

/// What is found at a moment: the run's end, or the step made.
pub enum Moment {
    End(End),
    Step(Rule, Tree),
}

/// At each moment: a value ends the run; else an overflow ends it; else spent
/// fuel ends it; else a step is made.
pub fn moment(e: &Tree, store: &mut [i32], fuel_spent: bool) -> Moment {
    if is_value(e) {
        return Moment::End(End::Value(text(e)));
    }
    if fuel_spent {
        return Moment::End(end_without_fuel(e, store));
    }
    match step(e, store) {
        Happened::Step(rule, new) => Moment::Step(rule, new),
        Happened::Overflow(number) => Moment::End(End::Overflow(number)),
        Happened::Value => unreachable!(),
    }
}

/// An overflow is found even when no fuel is left: the step is tried on a copy
/// of the store and thrown away.
fn end_without_fuel(e: &Tree, store: &[i32]) -> End {
    match step(e, &mut store.to_vec()) {
        Happened::Overflow(number) => End::Overflow(number),
        _ => End::Fuel,
    }
}

/// An ended run: its outcome, T, K and the expression it ended in.
pub struct Run {
    pub end: End,
    pub steps: u64,
    pub loops: u64,
    pub last: Tree,
}

/// `value V steps T loops K`, or with `overflow at N` or `fuel`.
impl fmt::Display for Run {
    fn fmt(&self, f: &mut fmt::Formatter) -> fmt::Result {
        match &self.end {
            End::Value(v) => write!(f, "value {v}")?,
            End::Overflow(number) => write!(f, "overflow at {number}")?,
            End::Fuel => write!(f, "fuel")?,
        }
        write!(f, " steps {} loops {}", self.steps, self.loops)
    }
}

/// The run of a well typed tree. `seen` is shown each moment after a step.
pub fn run_tree(
    tree: &Tree,
    store: &mut [i32],
    fuel: u32,
    mut seen: impl FnMut(u64, Rule, &Tree, &[i32]),
) -> Run {
    let mut last = tree.clone();
    let (mut steps, mut loops) = (0, 0);
    loop {
        match moment(&last, store, steps == fuel as u64) {
            Moment::End(end) => return Run { end, steps, loops, last },
            Moment::Step(rule, new) => {
                last = new;
                steps += 1;
                loops += (rule == Rule::While) as u64;
                seen(steps, rule, &last, store);
            }
        }
    }
}

/// The run of a stored routine, with refusals 1 to 9, 20 to 23 and 30.
pub fn run(bytes: &[u8], store: &mut [i32], fuel: u32) -> Result<Run, Refusal> {
    let (routine, _) = accept(bytes)?;
    if store.len() < routine.m {
        return Err(Refusal::Plain(30));
    }
    Ok(run_tree(&routine.tree, store, fuel, |_, _, _, _| {}))
}

/// The text after k steps, or at the run's end if that comes sooner, and T.
/// The store is only read, so the steps work on a copy.
pub fn text_after(bytes: &[u8], store: &[i32], k: u32, room: usize) -> Result<(String, u64), Refusal> {
    let after = run(bytes, &mut store.to_vec(), k)?;
    let written = text(&after.last);
    if written.len() > room {
        return Err(Refusal::Needs(32, written.len()));
    }
    Ok((written, after.steps))
}
