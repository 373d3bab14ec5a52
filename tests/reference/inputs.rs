//! Named rows for `trace` and the texts: inputs too short and too long, texts at the limit of a line, and texts after k steps.

use crate::build::*;
use crate::cases::{case, countdown, Case};
use crate::expr::Tree;
use crate::generate::steps_taken;
use crate::routine::store_routine;

/// Inputs that aren't a routine, a fuel and m values. A record says its entries by fours, so a byte more or less is put behind the routine.
fn lengths() -> Vec<Case> {
    let routine = store_routine(1, &assign(0, plus(deref(0), int(25))));
    let with = |more: &[u8]| [&routine[..], more].concat();
    vec![
        case("an input of m values", routine.clone(), 3, vec![1875]),
        case("an input one byte short", with(&[0; 3]), 3, vec![]),
        case("an input four bytes short", routine.clone(), 3, vec![]),
        case("an input with three bytes of fuel", store_routine(0, &skip())[..13].to_vec(), 0, vec![]),
        case("an input one byte too long", with(&[0]), 3, vec![1875]),
        case("an input four bytes too long", routine.clone(), 3, vec![1875, 1875]),
        case("an input of one routine after another", with(&routine), 3, vec![1875]),
    ]
}

/// A count of bytes L that no routine has, with as many bytes: few, and about the 33,035 bytes that `trace` reads.
fn counts() -> Vec<Case> {
    [0, 1, 2, 3, 33_033, 33_034]
        .into_iter()
        .map(|l: usize| {
            let mut bytes = vec![(l / 256) as u8, (l % 256) as u8, 1, 1, 16, 0];
            bytes.resize(2 + l, 0);
            case(&format!("L {l}"), bytes, 100, vec![0])
        })
        .collect()
}

/// A sum of this many ones, evenly split.
fn ones(count: usize) -> Tree {
    match count {
        1 => int(1),
        _ => plus(ones(count / 2), ones(count - count / 2)),
    }
}

/// Each loop's step writes its body out once more, and the loops outside it stay: a short routine with a long text.
fn loops(depth: usize) -> Tree {
    (0..depth).fold(skip(), |e, _| whilst(boolean(true), e))
}

/// 1,365 ones and their signs are 8,185 bytes; the sum with one number more has 5 more and the number's own.
fn texts_at_limit() -> Vec<Case> {
    let row = |n: i32| store_routine(0, &plus(ones(1365), int(n)));
    vec![
        case("a text of 8,192 bytes", row(25), 0, vec![]),
        case("a text of 8,193 bytes", row(-25), 0, vec![]),
        case("a text of 8,193 bytes, and a shorter one", row(-25), 1, vec![]),
        case("a text of more than 65,536 bytes", store_routine(0, &loops(99)), 198, vec![]),
    ]
}

/// The countdown from 2 after k steps: k 0, about T, and the largest.
fn after_k() -> Vec<Case> {
    let routine = store_routine(1, &countdown());
    let t = steps_taken(&routine, &[2], 1000);
    [0, 1, t - 1, t, t + 1, u32::MAX]
        .into_iter()
        .map(|k| case(&format!("the countdown after {k}"), routine.clone(), k, vec![2]))
        .collect()
}

/// The outcomes and the rules that the course doesn't show.
fn endings() -> Vec<Case> {
    let full: Vec<i32> = (0..64).map(|l| if l % 2 == 0 { i32::MIN + l } else { i32::MAX - l }).collect();
    let choice = |b: bool| iff(geq(int(1), deref(0)), boolean(b), boolean(!b));
    vec![
        case("the value true", store_routine(1, &choice(true)), 100, vec![1]),
        case("the value false", store_routine(1, &choice(true)), 100, vec![2]),
        case("the least number, read and stored", store_routine(1, &seq(assign(0, deref(0)), deref(0))), 100, vec![i32::MIN]),
        case("64 locations, the last written", store_routine(64, &assign(63, deref(0))), 100, full),
        case("an overflow in a loop", store_routine(1, &whilst(boolean(true), assign(0, plus(deref(0), deref(0))))), 1000, vec![1 << 28]),
        case("an endless loop", store_routine(1, &whilst(boolean(true), assign(0, int(-7)))), 40, vec![0]),
    ]
}

pub fn inputs() -> Vec<Case> {
    let mut all = lengths();
    all.extend(counts());
    all.extend(texts_at_limit());
    all.extend(after_k());
    all.extend(endings());
    all
}
