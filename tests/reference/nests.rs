//! Trees of a given count by 02's request 2, nested in one way; and trees that are deeper than their count, because second parts of sequences and branches of ifs are free.

use crate::build::*;
use crate::expr::Tree;

/// So many forms around e, each put there by `around`.
pub fn times(count: usize, e: Tree, around: impl Fn(Tree) -> Tree) -> Tree {
    (0..count).fold(e, |e, _| around(e))
}

/// Sums of 1, nested to the left, about e.
pub fn sums_left(count: usize, e: Tree) -> Tree {
    times(count, e, |e| plus(e, int(1)))
}

pub fn sums_right(count: usize, e: Tree) -> Tree {
    times(count, e, |e| plus(int(1), e))
}

/// Each assignment the child of the next: a count more for each node. All but the first are ill typed.
pub fn assignments(count: usize) -> Tree {
    times(count, int(1), |e| assign(0, e))
}

pub fn firsts(count: usize) -> Tree {
    times(count, skip(), |e| seq(e, skip()))
}

pub fn tests(count: usize) -> Tree {
    times(count, boolean(true), |e| iff(e, boolean(true), boolean(false)))
}

/// A loop that makes no turn.
fn idle(e: Tree) -> Tree {
    whilst(boolean(false), e)
}

/// Loops in the tests of loops, each with a truth behind it, so that it can be tested. Two forms a loop: the innermost holds the odd one.
fn typed_loops_in_tests(count: usize) -> Tree {
    let inner = if count % 2 == 1 { assign(0, int(1)) } else { skip() };
    times(count / 2, inner, |e| whilst(seq(e, boolean(false)), skip()))
}

/// Ifs that test a comparison of the next: two forms each.
fn compared(count: usize) -> Tree {
    let inner = if count % 2 == 1 { plus(deref(0), int(1)) } else { deref(0) };
    times(count / 2, inner, |e| iff(geq(e, int(0)), int(-1), int(1)))
}

/// One sum or two, then two at a time with second parts and branches between them, which don't count. (An if and a sequence count at least 1, for their test and their
/// first part: around a leaf they would not be free.)
pub fn sums_and_free(count: usize, e: Tree) -> Tree {
    let inner = if count % 2 == 1 { 1 } else { 2 };
    times((count - inner) / 2, sums_left(inner, e), |e| {
        let right = plus(int(1), iff(boolean(false), int(0), e));
        seq(skip(), plus(iff(boolean(true), right, int(0)), int(1)))
    })
}

/// Loops in the bodies of loops, and about each of them a second part and a branch.
fn loops_and_free(count: usize) -> Tree {
    times(count - 1, idle(skip()), |e| idle(seq(skip(), iff(boolean(true), e, skip()))))
}

/// Assignments, first parts and tests with second parts between them, ill typed.
fn others_and_free(count: usize) -> Tree {
    let inner = if count % 3 == 0 { 3 } else { count % 3 };
    times((count - inner) / 3, assignments(inner), |e| iff(seq(assign(0, seq(skip(), e)), skip()), skip(), int(1)))
}

/// A tree of exactly this count by each form that can carry it, with m 1.
pub fn by_each_form(count: usize) -> Vec<(&'static str, Tree)> {
    vec![
        ("sums to the left", sums_left(count, deref(0))),
        ("sums to the right", sums_right(count, deref(0))),
        ("comparisons to the left", times(count, int(1), |e| geq(e, int(1)))),
        ("comparisons to the right", times(count, int(1), |e| geq(int(1), e))),
        ("first parts", firsts(count)),
        ("tests of ifs", tests(count)),
        ("an assignment of sums", assign(0, sums_right(count - 1, deref(0)))),
        ("assignments of assignments", assignments(count)),
        ("loops in tests", times(count, boolean(false), |e| whilst(e, skip()))),
        ("loops in tests, typed", typed_loops_in_tests(count)),
        ("loops in bodies", times(count, skip(), idle)),
        ("ifs over comparisons", compared(count)),
        ("sums, second parts and branches", sums_and_free(count, deref(0))),
        ("loops, second parts and branches", loops_and_free(count)),
        ("other forms, second parts and branches", others_and_free(count)),
    ]
}

/// Trees of count 256 and of 257, by the place of a part of 256 or of two parts. All are ill typed: with those of 256 stands the node of their refusal 21, the second
/// assignment of the first chain; those of 257 are refused by 9.
pub fn by_each_place() -> Vec<(&'static str, Tree, Option<usize>)> {
    let a = assignments;
    vec![
        ("a second part of 256", seq(skip(), a(256)), Some(3)),
        ("a second branch of 256", iff(boolean(true), a(256), skip()), Some(3)),
        ("a third part of 256", iff(boolean(true), skip(), a(256)), Some(4)),
        ("a first part of 255", seq(a(255), skip()), Some(2)),
        ("a first part of 256", seq(a(256), skip()), None),
        ("a test of 255", iff(a(255), skip(), skip()), Some(2)),
        ("a test of 256", iff(a(256), skip(), skip()), None),
        ("a loop's test of 255", whilst(a(255), skip()), Some(2)),
        ("a loop's test of 256", whilst(a(256), skip()), None),
        ("a loop's body of 255", whilst(boolean(true), a(255)), Some(3)),
        ("a loop's body of 256", whilst(boolean(true), a(256)), None),
        ("a left side of 256", plus(a(256), int(1)), None),
        ("a right side of 256", plus(int(1), a(256)), None),
        ("a comparison's left side of 256", geq(a(256), int(1)), None),
        ("a comparison's right side of 256", geq(int(1), a(256)), None),
        ("a second part of 257", seq(skip(), a(257)), None),
        ("a second branch of 257", iff(boolean(true), a(257), skip()), None),
        ("a third part of 257", iff(boolean(true), skip(), a(257)), None),
        ("a first part of 255 and a second of 256", seq(a(255), a(256)), Some(2)),
        ("a first part of 256 and a second of 255", seq(a(256), a(255)), None),
        ("a test of 255 and branches of 256", iff(a(255), a(256), a(256)), Some(2)),
        ("a test of 255, branches of 256 and 257", iff(a(255), a(256), a(257)), None),
        ("sides of 255", plus(a(255), a(255)), Some(2)),
        ("sides of 255 and 256", plus(a(255), a(256)), None),
        ("a loop of 255 and 255", whilst(a(255), a(255)), Some(2)),
        ("a loop of 255 and 256", whilst(a(255), a(256)), None),
    ]
}

/// Joined to the right.
pub fn joined(parts: Vec<Tree>) -> Tree {
    parts.into_iter().rev().reduce(|behind, e| seq(e, behind)).unwrap()
}

/// l1 := 1, l2 := 2, l0 := 3, l1 := 4 and so on, joined to the right: three nodes for each, less one.
pub fn list(count: usize) -> Tree {
    joined((1..=count).map(|i| assign((i % 3) as u8, int(i as i32))).collect())
}

/// Skips joined to the right, before e.
pub fn skips(count: usize, e: Tree) -> Tree {
    times(count, e, |e| seq(skip(), e))
}

/// Ifs in the third part, none of whose second parts is taken, before e.
pub fn thirds(count: usize, e: Tree) -> Tree {
    times(count, e, |e| iff(boolean(false), int(0), e))
}

/// Ifs in the second part, all taken, before e.
pub fn seconds(count: usize, e: Tree) -> Tree {
    times(count, e, |e| iff(boolean(true), e, int(0)))
}

/// The least of 1 to `count` that is not under l0: an if in the third part of an if.
pub fn table(count: usize) -> Tree {
    (1..=count as i32).rev().fold(int(0), |e, i| iff(geq(int(i), deref(0)), int(i), e))
}

/// As deep as a row can be that passes 1 to 9, but ill typed: 256 assignments behind 1,919 skips, 4,095 nodes.
pub fn deepest() -> Tree {
    skips(1919, assignments(256))
}
