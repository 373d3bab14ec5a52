//! One small step, rule by rule as in 2.3.

use crate::expr::{is_value, node, Expr, Form, Tree};

/// The rules that do work.
#[derive(Clone, Copy, PartialEq, Eq, Debug)]
pub enum Rule {
    Plus,
    Geq,
    Deref,
    Assign,
    Seq,
    IfTrue,
    IfFalse,
    While,
}

impl Rule {
    pub fn name(self) -> &'static str {
        match self {
            Rule::Plus => "plus",
            Rule::Geq => "geq",
            Rule::Deref => "deref",
            Rule::Assign => "assign",
            Rule::Seq => "seq",
            Rule::IfTrue => "if-true",
            Rule::IfFalse => "if-false",
            Rule::While => "while",
        }
    }
}

/// What happened when a step was asked for.
pub enum Happened {
    /// The expression is a value: no rule applies.
    Value,
    /// `plus` at this node would leave the range: there is no step.
    Overflow(usize),
    /// A step by this rule; the store is already the one after it.
    Step(Rule, Tree),
}

/// One step of a well typed expression.
pub fn step(e: &Tree, store: &mut [i32]) -> Happened {
    match &e.form {
        Form::Integer(_) | Form::Boolean(_) | Form::Skip => Happened::Value,
        Form::Plus(e1, e2) => step_plus(e, e1, e2, store),
        Form::Geq(e1, e2) => step_geq(e, e1, e2, store),
        Form::If(e1, e2, e3) => step_if(e, e1, e2, e3, store),
        Form::Assign(l, e1) => step_assign(e, *l, e1, store),
        Form::Deref(l) => done(Rule::Deref, e, Form::Integer(store[*l as usize])),
        Form::Seq(e1, e2) => step_seq(e, e1, e2, store),
        Form::While(e1, e2) => step_while(e, e1, e2),
    }
}

/// A rule that does work: this form stands where e stood.
fn done(rule: Rule, e: &Expr, form: Form) -> Happened {
    Happened::Step(rule, node(e.number, form))
}

/// A rule that says where the work is done: what happened in the part happens
/// in e, whose form is then built around the part's new tree.
fn inside(part: Happened, e: &Expr, around: impl FnOnce(Tree) -> Form) -> Happened {
    match part {
        Happened::Step(rule, new) => Happened::Step(rule, node(e.number, around(new))),
        Happened::Overflow(number) => Happened::Overflow(number),
        Happened::Value => panic!("stuck at node {}: not well typed", e.number),
    }
}

/// (op +), (op1), (op2)
fn step_plus(e: &Tree, e1: &Tree, e2: &Tree, store: &mut [i32]) -> Happened {
    match (&e1.form, &e2.form) {
        (Form::Integer(n1), Form::Integer(n2)) => add(e, *n1, *n2),
        _ if !is_value(e1) => inside(step(e1, store), e, |new| Form::Plus(new, e2.clone())),
        _ => inside(step(e2, store), e, |new| Form::Plus(e1.clone(), new)),
    }
}

/// (op +): the sum of the definition's integers, if it is in our range.
fn add(e: &Tree, n1: i32, n2: i32) -> Happened {
    let n = n1 as i64 + n2 as i64;
    if (-2147483648..=2147483647).contains(&n) {
        done(Rule::Plus, e, Form::Integer(n as i32))
    } else {
        Happened::Overflow(e.number)
    }
}

/// (op >=), (op1), (op2)
fn step_geq(e: &Tree, e1: &Tree, e2: &Tree, store: &mut [i32]) -> Happened {
    match (&e1.form, &e2.form) {
        (Form::Integer(n1), Form::Integer(n2)) => done(Rule::Geq, e, Form::Boolean(n1 >= n2)),
        _ if !is_value(e1) => inside(step(e1, store), e, |new| Form::Geq(new, e2.clone())),
        _ => inside(step(e2, store), e, |new| Form::Geq(e1.clone(), new)),
    }
}

/// (if1), (if2), (if3)
fn step_if(e: &Tree, e1: &Tree, e2: &Tree, e3: &Tree, store: &mut [i32]) -> Happened {
    match e1.form {
        Form::Boolean(true) => Happened::Step(Rule::IfTrue, e2.clone()),
        Form::Boolean(false) => Happened::Step(Rule::IfFalse, e3.clone()),
        _ => inside(step(e1, store), e, |new| Form::If(new, e2.clone(), e3.clone())),
    }
}

/// (assign1), (assign2)
fn step_assign(e: &Tree, l: u8, e1: &Tree, store: &mut [i32]) -> Happened {
    match e1.form {
        Form::Integer(n) => {
            store[l as usize] = n;
            done(Rule::Assign, e, Form::Skip)
        }
        _ => inside(step(e1, store), e, |new| Form::Assign(l, new)),
    }
}

/// (seq1), (seq2)
fn step_seq(e: &Tree, e1: &Tree, e2: &Tree, store: &mut [i32]) -> Happened {
    match e1.form {
        Form::Skip => Happened::Step(Rule::Seq, e2.clone()),
        _ => inside(step(e1, store), e, |new| Form::Seq(new, e2.clone())),
    }
}

/// (while)
fn step_while(e: &Tree, e1: &Tree, e2: &Tree) -> Happened {
    let again = node(e.number, Form::Seq(e2.clone(), e.clone()));
    let skip = node(e.number, Form::Skip);
    done(Rule::While, e, Form::If(e1.clone(), again, skip))
}
