//! The check: the typing rules of 2.3 as one recursive function, and what an
//! accepted routine tells.

use crate::expr::{children, Expr, Form};
use crate::refusal::Refusal;
use crate::routine::{read, Routine};

#[derive(Clone, Copy, PartialEq, Eq, Debug)]
pub enum Type {
    Int,
    Bool,
    Unit,
}

/// The type of an expression under m declared locations. Children go first and
/// from left to right, so the failure met first is at the lowest-numbered node.
pub fn type_of(e: &Expr, m: usize) -> Result<Type, Refusal> {
    match &e.form {
        Form::Integer(_) => Ok(Type::Int),
        Form::Boolean(_) => Ok(Type::Bool),
        Form::Skip => Ok(Type::Unit),
        Form::Plus(e1, e2) => type_of_operator(e, e1, e2, m, Type::Int),
        Form::Geq(e1, e2) => type_of_operator(e, e1, e2, m, Type::Bool),
        Form::If(e1, e2, e3) => type_of_if(e, e1, e2, e3, m),
        Form::Assign(l, e1) => type_of_assign(e, *l, e1, m),
        Form::Deref(l) => {
            premise(declared(*l, m), 20, e)?;
            Ok(Type::Int)
        }
        Form::Seq(e1, e2) => type_of_seq(e, e1, e2, m),
        Form::While(e1, e2) => type_of_while(e, e1, e2, m),
    }
}

/// A premise of the rule of node e: if it doesn't hold, this refusal at e.
fn premise(holds: bool, number: u32, e: &Expr) -> Result<(), Refusal> {
    if holds {
        Ok(())
    } else {
        Err(Refusal::At(number, e.number))
    }
}

fn declared(l: u8, m: usize) -> bool {
    (l as usize) < m
}

fn type_of_operator(e: &Expr, e1: &Expr, e2: &Expr, m: usize, result: Type) -> Result<Type, Refusal> {
    let t1 = type_of(e1, m)?;
    let t2 = type_of(e2, m)?;
    premise(t1 == Type::Int, 21, e)?;
    premise(t2 == Type::Int, 22, e)?;
    Ok(result)
}

fn type_of_if(e: &Expr, e1: &Expr, e2: &Expr, e3: &Expr, m: usize) -> Result<Type, Refusal> {
    let t1 = type_of(e1, m)?;
    let t2 = type_of(e2, m)?;
    let t3 = type_of(e3, m)?;
    premise(t1 == Type::Bool, 21, e)?;
    premise(t2 == t3, 23, e)?;
    Ok(t2)
}

fn type_of_assign(e: &Expr, l: u8, e1: &Expr, m: usize) -> Result<Type, Refusal> {
    let t1 = type_of(e1, m)?;
    premise(declared(l, m), 20, e)?;
    premise(t1 == Type::Int, 21, e)?;
    Ok(Type::Unit)
}

fn type_of_seq(e: &Expr, e1: &Expr, e2: &Expr, m: usize) -> Result<Type, Refusal> {
    let t1 = type_of(e1, m)?;
    let t2 = type_of(e2, m)?;
    premise(t1 == Type::Unit, 21, e)?;
    Ok(t2)
}

fn type_of_while(e: &Expr, e1: &Expr, e2: &Expr, m: usize) -> Result<Type, Refusal> {
    let t1 = type_of(e1, m)?;
    let t2 = type_of(e2, m)?;
    premise(t1 == Type::Bool, 21, e)?;
    premise(t2 == Type::Unit, 22, e)?;
    Ok(Type::Unit)
}

/// Refusals 1 to 9 and 20 to 23, else the routine and its type.
pub fn accept(bytes: &[u8]) -> Result<(Routine, Type), Refusal> {
    let routine = read(bytes)?;
    let t = type_of(&routine.tree, routine.m)?;
    Ok((routine, t))
}

/// What the check answers.
#[derive(PartialEq, Eq, Debug)]
pub struct Told {
    pub the_type: Type,
    pub w: usize,
    pub reads: u64,
    pub writes: u64,
}

pub fn check(bytes: &[u8]) -> Result<Told, Refusal> {
    let (routine, the_type) = accept(bytes)?;
    let tree = &routine.tree;
    Ok(Told { the_type, w: work_nodes(tree), reads: read_set(tree), writes: write_set(tree) })
}

/// W: the number of nodes of kinds 2 to 6, 8 and 9.
pub fn work_nodes(e: &Expr) -> usize {
    let own = match e.form {
        Form::Integer(_) | Form::Boolean(_) | Form::Skip => 0,
        _ => 1,
    };
    own + children(e).into_iter().map(|c| work_nodes(c)).sum::<usize>()
}

/// The locations under a dereference.
pub fn read_set(e: &Expr) -> u64 {
    let own = match e.form {
        Form::Deref(l) => 1u64 << l,
        _ => 0,
    };
    children(e).into_iter().fold(own, |set, c| set | read_set(c))
}

/// The locations assigned.
pub fn write_set(e: &Expr) -> u64 {
    let own = match e.form {
        Form::Assign(l, _) => 1u64 << l,
        _ => 0,
    };
    children(e).into_iter().fold(own, |set, c| set | write_set(c))
}
