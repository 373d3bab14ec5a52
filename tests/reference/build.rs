//! Short names for building trees by hand. Numbers are given when stored.

use crate::expr::{node, Form, Tree};

pub fn int(n: i32) -> Tree {
    node(0, Form::Integer(n))
}

pub fn boolean(b: bool) -> Tree {
    node(0, Form::Boolean(b))
}

pub fn skip() -> Tree {
    node(0, Form::Skip)
}

pub fn deref(l: u8) -> Tree {
    node(0, Form::Deref(l))
}

pub fn assign(l: u8, e: Tree) -> Tree {
    node(0, Form::Assign(l, e))
}

pub fn plus(e1: Tree, e2: Tree) -> Tree {
    node(0, Form::Plus(e1, e2))
}

pub fn geq(e1: Tree, e2: Tree) -> Tree {
    node(0, Form::Geq(e1, e2))
}

pub fn iff(e1: Tree, e2: Tree, e3: Tree) -> Tree {
    node(0, Form::If(e1, e2, e3))
}

pub fn seq(e1: Tree, e2: Tree) -> Tree {
    node(0, Form::Seq(e1, e2))
}

pub fn whilst(e1: Tree, e2: Tree) -> Tree {
    node(0, Form::While(e1, e2))
}
