//! Expressions as trees, and their text.

use std::rc::Rc;

/// A tree. Subtrees are shared by `Rc`, so that a copy made by the while rule
/// costs nothing; nothing ever changes inside a tree.
pub type Tree = Rc<Expr>;

/// An expression with its node number, and with the length of its text. What a
/// step puts in the place of a node takes over that node's number; copies by the
/// while rule keep theirs.
pub struct Expr {
    pub number: usize,
    pub width: usize,
    pub form: Form,
}

/// The forms of L1 (2.3), with integers of 32 bits.
pub enum Form {
    Integer(i32),
    Boolean(bool),
    Plus(Tree, Tree),
    Geq(Tree, Tree),
    If(Tree, Tree, Tree),
    Assign(u8, Tree),
    Deref(u8),
    Skip,
    Seq(Tree, Tree),
    While(Tree, Tree),
}

pub fn node(number: usize, form: Form) -> Tree {
    Rc::new(Expr { number, width: width(&form), form })
}

/// Values are integers, booleans and skip.
pub fn is_value(e: &Expr) -> bool {
    matches!(e.form, Form::Integer(_) | Form::Boolean(_) | Form::Skip)
}

/// The children, first to last.
pub fn children(e: &Expr) -> Vec<&Tree> {
    match &e.form {
        Form::Integer(_) | Form::Boolean(_) | Form::Deref(_) | Form::Skip => vec![],
        Form::Assign(_, e1) => vec![e1],
        Form::Plus(e1, e2) | Form::Geq(e1, e2) => vec![e1, e2],
        Form::Seq(e1, e2) | Form::While(e1, e2) => vec![e1, e2],
        Form::If(e1, e2, e3) => vec![e1, e2, e3],
    }
}

/// The count of 02's request 2, of a form whose children have these counts: integers, booleans, skip and dereference 0; an operator 1 more than the larger of its
/// sides; an assignment 1 more than its child; an if the largest of (test + 1) and its branches; a sequence the larger of (first + 1) and the second; a while 1
/// more than the larger of its two parts.
pub fn counted(form: &Form, parts: &[usize]) -> usize {
    match form {
        Form::Integer(_) | Form::Boolean(_) | Form::Skip | Form::Deref(_) => 0,
        Form::Plus(..) | Form::Geq(..) => 1 + parts[0].max(parts[1]),
        Form::Assign(..) => 1 + parts[0],
        Form::If(..) => (parts[0] + 1).max(parts[1]).max(parts[2]),
        Form::Seq(..) => (parts[0] + 1).max(parts[1]),
        Form::While(..) => 1 + parts[0].max(parts[1]),
    }
}

pub fn count(e: &Expr) -> usize {
    let parts: Vec<usize> = children(e).into_iter().map(|c| count(c)).collect();
    counted(&e.form, &parts)
}

/// The number of nodes.
pub fn size(e: &Expr) -> usize {
    1 + children(e).into_iter().map(|c| size(c)).sum::<usize>()
}

/// The text of an expression, by the forms of 01.
pub fn text(e: &Expr) -> String {
    let mut out = String::with_capacity(e.width);
    write_text(e, &mut out);
    out
}

fn write_text(e: &Expr, out: &mut String) {
    match &e.form {
        Form::Integer(n) => out.push_str(&n.to_string()),
        Form::Boolean(true) => out.push_str("true"),
        Form::Boolean(false) => out.push_str("false"),
        Form::Deref(l) => out.push_str(&format!("!l{l}")),
        Form::Skip => out.push_str("skip"),
        Form::Assign(l, e1) => write_parts(&[&format!("(l{l} := "), ")"], &[e1], out),
        Form::Plus(e1, e2) => write_parts(PLUS, &[e1, e2], out),
        Form::Geq(e1, e2) => write_parts(GEQ, &[e1, e2], out),
        Form::If(e1, e2, e3) => write_parts(IF, &[e1, e2, e3], out),
        Form::Seq(e1, e2) => write_parts(SEQ, &[e1, e2], out),
        Form::While(e1, e2) => write_parts(WHILE, &[e1, e2], out),
    }
}

/// The words of the forms, between which the parts stand.
const PLUS: &[&str] = &["(", " + ", ")"];
const GEQ: &[&str] = &["(", " >= ", ")"];
const IF: &[&str] = &["(if ", " then ", " else ", ")"];
const SEQ: &[&str] = &["(", " ; ", ")"];
const WHILE: &[&str] = &["(while ", " do ", " done)"];

/// The words with the parts between them: one word more than parts.
fn write_parts(words: &[&str], parts: &[&Tree], out: &mut String) {
    out.push_str(words[0]);
    for (part, word) in parts.iter().zip(&words[1..]) {
        write_text(part, out);
        out.push_str(word);
    }
}

/// The bytes of the text.
fn width(form: &Form) -> usize {
    let words = |words: &[&str]| words.iter().map(|word| word.len()).sum::<usize>();
    match form {
        Form::Integer(n) => (*n < 0) as usize + digits(n.unsigned_abs()),
        Form::Boolean(true) => words(&["true"]),
        Form::Boolean(false) => words(&["false"]),
        Form::Deref(l) => words(&["!l"]) + digits(*l as u32),
        Form::Skip => words(&["skip"]),
        Form::Assign(l, e1) => words(&["(l", " := ", ")"]) + digits(*l as u32) + e1.width,
        Form::Plus(e1, e2) => words(PLUS) + e1.width + e2.width,
        Form::Geq(e1, e2) => words(GEQ) + e1.width + e2.width,
        Form::If(e1, e2, e3) => words(IF) + e1.width + e2.width + e3.width,
        Form::Seq(e1, e2) => words(SEQ) + e1.width + e2.width,
        Form::While(e1, e2) => words(WHILE) + e1.width + e2.width,
    }
}

fn digits(n: u32) -> usize {
    if n < 10 { 1 } else { 1 + digits(n / 10) }
}
