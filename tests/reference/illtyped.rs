//! KIND illtyped: sound layouts that the check refuses by 20 to 23.

use crate::build::*;
use crate::chains::accepted_chain;
use crate::expr::{children, count, node, size, Expr, Form, Tree};
use crate::generate::{a_plain_fuel, a_store_of_any_length};
use crate::good::{a_room, an_m, good_tree, Maker};
use crate::random::Random;
use crate::routine::store_routine;
use crate::rows::Row;
use crate::typing::{type_of, Type};

pub fn illtyped_row(random: &mut Random) -> Row {
    let m = an_m(random);
    let tree = illtyped_tree(random, m);
    let bytes = store_routine(m as u8, &tree);
    Row { bytes, fuel: a_plain_fuel(random), store: a_store_of_any_length(random, m) }
}

fn illtyped_tree(random: &mut Random, m: usize) -> Tree {
    loop {
        let tree = match random.below(4) {
            0 => tree_with_slips(random, m),
            1 => course_mistake(random, m),
            _ => tree_with_mistakes(random, m),
        };
        if type_of(&tree, m).is_err() && count(&tree) <= 256 && size(&tree) <= 4096 {
            return tree;
        }
    }
}

/// A random tree in which any child may be of a wrong type; now and then a long chain, mostly with few slips, so that the first is not at its very beginning.
fn tree_with_slips(random: &mut Random, m: usize) -> Tree {
    if random.percent(8) {
        let slips = random.pick(&[1, 1, 1, 5, 100]);
        return accepted_chain(random, m, slips);
    }
    let slips = random.pick(&[2, 5, 10, 30]);
    let room = a_room(random);
    let mut maker = Maker::new(random, m, slips);
    let t = maker.any_type();
    maker.tree(t, room)
}

/// A good tree with one mistake or several planted in it.
fn tree_with_mistakes(random: &mut Random, m: usize) -> Tree {
    let mut tree = good_tree(random, m);
    let mistakes = random.pick(&[1, 1, 1, 2, 3, 5]);
    for _ in 0..mistakes {
        let place = random.below(size(&tree));
        let mistake = course_mistake(random, m);
        tree = replaced(&tree, place, &mistake);
    }
    tree
}

/// One of the mistakes of the training course.
pub fn course_mistake(random: &mut Random, m: usize) -> Tree {
    let undeclared = random.between(m as i64, 255) as u8;
    let l = random.below(m.max(1)) as u8;
    let mut maker = Maker::new(random, m, 0);
    let n = maker.tree(Type::Int, 3);
    let n2 = maker.tree(Type::Int, 2);
    let b = maker.tree(Type::Bool, 3);
    let b2 = maker.tree(Type::Bool, 1);
    let u = maker.tree(Type::Unit, 3);
    match random.below(30) {
        0 => plus(geq(n, n2), int(1)),
        1 => plus(n, geq(n2, int(0))),
        2 => plus(b, u),
        3 => plus(n, u),
        4 => geq(b, b2),
        5 => geq(n, b),
        6 => geq(u, n),
        7 => seq(n, u),
        8 => seq(b, n),
        9 => seq(int(5), skip()),
        10 => deref(undeclared),
        11 => assign(undeclared, n),
        12 => assign(undeclared, b),
        13 => assign(undeclared, plus(int(1), b)),
        14 => assign(l, b),
        15 => assign(l, u),
        16 => iff(b, n, u),
        17 => iff(b, u, b2),
        18 => iff(b, b2, n),
        19 => iff(n, n2, int(1)),
        20 => iff(u, skip(), skip()),
        21 => iff(n, b, u),
        22 => whilst(n, u),
        23 => whilst(u, n),
        24 => whilst(b, n),
        25 => whilst(b, b2),
        26 => iff(boolean(true), n, plus(int(1), b)),
        27 => whilst(boolean(false), int(5)),
        28 => seq(u, plus(b, n)),
        _ => iff(boolean(false), assign(l, b), skip()),
    }
}

/// The tree with the subtree at this post-order number replaced.
pub fn replaced(e: &Expr, place: usize, new: &Tree) -> Tree {
    let mut before = 0;
    replace(e, place, new, &mut before)
}

/// `before` counts the nodes already passed in post-order.
fn replace(e: &Expr, place: usize, new: &Tree, before: &mut usize) -> Tree {
    let parts: Vec<Tree> = children(e).into_iter().map(|c| replace(c, place, new, before)).collect();
    *before += 1;
    if *before == place + 1 {
        new.clone()
    } else {
        with_children(e, &parts)
    }
}

fn with_children(e: &Expr, parts: &[Tree]) -> Tree {
    let part = |k: usize| parts[k].clone();
    let form = match &e.form {
        Form::Integer(n) => Form::Integer(*n),
        Form::Boolean(b) => Form::Boolean(*b),
        Form::Plus(..) => Form::Plus(part(0), part(1)),
        Form::Geq(..) => Form::Geq(part(0), part(1)),
        Form::If(..) => Form::If(part(0), part(1), part(2)),
        Form::Assign(l, _) => Form::Assign(*l, part(0)),
        Form::Deref(l) => Form::Deref(*l),
        Form::Skip => Form::Skip,
        Form::Seq(..) => Form::Seq(part(0), part(1)),
        Form::While(..) => Form::While(part(0), part(1)),
    };
    node(0, form)
}
