//! The stored routine: refusals 1 to 9, its tree, and the way back to bytes.

use crate::bytes::{four_bytes, two_bytes};
use crate::expr::{children, count, node, Expr, Form, Tree};
use crate::refusal::Refusal;

/// The largest count that is not refused by 9.
pub const MOST_COUNT: usize = 256;

pub struct Routine {
    pub m: usize,
    pub tree: Tree,
}

/// Refusals 1 to 9 in the order of checking, else m and the tree.
pub fn read(bytes: &[u8]) -> Result<Routine, Refusal> {
    let n = test_header(bytes)?;
    let sizes = test_layout(bytes, n)?;
    if sizes[n - 1] < n {
        return Err(Refusal::Plain(8));
    }
    let tree = tree_at(bytes, n - 1);
    if count(&tree) > MOST_COUNT {
        return Err(Refusal::Plain(9));
    }
    Ok(Routine { m: bytes[3] as usize, tree })
}

/// Refusals 1 to 6, else n.
fn test_header(bytes: &[u8]) -> Result<usize, Refusal> {
    if bytes.len() < 6 {
        return Err(Refusal::Plain(1));
    }
    let count = two_bytes(bytes, 0);
    let n = two_bytes(bytes, 4);
    if count != bytes.len() - 2 {
        Err(Refusal::Plain(2))
    } else if bytes[2] != 1 {
        Err(Refusal::Plain(3))
    } else if bytes[3] > 64 {
        Err(Refusal::Plain(4))
    } else if n == 0 || n > 4096 {
        Err(Refusal::Plain(5))
    } else if count != 4 + 8 * n {
        Err(Refusal::Plain(6))
    } else {
        Ok(n)
    }
}

/// Refusal 7 at the lowest node that breaks the layout, else the number of
/// nodes in each node's subtree.
fn test_layout(bytes: &[u8], n: usize) -> Result<Vec<usize>, Refusal> {
    let mut sizes = Vec::new();
    for i in 0..n {
        match size_if_sound(stored_node(bytes, i), i, &sizes) {
            Some(size) => sizes.push(size),
            None => return Err(Refusal::At(7, i)),
        }
    }
    Ok(sizes)
}

/// The size of node i's subtree, if its 8 bytes are what the layout asks.
fn size_if_sound(stored: &[u8], i: usize, sizes: &[usize]) -> Option<usize> {
    let places = expected_children(i, child_count(stored[0])?, sizes)?;
    let mut expected = [stored[0], 0, 0, 0, 0, 0, 0, 0];
    for (k, c) in places.iter().enumerate() {
        expected[2 + 2 * k] = (c / 256) as u8;
        expected[3 + 2 * k] = (c % 256) as u8;
    }
    match stored[0] {
        0 => expected[4..8].copy_from_slice(&stored[4..8]),
        1 if stored[1] > 1 => return None,
        1 | 5 | 6 => expected[1] = stored[1],
        _ => {}
    }
    (stored == expected).then(|| 1 + places.iter().map(|&c| sizes[c]).sum::<usize>())
}

/// How many children the kind has; none for a kind not in the table.
fn child_count(kind: u8) -> Option<usize> {
    match kind {
        0 | 1 | 6 | 7 => Some(0),
        5 => Some(1),
        2 | 3 | 8 | 9 => Some(2),
        4 => Some(3),
        _ => None,
    }
}

/// The numbers the children of node i must have, first to last. The last is
/// i-1; the one before child c is c minus the number of nodes in c's subtree.
fn expected_children(i: usize, count: usize, sizes: &[usize]) -> Option<Vec<usize>> {
    let mut places = Vec::new();
    let mut next = i as i64 - 1;
    for _ in 0..count {
        if next < 0 {
            return None;
        }
        places.insert(0, next as usize);
        next -= sizes[next as usize] as i64;
    }
    Some(places)
}

fn stored_node(bytes: &[u8], i: usize) -> &[u8] {
    &bytes[6 + 8 * i..14 + 8 * i]
}

/// The tree under node i of a routine that keeps the layout.
fn tree_at(bytes: &[u8], i: usize) -> Tree {
    let stored = stored_node(bytes, i);
    let child = |k: usize| tree_at(bytes, two_bytes(stored, 2 * k));
    let form = match stored[0] {
        0 => Form::Integer(four_bytes(stored, 4) as i32),
        1 => Form::Boolean(stored[1] == 1),
        2 => Form::Plus(child(1), child(2)),
        3 => Form::Geq(child(1), child(2)),
        4 => Form::If(child(1), child(2), child(3)),
        5 => Form::Assign(stored[1], child(1)),
        6 => Form::Deref(stored[1]),
        7 => Form::Skip,
        8 => Form::Seq(child(1), child(2)),
        _ => Form::While(child(1), child(2)),
    };
    node(i, form)
}

/// The stored routine of a tree (its own node numbers are not looked at).
pub fn store_routine(m: u8, tree: &Expr) -> Vec<u8> {
    let mut nodes = Vec::new();
    store_nodes(tree, &mut nodes);
    with_header(m, &nodes)
}

/// A header that fits the nodes.
pub fn with_header(m: u8, nodes: &[u8]) -> Vec<u8> {
    let mut bytes = Vec::new();
    bytes.extend(((4 + nodes.len()) as u16).to_be_bytes());
    bytes.extend([1, m]);
    bytes.extend(((nodes.len() / 8) as u16).to_be_bytes());
    bytes.extend(nodes);
    bytes
}

/// Adds the tree's nodes in post-order and returns the number of its root.
pub fn store_nodes(e: &Expr, nodes: &mut Vec<u8>) -> usize {
    let mut stored = [0u8; 8];
    for (k, c) in children(e).into_iter().enumerate() {
        let number = store_nodes(c, nodes) as u16;
        stored[2 + 2 * k..4 + 2 * k].copy_from_slice(&number.to_be_bytes());
    }
    store_kind(&e.form, &mut stored);
    nodes.extend(stored);
    nodes.len() / 8 - 1
}

fn store_kind(form: &Form, stored: &mut [u8; 8]) {
    match form {
        Form::Integer(n) => stored[4..8].copy_from_slice(&n.to_be_bytes()),
        Form::Boolean(b) => stored[..2].copy_from_slice(&[1, *b as u8]),
        Form::Plus(..) => stored[0] = 2,
        Form::Geq(..) => stored[0] = 3,
        Form::If(..) => stored[0] = 4,
        Form::Assign(l, _) => stored[..2].copy_from_slice(&[5, *l]),
        Form::Deref(l) => stored[..2].copy_from_slice(&[6, *l]),
        Form::Skip => stored[0] = 7,
        Form::Seq(..) => stored[0] = 8,
        Form::While(..) => stored[0] = 9,
    }
}
