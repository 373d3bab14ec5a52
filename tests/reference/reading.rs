//! Texts and stored routines, as 02's request 1 has them: a text read and stored, and a stored routine written.

use crate::expr;
use crate::form::{form, Formed, Kind, Node, Number};
use crate::refusal::Refusal;
use crate::routine::{self, with_header, MOST_COUNT};

/// The stored routine of a text with m locations: 4, 50, 51, 52, 5, 9 and 53 in this order, else its bytes.
pub fn store(text: &[u8], m: usize, room: usize) -> Result<Vec<u8>, Refusal> {
    if m > 64 {
        return Err(Refusal::Plain(4));
    }
    let formed = form(text).map_err(|at| Refusal::At(50, at))?;
    test_numbers(&formed)?;
    let n = formed.nodes.len();
    if n > 4096 {
        return Err(Refusal::Plain(5));
    }
    if formed.nodes[n - 1].count > MOST_COUNT {
        return Err(Refusal::Plain(9));
    }
    if room < 6 + 8 * n {
        return Err(Refusal::Needs(53, 6 + 8 * n));
    }
    let nodes: Vec<u8> = formed.nodes.iter().flat_map(stored).collect();
    Ok(with_header(m as u8, &nodes))
}

/// 51 and 52, each at the first such number.
fn test_numbers(formed: &Formed) -> Result<(), Refusal> {
    if let Some(n) = formed.integers.iter().find(|n| value(n, -2147483648, 2147483647).is_none()) {
        return Err(Refusal::At(51, n.at));
    }
    if let Some(l) = formed.locations.iter().find(|l| value(l, 0, 255).is_none()) {
        return Err(Refusal::At(52, l.at));
    }
    Ok(())
}

/// The number, if it is in the range. One that doesn't fit 64 bits is in no range here.
fn value(number: &Number, low: i64, high: i64) -> Option<i64> {
    number.written.parse().ok().filter(|value| (low..=high).contains(value))
}

/// The 8 bytes of a node whose numbers are in range.
fn stored(node: &Node) -> [u8; 8] {
    let mut bytes = [0; 8];
    for (k, &c) in node.children.iter().enumerate() {
        bytes[2 + 2 * k..4 + 2 * k].copy_from_slice(&(c as u16).to_be_bytes());
    }
    let location = |l: &Number| l.written.parse::<u8>().unwrap();
    let (kind, argument) = match &node.kind {
        Kind::Integer(n) => {
            bytes[4..].copy_from_slice(&n.written.parse::<i32>().unwrap().to_be_bytes());
            (0, 0)
        }
        Kind::Boolean(b) => (1, *b as u8),
        Kind::Plus => (2, 0),
        Kind::Geq => (3, 0),
        Kind::If => (4, 0),
        Kind::Assign(l) => (5, location(l)),
        Kind::Deref(l) => (6, location(l)),
        Kind::Skip => (7, 0),
        Kind::Seq => (8, 0),
        Kind::While => (9, 0),
    };
    bytes[0] = kind;
    bytes[1] = argument;
    bytes
}

/// The text of any stored routine that passes 1 to 9; 32 if it has no room.
pub fn write(bytes: &[u8], room: usize) -> Result<String, Refusal> {
    let text = expr::text(&routine::read(bytes)?.tree);
    if text.len() > room {
        return Err(Refusal::Needs(32, text.len()));
    }
    Ok(text)
}
