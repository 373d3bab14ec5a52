//! KIND damaged: rows with their bytes spoiled.

use crate::good::good_row;
use crate::illtyped::illtyped_row;
use crate::random::Random;
use crate::routine::with_header;
use crate::rows::Row;

pub fn damaged_row(random: &mut Random) -> Row {
    let mut row = if random.percent(85) { good_row(random) } else { illtyped_row(random) };
    row.fuel = row.fuel.min(2000);
    let times = random.pick(&[1, 1, 1, 1, 2, 3]);
    for _ in 0..times {
        damage(random, &mut row.bytes);
    }
    row
}

fn damage(random: &mut Random, bytes: &mut Vec<u8>) {
    if bytes.len() < 14 {
        return bytes.push(random.next() as u8);
    }
    match random.below(20) {
        0 | 1 => change_a_byte(random, bytes),
        2 => change_a_bit(random, bytes),
        3 => cut_short(random, bytes),
        4 => extend(random, bytes),
        5 => change_header(random, bytes),
        6 | 7 => move_a_child(random, bytes),
        8 => give_a_kind(random, bytes, 10, 255),
        9 | 10 => give_a_kind(random, bytes, 0, 9),
        11 => set_a_byte_of_a_node(random, bytes),
        12 => two_trees(random, bytes),
        13 => drop_nodes(random, bytes),
        14 => repeat_a_node(random, bytes),
        15 => bytes[3] = random.pick(&[0, 1, 64, 65, 255]),
        16 => wrong_n(random, bytes),
        17 | 18 => change_an_argument(random, bytes),
        _ => swap_nodes(random, bytes),
    }
}

fn change_a_byte(random: &mut Random, bytes: &mut [u8]) {
    let at = random.below(bytes.len());
    bytes[at] = random.next() as u8;
}

fn change_a_bit(random: &mut Random, bytes: &mut [u8]) {
    let at = random.below(bytes.len());
    bytes[at] ^= 1 << random.below(8);
}

fn cut_short(random: &mut Random, bytes: &mut Vec<u8>) {
    let left = if random.percent(50) { bytes.len() - 1 - random.below(8) } else { random.below(bytes.len()) };
    bytes.truncate(left);
    mend_count(random, bytes);
}

fn extend(random: &mut Random, bytes: &mut Vec<u8>) {
    let count = random.pick(&[1, 2, 4, 7, 8, 9, 16]);
    for _ in 0..count {
        bytes.push(if random.percent(50) { 0 } else { random.next() as u8 });
    }
    mend_count(random, bytes);
}

/// Sometimes bytes 0-1 follow a change of length, so that 2 doesn't hide the rest.
fn mend_count(random: &mut Random, bytes: &mut [u8]) {
    if bytes.len() >= 2 && random.percent(60) {
        let count = (bytes.len() - 2) as u16;
        bytes[..2].copy_from_slice(&count.to_be_bytes());
    }
}

fn change_header(random: &mut Random, bytes: &mut [u8]) {
    let at = random.below(6);
    bytes[at] = match random.below(3) {
        0 => bytes[at].wrapping_add(1),
        1 => bytes[at].wrapping_sub(1),
        _ => random.next() as u8,
    };
}

fn nodes_in(bytes: &[u8]) -> usize {
    (bytes.len() - 6) / 8
}

/// Where a random node starts.
fn a_node(random: &mut Random, bytes: &[u8]) -> usize {
    6 + 8 * random.below(nodes_in(bytes))
}

/// A child number off by one (or another field of the node, if it has no children).
fn move_a_child(random: &mut Random, bytes: &mut [u8]) {
    let at = a_node(random, bytes) + random.pick(&[2, 4, 6]);
    let number = u16::from_be_bytes([bytes[at], bytes[at + 1]]);
    let moved = number.wrapping_add(random.pick(&[1, 65535, 2, 256]));
    bytes[at..at + 2].copy_from_slice(&moved.to_be_bytes());
}

fn give_a_kind(random: &mut Random, bytes: &mut [u8], low: i64, high: i64) {
    let at = a_node(random, bytes);
    bytes[at] = random.between(low, high) as u8;
}

/// A byte that the node's kind uses for an integer, a boolean or a location
/// (for other kinds the kind itself, to one of the like): the layout may stay sound.
fn change_an_argument(random: &mut Random, bytes: &mut [u8]) {
    let at = a_node(random, bytes);
    match bytes[at] {
        0 => bytes[at + 4 + random.below(4)] = random.next() as u8,
        1 => bytes[at + 1] = random.below(3) as u8,
        5 | 6 => bytes[at + 1] = random.pick(&[0, 1, 2, 63, 64, 255]),
        2 | 3 | 8 | 9 => bytes[at] = random.pick(&[2, 3, 8, 9]),
        _ => bytes[at] = random.pick(&[0, 1, 6, 7]),
    }
}

fn set_a_byte_of_a_node(random: &mut Random, bytes: &mut [u8]) {
    let at = a_node(random, bytes) + 1 + random.below(7);
    bytes[at] = random.pick(&[1, 2, 64, 128, 255]);
}

/// Another good row's nodes before or after these, with child numbers that fit
/// their place, so that the forest is sound and only 8 is left to find.
fn two_trees(random: &mut Random, bytes: &mut Vec<u8>) {
    let other = good_row(random);
    let mut nodes = bytes[6..].to_vec();
    if nodes.len() % 8 != 0 || nodes.len() + other.bytes.len() > 60_000 {
        return;
    }
    let shift = nodes.len() / 8;
    nodes.extend(shifted(&other.bytes[6..], shift));
    *bytes = with_header(bytes[3], &nodes);
}

/// The nodes of a sound tree with all child numbers raised.
fn shifted(nodes: &[u8], shift: usize) -> Vec<u8> {
    let mut moved = nodes.to_vec();
    for stored in moved.chunks_mut(8) {
        let count = [0, 0, 2, 2, 3, 1, 0, 0, 2, 2][stored[0] as usize];
        for k in 1..=count {
            let number = u16::from_be_bytes([stored[2 * k], stored[2 * k + 1]]) + shift as u16;
            stored[2 * k..2 * k + 2].copy_from_slice(&number.to_be_bytes());
        }
    }
    moved
}

/// Without the last few nodes, header mended: a tree or a forest is left.
fn drop_nodes(random: &mut Random, bytes: &mut Vec<u8>) {
    let n = nodes_in(bytes);
    let left = n - random.below(n.min(6));
    *bytes = with_header(bytes[3], &bytes[6..6 + 8 * left]);
}

fn repeat_a_node(random: &mut Random, bytes: &mut Vec<u8>) {
    let at = a_node(random, bytes);
    let again = bytes[at..at + 8].to_vec();
    let mut nodes = bytes[6..6 + 8 * nodes_in(bytes)].to_vec();
    nodes.splice(at - 6..at - 6, again);
    *bytes = with_header(bytes[3], &nodes);
}

fn wrong_n(random: &mut Random, bytes: &mut [u8]) {
    let n = u16::from_be_bytes([bytes[4], bytes[5]]);
    let wrong = match random.below(4) {
        0 => n.wrapping_add(1),
        1 => n.wrapping_sub(1),
        2 => random.pick(&[0, 4096, 4097, 65535]),
        _ => random.next() as u16,
    };
    bytes[4..6].copy_from_slice(&wrong.to_be_bytes());
}

fn swap_nodes(random: &mut Random, bytes: &mut [u8]) {
    let (a, b) = (a_node(random, bytes), a_node(random, bytes));
    for k in 0..8 {
        bytes.swap(a + k, b + k);
    }
}
