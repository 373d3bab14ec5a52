//! KINDS texts and written: texts of random trees, well typed or not, and rows to be written; with rooms about what they need.

use crate::chains::accepted_chain;
use crate::damaged::damaged_row;
use crate::expr::{count, size, text, Tree};
use crate::generate::{a_row, entries};
use crate::good::{a_room, an_m, good_tree, Maker};
use crate::random::Random;
use crate::reading;
use crate::routine::read;
use crate::rows::Row;
use crate::typing::Type;

/// The record's bytes are a text, its fuel the room, and its entries only count m.
pub fn text_row(random: &mut Random) -> Row {
    let tree = any_tree(random);
    let m = an_m(random);
    let needed = 6 + 8 * size(&tree);
    asked(random, text(&tree).into_bytes(), m, needed)
}

/// A text as a record, with a room about the bytes needed. What doesn't fit a record is cut off.
pub fn asked(random: &mut Random, mut text: Vec<u8>, m: usize, needed: usize) -> Row {
    text.truncate(65_535);
    Row { bytes: text, fuel: a_lent_room(random, needed), store: entries(random, m) }
}

/// Just enough, one short, none, more, or the largest.
pub fn a_lent_room(random: &mut Random, needed: usize) -> u32 {
    let needed = needed as u32;
    match random.below(20) {
        0..=9 => needed,
        10..=12 => needed.saturating_sub(1),
        13 => needed.saturating_sub(8),
        14 => 0,
        15 => random.below(needed as usize + 1) as u32,
        16 => needed + 1,
        17 => needed + random.below(100) as u32,
        18 => random.pick(&[65_535, 65_536, 65_537, 32_774, 32_773]),
        _ => random.pick(&[u32::MAX, 65_536 * 3, 1 << 31]),
    }
}

/// A tree that the reader takes: well typed, or with parts of any type and locations up to 255.
pub fn any_tree(random: &mut Random) -> Tree {
    if random.percent(40) {
        let m = an_m(random);
        return good_tree(random, m);
    }
    loop {
        let room = a_room(random);
        let m = an_m(random);
        let slips = random.pick(&[5, 30, 100]);
        if random.percent(3) {
            return accepted_chain(random, m, slips);
        }
        let mut maker = Maker::new(random, m, slips);
        let t = maker.random.pick(&[Type::Int, Type::Bool, Type::Unit]);
        let tree = maker.tree(t, room);
        if count(&tree) <= 256 && size(&tree) <= 4096 {
            return tree;
        }
    }
}

/// A row of any kind to be written, with a buffer about its text.
pub fn written_row(random: &mut Random) -> Row {
    let kind = random.pick(&["good", "good", "illtyped", "illtyped", "limits", "damaged", "trees"]);
    let mut row = match kind {
        "trees" => {
            let tree = any_tree(random);
            let m = an_m(random);
            Row { bytes: crate::routine::store_routine(m as u8, &tree), fuel: 0, store: vec![] }
        }
        "damaged" => damaged_row(random),
        _ => a_row(kind, random),
    };
    let needed = match read(&row.bytes) {
        Ok(_) => reading::write(&row.bytes, usize::MAX).unwrap().len(),
        Err(_) => random.below(100),
    };
    row.fuel = a_lent_room(random, needed);
    row.store.truncate(random.below(3));
    row
}
