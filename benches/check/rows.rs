//! Random stored routines of an exact number of nodes: well typed ones, and a few that are refused.

use crate::plain::Ty;
use crate::random::Random;

struct Maker<'a> {
    random: &'a mut Random,
    m: usize,
    /// One child in so many is of any type.
    slips: Option<usize>,
    nodes: Vec<[u8; 8]>,
}

/// A tree of the type can have exactly this many nodes.
fn can_be(ty: Ty, size: usize) -> bool {
    size == 1 || size > 2 || (size == 2 && ty == Ty::Unit)
}

impl Maker<'_> {
    /// Adds a tree of exactly `size` nodes and gives the number of its root.
    fn tree(&mut self, ty: Ty, size: usize) -> usize {
        let mut ty = ty;
        if let Some(one_in) = self.slips {
            let other = self.random.pick(&[Ty::Int, Ty::Bool, Ty::Unit]);
            if self.random.below(one_in) == 0 && can_be(other, size) {
                ty = other;
            }
        }
        loop {
            let kind = match (ty, size) {
                (Ty::Int, 1) => self.random.pick(&[0, 6]),
                (Ty::Bool, 1) => 1,
                (Ty::Unit, 1) => 7,
                (Ty::Int, _) => self.random.pick(&[2, 2, 2, 2, 4, 8]),
                (Ty::Bool, _) => self.random.pick(&[3, 3, 3, 3, 4, 8]),
                (Ty::Unit, _) => self.random.pick(&[5, 5, 5, 8, 8, 8, 8, 4, 9]),
            };
            let wanted: &[Ty] = match kind {
                2 | 3 => &[Ty::Int, Ty::Int],
                4 => &[Ty::Bool, ty, ty],
                5 => &[Ty::Int],
                8 => &[Ty::Unit, ty],
                9 => &[Ty::Bool, Ty::Unit],
                _ => &[],
            };
            // An assignment of a long sum is rare in a long routine.
            if kind == 5 && size > 40 {
                continue;
            }
            if let Some(sizes) = self.split(wanted, size - 1) {
                let mut node = [kind, 0, 0, 0, 0, 0, 0, 0];
                for (k, (&t, &s)) in wanted.iter().zip(&sizes).enumerate() {
                    let child = self.tree(t, s) as u16;
                    node[2 + 2 * k..4 + 2 * k].copy_from_slice(&child.to_be_bytes());
                }
                match kind {
                    0 => node[4..].copy_from_slice(&((self.random.next() % 2001) as i32 - 1000).to_be_bytes()),
                    1 => node[1] = self.random.below(2) as u8,
                    5 | 6 => node[1] = self.random.below(self.m) as u8,
                    _ => {}
                }
                self.nodes.push(node);
                return self.nodes.len() - 1;
            }
        }
    }

    /// The rest shared out to the children, or nothing where this try doesn't come out.
    fn split(&mut self, wanted: &[Ty], rest: usize) -> Option<Vec<usize>> {
        let mut sizes = Vec::new();
        let mut left = rest;
        for k in 0..wanted.len() {
            let more = wanted.len() - 1 - k;
            if left < more + 1 {
                return None;
            }
            let size = match more {
                0 => left,
                // A test is short; else the parts of a long tree are alike, so that it isn't deep.
                _ if wanted[k] == Ty::Bool => 1 + self.random.below((left - more).min(12)),
                _ if left > 40 => left / 4 + self.random.below(left / 2),
                _ => 1 + self.random.below(left - more),
            };
            if !can_be(wanted[k], size) {
                return None;
            }
            sizes.push(size);
            left -= size;
        }
        (left == 0 || wanted.is_empty() && rest == 0).then_some(sizes)
    }
}

fn routine(random: &mut Random, size: usize, slips: Option<usize>) -> Vec<u8> {
    let m = 1 + random.below(64);
    let ty = if size == 2 { Ty::Unit } else { random.pick(&[Ty::Unit, Ty::Unit, Ty::Int, Ty::Bool]) };
    let mut maker = Maker { random, m, slips, nodes: Vec::new() };
    maker.tree(ty, size);
    let mut bytes = Vec::new();
    bytes.extend(((4 + 8 * size) as u16).to_be_bytes());
    bytes.extend([1, m as u8]);
    bytes.extend((size as u16).to_be_bytes());
    bytes.extend(maker.nodes.concat());
    bytes
}

/// A well typed routine of exactly `size` nodes.
pub fn good(random: &mut Random, size: usize) -> Vec<u8> {
    routine(random, size, None)
}

/// One that is most likely refused: ill typed, with fewer locations than it names, cut short, or with a byte changed.
pub fn bad(random: &mut Random, size: usize) -> Vec<u8> {
    match random.below(8) {
        0..=2 => routine(random, size, Some(size)),
        3 => {
            let mut bytes = good(random, size);
            bytes[3] = random.below(8) as u8;
            bytes
        }
        4 => {
            let mut bytes = good(random, size);
            let kept = random.below(bytes.len());
            bytes.truncate(kept);
            bytes
        }
        5 => {
            let mut bytes = good(random, size);
            let at = random.below(6);
            bytes[at] = random.next() as u8;
            bytes
        }
        _ => {
            let mut bytes = good(random, size);
            let at = random.below(bytes.len());
            bytes[at] = random.next() as u8;
            bytes
        }
    }
}

/// `count` routines of a size in the range, one in 40 a bad one.
pub fn rows(random: &mut Random, count: usize, low: usize, high: usize) -> Vec<Vec<u8>> {
    (0..count)
        .map(|i| {
            let size = low + random.below(high - low + 1);
            if i % 40 == 39 { bad(random, size) } else { good(random, size) }
        })
        .collect()
}
