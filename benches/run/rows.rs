//! The routines of the bench, and random typed ones for the comparison.

use crate::random::Random;

#[derive(Clone, Copy)]
enum Ty {
    Int,
    Bool,
    Unit,
}

/// Nodes in post-order: each function adds one and gives its number.
pub struct Nodes(pub Vec<[u8; 8]>);

impl Nodes {
    pub fn add(&mut self, kind: u8, arg: u8, children: &[usize]) -> usize {
        let mut node = [kind, arg, 0, 0, 0, 0, 0, 0];
        for (k, &c) in children.iter().enumerate() {
            node[2 + 2 * k..4 + 2 * k].copy_from_slice(&(c as u16).to_be_bytes());
        }
        self.0.push(node);
        self.0.len() - 1
    }

    pub fn int(&mut self, n: i32) -> usize {
        let [a, b, c, d] = n.to_be_bytes();
        self.0.push([0, 0, 0, 0, a, b, c, d]);
        self.0.len() - 1
    }

    pub fn boolean(&mut self, t: bool) -> usize {
        self.add(1, t as u8, &[])
    }

    fn deref(&mut self, l: usize) -> usize {
        self.add(6, l as u8, &[])
    }

    pub fn bytes(self, m: usize) -> Vec<u8> {
        let mut bytes = Vec::new();
        bytes.extend(((4 + 8 * self.0.len()) as u16).to_be_bytes());
        bytes.extend([1, m as u8]);
        bytes.extend((self.0.len() as u16).to_be_bytes());
        bytes.extend(self.0.concat());
        bytes
    }

    /// `while true do` the body, for ever.
    fn endless(mut self, body: impl FnOnce(&mut Nodes) -> usize) -> Vec<u8> {
        let test = self.boolean(true);
        let body = body(&mut self);
        self.add(9, 0, &[test, body]);
        self.bytes(64)
    }

    /// An integer or a dereference by turns.
    fn leaf(&mut self, random: &mut Random, turn: usize) -> usize {
        if turn % 2 == 0 {
            self.deref(random.below(32))
        } else {
            self.int(random.below(2001) as i32 - 1000)
        }
    }

    /// A sum of this depth whose left operand is the deep one.
    fn left(&mut self, random: &mut Random, depth: usize) -> usize {
        let mut sum = self.leaf(random, depth);
        for turn in 1..depth {
            let leaf = self.leaf(random, turn);
            sum = self.add(2, 0, &[sum, leaf]);
        }
        sum
    }

    fn right(&mut self, random: &mut Random, depth: usize) -> usize {
        let leaf = self.leaf(random, depth);
        if depth == 1 {
            return leaf;
        }
        let deep = self.right(random, depth - 1);
        self.add(2, 0, &[leaf, deep])
    }

    /// So many assignments of a sum, one after another. Those read are never written, so that no sum grows.
    fn assignments(&mut self, random: &mut Random, count: usize) -> usize {
        if count == 1 {
            let a = self.leaf(random, 0);
            let turn = random.below(2);
            let b = self.leaf(random, turn);
            let sum = self.add(2, 0, &[a, b]);
            return self.add(5, 32 + random.below(32) as u8, &[sum]);
        }
        let first = self.assignments(random, count / 2);
        let second = self.assignments(random, count - count / 2);
        self.add(8, 0, &[first, second])
    }

    /// So many assignments of a number, joined to the right.
    fn listed(&mut self, random: &mut Random, count: usize) -> usize {
        let n = self.int(random.below(4001) as i32 - 2000);
        let first = self.add(5, random.below(64) as u8, &[n]);
        if count == 1 {
            return first;
        }
        let second = self.listed(random, count - 1);
        self.add(8, 0, &[first, second])
    }

    /// A random tree of the type, over 4 locations.
    fn tree(&mut self, random: &mut Random, ty: Ty, depth: usize) -> usize {
        let deep = depth > 1;
        match ty {
            Ty::Int => match random.below(if deep { 7 } else { 2 }) {
                0 => {
                    // One in 8 is near an end of the range.
                    let n = match random.below(16) {
                        0 => i32::MAX - random.below(3) as i32,
                        1 => i32::MIN + random.below(3) as i32,
                        _ => random.below(21) as i32 - 10,
                    };
                    self.int(n)
                }
                1 => self.deref(random.below(4)),
                2..=4 => self.node(random, 2, 0, &[Ty::Int, Ty::Int], depth),
                5 => self.node(random, 4, 0, &[Ty::Bool, Ty::Int, Ty::Int], depth),
                _ => self.node(random, 8, 0, &[Ty::Unit, Ty::Int], depth),
            },
            Ty::Bool => match random.below(if deep { 6 } else { 1 }) {
                0 => {
                    let t = random.below(2) == 0;
                    self.boolean(t)
                }
                1..=3 => self.node(random, 3, 0, &[Ty::Int, Ty::Int], depth),
                4 => self.node(random, 4, 0, &[Ty::Bool, Ty::Bool, Ty::Bool], depth),
                _ => self.node(random, 8, 0, &[Ty::Unit, Ty::Bool], depth),
            },
            Ty::Unit => match random.below(if deep { 8 } else { 1 }) {
                0 => self.add(7, 0, &[]),
                1..=3 => {
                    let l = random.below(4) as u8;
                    self.node(random, 5, l, &[Ty::Int], depth)
                }
                4 => self.node(random, 4, 0, &[Ty::Bool, Ty::Unit, Ty::Unit], depth),
                5 | 6 => self.node(random, 8, 0, &[Ty::Unit, Ty::Unit], depth),
                _ => self.node(random, 9, 0, &[Ty::Bool, Ty::Unit], depth),
            },
        }
    }

    fn node(&mut self, random: &mut Random, kind: u8, arg: u8, wanted: &[Ty], depth: usize) -> usize {
        let children: Vec<_> = wanted.iter().map(|&ty| self.tree(random, ty, depth - 1)).collect();
        self.add(kind, arg, &children)
    }
}

/// `(while (!l0 >= 1) do (l0 := (!l0 + -1)) done)`
pub fn tight_loop() -> Vec<u8> {
    let mut nodes = Nodes(Vec::new());
    let (l, one) = (nodes.deref(0), nodes.int(1));
    let test = nodes.add(3, 0, &[l, one]);
    let (l, less) = (nodes.deref(0), nodes.int(-1));
    let sum = nodes.add(2, 0, &[l, less]);
    let body = nodes.add(5, 0, &[sum]);
    nodes.add(9, 0, &[test, body]);
    nodes.bytes(64)
}

/// Depth 256 in all: the loop, an assignment, and a sum of depth 254.
pub fn deep_left(random: &mut Random) -> Vec<u8> {
    Nodes(Vec::new()).endless(|nodes| {
        let sum = nodes.left(random, 254);
        nodes.add(5, 40, &[sum])
    })
}

pub fn deep_right(random: &mut Random) -> Vec<u8> {
    Nodes(Vec::new()).endless(|nodes| {
        let sum = nodes.right(random, 254);
        nodes.add(5, 40, &[sum])
    })
}

/// So many assignments in an endless loop: of 800, 4,001 nodes in all.
pub fn straight(random: &mut Random, count: usize) -> Vec<u8> {
    Nodes(Vec::new()).endless(|nodes| nodes.assignments(random, count))
}

/// A plain list in an endless loop: of 1,300 assignments, 3,901 nodes in all.
pub fn list(random: &mut Random, count: usize) -> Vec<u8> {
    Nodes(Vec::new()).endless(|nodes| nodes.listed(random, count))
}

pub fn random(random: &mut Random) -> Vec<u8> {
    let ty = random.pick(&[Ty::Int, Ty::Bool, Ty::Unit, Ty::Unit]);
    let depth = 1 + random.below(7);
    let mut nodes = Nodes(Vec::new());
    nodes.tree(random, ty, depth);
    nodes.bytes(4)
}
