//! Random trees that go deep along one chain of forms: up to 256 of them count by 02's request 2, and up to thousands are second parts and branches, which don't. And KIND
//! chains, with counts and nodes about the limits.

use crate::build::*;
use crate::expr::{children, count, counted, size, Tree};
use crate::generate::{a_fuel, a_plain_fuel, a_store, a_store_of_any_length};
use crate::good::{an_m, Maker};
use crate::random::Random;
use crate::routine::store_routine;
use crate::rows::Row;
use crate::typing::{accept, Type};
use std::rc::Rc;

/// The place of the chain in the next form around it.
#[derive(Clone, Copy, PartialEq)]
enum Place {
    Second,
    Then,
    Else,
    Left,
    Right,
    ComparedLeft,
    ComparedRight,
    Assigned,
    Test,
    First,
    LoopTest,
    LoopBody,
}

use Place::*;

/// Where the forms that count stand among those that don't.
#[derive(Clone, Copy)]
enum Order {
    Mixed,
    Inside,
    Outside,
}

/// How a chain is to be: the count and the nodes that it may have, and whether it shall have all of them.
pub struct Wanted {
    pub count: usize,
    pub nodes: usize,
    pub all: bool,
}

struct Chain<'a> {
    maker: Maker<'a>,
    tree: Tree,
    t: Type,
    count: usize,
    nodes: usize,
    /// Loops around the chain.
    loops: usize,
    /// A run goes along the chain to its end, as a rule: no test leads elsewhere, and few sums are out of range.
    plain: bool,
}

/// The nodes that a form puts around the chain, seldom more.
const NODES: usize = 4;

/// A chain under m locations, with a percentage of parts and places of a wrong type.
pub fn chain(random: &mut Random, m: usize, slips: usize, wanted: Wanted) -> Tree {
    let order = random.pick(&[Order::Mixed, Order::Mixed, Order::Inside, Order::Outside]);
    let free: &[Place] = random.pick(&[&[Second][..], &[Second, Second, Then], &[Then], &[Else], &[Then, Else], &[Second, Then, Else]]);
    let mut maker = Maker::new(random, m, slips);
    let t = maker.any_type();
    let tree = maker.tree(t, 3);
    let (count, nodes) = (count(&tree), size(&tree));
    let plain = maker.random.percent(60);
    let mut chain = Chain { maker, tree, t, count, nodes, loops: 0, plain };
    loop {
        let to_count = wanted.count.saturating_sub(chain.count);
        let to_be_free = wanted.nodes.saturating_sub(chain.nodes + NODES * (to_count + 1)) / NODES;
        if to_count + to_be_free == 0 {
            break;
        }
        let counts = match order {
            Order::Mixed => chain.maker.random.below(to_count + to_be_free) < to_count,
            Order::Inside => to_count > 0,
            Order::Outside => to_be_free == 0,
        };
        let place = if counts { chain.counting_place() } else { chain.maker.random.pick(free) };
        if chain.nodes + 4 * NODES > wanted.nodes {
            break;
        }
        chain.put(place);
    }
    while wanted.all && chain.nodes + 2 <= wanted.nodes {
        chain.around(seq(skip(), chain.tree.clone()), chain.t);
    }
    chain.tree
}

impl Chain<'_> {
    /// A place of the chain's type where it counts. (By a slip, of another type.)
    fn counting_place(&mut self) -> Place {
        let slip = self.maker.random.percent(self.maker.slips);
        let t = if slip { self.maker.any_type() } else { self.t };
        let a_loop = self.loops < 4 && self.maker.random.percent(if self.plain { 1 } else { 6 });
        match t {
            Type::Int if self.maker.m == 0 && !slip => self.maker.random.pick(&[Left, Left, Right, Right, ComparedLeft]),
            Type::Int => self.maker.random.pick(&[Left, Left, Left, Right, Right, Right, ComparedLeft, ComparedRight, Assigned]),
            Type::Bool => if a_loop { LoopTest } else { Test },
            Type::Unit => if a_loop { LoopBody } else { First },
        }
    }

    fn put(&mut self, place: Place) {
        let (e, t) = (self.tree.clone(), self.t);
        let (tree, t) = match place {
            Second => (seq(self.link(), e), t),
            Then => (iff(self.led(true), e, self.other(t)), t),
            Else => (iff(self.led(false), self.other(t), e), t),
            Left => (plus(e, self.summand()), Type::Int),
            Right => (plus(self.summand(), e), Type::Int),
            ComparedLeft => (geq(e, self.other(Type::Int)), Type::Bool),
            ComparedRight => (geq(self.other(Type::Int), e), Type::Bool),
            Assigned => (assign(self.location(), e), Type::Unit),
            Test => {
                let t = self.maker.any_type();
                (iff(e, self.other(t), self.other(t)), t)
            }
            First => {
                let t = self.maker.any_type();
                (seq(e, self.other(t)), t)
            }
            LoopTest => (whilst(e, self.link()), Type::Unit),
            LoopBody => (whilst(self.loop_test(), e), Type::Unit),
        };
        self.loops += (place == LoopTest || place == LoopBody) as usize;
        self.around(tree, t);
    }

    /// The tree around the chain is the chain.
    fn around(&mut self, tree: Tree, t: Type) {
        let is_chain = |c: &Tree| Rc::ptr_eq(c, &self.tree);
        let counts: Vec<usize> = children(&tree).into_iter().map(|c| if is_chain(c) { self.count } else { count(c) }).collect();
        let nodes: usize = children(&tree).into_iter().map(|c| if is_chain(c) { self.nodes } else { size(c) }).sum();
        self.count = counted(&tree.form, &counts);
        self.nodes = 1 + nodes;
        self.tree = tree;
        self.t = t;
    }

    fn location(&mut self) -> u8 {
        if self.maker.m == 0 { self.maker.random.below(256) as u8 } else { self.maker.location_to_write() }
    }

    /// A unit before a second part: mostly an assignment of a number.
    fn link(&mut self) -> Tree {
        let way = self.maker.random.below(50);
        if way == 0 && !self.plain {
            return self.maker.tree(Type::Unit, 6);
        }
        if way < 15 || self.maker.m == 0 {
            return skip();
        }
        let (to, from) = (self.location(), self.maker.location_to_write());
        match way {
            15..=24 => assign(to, deref(from)),
            25..=29 if !self.plain => assign(to, plus(deref(from), int(self.maker.random.between(-3, 3) as i32))),
            _ => assign(to, int(self.maker.random.integer())),
        }
    }

    /// A test that is mostly this.
    fn led(&mut self, b: bool) -> Tree {
        match self.maker.random.below(20) {
            0 if !self.plain => self.maker.tree(Type::Bool, 3),
            1 => geq(int(b as i32), int(1)),
            _ => boolean(b),
        }
    }

    fn loop_test(&mut self) -> Tree {
        match self.maker.random.below(10) {
            0..=3 => boolean(false),
            4 | 5 => boolean(true),
            _ => self.maker.tree(Type::Bool, 3),
        }
    }

    /// A small part that is not on the chain.
    fn other(&mut self, t: Type) -> Tree {
        let room = if self.maker.random.percent(90) { 1 } else { 3 };
        self.maker.tree(t, room)
    }

    /// Mostly so small that the sums stay in the range.
    fn summand(&mut self) -> Tree {
        if self.plain || self.maker.random.percent(97) { int(self.maker.random.between(-3, 3) as i32) } else { self.other(Type::Int) }
    }
}

/// A well typed chain, or one with slips, that passes 5 and 9 (slips and all).
pub fn accepted_chain(random: &mut Random, m: usize, slips: usize) -> Tree {
    let nodes = random.pick(&[100, 300, 600, 1000, 2000, 4096]);
    let most = random.pick(&[1, 2, 5, 20, 100, 255, 256, 256]);
    loop {
        let all = random.percent(50);
        let tree = chain(random, m, slips, Wanted { count: most.min(nodes / NODES), nodes, all });
        if count(&tree) <= 256 && size(&tree) <= 4096 {
            return tree;
        }
    }
}

/// Counts and nodes about the limits, and over them.
pub fn chain_tree(random: &mut Random, m: usize) -> Tree {
    let count = random.pick(&[1, 2, 30, 254, 255, 255, 256, 256, 256, 256, 257, 257, 257, 258, 300]);
    let nodes = random.pick(&[700, 1100, 1100, 1500, 1500, 2000, 3000, 4094, 4095, 4096, 4096, 4097, 4098]);
    let slips = random.pick(&[0, 0, 0, 0, 0, 0, 1, 100]);
    let all = random.percent(60);
    chain(random, m, slips, Wanted { count, nodes: nodes.max(NODES * count + 40), all })
}

pub fn chain_row(random: &mut Random) -> Row {
    let m = an_m(random);
    let tree = chain_tree(random, m);
    let bytes = store_routine(m as u8, &tree);
    if accept(&bytes).is_err() {
        return Row { bytes, fuel: a_plain_fuel(random), store: a_store_of_any_length(random, m) };
    }
    let store = a_store(random, m);
    let fuel = if random.percent(50) { a_plain_fuel(random) } else { a_fuel(random, &bytes, &store) };
    Row { bytes, fuel, store }
}
