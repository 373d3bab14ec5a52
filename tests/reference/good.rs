//! KIND good: well typed random trees of all forms.

use crate::build::*;
use crate::chains::accepted_chain;
use crate::expr::{count, size, Tree};
use crate::generate::{a_fuel, a_store};
use crate::random::Random;
use crate::routine::store_routine;
use crate::rows::Row;
use crate::typing::Type;

/// Makes random trees under m declared locations.
pub struct Maker<'a> {
    pub random: &'a mut Random,
    pub m: usize,
    /// Percentage of children made of a wrong type or with a wrong location.
    pub slips: usize,
    /// Locations that loops around this place count on.
    counters: Vec<u8>,
}

impl Maker<'_> {
    pub fn new(random: &mut Random, m: usize, slips: usize) -> Maker<'_> {
        Maker { random, m, slips, counters: Vec::new() }
    }

    /// A tree of the type in about `room` nodes.
    pub fn tree(&mut self, wanted: Type, room: usize) -> Tree {
        let mut made = wanted;
        if self.random.percent(self.slips) {
            made = self.any_type();
        }
        match made {
            Type::Int => self.int(room),
            Type::Bool => self.bool(room),
            Type::Unit => self.unit(room),
        }
    }

    pub fn any_type(&mut self) -> Type {
        self.random.pick(&[Type::Int, Type::Bool, Type::Unit])
    }

    /// A part of the room, at least 1, that leaves `kept` or more (if it can).
    fn share(&mut self, room: usize, kept: usize) -> usize {
        1 + self.random.below(room.saturating_sub(kept).max(1))
    }

    fn int(&mut self, room: usize) -> Tree {
        if room < 3 || self.random.percent(4) {
            return self.int_leaf();
        }
        match self.random.below(10) {
            0..=5 => self.operator(plus, room),
            6 | 7 => self.choice(Type::Int, room),
            _ => self.sequence(Type::Int, room),
        }
    }

    fn int_leaf(&mut self) -> Tree {
        if self.can_name_location() && self.random.percent(50) {
            deref(self.location())
        } else {
            int(self.random.integer())
        }
    }

    fn bool(&mut self, room: usize) -> Tree {
        if room < 3 || self.random.percent(4) {
            return boolean(self.random.percent(50));
        }
        match self.random.below(10) {
            0..=6 => self.operator(geq, room),
            7 | 8 => self.choice(Type::Bool, room),
            _ => self.sequence(Type::Bool, room),
        }
    }

    fn unit(&mut self, room: usize) -> Tree {
        if room < 2 || self.random.percent(3) {
            return skip();
        }
        match self.random.below(20) {
            0..=5 => self.assignment(room),
            6..=10 => self.sequence(Type::Unit, room),
            11..=13 => self.choice(Type::Unit, room),
            14 | 15 => self.any_loop(room),
            _ => self.counting_loop(room),
        }
    }

    fn operator(&mut self, form: fn(Tree, Tree) -> Tree, room: usize) -> Tree {
        let first = self.share(room - 1, 1);
        let e1 = self.tree(Type::Int, first);
        let e2 = self.tree(Type::Int, (room - 1).saturating_sub(first));
        form(e1, e2)
    }

    fn choice(&mut self, t: Type, room: usize) -> Tree {
        let first = self.share(room - 1, 2);
        let rest = (room - 1).saturating_sub(first);
        let second = self.share(rest, 1);
        let e1 = self.tree(Type::Bool, first);
        let e2 = self.tree(t, second);
        let e3 = self.tree(t, rest.saturating_sub(second));
        iff(e1, e2, e3)
    }

    fn sequence(&mut self, t: Type, room: usize) -> Tree {
        let first = self.share(room - 1, 1);
        let e1 = self.tree(Type::Unit, first);
        let e2 = self.tree(t, (room - 1).saturating_sub(first));
        seq(e1, e2)
    }

    fn assignment(&mut self, room: usize) -> Tree {
        if !self.can_name_location() {
            return skip();
        }
        let l = self.location_to_write();
        assign(l, self.tree(Type::Int, room - 1))
    }

    /// A loop with any test: often no turn or no end.
    fn any_loop(&mut self, room: usize) -> Tree {
        let first = self.share(room - 1, 1);
        let e1 = if first < 3 { boolean(self.random.percent(15)) } else { self.tree(Type::Bool, first) };
        let e2 = self.tree(Type::Unit, (room - 1).saturating_sub(first));
        whilst(e1, e2)
    }

    /// A loop that counts a location down or up to a bound, and mostly ends.
    fn counting_loop(&mut self, room: usize) -> Tree {
        if self.m == 0 || room < 9 {
            return self.any_loop(room);
        }
        let l = self.location_to_write();
        let up = self.random.percent(40);
        let stride = self.random.between(1, 3) as i32;
        let bound = self.bound(up);
        let start = if up { bound.saturating_sub(self.turns()) } else { bound.saturating_add(self.turns()) };
        let test = if up { geq(int(bound), deref(l)) } else { geq(deref(l), int(bound)) };
        let count = assign(l, plus(deref(l), int(if up { stride } else { -stride })));
        self.counters.push(l);
        let body = self.tree(Type::Unit, room.saturating_sub(11));
        self.counters.pop();
        self.set_up(l, start, whilst(test, self.join(body, count, up)))
    }

    fn join(&self, body: Tree, count: Tree, count_first: bool) -> Tree {
        if count_first {
            seq(count, body)
        } else {
            seq(body, count)
        }
    }

    fn set_up(&mut self, l: u8, start: i32, counting: Tree) -> Tree {
        if self.random.percent(80) {
            seq(assign(l, int(start)), counting)
        } else {
            counting
        }
    }

    fn turns(&mut self) -> i32 {
        self.random.pick(&[0, 1, 2, 3, 4, 5, 7, 12])
    }

    /// A loop's bound: small, or so near the range's end that counting past it overflows.
    fn bound(&mut self, up: bool) -> i32 {
        match (self.random.below(10), up) {
            (0, true) => 2147483647 - self.random.below(4) as i32,
            (0, false) => -2147483648 + self.random.below(4) as i32,
            _ => self.random.between(-3, 4) as i32,
        }
    }

    fn can_name_location(&mut self) -> bool {
        self.m > 0 || self.random.percent(self.slips)
    }

    /// A declared location, most often a low one; an undeclared one by a slip.
    fn location(&mut self) -> u8 {
        if self.m == 0 || self.random.percent(self.slips) {
            return self.random.between(self.m as i64, 255) as u8;
        }
        let most = if self.random.percent(80) { self.m.min(3) } else { self.m };
        self.random.below(most) as u8
    }

    /// As `location`, but one that a loop counts on only now and then.
    pub fn location_to_write(&mut self) -> u8 {
        let l = self.location();
        if self.counters.contains(&l) && !self.random.percent(5) {
            return self.location();
        }
        l
    }
}

pub fn an_m(random: &mut Random) -> usize {
    match random.below(20) {
        0 => 0,
        1..=5 => 1,
        6..=14 => 2 + random.below(3),
        15..=18 => 5 + random.below(59),
        _ => 64,
    }
}

/// How many nodes: 1 to 60 mostly, some hundreds, a few thousands.
pub fn a_room(random: &mut Random) -> usize {
    match random.below(1000) {
        0 => 1000 + random.below(3000),
        1..=30 => 60 + random.below(300),
        31..=400 => 1 + random.below(20),
        _ => 1 + random.below(60),
    }
}

/// A well typed tree that the reader accepts; now and then a long chain.
pub fn good_tree(random: &mut Random, m: usize) -> Tree {
    if random.percent(3) {
        return accepted_chain(random, m, 0);
    }
    loop {
        let room = a_room(random);
        let mut maker = Maker::new(random, m, 0);
        let t = if maker.random.percent(50) { Type::Unit } else { maker.any_type() };
        let tree = maker.tree(t, room);
        if count(&tree) <= 256 && size(&tree) <= 4096 {
            return tree;
        }
    }
}

pub fn good_row(random: &mut Random) -> Row {
    let m = an_m(random);
    let tree = good_tree(random, m);
    let bytes = store_routine(m as u8, &tree);
    let store = a_store(random, m);
    let fuel = a_fuel(random, &bytes, &store);
    Row { bytes, fuel, store }
}
