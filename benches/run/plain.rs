//! The same run in plain safe Rust: one machine over the stored bytes of a routine that was checked before.

use crate::state::{Frame, Work};
pub use crate::state::{Outcome, Value};

#[derive(PartialEq, Eq, Debug)]
pub struct Ended {
    pub outcome: Outcome,
    pub steps: u32,
    pub loops: u32,
}

pub struct Machine<'a> {
    nodes: &'a [[u8; 8]],
    store: &'a mut [i32],
    pending: Vec<Frame>,
    work: Work,
    fuel: u32,
    steps: u32,
    loops: u32,
}

impl<'a> Machine<'a> {
    pub fn new(bytes: &'a [u8], store: &'a mut [i32], fuel: u32) -> Machine<'a> {
        let (nodes, _) = bytes[6..].as_chunks();
        let root = (nodes.len() - 1) as u16;
        Machine { nodes, store, pending: Vec::with_capacity(256), work: Work::Node(root), fuel, steps: 0, loops: 0 }
    }

    #[inline(never)]
    pub fn run(mut self) -> Ended {
        loop {
            if let Err(outcome) = self.step() {
                return Ended { outcome, steps: self.steps, loops: self.loops };
            }
        }
    }

    /// One move of the search for the next step, or that step; or how the run ends.
    fn step(&mut self) -> Result<(), Outcome> {
        match self.work {
            Work::Node(i) => self.enter(i),
            Work::Value(v) => match self.pending.pop() {
                Some(frame) => self.resume(frame, v),
                None => Err(Outcome::Value(v)),
            },
        }
    }

    fn enter(&mut self, i: u16) -> Result<(), Outcome> {
        let [kind, arg, ..] = self.nodes[i as usize];
        let frame = match kind {
            0 => {
                let [_, _, _, _, number @ ..] = self.nodes[i as usize];
                return self.comes_to(Value::Int(i32::from_be_bytes(number)));
            }
            1 => return self.comes_to(Value::Bool(arg == 1)),
            6 => {
                self.spend()?;
                return self.comes_to(Value::Int(self.store[arg as usize]));
            }
            7 => return self.comes_to(Value::Skip),
            2 => Frame::PlusLeft(i),
            3 => Frame::GeqLeft(i),
            4 => Frame::If(i),
            5 => Frame::Assign(arg),
            8 => Frame::Seq(self.child(i, 1)),
            9 => {
                self.spend()?;
                self.loops += 1;
                Frame::While(i)
            }
            _ => unreachable!("a checked routine has no such kind"),
        };
        self.pending.push(frame);
        self.go_to(self.child(i, 0))
    }

    fn resume(&mut self, frame: Frame, value: Value) -> Result<(), Outcome> {
        match (frame, value) {
            (Frame::PlusLeft(i), Value::Int(a)) => {
                self.pending.push(Frame::PlusRight(i, a));
                self.go_to(self.child(i, 1))
            }
            (Frame::PlusRight(i, a), Value::Int(b)) => {
                let sum = a.checked_add(b).ok_or(Outcome::Overflow(i))?;
                self.spend()?;
                self.comes_to(Value::Int(sum))
            }
            (Frame::GeqLeft(i), Value::Int(a)) => {
                self.pending.push(Frame::GeqRight(a));
                self.go_to(self.child(i, 1))
            }
            (Frame::GeqRight(a), Value::Int(b)) => {
                self.spend()?;
                self.comes_to(Value::Bool(a >= b))
            }
            (Frame::If(i), Value::Bool(test)) => {
                self.spend()?;
                self.go_to(self.child(i, if test { 1 } else { 2 }))
            }
            (Frame::Assign(l), Value::Int(n)) => {
                self.spend()?;
                self.store[l as usize] = n;
                self.comes_to(Value::Skip)
            }
            (Frame::Seq(next), Value::Skip) => {
                self.spend()?;
                self.go_to(next)
            }
            (Frame::While(i), Value::Bool(true)) => {
                self.spend()?;
                self.pending.push(Frame::Seq(i));
                self.go_to(self.child(i, 1))
            }
            (Frame::While(_), Value::Bool(false)) => {
                self.spend()?;
                self.comes_to(Value::Skip)
            }
            _ => unreachable!("a checked routine has a type"),
        }
    }

    fn spend(&mut self) -> Result<(), Outcome> {
        if self.steps == self.fuel {
            return Err(Outcome::Fuel);
        }
        self.steps += 1;
        Ok(())
    }

    fn go_to(&mut self, i: u16) -> Result<(), Outcome> {
        self.work = Work::Node(i);
        Ok(())
    }

    fn comes_to(&mut self, value: Value) -> Result<(), Outcome> {
        self.work = Work::Value(value);
        Ok(())
    }

    fn child(&self, i: u16, which: usize) -> u16 {
        let node = &self.nodes[i as usize];
        u16::from_be_bytes([node[2 + 2 * which], node[3 + 2 * which]])
    }
}
