//! The same as `trace` in plain safe Rust: prints every moment of a run. It takes its input to be a good one.

#[path = "../state.rs"]
mod state;

use state::{Frame, Outcome, Value, Work};
use std::io::{self, Read, Write};

/// A longer text is printed as `#` and its length.
const SHOWN: usize = 8192;

/// The output is written in pieces of about this size.
const PIECE: usize = 1 << 16;

/// The nodes of a routine, and how long the text of each is.
struct Routine<'a> {
    nodes: &'a [[u8; 8]],
    lengths: Vec<usize>,
}

impl<'a> Routine<'a> {
    fn new(nodes: &'a [[u8; 8]]) -> Routine<'a> {
        let mut routine = Routine { nodes, lengths: Vec::with_capacity(nodes.len()) };
        for i in 0..nodes.len() {
            let length = routine.measure(i as u16);
            routine.lengths.push(length);
        }
        routine
    }

    fn child(&self, i: u16, which: usize) -> u16 {
        let node = &self.nodes[i as usize];
        u16::from_be_bytes([node[2 + 2 * which], node[3 + 2 * which]])
    }

    fn integer(&self, i: u16) -> i32 {
        let [_, _, _, _, number @ ..] = self.nodes[i as usize];
        i32::from_be_bytes(number)
    }

    fn length(&self, i: u16) -> usize {
        self.lengths[i as usize]
    }

    /// The length of a node's text from those of its children.
    fn measure(&self, i: u16) -> usize {
        let [kind, arg, ..] = self.nodes[i as usize];
        let part = |which| self.length(self.child(i, which));
        match kind {
            0 => number_length(self.integer(i)),
            1 => truth(arg == 1).len(),
            2 => "( + )".len() + part(0) + part(1),
            3 => "( >= )".len() + part(0) + part(1),
            4 => "(if  then  else )".len() + part(0) + part(1) + part(2),
            5 => "(l := )".len() + digits(arg as usize) + part(0),
            6 => "!l".len() + digits(arg as usize),
            7 => "skip".len(),
            8 => "( ; )".len() + part(0) + part(1),
            9 => "(while  do  done)".len() + part(0) + part(1),
            _ => unreachable!("a good routine has no such kind"),
        }
    }

    fn put(&self, i: u16, out: &mut Vec<u8>) {
        let [kind, arg, ..] = self.nodes[i as usize];
        match kind {
            0 => put_number(self.integer(i), out),
            1 => out.extend_from_slice(truth(arg == 1)),
            2 => self.put_two(b"(", b" + ", b")", i, out),
            3 => self.put_two(b"(", b" >= ", b")", i, out),
            4 => {
                self.put_two(b"(if ", b" then ", b" else ", i, out);
                self.put(self.child(i, 2), out);
                out.push(b')');
            }
            5 => {
                put_assigned(arg, out);
                self.put(self.child(i, 0), out);
                out.push(b')');
            }
            6 => {
                out.extend_from_slice(b"!l");
                put_decimal(arg as u64, out);
            }
            7 => out.extend_from_slice(b"skip"),
            8 => self.put_two(b"(", b" ; ", b")", i, out),
            9 => self.put_two(b"(while ", b" do ", b" done)", i, out),
            _ => unreachable!("a good routine has no such kind"),
        }
    }

    #[inline]
    fn put_two(&self, before: &[u8], between: &[u8], behind: &[u8], i: u16, out: &mut Vec<u8>) {
        out.extend_from_slice(before);
        self.put(self.child(i, 0), out);
        out.extend_from_slice(between);
        self.put(self.child(i, 1), out);
        out.extend_from_slice(behind);
    }
}

struct Machine<'a> {
    routine: Routine<'a>,
    store: Vec<i32>,
    pending: Vec<Frame>,
    work: Work,
    fuel: u32,
    steps: u32,
    loops: u32,
}

impl<'a> Machine<'a> {
    fn new(nodes: &'a [[u8; 8]], store: Vec<i32>, fuel: u32) -> Machine<'a> {
        Machine {
            routine: Routine::new(nodes),
            store,
            pending: Vec::with_capacity(256),
            work: Work::Node((nodes.len() - 1) as u16),
            fuel,
            steps: 0,
            loops: 0,
        }
    }

    /// One step, and the name of its rule; or how the run ends.
    fn step(&mut self) -> Result<&'static [u8], Outcome> {
        loop {
            let rule = match self.work {
                Work::Node(i) => self.enter(i)?,
                Work::Value(v) => match self.pending.pop() {
                    Some(frame) => self.resume(frame, v)?,
                    None => return Err(Outcome::Value(v)),
                },
            };
            if let Some(name) = rule {
                return Ok(name);
            }
        }
    }

    /// Goes into a node: a move of the search, or a step by the rule named.
    fn enter(&mut self, i: u16) -> Result<Option<&'static [u8]>, Outcome> {
        let [kind, arg, ..] = self.routine.nodes[i as usize];
        let frame = match kind {
            0 => return self.is(Value::Int(self.routine.integer(i))),
            1 => return self.is(Value::Bool(arg == 1)),
            6 => {
                self.spend()?;
                self.work = Work::Value(Value::Int(self.store[arg as usize]));
                return Ok(Some(b"deref"));
            }
            7 => return self.is(Value::Skip),
            2 => Frame::PlusLeft(i),
            3 => Frame::GeqLeft(i),
            4 => Frame::If(i),
            5 => Frame::Assign(arg),
            8 => Frame::Seq(self.routine.child(i, 1)),
            9 => {
                self.spend()?;
                self.loops += 1;
                self.push(Frame::While(i), self.routine.child(i, 0));
                return Ok(Some(b"while"));
            }
            _ => unreachable!("a good routine has no such kind"),
        };
        self.push(frame, self.routine.child(i, 0));
        Ok(None)
    }

    /// Puts a value into the frame that waited for it.
    fn resume(&mut self, frame: Frame, value: Value) -> Result<Option<&'static [u8]>, Outcome> {
        let name: &[u8] = match (frame, value) {
            (Frame::PlusLeft(i), Value::Int(a)) => {
                self.push(Frame::PlusRight(i, a), self.routine.child(i, 1));
                return Ok(None);
            }
            (Frame::GeqLeft(i), Value::Int(a)) => {
                self.push(Frame::GeqRight(a), self.routine.child(i, 1));
                return Ok(None);
            }
            (Frame::PlusRight(i, a), Value::Int(b)) => {
                let sum = a.checked_add(b).ok_or(Outcome::Overflow(i))?;
                self.spend()?;
                self.work = Work::Value(Value::Int(sum));
                b"plus"
            }
            (Frame::GeqRight(a), Value::Int(b)) => {
                self.spend()?;
                self.work = Work::Value(Value::Bool(a >= b));
                b"geq"
            }
            (Frame::If(i), Value::Bool(test)) => {
                self.spend()?;
                self.work = Work::Node(self.routine.child(i, if test { 1 } else { 2 }));
                if test { b"if-true" } else { b"if-false" }
            }
            (Frame::Assign(l), Value::Int(n)) => {
                self.spend()?;
                self.store[l as usize] = n;
                self.work = Work::Value(Value::Skip);
                b"assign"
            }
            (Frame::Seq(next), Value::Skip) => {
                self.spend()?;
                self.work = Work::Node(next);
                b"seq"
            }
            (Frame::While(i), Value::Bool(true)) => {
                self.spend()?;
                self.push(Frame::Seq(i), self.routine.child(i, 1));
                b"if-true"
            }
            (Frame::While(_), Value::Bool(false)) => {
                self.spend()?;
                self.work = Work::Value(Value::Skip);
                b"if-false"
            }
            _ => unreachable!("a good routine has a type"),
        };
        Ok(Some(name))
    }

    fn is(&mut self, value: Value) -> Result<Option<&'static [u8]>, Outcome> {
        self.work = Work::Value(value);
        Ok(None)
    }

    fn push(&mut self, frame: Frame, to: u16) {
        self.pending.push(frame);
        self.work = Work::Node(to);
    }

    fn spend(&mut self) -> Result<(), Outcome> {
        if self.steps == self.fuel {
            return Err(Outcome::Fuel);
        }
        self.steps += 1;
        Ok(())
    }

    /// The length of the whole expression's text.
    fn text_length(&self) -> usize {
        let work = match self.work {
            Work::Node(i) => self.routine.length(i),
            Work::Value(v) => value_length(v),
        };
        work + self.pending.iter().map(|&frame| self.frame_length(frame)).sum::<usize>()
    }

    fn frame_length(&self, frame: Frame) -> usize {
        let part = |i, which| self.routine.length(self.routine.child(i, which));
        match frame {
            Frame::PlusLeft(i) => "( + )".len() + part(i, 1),
            Frame::PlusRight(_, n) => "( + )".len() + number_length(n),
            Frame::GeqLeft(i) => "( >= )".len() + part(i, 1),
            Frame::GeqRight(n) => "( >= )".len() + number_length(n),
            Frame::If(i) => "(if  then  else )".len() + part(i, 1) + part(i, 2),
            Frame::Assign(l) => "(l := )".len() + digits(l as usize),
            Frame::Seq(j) => "( ; )".len() + self.routine.length(j),
            Frame::While(i) => "(if  then ( ; ) else skip)".len() + part(i, 1) + self.routine.length(i),
        }
    }

    fn put_text(&self, out: &mut Vec<u8>) {
        for &frame in &self.pending {
            put_opening(frame, out);
        }
        match self.work {
            Work::Node(i) => self.routine.put(i, out),
            Work::Value(v) => put_value(v, out),
        }
        for &frame in self.pending.iter().rev() {
            self.put_closing(frame, out);
        }
    }

    fn put_closing(&self, frame: Frame, out: &mut Vec<u8>) {
        let routine = &self.routine;
        match frame {
            Frame::PlusLeft(i) => {
                out.extend_from_slice(b" + ");
                routine.put(routine.child(i, 1), out);
            }
            Frame::GeqLeft(i) => {
                out.extend_from_slice(b" >= ");
                routine.put(routine.child(i, 1), out);
            }
            Frame::PlusRight(..) | Frame::GeqRight(_) | Frame::Assign(_) => {}
            Frame::If(i) => {
                out.extend_from_slice(b" then ");
                routine.put(routine.child(i, 1), out);
                out.extend_from_slice(b" else ");
                routine.put(routine.child(i, 2), out);
            }
            Frame::Seq(j) => {
                out.extend_from_slice(b" ; ");
                routine.put(j, out);
            }
            Frame::While(i) => {
                out.extend_from_slice(b" then (");
                routine.put(routine.child(i, 1), out);
                out.extend_from_slice(b" ; ");
                routine.put(i, out);
                out.extend_from_slice(b") else skip");
            }
        }
        out.push(b')');
    }

    /// The line of this moment.
    fn put_line(&self, rule: &[u8], out: &mut Vec<u8>) {
        put_decimal(self.steps as u64, out);
        out.push(b' ');
        out.extend_from_slice(rule);
        out.push(b' ');
        let length = self.text_length();
        if length > SHOWN {
            out.push(b'#');
            put_decimal(length as u64, out);
        } else {
            self.put_text(out);
        }
        out.extend_from_slice(b" |");
        for &n in &self.store {
            out.push(b' ');
            put_number(n, out);
        }
        out.push(b'\n');
    }

    fn put_last(&self, outcome: Outcome, out: &mut Vec<u8>) {
        match outcome {
            Outcome::Value(v) => {
                out.extend_from_slice(b"value ");
                put_value(v, out);
            }
            Outcome::Overflow(i) => {
                out.extend_from_slice(b"overflow at ");
                put_decimal(i as u64, out);
            }
            Outcome::Fuel => out.extend_from_slice(b"fuel"),
        }
        out.extend_from_slice(b" steps ");
        put_decimal(self.steps as u64, out);
        out.extend_from_slice(b" loops ");
        put_decimal(self.loops as u64, out);
        out.push(b'\n');
    }
}

fn truth(t: bool) -> &'static [u8] {
    if t { b"true" } else { b"false" }
}

fn digits(n: usize) -> usize {
    n.checked_ilog10().unwrap_or(0) as usize + 1
}

fn number_length(n: i32) -> usize {
    (n < 0) as usize + digits(n.unsigned_abs() as usize)
}

fn value_length(value: Value) -> usize {
    match value {
        Value::Int(n) => number_length(n),
        Value::Bool(t) => truth(t).len(),
        Value::Skip => "skip".len(),
    }
}

fn put_decimal(mut n: u64, out: &mut Vec<u8>) {
    let mut digits = [0; 20];
    let mut at = digits.len();
    loop {
        at -= 1;
        digits[at] = b'0' + (n % 10) as u8;
        n /= 10;
        if n == 0 {
            break;
        }
    }
    out.extend_from_slice(&digits[at..]);
}

fn put_number(n: i32, out: &mut Vec<u8>) {
    if n < 0 {
        out.push(b'-');
    }
    put_decimal(n.unsigned_abs() as u64, out);
}

fn put_value(value: Value, out: &mut Vec<u8>) {
    match value {
        Value::Int(n) => put_number(n, out),
        Value::Bool(t) => out.extend_from_slice(truth(t)),
        Value::Skip => out.extend_from_slice(b"skip"),
    }
}

fn put_assigned(l: u8, out: &mut Vec<u8>) {
    out.extend_from_slice(b"(l");
    put_decimal(l as u64, out);
    out.extend_from_slice(b" := ");
}

fn put_opening(frame: Frame, out: &mut Vec<u8>) {
    match frame {
        Frame::PlusLeft(_) | Frame::GeqLeft(_) | Frame::Seq(_) => out.push(b'('),
        Frame::PlusRight(_, n) => {
            out.push(b'(');
            put_number(n, out);
            out.extend_from_slice(b" + ");
        }
        Frame::GeqRight(n) => {
            out.push(b'(');
            put_number(n, out);
            out.extend_from_slice(b" >= ");
        }
        Frame::If(_) | Frame::While(_) => out.extend_from_slice(b"(if "),
        Frame::Assign(l) => put_assigned(l, out),
    }
}

fn main() -> io::Result<()> {
    let mut input = Vec::new();
    io::stdin().lock().take(33_035).read_to_end(&mut input)?;
    let end = 2 + u16::from_be_bytes([input[0], input[1]]) as usize;
    let (routine, rest) = input.split_at(end);
    let (nodes, _) = routine[6..].as_chunks();
    let (words, _) = rest.as_chunks();
    let fuel = u32::from_be_bytes(words[0]);
    let store = words[1..].iter().map(|&word| i32::from_be_bytes(word)).collect();

    let mut stdout = io::stdout().lock();
    let mut out = Vec::with_capacity(PIECE + 10_000);
    let mut machine = Machine::new(nodes, store, fuel);
    let mut rule: &[u8] = b"start";
    loop {
        machine.put_line(rule, &mut out);
        if out.len() >= PIECE {
            stdout.write_all(&out)?;
            out.clear();
        }
        match machine.step() {
            Ok(name) => rule = name,
            Err(outcome) => {
                machine.put_last(outcome, &mut out);
                return stdout.write_all(&out);
            }
        }
    }
}
