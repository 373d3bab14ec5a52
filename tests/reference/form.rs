//! The form of a text: what 01 prints of an expression, byte for byte, read from left to right. Numbers may be of any size here.
//!
//! After each byte there is one way to go on, because the forms differ in the first byte by which they can: so the byte at which no way is left is the
//! first that no text of the form can have there. What is still asked for is kept in a list, so that a text may be nested as deep as it likes.

/// A number as it stands in the text, with its minus if it has one.
#[derive(Clone, Copy)]
pub struct Number<'a> {
    pub at: usize,
    pub written: &'a str,
}

/// The forms with what they carry, by the kinds of 01.
#[derive(Clone, Copy)]
pub enum Kind<'a> {
    Integer(Number<'a>),
    Boolean(bool),
    Plus,
    Geq,
    If,
    Assign(Number<'a>),
    Deref(Number<'a>),
    Skip,
    Seq,
    While,
}

/// A node with the places of its children, and its count by 02's request 2.
pub struct Node<'a> {
    pub kind: Kind<'a>,
    pub children: Vec<usize>,
    pub count: usize,
}

/// A text of the form: its nodes in post-order, and its integers and locations in the order in which they stand.
#[derive(Default)]
pub struct Formed<'a> {
    pub nodes: Vec<Node<'a>>,
    pub integers: Vec<Number<'a>>,
    pub locations: Vec<Number<'a>>,
}

/// What is still asked for.
enum Asked<'a> {
    Word(&'static str),
    Expression,
    /// An operator between spaces, its second part and the bracket.
    Operator,
    /// No byte: all parts of the node are read.
    Node(Kind<'a>, usize),
}

use Asked::{Expression, Operator, Word};

struct Reader<'a> {
    text: &'a [u8],
    at: usize,
    /// The next is the last.
    asked: Vec<Asked<'a>>,
    /// Nodes that stand in no other yet.
    roots: Vec<usize>,
    formed: Formed<'a>,
}

/// The nodes of a text, or the place of the first byte that no text of the form can have after the bytes before it; the text's length if it stops too soon.
pub fn form(text: &[u8]) -> Result<Formed<'_>, usize> {
    let mut reader = Reader { text, at: 0, asked: vec![Expression], roots: vec![], formed: Formed::default() };
    while let Some(asked) = reader.asked.pop() {
        match asked {
            Word(word) => reader.word(word)?,
            Expression => reader.expression()?,
            Operator => reader.operator()?,
            Asked::Node(kind, children) => reader.node(kind, children),
        }
    }
    if reader.at < text.len() {
        return Err(reader.at);
    }
    Ok(reader.formed)
}

impl<'a> Reader<'a> {
    /// The next byte; none at the text's end.
    fn next(&self) -> Option<u8> {
        self.text.get(self.at).copied()
    }

    fn word(&mut self, word: &str) -> Result<(), usize> {
        for byte in word.bytes() {
            if self.next() != Some(byte) {
                return Err(self.at);
            }
            self.at += 1;
        }
        Ok(())
    }

    /// Asks for these, the first of them first.
    fn ask<const N: usize>(&mut self, parts: [Asked<'a>; N]) {
        self.asked.extend(parts.into_iter().rev());
    }

    fn expression(&mut self) -> Result<(), usize> {
        match self.next() {
            Some(b'(') => return self.bracket(),
            Some(b'!') => {
                self.word("!l")?;
                let l = self.location()?;
                self.node(Kind::Deref(l), 0);
            }
            Some(b's') => self.named("skip", Kind::Skip)?,
            Some(b't') => self.named("true", Kind::Boolean(true))?,
            Some(b'f') => self.named("false", Kind::Boolean(false))?,
            _ => {
                let n = self.integer()?;
                self.node(Kind::Integer(n), 0);
            }
        }
        Ok(())
    }

    fn named(&mut self, word: &str, kind: Kind<'a>) -> Result<(), usize> {
        self.word(word)?;
        self.node(kind, 0);
        Ok(())
    }

    fn bracket(&mut self) -> Result<(), usize> {
        self.word("(")?;
        match self.next() {
            Some(b'i') => {
                let [then, otherwise] = [Word(" then "), Word(" else ")];
                self.ask([Word("if "), Expression, then, Expression, otherwise, Expression, Word(")"), Asked::Node(Kind::If, 3)]);
            }
            Some(b'w') => {
                self.ask([Word("while "), Expression, Word(" do "), Expression, Word(" done)"), Asked::Node(Kind::While, 2)]);
            }
            Some(b'l') => {
                self.word("l")?;
                let l = self.location()?;
                self.ask([Word(" := "), Expression, Word(")"), Asked::Node(Kind::Assign(l), 1)]);
            }
            _ => self.ask([Expression, Operator]),
        }
        Ok(())
    }

    fn operator(&mut self) -> Result<(), usize> {
        self.word(" ")?;
        let (word, kind) = match self.next() {
            Some(b'+') => ("+ ", Kind::Plus),
            Some(b'>') => (">= ", Kind::Geq),
            Some(b';') => ("; ", Kind::Seq),
            _ => return Err(self.at),
        };
        self.ask([Word(word), Expression, Word(")"), Asked::Node(kind, 2)]);
        Ok(())
    }

    fn integer(&mut self) -> Result<Number<'a>, usize> {
        let at = self.at;
        if self.next() == Some(b'-') {
            self.at += 1;
            // there is no -0
            if self.next() == Some(b'0') {
                return Err(self.at);
            }
        }
        self.digits()?;
        let n = self.number_from(at);
        self.formed.integers.push(n);
        Ok(n)
    }

    fn location(&mut self) -> Result<Number<'a>, usize> {
        let at = self.at;
        self.digits()?;
        let l = self.number_from(at);
        self.formed.locations.push(l);
        Ok(l)
    }

    /// 0 alone, or digits of which the first is not 0.
    fn digits(&mut self) -> Result<(), usize> {
        match self.next() {
            Some(b'0') => self.at += 1,
            Some(b'1'..=b'9') => {
                while matches!(self.next(), Some(b'0'..=b'9')) {
                    self.at += 1;
                }
            }
            _ => return Err(self.at),
        }
        Ok(())
    }

    fn number_from(&self, at: usize) -> Number<'a> {
        Number { at, written: std::str::from_utf8(&self.text[at..self.at]).unwrap() }
    }

    /// The node over the last so many roots.
    fn node(&mut self, kind: Kind<'a>, count: usize) {
        let children = self.roots.split_off(self.roots.len() - count);
        let counts: Vec<usize> = children.iter().map(|&c| self.formed.nodes[c].count).collect();
        self.roots.push(self.formed.nodes.len());
        self.formed.nodes.push(Node { kind, children, count: counted(kind, &counts) });
    }
}

/// The count of a node whose children have these counts.
fn counted(kind: Kind, counts: &[usize]) -> usize {
    match (kind, counts) {
        (Kind::If, [test, second, third]) => *[test + 1, *second, *third].iter().max().unwrap(),
        (Kind::Seq, [first, second]) => *[first + 1, *second].iter().max().unwrap(),
        // an operator, an assignment, a while: all their parts; the others have none
        (_, parts) => parts.iter().max().map_or(0, |most| most + 1),
    }
}
