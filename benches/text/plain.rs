//! The same reader and writer in plain safe Rust: a recursive reader that puts the nodes into a reused `Vec`, and a recursive writer into a slice.

/// The numbers of refusal, with what they also return, or 0.
#[derive(Clone, Copy, PartialEq, Eq, Debug)]
pub struct Refusal(pub u32, pub usize);

const MOST_NODES: usize = 4096;
const MOST_PLACES: u32 = 256;

/// Reads texts. The nodes are kept from one text to the next only for their room.
pub struct Reader {
    nodes: Vec<[u8; 8]>,
}

impl Reader {
    pub fn new() -> Reader {
        Reader { nodes: Vec::with_capacity(MOST_NODES) }
    }

    /// The row's length, with the row in `room`.
    #[inline(never)]
    pub fn read(&mut self, text: &[u8], m: u64, room: &mut [u8]) -> Result<usize, Refusal> {
        if m > 64 {
            return Err(Refusal(4, 0));
        }
        self.nodes.clear();
        let mut parser = Parser { text, at: 0, nodes: &mut self.nodes, most: 0, integer: None, location: None };
        parser.whole().map_err(|at| Refusal(50, at))?;
        let (most, integer, location) = (parser.most, parser.integer, parser.location);
        if let Some(at) = integer {
            return Err(Refusal(51, at));
        }
        if let Some(at) = location {
            return Err(Refusal(52, at));
        }
        let n = self.nodes.len();
        if n > MOST_NODES {
            return Err(Refusal(5, 0));
        }
        if most > MOST_PLACES {
            return Err(Refusal(9, 0));
        }
        let length = 6 + 8 * n;
        let room = room.get_mut(..length).ok_or(Refusal(53, length))?;
        let (head, nodes) = room.split_at_mut(6);
        head[..2].copy_from_slice(&((4 + 8 * n) as u16).to_be_bytes());
        head[2] = 1;
        head[3] = m as u8;
        head[4..].copy_from_slice(&(n as u16).to_be_bytes());
        nodes.copy_from_slice(self.nodes.as_flattened());
        Ok(length)
    }
}

/// A place in a text, and what was read of it. Errors are the place of the first byte that can't stand there.
struct Parser<'a> {
    text: &'a [u8],
    at: usize,
    nodes: &'a mut Vec<[u8; 8]>,
    /// The most places around an expression.
    most: u32,
    /// The first integer out of range.
    integer: Option<usize>,
    /// The first location over 255.
    location: Option<usize>,
}

impl Parser<'_> {
    fn whole(&mut self) -> Result<(), usize> {
        self.expression(0)?;
        if self.at < self.text.len() {
            return Err(self.at);
        }
        Ok(())
    }

    #[inline]
    fn next(&self) -> Option<u8> {
        self.text.get(self.at).copied()
    }

    #[inline(always)]
    fn word(&mut self, word: &[u8]) -> Result<(), usize> {
        if self.text[self.at..].starts_with(word) {
            self.at += word.len();
            Ok(())
        } else {
            Err(self.first_other(word))
        }
    }

    #[cold]
    fn first_other(&self, word: &[u8]) -> usize {
        let same = self.text[self.at..].iter().zip(word).take_while(|(a, b)| a == b).count();
        self.at + same
    }

    /// Adds a node and gives its number.
    #[inline(always)]
    fn add(&mut self, kind: u8, arg: u8, children: [u16; 3]) -> u16 {
        let [a, b, c] = children.map(u16::to_be_bytes);
        self.nodes.push([kind, arg, a[0], a[1], b[0], b[1], c[0], c[1]]);
        (self.nodes.len() - 1) as u16
    }

    /// Reads an expression with so many places around it and gives the number of its node.
    fn expression(&mut self, around: u32) -> Result<u16, usize> {
        self.most = self.most.max(around);
        match self.next() {
            Some(b'(') => {
                self.at += 1;
                self.bracket(around)
            }
            Some(b'!') => {
                self.word(b"!l")?;
                let l = self.location()?;
                Ok(self.add(6, l, [0; 3]))
            }
            Some(b's') => {
                self.word(b"skip")?;
                Ok(self.add(7, 0, [0; 3]))
            }
            Some(b't') => {
                self.word(b"true")?;
                Ok(self.add(1, 1, [0; 3]))
            }
            Some(b'f') => {
                self.word(b"false")?;
                Ok(self.add(1, 0, [0; 3]))
            }
            _ => self.integer(),
        }
    }

    /// A branch of an if and the second part of a sequence are worked in the form's own place, each other part inside the form.
    fn bracket(&mut self, around: u32) -> Result<u16, usize> {
        match self.next() {
            Some(b'i') => {
                self.word(b"if ")?;
                let e1 = self.expression(around + 1)?;
                self.word(b" then ")?;
                let e2 = self.expression(around)?;
                self.word(b" else ")?;
                let e3 = self.expression(around)?;
                self.word(b")")?;
                Ok(self.add(4, 0, [e1, e2, e3]))
            }
            Some(b'w') => {
                self.word(b"while ")?;
                let e1 = self.expression(around + 1)?;
                self.word(b" do ")?;
                let e2 = self.expression(around + 1)?;
                self.word(b" done)")?;
                Ok(self.add(9, 0, [e1, e2, 0]))
            }
            Some(b'l') => {
                self.at += 1;
                let l = self.location()?;
                self.word(b" := ")?;
                let e1 = self.expression(around + 1)?;
                self.word(b")")?;
                Ok(self.add(5, l, [e1, 0, 0]))
            }
            _ => {
                let e1 = self.expression(around + 1)?;
                self.word(b" ")?;
                let kind = match self.next() {
                    Some(b'+') => {
                        self.word(b"+ ")?;
                        2
                    }
                    Some(b'>') => {
                        self.word(b">= ")?;
                        3
                    }
                    Some(b';') => {
                        self.word(b"; ")?;
                        8
                    }
                    _ => return Err(self.at),
                };
                let e2 = self.expression(around + (kind != 8) as u32)?;
                self.word(b")")?;
                Ok(self.add(kind, 0, [e1, e2, 0]))
            }
        }
    }

    fn integer(&mut self) -> Result<u16, usize> {
        let from = self.at;
        let minus = self.next() == Some(b'-');
        if minus {
            self.at += 1;
            if self.next() == Some(b'0') {
                return Err(self.at);
            }
        }
        let size = self.number()? as i64;
        let n = i32::try_from(if minus { -size } else { size }).unwrap_or_else(|_| {
            self.integer.get_or_insert(from);
            0
        });
        let [a, b, c, d] = n.to_be_bytes();
        self.nodes.push([0, 0, 0, 0, a, b, c, d]);
        Ok((self.nodes.len() - 1) as u16)
    }

    #[inline(always)]
    fn location(&mut self) -> Result<u8, usize> {
        let from = self.at;
        let l = self.number()?;
        Ok(u8::try_from(l).unwrap_or_else(|_| {
            self.location.get_or_insert(from);
            0
        }))
    }

    /// A number without a sign; one past 40 bits stays past them.
    #[inline]
    fn number(&mut self) -> Result<u64, usize> {
        match self.next() {
            Some(b'0') => {
                self.at += 1;
                Ok(0)
            }
            Some(first @ b'1'..=b'9') => {
                let mut number = (first - b'0') as u64;
                self.at += 1;
                while let Some(digit @ b'0'..=b'9') = self.next() {
                    if number < 1 << 40 {
                        number = 10 * number + (digit - b'0') as u64;
                    }
                    self.at += 1;
                }
                Ok(number)
            }
            _ => Err(self.at),
        }
    }
}

/// What is known of a node once it was looked at.
#[derive(Clone, Copy)]
struct Known {
    size: u16,
    places: u16,
}

/// Writes rows. What is known of the nodes is kept from one row to the next only for its room.
pub struct Writer {
    known: Vec<Known>,
}

impl Writer {
    pub fn new() -> Writer {
        Writer { known: Vec::with_capacity(MOST_NODES) }
    }

    /// The text's length, with the text in `buffer`.
    #[inline(never)]
    pub fn write(&mut self, row: &[u8], buffer: &mut [u8]) -> Result<usize, Refusal> {
        let length = self.open(row)?;
        let text = buffer.get_mut(..length).ok_or(Refusal(32, length))?;
        let (nodes, _) = row[6..].as_chunks();
        let mut out = Out { nodes, text, at: 0 };
        out.put(nodes.len() - 1);
        Ok(length)
    }

    /// Refusals 1 to 9, else the length of the text: each node has its own bytes in it.
    fn open(&mut self, row: &[u8]) -> Result<usize, Refusal> {
        test_head(row)?;
        self.known.clear();
        let mut length = 0;
        for (i, node) in row[6..].chunks_exact(8).enumerate() {
            let (known, own) = self.look_at(i, node).ok_or(Refusal(7, i))?;
            self.known.push(known);
            length += own;
        }
        let n = self.known.len();
        let root = self.known[n - 1];
        if (root.size as usize) < n {
            return Err(Refusal(8, 0));
        }
        if root.places as u32 > MOST_PLACES {
            return Err(Refusal(9, 0));
        }
        Ok(length)
    }

    /// What is known of node i and how many bytes of the text are its own, or nothing where it breaks the layout.
    #[inline(always)]
    fn look_at(&self, i: usize, node: &[u8]) -> Option<(Known, usize)> {
        let arg = node[1];
        let first = u16::from_be_bytes([node[2], node[3]]);
        let second = u16::from_be_bytes([node[4], node[5]]);
        let third = u16::from_be_bytes([node[6], node[7]]);
        let leaf = Known { size: 1, places: 0 };
        match node[0] {
            0 if arg == 0 && first == 0 => Some((leaf, integer_length(integer_of(node)))),
            1 if arg <= 1 && first == 0 && second == 0 && third == 0 => Some((leaf, 5 - arg as usize)),
            kind @ (2 | 3 | 8 | 9) if arg == 0 && third == 0 => {
                let b = self.child(i, second, 1)?;
                let a = self.child(second as usize, first, b.size)?;
                let own = match kind {
                    2 | 8 => "( + )".len(),
                    3 => "( >= )".len(),
                    _ => "(while  do  done)".len(),
                };
                let second = b.places + (kind != 8) as u16;
                Some((Known { size: 1 + a.size + b.size, places: second.max(1 + a.places) }, own))
            }
            4 if arg == 0 => {
                let c = self.child(i, third, 1)?;
                let b = self.child(third as usize, second, c.size)?;
                let a = self.child(second as usize, first, b.size)?;
                let known = Known { size: 1 + a.size + b.size + c.size, places: (1 + a.places).max(b.places).max(c.places) };
                Some((known, "(if  then  else )".len()))
            }
            5 if second == 0 && third == 0 => {
                let a = self.child(i, first, 1)?;
                Some((Known { size: 1 + a.size, places: 1 + a.places }, "(l := )".len() + location_length(arg)))
            }
            6 if first == 0 && second == 0 && third == 0 => Some((leaf, "!l".len() + location_length(arg))),
            7 if arg == 0 && first == 0 && second == 0 && third == 0 => Some((leaf, "skip".len())),
            _ => None,
        }
    }

    /// The child numbered c, where it stands `back` nodes before node `after`.
    fn child(&self, after: usize, c: u16, back: u16) -> Option<Known> {
        if c as usize + back as usize == after {
            self.known.get(c as usize).copied()
        } else {
            None
        }
    }
}

/// Refusals 1 to 6.
fn test_head(row: &[u8]) -> Result<(), Refusal> {
    let &[l0, l1, version, m, n0, n1, ..] = row else {
        return Err(Refusal(1, 0));
    };
    let after = u16::from_be_bytes([l0, l1]) as usize;
    let n = u16::from_be_bytes([n0, n1]) as usize;
    if after + 2 != row.len() {
        Err(Refusal(2, 0))
    } else if version != 1 {
        Err(Refusal(3, 0))
    } else if m > 64 {
        Err(Refusal(4, 0))
    } else if n == 0 || n > MOST_NODES {
        Err(Refusal(5, 0))
    } else if after != 4 + 8 * n {
        Err(Refusal(6, 0))
    } else {
        Ok(())
    }
}

fn integer_of(node: &[u8]) -> i32 {
    i32::from_be_bytes([node[4], node[5], node[6], node[7]])
}

#[inline]
fn digits(n: u32) -> usize {
    n.checked_ilog10().map_or(1, |log| log as usize + 1)
}

fn integer_length(n: i32) -> usize {
    digits(n.unsigned_abs()) + (n < 0) as usize
}

fn location_length(l: u8) -> usize {
    digits(l as u32)
}

/// The text as far as it is written.
struct Out<'a> {
    nodes: &'a [[u8; 8]],
    text: &'a mut [u8],
    at: usize,
}

impl Out<'_> {
    #[inline]
    fn word(&mut self, word: &[u8]) {
        self.text[self.at..self.at + word.len()].copy_from_slice(word);
        self.at += word.len();
    }

    #[inline]
    fn number(&mut self, mut n: u32) {
        let count = digits(n);
        for place in self.text[self.at..self.at + count].iter_mut().rev() {
            *place = b'0' + (n % 10) as u8;
            n /= 10;
        }
        self.at += count;
    }

    fn put(&mut self, i: usize) {
        let node = self.nodes[i];
        let child = |k: usize| u16::from_be_bytes([node[2 * k], node[2 * k + 1]]) as usize;
        match node[0] {
            0 => {
                let n = integer_of(&node);
                if n < 0 {
                    self.word(b"-");
                }
                self.number(n.unsigned_abs());
            }
            1 => self.word(if node[1] == 1 { b"true" } else { b"false" }),
            2 => self.two(b"(", child(1), b" + ", child(2), b")"),
            3 => self.two(b"(", child(1), b" >= ", child(2), b")"),
            4 => {
                self.two(b"(if ", child(1), b" then ", child(2), b" else ");
                self.put(child(3));
                self.word(b")");
            }
            5 => {
                self.word(b"(l");
                self.number(node[1] as u32);
                self.word(b" := ");
                self.put(child(1));
                self.word(b")");
            }
            6 => {
                self.word(b"!l");
                self.number(node[1] as u32);
            }
            7 => self.word(b"skip"),
            8 => self.two(b"(", child(1), b" ; ", child(2), b")"),
            _ => self.two(b"(while ", child(1), b" do ", child(2), b" done)"),
        }
    }

    #[inline]
    fn two(&mut self, before: &[u8], e1: usize, between: &[u8], e2: usize, behind: &[u8]) {
        self.word(before);
        self.put(e1);
        self.word(between);
        self.put(e2);
        self.word(behind);
    }
}
