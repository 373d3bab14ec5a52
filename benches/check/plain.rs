//! The same check in plain safe Rust: one pass over the nodes, with what is known of each node kept in a reused `Vec`.

#[derive(Clone, Copy, PartialEq, Eq, Debug)]
pub enum Ty {
    Int,
    Bool,
    Unit,
}

#[derive(PartialEq, Eq, Debug)]
pub struct Told {
    pub ty: Ty,
    pub working: u64,
    pub reads: u64,
    pub writes: u64,
}

#[derive(Clone, Copy, PartialEq, Eq, Debug)]
pub enum Refusal {
    /// 1 to 6, 8 and 9.
    Plain(u8),
    /// 7 and 20 to 23, with the node.
    At(u8, u16),
}

/// What is known of a node once it was read.
#[derive(Clone, Copy)]
struct Known {
    size: u16,
    places: u16,
    ty: Ty,
}

pub struct Checker {
    known: Vec<Known>,
}

impl Checker {
    pub fn new() -> Checker {
        Checker { known: Vec::with_capacity(4096) }
    }

    #[inline(never)]
    pub fn check(&mut self, bytes: &[u8]) -> Result<Told, Refusal> {
        let m = read_head(bytes)?;
        self.known.clear();
        let mut told = Told { ty: Ty::Unit, working: 0, reads: 0, writes: 0 };
        // Refusals 7 to 9 go before 20 to 23, so the first fault waits for the end of the pass.
        let mut fault = None;
        for (i, node) in bytes[6..].chunks_exact(8).enumerate() {
            let broken = Refusal::At(7, i as u16);
            let known = self.read_node(i, node, m, &mut told, &mut fault).ok_or(broken)?;
            self.known.push(known);
        }
        let n = self.known.len();
        let root = self.known[n - 1];
        if (root.size as usize) < n {
            return Err(Refusal::Plain(8));
        }
        if root.places > 256 {
            return Err(Refusal::Plain(9));
        }
        if let Some(refusal) = fault {
            return Err(refusal);
        }
        told.ty = root.ty;
        Ok(told)
    }

    /// What is known of node i, or nothing where it breaks the layout.
    #[inline(always)]
    fn read_node(&self, i: usize, node: &[u8], m: u8, told: &mut Told, fault: &mut Option<Refusal>) -> Option<Known> {
        let arg = node[1];
        let first = u16::from_be_bytes([node[2], node[3]]);
        let second = u16::from_be_bytes([node[4], node[5]]);
        let third = u16::from_be_bytes([node[6], node[7]]);
        let mut require = |holds: bool, number: u8| {
            if !holds && fault.is_none() {
                *fault = Some(Refusal::At(number, i as u16));
            }
        };
        match node[0] {
            0 if arg == 0 && first == 0 => Some(leaf(Ty::Int)),
            1 if arg <= 1 && first == 0 && second == 0 && third == 0 => Some(leaf(Ty::Bool)),
            kind @ (2 | 3 | 8 | 9) if arg == 0 && third == 0 => {
                let (a, b) = self.two_children(i, first, second)?;
                told.working += 1;
                let (wanted_a, wanted_b, ty) = match kind {
                    2 => (Ty::Int, Ty::Int, Ty::Int),
                    3 => (Ty::Int, Ty::Int, Ty::Bool),
                    8 => (Ty::Unit, b.ty, b.ty),
                    _ => (Ty::Bool, Ty::Unit, Ty::Unit),
                };
                require(a.ty == wanted_a, 21);
                require(b.ty == wanted_b, 22);
                // The second part of a sequence is worked in the sequence's own place.
                let second = b.places + (kind != 8) as u16;
                Some(Known { size: 1 + a.size + b.size, places: second.max(1 + a.places), ty })
            }
            4 if arg == 0 => {
                let c = self.child(i, third, 1)?;
                let b = self.child(third as usize, second, c.size)?;
                let a = self.child(second as usize, first, b.size)?;
                told.working += 1;
                require(a.ty == Ty::Bool, 21);
                require(b.ty == c.ty, 23);
                let places = (1 + a.places).max(b.places).max(c.places);
                Some(Known { size: 1 + a.size + b.size + c.size, places, ty: b.ty })
            }
            5 if second == 0 && third == 0 => {
                let a = self.child(i, first, 1)?;
                told.working += 1;
                require(arg < m, 20);
                require(a.ty == Ty::Int, 21);
                told.writes |= 1 << (arg & 63);
                Some(Known { size: 1 + a.size, places: 1 + a.places, ty: Ty::Unit })
            }
            6 if first == 0 && second == 0 && third == 0 => {
                told.working += 1;
                require(arg < m, 20);
                told.reads |= 1 << (arg & 63);
                Some(leaf(Ty::Int))
            }
            7 if arg == 0 && first == 0 && second == 0 && third == 0 => Some(leaf(Ty::Unit)),
            _ => None,
        }
    }

    fn two_children(&self, i: usize, first: u16, second: u16) -> Option<(Known, Known)> {
        let b = self.child(i, second, 1)?;
        let a = self.child(second as usize, first, b.size)?;
        Some((a, b))
    }

    /// The child numbered c, where it stands `back` nodes before node `after`.
    fn child(&self, after: usize, c: u16, back: u16) -> Option<Known> {
        if c as usize + back as usize == after {
            self.known.get(c as usize).copied()
        } else {
            None
        }
    }
}

fn leaf(ty: Ty) -> Known {
    Known { size: 1, places: 0, ty }
}

/// Refusals 1 to 6, else m.
fn read_head(bytes: &[u8]) -> Result<u8, Refusal> {
    let &[l0, l1, version, m, n0, n1, ..] = bytes else {
        return Err(Refusal::Plain(1));
    };
    let after = u16::from_be_bytes([l0, l1]) as usize;
    let n = u16::from_be_bytes([n0, n1]) as usize;
    if after + 2 != bytes.len() {
        Err(Refusal::Plain(2))
    } else if version != 1 {
        Err(Refusal::Plain(3))
    } else if m > 64 {
        Err(Refusal::Plain(4))
    } else if n == 0 || n > 4096 {
        Err(Refusal::Plain(5))
    } else if after != 4 + 8 * n {
        Err(Refusal::Plain(6))
    } else {
        Ok(m)
    }
}
