//! What a plain machine of a run is made of, for the two plain programs that make steps.

#[derive(Clone, Copy, PartialEq, Eq, Debug)]
pub enum Value {
    Int(i32),
    Bool(bool),
    Skip,
}

#[derive(Clone, Copy, PartialEq, Eq, Debug)]
pub enum Outcome {
    Value(Value),
    Overflow(u16),
    Fuel,
}

/// What the machine looks at: a node, or the value that an expression came to.
#[derive(Clone, Copy)]
pub enum Work {
    Node(u16),
    Value(Value),
}

/// An expression around the work, by its node, and what is already known of it.
#[derive(Clone, Copy)]
pub enum Frame {
    PlusLeft(u16),
    PlusRight(u16, i32),
    GeqLeft(u16),
    GeqRight(i32),
    If(u16),
    Assign(u8),
    /// The node after the `;`.
    Seq(u16),
    /// The test of the `if` that a `while` became.
    While(u16),
}
