//! A span as it is entered: the two cabinets that it joins, and its duct.

/// Duct 0 is written for a span from 02, which no duct is told of.
#[derive(Clone, Copy, PartialEq, Eq, Debug)]
pub struct Span {
    pub a: usize,
    pub b: usize,
    pub duct: usize,
}

impl Span {
    /// A span from 02.
    pub fn new(a: usize, b: usize) -> Span {
        Span { a, b, duct: 0 }
    }

    /// A span from 0B.
    pub fn in_duct(a: usize, b: usize, duct: usize) -> Span {
        Span { a, b, duct }
    }

    pub fn touches(self, cabinet: usize) -> bool {
        self.a == cabinet || self.b == cabinet
    }

    /// The same span, entered in the other direction.
    pub fn turned(self) -> Span {
        Span { a: self.b, b: self.a, ..self }
    }

    /// Does it join the same two cabinets as another, in either direction?
    pub fn lies_beside(self, other: Span) -> bool {
        self.touches(other.a) && self.touches(other.b)
    }
}
