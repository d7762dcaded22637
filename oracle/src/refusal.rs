//! A refusal as document 01 returns it: a number and a place.

use std::fmt;

#[derive(Clone, Copy, Debug, PartialEq, Eq)]
pub struct Refusal {
    pub number: u8,
    pub place: usize,
}

impl Refusal {
    pub fn new(number: u8, place: usize) -> Self {
        Refusal { number, place }
    }
}

impl fmt::Display for Refusal {
    fn fmt(&self, out: &mut fmt::Formatter<'_>) -> fmt::Result {
        write!(out, "refused {} at {}", self.number, self.place)
    }
}

#[cfg(test)]
mod tests {
    use super::*;

    #[test]
    fn prints_as_document_01_does() {
        assert_eq!(Refusal::new(6, 11).to_string(), "refused 6 at 11");
    }
}
