//! Memory that is lent to a call, with a margin on both sides that the call must leave as it is.

const MARGIN: usize = 5;

/// Lent memory and its margins; two of them are equal where every element is.
#[derive(Clone, Debug, PartialEq)]
pub struct Lent<T>(Vec<T>);

impl<T: Copy> Lent<T> {
    pub fn new(inner: &[T], margin: T) -> Self {
        let side = [margin; MARGIN];
        Lent(side.iter().chain(inner).chain(&side).copied().collect())
    }

    /// The part that is lent.
    pub fn part(&mut self) -> &mut [T] {
        let end = self.0.len() - MARGIN;
        &mut self.0[MARGIN..end]
    }
}
