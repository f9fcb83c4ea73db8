//! A4: slashes that a round leaves for the next one. A round of the test copy remembers what it has done so far: where the text that it
//! rewrote last ends, and the slashes that it left.

use std::cell::Cell;
use std::collections::BTreeSet;

/// How many slashes a round rewrote, and how many it left.
#[derive(Clone, Copy, Debug, Default, PartialEq)]
pub struct Done {
    pub rewritten: usize,
    pub left: usize,
}

#[derive(Default)]
pub struct Round {
    rewritten_end: usize,
    left: BTreeSet<usize>,
}

impl Round {
    /// A slash whose numerator begins at `numerator`: it is left where that is within the text rewritten last, or right after a slash
    /// that was left, whitespace apart.
    pub fn leaves(&mut self, chars: &[char], slash: usize, numerator: usize) -> bool {
        let before = chars[..numerator].iter().rposition(|c| !c.is_whitespace());
        let leaves = numerator < self.rewritten_end || before.is_some_and(|at| self.left.contains(&at));
        if leaves {
            self.left.insert(slash);
            DONE.set(Done { left: self.left.len(), ..DONE.get() });
        }
        leaves
    }

    /// A fraction is written for the text that ends here.
    pub fn rewrites(&mut self, end: usize) {
        self.rewritten_end = end;
        DONE.set(Done { rewritten: DONE.get().rewritten + 1, ..DONE.get() });
    }
}

thread_local! {
    static DONE: Cell<Done> = const { Cell::new(Done { rewritten: 0, left: 0 }) };
}

/// What a round gives, and what it did.
pub fn watched<T>(round: impl FnOnce() -> T) -> (T, Done) {
    DONE.set(Done::default());
    let result = round();
    (result, DONE.get())
}
