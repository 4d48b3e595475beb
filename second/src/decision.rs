//! Who may have what: the table of twenty entries, held against asked.

/// What is held on a key.
#[derive(Clone, Copy, Debug, PartialEq, Eq)]
pub enum Held {
    None = 0,
    I = 1,
    Q1 = 2,
    Q2 = 3,
    Q3 = 4,
}

impl Held {
    /// A Q row of this kind (1 to 3).
    pub fn row(kind: u64) -> Held {
        match kind {
            1 => Held::Q1,
            2 => Held::Q2,
            _ => Held::Q3,
        }
    }
}

/// What the asker gets.
#[derive(Clone, Copy, Debug, PartialEq, Eq)]
pub enum Decision {
    Grant,
    GrantVoidI,
    BackOff,
    AbortAsker,
}

use Decision::{AbortAsker, BackOff, Grant, GrantVoidI};

/// A row for each thing held; in it I, Q1, Q2, Q3 asked.
pub const TABLE: [[Decision; 4]; 5] = [
    [Grant, Grant, Grant, Grant],
    [BackOff, GrantVoidI, GrantVoidI, GrantVoidI],
    [BackOff, Grant, AbortAsker, AbortAsker],
    [BackOff, AbortAsker, AbortAsker, AbortAsker],
    [BackOff, AbortAsker, AbortAsker, AbortAsker],
];

/// The entry for an asked I lease.
pub fn asking_i(held: Held) -> Decision {
    TABLE[held as usize][0]
}

/// The entry for an asked Q row of this kind (1 to 3).
pub fn asking_q(held: Held, kind: u64) -> Decision {
    TABLE[held as usize][kind as usize]
}

#[cfg(test)]
mod tests {
    use super::*;

    #[test]
    fn only_q1_shares_with_q1() {
        for held in 1..=3 {
            for asked in 1..=3 {
                let shares = asking_q(Held::row(held), asked) == Grant;
                assert_eq!(shares, held == 1 && asked == 1);
            }
            assert_eq!(asking_i(Held::row(held)), BackOff);
            assert_eq!(asking_q(Held::I, held), GrantVoidI);
            assert_eq!(asking_q(Held::None, held), Grant);
        }
        assert_eq!((asking_i(Held::None), asking_i(Held::I)), (Grant, BackOff));
    }
}
