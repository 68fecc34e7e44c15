//! The two lent stores, which sender and receiver use in turn: "a finished picture goes into the store
//! that doesn't hold the last finished one, at first into the first store; the other is the reference."

/// One of the two lent stores.
#[derive(Clone, Copy, PartialEq, Eq, Debug)]
pub enum Which {
    First,
    Second,
}

impl Which {
    pub fn other(self) -> Which {
        match self {
            Which::First => Which::Second,
            Which::Second => Which::First,
        }
    }
}
