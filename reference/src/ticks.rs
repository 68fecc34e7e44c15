//! Ticks (document 02, T-02) and due times.

use std::fmt;

/// What is exact, or estimated.
#[derive(Clone, Copy, PartialEq, Eq, Debug)]
pub enum Known<T> {
    Exact(T),
    Estimated(T),
}

pub type Tick = Known<u32>;

impl Tick {
    pub fn number(self) -> u32 {
        match self {
            Known::Exact(number) | Known::Estimated(number) => number,
        }
    }
}

/// `The lister writes "tick about 9" where estimated.`
impl fmt::Display for Tick {
    fn fmt(&self, out: &mut fmt::Formatter<'_>) -> fmt::Result {
        match self {
            Known::Exact(number) => write!(out, "{number}"),
            Known::Estimated(number) => write!(out, "about {number}"),
        }
    }
}

/// The last finished picture.
#[derive(Clone, Copy, PartialEq, Eq, Debug)]
pub struct Finished {
    pub picture: u32,
    pub temporal_reference: u8,
    pub tick: Tick,
}

impl Finished {
    /// "the first finished picture has tick equal to its TR"; "A clip whose first finished picture is
    /// picture 0 starts exact, any other estimated."
    fn first(picture: u32, temporal_reference: u8) -> Finished {
        let number = u32::from(temporal_reference);
        Finished {
            picture,
            temporal_reference,
            tick: if picture == 0 {
                Known::Exact(number)
            } else {
                Known::Estimated(number)
            },
        }
    }

    /// "Each next consecutive one adds the TR difference modulo 32, where 0 counts as 32. Where numbers
    /// were skipped the tick is the least one above the last finished picture's with the new TR (modulo
    /// 32), and it and all later ticks are estimated."
    ///
    /// 32 is H.261's modulus, 256 is H.263's.
    fn next(self, picture: u32, temporal_reference: u8, modulus: u32) -> Finished {
        let number = if picture == self.picture + 1 {
            let ahead = u32::from(temporal_reference) + modulus;
            match (ahead - u32::from(self.temporal_reference)) % modulus {
                0 => self.tick.number() + modulus,
                difference => self.tick.number() + difference,
            }
        } else {
            (self.tick.number() + 1..)
                .find(|tick| tick % modulus == u32::from(temporal_reference))
                .expect("one of the next ticks has this TR")
        };
        Finished {
            picture,
            temporal_reference,
            tick: match self.tick {
                Known::Exact(_) if picture == self.picture + 1 => Known::Exact(number),
                _ => Known::Estimated(number),
            },
        }
    }

    /// A picture is finished after the last one, if there is one.
    pub fn after(
        last: Option<Finished>,
        picture: u32,
        temporal_reference: u8,
        modulus: u32,
    ) -> Finished {
        match last {
            None => Finished::first(picture, temporal_reference),
            Some(last) => last.next(picture, temporal_reference, modulus),
        }
    }
}

/// "1001 times the tick, over 30000, in f64: one division, rounded once, of two exactly converted whole
/// numbers."
fn seconds(tick: u32) -> f64 {
    (1001 * u64::from(tick)) as f64 / 30_000.0
}

/// "So a due time is either exact seconds or estimated seconds."
pub fn due(tick: Tick) -> Known<f64> {
    match tick {
        Known::Exact(number) => Known::Exact(seconds(number)),
        Known::Estimated(number) => Known::Estimated(seconds(number)),
    }
}
