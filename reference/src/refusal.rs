//! A refusal: document 01's number, the bit place where it has one, and with 8 the table that was being
//! read (T-06).

use std::fmt;

#[derive(Clone, Copy, PartialEq, Eq, Debug)]
pub struct Refusal {
    pub number: u8,
    /// 0 for numbers without a place (1, 2 and 21 up).
    pub place: usize,
    /// 1 MBA, 2 MTYPE, 3 MVD, 4 CBP, 5 TCOEFF; of H.263 6 and 7 MCBPC in INTRA and INTER pictures, 8 CBPY,
    /// 9 MVD, 10 TCOEF; "other refusals carry table 0".
    pub table: u8,
}

impl Refusal {
    pub fn at(number: u8, place: usize) -> Refusal {
        Refusal {
            number,
            place,
            table: 0,
        }
    }

    pub fn plain(number: u8) -> Refusal {
        Refusal::at(number, 0)
    }

    /// 8: no codeword of the table stands at the place.
    pub fn no_codeword(place: usize, table: u8) -> Refusal {
        Refusal {
            number: 8,
            place,
            table,
        }
    }

    pub fn has_place(self) -> bool {
        (3..=14).contains(&self.number)
    }
}

/// As the lister writes it: "at" for refusals 3 to 14 only, "table" for 8.
impl fmt::Display for Refusal {
    fn fmt(&self, out: &mut fmt::Formatter<'_>) -> fmt::Result {
        write!(out, "refused {}", self.number)?;
        if self.has_place() {
            write!(out, " at {}", self.place)?;
        }
        if self.number == 8 {
            write!(out, " table {}", self.table)?;
        }
        Ok(())
    }
}
