//! The three picture formats of T-04 and the sizes that go with each.

use crate::format::BLOCKS_PER_MACROBLOCK;

#[derive(Clone, Copy, PartialEq, Eq, Debug)]
pub enum Format {
    SubQcif,
    Qcif,
    Cif,
}

impl Format {
    pub const ALL: [Format; 3] = [Format::SubQcif, Format::Qcif, Format::Cif];

    /// As a description's head has it.
    pub fn number(self) -> u8 {
        match self {
            Format::Qcif => 0,
            Format::Cif => 1,
            Format::SubQcif => 2,
        }
    }

    /// Of the five kinds of clip (H.261 QCIF and CIF are 0 and 1), as records of the comparison have it.
    pub fn kind(self) -> u8 {
        match self {
            Format::SubQcif => 2,
            Format::Qcif => 3,
            Format::Cif => 4,
        }
    }

    pub fn name(self) -> &'static str {
        match self {
            Format::SubQcif => "h263-sqcif",
            Format::Qcif => "h263-qcif",
            Format::Cif => "h263-cif",
        }
    }

    pub fn from_name(name: &str) -> Option<Format> {
        Format::ALL.into_iter().find(|format| format.name() == name)
    }

    /// PTYPE bits 6 to 8.
    pub fn source_format(self) -> &'static str {
        match self {
            Format::SubQcif => "001",
            Format::Qcif => "010",
            Format::Cif => "011",
        }
    }

    /// Table 2.
    pub fn width(self) -> usize {
        match self {
            Format::SubQcif => 128,
            Format::Qcif => 176,
            Format::Cif => 352,
        }
    }

    pub fn height(self) -> usize {
        match self {
            Format::SubQcif => 96,
            Format::Qcif => 144,
            Format::Cif => 288,
        }
    }

    /// Macroblocks of a group, which is a row of them.
    pub fn columns(self) -> usize {
        self.width() / 16
    }

    pub fn groups(self) -> usize {
        self.height() / 16
    }

    pub fn macroblock_count(self) -> usize {
        self.columns() * self.groups()
    }

    /// Y rows, then CB, then CR.
    pub fn store_length(self) -> usize {
        self.width() * self.height() * 3 / 2
    }

    /// "Sub-QCIF uses QCIF's limits and buffer lengths."
    pub fn bit_limit(self) -> usize {
        match self {
            Format::SubQcif | Format::Qcif => 65_536,
            Format::Cif => 262_144,
        }
    }

    /// The writer's output.
    pub fn written_length(self) -> usize {
        self.bit_limit() / 8
    }

    /// TR, PTYPE bits 3 to 5, format, type, PQUANT, a GQUANT for each group.
    pub fn head_length(self) -> usize {
        5 + self.groups()
    }

    pub fn macroblocks_length(self) -> usize {
        4 * self.macroblock_count()
    }

    pub fn levels_length(self) -> usize {
        64 * BLOCKS_PER_MACROBLOCK * self.macroblock_count()
    }

    /// Left and top luminance sample of the macroblock at `index` in sending order.
    pub fn origin(self, index: usize) -> (usize, usize) {
        let (row, column) = (index / self.columns(), index % self.columns());
        (16 * column, 16 * row)
    }
}

#[cfg(test)]
mod tests {
    use super::*;

    #[test]
    fn lengths_as_t_04_and_document_01_have_them() {
        let of = |format: Format| {
            (
                format.head_length(),
                format.macroblocks_length(),
                format.levels_length(),
                format.store_length(),
                format.written_length(),
            )
        };
        assert_eq!(of(Format::SubQcif), (11, 192, 18_432, 18_432, 8_192));
        assert_eq!(of(Format::Qcif), (14, 396, 38_016, 38_016, 8_192));
        assert_eq!(of(Format::Cif), (23, 1_584, 152_064, 152_064, 32_768));
    }
}
