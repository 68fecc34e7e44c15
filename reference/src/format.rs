//! The two formats and the sizes that document 01 names for each.

/// Macroblocks of a group: three rows of eleven (Figure 8).
pub const MACROBLOCKS_PER_GROUP: usize = 33;
pub const MACROBLOCKS_PER_ROW: usize = 11;

/// Blocks of a macroblock (Figure 10): four of Y, then CB, then CR.
pub const BLOCKS_PER_MACROBLOCK: usize = 6;

#[derive(Clone, Copy, PartialEq, Eq, Debug)]
pub enum Format {
    Qcif,
    Cif,
}

impl Format {
    pub const ALL: [Format; 2] = [Format::Qcif, Format::Cif];

    /// As PTYPE bit 4 and a description's head have it.
    pub fn number(self) -> u8 {
        match self {
            Format::Qcif => 0,
            Format::Cif => 1,
        }
    }

    pub fn from_number(number: u8) -> Option<Format> {
        match number {
            0 => Some(Format::Qcif),
            1 => Some(Format::Cif),
            _ => None,
        }
    }

    pub fn from_name(name: &str) -> Option<Format> {
        match name {
            "qcif" => Some(Format::Qcif),
            "cif" => Some(Format::Cif),
            _ => None,
        }
    }

    fn choose<T>(self, qcif: T, cif: T) -> T {
        match self {
            Format::Qcif => qcif,
            Format::Cif => cif,
        }
    }

    pub fn width(self) -> usize {
        self.choose(176, 352)
    }

    pub fn height(self) -> usize {
        self.choose(144, 288)
    }

    /// Group numbers in the order of sending.
    pub fn groups(self) -> &'static [u8] {
        self.choose(&[1, 3, 5], &[1, 2, 3, 4, 5, 6, 7, 8, 9, 10, 11, 12])
    }

    pub fn macroblock_count(self) -> usize {
        self.groups().len() * MACROBLOCKS_PER_GROUP
    }

    /// Y rows, then CB, then CR.
    pub fn store_length(self) -> usize {
        self.choose(38_016, 152_064)
    }

    pub fn bit_limit(self) -> usize {
        self.choose(65_536, 262_144)
    }

    /// The writer's output.
    pub fn written_length(self) -> usize {
        self.choose(8_192, 32_768)
    }

    /// The highest part that a block may name.
    pub fn last_part(self) -> u8 {
        self.choose(16, 65)
    }

    /// The sender's output.
    pub fn sent_length(self) -> usize {
        self.choose(8_704, 33_792)
    }

    pub fn collection_length(self) -> usize {
        self.choose(8_500, 33_000)
    }

    pub fn head_length(self) -> usize {
        3 + self.groups().len()
    }

    pub fn macroblocks_length(self) -> usize {
        4 * self.macroblock_count()
    }

    pub fn levels_length(self) -> usize {
        64 * BLOCKS_PER_MACROBLOCK * self.macroblock_count()
    }

    /// Left and top luminance sample of the macroblock at `index` in sending order (Figures 6 and 8).
    pub fn origin(self, index: usize) -> (usize, usize) {
        let group = usize::from(self.groups()[index / MACROBLOCKS_PER_GROUP]) - 1;
        let within = index % MACROBLOCKS_PER_GROUP;
        // Odd groups stand on the left, even ones on the right; QCIF has only odd ones.
        let left = 176 * (group % 2) + 16 * (within % MACROBLOCKS_PER_ROW);
        let top = 48 * (group / 2) + 16 * (within / MACROBLOCKS_PER_ROW);
        (left, top)
    }
}
