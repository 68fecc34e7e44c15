//! A description of a picture: its three byte slices, its fields, and when it is valid.
//!
//! `head`: TR, PTYPE bits 1 to 3, the format, a GQUANT for each group. `macroblocks`: type, MQUANT,
//! horizontal and vertical vector, for each macroblock in sending order. `levels`: six blocks of 64 in
//! transmission order for each; the INTRA DC code in the first place.

use crate::format::{Format, BLOCKS_PER_MACROBLOCK};
use crate::refusal::Refusal;

/// The types, numbered as document 01's table lists them.
pub const UNSENT: u8 = 0;
pub const INTRA: u8 = 1;
pub const INTRA_MQUANT: u8 = 2;
pub const INTER_CBP: u8 = 3;
pub const INTER_MQUANT: u8 = 4;
pub const MC: u8 = 5;
pub const MC_CBP: u8 = 6;
pub const MC_MQUANT: u8 = 7;
pub const FIL: u8 = 8;
pub const FIL_CBP: u8 = 9;
pub const FIL_MQUANT: u8 = 10;

pub fn is_intra(kind: u8) -> bool {
    matches!(kind, INTRA | INTRA_MQUANT)
}

pub fn has_mquant(kind: u8) -> bool {
    matches!(kind, INTRA_MQUANT | INTER_MQUANT | MC_MQUANT | FIL_MQUANT)
}

pub fn has_vector(kind: u8) -> bool {
    (MC..=FIL_MQUANT).contains(&kind)
}

pub fn has_filter(kind: u8) -> bool {
    (FIL..=FIL_MQUANT).contains(&kind)
}

pub fn has_cbp(kind: u8) -> bool {
    (INTER_CBP..=FIL_MQUANT).contains(&kind) && kind != MC && kind != FIL
}

/// Positive is to the right and down.
#[derive(Clone, Copy, PartialEq, Eq, Debug, Default)]
pub struct Vector {
    pub horizontal: i8,
    pub vertical: i8,
}

#[derive(Clone, PartialEq, Eq, Debug)]
pub struct Macroblock {
    pub kind: u8,
    pub mquant: u8,
    pub vector: Vector,
    /// In transmission order; the DC code of INTRA is the bits of the first one.
    pub levels: [[i8; 64]; BLOCKS_PER_MACROBLOCK],
}

impl Macroblock {
    pub fn unsent() -> Macroblock {
        Macroblock {
            kind: UNSENT,
            mquant: 0,
            vector: Vector::default(),
            levels: [[0; 64]; BLOCKS_PER_MACROBLOCK],
        }
    }

    /// "CBP is taken from the levels": block 1 weighs 32, block 6 weighs 1.
    pub fn coded_block_pattern(&self) -> u8 {
        self.levels.iter().fold(0, |pattern, block| {
            2 * pattern + u8::from(block.iter().any(|&level| level != 0))
        })
    }

    fn is_valid(&self, format: Format, index: usize) -> bool {
        self.kind <= FIL_MQUANT
            && self.mquant_is_valid()
            && self.vector_is_valid(format, index)
            && self.levels_are_valid()
    }

    fn mquant_is_valid(&self) -> bool {
        if has_mquant(self.kind) {
            (1..=31).contains(&self.mquant)
        } else {
            self.mquant == 0
        }
    }

    fn vector_is_valid(&self, format: Format, index: usize) -> bool {
        if has_vector(self.kind) {
            in_range(self.vector) && in_picture(self.vector, format, index)
        } else {
            self.vector == Vector::default()
        }
    }

    fn levels_are_valid(&self) -> bool {
        if is_intra(self.kind) {
            self.levels.iter().all(intra_block_is_valid)
        } else if has_cbp(self.kind) {
            let none_forbidden = self.levels.iter().flatten().all(|&level| level != -128);
            none_forbidden && self.coded_block_pattern() != 0
        } else {
            self.coded_block_pattern() == 0
        }
    }
}

/// The DC code of the first place is 1..127 or 129..255.
fn intra_block_is_valid(levels: &[i8; 64]) -> bool {
    let code = levels[0] as u8;
    code != 0 && code != 128 && levels[1..].iter().all(|&level| level != -128)
}

pub fn in_range(vector: Vector) -> bool {
    let allowed = -15..=15;
    allowed.contains(&vector.horizontal) && allowed.contains(&vector.vertical)
}

/// "All samples used by the 16 by 16 luminance part must lie in the picture."
pub fn in_picture(vector: Vector, format: Format, index: usize) -> bool {
    let (left, top) = format.origin(index);
    let fits = |from: usize, by: i8, size: usize| {
        let first = from as isize + isize::from(by);
        first >= 0 && first + 16 <= size as isize
    };
    fits(left, vector.horizontal, format.width()) && fits(top, vector.vertical, format.height())
}

/// The fields of a description, raw: any bytes of the right lengths have them.
#[derive(Clone, PartialEq, Eq, Debug)]
pub struct Description {
    pub temporal_reference: u8,
    /// PTYPE bits 1 to 3 as a number.
    pub indicators: u8,
    /// As the head names it.
    pub named_format: u8,
    pub group_quantisers: Vec<u8>,
    pub macroblocks: Vec<Macroblock>,
}

impl Description {
    /// Nothing sent, every GQUANT 1.
    pub fn empty(format: Format) -> Description {
        Description {
            temporal_reference: 0,
            indicators: 0,
            named_format: format.number(),
            group_quantisers: vec![1; format.groups().len()],
            macroblocks: vec![Macroblock::unsent(); format.macroblock_count()],
        }
    }

    /// The format by its lengths.
    pub fn format(&self) -> Format {
        let lengths = (self.group_quantisers.len(), self.macroblocks.len());
        *Format::ALL
            .iter()
            .find(|format| lengths == (format.groups().len(), format.macroblock_count()))
            .expect("the lengths of one format")
    }

    /// Refusal 1 unless the slices have the lengths of one format.
    pub fn from_slices(
        head: &[u8],
        macroblocks: &[u8],
        levels: &[u8],
    ) -> Result<Description, Refusal> {
        let lengths = (head.len(), macroblocks.len(), levels.len());
        let of_one_format = Format::ALL.iter().any(|format| {
            lengths
                == (
                    format.head_length(),
                    format.macroblocks_length(),
                    format.levels_length(),
                )
        });
        if !of_one_format {
            return Err(Refusal::plain(1));
        }
        let macroblocks = macroblocks
            .chunks_exact(4)
            .zip(levels.chunks_exact(64 * BLOCKS_PER_MACROBLOCK))
            .map(|(fields, levels)| macroblock_from(fields, levels))
            .collect();
        Ok(Description {
            temporal_reference: head[0],
            indicators: head[1],
            named_format: head[2],
            group_quantisers: head[3..].to_vec(),
            macroblocks,
        })
    }

    pub fn head(&self) -> Vec<u8> {
        let mut head = vec![self.temporal_reference, self.indicators, self.named_format];
        head.extend(&self.group_quantisers);
        head
    }

    pub fn macroblock_bytes(&self) -> Vec<u8> {
        let fields = |macroblock: &Macroblock| {
            [
                macroblock.kind,
                macroblock.mquant,
                macroblock.vector.horizontal as u8,
                macroblock.vector.vertical as u8,
            ]
        };
        self.macroblocks.iter().flat_map(fields).collect()
    }

    pub fn level_bytes(&self) -> Vec<u8> {
        self.macroblocks
            .iter()
            .flat_map(|macroblock| macroblock.levels.iter().flatten())
            .map(|&level| level as u8)
            .collect()
    }

    /// Head, macroblocks and levels, one after the other.
    pub fn all_bytes(&self) -> Vec<u8> {
        let mut bytes = self.head();
        bytes.extend(self.macroblock_bytes());
        bytes.extend(self.level_bytes());
        bytes
    }

    /// Valid, and of the opened format; else refusal 31.
    pub fn is_valid(&self, opened: Format) -> bool {
        self.format() == opened
            && self.named_format == opened.number()
            && self.temporal_reference <= 31
            && self.indicators <= 7
            && self.group_quantisers.iter().all(|q| (1..=31).contains(q))
            && self
                .macroblocks
                .iter()
                .enumerate()
                .all(|(index, macroblock)| macroblock.is_valid(opened, index))
    }

    /// "A refresh picture sends every macroblock as INTRA."
    pub fn is_refresh(&self) -> bool {
        self.macroblocks
            .iter()
            .all(|macroblock| is_intra(macroblock.kind))
    }
}

fn macroblock_from(fields: &[u8], levels: &[u8]) -> Macroblock {
    let mut macroblock = Macroblock::unsent();
    macroblock.kind = fields[0];
    macroblock.mquant = fields[1];
    macroblock.vector = Vector {
        horizontal: fields[2] as i8,
        vertical: fields[3] as i8,
    };
    for (level, &byte) in macroblock.levels.iter_mut().flatten().zip(levels) {
        *level = byte as i8;
    }
    macroblock
}
