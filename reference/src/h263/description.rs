//! A description of an H.263 picture: its three byte slices, its fields, and when it is valid.
//!
//! `head`: TR, PTYPE bits 3 to 5, the format, the type, PQUANT, a GQUANT for each group, 0 where no header
//! stands. `macroblocks`: type, DQUANT, horizontal and vertical vector in half samples, for each macroblock
//! in sending order. `levels`: six blocks of 64 in transmission order for each; the INTRA DC code in the
//! first place.

use crate::description::Vector;
use crate::format::BLOCKS_PER_MACROBLOCK;

use super::format::Format;
use super::refusal::Refusal;
use super::vectors;

/// The types of macroblocks.
pub const UNSENT: u8 = 0;
pub const INTRA: u8 = 1;
pub const INTRA_Q: u8 = 2;
pub const INTER: u8 = 3;
pub const INTER_Q: u8 = 4;

/// The types of pictures.
pub const INTRA_PICTURE: u8 = 0;
pub const INTER_PICTURE: u8 = 1;

#[derive(Clone, PartialEq, Eq, Debug)]
pub struct Macroblock {
    pub kind: u8,
    pub dquant: i8,
    pub vector: Vector,
    /// In transmission order; the DC code of INTRA is the bits of the first one.
    pub levels: [[i8; 64]; BLOCKS_PER_MACROBLOCK],
}

impl Macroblock {
    pub fn unsent() -> Macroblock {
        Macroblock {
            kind: UNSENT,
            dquant: 0,
            vector: Vector::default(),
            levels: [[0; 64]; BLOCKS_PER_MACROBLOCK],
        }
    }

    pub fn is_intra(&self) -> bool {
        matches!(self.kind, INTRA | INTRA_Q)
    }

    pub fn is_inter(&self) -> bool {
        matches!(self.kind, INTER | INTER_Q)
    }

    pub fn has_dquant(&self) -> bool {
        matches!(self.kind, INTRA_Q | INTER_Q)
    }

    /// The levels of a block that its pattern's bit speaks of: all but an INTRA DC code.
    pub fn coefficients(&self, block: usize) -> &[i8] {
        &self.levels[block][usize::from(self.is_intra())..]
    }

    /// "Any non-INTRADC coefficient is present for block N."
    pub fn pattern(&self) -> [bool; BLOCKS_PER_MACROBLOCK] {
        std::array::from_fn(|block| self.coefficients(block).iter().any(|&level| level != 0))
    }

    fn is_valid(&self, format: Format, index: usize) -> bool {
        self.kind <= INTER_Q
            && self.dquant_is_valid()
            && self.vector_is_valid(format, index)
            && self.levels_are_valid()
    }

    fn dquant_is_valid(&self) -> bool {
        if self.has_dquant() {
            matches!(self.dquant, -2 | -1 | 1 | 2)
        } else {
            self.dquant == 0
        }
    }

    fn vector_is_valid(&self, format: Format, index: usize) -> bool {
        if self.is_inter() {
            vectors::in_range(self.vector.horizontal)
                && vectors::in_range(self.vector.vertical)
                && vectors::in_picture(self.vector, format, index)
        } else {
            self.vector == Vector::default()
        }
    }

    fn levels_are_valid(&self) -> bool {
        match self.kind {
            UNSENT => self.levels.iter().flatten().all(|&level| level == 0),
            INTRA | INTRA_Q => self.levels.iter().all(|block| {
                let (dc, rest) = (block[0] as u8, &block[1..]);
                dc != 0 && dc != 128 && rest.iter().all(|&level| level != -128)
            }),
            _ => self.levels.iter().flatten().all(|&level| level != -128),
        }
    }
}

/// The fields of a description, raw: any bytes of the right lengths have them.
#[derive(Clone, PartialEq, Eq, Debug)]
pub struct Description {
    pub temporal_reference: u8,
    /// PTYPE bits 3 to 5 as a number.
    pub indicators: u8,
    /// As the head names it.
    pub named_format: u8,
    pub picture_type: u8,
    pub quantiser: u8,
    /// 0 where no header stands.
    pub group_quantisers: Vec<u8>,
    pub macroblocks: Vec<Macroblock>,
}

impl Description {
    /// Type INTER, nothing sent, PQUANT 1, no headers.
    pub fn empty(format: Format) -> Description {
        Description {
            temporal_reference: 0,
            indicators: 0,
            named_format: format.number(),
            picture_type: INTER_PICTURE,
            quantiser: 1,
            group_quantisers: vec![0; format.groups()],
            macroblocks: vec![Macroblock::unsent(); format.macroblock_count()],
        }
    }

    /// The format by its lengths.
    pub fn format(&self) -> Format {
        *Format::ALL
            .iter()
            .find(|format| self.macroblocks.len() == format.macroblock_count())
            .expect("the lengths of one format")
    }

    pub fn has_header(&self, group: usize) -> bool {
        self.group_quantisers[group] != 0
    }

    /// "Refresh means a picture of type INTRA, never one of type INTER."
    pub fn is_refresh(&self) -> bool {
        self.picture_type == INTRA_PICTURE
    }

    /// Refusal 1 unless the slices have the lengths of one format.
    pub fn from_slices(
        head: &[u8],
        macroblocks: &[u8],
        levels: &[u8],
    ) -> Result<Description, Refusal> {
        let lengths = (head.len(), macroblocks.len(), levels.len());
        let of_one_format = Format::ALL.iter().any(|format| {
            lengths
                == (
                    format.head_length(),
                    format.macroblocks_length(),
                    format.levels_length(),
                )
        });
        if !of_one_format {
            return Err(Refusal::plain(1));
        }
        let macroblocks = macroblocks
            .chunks_exact(4)
            .zip(levels.chunks_exact(64 * BLOCKS_PER_MACROBLOCK))
            .map(|(fields, levels)| macroblock_from(fields, levels))
            .collect();
        Ok(Description {
            temporal_reference: head[0],
            indicators: head[1],
            named_format: head[2],
            picture_type: head[3],
            quantiser: head[4],
            group_quantisers: head[5..].to_vec(),
            macroblocks,
        })
    }

    pub fn head(&self) -> Vec<u8> {
        let mut head = vec![
            self.temporal_reference,
            self.indicators,
            self.named_format,
            self.picture_type,
            self.quantiser,
        ];
        head.extend(&self.group_quantisers);
        head
    }

    pub fn macroblock_bytes(&self) -> Vec<u8> {
        let fields = |macroblock: &Macroblock| {
            [
                macroblock.kind,
                macroblock.dquant as u8,
                macroblock.vector.horizontal as u8,
                macroblock.vector.vertical as u8,
            ]
        };
        self.macroblocks.iter().flat_map(fields).collect()
    }

    pub fn level_bytes(&self) -> Vec<u8> {
        self.macroblocks
            .iter()
            .flat_map(|macroblock| macroblock.levels.iter().flatten())
            .map(|&level| level as u8)
            .collect()
    }

    /// The three slices, one after another.
    pub fn all_bytes(&self) -> Vec<u8> {
        [self.head(), self.macroblock_bytes(), self.level_bytes()].concat()
    }

    pub fn is_valid(&self, opened: Format) -> bool {
        self.format() == opened
            && self.named_format == opened.number()
            && self.indicators <= 7
            && self.picture_type <= INTER_PICTURE
            && (1..=31).contains(&self.quantiser)
            && self.group_quantisers[0] == 0
            && self
                .group_quantisers
                .iter()
                .all(|&quantiser| quantiser <= 31)
            && self.types_are_valid()
            && self
                .macroblocks
                .iter()
                .enumerate()
                .all(|(index, macroblock)| macroblock.is_valid(opened, index))
    }

    /// "A valid description of type INTRA has every macroblock sent as INTRA."
    fn types_are_valid(&self) -> bool {
        self.picture_type == INTER_PICTURE || self.macroblocks.iter().all(Macroblock::is_intra)
    }
}

fn macroblock_from(fields: &[u8], levels: &[u8]) -> Macroblock {
    let mut macroblock = Macroblock::unsent();
    macroblock.kind = fields[0];
    macroblock.dquant = fields[1] as i8;
    macroblock.vector = Vector {
        horizontal: fields[2] as i8,
        vertical: fields[3] as i8,
    };
    for (level, &byte) in macroblock.levels.iter_mut().flatten().zip(levels) {
        *level = byte as i8;
    }
    macroblock
}
