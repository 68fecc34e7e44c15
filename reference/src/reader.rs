//! The reader: N bits to a description, or the first refusal that the rules meet, and the list of reads.

use crate::bits::BitReader;
use crate::codewords::{self, Coefficient, Position};
use crate::description::{self, Description, Macroblock, Vector};
use crate::format::{Format, MACROBLOCKS_PER_GROUP, MACROBLOCKS_PER_ROW};
use crate::reads::Read;
use crate::refusal::Refusal;
use crate::tables::{START_CODE, STUFFING};

const PICTURE_START_CODE: u32 = 0x00010;
const GROUP_START_CODE: u32 = 0x0001;

/// What comes of the bits, and the reads up to there.
pub struct Reading {
    pub answer: Result<Description, Refusal>,
    pub reads: Vec<Read>,
}

/// Reads the picture that is exactly the first `count` bits.
pub fn read_listed(bytes: &[u8], count: usize, opened: Format) -> Reading {
    if count > 8 * bytes.len() || count > opened.bit_limit() {
        return Reading {
            answer: Err(Refusal::plain(2)),
            reads: Vec::new(),
        };
    }
    let mut reader = BitReader::new(bytes, count);
    let answer = read_picture(&mut reader, opened);
    Reading {
        answer,
        reads: reader.into_reads(),
    }
}

pub fn read(bytes: &[u8], count: usize, opened: Format) -> Result<Description, Refusal> {
    read_listed(bytes, count, opened).answer
}

fn read_picture(reader: &mut BitReader, opened: Format) -> Result<Description, Refusal> {
    let mut description = Description::empty(opened);
    read_picture_header(reader, opened, &mut description)?;
    expect_start_code(reader, 16, GROUP_START_CODE)?;
    let groups = opened.groups();
    for (index, &number) in groups.iter().enumerate() {
        let quantiser = read_group_header(reader, number)?;
        description.group_quantisers[index] = quantiser;
        let from = index * MACROBLOCKS_PER_GROUP;
        let group = GroupReader {
            format: opened,
            first_index: from,
            is_last: index + 1 == groups.len(),
        };
        let macroblocks = &mut description.macroblocks[from..from + MACROBLOCKS_PER_GROUP];
        group.read_macroblocks(reader, macroblocks)?;
    }
    Ok(description)
}

fn expect_start_code(reader: &mut BitReader, width: usize, code: u32) -> Result<(), Refusal> {
    let start = reader.place();
    if reader.field(width)? != code {
        return Err(Refusal::at(4, start));
    }
    Ok(())
}

fn read_picture_header(
    reader: &mut BitReader,
    opened: Format,
    description: &mut Description,
) -> Result<(), Refusal> {
    expect_start_code(reader, 20, PICTURE_START_CODE)?;
    description.temporal_reference = reader.field(5)? as u8;
    let start = reader.place();
    let ptype = reader.field(6)?;
    let format = (ptype >> 2 & 1) as u8;
    let is_still_image = ptype >> 1 & 1 == 0;
    if format != opened.number() || is_still_image {
        return Err(Refusal::at(5, start));
    }
    description.indicators = (ptype >> 3) as u8;
    drop_spares(reader)
}

/// "PEI, then 8 dropped bits and another PEI while PEI is 1"; GEI alike.
fn drop_spares(reader: &mut BitReader) -> Result<(), Refusal> {
    while reader.field(1)? == 1 {
        reader.field(8)?;
    }
    Ok(())
}

/// After the GBSC: GN, GQUANT, GEI and spares.
fn read_group_header(reader: &mut BitReader, number: u8) -> Result<u8, Refusal> {
    let start = reader.place();
    if reader.field(4)? != u32::from(number) {
        return Err(Refusal::at(6, start));
    }
    let quantiser = read_quantiser(reader)?;
    drop_spares(reader)?;
    Ok(quantiser)
}

fn read_quantiser(reader: &mut BitReader) -> Result<u8, Refusal> {
    let start = reader.place();
    match reader.field(5)? {
        0 => Err(Refusal::at(7, start)),
        quantiser => Ok(quantiser as u8),
    }
}

struct GroupReader {
    format: Format,
    /// Where the group's first macroblock stands in sending order.
    first_index: usize,
    is_last: bool,
}

impl GroupReader {
    /// Reads to the next GBSC, that one included, or to the end of the last group.
    fn read_macroblocks(
        &self,
        reader: &mut BitReader,
        macroblocks: &mut [Macroblock],
    ) -> Result<(), Refusal> {
        // The address before the first macroblock counts as 0, and nothing precedes that one.
        let mut address = 0;
        let mut preceding = Vector::default();
        while let Some(step) = self.read_step(reader, address)? {
            address += step;
            if step != 1 || address % MACROBLOCKS_PER_ROW == 1 {
                preceding = Vector::default();
            }
            let index = self.first_index + address - 1;
            let macroblock = self.read_macroblock(reader, index, preceding)?;
            // Zero where the type isn't MC, as the rule has it.
            preceding = macroblock.vector;
            macroblocks[address - 1] = macroblock;
        }
        Ok(())
    }

    /// The next MBA that isn't stuffing; none where the group ends.
    fn read_step(&self, reader: &mut BitReader, address: usize) -> Result<Option<usize>, Refusal> {
        loop {
            if self.is_last && reader.at_end() {
                return Ok(None);
            }
            let start = reader.place();
            match reader.codeword(&codewords::MBA)? {
                STUFFING => {}
                START_CODE if self.is_last => return Err(Refusal::at(13, start)),
                START_CODE => return Ok(None),
                step if address + usize::from(step) > MACROBLOCKS_PER_GROUP => {
                    return Err(Refusal::at(9, start));
                }
                step => return Ok(Some(usize::from(step))),
            }
        }
    }

    fn read_macroblock(
        &self,
        reader: &mut BitReader,
        index: usize,
        preceding: Vector,
    ) -> Result<Macroblock, Refusal> {
        let mut macroblock = Macroblock::unsent();
        let kind = reader.codeword(&codewords::MTYPE)?;
        macroblock.kind = kind;
        if description::has_mquant(kind) {
            macroblock.mquant = read_quantiser(reader)?;
        }
        if description::has_vector(kind) {
            macroblock.vector = self.read_vector(reader, index, preceding)?;
        }
        let mut pattern = 0;
        if description::has_cbp(kind) {
            pattern = reader.codeword(&codewords::CBP)?;
        }
        for (block, levels) in macroblock.levels.iter_mut().enumerate() {
            if description::is_intra(kind) {
                *levels = read_intra_block(reader)?;
            } else if pattern >> (5 - block) & 1 == 1 {
                *levels = read_coefficients(reader, Position::First, [0; 64], 0)?;
            }
        }
        Ok(macroblock)
    }

    /// A vector out of the picture is placed at its horizontal component.
    fn read_vector(
        &self,
        reader: &mut BitReader,
        index: usize,
        preceding: Vector,
    ) -> Result<Vector, Refusal> {
        let start = reader.place();
        let horizontal = read_component(reader, preceding.horizontal)?;
        let vertical = read_component(reader, preceding.vertical)?;
        let vector = Vector {
            horizontal,
            vertical,
        };
        if !description::in_picture(vector, self.format, index) {
            return Err(Refusal::at(12, start));
        }
        Ok(vector)
    }
}

/// "The vector is the preceding one plus the difference of the pair that lands in -15..15."
fn read_component(reader: &mut BitReader, preceding: i8) -> Result<i8, Refusal> {
    let start = reader.place();
    let first = reader.codeword(&codewords::MVD)?;
    landing(preceding, first).ok_or(Refusal::at(12, start))
}

/// Table 3 pairs a negative difference with the one 32 above it and a positive with the one 32 below;
/// -1, 0 and 1 stand alone.
pub fn landing(preceding: i8, first: i8) -> Option<i8> {
    let other = match first {
        -1..=1 => first,
        i8::MIN..=-2 => first + 32,
        2..=i8::MAX => first - 32,
    };
    [first, other]
        .iter()
        .map(|difference| preceding + difference)
        .find(|component| (-15..=15).contains(component))
}

fn read_intra_block(reader: &mut BitReader) -> Result<[i8; 64], Refusal> {
    let start = reader.place();
    let code = reader.field(8)? as u8;
    if code == 0 || code == 128 {
        return Err(Refusal::at(10, start));
    }
    let mut levels = [0; 64];
    levels[0] = code as i8;
    read_coefficients(reader, Position::Later, levels, 1)
}

/// Coefficients from place `next` to EOB.
fn read_coefficients(
    reader: &mut BitReader,
    mut position: Position,
    mut levels: [i8; 64],
    mut next: usize,
) -> Result<[i8; 64], Refusal> {
    loop {
        let start = reader.place();
        match codewords::read_coefficient(reader, position)? {
            Coefficient::EndOfBlock => return Ok(levels),
            Coefficient::Pair { run, level } => {
                let at = next + usize::from(run);
                if at >= 64 {
                    return Err(Refusal::at(11, start));
                }
                levels[at] = level;
                next = at + 1;
            }
        }
        position = Position::Later;
    }
}
