//! The writer: a valid description to bits. What the Recommendation leaves free (stuffing, spares,
//! escapes for pairs of the table, PTYPE bit 6) is asked of a manner, so that tests can write loosely.

use crate::bits::Bits;
use crate::codewords::{self, Position};
use crate::description::{self, Description, Macroblock, Vector};
use crate::format::{Format, MACROBLOCKS_PER_GROUP, MACROBLOCKS_PER_ROW};
use crate::refusal::Refusal;
use crate::tables::{self, STUFFING};

const PICTURE_START_CODE: &str = "0000 0000 0000 0001 0000";
const GROUP_START_CODE: &str = "0000 0000 0000 0001";

/// What a writer may choose. The defaults are document 01's writer.
pub trait Manner {
    /// PTYPE bit 6.
    fn last_ptype_bit(&mut self) -> bool {
        true
    }

    /// PSPARE or GSPARE bytes.
    fn spares(&mut self) -> Vec<u8> {
        Vec::new()
    }

    /// Stuffing before the next MBA or start code, or at the picture's end.
    fn stuffing(&mut self) -> usize {
        0
    }

    /// Whether a pair of the table is escaped.
    fn escapes(&mut self) -> bool {
        false
    }
}

/// "No stuffing, no spares, and a table code wherever Table 5 has one."
pub struct Plain;

impl Manner for Plain {}

/// The lent form: 1, 31, 32, or the number of bits; the last started byte is filled with zeros and
/// nothing after it touched.
pub fn write(
    head: &[u8],
    macroblocks: &[u8],
    levels: &[u8],
    opened: Format,
    out: &mut [u8],
) -> Result<usize, Refusal> {
    let description = Description::from_slices(head, macroblocks, levels)?;
    if out.len() != opened.written_length() {
        return Err(Refusal::plain(1));
    }
    let bits = write_picture(&description, opened)?;
    out[..bits.bytes.len()].copy_from_slice(&bits.bytes);
    Ok(bits.count)
}

/// 31, 32, or the picture.
pub fn write_picture(description: &Description, opened: Format) -> Result<Bits, Refusal> {
    if !description.is_valid(opened) {
        return Err(Refusal::plain(31));
    }
    let bits = picture(description, &mut Plain);
    if bits.count > opened.bit_limit() {
        return Err(Refusal::plain(32));
    }
    Ok(bits)
}

/// The bits of a valid description in the given manner, however many.
pub fn picture(description: &Description, manner: &mut impl Manner) -> Bits {
    let mut bits = Bits::default();
    bits.word(PICTURE_START_CODE);
    bits.field(u32::from(description.temporal_reference), 5);
    bits.field(u32::from(description.indicators), 3);
    bits.field(u32::from(description.named_format), 1);
    bits.push(true); // no still image
    bits.push(manner.last_ptype_bit());
    spares(&mut bits, manner);
    let groups = description.format().groups();
    let macroblocks = description.macroblocks.chunks(MACROBLOCKS_PER_GROUP);
    for ((&number, &quantiser), macroblocks) in groups
        .iter()
        .zip(&description.group_quantisers)
        .zip(macroblocks)
    {
        bits.word(GROUP_START_CODE);
        bits.field(u32::from(number), 4);
        bits.field(u32::from(quantiser), 5);
        spares(&mut bits, manner);
        group(&mut bits, macroblocks, manner);
    }
    bits
}

fn spares(bits: &mut Bits, manner: &mut impl Manner) {
    for byte in manner.spares() {
        bits.push(true);
        bits.field(u32::from(byte), 8);
    }
    bits.push(false);
}

fn stuffing(bits: &mut Bits, manner: &mut impl Manner) {
    for _ in 0..manner.stuffing() {
        bits.word(codewords::mba_word(STUFFING));
    }
}

fn group(bits: &mut Bits, macroblocks: &[Macroblock], manner: &mut impl Manner) {
    let mut last = 0;
    let mut preceding = Vector::default();
    for (before, macroblock) in macroblocks.iter().enumerate() {
        if macroblock.kind == description::UNSENT {
            continue;
        }
        let address = before + 1;
        let step = address - last;
        if step != 1 || address % MACROBLOCKS_PER_ROW == 1 {
            preceding = Vector::default();
        }
        stuffing(bits, manner);
        bits.word(codewords::mba_word(step as u8));
        write_macroblock(bits, macroblock, preceding, manner);
        preceding = macroblock.vector;
        last = address;
    }
    stuffing(bits, manner);
}

fn write_macroblock(
    bits: &mut Bits,
    macroblock: &Macroblock,
    preceding: Vector,
    manner: &mut impl Manner,
) {
    let kind = macroblock.kind;
    bits.word(codewords::mtype_word(kind));
    if description::has_mquant(kind) {
        bits.field(u32::from(macroblock.mquant), 5);
    }
    if description::has_vector(kind) {
        let vector = macroblock.vector;
        bits.word(codewords::mvd_word(
            vector.horizontal - preceding.horizontal,
        ));
        bits.word(codewords::mvd_word(vector.vertical - preceding.vertical));
    }
    let pattern = macroblock.coded_block_pattern();
    if description::has_cbp(kind) {
        bits.word(codewords::cbp_word(pattern));
    }
    for (block, levels) in macroblock.levels.iter().enumerate() {
        if description::is_intra(kind) {
            bits.field(u32::from(levels[0] as u8), 8);
            coefficients(bits, &levels[1..], Position::Later, manner);
        } else if pattern >> (5 - block) & 1 == 1 {
            coefficients(bits, levels, Position::First, manner);
        }
    }
}

fn coefficients(bits: &mut Bits, levels: &[i8], mut position: Position, manner: &mut impl Manner) {
    let mut run = 0;
    for &level in levels {
        if level == 0 {
            run += 1;
            continue;
        }
        match codewords::unsigned_word(position, run, level.unsigned_abs()) {
            Some(word) if !manner.escapes() => {
                bits.word(word);
                bits.push(level < 0);
            }
            _ => {
                bits.word(tables::ESCAPE);
                bits.field(u32::from(run), 6);
                bits.field(u32::from(level as u8), 8);
            }
        }
        run = 0;
        position = Position::Later;
    }
    bits.word(tables::END_OF_BLOCK);
}
