//! The writer: a valid description to bits. What the Recommendation leaves free (stuffing, spares, GSTUF,
//! GFID, escapes for events of the table) is asked of a manner, so that tests can write loosely.

use crate::bits::Bits;
use crate::description::Vector;

use super::description::{Description, Macroblock, INTER, INTER_PICTURE, INTER_Q, INTRA};
use super::format::Format;
use super::reader::{GROUP_START_CODE, PICTURE_START_CODE};
use super::refusal::Refusal;
use super::tables::Mcbpc;
use super::vectors;
use super::words::{self, Event};

/// What a writer may choose. The defaults are T-04's writer.
pub trait Manner {
    /// PSPARE bytes.
    fn spares(&mut self) -> Vec<u8> {
        Vec::new()
    }

    /// Stuffing before the next macroblock.
    fn stuffing(&mut self) -> usize {
        0
    }

    /// Stuffing before the header of a group.
    fn header_stuffing(&mut self) -> usize {
        0
    }

    /// Whether GSTUF leads a header's start code to a byte.
    fn aligns_header(&mut self) -> bool {
        false
    }

    /// GFID.
    fn frame_id(&mut self) -> u32 {
        0
    }

    /// Whether an event of the table is escaped.
    fn escapes(&mut self) -> bool {
        false
    }
}

/// No stuffing, no spares, GFID 0, and a table code wherever Table 13 has one.
pub struct Plain;

impl Manner for Plain {}

/// The lent form: 1, 31, 32, or the number of bits; the last started byte is filled with zeros and
/// nothing after it touched.
pub fn write(
    head: &[u8],
    macroblocks: &[u8],
    levels: &[u8],
    opened: Format,
    out: &mut [u8],
) -> Result<usize, Refusal> {
    let description = Description::from_slices(head, macroblocks, levels)?;
    if out.len() != opened.written_length() {
        return Err(Refusal::plain(1));
    }
    let bits = write_picture(&description, opened)?;
    out[..bits.bytes.len()].copy_from_slice(&bits.bytes);
    Ok(bits.count)
}

/// 31, 32, or the picture.
pub fn write_picture(description: &Description, opened: Format) -> Result<Bits, Refusal> {
    if !description.is_valid(opened) {
        return Err(Refusal::plain(31));
    }
    let bits = picture(description, &mut Plain);
    if bits.count > opened.bit_limit() {
        return Err(Refusal::plain(32));
    }
    Ok(bits)
}

/// The bits of a valid description in the given manner, however many.
pub fn picture(description: &Description, manner: &mut impl Manner) -> Bits {
    let format = description.format();
    let mut bits = Bits::default();
    picture_header(&mut bits, description, manner);
    for (index, macroblock) in description.macroblocks.iter().enumerate() {
        let group = index / format.columns();
        if index % format.columns() == 0 && description.has_header(group) {
            stuffing(&mut bits, description, manner.header_stuffing());
            group_header(&mut bits, description, group, manner);
        }
        stuffing(&mut bits, description, manner.stuffing());
        let has_header = description.has_header(group);
        let predictor = vectors::predictor(format, &description.macroblocks, index, has_header);
        write_macroblock(&mut bits, description, macroblock, predictor, manner);
    }
    bits
}

fn picture_header(bits: &mut Bits, description: &Description, manner: &mut impl Manner) {
    bits.word(PICTURE_START_CODE);
    bits.field(u32::from(description.temporal_reference), 8);
    bits.word("10");
    bits.field(u32::from(description.indicators), 3);
    bits.word(description.format().source_format());
    bits.push(is_inter(description));
    bits.word("0000"); // the four optional modes
    bits.field(u32::from(description.quantiser), 5);
    bits.push(false); // CPM
    for byte in manner.spares() {
        bits.push(true);
        bits.field(u32::from(byte), 8);
    }
    bits.push(false);
}

fn is_inter(description: &Description) -> bool {
    description.picture_type == INTER_PICTURE
}

fn stuffing(bits: &mut Bits, description: &Description, count: usize) {
    for _ in 0..count {
        if is_inter(description) {
            bits.push(false); // COD
        }
        bits.word(words::mcbpc_word(is_inter(description), Mcbpc::Stuffing));
    }
}

fn group_header(
    bits: &mut Bits,
    description: &Description,
    group: usize,
    manner: &mut impl Manner,
) {
    if manner.aligns_header() {
        bits.fill();
    }
    bits.word(GROUP_START_CODE);
    bits.field(group as u32, 5);
    bits.field(manner.frame_id(), 2);
    bits.field(u32::from(description.group_quantisers[group]), 5);
}

fn write_macroblock(
    bits: &mut Bits,
    description: &Description,
    macroblock: &Macroblock,
    predictor: Vector,
    manner: &mut impl Manner,
) {
    let is_sent = macroblock.is_intra() || macroblock.is_inter();
    if is_inter(description) {
        bits.push(!is_sent);
    }
    if !is_sent {
        return;
    }
    let pattern = macroblock.pattern();
    let [one, two, three, four, five, six] = pattern;
    let coded = Mcbpc::Coded {
        mb_type: mb_type_of(macroblock.kind),
        cbpc: [five, six],
    };
    bits.word(words::mcbpc_word(is_inter(description), coded));
    bits.word(words::cbpy_word(
        [one, two, three, four],
        macroblock.is_intra(),
    ));
    if macroblock.has_dquant() {
        bits.word(words::dquant_word(macroblock.dquant));
    }
    if macroblock.is_inter() {
        let vector = macroblock.vector;
        bits.word(vectors::word_to(predictor.horizontal, vector.horizontal));
        bits.word(vectors::word_to(predictor.vertical, vector.vertical));
    }
    for (block, is_coded) in pattern.into_iter().enumerate() {
        if macroblock.is_intra() {
            bits.field(u32::from(macroblock.levels[block][0] as u8), 8);
        }
        if is_coded {
            coefficients(bits, macroblock.coefficients(block), manner);
        }
    }
}

/// As Tables 4 and 5 number the types.
fn mb_type_of(kind: u8) -> u8 {
    match kind {
        INTER => 0,
        INTER_Q => 1,
        INTRA => 3,
        _ => 4,
    }
}

/// The events of a block that has a nonzero level.
pub fn coefficients(bits: &mut Bits, levels: &[i8], manner: &mut impl Manner) {
    let last_place = levels.iter().rposition(|&level| level != 0);
    let mut run = 0;
    for (place, &level) in levels.iter().enumerate() {
        if level == 0 {
            run += 1;
            continue;
        }
        let event = Event {
            last: Some(place) == last_place,
            run,
            level,
        };
        match words::unsigned_word(event) {
            Some(word) if !manner.escapes() => {
                bits.word(word);
                bits.push(level < 0);
            }
            _ => bits.word(&words::escape_word(event)),
        }
        run = 0;
    }
}
