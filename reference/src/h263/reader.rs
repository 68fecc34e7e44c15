//! The reader: N bits to a description, or the first refusal that the rules meet, and the list of reads.

use crate::bits::digits;
use crate::description::Vector;
use crate::reads::Read;

use super::description::{
    Description, Macroblock, INTER, INTER_PICTURE, INTER_Q, INTRA, INTRA_PICTURE, INTRA_Q,
};
use super::format::Format;
use super::reads::Reads;
use super::refusal::Refusal;
use super::tables::{self, Mcbpc};
use super::vectors;
use super::words::{self, read_event};

pub const PICTURE_START_CODE: &str = "0000 0000 0000 0000 1 00000";
pub const GROUP_START_CODE: &str = "0000 0000 0000 0000 1";

/// What comes of the bits, and the reads up to there.
pub struct Reading {
    pub answer: Result<Description, Refusal>,
    pub reads: Vec<Read>,
}

/// Reads the picture that is exactly the first `count` bits.
pub fn read_listed(bytes: &[u8], count: usize, opened: Format) -> Reading {
    if count > 8 * bytes.len() || count > opened.bit_limit() {
        return Reading {
            answer: Err(Refusal::plain(2)),
            reads: Vec::new(),
        };
    }
    let mut reads = Reads::new(bytes, count);
    let answer = read_picture(&mut reads, opened);
    Reading {
        answer,
        reads: reads.into_list(),
    }
}

pub fn read(bytes: &[u8], count: usize, opened: Format) -> Result<Description, Refusal> {
    read_listed(bytes, count, opened).answer
}

fn read_picture(reads: &mut Reads, opened: Format) -> Result<Description, Refusal> {
    let mut description = Description::empty(opened);
    read_picture_header(reads, opened, &mut description)?;
    for index in 0..opened.macroblock_count() {
        let macroblock = read_macroblock_at(reads, opened, &mut description, index)?;
        description.macroblocks[index] = macroblock;
    }
    // "N ends at the last macroblock, with no stuffing or end code after it."
    if !reads.left().is_empty() {
        return Err(Refusal::at(13, reads.place()));
    }
    Ok(description)
}

fn read_picture_header(
    reads: &mut Reads,
    opened: Format,
    description: &mut Description,
) -> Result<(), Refusal> {
    let start = reads.place();
    let code = reads.field(22)?;
    if code != value_of(PICTURE_START_CODE) {
        return Err(Refusal::at(4, start));
    }
    description.temporal_reference = reads.field(8)? as u8;
    read_picture_type(reads, opened, description)?;
    description.quantiser = read_quantiser(reads)?;
    let start = reads.place();
    if reads.field(1)? == 1 {
        // Continuous presence.
        return Err(Refusal::at(14, start));
    }
    // "PEI, then 8 dropped bits and another PEI while PEI is 1."
    while reads.field(1)? == 1 {
        reads.field(8)?;
    }
    Ok(())
}

fn read_picture_type(
    reads: &mut Reads,
    opened: Format,
    description: &mut Description,
) -> Result<(), Refusal> {
    let start = reads.place();
    let ptype = format!("{:013b}", reads.field(13)?);
    // Bit n of PTYPE, from 1.
    let bit = |number: usize| ptype.as_bytes()[number - 1] == b'1';
    if !bit(1) || bit(2) || ptype[5..8] != *opened.source_format() {
        return Err(Refusal::at(5, start));
    }
    for optional_mode in 10..=13 {
        if bit(optional_mode) {
            return Err(Refusal::at(14, start + optional_mode - 1));
        }
    }
    description.indicators = value_of(&ptype[2..5]) as u8;
    description.picture_type = if bit(9) { INTER_PICTURE } else { INTRA_PICTURE };
    Ok(())
}

fn value_of(word: &str) -> u32 {
    digits(word)
        .iter()
        .fold(0, |value, &bit| 2 * value + u32::from(bit))
}

fn read_quantiser(reads: &mut Reads) -> Result<u8, Refusal> {
    let start = reads.place();
    match reads.field(5)? {
        0 => Err(Refusal::at(7, start)),
        quantiser => Ok(quantiser as u8),
    }
}

/// The macroblock with this number, with the header of its group where one stands, and stuffing before
/// either.
fn read_macroblock_at(
    reads: &mut Reads,
    format: Format,
    description: &mut Description,
    index: usize,
) -> Result<Macroblock, Refusal> {
    let group = index / format.columns();
    let begins_group = index.is_multiple_of(format.columns());
    loop {
        // One header at most, before every group but the first.
        if begins_group && group > 0 && !description.has_header(group) {
            if let Some(gstuf) = start_code_ahead(reads)? {
                if gstuf > 0 {
                    reads.pass(gstuf, 0);
                }
                description.group_quantisers[group] = read_group_header(reads, group)?;
            }
        }
        let is_inter_picture = description.picture_type == INTER_PICTURE;
        if is_inter_picture && reads.field(1)? == 1 {
            // COD
            return Ok(Macroblock::unsent());
        }
        let start = reads.place();
        let words = if is_inter_picture {
            &words::MCBPC_INTER
        } else {
            &words::MCBPC_INTRA
        };
        match reads.word(words)? {
            (_, Mcbpc::Stuffing) => {}
            (_, Mcbpc::Coded { mb_type, cbpc }) => {
                let kind = kind_of(mb_type).ok_or(Refusal::no_codeword(start, words.table))?;
                let predictor = vectors::predictor(
                    format,
                    &description.macroblocks,
                    index,
                    description.has_header(group),
                );
                return read_macroblock(reads, format, index, kind, cbpc, predictor);
            }
        }
    }
}

/// Whether a start code stands here, and after how many bits of GSTUF: none, or those to the byte's end. 3
/// where the bits left are a proper beginning of either.
fn start_code_ahead(reads: &mut Reads) -> Result<Option<usize>, Refusal> {
    let to_byte = (8 - reads.place() % 8) % 8;
    let code = digits(GROUP_START_CODE);
    let stuffed = [vec![false; to_byte], code.clone()].concat();
    let left = reads.left();
    if left.starts_with(&code) {
        return Ok(Some(0));
    }
    if left.starts_with(&stuffed) {
        return Ok(Some(to_byte));
    }
    if code.starts_with(left) || stuffed.starts_with(left) {
        return Err(reads.fail(Refusal::at(3, reads.place())));
    }
    Ok(None)
}

/// GBSC, GN, GFID, GQUANT.
fn read_group_header(reads: &mut Reads, group: usize) -> Result<u8, Refusal> {
    reads.field(17)?;
    let start = reads.place();
    if reads.field(5)? != group as u32 {
        return Err(Refusal::at(6, start));
    }
    reads.field(2)?;
    read_quantiser(reads)
}

/// A description's type for that of Tables 4 and 5; none for INTER4V.
fn kind_of(mb_type: u8) -> Option<u8> {
    match mb_type {
        0 => Some(INTER),
        1 => Some(INTER_Q),
        3 => Some(INTRA),
        4 => Some(INTRA_Q),
        _ => None,
    }
}

/// After MCBPC: CBPY, DQUANT, MVD, blocks.
fn read_macroblock(
    reads: &mut Reads,
    format: Format,
    index: usize,
    kind: u8,
    cbpc: [bool; 2],
    predictor: Vector,
) -> Result<Macroblock, Refusal> {
    let mut macroblock = Macroblock::unsent();
    macroblock.kind = kind;
    let cbpy = reads.word(&words::CBPY)?;
    let luminance = words::luminance_pattern(cbpy, macroblock.is_intra());
    if macroblock.has_dquant() {
        let code = reads.field(2)?;
        let found = tables::DQUANT
            .iter()
            .find(|entry| value_of(entry.1) == code);
        macroblock.dquant = found.expect("all four codes").0;
    }
    if macroblock.is_inter() {
        macroblock.vector = read_vector(reads, format, index, predictor)?;
    }
    let pattern = luminance.iter().chain(&cbpc);
    let is_intra = macroblock.is_intra();
    for (levels, &is_coded) in macroblock.levels.iter_mut().zip(pattern) {
        if is_intra {
            levels[0] = read_dc_code(reads)? as i8;
        }
        if is_coded {
            read_coefficients(reads, &mut levels[usize::from(is_intra)..])?;
        }
    }
    Ok(macroblock)
}

/// A vector out of the picture is placed at its horizontal component, once both are read.
fn read_vector(
    reads: &mut Reads,
    format: Format,
    index: usize,
    predictor: Vector,
) -> Result<Vector, Refusal> {
    let start = reads.place();
    let horizontal = reads.word(&words::MVD)?;
    let vertical = reads.word(&words::MVD)?;
    let vector = Vector {
        horizontal: vectors::landing(predictor.horizontal, horizontal),
        vertical: vectors::landing(predictor.vertical, vertical),
    };
    if !vectors::in_picture(vector, format, index) {
        return Err(Refusal::at(12, start));
    }
    Ok(vector)
}

fn read_dc_code(reads: &mut Reads) -> Result<u8, Refusal> {
    let start = reads.place();
    match reads.field(8)? as u8 {
        0 | 128 => Err(Refusal::at(10, start)),
        code => Ok(code),
    }
}

/// Events up to the one with LAST, into the places that are left for them.
fn read_coefficients(reads: &mut Reads, levels: &mut [i8]) -> Result<(), Refusal> {
    let mut next = 0;
    loop {
        let start = reads.place();
        let event = read_event(reads)?;
        let place = next + usize::from(event.run);
        let Some(level) = levels.get_mut(place) else {
            return Err(Refusal::at(11, start));
        };
        *level = event.level;
        if event.last {
            return Ok(());
        }
        next = place + 1;
    }
}
