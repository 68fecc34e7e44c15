//! Random descriptions, loose writing and damage.

use crate::bits::Bits;
use crate::description::{self, Description, Macroblock, Vector};
use crate::format::Format;
use crate::random::Random;
use crate::writer::{self, Manner, Plain};

/// How much of a picture is sent, and how.
#[derive(Clone, Copy, PartialEq, Eq, Debug)]
pub enum Style {
    Empty,
    Sparse,
    Mixed,
    Dense,
    Refresh,
    DenseRefresh,
    /// As many bits as the limit allows, to the bit.
    Full,
    /// Levels of 1 to 3 alone, which other decoders' transforms stand as well.
    Tame,
    TameRefresh,
}

const STYLES: [Style; 7] = [
    Style::Empty,
    Style::Sparse,
    Style::Mixed,
    Style::Dense,
    Style::Refresh,
    Style::DenseRefresh,
    Style::Full,
];

impl Style {
    pub fn any(random: &mut Random) -> Style {
        random.pick(&STYLES)
    }

    fn is_refresh(self) -> bool {
        matches!(
            self,
            Style::Refresh | Style::DenseRefresh | Style::TameRefresh
        )
    }

    fn is_tame(self) -> bool {
        matches!(self, Style::Tame | Style::TameRefresh)
    }

    /// One macroblock of so many is sent.
    fn sent_one_of(self) -> Option<usize> {
        match self {
            Style::Empty => None,
            Style::Sparse => Some(12),
            Style::Mixed => Some(2),
            _ => Some(1),
        }
    }

    /// How many coefficients a block has at most.
    fn most_coefficients(self, random: &mut Random) -> usize {
        match self {
            Style::Dense | Style::DenseRefresh | Style::Full => 64,
            Style::Tame | Style::TameRefresh => 4,
            _ => random.pick(&[1, 2, 4, 8, 20]),
        }
    }
}

/// A valid description that the writer doesn't refuse by 32.
pub fn description(random: &mut Random, format: Format, style: Style) -> Description {
    let mut made = unlimited_description(random, format, style);
    while bit_count(&made) > format.bit_limit() {
        thin(random, &mut made);
    }
    if style == Style::Full {
        fill_up(random, &mut made, format.bit_limit());
    }
    debug_assert!(made.is_valid(format));
    made
}

fn bit_count(description: &Description) -> usize {
    writer::picture(description, &mut Plain).count
}

/// A valid description of any number of bits.
pub fn unlimited_description(random: &mut Random, format: Format, style: Style) -> Description {
    let mut made = Description::empty(format);
    made.temporal_reference = random.below(32) as u8;
    made.indicators = random.below(8) as u8;
    for quantiser in &mut made.group_quantisers {
        *quantiser = random_quantiser(random);
    }
    for index in 0..format.macroblock_count() {
        if let Some(one_of) = style.sent_one_of() {
            if random.chance(one_of) {
                made.macroblocks[index] = macroblock(random, format, index, style);
            }
        }
    }
    made
}

fn random_quantiser(random: &mut Random) -> u8 {
    match random.below(8) {
        0 => 1,
        1 => 31,
        _ => random.between(1, 31) as u8,
    }
}

fn macroblock(random: &mut Random, format: Format, index: usize, style: Style) -> Macroblock {
    let mut made = Macroblock::unsent();
    let last_kind = if style.is_refresh() {
        description::INTRA_MQUANT
    } else {
        description::FIL_MQUANT
    };
    made.kind = random.between(1, i64::from(last_kind)) as u8;
    if description::has_mquant(made.kind) {
        made.mquant = random_quantiser(random);
    }
    if description::has_vector(made.kind) {
        made.vector = vector(random, format, index);
    }
    let most = style.most_coefficients(random);
    for block in &mut made.levels {
        if description::is_intra(made.kind) {
            block[0] = dc_code(random) as i8;
            scatter(random, &mut block[1..], most - 1);
        } else if description::has_cbp(made.kind) && random.chance(2) {
            scatter(random, block, most);
        }
    }
    keep_a_level(random, &mut made);
    if style.is_tame() {
        tame(&mut made);
    }
    made
}

fn tame(macroblock: &mut Macroblock) {
    let dc_places = usize::from(description::is_intra(macroblock.kind));
    for block in &mut macroblock.levels {
        for level in &mut block[dc_places..] {
            *level = (*level).clamp(-3, 3);
        }
    }
}

/// One macroblock of each of the ten types, in few bits.
pub fn sampler(random: &mut Random, format: Format) -> Description {
    let mut made = Description::empty(format);
    let mut index = 0;
    let room = format.macroblock_count() / 11;
    for kind in 1..=10 {
        index += 1 + random.below(room);
        while made.macroblocks[index].kind != kind {
            made.macroblocks[index] = macroblock(random, format, index, Style::Tame);
        }
    }
    made
}

/// "A type with CBP has a nonzero level."
fn keep_a_level(random: &mut Random, macroblock: &mut Macroblock) {
    if description::has_cbp(macroblock.kind) && macroblock.coded_block_pattern() == 0 {
        let block = &mut macroblock.levels[random.below(6)];
        block[random.below(64)] = level(random);
    }
}

fn scatter(random: &mut Random, levels: &mut [i8], most: usize) {
    let count = random.below(most + 1);
    if random.chance(3) {
        // From the front, as coders do.
        for place in levels.iter_mut().take(count) {
            *place = level(random);
        }
    } else {
        for _ in 0..count {
            let place = random.below(levels.len());
            levels[place] = level(random);
        }
    }
}

/// Nonzero; small ones are frequent, the largest not rare.
fn level(random: &mut Random) -> i8 {
    let most = random.pick(&[1, 1, 1, 2, 3, 7, 15, 16, 127]);
    let magnitude = if random.chance(16) {
        127
    } else {
        random.between(1, most) as i8
    };
    if random.chance(2) {
        -magnitude
    } else {
        magnitude
    }
}

fn dc_code(random: &mut Random) -> u8 {
    if random.chance(4) {
        return random.pick(&[1, 127, 129, 254, 255]);
    }
    match random.byte() {
        0 => 1,
        128 => 255,
        code => code,
    }
}

/// The least and the greatest component that stay in range and in the picture.
fn component_range(from: usize, size: usize) -> (i64, i64) {
    let (from, size) = (from as i64, size as i64);
    ((-from).max(-15), (size - 16 - from).min(15))
}

fn vector(random: &mut Random, format: Format, index: usize) -> Vector {
    let (left, top) = format.origin(index);
    let mut component = |from: usize, size: usize| {
        let (low, high) = component_range(from, size);
        let value = match random.below(6) {
            0 => low,
            1 => high,
            2 => 0,
            _ => random.between(low, high),
        };
        value as i8
    };
    Vector {
        horizontal: component(left, format.width()),
        vertical: component(top, format.height()),
    }
}

/// Drops about half of the levels of about half of the macroblocks.
fn thin(random: &mut Random, description: &mut Description) {
    for macroblock in &mut description.macroblocks {
        if random.chance(2) {
            continue;
        }
        let dc_places = usize::from(description::is_intra(macroblock.kind));
        for block in &mut macroblock.levels {
            for level in &mut block[dc_places..] {
                if random.chance(2) {
                    *level = 0;
                }
            }
        }
        keep_a_level(random, macroblock);
    }
}

/// Adds coefficients of 3 bits (level 1) and 5 bits (level 2) at blocks' ends until the picture has
/// exactly `target` bits, or comes as near as it can.
pub fn fill_up(random: &mut Random, description: &mut Description, target: usize) {
    let mut missing = target.saturating_sub(bit_count(description));
    for macroblock in &mut description.macroblocks {
        let codes_pattern = description::has_cbp(macroblock.kind);
        if !description::is_intra(macroblock.kind) && !codes_pattern {
            continue;
        }
        for block in &mut macroblock.levels {
            // A block that isn't coded would change CBP.
            let Some(last) = block.iter().rposition(|&level| level != 0) else {
                continue;
            };
            for place in &mut block[last + 1..] {
                // What is left must stay a sum of threes and fives, which 1, 2, 4 and 7 aren't.
                let magnitude = match missing {
                    0..=2 | 4 | 7 => break,
                    5 | 10 => 2,
                    _ => 1,
                };
                let cost = 2 * magnitude as usize + 1;
                *place = if random.chance(2) {
                    magnitude
                } else {
                    -magnitude
                };
                missing -= cost;
            }
        }
    }
}

/// Writes what the Recommendation allows besides document 01's writer.
pub struct Loose<'a> {
    pub random: &'a mut Random,
}

impl Manner for Loose<'_> {
    fn last_ptype_bit(&mut self) -> bool {
        self.random.chance(2)
    }

    fn spares(&mut self) -> Vec<u8> {
        let count = self.random.pick(&[0, 0, 0, 1, 2, 5]);
        self.random.bytes(count)
    }

    fn stuffing(&mut self) -> usize {
        self.random.pick(&[0, 0, 0, 0, 0, 0, 1, 3])
    }

    fn escapes(&mut self) -> bool {
        self.random.chance(4)
    }
}

pub fn loose_picture(random: &mut Random, description: &Description) -> Bits {
    writer::picture(description, &mut Loose { random })
}

/// Bits with what a bad line does to them.
pub fn damaged(random: &mut Random, bits: &Bits) -> Bits {
    let mut bad = bits.clone();
    match random.below(4) {
        0 => bad = bits.cut(random.below(bits.count + 1)),
        1 => bad.flip(random.below(bits.count)),
        2 => {
            for _ in 0..random.between(2, 40) {
                bad.flip(random.below(bits.count));
            }
        }
        _ => {
            // The beginning holds, then noise.
            bad = bits.cut(random.below(bits.count + 1));
            let length = random.below(600);
            for byte in random.bytes(length) {
                bad.field(u32::from(byte), 8);
            }
        }
    }
    bad
}

/// Noise; half of it after a good picture header and group header.
pub fn noise(random: &mut Random, format: Format) -> Bits {
    let mut bits = Bits::default();
    if random.chance(2) {
        let empty = writer::picture(&Description::empty(format), &mut Plain);
        bits = empty.cut(58);
    }
    // Noise of mostly ones stays longer within the codewords.
    let ones = random.pick(&[1, 2, 3]);
    for _ in 0..random.below(5000) {
        bits.push(!random.chance(1 + ones));
    }
    bits
}
