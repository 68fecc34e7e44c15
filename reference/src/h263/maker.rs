//! Random H.263 descriptions, loose writing and noise.

use crate::bits::Bits;
use crate::description::Vector;
use crate::random::Random;

use super::description::{
    Description, Macroblock, INTER, INTER_PICTURE, INTER_Q, INTRA, INTRA_PICTURE, INTRA_Q,
};
use super::format::Format;
use super::stream;
use super::vectors;
use super::writer::{self, Manner, Plain};

/// How much of a picture is sent, and how.
#[derive(Clone, Copy, PartialEq, Eq, Debug)]
pub enum Style {
    Empty,
    Sparse,
    Mixed,
    Dense,
    /// Vectors, and hardly a level.
    Moving,
    Refresh,
    DenseRefresh,
    /// As many bits as the limit allows, to the bit.
    Full,
    /// Few levels, of 1 to 12 as Table 13 has them, which other decoders' transforms stand as well.
    Tame,
    TameRefresh,
    /// First coefficients alone: flat blocks, which every transform gives alike.
    Flat,
    FlatRefresh,
}

const STYLES: [Style; 8] = [
    Style::Empty,
    Style::Sparse,
    Style::Mixed,
    Style::Dense,
    Style::Moving,
    Style::Refresh,
    Style::DenseRefresh,
    Style::Full,
];

impl Style {
    pub fn any(random: &mut Random) -> Style {
        random.pick(&STYLES)
    }

    fn is_refresh(self, random: &mut Random) -> bool {
        match self {
            Style::Refresh | Style::DenseRefresh | Style::TameRefresh | Style::FlatRefresh => true,
            Style::Full => random.chance(2),
            _ => false,
        }
    }

    /// How many of twelve macroblocks are sent in a picture of type INTER.
    fn sent_of_twelve(self) -> usize {
        match self {
            Style::Empty => 0,
            Style::Sparse => 1,
            Style::Mixed => 6,
            Style::Tame | Style::Flat | Style::Moving => 10,
            _ => 12,
        }
    }

    /// How many coefficients a block has at most.
    fn most_coefficients(self, random: &mut Random) -> usize {
        match self {
            Style::Dense | Style::DenseRefresh | Style::Full => 64,
            Style::Moving => random.pick(&[0, 0, 0, 0, 0, 0, 0, 1]),
            Style::Tame | Style::TameRefresh => 4,
            _ => random.pick(&[0, 1, 2, 4, 8, 20]),
        }
    }

    fn largest_level(self, random: &mut Random) -> i8 {
        match self {
            Style::Tame | Style::TameRefresh => random.pick(&[1, 2, 3, 12]),
            _ => random.pick(&[1, 1, 1, 2, 3, 6, 12, 13, 127]),
        }
    }

    fn is_flat(self) -> bool {
        matches!(self, Style::Flat | Style::FlatRefresh)
    }
}

/// A valid description that the writer doesn't refuse by 32.
pub fn description(random: &mut Random, format: Format, style: Style) -> Description {
    let mut made = unlimited_description(random, format, style);
    while bit_count(&made) > format.bit_limit() {
        thin(random, &mut made);
    }
    if style == Style::Full {
        fill_up(random, &mut made, format.bit_limit());
    }
    debug_assert!(made.is_valid(format));
    made
}

fn bit_count(description: &Description) -> usize {
    writer::picture(description, &mut Plain).count
}

/// A valid description of any number of bits.
pub fn unlimited_description(random: &mut Random, format: Format, style: Style) -> Description {
    let mut made = Description::empty(format);
    made.temporal_reference = random.byte();
    made.indicators = random.below(8) as u8;
    made.quantiser = random_quantiser(random);
    let is_refresh = style.is_refresh(random);
    made.picture_type = if is_refresh {
        INTRA_PICTURE
    } else {
        INTER_PICTURE
    };
    let one_header_of = random.pick(&[1, 2, 4, 1000]);
    for quantiser in &mut made.group_quantisers[1..] {
        if random.chance(one_header_of) {
            *quantiser = random_quantiser(random);
        }
    }
    for index in 0..format.macroblock_count() {
        if is_refresh || random.below(12) < style.sent_of_twelve() {
            let kind = random_kind(random, style, is_refresh);
            made.macroblocks[index] = macroblock(random, format, index, style, kind);
        }
    }
    made
}

fn random_quantiser(random: &mut Random) -> u8 {
    match random.below(8) {
        0 => random.pick(&[1, 2]),
        1 => random.pick(&[30, 31]),
        _ => random.between(1, 31) as u8,
    }
}

fn random_kind(random: &mut Random, style: Style, is_refresh: bool) -> u8 {
    if is_refresh {
        random.pick(&[INTRA, INTRA, INTRA_Q])
    } else if style == Style::Moving {
        random.pick(&[INTER, INTER, INTER, INTER, INTER_Q, INTRA])
    } else {
        random.pick(&[INTRA, INTRA_Q, INTER, INTER, INTER, INTER_Q])
    }
}

fn macroblock(
    random: &mut Random,
    format: Format,
    index: usize,
    style: Style,
    kind: u8,
) -> Macroblock {
    let mut made = Macroblock::unsent();
    made.kind = kind;
    if made.has_dquant() {
        made.dquant = random.pick(&[-2, -1, 1, 2]);
    }
    if made.is_inter() {
        made.vector = vector(random, format, index);
    }
    let most = style.most_coefficients(random);
    let is_intra = made.is_intra();
    for block in &mut made.levels {
        if is_intra {
            block[0] = dc_code(random) as i8;
        }
        if style.is_flat() {
            if !is_intra && random.chance(2) {
                block[0] = random.pick(&[-3, -2, -1, 1, 2, 3]);
            }
        } else if is_intra || random.chance(2) {
            scatter(random, style, &mut block[usize::from(is_intra)..], most);
        }
    }
    made
}

/// One macroblock of each type, in few bits, and an INTER one without levels.
pub fn sampler(random: &mut Random, format: Format) -> Description {
    let mut made = Description::empty(format);
    made.group_quantisers[2] = random_quantiser(random);
    made.group_quantisers[4] = random_quantiser(random);
    let mut index = 0;
    let room = format.macroblock_count() / 8;
    for kind in [INTRA, INTRA_Q, INTER, INTER_Q, INTER] {
        index += 1 + random.below(room);
        made.macroblocks[index] = macroblock(random, format, index, Style::Tame, kind);
    }
    made.macroblocks[index].levels = [[0; 64]; 6];
    made
}

fn scatter(random: &mut Random, style: Style, levels: &mut [i8], most: usize) {
    let count = random.below(most + 1);
    if random.chance(3) {
        // From the front, as coders do.
        for place in levels.iter_mut().take(count) {
            *place = level(random, style);
        }
    } else {
        for _ in 0..count {
            let place = random.below(levels.len());
            levels[place] = level(random, style);
        }
    }
}

/// Nonzero; small ones are frequent, the largest not rare.
fn level(random: &mut Random, style: Style) -> i8 {
    let most = style.largest_level(random);
    let magnitude = random.between(1, i64::from(most)) as i8;
    if random.chance(2) {
        -magnitude
    } else {
        magnitude
    }
}

fn dc_code(random: &mut Random) -> u8 {
    if random.chance(4) {
        return random.pick(&[1, 127, 129, 254, 255]);
    }
    match random.byte() {
        0 => 1,
        128 => 255,
        code => code,
    }
}

/// Any vector in range and in the picture, those at the edges often.
fn vector(random: &mut Random, format: Format, index: usize) -> Vector {
    let allowed = |is_horizontal: bool| -> Vec<i8> {
        (vectors::LEAST..=vectors::GREATEST)
            .filter(|&component| {
                let vector = if is_horizontal {
                    Vector {
                        horizontal: component,
                        vertical: 0,
                    }
                } else {
                    Vector {
                        horizontal: 0,
                        vertical: component,
                    }
                };
                vectors::in_picture(vector, format, index)
            })
            .collect()
    };
    let mut component = |allowed: Vec<i8>| match random.below(6) {
        0 => allowed[0],
        1 => allowed[allowed.len() - 1],
        2 => 0,
        _ => random.pick(&allowed),
    };
    Vector {
        horizontal: component(allowed(true)),
        vertical: component(allowed(false)),
    }
}

/// Drops about half of the levels of about half of the macroblocks.
fn thin(random: &mut Random, description: &mut Description) {
    for macroblock in &mut description.macroblocks {
        if random.chance(2) {
            continue;
        }
        let from = usize::from(macroblock.is_intra());
        for level in macroblock
            .levels
            .iter_mut()
            .flat_map(|block| &mut block[from..])
        {
            if random.chance(2) {
                *level = 0;
            }
        }
    }
}

/// Changes levels of coded blocks until the picture has exactly `target` bits, or comes as near as some
/// thousands of tries bring it.
pub fn fill_up(random: &mut Random, description: &mut Description, target: usize) {
    let coded: Vec<(usize, usize)> = description
        .macroblocks
        .iter()
        .enumerate()
        .flat_map(|(index, macroblock)| {
            let pattern = macroblock.pattern().into_iter().enumerate();
            pattern.filter_map(move |(block, is_coded)| is_coded.then_some((index, block)))
        })
        .collect();
    if coded.is_empty() {
        return;
    }
    let mut missing = target.saturating_sub(bit_count(description));
    for _ in 0..60_000 {
        if missing == 0 {
            break;
        }
        let (index, block) = random.pick(&coded);
        let macroblock = &mut description.macroblocks[index];
        let before = block_bits(macroblock.coefficients(block));
        let from = usize::from(macroblock.is_intra());
        let place = from + random.below(64 - from);
        let kept = macroblock.levels[block][place];
        macroblock.levels[block][place] = level(random, Style::Full);
        let after = block_bits(macroblock.coefficients(block));
        if after > before && after - before <= missing {
            missing -= after - before;
        } else {
            macroblock.levels[block][place] = kept;
        }
    }
}

fn block_bits(levels: &[i8]) -> usize {
    let mut bits = Bits::default();
    writer::coefficients(&mut bits, levels, &mut Plain);
    bits.count
}

/// Writes what the Recommendation allows besides T-04's writer.
pub struct Loose<'a> {
    pub random: &'a mut Random,
    /// For other decoders: no stuffing before a header, where ffmpeg reads none, and no spares that the
    /// Recommendation forbids to coders, since a start code may seem to stand over them.
    pub is_careful: bool,
}

impl Manner for Loose<'_> {
    fn spares(&mut self) -> Vec<u8> {
        let count = self.random.pick(&[0, 0, 0, 1, 2, 5]);
        let mut spares = self.random.bytes(count);
        if self.is_careful {
            spares.retain(|spare| spare % 64 != 0);
        }
        spares
    }

    fn stuffing(&mut self) -> usize {
        self.random.pick(&[0, 0, 0, 0, 0, 0, 1, 3])
    }

    fn header_stuffing(&mut self) -> usize {
        if self.is_careful {
            0
        } else {
            self.stuffing()
        }
    }

    fn aligns_header(&mut self) -> bool {
        self.random.chance(2)
    }

    fn frame_id(&mut self) -> u32 {
        self.random.below(4) as u32
    }

    fn escapes(&mut self) -> bool {
        self.random.chance(4)
    }
}

pub fn loose_picture(random: &mut Random, description: &Description) -> Bits {
    let mut manner = Loose {
        random,
        is_careful: false,
    };
    writer::picture(description, &mut manner)
}

/// Noise; most of it after a good picture header of either type, some of it after a good first row.
pub fn noise(random: &mut Random, format: Format) -> Bits {
    let mut bits = Bits::default();
    let mut empty = Description::empty(format);
    empty.picture_type = random.pick(&[INTRA_PICTURE, INTER_PICTURE]);
    let begun = writer::picture(&empty, &mut Plain);
    match random.below(3) {
        0 => {}
        1 => bits = begun.cut(50),
        _ => {
            empty.picture_type = INTER_PICTURE;
            let begun = writer::picture(&empty, &mut Plain);
            bits = begun.cut(50 + format.columns());
        }
    }
    // Noise of mostly ones stays longer within the codewords, of mostly zeros near start codes.
    let (zeros, of) = random.pick(&[(1, 2), (1, 3), (1, 4), (3, 4), (9, 10)]);
    for _ in 0..random.below(5000) {
        bits.push(random.below(of) >= zeros);
    }
    bits
}

/// A raw stream for another decoder.
pub struct MadeStream {
    pub format: Format,
    /// First coefficients alone.
    pub is_flat: bool,
    pub bits: Bits,
}

/// Streams of eight pictures from byte to byte, with stuffing, spares, GSTUF and escapes, and levels that
/// other decoders' transforms stand: the three formats in turn, the last three of every nine flat.
pub fn streams(seed: u64, count: usize) -> Vec<MadeStream> {
    let mut random = Random::new(seed);
    (0..count)
        .map(|number| {
            let format = Format::ALL[number % 3];
            let is_flat = number % 9 >= 6;
            MadeStream {
                format,
                is_flat,
                bits: made_stream(&mut random, format, is_flat),
            }
        })
        .collect()
}

fn made_stream(random: &mut Random, format: Format, is_flat: bool) -> Bits {
    let mut bits = Bits::default();
    for number in 0..8 {
        let style = match (number, is_flat) {
            (0, true) => Style::FlatRefresh,
            (0, false) => Style::TameRefresh,
            (_, true) => Style::Flat,
            (_, false) => Style::Tame,
        };
        let mut description = description(random, format, style);
        description.temporal_reference = number;
        let mut manner = Loose {
            random,
            is_careful: true,
        };
        let picture = writer::picture(&description, &mut manner);
        stream::append(&mut bits, &picture);
    }
    bits
}

#[cfg(test)]
mod tests {
    use super::*;
    use crate::bits::bit_of;
    use crate::h263::reader::read_listed;
    use crate::h263::tables;
    use std::collections::HashSet;

    /// What is compared with another decoder has every word of the five tables but INTER4V's.
    #[test]
    fn the_streams_have_every_word() {
        let mut met = HashSet::new();
        for made in streams(1, 36) {
            for picture in stream::pictures(&made.bits.bytes, made.format) {
                let bytes = &made.bits.bytes[picture.byte..];
                for read in read_listed(bytes, picture.count, made.format).reads {
                    let bit = |place| if bit_of(bytes, place) { '1' } else { '0' };
                    let word: String = (read.place..read.place + read.width).map(bit).collect();
                    met.insert((read.table, word));
                }
            }
        }
        let has = |table: u8, word: &str| met.contains(&(table, word.replace(' ', "")));
        for (meaning, word) in tables::MCBPC_INTER {
            let is_refused = matches!(meaning, tables::Mcbpc::Coded { mb_type: 2, .. });
            assert_eq!(has(7, word), !is_refused, "{word}");
        }
        assert!(tables::MCBPC_INTRA.iter().all(|entry| has(6, entry.1)));
        assert!(tables::CBPY.iter().all(|entry| has(8, entry.2)));
        assert!(tables::MVD.iter().all(|entry| has(9, entry.2)));
        for (_, _, _, word) in tables::TCOEF {
            for sign in ["0", "1"] {
                assert!(has(10, &format!("{word}{sign}")), "{word}{sign}");
            }
        }
    }
}
