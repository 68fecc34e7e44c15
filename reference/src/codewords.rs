//! The codewords of Tables 1 to 5, as codebooks for reading and as printed words for writing.

use std::sync::LazyLock;

use crate::bits::{BitReader, Codebook};
use crate::refusal::Refusal;
use crate::tables;

pub static MBA: LazyLock<Codebook<u8>> = LazyLock::new(|| book(1, &tables::MBA));
pub static MTYPE: LazyLock<Codebook<u8>> = LazyLock::new(|| book(2, &tables::MTYPE));
pub static MVD: LazyLock<Codebook<i8>> = LazyLock::new(|| book(3, &tables::MVD));
pub static CBP: LazyLock<Codebook<u8>> = LazyLock::new(|| book(4, &tables::CBP));
static TCOEFF_FIRST: LazyLock<Codebook<Tabled>> = LazyLock::new(|| tcoeff_book(Position::First));
static TCOEFF_LATER: LazyLock<Codebook<Tabled>> = LazyLock::new(|| tcoeff_book(Position::Later));

fn book<T: Copy>(number: u8, table: &[(T, &str)]) -> Codebook<T> {
    Codebook::new(
        number,
        table
            .iter()
            .map(|&(meaning, word)| (meaning, word.to_string())),
    )
}

/// Whether a codeword opens a non-INTRA block, where "1s" is run 0, level 1 and EOB can't come.
#[derive(Clone, Copy, PartialEq, Eq, Debug)]
pub enum Position {
    First,
    Later,
}

/// What a walk through Table 5 meets.
#[derive(Clone, Copy)]
enum Tabled {
    EndOfBlock,
    Escape,
    Coefficient { run: u8, level: i8 },
}

/// What a whole codeword of Table 5 says.
#[derive(Clone, Copy, PartialEq, Eq, Debug)]
pub enum Coefficient {
    EndOfBlock,
    Pair { run: u8, level: i8 },
}

fn tcoeff_book(position: Position) -> Codebook<Tabled> {
    let mut words = vec![(Tabled::Escape, tables::ESCAPE.to_string())];
    if position == Position::Later {
        words.push((Tabled::EndOfBlock, tables::END_OF_BLOCK.to_string()));
    }
    for (run, magnitude, _) in tables::TCOEFF {
        for level in [magnitude as i8, -(magnitude as i8)] {
            let word = tabled_word(position, run, level).expect("a pair of the table");
            words.push((Tabled::Coefficient { run, level }, word));
        }
    }
    Codebook::new(5, words)
}

/// Table 5's word for a pair, with its sign bit, where it has one.
pub fn tabled_word(position: Position, run: u8, level: i8) -> Option<String> {
    let sign = if level < 0 { '1' } else { '0' };
    let word = unsigned_word(position, run, level.unsigned_abs())?;
    Some(format!("{word}{sign}"))
}

/// Table 5's word without its sign bit.
pub fn unsigned_word(position: Position, run: u8, magnitude: u8) -> Option<&'static str> {
    if position == Position::First && (run, magnitude) == (0, 1) {
        return Some(tables::FIRST_RUN_0_LEVEL_1);
    }
    // The longest run and the largest level of the table.
    if run > 26 || magnitude > 15 {
        return None;
    }
    let pair = tables::TCOEFF
        .iter()
        .find(|&&(r, m, _)| (r, m) == (run, magnitude));
    Some(pair?.2)
}

/// The 20 bits of an escape: 6, run 6, level 8.
pub fn escape_word(run: u8, level: i8) -> String {
    format!("{}{:06b}{:08b}", tables::ESCAPE, run, level as u8)
}

/// "An escape is one codeword of 20 bits": whatever fails in it is placed at its first bit.
pub fn read_coefficient(
    reader: &mut BitReader,
    position: Position,
) -> Result<Coefficient, Refusal> {
    let start = reader.place();
    let book = match position {
        Position::First => &TCOEFF_FIRST,
        Position::Later => &TCOEFF_LATER,
    };
    let rest_of = |meaning| match meaning {
        Tabled::Escape => 14,
        _ => 0,
    };
    let (meaning, rest) = reader.tailed_codeword(book, rest_of)?;
    match meaning {
        Tabled::EndOfBlock => Ok(Coefficient::EndOfBlock),
        Tabled::Coefficient { run, level } => Ok(Coefficient::Pair { run, level }),
        Tabled::Escape => {
            let run = (rest >> 8) as u8;
            let level = rest as u8 as i8;
            if level == 0 || level == -128 {
                return Err(Refusal::at(10, start));
            }
            Ok(Coefficient::Pair { run, level })
        }
    }
}

pub fn mba_word(meaning: u8) -> &'static str {
    word_of(&tables::MBA, meaning)
}

pub fn mtype_word(kind: u8) -> &'static str {
    word_of(&tables::MTYPE, kind)
}

pub fn cbp_word(pattern: u8) -> &'static str {
    word_of(&tables::CBP, pattern)
}

/// The word of the pair that holds the difference: pairs are 32 apart.
pub fn mvd_word(difference: i8) -> &'static str {
    let first = (i32::from(difference) + 16).rem_euclid(32) - 16;
    word_of(&tables::MVD, first as i8)
}

fn word_of<T: PartialEq>(table: &[(T, &'static str)], meaning: T) -> &'static str {
    let entry = table.iter().find(|entry| entry.0 == meaning);
    entry.expect("a meaning of the table").1
}

#[cfg(test)]
mod tests {
    use super::*;
    use crate::bits::digits;

    /// The share of all endless bit rows that begin with one of the words, in 2^-20ths.
    fn share<'a>(words: impl Iterator<Item = &'a str>) -> u32 {
        words.map(|word| 1 << (20 - digits(word).len())).sum()
    }

    const ALL: u32 = 1 << 20;

    #[test]
    fn mba_leaves_what_table_1_leaves() {
        // 0000 0011 is full; free are 0000 0010, 0000 0001 but for stuffing, and 0000 0000 but for
        // the start code.
        let free = 3 * (ALL >> 8) - (ALL >> 11) - (ALL >> 16);
        let words = share(tables::MBA.iter().map(|entry| entry.1));
        assert_eq!(words, ALL - free);
    }

    #[test]
    fn mtype_leaves_ten_zeros() {
        assert_eq!(
            share(tables::MTYPE.iter().map(|entry| entry.1)),
            ALL - (ALL >> 10)
        );
    }

    #[test]
    fn mvd_is_mba_from_2_to_32_and_one() {
        // MBA 33 is free, as is all below 0000 0011.
        let words = share(tables::MVD.iter().map(|entry| entry.1));
        assert_eq!(words, ALL - (ALL >> 11) - 3 * (ALL >> 8));
    }

    #[test]
    fn cbp_leaves_eight_zeros_and_has_all_patterns() {
        assert_eq!(
            share(tables::CBP.iter().map(|entry| entry.1)),
            ALL - (ALL >> 8)
        );
        let mut patterns: Vec<u8> = tables::CBP.iter().map(|entry| entry.0).collect();
        patterns.sort_unstable();
        assert_eq!(patterns, (1..=63).collect::<Vec<u8>>());
    }

    #[test]
    fn tcoeff_leaves_nine_zeros_or_less() {
        let tabled = |position| {
            let words: Vec<String> = tables::TCOEFF
                .iter()
                .flat_map(|&(run, level, _)| [(run, level as i8), (run, -(level as i8))])
                .filter_map(|(run, level)| tabled_word(position, run, level))
                .collect();
            share(words.iter().map(String::as_str)) + share([tables::ESCAPE].into_iter())
        };
        // 0000 0000 0 is free.
        let end_of_block = share([tables::END_OF_BLOCK].into_iter());
        assert_eq!(tabled(Position::Later) + end_of_block, ALL - (ALL >> 9));
        // "1s" takes the room of EOB and of "11s".
        assert_eq!(tabled(Position::First), ALL - (ALL >> 9));
    }

    #[test]
    fn every_book_is_free_of_beginnings() {
        // Building a book panics where a codeword begins with another.
        LazyLock::force(&MBA);
        LazyLock::force(&MTYPE);
        LazyLock::force(&MVD);
        LazyLock::force(&CBP);
        LazyLock::force(&TCOEFF_FIRST);
        LazyLock::force(&TCOEFF_LATER);
    }

    #[test]
    fn differences_32_apart_share_a_word() {
        assert_eq!(mvd_word(17), mvd_word(-15));
        assert_eq!(mvd_word(-30), mvd_word(2));
        assert_eq!(mvd_word(16), mvd_word(-16));
    }
}
