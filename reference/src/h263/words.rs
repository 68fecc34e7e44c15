//! The codewords of Tables 4, 5, 10, 11 and 13 for reading, and as printed for writing.

use std::collections::HashMap;
use std::sync::LazyLock;

use crate::bits::digits;

use super::reads::Reads;
use super::refusal::Refusal;
use super::tables::{self, Mcbpc};

/// The words of a table, the shortest first, and the number that T-06 gives it.
pub struct Words<T> {
    pub table: u8,
    entries: Vec<(T, Vec<bool>)>,
}

impl<T: Copy> Words<T> {
    fn new(table: u8, words: impl IntoIterator<Item = (T, String)>) -> Words<T> {
        let mut entries: Vec<_> = words
            .into_iter()
            .map(|(meaning, word)| (meaning, digits(&word)))
            .collect();
        entries.sort_by_key(|(_, word)| word.len());
        Words { table, entries }
    }

    /// The word that begins these bits.
    pub fn beginning(&self, bits: &[bool]) -> Option<(T, &[bool])> {
        let found = self.entries.iter().find(|(_, word)| bits.starts_with(word));
        found.map(|(meaning, word)| (*meaning, &word[..]))
    }

    /// Whether these bits begin a word.
    pub fn begun_by(&self, bits: &[bool]) -> bool {
        self.entries.iter().any(|(_, word)| word.starts_with(bits))
    }
}

/// With the index that the table prints, as the comparison has it.
pub static MCBPC_INTRA: LazyLock<Words<(usize, Mcbpc)>> =
    LazyLock::new(|| mcbpc(6, &tables::MCBPC_INTRA));
pub static MCBPC_INTER: LazyLock<Words<(usize, Mcbpc)>> =
    LazyLock::new(|| mcbpc(7, &tables::MCBPC_INTER));

fn mcbpc(table: u8, printed: &[(Mcbpc, &str)]) -> Words<(usize, Mcbpc)> {
    let indexed = printed.iter().enumerate();
    Words::new(
        table,
        indexed.map(|(index, &(meaning, word))| ((index, meaning), word.to_string())),
    )
}

/// Table 10's index.
pub static CBPY: LazyLock<Words<usize>> = LazyLock::new(|| {
    let indexed = tables::CBPY.iter().enumerate();
    Words::new(
        8,
        indexed.map(|(index, entry)| (index, entry.2.to_string())),
    )
});

/// Table 11's index.
pub static MVD: LazyLock<Words<usize>> = LazyLock::new(|| {
    let indexed = tables::MVD.iter().enumerate();
    Words::new(
        9,
        indexed.map(|(index, entry)| (index, entry.2.to_string())),
    )
});

#[derive(Clone, Copy, PartialEq, Eq, Debug)]
enum Tabled {
    Event(Event),
    Escape,
}

/// "A combination of LAST, RUN and LEVEL."
#[derive(Clone, Copy, PartialEq, Eq, Debug)]
pub struct Event {
    pub last: bool,
    pub run: u8,
    pub level: i8,
}

static TCOEF: LazyLock<Words<Tabled>> = LazyLock::new(|| {
    let events = tables::TCOEF
        .iter()
        .flat_map(|&(last, run, magnitude, word)| {
            [(magnitude as i8, '0'), (-(magnitude as i8), '1')].map(|(level, sign)| {
                (
                    Tabled::Event(Event { last, run, level }),
                    format!("{word}{sign}"),
                )
            })
        });
    Words::new(
        10,
        events.chain([(Tabled::Escape, tables::ESCAPE.to_string())]),
    )
});

/// "7 bits ESCAPE, 1 bit LAST, 6 bits RUN and 8 bits LEVEL": one codeword of 22 bits. Levels 0 and -128
/// are 10.
pub fn read_event(reads: &mut Reads) -> Result<Event, Refusal> {
    let start = reads.place();
    let tail = |tabled| if tabled == Tabled::Escape { 15 } else { 0 };
    match reads.codeword(&TCOEF, tail)? {
        (Tabled::Event(event), _) => Ok(event),
        (Tabled::Escape, bits) => {
            let level = bits as u8 as i8;
            if level == 0 || level == -128 {
                return Err(Refusal::at(10, start));
            }
            Ok(Event {
                last: bits >> 14 & 1 == 1,
                run: (bits >> 8 & 63) as u8,
                level,
            })
        }
    }
}

/// Table 13's words by LAST, RUN and magnitude.
static UNSIGNED_WORDS: LazyLock<HashMap<(bool, u8, u8), &str>> = LazyLock::new(|| {
    let entries = tables::TCOEF.iter();
    entries
        .map(|&(last, run, magnitude, word)| ((last, run, magnitude), word))
        .collect()
});

/// Table 13's word without its sign bit, where it has one.
pub fn unsigned_word(event: Event) -> Option<&'static str> {
    let entry = (event.last, event.run, event.level.unsigned_abs());
    UNSIGNED_WORDS.get(&entry).copied()
}

pub fn escape_word(event: Event) -> String {
    format!(
        "{}{}{:06b}{:08b}",
        tables::ESCAPE,
        u8::from(event.last),
        event.run,
        event.level as u8
    )
}

pub fn mcbpc_word(is_inter_picture: bool, meaning: Mcbpc) -> &'static str {
    let table: &[(Mcbpc, &'static str)] = if is_inter_picture {
        &tables::MCBPC_INTER
    } else {
        &tables::MCBPC_INTRA
    };
    let entry = table.iter().find(|entry| entry.0 == meaning);
    entry.expect("a meaning of the table").1
}

/// The pattern of an INTRA or INTER macroblock that the word with this index stands for.
pub fn luminance_pattern(index: usize, is_intra: bool) -> [bool; 4] {
    let (of_intra, of_inter, _) = tables::CBPY[index];
    let bits = digits(if is_intra { of_intra } else { of_inter });
    bits.try_into().expect("four blocks")
}

pub fn cbpy_word(pattern: [bool; 4], is_intra: bool) -> &'static str {
    let index = (0..16).find(|&index| luminance_pattern(index, is_intra) == pattern);
    tables::CBPY[index.expect("all sixteen patterns")].2
}

pub fn dquant_word(difference: i8) -> &'static str {
    let entry = tables::DQUANT.iter().find(|entry| entry.0 == difference);
    entry.expect("a difference of the table").1
}

#[cfg(test)]
mod tests {
    use super::*;

    /// The share of all endless bit rows that begin with one of the words, in 2^-20ths.
    fn share<T>(words: &Words<T>) -> u32 {
        let of_word = |word: &Vec<bool>| 1u32 << (20 - word.len());
        words.entries.iter().map(|(_, word)| of_word(word)).sum()
    }

    fn no_word_begins_another<T>(words: &Words<T>) {
        for (at, (_, word)) in words.entries.iter().enumerate() {
            for (_, other) in &words.entries[at + 1..] {
                assert!(!other.starts_with(word));
            }
        }
    }

    const ALL: u32 = 1 << 20;

    /// What is outside the tables is what T-04's readings name.
    #[test]
    fn the_tables_leave_what_is_no_codeword() {
        // 0000 0000 0, 0000 001 and 0000 0001.
        let free = (ALL >> 9) + (ALL >> 7) + (ALL >> 8);
        assert_eq!(share(&MCBPC_INTRA), ALL - free);
        assert_eq!(share(&MCBPC_INTER), ALL - (ALL >> 9));
        assert_eq!(share(&CBPY), ALL - (ALL >> 5));
        // Eleven zeros, and 0000 0000 0010 0.
        assert_eq!(share(&MVD), ALL - (ALL >> 11) - (ALL >> 13));
        assert_eq!(share(&TCOEF), ALL - (ALL >> 9));
    }

    #[test]
    fn every_table_is_free_of_beginnings() {
        no_word_begins_another(&MCBPC_INTRA);
        no_word_begins_another(&MCBPC_INTER);
        no_word_begins_another(&CBPY);
        no_word_begins_another(&MVD);
        no_word_begins_another(&TCOEF);
    }

    #[test]
    fn an_inter_pattern_is_the_intra_one_turned() {
        for index in 0..16 {
            let turned = luminance_pattern(index, true).map(|bit| !bit);
            assert_eq!(luminance_pattern(index, false), turned);
        }
    }

    #[test]
    fn the_words_of_thirteen_bits_go_up_by_one() {
        let long: Vec<_> = tables::TCOEF
            .iter()
            .map(|entry| entry.3.replace(' ', ""))
            .filter(|word| word.len() == 12)
            .collect();
        let counted: Vec<_> = (0..16)
            .map(|number| format!("00000101{number:04b}"))
            .collect();
        assert_eq!(long, counted);
    }
}
