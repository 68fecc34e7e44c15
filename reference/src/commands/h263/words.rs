//! Codeword reads of H.263: every word of every table at every bit of a byte, every cut of it, what is no
//! codeword, and random bits.

use reference::h263::reads::Reads;
use reference::h263::refusal::Refusal;
use reference::h263::tables;
use reference::h263::words::{self, read_event, Event};
use reference::random::Random;

use super::super::made::Made;
use super::super::words::{non_words, random_record, record, Record};

#[derive(Clone, Copy, PartialEq, Eq)]
enum Table {
    McbpcIntra,
    McbpcInter,
    Cbpy,
    Mvd,
    Tcoef,
}

const TABLES: [Table; 5] = [
    Table::McbpcIntra,
    Table::McbpcInter,
    Table::Cbpy,
    Table::Mvd,
    Table::Tcoef,
];

impl Table {
    /// After H.261's tables and the field.
    fn number(self) -> u8 {
        match self {
            Table::McbpcIntra => 8,
            Table::McbpcInter => 9,
            Table::Cbpy => 10,
            Table::Mvd => 11,
            Table::Tcoef => 12,
        }
    }

    /// Its codewords as digits, escapes of all sorts among them.
    fn words(self, random: &mut Random) -> Vec<String> {
        let printed: Vec<String> = match self {
            Table::McbpcIntra => tables::MCBPC_INTRA
                .map(|entry| entry.1.to_string())
                .to_vec(),
            Table::McbpcInter => tables::MCBPC_INTER
                .map(|entry| entry.1.to_string())
                .to_vec(),
            Table::Cbpy => tables::CBPY.map(|entry| entry.2.to_string()).to_vec(),
            Table::Mvd => tables::MVD.map(|entry| entry.2.to_string()).to_vec(),
            Table::Tcoef => event_words(random),
        };
        printed.iter().map(|word| word.replace(' ', "")).collect()
    }

    fn answer(self, record: &Record) -> String {
        let mut reads = Reads::starting_at(&record.bytes, record.count, record.at);
        let meaning = match self {
            Table::McbpcIntra => reads
                .word(&words::MCBPC_INTRA)
                .map(|found| found.0.to_string()),
            Table::McbpcInter => reads
                .word(&words::MCBPC_INTER)
                .map(|found| found.0.to_string()),
            Table::Cbpy => reads.word(&words::CBPY).map(|index| index.to_string()),
            Table::Mvd => reads.word(&words::MVD).map(|index| index.to_string()),
            Table::Tcoef => read_event(&mut reads)
                .map(|event| format!("{} {} {}", u8::from(event.last), event.run, event.level)),
        };
        match meaning {
            Ok(meaning) => format!("got {meaning} {}", reads.place()),
            Err(Refusal {
                number,
                place,
                table,
            }) => format!("refused {number} {place} {table}"),
        }
    }
}

fn event_words(random: &mut Random) -> Vec<String> {
    let mut found = Vec::new();
    for (_, _, _, word) in tables::TCOEF {
        found.extend([format!("{word}0"), format!("{word}1")]);
    }
    for level in [0, 1, 2, 12, 13, 127, -1, -2, -127, -128] {
        for run in [0, 1, 26, 40, 41, 62, 63, random.below(64) as u8] {
            let last = random.chance(2);
            found.push(words::escape_word(Event { last, run, level }));
        }
    }
    found
}

pub fn make(seed: u64, count: usize) -> Made {
    let mut random = Random::new(seed);
    let mut input = Vec::new();
    let mut expected = String::new();
    let mut push = |table: Table, record: &Record| {
        record.put(table.number(), 0, &mut input);
        expected.push_str(&table.answer(record));
        expected.push('\n');
    };
    for table in TABLES {
        let words = table.words(&mut random);
        for word in &words {
            for offset in 0..8 {
                push(table, &record(&mut random, word, offset, None));
            }
            // Every cut, with the whole word just fitting as the last.
            for cut in 0..=word.len() {
                let at = random.below(100);
                push(table, &record(&mut random, word, at, Some(cut)));
            }
        }
        for word in non_words(&words) {
            for offset in 0..8 {
                push(table, &record(&mut random, &word, offset, None));
                let at = 8 + offset;
                push(table, &record(&mut random, &word, at, Some(word.len())));
            }
        }
    }
    for _ in 0..count {
        let table = random.pick(&TABLES);
        push(table, &random_record(&mut random));
    }
    Made {
        input,
        expected: expected.into_bytes(),
    }
}
