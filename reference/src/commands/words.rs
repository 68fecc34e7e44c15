//! Codeword and field reads: every word of every table at every bit of a byte, every cut of it, what
//! is no codeword, and random bits.

use reference::bits::{digits, BitReader, Bits};
use reference::codewords::{self, Coefficient, Position};
use reference::random::Random;
use reference::refusal::Refusal;
use reference::tables;

use super::made::File;

const RECORD_LENGTH: usize = 32;
const SLICE_LENGTH: usize = 24;

#[derive(Clone, Copy, PartialEq, Eq)]
enum Table {
    Mba,
    Mtype,
    Mvd,
    Cbp,
    Later,
    First,
    /// A field of this many bits.
    Field(usize),
}

const TABLES: [Table; 6] = [
    Table::Mba,
    Table::Mtype,
    Table::Mvd,
    Table::Cbp,
    Table::Later,
    Table::First,
];
const WIDEST_FIELD: usize = 20;

impl Table {
    fn number(self) -> u8 {
        match self {
            Table::Mba => 1,
            Table::Mtype => 2,
            Table::Mvd => 3,
            Table::Cbp => 4,
            Table::Later => 5,
            Table::First => 6,
            Table::Field(_) => 7,
        }
    }

    fn name(self) -> &'static str {
        match self {
            Table::Mba => "mba",
            Table::Mtype => "mtype",
            Table::Mvd => "mvd",
            Table::Cbp => "cbp",
            Table::Later => "later",
            Table::First => "first",
            Table::Field(_) => "field",
        }
    }

    fn width(self) -> usize {
        match self {
            Table::Field(width) => width,
            _ => 0,
        }
    }

    /// Its codewords as digits, escapes of all sorts among them.
    fn words(self, random: &mut Random) -> Vec<String> {
        fn plain<T>(table: &[(T, &str)]) -> Vec<String> {
            table.iter().map(|entry| entry.1.replace(' ', "")).collect()
        }
        match self {
            Table::Mba => plain(&tables::MBA),
            Table::Mtype => plain(&tables::MTYPE),
            Table::Mvd => plain(&tables::MVD),
            Table::Cbp => plain(&tables::CBP),
            Table::Later => coefficient_words(Position::Later, random),
            Table::First => coefficient_words(Position::First, random),
            Table::Field(width) => (0..3)
                .map(|_| {
                    let value = random.below(1 << width);
                    format!("{value:0width$b}")
                })
                .collect(),
        }
    }

    fn answer(self, record: &Record) -> String {
        let mut reader = BitReader::starting_at(&record.bytes, record.count, record.at);
        let refused = |refusal: Refusal| {
            let Refusal {
                number,
                place,
                table,
            } = refusal;
            format!("refused {number} {place} {table}")
        };
        let meaning = match self {
            Table::Mba => reader.codeword(&codewords::MBA).map(|m| m.to_string()),
            Table::Mtype => reader.codeword(&codewords::MTYPE).map(|m| m.to_string()),
            Table::Mvd => reader
                .codeword(&codewords::MVD)
                .map(|difference| (difference + 16).to_string()),
            Table::Cbp => reader.codeword(&codewords::CBP).map(|m| m.to_string()),
            Table::Field(width) => reader.field(width).map(|m| m.to_string()),
            Table::First | Table::Later => {
                let position = if self == Table::First {
                    Position::First
                } else {
                    Position::Later
                };
                match codewords::read_coefficient(&mut reader, position) {
                    Ok(Coefficient::EndOfBlock) => return format!("eob {}", reader.place()),
                    Ok(Coefficient::Pair { run, level }) => Ok(format!("{run} {level}")),
                    Err(refusal) => Err(refusal),
                }
            }
        };
        match meaning {
            Ok(meaning) => format!("got {meaning} {}", reader.place()),
            Err(refusal) => refused(refusal),
        }
    }
}

fn coefficient_words(position: Position, random: &mut Random) -> Vec<String> {
    let mut words = Vec::new();
    if position == Position::Later {
        words.push(tables::END_OF_BLOCK.to_string());
    }
    for (run, magnitude, _) in tables::TCOEFF {
        for level in [magnitude as i8, -(magnitude as i8)] {
            words.extend(codewords::tabled_word(position, run, level));
        }
    }
    for level in [0, 1, 2, 15, 16, 127, -1, -2, -127, -128] {
        for run in [0, 1, 26, 27, 62, 63, random.below(64) as u8] {
            words.push(codewords::escape_word(run, level));
        }
    }
    words.iter().map(|word| word.replace(' ', "")).collect()
}

/// The shortest rows of bits that begin no codeword.
pub fn non_words(words: &[String]) -> Vec<String> {
    let begins = |row: &str| words.iter().any(|word| word.starts_with(row));
    let mut found = Vec::new();
    for word in words {
        for length in 0..word.len() {
            for bit in ["0", "1"] {
                let row = format!("{}{bit}", &word[..length]);
                if !begins(&row) && !found.contains(&row) {
                    found.push(row);
                }
            }
        }
    }
    found
}

pub struct Record {
    pub bytes: Vec<u8>,
    pub count: usize,
    pub at: usize,
}

impl Record {
    /// In its fixed length.
    pub fn put(&self, table: u8, width: usize, input: &mut Vec<u8>) {
        let mut fixed = vec![table, width as u8];
        super::put16(&mut fixed, self.count);
        super::put16(&mut fixed, self.at);
        fixed.extend([self.bytes.len() as u8, 0]);
        fixed.extend(&self.bytes);
        fixed.resize(RECORD_LENGTH, 0);
        input.extend(fixed);
    }
}

/// `word` at a place, after and before random bits; `cut` bits of it are left.
pub fn record(random: &mut Random, word: &str, at: usize, cut: Option<usize>) -> Record {
    let mut bits = Bits::default();
    while bits.count < at {
        bits.push(random.chance(2));
    }
    for bit in digits(word) {
        bits.push(bit);
    }
    let end = bits.count;
    let following = random.below(8 * SLICE_LENGTH - end + 1);
    for _ in 0..following {
        bits.push(random.chance(2));
    }
    let count = match cut {
        Some(cut) => at + cut,
        None => end + random.below(following + 1),
    };
    Record {
        bytes: bits.bytes,
        count,
        at,
    }
}

pub fn random_record(random: &mut Random) -> Record {
    let zeros = random.pick(&[2, 2, 3, 5, 9]);
    let mut bits = Bits::default();
    for _ in 0..random.below(8 * SLICE_LENGTH + 1) {
        bits.push(random.chance(zeros));
    }
    let count = random.below(bits.count + 1);
    let at = random.below(count + 1);
    Record {
        bytes: bits.bytes,
        count,
        at,
    }
}

#[derive(Default)]
struct Collector {
    text: String,
    input: Vec<u8>,
    expected: String,
}

impl Collector {
    fn push(&mut self, table: Table, record: &Record) {
        let hex: String = record.bytes.iter().map(|b| format!("{b:02x}")).collect();
        let hex = if hex.is_empty() { "-" } else { &hex };
        let (name, width) = (table.name(), table.width());
        let (count, at) = (record.count, record.at);
        self.text
            .push_str(&format!("{name} {width} {hex} {count} {at}\n"));
        record.put(table.number(), width, &mut self.input);
        self.expected.push_str(&table.answer(record));
        self.expected.push('\n');
    }
}

pub fn files(seed: u64, count: usize) -> Vec<File> {
    let mut random = Random::new(seed);
    let mut out = Collector::default();
    let fields = (1..=WIDEST_FIELD).map(Table::Field);
    for table in TABLES.into_iter().chain(fields) {
        let words = table.words(&mut random);
        for word in &words {
            for offset in 0..8 {
                out.push(table, &record(&mut random, word, offset, None));
            }
            // Every cut, with the whole word just fitting as the last.
            for cut in 0..=word.len() {
                let at = random.below(100);
                out.push(table, &record(&mut random, word, at, Some(cut)));
            }
        }
        if matches!(table, Table::Field(_)) {
            continue;
        }
        for word in non_words(&words) {
            for offset in 0..8 {
                out.push(table, &record(&mut random, &word, offset, None));
                let at = 8 + offset;
                out.push(table, &record(&mut random, &word, at, Some(word.len())));
            }
        }
    }
    for _ in 0..count {
        let table = match random.below(7) {
            6 => Table::Field(1 + random.below(WIDEST_FIELD)),
            number => TABLES[number],
        };
        out.push(table, &random_record(&mut random));
    }
    vec![
        ("words.text".to_string(), out.text.into_bytes()),
        ("words.input".to_string(), out.input),
        ("words.expected".to_string(), out.expected.into_bytes()),
    ]
}
