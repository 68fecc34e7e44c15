//! Pictures of every sort, and what the reader says of them.

use reference::bits::Bits;
use reference::check::check;
use reference::edges::edges;
use reference::format::Format;
use reference::maker::{self, Style};
use reference::random::Random;
use reference::reader::read_listed;
use reference::reconstruction::reconstruct;
use reference::writer::{self, Plain};

use super::made::Made;

/// The reference of every picture: byte i is (37·i + 11·(i/176)) mod 251.
pub fn pattern(format: Format) -> Vec<u8> {
    pattern_of(format.store_length())
}

pub fn pattern_of(length: usize) -> Vec<u8> {
    (0..length)
        .map(|i| ((37 * i + 11 * (i / 176)) % 251) as u8)
        .collect()
}

struct Collector {
    references: [Vec<u8>; 2],
    input: Vec<u8>,
    expected: String,
}

impl Collector {
    fn push(&mut self, opened: Format, bytes: &[u8], count: usize) {
        self.input.push(opened.number());
        super::put32(&mut self.input, count);
        super::put32(&mut self.input, bytes.len());
        self.input.extend(bytes);
        let reading = read_listed(bytes, count, opened);
        let line = match reading.answer {
            Ok(description) => {
                let reference = &self.references[usize::from(opened.number())];
                let store = reconstruct(&description, reference);
                format!(
                    "accepted {} {}",
                    check(&description.all_bytes()),
                    check(&store)
                )
            }
            Err(refusal) => refusal.to_string(),
        };
        let reads = reading.reads.len();
        self.expected.push_str(&format!("{line} reads {reads}\n"));
    }

    fn push_bits(&mut self, opened: Format, bits: &Bits) {
        self.push(opened, &bits.bytes, bits.count);
    }
}

/// All edges first, then a small picture with every cut and every flipped bit, then `count` random
/// pictures.
pub fn make(seed: u64, count: usize) -> Made {
    let mut random = Random::new(seed);
    let mut out = Collector {
        references: Format::ALL.map(pattern),
        input: Vec::new(),
        expected: String::new(),
    };
    for edge in edges() {
        out.push(edge.opened, &edge.bytes, edge.count);
    }
    let small = maker::sampler(&mut random, Format::Qcif);
    let bits = maker::loose_picture(&mut random, &small);
    for place in 0..=bits.count {
        out.push_bits(Format::Qcif, &bits.cut(place));
    }
    for place in 0..bits.count {
        let mut flipped = bits.clone();
        flipped.flip(place);
        out.push_bits(Format::Qcif, &flipped);
    }
    for number in 0..count {
        let format = if number % 4 == 3 {
            Format::Cif
        } else {
            Format::Qcif
        };
        random_picture(&mut random, format, number, &mut out);
    }
    Made {
        input: out.input,
        expected: out.expected.into_bytes(),
    }
}

fn random_picture(random: &mut Random, format: Format, number: usize, out: &mut Collector) {
    if number % 8 == 7 {
        out.push_bits(format, &maker::noise(random, format));
        return;
    }
    let style = Style::any(random);
    let description = maker::description(random, format, style);
    let plain = writer::picture(&description, &mut Plain);
    match number % 8 {
        0 => out.push_bits(format, &plain),
        1 => {
            // Other bits after the last one in a longer slice.
            let mut longer = plain.clone();
            for byte in random.bytes(4) {
                longer.field(u32::from(byte), 8);
            }
            out.push(format, &longer.bytes, plain.count);
        }
        2 | 3 => out.push_bits(format, &maker::loose_picture(random, &description)),
        _ => {
            let sound = if random.chance(2) {
                plain
            } else {
                maker::loose_picture(random, &description)
            };
            out.push_bits(format, &maker::damaged(random, &sound));
        }
    }
}
