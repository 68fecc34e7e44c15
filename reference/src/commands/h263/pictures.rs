//! H.263 pictures of every sort, and what the reader says of them.

use reference::bits::Bits;
use reference::check::check;
use reference::h263::edges::edges;
use reference::h263::format::Format;
use reference::h263::maker::{self, Style};
use reference::h263::reader::read_listed;
use reference::h263::reconstruction::reconstruct;
use reference::h263::writer::{self, Plain};
use reference::maker::damaged;
use reference::random::Random;

use super::super::made::Made;
use super::super::{pictures::pattern_of, put32};

struct Collector {
    input: Vec<u8>,
    expected: String,
}

impl Collector {
    fn push(&mut self, opened: Format, bytes: &[u8], count: usize) {
        self.input.push(opened.kind());
        put32(&mut self.input, count);
        put32(&mut self.input, bytes.len());
        self.input.extend(bytes);
        let reading = read_listed(bytes, count, opened);
        let line = match reading.answer {
            Ok(description) => {
                let store = reconstruct(&description, &pattern_of(opened.store_length()));
                format!(
                    "accepted {} {}",
                    check(&description.all_bytes()),
                    check(&store)
                )
            }
            Err(refusal) => refusal.to_string(),
        };
        let reads = reading.reads.len();
        self.expected.push_str(&format!("{line} reads {reads}\n"));
    }

    fn push_bits(&mut self, opened: Format, bits: &Bits) {
        self.push(opened, &bits.bytes, bits.count);
    }
}

/// All edges first, then a small picture of each format with every cut and every flipped bit, then `count`
/// random pictures.
pub fn make(seed: u64, count: usize) -> Made {
    let mut random = Random::new(seed);
    let mut out = Collector {
        input: Vec::new(),
        expected: String::new(),
    };
    for edge in edges() {
        out.push(edge.opened, &edge.bytes, edge.count);
    }
    for format in [Format::SubQcif, Format::Qcif] {
        let small = maker::sampler(&mut random, format);
        let bits = maker::loose_picture(&mut random, &small);
        for place in 0..=bits.count {
            out.push_bits(format, &bits.cut(place));
        }
        for place in 0..bits.count {
            let mut flipped = bits.clone();
            flipped.flip(place);
            out.push_bits(format, &flipped);
        }
    }
    for number in 0..count {
        let format = match number % 4 {
            3 => Format::Cif,
            2 => Format::SubQcif,
            _ => Format::Qcif,
        };
        random_picture(&mut random, format, &mut out);
    }
    Made {
        input: out.input,
        expected: out.expected.into_bytes(),
    }
}

fn random_picture(random: &mut Random, format: Format, out: &mut Collector) {
    let manner = random.below(8);
    if manner == 7 {
        out.push_bits(format, &maker::noise(random, format));
        return;
    }
    let style = Style::any(random);
    let description = maker::description(random, format, style);
    let plain = writer::picture(&description, &mut Plain);
    match manner {
        0 => out.push_bits(format, &plain),
        1 => {
            // Other bits after the last one in a longer slice.
            let mut longer = plain.clone();
            for byte in random.bytes(4) {
                longer.field(u32::from(byte), 8);
            }
            out.push(format, &longer.bytes, plain.count);
        }
        2 | 3 => out.push_bits(format, &maker::loose_picture(random, &description)),
        _ => {
            let sound = if random.chance(2) {
                plain
            } else {
                maker::loose_picture(random, &description)
            };
            out.push_bits(format, &damaged(random, &sound));
        }
    }
}
