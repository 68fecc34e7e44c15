//! Raw H.263 streams for packing, and the frames of what was packed.

use reference::bits::Bits;
use reference::h263::format::Format;
use reference::h263::maker::{self, Style};
use reference::h263::stream::{append, END_OF_SEQUENCE};
use reference::h263::writer::{self, Plain};
use reference::kind::Kind;
use reference::maker::damaged;
use reference::random::Random;

use super::super::made::File;
use super::super::streams::{frames, pack, Frames};

/// The clip that every stream is packed as.
const CLIP: u16 = 7;

/// Loose writing leads the others above the limit too often.
const STYLES: [Style; 8] = [
    Style::Empty,
    Style::Sparse,
    Style::Sparse,
    Style::Mixed,
    Style::Moving,
    Style::Refresh,
    Style::Refresh,
    Style::Dense,
];

/// For each N: pack-KIND-N.input, .expected (blocks), .errors, and .frames.
pub fn files(seed: u64, count: usize) -> Vec<File> {
    let mut random = Random::new(seed);
    let mut files = Vec::new();
    for number in 0..count {
        let format = match number % 8 {
            3 | 6 => Format::Cif,
            0 | 1 | 4 => Format::SubQcif,
            _ => Format::Qcif,
        };
        let kind = Kind::from(format);
        let raw = if number % 2 == 0 {
            tame_stream(&mut random, format)
        } else {
            rough_stream(&mut random, format)
        };
        let packed = pack(kind, CLIP, &raw.bytes).expect("a clip that isn't 0");
        let shown = frames(kind.size(), &packed.blocks, Frames::Each);
        let name = format!("pack-{}-{number}", kind.name());
        files.extend([
            (format!("{name}.input"), raw.bytes),
            (format!("{name}.expected"), packed.blocks),
            (format!("{name}.errors"), packed.errors.into_bytes()),
            (format!("{name}.frames"), shown),
        ]);
    }
    files
}

/// As a coder writes it: small levels, fill to the next byte, an end code at the end.
fn tame_stream(random: &mut Random, format: Format) -> Bits {
    let mut stream = Bits::default();
    for number in 0..8 {
        let style = if number == 0 {
            Style::TameRefresh
        } else {
            Style::Tame
        };
        let mut description = maker::description(random, format, style);
        description.temporal_reference = number;
        append(&mut stream, &writer::picture(&description, &mut Plain));
    }
    let mut end = Bits::default();
    end.word(END_OF_SEQUENCE);
    append(&mut stream, &end);
    stream
}

/// Something before the first picture, pictures written loosely, some damaged, end codes with something after
/// them, more zeros than fill may have, and pictures that don't begin at a byte.
fn rough_stream(random: &mut Random, format: Format) -> Bits {
    let mut stream = Bits::default();
    if random.chance(3) {
        let length = random.between(1, 40) as usize;
        for byte in random.bytes(length) {
            // No start code stands among ones.
            stream.field(u32::from(byte | 0x55), 8);
        }
    }
    for number in 0..8 {
        let style = if number == 0 && !random.chance(6) {
            Style::Refresh
        } else {
            random.pick(&STYLES)
        };
        let description = maker::description(random, format, style);
        let mut bits = maker::loose_picture(random, &description);
        let is_sound = !random.chance(5);
        if !is_sound {
            bits = damaged(random, &bits);
        }
        if number > 0 && random.chance(12) {
            stream.word("101");
        }
        match random.below(8) {
            // An end code right after the last macroblock, at any bit.
            0 if is_sound => bits.word(END_OF_SEQUENCE),
            1 | 2 => {
                let mut whole = Bits::default();
                append(&mut whole, &bits);
                whole.word(END_OF_SEQUENCE);
                bits = whole;
                for byte in random.bytes(number % 3) {
                    bits.field(u32::from(byte), 8);
                }
            }
            3 => bits.field(0, random.pick(&[7, 8, 24])),
            _ => {}
        }
        append(&mut stream, &bits);
    }
    stream
}
