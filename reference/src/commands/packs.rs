//! Raw streams for packing, and the frames of what was packed.

use reference::bits::Bits;
use reference::format::Format;
use reference::maker::{self, Style};
use reference::random::Random;
use reference::writer::{self, Plain};

use super::made::File;
use super::streams::{frames, pack, Frames};

/// The clip that every stream is packed as.
const CLIP: u16 = 7;

/// For each N: pack-FORMAT-N.input, .expected (blocks), .errors, and frames-FORMAT-N.expected.
pub fn files(seed: u64, count: usize) -> Vec<File> {
    let mut random = Random::new(seed);
    let mut files = Vec::new();
    for number in 0..count {
        let (format, name) = if matches!(number % 8, 3 | 6) {
            (Format::Cif, "cif")
        } else {
            (Format::Qcif, "qcif")
        };
        let raw = if number % 2 == 0 {
            tame_stream(&mut random, format)
        } else {
            rough_stream(&mut random, format)
        };
        let packed = pack(format.into(), CLIP, &raw.bytes).expect("a clip that isn't 0");
        let shown = frames(format.into(), &packed.blocks, Frames::Each);
        files.extend([
            (format!("pack-{name}-{number}.input"), raw.bytes),
            (format!("pack-{name}-{number}.expected"), packed.blocks),
            (
                format!("pack-{name}-{number}.errors"),
                packed.errors.into_bytes(),
            ),
            (format!("frames-{name}-{number}.expected"), shown),
        ]);
    }
    files
}

/// A stream of either kind, in QCIF.
pub fn any_stream(random: &mut Random) -> Bits {
    if random.chance(2) {
        tame_stream(random, Format::Qcif)
    } else {
        rough_stream(random, Format::Qcif)
    }
}

/// As a coder writes it: small levels, each picture from a byte on.
fn tame_stream(random: &mut Random, format: Format) -> Bits {
    let mut stream = Bits::default();
    for number in 0..8 {
        let style = if number == 0 {
            Style::TameRefresh
        } else {
            Style::Tame
        };
        let mut description = maker::description(random, format, style);
        description.temporal_reference = number;
        stream.append(&writer::picture(&description, &mut Plain));
        stream.fill();
    }
    stream
}

/// From any bit on, with fill between, written loosely, some pictures damaged.
fn rough_stream(random: &mut Random, format: Format) -> Bits {
    let mut stream = Bits::default();
    for number in 0..8 {
        let most = random.pick(&[1, 9, 300]);
        for _ in 0..random.below(most) {
            stream.push(false);
        }
        let style = if number == 0 && !random.chance(4) {
            Style::Refresh
        } else {
            Style::any(random)
        };
        let description = maker::description(random, format, style);
        let mut bits = maker::loose_picture(random, &description);
        if random.chance(4) {
            bits = maker::damaged(random, &bits);
        }
        stream.append(&bits);
    }
    stream
}
