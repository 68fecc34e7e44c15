//! H.263 descriptions, valid and not, and what the writer makes of them.

use reference::check::check;
use reference::h263::description::Description;
use reference::h263::format::Format;
use reference::h263::maker::{self, Style};
use reference::h263::writer::write;
use reference::random::Random;

use super::super::made::Made;
use super::super::write::BEFORE;
use super::super::{put32, Slices};
use super::slices_of;

pub fn make(seed: u64, count: usize) -> Made {
    let mut random = Random::new(seed);
    let mut input = Vec::new();
    let mut expected = String::new();
    for number in 0..count {
        let (opened, slices, length) = item(&mut random, number);
        input.push(opened.kind());
        put32(&mut input, length);
        slices.put(&mut input);
        let mut out = vec![BEFORE; length];
        let (head, macroblocks, levels) = slices.lent();
        let line = match write(head, macroblocks, levels, opened, &mut out) {
            Ok(bits) => format!("written {bits} {}", check(&out)),
            Err(refusal) => format!("{refusal} {}", check(&out)),
        };
        expected.push_str(&line);
        expected.push('\n');
    }
    Made {
        input,
        expected: expected.into_bytes(),
    }
}

fn item(random: &mut Random, number: usize) -> (Format, Slices, usize) {
    let format = match number % 5 {
        4 => Format::Cif,
        3 => Format::SubQcif,
        _ => Format::Qcif,
    };
    let style = Style::any(random);
    let mut length = format.written_length();
    let mut opened = format;
    let mut description = maker::description(random, format, style);
    match number % 7 {
        3 => description = near_limit(random, format),
        4 => spoil(random, &mut description),
        5 => {
            // Of another format, or said to be.
            if random.chance(2) {
                description.named_format = random.pick(&[0, 1, 2, 3]);
            } else {
                opened = random.pick(&Format::ALL);
                length = opened.written_length();
            }
        }
        _ => {}
    }
    let mut slices = slices_of(&description);
    if number % 7 == 6 {
        match random.below(5) {
            0 => slices.head.push(1),
            1 => slices.macroblocks.truncate(slices.macroblocks.len() - 1),
            2 => slices.levels.truncate(slices.levels.len() - 64),
            3 => length -= 1,
            _ => length += 1,
        }
    }
    (opened, slices, length)
}

/// At the limit or somewhat above it.
pub fn near_limit(random: &mut Random, format: Format) -> Description {
    if random.chance(3) {
        return maker::unlimited_description(random, format, Style::DenseRefresh);
    }
    let mut full = maker::description(random, format, Style::Full);
    let beyond = random.pick(&[0, 1, 8, 9, 11]);
    maker::fill_up(random, &mut full, format.bit_limit() + beyond);
    full
}

/// Changes one field to anything; mostly that makes the description invalid.
pub fn spoil(random: &mut Random, description: &mut Description) {
    let any = random.byte();
    let index = random.below(description.macroblocks.len());
    let group = random.below(description.group_quantisers.len());
    let macroblock = &mut description.macroblocks[index];
    match random.below(11) {
        0 => description.temporal_reference = any,
        1 => description.indicators = random.pick(&[7, 8, any]),
        2 => description.named_format = any,
        3 => description.picture_type ^= random.pick(&[1, 1, 2, any]),
        4 => description.quantiser = random.pick(&[0, 31, 32, any]),
        5 => description.group_quantisers[group] = random.pick(&[0, 1, 31, 32, any]),
        6 => macroblock.kind = random.pick(&[0, 1, 2, 3, 4, 5, any]),
        7 => macroblock.dquant = random.pick(&[-3, -2, -1, 0, 1, 2, 3, any as i8]),
        8 => macroblock.vector.horizontal = random.pick(&[-33, -32, -1, 1, 31, 32, any as i8]),
        9 => macroblock.vector.vertical = random.pick(&[-33, -32, -1, 1, 31, 32, any as i8]),
        _ => {
            let block = &mut macroblock.levels[random.below(6)];
            block[random.below(64)] = random.pick(&[-128, 0, 1, any as i8]);
        }
    }
}
