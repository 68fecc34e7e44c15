//! Descriptions, valid and not, and what the writer makes of them.

use reference::check::check;
use reference::description::Description;
use reference::format::Format;
use reference::maker::{self, Style};
use reference::random::Random;
use reference::writer::write;

use super::made::Made;
use super::Slices;

/// What every byte of the output holds before a call.
pub const BEFORE: u8 = 165;

pub fn make(seed: u64, count: usize) -> Made {
    let mut random = Random::new(seed);
    let mut input = Vec::new();
    let mut expected = String::new();
    for number in 0..count {
        let (opened, slices, length) = item(&mut random, number);
        input.push(opened.number());
        super::put32(&mut input, length);
        slices.put(&mut input);
        let mut out = vec![BEFORE; length];
        let (head, macroblocks, levels) = slices.lent();
        let line = match write(head, macroblocks, levels, opened, &mut out) {
            Ok(bits) => format!("written {bits} {}", check(&out)),
            Err(refusal) => format!("{refusal} {}", check(&out)),
        };
        expected.push_str(&line);
        expected.push('\n');
    }
    Made {
        input,
        expected: expected.into_bytes(),
    }
}

fn item(random: &mut Random, number: usize) -> (Format, Slices, usize) {
    let format = if number % 5 == 4 {
        Format::Cif
    } else {
        Format::Qcif
    };
    let style = Style::any(random);
    let mut length = format.written_length();
    let mut opened = format;
    let mut description = maker::description(random, format, style);
    match number % 7 {
        3 => description = near_limit(random, format),
        4 => spoil(random, &mut description),
        5 => {
            // Of the other format, or said to be.
            if random.chance(2) {
                description.named_format ^= 1;
            } else {
                opened = random.pick(&Format::ALL);
                length = opened.written_length();
            }
        }
        _ => {}
    }
    let mut slices = Slices::of(&description);
    if number % 7 == 6 {
        match random.below(5) {
            0 => slices.head.push(1),
            1 => slices.macroblocks.truncate(slices.macroblocks.len() - 1),
            2 => slices.levels.truncate(slices.levels.len() - 64),
            3 => length -= 1,
            _ => length += 1,
        }
    }
    (opened, slices, length)
}

/// At the limit or somewhat above it.
pub fn near_limit(random: &mut Random, format: Format) -> Description {
    if random.chance(3) {
        return maker::unlimited_description(random, format, Style::DenseRefresh);
    }
    let mut full = maker::description(random, format, Style::Full);
    let beyond = random.pick(&[0, 8, 9, 11]);
    maker::fill_up(random, &mut full, format.bit_limit() + beyond);
    full
}

/// Changes one field to anything; mostly that makes the description invalid.
pub fn spoil(random: &mut Random, description: &mut Description) {
    let any = random.byte();
    let index = random.below(description.macroblocks.len());
    let macroblock = &mut description.macroblocks[index];
    match random.below(9) {
        0 => description.temporal_reference = any,
        1 => description.indicators = any,
        2 => description.named_format = any,
        3 => {
            let group = random.below(description.group_quantisers.len());
            description.group_quantisers[group] = random.pick(&[0, 1, 31, 32, any]);
        }
        4 => macroblock.kind = random.pick(&[0, 1, 2, 3, 4, 5, 6, 7, 8, 9, 10, 11, any]),
        5 => macroblock.mquant = random.pick(&[0, 1, 31, 32, any]),
        6 => macroblock.vector.horizontal = random.pick(&[-16, -15, 15, 16, any as i8]),
        7 => macroblock.vector.vertical = random.pick(&[-16, -15, 15, 16, any as i8]),
        _ => {
            let block = &mut macroblock.levels[random.below(6)];
            block[random.below(64)] = random.pick(&[-128, 0, 1, any as i8]);
        }
    }
}
