//! Vaults for the lister.

use std::ops::Range;

use reference::block::{blocks_of, BLOCK_LENGTH, PICTURES};
use reference::clips::{self, Honesty};
use reference::description::{Description, INTRA};
use reference::format::Format;
use reference::kind::{Kind, Size, Standard};
use reference::lister::list;
use reference::random::Random;
use reference::writer::{self, Plain};

use super::made::File;

/// Document 01's example, other fixed vaults, and `count` random ones: list-N.input, list-N.expected.
pub fn files(seed: u64, count: usize) -> Vec<File> {
    let mut random = Random::new(seed);
    let mut vaults = vec![
        example(),
        Vec::new(),
        vec![0; BLOCK_LENGTH],
        vec![7; 100],
        // Ends catching, and lost.
        example()[..BLOCK_LENGTH].to_vec(),
        example()[BLOCK_LENGTH..2 * BLOCK_LENGTH].to_vec(),
        clips::edge_blocks(Format::Qcif, 7).concat(),
        // All of 4,100 pictures; past 65,535; up to the last one, and what is none.
        numbered(0..4_100),
        numbered(65_530..65_540),
        numbered(PICTURES - 5..PICTURES + 2),
    ];
    for _ in 0..count {
        vaults.push(vault(&mut random));
    }
    vaults
        .into_iter()
        .enumerate()
        .flat_map(|(number, input)| {
            let expected = list(Size::Qcif, &input).into_bytes();
            [
                (format!("list-{number}.input"), input),
                (format!("list-{number}.expected"), expected),
            ]
        })
        .collect()
}

/// A refresh picture in two parts.
fn grey() -> Description {
    let mut description = Description::empty(Format::Qcif);
    for macroblock in &mut description.macroblocks {
        macroblock.kind = INTRA;
        for block in &mut macroblock.levels {
            block[0] = 100;
        }
    }
    description
}

/// Picture 0 of clip 7 in two parts, the first part again.
fn example() -> Vec<u8> {
    let bits = writer::picture(&grey(), &mut Plain);
    let blocks: Vec<_> = blocks_of(Standard::H261, 7, 0, true, &bits)
        .iter()
        .map(|block| block.to_bytes())
        .collect();
    [blocks[0], blocks[1], blocks[0]].concat()
}

/// Pictures of these numbers in clip 7: a refresh, and then such in which nothing is sent; the first again.
fn numbered(numbers: Range<u32>) -> Vec<u8> {
    let empty = writer::picture(&Description::empty(Format::Qcif), &mut Plain);
    let refresh = writer::picture(&grey(), &mut Plain);
    let first = numbers.start;
    let pictures = numbers.map(|number| (number, number == first));
    pictures
        .chain([(first, true)])
        .flat_map(|(number, mark)| {
            let bits = if mark { &refresh } else { &empty };
            blocks_of(Standard::H261, 7, number, mark, bits)
        })
        .flat_map(|block| block.to_bytes())
        .collect()
}

fn vault(random: &mut Random) -> Vec<u8> {
    let honesties = [Honesty::Honest, Honesty::Forged];
    let input = arrived(random, Format::Qcif.into(), &honesties);
    with_odd_ends(random, input)
}

/// What arrives of a clip of this kind.
pub fn arrived(random: &mut Random, kind: Kind, honesties: &[Honesty]) -> Vec<u8> {
    let clip = random.between(1, 65_535) as u16;
    let pictures = random.between(2, 12) as usize;
    let first = clips::first_number(random, pictures);
    let sent = clips::clip(random, kind, clip, first, pictures);
    let blocks: Vec<[u8; BLOCK_LENGTH]> = sent.into_iter().flat_map(|one| one.blocks).collect();
    let honesty = random.pick(honesties);
    clips::delivery(random, kind, &blocks, honesty).concat()
}

/// Now and then noise before it and a short block behind.
pub fn with_odd_ends(random: &mut Random, mut input: Vec<u8>) -> Vec<u8> {
    if random.chance(3) {
        // Something before the clip is found.
        let mut noise = random.bytes(BLOCK_LENGTH);
        noise.extend(&input);
        input = noise;
    }
    if random.chance(3) {
        let length = random.between(1, BLOCK_LENGTH as i64 - 1) as usize;
        input.extend(random.bytes(length));
    }
    input
}
