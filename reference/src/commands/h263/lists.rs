//! Vaults of both standards for the lister, in all three sizes.

use reference::block::{blocks_of, seal, BLOCK_LENGTH, PICTURES};
use reference::clips::{self, Honesty};
use reference::coding::Picture;
use reference::format::Format as Format261;
use reference::kind::{Kind, Size, Standard};
use reference::lister::list;
use reference::random::Random;

use super::super::lists::{arrived, with_odd_ends};
use super::super::made::File;

/// Fixed vaults of each size, and `count` random ones: list-SIZE-N.input, list-SIZE-N.expected.
pub fn files(seed: u64, count: usize) -> Vec<File> {
    let mut random = Random::new(seed);
    let mut vaults = Vec::new();
    for size in Size::ALL {
        let fixed = fixed(&mut random, size);
        vaults.extend(fixed.into_iter().map(|input| (size, input)));
    }
    for number in 0..count {
        let size = Size::ALL[[0, 1, 0, 1, 0, 2][number % 6]];
        vaults.push((size, vault(&mut random, size)));
    }
    vaults
        .into_iter()
        .enumerate()
        .flat_map(|(number, (size, input))| {
            let expected = list(size, &input).into_bytes();
            let name = format!("list-{}-{number}", size.name());
            [
                (format!("{name}.input"), input),
                (format!("{name}.expected"), expected),
            ]
        })
        .collect()
}

/// The kinds of this size, H.263's first.
fn kinds(size: Size) -> Vec<Kind> {
    [Standard::H263, Standard::H261]
        .into_iter()
        .filter_map(|standard| Kind::of(standard, size))
        .collect()
}

/// Pictures of these numbers in clip 7: a refresh, and then such in which nothing is sent; the first again.
fn numbered(random: &mut Random, kind: Kind, numbers: &[u32]) -> Vec<[u8; BLOCK_LENGTH]> {
    let refresh = clips::refresh_description(random, kind, false);
    let refresh = refresh.write(kind).expect("a picture within the limit");
    let empty = Picture::empty(kind).write(kind).expect("a small picture");
    let pictures = numbers.iter().map(|&number| (number, number == numbers[0]));
    pictures
        .chain([(numbers[0], true)])
        .flat_map(|(number, mark)| {
            let bits = if mark { &refresh } else { &empty };
            blocks_of(kind.standard(), 7, number, mark, bits)
        })
        .map(|block| block.to_bytes())
        .collect()
}

fn fixed(random: &mut Random, size: Size) -> Vec<Vec<u8>> {
    let of_h263 = Kind::from(size.of_h263());
    let own = numbered(random, of_h263, &[0, 1, 2]);
    // There is no sub-QCIF of H.261: QCIF's blocks have its number of parts.
    let of_h261 = size.of_h261().unwrap_or(Format261::Qcif);
    let other = numbered(random, of_h261.into(), &[0, 1, 2]);
    let marked = |mark: u8| {
        let mut block = own[0];
        block[5] |= mark;
        seal(&mut block);
        block.to_vec()
    };
    let turned: Vec<u8> = own.iter().flat_map(clips::other_standards).collect();
    let in_turn: Vec<u8> = own
        .iter()
        .zip(&other)
        .flat_map(|(one, two)| [*one, *two].concat())
        .collect();
    vec![
        Vec::new(),
        vec![7; 100],
        own.concat(),
        other.concat(),
        [own.concat(), other.concat()].concat(),
        [other.concat(), own.concat()].concat(),
        in_turn,
        // Every block of the other standard, in which it is no picture, first; then as it was.
        [turned.clone(), own.concat()].concat(),
        [own[0].to_vec(), turned, own[1..].concat()].concat(),
        // Marks above 7 name no standard.
        [marked(8), marked(64), marked(128), other.concat()].concat(),
        clips::edge_blocks(of_h263, 7).concat(),
        numbered(random, of_h263, &[65_534, 65_535, 65_536, 65_537]).concat(),
        numbered(
            random,
            of_h263,
            &[PICTURES - 3, PICTURES - 2, PICTURES - 1, PICTURES],
        )
        .concat(),
    ]
}

/// A clip of either standard, some with another one mixed in.
fn vault(random: &mut Random, size: Size) -> Vec<u8> {
    let kind = random.pick(&kinds(size));
    let honesties = [Honesty::Honest, Honesty::Forged, Honesty::Mixed];
    let mut input = arrived(random, kind, &honesties);
    if random.chance(4) {
        // Of any standard, even where the size has none of it.
        let kind = random.pick(&[Kind::from(size.of_h263()), Format261::Qcif.into()]);
        let more = arrived(random, kind, &honesties);
        let at = BLOCK_LENGTH * random.below(input.len() / BLOCK_LENGTH + 1);
        input.splice(at..at, more);
    }
    with_odd_ends(random, input)
}
