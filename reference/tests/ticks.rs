//! Document 02, T-02: ticks through losses, on a clip of six pictures and on single ones.

use reference::bits::Bits;
use reference::block::blocks_of;
use reference::description::{Description, INTRA};
use reference::format::Format;
use reference::kind::Standard;
use reference::lister::list;
use reference::writer::write_picture;

/// A refresh in two parts.
fn refresh(temporal_reference: u8) -> Bits {
    let mut description = Description::empty(Format::Qcif);
    description.temporal_reference = temporal_reference;
    for macroblock in &mut description.macroblocks {
        macroblock.kind = INTRA;
        for block in &mut macroblock.levels {
            block[0] = 100;
        }
    }
    write_picture(&description, Format::Qcif).unwrap()
}

/// A picture with no macroblocks, in one part.
fn empty(temporal_reference: u8) -> Bits {
    let mut description = Description::empty(Format::Qcif);
    description.temporal_reference = temporal_reference;
    write_picture(&description, Format::Qcif).unwrap()
}

/// A part of a picture of clip 7: its number, whether it is a refresh, its TR.
fn part((picture, is_refresh, temporal_reference): (u32, bool, u8), part: usize) -> Vec<u8> {
    let bits = if is_refresh {
        refresh(temporal_reference)
    } else {
        empty(temporal_reference)
    };
    blocks_of(Standard::H261, 7, picture, is_refresh, &bits)[part]
        .to_bytes()
        .to_vec()
}

/// Pictures 0 to 5 with TRs 30, 1, 1, 4, 9, 11; 0, 2 and 4 are refreshes.
fn of_the_clip(picture: u32, at: usize) -> Vec<u8> {
    let references = [30, 1, 1, 4, 9, 11];
    let temporal_reference = references[picture as usize];
    part((picture, picture % 2 == 0, temporal_reference), at)
}

/// The lines of finished pictures, from "picture" on.
fn finished(blocks: &[Vec<u8>]) -> Vec<String> {
    let text = list(Format::Qcif, &blocks.concat());
    text.lines()
        .filter_map(|line| line.find("picture").map(|at| line[at..].to_string()))
        .collect()
}

fn delivered(places: &[(u32, usize)]) -> Vec<String> {
    let blocks: Vec<_> = places
        .iter()
        .map(|&(picture, at)| of_the_clip(picture, at))
        .collect();
    finished(&blocks)
}

/// All parts of these pictures.
fn whole(pictures: &[(u32, bool, u8)]) -> Vec<String> {
    let blocks: Vec<_> = pictures
        .iter()
        .flat_map(|&picture| (0..1 + usize::from(picture.1)).map(move |at| part(picture, at)))
        .collect();
    finished(&blocks)
}

#[test]
fn skipped_numbers_make_ticks_estimates() {
    let ticks = delivered(&[
        (0, 0),
        (0, 1),
        (2, 0),
        (2, 0),
        (2, 1),
        (3, 0),
        (4, 0),
        (5, 0),
    ]);
    assert_eq!(
        ticks,
        [
            "picture 0 tick 30",
            "picture 2 tick about 33",
            "picture 3 tick about 36"
        ]
    );
}

#[test]
fn a_loss_without_a_skipped_number_leaves_them_exact() {
    let ticks = delivered(&[(0, 0), (0, 1), (1, 0), (3, 0), (2, 0), (2, 1)]);
    assert_eq!(
        ticks,
        [
            "picture 0 tick 30",
            "picture 1 tick 33",
            "picture 2 tick 65"
        ]
    );
}

/// A difference of 0 counts as 32; estimated for ever, also after the next refresh.
#[test]
fn each_rule_in_turn() {
    let ticks = whole(&[
        (0, true, 30),
        (1, false, 1),
        (2, false, 1),
        (3, false, 0),
        (7, true, 9),
        (8, false, 12),
        (9, true, 12),
    ]);
    assert_eq!(
        ticks,
        [
            "picture 0 tick 30",
            "picture 1 tick 33",
            "picture 2 tick 65",
            "picture 3 tick 96",
            "picture 7 tick about 105",
            "picture 8 tick about 108",
            "picture 9 tick about 140"
        ]
    );
}

#[test]
fn a_first_picture_that_is_not_picture_0_is_estimated() {
    assert_eq!(whole(&[(4, true, 17)]), ["picture 4 tick about 17"]);
    assert_eq!(whole(&[(0, true, 17)]), ["picture 0 tick 17"]);
}

/// Picture 1 is refused by 24: picture 2 is counted from picture 0's tick.
#[test]
fn a_refused_picture_counts_for_nothing() {
    let untrue = blocks_of(Standard::H261, 7, 1, true, &empty(20))[0]
        .to_bytes()
        .to_vec();
    let mut blocks = vec![of_the_clip(0, 0), of_the_clip(0, 1), untrue];
    blocks.extend([part((2, true, 31), 0), part((2, true, 31), 1)]);
    let ticks = finished(&blocks);
    assert_eq!(ticks, ["picture 0 tick 30", "picture 2 tick about 31"]);
}
