//! The twelve examples of document 01's proof sheet, its lister example and its due time.

use reference::bits::Bits;
use reference::block::blocks_of;
use reference::description::{Description, Vector, INTRA};
use reference::format::Format;
use reference::kind::Standard;
use reference::lister::list;
use reference::random::Random;
use reference::reader::{landing, read};
use reference::reconstruction::{chroma_vector, loop_filter, reconstruct};
use reference::refusal::Refusal;
use reference::ticks::{due, Known};
use reference::transform::{dequantise, inverse_transform, Block};
use reference::writer::write_picture;

fn empty_picture() -> (Description, Bits) {
    let mut description = Description::empty(Format::Qcif);
    description.temporal_reference = 1;
    let bits = write_picture(&description, Format::Qcif).unwrap();
    (description, bits)
}

#[test]
fn p1_the_empty_picture() {
    let (description, bits) = empty_picture();
    assert_eq!(bits.count, 110);
    assert_eq!(bits.bytes[..4], [0x00, 0x01, 0x00, 0x86]);
    assert_eq!(
        read(&bits.bytes, 110, Format::Qcif),
        Ok(description.clone())
    );
    let reference = Random::new(1).bytes(Format::Qcif.store_length());
    assert_eq!(reconstruct(&description, &reference), reference);
}

#[test]
fn p2_cut_to_109_bits() {
    let (_, bits) = empty_picture();
    let answer = read(&bits.bytes, 109, Format::Qcif);
    assert_eq!(answer, Err(Refusal::at(3, 109)));
}

#[test]
fn p3_to_p5_the_dequantiser() {
    assert_eq!(dequantise(8, 1), 23);
    assert_eq!(dequantise(7, -2), -35);
    assert_eq!(dequantise(31, 127), 2047);
}

#[test]
fn p6_to_p8_the_transform_of_a_lone_dc() {
    for (dc, sample) in [(4, 1), (-4, 0), (-5, -1)] {
        let mut block: Block = [[0; 8]; 8];
        block[0][0] = dc;
        assert_eq!(inverse_transform(&block), [[sample; 8]; 8]);
    }
}

#[test]
fn p9_the_filter_inside_a_block() {
    let mut block: Block = [[0; 8]; 8];
    block[3][3] = 16;
    let mut expected: Block = [[0; 8]; 8];
    expected[2][2..5].copy_from_slice(&[1, 2, 1]);
    expected[3][2..5].copy_from_slice(&[2, 4, 2]);
    expected[4][2..5].copy_from_slice(&[1, 2, 1]);
    assert_eq!(loop_filter(&block), expected);
}

#[test]
fn p10_the_filter_at_a_corner() {
    let mut block: Block = [[0; 8]; 8];
    block[0][0] = 16;
    let filtered = loop_filter(&block);
    assert_eq!(filtered[0][..2], [16, 4]);
    assert_eq!(filtered[1][..2], [4, 1]);
}

#[test]
fn p11_chroma_of_minus_3() {
    let vector = Vector {
        horizontal: -3,
        vertical: 3,
    };
    let halved = Vector {
        horizontal: -1,
        vertical: 1,
    };
    assert_eq!(chroma_vector(vector), halved);
}

#[test]
fn p12_the_pair_of_16_from_0() {
    assert_eq!(landing(0, -16), None);
    let (_, empty) = empty_picture();
    let mut bits = empty.cut(58);
    bits.word("1 0000 0000 1");
    bits.word("0000 0011 001");
    let answer = read(&bits.bytes, bits.count, Format::Qcif);
    assert_eq!(answer, Err(Refusal::at(12, 68)));
}

/// A refresh picture of DC codes alone, which takes two parts.
fn two_part_picture() -> Bits {
    let mut description = Description::empty(Format::Qcif);
    for macroblock in &mut description.macroblocks {
        macroblock.kind = INTRA;
        for block in &mut macroblock.levels {
            block[0] = 100;
        }
    }
    let bits = write_picture(&description, Format::Qcif).unwrap();
    assert!((4001..=8000).contains(&bits.count));
    bits
}

#[test]
fn the_lister_example() {
    let blocks: Vec<_> = blocks_of(Standard::H261, 7, 0, true, &two_part_picture())
        .iter()
        .map(|block| block.to_bytes())
        .collect();
    let input = [blocks[0], blocks[1], blocks[0]].concat();
    let text = "0 taken 0.0\n1 picture 0 tick 0\n2 old 0.0\nend clip 7 in step at 0\n";
    assert_eq!(list(Format::Qcif, &input), text);
}

#[test]
fn the_listers_other_lines() {
    let blocks: Vec<_> = blocks_of(Standard::H261, 7, 0, true, &two_part_picture())
        .iter()
        .map(|block| block.to_bytes())
        .collect();
    assert_eq!(list(Format::Qcif, &[]), "end none\n");
    assert_eq!(list(Format::Qcif, &[1]), "0 short\nend none\n");
    // All zeros have the right sum, but clip 0.
    assert_eq!(list(Format::Qcif, &[0; 512]), "0 refused 22\nend none\n");
    let mut bad = blocks[0];
    bad[300] ^= 1;
    let mut input = bad.to_vec();
    input.extend(blocks[0]);
    input.extend([0; 5]);
    let text = "0 refused 21\n1 taken 0.0\n2 short\nend clip 7 catching\n";
    assert_eq!(list(Format::Qcif, &input), text);
    assert_eq!(list(Format::Qcif, &blocks[1]), "0 lost\nend clip 7 lost\n");
    let mut other = reference::block::Block::judge(&blocks[0], Format::Qcif).unwrap();
    other.clip = 8;
    let input = [blocks[0], other.to_bytes()].concat();
    assert_eq!(
        list(Format::Qcif, &input),
        "0 taken 0.0\n1 refused 23\nend clip 7 catching\n"
    );
}

#[test]
fn due_times() {
    assert_eq!(due(Known::Exact(3750)), Known::Exact(125.125));
    assert_eq!(due(Known::Estimated(3750)), Known::Estimated(125.125));
    assert_eq!(due(Known::Exact(0)), Known::Exact(0.0));
    assert_eq!(due(Known::Exact(1)), Known::Exact(1001.0 / 30000.0));
}
