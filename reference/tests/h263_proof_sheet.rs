//! The figures that T-04's readings give for a proof sheet, and hand-computed predictors.

use reference::bits::Bits;
use reference::description::Vector;
use reference::h263::description::{Description, Macroblock, INTER, INTRA};
use reference::h263::format::Format;
use reference::h263::reader::{read, read_listed};
use reference::h263::reconstruction::{half, quarter, reconstruct, updated};
use reference::h263::refusal::Refusal;
use reference::h263::vectors::{chroma_component, landing, median, predictor};
use reference::h263::writer::write_picture;
use reference::random::Random;

fn empty_picture() -> (Description, Bits) {
    let mut description = Description::empty(Format::Qcif);
    description.temporal_reference = 1;
    let bits = write_picture(&description, Format::Qcif).unwrap();
    (description, bits)
}

#[test]
fn the_empty_picture() {
    let (description, bits) = empty_picture();
    assert_eq!(bits.count, 149);
    assert_eq!(bits.bytes[..7], [0x00, 0x00, 0x80, 0x06, 0x0A, 0x01, 0x3F]);
    assert_eq!(
        read(&bits.bytes, 149, Format::Qcif),
        Ok(description.clone())
    );
    let reference = Random::new(1).bytes(Format::Qcif.store_length());
    assert_eq!(reconstruct(&description, &reference), reference);
}

#[test]
fn a_bit_less_and_a_bit_more() {
    let (_, mut bits) = empty_picture();
    let answer = read(&bits.bytes, 148, Format::Qcif);
    assert_eq!(answer, Err(Refusal::at(3, 148)));
    bits.push(true);
    let answer = read(&bits.bytes, 150, Format::Qcif);
    assert_eq!(answer, Err(Refusal::at(13, 149)));
}

#[test]
fn a_header_takes_29_bits() {
    let (mut description, _) = empty_picture();
    description.group_quantisers[3] = 1;
    let bits = write_picture(&description, Format::Qcif).unwrap();
    assert_eq!(bits.count, 178);
    assert_eq!(read(&bits.bytes, 178, Format::Qcif), Ok(description));
}

/// PSC, TR, PTYPE, PQUANT, CPM, PEI and 99 CODs; a header is four more.
#[test]
fn reads_of_the_empty_picture() {
    let (mut description, bits) = empty_picture();
    let reading = read_listed(&bits.bytes, bits.count, Format::Qcif);
    assert_eq!(reading.reads.len(), 105);
    description.group_quantisers[3] = 1;
    let bits = write_picture(&description, Format::Qcif).unwrap();
    let reading = read_listed(&bits.bytes, bits.count, Format::Qcif);
    assert_eq!(reading.reads.len(), 109);
    let widths: Vec<usize> = reading.reads.iter().map(|read| read.width).collect();
    assert_eq!(widths[..6], [22, 8, 13, 5, 1, 1]);
    assert_eq!(widths[39..43], [17, 5, 2, 5]);
    // A cut one ends with the read that failed, and N of 0 is the only case of N + 1.
    let reading = read_listed(&bits.bytes, 100, Format::Qcif);
    assert_eq!(reading.answer, Err(Refusal::at(3, 83 + 17)));
    assert_eq!(reading.reads.len(), 41);
    let reading = read_listed(&[], 0, Format::Qcif);
    assert_eq!(reading.reads.len(), 1);
}

#[test]
fn chroma_components() {
    assert_eq!(chroma_component(5), 3);
    assert_eq!(chroma_component(-1), -1);
    let table: Vec<i8> = (-8..=8).map(chroma_component).collect();
    assert_eq!(
        table,
        [-4, -3, -3, -3, -2, -1, -1, -1, 0, 1, 1, 1, 2, 3, 3, 3, 4]
    );
}

#[test]
fn interpolation_rounds_up_at_the_half() {
    assert_eq!(half(1, 2), 2);
    assert_eq!(quarter(0, 0, 0, 2), 1);
    assert_eq!(quarter(0, 0, 0, 1), 0);
}

#[test]
fn the_quantiser_is_cut() {
    assert_eq!(updated(31, 2), 31);
    assert_eq!(updated(30, 2), 31);
    assert_eq!(updated(2, -2), 1);
    assert_eq!(updated(1, -1), 1);
    assert_eq!(updated(17, -2), 15);
}

#[test]
fn differences_and_medians() {
    // Table 11's index is 32 more than the first difference.
    assert_eq!(landing(31, 32 + 1), -32);
    assert_eq!(landing(-32, 32 - 1), 31);
    assert_eq!(landing(5, 32 - 5), 0);
    assert_eq!(median([-3, 5, 1]), 1);
    assert_eq!(median([4, 4, 0]), 4);
}

/// Figure 11, each case with numbers. Macroblocks are INTER with the vector (v, -v).
#[test]
fn predictors() {
    let format = Format::Qcif;
    let mut macroblocks = vec![Macroblock::unsent(); format.macroblock_count()];
    let mut set = |index: usize, component: i8| {
        macroblocks[index].kind = INTER;
        macroblocks[index].vector = Vector {
            horizontal: component,
            vertical: -component,
        };
    };
    // Row 0: 2, 9, -4 and then nothing up to the last two columns.
    set(0, 2);
    set(1, 9);
    set(2, -4);
    set(9, 7);
    set(10, 20);
    // Row 1.
    set(11, 1);
    set(12, 6);
    set(20, 12);
    let at = |macroblocks: &[Macroblock], index, has_header| {
        let found = predictor(format, macroblocks, index, has_header);
        assert_eq!(found.vertical, -found.horizontal);
        found.horizontal
    };
    // The top row: MV1, also in the last column; nothing at the left.
    assert_eq!(at(&macroblocks, 0, false), 0);
    assert_eq!(at(&macroblocks, 1, false), 2);
    assert_eq!(at(&macroblocks, 10, false), 7);
    // Row 1, column 0: 0, 2, 9.
    assert_eq!(at(&macroblocks, 11, false), 2);
    assert_eq!(at(&macroblocks, 11, true), 0);
    // Column 1: 1, 9, -4. With a header MV1 alone.
    assert_eq!(at(&macroblocks, 12, false), 1);
    assert_eq!(at(&macroblocks, 12, true), 1);
    // Column 2: 6, -4, 0 (unsent).
    assert_eq!(at(&macroblocks, 13, false), 0);
    assert_eq!(at(&macroblocks, 13, true), 6);
    // The last column: 12, 20, 0.
    assert_eq!(at(&macroblocks, 21, false), 12);
    assert_eq!(at(&macroblocks, 21, true), 12);
    // Above to the right of the last column is zero, not MV1: 12, -20, 0.
    macroblocks[10].vector = Vector {
        horizontal: -20,
        vertical: 20,
    };
    assert_eq!(at(&macroblocks, 21, false), 0);
    // INTRA counts as zero, whatever stands beside it: 1, 0, -4.
    macroblocks[1].kind = INTRA;
    assert_eq!(at(&macroblocks, 12, false), 0);
    assert_eq!(at(&macroblocks, 2, false), 0);
}

/// A vector of (1, 1) over a reference whose samples say where they stand.
#[test]
fn half_samples_in_a_picture() {
    let format = Format::SubQcif;
    let mut description = Description::empty(format);
    let macroblock = &mut description.macroblocks[format.columns() + 1];
    macroblock.kind = INTER;
    macroblock.vector = Vector {
        horizontal: 3,
        vertical: -4,
    };
    let bits = write_picture(&description, format).unwrap();
    let read_back = read(&bits.bytes, bits.count, format).unwrap();
    let mut reference = vec![0; format.store_length()];
    for row in 0..96 {
        for column in 0..128 {
            reference[128 * row + column] = (2 * column) as u8;
        }
    }
    // Chroma: 3 half samples are one half there, -4 are one whole sample up.
    for row in 0..48 {
        for column in 0..64 {
            reference[128 * 96 + 64 * row + column] = (3 * row + column) as u8;
        }
    }
    let store = reconstruct(&read_back, &reference);
    // Y at (16, 16): one and a half to the right between 34 and 36.
    assert_eq!(store[128 * 16 + 16], 35);
    // CB at (8, 8): row 7, between columns 8 and 9: (29 + 30 + 1) / 2.
    assert_eq!(store[128 * 96 + 64 * 8 + 8], 30);
}
