//! Document 02, T-13: the number of reads, their widths, and the lines that tell of them.

use reference::bits::Bits;
use reference::block::{blocks_of, Block, Position};
use reference::description::{Description, FIL, INTRA, INTRA_MQUANT, MC_CBP};
use reference::format::Format;
use reference::kind::Standard;
use reference::lister::reads;
use reference::maker::{self, Style};
use reference::random::Random;
use reference::reader::{read_listed, Reading};
use reference::reads::total_width;
use reference::refusal::Refusal;
use reference::writer::{self, write_picture, Manner};

fn first_picture() -> Bits {
    let mut description = Description::empty(Format::Qcif);
    description.temporal_reference = 1;
    write_picture(&description, Format::Qcif).unwrap()
}

fn number(bits: &Bits, count: usize) -> usize {
    read_listed(&bits.bytes, count, Format::Qcif).reads.len()
}

#[test]
fn of_the_proof_sheet() {
    let bits = first_picture();
    let reading = read_listed(&bits.bytes, 110, Format::Qcif);
    let widths: Vec<usize> = reading.reads.iter().map(|read| read.width).collect();
    let mut expected = vec![20, 5, 6, 1];
    for _ in 0..3 {
        expected.extend([16, 4, 5, 1]);
    }
    assert_eq!(widths, expected);
    assert_eq!(total_width(&reading.reads), 110);
    // The last one fails.
    assert_eq!(number(&bits, 109), 16);
    assert_eq!(number(&bits, 0), 1);
    // The limit, and one more.
    let mut long = bits.clone();
    long.bytes.resize(8193, 0);
    assert_eq!(number(&long, 65_536), 17);
    assert_eq!(number(&long, 65_537), 0);
    assert_eq!(number(&bits, 8 * bits.bytes.len() + 1), 0);
}

/// A macroblock of each sort, counted by hand: one that precedes the first group's end, with stuffing and
/// spares.
#[test]
fn each_part_of_a_picture() {
    struct Generous;
    impl Manner for Generous {
        fn spares(&mut self) -> Vec<u8> {
            vec![1, 255]
        }
        fn stuffing(&mut self) -> usize {
            3
        }
        fn escapes(&mut self) -> bool {
            true
        }
    }
    let mut description = Description::empty(Format::Qcif);
    description.macroblocks[0].kind = INTRA_MQUANT;
    description.macroblocks[0].mquant = 9;
    for block in &mut description.macroblocks[0].levels {
        block[0] = 1;
    }
    description.macroblocks[0].levels[3][5] = -1;
    description.macroblocks[4].kind = FIL;
    description.macroblocks[7].kind = MC_CBP;
    description.macroblocks[7].levels[5][0] = 1;
    description.macroblocks[7].levels[5][63] = 127;
    let sent = [
        3 + 6 * 2 + 1,     // MBA, MTYPE, MQUANT; DC code and EOB, a coefficient
        2 + 2,             // MBA, MTYPE, two components
        2 + 2 + 1 + 2 + 1, // CBP, two coefficients, EOB
    ];
    let sent: usize = sent.iter().sum();
    let plain = writer::picture(&description, &mut writer::Plain);
    let reading = read_listed(&plain.bytes, plain.count, Format::Qcif);
    assert_eq!(reading.reads.len(), 16 + sent);
    assert_eq!(total_width(&reading.reads), plain.count);
    let loose = writer::picture(&description, &mut Generous);
    let reading = read_listed(&loose.bytes, loose.count, Format::Qcif);
    // Four times two spares with their bits, six times three words of stuffing; escapes are one read each.
    assert_eq!(reading.reads.len(), 16 + sent + 4 * 4 + 6 * 3);
    assert_eq!(total_width(&reading.reads), loose.count);
    assert_eq!(reading.answer, Ok(description));
}

/// The number is at most N + 1, the reads follow one another, and a refusal lies at the last of them, but for
/// a vector out of the picture, which lies at the last but one.
fn hold(count: usize, reading: &Reading) {
    let reads = &reading.reads;
    assert!(reads.len() <= count + 1);
    assert!(count == 0 || reads.len() <= count);
    let mut place = 0;
    for read in reads {
        assert_eq!(read.place, place);
        place += read.width;
    }
    match &reading.answer {
        Ok(_) => {
            assert_eq!(place, count);
            assert!(reads.iter().all(|read| read.width > 0));
        }
        Err(Refusal { number: 2, .. }) => assert!(reads.is_empty()),
        Err(refusal) => {
            let last = reads[reads.len() - 1];
            let is_at = |back: usize| reads[reads.len() - back].place == refusal.place;
            assert!(is_at(1) || refusal.number == 12 && is_at(2));
            assert_eq!(last.width == 0, matches!(refusal.number, 3 | 8));
            assert!(place <= count);
        }
    }
}

#[test]
fn of_random_pictures() {
    let mut random = Random::new(31);
    let mut seen = [0; 14];
    for number in 0..600 {
        let format = if number % 4 == 3 {
            Format::Cif
        } else {
            Format::Qcif
        };
        let style = Style::any(&mut random);
        let description = maker::description(&mut random, format, style);
        let mut bits = maker::loose_picture(&mut random, &description);
        match number % 4 {
            0 => {}
            1 => bits = maker::noise(&mut random, format),
            _ => bits = maker::damaged(&mut random, &bits),
        }
        let reading = read_listed(&bits.bytes, bits.count, format);
        hold(bits.count, &reading);
        let refusal = reading.answer.err().map_or(0, |refusal| refusal.number);
        seen[usize::from(refusal)] += 1;
    }
    assert!(seen[0] > 100 && seen[3] > 20 && seen[8] > 20, "{seen:?}");
}

#[test]
fn of_every_cut_and_every_flip() {
    let mut random = Random::new(32);
    let small = maker::sampler(&mut random, Format::Qcif);
    let bits = maker::loose_picture(&mut random, &small);
    for count in 0..=bits.count {
        hold(count, &read_listed(&bits.bytes, count, Format::Qcif));
    }
    for place in 0..bits.count {
        let mut flipped = bits.clone();
        flipped.flip(place);
        let reading = read_listed(&flipped.bytes, flipped.count, Format::Qcif);
        hold(flipped.count, &reading);
    }
}

/// A refresh of DC codes alone.
fn refresh() -> Bits {
    let mut description = Description::empty(Format::Qcif);
    for macroblock in &mut description.macroblocks {
        macroblock.kind = INTRA;
        for block in &mut macroblock.levels {
            block[0] = 100;
        }
    }
    write_picture(&description, Format::Qcif).unwrap()
}

#[test]
fn the_lines_of_a_vault() {
    let empty = first_picture();
    let cut = empty.cut(109);
    let mut wrong = empty.cut(58);
    wrong.word("0000 0010");
    let mut input = Vec::new();
    let mut push = |picture: u32, mark: bool, bits: &Bits| {
        for block in blocks_of(Standard::H261, 7, picture, mark, bits) {
            input.extend(block.to_bytes());
        }
    };
    push(0, true, &refresh()); // blocks 0 and 1
    push(1, false, &empty); // 2
    push(1, false, &empty); // 3, old
    push(2, false, &cut); // 4
    push(3, false, &empty); // 5, lost
    push(4, true, &wrong); // 6
    push(5, true, &empty); // 7, an untrue mark
    let part = |part: u8| Block {
        standard: Standard::H261,
        clip: 7,
        position: Position { picture: 6, part },
        is_last: part == 16,
        is_refresh: part == 0,
        bits_used: if part == 16 { 1600 } else { 4000 },
        payload: [0; 500],
    };
    input.extend((0..=16).flat_map(|number| part(number).to_bytes())); // 8 to 24
    input.extend([0; 512]); // 25, refused by 22
    input.push(7);
    let text = "1 picture 0 bits 6545 reads 1402\n\
        2 picture 1 bits 110 reads 16\n\
        4 refused 3 at 109 bits 109 reads 16\n\
        6 refused 8 at 58 table 1 bits 66 reads 9\n\
        7 refused 24 bits 110 reads 16\n\
        24 refused 2 bits 65600 reads 0\n\
        26 short\n\
        end clip 7 lost\n";
    assert_eq!(reads(Format::Qcif, &input), text);
    assert_eq!(reads(Format::Cif, &[]), "end none\n");
}
