//! Random H.263 descriptions, written and read back; cuts, additions, damage and noise; the reads.

use reference::bits::Bits;
use reference::h263::description::{Description, INTER, INTER_PICTURE, INTRA, INTRA_PICTURE};
use reference::h263::format::Format;
use reference::h263::maker::{self, Style};
use reference::h263::reader::{read, read_listed};
use reference::h263::reconstruction::reconstruct;
use reference::h263::refusal::Refusal;
use reference::h263::writer::{write, write_picture};
use reference::maker::damaged;
use reference::random::Random;

fn styled(seed: u64, times: usize, check: impl Fn(&mut Random, Format, Description)) {
    let mut random = Random::new(seed);
    for _ in 0..times {
        for format in Format::ALL {
            let style = Style::any(&mut random);
            let description = maker::description(&mut random, format, style);
            check(&mut random, format, description);
        }
    }
}

#[test]
fn what_was_written_reads_back_in_exactly_its_bits() {
    styled(1, 30, |random, format, description| {
        assert!(description.is_valid(format));
        let bits = write_picture(&description, format).unwrap();
        assert_eq!(
            read(&bits.bytes, bits.count, format).as_ref(),
            Ok(&description)
        );
        // The bits after N don't matter.
        let mut longer = bits.clone();
        for byte in random.bytes(3) {
            longer.field(u32::from(byte), 8);
        }
        assert_eq!(read(&longer.bytes, bits.count, format), Ok(description));
        // Whatever more is counted is left over.
        let more = 1 + random.below(24);
        if bits.count + more <= format.bit_limit() {
            let answer = read(&longer.bytes, bits.count + more, format);
            assert_eq!(answer, Err(Refusal::at(13, bits.count)));
        }
    });
}

#[test]
fn loose_writing_reads_the_same() {
    styled(2, 30, |random, format, description| {
        let bits = maker::loose_picture(random, &description);
        let answer = read(&bits.bytes, bits.count, format);
        if bits.count > format.bit_limit() {
            assert_eq!(answer, Err(Refusal::plain(2)));
        } else {
            assert_eq!(answer, Ok(description));
        }
    });
}

/// "Every proper beginning of an accepted picture is 3, everything longer is 13 at its length."
#[test]
fn beginnings_are_3_and_longer_ones_13() {
    let mut random = Random::new(9);
    for format in Format::ALL {
        for _ in 0..4 {
            let small = maker::sampler(&mut random, format);
            assert!(small.is_valid(format));
            let bits = maker::loose_picture(&mut random, &small);
            for count in 0..bits.count {
                let refusal = read(&bits.bytes, count, format).unwrap_err();
                assert_eq!((refusal.number, refusal.table), (3, 0));
                assert!(refusal.place <= count);
            }
            let mut longer = bits.clone();
            for _ in 0..40 {
                longer.push(random.chance(2));
                let answer = read(&longer.bytes, longer.count, format);
                assert_eq!(answer, Err(Refusal::at(13, bits.count)));
            }
        }
    }
}

/// T-13: at most N + 1 reads, one after another; of an accepted picture their widths add up to N.
#[test]
fn the_list_of_reads() {
    let mut random = Random::new(12);
    let mut accepted = 0;
    for number in 0..400 {
        let format = random.pick(&[Format::SubQcif, Format::Qcif]);
        let style = random.pick(&[Style::Sparse, Style::Mixed, Style::Empty, Style::Moving]);
        let description = maker::description(&mut random, format, style);
        let mut bits = maker::loose_picture(&mut random, &description);
        if number % 2 == 0 {
            bits = damaged(&mut random, &bits);
        }
        let reading = read_listed(&bits.bytes, bits.count, format);
        assert!(reading.reads.len() <= bits.count + 1);
        let mut place = 0;
        for read in &reading.reads {
            assert_eq!(read.place, place);
            place += read.width;
        }
        match reading.answer {
            Ok(_) => {
                accepted += 1;
                assert_eq!(place, bits.count);
                assert!(reading.reads.iter().all(|read| read.width > 0));
            }
            Err(refusal) => assert!(refusal.place <= place),
        }
    }
    assert!(accepted > 150);
}

/// Whatever is accepted is valid, and its description writes to no more bits and reads back.
#[test]
fn what_is_read_is_valid() {
    let mut random = Random::new(3);
    let mut accepted = 0;
    for _ in 0..400 {
        for format in [Format::SubQcif, Format::Qcif] {
            let style = random.pick(&[Style::Sparse, Style::Mixed, Style::Empty, Style::Moving]);
            let description = maker::description(&mut random, format, style);
            let bits = maker::loose_picture(&mut random, &description);
            let bad = damaged(&mut random, &bits);
            if let Ok(read_one) = read(&bad.bytes, bad.count, format) {
                accepted += 1;
                assert!(read_one.is_valid(format));
                let again = write_picture(&read_one, format).unwrap();
                assert!(again.count <= bad.count);
                let reference = random.bytes(format.store_length());
                let store = reconstruct(&read_one, &reference);
                assert_eq!(store.len(), format.store_length());
                assert_eq!(read(&again.bytes, again.count, format), Ok(read_one));
            }
        }
    }
    assert!(accepted > 10, "{accepted}");
}

#[test]
fn noise_is_refused_with_a_place_in_it() {
    let mut random = Random::new(4);
    let mut seen = [0; 15];
    for _ in 0..3000 {
        let format = random.pick(&Format::ALL);
        let bits = maker::noise(&mut random, format);
        // A row of ones after a header may be a picture of unsent macroblocks.
        if let Err(refusal) = read(&bits.bytes, bits.count, format) {
            assert!(refusal.place <= bits.count);
            assert_eq!(refusal.table != 0, refusal.number == 8);
            seen[usize::from(refusal.number)] += 1;
        }
    }
    for number in [3, 4, 8, 10, 11, 12] {
        assert!(seen[number] > 0, "{seen:?}");
    }
}

#[test]
fn bytes_of_any_sort_never_panic() {
    let mut random = Random::new(14);
    for _ in 0..3000 {
        let format = random.pick(&Format::ALL);
        let length = random.below(400);
        let mut bytes = random.bytes(length);
        if random.chance(2) && bytes.len() > 7 {
            // A good beginning: TR 1 and PTYPE of a random type.
            let mut begun = Bits::default();
            begun.word("0000 0000 0000 0000 1 00000 0000 0001 10 000");
            begun.word(format.source_format());
            begun.push(random.chance(2));
            begun.word("0000 00101 0 0");
            bytes[..6].copy_from_slice(&begun.bytes[..6]);
        }
        let count = random.below(8 * bytes.len() + 10);
        let answer = read(&bytes, count, format);
        assert_eq!(count > 8 * bytes.len(), answer == Err(Refusal::plain(2)));
    }
}

#[test]
fn the_limit_to_the_bit() {
    for format in Format::ALL {
        let mut random = Random::new(5);
        let mut exact = 0;
        let mut above = 0;
        for _ in 0..4 {
            let mut full = maker::description(&mut random, format, Style::Full);
            let bits = write_picture(&full, format).unwrap();
            assert_eq!(read(&bits.bytes, bits.count, format).as_ref(), Ok(&full));
            exact += usize::from(bits.count == format.bit_limit());
            maker::fill_up(&mut random, &mut full, format.bit_limit() + 8);
            match write_picture(&full, format) {
                Ok(again) => assert_eq!(again.count, bits.count),
                Err(refusal) => {
                    assert_eq!(refusal, Refusal::plain(32));
                    above += 1;
                }
            }
        }
        assert!(exact > 0 && above > 0, "{format:?} {exact} {above}");
    }
}

/// A picture of type INTRA is the same over any reference.
#[test]
fn a_refresh_needs_no_reference() {
    let mut random = Random::new(15);
    for format in Format::ALL {
        let description = maker::description(&mut random, format, Style::Refresh);
        assert!(description.is_refresh());
        let stores: Vec<_> = (0..2)
            .map(|_| reconstruct(&description, &random.bytes(format.store_length())))
            .collect();
        assert!(stores[0] == stores[1]);
    }
}

#[test]
fn the_lent_writer_touches_only_its_bytes() {
    styled(6, 4, |_, format, description| {
        let mut out = vec![0xA5; format.written_length()];
        let slices = (
            description.head(),
            description.macroblock_bytes(),
            description.level_bytes(),
        );
        let count = write(&slices.0, &slices.1, &slices.2, format, &mut out).unwrap();
        let bits = write_picture(&description, format).unwrap();
        assert_eq!(count, bits.count);
        assert_eq!(out[..bits.bytes.len()], bits.bytes);
        assert!(out[bits.bytes.len()..].iter().all(|&byte| byte == 0xA5));
        let again = Description::from_slices(&slices.0, &slices.1, &slices.2);
        assert_eq!(again.as_ref(), Ok(&description));
        let shorter = Description::from_slices(&slices.0[1..], &slices.1, &slices.2);
        assert_eq!(shorter, Err(Refusal::plain(1)));
    });
}

/// Each field out of its range makes the description invalid, and nothing else does.
#[test]
fn validity_field_by_field() {
    let format = Format::Qcif;
    let invalid = |change: &dyn Fn(&mut Description)| {
        let mut description = Description::empty(format);
        change(&mut description);
        assert_eq!(write_picture(&description, format), Err(Refusal::plain(31)));
    };
    let valid = |change: &dyn Fn(&mut Description)| {
        let mut description = Description::empty(format);
        change(&mut description);
        let bits = write_picture(&description, format).unwrap();
        assert_eq!(read(&bits.bytes, bits.count, format), Ok(description));
    };
    for time in [0, 1, 255] {
        valid(&|d| d.temporal_reference = time);
    }
    valid(&|d| d.indicators = 7);
    invalid(&|d| d.indicators = 8);
    for named in [1, 2, 3] {
        invalid(&|d| d.named_format = named);
    }
    invalid(&|d| d.picture_type = 2);
    // Type INTRA with an unsent macroblock.
    invalid(&|d| d.picture_type = INTRA_PICTURE);
    invalid(&|d| d.quantiser = 0);
    invalid(&|d| d.quantiser = 32);
    valid(&|d| d.quantiser = 31);
    for quantiser in 1..=31 {
        invalid(&|d| d.group_quantisers[0] = quantiser);
        valid(&|d| d.group_quantisers[8] = quantiser);
    }
    invalid(&|d| d.group_quantisers[1] = 32);
    invalid(&|d| d.macroblocks[98].kind = 5);
    // Unsent: everything 0.
    invalid(&|d| d.macroblocks[0].dquant = 1);
    invalid(&|d| d.macroblocks[40].vector.vertical = 1);
    invalid(&|d| d.macroblocks[0].levels[5][63] = 1);
    for kind in 1..=4 {
        let is_intra = kind <= 2;
        let has_dquant = kind % 2 == 0;
        let sent = |d: &mut Description| {
            let macroblock = &mut d.macroblocks[36];
            macroblock.kind = kind;
            macroblock.dquant = if has_dquant { -2 } else { 0 };
            if is_intra {
                for block in &mut macroblock.levels {
                    block[0] = -1;
                }
            }
        };
        // An INTER macroblock may be without a nonzero level.
        valid(&sent);
        for dquant in -3..=3 {
            let change = |d: &mut Description| {
                sent(d);
                d.macroblocks[36].dquant = dquant;
            };
            let allowed =
                has_dquant && dquant != 0 && dquant.abs() < 3 || !has_dquant && dquant == 0;
            if allowed {
                valid(&change);
            } else {
                invalid(&change);
            }
        }
        for component in [-33, -32, -1, 1, 31, 32] {
            let change = |d: &mut Description| {
                sent(d);
                d.macroblocks[36].vector.horizontal = component;
            };
            if !is_intra && (-32..=31).contains(&component) {
                valid(&change);
            } else {
                invalid(&change);
            }
        }
        for level in [-128, -127, 127] {
            let change = |d: &mut Description| {
                sent(d);
                d.macroblocks[36].levels[2][63] = level;
            };
            if level == -128 {
                invalid(&change);
            } else {
                valid(&change);
            }
        }
        if is_intra {
            for code in [0, -128] {
                invalid(&|d| {
                    sent(d);
                    d.macroblocks[36].levels[5][0] = code;
                });
            }
        }
    }
    // Out of the picture at its four sides, by a half sample.
    for (index, horizontal, vertical) in [(0, -1, 0), (0, 0, -1), (10, 1, 0), (98, 0, 1)] {
        invalid(&|d| {
            let macroblock = &mut d.macroblocks[index];
            macroblock.kind = INTER;
            macroblock.vector.horizontal = horizontal;
            macroblock.vector.vertical = vertical;
        });
    }
    // INTRA macroblocks alone make no refresh of a picture of type INTER; both are valid.
    for picture_type in [INTRA_PICTURE, INTER_PICTURE] {
        let mut description = Description::empty(format);
        description.picture_type = picture_type;
        for macroblock in &mut description.macroblocks {
            macroblock.kind = INTRA;
            macroblock.levels = [[100; 64]; 6];
        }
        assert!(description.is_valid(format));
        assert_eq!(description.is_refresh(), picture_type == INTRA_PICTURE);
        description.macroblocks[3].kind = INTER;
        assert_eq!(description.is_valid(format), picture_type == INTER_PICTURE);
    }
}
