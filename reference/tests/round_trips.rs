//! Random descriptions, written and read back; refusals of the writer and the sender.

use reference::block::PICTURES;
use reference::description::Description;
use reference::format::Format;
use reference::maker::{self, Style};
use reference::random::Random;
use reference::reader::read;
use reference::refusal::Refusal;
use reference::sender::Sender;
use reference::writer::{write, write_picture};

fn styled(seed: u64, times: usize, check: impl Fn(&mut Random, Format, Description)) {
    let mut random = Random::new(seed);
    for _ in 0..times {
        for format in Format::ALL {
            let style = Style::any(&mut random);
            let description = maker::description(&mut random, format, style);
            check(&mut random, format, description);
        }
    }
}

#[test]
fn what_was_written_reads_back_in_exactly_its_bits() {
    styled(1, 40, |random, format, description| {
        assert!(description.is_valid(format));
        let bits = write_picture(&description, format).unwrap();
        assert_eq!(
            read(&bits.bytes, bits.count, format).as_ref(),
            Ok(&description)
        );
        // The bits after N don't matter.
        let mut longer = bits.clone();
        for byte in random.bytes(3) {
            longer.field(u32::from(byte), 8);
        }
        assert_eq!(read(&longer.bytes, bits.count, format), Ok(description));
        // One bit less is another picture or none.
        let shorter = read(&bits.bytes, bits.count - 1, format);
        assert!(shorter.is_err());
    });
}

#[test]
fn loose_writing_reads_the_same() {
    styled(2, 40, |random, format, description| {
        let bits = maker::loose_picture(random, &description);
        let answer = read(&bits.bytes, bits.count, format);
        if bits.count > format.bit_limit() {
            assert_eq!(answer, Err(Refusal::plain(2)));
        } else {
            assert_eq!(answer, Ok(description));
        }
    });
}

/// Whatever is accepted is valid, and its description writes and reads back.
#[test]
fn what_is_read_is_valid() {
    let mut random = Random::new(3);
    let mut accepted = 0;
    for _ in 0..300 {
        for format in Format::ALL {
            let style = random.pick(&[Style::Sparse, Style::Mixed, Style::Empty]);
            let description = maker::description(&mut random, format, style);
            let bits = write_picture(&description, format).unwrap();
            let bad = maker::damaged(&mut random, &bits);
            if let Ok(read_one) = read(&bad.bytes, bad.count, format) {
                accepted += 1;
                assert!(read_one.is_valid(format));
                let again = write_picture(&read_one, format).unwrap();
                assert!(again.count <= bad.count);
                assert_eq!(read(&again.bytes, again.count, format), Ok(read_one));
            }
        }
    }
    assert!(accepted > 10);
}

/// A cut picture is refused by 3, or ends at an MBA place of the last group.
#[test]
fn a_cut_is_3_or_a_shorter_picture() {
    let mut random = Random::new(9);
    for format in Format::ALL {
        for _ in 0..5 {
            let small = maker::sampler(&mut random, format);
            assert!(small.is_valid(format));
            let bits = maker::loose_picture(&mut random, &small);
            for count in 0..bits.count {
                match read(&bits.bytes, count, format) {
                    Ok(shorter) => {
                        assert_eq!(shorter.group_quantisers, small.group_quantisers);
                        assert!(shorter.is_valid(format));
                    }
                    Err(refusal) => {
                        assert_eq!(refusal.number, 3);
                        assert!(refusal.place <= count);
                    }
                }
            }
        }
    }
}

#[test]
fn noise_is_refused_with_a_place_in_it() {
    let mut random = Random::new(4);
    for _ in 0..2000 {
        let format = random.pick(&Format::ALL);
        let bits = maker::noise(&mut random, format);
        let refusal = read(&bits.bytes, bits.count, format).unwrap_err();
        assert!(refusal.place <= bits.count);
    }
}

#[test]
fn the_limit_to_the_bit() {
    for format in Format::ALL {
        let mut random = Random::new(5);
        let mut exact = 0;
        let mut above = 0;
        for _ in 0..8 {
            let mut full = maker::description(&mut random, format, Style::Full);
            let count = write_picture(&full, format).unwrap().count;
            exact += usize::from(count == format.bit_limit());
            maker::fill_up(&mut random, &mut full, format.bit_limit() + 8);
            match write_picture(&full, format) {
                Ok(bits) => assert_eq!(bits.count, count),
                Err(refusal) => {
                    assert_eq!(refusal, Refusal::plain(32));
                    above += 1;
                }
            }
        }
        assert!(exact > 0 && above > 0, "{format:?} {exact} {above}");
    }
}

#[test]
fn the_lent_writer_touches_only_its_bytes() {
    styled(6, 6, |_, format, description| {
        let mut out = vec![0xA5; format.written_length()];
        let slices = (
            description.head(),
            description.macroblock_bytes(),
            description.level_bytes(),
        );
        let count = write(&slices.0, &slices.1, &slices.2, format, &mut out).unwrap();
        let bits = write_picture(&description, format).unwrap();
        assert_eq!(count, bits.count);
        assert_eq!(out[..bits.bytes.len()], bits.bytes);
        assert!(out[bits.bytes.len()..].iter().all(|&byte| byte == 0xA5));
        assert_eq!(
            Description::from_slices(&slices.0, &slices.1, &slices.2),
            Ok(description)
        );
    });
}

/// Each field out of its range makes the description invalid, and nothing else does.
#[test]
fn validity_field_by_field() {
    let format = Format::Qcif;
    let invalid = |change: &dyn Fn(&mut Description)| {
        let mut description = Description::empty(format);
        change(&mut description);
        assert_eq!(write_picture(&description, format), Err(Refusal::plain(31)));
    };
    invalid(&|d| d.temporal_reference = 32);
    invalid(&|d| d.indicators = 8);
    invalid(&|d| d.named_format = 1);
    invalid(&|d| d.group_quantisers[2] = 0);
    invalid(&|d| d.group_quantisers[0] = 32);
    invalid(&|d| d.macroblocks[98].kind = 11);
    // Unsent: everything 0.
    invalid(&|d| d.macroblocks[0].mquant = 1);
    invalid(&|d| d.macroblocks[40].vector.horizontal = 1);
    invalid(&|d| d.macroblocks[0].levels[5][63] = 1);
    for kind in 1..=10 {
        let sent = |d: &mut Description| {
            let macroblock = &mut d.macroblocks[36];
            macroblock.kind = kind;
            macroblock.mquant = u8::from(matches!(kind, 2 | 4 | 7 | 10));
            if kind <= 2 {
                for block in &mut macroblock.levels {
                    block[0] = -1;
                }
            } else if kind != 5 && kind != 8 {
                macroblock.levels[3][9] = 127;
            }
        };
        let mut description = Description::empty(format);
        sent(&mut description);
        assert!(description.is_valid(format), "type {kind}");
        invalid(&|d| {
            sent(d);
            d.macroblocks[36].mquant ^= 1;
        });
        invalid(&|d| {
            sent(d);
            d.macroblocks[36].levels[2][63] = -128;
        });
        let has_vector = kind >= 5;
        let mut moved = description.clone();
        moved.macroblocks[36].vector.horizontal = -15;
        moved.macroblocks[36].vector.vertical = 15;
        assert_eq!(moved.is_valid(format), has_vector);
        moved.macroblocks[36].vector.vertical = 16;
        assert!(!moved.is_valid(format));
        if kind <= 2 {
            for code in [0, -128] {
                invalid(&|d| {
                    sent(d);
                    d.macroblocks[36].levels[5][0] = code;
                });
            }
        } else {
            // No level where the type has CBP, one where it has none.
            invalid(&|d| {
                sent(d);
                let block = &mut d.macroblocks[36].levels[3];
                block[9] = if block[9] == 0 { 1 } else { 0 };
            });
        }
    }
}

#[test]
fn the_senders_refusals_in_order() {
    let format = Format::Qcif;
    assert_eq!(Sender::open(format, 0), Err(Refusal::plain(22)));
    let mut sender = Sender::open(format, 9).unwrap();
    let mut first = vec![1; format.store_length()];
    let mut second = vec![2; format.store_length()];
    let mut out = vec![3; format.sent_length()];
    let mut random = Random::new(8);
    let refresh = maker::description(&mut random, format, Style::Refresh);
    let mut send = |sender: &mut Sender, description: &Description| {
        let slices = (
            &description.head()[..],
            &description.macroblock_bytes()[..],
            &description.level_bytes()[..],
        );
        sender.send(slices, &mut first, &mut second, &mut out)
    };
    let empty = Description::empty(format);
    let mut invalid = empty.clone();
    invalid.indicators = 8;
    assert_eq!(send(&mut sender, &invalid), Err(Refusal::plain(31)));
    assert_eq!(send(&mut sender, &empty), Err(Refusal::plain(33)));
    let other = Description::empty(Format::Cif);
    assert_eq!(send(&mut sender, &other), Err(Refusal::plain(31)));
    assert_eq!(send(&mut sender, &refresh).unwrap().picture, 0);
    for number in 1..4100 {
        assert_eq!(send(&mut sender, &empty).unwrap().picture, number);
    }
    sender = sender.before(PICTURES - 1);
    assert_eq!(send(&mut sender, &empty).unwrap().picture, PICTURES - 1);
    assert_eq!(send(&mut sender, &empty), Err(Refusal::plain(34)));
    assert_eq!(send(&mut sender, &invalid), Err(Refusal::plain(34)));
}
