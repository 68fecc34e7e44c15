//! Demand 3 on random deliveries of both standards, and the receiver's refusals.

use reference::bits::Bits;
use reference::block::{blocks_of, seal, Block, Position, PICTURES};
use reference::clips::{self, Honesty};
use reference::description::Description;
use reference::format::Format;
use reference::kind::{Kind, Standard};
use reference::maker::{self, Style};
use reference::random::Random;
use reference::receiver::{Answer, Lent, Receiver, Stand};
use reference::refusal::Refusal;
use reference::stores::Which;
use reference::writer::write_picture;

/// A receiver with its buffers.
struct Bench {
    receiver: Receiver,
    collection: Vec<u8>,
    stores: [Vec<u8>; 2],
}

impl Bench {
    fn new(kind: impl Into<Kind>, clip: u16) -> Bench {
        let kind = kind.into();
        Bench {
            receiver: Receiver::open(kind, clip).unwrap(),
            collection: vec![5; kind.collection_length()],
            stores: [vec![6; kind.store_length()], vec![7; kind.store_length()]],
        }
    }

    fn receive(&mut self, block: &[u8]) -> Answer {
        let [first, second] = &mut self.stores;
        let mut lent = Lent {
            collection: &mut self.collection,
            first,
            second,
        };
        self.receiver.receive(block, &mut lent)
    }

    fn shown(&self, answer: &Answer) -> Option<&[u8]> {
        match self.receiver.shown(answer)? {
            Which::First => Some(&self.stores[0]),
            Which::Second => Some(&self.stores[1]),
        }
    }
}

/// In step at k means the sender's store after picture k.
#[test]
fn in_step_shows_what_the_sender_has() {
    let mut random = Random::new(11);
    let mut finished = 0;
    let mut lost = 0;
    let mut of_other_standard = 0;
    for session in 0..90 {
        // H.263's sub-QCIF and the two QCIFs more often than CIF.
        let kind = Kind::ALL[[0, 2, 3, 0, 2, 3, 1, 0, 3, 4][session % 10]];
        let first = clips::first_number(&mut random, 12);
        let sent = clips::clip(&mut random, kind, 7, first, 12);
        let mut blocks: Vec<_> = sent.iter().flat_map(|one| one.blocks.clone()).collect();
        let mut bench = Bench::new(kind, 7);
        if session % 3 == 0 {
            // Each block of the other standard too, which changes nothing.
            let other = |block: &[u8; 512]| clips::other_standards(block).try_into().unwrap();
            blocks = blocks
                .iter()
                .flat_map(|block| [other(block), *block])
                .collect();
        }
        for block in clips::delivery(&mut random, kind, &blocks, Honesty::Honest) {
            let answer = bench.receive(&block);
            match bench.receiver.stand() {
                Stand::InStep(k) => {
                    let store = &sent[(k - first) as usize].store;
                    assert!(bench.shown(&answer) == Some(&store[..]), "picture {k}");
                }
                _ => assert!(bench.shown(&answer).is_none()),
            }
            finished += usize::from(matches!(answer, Answer::Finished(..)));
            lost += usize::from(answer == Answer::Lost);
            of_other_standard += usize::from(answer == Answer::Refused(Refusal::at(5, 0)));
        }
    }
    assert!(finished > 150 && lost > 30, "{finished} {lost}");
    assert!(of_other_standard > 300, "{of_other_standard}");
}

/// All blocks in order, with older ones between: every picture is finished.
#[test]
fn older_blocks_between_do_no_harm() {
    let mut random = Random::new(12);
    let first = PICTURES - 10;
    let sent = clips::clip(&mut random, Format::Qcif, 1, first, 10);
    let mut bench = Bench::new(Format::Qcif, 1);
    let mut earlier: Vec<Vec<u8>> = Vec::new();
    for (number, one) in (first..).zip(&sent) {
        for block in &one.blocks {
            if !earlier.is_empty() && random.chance(2) {
                let again = &earlier[random.below(earlier.len())];
                assert!(matches!(bench.receive(again), Answer::Old(_)));
            }
            bench.receive(block);
            earlier.push(block.to_vec());
        }
        assert_eq!(bench.receiver.stand(), Stand::InStep(number));
    }
}

fn empty_bits() -> Bits {
    write_picture(&Description::empty(Format::Qcif), Format::Qcif).unwrap()
}

fn refresh_bits() -> Bits {
    let mut random = Random::new(13);
    let made = maker::description(&mut random, Format::Qcif, Style::Refresh);
    write_picture(&made, Format::Qcif).unwrap()
}

fn send(bench: &mut Bench, picture: u32, mark: bool, bits: &Bits) -> Vec<Answer> {
    blocks_of(Standard::H261, 7, picture, mark, bits)
        .iter()
        .map(|block| bench.receive(&block.to_bytes()))
        .collect()
}

#[test]
fn an_untrue_mark_is_24_either_way() {
    let mut bench = Bench::new(Format::Qcif, 7);
    // The mark without a refresh: begun, read, refused.
    let answers = send(&mut bench, 0, true, &empty_bits());
    assert_eq!(answers, [Answer::Refused(Refusal::plain(24))]);
    assert_eq!(bench.receiver.stand(), Stand::Lost);
    // The next refresh catches up; then a refresh without its mark.
    let answers = send(&mut bench, 1, true, &refresh_bits());
    assert!(matches!(answers.last(), Some(Answer::Finished(1, _))));
    let before = bench.stores.clone();
    let answers = send(&mut bench, 2, false, &refresh_bits());
    assert_eq!(answers.last(), Some(&Answer::Refused(Refusal::plain(24))));
    assert_eq!(bench.stores, before);
    assert_eq!(bench.receiver.stand(), Stand::Lost);
    // It wants (3, 0): (2, 0) is old, (3, 0) without a mark leaves it lost.
    let answers = send(&mut bench, 3, false, &empty_bits());
    assert_eq!(answers, [Answer::Lost]);
}

#[test]
fn a_refused_picture_loses_the_receiver() {
    let mut bench = Bench::new(Format::Qcif, 7);
    send(&mut bench, 0, true, &refresh_bits());
    let cut = empty_bits().cut(109);
    let answers = send(&mut bench, 1, false, &cut);
    assert_eq!(answers, [Answer::Refused(Refusal::at(3, 109))]);
    assert_eq!(bench.receiver.stand(), Stand::Lost);
    assert_eq!(bench.collection[..14], cut.bytes[..]);
    assert_eq!(send(&mut bench, 2, false, &empty_bits()), [Answer::Lost]);
}

/// Part 16 that isn't last is taken; a last one above the limit is refusal 2.
#[test]
fn more_parts_than_the_limit() {
    for (is_last, used) in [(false, 4000), (true, 4000), (true, 1537)] {
        let mut bench = Bench::new(Format::Qcif, 7);
        let mut answer = Answer::Lost;
        for part in 0..=16 {
            let block = Block {
                standard: Standard::H261,
                clip: 7,
                position: Position { picture: 0, part },
                is_last: is_last && part == 16,
                is_refresh: part == 0,
                bits_used: if part == 16 { used } else { 4000 },
                payload: [0; 500],
            };
            answer = bench.receive(&block.to_bytes());
        }
        let expected = if is_last {
            Answer::Refused(Refusal::plain(2))
        } else {
            Answer::Taken(Position {
                picture: 0,
                part: 16,
            })
        };
        assert_eq!(answer, expected);
    }
}

#[test]
fn wrong_lengths_are_1_and_show_nothing() {
    let mut bench = Bench::new(Format::Qcif, 7);
    send(&mut bench, 0, true, &refresh_bits());
    let answer = bench.receive(&[0; 511]);
    assert_eq!(answer, Answer::Refused(Refusal::plain(1)));
    assert_eq!(bench.shown(&answer), None);
    // A wrong sum leaves the picture to show.
    let answer = bench.receive(&[1; 512]);
    assert_eq!(answer, Answer::Refused(Refusal::plain(21)));
    assert!(bench.shown(&answer).is_some());
    bench.collection.pop();
    let answer = bench.receive(&[0; 512]);
    assert_eq!(answer, Answer::Refused(Refusal::plain(1)));
}

#[test]
fn each_rule_of_a_block() {
    let bits = refresh_bits();
    let good = blocks_of(Standard::H261, 7, 0, true, &bits)[0].to_bytes();
    let last = blocks_of(Standard::H261, 7, PICTURES - 1, false, &empty_bits())[0].to_bytes();
    assert!(Block::judge(&good, Format::Qcif).is_ok());
    assert!(Block::judge(&last, Format::Qcif).is_ok());
    let changed = |block: &[u8; 512], at: usize, byte: u8| {
        let mut bad = *block;
        bad[at] = byte;
        seal(&mut bad);
        Block::judge(&bad, Format::Qcif).err()
    };
    let against_rule = Some(Refusal::plain(22));
    assert_eq!(changed(&good, 2, 16), None); // picture 4096
    assert_eq!(changed(&good, 2, 255), None);
    assert_eq!(changed(&good, 508, 1), None); // picture 65,536
    assert_eq!(changed(&good, 508, 15), None);
    assert_eq!(changed(&good, 508, 16), against_rule); // picture 1,048,576
    assert_eq!(changed(&good, 508, 255), against_rule);
    assert_eq!(changed(&last, 4, 16), None);
    assert_eq!(changed(&last, 4, 17), against_rule);
    assert_eq!(changed(&good, 5, 6), None); // H.263
    assert_eq!(changed(&last, 5, 7), None);
    assert_eq!(changed(&last, 5, 8), against_rule);
    assert_eq!(changed(&good, 5, 0x82), against_rule);
    assert_eq!(changed(&good, 4, 1), against_rule); // refresh at part 1
    assert_eq!(changed(&good, 7, 0), against_rule); // 3840 bits, not last
    assert_eq!(changed(&last, 7, 0), against_rule); // no bits
    assert_eq!(changed(&last, 6, 0x10), against_rule); // above 4000
    assert_eq!(changed(&last, 507, 1), against_rule);
    assert_eq!(changed(&last, 508, 16), against_rule);
    assert_eq!(changed(&last, 509, 1), against_rule);
    let mut of_no_clip = good;
    of_no_clip[..2].copy_from_slice(&[0, 0]);
    seal(&mut of_no_clip);
    assert_eq!(Block::judge(&of_no_clip, Format::Qcif).err(), against_rule);
    assert_eq!(Receiver::open(Format::Cif, 0), Err(Refusal::plain(22)));
}

#[test]
fn a_number_is_a_high_byte_and_two_others() {
    let numbers = [
        (0, [0, 0, 0]),
        (4095, [15, 255, 0]),
        (4096, [16, 0, 0]),
        (65_535, [255, 255, 0]),
        (65_536, [0, 0, 1]),
        (1_048_575, [255, 255, 15]),
    ];
    for (number, [two, three, high]) in numbers {
        let bytes = blocks_of(Standard::H261, 7, number, false, &empty_bits())[0].to_bytes();
        assert_eq!(
            [bytes[2], bytes[3], bytes[508], bytes[509]],
            [two, three, high, 0]
        );
        let block = Block::judge(&bytes, Format::Qcif).unwrap();
        assert_eq!(block.position.picture, number);
    }
}

#[test]
fn after_the_last_picture_all_is_old() {
    let mut bench = Bench::new(Format::Qcif, 7);
    send(&mut bench, PICTURES - 1, true, &refresh_bits());
    assert_eq!(bench.receiver.stand(), Stand::InStep(PICTURES - 1));
    for number in [0, 4095, 4096, 65_535, 65_536, PICTURES - 1] {
        let answers = send(&mut bench, number, true, &refresh_bits());
        assert!(answers
            .iter()
            .all(|answer| matches!(answer, Answer::Old(_))));
    }
}
