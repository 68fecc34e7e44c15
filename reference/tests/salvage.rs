//! Document 02, T-09: the two examples of the readings, and the theorems on random damage, both standards.

use std::collections::BTreeMap;

use reference::bits::Bits;
use reference::block::{blocks_of, seal, Block, BLOCK_LENGTH, PAYLOAD_BITS, PICTURES};
use reference::clips::{self, Honesty};
use reference::description::{Description, INTRA};
use reference::format::Format;
use reference::kind::{Kind, Standard};
use reference::lister::list;
use reference::random::Random;
use reference::receiver::{Answer, Lent, Receiver, Stand};
use reference::refusal::Refusal;
use reference::salvage::{salvage, salvaged, Entry};
use reference::stores::Which;
use reference::ticks::Known;
use reference::writer::write_picture;

const QCIF: Kind = Kind::H261(Format::Qcif);

/// Pictures 0 to 5 of clip 7 with TRs 30, 1, 1, 4, 9, 11; 0, 2 and 4 are refreshes in two parts.
fn part(picture: u32, at: usize) -> [u8; BLOCK_LENGTH] {
    let is_refresh = picture % 2 == 0;
    let mut description = Description::empty(Format::Qcif);
    description.temporal_reference = [30, 1, 1, 4, 9, 11][picture as usize];
    if is_refresh {
        for macroblock in &mut description.macroblocks {
            macroblock.kind = INTRA;
            for block in &mut macroblock.levels {
                block[0] = 100;
            }
        }
    }
    let bits = write_picture(&description, Format::Qcif).unwrap();
    let blocks = blocks_of(Standard::H261, 7, picture, is_refresh, &bits);
    assert_eq!(blocks.len(), 1 + usize::from(is_refresh));
    blocks[at].to_bytes()
}

fn delivered(places: &[(u32, usize)]) -> Vec<u8> {
    let blocks = places.iter().map(|&(picture, at)| part(picture, at));
    blocks.collect::<Vec<_>>().concat()
}

fn lines(log: &[Entry]) -> String {
    log.iter().map(|entry| format!("{entry}\n")).collect()
}

#[test]
fn a_clip_with_a_hole() {
    let input = delivered(&[
        (0, 0),
        (0, 1),
        (2, 0),
        (2, 0),
        (2, 1),
        (3, 0),
        (4, 0),
        (5, 0),
    ]);
    let (blocks, log) = salvaged(QCIF, 7, 9, &input).unwrap();
    let text = "1 kept 0 as 0\n3 dropped old 2.0\n4 skipped 1 to 1, ticks restart\n4 kept 2 as 1\n\
        5 kept 3 as 2\n6 dropped taken 4.0\n7 dropped lost\n";
    assert_eq!(lines(&log), text);
    let text = "0 taken 0.0\n1 picture 0 tick 30\n2 taken 1.0\n3 picture 1 tick 33\n\
        4 picture 2 tick 36\nend clip 9 in step at 2\n";
    assert_eq!(list(Format::Qcif, &blocks), text);
}

/// After a loss with no number skipped there is no run.
#[test]
fn a_loss_without_a_skipped_number() {
    let input = delivered(&[(0, 0), (0, 1), (1, 0), (3, 0), (2, 0), (2, 1)]);
    let (blocks, log) = salvaged(QCIF, 7, 7, &input).unwrap();
    let text = "1 kept 0 as 0\n2 kept 1 as 1\n3 dropped lost\n5 kept 2 as 2\n";
    assert_eq!(lines(&log), text);
    let kept = delivered(&[(0, 0), (0, 1), (1, 0), (2, 0), (2, 1)]);
    assert!(blocks == kept);
}

/// A run before the first kept picture; refused blocks with what refused them.
#[test]
fn every_kind_of_line() {
    let empty = write_picture(&Description::empty(Format::Qcif), Format::Qcif).unwrap();
    let of = |clip: u16, picture: u32, mark: bool, bits: &Bits| {
        blocks_of(Standard::H261, clip, picture, mark, bits)[0].to_bytes()
    };
    let mut wrong = empty.cut(58);
    wrong.word("0000 0010");
    let mut damaged = part(2, 0);
    damaged[100] ^= 1;
    let mut of_h263 = part(3, 0);
    of_h263[5] |= 4;
    seal(&mut of_h263);
    let input = [
        damaged,
        [0; BLOCK_LENGTH],
        of(8, 2, true, &empty),
        of_h263,
        of(7, 1, true, &wrong),
        part(2, 0),
        part(2, 1),
        of(7, 3, true, &empty),
        part(4, 0),
        part(4, 1),
    ];
    let (_, log) = salvaged(QCIF, 7, 1, &input.concat()).unwrap();
    let text = "0 dropped refused 21\n1 dropped refused 22\n2 dropped refused 23\n\
        3 dropped refused 5 at 0\n4 dropped refused 8 at 58 table 1\n\
        6 skipped 0 to 1, ticks restart\n6 kept 2 as 0\n7 dropped refused 24\n\
        9 skipped 3 to 3, ticks restart\n9 kept 4 as 1\n";
    assert_eq!(lines(&log), text);
}

const IDLE: Entry = Entry::Kept {
    block: 77,
    old: 77,
    new: 77,
};

/// 1 for another length or a part block, 22 for a clip number 0, then 43; nothing is written then, and what
/// lies after is untouched.
#[test]
fn refusals_in_order() {
    let good = delivered(&[(0, 0), (0, 1), (5, 0)]);
    let nothing_kept = delivered(&[(0, 0), (5, 0)]);
    let try_it = |clips: (u16, u16), list: &[u8], out_length: usize, entries: usize| {
        let mut out = vec![165; out_length];
        let mut log = vec![IDLE; entries];
        let answer = salvage(QCIF, clips, list, &mut out, &mut log);
        (answer.map_err(|refusal| refusal.number), out, log)
    };
    let is_untouched = |out: &[u8], log: &[Entry]| {
        out.iter().all(|&byte| byte == 165) && log.iter().all(|&entry| entry == IDLE)
    };
    for (clips, list, out_length, entries, number) in [
        ((7, 9), &good[..], 1535, 6, 1),
        ((7, 9), &good, 1537, 6, 1),
        ((7, 9), &good, 1536, 5, 1),
        ((7, 9), &good, 1536, 7, 1),
        ((7, 9), &good[..1535], 1535, 4, 1),
        ((0, 0), &good[..1535], 1535, 4, 1),
        ((0, 9), &good, 1536, 6, 22),
        ((7, 0), &good, 1536, 6, 22),
        ((0, 9), &nothing_kept, 1024, 4, 22),
        ((7, 9), &nothing_kept, 1024, 4, 43),
        ((8, 9), &good, 1536, 6, 43),
        ((7, 9), &[], 0, 0, 43),
        ((7, 0), &[], 0, 0, 22),
    ] {
        let (answer, out, log) = try_it(clips, list, out_length, entries);
        assert_eq!(answer.err(), Some(number));
        assert!(is_untouched(&out, &log));
    }
    let (answer, out, log) = try_it((7, 9), &good, 1536, 6);
    let answer = answer.unwrap();
    assert_eq!((answer.blocks, answer.entries), (2, 2));
    assert!(is_untouched(&out[1024..], &log[2..]));
    assert_eq!(lines(&log[..2]), "1 kept 0 as 0\n2 dropped lost\n");
}

/// What a fresh receiver finishes: for each picture its number in order, its tick and its samples; and every
/// answer.
struct Run {
    answers: Vec<Answer>,
    finished: Vec<(u32, Known<u32>, Vec<u8>)>,
    /// The bits of each finished picture.
    bits: Vec<Bits>,
    stand: Stand,
}

fn run(kind: Kind, clip: u16, list: &[u8]) -> Run {
    let mut receiver = Receiver::open(kind, clip).unwrap();
    let mut collection = vec![5; kind.collection_length()];
    let mut stores = [vec![6; kind.store_length()], vec![7; kind.store_length()]];
    let mut answers = Vec::new();
    let mut finished = Vec::new();
    let mut bits = Vec::new();
    for block in list.chunks(BLOCK_LENGTH) {
        let [first, second] = &mut stores;
        let mut lent = Lent {
            collection: &mut collection,
            first,
            second,
        };
        let (answer, read) = receiver.receive_counting(block, &mut lent);
        answers.push(answer);
        if let Answer::Finished(picture, tick) = answer {
            let shown = match receiver.shown(&answer).unwrap() {
                Which::First => &stores[0],
                Which::Second => &stores[1],
            };
            finished.push((picture, tick, shown.clone()));
            let whole = Bits {
                bytes: collection.clone(),
                count: 8 * collection.len(),
            };
            bits.push(whole.cut(read.unwrap().bits));
        }
    }
    Run {
        answers,
        finished,
        bits,
        stand: receiver.stand(),
    }
}

/// The theorems that T-09 names, of one list.
fn hold(kind: Kind, old: u16, new: u16, list: &[u8]) -> usize {
    let before = run(kind, old, list);
    let (blocks, log) = match salvaged(kind, old, new, list) {
        Ok(salvaged) => salvaged,
        Err(refusal) => {
            assert_eq!(refusal, Refusal::plain(43));
            assert!(before.finished.is_empty());
            return 0;
        }
    };
    let after = run(kind, new, &blocks);

    // Dropped and written blocks are all blocks; each dropped one has its answer.
    let count = list.len() / BLOCK_LENGTH;
    let dropped: BTreeMap<usize, Answer> = log
        .iter()
        .filter_map(|entry| match *entry {
            Entry::Dropped { block, answer } => Some((block, answer)),
            _ => None,
        })
        .collect();
    assert_eq!(dropped.len() + blocks.len() / BLOCK_LENGTH, count);
    assert!(log.len() <= 2 * count && blocks.len() <= list.len());
    for (block, answer) in &dropped {
        assert_eq!(before.answers[*block], *answer);
        assert!(!matches!(answer, Answer::Finished(..)));
    }
    // The others are the new clip's, in order, but for clip, number and sum.
    let kept_blocks = (0..count).filter(|block| !dropped.contains_key(block));
    for (number, bytes) in kept_blocks.zip(blocks.chunks(BLOCK_LENGTH)) {
        let from = &list[BLOCK_LENGTH * number..][..BLOCK_LENGTH];
        assert_eq!(from[4..508], bytes[4..508]);
        assert_eq!(bytes[..2], new.to_be_bytes());
    }

    // Runs and kept numbers together are 0 to the last kept, in order, and new numbers are 0 up.
    let mut next_old = 0;
    let mut next_new = 0;
    let mut last_block = 0;
    let mut cuts = Vec::new();
    for entry in &log {
        let at = match *entry {
            Entry::Kept { block, old, new } => {
                assert_eq!((old, new), (next_old, next_new));
                assert!(new <= old);
                assert!(
                    matches!(before.answers[block], Answer::Finished(picture, _) if picture == old)
                );
                next_old += 1;
                next_new += 1;
                block
            }
            Entry::Skipped { block, first, last } => {
                assert_eq!(first, next_old);
                assert!(first <= last && last < PICTURES);
                cuts.push(next_new);
                next_old = last + 1;
                block
            }
            Entry::Dropped { block, .. } => block,
        };
        assert!(at >= last_block);
        last_block = at;
    }
    assert_eq!(next_new as usize, before.finished.len());

    // A fresh receiver finishes every picture of the new clip, with the samples that the old one showed.
    assert_eq!(after.finished.len(), before.finished.len());
    assert_eq!(after.stand, Stand::InStep(next_new - 1));
    let fine = |answer: &Answer| matches!(answer, Answer::Taken(_) | Answer::Finished(..));
    assert!(after.answers.iter().all(fine));
    let modulus = kind.tick_modulus();
    let mut last_tick = None;
    for (number, (one, other)) in (0..).zip(before.finished.iter().zip(&after.finished)) {
        assert_eq!(other.0, number);
        assert!(one.2 == other.2);
        // All ticks are exact; each adds the TR difference, also across a cut.
        let Known::Exact(tick) = other.1 else {
            panic!("an estimated tick in a salvaged clip");
        };
        assert_eq!(tick % modulus, one.1.number() % modulus);
        if let Some((last_old, last_new)) = last_tick {
            assert!(tick > last_new && tick <= last_new + modulus);
            if !cuts.contains(&number) {
                assert_eq!(tick - last_new, one.1.number() - last_old);
            }
        }
        last_tick = Some((one.1.number(), tick));
    }

    // Made anew from its N bits, a picture has the same blocks.
    let made: Vec<u8> = (0..)
        .zip(&after.bits)
        .flat_map(|(number, bits)| {
            let first = blocks_before(&after.bits, number as usize);
            let mark = Block::judge(&blocks[BLOCK_LENGTH * first..][..BLOCK_LENGTH], kind);
            let is_refresh = mark.unwrap().is_refresh;
            blocks_of(kind.standard(), new, number, is_refresh, bits)
        })
        .flat_map(|block| block.to_bytes())
        .collect();
    assert!(made == blocks);

    // Salvaging a second time changes nothing.
    let (again, log) = salvaged(kind, new, new, &blocks).unwrap();
    assert!(again == blocks);
    let is_same = |entry: &Entry| matches!(entry, Entry::Kept { old, new, .. } if old == new);
    assert!(log.len() == next_new as usize && log.iter().all(is_same));
    before.finished.len()
}

fn blocks_before(bits: &[Bits], picture: usize) -> usize {
    let blocks = |bits: &Bits| bits.count.div_ceil(PAYLOAD_BITS);
    bits[..picture].iter().map(blocks).sum()
}

#[test]
fn random_lists() {
    let mut random = Random::new(51);
    let mut kept = 0;
    let mut nothing = 0;
    for number in 0..100 {
        let kind = Kind::ALL[[0, 2, 3, 0, 2, 3, 0, 2, 1, 4][number % 10]];
        let honesty = random.pick(&[Honesty::Honest, Honesty::Forged, Honesty::Mixed]);
        let mut list = clips::damaged_list(&mut random, kind, 7, honesty).concat();
        if random.chance(4) {
            list.extend(clips::damaged_list(&mut random, kind, 8, honesty).concat());
        }
        let new = random.pick(&[1, 7, 8, 65_535]);
        let pictures = hold(kind, 7, new, &list);
        kept += pictures;
        nothing += usize::from(pictures == 0);
    }
    assert!(kept > 200 && nothing > 2, "{kept} {nothing}");
}

/// A sender's clip, whole and in order, comes back as it is; what is sent twice, too.
#[test]
fn whole_clips_are_unchanged() {
    let mut random = Random::new(52);
    for kind in Kind::ALL {
        let sent = clips::clip(&mut random, kind, 7, 0, 8);
        let blocks: Vec<_> = sent.iter().flat_map(|one| one.blocks.clone()).collect();
        let list = blocks.concat();
        let (same, log) = salvaged(kind, 7, 7, &list).unwrap();
        assert!(same == list);
        let expected: Vec<u32> = (0..8).collect();
        let numbers: Vec<u32> = log
            .iter()
            .map(|entry| match entry {
                Entry::Kept { old, new, .. } if old == new => *old,
                _ => panic!("{entry}"),
            })
            .collect();
        assert_eq!(numbers, expected);
        assert_eq!(hold(kind, 7, 9, &list), 8);
        let twice: Vec<u8> = blocks
            .iter()
            .flat_map(|block| [*block, *block].concat())
            .collect();
        let (same, log) = salvaged(kind, 7, 7, &twice).unwrap();
        assert!(same == list);
        assert_eq!(log.len(), 8 + blocks.len());
    }
}

/// From numbers past 65,535 to small ones: the high byte goes.
#[test]
fn high_numbers_become_small() {
    let mut random = Random::new(53);
    let first = PICTURES - 4;
    let sent = clips::clip(&mut random, QCIF, 7, first, 4);
    let list: Vec<u8> = sent.iter().flat_map(|one| one.blocks.concat()).collect();
    let (blocks, log) = salvaged(QCIF, 7, 7, &list).unwrap();
    assert!(blocks.chunks(BLOCK_LENGTH).all(|block| block[508] == 0));
    let run = format!(" skipped 0 to {}, ticks restart\n", first - 1);
    assert!(lines(&log[..1]).ends_with(&run));
    assert_eq!(hold(QCIF, 7, 8, &list), 4);
}
