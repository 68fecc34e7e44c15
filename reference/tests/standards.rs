//! One vault for both standards (document 02, T-04): marks, the refusal of the other standard's blocks, ticks,
//! the lister, and H.263's outside clips through sender and receiver.

use std::fs;
use std::path::PathBuf;

use reference::bits::Bits;
use reference::block::{blocks_of, seal, Block, BLOCK_LENGTH};
use reference::clips::{self, other_standards};
use reference::coding::Picture;
use reference::format::Format;
use reference::h263;
use reference::h263::description::{Description, INTRA};
use reference::kind::{Kind, Size, Standard};
use reference::lister::{list, reads, Vault};
use reference::random::Random;
use reference::receiver::Answer;
use reference::refusal::Refusal;
use reference::sender::Sender;

const SUB_QCIF: h263::format::Format = h263::format::Format::SubQcif;

/// Type INTER, nothing sent.
fn empty(temporal_reference: u8) -> Bits {
    let mut description = Description::empty(SUB_QCIF);
    description.temporal_reference = temporal_reference;
    h263::writer::write_picture(&description, SUB_QCIF).unwrap()
}

/// DC codes alone, in one part: 50 bits and 48 times 53.
fn all_intra(picture_type: u8, temporal_reference: u8) -> Bits {
    let mut description = Description::empty(SUB_QCIF);
    description.picture_type = picture_type;
    description.temporal_reference = temporal_reference;
    for macroblock in &mut description.macroblocks {
        macroblock.kind = INTRA;
        for block in &mut macroblock.levels {
            block[0] = 100;
        }
    }
    h263::writer::write_picture(&description, SUB_QCIF).unwrap()
}

fn refresh(temporal_reference: u8) -> Bits {
    all_intra(h263::description::INTRA_PICTURE, temporal_reference)
}

fn block(standard: Standard, clip: u16, picture: u32, mark: bool, bits: &Bits) -> Vec<u8> {
    let blocks = blocks_of(standard, clip, picture, mark, bits);
    assert_eq!(blocks.len(), 1);
    blocks[0].to_bytes().to_vec()
}

fn of_clip_7(picture: u32, mark: bool, bits: &Bits) -> Vec<u8> {
    block(Standard::H263, 7, picture, mark, bits)
}

#[test]
fn bit_2_of_the_marks() {
    let mut random = Random::new(41);
    for kind in Kind::ALL {
        let expected = match kind.standard() {
            Standard::H261 => 0,
            Standard::H263 => 4,
        };
        let sent = clips::clip(&mut random, kind, 7, 0, 3);
        for bytes in sent.iter().flat_map(|one| &one.blocks) {
            assert_eq!(bytes[5] & 0xFC, expected, "on every part");
            let judged = Block::judge(bytes, kind).unwrap();
            assert_eq!(judged.standard, kind.standard());
            assert_eq!(judged.to_bytes(), *bytes);
        }
    }
}

/// 1, 21, 22, 23, then 5 at place 0; nothing changes by it.
#[test]
fn a_block_of_the_other_standard() {
    let blocks = [
        of_clip_7(0, true, &refresh(0)),
        block(Standard::H261, 7, 1, false, &empty(1)),
        block(Standard::H261, 8, 1, false, &empty(1)),
        block(Standard::H261, 7, 0, true, &refresh(0)),
        of_clip_7(1, false, &empty(1)),
    ];
    let text = "0 picture 0 tick 0\n1 refused 5 at 0\n2 refused 23\n3 refused 5 at 0\n\
        4 picture 1 tick 1\nend clip 7 in step at 1\n";
    assert_eq!(list(Size::SubQcif, &blocks.concat()), text);
    // Against a rule, too: 22 comes first; a wrong sum before that.
    let mut wrong: [u8; BLOCK_LENGTH] = blocks[1].clone().try_into().unwrap();
    wrong[509] = 1;
    let unsealed = wrong;
    seal(&mut wrong);
    let input = [blocks[0].clone(), wrong.to_vec(), unsealed.to_vec()].concat();
    let text = "0 picture 0 tick 0\n1 refused 22\n2 refused 21\nend clip 7 in step at 0\n";
    assert_eq!(list(Size::SubQcif, &input), text);
}

/// The first good block says which standard, whatever comes after it.
#[test]
fn the_lister_takes_the_standard_with_the_clip() {
    let mut random = Random::new(42);
    let of = |kind: Kind, random: &mut Random| {
        let sent = clips::clip(random, kind, 7, 0, 1);
        sent[0].blocks.clone()
    };
    let h261 = of(Format::Qcif.into(), &mut random);
    let h263 = of(h263::format::Format::Qcif.into(), &mut random);
    for (first, second) in [(&h261, &h263), (&h263, &h261)] {
        let text = list(Format::Qcif, &[first.concat(), second.concat()].concat());
        let finished = text
            .lines()
            .filter(|line| line.contains(" picture 0 "))
            .count();
        assert_eq!(finished, 1);
        let other = text.lines().filter(|line| line.ends_with("refused 5 at 0"));
        assert_eq!(other.count(), second.len());
        assert!(text.ends_with("end clip 7 in step at 0\n"));
    }
    // There is no sub-QCIF of H.261: its blocks name no clip there.
    let input = [h261[0].to_vec(), of_clip_7(0, true, &refresh(9))].concat();
    let text = "0 refused 5 at 0\n1 picture 0 tick 9\nend clip 7 in step at 0\n";
    assert_eq!(list(Size::SubQcif, &input), text);
    assert_eq!(
        list(Size::SubQcif, &h261[0]),
        "0 refused 5 at 0\nend none\n"
    );
    // Marks above 7 are against the rule, also in the first block.
    let mut wrong = h261[0];
    wrong[5] |= 8;
    seal(&mut wrong);
    assert_eq!(list(Size::Qcif, &wrong), "0 refused 22\nend none\n");
    assert_eq!(other_standards(&h261[0])[5], h261[0][5] | 4);
}

/// Modulo 256, where a difference of 0 counts as 256.
#[test]
fn ticks_of_h263() {
    let pictures = [
        of_clip_7(0, true, &refresh(250)),
        of_clip_7(1, false, &empty(5)),
        of_clip_7(2, false, &empty(5)),
        of_clip_7(3, false, &empty(4)),
        of_clip_7(7, true, &refresh(9)),
        of_clip_7(8, false, &empty(12)),
        of_clip_7(9, true, &refresh(12)),
    ];
    let text = "0 picture 0 tick 250\n1 picture 1 tick 261\n2 picture 2 tick 517\n\
        3 picture 3 tick 772\n4 picture 7 tick about 777\n5 picture 8 tick about 780\n\
        6 picture 9 tick about 1036\nend clip 7 in step at 9\n";
    assert_eq!(list(Size::SubQcif, &pictures.concat()), text);
}

/// "Refresh means a picture of type INTRA, never one of type INTER."
#[test]
fn an_untrue_mark_by_the_type() {
    let inter = all_intra(h263::description::INTER_PICTURE, 3);
    let pictures = [
        of_clip_7(0, true, &refresh(1)),
        of_clip_7(1, false, &inter),
        of_clip_7(2, true, &inter),
        of_clip_7(3, true, &refresh(4)),
        of_clip_7(4, false, &refresh(5)),
    ];
    let text = "0 picture 0 tick 1\n1 picture 1 tick 3\n2 refused 24\n3 picture 3 tick about 4\n\
        4 refused 24\nend clip 7 lost\n";
    assert_eq!(list(Size::SubQcif, &pictures.concat()), text);
    let bits = inter.count;
    let line = format!("1 picture 1 bits {bits} reads ");
    assert!(reads(Size::SubQcif, &pictures.concat()).contains(&line));
}

/// The lister prints "at" for 14; bits left over are 13 and no read.
#[test]
fn lines_of_h263s_refusals() {
    let mut optional = empty(0);
    optional.flip(39);
    let mut longer = empty(0);
    longer.push(true);
    let pictures = [
        of_clip_7(0, true, &optional),
        of_clip_7(1, true, &longer),
        of_clip_7(2, true, &longer.cut(55)),
    ];
    let text = "0 refused 14 at 39\n1 refused 13 at 98\n2 refused 3 at 55\nend clip 7 lost\n";
    assert_eq!(list(Size::SubQcif, &pictures.concat()), text);
    let text = "0 refused 14 at 39 bits 98 reads 3\n1 refused 13 at 98 bits 99 reads 54\n\
        2 refused 3 at 55 bits 55 reads 12\nend clip 7 lost\n";
    assert_eq!(reads(Size::SubQcif, &pictures.concat()), text);
}

/// Slices of the other standard have no lengths that this one knows; another size of the same is 31.
#[test]
fn what_a_sender_is_lent() {
    for kind in Kind::ALL {
        let mut sender = Sender::open(kind, 9).unwrap();
        let mut first = vec![1; kind.store_length()];
        let mut second = vec![2; kind.store_length()];
        let mut out = vec![3; kind.sent_length()];
        for lent in Kind::ALL {
            let [head, macroblocks, levels] = &Picture::empty(lent).slices();
            let slices = (&head[..], &macroblocks[..], &levels[..]);
            let answer = sender.send(slices, &mut first, &mut second, &mut out);
            let number = if lent.standard() != kind.standard() {
                1
            } else if lent != kind {
                31
            } else {
                33
            };
            assert_eq!(answer, Err(Refusal::plain(number)), "{kind:?} {lent:?}");
        }
    }
}

fn outside_clips() -> Vec<(String, h263::format::Format, Vec<u8>)> {
    let folder = PathBuf::from(env!("CARGO_MANIFEST_DIR")).join("../clips");
    let mut found = Vec::new();
    for entry in fs::read_dir(folder).expect("the folder of clips") {
        let path = entry.expect("a clip").path();
        let name = path.file_name().unwrap().to_string_lossy().to_string();
        if name.ends_with(".h263") && !name.starts_with("above-limit") {
            let is_of = |size: &Size| name.contains(&format!("-{}", size.name()));
            let size = Size::ALL.into_iter().find(is_of).unwrap();
            found.push((name, size.of_h263(), fs::read(path).expect("a clip")));
        }
    }
    found
}

/// Sender, blocks and receiver give the samples of the plain chain of pictures.
#[test]
fn every_outside_clip_is_sent_and_received() {
    let clips = outside_clips();
    assert!(clips.len() > 28);
    for (name, format, raw) in clips {
        let kind = Kind::from(format);
        let mut sender = Sender::open(kind, 3).unwrap();
        let mut first = vec![1; kind.store_length()];
        let mut second = vec![2; kind.store_length()];
        let mut out = vec![0; kind.sent_length()];
        let mut vault = Vault::new(kind);
        let mut store = vec![128; kind.store_length()];
        for (number, picture) in (0..).zip(h263::stream::pictures(&raw, format)) {
            let picture = Picture::from(picture.answer.unwrap());
            store = picture.reconstruct(&store);
            let [head, macroblocks, levels] = &picture.slices();
            let slices = (&head[..], &macroblocks[..], &levels[..]);
            let sent = sender.send(slices, &mut first, &mut second, &mut out);
            let count = sent.unwrap().blocks;
            let mut last = Answer::Lost;
            for block in out.chunks(BLOCK_LENGTH).take(count) {
                last = vault.receive(block);
            }
            let finished = matches!(last, Answer::Finished(picture, _) if picture == number);
            assert!(finished, "{name}");
            assert!(vault.shown(&last) == Some(&store[..]), "{name} {number}");
        }
    }
}
