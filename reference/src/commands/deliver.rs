//! Sessions of a receiver: what arrives, call by call.

use reference::bits::Bits;
use reference::block::{blocks_of, seal, Block, Position, BLOCK_LENGTH, PICTURES};
use reference::check::check;
use reference::clips::{self, Honesty};
use reference::coding::Picture;
use reference::format::Format;
use reference::h263::description::{
    Description as Description263, INTER_PICTURE, INTRA, INTRA_PICTURE,
};
use reference::h263::format::Format as Format263;
use reference::h263::writer as writer263;
use reference::kind::{Kind, Standard};
use reference::random::Random;
use reference::receiver::{Lent, Receiver};
use reference::stores::Which;

use super::made::Made;

/// What every byte of the buffers holds before a session: collection, first store, second store.
const BEFORE: [u8; 3] = [51, 17, 34];

struct Call {
    /// Which buffer is lent without its last byte: 0 none, 1 collection, 2 first store, 3 second store.
    length_kind: u8,
    block: Vec<u8>,
}

impl Call {
    fn of(block: Vec<u8>) -> Call {
        Call {
            length_kind: 0,
            block,
        }
    }
}

pub fn make(seed: u64, count: usize) -> Made {
    let mut random = Random::new(seed);
    let mut made = Made::default();
    for kind in Format::ALL.map(Kind::from) {
        fixed_sessions(&mut made, &mut random, kind);
    }
    for number in 0..count {
        let kind = Kind::from(if number % 8 == 7 {
            Format::Cif
        } else {
            Format::Qcif
        });
        let clip = random.between(1, 65_535) as u16;
        let honesties = [Honesty::Honest, Honesty::Forged];
        let calls = random_calls(&mut random, kind, clip, &honesties);
        session(&mut made, kind, clip, &calls);
    }
    made
}

/// Sessions of all five kinds, with blocks of the other standard between.
pub fn make_of_both(seed: u64, count: usize) -> Made {
    let mut random = Random::new(seed);
    let mut made = Made::default();
    for kind in Kind::ALL {
        if kind.standard() == Standard::H263 {
            fixed_sessions(&mut made, &mut random, kind);
        }
        for calls in of_both_standards(&mut random, kind) {
            session(&mut made, kind, 7, &calls);
        }
    }
    for calls in in_one_part() {
        session(&mut made, SUB_QCIF, 7, &calls);
    }
    for number in 0..count {
        // CIF is rare.
        let kind = Kind::ALL[[2, 3, 2, 0, 3, 2, 4, 3, 0, 2, 3, 1][number % 12]];
        let clip = random.between(1, 65_535) as u16;
        let honesties = [Honesty::Honest, Honesty::Forged, Honesty::Mixed];
        let calls = random_calls(&mut random, kind, clip, &honesties);
        session(&mut made, kind, clip, &calls);
    }
    made
}

/// What is the same at every seed but for the pictures' contents.
fn fixed_sessions(made: &mut Made, random: &mut Random, kind: Kind) {
    session(made, kind, 0, &[]);
    for calls in hand_made(random, kind) {
        session(made, kind, 7, &calls);
    }
    let edges = clips::edge_blocks(kind, 7);
    let calls: Vec<Call> = edges.iter().map(|block| Call::of(block.to_vec())).collect();
    session(made, kind, 7, &calls);
}

/// What is expected of these sessions, as `make` writes them.
pub fn expected(input: &[u8]) -> Option<Vec<u8>> {
    let mut made = Made::default();
    let mut rest = input;
    while !rest.is_empty() {
        let (head, after) = rest.split_at_checked(7)?;
        let kind = Kind::from_number(head[0])?;
        let clip = u16::from_be_bytes([head[1], head[2]]);
        let count = u32::from_be_bytes([head[3], head[4], head[5], head[6]]);
        rest = after;
        let mut calls = Vec::new();
        for _ in 0..count {
            let (head, after) = rest.split_at_checked(3)?;
            let length = usize::from(u16::from_be_bytes([head[1], head[2]]));
            let (block, after) = after.split_at_checked(length)?;
            calls.push(Call {
                length_kind: head[0],
                block: block.to_vec(),
            });
            rest = after;
        }
        session(&mut made, kind, clip, &calls);
    }
    Some(made.expected)
}

fn random_calls(random: &mut Random, kind: Kind, clip: u16, honesties: &[Honesty]) -> Vec<Call> {
    let pictures = random.between(3, 10) as usize;
    let first = clips::first_number(random, pictures);
    let sent = clips::clip(random, kind, clip, first, pictures);
    let blocks: Vec<[u8; BLOCK_LENGTH]> = sent.into_iter().flat_map(|one| one.blocks).collect();
    let honesty = random.pick(honesties);
    let mut calls = Vec::new();
    for block in clips::delivery(random, kind, &blocks, honesty) {
        if random.chance(60) {
            calls.push(wrong_length(random, &block));
        }
        calls.push(Call::of(block));
    }
    calls
}

fn wrong_length(random: &mut Random, block: &[u8]) -> Call {
    let mut call = Call::of(block.to_vec());
    match random.below(5) {
        0 => call.block.truncate(random.below(BLOCK_LENGTH)),
        1 => call.block.push(0),
        kind => call.length_kind = kind as u8 - 1,
    }
    call
}

/// The receiver's rules one by one.
fn hand_made(random: &mut Random, kind: Kind) -> Vec<Vec<Call>> {
    let bits_of = |picture: &Picture| picture.write(kind).expect("a picture within the limit");
    let refresh_description = clips::refresh_description(random, kind, false);
    let refresh = bits_of(&refresh_description);
    let dense = bits_of(&clips::refresh_description(random, kind, true));
    let empty = bits_of(&Picture::empty(kind));
    let cut = empty.cut(empty.count - 1);
    let picture = |number: u32, mark: bool, bits: &Bits| -> Vec<Vec<u8>> {
        blocks_of(kind.standard(), 7, number, mark, bits)
            .iter()
            .map(|block| block.to_bytes().to_vec())
            .collect()
    };
    // A picture with this TR, of 32, or as many times more as there are: a refresh or an empty one.
    let timed = |number: u32, is_refresh: bool, temporal_reference: u8| -> Vec<Vec<u8>> {
        let mut description = Picture::empty(kind);
        if is_refresh {
            description = refresh_description.clone();
        }
        let times = (kind.tick_modulus() / 32) as u8;
        description.set_temporal_reference(times * temporal_reference);
        picture(number, is_refresh, &bits_of(&description))
    };
    let sessions: Vec<Vec<Vec<Vec<u8>>>> = vec![
        // Untrue marks either way, and catching up after each.
        vec![
            picture(0, true, &empty),
            picture(1, true, &refresh),
            picture(2, false, &refresh),
            picture(3, false, &empty),
            picture(4, true, &dense),
            picture(5, false, &empty),
        ],
        // A refused picture, then lost until a refresh; which store is next is remembered.
        vec![
            picture(0, true, &refresh),
            picture(1, false, &cut),
            picture(2, false, &empty),
            picture(2, true, &dense),
            picture(3, false, &empty),
            picture(4, true, &cut),
            picture(5, true, &refresh),
        ],
        // A refresh begun in step, and one that replaces a begun one.
        vec![
            picture(0, true, &refresh),
            picture(1, true, &dense)[..1].to_vec(),
            picture(2, true, &dense)[..2].to_vec(),
            picture(3, true, &refresh),
            picture(1, true, &dense),
        ],
        // No refresh at the start.
        vec![
            picture(0, false, &refresh),
            picture(0, false, &empty),
            picture(0, true, &refresh)[..1].to_vec(),
            picture(0, true, &refresh)[..1].to_vec(),
        ],
        // Past 4095, where the limit was, and past 65,535, where the high byte begins; a shortened number is old.
        vec![
            picture(4094, true, &refresh),
            picture(4095, false, &empty),
            picture(4096, false, &empty),
            picture(4095, false, &empty),
            picture(0, true, &refresh),
        ],
        vec![
            picture(65_535, true, &refresh),
            picture(65_536, false, &empty),
            picture(65_537, false, &empty),
            picture(1, true, &refresh),
        ],
        // A high byte that doesn't follow: lost.
        vec![
            picture(0, true, &refresh),
            picture(65_537, false, &empty),
            picture(131_072, true, &refresh),
        ],
        // The last picture's number, and those after it.
        vec![
            picture(PICTURES - 2, true, &refresh),
            picture(PICTURES - 1, false, &empty),
            picture(PICTURES - 1, false, &empty),
            picture(PICTURES, true, &refresh),
            picture(255 * 65_536, true, &refresh),
            picture(0, true, &refresh),
        ],
        // Ticks (document 02, T-02): TRs 30, 1, 1, 4, 9, 11 with picture 1 skipped; picture 2 after a loss;
        // each rule in turn; a first picture that isn't picture 0; a refused one.
        vec![
            timed(0, true, 30),
            timed(2, true, 1),
            timed(3, false, 4),
            timed(4, true, 9)[..1].to_vec(),
            timed(5, false, 11),
        ],
        vec![
            timed(0, true, 30),
            timed(1, false, 1),
            timed(3, false, 4),
            timed(2, true, 1),
        ],
        vec![
            timed(0, true, 30),
            timed(1, false, 1),
            timed(2, false, 1),
            timed(3, false, 0),
            timed(7, true, 9),
            timed(8, false, 12),
            timed(9, true, 12),
            timed(10, false, 11),
        ],
        vec![timed(4, true, 17), timed(5, false, 17)],
        vec![
            timed(0, true, 31),
            picture(1, true, &empty),
            timed(2, true, 0),
            timed(3, false, 31),
        ],
        vec![more_parts(kind, false, 4000), picture(1, true, &refresh)],
        vec![more_parts(kind, true, 4000), picture(1, true, &refresh)],
        vec![more_parts(kind, true, 1)],
        vec![more_parts(kind, true, limit_in_last_part(kind))],
        vec![more_parts(kind, true, limit_in_last_part(kind) + 1)],
    ];
    sessions
        .into_iter()
        .map(|pictures| pictures.into_iter().flatten().map(Call::of).collect())
        .collect()
}

/// Blocks of the other standard change nothing, however the receiver stands; 1, 21, 22 and 23 come before.
fn of_both_standards(random: &mut Random, kind: Kind) -> Vec<Vec<Call>> {
    let refresh = clips::refresh_description(random, kind, true);
    let refresh = refresh.write(kind).expect("a picture within the limit");
    let empty = Picture::empty(kind).write(kind).expect("a small picture");
    let blocks = |clip: u16, number: u32, mark: bool, bits: &Bits| -> Vec<[u8; BLOCK_LENGTH]> {
        let made = blocks_of(kind.standard(), clip, number, mark, bits);
        made.iter().map(Block::to_bytes).collect()
    };
    let changed = |block: &[u8; BLOCK_LENGTH], at: usize, bits: u8| {
        let mut other = *block;
        other[at] ^= bits;
        seal(&mut other);
        Call::of(other.to_vec())
    };
    let other = |block: &[u8; BLOCK_LENGTH]| Call::of(clips::other_standards(block));
    let plain = |block: &[u8; BLOCK_LENGTH]| Call::of(block.to_vec());
    let first = blocks(7, 0, true, &refresh);
    let second = blocks(7, 1, false, &empty);
    let after = blocks(7, 3, true, &refresh);
    // Before, between and after a picture's own blocks; then lost, catching, and in step again.
    let mut everywhere = Vec::new();
    for block in first
        .iter()
        .chain(&second)
        .chain(&blocks(7, 3, false, &empty))
    {
        everywhere.extend([other(block), plain(block), other(block)]);
    }
    for block in after.iter().chain(&blocks(7, 4, false, &empty)) {
        everywhere.extend([other(block), plain(block)]);
    }
    // Another clip's, against a rule, under a wrong sum, of another length, and with a short buffer.
    let mut wrong_sum = first[0];
    wrong_sum[5] ^= 4;
    let mut short = other(&second[0]);
    short.block.pop();
    let mut with_short_buffer = other(&second[0]);
    with_short_buffer.length_kind = 2;
    let mut in_order: Vec<Call> = first.iter().map(plain).collect();
    in_order.extend([
        other(&blocks(8, 1, false, &empty)[0]),
        changed(&second[0], 5, 4 + 2),
        changed(&second[0], 5, 4 + 8),
        changed(&second[0], 5, 8),
        changed(&second[0], 5, 128),
        changed(&second[0], 4, 255),
        Call::of(wrong_sum.to_vec()),
        short,
        with_short_buffer,
        other(&second[0]),
        plain(&second[0]),
    ]);
    vec![everywhere, in_order]
}

const SUB_QCIF: Kind = Kind::H263(Format263::SubQcif);

/// H.263 sub-QCIF, where a refresh fits one part: it jumps ahead of a receiver in step. Type INTER with INTRA
/// macroblocks alone is no refresh. TR differences of 0, 1 and 255.
fn in_one_part() -> Vec<Vec<Call>> {
    let bits = |picture_type: u8, is_sent: bool, temporal_reference: u8| -> Bits {
        let mut description = Description263::empty(Format263::SubQcif);
        description.picture_type = picture_type;
        description.temporal_reference = temporal_reference;
        if is_sent {
            for (number, macroblock) in (1..).zip(&mut description.macroblocks) {
                macroblock.kind = INTRA;
                macroblock.levels = [[0; 64]; 6];
                for block in &mut macroblock.levels {
                    block[0] = number;
                }
            }
        }
        writer263::picture(&description, &mut writer263::Plain)
    };
    let call = |number: u32, mark: bool, bits: &Bits| {
        let blocks = blocks_of(Standard::H263, 7, number, mark, bits);
        assert_eq!(blocks.len(), 1);
        Call::of(blocks[0].to_bytes().to_vec())
    };
    let refresh = |number: u32, time: u8| call(number, true, &bits(INTRA_PICTURE, true, time));
    let empty = |number: u32, time: u8| call(number, false, &bits(INTER_PICTURE, false, time));
    let sent = |number: u32, mark: bool| call(number, mark, &bits(INTER_PICTURE, true, 9));
    vec![
        vec![
            refresh(0, 0),
            empty(1, 1),
            refresh(5, 1),
            empty(6, 0),
            refresh(7, 255),
            refresh(7, 255),
            empty(9, 0),
            refresh(9, 3),
        ],
        vec![
            refresh(0, 255),
            empty(1, 255),
            empty(2, 254),
            empty(3, 0),
            sent(4, false),
            sent(5, true),
            refresh(6, 8),
            sent(7, false),
            call(8, false, &bits(INTRA_PICTURE, true, 10)),
            empty(9, 11),
            refresh(10, 12),
        ],
        vec![
            sent(0, true),
            sent(1, false),
            refresh(2, 200),
            empty(3, 199),
        ],
        // The longest way that a tick can go, many times.
        (0..300)
            .map(|number| {
                if number == 0 {
                    refresh(0, 7)
                } else {
                    empty(number, 7)
                }
            })
            .collect(),
    ]
}

fn limit_in_last_part(kind: Kind) -> usize {
    kind.bit_limit() - 4000 * usize::from(kind.last_part())
}

/// All parts that a size allows, of zeros.
fn more_parts(kind: Kind, is_last: bool, used: usize) -> Vec<Vec<u8>> {
    let last_part = kind.last_part();
    (0..=last_part)
        .map(|part| {
            let block = Block {
                standard: kind.standard(),
                clip: 7,
                position: Position { picture: 0, part },
                is_last: is_last && part == last_part,
                is_refresh: part == 0,
                bits_used: if part == last_part { used } else { 4000 },
                payload: [0; 500],
            };
            block.to_bytes().to_vec()
        })
        .collect()
}

fn session(made: &mut Made, kind: Kind, clip: u16, calls: &[Call]) {
    made.input.push(kind.number());
    super::put16(&mut made.input, usize::from(clip));
    super::put32(&mut made.input, calls.len());
    let mut receiver = match Receiver::open(kind, clip) {
        Ok(receiver) => receiver,
        Err(refusal) => {
            made.expected.extend(format!("{refusal}\n").bytes());
            return;
        }
    };
    made.expected.extend(b"opened\n");
    let mut collection = vec![BEFORE[0]; kind.collection_length()];
    let mut first = vec![BEFORE[1]; kind.store_length()];
    let mut second = vec![BEFORE[2]; kind.store_length()];
    for call in calls {
        made.input.push(call.length_kind);
        super::put16(&mut made.input, call.block.len());
        made.input.extend(&call.block);
        let less = |kind: u8| usize::from(call.length_kind == kind);
        let collection_length = collection.len() - less(1);
        let first_length = first.len() - less(2);
        let second_length = second.len() - less(3);
        let mut lent = Lent {
            collection: &mut collection[..collection_length],
            first: &mut first[..first_length],
            second: &mut second[..second_length],
        };
        let (answer, read) = receiver.receive_counting(&call.block, &mut lent);
        let shown = match receiver.shown(&answer) {
            Some(Which::First) => "first",
            Some(Which::Second) => "second",
            None => "none",
        };
        let mut line = format!("{answer}, {}, {shown}", receiver.stand());
        if read.is_some() {
            line.push_str(&format!(", {}", checks(&collection, &first, &second)));
        }
        made.expected.extend(format!("{line}\n").bytes());
    }
    let end = format!("end {}\n", checks(&collection, &first, &second));
    made.expected.extend(end.bytes());
}

fn checks(collection: &[u8], first: &[u8], second: &[u8]) -> String {
    format!("{} {} {}", check(collection), check(first), check(second))
}
