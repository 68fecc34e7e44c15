//! Random clips of either standard, and what arrives of their blocks.

use crate::bits::Bits;
use crate::block::{self, BLOCK_LENGTH, PAYLOAD_LENGTH, PICTURES};
use crate::coding::Picture;
use crate::edges::edges;
use crate::h263;
use crate::kind::{Kind, Size};
use crate::maker;
use crate::random::Random;
use crate::sender::Sender;
use crate::stores::Which;

/// A description, its blocks, and the sender's store after it.
pub struct SentPicture {
    pub description: Picture,
    pub blocks: Vec<[u8; BLOCK_LENGTH]>,
    pub store: Vec<u8>,
}

/// A number to begin with: 0, or one from which a clip soon passes 4095 or 65,535 or comes to its end.
pub fn first_number(random: &mut Random, pictures: usize) -> u32 {
    let past = random.pick(&[0, 0, 4_096, 65_536, PICTURES]);
    if past == PICTURES {
        return PICTURES - pictures as u32;
    }
    past.saturating_sub(random.below(pictures) as u32)
}

/// A description that can be sent, of any style.
pub fn any_description(random: &mut Random, kind: Kind) -> Picture {
    match kind {
        Kind::H261(format) => {
            let style = maker::Style::any(random);
            maker::description(random, format, style).into()
        }
        Kind::H263(format) => {
            let style = h263::maker::Style::any(random);
            h263::maker::description(random, format, style).into()
        }
    }
}

/// A refresh with few or with many levels.
pub fn refresh_description(random: &mut Random, kind: Kind, is_dense: bool) -> Picture {
    match kind {
        Kind::H261(format) => {
            use maker::Style::{DenseRefresh, Refresh};
            let style = if is_dense { DenseRefresh } else { Refresh };
            maker::description(random, format, style).into()
        }
        Kind::H263(format) => {
            use h263::maker::Style::{DenseRefresh, Refresh};
            let style = if is_dense { DenseRefresh } else { Refresh };
            h263::maker::description(random, format, style).into()
        }
    }
}

/// So many pictures from a sender, from the given number on; the first is a refresh, and one of six after it.
pub fn clip(
    random: &mut Random,
    kind: impl Into<Kind>,
    clip: u16,
    first: u32,
    pictures: usize,
) -> Vec<SentPicture> {
    let kind = kind.into();
    let opened = Sender::open(kind, clip).expect("a clip that isn't 0");
    let mut sender = opened.before(first);
    let mut stores = [vec![0; kind.store_length()], vec![0; kind.store_length()]];
    let mut out = vec![0; kind.sent_length()];
    let mut sent = Vec::new();
    let mut into = Which::First;
    for number in 0..pictures {
        let description = if number == 0 || random.chance(6) {
            let is_dense = random.pick(&[false, true]);
            refresh_description(random, kind, is_dense)
        } else {
            any_description(random, kind)
        };
        let [first, second] = &mut stores;
        let [head, macroblocks, levels] = &description.slices();
        let answer = sender.send((head, macroblocks, levels), first, second, &mut out);
        let count = answer.expect("a description that can be sent").blocks;
        let blocks = out
            .chunks(BLOCK_LENGTH)
            .take(count)
            .map(|bytes| bytes.try_into().expect("a whole block"))
            .collect();
        let store = match into {
            Which::First => stores[0].clone(),
            Which::Second => stores[1].clone(),
        };
        into = into.other();
        sent.push(SentPicture {
            description,
            blocks,
            store,
        });
    }
    sent
}

/// Hand-made edges as pictures of a clip, each with the refresh mark, so that even a lost receiver reads
/// them: the first few of each refusal that has a place, and of the accepted ones.
pub fn edge_blocks(kind: impl Into<Kind>, clip: u16) -> Vec<[u8; BLOCK_LENGTH]> {
    const OF_EACH: usize = 6;
    let kind = kind.into();
    let mut taken = [0; 15];
    let mut blocks = Vec::new();
    let mut picture = 0;
    for (number, bits) in edge_pictures(kind) {
        let is_block = bits.count > 0 && bits.count <= 8 * bits.bytes.len();
        let seen = &mut taken[usize::from(number)];
        if number == 2 || !is_block || *seen == OF_EACH {
            continue;
        }
        *seen += 1;
        let made = block::blocks_of(kind.standard(), clip, picture, true, &bits);
        blocks.extend(made.iter().map(block::Block::to_bytes));
        picture += 1;
    }
    blocks
}

/// The edges of one kind, with the refusal's number, or 0.
fn edge_pictures(kind: Kind) -> Vec<(u8, Bits)> {
    let number = |refusal: Option<crate::refusal::Refusal>| refusal.map_or(0, |one| one.number);
    let bits = |bytes, count| Bits { bytes, count };
    match kind {
        Kind::H261(format) => edges()
            .into_iter()
            .filter(|edge| edge.opened == format)
            .map(|edge| (number(edge.refusal), bits(edge.bytes, edge.count)))
            .collect(),
        Kind::H263(format) => h263::edges::edges()
            .into_iter()
            .filter(|edge| edge.opened == format)
            .map(|edge| (number(edge.refusal), bits(edge.bytes, edge.count)))
            .collect(),
    }
}

/// Whether a delivery may bring bytes that the sender didn't make under a right sum.
#[derive(Clone, Copy, PartialEq, Eq, Debug)]
pub enum Honesty {
    /// Dropped, repeated, reordered, other clips', short, and damaged under a wrong sum.
    Honest,
    /// Damaged under a right sum as well.
    Forged,
    /// And of the other standard.
    Mixed,
}

impl Honesty {
    /// How many sorts of trouble there are.
    fn troubles(self) -> usize {
        match self {
            Honesty::Honest => 6,
            Honesty::Forged => 8,
            Honesty::Mixed => 10,
        }
    }
}

/// What arrives of the blocks.
pub fn delivery(
    random: &mut Random,
    size: impl Into<Size>,
    blocks: &[[u8; BLOCK_LENGTH]],
    honesty: Honesty,
) -> Vec<Vec<u8>> {
    let size = size.into();
    let trouble = random.pick(&[0, 2, 10, 40, 200]);
    let mut arriving: Vec<Vec<u8>> = Vec::new();
    for block in blocks {
        let happens = trouble != 0 && random.chance(trouble);
        if !happens {
            arriving.push(block.to_vec());
            continue;
        }
        match random.below(honesty.troubles()) {
            0 => {}
            1 => {
                arriving.push(block.to_vec());
                arriving.push(block.to_vec());
            }
            2 => {
                // An older one comes again, as far as there is one.
                if !arriving.is_empty() {
                    arriving.push(arriving[random.below(arriving.len())].clone());
                }
                arriving.push(block.to_vec());
            }
            3 => {
                // Late by some blocks: the ones before it stand behind it.
                let back = random.below(4).min(arriving.len());
                arriving.insert(arriving.len() - back, block.to_vec());
            }
            4 => arriving.push(with_wrong_sum(random, block)),
            5 => {
                arriving.push(another_clips(random, size, block));
                arriving.push(block.to_vec());
            }
            6 => arriving.push(forged(random, block)),
            7 => {
                arriving.push(forged(random, block));
                arriving.push(block.to_vec());
            }
            8 => arriving.push(other_standards(block)),
            _ => {
                arriving.push(other_standards(block));
                arriving.push(block.to_vec());
            }
        }
    }
    arriving
}

/// A list of a clip's blocks as a disk with holes gives it back: parts of it missing, repeated, in another
/// order, damaged, and blocks of other clips between.
pub fn damaged_list(
    random: &mut Random,
    kind: impl Into<Kind>,
    clip: u16,
    honesty: Honesty,
) -> Vec<Vec<u8>> {
    let kind = kind.into();
    let pictures = random.between(2, 10) as usize;
    let first = first_number(random, pictures);
    let sent = self::clip(random, kind, clip, first, pictures);
    let blocks: Vec<[u8; BLOCK_LENGTH]> = sent.into_iter().flat_map(|one| one.blocks).collect();
    let mut list = delivery(random, kind, &blocks, honesty);
    for _ in 0..random.pick(&[0, 0, 1, 2, 4]) {
        if list.is_empty() {
            break;
        }
        let from = random.below(list.len());
        let most = random.pick(&[1, 2, 9, 40]).min(list.len() - from);
        let to = from + 1 + random.below(most);
        match random.below(4) {
            0 | 1 => {
                list.drain(from..to);
            }
            2 => {
                // Once more, somewhere.
                let again = list[from..to].to_vec();
                let at = random.below(list.len() + 1);
                list.splice(at..at, again);
            }
            _ => list[from..to].reverse(),
        }
    }
    list
}

fn with_wrong_sum(random: &mut Random, block: &[u8; BLOCK_LENGTH]) -> Vec<u8> {
    let mut bad = block.to_vec();
    let at = random.below(BLOCK_LENGTH);
    bad[at] ^= 1 << random.below(8);
    if random.chance(8) {
        bad = random.bytes(BLOCK_LENGTH);
    }
    bad
}

/// A block of another clip, sound in itself.
fn another_clips(random: &mut Random, size: Size, block: &[u8; BLOCK_LENGTH]) -> Vec<u8> {
    let mut other = block::Block::judge(block, size).expect("a sender's block");
    other.clip = if other.clip == 65_535 {
        1
    } else {
        other.clip + random.between(1, 65_535 - i64::from(other.clip)) as u16
    };
    other.to_bytes().to_vec()
}

/// The same block marked as of the other standard, sound in itself.
pub fn other_standards(block: &[u8; BLOCK_LENGTH]) -> Vec<u8> {
    let mut other = *block;
    other[5] ^= 4;
    block::seal(&mut other);
    other.to_vec()
}

/// Changed somewhere, with the right sum.
fn forged(random: &mut Random, block: &[u8; BLOCK_LENGTH]) -> Vec<u8> {
    let mut bad = *block;
    match random.below(16) {
        0 => bad[..2].copy_from_slice(&[0, 0]),
        1 => bad[2] = random.byte(),
        2 => bad[4] = random.pick(&[0, 1, 16, 17, 65, 66, 255]),
        3 => bad[5] ^= 1,
        4 => bad[5] ^= 2,
        5 => bad[5] ^= 1 << random.below(8),
        6 => bad[6..8].copy_from_slice(
            &(random.pick(&[0, 1, 3999, 4000, 4001, 65_535]) as u16).to_be_bytes(),
        ),
        7 => bad[508] = random.pick(&[1, 15, 16, 255]),
        8 => bad[507] ^= 1,
        9 => {
            let at = 8 + random.below(16);
            bad[at] ^= 1 << random.below(8);
        }
        10 => bad[509] = 1,
        _ => {
            let at = 8 + random.below(PAYLOAD_LENGTH);
            bad[at] ^= 1 << random.below(8);
        }
    }
    block::seal(&mut bad);
    bad.to_vec()
}
