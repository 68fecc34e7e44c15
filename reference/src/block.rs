//! A block of 512 bytes: its fields, its making, and the judgement 1, 21, 22.

use crate::bits::{bit_of, Bits};
use crate::kind::{Size, Standard};
use crate::refusal::Refusal;

pub const BLOCK_LENGTH: usize = 512;
pub const PAYLOAD_LENGTH: usize = 500;
pub const PAYLOAD_BITS: usize = 4000;
/// Document 02, T-08: "Raise the limit to 1,048,576 per clip."
pub const PICTURES: u32 = 1_048_576;

const PAYLOAD_FROM: usize = 8;
const PAYLOAD_TO: usize = PAYLOAD_FROM + PAYLOAD_LENGTH;
/// "Byte 508 becomes the high byte of the picture number, 0..15; bytes 2-3 hold the rest."
const HIGH_AT: usize = 508;
const MOST_HIGH: u8 = 15;
const ZERO_AT: usize = 509;
const CHECK_FROM: usize = 510;
const LAST_MARK: u8 = 1;
const REFRESH_MARK: u8 = 2;
/// "Marks bit 2 says H.263."
const H263_MARK: u8 = 4;

/// A place in a clip; compares by picture, then part.
#[derive(Clone, Copy, PartialEq, Eq, PartialOrd, Ord, Debug)]
pub struct Position {
    pub picture: u32,
    pub part: u8,
}

/// The fields of a block that keeps the rules.
#[derive(Clone, Debug, PartialEq, Eq)]
pub struct Block {
    pub standard: Standard,
    pub clip: u16,
    pub position: Position,
    pub is_last: bool,
    pub is_refresh: bool,
    pub bits_used: usize,
    pub payload: [u8; PAYLOAD_LENGTH],
}

/// "The sum of (i+1) times byte i over bytes 0..509, modulo 65,521."
pub fn check_sum(block: &[u8]) -> u16 {
    let sum: u64 = block[..CHECK_FROM]
        .iter()
        .zip(1u64..)
        .map(|(&byte, weight)| weight * u64::from(byte))
        .sum();
    (sum % 65_521) as u16
}

/// Writes the right sum, whatever the other bytes hold.
pub fn seal(block: &mut [u8; BLOCK_LENGTH]) {
    let sum = check_sum(block);
    block[CHECK_FROM..].copy_from_slice(&sum.to_be_bytes());
}

impl Block {
    pub fn to_bytes(&self) -> [u8; BLOCK_LENGTH] {
        let mut bytes = [0; BLOCK_LENGTH];
        bytes[0..2].copy_from_slice(&self.clip.to_be_bytes());
        let [_, high, rest @ ..] = self.position.picture.to_be_bytes();
        bytes[2..4].copy_from_slice(&rest);
        bytes[HIGH_AT] = high;
        bytes[4] = self.position.part;
        bytes[5] = u8::from(self.is_last) * LAST_MARK
            + u8::from(self.is_refresh) * REFRESH_MARK
            + u8::from(self.standard == Standard::H263) * H263_MARK;
        bytes[6..8].copy_from_slice(&(self.bits_used as u16).to_be_bytes());
        bytes[PAYLOAD_FROM..PAYLOAD_TO].copy_from_slice(&self.payload);
        seal(&mut bytes);
        bytes
    }

    /// The fields, or 1, 21 or 22. How many parts a picture may have is by its size alone.
    pub fn judge(bytes: &[u8], size: impl Into<Size>) -> Result<Block, Refusal> {
        if bytes.len() != BLOCK_LENGTH {
            return Err(Refusal::plain(1));
        }
        let pair = |at: usize| u16::from_be_bytes([bytes[at], bytes[at + 1]]);
        if pair(CHECK_FROM) != check_sum(bytes) {
            return Err(Refusal::plain(21));
        }
        let marks = bytes[5];
        let mut payload = [0; PAYLOAD_LENGTH];
        payload.copy_from_slice(&bytes[PAYLOAD_FROM..PAYLOAD_TO]);
        let block = Block {
            standard: if marks & H263_MARK == 0 {
                Standard::H261
            } else {
                Standard::H263
            },
            clip: pair(0),
            position: Position {
                picture: 65_536 * u32::from(bytes[HIGH_AT]) + u32::from(pair(2)),
                part: bytes[4],
            },
            is_last: marks & LAST_MARK != 0,
            is_refresh: marks & REFRESH_MARK != 0,
            bits_used: usize::from(pair(6)),
            payload,
        };
        let keeps_rules = marks <= (LAST_MARK | REFRESH_MARK | H263_MARK)
            && bytes[HIGH_AT] <= MOST_HIGH
            && bytes[ZERO_AT] == 0
            && block.keeps_rules(size.into());
        if !keeps_rules {
            return Err(Refusal::plain(22));
        }
        Ok(block)
    }

    fn keeps_rules(&self, size: Size) -> bool {
        self.clip != 0
            && self.position.part <= size.last_part()
            && (!self.is_refresh || self.position.part == 0)
            && (1..=PAYLOAD_BITS).contains(&self.bits_used)
            && (self.is_last || self.bits_used == PAYLOAD_BITS)
            && (self.bits_used..PAYLOAD_BITS).all(|place| !bit_of(&self.payload, place))
    }
}

/// The blocks of a picture.
pub fn blocks_of(
    standard: Standard,
    clip: u16,
    picture: u32,
    is_refresh: bool,
    bits: &Bits,
) -> Vec<Block> {
    let parts = bits.bytes.chunks(PAYLOAD_LENGTH);
    let last = parts.len() - 1;
    parts
        .enumerate()
        .map(|(part, bytes)| {
            let mut payload = [0; PAYLOAD_LENGTH];
            payload[..bytes.len()].copy_from_slice(bytes);
            Block {
                standard,
                clip,
                position: Position {
                    picture,
                    part: part as u8,
                },
                is_last: part == last,
                is_refresh: is_refresh && part == 0,
                bits_used: (bits.count - PAYLOAD_BITS * part).min(PAYLOAD_BITS),
                payload,
            }
        })
        .collect()
}
