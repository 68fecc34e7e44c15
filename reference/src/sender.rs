//! The sender: descriptions to blocks, keeping the store that a receiver in step has.

use crate::block::{blocks_of, BLOCK_LENGTH, PICTURES};
use crate::coding::Picture;
use crate::kind::Kind;
use crate::refusal::Refusal;
use crate::stores::Which;

#[derive(Clone, Copy, PartialEq, Eq, Debug)]
pub struct Sender {
    kind: Kind,
    clip: u16,
    /// The number of the next picture.
    next: u32,
    /// The store that the next picture goes into; the other is its reference.
    into: Which,
}

/// What was sent: the picture's number and how many blocks it took.
#[derive(Clone, Copy, PartialEq, Eq, Debug)]
pub struct Sent {
    pub picture: u32,
    pub blocks: usize,
}

impl Sender {
    /// Clip 0 is refused by 22.
    pub fn open(kind: impl Into<Kind>, clip: u16) -> Result<Sender, Refusal> {
        if clip == 0 {
            return Err(Refusal::plain(22));
        }
        Ok(Sender {
            kind: kind.into(),
            clip,
            next: 0,
            into: Which::First,
        })
    }

    /// The sender as it stands before a later picture.
    pub fn before(self, next: u32) -> Sender {
        Sender { next, ..self }
    }

    /// Refusals in the order 1, 34, 31, 33, 32; then nothing changes.
    pub fn send(
        &mut self,
        slices: (&[u8], &[u8], &[u8]),
        first: &mut [u8],
        second: &mut [u8],
        out: &mut [u8],
    ) -> Result<Sent, Refusal> {
        let picture = Picture::from_slices(self.kind.standard(), slices)?;
        let store_length = self.kind.store_length();
        if first.len() != store_length
            || second.len() != store_length
            || out.len() != self.kind.sent_length()
        {
            return Err(Refusal::plain(1));
        }
        if self.next >= PICTURES {
            return Err(Refusal::plain(34));
        }
        if !picture.is_valid(self.kind) {
            return Err(Refusal::plain(31));
        }
        let is_refresh = picture.is_refresh();
        if self.next == 0 && !is_refresh {
            return Err(Refusal::plain(33));
        }
        let bits = picture.write(self.kind)?;
        let standard = self.kind.standard();
        let blocks = blocks_of(standard, self.clip, self.next, is_refresh, &bits);
        for (room, block) in out.chunks_mut(BLOCK_LENGTH).zip(&blocks) {
            room.copy_from_slice(&block.to_bytes());
        }
        let (store, reference) = match self.into {
            Which::First => (first, second),
            Which::Second => (second, first),
        };
        store.copy_from_slice(&picture.reconstruct(reference));
        let sent = Sent {
            picture: self.next,
            blocks: blocks.len(),
        };
        self.next += 1;
        self.into = self.into.other();
        Ok(sent)
    }
}
