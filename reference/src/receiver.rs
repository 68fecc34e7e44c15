//! The receiver: blocks in any order to pictures in step.

use crate::block::{Block, Position, PAYLOAD_BITS, PAYLOAD_LENGTH};
use crate::coding::{read_listed, Picture};
use crate::kind::Kind;
use crate::refusal::Refusal;
use crate::stores::Which;
use crate::ticks::{Finished, Tick};

#[derive(Clone, Copy, PartialEq, Eq, Debug)]
pub enum Stand {
    Lost,
    Catching,
    InStep(u32),
}

#[derive(Clone, Copy, PartialEq, Eq, Debug)]
pub struct Receiver {
    kind: Kind,
    clip: u16,
    /// The part after the last and the picture after the last can be wanted, but never come.
    wanted: Position,
    stand: Stand,
    /// The mark of the collection's part 0.
    refresh_mark: bool,
    /// The store that the next finished picture goes into; the other holds the last finished one.
    into: Which,
    /// Since opening, not since a loss.
    last: Option<Finished>,
}

#[derive(Clone, Copy, PartialEq, Eq, Debug)]
pub enum Answer {
    Old(Position),
    Taken(Position),
    Finished(u32, Tick),
    Lost,
    Refused(Refusal),
}

/// A picture whose last part was taken: its bits, and how many reads they took (T-13).
#[derive(Clone, Copy, PartialEq, Eq, Debug)]
pub struct PictureRead {
    pub bits: usize,
    pub reads: usize,
}

/// The three lent buffers.
pub struct Lent<'a> {
    pub collection: &'a mut [u8],
    pub first: &'a mut [u8],
    pub second: &'a mut [u8],
}

impl Receiver {
    /// Clip 0 is refused by 22.
    pub fn open(kind: impl Into<Kind>, clip: u16) -> Result<Receiver, Refusal> {
        if clip == 0 {
            return Err(Refusal::plain(22));
        }
        Ok(Receiver {
            kind: kind.into(),
            clip,
            wanted: Position {
                picture: 0,
                part: 0,
            },
            stand: Stand::Lost,
            refresh_mark: false,
            into: Which::First,
            last: None,
        })
    }

    pub fn stand(&self) -> Stand {
        self.stand
    }

    fn lengths_are_right(&self, lent: &Lent) -> bool {
        lent.collection.len() == self.kind.collection_length()
            && lent.first.len() == self.kind.store_length()
            && lent.second.len() == self.kind.store_length()
    }

    pub fn receive(&mut self, bytes: &[u8], lent: &mut Lent) -> Answer {
        let (answer, _) = self.receive_counting(bytes, lent);
        answer
    }

    /// The answer, and what was read where a last part was taken.
    pub fn receive_counting(
        &mut self,
        bytes: &[u8],
        lent: &mut Lent,
    ) -> (Answer, Option<PictureRead>) {
        let block = match self.judge(bytes, lent) {
            Ok(block) => block,
            Err(refusal) => return (Answer::Refused(refusal), None),
        };
        if block.position < self.wanted {
            (Answer::Old(block.position), None)
        } else if block.position == self.wanted && self.stand != Stand::Lost {
            self.take(&block, lent)
        } else if block.position.part == 0 && block.is_refresh {
            self.stand = Stand::Catching;
            self.take(&block, lent)
        } else {
            self.stand = Stand::Lost;
            (Answer::Lost, None)
        }
    }

    /// "Blocks: 1, 21, 22, 23", and then "5, place 0 and after 23, for a block of the other standard".
    fn judge(&self, bytes: &[u8], lent: &Lent) -> Result<Block, Refusal> {
        if !self.lengths_are_right(lent) {
            return Err(Refusal::plain(1));
        }
        let block = Block::judge(bytes, self.kind)?;
        if block.clip != self.clip {
            return Err(Refusal::plain(23));
        }
        if block.standard != self.kind.standard() {
            return Err(Refusal::at(5, 0));
        }
        Ok(block)
    }

    fn take(&mut self, block: &Block, lent: &mut Lent) -> (Answer, Option<PictureRead>) {
        let Position { picture, part } = block.position;
        let from = PAYLOAD_LENGTH * usize::from(part);
        lent.collection[from..from + PAYLOAD_LENGTH].copy_from_slice(&block.payload);
        if part == 0 {
            self.refresh_mark = block.is_refresh;
        }
        if !block.is_last {
            self.wanted = Position {
                picture,
                part: part + 1,
            };
            return (Answer::Taken(block.position), None);
        }
        self.wanted = Position {
            picture: picture + 1,
            part: 0,
        };
        let bits = PAYLOAD_BITS * usize::from(part) + block.bits_used;
        let reading = read_listed(lent.collection, bits, self.kind);
        let reads = reading.reads.len();
        let answer = match self.finish(reading.answer, lent) {
            Ok(temporal_reference) => {
                let modulus = self.kind.tick_modulus();
                let finished = Finished::after(self.last, picture, temporal_reference, modulus);
                self.stand = Stand::InStep(picture);
                self.last = Some(finished);
                Answer::Finished(picture, finished.tick)
            }
            Err(refusal) => {
                self.stand = Stand::Lost;
                Answer::Refused(refusal)
            }
        };
        (answer, Some(PictureRead { bits, reads }))
    }

    /// The picture's TR. 24 is judged after acceptance and before any sample is written.
    fn finish(&mut self, answer: Result<Picture, Refusal>, lent: &mut Lent) -> Result<u8, Refusal> {
        let picture = answer?;
        if picture.is_refresh() != self.refresh_mark {
            return Err(Refusal::plain(24));
        }
        let (store, reference) = match self.into {
            Which::First => (&mut *lent.first, &*lent.second),
            Which::Second => (&mut *lent.second, &*lent.first),
        };
        store.copy_from_slice(&picture.reconstruct(reference));
        self.into = self.into.other();
        Ok(picture.temporal_reference())
    }

    /// The store that holds the picture to show, after the given answer; none where an empty part is
    /// handed out.
    pub fn shown(&self, answer: &Answer) -> Option<Which> {
        let refused_by_length = *answer == Answer::Refused(Refusal::plain(1));
        match self.stand {
            Stand::InStep(_) if !refused_by_length => Some(self.into.other()),
            _ => None,
        }
    }
}
