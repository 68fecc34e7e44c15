//! The vault lister: a line for each block, and the end. How much reading a vault causes (T-13): a line
//! for each picture that was read, and the lister's end.

use std::fmt;

use crate::block::{Block, Position, BLOCK_LENGTH};
use crate::kind::{Kind, Size};
use crate::receiver::{Answer, Lent, PictureRead, Receiver, Stand};
use crate::refusal::Refusal;
use crate::stores::Which;

impl fmt::Display for Position {
    fn fmt(&self, out: &mut fmt::Formatter<'_>) -> fmt::Result {
        write!(out, "{}.{}", self.picture, self.part)
    }
}

impl fmt::Display for Answer {
    fn fmt(&self, out: &mut fmt::Formatter<'_>) -> fmt::Result {
        match self {
            Answer::Old(position) => write!(out, "old {position}"),
            Answer::Taken(position) => write!(out, "taken {position}"),
            Answer::Finished(picture, tick) => write!(out, "picture {picture} tick {tick}"),
            Answer::Lost => write!(out, "lost"),
            Answer::Refused(refusal) => write!(out, "{refusal}"),
        }
    }
}

impl fmt::Display for Stand {
    fn fmt(&self, out: &mut fmt::Formatter<'_>) -> fmt::Result {
        match self {
            Stand::Lost => write!(out, "lost"),
            Stand::Catching => write!(out, "catching"),
            Stand::InStep(picture) => write!(out, "in step at {picture}"),
        }
    }
}

/// A receiver with its own buffers, opened at the first block without 21 or 22, which names clip and
/// standard.
pub struct Vault {
    size: Size,
    clip: Option<(u16, Receiver)>,
    pub collection: Vec<u8>,
    pub first: Vec<u8>,
    pub second: Vec<u8>,
}

impl Vault {
    pub fn new(size: impl Into<Size>) -> Vault {
        let size = size.into();
        // The two standards' buffers have the same lengths, and H.263 has every size.
        let kind = Kind::from(size.of_h263());
        Vault {
            size,
            clip: None,
            collection: vec![0; kind.collection_length()],
            first: vec![0; kind.store_length()],
            second: vec![0; kind.store_length()],
        }
    }

    /// The receiver of a block's clip; 5 where its standard hasn't the size.
    fn opened(&self, block: &Block) -> Result<Receiver, Refusal> {
        let kind = Kind::of(block.standard, self.size).ok_or(Refusal::at(5, 0))?;
        Receiver::open(kind, block.clip)
    }

    pub fn receive(&mut self, bytes: &[u8]) -> Answer {
        let (answer, _) = self.receive_counting(bytes);
        answer
    }

    pub fn receive_counting(&mut self, bytes: &[u8]) -> (Answer, Option<PictureRead>) {
        if self.clip.is_none() {
            let opened = Block::judge(bytes, self.size)
                .and_then(|block| Ok((block.clip, self.opened(&block)?)));
            match opened {
                Err(refusal) => return (Answer::Refused(refusal), None),
                Ok(clip) => self.clip = Some(clip),
            }
        }
        let (_, receiver) = self.clip.as_mut().expect("an opened clip");
        let mut lent = Lent {
            collection: &mut self.collection,
            first: &mut self.first,
            second: &mut self.second,
        };
        receiver.receive_counting(bytes, &mut lent)
    }

    /// The picture to show after an answer.
    pub fn shown(&self, answer: &Answer) -> Option<&[u8]> {
        let (_, receiver) = self.clip.as_ref()?;
        match receiver.shown(answer)? {
            Which::First => Some(&self.first),
            Which::Second => Some(&self.second),
        }
    }

    fn end_line(&self) -> String {
        match &self.clip {
            Some((clip, receiver)) => format!("end clip {clip} {}", receiver.stand()),
            None => "end none".to_string(),
        }
    }
}

pub fn list(size: impl Into<Size>, input: &[u8]) -> String {
    lines(size.into(), input, |answer, _| Some(answer.to_string()))
}

/// "A line exactly where a last part was taken and read."
pub fn reads(size: impl Into<Size>, input: &[u8]) -> String {
    lines(size.into(), input, |answer, read| {
        let PictureRead { bits, reads } = read?;
        let answer = match answer {
            Answer::Finished(picture, _) => format!("picture {picture}"),
            other => other.to_string(),
        };
        Some(format!("{answer} bits {bits} reads {reads}"))
    })
}

/// The blocks' lines with their numbers, a short last block, and the end.
fn lines(
    size: Size,
    input: &[u8],
    line: impl Fn(Answer, Option<PictureRead>) -> Option<String>,
) -> String {
    let mut vault = Vault::new(size);
    let mut text = String::new();
    for (number, bytes) in input.chunks(BLOCK_LENGTH).enumerate() {
        let said = if bytes.len() < BLOCK_LENGTH {
            Some("short".to_string())
        } else {
            let (answer, read) = vault.receive_counting(bytes);
            line(answer, read)
        };
        if let Some(said) = said {
            text.push_str(&format!("{number} {said}\n"));
        }
    }
    text.push_str(&vault.end_line());
    text.push('\n');
    text
}
