//! Salvage (document 02, T-09): a damaged list of blocks into a new clip, by what a fresh receiver of the old
//! clip answers to each block in order.

use std::collections::BTreeSet;
use std::fmt;

use crate::block::{Block, BLOCK_LENGTH};
use crate::kind::Kind;
use crate::receiver::{Answer, Lent, Receiver};
use crate::refusal::Refusal;

/// "The log names every old number kept with its new one, every run of numbers skipped, and every block dropped
/// with its answer", each with the block's number in the list.
#[derive(Clone, Copy, PartialEq, Eq, Debug)]
pub enum Entry {
    Kept {
        block: usize,
        old: u32,
        new: u32,
    },
    /// "Ticks across a cut restart .. and the log says so."
    Skipped {
        block: usize,
        first: u32,
        last: u32,
    },
    Dropped {
        block: usize,
        answer: Answer,
    },
}

impl fmt::Display for Entry {
    fn fmt(&self, out: &mut fmt::Formatter<'_>) -> fmt::Result {
        match self {
            Entry::Kept { block, old, new } => write!(out, "{block} kept {old} as {new}"),
            Entry::Skipped { block, first, last } => {
                write!(out, "{block} skipped {first} to {last}, ticks restart")
            }
            Entry::Dropped { block, answer } => write!(out, "{block} dropped {answer}"),
        }
    }
}

/// How many blocks were written, and how many entries.
#[derive(Clone, Copy, PartialEq, Eq, Debug)]
pub struct Salvaged {
    pub blocks: usize,
    pub entries: usize,
}

/// Refusals in the order 1, 22, 43; then nothing is written. "The output has the input list's length, the log
/// two entries a block; what lies after is untouched."
pub fn salvage(
    kind: impl Into<Kind>,
    (old, new): (u16, u16),
    list: &[u8],
    out: &mut [u8],
    log: &mut [Entry],
) -> Result<Salvaged, Refusal> {
    let is_whole = list.len().is_multiple_of(BLOCK_LENGTH);
    if !is_whole || out.len() != list.len() || log.len() != 2 * (list.len() / BLOCK_LENGTH) {
        return Err(Refusal::plain(1));
    }
    let (blocks, entries) = salvaged(kind.into(), old, new, list)?;
    out[..blocks.len()].copy_from_slice(&blocks);
    log[..entries.len()].copy_from_slice(&entries);
    Ok(Salvaged {
        blocks: blocks.len() / BLOCK_LENGTH,
        entries: entries.len(),
    })
}

/// The new clip and the log of a whole list; 22 or 43.
pub fn salvaged(
    kind: Kind,
    old: u16,
    new: u16,
    list: &[u8],
) -> Result<(Vec<u8>, Vec<Entry>), Refusal> {
    if new == 0 {
        return Err(Refusal::plain(22));
    }
    let answers = answers(kind, old, list)?;
    let kept = kept_pictures(&answers);
    if kept.is_empty() {
        return Err(Refusal::plain(43));
    }
    let log = answers
        .iter()
        .enumerate()
        .flat_map(|(block, &answer)| entries(&kept, block, answer))
        .collect();
    let blocks = list
        .chunks(BLOCK_LENGTH)
        .zip(&answers)
        .filter_map(|(bytes, answer)| {
            let picture = taken_for(answer).filter(|picture| kept.contains(picture))?;
            let mut block = Block::judge(bytes, kind).expect("a block that was taken");
            block.clip = new;
            block.position.picture = new_number(&kept, picture);
            Some(block.to_bytes())
        })
        .flatten()
        .collect();
    Ok((blocks, log))
}

/// What a fresh receiver of the clip answers to each block.
fn answers(kind: Kind, clip: u16, list: &[u8]) -> Result<Vec<Answer>, Refusal> {
    let mut receiver = Receiver::open(kind, clip)?;
    let mut collection = vec![0; kind.collection_length()];
    let mut first = vec![0; kind.store_length()];
    let mut second = vec![0; kind.store_length()];
    let mut lent = Lent {
        collection: &mut collection,
        first: &mut first,
        second: &mut second,
    };
    let blocks = list.chunks(BLOCK_LENGTH);
    Ok(blocks
        .map(|block| receiver.receive(block, &mut lent))
        .collect())
}

/// "Exactly the pictures a fresh receiver finishes in step."
fn kept_pictures(answers: &[Answer]) -> BTreeSet<u32> {
    answers
        .iter()
        .filter_map(|answer| match answer {
            Answer::Finished(picture, _) => Some(*picture),
            _ => None,
        })
        .collect()
}

/// The picture that a block was taken for. No place is taken twice, so that a kept picture's blocks are just
/// those that were taken for it.
fn taken_for(answer: &Answer) -> Option<u32> {
    match answer {
        Answer::Taken(position) => Some(position.picture),
        Answer::Finished(picture, _) => Some(*picture),
        _ => None,
    }
}

/// "Renumber them from 0 without gaps."
fn new_number(kept: &BTreeSet<u32>, picture: u32) -> u32 {
    kept.range(..picture).count() as u32
}

/// "In the order of the blocks (a kept picture at its last block, after its run)."
fn entries(kept: &BTreeSet<u32>, block: usize, answer: Answer) -> Vec<Entry> {
    match answer {
        Answer::Finished(picture, _) => {
            let before = kept.range(..picture).next_back();
            let first = before.map_or(0, |last| last + 1);
            let run = (first < picture).then(|| Entry::Skipped {
                block,
                first,
                last: picture - 1,
            });
            let kept = Entry::Kept {
                block,
                old: picture,
                new: new_number(kept, picture),
            };
            run.into_iter().chain([kept]).collect()
        }
        Answer::Taken(position) if kept.contains(&position.picture) => Vec::new(),
        _ => vec![Entry::Dropped { block, answer }],
    }
}
