//! What each subcommand makes.

pub mod annex_a;
pub mod blocks;
pub mod captures;
pub mod deliver;
pub mod due;
pub mod h263;
pub mod lists;
pub mod made;
pub mod packs;
pub mod pictures;
pub mod render;
pub mod salvages;
pub mod send;
pub mod streams;
pub mod words;
pub mod write;

use reference::description::Description;

/// Appends numbers, high byte first.
fn put16(bytes: &mut Vec<u8>, number: usize) {
    bytes.extend(u16::try_from(number).expect("16 bits").to_be_bytes());
}

fn put32(bytes: &mut Vec<u8>, number: usize) {
    bytes.extend(u32::try_from(number).expect("32 bits").to_be_bytes());
}

/// The three slices of a description, which tests may cut.
#[derive(Clone)]
pub struct Slices {
    head: Vec<u8>,
    macroblocks: Vec<u8>,
    levels: Vec<u8>,
}

impl Slices {
    fn of(description: &Description) -> Slices {
        Slices {
            head: description.head(),
            macroblocks: description.macroblock_bytes(),
            levels: description.level_bytes(),
        }
    }

    fn lent(&self) -> (&[u8], &[u8], &[u8]) {
        (&self.head, &self.macroblocks, &self.levels)
    }

    /// The three lengths, then the three slices.
    fn put(&self, bytes: &mut Vec<u8>) {
        put32(bytes, self.head.len());
        put32(bytes, self.macroblocks.len());
        put32(bytes, self.levels.len());
        bytes.extend(&self.head);
        bytes.extend(&self.macroblocks);
        bytes.extend(&self.levels);
    }
}
