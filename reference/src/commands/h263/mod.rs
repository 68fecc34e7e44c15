//! What the subcommands make of H.263.

pub mod lists;
pub mod packs;
pub mod pictures;
pub mod render;
pub mod send;
pub mod streams;
pub mod words;
pub mod write;

use reference::h263::description::Description;

use super::Slices;

fn slices_of(description: &Description) -> Slices {
    Slices {
        head: description.head(),
        macroblocks: description.macroblock_bytes(),
        levels: description.level_bytes(),
    }
}
