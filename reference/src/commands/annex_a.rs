//! Annex A's data and figures.

use reference::annex_a::{data_sets, Figures};
use reference::transform::{inverse_transform, Block};

use super::blocks::put_block;

const BYTES_PER_BLOCK: usize = 128;

/// All coefficient blocks of the six data sets.
pub fn coefficients() -> Vec<u8> {
    let mut bytes = Vec::new();
    for set in data_sets() {
        for block in &set.blocks {
            put_block(&mut bytes, block);
        }
    }
    bytes
}

/// The figures of a program's outputs; with no bytes, of the reference's own transform.
pub fn figures(outputs: &[u8]) -> Result<String, String> {
    let sets = data_sets();
    let total: usize = sets.iter().map(|set| set.blocks.len()).sum();
    if !outputs.is_empty() && outputs.len() != BYTES_PER_BLOCK * total {
        return Err(format!(
            "expected {total} blocks of {BYTES_PER_BLOCK} bytes"
        ));
    }
    let mut given = outputs.chunks(BYTES_PER_BLOCK).map(block_from);
    let mut text = String::new();
    let mut all_within = true;
    for set in &sets {
        let tested: Vec<Block> = if outputs.is_empty() {
            set.blocks.iter().map(inverse_transform).collect()
        } else {
            given.by_ref().take(set.blocks.len()).collect()
        };
        let figures = Figures::measure(&set.blocks, &tested);
        let within = figures.within_bounds();
        all_within &= within;
        text.push_str(&format!(
            "L {} H {} sign {:+}: peak {}, mean square {:.6} (worst pel {:.6}), mean {:+.6} (worst pel {:.6}): {}\n",
            set.low,
            set.high,
            set.sign,
            figures.peak,
            figures.mean_square,
            figures.worst_mean_square,
            figures.mean,
            figures.worst_mean,
            if within { "within" } else { "out of bounds" }
        ));
    }
    text.push_str(if all_within {
        "within the bounds of Annex A\n"
    } else {
        "out of the bounds of Annex A\n"
    });
    Ok(text)
}

fn block_from(bytes: &[u8]) -> Block {
    let mut block = [[0; 8]; 8];
    for (value, pair) in block.iter_mut().flatten().zip(bytes.chunks_exact(2)) {
        *value = i32::from(i16::from_be_bytes([pair[0], pair[1]]));
    }
    block
}
