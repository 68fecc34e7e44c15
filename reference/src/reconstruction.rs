//! From a description and the reference store to the picture's store.

use crate::description::{self, Description, Macroblock, Vector};
use crate::format::{Format, MACROBLOCKS_PER_GROUP};
use crate::transform::{coefficients, inverse_transform, Block};

/// Where a component lies in a store.
#[derive(Clone, Copy)]
struct Plane {
    offset: usize,
    width: usize,
}

impl Plane {
    fn at(self, left: usize, top: usize) -> usize {
        self.offset + top * self.width + left
    }
}

/// Y, CB, CR.
fn planes(format: Format) -> [Plane; 3] {
    let (width, height) = (format.width(), format.height());
    let luminance = width * height;
    [
        Plane { offset: 0, width },
        Plane {
            offset: luminance,
            width: width / 2,
        },
        Plane {
            offset: luminance + luminance / 4,
            width: width / 2,
        },
    ]
}

/// One block of a macroblock: its plane, its left and top sample, and the vector for it.
struct Place {
    plane: Plane,
    left: usize,
    top: usize,
    vector: Vector,
}

/// "Chroma vectors: each component halved, towards zero."
pub fn chroma_vector(vector: Vector) -> Vector {
    Vector {
        horizontal: vector.horizontal / 2,
        vertical: vector.vertical / 2,
    }
}

/// Figure 10: Y upper left, upper right, lower left, lower right, then CB, CR.
fn places(format: Format, index: usize, vector: Vector) -> [Place; 6] {
    let [luminance, blue, red] = planes(format);
    let (left, top) = format.origin(index);
    let of_luminance = |right: usize, down: usize| Place {
        plane: luminance,
        left: left + 8 * right,
        top: top + 8 * down,
        vector,
    };
    let of_chroma = |plane: Plane| Place {
        plane,
        left: left / 2,
        top: top / 2,
        vector: chroma_vector(vector),
    };
    [
        of_luminance(0, 0),
        of_luminance(1, 0),
        of_luminance(0, 1),
        of_luminance(1, 1),
        of_chroma(blue),
        of_chroma(red),
    ]
}

/// The store of a valid description over a reference of its format.
pub fn reconstruct(description: &Description, reference: &[u8]) -> Vec<u8> {
    let format = description.format();
    assert_eq!(reference.len(), format.store_length());
    let mut store = vec![0; format.store_length()];
    for (group, &group_quantiser) in description.group_quantisers.iter().enumerate() {
        // "A quantiser stands until the next MQUANT or group."
        let mut quantiser = group_quantiser;
        for within in 0..MACROBLOCKS_PER_GROUP {
            let index = group * MACROBLOCKS_PER_GROUP + within;
            let macroblock = &description.macroblocks[index];
            if description::has_mquant(macroblock.kind) {
                quantiser = macroblock.mquant;
            }
            reconstruct_macroblock(format, index, macroblock, quantiser, reference, &mut store);
        }
    }
    store
}

fn reconstruct_macroblock(
    format: Format,
    index: usize,
    macroblock: &Macroblock,
    quantiser: u8,
    reference: &[u8],
    store: &mut [u8],
) {
    let intra = description::is_intra(macroblock.kind);
    let places = places(format, index, macroblock.vector);
    for (place, levels) in places.iter().zip(&macroblock.levels) {
        let prediction = if intra {
            [[0; 8]; 8]
        } else {
            // An unsent macroblock has no vector and no levels: it is copied.
            predict(place, reference, description::has_filter(macroblock.kind))
        };
        let mut block = prediction;
        if levels.iter().any(|&level| level != 0) {
            let difference = inverse_transform(&coefficients(levels, quantiser, intra));
            add(&mut block, &difference);
        }
        put(place, &block, store);
    }
}

fn predict(place: &Place, reference: &[u8], filtered: bool) -> Block {
    let left = place
        .left
        .strict_add_signed(isize::from(place.vector.horizontal));
    let top = place
        .top
        .strict_add_signed(isize::from(place.vector.vertical));
    let mut block = [[0; 8]; 8];
    for (y, row) in block.iter_mut().enumerate() {
        let from = place.plane.at(left, top + y);
        for (sample, &byte) in row.iter_mut().zip(&reference[from..from + 8]) {
            *sample = i32::from(byte);
        }
    }
    if filtered {
        loop_filter(&block)
    } else {
        block
    }
}

/// "Weights 1, 2, 1 each way inside the 8 by 8 block, 0, 4, 0 at its edge; the sum plus 8, divided by
/// 16, rounded down."
pub fn loop_filter(block: &Block) -> Block {
    let weights = |at: usize| match at {
        0 | 7 => [0, 4, 0],
        _ => [1, 2, 1],
    };
    let mut output = [[0; 8]; 8];
    for (y, row) in output.iter_mut().enumerate() {
        for (x, sample) in row.iter_mut().enumerate() {
            let mut sum = 0;
            for (down, by_row) in weights(y).into_iter().enumerate() {
                for (right, by_column) in weights(x).into_iter().enumerate() {
                    let weight = by_row * by_column;
                    if weight != 0 {
                        sum += weight * block[y + down - 1][x + right - 1];
                    }
                }
            }
            *sample = (sum + 8) / 16;
        }
    }
    output
}

fn add(block: &mut Block, difference: &Block) {
    for (row, differences) in block.iter_mut().zip(difference) {
        for (sample, by) in row.iter_mut().zip(differences) {
            *sample = (*sample + by).clamp(0, 255);
        }
    }
}

fn put(place: &Place, block: &Block, store: &mut [u8]) {
    for (y, row) in block.iter().enumerate() {
        let from = place.plane.at(place.left, place.top + y);
        for (byte, &sample) in store[from..from + 8].iter_mut().zip(row) {
            *byte = sample as u8;
        }
    }
}

#[cfg(test)]
mod tests {
    use super::*;

    #[test]
    fn macroblocks_tile_the_picture() {
        for format in Format::ALL {
            let mut seen = vec![0; format.store_length()];
            for index in 0..format.macroblock_count() {
                for place in places(format, index, Vector::default()) {
                    for y in 0..8 {
                        let from = place.plane.at(place.left, place.top + y);
                        for count in &mut seen[from..from + 8] {
                            *count += 1;
                        }
                    }
                }
            }
            assert!(seen.iter().all(|&count| count == 1));
        }
    }
}
