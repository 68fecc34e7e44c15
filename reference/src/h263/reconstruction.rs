//! From a description and the reference store to the picture's store.

use crate::description::Vector;
use crate::transform::{coefficients, inverse_transform, Block};

use super::description::{Description, Macroblock};
use super::format::Format;
use super::vectors::{chroma_vector, whole_and_half};

/// One component of a store: where it begins, and its size.
#[derive(Clone, Copy)]
struct Plane {
    offset: usize,
    width: usize,
    height: usize,
}

impl Plane {
    /// The sample's place in a store; panics outside the plane.
    fn at(self, column: usize, row: usize) -> usize {
        assert!(column < self.width && row < self.height);
        self.offset + row * self.width + column
    }
}

/// Y, CB, CR.
fn planes(format: Format) -> [Plane; 3] {
    let (width, height) = (format.width(), format.height());
    let chroma = |offset| Plane {
        offset,
        width: width / 2,
        height: height / 2,
    };
    let luminance = Plane {
        offset: 0,
        width,
        height,
    };
    [
        luminance,
        chroma(width * height),
        chroma(width * height * 5 / 4),
    ]
}

/// One block of a macroblock: its plane, its left and top sample, and the vector for it.
struct Place {
    plane: Plane,
    left: usize,
    top: usize,
    vector: Vector,
}

/// Figure 5: Y upper left, upper right, lower left, lower right, then CB, CR.
fn places(format: Format, index: usize, vector: Vector) -> [Place; 6] {
    let [luminance, blue, red] = planes(format);
    let (left, top) = format.origin(index);
    let place = |plane, left, top, vector| Place {
        plane,
        left,
        top,
        vector,
    };
    let chroma = chroma_vector(vector);
    [
        place(luminance, left, top, vector),
        place(luminance, left + 8, top, vector),
        place(luminance, left, top + 8, vector),
        place(luminance, left + 8, top + 8, vector),
        place(blue, left / 2, top / 2, chroma),
        place(red, left / 2, top / 2, chroma),
    ]
}

/// The store of a valid description over a reference of its format.
pub fn reconstruct(description: &Description, reference: &[u8]) -> Vec<u8> {
    let format = description.format();
    assert_eq!(reference.len(), format.store_length());
    let mut store = vec![0; format.store_length()];
    // PQUANT stands "for the picture until updated by any subsequent GQUANT or DQUANT".
    let mut quantiser = description.quantiser;
    for (index, macroblock) in description.macroblocks.iter().enumerate() {
        let group = index / format.columns();
        if index % format.columns() == 0 && description.has_header(group) {
            quantiser = description.group_quantisers[group];
        }
        quantiser = updated(quantiser, macroblock.dquant);
        reconstruct_macroblock(format, index, macroblock, quantiser, reference, &mut store);
    }
    store
}

/// "If the value for QUANT after adding the differential value is less than 1 or greater than 31, it is
/// clipped to 1 and 31 respectively."
pub fn updated(quantiser: u8, difference: i8) -> u8 {
    (quantiser as i8 + difference).clamp(1, 31) as u8
}

fn reconstruct_macroblock(
    format: Format,
    index: usize,
    macroblock: &Macroblock,
    quantiser: u8,
    reference: &[u8],
    store: &mut [u8],
) {
    let places = places(format, index, macroblock.vector);
    for (place, levels) in places.iter().zip(&macroblock.levels) {
        let prediction = if macroblock.is_intra() {
            [[0; 8]; 8]
        } else {
            // An unsent macroblock has no vector and no levels: it is copied.
            predict(place, reference)
        };
        let difference = if levels.iter().any(|&level| level != 0) {
            inverse_transform(&coefficients(levels, quantiser, macroblock.is_intra()))
        } else {
            [[0; 8]; 8]
        };
        for y in 0..8 {
            for x in 0..8 {
                let sample = (prediction[y][x] + difference[y][x]).clamp(0, 255);
                store[place.plane.at(place.left + x, place.top + y)] = sample as u8;
            }
        }
    }
}

/// Figure 12: each sample from the A, B, C, D around it, by one of four formulas.
fn predict(place: &Place, reference: &[u8]) -> Block {
    let (right, half_right) = whole_and_half(place.vector.horizontal);
    let (down, half_down) = whole_and_half(place.vector.vertical);
    let mut block = [[0; 8]; 8];
    for (y, row) in block.iter_mut().enumerate() {
        for (x, sample) in row.iter_mut().enumerate() {
            let column = (place.left + x).strict_add_signed(right);
            let line = (place.top + y).strict_add_signed(down);
            let at = |column, line| i32::from(reference[place.plane.at(column, line)]);
            *sample = match (half_right, half_down) {
                (false, false) => at(column, line),
                (true, false) => half(at(column, line), at(column + 1, line)),
                (false, true) => half(at(column, line), at(column, line + 1)),
                (true, true) => quarter(
                    at(column, line),
                    at(column + 1, line),
                    at(column, line + 1),
                    at(column + 1, line + 1),
                ),
            };
        }
    }
    block
}

/// b and c of Figure 12.
pub fn half(one: i32, other: i32) -> i32 {
    (one + other + 1) / 2
}

/// d of Figure 12.
pub fn quarter(a: i32, b: i32, c: i32, d: i32) -> i32 {
    (a + b + c + d + 2) / 4
}

#[cfg(test)]
mod tests {
    use super::*;

    #[test]
    fn macroblocks_tile_the_picture() {
        for format in Format::ALL {
            let mut seen = vec![0; format.store_length()];
            for index in 0..format.macroblock_count() {
                for place in places(format, index, Vector::default()) {
                    for y in 0..8 {
                        let from = place.plane.at(place.left, place.top + y);
                        for count in &mut seen[from..from + 8] {
                            *count += 1;
                        }
                    }
                }
            }
            assert!(seen.iter().all(|&count| count == 1));
        }
    }
}
