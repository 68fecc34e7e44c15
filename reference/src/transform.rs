//! From levels to a block of differences: dequantiser, Figure 12, and document 01's own transform.

use crate::tables::FIGURE_12;

/// Eight rows of eight: `block[v][u]` or `block[y][x]`.
pub type Block = [[i32; 8]; 8];

/// 2048·√2·cos(kπ/16), rounded, for k from 0 to 8. k of 0 stands only in the row u = 0, where C(0)
/// makes it 2048.
const MAGNITUDES: [i64; 9] = [2048, 2841, 2676, 2408, 2048, 1609, 1108, 565, 0];

/// "Table A\[u\]\[x\] is 2048·√2·C(u)·cos((2x+1)uπ/16) rounded."
pub const TABLE_A: [[i64; 8]; 8] = table_a();

const fn table_a() -> [[i64; 8]; 8] {
    let mut table = [[0; 8]; 8];
    let mut at = 0;
    while at < 64 {
        let (u, x) = (at / 8, at % 8);
        table[u][x] = cosine((2 * x + 1) * u);
        at += 1;
    }
    table
}

/// The table's value for an angle in sixteenths of π; a whole turn is 32 of them.
const fn cosine(sixteenths: usize) -> i64 {
    match sixteenths % 32 {
        angle @ 0..=8 => MAGNITUDES[angle],
        angle @ 9..=16 => -MAGNITUDES[16 - angle],
        angle @ 17..=24 => -MAGNITUDES[angle - 16],
        angle => MAGNITUDES[32 - angle],
    }
}

/// "s times Q(2|L|+1), and where Q is even, that magnitude less 1; then cut to -2048..2047."
pub fn dequantise(quantiser: u8, level: i8) -> i32 {
    if level == 0 {
        return 0;
    }
    let (quantiser, level) = (i32::from(quantiser), i32::from(level));
    let odd = quantiser * (2 * level.abs() + 1);
    let magnitude = if quantiser % 2 == 0 { odd - 1 } else { odd };
    (level.signum() * magnitude).clamp(-2048, 2047)
}

/// "DC code n gives 8n; 255 gives 1,024."
pub fn intra_dc(code: u8) -> i32 {
    match code {
        255 => 1024,
        _ => 8 * i32::from(code),
    }
}

/// The coefficients of a block of levels in transmission order.
pub fn coefficients(levels: &[i8; 64], quantiser: u8, intra: bool) -> Block {
    let mut block = [[0; 8]; 8];
    for (row, places) in block.iter_mut().zip(FIGURE_12) {
        for (coefficient, place) in row.iter_mut().zip(places) {
            let level = levels[usize::from(place) - 1];
            *coefficient = if intra && place == 1 {
                intra_dc(level as u8)
            } else {
                dequantise(quantiser, level)
            };
        }
    }
    block
}

/// "S is the exact whole sum of F(u,v)·A\[u\]\[x\]·A\[v\]\[y\]. The output is S + 2^24 divided by 2^25,
/// rounded down, cut to -256..255." Summed over u first: whole numbers, so nothing is rounded between.
pub fn inverse_transform(block: &Block) -> Block {
    let mut rows = [[0i64; 8]; 8];
    for (v, row) in rows.iter_mut().enumerate() {
        for (x, sum) in row.iter_mut().enumerate() {
            *sum = (0..8).map(|u| i64::from(block[v][u]) * TABLE_A[u][x]).sum();
        }
    }
    let mut output = [[0; 8]; 8];
    for (y, line) in output.iter_mut().enumerate() {
        for (x, sample) in line.iter_mut().enumerate() {
            let sum: i64 = (0..8).map(|v| rows[v][x] * TABLE_A[v][y]).sum();
            *sample = (sum + (1 << 24)).div_euclid(1 << 25).clamp(-256, 255) as i32;
        }
    }
    output
}

#[cfg(test)]
mod tests {
    use super::*;
    use std::f64::consts::PI;

    #[test]
    fn table_a_is_the_rounded_cosine() {
        for (u, row) in TABLE_A.iter().enumerate() {
            for (x, &value) in row.iter().enumerate() {
                let weight = if u == 0 { 0.5f64.sqrt() } else { 1.0 };
                let cosine = ((2 * x + 1) as f64 * u as f64 * PI / 16.0).cos();
                let exact = 2048.0 * 2f64.sqrt() * weight * cosine;
                assert_eq!(value, exact.round() as i64, "u {u} x {x}");
            }
        }
    }

    #[test]
    fn figure_12_names_each_place_once() {
        let mut places: Vec<u8> = FIGURE_12.into_iter().flatten().collect();
        places.sort_unstable();
        assert_eq!(places, (1..=64).collect::<Vec<u8>>());
    }

    /// The columns of H.261's table of reconstruction levels that document 000 has readable.
    #[test]
    fn reconstruction_levels_of_the_recommendation() {
        let quantisers = [1, 2, 3, 4, 8, 9, 17, 18, 30, 31];
        let printed: [(i8, [i32; 10]); 5] = [
            (
                -127,
                [
                    -255, -509, -765, -1019, -2039, -2048, -2048, -2048, -2048, -2048,
                ],
            ),
            (-2, [-5, -9, -15, -19, -39, -45, -85, -89, -149, -155]),
            (5, [11, 21, 33, 43, 87, 99, 187, 197, 329, 341]),
            (56, [113, 225, 339, 451, 903, 1017, 1921, 2033, 2047, 2047]),
            (
                127,
                [255, 509, 765, 1019, 2039, 2047, 2047, 2047, 2047, 2047],
            ),
        ];
        for (level, row) in printed {
            for (quantiser, value) in quantisers.into_iter().zip(row) {
                assert_eq!(dequantise(quantiser, level), value);
            }
        }
    }
}
