//! Annex A of H.261: its generator, its forward transform, and the figures of an inverse one.

use std::f64::consts::PI;

use crate::transform::Block;

/// The ranges -L to H of A.1.
pub const RANGES: [(i32, i32); 3] = [(256, 255), (5, 5), (300, 300)];
pub const BLOCKS_PER_SET: usize = 10_000;

/// A.1's generator; it starts anew for each data set, so that A.9 has the same values.
struct Generator {
    state: u32,
}

impl Generator {
    fn next(&mut self, low: i32, high: i32) -> i32 {
        self.state = self.state.wrapping_mul(1_103_515_245).wrapping_add(12_345);
        let kept = self.state & 0x7FFF_FFFE;
        let share = f64::from(kept) / f64::from(0x7FFF_FFFFu32);
        (share * f64::from(low + high + 1)) as i32 - low
    }
}

/// A data set's name and its 10,000 coefficient blocks.
pub struct DataSet {
    pub low: i32,
    pub high: i32,
    pub sign: i32,
    pub blocks: Vec<Block>,
}

/// All six: each range, then each again with the other sign (A.9).
pub fn data_sets() -> Vec<DataSet> {
    let basis = Basis::new();
    let mut sets = Vec::new();
    for sign in [1, -1] {
        for (low, high) in RANGES {
            let mut generator = Generator { state: 1 };
            let blocks = (0..BLOCKS_PER_SET)
                .map(|_| {
                    let mut pels: Block = [[0; 8]; 8];
                    for pel in pels.iter_mut().flatten() {
                        *pel = sign * generator.next(low, high);
                    }
                    basis.forward(&pels)
                })
                .collect();
            sets.push(DataSet {
                low,
                high,
                sign,
                blocks,
            });
        }
    }
    sets
}

/// The orthonormal basis in f64: `rows[u][x]` is C(u)/2·cos((2x+1)uπ/16).
pub struct Basis {
    rows: [[f64; 8]; 8],
}

impl Basis {
    pub fn new() -> Basis {
        let mut rows = [[0.0; 8]; 8];
        for (u, row) in rows.iter_mut().enumerate() {
            let weight = if u == 0 { 0.5f64.sqrt() } else { 1.0 };
            for (x, value) in row.iter_mut().enumerate() {
                *value = weight / 2.0 * ((2 * x + 1) as f64 * u as f64 * PI / 16.0).cos();
            }
        }
        Basis { rows }
    }

    /// A.2 and A.3: rounded to the nearest and cut to 12 bits.
    fn forward(&self, pels: &Block) -> Block {
        self.separable(pels, |u, x| self.rows[u][x], (-2048, 2047))
    }

    /// A.4: rounded to the nearest and cut to -256..255.
    pub fn inverse(&self, block: &Block) -> Block {
        self.separable(block, |x, u| self.rows[u][x], (-256, 255))
    }

    /// Rows, then columns, by the matrix that `weight` gives.
    fn separable(
        &self,
        block: &Block,
        weight: impl Fn(usize, usize) -> f64,
        (least, most): (i32, i32),
    ) -> Block {
        let mut halfway = [[0.0; 8]; 8];
        for (row, from) in halfway.iter_mut().zip(block) {
            for (i, value) in row.iter_mut().enumerate() {
                *value = (0..8).map(|j| f64::from(from[j]) * weight(i, j)).sum();
            }
        }
        let mut output = [[0; 8]; 8];
        for (i, row) in output.iter_mut().enumerate() {
            for (column, value) in row.iter_mut().enumerate() {
                let sum: f64 = (0..8).map(|j| halfway[j][column] * weight(i, j)).sum();
                *value = ((sum + 0.5).floor() as i32).clamp(least, most);
            }
        }
        output
    }
}

impl Default for Basis {
    fn default() -> Basis {
        Basis::new()
    }
}

/// A.6's figures of one data set.
pub struct Figures {
    pub peak: i32,
    pub worst_mean_square: f64,
    pub mean_square: f64,
    pub worst_mean: f64,
    pub mean: f64,
}

impl Figures {
    /// Of a transform's outputs for a data set's blocks.
    pub fn measure(blocks: &[Block], outputs: &[Block]) -> Figures {
        assert_eq!(blocks.len(), outputs.len());
        let basis = Basis::new();
        let mut peak = 0;
        let mut sums = [[0i64; 8]; 8];
        let mut squares = [[0i64; 8]; 8];
        for (block, output) in blocks.iter().zip(outputs) {
            let exact = basis.inverse(block);
            for y in 0..8 {
                for x in 0..8 {
                    let error = output[y][x] - exact[y][x];
                    peak = peak.max(error.abs());
                    sums[y][x] += i64::from(error);
                    squares[y][x] += i64::from(error * error);
                }
            }
        }
        let count = blocks.len() as f64;
        let worst = |totals: &[[i64; 8]; 8]| {
            let most = totals.iter().flatten().map(|total| total.abs()).max();
            most.unwrap_or(0) as f64 / count
        };
        let overall =
            |totals: &[[i64; 8]; 8]| totals.iter().flatten().sum::<i64>() as f64 / (64.0 * count);
        Figures {
            peak,
            worst_mean_square: worst(&squares),
            mean_square: overall(&squares),
            worst_mean: worst(&sums),
            mean: overall(&sums),
        }
    }

    /// A.7.
    pub fn within_bounds(&self) -> bool {
        self.peak <= 1
            && self.worst_mean_square <= 0.06
            && self.mean_square <= 0.02
            && self.worst_mean <= 0.015
            && self.mean.abs() <= 0.0015
    }
}

#[cfg(test)]
mod tests {
    use super::*;
    use crate::transform::inverse_transform;

    #[test]
    fn the_transform_keeps_annex_a() {
        for set in data_sets() {
            let outputs: Vec<Block> = set.blocks.iter().map(inverse_transform).collect();
            assert!(Figures::measure(&set.blocks, &outputs).within_bounds());
        }
        // A.8.
        assert_eq!(inverse_transform(&[[0; 8]; 8]), [[0; 8]; 8]);
    }
}
