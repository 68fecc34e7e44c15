//! Coefficient blocks and what the transform gives for them.

use reference::random::Random;
use reference::transform::{inverse_transform, Block, TABLE_A};

use super::made::Made;

/// 64 numbers of 16 bits, high byte first, row by row.
pub fn put_block(bytes: &mut Vec<u8>, block: &Block) {
    for &value in block.iter().flatten() {
        bytes.extend((value as i16).to_be_bytes());
    }
}

pub fn make(seed: u64, count: usize) -> Made {
    let mut random = Random::new(seed);
    let mut made = Made::default();
    for number in 0..count {
        let block = coefficient_block(&mut random, number);
        put_block(&mut made.input, &block);
        put_block(&mut made.expected, &inverse_transform(&block));
    }
    made
}

/// In turn: single coefficients at their ends, DC alone, few, dense, and the largest sums.
fn coefficient_block(random: &mut Random, number: usize) -> Block {
    let mut block = [[0; 8]; 8];
    match number % 6 {
        0 => block[number / 48 % 8][number / 6 % 8] = random.pick(&[-2048, 2047]),
        1 => block[0][0] = random.between(-2048, 2047) as i32,
        2 => {
            for _ in 0..random.below(6) {
                block[random.below(8)][random.below(8)] = random.between(-200, 200) as i32;
            }
        }
        3 => fill(&mut block, |_, _| random.between(-2048, 2047) as i32),
        4 => {
            let most = random.pick(&[1, 5, 40, 300]);
            fill(&mut block, |_, _| random.between(-most, most) as i32);
        }
        _ => {
            // All terms of one output have the same sign.
            let (x, y) = (random.below(8), random.below(8));
            let (positive, negative) = random.pick(&[(2047, -2048), (-2048, 2047), (30, -30)]);
            fill(&mut block, |v, u| {
                if TABLE_A[u][x] * TABLE_A[v][y] > 0 {
                    positive
                } else {
                    negative
                }
            });
        }
    }
    block
}

fn fill(block: &mut Block, mut value: impl FnMut(usize, usize) -> i32) {
    for (v, row) in block.iter_mut().enumerate() {
        for (u, coefficient) in row.iter_mut().enumerate() {
            *coefficient = value(v, u);
        }
    }
}
