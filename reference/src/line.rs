//! A recording of the raw line: the error correction frames of H.261 5.4, mended and emptied.
//! Everything goes by rows of bits and long division, and a wrong word is found among all patterns.

use std::collections::HashMap;

/// "g(x) = (x^9 + x^4 + 1)(x^9 + x^6 + x^4 + x^3 + 1)", highest power first.
const FACTORS: [&str; 2] = ["1000010001", "1001011001"];

/// "(S1S2S3S4S5S6S7S8) = (00011011)."
const PATTERN: &str = "00011011";

pub const FRAME: usize = 512;
/// Fi and 492 data bits, then the parity.
const COVERED: usize = 493;
const PARITY: usize = 18;
const WORD: usize = COVERED + PARITY;
/// "Three consecutive error correction framing sequences (24 bits)"
const SEQUENCES: usize = 3;

/// No lock to the end of the capture.
pub const NO_LOCK: u32 = 44;

fn row(digits: &str) -> Vec<bool> {
    digits.chars().map(|digit| digit == '1').collect()
}

/// The product of two polynomials over two elements.
fn product(one: &[bool], other: &[bool]) -> Vec<bool> {
    let mut sum = vec![false; one.len() + other.len() - 1];
    for (shift, &bit) in one.iter().enumerate() {
        if bit {
            for (place, &coefficient) in other.iter().enumerate() {
                sum[shift + place] ^= coefficient;
            }
        }
    }
    sum
}

/// What long division leaves: as many bits as the divisor's degree.
fn remainder(word: &[bool], divisor: &[bool]) -> Vec<bool> {
    let degree = divisor.len() - 1;
    let mut left = word.to_vec();
    for place in 0..left.len().saturating_sub(degree) {
        if left[place] {
            for (bit, &coefficient) in left[place..].iter_mut().zip(divisor) {
                *bit ^= coefficient;
            }
        }
    }
    left.split_off(left.len() - degree)
}

/// The code, with the wrong places of every pattern of at most two by what the pattern leaves.
pub struct Code {
    generator: Vec<bool>,
    wrong: HashMap<Vec<bool>, Vec<usize>>,
}

impl Default for Code {
    fn default() -> Code {
        Code::new()
    }
}

impl Code {
    pub fn new() -> Code {
        let generator = product(&row(FACTORS[0]), &row(FACTORS[1]));
        let mut wrong = HashMap::new();
        wrong.insert(vec![false; PARITY], Vec::new());
        let single: Vec<Vec<bool>> = (0..WORD)
            .map(|place| {
                let mut word = vec![false; WORD];
                word[place] = true;
                remainder(&word, &generator)
            })
            .collect();
        for (place, left) in single.iter().enumerate() {
            assert!(wrong.insert(left.clone(), vec![place]).is_none());
        }
        for one in 0..WORD {
            for other in one + 1..WORD {
                let both = single[one].iter().zip(&single[other]);
                let left = both.map(|(a, b)| a ^ b).collect();
                assert!(wrong.insert(left, vec![one, other]).is_none());
            }
        }
        Code { generator, wrong }
    }

    /// "The parity is calculated against the 493-bits including fill indicator (Fi)."
    pub fn parity(&self, covered: &[bool]) -> Vec<bool> {
        let mut word = covered.to_vec();
        word.resize(covered.len() + PARITY, false);
        remainder(&word, &self.generator)
    }

    /// The codeword within two bits, if there is one.
    pub fn mend(&self, word: &[bool]) -> Option<Vec<bool>> {
        let places = self.wrong.get(&remainder(word, &self.generator))?;
        let mut mended = word.to_vec();
        for &place in places {
            mended[place] = !mended[place];
        }
        Some(mended)
    }

    /// A frame with its framing bit: data, or fill of ones.
    pub fn frame(&self, framing: bool, data: Option<&[bool]>) -> Vec<bool> {
        let mut covered = vec![data.is_some()];
        match data {
            Some(bits) => covered.extend(bits),
            None => covered.extend([true; COVERED - 1]),
        }
        assert!(covered.len() == COVERED);
        let parity = self.parity(&covered);
        [vec![framing], covered, parity].concat()
    }
}

/// The framing bit of frame k of a capture that begins with S1.
pub fn framing(number: usize) -> bool {
    row(PATTERN)[number % PATTERN.len()]
}

pub struct Replay {
    pub lock: usize,
    pub data: Vec<bool>,
    /// The places of frames that were not mended, and of a cut last one.
    pub reports: Vec<usize>,
}

/// "Lock is the earliest bit from which 24 framing bits, 512 bits apart, read the pattern three times
/// from S1."
pub fn lock(bits: &[bool]) -> Option<usize> {
    let expected = row(&PATTERN.repeat(SEQUENCES));
    (0..bits.len()).find(|&place| {
        let found: Vec<bool> = bits[place..]
            .iter()
            .copied()
            .step_by(FRAME)
            .take(expected.len())
            .collect();
        found == expected
    })
}

pub fn replay(code: &Code, bits: &[bool]) -> Result<Replay, u32> {
    let lock = lock(bits).ok_or(NO_LOCK)?;
    let mut data = Vec::new();
    let mut reports = Vec::new();
    for (number, frame) in bits[lock..].chunks(FRAME).enumerate() {
        let whole = frame.len() == FRAME;
        let mended = if whole { code.mend(&frame[1..]) } else { None };
        match mended {
            Some(word) if word[0] => data.extend(&word[1..COVERED]),
            Some(_) => {}
            None => reports.push(lock + FRAME * number),
        }
    }
    Ok(Replay {
        lock,
        data,
        reports,
    })
}

#[cfg(test)]
mod tests {
    use super::*;
    use crate::random::Random;

    fn digits(bits: &[bool]) -> String {
        bits.iter()
            .map(|&bit| if bit { '1' } else { '0' })
            .collect()
    }

    #[test]
    fn the_published_example() {
        let code = Code::new();
        let mut covered = vec![true; COVERED];
        covered[0] = false;
        assert_eq!(digits(&code.parity(&covered)), "011011010100011011");
    }

    #[test]
    fn every_pattern_of_two_is_mended_on_some_words() {
        let code = Code::new();
        let mut random = Random::new(4);
        for _ in 0..2 {
            let data: Vec<bool> = (0..492).map(|_| random.chance(2)).collect();
            let frame = code.frame(false, Some(&data));
            let sent = &frame[1..];
            for one in 0..WORD {
                for other in one..WORD {
                    let mut word = sent.to_vec();
                    word[one] = !word[one];
                    if other > one {
                        word[other] = !word[other];
                    }
                    assert_eq!(code.mend(&word).as_deref(), Some(sent));
                }
            }
        }
    }

    #[test]
    fn three_wrong_bits_are_told_or_come_within_two_of_another() {
        let code = Code::new();
        let mut random = Random::new(5);
        let frame = code.frame(true, None);
        let sent = &frame[1..];
        let mut told = 0;
        for _ in 0..2000 {
            let mut word = sent.to_vec();
            for place in [0, 170, 340] {
                let place = place + random.below(170);
                word[place] = !word[place];
            }
            match code.mend(&word) {
                None => told += 1,
                Some(other) => {
                    assert_ne!(other, sent);
                    assert_eq!(remainder(&other, &code.generator), vec![false; PARITY]);
                }
            }
        }
        assert!((500..1500).contains(&told));
    }
}
