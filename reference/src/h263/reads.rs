//! Fields and codewords, read one after another from a row of bits, and the list of these reads (T-13).

use crate::bits::bit_of;
use crate::reads::Read;

use super::refusal::Refusal;
use super::words::Words;

/// Exactly the picture's bits, the place of the next one, and what was read before it.
pub struct Reads {
    bits: Vec<bool>,
    place: usize,
    list: Vec<Read>,
}

impl Reads {
    /// The count may not pass the bytes.
    pub fn new(bytes: &[u8], count: usize) -> Reads {
        Reads::starting_at(bytes, count, 0)
    }

    pub fn starting_at(bytes: &[u8], count: usize, place: usize) -> Reads {
        assert!(place <= count);
        Reads {
            bits: (0..count).map(|place| bit_of(bytes, place)).collect(),
            place,
            list: Vec::new(),
        }
    }

    pub fn place(&self) -> usize {
        self.place
    }

    pub fn left(&self) -> &[bool] {
        &self.bits[self.place..]
    }

    pub fn into_list(self) -> Vec<Read> {
        self.list
    }

    /// A read of so many bits.
    pub fn pass(&mut self, width: usize, table: u8) {
        let place = self.place;
        self.list.push(Read {
            place,
            width,
            table,
        });
        self.place += width;
    }

    /// A read that failed, as the refusal says.
    pub fn fail(&mut self, refusal: Refusal) -> Refusal {
        self.pass(0, refusal.table);
        refusal
    }

    /// "A field with too few bits left is 3, whatever they hold."
    pub fn field(&mut self, width: usize) -> Result<u32, Refusal> {
        let Some(bits) = self.left().get(..width) else {
            return Err(self.fail(Refusal::at(3, self.place)));
        };
        let value = bits
            .iter()
            .fold(0, |value, &bit| 2 * value + u32::from(bit));
        self.pass(width, 0);
        Ok(value)
    }

    /// "If the bits left are a proper beginning of one (no bits included), the refusal is 3; if no codeword
    /// fits, 8." A word may have a tail of fixed width that belongs to it, as the escape has.
    pub fn codeword<T: Copy>(
        &mut self,
        words: &Words<T>,
        tail: impl Fn(T) -> usize,
    ) -> Result<(T, u32), Refusal> {
        let left = self.left();
        let Some((meaning, word)) = words.beginning(left) else {
            let refusal = if words.begun_by(left) {
                Refusal::at(3, self.place)
            } else {
                Refusal::no_codeword(self.place, words.table)
            };
            return Err(self.fail(refusal));
        };
        let width = word.len() + tail(meaning);
        let Some(bits) = left.get(word.len()..width) else {
            return Err(self.fail(Refusal::at(3, self.place)));
        };
        let value = bits
            .iter()
            .fold(0, |value, &bit| 2 * value + u32::from(bit));
        self.pass(width, words.table);
        Ok((meaning, value))
    }

    /// A codeword without a tail.
    pub fn word<T: Copy>(&mut self, words: &Words<T>) -> Result<T, Refusal> {
        let (meaning, _) = self.codeword(words, |_| 0)?;
        Ok(meaning)
    }
}
