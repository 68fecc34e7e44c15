//! Bits, most significant first: reading with a place and a list of reads, writing, and codebooks.

use crate::reads::Read;
use crate::refusal::Refusal;

/// The lent bytes with the count of bits that are the picture, the place of the next one, and what was read
/// before it.
pub struct BitReader<'a> {
    bytes: &'a [u8],
    count: usize,
    place: usize,
    reads: Vec<Read>,
}

impl<'a> BitReader<'a> {
    /// The count may not pass the bytes.
    pub fn new(bytes: &'a [u8], count: usize) -> BitReader<'a> {
        BitReader::starting_at(bytes, count, 0)
    }

    pub fn starting_at(bytes: &'a [u8], count: usize, place: usize) -> BitReader<'a> {
        assert!(count <= 8 * bytes.len() && place <= count);
        BitReader {
            bytes,
            count,
            place,
            reads: Vec::new(),
        }
    }

    pub fn place(&self) -> usize {
        self.place
    }

    pub fn into_reads(self) -> Vec<Read> {
        self.reads
    }

    pub fn at_end(&self) -> bool {
        self.place == self.count
    }

    fn next_bit(&mut self) -> Option<usize> {
        if self.at_end() {
            return None;
        }
        let bit = bit_of(self.bytes, self.place);
        self.place += 1;
        Some(usize::from(bit))
    }

    /// The next so many bits as a number, where they are there.
    fn row(&mut self, width: usize) -> Option<u32> {
        let mut value = 0;
        for _ in 0..width {
            value = 2 * value + self.next_bit()? as u32;
        }
        Some(value)
    }

    fn walk<T: Copy>(&mut self, book: &Codebook<T>) -> Result<T, Refusal> {
        let start = self.place;
        let mut node = 0;
        loop {
            let bit = self.next_bit().ok_or(Refusal::at(3, start))?;
            match book.nodes[node][bit] {
                Branch::None => return Err(Refusal::no_codeword(start, book.table)),
                Branch::Node(next) => node = next,
                Branch::Meaning(meaning) => return Ok(meaning),
            }
        }
    }

    /// Whatever came of it, from its start on it is one read; where it failed the place stays.
    fn note<T>(
        &mut self,
        start: usize,
        table: u8,
        outcome: Result<T, Refusal>,
    ) -> Result<T, Refusal> {
        if outcome.is_err() {
            self.place = start;
        }
        self.reads.push(Read {
            place: start,
            width: self.place - start,
            table,
        });
        outcome
    }

    /// "A field with too few bits left is 3, whatever they hold."
    pub fn field(&mut self, width: usize) -> Result<u32, Refusal> {
        let start = self.place;
        let outcome = self.row(width).ok_or(Refusal::at(3, start));
        self.note(start, 0, outcome)
    }

    /// "If the bits left are a proper beginning of one (no bits included), the refusal is 3; if no
    /// codeword fits, 8."
    pub fn codeword<T: Copy>(&mut self, book: &Codebook<T>) -> Result<T, Refusal> {
        let (meaning, _) = self.tailed_codeword(book, |_| 0)?;
        Ok(meaning)
    }

    /// The same, where a codeword has a tail of fixed width that belongs to it, as the escape has.
    pub fn tailed_codeword<T: Copy>(
        &mut self,
        book: &Codebook<T>,
        tail: impl Fn(T) -> usize,
    ) -> Result<(T, u32), Refusal> {
        let start = self.place;
        let outcome = self.walk(book).and_then(|meaning| {
            let value = self.row(tail(meaning)).ok_or(Refusal::at(3, start))?;
            Ok((meaning, value))
        });
        self.note(start, book.table, outcome)
    }
}

pub fn bit_of(bytes: &[u8], place: usize) -> bool {
    bytes[place / 8] >> (7 - place % 8) & 1 == 1
}

#[derive(Clone, Copy)]
enum Branch<T> {
    None,
    Node(usize),
    Meaning(T),
}

/// A set of codewords as a binary tree. Every inner node has a codeword below it, so that a walk that
/// stops at one has seen a proper beginning, and a walk that leaves the tree fits no codeword.
pub struct Codebook<T> {
    /// The number that a refusal carries.
    table: u8,
    nodes: Vec<[Branch<T>; 2]>,
}

impl<T: Copy> Codebook<T> {
    /// Panics where a codeword begins with another: the tables would be wrong.
    pub fn new(table: u8, words: impl IntoIterator<Item = (T, String)>) -> Codebook<T> {
        let mut book = Codebook {
            table,
            nodes: vec![[Branch::None; 2]],
        };
        for (meaning, word) in words {
            book.insert(meaning, &word);
        }
        book
    }

    fn insert(&mut self, meaning: T, word: &str) {
        let bits = digits(word);
        let (last, path) = bits.split_last().expect("a codeword has bits");
        let mut node = 0;
        for &bit in path {
            let bit = usize::from(bit);
            node = match self.nodes[node][bit] {
                Branch::Node(next) => next,
                Branch::None => self.branch(node, bit),
                Branch::Meaning(_) => panic!("{word} begins with another codeword"),
            };
        }
        let leaf = &mut self.nodes[node][usize::from(*last)];
        assert!(
            matches!(leaf, Branch::None),
            "{word} begins another codeword"
        );
        *leaf = Branch::Meaning(meaning);
    }

    fn branch(&mut self, node: usize, bit: usize) -> usize {
        let next = self.nodes.len();
        self.nodes.push([Branch::None; 2]);
        self.nodes[node][bit] = Branch::Node(next);
        next
    }
}

/// The bits of a codeword as printed: zeros and ones, spaces between.
pub fn digits(word: &str) -> Vec<bool> {
    word.chars()
        .filter(|&digit| digit != ' ')
        .map(|digit| match digit {
            '0' => false,
            '1' => true,
            _ => panic!("no binary digit: {digit}"),
        })
        .collect()
}

/// A growing row of bits; the last started byte is filled with zeros.
#[derive(Clone, Default, PartialEq, Eq, Debug)]
pub struct Bits {
    pub bytes: Vec<u8>,
    pub count: usize,
}

impl Bits {
    pub fn push(&mut self, bit: bool) {
        if self.count.is_multiple_of(8) {
            self.bytes.push(0);
        }
        if bit {
            self.bytes[self.count / 8] |= 0x80 >> (self.count % 8);
        }
        self.count += 1;
    }

    pub fn field(&mut self, value: u32, width: usize) {
        for shift in (0..width).rev() {
            self.push(value >> shift & 1 == 1);
        }
    }

    /// A codeword as printed.
    pub fn word(&mut self, word: &str) {
        for digit in word.bytes().filter(|&digit| digit != b' ') {
            self.push(digit == b'1');
        }
    }

    /// Zeros up to the end of the last started byte.
    pub fn fill(&mut self) {
        while !self.count.is_multiple_of(8) {
            self.push(false);
        }
    }

    pub fn append(&mut self, other: &Bits) {
        for place in 0..other.count {
            self.push(bit_of(&other.bytes, place));
        }
    }

    /// The first `count` bits, with zeros after them in the last byte.
    pub fn cut(&self, count: usize) -> Bits {
        let mut shorter = Bits::default();
        for place in 0..count {
            shorter.push(bit_of(&self.bytes, place));
        }
        shorter
    }

    pub fn flip(&mut self, place: usize) {
        assert!(place < self.count);
        self.bytes[place / 8] ^= 0x80 >> (place % 8);
    }
}
