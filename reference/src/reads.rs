//! The list of reads (document 02, T-13): what both standards' readers write down as they go.

/// One field or codeword: where it begins and how many bits it has. Of one that failed (3 or 8) no bits
/// count.
#[derive(Clone, Copy, PartialEq, Eq, Debug)]
pub struct Read {
    pub place: usize,
    pub width: usize,
    /// 1 to 10 for a codeword (T-06), 0 for a field.
    pub table: u8,
}

/// "For an accepted picture the widths of the reads add up to exactly N."
pub fn total_width(reads: &[Read]) -> usize {
    reads.iter().map(|read| read.width).sum()
}
