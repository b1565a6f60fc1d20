//! The patterns that have standard matches.
//!
//! Call a pattern late if no pattern ends in it before its last byte. Where a pattern that is not late occurs, another
//! one ends earlier, so only late patterns have standard matches. Let M be the occurrence that ends first, and the
//! longest of those. An occurrence of a late pattern that begins before M ends after M, so M lies in it and ends before
//! its last byte: a contradiction. For the same reason, one that begins where M does also ends there. So the standard
//! match is the leftmost match of the late patterns, by either leftmost kind.
use crate::error::Cause;
use crate::pieces::{with_room, Pieces};
use crate::sorted::{head, keep_matching, sorted};
use crate::MatchKind;
use alloc::vec::Vec;

/// The length up to which patterns are looked for in others.
pub const LONGEST_KNOWN: usize = 64;

/// The numbers of the late patterns, and perhaps of some in which only patterns of more than 64 bytes end early. Of
/// equal patterns, it has the first. The order is that of the patterns.
pub fn likely_late(pieces: &Pieces) -> Result<Vec<u32>, Cause> {
    let mut numbers = sorted(pieces)?;
    keep_matching(MatchKind::Standard, false, pieces, &mut numbers)?;
    let known = Known::new(pieces, &numbers)?;
    numbers.retain(|it| known.is_late(pieces.get(*it)));
    Ok(numbers)
}

/// Sorted patterns of at most 64 bytes, none of which begins with another one.
struct Known<'p> {
    pieces: &'p Pieces,
    sorted: Vec<u32>,
    /// The head of each.
    heads: Vec<u64>,
    /// How many bytes of each pattern are hashed.
    width: usize,
    /// A bit for each hash: whether a pattern has it.
    hashes: Vec<u64>,
}

impl<'p> Known<'p> {
    fn new(pieces: &'p Pieces, numbers: &[u32]) -> Result<Known<'p>, Cause> {
        let mut sorted = with_room(numbers.len())?;
        sorted.extend(numbers.iter().filter(|it| pieces.len_of(**it) <= LONGEST_KNOWN));
        let words = (sorted.len() / 4).next_power_of_two().clamp(4, 1 << 16);
        let mut hashes = with_room(words)?;
        hashes.resize(words, 0);
        let mut heads = with_room(sorted.len())?;
        heads.extend(sorted.iter().map(|it| head(pieces.get(*it))));
        let mut known = Known { pieces, sorted, heads, width: pieces.shortest.min(4), hashes };
        for index in 0..known.sorted.len() {
            let (word, bit) = known.place(pieces.get(known.sorted[index]));
            known.hashes[word] |= bit;
        }
        Ok(known)
    }

    /// Where the bit of a text is.
    #[inline]
    fn place(&self, text: &[u8]) -> (usize, u64) {
        let head = text[..self.width].iter().fold(0, |number, byte| number << 8 | u32::from(*byte));
        let hash = head.wrapping_mul(0x9E37_79B1) as usize >> 8;
        (hash / 64 % self.hashes.len(), 1 << (hash % 64))
    }

    fn is_late(&self, pattern: &[u8]) -> bool {
        let early = &pattern[..pattern.len() - 1];
        (1..early.len()).all(|start| !self.begins(&early[start..]))
    }

    /// Whether a text begins with one of the patterns.
    #[inline]
    fn begins(&self, text: &[u8]) -> bool {
        if text.len() < self.width {
            return false;
        }
        let (word, bit) = self.place(text);
        self.hashes[word] & bit != 0 && self.is_known(&text[..text.len().min(LONGEST_KNOWN)])
    }

    /// Whether the text begins with a pattern: then none lies between that and the text in the order.
    fn is_known(&self, text: &[u8]) -> bool {
        // (the heads are in the order of the patterns, and decide most comparisons)
        let head = head(text);
        let first = self.heads.partition_point(|it| *it < head);
        let alike = self.heads[first..].partition_point(|it| *it == head);
        let after = first + self.sorted[first..first + alike].partition_point(|it| self.pieces.get(*it) <= text);
        after.checked_sub(1).map_or(false, |it| text.starts_with(self.pieces.get(self.sorted[it])))
    }
}

#[cfg(test)]
mod tests {
    use super::*;

    #[test]
    fn those_that_end_early_are_left_out() {
        for (patterns, late) in [
            (&["b", "ab", "abc", "cab", "bb", "b"][..], &[0, 1, 3][..]),
            (&["cab", "xcaby", "xcab", "xxcab", "cabbage"], &[0, 2, 3]),
            (&["abcde", "xabcdey", "yxabcde", "abcdf"], &[0, 2, 3]),
        ] {
            let mut numbers = likely_late(&Pieces::new(patterns).unwrap()).unwrap();
            numbers.sort_unstable();
            assert_eq!(numbers, late, "{patterns:?}");
        }
    }
}
