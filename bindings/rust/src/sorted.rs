//! Patterns in their order as bytes, and which of them can match.
use crate::error::Cause;
use crate::pieces::{with_room, Pieces};
use crate::MatchKind;
use alloc::vec::Vec;
use core::cmp::Ordering;

/// The numbers of all patterns, in the order of the patterns, and equal ones in the order of numbers.
pub fn sorted(pieces: &Pieces) -> Result<Vec<u32>, Cause> {
    // (the first eight bytes as a number decide most comparisons)
    let mut keyed = with_room(pieces.len())?;
    keyed.extend((0..pieces.len() as u32).map(|it| (head(pieces.get(it)), it)));
    keyed.sort_unstable_by(|(head, number), (other_head, other)| {
        let by_rest = || (pieces.get(*number), number).cmp(&(pieces.get(*other), other));
        head.cmp(other_head).then_with(by_rest)
    });
    let mut numbers = with_room(keyed.len())?;
    numbers.extend(keyed.iter().map(|(_, number)| *number));
    Ok(numbers)
}

/// The first eight bytes of a text as a number.
pub fn head(text: &[u8]) -> u64 {
    let mut bytes = [0; 8];
    let len = text.len().min(8);
    bytes[..len].copy_from_slice(&text[..len]);
    u64::from_be_bytes(bytes)
}

/// Removes patterns that never match, because another one does wherever they occur: the standard match is never longer
/// than another pattern that begins there, the leftmost-first one never follows another one in the list that it begins
/// with, and of equal patterns only the first one matches. If `with_equal` is set, of equal patterns all stay that
/// would match without the others. Afterwards, of the patterns that begin with one another, a longer one comes before a
/// shorter one in the list by the leftmost-first kind.
pub fn keep_matching(kind: MatchKind, with_equal: bool, pieces: &Pieces, sorted: &mut Vec<u32>) -> Result<(), Cause> {
    // (the patterns that begin with one follow it)
    let mut prefixes: Vec<u32> = with_room(sorted.len())?;
    sorted.retain(|number| {
        let pattern = pieces.get(*number);
        while prefixes.last().map_or(false, |it| !pattern.starts_with(pieces.get(*it))) {
            prefixes.pop();
        }
        let is_shorter = |it: &u32| pieces.len_of(*it) < pattern.len();
        let is_equal = !prefixes.last().map_or(true, is_shorter);
        let shorter = prefixes.iter().rev().find(|it| is_shorter(it));
        let would_match = shorter.map_or(true, |prefix| match kind {
            MatchKind::Standard => false,
            MatchKind::LeftmostFirst => number < prefix,
            MatchKind::LeftmostLongest => true,
        });
        if would_match && !is_equal {
            prefixes.push(*number);
        }
        would_match && (with_equal || !is_equal)
    });
    Ok(())
}

/// How many different prefixes sorted patterns have, with the empty one.
pub fn count_prefixes(pieces: &Pieces, sorted: &[u32]) -> usize {
    count_beginnings(sorted.iter().map(|it| pieces.get(*it).iter()))
}

/// How many different suffixes some patterns have, with the empty one.
pub fn count_suffixes(pieces: &Pieces, numbers: &[u32]) -> Result<usize, Cause> {
    // (the last eight bytes as a number decide most comparisons)
    let mut keyed = with_room(numbers.len())?;
    keyed.extend(numbers.iter().map(|it| (tail(pieces.get(*it)), *it)));
    keyed.sort_unstable_by(|(tail, number), (other_tail, other)| {
        tail.cmp(other_tail).then_with(|| backwards(pieces.get(*number), pieces.get(*other)))
    });
    Ok(count_beginnings(keyed.iter().map(|(_, number)| pieces.get(*number).iter().rev())))
}

/// The last eight bytes of a text as a number, the last one first.
fn tail(text: &[u8]) -> u64 {
    let mut bytes = [0; 8];
    let len = text.len().min(8);
    bytes[8 - len..].copy_from_slice(&text[text.len() - len..]);
    u64::from_le_bytes(bytes)
}

/// The order of two texts that are read from their ends.
fn backwards(one: &[u8], other: &[u8]) -> Ordering {
    let (mut one, mut other) = (one, other);
    while one.len() > 8 && other.len() > 8 && tail(one) == tail(other) {
        (one, other) = (&one[..one.len() - 8], &other[..other.len() - 8]);
    }
    // (a shorter text is read with zeros before it)
    (tail(one), one.len()).cmp(&(tail(other), other.len()))
}

/// How many different beginnings sorted texts have, with the empty one.
fn count_beginnings<'p, T: ExactSizeIterator<Item = &'p u8> + Clone>(texts: impl Iterator<Item = T>) -> usize {
    let mut before: Option<T> = None;
    let own = texts.map(|text| {
        let equal = |before: T| before.zip(text.clone()).take_while(|(one, other)| one == other).count();
        let shared = before.take().map_or(0, equal);
        before = Some(text.clone());
        text.len() - shared
    });
    1 + own.sum::<usize>()
}

#[cfg(test)]
mod tests {
    use super::*;

    #[test]
    fn prefixes_and_suffixes_are_counted_once() {
        for (patterns, prefixes, suffixes) in [
            (&[][..], 1, 1),
            (&["", "b", "abc", "ab", "abd", "abc", "ba"], 7, 11),
            (&["a 12345678", "b 12345678", "\0", "8", "\08", "78"], 26, 14),
        ] {
            let pieces = Pieces::new(patterns).unwrap();
            let numbers = sorted(&pieces).unwrap();
            assert_eq!(count_prefixes(&pieces, &numbers), prefixes, "{patterns:?}");
            assert_eq!(count_suffixes(&pieces, &numbers), Ok(suffixes), "{patterns:?}");
        }
    }

    #[test]
    fn those_that_match_are_kept() {
        let patterns = ["ab", "abcd", "b", "abc", "a", "abcde", "ab", "bcd", ""];
        for (kind, kept) in [
            (MatchKind::Standard, &[8][..]),
            (MatchKind::LeftmostFirst, &[0, 2, 4, 8]),
            (MatchKind::LeftmostLongest, &[0, 1, 2, 3, 4, 5, 7, 8]),
        ] {
            let pieces = Pieces::new(patterns).unwrap();
            let mut numbers = sorted(&pieces).unwrap();
            keep_matching(kind, false, &pieces, &mut numbers).unwrap();
            numbers.sort_unstable();
            assert_eq!(numbers, kept, "{kind:?}");
        }
    }

    #[test]
    fn those_that_equal_one_that_matches_are_kept_if_that_is_asked() {
        let pieces = Pieces::new(["ab", "abc", "b", "b", "ab", "bc", "abc", "cc", "c", "cc"]).unwrap();
        for (kind, kept) in [
            (MatchKind::Standard, &[0, 2, 3, 4, 8][..]),
            (MatchKind::LeftmostFirst, &[0, 2, 3, 4, 7, 8]),
            (MatchKind::LeftmostLongest, &[0, 1, 2, 3, 4, 5, 6, 7, 8, 9]),
        ] {
            let mut numbers = sorted(&pieces).unwrap();
            keep_matching(kind, true, &pieces, &mut numbers).unwrap();
            numbers.sort_unstable();
            assert_eq!(numbers, kept, "{kind:?}");
        }
    }
}
