//! A search for leftmost matches, by the array of those patterns that can match.
use crate::declared::{LEFTMOST_FIRST, LEFTMOST_LONGEST};
use crate::error::{BuildError, Cause};
use crate::library::{Prepared, Reached};
use crate::pieces::{copied, Pieces};
use crate::sorted::{count_suffixes, keep_matching, sorted};
use crate::standard::{likely_late, LONGEST_KNOWN};
use crate::{Match, MatchKind, PatternID, Span};
use alloc::vec::Vec;

/// How many matches a page has at most, unless a pattern is long.
const MOST: usize = 1024;

/// For how many bytes of a long pattern a page has a match. Each page looks up at least twice the length of that pattern.
/// A full page is at least a quarter as long as the pattern, so these are at most eight look-ups for each of its bytes.
const BYTES_EACH: usize = 4;

/// With a longer pattern, parts may be searched to know whether there is a match: the first part has so many bytes, and
/// each other one goes so many times as far.
const LONG: usize = 256;
const FIRST_PART: usize = 256;
const PART_GROWTH: usize = 8;

pub struct Leftmost {
    prepared: Prepared,
    /// The number of each pattern in the array; empty if the array has all patterns.
    numbers: Vec<u32>,
    /// The length of the longest pattern in the array.
    longest: usize,
    /// Whether a search may read many bytes after the end of a match, since another one may be preferred to it.
    reads_on: bool,
}

impl Leftmost {
    /// The search for the matches of a kind that do not overlap.
    pub fn new(kind: MatchKind, ignore_case: bool, pieces: &Pieces) -> Result<Leftmost, BuildError> {
        let number = match kind {
            MatchKind::Standard => return Leftmost::standard(ignore_case, pieces),
            MatchKind::LeftmostFirst => LEFTMOST_FIRST,
            MatchKind::LeftmostLongest => LEFTMOST_LONGEST,
        };
        let (mut numbers, suffixes) = pieces.folded(ignore_case, |pieces| {
            let mut numbers = sorted(pieces)?;
            keep_matching(kind, false, pieces, &mut numbers)?;
            let suffixes = count_suffixes(pieces, &numbers)?;
            Ok((numbers, suffixes))
        })?;
        numbers.sort_unstable();
        let mut leftmost = Leftmost::of(number, ignore_case, pieces, numbers, suffixes)?;
        leftmost.reads_on = leftmost.longest > LONG && !leftmost.are_late(ignore_case, pieces)?;
        Ok(leftmost)
    }

    /// The search for the leftmost matches of the late patterns, which are the standard ones. With a long pattern the
    /// array tells whether the likely ones are late.
    fn standard(ignore_case: bool, pieces: &Pieces) -> Result<Leftmost, BuildError> {
        let (numbers, suffixes) = pieces.folded(ignore_case, |pieces| {
            let numbers = likely_late(pieces)?;
            let suffixes = count_suffixes(pieces, &numbers)?;
            Ok((numbers, suffixes))
        })?;
        if pieces.longest <= LONGEST_KNOWN {
            return Leftmost::of(LEFTMOST_FIRST, ignore_case, pieces, numbers, suffixes);
        }
        let likely = Leftmost::of(LEFTMOST_FIRST, ignore_case, pieces, copied(&numbers)?, suffixes)?;
        let (mut late, count) = (numbers, likely.numbers.len());
        late.retain(|it| likely.is_late(pieces.get(*it)));
        if late.len() == if count > 0 { count } else { pieces.len() } {
            return Ok(likely);
        }
        Leftmost::of(LEFTMOST_FIRST, ignore_case, pieces, late, suffixes)
    }

    /// The search for standard matches, where this one is for those of a leftmost kind; or none, if these are the same.
    pub fn earliest(&self, ignore_case: bool, pieces: &Pieces) -> Result<Option<Leftmost>, BuildError> {
        if self.are_late(ignore_case, pieces)? {
            return Ok(None);
        }
        Leftmost::standard(ignore_case, pieces).map(Some)
    }

    /// Whether the patterns of the array are the late patterns.
    fn are_late(&self, ignore_case: bool, pieces: &Pieces) -> Result<bool, Cause> {
        let (likely, count) = (pieces.folded(ignore_case, likely_late)?, self.numbers.len());
        let is_same = likely.len() == if count > 0 { count } else { pieces.len() };
        Ok(is_same && likely.iter().all(|it| self.is_late(pieces.get(*it))))
    }

    /// The search for some of the patterns, which have so many different suffixes.
    fn of(
        kind: u32,
        ignore_case: bool,
        pieces: &Pieces,
        numbers: Vec<u32>,
        suffixes: usize,
    ) -> Result<Leftmost, BuildError> {
        if numbers.len() == pieces.len() {
            let prepared = Prepared::leftmost(kind, ignore_case, pieces, suffixes)?;
            return Ok(Leftmost { prepared, numbers: Vec::new(), longest: pieces.longest, reads_on: false });
        }
        let some = pieces.of(&numbers)?;
        let prepared = Prepared::leftmost(kind, ignore_case, &some, suffixes)?;
        Ok(Leftmost { prepared, numbers, longest: some.longest, reads_on: false })
    }

    /// Whether no pattern of the array is found in one before its last byte.
    fn is_late(&self, pattern: &[u8]) -> bool {
        self.prepared.find(pattern, Span { start: 0, end: pattern.len() - 1 }).is_none()
    }

    /// How many matches a page should have, where there are many.
    pub fn most(&self) -> usize {
        MOST.max(self.longest / BYTES_EACH)
    }

    #[inline]
    pub fn find(&self, haystack: &[u8], span: Span) -> Option<Match> {
        let found = self.prepared.find(haystack, span)?;
        Some(self.named(found))
    }

    /// Whether there is a match in a span.
    #[inline]
    pub fn is_match(&self, haystack: &[u8], span: Span) -> bool {
        if self.reads_on && span.len() > FIRST_PART {
            return self.is_match_in_parts(haystack, span);
        }
        self.prepared.find(haystack, span).is_some()
    }

    /// The same by searches in parts, each much longer than the one before. If a match ends in one, the search there reads
    /// no bytes after it.
    fn is_match_in_parts(&self, haystack: &[u8], span: Span) -> bool {
        let (mut start, mut len) = (span.start, FIRST_PART);
        while len < span.len() {
            let part = Span { start, end: span.start + len };
            if self.prepared.find(haystack, part).is_some() {
                return true;
            }
            start = start.max((part.end + 1).saturating_sub(self.longest));
            len = len.saturating_mul(PART_GROWTH);
        }
        self.prepared.find(haystack, Span { start, end: span.end }).is_some()
    }

    /// Lists the first matches in a span, at most so many, in place of what was in the list. If memory for a large page is
    /// refused, the page is small.
    pub fn page(&self, haystack: &[u8], span: Span, most: usize, found: &mut Vec<Match>) -> Reached {
        let reached = self.prepared.page(haystack, span, granted(most, found), found);
        self.name_all(found);
        reached
    }

    /// The same of the first matches from an offset on that stand whatever follows the haystack, or of all of them if no
    /// more follows.
    #[cfg(feature = "std")]
    pub fn known_page(&self, haystack: &[u8], at: usize, more: bool, found: &mut Vec<Match>) -> Reached {
        let reached = self.prepared.known_page(haystack, at, more, granted(self.most(), found), found);
        self.name_all(found);
        reached
    }

    fn name_all(&self, found: &mut [Match]) {
        if !self.numbers.is_empty() {
            for found in found {
                *found = self.named(*found);
            }
        }
    }

    /// A match with the number of its pattern among all patterns.
    #[inline]
    fn named(&self, found: Match) -> Match {
        match self.numbers.get(found.pattern().as_usize()) {
            Some(number) => Match::new(PatternID::of(*number as usize), found.span()),
            None => found,
        }
    }

    pub fn memory_usage(&self) -> usize {
        self.prepared.memory_usage() + self.numbers.capacity() * core::mem::size_of::<u32>()
    }
}

/// How many matches an empty list has room for, where so many are wanted.
fn granted(most: usize, found: &mut Vec<Match>) -> usize {
    found.clear();
    if most <= MOST || found.try_reserve_exact(most).is_ok() {
        most
    } else {
        MOST
    }
}
