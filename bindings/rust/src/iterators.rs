//! Matches that do not overlap, one after another.
use crate::anchored::AnchoredMatches;
use crate::leftmost::Leftmost;
use crate::library::FEW;
use crate::trie::Trie;
use crate::{AhoCorasick, Input, Match, Span};
use alloc::vec::Vec;
use core::fmt;
use core::iter::FusedIterator;

/// How many matches are searched for one by one. For a short text, with few matches, that is faster than a page.
const SINGLE: usize = 2;

/// How many times as many matches the next page has at most. After its last match a page looks up bytes that the next
/// page looks up again (README.md says how many). So pages soon become large.
const GROWTH: usize = 8;

/// All matches that do not overlap, of [`AhoCorasick::find_iter`](crate::AhoCorasick::find_iter).
///
/// ```
/// use aho_corasick::{AhoCorasick, FindIter};
///
/// let searcher = AhoCorasick::new(["cat", "dog"])?;
/// let mut matches: FindIter<'_, '_> = searcher.find_iter("cat, dog");
/// assert_eq!(matches.next().map(|it| it.range()), Some(0..3));
/// assert_eq!(matches.count(), 1);
/// # Ok::<(), aho_corasick::BuildError>(())
/// ```
#[derive(Clone, Debug)]
pub struct FindIter<'a, 'h>(Way<'a, 'h>);

#[derive(Clone, Debug)]
enum Way<'a, 'h> {
    Pages(Pages<'a, 'h>),
    Anchored(AnchoredMatches<'a, 'h>),
}

impl<'a, 'h> FindIter<'a, 'h> {
    #[inline]
    pub(crate) fn pages(search: &'a Leftmost, haystack: &'h [u8], span: Span) -> FindIter<'a, 'h> {
        FindIter(Way::Pages(Pages::new(search, haystack, span)))
    }

    #[inline]
    pub(crate) fn anchored(searcher: &'a AhoCorasick, trie: &'a Trie, input: Input<'h>) -> FindIter<'a, 'h> {
        FindIter(Way::Anchored(AnchoredMatches::new(searcher, trie, input)))
    }
}

impl Iterator for FindIter<'_, '_> {
    type Item = Match;

    #[inline]
    fn next(&mut self) -> Option<Match> {
        match &mut self.0 {
            Way::Pages(pages) => pages.next(),
            Way::Anchored(anchored) => anchored.next(),
        }
    }
}

impl FusedIterator for FindIter<'_, '_> {}

/// All leftmost matches: the first ones one by one, then a page at a time.
#[derive(Clone)]
struct Pages<'a, 'h> {
    search: &'a Leftmost,
    haystack: &'h [u8],
    /// The part that is still to be searched.
    rest: Span,
    singles: usize,
    /// How many matches the next page has at most.
    most: usize,
    page: Vec<Match>,
    given: usize,
    is_last: bool,
}

impl<'a, 'h> Pages<'a, 'h> {
    #[inline]
    fn new(search: &'a Leftmost, haystack: &'h [u8], rest: Span) -> Pages<'a, 'h> {
        Pages { search, haystack, rest, singles: SINGLE, most: FEW, page: Vec::new(), given: 0, is_last: false }
    }

    #[inline]
    fn next(&mut self) -> Option<Match> {
        if self.singles > 0 {
            return self.single();
        }
        while self.given == self.page.len() && !self.is_last {
            self.turn();
        }
        let found = self.page.get(self.given).copied()?;
        self.given += 1;
        Some(found)
    }

    /// Finds one match.
    #[inline]
    fn single(&mut self) -> Option<Match> {
        let found = self.search.find(self.haystack, self.rest);
        match found {
            Some(found) => (self.rest.start, self.singles) = (found.end(), self.singles - 1),
            None => (self.is_last, self.singles) = (true, 0),
        }
        found
    }

    /// Finds the next page. One after it has more room, since it is full.
    fn turn(&mut self) {
        let reached = self.search.page(self.haystack, self.rest, self.most, &mut self.page);
        self.rest.start = reached.next;
        self.given = 0;
        self.is_last = reached.is_last;
        self.most = self.search.most().min(GROWTH * self.most);
    }
}

impl fmt::Debug for Pages<'_, '_> {
    fn fmt(&self, f: &mut fmt::Formatter<'_>) -> fmt::Result {
        f.debug_struct("Pages").field("rest", &self.rest).field("is_last", &self.is_last).finish_non_exhaustive()
    }
}
