//! Anchored matches of a leftmost kind: each begins where the one before ends.
use crate::{AhoCorasick, FindIter, Input, Match, Span};

/// The most bytes in a part, unless four times the longest pattern is more.
const PART: usize = 4096;

/// The matches of an anchored input.
///
/// They are the leftmost matches, up to the first one that begins later. Those are searched for in parts of the input.
/// A match in a part is one of the whole input if the longest pattern fits between its start and the end of the part.
/// Parts become longer than that pattern. So all together have at most some times the bytes of the input, however long
/// patterns are.
#[derive(Clone, Debug)]
pub struct Adjacent<'a, 'h> {
    searcher: &'a AhoCorasick,
    haystack: &'h [u8],
    /// Where the next match begins, and the end of the input.
    rest: Span,
    part: Span,
    in_part: FindIter<'a, 'h>,
    is_over: bool,
}

impl<'a, 'h> Adjacent<'a, 'h> {
    pub fn new(searcher: &'a AhoCorasick, input: &Input<'h>) -> Adjacent<'a, 'h> {
        let (haystack, rest) = (input.haystack(), input.searched());
        let part = Span { end: rest.end.min(rest.start.saturating_add(searcher.max_pattern_len())), ..rest };
        Adjacent { searcher, haystack, rest, part, in_part: searcher.leftmost_in(haystack, part), is_over: false }
    }

    pub fn next(&mut self) -> Option<Match> {
        while !self.is_over {
            match self.in_part.next() {
                Some(found) if self.is_known(found) && found.start() == self.rest.start => {
                    self.rest.start = found.end();
                    return Some(found);
                }
                Some(found) if self.is_known(found) => self.is_over = true,
                // (so none begins there: a match at the start of a part is always known)
                _ if self.part.start == self.rest.start => self.is_over = true,
                _ => self.turn(),
            }
        }
        None
    }

    fn is_known(&self, found: Match) -> bool {
        self.part.end == self.rest.end || found.start() + self.searcher.max_pattern_len() <= self.part.end
    }

    /// Goes on with a part that begins where the next match does.
    fn turn(&mut self) {
        let most = PART.max(self.searcher.max_pattern_len().saturating_mul(4));
        let len = most.min(2 * self.part.len());
        self.part = Span { start: self.rest.start, end: self.rest.end.min(self.rest.start.saturating_add(len)) };
        self.in_part = self.searcher.leftmost_in(self.haystack, self.part);
    }
}
