//! Anchored matches, each of which begins where the one before ends.
use crate::adjacent::Adjacent;
use crate::trie::Trie;
use crate::{AhoCorasick, Input, Match};
use alloc::boxed::Box;

/// The most bytes that are read beyond matches: so many, and so many times the bytes of the matches. If a leftmost kind
/// needs more, the matches are listed in pages, so that the time is linear, however long patterns are.
const BEYOND: usize = 4096;
const TIMES_BEYOND: usize = 16;

/// The matches of an anchored input. If a pattern is empty, they are those of any input.
#[derive(Clone, Debug)]
pub struct AnchoredMatches<'a, 'h> {
    searcher: &'a AhoCorasick,
    trie: &'a Trie,
    /// The rest of the input.
    input: Input<'h>,
    /// Where the last match ended.
    last_end: Option<usize>,
    /// How many bytes beyond matches may still be read.
    beyond: usize,
    /// The rest of the matches, if they are listed in pages.
    listed: Option<Box<Adjacent<'a, 'h>>>,
}

impl<'a, 'h> AnchoredMatches<'a, 'h> {
    pub fn new(searcher: &'a AhoCorasick, trie: &'a Trie, input: Input<'h>) -> AnchoredMatches<'a, 'h> {
        AnchoredMatches { searcher, trie, input, last_end: None, beyond: BEYOND, listed: None }
    }

    pub fn next(&mut self) -> Option<Match> {
        if let Some(listed) = &mut self.listed {
            return listed.next();
        }
        let mut path = self.trie.begin(&self.input);
        let mut found = self.trie.find_by(&mut path, &self.input)?;
        // (an empty match does not follow another one at its end)
        if found.is_empty() && self.last_end == Some(found.end()) {
            self.input.set_start(found.end() + 1);
            path = self.trie.begin(&self.input);
            found = self.trie.find_by(&mut path, &self.input)?;
        }
        self.input.set_start(found.end());
        self.last_end = Some(found.end());
        self.beyond = (self.beyond + TIMES_BEYOND.saturating_mul(found.len())).saturating_sub(path.at - found.end());
        if self.beyond == 0 && !self.searcher.has_empty() {
            self.listed = Some(Box::new(Adjacent::new(self.searcher, &self.input)));
        }
        Some(found)
    }
}
