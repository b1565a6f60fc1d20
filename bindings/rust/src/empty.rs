//! Empty patterns, which the library refuses. An empty pattern matches at every offset, so each search has a match where it
//! begins. The trie finds this match: empty patterns end at its root. To list every occurrence, the library searches for
//! the other patterns, and the empty matches are inserted here.
use crate::error::Cause;
use crate::pieces::{with_room, Pieces};
use crate::{Input, Match, PatternID};
use alloc::vec::Vec;

/// The empty patterns of a list, and the others.
pub struct Empty {
    /// The numbers of the empty ones.
    pub numbers: Vec<u32>,
    /// The others.
    pub pieces: Pieces,
    /// Their numbers in the whole list.
    others: Vec<u32>,
}

impl Empty {
    /// Splits a list, if it has empty patterns.
    pub fn of(pieces: &Pieces) -> Result<Option<Empty>, Cause> {
        if pieces.shortest > 0 {
            return Ok(None);
        }
        let (mut numbers, mut others) = (with_room(pieces.len())?, with_room(pieces.len())?);
        for number in 0..pieces.len() as u32 {
            let list = if pieces.get(number).is_empty() { &mut numbers } else { &mut others };
            list.push(number);
        }
        Ok(Some(Empty { numbers, pieces: pieces.of(&others)?, others }))
    }

    /// The number in the whole list of a pattern among the others.
    pub fn pattern(&self, number: usize) -> PatternID {
        PatternID::of(self.others[number] as usize)
    }

    pub fn memory_usage(&self) -> usize {
        (self.numbers.capacity() + self.others.capacity()) * core::mem::size_of::<u32>() + self.pieces.memory_usage()
    }
}

/// How far the empty matches have been listed.
#[derive(Clone, Debug)]
pub struct EmptyOccurrences {
    at: usize,
    end: usize,
    /// How many were given at this offset.
    given: usize,
    /// The next occurrence of another pattern.
    other: Option<Match>,
}

impl EmptyOccurrences {
    pub fn new(input: &Input<'_>) -> EmptyOccurrences {
        EmptyOccurrences { at: input.start(), end: input.end(), given: 0, other: None }
    }

    /// The next occurrence of any pattern. At one end the empty ones come last. The function has the next one of another
    /// pattern.
    pub fn next(&mut self, empty: &Empty, others: impl FnOnce() -> Option<Match>) -> Option<Match> {
        if self.other.is_none() {
            self.other = others().map(|it| Match::new(empty.pattern(it.pattern().as_usize()), it.span()));
        }
        if self.given == empty.numbers.len() {
            (self.at, self.given) = (self.at + 1, 0);
        }
        if self.other.map_or(false, |it| it.end() <= self.at) {
            return self.other.take();
        }
        if self.at > self.end {
            return None;
        }
        self.given += 1;
        Some(Match::new(PatternID::of(empty.numbers[self.given - 1] as usize), self.at..self.at))
    }
}
