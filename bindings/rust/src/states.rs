//! An automaton over all prefixes of the patterns, for loops over states. The searches of this crate do not use it.
//!
//! A node is a prefix of a pattern. The state of an unanchored search is the longest suffix of the bytes read that is a
//! node, and with which a match may begin. By a leftmost kind, no match may begin after the start of one that was found.
//! So a node that begins with a whole pattern has no failure link: by the patterns that can match, a longer one with the
//! same start is preferred, but no later start is. The other nodes get their links from their parents' links, as in any
//! Aho-Corasick automaton, so the links of all nodes follow this rule.
use crate::error::Cause;
use crate::pieces::{with_room, Pieces};
use crate::sorted::{count_prefixes, keep_matching, sorted};
use crate::{Anchored, Input, Match, MatchKind, PatternID};
use alloc::vec::Vec;
use core::fmt;
use core::mem::size_of;
use core::ops::Range;

/// The node without transitions.
const DEAD: u32 = 0;
/// The node before the first byte.
const ROOT: u32 = 1;
/// The ending of nodes where no pattern ends.
const NONE: u32 = 0;

/// Nodes are numbered in the order of their depths, so that the children of one follow one another. Each has a state of
/// anchored searches too, except for the dead one.
pub struct States {
    ignore_case: bool,
    is_standard: bool,
    nodes: Vec<Node>,
    endings: Vec<Ending>,
    /// The byte that leads to each node from its parent.
    labels: Vec<u8>,
    /// The patterns by their numbers, ordered as bytes.
    numbers: Vec<u32>,
    /// The child of the root by each byte, or where an unanchored search goes on if there is none.
    first: Vec<u32>,
}

struct Node {
    children: (u32, u32),
    /// The longest proper suffix that is a node, and with which a match may begin.
    failure: u32,
    /// The ending of the first node of the chain of failures, from this one on, where a pattern ends.
    ending: u32,
}

/// A node where a pattern ends. The endings of a node are a chain, in the order of failures.
struct Ending {
    node: u32,
    /// The patterns that are the bytes of the node.
    own: (u32, u32),
    /// How many patterns end here in an unanchored search.
    count: u32,
    /// The next ending of the chain.
    next: u32,
    /// The next or a later ending of the chain. A search that jumps where it can takes logarithmic time.
    jump: u32,
    /// How many endings follow in the chain.
    depth: u32,
}

/// Sorted patterns that have the bytes of a node in common.
struct Group {
    patterns: Range<usize>,
    depth: usize,
    parent: u32,
}

impl States {
    pub fn new(kind: MatchKind, ignore_case: bool, pieces: &Pieces) -> Result<States, Cause> {
        pieces.folded(ignore_case, |pieces| {
            let mut numbers = sorted(pieces)?;
            let is_standard = kind == MatchKind::Standard;
            if !is_standard {
                keep_matching(kind, true, pieces, &mut numbers)?;
            }
            let count = count_prefixes(pieces, &numbers) + 1;
            if count > PatternID::LIMIT / 2 {
                return Err(Cause::TooLarge);
            }
            let (nodes, labels, mut endings) = (with_room(count)?, with_room(count)?, with_room(numbers.len() + 1)?);
            endings.push(Ending { node: DEAD, own: (0, 0), count: 0, next: NONE, jump: NONE, depth: 0 });
            let mut states = States { ignore_case, is_standard, nodes, endings, labels, numbers, first: Vec::new() };
            states.grow(pieces, count)?;
            Ok(states)
        })
    }

    /// Makes so many nodes, each of a group, which adds the groups of its children.
    fn grow(&mut self, pieces: &Pieces, count: usize) -> Result<(), Cause> {
        let mut groups = with_room(count)?;
        groups.push(Group { patterns: 0..0, depth: 0, parent: DEAD });
        groups.push(Group { patterns: 0..self.numbers.len(), depth: 0, parent: DEAD });
        self.labels.extend([0, 0]);
        while let Some(Group { patterns, depth, parent }) = groups.get(self.nodes.len()) {
            let (mut patterns, depth, parent) = (patterns.clone(), *depth, *parent);
            let own = self.numbers[patterns.clone()].iter().take_while(|it| pieces.len_of(**it) == depth).count();
            let (own, children, node) = (patterns.start..patterns.start + own, groups.len(), self.nodes.len());
            patterns.start = own.end;
            while !patterns.is_empty() {
                let label = |number: &u32| pieces.get(*number)[depth];
                let byte = label(&self.numbers[patterns.start]);
                let count = self.numbers[patterns.clone()].partition_point(|it| label(it) == byte);
                self.labels.push(byte);
                let patterns_of_child = patterns.start..patterns.start + count;
                groups.push(Group { patterns: patterns_of_child, depth: depth + 1, parent: node as u32 });
                patterns.start += count;
            }
            self.add(parent, (own.start as u32, own.end as u32), (children as u32, groups.len() as u32))?;
        }
        Ok(())
    }

    /// Adds the next node.
    fn add(&mut self, parent: u32, own: (u32, u32), children: (u32, u32)) -> Result<(), Cause> {
        let (node, is_own) = (self.nodes.len() as u32, own.0 < own.1);
        let failure = match parent {
            _ if node <= ROOT || is_own && !self.is_standard => DEAD,
            ROOT => self.stays(),
            _ => self.step(self.nodes[parent as usize].failure, self.labels[node as usize]),
        };
        let next = self.nodes.get(failure as usize).map_or(NONE, |it| it.ending);
        let ending = if is_own { self.add_ending(node, own, next) } else { next };
        self.nodes.push(Node { children, failure, ending });
        if node == ROOT {
            self.note_first(children)?;
        }
        Ok(())
    }

    /// Adds the ending of the next node, at the head of a chain.
    fn add_ending(&mut self, node: u32, own: (u32, u32), next: u32) -> u32 {
        let Ending { count, jump, depth, .. } = self.endings[next as usize];
        let passed = |from: u32, to: u32| self.endings[from as usize].depth - self.endings[to as usize].depth;
        // (two jumps of one length become one jump)
        let farther = self.endings[jump as usize].jump;
        let jump = if passed(next, jump) == passed(jump, farther) { farther } else { next };
        self.endings.push(Ending { node, own, count: count + own.1 - own.0, next, jump, depth: depth + 1 });
        self.endings.len() as u32 - 1
    }

    /// Notes where the root leads by each byte.
    fn note_first(&mut self, children: (u32, u32)) -> Result<(), Cause> {
        self.first = with_room(256)?;
        self.first.resize(256, self.stays());
        for (child, label) in (children.0..children.1).zip(&self.labels[range(children)]) {
            self.first[usize::from(*label)] = child;
        }
        Ok(())
    }

    /// Where an unanchored search goes on if no pattern begins with the byte that was read: where the search begins. But
    /// if an empty pattern has matched there, no leftmost match may begin later.
    fn stays(&self) -> u32 {
        if self.nodes[ROOT as usize].ending != NONE && !self.is_standard {
            DEAD
        } else {
            ROOT
        }
    }

    #[inline]
    fn child(&self, node: &Node, byte: u8) -> Option<u32> {
        // (most nodes have one child or none)
        let index = match &self.labels[range(node.children)] {
            [] => None,
            [only] => Some(0).filter(|_| *only == byte),
            labels => labels.binary_search(&byte).ok(),
        };
        Some(node.children.0 + index? as u32)
    }

    /// The node after one more byte.
    #[inline]
    fn step(&self, mut node: u32, byte: u8) -> u32 {
        loop {
            match node {
                DEAD => return DEAD,
                ROOT => return self.first[usize::from(byte)],
                _ => {}
            }
            let from = &self.nodes[node as usize];
            match self.child(from, byte) {
                Some(child) => return child,
                None => node = from.failure,
            }
        }
    }

    /// What is added to a node for its state of anchored searches.
    fn anchored(&self) -> u32 {
        self.nodes.len() as u32 - 1
    }

    /// The node of a state, and whether the state is one of anchored searches.
    #[inline]
    fn node(&self, state: u32) -> (u32, bool) {
        match state.checked_sub(self.anchored()) {
            Some(node) if node > DEAD => (node, true),
            _ => (state, false),
        }
    }

    pub fn start(&self, anchored: Anchored) -> u32 {
        match anchored {
            Anchored::No => ROOT,
            Anchored::Yes => ROOT + self.anchored(),
        }
    }

    pub fn is_start(&self, state: u32) -> bool {
        self.node(state).0 == ROOT
    }

    pub fn is_dead(state: u32) -> bool {
        state == DEAD
    }

    /// The state after one more byte.
    #[inline]
    pub fn next(&self, state: u32, byte: u8) -> u32 {
        let byte = if self.ignore_case { byte.to_ascii_lowercase() } else { byte };
        match self.node(state) {
            (node, false) => self.step(node, byte),
            (node, true) => self.child(&self.nodes[node as usize], byte).map_or(DEAD, |it| it + self.anchored()),
        }
    }

    /// How many patterns end in a state.
    #[inline]
    pub fn match_len(&self, state: u32) -> usize {
        let (node, is_anchored) = self.node(state);
        let ending = self.ending(node);
        let len = match is_anchored {
            false => ending.count,
            true if ending.node == node => ending.own.1 - ending.own.0,
            true => 0,
        };
        len as usize
    }

    /// The first ending of the chain of a node.
    #[inline]
    fn ending(&self, node: u32) -> &Ending {
        &self.endings[self.nodes[node as usize].ending as usize]
    }

    /// The pattern with an index among those that end in a state: the longest first, and of equal ones the first in the
    /// list.
    ///
    /// # Panics
    ///
    /// If there is none.
    pub fn pattern(&self, state: u32, index: usize) -> PatternID {
        assert!(index < self.match_len(state), "fewer patterns end in the state");
        let mut ending = self.ending(self.node(state).0);
        // (an ending that has the pattern, or a later one of the chain, has at least so many)
        let least = ending.count - index as u32;
        while self.endings[ending.next as usize].count >= least {
            let jump = &self.endings[ending.jump as usize];
            ending = if jump.count >= least { jump } else { &self.endings[ending.next as usize] };
        }
        let own = &self.numbers[range(ending.own)];
        PatternID::of(own[(ending.count - least) as usize] as usize)
    }

    pub fn memory_usage(&self) -> usize {
        self.nodes.capacity() * size_of::<Node>()
            + self.endings.capacity() * size_of::<Ending>()
            + self.labels.capacity()
            + (self.numbers.capacity() + self.first.capacity()) * size_of::<u32>()
    }
}

impl fmt::Debug for States {
    fn fmt(&self, f: &mut fmt::Formatter<'_>) -> fmt::Result {
        write!(f, "States({} nodes)", self.nodes.len())
    }
}

/// How far a loop over states has come that lists what ends in each of them.
#[derive(Clone, Debug)]
pub struct Steps {
    state: u32,
    /// The state is the one after the bytes up to here.
    at: usize,
    /// How many of the patterns that end in the state were given.
    given: usize,
}

impl Steps {
    pub fn new(states: &States, input: &Input<'_>) -> Steps {
        Steps { state: states.start(input.get_anchored()), at: input.start(), given: 0 }
    }

    pub fn next(&mut self, states: &States, pieces: &Pieces, input: &Input<'_>) -> Option<Match> {
        if input.is_done() {
            return None;
        }
        while self.given == states.match_len(self.state) {
            if self.at >= input.end() || States::is_dead(self.state) {
                return None;
            }
            self.state = states.next(self.state, input.haystack()[self.at]);
            (self.at, self.given) = (self.at + 1, 0);
        }
        let pattern = states.pattern(self.state, self.given);
        self.given += 1;
        Some(Match::new(pattern, self.at - pieces.len_of(pattern.as_u32())..self.at))
    }
}

#[inline]
fn range(place: (u32, u32)) -> Range<usize> {
    place.0 as usize..place.1 as usize
}
