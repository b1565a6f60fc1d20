//! A trie of the patterns, for anchored searches. They read no byte after the one with which no pattern goes on.
use crate::error::Cause;
use crate::pieces::{push, with_room, Pieces};
use crate::sorted::{keep_matching, sorted};
use crate::{Input, Match, MatchKind, PatternID, Span};
use alloc::vec::Vec;
use core::fmt;
use core::mem::size_of;
use core::ops::Range;

const ROOT: u32 = 0;

/// The number of no node: there are at most two for each pattern.
const NONE: u32 = u32::MAX;

/// Up to so many children are looked at one after another.
const FEW_CHILDREN: usize = 8;

/// So many bytes of a node are compared at once.
const CHUNK: usize = 32;

/// A node is where patterns part, or where some end. Bytes that lead nowhere else belong to the node after them, so
/// there are at most two nodes for each pattern. If case is ignored, the patterns are in lower case.
pub struct Trie {
    ignore_case: bool,
    /// Whether the pattern that ends first is the match, and otherwise the one that ends last.
    is_standard: bool,
    nodes: Vec<Node>,
    /// The first of the bytes that lead to each node from its parent. (The one of the root has no meaning.)
    labels: Vec<u8>,
    /// The bytes of all nodes.
    bytes: Vec<u8>,
    /// The patterns by their numbers, ordered as bytes.
    numbers: Vec<u32>,
    /// The child of the root by each first byte; empty if the root has bytes or patterns.
    first: Vec<u32>,
}

/// A node, with its places in the lists of the trie.
struct Node {
    /// The bytes that lead to it from its parent, without the first one. (The root has no parent, and has its first one.)
    bytes: (u32, u32),
    /// The nodes that follow, in the order of the bytes that lead to them.
    children: (u32, u32),
    /// The patterns that end here.
    patterns: (u32, u32),
}

/// Sorted patterns that have so many bytes in common, of which a node is to be made.
struct Group {
    patterns: Range<usize>,
    shared: usize,
}

/// How far a search has come.
#[derive(Clone, Copy, Debug)]
pub struct Path {
    /// The node that follows.
    node: u32,
    /// Bytes up to here were read, and led to the nodes before.
    pub at: usize,
}

impl Trie {
    /// A trie of the patterns that can match by a kind; by the standard kind of all, to find every occurrence.
    pub fn new(kind: MatchKind, ignore_case: bool, pieces: &Pieces) -> Result<Trie, Cause> {
        pieces.folded(ignore_case, |pieces| {
            let (is_standard, mut numbers) = (kind == MatchKind::Standard, sorted(pieces)?);
            if !is_standard {
                keep_matching(kind, false, pieces, &mut numbers)?;
            }
            let (nodes, labels, bytes, first) = (Vec::new(), Vec::new(), Vec::new(), Vec::new());
            let mut trie = Trie { ignore_case, is_standard, nodes, labels, bytes, numbers, first };
            trie.grow(pieces)?;
            trie.note_first()?;
            Ok(trie)
        })
    }

    /// Makes a node of each group, which adds the groups of its children.
    fn grow(&mut self, pieces: &Pieces) -> Result<(), Cause> {
        let mut groups = with_room(1)?;
        groups.push(Group { patterns: 0..self.numbers.len(), shared: 0 });
        push(&mut self.labels, 0)?;
        while let Some(Group { patterns, shared }) = groups.get(self.nodes.len()) {
            let (mut patterns, shared) = (patterns.clone(), *shared);
            let edge = self.edge(pieces, &patterns, shared);
            let (end, start) = (shared + edge.len(), self.bytes.len());
            self.bytes.try_reserve(edge.len()).map_err(|_| Cause::OutOfMemory)?;
            self.bytes.extend_from_slice(edge);
            let own = self.numbers[patterns.clone()].iter().take_while(|it| pieces.len_of(**it) == end).count();
            let (own, children) = (patterns.start..patterns.start + own, groups.len());
            patterns.start = own.end;
            while !patterns.is_empty() {
                let label = |number: &u32| pieces.get(*number)[end];
                let byte = label(&self.numbers[patterns.start]);
                let count = self.numbers[patterns.clone()].partition_point(|it| label(it) == byte);
                push(&mut self.labels, byte)?;
                push(&mut groups, Group { patterns: patterns.start..patterns.start + count, shared: end + 1 })?;
                patterns.start += count;
            }
            let bytes = place(&(start..self.bytes.len()))?;
            let node = Node { bytes, children: place(&(children..groups.len()))?, patterns: place(&own)? };
            push(&mut self.nodes, node)?;
        }
        Ok(())
    }

    /// The bytes that sorted patterns have in common, after those that they are known to.
    fn edge<'p>(&self, pieces: &'p Pieces, patterns: &Range<usize>, shared: usize) -> &'p [u8] {
        match &self.numbers[patterns.clone()] {
            [first, .., last] => {
                let (first, last) = (&pieces.get(*first)[shared..], &pieces.get(*last)[shared..]);
                &first[..first.iter().zip(last).take_while(|(one, other)| one == other).count()]
            }
            [only] => &pieces.get(*only)[shared..],
            [] => &[],
        }
    }

    /// Notes the children of the root, so that a search need not begin there.
    fn note_first(&mut self) -> Result<(), Cause> {
        let Node { bytes, children, patterns } = &self.nodes[ROOT as usize];
        if bytes.0 < bytes.1 || patterns.0 < patterns.1 {
            return Ok(());
        }
        self.first = with_room(256)?;
        self.first.resize(256, NONE);
        for (child, label) in (children.0..).zip(&self.labels[range(*children)]) {
            self.first[usize::from(*label)] = child;
            if self.ignore_case {
                self.first[usize::from(label.to_ascii_uppercase())] = child;
            }
        }
        Ok(())
    }

    /// Whether a pattern begins where the input does.
    #[inline]
    pub fn is_match(&self, input: &Input<'_>) -> bool {
        self.next(&mut self.begin(input), input).is_some()
    }

    /// The match at the start of an input. If it is to be the earliest match, it is the one that ends first.
    pub fn find(&self, input: &Input<'_>) -> Option<Match> {
        self.find_by(&mut self.begin(input), input)
    }

    /// The same from the beginning of a search. Afterwards the path is at the offset up to which bytes were read.
    #[inline]
    pub fn find_by(&self, path: &mut Path, input: &Input<'_>) -> Option<Match> {
        let mut index = self.next(path, input)?.start;
        let mut end = path.at;
        if !self.is_standard && !input.get_earliest() {
            while let Some(ended) = self.next(path, input) {
                (index, end) = (ended.start, path.at);
            }
        }
        Some(self.named(index, input.start(), end))
    }

    /// The beginning of a search, which ends there if the input is done.
    #[inline]
    pub fn begin(&self, input: &Input<'_>) -> Path {
        let node = match input.haystack()[..input.end()].get(input.start()) {
            Some(byte) if !self.first.is_empty() => self.first[usize::from(*byte)],
            _ if input.is_done() => NONE,
            _ => ROOT,
        };
        Path { node, at: input.start() }
    }

    /// Goes on to the next node where patterns end. Returns which ones, as a range for [`Trie::named`].
    #[inline]
    pub fn next(&self, path: &mut Path, input: &Input<'_>) -> Option<Range<usize>> {
        let text = &input.haystack()[..input.end()];
        while let Some(node) = self.nodes.get(path.node as usize) {
            // (the first byte led here)
            path.at += usize::from(path.node != ROOT);
            if node.bytes.0 < node.bytes.1 {
                let edge = &self.bytes[range(node.bytes)];
                let shared = self.shared(edge, &text[path.at..]);
                path.at += shared;
                if shared < edge.len() {
                    path.node = NONE;
                    return None;
                }
            }
            path.node = text.get(path.at).map_or(NONE, |byte| self.child(node, *byte));
            if node.patterns.0 < node.patterns.1 {
                return Some(range(node.patterns));
            }
        }
        None
    }

    /// A match of the pattern with an index in the order of the trie.
    pub fn named(&self, index: usize, start: usize, end: usize) -> Match {
        Match::new(PatternID::of(self.numbers[index] as usize), Span { start, end })
    }

    /// The node that follows one by a byte.
    #[inline]
    fn child(&self, node: &Node, byte: u8) -> u32 {
        let (labels, byte) = (&self.labels[range(node.children)], self.folded(byte));
        let index = if labels.len() <= FEW_CHILDREN {
            labels.iter().position(|it| *it == byte)
        } else {
            labels.binary_search(&byte).ok()
        };
        index.map_or(NONE, |it| node.children.0 + it as u32)
    }

    /// How many of the first bytes of an edge and of a text are equal.
    #[inline]
    fn shared(&self, edge: &[u8], text: &[u8]) -> usize {
        let (mut edge, mut text, mut shared) = (edge, text, 0);
        while edge.len() >= CHUNK && text.len() >= CHUNK {
            let (one, other) = (&edge[..CHUNK], &text[..CHUNK]);
            if !(one == other || self.ignore_case && one.eq_ignore_ascii_case(other)) {
                break;
            }
            (edge, text, shared) = (&edge[CHUNK..], &text[CHUNK..], shared + CHUNK);
        }
        shared + edge.iter().zip(text).take_while(|(one, other)| **one == self.folded(**other)).count()
    }

    #[inline]
    fn folded(&self, byte: u8) -> u8 {
        if self.ignore_case {
            byte.to_ascii_lowercase()
        } else {
            byte
        }
    }

    pub fn memory_usage(&self) -> usize {
        self.nodes.capacity() * size_of::<Node>()
            + self.labels.capacity()
            + self.bytes.capacity()
            + (self.numbers.capacity() + self.first.capacity()) * size_of::<u32>()
    }
}

impl fmt::Debug for Trie {
    fn fmt(&self, f: &mut fmt::Formatter<'_>) -> fmt::Result {
        write!(f, "Trie({} nodes)", self.nodes.len())
    }
}

/// The patterns that begin where an input does, one after another: in the order of ends, and equal ones in that of the
/// list.
#[derive(Clone, Debug)]
pub struct Beginning {
    path: Path,
    /// Those that end where the path is, and were not given.
    ended: Range<usize>,
}

impl Beginning {
    pub fn new(trie: &Trie, input: &Input<'_>) -> Beginning {
        Beginning { path: trie.begin(input), ended: 0..0 }
    }

    pub fn next(&mut self, trie: &Trie, input: &Input<'_>) -> Option<Match> {
        if self.ended.is_empty() {
            self.ended = trie.next(&mut self.path, input)?;
        }
        self.ended.next().map(|index| trie.named(index, input.start(), self.path.at))
    }
}

/// A range in few bytes.
fn place(range: &Range<usize>) -> Result<(u32, u32), Cause> {
    let short = |number: usize| u32::try_from(number).map_err(|_| Cause::TooLarge);
    Ok((short(range.start)?, short(range.end)?))
}

#[inline]
fn range(place: (u32, u32)) -> Range<usize> {
    place.0 as usize..place.1 as usize
}
