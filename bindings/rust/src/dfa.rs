//! The name of the original's DFA.
use crate::automaton::{automaton, from_noncontiguous, Automaton, Prefilter, Sealed};
use crate::{AhoCorasick, AhoCorasickBuilder, BuildError, MatchKind, StartKind};

automaton!(
    DFA, "dfa", StartKind::Unanchored,
    match_kind: MatchKind = "aho_corasick::MatchKind::LeftmostFirst",
    ascii_case_insensitive: bool = "true",
    start_kind: StartKind = "aho_corasick::StartKind::Both",
    prefilter: bool = "false",
    byte_classes: bool = "false"
);
from_noncontiguous!(DFA, "dfa");
