//! The names of the original's NFAs.

pub mod contiguous {
    //! The name of the NFA in one array.
    use crate::automaton::{automaton, from_noncontiguous, Automaton, Prefilter, Sealed};
    use crate::{AhoCorasick, AhoCorasickBuilder, BuildError, MatchKind, StartKind};

    automaton!(
        NFA, "nfa::contiguous", StartKind::Both,
        match_kind: MatchKind = "aho_corasick::MatchKind::LeftmostFirst",
        ascii_case_insensitive: bool = "true",
        prefilter: bool = "false",
        dense_depth: usize = "3",
        byte_classes: bool = "false"
    );
    from_noncontiguous!(NFA, "nfa::contiguous");
}

pub mod noncontiguous {
    //! The name of the NFA with lists of transitions.
    use crate::automaton::{automaton, Automaton, Prefilter, Sealed};
    use crate::{AhoCorasick, AhoCorasickBuilder, BuildError, MatchKind, StartKind};

    automaton!(
        NFA, "nfa::noncontiguous", StartKind::Both,
        match_kind: MatchKind = "aho_corasick::MatchKind::LeftmostFirst",
        ascii_case_insensitive: bool = "true",
        prefilter: bool = "false",
        dense_depth: usize = "3"
    );
}
