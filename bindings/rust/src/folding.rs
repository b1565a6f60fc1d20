use crate::error::BuildError;
use crate::library;

/// Replaces each whole character of a text in UTF-8 by its simple case folding (Unicode 15.0.0), if that has as many
/// bytes. It has, except for some thirty characters such as the Kelvin sign. All other bytes, and so all offsets, stay
/// the same. A search for folded patterns in a folded text therefore ignores Unicode's case, at the offsets of the text
/// itself.
///
/// The error says that the processor lacks the instructions that the library needs.
///
/// ```
/// use aho_corasick::{fold_case, AhoCorasick};
///
/// let (mut word, mut text) = (String::from("Été").into_bytes(), String::from("en ÉTÉ").into_bytes());
/// fold_case(&mut word)?;
/// fold_case(&mut text)?;
/// let searcher = AhoCorasick::new([word])?;
/// assert_eq!(searcher.find(&text).map(|it| it.range()), Some(3..8));
/// # Ok::<(), aho_corasick::BuildError>(())
/// ```
pub fn fold_case(text: &mut [u8]) -> Result<(), BuildError> {
    library::fold(text)
}
