"""A plain search in Python, by the definition of a match, for the tests to compare with: of bytes, or of str."""


def _folded(text, ignore_case):
    if not ignore_case:
        return text
    return "".join(it.lower() if it.isascii() else it for it in text) if isinstance(text, str) else text.lower()


def find(patterns, longest, ignore_case, text, start, end):
    """The leftmost match as (pattern, start, end), or None."""
    words, text = [_folded(it, ignore_case) for it in patterns], _folded(text, ignore_case)
    for at in range(start, end):
        here = [i for i, word in enumerate(words) if at + len(word) <= end and text[at : at + len(word)] == word]
        if here:
            best = min(here, key=lambda i: (-len(words[i]), i)) if longest else here[0]
            return best, at, at + len(words[best])
    return None


def find_overlapping(patterns, ignore_case, text, start, end):
    """Every occurrence, in the order of ends and patterns."""
    words, text = [_folded(it, ignore_case) for it in patterns], _folded(text, ignore_case)
    return [(i, at - len(word), at) for at in range(start, end + 1) for i, word in enumerate(words)
            if at - len(word) >= start and text[at - len(word) : at] == word]


def find_all(patterns, longest, ignore_case, text, start, end):
    """All matches that do not overlap, from the left."""
    all_found, found = [], find(patterns, longest, ignore_case, text, start, end)
    while found:
        all_found.append(found)
        found = find(patterns, longest, ignore_case, text, found[2], end)
    return all_found
