"""Multi-pattern search in str and in bytes, by a formally verified library.

>>> searcher = Search(["apple", "maple", "Snapple"])
>>> searcher.find("Nobody likes maple in their apple flavored Snapple.")
Match(pattern=1, start=13, end=18)
>>> searcher.sub("***", "maple and apple")
'*** and ***'

A searcher whose patterns are str accepts texts of type str, and every offset counts characters. A searcher of bytes
accepts contiguous buffers, without a copy: bytes, bytearray, memoryview, mmap and array. There every offset counts
bytes, whatever the items are.
"""
import copyreg
import os
import pickle
import secrets
import stat
import struct
import sys
import zlib
from contextlib import suppress
from itertools import accumulate, chain
from mmap import ACCESS_READ, mmap as _Map
from typing import TYPE_CHECKING, Any, AnyStr, Callable, Iterable, Iterator, List, Literal, Mapping, Optional
from typing import SupportsIndex, Tuple, Type, TypeVar, Union, cast, overload

try:
    from . import _native, _stream
except ImportError as why:
    if "CPU ISA level" not in str(why):
        raise
    raise ImportError("literal_search needs a processor of the level x86-64-v2 (SSE4.2 and POPCNT)") from why
from ._native import __version__
from ._types import Chunks, Column, Kind, Match

if TYPE_CHECKING:
    from _typeshed import ReadableBuffer, StrPath, SupportsRead, SupportsWrite

    from ._native import _Numbers, _Offset, _Replacement

    _Buffers = Union[Iterable[Optional[ReadableBuffer]], Column, Chunks]

__all__ = ["Kind", "Match", "Search", "__version__"]

# A `repr` is a call if there are at most _SHOWN patterns, of at most _LINE characters. Otherwise it has the first
# patterns, each cut after _CUT characters.
_SHOWN, _LINE, _CUT = 8, 120, 20

_Any = TypeVar("_Any", bound="Search[Any]")
_Case = Union[bool, Literal["ascii"]]
_Strs = Union[Iterable[Optional[str]], Column, Chunks]

# A file of a searcher: these words first, the kind, 1 if case is ignored, 2 more for whole words, and 4 more if only the
# case of ASCII is, though the patterns are str; whether the patterns are str, their number, their length and the length
# of the prepared search; then the prepared search, which is aligned for its numbers if the file is mapped; the ends of
# the patterns, and the patterns; and at the end a checksum.
_HEAD, _MAGIC, _SUM = struct.Struct("=8s6Q"), b"LITERAL3", struct.Struct("=L")


class Search(_native.Prepared[AnyStr]):
    """Searches for any number of patterns, none of them empty. Without patterns it finds nothing. If the patterns are a
    mapping, it searches for the keys, and `value` of each match is the mapping's value for its pattern.

    With `ignore_case` the case of the characters of a str is ignored, by Unicode's simple case folding, if that has as
    many bytes in UTF-8: not for the Kelvin sign, and some thirty more. If a pattern has a character beyond ASCII, each
    call folds a copy of its text, unless that is ASCII. In bytes, and with `ignore_case="ascii"` in a str too, A to Z
    equal a to z, and all else is compared as it is.

    With `whole_words` it finds a pattern only with no word character right before it and none right after it: what `\\w`
    of `re` matches, in a str any letter or digit and the underscore, in bytes those of ASCII alone. The characters
    outside of text[start:end] count too. A pattern that is no whole word hides no other one. Such a searcher has no
    calls for overlapping or earliest occurrences, nor for streams: they raise ValueError.

    A pickle by protocol 5 has the prepared search too, out of band if a `buffer_callback` is given. The same version of
    the package then builds nothing. A pickle by an earlier protocol has the patterns alone.

    A searcher is a collection of its patterns: it has a length, is iterated in their order, and `word in searcher` asks
    for a pattern as it was given, also if case is ignored. Without patterns it counts as false.

    A searcher never changes, so threads may share one. While the library searches a long text, Python's other threads
    run, and signals are handled. Until a call returns, its text can be neither resized nor closed, and no other thread
    may write to it.

    Raises ValueError if a pattern is empty, with its index, or has a lone surrogate, MemoryError, and OverflowError if
    the table of the search would have 2^31 entries or more. Raises TypeError for a set with Kind.LEFTMOST_FIRST: the
    order of the patterns decides what is found, and a set has no order. Each call raises TypeError for an argument that
    is no text or of the other type, and BufferError for a view with gaps or an array of objects. A lone surrogate in a
    text of type str, as in some file names, is accepted; it matches no pattern.

    >>> Search([b"ab", b"abcd"], Kind.LEFTMOST_LONGEST).find(b"xabcd")
    Match(pattern=1, start=1, end=5)
    >>> Search(["secret"], ignore_case=True).is_match("My Secret.")
    True
    >>> Search(["пример"], ignore_case=True).find("Это ПРИМЕР.")
    Match(pattern=0, start=4, end=10)
    >>> Search(["new york", "york"], ignore_case=True, whole_words=True).findall("New Yorkers like York.")
    [Match(pattern=1, start=17, end=21)]
    >>> [it.span() for it in Search(["ab", "ba"]).finditer("äbabaab")]
    [(1, 3), (3, 5), (5, 7)]
    >>> Search([b"a"]).count(bytearray(b"banana"), 2, -1)
    1
    >>> [(it.group(), it.value) for it in Search({"apple": 1, "fig": 5}, ignore_case=True).finditer("Fig, apple")]
    [('Fig', 5), ('apple', 1)]
    >>> len(words := Search(["maple", "apple"], ignore_case=True)), list(words), "apple" in words, "Apple" in words
    (2, ['maple', 'apple'], True, False)
    >>> (spelling := Search({"colour": "color", "grey": "gray"})).sub(spelling.values, "a grey colour")
    'a gray color'
    >>> Search(["aa", "a"]).find_overlapping("aa")
    [Match(pattern=1, start=0, end=1), Match(pattern=0, start=0, end=2), Match(pattern=1, start=1, end=2)]
    >>> Search(["abcd", "bc"]).find_earliest("abcd")
    Match(pattern=1, start=1, end=3)
    >>> Search(["cat", "dog"]).sub(["dog", "cat"], "dog and cat")
    'cat and dog'
    >>> Search([b"cat", b"dog"]).sub(lambda it: b"<%d>" % it.pattern, b"dog and cat")
    b'<1> and <0>'
    >>> Search(["a"]).subn("o", "banana", 2)
    ('bonona', 2)
    >>> Search([", ", ";"]).split("a, b;c")
    ['a', 'b', 'c']
    >>> Search(["a", ""])
    Traceback (most recent call last):
    ...
    ValueError: no search for these patterns: the one at index 1 is empty
    """

    __slots__ = ("__weakref__",)

    @overload
    def __init__(
        self,
        patterns: Iterable[AnyStr],
        kind: Kind = Kind.LEFTMOST_FIRST,
        ignore_case: _Case = False,
        whole_words: bool = False,
    ) -> None: ...

    @overload
    def __init__(
        self: "Search[bytes]",
        patterns: "Iterable[ReadableBuffer]",
        kind: Kind = Kind.LEFTMOST_FIRST,
        ignore_case: _Case = False,
        whole_words: bool = False,
    ) -> None: ...

    def __init__(
        self,
        patterns: Iterable[Any],
        kind: Kind = Kind.LEFTMOST_FIRST,
        ignore_case: _Case = False,
        whole_words: bool = False,
    ) -> None:
        _begin(self, patterns, kind, ignore_case, whole_words, None)

    @property
    def kind(self) -> Kind:
        """Which pattern wins if several match at one position."""
        return Kind(self._kind)

    @property
    def ignore_case(self) -> _Case:
        """Whether case is ignored; "ascii" if only that of A to Z is, though the patterns are str."""
        return "ascii" if self._ascii_case else self._ignore_case

    @property
    def values(self) -> Tuple[Any, ...]:
        """The mapping's value for each pattern, in the order of the patterns; without a mapping the patterns. If all
        values have the patterns' type, `sub`, `subn` and `sub_stream` accept them as replacements. The patterns that
        `find_columns` returns are indexes of this tuple.

        >>> Search({"apple": 1, "fig": 5}).values
        (1, 5)
        """
        return self.patterns if self._values is None else self._values

    @overload
    def finditer_earliest(
        self: "Search[str]", text: str, start: "_Offset" = 0, end: "_Offset" = None
    ) -> Iterator[Match[str]]: ...

    @overload
    def finditer_earliest(
        self: "Search[bytes]", text: "ReadableBuffer", start: "_Offset" = 0, end: "_Offset" = None
    ) -> Iterator[Match[bytes]]: ...

    def finditer_earliest(self, text: Any, start: "_Offset" = 0, end: "_Offset" = None) -> Iterator[Match[Any]]:
        """Yields what `find_earliest` finds in text[start:end], then what it finds from the end of that match on, and
        so on. It goes once over every occurrence, like `finditer_overlapping`.

        >>> [it.span() for it in Search(["abcd", "bc", "d"]).finditer_earliest("abcd")]
        [(1, 3), (3, 4)]
        """
        overlapping: Callable[..., Iterator[Match[Any]]] = self.finditer_overlapping
        return _one_after_another(overlapping(text, start, end))

    @overload
    def find_each(self: "Search[str]", texts: _Strs, skip_missing: bool = False) -> List[Optional[Match[str]]]: ...

    @overload
    def find_each(
        self: "Search[bytes]", texts: "_Buffers", skip_missing: bool = False
    ) -> List[Optional[Match[bytes]]]: ...

    def find_each(self, texts: Any, skip_missing: bool = False) -> List[Optional[Match[Any]]]:
        """The leftmost match of each text, or None. Offsets are in that text. The texts may be a column of pandas, an
        array of numpy, or a column of Arrow: an array (by `__arrow_c_array__`) or chunks (by `__arrow_c_stream__`, as of
        polars), whose short texts are searched where they are. With `skip_missing`, None, NaN and pandas.NA count as a
        text without a match.

        >>> Search(["ERROR", "WARN"]).find_each(["a WARN", "fine", "ERROR"])
        [Match(pattern=1, start=2, end=6), None, Match(pattern=0, start=0, end=5)]
        """
        if _is_column(texts):
            return cast(List[Optional[Match[Any]]], self._each(texts, skip_missing, False))
        find: Callable[[Any], Optional[Match[Any]]] = self.find
        return [find(it) for it in _cells(self, texts, skip_missing)]

    @overload
    def findall_each(self: "Search[str]", texts: _Strs, skip_missing: bool = False) -> List[List[Match[str]]]: ...

    @overload
    def findall_each(
        self: "Search[bytes]", texts: "_Buffers", skip_missing: bool = False
    ) -> List[List[Match[bytes]]]: ...

    def findall_each(self, texts: Any, skip_missing: bool = False) -> List[List[Match[Any]]]:
        """The list of all matches of each text, by `findall`. Texts are as of `find_each`.

        >>> Search(["a"]).findall_each(["b", "ab"])
        [[], [Match(pattern=0, start=0, end=1)]]
        """
        findall: Callable[[Any], List[Match[Any]]] = self.findall
        return [findall(it) for it in _cells(self, texts, skip_missing)]

    @overload
    def count_each(self: "Search[str]", texts: _Strs, skip_missing: bool = False) -> List[int]: ...

    @overload
    def count_each(self: "Search[bytes]", texts: "_Buffers", skip_missing: bool = False) -> List[int]: ...

    def count_each(self, texts: Any, skip_missing: bool = False) -> List[int]:
        """The number of matches of each text, by `count`. Texts are as of `find_each`.

        >>> Search(["a"]).count_each(["b", "banana", None], skip_missing=True)
        [0, 3, 0]
        """
        if _is_column(texts):
            return cast(List[int], self._each(texts, skip_missing, True))
        count: Callable[[Any], int] = self.count
        return [count(it) for it in _cells(self, texts, skip_missing)]

    @overload
    def find_columns_each(self: "Search[str]", texts: _Strs, skip_missing: bool = False) -> "_Numbers": ...

    @overload
    def find_columns_each(self: "Search[bytes]", texts: "_Buffers", skip_missing: bool = False) -> "_Numbers": ...

    def find_columns_each(self, texts: Any, skip_missing: bool = False) -> "_Numbers":
        """The matches that `findall_each` lists, as four arrays of 64-bit integers: the rows, which are the numbers of
        the texts, the patterns, the starts and the ends. An array lends its buffer, so `numpy.asarray` copies nothing.
        Texts are as of `find_each`; no objects are made for those of Arrow, except with whole words for texts with a
        character beyond ASCII. An error of a text names its index.

        >>> [list(it) for it in Search(["a", "b"]).find_columns_each(["ab", None, "éa"], skip_missing=True)]
        [[0, 0, 2], [0, 1, 0], [0, 1, 1], [1, 2, 2]]
        """
        is_column = _is_column(texts)
        return self._columns_each(texts if is_column else _many(texts), is_column, skip_missing, _missing())

    def finditer_stream(self, file: "SupportsRead[Optional[AnyStr]]") -> Iterator[Match[AnyStr]]:
        """Yields all matches in a file, up to its end, as `finditer` does in the whole text, whatever pieces it comes
        in. Offsets are in the whole text, and each match has a copy of the matched part.

        The file is read 128 KiB at a time, or as many characters. If it is a buffered file of bytes, `read1` is called,
        which waits only until there are some bytes; otherwise `read`. (That of a text file on a pipe waits until it has
        as many characters: open the pipe with "rb".) The last read is kept, and before it fewer bytes than twice the
        longest pattern has.

        A match is yielded when as many bytes as the longest pattern has are read from its start on: nothing that follows
        can change it then. Reads that are shorter than that pattern are collected while the next one does not wait. Of
        a file that is neither buffered nor raw, or has no `fileno`, this is not known: then a match is yielded at the
        latest when twice as many bytes are read.

        Exceptions of `read` pass through. A non-blocking file without data raises BlockingIOError. Either ends the
        iteration, after the matches that are known.

        >>> from io import BytesIO
        >>> [it.span() for it in Search([b"secret"]).finditer_stream(BytesIO(b"a secret secret"))]
        [(2, 8), (9, 15)]
        """
        return chain.from_iterable(_stream.searched(_stream.for_stream(self), file, _stream.MATCHES))

    def finditer_overlapping_stream(self, file: "SupportsRead[Optional[AnyStr]]") -> Iterator[Match[AnyStr]]:
        """Yields every occurrence in a file, up to its end, as `finditer_overlapping` does in the whole text. The file,
        memory, offsets, matches and errors are as of `finditer_stream`. An occurrence is yielded once it is read.
        While short reads are collected, up to as many more bytes as the longest pattern has are read first.

        >>> from io import StringIO
        >>> [it.span() for it in Search(["aba", "b"]).finditer_overlapping_stream(StringIO("ababa"))]
        [(1, 2), (0, 3), (3, 4), (2, 5)]
        """
        return chain.from_iterable(_stream.occurrences(_stream.for_stream(self), file))

    def count_stream(self, file: "SupportsRead[Optional[AnyStr]]") -> int:
        """The number of matches that `finditer_stream` yields.

        >>> from io import StringIO
        >>> Search(["a"]).count_stream(StringIO("banana"))
        3
        """
        counts: Iterator[int] = _stream.searched(_stream.for_stream(self), file, _stream.COUNT)
        return sum(counts)

    def sub_stream(
        self, file: "SupportsRead[Optional[AnyStr]]", out: "SupportsWrite[AnyStr]", replacement: "_Replacement[AnyStr]"
    ) -> None:
        """Copies a file to another one, with each match replaced as by `sub`. The file is read as by `finditer_stream`;
        text is written once no match can begin in it any more. After an error, of the files or of a function, some of
        the text is written. The output's `write` must write all of its argument, as every buffered file does.

        >>> from io import StringIO
        >>> Search(["cat", "dog"]).sub_stream(StringIO("cat and dog"), out := StringIO(), ["dog", "cat"])
        >>> out.getvalue()
        'dog and cat'
        """
        searcher = _stream.for_stream(self)
        for part in _stream.searched(searcher, file, _stream.REPLACED, self._checked(replacement)):
            out.write(part)

    def save(self, path: "StrPath") -> None:
        """Writes the searcher into a file, ready to search. A link is followed. An existing file is replaced when all
        is written, and keeps its mode. Other than regular files, such as a FIFO, are written to.

        Raises TypeError for a searcher of a mapping: its values can be any objects, which pickle can keep.
        """
        if self._values is not None:
            raise TypeError("a searcher of a mapping is not saved: pickle it, or save one of its patterns alone")
        whole, name = _written(self), os.fsdecode(path)
        whole += _SUM.pack(zlib.crc32(whole))
        try:
            mode = os.stat(name).st_mode
        except FileNotFoundError:
            mode = None
        if mode is None or stat.S_ISREG(mode):
            _replace(os.path.realpath(name) if os.path.islink(name) else name, whole, mode)
        else:
            with open(name, "wb") as file:
                file.write(whole)

    @classmethod
    def load(cls: Type[_Any], path: "StrPath", *, mmap: bool = False) -> _Any:
        """The searcher that `save` wrote into a file, without building its search again. Accidental damage is noticed;
        a forged file may lead to wrong answers, and to nothing worse.

        With `mmap` a regular file is mapped into memory instead of read, and processes that map it share the memory of
        the prepared search. While the searcher exists, the file may be removed or replaced, as `save` does, but not
        truncated or written to. If it is truncated, the next search may end the process by the signal SIGBUS. Other
        changes between calls lead to wrong answers or ValueError, and to nothing worse; nothing is promised for changes
        during a call.

        Raises ValueError if the file is damaged, or from another version or machine.
        """
        with open(path, "rb") as file:
            status = os.fstat(file.fileno())
            is_mapped = mmap and stat.S_ISREG(status.st_mode) and status.st_size > 0
            read = _read(_Map(file.fileno(), 0, access=ACCESS_READ) if is_mapped else file.read())
        if read is None:
            raise ValueError(f"{os.fspath(path)!r} is not a file that Search.save wrote, or it is damaged")
        made = cls.__new__(cls)
        made._prepare(*read)
        return made

    def __eq__(self, other: object) -> bool:
        if not isinstance(other, Search):
            return NotImplemented
        same = _are_str(self) == _are_str(other) and self._key() == other._key()
        return bool(same and self._values == other._values)

    def __hash__(self) -> int:
        return hash(self._key())

    def _key(self) -> Tuple[Tuple[AnyStr, ...], Kind, _Case, bool]:
        return self.patterns, self.kind, self.ignore_case, self.whole_words

    def _given(self) -> Any:
        """The patterns as they were given, as a list or a mapping."""
        return list(self.patterns) if self._values is None else dict(zip(self.patterns, self._values))

    def __repr__(self) -> str:
        name = type(self).__qualname__
        more = ", whole_words=True" if self.whole_words else ""
        settings = f"Kind.{self.kind.name}, ignore_case={self.ignore_case!r}{more}"
        short = len(self) <= _SHOWN and sum(map(len, self.patterns)) <= _LINE
        given = repr(self._given()) if short else ""
        if short and len(given) <= _LINE and len(given.splitlines()) == 1:
            return f"{name}({given}, {settings})"
        return f"<{name} of {len(self)} pattern{'s' * (len(self) != 1)}: {_first(self)}; {settings}>"

    def __reduce__(self) -> Tuple[Any, ...]:
        # (the __init__ of a subclass may take something else)
        state = getattr(self, "__getstate__", lambda: _state(self))  # (Python 3.10 has no such method)
        return _made, (type(self), self._given(), self.kind, self.ignore_case, self.whole_words), state()

    def __reduce_ex__(self, protocol: SupportsIndex) -> Any:
        reduced: Tuple[Any, ...] = self.__reduce__()
        if protocol.__index__() < 5 or reduced[0] is not _made:
            return reduced
        return _made, (*reduced[1], pickle.PickleBuffer(self._prepared)), *reduced[2:]

    def __dask_tokenize__(self) -> Tuple[Any, ...]:
        """What Dask names a searcher by: its class, its patterns and settings, and the attributes of a subclass."""
        kind = type(self)
        return kind.__module__, kind.__qualname__, *self._key(), self._values, *self.__reduce__()[2:]


def _begin(
    made: "Search[Any]", patterns: Iterable[Any], kind: Kind, ignore_case: _Case, whole_words: bool, kept: Optional[bytes]
) -> None:
    """Gives a searcher its patterns. `kept` is what another one prepared for the same patterns, or None."""
    if isinstance(kind, bool):  # (else it would count as the number of a kind)
        raise TypeError("the kind is a Kind, not a bool")
    if isinstance(patterns, (set, frozenset)) and kind == Kind.LEFTMOST_FIRST:
        raise TypeError("a set has no order, by which Kind.LEFTMOST_FIRST chooses: take a list, or LEFTMOST_LONGEST")
    values: Optional[Tuple[Any, ...]] = None
    if type(patterns) not in (list, tuple):  # (a list or tuple is neither a mapping nor one text)
        if isinstance(patterns, Mapping):  # (asked once, since it may change meanwhile)
            items = list(patterns.items())
            patterns, values = [key for key, _ in items], tuple(value for _, value in items)
        patterns = _many(patterns)
    if isinstance(ignore_case, str) and ignore_case != "ascii":
        raise ValueError(f'ignore_case is True, False or "ascii", and not {ignore_case!r}')
    kind = kind if type(kind) is Kind else Kind(kind)
    made._prepare(patterns, kind, ignore_case, ignore_case == "ascii", whole_words, kept, values)


def _made(
    cls: Type[_Any], patterns: Iterable[Any], kind: Kind, ignore_case: _Case, whole_words: bool, kept: Any = None
) -> _Any:
    """A searcher of a class, without a call of its own __init__: for pickle and copy. An array of another format or byte
    order, or for another number of patterns, is made anew; pass the buffers of this pickle."""
    made = cls.__new__(cls)
    if kept is not None:
        with suppress(ValueError):
            _begin(made, patterns, kind, ignore_case, whole_words, bytes(kept))
            return made
    _begin(made, patterns, kind, ignore_case, whole_words, None)
    return made


def _one_after_another(matches: Iterator[Match[Any]]) -> Iterator[Match[Any]]:
    """Of matches ordered by ends, each that begins at the end of the one before, or later."""
    at = 0
    for match in matches:
        if match.start >= at:
            yield match
            at = match.end


def _are_str(searcher: "Search[Any]") -> bool:
    """Whether the patterns are str: they are all of one type."""
    return isinstance(next(iter(searcher.patterns), None), str)


def _first(searcher: "Search[Any]") -> str:
    """The first patterns, on one line: three, and of each the first characters."""
    kind: Any = str if _are_str(searcher) else bytes  # (by no method of a subclass)
    parts = [kind.__getitem__(it, slice(_CUT + 1)) for it in searcher.patterns[:3]]
    shown = [repr(it) if len(it) <= _CUT else f"{it[:_CUT]!r}..." for it in parts]
    return ", ".join(shown + ["..."] * (len(searcher) > len(shown)))


def _state(searcher: "Search[Any]") -> Any:
    """The attributes of a subclass, in the form of object.__getstate__."""
    names = cast(Any, copyreg)._slotnames(type(searcher))
    values = {name: getattr(searcher, name) for name in names if hasattr(searcher, name)}
    kept = getattr(searcher, "__dict__", None)
    return (kept, values) if values else kept


def _written(searcher: "Search[Any]") -> bytes:
    """The file of a searcher, without its checksum."""
    pieces = [str.encode(it) if isinstance(it, str) else it for it in searcher.patterns]  # (by no method of a subclass)
    ends, kept = list(accumulate(map(len, pieces))), searcher._prepared
    lens = len(pieces), sum(map(len, pieces)), len(kept)
    case = searcher.ignore_case
    flags = bool(case) | searcher.whole_words << 1 | (case == "ascii") << 2
    head = _HEAD.pack(_MAGIC, searcher.kind, flags, _are_str(searcher), *lens)
    return b"".join([head, kept, struct.pack(f"={len(ends)}Q", *ends), *pieces])


def _replace(name: str, whole: bytes, mode: Optional[int]) -> None:
    """Writes a file, in place of an existing one, if that has a mode, which is kept."""
    part = os.path.join(os.path.dirname(name), f".{secrets.token_hex(8)}")  # (short: the name may be as long as can be)
    made = os.open(part, os.O_WRONLY | os.O_CREAT | os.O_EXCL, 0o666 if mode is None else 0o600)
    try:
        with open(made, "wb") as file:
            if mode is not None:
                os.fchmod(made, stat.S_IMODE(mode))
            file.write(whole)
        os.replace(part, name)
    except BaseException:
        with suppress(FileNotFoundError):
            os.unlink(part)
        raise


def _read(of: Union[bytes, _Map]) -> Optional[Tuple[Tuple[Any, ...], int, bool, bool, bool, Any, None]]:
    """The arguments of `_prepare` from a file of a searcher, of which the prepared search stays in a mapped file."""
    whole = memoryview(of)
    if len(whole) < _HEAD.size + _SUM.size or _SUM.pack(zlib.crc32(whole[: -_SUM.size])) != whole[-_SUM.size :]:
        return None
    magic, kind, flags, is_str, count, size, prepared = _HEAD.unpack_from(whole)
    behind_prepared = _HEAD.size + prepared
    behind_ends = behind_prepared + 8 * count
    if magic != _MAGIC or len(whole) != behind_ends + size + _SUM.size:
        return None
    if kind not in {int(it) for it in Kind}:
        return None
    ends = struct.unpack_from(f"={count}Q", whole, behind_prepared)
    buffer = bytes(whole[behind_ends : -_SUM.size])
    pieces = tuple(buffer[start:end] for start, end in zip((0, *ends), ends))
    patterns = tuple(it.decode() for it in pieces) if is_str else pieces
    ignore_case, whole_words, ascii_case = (bool(flags & it) for it in (1, 2, 4))
    kept = whole[_HEAD.size : behind_prepared]
    return patterns, kind, ignore_case, ascii_case, whole_words, bytes(kept) if isinstance(of, bytes) else kept, None


def _has_objects(view: memoryview) -> bool:
    """Whether its items are objects, or have fields that are: the names of fields are between colons."""
    return "O" in "".join(view.format.split(":")[::2])


def _is_column(of: Any) -> bool:
    """Whether it is a column of Arrow: it lends its texts by the C data interface, as an array or in chunks. A column of
    pandas that has objects of Python is none: pandas would copy it, and needs a package for it."""
    kind, dtype = type(of), getattr(of, "dtype", None)
    if hasattr(kind, "__arrow_c_array__"):
        return True
    has_objects = getattr(dtype, "hasobject", False) or getattr(dtype, "storage", None) == "python"
    return hasattr(kind, "__arrow_c_stream__") and not has_objects


def _missing() -> Any:
    """pandas.NA, or None, which is missing too: without pandas nobody has the other one."""
    return getattr(sys.modules.get("pandas"), "NA", None)


def _cells(searcher: "Search[Any]", texts: Iterable[Any], skip_missing: bool) -> Iterable[Any]:
    """Texts, and an empty one in the place of each that is missing, if these are skipped."""
    if not skip_missing:
        return _many(texts)
    empty: Union[str, bytes] = "" if _are_str(searcher) else b""
    missing = _missing()
    return (empty if it is None or it is missing or isinstance(it, float) and it != it else it for it in _many(texts))


def _many(of: Iterable[Any]) -> Iterable[Any]:
    """Patterns or texts, also an array of objects, of strings by numpy, or of texts by Arrow. A single text is refused:
    it would count as its characters."""
    if _is_column(of):
        return _native.texts_of(of)
    if getattr(getattr(of, "dtype", None), "kind", None) in ("S", "U"):
        return of
    try:
        if _has_objects(memoryview(cast(Any, of))):
            return of
    except TypeError:
        if not isinstance(of, str):
            return of
    raise TypeError(f"a list of texts is wanted, not one text of type {type(of).__name__}")
