"""Texts that are read from a file, a block at a time."""
import select
from contextlib import suppress
from errno import EAGAIN
from io import BufferedIOBase, BufferedReader, BytesIO, FileIO, RawIOBase
from typing import TYPE_CHECKING, Any, Callable, Iterator, List, Optional

from ._types import Match

if TYPE_CHECKING:
    from ._native import Prepared

BLOCK = 1 << 17

# The answer for each part of a text: its matches, their number, the part with each match replaced, or what occurs in it.
MATCHES, COUNT, REPLACED, OCCURRENCES = range(4)


def has_read1(file: Any) -> bool:
    """Whether a buffered file has a method `read1` that belongs to its `read`. If a subclass or the file itself replaces
    `read` alone, it has none."""
    places = [getattr(file, "__dict__", {}), *map(vars, type(file).__mro__)]
    return isinstance(file, BufferedIOBase) and "read1" in next(it for it in places if "read" in it or "read1" in it)


def unless_none(read: Any) -> Any:
    """What was read, unless that is None."""
    if read is None:
        raise BlockingIOError(EAGAIN, "the file has nothing to be read yet, and does not wait")
    return read


def readinto_of(file: Any) -> Any:
    """The method by which a file reads into a buffer, if its class is one of Python's own. Any other one might report
    more bytes than it read, or write to the buffer during a search."""
    is_buffered = type(file) is BufferedReader
    below = file.raw if is_buffered else file
    if type(below) not in (BytesIO, FileIO) or any("read" in it for it in (*vars(file), *vars(below))):
        return None
    return file.readinto1 if is_buffered else file.readinto


class Source:
    """A file that is read a block at a time, and the part of its text that is held. Pieces are joined before a search. A
    file that has given a whole block reads the next ones into a buffer, if it can: so they are not copied."""

    def __init__(self, file: Any) -> None:
        self._file, self._has_read1 = file, has_read1(file)
        self._pieces: List[Any] = []
        self._buffer: Optional[bytearray] = None
        self._readinto: Any = None
        self.length, self.more = 0, True
        self._poll: Optional[select.poll] = None
        if isinstance(file, (BufferedIOBase, RawIOBase)):  # (another one's `fileno` might do more than tell)
            with suppress(Exception):  # (it is no file of the system)
                poll = select.poll()
                poll.register(file.fileno(), select.POLLIN)
                self._poll = poll

    def read(self) -> Optional[Exception]:
        """Reads the next piece, which is empty at the end; or answers the exception."""
        try:
            count = self._read_piece() if self._buffer is None else self._read_into(self._buffer)
        except Exception as why:
            return why
        self.length += count
        self.more = count > 0
        return None

    def _read_piece(self) -> int:
        """Reads str or bytes, and answers how many. `read1` waits for some bytes, and `read` until there is a whole
        block. Where `read1` gives none, `read` tells an end from a file that does not wait."""
        piece = unless_none(self._has_read1 and self._file.read1(BLOCK) or self._file.read(BLOCK))
        piece = piece if isinstance(piece, (str, bytes)) else bytes(memoryview(piece))
        self._readinto = readinto_of(self._file) if len(piece) == BLOCK else None
        if piece or not self._pieces:
            self._pieces.append(piece)
        return len(piece)

    def _read_into(self, buffer: bytearray) -> int:
        """Reads bytes behind those in the buffer, and answers how many."""
        if len(buffer) < self.length + BLOCK:
            self._buffer = buffer = buffer + bytes(len(buffer) + BLOCK)
        count: int = unless_none(self._readinto(memoryview(buffer)[self.length : self.length + BLOCK]))
        return count

    def held(self) -> Any:
        """The part that is held, as one text. A piece was read, at least an empty one."""
        if self._buffer is not None:
            return memoryview(self._buffer)[: self.length]
        if len(self._pieces) > 1:
            self._pieces = [self._pieces[0][:0].join(self._pieces)]
        return self._pieces[0]

    def keep(self, start: int) -> None:
        """Drops what is held before the start."""
        kept = self.held()[start:]
        self.length = len(kept)
        if self._buffer is not None:
            memoryview(self._buffer)[: self.length] = kept
            return
        self._pieces = [kept] if kept else []
        if self._readinto is not None:
            self._buffer = bytearray(kept)

    def waits(self) -> bool:
        """Whether the next read waits, as far as the system knows: then what was read is searched before it."""
        return self._poll is not None and not self._poll.poll(0)


def for_stream(searcher: "Prepared[Any]") -> "Prepared[Any]":
    """The searcher, unless it is for whole words: such a search needs the characters around a part."""
    if searcher.whole_words:
        raise ValueError("a searcher for whole words searches no stream")
    return searcher


def searched(searcher: "Prepared[Any]", file: Any, wanted: int, by: Any = None) -> Iterator[Any]:
    """The wanted answer for each part of a text, up to its end. The bytes of a part are kept where a match may begin
    that ends after it. Then at least as much is read as was kept, so all parts together have at most twice the length
    of the text and of the longest pattern; but less is read if the next read waits. If the file fails, the text before
    is searched first."""
    source = Source(file)
    kept = before = 0
    while source.more:
        failure = source.read()
        if failure is None and source.more and source.length < 2 * kept and not source.waits():
            continue
        start, is_done = 0, failure is not None and source.length == 0
        while not is_done:
            answer, start, is_done = searcher._so_far(source.held(), start, before, source.more, wanted, by)
            yield answer
        if failure is not None:
            try:
                raise failure
            finally:
                del failure  # (which has this frame)
        before += start
        source.keep(start)
        kept = source.length


def occurrences(searcher: "Prepared[Any]", file: Any) -> Iterator[List[Match[Any]]]:
    """Every occurrence in a text, up to its end, in lists. The last bytes of a part are kept, one less than the longest
    pattern has. Then more than that is read, so all parts together have at most twice the length of the text and of the
    longest pattern; but less is read if the next read waits. If the file fails, the text before is searched first."""
    source, lead = Source(file), max(map(len, searcher.patterns), default=1) - 1
    before = 0
    failure = None
    while source.more and failure is None:
        old = source.length
        while source.more and failure is None and source.length <= 2 * old:
            if source.length > old and source.waits():
                break
            failure = source.read()
        if source.length > old:
            at, is_done = old, False
            while not is_done:
                found, at, is_done = searcher._so_far(source.held(), at, before, source.more, OCCURRENCES, None)
                yield found
            start = max(0, source.length - lead)
            before += start
            source.keep(start)
    if failure is not None:
        try:
            raise failure
        finally:
            del failure  # (which has this frame)
