"""The kinds of match, the match, and columns of texts."""
import enum
from typing import Any, Protocol, Tuple

from ._native import Match as Match


class Kind(enum.IntEnum):
    """Which pattern wins if several match at one position."""

    #: the earliest in the list
    LEFTMOST_FIRST = 0
    #: the longest, and of several equally long ones the earliest in the list
    LEFTMOST_LONGEST = 1


class Column(Protocol):
    """What lends texts, or bytes, by the C data interface of Arrow."""

    def __arrow_c_array__(self, requested_schema: Any = None) -> Tuple[Any, Any]: ...


class Chunks(Protocol):
    """What lends chunks of texts, or of bytes, by the C stream interface of Arrow."""

    def __arrow_c_stream__(self, requested_schema: Any = None) -> Any: ...
