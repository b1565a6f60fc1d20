"""Calls for mypy --strict to judge. Where `type: ignore` stands, the call has a wrong type, and mypy says so; a comment
that it finds needless would be an error too."""
from array import array
from io import BytesIO, StringIO
from pathlib import Path
from typing import Iterator, List, Optional, Tuple

from literal_search import Kind, Match, Search

of_str = Search(["a", "b"], Kind.LEFTMOST_LONGEST, ignore_case="ascii")
of_bytes = Search([b"a", bytearray(b"b")])
of_words: "Search[str]" = Search(["a"], whole_words=True)

one: Optional[Match[str]] = of_str.find("text", 1, None)
iterator: Iterator[Match[bytes]] = of_bytes.finditer(memoryview(b"text"), end=-1)
many: List[List[Match[bytes]]] = of_bytes.findall_each([b"text", array("B")])
counts: List[int] = of_str.count_each(iter(["text"])) + of_bytes.count_each([array("B")])
every: List[Match[str]] = of_str.find_overlapping("text")
each: Iterator[Match[bytes]] = of_bytes.finditer_overlapping(b"text")
earliest: Optional[Match[str]] = of_str.find_earliest("text", 1)
in_turn: Iterator[Match[bytes]] = of_bytes.finditer_earliest(b"text", end=2)
matched: str = every[0].group() + every[0].group(0)
pattern, start, end = every[0]
of_a_mapping: "Search[str]" = Search({"a": 1})
value: int = of_a_mapping.findall("text")[0].value
streamed: Iterator[Match[bytes]] = of_bytes.finditer_stream(BytesIO(b"text"))
in_stream: int = of_str.count_stream(StringIO("text"))
of_bytes.sub_stream(BytesIO(b"text"), BytesIO(), lambda match: match.group())
number: int = of_bytes.count(bytearray(b"text")) + of_str.count_overlapping("text")
strings: List[str] = of_str.findall_strings("text", 1)
byte_strings: List[bytes] = of_bytes.findall_strings(array("B"))
starts: "array[int]" = of_str.find_columns("text", end=2)[1]
rows: "array[int]" = of_bytes.find_columns_each([b"text", None], skip_missing=True)[0]
parts: List[str] = of_str.split("text")
text: str = of_str.sub(lambda match: match.group() + str(match.start), "text")
bytes_and_number: Tuple[bytes, int] = of_bytes.subn([b"x", b"y"], b"text", count=1)
patterns: Tuple[str, ...] = of_str.patterns
words: List[str] = list(of_str) + [it for it in of_words if it in of_str]
how_many: int = len(of_bytes)
again: "Search[bytes]" = Search(of_bytes)
by_values: str = of_a_mapping.sub(of_a_mapping.values, "text")
of_str.save(Path("file"))
loaded: "Search[str]" = Search.load("file")
loaded_of_bytes: "Search[bytes]" = Search.load("file")
mapped: "Search[str]" = Search.load(Path("file"), mmap=True)
found: Optional[Match[bytes]] = Search[bytes].load("file").find(b"text")
without_patterns: "Search[bytes]" = Search([])

of_str = Search[bytes].load("file")  # type: ignore
byte_words: List[bytes] = list(of_str)  # type: ignore
of_str[0]  # type: ignore
Search.load("file", True)  # type: ignore
of_str.find(b"text")  # type: ignore
of_bytes.find("text")  # type: ignore
of_str.findall(5)  # type: ignore
of_bytes.finditer("text")  # type: ignore
bytes_matched: bytes = every[0].group()  # type: ignore
of_bytes.find_overlapping("text")  # type: ignore
of_str.count("text", "0")  # type: ignore
of_bytes.sub("x", b"text")  # type: ignore
of_str.sub(lambda match: match.start, "text")  # type: ignore
of_bytes.split("text")  # type: ignore
of_str.findall_strings(b"text")  # type: ignore
of_bytes.find_columns("text")  # type: ignore
of_bytes.finditer_stream(StringIO("text"))  # type: ignore
of_str.sub_stream(StringIO("text"), StringIO(), b"x")  # type: ignore
of_bytes.find_each(["text"])  # type: ignore
of_str.count_each([b"text"])  # type: ignore
of_str.find_columns_each([b"text"])  # type: ignore
Search([1])  # type: ignore
Search(b"ab")  # type: ignore
Search(["a"], 0)  # type: ignore
Search(["a"], whole_words="b")  # type: ignore
Search(["a"]).nothing()  # type: ignore
