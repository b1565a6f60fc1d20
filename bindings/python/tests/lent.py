"""Columns of texts that are lent as by any library of Arrow: by its C data interface, or by its C stream interface."""
import ctypes
import struct
from itertools import accumulate

RELEASE = ctypes.CFUNCTYPE(None, ctypes.c_void_p)
DESTROY, DESTROYED, RELEASED = ctypes.PYFUNCTYPE(None, ctypes.c_void_p), [], []
GET = ctypes.CFUNCTYPE(ctypes.c_int, ctypes.c_void_p, ctypes.c_void_p)
WHY = ctypes.CFUNCTYPE(ctypes.c_void_p, ctypes.c_void_p)
NEW_CAPSULE = ctypes.pythonapi.PyCapsule_New
NEW_CAPSULE.argtypes, NEW_CAPSULE.restype = (ctypes.c_void_p, ctypes.c_char_p, DESTROY), ctypes.py_object


class Schema(ctypes.Structure):
    _fields_ = [("format", ctypes.c_char_p), ("name", ctypes.c_char_p), ("metadata", ctypes.c_char_p),
                ("flags", ctypes.c_int64), ("n_children", ctypes.c_int64), ("children", ctypes.c_void_p),
                ("dictionary", ctypes.c_void_p), ("release", ctypes.c_void_p), ("private_data", ctypes.c_void_p)]


class Array(ctypes.Structure):
    _fields_ = [("length", ctypes.c_int64), ("null_count", ctypes.c_int64), ("offset", ctypes.c_int64),
                ("n_buffers", ctypes.c_int64), ("n_children", ctypes.c_int64),
                ("buffers", ctypes.POINTER(ctypes.c_void_p)), ("children", ctypes.c_void_p),
                ("dictionary", ctypes.c_void_p), ("release", ctypes.c_void_p), ("private_data", ctypes.c_void_p)]


class Stream(ctypes.Structure):
    _fields_ = [(name, ctypes.c_void_p) for name in ("get_schema", "get_next", "get_last_error", "release", "data")]


@RELEASE
def nothing(_):
    """The memory belongs to the column, which outlives its capsules here."""


@RELEASE
def released(struct):
    """Called with each schema and array of a stream that is let go."""
    RELEASED.append(struct)


@DESTROY
def destroyed(_):
    """Called with each capsule that is gone."""
    DESTROYED.append(None)


def offsets_of(encoded, kind):
    """The buffers of texts by offsets."""
    ends = [0, *accumulate(map(len, encoded))]
    return [struct.pack(f"={len(ends)}{kind}", *ends), b"".join(encoded)]


def views_of(encoded):
    """The buffers of texts by views: the views, two buffers with the long texts in turns, and their lengths."""
    views, long = [], [b"x", b""]
    for i, it in enumerate(encoded):
        if len(it) <= 12:
            views.append(struct.pack("=i12s", len(it), it))
        else:
            views.append(struct.pack("=i4sii", len(it), it[:4], i % 2, len(long[i % 2])))
            long[i % 2] += it
    return [b"".join(views), *long, struct.pack("=2q", *map(len, long))]


class Column:
    """Texts of str or bytes, or None where one is missing, in buffers as Arrow has them, from a later text on."""

    def __init__(self, texts, form, skipped=("", None), names=(b"arrow_schema", b"arrow_array")):
        self.names, cells = names, [*skipped, *texts]
        # (bytes of a missing text may be there, and are not looked at)
        encoded = [b"a missing text" if it is None else it.encode() if isinstance(it, str) else it for it in cells]
        bits = sum((it is not None) << i for i, it in enumerate(cells))
        places = views_of(encoded) if form[:1] == b"v" else offsets_of(encoded, "q" if form in b"UZ" else "i")
        self.parts = [bits.to_bytes(len(cells) // 8 + 1, "little"), *places]
        self.held = [ctypes.create_string_buffer(it, len(it) or 1) for it in self.parts]
        self.buffers = (ctypes.c_void_p * len(self.held))(*[ctypes.addressof(it) for it in self.held])
        release = ctypes.cast(nothing, ctypes.c_void_p).value
        self.schema = Schema(format=form, release=release)
        self.array = Array(length=len(texts), null_count=-1, offset=len(skipped), n_buffers=len(self.held),
                           release=release, buffers=self.buffers)

    def damage(self, buffer, part, at=0):
        """Writes a part into one of the buffers."""
        ctypes.memmove(ctypes.addressof(self.held[buffer]) + at, part, len(part))

    def __arrow_c_array__(self, requested_schema=None):
        structs = zip((self.schema, self.array), self.names)
        return tuple(NEW_CAPSULE(ctypes.addressof(it), name, destroyed) for it, name in structs)


class Chunks:
    """A stream of columns of one form. A number in the place of the form, or of a column, is the code of a failure."""

    def __init__(self, columns, form, why=b"a reason", name=b"arrow_array_stream"):
        self.columns, self.form, self.why, self.name = list(columns), form, why, name
        self.left = iter(self.columns)
        self.reason = ctypes.create_string_buffer(why or b"")
        self.calls = [GET(self.get_schema), GET(self.get_next), WHY(self.get_last_error), nothing]
        self.stream = Stream(*[ctypes.cast(it, ctypes.c_void_p).value for it in self.calls])

    def get_schema(self, _, place):
        return self.form if isinstance(self.form, int) else lend(Schema(format=self.form), place)

    def get_next(self, _, place):
        column = next(self.left, None)
        if column is None:
            return lend(Array(), place, False)
        return column if isinstance(column, int) else lend(column.array, place)

    def get_last_error(self, _):
        return ctypes.addressof(self.reason) if self.why is not None else None

    def __arrow_c_stream__(self, requested_schema=None):
        return NEW_CAPSULE(ctypes.addressof(self.stream), self.name, destroyed)


def lend(of, place, is_there=True):
    """Writes a struct to a place, where it is to be released if anything is there."""
    lent = type(of).from_buffer_copy(of)
    lent.release = ctypes.cast(released, ctypes.c_void_p).value if is_there else None
    ctypes.memmove(place, ctypes.addressof(lent), ctypes.sizeof(lent))
    return 0
