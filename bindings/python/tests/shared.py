"""The objects that Python shares: without a byte or character, and of one. Nobody may write into them. Each file of
tests imports `tearDownModule`, so that it looks at them after its last test."""
import ctypes

# The bytes up to a zero, as C reads them.
of_bytes, of_str = lambda it: ctypes.c_char_p(it).value, ctypes.pythonapi.PyUnicode_AsUTF8
of_str.argtypes, of_str.restype = [ctypes.py_object], ctypes.c_char_p


def utf8(number):
    """A character of Latin-1 in UTF-8, in memory of its own."""
    return bytearray([number] if number < 0x80 else [0xC0 | number >> 6, 0x80 | number & 0x3F])


def is_changed(number):
    """Whether the byte or the character of a number is not what it should be."""
    byte, character = bytes([number]), chr(number)
    return (byte[0], ord(character)) != (number, number) or (of_bytes(byte), of_str(character)) != (
        bytearray([number]).rstrip(b"\0"), utf8(number).rstrip(b"\0"))


def tearDownModule():
    changed = [it for it in range(256) if is_changed(it)]
    if changed:
        raise AssertionError(f"objects that Python shares were changed: {changed}")
    if [len(it) for it in (b"", "", of_bytes(b""), of_str(""))] != [0] * 4:
        raise AssertionError("an object without bytes has some")
