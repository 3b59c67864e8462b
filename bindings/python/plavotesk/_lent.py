"""What is lent to a call: numbers as they are, bytes where they lie, without a copy."""
from __future__ import annotations

import ctypes
import operator
from typing import Any

_PYTHON = ctypes.pythonapi


class _View(ctypes.Structure):
    """Python's own record of a lent buffer (Py_buffer)."""

    _fields_ = [
        ('buf', ctypes.c_void_p), ('obj', ctypes.py_object), ('len', ctypes.c_ssize_t), ('itemsize', ctypes.c_ssize_t),
        ('readonly', ctypes.c_int), ('ndim', ctypes.c_int), ('format', ctypes.c_char_p), ('shape', ctypes.c_void_p),
        ('strides', ctypes.c_void_p), ('suboffsets', ctypes.c_void_p), ('internal', ctypes.c_void_p),
    ]


_GET, _RELEASE = _PYTHON.PyObject_GetBuffer, _PYTHON.PyBuffer_Release
_GET.argtypes, _GET.restype = [ctypes.py_object, ctypes.POINTER(_View), ctypes.c_int], ctypes.c_int
_RELEASE.argtypes, _RELEASE.restype = [ctypes.POINTER(_View)], None
_READ, _WRITE = 0, 1


class Lent:
    """A buffer that is lent for as long as this lives: bytes, a bytearray, a memoryview, a mapped file, an array."""

    __slots__ = ('_view', 'address', 'length')

    def __init__(self, name: str, given: Any, writable: bool = False) -> None:
        self._view = None
        view = _View()
        try:
            _GET(given, view, _WRITE if writable else _READ)
        except (TypeError, BufferError, ValueError) as why:
            wanted = 'a writable buffer (a bytearray)' if writable else 'bytes, or another buffer whose bytes lie together'
            raise TypeError(f'{name} must be {wanted}: {why}') from None
        self._view = view
        self.address = view.buf or 1
        self.length = view.len

    def __del__(self) -> None:
        if self._view is not None:
            _RELEASE(self._view)


def lent(name: str, given: Any) -> tuple[Any, int, Any]:
    """Bytes to read, as a pointer, a length and what keeps them where they are."""
    if type(given) is bytes:
        return given, len(given), given
    keep = given if type(given) is Lent else Lent(name, given)
    return keep.address, keep.length, keep


def whole(name: str, number: Any) -> int:
    """A whole number; a float or a string is a TypeError that names the argument."""
    try:
        return operator.index(number)
    except TypeError:
        raise TypeError(f'{name} must be a whole number, not {type(number).__name__}') from None


def held(name: str, number: Any, bits: int) -> int:
    """A whole number that document 01 has no refusal for: it must fit its bits."""
    number = whole(name, number)
    if not 0 <= number < 1 << bits:
        raise OverflowError(f'{name} {number} does not fit {bits} bits')
    return number


def within(name: str, number: Any, bits: int) -> int:
    """A whole number in so many bits, where the greatest of them is refused as every number outside them is."""
    number = whole(name, number)
    return number if 0 <= number < 1 << bits else (1 << bits) - 1


def upward(name: str, number: Any, bits: int) -> int:
    """The same of a number that is never under 0: a count, a position. Document 01 has no refusal for one under 0."""
    number = whole(name, number)
    if number < 0:
        raise OverflowError(f'{name} {number} is under 0')
    return min(number, (1 << bits) - 1)
