"""Bytes that others own, as the library wants them: an address and a length."""
import ctypes
from ctypes import POINTER, c_char_p, c_int, c_ssize_t, c_void_p
from typing import TYPE_CHECKING, Tuple

if TYPE_CHECKING:
    from typing_extensions import Buffer


class _PyBuffer(ctypes.Structure):
    _fields_ = [("buf", c_void_p), ("obj", c_void_p), ("len", c_ssize_t), ("itemsize", c_ssize_t), ("readonly", c_int), ("ndim", c_int),
                ("format", c_char_p), ("shape", c_void_p), ("strides", c_void_p), ("suboffsets", c_void_p), ("internal", c_void_p)]


# Functions of our own: types set on those of ctypes.pythonapi would be everybody's.
_get_buffer = ctypes.PYFUNCTYPE(c_int, ctypes.py_object, POINTER(_PyBuffer), c_int)(("PyObject_GetBuffer", ctypes.pythonapi))
_release_buffer = ctypes.PYFUNCTYPE(None, POINTER(_PyBuffer))(("PyBuffer_Release", ctypes.pythonapi))
_SIMPLE = 0


def _view(owner: "Buffer", what: str) -> memoryview:
    if isinstance(owner, str):
        raise TypeError(f"the {what} is a str, and marks are found in bytes: encode it first, as by .encode()")
    try:
        view = memoryview(owner)
    except TypeError:
        raise TypeError(f"the {what} must be bytes or another object with the buffer protocol, not {type(owner).__name__}") from None
    if not view.c_contiguous:
        raise BufferError(f"the {what} is not contiguous in memory: copy it first, as by bytes()")
    return view


def _address(view: memoryview) -> int:
    """Where the bytes of a view stand. They stay there for as long as the view is neither released nor forgotten."""
    got = _PyBuffer()
    _get_buffer(view, got, _SIMPLE)
    try:
        return got.buf or 0
    finally:
        _release_buffer(got)


class Lent:
    """The bytes of an object with the buffer protocol, which cannot be moved, resized or freed before this is left or forgotten."""

    __slots__ = ("_view", "_address", "_length")

    def __init__(self, owner: "Buffer", what: str) -> None:
        self._view = _view(owner, what)
        self._address, self._length = _address(self._view), self._view.nbytes

    def __enter__(self) -> "Lent":
        return self

    def __exit__(self, *_: object) -> None:
        self._view.release()

    def __len__(self) -> int:
        return self._length

    def part(self, start: int, end: int) -> "Lent":
        """The bytes from a place of these on, up to another place or to the end. It lasts no longer than the whole."""
        part = Lent.__new__(Lent)
        part._view, part._address, part._length = self._view, self._address + start, min(end, self._length) - start
        return part

    def copy(self) -> bytes:
        return self._view.tobytes()

    def copy_part(self, start: int, end: int) -> bytes:
        """The bytes from one place up to another; both must be within these."""
        return ctypes.string_at(self._address + start, end - start)

    def buffer_info(self) -> Tuple[int, int]:
        """The address and the length, as array.array tells them."""
        return self._address, self._length
