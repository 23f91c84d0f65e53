"""A file of any length, one room after the other."""
from typing import Callable, Iterator, Optional, Protocol, Tuple, Union

from ._lent import Lent

# The most that is searched at a time.
_READ = 1 << 20

# What is searched at a time has an eighth as many new bytes as the word has letters at least: else a file that gives a byte at a time would
# have all but one of those letters searched again for each.
_NEW_OF_LETTERS = 8


class _ReadsInto(Protocol):
    def readinto(self, room: memoryview, /) -> Optional[int]: ...


class _Reads(Protocol):
    def read(self, length: int, /) -> Optional[bytes]: ...


Binary = Union[_ReadsInto, _Reads]
_Reader = Callable[[memoryview], Optional[int]]


def rooms_of(file: Binary, common: int) -> Iterator[Tuple[int, Lent]]:
    """What is left of the file, in rooms that have so many bytes in common, each with the place of its first byte. A room lasts until the
    next is asked for. What came before an error is a room, too."""
    return _rooms(_reader(file), common)


def _rooms(read_into: _Reader, common: int) -> Iterator[Tuple[int, Lent]]:
    room = bytearray(common + _READ)
    view, first, kept, least = memoryview(room), 0, 0, -(-(common + 1) // _NEW_OF_LETTERS)
    while True:
        filled, ended, failed = _fill(read_into, view, kept, least)
        if filled > kept:
            yield first, Lent(view[:filled], "file")
        if failed is not None:
            raise failed
        if ended:
            return
        over = min(filled, common)
        room[:over] = room[filled - over:filled]
        first, kept = first + filled - over, over


def _fill(read_into: _Reader, view: memoryview, filled: int, least: int) -> Tuple[int, bool, Optional[Exception]]:
    """Reads what one read gives, and again where that is too little. How much of the room is filled, whether the file ended, and how it
    failed if it did."""
    enough = min(filled + least, len(view))
    while filled < enough:
        left = len(view) - filled
        try:
            got = read_into(view[filled:])
            if got is None:
                raise BlockingIOError("the file has no bytes ready: open it so that reading waits for them, or give what comes to a Stream")
            if not 0 <= got <= left:
                raise ValueError(f"the file says that it read {got} bytes where {left} were asked for")
        except Exception as failed:
            return filled, True, failed
        if got == 0:
            return filled, True, None
        filled += got
    return filled, False, None


def _reader(file: Binary) -> _Reader:
    read_into, read = getattr(file, "readinto1", None) or getattr(file, "readinto", None), getattr(file, "read", None)
    if read_into is None and read is None:
        raise TypeError(f"a file that is open for binary reading is needed, not {type(file).__name__}")
    return read_into or _copying(read)


def _copying(read: Callable[[int], Optional[bytes]]) -> _Reader:
    def read_into(room: memoryview) -> Optional[int]:
        piece = read(len(room))
        if isinstance(piece, str):
            raise TypeError("the file is open for text: open it for binary reading, as by mode 'rb'")
        if piece is None:
            return None
        if not isinstance(piece, (bytes, bytearray, memoryview)):
            raise TypeError(f"the file's read gave no bytes, but {type(piece).__name__}")
        if len(piece) <= len(room):
            room[:len(piece)] = piece
        return len(piece)
    return read_into
