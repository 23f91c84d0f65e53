"""A word to be found in a text that comes in pieces."""
from typing import TYPE_CHECKING, List

from ._entries import LONGEST_TEXT, open_searcher, room, take
from ._lent import Lent

if TYPE_CHECKING:
    from typing_extensions import Buffer

LONGEST_STREAMED = 64

# The most that is given to the library at a time. Each byte ends one find at most, so that a list as long has room for all of them.
_LONGEST_PART = 1 << 16

# Where a searcher has the length of its word, that of the word's beginning with which the bytes taken end, and how many those are.
_LENGTH, _KEPT, _TAKEN = 128, 129, slice(130, 134)


class Stream:
    """A word of 1 to 64 bytes, looked for in a text of any length that comes in pieces of any length, of which nothing is kept.

    However the text is cut, each find is told once, with the piece in which it ends, by its start counted from the first byte of all.
    A stream is for one thread at a time; where a piece cannot be taken it stays as it was.

    >>> stream = Stream(b"RIDE")
    >>> [stream.take(piece) for piece in (b"..RI", b"DE..R", b"", b"IDE")]
    [[], [2], [], [8]]
    >>> stream.count, stream.taken
    (2, 12)
    """

    __slots__ = ("_searcher", "_base", "_count")

    def __init__(self, word: "Buffer") -> None:
        with Lent(word, "word") as lent:
            self._searcher = open_searcher(lent)
        self._base = self._count = 0

    def take(self, piece: "Buffer") -> List[int]:
        """Takes the next piece: the starts of the finds that end in it, rising, overlaps included."""
        places: List[int] = []
        other = self._copy()
        with Lent(piece, "piece") as lent:
            finds = room("I", min(len(lent), _LONGEST_PART))
            for at in range(0, len(lent), _LONGEST_PART):
                part = lent.part(at, at + _LONGEST_PART)
                other._make_room(len(part))
                found = take(other._searcher, part, finds)
                places += [other._base + place for place in finds[:found]]
        self._searcher, self._base, self._count = other._searcher, other._base, self._count + len(places)
        return places

    @property
    def word(self) -> bytes:
        return self._searcher[:self._searcher[_LENGTH]].tobytes()

    @property
    def count(self) -> int:
        """How many finds there were so far."""
        return self._count

    @property
    def taken(self) -> int:
        """How many bytes were taken so far."""
        return self._base + self._searched()

    def __repr__(self) -> str:
        return f"<Stream of {self.word!r}: {self._count:,} finds in {self.taken:,} bytes>"

    def _copy(self) -> "Stream":
        other = Stream.__new__(Stream)
        other._searcher, other._base, other._count = self._searcher[:], self._base, self._count
        return other

    def _searched(self) -> int:
        return int.from_bytes(self._searcher[_TAKEN].tobytes(), "little")

    def _make_room(self, length: int) -> None:
        """Where the searcher has no room for so many bytes more: opens another one, and feeds it the word's beginning that this one keeps.

        The bytes taken end with it and nothing else of them matters, so the other one goes on as this one would.
        """
        if length <= LONGEST_TEXT - self._searched():
            return
        kept = self.word[:self._searcher[_KEPT]]
        other = open_searcher(self.word)
        take(other, kept, room("I", 0))
        self._searcher, self._base = other, self.taken - len(kept)
