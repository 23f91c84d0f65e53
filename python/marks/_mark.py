"""A word to be found."""
from operator import index
from typing import TYPE_CHECKING, Iterator, Optional

from . import _entries
from ._entries import EDITIONS, Edition
from ._lent import Lent
from ._reading import Binary, rooms_of
from ._search import ENGINES, Engine, Search

if TYPE_CHECKING:
    from typing_extensions import Buffer

_SHOWN = 32


class Mark:
    """A word of 1 to 4,096 bytes, ready to be found in any number of texts of any length, by any number of threads at once.

    >>> mark = Mark(b"aba")
    >>> list(mark.find_iter(b"ababa"))
    [0, 2]

    Words and texts are bytes, or any other object with the buffer protocol. A text is not copied, and nobody may write to it while it is
    searched. Marks are equal where word and engine are, from whatever file they came.

    The time is linear whatever the text: a mark leaves most bytes of most texts unread, and where one turns out to be hostile goes over to
    a search that reads at most two letters for each. That is the engine "auto". "turbo" is for texts of which each has to be linear by
    itself, however short, "backward" for words and texts that you know. The finds are the same with each. "failure" walks the failure
    oracle, and is there for its fewer arrows and for comparing: of a word of m bytes that repeats itself up to m*m/2 letters are walked
    to make its table, 8.4 million for 4,096 bytes, for each part of a text again, and of a hostile text it may read m letters for each
    place. "compact" is "backward" with compact rows, the form for boards with little stack: it reads the same letters.
    """

    __slots__ = ("_word", "_engine", "_edition")

    def __init__(self, word: "Buffer", *, engine: Engine = "auto") -> None:
        if engine not in ENGINES:
            raise ValueError(f"there is no engine {engine!r}: it is one of {', '.join(ENGINES)}")
        with Lent(word, "word") as lent:
            _entries.build(lent)
            self._word = lent.copy()
        self._engine = engine
        self._edition: Optional[Edition] = None

    @classmethod
    def from_file(cls, data: "Buffer", *, engine: Engine = "auto") -> "Mark":
        """The mark of a saved file's bytes, of either edition. Any bytes may be handed over: what is raised says why they are no mark's
        file, and where.

        >>> Mark.from_file(bytes.fromhex("01 02 61 62 01 00 00"))  # the file of ab finds ba
        Mark(b'ba')
        >>> Mark.from_file(bytes.fromhex("01 02 61 62 00"))
        Traceback (most recent call last):
        marks.WrongArrow: an arrow in the file is not its word's own at that place, or arrows are missing (10), at offset 5
        >>> Mark.from_file(bytes.fromhex("02 02 63 62 01 00 00 D1 92"))  # a bit of its third byte was flipped: the file was that of ab
        Traceback (most recent call last):
        marks.BadCheck: the file's check is not that of the bytes before it (13), at offset 7
        """
        with Lent(data, "file") as lent:
            mirror, edition = _entries.load(lent)
        mark = cls(mirror[::-1], engine=engine)
        mark._edition = edition
        return mark

    def to_file(self, *, edition: Edition = 1) -> bytes:
        """The one file of that edition from which `from_file` makes the mark of this word again. It has the word's mirror, whose oracle a
        search walks. A mark of one letter has none, as whoever searched with it would drown in finds.

        Edition 2 ends with two bytes more, a check of all bytes before them: a single flipped bit is always noticed, where in edition 1 it
        may leave the file of another mark. Edition 1 is the default nevertheless, as a service that is not yet updated refuses edition 2
        with 7.

        >>> Mark(b"aa").to_file().hex(" ")
        '01 02 61 61 00'
        >>> Mark(b"aa").to_file(edition=2).hex(" ")
        '02 02 61 61 00 00 36'
        """
        if edition not in EDITIONS:
            raise ValueError(f"there is no edition {edition!r}: it is 1 or 2")
        return _entries.save(self._word[::-1], edition)

    @property
    def word(self) -> bytes:
        return self._word

    @property
    def engine(self) -> Engine:
        return self._engine

    @property
    def edition(self) -> Optional[Edition]:
        """That of the file from which the mark was loaded; None where it was made of its word."""
        return self._edition

    def find(self, text: "Buffer", start: int = 0) -> Optional[int]:
        """The first place, from `start` on, where the word stands in the text."""
        start = index(start)
        if start < 0:
            raise ValueError("start is below 0: it is counted from the first byte of the text")
        with Lent(text, "text") as lent:
            return Search(self._word, self._engine).first(lent, start)

    def find_iter(self, text: "Buffer") -> Iterator[int]:
        """Every place where the word stands in the text, overlaps included, rising. A bytearray cannot be resized before the last was told.

        >>> list(Mark(b"aa").find_iter(b"aaaa"))
        [0, 1, 2]
        """
        return Search(self._word, self._engine).all([(0, Lent(text, "text"))])

    def find_in(self, file: Binary) -> Iterator[int]:
        """Every place where the word stands in what is left of a file that is open for binary reading, counted from where it is now.

        >>> import io
        >>> list(Mark(b"RIDE").find_in(io.BytesIO(b"..RIDE..RIDE")))
        [2, 8]
        """
        return Search(self._word, self._engine).all(rooms_of(file, len(self._word) - 1))

    def count(self, text: "Buffer") -> int:
        """How often the word stands in the text, overlaps included."""
        with Lent(text, "text") as lent:
            return Search(self._word, self._engine).count(lent)

    def __eq__(self, other: object) -> bool:
        return (self._word, self._engine) == (other._word, other._engine) if isinstance(other, Mark) else NotImplemented

    def __hash__(self) -> int:
        return hash((Mark, self._word, self._engine))

    def __repr__(self) -> str:
        word = repr(self._word) if len(self._word) <= _SHOWN else f"{self._word[:_SHOWN]!r}.., {len(self._word):,} bytes"
        return f"Mark({word})" if self._engine == "auto" else f"Mark({word}, engine={self._engine!r})"
