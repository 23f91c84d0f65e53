"""The library's entries over rooms of Python's. What an entry refuses is raised."""
from array import array
from ctypes import byref, c_uint64
from itertools import chain
from typing import Any, List, Literal, Tuple, Union, get_args

from ._lent import Lent
from ._library import LIBRARY
from ._refused import refused

LONGEST_WORD = 4_096
LONGEST_TEXT = 16_777_216
LONGEST_FILE = 5 * LONGEST_WORD + 3
SEARCHER = 134

Edition = Literal[1, 2]
EDITIONS: Tuple[int, ...] = get_args(Edition)

# The entry that saves each edition.
_SAVES = {1: LIBRARY.marks_save, 2: LIBRARY.marks_save_checked}

# The entry that each engine asks, and how many answers it has: that of the failure oracle also tells how many failure arrows were taken.
_SEARCHES = {
    "backward": (LIBRARY.marks_search, 2),
    "turbo": (LIBRARY.marks_turbo, 2),
    "failure": (LIBRARY.marks_failure_search, 3),
    "compact": (LIBRARY.marks_compact_search, 2),
}


def room(kind: str, entries: int) -> "array[int]":
    """Zeros, of a kind as the module array names it: B, H, I and Q are 8, 16, 32 and 64 bits."""
    return array(kind, bytes(entries * array(kind).itemsize))


def tables(letters: int) -> "array[int]":
    """Room for the table of a word of so many letters; for that of the longest where they are more than any word has."""
    return room("H", 6 * (min(letters, LONGEST_WORD) + 1))


def failure_tables(letters: int) -> "array[int]":
    """The same for that of the failure oracle of a word."""
    return room("H", 10 * (min(letters, LONGEST_WORD) + 1))


def compact_rows(letters: int) -> "Tuple[array[int], array[int]]":
    """The same for the compact rows of a word: their sets, and their targets."""
    states = min(letters, LONGEST_WORD) + 1
    return room("Q", 4 * states), room("H", 10 * states)


def rooms(engine: str, letters: int) -> "Tuple[array[int], ...]":
    """What a search by an engine is lent for a word of so many letters, beside its list."""
    if engine == "compact":
        return compact_rows(letters)
    return (failure_tables(letters) if engine == "failure" else tables(letters),)


def _where(buffer: "Union[bytes, Lent, array[int]]") -> "Tuple[Union[bytes, int], int]":
    """The address, for which ctypes takes bytes too, and how many elements stand there."""
    return (buffer, len(buffer)) if isinstance(buffer, bytes) else buffer.buffer_info()


def _asked(entry: Any, *buffers: "Union[bytes, Lent, array[int]]", answers: int, offset: bool = False) -> List[int]:
    """The answers of an entry to which these buffers are lent. They are named here, so that none is gone before the entry has ended.
    An entry that reads a file tells the offset too, behind its answers."""
    told = [c_uint64() for _ in range(answers + offset)]
    number = entry(*chain.from_iterable(map(_where, buffers)), *map(byref, told))
    if number != 0:
        raise refused(number, told[-1].value if offset else None)
    return [answer.value for answer in told]


def build(word: Lent) -> None:
    """Refuses what is no mark's word."""
    _asked(LIBRARY.marks_build, word, tables(len(word)), answers=1)


def save(word: bytes, edition: Edition) -> bytes:
    out = room("B", LONGEST_FILE)
    length, = _asked(_SAVES[edition], word, tables(len(word)), out, answers=1)
    return out[:length].tobytes()


def load(file: Lent) -> Tuple[bytes, Edition]:
    """The word of a file, and the file's edition: what is loaded begins with it, in one byte."""
    word = room("B", LONGEST_WORD)
    length, _ = _asked(LIBRARY.marks_load, file, word, tables(LONGEST_WORD), answers=1, offset=True)
    return word[:length].tobytes(), 2 if file.copy()[0] == 2 else 1


def search(engine: str, word: bytes, text: Lent, lent: "Tuple[array[int], ...]", finds: "array[int]") -> Tuple[int, int]:
    """How many finds the text has, the first of them listed, and how many letters were read. What is lent is as `rooms` makes it."""
    entry, answers = _SEARCHES[engine]
    count, letters, *_ = _asked(entry, word, text, *lent, finds, answers=answers)
    return count, letters


def salvage(text: Lent, starts: "array[int]", kinds: "array[int]") -> int:
    """How many headers of rides the text has, the first of them listed: where each begins, and 1 where its ride ends within the text."""
    count, = _asked(LIBRARY.marks_salvage, text, tables(len(b".FIT")), starts, kinds, answers=1)
    return count


def open_searcher(word: "Union[bytes, Lent]") -> "array[int]":
    searcher = room("B", SEARCHER)
    _asked(LIBRARY.marks_open, word, searcher, answers=0)
    return searcher


def take(searcher: "array[int]", piece: "Union[bytes, Lent]", finds: "array[int]") -> int:
    """How many finds end in the piece, the first of them listed."""
    count, = _asked(LIBRARY.marks_take, searcher, piece, finds, answers=1)
    return count
