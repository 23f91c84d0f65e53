"""The search of a text of any length for any number of finds, in flat memory."""
from array import array
from itertools import chain
from typing import Iterable, Iterator, Literal, Optional, Tuple, get_args

from ._entries import LONGEST_TEXT, room, rooms, search
from ._lent import Lent

Engine = Literal["auto", "backward", "turbo", "failure", "compact"]
ENGINES: Tuple[str, ...] = get_args(Engine)

# The longest word that is searched for backward where strangers may have chosen it.
_LONGEST_TRIED = 64

# So many letters of a hostile part may be read before turbo takes over.
_MOST_LETTERS = 4_194_304

# So many letters may be read for each letter of a part.
_FAIR = 2

# How many finds are listed at a time; where that is more, so many for each letter of the word, as its table is made for each list.
_LEAST_LIST = 4_096
_LIST_FOR_A_LETTER = 16


class Search:
    """A word being looked for, in one text or in several that are one. The rooms are its own, so that threads can share a mark.

    A text is searched in parts that have all letters of a word but one in common. A part grows while its finds fill no more than half of
    the list, and has no more places than the list where they did not fit: so many finds or few, a text is searched at most twice over, and
    a sixteenth more where parts meet.
    """

    def __init__(self, word: bytes, engine: Engine) -> None:
        self._word = word
        self._trying = engine == "auto" and len(word) <= _LONGEST_TRIED
        # that of the next part
        self._engine: str = engine if engine != "auto" else "backward" if self._trying else "turbo"
        # backward and turbo are lent the same
        self._rooms = rooms(self._engine, len(word))
        self._places = max(_LEAST_LIST, _LIST_FOR_A_LETTER * len(word))

    def first(self, text: Lent, start: int) -> Optional[int]:
        return next(chain.from_iterable(self._lists(0, text, start, room("I", 1))), None)

    def all(self, texts: Iterable[Tuple[int, Lent]]) -> Iterator[int]:
        """The finds in each of the texts, which come with the place of their first byte."""
        return chain.from_iterable(self._all_lists(texts))

    def count(self, text: Lent) -> int:
        total, at, nothing = 0, 0, room("I", 0)
        while self._is_left(text, at):
            if not self._trying:
                self._places = self._most_places()
            found, at = self._search_part(text, at, nothing)
            total += found
            self._grow()
        return total

    def _all_lists(self, texts: Iterable[Tuple[int, Lent]]) -> Iterator[Iterable[int]]:
        finds = room("I", self._places)
        for first, text in texts:
            with text:
                yield from self._lists(first, text, 0, finds)

    def _lists(self, first: int, text: Lent, at: int, finds: "array[int]") -> Iterator[Iterable[int]]:
        """The finds from a place on in a text that comes with the place of its first byte, those of one part after the other."""
        most = len(finds)
        while self._is_left(text, at):
            start = at
            found, at = self._search_part(text, start, finds)
            if found > most:
                at, self._places = start + finds[-1] + 1, most
            elif found <= most // 2:
                self._grow()
            yield map((first + start).__add__, finds[:found])

    def _is_left(self, text: Lent, at: int) -> bool:
        return len(text) - at >= len(self._word)

    def _search_part(self, text: Lent, at: int, finds: "array[int]") -> Tuple[int, int]:
        """How many finds the part from a place on has, the first of them listed, and the first place behind it."""
        beyond = len(self._word) - 1
        end = min(at + self._places, len(text) - beyond)
        part = text.part(at, end + beyond)
        found, letters = search(self._engine, self._word, part, self._rooms, finds)
        if self._trying and letters > _FAIR * len(part):
            self._trying, self._engine = False, "turbo"
        return found, end

    def _grow(self) -> None:
        self._places = min(2 * self._places, self._most_places())

    def _most_places(self) -> int:
        return _MOST_LETTERS // len(self._word) if self._trying else LONGEST_TEXT - (len(self._word) - 1)
