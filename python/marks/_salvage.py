"""The rides of a text of any length, by their headers."""
from itertools import chain
from struct import Struct
from typing import TYPE_CHECKING, Iterable, Iterator, List, NamedTuple, Tuple

from . import _entries
from ._lent import Lent

if TYPE_CHECKING:
    from typing_extensions import Buffer

_LONGEST_PART = _entries.LONGEST_TEXT

# A header has 14 bytes at most: so one that begins before these last bytes of a part is wholly inside it.
_COMMON = 13

# The front of a header: how many bytes it has, and behind two versions the size of the data.
_FRONT = Struct("<B3xI")
_CHECK = 2

# So many rides are listed of a part at first.
_FEW = 64


class Ride(NamedTuple):
    """A ride by its header: where that begins in the text; whether header, data and check end within the text; how many bytes the header
    has, 12 or 14, and how many bytes of data it declares.

    A stranger may have written what it declares: only of a ride that is whole are so many bytes there, and the two of its check.
    """

    start: int
    whole: bool
    header: int
    declared: int


def salvage(text: "Buffer") -> List[Ride]:
    """Every ride of which the FIT header is wholly inside the text, rising, also where rides were cut or stand one behind the other.

    The check of a ride is not tested, and what a header declares decides `whole` and nothing else. A stranger's text may have a header for
    each six bytes, and the list has all of them.

    >>> header = b"\\x0e\\x20\\x54\\x08" + (3).to_bytes(4, "little") + b".FIT\\0\\0"
    >>> salvage(header + b"abc" + b"\\0\\0" + header + b"ab")
    [Ride(start=0, whole=True, header=14, declared=3), Ride(start=19, whole=False, header=14, declared=3)]
    """
    with Lent(text, "text") as lent:
        step = _LONGEST_PART - _COMMON
        return list(chain.from_iterable(_rides(lent, at) for at in range(0, max(1, len(lent) - _COMMON), step)))


def _rides(text: Lent, at: int) -> Iterator[Ride]:
    """Those of the part from a place on, but for those that the next part has, too."""
    part = text.part(at, at + _LONGEST_PART)
    is_last = at + len(part) == len(text)
    for start, kind in _listed(part, _FEW):
        if is_last or start < len(part) - _COMMON:
            yield _ride(text, at + start, bool(kind))


def _listed(part: Lent, most: int) -> Iterable[Tuple[int, int]]:
    """Where the headers of a part begin, and their kinds. Where they are more than was made room for, room is made for just so many."""
    starts, kinds = _entries.room("I", most), _entries.room("B", most)
    count = _entries.salvage(part, starts, kinds)
    return zip(starts[:count], kinds) if count <= most else _listed(part, count)


def _ride(text: Lent, start: int, whole: bool) -> Ride:
    """What ends within a part is whole. What does not may still end within the text."""
    header, declared = _FRONT.unpack(text.copy_part(start, start + _FRONT.size))
    return Ride(start, whole or start + header + declared + _CHECK <= len(text), header, declared)
