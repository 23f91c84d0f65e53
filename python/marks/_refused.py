"""What is raised where the library refuses: a class for each line of the table, by the name that it has there."""
from typing import Optional, Tuple, Type

from ._refusals import REFUSALS

_LINES = {name: (number, text) for number, name, text in REFUSALS}
_WITH_OFFSET = (*range(5, 12), 13)


class Refused(ValueError):
    """The library said no. `number` and `text` say why, as its table has them; `offset` says where a file is broken, counted from 0."""

    number: int
    text: str

    def __init__(self, offset: Optional[int] = None) -> None:
        where = "" if offset is None else f", at offset {offset}"
        super().__init__(f"{self.text} ({self.number}){where}")
        self.offset = offset

    def __init_subclass__(cls) -> None:
        if cls.__name__ in _LINES:
            cls.number, cls.text = _LINES[cls.__name__]
            cls.__doc__ = f"{cls.number}: {cls.text}."

    def __reduce__(self) -> Tuple[Type["Refused"], Tuple[Optional[int]]]:
        return type(self), (self.offset,)


class EmptyWord(Refused):
    pass


class LongWord(Refused):
    pass


class ShortRoom(Refused):
    pass


class LongText(Refused):
    pass


class CutFile(Refused):
    pass


class BadNumber(Refused):
    pass


class OtherEdition(Refused):
    pass


class BadLength(Refused):
    pass


class BadCount(Refused):
    pass


class WrongArrow(Refused):
    pass


class Leftovers(Refused):
    pass


class ShortOutput(Refused):
    pass


class BadCheck(Refused):
    pass


class Unmade(Refused):
    pass


class ShortWord(Refused):
    pass


_CLASSES = {kind.number: kind for kind in Refused.__subclasses__()}


def refused(number: int, offset: Optional[int]) -> Refused:
    """What an entry refused with, and what it left as the offset, which it wrote only where the refusal has one."""
    return _CLASSES[number](offset if number in _WITH_OFFSET else None)
