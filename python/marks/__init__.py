"""Finding marks in broken ride files: the Python face of a proved library.

A `Mark` is a word of 1 to 4,096 bytes, to be found in texts and files of any length; a `Stream` finds one in a text that comes in pieces.
`salvage` lists the rides of an upload by their FIT headers, also those that were cut.

>>> import marks
>>> marks.find(b"RIDE", b"..RIDE..RIDE")
[2, 8]

What the library refuses is raised as a subclass of `Refused`, with the number that its table has for it and, of a file, the offset at which
it is broken.
"""
from ._entries import LONGEST_WORD
from ._files import check, count, find, load, save
from ._mark import Mark
from ._refused import (BadCheck, BadCount, BadLength, BadNumber, CutFile, EmptyWord, Leftovers, LongText, LongWord, OtherEdition, Refused,
                       ShortOutput, ShortRoom, ShortWord, Unmade, WrongArrow)
from ._salvage import Ride, salvage
from ._stream import LONGEST_STREAMED, Stream

__version__ = "0.7.0"

__all__ = ["LONGEST_STREAMED", "LONGEST_WORD", "Mark", "Ride", "Stream", "check", "count", "find", "load", "salvage", "save", "Refused",
           "BadCheck", "BadCount", "BadLength", "BadNumber", "CutFile", "EmptyWord", "Leftovers", "LongText", "LongWord", "OtherEdition",
           "ShortOutput", "ShortRoom", "ShortWord", "Unmade", "WrongArrow"]

# Tracebacks, pickles and help() name what is public by where it is so.
for _public in (Mark, Ride, Stream, check, count, find, load, salvage, save, Refused, *Refused.__subclasses__()):
    _public.__module__ = __name__
del _public
