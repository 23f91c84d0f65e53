"""The table of refusals: the number of each, the class that it is raised as, and when it is given."""
from typing import Tuple

# begin refusals: as tools/refusals writes them
REFUSALS: Tuple[Tuple[int, str, str], ...] = (
    (1, "EmptyWord",
     "the word is empty"),
    (2, "LongWord",
     "the word is longer than 4,096 bytes, for a storacle than 128, for a stream than 64"),
    (3, "ShortRoom",
     "too little room: 6(m+1) entries, storacle (m+1)(m+6), failure oracle 10(m+1), compact rows also 4(m+1) words, file m bytes, stream 134"),
    (4, "LongText",
     "the text is longer than 16,777,216 bytes, or the stream would be with this piece"),
    (5, "CutFile",
     "the file ends before or inside a number, or before the last of its letters or of its check"),
    (6, "BadNumber",
     "a number in the file is misspelled: the last of its several groups is zero, or its fifth byte is above 15"),
    (7, "OtherEdition",
     "the file's edition is neither 1 nor 2"),
    (8, "BadLength",
     "the file declares fewer than 2 letters, or more than 4,096"),
    (9, "BadCount",
     "the file declares more arrows than its letters less 1"),
    (10, "WrongArrow",
     "an arrow in the file is not its word's own at that place, or arrows are missing"),
    (11, "Leftovers",
     "bytes follow the file's last arrow, or in edition 2 its check"),
    (12, "ShortOutput",
     "the room lent for the file is below its size"),
    (13, "BadCheck",
     "the file's check is not that of the bytes before it"),
    (16, "Unmade",
     "opening and taking bytes could never have made the searcher"),
    (17, "ShortWord",
     "the word to be saved has one letter"),
)
# end refusals
