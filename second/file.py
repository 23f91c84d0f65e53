#!/usr/bin/env python3
"""The saved file, in both editions, written from docs/FILE.md alone: short, and not fast. tools/file-tests compares it with the library.

    spell_number(number)          the bytes of a number
    extra_arrows(word)            the extra arrows of a word's oracle, as (source, target), in the file's order
    check(data)                   the check of bytes, CRC-16/ARC
    save(word, edition)           the file of a word; raises Refusal without an offset
    load(data)                    (word, edition) of a file; raises Refusal with an offset
    save_answer(word, edition)    the file in hex, or `refused N`
    check_answer(data)            `word HEX edition N`, or `refused N at OFFSET`
    examples()                    the page's examples, each as (what, found, expected)

    file.py                             tells how many of the page's examples hold
    file.py save EDITION HEX-OF-WORD    prints the answer of saving
    file.py check HEX-OF-FILE           prints the answer of checking
"""

import sys

EDITIONS = range(1, 3)
LETTER_COUNTS = range(2, 4097)
NUMBERS = range(1 << 32)
MOST_GROUPS, GREATEST_FIFTH_GROUP = 5, 0x0F

# the numbers of the refusals, of saving and of loading
EMPTY, TOO_LONG, ONE_LETTER = 1, 2, 17
CUT, SPELLING, EDITION, LETTER_COUNT, ARROW_COUNT, ARROW, BEHIND, CHECK = 5, 6, 7, 8, 9, 10, 11, 13


class Refusal(Exception):
    def __init__(self, number, offset=None):
        super().__init__(f"refused {number}" if offset is None else f"refused {number} at {offset}")
        self.number, self.offset = number, offset


def spell_number(number):
    if number not in NUMBERS:
        raise ValueError(f"no file has the number {number}")
    spelled = bytearray()
    while number >= 0x80:
        spelled.append(number & 0x7F | 0x80)
        number >>= 7
    spelled.append(number)
    return bytes(spelled)


def extra_arrows(word):
    targets = [{letter: state + 1} for state, letter in enumerate(word)] + [{}]
    extra = []
    for start in range(1, len(word)):
        state = 0
        for place in range(start, len(word)):
            letter = word[place]
            if letter not in targets[state]:
                targets[state][letter] = place + 1
                extra.append((state, place + 1))
                break
            state = targets[state][letter]
    return sorted(extra)


def arrow_numbers(word):
    """The two numbers of each extra arrow, in the file's order."""
    arrows = extra_arrows(word)
    sources_before = [0] + [source for source, _ in arrows]
    return [(source - before, target - source - 2) for (source, target), before in zip(arrows, sources_before)]


def check(data):
    register = 0
    for byte in data:
        register ^= byte
        for _ in range(8):
            register = register >> 1 ^ (0xA001 if register & 1 else 0)
    return register


def spell_check(data):
    return check(data).to_bytes(2, "little")


def save(word, edition):
    if edition not in EDITIONS:
        raise ValueError(f"there is no edition {edition}")
    if len(word) == 0:
        raise Refusal(EMPTY)
    if len(word) == 1:
        raise Refusal(ONE_LETTER)
    if len(word) not in LETTER_COUNTS:
        raise Refusal(TOO_LONG)
    arrows = arrow_numbers(word)
    saved = spell_number(edition) + spell_number(len(word)) + word + spell_number(len(arrows))
    for from_source_before, climb_less_2 in arrows:
        saved += spell_number(from_source_before) + spell_number(climb_less_2)
    return saved if edition == 1 else saved + spell_check(saved)


class Reader:
    """Takes the fields of a file one after the other; offset is that of the first byte not taken."""

    def __init__(self, data):
        self.data, self.offset = data, 0

    def take(self, length):
        end = self.offset + length
        if end > len(self.data):
            raise Refusal(CUT, len(self.data))
        taken, self.offset = self.data[self.offset:end], end
        return taken

    def number(self):
        number = 0
        for group in range(MOST_GROUPS):
            byte = self.take(1)[0]
            if group > 0 and byte == 0 or group == MOST_GROUPS - 1 and byte > GREATEST_FIFTH_GROUP:
                raise Refusal(SPELLING, self.offset - 1)
            number |= (byte & 0x7F) << 7 * group
            if byte < 0x80:
                return number

    def number_in(self, allowed, refusal):
        start = self.offset
        number = self.number()
        if number not in allowed:
            raise Refusal(refusal, start)
        return number

    def take_arrows(self, word, count):
        """Both numbers of an arrow are read before it is compared, so that 5 or 6 for its second comes before 10."""
        own = arrow_numbers(word)
        for place in range(count):
            start = self.offset
            arrow = self.number(), self.number()
            if place >= len(own) or arrow != own[place]:
                raise Refusal(ARROW, start)
        if count < len(own):
            raise Refusal(ARROW, self.offset)

    def take_check(self):
        start = self.offset
        if self.take(2) != spell_check(self.data[:start]):
            raise Refusal(CHECK, start)


def load(data):
    reader = Reader(bytes(data))
    edition = reader.number_in(EDITIONS, EDITION)
    letter_count = reader.number_in(LETTER_COUNTS, LETTER_COUNT)
    word = reader.take(letter_count)
    arrow_count = reader.number_in(range(letter_count), ARROW_COUNT)
    reader.take_arrows(word, arrow_count)
    if edition == 2:
        reader.take_check()
    if reader.offset < len(reader.data):
        raise Refusal(BEHIND, reader.offset)
    return word, edition


def save_answer(word, edition):
    try:
        return save(word, edition).hex()
    except Refusal as refusal:
        return str(refusal)


def check_answer(data):
    try:
        word, edition = load(data)
    except Refusal as refusal:
        return str(refusal)
    return f"word {word.hex()} edition {edition}"


# ---- the page's examples

SPELLINGS = {
    0: "00", 127: "7F", 128: "80 01", 1024: "80 08", 4096: "80 20", 4097: "81 20", 4294967295: "FF FF FF FF 0F",
}

FILES = {
    (b"abbbaab", 1): "01 07 61 62 62 62 61 61 62 04 00 00 01 03 01 01 01 00",
    (b"abbbaab", 2): "02 07 61 62 62 62 61 61 62 04 00 00 01 03 01 01 01 00 FE 2F",
    (b"aa", 1): "01 02 61 61 00",
    (b"aa", 2): "02 02 61 61 00 00 36",
    (b"ab", 1): "01 02 61 62 01 00 00",
    (b"EDIR", 2): "02 04 45 44 49 52 03 00 00 00 01 00 02 CD F6",
}

REFUSED_FILES = {
    "01 80": (5, 2),
    "01 03 61 61": (5, 4),
    "01 83 00 61 61 61 00": (6, 2),
    "03": (7, 0),
    "01 FF FF FF FF 0F": (8, 1),
    "01 01 61 00": (8, 1),
    "01 03 61 61 61 03": (9, 5),
    "01 07 61 62 62 62 61 61 62 04 00 00 01 04 01 01 01 00": (10, 12),
    "01 03 61 61 61 01 00 00": (10, 6),
    "01 02 61 62 00": (10, 5),
    "01 03 61 61 61 00 00": (11, 6),
    "02 03 61 61 61 00 22": (5, 7),
    "02 03 61 61 61 00 22 51": (13, 6),
    "02 03 61 61 61 00 22 50 00": (11, 8),
    "01 02 61 62 01 05 83 00": (6, 7),
    "01 02 61 61 01": (5, 5),
    # those that the page has in words
    "83 00": (6, 1),
    "81 00": (6, 1),
    "FF FF FF FF 10": (6, 4),
    "02 03 61 61 61 00 22 51 00": (13, 6),
    "02 02 61 62 00 00 00": (10, 5),
}

CHECKS = {
    b"123456789": 0xBB3D,
    b"": 0,
    bytes.fromhex(FILES[b"abbbaab", 2])[:18]: 0x2FFE,
    # two bits that are 32,767 places apart
    b"\x01" + bytes(4094) + b"\x80": check(bytes(4096)),
}


def examples():
    found = [("abbbaab", extra_arrows(b"abbbaab"), [(0, 2), (1, 6), (2, 5), (3, 5)])]
    for number, spelling in SPELLINGS.items():
        found.append((f"the spelling of {number}", spell_number(number), bytes.fromhex(spelling)))
        found.append((f"the number {spelling}", Reader(bytes.fromhex(spelling)).number(), number))
    for (word, edition), spelling in FILES.items():
        found.append((f"saving {word} in edition {edition}", save(word, edition), bytes.fromhex(spelling)))
        found.append((f"loading {spelling}", load(bytes.fromhex(spelling)), (word, edition)))
    for spelling, (number, offset) in REFUSED_FILES.items():
        found.append((f"loading {spelling}", check_answer(bytes.fromhex(spelling)), f"refused {number} at {offset}"))
    for data, value in CHECKS.items():
        found.append((f"the check of {data}", check(data), value))
    for edition in EDITIONS:
        for letters, number in (0, EMPTY), (1, ONE_LETTER), (4097, TOO_LONG):
            found.append((f"saving {letters} letters in edition {edition}", save_answer(b"a" * letters, edition), f"refused {number}"))
    return found


def examples_hold():
    failed = [example for example in examples() if example[1] != example[2]]
    for what, found, expected in failed:
        print(f"{what}: {found}, not {expected}")
    print(f"{len(examples()) - len(failed)} of {len(examples())} examples of docs/FILE.md hold")
    return not failed


def main(arguments):
    if not arguments:
        return 0 if examples_hold() else 1
    try:
        if arguments[0] == "save" and len(arguments) == 3:
            answer = save_answer(bytes.fromhex(arguments[2]), int(arguments[1]))
        elif arguments[0] == "check" and len(arguments) == 2:
            answer = check_answer(bytes.fromhex(arguments[1]))
        else:
            print(__doc__, file=sys.stderr)
            return 2
    except ValueError as error:
        print(f"file.py: {error}", file=sys.stderr)
        return 2
    print(answer)
    return 1 if answer.startswith("refused") else 0


if __name__ == "__main__":
    sys.exit(main(sys.argv[1:]))
