"""What the Python face must do, held against plain loops and the documents. Run by tools/python-tests."""
import array
import copy
import ctypes
import doctest
import errno
import io
import mmap
import os
import pickle
import random
import stat
import subprocess
import sys
import tempfile
import threading
import time
import tracemalloc
import unittest
from pathlib import Path
from unittest import mock

import marks
from marks import Mark, Ride, Stream, _entries, _files, _lent, _reading, _refused, _salvage, _search
from marks._library import LIBRARY
from marks._refusals import REFUSALS

README = Path(__file__).resolve().parent.parent / "README.md"
ENGINES = "auto", "backward", "turbo", "failure", "compact"
MEBI = 1 << 20


def plainly(word, text):
    return [at for at in range(len(text) - len(word) + 1) if text.startswith(word, at)]


def checked(body):
    """The bytes with their CRC-16/ARC behind them, low byte first, taken bit by bit."""
    rest = 0
    for byte in body:
        rest ^= byte
        for _ in range(8):
            rest = rest >> 1 ^ (0xA001 if rest & 1 else 0)
    return bytes(body) + rest.to_bytes(2, "little")


def fit(data, header=14, declared=None):
    """A ride whose header declares the data that it has, or so many bytes; its check is not right, as nobody tests it."""
    size = len(data) if declared is None else declared
    return bytes([header, 32, 84, 8]) + size.to_bytes(4, "little") + b".FIT" + bytes(header - 12) + data + b"\0\0"


def rides_plainly(text):
    rides = []
    for start in (at - 8 for at in plainly(b".FIT", text) if at >= 8):
        header, declared = text[start], int.from_bytes(text[start + 4:start + 8], "little")
        if header in (12, 14) and start + header <= len(text):
            rides.append(Ride(start, start + header + declared + 2 <= len(text), header, declared))
    return rides


class Slow:
    """A file that gives a few bytes at a time, by `read` alone."""

    def __init__(self, data, most):
        self.file, self.most = io.BytesIO(data), most

    def read(self, length):
        return self.file.read(min(length, self.most))


class Zeros:
    """A file of zeros that nobody has to have."""

    def __init__(self, length):
        self.left = length

    def readinto(self, room):
        got = min(len(room), self.left)
        room[:got] = bytes(got)
        self.left -= got
        return got


class Finds(unittest.TestCase):
    def same(self, word, text, expected):
        for engine in ENGINES:
            mark = Mark(word, engine=engine)
            self.assertEqual(list(mark.find_iter(text)), expected, engine)
            self.assertEqual(mark.count(text), len(expected), engine)
            self.assertEqual(mark.find(text), expected[0] if expected else None, engine)
            self.assertEqual(list(mark.find_in(io.BytesIO(text))), expected, engine)

    def test_as_a_plain_loop_finds_them(self):
        chance = random.Random(1)
        for _ in range(400):
            letters = chance.choice((1, 2, 3, 256))
            text = bytes(chance.randrange(letters) for _ in range(chance.randrange(200)))
            at, length = chance.randrange(len(text) + 1), chance.choice((1, 2, 3, 5, 17, 70))
            word = text[at:at + length] or bytes(length)
            self.same(word, text, plainly(word, text))

    def test_from_a_start_on(self):
        mark, text = Mark(b"aba"), b"ababa..aba"
        for start in range(len(text) + 3):
            at = text.find(b"aba", start)
            self.assertEqual(mark.find(text, start), None if at < 0 else at)
        with self.assertRaisesRegex(ValueError, "start is below 0"):
            mark.find(text, -1)

    def test_across_every_seam_of_parts(self):
        for word in b"RIDE", bytes(range(1, 65)), bytes(i * i % 251 for i in range(1, 4097)):
            text, expected, seam = bytearray(4 * MEBI), [], max(4096, 16 * len(word))
            while 2 * seam < len(text):
                expected.append(seam - len(word) // 2)
                text[expected[-1]:expected[-1] + len(word)] = word
                seam = 2 * seam + seam // 3
            self.same(word, bytes(text), expected)

    def test_across_the_seams_of_a_file(self):
        text = bytes(i * i // 5 % 2 for i in range(3000))
        for length in 1, 2, 5, 17, 200:
            word = text[700:700 + length]
            for room in 1, 2, 16, 199, 200, 201, 2999, 3000, 5000:
                with mock.patch.object(_reading, "_READ", room):
                    for file in io.BytesIO(text), Slow(text, 3), Slow(text, 1000):
                        self.assertEqual(list(Mark(word).find_in(file)), plainly(word, text), (length, room))

    def test_more_than_a_list_has_room_for(self):
        dense, sparse = b"a" * 300_000, b"." * 300_000
        self.same(b"aa", dense, list(range(len(dense) - 1)))
        text = sparse + dense + sparse + dense
        self.same(b"a" * 70, text, [*range(300_000, 600_000 - 69), *range(900_000, 1_200_000 - 69)])

    def test_beyond_the_longest_text_of_an_entry(self):
        seam, text = 16 * MEBI, bytearray(17 * MEBI)
        for word in b"RIDE", b"R" * 100:
            places = [0, seam - len(word) // 2, len(text) - len(word)]
            for at in places:
                text[at:at + len(word)] = word
            for engine in ENGINES:
                mark = Mark(word, engine=engine)
                self.assertEqual(list(mark.find_iter(text)), places)
                self.assertEqual(mark.count(text), 3)
                self.assertEqual(mark.find(text, 1), places[1])
            self.assertEqual(list(Mark(word).find_in(io.BytesIO(text))), places)
            text[:] = bytes(len(text))

    def test_nothing_is_found_in_nothing(self):
        self.same(b"a", b"", [])
        self.same(b"ab", b"a", [])

    def test_hostile_texts_take_no_time(self):
        text, near = bytes(8 * MEBI), bytes(4095) + b"\1"
        for word, expected in (bytes(4096), 8 * MEBI - 4095), (near, 0), (bytes(64), 8 * MEBI - 63), (b"\1" + bytes(63), 0):
            begin = time.process_time()
            self.assertEqual(Mark(word).count(text), expected)
            self.assertLess(time.process_time() - begin, 0.5)
        begin = time.process_time()
        self.assertIsNone(Mark(near).find(text))
        self.assertLess(time.process_time() - begin, 0.5)

    def test_auto_goes_over_to_turbo_and_stays_there(self):
        asked = []

        def search(engine, word, text, *rooms):
            found, letters = _entries.search(engine, word, text, *rooms)
            asked.append((engine, letters))
            return found, letters

        mark, text = Mark(bytes(64)), b"." * MEBI + bytes(MEBI)
        with mock.patch.object(_search, "search", search):
            for finds in mark.find_iter, lambda text: mark.find_in(io.BytesIO(text)), lambda text: range(mark.count(text)):
                asked.clear()
                self.assertEqual(len(list(finds(text))), MEBI - 63)
                engines = [engine for engine, _ in asked]
                self.assertEqual((engines[0], engines[-1]), ("backward", "turbo"))
                self.assertEqual(engines, sorted(engines))
                self.assertLess(sum(letters for _, letters in asked), 2.2 * len(text) + 4_194_304)

    def test_each_engine_asks_the_entry_of_its_name(self):
        for engine, word, asked in (("backward", bytes(65), "backward"), ("turbo", b"RIDE", "turbo"), ("failure", b"RIDE", "failure"),
                                    ("compact", b"RIDE", "compact"), ("auto", b"RIDE", "backward"), ("auto", bytes(65), "turbo")):
            with mock.patch.object(_search, "search", side_effect=_entries.search) as search:
                self.assertEqual(Mark(word, engine=engine).count(b"." * 9_999 + word), 1)
            self.assertEqual({call[0][0] for call in search.call_args_list}, {asked})

    def test_compact_rows_read_the_letters_of_the_backward_search(self):
        chance = random.Random(6)
        for letters in 2, 4, 20, 256:
            text = bytes(chance.randrange(letters) for _ in range(20_000))
            for length in 1, 2, 9, 39, 300, 4096:
                word, told = text[700:700 + length], {}
                for engine in "backward", "compact":
                    finds = _entries.room("I", 100)
                    with _lent.Lent(text, "text") as lent:
                        told[engine] = *_entries.search(engine, word, lent, _entries.rooms(engine, length), finds), finds
                self.assertEqual(told["compact"], told["backward"], (letters, length))

    def test_the_failure_oracle_of_long_words(self):
        for word, text in ((bytes(4096), bytes(20_000)), (bytes(4095) + b"\1", bytes(20_000) + b"\1"), (b"ab" * 2048, b"ab" * 10_000)):
            self.same(word, text, plainly(word, text))

    def test_memory_stays_flat(self):
        text = bytes(MEBI // 2)
        tracemalloc.start()
        try:
            self.assertEqual(sum(1 for _ in Mark(b"\0\0").find_iter(text)), MEBI // 2 - 1)
            self.assertEqual(list(Mark(b"\0\1").find_in(Zeros(20 * MEBI))), [])
            self.assertLess(tracemalloc.get_traced_memory()[1], 3 * MEBI)
        finally:
            tracemalloc.stop()

    def test_threads_share_a_mark(self):
        text = bytes(i * i // 5 % 2 for i in range(40_000)) * 4
        mark, found = Mark(text[700:712]), []
        expected = plainly(mark.word, text)

        def work():
            for _ in range(10):
                found.append(list(mark.find_iter(text)) == expected and mark.count(text) == len(expected))

        threads = [threading.Thread(target=work) for _ in range(8)]
        for thread in threads:
            thread.start()
        for thread in threads:
            thread.join()
        self.assertEqual(found, 80 * [True])

    def test_conveniences(self):
        self.assertEqual(marks.find(b"RIDE", b"..RIDE..RIDE"), [2, 8])
        self.assertEqual(marks.count(b"aa", b"aaaa"), 3)
        self.assertEqual(marks.find(Mark(b"aba"), b"ababa"), [0, 2])


class Buffers(unittest.TestCase):
    def test_of_every_kind(self):
        text, mark = b"..RIDE..RIDE", Mark(b"RIDE")
        numbers = array.array("I", b"RIDE" * 3)
        for lent in bytearray(text), memoryview(text), memoryview(b"xx" + text + b"x")[2:-1], array.array("B", text):
            self.assertEqual(list(mark.find_iter(lent)), [2, 8])
            self.assertEqual(Mark(lent[2:6]), mark)
        for lent in numbers, memoryview(numbers).cast("B").cast("B", (3, 4)), (ctypes.c_uint32 * 3).from_buffer(numbers):
            self.assertEqual(list(mark.find_iter(lent)), [0, 4, 8])
            self.assertEqual(Mark(lent).word, b"RIDE" * 3)
        self.assertEqual(mark.count(array.array("I")), 0)

    def test_a_mapped_file(self):
        with tempfile.TemporaryFile() as file:
            file.write(bytes(MEBI) + b"RIDE")
            file.flush()
            with mmap.mmap(file.fileno(), 0, access=mmap.ACCESS_READ) as mapped:
                self.assertEqual(marks.find(b"RIDE", mapped), [MEBI])
                self.assertEqual(Mark(b"RIDE").find(mapped), MEBI)

    def test_none_is_copied(self):
        text = bytes(4 * MEBI)
        tracemalloc.start()
        try:
            for lent in text, memoryview(text)[1:]:
                Mark(b"RIDE").count(lent)
                marks.salvage(lent)
            self.assertLess(tracemalloc.get_traced_memory()[1], MEBI)
        finally:
            tracemalloc.stop()

    def test_a_text_is_held_until_the_last_find_and_no_longer(self):
        text = bytearray(b"aaaa")
        finds = Mark(b"a").find_iter(text)
        self.assertEqual(next(finds), 0)
        with self.assertRaises(BufferError):
            text.append(0)
        self.assertEqual(list(finds), [1, 2, 3])
        text.append(0)
        Mark(b"a").find_iter(text)  # forgotten before the first find
        text.append(0)
        next(Mark(b"a").find_iter(text))  # and before the second
        text.append(0)
        for use in Mark(b"a").find, Mark(b"a").count, Stream(b"a").take, Mark, marks.salvage:
            use(text)
            text.append(0)
        with self.assertRaises(marks.Refused):
            Mark.from_file(text)
        text.append(0)

    def test_others_are_refused_plainly(self):
        mark, stream = Mark(b"a"), Stream(b"a")
        for use in Mark, Stream, Mark.from_file, mark.find, mark.find_iter, mark.count, stream.take, marks.salvage:
            with self.assertRaisesRegex(TypeError, "is a str, .* encode it first"):
                use("a")
            with self.assertRaisesRegex(TypeError, "buffer protocol, not int"):
                use(1)
            with self.assertRaisesRegex(BufferError, "not contiguous .* copy it first"):
                use(memoryview(b"abcd")[::2])
        self.assertEqual((stream.taken, stream.count), (0, 0))

    def test_files_that_cannot_be_searched(self):
        def file(**how):
            return mock.Mock(spec=list(how), **how)

        for given, error, said in (
            (1, TypeError, "not int"),
            (io.StringIO("a"), TypeError, "open for text"),
            (io.StringIO(), TypeError, "open for text"),
            (file(readinto=lambda room: len(room) + 1), ValueError, "says that it read"),
            (file(readinto=lambda room: -1), ValueError, "says that it read -1 bytes"),
            (file(readinto=lambda room: None), BlockingIOError, "no bytes ready"),
            (file(read=lambda length: None), BlockingIOError, "no bytes ready"),
            (file(read=lambda length: bytes(length + 1)), ValueError, "says that it read"),
        ):
            with self.assertRaisesRegex(error, said):
                list(Mark(b"a").find_in(given))


    def test_finds_before_a_failing_read_come_first(self):
        class Failing:
            pieces = [b"..RIDE", b"..RIDE.."]

            def read(self, length):
                if not self.pieces:
                    raise OSError(errno.EIO, "broken")
                return self.pieces.pop(0)

        finds = Mark(b"RIDE").find_in(Failing())
        self.assertEqual([next(finds), next(finds)], [2, 8])
        with self.assertRaisesRegex(OSError, "broken"):
            next(finds)

    def test_what_comes_slowly_is_told_as_it_comes(self):
        reading, writing = os.pipe()
        with open(reading, "rb") as file, open(writing, "wb", buffering=0) as out:
            finds = Mark(b"RIDE").find_in(file)
            for at in 2, 8:
                out.write(b"..RIDE")
                self.assertEqual(next(finds), at)

    def test_a_file_that_drips_does_no_harm(self):
        text, drops = bytes(20_000), []

        class Dripping:
            at = 0

            def read(self, length):
                self.at += 1
                return text[self.at - 1:self.at]

        real = _entries.search

        def counted(*given):
            found, letters = real(*given)
            drops.append(letters)
            return found, letters

        with mock.patch.object(_search, "search", counted):
            self.assertEqual(list(Mark(b"\x01" + bytes(4095)).find_in(Dripping())), [])
        self.assertLessEqual(sum(drops), 18 * len(text))


class Values(unittest.TestCase):
    def test_a_mark_is_its_word_and_engine(self):
        mark = Mark(bytearray(b"RIDE"), engine="turbo")
        self.assertEqual((mark.word, mark.engine), (b"RIDE", "turbo"))
        self.assertEqual(mark, Mark(b"RIDE", engine="turbo"))
        self.assertEqual(len({mark, Mark(b"RIDE", engine="turbo"), Mark(b"RIDE"), Mark(b"ride")}), 3)
        self.assertNotEqual(mark, b"RIDE")
        for again in copy.copy(mark), copy.deepcopy(mark), pickle.loads(pickle.dumps(mark)):
            self.assertEqual((again.word, again.engine), (b"RIDE", "turbo"))

    def test_a_mark_cannot_be_changed(self):
        for name in "word", "engine", "edition", "other":
            with self.assertRaises(AttributeError):
                setattr(Mark(b"RIDE"), name, b"")

    def test_a_mark_is_shown_short(self):
        self.assertEqual(repr(Mark(b"RIDE")), "Mark(b'RIDE')")
        self.assertEqual(repr(Mark(b"RIDE", engine="turbo")), "Mark(b'RIDE', engine='turbo')")
        self.assertLess(len(repr(Mark(bytes(4096)))), 160)

    def test_an_engine_that_there_is_not(self):
        with self.assertRaisesRegex(ValueError, "no engine 'fast': it is one of auto, backward, turbo, failure, compact"):
            Mark(b"a", engine="fast")


class Streams(unittest.TestCase):
    def test_however_a_text_is_cut(self):
        chance = random.Random(2)
        for _ in range(200):
            text = bytes(chance.randrange(2) for _ in range(chance.randrange(300)))
            at = chance.randrange(len(text) + 1)
            word = text[at:at + chance.randrange(1, 65)] or b"\0"
            stream, found, at = Stream(word), [], 0
            while at < len(text):
                piece = text[at:at + chance.randrange(40)]
                found += stream.take(piece)
                at += len(piece)
            self.assertEqual(found, plainly(word, text))
            self.assertEqual((stream.word, stream.count, stream.taken), (word, len(found), len(text)))

    def test_more_than_a_searcher_takes(self):
        word, text, seam = bytes(range(1, 65)), bytearray(33 * MEBI), 16 * MEBI
        places = [0, 64, seam - 32, 2 * seam - 63, 2 * seam + 1, len(text) - 64]
        for at in places:
            text[at:at + 64] = word
        for pieces in (text,), (text[:5], text[5:seam - 1], text[seam - 1:seam + 1], text[seam + 1:]):
            stream, found = Stream(word), []
            for piece in pieces:
                found += stream.take(piece)
            self.assertEqual(found, places)
            self.assertEqual((stream.count, stream.taken), (len(places), len(text)))

    def test_many_finds_across_a_searchers_end(self):
        stream = Stream(b"aaa")
        stream.take(b"." * (16 * MEBI - 100_000))
        self.assertEqual(stream.take(b"a" * 200_000), list(range(16 * MEBI - 100_000, 16 * MEBI + 100_000 - 2)))

    def test_a_searcher_is_laid_out_as_the_document_has_it(self):
        stream = Stream(b"RIDE")
        stream.take(b"..RI")
        self.assertEqual(stream._searcher.tobytes(), b"RIDE" + bytes(60 + 64) + bytes.fromhex("04 02 04 00 00 00"))

    def test_copies_go_on_by_themselves(self):
        stream = Stream(b"RIDE")
        stream.take(b"..RI")
        for again in copy.copy(stream), copy.deepcopy(stream), pickle.loads(pickle.dumps(stream)):
            self.assertEqual(again.take(b"DE"), [2])
            self.assertEqual(repr(again), "<Stream of b'RIDE': 1 finds in 6 bytes>")
        self.assertEqual(stream.take(b"..RIDE"), [6])


class Rides(unittest.TestCase):
    def test_headers_of_12_and_14(self):
        for header in 12, 14:
            ride = fit(b"abc", header)
            for text, expected in (
                (ride, [(0, True, header, 3)]),
                (b".." + ride + b"..", [(2, True, header, 3)]),
                (ride + ride, [(0, True, header, 3), (len(ride), True, header, 3)]),
                (ride[:-1], [(0, False, header, 3)]),
                (ride[:header], [(0, False, header, 3)]),
                (ride[:header - 1], []),
                (ride[1:], []),
                (fit(b"", header), [(0, True, header, 0)]),
            ):
                self.assertEqual(marks.salvage(text), expected)
        for first in 0, 11, 13, 15, 46, 255:
            self.assertEqual(marks.salvage(bytes([first]) + fit(b"abc")[1:]), [])
        for text in b"", b".FIT", b"\x0c" * 7 + b".FIT" + bytes(20):
            self.assertEqual(marks.salvage(text), [])

    def test_cut_at_every_byte(self):
        text = b"..." + fit(b"first", 12) + fit(b"second" + fit(b"within", 14) + b".FIT") + fit(b"", 12) + b"." + fit(b"last", 14)
        self.assertEqual([ride.whole for ride in marks.salvage(text)], 5 * [True])
        for at in range(len(text) + 1):
            self.assertEqual(marks.salvage(text[:at]), rides_plainly(text[:at]))
            self.assertEqual(marks.salvage(text[at:]), rides_plainly(text[at:]))

    def test_a_size_that_nothing_has(self):
        for header in 12, 14:
            for declared in 0xFFFFFFFF, 2**32 - header - 2, 2**32 - header, 2**31, 2**24:
                text = b"......" + fit(bytes(1000), header, declared)
                tracemalloc.start()
                try:
                    self.assertEqual(marks.salvage(text), [(6, False, header, declared)])
                    self.assertLess(tracemalloc.get_traced_memory()[1], MEBI // 16)
                finally:
                    tracemalloc.stop()

    def test_across_the_seams_of_parts(self):
        chance = random.Random(5)
        for _ in range(200):
            pieces = [chance.choice((fit(bytes(chance.randrange(9)), chance.choice((12, 14)), chance.choice((None, 30, 60, 0xFFFFFFFF))),
                                     bytes(chance.randrange(20)), b"\x0e..\x0c....FIT", b".FIT")) for _ in range(12)]
            text = b"".join(pieces)[:chance.randrange(200)]
            for part in 14, 15, 16, 27, 40, 100:
                with mock.patch.object(_salvage, "_LONGEST_PART", part):
                    self.assertEqual(marks.salvage(text), rides_plainly(text))

    def test_across_the_longest_text_of_an_entry(self):
        seam, text = 16 * MEBI, bytearray(17 * MEBI)
        for start in range(seam - 15, seam + 2):
            for header, too_many in (12, 1), (14, 0):
                declared = len(text) - start - header - 2 + too_many
                text[start:start + header] = fit(b"", header, declared)[:-2]
                self.assertEqual(marks.salvage(text), [(start, too_many == 0, header, declared)])
                text[start:start + header] = bytes(header)

    def test_beyond_two_seams(self):
        text, starts = bytearray(33 * MEBI), (0, 16 * MEBI - 13, 16 * MEBI + 1, 32 * MEBI - 26, 32 * MEBI - 12, 33 * MEBI - 16)
        left = [len(text) - start - 16 for start in starts]
        for start, declared in zip(starts, left):
            text[start:start + 14] = fit(b"", 14, declared)[:-2]
        with memoryview(text) as whole, whole[:-1] as cut:
            for lent, kind in (whole, True), (cut, False):
                self.assertEqual(marks.salvage(lent), [(start, kind, 14, declared) for start, declared in zip(starts, left)])

    def test_more_than_a_list_has_room_for(self):
        for text in fit(b"", 12) * 5000, b".FIT\x0c\0" * 5000, (b".FIT\x0c\0" * 64)[:-1], (b".FIT\x0c\0" * 68)[:-1]:
            self.assertEqual(marks.salvage(text), rides_plainly(text))

    def test_both_lists_get_as_many_as_fit_the_shorter(self):
        text = fit(b"abc") + fit(b"abcd", 12) + fit(b"ab")[:-1]
        for starts_len, kinds_len in (0, 0), (3, 0), (0, 3), (1, 2), (2, 1), (2, 4), (4, 4):
            starts, kinds = array.array("I", [7] * starts_len), array.array("B", [7] * kinds_len)
            self.assertEqual(_entries.salvage(_lent.Lent(text, "text"), starts, kinds), 3)
            fit_both = min(3, starts_len, kinds_len)
            self.assertEqual(starts.tolist(), [0, 19, 37][:fit_both] + [7] * (starts_len - fit_both))
            self.assertEqual(kinds.tolist(), [1, 1, 0][:fit_both] + [7] * (kinds_len - fit_both))

    def test_of_every_kind_of_buffer(self):
        text = fit(b"abcd") + fit(b"", 12)[:12]
        expected = [(0, True, 14, 4), (20, False, 12, 0)]
        numbers = array.array("I", text)
        for lent in (bytearray(text), memoryview(b"x" + text)[1:], numbers, memoryview(numbers).cast("B").cast("B", (8, 4)),
                     (ctypes.c_uint32 * 8).from_buffer(numbers)):
            self.assertEqual(marks.salvage(lent), expected)
        with tempfile.TemporaryFile() as file:
            file.write(bytes(MEBI) + text)
            file.flush()
            with mmap.mmap(file.fileno(), 0, access=mmap.ACCESS_READ) as mapped:
                self.assertEqual([ride.start for ride in marks.salvage(mapped)], [MEBI, MEBI + 20])

    def test_a_ride_is_a_tuple_of_what_is_known(self):
        ride, = marks.salvage(fit(b"abc"))
        self.assertEqual(repr(ride), "Ride(start=0, whole=True, header=14, declared=3)")
        self.assertIs(ride.whole, True)
        for again in copy.copy(ride), pickle.loads(pickle.dumps(ride)):
            self.assertEqual((type(again), again), (Ride, ride))
        self.assertEqual((Ride.__module__, marks.salvage.__module__), ("marks", "marks"))


# a file, the number that it is refused with, and where: those of docs/FILE.md, then more of edition 2
BROKEN = (
    ("01 80", 5, 2),
    ("01 03 61 61", 5, 4),
    ("01 83 00 61 61 61 00", 6, 2),
    ("03", 7, 0),
    ("01 FF FF FF FF 0F", 8, 1),
    ("01 01 61 00", 8, 1),
    ("01 03 61 61 61 03", 9, 5),
    ("01 07 61 62 62 62 61 61 62 04 00 00 01 04 01 01 01 00", 10, 12),
    ("01 03 61 61 61 01 00 00", 10, 6),
    ("01 02 61 62 00", 10, 5),
    ("01 03 61 61 61 00 00", 11, 6),
    ("81 00", 6, 1),
    ("", 5, 0),
    ("02", 5, 1),
    ("02 01 61 00", 8, 1),
    ("02 02 61 62 00", 10, 5),
    ("02 02 61 61 00", 5, 5),
    ("02 02 61 61 00 00", 5, 6),
    ("02 02 61 61 00 01 36", 13, 5),
    ("02 02 61 61 00 00 37", 13, 5),
    ("02 02 61 61 00 36 00", 13, 5),
    ("02 02 63 62 01 00 00 D1 92", 13, 7),
    ("02 02 61 61 00 00 37 00", 13, 5),
    ("02 02 61 61 00 00 36 00", 11, 7),
    ("01 02 61 61 00 00 36", 11, 5),
    ("03 02 61 61 00 00 36", 7, 0),
    ("82 00 02 61 61 00 00 36", 6, 1),
)


class Refusals(unittest.TestCase):
    def refuses(self, number, offset, use, *given):
        _, name, text = next(line for line in REFUSALS if line[0] == number)
        with self.assertRaises(marks.Refused) as caught:
            use(*given)
        error = caught.exception
        self.assertIs(type(error), getattr(marks, name))
        self.assertEqual((error.number, error.offset), (number, offset))
        self.assertEqual(str(error), f"{text} ({number})" + ("" if offset is None else f", at offset {offset}"))

    def test_words(self):
        for use in Mark, Stream:
            self.refuses(1, None, use, b"")
        self.refuses(2, None, Mark, bytes(4097))
        self.refuses(2, None, Mark, bytes(MEBI))
        self.refuses(2, None, Stream, bytes(65))
        self.refuses(17, None, Mark(b"a").to_file)
        self.refuses(17, None, lambda: Mark(b"a").to_file(edition=2))
        self.assertEqual((Mark(bytes(4096)).count(bytes(4096)), Stream(bytes(64)).take(bytes(64))), (1, [0]))

    def test_files(self):
        for file, number, offset in BROKEN:
            self.refuses(number, offset, Mark.from_file, bytes.fromhex(file))
            self.refuses(number, offset, marks.check, bytearray.fromhex(file))

    def test_what_only_the_entries_can_be_asked(self):
        self.refuses(3, None, lambda: _entries._asked(LIBRARY.marks_build, b"ab", _entries.room("H", 17), answers=1))
        word, finds = b"ab", _entries.room("I", 0)
        text = _lent.Lent(bytes(16 * MEBI + 1), "text")
        for engine in ENGINES[1:]:
            self.refuses(4, None, _entries.search, engine, word, text, _entries.rooms(engine, 2), finds)
        for engine, entries in ("backward", 17), ("turbo", 17), ("failure", 29):
            self.refuses(3, None, _entries.search, engine, word, _lent.Lent(b"ab", "text"), (_entries.room("H", entries),), finds)
        self.refuses(3, None, lambda: _entries._asked(LIBRARY.marks_failure_build, word, _entries.room("H", 29), answers=1))
        for given, entries, number in (b"", 0, 1), (bytes(129), 0, 2), (bytes(129), 17550, 2), (bytes(128), 17285, 3), (b"ab", 23, 3):
            self.refuses(number, None,
                         lambda: _entries._asked(LIBRARY.marks_storacle_build, given, _entries.room("H", entries), answers=1))
        for words, entries in (11, 30), (12, 29), (0, 30), (12, 0):
            lent = _entries.room("Q", words), _entries.room("H", entries)
            self.refuses(3, None, lambda: _entries._asked(LIBRARY.marks_compact_build, word, *lent, answers=1))
            self.refuses(3, None, _entries.search, "compact", word, _lent.Lent(b"ab", "text"), lent, finds)
        starts, kinds = _entries.room("I", 1), _entries.room("B", 1)
        self.refuses(4, None, _entries.salvage, text, starts, kinds)
        for given, entries, number in (text, 0, 4), (b"", 29, 3), (b"", 0, 3):
            self.refuses(number, None,
                         lambda: _entries._asked(LIBRARY.marks_salvage, given, _entries.room("H", entries), starts, kinds, answers=1))
        for entry, size in (LIBRARY.marks_save, 7), (LIBRARY.marks_save_checked, 9):
            out = _entries.room("B", size - 1)
            self.refuses(12, None, lambda: _entries._asked(entry, word, _entries.tables(2), out, answers=1))
            self.assertEqual(_entries._asked(entry, word, _entries.tables(2), _entries.room("B", size), answers=1), [size])
        self.refuses(16, None, _entries.take, _entries.room("B", 134), b"", finds)

    def test_what_the_entries_of_the_failure_oracle_tell(self):
        table, finds = _entries.failure_tables(9), _entries.room("I", 2)
        self.assertEqual(_entries._asked(LIBRARY.marks_failure_build, b"abcacdace", table, answers=1), [9])
        self.assertEqual(table[10:20].tolist(), [1, 2, 5, 5, 0, 8, 0, 0, 0, 0])
        for word, text, told in ((b"ab", b"ac", [0, 1, 1]), (b"aba", b"ababa", [2, 6, 0]),
                                 (b"ababdbaacbdaba", b"abbbbbbbabdbaa", [0, 14, 3])):
            table = _entries.failure_tables(len(word))
            self.assertEqual(_entries._asked(LIBRARY.marks_failure_search, word, text, table, finds, answers=3), told)
            self.assertEqual(_entries.search("failure", word, _lent.Lent(text, "text"), (table,), finds), tuple(told[:2]))
        self.assertEqual(finds.tolist(), [0, 2])

    def test_what_the_entry_of_the_storacle_tells(self):
        table = _entries.room("H", 10 * 15)
        self.assertEqual(_entries._asked(LIBRARY.marks_storacle_build, b"abcacdace", table, answers=1), [9])
        rows = [table[at:at + 10].tolist() for at in range(0, 150, 10)]
        # the columns of the letters, and the arrows of states 0 and 3
        self.assertEqual((rows[1], rows[2], rows[2 + 3]),
                         ([0, 1, 2, 3, 1, 3, 6, 1, 3, 9], [0, 1, 2, 3, 0, 0, 6, 0, 0, 9], [0, 4, 0, 0, 0, 0, 6, 0, 0, 9]))
        self.assertEqual(sum(target > 0 for row in rows[2:12] for target in row), 16)
        self.assertEqual(_entries._asked(LIBRARY.marks_storacle_build, bytes(128), _entries.room("H", 129 * 134), answers=1), [128])

    def test_what_the_entries_of_compact_rows_tell(self):
        sets, targets = rows = _entries.compact_rows(9)
        self.assertEqual(_entries._asked(LIBRARY.marks_compact_build, b"abcacdace", *rows, answers=1), [9])
        # state 3 has arrows on a, d and e, and eight leave the states before it
        self.assertEqual(sets[12:16].tolist(), [0, sum(1 << letter - 64 for letter in b"ade"), 0, 0])
        self.assertEqual((targets[40 + 12], targets[80 + 8:80 + 11].tolist()), (8, [4, 6, 9]))
        rows, finds = _entries.compact_rows(3), _entries.room("I", 2)
        self.assertEqual(_entries._asked(LIBRARY.marks_compact_search, b"aba", b"ababa", *rows, finds, answers=2), [2, 6])
        self.assertEqual(finds.tolist(), [0, 2])

    def test_a_stream_that_was_tampered_with(self):
        stream = Stream(b"RIDE")
        stream._searcher[128] = 65
        self.refuses(16, None, stream.take, b"RIDE")

    def test_each_line_has_a_class_that_is_exported(self):
        numbers = {kind.__name__: kind.number for kind in marks.Refused.__subclasses__()}
        self.assertEqual(numbers, {name: number for number, name, _ in REFUSALS})
        for number, name, text in REFUSALS:
            self.assertIn(name, marks.__all__)
            self.assertTrue(issubclass(getattr(marks, name), ValueError))
            self.assertEqual(getattr(marks, name).__doc__, f"{number}: {text}.")

    def test_they_are_pickled(self):
        for number, _, _ in REFUSALS:
            error = _refused.refused(number, 7)
            for again in pickle.loads(pickle.dumps(error)), copy.copy(error):
                self.assertIs(type(again), type(error))
                offset = 7 if 5 <= number <= 11 or number == 13 else None
                self.assertEqual((again.number, again.offset, str(again)), (number, offset, str(error)))


class Files(unittest.TestCase):
    def setUp(self):
        folder = tempfile.TemporaryDirectory()
        self.addCleanup(folder.cleanup)
        self.folder = Path(folder.name)
        self.path = self.folder / "ride.mark"

    def test_as_the_document_has_them(self):
        file = bytes.fromhex("01 07 61 62 62 62 61 61 62 04 00 00 01 03 01 01 01 00")
        self.assertEqual(Mark(b"abbbaab"[::-1]).to_file(), file)
        self.assertEqual(Mark.from_file(file).word, b"abbbaab"[::-1])
        self.assertEqual(Mark(b"aa").to_file(), bytes.fromhex("01 02 61 61 00"))
        self.assertEqual(Mark(b"ba").to_file(), bytes.fromhex("01 02 61 62 01 00 00"))
        self.assertEqual(Mark(bytes(4096)).to_file(), bytes.fromhex("01 80 20") + bytes(4096 + 1))

    def test_there_and_back(self):
        chance = random.Random(3)
        for length in (2, 3, 64, 65, 1000, 4096):
            mark = Mark(bytes(chance.randrange(3) for _ in range(length)))
            again = Mark.from_file(mark.to_file(), engine="turbo")
            self.assertEqual((again.word, again.engine), (mark.word, "turbo"))
            self.assertLessEqual(len(mark.to_file()), 20_481)
            again = Mark.from_file(mark.to_file(edition=2), engine="turbo")
            self.assertEqual((again.word, again.engine), (mark.word, "turbo"))
            self.assertLessEqual(len(mark.to_file(edition=2)), 20_483)

    def test_saved_and_loaded(self):
        for path in str(self.path), self.path, os.fsencode(self.path):
            marks.save(b"RIDE", path, overwrite=True)
            self.assertEqual(self.path.read_bytes(), Mark(b"RIDE").to_file())
            self.assertEqual(marks.load(path, engine="turbo").find(b"..RIDE"), 2)
        self.assertEqual(marks.check(self.path), marks.check(str(self.path)))
        self.assertEqual(os.listdir(self.folder), ["ride.mark"])
        umask = os.umask(0)
        os.umask(umask)
        self.assertEqual(stat.S_IMODE(self.path.stat().st_mode), 0o666 & ~umask)

    def test_edition_2_is_edition_1_with_its_check(self):
        chance = random.Random(4)
        self.assertEqual(checked(b"123456789")[-2:], bytes.fromhex("3D BB"))  # as every catalogue of such checks has it
        words = [bytes(chance.randrange(letters) for _ in range(chance.randrange(2, 300))) for letters in (1, 2, 3, 256) for _ in range(25)]
        for word in (*words, bytes(4096), bytes(4095) + b"\1", chance.getrandbits(8 * 4096).to_bytes(4096, "big")):
            plain, file = Mark(word).to_file(edition=1), Mark(word).to_file(edition=2)
            self.assertEqual((plain, file), (Mark(word).to_file(), checked(b"\2" + plain[1:])))
            self.assertEqual(Mark.from_file(file), Mark.from_file(plain))
            self.assertEqual((Mark.from_file(plain).edition, Mark.from_file(file).edition), (1, 2))

    def test_each_flipped_bit_of_edition_2_is_refused(self):
        seen = set()
        for word in b"ab", b"RIDE", b"abbbaab", b"a" * 130:
            good = Mark(word).to_file(edition=2)
            for bit in range(8 * len(good)):
                file = bytearray(good)
                file[bit // 8] ^= 1 << bit % 8
                with self.assertRaises(marks.Refused) as caught:
                    marks.check(file)
                seen.add(caught.exception.number)
                if self.is_good(b"\1" + file[1:-2]):
                    whole = file[0] == 2
                    self.assertEqual((caught.exception.number, caught.exception.offset), (13, len(good) - 2) if whole else (7, 0))
        self.assertLessEqual({5, 7, 8, 9, 10, 13}, seen)

    def is_good(self, file):
        try:
            Mark.from_file(file)
        except marks.Refused:
            return False
        return True

    def test_the_least_file_and_room_for_the_longest(self):
        for word in b"aa", b"\0\0":
            self.assertEqual([len(Mark(word).to_file(edition=edition)) for edition in (1, 2)], [5, 7])
        self.assertEqual(Mark(b"aa").to_file(edition=2), bytes.fromhex("02 02 61 61 00 00 36"))
        self.assertEqual(_entries.LONGEST_FILE, 20_483)

    def test_an_edition_that_there_is_not(self):
        for edition in 0, 3, -1, "2", None, b"\2", [2]:
            for use in Mark(b"RIDE").to_file, lambda edition: marks.save(b"RIDE", self.path, edition=edition):
                with self.assertRaisesRegex(ValueError, "there is no edition .*: it is 1 or 2"):
                    use(edition=edition)
        self.assertEqual(os.listdir(self.folder), [])

    def test_saved_in_either_edition(self):
        for edition in 1, 2:
            for word in b"RIDE", Mark(b"RIDE"), Mark.from_file(Mark(b"RIDE").to_file(edition=2)):
                marks.save(word, self.path, overwrite=True, edition=edition)
                self.assertEqual(self.path.read_bytes(), Mark(b"RIDE").to_file(edition=edition))
            for mark in marks.load(self.path), marks.check(self.path), marks.check(str(self.path)), marks.check(self.path.read_bytes()):
                self.assertEqual((mark, mark.edition, mark.find(b"..RIDE")), (Mark(b"RIDE"), edition, 2))
                for again in copy.copy(mark), pickle.loads(pickle.dumps(mark)):
                    self.assertEqual((again, again.edition), (mark, edition))
        marks.save(mark, self.path, overwrite=True)
        self.assertEqual(self.path.read_bytes(), Mark(b"RIDE").to_file())
        self.assertIsNone(Mark(b"RIDE").edition)

    def test_a_search_with_a_file_of_either_edition(self):
        for edition in 1, 2:
            file, finds = Mark(b"RIDE").to_file(edition=edition), _entries.room("I", 2)
            rooms = _entries.room("B", 4), _entries.tables(4)
            told = _entries._asked(LIBRARY.marks_search_file, file, b"..RIDE..RIDE", *rooms, finds, answers=2, offset=True)
            self.assertEqual((told[0], finds.tolist(), rooms[0].tobytes()), (2, [2, 8], b"EDIR"))

    def test_saved_over_another_only_if_asked(self):
        marks.save(b"RIDE", self.path)
        with self.assertRaises(FileExistsError):
            marks.save(b"ride", self.path)
        self.assertEqual(marks.load(self.path), Mark(b"RIDE"))
        marks.save(Mark(b"ride"), self.path, overwrite=True)
        self.assertEqual(marks.load(self.path), Mark(b"ride"))
        self.assertEqual(os.listdir(self.folder), ["ride.mark"])

    def test_nothing_is_left_where_saving_fails(self):
        with self.assertRaises(marks.ShortWord):
            marks.save(b"a", self.path)
        with self.assertRaises(FileNotFoundError) as caught:
            marks.save(b"ab", self.folder / "none" / "ride.mark")
        self.assertEqual(caught.exception.filename, str(self.folder / "none" / "ride.mark"))
        full = OSError(errno.ENOSPC, "full")
        with mock.patch.object(_files.os, "replace", side_effect=full), self.assertRaisesRegex(OSError, "full"):
            marks.save(b"ab", self.path, overwrite=True)
        with mock.patch.object(_files.os, "link", side_effect=PermissionError(errno.EPERM, "no links")):
            marks.save(b"ab", self.path)
            self.assertEqual(marks.load(self.path), Mark(b"ab"))
            with self.assertRaises(FileExistsError):
                marks.save(b"cd", self.path)
            os.unlink(self.path)
            with mock.patch.object(_files.os, "replace", side_effect=full), self.assertRaisesRegex(OSError, "full"):
                marks.save(b"ab", self.path)
        self.assertEqual(os.listdir(self.folder), [])

    def test_what_is_saved_over_keeps_what_it_is(self):
        self.path.write_bytes(b"old")
        os.chmod(self.path, 0o640)
        link, pipe = self.folder / "link", self.folder / "pipe"
        link.symlink_to("ride.mark")
        marks.save(b"RIDE", link, overwrite=True)
        self.assertTrue(link.is_symlink())
        self.assertEqual((marks.load(self.path), stat.S_IMODE(self.path.stat().st_mode)), (Mark(b"RIDE"), 0o640))
        os.mkfifo(pipe)
        reading = os.open(pipe, os.O_RDONLY | os.O_NONBLOCK)
        try:
            marks.save(b"RIDE", pipe, overwrite=True)
            self.assertEqual(Mark.from_file(os.read(reading, 100)), Mark(b"RIDE"))
        finally:
            os.close(reading)
        self.assertTrue(stat.S_ISFIFO(pipe.stat().st_mode))

    def test_only_the_front_of_a_long_file_is_read(self):
        for edition in 1, 2:
            good = Mark(bytes(i % 251 for i in range(4096))).to_file(edition=edition)
            self.path.write_bytes(good + bytes(MEBI))
            with self.assertRaises(marks.Leftovers) as caught:
                marks.load(self.path)
            self.assertEqual(caught.exception.offset, len(good))
        with self.assertRaises(marks.OtherEdition):
            marks.check("/dev/zero")


class Library(unittest.TestCase):
    def imported_with(self, library):
        known = {**os.environ, "MARKS_LIBRARY": str(library), "PYTHONPATH": str(Path(marks.__file__).resolve().parent.parent)}
        return subprocess.run([sys.executable, "-c", "import marks"], env=known, stderr=subprocess.PIPE, universal_newlines=True).stderr

    def test_that_is_not_there(self):
        said = self.imported_with("/nowhere/libmarks.so")
        self.assertIn("ImportError: marks needs its shared library and cannot load it (/nowhere/libmarks.so: ", said)
        self.assertIn("or set MARKS_LIBRARY to its path.", said)

    def test_that_is_another(self):
        said = self.imported_with(__import__("_ctypes").__file__)
        self.assertRegex(said, "ImportError: .* undefined symbol: marks_build")

    def test_that_is_no_library(self):
        self.assertIn("ImportError: marks needs its shared library", self.imported_with(__file__))


def load_tests(loader, tests, pattern):
    finder = doctest.DocTestFinder()
    examples = finder.find(marks, module=False, globs=vars(marks), extraglobs={"marks": marks})
    tests.addTests(doctest.DocTestCase(example) for example in examples if example.examples)
    folder, here = tempfile.TemporaryDirectory(), os.getcwd()

    def leave(_):
        os.chdir(here)
        folder.cleanup()

    tests.addTests(doctest.DocFileSuite(str(README), module_relative=False, setUp=lambda _: os.chdir(folder.name), tearDown=leave))
    return tests


if __name__ == "__main__":
    unittest.main()
