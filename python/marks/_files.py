"""Marks as files on disk, and finds in one line."""
import errno
import os
import secrets
import stat
from contextlib import suppress
from typing import TYPE_CHECKING, List, Optional, Union

from ._entries import LONGEST_FILE, Edition
from ._mark import Mark
from ._search import Engine

if TYPE_CHECKING:
    from typing_extensions import Buffer

    Path = Union[str, bytes, "os.PathLike[str]", "os.PathLike[bytes]"]

# So much of a mark file is read. One that agrees with a word's file ends, or has its first wrong field, within the bytes of the longest
# file and one arrow more: so the verdict and its offset are those of the whole file, however long it is.
_READ = 2 * LONGEST_FILE


def _as_mark(word: "Union[Buffer, Mark]") -> Mark:
    return word if isinstance(word, Mark) else Mark(word)


def find(word: "Union[Buffer, Mark]", text: "Buffer") -> List[int]:
    """Every place where the word stands in the text, overlaps included, rising."""
    return list(_as_mark(word).find_iter(text))


def count(word: "Union[Buffer, Mark]", text: "Buffer") -> int:
    """How often the word stands in the text, overlaps included."""
    return _as_mark(word).count(text)


def save(word: "Union[Buffer, Mark]", path: "Path", *, overwrite: bool = False, edition: Edition = 1) -> None:
    """Saves the file of a mark, where there is none yet or over it if `overwrite` says so. It is written beside and moved there whole.

    Edition 2 ends with a check of all bytes before it, by which a single flipped bit is always noticed. Edition 1 is the default
    nevertheless, as a service that is not yet updated refuses edition 2 with 7.

    Over a file its permissions are kept, and where a symbolic link is, what it leads to is replaced. What is no regular file, as a pipe or
    a device, is written to as it is.
    """
    file, named = _as_mark(word).to_file(edition=edition), os.fsdecode(path)
    target = os.path.realpath(named) if overwrite else named
    old = os.stat(target) if overwrite and os.path.exists(target) else None
    try:
        if old is not None and not stat.S_ISREG(old.st_mode):
            _write(os.open(target, os.O_WRONLY), file)
        else:
            _put(file, target, None if old is None else stat.S_IMODE(old.st_mode), overwrite)
    except OSError as error:
        # told by the name that was given, and not by that of the file beside it
        raise OSError(error.errno, error.strerror, named) from error


def _put(file: bytes, target: str, mode: Optional[int], overwrite: bool) -> None:
    folder = os.path.dirname(target) or "."
    beside = os.path.join(folder, f".marks-{secrets.token_hex(8)}")
    try:
        opened = os.open(beside, os.O_CREAT | os.O_EXCL | os.O_WRONLY, 0o666)
        if mode is not None:
            os.chmod(beside, mode)
        _write(opened, file)
        if not overwrite:
            # A link fails where the name is taken, also by a file that somebody makes meanwhile.
            _link(beside, target)
        else:
            os.replace(beside, target)
    finally:
        with suppress(OSError):  # after a move it is gone
            os.unlink(beside)
    _sync(folder)


def _write(opened: int, file: bytes) -> None:
    with open(opened, "wb", buffering=0) as out:
        out.write(file)
        try:
            os.fsync(out.fileno())
        except OSError as error:
            if error.errno not in (errno.EINVAL, errno.ENOTSUP):  # as of a pipe or a device, which is on no disk
                raise


def _link(beside: str, target: str) -> None:
    """Gives a file a name that nothing has. Where there are no links, as on a camera's card, the name is reserved by an empty file."""
    try:
        os.link(beside, target)
    except FileExistsError:
        raise
    except OSError:
        os.close(os.open(target, os.O_CREAT | os.O_EXCL | os.O_WRONLY, 0o666))
        try:
            os.replace(beside, target)
        except OSError:
            os.unlink(target)
            raise


def _sync(folder: str) -> None:
    """So that the move outlives a crash of the machine, on file systems that can promise it."""
    with suppress(OSError):
        opened = os.open(folder, os.O_RDONLY)
        try:
            os.fsync(opened)
        finally:
            os.close(opened)


def load(path: "Path", *, engine: Engine = "auto") -> Mark:
    """The mark of a saved file of either edition. Any file may be named: what is raised says why it is no mark's, and where."""
    with open(path, "rb") as file:
        return Mark.from_file(file.read(_READ), engine=engine)


def check(path_or_bytes: "Union[str, os.PathLike[str], Buffer]") -> Mark:
    """The mark of a good file, which a str or a pathlib.Path names, or whose bytes are handed over. Others are refused. The `edition` of
    the mark is that of the file."""
    if isinstance(path_or_bytes, (str, os.PathLike)):
        return load(path_or_bytes)
    return Mark.from_file(path_or_bytes)
