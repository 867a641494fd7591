"""Files: read with a limit, written whole or not at all."""
from __future__ import annotations

import errno
import os
import stat
import tempfile
from typing import Iterable, Optional, Union

from .said import Refusal, Status, hand_out, printable

# What the programs read at most.
LARGEST = 16_777_216
_AT_ONCE = 1 << 16


def read(name: str) -> bytearray:
    """What a file has; "-" is standard input.

    Refuses as `opened`, and more than 16,777,216 bytes.
    """
    descriptor = opened(name)
    try:
        return content_of(descriptor)
    finally:
        os.close(descriptor)


def opened(name: str) -> int:
    """A descriptor of a file; "-" is standard input.

    Refuses what isn't there or can't be read, and what is no regular file.
    """
    if name == "-":
        return os.dup(0)
    try:
        # A pipe without a writer would be waited for.
        descriptor = os.open(name, os.O_RDONLY | os.O_NONBLOCK | os.O_NOCTTY | os.O_CLOEXEC)
    except OSError as error:
        raise Refusal(not_opened(name, error)) from None
    what = kind_of(os.fstat(descriptor).st_mode)
    if what is not None:
        os.close(descriptor)
        raise Refusal(f"it is {what}, and no file")
    return descriptor


def kind_of(mode: int) -> Optional[str]:
    """What a mode's file is; nothing for a regular one."""
    if stat.S_ISREG(mode):
        return None
    if stat.S_ISDIR(mode):
        return "a folder"
    if stat.S_ISFIFO(mode):
        return "a pipe"
    return "a socket" if stat.S_ISSOCK(mode) else "a device"


def not_opened(name: str, error: OSError) -> str:
    """Why a file can't be opened."""
    if isinstance(error, FileNotFoundError):
        return "there is no such file"
    try:
        what = kind_of(os.stat(name).st_mode)
    except OSError:
        what = None
    return f"it is {what}, and no file" if what else f"it can't be read: {error.strerror}"


def content_of(descriptor: int) -> bytearray:
    """What is read of a descriptor, up to its end. Refuses more than 16,777,216 bytes."""
    content = bytearray()
    room = bytearray(_AT_ONCE)
    try:
        size = os.fstat(descriptor).st_size
        while size <= LARGEST:
            got = os.readv(descriptor, [room])
            if got == 0:
                return content
            content += memoryview(room)[:got]
            size = len(content)
    except OSError as error:
        raise Refusal(f"it can't be read: {error.strerror}") from None
    finally:
        room[:] = bytes(_AT_ONCE)
    raise Refusal("it has more than 16,777,216 bytes")


def with_line_ends(text: Union[bytes, bytearray], *, crlf: bool) -> bytearray:
    """The text with its lines ended in CR LF, or in LF.

    Refuses a text of which a comment ends in CR, that LF would leave out.
    """
    unix = bytearray(text).replace(b"\r\n", b"\n")
    if crlf:
        return unix.replace(b"\n", b"\r\n")
    if b"\r\n" in unix:
        raise Refusal("its comment ends in CR, which lines that end in LF can't have")
    return unix


def put(path: str, content: Union[bytes, Iterable[bytes]], *, force: bool = False) -> None:
    """Makes a file with mode 600 of its content, or of pieces of that, whole or not at all.

    Refuses a file that is there, where it isn't forced, what is no regular file, and what can't be written.
    """
    target = os.path.realpath(path) if force else path
    try:
        if force:
            _check_regular(target)
        temporary = _written_beside(target, _pieces_of(content))
        try:
            if force:
                os.rename(temporary, target)
                temporary = ""
            else:
                _give_name(temporary, target)
        finally:
            if temporary and os.path.lexists(temporary):
                os.unlink(temporary)
        _keep_names(target)
    except FileExistsError:
        raise Refusal("it is there already; --force replaces it", Status.NOT_WRITTEN) from None
    except OSError as error:
        raise Refusal(f"it can't be written: {error.strerror}", Status.NOT_WRITTEN) from None


def replace(path: str, content: bytes, *, private: bool) -> None:
    """Replaces a file by another of the same owner, whole or not at all; where it is private, with mode 600, else with the old one.

    Refuses what can't be written.
    """
    target = os.path.realpath(path)
    try:
        old = os.stat(target)
        temporary = _written_beside(target, [content])
        try:
            new = os.stat(temporary)
            if (old.st_uid, old.st_gid) != (new.st_uid, new.st_gid):
                os.chown(temporary, old.st_uid, old.st_gid)
            if not private:
                os.chmod(temporary, stat.S_IMODE(old.st_mode) & 0o777)
            os.rename(temporary, target)
            temporary = ""
        finally:
            if temporary:
                os.unlink(temporary)
        _keep_names(target)
    except OSError as error:
        raise Refusal(f"it can't be written: {error.strerror}", Status.NOT_WRITTEN) from None


def check_free(path: str, force: bool) -> None:
    """Refuses a file that is there, before anything is asked for or done."""
    if not force and os.path.lexists(path):
        raise Refusal(
            f"{printable(path)}: it is there already; --force replaces it", Status.NOT_WRITTEN
        )


def deliver(path: Optional[str], content: Union[bytes, Iterable[bytes]], *, force: bool) -> None:
    """Makes a file, as `put`; without a path writes to standard output."""
    if path is None:
        for piece in _pieces_of(content):
            hand_out(piece)
        return
    try:
        put(path, content, force=force)
    except Refusal as refusal:
        raise Refusal(f"{printable(path)}: {refusal.sentence}", refusal.status) from None


def _pieces_of(content: Union[bytes, Iterable[bytes]]) -> Iterable[bytes]:
    return [content] if isinstance(content, (bytes, bytearray)) else content


def _check_regular(target: str) -> None:
    try:
        what = kind_of(os.lstat(target).st_mode)
    except FileNotFoundError:
        return
    if what is not None:
        raise Refusal(f"it is {what}, and stays", Status.NOT_WRITTEN)


def _written_beside(target: str, pieces: Iterable[bytes]) -> str:
    """The name of a temporary file of the pieces, in the folder of the target."""
    descriptor, temporary = tempfile.mkstemp(prefix=".picky-", dir=os.path.dirname(target) or ".")
    try:
        try:
            for content in pieces:
                at = 0
                while at < len(content):
                    at += os.write(descriptor, memoryview(content)[at:])
            os.fsync(descriptor)
        finally:
            os.close(descriptor)
    except BaseException:
        os.unlink(temporary)
        raise
    return temporary


def _give_name(temporary: str, target: str) -> None:
    """Gives a file a name that no other has."""
    try:
        os.link(temporary, target)
    except OSError as error:
        # A file system without links: the name is taken by an empty file first.
        if error.errno not in (errno.EPERM, errno.EOPNOTSUPP, errno.ENOSYS, errno.EMLINK):
            raise
        os.close(os.open(target, os.O_CREAT | os.O_EXCL | os.O_WRONLY | os.O_CLOEXEC, 0o600))
        os.rename(temporary, target)


def _keep_names(target: str) -> None:
    """Has the folder's names written to its device."""
    folder = os.open(os.path.dirname(target) or ".", os.O_RDONLY | os.O_DIRECTORY | os.O_CLOEXEC)
    try:
        os.fsync(folder)
    except OSError as error:
        if error.errno not in (errno.EINVAL, errno.EROFS):
            raise
    finally:
        os.close(folder)
