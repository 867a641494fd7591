"""Files of the command: read with a limit, written whole or not at all."""
from __future__ import annotations

import os
import resource
import socket
import stat
from contextlib import contextmanager
from pathlib import Path
from typing import Callable, Iterator, List, Tuple

import pytest
from picky.command import files
from picky.command.said import Refusal, Status


def refused(call: Callable[[], object]) -> Tuple[str, Status]:
    with pytest.raises(Refusal) as caught:
        call()
    return caught.value.sentence, caught.value.status


def mode(path: Path) -> int:
    return stat.S_IMODE(path.stat().st_mode)


@contextmanager
def at_most(size: int) -> Iterator[None]:
    """No file gets longer."""
    old = resource.getrlimit(resource.RLIMIT_FSIZE)
    resource.setrlimit(resource.RLIMIT_FSIZE, (size, old[1]))
    try:
        yield
    finally:
        resource.setrlimit(resource.RLIMIT_FSIZE, old)


def test_reads_files_up_to_the_limit(tmp_path: Path) -> None:
    file = tmp_path / "file"
    for size in (0, 1, 65_536, files.LARGEST):
        file.write_bytes(b"a" * size)
        assert files.read(str(file)) == b"a" * size
    for size in (files.LARGEST + 1, 100_000_000, 1 << 40):
        with open(file, "wb") as sparse:
            sparse.truncate(size)
        why = "it has more than 16,777,216 bytes"
        assert refused(lambda: files.read(str(file))) == (why, Status.REFUSED), size


def test_reads_no_folder_pipe_socket_or_device(tmp_path: Path) -> None:
    os.mkfifo(tmp_path / "pipe")
    with socket.socket(socket.AF_UNIX) as made:
        made.bind(str(tmp_path / "socket"))
        rows: List[Tuple[Path, str]] = [
            (tmp_path, "it is a folder, and no file"),
            (tmp_path / "pipe", "it is a pipe, and no file"),
            (tmp_path / "socket", "it is a socket, and no file"),
            (Path("/dev/zero"), "it is a device, and no file"),
            (tmp_path / "none", "there is no such file"),
        ]
        for path, why in rows:
            assert refused(lambda: files.read(str(path))) == (why, Status.REFUSED), path


def test_makes_a_file_with_mode_600_and_no_other(tmp_path: Path) -> None:
    old = os.umask(0)
    try:
        files.put(str(tmp_path / "file"), b"content")
    finally:
        os.umask(old)
    assert (tmp_path / "file").read_bytes() == b"content"
    assert mode(tmp_path / "file") == 0o600
    assert os.listdir(tmp_path) == ["file"]


def test_replaces_a_file_only_by_force(tmp_path: Path) -> None:
    there, link = tmp_path / "there", tmp_path / "link"
    there.write_bytes(b"old")
    there.chmod(0o644)
    link.symlink_to("there")
    (tmp_path / "dangling").symlink_to("nowhere")
    why = "it is there already; --force replaces it"
    for name in ("there", "link", "dangling", "."):
        wanted = (why, Status.NOT_WRITTEN)
        assert refused(lambda: files.put(str(tmp_path / name), b"new")) == wanted, name
    assert there.read_bytes() == b"old"
    files.put(str(link), b"new", force=True)
    assert (link.is_symlink(), there.read_bytes(), mode(there)) == (True, b"new", 0o600)
    files.put(str(tmp_path / "fresh"), b"new", force=True)
    assert sorted(os.listdir(tmp_path)) == ["dangling", "fresh", "link", "there"]


def test_replaces_nothing_but_files(tmp_path: Path) -> None:
    os.mkfifo(tmp_path / "pipe")
    rows = [
        (tmp_path, "it is a folder, and stays"),
        (tmp_path / "pipe", "it is a pipe, and stays"),
        (Path("/dev/null"), "it is a device, and stays"),
    ]
    for path, why in rows:
        wanted = (why, Status.NOT_WRITTEN)
        assert refused(lambda: files.put(str(path), b"new", force=True)) == wanted, path


def test_leaves_nothing_where_a_write_fails(tmp_path: Path) -> None:
    there = tmp_path / "there"
    there.write_bytes(b"old")
    why = "it can't be written: File too large"
    calls: List[Callable[[], None]] = [
        lambda: files.put(str(tmp_path / "fresh"), b"long content"),
        lambda: files.put(str(there), b"long content", force=True),
        lambda: files.replace(str(there), b"long content", private=True),
    ]
    for place, call in enumerate(calls):
        with at_most(4):
            assert refused(call) == (why, Status.NOT_WRITTEN), place
        assert (os.listdir(tmp_path), there.read_bytes()) == (["there"], b"old"), place
    missing = str(tmp_path / "none" / "file")
    why = "it can't be written: No such file or directory"
    assert refused(lambda: files.put(missing, b"new")) == (why, Status.NOT_WRITTEN)


def test_replaces_a_file_with_its_mode_or_600(tmp_path: Path) -> None:
    file, link = tmp_path / "file", tmp_path / "link"
    link.symlink_to("file")
    for private, wanted in ((False, 0o644), (True, 0o600)):
        file.write_bytes(b"old")
        file.chmod(0o644)
        files.replace(str(link), b"new", private=private)
        assert (link.is_symlink(), file.read_bytes(), mode(file)) == (True, b"new", wanted)


def test_keeps_the_owner_of_a_file(tmp_path: Path) -> None:
    # Only root gives a file away.
    owner = (12_345, 23_456) if os.geteuid() == 0 else (os.geteuid(), os.getegid())
    file = tmp_path / "file"
    file.write_bytes(b"old")
    os.chown(file, *owner)
    files.replace(str(file), b"new", private=True)
    assert (file.stat().st_uid, file.stat().st_gid) == owner


def test_makes_files_where_there_are_no_links(
    tmp_path: Path, monkeypatch: pytest.MonkeyPatch
) -> None:
    def link(*_: str) -> None:
        raise PermissionError(1, "Operation not permitted")

    monkeypatch.setattr(os, "link", link)
    files.put(str(tmp_path / "file"), b"new")
    why = "it is there already; --force replaces it"
    assert refused(lambda: files.put(str(tmp_path / "file"), b"other"))[0] == why
    assert (os.listdir(tmp_path), (tmp_path / "file").read_bytes()) == (["file"], b"new")
    assert mode(tmp_path / "file") == 0o600
