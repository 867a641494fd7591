"""Records, files below folders, and processes of picky inventory."""
from __future__ import annotations

import os
import signal
import tempfile
from pathlib import Path
from typing import List, Optional, Set, Tuple
from unittest.mock import patch

import pytest
from hypothesis import given
from hypothesis import strategies as st
from inventories import entry, text
from picky import Inventory
from picky.command import inventory_records as records
from picky.command.inventory_keys import list_file
from picky.command.inventory_processes import Processes
from picky.command.inventory_summary import differences
from picky.command.inventory_walk import File, files_of
from picky.command.said import Refusal, Status
from running import ssh_key, tool, written

NAMES = st.binary(min_size=1, max_size=20).filter(lambda it: b"\0" not in it).map(os.fsdecode)
PLACES = st.tuples(NAMES, st.integers(1, 20_000_000))
LINES = st.sampled_from(
    [
        entry(held, text(number), comment).encode()
        for held in ("private", "sealed", "public")
        for number in (1, 2)
        for comment in ("", "a", "b c")
    ]
)


@given(st.lists(st.tuples(LINES, PLACES)))
def test_sorts_records_and_reads_them_again(rows: List[Tuple[bytes, Tuple[str, int]]]) -> None:
    with tempfile.TemporaryDirectory() as folder:
        found = records.Found(folder, placed=True)
        with patch.object(records, "KEPT", 200):
            runs = records.Runs(found.key_runs)
            for line, place in rows:
                runs.add(records.key_record(line, records.place_record(*place)))
            runs.write()
        for _, place in rows:
            found.refuse(*place, "\n\tit")
        found.sort()
        assert list(records.lines_of(found.keys)) == sorted({line for line, _ in rows})
        with open(found.keys, "rb") as file:
            kept = list(file)
        pairs = zip(map(records.line_of, kept), records.places_of(kept))
        assert sorted(pairs) == sorted(set(rows))
        unread = set(records.unread_of(found.unread))
        assert unread == {(place, "\n\tit") for _, place in rows}


@given(st.sets(LINES), st.sets(LINES))
def test_tells_what_differs(earlier: Set[bytes], later: Set[bytes]) -> None:
    found = list(differences(iter(sorted(earlier)), iter(sorted(later))))
    assert found == sorted(
        [(it, False) for it in earlier - later] + [(it, True) for it in later - earlier]
    )


@given(st.lists(st.binary(min_size=1, max_size=1 << 18), max_size=12))
def test_joins_lines_to_pieces(lines: List[bytes]) -> None:
    pieces = list(records.in_pieces(lines))
    assert b"".join(pieces) == b"".join(lines)
    assert all(len(it) >= records.PIECE for it in pieces[:-1])


def test_refuses_what_sort_does_not_do(tmp_path: Path, monkeypatch: pytest.MonkeyPatch) -> None:
    with pytest.raises(Refusal, match="^the keys can't be sorted: sort: .*none") as caught:
        records.sort(str(tmp_path / "out"), [str(tmp_path / "none")])
    assert caught.value.status == Status.OUTSIDE
    monkeypatch.setenv("PATH", str(tmp_path))
    with pytest.raises(Refusal, match="^there is no program sort$"):
        records.sort(str(tmp_path / "out"), [])


def test_goes_on_past_folders_that_vanish(tmp_path: Path) -> None:
    for name in ("a", "b", "c"):
        (tmp_path / name).mkdir()
        (tmp_path / name / "key.pub").touch()
    refused: List[Tuple[str, str]] = []
    found = files_of([str(tmp_path)], lambda name, cause: refused.append((name, cause)))
    first = next(found)
    others = {"a", "b", "c"} - {Path(first.name).parent.name}
    gone = tmp_path / others.pop()
    (gone / "key.pub").unlink()
    gone.rmdir()
    assert list(found) == [File(str(tmp_path / others.pop() / "key.pub"), True)]
    assert refused == [(str(gone), "there is no such file")]


def test_says_that_a_folder_is_too_deep(tmp_path: Path) -> None:
    here = os.open(tmp_path, os.O_RDONLY)
    for _ in range(250):
        os.mkdir("a" * 20, dir_fd=here)
        below = os.open("a" * 20, os.O_RDONLY, dir_fd=here)
        os.close(here)
        here = below
    os.close(here)
    causes: List[str] = []
    assert list(files_of([str(tmp_path)], lambda _, cause: causes.append(cause))) == []
    assert causes == ["it can't be read: File name too long"]


def test_says_that_a_file_vanished(tmp_path: Path) -> None:
    for sure in (True, False):
        said: List[object] = []
        gone = File(str(tmp_path / "gone"), sure)
        list_file(gone, lambda *it: said.append(it), lambda *it: said.append(it))
        assert said == [(1, "there is no such file")]


@pytest.fixture(scope="module")
def key_files(tmp_path_factory: pytest.TempPathFactory) -> List[bytes]:
    """Key files of ssh-keygen in several forms."""
    folder = tmp_path_factory.mktemp("keys")
    for form in ("RFC4716", "PEM", "PKCS8"):
        for passphrase in ("", "a secret"):
            name = f"{form}{len(passphrase)}"
            ssh_key(folder / name, "-m", form, kind="ecdsa", passphrase=passphrase)
    for form in ("RFC4716", "PKCS8"):
        public = tool("ssh-keygen", "-e", "-m", form, "-f", folder / "PEM0.pub")
        written(folder / f"public {form}", public)
    return [it.read_bytes() for it in sorted(folder.iterdir())]


@given(st.data())
def test_takes_or_refuses_what_a_file_has(key_files: List[bytes], data: st.DataObject) -> None:
    changed = bytearray(b"".join(data.draw(st.lists(st.sampled_from(key_files), max_size=3))))
    for _ in range(data.draw(st.integers(0, 3))):
        at = data.draw(st.integers(0, len(changed)))
        end = at + data.draw(st.integers(0, 40))
        changed[at:end] = data.draw(st.binary(max_size=40) | st.text(max_size=9).map(str.encode))
    with tempfile.TemporaryDirectory() as folder:
        file = written(Path(folder, "file"), bytes(changed))
        lines: List[bytes] = []
        causes: List[str] = []
        for sure in (True, False):
            list_file(
                File(str(file), sure),
                lambda _, line: lines.append(line),
                lambda _, cause: causes.append(cause),
            )
    assert all(len(list(Inventory.read(line))) == 1 for line in lines)
    assert lines or causes


def test_gives_work_to_processes() -> None:
    def work(batch: Optional[int]) -> Tuple[int, Optional[int]]:
        return os.getpid(), batch

    for count, batches in ((0, 0), (1, 3), (3, 2), (3, 100)):
        with Processes(work, count) as processes:
            done = list(processes.each(iter(range(batches)))) if count else []
        assert sorted(it for _, it in done if it is not None) == list(range(batches))
        assert len({pid for pid, it in done if it is None}) == count


def test_says_that_a_process_was_ended() -> None:
    def ends(batch: Optional[int]) -> None:
        os.kill(os.getpid(), signal.SIGKILL)

    def fails(batch: Optional[int]) -> None:
        raise OSError(28, "No space left on device")

    with Processes(ends, 2) as processes:
        with pytest.raises(Refusal, match="^a process of the run was ended$"):
            list(processes.each(iter(range(10))))
    with Processes(fails, 2) as processes:
        with pytest.raises(OSError, match="No space"):
            list(processes.each(iter(range(10))))


def test_ends_with_the_process_that_began_it() -> None:
    read, write = os.pipe()
    first = os.fork()
    if first == 0:
        processes: Processes[int, int] = Processes(lambda batch: os.getpid(), 2)
        assert processes
        os.write(write, b"done")
        os.kill(os.getpid(), signal.SIGKILL)
    os.close(write)
    os.waitpid(first, 0)
    # The pipe ends when the last process has.
    assert os.read(read, 100) == b"done"
    assert os.read(read, 100) == b""
    os.close(read)
