"""picky inventory: which keys files and folders have, each once."""
from __future__ import annotations

import argparse
import os
import sys
import tempfile
from functools import partial
from itertools import islice
from typing import Callable, Iterator, List, Optional

from ..errors import BadLine, Error
from . import files
from .inventory_bar import Bar
from .inventory_keys import Lister, file_record
from .inventory_output import as_csv, as_json, as_text, fields_of
from .inventory_page import as_page
from .inventory_processes import Processes, processors
from .inventory_records import Found, checked, in_pieces, lines_of, unread_of
from .inventory_walk import File, files_of
from .said import Refusal, Status, printable, refusal_of, say
from .show import title

USAGE = "[--merge] [--json | --csv] [OPTION..] PATH.."
# So many files are given to a process at once.
BATCH = 64
# No line of an inventory is longer, since no key text is longer than `files.LARGEST`.
LONGEST_LINE = 2 * files.LARGEST
BAD_LINE = "it is no line of an inventory, or isn't greater than the one before"


def add(parser: argparse.ArgumentParser) -> Callable[[argparse.Namespace], int]:
    """Adds the options."""
    parser.description = (
        "List which keys files have, each once: those that are named, and of folders the files that have a key file's name or "
        "begin as a key does. Encrypted private keys are listed by the public key that they show. The list is an inventory, "
        "as of keyinventory(1), and on a terminal one to read. Each file that isn't read is said, and the status is 1 then. "
        "PATH - is standard input."
    )
    parser.add_argument("paths", metavar="PATH", nargs="+", help=argparse.SUPPRESS)
    parser.add_argument("--merge", action="store_true", help="merge inventories, the PATHs")
    form = parser.add_mutually_exclusive_group()
    form.add_argument("--json", action="store_true", help="write JSON")
    form.add_argument("--csv", action="store_true", help="write CSV")
    parser.add_argument(
        "--places", action="store_true", help="list each key's files and lines, too"
    )
    parser.add_argument("-o", dest="output", metavar="FILE", help="write FILE, not to output")
    parser.add_argument("--html", metavar="PAGE", help="write a page about the keys, too")
    parser.add_argument(
        "--since", metavar="FILE", help="an earlier inventory; PAGE says what differs"
    )
    parser.add_argument("--force", action="store_true", help="replace files that are there")
    return lambda arguments: run(parser, arguments)


def run(parser: argparse.ArgumentParser, arguments: argparse.Namespace) -> int:
    """Lists the keys, or merges inventories."""
    if arguments.merge and arguments.places:
        parser.error("an inventory has no --places")
    if arguments.since is not None and arguments.html is None:
        parser.error("--since is for --html")
    for path in (arguments.output, arguments.html):
        if path is not None:
            files.check_free(path, arguments.force)
    placed = arguments.places or (arguments.html is not None and not arguments.merge)
    try:
        with tempfile.TemporaryDirectory(prefix="picky-") as folder:
            return run_with(arguments, Found(folder, placed=placed))
    except OSError as error:
        where = f"{printable(str(error.filename))}: " if error.filename else ""
        raise Refusal(f"{where}{error.strerror}", Status.NOT_WRITTEN) from None


def run_with(arguments: argparse.Namespace, found: Found) -> int:
    """Finds the keys, says what isn't read, and writes what is asked for."""
    since: Optional[str] = None
    with Bar() as bar:
        if arguments.since is not None:
            copy = os.path.join(found.folder, "since")
            since = copy if copy_inventory(arguments.since, copy, found) else None
        if arguments.merge:
            merge(arguments.paths, found, bar)
        else:
            find(arguments.paths, found, bar)
        bar.stage("sorting")
        found.sort()
    status = Status.DONE
    for place, cause in unread_of(found.unread):
        say(f"{title(fields_of(place))}: {cause}")
        status = Status.REFUSED
    with Bar() as bar:
        bar.stage("writing")
        if arguments.html is not None:
            page = in_pieces(as_page(found, since, arguments.paths))
            files.deliver(arguments.html, page, force=arguments.force)
        pieces = in_pieces(listed(arguments, found))
        if arguments.output is not None:
            files.deliver(arguments.output, pieces, force=arguments.force)
    if arguments.output is None:
        files.deliver(None, pieces, force=arguments.force)
    return status


def find(paths: List[str], found: Found, bar: Bar) -> None:
    """Finds the keys of files and folders."""
    bar.stage("looking")
    count = 0
    names = os.path.join(found.folder, "names")
    with open(names, "xb") as spool:
        for file in files_of(paths, lambda name, cause: found.refuse(name, 1, cause)):
            spool.write(file_record(file))
            count += 1
            bar.step()
    bar.stage("reading", count)
    lister = Lister(found)
    if "-" in paths:
        # Other processes have no standard input.
        lister([file_record(File("-", True))])
        lister(None)
    with open(names, "rb") as spool:
        batches: Iterator[List[bytes]] = iter(lambda: list(islice(spool, BATCH)), [])
        with Processes(lister, min(processors(), -(-count // BATCH))) as processes:
            for files_done in processes.each(batches):
                bar.step(files_done)


def merge(paths: List[str], found: Found, bar: Bar) -> None:
    """Takes the lines of inventories."""
    bar.stage("reading", len(paths))
    for number, path in enumerate(paths):
        copy_inventory(path, os.path.join(found.key_runs, str(number)), found)
        bar.step()


def copy_inventory(path: str, copy: str, found: Found) -> bool:
    """Copies an inventory that the library finds in order, and says whether it is read. The copy of one that isn't is empty."""
    line = 1
    try:
        with open(files.opened(path), "rb") as source, open(copy, "xb") as target:
            lines = iter(partial(source.readline, LONGEST_LINE), b"")
            target.writelines(checked(in_pieces(lines)))
        return True
    except BadLine as refusal:
        line, cause = refusal.line, BAD_LINE
    except (Refusal, Error, MemoryError) as error:
        cause = refusal_of(error).sentence
    found.refuse(path, line, cause)
    with open(copy, "wb"):
        return False


def listed(arguments: argparse.Namespace, found: Found) -> Iterator[bytes]:
    """The keys in the form that is asked for, in lines or smaller pieces."""
    if arguments.json:
        return as_json(found.keys, found.unread, places=arguments.places)
    if arguments.csv:
        return as_csv(found.keys, places=arguments.places)
    if arguments.places or (arguments.output is None and sys.stdout.isatty()):
        return as_text(found.keys, places=arguments.places)
    return lines_of(found.keys)
