"""Runs of a built program, and how they are to end: what check/statuses tries.

A case is the program's words and environment, what its streams are, and what has to come: the status, what is on standard output
and on standard error and, where that matters, how much of standard input was read.
"""
import contextlib
import os
import re
import resource
import subprocess
from typing import Callable, Dict, NamedTuple, Optional, Union

LIMIT = 16_777_216
SECONDS = 60

# Streams that are no file or pipe of ours.
FULL, CLOSED, FOLDER, UNREAD, LEFT = "/dev/full", "closed", "/", "a pipe that nobody reads", "a pipe whose reader leaves"


class End(NamedTuple):
    status: int
    # What comes on standard error.
    said: bytes


DONE = End(0, b"")


class Case(NamedTuple):
    name: str
    words: tuple
    # Bytes, or a stream.
    source: Union[bytes, str]
    # What comes on standard output: bytes, a pattern, or None where nobody can tell.
    out: object
    end: End = DONE
    env: Dict[str, object] = {}
    # Where standard output and standard error go, where it is not to us.
    to: Optional[str] = None
    err: Optional[str] = None
    # How many bytes of a file are read, where that counts.
    taken: Optional[int] = None
    # Bytes of address space, where they are few.
    memory: Optional[int] = None


def deaf(cases):
    """The same where standard error takes nothing."""
    for case in cases:
        for err in (FULL, CLOSED, UNREAD):
            yield case._replace(name=f"{case.name}, standard error {err}", err=err)


# ---- --help and --version

# Words that are near to the two, and are none of them.
NEAR = ("-h", "-?", "-help", "-version", "-V", "-v", "--h", "--hel", "--helpx", "--help=", "--HELP", "--help ", " --help", "--versions",
        "--Version", "help", "version", "--")


def printed(program, names):
    """What --help prints, which has all these names, and what --version does."""
    has = b"".join(b"(?=.*" + re.escape(name) + b")" for name in names)
    version = rb"%b [0-9]+\.[0-9]+\.[0-9]+ \(rattle-kit-[0-9]+[a-z]?\)\n" % program.encode()
    return {"--help": re.compile(has + b"usage: .*\n", re.DOTALL), "--version": re.compile(version)}


def helps(texts, source):
    """The two, which read nothing of standard input."""
    for word, text in texts.items():
        yield Case(word, (word,), source, text, taken=0)
        yield Case(f"{word} on a folder", (word,), FOLDER, text)
        yield Case(f"{word} on a closed standard input", (word,), CLOSED, text)
        for err in (FULL, CLOSED):
            yield Case(f"{word}, standard error {err}", (word,), source, text, err=err)


# ---- the environment

# The variables that some program reads: of each a value that is good, and one that isn't.
VARIABLES = {"KEYCONV_PASS_IN": ("p", b"\xff"), "KEYCONV_PASS_OUT": ("p", b"\xff"), "KEYCONV_FRESH": ("00" * 64, "0g"),
             "KEYCONV_SIGNATURE": ("00" * 64, "0g"), "KEYPOLICY_VERIFIED": ("00" * 64, "0g")}


class Row(NamedTuple):
    """A command over a source, and what it comes to in an environment: what is on standard output, and the end."""
    name: str
    words: tuple
    source: bytes
    answer: Callable


def always(name, words, source, out, end=DONE):
    """A row in which no variable changes anything."""
    return Row(name, words, source, lambda env: (out, end))


def surroundings(good):
    """Environments by their names: each variable is absent, empty, good and bad in turn, and the others are absent or good."""
    states = {name: {"absent": None, "empty": "", "good": good.get(name, one), "bad": other} for name, (one, other) in VARIABLES.items()}
    found = {}
    for others in ("absent", "good"):
        for name, values in states.items():
            for state, value in values.items():
                env = {**{it: states[it][others] for it in states}, name: value}
                env = {it: value for it, value in env.items() if value is not None}
                if env not in found.values():
                    found[f"{name} {state}, others {others}"] = env
    return found


def surrounded(rows, texts, own=(), unfit=None, good={}):
    """Each row, --help and --version in each of these environments. Where a variable of the program's own is bad, the run ends as
    unfit and reads nothing, but for the two, which read no variable. `good` has values that this program wants."""
    rows = [*rows, *(always(word, (word,), b"", text) for word, text in texts.items())]
    for row in rows:
        for name, env in surroundings(good).items():
            is_help = len(row.words) == 1 and row.words[0] in texts
            is_unfit = not is_help and any(env.get(it) == VARIABLES[it][1] for it in own)
            out, end = (b"", unfit) if is_unfit else row.answer(env)
            yield Case(f"{row.name}, {name}", row.words, row.source, out, end, env, taken=0 if is_unfit or is_help else None)


class Ran(NamedTuple):
    status: int
    out: Optional[bytes]
    err: Optional[bytes]
    taken: Optional[int]


def run(program, case, folder):
    """What a run came to."""
    closed = [number for number, stream in enumerate((case.source, case.to, case.err)) if stream == CLOSED]

    def prepare():
        for number in closed:
            os.close(number)
        if case.memory:
            resource.setrlimit(resource.RLIMIT_AS, (case.memory, case.memory))

    with contextlib.ExitStack() as ours, contextlib.ExitStack() as theirs:
        source, reader = None, None
        if isinstance(case.source, bytes):
            source = ours.enter_context(open(f"{folder}/source", "w+b", buffering=0))
            source.write(case.source)
            source.seek(0)
        streams = [source or os.open(os.devnull if case.source == CLOSED else case.source, os.O_RDONLY)]
        for number, to in ((1, case.to), (2, case.err)):
            if to in (UNREAD, LEFT):
                reader, writer = os.pipe()
                if to == UNREAD:
                    os.close(reader)
                streams.append(writer)
            else:
                path = f"{folder}/{number}" if to is None else os.devnull if to == CLOSED else to
                streams.append(os.open(path, os.O_WRONLY | os.O_CREAT | os.O_TRUNC))
        for it in streams:
            if it is not source:
                theirs.callback(os.close, it)
        how = dict(zip(("stdin", "stdout", "stderr"), streams), env=case.env, cwd=folder)
        # Without a function to call, Python doesn't copy itself first.
        child = subprocess.Popen([program, *case.words], preexec_fn=prepare if closed or case.memory else None, **how)
        theirs.close()
        if case.to == LEFT:
            os.read(reader, 100)
            os.close(reader)
        try:
            status = child.wait(SECONDS)
        except subprocess.TimeoutExpired:
            child.kill()
            status = child.wait()
        written = []
        for number, to in ((1, case.to), (2, case.err)):
            with open(os.devnull if to else f"{folder}/{number}", "rb") as it:
                written.append(None if to else it.read())
        return Ran(status, *written, source and source.tell())


def shown(content):
    if isinstance(content, re.Pattern):
        return "such a text"
    return repr(content) if len(content) < 200 else f"{content[:150]!r}.. ({len(content)} bytes)"


def complaint(case, ran):
    """How a run differs from what is wanted, and none where it doesn't."""
    told = []
    if ran.status < 0:
        told.append(f"stopped by signal {-ran.status}, not status {case.end.status}")
    elif ran.status != case.end.status:
        told.append(f"status {ran.status}, not {case.end.status}")
    if ran.out is not None and case.out is not None:
        if not (case.out.fullmatch(ran.out) if isinstance(case.out, re.Pattern) else ran.out == case.out):
            told.append(f"standard output {shown(ran.out)}, not {shown(case.out)}")
    if ran.err is not None and ran.err != case.end.said:
        told.append(f"standard error {shown(ran.err)}, not {shown(case.end.said)}")
    if case.taken is not None and ran.taken != case.taken:
        told.append(f"{ran.taken} bytes read, not {case.taken}")
    return "; ".join(told)
