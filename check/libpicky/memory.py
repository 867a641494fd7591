"""Makes the library's calls from C, where it is seen what they touch: a part of check/c.

check/libpicky/calls.c makes them, with a row for each call that the headers declare. They are those of check/c_answers, with what each has to
answer, and of each function HOSTILE calls whose arguments are changed, where all that is known is that a buffer has what the answer
tells of. All of them run with the address and undefined sanitizers, which see of the library what it allocates and frees, and what
memmove, memcpy, memset and memcmp touch; and in blocks behind which no page can be accessed, and which can't be written, but the
buffer. Some run under valgrind, which sees each access: of each function a call of each answer, MORE that hand out bytes, and MORE
hostile ones.
"""
import ctypes
import itertools
import random
import re
import struct
import subprocess

from libpicky import agent as c_agent
from libpicky import calls as c_calls
from libpicky import certify as c_certify
from libpicky import inventory as c_inventory
from libpicky import ledger as c_ledger
from libpicky import parts as c_parts
from libpicky import policy as c_policy
from lib.built import TOP
from libpicky.calls import UNTOUCHED, Call, difference, header, rooms_of

SEED, HOSTILE, MORE = 20261202, 300, 20
# How much room for its answer a hostile call is tried with.
ROOMS = (0, 64, 4096)
MODULES = (c_calls, c_parts, c_certify, c_policy, c_agent, c_ledger, c_inventory)
STRICT = ("-Wall", "-Wextra", "-Wpedantic", "-Werror")
SANITIZED = ("-g", "-fsanitize=address,undefined", "-fno-sanitize-recover=all")
VALGRIND = ("valgrind", "-q", "--error-exitcode=9", "--leak-check=full", "--show-leak-kinds=all", "--errors-for-leak-kinds=all",
            "--exit-on-first-error=yes")
# What a call takes, by its kind in rows.h.
TAKEN = {"l": r"const picky_bytes \*\w+, size_t \w+", "p": r"const picky_sealing \*\w+", "b": r"picky_bytes \w+", "n": r"uint32_t \w+",
         "q": r"uint64_t \w+", "z": r"size_t \w+"}
SEALING = struct.Struct("=7I")


# ---- rows

def kinds_of(text):
    """The kinds of what each call takes before its buffer, by the prototypes of the headers' text."""
    taken = re.compile("|".join(f"(?P<{kind}>{it})" for kind, it in TAKEN.items()))
    for name, prototype in header.declared(text).items():
        given = re.fullmatch(r"picky_answer \w+\((.*), void \*out, size_t out_len\);", prototype)
        if given:
            yield name.removeprefix("picky_"), "".join(it.lastgroup for it in taken.finditer(given[1]))


def rows_h(headers, kinds):
    """rows.h: the headers, and a row for each call, with its name, the kinds, and how each thing is passed."""
    included = "".join(f"#include <{it.removeprefix('include/')}>\n" for it in headers)
    passed = {name: ", ".join(f"{kind.upper()}({at})" for at, kind in enumerate(taken)) for name, taken in kinds.items()}
    return included + "#define ROWS" + "".join(f' \\\n    ROW({it}, "{kinds[it]}", {passed[it]})' for it in kinds) + "\n"


# ---- calls as bytes

def number(it):
    return struct.pack("=Q", it)


def string(it):
    return number(len(it)) + it


def sealing(it):
    """The numbers of a picky_sealing, of a pointer to them."""
    return SEALING.unpack(ctypes.string_at(it, SEALING.size))


WRITTEN = {"b": string, "l": lambda it: number(len(it)) + b"".join(map(string, it)), "n": number, "q": number, "z": number,
           "p": lambda it: string(SEALING.pack(*sealing(it)))}


def rooms(call):
    return ROOMS if call.wanted is None else rooms_of(call)


def written(call, kinds):
    given = (WRITTEN[kind](it) for kind, it in zip(kinds[call.function], call.given))
    return b"".join([string(call.function.encode()), number(len(rooms(call))), *map(number, rooms(call)), *given])


def answered(words, folder, calls, kinds):
    """Each call, and for each room the number, the length and the buffer that a program answers; where it ends, what it says of that."""
    with open(folder / "calls", "wb") as file:
        file.writelines(written(it, kinds) for it in calls)
    with open(folder / "calls", "rb") as source, open(folder / "answers", "wb") as to:
        ended = subprocess.run([str(it) for it in words], stdin=source, stdout=to, stderr=subprocess.PIPE)
    told = f"status {ended.returncode}: {ended.stderr.decode(errors='replace')}"
    with open(folder / "answers", "rb") as file:
        for call in calls:
            said = [(struct.unpack("=2Q", head), file.read(room)) for room in rooms(call) if len(head := file.read(16)) == 16]
            if len(said) < len(rooms(call)):
                yield call, f"it ends here with {told}"
                return
            yield call, said
    if ended.returncode or ended.stderr:
        yield calls[-1], f"it ends behind all calls with {told}"


# ---- hostile calls

def mutated(rng, text):
    content = bytearray(text)
    for _ in range(rng.randrange(1, 4)):
        place = rng.randrange(len(content)) if content else 0
        how = rng.randrange(4)
        if how == 0 or not content:
            content[place:place] = bytes([rng.randrange(256)])
        elif how == 1:
            del content[place:place + rng.randrange(1, 9)]
        elif how == 2:
            content[place] ^= 1 << rng.randrange(8)
        else:
            content[place] = rng.choice(b"\n\r =:-\0AZaz09+/")
    return bytes(content)


def changed(rng, kind, it):
    if kind == "b":
        return rng.choice((mutated(rng, it), mutated(rng, it), it[:rng.randrange(len(it) + 1)], it * 2, b""))
    if kind == "l":
        items = [changed(rng, "b", one) if rng.randrange(3) == 0 else one for one in it]
        return rng.choice((items, items, items[::-1], items[:rng.randrange(len(items) + 1)], items * 2, [*items, b"\xff"]))
    if kind == "p":
        numbers = list(sealing(it))
        place = rng.randrange(len(numbers))
        numbers[place] = changed(rng, "n", numbers[place])
        return ctypes.c_char_p(SEALING.pack(*numbers))
    most = 2**32 if kind == "n" else 2**64
    return rng.choice((rng.randrange(40), it + 1, it - 1, it ^ 1 << rng.randrange(64), rng.randrange(most), most - 1)) % most


def hostile(rng, calls, kinds):
    """Calls of one function in which an argument or two are changed, or are those of another call; nothing is known of their answers."""
    for i in range(HOSTILE):
        call = rng.choice(calls)
        given = list(call.given)
        for _ in range(rng.randrange(1, 3)):
            at = rng.randrange(len(given))
            given[at] = rng.choice(calls).given[at] if rng.randrange(4) == 0 else changed(rng, kinds[at], given[at])
        yield Call(f"hostile call {i} of {call.function}, of {call.name}", call.function, tuple(given), None)


# ---- what is tried

def built(prefix, library, folder, kinds, headers):
    """The program as the compiler makes it of rows.h in that folder, without sanitizers and with them."""
    (folder / "rows.h").write_text(rows_h(headers, kinds))
    for program, flags in ((folder / "plain", ("-O2",)), (folder / "sanitized", SANITIZED)):
        words = ["cc", "-std=c11", *STRICT, *flags, "-pthread", f"-I{folder}", f"-I{prefix}/include", "-o", program, TOP / "check/libpicky/calls.c"]
        subprocess.run([str(it) for it in (*words, prefix / "lib" / library, f"-Wl,-rpath,{prefix}/lib")], check=True)
        yield program


def chosen(kinds):
    """All calls of what the headers declare, and those for valgrind."""
    rng, by_function, by_answer = random.Random(SEED), {}, {}
    for call in itertools.chain.from_iterable(group() for module in MODULES for group in module.GROUPS):
        if call.function in kinds:
            by_function.setdefault(call.function, []).append(call)
            by_answer.setdefault((call.function, call.number, isinstance(call.wanted, str) and call.wanted), []).append(call)
    bad = [list(hostile(rng, calls, kinds[name])) for name, calls in by_function.items()]
    some = [rng.sample(calls, min(len(calls), 1 if refused else MORE)) for (*_, refused), calls in by_answer.items()]
    return [list(itertools.chain(*it)) for it in ([*by_function.values(), *bad], [*some, *(calls[:MORE] for calls in bad)])]


def untidy(numbers, room, answer, buffer):
    """What is wrong with a buffer that has neither the bytes that an answer tells of and a zero, nor nothing where there are none."""
    (error, length), rest = answer, UNTOUCHED * room
    if error == numbers["BufferTooSmall"]:
        tidy = buffer == rest and length >= room
    elif length == 0 and error != numbers["Ok"] and buffer == rest:
        tidy = True
    else:
        tidy = length < room and buffer[length:] == b"\0" + rest[length + 1:]
    return "" if tidy else f"with {room} bytes of room {error} and {length} bytes, and {buffer[:200]!r} in the buffer"


def try_calls(prefix, library, folder):
    """A line for each call that is tried, which is empty where nothing is wrong."""
    headers, numbers = header.headers(prefix), {name: number for number, name in header.error_names().items()}
    kinds = dict(kinds_of("\n".join(headers.values())))
    plain, sanitized = built(prefix, library, folder, kinds, headers)
    calls, some = chosen(kinds)
    for name in set(kinds).difference(it.function for it in calls):
        yield f"no call of picky_{name} is tried"
    runs = {"with sanitizers": ([sanitized], calls), "with guards": ([plain, "-g"], calls), "under valgrind": ([*VALGRIND, plain], some)}
    for how, (words, tried) in runs.items():
        for call, said in answered(words, folder, tried, kinds):
            if isinstance(said, list):
                answers = ((len(buffer), answer, buffer) for answer, buffer in said)
                told = (untidy(numbers, *it) if call.wanted is None else difference(numbers, call, *it) for it in answers)
                said = next(filter(None, told), "")
            yield said and f"{library} {how}: {call.name}: {said}"
