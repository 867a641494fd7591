"""Calls of the library for C about inventories of texts: what check/c_answers tries.

Nothing wanted comes from the project's own programs: lines are made of fields by the formats' standards, and what texts and lines mean
says check/lib/readers.py, over the sources that check/inventory tries.
"""
import functools
import itertools
import random
import re

from libpicky.calls import ENVELOPE, KEY, SHOWS, Call, private_faults, public_faults, putty_faults
from lib.formats import ED25519
from keyinventory.random_sources import random_case
from keyinventory.reference import item_of_line, parts_of
from keyinventory.sources import ITEMS, LINE, LINE_2, comments, fields_changed, item_changes, item_line, merges, names_changed, parts
from keyinventory.sources import putty_texts, sealed, texts_changed, texts_of
from lib.random_texts import some_keys, some_sealed
from lib.readers import BEGIN, END, WHITE, Fields, Item, PpkLines, Refused, cut, public_key, read_text, unbase64, refusal_name
from lib.texts import BLANKS, KEYS, MARK, MARKS, fixed_key, line_text, render, sealed_envelope, sealed_ppk
from lib.vectors import rows_of

# Of the sources that check/inventory tries, each of so many, and so many random ones; none is longer than LONGEST.
EACH_LIST, EACH_MERGE, RANDOM, LONGEST = 10, 2, 1200, 60_000


class Untold(Exception):
    """The reference doesn't say by which name the open part of an encrypted text is refused."""


def inventory_list(name, texts, wanted, hidden=0, number="Ok"):
    return Call(f"{name}, listed with {hidden}", "inventory_list", (list(texts), hidden), wanted, number)


def inventory_merge(name, left, right, wanted, number="Ok"):
    return Call(f"{name}, merged", "inventory_merge", (left, right), wanted, number)


def inventory_check(name, piece, before, wanted, number="Ok"):
    return Call(f"{name}, checked", "inventory_check", (piece, before), wanted, number)


def refused(place, number):
    """What is handed out of a text that is refused, or of a bad line: where it stands."""
    return b"%d" % place, number


# ---- lists

def sealed_line_of(text):
    """The line of an encrypted private key: the public key that stands open in it, and the comment, where that does, too."""
    if text.startswith(BEGIN):
        fields = Fields(unbase64(re.sub(r"[ \t\r\n]", "", text[len(BEGIN):].partition(END)[0]), ""))
        fields.take(15)
        for _ in range(3):
            fields.string()
        fields.number()
        try:
            return b"sealed" + Item("", public_key(Fields(fields.string())), "").line()
        except Refused as it:
            return f"input.{refusal_name('public line', *it.args)}"
    lines = PpkLines(text)
    algorithm, _, comment = (lines.line().partition(": ")[2] for _ in range(3))
    try:
        blob = public_key(Fields(lines.block("Public-Lines")))
    except Refused:
        raise Untold
    if Fields(blob).text() != algorithm:
        raise Untold
    return b"sealed" + Item("", blob, comment).line()


def line_of(text, hidden):
    """The line of a text, none of one of white space, or the name of why it is refused."""
    try:
        text = text.decode()
    except UnicodeDecodeError:
        return "TextNotUtf8"
    if not text.strip(WHITE):
        return b""
    try:
        return read_text(text, None).line()
    except Refused as it:
        name = f"input.{refusal_name(*it.args)}"
        return sealed_line_of(text) if hidden and name in SHOWS else name


def list_of(texts, hidden):
    """What the call hands out of the texts, and the name of the number with it."""
    lines = set()
    for place, text in enumerate(texts):
        line = line_of(text, hidden)
        if isinstance(line, str):
            return refused(place, line)
        lines.add(line)
    return b"".join(sorted(lines)), "Ok"


def list_calls(name, texts):
    for hidden in (0, 1):
        try:
            wanted, number = list_of(texts, hidden)
        except Untold:
            continue
        yield inventory_list(name, texts, wanted, hidden, number)


def bytes_parts_of(source):
    """The texts of a source of keyinventory's: what stands between its lines %%."""
    try:
        return [it.encode() for it in parts_of(source.decode())]
    except UnicodeDecodeError:
        return [source]


def of_listed_sources():
    """What keyinventory has to list without a passphrase, as texts, of which some are refused, encrypted, blank or there twice."""
    groups = (fields_changed, names_changed, texts_changed, putty_texts, comments, sealed, parts, merges)
    cases = (case for group in groups for case in group() if case.words == (b"list",) and len(case.source) < LONGEST)
    for case in itertools.islice(cases, 0, None, EACH_LIST):
        yield from list_calls(case.name, bytes_parts_of(case.source))
    for at in range(RANDOM):
        case = random_case(at)
        if case.words == (b"list",) and len(case.source) < LONGEST:
            yield from list_calls(case.name, bytes_parts_of(case.source))


def of_sealed_texts():
    """An encrypted private key is refused, or listed by what it was made of: the public key, and of PuTTY's the comment."""
    plain = item_line(b"private", KEY.public, b"k")
    for kind, key in KEYS.items():
        texts = {"envelope": (sealed_envelope(key), b"", "input.private.MissingPassphrase"),
                 "another cipher": (sealed_envelope(key, b"aes192-ctr"), b"", "input.private.UnsupportedCipher"),
                 "another derivation": (sealed_envelope(key, kdf=b"scrypt"), b"", "input.private.UnsupportedKdf")}
        if key.secret:
            texts.update((f"version {it}", (sealed_ppk(it, key, b"a comment"), b"a comment", "input.putty.Encrypted")) for it in (2, 3))
        for what, (text, comment, name) in texts.items():
            line = item_line(b"sealed", key.public, comment)
            told = f"{kind.decode()}, {what}"
            for hidden in (1, 2, 256, 2**31, 2**32 - 1):
                yield inventory_list(told, [text], line, hidden)
                yield inventory_list(f"{told}, twice and with a key", [text, ENVELOPE, text], plain + line, hidden)
            yield inventory_list(told, [text], *refused(0, name)[:1], 0, name)
            yield inventory_list(f"{told}, behind a key", [ENVELOPE, b"\n", text, b"\xff"], b"2", 0, name)
            yield inventory_list(f"{told}, before bytes", [text, ENVELOPE, b"\xff"], b"2", 1, "TextNotUtf8")
            yield from list_calls(told, [text, text])
            yield inventory_merge(told, line, line, line)
            yield inventory_check(told, plain + line, b"", line)
    rng = random.Random(1)
    for at in range(300):
        texts = [some_sealed(rng, key, b"a comment") for key in some_keys(rng, 3)]
        yield from list_calls(f"random encrypted texts {at}", texts)


def of_reasons():
    """Each reason, for a text alone, behind others and before others that are refused, too."""
    faults = [(f"input.private.{name}", *it) for name, it in private_faults().items()]
    faults += [(f"input.public.{name}", it, b"") for name, it in public_faults().items()]
    faults += [(f"input.putty.{name}", *it) for name, it in putty_faults().items()]
    for row in rows_of("picky_cert_rows", "CertFault"):
        why = re.match(r"\w+", row["why"])[0]
        faults.append((f"input.cert.{why}", f"ssh-ed25519-cert-v01@openssh.com {row['body']} k\n".encode(), b""))
    faults.append(("TextNotUtf8", LINE + b"\xff", b""))
    for name, text, passphrase in faults:
        if passphrase:
            continue
        for hidden in (0, 1) if name not in SHOWS else (0,):
            yield inventory_list(name, [text], b"0", hidden, name)
            yield inventory_list(name, [LINE, b"", b" \n", text, b"\xff"], b"3", hidden, name)
            yield inventory_list(name, [LINE] * 1234 + [text, b"x"], b"1234", hidden, name)
    for name, left, right, wanted in (("left", b"\xff", b"\xff", "LeftNotUtf8"), ("right", b"x", b"\xff", "RightNotUtf8")):
        yield inventory_merge(f"the {name} one is no text", left, right, wanted)
    yield inventory_check("a piece that is no text", b"x\xff", b"\xff", "TextNotUtf8")


def of_marks_and_blanks():
    """No line %% cuts a text: it is one of it, behind whose first key nothing is read. White space gives no line."""
    line, other = (item_line(b"public", fixed.public, b"k") for fixed in (KEY, fixed_key(ED25519, b"other")))
    second = line_text(ED25519, fixed_key(ED25519, b"other").public, b"k")
    first = line_text(ED25519, KEY.public, b"k")
    for mark in MARKS:
        yield inventory_list(f"{mark} behind a key", [first + mark + second], line)
        yield inventory_list(f"{mark} and nothing", [first + mark], line)
        yield inventory_list(f"{mark} alone", [first, mark + second], *list_of([first, mark + second], 0)[:1], 0,
                             list_of([first, mark + second], 0)[1])
        yield from list_calls(f"{mark}", [mark])
        yield from list_calls(f"{mark} in an envelope", [ENVELOPE[:99] + mark + ENVELOPE[99:]])
        yield from list_calls(f"{mark} behind an envelope", [ENVELOPE + mark, second])
    for blank in BLANKS:
        yield from list_calls(f"{blank[:9]}", [blank])
        yield from list_calls(f"{blank[:9]} between", [first, blank, second])
    yield inventory_list("no texts", [], b"")
    yield inventory_list("no texts", [], b"", 1)
    yield inventory_list("ten empty texts", [b""] * 10, b"")
    for count in (1, 2, 100, 3000):
        yield inventory_list(f"{count} times two texts", [second, first] * count, b"".join(sorted((line, other))))
    every = [text for key in KEYS.values() for form, text in texts_of(key) if not form.startswith("certificate ssh-dss")]
    yield from list_calls("each form of each key", every)
    yield from list_calls("each form of each key, the last first", every[::-1])


# ---- merges

def is_line(line):
    """Whether a line without its LF is one of an inventory of texts: of kind sealed it is like that of a public key."""
    try:
        item_of_line("public" + line[6:] if line.startswith("sealed ") else line)
    except Refused:
        return False
    return True


def lines_with_ends(text):
    return re.findall(r"[^\n]*\n|[^\n]+", text)


def bad_line(text, before=""):
    """The number of the first line that is none of an inventory's, lacks its LF or isn't greater than the one before it; else 0."""
    for number, line in enumerate(lines_with_ends(text), 1):
        if not line.endswith("\n") or not is_line(line[:-1]) or before and line.encode() <= before:
            return number
        before = line.encode()
    return 0


def merge_of(left, right):
    texts = []
    for text, name in ((left, "LeftNotUtf8"), (right, "RightNotUtf8")):
        try:
            texts.append(text.decode())
        except UnicodeDecodeError:
            return name, "Ok"
    number = bad_line(texts[0]) or bad_line(texts[1]) and len(lines_with_ends(texts[0])) + bad_line(texts[1])
    if number:
        return refused(number, "BadLine")
    return b"".join(sorted(it.encode() for it in {*lines_with_ends(texts[0]), *lines_with_ends(texts[1])})), "Ok"


def with_sealed(rng, text):
    """The inventory with some of its lines as of encrypted keys, and in order again."""
    lines = [re.sub(rb"^\w+", b"sealed", it) if rng.random() < 0.4 else it for it in text.splitlines(keepends=True)]
    return b"".join(sorted(set(lines)) if rng.random() < 0.9 else lines)


@functools.cache
def merge_sources():
    """The two inventories of each source, with its name."""
    cases = (case for case in merges() if case.words == (b"merge",) and len(case.source) < LONGEST)
    cases = [*itertools.islice(cases, 0, None, EACH_MERGE), *map(random_case, range(RANDOM))]
    found = []
    for case in cases:
        if case.words != (b"merge",) or len(case.source) > LONGEST:
            continue
        try:
            left, right = (it.encode() for it in cut(case.source.decode()))
        except UnicodeDecodeError:
            left, right = case.source, b""
        found.append((case.name, left, right))
    return found


def of_merged_sources():
    rng = random.Random(2)
    for name, left, right in merge_sources():
        wanted, number = merge_of(left, right)
        yield inventory_merge(name, left, right, wanted, number)
        if rng.random() < 0.3:
            left, right = with_sealed(rng, left), with_sealed(rng, right)
            wanted, number = merge_of(left, right)
            yield inventory_merge(f"{name}, with encrypted keys", left, right, wanted, number)


# ---- pieces

def check_of(piece, before):
    try:
        text = piece.decode()
    except UnicodeDecodeError:
        return "TextNotUtf8", "Ok"
    number = bad_line(text, before)
    if number:
        return refused(number, "BadLine")
    return (lines_with_ends(text) or [before.decode(errors="surrogateescape")])[-1].encode(errors="surrogateescape"), "Ok"


def pieces_of(rng, text):
    """The text, cut behind LF at random places, also at one twice."""
    ends = [at + 1 for at, byte in enumerate(text) if byte == 10]
    places = sorted(rng.choices([0, *ends], k=rng.randrange(4)))
    return [text[at:to] for at, to in zip([0, *places], [*places, len(text)])]


def of_pieces():
    """Pieces of an inventory, each behind the last line of those before it; the first bad line of a text is bad in its piece, too."""
    rng = random.Random(3)
    for name, left, right in merge_sources():
        text = with_sealed(rng, max(left, right, key=len))
        before, pieces = b"", pieces_of(rng, text)
        for at, piece in enumerate(pieces):
            wanted, number = check_of(piece, before)
            yield inventory_check(f"{name}, piece {at} of {len(pieces)}", piece, before, wanted, number)
            if number != "Ok" or isinstance(wanted, str):
                break
            before = wanted
    line, last = ITEMS[0], ITEMS[-1]
    for what, before, number in (("itself", line, 1), ("a greater one", last, 1), ("one without LF", line[:-1], 0), ("bytes", b"\xff", 1),
                                 ("a zero", b"\0", 0), ("a letter", b"p", 0), ("its end", line + b"\0", 1)):
        wanted = (b"1", "BadLine") if number else (line, "Ok")
        yield inventory_check(f"a line behind {what}", line, before, *wanted)
    for before in (b"", line, b"\xff", b"\n", b"\0\0", b"x"):
        yield inventory_check(f"no bytes behind {before}", b"", before, before)
    for line in (ITEMS[0], ITEMS[40]):
        for what, new in item_changes(line):
            yield inventory_check(what, new, b"", *check_of(new, b""))
            yield inventory_check(f"{what}, behind a line", new, b"private A", *check_of(new, b"private A"))
    yield inventory_check("a cut inside a line", line[:-1], b"", b"1", "BadLine")
    yield inventory_check("a cut inside the second line", ITEMS[0] + ITEMS[1][:9], b"", b"2", "BadLine")


def of_much_memory(text):
    """Calls on a line that takes more memory than there is."""
    yield inventory_list("a long line", [text], "NoMemory")
    yield inventory_list("a long line", [text], "NoMemory", 1)
    line = b"public " + text.split()[1] + b" \n"
    yield inventory_merge("a long line", line, b"", "NoMemory")
    yield inventory_merge("a long line", b"", line, "NoMemory")
    yield inventory_check("a long line", line, b"", "NoMemory")


def made_once(group):
    """The group, whose calls are made for all libraries at once."""
    return functools.cache(lambda: list(group()))


GROUPS = tuple(made_once(it) for it in (of_listed_sources, of_sealed_texts, of_reasons, of_marks_and_blanks, of_merged_sources, of_pieces))
