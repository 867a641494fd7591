"""Calls of the library for C about requests at a ledger: what check/c_answers tries.

Nothing wanted comes from the project's own programs: what ledgers, requests and certificates say, and so what is to be signed, says
check/keyledger/reference.py, over the sources that check/ledger tries. A question is made of its fields as picky/ledger.h has them.
"""
import itertools
import random
import re
from hashlib import shake_128

from keyledger import sources as ledger_cases
from libpicky.calls import Call
from libpicky.inventory import made_once, refused
from lib.readers import refusal_name
from lib.formats import string
from lib.texts import KEYS
from keyledger.sources import CA, EMPTY, ENTRY, LAST, ONE, THREE, entry, kept, line, request
from keyledger.random_sources import random_case
from keyledger.reference import DONE, PERMITS, Outside, Refused, bytes_of, certificate_line, ledger, ledger_of, lines_of, public_line
from keyledger.reference import to_be_signed, type_of

# Of the sources that check/ledger tries, each of so many, and so many random ones; none is longer than LONGEST.
EACH, RANDOM, LONGEST = 5, 1200, 60_000
NONCE = 32
# What is asked of an issuer of each kind: the numbers of its kind and its digest (RFC 8332, section 3; RFC 5656, section 6.2.1).
ALGORITHMS = {"ssh-rsa": (1, 6), "ecdsa-sha2-nistp256": (2, 4), "ecdsa-sha2-nistp384": (2, 5), "ecdsa-sha2-nistp521": (2, 6),
              "ssh-ed25519": (3, 0)}


def ledger_calls(name, given, wanted, replies=None, number="Ok"):
    """Both calls of what is given: one of them hands out the replies where the other hands out the ledger."""
    yield Call(f"{name}, applied", "ledger_apply", given, wanted, number)
    yield Call(f"{name}, replies", "ledger_replies", given, wanted if replies is None else replies, number)


# ---- what comes of requests

def question_of(issuer, message):
    """The question for a signature by the key of a blob: a head and a text."""
    return string(bytes([6, *ALGORITHMS[type_of(issuer)]]) + string(issuer)) + string(message)


def run(kept, issuer, requests, fresh, table):
    """The text of a ledger after the requests, the replies, and the questions, each with whether the table answers it."""
    replies, questions = [], []
    for at, it in enumerate(filter(None, lines_of(requests))):
        reply = kept.answer(it, fresh[NONCE * at:NONCE * at + NONCE], issuer, b"")
        replies.append(reply)
        if reply.startswith("issued "):
            last = [*kept.entries][-1]
            added = kept.entries[last]
            question = question_of(issuer, to_be_signed(added.certificate))
            questions.append((question, question in table))
            signed = added.certificate._replace(signature=string(table.get(question, b"")))
            kept.entries[last] = added._replace(certificate=signed)
    return kept.text().encode(), "".join(it + "\n" for it in replies).encode(), questions


def table_of(answers):
    """The bytes of answers to questions."""
    return b"".join(question + string(answer) for question, answer in answers.items())


def bad_line(text):
    """The number of the first line, from 1, up to which no ledger begins so."""
    ends = [it.end() for it in re.finditer(r"[^\n]*\n|[^\n]+", text)]

    def bad(count):
        try:
            ledger_of(text[:ends[count - 1]])
        except Refused:
            return True
        return False

    low, high = 1, max(len(ends), 1)
    if not ends:
        return 1
    while low < high:
        middle = (low + high) // 2
        low, high = (low, middle) if bad(middle) else (middle + 1, high)
    return low


def outcome(text, issuer, requests, fresh, table):
    """What is handed out for bytes that are given and a table: the ledger and the replies, or twice the same, and the number's name."""
    texts = []
    for it, name in ((text, "LedgerNotUtf8"), (issuer, "IssuerNotUtf8"), (requests, "RequestsNotUtf8")):
        try:
            texts.append(it.decode())
        except UnicodeDecodeError:
            return name, None, "Ok"
    try:
        read = ledger_of(texts[0])
    except Refused:
        wanted, number = refused(bad_line(texts[0]), "BadLine")
        return wanted, None, number
    try:
        key = public_line(texts[1]).blob
    except Refused as it:
        return f"issuer.{refusal_name('public line', *it.args)}", None, "Ok"
    if len(fresh) < NONCE * len([*filter(None, lines_of(texts[2]))]):
        return "FreshTooShort", None, "Ok"
    new, replies, questions = run(read, key, texts[2], fresh, table)
    asked = b"".join(string(question) for question, answered in questions if not answered)
    return (asked, None, "Asked") if asked else (new, replies, "Ok")


def questions_in(wanted, number):
    """The questions that are handed out, in their order."""
    found, at = [], 0
    while number == "Asked" and at < len(wanted):
        end = at + 4 + int.from_bytes(wanted[at:at + 4], "big")
        found.append(wanted[at + 4:end])
        at = end
    return found


def runs_of(name, given, sign, some=None):
    """A run without answers; where it asks, one with all answers, and where `some` says, one with those of some questions alone."""
    wanted, replies, number = outcome(*given, {})
    yield from ledger_calls(name, (*given, b""), wanted, replies, number)
    questions = questions_in(wanted, number)
    if not questions:
        return
    answers = {question: sign(question) for question in questions}
    yield from ledger_calls(f"{name}, answered", (*given, table_of(answers)), *outcome(*given, answers))
    if some and len(questions) > 1:
        chosen = dict(it for it in answers.items() if some())
        yield from ledger_calls(f"{name}, some answered", (*given, table_of(chosen)), *outcome(*given, chosen))


# ---- the sources of check/ledger

def parts_of(source):
    """A source of keyledger's as a ledger, an issuer and requests; None where it has fewer lines %%."""
    parts = re.split(rb"(?:\A|(?<=\n))%%(?:\r?\n|\Z)", source, maxsplit=2)
    return parts if len(parts) == 3 else None


def source_calls(rng, case):
    """The calls of what keyledger is given in a case; with its signature for each question, that is what keyledger writes."""
    parts = parts_of(case.source)
    if case.words or case.device or not parts:
        return
    try:
        fresh, signature = bytes_of(case.fresh) or b"", bytes_of(case.signature)
    except Refused:
        return
    given = (*parts, fresh)
    if signature is None:
        yield from ledger_calls(case.name, (*given, b""), *outcome(*given, {}))
        return
    answer = ledger(case.source, case.fresh, case.signature)
    calls = list(runs_of(case.name, given, lambda _: signature, lambda: rng.random() < 0.5))
    if answer.status == DONE:
        told = [it for it in calls if it.number == "Ok"]
        both = told[0].wanted + b"%%\n" + told[1].wanted
        if both != answer.output:
            raise SystemExit(f"check/libpicky/ledger.py: {case.name}: {both!r}, and the reference {answer.output!r}")
    yield from calls


def of_sources():
    rng = random.Random(1)
    cases = (case for group in ledger_cases.GROUPS if group is not ledger_cases.large for case in group() if len(case.source) < LONGEST)
    for case in itertools.islice(cases, 0, None, EACH):
        yield from source_calls(rng, case)
    for at in range(RANDOM):
        case = random_case(0, at)
        if len(case.source) < LONGEST:
            yield from source_calls(rng, case)


# ---- reasons, tables and long runs

def signature_of(question):
    return shake_128(question).digest(64)


def fresh_of(count):
    return shake_128(b"fresh").digest(NONCE * count)


def of_issuers():
    """Of each kind of issuer and subject, each signed by its own algorithm; a security key signs nothing here."""
    for by, subject, kind in itertools.product(KEYS.values(), KEYS.values(), (b"client", b"host")):
        requests = request(b"r0", kind, key=line(subject, b"a comment")) + request(b"r1", kind, b"-", b"0", b"%d" % LAST, line(subject, b""))
        given = (EMPTY, line(by, b"ca", b"\n"), requests, fresh_of(2))
        yield from runs_of(f"{kind.decode()} {subject.name.decode()} by {by.name.decode()}", given, signature_of, lambda: False)


def of_reasons():
    """Each reason, before those that come behind it."""
    table, fresh = bytes(2), fresh_of(3)
    given = [b"\xff", b"\xff", b"\xff", b"", table]
    yield from ledger_calls("nothing is UTF-8", tuple(given), "LedgerNotUtf8")
    given[0] = b"x\n"
    yield from ledger_calls("neither issuer nor requests are UTF-8", tuple(given), "IssuerNotUtf8")
    given[1] = b"x"
    yield from ledger_calls("the requests aren't UTF-8", tuple(given), "RequestsNotUtf8")
    given[2] = THREE
    for answers, name in ((bytes(2), "EndsInEntry"), (bytes(3), "EndsInEntry"), (string(b"\6\3\0" + string(b"k")), "EndsInEntry"),
                          (b"\0\0\0\5", "LengthPastEnd"), (string(b"\x09") * 3, "NoQuestion"), (string(b"") * 3, "NoQuestion"),
                          (string(b"\6\4\0" + string(b"k")) + string(b"") * 2, "NoQuestion"),
                          (string(b"\6\3\0" + string(b"k")) + string(b"m") + string(b"s") + b"\0", "EndsInEntry")):
        yield from ledger_calls(f"{answers[:9]} for a table", (*given[:4], answers), f"answers.{name}")
    yield from ledger_calls("no ledger", (*given[:4], b""), b"1", None, "BadLine")
    given[0] = ONE + b"x\n"
    yield from ledger_calls("a bad line behind others", (*given[:4], b""), b"3", None, "BadLine")
    given[0] = ONE
    yield from ledger_calls("no issuer", (*given[:4], b""), "issuer.public.UnknownKeyType")
    given[1] = CA
    yield from ledger_calls("no fresh bytes", (*given[:4], b""), "FreshTooShort")
    for count in (95, 96, 97, 1000):
        wanted = outcome(ONE, CA, THREE, (fresh * 20)[:count], {})
        yield from ledger_calls(f"{count} fresh bytes", (ONE, CA, THREE, (fresh * 20)[:count], b""), *wanted)
    yield from ledger_calls("an empty ledger", (b"", CA, THREE, fresh, b""), b"1", None, "BadLine")
    yield from ledger_calls("no requests", (ONE, CA, b"", b"", b""), ONE, b"")
    for at in (1, 9, 10, 99, 100, 999):
        text = kept(5000, *(entry(b"r%d" % it, 2 * it + 1) for it in range(at - 1)))
        for bad in (b"x\n", b"\n", b"a", ENTRY[:-1], entry(b"r0", 4999) if at > 1 else b"%%\n"):
            yield from ledger_calls(f"{bad[:9]} in line {at + 1}", (text + bad, b"x", b"", b"", b""), b"%d" % (at + 1), None, "BadLine")


def of_tables():
    """What answers may be: in any order, with others among them, twice, and false; the first to a question counts."""
    requests = b"".join(request(b"r%d" % at, (b"host", b"client")[at % 2]) for at in range(5)) + request(b"r0", b"host") + b"bad\n"
    given = (ONE, CA, requests, fresh_of(7))
    wanted, _, number = outcome(*given, {})
    questions = questions_in(wanted, number)
    answers = {question: signature_of(question) for question in questions}
    other = string(b"\6\1\6" + string(b"k")) + string(b"m") + string(b"s")
    cipher = string(b"\3" + string(bytes(32)) + string(bytes(16))) + string(b"text") + string(b"other than the text")
    pieces = [question + string(answer) for question, answer in answers.items()]
    new, replies, number = outcome(*given, answers)
    for name, table in (("in their order", pieces), ("the last first", pieces[::-1]), ("with others among them", [other, *pieces, cipher, other]),
                        ("twice", pieces * 2), ("with a second answer", [*pieces, questions[0] + string(b"another")])):
        yield from ledger_calls(f"answers {name}", (*given, b"".join(table)), new, replies, number)
    false = {**answers, questions[0]: b""}
    for name, table in (("an empty signature", table_of(false)), ("an empty one, then another", table_of(false) + pieces[0])):
        yield from ledger_calls(name, (*given, table), *outcome(*given, false))
    for at in range(5):
        fewer = {question: answer for question, answer in answers.items() if question != questions[at]}
        yield from ledger_calls(f"no answer to question {at}", (*given, table_of(fewer)), string(questions[at]), None, "Asked")
        near = dict(fewer)
        near[questions[at][:-1] + bytes([questions[at][-1] ^ 1])] = b"s"
        yield from ledger_calls(f"an answer to another question than {at}", (*given, table_of(near)), string(questions[at]), None, "Asked")


def of_long_runs():
    """Runs that go on with the ledger of the one before: no serial twice, and each kept line is answered again."""
    ledgers, serial = {at: kept(start) for at, start in enumerate((1, 2**32 - 2, LAST - 5))}, 0
    for at, (start, text) in itertools.product(range(6), ledgers.items()):
        lines = [request(b"r%d" % it, (b"host", b"client")[it % 2], key=line(KEYS[[*KEYS][it % 7]])) for it in range(3 * at, 3 * at + 5)]
        given = (ledgers[start], CA, b"\r\n".join(lines) + b"\n\n", fresh_of(serial % 7 + len(lines))[-NONCE * len(lines):])
        serial += 1
        calls = list(runs_of(f"ledger {start}, run {at}", given, signature_of))
        yield from calls
        ledgers[start] = next(it.wanted for it in calls if it.number == "Ok" and it.function == "ledger_apply")
    requests = b"".join(request(b"r%d" % at, (b"host", b"client")[at % 2]) for at in range(200))
    yield from runs_of("200 requests", (EMPTY, CA, requests, fresh_of(200)), signature_of, lambda: True)


def of_much_memory(text):
    """Calls on a line that takes more memory than there is."""
    yield from ledger_calls("a long issuer", (EMPTY, text, b"", b"", b""), "NoMemory")


GROUPS = tuple(made_once(it) for it in (of_sources, of_issuers, of_reasons, of_tables, of_long_runs))
