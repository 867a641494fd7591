"""The random sources that check/inventory tries, each by its number: lists and merges of readable texts, some of them damaged."""
import random

from keyinventory.sources import Case, item_changes, item_line
from lib.random_texts import damaged_text, some, some_change, some_comment, some_keys, some_letters, some_text
from lib.texts import BLANKS, BROKEN_COMMENTS, LIMIT, MARK, MARKS

COUNTS = {0: 2, 1: 6, 2: 8, 3: 6, 4: 4, 5: 2, 8: 1}
WORDS = [(), (b"",), (b"list", b"list"), (b"LIST",), (b"merge", b"x"), (b"list\xff",), (b"lists",), (b"merge\n",), (b"--list",)]


def random_list(rng):
    keys = some_keys(rng, some(rng, COUNTS))
    damaged = rng.randrange(len(keys)) if keys and rng.random() < 0.4 else None
    texts = []
    for at, key in enumerate(keys):
        texts.append(damaged_text(rng, key) if at == damaged else some_text(rng, key, False))
        if rng.random() < 0.1:
            texts.append(rng.choice(BLANKS[:14]) if rng.random() < 0.9 else rng.choice(BLANKS))
        if rng.random() < 0.1:
            texts.append(rng.choice(texts))
    source = b""
    for at, text in enumerate(texts):
        mark = MARK if rng.random() < 0.8 else b"%%\r\n" if rng.random() < 0.9 else rng.choice(MARKS)
        if text and not text.endswith(b"\n"):
            text += b"\n"
        source += (mark if at else b"") + text
    if rng.random() < 0.2:
        source = source.rstrip(b"\r\n")
    elif rng.random() < 0.1:
        source += rng.choice((MARK, b"%%", b"%%\r\n", b"%%\r"))
    passphrase = some(rng, {None: 50, b"p": 45, b"": 3, b"\xff": 2})
    return Case("list", (b"list",), source, passphrase)


def random_merge(rng):
    keys = some_keys(rng, some(rng, {0: 1, 1: 4, 2: 5, 4: 5, 7: 4, 12: 2}))
    items = sorted({item_line(rng.choice((b"private", b"public")), key.public,
                              rng.choice(BROKEN_COMMENTS) if rng.random() < 0.1 else some_comment(rng)) for key in keys})
    sides = [rng.choice(((1, 0), (0, 1), (1, 1))) for _ in items]
    left, right = ([line for line, side in zip(items, sides) if side[at]] for at in (0, 1))
    for half in (left, right):
        if half and rng.random() < 0.2:
            at = rng.randrange(len(half))
            how = rng.random()
            if how < 0.35:
                half[at] = rng.choice([new for _, new in item_changes(half[at])])
            elif how < 0.6:
                key = rng.choice(keys)
                half[at] = item_line(rng.choice((b"private", b"public")), some_change(rng, key.public), b"k")
            elif how < 0.75:
                half[at:at + 2] = half[at:at + 2][::-1]
            elif how < 0.85:
                half[at:at + 1] = half[at:at + 1] * 2
            else:
                half[at] = some_letters(rng, half[at])
    mark = MARK if rng.random() < 0.85 else b"%%\r\n" if rng.random() < 0.6 else rng.choice(MARKS)
    source = b"".join(left) + mark + b"".join(right)
    if rng.random() < 0.1:
        source = b"".join(rng.choice((left, right, items)))
    if rng.random() < 0.03:
        source = source[:-1]
    return Case("merge", (b"merge",), source)


def random_case(number):
    """The random case of this number."""
    rng = random.Random(number)
    case = random_merge(rng) if rng.random() < 0.36 else random_list(rng)
    odd = rng.random()
    if odd < 0.01:
        case = case._replace(words=rng.choice(WORDS))
    elif odd < 0.03:
        at = rng.randrange(len(case.source) + 1)
        bad = rng.choice((b"\xff", b"\xc3", b"\xc0\x80", b"\xed\xa0\x80", b"\xf4\x90\x80\x80", b"\x80", b"\xe2\x82",
                          b"\xf0\x9f\x94"))
        case = case._replace(source=case.source[:at] + bad + case.source[at:])
    elif odd < 0.035:
        case = case._replace(device="a folder")
    elif odd < 0.045:
        case = case._replace(device="a full device")
    elif odd < 0.0455:
        case = case._replace(source=case.source + b" " * (LIMIT + 1 - len(case.source)))
    elif odd < 0.046:
        case = case._replace(source=case.source + b" " * (LIMIT - len(case.source)), device="little memory")
    return case._replace(name=f"random {number}: {case.name}")
