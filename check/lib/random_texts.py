"""Random texts of keys, some of them damaged: what the random cases of the programs' comparisons are made of."""
from lib.formats import putty_public
from lib.texts import BROKEN_COMMENTS, CERT_TYPES, CHANGES, COMMENTS, ISSUER, KEY_TYPES, SIGNATURES, TEXT_CHANGES, V01
from lib.texts import certificate_nodes, changed, envelope_nodes, envelope_text, key_of, line_changes, line_text
from lib.texts import ppk_text, render, sealed_envelope, sealed_ppk


def some(rng, weighted):
    """One of the things, by their weights."""
    return rng.choices(*zip(*weighted.items()))[0]


FORMS = {"line": 24, "certificate": 20, "envelope": 22, "putty": 12, "ppk 3": 11, "ppk 2": 8, "sealed": 8}
CHANGE_NAMES = list(CHANGES)
TEXT_CHANGE_LIST = list(TEXT_CHANGES.values())
CERT_NAMES = {kind: [name for name, other in CERT_TYPES.items() if other == kind and name != b"ssh-dss"] for kind in KEY_TYPES}


def some_comment(rng):
    kind = rng.random()
    if kind < 0.5:
        return rng.choice(COMMENTS)
    if kind < 0.9:
        return b"k%d" % rng.randrange(20)
    return "".join(rng.choices('ab \t"\\\u00a0\u2028\u00e9%:=\u200b', k=rng.randrange(12))).encode()


def some_change(rng, nodes):
    """The layout with one node of it changed."""
    path = []
    while True:
        at = rng.randrange(len(nodes)) if not path else rng.randrange(len(below))
        path.append(at)
        below = nodes[at] if len(path) == 1 else below[at]
        if isinstance(below, bytes) or not below or rng.random() < 0.4:
            return changed(nodes, path, CHANGES[rng.choice(CHANGE_NAMES)])


def some_text(rng, key, damaged):
    """The key as a text of some form; `damaged` says whether a field of it is changed."""
    form = some(rng, FORMS)
    comment = some_comment(rng)
    if not key.secret and form.startswith("ppk"):
        form = rng.choice(("envelope", "line"))
    if rng.random() < 0.02 and form in ("envelope", "putty"):
        comment = rng.choice(BROKEN_COMMENTS)
    change = (lambda nodes: some_change(rng, nodes)) if damaged else (lambda nodes: nodes)
    if form == "line":
        return line_text(key.name, change(key.public), comment)
    if form == "putty":
        return putty_public(render(change(key.public)), comment.replace(b"\\", b"\\\\").replace(b'"', b'\\"'))
    if form == "envelope":
        cipher = b"none" if rng.random() < 0.95 else b"aes256-ctr"
        nodes = envelope_nodes(key, comment, cipher, check=rng.randbytes(4))
        return envelope_text(change(nodes), rng.choice((64, 64, 70, 76)))
    if form == "certificate":
        name = rng.choice(CERT_NAMES[key.name])
        issuer = key_of(rng.choice(KEY_TYPES), rng.randbytes) if rng.random() < 0.3 else ISSUER
        nodes = certificate_nodes(name, key, issuer, rng.randbytes(32), rng.choice((1, 2)), rng.choice(SIGNATURES),
                                  [b"h%d" % at for at in range(rng.randrange(4))], comment,
                                  rng.choice(((), ((b"verify-required", None),))),
                                  rng.choice(((), ((b"permit-pty", None),), ((b"x@y", b"1"), (b"", None)))))
        return line_text(name + V01, change(nodes), comment)
    if form == "sealed":
        return some_sealed(rng, key, comment)
    version = int(form[-1])
    if damaged and rng.random() < 0.3:
        return ppk_text(version, key, comment).replace(b"Comment: ", b"Comment: x", 1)
    if damaged and rng.random() < 0.5:
        return ppk_text(version, key, comment, public=change(key.public))
    return ppk_text(version, key, comment, private=change(key.secret))


def some_sealed(rng, key, comment):
    if not key.secret or rng.random() < 0.5:
        cipher = rng.choice((b"aes128-cbc", b"aes256-cbc", b"aes128-ctr", b"aes256-ctr", b"aes256-ctr", b"aes256-gcm@openssh.com"))
        return sealed_envelope(key, cipher, rng.choice((b"bcrypt",) * 8 + (b"scrypt",)), bytes(rng.choice((16, 16, 16, 1, 0))),
                               rng.choice((16, 16, 16, 1, 0)), rng.choice((160, 160, 160, 152)))
    version = rng.choice((2, 3))
    more = {}
    if rng.random() < 0.3:
        more = {rng.choice(("Argon2_Memory", "Argon2_Passes", "Argon2_Parallelism")): b"%d" % rng.choice((0, 1, 8, 1024, 1025,
                                                                                                          2**32 - 1))}
    return sealed_ppk(version, key, comment, rng.choice((16, 32, 48, 48, 48, 47)), **more)


def some_letters(rng, text):
    """The text with a few bytes of it changed, dropped or put in."""
    for _ in range(rng.choice((1, 1, 2, 3))):
        at = rng.randrange(len(text) + 1)
        letters = rng.choice((b"A", b"/", b"=", b" ", b"\n", b"\r", b"\t", b"%", b'"', b"\\", b"0", b":", b"%%\n", b"\xc2\xa0", b"",
                              b"", b"\0"))
        text = text[:at] + letters + text[at + rng.choice((0, 1, 1, 2)):]
    return text


def some_lines(rng, text):
    """The text with a line dropped, doubled or moved."""
    all_lines = text.splitlines(keepends=True)
    if not all_lines:
        return b"\n"
    at = rng.randrange(len(all_lines))
    how = rng.randrange(5)
    if how == 4:
        body = all_lines[at].rstrip(b"\r\n")
        changes = [new for _, new in line_changes(body, all_lines[at][len(body):])]
        all_lines[at] = rng.choice(changes)
    elif how == 3:
        all_lines[at:at + 2] = all_lines[at:at + 2][::-1]
    else:
        all_lines[at:at + 1] = all_lines[at:at + 1] * how + ([b"\n"] if how == 2 and rng.random() < 0.3 else [])
    return b"".join(all_lines)


def damaged_text(rng, key):
    how = rng.random()
    if how < 0.5:
        return some_text(rng, key, True)
    text = some_text(rng, key, False)
    if how < 0.65:
        return rng.choice(TEXT_CHANGE_LIST)(text)
    return some_letters(rng, text) if how < 0.85 else some_lines(rng, text)


def some_keys(rng, count):
    """So many keys, some of them again and again."""
    keys = []
    for _ in range(count):
        if keys and rng.random() < 0.3:
            keys.append(rng.choice(keys))
        else:
            keys.append(key_of(rng.choice(KEY_TYPES), rng.randbytes))
    return keys
