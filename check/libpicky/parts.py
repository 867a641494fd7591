"""Calls of the library for C that hand out a field: what check/c_answers tries of certificates and of authorized keys.

Nothing wanted comes from the project's own programs: each text is made of fields by its format's standard, and a field has to be the
one that it was made of.
"""
import base64
import re

from libpicky.calls import Call
from lib.formats import ED25519, RSA, string, uint32
from lib.texts import KEYS, CERT_TYPES, SK_ECDSA, SK_ED25519, V01, certificate_nodes, line_text, payload_nodes, render
from lib.vectors import rows_of

CERTIFICATE = ("type", "kind", "serial", "valid_after", "valid_before", "key_id", "comment", "nonce", "subject", "issuer", "issuer_line",
               "signature_format", "signature_blob", "signature", "signed", "principals", "critical_options", "extensions", "principal",
               "critical_option_name", "critical_option_payload", "extension_name", "extension_payload", "principal_list",
               "critical_option_list", "extension_list")
AUTHORIZED = ("entries", "line_number", "state", "key_line", "key_type", "key_blob", "comment", "options", "option_name", "option_value",
              "option_has_value", "option_list", "all_entries")
LAST = 2**64 - 1


def certificate_part(name, text, word, wanted, place=0):
    number = CERTIFICATE.index(word) + 1 if word in CERTIFICATE else word
    return Call(f"{name}, {word} {place}", "certificate_part", (text, number, place), wanted)


def authorized_entry(name, text, word, wanted, place=0, option=0):
    number = AUTHORIZED.index(word) + 1 if word in AUTHORIZED else word
    return Call(f"{name}, {word} of {place}, option {option}", "authorized_entry", (text, place, number, option), wanted)


# ---- certificates (OpenSSH's PROTOCOL.certkeys)

def listed(name, text, words, items, place_of):
    """The number of a list's items, each of them by its place, none behind the last, and all of them as they stand."""
    count, item_words, all_of = words
    yield certificate_part(name, text, count, b"%d" % len(items), place_of)
    for at, item in enumerate(items):
        yield from (certificate_part(name, text, word, it, at) for word, it in zip(item_words, item))
    for place in (len(items), len(items) + 1, 2**32, LAST):
        yield from (certificate_part(name, text, word, "NoSuchPlace", place) for word in item_words)
    yield certificate_part(name, text, all_of, b"".join(string(it) for item in items for it in item), place_of)


def fields_of(name, subject, issuer, form, place, **fields):
    given = {"nonce": bytes(32), "kind": 1, "principals": (b"root", b"me"), "key_id": b"id", "critical": ((b"force-command", b"true"),),
             "extensions": ((b"permit-pty", None), (b"x@y", b"1")), "after": 0, "before": LAST, "serial": 7, "comment": b"k", **fields}
    comment = given.pop("comment")
    nodes = certificate_nodes(name, subject, issuer, form=form, **given)
    text = line_text(name + V01, nodes, comment)
    told = f"a certificate {name.decode()} by {issuer.name.decode()}, {fields}"
    words = {
        "type": name + V01, "kind": (b"user", b"host")[given["kind"] - 1], "serial": b"%d" % given["serial"],
        "valid_after": b"%d" % given["after"], "valid_before": b"%d" % given["before"], "key_id": given["key_id"], "comment": comment,
        "nonce": given["nonce"], "subject": render(subject.public), "issuer": render(issuer.public),
        "issuer_line": issuer.name + b" " + base64.b64encode(render(issuer.public)), "signature_format": form,
        "signature_blob": given["nonce"] * 2, "signature": render(nodes[-1]), "signed": render(nodes[:-1]),
    }
    for word, wanted in words.items():
        yield certificate_part(told, text, word, wanted, place)
    options, extensions = ([(it, render(payload_nodes(value))) for it, value in given[word]] for word in ("critical", "extensions"))
    yield from listed(told, text, ("principals", ["principal"], "principal_list"), [(it,) for it in given["principals"]], place)
    names = ["critical_option_name", "critical_option_payload"]
    yield from listed(told, text, ("critical_options", names, "critical_option_list"), options, place)
    names = ["extension_name", "extension_payload"]
    yield from listed(told, text, ("extensions", names, "extension_list"), extensions, place)


# The formats of the signatures of each kind of issuer.
FORMS = {RSA: (b"ssh-rsa", b"rsa-sha2-256", b"rsa-sha2-512"), SK_ECDSA: (SK_ECDSA,), SK_ED25519: (SK_ED25519,)}
ALL_OPTIONS = ((b"force-command", b"true"), (b"source-address", b"10.0.0.0/8"), (b"verify-required", None))
ALL_EXTENSIONS = tuple((b"permit-" + it, None) for it in (b"X11-forwarding", b"agent-forwarding", b"port-forwarding", b"pty", b"user-rc"))


def of_certificates():
    for name, kind in CERT_TYPES.items():
        if name != b"ssh-dss":
            for issuer in KEYS.values():
                for form in FORMS.get(issuer.name, (issuer.name,)):
                    yield from fields_of(name, KEYS[kind], issuer, form, 0)
    key = KEYS[ED25519]
    for place, fields in ((0, {"principals": ()}), (1, {"principals": (b"",)}), (2**32, {"principals": (b"a", "\u00e9".encode(), b"a")}),
                          (LAST, {"critical": ()}), (3, {"critical": ALL_OPTIONS}), (0, {"extensions": ()}),
                          (0, {"extensions": ALL_EXTENSIONS}), (0, {"kind": 2, "critical": (), "extensions": ()}), (0, {"key_id": b""}),
                          (0, {"key_id": "\u00e9\n".encode()}), (0, {"serial": 0}), (0, {"serial": LAST}), (0, {"nonce": b""}),
                          (0, {"nonce": bytes(range(256))}), (0, {"after": LAST, "before": 0}), (0, {"comment": b"two words"})):
        yield from fields_of(ED25519, key, KEYS[b"ecdsa-sha2-nistp256"], b"ecdsa-sha2-nistp256", place, **fields)
    faults = [("input.cert.Base64DecodeError", b"ssh-ed25519-cert-v01@openssh.com AAAA* k\n")]
    for row in rows_of("picky_cert_rows", "CertFault"):
        why = re.match(r"\w+", row["why"])[0]
        faults.append((f"input.cert.{why}", f"ssh-ed25519-cert-v01@openssh.com {row['body']} k\n".encode()))
    for wanted, text in faults:
        yield from (certificate_part(wanted, text, word, wanted, LAST) for word in CERTIFICATE)
    for word in (0, len(CERTIFICATE) + 1, 256, 2**32 - 1):
        yield certificate_part("bytes that aren't UTF-8", b"\xff", word, "NoSuchPart")
    for word in CERTIFICATE:
        yield certificate_part("bytes that aren't UTF-8", b"ssh-ed25519-cert-v01@openssh.com AAAA \xff\n", word, "TextNotUtf8")


# ---- authorized keys (sshd(8), "AUTHORIZED_KEYS FILE FORMAT")

def option_bytes(options):
    return b"".join(string(it) + (b"\0" if value is None else b"\1") + string(value or b"") for it, value in options)


def option_text(options):
    """The options as they stand before a key: a quote inside a value has a backslash before it."""
    return b",".join(it if value is None else it + b'="' + value.replace(b'"', b'\\"') + b'"' for it, value in options)


def entry_calls(name, text, entries):
    """Of a text whose entries have these numbers of lines, states, and of a key its options, kind, blob and comment."""
    yield authorized_entry(name, text, "entries", b"%d" % len(entries), LAST, LAST)
    whole = [uint32(number) + string(state) + b"".join(map(string, (key[2:] if key else (b"", b"")))) for number, state, key in entries]
    yield authorized_entry(name, text, "all_entries", b"".join(whole), LAST, LAST)
    for at, (number, state, key) in enumerate(entries):
        yield authorized_entry(name, text, "line_number", b"%d" % number, at, LAST)
        yield authorized_entry(name, text, "state", state, at, LAST)
        if not key:
            yield from (authorized_entry(name, text, word, "NoKey", at, LAST) for word in AUTHORIZED[3:12])
            continue
        options, kind, blob, comment = key
        line = b" ".join([kind, base64.b64encode(blob), *([comment] if comment else [])])
        words = {"key_line": line, "key_type": kind, "key_blob": blob, "comment": comment, "options": b"%d" % len(options),
                 "option_list": option_bytes(options)}
        yield from (authorized_entry(name, text, word, wanted, at, LAST) for word, wanted in words.items())
        for option, (it, value) in enumerate(options):
            for word, wanted in (("option_name", it), ("option_value", value or b""), ("option_has_value", b"01"[value is not None:][:1])):
                yield authorized_entry(name, text, word, wanted, at, option)
        for option in (len(options), 2**32, LAST):
            yield from (authorized_entry(name, text, word, "NoSuchOption", at, option) for word in AUTHORIZED[8:11])
    for place in (len(entries), 2**32, LAST):
        yield from (authorized_entry(name, text, word, "NoSuchPlace", place) for word in AUTHORIZED[1:12])


OPTIONS = ((), ((b"no-pty", None),), ((b"command", b"ls"),), ((b"command", b""),), ((b"command", b'say "a, b" # c'), (b"restrict", None)),
           ((b"cert-authority", None), (b"principals", b"root,me"), (b"from", b"10.0.0.0/8")))


def of_authorized():
    text, entries = b"# a comment\n\n", []
    for kind, key in KEYS.items():
        for options in OPTIONS:
            for comment in (b"", b"k", "two \u00e9".encode()):
                number = len(text.splitlines()) + 1
                line = line_text(kind, key.public, comment, b"")
                text += (option_text(options) + b" " if options else b"") + line + b"\n"
                entries.append((number, b"key", (options, kind, render(key.public), comment)))
                yield from entry_calls(f"{kind.decode()}, {options}", text[text.rindex(b"\n", 0, -1) + 1:], [(1, *entries[-1][1:])])
    line = line_text(ED25519, KEYS[ED25519].public, b"k", b"")
    rest = ((b"bad-options", b"cert-authority=\"x\" " + line), (b"bad-options", b"principals " + line),
            (b"bad-options", b"principals=\"a\",principals=\"b\" " + line), (b"UnknownKeyType", b"ssh-dss AAAA k"),
            (b"Base64DecodeError", b"ssh-ed25519 AAAA* k"), (b"KeyError", line_text(ED25519, [[ED25519], [bytes(31)]], b"k", b"")))
    for state, bad in rest:
        text += b"\t " + bad + b"\n#\n"
        entries.append((len(text.splitlines()) - 1, state, None))
        yield from entry_calls(f"{state.decode()}, {bad[:20]!r}", bad, [(1, state, None)])
    yield from (it for it in entry_calls("all lines", text, entries) if it.given[1] % 7 in (0, 1, 3))
    for empty in (b"", b"\n", b"# ssh-ed25519 AAAA\n"):
        yield from entry_calls(f"{empty!r}", empty, [])
    for word in (0, len(AUTHORIZED) + 1, 256, 2**32 - 1):
        yield authorized_entry("bytes that aren't UTF-8", b"\xff", word, "NoSuchPart")
    for word in AUTHORIZED:
        yield authorized_entry("bytes that aren't UTF-8", text + b"\xff", word, "TextNotUtf8")


GROUPS = (of_certificates, of_authorized)
