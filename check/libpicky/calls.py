"""Calls of the library for C, and what each has to answer: what check/c_answers tries, and shares with check/c.

Nothing wanted comes from the project's own programs. Texts and digests are those that ssh-keygen and PuTTYgen wrote, or they are
made by the formats' standards; which text is refused, and why, says picky.h.
"""
import base64
import ctypes
import hashlib
import importlib.util
import itertools
import os
import re
import shutil
import struct
import subprocess
from importlib.machinery import SourceFileLoader
from pathlib import Path
from typing import NamedTuple, Union

from lib.built import TOP
from lib.formats import ED25519, RSA, armoured, envelope, putty_public, string, uint32
from keyinventory.sources import texts_of
from lib.texts import KEYS, envelope_nodes, envelope_text, line_text, ppk_text, render, sealed_envelope, sealed_ppk
from keyconv.cases import LINE, all_cases
from lib.vectors import ppk_text as ppk_text_of_row, rows_of

header = SourceFileLoader("header", str(Path(__file__).resolve().parents[1] / "header")).load_module()

TARGETS = {"openssh": 1, "ppk2": 2, "ppk3": 3, "ssh-pub": 4, "putty-pub": 5, "ppk2-for-putty": 6, "ppk3-for-putty": 7}
PARTS = {"type": 1, "blob": 2, "comment": 3}
SHOWN = {**PARTS, "line": 4, "fingerprint": 5, "bits": 6, "encrypted": 7, "cipher": 8, "derivation": 9, "rounds": 10, "memory": 11,
         "passes": 12, "lanes": 13, "salt_len": 14}
FILE_TARGETS = ("ppk2", "ppk3", "ppk2-for-putty", "ppk3-for-putty")
PRIVATE_TARGETS, PUTTY_TARGETS = ("openssh", *FILE_TARGETS), (*FILE_TARGETS, "putty-pub")
UNTOUCHED = b"\xa5"
# What the calls are given that examples/python doesn't declare: bytes, a list of them, a number, one of 64 bits, a size, a pointer.
TYPES = {"convert_by": "bnbbbb", "seal_by": "bpbbbb", "certificate_part": "bnz", "authorized_entry": "bznz", "certificate_draft": "lbbb",
         "certify_by": "lbbbb", "decide_by": "bbbqb", "agent_question": "bb", "agent_reply": "bbb", "agent_next": "bb",
         "agent_public_add": "b", "agent_secret": "bn", "ledger_apply": "bbbbb", "ledger_replies": "bbbbb", "inventory_list": "ln",
         "inventory_merge": "bb", "inventory_check": "bb"}
# What a library takes of the C library at most, as picky.h says.
TAKEN = {"malloc", "realloc", "free", "memmove", "memcpy", "memset", "memcmp"}


class Call(NamedTuple):
    name: str
    # The function without its prefix, and what it is given before the buffer.
    function: str
    given: tuple
    # The bytes that are handed out, or the name of the reason why there are none.
    wanted: Union[bytes, str]
    # The name of the number that comes with these bytes.
    number: str = "Ok"


def convert(name, target, text, wanted, pass_in=b"", pass_out=b"", fresh=b""):
    number = TARGETS.get(target, target)
    return Call(f"{name}, to {target}", "convert", (text, number, pass_in, pass_out, fresh), wanted)


def part(name, text, word, wanted):
    return Call(f"{name}, {word}", "read_public", (text, PARTS.get(word, word)), wanted)


def fingerprint(name, text, wanted):
    return Call(f"{name}, fingerprint", "fingerprint", (text,), wanted)


def shown(name, text, word, wanted):
    return Call(f"{name}, shows {word}", "shown_public", (text, SHOWN.get(word, word)), wanted)


def with_comment(name, text, comment, wanted):
    return Call(f"{name}, with the comment {comment!r}", "with_comment", (text, comment), wanted)


def convert_by(name, target, text, answers, wanted, pass_in=b"", pass_out=b"", fresh=b""):
    number = TARGETS.get(target, target)
    asked = "Asked" if isinstance(wanted, bytes) else "Ok"
    return Call(f"{name}, to {target}", "convert_by", (text, number, pass_in, pass_out, fresh, answers), wanted, asked)


def seal_by(name, numbers, text, wanted):
    return Call(f"{name}, sealed by {numbers}", "seal_by", (text, ctypes.c_char_p(struct.pack("=7I", *numbers)), b"", b"", b"", b""), wanted)


# ---- the library, by examples/python

def module(folder):
    """examples/python/picky.py as a module, from a folder where libpicky.so.0 stands beside it."""
    spec = importlib.util.spec_from_file_location("picky", folder / "picky.py")
    picky = importlib.util.module_from_spec(spec)
    spec.loader.exec_module(picky)
    return picky


def loaded(library, folder):
    """The same in that folder, over a shared library, or over what ld makes of an archive: no compiler is needed."""
    made = folder / "libpicky.so.0"
    if library.suffix == ".a":
        subprocess.run(["ld", "-shared", "-o", made, "--whole-archive", library, "--no-whole-archive"], check=True)
    else:
        shutil.copy(library, made)
    shutil.copy(TOP / "examples/python/picky.py", folder)
    return module(folder)


def said_by(*words):
    return subprocess.run(words, check=True, capture_output=True, text=True).stdout


def wrong_symbols(library, text):
    """What is wrong with the names of a library: it shows those of the header's text alone, and takes few of the C library's."""
    shared = library.suffix != ".a"
    rows = [it.split()[-2:] for it in said_by("nm", *["-D"] * shared, library).splitlines() if " " in it]
    shows = {name for kind, name in rows if kind.isupper() and kind != "U"}
    takes = {name.partition("@")[0] for kind, name in rows if kind in "Uvw"}
    if shows != set(header.declared(text)):
        yield f"it shows {sorted(shows)}, and the header declares {sorted(header.declared(text))}"
    if not takes <= TAKEN:
        yield f"it takes {sorted(takes - TAKEN)} of the C library, too"
    if shared:
        told = said_by("readelf", "-dW", library)
        names = re.findall(r"\((NEEDED|SONAME)\).*\[(.*)\]", told)
        if names != [("NEEDED", "libc.so.6"), ("SONAME", library.name)] or "TEXTREL" in told:
            yield f"it says of itself {told}"


def passed(picky, given):
    """What a call takes for what it is given: a list is an array and its length."""
    if isinstance(given, bytes):
        return [picky.Bytes(given)]
    if isinstance(given, list):
        return [(picky.Bytes * len(given))(*map(picky.Bytes, given)), len(given)]
    return [given]


def complaint(picky, numbers, call):
    """What is wrong with a call's answers, over buffers that are too short and that have room; none where nothing is."""
    function = getattr(picky.library, f"picky_{call.function}")
    if call.function in TYPES:
        kinds = {"b": [picky.Bytes], "l": [ctypes.POINTER(picky.Bytes), ctypes.c_size_t], "n": [ctypes.c_uint32], "q": [ctypes.c_uint64],
                 "z": [ctypes.c_size_t], "p": [ctypes.c_char_p]}
        taken = [kind for it in TYPES[call.function] for kind in kinds[it]]
        function.argtypes, function.restype = [*taken, ctypes.c_char_p, ctypes.c_size_t], picky.Answer
    given = list(itertools.chain.from_iterable(passed(picky, it) for it in call.given))
    for room in rooms_of(call):
        buffer = ctypes.create_string_buffer(UNTOUCHED * (room + 8), room + 8)
        answer = function(*given, ctypes.cast(buffer, ctypes.c_char_p), room)
        told = difference(numbers, call, room, (answer.error, answer.len), buffer.raw)
        if told:
            return told
    return ""


def rooms_of(call):
    """How much room for its answer a call is tried with."""
    return (0, 64) if isinstance(call.wanted, str) else (0, 1, *(len(call.wanted) + it for it in (0, 1, 64)))


def difference(numbers, call, room, answer, buffer):
    """What is wrong with the number and the length that a call answers, and with the buffer; none where nothing is."""
    if isinstance(call.wanted, str):
        wanted, written = (numbers[call.wanted], 0), b""
    elif room <= len(call.wanted):
        wanted, written = (numbers["BufferTooSmall"], len(call.wanted)), b""
    else:
        wanted, written = (numbers[call.number], len(call.wanted)), call.wanted + b"\0"
    if answer != wanted:
        (name, length), (wanted_name, wanted_length) = ((header.error_names().get(it, it), length) for it, length in (answer, wanted))
        return f"with {room} bytes of room {name} and {length} bytes, not {wanted_name} and {wanted_length}"
    if buffer != written.ljust(len(buffer), UNTOUCHED):
        return f"with {room} bytes of room {buffer[:200]!r} in the buffer, not {written[:200]!r}"
    return ""


def wrong_numbers(picky, text):
    """A line for each number of which the header's text, the library and examples/python say different things."""
    declared = [list(map(int, it.values())) for it in header.numbers(text)[:3]]
    for theirs, ours, numbers in zip((picky.TARGETS, picky.PARTS, picky.SHOWN), (TARGETS, PARTS, SHOWN), declared):
        if theirs != ours or list(ours.values()) != numbers:
            yield f"examples/python has {theirs}, check/libpicky/calls.py {ours}, and the header {numbers}"
    names = header.error_names()
    for number in [*range(2000), 65536, 2**31, 2**32 - 1]:
        if picky.error_name(number) != names.get(number, ""):
            yield f"{number} is {names.get(number, '')!r}, and the library says {picky.error_name(number)!r}"


def wrong_version(picky, text):
    """A line where the library has another version than the header's text."""
    version = re.search(r'^#define PICKY_VERSION "(.*)"$', text, re.M)[1]
    if picky.version() != version:
        yield f"the library has the version {picky.version()}, and the header {version}"


# ---- what other programs wrote

def print_of(blob):
    return b"SHA256:" + base64.b64encode(hashlib.sha256(blob).digest()).rstrip(b"=")


def bits_of(blob):
    """How many bits a key has (RFC 4253, section 6.6; RFC 5656): of RSA those of n, and else those of the curve."""
    kind, rest = string_at(blob, 0)
    if kind == RSA:
        _, rest = string_at(blob, rest)
        return int.from_bytes(string_at(blob, rest)[0], "big").bit_length()
    return {b"ecdsa-sha2-nistp384": 384, b"ecdsa-sha2-nistp521": 521}.get(kind, 256)


def shown_calls(name, text, line, *sealed):
    """What a text shows whose public part has this line; the words of what it is encrypted by come behind, where it is."""
    kind, body, comment = (line.split(b" ", 2) + [b""])[:3]
    blob = base64.b64decode(body)
    line = b" ".join((kind, body, comment)) + b"\r\n"
    key = (kind, blob, comment, line, print_of(blob), b"%d" % bits_of(blob), b"1" if sealed else b"0")
    words = (*key, *(sealed or (b"none", b"none")))
    yield from (shown(name, text, word, wanted) for word, wanted in itertools.zip_longest(SHOWN, words, fillvalue=b""))


def read_calls(name, text, line):
    """What doesn't depend on the secret, of a text that means the key and the comment of a line."""
    kind, body, comment = (line.split(b" ", 2) + [b""])[:3]
    blob = base64.b64decode(body)
    yield fingerprint(name, text, print_of(blob))
    yield from (part(name, text, word, wanted) for word, wanted in zip(PARTS, (kind, blob, comment)))
    yield convert(name, "ssh-pub", text, b" ".join((kind, body, comment)) + b"\r\n")
    yield from shown_calls(name, text, line)
    if kind.startswith(b"sk-"):
        yield convert(name, "putty-pub", text, "output.putty.NotSupported")


def as_written_here(text, comment):
    """A private key of ssh-keygen with check numbers of 0, the padding of this project and rows of 64."""
    content = base64.b64decode(b"".join(text.split(b"\n")[1:-2]))
    at = content.index(b"none") + 4 + 4 + 4 + 4 + 4
    blob, rest = string_at(content, at)
    block, _ = string_at(content, rest)
    return armoured(envelope(blob, block[8:block.rindex(string(comment))], comment))


def string_at(content, at):
    end = at + 4 + int.from_bytes(content[at:at + 4], "big")
    return content[at + 4:end], end


def of_other_programs():
    for row in rows_of("picky_key_rows", "KeyRow"):
        name, line, putty = row["name"], row["line"].encode(), row.get("putty", "").encode()
        yield fingerprint(name, line, b"SHA256:" + row["sha256"].encode())
        yield from read_calls(name, line, line)
        yield from (convert(name, target, line, "NoPrivateKey") for target in PRIVATE_TARGETS)
        if putty:
            yield convert(name, "putty-pub", line, putty)
            yield from read_calls(f"PuTTY's text of {name}", putty, line)
    files = {row["name"]: row for row in rows_of("picky_key_rows", "PpkRow")}
    for row in rows_of("picky_key_rows", "PrivateRow"):
        name, text, line = row["name"], row["text"].encode(), row["line"].encode()
        kept = as_written_here(text, row["comment"].encode())
        texts = {f"ssh-keygen's {name}": text}
        if name in files:
            ppk = {version: ppk_text_of_row(files[name], version).encode() for version in (2, 3)}
            texts.update({f"PuTTYgen's {name} of version {version}": it for version, it in ppk.items()})
        for which, it in texts.items():
            yield from read_calls(which, it, line)
            yield convert(which, "openssh", it, kept)
            for target in FILE_TARGETS:
                yield convert(which, target, it, ppk[int(target[3])] if name in files else "output.putty.NotSupported")
    for row in rows_of("picky_cert_rows", "CertRow"):
        line = f"{row['public_key']} {row['comment']}".encode()
        yield from read_calls(f"the certificate of {row['name']}", row["line"].encode(), line)
        yield convert(f"the certificate of {row['name']}", "openssh", row["line"].encode(), "NoPrivateKey")


# ---- what the formats' standards say

def file_of(target, key, comment):
    """The file for a target: the octets of an Ed25519 secret are a string in PuTTY's own layout (PuTTY's manual, Appendix C)."""
    own = target.endswith("-for-putty") and key.name == ED25519
    return ppk_text(int(target[3]), key, comment, private=[[key.private[2][0]]] if own else None)


def of_the_formats():
    """Each form of each kind of key as each target, under comments of no, one and two bytes."""
    for kind, key in KEYS.items():
        for comment in (b"", b"k", "\u00e9".encode()):
            texts = dict(texts_of(key, comment))
            private = {"openssh": texts["envelope"]}
            private.update((target, file_of(target, key, comment) if key.secret else None) for target in FILE_TARGETS)
            for form, text in texts.items():
                name = f"{kind.decode()}, {form}, comment {comment!r}"
                yield from read_calls(name, text, line_text(kind, key.public, comment, b""))
                for target, wanted in private.items():
                    if form != "envelope" and not form.startswith("PPK"):
                        wanted = "NoPrivateKey"
                    yield convert(name, target, text, wanted or "output.putty.NotSupported")
                if key.secret:
                    yield convert(name, "putty-pub", text, texts["PuTTY public"])


# ---- what keyconv's cases say

def conversions():
    """The cases of keyconv's that are conversions of bytes and fingerprints, under passphrases that are text and not empty."""
    for case in all_cases():
        env = {name: value for name, value in case.env.items() if name.startswith("KEYCONV_")}
        plain = isinstance(case.source, bytes) and not any((case.to, case.err, case.memory)) and case.end.status not in (2, 7)
        # The library's fingerprint takes no passphrase.
        known = case.words in [(it,) for it in TARGETS] or case.words == ("fingerprint",) and "KEYCONV_PASS_IN" not in env
        if plain and known and "" not in env.values():
            yield case._replace(env=env)


def reason_of(case):
    """The name of the reason for which a case of keyconv's writes nothing."""
    word = case.end.said.decode().removeprefix("keyconv: ").rstrip("\n")
    return {"outside fault": "NoCipher", "input not UTF-8": "TextNotUtf8"}.get(word, word.removeprefix("refused: "))


def of_keyconv():
    for case in conversions():
        name, word = f"keyconv's case {case.name}", case.words[0]
        if word == "fingerprint":
            yield fingerprint(name, case.source, reason_of(case) if case.end.status else case.out.splitlines()[2])
            continue
        given = [os.fsencode(case.env.get(it, "")) for it in ("KEYCONV_PASS_IN", "KEYCONV_PASS_OUT")]
        fresh = bytes.fromhex(case.env.get("KEYCONV_FRESH", ""))
        yield convert(name, word, case.source, reason_of(case) if case.end.status else case.out, *given, fresh)


# ---- reasons

KEY = KEYS[ED25519]
ENVELOPE = envelope_text(envelope_nodes(KEY, b"k"))


def private_faults():
    """What is no OpenSSH private key, by the reason's name, and the passphrase that it is read under."""
    nodes = envelope_nodes(KEY, b"k")
    short_public = KEY._replace(private=[[ED25519], [bytes(31)], [bytes(64)]])
    short_secret = KEY._replace(private=[*KEY.public, [bytes(63)]])
    return {
        "FromUtf8Error": (envelope_text(envelope_nodes(KEY, b"\xff")), b""),
        "IoError": (armoured(b"openssh-key-v1\0"), b""),
        "UnsupportedKeyType": (envelope_text(envelope_nodes(KEY._replace(private=[[b"ssh-dss"]]), b"k")), b""),
        "UnsupportedCipher": (sealed_envelope(KEY, b"aes192-ctr"), b""),
        "UnsupportedKdf": (sealed_envelope(KEY, kdf=b"scrypt"), b""),
        "InvalidAuthMagicHeader": (armoured(b"openssh-key-v2\0"), b""),
        "InvalidKeysAmount": (envelope_text([*nodes[:5], uint32(2), *nodes[6:]]), b""),
        "InvalidCheckNumbers": (envelope_text([*nodes[:7], [b"\0\0\0\1", *nodes[7][1:]]]), b""),
        "InvalidKeyFormat": (envelope_text(envelope_nodes(short_secret, b"k")), b""),
        "DecryptionError": (sealed_envelope(KEY, b"aes256-cbc", size=15), b"p"),
        "HashingError": (sealed_envelope(KEY, rounds=0), b"p"),
        "MissingPassphrase": (sealed_envelope(KEY), b""),
        "KeyError": (envelope_text(envelope_nodes(short_public, b"k")), b""),
        "PemError": (ENVELOPE[:-20], b""),
        "PublicKeyMismatch": (envelope_text([*nodes[:6], KEYS[RSA].public, nodes[7]]), b""),
    }


def public_faults():
    return {
        "IoError": line_text(ED25519, [[ED25519]], b"k"),
        "InvalidUtf8": line_text(ED25519, [[b"\xff"], [bytes(32)]], b"k"),
        "Base64DecodeError": b"ssh-ed25519 AAAA* k\n",
        "UnknownKeyType": b"ssh-dss AAAA k\n",
        "KeyError": line_text(ED25519, [[ED25519], [bytes(31)]], b"k"),
    }


def putty_faults():
    """What is neither PuTTY's private nor its public key, by the reason's name, and the passphrase that it is read under."""
    plain = ppk_text(3, KEY, b"k")
    public = putty_public(render(KEY.public), b"k")
    return {
        "EndOfInput": (b"PuTTY-User-Key-File-3: ssh-ed25519\n", b""),
        "InvalidInput": (b"PuTTY-User-Key-File-1: ssh-ed25519\n", b""),
        "InvalidKeyValueFormat": (plain.replace(b"Comment: ", b"Comment:"), b""),
        "Aes": (sealed_ppk(2, KEY, b"k", 17), b"p"),
        "Argon2": (sealed_ppk(3, KEY, b"k", Argon2_Memory=b"7"), b"p"),
        "MacValidation": (plain.replace(b"Comment: k", b"Comment: l"), b""),
        "PublicAndPrivateKeyMismatch": (ppk_text(3, KEY, b"k", name=RSA), b""),
        "InvalidPrivateKeyData": (ppk_text(3, KEY, b"k", private=[[b"\1" * 33]]), b""),
        "InvalidPublicKeyData": (public.replace(b"AAAA", b"AAA*", 1), b""),
        "InvalidPublicKeyContainer": (b"---- BEGIN SSH1 PUBLIC KEY ----\r\n", b""),
        "InvalidPublicKeyComment": (public.replace(b"Comment: ", b"Subject: "), b""),
        "Encrypted": (sealed_ppk(3, KEY, b"k"), b""),
        "NotSupported": (ppk_text(3, KEY, b"k", name=b"ssh-dss"), b""),
        "SshPublicKey": (ppk_text(3, KEY, b"k", public=[[b"ssh-dss"]]), b""),
        "IoError": (ppk_text(3, KEY, b"k", private=[b"\0\0\0\5"]), b""),
    }


# What is refused for these reasons shows what stands open in it all the same.
SHOWS = {"input.private.MissingPassphrase", "input.private.UnsupportedCipher", "input.private.UnsupportedKdf", "input.putty.Encrypted"}


def of_texts_that_mean_no_key():
    faults = [(f"input.private.{name}", *it) for name, it in private_faults().items()]
    faults += [(f"input.public.{name}", it, b"") for name, it in public_faults().items()]
    faults += [(f"input.putty.{name}", *it) for name, it in putty_faults().items()]
    faults.append(("input.cert.Base64DecodeError", b"ssh-ed25519-cert-v01@openssh.com AAAA* k\n", b""))
    for row in rows_of("picky_cert_rows", "CertFault"):
        why = re.match(r"\w+", row["why"])[0]
        faults.append((f"input.cert.{why}", f"ssh-ed25519-cert-v01@openssh.com {row['body']} k\n".encode(), b""))
    for wanted, text, passphrase in faults:
        yield from (convert(wanted, target, text, wanted, passphrase) for target in TARGETS)
        if not passphrase:
            yield fingerprint(wanted, text, wanted)
            yield from (part(wanted, text, word, wanted) for word in PARTS)
            yield with_comment(wanted, text, b"l", wanted)
        if not passphrase and wanted not in SHOWS:
            yield from (shown(wanted, text, word, wanted) for word in SHOWN)


def of_what_encrypted_texts_show():
    """Each word that stands open in an encrypted text, and the public key in front of it."""
    for kind, key in KEYS.items():
        line = line_text(kind, key.public, b"", b"")
        for cipher in (b"aes128-cbc", b"aes192-ctr", b"aes256-gcm@openssh.com", b"none", b"", "\u00e9".encode()):
            for derivation, rounds, wanted in ((b"bcrypt", 24, b"24"), (b"bcrypt", 0, b"0"), (b"bcrypt", 2**32 - 1, b"4294967295"), (b"scrypt", 16, b"")):
                text = sealed_envelope(key, cipher, derivation, rounds=rounds)
                yield from shown_calls(f"{kind}, {cipher}, {derivation}, {rounds} rounds", text, line, cipher, derivation, wanted)
        yield shown(f"{kind}, a public key that is none", sealed_envelope(key._replace(public=[[b"ssh-dss"]])), "type", "input.public.UnknownKeyType")
        if not key.secret:
            continue
        line = line_text(kind, key.public, b"a comment", b"")
        yield from shown_calls(f"{kind}, version 2", sealed_ppk(2, key, b"a comment"), line, b"aes256-cbc", b"SHA-1")
        for name, *numbers in ((b"Argon2d", 8, 1, 1, 0), (b"Argon2i", 4294967295, 4294967295, 4294967295, 1), (b"Argon2id", 8192, 34, 1, 16)):
            told = [b"%d" % it for it in numbers]
            text = sealed_ppk(3, key, b"a comment", Key_Derivation=name, Argon2_Memory=told[0], Argon2_Passes=told[1],
                              Argon2_Parallelism=told[2], Argon2_Salt=b"00" * numbers[3])
            yield from shown_calls(f"{kind}, version 3, {name}", text, line, b"aes256-cbc", name, b"", *told)


def of_comments():
    """Each form of each kind of key with another comment: the very text that the standards have for the key and that comment."""
    for kind, key in KEYS.items():
        old, new = dict(texts_of(key, b"k")), dict(texts_of(key, "a longer \u00e9".encode()))
        for form, text in old.items():
            name = f"{kind.decode()}, {form}"
            wanted = "CommentNotCarried" if form.startswith("certificate") else new[form]
            if form == "line":
                wanted = wanted[:-1] + b"\r\n"
            yield with_comment(name, text, "a longer \u00e9".encode(), wanted)
            yield with_comment(name, text, b"\xff", "CommentNotUtf8")
            yield with_comment(f"{name}, not UTF-8", text + b"\xff", b"\xff", "TextNotUtf8")
            # Which form holds which comment: an end of a line, white space at the end, CR at the end.
            for comment, holds in ((b"a\nb", ("envelope",)), (b"a\rb", ("envelope", "PPK 2", "PPK 3", "PuTTY public")), (b"a ", ("PPK 2", "PPK 3", "PuTTY public")),
                                   (b"a\r", ("PPK 2", "PuTTY public"))):
                wanted = dict(texts_of(key, comment))[form] if form in holds else "CommentNotCarried"
                yield with_comment(name, text, comment, wanted)
        checked = [envelope_text(envelope_nodes(key, it, check=b"\1\2\3\4")) for it in (b"k", b"")]
        yield with_comment(f"{kind.decode()}, a check number", checked[0], b"", checked[1])
        yield with_comment(f"{kind.decode()}, encrypted", sealed_envelope(key), b"l", "input.private.MissingPassphrase")
        for version in (2, 3):
            if key.secret:
                yield with_comment(f"{kind.decode()}, encrypted", sealed_ppk(version, key, b"k"), b"l", "input.putty.Encrypted")


def of_passphrases():
    """Which of the three byte strings behind the target is which, and that a passphrase of no bytes is none."""
    ppk = ppk_text(3, KEY, b"k")
    for name, text in (("envelope", sealed_envelope(KEY)), ("file of version 2", sealed_ppk(2, KEY, b"k")),
                       ("file of version 3", sealed_ppk(3, KEY, b"k"))):
        missing = "input.private.MissingPassphrase" if name == "envelope" else "input.putty.Encrypted"
        yield convert(f"encrypted {name}", "openssh", text, "NoCipher", pass_in=b"p")
        yield convert(f"encrypted {name}, the other passphrase", "openssh", text, missing, pass_out=b"p", fresh=bytes(99))
    padding, own = -len(render(KEY.secret)) % 16, -len(string(KEY.private[2][0])) % 16
    for target, count in (("openssh", 16), ("ppk2", padding), ("ppk3", 16 + padding), ("ppk2-for-putty", own),
                          ("ppk3-for-putty", 16 + own)):
        yield convert("a key, with fresh bytes", target, ENVELOPE, "NoCipher", pass_out=b"p", fresh=bytes(count))
        yield convert("a key, a fresh byte less", target, ENVELOPE, "FreshTooShort", pass_out=b"p", fresh=bytes(count - 1))
        wanted = ENVELOPE if target == "openssh" else file_of(target, KEY, b"k")
        yield convert("a key that isn't encrypted", target, ENVELOPE, wanted, pass_in=b"p", fresh=b"p")
        yield convert("a file that isn't encrypted", target, ppk, wanted, pass_in=b"p", fresh=b"p")
    for given in ({"pass_in": b"\xff"}, {"pass_out": b"\xff"}):
        yield convert(f"a line under {given}", "ssh-pub", LINE, "PassNotUtf8", **given)
    yield convert("a line with fresh bytes that aren't UTF-8", "ssh-pub", LINE, LINE[:-1] + b"\r\n", fresh=b"\xff")


def of_answers():
    """Calls by answers: the question for a file of version 2, whose key PuTTY derives by SHA-1, and answers that are none to it."""
    text = sealed_ppk(2, KEY, b"k")
    lines = text.splitlines()
    at = next(i for i, line in enumerate(lines) if line.startswith(b"Private-Lines: "))
    private = base64.b64decode(b"".join(lines[at + 1:at + 1 + int(lines[at].split()[1])]))
    key = b"".join(hashlib.sha1(uint32(i) + b"p").digest() for i in range(2))[:32]
    question = string(b"\4" + string(key) + string(bytes(16))) + string(private)
    other = string(b"\4" + string(key) + string(b"\1" * 16)) + string(private)
    yield convert_by("an encrypted file", "openssh", text, b"", question, pass_in=b"p")
    for name, answers, wanted in (
            ("two bytes", bytes(2), "answers.EndsInEntry"), ("a length past the end", uint32(5), "answers.LengthPastEnd"),
            ("a head of no question", string(b"\x09") + string(b"") + string(b""), "answers.NoQuestion"),
            ("a short answer", question + string(private[1:]), "answers.WrongLength"),
            ("another iv", other + string(private), "answers.Misplaced"),
            ("a false answer", question + string(private), "input.putty.MacValidation")):
        yield convert_by(f"an encrypted file, {name}", "openssh", text, answers, wanted, pass_in=b"p")
    yield convert_by("no target, two bytes", 0, text, bytes(2), "NoSuchTarget", pass_in=b"p")
    yield convert_by("bytes that aren't UTF-8, two bytes", "openssh", b"\xff", bytes(2), "answers.EndsInEntry", pass_in=b"p")
    for numbers in ((4, 16, 2, 8192, 34, 1, 16), (0, 16, 2, 8192, 34, 1, 16), (3, 16, 3, 8192, 34, 1, 16)):
        yield seal_by("a key", numbers, ENVELOPE, "NoSuchSealing")
    yield seal_by("a key", (1, 16, 2, 8192, 34, 1, 16), ENVELOPE, ENVELOPE)


def of_the_order():
    """Reasons that stand together: the first in the header's order is answered."""
    for target in (0, 8, 256, 2**32 - 1):
        yield convert("bytes that aren't UTF-8", target, b"\xff", "NoSuchTarget", b"\xff", b"\xff")
    for number in (0, 4, 256, 2**32 - 1):
        yield part("bytes that aren't UTF-8", b"\xff", number, "NoSuchPart")
    for number in (0, 15, 256, 2**32 - 1):
        yield shown("bytes that aren't UTF-8", b"\xff", number, "NoSuchPart")
    yield convert("bytes and a passphrase that aren't UTF-8", "ppk3", b"\xff", "TextNotUtf8", b"\xff", b"\xff")
    yield convert("no key, a passphrase that isn't UTF-8", "ppk3", b"", "PassNotUtf8", b"p", b"\xff")
    yield convert("no key, to be encrypted", "ppk3", b"", "input.public.UnknownKeyType", b"p", b"p")
    broken = putty_public(render(KEYS[ED25519].public), b"a\rb")
    yield convert("a public key and a comment with CR", "ppk3", broken, "NoPrivateKey", b"", b"p")
    yield convert("a comment with CR", "ssh-pub", broken, "CommentNotCarried")
    yield shown("a comment with CR", broken, "line", "CommentNotCarried")
    yield shown("a comment with CR, encrypted", sealed_ppk(2, KEY, b"a\rb"), "line", "CommentNotCarried")
    yield shown("a comment with CR, encrypted", sealed_ppk(2, KEY, b"a\rb"), "comment", b"a\rb")
    token = next(key for kind, key in KEYS.items() if kind.startswith(b"sk-"))
    text = envelope_text(envelope_nodes(token, b"a\nb"))
    yield convert("a key of a device and a comment with LF", "ppk3", text, "output.putty.NotSupported", b"", b"p")
    text = envelope_text(envelope_nodes(KEY, b"a\nb"))
    yield convert("a comment with LF, to be encrypted", "ppk3", text, "CommentNotCarried", b"", b"p")
    yield fingerprint("bytes that aren't UTF-8", b"ssh-ed25519 \xff\n", "TextNotUtf8")
    yield part("bytes that aren't UTF-8", b"ssh-ed25519 \xff\n", "type", "TextNotUtf8")
    yield shown("bytes that aren't UTF-8", b"ssh-ed25519 \xff\n", "type", "TextNotUtf8")
    yield with_comment("bytes that aren't UTF-8", b"\xff", b"\xff", "TextNotUtf8")
    yield with_comment("no key, a comment that isn't UTF-8", b"", b"\xff", "CommentNotUtf8")
    yield with_comment("no key, a comment with LF", b"", b"\n", "input.public.UnknownKeyType")


def of_long_keys():
    """A block of PuTTY's file has 65,535 lines at most, which are 3,145,680 bytes."""
    most, e, rest = 3_145_680, [b"\1\0\1"], [[b"\1"]] * 4
    for size in (most, most + 1):
        n = [b"\1" * (size - len(render([[RSA], e, []])))]
        key = KEYS[RSA]._replace(public=[[RSA], e, n], private=[[RSA], n, e, *rest], secret=rest)
        text = envelope_text(envelope_nodes(key, b"k"))
        for version in (2, 3):
            wanted = ppk_text(version, key, b"k") if size == most else "TooManyLines"
            yield convert(f"a public blob of {size} bytes", f"ppk{version}", text, wanted)


GROUPS = (of_other_programs, of_the_formats, of_keyconv, of_texts_that_mean_no_key, of_what_encrypted_texts_show, of_comments, of_passphrases,
          of_answers, of_the_order, of_long_keys)
