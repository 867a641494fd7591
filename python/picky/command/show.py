"""picky show: what files are."""
from __future__ import annotations

import argparse
import json
import os
import sys
from datetime import datetime, timezone
from typing import Any, Callable, Dict, Iterator, List, Optional, Tuple

from ..certificates import FOREVER, Certificate, Option
from ..errors import Error, PassphraseNeeded
from ..keys import PublicKey, Shown, shown
from .said import Refusal, Status, hand_out_text, printable, refusal_of, say
from .sources import FOREIGN, PRIVATE, Form, Source, foreign_key, public_key, sources

USAGE = "[--json] FILE.."
Record = Dict[str, Any]
Row = Tuple[str, str]


def add(parser: argparse.ArgumentParser) -> Callable[[argparse.Namespace], int]:
    """Adds the options."""
    parser.description = (
        "Say of each key in the files what it is: its form, kind, bits, fingerprints and comment, by what it is encrypted, and "
        "of a certificate each field and whether its signature is good. No passphrase is asked for: of an encrypted key that is "
        "shown which stands open, as the file says. FILE - is standard input."
    )
    parser.add_argument("files", metavar="FILE", nargs="+", help=argparse.SUPPRESS)
    parser.add_argument("--json", action="store_true", help="write JSON: a list of objects")
    return run


def run(arguments: argparse.Namespace) -> int:
    """Shows each key."""
    records: List[Record] = []
    status = Status.DONE
    for name in arguments.files:
        for record, refusal in of_file(name):
            records.append(record)
            if refusal is not None:
                say(f"{title(record)}: {refusal.sentence}")
                status = max(status, refusal.status)
    good = [record for record in records if "error" not in record]
    if arguments.json:
        hand_out_text(json.dumps(records, indent=2) + "\n")
    elif sys.stdout.isatty():
        show_tables(good)
    else:
        hand_out_text("\n".join(as_text(record) for record in good))
    return status


def of_file(name: str) -> Iterator[Tuple[Record, Optional[Refusal]]]:
    """A record for each key of a file; one that isn't read has the error, and comes with the refusal."""
    try:
        found = sources(name)
    except Refusal as refusal:
        yield {**named(name), "error": refusal.sentence}, refusal
        return
    for source in found:
        record = {**named(name), "line": source.line}
        try:
            yield {**record, **of_source(source)}, None
        except (Refusal, Error, MemoryError) as error:
            why = refusal_of(error)
            yield {**record, "error": why.sentence}, why


def named(name: str) -> Record:
    """The file of a record: its name, and the name's bytes where it isn't UTF-8."""
    record = {"file": printable(name)}
    return record if printable(name) == name else {**record, "file_hex": os.fsencode(name).hex()}


def of_source(source: Source) -> Record:
    """What a key text is."""
    record: Record = {"form": source.form.value, "encrypted": None, "certificate": None}
    if source.before:
        record["before"] = source.before.decode(errors="backslashreplace")
    if source.form == Form.CERTIFICATE:
        certificate = Certificate.read(source.text)
        record.update(of_public(certificate.subject), certificate=of_certificate(certificate))
        return record
    if source.form in FOREIGN and source.form in PRIVATE:
        try:
            with foreign_key(source.text, None) as key:
                return {**record, **of_public(key.public)}
        except PassphraseNeeded:
            return {**record, "encrypted": {}}
    if source.form in PRIVATE:
        open_part = shown(source.text)
        record.update(of_public(open_part.public), encrypted=of_sealing(open_part))
        if open_part.encrypted and source.form == Form.OPENSSH:
            record["comment"] = None
        return record
    return {**record, **of_public(public_key(source))}


def of_public(key: PublicKey) -> Record:
    """What a public key is."""
    prints = key.fingerprints
    return {
        "kind": key.kind,
        "bits": key.bits,
        "fingerprints": {"md5": prints.md5, "sha1": prints.sha1, "sha256": prints.sha256},
        "comment": key.comment,
    }


def of_sealing(given: Shown) -> Optional[Record]:
    """By what a private key is encrypted; nothing where it isn't."""
    if not given.encrypted:
        return None
    found = {
        "cipher": given.cipher,
        "derivation": given.derivation,
        "rounds": given.rounds,
        "memory": given.memory,
        "passes": given.passes,
        "lanes": given.lanes,
    }
    return {name: value for name, value in found.items() if value is not None}


def as_text(record: Record) -> str:
    """The record as lines."""
    lines = [title(record)]
    lines += [f"  {label:<12} {value}".rstrip() for label, value in rows(record)]
    return "\n".join(lines) + "\n"


def of_certificate(certificate: Certificate) -> Record:
    """Each field of a certificate, and whether its signature is good. Times are in seconds since 1970."""
    issuer = certificate.issuer
    return {
        "type": certificate.type,
        "for": certificate.kind,
        "serial": certificate.serial,
        "key_id": certificate.key_id,
        "principals": list(certificate.principals),
        "valid_after": certificate.valid_after,
        "valid_before": certificate.valid_before,
        "critical_options": [of_option(it) for it in certificate.critical_options],
        "extensions": [of_option(it) for it in certificate.extensions],
        "issuer": {"kind": issuer.kind, "bits": issuer.bits, "sha256": issuer.fingerprints.sha256},
        "nonce": certificate.nonce.hex(),
        "signature_format": certificate.signature_format,
        "signature_good": certificate.verify(),
    }


def of_option(option: Option) -> Record:
    """The name of an option, and its text, or where its data aren't one, these in hexadecimal digits."""
    if not option.payload:
        return {"name": option.name}
    if option.value is not None:
        return {"name": option.name, "value": option.value}
    return {"name": option.name, "hex": option.payload.hex()}


def title(record: Record) -> str:
    """Where a key stands."""
    line: int = record.get("line", 1)
    return f"{record['file']}:{line}" if line > 1 else str(record["file"])


def rows(record: Record) -> List[Row]:
    """What is shown of a record, in its order, with nothing that a terminal obeys."""
    found: List[Tuple[str, object]] = [("form", record["form"])]
    if "before" in record:
        found.append(("before", record["before"]))
    if "kind" in record:
        found += [("kind", record["kind"]), ("bits", record["bits"])]
        found += list(record["fingerprints"].items())
        if record["comment"] is not None:
            found.append(("comment", record["comment"]))
    if record["encrypted"] is not None:
        sealing = (f"{name} {value}" for name, value in record["encrypted"].items())
        found.append(("encrypted", ", ".join(sealing) or "yes"))
    elif record["form"] in _PRIVATE_NAMES:
        found.append(("encrypted", "no"))
    if record["certificate"] is not None:
        found += certificate_rows(record["certificate"])
    return [(label, printable(str(value))) for label, value in found]


def certificate_rows(given: Record) -> List[Tuple[str, object]]:
    """What is shown of a certificate."""
    found: List[Tuple[str, object]] = [("type", given["type"]), ("for", f"a {given['for']}")]
    found += [("serial", given["serial"]), ("key id", given["key_id"])]
    found += [("principal", name) for name in given["principals"]] or [("principal", "all")]
    found += [("valid from", moment(given["valid_after"]))]
    found += [("valid before", moment(given["valid_before"]))]
    for label, name in (("critical", "critical_options"), ("extension", "extensions")):
        for option in given[name]:
            found.append((label, "=".join(str(it) for it in option.values())))
    issuer = given["issuer"]
    found.append(("issuer", f"{issuer['kind']} {issuer['bits']} {issuer['sha256']}"))
    found.append(("nonce", given["nonce"]))
    found.append(("signed by", given["signature_format"]))
    found.append(("signature", "good" if given["signature_good"] else "bad"))
    return found


def moment(seconds: int) -> str:
    """A time of a certificate."""
    if seconds == FOREVER:
        return "forever"
    try:
        return datetime.fromtimestamp(seconds, timezone.utc).strftime("%Y-%m-%d %H:%M:%S UTC")
    except (ValueError, OverflowError, OSError):
        return f"{seconds} seconds since 1970"


_PRIVATE_NAMES = {form.value for form in PRIVATE}


def show_tables(records: List[Record]) -> None:
    """Shows a table for each record on the terminal."""
    from rich.box import ROUNDED
    from rich.console import Console
    from rich.table import Table
    from rich.text import Text

    console = Console(highlight=False)
    for record in records:
        table = Table(
            title=Text(title(record), "bold"),
            title_justify="left",
            box=ROUNDED,
            show_header=False,
        )
        table.add_column(no_wrap=True)
        table.add_column(overflow="fold")
        for label, value in rows(record):
            style = _STYLES.get((label, value), "")
            table.add_row(Text(label, "cyan"), Text(value, style))
        console.print(table)


_STYLES = {
    ("encrypted", "no"): "yellow",
    ("signature", "good"): "green",
    ("signature", "bad"): "red",
}
