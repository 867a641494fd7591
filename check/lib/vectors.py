"""The rows of picky_key_rows and picky_cert_rows: what ssh-keygen and PuTTYgen wrote, and certificates with one fault.

A row is a dictionary of those of its fields that are texts. The source says by which command each was made.
"""
import re

from lib.built import TOP

LITERAL = r'"((?:[^"\\]|\\[\s\S])*)"'
ESCAPES = {"n": "\n", "r": "\r"}


def text_of(literal):
    """What a literal of the source says, which stands between quotes there."""
    joined = re.sub(r"\\\n\s*", "", literal)
    return re.sub(r"\\(.)", lambda escape: ESCAPES.get(escape[1], escape[1]), joined)


def rows_of(crate, kind):
    """The rows of a struct in a crate's sources."""
    source = "\n".join(it.read_text() for it in sorted((TOP / "crates" / crate / "src").glob("*.rt")))
    texts = {name: text_of(literal) for name, literal in re.findall(rf"const (\w+): &str =\s+{LITERAL};", source)}
    rows = []
    for _, body in re.findall(rf"^( *)(?:static \w+: \w+ = )?{kind} \{{\n(.*?)^\1\}}", source, re.M | re.S):
        fields = re.findall(rf"^ +(\w+): (?:Some\(\s*)?(?:{LITERAL}|([A-Z][A-Z0-9_]*)\b)", body, re.M)
        rows.append({name: texts[constant] if constant else text_of(literal) for name, literal, constant in fields})
    return rows


def ppk_text(row, version):
    """The file of a row of PuTTY's private keys, whose lines end as keyconv ends them."""
    text = f"PuTTY-User-Key-File-{version}{row['body']}Private-MAC: {row[f'mac_v{version}']}\n"
    return text if version == 3 else text.replace("\n", "\r\n")
