"""A page about an inventory: one file of HTML, which runs nothing and takes nothing from elsewhere."""
from __future__ import annotations

from datetime import datetime, timezone
from html import escape
from typing import Dict, Iterator, List, Optional, Sequence, Tuple

from ..inventory import Item
from ..keys import PublicKey
from .inventory_output import fields_of
from .inventory_records import Found, Place
from .inventory_summary import SECRET, SMALLEST_RSA, Key, Some, Summary
from .said import printable
from .show import title

# So many paths stand in the page's head.
PATHS = 5
HELD = {"private": "open private key", "sealed": "encrypted private key", "public": "public key"}
SMALL = f"RSA keys below {SMALLEST_RSA:,} bits"
# Columns of places: their heads, and how a key is held there.
Columns = Dict[str, Tuple[str, ...]]

HEAD = """<!DOCTYPE html>
<html lang="en">
<head>
<meta charset="utf-8">
<meta http-equiv="Content-Security-Policy" content="default-src 'none'; style-src 'unsafe-inline'">
<meta name="viewport" content="width=device-width, initial-scale=1">
<title>SSH keys</title>
<style>
:root { color-scheme: light dark; --paper: #fff; --ink: #1f2328; --soft: #57606a; --line: #d8dee4; --calm: #f3f5f7;
  --fill: #0a66a8; --alarm: #a4260f; }
@media (prefers-color-scheme: dark) {
  :root { --paper: #14181d; --ink: #e8ebee; --soft: #a5aeb8; --line: #343b44; --calm: #1e242b; --fill: #5aa9e6;
    --alarm: #ff9d8a; }
}
* { box-sizing: border-box; }
body { margin: 0 auto; max-width: 66rem; padding: 1.5rem 1rem 3rem; background: var(--paper); color: var(--ink);
  font: 1rem/1.5 system-ui, sans-serif; overflow-wrap: anywhere; }
h1 { margin: 0; font-size: 1.75rem; line-height: 1.2; }
h2 { margin: 2.5rem 0 .25rem; font-size: 1.25rem; }
p { margin: .25rem 0 .75rem; max-width: 44rem; }
code { font: .8125rem/1.4 ui-monospace, monospace; }
.soft { color: var(--soft); font-weight: 400; }
.tiles { display: grid; grid-template-columns: repeat(auto-fill, minmax(8rem, 1fr)); gap: .75rem; margin: 1.5rem 0;
  padding: 0; list-style: none; }
.tiles a { display: block; height: 100%; padding: .75rem; border-radius: .5rem; background: var(--calm); color: inherit;
  text-decoration: none; line-height: 1.3; }
.tiles a:hover, .tiles a:focus-visible { outline: 2px solid var(--fill); }
.tiles b { display: block; font-size: 1.75rem; line-height: 1.2; font-variant-numeric: tabular-nums; }
.tiles .alarm b { color: var(--alarm); }
table { width: 100%; border-collapse: collapse; table-layout: fixed; }
th, td { padding: .5rem 1rem .5rem 0; border-bottom: 1px solid var(--line); text-align: left; vertical-align: top; }
tr > :last-child { padding-right: 0; }
thead th { color: var(--soft); font-size: .875rem; }
thead th:first-child { width: 50%; }
th .soft, th code { display: block; font-weight: 400; }
td ul { margin: 0; padding: 0; list-style: none; }
.bar { display: grid; grid-template-columns: 4.5rem 1fr; gap: .75rem; align-items: center; text-align: right;
  font-variant-numeric: tabular-nums; }
.bar div { height: .75rem; border-radius: .2rem; background: var(--fill); }
footer { margin-top: 3rem; }
@media (max-width: 34rem) {
  th, td { padding-right: .5rem; }
  .bar { grid-template-columns: 3.5rem 1fr; }
}
</style>
</head>
<body>
<main>
"""
FOOT = """</main>
<footer class="soft">
<p>A private key and its public key are one key here. That an encrypted private key is the one of the public key in its file is
what the file says, until somebody opens it.</p>
</footer>
</body>
</html>
"""


def as_page(found: Found, earlier: Optional[str], paths: Sequence[str]) -> Iterator[bytes]:
    """The page, of what was found in paths, and of what differs from an earlier inventory."""
    summary = Summary(found, earlier)
    for part in (HEAD, _head(paths), _tiles(summary), *_sections(summary), FOOT):
        yield part.encode()


def _head(paths: Sequence[str]) -> str:
    now = datetime.now(timezone.utc).strftime("%Y-%m-%d, %H:%M UTC")
    names = ", ".join(f"<code>{_text(it)}</code>" for it in paths[:PATHS])
    more = f" and {len(paths) - PATHS:,} more" if len(paths) > PATHS else ""
    return f'<h1>SSH keys</h1>\n<p class="soft">Of {names}{more}. {now}.</p>\n'


def _tiles(summary: Summary) -> str:
    tiles = [
        ("kinds", sum(summary.kinds.values()), "Keys", False),
        ("open", summary.open.count, "Open private keys", True),
        ("kinds", summary.sealed, "Encrypted private keys", False),
    ]
    if summary.placed:
        tiles.append(("copied", summary.copied.count, "Private keys in several places", True))
        tiles.append(("shared", summary.shared.count, "Public keys in several places", False))
    tiles.append(("small", summary.small.count, SMALL, True))
    if summary.compared:
        tiles.append(("new", summary.new.count, "New entries", False))
        tiles.append(("gone", summary.gone.count, "Gone entries", False))
    tiles.append(("unread", summary.unread.count, "Not read", True))
    items = (
        f'<li><a href="#{name}"{_alarm(alarms and count > 0)}><b>{count:,}</b> {label}</a></li>\n'
        for name, count, label, alarms in tiles
    )
    return f'<ul class="tiles">\n{"".join(items)}</ul>\n'


def _alarm(given: bool) -> str:
    return ' class="alarm"' if given else ""


def _sections(summary: Summary) -> Iterator[str]:
    yield _kinds(summary)
    said = "They have no passphrase: who can read such a file has the key."
    yield _keys(summary, "open", "Open private keys", said, summary.open, {"Open in": ("private",)})
    if summary.placed:
        columns: Columns = {"Open in": ("private",), "Encrypted in": ("sealed",)}
        said = "More than one file has the private key."
        yield _keys(
            summary, "copied", "Private keys in several places", said, summary.copied, columns
        )
        said = "More than one place has the public key, and no more than one file the private key."
        columns = {"Public key in": ("public",)}
        yield _keys(
            summary, "shared", "Public keys in several places", said, summary.shared, columns
        )
    said = "NIST allows no signatures by them any more (SP 800-131A)."
    columns = {"Private key in": SECRET, "Public key in": ("public",)}
    yield _keys(summary, "small", SMALL, said, summary.small, columns)
    if summary.compared:
        said = (
            "The earlier inventory hasn't these. An entry is a key as it is held, with its comment."
        )
        yield _items("new", "New entries", said, summary.new)
        yield _items("gone", "Gone entries", "The earlier inventory alone has these.", summary.gone)
    rows = [
        f'<th scope="row">{_place(place)}</th><td>{_text(cause)}</td>'
        for place, cause in summary.unread.shown
    ]
    yield _section("unread", "Not read", "", ["File", "Cause"], rows, summary.unread.left)


def _kinds(summary: Summary) -> str:
    most = max(summary.kinds.values(), default=1)
    rows = [
        f'<th scope="row">{_text(kind)}<span class="soft">{bits:,} bits</span></th>'
        f'<td><div class="bar">{count:,}<div style="width: {100 * count / most:.1f}%"></div></div></td>'
        for (kind, bits), count in sorted(summary.kinds.items())
    ]
    said = "Each key is counted once, in however many files it stands."
    return _section("kinds", "Kinds and sizes", said, ["Kind", "Keys"], rows)


def _keys(
    summary: Summary, name: str, heading: str, said: str, keys: Some[Key], columns: Columns
) -> str:
    held = columns.values() if summary.placed else ()
    rows = [
        _key(key.public, key.comments) + "".join(f"<td>{_places(key, it)}</td>" for it in held)
        for key in keys.shown
    ]
    heads = ["Key", *(columns if summary.placed else ())]
    return _section(name, heading, said, heads, rows, keys.left)


def _items(name: str, heading: str, said: str, items: Some[Item]) -> str:
    rows = [f"{_key(it.key, [it.key.comment])}<td>{HELD[it.held]}</td>" for it in items.shown]
    return _section(name, heading, said, ["Key", "Held as"], rows, items.left)


def _section(
    name: str, heading: str, said: str, heads: List[str], rows: List[str], left: int = 0
) -> str:
    parts = [f'<section aria-labelledby="{name}">', f'<h2 id="{name}">{heading}</h2>']
    if not rows:
        parts.append("<p>None.</p>")
    else:
        if said:
            parts.append(f"<p>{said}</p>")
        cells = "".join(f'<th scope="col">{head}</th>' for head in heads)
        parts += [
            f'<table aria-labelledby="{name}">',
            f"<thead><tr>{cells}</tr></thead>",
            "<tbody>",
        ]
        parts += [f"<tr>{row}</tr>" for row in rows]
        parts += ["</tbody>", "</table>"]
    if left:
        parts.append(f"<p>And {left:,} more.</p>")
    return "\n".join(parts) + "\n</section>\n"


def _key(key: PublicKey, comments: Sequence[str]) -> str:
    """The cell of a key: its comments, its kind and its fingerprint."""
    words = ", ".join(_text(it) for it in comments if it) or '<span class="soft">no comment</span>'
    kind = f"{_text(key.kind)}, {key.bits:,} bits"
    prints = _text(key.fingerprints.sha256)
    return f'<th scope="row">{words}<span class="soft">{kind}</span><code>{prints}</code></th>'


def _places(key: Key, held: Sequence[str]) -> str:
    """A list of the places where a key is held so."""
    found = [key.held[it] for it in held if it in key.held]
    items = [f"<li>{_place(place)}</li>" for places in found for place in places.shown]
    left = sum(places.left for places in found)
    if left:
        items.append(f"<li>and {left:,} more</li>")
    return f"<ul>{''.join(items)}</ul>" if items else ""


def _place(place: Place) -> str:
    return _text(title(fields_of(place)))


def _text(text: str) -> str:
    return escape(printable(text))
