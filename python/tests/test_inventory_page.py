"""The page of picky inventory, in Chromium."""
from __future__ import annotations

import re
from pathlib import Path
from typing import Any, Dict, Iterator, List, Tuple

import pytest
from browser import Browser
from inventories import entry, text
from running import picky, ssh_key, tool, written

MARKUP = (
    "</h2><script>document.title = 'script'</script>",
    "<img src=x onerror=\"document.title = 'image'\">",
    "\"'><svg onload=\"document.title = 'svg'\"></svg>&lt;b&gt;",
)
# The rows of the table below a heading, each with the texts of its cells.
ROWS = """[...document.querySelectorAll('#%s ~ table tbody tr')].map(
    row => [...row.cells].map(cell => cell.innerText.trim()))"""
# The least contrast of a text with what is behind it (WCAG 2.2, "contrast ratio").
CONTRAST = """(() => {
  const channels = color => color.match(/[\\d.]+/g).map(Number);
  const clear = color => channels(color)[3] === 0;
  const luminance = color => {
    const [r, g, b] = channels(color).slice(0, 3).map(it => it / 255)
      .map(it => it <= 0.04045 ? it / 12.92 : ((it + 0.055) / 1.055) ** 2.4);
    return 0.2126 * r + 0.7152 * g + 0.0722 * b;
  };
  let least = 99;
  for (const one of document.querySelectorAll('body *')) {
    if (![...one.childNodes].some(it => it.nodeType === 3 && it.data.trim())) continue;
    let behind = one;
    while (clear(getComputedStyle(behind).backgroundColor)) behind = behind.parentElement;
    const [a, b] = [luminance(getComputedStyle(one).color), luminance(getComputedStyle(behind).backgroundColor)];
    least = Math.min(least, (Math.max(a, b) + 0.05) / (Math.min(a, b) + 0.05));
  }
  return least;
})()"""


@pytest.fixture(name="browser", scope="module")
def _browser() -> Iterator[Browser]:
    with Browser() as browser:
        yield browser


def prints(key: Path) -> str:
    return tool("ssh-keygen", "-lf", key).decode().split()[1]


@pytest.fixture(name="made", scope="module")
def _made(tmp_path_factory: pytest.TempPathFactory) -> Tuple[Path, Dict[str, str]]:
    """A page, and what the keys' cells say."""
    folder = tmp_path_factory.mktemp("page")
    keys = folder / "keys"
    keys.mkdir()
    open_ = ssh_key(keys / "open", comment=MARKUP[0])
    sealed = ssh_key(keys / "sealed", passphrase="a secret", comment=MARKUP[1])
    small = ssh_key(keys / "small", "-b", "1024", kind="rsa", comment=MARKUP[2])
    gone = ssh_key(keys / "gone", comment="")
    Path(f"{gone}.pub").unlink()
    since = folder / "since"
    assert picky("inventory", gone, small, f"{small}.pub", "-o", since).returncode == 0
    gone_prints = prints(gone)
    gone.unlink()
    written(keys / "copy", sealed.read_bytes())
    written(keys / "authorized_keys", Path(f"{open_}.pub").read_bytes())
    written(keys / "<img src=x>.pub", "<script>")
    run = picky("inventory", keys, "--html", folder / "page.html", "--since", since)
    assert (run.returncode, run.stderr) == (
        1,
        f"picky: {keys}/<img src=x>.pub: it is no key\n".encode(),
    )
    cells = {
        "open": f"{MARKUP[0]}\nssh-ed25519, 256 bits\n{prints(open_)}",
        "sealed": f"{MARKUP[1]}\nssh-ed25519, 256 bits\n{prints(sealed)}",
        "small": f"{MARKUP[2]}\nssh-rsa, 1,024 bits\n{prints(small)}",
        "gone": f"no comment\nssh-ed25519, 256 bits\n{gone_prints}",
        "keys": str(keys),
    }
    return folder / "page.html", cells


def test_shows_what_one_should_look_at(browser: Browser, made: Tuple[Path, Dict[str, str]]) -> None:
    page, cells = made
    keys = cells["keys"]
    browser.open(page, 1200, "light")
    wanted: Dict[str, List[List[str]]] = {
        "kinds": [["ssh-ed25519\n256 bits", "2"], ["ssh-rsa\n1,024 bits", "1"]],
        "open": [[cells["small"], f"{keys}/small"], [cells["open"], f"{keys}/open"]],
        "copied": [[cells["sealed"], "", f"{keys}/copy\n{keys}/sealed"]],
        "shared": [[cells["open"], f"{keys}/authorized_keys\n{keys}/open.pub"]],
        "small": [[cells["small"], f"{keys}/small", f"{keys}/small.pub"]],
        "gone": [[cells["gone"], "open private key"]],
        "unread": [[f"{keys}/<img src=x>.pub", "it is no key"]],
    }
    for name, rows in wanted.items():
        assert sorted(browser.value(ROWS % name)) == sorted(rows), name
    new = browser.value(ROWS % "new")
    held = [row[1] for row in new]
    assert sorted(held) == ["encrypted private key", "open private key", "public key", "public key"]
    tiles = browser.value("document.querySelector('.tiles').innerText").split("\n")
    assert [it for it in tiles if it] == [
        *("3", "Keys", "2", "Open private keys", "1", "Encrypted private keys"),
        *("1", "Private keys in several places", "1", "Public keys in several places"),
        *(
            "1",
            "RSA keys below 2,048 bits",
            "4",
            "New entries",
            "1",
            "Gone entries",
            "1",
            "Not read",
        ),
    ]
    shares = "[...document.querySelectorAll('.bar div')].map(it => it.offsetWidth)"
    assert browser.value(f"(([a, b]) => Math.round(100 * b / a))({shares})") == 50


def test_does_nothing_of_what_a_comment_says(
    browser: Browser, made: Tuple[Path, Dict[str, str]]
) -> None:
    page, _ = made
    browser.open(page, 1200, "light")
    browser.value("new Promise(done => setTimeout(done, 200))")
    assert browser.value("document.title") == "SSH keys"
    odd = "script, img, svg, link, iframe, object, form, base, [src], [onload], [onerror]"
    assert browser.value(f"document.querySelectorAll('{odd}').length") == 0
    assert browser.value("performance.getEntriesByType('resource').length") == 0
    assert browser.value("[...document.links].every(it => it.hash)")


def test_is_one_to_read_wide_and_narrow_light_and_dark(
    browser: Browser, made: Tuple[Path, Dict[str, str]]
) -> None:
    page, _ = made
    papers = set()
    for width in (320, 500, 1200):
        for scheme in ("light", "dark"):
            browser.open(page, width, scheme)
            assert browser.value("document.documentElement.scrollWidth") <= width, width
            assert browser.value(CONTRAST) >= 4.5, scheme
            papers.add(browser.value("getComputedStyle(document.body).backgroundColor"))
    assert len(papers) == 2


def test_has_headings_and_tables_that_are_marked_up(
    browser: Browser, made: Tuple[Path, Dict[str, str]]
) -> None:
    page, _ = made
    browser.open(page, 1200, "light")
    assert browser.value("document.documentElement.lang") == "en"
    levels = "[...document.querySelectorAll('h1, h2, h3')].map(it => it.tagName).join(' ')"
    assert re.fullmatch("H1( H2)+", browser.value(levels))
    tables: List[Any] = browser.value(
        """[...document.querySelectorAll('table')].map(table => [
            document.getElementById(table.getAttribute('aria-labelledby')).tagName,
            [...table.tHead.rows[0].cells].every(it => it.scope === 'col' && it.innerText.trim()),
            [...table.tBodies[0].rows].every(it => it.cells[0].scope === 'row'),
        ])"""
    )
    assert len(tables) == 8
    assert all(it == ["H2", True, True] for it in tables)
    names = "[...document.links].every(it => document.getElementById(it.hash.slice(1)))"
    assert browser.value(names)
    assert browser.value(
        "document.querySelectorAll('[id]').length === new Set([...document.querySelectorAll('[id]')].map(it => it.id)).size"
    )


def test_shows_inventories_without_places(browser: Browser, tmp_path: Path) -> None:
    key = ssh_key(tmp_path / "key", comment="me")
    assert picky("inventory", key, "-o", tmp_path / "keys").returncode == 0
    run = picky("inventory", "--merge", tmp_path / "keys", "--html", tmp_path / "page.html")
    assert (run.returncode, run.stdout) == (0, (tmp_path / "keys").read_bytes())
    browser.open(tmp_path / "page.html", 320, "dark")
    assert browser.value(ROWS % "open") == [[f"me\nssh-ed25519, 256 bits\n{prints(key)}"]]
    assert browser.value("document.getElementById('copied')") is None
    assert "None." in browser.value("document.body.innerText")


def test_counts_what_it_does_not_show(browser: Browser, tmp_path: Path) -> None:
    lines = sorted(entry("private", text(number), "me") for number in range(1005))
    many = written(tmp_path / "many", "".join(lines))
    page = tmp_path / "page.html"
    assert picky("inventory", "--merge", many, "--html", page).returncode == 0
    browser.open(page, 1200, "light")
    assert len(browser.value(ROWS % "open")) == 1000
    after = "document.querySelector('#open ~ table + p').innerText"
    assert browser.value(after) == "And 5 more."
    keys = tmp_path / "keys"
    keys.mkdir()
    for number in range(25):
        (keys / f"{number:02}.pub").write_text(text(1))
    # An earlier inventory that isn't read is told so, and nothing is compared with it.
    run = picky("inventory", keys, "--html", page, "--force", "--since", keys / "00.pub")
    assert run.returncode == 1
    browser.open(page, 1200, "light")
    ((_, places),) = browser.value(ROWS % "shared")
    assert places.split("\n") == [f"{keys}/{it:02}.pub" for it in range(20)] + ["and 5 more"]
    assert browser.value("document.getElementById('new')") is None
    assert [row[0] for row in browser.value(ROWS % "unread")] == [f"{keys}/00.pub"]


def test_says_of_nothing_that_there_is_none(browser: Browser, tmp_path: Path) -> None:
    page = tmp_path / "page.html"
    run = picky("inventory", tmp_path, "--html", page)
    assert (run.returncode, run.stdout, run.stderr) == (0, b"", b"")
    browser.open(page, 320, "light")
    assert browser.value("document.querySelectorAll('table').length") == 0
    assert browser.value("document.querySelectorAll('section').length") == 6
    assert browser.value("document.querySelectorAll('.alarm').length") == 0
