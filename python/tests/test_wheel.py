"""The wheel, as pip installs it in an environment of its own."""
from __future__ import annotations

import os
import subprocess
import sys
from pathlib import Path
from typing import Union

PACKAGE = Path(__file__).resolve().parents[1]
USE = """
import picky
from picky import PrivateKey, Target, _library
from cryptography.hazmat.primitives.asymmetric.ed25519 import Ed25519PrivateKey
key = PrivateKey.of(Ed25519PrivateKey.generate(), "me")
assert PrivateKey.read(key.write(Target.PPK3, "secret"), "secret").public == key.public
print(picky.__file__, _library._library._name)
"""


def ran(*words: Union[str, Path], cwd: Path) -> str:
    """What a command prints that has to succeed, without the variables that show it this checkout."""
    variables = {k: v for k, v in os.environ.items() if not k.startswith(("PICKY", "PYTHONPATH"))}
    run = subprocess.run(words, cwd=cwd, env=variables, capture_output=True, text=True, timeout=300)
    assert run.returncode == 0, (words, run.stdout, run.stderr)
    return run.stdout


def test_pip_installs_the_wheel(tmp_path: Path) -> None:
    # Debian's hatchling says that it needs "editables", which Debian hasn't, and which a wheel doesn't take: so -x.
    ran(sys.executable, "-m", "build", "-nx", "-o", tmp_path, PACKAGE, cwd=tmp_path)
    (wheel,) = tmp_path.glob("*.whl")
    assert wheel.name.endswith("-py3-none-linux_x86_64.whl")
    ran(sys.executable, "-m", "venv", "--system-site-packages", "env", cwd=tmp_path)
    python = tmp_path / "env/bin/python"
    ran(python, "-m", "pip", "install", "--no-index", wheel, cwd=tmp_path)
    package, library = ran(python, "-c", USE, cwd=tmp_path).split()
    assert Path(package).is_relative_to(tmp_path / "env")
    assert library == str(Path(package).parent / "libpicky.so.0")
