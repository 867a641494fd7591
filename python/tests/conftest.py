"""What all tests share: the library of dist/, how hypothesis runs, and the programs that make and read keys."""
from __future__ import annotations

import os
import sys
from pathlib import Path
from typing import List

import pytest
from hypothesis import HealthCheck, settings

TOP = Path(__file__).resolve().parents[2]
os.environ.setdefault("PICKY_LIBRARY", str(TOP / "dist/x86_64-linux/libpicky.so.0"))
sys.path.insert(0, str(Path(__file__).resolve().parent))

from making import (  # noqa: E402
    BY_PUTTYGEN,
    BY_SSH_KEYGEN,
    by_puttygen,
    by_ssh_keygen,
    numbered,
)
from tools import Made, Tools, each  # noqa: E402

settings.register_profile(
    "picky",
    database=None,
    deadline=None,
    max_examples=int(os.environ.get("PICKY_EXAMPLES", "60")),
    suppress_health_check=list(HealthCheck),
    print_blob=True,
)
settings.load_profile("picky")


@pytest.fixture
def tools(tmp_path: Path) -> Tools:
    """ssh-keygen and puttygen, in a folder of their own."""
    return Tools(tmp_path)


@pytest.fixture(scope="session")
def keys_of_ssh_keygen(tmp_path_factory: pytest.TempPathFactory) -> List[Made]:
    """Keys of each kind, which ssh-keygen made and encrypted."""
    return each(tmp_path_factory.mktemp("ssh-keygen"), by_ssh_keygen, numbered(BY_SSH_KEYGEN))


@pytest.fixture(scope="session")
def keys_of_puttygen(tmp_path_factory: pytest.TempPathFactory) -> List[Made]:
    """Keys of each kind, which puttygen made and encrypted."""
    return each(tmp_path_factory.mktemp("puttygen"), by_puttygen, numbered(BY_PUTTYGEN))
