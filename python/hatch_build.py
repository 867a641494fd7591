"""The build's hook: wheels are for Linux on x86-64, and carry the library, which stands beside the package in a source archive."""
from pathlib import Path
from typing import Any, Dict

from hatchling.builders.hooks.plugin.interface import BuildHookInterface


class LibraryHook(BuildHookInterface[Any]):
    """Puts the library of dist/ into what is built in a checkout."""

    def initialize(self, version: str, build_data: Dict[str, Any]) -> None:
        """Before a build."""
        library = Path(self.root).parent / "dist/x86_64-linux/libpicky.so.0"
        if library.is_file():
            build_data["force_include"][str(library)] = "picky/libpicky.so.0"
        if self.target_name == "wheel":
            build_data.update(pure_python=False, tag="py3-none-linux_x86_64")
