"""Which built programs a script tries or times: the one that its argument names, or those that the repository has.

Python's scripts call built_program or built_programs. Those of the shell call this file, which prints the path of the first:
program=$(python3 check/lib/built.py "$0" "$@").
"""
import os
import sys
from pathlib import Path

TOP = Path(__file__).resolve().parents[2]
DIST = TOP / "dist" / "x86_64-linux"
PROGRAM = DIST / "keyconv"


def built_program(script=None, words=None):
    """The path of the program that a script's words name: the first word, or PROGRAM where there is none.

    The script is the one that runs, and the words are its own, where they aren't given. It ends with a message and status 1
    where no such program is there, or where the words are no path.
    """
    script, words = script or sys.argv[0], sys.argv[1:] if words is None else words
    return runnable(script, given(script, words, f"by default {PROGRAM.relative_to(TOP)}") or PROGRAM)


def built_programs():
    """The path of each program by its name: that in dist/, but for the one whose file the script's word names.

    It ends as built_program does, and where no program has the file's name.
    """
    script = sys.argv[0]
    file = given(script, sys.argv[1:], "which takes the place of the one of its name in dist/")
    names = [it.parents[1].name for it in sorted(TOP.glob("crates/*/src/main.rt"))]
    if file and file.name not in names:
        sys.exit(f"{shown(script)}: no program has the name {file.name}, but {' and '.join(names)}")
    return {name: runnable(script, file if file and file.name == name else DIST / name) for name in names}


def given(script, words, default):
    """The path that a script's words name, and none where there is no word."""
    if len(words) > 1 or words and words[0].startswith("-"):
        sys.exit(f"usage: {shown(script)} [PROGRAM]\nPROGRAM is the file of a built program, {default}.")
    return Path(words[0]).absolute() if words else None


def runnable(script, program):
    if not program.is_file() or not os.access(program, os.X_OK):
        sys.exit(f"{shown(script)}: there is no program {program}: ./install makes one, or give the path of one")
    return str(program)


def shown(script):
    return os.path.relpath(Path(script).resolve(), TOP)


if __name__ == "__main__":
    print(built_program(sys.argv[1], sys.argv[2:]))
