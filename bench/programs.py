"""Builds, counts and times programs for the scripts of bench/ and for check/refused_memory."""
import os
import re
import shutil
import subprocess
import sys
import tempfile
import time
from pathlib import Path

ROOT = Path(__file__).resolve().parents[1]


def build(folder, source, uses, key):
    """The program of this source, proved and built over a copy of the crates that it uses, and tried on a key. What rt ci proved
    before on this machine isn't proved again."""
    lines = dict(line.split(":") for line in (ROOT / "crates.txt").read_text().splitlines()
                 if ":" in line and not line.startswith("#"))
    crates, copied, to_copy = folder / "crates", "", list(uses)
    while to_copy:
        name = to_copy.pop()
        if name in lines and not (crates / name).exists():
            shutil.copytree(ROOT / "crates" / name, crates / name, ignore=shutil.ignore_patterns("out", "must-fail"))
            copied += f"{name}:{lines[name]}\n"
            to_copy += lines[name].split()
    (folder / "crates.txt").write_text(f"{copied}bench_program: {' '.join(uses)}\n")
    shutil.copy(ROOT / "HANDLES", folder)
    (crates / "bench_program/src").mkdir(parents=True)
    (crates / "bench_program/src/main.rt").write_text(source)
    subprocess.run(["rt", "fmt"], cwd=crates / "bench_program", stdin=subprocess.DEVNULL, capture_output=True, check=True)
    # Only a proved program is built. rt ci runs it, too, on no input, and says that this fails.
    built = subprocess.run(["rt", "ci"], cwd=folder, stdin=subprocess.DEVNULL, capture_output=True, text=True)
    program = crates / "bench_program/out/bench_program"
    if not program.exists():
        raise SystemExit(built.stdout + built.stderr)
    with key.open() as text:
        tried = subprocess.run([program], stdin=text, capture_output=True, text=True)
    if tried.returncode != 0:
        raise SystemExit(tried.stdout + tried.stderr)
    return program


# Where Debian's packages put Go's sources.
GO_SOURCES = "/usr/share/gocode"


def build_go(folder, source):
    """The program of this source of Go's, and None where Go or its library isn't there."""
    if not shutil.which("go"):
        return None
    (folder / "main.go").write_text(source)
    places = {"GO111MODULE": "off", "GOPATH": os.environ.get("GOPATH", GO_SOURCES)}
    built = subprocess.run(["go", "build", "-o", "go_bench", "main.go"], cwd=folder, env={**os.environ, **places})
    return folder / "go_bench" if built.returncode == 0 else None


def timed(program, text, words):
    """The numbers of the lines that the program prints on a text with so many arguments, its peak memory in KiB, and
    the processor time of the whole process in seconds."""
    with text.open() as source:
        child = subprocess.Popen([program, *["again"] * words], stdin=source, stdout=subprocess.PIPE, text=True)
        printed, status = child.stdout.read().split("Name:", 1)
        child.stdout.close()
        _, child.returncode, usage = os.wait4(child.pid, 0)
    peak = next(line for line in status.splitlines() if line.startswith("VmHWM:"))
    return [int(word) for word in printed.split()], int(peak.split()[1]), usage.ru_utime + usage.ru_stime


def fastest(command, source, rounds=9):
    """The best time of some rounds over a file as standard input, in seconds, and the peak memory in KiB."""
    best, peak = None, 0
    for _ in range(rounds):
        with open(source, "rb") as stdin, open(os.devnull, "wb") as out:
            start = time.perf_counter()
            child = subprocess.Popen(command, stdin=stdin, stdout=out)
            _, status, usage = os.wait4(child.pid, 0)
            spent = time.perf_counter() - start
        if status != 0:
            sys.exit(f"{command}: status {status}")
        best = spent if best is None else min(best, spent)
        peak = max(peak, usage.ru_maxrss)
    return best, small_peak(command, source) or peak


def costs(command, source, env={}):
    """How many instructions callgrind counts in each function, over a file as standard input. A run may end with any status."""
    # Callgrind puts a file in the place of the one that it is given, and root's in that of a device.
    with open(source, "rb") as stdin, tempfile.TemporaryDirectory() as folder:
        counts = Path(folder) / "counts"
        ran = subprocess.run(["valgrind", "--tool=callgrind", f"--callgrind-out-file={counts}", *command], stdin=stdin,
                             stdout=subprocess.DEVNULL, stderr=subprocess.PIPE, text=True, env=env)
        if not counts.exists():
            sys.exit(ran.stderr)
        names, spent, name, called = {}, {}, None, False
        for line in counts.read_text().splitlines():
            if match := re.match(r"fn=\((\d+)\)(?: (.*))?", line):
                name = names.setdefault(match[1], match[2])
            elif re.match(r"[+*-]?\d*[ ]\d+$", line):
                # What stands behind a line of calls= is the callee's.
                spent[name] = spent.get(name, 0) + (0 if called else int(line.split()[1]))
            called = line.startswith("calls=")
            if match := re.match(r"cfn=\((\d+)\) (.*)", line):
                names.setdefault(match[1], match[2])
        return spent


def instructions(command, source, env={}):
    """How many instructions callgrind counts in all."""
    return sum(costs(command, source, env).values())


def small_peak(command, source):
    """The peak memory by time(1), where it is there: a child's own count begins with what this process takes."""
    if not Path("/usr/bin/time").exists():
        return None
    with open(source, "rb") as stdin:
        ran = subprocess.run(["/usr/bin/time", "-f", "%M", *command], stdin=stdin, stdout=subprocess.DEVNULL,
                             stderr=subprocess.PIPE, text=True, check=True)
    return int(ran.stderr.split()[-1])
