"""Which definitions a clause needs where a command is known: what check/trust leaves out, and why it may.

A Cut knows the constructors that values of some types have. It leaves out each arm of a definition whose pattern has another one. A
chooser is a definition that makes such a value from a text: of it, each line that has another one is left out. Of a record with the
laws `sound` and `complete`, which fix by `piece` or `means` what `read` and `decide` answer with Ok, and of which `takes` fixes `used`,
these fields are left out, as the laws are.

This is sound as no value with another constructor can come to what is left. So a Cut refuses where a definition that is reached makes
one, or speaks of all values of the type; where a type of the code has a part of such a type; and where `read`, `used` or `decide` are
named beside these fields.
"""
import re
import sys

from trust_tree import TOKEN, plain_spec

FIELD = re.compile(r"^  (\w+) =")
FIXED = {"read", "used", "decide", "sound", "complete", "takes"}


def equations(lines):
    """What stands before the equations of a definition, and these: each begins at the margin."""
    parts = [[]]
    for line in lines:
        if line and not line[0].isspace() and parts[0]:
            parts.append([])
        parts[-1].append(line)
    return parts[0], parts[1:]


def without_fixed(lines):
    """An equation without the fields that the laws of its record fix, and without these."""
    if not {"sound", "complete"} <= {match[1] for match in map(FIELD.match, lines) if match}:
        return lines
    kept, out = [], False
    for line in lines:
        field = FIELD.match(line)
        out = field[1] in FIXED if field else out
        if not out:
            kept.append(line)
    return kept


class Cut:
    """The kept constructors of some types, each type by what it stands for; the choosers; and the definitions that name `used` only
    to make that of another layout."""

    def __init__(self, tree, kept, choosers, makers):
        self.tree, self.specs, self.kept, self.choosers, self.makers = tree, tree.specs, kept, choosers, makers
        for key in choosers | makers:
            if key not in self.specs.text:
                sys.exit(f"check/trust finds no definition {'/'.join(key)}")
        self.all = {kind: self.constructors_of(kind) for kind in kept}
        for kind, names in kept.items():
            if names - self.all[kind]:
                sys.exit(f"check/trust finds no {', '.join(sorted(names - self.all[kind]))} of {'/'.join(kind[1:])}")

    def declaration(self, kind):
        """The lines of a struct or an enum."""
        path = self.specs.top / "crates" / kind[1]
        text = path.read_text() if path.exists() else ""
        found = re.search(rf"^pub (?:struct|enum) {kind[2]}\b(.*?)(?:;$|^\}})", text, re.M | re.S)
        return re.sub(r"//.*", "", found[1]) if found else ""

    def constructors_of(self, kind):
        """The constructors of an enum, or of a data type."""
        if kind[0] == "spec":
            return {name for name, held in self.specs.members.get(kind[1:3], {}).items() if held == (kind[1:], "data")}
        return set(re.findall(r"^    (\w+)", self.declaration(kind), re.M))

    def named(self, file, text):
        """What a text names of the types that are known: constructors, each with its type, and types."""
        made, types = set(), set()
        imports, members = self.specs.imports[file], self.specs.members[file]
        for word in TOKEN.findall(text):
            first, _, rest = word.partition(".")
            target = imports.get(first)
            if target is None and (first in members or first in self.specs.own[file]):
                target = ("spec", *file, first)
            if target is None or target[0] not in ("code", "spec"):
                continue
            name = target[3] if target[0] == "spec" else rest or first
            for kind in self.specs.resolved(target):
                if kind in self.kept and name in self.all[kind]:
                    made.add((kind, name))
                elif kind in self.kept:
                    types.add(kind)
        return made, types

    def others(self, file, text):
        """The constructors that a text names and that aren't kept."""
        return sorted(name for kind, name in self.named(file, text)[0] if name not in self.kept[kind])

    def parts(self, key):
        """What is left of a definition: its type and patterns, and its bodies."""
        file = key[:2]
        first, arms = equations([plain_spec(line) for line in self.specs.text[key]])
        head, body = first, []
        if not arms:
            at = next((at for at, line in enumerate(first, 1) if line.endswith("where")), len(first))
            head, body = first[:at], first[at:]
            if ("spec", *key) in self.kept:
                body = [line for line in body if not self.others(file, line)]
        for arm in arms:
            pattern = "\n".join(arm).partition(" =")[0]
            if not self.others(file, pattern):
                lines = [line for line in arm if key not in self.choosers or not self.others(file, line)]
                head = head + [pattern]
                body = body + ["\n".join(without_fixed(lines)).partition(" =")[2]]
        return "\n".join(head), "\n".join(body)

    def refuse(self, key, what):
        sys.exit(f"check/trust can't cut at {'/'.join(key)}: it {what}")

    def names_in(self, key):
        """What is left of what a definition names."""
        head, body = self.parts(key)
        others, types = self.others(key[:2], body), self.named(key[:2], body)[1]
        if others:
            self.refuse(key, f"makes {', '.join(others)}")
        if types and ("spec", *key) not in self.kept:
            self.refuse(key, f"speaks of each {', '.join(sorted(kind[-1] for kind in types))}")
        if key not in self.makers and re.search(r"\.(?:read|used|decide)(?!\w)", body):
            self.refuse(key, "names how a layout is read")
        found = self.specs.named_by(key, f"{head}\n{body}")
        for kind in found:
            held = kind[0] == "code" and kind not in self.kept and set(re.findall(r"\w+", self.declaration(kind)))
            if held and held & {known[-1] for known in self.kept}:
                self.refuse(key, f"names {kind[2]}, which has a part of a known type")
        return found
