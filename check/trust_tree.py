"""The definitions in specs/ and the public clauses of the crates, and which definitions a clause depends on.

A definition is an `abbrev`, an `unfoldable`, a record or a data type of a crate's specs/. A public clause, or a ghost item of a
trait or type that a crate exports, depends on the definitions that it names, and on those that they name. A law that a record
carries is a proof: nobody has to trust it. Names are told by words alone, so a variable that has the name of a definition in
the same file counts as that definition. Comments and the texts of strings don't count.
"""
import re
import sys

TOKEN = re.compile(r"[^\s(){}\[\],;λ→×«»]+")
STRING = re.compile(r'"(?:[^"\\]|\\.)*"')
USE = re.compile(r"\s*(?P<public>pub |ghost )?use (?P<path>[\w.-]+?)(?:\.\{(?P<names>[^}]*)\}| as (?P<alias>\w+))?;?\s*$")
DEFINITION = re.compile(
    r"^(?:(?:pub )?(?:abbrev|unfoldable) (?:pub )?([^\s:]+)|(?:pub )?(record|data) ([^\s:({]+))", re.M
)
FN = re.compile(r"(?P<indent> *)(?P<visible>pub(?:\([^)]*\))? )?(?:(?:final|const|unsafe) )*fn (?P<name>\w+)")


def plain(line, comment):
    """A line without its strings and its comment."""
    return re.split(comment, STRING.sub('""', line), maxsplit=1)[0].rstrip()


def plain_spec(line):
    return plain(line, r"(?:^|(?<=\s))--")


def plain_code(line):
    return plain(line, r"//")


def words_of(text):
    """The words of a text, and of a word with dots the first part too."""
    words = set(TOKEN.findall(text))
    return words | {word.split(".")[0] for word in words}


def crates(top):
    """The crates, each after those that it depends on."""
    below = {}
    for line in (top / "crates.txt").read_text().splitlines():
        if ":" in line and not line.startswith("#"):
            name, deps = line.split(":", 1)
            below[name.split()[0]] = deps.split()
    order = []

    def visit(name):
        if name in below and name not in order:
            for dep in below[name]:
                visit(dep)
            order.append(name)

    for name in below:
        visit(name)
    return order


# What a name stands for: ("spec", crate, file, name), the same of proofs/ with "proof", ("code", source file, type),
# ("library", module, name), or of a file that has another name here ("file", "spec", crate, file).


def source_of(crate, modules):
    """The source file of a module of a crate, or of its root."""
    return f"{crate}/src/{'/'.join(modules) or 'lib'}.rt"


def imported(line, names):
    """What a use line brings, where the crates of the tree have these names: each name with what it stands for. None where the
    line isn't one that this script reads."""
    use = USE.match(line)
    if not use:
        return None
    path = use["path"].split(".")
    items = [item.strip().partition(" as ") for item in (use["names"] or "").split(",") if item.strip()]
    if path[0] != "Rattle" or path[1] not in names:
        module = ".".join(path[path[0] == "Rattle":])
        if "proofs" in path:
            return {}
        return {(here or there).strip(): ("library", module, there.strip()) for there, _, here in items}
    if path[2] not in ("specs", "proofs") or path[-1] == "TheVariants" and any(here for _, _, here in items):
        return None
    if path[3] == "declared":
        path = path[:-1] if path[-1] == "TheVariants" else path
        code = ("code", source_of(path[1], path[4:-1]), path[-1])
        return {name: code for name in [use["alias"]] if name} | {(here or there).strip(): code for there, _, here in items}
    kind, file = path[2][:-1], ".".join(path[3:])
    if use["names"] is None:
        return {use["alias"]: ("file", kind, path[1], file)} if use["alias"] else None
    return {(here or there).strip(): (kind, path[1], file, there.strip()) for there, _, here in items}


class Specs:
    """The definitions of all specs/ files of the tree, in the order in which they are to be read."""

    def __init__(self, top):
        self.top, self.crates = top, crates(top)
        # The lines of each definition; what the names of a file stand for; which names a file passes on; which definition has
        # a constructor or a field; the modules that a crate passes on; the definitions in their order; the misplaced laws.
        # The definitions of a file; what each definition names, once it was asked for; what the view of a type names.
        self.text, self.imports, self.passed, self.members, self.modules, self.order, self.laws = {}, {}, {}, {}, {}, [], []
        # Of the types of the code that specs/ name, what they come to.
        self.own, self.found, self.views, self.types = {}, {}, {}, {}
        for crate in self.crates:
            lib = top / "crates" / crate / "specs" / "Lib.antt"
            if lib.exists():
                self.read_modules(crate, lib, lib.parent, "")
        self.order.sort(key=self.places().get)

    def places(self):
        """The place of each definition: a file comes after those that it imports, and has its definitions in its own order."""
        files, seen = [], set()

        def visit(file):
            if file not in seen and file in self.imports:
                seen.add(file)
                for target in self.imports[file].values():
                    for found in self.resolved(target):
                        if found[0] == "spec":
                            visit(found[1:3])
                files.append(file)

        for key in self.order:
            visit(key[:2])
        return {key: (files.index(key[:2]), at) for at, key in enumerate(self.order)}

    def read_modules(self, crate, root, folder, prefix):
        """The files that a root names, and those of a folder of the same name."""
        for number, line in enumerate(root.read_text().splitlines(), 1):
            module = re.match(r"(?:pub )?mod (\w+)$", line)
            passed = re.match(r"pub use Rattle\.(\w+)\.specs\.([\w.]+)(?: as (\w+))?$", line)
            if module:
                path = folder / f"{module[1]}.antt"
                if not path.exists():
                    self.refuse(root, number, line)
                self.read_file(crate, prefix + module[1], path)
                self.read_modules(crate, path, folder / module[1], f"{prefix}{module[1]}.")
            elif passed:
                self.modules[crate, prefix + (passed[3] or passed[2].split(".")[-1])] = (passed[1], passed[2])

    def refuse(self, path, number, line):
        sys.exit(f"check/trust can't read this line:\n{path.relative_to(self.top)}:{number}: {line.strip()}")

    def uses(self, path, number, line):
        """What a use line brings."""
        brought = imported(line, self.crates)
        if brought is None:
            self.refuse(path, number, line)
        return brought

    def read_file(self, crate, name, path):
        file = (crate, name)
        self.imports[file], self.passed[file], self.members[file], self.own[file] = {}, {}, {}, []
        current = None
        for number, whole in enumerate(path.read_text().splitlines(), 1):
            line = plain_spec(whole)
            if not line:
                continue
            if re.match(r"(?:pub )?use ", line):
                module = re.match(r"pub use Rattle\.(\w+)\.specs\.([\w.]+)$", line)
                brought = {} if module else self.uses(path, number, line)
                self.imports[file].update(brought)
                if line.startswith("pub "):
                    self.passed[file].update(brought)
            start = DEFINITION.match(line)
            if start:
                current, kind = (*file, start[1] or start[3]), start[2]
                self.text[current] = []
                self.own[file].append(current[2])
                self.order.append(current)
            elif re.match(r"use |pub |mod |infix|ruleset |\S+ :( |$)", line):
                current = None
                law = re.match(r"(?:pub )?(?:ruleset )?(?!use |mod )([^\s:]+) (?::|=)(?: |$)", line)
                if law and not name.startswith("carried."):
                    self.laws.append(f"{path.relative_to(self.top)}: {law[1]}")
            elif current and kind:
                member = re.match(r" +(pub )?(\S+) :", line)
                if member:
                    self.members[file].setdefault(member[2], (current, kind))
            if current:
                self.text[current].append(whole)

    def resolved(self, target):
        """What a target comes to: one, or none where it is a law or the tree hasn't got it."""
        if target[0] == "file" or target[0] == "proof" and not self.is_defined(target):
            return []
        if target[0] == "code":
            if target not in self.types:
                self.types[target] = self.declared(*target[1:])
            return [self.types[target]]
        if target[0] != "spec":
            return [target]
        _, crate, file, name = target
        if (crate, file) in self.modules:
            crate, file = self.modules[crate, file]
            if crate not in self.crates:
                return [("library", f"{crate}.specs.{file}", name)]
        if (crate, file, name) in self.text:
            return [("spec", crate, file, name)]
        if name in self.members.get((crate, file), {}):
            return [("spec", *self.members[crate, file][name][0])]
        if name in self.passed.get((crate, file), {}):
            return self.resolved(self.passed[crate, file][name])
        return []

    def declared(self, place, name):
        """The type of the code where it is declared: a source file may pass on those of another module, or of a crate below."""
        path = self.top / "crates" / place
        if not path.exists():
            sys.exit(f"check/trust finds no file {place}, which has to have {name}")
        for start, group in re.findall(r"^pub use ((?:\w+::)+)(\w+(?: as \w+)?|\{[^}]*\});", path.read_text(), re.M):
            for item in group.strip("{}").split(","):
                there, _, here = item.strip().partition(" as ")
                if name == (here or there):
                    modules = start.split("::")[:-1]
                    if modules[0] in self.crates:
                        return self.declared(source_of(modules[0], modules[1:]), there)
                    crate, _, *inside = place.removesuffix(".rt").split("/")
                    inside = [] if inside == ["lib"] or modules[0] == "crate" else inside
                    return self.declared(source_of(crate, inside + [it for it in modules if it not in ("crate", "self")]), there)
        return "code", place, name

    def is_defined(self, target):
        """Whether a name of proofs/ is a definition and no law."""
        _, crate, file, name = target
        path = self.top / "crates" / crate / "proofs" / f"{file.replace('.', '/')}.antt"
        starts = DEFINITION.finditer(path.read_text()) if path.exists() else ()
        return any(name in (start[1], start[3]) for start in starts)

    def named(self, text, names):
        """What a text names, where names stand for this: pairs of a name and what it stands for."""
        words, found = words_of(text), []
        for name, target in names:
            parts = [part for part in name.split("◌") if part]
            operator = "◌" in name and (all(part in words for part in parts) or name == "◌>>=◌" and "←" in words)
            if target[0] == "file":
                for word in words:
                    if word.startswith(f"{name}."):
                        found += self.resolved((*target[1:], word.split(".")[1]))
            elif name in words or operator:
                found += self.resolved(target)
        return set(found)

    def names_in(self, key):
        """What a definition names."""
        if key not in self.found:
            self.found[key] = self.named_by(key, "\n".join(map(plain_spec, self.text[key])))
        return self.found[key]

    def named_by(self, key, text):
        """What a text of a definition names."""
        file = key[:2]
        # What its file imports, the other definitions there, and the constructors of the data types there.
        names = [*self.imports[file].items(), *((name, ("spec", *file, name)) for name in self.own[file])]
        names += [(name, ("spec", *other)) for name, (other, kind) in self.members[file].items() if kind == "data"]
        return self.named(text, names)

    def depend_on(self, roots, names_in=None):
        """The definitions among the roots, those that they name, and those that the views of their types name, in the order of
        reading; a cut says what a definition names of which it leaves something out."""
        seen, left = set(), list(roots)
        while left:
            target = left.pop()
            if target not in seen:
                seen.add(target)
                if target[0] == "proof":
                    sys.exit(f"a public clause depends on a definition of proofs/: {'/'.join(target[1:])}")
                left += (names_in or self.names_in)(target[1:]) if target[0] == "spec" else self.views.get(target[1:], ())
        return [key for key in self.order if ("spec", *key) in seen]


class Source:
    """What a crate's source exports, and its public clauses."""

    def __init__(self, top, crate):
        self.crate, self.folder = crate, top / "crates" / crate / "src"
        self.files = {path: path.read_text() for path in sorted(self.folder.rglob("*.rt"))}
        # The names that the crate's root gives to its callers, and the types and traits that it keeps.
        self.exported, self.public_modules = set(), set()
        self.export(self.folder / "lib.rt", "struct|enum|trait|const fn|fn")
        declared = set()
        for text in self.files.values():
            declared |= set(re.findall(r"^(?:pub(?:\([^)]*\))? )?(?:struct|enum|trait) (\w+)", text, re.M))
        self.hidden = declared - self.exported

    def export(self, path, kinds):
        """Takes in what a root or a public module exports, where its own items of these kinds are found by their names."""
        text = self.files.get(path, "")
        for group in re.findall(r"^pub use (?:\w+::)*(\w+|\{[^}]*\}|\*);", text, re.M):
            if "*" in group:
                sys.exit(f"check/trust can't read what {path} exports by *")
            self.exported |= set(re.findall(r"\w+", group))
        self.exported |= set(re.findall(rf"^pub (?:{kinds}) (\w+)", text, re.M))
        for module in re.findall(r"^pub mod (\w+);", text, re.M):
            self.public_modules.add(module)
            self.export(self.folder / f"{module}.rt", "struct|enum|trait")

    def block(self, header):
        """Of the header of a trait or an impl: its owner, which of its items are public (all, none, or those with `pub`), and the
        type whose view it says, where it does."""
        trait = re.match(r"(?:pub )?trait (\w+)", header)
        if trait:
            return trait[1], "none" if trait[1] in self.hidden else "all", None
        while "<" in header:
            # The innermost parameters first; an arrow is none.
            shorter = re.sub(r"<[^<>]*>", "", header.replace("->", ""))
            if shorter == header:
                break
            header = shorter
        names = re.match(r"impl\s+(?:(?P<trait>[\w:]+) for )?(?P<type>[^{]*)", header)
        kinds, trait = re.findall(r"\w+", names["type"].split(" where ")[0]), (names["trait"] or "").split("::")[-1]
        items = "none" if {*kinds, trait} & self.hidden else "all" if trait else "pub"
        return "impl", items, kinds[0] if trait == "Model" and kinds else None

    def clauses(self, path, specs):
        """Each public clause and ghost item of a file, and each item of a type's view: its owners (the function, and the trait or
        `impl`; of a view `view` and the type), its label, its text, and what the names of the file stand for."""
        lines, names, found = self.files[path].splitlines(), set(), []
        owner, items, viewed, function, indent, public, at = None, None, None, None, 0, False, 0
        while at < len(lines):
            line = plain_code(lines[at])
            at += 1
            if re.match(r"\s*ghost use ", line):
                # Two blocks of a file may give one name to two things: then it stands for both.
                names.update(specs.uses(path, at, line).items())
            if re.match(r"(?:pub )?trait |impl\b", line):
                header = line
                while "{" not in header and at < len(lines):
                    header += " " + plain_code(lines[at]).strip()
                    at += 1
                owner, items, viewed = self.block(header)
                function = None
            elif line == "}":
                owner, items, viewed, function = None, None, None, None
            fn = FN.match(line)
            if fn and len(fn["indent"]) == (4 if owner else 0):
                function, indent, visible = fn["name"], len(fn["indent"]), fn["visible"] == "pub "
                if owner:
                    public = items == "all" or items == "pub" and visible
                else:
                    public = visible and (path.stem in self.public_modules or function in self.exported)
            # A clause of a function stands one step behind it; one that stands deeper is of a function in its body.
            clause = function and re.match(" " * (indent + 4) + r"(?:ensures|requires)\b", line)
            ghost = owner and re.match(r"    ghost (?!use)\w+\s*[:=]", line)
            if clause or ghost:
                label = re.match(r"\s*ensures (\w+) *(?:\{|$)", line)
                text, depth, opened = [line], line.count("{") - line.count("}"), "{" in line
                while (depth > 0 or not opened) and at < len(lines):
                    text.append(plain_code(lines[at]))
                    depth += text[-1].count("{") - text[-1].count("}")
                    opened = opened or "{" in text[-1]
                    at += 1
                whole = re.sub(r"^\s*(?:ensures|requires|ghost)\*? *\w* *[:=]? *", "", "\n".join(text))
                if items != "none" if ghost else public:
                    found.append(({None if ghost else function, owner} - {None}, label and label[1], whole))
                if ghost and viewed:
                    found.append(({f"view {viewed}"}, None, whole))
        return [(owners, label, text, names) for owners, label, text in found]


class Tree:
    """The crates below a folder."""

    def __init__(self, top):
        self.top, self.specs = top, Specs(top)
        self.sources = {crate: Source(top, crate) for crate in self.specs.crates}
        # Each public clause: the places of its owners, as (crate, file, owner), its label, and what it names; and what a type's
        # view names.
        self.clauses, views = [], {}
        for crate, source in self.sources.items():
            for path in source.files:
                for owners, label, text, names in source.clauses(path, self.specs):
                    named = self.specs.named(text, names)
                    viewed = [owner.split()[1] for owner in owners if owner.startswith("view ")]
                    if viewed:
                        views.setdefault((f"{crate}/src/{path.relative_to(source.folder)}", viewed[0]), set()).update(named)
                    else:
                        self.clauses.append(({(crate, path.stem, owner) for owner in owners}, label, named))
        self.specs.views = views

    def traits_of(self, call):
        """The traits of a call's parameters and those that they need, as (crate, file, name)."""
        crate, file, name = call
        declared = {}
        for source in self.sources.values():
            for path, text in source.files.items():
                for trait in re.finditer(r"^pub trait (\w+)([^{]*)", text, re.M):
                    declared.setdefault(trait[1], []).append(((source.crate, path.stem, trait[1]), trait[2]))
        text = self.sources[crate].files.get(self.sources[crate].folder / f"{file}.rt", "")
        signature = re.search(rf"^pub fn {name}\b(.*?)(?=^\s*(?:ensures|requires)\b|\{{)", text, re.M | re.S)
        found, left = set(), re.findall(r"\w+", signature[1] if signature else "")
        while left:
            for trait, needed in declared.get(left.pop(), []):
                if trait not in found:
                    found.add(trait)
                    left += re.findall(r"\w+", needed)
        return found

    def roots(self, wanted):
        """What the clauses name of the wanted (crate, file, owner), and which of these have a clause."""
        found, used = set(), set()
        for owners, _, named in self.clauses:
            held = set(filter(wanted, owners))
            used |= held
            if held:
                found |= named
        return found, used

    def of_call(self, call, beside=frozenset()):
        """The definitions that a call depends on, with what is named beside it and the traits of its parameters."""
        wanted = {call, *beside, *self.traits_of(call)}
        found, used = self.roots(lambda it: it in wanted)
        if wanted - used:
            sys.exit("check/trust finds no clause of " + ", ".join(map("/".join, sorted(wanted - used))))
        return self.specs.depend_on(found)

    def of_clauses(self, call, labels, names_in=None):
        """The definitions that the call's clauses with these labels depend on."""
        found = {label: named for owners, label, named in self.clauses if call in owners}
        if not labels <= found.keys():
            sys.exit(f"check/trust finds no clause {', '.join(sorted(labels - found.keys()))} of {'/'.join(call)}")
        return self.specs.depend_on(set().union(*(found[label] for label in labels)), names_in)

    def of_crate(self, crate):
        """The definitions that the public calls of a crate depend on."""
        return self.specs.depend_on(self.roots(lambda it: it[0] == crate)[0])

    def words(self, keys, kind):
        """The types of the code, or the words of the library, that these definitions name, by where they stand."""
        places = {}
        for key in keys:
            for target in self.specs.names_in(key):
                if target[0] == kind:
                    places.setdefault(target[1], set()).add(target[2])
        return [(place, ", ".join(f"`{name}`" for name in sorted(places[place]))) for place in sorted(places)]
