"""The names that stand in the tree: paths, crates, definitions, functions, must-fail edits, keys of texts."""

import ast
import collections
import os
import pathlib
import re

SKIPPED = {".git", "target", "out", "__pycache__"}

# Names of an .rt file: what is declared, and what a struct, an enum or a variant with fields holds.
ITEM = re.compile(
    r'(?:pub(?:\(\w+\))? )?(?:unsafe )?(?:extern "C" )?'
    r"(fn|struct|enum|trait|const|static|mod|type|impl)(?:<.*?>)? (?:[\w:]+(?:<.*?>)? for )?(\w+)"
)
MEMBER = re.compile(r"(?:pub(?:\(\w+\))? )?(\w+)\s*(?::|,|\{|\(|$)")
HOLDERS = ("struct", "enum", "variant")

# Names of an .antt file: what is defined, and what a module, a record or a data type holds.
SECTION = re.compile(r"(?:(?:pub|abbrev|unfoldable) )*(module|record|data|mod) ([^\s(){}:=]+)")
DEFINED = re.compile(r"(?:(?:pub|abbrev|unfoldable) )*([^\s(){}:=]+(?: [^\s(){}:=]+)*) :(?:\s|$)")

# Of the proof of a function, the invariants and the answers, or all. Names there are those of what the prover asks.
OF_FUNCTION = ("Invariants.antt", "Answers.antt", "Proof.antt")

LITERAL = re.compile(r'\b(?:b|bytes )"([^"]*)"')


def below(root):
    """The paths of all files and folders of the tree, as the parts of their names."""
    for folder, folders, files in os.walk(root):
        folders[:] = sorted(set(folders) - SKIPPED)
        at = pathlib.Path(folder).relative_to(root).parts
        for name in [*folders, *files]:
            yield (*at, name)


def ends(path):
    """A path and every end of it. A folder of proofs has the name of a function, which is not enough to be a path."""
    of_function = path[0] == "crates" and path[2:3] == ("proofs",) and "." not in path[-1] and len(path) > 3
    return ["/".join(path[start:]) for start in range(len(path) - of_function)]


def indented(text):
    """The lines that hold something, each with its indent."""
    for line in text.splitlines():
        bare = line.lstrip()
        if bare and not bare.startswith(("//", "--", "#[")):
            yield len(line) - len(bare), bare


def rt_names(text):
    """The names that an .rt file declares, each with the names that it stands in."""
    stack = []
    for indent, line in indented(text):
        while stack and stack[-1][0] >= indent:
            stack.pop()
        inside = tuple(name for _, _, name in stack)
        kind = stack[-1][1] if stack else "file"
        item, member = ITEM.match(line), MEMBER.match(line)
        if item and kind in ("file", "impl", "trait", "mod"):
            if item[1] != "impl":
                yield inside, item[2]
            stack.append((indent, item[1], item[2]))
        elif member and kind in HOLDERS:
            yield inside, member[1]
            stack.append((indent, "variant" if kind == "enum" else "field", member[1]))


def antt_names(text):
    """The names that an .antt file defines, each with those that it stands in. Names within a clause are left out."""
    stack = [[-1, 0, ""]]  # the indent of a section, that of what it holds once it is known, and its name
    for indent, line in indented(text):
        while stack[-1][0] >= indent:
            stack.pop()
        section, defined = SECTION.match(line), DEFINED.match(line)
        if not section and not defined:
            continue
        stack[-1][1] = indent if stack[-1][1] is None else stack[-1][1]
        if stack[-1][1] != indent:
            continue
        inside = tuple(name for _, _, name in stack[1:])
        for name in [section[2]] if section else defined[1].split():
            yield inside, name
        if section:
            stack.append([indent, None, section[2]])


SOURCES = {"rt": rt_names, "antt": antt_names}


class Tree:
    def __init__(self, root):
        self.root = pathlib.Path(root)
        paths = list(below(self.root))
        self.ends = {end for path in paths for end in ends(path)}
        self.owners = collections.defaultdict(set)  # of each name, what it stands in
        self.edits, self.keys = set(), {}
        self.texts, self.commands = {}, {}  # of source files with folded spaces, and of files that can be run
        for path in paths:
            self.add(path)
        self.crates, self.libraries = self.read_crates()
        self.inputs = self.read_inputs()

    def text(self, path):
        """A file's text; of bytes that are none, what can be read."""
        return (self.root / path).read_text(errors="replace") if (self.root / path).is_file() else ""

    def add(self, path):
        """Adds what a file or folder stands for."""
        whole = "/".join(path)
        name, _, ending = path[-1].rpartition(".")
        if path[0] == "crates" and path[2:3] == ("must-fail",) and ending == "edit":
            self.edits |= {name, f"{path[1]}/{name}"}
        elif path[0] == "crates" and ending in SOURCES:
            self.add_source(path, name, self.text(whole))
        elif path[0] == "examples" and ending == "script":
            self.owners[name].add(("examples",))
        elif (self.root / whole).is_file() and os.access(self.root / whole, os.X_OK):
            self.commands[whole] = self.text(whole)

    def add_source(self, path, name, text):
        """Adds the names of a source file, which stand in its crate and in the module that it is, and its keys."""
        self.texts["/".join(path)] = " ".join(text.split())
        self.add_keys(text)
        if path[2] != "proofs" or path[-1] not in OF_FUNCTION:
            module = (path[1],) if name in ("lib", "main", "Lib") else (path[1], name)
            self.owners[name].add((path[1],))
            for inside, own in SOURCES[path[-1].rpartition(".")[2]](text):
                self.owners[own].add((*module, *inside))

    def add_keys(self, text):
        """Adds the keys of texts that stand in a file's byte strings, each with the words that may follow it."""
        for literal in LITERAL.findall(text):
            for key, word in re.findall(r"\b([a-z]+)=([a-z]*)", literal):
                self.keys.setdefault(key, set()).add(word)

    def read_crates(self):
        """The crates, and the libraries of the toolchain: those that a crate's line has, and `std`."""
        crates, used = set(), {"std"}
        for line in self.text("crates.txt").splitlines():
            name, colon, uses = line.partition("#")[0].partition(":")
            if colon:
                crates.add(name.split()[0])  # there may be settings behind it, as `staticlib`
                used |= set(uses.split())
        return crates, used - crates

    def read_inputs(self):
        """The names of the inputs of the benchmark."""
        for node in ast.parse(self.text("bench/inputs.py")).body:
            if isinstance(node, ast.Assign) and ast.unparse(node.targets[0]) == "INPUTS":
                return {key.value for key in node.value.keys}
        return set()

    def has_path(self, path):
        """Whether a path, or the end of one, is in the tree; `*` stands for any name."""
        path = path.rstrip("/")
        if "*" not in path:
            return path in self.ends
        pattern = re.compile(re.escape(path).replace(r"\*", "[^/]*"))
        return any(pattern.fullmatch(end) for end in self.ends)

    def has_name(self, parts):
        """Whether the last of the parts is a name that stands in the others, in their order. One letter is no name."""
        owners = self.owners.get(parts[-1], ())
        return len(parts[-1]) > 1 and any(in_order(parts[:-1], owner) for owner in owners)

    def has_text(self, text):
        """Whether a text stands in a source file, by itself; `..` stands for a few words."""
        before, after = (r"(?<!\w)" if text[:1].isalnum() else ""), (r"(?!\w)" if text[-1:].isalnum() else "")
        pattern = re.compile(before + re.escape(text).replace(r"\.\.", ".{0,80}?") + after)
        return any(pattern.search(source) for source in self.texts.values())


def in_order(some, whole):
    """Whether some names stand in a row of names, in their order."""
    left = iter(whole)
    return all(name in left for name in some)
