"""Whether a name that a document quotes stands in the tree."""

import itertools
import os
import re
import shlex

from docs_check.lists import split_at

# What a document writes in the place of a name.
STAND_INS = re.compile(r"\b(?:NAME|MODULE|FUNCTION|CRATE|FILE)\b")
TOOLS = ("sh", "python3", "cargo", "git", "valgrind")
# The commands of `rt`: those at the top of the tree, which take crates; those in a crate's folder, which take none; more.
OF_CRATES = "ci must-fail".split()
IN_CRATE = "check verdict lib run test try fmt tidy plant".split()
RT = OF_CRATES + IN_CRATE + "all new expand lemma seed names doc version help selftest".split()
JOINS = {"&&", "||", "|", ";"}
BUILT = re.compile(r"(?:(?:crates/)?(\w+)/)?out(?:/(?:lib(\w+)\.a|(\w+)))?/?")


def read_words(text):
    """The words of tests/docs.words, which are no names of the tree, each with its line. After ` | ` is the reason."""
    words = {}
    for number, line in enumerate(text.splitlines(), 1):
        if line.strip() and not line.startswith("#"):
            word, mark, reason = line.rpartition(" | ")
            if not mark or not reason.strip():
                raise ValueError(f"line {number} is not `word | reason`")
            words[word] = number
    return words


class Names:
    """`words` are quoted words that are no names. `used` are those that a document did quote."""

    def __init__(self, tree, words=()):
        self.tree = tree
        self.words = words
        self.used = set()

    def missing(self, quoted):
        """What of a quoted text is no name of the tree, or nothing."""
        if quoted in self.words:
            self.used.add(quoted)
            return ""
        return "" if self.in_tree(quoted) else quoted

    def in_tree(self, quoted):
        """Whether a quoted text is a figure, or a name of the tree of any kind."""
        if re.fullmatch(r"\d[\d,_]*", quoted):
            return True
        kinds = [self.is_path, self.is_name, self.are_fields, self.is_call]
        kinds += [self.is_option, self.is_command, self.is_fragment]
        return any(kind(quoted) for kind in kinds)

    def is_path(self, quoted):
        """A path, or the end of one; or something that the toolchain builds of a crate."""
        if self.tree.has_path(STAND_INS.sub("*", quoted)):
            return True
        built = BUILT.fullmatch(quoted)
        crates = {crate for crate in built.groups() if crate} if built else set()
        return bool(built) and len(crates) < 2 and all(self.is_crate(crate) for crate in crates)

    def is_crate(self, quoted):
        """A crate of the tree, or what stands for one."""
        return quoted in self.tree.crates or bool(STAND_INS.fullmatch(quoted))

    def is_name(self, quoted):
        """A crate, a must-fail edit, an input of the benchmark, or a name of a source file, perhaps after its place."""
        if quoted in self.tree.crates | self.tree.libraries | self.tree.edits | self.tree.inputs:
            return True
        parts = quoted.split("::") if "::" in quoted else quoted.split(".")
        if parts[0] in self.tree.libraries:
            return self.tree.has_text(quoted)
        return self.tree.has_name([quoted]) or self.tree.has_name(parts)

    def are_fields(self, quoted):
        """One key of a text, or keys with equals signs: each alone, or with a figure, a letter for one, or its word."""
        fields = quoted.split()
        return all(self.is_field(field) and ("=" in field or len(fields) == 1) for field in fields)

    def is_field(self, field):
        key, _, value = field.partition("=")
        words = self.tree.keys.get(key)
        return words is not None and (not value or value in words or bool(re.fullmatch(r"\d+|[A-Z]", value)))

    def is_call(self, quoted):
        """A function with the names of its parameters, in their order: some of them, or all."""
        found = re.fullmatch(r"([\w:]+)\(([\w ,]*)\)", quoted)
        if not found or not self.is_name(found[1]):
            return False
        parameters = "".join(rf"[^)]*?\b{name}: " for name in re.findall(r"\w+", found[2]))
        pattern = re.compile(rf"\bfn {found[1].split('::')[-1]}(?:<[^(]*>)?\({parameters}")
        return any(pattern.search(text) for text in self.tree.texts.values())

    def is_fragment(self, quoted):
        """Something of the code that is more than a name or a path, and stands in a source file so."""
        return bool(re.search(r"[^\w.:/*-]", quoted)) and self.tree.has_text(quoted)

    def is_option(self, quoted):
        """An option of a command of the tree."""
        return bool(re.fullmatch(r"--[\w-]+", quoted)) and any(quoted in text for text in self.tree.commands.values())

    def is_command(self, quoted):
        """A command line, each of whose commands is one of the tree or a known tool. It may stand in brackets."""
        try:
            reader = shlex.shlex(quoted, posix=True, punctuation_chars=True)
            reader.whitespace_split = True
            words = list(reader)
        except ValueError:
            return False
        if words[:1] == ["("] and words[-1:] == [")"]:
            words = words[1:-1]
        folder = ""
        for command in split_at(JOINS, words):
            if command[:1] == ["cd"]:
                folder = self.entered(folder, command[1:])
                if folder is None:
                    return False
            elif not self.is_simple_command(command, folder):
                return False
        return True

    def entered(self, folder, words):
        """The folder that `cd` leads to, or nothing if there is none."""
        path = os.path.normpath(os.path.join(folder, *words)) if len(words) == 1 else ".."
        return path if path == "." or self.is_path(path) else None

    def is_simple_command(self, words, folder):
        """A command in a folder of the tree. A file that it names has to be there."""
        while words and re.fullmatch(r"[A-Z_]+=\S*", words[0]):
            words = words[1:]
        if not words:
            return False
        name, rest = words[0], words[1:]
        files = [word for word in rest if re.search(r"\w/", word) and not word.startswith("-")]
        files = [os.path.normpath(os.path.join(folder, word)) for word in files]
        if not all(self.is_path(file) or file == "/dev/null" for file in files):
            return False
        if name == "rt":
            return self.is_rt(rest)
        return name in TOOLS or self.is_own(os.path.normpath(os.path.join(folder, name)), rest)

    def is_rt(self, rest):
        """The words after `rt`: one that it knows, and crates where it takes them."""
        if not rest or rest[0] not in RT:
            return not rest
        named = itertools.takewhile(lambda word: word not in ("--", "<", ">"), rest[1:])
        named = [word for word in named if not word.startswith("-")]
        if rest[0] in OF_CRATES:
            return all(map(self.is_crate, named))
        return rest[0] not in IN_CRATE or not named

    def is_own(self, name, rest):
        """A program of the tree, and options that its text has."""
        if re.search(r"(?:^|/)out/", name):
            return self.is_path(name)
        options = [word.partition("=")[0] for word in rest if word.startswith("--")]
        return name in self.tree.commands and all(option in self.tree.commands[name] for option in options)
