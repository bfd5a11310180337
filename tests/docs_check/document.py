"""Reads a document: its fenced blocks, and the rest of its lines.

A man page has no fenced blocks; what it sets in bold is what it quotes.
"""

import dataclasses
import re

FENCE = re.compile(r"( *)(`{3,}|~{3,})\s*([^`]*)$")
ITEM = re.compile(r"\s*(?:[-*+]|\d+[.)])\s+")
CODE = re.compile(r"(?<!`)(`+)(?!`)(.+?)(?<!`)\1(?!`)", re.DOTALL)
LINK = re.compile(r"\[[^\]]*\]\(([^)\s]+)\)")
BOLD = re.compile(r"\\fB(.+?)\\f[RPI]")
BOLD_LINE = re.compile(r"\.(?:B|BR|BI|RB|IB)\s+(.+)$")


@dataclasses.dataclass
class Block:
    """A fenced block: the line of its fence, the words after that, and what it holds."""

    line: int
    info: list
    lines: list
    closed: bool = False

    def setting(self, key):
        """The value of `key=value` among the words, or nothing."""
        return next((word[len(key) + 1 :] for word in self.info if word.startswith(key + "=")), "")


class Document:
    """`lines` are all lines, `prose` the same with those of fenced and indented blocks left empty."""

    def __init__(self, name, text):
        self.name = name
        self.manual = bool(re.search(r"\.[1-9]$", name))
        self.lines = text.splitlines()
        self.blocks = []
        self.prose = list(self.lines) if self.manual else without_indented(self.unfenced())

    def unfenced(self):
        """The lines with those of fenced blocks left empty; the blocks are noted."""
        prose, open_fence, indent = [], "", 0
        for number, line in enumerate(self.lines, 1):
            found = FENCE.match(line)
            if open_fence:
                if found and found[2].startswith(open_fence) and not found[3]:
                    self.blocks[-1].closed, open_fence = True, ""
                else:
                    self.blocks[-1].lines.append(re.sub(rf"^ {{0,{indent}}}", "", line))
                prose.append("")
            elif found:
                indent, open_fence = len(found[1]), found[2]
                self.blocks.append(Block(number, found[3].split(), []))
                prose.append("")
            else:
                prose.append(line)
        return prose

    def quoted(self):
        """Each text that the document quotes, with its line."""
        return manual_quotes(self.lines) if self.manual else code_spans(self.prose)

    def links(self):
        """Each file that the document links to, with its line."""
        for number, line in enumerate(self.prose, 1):
            for target in LINK.findall(CODE.sub("", line)):
                if not re.match(r"[a-z]+:|#", target):
                    yield number, target.partition("#")[0]


def without_indented(lines):
    """The lines with those of indented blocks left empty: four spaces after an empty line, and not in a list."""
    left, in_list, in_block, after_empty = [], False, False, True
    for line in lines:
        indented = line.startswith(("    ", "\t"))
        if line.strip():
            in_block = indented and not in_list and (after_empty or in_block)
            if ITEM.match(line):
                in_list = in_list or not in_block
            elif after_empty and not line.startswith(" "):
                in_list = False
        after_empty = not line.strip()
        left.append("" if in_block else line)
    return left


def paragraphs(lines):
    """Runs of lines that are not empty, each with the number of its first line."""
    first, run = 1, []
    for number, line in enumerate([*lines, ""], 1):
        if line.strip():
            first = first if run else number
            run.append(line)
        elif run:
            yield first, run
            run = []


def code_spans(lines):
    """Each text in backquotes, its spaces folded, with its line. One may go over the end of a line."""
    for first, run in paragraphs(lines):
        text = "\n".join(run)
        for found in CODE.finditer(text):
            yield first + text.count("\n", 0, found.start()), " ".join(found[2].replace("\\|", "|").split())


def manual_quotes(lines):
    """Each text that a man page sets in bold, with its line. A line that starts with a mark of comment has none."""
    for number, line in enumerate(lines, 1):
        if line.startswith(('.\\"', "'\\\"")):
            continue
        whole = BOLD_LINE.match(line)
        for text in [bold_word(whole)] if whole else BOLD.findall(line):
            yield number, text.replace("\\-", "-").replace("\\&", "").strip()


def bold_word(found):
    """What a line in bold says: all of it, or the first word where the fonts alternate."""
    words = re.findall(r'"[^"]*"|\S+', found[1])
    if found[0].startswith(".B "):
        return " ".join(word.strip('"') for word in words)
    return words[1 if found[0].startswith((".RB", ".IB")) and len(words) > 1 else 0].strip('"')
