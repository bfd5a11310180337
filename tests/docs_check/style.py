"""How long the sentences and lines of a document are.

A sentence ends at . ! ? : or ; before a space or the end of a line, and where its paragraph, item or cell ends. What is
in backquotes is one word, and none in a table, whose cells list names. Headings and blocks have no sentences. Cells are
left out of the average, since most of them are a figure or a name.
"""

import re

from docs_check.document import CODE, ITEM, paragraphs

MOST_WORDS, MOST_CHARACTERS = 20, 120
END = re.compile(r"""[.!?:;]["'”’)\]*_]*$""")
SKIPPED = re.compile(r"\s*(?:#{1,6}\s|\||[-=*_]{3,}\s*$|\[[^\]]+\]:\s)")
LINK = re.compile(r"!?\[([^\]]*)\](?:\([^)]*\)|\[[^\]]*\])")


def one_word(found):
    """What is in backquotes, with no space in it. Line ends stay, behind it."""
    return "`" + "_".join(found[2].split()) + "`" + "\n" * found[2].count("\n")


def plain(text):
    """Text without comments, with what links show in their place, and what is in backquotes as one word."""
    text = re.sub(r"<!--.*?-->", lambda found: "\n" * found[0].count("\n"), text, flags=re.DOTALL)
    return LINK.sub(r"\1", CODE.sub(one_word, text))


def cells(line):
    """The cells of a line of a table, without what is in backquotes."""
    return re.split(r"(?<!\\)\|", plain(CODE.sub("··", line)).strip().strip("|"))


def pieces(lines):
    """The paragraphs, items and cells of a document. Of each its line, its text, and whether it is a cell."""
    for first, run in paragraphs(lines):
        begun = None
        for number, line in enumerate(run, first):
            text = re.sub(r"^\s*(?:>\s?)+", "", line)
            if begun and (ITEM.match(text) or SKIPPED.match(text)):
                yield begun[0], plain("\n".join(begun[1])), False
                begun = None
            if text.lstrip().startswith("|"):
                yield from ((number, cell, True) for cell in cells(text))
            elif not SKIPPED.match(text):
                begun = begun or (number, [])
                begun[1].append(ITEM.sub("", text, count=1) if ITEM.match(text) else text)
        if begun:
            yield begun[0], plain("\n".join(begun[1])), False


def sentences(lines):
    """Each sentence of a document: the line where it begins, its words, and whether it is in a table."""
    for first, text, cell in pieces(lines):
        words, line = [], first
        for found in re.finditer(r"\S+", text):
            line = line if words else first + text.count("\n", 0, found.start())
            if re.search(r"[\w`]", found[0]):
                words.append(found[0])
            if END.search(found[0]) and words:
                yield line, words, cell
                words = []
        if words:
            yield line, words, cell


def long_lines(document):
    """Lines that are too long, but for those of tables and of fenced blocks."""
    for number, line in enumerate(document.prose, 1):
        if len(line) > MOST_CHARACTERS and not line.lstrip().startswith("|"):
            yield number, len(line)


def check_style(document, report):
    """Reports sentences that are too long, and names lines that are; how many sentences and words are in no table."""
    count = words_in_all = 0
    for line, words, cell in sentences(document.prose):
        count, words_in_all = count + (not cell), words_in_all + len(words) * (not cell)
        wrong = f"a sentence of {len(words)} words: {' '.join(words[:6])} .." if len(words) > MOST_WORDS else ""
        report.note(f"{document.name}:{line}", wrong)
    for line, length in long_lines(document):
        print(f"{document.name}:{line}: a line of {length} characters")
    return count, words_in_all
