"""What tests/docs does."""

import argparse
import pathlib

from docs_check.blocks import check_blocks
from docs_check.document import Document
from docs_check.names import Names, read_words
from docs_check.report import Report
from docs_check.style import check_style
from docs_check.tree import Tree

DOCUMENTS = ("README.md", "docs/*.md", "docs/*.[1-9]", "docs/man/*.[1-9]", "man/*.[1-9]")
WORDS = "tests/docs.words"
# Says what changed, and so quotes names that are gone.
PAST = ("docs/PORT.md", "docs/DESIGN-PASS.md", "docs/LOOK-BACK.md")


def documents(root, files):
    """The documents that are named, or all of them."""
    paths = [pathlib.Path(file).resolve() for file in files]
    for path in paths or [path for form in DOCUMENTS for path in sorted(root.glob(form))]:
        name = path.relative_to(root) if path.is_relative_to(root) else path
        yield Document(str(name), path.read_text())


def check_names(document, names, report):
    """Checks what a document quotes, and where its links lead."""
    for line, quoted in document.quoted():
        missing = names.missing(quoted)
        report.note(f"{document.name}:{line}", f"no such name: {missing}" if missing else "")
    for line, target in document.links():
        there = (names.tree.root / document.name).parent.joinpath(target).exists()
        report.note(f"{document.name}:{line}", "" if there else f"no such file: {target}")


def check_words(names, report):
    """Checks that each word of the list is quoted, and is no name of the tree."""
    for word, line in names.words.items():
        if word not in names.used:
            wrong = f"no document quotes it: {word}"
        else:
            wrong = f"it is a name of the tree: {word}" if names.in_tree(word) else ""
        report.note(f"{WORDS}:{line}", wrong)


def check(root, given, report):
    """Checks names and blocks."""
    path = root / WORDS
    names = Names(Tree(root), read_words(path.read_text()) if path.is_file() else {})
    for document in documents(root, given.files):
        if document.name in PAST:
            continue
        check_names(document, names, report)
        check_blocks(document, names, report, given.all)
    if not given.files:
        check_words(names, report)


def style(root, given, report):
    """Checks how long sentences are, and prints how long they are on average."""
    all_sentences = all_words = 0
    for document in documents(root, given.files):
        if not document.manual:
            count, words = check_style(document, report)
            print(f"{document.name}: {count} sentences of {words / max(count, 1):.1f} words on average")
            all_sentences, all_words = all_sentences + count, all_words + words
    print(f"In all {all_sentences} sentences of {all_words / max(all_sentences, 1):.1f} words on average")


def main(words, root, usage=""):
    """Checks as the words of the command say; the exit status."""
    reading = argparse.ArgumentParser(description=usage, formatter_class=argparse.RawDescriptionHelpFormatter)
    reading.add_argument("--all", action="store_true", help="run slow blocks too")
    reading.add_argument("--style", action="store_true", help="look at sentences and lines alone")
    reading.add_argument("files", nargs="*", metavar="FILE")
    given = reading.parse_args(words)
    report = Report()
    (style if given.style else check)(root, given, report)
    return report.end()
