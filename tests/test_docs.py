#!/usr/bin/env python3
"""Tests tests/docs on small documents and trees that are made up: good ones, and bad ones.

    python3 tests/test_docs.py
"""

import contextlib
import io
import pathlib
import sys
import tempfile
import textwrap
import unittest
import unittest.mock

HERE = pathlib.Path(__file__).resolve().parent
sys.dont_write_bytecode = True
sys.path.insert(0, str(HERE))

from docs_check import blocks, style
from docs_check.document import Block, Document
from docs_check.main import main
from docs_check.names import Names, read_words
from docs_check.tree import Tree, antt_names, rt_names

TREE = {
    "crates.txt": "# NAME: the crates that it uses\nrules:\nscript: rules json\nregister: script\nffi staticlib: rules\n",
    "crates/rules/specs/Words.antt": """\
        -- A reader must believe this.
        use Rattle.std.specs.Prelude.{Bool, ℕ}

        abbrev pub most_tasks : ℕ
        most_tasks = 16

        pub record Span
            (of : ℕ)
            : Type 0 where
          pub start : ℕ
          pub finish : ℕ
          pub n : ℕ

        pub data Resource : Type 0 where
          machine : ℕ → Resource
          link : ℕ → ℕ → Resource

        unfoldable pub meets : Span → Bool
        meets s = inner
          where
            inner : Bool
            inner = bytes "deadline="
        """,
    "crates/rules/proofs/rows/gone/Invariants.antt": "kept : Need\n",
    "crates/rules/proofs/rows/gone/Answers.antt": "pub needed : goal.needed\n",
    "crates/rules/proofs/rows/older/Proof.antt": "asked : Need\n",
    "crates/rules/out/incremental/Kept.antt": "pub built : Bool\n",
    "crates/rules/src/lib.rt": """\
        pub mod rows;

        pub const TASKS: usize = 16;

        pub struct Row {
            pub start: u32,
        }

        pub enum Holder {
            TaskOn {
                machine: u8,
            },
            Nothing,
        }

        impl Row {
            pub fn new(start: u32, finish: u32) -> Self {
                let inner = 3;
            }
        }

        impl fmt::Display for Row {
            fn fmt<W: fmt::Write>(&self, f: &mut fmt::Formatter<W>) -> fmt::Result {
                let inner = 4;
            }
        }

        pub trait Listed {
            fn place<W: Write>(&self, writer: &mut W) -> u32;
        }

        impl<T: Listed> Held<T> {
            pub fn held(&self) -> u32 {
                let inner = 5;
            }
        }
        """,
    "crates/rules/src/rows.rt": 'pub fn blank() -> Row {\n    begun(text, b"job=")\n}\n',
    "crates/script/src/main.rt": """\
        fn main() {
            std::fs::read(rest);
            put(b"act=submit\\n");
            let Some(x) = y else {
        """,
    "crates/register/src/main.rt": "fn main() {\n}\n",
    "crates/ffi/src/lib.rt": "",
    "crates/script/must-fail/one_job_listed.edit": "an edit\n",
    "examples/first.script": "act=submit\njob=7\n",
    "examples/first.out": "answer=0\ntask=0\ncost=20\n",
    "bench/inputs.py": 'INPUTS = {\n    "mixed": 1,\n    "worst-link": 2,\n}\n',
    "tests/tool": "#!/bin/sh\n# --all\n",
}


def made_tree(folder):
    """Writes the tree to a folder."""
    for name, text in TREE.items():
        path = pathlib.Path(folder) / name
        path.parent.mkdir(parents=True, exist_ok=True)
        path.write_text(textwrap.dedent(text))
    (pathlib.Path(folder) / "tests/tool").chmod(0o755)
    return pathlib.Path(folder)


class OverATree(unittest.TestCase):
    """Tests that have the tree, a document in it, and what tests/docs prints of that."""

    def setUp(self):
        self.folder = tempfile.TemporaryDirectory(prefix="register-docs-")
        self.addCleanup(self.folder.cleanup)
        self.root = made_tree(self.folder.name)

    def checked(self, text, *options, words=""):
        """The exit status, and the lines that are printed, of a check of the README with a text."""
        (self.root / "README.md").write_text(text)
        (self.root / "tests/docs.words").write_text(words)
        printed = io.StringIO()
        with contextlib.redirect_stdout(printed):
            status = main(list(options), self.root)
        return status, printed.getvalue().splitlines()

    def passes(self, text, *options, **more):
        status, lines = self.checked(text, *options, **more)
        self.assertEqual((status, lines[:-1]), (0, []))
        self.assertRegex(lines[-1], r"^\d+ checks, 0 failed$")

    def fails(self, text, *due, options=(), **more):
        """The first lines that are printed are those that are due, and as many checks have failed."""
        status, lines = self.checked(text, *options, **more)
        self.assertEqual(status, 1)
        self.assertEqual([line for line in lines[:-1] if not line.startswith(" ")], list(due))
        self.assertRegex(lines[-1], rf"^\d+ checks, {len(due)} failed$")


class TestDocument(unittest.TestCase):
    def test_blocks(self):
        text = "One `two`.\n\n```console slow\n$ true `no`\n```\n\n~~~\nopen `no`\n```\n~~~\n"
        document = Document("a.md", text + "\n- item\n\n  ```text file=a\n  x\n  ```\n")
        found = [(block.line, block.info, block.lines, block.closed) for block in document.blocks]
        due = [(3, ["console", "slow"], ["$ true `no`"], True), (7, [], ["open `no`", "```"], True)]
        self.assertEqual(found, [*due, (14, ["text", "file=a"], ["x"], True)])
        self.assertEqual(list(document.quoted()), [(1, "two")])
        self.assertEqual(document.blocks[2].setting("file"), "a")

    def test_block_without_end(self):
        self.assertFalse(Document("a.md", "```\nx\n").blocks[0].closed)

    def test_quotes(self):
        text = "A `one\ntwo` and ``a ` b``.\n\n    no `code` here\n\n- item\n\n      more `here`\n"
        found = list(Document("a.md", text + "\n| `x \\| y` | `z` |\n").quoted())
        self.assertEqual(found, [(1, "one two"), (2, "a ` b"), (8, "here"), (10, "x | y"), (10, "z")])
        self.assertEqual(list(Document("a.md", "One\n    `two` more\n").quoted()), [(2, "two")])

    def test_links(self):
        text = "[a](docs/A.md#part) [b](https://c.d) [e](#f) `[g](h)` [i](j)\n"
        self.assertEqual(list(Document("a.md", text).links()), [(1, "docs/A.md"), (1, "j")])

    def test_manual(self):
        text = '.\\" \\fBnot\\fR\n.B register\nreads \\fBact=submit\\fR and \\fBx\\-y\\fP.\n'
        found = list(Document("a.1", text + ".BR rt (1)\n.RB [ \\-\\-all ]\n").quoted())
        self.assertEqual(found, [(2, "register"), (3, "act=submit"), (3, "x-y"), (4, "rt"), (5, "--all")])


class TestTree(OverATree):
    def test_names_of_rt(self):
        text = textwrap.dedent(TREE["crates/rules/src/lib.rt"])
        found = {"::".join((*inside, name)) for inside, name in rt_names(text)}
        due = "rows TASKS Row Row::start Holder Holder::TaskOn Holder::TaskOn::machine Holder::Nothing Row::new Row::fmt"
        due += " Listed Listed::place Held::held"
        self.assertEqual(found, set(due.split()))

    def test_names_of_antt(self):
        text = textwrap.dedent(TREE["crates/rules/specs/Words.antt"])
        found = {".".join((*inside, name)) for inside, name in antt_names(text)}
        due = "most_tasks Span Span.start Span.finish Span.n Resource Resource.machine Resource.link meets"
        self.assertEqual(found, set(due.split()))

    def test_the_rest(self):
        tree = Tree(self.root)
        self.assertEqual(tree.crates, {"rules", "script", "register", "ffi"})
        self.assertEqual(tree.libraries, {"std", "json"})
        self.assertEqual(tree.edits, {"one_job_listed", "script/one_job_listed"})
        self.assertEqual(tree.inputs, {"mixed", "worst-link"})
        self.assertEqual(tree.keys, {"deadline": {""}, "job": {""}, "act": {"submit"}})
        self.assertEqual(set(tree.commands), {"tests/tool"})


class TestNames(OverATree):
    # With `,` between them, and `|` for a `,` in one.
    GOOD = """crates/rules/specs/Words.antt, rules/specs/Words.antt, Words.antt, specs/, rules/src/*.rt, NAME.script,
        proofs/MODULE/FUNCTION/Answers.antt, gone/Invariants.antt, out/, crates/register/out/register, out/register,
        crates/NAME/out/NAME, crates/ffi/out/libffi.a, out/libNAME.a, ffi/out/, rules, std, json, Words, most_tasks, Span,
        Span.start, Words.Span.finish, rules.Words.meets, Words.meets, Resource, link, TASKS, Row, Row::new,
        rules::Row::new, rows, rules::rows::blank, rules::blank, Holder::TaskOn, Nothing, std::fs::read, one_job_listed,
        Row::fmt, Held::held, Listed::place(writer),
        script/one_job_listed, first, mixed, worst-link, deadline, deadline=, job=7, job=N, act=submit,
        act=submit job=7, 65|536, begun(text| b"job="), let .. else, rt, rt ci, rt ci register, rt ci CRATE, rt check,
        RT_JOBS=1 rt must-fail rules, rt run -- first, rt all check, tests/tool --all, --all,
        crates/register/out/register < examples/first.script, cd crates/ffi && rt lib,
        (cd crates/register && rt run < ../../examples/first.script), cd crates/rules && rt check && cd ../.. && tests/tool,
        cd crates/register && out/register < /dev/null, python3 tests/tool, Row::new(start| finish), blank()"""
    BAD = """crates/rules/specs/Word.antt, rules/Words.antt, Word.antt, OTHER.script, out/rules.x, gone, older, kept, asked,
        out/nothing, crates/rules/out/register, out/libnothing.a, target/bin/register, built, Kept.antt, fmt::fmt,
        rulez, Span.begin, Words.start.Span, Span::new, inner, needed, blank::rows, script::blank, most-tasks,
        Holder::Row, std::fs::write, two_jobs_listed, rules/one_job_listed, second, dense, dead, act=withdraw, deadline=x,
        act=submit job, act=submit jobs=7, job=7x, a, begun(text| b"act="), rt cj, rt ci rulez, tests/tool --none,
        --none, tests/tools, crates/register/out/register < examples/second.script, rt ci register && tests/tools,
        rt check register, rt staticlib ffi, rt dev rules, (rt ci, cd crates/rulez && rt check, cd .. && rt ci,
        cd crates/register && rt run < examples/first.script, cd crates/register && crates/register/out/register,
        Row::new(finish| start), blank(row), rules::main(), n, put(b"act=sub"""

    def texts(self, listed):
        return [" ".join(text.split()).replace("|", ",") for text in listed.split(",")]

    def test_good(self):
        names = Names(Tree(self.root))
        self.assertEqual([text for text in self.texts(self.GOOD) if names.missing(text)], [])

    def test_bad(self):
        names = Names(Tree(self.root))
        self.assertEqual([text for text in self.texts(self.BAD) if not names.missing(text)], [])

    def test_documents(self):
        self.passes("# `rules`\n\nThe `Span` of [it](examples/first.out), and `Span.start`.\n")
        self.fails(
            "# `rulez`\n\nThe `Span`\nof [it](examples/second.out),\n`Span.begin`.\n",
            "README.md:1: no such name: rulez",
            "README.md:5: no such name: Span.begin",
            "README.md:4: no such file: examples/second.out",
        )

    def test_words(self):
        self.passes("It is `odd`, `a | b`.\n", words="# words\n\nodd | a word\na | b | another\n")
        stale = "tests/docs.words:2: no document quotes it: even"
        self.fails("It is `odd`.\n", stale, words="odd | a word\neven | a word\n")
        self.fails("`rules`.\n", "tests/docs.words:1: it is a name of the tree: rules", words="rules | a word\n")
        for text in ("odd\n", "odd |\n", "odd | \n"):
            self.assertRaises(ValueError, read_words, text)

    def test_other_documents(self):
        (self.root / "docs/changes").mkdir(parents=True)
        (self.root / "docs/changes/old.md").write_text("`gone`\n")
        self.passes("`rules`\n")
        (self.root / "docs/HANDBOOK.md").write_text("`gone`\n")
        (self.root / "docs/register.1").write_text(".B lost\n")
        self.fails("`rules`\n", "docs/HANDBOOK.md:1: no such name: gone", "docs/register.1:1: no such name: lost")


class TestBlocks(OverATree):
    def test_matches(self):
        def holds(due, printed):
            return blocks.matches(due.split(), printed.split())

        for due, printed in (("", ""), ("a b", "a b"), ("...", ""), ("...", "a b"), ("a ...", "a"), ("... b", "a b")):
            self.assertTrue(holds(due, printed), (due, printed))
        for due, printed in (("a ... c", "a b b c"), ("... b ... d", "a b c d"), ("a ... b c ... d", "a b x b c d")):
            self.assertTrue(holds(due, printed), (due, printed))
        for due, printed in (("", "a"), ("a", ""), ("a b", "b a"), ("a ...", "b a"), ("... b", "b a")):
            self.assertFalse(holds(due, printed), (due, printed))
        for due, printed in (("a ... b ... c", "a c"), ("... b a ...", "a b"), ("... b ... b ...", "b")):
            self.assertFalse(holds(due, printed), (due, printed))
        for due, printed in (("a ... a", "a"), ("... a b", "b")):
            self.assertFalse(holds(due, printed), (due, printed))

    def test_commands(self):
        block = Block(10, ["console"], ["$ one \\", "  two", "x", "", "$ three", "$ four", "y"])
        self.assertEqual(blocks.commands(block), [[11, "one   two", ["x", ""]], [15, "three", []], [16, "four", ["y"]]])

    def test_console(self):
        self.passes("```console\n$ cat examples/first.out\nanswer=0\n...\n$ true\n$ echo a >&2; echo b\na\nb\n```\n")
        self.fails("```console\n$ echo a\nb\n```\n", "README.md:2: prints something else: echo a")
        due = [f"README.md:{line}: prints something else: echo {word}" for line, word in ((2, "a"), (3, "b"))]
        self.fails("```console\n$ echo a\n$ echo b\nb\nc\n```\n", *due)
        self.fails("```console\n$ echo a; exit 3\na\n```\n", "README.md:2: ends with status 3: echo a; exit 3")
        self.fails("```console\na\n```\n", "README.md:1: a console block has to begin with a command, after `$ `")
        self.fails("```console\n$ true\n", "README.md:1: this fence has no end")

    def test_patience(self):
        wrong = blocks.wrong_command("echo a; sleep 60", ["a"], self.root, 0.2)
        self.assertEqual(wrong, "has not ended after 0.2 seconds: echo a; sleep 60")

    def test_slow(self):
        text = "```console slow\n$ tests/tool --all\nmuch\n```\n"
        self.passes(text)
        self.fails(text, "README.md:2: prints something else: tests/tool --all", options=["--all"])
        self.passes(text.replace("much\n", ""), "--all")
        self.fails("```console slow\n$ tests/tool --none\n```\n", "README.md:2: no such command: tests/tool --none")

    def test_not_run(self):
        self.passes("```\n$ false\n```\n\n```text\n$ false\n```\n\n```sh\nfalse\n```\n\n    $ false\n")

    def test_register(self):
        text = "```console\n$ crates/register/out/register < examples/first.script\nanswer=0\n```\n"
        building = '#!/bin/sh\n[ "$*" = run ] && mkdir -p out && cp ../../bin/built out/register\n'
        for name, does in (("rt", building), ("built", "#!/bin/sh\necho answer=0\n")):
            (self.root / "bin").mkdir(exist_ok=True)
            (self.root / "bin" / name).write_text(does)
            (self.root / "bin" / name).chmod(0o755)
        with unittest.mock.patch.dict("os.environ", PATH=f"{self.root}/bin:/usr/bin:/bin"):
            self.passes(text)
            (self.root / "bin/rt").unlink()
            self.passes(text)
            (self.root / "crates/register/out/register").unlink()
            status, lines = self.checked(text)
        self.assertEqual(status, 1)
        self.assertTrue(lines[0].startswith("README.md:2: the register is not built: "), lines)

    def test_files(self):
        whole = "answer=0\ntask=0\ncost=20\n"
        self.passes(f"```file=examples/first.out\n{whole}```\n")
        self.passes("```text file=examples/first.out lines=2-3\ntask=0\ncost=20\n```\n")
        self.fails(f"```text file=examples/first.out\n{whole}\n```\n", "README.md:1: is not examples/first.out")
        self.fails("```file=examples/first.out lines=1-2\nanswer=0\n```\n", "README.md:1: is not examples/first.out")
        self.fails("```file=examples/first.out lines=2-4\n```\n", "README.md:1: no such lines: 2-4 of 3")
        self.fails("```file=examples/none.out\n```\n", "README.md:1: no such file: examples/none.out")


class TestStyle(OverATree):
    def lengths(self, text):
        return [(line, len(words)) for line, words, _ in style.sentences(Document("a.md", text).prose)]

    def test_sentences(self):
        for text, due in (
            ("One two. Three\nfour: five; six? seven\n", [(1, 2), (1, 2), (2, 1), (2, 1), (2, 1)]),
            ('It says "one." Then (two.) **Three.** 3.5 is one\n', [(1, 3), (1, 2), (1, 1), (1, 3)]),
            ("Of `a b. c` and [two words](x.y) - one `*`\n", [(1, 7)]),
            ("Of `a\nb.` and\n`c` on. More\n", [(1, 5), (3, 1)]),
            ("- one\n  two\n- three\n1. four\n\n> five\n> six\n", [(1, 2), (3, 1), (4, 1), (6, 2)]),
        ):
            self.assertEqual(self.lengths(text), due)

    def test_left_out(self):
        text = "# A heading\n\n```\nin a block\n```\n\n    indented text\n\n<!-- a comment -->\n---\n"
        self.assertEqual(self.lengths(text), [])

    def test_tables(self):
        text = "| one | two three |\n|---|---|\n| `a` in `b`; `c`, `d` | four. five |\n"
        self.assertEqual(self.lengths(text), [(1, 1), (1, 2), (3, 1), (3, 1), (3, 1)])

    def test_check(self):
        words = " ".join(["word"] * 20)
        status, lines = self.checked(f"{words}. Two words.\n\n| One |\n", "--style")
        self.assertEqual((status, lines[-1]), (0, "3 checks, 0 failed"))
        self.assertIn("In all 2 sentences of 11.0 words on average", lines)
        status, lines = self.checked(f"Two words.\n{words}\nmore. One.\n", "--style")
        self.assertEqual((status, lines[-1]), (1, "3 checks, 1 failed"))
        self.assertEqual(lines[0], "README.md:2: a sentence of 21 words: word word word word word word ..")

    def test_long_lines(self):
        long = "word. " * 25
        status, lines = self.checked(f"{long}\n\n| {long} |\n\n```\n{long}\n```\n", "--style")
        self.assertEqual((status, lines[0]), (0, "README.md:1: a line of 150 characters"))
        self.assertEqual(len([line for line in lines if "characters" in line]), 1)


if __name__ == "__main__":
    unittest.main()
