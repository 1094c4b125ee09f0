"""Tests of tools/quick: in small trees, each part finds its faults and passes what is good. Run as python3 tools/quick_test.py."""
import contextlib
import importlib.machinery
import importlib.util
import io
import os
import shutil
import signal
import subprocess
import sys
import tempfile
import time
import unittest
from pathlib import Path
from unittest import mock

sys.dont_write_bytecode = True
SCRIPT = Path(__file__).resolve().with_name("quick")
loader = importlib.machinery.SourceFileLoader("quick", str(SCRIPT))
quick = importlib.util.module_from_spec(importlib.util.spec_from_loader("quick", loader))
loader.exec_module(quick)


class InTree(unittest.TestCase):
    def setUp(self):
        folder = tempfile.TemporaryDirectory()
        self.addCleanup(folder.cleanup)
        self.root = Path(folder.name).resolve() / "tree"
        self.programs = Path(folder.name).resolve() / "programs"
        self.programs.mkdir()
        self.root.mkdir()
        # Where git itself has started this, its variables name another tree.
        settings = {name: value for name, value in os.environ.items() if not name.startswith("GIT_")}
        settings.update(PATH=f"{self.programs}{os.pathsep}{os.environ['PATH']}", GIT_CONFIG_GLOBAL=os.devnull, GIT_CONFIG_NOSYSTEM="1")
        self.enter(mock.patch.dict(os.environ, settings, clear=True))
        self.enter(mock.patch.object(quick, "ROOT", self.root))
        self.git("init")

    def enter(self, patch):
        self.addCleanup(patch.stop)
        patch.start()

    def git(self, *arguments):
        command = ["git", "-c", "user.name=x", "-c", "user.email=x@example.org", *arguments]
        subprocess.run(command, cwd=self.root, check=True, capture_output=True)

    def write(self, name, text):
        path = self.root / name
        path.parent.mkdir(parents=True, exist_ok=True)
        path.write_text(text, encoding="utf-8")

    def program(self, name, script):
        path = self.programs / name
        path.write_text(f"#!/bin/sh\n{script}\n")
        path.chmod(0o755)

    def faults(self, part):
        """What a part finds, without the places."""
        return [fault.split(": ", 1)[1] for fault in part(self.root)[0]]

    def run_main(self, *arguments):
        output = io.StringIO()
        with contextlib.redirect_stdout(output), contextlib.redirect_stderr(output):
            try:
                status = quick.main(list(arguments))
            except SystemExit as end:
                status = end.code
        return status, output.getvalue()


class Edits(InTree):
    def faults_of(self, edit):
        self.write("crates/a/src/lib.rt", "let x = 1;\nlet y = 2;\nlet z = 2;\n")
        self.write("crates/a/proofs/P.antt", "one\n")
        self.write("crates/a/must-fail/e.edit", edit)
        return quick.edits(self.root)[0]

    def finds(self, edit, *faults):
        self.assertEqual(self.faults_of(edit), ["crates/a/must-fail/e.edit:" + fault for fault in faults])

    def test_good(self):
        self.finds("# why\nfile: src/lib.rt\nold: x = 1\nnew: x = 2\n")
        self.finds("file: src/lib.rt\nold: let x = 1;\nnew:\n")

    def test_each_pair_changes_what_the_next_one_finds(self):
        self.finds("file: src/lib.rt\nold: y = 2\nnew: y = 3\nold:  2;\nnew:  4;\n")
        self.finds("file: src/lib.rt\nold: y = 2\nnew: y = 3\nold: y = 2\nnew: y = 4\n", "4: the text stands 0 times in src/lib.rt")

    def test_text_is_not_there_once(self):
        self.finds("file: src/lib.rt\nold: w\nnew: v\n", "2: the text stands 0 times in src/lib.rt")
        self.finds("file: src/lib.rt\nold: = 2\nnew: = 3\n", "2: the text stands 2 times in src/lib.rt")
        self.finds("old: x\nnew: y\n", "1: the text stands 0 times in no file")

    def test_file(self):
        self.finds("file: src/b.rt\nold: x\nnew: y\n", "1: there is no src/b.rt", "2: the text stands 0 times in src/b.rt")
        self.finds("file: proofs/P.antt\nold: one\nnew: two\n", "1: proofs/P.antt is not under src/ or specs/")
        self.finds("file: src/lib.rt\nold: x = 1\nnew: x = 2\nfile: proofs/P.antt\nold: one\nnew: two\n")

    def test_pairs(self):
        self.finds("file: src/lib.rt\nold: x\nnew: x\n", "3: `new:` is the same as `old:`")
        self.finds("file: src/lib.rt\n", "1: no pair of `old:` and `new:`")
        self.finds("file: src/lib.rt\nold: x\n", "3: no `new:` right behind the `old:`", "1: no pair of `old:` and `new:`")
        self.finds("file: src/lib.rt\nnew: x\n", "2: no `old:` right before the `new:`")
        self.finds("file: src/lib.rt\nold:x\n", "2: no comment, `file: `, `old: ` or `new:`", "1: no pair of `old:` and `new:`")


class Names(InTree):
    def setUp(self):
        super().setUp()
        self.enter(mock.patch.object(quick, "FROM_OUTSIDE", {}))
        self.write("crates/a/src/lib.rt", "pub fn read_one() {}\nconst LIMIT: u8 = 1;\n")
        self.write("crates/a/specs/Table.antt", "row-of m′ = a-b\n")

    def finds(self, text, *faults, name="README.md"):
        self.write(name, text)
        self.assertEqual(quick.names(self.root)[0], [f"{name}:{fault}" for fault in faults])

    def test_words(self):
        self.finds("`a::read_one(m′)`, `row-of`, `a-b`, `lib`, `Table.row-of` and gone_one\n")
        self.finds("x\n\n`read_two` and `a::row-off\n(a-c.lib)`\n", "3: `read_two` stands nowhere in the tree",
                   "3: `row-off` stands nowhere in the tree", "3: `a-c` stands nowhere in the tree")

    def test_block(self):
        self.finds("```sh\npub read_one # a comment\n```\n")
        self.finds("```\nread_one\nread_two // comment\n```\ngone\n", "3: `read_two` stands nowhere in the tree")

    def test_what_is_no_name(self):
        self.finds("`7`, `0x80`, `ff`, `2f61`, `m`, `FILE`, `read_METHOD`, `read_…`, `LIMIT`\n")
        self.finds("`a::GONE`, `write_…`\n", "1: `GONE` stands nowhere in the tree", "1: `write_*` stands nowhere in the tree")

    def test_markdown_and_ignored_files_do_not_count(self):
        self.write(".gitignore", "/target/\n")
        self.write("target/x.rt", "built\n")
        self.write("docs/B.md", "written\n")
        self.finds("`built` `written`\n", "1: `built` stands nowhere in the tree", "1: `written` stands nowhere in the tree")

    def test_paths(self):
        self.write(".gitignore", "/target/\n/crates/*/out/\n")
        self.finds("`crates/a/src/lib.rt` `a/specs/` `specs/Table.antt` `a/Table` `crates/*/src` `…/crates/a` `src/FILE`\n")
        self.finds("`target/a` `target/` `crates/a/out/lib.a` `crates/*/out/` `out/a`\n")
        self.finds("`crates/a/lib.rt` `cc -Ia/src -Ib/src`\n", "1: there is no crates/a/lib.rt", "1: there is no b/src")
        self.finds("`a/target/lib` `src/out/a`\n", "1: there is no a/target/lib", "1: there is no src/out/a")

    def test_links(self):
        self.write("docs/B.md", "[up](../README.md)\n")
        self.finds("[b](docs/B.md#part) [docs](docs) [out](https://example.org/x) [here](#part) `[d](e)`\n")
        self.finds("x\n[`a`](docs/A.md#part)\n", "2: the link to docs/A.md#part leads to no file")

    def test_what_tells_of_the_past(self):
        self.finds("`gone`\n\n[a](docs/A.md)\n", "3: the link to docs/A.md leads to no file", name="CHANGELOG.md")

    def test_pages_that_name_old_things(self):
        self.finds("`gone`\n", name="docs/PORT.md")
        self.finds("`gone`\n", name="docs/DESIGN-PASS.md")
        self.finds("`gone`\n", "1: `gone` stands nowhere in the tree", name="docs/PORTS.md")

    def test_exceptions(self):
        self.enter(mock.patch.object(quick, "FROM_OUTSIDE", {"elsewhere": "", "read_one": ""}))
        self.write("README.md", "`elsewhere` `read_one`\n")
        self.assertEqual(self.faults(quick.names), ["the exception `read_one` is not needed"])


CONTRACT = "    ensures { result ≡ f x }\n"


class Promises(InTree):
    def finds(self, text, *faults):
        self.write("crates/a/src/lib.rt", text)
        self.assertEqual(quick.promises(self.root)[0], [f"crates/a/src/lib.rt:{fault}" for fault in faults])

    def test_good(self):
        self.finds(f"pub fn f(x: u8) -> u8\n{CONTRACT}{{\n    x\n}}\n")
        self.finds(f"pub fn f(\n    x: &[u8; 4],\n) -> u8\n    ensures named {{ f record {{ a = x }} }}\n{CONTRACT}{{\n    x\n}}\n")
        self.finds(f'#[unsafe(no_mangle)]\npub extern "C" fn f(x: &[u8]) -> u8\n{CONTRACT}{{\n    x[0]\n}}\n')

    def test_what_is_not_public(self):
        self.finds("fn f() {}\npub(crate) fn g() {}\n// pub fn h() {}\npub struct S {\n    pub x: u8,\n}\n")

    def test_requires(self):
        asks = "    requires { x ≤ 1 }\n"
        self.finds(f"\npub fn f(x: u8)\n{asks}{CONTRACT}{{\n}}\n", "2: a::f has a `requires`")
        self.finds(f"pub fn f(x: u8)\n{CONTRACT}{asks}{{\n}}\n", "1: a::f has a `requires`")
        self.finds(f"pub fn f(x: u8)\n{CONTRACT}{{\n}}\nfn g(x: u8)\n{asks}{{\n}}\n")
        self.finds(f"pub fn f(x: u8)\n{asks}{{\n}}\n", "1: a::f has a `requires`", "1: a::f has no `ensures`")

    def test_no_ensures(self):
        self.finds(f"pub fn f() -> S {{\n    S {{}}\n}}\n\npub fn g()\n{CONTRACT}{{}}\n", "1: a::f has no `ensures`")
        self.finds("impl S {\n    // ensures { x }\n    pub fn f(self) {\n    }\n}\n", "3: a::f has no `ensures`")
        self.finds('#[unsafe(no_mangle)]\npub extern "C" fn f() {\n}\n', "2: a::f has no `ensures`")

    def test_other_files(self):
        self.write("crates/a/src/b/c.rt", "pub fn f() {}\n")
        self.assertEqual(self.faults(quick.promises), ["a::f has no `ensures`"])


class Crates(InTree):
    def setUp(self):
        super().setUp()
        self.lines = ["# lowest first", "a:", "b: a", "c staticlib: b io"]
        self.sources = {"a/src/lib.rt": "pub fn f() {}\n", "b/proofs/P.antt": "use Rattle.a.specs.S\nuse Rattle.b.proofs.Q\n",
                        "c/src/lib.rt": "use b::F;\n// a::f\nfn g() {\n    x::y(io::z())\n}\n"}

    def finds(self, *faults):
        self.write("crates.txt", "\n".join(self.lines) + "\n")
        for name, text in self.sources.items():
            self.write(f"crates/{name}", text)
        self.assertEqual(quick.crates(self.root)[0], [f"crates.txt{fault}" for fault in faults])

    def test_good(self):
        self.finds()

    def test_not_listed(self):
        self.lines[2] = "b:"
        self.finds(":3: b names a and does not list it")
        self.lines[2] = "b: a"
        self.sources["c/src/lib.rt"] += "ghost use Rattle.a.specs.S;\n"
        self.finds(":4: c names a and does not list it")

    def test_not_named(self):
        self.sources["b/proofs/P.antt"] = "-- Rattle.a\n"
        self.finds(":3: b lists a and does not name it")
        self.sources["b/proofs/P.antt"] = "use Rattle.a.specs.S\n"
        self.lines[3] = "c staticlib: a b io"
        self.finds(":4: c lists a and does not name it")

    def test_what_rt_left_does_not_count(self):
        self.sources["b/out/incremental/P.antt"] = "use Rattle.c.specs.S\n"
        self.finds()

    def test_order(self):
        self.lines[1:3] = reversed(self.lines[1:3])
        self.finds(":2: b stands above a, which it lists")


class Quotes(InTree):
    def finds(self, block, *faults):
        self.write("crates/a/src/lib.rt", "one\n    two\n\nthree\nfour\n")
        self.write("README.md", f"x\n```rust\nother\n```\n```rattle\n{block}```\n")
        self.assertEqual(quick.quotes(self.root)[0], list(faults))

    def test_good(self):
        self.finds("    two\n\nthree\n")
        self.finds("one\n    // …\nfour\n")
        self.finds("one\n// …\n    two\n")

    def test_faults(self):
        for block in "two\n", "one\n\nthree\n", "one\nthree\n", "three\n// …\none\n", "four\n// …\nfour\n", "    tw\n", "// …\n", "":
            with self.subTest(block=block):
                self.finds(block, "README.md:6: the block stands in no file crates/*/src/**/*.rt")


class Commands(InTree):
    def test_passes(self):
        self.program("cargo", "echo 'test result: ok. 3 passed; 0 failed'; echo 'test result: ok. 4 passed; 0 failed'")
        self.assertEqual(self.run_main("--only", "second,edits"),
                         (0, "quick: edits: ok (0 edits)\nquick: second: ok (7 tests)\nquick: all well\n"))

    def test_fails(self):
        self.program("cargo", "seq 30; exit 3")
        status, output = self.run_main("--only", "second")
        tail = "".join(f"{n}\n" for n in range(11, 31))
        command = "cargo test --offline --quiet --manifest-path second/Cargo.toml"
        self.assertEqual((status, output), (1, f"quick: second: `{command}` ended with 3:\n{tail}quick: 1 faults\n"))

    def test_is_missing(self):
        with mock.patch.dict(os.environ, PATH=str(self.programs)):
            self.assertEqual(self.run_main("--only", "second"), (1, "quick: second: cargo is not on the path\nquick: 1 faults\n"))


class Check(InTree):
    def setUp(self):
        super().setUp()
        self.prover(f'echo "$*" >> {self.programs}/called')
        self.lines = ["# lowest first", "a:", "b: a", "c: b io", "d:"]
        self.write_list()
        for name in "abcd":
            self.write(f"crates/{name}/src/lib.rt", "one\n")
        self.commit()

    def prover(self, script):
        self.write("tools/prove", f"#!/bin/sh\n{script}\n")
        (self.root / "tools/prove").chmod(0o755)

    def write_list(self):
        self.write("crates.txt", "".join(f"{line}\n" for line in self.lines))

    def commit(self):
        self.git("add", "-A")
        self.git("commit", "-m", "x")

    def proves(self, changed, upper, rev="HEAD"):
        (self.programs / "called").unlink(missing_ok=True)
        self.assertEqual(self.run_main("--only", "check", "--check", rev), (0, (
            f"quick: check: {changed} -- above them, not proved here: {upper}\n"
            f"quick: check: ok ({len(changed.split())} crates)\nquick: all well\n")))
        self.assertEqual((self.programs / "called").read_text(), f"{changed}\n")

    def test_nothing(self):
        self.write("README.md", "x\n")
        self.assertEqual(self.run_main("--only", "check", "--check", "HEAD"), (
            0, "quick: check: ok (0 crates: nothing has changed since HEAD)\nquick: all well\n"))
        self.assertFalse((self.programs / "called").exists())

    def test_committed_and_uncommitted(self):
        self.write("crates/b/src/lib.rt", "two\n")
        self.proves("b", "c")
        self.commit()
        (self.root / "crates/a/src/lib.rt").unlink()
        self.proves("a b", "c", "HEAD~1")
        self.proves("a", "b c")

    def test_untracked(self):
        self.write("crates/d/specs/S.antt", "x\n")
        self.proves("d", "none")

    def test_list(self):
        self.lines[3:] = ["c: b a io", "d:", "e: d"]
        self.write_list()
        self.write("crates/e/src/lib.rt", "one\n")
        self.proves("c e", "none")
        self.commit()
        self.lines = ["d:  # comment", "a:", "b: a", "c: b a io", "e: d"]
        self.write_list()
        self.write("crates/d/src/lib.rt", "two\n")
        self.proves("d", "e")
        self.commit()
        self.lines[3:] = ["c staticlib: b a io", "e: d"]
        self.write_list()
        self.proves("c", "none")

    def test_not_listed(self):
        self.write("crates/f/src/lib.rt", "one\n")
        status, output = self.run_main("--only", "check", "--check", "HEAD")
        self.assertEqual((status, output), (1, "quick: check: crates/f has changed and is not in crates.txt\nquick: 1 faults\n"))

    def test_fails(self):
        self.write("crates/d/src/lib.rt", "two\n")
        self.prover("exit 2")
        status, output = self.run_main("--only", "check", "--check", "HEAD")
        self.assertEqual(status, 1)
        self.assertIn("quick: check: tools/prove ended with 2\nquick: 1 faults\n", output)

    def test_ended(self):
        self.write("crates/d/src/lib.rt", "two\n")
        self.prover(f"trap 'echo ended > {self.programs}/ended; exit 143' TERM; echo begun > {self.programs}/begun; sleep 20 > /dev/null 2>&1 & wait")
        shutil.copy(SCRIPT, self.root / "tools/quick")
        child = subprocess.Popen([self.root / "tools/quick", "--only", "check", "--check", "HEAD"], stdout=subprocess.DEVNULL)
        for _ in range(200):
            if not (self.programs / "begun").exists():
                time.sleep(0.05)
        child.terminate()
        self.assertEqual(child.wait(), 128 + signal.SIGTERM)
        self.assertTrue((self.programs / "ended").exists())


class Whole(InTree):
    def setUp(self):
        super().setUp()
        self.write("tools/quick", "")
        shutil.copy(SCRIPT, self.root / "tools/quick")
        self.write("README.md", "".join(f"`{word}`\n" for word in quick.FROM_OUTSIDE))
        self.write("crates.txt", "")
        self.program("cargo", "exit 0")

    def call(self, *arguments):
        """Calls the script through a symbolic link, from another folder."""
        link = self.programs / "linked"
        link.symlink_to(self.root / "tools/quick")
        done = subprocess.run([link, *arguments], cwd="/", capture_output=True, encoding="utf-8")
        return done.returncode, done.stdout.splitlines()

    def test_all_well(self):
        before = sorted(self.root.glob("[!.]*/**/*"))
        status, lines = self.call()
        self.assertEqual((status, lines[-1]), (0, "quick: all well"))
        self.assertEqual([line.split()[1] for line in lines[:-1]], [f"{name}:" for name in quick.PARTS])
        self.assertEqual(sorted(self.root.glob("[!.]*/**/*")), before)

    def test_all_parts_run(self):
        self.write("crates/a/must-fail/e.edit", "")
        self.write("crates/a/src/lib.rt", "pub fn f() {}\n")
        status, lines = self.call()
        self.assertEqual((status, lines[0], lines[-1]), (1, "crates/a/must-fail/e.edit:1: no pair of `old:` and `new:`", "quick: 2 faults"))
        self.assertIn("quick: second: ok (0 tests)", lines)

    def test_help(self):
        status, lines = self.call("--help")
        self.assertEqual(status, 0)
        for name in [*quick.PARTS, "check"]:
            self.assertTrue(any(line.startswith(f"  {name} ") for line in lines), name)

    def test_wrong_arguments(self):
        for arguments in ["--only", "other"], ["--only", ""], ["--only", "check"], ["--check", "gone"], ["--check"], ["--on", "edits"], ["x"]:
            self.assertEqual(self.run_main(*arguments)[0], 2, arguments)


if __name__ == "__main__":
    unittest.main()
