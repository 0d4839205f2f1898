"""The tools around the library: what they write, and that they say what they do."""
from __future__ import annotations

import contextlib
import importlib.machinery
import importlib.util
import io
import os
import re
import subprocess
import sys
import tempfile
import unittest
from pathlib import Path
from typing import Any
from unittest import mock

ROOT = Path(__file__).resolve().parent.parent.parent


def loaded(name: str) -> Any:
    """A script of tools/ as a module."""
    loader = importlib.machinery.SourceFileLoader(name, str(ROOT / "tools" / name))
    spec = importlib.util.spec_from_loader(name, loader)
    assert spec is not None
    module = importlib.util.module_from_spec(spec)
    loader.exec_module(module)
    return module


class Benchmark(unittest.TestCase):
    def test_the_tracked_page_is_written_only_when_asked(self) -> None:
        benchmark = loaded("benchmark")
        with tempfile.TemporaryDirectory() as folder:
            paper = Path(folder) / "BENCHMARK.md"
            paper.write_text("old\n\n## Where the time goes\n\nby hand\n", encoding="utf-8")
            for words, due in (([], "old\n\n## Where the time goes\n\nby hand\n"), (["--write"], "new\n\n## Where the time goes\n\nby hand\n")):
                with mock.patch.multiple(benchmark, PAPER=paper, measure=lambda: {}, starts=lambda _: {}, from_python=lambda: 1.0,
                                         report=lambda *_: "new\n"), \
                        mock.patch.object(sys, "argv", ["benchmark"] + words), contextlib.redirect_stdout(io.StringIO()) as said:
                    benchmark.main()
                self.assertIn("new", said.getvalue())
                self.assertEqual(paper.read_text(encoding="utf-8"), due)

    def test_an_unknown_word_measures_nothing(self) -> None:
        done = subprocess.run([str(ROOT / "tools" / "benchmark"), "--nonsense"], stdout=subprocess.PIPE, stderr=subprocess.PIPE, text=True)
        self.assertEqual((done.returncode, done.stdout), (2, ""))
        self.assertIn("--write", done.stderr)


class BuildHost(unittest.TestCase):
    def test_it_says_at_once_what_it_does(self) -> None:
        with subprocess.Popen([str(ROOT / "tools" / "build-host")], stdout=subprocess.PIPE, text=True) as running:
            assert running.stdout is not None
            first = running.stdout.readline()
            rest = running.stdout.read()
        self.assertEqual(running.returncode, 0)
        self.assertIn("build-host: proving nib_c", first)
        self.assertIn("up to date", rest)


class Examples(unittest.TestCase):
    """An answer of the library's that an example does not look at does not compile, or is found here."""

    FLAGS = ["-std=c11", "-Wall", "-Wextra", "-Werror", "-I%s" % (ROOT / "include"),
             "-I%s" % (ROOT / "examples" / "loader"), "-c", "-o", os.devnull]
    SOURCES = sorted((ROOT / "examples").rglob("*.c"))

    def test_every_answer_is_looked_at(self) -> None:
        self.assertIn("lost_preset.c", [path.name for path in self.SOURCES])
        for path in self.SOURCES:
            done = subprocess.run(["cc", *self.FLAGS, str(path)], stdout=subprocess.PIPE, stderr=subprocess.STDOUT,
                                  text=True)
            self.assertEqual((done.returncode, done.stdout), (0, ""))
            # a call that is a statement of its own throws its answer away
            text = re.sub(r"/\*.*?\*/", " ", path.read_text(encoding="utf-8"), flags=re.S)
            thrown = re.findall(r"(?:[;{})]|\belse)\s*(?:\(void\)\s*)?(nib_(?:lent_)?(?:power_on|event|trace)\()", text)
            self.assertEqual(thrown, [], path.name)

    def test_one_that_ignores_an_answer_does_not_compile(self) -> None:
        text = (ROOT / "examples" / "lost_preset.c").read_text(encoding="utf-8")
        for call in ("nib_lent_power_on(", "nib_lent_trace("):
            looks = "uint32_t answer = " + call
            self.assertEqual(text.count(looks), 1)
            with tempfile.TemporaryDirectory() as folder:
                ignores = Path(folder) / "ignores.c"
                ignores.write_text(text.replace(looks, "uint32_t answer = 0; " + call), encoding="utf-8")
                done = subprocess.run(["cc", *self.FLAGS, str(ignores)], stdout=subprocess.PIPE,
                                      stderr=subprocess.STDOUT, text=True)
            self.assertNotEqual(done.returncode, 0)
            self.assertIn("unused-result", done.stdout)


class Scripts(unittest.TestCase):
    def test_each_knows_its_help(self) -> None:
        for name, words in (("install", []), ("install", ["-x"]), ("version", ["nonsense"]), ("test-faults", ["-x"]),
                            ("test-faults", ["--nonsense"])):
            done = subprocess.run([str(ROOT / "tools" / name)] + words, stdout=subprocess.PIPE, stderr=subprocess.PIPE, text=True)
            self.assertEqual((done.returncode, done.stdout), (2, ""))
            self.assertIn("tools/" + name, done.stderr)


if __name__ == "__main__":
    unittest.main()
