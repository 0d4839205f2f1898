"""The README runs from top to bottom as typed: its boxes of commands in one shell, its boxes of Python in one session."""
from __future__ import annotations

import doctest
import os
import re
import shutil
import subprocess
import sys
import tempfile
import unittest
from pathlib import Path
from unittest import mock

ROOT = Path(__file__).resolve().parent.parent.parent
sys.path.insert(0, str(ROOT / "python"))

import nibtoggle  # noqa: E402
from nibtoggle.text import records_of  # noqa: E402

TEXT = (ROOT / "README.md").read_text(encoding="utf-8")


def boxes(kind: str) -> "list[str]":
    return re.findall(r"^```%s\n(.*?)^```$" % kind, TEXT, re.M | re.S)


class Readme(unittest.TestCase):
    def test_its_commands(self) -> None:
        self.assertGreater(len(boxes("sh")), 3)
        with tempfile.TemporaryDirectory() as folder:
            # in a copy of the repository, for pip leaves files there; what is built is shared
            copy = Path(folder) / "copy"
            left_out = shutil.ignore_patterns("target", "out", ".git", "__pycache__", "build", "*.egg-info")
            shutil.copytree(ROOT, copy, symlinks=True, ignore=left_out)
            shutil.copytree(ROOT / "crates" / "target", copy / "crates" / "target", dirs_exist_ok=True,
                            ignore=shutil.ignore_patterns("out"))
            (copy / "target").symlink_to(ROOT / "target")
            script = Path(folder) / "readme.sh"
            script.write_text("set -eu\n" + "\n".join(boxes("sh")), encoding="utf-8")
            # python3 is the one that runs this, for Debian's setuptools belong to it
            path = "%s:%s" % (Path(sys.executable).parent, os.environ["PATH"])
            environment = dict(os.environ, TMPDIR=folder, PATH=path)
            environment.pop("PYTHONPATH", None)
            done = subprocess.run(["sh", str(script)], cwd=copy, env=environment, stdout=subprocess.PIPE,
                                  stderr=subprocess.STDOUT, text=True)
            self.assertEqual(done.returncode, 0, done.stdout)
            # what explain and jobs write is what the README prints
            for first in ("power-on accepted", "     1  no job: command FFh  reset"):
                printed = re.search(r"^    %s\n(?:    .*\n)+" % first, TEXT, re.M)
                assert printed is not None
                self.assertIn("".join(line[4:] + "\n" for line in printed.group(0).splitlines()), done.stdout)
            self.assertIn("LUN 1, block 5, page 3: programmed 1 times", done.stdout)
            # what stands in a box that is not typed is the gate itself, lines that are printed, or files' words
            self.assertEqual(re.findall(r"^    (?:\$ )?(?:rt|tools/\w|cc|nib|python3|pip|\.ci/run)\b(?!:).*", TEXT, re.M),
                             ["    .ci/run"])

    def test_what_is_not_there_is_refused_as_it_says(self) -> None:
        said = re.search(r"^Not there, and refused with 1: (.*?)\. A timing mode", TEXT, re.M | re.S)
        assert said is not None
        left_out = [int(byte, 16) for byte in re.findall(r"\b([0-9A-F]{2})h\b", said.group(1))]
        self.assertEqual(len(left_out), 11)
        part = nibtoggle.PARTS["W"]                     # every option that the model has
        bench = nibtoggle.Bench(part.page, part.device_id, strict=False)
        bench.reset()
        for byte in left_out:
            self.assertEqual((byte, bench.command(byte).refusal), (byte, 1))
        for words, number in (("c ef a 01 d 05", 9), ("c ef a 80", 4), ("c 90 a 40", 4),
                              ("c 80 a 00 00 00 00 00 c 85 a 00 00 00", 3)):
            replies = bench.trace(records_of(words)).raw
            self.assertEqual((words, set(replies[:-2:2]), tuple(replies[-2:])), (words, {0}, (2, number)))

    def test_its_python(self) -> None:
        session = doctest.DocTestParser().get_doctest("\n".join(boxes("python")), {}, "README.md", "README.md", 0)
        self.assertGreater(len(session.examples), 8)
        said: "list[str]" = []
        flags = doctest.ELLIPSIS
        with tempfile.TemporaryDirectory() as folder, mock.patch.object(tempfile, "tempdir", folder):
            failed = doctest.DocTestRunner(verbose=False, optionflags=flags).run(session, out=said.append).failed
        self.assertEqual((failed, "".join(said)), (0, ""))

    def test_the_demo_s_lines_are_the_demo_s(self) -> None:
        demo = (ROOT / "crates" / "nib" / "stdout").read_text(encoding="utf-8")
        excerpt = TEXT[TEXT.index("An excerpt"):TEXT.index("An error is one line on standard error")]
        lines = [line[4:] for line in excerpt.splitlines() if line.startswith("    ") and line.strip() != ".."]
        self.assertGreater(len(lines), 10)
        for line in lines:
            self.assertIn(line + "\n", demo)

    def test_it_says_that_no_licence_is_granted(self) -> None:
        self.assertIn("The owner has granted no licence yet.", TEXT)
        self.assertFalse(list(ROOT.glob("LICEN*")))


if __name__ == "__main__":
    unittest.main()
