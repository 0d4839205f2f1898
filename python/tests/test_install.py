"""Installed as a user would: tools/install into a fresh prefix, `pip install` into a fresh venv, with Debian's packages alone."""
from __future__ import annotations

import os
import platform
import re
import shutil
import subprocess
import sys
import tempfile
import unittest
from pathlib import Path
from typing import List

ROOT = Path(__file__).resolve().parent.parent.parent
sys.path.insert(0, str(ROOT / "python"))
VERSION = (ROOT / "VERSION").read_text(encoding="utf-8").strip()
WHEELS = Path("/usr/share/python-wheels")


def done(words: List[str], **options: object) -> "subprocess.CompletedProcess[str]":
    environment = {name: value for name, value in os.environ.items() if name not in ("PYTHONPATH", "NIBTOGGLE_LIBRARY")}
    environment.update(options.pop("env", {}))                                                    # type: ignore[call-overload]
    return subprocess.run(words, env=environment, stdout=subprocess.PIPE, stderr=subprocess.STDOUT, text=True, **options)  # type: ignore


class Versions(unittest.TestCase):
    def test_one_number_everywhere(self) -> None:
        said = done([sys.executable, str(ROOT / "tools" / "version"), "--check"])
        self.assertEqual((said.returncode, said.stdout), (0, ""))

    def test_a_new_one_is_set_everywhere(self) -> None:
        places = ("VERSION", "tools/version", "include/nibtoggle.h", "docs/CHANGELOG.md",
                  "python/nibtoggle/__init__.py", "crates/nib_speech/src/lib.rt", "crates/nib_speech/specs/Speech.antt")
        with tempfile.TemporaryDirectory() as folder:
            for name in places:
                (Path(folder) / name).parent.mkdir(parents=True, exist_ok=True)
                shutil.copy(ROOT / name, Path(folder) / name)
            check = [sys.executable, str(Path(folder) / "tools" / "version"), "--check"]
            self.assertEqual(done(check).stdout, "")
            log = Path(folder) / "docs" / "CHANGELOG.md"
            log.write_text("# Changes\n\n## 9.8.7, to come\n\n## %s\n" % VERSION, encoding="utf-8")
            self.assertEqual(done(check).stdout, "")
            self.assertEqual(done(check[:-1] + ["9.8.7"]).returncode, 0)
            self.assertEqual((done(check).stdout, log.read_text(encoding="utf-8").splitlines()[2]), ("", "## 9.8.7"))
            # each place is looked at: one that has the old number is named
            for name in places[2:]:
                new = (Path(folder) / name).read_text(encoding="utf-8")
                shutil.copy(ROOT / name, Path(folder) / name)
                said = done(check)
                self.assertEqual(said.returncode, 1)
                self.assertIn(name, said.stdout)
                (Path(folder) / name).write_text(new, encoding="utf-8")

    def test_the_library_has_it_too(self) -> None:
        import nibtoggle
        number = nibtoggle.Library.found().version()
        self.assertEqual("%d.%d.%d" % (number >> 16, number >> 8 & 255, number & 255), VERSION)
        self.assertEqual(nibtoggle.__version__, VERSION)


class Prefix(unittest.TestCase):
    """tools/install PREFIX."""

    def setUp(self) -> None:
        folder = tempfile.TemporaryDirectory()
        self.addCleanup(folder.cleanup)
        self.prefix = Path(folder.name) / "fresh prefix"
        said = done([str(ROOT / "tools" / "install"), str(self.prefix)], env={"PYTHON": sys.executable})
        self.assertEqual(said.returncode, 0, said.stdout)
        self.packages = Path(re.search("PYTHONPATH=(.*)", said.stdout).group(1))                  # type: ignore[union-attr]

    def test_all_of_it(self) -> None:
        self.library_by_pkg_config()
        self.package_and_commands()
        # a second time over the first; and beside, for whoever makes a package of it
        self.assertEqual(done([str(ROOT / "tools" / "install"), str(self.prefix)],
                              env={"PYTHON": sys.executable}).returncode, 0)
        stage = self.prefix.parent / "stage"
        said = done([str(ROOT / "tools" / "install"), "/nowhere/nib"],
                    env={"PYTHON": sys.executable, "DESTDIR": str(stage)})
        self.assertEqual(said.returncode, 0, said.stdout)
        self.assertFalse(Path("/nowhere").exists())

        def listed(folder: Path) -> List[str]:
            mine = ("program", "own.so", "linked")          # made by this test
            return sorted(str(path.relative_to(folder)) for path in folder.rglob("*")
                          if path.name not in mine and "__pycache__" not in path.parts)

        self.assertEqual(listed(stage / "nowhere" / "nib"), listed(self.prefix))
        paper = stage / "nowhere" / "nib" / "lib" / "pkgconfig" / "nibtoggle.pc"
        self.assertIn("prefix=/nowhere/nib\n", paper.read_text(encoding="utf-8"))

    def library_by_pkg_config(self) -> None:
        lib = self.prefix / "lib"
        soname = done([str(ROOT / "tools" / "soname")]).stdout.strip()
        self.assertEqual((lib / "libnibtoggle.so").resolve().name, "libnibtoggle.so." + VERSION)
        self.assertEqual((lib / soname).resolve().name, "libnibtoggle.so." + VERSION)
        environment = {"PKG_CONFIG_PATH": str(lib / "pkgconfig")}
        self.assertEqual(done(["pkg-config", "--modversion", "nibtoggle"], env=environment).stdout.strip(), VERSION)
        program = self.prefix / "program"
        for extra in ([], ["-static-libgcc", str(lib / "libnibtoggle.a")]):
            flags = done(["sh", "-c", 'eval "set -- $(pkg-config --cflags --libs nibtoggle)"; printf "%s\\n" "$@"'], env=environment)
            words = [word for word in flags.stdout.splitlines() if not (extra and word.startswith(("-l", "-L")))]
            built = done(["cc", "-std=c11", "-Wall", "-Wextra", "-Werror", str(ROOT / "tests" / "c" / "install.c"), "-o", str(program)]
                         + words + extra)
            self.assertEqual(built.returncode, 0, built.stdout)
            ran = done([str(program)], env={"LD_LIBRARY_PATH": str(lib)})
            self.assertEqual((ran.returncode, ran.stdout), (0, VERSION + ": the LUN is working\n"))
            asked = done(["sh", "-c", "ldd %s" % program.name], cwd=self.prefix, env={"LD_LIBRARY_PATH": str(lib)}).stdout
            self.assertEqual(soname in asked, not extra)

        # a shared library of the user's own, with every name settled when it is linked
        built = done(["cc", "-shared", "-fPIC", "-Wl,-z,defs", str(ROOT / "tests" / "c" / "install.c"), "-o",
                      str(self.prefix / "own.so"), "-I%s" % (self.prefix / "include"), "-L%s" % lib, "-lnibtoggle"])
        self.assertEqual(built.returncode, 0, built.stdout)

    def package_and_commands(self) -> None:
        said = done([sys.executable, "-c", "import nibtoggle; print(nibtoggle.Library.found().path); nibtoggle.Bench.t1().reset()"],
                    env={"PYTHONPATH": str(self.packages)}, cwd=self.prefix)
        self.assertEqual((said.returncode, said.stdout.strip()), (0, str(self.packages / "nibtoggle" / "libnibtoggle.so")))
        said = done([str(self.prefix / "bin" / "nibtoggle"), "version"], cwd=self.prefix)
        self.assertEqual((said.returncode, said.stdout), (0, "nibtoggle %s, library %s\n" % (VERSION, VERSION)))
        for nib in (self.prefix / "bin" / "nib", self.prefix / "linked"):
            if nib.name == "linked":
                nib.symlink_to(self.prefix / "bin" / "nib")
            said = done([str(nib), "version"], cwd=self.prefix)
            self.assertEqual((said.returncode, said.stdout), (0, "nib %s\n" % VERSION))
            self.assertEqual(done([str(nib), "no-such-command"], cwd=self.prefix).returncode, 2)
            self.assertEqual(done([str(nib), "page", "no-such-file"], cwd=self.prefix).returncode, 1)


class Venv(unittest.TestCase):
    """`pip install .`, with no index and no network."""

    def setUp(self) -> None:
        folder = tempfile.TemporaryDirectory()
        self.addCleanup(folder.cleanup)
        self.folder = Path(folder.name)
        self.source = self.folder / "source"
        self.source.mkdir()
        for name in ("pyproject.toml", "setup.py", "VERSION", "README.md"):
            shutil.copy(ROOT / name, self.source)
        shutil.copytree(ROOT / "python", self.source / "python", ignore=shutil.ignore_patterns("__pycache__", "*.egg-info"))
        self.python = self.folder / "venv" / "bin" / "python"
        # Debian's setuptools and wheel build it; the venv has nothing else of the machine's
        made = done([sys.executable, "-m", "venv", "--system-site-packages", str(self.folder / "venv")])
        self.assertEqual(made.returncode, 0, made.stdout)

    def pip(self) -> "subprocess.CompletedProcess[str]":
        return done([str(self.python), "-m", "pip", "install", "--no-index", "--no-build-isolation", "--no-deps", "--disable-pip-version-check", "."],
                    cwd=self.source)

    def test_with_and_without_the_library(self) -> None:
        said = self.pip()
        self.assertNotEqual(said.returncode, 0)
        self.assertIn("run tools/build-host first", said.stdout)
        (self.source / "target" / "host").mkdir(parents=True)
        shutil.copy(ROOT / "target" / "host" / "libnibtoggle.so", self.source / "target" / "host")
        said = self.pip()
        self.assertEqual(said.returncode, 0, said.stdout)
        shutil.rmtree(self.source)
        said = done([str(self.python), "-c", "import nibtoggle; b = nibtoggle.Bench.t1(); b.reset(); print(b.read_id().hex()); "
                     "print(nibtoggle.Library.found().path)"], cwd=self.folder)
        self.assertEqual(said.returncode, 0, said.stdout)
        identity, path = said.stdout.splitlines()
        self.assertEqual(identity, "2c68")
        self.assertTrue(path.startswith(str(self.folder / "venv")), path)
        said = done([str(self.folder / "venv" / "bin" / "nibtoggle"), "version"], cwd=self.folder)
        self.assertEqual((said.returncode, said.stdout), (0, "nibtoggle %s, library %s\n" % (VERSION, VERSION)))
        said = done([str(self.python), "-m", "pip", "show", "nibtoggle"])
        self.assertIn("Version: " + VERSION, said.stdout)


class Typed(unittest.TestCase):
    def test_mypy_strict(self) -> None:
        mypy = shutil.which("mypy")
        if mypy is None:
            self.skipTest("no mypy here; tools/test-host takes Debian's")
        with tempfile.TemporaryDirectory() as cache:
            said = done([mypy, "--strict", "--cache-dir", cache, "nibtoggle"], cwd=ROOT / "python")
        self.assertEqual(said.returncode, 0, said.stdout)


class Names(unittest.TestCase):
    """What the library asks for is the C library's memory functions, and nothing that reads, writes or ends."""

    def test_nothing_else_is_asked_for(self) -> None:
        for name, words in (("libnibtoggle.so", ["-D"]), ("libnibtoggle.a", [])):
            said = done(["nm", "--undefined-only", *words, str(ROOT / "target" / "host" / name)])
            self.assertEqual(said.returncode, 0, said.stdout)
            asked = set(re.findall(r"^ +U (\w+)", said.stdout, re.M))
            self.assertTrue(asked, "nm names nothing: is this the library?")
            self.assertLessEqual(asked, {"memcpy", "memset", "memmove", "memcmp", "bcmp"})


class Header(unittest.TestCase):
    def test_it_names_no_function_that_does_not_exist(self) -> None:
        text = (ROOT / "include" / "nibtoggle.h").read_text(encoding="utf-8")
        code = re.sub(r"/\*.*?\*/", " ", text, flags=re.S)
        there = set(re.findall(r"\b(nib_\w+)\s*[({;]", code)) | set(re.findall(r"\b(?:struct|enum) (nib_\w+)", code)) \
            | set(re.findall(r"}\s*(nib_\w+);", code))
        named = set(re.findall(r"\bnib_\w+", " ".join(re.findall(r"/\*.*?\*/", text, flags=re.S)))) - {"nib_text_", "nib_say_"}
        self.assertEqual(sorted(named - there), [])
        self.assertGreater(len(named), 10)

    def test_the_checked_row(self) -> None:
        """nib_row_of answers whether the numbers exist, and gives a row only then."""
        program = """#include "nibtoggle.h"
#include <stdio.h>
int main(void) {
    const nib_part part = {528, 3, 5, 2};
    for (unsigned i = 0; i < 3 * 6 * 4; i++) {
        uint32_t row = 7777;
        int there = nib_row_of(part, i / 24, i / 4 % 6, i % 4, &row);
        printf("%u %u %u %d %u\\n", i / 24, i / 4 % 6, i % 4, there, (unsigned)row);
    }
    return 0;
}
"""
        with tempfile.TemporaryDirectory() as folder:
            (Path(folder) / "row.c").write_text(program, encoding="utf-8")
            built = done(["cc", "-std=c11", "-Wall", "-Wextra", "-Werror", "-I%s" % (ROOT / "include"), "row.c", "-o",
                          "row"], cwd=folder)
            self.assertEqual(built.returncode, 0, built.stdout)
            lines = done([str(Path(folder) / "row")]).stdout.splitlines()
        self.assertEqual(len(lines), 72)
        for line in lines:
            lun, block, page, there, row = map(int, line.split())
            exists = lun < 2 and block < 5 and page < 3
            self.assertEqual((there, row), (1, (lun << 3 | block) << 2 | page) if exists else (0, 7777))

    def test_it_declares_what_the_library_has(self) -> None:
        text = (ROOT / "include" / "nibtoggle.h").read_text(encoding="utf-8")
        code = re.sub(r"/\*.*?\*/", " ", text, flags=re.S)
        outside = re.sub(r"static inline [^{;]*\{.*?\n?\}\n", " ", code, flags=re.S)
        declared = set(re.findall(r"^(?:u?int\d+_t|size_t|void) (nib_\w+)\(", outside, re.M))
        for name, words in (("libnibtoggle.so", ["-D"]), ("libnibtoggle.a", [])):
            said = done(["nm", "--defined-only", "--extern-only", *words, str(ROOT / "target" / "host" / name)])
            self.assertEqual(set(re.findall(r" T (\w+)$", said.stdout, re.M)), declared, name)
        self.assertGreater(len(declared), 20)

    def test_the_papers_name_no_function_that_does_not_exist(self) -> None:
        header = (ROOT / "include" / "nibtoggle.h").read_text(encoding="utf-8")
        # crates, and records and enums of the header, have such names too; `nib_text_*` is a family
        there = set(re.findall(r"\b[nN][iI][bB]_\w+", re.sub(r"/\*.*?\*/", " ", header, flags=re.S))) | \
            {path.name for path in (ROOT / "crates").iterdir()}
        for path in (ROOT / "README.md", *sorted((ROOT / "docs").rglob("*.md"))):
            named = set(re.findall(r"(?<![\w.·/])(?:nib|NIB)_\w+(?!\w|\*)", path.read_text(encoding="utf-8")))
            self.assertEqual(sorted(name for name in named - there if not name.endswith("_")), [], path.name)

    def test_its_words_are_the_library_s(self) -> None:
        said = done([sys.executable, str(ROOT / "tools" / "words.py"), "--check"])
        self.assertEqual((said.returncode, said.stdout), (0, ""))
        import nibtoggle
        text = (ROOT / "include" / "nibtoggle.h").read_text(encoding="utf-8")
        table = text[text.index("*nib_words("):]
        cases = {int(n): words for n, words in re.findall(r'case (\d+): return "(.*)";', table[:table.index("\n}\n")])}
        self.assertEqual(cases, dict(nibtoggle.RULES))
        self.assertEqual(sorted(cases), sorted(int(n) for n in re.findall(r"NIB_REFUSED_\w+ = (\d+)", text)))


if __name__ == "__main__":
    unittest.main()
