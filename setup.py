"""The package carries the library that tools/build-host made; without it there is nothing to install. See pyproject.toml."""
import os
import shutil
import sys
from pathlib import Path

from setuptools import setup
from setuptools.command.build_py import build_py
from setuptools.dist import Distribution

ROOT = Path(__file__).resolve().parent
LIBRARY = Path(os.environ.get("NIBTOGGLE_LIBRARY", ROOT / "target" / "host" / "libnibtoggle.so"))


class WithLibrary(build_py):
    """The .so goes beside the modules."""

    def run(self):
        if not LIBRARY.is_file():
            sys.exit("nibtoggle: there is no %s; run tools/build-host first, on a machine with the Rattle kit, or name a libnibtoggle.so "
                     "in NIBTOGGLE_LIBRARY" % LIBRARY)
        super().run()
        if not getattr(self, "editable_mode", False):
            shutil.copyfile(LIBRARY, Path(self.build_lib) / "nibtoggle" / "libnibtoggle.so")


class ForThisMachine(Distribution):
    """The library is for one kind of machine, and so is the package."""

    def has_ext_modules(self):
        return True


setup(cmdclass={"build_py": WithLibrary}, distclass=ForThisMachine)
