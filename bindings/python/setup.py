# SPDX-License-Identifier: MIT
"""Puts the library into the wheel: the libcola.so that COLA_LIBRARY names, else the one that `make library` has built. Where there
is none the module goes alone, and loads the library that the system has."""

import os
from pathlib import Path

from setuptools import Distribution, setup
from setuptools.command.build_py import build_py

try:
    from setuptools.command.bdist_wheel import bdist_wheel
except ImportError:
    from wheel.bdist_wheel import bdist_wheel

built = Path(__file__).resolve().parent.parent.parent / "out/lib/libcola.so.1"
library = Path(os.environ.get("COLA_LIBRARY") or built)


class WithLibrary(build_py):
    def run(self):
        super().run()
        if library.exists():
            folder = os.path.join(self.build_lib, "cola.libs")
            self.mkpath(folder)
            self.copy_file(str(library), os.path.join(folder, "libcola.so.1"))


class ForThisMachine(Distribution):
    def has_ext_modules(self):
        return library.exists()


class ForAnyPython(bdist_wheel):
    def get_tag(self):
        return ("py3", "none", super().get_tag()[2])


setup(cmdclass={"build_py": WithLibrary, "bdist_wheel": ForAnyPython}, distclass=ForThisMachine)
