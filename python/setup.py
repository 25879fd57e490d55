"""The wheel: one package, `mahyrei`, made of the module, its types and the shared library.

MAHYREI_LIBRARY names the shared library that goes in. The module is a file of its own in the
repository and becomes the package's __init__, since types (py.typed) need a package.
"""

import os
import pathlib
import re
import shutil

from setuptools import setup
from setuptools.command.build_py import build_py
from setuptools.dist import Distribution
from wheel.bdist_wheel import bdist_wheel

HERE = pathlib.Path(__file__).resolve().parent
MODULE = (HERE / "mahyrei.py").read_text(encoding="utf8")
SONAME = re.search(r'^_LIBRARY = "(.*)"$', MODULE, re.MULTILINE)[1]


class Package(build_py):
    """Puts the files together; there is nothing to find."""

    def run(self):
        folder = pathlib.Path(self.build_lib, "mahyrei")
        folder.mkdir(parents=True, exist_ok=True)
        for given, name in (
            (HERE / "mahyrei.py", "__init__.py"),
            (HERE / "mahyrei.pyi", "__init__.pyi"),
            (HERE / "py.typed", "py.typed"),
            (pathlib.Path(os.environ["MAHYREI_LIBRARY"]), SONAME),
        ):
            shutil.copyfile(given, folder / name)


class Wheel(bdist_wheel):
    """For one kind of machine, and for every Python 3: nothing is compiled against Python."""

    def finalize_options(self):
        super().finalize_options()
        self.root_is_pure = False

    def get_tag(self):
        return ("py3", "none", super().get_tag()[2])


class Binary(Distribution):
    def has_ext_modules(self):
        return True


setup(
    version=re.search(r'^__version__ = "(.*)"$', MODULE, re.MULTILINE)[1],
    packages=["mahyrei"],
    package_dir={"mahyrei": "."},
    cmdclass={"build_py": Package, "bdist_wheel": Wheel},
    distclass=Binary,
)
