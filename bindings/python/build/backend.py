"""The build backend of pip install: setuptools as Debian has it, so that no net is needed, in a copy of this
folder, so that the checkout stays as it is, with the shared library in the package."""

import os
import pathlib
import shutil
import subprocess
import sys
import tempfile

HERE = pathlib.Path(__file__).resolve().parent.parent
DEBIAN = "/usr/lib/python3/dist-packages"


def get_requires_for_build_wheel(config_settings=None):
    """Nothing that is not there already."""
    return []


def build_wheel(wheel_directory, config_settings=None, metadata_directory=None):
    """The wheel, whose package has the shared library."""
    sys.path.append(DEBIAN)
    try:
        from setuptools import build_meta

        __import__("wheel")
    except ImportError:
        sys.exit("hello891: the Debian packages python3-setuptools and python3-wheel are needed to install it")
    with tempfile.TemporaryDirectory() as scratch:
        copy = pathlib.Path(scratch) / "hello891"
        shutil.copytree(HERE, copy, ignore=shutil.ignore_patterns("__pycache__", "*.egg-info"))
        library(copy / "hello" / "libhello.so")
        os.chdir(copy)
        # The library is for one sort of machine, any Python.
        (copy / "setup.cfg").write_text("[bdist_wheel]\nplat_name = linux_x86_64\n")
        return build_meta.build_wheel(wheel_directory)


def library(place):
    """Puts the shared library there: the file that HELLO_SO names, or one made of the archives."""
    named = os.environ.get("HELLO_SO")
    if named:
        if not os.path.isfile(named):
            sys.exit(f"hello891: HELLO_SO names no file: {named}")
        shutil.copy(named, place)
        return
    made = subprocess.run([str(HERE / "make_library"), str(place)], stderr=subprocess.PIPE, text=True)
    if made.returncode != 0:
        sys.exit(
            f"hello891: {made.stderr.strip()}\nhello891: the shared library is needed to install it. Make it with tools/library,"
            " or name a libhello.so in HELLO_SO, or the folder of libhello.a and libclass_bench.a in HELLO_LIB"
        )
