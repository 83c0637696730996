"""What `rt` knows of crates and of how they are checked, for the tools beside this file."""
import importlib.machinery
import importlib.util
import os
import shutil
import sys

TOP = os.path.dirname(os.path.dirname(os.path.abspath(__file__)))


def crate(name):
    """Returns the library of `rt`, and the crate of that name, whose libraries have to be built."""
    loader = importlib.machinery.SourceFileLoader("rtlib", f"{os.path.dirname(os.path.realpath(shutil.which('rt')))}/rtlib.py")
    sys.modules["rtlib"] = made = importlib.util.module_from_spec(importlib.util.spec_from_loader("rtlib", loader))
    loader.exec_module(made)
    found = made.Crate(f"{TOP}/crates/{name}", TOP, {})
    if not all(it.is_built() for it in found.below()):
        sys.exit("not all libraries below are built: run rt check in the crate's folder first")
    return made, found
