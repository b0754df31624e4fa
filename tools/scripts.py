"""Loads a script of tools/ that has no ending, so that another script can use its functions."""
import glob
import importlib.util
import os
from importlib.machinery import SourceFileLoader

TOOLS = os.path.dirname(os.path.abspath(__file__))


def script(name):
    """A script as a module. Its `main` is not called."""
    path = next(it for pattern in (name, os.path.join('*', name)) for it in glob.glob(os.path.join(glob.escape(TOOLS), pattern)) if os.path.isfile(it))
    loader = SourceFileLoader(name, path)
    module = importlib.util.module_from_spec(importlib.util.spec_from_loader(name, loader))
    loader.exec_module(module)
    return module
