"""Loads a tool of this folder as a module: it has no `.py` behind its name. For tools/inspect and for the tests."""

import importlib.machinery
import importlib.util
import os
import sys

HERE = os.path.dirname(os.path.realpath(__file__))


def loaded(name):
    sys.dont_write_bytecode = True
    loader = importlib.machinery.SourceFileLoader(name + "_script", os.path.join(HERE, name))
    module = importlib.util.module_from_spec(importlib.util.spec_from_loader(name + "_script", loader))
    loader.exec_module(module)
    return module
