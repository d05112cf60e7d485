"""What the checks of this folder ask of the script `audit`, which reads the sources: it is taken in as a module."""
import importlib.machinery
import importlib.util
import os

HERE = os.path.dirname(os.path.dirname(os.path.realpath(__file__)))


def audit():
    """The script `audit`, as a module."""
    loader = importlib.machinery.SourceFileLoader("audit_of_claims", os.path.join(HERE, "audit"))
    module = importlib.util.module_from_spec(importlib.util.spec_from_loader(loader.name, loader))
    loader.exec_module(module)
    return module


def reached_by(claim):
    """The definitions that a claim rests on, each after those that it uses."""
    script = audit()
    sources = script.Sources()
    script.read_models()
    return script.reached(script.roots_of(sources, next(found for found in script.all_claims() if found[3] == claim)))
