"""Finds the programs that tests run, and loads tests as modules.

A script is given a program by a word, or by the environment, which names it by its name in capitals; else it is what
tools/program or tools/compile prints, which compiles it if need be."""
import importlib.machinery
import importlib.util
import os
import subprocess
import sys

ROOT = os.path.dirname(os.path.dirname(os.path.realpath(__file__)))
TOOLS = {
    "machcheck": ["tools/program"],
    "mrc_cases": ["tools/compile", "mrc_cases"],
    "mrc_tests": ["tools/compile", "mrc_tests", "--test"],
}


def path_of(name, word=None):
    """The path of a program."""
    given = word or os.environ.get(name.upper())
    if given:
        return os.path.realpath(given)
    tool, *words = TOOLS[name]
    done = subprocess.run([f"{ROOT}/{tool}", *words], stdin=subprocess.DEVNULL, stdout=subprocess.PIPE, text=True, check=False)
    if done.returncode:
        sys.exit(f"there is no program {name}")
    return done.stdout.strip()


def words_and_only():
    """The words of a script, and the word behind `--only`, or an empty one."""
    words, only = sys.argv[1:], ""
    if "--only" in words:
        at = words.index("--only")
        only = words[at + 1]
        del words[at : at + 2]
    return words, only


def load(path):
    """A script that has no `.py` behind its name, by its path in tests/, as a module."""
    whole = f"{ROOT}/tests/{path}"
    if os.path.dirname(whole) not in sys.path:
        sys.path.append(os.path.dirname(whole))
    loader = importlib.machinery.SourceFileLoader(path.replace("/", "_").replace("-", "_"), whole)
    module = importlib.util.module_from_spec(importlib.util.spec_from_loader(loader.name, loader))
    loader.exec_module(module)
    return module
