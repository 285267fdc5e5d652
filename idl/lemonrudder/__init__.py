"""A backend of omniidl, the IDL compiler of omniORB, for programs over liblemonrudder. docs/IDL.md says what comes out.

    omniidl -p idl -blemonrudder -Wbpython FILE.idl

In place of python: cpp, c, rust or types, several of them one after another; without any it is python. By -Wbpartial
what can't be made is left out, and an operation with it served and called by octets. -Wbfolder=DIR makes the folder DIR
and writes there.
"""
import importlib
import os
import sys

from . import model

LANGUAGES = ("python", "cpp", "c", "rust", "types")

PARTIAL, FOLDER = "partial", "folder="

usage_string = "\n".join([*(f"  -Wb{language}" for language in LANGUAGES),
                          f"  -Wb{PARTIAL}     Make what can be made; by octets the operations whose types can't",
                          f"  -Wb{FOLDER}DIR  Write into DIR, which is made where it isn't there"])


def run(tree, args):
    """Writes what the arguments ask for. Where the file is refused it says so on standard error, and ends by 1."""
    folders = [word[len(FOLDER):] for word in args if word.startswith(FOLDER)]
    languages = [word for word in args if word != PARTIAL and not word.startswith(FOLDER)]
    unknown = [word for word in languages if word not in LANGUAGES]
    if unknown:
        sys.exit(f"omniidl: lemonrudder: no language: {', '.join(unknown)}; there are {', '.join(LANGUAGES)}")
    before = os.getcwd()
    try:
        unit = model.unit_of(tree, PARTIAL in args)
        for folder in folders:
            os.makedirs(folder, exist_ok=True)
            os.chdir(folder)
        files = {}
        for language in languages or ["python"]:
            files.update(importlib.import_module(f".to_{language}", __name__).files_of(unit))
    except model.Refused as refused:
        sys.exit("\n".join(refused.lines))
    for name, text in files.items():
        model.written(name, text)
    os.chdir(before)
