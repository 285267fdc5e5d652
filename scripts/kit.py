"""The kit's own words for a check or a build, those with which `rt` calls the prover; and what is kept of them."""
import hashlib
import importlib.util
import os
import subprocess
import sys

from scripts.crates import ROOT


def load_kit():
    """The module of the kit that knows them."""
    found = subprocess.run(["rt", "doc"], stdout=subprocess.PIPE, text=True, check=True).stdout.strip()
    path = os.path.join(os.path.dirname(found), "bin", "rtlib.py")
    spec = importlib.util.spec_from_file_location("rtlib", path)
    kit = importlib.util.module_from_spec(spec)
    sys.modules["rtlib"] = kit
    sys.dont_write_bytecode = True
    spec.loader.exec_module(kit)
    return kit


def cache():
    """Where it is kept what earlier runs on this machine came to."""
    return os.path.join(os.environ.get("XDG_CACHE_HOME") or os.path.expanduser("~/.cache"), "lemonrudder")


def files_below(kit, crate):
    """The sources of a crate and of those below."""
    return [file for it in [crate, *crate.below()] for file in kit.files_of(it.folder)]


def sum_of(kit, crate, scripts=()):
    """A sum of the kit, of those sources and of these scripts, which is the same wherever they stand."""
    files = [(f"{kit.KIT}/WHAT", kit.KIT), *((file, ROOT) for file in scripts)]
    total = hashlib.sha256()
    for it in [crate, *crate.below()]:
        total.update(repr((it.name, it.said)).encode())
        files += [(file, os.path.dirname(it.folder)) for file in kit.files_of(it.folder)]
    for file, top in files:
        with open(file, "rb") as it:
            total.update(repr((os.path.relpath(file, top), it.read())).encode())
    return total.hexdigest()


def are_older(files, moment):
    """Whether all files were last changed before a moment."""
    return all(os.stat(file).st_mtime < moment for file in files)
