"""What packages are made with: files that are copied, put and compressed, the same each time."""
from __future__ import annotations

import gzip
import io
import os
import subprocess

from scripts import library
from scripts.crates import ROOT


def said(*words: str, **options: object) -> str:
    """What a command prints."""
    return subprocess.run(words, check=True, stdout=subprocess.PIPE, text=True, **options).stdout


def moment() -> int:
    """The time of all that is packed, in seconds: SOURCE_DATE_EPOCH, or that of the last commit."""
    given = os.environ.get("SOURCE_DATE_EPOCH")
    return int(given or said("git", "-C", ROOT, "log", "-1", "--format=%ct"))


def octets_of(path: str) -> bytes:
    """What is in a file."""
    with open(path, "rb") as file:
        return file.read()


def put(path: str, octets: bytes, mode: int = 0o644) -> None:
    """Writes a file, and the folders above it."""
    os.makedirs(os.path.dirname(path), exist_ok=True)
    with open(path, "wb") as file:
        file.write(octets)
    os.chmod(path, mode)


def copy(source: str, path: str, mode: int = 0o644) -> None:
    """Copies a file."""
    put(path, octets_of(source), mode)


def compressed(octets: bytes) -> bytes:
    """Octets by gzip, without a time."""
    made = io.BytesIO()
    with gzip.GzipFile(fileobj=made, mode="wb", compresslevel=9, mtime=0) as file:
        file.write(octets)
    return made.getvalue()


def copy_manual(name: str, share: str) -> None:
    """Copies the manual page of a program, by gzip."""
    page = os.path.join(ROOT, "docs", f"{name}.1")
    if os.path.exists(page):
        put(f"{share}/man/man1/{name}.1.gz", compressed(octets_of(page)))


def copy_program(path: str, name: str, top: str) -> None:
    """Copies a program, without its symbols, and what belongs to it."""
    copy(path, f"{top}/bin/{name}", 0o755)
    subprocess.run(["strip", "--strip-unneeded", "--remove-section=.comment", f"{top}/bin/{name}"], check=True)
    copy_manual(name, f"{top}/share")
    completion = os.path.join(ROOT, "docs", f"{name}.bash")
    if os.path.exists(completion):
        copy(completion, f"{top}/share/bash-completion/completions/{name}")


def copy_sources(source: str, path: str) -> None:
    """Copies the modules in Python of a folder, and what they read beside them."""
    for name in sorted(os.listdir(source)):
        if name.endswith((".py", ".typed", ".sql", ".c", ".h", ".hpp")):
            copy(os.path.join(source, name), f"{path}/{name}")


def copy_runtimes(top: str) -> None:
    """Copies the sources that programs in C and C++ compile below a folder."""
    for name, folder in library.RUNTIMES.items():
        copy(os.path.join(folder, os.path.basename(name)), f"{top}/{name}")


def paths_below(top: str) -> list[str]:
    """A folder, and all that is in it."""
    found = [top]
    for below, folders, files in os.walk(top):
        found += [os.path.join(below, name) for name in (*folders, *files)]
    return found
