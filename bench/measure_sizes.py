#!/usr/bin/env python3
"""Measures how large the library for C and programs with it are, and what a server takes of the heap.

usage: measure_sizes.py LIBRARY MEMORY [--short]

LIBRARY is the folder in which the library is, MEMORY the program of bench/c/memory.c. A program is linked with the archive,
without what it does not call (-Wl,--gc-sections) and without symbols (-s); what it has more than one that does nothing
is the library and what the program itself has.
"""
import os
import subprocess
import tempfile

from measure import parser_of

ROOT = os.path.dirname(os.path.dirname(os.path.abspath(__file__)))
EMPTY = "int main(void) { return 0; }\n"
# what is linked, and its sources
PROGRAMS = [
    ("a program that does nothing", []),
    ("a server is opened and closed", ["tests/embed/main.c"]),
    ("examples/first.c: a client and a server", ["examples/first.c"]),
    ("examples/bank.c: a server over epoll", ["examples/bank.c", "examples/loop.c"]),
]


def run(*words):
    return subprocess.run(words, stdout=subprocess.PIPE, text=True, check=True).stdout


def sections(path):
    """The octets of code and constants, of data, and of zeros."""
    return run("size", path).split("\n")[1].split()[:3]


def files(library, folder):
    """Prints how large the files are."""
    archive = os.path.join(library, "lib", "liblemonrudder.a")
    shared = os.path.realpath(os.path.join(library, "lib", "liblemonrudder.so"))
    stripped = os.path.join(folder, "stripped.so")
    run("strip", "-o", stripped, shared)
    for name, path in (("the archive", archive), ("the shared library", shared), ("the same, stripped", stripped)):
        print(f"{os.path.getsize(path):10,}  {name}")
    code, data, zeros = sections(stripped)
    print(f"            of it {int(code):,} code and constants, {int(data):,} data, {int(zeros):,} zeros")


def programs(library, folder):
    """Prints how large programs are."""
    empty = os.path.join(folder, "empty.c")
    with open(empty, "w", encoding="ascii") as file:
        file.write(EMPTY)
    least = None
    for name, sources in PROGRAMS:
        program = os.path.join(folder, "program")
        paths = [os.path.join(ROOT, source) for source in sources] or [empty]
        run("cc", "-Os", "-s", "-Wl,--gc-sections", f"-I{library}/include", *paths, f"{library}/lib/liblemonrudder.a", "-o", program)
        code, data, zeros = map(int, sections(program))
        size = code + data + zeros
        least = least or size
        print(f"{os.path.getsize(program):10,}  {name}; loaded {size:,}, {size - least:,} more than nothing")


def main():
    given = parser_of("library", "memory").parse_args()
    library, memory = map(os.path.abspath, (given.library, given.memory))
    with tempfile.TemporaryDirectory() as folder:
        print("octets of a file")
        files(library, folder)
        print("octets of a program that is linked with the archive, without what it does not call and without symbols")
        programs(library, folder)
    print("octets of the heap: asked for, taken by malloc, in blocks")
    for line in run(memory).splitlines():
        asked, taken, blocks, what = line.split(" ", 3)
        print(f"{float(asked):12,.1f} {float(taken):12,.1f} {float(blocks):8.2f}  {what}")


main()
