"""Compiles C and C++ against liblemonrudder and runs it: the programs of tests/embed, and the examples over sockets.

Each program of tests/embed is run with the archive, with the shared library, with the sanitizers for addresses and for
undefined behaviour, and under valgrind. The banks are called by clients of tests/giop_peers.py.
"""
from __future__ import annotations

import atexit
import contextlib
import dataclasses
import functools
import itertools
import os
import random
import re
import resource
import shutil
import signal
import socket
import subprocess
import tempfile
import time
import unittest
import unittest.mock
from collections.abc import Callable, Iterator
from concurrent.futures import ThreadPoolExecutor

from scripts import header, library
from tests import base, giop, programs
from tests.allocations import Counting
from tests.cdr import BIG, LITTLE, Octets
from tests.giop import (
    CLOSE_CONNECTION, MAYBE, MESSAGE_ERROR, NO, USER_EXCEPTION, Reference, reference_of, reply, system_exception,
)
from tests.giop_peers import SECONDS, Peer, Wrong, ask, number_body, request, until, want
from tests.programs import ROOT, UNPROVED

EMBED = os.path.join(ROOT, "tests", "embed")
EXAMPLES = os.path.join(ROOT, "examples")
WARNINGS = ["-Wall", "-Wextra", "-Wpedantic", "-Wshadow", "-Werror"]
C, CPP = ["-std=c99", *WARNINGS], ["-std=c++17", *WARNINGS, "-Wconversion"]
# (the check of vptr takes descriptors, of which a test leaves none)
SANITIZED = ["-fsanitize=address,undefined", "-fno-sanitize=vptr", "-fno-sanitize-recover=all"]
THREADS = ["-fsanitize=thread"]
VALGRIND = ["valgrind", "-q", "--error-exitcode=9", "--leak-check=full"]
# a program under valgrind may take so many seconds
PATIENCE = 600
SEED = 29
PROGRAMS = ["again.c", "apart.c", "bad.c", "bounds.c", "cdr.c", "kept.c", "many.c", "parked.c", "leaving.c", "heap.c",
            "classes.cpp"]
# what the shared library takes of others
TAKES = {"malloc", "realloc", "free", "memcpy", "memmove", "memset", "memcmp", "bcmp"}


def run(*words: str, env: dict[str, str] | None = None, seconds: int = PATIENCE) -> str:
    """Runs a command that is to succeed, and answers what it printed."""
    ran = subprocess.run(words, stdin=subprocess.DEVNULL, stdout=subprocess.PIPE, stderr=subprocess.STDOUT, text=True,
                         errors="replace", timeout=seconds, env={**os.environ, **(env or {})})
    if ran.returncode != 0:
        raise Wrong(f"{' '.join(words)} ended with status {ran.returncode}\n{ran.stdout.strip()}")
    return ran.stdout


class Kit:
    """The library, the compilers, and a folder for programs."""

    def __init__(self, folder: str, work: str) -> None:
        self.include, self.lib = os.path.join(folder, "include"), os.path.join(folder, "lib")
        self.archive = os.path.join(self.lib, "liblemonrudder.a")
        self.work = work
        self.is_sanitized = self.can_sanitize(SANITIZED)

    def header(self) -> str:
        """The header for C, without comments."""
        with open(os.path.join(self.include, "lemonrudder.h"), encoding="ascii") as file:
            return re.sub(r"/\*.*?\*/", "", file.read(), flags=re.S)

    def version(self) -> list[str]:
        """The numbers of the version in the header."""
        return re.findall(r"#define LR_VERSION_(?:MAJOR|MINOR|PATCH) (\d+)", self.header())

    def can_sanitize(self, flags: list[str]) -> bool:
        """Whether programs are compiled and run with sanitizers."""
        source = os.path.join(self.work, "nothing.c")
        with open(source, "w", encoding="ascii") as file:
            file.write("int main(void) { return 0; }\n")
        try:
            run("cc", *flags, source, "-o", source + ".out")
            run(source + ".out")
        except Wrong:
            return False
        return True

    def compile(self, name: str, sources: list[str], flags: list[str], libraries: list[str] | None = None) -> str:
        """Compiles sources in C, or in C++ where the first one is, and answers the program."""
        program = os.path.join(self.work, name)
        is_cpp = not sources[0].endswith(".c")
        run(programs.tool("g++" if is_cpp else "cc"), *(CPP if is_cpp else C), "-O1", "-g", *flags,
            f"-I{self.include}", *sources, *([self.archive] if libraries is None else libraries), "-o", program)
        return program

    def shared(self) -> list[str]:
        """The words that link with the shared library."""
        return [f"-L{self.lib}", "-llemonrudder", f"-Wl,-rpath,{self.lib}"]

    def example(self, name: str, sources: list[str], flags: list[str]) -> str:
        """An example, with the sanitizers if there are any."""
        paths = [os.path.join(EXAMPLES, source) for source in sources]
        return self.compile(name, paths, [f"-I{EXAMPLES}", *(SANITIZED if self.is_sanitized else []), *flags])


# ---- headers and libraries ----

def compile_text(kit: Kit, text: str, compiler: str, standard: str) -> None:
    """Compiles a text by itself."""
    source = os.path.join(kit.work, "alone.cpp" if "++" in standard else "alone.c")
    with open(source, "w", encoding="ascii") as file:
        file.write(text)
    of_c = [] if "++" in standard else ["-Wstrict-prototypes"]
    run(compiler, f"-std={standard}", *WARNINGS, "-Wconversion", *of_c, f"-I{kit.include}", "-c", source, "-o",
        source + ".o")


def headers_stand_alone(kit: Kit) -> None:
    """Each header compiles by itself, first and twice."""
    c_text, cpp_text = '#include "lemonrudder.h"\n' * 2, '#include "lemonrudder.hpp"\n' * 2
    loop_text = '#include "lemonrudder_loop.hpp"\n' * 2
    compilers = ["cc", *(["clang"] if shutil.which("clang") else [])]
    for compiler in compilers:
        for standard in ("c99", "c11", "c17", "c2x"):
            compile_text(kit, c_text, compiler, standard)
    if shutil.which("g++"):
        for compiler in ["g++", *(["clang++"] if shutil.which("clang++") else [])]:
            compile_text(kit, c_text, compiler, "c++11")
            compile_text(kit, c_text, compiler, "c++17")
            for text in (cpp_text, loop_text, "#define LEMONRUDDER_LOOP_POLL\n" + loop_text):
                compile_text(kit, text, compiler, "c++17")


def declarations_can_be_marked(kit: Kit) -> None:
    """LR_API stands before each function that the library has, and may be an attribute; the number is one for #if."""
    text = kit.header()
    named = set(re.findall(r"\b(lr_\w+)\(", text)) - set(re.findall(r"static inline \w+ (lr_\w+)\(", text))
    marked = set(re.findall(r"^LR_API [^;(]*?\b(lr_\w+)\([^;{}]*\);", text, re.M))
    if marked != named:
        raise Wrong(f"not marked: {named - marked}")
    begin = '#define LR_API __attribute__((visibility("hidden")))\n#include "lemonrudder.h"\n'
    begin += "#if LR_VERSION_NUMBER != {} * 65536 + {} * 256 + {}\n#error\n#endif\n".format(*kit.version())
    compile_text(kit, begin, "cc", "c99")
    if shutil.which("g++"):
        compile_text(kit, begin, "g++", "c++11")


def slots_are_closed_by_kind(kit: Kit) -> None:
    """Each kind of slot has a function that closes it, and takes no pointer to another kind."""
    kinds = ["catalogue", "server", "client", "assembler", "ior"]
    for closed, given in itertools.product(kinds, kinds):
        text = f'#include "lemonrudder.h"\nvoid f(lr_{given} *);\nvoid f(lr_{given} *x) {{ lr_{closed}_close(x); }}\n'
        try:
            compile_text(kit, text, "cc", "c99")
        except Wrong:
            want(closed == given, False)
        else:
            want(closed == given, True)


def texts_are_literals(kit: Kit) -> None:
    """LR_TEXT gives the octets of a literal, those after a NUL too, and takes nothing else."""
    text = ('#include "lemonrudder.h"\nstatic size_t size(const void *at, size_t size) { return at ? size : 0; }\n'
            'size_t f(const char *name);\nsize_t f(const char *name) { (void)name; return size(LR_TEXT(%s)); }\n')
    compile_text(kit, text % '"a\\0b" "c"', "cc", "c99")
    try:
        compile_text(kit, text % "name", "cc", "c99")
    except Wrong:
        pass
    else:
        raise Wrong("LR_TEXT takes a pointer")
    check = '#include "lemonrudder.h"\n#define SIZE_OF(at, size) size\n#define SIZE(pair) SIZE_OF(pair)\n'
    compile_text(kit, check + 'typedef char four[SIZE(LR_TEXT("a\\0b" "c")) == 4 ? 1 : -1];\n', "cc", "c99")


def programs_link(kit: Kit) -> None:
    """`cc main.c -llemonrudder` is all that a program needs, with either library; what is not called may go."""
    source, program = os.path.join(EMBED, "main.c"), os.path.join(kit.work, "main")
    search = {"LIBRARY_PATH": kit.lib, "CPATH": kit.include, "LD_LIBRARY_PATH": kit.lib}
    for words in (["-llemonrudder"], ["-Wl,-Bstatic", "-llemonrudder", "-Wl,-Bdynamic"], ["-static", "-llemonrudder"],
                  ["-Wl,--gc-sections", kit.archive]):
        run("cc", source, *words, "-o", program, env=search)
        if run(program, env=search) != "no error\n":
            raise Wrong("the program that was linked printed something else")


def two_archives_link(kit: Kit) -> None:
    """Two archives whose functions have other names are linked into one program, and each has a heap of its own."""
    archive, names = os.path.join(kit.work, "libother.a"), os.path.join(kit.work, "names")
    with open(names, "w", encoding="ascii") as file:
        file.writelines(f"{name} other_{name[3:]}\n" for name in defined_names(kit.archive) if name.startswith("lr_"))
    run(programs.tool("objcopy"), f"--redefine-syms={names}", kit.archive, archive)
    libraries = [kit.archive, archive]
    for order in (libraries, libraries[::-1]):
        ran_well([kit.compile("two", [os.path.join(EMBED, "two.c")], [f"-I{EMBED}"], order)])


def copies_live_side_by_side(kit: Kit) -> None:
    """In one process: the shared library, and two plug-ins that keep the names of the archive in them to themselves, by a
    word of the linker or by LR_API."""
    ways = {"plug_1.so": "-Wl,--exclude-libs,ALL", "plug_2.so": '-DLR_API=__attribute__((visibility("hidden")))'}
    for name, word in ways.items():
        run("cc", *C, f"-I{kit.include}", f"-I{EMBED}", "-shared", "-fPIC", os.path.join(EMBED, "plug.c"), kit.archive,
            word, "-o", os.path.join(kit.work, name))
    program = kit.compile("copies", [os.path.join(EMBED, "copies.c")], [f"-I{EMBED}"], [*kit.shared(), "-ldl"])
    ran_well([program, *(os.path.join(kit.work, name) for name in ways)])


def moved(kit: Kit) -> str:
    """A copy of all that is installed, in another folder."""
    folder = os.path.realpath(tempfile.mkdtemp(dir=kit.work))
    for name in ("lib", "include"):
        shutil.copytree(os.path.join(os.path.dirname(kit.lib), name), os.path.join(folder, name), symlinks=True)
    return folder


def packages_are_found(kit: Kit) -> None:
    """The words of pkg-config build the bank, as its first lines say, wherever the library was moved to."""
    programs.tool("pkg-config")
    folder = moved(kit)
    search = {"PKG_CONFIG_PATH": os.path.join(folder, "lib", "pkgconfig")}
    words = run("pkg-config", "--cflags", "--libs", "lemonrudder", env=search).split()
    named = [word[:2] + os.path.realpath(word[2:]) for word in words if not word.startswith("-l")]
    want(named, [f"-I{folder}/include", f"-L{folder}/lib"])
    sources = [os.path.join(EXAMPLES, name) for name in ("bank.c", "loop.c")]
    run("cc", "-o", os.path.join(kit.work, "packaged"), *sources, *words)
    version = run("pkg-config", "--modversion", "lemonrudder", env=search).strip()
    if version != ".".join(kit.version()):
        raise Wrong(f"the package is {version}, the header {kit.version()}")


PROJECT = """
cmake_minimum_required(VERSION 3.10)
project(found C)
find_package(lemonrudder {} REQUIRED)
find_package(lemonrudder REQUIRED)
add_executable(with_shared main.c)
target_link_libraries(with_shared lemonrudder::lemonrudder)
add_executable(with_archive main.c)
target_link_libraries(with_archive lemonrudder::static)
"""


def packages_are_found_by_cmake(kit: Kit) -> None:
    """find_package gives a target for each library, wherever they were moved to."""
    programs.tool("make")
    folder = moved(kit)
    shutil.copyfile(os.path.join(EMBED, "main.c"), os.path.join(folder, "main.c"))
    with open(os.path.join(folder, "CMakeLists.txt"), "w", encoding="ascii") as file:
        file.write(PROJECT.format(".".join(kit.version())))
    built = os.path.join(folder, "built")
    run(programs.tool("cmake"), "-G", "Unix Makefiles", "-S", folder, "-B", built, f"-DCMAKE_PREFIX_PATH={folder}")
    run("cmake", "--build", built)
    for name, file, needed in (("with_shared", f"liblemonrudder.so.{library.VERSION}", [library.SONAME]),
                               ("with_archive", "liblemonrudder.a", [])):
        program = os.path.join(built, name)
        want(run(program), "no error\n")
        want(re.findall(r"NEEDED.*\[(liblemonrudder.*)\]", run("readelf", "-d", program)), needed)
        with open(os.path.join(built, "CMakeFiles", f"{name}.dir", "link.txt"), encoding="utf-8") as linked:
            want(re.findall(r"\S*/liblemonrudder\S*", linked.read()), [os.path.join(folder, "lib", file)])


def cmake_takes_versions_by_the_rule(kit: Kit) -> None:
    """find_package takes a version by the rule of scripts/library.py, and a range by what lies in it."""
    some = [".".join(map(str, numbers)) for numbers in itertools.product((0, 1, 2), (0, 1, 2, 10), (0, 1, 10))]
    source = os.path.join(kit.work, "versions.cmake")
    for version in (library.VERSION, "0.1.1", "0.10.1", "1.1.1"):
        with open(source + ".in", "w", encoding="ascii") as file:
            file.write(library.package("lemonrudder-config-version.cmake.in", version))
        with open(source, "w", encoding="ascii") as file:
            for asked in some:
                file.write(f'set(PACKAGE_FIND_VERSION {asked})\ninclude("{source}.in")\n'
                           f'message("{asked} ${{PACKAGE_VERSION_COMPATIBLE}} ${{PACKAGE_VERSION_EXACT}}")\n')
        said = run(programs.tool("cmake"), "-P", source).splitlines()
        want(said, [f"{asked} {str(library.serves(version, asked)).upper()} {str(asked == version).upper()}"
                    for asked in some])
        ranges = [(*pair, end) for pair in itertools.combinations(some, 2) for end in ("INCLUDE", "EXCLUDE")]
        with open(source, "w", encoding="ascii") as file:
            for least, most, end in ranges:
                file.write(f"set(PACKAGE_FIND_VERSION_RANGE {least}...{most})\nset(PACKAGE_FIND_VERSION_MIN {least})\n"
                           f"set(PACKAGE_FIND_VERSION_MAX {most})\nset(PACKAGE_FIND_VERSION_RANGE_MAX {end})\n"
                           f'include("{source}.in")\nmessage("${{PACKAGE_VERSION_COMPATIBLE}}")\n')
        numbers = {text: [int(number) for number in text.split(".")] for text in (*some, version)}
        want(run("cmake", "-P", source).split(),
             [str(numbers[least] <= numbers[version] < numbers[most] or (version == most and end == "INCLUDE")).upper()
              for least, most, end in ranges])


def all_of(folder: str) -> list[str]:
    """The paths of all files below a folder, from there."""
    return sorted(os.path.relpath(os.path.join(at, name), folder) for at, _, names in os.walk(folder) for name in names)


def packages_are_made_below_a_root(kit: Kit) -> None:
    """With a root all is put below it, and nothing says where that was."""
    archive = next(filter(os.path.exists, (library.ARCHIVE, os.path.join(UNPROVED, f"{library.CRATE}.a"))), None)
    if archive is None:
        raise programs.missing(f"there is no {os.path.relpath(library.ARCHIVE, ROOT)}")
    for root in (os.path.join(kit.work, "some-root"), os.path.join(kit.work, "some-root-anew") + "/"):
        library.install("/opt/some", root, archive, is_proved=archive == library.ARCHIVE)
        made = os.path.join(root, "opt", "some")
        want(os.listdir(root), ["opt"])
        want(all_of(made), sorted([
            "include/lemonrudder.h", "include/lemonrudder.hpp", "include/lemonrudder_loop.hpp",
            "lib/liblemonrudder.a", "lib/liblemonrudder.so", f"lib/{library.SONAME}",
            f"lib/liblemonrudder.so.{library.VERSION}", "lib/pkgconfig/lemonrudder.pc", library.NOTE, *library.RUNTIMES,
            *(f"lib/cmake/lemonrudder/lemonrudder-{name}.cmake" for name in ("config", "config-version"))]))
        for name in all_of(made):
            with open(os.path.join(made, name), "rb") as file:
                if b"some-root" in file.read():
                    raise Wrong(f"{name} says where it was made")
        want(os.readlink(os.path.join(made, "lib", "liblemonrudder.so")), f"liblemonrudder.so.{library.VERSION}")


def versions_are_one(kit: Kit) -> None:
    """The version stands in the header, and all others that say one say that."""
    version = ".".join(kit.version())
    places = [
        ("scripts/library.py", r'^VERSION = "(.*)"$', version),
        ("bindings/rust/Cargo.toml", r'^version = "(.*)"$', version),
        ("bindings/rust/Cargo.lock", r'^name = "lemonrudder"\nversion = "(.*)"$', version),
        ("bindings/rust/Cargo.lock", r'^name = "lemonrudder-sys"\nversion = "(.*)"$', version),
        ("bindings/rust/Cargo.toml", r'^lemonrudder-sys = .* version = "(.*)" \}$', ".".join(kit.version()[:2])),
        ("bindings/python/pyproject.toml", r'^version = "(.*)"$', version),
        ("crates/giop_tool/src/help.rt", r'^pub\(crate\) const VERSION: &str = "(.*)";$', version),
        ("docs/giop.1", r'^\.TH GIOP 1 "" "giop ([^"]*)"', version),
        ("CHANGELOG.md", r"^## (\d\S*)$", version),
    ]
    for path, pattern, wanted in places:
        with open(os.path.join(ROOT, path), encoding="utf-8") as file:
            found = re.findall(pattern, file.read(), re.M)
        if found[:1] != [wanted]:
            raise Wrong(f"{path} says {found[:1]}, the header {wanted}")
    want(library.soname("0.3.4"), "liblemonrudder.so.0.3")
    want(library.soname("3.4.5"), "liblemonrudder.so.3")


def defined_names(archive: str) -> set[str]:
    """The global names that an archive defines."""
    return set(re.findall(r"^[0-9a-f]+ [A-Z] (\w+)$", run("nm", "-g", "--defined-only", archive), re.M))


def names_are_exported(kit: Kit) -> None:
    """The map and both libraries have the functions of the header and no others; what they take of others is little."""
    inline = r"static inline (?:void lr_\w+\(.*?\}|int64_t lr_\w+\(.*?^\})"
    text = re.sub(inline, "", kit.header(), flags=re.M | re.S)
    declared = set(re.findall(r"\b(lr_\w+)\(", text))
    with open(os.path.join(ROOT, "embed", "lemonrudder.map"), encoding="ascii") as file:
        nodes = re.findall(r"^(\w+) \{(.*?)^\}", re.sub(r"/\*.*?\*/", "", file.read(), flags=re.S), re.M | re.S)
    listed = {name: node for node, names in nodes for name in re.findall(r"^ +(lr_\w+);$", names, re.M)}
    lines = run("nm", "-D", "--with-symbol-versions", os.path.join(kit.lib, "liblemonrudder.so")).splitlines()
    symbols = [(line.split()[-2], *line.split()[-1].replace("@@", "@").split("@")) for line in lines]
    given = {name: node for kind, name, *node in symbols if kind in "TDBRVWi"}
    everywhere = {"the map": listed, "the shared library": given, "the archive": defined_names(kit.archive)}
    for what, names in everywhere.items():
        more, fewer = {*names} - declared, declared - {*names}
        if more or fewer:
            raise Wrong(f"{what} has {more}, which the header lacks, and lacks {fewer}")
    want(given, {name: [node] for name, node in listed.items()})
    taken = {name for kind, name, *_ in symbols if kind == "U"}
    if not taken <= TAKES:
        raise Wrong(f"it takes {taken - TAKES}")


def shared_library_says_how_it_is_loaded(kit: Kit) -> None:
    """It has the name of its series, and is bound when it is loaded; then only its data can be written, and no octet of
    that be run."""
    said = run("readelf", "-dlW", os.path.join(kit.lib, "liblemonrudder.so"))
    want(re.findall(r"\(SONAME\).*\[(.*)\]", said), [library.SONAME])
    want(bool(re.search(r"\(FLAGS_1\).*\bNOW\b", said)), True)
    want(os.path.exists(os.path.join(kit.lib, library.SONAME)), True)
    want(("TEXTREL" in said, "GNU_RELRO" in said), (False, True))
    want(re.findall(r"^ +GNU_STACK .* (\w+) +0x\w+$", said, re.M), ["RW"])
    want([flags for flags in re.findall(r"^ +LOAD .* (\w[\w ]*) +0x\w+$", said, re.M) if "W" in flags and "E" in flags],
         [])


ADDED = """
#include "lemonrudder.h"
int64_t lr_added(void) { return 7; }
"""
CALLS_ADDED = """
#include "lemonrudder.h"
#include <stdio.h>
int64_t lr_added(void);
int main(void) { return printf("%d\\n", (int)lr_added()) < 0 || lr_version() == 0; }
"""


def releases_have_nodes(kit: Kit) -> None:
    """A program that calls what a later release of the series adds does not begin with an earlier one; any that the
    earlier one serves runs with the later one."""
    major, minor, patch = map(int, library.VERSION.split("."))
    later = f"{major}.{minor}.{patch + 1}"
    folder = tempfile.mkdtemp(dir=kit.work)
    with open(os.path.join(kit.include, "lemonrudder.h"), encoding="ascii") as file:
        declared = header.read(file.read())
    functions = [*declared.functions, header.Function(header.Declared("int64_t", "lr_added"), [])]
    with unittest.mock.patch.dict(header.ADDED, {later: ("lr_added",)}):
        texts = {"map": header.the_map(dataclasses.replace(declared, functions=functions)), "added.c": ADDED,
                 "calls.c": CALLS_ADDED}
    paths = {name: os.path.join(folder, name) for name in (*texts, library.SONAME, "calls", "main")}
    for name, text in texts.items():
        with open(paths[name], "w", encoding="ascii") as file:
            file.write(text)
    run("cc", "-shared", "-fPIC", f"-I{kit.include}", paths["added.c"], "-Wl,--whole-archive", kit.archive,
        "-Wl,--no-whole-archive", f"-Wl,-soname,{library.SONAME}", f"-Wl,--version-script={paths['map']}", "-o",
        paths[library.SONAME])
    run("cc", f"-I{kit.include}", paths["calls.c"], paths[library.SONAME], "-o", paths["calls"])
    run("cc", f"-I{kit.include}", os.path.join(EMBED, "main.c"), *kit.shared()[:2], "-o", paths["main"])
    for where in (folder, kit.lib):
        want(run(paths["main"], env={"LD_LIBRARY_PATH": where}), "no error\n")
    want(run(paths["calls"], env={"LD_LIBRARY_PATH": folder}), "7\n")
    ran = subprocess.run([paths["calls"]], env={**os.environ, "LD_LIBRARY_PATH": kit.lib}, capture_output=True,
                         text=True, check=False, timeout=SECONDS)
    if ran.returncode == 0 or f"LEMONRUDDER_{later.replace('.', '_')}" not in ran.stderr or ran.stdout:
        raise Wrong(f"status {ran.returncode}, printed {ran.stdout!r} {ran.stderr!r}")


def want_threads(kit: Kit) -> None:
    """Skips the test where there is no sanitizer for threads."""
    if not kit.can_sanitize(THREADS):
        raise unittest.SkipTest("this needs the sanitizer for threads")


def heap_is_for_threads(kit: Kit) -> None:
    """Threads that take their first memory at once do not race."""
    want_threads(kit)
    support = os.path.join(ROOT, "embed", "support.c")
    ran_well([kit.compile("threads", [os.path.join(EMBED, "threads.c"), support], [*THREADS, "-pthread"], [])])


def objects_are_for_threads(kit: Kit) -> None:
    """Threads may use different objects at once."""
    want_threads(kit)
    ran_well([kit.compile("apart_threads", [os.path.join(EMBED, "apart.c")], [f"-I{EMBED}", *THREADS, "-pthread"])])


# ---- programs ----

def ran_well(words: list[str], seconds: int = PATIENCE) -> None:
    """Runs a test program; its last line says that all passed."""
    out = run(*words, seconds=seconds)
    last = out.splitlines()[-1] if out else ""
    if not re.fullmatch(r"[1-9]\d* passed, 0 failed", last):
        raise Wrong(out.strip())


# how a test program is run: the flags with which it is compiled, and the words before it
WAYS: dict[str, tuple[list[str], list[str]]] = {
    "with the archive": ([], []),
    "with the shared library": ([], []),
    "without exceptions": (["-fno-exceptions", "-fno-rtti"], []),
    "with the sanitizers": (SANITIZED, []),
    "under valgrind": ([], VALGRIND),
}


def program_ways() -> Iterator[tuple[str, tuple[str, str]]]:
    """The test programs, and the ways in which each is run."""
    for source in PROGRAMS:
        for way in WAYS:
            if way != "without exceptions" or source.endswith(".cpp"):
                yield f"{source} {way}", (source, way)


def run_program(kit: Kit, source: str, way: str) -> None:
    """Runs a test program in a way."""
    flags, before = WAYS[way]
    if before:
        programs.tool(before[0])
    if flags == SANITIZED and not kit.is_sanitized:
        raise unittest.SkipTest("this needs the sanitizers")
    name = f"{source} {way}".replace(".", "_").replace(" ", "_")
    libraries = kit.shared() if way == "with the shared library" else None
    flags = [f"-I{EMBED}", "-pthread", *flags]
    ran_well([*before, kit.compile(name, [os.path.join(EMBED, source)], flags, libraries)])


# ---- the header for C++ ----

STANDARDS = ["c++17", "c++20", "c++2b"]
BARE = ["-fno-exceptions", "-fno-rtti", "-DNDEBUG"]


def header_compiles(kit: Kit) -> None:
    """What uses it compiles silently by both compilers, in each standard, without exceptions and assert() too."""
    classes = os.path.join(EMBED, "classes.cpp")
    others = [os.path.join(EXAMPLES, name) for name in ("first.cpp", "bank.cpp", "slow_bank.cpp")]
    for compiler in [programs.tool("g++"), *(["clang++"] if shutil.which("clang++") else [])]:
        for standard in STANDARDS:
            for flags, sources in (([], [classes]), (BARE, [classes, *(others if standard == STANDARDS[-1] else [])])):
                run(compiler, *CPP, f"-std={standard}", *flags, f"-I{kit.include}", "-fsyntax-only", *sources)


def header_names_have_a_version(kit: Kit) -> None:
    """All that a program is given by it has the version in its name, so that two versions may be in one program."""
    made = os.path.join(kit.work, "classes.o")
    run(programs.tool("g++"), *CPP, f"-I{kit.include}", "-c", os.path.join(EMBED, "classes.cpp"), "-o", made)
    found = set(re.findall(r"lemonrudder::(\w+)", run("nm", "-C", made)))
    with open(os.path.join(kit.include, "lemonrudder.h"), encoding="ascii") as file:
        major, minor = re.findall(r"#define LR_VERSION_M\w+ (\d+)", file.read())
    want(found, {f"v0_{minor}" if major == "0" else f"v{major}"})


def header_names_numbers(kit: Kit) -> None:
    """Each number that the header for C names has a name in it too; errors and types have but the one."""
    with open(os.path.join(kit.include, "lemonrudder.h"), encoding="ascii") as file:
        text = file.read()
    types = re.findall(r"\b(LR_\w+) =", text[text.index("LR_TYPE_BOOLEAN ="):text.index("/* A moment,")])
    named = set(re.findall(r"\b(LR_\w+) = \d", text)) - {"LR_OK", *types}
    with open(os.path.join(kit.include, "lemonrudder.hpp"), encoding="ascii") as file:
        want(named - set(re.findall(r"\bLR_\w+", file.read())), set())


def header_checks_results(kit: Kit) -> None:
    """Who looks at the value of an error is ended by assert()."""
    program = kit.compile("value", [os.path.join(EMBED, "value.cpp")], [])
    for words in range(8):
        ran = subprocess.run([program, *["word"] * words], stderr=subprocess.DEVNULL, check=False)
        want(ran.returncode, 0 if words < 4 else -signal.SIGABRT)


# ---- processes ----

class Serving:
    """A program that prints a reference and serves until SIGTERM, and then ends well and has printed nothing else."""

    def __init__(self, *words: str, env: dict[str, str] | None = None) -> None:
        self.is_stopped = False
        self.process = subprocess.Popen(words, stdin=subprocess.PIPE, stdout=subprocess.PIPE, stderr=subprocess.PIPE,
                                        text=True, env=env)
        line = self.process.stdout.readline()
        if not line:
            raise Wrong(f"{words[0]} printed no reference: {self.end()}")
        self.text = line.strip()
        self.reference = reference_of(self.text)
        self.port = self.reference.port

    def __enter__(self) -> Serving:
        return self

    def stop(self) -> None:
        """Tells it to end."""
        self.is_stopped = True
        self.process.send_signal(signal.SIGTERM)

    def end(self) -> tuple[int, str, str]:
        """Ends it, and answers its status and what it printed."""
        if not self.is_stopped and self.process.poll() is None:
            self.stop()
        try:
            out, err = self.process.communicate(timeout=SECONDS)
        except subprocess.TimeoutExpired:
            self.process.kill()
            self.process.communicate()
            raise
        return self.process.returncode, out, err

    def __exit__(self, kind: type | None, *_: object) -> None:
        ended = self.end()
        if kind is None and (not self.is_stopped or ended != (0, "", "")):
            raise Wrong(f"it ended with the status, and printed, {ended}")


# ---- the bank ----

BANK = b"bank"


def deposit(request_id: int, account: str, amount: int, number: int | None = None, client: bytes = b"A",
            order: str = BIG, minor: int = 2) -> bytes:
    def put(out: Octets) -> None:
        out.string(account)
        out.longlong(amount)
    return request(request_id, BANK, "deposit", put, number=number, client=client, order=order, minor=minor)


def balance(request_id: int, account: str) -> bytes:
    return request(request_id, BANK, "balance", lambda out: out.string(account))


def returned(request_id: int, number: int, minor: int = 2) -> bytes:
    return reply(request_id, number_body(number), minor=minor)


def overdrawn(request_id: int, left: int) -> bytes:
    def put(out: Octets) -> None:
        out.string(b"IDL:Bank/Overdrawn:1.0")
        out.longlong(left)
    return reply(request_id, put, status=USER_EXCEPTION)


def bank_deposits_act_once(bank: str) -> None:
    """A deposit comes three times, in each version and order, and is answered each time as the first."""
    with Serving(bank, "127.0.0.1", "0") as serving:
        want(serving.reference, Reference(b"IDL:Bank:1.0", 2, b"127.0.0.1", serving.port, BANK))
        with Peer(serving.port) as peer:
            peer.tell(deposit(1, "ann", 100, number=1))  # (its reply is lost)
        for request_id, order, minor in ((7, LITTLE, 2), (8, BIG, 1), (9, LITTLE, 0)):
            ask(serving.port, deposit(request_id, "ann", 100, 1, order=order, minor=minor),
                returned(request_id, 100, minor))
        ask(serving.port, deposit(1, "ann", 5, number=2), returned(1, 105))
        ask(serving.port, deposit(1, "ann", 5, number=2, client=b"B"), returned(1, 110))
        ask(serving.port, deposit(1, "ann", -10), returned(1, 100))
        ask(serving.port, balance(2, "ann") + balance(3, "bob"), returned(2, 100) + returned(3, 0))


def bank_refusals(bank: str) -> None:
    """Exceptions are kept too, and what can't be done changes nothing."""
    with Serving(bank, "127.0.0.1", "0") as serving, Peer(serving.port) as peer:
        greatest = (1 << 63) - 1
        for octets, answer in (
            (deposit(1, "ann", 40), returned(1, 40)),
            (deposit(2, "ann", -41, number=1), overdrawn(2, 40)),
            (deposit(3, "ann", 60), returned(3, 100)),
            (deposit(4, "ann", -41, number=1), overdrawn(4, 40)),
            (deposit(5, "ann", greatest), system_exception(5, "BAD_PARAM", NO)),
            (deposit(6, "", 1), system_exception(6, "BAD_PARAM", NO)),
            (deposit(7, "ann", -1 << 63), overdrawn(7, 100)),
            (request(8, BANK, "withdraw"), system_exception(8, "BAD_OPERATION", NO)),
            (request(9, b"money", "balance"), system_exception(9, "OBJECT_NOT_EXIST", NO)),
            (request(10, BANK, "balance", b"\0\0\0\2ab"), system_exception(10, "MARSHAL", NO)),
            (request(11, BANK, "_is_a", lambda out: out.string(b"IDL:Bank:1.0")), reply(11, b"\1")),
            (request(12, BANK, "_is_a", lambda out: out.string(b"IDL:Money:1.0")), reply(12, b"\0")),
            (request(13, BANK, "_non_existent"), reply(13, b"\0")),
            (balance(14, "ann"), returned(14, 100)),
        ):
            peer.tell(octets)
            peer.wants(answer)


def bank_locates(bank: str) -> None:
    """A LocateRequest finds the bank, and no other object."""
    with Serving(bank, "127.0.0.1", "0") as serving, Peer(serving.port) as peer:
        for key, status in ((BANK, 1), (b"none", 0)):
            peer.tell(giop.locate(1, key), 1)
            peer.wants(giop.located(1, status))


def bank_serves_a_hundred(bank: str) -> None:
    """A hundred connections at once, whose octets come in pieces in turn: each deposit comes on two of them."""
    dice = random.Random(SEED)
    with Serving(bank, "127.0.0.1", "0") as serving, contextlib.ExitStack() as stack:
        peers = [stack.enter_context(Peer(serving.port)) for _ in range(100)]
        left = [deposit(index, f"account {index // 2}", 1 + index // 2, number=index // 2) for index in range(100)]
        while any(left):
            index = dice.choice([at for at, octets in enumerate(left) if octets])
            size = dice.choice([1, 5, 40, 1000])
            peers[index].tell(left[index][:size])
            left[index] = left[index][size:]
        for index, peer in enumerate(peers):
            peer.wants(returned(index, 1 + index // 2))
        for index in range(50):
            peers[index].tell(balance(1000, f"account {index}"))
        for index in range(50):
            peers[index].wants(returned(1000, 1 + index))


def bank_deposits_by_many_act_once(bank: str) -> None:
    """Twelve clients at once, each of which sends each of its deposits on three connections."""
    with Serving(bank, "127.0.0.1", "0") as serving, ThreadPoolExecutor(12) as pool:
        def deposits(index: int) -> None:
            name = f"client {index}"
            with contextlib.ExitStack() as stack:
                peers = [stack.enter_context(Peer(serving.port)) for _ in range(3)]
                for number in range(1, 41):
                    for peer in peers:
                        peer.tell(deposit(number, name, number, number=number, client=name.encode()))
                    for peer in peers:
                        peer.wants(returned(number, number * (number + 1) // 2), name)

        list(pool.map(deposits, range(12)))


def bank_serves_beside_one_that_reads_nothing(bank: str) -> None:
    """One sends requests until it can send no more, and reads nothing meanwhile; another is served; then it reads."""
    asked = b"".join(balance(index, "ann") for index in range(1000))
    answers = b"".join(returned(index, 0) for index in range(1000))
    with Serving(bank, "127.0.0.1", "0") as serving, Peer(serving.port) as slow:
        slow.socket.setsockopt(socket.SOL_SOCKET, socket.SO_RCVBUF, 1 << 16)
        slow.socket.settimeout(1)
        sent = 0
        with contextlib.suppress(socket.timeout):
            while sent < 1 << 26:
                sent += slow.socket.send(asked[sent % len(asked):])
            raise Wrong("it reads on while its answers are not taken")
        slow.socket.settimeout(SECONDS)
        ask(serving.port, deposit(1, "bob", 5), returned(1, 5))
        complete = sent * 1000 // len(asked)
        got = slow.received(complete * len(answers) // 1000)
        if got != (answers * (complete // 1000 + 1))[:len(got)] or len(got) != complete * len(answers) // 1000:
            raise Wrong(f"of {complete} answers {len(got)} octets came, or others than are wanted")


def bank_ends_streams(bank: str) -> None:
    """Octets that are no GIOP, and a message that only a server sends: MessageError after the answers before."""
    with Serving(bank, "127.0.0.1", "0") as serving:
        for octets in (b"GIOQ" + bytes(20), returned(1, 1), b"GET / HTTP/1.1\r\n\r\n"):
            with Peer(serving.port) as peer:
                peer.tell(balance(1, "ann") + octets)
                peer.wants(returned(1, 0) + MESSAGE_ERROR)
                peer.ended()


def bank_says_goodbye(bank: str) -> None:
    """At SIGTERM each connection gets its answers and CloseConnection, also one that has sent half a request."""
    with Serving(bank, "127.0.0.1", "0") as serving, contextlib.ExitStack() as stack:
        peers = [stack.enter_context(Peer(serving.port)) for _ in range(20)]
        for index, peer in enumerate(peers):
            peer.tell(balance(index, "ann") + balance(1, "ann")[:index])
            peer.wants(returned(index, 0))
        serving.stop()
        for peer in peers:
            peer.wants(CLOSE_CONNECTION)
            peer.ended()


def bank_wants_words(bank: str) -> None:
    """Without an address and a port it says so."""
    for words in ([], ["127.0.0.1"], ["nowhere", "0"], ["127.0.0.1", "0", "more"]):
        ran = subprocess.run([bank, *words], capture_output=True, text=True, timeout=SECONDS)
        if ran.returncode == 0 or not ran.stderr or ran.stdout:
            raise Wrong(f"{words}: status {ran.returncode}, printed {ran.stdout!r} {ran.stderr!r}")


# ---- the loop of the banks, in C and in C++ ----

def processor_seconds(process: int) -> float:
    """What a process has used so far."""
    with open(f"/proc/{process}/stat", encoding="ascii") as file:
        used = file.read().rpartition(")")[2].split()[11:13]
    return sum(map(int, used)) / os.sysconf("SC_CLK_TCK")


def most_memory(process: int) -> int:
    """The most octets that a process had in memory at a time."""
    with open(f"/proc/{process}/status", encoding="ascii") as file:
        return 1024 * int(re.findall(r"VmHWM:\s+(\d+) kB", file.read())[0])


def bank_sends_at_once(bank: str) -> None:
    """A hundred requests of one piece are answered without a wait for an acknowledgement, which takes 40 ms."""
    asked = b"".join(balance(index, "ann") for index in range(100))
    answers, took = b"".join(returned(index, 0) for index in range(100)), []
    with Serving(bank, "127.0.0.1", "0") as serving, Peer(serving.port) as peer:
        for _ in range(20):
            peer.tell(balance(1, "ann"))
            peer.wants(returned(1, 0))
            began = time.monotonic()
            peer.tell(asked)
            peer.wants(answers)
            took.append(time.monotonic() - began)
    if min(took) > 0.03:
        raise Wrong(f"a hundred answers took {sorted(took)}")


def bank_bears_want_of_descriptors(bank: str) -> None:
    """Where there is no descriptor for another peer, it waits for one, and the others are served meanwhile."""
    limited = ["sh", "-c", 'ulimit -n 20 && exec "$@"', "sh", bank, "127.0.0.1", "0"]
    with Serving(*limited) as serving, contextlib.ExitStack() as stack:
        peers = [stack.enter_context(Peer(serving.port)) for _ in range(30)]
        for peer in peers:
            peer.tell(balance(1, "ann"))
        for peer in peers[:10]:
            peer.wants(returned(1, 0))
        before = processor_seconds(serving.process.pid)
        time.sleep(1)
        used = processor_seconds(serving.process.pid) - before
        if used > 0.1:
            raise Wrong(f"it used {used} s of a processor in a second in which nobody asked")
        for peer in peers[:20]:
            peer.socket.close()
        for peer in peers[20:]:
            peer.wants(returned(1, 0))


def let_open(count: int) -> None:
    """Lets this process, and those that it begins, have so many descriptors."""
    most = resource.getrlimit(resource.RLIMIT_NOFILE)[1]
    resource.setrlimit(resource.RLIMIT_NOFILE, (min(most, count), most))


def bank_serves_beside_streams_that_ended(bank: str) -> None:
    """A thousand peers whose streams ended, and that stay, keep nobody out."""
    let_open(4096)
    with Serving(bank, "127.0.0.1", "0") as serving, contextlib.ExitStack() as stack:
        peers = [stack.enter_context(Peer(serving.port)) for _ in range(1000)]
        for peer in peers:
            peer.tell(bytes(12))
        for peer in peers:
            peer.wants(MESSAGE_ERROR)
        with Peer(serving.port) as peer:
            peer.socket.settimeout(3)
            peer.tell(balance(1, "ann"))
            peer.wants(returned(1, 0))


def is_there(peer: Peer, octets: bytes) -> bool:
    """Takes what has come on a connection: whether it is these octets."""
    peer.socket.setblocking(False)
    try:
        return peer.received(len(octets)) == octets
    except BlockingIOError:
        return False
    finally:
        peer.socket.settimeout(SECONDS)


def has_come(peer: Peer) -> bool:
    """Whether something has come on a connection, which stays there."""
    peer.socket.setblocking(False)
    try:
        return bool(peer.socket.recv(1, socket.MSG_PEEK))
    except BlockingIOError:
        return False
    finally:
        peer.socket.settimeout(SECONDS)


def is_refused(peer: Peer) -> bool:
    """Whether the other end of a connection takes nothing more, since it has closed it."""
    peer.socket.setblocking(False)
    try:
        peer.socket.send(b"octets that mean nothing")
    except BlockingIOError:
        return False
    except OSError:
        return True
    return False


def bank_drops_streams_that_ended(bank: str) -> None:
    """A peer whose stream ended, and that goes on to send, is dropped."""
    with Serving(bank, "127.0.0.1", "0") as serving, Peer(serving.port) as peer:
        peer.tell(bytes(12))
        peer.wants(MESSAGE_ERROR)
        peer.ended()
        until(lambda: is_refused(peer), "a peer whose stream ended was not dropped")


def bank_tells_idle_peers_goodbye(bank: str) -> None:
    """With an idle time of two seconds: who sends nothing for so long is told goodbye, and who sends is not."""
    with Serving(bank, "127.0.0.1", "0") as serving, contextlib.ExitStack() as stack:
        busy, silent, half = (stack.enter_context(Peer(serving.port)) for _ in range(3))
        half.tell(balance(1, "ann")[:30])
        for index in range(20):
            busy.tell(balance(index, "ann"))
            busy.wants(returned(index, 0))
            time.sleep(0.2)
        for peer in (silent, half):
            peer.wants(CLOSE_CONNECTION)
            peer.ended()


def bank_drops_peers_that_take_nothing(bank: str) -> None:
    """With an idle time of two seconds: who takes nothing of what is due for so long is dropped."""
    asked = b"".join(balance(index, "ann") for index in range(1000))
    with Serving(bank, "127.0.0.1", "0") as serving, Peer(serving.port) as slow:
        slow.socket.setsockopt(socket.SOL_SOCKET, socket.SO_RCVBUF, 1 << 16)
        with contextlib.suppress(OSError):
            while True:
                slow.socket.send(asked)
        until(lambda: is_refused(slow), "a peer that takes nothing was not dropped")
        ask(serving.port, balance(1, "ann"), returned(1, 0))


def bank_serves_beside_silent_peers(bank: str) -> None:
    """A thousand peers that say nothing keep nobody out: the one that is idle longest is told goodbye."""
    let_open(4096)
    with Serving(bank, "127.0.0.1", "0") as serving, contextlib.ExitStack() as stack:
        peers = [stack.enter_context(Peer(serving.port)) for _ in range(1000)]
        for index, peer in enumerate(peers):
            peer.tell(balance(index, "ann"))
        for index, peer in enumerate(peers):
            peer.wants(returned(index, 0))
        ask(serving.port, deposit(1, "bob", 5), returned(1, 5))
        gone = [peer for peer in peers if is_there(peer, CLOSE_CONNECTION)]
        want(len(gone), 1, "who were told goodbye")
        gone[0].ended()


def bank_is_full(bank: str) -> None:
    """A thousand peers have a place, though they say nothing while the last of them come: nobody is told goodbye."""
    let_open(4096)
    with Serving(bank, "127.0.0.1", "0") as serving, contextlib.ExitStack() as stack:
        peers = [stack.enter_context(Peer(serving.port)) for _ in range(995)]
        for index, peer in enumerate(peers):
            peer.tell(balance(index, "ann"))
            peer.wants(returned(index, 0))
        time.sleep(2.5)
        for _ in range(5):
            peers.append(stack.enter_context(Peer(serving.port)))
            peers[-1].tell(balance(1, "ann"))
            peers[-1].wants(returned(1, 0))
        want([index for index, peer in enumerate(peers) if is_there(peer, CLOSE_CONNECTION)], [])


@contextlib.contextmanager
def stopped(process: int) -> Iterator[None]:
    """Meanwhile a process does nothing, so that what is sent to it comes at once."""
    os.kill(process, signal.SIGSTOP)
    until(lambda: state_of(process) == "T", "it was not stopped")
    try:
        yield
    finally:
        os.kill(process, signal.SIGCONT)


def state_of(process: int) -> str:
    with open(f"/proc/{process}/stat", encoding="ascii") as file:
        return file.read().rpartition(")")[2].split()[0]


def bank_is_fair(bank: str) -> None:
    """Of what one peer sent before another one, two turns are taken at most before the other one is answered."""
    flood, most = [deposit(index, "ann", 1) for index in range(500)], 0
    turn = 4096 // len(flood[0]) + 1
    with Serving(bank, "127.0.0.1", "0") as serving, Peer(serving.port) as first, Peer(serving.port) as other:
        for peer in (first, other):
            peer.tell(balance(1, "bob"))
            peer.wants(returned(1, 0))
        for before in range(0, 20 * len(flood), len(flood)):
            with stopped(serving.process.pid):
                first.tell(b"".join(flood))
                other.tell(balance(1, "ann"))
            most = max(most, int.from_bytes(other.message().body, "big") - before)
            first.wants(b"".join(returned(index, before + index + 1) for index in range(len(flood))))
    if not 0 < most <= 2 * turn:
        raise Wrong(f"{most} of {len(flood)} requests were performed before that of the other one")


def again(port: int, octets: bytes) -> giop.Message:
    """The reply to a request, which is sent again, on another connection, where that is lost or TRANSIENT comes."""
    end = time.monotonic() + SECONDS
    while time.monotonic() < end:
        with contextlib.suppress(ConnectionError), Peer(port) as peer:
            peer.tell(octets)
            head = peer.received(giop.HEADER)
            if len(head) < giop.HEADER:
                continue
            answer = giop.read(head + peer.received(giop.size_of(head) - len(head)))
            if answer.status == giop.SYSTEM_EXCEPTION:
                want(answer.body, system_exception(answer.request_id, "TRANSIENT", NO)[-len(answer.body):])
                continue
            return answer
    raise Wrong("a request is not answered")


def bears_want_of_memory(*words: str) -> None:
    """With each allocation of a bank refused in turn, one in each run: it ends before it serves, and says so; or each
    deposit acts once, and gives the same again, though its first reply may be lost, or refused for now."""
    amounts, balances, ends = (100, -60, -5), (100, 40, 35), []
    asked = [deposit(number, "ann", amount, number=number) for number, amount in enumerate(amounts, 1)]
    with Counting() as counting:
        for refused in itertools.count(1):
            try:
                serving = Serving(*words, env=counting.refusing(refused))
            except Wrong as wrong:
                ends.append(str(wrong))
            else:
                ends.append("")
                with serving:
                    for octets, left in zip(asked * 2, balances * 2):
                        want(again(serving.port, octets).body, left.to_bytes(8, "big"), f"allocation {refused}")
            if counting.counted() < refused:
                break
    wrong = [end for end in ends if end and not re.search(r": \(1, '', '\w+: .+\\n'\)$", end)]
    # (of the last none was refused)
    want((wrong, ends[-1], "" in ends[:-1], len(ends) > 20), ([], "", True, True))


def bank_bears_want_of_memory(bank: str) -> None:
    """With each allocation refused in turn each deposit acts once."""
    bears_want_of_memory(bank, "127.0.0.1", "0")


def slow_bank_bears_want_of_memory(bank: str) -> None:
    """With each allocation refused in turn each deposit acts once, also those that are parked."""
    bears_want_of_memory(bank, "127.0.0.1", "0", "1")


# ---- the banks whose deposits take their time ----

@contextlib.contextmanager
def slow(bank: str, milliseconds: int) -> Iterator[Serving]:
    """A bank whose deposits take so long."""
    with Serving(bank, "127.0.0.1", "0", str(milliseconds)) as serving:
        yield serving


def slow_deposits_are_made_at_once(bank: str) -> None:
    """Of deposits of 64 clients at once the last one ends before another would after the first; balances that are asked
    meanwhile are told before."""
    with slow(bank, 3000) as serving, contextlib.ExitStack() as stack:
        peers = [stack.enter_context(Peer(serving.port)) for _ in range(64)]
        began = time.monotonic()
        for index, peer in enumerate(peers):
            peer.tell(deposit(index, "ann", 1, number=index))
        for index in range(10):
            ask(serving.port, balance(index, "ann"), returned(index, 0))
        balances, ends = [], []
        for peer in peers:
            balances.append(int.from_bytes(peer.message().body, "big"))
            ends.append(time.monotonic() - began)
        want(sorted(balances), list(range(1, 65)))
        if ends[0] < 3 or ends[-1] - ends[0] >= 3:
            raise Wrong(f"of 64 deposits the first took {ends[0]} s, and all {ends[-1]} s")


def slow_deposits_act_once(bank: str) -> None:
    """A deposit is sent again while it is made, by two, and the first one is gone: both get its outcome."""
    with slow(bank, 500) as serving, Peer(serving.port) as second, Peer(serving.port) as third:
        with Peer(serving.port) as first:
            first.tell(deposit(1, "ann", 100, number=1) + balance(2, "ann"))
            first.wants(returned(2, 0))
        second.tell(deposit(3, "ann", 100, number=1))
        third.tell(deposit(4, "ann", 100, number=1))
        second.wants(returned(3, 100))
        third.wants(returned(4, 100))
        ask(serving.port, deposit(5, "ann", 100, number=1) + balance(6, "ann"), returned(5, 100) + returned(6, 100))
        ask(serving.port, deposit(7, "ann", -101, number=2), overdrawn(7, 100))
        ask(serving.port, deposit(8, "ann", -101, number=2), overdrawn(8, 100))


def slow_deposits_are_answered_in_any_order(bank: str) -> None:
    """On one connection: what is asked behind a deposit is answered before it."""
    with slow(bank, 1000) as serving, Peer(serving.port) as peer:
        peer.tell(deposit(1, "ann", 5) + balance(2, "ann") + deposit(3, "bob", 7) + balance(4, "bob"))
        peer.wants(returned(2, 0) + returned(4, 0))
        want(sorted((it.request_id, it.body[-1]) for it in (peer.message(), peer.message())), [(1, 5), (3, 7)])


def slow_deposits_are_refused_for_now(bank: str) -> None:
    """Where 256 are parked, more are refused by TRANSIENT, and act when they are sent again. Of a peer 64 are parked at
    most: the rest is taken later."""
    with slow(bank, 1000) as serving, contextlib.ExitStack() as stack:
        peers = [stack.enter_context(Peer(serving.port)) for _ in range(6)]
        numbers = {index: range(70 * index, 70 * index + 70) for index in range(6)}
        for index, peer in enumerate(peers):
            peer.tell(b"".join(deposit(number, "ann", 1, number=number) for number in numbers[index]))
        refused = []
        for index, peer in enumerate(peers):
            replies = {it.request_id: it for it in (peer.message() for _ in numbers[index])}
            want(sorted(replies), list(numbers[index]))
            refused += [it for it in replies.values() if it.status != giop.NO_EXCEPTION]
        if not 1 <= len(refused) <= 6 * 70 - 256:
            raise Wrong(f"{len(refused)} were refused")
        for it in refused:
            want(giop.system_exception(it.request_id, "TRANSIENT", NO)[-len(it.body):], it.body)
        ask(serving.port, balance(1, "ann"), returned(1, 6 * 70 - len(refused)))
        for number in [it.request_id for it in refused][:64]:
            peers[0].tell(deposit(number, "ann", 1, number=number))
        for _ in refused[:64]:
            want(peers[0].message().status, giop.NO_EXCEPTION)
        ask(serving.port, balance(1, "ann"), returned(1, 6 * 70 - len(refused) + len(refused[:64])))


def slow_deposits_lapse(bank: str) -> None:
    """While all workers are busy: what nobody waits for any more is not begun, but where it has FT_REQUEST."""
    with slow(bank, 1000) as serving, Peer(serving.port) as stays, contextlib.ExitStack() as stack:
        busy = [stack.enter_context(Peer(serving.port)) for _ in range(2)]
        for peer in busy:
            peer.tell(b"".join(deposit(index, "ann", 1) for index in range(32)) + locate_bank())
            peer.wants(giop.located(1, 1))
        for name, number in (("bob", None), ("cid", 1)):
            with Peer(serving.port) as gone:
                gone.tell(deposit(1, name, 5, number=number) + locate_bank())
                gone.wants(giop.located(1, 1))
        stays.tell(deposit(2, "eve", 5) + locate_bank())
        stays.wants(giop.located(1, 1))
        for peer in busy * 32:
            want(peer.message().status, giop.NO_EXCEPTION)
        stays.wants(returned(2, 5))
        ask(serving.port, deposit(2, "cid", 5, number=1), returned(2, 5))
        for name, left in (("bob", 0), ("cid", 5), ("eve", 5)):
            ask(serving.port, balance(1, name), returned(1, left))


def locate_bank() -> bytes:
    return giop.locate(1, BANK)


def slow_bank_says_goodbye(bank: str) -> None:
    """At SIGTERM each deposit that is parked is answered, and then CloseConnection comes; at once where none is."""
    with slow(bank, 2000) as serving, Peer(serving.port) as idle, contextlib.ExitStack() as stack:
        peers = [stack.enter_context(Peer(serving.port)) for _ in range(20)]
        for index, peer in enumerate(peers):
            peer.tell(deposit(1, f"account {index}", 5) + deposit(2, f"account {index}", 5) + locate_bank())
            peer.wants(giop.located(1, 1))
        serving.stop()
        idle.wants(CLOSE_CONNECTION)
        idle.ended()
        want([has_come(peer) for peer in peers], [False] * len(peers), "what came before the goodbye to the idle one")
        for peer in peers:
            peer.tell(deposit(3, "nobody", 5))  # (it comes after the goodbye, and means nothing)
        for peer in peers:
            want(sorted((it.request_id, it.status) for it in (peer.message(), peer.message())), [(1, 0), (2, 0)])
            peer.wants(CLOSE_CONNECTION)
            peer.ended()
        with contextlib.suppress(ConnectionRefusedError), socket.create_connection(("127.0.0.1", serving.port)):
            raise Wrong("it takes connections after SIGTERM")


def slow_bank_gives_up(bank: str) -> None:
    """Compiled to wait a second: what is parked then is not answered, and nothing says that it was not performed."""
    with slow(bank, 3000) as serving, Peer(serving.port) as peer:
        peer.tell(deposit(1, "ann", 5) + locate_bank())
        peer.wants(giop.located(1, 1))
        serving.stop()
        peer.ended("what comes")


def long_replies_are_bounded(server: str) -> None:
    """Ten peers send repeats of a request whose reply has a million octets, and take nothing: each costs little. Then
    one takes all of them."""
    body = (1000000).to_bytes(4, "big") + bytes(1000000)
    asked = [request(index, b"long", "get", number=1) for index in range(60)]
    with Serving(server, "127.0.0.1", "0") as serving, contextlib.ExitStack() as stack:
        ask(serving.port, asked[0], reply(0, body))
        before = most_memory(serving.process.pid)
        peers = [stack.enter_context(Peer(serving.port)) for _ in range(10)]
        for peer in peers:
            peer.tell(b"".join(asked))
        ask(serving.port, asked[0], reply(0, body))
        more = most_memory(serving.process.pid) - before
        if more > 50 << 20:
            raise Wrong(f"ten peers that take nothing made it keep {more} octets")
        for index in range(60):
            peers[0].wants(reply(index, body))


def loop_settles_each_tick(server: str) -> None:
    """With ticks of 25 milliseconds: forty of them take a second, and not forty."""
    with Serving(server, "127.0.0.1", "0") as serving:
        ask(serving.port, request(1, b"long", "later"), reply(1))


# ---- the loop for C++ ----

def servants_answer_in_each_way(server: str) -> None:
    """By another thread, by what their name says, and not; what is let go of is INTERNAL, and what waits TRANSIENT."""
    with Serving(server, "127.0.0.1", "0") as serving, Peer(serving.port) as peer:
        def asks(key: bytes, operation: str, answer: bytes, body: bytes = b"", number: int | None = None) -> None:
            peer.tell(request(1, key, operation, body, number=number))
            peer.wants(answer, operation)

        asks(b"desk", "echo", reply(1, b"some octets"), b"some octets")
        asks(b"any", "that", reply(1, b"that"))
        for number, operation in enumerate(("forget", "misfit", "overflow")):
            for _ in range(2):  # (it is kept)
                asks(b"desk", operation, system_exception(1, "INTERNAL", MAYBE), number=number)
        refused = giop.reply(1, giop.system_body("NO_PERMISSION", NO, 7), status=giop.SYSTEM_EXCEPTION)
        for _ in range(2):
            asks(b"desk", "withdraw", refused, number=10)
            asks(b"desk", "nothing", system_exception(1, "TRANSIENT", NO), number=11)
        for number, operation in enumerate(("keep", "keep_later"), 12):
            for contexts in ([(7, b"seven")], []):  # (a repeat has none)
                asks(b"desk", operation, giop.reply(1, b"\0\0\0\6", contexts=contexts), number=number)
        asks(b"desk", "_is_a", reply(1, b"\1"), b"\0\0\0\x0dIDL:Desk:1.0\0")
        # what would be refused is asked of no servant whose arguments it has not, and left it is refused so
        for _ in range(2):
            asks(b"desk", "gone", reply(1, b"gone"), number=20)
            asks(b"desk", "read", system_exception(1, "MARSHAL", NO), number=21)
            asks(b"none", "read", system_exception(1, "OBJECT_NOT_EXIST", NO), number=22)
            asks(b"desk", "_is_a", system_exception(1, "MARSHAL", NO), number=23)
        asks(b"desk", "read", reply(1, b"\0\0\0\7"), b"\0\0\0\7", number=21)
        serving.is_stopped = True
        asks(b"desk", "stop", reply(1) + CLOSE_CONNECTION)
        peer.ended()


# ---- all of it ----

BANKS = [bank_deposits_act_once, bank_refusals, bank_locates, bank_serves_a_hundred,
         bank_serves_beside_one_that_reads_nothing, bank_ends_streams, bank_says_goodbye, bank_wants_words,
         bank_sends_at_once, bank_bears_want_of_descriptors, bank_serves_beside_streams_that_ended,
         bank_drops_streams_that_ended]
# .. which serve a thousand peers at most
FULL_BANKS = [*BANKS, bank_serves_beside_silent_peers, bank_is_full]
SLOW_BANKS = [slow_deposits_are_made_at_once, slow_deposits_act_once, slow_deposits_are_answered_in_any_order,
              slow_deposits_are_refused_for_now, slow_deposits_lapse, slow_bank_says_goodbye]
# under valgrind
WATCHED_BANKS = [bank_deposits_act_once, bank_refusals, bank_locates, bank_serves_a_hundred, bank_ends_streams,
                 bank_says_goodbye]
WATCHED_SLOW_BANKS = [slow_deposits_act_once, slow_deposits_are_answered_in_any_order]
# over poll()
POLLS = [bank_serves_a_hundred, bank_serves_beside_one_that_reads_nothing, bank_says_goodbye,
         bank_bears_want_of_descriptors]
# with an idle time of two seconds
IDLE_BANKS = [bank_tells_idle_peers_goodbye, bank_drops_peers_that_take_nothing]
FAIR_BANKS = [bank_is_fair]
LONGS = [long_replies_are_bounded]
LIBRARY = [headers_stand_alone, declarations_can_be_marked, slots_are_closed_by_kind, texts_are_literals,
           programs_link, two_archives_link, names_are_exported, shared_library_says_how_it_is_loaded, heap_is_for_threads, packages_are_found,
           packages_are_found_by_cmake, cmake_takes_versions_by_the_rule, packages_are_made_below_a_root,
           versions_are_one]


@functools.lru_cache(maxsize=None)
def the_kit() -> Kit:
    """The library that is there, and a folder for the programs of this run."""
    prefix = programs.library()
    programs.tool("cc")
    work = tempfile.mkdtemp()
    atexit.register(shutil.rmtree, work, ignore_errors=True)
    return Kit(prefix, work)


def of_functions(functions: list[Callable]) -> Callable:
    """Gives a class a test for each function, which takes the subject of the class."""

    def made(tests: type) -> type:
        for function in functions:
            def test(self: unittest.TestCase, function: Callable = function) -> None:
                function(self.subject)
            test.__doc__ = function.__doc__
            setattr(tests, f"test_{function.__name__}", test)
        return tests
    return made


@of_functions([header_compiles, header_names_have_a_version, header_names_numbers, header_checks_results])
class Header(unittest.TestCase):
    """The header for C++."""

    @classmethod
    def setUpClass(cls) -> None:
        cls.subject = the_kit()


@of_functions(LIBRARY)
class Library(unittest.TestCase):
    """The headers and the two libraries."""

    @classmethod
    def setUpClass(cls) -> None:
        cls.subject = the_kit()


class Programs(unittest.TestCase):
    """The programs of tests/embed."""

    @base.each(program_ways)
    def test_programs(self, given: tuple[str, str]) -> None:
        """Each is run with either library, with the sanitizers, and under valgrind."""
        run_program(the_kit(), *given)


class Example:
    """The tests of an example, which is compiled first, with the sanitizers if there are any."""

    NAME: str
    SOURCES: list[str]
    FLAGS: list[str] = []

    @classmethod
    def setUpClass(cls) -> None:
        cls.subject = the_kit().example(cls.NAME, cls.SOURCES, cls.FLAGS)


class Plain:
    """The tests of a server, which is compiled first, without the sanitizers."""

    NAME: str
    FOLDER, FLAGS = EXAMPLES, ["-DLOOP_IDLE=2"]
    SOURCES: list[str]

    @classmethod
    def setUpClass(cls) -> None:
        paths = [os.path.join(cls.FOLDER, source) for source in cls.SOURCES]
        cls.subject = the_kit().compile(cls.NAME, paths, cls.FLAGS)


@of_functions(FULL_BANKS)
class BankC(Example, unittest.TestCase):
    """The bank in C."""

    NAME, SOURCES = "bank_c", ["bank.c", "loop.c"]


@of_functions(FULL_BANKS)
class BankCpp(Example, unittest.TestCase):
    """The bank in C++."""

    NAME, SOURCES = "bank_cpp", ["bank.cpp"]


@of_functions(SLOW_BANKS)
class SlowBankC(Example, unittest.TestCase):
    """The bank in C whose deposits take their time."""

    NAME, SOURCES, FLAGS = "slow_bank_c", ["slow_bank.c", "loop.c"], ["-pthread"]


@of_functions(SLOW_BANKS)
class SlowBankCpp(Example, unittest.TestCase):
    """The bank in C++ whose deposits take their time."""

    NAME, SOURCES, FLAGS = "slow_bank_cpp", ["slow_bank.cpp"], ["-pthread"]


class Watched(Example):
    """An example under valgrind, which ends with another status where it finds anything."""

    @classmethod
    def setUpClass(cls) -> None:
        programs.tool(VALGRIND[0])
        paths = [os.path.join(EXAMPLES, source) for source in cls.SOURCES]
        program = the_kit().compile(cls.NAME, paths, [f"-I{EXAMPLES}", "-pthread"])
        cls.subject = program + "_watched"
        with open(cls.subject, "w", encoding="ascii") as file:
            file.write(f'#!/bin/sh\nexec {" ".join(VALGRIND)} {program} "$@"\n')
        os.chmod(cls.subject, 0o755)


@of_functions(WATCHED_BANKS)
class WatchedBankC(Watched, unittest.TestCase):
    """The bank in C."""

    NAME, SOURCES = "watched_bank_c", ["bank.c", "loop.c"]


@of_functions(WATCHED_BANKS)
class WatchedBankCpp(Watched, unittest.TestCase):
    """The bank in C++."""

    NAME, SOURCES = "watched_bank_cpp", ["bank.cpp"]


@of_functions(WATCHED_SLOW_BANKS)
class WatchedSlowBankC(Watched, unittest.TestCase):
    """The bank in C whose deposits take their time."""

    NAME, SOURCES = "watched_slow_bank_c", ["slow_bank.c", "loop.c"]


@of_functions(WATCHED_SLOW_BANKS)
class WatchedSlowBankCpp(Watched, unittest.TestCase):
    """The bank in C++ whose deposits take their time."""

    NAME, SOURCES = "watched_slow_bank_cpp", ["slow_bank.cpp"]


@of_functions([servants_answer_in_each_way])
class WatchedServantsCpp(Watched, unittest.TestCase):
    """The server in C++ whose servants answer in each way."""

    NAME, SOURCES = "watched_servants_cpp", ["../tests/embed/servants.cpp"]


class Threads(Example):
    """An example whose threads a sanitizer watches."""

    @classmethod
    def setUpClass(cls) -> None:
        kit = the_kit()
        want_threads(kit)
        paths = [os.path.join(EXAMPLES, source) for source in cls.SOURCES]
        cls.subject = kit.compile(cls.NAME, paths, [f"-I{EXAMPLES}", *THREADS, *cls.FLAGS])


@of_functions(SLOW_BANKS)
class ThreadsOfSlowBankC(Threads, unittest.TestCase):
    """Those of the bank in C whose deposits take their time."""

    NAME, SOURCES, FLAGS = "slow_bank_c_threads", ["slow_bank.c", "loop.c"], ["-pthread"]


@of_functions(SLOW_BANKS)
class ThreadsOfSlowBankCpp(Threads, unittest.TestCase):
    """Those of the bank in C++ whose deposits take their time."""

    NAME, SOURCES, FLAGS = "slow_bank_cpp_threads", ["slow_bank.cpp"], ["-pthread"]


@of_functions([*FULL_BANKS, bank_deposits_by_many_act_once])
class BankByThreads(Example, unittest.TestCase):
    """The bank in C, by threads around one server."""

    NAME, SOURCES, FLAGS = "bank_by_threads", ["bank.c", "loop_threads.c"], ["-DLOOP_THREADS=2", "-pthread"]


@of_functions([bank_deposits_by_many_act_once, bank_serves_a_hundred, bank_ends_streams, bank_says_goodbye])
class ThreadsOfBankByThreads(Threads, unittest.TestCase):
    """Its threads."""

    NAME, SOURCES, FLAGS = "bank_by_threads_threads", ["bank.c", "loop_threads.c"], ["-pthread"]


@of_functions(SLOW_BANKS)
class ThreadsOfSlowBankByThreads(Threads, unittest.TestCase):
    """Those of the bank in C whose deposits take their time, by threads around one server."""

    NAME, SOURCES, FLAGS = "slow_bank_by_threads_threads", ["slow_bank.c", "loop_threads.c"], ["-pthread"]


@of_functions([*WATCHED_BANKS, bank_deposits_by_many_act_once])
class WatchedBankByThreads(Watched, unittest.TestCase):
    """The bank in C, by threads around one server."""

    NAME, SOURCES = "watched_bank_by_threads", ["bank.c", "loop_threads.c"]


@of_functions([slow_bank_gives_up])
class ShortBankByThreads(Plain, unittest.TestCase):
    """The bank in C whose deposits take their time, by threads, with a second for what is parked at SIGTERM."""

    NAME, SOURCES, FLAGS = "short_bank_by_threads", ["slow_bank.c", "loop_threads.c"], ["-DLOOP_DRAIN=1", "-pthread"]


@of_functions(FAIR_BANKS)
class FairBankByThreads(Plain, unittest.TestCase):
    """The bank in C, by a thread of its own beside a peer that asks without an end."""

    NAME, SOURCES = "fair_bank_by_threads", ["bank.c", "loop_threads.c"]
    FLAGS = ["-DLOOP_THREADS=1", "-pthread"]


@of_functions([*IDLE_BANKS, bank_deposits_by_many_act_once])
class IdleBankByThreads(Plain, unittest.TestCase):
    """The bank in C, by threads, with an idle time of two seconds."""

    NAME, SOURCES, FLAGS = "idle_bank_by_threads", ["bank.c", "loop_threads.c"], ["-DLOOP_IDLE=2", "-pthread"]


@of_functions([servants_answer_in_each_way])
class ThreadsOfServantsCpp(Threads, unittest.TestCase):
    """Those of the server in C++ whose servants answer in each way."""

    NAME, SOURCES, FLAGS = "servants_cpp_threads", ["../tests/embed/servants.cpp"], ["-pthread"]


@of_functions([bank_bears_want_of_memory])
class RefusedBankC(Plain, unittest.TestCase):
    """The bank in C, where memory is short."""

    NAME, SOURCES, FLAGS = "refused_bank_c", ["bank.c", "loop.c"], []


@of_functions([slow_bank_bears_want_of_memory])
class RefusedSlowBankC(Plain, unittest.TestCase):
    """The bank in C whose deposits take their time, where memory is short."""

    NAME, SOURCES, FLAGS = "refused_slow_bank_c", ["slow_bank.c", "loop.c"], ["-pthread"]


@of_functions([slow_bank_gives_up])
class ShortBankC(Plain, unittest.TestCase):
    """The same in C, with a second for what is parked at SIGTERM."""

    NAME, SOURCES, FLAGS = "short_bank_c", ["slow_bank.c", "loop.c"], ["-DLOOP_DRAIN=1", "-pthread"]


@of_functions([*POLLS, *FAIR_BANKS])
class PollBankC(Plain, unittest.TestCase):
    """The bank in C, over poll()."""

    NAME, SOURCES, FLAGS = "poll_bank_c", ["bank.c", "loop.c"], ["-DLOOP_POLL"]


@of_functions([*POLLS, *FAIR_BANKS])
class PollBankCpp(Plain, unittest.TestCase):
    """The bank in C++, over poll()."""

    NAME, SOURCES, FLAGS = "poll_bank_cpp", ["bank.cpp"], ["-DLEMONRUDDER_LOOP_POLL"]


@of_functions(SLOW_BANKS)
class SlowPollBankC(Plain, unittest.TestCase):
    """The bank in C whose deposits take their time, over poll()."""

    NAME, SOURCES, FLAGS = "slow_poll_bank_c", ["slow_bank.c", "loop.c"], ["-DLOOP_POLL", "-pthread"]


@of_functions(FAIR_BANKS)
class FairBankC(Plain, unittest.TestCase):
    """The bank in C, beside a peer that asks without an end."""

    NAME, SOURCES, FLAGS = "fair_bank_c", ["bank.c", "loop.c"], []


@of_functions(FAIR_BANKS)
class FairBankCpp(Plain, unittest.TestCase):
    """The bank in C++, beside a peer that asks without an end."""

    NAME, SOURCES, FLAGS = "fair_bank_cpp", ["bank.cpp"], []


@of_functions(IDLE_BANKS)
class IdleBankC(Plain, unittest.TestCase):
    """The bank in C, with an idle time of two seconds."""

    NAME, SOURCES = "idle_bank_c", ["bank.c", "loop.c"]


@of_functions(IDLE_BANKS)
class IdleBankCpp(Plain, unittest.TestCase):
    """The bank in C++, with an idle time of two seconds."""

    NAME, SOURCES = "idle_bank_cpp", ["bank.cpp"]


@of_functions(LONGS)
class LongC(Plain, unittest.TestCase):
    """A server in C whose replies have a million octets."""

    NAME, SOURCES = "long_c", ["long.c", "../../examples/loop.c"]
    FOLDER, FLAGS = EMBED, [f"-I{EXAMPLES}"]


@of_functions([loop_settles_each_tick])
class TickC(Plain, unittest.TestCase):
    """The same server, whose loop has short ticks."""

    NAME, SOURCES = "tick_c", ["long.c", "../../examples/loop.c"]
    FOLDER, FLAGS = EMBED, [f"-I{EXAMPLES}", "-DLOOP_TICK=25"]


@of_functions(LONGS)
class LongCpp(Plain, unittest.TestCase):
    """A server in C++ whose replies have a million octets."""

    NAME, SOURCES = "long_cpp", ["long.cpp"]
    FOLDER, FLAGS = EMBED, [f"-I{EXAMPLES}"]


@of_functions([servants_answer_in_each_way])
class ServantsCpp(Example, unittest.TestCase):
    """A server in C++ whose servants answer in each way."""

    NAME, SOURCES, FLAGS = "servants_cpp", ["../tests/embed/servants.cpp"], ["-pthread"]
