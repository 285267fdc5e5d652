"""Makes the library for C of the proved crate `lemonrudder_c`, which exports the calls of `lemonrudder`: an archive, a
shared library, headers, files for pkg-config and CMake.

The rule of versions.  What was built with one version of the library may run with another one of the same series that
is not older. A series is the versions of one major number; before 1.0, those of one minor number. So 0.1.3 stands in
for 0.1.2, as neither 0.1.1 nor 0.2.0 does, and 1.3.0 stands in for 1.2.5.
"""
import contextlib
import os
import shutil
import subprocess
import tempfile
import time

from scripts.crates import ROOT, Build
from scripts.kit import are_older, cache, files_below, sum_of

LIBRARY = "lemonrudder"
EMBED = os.path.join(ROOT, "embed")
IDL = os.path.join(ROOT, "idl", LIBRARY)
# the crate that is built into an archive
CRATE = "lemonrudder_c"
ARCHIVE = os.path.join(ROOT, "crates", CRATE, "out", f"lib{CRATE}.a")
BUILD = Build(ARCHIVE, CRATE)
TOOLS = ("cc", "ar", "ld", "objcopy")
# what pkg-config and CMake read: where it is put below lib/, and what it is made of, in embed/
PACKAGES = {
    f"pkgconfig/{LIBRARY}.pc": f"{LIBRARY}.pc.in",
    f"cmake/{LIBRARY}/{LIBRARY}-config.cmake": f"{LIBRARY}-config.cmake.in",
    f"cmake/{LIBRARY}/{LIBRARY}-config-version.cmake": f"{LIBRARY}-config-version.cmake.in",
}

# what says below the prefix how the library was made
NOTE = f"share/doc/{LIBRARY}/TOOLCHAIN"
# sources that programs compile: what is made of IDL stands on some, and what keeps outcomes in a database on others, with
# its tables. Where each is put below the prefix, and the folder in which it is
STORE = os.path.join(EMBED, "store")
RUNTIMES = {
    **{f"include/{LIBRARY}_idl.{kind}": IDL for kind in ("h", "hpp")},
    f"share/{LIBRARY}/{LIBRARY}_idl.c": IDL,
    f"include/{LIBRARY}_store.h": STORE,
    **{f"share/{LIBRARY}/{LIBRARY}_store_{kind}.c": STORE for kind in ("sqlite", "postgres")},
    **{f"share/{LIBRARY}/outcomes.{name}": STORE for name in ("sqlite.h", "sqlite.sql", "postgres.h", "postgres.sql")},
}


def series(version):
    """The series of a version: its major number, before 1.0 with the minor one."""
    major, minor, _ = version.split(".")
    return f"{major}.{minor}" if major == "0" else major


def serves(version, built):
    """The rule of versions: whether a library of a version serves what was built with another."""
    found, least = ([int(number) for number in each.split(".")] for each in (version, built))
    return series(version) == series(built) and found >= least


def soname(version):
    """The name by which a program finds the shared library that it was linked with."""
    return f"lib{LIBRARY}.so.{series(version)}"


def node(version):
    """The first node of the symbols of a series."""
    return f"LEMONRUDDER_{series(version)}".replace(".", "_")


# the version of the interface
VERSION = "0.2.0"
SONAME = soname(VERSION)


def run(*words):
    subprocess.run(words, check=True)


def toolchain():
    """The toolchain of this machine, in a line."""
    return subprocess.run(["rt", "version"], stdout=subprocess.PIPE, text=True, check=True).stdout.strip()


def build(kit, crate):
    """Proves the crate and makes the archive of it; answers whether that succeeded."""
    words = [*crate.words(["--jobs", str(min(4, len(os.sched_getaffinity(0))))], keeps=False), "--toolchain", f"{kit.KIT}/toolchain"]
    ran = subprocess.run([*kit.guarded(), kit.RATTLE, "build", *words, "--backend", "llvm", "-o", ARCHIVE], cwd=crate.folder,
                         stdin=subprocess.DEVNULL, stdout=subprocess.PIPE, stderr=subprocess.STDOUT, text=True, errors="replace")
    if ran.returncode:
        print("\n".join(ran.stdout.split("\n")[-30:]))
    return ran.returncode == 0


def put_whole(source, to):
    """Copies a file to a place where others may read: they find it whole, or what was there."""
    with tempfile.TemporaryDirectory(dir=os.path.dirname(to)) as room:
        os.replace(shutil.copy(source, room), to)


def build_over_gate(gate, is_anew=False):
    """Builds the archive over the libraries that a gate proved, or, unless it is to be built anew, takes that which an
    earlier run on this machine built of the same files; answers whether that succeeded."""
    crate, began = gate.crates[CRATE], time.time()
    kept = os.path.join(cache(), "archives", sum_of(gate.kit, crate, [os.path.abspath(__file__)]))
    os.makedirs(os.path.dirname(ARCHIVE), exist_ok=True)
    if not is_anew and os.path.isfile(kept):
        print("the archive is that which an earlier run on this machine built of the same files", flush=True)
        put_whole(kept, ARCHIVE)
    elif not build(gate.kit, crate):
        return False
    elif are_older(files_below(gate.kit, crate), began):
        with contextlib.suppress(OSError):
            os.makedirs(os.path.dirname(kept), mode=0o700, exist_ok=True)
            put_whole(ARCHIVE, kept)
    BUILD.note(gate.since)
    return True


def make_archive(archive, folder, source):
    """Makes the archive of one object, of that of the crate. Its global names are the functions of the header, so that nothing else of it
    can clash with what is linked beside it."""
    support, whole, made = (os.path.join(folder, name) for name in ("support.o", "whole.o", f"{LIBRARY}.o"))
    run("cc", "-std=c99", "-O2", "-fPIC", "-ffunction-sections", "-fdata-sections", "-fvisibility=hidden", "-Wall",
        "-Wextra", f"-I{EMBED}/include", "-c", f"{EMBED}/support.c", "-o", support)
    run("ld", "-r", "--whole-archive", source, "--no-whole-archive", support, "-o", whole)
    run("objcopy", "--wildcard", "--keep-global-symbol=lr_*", whole, made)
    if os.path.lexists(archive):
        os.remove(archive)
    run("ar", "rcs", archive, made)


def make_shared(shared, archive):
    """Makes the shared library of the archive, and the links that lead to it: it is bound when it is loaded."""
    run("cc", "-shared", "-Wl,--whole-archive", archive, "-Wl,--no-whole-archive", "-Wl,-z,text", "-Wl,-z,now",
        "-Wl,--gc-sections", f"-Wl,-soname,{SONAME}", f"-Wl,--version-script={EMBED}/{LIBRARY}.map", "-o", shared)
    for name in (SONAME, f"lib{LIBRARY}.so"):
        path = os.path.join(os.path.dirname(shared), name)
        if os.path.lexists(path):
            os.remove(path)
        os.symlink(os.path.basename(shared), path)


def package(source, version):
    """What another program reads to find the library of a version. It names folders by its own: all may be moved."""
    with open(os.path.join(EMBED, source), encoding="utf-8") as file:
        text = file.read()
    for mark, value in (("version", version), ("series", series(version)), ("soname", soname(version))):
        text = text.replace(f"@{mark}@", value)
    return text


def install(prefix, destdir="", archive=ARCHIVE, is_proved=True):
    """Puts all of it below a folder, which is itself below another one where that is given: what is written is as if it
    were not. It is made of the archive of the crate. Answers the paths of what a program needs."""
    prefix = destdir + os.path.abspath(prefix)
    lib, include = os.path.join(prefix, "lib"), os.path.join(prefix, "include")
    for folder in (lib, include):
        os.makedirs(folder, exist_ok=True)
    made, shared = os.path.join(lib, f"lib{LIBRARY}.a"), os.path.join(lib, f"lib{LIBRARY}.so.{VERSION}")
    with tempfile.TemporaryDirectory() as folder:
        make_archive(made, folder, archive)
    make_shared(shared, made)
    for header in os.listdir(os.path.join(EMBED, "include")):
        shutil.copyfile(os.path.join(EMBED, "include", header), os.path.join(include, header))
    for name, folder in RUNTIMES.items():
        os.makedirs(os.path.dirname(os.path.join(prefix, name)), exist_ok=True)
        shutil.copyfile(os.path.join(folder, os.path.basename(name)), os.path.join(prefix, name))
    os.makedirs(os.path.dirname(os.path.join(prefix, NOTE)), exist_ok=True)
    with open(os.path.join(prefix, NOTE), "w", encoding="utf-8") as file:
        file.write(f"{'proved by' if is_proved else 'not proved, made by'} {toolchain()}\n")
    for name, source in PACKAGES.items():
        os.makedirs(os.path.dirname(os.path.join(lib, name)), exist_ok=True)
        with open(os.path.join(lib, name), "w", encoding="utf-8") as file:
            file.write(package(source, VERSION))
    return made, shared, include
