"""Makes packages of what ./build made: a tarball, Debian packages, a wheel for Python and crates for Rust.

Each is made of an installed library and of the programs that are there. Made twice of the same parts they have the same
octets: every time in them is that of the last commit. SHA256SUMS has their sums, and each has in its documents the
toolchain by which the library was proved. Of a library that was not proved none is made, unless that is asked for: then
the names of what has the library in it say so.

    python3 -m scripts.packages PREFIX FOLDER      packs what is proved and built, for ./prove
"""
from __future__ import annotations

import hashlib
import io
import json
import os
import shutil
import subprocess
import sys
import tarfile
import tempfile
from dataclasses import dataclass, field

from scripts import library, relay
from scripts.crates import PROGRAM, ROOT
from scripts.packing import compressed, copy, copy_program, copy_runtimes, copy_sources, moment, octets_of, paths_below, put, said

NAME, VERSION = library.LIBRARY, library.VERSION
SERIES = library.series(VERSION)
TRIPLET = "x86_64-linux-gnu"
RELAY = os.path.join(relay.TARGET, "release", relay.PROGRAM)
URL = "https://www.omg.org/spec/CORBA/3.3/"
DOCUMENTS = ("README.md", "CHANGELOG.md", "SECURITY.md")
HOMEPAGE = f"Homepage: {URL}\n"
WHO = "Lemonrudder <packages@lemonrudder.example.org>"
COPYRIGHT = "Copyright 2026 the authors of Lemonrudder. All rights are theirs.\n"
TEXT = {
    "giop": ("reads, prints, checks and serves GIOP",
             "The program giop shows messages of GIOP 1.0 to 1.2, traces captures,\n checks octets, reads references "
             "and serves a counter."),
    "library": ("GIOP and IIOP, with requests that act once",
                "The wire protocol between CORBA clients and servers, proved: requests\n that are sent again by "
                "FT_REQUEST act once, and get the same reply."),
    "dev": ("GIOP and IIOP for C and C++ (development files)",
            "Headers for C and C++, the static library, and files for pkg-config\n and CMake."),
    "python": ("GIOP and IIOP for Python",
               "Clients and servers over asyncio by liblemonrudder: requests that are\n sent again act once, also "
               "across restarts."),
    "idl": ("stubs and servants from IDL, over liblemonrudder",
            "A backend of omniidl, the IDL compiler of omniORB: of an IDL file it makes\n typed stubs and servants in "
            "Python, C++, C and Rust, over GIOP and IIOP."),
    "relay": ("exactly once between ORBs that know nothing of it",
              "The program lemonrudder stands before servers, and beside clients: a\n call that is sent again acts "
              "once."),
}


class NotProved(Exception):
    """A library that was not proved is packed only where that is asked for."""


@dataclass(frozen=True)
class Made:
    """What is packed: the folder below which the library is installed, and the programs that are there, by their
    names."""

    prefix: str
    programs: dict[str, str]

    def toolchain(self) -> str:
        """How the library was made, in a line."""
        return octets_of(os.path.join(self.prefix, library.NOTE)).decode()

    def is_proved(self) -> bool:
        return self.toolchain().startswith("proved by ")

    @property
    def version(self) -> str:
        """The version, which says so where the library is not proved."""
        return VERSION if self.is_proved() else f"{VERSION}+unproved"


def programs() -> dict[str, str]:
    """The programs that are proved and built, by their names."""
    return {name: path for name, path in (("giop", PROGRAM), ("lemonrudder", RELAY)) if os.path.exists(path)}


def package_files() -> dict[str, str]:
    """What pkg-config and CMake read, by its path below lib/."""
    return {name: library.package(source, VERSION) for name, source in library.PACKAGES.items()}


# ---- the tarball ----


def make_tarball(made: Made, folder: str) -> str:
    """A tarball of library, headers, backend for IDL, programs, manual pages and completions, which may be unpacked
    anywhere."""
    name = f"{NAME}-{made.version}-{TRIPLET}"
    path = os.path.join(folder, f"{name}.tar.gz")
    with tempfile.TemporaryDirectory() as work:
        top = os.path.join(work, name)
        for part in ("lib", "include"):
            shutil.copytree(os.path.join(made.prefix, part), os.path.join(top, part), symlinks=True)
        copy_runtimes(top)
        for name, text in package_files().items():
            put(f"{top}/lib/{name}", text.encode())
        copy_sources(library.IDL, f"{top}/share/{NAME}/idl/{NAME}")
        for program, source in made.programs.items():
            copy_program(source, program, top)
        for document in DOCUMENTS:
            copy(os.path.join(ROOT, document), f"{top}/share/doc/{NAME}/{document}")
        put(f"{top}/share/doc/{NAME}/TOOLCHAIN", made.toolchain().encode())
        packed = io.BytesIO()
        with tarfile.open(fileobj=packed, mode="w", format=tarfile.PAX_FORMAT) as tar:
            for each in sorted(paths_below(top)):
                tar.add(each, os.path.relpath(each, work), recursive=False, filter=as_packed)
        put(path, compressed(packed.getvalue()))
    return path


def as_packed(entry: tarfile.TarInfo) -> tarfile.TarInfo:
    """An entry of a tarball as nobody's, of the time of all."""
    entry.uid = entry.gid = 0
    entry.uname = entry.gname = ""
    entry.mtime = moment()
    entry.mode = 0o755 if entry.isdir() or entry.mode & 0o100 else 0o644
    return entry


# ---- Debian packages ----


@dataclass
class Debian:
    """A Debian package: what is in it, put by `fill` below a folder, and what its control files say."""

    name: str
    text: str
    section: str
    architecture: str = "amd64"
    fields: dict[str, str] = field(default_factory=dict)
    shlibs: str = ""
    # the folder of its modules in Python
    modules: str = ""

    def control(self, size: int, version: str) -> str:
        short, long = TEXT[self.text]
        said_of = "".join(f"{name}: {value.format(version=version)}\n" for name, value in self.fields.items())
        return (f"Package: {self.name}\nSource: {NAME}\nVersion: {version}-1\nArchitecture: {self.architecture}\n"
                f"Maintainer: {WHO}\nInstalled-Size: {size}\n{said_of}Section: {self.section}\nPriority: optional\n"
                f"{HOMEPAGE}Description: {short}\n {long}\n")


# where Debian's Python looks for modules, and its omniidl for backends
MODULES = f"/usr/lib/python3/dist-packages/{NAME}"
BACKEND = f"/usr/lib/omniidl/omniidl_be/{NAME}"
# what Python made of modules goes with them
PRERM = "#!/bin/sh\nset -e\nrm -rf {modules}/__pycache__\n"
LIBRARY_PACKAGE = f"lib{NAME}{SERIES}"
LIBC = "libc6 (>= 2.34)"
PACKAGES = [
    Debian("giop", "giop", "net", fields={"Depends": LIBC}),
    Debian(LIBRARY_PACKAGE, "library", "libs", shlibs=f"lib{NAME} {SERIES} {LIBRARY_PACKAGE} (>= {VERSION})\n",
           fields={"Multi-Arch": "same", "Depends": LIBC, "Provides": f"lib{NAME}{VERSION.partition('.')[0]}"}),
    Debian(f"lib{NAME}-dev", "dev", "libdevel",
           fields={"Multi-Arch": "same", "Depends": f"{LIBRARY_PACKAGE} (= {{version}}-1)"}),
    Debian(f"python3-{NAME}", "python", "python", "all", modules=MODULES,
           fields={"Depends": f"python3 (>= 3.8), {LIBRARY_PACKAGE} (>= {VERSION})"}),
    Debian(f"{NAME}-idl", "idl", "devel", "all", modules=BACKEND,
           fields={"Depends": "omniidl, python3 (>= 3.8)", "Suggests": f"lib{NAME}-dev, python3-{NAME}"}),
    Debian(f"{NAME}-relay", "relay", "net", fields={"Depends": f"{LIBC}, libsqlite3-0, libssl3, libgcc-s1"}),
]


def fill(package: Debian, top: str, parts: Made) -> bool:
    """Puts what a package has below a folder; answers whether there is anything."""
    lib, made = f"{top}/usr/lib/{TRIPLET}", os.path.join(parts.prefix, "lib")
    found = parts.programs
    if package.text in ("giop", "relay"):
        name = "giop" if package.text == "giop" else "lemonrudder"
        if name not in found:
            return False
        copy_program(found[name], name, f"{top}/usr")
        if package.text == "relay":
            for role in ("guard", "retry"):
                unit = os.path.join(ROOT, "relay", f"lemonrudder-{role}.service")
                if os.path.exists(unit):
                    copy(unit, f"{top}/lib/systemd/system/lemonrudder-{role}.service")
    elif package.text == "library":
        copy(f"{made}/lib{NAME}.so.{VERSION}", f"{lib}/lib{NAME}.so.{VERSION}")
        subprocess.run(["strip", "--strip-unneeded", f"{lib}/lib{NAME}.so.{VERSION}"], check=True)
        os.symlink(f"lib{NAME}.so.{VERSION}", f"{lib}/{library.SONAME}")
    elif package.text == "dev":
        shutil.copytree(os.path.join(parts.prefix, "include"), f"{top}/usr/include")
        copy_runtimes(f"{top}/usr")
        fill_dev(lib, made)
    elif package.text == "idl":
        copy_sources(library.IDL, f"{top}{BACKEND}")
    elif package.text == "python":
        copy_sources(os.path.join(ROOT, "bindings", "python", NAME), f"{top}{MODULES}")
    return True


def fill_dev(lib: str, made: str) -> None:
    """The archive, the link, and the files for pkg-config and CMake, which stand a folder deeper than elsewhere."""
    copy(f"{made}/lib{NAME}.a", f"{lib}/lib{NAME}.a")
    subprocess.run(["strip", "--strip-debug", "--enable-deterministic-archives", f"{lib}/lib{NAME}.a"], check=True)
    os.symlink(f"lib{NAME}.so.{VERSION}", f"{lib}/lib{NAME}.so")
    for name, text in package_files().items():
        put(f"{lib}/{name}", deeper(text).encode())


def deeper(text: str) -> str:
    """What finds the library, where its folder is not lib/ but lib/TRIPLET/."""
    for here, there in (("${pcfiledir}/../..", "${pcfiledir}/../../.."), ("${prefix}/lib", f"${{prefix}}/lib/{TRIPLET}"),
                        ("${CMAKE_CURRENT_LIST_DIR}/../../..", "${CMAKE_CURRENT_LIST_DIR}/../../../.."),
                        ("}/lib/lib", f"}}/lib/{TRIPLET}/lib")):
        text = text.replace(here, there)
    return text


def finish(package: Debian, top: str, parts: Made) -> None:
    """Documents of a package, and its control files."""
    documents = f"{top}/usr/share/doc/{package.name}"
    when = said("date", "-u", "-R", "-d", f"@{moment()}").strip()
    log = f"{NAME} ({parts.version}-1) unstable; urgency=medium\n\n  * Release {parts.version}.\n\n -- {WHO}  {when}\n"
    put(f"{documents}/changelog.Debian.gz", compressed(log.encode()))
    put(f"{documents}/copyright", COPYRIGHT.encode())
    put(f"{documents}/TOOLCHAIN", parts.toolchain().encode())
    files = sorted(path for path in paths_below(top) if os.path.isfile(path) and not os.path.islink(path))
    sums = [f"{hashlib.md5(octets_of(path)).hexdigest()}  {os.path.relpath(path, top)}\n" for path in files]
    size = (sum(os.path.getsize(path) for path in files) + 1023) // 1024
    put(f"{top}/DEBIAN/md5sums", "".join(sums).encode())
    put(f"{top}/DEBIAN/control", package.control(size, parts.version).encode())
    if package.shlibs:
        put(f"{top}/DEBIAN/shlibs", package.shlibs.encode())
        put(f"{top}/DEBIAN/triggers", b"activate-noawait ldconfig\n")
    if package.modules:
        put(f"{top}/DEBIAN/prerm", PRERM.format(modules=package.modules).encode(), 0o755)


def make_debian(parts: Made, folder: str) -> list[str]:
    """The Debian packages of what there is."""
    made = []
    for package in PACKAGES:
        with tempfile.TemporaryDirectory() as top:
            os.chmod(top, 0o755)
            if not fill(package, top, parts):
                continue
            finish(package, top, parts)
            path = os.path.join(folder, f"{package.name}_{parts.version}-1_{package.architecture}.deb")
            said("dpkg-deb", "--root-owner-group", "-Zxz", "--build", top, path,
                 env={**os.environ, "SOURCE_DATE_EPOCH": str(moment())})
            made.append(path)
    return made


# ---- the wheel and the crates ----

SETUP = """
from setuptools import setup
from wheel.bdist_wheel import bdist_wheel


class OfPlatform(bdist_wheel):
    def finalize_options(self):
        super().finalize_options()
        self.root_is_pure = False

    def get_tag(self):
        return "py3", "none", "{platform}"


setup(cmdclass={{"bdist_wheel": OfPlatform}})
"""


def python_with_wheel() -> str | None:
    """A Python that makes wheels."""
    for python in (sys.executable, "/usr/bin/python3"):
        if shutil.which(python) and subprocess.run([python, "-c", "import setuptools, wheel, pip"], check=False,
                                                   capture_output=True).returncode == 0:
            return python
    return None


def make_wheel(parts: Made, folder: str) -> str | None:
    """A wheel with the shared library in it, or None where no Python here makes wheels. The library takes of the C
    library only what that of Debian 12 and all later ones have."""
    python = python_with_wheel()
    if python is None:
        return None
    with tempfile.TemporaryDirectory() as work:
        source = os.path.join(work, "source")
        shutil.copytree(os.path.join(ROOT, "bindings", "python"), source,
                        ignore=shutil.ignore_patterns("__pycache__", "build", "*.egg-info"))
        shared = f"{source}/{NAME}/lib{NAME}.so"
        copy(os.path.join(parts.prefix, "lib", f"lib{NAME}.so.{VERSION}"), shared)
        subprocess.run(["strip", "--strip-unneeded", shared], check=True)
        put(f"{source}/setup.py", SETUP.format(platform="manylinux_2_34_x86_64").encode())
        put(f"{source}/{NAME}/TOOLCHAIN", parts.toolchain().encode())
        project = f"{source}/pyproject.toml"
        named = octets_of(project).replace(f'version = "{VERSION}"'.encode(), f'version = "{parts.version}"'.encode())
        put(project, named)
        made = os.path.join(work, "made")
        said(python, "-m", "pip", "wheel", "-q", "--no-index", "--no-deps", "--no-build-isolation",
             "--disable-pip-version-check", "-w", made, source, stderr=subprocess.STDOUT,
             env={**os.environ, "SOURCE_DATE_EPOCH": str(max(moment(), 315532800))})
        name, = os.listdir(made)
        return shutil.copy(os.path.join(made, name), os.path.join(folder, name))


def make_crates(prefix: str, folder: str) -> list[str]:
    """The crates for Rust, in which the library is not: it is found by pkg-config or LEMONRUDDER_LIB_DIR."""
    if shutil.which("cargo") is None:
        return []
    with tempfile.TemporaryDirectory() as work:
        # (the second one is packed over the first, as of a registry that has nothing else)
        registry = os.path.join(work, "registry")
        os.makedirs(registry)
        first = packed(f"{NAME}-sys", work, prefix)
        with tarfile.open(first) as tar:
            tar.extractall(registry, filter="data")
        sums = {"files": {}, "package": hashlib.sha256(octets_of(first)).hexdigest()}
        put(f"{registry}/{NAME}-sys-{VERSION}/.cargo-checksum.json", json.dumps(sums).encode())
        second = packed(NAME, work, prefix, "--config", 'source.crates-io.replace-with = "packed"',
                        "--config", f"source.packed.directory = {json.dumps(registry)}")
        return [shutil.copy(path, folder) for path in (first, second)]


def packed(crate: str, target: str, prefix: str, *words: str) -> str:
    """The path of a crate that is packed."""
    said("cargo", *words, "package", "-q", "-p", crate, "--offline", "--allow-dirty", "--no-verify",
         cwd=os.path.join(ROOT, "bindings", "rust"),
         env={**os.environ, "CARGO_TARGET_DIR": target, "LEMONRUDDER_LIB_DIR": os.path.join(prefix, "lib")})
    return os.path.join(target, "package", f"{crate}-{VERSION}.crate")


def make(prefix: str, folder: str, given: dict[str, str] | None = None, is_unproved: bool = False) -> list[str]:
    """Makes all packages of an installed library and of these programs, or those that are proved and built, and their
    sums, in a folder. Answers their paths. A library that is not proved is refused unless that is asked for."""
    parts = Made(prefix, programs() if given is None else given)
    if not parts.is_proved() and not is_unproved:
        raise NotProved(f"the library in {prefix} is not proved: --unproved packs it, under names that say so")
    os.makedirs(folder, exist_ok=True)
    made = [make_tarball(parts, folder)]
    if shutil.which("dpkg-deb"):
        made += make_debian(parts, folder)
    made += [it for it in [make_wheel(parts, folder)] if it]
    made += make_crates(prefix, folder)
    sums = [f"{hashlib.sha256(octets_of(path)).hexdigest()}  {os.path.basename(path)}\n" for path in made]
    put(os.path.join(folder, "SHA256SUMS"), "".join(sums).encode())
    return [*made, os.path.join(folder, "SHA256SUMS")]


def main(prefix: str, folder: str) -> int:
    """Builds the relay over the library below a folder, where what it wants is there, and packs all."""
    if shutil.which("cargo") is None or relay.lacking():
        print("the relay is left out: it is not built here")
    elif relay.build(os.path.join(prefix, "lib")) is None:
        return 1
    for path in make(prefix, folder):
        print(path)
    return 0


if __name__ == "__main__":
    sys.exit(main(*sys.argv[1:]))
