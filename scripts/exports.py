"""Makes the archive of the library for C of the sources as they are, without a proof: of a program that calls each
exported function, whose names are then those of C."""
from __future__ import annotations

import os
import re
import shutil
from collections.abc import Iterator

from scripts import library
from scripts.crates import listed, needed
from scripts.modules import PARTS, compiled, module_of, run

# the crate whose exported functions are the library for C, what its copy names beside, and what is made public there
EXPORTS = library.CRATE
NAMED = ["use lemonrudder::{Handle, Place};"]
OPENED = [("lemonrudder/src/lib.rt", r"^(?=pub use slot::Slot;)", "pub use handle::Handle;\n"),
          ("lemonrudder/src/slot.rt", r"^    (kind|held):", r"    pub \1:")]
# what an exported function is called with for a parameter of each type, and what stands before the call
GIVEN = {
    "Global": ("alloc", ""),
    "&[u8]": ("octets", ""),
    "&mut Slot": ("&mut s{n}", "let mut s{n} = Slot {{ kind: 0, held: Handle::empty() }};"),
    "&mut [u8]": ("&mut b{n}", "let mut b{n} = [0u8; 8];"),
    "&mut Place": ("&mut p{n}", "let mut p{n} = Place {{ at: 0, next: 0, order: 0, reserved: 0 }};"),
}
# a program that calls each exported function where it has more words than it is ever given, so that none is left out
MAIN = """
fn all(rt: &HostRuntime) -> std::io::Result<u8> {{
    let alloc = rt.alloc();
    let words: Vec<String> = std::env::args(rt)?.collect(alloc)?;
    if words.len() > 50 {{
{calls}
    }}
    Ok(0)
}}

fn main(rt: HostRuntime) -> std::process::ExitCode {{
    match all(&rt) {{ Ok(status) => std::process::ExitCode::from(status), Err(_) => std::process::ExitCode::from(1) }}
}}
"""
# what that program alone asks of the C library's part, and nobody calls
STUB = """long rattle_arg(long a, void *b, long c) { (void)a; (void)b; (void)c; return -1; }
void rattle_set_errno(int e) { (void)e; }
int rattle_errno(void) { return 0; }
"""


def given_for(kind: str, number: int) -> tuple[str, str]:
    """What an exported function is called with for a parameter of a type, and what stands before the call."""
    if kind in GIVEN:
        word, before = GIVEN[kind]
        return word.format(n=number), before.format(n=number)
    if kind.startswith("&mut "):
        return f"&mut n{number}", f"let mut n{number}: {kind[5:]} = 0;"
    return "0", ""


def exports_of(folder: str) -> Iterator[tuple[str, str, list[str]]]:
    """Each exported function below a folder of sources: its module, its name, and the types of its parameters."""
    for at, _, names in sorted(os.walk(folder)):
        for name in sorted(names):
            path = os.path.join(at, name)
            with open(path, encoding="utf-8") as file:
                source = file.read()
            inside = os.path.relpath(path, folder).removesuffix(".rt").replace(os.sep, "::")
            for function, parameters in re.findall(r'pub extern "C" fn (\w+)\(([^)]*)\)', source):
                parts = re.split(r",\s*(?![^\[\]<>]*[\]>])", parameters)
                yield inside, function, [it.split(":", 1)[1].strip() for it in parts if it.strip()]


def calling_program(crate_folder: str) -> str:
    """Makes the library's crate a program that calls all it exports; answers the types that its root names beside."""
    source = os.path.join(crate_folder, "src")
    functions, calls = [], []
    for number, (module, name, kinds) in enumerate(exports_of(source)):
        words = [given_for(kind, at) for at, kind in enumerate(kinds)]
        called = name if module == "lib" else f"{module}::{name}"
        functions.append(f"fn call_{number}(alloc: Global, octets: &[u8]) {{ {' '.join(before for _, before in words)} "
                         f"let _ = {called}({', '.join(word for word, _ in words)}); }}")
        calls.append(f'        call_{number}(alloc, b"abc");')
    with open(os.path.join(source, "lib.rt"), encoding="utf-8") as file:
        root = file.read()
    os.remove(os.path.join(source, "lib.rt"))
    with open(os.path.join(source, "main.rt"), "w", encoding="utf-8") as file:
        file.write("\n".join([root, *NAMED, *functions, MAIN.format(calls="\n".join(calls))]))


def opened(tree: str) -> None:
    """Makes public in a copy of the sources what such a program names."""
    for path, old, new in OPENED:
        path = os.path.join(tree, "crates", path)
        with open(path, encoding="utf-8") as file:
            text = re.sub(old, new, file.read(), flags=re.M)
        with open(path, "w", encoding="utf-8") as file:
            file.write(text)


def make_library(kit, crates: list, folder: str, to: str) -> None:
    """Makes the archive that `library.install` takes. The functions that it exports have their names in C."""
    tree, crate = os.path.join(folder, "tree"), crates[0]
    for it in [crate, *crate.below()]:
        for part in PARTS:
            if os.path.isdir(f"{it.folder}/{part}"):
                shutil.copytree(f"{it.folder}/{part}", f"{tree}/crates/{os.path.basename(it.folder)}/{part}")
    known = listed()
    with open(os.path.join(tree, "crates.txt"), "w", encoding="utf-8") as file:
        file.write("".join(f"{name}: {' '.join(known[name])}\n" for name in needed(crate.name, known)))
    opened(tree)
    calling_program(os.path.join(tree, "crates", crate.name))
    copy = next(it for it in kit.crates_below(tree) if it.name == crate.name)
    text = re.sub(rf'@"{crate.name}::(?:\w+::)*(lr_\w+)"', r"@\1", module_of(kit, copy, folder))
    made = compiled(kit, re.sub(r"define internal ([^\n@]*)@(lr_\w+)\(", r"define \1@\2(", text), folder)
    stub = os.path.join(folder, "stub.c")
    with open(stub, "w", encoding="utf-8") as file:
        file.write(STUB)
    run(["cc", "-O1", "-fPIC", "-c", stub, "-o", f"{folder}/stub.o"])
    run(["objcopy", "--redefine-sym", "main=lemonrudder_no_main", made])
    run(["ar", "rcs", to, made, f"{folder}/stub.o"])
