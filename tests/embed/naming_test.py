"""Tests the naming service of omniORB, by what omniidl makes of its CosNaming.idl: examples/idl/naming.py and .cpp."""
from __future__ import annotations

import contextlib
import functools
import os
import socket
import subprocess
import sys
import tempfile
import unittest
from collections.abc import Callable, Iterator

from tests import base
from tests.embed.durable import free_port, until
from tests.embed.idl_test import EXAMPLES, FOLDER, backend, compiled, lr, run
from tests.programs import NEEDS, ROOT, needs, tool

IDL = "/usr/share/idl/omniORB/COS/CosNaming.idl"


@contextlib.contextmanager
def name_service() -> Iterator[str]:
    """An omniNames of its own, by its port."""
    port = str(free_port())
    with tempfile.TemporaryDirectory() as folder:
        words = [tool("omniNames"), "-start", port, "-always", "-logdir", folder, "-errlog", os.path.join(folder, "errors")]
        process = subprocess.Popen([*words, "-ORBendPoint", f"giop:tcp:127.0.0.1:{port}"], stdout=subprocess.DEVNULL,
                                   stderr=subprocess.DEVNULL)
        try:
            until(lambda: is_there(port), "omniNames listens")
            yield port
        finally:
            process.terminate()
            process.wait()


def is_there(port: str) -> bool:
    """Whether somebody listens at a port."""
    with socket.socket() as made:
        return made.connect_ex(("127.0.0.1", int(port))) == 0


def want_idl() -> None:
    if not os.path.exists(IDL):
        raise unittest.SkipTest(NEEDS + "omniorb-idl")


@functools.lru_cache(maxsize=None)
def in_python() -> list[str]:
    want_idl()
    backend(IDL, "python")
    path = os.pathsep.join([FOLDER.name, os.path.join(ROOT, "bindings", "python")])
    return ["env", f"PYTHONPATH={path}", sys.executable, os.path.join(EXAMPLES, "idl", "naming.py")]


@functools.lru_cache(maxsize=None)
def in_cpp() -> list[str]:
    want_idl()
    backend(IDL, "cpp")
    return [compiled("g++", "naming", os.path.join(EXAMPLES, "idl", "naming.cpp"))]


PROGRAMS: dict[str, Callable[[], list[str]]] = {"Python": in_python, "C++": in_cpp}


@needs("g++", "omniidl", "omniNames")
class Naming(unittest.TestCase):
    """Names at omniNames."""

    @base.each(PROGRAMS.items)
    def test_names(self, program: Callable[[], list[str]]) -> None:
        """An object is named, in a context that is made, and found by either program; a name may be given anew."""
        with name_service() as port:
            at = ["127.0.0.1", port]
            for number in (1, 2):
                bank = str(lr.Ior.iiop("IDL:Bank:1.0", "127.0.0.1", number, "bank"))
                run(*program(), *at, "bind", "shop/bank", bank)
                for other in PROGRAMS.values():
                    found = lr.Ior.parse(run(*other(), *at, "resolve", "shop/bank").strip())
                    self.assertEqual((found.type_id, found.addresses[0].port, found.addresses[0].key),
                                     ("IDL:Bank:1.0", number, b"bank"))
            self.assertIn("shop ncontext", run(*in_python(), *at, "list").splitlines())
            lacking = subprocess.run([*program(), *at, "resolve", "shop/none"], capture_output=True, text=True, check=False)
            self.assertEqual(lacking.returncode, 1)
            self.assertIn("not found", lacking.stderr)


if __name__ == "__main__":
    unittest.main()
