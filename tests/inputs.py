"""Gives `giop show` and `giop check` their input in each way that they take it, and compares what they print.

A stream comes on standard input, in a file, as digits and as it is; or can't be read. Where standard error is a
terminal, a line more says what helps.
"""
import contextlib
import os
import pty
import subprocess
import tempfile
import unittest

from tests import base, giop, programs
from tests.cdr import LITTLE

SECONDS = 20
# CloseConnection of 1.0, and the same of 1.2 in little order
FIRST, SECOND = giop.CLOSE_CONNECTION, giop.message(giop.CLOSING, b"", order=LITTLE)
SHOWN = b"1.0 big CloseConnection\n1.2 little CloseConnection\nend 2 messages\n"
DIGITS = b"47494f50 01000005 00000000\n47494F50 01020105 00000000\n"
# what helps, by what is wrong
WAITING = b"hint: input is waited for on this terminal; Ctrl-D ends it\r\n"
CAPTURE = (b"hint: the input is a packet capture; tshark -r CAPTURE -q -z follow,tcp,raw,N prints the octets of its "
           b"TCP connection N as digits\r\n")
BINARY = b"hint: the input is binary; --raw takes octets as they are\r\n"
COLONS = b"hint: the input has colons; tr -d : leaves them out\r\n"
FOLLOW = b"hint: the input is what tshark prints of both sides of a connection; giop trace reads it\r\n"
REFERENCE = "IOR:00000000000000010000000000000000"
# what is written on a terminal last, by nobody else
LAST = b"\x00"


@contextlib.contextmanager
def file_of(octets):
    """A file with these octets."""
    with tempfile.TemporaryDirectory() as folder:
        name = os.path.join(folder, "stream")
        with open(name, "wb") as file:
            file.write(octets)
        yield name


class Inputs(unittest.TestCase):
    """What is read, and what is said where it can't be."""

    @classmethod
    def setUpClass(cls):
        cls.giop = programs.program("GIOP")

    def run_on(self, *words, given=b"", status=0, out=b"", error=b"", folder=None):
        """Runs the program with these words and this standard input, and wants this of it."""
        run = base.ran(self.giop, *words, given=given, seconds=SECONDS, cwd=folder)
        self.assertEqual(base.end_of(run), (status, out, error), " ".join(words))

    def on_terminal(self, *words, given=None, status=1):
        """What the program writes on a standard error that is a terminal, with this standard input, or a terminal that
        ends."""
        ours, theirs = pty.openpty()
        with os.fdopen(ours, "rb", buffering=0) as reader, os.fdopen(theirs, "wb", buffering=0) as terminal:
            pipe = subprocess.PIPE if given is not None else terminal
            with subprocess.Popen([self.giop, *words], stdin=pipe, stdout=subprocess.DEVNULL, stderr=terminal) as program:
                if given is None:
                    os.write(ours, b"\x04")
                else:
                    program.stdin.write(given)
                    program.stdin.close()
                self.assertEqual(program.wait(SECONDS), status, " ".join(words))
            # (a terminal hands on what is written some time later, and loses it where its last writer is gone by then)
            terminal.write(LAST)
            said = b""
            while not said.endswith(LAST):
                said += reader.read(4096)
        return said.removesuffix(LAST)

    def hints(self, what, wanted, *words, **given):
        """On a terminal this is said."""
        with self.subTest(what):
            # (the terminal shows what is typed, too)
            self.assertEqual(self.on_terminal(*words, **given).replace(b"^D\b\b", b""), wanted)

    def test_standard_input(self):
        """Without FILE, and with `-`, standard input is read."""
        for words in (["show"], ["show", "-"]):
            self.run_on(*words, given=DIGITS, out=SHOWN)
        for words in (["check"], ["check", "-"]):
            self.run_on(*words, given=DIGITS, out=b"end 2 messages\n")

    def test_files(self):
        """A file of digits, with standard input left alone."""
        with file_of(DIGITS) as name:
            self.run_on("show", name, given=b"zz", out=SHOWN)
            self.run_on("check", name, given=b"zz", out=b"end 2 messages\n")
            self.run_on("show", "stream", out=SHOWN, folder=os.path.dirname(name))

    def test_raw(self):
        """Octets as they are, of standard input and of a file, the option before or after it."""
        self.run_on("show", "--raw", given=FIRST + SECOND, out=SHOWN)
        self.run_on("show", "--raw", "-", given=FIRST + SECOND, out=SHOWN)
        with file_of(FIRST + SECOND) as name:
            self.run_on("show", "--raw", name, out=SHOWN)
            self.run_on("check", name, "--raw", out=b"end 2 messages\n")
        self.run_on("show", "--raw", given=b"", out=b"end 0 messages\n")
        self.run_on("check", "--raw", given=FIRST + SECOND[:7], status=1, out=b"rest 7 octets, 0 partial\n")
        self.run_on("show", "--raw", given=DIGITS, status=1, out=b"fault after 0 messages: bad magic\n")

    def test_refused(self):
        """Digits that are none, in a file as on standard input."""
        for octets, error in ((b"4", b"input: odd digits\n"), (b"4x", b"input: bad digit, line 1, place 2\n"),
                              (b"\xff\xff", b"input: unreadable\n")):
            self.run_on("show", given=octets, status=1, error=error)
            with file_of(octets) as name:
                self.run_on("check", name, status=1, error=error)

    def test_unreadable(self):
        """A file that can't be read is named with the reason, and its status is that of words that are refused."""
        missing = b"No such file or directory (os error 2)\n"
        self.run_on("show", "/nowhere/stream", status=2, error=b"input: /nowhere/stream: " + missing)
        self.run_on("check", "/", status=2, error=b"input: /: Is a directory (os error 21)\n")
        self.run_on("show", "--raw", "none", status=2, error=b"input: none: " + missing, folder="/")

    def test_unwritable(self):
        """Output that can't be written is named."""
        for words, given in ((["show"], DIGITS), (["check"], DIGITS), (["play"], b""), (["trace"], b""),
                             (["ior", REFERENCE], b"")):
            with self.subTest(words[0]), open("/dev/full", "wb") as full:
                run = subprocess.run([self.giop, *words], input=given, stdout=full, stderr=subprocess.PIPE,
                                     timeout=SECONDS, check=False)
                self.assertEqual((run.returncode, run.stderr), (1, b"output: No space left on device (os error 28)\n"))

    def test_reader_gone(self):
        """A reader of the output that goes away before its end is no error."""
        for words, given in ((["show"], DIGITS), (["check"], DIGITS), (["trace"], b""), (["ior", REFERENCE], b"")):
            with self.subTest(words[0]):
                reader, writer = os.pipe()
                os.close(reader)
                with os.fdopen(writer, "wb") as gone:
                    run = subprocess.run([self.giop, *words], input=given, stdout=gone, stderr=subprocess.PIPE,
                                         timeout=SECONDS, check=False)
                self.assertEqual((run.returncode, run.stderr), (0, b""))

    def test_hints(self):
        """On a terminal a line more says what helps; where nothing is known to, there is none."""
        bad = b"input: bad digit, line 1, place %d\r\n"
        self.hints("colons", bad % 3 + COLONS, "show", given=b"47:49:4f")
        self.hints("binary", bad % 1 + BINARY, "show", given=FIRST)
        self.hints("binary that is no text", b"input: unreadable\r\n" + BINARY, "check", given=b"\xff\x00")
        for magic in ("a1b2c3d4", "d4c3b2a1", "a1b23c4d", "4d3cb2a1"):
            self.hints(f"a capture {magic}", b"input: unreadable\r\n" + CAPTURE, "show", given=bytes.fromhex(magic))
            self.hints(f"a raw capture {magic}", CAPTURE, "show", "--raw", given=bytes.fromhex(magic) + bytes(20))
        self.hints("pcapng", CAPTURE, "show", "--raw", given=bytes.fromhex("0a0d0d0a") + bytes(20))
        self.hints("both sides", bad % 2 + FOLLOW, "show", given=b"Follow: tcp,raw\n00\n")
        self.hints("what nothing helps", b"input: bad digit, line 2, place 2\r\n", "show", given=b"47\n4x")
        self.hints("a stream that ends well", b"", "show", given=DIGITS, status=0)

    def test_waiting(self):
        """Where input comes from a terminal, that is said before it is read."""
        self.hints("show", WAITING, "show", status=0)
        self.hints("play", WAITING, "play", status=0)
        self.hints("trace", WAITING, "trace", status=0)
        self.hints("trace of a file", b"", "trace", "/dev/null", status=0)
        self.hints("ior", b"", "ior", REFERENCE, status=0)
        self.hints("ior of a terminal", WAITING + b"ior: no prefix\r\n", "ior")
