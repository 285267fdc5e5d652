"""Reads texts of locations, and compares what `parse_location` answers with a model that knows the grammar alone.

The texts are a few locations, each as it is, with each octet left out, and with each of HOSTILE before and in place of
each octet; and long ones. The rows of tests/readings/locations.txt are by hand.
"""
import re
import unittest
from collections.abc import Iterator

from tests import base, programs

LOCATIONS = (b"corbaloc::a", b"CORBAloc:iiop:1.2@h-1.x:80,:[::1]:5/k%2Fl/%c3", b"corbaloc:rir:/k", b"corbaloc::1.0@[ab:1.2],:h/")
HOSTILE = (b"", b"\0", b" ", b"%", b"%4", b"/", b":", b",", b"@", b"[", b"]", b".", b"0", b"1", b"9", b"g", b"+", b"#", b"\xc3\xa9")
# one after another: a protocol and a version, a host, and what stands behind it
PROTOCOL = re.compile(rb"(?:iiop)?:")
VERSION = re.compile(rb"0*1\.([0-9]+)")
HOST = re.compile(rb"\[([0-9A-Fa-f:.]+)\]|([-0-9A-Za-z._]+)(?=:|\Z)")
PORT = re.compile(rb":([0-9]+)")
ESCAPED = re.compile(rb"%([0-9A-Fa-f]{2})|([0-9A-Za-z;/:?@&=+$,._!~*'()-])")


class Refused(Exception):
    """Why a text is no location."""


def listed(octets: bytes) -> str:
    """Octets as `{:?}` prints them."""
    return str(list(octets))


def number(digits: bytes) -> int:
    """The number of digits, or a large one where it is large."""
    return int(digits.lstrip(b"0")[:7] or b"0")


def address(at: int, text: bytes) -> str:
    """The address that begins at a place, as `{:?}` prints it."""
    protocol = PROTOCOL.match(text)
    if protocol is None:
        raise Refused(f"rir at {at}" if text.startswith(b"rir:") else f"unknown protocol at {at}")
    rest, minor = text[protocol.end():], 0
    at += protocol.end()
    if b"@" in rest:
        version, _, rest = rest.partition(b"@")
        found = VERSION.fullmatch(version)
        minor = number(found.group(1)) if found else 256
        if minor > 255:
            raise Refused(f"bad version at {at}")
        at += len(version) + 1
    host = HOST.match(rest)
    if host is None:
        raise Refused(f"bad host at {at}")
    behind = rest[host.end():]
    port = PORT.fullmatch(behind)
    reached = number(port.group(1)) if port else 0 if behind else 2809
    if not 1 <= reached <= 65535:
        raise Refused(f"bad port at {at + host.end()}")
    return f"Address {{ minor: {minor}, host: {listed(host.group(1) or host.group(2))}, port: {reached} }}"


def key(at: int, text: bytes) -> str:
    """The key that begins at a place, as `{:?}` prints it."""
    octets, place = b"", 0
    while place < len(text):
        found = ESCAPED.match(text, place)
        if found is None:
            raise Refused(f"{'bad escape' if text[place:place + 1] == b'%' else 'unescaped octet'} at {at + place}")
        octets += bytes.fromhex(found.group(1).decode()) if found.group(1) else found.group(2)
        place = found.end()
    return listed(octets)


def location(text: bytes) -> str:
    """What is printed for a text."""
    if text[:9].lower() != b"corbaloc:":
        return "no prefix"
    front, _, behind = text[9:].partition(b"/")
    addresses, at = [], 10
    try:
        for part in front.split(b","):
            addresses.append(address(at, part))
            at += len(part) + 1
        return f"Location {{ addresses: [{', '.join(addresses)}], key: {key(at, behind)} }}"
    except Refused as why:
        return str(why)


def texts() -> Iterator[bytes]:
    """The texts."""
    for text in LOCATIONS:
        yield text
        for place in range(len(text) + 1):
            for octets in HOSTILE:
                yield text[:place] + octets + text[place:]
                yield text[:place] + octets + text[place + 1:]
    for count in (1000, 20000):
        for wide in (b":h,", b",", b":", b"@", b"[", b"1.", b"0", b"a", b"%"):
            yield b"corbaloc::" + wide * count
            yield b"corbaloc::h/" + wide * count
            yield b"corbaloc::h:" + wide * count


class Locations(unittest.TestCase):
    """The texts of locations."""

    def test_the_texts(self) -> None:
        """The program prints for each text what the model says of it."""
        wanted = {text.hex(): location(text) for text in texts()}
        lines = "".join(f"parse_location {digits}\n" for digits in wanted)
        run = base.ran(programs.program("REFERENCE_PLAYER"), given=lines.encode())
        printed = run.stdout.decode().split("\n")[:-1]
        self.assertEqual((run.returncode, run.stderr, len(printed)), (0, b"", len(wanted)))
        wrong = [(bytes.fromhex(digits), line) for digits, line in zip(wanted, printed) if line != wanted[digits]]
        self.assertEqual(wrong[:3], [])
