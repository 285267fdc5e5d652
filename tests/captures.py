"""Checks `giop trace` on packets with times, and giop-capture.

- Sessions of tests/trace.py are made at random, on connections that take turns, in packets with numbers and times, some
  of which go back; as giop-capture gives packets, and as tshark does, one stream after another in any order.
- Of the same, the messages that options ask for, and what is counted of calls.
- Packets of TCP are made at random of what two sides send: in any cuts, some again, some late, some lost; and
  giop-capture puts them in order as it was sent. Where tshark is there, it gives the same of them.
- A recording of omniORB: each message that tshark finds in it, `giop trace` does.
"""
import base64
import datetime
import importlib.machinery
import importlib.util
import json
import os
import pty
import random
import re
import shutil
import signal
import socket
import struct
import subprocess
import sys
import tempfile
import threading
import unittest
import xml.etree.ElementTree

from tests import base, giop, programs, trace, typed

SCRIPT = os.path.join(programs.ROOT, "giop-capture")
CAPTURES = os.path.join(programs.HERE, "captures")
SEED = 20261129
SESSIONS = 40
STREAMS = 60
START = 1_700_000_000_000_000_000
FIN, SYN, RST, ACK = 1, 2, 4, 16


def script():
    """giop-capture as a module."""
    loader = importlib.machinery.SourceFileLoader("giop_capture", SCRIPT)
    module = importlib.util.module_from_spec(importlib.util.spec_from_loader("giop_capture", loader))
    kept, sys.dont_write_bytecode = sys.dont_write_bytecode, True
    loader.exec_module(module)
    sys.dont_write_bytecode = kept
    return module


def clock(time):
    """A time in nanoseconds as an object of JSON has it: of one length, so that texts sort as times do."""
    seconds, rest = divmod(time, 1_000_000_000)
    return f"{datetime.datetime.fromtimestamp(seconds, datetime.timezone.utc):%Y-%m-%dT%H:%M:%S}.{rest:09d}Z"


class Packets(trace.Session):
    """A session in packets: those of each connection, with their numbers and times."""

    def __init__(self, rng):
        super().__init__(rng)
        self.packets, self.all_ends, self.clocks, self.stamps = [], {}, {}, []
        self.number, self.time = 0, START

    def open(self):
        self.connection = len(self.all_ends) + 1
        self.ends = self.all_ends[self.connection] = {0: 0, 1: 0}

    def turn_to(self, connection):
        self.connection, self.ends = connection, self.all_ends[connection]

    def send(self, side, message):
        super().send(side, message)
        self.stamps.append((self.number, self.clocks.get((self.connection, side))))

    def next_time(self):
        """When the next packet comes, as its clock has it; 0 where that is not known."""
        self.time += self.rng.randrange(1, 2_000_000)
        if self.rng.random() < 0.05:
            return 0
        return self.time - (self.rng.randrange(3_000_000) if self.rng.random() < 0.1 else 0)

    def write(self, side, octets):
        self.ends[side] += len(octets)
        cut = self.rng.randrange(1, len(octets)) if len(octets) > 1 and self.rng.random() < 0.3 else len(octets)
        for piece in (octets[:cut], octets[cut:]):
            if piece:
                self.number += self.rng.randrange(1, 3)
                time = self.next_time()
                self.packets.append((self.connection, side, self.number, time, piece))
                if time:
                    key = (self.connection, side)
                    self.clocks[key] = max(time, self.clocks.get(key, 0))

    def beginning(self):
        return next((time for _, _, _, time, _ in self.packets if time), None)

    def objects(self):
        """What is to be printed of each message, with what the packets tell."""
        beginning, all_of = self.beginning(), []
        for one, (frame, time) in zip(super().objects(), self.stamps):
            one["frame"], one["opener"] = frame, "127.0.0.1:1"
            if time is not None:
                one["time"] = clock(time)
                if time >= beginning:
                    one["since"] = time - beginning
            asked = all_of[one["request"] - 1][1] if one["request"] and one["kind"] in ("Reply", "LocateReply") else None
            if asked is not None and time is not None and time >= asked:
                one["latency"] = time - asked
            if one["target"]:
                one["target"]["object"] = "A"
            all_of.append((one, time))
            yield one


def head(stream=None):
    told = "" if stream is None else f"stream: {stream}\n"
    return f"{told}peers:\n  - peer: 0\n    host: 127.0.0.1\n    port: 1\npackets:\n"


def item(packet, stream=None):
    _, side, number, time, octets = packet
    told = "" if stream is None else f"    stream: {stream}\n"
    digits = base64.b64encode(octets).decode()
    lines = "".join(f"      {digits[n:n + 76]}\n" for n in range(0, len(digits), 76))
    return (f"  - packet: {number}\n{told}    peer: {side}\n    timestamp: {time // 10 ** 9}.{time % 10 ** 9:09d}\n"
            f"    data: !!binary |\n{lines}")


def by_turns(made):
    """The packets as giop-capture gives them."""
    text, known = [], set()
    for packet in made.packets:
        if packet[0] not in known:
            known.add(packet[0])
            text.append(head(packet[0] + 6))
        text.append(item(packet, packet[0] + 6))
    return "".join(text)


def by_streams(made):
    """The packets as tshark gives them."""
    streams = sorted(made.all_ends)
    made.rng.shuffle(streams)
    return "".join(head() + "".join(item(packet) for packet in made.packets if packet[0] == stream) for stream in streams)


def steps_of(rng):
    """The steps of a session on connections that take turns: None opens one, a number goes on with one."""
    steps, count = [], 0
    for _ in range(rng.randrange(1, 60)):
        if count == 0 or count < 4 and rng.random() < 0.1:
            count += 1
            steps.append(None)
        else:
            steps.append(rng.randrange(1, count + 1))
        steps.append((rng.randrange(2), trace.any_message(rng, 2)))
    return steps


def played(steps, rng):
    made = Packets(rng)
    for step in steps:
        if step is None:
            made.open()
        elif isinstance(step, int):
            made.turn_to(step)
        else:
            made.send(*step)
    made.connection = len(made.all_ends)
    return made


def check_session(made, text):
    """What is wrong with the trace of a session, or None."""
    wanted = list(made.objects())
    status, got, err = trace.traced_objects(text)
    if err or status != 0:
        return f"status {status}, {err!r}"
    if got[0] != {"line": "trace", "form": 1}:
        return f"the first line is {got[0]}"
    return trace.compared(wanted, got[1:-1]) or trace.differences(trace.ending(made, wanted), got[-1])


def body_of(message):
    """What is printed of a message's body, if it has one."""
    if message.kind not in (trace.REQUEST, trace.REPLY, trace.LOCATED):
        return {}
    octets = message.says.get("body", b"")
    return {"body": octets.hex(), "text": typed.text_of(octets)}


class Packeted(unittest.TestCase):
    """What is said of connections in packets."""

    @classmethod
    def setUpClass(cls):
        programs.program("GIOP")

    def judge(self, seed, form):
        made = played(steps_of(random.Random(seed)), random.Random(seed))
        text = form(made)
        wrong = check_session(made, text)
        if wrong:
            self.fail(f"{wrong}\n{text}")

    @base.each_seed(SEED, SESSIONS)
    def test_by_turns(self, seed):
        """Messages on connections that take turns are told with their packets, times and latencies."""
        self.judge(seed, by_turns)

    @base.each_seed(SEED, SESSIONS)
    def test_by_streams(self, seed):
        """One stream after another, in any order, their messages are told in the order of their packets."""
        self.judge(seed, by_streams)

    @base.each_seed(SEED, 12)
    def test_bodies(self, seed):
        """With --bodies each body is told in digits and as text."""
        made = played(steps_of(random.Random(seed)), random.Random(seed))
        wanted = [{**one, **body_of(message)} for one, (_, _, message, _) in zip(made.objects(), made.sent)]
        status, got, err = trace.traced_objects(by_turns(made), "--bodies")
        self.assertEqual((status, trace.compared(wanted, got[1:-1]), err), (0, None, ""))


# ------------------------------------------------------------------------------------------------- some messages only

def answer_of(objects, one):
    """The object that answers a request, or None."""
    return next((o for o in objects if o["kind"] in ("Reply", "LocateReply") and o["request"] == one["number"]), None)


def chosen(objects, early, late):
    """The numbers of the messages that are printed, in the order of their lines."""
    numbers, kept = [], {}
    for one in objects:
        if one["kind"] in ("Request", "LocateRequest"):
            if not early(one):
                continue
            kept[one["number"]] = [one["number"]]
            if late is None:
                numbers.append(one["number"])
        elif one["request"] in kept:
            if late is None:
                numbers.append(one["number"])
            elif one["kind"] == "CancelRequest":
                kept[one["request"]].append(one["number"])
            elif late(one):
                numbers += [*kept[one["request"]], one["number"]]
    return numbers


def is_exception(one):
    return one["status"] == "SYSTEM_EXCEPTION"


CHOICES = {
    "operation": (["--operation", "add"], lambda one: one["operation"] == "add", None),
    "object": (["--object", "k"], lambda one: True, None),
    "digits": (["--object", "6b"], lambda one: True, None),
    "another": (["--object", "j"], lambda one: False, None),
    "client": (["--client", "A"], lambda one: bool(one["ft"]) and one["ft"]["client"] == "A", None),
    "call": (["--call", "3"], lambda one: 3 in (one["number"], one["repeats"]), None),
    "slower": (["--slower", "10"], lambda one: True, lambda one: one.get("latency", -1) >= 10_000_000),
    "faults": (["--faults"], lambda one: True, is_exception),
    "both": (["--faults", "--operation", "get"], lambda one: one["operation"] == "get", is_exception),
}


def at(percent, latencies):
    """The least latency that so many of a hundred do not go over, rounded up to eight binary digits, but not over all."""
    found = sorted(latencies)[-(-len(latencies) * percent // 100) - 1]
    unit = 1 << max(0, found.bit_length() - 8)
    return min(-(-found // unit) * unit, max(latencies))


def calls_of(objects):
    """What is counted of the calls of each operation on the one object."""
    found = {}
    for one in objects:
        if one["kind"] in ("Request", "LocateRequest"):
            row = found.setdefault(one["operation"], {"asked": [], "answered": [], "repeats": 0, "latencies": [], "names": []})
            row["asked"].append(one["octets"] or 0)
            row["repeats"] += one["repeats"] is not None
        elif one["kind"] in ("Reply", "LocateReply") and one["request"]:
            row = found[objects[one["request"] - 1]["operation"]]
            row["answered"].append(one["octets"])
            row["latencies"] += [one["latency"]] if "latency" in one else []
            row["names"] += [one["exception"]["name"]] if one["exception"] else []
    for operation, row in sorted(found.items(), key=lambda it: (it[0] is not None, it[0])):
        times = row["latencies"]
        yield {
            "line": "calls", "key": "6b", "object": "A", "operation": operation, "requests": len(row["asked"]),
            "answers": len(row["answered"]), "repeats": row["repeats"], "asked": sum(row["asked"]),
            "answered": sum(row["answered"]), **{f"latency{n}": at(n, times) if times else None for n in (50, 90, 99)},
            "greatest": max(times, default=None),
            "exceptions": [{"name": name, "count": row["names"].count(name)} for name in sorted(set(row["names"]))],
        }


class Chosen(unittest.TestCase):
    """Some messages only, and what is counted of all."""

    @classmethod
    def setUpClass(cls):
        programs.program("GIOP")

    @base.each_seed(SEED, 12)
    def test_choices(self, seed):
        """Each option prints the messages that it says, and counts all."""
        made = played(steps_of(random.Random(seed)), random.Random(seed))
        objects, text = list(made.objects()), by_turns(made)
        for name, (words, early, late) in CHOICES.items():
            status, got, err = trace.traced_objects(text, *words)
            numbers = [one["number"] for one in got if one["line"] == "message"]
            self.assertEqual((status, numbers, err), (0, chosen(objects, early, late), ""), name)
            self.assertEqual(got[-1], trace.ending(made, objects), name)

    @base.each_seed(SEED, 12)
    def test_unanswered(self, seed):
        """Requests that nothing answered are printed at the end, with what cancelled them."""
        made = played(steps_of(random.Random(seed)), random.Random(seed))
        objects = list(made.objects())
        wanted = []
        for number in trace.ending(made, objects)["unanswered"]:
            wanted += [number] + [o["number"] for o in objects if o["kind"] == "CancelRequest" and o["request"] == number]
        _, got, _ = trace.traced_objects(by_turns(made), "--unanswered")
        self.assertEqual([one["number"] for one in got if one["line"] == "message"], wanted)

    @base.each_seed(SEED, 12)
    def test_summary(self, seed):
        """What is counted of calls."""
        made = played(steps_of(random.Random(seed)), random.Random(seed))
        objects = list(made.objects())
        _, got, _ = trace.traced_objects(by_turns(made), "--summary")
        self.assertEqual(got[1:-2], list(calls_of(objects)))
        self.assertEqual(got[-2], {"line": "endings", "close": 0, "error": 0, "reset": 0, "fin": 0,
                                   "open": len(made.all_ends)})
        self.assertEqual(got[-1], trace.ending(made, objects))


# ------------------------------------------------------------------------------------------------- packets of TCP


class Sent:
    """What one side sends, in segments, some of which come again, late or never."""

    def __init__(self, rng, octets):
        self.rng, self.octets, self.place = rng, octets, rng.choice([0, 1000, (1 << 32) - 20, rng.randrange(1 << 32)])

    def segments(self, with_losses):
        """The segments in their order, each with its place; and which places of the octets are lost."""
        found, lost, at = [], set(), 0
        while at < len(self.octets):
            size = self.rng.randrange(1, 40)
            found.append((at, self.octets[at:at + size]))
            at += size
        for n in range(len(found) - 1):
            if self.rng.random() < 0.15:
                found[n], found[n + 1] = found[n + 1], found[n]
        for n in range(len(found) - 1, -1, -1):
            chance = self.rng.random()
            if chance < 0.15:
                start = max(0, found[n][0] - self.rng.randrange(10))
                found.insert(n + 1, (start, self.octets[start:found[n][0] + len(found[n][1])]))
            elif with_losses and chance < 0.2 and 0 < n < len(found) - 1:
                found.pop(n)
        has = {place for start, octets in found for place in range(start, start + len(octets))}
        last = max(has)
        lost = {place for place in range(last) if place not in has}
        return found, lost


class Written:
    """Packets of connections, in the order in which they come."""

    def __init__(self):
        self.packets, self.time = [], 1_700_000_000_000_000

    def add(self, ports, place, ack, flags, octets=b"", hosts=(1, 1)):
        self.time += 1000
        tcp = struct.pack(">HHIIBBHHH", *ports, place % (1 << 32), ack % (1 << 32), 0x50, flags, 65535, 0, 0) + octets
        ip = struct.pack(">BBHHHBBH4s4s", 0x45, 0, 20 + len(tcp), 1, 0, 64, 6, 0, *(bytes([127, 0, 0, n]) for n in hosts))
        self.packets.append((self.time, bytes(12) + b"\x08\x00" + ip + tcp))

    def connection(self, port, client, server, with_losses):
        """A connection on which both sides send by turns; what is to be found of each."""
        places = [client.place, server.place]
        ports = (port, 2809)
        self.add(ports, places[0] - 1, 0, SYN)
        self.add(ports[::-1], places[1] - 1, places[0], SYN | ACK)
        left = [list(side.segments(with_losses)) for side in (client, server)]
        whole = []
        for n in (0, 1):
            segments, lost = left[n]
            own, sent = ports if n == 0 else ports[::-1], (client, server)[n]
            for start, octets in segments:
                self.add(own, places[n] + start, places[1 - n], ACK, octets)
            end = max(start + len(octets) for start, octets in segments)
            # the other has all, those that the capture missed among it
            self.add(own[::-1], places[1 - n] + (0 if n == 0 else len(client.octets)), places[n] + end, ACK)
            whole.append(([o if place not in lost else None for place, o in enumerate(sent.octets[:end])], end))
        self.add(ports, places[0] + whole[0][1], places[1] + whole[1][1], FIN | ACK)
        self.add(ports[::-1], places[1] + whole[1][1], places[0] + whole[0][1] + 1, FIN | ACK)
        return [octets for octets, _ in whole]

    def lines(self, number=0):
        """The packets of one connection as tshark tells of them."""
        for n, (time, packet) in enumerate(self.packets, 1):
            source, target, place, ack, _, flags = struct.unpack(">HHIIBB", packet[34:48])
            octets = packet[54:]
            yield "\t".join(map(str, [n, f"{time // 10 ** 6}.{time % 10 ** 6:06d}000", number, "127.0.0.1", "", source,
                                      "127.0.0.1", "", target, place, ack, hex(flags), len(octets), octets.hex()])) + "\n"

    def file(self, path):
        with open(path, "wb") as file:
            file.write(struct.pack("<IHHiIII", 0xa1b2c3d4, 2, 4, 0, 0, 65535, 1))
            for time, packet in self.packets:
                file.write(struct.pack("<IIII", time // 10 ** 6, time % 10 ** 6, len(packet), len(packet)) + packet)


def sides_in(text):
    """What packets in lines of yaml give of each side of each stream: its octets, None where one is missing."""
    found, key = {}, None
    for line in text.splitlines():
        name, _, value = line.strip().partition(": ")
        if line.startswith("    stream: "):
            key = int(value)
        elif line.startswith("    peer: "):
            side = found.setdefault((key, int(value)), [])
        elif name == "missing":
            side += [None] * int(value)
        elif line.startswith("      "):
            side += base64.b64decode(line)
    return found


def followed(text):
    """The same by what tshark prints of one stream after another, in the order of their addresses."""
    found = {}
    for block in text.split("Follow: tcp,raw")[1:]:
        stream = int(block.split("tcp.stream eq ")[1].split("\n")[0])
        for line in block.splitlines():
            if line.strip("\t0123456789abcdef") or not line.strip():
                continue
            octets = bytes.fromhex(line.strip())
            side = found.setdefault((stream, 1 if line.startswith("\t") else 0), [])
            gap = octets.rstrip(b"\0").split(b" bytes missing in capture file")
            side += [None] * int(gap[0][1:]) if len(gap) == 2 else octets
    return found


def conversation(rng):
    return [Sent(rng, giop.request(1, b"k", "get") + rng.randbytes(rng.randrange(200))) for _ in range(2)]


class Ordered(unittest.TestCase):
    """What giop-capture makes of packets."""

    @base.each_seed(SEED, STREAMS * 3)
    def test_order(self, seed):
        """The octets of both sides stand in their order, each once, and those that are lost are counted."""
        rng, made = random.Random(seed), Written()
        client, server = conversation(rng)
        wanted = made.connection(40000, client, server, seed % 3 == 0)
        text = "".join(script().told(made.lines(), []))
        got = sides_in(text)
        self.assertEqual([got.get((0, side), []) for side in (0, 1)], wanted)
        self.assertEqual(text.count("closed: FIN"), 2)

    @programs.needs("tshark")
    def test_as_tshark(self):
        """tshark gives the same octets of each stream."""
        made = Written()
        for n in range(STREAMS):
            rng = random.Random(SEED + n)
            made.connection(40000 + n, *conversation(rng), n % 3 == 0)
        with tempfile.TemporaryDirectory() as folder:
            path = os.path.join(folder, "made.pcap")
            made.file(path)
            streams = [word for n in range(STREAMS) for word in ("-z", f"follow,tcp,raw,{n}")]
            theirs = base.ran("tshark", "-r", path, "-q", *streams, seconds=120).stdout.decode()
            ours = base.ran(SCRIPT, path, "--yaml", seconds=120).stdout.decode()
        self.assertEqual(sides_in(ours), followed(theirs))

    def test_other_ports(self):
        """With --port the connections of other ports are left out, and without it those without GIOP."""
        made = Written()
        made.connection(40000, *[Sent(random.Random(SEED), b"GET / HTTP/1.1\r\n")] * 2, False)
        for ports, is_told in (([], False), ([2809], True), ([80], False)):
            text = "".join(script().told(made.lines(), ports))
            self.assertEqual(bool(text), is_told, ports)

    def test_without_tshark(self):
        """Where tshark is missing, it is said how to get it."""
        run = subprocess.run([sys.executable, SCRIPT, "none.pcap"], env={"PATH": "/nowhere"}, capture_output=True,
                             timeout=20, check=False)
        self.assertEqual(run.returncode, 2)
        self.assertIn(b"giop-capture: tshark is missing", run.stderr)


# ------------------------------------------------------------------------------------------------- colours

BOLD, FAINT, RED, YELLOW, MAGENTA = (f"\x1b[{n}m" for n in (1, 2, 31, 33, 35))
END = "\x1b[0m"


def said():
    """What is said on a connection, a message or a gap each, with the colours of its lines."""
    key = giop.ft_request("A", 1)
    yield 0, giop.request(1, b"k", "add", contexts=[key]), [BOLD, "", FAINT, FAINT]
    yield 1, giop.reply(1, giop.system_body("TRANSIENT"), status=2), [MAGENTA]
    yield 0, giop.request(2, b"k", "add", contexts=[key]), [YELLOW, FAINT, FAINT]
    yield 0, giop.cancel(2), [YELLOW]
    yield 1, giop.reply(2), [""]
    yield 1, giop.reply(9), [RED]
    yield 0, giop.locate(3, b"k"), [""]
    yield 1, giop.located(3, 0), [MAGENTA]
    yield 1, giop.message(trace.ERROR, b""), [RED]
    yield 1, b"GIOP", [RED]


class Coloured(unittest.TestCase):
    """Lines in colours."""

    @classmethod
    def setUpClass(cls):
        cls.giop = programs.program("GIOP")
        parts = list(said())
        cls.text = head(0) + "".join(item((0, side, n, START + n, octets), 0) for n, (side, octets, _) in enumerate(parts))
        cls.tones = [BOLD, *(tone for _, _, tones in parts for tone in tones)]

    def traced(self, *words, **environment):
        """The lines that are printed to a pipe."""
        run = subprocess.run([self.giop, "trace", *words], input=self.text.encode(), stdout=subprocess.PIPE, check=False,
                             timeout=20, env={"TERM": "xterm", **environment})
        self.assertEqual(run.returncode, 1)
        return run.stdout.decode()

    def on_terminal(self, *words, **environment):
        """The same on a terminal."""
        ours, theirs = pty.openpty()
        with os.fdopen(ours, "rb", buffering=0) as reader:
            with os.fdopen(theirs, "wb", buffering=0) as terminal:
                subprocess.run([self.giop, "trace", *words], input=self.text.encode(), stdout=terminal, check=False,
                               timeout=20, env={"TERM": "xterm", **environment})
                terminal.write(b"\0")
            got = b""
            while not got.endswith(b"\0"):
                got += reader.read(65536)
        return got[:-1].decode().replace("\r\n", "\n")

    def test_lines(self):
        """Each line has its colour, and is else as without."""
        plain = self.traced("--color", "never").splitlines()
        tones = self.tones + [""] * (len(plain) - len(self.tones))
        wanted = [f"{tone}{line}{END}" if tone else line for tone, line in zip(tones, plain)]
        self.assertEqual(self.traced("--color", "always").splitlines(), wanted)

    def test_pipe(self):
        """Where nothing is asked for, what is printed to a pipe has none."""
        self.assertEqual(self.traced(), self.traced("--color", "never"))
        self.assertEqual(self.traced("--color", "auto"), self.traced("--color", "never"))

    def test_terminal(self):
        """On a terminal there are colours, unless the environment asks for none."""
        plain, coloured = self.traced("--color", "never"), self.traced("--color", "always")
        self.assertEqual(self.on_terminal(), coloured)
        self.assertEqual(self.on_terminal(NO_COLOR=""), coloured)
        self.assertEqual(self.on_terminal(NO_COLOR="1"), plain)
        self.assertEqual(self.on_terminal(TERM="dumb"), plain)
        self.assertEqual(self.on_terminal("--color", "never"), plain)
        self.assertEqual(self.traced("--color", "always", NO_COLOR="1", TERM="dumb"), coloured)

    def test_json(self):
        """JSON has none."""
        self.assertEqual(self.traced("--json", "--color", "always"), self.traced("--json"))


# ------------------------------------------------------------------------------------------------- a recording

RECORDING = os.path.join(CAPTURES, "names.pcapng")
# the numbers of messages and of statuses in the standard
FIELDS = ["frame.number", "frame.time_epoch", "giop.type", "giop.request_id", "giop.request_op", "giop.replystatus",
          "giop.char_data", "giop.wchar_data", "giop.iiop.host", "giop.iiop.port"]


class Recorded(unittest.TestCase):
    """A recording of nameclt, omniMapper and omniNames of omniORB on loopback."""

    @programs.needs("tshark")
    def test_as_tshark(self):
        """Each message that tshark finds stands in the same packet, with the same kind, request id, operation, status, code
        sets and address that it leads on to."""
        programs.program("GIOP")
        words = [word for field in FIELDS for word in ("-e", field)]
        told = base.ran("tshark", "-r", RECORDING, "-Y", "giop", "-T", "fields", *words, seconds=120).stdout.decode()
        text = base.ran(SCRIPT, RECORDING, "--yaml", seconds=120).stdout
        run = base.ran(programs.program("GIOP"), "trace", "--json", given=text)
        self.assertEqual((run.returncode, run.stderr), (0, b""))
        got = [one for one in map(json.loads, run.stdout.splitlines()) if one["line"] == "message"]
        self.assertEqual(len(got), len(told.splitlines()))
        seen = {"meaning": 0, "forward": 0}
        for one, line in zip(got, told.splitlines()):
            frame, time, kind, request_id, operation, status, narrow, wide, host, port = line.split("\t")
            seconds, _, rest = time.partition(".")
            self.assertEqual((one["frame"], one["time"], one["kind"]), (
                int(frame), clock(int(seconds) * 10 ** 9 + int(rest)), trace.KINDS[int(kind)]))
            if request_id:
                self.assertEqual(one["id"], int(request_id))
            if one["kind"] == "Request":
                self.assertEqual(one["operation"], operation)
            if one["kind"] == "Reply":
                self.assertEqual(one["status"], trace.STATUSES[int(status)])
            if narrow:
                seen["meaning"] += 1
                self.assertEqual([context.get("meaning") for context in one["contexts"] if context["id"] == giop.CODE_SETS],
                                 [f"char {trace.CODE_SETS[int(narrow)]}, wchar {trace.CODE_SETS[int(wide)]}"])
            self.assertEqual("forward" in one, one["status"] == "LOCATION_FORWARD")
            if "forward" in one:
                seen["forward"] += 1
                self.assertEqual([(to["host"], str(to["port"])) for to in one["forward"]["profiles"]], [(host, port)])
        self.assertTrue(all(seen.values()), seen)


# ------------------------------------------------------------------------------------------------- as it comes


class Live(unittest.TestCase):
    """Calls on loopback, while they are made."""

    def setUp(self):
        self.lines = []
        server = socket.create_server(("127.0.0.1", 0))
        self.addCleanup(server.close)
        self.port = server.getsockname()[1]
        threading.Thread(target=self.serve, args=(server,), daemon=True).start()

    def serve(self, server):
        """Answers one request on each connection."""
        while True:
            try:
                peer = server.accept()[0]
            except OSError:
                return
            with peer:
                peer.recv(4096)
                peer.sendall(giop.reply(1))

    def call(self):
        with socket.create_connection(("127.0.0.1", self.port)) as peer:
            peer.sendall(giop.request(1, b"k", "get"))
            peer.recv(4096)

    def listen(self, words, **streams):
        process = subprocess.Popen(words, stdout=subprocess.PIPE, stderr=subprocess.DEVNULL, **streams)
        self.addCleanup(process.stdout.close)
        self.addCleanup(process.wait)
        self.addCleanup(process.kill)
        return process

    def read(self, tracer):
        for line in tracer.stdout:
            self.lines.append(json.loads(line))

    def kinds(self):
        return [one["kind"] for one in self.lines if one["line"] == "message"]

    @programs.needs("tshark")
    def test_live(self):
        """A call is shown while the capture goes on, and an end of the capture ends it."""
        capture = self.listen([SCRIPT, "-i", "lo", "--port", str(self.port), "--yaml"])
        tracer = self.listen([programs.program("GIOP"), "trace", "--json"], stdin=capture.stdout)
        reader = threading.Thread(target=self.read, args=(tracer,), daemon=True)
        reader.start()
        for _ in range(60):
            if len(self.kinds()) >= 2:
                break
            if capture.poll() is not None:
                raise unittest.SkipTest(programs.NEEDS + "the right to capture packets")
            self.call()
            reader.join(0.5)
        self.assertEqual(self.kinds()[:2], ["Request", "Reply"])
        self.assertIsNone(tracer.poll())
        capture.send_signal(signal.SIGTERM)
        self.assertEqual(tracer.wait(20), 0)
        reader.join(20)
        self.assertEqual(self.lines[-1]["line"], "end")


# ------------------------------------------------------------------------------------------------- the page

PAGE = os.path.join(programs.ROOT, "docs", "CLI.md")
EXAMPLE = "examples/bank.pcap"
TYPES = os.path.join(programs.HERE, "cases", "trace", "bank.types")


class Line:
    """A connection in packets that are written by hand, on loopback: its peers are the last octets of addresses."""

    def __init__(self, made, client, port, server):
        self.made, self.ports, self.hosts, self.sent = made, (port, 2809), (client, server), [100, 500]
        for side, flags in ((0, SYN), (1, SYN | ACK)):
            self.packet(side, flags, back=1)

    def packet(self, side, flags, octets=b"", back=0):
        turn = 1 - 2 * side
        self.made.add(self.ports[::turn], self.sent[side] - back, self.sent[1 - side], flags, octets, self.hosts[::turn])
        self.sent[side] += len(octets)

    def say(self, side, octets, after=400):
        """A side sends octets so many microseconds later."""
        self.made.time += after
        self.packet(side, ACK, octets)


def amount_of(value):
    return lambda out: out.longlong(value)


def deposit(request_id, number, amount):
    def put(out):
        out.string("savings")
        out.longlong(amount)
    return giop.request(request_id, b"bank", "deposit", put, contexts=[giop.ft_request("teller", number, 200_000_000_000_000_000)])


def example():
    """The packets of examples/bank.pcap: two clients of a bank, one of which loses its connection and calls again at another
    address."""
    made = Written()
    first = Line(made, 2, 40001, 9)
    first.say(0, deposit(1, 1, 700))
    first.say(1, giop.reply(1, amount_of(700)))
    other = Line(made, 3, 40002, 9)
    other.say(0, giop.locate(1, b"bank"))
    other.say(1, giop.located(1, giop.OBJECT_HERE))
    first.say(0, deposit(2, 2, 50))
    made.time += 200_000
    first.packet(1, RST | ACK)
    again = Line(made, 2, 40003, 10)
    again.say(0, deposit(1, 2, 50))
    again.say(1, giop.reply(1, amount_of(750)))
    for octets in giop.cut(giop.request(2, b"bank", "balance", lambda out: out.string("savings")), [44]):
        other.say(0, octets)
    other.say(1, giop.reply(2, amount_of(750)), after=1_500_000)
    again.say(0, deposit(2, 3, -900))

    def overdrawn(out):
        out.string("IDL:Bank/Overdrawn:1.0")
        out.longlong(750)
    again.say(1, giop.reply(2, overdrawn, status=giop.USER_EXCEPTION))
    other.say(0, giop.request(3, b"bank", "audit"))
    other.say(1, giop.system_exception(3, "BAD_OPERATION"))
    other.say(0, giop.request(4, b"bank", "balance", lambda out: out.string("savings")))
    again.say(1, giop.CLOSE_CONNECTION)
    return made


class Page(unittest.TestCase):
    """What docs/CLI.md shows of examples/bank.pcap."""

    def test_example(self):
        """The recording has the packets that are said here."""
        with tempfile.TemporaryDirectory() as folder:
            path = os.path.join(folder, "made.pcap")
            example().file(path)
            with open(path, "rb") as made, open(os.path.join(programs.ROOT, EXAMPLE), "rb") as kept:
                self.assertEqual(made.read(), kept.read())

    @programs.needs("tshark")
    def test_page(self):
        """Each command prints what stands behind it."""
        giop_program = programs.program("GIOP")
        with open(PAGE, encoding="utf-8") as file:
            page = file.read().partition("### Reading a capture\n")[2].partition("\n### ")[0]
        text = base.ran(SCRIPT, os.path.join(programs.ROOT, EXAMPLE), "--yaml", seconds=120).stdout
        shown = page.split(f"    $ ./giop-capture {EXAMPLE} ")[1:]
        self.assertEqual(len(shown), 6)
        for block in shown:
            words, *lines = block.partition("\n\n")[0].split("\n    ")
            options = [TYPES if word == "bank.types" else word for word in words.split()]
            run = base.ran(giop_program, "trace", *options, given=text)
            # (`..` stands for lines that are left out)
            wanted = "".join(".*" if line == ".." else re.escape(line + "\n") for line in lines)
            self.assertRegex(run.stdout.decode(), re.compile(wanted + r"\Z", re.DOTALL), words)
            self.assertEqual((run.returncode, run.stderr), (0, b""))


# ------------------------------------------------------------------------------------------------- pictures

SVG = "{http://www.w3.org/2000/svg}"


class Pictures(unittest.TestCase):
    """The picture of a call."""

    def setUp(self):
        folder = tempfile.TemporaryDirectory()
        self.addCleanup(folder.cleanup)
        self.folder = folder.name
        os.mkdir(os.path.join(self.folder, "scripts"))
        for file in ("giop-capture", "scripts/picture.py"):
            shutil.copy(os.path.join(programs.ROOT, file), os.path.join(self.folder, file))
        os.symlink(programs.program("GIOP"), os.path.join(self.folder, "giop"))

    def capture(self, *words):
        return base.ran(os.path.join(self.folder, "giop-capture"), os.path.join(self.folder, "made.pcap"), *words)

    def retried(self):
        """Packets of a call whose first connection is reset, and that is answered on a second."""
        made, ask = Written(), giop.request(7, b"k", "add", contexts=[giop.ft_request("A", 1)])
        for ports in ((40000, 2809), (40001, 2809)):
            made.add(ports, 99, 0, SYN)
            made.add(ports[::-1], 499, 100, SYN | ACK)
            made.add(ports, 100, 500, ACK, ask)
            if ports[0] == 40000:
                made.add(ports, 100 + len(ask), 500, RST)
        made.add(ports[::-1], 500, 100 + len(ask), ACK, giop.reply(7))
        made.file(os.path.join(self.folder, "made.pcap"))

    @programs.needs("tshark")
    def test_retry(self):
        """Each transmission has an arrow, one that nothing answered a cross, and the answer stands at its own."""
        self.retried()
        path = os.path.join(self.folder, "way.svg")
        run = self.capture("--call", "1", "--picture", path)
        self.assertEqual((run.returncode, run.stdout), (0, b""), run.stderr)
        drawn = xml.etree.ElementTree.parse(path).getroot()
        self.assertEqual(drawn.findtext(SVG + "title"), "Request 1, add, sent: 2, answered: 1")
        self.assertEqual([one.text for one in drawn.iter(SVG + "text")], [
            "client A", "127.0.0.1:2809",
            "0.000000 frame 3, connection 1: Request add, no answer",
            "0.004000 frame 7, connection 2: Request add",
            "0.005000 frame 8, connection 2: NO_EXCEPTION, 0.001000 s",
        ])
        self.assertEqual([one.get("class") for one in drawn.iter(SVG + "path")][1:],
                         ["line", "line", "lost", "cross", "sent", "sent head", "sent", "sent head"])

    @programs.needs("tshark")
    def test_words(self):
        """Options stand before the file or behind it, and what is neither is refused."""
        self.retried()
        path, words = os.path.join(self.folder, "made.pcap"), ["--operation", "add", "--client", "A", "--color", "always"]
        run = self.capture(*words)
        self.assertIn(b"operation add", run.stdout)
        before = base.ran(os.path.join(self.folder, "giop-capture"), *words, path)
        self.assertEqual((before.returncode, before.stdout), (run.returncode, run.stdout))
        for wrong in (["more.pcap"], ["-i", "lo"]):
            run = self.capture(*wrong)
            self.assertEqual((run.returncode, run.stdout), (2, b""))

    @programs.needs("tshark")
    def test_repeat(self):
        """A call is told over all its transmissions, whichever of them is given."""
        self.retried()
        first, again = (self.capture("--call", number) for number in ("1", "2"))
        self.assertEqual((first.returncode, first.stdout.count(b"operation add")), (0, 2))
        self.assertEqual((again.returncode, again.stdout), (0, first.stdout))
        path = os.path.join(self.folder, "way.svg")
        self.capture("--call", "2", "--picture", path)
        self.assertEqual(xml.etree.ElementTree.parse(path).getroot().findtext(SVG + "title"),
                         "Request 1, add, sent: 2, answered: 1")

    @programs.needs("tshark")
    def test_help(self):
        """The help has the options of `giop trace` too."""
        run = self.capture("--help")
        self.assertEqual(run.returncode, 0)
        for word in (b"--picture", b"--unanswered", b"--summary"):
            self.assertIn(word, run.stdout)

    @programs.needs("tshark")
    def test_none(self):
        """A number that no request has is refused, and no picture is written."""
        self.retried()
        path = os.path.join(self.folder, "way.svg")
        run = self.capture("--call", "3", "--picture", path)
        self.assertEqual(run.returncode, 1)
        self.assertIn(b"giop-capture: there is no request 3", run.stderr)
        self.assertFalse(os.path.exists(path))
