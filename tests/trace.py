"""Checks what `giop trace --json` prints, field by field.

- Each recorded connection of tests/follow is traced, and each of its messages is compared with what is read of its
  octets here.
- Sessions are made at random, whose pairs of requests and answers are known: several connections, on which both sides
  ask, ids that are used again, requests that want no reply, cancels, replies that nobody asked for, fragments, keys
  that come again; and each message in lines that are cut anywhere. The lines for a person are those of `giop
  show`, with what the objects say beside them.
- Octets that are no message stand between messages, and with --resume each message is found.
- Messages of 1.1 are cut anywhere, and with --cuts anywhere each is found, with a note where its cuts are not aligned.

A session that fails is printed with as few messages as are found with which it still does, as the program takes it.
"""
import datetime
import json
import os
import random
import re
import unittest

from tests import base, giop, programs
from tests.cdr import LITTLE, Octets
from tests.smaller import smallest

FOLLOW = os.path.join(programs.HERE, "follow")
SESSIONS = 60
SEED = 20261126
KINDS = ["Request", "Reply", "CancelRequest", "LocateRequest", "LocateReply", "CloseConnection", "MessageError"]
REQUEST, REPLY, CANCEL, LOCATE, LOCATED, CLOSE, ERROR, FRAGMENT = range(8)
STATUSES = ["NO_EXCEPTION", "USER_EXCEPTION", "SYSTEM_EXCEPTION", "LOCATION_FORWARD"]
LOCATIONS = ["UNKNOWN_OBJECT", "OBJECT_HERE", "OBJECT_FORWARD"]
WISHES = {0: "none", 1: "empty", 3: "full"}
# IOP 7.7, by their numbers
CONTEXTS = [
    "TransactionService", "CodeSets", "ChainBypassCheck", "ChainBypassInfo", "LogicalThreadId", "BI_DIR_IIOP",
    "SendingContextRunTime", "INVOCATION_POLICIES", "FORWARDED_IDENTITY", "UnknownExceptionInfo", "RTCorbaPriority",
    "RTCorbaPriorityRange", "FT_GROUP_VERSION", "FT_REQUEST", "ExceptionDetailMessage", "SecurityAttributeService",
    "ActivityService", "RMICustomMaxStreamFormat", "ACCESS_SESSION_ID", "SERVICE_SESSION_ID", "FIREWALL_PATH",
    "FIREWALL_PATH_RESP",
]
# CORBA 3.3 Part 1, annex A
EXCEPTIONS = [
    "UNKNOWN", "BAD_PARAM", "NO_MEMORY", "IMP_LIMIT", "COMM_FAILURE", "INV_OBJREF", "NO_PERMISSION", "INTERNAL",
    "MARSHAL", "INITIALIZE", "NO_IMPLEMENT", "BAD_TYPECODE", "BAD_OPERATION", "NO_RESOURCES", "NO_RESPONSE",
    "PERSIST_STORE", "BAD_INV_ORDER", "TRANSIENT", "FREE_MEM", "INV_IDENT", "INV_FLAG", "INTF_REPOS", "BAD_CONTEXT",
    "OBJ_ADAPTER", "DATA_CONVERSION", "OBJECT_NOT_EXIST", "TRANSACTION_REQUIRED", "TRANSACTION_ROLLEDBACK",
    "INVALID_TRANSACTION", "INV_POLICY", "CODESET_INCOMPATIBLE", "REBIND", "TIMEOUT", "TRANSACTION_UNAVAILABLE",
    "TRANSACTION_MODE", "BAD_QOS", "INVALID_ACTIVITY", "ACTIVITY_COMPLETED", "ACTIVITY_REQUIRED", "THREAD_CANCELLED",
]
EPOCH = datetime.datetime(1582, 10, 15)
# the registry of code sets of the Open Group
CODE_SETS = {
    0: "none", 0x00010001: "ISO-8859-1", 0x0001000f: "ISO-8859-15", 0x00010020: "ISO-646", 0x00010100: "UCS-2",
    0x00010106: "UCS-4", 0x00010109: "UTF-16", 0x00030010: "EUC-JP", 0x05010001: "UTF-8", 0x100204e4: "windows-1252",
    0x12345678: "0x12345678",
}


class Message:
    """A message to be sent: what it says, and its octets."""

    def __init__(self, kind, minor, order, request_id, **says):
        self.kind, self.minor, self.order, self.id, self.says = kind, minor, order, request_id, says

    def contexts(self):
        found = [(giop.CODE_SETS, self.says["codesets"])] if "codesets" in self.says else []
        return found + ([giop.ft_request(*self.says["ft"], self.order)] if "ft" in self.says else [])

    def body(self, out):
        """Its body, which in 1.2 begins at a multiple of 8 also where it is empty."""
        out.all += self.says.get("body", b"")

    def octets(self):
        """Its octets in one frame."""
        how = {"minor": self.minor, "order": self.order}
        if self.kind == CANCEL:
            return giop.cancel(self.id, **how)
        if self.kind == LOCATE:
            return giop.locate(self.id, b"k", **how)
        if self.kind == LOCATED:
            return giop.located(self.id, self.says["status"], **how)
        if self.kind == REPLY:
            return giop.reply(self.id, self.body, status=self.says["status"], contexts=self.contexts(), **how)
        if self.kind == REQUEST:
            return giop.request(self.id, b"k", self.says["operation"], self.body, wish=self.says.get("wish", 3),
                                contexts=self.contexts(), **how)
        return giop.message(self.kind, b"", **how)

    def frames(self, rng):
        """Its octets in one frame, or in two where its version lets it be cut."""
        octets = self.octets()
        if self.kind not in (REQUEST, REPLY) or self.minor == 0 or rng.random() < 0.7:
            return [octets]
        # the first frame ends 8 octets further on, with its header: in 1.1 it leaves 4
        places = [n for n in range(12, len(octets) - 12) if (n + 12) % 8 == (0 if self.minor == 2 else 4)]
        return giop.cut(octets, [rng.choice(places)]) if places else [octets]


def expires(moment):
    """The time of UTC of a moment in units of 100 ns, as jiff prints it; None after the year 9999."""
    try:
        time = EPOCH + datetime.timedelta(microseconds=moment // 10)
    except OverflowError:
        return None
    fraction = moment % 10_000_000
    digits = f".{fraction:07d}".rstrip("0") if fraction else ""
    return f"{time:%Y-%m-%dT%H:%M:%S}".rjust(19, "0") + digits + "Z"


class Session:
    """Messages in the order in which they complete, each with what is to be printed of it."""

    def __init__(self, rng):
        self.rng, self.sent, self.text, self.connection = rng, [], [], 0
        self.ends = {}

    def open(self):
        self.connection += 1
        self.ends = {0: 0, 1: 0}
        self.text.append(f"\n===\nFollow: tcp,raw\nFilter: tcp.stream eq {self.connection - 1}\nNode 0: 127.0.0.1:1\n")

    def send(self, side, message):
        """Sends a message in lines that are cut anywhere."""
        frames = message.frames(self.rng)
        message.count = len(frames)
        for octets in frames:
            self.write(side, octets)
        self.sent.append((self.connection, side, message, self.ends[side]))

    def write(self, side, octets):
        self.ends[side] += len(octets)
        cut = self.rng.randrange(1, len(octets)) if len(octets) > 1 and self.rng.random() < 0.3 else len(octets)
        for piece in (octets[:cut], octets[cut:]):
            if piece:
                self.text.append("\t" * side + piece.hex() + "\n")

    def is_request(self, k, side, kind, request_id, connection):
        """Whether message k is a request of the side with the id, whose answer is of that kind."""
        where, sender, asked, _ = self.sent[k]
        wants = {REQUEST: REPLY, LOCATE: LOCATED}.get(asked.kind)
        return (where, sender, asked.id) == (connection, side, request_id) and wants == kind and (
            asked.kind == LOCATE or asked.says["wish"] != 0)

    def pairs(self):
        """For each message the number of the request that it answers or cancels, or None."""
        answered, found = set(), []
        for n, (connection, side, message, _) in enumerate(self.sent):
            if message.kind in (REPLY, LOCATED):
                fits = [k for k in range(n) if k not in answered
                        and self.is_request(k, 1 - side, message.kind, message.id, connection)]
                if fits:
                    answered.add(fits[-1])
            elif message.kind == CANCEL:
                fits = [k for k in range(n) if k not in answered
                        and any(self.is_request(k, side, kind, message.id, connection) for kind in (REPLY, LOCATED))]
            else:
                fits = []
            found.append(fits[-1] + 1 if fits else None)
        return found

    def repeats(self):
        """For each message the number of the first with its key, or None."""
        first, found = {}, []
        for n, (_, _, message, _) in enumerate(self.sent):
            key = message.says["ft"][:2] if "ft" in message.says else None
            found.append(first.get(key) if key else None)
            if key:
                first.setdefault(key, n + 1)
        return found

    def objects(self):
        """What is to be printed of each message."""
        for n, ((connection, side, message, end), request, repeat) in enumerate(
                zip(self.sent, self.pairs(), self.repeats()), 1):
            earlier = self.sent[request - 1][2] if request else None
            yield object_of(message, n, connection, side, end, request, repeat, earlier)


def object_of(message, number, connection, side, end, request, repeat, earlier):
    says, kind = message.says, message.kind
    has_contexts = kind in (REQUEST, REPLY)
    operation = says.get("operation")
    if kind in (REPLY, CANCEL) and earlier is not None:
        operation = earlier.says.get("operation")
    status = {REPLY: STATUSES, LOCATED: LOCATIONS}.get(kind)
    ft = None
    if "ft" in says:
        client, retention, expiration = says["ft"]
        ft = {"valid": True, "client": client.decode(), "retention": retention, "expiration": expiration,
              "expires": expires(expiration)}
    return {
        "line": "message", "number": number, "connection": connection, "direction": ["opener", "acceptor"][side],
        "to": end, "version": f"1.{message.minor}", "order": "little" if message.order == LITTLE else "big",
        "kind": KINDS[kind], "id": None if kind in (CLOSE, ERROR) else message.id,
        "reply": WISHES[says["wish"]] if kind == REQUEST else None,
        "target": {"key": "6b", "text": "k", "tag": None, "profile": None, "index": None}
                  if kind in (REQUEST, LOCATE) else None,
        "operation": operation.decode() if operation else None,
        "octets": len(says.get("body", b"")) if kind in (REQUEST, REPLY, LOCATED) else None,
        "status": status[says["status"]] if status else None,
        "request": request, "later": number - request if request else None, "exception": says.get("exception"),
        "contexts": [{"id": i, "name": CONTEXTS[i], "octets": o.hex(), **meaning(i, o)} for i, o in message.contexts()]
                    if has_contexts else [],
        "ft": ft, "repeats": repeat, **({"frames": message.count} if message.count > 1 else {}),
    }


def exception(order, rng):
    """A system exception: its octets, and what is printed of it."""
    name, minor, done = rng.choice(EXCEPTIONS), rng.randrange(1 << 32), rng.randrange(3)
    out = Octets(0, order)
    giop.system_body(name, done, minor)(out)
    return out.all, {"id": giop.repository_id(name), "name": name, "minor": minor, "completed": ["YES", "NO", "MAYBE"][done]}


def code_sets(rng):
    """The octets of a CodeSets context (IOP 7.10.2.5), now and then too few."""
    little = rng.random() < 0.5
    sets = b"".join(rng.choice(list(CODE_SETS)).to_bytes(4, "little" if little else "big") for _ in range(2))
    return (bytes([little, 0, 0, 0]) + sets)[:rng.choice([12, 12, 12, 11, 4, 0])]


def meaning(number, octets):
    """What a context says that has names: a field, or none."""
    if number != giop.CODE_SETS:
        return {}
    if len(octets) < 12:
        return {"meaning": "bad"}
    narrow, wide = (int.from_bytes(octets[n:n + 4], "little" if octets[0] else "big") for n in (4, 8))
    return {"meaning": f"char {CODE_SETS[narrow]}, wchar {CODE_SETS[wide]}"}


def request(rng, minor, order):
    says = {"wish": rng.choice([3, 3, 3, 1, 0] if minor == 2 else [3, 3, 0]),
            "operation": rng.choice([b"add", b"get", b"_is_a"]), "body": bytes(rng.randrange(3) * 8)}
    if rng.random() < 0.2:
        says["codesets"] = code_sets(rng)
    if rng.random() < 0.3:
        says["ft"] = (rng.choice([b"A", b"B"]), rng.randrange(-1, 2), rng.choice([0, 1 << 56, 200000000000000001, (1 << 64) - 1]))
    return Message(REQUEST, minor, order, rng.randrange(4), **says)


def reply(rng, minor, order):
    body, raised = bytes(rng.randrange(3) * 8), None
    status = rng.choice([0, 0, 2])
    if status == 2:
        body, raised = exception(order, rng)
    return Message(REPLY, minor, order, rng.randrange(4), status=status, body=body, exception=raised)


def any_message(rng, minor):
    order = rng.choice("<>")
    kind = rng.choice([REQUEST] * 6 + [REPLY] * 6 + [CANCEL, LOCATE, LOCATE, LOCATED, LOCATED])
    if kind == REQUEST:
        return request(rng, minor, order)
    if kind == REPLY:
        return reply(rng, minor, order)
    if kind == LOCATED:
        return Message(LOCATED, minor, order, rng.randrange(4), status=rng.choice([0, 1]))
    return Message(kind, minor, order, rng.randrange(4))


def session(rng):
    """The steps of a session: a connection is opened (None), or a side sends a message."""
    steps = []
    for _ in range(rng.randrange(1, 4)):
        steps.append(None)
        minor = rng.choice([0, 1, 2, 2])
        for _ in range(rng.randrange(1, 40)):
            steps.append((rng.randrange(2), any_message(rng, minor)))
        if rng.random() < 0.5:
            steps.append((0, Message(rng.choice([CLOSE, ERROR]), minor, ">", None)))
    return steps


def with_junk(rng):
    """The steps of a session in which octets that are no message stand between messages."""
    steps = [None]
    for n in range(20):
        steps.append((0, Message(REQUEST, 2, ">", n, wish=3, operation=b"get")))
        junk = bytes(rng.choice(b"GIOP\0\1\2") for _ in range(rng.randrange(12, 40)))
        if rng.random() < 0.4 and b"GIOP\1" not in junk and not junk.endswith((b"G", b"GI", b"GIO", b"GIOP")):
            steps.append((0, junk))
    return steps


def played(steps, rng):
    """The session of these steps, whose lines are cut at random."""
    made = Session(rng)
    for step in steps:
        if step is None:
            made.open()
        elif isinstance(step[1], bytes):
            made.write(*step)
        else:
            made.send(*step)
    return made


def traced(text, *words):
    """How `giop trace` ends on a text: its status, and what it prints."""
    run = base.ran(programs.program("GIOP"), "trace", *words, given=text.encode())
    return run.returncode, run.stdout.decode(), run.stderr.decode()


def traced_objects(text, *words):
    """The same with --json: the objects in place of the lines, but for those of connections."""
    status, out, err = traced(text, "--json", *words)
    objects = [json.loads(line) for line in out.splitlines()]
    return status, [one for one in objects if one["line"] != "connection"], err


def differences(wanted, got):
    """The first field that differs, or None."""
    if set(wanted) != set(got):
        return f"fields {sorted(set(wanted) ^ set(got))}"
    for field, value in wanted.items():
        if got[field] != value or type(got[field]) is not type(value):
            return f"{field}: {got[field]!r} in place of {value!r}"
    return None


def compared(wanted, got):
    for n, (one, other) in enumerate(zip(wanted, got), 1):
        differs = differences(one, other)
        if differs:
            return f"message {n}: {differs}"
    return None if len(wanted) == len(got) else f"{len(got)} messages in place of {len(wanted)}"


def ending(made, objects, faults=0, passed=0):
    """The object at the end."""
    answered = {o["request"] for o in objects if o["kind"] in ("Reply", "LocateReply")}
    cancelled = {o["request"] for o in objects if o["kind"] == "CancelRequest"}
    waits = [o["number"] for o in objects if o["number"] not in answered
             and (o["kind"] == "LocateRequest" or o["kind"] == "Request" and o["reply"] != "none")]
    return {
        "line": "end", "messages": len(objects), "connections": made.connection, "unanswered": waits,
        "cancelled": [n for n in waits if n in cancelled],
        "strays": [o["number"] for o in objects if o["kind"] in ("Reply", "LocateReply") and o["request"] is None],
        "repeats": [o["number"] for o in objects if o["repeats"] is not None], "faults": faults, "passed": passed,
        "missing": 0,
    }


def earlier_words(one):
    """What the line of an answer or a cancel says of its request, by its object."""
    if one["request"] is None:
        return " without a request"
    to = f" to {one['operation']}" if one["operation"] else ""
    return f"{to}, {one['later']} after request {one['request']}"


def outcome_words(one):
    """What the line of an answer says of its status, by its object."""
    raised = one["exception"]
    words = f" {raised['name']} minor {raised['minor']:#010x} completed {raised['completed']}" if raised else ""
    return f": status {one['status']}{words}"


def ft_line(one):
    """The line of an FT_REQUEST, by the object of its message."""
    ft = one["ft"]
    expires = ft["expires"] or "after the year 9999"
    repeat = f", repeat of {one['repeats']}" if one["repeats"] else ""
    return (f"  ft client {ft['client']} retention {ft['retention']} expiration {ft['expiration']} expires {expires}"
            f"{repeat}")


def lines_of(message, one):
    """The lines of a message for a person: those of `giop show`, with what its object says beside them."""
    body = message.says.get("body", b"")
    ending = f" body {body.hex() or '-'}, {len(body)} octets"
    line = (f"{one['number']} {'<' if one['direction'] == 'acceptor' else '>'} to {one['to']} {one['version']}"
            f" {one['order']} {one['kind']}" + ("" if one["id"] is None else f" id {one['id']}"))
    if message.kind == REQUEST:
        line += f" reply {one['reply']} key 6b operation {one['operation']}{ending}"
    elif message.kind == LOCATE:
        line += " key 6b"
    elif message.kind == CANCEL:
        line += earlier_words(one)
    elif message.kind in (REPLY, LOCATED):
        line += earlier_words(one) + outcome_words(one) + ending
    yield line
    for it in one["contexts"]:
        yield f"  context {it['id']} {it['octets'] or '-'} {it['name']}, {len(it['octets']) // 2} octets"
    if one["ft"]:
        yield ft_line(one)


def message_lines(out):
    """The lines of messages in what is printed for a person."""
    return [line for line in out.splitlines() if line[0] in " 123456789"]


def check_session(steps, seed):
    """What is wrong with the trace of a session, or None."""
    made = played(steps, random.Random(seed))
    wanted, text = list(made.objects()), "".join(made.text)
    status, got, err = traced_objects(text)
    if err or status != 0:
        return f"status {status}, {err!r}"
    wrong = compared(wanted, got[:-1]) or differences(ending(made, wanted), got[-1])
    if wrong:
        return wrong
    lines = [line for sent, one in zip(made.sent, wanted) for line in lines_of(sent[2], one)]
    return None if message_lines(traced(text)[1]) == lines else "the lines for a person differ"


def check_junk(steps, seed):
    """What is wrong with the trace that resumes after octets that are no message, or None."""
    made = played(steps, random.Random(seed))
    junk = [step[1] for step in steps if step and isinstance(step[1], bytes)]
    wanted, passed = list(made.objects()), sum(map(len, junk))
    status, got, err = traced_objects("".join(made.text), "--resume")
    if err or status != (1 if junk else 0):
        return f"status {status}, {err!r}"
    lines = [o for o in got[:-1] if o["line"] == "message"]
    counted = sum(o["octets"] for o in got if o["line"] == "passed")
    if counted != passed:
        return f"{counted} octets passed over in place of {passed}"
    return compared(wanted, lines) or differences(ending(made, wanted, len(junk), passed), got[-1])


def recorded(name):
    """The text of a recorded connection, and the octets of its messages in the order of their ends, by side."""
    with open(os.path.join(FOLLOW, name), encoding="ascii") as file:
        text = file.read()
    found = []
    for line in text.splitlines():
        if re.fullmatch(r"\t?([0-9a-f]{2})+", line):
            found.append((line.startswith("\t"), bytes.fromhex(line.strip())))
    return text, found


def check_recorded(name):
    """What is wrong with the trace of a recorded connection, in which each line is a frame, or None."""
    text, frames = recorded(name)
    whole = [(side, o) for side, o in frames if not o[6] & 2]
    status, got, err = traced_objects(text)
    if err or status != 0:
        return f"status {status}, {err!r}"
    if len(got) != len(whole) + 1 or got[-1]["messages"] != len(whole):
        return f"{len(got) - 1} messages in place of {len(whole)}"
    for (side, octets), one in zip(whole, got):
        kind = "Request" if octets[7] == FRAGMENT else KINDS[octets[7]]
        head = (["opener", "acceptor"][side], f"1.{octets[5]}", "little" if octets[6] & 1 else "big", kind)
        if (one["direction"], one["version"], one["order"], one["kind"]) != head:
            return f"message {one['number']}: {one} in place of {head}"
        if kind in ("Reply", "LocateReply") and one["request"] != one["number"] - 1:
            return f"message {one['number']} answers {one['request']}"
    return None


def recordings():
    """The recorded connections."""
    return [(name, name) for name in sorted(os.listdir(FOLLOW)) if name.endswith(".txt")]


class Trace(unittest.TestCase):
    """What is said of connections."""

    @classmethod
    def setUpClass(cls):
        programs.program("GIOP")

    def judge(self, check, steps, seed):
        """Where a session fails, it is made smaller; its first step, which opens a connection, stays."""
        if check(steps, seed):
            fewer = [None, *smallest(steps[1:], lambda some: check([None, *some], seed))]
            text = "".join(played(fewer, random.Random(seed)).text)
            self.fail(f"{len(fewer)} of {len(steps)} steps, {check(fewer, seed)}\n{text}")

    @base.each(recordings)
    def test_recorded(self, name):
        """Each message of a recorded connection is said as it is read here."""
        wrong = check_recorded(name)
        if wrong:
            self.fail(wrong)

    @base.each_seed(SEED, SESSIONS)
    def test_sessions(self, seed):
        """The pairs of a session are found, and its lines for a person say what its objects do."""
        self.judge(check_session, session(random.Random(seed)), seed)

    @base.each_seed(SEED, SESSIONS // 3)
    def test_junk(self, seed):
        """Each message is found after octets that are none."""
        self.judge(check_junk, with_junk(random.Random(seed)), seed)


def lines_alone(*messages):
    """The lines of a connection on which one side sends these."""
    made = Session(random.Random(SEED))
    made.open()
    for octets in messages:
        made.text.append(octets.hex() + "\n")
    return traced("".join(made.text))[1].splitlines()


# messages of 1.1 that are cut: how many octets each has, those of its frames but the last, headers among them, and whether a
# note stands at it, since one of these leaves other than 4, divided by 8
CUTS = [
    ("whole", 20088, [], False),
    # as omniORB cuts what is longer than 8 kB: one frame of any length, and a Fragment without octets
    ("one_frame_of_all", 20088, [20088], True),
    ("one_frame_of_all_aligned", 20092, [20092], False),
    ("an_octet_short_of_aligned", 20088, [20083], True),
    ("an_octet_beyond_aligned", 20088, [20085], True),
    ("first_frame_ends_amid_a_field", 20088, [22, 20], True),
    ("frames_of_any_length", 20088, [8208, 8209, 1000], True),
    ("second_frame_otherwise", 20088, [8212, 8213, 1004], True),
    ("last_but_one_otherwise", 20088, [8212, 1004, 1003], True),
    ("fragment_without_octets_amid", 20088, [8212, 12, 1004], False),
    ("aligned", 20088, [8212, 1004], False),
]
CUT_OTHERWISE = "cut otherwise than 1.1 lets align"


def frames_of(octets, sizes):
    """The frames of a message of 1.1: those of so many octets, their headers among them, and the last."""
    kind, order, rest, frames = octets[7], "<" if octets[6] & 1 else ">", octets[12:], []
    for size in sizes:
        frames.append(giop.message(kind, rest[:size - 12], minor=1, order=order, flags=giop.MORE))
        rest, kind = rest[size - 12:], FRAGMENT
    return [*frames, giop.message(kind, rest, minor=1, order=order)]


class Cuts(unittest.TestCase):
    """Messages of 1.1 that are cut anywhere, where they are asked for."""

    @classmethod
    def setUpClass(cls):
        programs.program("GIOP")

    def text_of(self, frames):
        """A connection on which the side that opened it sends these."""
        made = Session(random.Random(SEED))
        made.open()
        return "".join([*made.text, *(octets.hex() + "\n" for octets in frames)])

    @base.each(lambda: [(f"{row[0]}_{name}", (order, *row[1:])) for row in CUTS for order, name in ((">", "big"), ("<", "little"))])
    def test_request(self, part):
        """A Request of 1.1, and behind it one that is whole, which has no note."""
        order, size, sizes, is_noted = part
        # (44 octets stand before the body)
        body = bytes(n % 251 for n in range(size - 44))
        octets = giop.request(7, b"k", "put", body, minor=1, order=order)
        self.assertEqual(len(octets), size)
        text = self.text_of([*frames_of(octets, sizes), giop.request(8, b"k", "get", minor=1, order=order)])
        end, name = size + 12 * len(sizes), {">": "big", "<": "little"}[order]
        note = f", {CUT_OTHERWISE}" if is_noted else ""
        status, out, err = traced(text, "--cuts", "anywhere")
        self.assertEqual((status, err), (0, ""))
        self.assertEqual(message_lines(out), [
            f"1 > to {end} 1.1 {name} Request id 7 reply full key 6b operation put body {body.hex()}, {size - 44} octets{note}",
            f"2 > to {end + 44} 1.1 {name} Request id 8 reply full key 6b operation get body -, 0 octets"])
        self.assertIn("faults 0, 0 octets passed over", out)
        status, objects, err = traced_objects(text, "--cuts", "anywhere")
        self.assertEqual((status, err, len(objects)), (0, "", 3))
        asked = {"line": "message", "connection": 1, "direction": "opener", "version": "1.1", "order": name,
                 "kind": "Request", "reply": "full", "status": None, "request": None, "later": None, "exception": None,
                 "target": {"key": "6b", "text": "k", "tag": None, "profile": None, "index": None}, "contexts": [],
                 "ft": None, "repeats": None}
        cut = {**({"frames": len(sizes) + 1} if sizes else {}), **({"note": CUT_OTHERWISE} if is_noted else {})}
        first = {**asked, "number": 1, "to": end, "id": 7, "operation": "put", "octets": size - 44, **cut}
        second = {**asked, "number": 2, "to": end + 44, "id": 8, "operation": "get", "octets": 0}
        self.assertIsNone(compared([first, second], objects[:2]))
        self.assertEqual((objects[2]["messages"], objects[2]["faults"], objects[2]["passed"]), (2, 0, 0))

    @base.each(lambda: [(row[0], row[1:]) for row in CUTS])
    def test_reply(self, part):
        """A Reply of 1.1 to a request."""
        size, sizes, is_noted = part
        # (24 octets stand before the body)
        body = bytes(n % 251 for n in range(size - 24))
        octets = giop.reply(7, body, minor=1)
        self.assertEqual(len(octets), size)
        text = self.text_of([giop.request(7, b"k", "get", minor=1)])
        text += "".join(f"\t{frame.hex()}\n" for frame in frames_of(octets, sizes))
        note = f", {CUT_OTHERWISE}" if is_noted else ""
        status, out, err = traced(text, "--cuts", "anywhere")
        self.assertEqual((status, err), (0, ""))
        self.assertEqual(message_lines(out)[1:], [
            f"2 < to {size + 12 * len(sizes)} 1.1 big Reply id 7 to get, 1 after request 1: status NO_EXCEPTION"
            f" body {body.hex()}, {size - 24} octets{note}"])

    def test_aligned(self):
        """What is aligned is joined whatever is asked for; else such a message is a fault and is passed over."""
        octets = giop.request(7, b"k", "put", bytes(20044), minor=1)
        text = self.text_of(frames_of(octets, [20088]))
        for words in ((), ("--cuts", "aligned")):
            status, out, err = traced(text, *words)
            self.assertEqual((status, err), (1, ""))
            self.assertEqual(out.splitlines()[1:3],
                             ["fault > at 0: unaligned fragment", "passed over > from 0: 20100 octets"])
            self.assertEqual(message_lines(out), [])
        aligned = self.text_of(frames_of(octets, [8212, 1004]))
        self.assertEqual(traced(aligned), traced(aligned, "--cuts", "anywhere"))

    def test_version_1_2(self):
        """A message of 1.2 is cut where its alignment lets it, whatever is asked for of 1.1."""
        octets = giop.request(7, b"k", "put", bytes(40))
        aligned, otherwise = self.text_of(giop.cut(octets, [36, 8])), self.text_of(giop.cut(octets, [40]))
        status, out, _ = traced(aligned, "--cuts", "anywhere")
        self.assertEqual((status, CUT_OTHERWISE in out), (0, False))
        self.assertEqual(traced(aligned), (status, out, ""))
        self.assertEqual(traced(otherwise), traced(otherwise, "--cuts", "anywhere"))
        self.assertIn("fault > at 0: unaligned fragment", traced(otherwise)[1])


class Names(unittest.TestCase):
    """The standard's names of what stands in messages as a number."""

    @classmethod
    def setUpClass(cls):
        programs.program("GIOP")

    @base.each(lambda: [(name, (number, name)) for number, name in enumerate([*CONTEXTS, "unknown"])])
    def test_contexts(self, part):
        """Each service context, and the first number that has no name."""
        number, name = part
        # (FT_REQUEST has a line more)
        line = lines_alone(giop.request(1, b"k", "get", contexts=[(number, b"\7")]))[2]
        self.assertEqual(line, f"  context {number} 07 {name}, 1 octets")

    @base.each(lambda: [(name, name) for name in EXCEPTIONS])
    def test_exceptions(self, name):
        """Each system exception."""
        line = lines_alone(giop.system_exception(1, name, completed=1))[1]
        self.assertIn(f" status SYSTEM_EXCEPTION {name} minor 0x00000000 completed NO body ", line)


class Bounds(unittest.TestCase):
    """What is remembered has limits, and beyond them is counted."""

    # how many rows a summary has, and how many messages a list names
    MOST = 65536

    @classmethod
    def setUpClass(cls):
        programs.program("GIOP")

    def ended(self, messages, *words):
        """The lines at the end of a connection on which one side sends these, and the objects of JSON there."""
        made = Session(random.Random(SEED))
        made.open()
        text = "".join([*made.text, *(octets.hex() + "\n" for octets in messages)])
        lines = traced(text, *words)[1].splitlines()
        return lines, [json.loads(line) for line in traced(text, "--json", *words)[1].splitlines()]

    def test_rows_of_a_summary(self):
        """Operations beyond those that have rows are counted together."""
        lines, objects = self.ended([giop.request(2 * n, b"k", f"o{n}") for n in range(self.MOST + 3)], "--summary")
        rows = [line for line in lines if " requests, " in line]
        self.assertEqual(len(rows), self.MOST + 1)
        self.assertEqual(rows[-1], "(others): 3 requests, 0 answers, 0 repeats, 0 octets asked, 0 answered")
        names = sorted(f"o{n}" for n in range(self.MOST))
        one = "1 requests, 0 answers, 0 repeats, 0 octets asked, 0 answered"
        self.assertTrue(rows[:-1] == [f"object A operation {name}: {one}" for name in names])
        rows = [one for one in objects if "requests" in one]
        self.assertEqual((len(rows), rows[-1]["requests"], rows[-1]["others"]), (self.MOST + 1, 3, True))
        self.assertEqual({one.get("others", False) for one in rows[:-1]}, {False})

    def test_lists(self):
        """Replies without a request beyond those that are listed are counted."""
        lines, objects = self.ended([giop.reply(n) for n in range(self.MOST + 3)])
        listed = "".join(f" {n}" for n in range(1, self.MOST + 1))
        self.assertTrue(f"replies without a request {self.MOST + 3}:{listed} and 3 later ones" in lines)
        self.assertEqual((len(objects[-1]["strays"]), objects[-1]["more_strays"]), (self.MOST, 3))
        self.assertNotIn("more_repeats", objects[-1])
