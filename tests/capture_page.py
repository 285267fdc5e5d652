"""Checks the page of `giop-capture --page` in Chromium without a window: what is seen, filtered, clicked, printed.

- The page of examples/bank.pcap and of a recording of omniORB: rows, arrows, gaps, ends, lines that join, fields.
- Hostile octets in operations, keys and strings, and hostile characters in a title: they stay text.
- 100,000 messages: rows are made as they come into view, and what is left out is told.
"""
import json
import os
import re
import shutil
import sys
import tempfile
import unittest

from scripts.browser import NAME, browser
from tests import base, giop, programs
from tests.captures import CAPTURES, EXAMPLE, TYPES, Line, Written

sys.path.insert(0, programs.ROOT)
from capture.lanes import lanes_of  # noqa: E402
from capture.page import page  # noqa: E402

# what is seen of the rows: the texts of their cells but for what only a screen reader has, and the classes of arrows
ROWS = """[...document.querySelectorAll('#rows tr')].map(row => [...row.cells].map(cell => {
    const copy = cell.cloneNode(true);
    copy.querySelectorAll('.quiet').forEach(it => it.remove());
    return cell.className === 'lanes' ? [...cell.querySelectorAll('path,circle')].map(it => it.getAttribute('class')).join(', ')
        : [...copy.querySelectorAll('.tag')].reduce((text, tag) => (tag.remove(), [...text, `[${tag.textContent}]`]), [])
            .reduce((text, tag) => `${text} ${tag}`, copy.textContent).trim();
}))"""
NUMBERS = "[...document.querySelectorAll('#rows tr.message td.number')].map(it => Number(it.textContent))"
FIELDS = """[...document.querySelectorAll('#fields section')].map(part => [part.querySelector('h3').textContent,
    ...[...part.querySelectorAll('dt')].map(it => `${it.textContent}: ${it.nextSibling.textContent}`),
    ...[...part.querySelectorAll('pre')].map(it => it.textContent)])"""


def text_of(selector):
    return f"document.querySelector({json.dumps(selector)}).textContent"


def folder_of_programs(folder):
    """giop-capture in a folder, over the program of the tests."""
    shutil.copy(os.path.join(programs.ROOT, "giop-capture"), folder)
    os.symlink(os.path.join(programs.ROOT, "capture"), os.path.join(folder, "capture"))
    os.symlink(programs.program("GIOP"), os.path.join(folder, "giop"))
    return os.path.join(folder, "giop-capture")


class Shown(unittest.TestCase):
    """A browser, and pages in a folder."""

    @classmethod
    def setUpClass(cls):
        cls.folder = cls.enterClassContext(tempfile.TemporaryDirectory())
        cls.script = folder_of_programs(cls.folder)
        cls.shown = cls.enterClassContext(browser())
        cls.shown.size(1280, 1200)

    def make(self, recording, *words):
        path = os.path.join(self.folder, "page.html")
        run = base.ran(self.script, recording, *words, "--page", path)
        self.assertEqual((run.returncode, run.stdout, run.stderr), (0, b"", b""))
        return path

    def filter(self, words):
        self.shown.value("document.getElementById('filter').select()")
        self.shown.write(words or " ")

    def tearDown(self):
        self.assertEqual([one for one in self.shown.events if one["method"] in ("Runtime.exceptionThrown", "Log.entryAdded")], [])


REQUEST = 'deposit(account = "savings", amount = '
# the rows of examples/bank.pcap, worked out by its making in tests/captures.py
BANK = [
    ["1", "0.000000", "line, arrow plain, arrow plain head", "A", REQUEST + "700) [teller]", ""],
    ["2", "0.001400", "line, arrow plain back, arrow plain back open", "", "deposit = 700", "1.40 ms"],
    ["3", "0.004800", "line, arrow plain, arrow plain head", "A", "LocateRequest", ""],
    ["4", "0.006200", "line, arrow plain back, arrow plain back open", "", "LocateReply OBJECT_HERE", "1.40 ms"],
    ["5", "0.007600", "line, join repeat, dot repeat, arrow lost, arrow lost open", "A",
     REQUEST + "50) [teller] [no answer]", ""],
    ["", "+ 201 ms", "line broken, join repeat", "", "", ""],
    ["", "0.208600", "line, join repeat, sign fault", "", "connection 1 closed by RST", ""],
    ["6", "0.212000", "line, join repeat, dot repeat, arrow repeat, arrow repeat head", "A",
     REQUEST + "50) [teller] [repeat of 5]", ""],
    ["7", "0.213400", "line, arrow plain back, arrow plain back open", "", "deposit = 750", "1.40 ms"],
    ["8", "0.216200", "line, arrow plain, arrow plain head", "A", 'balance(account = "savings")', ""],
    ["", "+ 1.50 s", "line broken", "", "", ""],
    ["9", "1.717200", "line, arrow plain back, arrow plain back open", "", "balance = 750", "1.50 s"],
    ["10", "1.718600", "line, arrow plain, arrow plain head", "A", REQUEST + "-900) [teller]", ""],
    ["11", "1.720000", "line, arrow exception back, arrow exception back open", "",
     "deposit IDL:Bank/Overdrawn:1.0 {balance = 750}", "1.40 ms"],
    ["12", "1.721400", "line, arrow plain, arrow plain head", "A", "audit", ""],
    ["13", "1.722800", "line, arrow exception back, arrow exception back open", "",
     "audit BAD_OPERATION minor 0x00000000 completed NO", "1.40 ms"],
    ["14", "1.724200", "line, arrow lost, arrow lost open", "A", 'balance(account = "savings") [no answer]', ""],
    ["15", "1.725600", "line, arrow plain, arrow plain open", "", "CloseConnection", ""],
]
# operation, object, requests, answers, repeats, without an answer, exceptions; the latencies of 50, 90, 99 and 100 percent
CALLS = [
    ["deposit", "A bank", "4", "3", "1", "1", "1", *["1.40 ms"] * 4],
    ["balance", "A bank", "2", "1", "0", "1", "0", *["1.50 s"] * 4],
    ["LocateRequest", "A bank", "1", "1", "0", "0", "0", *["1.40 ms"] * 4],
    ["audit", "A bank", "1", "1", "0", "0", "1", *["1.40 ms"] * 4],
]
FILTERS = {
    "": list(range(1, 16)),
    "unanswered": [5, 14],
    "exceptions": [10, 11, 12, 13],
    "repeats": [5, 6, 7],
    ">100 ms": [8, 9],
    "> 1.5 s": [8, 9],
    ">1502ms": [],
    ">= 1400000 ns": [1, 2, 3, 4, 6, 7, 8, 9, 10, 11, 12, 13],
    "operation:balance": [8, 9, 14],
    "operation:Balance unanswered": [14],
    "operation:balanc": [],
    "object:A": list(range(1, 15)),
    "object:bank": list(range(1, 15)),
    "object:62616e6b": list(range(1, 15)),
    "object:B": [],
    "client:teller": [1, 2, 5, 6, 7, 10, 11],
    "client:tell": [],
    "overdrawn": [10, 11],
    "750": [6, 7, 8, 9, 10, 11],
    '"amount = 700"': [1, 2],
    "amount = 700": [1, 2],
    "127.0.0.3": [3, 4, 8, 9, 12, 13, 14],
    '"unanswered"': [],
    "teller unanswered": [5],
}


@programs.needs("tshark", NAME)
class Bank(Shown):
    """The page of examples/bank.pcap."""

    @classmethod
    def setUpClass(cls):
        super().setUpClass()
        cls.path = cls.make(cls(), os.path.join(programs.ROOT, EXAMPLE), "--types", TYPES)

    def setUp(self):
        self.shown.open(self.path)

    def test_rows(self):
        """Each message has its arrow, in its tone, and what it says; gaps, ends and repeats stand among them."""
        self.assertEqual(self.shown.value(ROWS), BANK)

    def test_lanes(self):
        """Hosts that call are on the left of the addresses that they call, and each arrow goes from one lane to another."""
        heads = self.shown.value("[...document.querySelectorAll('.lane')].map(it => [it.textContent, it.className])")
        self.assertEqual(heads, [["127.0.0.2", "lane"], ["127.0.0.3", "lane"], ["127.0.0.9:2809", "lane called"],
                                 ["127.0.0.10:2809", "lane called"]])
        lanes = self.shown.value("""[...document.querySelectorAll('.lane')].map(it => {
            const place = it.getBoundingClientRect(); return place.x + place.width / 2; })""")
        arrows = self.shown.value("""[...document.querySelectorAll('#rows tr.message .arrow:not(.head):not(.open)')].map(it => {
            const place = it.getBoundingClientRect(); return [place.left, place.right]; })""")
        found = [[min(range(4), key=lambda n: abs(lanes[n] - end)) for end in ends] for ends in arrows]
        self.assertEqual(found, [[0, 2], [0, 2], [1, 2], [1, 2], [0, 2], [0, 3], [0, 3], [1, 2], [1, 2], [0, 3], [0, 3], [1, 2],
                                 [1, 2], [1, 2], [0, 3]])

    def test_ends(self):
        """The end of a connection stands on the lane of the side that closed it."""
        sign, lane = self.shown.value("""['.sign', '.lane.called'].map(it => {
            const place = document.querySelector(it).getBoundingClientRect(); return place.x + place.width / 2; })""")
        self.assertLess(abs(sign - lane), 2)

    def test_table(self):
        """The table counts the calls of each operation, the operation with most of them first."""
        rows = self.shown.value("""[...document.querySelectorAll('#operations tbody tr')].map(row =>
            [...row.cells].slice(0, 11).map(cell => cell.textContent))""")
        self.assertEqual(rows, CALLS)
        # (1.4 ms lies in the first bar of three for each power of ten, 1.501 s in the tenth)
        said = self.shown.value("[...document.querySelectorAll('svg.bars')].map(it => it.getAttribute('aria-label'))")
        self.assertEqual(said, ["3 of 1.00 ms to 2.15 ms", "1 of 1.00 s to 2.15 s", *["1 of 1.00 ms to 2.15 ms"] * 2])

    @base.each(lambda: [(words or "none", words) for words in FILTERS])
    def test_filters(self, words):
        """A filter shows the calls of which each of its words holds, with their answers."""
        self.filter(words)
        self.assertEqual(self.shown.value(NUMBERS), FILTERS[words])
        count = len(FILTERS[words])
        self.assertEqual(self.shown.value(text_of("#shown")), "15 messages" if count == 15 else f"{count} of 15 messages")
        self.assertEqual(self.shown.value("document.getElementById('none').hidden"), count > 0)

    def test_chips(self):
        """A button puts its word into the filter, and takes it out."""
        said = self.shown.value("[...document.querySelectorAll('#chips button')].map(it => it.textContent)")
        self.assertEqual(said, ["unanswered 2", "exceptions 2", "repeats 1", "> 100 ms 1"])
        self.shown.click("#chips button")
        self.assertEqual(self.shown.value(NUMBERS), [5, 14])
        self.assertEqual(self.shown.value("document.getElementById('filter').value"), "unanswered")
        self.shown.click("#chips button")
        self.assertEqual(len(self.shown.value(NUMBERS)), 15)

    def test_operation(self):
        """A click on an operation of the table shows its calls."""
        self.shown.click("#operations tbody tr:nth-child(2) button")
        self.assertEqual(self.shown.value(NUMBERS), [8, 9, 14])

    def test_click(self):
        """A click on a message shows all its fields, its contexts and its octets."""
        self.shown.click("#rows tr:nth-child(8) td.words")
        self.assertEqual(self.shown.value("location.hash"), "#m6")
        self.assertEqual(self.shown.value(text_of("#details-head")), "6 Request deposit")
        # FT_REQUEST: a 0 for the order, 3 octets to align, client_id, retention_id, expiration_time (FT 23.2.7)
        context = ("0000  00 00 00 00 00 00 00 07  ........\n0008  74 65 6c 6c 65 72 00 00  teller..\n"
                   "0010  00 00 00 02 00 00 00 00  ........\n0018  02 c6 8a f0 bb 14 00 00  ........")
        body = ("0000  00 00 00 08 73 61 76 69  ....savi\n0008  6e 67 73 00 00 00 00 00  ngs.....\n"
                "0010  00 00 00 00 00 00 00 32  .......2")
        self.assertEqual(self.shown.value(FIELDS), [
            ["Values", 'account: "savings"', "amount: 50"], ["Call", "answered by: 7 after 1.40 ms", "repeat of: 5"],
            ["Message", "version: 1.2", "order: big", "request id: 1", "reply wanted: full", "body octets: 24"],
            ["Place", "time: 2023-11-14T22:13:20.215400000Z", "since the first: 0.212000 s", "from: 127.0.0.2:40003",
             "to: 127.0.0.10:2809", "connection: 3", "frame: 13", "direction: opener", "octets so far: 112"],
            ["Target", "key: 62616e6b", "text: bank", "object: A"],
            ["FT_REQUEST", "valid: true", "client: teller", "retention: 2", "expiration: 200000000000000000",
             "expires: 2216-07-24T11:33:20Z"],
            ["Context 13 FT_REQUEST", context], ["Body, 24 octets", body]])

    def test_link(self):
        """A link to a message shows it, in a filter that leaves it out too."""
        self.shown.open(self.path, "#m13")
        self.assertEqual(self.shown.value(text_of("#details-head")), "13 Reply audit")
        self.assertEqual(self.shown.value(text_of("tr.selected td")), "13")
        self.filter("unanswered")
        self.shown.value("location.hash = '#m12'")
        self.shown.settle()
        self.assertEqual(self.shown.value(text_of("tr.selected td")), "12")
        self.assertEqual(len(self.shown.value(NUMBERS)), 15)

    def test_keys(self):
        """Keys go to the filter, from message to message, into its fields and back."""
        self.shown.key("/")
        self.shown.write("teller")
        self.shown.key("Enter")
        self.assertEqual(self.shown.value("document.activeElement.textContent"), "1")
        self.shown.key("ArrowDown")
        self.shown.key("ArrowDown")
        self.assertEqual(self.shown.value("document.activeElement.textContent"), "5")
        self.shown.key("ArrowUp")
        self.shown.key("Enter")
        self.assertEqual(self.shown.value(text_of("#details-head")), "2 Reply deposit")
        self.shown.key("ArrowDown")
        self.assertEqual(self.shown.value(text_of("#details-head")), "5 Request deposit")
        self.shown.key("ArrowUp")
        self.shown.key("Enter")
        self.assertEqual(self.shown.value("document.activeElement.id"), "details")
        self.shown.key("Escape")
        self.assertTrue(self.shown.value("document.getElementById('details').hidden"))
        self.assertEqual(self.shown.value("document.activeElement.textContent"), "2")

    def test_reader(self):
        """A screen reader has the way of each message, the number of rows, and how many there are."""
        words = self.shown.value("document.querySelector('#rows tr td.words').textContent")
        self.assertTrue(words.startswith("Request from 127.0.0.2:40001 to 127.0.0.9:2809: deposit"), words)
        self.assertEqual(self.shown.value("document.getElementById('list').getAttribute('aria-rowcount')"), str(len(BANK) + 1))
        nodes = self.shown.tell("Accessibility.getFullAXTree")["nodes"]
        roles = [one["role"]["value"] for one in nodes if not one["ignored"]]
        counts = {role: roles.count(role) for role in ("table", "combobox", "status", "columnheader")}
        self.assertEqual(counts, {"table": 2, "combobox": 1, "status": 1, "columnheader": 18})

    def test_colours(self):
        """It is dark where the system is, and light else."""
        grounds = []
        for is_dark in (False, True):
            self.shown.is_dark(is_dark)
            ground, ink = self.shown.value("['backgroundColor', 'color'].map(it => getComputedStyle(document.body)[it])")
            grounds.append([sum(map(int, re.findall(r"\d+", it)[:3])) > 384 for it in (ground, ink)])
        self.shown.is_dark(False)
        self.assertEqual(grounds, [[True, False], [False, True]])

    def test_print(self):
        """All rows are printed, with nothing to click."""
        path = os.path.join(self.folder, "printed.html")
        with open(path, "w", encoding="utf-8") as file:
            file.writelines(page([*map(asked, range(1, 201)), ENDED], "printed", []))
        self.shown.open(path)
        self.assertLess(len(self.shown.value(NUMBERS)), 100)
        # (a row is 28 high, and the paper 703 without its margins)
        self.assertGreaterEqual(self.shown.printed().count(b"/Type /Page\n"), 8)
        self.shown.value("dispatchEvent(new Event('beforeprint'))")
        self.assertEqual(self.shown.value(NUMBERS), list(range(1, 201)))
        self.shown.tell("Emulation.setEmulatedMedia", media="print")
        seen = self.shown.value("['filter', 'chips', 'rows'].map(it => document.getElementById(it).getClientRects().length > 0)")
        self.shown.tell("Emulation.setEmulatedMedia", media="")
        self.assertEqual(seen, [False, False, True])
        self.shown.value("dispatchEvent(new Event('afterprint'))")
        self.assertLess(len(self.shown.value(NUMBERS)), 100)

    def test_alone(self):
        """It asks for nothing, and its policy lets nothing in that does not stand in it."""
        asked = [one["params"]["request"]["url"] for one in self.shown.events if one["method"] == "Network.requestWillBeSent"]
        self.assertEqual([it for it in asked if it != "about:blank"], [f"file://{self.path}"])
        refused = self.shown.value("""(async () => {
            const found = [];
            addEventListener('securitypolicyviolation', it => found.push(it.effectiveDirective));
            const script = document.createElement('script');
            try { script.textContent = 'window.ran = 1'; } catch (fault) { found.push(fault.name); }
            document.body.append(script);
            document.body.append(Object.assign(document.createElement('style'), {textContent: 'body { display: none }'}));
            try { document.body.innerHTML = '<b>'; } catch (fault) { found.push(fault.name); }
            await fetch('data:,').catch(fault => found.push(fault.name));
            const image = new Image();
            await new Promise(done => { image.onerror = done; image.src = 'data:image/gif;base64,R0lGODlhAQABAAAAACw='; });
            return [[...new Set(found)].sort(), window.ran === undefined, getComputedStyle(document.body).display];
        })()""")
        self.shown.events.clear()
        wanted = ["TypeError", "connect-src", "img-src", "require-trusted-types-for", "style-src-elem"]
        self.assertEqual(refused, [wanted, True, "block"])


@programs.needs("tshark", NAME)
class Names(Shown):
    """The page of a recording of omniORB."""

    def test_forward(self):
        """An answer that leads on is joined with where the call went."""
        self.shown.open(self.make(os.path.join(CAPTURES, "names.pcapng")))
        self.filter("forwards")
        self.assertEqual(self.shown.value(NUMBERS), [22, 23])
        self.filter("_is_a")
        rows = {row[0]: row for row in self.shown.value(ROWS)}
        self.assertEqual(rows["23"][2:5], ["line, join forward, dot forward, arrow forward back, arrow forward back open", "",
                                           "_is_a LOCATION_FORWARD to 127.0.0.1:42809 [goes on in 24]"])
        self.assertEqual(rows["24"][2], "line, join forward, dot forward, arrow plain, arrow plain head")
        self.shown.click("a[href='#m24'].tag")
        self.assertEqual(self.shown.value(text_of("#details-head")), "24 Request _is_a")

    def test_ends(self):
        """Each side's end stands on its lane."""
        self.shown.open(self.make(os.path.join(CAPTURES, "names.pcapng")))
        lanes, signs = self.shown.value("""['.lane', '.sign'].map(it => [...document.querySelectorAll(it)].map(one => {
            const place = one.getBoundingClientRect(); return place.x + place.width / 2; }))""")
        self.assertEqual([min(range(3), key=lambda n: abs(lanes[n] - sign)) for sign in signs[:2]], [0, 1])


def block_in(made, name):
    """A block of a page that has data."""
    return re.search(f'<script type="application/json" id="{name}">(.*)</script>', made).group(1)


def numbers_in(made):
    return json.loads(block_in(made, "data"))["columns"]["number"]


def asked(number, **fields):
    """A line of `giop trace --json` of a request."""
    return json.dumps({
        "line": "message", "number": number, "connection": 1, "direction": "opener", "to": 20, "version": "1.2", "order": "big",
        "kind": "Request", "id": number, "reply": "full", "target": {"key": "6b", "text": "k"}, "operation": "add", "octets": 0,
        "status": None, "request": None, "later": None, "exception": None, "contexts": [], "ft": None, "repeats": None,
        "opener": "127.0.0.1:1", "acceptor": "127.0.0.1:2", **fields})


ENDED = json.dumps({"line": "end", "messages": 2, "connections": 1, "unanswered": [], "cancelled": []})
HOSTILE = {
    "a script": b"</script><script>window.ran = 1</script>",
    "the end of a script": b"</script x><img src=x onerror=window.ran=1 ",
    "an attribute": b'" onload="window.ran = 1" x="',
    "a comment": b"<!--<script>",
    "control characters": b"\x01\x1b[31m\r\n\t\x7f",
    "right to left": "\u202egnol\u2066".encode(),
    "no UTF-8": b"\xff\xfe",
    "a template": b"{STYLE}{TITLE}${1 + 1}%s",
    "an entity": b"&lt;img src=x onerror=window.ran=1&gt;",
    "long": b"<b>" + b"x" * (1 << 16),
}
# the most octets of a packet
SEGMENT = 1 << 15
SIMPLE_TYPES = "giop-types 1\ninterface IDL:Simple:1.0\noperation say\nin what string\n"


def text(octets):
    """Octets as `giop trace` prints TEXT (docs/CLI.md)."""
    return "".join(chr(o) if 32 <= o < 127 and o != 0x5c else f"\\x{o:02x}" for o in octets)


@programs.needs("tshark", NAME)
class Hostile(Shown):
    """Octets of somebody who would have the page do something."""

    def check_nothing_ran(self, scripts):
        self.assertEqual(self.shown.value("[window.ran === undefined, document.scripts.length]"), [True, scripts])
        self.assertEqual(self.shown.value("document.querySelectorAll('#rows img, #rows b, #fields b, #fields img').length"), 0)

    @base.each(lambda: HOSTILE.items())
    def test_octets(self, octets):
        """In an operation, a key and a string they stay text."""
        made, path = Written(), os.path.join(self.folder, "hostile.pcap")
        line = Line(made, 2, 40001, 9)
        for number, operation in ((1, octets), (2, b"say")):
            sent = giop.request(number, octets[:1000] if operation == octets else b"k", operation,
                                lambda out: out.string(octets))
            for at in range(0, len(sent), SEGMENT):
                line.say(0, sent[at:at + SEGMENT])
        made.file(path)
        types = os.path.join(self.folder, "simple.types")
        with open(types, "w", encoding="utf-8") as file:
            file.write(SIMPLE_TYPES)
        self.shown.open(self.make(path, "--types", types))
        self.check_nothing_ran(3)
        said = self.shown.value("document.querySelector('#rows .operation').textContent")
        self.assertEqual(said, text(octets))
        self.assertEqual(self.shown.value(text_of("#operations tbody button")), text(octets))
        self.shown.value("document.querySelector('#operations tbody button').click()")
        self.assertEqual(self.shown.value(NUMBERS), [1])
        self.shown.value("location.hash = '#m2'")
        self.shown.settle()
        known = dict(line.partition(": ")[::2] for part in self.shown.value(FIELDS) for line in part[1:])
        self.assertEqual(known["what"][:200], f'"{text(octets)}'[:200] if len(octets) > 256 else f'"{text(octets)}"'[:200])
        self.check_nothing_ran(3)

    def test_characters(self):
        """Characters that hide or turn text round are told by their numbers, in a title too."""
        shown = "a\\u{202e}b\\u{0}c"
        one = asked(1, operation="a\u202eb\0c", target={"key": "6b", "text": "</td><b>k"},
                    values={"n": 2 ** 63, "s": "\u2028<b>"})
        path = os.path.join(self.folder, "made.html")
        with open(path, "w", encoding="utf-8") as file:
            file.writelines(page([one, ENDED], "</title><script>ran = 1</script>{STYLE}\u202e", ["x"]))
        self.shown.open(path, "#m1")
        self.check_nothing_ran(3)
        self.assertEqual(self.shown.value("document.title"), "</title><script>ran = 1</script>{STYLE}\\u{202e}")
        self.assertEqual(self.shown.value(text_of("#rows .operation")), shown)
        self.assertEqual(self.shown.value(FIELDS)[0], ["Values", "n: 9223372036854775808", 's: "\\u{2028}<b>"'])


@programs.needs(NAME)
class Octets(Shown):
    """A message with more octets than a page has."""

    def test_body(self):
        """The first octets of a body are shown, all that the page has on a click, and how many are left out."""
        path = os.path.join(self.folder, "long.html")
        with open(path, "w", encoding="utf-8") as file:
            file.writelines(page([asked(4, octets=70_000, body="3c620041" * 17_500), ENDED], "long", []))
        self.shown.open(path, "#m4")
        lines = self.shown.value(text_of("#fields pre")).split("\n")
        self.assertEqual((len(lines), lines[1]), (256, "0008  3c 62 00 41 3c 62 00 41  <b.A<b.A"))
        self.assertEqual(self.shown.value("['p.of', 'code'].map(it => document.querySelector(`#fields ${it}`).textContent)"), [
            "4,464 octets more are left out of this page. They are printed by:", "giop-capture FILE --call 4 --bodies"])
        self.assertEqual(self.shown.value(text_of("#fields button")), "All 65,536 octets")
        self.shown.value("document.querySelector('#fields button').click()")
        self.assertEqual(len(self.shown.value(text_of("#fields pre")).split("\n")), 8192)

    def test_lanes(self):
        """Where there is no room, hosts with few messages share a lane, and addresses too."""
        path = os.path.join(self.folder, "lanes.html")
        lines = [asked(n, connection=n, opener=f"10.0.0.{min(n, 30)}:5", acceptor=f"10.0.1.{min(n, 30)}:1") for n in range(1, 41)]
        with open(path, "w", encoding="utf-8") as file:
            file.writelines(page([*lines, ENDED], "lanes", []))
        self.shown.open(path)
        heads = self.shown.value("[...document.querySelectorAll('.lane')].map(it => it.textContent)")
        self.assertRegex(heads[0], r"\A2\d hosts\Z")
        self.assertRegex(heads[-1], r"\A2\d addresses\Z")
        self.assertIn("10.0.0.30", heads)
        self.assertIn("10.0.1.30:1", heads)


class Derived(unittest.TestCase):
    """What a page has that the lines don't say."""

    def made(self, *lines):
        return "".join(page([*lines, ENDED], "made", []))

    def test_lanes(self):
        """A relay stands behind those that call it, and before those that it calls; a host that calls itself is on the left."""
        self.assertEqual(lanes_of([("10.0.0.2:6", "10.0.0.3:1"), ("10.0.0.1:5", "10.0.0.2:1")]), [
            ("10.0.0.1", False), ("10.0.0.2:1", True), ("10.0.0.2", False), ("10.0.0.3:1", True)])
        self.assertEqual(lanes_of([("::1:5", "::1:1")]), [("::1", False), ("::1:1", True)])
        ring = lanes_of([("10.0.0.1:5", "10.0.0.2:1"), ("10.0.0.2:5", "10.0.0.1:1")])
        self.assertEqual(sorted(ring), [("10.0.0.1", False), ("10.0.0.1:1", True), ("10.0.0.2", False), ("10.0.0.2:1", True)])

    def test_located(self):
        """A LocateRequest that is led on goes on in the next request for that key there, of that host, and no other."""
        to = {"tag": 0, "octets": None, "minor": 2, "host": "127.0.0.1", "port": 3, "key": "6b", "object": "A", "components": []}
        answer = {"kind": "LocateReply", "direction": "acceptor", "request": 1, "status": "OBJECT_FORWARD", "reply": None,
                  "target": None, "operation": None, "forward": {"valid": True, "type_id": "", "profiles": [to]}}
        there = {"connection": 2, "acceptor": "127.0.0.1:3"}
        made = self.made(asked(1, kind="LocateRequest", operation=None), asked(2, **answer),
                         asked(3, **there, target={"key": "6c", "text": "l"}),
                         asked(4, connection=3, acceptor="127.0.0.1:3", opener="10.0.0.1:1"),
                         asked(5, connection=4, acceptor="127.0.0.1:4"), asked(6, **there), asked(7, **there))
        self.assertEqual(json.loads(block_in(made, "data"))["columns"]["next"], [0, 6, 0, 0, 0, 0, 0])

    def test_order(self):
        """Messages that come late, as with `--unanswered`, stand in the order of their numbers."""
        made = self.made(asked(7, operation="last"), asked(3, operation="first"))
        self.assertEqual(numbers_in(made), [3, 7])
        self.assertEqual([one["id"] for one in json.loads(block_in(made, "part0"))], [3, 7])

    def test_octets(self):
        """A page has 64 KiB of a body, and 16 MiB in all."""
        body = "00" * 70_000
        lines = [asked(n, octets=70_000, body=body) for n in range(300)]
        sizes = [len(one["body"]) // 2 for one in json.loads(block_in(self.made(*lines), "part0"))]
        self.assertEqual(sizes, [1 << 16] * 256 + [0] * 44)

    def test_left(self):
        """Of messages that are left out it is told which options bring how many of them, but for those that were given."""
        lines = [*(asked(n) for n in range(1, 5)), *(asked(n, operation="get") for n in range(5, 9)), ENDED]
        for words, ways in (([], [["giop-capture --operation get", 3], ["giop-capture --operation add", 1]]),
                            (["--operation", "x"], [])):
            made = "".join(page([*lines[:3], *lines[4:], lines[3], ENDED], "made", words, 4))
            self.assertEqual(json.loads(block_in(made, "data"))["left"], {"count": 4, "after": 5, "ways": ways})
        # (a page of 2 messages of this operation has none that is left out here)
        made = "".join(page([*lines[:4], ENDED], "made", [], 2))
        self.assertEqual(json.loads(block_in(made, "data"))["left"], {"count": 2, "after": 2, "ways": []})

    def test_values(self):
        """Values stand as `giop trace --types` prints them (docs/CLI.md), with all digits of numbers."""
        values = {"n": -(2 ** 63), "b": True, "s": "a", "l": [1, {"m": 2}], "u": {"case": 1, "member": "x", "value": 2},
                  "v": {"case": 3}}
        line = asked(1, values=values).replace('"n":', '"f": 1e+20, "g": 0.10, "n":')
        made = json.loads(block_in(self.made(line), "data"))
        self.assertIn('(f = 1e+20, g = 0.10, n = -9223372036854775808, b = true, s = "a", l = [1, {m = 2}], u = {1: x = 2}, '
                      "v = {3})", made["texts"])


MANY, TURNS = 100_000, 6_667


def lines_of(path, turns):
    """The lines of a recording, so many times one after another."""
    with open(path, encoding="utf-8") as file:
        first = [json.loads(line) for line in file]
    messages = sum(one["line"] == "message" for one in first)
    lasts = max(one.get("since", 0) for one in first) + 5_000_000
    for turn in range(turns):
        for one in first[1:-1]:
            it = {**one, "connection": one["connection"] + turn * first[-1]["connections"]}
            if one["line"] == "message":
                it.update({name: one[name] and one[name] + turn * messages for name in ("number", "request", "repeats")})
                it["since"] += turn * lasts
            yield json.dumps(it)
    counts = {name: turns * first[-1][name] for name in ("messages", "connections")}
    lists = {name: [one + turn * messages for turn in range(turns) for one in first[-1][name]]
             for name in ("unanswered", "cancelled")}
    yield json.dumps({"line": "end", **counts, **lists})


@programs.needs("tshark", NAME)
class Many(Shown):
    """A recording of 100,005 messages."""

    def test_many(self):
        """Rows are made as they come into view, and what is left out is told, with the words that bring it."""
        lines, path = os.path.join(self.folder, "lines"), os.path.join(self.folder, "many.html")
        text_of_packets = base.ran(self.script, os.path.join(programs.ROOT, EXAMPLE), "--yaml").stdout
        run = base.ran(programs.program("GIOP"), "trace", "--json", "--bodies", given=text_of_packets)
        with open(lines, "wb") as file:
            file.write(run.stdout)
        with open(path, "w", encoding="utf-8") as file:
            file.writelines(page(lines_of(lines, TURNS), "many", ["my file", "--page", "many.html"]))
        self.shown.open(path)
        self.assertEqual(self.shown.value(text_of("#shown")), "100,000 messages")
        self.assertEqual(self.shown.value("performance.getEntriesByName('rows').length"), 1)
        for script, number in (("0", 1), ("document.documentElement.scrollHeight", MANY)):
            self.shown.value(f"scrollTo(0, {script})")
            self.shown.settle()
            self.assertLess(self.shown.value("document.querySelectorAll('#rows tr').length"), 150)
            self.assertIn(number, self.shown.value(NUMBERS))
        self.assertEqual(self.shown.value(text_of("#left")), "5 messages behind message 100,000 are left out here; the table "
                         "counts all. An option of giop-capture brings them:")
        ways = self.shown.value("[...document.querySelectorAll('#ways li')].map(it => it.textContent)")
        # (the last turn has 10 messages on the page: 11 answers message 10, a deposit, 12 and 13 are of audit, 14 of balance)
        made = "giop-capture 'my file' --page many.html "
        self.assertEqual(ways, [made + "--operation audit 2 of them", made + "--operation deposit 1 of them",
                                made + "--operation balance 1 of them", made + "--faults 1 of them",
                                made + "--unanswered 1 of them"])
        self.filter("unanswered")
        self.assertEqual(self.shown.value(text_of("#shown")), "13,333 of 100,000 messages")
        self.shown.value("location.hash = '#m50005'")
        self.shown.settle()
        self.assertEqual(self.shown.value(text_of("#details-head")), "50005 Request deposit")
        self.assertIn(50005, self.shown.value(NUMBERS))


@programs.needs("tshark")
class Words(unittest.TestCase):
    """What `--page` is given."""

    def setUp(self):
        folder = tempfile.TemporaryDirectory()
        self.addCleanup(folder.cleanup)
        self.path = os.path.join(folder.name, "page.html")
        self.script = folder_of_programs(folder.name)

    def run_of(self, *words):
        return base.ran(self.script, *words, "--page", self.path)

    def test_refused(self):
        """It goes with a file, and makes no page of one that can't be read."""
        recording = os.path.join(programs.ROOT, EXAMPLE)
        for words, status in ((["-i", "lo"], 2), ([recording, "--call", "5"], 2), ([recording, "--summary"], 2),
                              (["none.pcap"], 1), ([recording, "--types", "none.types"], 2)):
            run = self.run_of(*words)
            self.assertEqual((run.returncode, run.stdout, os.path.exists(self.path)), (status, b"", False), words)
        self.path = os.path.dirname(self.path)
        run = self.run_of(recording)
        self.assertEqual((run.returncode, run.stderr), (1, f"giop-capture: {self.path}: Is a directory\n".encode()))

    def test_options(self):
        """The options of `giop trace` choose what the page has."""
        for words, numbers in ((["--operation", "audit"], [12, 13]), (["--slower", "1000"], [8, 9])):
            self.assertEqual(self.run_of(os.path.join(programs.ROOT, EXAMPLE), *words).returncode, 0)
            with open(self.path, encoding="utf-8") as file:
                self.assertEqual(numbers_in(file.read()), numbers)


if __name__ == "__main__":
    unittest.main()
