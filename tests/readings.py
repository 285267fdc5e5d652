"""Makes the calls that the rows of tests/readings ask for, and compares what they give.

The programs are `value_player`, which has the calls of OF_VALUES, and `reference_player`, which has the others. Each is
run once, on all rows.

A row is a call, what it takes, and after ' = ' the line that its program prints for it; or what is said of a value,
a reference or a profile, for which several calls are made. It stands below what it is about, up to an empty
line:

    # TEXT                      a comment on what follows
    name NAME TYPE              NAME stands for this type in the lines below it, up to the end of the file
    type TYPE, ..               the types of the rows below
    value VALUE, ..             the values
    reference OCTETS            a reference with this type; 'has' lines follow, a profile each
    profile MINOR OCTETS PORT OCTETS
                                a profile of IIOP: its minor version, its host, its port and its key; 'has' lines
                                follow, a component each
    has TAG DIGITS              a tag with its octets
    message DIGITS              a message

A line that begins with a space goes on with the one before it.

Types and values are written as tests/idl.py says. OCTETS are "TEXT" or hexadecimal digits. DIGITS are hexadecimal
digits with spaces anywhere, which may be none. ORDER is `big` or `little`, and AT the place of the first octet. TEXT is
the text of a reference, as it is or in quotes; spaces in it are left out.

    spells ORDER AT DIGITS      the octets are read as the value, which fits the type, and are written for it and for
                                its copy
    spells_list ORDER AT DIGITS the same of a list of values
    reads ORDER AT DIGITS = N   the first N of the octets are read as the value, which fits the type
    writes ORDER AT DIGITS      they are written for the value and for its copy
    own TYPE = VALUE            the value can be written, and fits this type and none of the block's other 'own' lines
    prints TEXT                 the text is printed for the reference, and parsed as it
    parses TEXT                 it is parsed as it
    stands ORDER AT DIGITS      the octets are written for the reference, and read as it, whatever stands after them
    encodes DIGITS              they are written for the profile and read as it, and the key is found in them
    decodes DIGITS              they are read as it, and the key is found in them
    refuses DIGITS = LINE       they are no profile, for that reason, and no key is found in them

The calls are in CALLS, with what each takes. In a LINE, "TEXT" and x"DIGITS" stand for the list of the octets.
"""
import ast
import os
import re
import unittest
from collections import namedtuple

from tests import base, idl, programs
from tests.idl import digits_of

READINGS = os.path.join(programs.HERE, "readings")
# the calls of `value_player`
OF_VALUES = {
    "read", "read_list", "write", "write_copy", "write_list", "is_valid", "are_valid", "fits", "writable",
    "are_writable", "has_no_nul",
}
# what a call takes: from the lines above it `type`, `reference`, `profile` and `message`, the others from its own
CALLS = {
    "read": "type place digits",
    "read_list": "type place digits",
    "body": "type place digits",
    "arguments": "type message",
    "is_valid": "types",
    "are_valid": "types",
    "fits": "type values",
    "writable": "values",
    "are_writable": "values",
    "has_no_nul": "digits",
    "read_ior": "place digits",
    "is_writable_ior": "reference",
    "parse_text": "text",
    "parse_location": "octets",
    "reference_of": "octets",
    "object_key": "word reference",
    "is_writable_iiop": "profile",
    "profile_key": "word digits",
    "read_tagged": "place digits",
    "target": "message",
    "profiles": "word message",
}


def octets_of(word):
    """The octets of a word, which is a text in quotes or digits."""
    return idl.octets_of(word) if word.startswith('"') else bytes.fromhex(word)


def text_of(text):
    """The text of a reference."""
    return (ast.literal_eval(text) if text.startswith('"') else idl.written_out(text)).replace(" ", "")


def tagged_words(tagged):
    """Tags with their octets, as the program takes them."""
    return "/".join(f"{tag}:{digits}" for tag, digits in tagged)


def tagged_printed(tagged):
    """Tags with their octets, as `{:?}` prints them."""
    items = (f"Tagged {{ tag: {tag}, octets: {list(bytes.fromhex(digits))} }}" for tag, digits in tagged)
    return f"[{', '.join(items)}]"


class Block:
    """What the rows up to an empty line are about."""

    def __init__(self):
        self.type = self.value = self.reference_type = self.profile_head = self.message_digits = None
        self.tagged = []
        self.own = []

    def reference(self):
        """The reference as the program takes it."""
        return f"{self.reference_type.hex()} {tagged_words(self.tagged)}"

    def reference_printed(self):
        """The reference as `{:?}` prints it."""
        return f"Ior {{ type_id: {list(self.reference_type)}, profiles: {tagged_printed(self.tagged)} }}"

    def profile(self):
        """The profile as the program takes it."""
        minor, host, port, key = self.profile_head
        return f"{minor} {host.hex()} {port} {key.hex()} {tagged_words(self.tagged)}"

    def profile_printed(self):
        """The profile as `{:?}` prints it."""
        minor, host, port, key = self.profile_head
        return (f"IiopProfile {{ minor: {minor}, host: {list(host)}, port: {port}, object_key: {list(key)}, "
                f"components: {tagged_printed(self.tagged)} }}")

    def message(self):
        """The message as the program takes it."""
        return self.message_digits

    def key_printed(self):
        """The key of the profile as `{:?}` prints what was found."""
        return f"Some({list(self.profile_head[3])})"


def placed(rest):
    """The order, the place and the digits of a row."""
    order, at, digits = (rest + "  ").split(" ", 2)
    return order, at, digits_of(digits)


def taken(block, rest):
    """The calls by which so many of the octets are read as a value."""
    before, _, used = rest.rpartition(" = ")
    order, at, digits = placed(before)
    ty = idl.types(block.type)
    yield f"read {ty} {order} {at} {digits}", f"({idl.printed(block.value)}, {used})"
    yield f"fits {ty} {idl.values(block.value)}", "true"


def spelled(block, rest):
    """The calls by which octets spell a value."""
    _, _, digits = placed(rest)
    yield from taken(block, f"{rest} = {len(digits) // 2}")
    yield from written(block, rest)


def written(block, rest):
    """The calls by which octets are written for a value and for its copy."""
    order, at, digits = placed(rest)
    wanted = f"{idl.printed(block.value)} 07{digits} Some({int(at) + len(digits) // 2})"
    for call in ("write", "write_copy"):
        yield f"{call} {order} {at} {idl.values(block.value)}", wanted


def spelled_list(block, rest):
    """The calls by which octets spell values."""
    order, at, digits = placed(rest)
    values, count = idl.printed(block.value), len(digits) // 2
    yield f"read_list {idl.types(block.type)} {order} {at} {digits}", f"([{values}], {count})"
    yield f"write_list {order} {at} {idl.values(block.value)}", f"[{values}] 07{digits} Some({int(at) + count})"


def owned(block, rest):
    """The calls by which the value of a line fits the type of each line so far, and the other way round."""
    ty, _, value = rest.partition(" = ")
    block.own.append((idl.types(ty), idl.values(value)))
    last = len(block.own) - 1
    yield f"writable {block.own[last][1]}", "true"
    for one, (ty, value) in enumerate(block.own):
        yield f"fits {ty} {block.own[last][1]}", "true" if one == last else "false"
        if one != last:
            yield f"fits {block.own[last][0]} {value}", "false"


def texts(block, rest):
    """The calls by which a text is printed for a reference, and parsed as it."""
    yield f"print_text {block.reference()}", text_of(rest)
    yield from parsed(block, rest)


def parsed(block, rest):
    """The call by which a text is parsed as a reference."""
    yield f"parse_text {text_of(rest)}", block.reference_printed()


def standing(block, rest):
    """The calls by which octets are written for a reference, and read as it with up to two octets after them."""
    order, at, digits = placed(rest)
    yield f"write_ior {order} {at} {block.reference()}", "07" + digits
    for after in ("", "ff", "ffff"):
        yield f"read_ior {order} {at} {digits}{after}", f"({block.reference_printed()}, {len(digits) // 2})"


def encoded(block, rest):
    """The calls by which octets are written for a profile, and read as it."""
    yield f"write_iiop {block.profile()}", "07" + digits_of(rest)
    yield from decoded(block, rest)


def decoded(block, rest):
    """The calls by which octets are read as a profile, and the key is found in them."""
    yield f"read_iiop {digits_of(rest)}", block.profile_printed()
    yield f"iiop_key {digits_of(rest)}", block.key_printed()


def refused(_block, rest):
    """The calls by which octets are no profile."""
    digits, _, line = rest.rpartition("= ")
    yield f"read_iiop {digits_of(digits)}", line
    yield f"iiop_key {digits_of(digits)}", "None"


SAID = {
    "spells": spelled,
    "reads": taken,
    "spells_list": spelled_list,
    "writes": written,
    "own": owned,
    "prints": texts,
    "parses": parsed,
    "stands": standing,
    "encodes": encoded,
    "decodes": decoded,
    "refuses": refused,
}


def argument(block, kind, rest):
    """What a call takes of that kind, and what is left of its row."""
    word, _, after = rest.partition(" ")
    if kind == "type":
        return idl.types(block.type), rest
    if kind in ("reference", "profile", "message"):
        return getattr(block, kind)(), rest
    if kind == "place":
        at, _, after = after.partition(" ")
        return f"{word} {at}", after
    if kind == "word":
        return word, after
    whole = {"types": idl.types, "values": idl.values, "text": text_of, "digits": digits_of,
             "octets": lambda octets: octets_of(octets).hex()}[kind]
    return whole(rest), ""


def called(block, call, rest):
    """The call of a row, and the line that is printed for it."""
    rest, _, line = (" " + rest).rpartition(" = ")
    words, rest = [call], rest.strip()
    for kind in CALLS[call].split():
        word, rest = argument(block, kind, rest)
        words.append(word)
    yield " ".join(words), idl.printed(line)


def take_about(block, word, rest):
    """Takes a line that says what rows are about, and answers whether it was one."""
    if word in ("type", "value"):
        setattr(block, word, rest)
    elif word == "message":
        block.message_digits = digits_of(rest)
    elif word == "reference":
        block.reference_type = octets_of(rest)
    elif word == "profile":
        minor, host, port, key = rest.split(" ")
        block.profile_head = int(minor), octets_of(host), int(port), octets_of(key)
    elif word == "has":
        tag, _, digits = rest.partition(" ")
        block.tagged.append((int(tag, 0), digits_of(digits)))
    else:
        return False
    return True


def lines_of(name):
    """The lines of a file, each with those that go on with it: where it stands, and its text."""
    place = text = None
    with open(os.path.join(READINGS, name), encoding="ascii") as lines:
        for number, line in enumerate(lines, 1):
            if line.startswith(" ") and text is not None:
                text += " " + line.strip()
                continue
            if text is not None:
                yield place, text
            place, text = f"{name}:{number}", line.strip()
    if text is not None:
        yield place, text


def calls_of(place, block, word, rest):
    """The calls of a row, and the lines that are printed for them."""
    if word not in SAID and word not in CALLS:
        raise ValueError(f"{place}: no line begins with {word!r}")
    try:
        return list(SAID[word](block, rest) if word in SAID else called(block, word, rest))
    except (AttributeError, TypeError, ValueError) as error:
        raise ValueError(f"{place}: not a row, or what it is about does not stand above it: {error}") from error


def rows_of(name):
    """The calls of a file: where each stands, the line that asks for it, and the line that is printed for it."""
    names, block = {}, Block()
    for place, line in lines_of(name):
        word, _, rest = line.partition(" ")
        rest = re.sub(r"\b[A-Z_]+\b", lambda found: names.get(found.group(), found.group()), rest)
        if word == "name":
            names.update([rest.split(" ", 1)])
        elif word == "":
            block = Block()
        elif word != "#" and not take_about(block, word, rest):
            yield from ((place, given, wanted) for given, wanted in calls_of(place, block, word, rest))


def program_of(call):
    """The program that has a call: that of values, or that of references."""
    return "VALUE_PLAYER" if call.split(" ")[0] in OF_VALUES else "REFERENCE_PLAYER"


def files():
    """The files of rows."""
    return sorted(os.listdir(READINGS))


# a call: the line that asks for it, and the line that is printed for it
Call = namedtuple("Call", "line wanted")


def calls_in(name):
    """The calls of a file: where each stands, with its name, and it."""
    return [(f"{place} {line.split(' ')[0]}", Call(line, wanted)) for place, line, wanted in rows_of(name)]


class Readings(unittest.TestCase):
    """The rows of each file."""

    @classmethod
    def setUpClass(cls):
        asked = {"VALUE_PLAYER": [], "REFERENCE_PLAYER": []}
        for name in files():
            for _, call in calls_in(name):
                asked[program_of(call.line)].append(call.line)
        cls.asked, cls.printed, cls.runs = asked, {}, {}
        for program, lines in asked.items():
            run = base.ran(programs.program(program), given="".join(line + "\n" for line in lines).encode())
            cls.runs[program] = run
            cls.printed.update(zip(lines, run.stdout.decode().split("\n")[:-1]))

    def gives(self, call):
        """The program prints for a call what is wanted."""
        self.assertIn(call.line, self.printed, "nothing was printed for it")
        self.assertEqual(self.printed[call.line], call.wanted, call.line)

    def test_the_runs(self):
        """Each program ends well, and prints a line for each row."""
        for program, run in self.runs.items():
            with self.subTest(program):
                self.assertEqual((run.returncode, run.stderr), (0, b""))
                self.assertEqual(run.stdout.count(b"\n"), len(self.asked[program]))


def of_file(file):
    """The test of the rows of a file."""

    @base.each(lambda: calls_in(file))
    def test(self, call):
        self.gives(call)
    test.__doc__ = f"The rows of tests/readings/{file}."
    return test


for file_name in files():
    setattr(Readings, f"test_{os.path.splitext(file_name)[0]}", of_file(file_name))
