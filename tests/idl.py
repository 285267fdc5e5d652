"""Types and values as they stand in the rows of readings/, and the words by which the players are given them.

A type is written as in IDL: boolean, char, octet, short, unsigned short, long, unsigned long, long long,
unsigned long long; string<N>, octets<N> and sequence<T, N>, whose bound N is left out where there is none;
T[N]; enum<N>, of N names; struct { T; T; }; union switch (T) { case N: T; default: T; }. `octets` is the form of
its own that the libraries have for a sequence of octets.

A value is written as `{:?}` prints it, where "TEXT" stands for the list of a text's octets, and x"DIGITS" for
the list of octets that hexadecimal digits give. 2a*960 in digits stands for 960 times 2a.

The words are those of crates/trials/src/types.rt and crates/value_player/src/values.rt: what has parts comes after
them.
"""
import ast
import re

# the bound of what has none
UNBOUNDED = 0xffffffff
NUMBERS = {
    "boolean": "boolean",
    "char": "char",
    "octet": "octet",
    "short": "short",
    "unsigned short": "ushort",
    "long": "long",
    "unsigned long": "ulong",
    "long long": "longlong",
    "unsigned long long": "ulonglong",
}
# the variants of a value that hold a number, octets, or other values
HOLD_NUMBER = ("Boolean", "Char", "Octet", "Short", "UShort", "Long", "ULong", "LongLong", "ULongLong", "Enum")
HOLD_OCTETS = {"Str": "string", "Octets": "octets"}
HOLD_VALUES = {"Seq": "sequence", "Array": "array", "Struct": "struct"}
QUOTED = re.compile(r'x?"(?:[^"\\]|\\.)*"')
TIMES = re.compile(r"(\w+)\*(\d+)")
TOKEN = re.compile(r'\s*(x?"(?:[^"\\]|\\.)*"|-?\w+|[^\s\w])')


class Tokens:
    """The tokens of a text, taken one after another."""

    def __init__(self, text):
        self.text = text
        self.left = TOKEN.findall(text)

    def next(self):
        """The next token, or none."""
        return self.left[0] if self.left else ""

    def refuse(self):
        """Ends in an error, which names what is left."""
        raise ValueError(f"not a type or a value: {self.text!r}, at {' '.join(self.left)!r}")

    def take(self, *wanted):
        """Takes the next token, which is one of those, if any are given."""
        if not self.left or wanted and self.left[0] not in wanted:
            self.refuse()
        return self.left.pop(0)

    def takes(self, token):
        """Takes the next token if it is that, and answers whether it was."""
        if self.next() != token:
            return False
        self.left.pop(0)
        return True


def written_out(text):
    """A text in which 2a*960 is 960 times 2a."""
    return TIMES.sub(lambda found: found.group(1) * int(found.group(2)), text)


def digits_of(text):
    """The hexadecimal digits in a text, without its spaces."""
    return bytes.fromhex(written_out(text)).hex()


def octets_of(token):
    """The octets that a quoted token stands for."""
    if token.startswith("x"):
        return bytes.fromhex(digits_of(token[2:-1]))
    return ast.literal_eval(token).encode("latin-1")


def printed(text):
    """A text in which each quoted token is the list of its octets, as `{:?}` prints one."""
    return QUOTED.sub(lambda found: str(list(octets_of(found.group()))), text)


def bound_in(tokens):
    """What stands between angle brackets as a bound, if anything does."""
    if not tokens.takes("<"):
        return UNBOUNDED
    bound = int(tokens.take())
    tokens.take(">")
    return bound


def members_in(tokens):
    """The words of the members of a struct."""
    words, count = [], 0
    tokens.take("{")
    while not tokens.takes("}"):
        words += type_in(tokens)
        count += 1
        tokens.take(";")
    return words + [f"struct:{count}"]


def union_in(tokens):
    """The words of a union."""
    tokens.take("switch")
    tokens.take("(")
    words, count, default = type_in(tokens), 0, None
    tokens.take(")")
    tokens.take("{")
    while not tokens.takes("}"):
        label = int(tokens.take()) if tokens.take("case", "default") == "case" else None
        tokens.take(":")
        member = type_in(tokens)
        tokens.take(";")
        if label is None:
            default = member
        else:
            words += member + [f"case:{label}"]
            count += 1
    return words + [f"union:{count}"] if default is None else words + default + [f"default:{count}"]


def sequence_in(tokens):
    """The words of a sequence."""
    tokens.take("<")
    words = type_in(tokens)
    bound = int(tokens.take()) if tokens.takes(",") else UNBOUNDED
    tokens.take(">")
    return words + [f"sequence:{bound}"]


def number_in(tokens, name):
    """The word of a type without parts whose name begins so."""
    while f"{name} {tokens.next()}" in NUMBERS or (name, tokens.next()) == ("unsigned", "long"):
        name += " " + tokens.take()
    if name not in NUMBERS:
        tokens.refuse()
    return NUMBERS[name]


def plain_in(tokens):
    """The words of a type that is no array."""
    name = tokens.take()
    if name in ("string", "octets", "enum"):
        return [f"{name}:{bound_in(tokens)}"]
    if name == "sequence":
        return sequence_in(tokens)
    if name == "struct":
        return members_in(tokens)
    if name == "union":
        return union_in(tokens)
    return [number_in(tokens, name)]


def type_in(tokens):
    """The words of a type."""
    words = plain_in(tokens)
    while tokens.takes("["):
        words.append(f"array:{int(tokens.take())}")
        tokens.take("]")
    return words


def listed(text, part_in):
    """The word of what stands in a text, with commas between."""
    tokens = Tokens(text)
    words = part_in(tokens) if tokens.left else ["-"]
    while tokens.takes(","):
        words += part_in(tokens)
    if tokens.left:
        tokens.refuse()
    return ",".join(words)


def list_in(tokens, close):
    """The words of the values up to a closing bracket, and their number."""
    words, count = [], 0
    while not tokens.takes(close):
        words += value_in(tokens)
        count += 1
        tokens.takes(",")
    return words, count


def member_in(tokens):
    """The words of the member of a union, or none."""
    tokens.take(",")
    if tokens.takes("None"):
        return []
    tokens.take("Some")
    tokens.take("(")
    words = value_in(tokens)
    tokens.take(")")
    return words


def value_in(tokens):
    """The words of a value."""
    name = tokens.take()
    tokens.take("(")
    if name in HOLD_NUMBER:
        number = tokens.take()
        words = [f"{name.lower()}:{ {'false': 0, 'true': 1}.get(number, number) }"]
    elif name in HOLD_OCTETS:
        words = [f"{HOLD_OCTETS[name]}:{octets_of(tokens.take()).hex()}"]
    elif name in HOLD_VALUES:
        tokens.take("[")
        words, count = list_in(tokens, "]")
        words.append(f"{HOLD_VALUES[name]}:{count}")
    elif name == "Union":
        words = value_in(tokens)
        member = member_in(tokens)
        words += member + [f"union:{1 if member else 0}"]
    else:
        tokens.refuse()
    tokens.take(")")
    return words


def types(text):
    """The word of types, with commas between them."""
    return listed(text, type_in)


def values(text):
    """The word of values, with commas between them."""
    return listed(text, value_in)
