"""Values of IDL types, references and profiles as octets, written out from the rules of the representation,
in both byte orders.

Each spelling begins at a place that is a multiple of 8. Types are written as idl.py says; values are as `{:?}`
prints them.
"""
from collections import namedtuple

# the type, or what else is spelled; its octets in the order `big` and in the order `little`, and what is read
Spelling = namedtuple("Spelling", "type big little value")

# the member at 1, at 2, and at any other number
CHOICE = "union switch (short) { case 1: string; case 2: octets; default: sequence<unsigned long>; }"

VALUES = [
    Spelling("string",
             "00000006 616263646500",
             "06000000 616263646500",
             "Str([97, 98, 99, 100, 101])"),
    Spelling("octets",
             "00000005 0102030405",
             "05000000 0102030405",
             "Octets([1, 2, 3, 4, 5])"),
    Spelling("sequence<unsigned long>",
             "00000003 00000001 00000002 00000102",
             "03000000 01000000 02000000 02010000",
             "Seq([ULong(1), ULong(2), ULong(258)])"),
    # (after the first string stand an octet, which has no padding, and a number, which needs none there)
    Spelling("sequence<struct { octet; unsigned long; string; }>",
             "00000002 07000000 00000100 00000003 616200 08 00000101 00000002 6300",
             "02000000 07000000 00010000 03000000 616200 08 01010000 02000000 6300",
             "Seq([Struct([Octet(7), ULong(256), Str([97, 98])]), Struct([Octet(8), ULong(257), Str([99])])])"),
    Spelling("string[3]",
             "00000002 61000000 00000001 00000000 00000004 62636400",
             "02000000 61000000 01000000 00000000 04000000 62636400",
             "Array([Str([97]), Str([]), Str([98, 99, 100])])"),
    Spelling(CHOICE,
             "00010000 00000003 616200",
             "01000000 03000000 616200",
             "Union(Short(1), Some(Str([97, 98])))"),
    Spelling(CHOICE,
             "00020000 00000003 070809",
             "02000000 03000000 070809",
             "Union(Short(2), Some(Octets([7, 8, 9])))"),
    Spelling(CHOICE,
             "fffe0000 00000002 00000001 00000002",
             "feff0000 02000000 01000000 02000000",
             "Union(Short(-2), Some(Seq([ULong(1), ULong(2)])))"),
    Spelling("struct { string; octets; sequence<octet>; }",
             "00000003 61620000 00000003 07080900 00000002 0a0b",
             "03000000 61620000 03000000 07080900 02000000 0a0b",
             "Struct([Str([97, 98]), Octets([7, 8, 9]), Seq([Octet(10), Octet(11)])])"),
    # (a long long begins at a multiple of 8: the first does after the two counts, the second after a gap)
    Spelling("sequence<sequence<long long>>",
             "00000002 00000001 0000000000000005 00000002 00000000 0000000000000006 fffffffffffffffe",
             "02000000 01000000 0500000000000000 02000000 00000000 0600000000000000 feffffffffffffff",
             "Seq([Seq([LongLong(5)]), Seq([LongLong(6), LongLong(-2)])])"),
    Spelling("string<4>",
             "00000005 6162636400",
             "05000000 6162636400",
             "Str([97, 98, 99, 100])"),
    Spelling("sequence<unsigned long, 4>",
             "00000002 00000001 00000002",
             "02000000 01000000 02000000",
             "Seq([ULong(1), ULong(2)])"),
]

# octets that stand before a value in a list; after them no gap is needed
BEFORE = Spelling("octets", "00000004 eeeeeeee", "04000000 eeeeeeee", "Octets([238, 238, 238, 238])")

# a type id, and two profiles of three and two octets
REFERENCES = [
    Spelling("reference",
             "00000003 61620000 00000002 00000005 00000003 01020300 00000001 00000002 0405",
             "03000000 61620000 02000000 05000000 03000000 01020300 01000000 02000000 0405",
             "Ior { type_id: [97, 98], profiles: [Tagged { tag: 5, octets: [1, 2, 3] }, "
             "Tagged { tag: 1, octets: [4, 5] }] }"),
]

# the byte order, the version, the host "host", the port 2000, the key "key", and two components
PROFILES = [
    Spelling("profile",
             "00010200 00000005 686f737400 00 07d0 00000003 6b657900 00000002 00000001 00000002 07080000"
             " 00000006 00000001 09",
             "01010200 05000000 686f737400 00 d007 03000000 6b657900 02000000 01000000 02000000 07080000"
             " 06000000 01000000 09",
             "IiopProfile { minor: 2, host: [104, 111, 115, 116], port: 2000, object_key: [107, 101, 121], "
             "components: [Tagged { tag: 1, octets: [7, 8] }, Tagged { tag: 6, octets: [9] }] }"),
]
