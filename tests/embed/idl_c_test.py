"""Tests what omniidl makes of IDL in C by the backend of idl/lemonrudder, against omniORB.

Values of random types go through a servant and a stub in C, before and behind omniORB; the bank of examples/idl/bank.c
is served and called; and all of it is compiled by two compilers, with sanitizers, and run under valgrind.
"""
from __future__ import annotations

import asyncio
import functools
import os
import unittest
from collections.abc import Iterable
from typing import Any

from tests import base
from tests.embed import idl_test
from tests.embed import idl_roads
from tests.embed.idl_test import (
    COMBAT, DEPOSITS, EMBED, EXAMPLES, FOLDER, OF_COMBAT, SHAPES, backend, compiled, dialogue, exchanged, made, omniidl,
    omniorb_program, run, serving)
from tests.programs import ROOT, needs, tool

TYPES = idl_test.TYPES
BANK = (os.path.join(EXAMPLES, "idl", "bank.c"), os.path.join(EXAMPLES, "bank.idl"))
# the allocations that are refused, one after another; a call makes fewer
MOST_REFUSED = 140
# how programs in C are compiled and run: the compiler, its flags, and the words before the program
WAYS = {
    "gcc": ("gcc", ["-O2"], []), "clang": ("clang", ["-O2"], []),
    "gcc, sanitized": ("gcc", ["-g", "-fsanitize=address,undefined", "-fno-sanitize-recover=all"], []),
    "gcc, watched": ("gcc", ["-g"], ["valgrind", "-q", "--error-exitcode=9", "--leak-check=full"]),
}

ECHO = """
/* The same by what is made of {interface} in C. */
#define _DEFAULT_SOURCE
#include <stdio.h>
#include <unistd.h>
#include "{base}_idl.h"
#include "loop.h"

static lr_idl_offer offer;
static char own[1024];

static int64_t failed(const lr_idl_call *call) {{
  return lr_server_system(call->server, call->ticket, LR_EX_UNKNOWN, 0, LR_COMPLETED_MAYBE);
}}

#define OPERATION(NAME) {interface}_##NAME
#define HEAD(NAME) static int64_t NAME(void *self, const lr_idl_call *call
#define CALLER lr_idl_caller caller = LR_IDL_CALLER; (void)self; \
  int64_t done = lr_idl_caller_of(&caller, reference)
#define OBJECT lr_idl_object_of(&caller)
#define OF(W, X) \
  HEAD(echo_##W), const W *one) {{ (void)self; return OPERATION(echo_##W##__answer(call, one)); }} \
  HEAD(turn_##W), const W *one) {{ (void)self; return OPERATION(turn_##W##__answer(call, one, one)); }} \
  HEAD(fail_##W), const W *one) {{ X raised = {{*one}}; (void)self; return X##__raise(call, &raised); }} \
  HEAD(echo_by_##W), const char *reference, const W *one) {{ \
    W result; CALLER; \
    if (done == LR_OK) done = OPERATION(echo_##W(OBJECT, one, &result, NULL)); \
    bool is_well = done == LR_OK; \
    done = is_well ? OPERATION(echo_by_##W##__answer(call, &result)) : failed(call); \
    if (is_well) W##__free(&result); \
    lr_idl_caller_close(&caller); \
    return done; \
  }} \
  HEAD(turn_by_##W), const char *reference, const W *one) {{ \
    W both, two; CALLER; \
    if (done == LR_OK) done = W##__copy(one, &both); \
    if (done == LR_OK) done = OPERATION(turn_##W(OBJECT, &both, &two, NULL)); \
    bool is_well = done == LR_OK; \
    done = is_well ? OPERATION(turn_by_##W##__answer(call, &both, &two)) : failed(call); \
    if (is_well) W##__free(&both), W##__free(&two); \
    lr_idl_caller_close(&caller); \
    return done; \
  }} \
  HEAD(fail_by_##W), const char *reference, const W *one) {{ \
    lr_idl_raised raised = LR_IDL_RAISED; CALLER; \
    if (done == LR_OK) done = OPERATION(fail_##W(OBJECT, one, &raised)); \
    const X *found = X##__of(&raised); \
    done = done == LR_ENDED_RAISED && found != NULL ? OPERATION(fail_by_##W##__answer(call, &found->held)) \
                                                    : failed(call); \
    lr_idl_raised_free(&raised); \
    lr_idl_caller_close(&caller); \
    return done; \
  }}
{lines}
#undef OF

HEAD(self)) {{
  lr_idl_reference reference;
  (void)self;
  if (lr_idl_reference__parse(&reference, own) < 0) return failed(call);
  int64_t done = OPERATION(self__answer(call, &reference));
  lr_idl_reference__free(&reference);
  return done;
}}

HEAD(other), const lr_idl_reference *one) {{ (void)self; return OPERATION(other__answer(call, one)); }}

#define OF(W, X) .echo_##W = echo_##W, .turn_##W = turn_##W, .fail_##W = fail_##W, .echo_by_##W = echo_by_##W, \
  .turn_by_##W = turn_by_##W, .fail_by_##W = fail_by_##W,
static const POA_{interface} servant = {{
{lines}
  ._c_self = self, .other = other}};

static void perform(lr_server *server, const lr_request *asked) {{ lr_idl_perform(&offer, server, asked); }}

int main(void) {{
  lr_server server = LR_INIT;
  lr_catalogue catalogue = LR_INIT;
  lr_ior ior = LR_INIT;
  uint16_t port = 0;
  int listener = loop_listen("127.0.0.1", &port);
  offer = POA_{interface}__offer(&servant, LR_TEXT("echo"));
  if (listener < 0 || lr_catalogue_open(&catalogue) < 0 || lr_idl_add(&catalogue, &offer) < 0) return 1;
  if (lr_server_open(&server, &catalogue, 1, 2) < 0) return 1;
  if (lr_ior_iiop(&ior, LR_TEXT({interface}__id), 2, LR_TEXT("127.0.0.1"), port, LR_TEXT("echo")) < 0) return 1;
  if (lr_ior_print(&ior, own, sizeof own - 1) < 0) return 1;
  lr_ior_close(&ior);
  puts(own);
  fflush(stdout);
  int served = loop_serve(&server, listener, perform, NULL);
  lr_server_close(&server);
  return served == 0 ? 0 : 1;
}}
"""
# names that are keywords of C and C++, or taken by their headers, and what else a compiler may not like
ODD = """
#include "shapes.idl"
struct int { long register; string inline; long register_; };
enum Switched { auto, goto, linux };
interface index { void f(); };
const long volatile = -3;
const long Below = -1 * 2147483648;
const unsigned long long Many = 18446744073709551615;
const long long Least = -1 << 63;
const double Half = 0.5;
const float Quarter = 0.25;
const double Vast = -1e400;
const unsigned long long Few = 3;
const char Letter = 'x';
const boolean Yes = TRUE;
const Switched Chosen = goto;
const string Odd = "\\n??/1\\\\";
module static {
  typedef long Grid[2][3];
  typedef sequence<Grid> Grids;
  typedef sequence<sequence<long> > Rows;
  typedef Rows Others;
  typedef Switched Again;
  typedef string<5> Short_;
  typedef sequence<octet, 4> Octets;
  struct Deep {
    sequence<sequence<string<3> >, 2> rows;
    string names[2];
    Grid cells;
    sequence<octet, 4> some;
    Object friend;
  };
  union Code switch (char) { case 'a': case 'b': long register; case '\\xff': string<2> return; default: Grids do; };
  union Far switch (unsigned long long) { case 18446744073709551615: short x; };
  union First switch (long) { default: string x; case 0: short y; };
  union Near switch (short) { case -1: short x; case 1: string y; };
  exception Bad { long x; };
  interface volatile {
    attribute long while;
    long return(in long sizeof, inout Grid double_, out Rows extern, in int goto);
    Deep keep(in Deep one);
    Code turn(in Code one);
    long self(in long self);
    void twice() raises (Shapes::Full, Bad);
    oneway void do(in string break);
    Others also(in Others one, in Again two, in Short_ three, inout Short_ four, out Again five);
  };
  interface register : volatile, Shapes::class::Base {};
};
"""
# the keywords of C (ISO C 6.4.1) and C++ (ISO C++ 5.11), what <stddef.h>, <stdint.h> and <string.h> declare, and names
# of ours
WORDS = """case char const default double enum export float long private public short struct switch typedef union
unsigned void alignas alignof asm auto bool break catch char8_t char16_t char32_t class co_await co_return co_yield
compl concept const_cast consteval constexpr constinit continue decltype delete do dynamic_cast else explicit extern
false for friend goto if inline int mutable namespace new noexcept not not_eq nullptr operator or or_eq protected
register reinterpret_cast requires restrict return signed sizeof static static_assert static_cast template this
thread_local throw true try typeid typename typeof typeof_unqual using virtual volatile wchar_t while and and_eq bitand
bitor xor xor_eq size_t ptrdiff_t max_align_t NULL offsetof int8_t uint8_t int16_t uint16_t int32_t uint32_t int64_t
uint64_t intptr_t uintmax_t int_fast8_t uint_least16_t INT8_MIN UINT64_MAX SIZE_MAX PTRDIFF_MIN INT64_C UINTMAX_C
WCHAR_MAX SIG_ATOMIC_MAX memcpy memmove memchr memcmp memset strcat strncat strchr strrchr strcmp strncmp strcoll
strcpy strncpy strcspn strspn strerror strlen strpbrk strstr strtok strxfrm strdup strndup index rindex bcmp bcopy
bzero ffs stpcpy strcasecmp strcasestr strsep strsignal strverscmp memmem mempcpy memrchr basename strdupa strnlen swab
self call octets size place value room key offer own servant object result members raised to lr_server lr_idl_call
lr_idl_get lr_moment LR_OK LR_INIT LR_API LR_TEXT LR_SECOND LR_IDL_STRING LEMONRUDDER_H errno linux unix EOF
stdin""".split()
# what may have such a name where no module is around it, and what is inside of others
KINDS = {
    "alias": "typedef string _{word};", "struct": "struct _{word} {{ long {word}_; }};",
    "union": "union _{word} switch (long) {{ case 1: string {word}_; }};", "enum": "enum _{word} {{ first_{word} }};",
    "enumerator": "enum of_{word} {{ _{word} }};", "constant": "const long _{word} = 1;",
    "text": 'const string _{word} = "a";', "exception": "exception _{word} {{ long {word}_; }};",
    "module": "module _{word} {{ struct S {{ long {word}_; }}; }};",
    "interface": "interface _{word} {{ struct S {{ long {word}_; }}; S get(in S one); }};",
    "inside": """module in_{word} {{
  struct S {{ long _{word}; short other; }};
  union U switch (long) {{ case 1: long _{word}; case 2: short other; }};
  exception X {{ string _{word}; short other; }};
  interface I {{
    attribute long at_{word};
    S _{word}(in long {word}_) raises (X);
    U with(in S _{word}, inout U other, out short more);
  }};
  interface J {{ readonly attribute long _{word}; }};
}};""",
    "both": """module to_{word} {{
  struct S {{ ::_{word} _{word}; }};
  union U switch (long) {{ case 1: ::_{word} _{word}; }};
  interface I {{ ::_{word} _{word}(); }};
  interface J {{ ::_{word} with(in ::_{word} _{word}, in long long other); }};
}};""",
}
# IDL that has two names that would be one in C: what stands behind the name of the file
ALIKE = {
    "types": ("module A { struct B { long x; }; };\nstruct A_B { long x; };", ":2: A_B and A::B are both A_B in C"),
    "an operation": ("module A { interface B { void c(); }; };\nstruct A_B_c { long x; };",
                     ":2: A_B_c and A::B are both A_B_c in C"),
    "an enumerator": ("module A { enum B { c }; };\nconst long A_c = 1;", ":2: A_c and A::B are both A_c in C"),
    "a servant": ("interface A {};\nstruct POA_A { long x; };", ":2: POA_A and A are both POA_A in C"),
}


def words_of(way: str, name: str, source: str, *idl_files: str, flags: Iterable[str] = ()) -> list[str]:
    """The words that run a program in C, compiled over what is made of IDL files and the loop of the examples."""
    compiler, of_way, before = WAYS[way]
    for idl_file in idl_files:
        backend(idl_file, "c")
    made_of = [f"{os.path.splitext(os.path.basename(idl_file))[0]}_idl.c" for idl_file in idl_files]
    sources = [os.path.join(FOLDER.name, one) for one in (*made_of, "lemonrudder_idl.c")]
    sources += [source, os.path.join(EXAMPLES, "loop.c")]
    program = compiled(compiler, f"{name}_{list(WAYS).index(way)}", *sources,
                       flags=["-pthread", f"-I{EXAMPLES}", *of_way, *flags])
    return [*map(tool, before[:1]), *before[1:], program]


def checked(compiler: str, standard: str, source: str, *flags: str) -> None:
    """Has a compiler look at a source, which it lets pass without a warning."""
    run(tool(compiler), f"-std={standard}", "-Wall", "-Wextra", "-Wpedantic", "-Wconversion", "-Werror", *flags,
        f"-I{FOLDER.name}", f"-I{os.path.join(ROOT, 'embed', 'include')}", "-fsyntax-only", source)


def including(*headers: str) -> str:
    """A source in C++ that includes headers."""
    path = os.path.join(FOLDER.name, "headers.cpp")
    with open(path, "w", encoding="ascii") as file:
        file.writelines(f'#include "{header}"\n' for header in headers)
    return path


@needs("g++", "clang++", "omniidl")
class Values(unittest.TestCase):
    """What is made of IDL in C."""

    @classmethod
    def setUpClass(cls) -> None:
        made("shapes", SHAPES)
        cls.files = [os.path.join(FOLDER.name, name) for name in ("shapes.idl", "odd_c.idl")]
        with open(cls.files[1], "w", encoding="ascii") as file:
            file.write(ODD)

    @base.each(lambda: [(way, way) for way in WAYS])
    def test_values(self, way: str) -> None:
        """Each kind of declaration and call; a value that is none of its type, and want of memory, are errors."""
        words = words_of(way, "values_c", os.path.join(EMBED, "idl_values.c"), *self.files,
                         flags=[f"-I{EMBED}", "-Wl,--wrap=malloc", "-Wl,--wrap=realloc"])
        self.assertRegex(run(*words), r"^\d+ passed, 0 failed\n$")

    @base.each(lambda: [(name, name) for name in ("g++", "clang++")])
    def test_headers(self, compiler: str) -> None:
        """The headers compile in C++ too, without a warning."""
        for idl_file in self.files:
            backend(idl_file, "c")
        for standard in ("c++11", "c++17"):
            checked(compiler, standard, including("shapes_idl.h", "odd_c_idl.h", "shapes_idl.h"))

    @base.each(KINDS.items)
    def test_words(self, kind: str) -> None:
        """Words of C and C++ are names: all kinds of things, of which what is made compiles."""
        kinds = [KINDS["struct"], kind] if kind == KINDS["both"] else [kind]
        text = "\n".join(one.format(word=word) for one in kinds for word in WORDS)
        ran = omniidl("words.idl", text, "c")
        self.assertEqual(ran.returncode, 0, ran.stderr)
        checked("gcc", "c11", os.path.join(FOLDER.name, "words_idl.c"), "-D_GNU_SOURCE")
        checked("g++", "c++17", including("words_idl.h"))

    @base.each(ALIKE.items)
    def test_alike(self, given: tuple[str, str]) -> None:
        """Names that would be one in C are refused."""
        text, wanted = given
        ran = omniidl("alike.idl", text, "c")
        self.assertEqual((ran.returncode, ran.stderr.strip()), (1, os.path.join(FOLDER.name, "alike.idl") + wanted))


@needs("g++", "omniidl")
class RandomTypes(unittest.TestCase):
    """Values of random types, through a servant and a stub in C."""

    @base.each_seed(1, 1)
    def test_exchange(self, seed: int) -> None:
        """What goes comes back, before and behind omniORB, and by exceptions; and nothing leaks."""
        echoes = idl_test.echoes_of(seed, TYPES)
        source = echoes.source("_echo.c", ECHO)
        for way in WAYS:
            words = words_of(way, echoes.base + "_c", source, echoes.idl_file)
            with self.subTest(way), serving(*words) as other, \
                    serving(echoes.program, "-ORBendPoint", "giop:tcp:127.0.0.1:") as reference:
                asyncio.run(exchanged(self, echoes, seed, other, reference))
                asyncio.run(exchanged(self, echoes, seed, reference, other))


@needs("g++", "omniidl")
class Bank(unittest.TestCase):
    """The bank of examples/idl/bank.c, and over omniORB."""

    @classmethod
    def setUpClass(cls) -> None:
        cls.omniorb = omniorb_program("omniorb_bank", os.path.join(EXAMPLES, "bank.idl"),
                                      os.path.join(EMBED, "omniorb_bank.cc"))

    @base.each(lambda: [(way, way) for way in WAYS])
    def test_bank(self, way: str) -> None:
        """A client of omniORB calls it, and it calls a server of omniORB."""
        bank = words_of(way, "bank_c", *BANK)
        self.assertEqual(dialogue([*bank, "serve"], [self.omniorb]), DEPOSITS)
        self.assertEqual(dialogue([self.omniorb, "serve", "-ORBendPoint", "giop:tcp:127.0.0.1:"], bank), DEPOSITS)

    @needs(*OF_COMBAT)
    def test_served_to_combat(self) -> None:
        """A client of Combat calls it."""
        self.assertEqual(dialogue([*words_of(next(iter(WAYS)), "bank_c", *BANK), "serve"], COMBAT), DEPOSITS)

    @base.each(idl_roads.ROADS.items)
    def test_roads(self, road: Any) -> None:
        """Its client goes over all addresses of a reference and over forwards, and acts once."""
        for bank in self.banks():
            with self.subTest(bank[0]):
                idl_roads.crossed(self, bank, road)

    def test_want_of_memory(self) -> None:
        """With one allocation of its client refused, each once, it says so or goes on over forwards; it leaks nothing."""
        flags = [os.path.join(EMBED, "refusing.c"), "-Wl,--wrap=malloc", "-Wl,--wrap=realloc"]
        bank = words_of("gcc, sanitized", "bank_refusing", *BANK, flags=flags)
        for road in (idl_roads.forward, idl_roads.forward_to_nobody):
            found = [idl_roads.ended(bank, road, REFUSED=str(number)) for number in range(1, MOST_REFUSED)]
            self.assertEqual({(status, said) for _, status, said in found},
                             {(0, "5"), (1, "an allocation failed, and nothing has changed")})
            self.assertEqual(found[-1][1:], (0, "5"))
            self.assertLessEqual(max(len(made.performed) for made, _, _ in found), 1)

    @staticmethod
    @functools.lru_cache(maxsize=None)
    def banks() -> list[list[str]]:
        """The bank with sanitizers, and under valgrind."""
        return [words_of(way, "bank_c", *BANK) for way in ("gcc, sanitized", "gcc, watched")]


if __name__ == "__main__":
    unittest.main()
