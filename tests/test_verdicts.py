"""Which clause refuses a wrong body, by what a check says."""
import dataclasses
import types
import unittest
import unittest.mock

from tests.edits import Edit, Pair, functions_of
from tests.verdicts import NAMES_ONLY, PROVED, REFUSED, UNSURE, Result, Verdict, chief, closures_of, refusers
from tests.wrong_bodies import OTHERWISE, UNSAID, Trials, all_edits, due, only_of, parts_of

CURSOR = "cdr_core::cursor::Cursor::"


class OfGoals(unittest.TestCase):
    """The clauses of a contract, by the names of the goals that are open."""

    CLAUSES = [("requires", "near"), ("ensures", "did"), ("ensures", None), ("ensures", "clock")]

    def of(self, *goals, clauses=None):
        function = functions_of("cdr_core", "src/order.rt")["<Order as fmt::Display>::fmt"]
        return refusers(goals, self.CLAUSES if clauses is None else clauses, function)

    def test_ensures(self):
        self.assertEqual(self.of("returns-in_Ok-clause-clock", "returns-then-a-clause-did"),
                         ["ensures `did`", "ensures `clock`"])
        self.assertEqual(self.of("returns-2-clause-2"), ["ensures 2"])
        self.assertEqual(self.of("returns-in_err-x", clauses=[("ensures", "ok")]), ["ensures `ok`"])
        self.assertEqual(self.of("returns", clauses=[("ensures", None)]), ["ensures 1"])
        self.assertEqual(self.of("returns"), ["ensures"])
        self.assertEqual(self.of("returns", clauses=[]), ["ensures of Display::fmt"])

    def test_requires(self):
        self.assertEqual(self.of("put_fragment-requires-2-clause-small"), ["requires `small` of put_fragment"])
        self.assertEqual(self.of("put-requires-else-c"), ["requires of put"])
        self.assertEqual(self.of("unwrap-name-requires"), ["requires of unwrap"])

    def test_safety(self):
        for goal, text in (("bounds-s-i", "an index is in range"), ("slice_bounds-p-end", "an index is in range"),
                           ("overflow_add-x", "no overflow"), ("overflow_cast-x", "a cast fits"),
                           ("nonzero_div-x", "a divisor is not 0"), ("loop-i-smaller", "it ends"),
                           ("unreachable-requires", "`unreachable!()` is not reached")):
            self.assertEqual(self.of(goal), [f"safety: {text}"], goal)

    def test_chief(self):
        self.assertEqual(chief(self.of("loop-i-init", "put-requires", "returns-clause-did")), ["ensures `did`"])
        self.assertEqual(chief(self.of("put-requires", "bounds-s-i")), ["requires of put"])
        self.assertEqual(chief(self.of("bounds-s-i", "overflow_add-x")),
                         ["safety: an index is in range", "safety: no overflow"])

    def test_the_rest(self):
        self.assertEqual(self.of("loop-i-preserved-in-Some", "loop-i-init", "returns-clause-did"),
                         ["ensures `did`", "the invariant of a loop"])
        self.assertEqual(self.of("invariant_of-out-clause-in_range"), ["the invariant `in_range`"])


class OfChecks(unittest.TestCase):
    """What a check says of an edit of `Cursor::boolean`."""

    EDIT = Edit("cdr_core", "src/cursor.rt", "Cursor::boolean", "takes_all", "it takes all",
                [Pair("src/cursor.rt", "1", "2")])

    def judged(self, *lines, is_alone=True):
        return Verdict("cdr_core", 1, "\n".join([*lines, "logic=not-proved"])).judge(self.EDIT, is_alone)

    def line(self):
        return functions_of("cdr_core", "src/cursor.rt")["Cursor::boolean"].first + 1

    def test_refused(self):
        goal = f"note: src/cursor.rt:{self.line()}:5: it is not proved that it holds when it returns (`returns`)"
        found = self.judged(goal, f"fn {CURSOR}boolean: not proved", is_alone=False)
        self.assertEqual((found.kind, found.by), (REFUSED, ("ensures 1",)))
        other = f"note: src/cursor.rt:{self.line() - 40}:5: it is not proved that it holds when it returns (`returns`)"
        self.assertEqual(self.judged(other, f"fn {CURSOR}boolean: not proved").kind, NAMES_ONLY)

    def test_refused_by_an_answer(self):
        answer = "./proofs/cursor/Cursor/boolean/Answers.antt:15:13: error: `returns`: `search`: no proof of `a`"
        self.assertEqual(self.judged(answer, f"fn {CURSOR}boolean: not proved").by, ("ensures 1",))

    def test_names_only(self):
        gone = ("./proofs/cursor/Cursor/boolean/Answers.antt:9:30: error: `returns-then`: `goal.returns-then`: "
                "module `Goals` has no `returns-then` that can be named from here")
        self.assertEqual(self.judged(gone, f"fn {CURSOR}boolean: not proved").kind, NAMES_ONLY)
        self.assertIsNone(self.judged(gone, f"fn {CURSOR}boolean: not proved", is_alone=False))

    def test_invariant_of_a_type(self):
        """Its note stands at the type, and the function's own line names it."""
        note = "note: src/other.rt:9:5: it is not proved that the invariant of what it gives holds (`invariant_of-self`)"
        line = f"fn {CURSOR}boolean: no proof: expected answers in ./proofs/a.antt; `search` did not prove `invariant_of-self`"
        self.assertEqual(self.judged(note, line).by, ("the invariant of a value",))

    def test_proved_and_unsure(self):
        self.assertEqual(self.judged(f"fn {CURSOR}boolean: proved").kind, PROVED)
        self.assertEqual(self.judged(f"fn {CURSOR}boolean: no proof: it calls `a`, which is not proved").kind, UNSURE)
        self.assertEqual(self.judged(f"fn {CURSOR}octet: proved").kind, UNSURE)
        self.assertIsNone(self.judged(f"fn {CURSOR}boolean: proved", is_alone=False))

    def test_what_a_file_says(self):
        """Each clause that a file names has to refuse the edit, whatever else does."""
        trials, seen = types.SimpleNamespace(writes=False), Result(REFUSED, "", ("ensures `ok`", "ensures `err`"))
        for said, kind in ((None, UNSAID), ("ensures `ok`", REFUSED), ("ensures `ok`, ensures `err`", REFUSED),
                           ("ensures `gone`", OTHERWISE), ("ensures `ok`, ensures `full`", OTHERWISE)):
            edit = dataclasses.replace(self.EDIT, refused_by=said)
            self.assertEqual(Trials.compared(trials, edit, seen).kind, kind, said)


class OfClosures(unittest.TestCase):
    """What a check says of an edit of `lr_server_lost`, which calls `Slot::server` with a closure."""

    EDIT = Edit("lemonrudder", "src/exports/server.rt", "lr_server_lost", "loses_none", "it loses none",
                [Pair("src/exports/server.rt", "1", "2")])
    MODULE = "lemonrudder::exports::server"
    OPEN = "no proof: expected answers in ./proofs/a.antt; `search` did not prove `returns`"
    CALLS = f"it calls `{MODULE}::fn::lr_server_lost::server+FnMut::call_mut`, which is not proved"
    UNPROVED = f"fn {MODULE}::lr_server_lost: no proof: {CALLS}"
    OF_CLOSURE = ("ensures of closure `server`",)

    def judged(self, *lines, is_alone=True):
        return Verdict("lemonrudder", 1, "\n".join([*lines, "logic=not-proved"])).judge(self.EDIT, is_alone)

    def goal(self, name):
        line = functions_of("lemonrudder", "src/exports/server.rt")["lr_server_lost"].first + 4
        return f"note: src/exports/server.rt:{line}:37: it is not proved that it holds (`{name}`); it may be false"

    def closure(self, said, name="server", function="lr_server_lost"):
        return f"fn {self.MODULE}::fn::{function}::{name}: {said}"

    def test_its_ensures(self):
        calls = self.closure("no proof: it calls `a`, which is not proved", "server+FnMut::call_mut")
        lines = [self.goal("returns"), self.closure(self.OPEN), calls, self.UNPROVED]
        found = self.judged(*lines, is_alone=False)
        self.assertEqual((found.kind, found.by), (REFUSED, self.OF_CLOSURE))
        self.assertEqual(self.judged(*lines[1:]).by, self.OF_CLOSURE)
        for goal, by in (("returns-clause-told", "ensures `told` of closure `server`"),
                         ("returns-in_Ok-clause-2", "ensures 2 of closure `server`"),
                         ("lost-requires-clause-idle", "requires `idle` of lost"),
                         ("overflow_add-x", "safety: no overflow")):
            self.assertEqual(self.judged(self.goal(goal), *lines[1:]).by, (by,), goal)

    def test_its_answers(self):
        at = "./proofs/exports/server/fn/lr_server_lost/server/Answers.antt:5:13: error: "
        lines = [self.closure("not proved"), self.UNPROVED]
        self.assertEqual(self.judged(at + "`returns`: `search`: no proof of `a`", *lines).by, self.OF_CLOSURE)
        self.assertEqual(self.judged(at + "`goal.returns` has no `returns-then`", *lines).kind, NAMES_ONLY)

    def test_beside_the_function(self):
        """The goals of each stand in front of its line, in the lines of the function."""
        closure = [self.goal("returns"), self.closure(self.OPEN)]
        function = [self.goal("server-requires"), f"fn {self.MODULE}::lr_server_lost: not proved; {self.CALLS}"]
        self.assertEqual(self.judged(*closure, *function).by, (*self.OF_CLOSURE, "requires of server"))
        function[0] = self.goal("returns")
        self.assertEqual(self.judged(*closure, *function).by, ("ensures 1", *self.OF_CLOSURE))
        self.assertEqual(self.judged(self.closure("proved where its callers give what it asks"), *function).by,
                         ("ensures 1",))

    def test_that_is_not_called(self):
        function = f"fn {self.MODULE}::lr_server_lost: proved"
        self.assertEqual(self.judged(self.goal("returns"), self.closure(self.OPEN), function).by, self.OF_CLOSURE)
        self.assertEqual(self.judged(self.closure("proved"), function).kind, PROVED)

    def test_unsure(self):
        """Another function's closure, and one whose contract itself is refused, tell nothing."""
        for line in (self.closure(self.OPEN, function="lr_server_lost_all"),
                     self.closure("no proof: antt did not admit its contract or its `statement`: help: fix it")):
            self.assertEqual(self.judged(line, self.UNPROVED).kind, UNSURE, line)

    def test_names(self):
        """As a check prints them: of a method too, and the second that a call takes."""
        known = ["t::fn::Pair::five::apply", "t::fn::Pair::five::apply+2", "t::fn::five::apply", "t::Pair::five"]
        self.assertEqual(closures_of("t::Pair::five", known), {known[0]: "apply", known[1]: "apply+2"})
        self.assertEqual(closures_of("t::five", known), {known[2]: "apply"})


class OfNames(unittest.TestCase):
    """By which name a check is asked for one function alone."""

    def test_names(self):
        for crate, source, function, name in (
                ("cdr_core", "src/cursor.rt", "Cursor::boolean", "Cursor::boolean"),
                ("cdr_core", "src/order.rt", "<Order as fmt::Display>::fmt", "order"),
                ("digits", "src/reading.rt", "decode", "reading::decode")):
            self.assertEqual(only_of(functions_of(crate, source)[function]), name)


class OfTurns(unittest.TestCase):
    """Which wrong bodies are due."""

    def test_each_comes(self):
        """Some are due whatever the number of commits, and in one round of the turns each."""
        edits = all_edits()
        crates = {name: types.SimpleNamespace(below=list) for name in edits}
        met = []
        for turn in range(len(parts_of(edits))):
            def said(*words, turn=turn):
                return str(turn) if words[0] == "rev-list" else ""
            with self.subTest(turn), unittest.mock.patch("tests.wrong_bodies.git", said):
                taken = due(edits, crates)
                self.assertTrue(taken)
                met += [it for _, some in taken for it in some]
        self.assertEqual([it.name for some in edits.values() for it in some if it not in met], [])

    def test_time(self):
        """A check that took the whole budget and told nothing, as where an edit of its round does not compile, is no end."""
        for spent, results, has_time in ((599, {"edit": REFUSED}, True), (601, {"edit": REFUSED}, False), (950, {}, True)):
            trials = types.SimpleNamespace(budget=600, spent=spent, results=results)
            self.assertEqual(Trials.has_time(trials), has_time, spent)
        self.assertTrue(Trials.has_time(types.SimpleNamespace(budget=None, spent=9e9, results={"edit": REFUSED})))


if __name__ == "__main__":
    unittest.main()
