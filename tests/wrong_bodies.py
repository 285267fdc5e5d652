#!/usr/bin/env python3
"""Tries wrong bodies, crates/NAME/wrong_bodies/*.edits: the prover has to refuse each, by the clause that it names.

    tests/wrong_bodies.py CRATE [EDIT..]    those of a crate, or these
    tests/wrong_bodies.py --turns           those that are due, within a budget of processor time
    tests/wrong_bodies.py --all             all
    tests/wrong_bodies.py --compile CRATE.. those that do not compile, of all in these crates; nothing is proved
    python3 -m unittest tests.wrong_bodies -k WORD    those with a word in their name or their crate's

tests/edits.py says how an edit is written. A check of a crate reports each function apart, and the proof of one rests
on its own body and on the contracts of what it calls. So edits of different functions are tried in one check, a round,
of these functions and of what they call in their crate (`--only`); of all, where a name fits several. An edit is refused where the line of its own function says that goals of its own are not proved. Where a round can't
tell, the edit is tried alone; where its function is proved, the contract is too weak, and this fails.

What refuses an edit follows from the names of the goals of its function that are open: the clauses that it breaks, in
the order of the contract, and those of a closure in it; or else those that it owes to what it calls, or invariants, or
safety. The line `refused by` names them; --write tries those that lack it, and adds it to each file as soon as it is
known. Each that it names has to refuse the edit again: an edit that is refused by others alone fails, and so does one
that is refused only since a proof file cites a name that the edit took away. So does one without the line.

--turns tries those of the headline (`always/`), then those of crates whose sources or edits changed since the branch
left origin's main (or since the last commit), then those of crates above one whose specs changed, and then one of the
groups of the others, by the number of commits.

With --gate FOLDER the libraries are those that `rt ci` proved in that folder. With --jobs N as many checks run at once;
else as many as there are processors, and room for them.

An edit that an earlier run on this machine refused is not tried again while nothing has changed that its check reads:
the kit, the sources of its crate and of those below, the edit and what judges it here. With --anew it is.

The last line is 'N passed, M failed'; the status is 0 only where some were tried and all were refused.
"""
import argparse
import contextlib
import fnmatch
import hashlib
import itertools
import json
import os
import re
import shutil
import subprocess
import sys
import tempfile
import threading
import time
import unittest
from concurrent.futures import FIRST_COMPLETED, ThreadPoolExecutor, wait

ROOT = os.path.dirname(os.path.dirname(os.path.abspath(__file__)))
sys.path.insert(0, ROOT)
from scripts.crates import SECONDS
from scripts.kit import are_older, cache, files_below, load_kit, sum_of
from tests import edits as bodies
from tests import verdicts
from tests.edits import changed_by, edits_of, functions_of, text_of
from tests.verdicts import BAD, NAMES_ONLY, PROVED, REFUSED, UNSURE, Result, Verdict, cycle_of, short, symbols_of

# what comes of an edit beside what a check says: its file names other clauses, or none
OTHERWISE, UNSAID, UNTRIED = "refused otherwise", "refused by what its file does not say", "not tried"
# what to do about an edit that fails
ADVICE = {
    PROVED: "strengthen the contract",
    NAMES_ONLY: "only a name that it took away refuses it: change a value, and keep the names that proof files cite",
    OTHERWISE: "strengthen the contract; or, where that is as it should be, take the line away, and add it by --write",
    UNSAID: "add the line by --write",
}

# the processor time of --turns, in seconds
BUDGET = 600
# the fewest edits of a crate that it is checked for
FEW = 8
# the memory of a check, in bytes
MEMORY = 3 << 30
# the most edits of a round: beyond, each further one saves little
MOST = 24
# a name that no function has: a check of it alone ends once the crate is compiled
NO_FUNCTION = "no_such_function"

# what each edit takes beyond the first functions of its crate, in seconds of processor time
EACH = {"cdr_core": 8, "ior_core": 5, "giop_link": 8, "ft_tcp": 8, "counter": 8, "giop_frames": 14, "ft_ends": 14,
        "lemonrudder": 14, "ft_orb": 17, "giop_run": 18, "uses": 20}
ELSE = 12
# what a round takes before its first function
START = 20


class Refusals:
    """What earlier runs on this machine refused: a file for each edit, by the sum of all that its check reads."""

    def __init__(self, kit, anew):
        self.at = os.path.join(cache(), "refused")
        self.kit, self.anew, self.began, self.sums = kit, anew, time.time(), {}

    def sum_of(self, crate):
        """A sum of the kit, of the sources of a crate and of those below, and of what judges here."""
        if crate.name not in self.sums:
            judges = [os.path.abspath(it.__file__) for it in (sys.modules[__name__], bodies, verdicts)]
            self.sums[crate.name] = sum_of(self.kit, crate, judges)
        return self.sums[crate.name]

    def file_of(self, crate, edit):
        said = repr((crate.name, self.sum_of(crate), edit.function, edit.name, edit.pairs))
        return os.path.join(self.at, hashlib.sha256(said.encode()).hexdigest())

    def find(self, crate, edit):
        """What an earlier run said of an edit that it refused, or None."""
        if self.anew:
            return None
        try:
            kind, text, by = json.loads(text_of(self.file_of(crate, edit)))
        except (OSError, ValueError):
            return None
        return Result(kind, text, tuple(by)) if kind == REFUSED else None

    def keep(self, crate, edit, result):
        """Keeps that an edit is refused. Where it can't be kept, or a source changed meanwhile, it is tried again."""
        if result.kind != REFUSED:
            return
        with contextlib.suppress(OSError):
            if not are_older(files_below(self.kit, crate), self.began):
                return
            os.makedirs(self.at, mode=0o700, exist_ok=True)
            with tempfile.NamedTemporaryFile("w", dir=self.at, delete=False, encoding="utf-8") as file:
                json.dump(result, file)
            os.replace(file.name, self.file_of(crate, edit))


class Trials:
    """Wrong bodies that are tried, beside one another, and what came of them."""

    def __init__(self, kit, refusals, budget=None, gate=None, jobs=None, writes=False):
        self.kit, self.refusals, self.budget, self.gate, self.writes = kit, refusals, budget, gate, writes
        self.crates = {crate.name: crate for crate in kit.crates_below(gate or ROOT)}
        self.guard = kit.guarded()
        self.lanes = jobs or lanes()
        self.lock = threading.Lock()
        self.spent, self.results, self.earlier = 0.0, {}, 0
        self.room = tempfile.mkdtemp(prefix="wrong-bodies-")

    def has_time(self):
        """Whether another check may begin: within the budget, and as long as nothing has come of any edit."""
        return self.budget is None or self.spent < self.budget or not self.results

    def note(self, edit, result, is_known=False):
        """Notes what came of an edit, and that it is refused as its file says; or adds that to its file."""
        if not is_known:
            self.refusals.keep(self.crates[edit.crate], edit, result)
        if result.kind == REFUSED:
            with self.lock:
                result = self.compared(edit, result)
        with self.lock:
            self.results[edit.crate, edit.name] = result
            self.earlier += is_known
        if not is_known or result.kind != REFUSED:
            print(f"{edit.crate}/{edit.name}: {result.kind}: {result.text}", flush=True)

    def compared(self, edit, result):
        """What came of an edit that is refused, beside what its file says."""
        seen = ", ".join(verdicts.chief(result.by))
        if edit.refused_by is None and self.writes:
            bodies.add_refused_by(edit, seen)
        elif edit.refused_by is None:
            return Result(UNSAID, seen, result.by)
        elif not set(edit.refused_by.split(", ")) <= set(result.by):
            by = ", ".join(result.by)
            return Result(OTHERWISE, f"by {by}, and its line `refused by` says {edit.refused_by}", result.by)
        return Result(REFUSED, seen, result.by)

    def is_known(self, crate, edit):
        """Whether an earlier run refused an edit, which is then noted."""
        found = self.refusals.find(crate, edit)
        if found:
            self.note(edit, found, is_known=True)
        return found is not None

    def check(self, crate, texts, *flags, jobs=1):
        """Checks a copy of a crate with these texts in place of its own."""
        with tempfile.TemporaryDirectory(dir=self.room) as copy:
            for part in self.kit.PARTS:
                if os.path.isdir(f"{crate.folder}/{part}"):
                    shutil.copytree(f"{crate.folder}/{part}", f"{copy}/{part}")
            for path, text in texts.items():
                with open(f"{copy}/{path}", "w", encoding="utf-8") as file:
                    file.write(text)
            words = [self.kit.RATTLE, "check", *crate.words(["--jobs", str(jobs)], keeps=False), *flags]
            with open(f"{copy}/said", "w+", encoding="utf-8", errors="replace") as said:
                run = subprocess.Popen([*self.guard, *words], cwd=copy, stdin=subprocess.DEVNULL, stdout=said,
                                       stderr=subprocess.STDOUT)
                _, status, used = os.wait4(run.pid, 0)
                run.returncode = os.waitstatus_to_exitcode(status)
                with self.lock:
                    self.spent += used.ru_utime + used.ru_stime
                said.seek(0)
                return Verdict(crate.name, run.returncode, said.read())

    def over(self, seed):
        """A copy of a seed. What was proved is linked: a check writes such files anew."""

        def copy(one, other):
            if one.endswith(".oantt"):
                with contextlib.suppress(OSError):
                    return os.link(one, other)
            return shutil.copy2(one, other)

        to = tempfile.mkdtemp(dir=self.room)
        shutil.copytree(seed, f"{to}/kept", copy_function=copy)
        return f"{to}/kept"

    def seed_of(self, crate):
        """A folder for the work that the checks of a crate keep: empty, or with what checks in its own folder kept."""
        kept = f"{crate.folder}/out/incremental"
        if self.gate is None and os.path.isdir(kept):
            return self.over(kept)
        return os.path.join(tempfile.mkdtemp(dir=self.room), "kept")

    def begin(self, name, edits, jobs):
        """Tries the first round of a crate's edits, and returns what is left to do: calls, each one check. They begin
        with what this check kept."""
        crate = self.crates[name]
        whole = []
        for edit in edits:
            fault = edit.applied({})[1]
            if fault:
                self.note(edit, Result(BAD, fault))
            elif not self.is_known(crate, edit):
                whole.append(edit)
        rounds = planned(whole)
        if not rounds:
            return []
        seed = self.seed_of(crate)
        again = self.round(crate, rounds[0], seed, jobs)
        left = rounds[1:] + again
        # (where an edit of that round did not compile, its check kept nothing)
        os.makedirs(seed, exist_ok=True)

        def one(edits):
            kept = self.over(seed)
            again = self.round(crate, edits, kept)
            shutil.rmtree(os.path.dirname(kept))
            return [lambda edits=edits: one(edits) for edits in again]

        return [lambda edits=edits: one(edits) for edits in left]

    def run(self, due):
        """Tries the edits of crates, as many checks beside one another as there are lanes, while there is time."""
        waiting = [lambda jobs, name=name, edits=edits: self.begin(name, edits, jobs) for name, edits in due]
        first, running = len(waiting), set()
        with ThreadPoolExecutor(self.lanes) as pool:
            while waiting or running:
                while waiting and len(running) < self.lanes and self.has_time():
                    # (a crate's first check takes the lanes that no other crate waits for)
                    jobs = max(1, min(4, self.lanes // max(first, 1)))
                    call = waiting.pop(0)
                    running.add(pool.submit(call, jobs) if first > 0 else pool.submit(call))
                    first -= 1
                if not running:
                    return
                done, running = wait(running, return_when=FIRST_COMPLETED)
                for it in done:
                    waiting += it.result()

    def round(self, crate, edits, seed, jobs=1):
        """Tries edits in one check, and returns what is to be tried again: those that it can't tell of, each alone, and
        the others together, where some of them do not compile."""
        texts = {}
        for edit in edits:
            texts = edit.applied(texts)[0]
        verdict = self.verdict(crate, edits, texts, seed, jobs)
        if not verdict.ended and len(edits) > 1:
            alone = [edit for edit in edits if verdict.blames(edit)] or edits
            others = [edit for edit in edits if edit not in alone]
            return [[edit] for edit in alone] + ([others] if others else [])
        again = []
        for edit in edits:
            result = self.judged(edit, verdict, len(edits) == 1)
            if result is None:
                again.append([edit])
            else:
                self.note(edit, result)
        return again

    def verdict(self, crate, edits, texts, seed, jobs):
        """What a check says of the functions that edits change, or of all of the crate where their names don't tell."""
        functions = {functions_of(crate.name, edit.source)[edit.function] for edit in edits}
        only = [word for name in sorted({only_of(it) for it in functions}) for word in ("--only", name)]
        verdict = self.check(crate, texts, "--incremental", seed, *only, jobs=jobs)
        if verdict.ended and all(len(symbols_of(crate.name, it, verdict.functions)) == 1 for it in functions):
            return verdict
        if verdict.ended or verdict.status == 2:
            return self.check(crate, texts, "--incremental", seed, jobs=jobs)
        return verdict

    def uncompiled(self, crate, edits):
        """Of edits that can be made together those that do not compile, each with what is said of it."""
        texts = {}
        for edit in edits:
            texts = edit.applied(texts)[0]
        said = self.check(crate, texts, "--only", NO_FUNCTION).said
        if f"no function `{NO_FUNCTION}`" in said:
            return []
        if len(edits) > 1:
            half = len(edits) // 2
            return self.uncompiled(crate, edits[:half]) + self.uncompiled(crate, edits[half:])
        lines = [line for line in said.split("\n") if "error" in line] or said.split("\n")[-2:]
        return [(edits[0], short(lines[0]))]

    def judged(self, edit, verdict, is_alone):
        """What a check says of an edit, or None where the edit is to be tried alone."""
        if verdict.ended:
            return verdict.judge(edit, is_alone)
        said = [line for line in verdict.said.split("\n") if "error" in line] or verdict.said.split("\n")[-2:]
        if not is_alone:
            return None
        killed = verdict.status < 0
        return Result(UNSURE, f"the check ended by signal {-verdict.status}") if killed else Result(BAD, short(said[0]))


def only_of(function):
    """The name by which a check of one function knows it: of a method of a trait that of its module."""
    parts = function.path[len("src/"):-len(".rt")].split("/")
    module = parts[:-1] if parts[-1] in ("lib", "main", "mod") else parts
    if not function.impl:
        return "::".join([*module, function.name])
    return "::".join(module) if " for " in function.impl else function.full_name()


def planned(edits, most=MOST):
    """The edits in rounds, in which no function and no cycle of calls is changed twice; one that changes no function,
    as a constant, or several, is a round of its own."""
    rounds, lone = [], []
    for edit in edits:
        changed = {cycle_of(edit.crate, it) for it in changed_by(edit)}
        if len(changed) != 1:
            lone.append([edit])
            continue
        place = changed.pop()
        for members in rounds:
            if place not in members and len(members) < most and applied([*members.values(), edit]):
                members[place] = edit
                break
        else:
            rounds.append({place: edit})
    return [[*members.values()] for members in rounds] + lone


def applied(edits):
    """Whether edits can be made together, one after another."""
    texts = {}
    for edit in edits:
        texts, fault = edit.applied(texts)
        if fault:
            return False
    return True


def lanes():
    """How many checks may run at once: one for each processor, and for each share of the memory."""
    with open("/proc/meminfo", encoding="ascii") as lines:
        free = next(int(line.split()[1]) << 10 for line in lines if line.startswith("MemAvailable:"))
    return max(1, min(len(os.sched_getaffinity(0)), free // MEMORY))


def git(*words):
    ran = subprocess.run(["git", *words], cwd=ROOT, stdout=subprocess.PIPE, stderr=subprocess.DEVNULL, text=True)
    return ran.stdout.strip() if ran.returncode == 0 else ""


def changed_since_base():
    """The crates whose sources or edits changed since the branch left origin's main, or else since the last commit;
    and those whose specs did."""
    head = git("rev-parse", "HEAD")
    base = git("merge-base", "HEAD", "origin/main")
    base = base if base not in ("", head) else git("rev-parse", "HEAD~1")
    paths = git("diff", "--name-only", base).split("\n") if base else []
    found = [re.match(r"crates/(\w+)/(src|specs|proofs|wrong_bodies)/", path) for path in paths]
    return {it[1] for it in found if it}, {it[1] for it in found if it and it[2] == "specs"}


def cost_of(crate, count):
    """What so many edits of a crate take, in seconds of processor time: each of them its function and what that calls, all
    no more than the crate."""
    each = EACH.get(crate, ELSE)
    return START + min(SECONDS.get(crate, 60) + each * count, 2 * each * count)


def parts_of(edits):
    """All edits in parts, each of a crate and as many of it as the budget allows: (crate, its edits), of each crate one,
    and again."""
    rows = []
    for crate, some in edits.items():
        size = max(FEW, int((BUDGET - START) / (2 * EACH.get(crate, ELSE))))
        count = -(-len(some) // size)
        rows.append([(crate, some[at::count]) for at in range(count)])
    return [part for row in itertools.zip_longest(*rows) for part in row if part]


def turned(items, turn):
    """The items, begun elsewhere at each turn."""
    at = turn % len(items) if items else 0
    return items[at:] + items[:at]


def due(edits, crates):
    """The edits that are due in this run, those of the headline and others within the budget: a list of (crate, its
    edits)."""
    turn = int(git("rev-list", "--count", "HEAD") or 0)
    changed, below = changed_since_base()
    above = {name for name in edits if below & {it.name for it in crates[name].below()}} - changed
    order = [changed, above, set(edits) - changed - above]
    taken = {name: found for name, some in edits.items() if (found := [it for it in some if it.is_always])}
    left = BUDGET - sum(cost_of(name, len(some)) for name, some in taken.items())
    others = {name: [it for it in some if not it.is_always] for name, some in edits.items()}
    is_none = True
    for names in order:
        for name, some in turned(parts_of({name: others[name] for name in edits if name in names}), turn):
            cost = cost_of(name, len(some)) - (START if name in taken else 0)
            if cost <= left or is_none:
                taken.setdefault(name, []).extend(some)
                left, is_none = left - cost, False
    return [*taken.items()]


def have_libraries(crates, gate):
    """Whether the libraries below these crates are built, from the sources as they are."""
    below = {it.name: it for crate in crates for it in crate.below()}
    if gate is not None:
        lacking = [it.name for it in below.values() if not os.path.isfile(f"{it.rlib}/format")]
        if lacking:
            print(f"the gate left no library {lacking[0]}")
        return not lacking
    for crate in below.values():
        if not crate.is_built():
            print(f"building {crate.name}", flush=True)
            made = subprocess.run(["rt", "lib"], cwd=crate.folder, stdin=subprocess.DEVNULL, stdout=subprocess.DEVNULL)
            if made.returncode:
                print(f"{crate.name} is not proved")
                return False
    return True


def chosen(options, edits, crates):
    """The edits that the words ask for."""
    if options.all:
        return [*edits.items()]
    if options.turns:
        return due(edits, crates)
    found = {it.name: it for it in edits.get(options.crate, [])}
    names = options.edits or [*found]
    lacking = [name for name in names if name not in found]
    if lacking or not names:
        sys.exit(f"crates/{options.crate}/wrong_bodies has no {lacking[0] if lacking else 'edits'}")
    return [(options.crate, [found[name] for name in names])]


def tried(trials, wanted):
    """Tries edits: a list of (crate, its edits)."""
    try:
        if have_libraries([trials.crates[name] for name, _ in wanted], trials.gate):
            trials.run(wanted)
    finally:
        shutil.rmtree(trials.room, ignore_errors=True)


def compiled(trials, wanted):
    """Says which edits do not compile, and returns the status."""
    try:
        if not have_libraries([trials.crates[name] for name, _ in wanted], trials.gate):
            return 1
        rounds = [(trials.crates[name], some) for name, edits in wanted for some in planned(edits, len(edits))]
        with ThreadPoolExecutor(trials.lanes) as pool:
            found = [*itertools.chain(*pool.map(lambda it: trials.uncompiled(*it), rounds))]
    finally:
        shutil.rmtree(trials.room, ignore_errors=True)
    for edit, said in found:
        print(f"{edit.crate}/{edit.name}: {BAD}: {said}")
    print(f"{sum(len(edits) for _, edits in wanted) - len(found)} passed, {len(found)} failed")
    return 1 if found else 0


def all_edits():
    return {crate: edits_of(crate) for crate in bodies.crates()}


def main():
    usage = "tests/wrong_bodies.py [--anew] [--write] [--gate FOLDER] [--jobs N] --turns | --all | --compile CRATE.. | CRATE [EDIT..]"
    parser = argparse.ArgumentParser(usage=usage)
    parser.add_argument("--anew", action="store_true")
    parser.add_argument("--write", action="store_true")
    parser.add_argument("--turns", action="store_true")
    parser.add_argument("--all", action="store_true")
    parser.add_argument("--compile", nargs="+")
    parser.add_argument("--gate")
    parser.add_argument("--jobs", type=int)
    parser.add_argument("crate", nargs="?")
    parser.add_argument("edits", nargs="*")
    options = parser.parse_args()
    if options.turns + options.all + bool(options.compile) + bool(options.crate) != 1:
        parser.error("one of --turns, --all, --compile and a crate")
    if shutil.which("rt") is None:
        sys.exit("rt, the command of the Rattle toolchain, is not on the path")
    kit = load_kit()
    budget = BUDGET if options.turns else None
    trials = Trials(kit, Refusals(kit, options.anew), budget, options.gate, options.jobs, options.write)
    edits = all_edits()
    if options.compile:
        return compiled(trials, [(crate, edits[crate]) for crate in options.compile])
    wanted = chosen(options, edits, trials.crates)
    if options.write:
        wanted = [(crate, [it for it in some if it.refused_by is None]) for crate, some in wanted]
        wanted = [(crate, some) for crate, some in wanted if some]
        if not wanted:
            print("each says what refuses it\n0 passed, 0 failed")
            return 0
    tried(trials, wanted)
    return report(trials, edits)


def said_of(result):
    """What came of an edit that failed, and what to do about it."""
    return ": ".join([result.kind, result.text] + ([ADVICE[result.kind]] if result.kind in ADVICE else []))


def report(trials, edits):
    """Says what came of the edits, and returns the status."""
    results = trials.results
    refused = [it for it, result in results.items() if result.kind == REFUSED]
    failed = [it for it in results if it not in refused]
    count = sum(map(len, edits.values()))
    for crate, some in edits.items():
        number = sum((crate, it.name) in results for it in some)
        if 0 < number < len(some):
            print(f"{crate}: {number} of {len(some)} were tried")
    for crate, name in failed:
        print(f"NOT REFUSED AS SAID: {crate}/{name}: {said_of(results[crate, name])}")
    others = "" if len(results) == count else "; the others by turns"
    earlier = f", {trials.earlier} of them by earlier runs of the same sources" if trials.earlier else ""
    print(f"wrong bodies: {len(results)} of {count} tried, {len(refused)} refused{earlier}{others}; "
          f"{trials.spent / 60:.1f} minutes of processor time")
    print(f"{len(refused)} passed, {len(failed) + (not results)} failed")
    return 0 if results and not failed else 1


class Body(unittest.TestCase):
    """A wrong body of a crate."""

    def __init__(self, edit):
        super().__init__("is_refused")
        self.edit, self.result = edit, None

    def id(self):
        return f"{__name__}.{self.edit.crate}.{self.edit.name}"

    def __str__(self):
        return f"{self.edit.name} ({self.edit.crate})"

    def is_refused(self):
        if shutil.which("rt") is None:
            self.skipTest("rt, the command of the Rattle toolchain, is not on the path")
        if self.result is None:
            try_bodies([self])
        if self.result.kind == UNTRIED:
            self.skipTest(self.result.text)
        if self.result.kind != REFUSED:
            self.fail(said_of(self.result))


def try_bodies(tests, by_turns=False):
    """Tries wrong bodies, or of these those that are due, and gives each its result."""
    kit = load_kit()
    trials = Trials(kit, Refusals(kit, False), BUDGET if by_turns else None)
    edits = {}
    for test in tests:
        edits.setdefault(test.edit.crate, []).append(test.edit)
    tried(trials, due(edits, trials.crates) if by_turns else [*edits.items()])
    untried = Result(UNTRIED, "it comes by turns") if by_turns else Result(UNSURE, "a crate below is not proved")
    for test in tests:
        test.result = trials.results.get((test.edit.crate, test.edit.name), untried)


class Bodies(unittest.TestSuite):
    """Wrong bodies that share their checks."""

    def __init__(self, tests, by_turns):
        super().__init__(tests)
        self.by_turns = by_turns

    def run(self, result, debug=False):
        if shutil.which("rt") is not None and self.countTestCases():
            try_bodies([*self], self.by_turns)
        return super().run(result, debug)


def load_tests(loader, _tests, _pattern):
    """The wrong bodies: those that the words of -k select, or all, of which those are tried that are due."""
    words, tests = loader.testNamePatterns, [Body(edit) for some in all_edits().values() for edit in some]
    if words is None:
        return Bodies(tests, True)
    return Bodies([it for it in tests if any(fnmatch.fnmatchcase(it.id(), word) for word in words)], False)


if __name__ == "__main__":
    sys.exit(main())
