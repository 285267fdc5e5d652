"""What a check of a crate says of its functions, and which clause refuses a wrong body."""
import glob
import re
from collections import namedtuple

from tests.edits import ROOT, functions_in, functions_of, text_of

# what came of an edit: its kind, a text, and what refuses it
Result = namedtuple("Result", "kind text by", defaults=((),))
REFUSED, NAMES_ONLY, PROVED, BAD, UNSURE = "refused", "names only", "proved", "bad", "unsure"

# lines of a check: of a function, of a goal of it that is open, and of an answer in a proof file that does not hold
OF_FUNCTION = re.compile(r"fn (\S+): (.*)")
OPEN_GOAL = re.compile(r"note: (src/\S+?):(\d+):\d+: it is not proved that .*?(\(`[^`]+`\).*)")
FALSE_ANSWER = re.compile(r"(?:\./)?proofs/(\S+)/\w+\.antt:\d+:\d+: error: (.*)")
# what a text that does not compile gets
ERROR = re.compile(r"(?:\./)?(src/\S+?):(\d+):\d+: error")
# what an answer's error says where the answer only names what is gone
OF_NAMES = re.compile(r"has no field|is not in scope|has no `|was not admitted|is no name")
# a line of a function that has open goals of its own
OPEN = re.compile(r"not proved|no proof: expected answers in")
# a goal in the line of a function without a proof file, whose note stands elsewhere: at the type, for an invariant
UNFOUND = re.compile(r"`search` did not prove (`[^`]+`)")
# a clause of a contract
CLAUSE = re.compile(r"\s*(requires|ensures)(?: (\w+))? \{")

# what a goal of safety asks, by its name
SAFETY = {
    r"overflow_cast": "a cast fits",
    r"overflow_": "no overflow",
    r"nonzero_": "a divisor is not 0",
    r"(slice_|offset_)?bounds-": "an index is in range",
    r"(.*-)?smaller\b|.*decreases": "it ends",
    r"(prove-)?unreachable-requires": "`unreachable!()` is not reached",
    r"prove-": "a `prove!` holds",
}


def cycle_of(crate, function):
    """What may be changed once in a check: the function, or the cycle of calls that it is in."""
    lines = text_of(f"{ROOT}/crates/{crate}/{function.path}").split("\n")
    cycle = re.search(r"#\[cycle\((\w+)\)\]", "\n".join(lines[function.top:function.first]))
    return ("cycle", cycle.group(1)) if cycle else function


def symbols_of(crate, function, known):
    """The names of a function in the lines of a check, of those that are known: one, where they tell it apart."""
    parts = function.path[len("src/"):-len(".rt")].split("/")
    module = "::".join([crate] + (parts[:-1] if parts[-1] in ("lib", "main", "mod") else parts))
    rest = {name: name[len(module) + 2:].split("::") for name in known if name.startswith(module + "::")}
    if not function.impl:
        return [name for name, it in rest.items() if it == [function.name]]
    head = re.sub(r"<[^<>]*>", "", re.sub(r"<[^<>]*>", "", function.impl)).rstrip(" {")
    found = [name for name, it in rest.items() if len(it) == 2 and it[1] == function.name]
    trait, _, of = head.rpartition(" for ")
    owner = re.findall(r"\w+", of if trait else head.split(":")[0])[-1]
    if trait:
        trait = re.findall(r"\w+", trait)[-1]
        found = [name for name in found if re.search(rf"\b{owner}{trait}|\+{owner}\+{trait}", name)]
        # (of one trait for several types, as From, the name has the type too)
        of_type = re.search(rf"{trait}<(?:\w+::)*(\w+)", function.impl)
        told = [name for name in found if of_type and re.search(rf"{owner}{trait}{of_type[1]}\b", name)]
        return told if len(found) > 1 and told else found
    # (a method has its name by the module of its type, wherever its impl stands)
    return [name for name in found if rest[name][0] == owner] or [
        name for name in known if name.endswith(f"::{owner}::{function.name}")]


def closures_of(symbol, known):
    """The closures of a function, of the names in the lines of a check, each with its own name: that of the closure
    `call` in `serving::Serving::part` is `serving::fn::Serving::part::call`."""
    fronts = {it: it.replace("::fn::", "::", 1) for it in known if "::fn::" in it}
    return {it: front[len(symbol) + 2:] for it, front in fronts.items() if front.startswith(f"{symbol}::")}


def goals_in(lines):
    """The goals of a check that are open: path, line, text, and the function in front of whose line they stand."""
    found = []
    for line in lines:
        goal, function = OPEN_GOAL.match(line), OF_FUNCTION.fullmatch(line)
        found += [goal.groups()] if goal else []
        if function:
            yield from ((*it, function[1]) for it in found)
            found = []
    yield from ((*it, None) for it in found)


def clauses_of(crate, function):
    """The clauses of a function's contract, as they stand: pairs of a word and a name, if it has one. Where it has none
    of its own, those of its trait."""
    found = clauses_at(f"{ROOT}/crates/{crate}/{function.path}", function.first)
    trait = re.search(r"(\w+)(?:<[^{]*>)? for ", function.impl)
    for file in sorted(glob.glob(f"{ROOT}/crates/*/src/**/*.rt", recursive=True)) if trait and not found else []:
        text = text_of(file)
        if re.search(rf"^(pub(\(\w+\))? )?trait {trait[1]}\b", text, re.M):
            for it in functions_in(file, text):
                if it.name == function.name and re.search(rf"\btrait {trait[1]}\b", it.impl):
                    return clauses_at(file, it.first)
    return found


def clauses_at(file, first):
    """The clauses of the function whose head begins in a line of a file."""
    found = []
    for line in text_of(file).split("\n")[first + 1:]:
        clause = CLAUSE.match(line)
        if clause:
            found.append(clause.groups())
        elif re.match(r"\s*(\{|\}$|///|#\[|(pub(\(\w+\))? )?fn )", line) or not line.strip():
            break
    return found


class Verdict:
    """What a check of a crate says of its functions."""

    def __init__(self, crate, status, said):
        self.crate, self.status, self.said = crate, status, said
        lines = said.rstrip("\n").split("\n")
        self.functions = dict(found.groups() for found in map(OF_FUNCTION.fullmatch, lines) if found)
        # (a check that ended has a verdict on the whole in its last line)
        self.ended = lines[-1].startswith(("logic=", "only=")) and bool(self.functions)
        self.goals = [*goals_in(lines)]
        self.answers = [found.groups() for found in map(FALSE_ANSWER.match, lines) if found]
        self.errors = [found.groups() for found in map(ERROR.match, lines) if found]

    def blames(self, edit):
        """Whether the function of an edit does not compile."""
        function = functions_of(self.crate, edit.source)[edit.function]
        return any(path == function.path and function.top <= int(line) - 1 <= function.last
                   for path, line in self.errors)

    def why(self, symbol, function, cycle, closure=None):
        """The open goals and the false answers of a function, or of a closure in it, the telling ones first, and how
        many tell. Those of a cycle's answers stand in one place, and begin with the function's name."""
        parts = (closure or symbol).split("::")[1:]
        places = {"/".join(parts)}
        closures = closures_of(symbol, self.functions)
        goals = [what for path, line, what, of in self.goals
                 if path == function.path and function.top <= int(line) - 1 <= function.last
                 and (of if of in closures else None) == closure]
        answers = [what for at, what in self.answers if at in places]
        if cycle:
            places = {"/".join([*parts[:count], f"+{cycle}"]) for count in range(len(parts))}
            answers += [what for at, what in self.answers if at in places and what.startswith(f"`{function.name}-")]
        telling = goals + [what for what in answers if not OF_NAMES.search(what)]
        telling = telling or UNFOUND.findall(self.functions[closure or symbol])
        return telling + answers, len(telling)

    def judge(self, edit, is_alone):
        """What the check says of an edit that was made in it, or None where the edit is to be tried alone."""
        function = functions_of(self.crate, edit.source)[edit.function]
        symbols = symbols_of(self.crate, function, self.functions)
        if len(symbols) != 1:
            return Result(UNSURE, f"the check has {len(symbols)} lines of {function.name}") if is_alone else None
        result = self.judged(symbols[0], function)
        # (what is not refused by goals of its own in a round is looked at alone)
        return result if is_alone or result.kind == REFUSED else None

    def judged(self, symbol, function):
        line = self.functions[symbol]
        # (what a closure in the function breaks, the function breaks)
        closures = {it: name for it, name in closures_of(symbol, self.functions).items()
                    if OPEN.match(self.functions[it])}
        if not closures and line.startswith("proved"):
            return Result(PROVED, "its function is still proved")
        if not closures and not OPEN.match(line):
            return Result(UNSURE, line)
        cycle = cycle_of(self.crate, function)
        cycle = cycle[1] if cycle[0] == "cycle" else None
        why, count = self.why(symbol, function, cycle) if OPEN.match(line) else ([], 0)
        goals = [goal_in(it).removeprefix(f"{function.name}-" if cycle else "") for it in why[:count]]
        inside = []
        for closure, name in closures.items():
            more, number = self.why(symbol, function, None, closure)
            inside += [(name, goal_in(it)) for it in more[:number]]
            why, count = why[:count] + more[:number] + why[count:] + more[number:], count + number
        if not count:
            return Result(NAMES_ONLY, short(why[0] if why else line))
        by = refusers(goals, clauses_of(self.crate, function), function, inside)
        return Result(REFUSED, short(why[0]), tuple(by))


def short(text):
    """The name of the goal in a line of a check, or the front of the line."""
    return f"`{goal_in(text)}`" if goal_in(text) and not OF_NAMES.search(text) else re.sub(r"\s+", " ", text)[:160]


def goal_in(text):
    """The name of the goal at the front of a line's text."""
    name = re.match(r"\(?`(?:goal\.)?([^`]+)`", text)
    return name[1] if name else ""


def refusers(goals, clauses, function, inside=()):
    """What refuses a body whose goals are open: the clauses that it breaks, in order, and those of its closures, what
    calls are owed, the rest. The goals of closures are pairs of the closure's name and the goal."""
    found = {refuser(goal, [name for word, name in clauses if word == "ensures"], function) for goal in goals}
    found |= {refuser_inside(name, goal, function) for name, goal in inside}
    return [text for _, _, text in sorted(found)]


def refuser_inside(closure, goal, function):
    """What refuses a body with an open goal of a closure, after its rank and place."""
    if not re.match(r"returns\b", goal):
        return refuser(goal, [], function)
    clause = re.search(r"-clause-(\w+)$", goal)
    which = "" if not clause else f" {clause[1]}" if clause[1].isdigit() else f" `{clause[1]}`"
    return 1, 0, f"ensures{which} of closure `{closure}`"


def chief(refused_by):
    """Of what refuses a body, in order, that of the first kind: what it breaks, or else what it owes."""
    return [it for it in refused_by if it.split()[0] == refused_by[0].split()[0]]


def refuser(goal, ensures, function):
    """What refuses a body with an open goal, after its rank and place."""
    clause = re.search(r"-clause-(\w+)$", goal)
    name = clause[1] if clause else None
    # (the call's name, and the variable that its result is put in)
    requires = re.match(r"(\w+)(?:-[\w-]+?)?-requires(?:-|$)", goal)
    safety = next((text for form, text in SAFETY.items() if re.match(form, goal)), None)
    if re.match(r"returns\b", goal):
        if name and name in ensures:
            return 0, ensures.index(name), f"ensures `{name}`"
        number = re.search(r"-clause-(\d+)$", goal)
        if len(ensures) == 1 or number:
            at = int(number[1]) if number else 1
            return 0, at - 1, f"ensures `{ensures[at - 1]}`" if ensures[at - 1] else f"ensures {at}"
        return 0, 0, "ensures" if ensures else f"ensures of {owner(function)}"
    if safety:
        return 4, 0, f"safety: {safety}"
    if requires:
        return 2, 0, f"requires `{name}` of {requires[1]}" if name else f"requires of {requires[1]}"
    if re.match(r"(invariant-)?loop\b.*-(init|preserved)|invariant-", goal):
        return 3, 0, "the invariant of a loop"
    if goal.startswith("invariant_of-"):
        return 3, 1, f"the invariant `{name}`" if name else "the invariant of a value"
    return 5, 0, f"goal `{goal}`" if goal else "what a proof file says"


def owner(function):
    """The trait's name and the method's, of a method whose contract stands elsewhere."""
    trait = re.search(r"(\w+)(?:<[^{]*>)? for ", function.impl)
    return f"{trait[1]}::{function.name}" if trait else function.name
