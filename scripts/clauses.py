"""The index of the standard's clauses, made of the comments that cite them."""
import re

from scripts.crates import listed
from scripts.lists import MADE
from scripts.sources import definitions, files_of, text_of

CLAUSES = "docs/CLAUSES.md"
# how a clause is spelled: the name of a standard's part, and the number of the clause
STANDARDS = {
    "CDR": "Common Data Representation: CORBA 3.3 Part 2, clause 9.3",
    "GIOP": "General Inter-ORB Protocol: CORBA 3.3 Part 2, clauses 9.4 and 9.8",
    "IIOP": "Internet Inter-ORB Protocol: CORBA 3.3 Part 2, clause 9.7",
    "IOP": "object references and service contexts: CORBA 3.3 Part 2, clause 7",
    "FT": "Fault Tolerant CORBA",
}
SUBJECTS = {
    "CDR 9.3": "the transfer syntax",
    "CDR 9.3.1": "primitive types",
    "CDR 9.3.1.1": "alignment",
    "CDR 9.3.1.2": "integers",
    "CDR 9.3.1.4": "octet",
    "CDR 9.3.1.5": "boolean",
    "CDR 9.3.1.6": "char",
    "CDR 9.3.2": "constructed types",
    "CDR 9.3.2.2": "struct",
    "CDR 9.3.2.3": "union",
    "CDR 9.3.2.4": "array",
    "CDR 9.3.2.5": "sequence",
    "CDR 9.3.2.6": "enum",
    "CDR 9.3.2.7": "string",
    "CDR 9.3.3": "encapsulation",
    "GIOP 9.4": "messages",
    "GIOP 9.4.1": "the header",
    "GIOP 9.4.2": "Request",
    "GIOP 9.4.3": "Reply",
    "GIOP 9.4.4": "CancelRequest",
    "GIOP 9.4.5": "LocateRequest",
    "GIOP 9.4.6": "LocateReply",
    "GIOP 9.4.7": "CloseConnection",
    "GIOP 9.4.8": "MessageError",
    "GIOP 9.4.9": "Fragment",
    "GIOP 9.8": "bi-directional GIOP",
    "IIOP 9.7": "IIOP",
    "IIOP 9.7.2": "profiles of IIOP",
    "IOP 7.6": "object references",
    "IOP 7.6.2": "references and their profiles",
    "IOP 7.6.9": "references as text",
    "IOP 7.7": "service contexts",
    "FT 23.2.7": "the service context FT_REQUEST",
}
NUMBER = r"(?:7\.[67](?:\.\d+)*|9\.[3478](?:\.\d+)*|23\.2\.7)\b"
CITED = re.compile(rf"\b(CDR|GIOP|IIOP|IOP|FT) ({NUMBER})")
ANY_NUMBER = re.compile(rf"(?<![\d.]){NUMBER}(?!\.\d)(?! of CORBA)")
OTHERWISE = re.compile(r"Part 2, (?:clause )?\d\.|\brules? of this project|this project's own")
OWN = re.compile(r"\bown rules?\b", re.I)
HEAD = """{made}

# The rules, clause by clause

Each definition and each piece of code names the clause that it restates. A clause has one spelling, so
`grep -rn "GIOP 9.4.2" crates` finds all that is said of it:

| Spelling | What it is |
|---|---|
{standards}
| `own rule` | a rule of this project, where the standards are silent: [DECISIONS.md](DECISIONS.md) has the reasons |

Definitions stand in `specs/`, code in `src/`.

## Clauses

| Clause | Subject | Definitions | Code |
|---|---|---|---|
{clauses}

## Own rules

| Crate | Definitions | Code |
|---|---|---|
{own}
"""


def sources() -> list[str]:
    """The definitions and the code of all crates."""
    return [file for crate in sorted(listed()) for folder in ("specs", "src") for file in files_of(crate, folder)]


def comments(name: str):
    """The comments of a source, each with the number of its line."""
    mark = "--" if name.endswith(".antt") else "//"
    for number, line in enumerate(text_of(name).split("\n"), 1):
        at = line.find(mark)
        if at >= 0:
            yield number, line[at:]


def spelled_otherwise(name: str, lines) -> list[str]:
    """Where a comment or a page has the number of a clause that is not spelled as STANDARDS say."""
    found = []
    for number, line in lines:
        spelled = {match.start(2) for match in CITED.finditer(line)}
        bare = [match for match in ANY_NUMBER.finditer(line) if match.start() not in spelled]
        if bare or OTHERWISE.search(line):
            found.append(f"{name}:{number}: a clause is spelled as in {CLAUSES}: {line.strip()[:90]}")
    return found


def order_of(clause: str):
    part, number = clause.split(" ")
    return list(STANDARDS).index(part), [int(n) for n in number.split(".")]


def clauses_in(comment: str) -> list[str]:
    """The clauses that a comment cites; from one to another, also those between."""
    found = [f"{part} {number}" for part, number in CITED.findall(comment)]
    for part, first, last in re.findall(r"\b([A-Z]+) ([\d.]+) to \1 ([\d.]+)\b", comment):
        head, _, begin = first.rpartition(".")
        if last.rpartition(".")[0] == head:
            found += [f"{part} {head}.{n}" for n in range(int(begin) + 1, int(last.rpartition(".")[2]))]
    return found


def places_of(keys_in) -> dict[str, dict[str, list[str]]]:
    """For each key that a comment has: the definitions that it stands at, by file, and the files of code."""
    found: dict[str, dict[str, list[str]]] = {}
    for name in sources():
        if name.endswith("/Lib.antt"):
            continue
        defined = definitions(name) if name.endswith(".antt") else ()
        for number, comment in comments(name):
            for key in keys_in(comment):
                names = [block.names[0][0] for block in defined if block.first <= number <= block.last][:1]
                found.setdefault(key, {}).setdefault(name, []).extend(names)
    return found


def places_text(files: dict[str, list[str]], folder: str) -> str:
    cells = []
    for name, names in files.items():
        if f"/{folder}/" in name:
            crate, rest = name.split("/")[1], name.split(f"/{folder}/")[1]
            words = ", ".join(f"`{word}`" for word in dict.fromkeys(names))
            cells.append(f"[{crate}/{rest.rpartition('.')[0]}](../{name})" + (f" ({words})" if words else ""))
    return "; ".join(cells)


def clauses_page() -> str:
    cited = places_of(clauses_in)
    rows = []
    for clause in sorted(cited, key=order_of):
        specs, code = (places_text(cited[clause], folder) for folder in ("specs", "src"))
        rows.append(f"| {clause} | {SUBJECTS.get(clause, '')} | {specs} | {code} |")
    own: dict[str, dict[str, list[str]]] = {}
    for name, names in places_of(lambda comment: ["own"] if OWN.search(comment) else []).get("own", {}).items():
        own.setdefault(name.split("/")[1], {})[name] = names
    rules = [f"| `{it}` | {places_text(own[it], 'specs')} | {places_text(own[it], 'src')} |" for it in own]
    standards = [f"| `{part} ..` | {what} |" for part, what in STANDARDS.items()]
    return HEAD.format(made=MADE, standards="\n".join(standards), clauses="\n".join(rows), own="\n".join(rules))


PAGES = {CLAUSES: clauses_page}
