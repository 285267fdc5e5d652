"""The lists of definitions to read: pages that are made of the sources."""
import functools
import re

from scripts.items import items_of, owner_of
from scripts.lists import FLOORS, INSTEAD, LAYERS, LISTS, MADE, PACE, Listing
from scripts.sources import Missing, Place, Scope, crates_here, definitions, files_of, lines_of_names, scope_of, text_of

LISTS_PAGE = "docs/READING-LISTS.md"
WORD = re.compile(r"[A-Za-z_][\w']*(?:\.[A-Za-z_]\w*)*")


# ------------------------------------------------------------------------------------------------ closure


@functools.lru_cache(maxsize=None)
def uses_of(file: str) -> Scope:
    return scope_of(text_of(file))


def place_in(file: str, word: str) -> Place | None:
    """Where the definition stands that a word of a definition names."""
    own, head = lines_of_names(file), word.split(".")[0]
    place = Place(file, own[head], head) if head in own else uses_of(file).place(word)
    return instead_of(place) if place else None


def instead_of(place: Place) -> Place:
    relation = INSTEAD.get((place.file.split("/")[1], place.name))
    return Place(relation[0], lines_of_names(relation[0])[relation[1]], relation[1]) if relation else place


def closure(roots: list[Place]) -> dict[str, set[int]]:
    """What the roots rest on: by file, which of its blocks."""
    seen: dict[str, set[int]] = {}
    todo = list(roots)
    while todo:
        place = todo.pop()
        if not place.file.endswith(".antt"):
            continue
        for number, block in enumerate(definitions(place.file)):
            if place.name in dict(block.names) and number not in seen.setdefault(place.file, set()):
                seen[place.file].add(number)
                todo += filter(None, (place_in(place.file, word) for word in block.words))
    return {file: numbers for file, numbers in seen.items() if numbers}


def function(crate: str, call: str):
    """The item of a call, as `Log::find`."""
    owner, _, name = call.rpartition("::")
    for file in files_of(crate, "src"):
        for item in items_of(file):
            if (owner_of(item) if item.inner else "") == owner:
                for inner in item.inner or [item]:
                    if inner.kind == "fn" and inner.is_public and inner.name == name:
                        return inner
    return None


def places_of_root(crate: str, call: str | None, labels: tuple[str, ...] | None) -> list[Place]:
    """The definitions that a list begins with."""
    if call is None:
        files = files_of(crate, "specs")
        return [Place(f, lines_of_names(f)[w], w) for w in labels or () for f in files if w in lines_of_names(f)]
    item = function(crate, call)
    clauses = [c for c in item.clauses if labels is None or c.name in labels] if item else []
    words = [w for c in clauses for line in c.lines for w in WORD.findall(re.sub(r"//.*", "", line))]
    return [instead_of(place) for place in map(item.scope.place, words) if place] if item else []


def taken(listing: Listing, before: dict[str, set[int]]) -> dict[str, set[int]]:
    """The blocks of a list that no list before it has."""
    roots = [place for root in listing.roots for place in places_of_root(*root)]
    inside = {
        file: numbers - before.get(file, set())
        for file, numbers in closure(roots).items()
        if not listing.within or any(short(file).startswith(start) for start in listing.within)
    }
    return {file: numbers for file, numbers in inside.items() if numbers}


def short(file: str) -> str:
    """The crate and the module of a file of definitions."""
    return f"{file.split('/')[1]}/{file.split('/specs/')[1][:-5]}"


# ------------------------------------------------------------------------------------------------ the page


def reading_order(file: str):
    crate, module = short(file).split("/", 1)
    modules = re.findall(r"^pub mod (\w+)", text_of(f"crates/{crate}/specs/Lib.antt"), re.M)
    return (FLOORS.index(crate) if crate in FLOORS else 99, modules.index(module) if module in modules else 99, module)


def ranges(file: str, numbers: set[int]) -> str:
    """The lines of blocks, those that follow one another joined."""
    joined: list[list[int]] = []
    for number in sorted(numbers):
        block = definitions(file)[number]
        if joined and block.first <= joined[-1][1] + 2:
            joined[-1][1] = block.last
        else:
            joined.append([block.first, block.last])
    return ", ".join(f"{first} to {last}" if last > first else str(first) for first, last in joined)


def count_of(found: dict[str, set[int]]) -> int:
    return sum(definitions(f)[n].last - definitions(f)[n].first + 1 for f, numbers in found.items() for n in numbers)


def time_of(lines: int) -> str:
    """How long so many lines take, in quarters of an hour."""
    quarters = -(-lines * 4 // PACE)
    words = {1: "a quarter of an hour", 2: "half an hour", 3: "three quarters of an hour", 4: "an hour"}
    return words.get(quarters) or f"{quarters / 4:g} hours"


def law_line(crate: str, name: str) -> str:
    item = function(crate, name)
    if item is None:
        raise Missing(f"{crate} has no law {name}: mend LISTS of scripts/reading.py")
    return f"- [`{name}`](../{item.file}#L{item.line}) of `{crate}`: {' '.join(item.doc)}"


def list_text(listing: Listing, found: dict[str, set[int]], titles: dict[str, dict[int, str]]) -> list[str]:
    lines = count_of(found)
    text = [f"## {listing.title}", "", f"{listing.says} {lines:,} lines in {len(found)} files: {time_of(lines)}.", ""]
    text += ["| File | Lines | What they define |", "|---|---|---|"]
    for file in sorted(found, key=reading_order):
        heads = [definitions(file)[n].names[0][0] for n in sorted(found[file])]
        words = ", ".join(f"`{word}`" for word in heads[:6]) + (" .." if len(heads) > 6 else "")
        text.append(f"| [{short(file)}](../{file}) | {ranges(file, found[file])} | {words} |")
    stops = borders(found, titles) if listing.within else {}
    text += ["", "It stops at the words", ""] if stops else [""]
    text += [f"- of [{title}](#{anchor(title)}): {', '.join(words)}" for title, words in stops.items()]
    text += [""] if stops else []
    if listing.laws:
        text += ["In place of these lines:" if listing.within else "Beside them:", ""]
        text += [law_line(*law) for law in listing.laws] + [""]
    return text


def borders(found: dict[str, set[int]], titles: dict[str, dict[int, str]]) -> dict[str, list[str]]:
    """The words at which a list stops, by the list that has them."""
    stops: dict[str, dict[str, None]] = {}
    for file in sorted(found, key=reading_order):
        for number in sorted(found[file]):
            for word in sorted(definitions(file)[number].words):
                place = place_in(file, word)
                if place and place.file.endswith(".antt"):
                    for other, block in enumerate(definitions(place.file)):
                        title = titles.get(place.file, {}).get(other)
                        if place.name in dict(block.names) and title and other not in found.get(place.file, set()):
                            stops.setdefault(title, {})[f"[`{place.name}`](../{place.file}#L{place.line})"] = None
    order = [listing.title for listing in LISTS]
    return {title: list(stops[title]) for title in sorted(stops, key=order.index)}


def anchor(title: str) -> str:
    return re.sub(r"[^\w\- ]", "", title.lower()).replace(" ", "-")


def library_words(found: dict[str, set[int]]) -> list[str]:
    """The words of other libraries that the blocks use, by the module that brings them in."""
    modules: dict[str, set[str]] = {}
    for file, numbers in found.items():
        used = {word for number in numbers for word in definitions(file)[number].words}
        for word, (crate, path, _) in uses_of(file).names.items():
            if crate not in crates_here() and word in used:
                modules.setdefault(f"{crate}.{path}", set()).add(word)
    says = f"Those that the lists up to *{LISTS[LAYERS - 1].title}* use. In the folder of a crate"
    lines = [f"- {name}: {', '.join(f'`{word}`' for word in sorted(modules[name]))}" for name in sorted(modules)]
    title = "## Words of the standard library"
    return [title, "", f"{says} `rt lemma WORD` prints what a word means, its type and its module.", "", *lines]


HEAD = f"""{MADE}

# What to read, by lists

[READING.md](READING.md) says how to read a definition, and where to begin. Each list has what those before it do not;
a list names the words at which it stops, and the list that has them. The times are those of a reader who judges {PACE}
lines in an hour, in quarters. The laws under a list are ensured of its definitions: who trusts their words need not
read its lines.
"""


def merged(parts) -> dict[str, set[int]]:
    """The blocks of several lists."""
    whole: dict[str, set[int]] = {}
    for found in parts:
        for file, numbers in found.items():
            whole[file] = whole.get(file, set()) | numbers
    return whole


def lists_page() -> str:
    lists: list[tuple[Listing, dict[str, set[int]]]] = []
    for listing in LISTS:
        found = taken(listing, merged(found for _, found in lists))
        if found:  # (a promise that the sources do not make yet has no list)
            lists.append((listing, found))
    titles: dict[str, dict[int, str]] = {}
    for listing, found in lists:
        for file, numbers in found.items():
            titles.setdefault(file, {}).update((n, listing.title) for n in numbers)
    text = [HEAD, "| List | Lines | Time |", "|---|---|---|"]
    for listing, found in lists:
        lines = count_of(found)
        text.append(f"| [{listing.title}](#{anchor(listing.title)}) | {lines:,} | {time_of(lines)} |")
    text.append("")
    for listing, found in lists:
        text += list_text(listing, found, titles)
    ends = [listing.title for listing in LISTS[:LAYERS]]
    text += library_words(merged(found for listing, found in lists if listing.title in ends))
    return "\n".join(text).rstrip("\n") + "\n"


PAGES = {LISTS_PAGE: lists_page}
