"""The wrong bodies of a crate, as the pages show them."""
from dataclasses import dataclass

from scripts.items import Item
from scripts.sources import text_of
from tests import edits


@dataclass(frozen=True)
class Wrong:
    """A wrong body: its function and the file of that, its name, what is wrong, what it replaces, what refuses it, if that
    is known."""

    file: str
    function: str
    name: str
    wrong: str
    old: str
    refused_by: str

    def is_of(self, name: str, item: Item) -> bool:
        """Whether it is one of this function, which other impls of its file may have under the same name."""
        if (self.file, self.function) != (item.file, name):
            return False
        text = "\n".join(text_of(item.file).split("\n")[item.line - 1 : item.last])
        return self.old in text or self.old not in text_of(item.file)

    def text(self) -> str:
        return f"`{self.name}`" + (f", {self.wrong}" if self.wrong else "")


def wrongs_of(crate: str):
    for edit in edits.edits_of(crate):
        old = dict((path, old) for path, old, _ in reversed(edit.pairs)).get(edit.source, "")
        yield Wrong(f"crates/{crate}/{edit.source}", edit.function, edit.name, edit.wrong, old, edit.refused_by or "")


def reasons_of(crate: str):
    """Why a public call has no wrong body, by its file and name."""
    for source, function, reason in edits.without_edits(crate):
        yield (f"crates/{crate}/{source}", function), reason
