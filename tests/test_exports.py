"""Whether what C calls is what the library does: each export of lemonrudder_c, and the function of its name in lemonrudder."""
import re
import unittest

from scripts import contracts, header
from scripts.items import Item, items_of
from scripts.sources import files_of, text_of

LIBRARY, EXPORTS = "lemonrudder", "lemonrudder_c"


def functions_of(crate: str, form: str) -> dict[str, Item]:
    """The functions outside of any type of which the line of the head begins as given."""
    found = [item for file in files_of(crate, "src") for item in items_of(file) if item.kind == "fn"]
    return {item.name: item for item in found if text_of(item.file).split("\n")[item.line - 1].startswith(form)}


def said(item: Item) -> tuple:
    """What is said of a function: its comment, its head, its clauses, and the definitions that these cite. (Variants of a
    type are cited by its name alone where the code names it.)"""
    head = re.sub(r'^pub (extern "C" )?', "", item.head)
    clauses = [(clause.kind, clause.name, clause.lines) for clause in item.clauses]
    return item.doc, head, clauses, [it for it in contracts.cited(item, item.clauses) if it[1].file.endswith(".antt")]


class Exports(unittest.TestCase):
    """The functions that C calls."""

    def setUp(self):
        self.exports = functions_of(EXPORTS, 'pub extern "C" fn ')
        self.functions = functions_of(LIBRARY, "pub fn ")

    def test_are_those_of_the_header(self):
        """They are the functions that the header declares, but for those that stand in C."""
        in_c = set(re.findall(r"^\w[\w *]*?\b(lr_\w+)\(", text_of("embed/support.c"), re.M))
        declared = {it.declared.name for it in header.read(text_of(header.HEADER)).functions}
        self.assertEqual(len(in_c & declared), 3)
        self.assertEqual({*self.exports}, declared - in_c)

    def test_say_the_contract_again(self):
        """Each says what the function of its name says: no clause is left out, and none is another."""
        for name, item in self.exports.items():
            with self.subTest(name):
                self.assertTrue(item.clauses)
                self.assertEqual(said(item), said(self.functions[name]))

    def test_call_it_with_what_they_are_given(self):
        """Each does nothing but call that function, with its own parameters in their order."""
        for name, item in self.exports.items():
            with self.subTest(name):
                given = re.findall(r"(\w+): ", item.head)
                called = re.sub(r"\s+", "", "".join(item.body)).replace(",)", ")").rstrip(";")
                self.assertEqual(called, f"{LIBRARY}::{name}({','.join(given)})")

    def test_nothing_else_stands_there(self):
        """The crate has no other item, and neither definitions nor proofs."""
        kinds = {item.name for file in files_of(EXPORTS, "src") for item in items_of(file)}
        self.assertEqual(kinds, {*self.exports})
        self.assertEqual([*files_of(EXPORTS, "specs"), *files_of(EXPORTS, "proofs")], [])


if __name__ == "__main__":
    unittest.main()
