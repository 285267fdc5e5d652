"""Which objects and operations a server has."""
from __future__ import annotations

from typing import Any, Dict, Mapping, NamedTuple

from ._cdr import type_codes
from ._library import Held, LemonrudderError, Text, call, lent, library, octets_of
from ._table import Error


class Signature(NamedTuple):
    """The types of an operation, as formats.

    arguments: the in and inout parameters in order. results: the return value, and then the inout and out parameters in
    order. raises: the members of each exception, by its repository id.
    """

    arguments: str = ""
    results: str = ""
    raises: Mapping[str, str] = {}


class Fronts:
    """What stands under keys, and each key that begins with one of these leads to."""

    def __init__(self, found: Mapping[bytes, Any]) -> None:
        self.found = found
        self.lengths = sorted({len(key) for key in found}, reverse=True)

    def longest(self, key: bytes) -> Any:
        """What stands under the longest front of a key, or None."""
        for length in self.lengths:
            if length <= len(key) and key[:length] in self.found:
                return self.found[key[:length]]
        return None


class Types:
    """The types of what a catalogue holds: of each object those of its operations by name, which raw ones lack."""

    def __init__(self) -> None:
        self.objects: Dict[bytes, Dict[str, Signature]] = {}
        self.families = Fronts({})

    def signature(self, key: bytes, operation: str) -> Signature:
        """The types of an operation of the object that a key leads to. Raises KeyError: it is raw, or there is none."""
        signatures = self.objects.get(key)
        if signatures is None:
            signatures = self.families.longest(key) or {}
        return signatures[operation]


class Catalogue(Held):
    """Which objects and operations a server has. After an error nothing has changed."""

    def __init__(self) -> None:
        super().__init__()
        self._offer = Types()
        call(library.lr_catalogue_open, self._slot)

    def add_object(self, key: Text) -> None:
        """Adds an object without operations. Raises LemonrudderError (TAKEN)."""
        key = octets_of(key)
        call(library.lr_catalogue_object, self._slot, *lent(key))
        self._offer.objects[key] = {}

    def add_raw_object(self, key: Text) -> None:
        """Adds an object whose every operation is raw. Raises LemonrudderError (TAKEN)."""
        key = octets_of(key)
        call(library.lr_catalogue_raw_object, self._slot, *lent(key))
        self._offer.objects[key] = {}

    def add_default(self) -> None:
        """Adds an object whose every operation is raw, to which each key leads that leads to no other object.

        Raises LemonrudderError (TAKEN: there is one)."""
        call(library.lr_catalogue_default, self._slot)

    def add_families(self, families: Catalogue) -> None:
        """Takes the objects of another catalogue, which is empty afterwards: each key that is no object's own, and
        begins with the key of one of these, leads to that object, to the one of the longest such key.

        Raises LemonrudderError (TAKEN: it has families already; EMPTY)."""
        call(library.lr_catalogue_families, self._slot, families._slot)
        self._offer.families = Fronts(families._offer.objects)
        families._offer = Types()

    def remove(self, key: Text) -> None:
        """Takes an object away, with its operations. Raises LemonrudderError (OBJECT)."""
        key = octets_of(key)
        call(library.lr_catalogue_remove, self._slot, *lent(key))
        self._offer.objects.pop(key, None)

    def add_operation(self, key: Text, name: str, signature: Signature = Signature()) -> None:
        """Adds an operation of an object.

        Raises FormatError; LemonrudderError (OBJECT, RAW, TAKEN, TEXT).
        """
        key, (arguments, results, raises) = octets_of(key), signature
        parameters = (*lent(name), *lent(type_codes(arguments)), *lent(type_codes(results)))
        exceptions = [(*lent(id), *lent(type_codes(members))) for id, members in raises.items()]
        try:
            for exception in exceptions:
                call(library.lr_catalogue_exception, self._slot, *exception)
        except LemonrudderError:
            # an operation that is refused forgets the exceptions before
            library.lr_catalogue_operation(self._slot, *lent(key), *lent("\0"), *lent(""), *lent(""))
            raise
        call(library.lr_catalogue_operation, self._slot, *lent(key), *parameters)
        self._offer.objects[key][name] = signature

    def add_raw_operation(self, key: Text, name: str) -> None:
        """Adds an operation that is raw: its arguments and its replies are octets.

        Raises LemonrudderError (OBJECT, RAW, TAKEN, TEXT).
        """
        call(library.lr_catalogue_raw_operation, self._slot, *lent(key), *lent(name))

    def add_repository_ids(self, key: Text, *ids: Text) -> None:
        """Names the repository ids of an object. It has the operations _is_a and _non_existent then, which
        Engine.identify answers. Raises LemonrudderError (OBJECT, RAW, TAKEN, TEXT)."""
        key, named_ids = octets_of(key), [octets_of(id) for id in ids]
        if any(b"\0" in id for id in named_ids):
            raise LemonrudderError(Error.TEXT)
        together = b"".join(id + b"\0" for id in named_ids)
        call(library.lr_catalogue_repository_ids, self._slot, *lent(key), *lent(together))
        self._offer.objects[key].update(_is_a=Signature("s", "?"), _non_existent=Signature("", "?"))
