"""The objects of a Server: what performs their operations, and the types of these."""
from __future__ import annotations

from dataclasses import dataclass
from typing import Any, Callable, Dict, Mapping, NamedTuple, Optional, Sequence, Tuple, Union

from ._catalogue import Catalogue, Fronts, Signature
from ._cdr import BIG, pack, parsed, results_of
from ._engine import Asked
from ._library import LemonrudderError, Octets, octets_of
from ._messages import Body
from ._outcomes import Outcome, Refuse, SystemException, UserException, known_name, system_outcome
from ._table import Error, Order, ReplyStatus

# every object is one
_OBJECT = "IDL:omg.org/CORBA/Object:1.0"
# how many octets the body of a reply has at most
_LONGEST = 1048576

Operation = Union[Tuple[str, str], Tuple[str, str, Callable[..., Any]], Callable[[Body], Any]]
"""The formats of arguments and results, and the function where it is no method of the servant; or a function of a
Body."""


class RawReply(NamedTuple):
    """What a function of a raw operation may return: as of Engine.answer_raw."""

    octets: Octets
    order: int = BIG
    status: int = ReplyStatus.NO_EXCEPTION


@dataclass(frozen=True)
class Performer:
    """What performs an operation: its types, None where it is raw, its function, and how many seconds it may take."""

    signature: Optional[Signature]
    function: Callable[..., Any]
    timeout: Optional[float]


@dataclass(frozen=True)
class Servant:
    """An object: its repository ids, and what performs its operations."""

    ids: Tuple[str, ...]
    operations: Dict[str, Performer]

    def put(self, catalogue: Catalogue, key: bytes) -> None:
        """Puts it into a catalogue, whole or not at all. Raises LemonrudderError (TAKEN, TEXT)."""
        catalogue.add_object(key)
        try:
            if self.ids:
                catalogue.add_repository_ids(key, *self.ids)
            for name, performer in self.operations.items():
                if performer.signature is None:
                    catalogue.add_raw_operation(key, name)
                else:
                    catalogue.add_operation(key, name, performer.signature)
        except BaseException:
            catalogue.remove(key)
            raise


@dataclass(frozen=True)
class Judged:
    """A request with its arguments, and what performs it; or, where nothing does, what it is answered or refused by."""

    asked: Asked
    performer: Optional[Performer]
    answer: Union[Outcome, Refuse, None] = None

    def outcome(self, ended: Any) -> Outcome:
        """What a servant returns or raises as an outcome, by the types under which it was asked, which are perhaps on
        offer no more. Raises ValueError, TypeError, LemonrudderError (OUTCOME)."""
        signature = None if self.performer is None else self.performer.signature
        if isinstance(ended, Outcome):
            made = ended
        elif isinstance(ended, SystemException):
            return system_outcome(known_name(ended.name), ended.minor, ended.completed)
        elif isinstance(ended, UserException):
            if signature is None or ended.id not in signature.raises:
                raise LemonrudderError(Error.OUTCOME, f"the operation does not raise {ended.id}")
            body = pack("s" + signature.raises[ended.id], ended.id, *ended.values)
            made = Outcome(ReplyStatus.USER_EXCEPTION, BIG, body)
        elif signature is not None:
            body = pack(signature.results, *results_of(signature.results, ended))
            made = Outcome(ReplyStatus.NO_EXCEPTION, BIG, body)
        else:
            reply = ended if isinstance(ended, RawReply) else RawReply(ended)
            if not ReplyStatus.NO_EXCEPTION <= reply.status <= ReplyStatus.LOCATION_FORWARD:
                raise ValueError(f"no status of an outcome: {reply.status}")
            made = Outcome(ReplyStatus(reply.status), Order(reply.order), octets_of(reply.octets))
        if len(made.body) > _LONGEST:
            raise ValueError(f"a body of {len(made.body)} octets is too long")
        return made


def _performer(name: str, operation: Operation, raises: Mapping[str, str], servant: Any,
               timeout: Optional[float]) -> Performer:
    """What performs an operation as it is described."""
    function: Any = operation
    signature = None
    if isinstance(operation, tuple):
        arguments, results, *functions = operation
        signature = Signature(arguments, results, dict(raises))
        if not functions and servant is None:
            raise TypeError(f"the operation {name} has no function, and there is no servant")
        function = functions[0] if functions else getattr(servant, name)
        for format in (arguments, results, *raises.values()):
            parsed(format)
    if not callable(function):
        raise TypeError(f"the operation {name} has no function: {function!r}")
    return Performer(signature, function, timeout)


def described(repository_ids: Union[str, Sequence[str]], operations: Mapping[str, Operation],
              raises: Optional[Mapping[str, Mapping[str, str]]], servant: Any, timeout: Optional[float]) -> Servant:
    """The object that is described. Errors as of Server.add."""
    ids = (repository_ids,) if isinstance(repository_ids, str) else tuple(repository_ids)
    raises = raises or {}
    performers = {name: _performer(name, operation, raises.get(name, {}), servant, timeout)
                  for name, operation in operations.items()}
    others = [name for name in raises if name not in performers or performers[name].signature is None]
    if others:
        raise ValueError(f"no operations with types: {others}")
    return Servant(ids, performers)


class Offer:
    """The objects of a server, in Python and in catalogues."""

    def __init__(self) -> None:
        self.objects: Dict[bytes, Servant] = {}
        self.families = Fronts({})
        self.default: Optional[Performer] = None

    def add(self, catalogue: Catalogue, key: bytes, servant: Servant) -> None:
        """Adds an object, to a catalogue too. Raises LemonrudderError (TAKEN, TEXT)."""
        servant.put(catalogue, key)
        self.objects[key] = servant

    def remove(self, catalogue: Catalogue, key: bytes) -> None:
        """Takes an object away, from a catalogue too. Raises LemonrudderError (OBJECT)."""
        catalogue.remove(key)
        del self.objects[key]

    def catalogue(self) -> Catalogue:
        """A catalogue of all that there is."""
        made = Catalogue()
        for key, servant in self.objects.items():
            servant.put(made, key)
        if self.families.found:
            with Catalogue() as families:
                for key, servant in self.families.found.items():
                    servant.put(families, key)
                made.add_families(families)
        if self.default is not None:
            made.add_default()
        return made

    def with_family(self, key: bytes, servant: Servant) -> Offer:
        """The same and a family. Raises LemonrudderError (TAKEN, TEXT)."""
        if key in self.families.found:
            raise LemonrudderError(Error.TAKEN)
        return self._with(Fronts({**self.families.found, key: servant}), self.default)

    def without_family(self, key: bytes) -> Offer:
        """The same without a family. Raises LemonrudderError (OBJECT)."""
        if key not in self.families.found:
            raise LemonrudderError(Error.OBJECT)
        return self._with(Fronts({one: servant for one, servant in self.families.found.items() if one != key}),
                          self.default)

    def with_default(self, performer: Performer) -> Offer:
        """The same and what performs all that leads nowhere else. Raises LemonrudderError (TAKEN)."""
        if self.default is not None:
            raise LemonrudderError(Error.TAKEN)
        return self._with(self.families, performer)

    def _with(self, families: Fronts, default: Optional[Performer]) -> Offer:
        made = Offer()
        made.objects, made.families, made.default = self.objects, families, default
        return made

    def found(self, key: bytes) -> Optional[Servant]:
        """The object to which a key leads, but for the default one."""
        servant: Optional[Servant] = self.objects.get(key) or self.families.longest(key)
        return servant

    def performer(self, key: bytes, operation: str) -> Performer:
        """What performs an operation that was asked for. Raises KeyError: there is none."""
        servant = self.found(key)
        if servant is not None:
            return servant.operations[operation]
        if self.default is None:
            raise KeyError((key, operation))
        return self.default

    def judged(self, asked: Asked) -> Judged:
        """What becomes of a request that an engine asks for, also of one that it would refuse. Raises KeyError: there
        is nothing of its name."""
        if asked.refusal is not None:
            return Judged(asked, None, Refuse(asked.refusal.name))
        servant = self.found(asked.key)
        if servant is not None and asked.operation not in servant.operations and asked.arguments is not None:
            is_one = bool(asked.arguments) and asked.arguments[0] in (*servant.ids, _OBJECT)
            return Judged(asked, None, Outcome(ReplyStatus.NO_EXCEPTION, BIG, pack("?", is_one)))
        return Judged(asked, self.performer(asked.key, asked.operation))
