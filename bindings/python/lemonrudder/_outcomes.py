"""What operations and calls raise."""
from __future__ import annotations

from dataclasses import dataclass
from typing import Optional, Sequence, Union

from ._cdr import BIG, pack
from ._library import named
from ._messages import Body
from ._references import Ior
from ._table import Completed, ReplyStatus, SystemName


@dataclass(frozen=True)
class Outcome:
    """What became of a request, in the form in which it is stored: the status of its Reply, a `ReplyStatus`, and the
    order and the octets of its body, which are aligned from place 0."""

    status: int
    order: int
    body: bytes


class UserException(Exception):
    """An exception that an operation declares, to raise from a servant, or raised by a call.

    id: its repository id. values: those of its members. body: of a call that did not name it, its members as octets.
    """

    def __init__(self, id: str, values: Sequence[object] = (), body: Optional[Body] = None) -> None:
        if isinstance(values, (str, bytes)):
            raise TypeError(f"values of members, and not one: {values!r}")
        super().__init__(id, tuple(values))
        self.id, self.values, self.body = id, tuple(values), body


class SystemException(Exception):
    """A system exception, to raise from a servant, or raised by a call.

    name: as "TRANSIENT"; of an exception that is not OMG's, its repository id. A server has those of `SystemName`, and
    answers any other as UNKNOWN. minor: its minor code. completed: whether the operation was, a `Completed`.
    From a servant it is the outcome of the request: kept, and what its repeats get. For "not now" there is Refuse.
    """

    def __init__(self, name: str, minor: int = 0, completed: int = Completed.NO) -> None:
        self.name, self.minor, self.completed = name, minor, named(Completed, completed)
        super().__init__(self.name, self.minor, self.completed)

    def __str__(self) -> str:
        completed = self.completed.name if isinstance(self.completed, Completed) else self.completed
        return f"{self.name}, minor {self.minor}, COMPLETED_{completed}"


class Refuse(Exception):
    """Raised by a servant that refuses a request for now and has done nothing: the answer is a system exception with
    COMPLETED_NO, nothing is kept, and it is asked again when the request is sent again. The connection stays.

    name: a name of SystemName. minor: its minor code. Raises ValueError: there is no such name.
    """

    def __init__(self, name: str = "TRANSIENT", minor: int = 0) -> None:
        if name not in SystemName.__members__:
            raise ValueError(f"no name of SystemName: {name!r}")
        self.name, self.minor = name, minor
        super().__init__(self.name, self.minor)

    def __str__(self) -> str:
        return f"{self.name}, minor {self.minor}, COMPLETED_NO"


class GiveUp(Exception):
    """Raised by a servant that can't perform a request now and has done nothing: its connection is closed without an
    answer, and it is asked again when the request is sent again. From an async servant it is Refuse()."""


class Expired(TimeoutError):
    """A call was not answered up to its expiration. Whether it was performed is not known.

    sent: how often it was sent; 0 says that it was not performed. Its __cause__ is what stood in the way last, as that
    nobody listens or that the server said TRANSIENT, where something did.
    """

    def __init__(self, text: str, sent: int = 0) -> None:
        super().__init__(text)
        self.sent = sent


class ForwardRequest(Exception):
    """A server names another reference, `ior`, to ask in place of this one."""

    def __init__(self, ior: Ior) -> None:
        super().__init__(ior)
        self.ior = ior


class NeedsAddressing(Exception):
    """A server wants another addressing than by the object key."""


def system_outcome(name: Union[str, int], minor: int, completed: int) -> Outcome:
    """A system exception as an outcome. Raises KeyError: there is no such name; ValueError."""
    id = f"IDL:omg.org/CORBA/{SystemName(system_number(name)).name}:1.0"
    return Outcome(ReplyStatus.SYSTEM_EXCEPTION, BIG, pack("sLe3", id, minor, completed))


def known_name(name: str) -> str:
    """The name of a system exception; UNKNOWN where a server does not have it."""
    return name if name in SystemName.__members__ else "UNKNOWN"


def system_number(name: Union[str, int]) -> int:
    """The number of a system exception, which is named or has it already. Raises KeyError: there is no such name."""
    return SystemName[name] if isinstance(name, str) else name
