"""A server of requests that may be sent again, for a loop of your own: a thin layer over lr_server."""
from __future__ import annotations

import ctypes
import secrets
from dataclasses import dataclass
from typing import Any, Dict, Optional, Sequence, Tuple, Union

from ._catalogue import Catalogue, Signature, Types
from ._cdr import BIG, pack
from ._library import (LIMIT, PARTIALS, Held, LemonrudderError, Octets, Text, address_of, call, checked, copied, lent,
                       library, named, now, octets_of, structs)
from ._messages import Body, FtRequest, listed
from ._outcomes import Outcome, system_number, system_outcome
from ._table import Completed, Counted, Cuts, Error, Order, Part, ReplyStatus, ServerSetting, SystemName, Why, Wish

CONTEXTS = 64
"""How many service contexts of a request are read where nothing else is said."""


@dataclass(frozen=True)
class Asked:
    """A request that waits for its outcome.

    ticket: a number of this request alone. arguments: the values of its arguments; None of a raw operation. body: its
    octets as they came, which begin with these. ft: what its FT_REQUEST says, if it carries one. contexts: how many
    service contexts it has. refusal: by what it would be refused, where you are asked first, or by what you are to
    refuse it, where it has more than max_elements: then it is raw.
    """

    ticket: int
    connection: int
    key: bytes
    operation: str
    arguments: Optional[Tuple[Any, ...]]
    body: Body
    request_id: int
    version: int
    wish: int
    ft: Optional[FtRequest]
    contexts: int = 0
    refusal: Optional[SystemName] = None

    @property
    def is_raw(self) -> bool:
        return self.arguments is None


class Engine(Held):
    """A server of requests that may be sent again: a thin layer over lr_server, for a loop of your own.

    Octets that come on connections go in by `feed`, up to a request that is to be performed. `asked` says what it asks
    for; you perform it, and hand in what came of it by `answer` or one of its like, which keeps it for repeats. Octets
    that are due go out by `output`, after each call. The first of these that holds decides what a request is answered:
    FT_REQUEST not valid, expired, repeated, nothing of that name, arguments not valid, no room. Else it comes to you.

    One request waits at a time. While it does, feed, connect, lost, farewell, tick and swap raise LemonrudderError
    (ASKING). What takes its time you `park`: others are fed meanwhile, and it is answered later by its ticket, which
    each call that answers takes; without a ticket it is about the request that waits. What became due by that
    `next_due` says. A repeat of a parked request joins those who wait for its outcome.

    catalogue: the objects; it is empty afterwards. limit, partials and cuts: as of Assembler, for each connection. capacity:
    how many outcomes are kept for repeats, at most `share` of each client, all of them without one. max_parked: how
    many requests are parked at a time; max_parked_of: of those that came on one connection; max_joined: how many wait
    for the outcome of one, beside the last who came. max_due: of how many octets due on a connection on it is fed no
    more. max_client_id: the octets of a client's id. ask_first: whether a request with FT_REQUEST that would be refused
    for its object, its operation or its arguments comes to you first, who may have its outcome; else refuse it so.
    max_elements: as of Reader, of the arguments of a request; one that has more comes to you with a refusal, MARSHAL.
    Raises LemonrudderError (EMPTY, RANGE): the catalogue is as it was.
    """

    def __init__(self, catalogue: Catalogue, limit: int = LIMIT, partials: int = PARTIALS, capacity: int = 65536,
                 share: Optional[int] = None, *, max_parked: int = 1024, max_parked_of: int = 64, max_joined: int = 8,
                 max_due: int = 1048576, max_client_id: int = 256, ask_first: bool = False,
                 max_elements: Optional[int] = None, cuts: int = Cuts.ALIGNED) -> None:
        super().__init__()
        self._max_elements = max_elements
        self._room = ctypes.create_string_buffer(65536)
        self._head = structs["lr_request"]()
        # what waits, once it was asked for; and of each parked request its key and operation, and whether it is raw
        self._asked: Optional[Asked] = None
        self._parked: Dict[int, Tuple[bytes, str, bool]] = {}
        call(library.lr_server_open, self._slot, catalogue._slot, secrets.randbits(64), secrets.randbits(64))
        limits = {
            ServerSetting.MESSAGE: limit, ServerSetting.PARTIALS: partials, ServerSetting.CAPACITY: capacity,
            ServerSetting.SHARE: share, ServerSetting.PARKED: max_parked, ServerSetting.PARKED_OF: max_parked_of,
            ServerSetting.JOINED: max_joined, ServerSetting.DUE: max_due, ServerSetting.CLIENT_ID: max_client_id,
            ServerSetting.ASK_FIRST: ask_first, ServerSetting.CUTS: cuts,
        }
        try:
            for what, value in limits.items():
                if value is not None:
                    call(library.lr_server_set, self._slot, what, value)
        except BaseException:
            # what is on offer goes back to the catalogue
            if library.lr_catalogue_open(catalogue._slot) == 0:
                library.lr_server_swap(self._slot, catalogue._slot)
            self.close()
            raise
        self._offer, catalogue._offer = catalogue._offer, Types()

    def connect(self, connection: int) -> None:
        """Opens a connection, whose number is greater than each before.

        Raises LemonrudderError (ASKING, CONNECTION).
        """
        call(library.lr_server_connect, self._slot, connection)

    def lost(self, connection: int) -> None:
        """Forgets a connection that is gone, if there is one, what is due on it, and who waits there for an outcome.

        Raises LemonrudderError (ASKING).
        """
        call(library.lr_server_lost, self._slot, connection)

    def farewell(self, connection: int) -> int:
        """Says goodbye: CloseConnection is due, unless the connection's stream has ended. Returns how many wait there
        for the outcome of a parked request: it is due behind the last of their replies, and now where none does. What
        comes on the connection from now on has no meaning.

        Raises LemonrudderError (ASKING, CONNECTION, LOST).
        """
        return call(library.lr_server_farewell, self._slot, connection)

    def is_closed(self, connection: int) -> bool:
        """Whether a connection was never opened, is gone, has ended or CloseConnection was said, so that its socket is
        to be closed once what is due is sent."""
        return call(library.lr_server_is_closed, self._slot, connection) == 1

    def why(self, connection: int) -> Why:
        """Why a connection has ended, until it is lost; OPEN where it goes on. Raises LemonrudderError (CONNECTION)."""
        return Why(call(library.lr_server_why, self._slot, connection))

    def feed(self, connection: int, octets: Octets, moment: Optional[int] = None, start: int = 0) -> int:
        """Takes octets of a connection from an index on, which came at a moment, now if none is given. Returns the
        index after those that were taken: all; those up to a request that waits, or to a repeat of one that is parked;
        or fewer, where `max_due` octets are due. Feed the rest after what waits is answered, or less is due, at the
        same moment.

        Raises LemonrudderError (ASKING, CONNECTION; LOST: what was answered before is due).
        """
        octets = octets_of(octets)
        if not 0 <= start <= len(octets):
            raise ValueError(f"no index of {len(octets)} octets: {start}")
        moment = now() if moment is None else moment
        return start + self._feed(connection, address_of(octets) + start, moment, len(octets) - start)

    def _feed(self, connection: int, address: int, moment: int, size: int) -> int:
        """Takes octets at an address, and returns how many."""
        self._asked = None
        return call(library.lr_server_feed, self._slot, connection, moment, address, size)

    def signature(self, key: bytes, operation: str) -> Signature:
        """The types of an operation of the object that a key leads to. Raises KeyError: it is raw, or there is none."""
        return self._offer.signature(key, operation)

    def asked(self) -> Optional[Asked]:
        """The request that waits, or None."""
        head = self._head
        if not call(library.lr_server_asked, self._slot, head, ctypes.sizeof(head)):
            self._asked = None
        elif self._asked is None or self._asked.ticket != head.ticket:
            self._asked = self._read(head)
        return self._asked

    def _read(self, head: Any) -> Asked:
        """The request that waits, with its parts."""
        ticket = head.ticket
        key, operation = self._part(ticket, Part.KEY), self._part(ticket, Part.OPERATION).decode("latin-1")
        octets = self._part(ticket, Part.BODY, head.body_size)
        body, ft = Body(octets, Order(head.body_order), head.body_at, self._max_elements), None
        if head.has_client:
            ft = FtRequest(self._part(ticket, Part.CLIENT), head.retention_id, head.expiration)
        arguments, refusal = None, SystemName(head.refusal) if head.is_refused else None
        if not head.is_raw:
            try:
                arguments = body.unpack(self.signature(key, operation).arguments)
            except LemonrudderError:
                # (its values are valid, or it had not come: they are too many)
                refusal = SystemName.MARSHAL
        return Asked(ticket, head.connection, key, operation, arguments, body, head.request_id, head.version,
                     named(Wish, head.wish), ft, head.contexts, refusal)

    def contexts(self, most: int = CONTEXTS) -> Tuple[Tuple[int, bytes], ...]:
        """Ids and data of the service contexts of the request that waits, the first `most` of them: reading them takes
        time by the square of their number. Raises LemonrudderError (IDLE)."""
        found, number = [], ctypes.c_uint32()
        for index in range(min(self._waiting().contexts, most)):
            data = copied(self._room, library.lr_server_context, self._slot, index, number)
            found.append((number.value, data))
        return tuple(found)

    def park(self) -> int:
        """Parks the request that waits, and returns its ticket: it is answered later, and others are fed.

        Raises LemonrudderError (IDLE; PARKS: as many are parked as may be, MEMORY: it waits still)."""
        asked = self._asked or self._waiting()
        call(library.lr_server_park, self._slot, asked.ticket)
        self._parked[asked.ticket] = asked.key, asked.operation, asked.is_raw
        self._asked = None
        return asked.ticket

    @property
    def parked(self) -> int:
        """How many requests are parked."""
        return call(library.lr_server_parked, self._slot)

    def parked_of(self, connection: int) -> int:
        """How many of those are parked that came on a connection."""
        return call(library.lr_server_parked_of, self._slot, connection)

    def wanted(self, ticket: int) -> int:
        """How many wait for the outcome of a parked request, on connections that go on.

        Raises LemonrudderError (TICKET)."""
        return call(library.lr_server_wanted, self._slot, ticket)

    def answer(self, *results: Any, ticket: Optional[int] = None) -> None:
        """Answers a request by its results, one for each type.

        Raises ValueError or TypeError (they are not of the operation's types) or LemonrudderError (IDLE; TICKET: no
        request of that ticket waits or is parked; ASKING: it is parked, and another waits; OUTCOME, MEMORY), and it
        waits or is parked still; LemonrudderError (LOST), of one that waits: they count and are kept, and the reply is
        lost.
        """
        number, signature = self._typed(ticket)
        self._answered(number, library.lr_server_answer, BIG, *lent(pack(signature.results, *results)))

    def answer_octets(self, octets: Octets, order: int = BIG, *, ticket: Optional[int] = None) -> None:
        """Answers by results as octets, aligned from place 0. Errors as of answer."""
        self._answered(self._ticket(ticket), library.lr_server_answer, order, *lent(octets))

    def raise_user(self, id: str, *members: Any, ticket: Optional[int] = None) -> None:
        """Answers by an exception that the operation declares: its repository id, and its members.

        Errors as of answer.
        """
        number, octets = self._user(id, members, ticket)
        self._answered(number, library.lr_server_raise, *lent(id), BIG, *lent(octets))

    def raise_system(self, name: Union[str, int], minor: int = 0, completed: int = Completed.NO, *,
                     ticket: Optional[int] = None) -> None:
        """Answers by a system exception, a `SystemName` or its name.

        Errors as of answer; KeyError: there is no such name.
        """
        number = system_number(name)
        self._answered(self._ticket(ticket), library.lr_server_system, number, minor, completed)

    def answer_raw(self, octets: Octets, order: int = BIG, status: int = ReplyStatus.NO_EXCEPTION, *,
                   ticket: Optional[int] = None) -> None:
        """Answers by the body of a Reply, above all a raw operation: at most 1048576 octets, which are written for a
        place divisible by 8, and its status, NO_EXCEPTION to LOCATION_FORWARD. The types of the operation are not
        looked at. Errors as of answer."""
        self._answered(self._ticket(ticket), library.lr_server_answer_raw, status, order, *lent(octets))

    def can_answer(self, *results: Any, ticket: Optional[int] = None) -> bool:
        """Whether answer would take these results, before what they say is done. Raises LemonrudderError (IDLE,
        TICKET)."""
        try:
            self.stored(*results, ticket=ticket)
        except (TypeError, ValueError):
            return False
        except LemonrudderError as error:
            if error.number != Error.OUTCOME:
                raise
            return False
        return True

    def stored(self, *results: Any, ticket: Optional[int] = None) -> Outcome:
        """Results of a request as an outcome to store: nothing is answered. Errors as of answer, but ASKING, MEMORY and
        LOST."""
        number, signature = self._typed(ticket)
        octets = pack(signature.results, *results)
        call(library.lr_server_can_answer, self._slot, number, BIG, *lent(octets))
        return Outcome(ReplyStatus.NO_EXCEPTION, BIG, octets)

    def stored_user(self, id: str, *members: Any, ticket: Optional[int] = None) -> Outcome:
        """.. an exception that its operation declares. Errors as of raise_user, but ASKING and LOST."""
        number, octets = self._user(id, members, ticket)
        body = copied(self._room, library.lr_server_exception, self._slot, number, *lent(id), BIG, *lent(octets))
        return Outcome(ReplyStatus.USER_EXCEPTION, BIG, body)

    def stored_system(self, name: Union[str, int], minor: int = 0, completed: int = Completed.NO) -> Outcome:
        """.. a system exception. Raises KeyError: there is no such name; ValueError."""
        return system_outcome(name, minor, completed)

    def answer_stored(self, outcome: Outcome, *, ticket: Optional[int] = None) -> None:
        """Answers by a stored outcome of the request, in another process too. Errors as of answer_raw."""
        self.answer_raw(outcome.body, outcome.order, outcome.status, ticket=ticket)

    def answer_unkept(self, outcome: Outcome, *, ticket: Optional[int] = None) -> None:
        """.. and keeps nothing: a store of yours does. Where the request comes again, it comes to you again. The reply
        carries no service contexts. Errors as of answer_raw, but that LOST means that nothing is kept."""
        self._answered(self._ticket(ticket), library.lr_server_answer_unkept, outcome.status, outcome.order,
                       *lent(outcome.body))

    def reply_contexts(self, contexts: Sequence[Tuple[int, Octets]], *, ticket: Optional[int] = None) -> None:
        """Ids and data of service contexts for the replies that the next answer of a request makes due, unless it is
        refused: none, or at most 1048576 octets of them. They take the place of those that were said before, of any
        request, and are not kept: a repeat that comes later gets none. In 1.0 and 1.1 they are left out where the body
        would not stand behind them at a place divisible by 8.

        Raises LemonrudderError (IDLE, TICKET, MEMORY); ValueError or TypeError: they are none.
        """
        call(library.lr_server_reply_contexts, self._slot, self._ticket(ticket), BIG, *lent(listed(contexts)))

    def identify(self, ticket: Optional[int] = None) -> bool:
        """Answers _is_a and _non_existent of an object that names its repository ids. Returns whether it is one of
        these. Errors as of answer."""
        number = self._ticket(ticket)
        is_answered = call(library.lr_server_identify, self._slot, number) == 1
        if is_answered:
            self._parked.pop(number, None)
        return is_answered

    def refuse(self, name: Union[str, int] = "TRANSIENT", minor: int = 0, *, ticket: Optional[int] = None) -> None:
        """Refuses a request for now, by a system exception with COMPLETED_NO, a `SystemName` or its name: you have done
        nothing. Nothing is kept, and it is asked again when it comes again. Its connection stays.

        Raises LemonrudderError (IDLE, TICKET, ASKING; LOST, of one that waits: it is given up, for want of memory);
        KeyError: there is no such name.
        """
        number = system_number(name)
        self._answered(self._ticket(ticket), library.lr_server_refuse, number, minor)

    def give_up(self) -> None:
        """Gives up the request that waits: you can't perform it now, and have done nothing. Nothing is kept, and its
        connection is gone; it is asked again when it comes again. Raises LemonrudderError (IDLE)."""
        self._answered(self._ticket(None), library.lr_server_give_up)

    def goodbye(self) -> None:
        """Gives up the request that waits, and says goodbye first: CloseConnection is due, by which its client knows
        that nothing was done. An ORB connects again at once and sends it again: for draining and restarts alone.

        Raises LemonrudderError (IDLE; MEMORY, or PARKS: somebody else waits on its connection: it waits still).
        """
        self._answered(self._ticket(None), library.lr_server_goodbye)

    def next_due(self) -> Optional[int]:
        """A connection on which octets became due by the outcome of a parked request; it is named no more for these.
        None where none is left."""
        number = ctypes.c_uint64()
        return number.value if call(library.lr_server_next_due, self._slot, number) else None

    def output(self, connection: int, most: Optional[int] = None) -> bytes:
        """Takes the octets that are due on a connection, all of them, or as many as are asked for at most."""
        parts, room, left = [], self._room, most
        while left is None or left > 0:
            size = len(room) if left is None else min(left, len(room))
            taken = checked(library.lr_server_output(self._slot, connection, room, size))
            if taken == 0:
                break
            parts.append(ctypes.string_at(room, taken))
            left = None if left is None else left - taken
        return b"".join(parts)

    def count(self, what: int) -> int:
        """One of the numbers of `Counted`. Raises LemonrudderError (RANGE)."""
        return call(library.lr_server_count, self._slot, what)

    def counts(self) -> Dict[str, int]:
        """All of them, by their names in small letters."""
        return {what.name.lower(): self.count(what) for what in Counted}

    def held_by(self, client: Text) -> int:
        """How many outcomes are kept of a client, by its id."""
        return call(library.lr_server_held_by, self._slot, *lent(client))

    def next_expiry(self) -> Optional[int]:
        """The first expiration of what is kept; None where nothing is."""
        moment = ctypes.c_uint64()
        return moment.value if call(library.lr_server_next_expiry, self._slot, moment) else None

    def tick(self, moment: Optional[int] = None) -> None:
        """A moment has come, now if none is given: what expired before it is forgotten.

        Raises LemonrudderError (ASKING)."""
        call(library.lr_server_tick, self._slot, now() if moment is None else moment)

    def swap(self, catalogue: Catalogue) -> None:
        """Exchanges what is on offer and a catalogue, so that objects are added and taken away. What is kept stays. A
        parked request is answered by an outcome of its operation as that is on offer then, or by a system exception.

        Raises LemonrudderError (EMPTY, ASKING)."""
        call(library.lr_server_swap, self._slot, catalogue._slot)
        self._offer, catalogue._offer = catalogue._offer, self._offer

    def _part(self, ticket: int, part: int, size: int = 0) -> bytes:
        """A part, which has about so many octets."""
        room = self._room if size <= len(self._room) else ctypes.create_string_buffer(size)
        return copied(room, library.lr_server_part, self._slot, ticket, part)

    def _answered(self, ticket: int, function: Any, *arguments: Any) -> None:
        """Hands in what became of a request: unless that fails it is parked no more."""
        call(function, self._slot, ticket, *arguments)
        self._parked.pop(ticket, None)

    def _waiting(self) -> Asked:
        """The request that waits. Raises LemonrudderError (IDLE)."""
        asked = self.asked()
        if asked is None:
            raise LemonrudderError(Error.IDLE)
        return asked

    def _ticket(self, ticket: Optional[int]) -> int:
        """A ticket, which is that of the request that waits where none is given. Raises LemonrudderError (IDLE)."""
        if ticket is not None:
            return ticket
        head = self._head
        if not call(library.lr_server_asked, self._slot, head, ctypes.sizeof(head)):
            raise LemonrudderError(Error.IDLE)
        return int(head.ticket)

    def _user(self, id: str, members: Sequence[Any], ticket: Optional[int]) -> Tuple[int, bytes]:
        """A ticket as of _ticket, and the members of an exception that the operation declares."""
        number, signature = self._typed(ticket)
        if id not in signature.raises:
            raise LemonrudderError(Error.OUTCOME, f"the operation does not raise {id}")
        return number, pack(signature.raises[id], *members)

    def _typed(self, ticket: Optional[int]) -> Tuple[int, Signature]:
        """A ticket as of _ticket, and the types of the operation that is asked for."""
        asked = self._asked
        if asked is None or asked.ticket != ticket:
            asked = self.asked()
        if asked is not None and ticket in (None, asked.ticket):
            ticket, (key, operation, is_raw) = asked.ticket, (asked.key, asked.operation, asked.is_raw)
        elif ticket is None:
            raise LemonrudderError(Error.IDLE)
        elif ticket in self._parked:
            key, operation, is_raw = self._parked[ticket]
        else:
            raise LemonrudderError(Error.TICKET)
        try:
            return ticket, self.signature(key, operation)
        except KeyError:
            text = "the operation is raw" if is_raw else "the operation is not on offer any more"
            raise LemonrudderError(Error.OUTCOME, text) from None
