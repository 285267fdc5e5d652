"""Stores: where a Server keeps outcomes that outlive it."""
from __future__ import annotations

import pkgutil
import re
from typing import Any, AsyncContextManager, Dict, Optional, Protocol

from ._messages import FtRequest
from ._outcomes import Outcome

VERSION = 4
"""The version of the tables `outcome` and `forgotten`."""


class Kept(Exception):
    """Raised by Store.put, and so by Current.store: the store has an outcome of the request, of another process or of
    one before. It ends the servant's transaction, which so undoes what it did, and the server answers by what the store
    has."""


class StoreError(Exception):
    """A store can't be used now; its text says in a line why."""


class Store(Protocol):
    """A database of outcomes, and of what servants change.

    It has of each key, which is a client id and a retention id, one outcome at most, with the expiration of its
    request; and the mark W: the greatest expiration that was taken out, plus 1, or 0. A key whose expiration lies
    before W is not put, so that what was taken out is not performed anew, whatever clocks say. Of a transaction that is
    committed everything lasts.
    """

    def transaction(self) -> AsyncContextManager[Any]:
        """A transaction, as what `put` and a servant take: committed at its end, and undone by an exception. Where
        that fails, it raises what `is_trouble` knows."""

    async def find(self, key: FtRequest) -> Optional[Outcome]:
        """The outcome of a key, if there is one. Raises Refuse("BAD_CONTEXT"): there is none, and its expiration lies
        before W. All of that is of one moment, at which what was committed before it began is there."""

    async def put(self, transaction: Any, key: FtRequest, outcome: Outcome) -> None:
        """Writes the outcome of a key, in a transaction, under a lock of W that lasts to the transaction's end and that
        `purge` takes too. Raises Kept: the key has one; Refuse("BAD_CONTEXT"): its expiration lies before W."""

    async def purge(self, moment: int) -> int:
        """Takes out the outcomes whose expiration lies before a moment, with W in one transaction, and returns how many
        these were."""

    def is_trouble(self, error: BaseException) -> bool:
        """Whether an exception says that the store failed, and not what asked it."""


def octets_of_moment(moment: int) -> bytes:
    """A moment as it is stored, so that it compares as octets do: eight of them in big order."""
    return moment.to_bytes(8, "big")


def statements(kind: str) -> Dict[str, str]:
    """What is said to the tables in a kind of database, by its names: of outcomes.KIND.sql, as all languages read it."""
    text = (pkgutil.get_data("lemonrudder", f"outcomes.{kind}.sql") or b"").decode("ascii")
    parts = re.split(r"^-- :(.+)\n", text, flags=re.M)[1:]
    return {name: re.sub(r"^--.*\n", "", said, flags=re.M).strip() for name, said in zip(parts[::2], parts[1::2])}


def changes(says: Dict[str, str], found: Optional[int], where: str) -> str:
    """What makes the tables of those that are there, of a version or 0. Raises StoreError: they are of another program."""
    if found is None:
        raise StoreError(f"{where}: its table outcome is of another program")
    if found >= VERSION:
        return ""
    return "\n".join(says.get(name, "") for name in (f"aside {found}", "tables", f"over {found}"))


def sure_of_version(found: Any, where: str) -> None:
    """Raises StoreError where tables are of another version."""
    if found != VERSION:
        raise StoreError(f"{where} has outcomes of version {found}, and not {VERSION}")
