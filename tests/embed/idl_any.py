"""The box of tests/embed/idl_any_test.py in Python: a server, and a client of a box, whose anys another box judges."""
import asyncio
import signal
import sys
from typing import Dict, List, Tuple

import lemonrudder as lr
from Pass import Bad, Box, Either, Held
from Pass__POA import Box as BoxServant
from lemonrudder import idl

# basic types, and a value of each
BASICS: Dict[str, Tuple[idl.IdlType, object]] = {
    "boolean": (idl.boolean, True), "char": (idl.char, "x"), "octet": (idl.octet, 200), "short": (idl.short, -5),
    "ushort": (idl.ushort, 65000), "long": (idl.long, -70000), "ulong": (idl.ulong, 4000000000),
    "longlong": (idl.longlong, -5000000000), "ulonglong": (idl.ulonglong, 10000000000000000000),
    "float": (idl.float_, 0.5), "double": (idl.double, -0.375), "string": (idl.string(), "a text"),
}


def made(name: str) -> idl.Any:
    return idl.Any.of(*BASICS[name])


class Own(BoxServant):
    def __init__(self) -> None:
        self.one = idl.Any()

    def known(self, are_basic: bool) -> List[str]:
        return list(BASICS)

    def make(self, name: str) -> idl.Any:
        return made(name)

    def check(self, name: str, one: idl.Any) -> bool:
        return one.value() == BASICS[name][1] and type(one.value()) is type(BASICS[name][1])

    async def turn(self, one: idl.Any, two: idl.Any) -> Tuple[idl.Any, idl.Any, idl.Any]:
        return one, two, one

    def hold(self, one: Held) -> Held:
        return one

    async def pick(self, one: Either) -> Either:
        return one

    def fail(self, why: int, what: idl.Any) -> None:
        raise Bad(why, what)

    def _get_kept(self) -> idl.Any:
        return self.one

    def _set_kept(self, value: idl.Any) -> None:
        self.one = value


async def serve() -> None:
    stop = asyncio.Event()
    asyncio.get_running_loop().add_signal_handler(signal.SIGTERM, stop.set)
    async with lr.Server() as server:
        idl.add(server, "box", Own())
        await server.listen("127.0.0.1")
        print(server.reference("box"), flush=True)
        await stop.wait()


async def passed(box: Box, one: idl.Any) -> List[idl.Any]:
    """What comes back of an any."""
    back = [*await box.turn(one, one)]
    held = await box.hold(Held(3, one, [one, one]))
    back += [held.one, *held.more, (await box.pick(Either(one=one))).one]
    try:
        await box.fail(7, one)
    except Bad as raised:
        back += [raised.what]
    await box._set_kept(one)
    return [*back, await box._get_kept()]


async def ask(reference: str, judge: str) -> None:
    async with Box._of(reference) as box, Box._of(judge) as other:
        for name in await other.known(False):
            back = await passed(box, await other.make(name))
            print(name, sum([await other.check(name, one) for one in back]))
        for name, (_, value) in BASICS.items():
            its = await other.make(name)
            print("of", name, int(its.value() == value), int(await other.check(name, made(name))))


asyncio.run(ask(sys.argv[2], sys.argv[-1]) if len(sys.argv) > 2 else serve())
