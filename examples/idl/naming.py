#!/usr/bin/env python3
"""Names objects at a naming service, as omniNames, by what omniidl makes of its CosNaming.idl.

    omniidl -p idl -blemonrudder -Wbpython -Cmade /usr/share/idl/omniORB/COS/CosNaming.idl
    PYTHONPATH=made:bindings/python python3 examples/idl/naming.py 127.0.0.1 2809 bind shop/bank IOR:..
    PYTHONPATH=made:bindings/python python3 examples/idl/naming.py 127.0.0.1 2809 resolve shop/bank
    PYTHONPATH=made:bindings/python python3 examples/idl/naming.py 127.0.0.1 2809 list

Its root is the object `NameService` at its address: what corbaloc::127.0.0.1:2809/NameService names.
"""
import asyncio
import sys
from typing import List

from CosNaming import NameComponent, NamingContext
from lemonrudder import Ior


def name_of(path: str) -> List[NameComponent]:
    """The name of a path: a component of each part, without a kind."""
    return [NameComponent(part, "") for part in path.split("/")]


async def bind(root: NamingContext, path: str, reference: str) -> None:
    """Names an object; contexts that are missing are made, and a name that is there is given anew."""
    name = name_of(path)
    for end in range(1, len(name)):
        try:
            await root.bind_new_context(name[:end])
        except NamingContext.AlreadyBound:
            pass
    await root.rebind(name, Ior.parse(reference))


async def main(host: str, port: str, command: str, *words: str) -> int:
    root = NamingContext._of(Ior.iiop(NamingContext._interface.ids[0], host, int(port), "NameService"))
    async with root:
        try:
            if command == "bind":
                await bind(root, *words)
            elif command == "resolve":
                print(await root.resolve(name_of(*words)))
            else:
                bindings, _ = await root.list(1000)
                print("\n".join(f"{one.binding_name[0].id} {one.binding_type._n}" for one in bindings))
        except NamingContext.NotFound as error:
            print(f"not found: {'/'.join(part.id for part in error.rest_of_name)}", file=sys.stderr)
            return 1
    return 0


if __name__ == "__main__":
    sys.exit(asyncio.run(main(*sys.argv[1:])))
