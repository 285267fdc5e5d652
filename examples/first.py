"""A client calls a counter, loses the connection with the reply, and calls again: it acts once."""
import asyncio

from lemonrudder import Client, Server


class Counter:
    """The object, whose one operation is long long add(in long n)."""

    total = 0

    def add(self, n):
        self.total += n
        return self.total


async def main():
    counter, server, connections = Counter(), Server(), []
    server.add("counter", "IDL:Counter:1.0", {"add": ("l", "q")}, servant=counter)
    port = await server.listen()

    async def relay(reader, writer):
        """Hands a request on to the server, and the reply back; that of the first connection is lost."""
        connections.append(writer)
        from_server, to_server = await asyncio.open_connection("127.0.0.1", port)
        to_server.write(await reader.read(4096))
        reply = await from_server.read(4096)
        if len(connections) > 1:
            writer.write(reply)
        writer.close()
        to_server.close()

    listener = await asyncio.start_server(relay, "127.0.0.1", 0)
    client = Client("127.0.0.1", listener.sockets[0].getsockname()[1])
    result = await client.call("counter", "add", "l", (7,), results="q")
    print(f"add returned {result}, the total is {counter.total}")
    await client.close()
    await server.close()
    listener.close()


asyncio.run(main())
