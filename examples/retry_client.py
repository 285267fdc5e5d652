#!/usr/bin/env python3
"""Calls add(7) on the counter of `giop serve`, loses the connection, and sends the call again on a second one."""
import socket
import sys


def call(octets, wanted):
    """Sends a request on a connection of its own, and returns so many octets of the reply."""
    with socket.create_connection(("127.0.0.1", int(sys.argv[1]))) as server:
        server.sendall(bytes.fromhex(octets))
        return server.recv(wanted, socket.MSG_WAITALL).hex() if wanted else "lost"


HEAD = "03000000 00000000 00000001 63000000"  # a reply is wished for; the object key `c`
FT = "00000001 0000000d 00000018 00000000 00000002 41000000 00000001 ffffffffffffffff"  # client `A`, its request 1
ADD = HEAD + "00000004 61646400" + FT + "00000000 00000007"
print(call("47494f50 01020000 00000048 00000005" + ADD, 0))
print(call("47494f50 01020000 00000048 00000009" + ADD, 32))
print(call("47494f50 01020000 00000020 00000014" + HEAD + "00000004 67657400 00000000", 32))
