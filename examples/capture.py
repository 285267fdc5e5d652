#!/usr/bin/env python3
"""Prints a line for each GIOP message in a capture of one TCP connection.

usage: capture.py [FILE]

FILE, or standard input, is what `tshark -r CAPTURE -q -z follow,tcp,raw,N` prints, where the lines of the side that did
not begin are indented by a tab; or the octets of one side, as hexadecimal digits. A line begins with `>` for the side
that began and `<` for the other. Where a stream has a fault, a line says so, and that side is not read any further.
"""
import os
import re
import sys
from typing import Iterable, Iterator

sys.path.insert(0, os.path.join(os.path.dirname(os.path.abspath(__file__)), "..", "bindings", "python"))

from lemonrudder import Assembler, Message, StreamError  # noqa: E402

# what else stands in the lines of tshark: rules, and who follows whom
DIGITS = re.compile(r"\t?[0-9A-Fa-f \t]+")


def words_of(message: Message) -> Iterator[str]:
    """What a message says, in words."""
    yield f"1.{message.version} {message.order.name.lower()} {message.type.name}"
    if message.request_id is not None:
        yield f"id {message.request_id}"
    if message.wish is not None:
        yield f"reply {message.wish.name.lower()}"
    if message.key is not None:
        yield f"key {message.key.hex() or '-'}"
    if message.operation is not None:
        yield f"operation {message.operation}"
    if message.status is not None:
        yield f"status {message.status.name}"
    for number, data in message.contexts:
        yield f"context {number} {data.hex() or '-'}"
    if message.ft is not None:
        yield f"client {message.ft.client.decode('latin-1')} retention {message.ft.retention_id}"
        yield f"expiration {message.ft.expiration}"
    if message.body is not None:
        yield f"body {message.body.octets.hex() or '-'}"


def lines_of(capture: Iterable[str]) -> Iterator[str]:
    """The lines to print."""
    sides = {side: Assembler(partials=16) for side in "><"}
    for line in capture:
        line = line.rstrip("\r\n")
        if not DIGITS.fullmatch(line):
            continue
        side = "<" if line.startswith("\t") else ">"
        if sides[side].fault is not None:
            continue
        fault = []
        try:
            messages = sides[side].feed(bytes.fromhex(line))
        except StreamError as error:
            messages, fault = error.messages, [f"{side} fault {error.fault.name}"]
        yield from (" ".join([side, *words_of(message)]) for message in messages)
        yield from fault


def main() -> None:
    with open(sys.argv[1] if len(sys.argv) > 1 else 0, encoding="latin-1") as capture:
        for line in lines_of(capture):
            print(line)


if __name__ == "__main__":
    main()
