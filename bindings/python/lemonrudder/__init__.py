"""GIOP 1.0, 1.1 and 1.2 over IIOP (OMG CORBA 3.3 Part 2, clause 9), by the proved functions of liblemonrudder.

What there is, from the octets up:

    pack, unpack, Reader, Writer     values of CDR, by a format
    Ior                              references to objects
    messages, Assembler              the messages of a stream, fragments joined
    write_request, write_reply ..    messages as octets
    Catalogue, Engine                a server of requests that may be sent again, for a loop of your own
    Server, Client                   both ends over asyncio
    SqliteStore, PostgresStore       where a Server keeps outcomes that outlive it; a Store of your own
    MemoryStore                      where it keeps them up to its end, or the next process

The shared library is looked for by the environment variable LEMONRUDDER_LIBRARY, a path; else beside this module; else
by ctypes.util.find_library. Where it is not found, or its version is none for this module, the import fails by
ImportError.

Formats.  A format spells types, one after another, in the manner of the module `struct`; spaces count for nothing.

    ?          boolean              bool
    c          char                 str of one character (ISO 8859-1)
    B          octet                int, 0 to 255
    h H        short, unsigned      int of 16 bits
    l L        long, unsigned       int of 32 bits (also i I)
    q Q        long long, unsigned  int of 64 bits
    f d        float, double        float
    s          string               str (ISO 8859-1)
    o          sequence<octet>      bytes
    [T]        sequence<T>          list, of one type T
    (T..)      struct               tuple, of 1 to 255 types
    eN         enum of N names      int, 0 to N - 1, where N is 1 to 255

So "s[(lq)]" is a string, and a sequence of structs of a long and a long long. REFERENCE is the format of a reference to
an object, and Ior.value its value. A string is read as a str in which each character is one octet: so no octets are
refused, and text.encode("latin-1") has them as they came. Written are a str of such characters, or bytes in any other
code set. Sequences and strings have no bounds.

Octets are taken as bytes, bytearray or memoryview; keys, ids and names also as a str, by ISO 8859-1. A moment is an int
that counts 100 ns since 15 October 1582, 00:00 UTC, as an expiration of FT_REQUEST does: now() is that of the system's
clock. A version is its minor number: 0, 1 or 2.

Errors.  LemonrudderError has the number and the text of what the library answers. A format that is none is a
FormatError; a value or number that its type does not hold a ValueError, one of another Python type a TypeError.

Threads.  An object may be handed from thread to thread. The library is called with the interpreter's lock held, so that
calls do not overlap; what takes several calls, as feed and then asked, is for one thread at a time. In an interpreter
without that lock an object is for one thread at a time.
"""
from ._catalogue import Catalogue, Signature
from ._cdr import BIG, LITTLE, FormatError, Reader, Writer, pack, type_codes, unpack
from ._client import Client
from ._current import Current, current
from ._engine import Asked, Engine
from ._library import LIMIT, PARTIALS, LemonrudderError, moment_of, now
from ._memory import MemoryStore
from ._messages import (FT_REQUEST, Assembler, Body, FtRequest, Message, StreamError, messages, write_cancel,
                        write_close, write_error, write_ft, write_locate_reply, write_locate_request, write_reply,
                        write_request)
from ._outcomes import (Expired, ForwardRequest, GiveUp, NeedsAddressing, Outcome, Refuse, SystemException,
                        UserException)
from ._postgres import PostgresStore
from ._references import REFERENCE, Address, Ior, Profile
from ._servants import Operation, RawReply
from ._server import Server
from ._sqlite import SqliteStore
from ._store import Kept, Store, StoreError
from ._table import (VERSION, Completed, ContextId, Counted, Cuts, Error, Fault, LocateStatus, MessageType, Order,
                     ReplyStatus, SystemName, Why, Wish)

__version__ = ".".join(map(str, VERSION))

__all__ = [
    "BIG", "FT_REQUEST", "LIMIT", "LITTLE", "PARTIALS", "REFERENCE", "VERSION", "Address", "Asked", "Assembler", "Body",
    "Catalogue", "Client", "Completed", "ContextId", "Counted", "Current", "Cuts", "Engine", "Error", "Expired", "Fault",
    "FormatError", "ForwardRequest", "FtRequest", "GiveUp", "Ior", "Kept", "LemonrudderError", "LocateStatus",
    "MemoryStore", "Message", "MessageType", "NeedsAddressing", "Operation", "Order", "Outcome", "PostgresStore",
    "Profile", "RawReply", "Reader",
    "Refuse", "ReplyStatus", "Server", "Signature", "SqliteStore", "Store", "StoreError", "StreamError",
    "SystemException", "SystemName", "UserException", "Why", "Wish", "Writer", "current", "messages", "moment_of",
    "now", "pack", "type_codes", "unpack", "write_cancel", "write_close", "write_error", "write_ft", "write_locate_reply",
    "write_locate_request", "write_reply", "write_request",
]
