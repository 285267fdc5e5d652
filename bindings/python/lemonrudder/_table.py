"""Made by scripts/header.py of embed/include/lemonrudder.h; not to be edited.

The numbers that have names, by families and all of them; the structs, with the types of their fields; and of each
function the type of what it answers and those of its parameters. Types are in the words of C.
"""
import enum
from typing import Dict, Tuple

VERSION = (0, 2, 0)


class Error(enum.IntEnum):
    """What a function answers where it fails."""

    EMPTY = -1
    """the slot is empty, or holds an object of another kind"""
    OPEN = -2
    """the slot holds an object already, or it is too late for this"""
    MEMORY = -3
    """an allocation failed, and nothing has changed"""
    RANGE = -4
    """a number is none of those that are allowed"""
    CONNECTION = -5
    """there is no such connection, or the number of a new one is not greater than each before"""
    ASKING = -6
    """a request waits for its outcome"""
    IDLE = -7
    """no request waits"""
    PARKS = -8
    """as many requests are parked as may be, or somebody waits there for one that is"""
    OUTCOME = -9
    """no outcome of the operation, or one that can't be sent"""
    ROOM = -10
    """the room is too small"""
    SHORT = -11
    """octets are missing at the end"""
    VALUE = -12
    """the octets are no value of the type"""
    TYPES = -13
    """the codes spell no valid types"""
    TEXT = -14
    """a NUL where none may be, or a name of a length that is not allowed"""
    TAKEN = -15
    """there is an object or operation of that name, or a call of that number or a greater one"""
    OBJECT = -16
    """there is no object of that key"""
    RAW = -17
    """every operation of the object is raw"""
    REFERENCE = -18
    """no stringified reference"""
    STREAM = -19
    """the stream has a fault, and is at its end"""
    NONE = -20
    """there is no such part"""
    EXPIRED = -21
    """the moment is past the expiration"""
    CALLS = -22
    """as many calls are pending as a client keeps, or it has given all its numbers"""
    LONG = -23
    """the message would be longer than its size can say"""
    LOST = -24
    """an allocation failed, and the connection is gone"""
    PLACE = -25
    """the body would stand at a place that is not divisible by 8"""
    TICKET = -26
    """no request of that ticket waits or is parked"""
    FORWARD = -27
    """no pending call of that number is led elsewhere"""


class Order(enum.IntEnum):
    """The order of the octets of a number."""

    BIG = 0
    LITTLE = 1


class Wish(enum.IntEnum):
    """Which reply a request asks for: none, one without results, or a whole one."""

    NONE = 0
    EMPTY = 1
    FULL = 2


class ReplyStatus(enum.IntEnum):
    """The status of a Reply (CORBA 3.3 Part 2, 9.4.3.1)."""

    NO_EXCEPTION = 0
    USER_EXCEPTION = 1
    SYSTEM_EXCEPTION = 2
    LOCATION_FORWARD = 3
    LOCATION_FORWARD_PERM = 4
    NEEDS_ADDRESSING_MODE = 5


class LocateStatus(enum.IntEnum):
    """The status of a LocateReply (CORBA 3.3 Part 2, 9.4.6.1)."""

    UNKNOWN_OBJECT = 0
    OBJECT_HERE = 1
    OBJECT_FORWARD = 2
    OBJECT_FORWARD_PERM = 3
    SYSTEM_EXCEPTION = 4
    NEEDS_ADDRESSING_MODE = 5


class SystemName(enum.IntEnum):
    """The system exceptions (CORBA 3.3 Part 2, A.5)."""

    MARSHAL = 0
    BAD_CONTEXT = 1
    NO_RESOURCES = 2
    BAD_OPERATION = 3
    OBJECT_NOT_EXIST = 4
    UNKNOWN = 5
    BAD_PARAM = 6
    NO_PERMISSION = 7
    IMP_LIMIT = 8
    INTERNAL = 9
    TRANSIENT = 10
    NO_MEMORY = 11
    COMM_FAILURE = 12
    INV_OBJREF = 13
    INITIALIZE = 14
    NO_IMPLEMENT = 15
    BAD_TYPECODE = 16
    NO_RESPONSE = 17
    PERSIST_STORE = 18
    BAD_INV_ORDER = 19
    FREE_MEM = 20
    INV_IDENT = 21
    INV_FLAG = 22
    INTF_REPOS = 23
    OBJ_ADAPTER = 24
    DATA_CONVERSION = 25
    TRANSACTION_REQUIRED = 26
    TRANSACTION_ROLLEDBACK = 27
    INVALID_TRANSACTION = 28
    INV_POLICY = 29
    CODESET_INCOMPATIBLE = 30
    REBIND = 31
    TIMEOUT = 32
    TRANSACTION_UNAVAILABLE = 33
    TRANSACTION_MODE = 34
    BAD_QOS = 35
    INVALID_ACTIVITY = 36
    ACTIVITY_COMPLETED = 37
    ACTIVITY_REQUIRED = 38
    THREAD_CANCELLED = 39


class Completed(enum.IntEnum):
    """Whether an operation was completed before its exception."""

    YES = 0
    NO = 1
    MAYBE = 2


class Part(enum.IntEnum):
    """Parts that are copied out, by the functions .._part."""

    KEY = 0
    """the object key"""
    OPERATION = 1
    """the name of the operation"""
    BODY = 2
    """the arguments, or the body of a reply"""
    CLIENT = 3
    """the client id of FT_REQUEST"""
    PAYLOAD = 4
    """what a Fragment carries"""


class ContextId(enum.IntEnum):
    """The ids of some service contexts (CORBA 3.3 Part 2, 7.7.1): of a transaction, of code sets, of FT_REQUEST, and
    of the security attributes of a request.
    """

    TRANSACTION = 0
    CODE_SETS = 1
    FT_REQUEST = 13
    SECURITY = 15


class Code(enum.IntEnum):
    """Types, as octets.  Each code stands for a type; a code of several parts takes the types before it. So a
    string, and then a sequence of longs, are {LR_TYPE_STRING, LR_TYPE_LONG, LR_TYPE_SEQUENCE}, and a struct of
    these two members {LR_TYPE_STRING, LR_TYPE_LONG, LR_TYPE_SEQUENCE, LR_TYPE_STRUCT, 2}. Strings and sequences
    have no bounds. A sequence of octets is LR_TYPE_OCTETS. A float has the octets of an unsigned long, and a
    double those of an unsigned long long (CORBA 3.3 Part 2, 9.3.1.3), so they have their codes. What has no code,
    as a union, can be had by raw operations.
    """

    BOOLEAN = 1
    CHAR = 2
    OCTET = 3
    SHORT = 4
    USHORT = 5
    LONG = 6
    ULONG = 7
    LONGLONG = 8
    ULONGLONG = 9
    STRING = 10
    OCTETS = 11
    SEQUENCE = 12
    """of the type before it"""
    ENUM = 13
    """of so many names as the next octet says, 1 to 255"""
    STRUCT = 14
    """of so many types before it as the next octet says, 1 to 255"""
    FLOAT = 7
    DOUBLE = 9


class ServerSetting(enum.IntEnum):
    """What lr_server_set sets, and what it is where nothing is set."""

    MESSAGE = 1
    """octets of a message at most, 4096 to 16777216: 1048576"""
    PARTIALS = 2
    """messages of a connection that may be partial at a time, 1 to 16: 4"""
    CAPACITY = 3
    """outcomes that are kept for repeats at most: 65536"""
    SHARE = 4
    """.. of each client: 4294967295, so all of the capacity"""
    PARKED = 5
    """requests that may be parked at a time: 1024"""
    PARKED_OF = 6
    """.. of those that came on one connection: 64"""
    JOINED = 7
    """who may wait for the outcome of a parked one, beside the last who came: 8"""
    DUE = 8
    """octets due on a connection, 1 or more, from which on it is fed no more: 1048576"""
    CLIENT_ID = 9
    """octets of a client's id at most; who has a longer one is answered BAD_CONTEXT: 256"""
    ASK_FIRST = 10
    """1 where you are asked before a request with FT_REQUEST is refused: 0"""
    CUTS = 11
    """where a message of 1.1 may be cut, one of LR_CUTS_..: 0"""


class Counted(enum.IntEnum):
    """What lr_server_count counts: as it is now, and what became of requests since the server was opened."""

    CONNECTIONS = 0
    """connections that were opened and not lost"""
    KEPT = 1
    """outcomes that are kept, or will be, of what is parked"""
    PARKED_NOW = 2
    """requests that are parked"""
    ASKED = 3
    """came to you"""
    REPEATED = 4
    """were answered by what was kept"""
    JOINED = 5
    """repeats of a parked one"""
    EXPIRED = 6
    """were past their expiration"""
    MALFORMED = 7
    """FT_REQUEST was not valid"""
    INVALID = 8
    """nothing of that name, arguments not valid, or a client's id too long"""
    LOG_FULL = 9
    """no room: the capacity is used up"""
    SHARE_FULL = 10
    """no room: the client's share is used up"""
    LOCATED = 11
    """LocateRequests"""
    DROPPED = 12
    """what a memory that was short cut off"""
    ANSWERED = 13
    """you answered at once"""
    PARKED = 14
    """you parked"""
    SETTLED = 15
    """you answered while they were parked"""
    GIVEN_UP = 16
    """you gave up"""
    DECLINED = 17
    """you refused while they waited"""
    WITHDRAWN = 18
    """you refused while they were parked"""


class ClientSetting(enum.IntEnum):
    """What lr_client_set sets, and what it is where nothing is set."""

    KEEP_TRANSIENT = 1
    """1: TRANSIENT leaves its call pending, unless the operation was completed; 0"""
    KEEP_FORWARD = 2
    """1: a forward leaves its call pending: lr_client_forwarded; 0"""
    VERSION = 3
    """the version of its messages, 0 to 2: 2"""
    MESSAGE = 4
    """octets of a message that comes at most, 4096 to 16777216: 1048576"""
    PARTIALS = 5
    """messages that may be partial at a time, 1 to 16: 4"""
    CUTS = 6
    """where a message of 1.1 may be cut, one of LR_CUTS_..: 0"""


class Ended(enum.IntEnum):
    """How a call ended."""

    RETURNED = 0
    """the body has its results"""
    RAISED = 1
    """the body has an exception: its repository id, and its members"""
    SYSTEM = 2
    """the body has a system exception: its id, its minor code, its completion"""
    FORWARDED = 3
    """the body has a reference to ask in place of this one"""
    NEEDS_ADDRESSING = 4
    """the server wants another addressing"""
    EXPIRED = 5
    CANCELLED = 6
    SENT = 7
    """it was sent, and wished no reply"""


class Fault(enum.IntEnum):
    """A fault of a stream."""

    MAGIC = 1
    VERSION = 2
    FLAGS = 3
    TYPE = 4
    CUT = 5
    TOO_LARGE = 6
    UNALIGNED_FRAGMENT = 7
    STRAY_FRAGMENT = 8
    TWICE_STARTED = 9
    TOO_MANY_PARTIAL = 10
    BODY = 11
    MIXED_ORDER = 12
    MEMORY = 13


class Why(enum.IntEnum):
    """Why a connection has ended, until it is lost: LR_WHY_.., or LR_FAULT_.. where its stream has a fault;
    LR_WHY_OPEN where it goes on. LR_E_EMPTY, LR_E_CONNECTION (it was never opened, or is lost).
    """

    OPEN = 0
    FAULT_MAGIC = 1
    FAULT_VERSION = 2
    FAULT_FLAGS = 3
    FAULT_TYPE = 4
    FAULT_CUT = 5
    FAULT_TOO_LARGE = 6
    FAULT_UNALIGNED_FRAGMENT = 7
    FAULT_STRAY_FRAGMENT = 8
    FAULT_TWICE_STARTED = 9
    FAULT_TOO_MANY_PARTIAL = 10
    FAULT_BODY = 11
    FAULT_MIXED_ORDER = 12
    FAULT_MEMORY = 13
    DIRECTION = 32
    """a message came that only a server sends"""
    GOODBYE = 33
    """the peer sent CloseConnection"""
    ERROR = 34
    """the peer sent MessageError"""
    FAREWELL = 35
    """CloseConnection was said"""
    GIVEN_UP = 36
    """a request that came on it was given up"""
    MEMORY = 37
    """memory was short"""


class Cuts(enum.IntEnum):
    """Where a message of GIOP 1.1 may be cut. CORBA 3.3 Part 2, 9.4.9 leaves open whether what is aligned in a
    Fragment of 1.1 is so from its own beginning or the message's. Frames are joined by their octets.
    """

    ALIGNED = 0
    """where both are the same: so that the octets of each frame but the last leave 4 modulo 8"""
    ANYWHERE = 1
    """anywhere: what is aligned across a cut lies as its sender counted, which it doesn't say"""


class MessageType(enum.IntEnum):
    """The type of a message (CORBA 3.3 Part 2, 9.4.1)."""

    REQUEST = 0
    REPLY = 1
    CANCEL_REQUEST = 2
    LOCATE_REQUEST = 3
    LOCATE_REPLY = 4
    CLOSE_CONNECTION = 5
    ERROR = 6
    FRAGMENT = 7


class IorPart(enum.IntEnum):
    """Parts of a profile."""

    DATA = 0
    HOST = 1
    KEY = 2


CONSTANTS: Dict[str, int] = {
    "LR_OK": 0,
    "LR_E_EMPTY": -1,
    "LR_E_OPEN": -2,
    "LR_E_MEMORY": -3,
    "LR_E_RANGE": -4,
    "LR_E_CONNECTION": -5,
    "LR_E_ASKING": -6,
    "LR_E_IDLE": -7,
    "LR_E_PARKS": -8,
    "LR_E_OUTCOME": -9,
    "LR_E_ROOM": -10,
    "LR_E_SHORT": -11,
    "LR_E_VALUE": -12,
    "LR_E_TYPES": -13,
    "LR_E_TEXT": -14,
    "LR_E_TAKEN": -15,
    "LR_E_OBJECT": -16,
    "LR_E_RAW": -17,
    "LR_E_REFERENCE": -18,
    "LR_E_STREAM": -19,
    "LR_E_NONE": -20,
    "LR_E_EXPIRED": -21,
    "LR_E_CALLS": -22,
    "LR_E_LONG": -23,
    "LR_E_LOST": -24,
    "LR_E_PLACE": -25,
    "LR_E_TICKET": -26,
    "LR_E_FORWARD": -27,
    "LR_ORDER_BIG": 0,
    "LR_ORDER_LITTLE": 1,
    "LR_WISH_NONE": 0,
    "LR_WISH_EMPTY": 1,
    "LR_WISH_FULL": 2,
    "LR_REPLY_NO_EXCEPTION": 0,
    "LR_REPLY_USER_EXCEPTION": 1,
    "LR_REPLY_SYSTEM_EXCEPTION": 2,
    "LR_REPLY_LOCATION_FORWARD": 3,
    "LR_REPLY_LOCATION_FORWARD_PERM": 4,
    "LR_REPLY_NEEDS_ADDRESSING_MODE": 5,
    "LR_LOCATE_UNKNOWN_OBJECT": 0,
    "LR_LOCATE_OBJECT_HERE": 1,
    "LR_LOCATE_OBJECT_FORWARD": 2,
    "LR_LOCATE_OBJECT_FORWARD_PERM": 3,
    "LR_LOCATE_SYSTEM_EXCEPTION": 4,
    "LR_LOCATE_NEEDS_ADDRESSING_MODE": 5,
    "LR_EX_MARSHAL": 0,
    "LR_EX_BAD_CONTEXT": 1,
    "LR_EX_NO_RESOURCES": 2,
    "LR_EX_BAD_OPERATION": 3,
    "LR_EX_OBJECT_NOT_EXIST": 4,
    "LR_EX_UNKNOWN": 5,
    "LR_EX_BAD_PARAM": 6,
    "LR_EX_NO_PERMISSION": 7,
    "LR_EX_IMP_LIMIT": 8,
    "LR_EX_INTERNAL": 9,
    "LR_EX_TRANSIENT": 10,
    "LR_EX_NO_MEMORY": 11,
    "LR_EX_COMM_FAILURE": 12,
    "LR_EX_INV_OBJREF": 13,
    "LR_EX_INITIALIZE": 14,
    "LR_EX_NO_IMPLEMENT": 15,
    "LR_EX_BAD_TYPECODE": 16,
    "LR_EX_NO_RESPONSE": 17,
    "LR_EX_PERSIST_STORE": 18,
    "LR_EX_BAD_INV_ORDER": 19,
    "LR_EX_FREE_MEM": 20,
    "LR_EX_INV_IDENT": 21,
    "LR_EX_INV_FLAG": 22,
    "LR_EX_INTF_REPOS": 23,
    "LR_EX_OBJ_ADAPTER": 24,
    "LR_EX_DATA_CONVERSION": 25,
    "LR_EX_TRANSACTION_REQUIRED": 26,
    "LR_EX_TRANSACTION_ROLLEDBACK": 27,
    "LR_EX_INVALID_TRANSACTION": 28,
    "LR_EX_INV_POLICY": 29,
    "LR_EX_CODESET_INCOMPATIBLE": 30,
    "LR_EX_REBIND": 31,
    "LR_EX_TIMEOUT": 32,
    "LR_EX_TRANSACTION_UNAVAILABLE": 33,
    "LR_EX_TRANSACTION_MODE": 34,
    "LR_EX_BAD_QOS": 35,
    "LR_EX_INVALID_ACTIVITY": 36,
    "LR_EX_ACTIVITY_COMPLETED": 37,
    "LR_EX_ACTIVITY_REQUIRED": 38,
    "LR_EX_THREAD_CANCELLED": 39,
    "LR_COMPLETED_YES": 0,
    "LR_COMPLETED_NO": 1,
    "LR_COMPLETED_MAYBE": 2,
    "LR_PART_KEY": 0,
    "LR_PART_OPERATION": 1,
    "LR_PART_BODY": 2,
    "LR_PART_CLIENT": 3,
    "LR_PART_PAYLOAD": 4,
    "LR_CONTEXT_TRANSACTION": 0,
    "LR_CONTEXT_CODE_SETS": 1,
    "LR_CONTEXT_FT_REQUEST": 13,
    "LR_CONTEXT_SECURITY": 15,
    "LR_TYPE_BOOLEAN": 1,
    "LR_TYPE_CHAR": 2,
    "LR_TYPE_OCTET": 3,
    "LR_TYPE_SHORT": 4,
    "LR_TYPE_USHORT": 5,
    "LR_TYPE_LONG": 6,
    "LR_TYPE_ULONG": 7,
    "LR_TYPE_LONGLONG": 8,
    "LR_TYPE_ULONGLONG": 9,
    "LR_TYPE_STRING": 10,
    "LR_TYPE_OCTETS": 11,
    "LR_TYPE_SEQUENCE": 12,
    "LR_TYPE_ENUM": 13,
    "LR_TYPE_STRUCT": 14,
    "LR_TYPE_FLOAT": 7,
    "LR_TYPE_DOUBLE": 9,
    "LR_SET_MESSAGE": 1,
    "LR_SET_PARTIALS": 2,
    "LR_SET_CAPACITY": 3,
    "LR_SET_SHARE": 4,
    "LR_SET_PARKED": 5,
    "LR_SET_PARKED_OF": 6,
    "LR_SET_JOINED": 7,
    "LR_SET_DUE": 8,
    "LR_SET_CLIENT_ID": 9,
    "LR_SET_ASK_FIRST": 10,
    "LR_SET_CUTS": 11,
    "LR_COUNT_CONNECTIONS": 0,
    "LR_COUNT_KEPT": 1,
    "LR_COUNT_PARKED_NOW": 2,
    "LR_COUNT_ASKED": 3,
    "LR_COUNT_REPEATED": 4,
    "LR_COUNT_JOINED": 5,
    "LR_COUNT_EXPIRED": 6,
    "LR_COUNT_MALFORMED": 7,
    "LR_COUNT_INVALID": 8,
    "LR_COUNT_LOG_FULL": 9,
    "LR_COUNT_SHARE_FULL": 10,
    "LR_COUNT_LOCATED": 11,
    "LR_COUNT_DROPPED": 12,
    "LR_COUNT_ANSWERED": 13,
    "LR_COUNT_PARKED": 14,
    "LR_COUNT_SETTLED": 15,
    "LR_COUNT_GIVEN_UP": 16,
    "LR_COUNT_DECLINED": 17,
    "LR_COUNT_WITHDRAWN": 18,
    "LR_CLIENT_KEEP_TRANSIENT": 1,
    "LR_CLIENT_KEEP_FORWARD": 2,
    "LR_CLIENT_VERSION": 3,
    "LR_CLIENT_MESSAGE": 4,
    "LR_CLIENT_PARTIALS": 5,
    "LR_CLIENT_CUTS": 6,
    "LR_ENDED_RETURNED": 0,
    "LR_ENDED_RAISED": 1,
    "LR_ENDED_SYSTEM": 2,
    "LR_ENDED_FORWARDED": 3,
    "LR_ENDED_NEEDS_ADDRESSING": 4,
    "LR_ENDED_EXPIRED": 5,
    "LR_ENDED_CANCELLED": 6,
    "LR_ENDED_SENT": 7,
    "LR_FAULT_MAGIC": 1,
    "LR_FAULT_VERSION": 2,
    "LR_FAULT_FLAGS": 3,
    "LR_FAULT_TYPE": 4,
    "LR_FAULT_CUT": 5,
    "LR_FAULT_TOO_LARGE": 6,
    "LR_FAULT_UNALIGNED_FRAGMENT": 7,
    "LR_FAULT_STRAY_FRAGMENT": 8,
    "LR_FAULT_TWICE_STARTED": 9,
    "LR_FAULT_TOO_MANY_PARTIAL": 10,
    "LR_FAULT_BODY": 11,
    "LR_FAULT_MIXED_ORDER": 12,
    "LR_FAULT_MEMORY": 13,
    "LR_WHY_OPEN": 0,
    "LR_WHY_DIRECTION": 32,
    "LR_WHY_GOODBYE": 33,
    "LR_WHY_ERROR": 34,
    "LR_WHY_FAREWELL": 35,
    "LR_WHY_GIVEN_UP": 36,
    "LR_WHY_MEMORY": 37,
    "LR_CUTS_ALIGNED": 0,
    "LR_CUTS_ANYWHERE": 1,
    "LR_MSG_REQUEST": 0,
    "LR_MSG_REPLY": 1,
    "LR_MSG_CANCEL_REQUEST": 2,
    "LR_MSG_LOCATE_REQUEST": 3,
    "LR_MSG_LOCATE_REPLY": 4,
    "LR_MSG_CLOSE_CONNECTION": 5,
    "LR_MSG_ERROR": 6,
    "LR_MSG_FRAGMENT": 7,
    "LR_IOR_DATA": 0,
    "LR_IOR_HOST": 1,
    "LR_IOR_KEY": 2,
}

STRUCTS: Dict[str, Tuple[Tuple[str, str], ...]] = {
    "lr_catalogue": (("kind", "uint32_t"), ("at", "void *")),
    "lr_server": (("kind", "uint32_t"), ("at", "void *")),
    "lr_client": (("kind", "uint32_t"), ("at", "void *")),
    "lr_assembler": (("kind", "uint32_t"), ("at", "void *")),
    "lr_ior": (("kind", "uint32_t"), ("at", "void *")),
    "lr_request": (
        ("ticket", "uint64_t"), ("connection", "uint64_t"), ("key_size", "uint64_t"), ("operation_size", "uint64_t"),
        ("body_size", "uint64_t"), ("body_at", "uint64_t"), ("body_order", "uint32_t"), ("is_raw", "uint32_t"),
        ("request_id", "uint32_t"), ("version", "uint32_t"), ("wish", "uint32_t"), ("has_client", "uint32_t"),
        ("retention_id", "int32_t"), ("contexts", "uint32_t"), ("client_size", "uint64_t"), ("expiration", "uint64_t"),
        ("is_refused", "uint32_t"), ("refusal", "uint32_t"),
    ),
    "lr_completion": (
        ("body_size", "uint64_t"), ("body_at", "uint64_t"), ("call", "int32_t"), ("how", "uint32_t"),
        ("body_order", "uint32_t"), ("reserved", "uint32_t"),
    ),
    "lr_message": (
        ("key_size", "uint64_t"), ("operation_size", "uint64_t"), ("body_size", "uint64_t"), ("body_at", "uint64_t"),
        ("payload_size", "uint64_t"), ("type", "uint32_t"), ("version", "uint32_t"), ("order", "uint32_t"),
        ("request_id", "uint32_t"), ("status", "uint32_t"), ("wish", "uint32_t"), ("contexts", "uint32_t"),
        ("has_key", "uint32_t"), ("has_client", "uint32_t"), ("retention_id", "int32_t"), ("client_size", "uint64_t"),
        ("expiration", "uint64_t"),
    ),
    "lr_profile": (
        ("data_size", "uint64_t"), ("host_size", "uint64_t"), ("key_size", "uint64_t"), ("tag", "uint32_t"),
        ("is_iiop", "uint32_t"), ("minor", "uint32_t"), ("port", "uint32_t"), ("components", "uint32_t"),
        ("reserved", "uint32_t"),
    ),
    "lr_place": (("at", "uint64_t"), ("next", "uint64_t"), ("order", "uint32_t"), ("reserved", "uint32_t")),
}

FUNCTIONS: Dict[str, Tuple[str, Tuple[str, ...]]] = {
    "lr_version": ("uint32_t", ()),
    "lr_close": ("void", ("void *",)),
    "lr_strerror": ("const char *", ("int64_t",)),
    "lr_error_name": ("const char *", ("int64_t",)),
    "lr_moment": ("uint64_t", ("uint64_t", "uint32_t")),
    "lr_catalogue_open": ("int64_t", ("lr_catalogue *",)),
    "lr_catalogue_object": ("int64_t", ("lr_catalogue *", "const void *", "size_t")),
    "lr_catalogue_raw_object": ("int64_t", ("lr_catalogue *", "const void *", "size_t")),
    "lr_catalogue_exception": ("int64_t", ("lr_catalogue *", "const void *", "size_t", "const uint8_t *", "size_t")),
    "lr_catalogue_operation": ("int64_t", (
        "lr_catalogue *", "const void *", "size_t", "const void *", "size_t", "const uint8_t *", "size_t",
        "const uint8_t *", "size_t",
    )),
    "lr_catalogue_raw_operation": ("int64_t", ("lr_catalogue *", "const void *", "size_t", "const void *", "size_t")),
    "lr_catalogue_repository_ids": ("int64_t", ("lr_catalogue *", "const void *", "size_t", "const void *", "size_t")),
    "lr_catalogue_families": ("int64_t", ("lr_catalogue *", "lr_catalogue *")),
    "lr_catalogue_default": ("int64_t", ("lr_catalogue *",)),
    "lr_catalogue_remove": ("int64_t", ("lr_catalogue *", "const void *", "size_t")),
    "lr_server_open": ("int64_t", ("lr_server *", "lr_catalogue *", "uint64_t", "uint64_t")),
    "lr_server_set": ("int64_t", ("lr_server *", "uint32_t", "uint64_t")),
    "lr_server_connect": ("int64_t", ("lr_server *", "uint64_t")),
    "lr_server_lost": ("int64_t", ("lr_server *", "uint64_t")),
    "lr_server_farewell": ("int64_t", ("lr_server *", "uint64_t")),
    "lr_server_is_closed": ("int64_t", ("lr_server *", "uint64_t")),
    "lr_server_why": ("int64_t", ("lr_server *", "uint64_t")),
    "lr_server_feed": ("int64_t", ("lr_server *", "uint64_t", "uint64_t", "const void *", "size_t")),
    "lr_server_asked": ("int64_t", ("lr_server *", "lr_request *", "size_t")),
    "lr_server_part": ("int64_t", ("lr_server *", "uint64_t", "uint32_t", "void *", "size_t")),
    "lr_server_context": ("int64_t", ("lr_server *", "uint32_t", "uint32_t *", "void *", "size_t")),
    "lr_server_park": ("int64_t", ("lr_server *", "uint64_t")),
    "lr_server_parked": ("int64_t", ("lr_server *",)),
    "lr_server_parked_of": ("int64_t", ("lr_server *", "uint64_t")),
    "lr_server_wanted": ("int64_t", ("lr_server *", "uint64_t")),
    "lr_server_answer": ("int64_t", ("lr_server *", "uint64_t", "uint32_t", "const void *", "size_t")),
    "lr_server_can_answer": ("int64_t", ("lr_server *", "uint64_t", "uint32_t", "const void *", "size_t")),
    "lr_server_exception": ("int64_t", (
        "lr_server *", "uint64_t", "const void *", "size_t", "uint32_t", "const void *", "size_t", "void *", "size_t",
    )),
    "lr_server_reply_contexts": ("int64_t", ("lr_server *", "uint64_t", "uint32_t", "const void *", "size_t")),
    "lr_server_raise": ("int64_t", (
        "lr_server *", "uint64_t", "const void *", "size_t", "uint32_t", "const void *", "size_t",
    )),
    "lr_server_system": ("int64_t", ("lr_server *", "uint64_t", "uint32_t", "uint32_t", "uint32_t")),
    "lr_server_answer_raw": ("int64_t", ("lr_server *", "uint64_t", "uint32_t", "uint32_t", "const void *", "size_t")),
    "lr_server_answer_unkept": ("int64_t", (
        "lr_server *", "uint64_t", "uint32_t", "uint32_t", "const void *", "size_t",
    )),
    "lr_server_identify": ("int64_t", ("lr_server *", "uint64_t")),
    "lr_server_give_up": ("int64_t", ("lr_server *", "uint64_t")),
    "lr_server_refuse": ("int64_t", ("lr_server *", "uint64_t", "uint32_t", "uint32_t")),
    "lr_server_goodbye": ("int64_t", ("lr_server *", "uint64_t")),
    "lr_server_next_due": ("int64_t", ("lr_server *", "uint64_t *")),
    "lr_server_output": ("int64_t", ("lr_server *", "uint64_t", "void *", "size_t")),
    "lr_server_count": ("int64_t", ("lr_server *", "uint32_t")),
    "lr_server_held_by": ("int64_t", ("lr_server *", "const void *", "size_t")),
    "lr_server_next_expiry": ("int64_t", ("lr_server *", "uint64_t *")),
    "lr_server_tick": ("int64_t", ("lr_server *", "uint64_t")),
    "lr_server_swap": ("int64_t", ("lr_server *", "lr_catalogue *")),
    "lr_client_open": ("int64_t", ("lr_client *", "const void *", "size_t")),
    "lr_client_set": ("int64_t", ("lr_client *", "uint32_t", "uint64_t")),
    "lr_client_connected": ("int64_t", ("lr_client *", "uint64_t")),
    "lr_client_lost": ("int64_t", ("lr_client *",)),
    "lr_client_is_connected": ("int64_t", ("lr_client *",)),
    "lr_client_call": ("int64_t", (
        "lr_client *", "uint64_t", "uint64_t", "const void *", "size_t", "const void *", "size_t", "const uint8_t *",
        "size_t", "uint32_t", "const void *", "size_t",
    )),
    "lr_client_recall": ("int64_t", (
        "lr_client *", "int64_t", "uint64_t", "uint64_t", "const void *", "size_t", "const void *", "size_t",
        "const uint8_t *", "size_t", "uint32_t", "const void *", "size_t",
    )),
    "lr_client_call_raw": ("int64_t", (
        "lr_client *", "uint64_t", "uint64_t", "uint32_t", "const void *", "size_t", "const void *", "size_t",
        "uint32_t", "const void *", "size_t", "const void *", "size_t",
    )),
    "lr_client_recall_raw": ("int64_t", (
        "lr_client *", "int64_t", "uint64_t", "uint64_t", "uint32_t", "const void *", "size_t", "const void *",
        "size_t", "uint32_t", "const void *", "size_t", "const void *", "size_t",
    )),
    "lr_client_skip_to": ("int64_t", ("lr_client *", "int64_t")),
    "lr_client_resend": ("int64_t", ("lr_client *", "uint64_t")),
    "lr_client_cancel": ("int64_t", ("lr_client *", "int64_t")),
    "lr_client_tick": ("int64_t", ("lr_client *", "uint64_t")),
    "lr_client_feed": ("int64_t", ("lr_client *", "const void *", "size_t")),
    "lr_client_completed": ("int64_t", ("lr_client *", "lr_completion *", "size_t")),
    "lr_client_body": ("int64_t", ("lr_client *", "void *", "size_t")),
    "lr_client_forwarded": ("int64_t", ("lr_client *", "lr_completion *", "size_t", "void *", "size_t")),
    "lr_client_redirect": ("int64_t", (
        "lr_client *", "int64_t", "const void *", "size_t", "const void *", "size_t", "const uint8_t *", "size_t",
        "uint32_t", "const void *", "size_t",
    )),
    "lr_client_redirect_raw": ("int64_t", (
        "lr_client *", "int64_t", "uint32_t", "const void *", "size_t", "const void *", "size_t", "uint32_t",
        "const void *", "size_t", "const void *", "size_t",
    )),
    "lr_client_output": ("int64_t", ("lr_client *", "void *", "size_t")),
    "lr_assembler_open": ("int64_t", ("lr_assembler *", "uint32_t", "uint32_t")),
    "lr_assembler_open_cuts": ("int64_t", ("lr_assembler *", "uint32_t", "uint32_t", "uint32_t")),
    "lr_assembler_feed": ("int64_t", ("lr_assembler *", "const void *", "size_t")),
    "lr_assembler_fault": ("int64_t", ("lr_assembler *",)),
    "lr_assembler_message": ("int64_t", ("lr_assembler *", "lr_message *", "size_t")),
    "lr_assembler_part": ("int64_t", ("lr_assembler *", "uint32_t", "void *", "size_t")),
    "lr_assembler_context": ("int64_t", ("lr_assembler *", "uint32_t", "uint32_t *", "void *", "size_t")),
    "lr_write_request": ("int64_t", (
        "void *", "size_t", "uint32_t", "uint32_t", "uint32_t", "uint32_t", "const void *", "size_t", "const void *",
        "size_t", "uint32_t", "const void *", "size_t", "const void *", "size_t",
    )),
    "lr_write_reply": ("int64_t", (
        "void *", "size_t", "uint32_t", "uint32_t", "uint32_t", "uint32_t", "const void *", "size_t",
    )),
    "lr_write_cancel": ("int64_t", ("void *", "size_t", "uint32_t", "uint32_t", "uint32_t")),
    "lr_write_locate_request": ("int64_t", (
        "void *", "size_t", "uint32_t", "uint32_t", "uint32_t", "const void *", "size_t",
    )),
    "lr_write_locate_reply": ("int64_t", ("void *", "size_t", "uint32_t", "uint32_t", "uint32_t", "uint32_t")),
    "lr_write_close": ("int64_t", ("void *", "size_t")),
    "lr_write_error": ("int64_t", ("void *", "size_t")),
    "lr_write_ft": ("int64_t", ("void *", "size_t", "uint32_t", "const void *", "size_t", "int32_t", "uint64_t")),
    "lr_ior_parse": ("int64_t", ("lr_ior *", "const void *", "size_t")),
    "lr_ior_iiop": ("int64_t", (
        "lr_ior *", "const void *", "size_t", "uint32_t", "const void *", "size_t", "uint16_t", "const void *",
        "size_t",
    )),
    "lr_ior_print": ("int64_t", ("lr_ior *", "void *", "size_t")),
    "lr_ior_type_id": ("int64_t", ("lr_ior *", "void *", "size_t")),
    "lr_ior_profiles": ("int64_t", ("lr_ior *",)),
    "lr_ior_profile": ("int64_t", ("lr_ior *", "uint32_t", "lr_profile *", "size_t")),
    "lr_ior_part": ("int64_t", ("lr_ior *", "uint32_t", "uint32_t", "void *", "size_t")),
    "lr_ior_component": ("int64_t", ("lr_ior *", "uint32_t", "uint32_t", "uint32_t *", "void *", "size_t")),
    "lr_get_octet": ("int64_t", ("const void *", "size_t", "lr_place *", "uint8_t *")),
    "lr_get_char": ("int64_t", ("const void *", "size_t", "lr_place *", "uint8_t *")),
    "lr_get_boolean": ("int64_t", ("const void *", "size_t", "lr_place *", "uint8_t *")),
    "lr_get_short": ("int64_t", ("const void *", "size_t", "lr_place *", "int16_t *")),
    "lr_get_ushort": ("int64_t", ("const void *", "size_t", "lr_place *", "uint16_t *")),
    "lr_get_long": ("int64_t", ("const void *", "size_t", "lr_place *", "int32_t *")),
    "lr_get_ulong": ("int64_t", ("const void *", "size_t", "lr_place *", "uint32_t *")),
    "lr_get_longlong": ("int64_t", ("const void *", "size_t", "lr_place *", "int64_t *")),
    "lr_get_ulonglong": ("int64_t", ("const void *", "size_t", "lr_place *", "uint64_t *")),
    "lr_get_string": ("int64_t", ("const void *", "size_t", "lr_place *", "uint64_t *", "uint64_t *")),
    "lr_get_octets": ("int64_t", ("const void *", "size_t", "lr_place *", "uint64_t *", "uint64_t *")),
    "lr_get_encapsulation": ("int64_t", (
        "const void *", "size_t", "lr_place *", "uint64_t *", "uint64_t *", "lr_place *",
    )),
    "lr_put_octet": ("int64_t", ("void *", "size_t", "lr_place *", "uint8_t")),
    "lr_put_char": ("int64_t", ("void *", "size_t", "lr_place *", "uint8_t")),
    "lr_put_boolean": ("int64_t", ("void *", "size_t", "lr_place *", "uint8_t")),
    "lr_put_short": ("int64_t", ("void *", "size_t", "lr_place *", "int16_t")),
    "lr_put_ushort": ("int64_t", ("void *", "size_t", "lr_place *", "uint16_t")),
    "lr_put_long": ("int64_t", ("void *", "size_t", "lr_place *", "int32_t")),
    "lr_put_ulong": ("int64_t", ("void *", "size_t", "lr_place *", "uint32_t")),
    "lr_put_longlong": ("int64_t", ("void *", "size_t", "lr_place *", "int64_t")),
    "lr_put_ulonglong": ("int64_t", ("void *", "size_t", "lr_place *", "uint64_t")),
    "lr_put_string": ("int64_t", ("void *", "size_t", "lr_place *", "const void *", "size_t")),
    "lr_put_octets": ("int64_t", ("void *", "size_t", "lr_place *", "const void *", "size_t")),
    "lr_set_heap": ("int64_t", ("void *(*)(size_t)", "void *(*)(void *, size_t)", "void (*)(void *)")),
}
