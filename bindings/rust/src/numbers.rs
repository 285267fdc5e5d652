//! Numbers that have names.

use crate::sys::*;
use crate::Error;
use core::fmt;

macro_rules! numbers {
    ($($(#[$doc:meta])* $name:ident { $($(#[$each:meta])* $variant:ident = $number:expr,)* })*) => {$(
        $(#[$doc])*
        #[derive(Clone, Copy, Debug, PartialEq, Eq, Hash)]
        #[repr(u32)]
        pub enum $name {
            $($(#[$each])* $variant = $number,)*
        }

        impl $name {
            /// Its number.
            pub const fn number(self) -> u32 {
                self as u32
            }

            /// What has a number, if anything has.
            pub const fn from_number(number: u32) -> Option<$name> {
                $(if number == $number {
                    return Some($name::$variant);
                })*
                None
            }

            /// What has a number that the library gave.
            #[allow(dead_code)]
            pub(crate) fn of(number: u32) -> Result<$name, Error> {
                $name::from_number(number).ok_or(Error::Range)
            }
        }
    )*};
}

numbers! {
    /// The order of the octets of a number.
    Order {
        /// The most significant octet first.
        Big = LR_ORDER_BIG,
        /// The least significant octet first.
        Little = LR_ORDER_LITTLE,
    }

    /// A version of GIOP.
    Version {
        /// GIOP 1.0.
        V10 = 0,
        /// GIOP 1.1.
        V11 = 1,
        /// GIOP 1.2.
        V12 = 2,
    }

    /// Which reply a request asks for (CORBA 3.3 Part 2, 9.4.2).
    Wish {
        /// None.
        None = LR_WISH_NONE,
        /// One without results, which 1.2 alone has.
        Empty = LR_WISH_EMPTY,
        /// A whole one.
        Full = LR_WISH_FULL,
    }

    /// The status of a Reply (CORBA 3.3 Part 2, 9.4.3.1).
    Status {
        /// The body has the results.
        NoException = LR_REPLY_NO_EXCEPTION,
        /// The body has an exception of the operation.
        UserException = LR_REPLY_USER_EXCEPTION,
        /// The body has a system exception.
        SystemException = LR_REPLY_SYSTEM_EXCEPTION,
        /// The body has a reference to ask in place of this one.
        LocationForward = LR_REPLY_LOCATION_FORWARD,
        /// The same, for good; of 1.2.
        LocationForwardPerm = LR_REPLY_LOCATION_FORWARD_PERM,
        /// The body has the addressing that the server wants; of 1.2.
        NeedsAddressingMode = LR_REPLY_NEEDS_ADDRESSING_MODE,
    }

    /// The status of a LocateReply (CORBA 3.3 Part 2, 9.4.6.1).
    LocateStatus {
        /// There is no such object.
        UnknownObject = LR_LOCATE_UNKNOWN_OBJECT,
        /// The object is here.
        ObjectHere = LR_LOCATE_OBJECT_HERE,
        /// The body has a reference to ask in place of this one.
        ObjectForward = LR_LOCATE_OBJECT_FORWARD,
        /// The same, for good; of 1.2.
        ObjectForwardPerm = LR_LOCATE_OBJECT_FORWARD_PERM,
        /// The body has a system exception; of 1.2.
        SystemException = LR_LOCATE_SYSTEM_EXCEPTION,
        /// The body has the addressing that the server wants; of 1.2.
        NeedsAddressingMode = LR_LOCATE_NEEDS_ADDRESSING_MODE,
    }

    /// The system exceptions (CORBA 3.3 Part 2, A.5).
    SystemName {
        /// `MARSHAL`: the arguments don't read.
        Marshal = LR_EX_MARSHAL,
        /// `BAD_CONTEXT`: the request is past its expiration.
        BadContext = LR_EX_BAD_CONTEXT,
        /// `NO_RESOURCES`: no more outcomes can be kept.
        NoResources = LR_EX_NO_RESOURCES,
        /// `BAD_OPERATION`: the object has no such operation.
        BadOperation = LR_EX_BAD_OPERATION,
        /// `OBJECT_NOT_EXIST`: there is no such object.
        ObjectNotExist = LR_EX_OBJECT_NOT_EXIST,
        /// `UNKNOWN`: an exception of another kind.
        Unknown = LR_EX_UNKNOWN,
        /// `BAD_PARAM`: an argument is not allowed.
        BadParam = LR_EX_BAD_PARAM,
        /// `NO_PERMISSION`: the client may not do this.
        NoPermission = LR_EX_NO_PERMISSION,
        /// `IMP_LIMIT`: a limit of the implementation is met.
        ImpLimit = LR_EX_IMP_LIMIT,
        /// `INTERNAL`: the server has a fault.
        Internal = LR_EX_INTERNAL,
        /// `TRANSIENT`: it may succeed later.
        Transient = LR_EX_TRANSIENT,
        /// `NO_MEMORY`: memory is short.
        NoMemory = LR_EX_NO_MEMORY,
        /// `COMM_FAILURE`: the connection failed amid the call.
        CommFailure = LR_EX_COMM_FAILURE,
        /// `INV_OBJREF`: a reference is malformed.
        InvObjref = LR_EX_INV_OBJREF,
        /// `INITIALIZE`: an ORB failed to begin.
        Initialize = LR_EX_INITIALIZE,
        /// `NO_IMPLEMENT`: the operation is not implemented.
        NoImplement = LR_EX_NO_IMPLEMENT,
        /// `BAD_TYPECODE`: a type code is malformed.
        BadTypecode = LR_EX_BAD_TYPECODE,
        /// `NO_RESPONSE`: there is no reply yet.
        NoResponse = LR_EX_NO_RESPONSE,
        /// `PERSIST_STORE`: a store failed.
        PersistStore = LR_EX_PERSIST_STORE,
        /// `BAD_INV_ORDER`: it was called in a wrong order.
        BadInvOrder = LR_EX_BAD_INV_ORDER,
        /// `FREE_MEM`: memory can't be given back.
        FreeMem = LR_EX_FREE_MEM,
        /// `INV_IDENT`: an identifier is malformed.
        InvIdent = LR_EX_INV_IDENT,
        /// `INV_FLAG`: a flag means nothing.
        InvFlag = LR_EX_INV_FLAG,
        /// `INTF_REPOS`: the repository of interfaces failed.
        IntfRepos = LR_EX_INTF_REPOS,
        /// `OBJ_ADAPTER`: an object adapter failed.
        ObjAdapter = LR_EX_OBJ_ADAPTER,
        /// `DATA_CONVERSION`: a value can't be converted.
        DataConversion = LR_EX_DATA_CONVERSION,
        /// `TRANSACTION_REQUIRED`: it wants a transaction.
        TransactionRequired = LR_EX_TRANSACTION_REQUIRED,
        /// `TRANSACTION_ROLLEDBACK`: its transaction is rolled back.
        TransactionRolledback = LR_EX_TRANSACTION_ROLLEDBACK,
        /// `INVALID_TRANSACTION`: its transaction is not valid.
        InvalidTransaction = LR_EX_INVALID_TRANSACTION,
        /// `INV_POLICY`: policies don't agree.
        InvPolicy = LR_EX_INV_POLICY,
        /// `CODESET_INCOMPATIBLE`: there is no code set in common.
        CodesetIncompatible = LR_EX_CODESET_INCOMPATIBLE,
        /// `REBIND`: the client has to bind anew.
        Rebind = LR_EX_REBIND,
        /// `TIMEOUT`: it took too long.
        Timeout = LR_EX_TIMEOUT,
        /// `TRANSACTION_UNAVAILABLE`: there are no transactions.
        TransactionUnavailable = LR_EX_TRANSACTION_UNAVAILABLE,
        /// `TRANSACTION_MODE`: the modes of transactions don't agree.
        TransactionMode = LR_EX_TRANSACTION_MODE,
        /// `BAD_QOS`: a quality of service can't be had.
        BadQos = LR_EX_BAD_QOS,
        /// `INVALID_ACTIVITY`: its activity is not valid.
        InvalidActivity = LR_EX_INVALID_ACTIVITY,
        /// `ACTIVITY_COMPLETED`: its activity has completed.
        ActivityCompleted = LR_EX_ACTIVITY_COMPLETED,
        /// `ACTIVITY_REQUIRED`: it wants an activity.
        ActivityRequired = LR_EX_ACTIVITY_REQUIRED,
        /// `THREAD_CANCELLED`: its thread was cancelled.
        ThreadCancelled = LR_EX_THREAD_CANCELLED,
    }

    /// Whether an operation was completed before its exception.
    Completed {
        /// It was.
        Yes = LR_COMPLETED_YES,
        /// It was not.
        No = LR_COMPLETED_NO,
        /// It is not known.
        Maybe = LR_COMPLETED_MAYBE,
    }

    /// How a call of a client ended.
    Ended {
        /// The body has its results.
        Returned = LR_ENDED_RETURNED,
        /// The body has an exception of the operation: its repository id, and its members.
        Raised = LR_ENDED_RAISED,
        /// The body has a system exception: its repository id, its minor code, and whether it was
        /// completed.
        System = LR_ENDED_SYSTEM,
        /// The body has a reference to ask in place of this one.
        Forwarded = LR_ENDED_FORWARDED,
        /// The server wants another addressing.
        NeedsAddressing = LR_ENDED_NEEDS_ADDRESSING,
        /// Its expiration is past. What the server did of it is not known.
        Expired = LR_ENDED_EXPIRED,
        /// It was cancelled. What the server did of it is not known.
        Cancelled = LR_ENDED_CANCELLED,
        /// It was sent, and wished no reply.
        Sent = LR_ENDED_SENT,
    }

    /// What a [`Server`](crate::Server) counts: as it is now, and what became of requests since it
    /// was opened.
    Counted {
        /// Connections that were opened and not lost.
        Connections = LR_COUNT_CONNECTIONS,
        /// Outcomes that are kept, or will be, of what is parked.
        Kept = LR_COUNT_KEPT,
        /// Requests that are parked.
        ParkedNow = LR_COUNT_PARKED_NOW,
        /// They came to the owner.
        Asked = LR_COUNT_ASKED,
        /// They were answered by what was kept.
        Repeated = LR_COUNT_REPEATED,
        /// Repeats of a parked one.
        Joined = LR_COUNT_JOINED,
        /// They were past their expiration.
        Expired = LR_COUNT_EXPIRED,
        /// FT_REQUEST was not valid.
        Malformed = LR_COUNT_MALFORMED,
        /// Nothing of that name, arguments not valid, or a client's id too long.
        Invalid = LR_COUNT_INVALID,
        /// No room: the capacity is used up.
        LogFull = LR_COUNT_LOG_FULL,
        /// No room: the client's share is used up.
        ShareFull = LR_COUNT_SHARE_FULL,
        /// LocateRequests.
        Located = LR_COUNT_LOCATED,
        /// What a memory that was short cut off.
        Dropped = LR_COUNT_DROPPED,
        /// The owner answered at once.
        Answered = LR_COUNT_ANSWERED,
        /// The owner parked.
        Parked = LR_COUNT_PARKED,
        /// The owner answered while they were parked.
        Settled = LR_COUNT_SETTLED,
        /// The owner gave up.
        GivenUp = LR_COUNT_GIVEN_UP,
        /// The owner refused while they waited.
        Declined = LR_COUNT_DECLINED,
        /// The owner refused while they were parked.
        Withdrawn = LR_COUNT_WITHDRAWN,
    }

    /// A part of a request.
    Part {
        /// The key of the object.
        Key = LR_PART_KEY,
        /// The name of the operation.
        Operation = LR_PART_OPERATION,
        /// The arguments.
        Body = LR_PART_BODY,
        /// The client's id of FT_REQUEST.
        Client = LR_PART_CLIENT,
    }

    /// The type of a message (CORBA 3.3 Part 2, 9.4.1).
    MessageType {
        /// A call.
        Request = LR_MSG_REQUEST,
        /// The answer to a call.
        Reply = LR_MSG_REPLY,
        /// The client wants no answer any more.
        CancelRequest = LR_MSG_CANCEL_REQUEST,
        /// Whether an object is there.
        LocateRequest = LR_MSG_LOCATE_REQUEST,
        /// The answer to that.
        LocateReply = LR_MSG_LOCATE_REPLY,
        /// The connection is closed in order.
        CloseConnection = LR_MSG_CLOSE_CONNECTION,
        /// The stream has a fault.
        MessageError = LR_MSG_ERROR,
        /// A part of a message. An assembler joins them, so that none is seen of a valid stream.
        Fragment = LR_MSG_FRAGMENT,
    }

    /// Where a message of GIOP 1.1 may be cut. CORBA 3.3 Part 2, 9.4.9 leaves open whether what is aligned in
    /// a Fragment of 1.1 is so from its own beginning or the message's.
    Cuts {
        /// Where both are the same: the octets of each frame but the last leave 4 modulo 8.
        Aligned = LR_CUTS_ALIGNED,
        /// Anywhere. What is aligned across a cut lies as its sender counted, which it doesn't say.
        Anywhere = LR_CUTS_ANYWHERE,
    }

    /// The first fault of a stream.
    Fault {
        /// A header doesn't begin with `GIOP`.
        Magic = LR_FAULT_MAGIC,
        /// No version that is known.
        Version = LR_FAULT_VERSION,
        /// A flag that means nothing.
        Flags = LR_FAULT_FLAGS,
        /// A type that the version lacks.
        Type = LR_FAULT_TYPE,
        /// More fragments are announced of a message that may not be cut.
        Cut = LR_FAULT_CUT,
        /// A frame or a joined message is over the limit.
        TooLarge = LR_FAULT_TOO_LARGE,
        /// More fragments follow a frame that ends where none may.
        UnalignedFragment = LR_FAULT_UNALIGNED_FRAGMENT,
        /// A Fragment of no partial message.
        StrayFragment = LR_FAULT_STRAY_FRAGMENT,
        /// A frame that may not stand beside a partial message.
        TwiceStarted = LR_FAULT_TWICE_STARTED,
        /// One partial message more than the limit.
        TooManyPartial = LR_FAULT_TOO_MANY_PARTIAL,
        /// A message that doesn't read after its header.
        Body = LR_FAULT_BODY,
        /// A Fragment in another byte order than its message began in.
        MixedOrder = LR_FAULT_MIXED_ORDER,
        /// An allocation failed.
        Memory = LR_FAULT_MEMORY,
    }
}

/// Why a connection of a server has ended.
#[derive(Clone, Copy, Debug, PartialEq, Eq, Hash)]
#[non_exhaustive]
pub enum Why {
    /// It goes on.
    Open,
    /// Its stream has a fault.
    Fault(Fault),
    /// A message came that only a server sends.
    Direction,
    /// The peer sent CloseConnection.
    Goodbye,
    /// The peer sent MessageError.
    Error,
    /// CloseConnection was said.
    Farewell,
    /// A request that came on it was given up.
    GivenUp,
    /// Memory was short.
    Memory,
}

impl Why {
    /// What has a number that the library gave.
    pub(crate) fn of(number: u32) -> Result<Why, crate::Error> {
        Ok(match number {
            LR_WHY_OPEN => Why::Open,
            LR_WHY_DIRECTION => Why::Direction,
            LR_WHY_GOODBYE => Why::Goodbye,
            LR_WHY_ERROR => Why::Error,
            LR_WHY_FAREWELL => Why::Farewell,
            LR_WHY_GIVEN_UP => Why::GivenUp,
            LR_WHY_MEMORY => Why::Memory,
            fault => Why::Fault(Fault::of(fault)?),
        })
    }
}

impl Order {
    /// The order of this machine.
    pub const NATIVE: Order = if cfg!(target_endian = "big") { Order::Big } else { Order::Little };
}

impl fmt::Display for Version {
    fn fmt(&self, out: &mut fmt::Formatter<'_>) -> fmt::Result {
        write!(out, "1.{}", self.number())
    }
}

#[cfg(test)]
mod tests {
    use super::*;
    use std::string::{String, ToString};
    use std::vec::Vec;

    /// What lemonrudder-sys says that begins so, by its number.
    fn said(prefix: &str) -> Vec<(&str, u32)> {
        let text = include_str!("../lemonrudder-sys/src/header.rs");
        let lines = text.lines().filter_map(|line| line.strip_prefix("pub const "));
        let named = lines.filter_map(|line| line.strip_prefix(prefix)?.split_once(": u32 = "));
        named.map(|(name, number)| (name, number.trim_end_matches(';').parse().unwrap())).collect()
    }

    /// `SomeName` as `SOME_NAME`.
    fn in_capitals(name: impl fmt::Debug) -> String {
        let mut capitals = String::new();
        for letter in std::format!("{name:?}").chars() {
            if letter.is_uppercase() && !capitals.is_empty() {
                capitals.push('_');
            }
            capitals.extend(letter.to_uppercase());
        }
        capitals
    }

    /// Each name that begins so is one of these, and has that name.
    fn are_named<T: fmt::Debug>(prefix: &str, named: impl Fn(u32) -> Option<T>) {
        let all = said(prefix);
        assert!(all.len() > 1, "{prefix}");
        for (name, number) in all {
            let found = named(number).map(in_capitals);
            let is_so = found.as_deref().is_some_and(|it| it == name || it.ends_with(name));
            assert!(is_so, "{prefix}{name} is {found:?}");
        }
    }

    #[test]
    fn each_number_that_has_a_name_has_one_here() {
        are_named("LR_ORDER_", Order::from_number);
        are_named("LR_WISH_", Wish::from_number);
        are_named("LR_REPLY_", Status::from_number);
        are_named("LR_LOCATE_", LocateStatus::from_number);
        are_named("LR_EX_", SystemName::from_number);
        are_named("LR_COMPLETED_", Completed::from_number);
        are_named("LR_COUNT_", Counted::from_number);
        are_named("LR_ENDED_", Ended::from_number);
        are_named("LR_FAULT_", Fault::from_number);
        are_named("LR_WHY_", |number| Why::of(number).ok());
        are_named("LR_MSG_", MessageType::from_number);
    }

    #[test]
    fn numbers_and_names_agree() {
        for number in 0..20 {
            let name = Status::from_number(number);
            assert_eq!(name.is_some(), number < 6);
            assert!(name.is_none_or(|name| name.number() == number));
            assert_eq!(Fault::from_number(number).is_some(), (1..14).contains(&number));
            assert_eq!(
                Why::of(number).ok(),
                match number {
                    0 => Some(Why::Open),
                    _ => Fault::from_number(number).map(Why::Fault),
                }
            );
        }
        assert_eq!(Version::of(2).map(|version| version.to_string()), Ok("1.2".to_string()));
        assert_eq!(Version::of(3), Err(Error::Range));
    }
}
