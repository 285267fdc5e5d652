// Made by scripts/header.py of embed/include/lemonrudder.h; not to be edited.

//! What `lemonrudder.h` declares, which says what each does.

use crate::lr_slot;
use core::ffi::{c_char, c_void};

pub const LR_OK: i64 = 0;

pub const LR_E_EMPTY: i64 = -1;
pub const LR_E_OPEN: i64 = -2;
pub const LR_E_MEMORY: i64 = -3;
pub const LR_E_RANGE: i64 = -4;
pub const LR_E_CONNECTION: i64 = -5;
pub const LR_E_ASKING: i64 = -6;
pub const LR_E_IDLE: i64 = -7;
pub const LR_E_PARKS: i64 = -8;
pub const LR_E_OUTCOME: i64 = -9;
pub const LR_E_ROOM: i64 = -10;
pub const LR_E_SHORT: i64 = -11;
pub const LR_E_VALUE: i64 = -12;
pub const LR_E_TYPES: i64 = -13;
pub const LR_E_TEXT: i64 = -14;
pub const LR_E_TAKEN: i64 = -15;
pub const LR_E_OBJECT: i64 = -16;
pub const LR_E_RAW: i64 = -17;
pub const LR_E_REFERENCE: i64 = -18;
pub const LR_E_STREAM: i64 = -19;
pub const LR_E_NONE: i64 = -20;
pub const LR_E_EXPIRED: i64 = -21;
pub const LR_E_CALLS: i64 = -22;
pub const LR_E_LONG: i64 = -23;
pub const LR_E_LOST: i64 = -24;
pub const LR_E_PLACE: i64 = -25;
pub const LR_E_TICKET: i64 = -26;
pub const LR_E_FORWARD: i64 = -27;

pub const LR_ORDER_BIG: u32 = 0;
pub const LR_ORDER_LITTLE: u32 = 1;

pub const LR_WISH_NONE: u32 = 0;
pub const LR_WISH_EMPTY: u32 = 1;
pub const LR_WISH_FULL: u32 = 2;

pub const LR_REPLY_NO_EXCEPTION: u32 = 0;
pub const LR_REPLY_USER_EXCEPTION: u32 = 1;
pub const LR_REPLY_SYSTEM_EXCEPTION: u32 = 2;
pub const LR_REPLY_LOCATION_FORWARD: u32 = 3;
pub const LR_REPLY_LOCATION_FORWARD_PERM: u32 = 4;
pub const LR_REPLY_NEEDS_ADDRESSING_MODE: u32 = 5;

pub const LR_LOCATE_UNKNOWN_OBJECT: u32 = 0;
pub const LR_LOCATE_OBJECT_HERE: u32 = 1;
pub const LR_LOCATE_OBJECT_FORWARD: u32 = 2;
pub const LR_LOCATE_OBJECT_FORWARD_PERM: u32 = 3;
pub const LR_LOCATE_SYSTEM_EXCEPTION: u32 = 4;
pub const LR_LOCATE_NEEDS_ADDRESSING_MODE: u32 = 5;

pub const LR_EX_MARSHAL: u32 = 0;
pub const LR_EX_BAD_CONTEXT: u32 = 1;
pub const LR_EX_NO_RESOURCES: u32 = 2;
pub const LR_EX_BAD_OPERATION: u32 = 3;
pub const LR_EX_OBJECT_NOT_EXIST: u32 = 4;
pub const LR_EX_UNKNOWN: u32 = 5;
pub const LR_EX_BAD_PARAM: u32 = 6;
pub const LR_EX_NO_PERMISSION: u32 = 7;
pub const LR_EX_IMP_LIMIT: u32 = 8;
pub const LR_EX_INTERNAL: u32 = 9;
pub const LR_EX_TRANSIENT: u32 = 10;
pub const LR_EX_NO_MEMORY: u32 = 11;
pub const LR_EX_COMM_FAILURE: u32 = 12;
pub const LR_EX_INV_OBJREF: u32 = 13;
pub const LR_EX_INITIALIZE: u32 = 14;
pub const LR_EX_NO_IMPLEMENT: u32 = 15;
pub const LR_EX_BAD_TYPECODE: u32 = 16;
pub const LR_EX_NO_RESPONSE: u32 = 17;
pub const LR_EX_PERSIST_STORE: u32 = 18;
pub const LR_EX_BAD_INV_ORDER: u32 = 19;
pub const LR_EX_FREE_MEM: u32 = 20;
pub const LR_EX_INV_IDENT: u32 = 21;
pub const LR_EX_INV_FLAG: u32 = 22;
pub const LR_EX_INTF_REPOS: u32 = 23;
pub const LR_EX_OBJ_ADAPTER: u32 = 24;
pub const LR_EX_DATA_CONVERSION: u32 = 25;
pub const LR_EX_TRANSACTION_REQUIRED: u32 = 26;
pub const LR_EX_TRANSACTION_ROLLEDBACK: u32 = 27;
pub const LR_EX_INVALID_TRANSACTION: u32 = 28;
pub const LR_EX_INV_POLICY: u32 = 29;
pub const LR_EX_CODESET_INCOMPATIBLE: u32 = 30;
pub const LR_EX_REBIND: u32 = 31;
pub const LR_EX_TIMEOUT: u32 = 32;
pub const LR_EX_TRANSACTION_UNAVAILABLE: u32 = 33;
pub const LR_EX_TRANSACTION_MODE: u32 = 34;
pub const LR_EX_BAD_QOS: u32 = 35;
pub const LR_EX_INVALID_ACTIVITY: u32 = 36;
pub const LR_EX_ACTIVITY_COMPLETED: u32 = 37;
pub const LR_EX_ACTIVITY_REQUIRED: u32 = 38;
pub const LR_EX_THREAD_CANCELLED: u32 = 39;

pub const LR_COMPLETED_YES: u32 = 0;
pub const LR_COMPLETED_NO: u32 = 1;
pub const LR_COMPLETED_MAYBE: u32 = 2;

pub const LR_PART_KEY: u32 = 0;
pub const LR_PART_OPERATION: u32 = 1;
pub const LR_PART_BODY: u32 = 2;
pub const LR_PART_CLIENT: u32 = 3;
pub const LR_PART_PAYLOAD: u32 = 4;

pub const LR_CONTEXT_TRANSACTION: u32 = 0;
pub const LR_CONTEXT_CODE_SETS: u32 = 1;
pub const LR_CONTEXT_FT_REQUEST: u32 = 13;
pub const LR_CONTEXT_SECURITY: u32 = 15;

pub const LR_TYPE_BOOLEAN: u8 = 1;
pub const LR_TYPE_CHAR: u8 = 2;
pub const LR_TYPE_OCTET: u8 = 3;
pub const LR_TYPE_SHORT: u8 = 4;
pub const LR_TYPE_USHORT: u8 = 5;
pub const LR_TYPE_LONG: u8 = 6;
pub const LR_TYPE_ULONG: u8 = 7;
pub const LR_TYPE_LONGLONG: u8 = 8;
pub const LR_TYPE_ULONGLONG: u8 = 9;
pub const LR_TYPE_STRING: u8 = 10;
pub const LR_TYPE_OCTETS: u8 = 11;
pub const LR_TYPE_SEQUENCE: u8 = 12;
pub const LR_TYPE_ENUM: u8 = 13;
pub const LR_TYPE_STRUCT: u8 = 14;
pub const LR_TYPE_FLOAT: u8 = 7;
pub const LR_TYPE_DOUBLE: u8 = 9;

pub const LR_SET_MESSAGE: u32 = 1;
pub const LR_SET_PARTIALS: u32 = 2;
pub const LR_SET_CAPACITY: u32 = 3;
pub const LR_SET_SHARE: u32 = 4;
pub const LR_SET_PARKED: u32 = 5;
pub const LR_SET_PARKED_OF: u32 = 6;
pub const LR_SET_JOINED: u32 = 7;
pub const LR_SET_DUE: u32 = 8;
pub const LR_SET_CLIENT_ID: u32 = 9;
pub const LR_SET_ASK_FIRST: u32 = 10;
pub const LR_SET_CUTS: u32 = 11;

pub const LR_COUNT_CONNECTIONS: u32 = 0;
pub const LR_COUNT_KEPT: u32 = 1;
pub const LR_COUNT_PARKED_NOW: u32 = 2;
pub const LR_COUNT_ASKED: u32 = 3;
pub const LR_COUNT_REPEATED: u32 = 4;
pub const LR_COUNT_JOINED: u32 = 5;
pub const LR_COUNT_EXPIRED: u32 = 6;
pub const LR_COUNT_MALFORMED: u32 = 7;
pub const LR_COUNT_INVALID: u32 = 8;
pub const LR_COUNT_LOG_FULL: u32 = 9;
pub const LR_COUNT_SHARE_FULL: u32 = 10;
pub const LR_COUNT_LOCATED: u32 = 11;
pub const LR_COUNT_DROPPED: u32 = 12;
pub const LR_COUNT_ANSWERED: u32 = 13;
pub const LR_COUNT_PARKED: u32 = 14;
pub const LR_COUNT_SETTLED: u32 = 15;
pub const LR_COUNT_GIVEN_UP: u32 = 16;
pub const LR_COUNT_DECLINED: u32 = 17;
pub const LR_COUNT_WITHDRAWN: u32 = 18;

pub const LR_CLIENT_KEEP_TRANSIENT: u32 = 1;
pub const LR_CLIENT_KEEP_FORWARD: u32 = 2;
pub const LR_CLIENT_VERSION: u32 = 3;
pub const LR_CLIENT_MESSAGE: u32 = 4;
pub const LR_CLIENT_PARTIALS: u32 = 5;
pub const LR_CLIENT_CUTS: u32 = 6;

pub const LR_ENDED_RETURNED: u32 = 0;
pub const LR_ENDED_RAISED: u32 = 1;
pub const LR_ENDED_SYSTEM: u32 = 2;
pub const LR_ENDED_FORWARDED: u32 = 3;
pub const LR_ENDED_NEEDS_ADDRESSING: u32 = 4;
pub const LR_ENDED_EXPIRED: u32 = 5;
pub const LR_ENDED_CANCELLED: u32 = 6;
pub const LR_ENDED_SENT: u32 = 7;

pub const LR_FAULT_MAGIC: u32 = 1;
pub const LR_FAULT_VERSION: u32 = 2;
pub const LR_FAULT_FLAGS: u32 = 3;
pub const LR_FAULT_TYPE: u32 = 4;
pub const LR_FAULT_CUT: u32 = 5;
pub const LR_FAULT_TOO_LARGE: u32 = 6;
pub const LR_FAULT_UNALIGNED_FRAGMENT: u32 = 7;
pub const LR_FAULT_STRAY_FRAGMENT: u32 = 8;
pub const LR_FAULT_TWICE_STARTED: u32 = 9;
pub const LR_FAULT_TOO_MANY_PARTIAL: u32 = 10;
pub const LR_FAULT_BODY: u32 = 11;
pub const LR_FAULT_MIXED_ORDER: u32 = 12;
pub const LR_FAULT_MEMORY: u32 = 13;

pub const LR_WHY_OPEN: u32 = 0;
pub const LR_WHY_DIRECTION: u32 = 32;
pub const LR_WHY_GOODBYE: u32 = 33;
pub const LR_WHY_ERROR: u32 = 34;
pub const LR_WHY_FAREWELL: u32 = 35;
pub const LR_WHY_GIVEN_UP: u32 = 36;
pub const LR_WHY_MEMORY: u32 = 37;

pub const LR_CUTS_ALIGNED: u32 = 0;
pub const LR_CUTS_ANYWHERE: u32 = 1;

pub const LR_MSG_REQUEST: u32 = 0;
pub const LR_MSG_REPLY: u32 = 1;
pub const LR_MSG_CANCEL_REQUEST: u32 = 2;
pub const LR_MSG_LOCATE_REQUEST: u32 = 3;
pub const LR_MSG_LOCATE_REPLY: u32 = 4;
pub const LR_MSG_CLOSE_CONNECTION: u32 = 5;
pub const LR_MSG_ERROR: u32 = 6;
pub const LR_MSG_FRAGMENT: u32 = 7;

pub const LR_IOR_DATA: u32 = 0;
pub const LR_IOR_HOST: u32 = 1;
pub const LR_IOR_KEY: u32 = 2;

#[repr(C)]
#[derive(Clone, Debug, Default)]
pub struct lr_request {
    pub ticket: u64,
    pub connection: u64,
    pub key_size: u64,
    pub operation_size: u64,
    pub body_size: u64,
    pub body_at: u64,
    pub body_order: u32,
    pub is_raw: u32,
    pub request_id: u32,
    pub version: u32,
    pub wish: u32,
    pub has_client: u32,
    pub retention_id: i32,
    pub contexts: u32,
    pub client_size: u64,
    pub expiration: u64,
    pub is_refused: u32,
    pub refusal: u32,
}

#[repr(C)]
#[derive(Clone, Debug, Default)]
pub struct lr_completion {
    pub body_size: u64,
    pub body_at: u64,
    pub call: i32,
    pub how: u32,
    pub body_order: u32,
    pub reserved: u32,
}

#[repr(C)]
#[derive(Clone, Debug, Default)]
pub struct lr_message {
    pub key_size: u64,
    pub operation_size: u64,
    pub body_size: u64,
    pub body_at: u64,
    pub payload_size: u64,
    pub r#type: u32,
    pub version: u32,
    pub order: u32,
    pub request_id: u32,
    pub status: u32,
    pub wish: u32,
    pub contexts: u32,
    pub has_key: u32,
    pub has_client: u32,
    pub retention_id: i32,
    pub client_size: u64,
    pub expiration: u64,
}

#[repr(C)]
#[derive(Clone, Debug, Default)]
pub struct lr_profile {
    pub data_size: u64,
    pub host_size: u64,
    pub key_size: u64,
    pub tag: u32,
    pub is_iiop: u32,
    pub minor: u32,
    pub port: u32,
    pub components: u32,
    pub reserved: u32,
}

#[repr(C)]
#[derive(Clone, Debug, Default)]
pub struct lr_place {
    pub at: u64,
    pub next: u64,
    pub order: u32,
    pub reserved: u32,
}

// SAFETY: they are declared as in the header. Those that are safe take slots and numbers alone, or
// numbers that they fill.
#[rustfmt::skip]
unsafe extern "C" {
    pub safe fn lr_version() -> u32;
    pub safe fn lr_close(slot: &mut lr_slot);
    pub safe fn lr_strerror(error: i64) -> *const c_char;
    pub safe fn lr_error_name(error: i64) -> *const c_char;
    pub safe fn lr_moment(seconds: u64, nanoseconds: u32) -> u64;
    pub safe fn lr_catalogue_open(catalogue: &mut lr_slot) -> i64;
    pub fn lr_catalogue_object(catalogue: &mut lr_slot, key: *const c_void, key_size: usize) -> i64;
    pub fn lr_catalogue_raw_object(
        catalogue: &mut lr_slot,
        key: *const c_void,
        key_size: usize,
    ) -> i64;
    pub fn lr_catalogue_exception(
        catalogue: &mut lr_slot,
        id: *const c_void,
        id_size: usize,
        members: *const u8,
        members_size: usize,
    ) -> i64;
    pub fn lr_catalogue_operation(
        catalogue: &mut lr_slot,
        key: *const c_void,
        key_size: usize,
        name: *const c_void,
        name_size: usize,
        arguments: *const u8,
        arguments_size: usize,
        results: *const u8,
        results_size: usize,
    ) -> i64;
    pub fn lr_catalogue_raw_operation(
        catalogue: &mut lr_slot,
        key: *const c_void,
        key_size: usize,
        name: *const c_void,
        name_size: usize,
    ) -> i64;
    pub fn lr_catalogue_repository_ids(
        catalogue: &mut lr_slot,
        key: *const c_void,
        key_size: usize,
        ids: *const c_void,
        ids_size: usize,
    ) -> i64;
    pub safe fn lr_catalogue_families(catalogue: &mut lr_slot, families: &mut lr_slot) -> i64;
    pub safe fn lr_catalogue_default(catalogue: &mut lr_slot) -> i64;
    pub fn lr_catalogue_remove(catalogue: &mut lr_slot, key: *const c_void, key_size: usize) -> i64;
    pub safe fn lr_server_open(
        server: &mut lr_slot,
        catalogue: &mut lr_slot,
        seed_low: u64,
        seed_high: u64,
    ) -> i64;
    pub safe fn lr_server_set(server: &mut lr_slot, what: u32, value: u64) -> i64;
    pub safe fn lr_server_connect(server: &mut lr_slot, connection: u64) -> i64;
    pub safe fn lr_server_lost(server: &mut lr_slot, connection: u64) -> i64;
    pub safe fn lr_server_farewell(server: &mut lr_slot, connection: u64) -> i64;
    pub safe fn lr_server_is_closed(server: &mut lr_slot, connection: u64) -> i64;
    pub safe fn lr_server_why(server: &mut lr_slot, connection: u64) -> i64;
    pub fn lr_server_feed(
        server: &mut lr_slot,
        connection: u64,
        moment: u64,
        octets: *const c_void,
        size: usize,
    ) -> i64;
    pub fn lr_server_asked(server: &mut lr_slot, request: &mut lr_request, size: usize) -> i64;
    pub fn lr_server_part(
        server: &mut lr_slot,
        ticket: u64,
        part: u32,
        room: *mut c_void,
        size: usize,
    ) -> i64;
    pub fn lr_server_context(
        server: &mut lr_slot,
        index: u32,
        id: &mut u32,
        room: *mut c_void,
        size: usize,
    ) -> i64;
    pub safe fn lr_server_park(server: &mut lr_slot, ticket: u64) -> i64;
    pub safe fn lr_server_parked(server: &mut lr_slot) -> i64;
    pub safe fn lr_server_parked_of(server: &mut lr_slot, connection: u64) -> i64;
    pub safe fn lr_server_wanted(server: &mut lr_slot, ticket: u64) -> i64;
    pub fn lr_server_answer(
        server: &mut lr_slot,
        ticket: u64,
        order: u32,
        results: *const c_void,
        size: usize,
    ) -> i64;
    pub fn lr_server_can_answer(
        server: &mut lr_slot,
        ticket: u64,
        order: u32,
        results: *const c_void,
        size: usize,
    ) -> i64;
    pub fn lr_server_exception(
        server: &mut lr_slot,
        ticket: u64,
        id: *const c_void,
        id_size: usize,
        order: u32,
        members: *const c_void,
        size: usize,
        room: *mut c_void,
        room_size: usize,
    ) -> i64;
    pub fn lr_server_reply_contexts(
        server: &mut lr_slot,
        ticket: u64,
        order: u32,
        contexts: *const c_void,
        size: usize,
    ) -> i64;
    pub fn lr_server_raise(
        server: &mut lr_slot,
        ticket: u64,
        id: *const c_void,
        id_size: usize,
        order: u32,
        members: *const c_void,
        size: usize,
    ) -> i64;
    pub safe fn lr_server_system(
        server: &mut lr_slot,
        ticket: u64,
        name: u32,
        minor: u32,
        completed: u32,
    ) -> i64;
    pub fn lr_server_answer_raw(
        server: &mut lr_slot,
        ticket: u64,
        status: u32,
        order: u32,
        body: *const c_void,
        size: usize,
    ) -> i64;
    pub fn lr_server_answer_unkept(
        server: &mut lr_slot,
        ticket: u64,
        status: u32,
        order: u32,
        body: *const c_void,
        size: usize,
    ) -> i64;
    pub safe fn lr_server_identify(server: &mut lr_slot, ticket: u64) -> i64;
    pub safe fn lr_server_give_up(server: &mut lr_slot, ticket: u64) -> i64;
    pub safe fn lr_server_refuse(server: &mut lr_slot, ticket: u64, name: u32, minor: u32) -> i64;
    pub safe fn lr_server_goodbye(server: &mut lr_slot, ticket: u64) -> i64;
    pub safe fn lr_server_next_due(server: &mut lr_slot, connection: &mut u64) -> i64;
    pub fn lr_server_output(
        server: &mut lr_slot,
        connection: u64,
        room: *mut c_void,
        size: usize,
    ) -> i64;
    pub safe fn lr_server_count(server: &mut lr_slot, what: u32) -> i64;
    pub fn lr_server_held_by(server: &mut lr_slot, client: *const c_void, size: usize) -> i64;
    pub safe fn lr_server_next_expiry(server: &mut lr_slot, moment: &mut u64) -> i64;
    pub safe fn lr_server_tick(server: &mut lr_slot, moment: u64) -> i64;
    pub safe fn lr_server_swap(server: &mut lr_slot, catalogue: &mut lr_slot) -> i64;
    pub fn lr_client_open(client: &mut lr_slot, id: *const c_void, id_size: usize) -> i64;
    pub safe fn lr_client_set(client: &mut lr_slot, what: u32, value: u64) -> i64;
    pub safe fn lr_client_connected(client: &mut lr_slot, now: u64) -> i64;
    pub safe fn lr_client_lost(client: &mut lr_slot) -> i64;
    pub safe fn lr_client_is_connected(client: &mut lr_slot) -> i64;
    pub fn lr_client_call(
        client: &mut lr_slot,
        now: u64,
        expiration: u64,
        key: *const c_void,
        key_size: usize,
        operation: *const c_void,
        operation_size: usize,
        types: *const u8,
        types_size: usize,
        order: u32,
        arguments: *const c_void,
        arguments_size: usize,
    ) -> i64;
    pub fn lr_client_recall(
        client: &mut lr_slot,
        call: i64,
        now: u64,
        expiration: u64,
        key: *const c_void,
        key_size: usize,
        operation: *const c_void,
        operation_size: usize,
        types: *const u8,
        types_size: usize,
        order: u32,
        arguments: *const c_void,
        arguments_size: usize,
    ) -> i64;
    pub fn lr_client_call_raw(
        client: &mut lr_slot,
        now: u64,
        expiration: u64,
        wish: u32,
        key: *const c_void,
        key_size: usize,
        operation: *const c_void,
        operation_size: usize,
        order: u32,
        contexts: *const c_void,
        contexts_size: usize,
        body: *const c_void,
        body_size: usize,
    ) -> i64;
    pub fn lr_client_recall_raw(
        client: &mut lr_slot,
        call: i64,
        now: u64,
        expiration: u64,
        wish: u32,
        key: *const c_void,
        key_size: usize,
        operation: *const c_void,
        operation_size: usize,
        order: u32,
        contexts: *const c_void,
        contexts_size: usize,
        body: *const c_void,
        body_size: usize,
    ) -> i64;
    pub safe fn lr_client_skip_to(client: &mut lr_slot, call: i64) -> i64;
    pub safe fn lr_client_resend(client: &mut lr_slot, now: u64) -> i64;
    pub safe fn lr_client_cancel(client: &mut lr_slot, call: i64) -> i64;
    pub safe fn lr_client_tick(client: &mut lr_slot, now: u64) -> i64;
    pub fn lr_client_feed(client: &mut lr_slot, octets: *const c_void, size: usize) -> i64;
    pub fn lr_client_completed(
        client: &mut lr_slot,
        completion: &mut lr_completion,
        size: usize,
    ) -> i64;
    pub fn lr_client_body(client: &mut lr_slot, room: *mut c_void, size: usize) -> i64;
    pub fn lr_client_forwarded(
        client: &mut lr_slot,
        completion: &mut lr_completion,
        size: usize,
        room: *mut c_void,
        room_size: usize,
    ) -> i64;
    pub fn lr_client_redirect(
        client: &mut lr_slot,
        call: i64,
        key: *const c_void,
        key_size: usize,
        operation: *const c_void,
        operation_size: usize,
        types: *const u8,
        types_size: usize,
        order: u32,
        arguments: *const c_void,
        arguments_size: usize,
    ) -> i64;
    pub fn lr_client_redirect_raw(
        client: &mut lr_slot,
        call: i64,
        wish: u32,
        key: *const c_void,
        key_size: usize,
        operation: *const c_void,
        operation_size: usize,
        order: u32,
        contexts: *const c_void,
        contexts_size: usize,
        body: *const c_void,
        body_size: usize,
    ) -> i64;
    pub fn lr_client_output(client: &mut lr_slot, room: *mut c_void, size: usize) -> i64;
    pub safe fn lr_assembler_open(
        assembler: &mut lr_slot,
        message_limit: u32,
        partials: u32,
    ) -> i64;
    pub safe fn lr_assembler_open_cuts(
        assembler: &mut lr_slot,
        message_limit: u32,
        partials: u32,
        cuts: u32,
    ) -> i64;
    pub fn lr_assembler_feed(assembler: &mut lr_slot, octets: *const c_void, size: usize) -> i64;
    pub safe fn lr_assembler_fault(assembler: &mut lr_slot) -> i64;
    pub fn lr_assembler_message(
        assembler: &mut lr_slot,
        message: &mut lr_message,
        size: usize,
    ) -> i64;
    pub fn lr_assembler_part(
        assembler: &mut lr_slot,
        part: u32,
        room: *mut c_void,
        size: usize,
    ) -> i64;
    pub fn lr_assembler_context(
        assembler: &mut lr_slot,
        index: u32,
        id: &mut u32,
        room: *mut c_void,
        size: usize,
    ) -> i64;
    pub fn lr_write_request(
        room: *mut c_void,
        size: usize,
        version: u32,
        order: u32,
        request_id: u32,
        wish: u32,
        key: *const c_void,
        key_size: usize,
        operation: *const c_void,
        operation_size: usize,
        context_id: u32,
        context: *const c_void,
        context_size: usize,
        body: *const c_void,
        body_size: usize,
    ) -> i64;
    pub fn lr_write_reply(
        room: *mut c_void,
        size: usize,
        version: u32,
        order: u32,
        request_id: u32,
        status: u32,
        body: *const c_void,
        body_size: usize,
    ) -> i64;
    pub fn lr_write_cancel(
        room: *mut c_void,
        size: usize,
        version: u32,
        order: u32,
        request_id: u32,
    ) -> i64;
    pub fn lr_write_locate_request(
        room: *mut c_void,
        size: usize,
        version: u32,
        order: u32,
        request_id: u32,
        key: *const c_void,
        key_size: usize,
    ) -> i64;
    pub fn lr_write_locate_reply(
        room: *mut c_void,
        size: usize,
        version: u32,
        order: u32,
        request_id: u32,
        status: u32,
    ) -> i64;
    pub fn lr_write_close(room: *mut c_void, size: usize) -> i64;
    pub fn lr_write_error(room: *mut c_void, size: usize) -> i64;
    pub fn lr_write_ft(
        room: *mut c_void,
        size: usize,
        order: u32,
        client: *const c_void,
        client_size: usize,
        retention_id: i32,
        expiration: u64,
    ) -> i64;
    pub fn lr_ior_parse(ior: &mut lr_slot, text: *const c_void, size: usize) -> i64;
    pub fn lr_ior_iiop(
        ior: &mut lr_slot,
        type_id: *const c_void,
        type_id_size: usize,
        minor: u32,
        host: *const c_void,
        host_size: usize,
        port: u16,
        key: *const c_void,
        key_size: usize,
    ) -> i64;
    pub fn lr_ior_print(ior: &mut lr_slot, room: *mut c_void, size: usize) -> i64;
    pub fn lr_ior_type_id(ior: &mut lr_slot, room: *mut c_void, size: usize) -> i64;
    pub safe fn lr_ior_profiles(ior: &mut lr_slot) -> i64;
    pub fn lr_ior_profile(
        ior: &mut lr_slot,
        index: u32,
        profile: &mut lr_profile,
        size: usize,
    ) -> i64;
    pub fn lr_ior_part(
        ior: &mut lr_slot,
        index: u32,
        part: u32,
        room: *mut c_void,
        size: usize,
    ) -> i64;
    pub fn lr_ior_component(
        ior: &mut lr_slot,
        index: u32,
        component: u32,
        tag: &mut u32,
        room: *mut c_void,
        size: usize,
    ) -> i64;
    pub fn lr_get_octet(
        octets: *const c_void,
        size: usize,
        place: &mut lr_place,
        value: &mut u8,
    ) -> i64;
    pub fn lr_get_char(
        octets: *const c_void,
        size: usize,
        place: &mut lr_place,
        value: &mut u8,
    ) -> i64;
    pub fn lr_get_boolean(
        octets: *const c_void,
        size: usize,
        place: &mut lr_place,
        value: &mut u8,
    ) -> i64;
    pub fn lr_get_short(
        octets: *const c_void,
        size: usize,
        place: &mut lr_place,
        value: &mut i16,
    ) -> i64;
    pub fn lr_get_ushort(
        octets: *const c_void,
        size: usize,
        place: &mut lr_place,
        value: &mut u16,
    ) -> i64;
    pub fn lr_get_long(
        octets: *const c_void,
        size: usize,
        place: &mut lr_place,
        value: &mut i32,
    ) -> i64;
    pub fn lr_get_ulong(
        octets: *const c_void,
        size: usize,
        place: &mut lr_place,
        value: &mut u32,
    ) -> i64;
    pub fn lr_get_longlong(
        octets: *const c_void,
        size: usize,
        place: &mut lr_place,
        value: &mut i64,
    ) -> i64;
    pub fn lr_get_ulonglong(
        octets: *const c_void,
        size: usize,
        place: &mut lr_place,
        value: &mut u64,
    ) -> i64;
    pub fn lr_get_string(
        octets: *const c_void,
        size: usize,
        place: &mut lr_place,
        start: &mut u64,
        length: &mut u64,
    ) -> i64;
    pub fn lr_get_octets(
        octets: *const c_void,
        size: usize,
        place: &mut lr_place,
        start: &mut u64,
        length: &mut u64,
    ) -> i64;
    pub fn lr_get_encapsulation(
        octets: *const c_void,
        size: usize,
        place: &mut lr_place,
        start: &mut u64,
        length: &mut u64,
        inner: &mut lr_place,
    ) -> i64;
    pub fn lr_put_octet(room: *mut c_void, size: usize, place: &mut lr_place, value: u8) -> i64;
    pub fn lr_put_char(room: *mut c_void, size: usize, place: &mut lr_place, value: u8) -> i64;
    pub fn lr_put_boolean(room: *mut c_void, size: usize, place: &mut lr_place, value: u8) -> i64;
    pub fn lr_put_short(room: *mut c_void, size: usize, place: &mut lr_place, value: i16) -> i64;
    pub fn lr_put_ushort(room: *mut c_void, size: usize, place: &mut lr_place, value: u16) -> i64;
    pub fn lr_put_long(room: *mut c_void, size: usize, place: &mut lr_place, value: i32) -> i64;
    pub fn lr_put_ulong(room: *mut c_void, size: usize, place: &mut lr_place, value: u32) -> i64;
    pub fn lr_put_longlong(room: *mut c_void, size: usize, place: &mut lr_place, value: i64) -> i64;
    pub fn lr_put_ulonglong(
        room: *mut c_void,
        size: usize,
        place: &mut lr_place,
        value: u64,
    ) -> i64;
    pub fn lr_put_string(
        room: *mut c_void,
        size: usize,
        place: &mut lr_place,
        text: *const c_void,
        length: usize,
    ) -> i64;
    pub fn lr_put_octets(
        room: *mut c_void,
        size: usize,
        place: &mut lr_place,
        data: *const c_void,
        length: usize,
    ) -> i64;
    pub fn lr_set_heap(
        allocate: Option<unsafe extern "C" fn(usize) -> *mut c_void>,
        reallocate: Option<unsafe extern "C" fn(*mut c_void, usize) -> *mut c_void>,
        release: Option<unsafe extern "C" fn(*mut c_void)>,
    ) -> i64;
}
