//! The calls of the edge interface for guests in Rust without its standard library: all that this host knows, in the
//! order of docs/CALLS.md, which says what each is for. `.ci/calls` compares this file with the table that the proofs
//! are about. A guest has it as a module of its own, as hello/hello.rs does: `#[path = "../edge.rs"] mod edge;`.
//!
//! The calls are unsafe, since they read and write where their pointers say. edge.h says more of each, and of its
//! parameters. Lengths are in bytes, times in nanoseconds. The calls that send requests to backends aren't here: this
//! host doesn't have them yet.
#![allow(dead_code)]
// Calls of two modules may have one name: for WebAssembly the module is part of the import.
#![allow(clashing_extern_declarations)]

use core::mem::{align_of, size_of, transmute, MaybeUninit};

/// Counts from 1, each kind by itself; no number is given twice. A guest gets at most 65,536 of a kind.
pub type Handle = u32;

pub type Status = u32;

/// What the calls answer, but those of WASI.
pub mod status {
    pub const OK: u32 = 0;
    pub const ERROR: u32 = 1;
    pub const INVAL: u32 = 2;
    pub const BADF: u32 = 3;
    pub const BUFLEN: u32 = 4;
    pub const UNSUPPORTED: u32 = 5;
    pub const BADALIGN: u32 = 6;
    pub const HTTPINVALID: u32 = 7;
    pub const HTTPUSER: u32 = 8;
    pub const HTTPINCOMPLETE: u32 = 9;
    pub const NONE: u32 = 10;
    pub const HTTPHEADTOOLARGE: u32 = 11;
    pub const HTTPINVALIDSTATUS: u32 = 12;
    pub const LIMITEXCEEDED: u32 = 13;
    pub const AGAIN: u32 = 14;
}

/// What the calls of WASI answer.
pub mod errno {
    pub const SUCCESS: u32 = 0;
    pub const BADF: u32 = 8;
    pub const INVAL: u32 = 28;
}

/// The ends of a body.
pub const BACK: u32 = 0;
pub const FRONT: u32 = 1;

/// The bits of a lookup's state.
pub mod state {
    pub const FOUND: u32 = 1;
    pub const USABLE: u32 = 2;
    pub const STALE: u32 = 4;
    pub const MUST_INSERT_OR_UPDATE: u32 = 8;
}

/// The bits of masks: which options of a lookup or an insertion are given, and how a purge is made.
pub mod mask {
    pub const LOOKUP_REQUEST_HEADERS: u32 = 2;
    pub const WRITE_REQUEST_HEADERS: u32 = 2;
    pub const WRITE_VARY_RULE: u32 = 4;
    pub const WRITE_INITIAL_AGE_NS: u32 = 8;
    pub const WRITE_STALE_WHILE_REVALIDATE_NS: u32 = 16;
    pub const WRITE_SURROGATE_KEYS: u32 = 32;
    pub const WRITE_LENGTH: u32 = 64;
    pub const WRITE_USER_METADATA: u32 = 128;
    pub const PURGE_SOFT: u32 = 1;
}

/// The options of a lookup.
#[repr(C)]
pub struct LookupOptions {
    pub request_headers: Handle,
}

/// The options of an insertion or an update. Places are those of bytes, as `place` gives them.
#[repr(C)]
#[derive(Clone, Copy, Default)]
pub struct WriteOptions {
    pub max_age_ns: u64,
    pub request_headers: Handle,
    pub vary_rule: u32,
    pub vary_rule_length: u32,
    pub initial_age_ns: u64,
    pub stale_while_revalidate_ns: u64,
    pub surrogate_keys: u32,
    pub surrogate_keys_length: u32,
    pub length: u64,
    pub user_metadata: u32,
    pub user_metadata_length: u32,
}

/// No options: all is 0.
pub const NO_OPTIONS: WriteOptions = WriteOptions {
    max_age_ns: 0,
    request_headers: 0,
    vary_rule: 0,
    vary_rule_length: 0,
    initial_age_ns: 0,
    stale_while_revalidate_ns: 0,
    surrogate_keys: 0,
    surrogate_keys_length: 0,
    length: 0,
    user_metadata: 0,
    user_metadata_length: 0,
};

// Where each field stands: its lowest byte, in options of which it alone is 1.
macro_rules! at {
    ($field:ident, $place:literal) => {
        const _: () = {
            let bytes: [MaybeUninit<u8>; 64] = unsafe { transmute(WriteOptions { $field: 1, ..NO_OPTIONS }) };
            assert!(unsafe { bytes[$place].assume_init() } == 1);
        };
    };
}
at!(max_age_ns, 0);
at!(request_headers, 8);
at!(vary_rule, 12);
at!(vary_rule_length, 16);
at!(initial_age_ns, 24);
at!(stale_while_revalidate_ns, 32);
at!(surrogate_keys, 40);
at!(surrogate_keys_length, 44);
at!(length, 48);
at!(user_metadata, 56);
at!(user_metadata_length, 60);
const _: () = assert!(size_of::<WriteOptions>() == 64 && align_of::<WriteOptions>() == 8);
const _: () = assert!(size_of::<LookupOptions>() == 4);

/// Where bytes stand, for the fields of options. They have to stay there until the call was made.
pub fn place(bytes: &[u8]) -> u32 {
    bytes.as_ptr() as usize as u32
}

/// A part of a line of `fd_write`.
#[repr(C)]
pub struct Ciovec {
    pub bytes: u32,
    pub length: u32,
}

pub mod abi {
    use super::*;

    #[link(wasm_import_module = "fastly_abi")]
    extern "C" {
        pub fn init(version: u64) -> Status;
    }
}

pub mod http_body {
    use super::*;

    #[link(wasm_import_module = "fastly_http_body")]
    extern "C" {
        pub fn new(body: *mut Handle) -> Status;
        pub fn append(to: Handle, from: Handle) -> Status;
        pub fn read(body: Handle, buffer: *mut u8, room: u32, length: *mut u32) -> Status;
        pub fn write(body: Handle, bytes: *const u8, length: u32, end: u32, written: *mut u32) -> Status;
        pub fn close(body: Handle) -> Status;
        pub fn abandon(body: Handle) -> Status;
        pub fn known_length(body: Handle, length: *mut u64) -> Status;
    }
}

pub mod http_req {
    use super::*;

    #[link(wasm_import_module = "fastly_http_req")]
    extern "C" {
        pub fn new(request: *mut Handle) -> Status;
        pub fn close(request: Handle) -> Status;
        pub fn header_names_get(
            request: Handle, buffer: *mut u8, room: u32, cursor: u32, next: *mut i64, length: *mut u32,
        ) -> Status;
        pub fn header_value_get(
            request: Handle, name: *const u8, name_length: u32, buffer: *mut u8, room: u32, length: *mut u32,
        ) -> Status;
        pub fn header_values_get(
            request: Handle, name: *const u8, name_length: u32, buffer: *mut u8, room: u32, cursor: u32,
            next: *mut i64, length: *mut u32,
        ) -> Status;
        pub fn header_values_set(
            request: Handle, name: *const u8, name_length: u32, values: *const u8, values_length: u32,
        ) -> Status;
        pub fn header_insert(
            request: Handle, name: *const u8, name_length: u32, value: *const u8, value_length: u32,
        ) -> Status;
        pub fn header_append(
            request: Handle, name: *const u8, name_length: u32, value: *const u8, value_length: u32,
        ) -> Status;
        pub fn header_remove(request: Handle, name: *const u8, name_length: u32) -> Status;
        pub fn version_get(request: Handle, version: *mut u32) -> Status;
        pub fn version_set(request: Handle, version: u32) -> Status;
        pub fn body_downstream_get(request: *mut Handle, body: *mut Handle) -> Status;
        pub fn method_get(request: Handle, buffer: *mut u8, room: u32, length: *mut u32) -> Status;
        pub fn method_set(request: Handle, method: *const u8, length: u32) -> Status;
        pub fn uri_get(request: Handle, buffer: *mut u8, room: u32, length: *mut u32) -> Status;
        pub fn uri_set(request: Handle, uri: *const u8, length: u32) -> Status;
    }
}

pub mod http_resp {
    use super::*;

    #[link(wasm_import_module = "fastly_http_resp")]
    extern "C" {
        pub fn new(response: *mut Handle) -> Status;
        pub fn close(response: Handle) -> Status;
        pub fn header_names_get(
            response: Handle, buffer: *mut u8, room: u32, cursor: u32, next: *mut i64, length: *mut u32,
        ) -> Status;
        pub fn header_value_get(
            response: Handle, name: *const u8, name_length: u32, buffer: *mut u8, room: u32, length: *mut u32,
        ) -> Status;
        pub fn header_values_get(
            response: Handle, name: *const u8, name_length: u32, buffer: *mut u8, room: u32, cursor: u32,
            next: *mut i64, length: *mut u32,
        ) -> Status;
        pub fn header_values_set(
            response: Handle, name: *const u8, name_length: u32, values: *const u8, values_length: u32,
        ) -> Status;
        pub fn header_insert(
            response: Handle, name: *const u8, name_length: u32, value: *const u8, value_length: u32,
        ) -> Status;
        pub fn header_append(
            response: Handle, name: *const u8, name_length: u32, value: *const u8, value_length: u32,
        ) -> Status;
        pub fn header_remove(response: Handle, name: *const u8, name_length: u32) -> Status;
        pub fn version_get(response: Handle, version: *mut u32) -> Status;
        pub fn version_set(response: Handle, version: u32) -> Status;
        pub fn status_get(response: Handle, status: *mut u16) -> Status;
        pub fn status_set(response: Handle, status: u32) -> Status;
        pub fn send_downstream(response: Handle, body: Handle, streaming: u32) -> Status;
    }
}

pub mod dictionary {
    use super::*;

    #[link(wasm_import_module = "fastly_dictionary")]
    extern "C" {
        pub fn open(name: *const u8, length: u32, dictionary: *mut Handle) -> Status;
        pub fn get(
            dictionary: Handle, key: *const u8, key_length: u32, buffer: *mut u8, room: u32, length: *mut u32,
        ) -> Status;
    }
}

pub mod config_store {
    use super::*;

    #[link(wasm_import_module = "fastly_config_store")]
    extern "C" {
        pub fn open(name: *const u8, length: u32, store: *mut Handle) -> Status;
        pub fn get(
            store: Handle, key: *const u8, key_length: u32, buffer: *mut u8, room: u32, length: *mut u32,
        ) -> Status;
    }
}

pub mod secret_store {
    use super::*;

    #[link(wasm_import_module = "fastly_secret_store")]
    extern "C" {
        pub fn open(name: *const u8, length: u32, store: *mut Handle) -> Status;
        pub fn get(store: Handle, key: *const u8, key_length: u32, secret: *mut Handle) -> Status;
        pub fn plaintext(secret: Handle, buffer: *mut u8, room: u32, length: *mut u32) -> Status;
    }
}

pub mod log {
    use super::*;

    #[link(wasm_import_module = "fastly_log")]
    extern "C" {
        pub fn endpoint_get(name: *const u8, length: u32, endpoint: *mut Handle) -> Status;
        pub fn write(endpoint: Handle, line: *const u8, length: u32, written: *mut u32) -> Status;
    }
}

pub mod cache {
    use super::*;

    #[link(wasm_import_module = "fastly_cache")]
    extern "C" {
        pub fn lookup(
            key: *const u8, length: u32, mask: u32, options: *const LookupOptions, lookup: *mut Handle,
        ) -> Status;
        pub fn insert(
            key: *const u8, length: u32, mask: u32, options: *const WriteOptions, body: *mut Handle,
        ) -> Status;
        pub fn transaction_lookup(
            key: *const u8, length: u32, mask: u32, options: *const LookupOptions, lookup: *mut Handle,
        ) -> Status;
        pub fn transaction_lookup_async(
            key: *const u8, length: u32, mask: u32, options: *const LookupOptions, busy: *mut Handle,
        ) -> Status;
        pub fn cache_busy_handle_wait(busy: Handle, lookup: *mut Handle) -> Status;
        pub fn close_busy(busy: Handle) -> Status;
        pub fn transaction_insert(lookup: Handle, mask: u32, options: *const WriteOptions, body: *mut Handle)
            -> Status;
        pub fn transaction_insert_and_stream_back(
            lookup: Handle, mask: u32, options: *const WriteOptions, body: *mut Handle, back: *mut Handle,
        ) -> Status;
        pub fn transaction_update(lookup: Handle, mask: u32, options: *const WriteOptions) -> Status;
        pub fn transaction_cancel(lookup: Handle) -> Status;
        pub fn close(lookup: Handle) -> Status;
        pub fn get_state(lookup: Handle, state: *mut u32) -> Status;
        pub fn get_user_metadata(lookup: Handle, buffer: *mut u8, room: u32, length: *mut u32) -> Status;
        pub fn get_length(lookup: Handle, length: *mut u64) -> Status;
        pub fn get_max_age_ns(lookup: Handle, max_age: *mut u64) -> Status;
        pub fn get_stale_while_revalidate_ns(lookup: Handle, stale: *mut u64) -> Status;
        pub fn get_age_ns(lookup: Handle, age: *mut u64) -> Status;
        pub fn get_body(lookup: Handle, mask: u32, options: *const u8, body: *mut Handle) -> Status;
    }
}

pub mod purge {
    use super::*;

    #[link(wasm_import_module = "fastly_purge")]
    extern "C" {
        pub fn purge_surrogate_key(key: *const u8, length: u32, mask: u32, options: *mut u8) -> Status;
    }
}

pub mod wasi {
    use super::*;

    #[link(wasm_import_module = "wasi_snapshot_preview1")]
    extern "C" {
        pub fn proc_exit(code: u32) -> !;
        pub fn fd_write(fd: u32, parts: *const Ciovec, count: u32, written: *mut u32) -> u32;
        pub fn random_get(buffer: *mut u8, length: u32) -> u32;
        pub fn clock_time_get(id: u32, precision: u64, time: *mut u64) -> u32;
        pub fn environ_sizes_get(count: *mut u32, length: *mut u32) -> u32;
        pub fn args_sizes_get(count: *mut u32, length: *mut u32) -> u32;
        pub fn environ_get(places: *mut u8, texts: *mut u8) -> u32;
        pub fn args_get(places: *mut u8, texts: *mut u8) -> u32;
    }
}
