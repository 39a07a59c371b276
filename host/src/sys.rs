//! The calls of include/pradulins.h, each behind a safe function over slices. This is the only file with `unsafe`: what a call asks of C's caller
//! (valid pointers, room as said, no overlap) is what Rust's slices are.

use crate::{NODE_SIZE, VALUES};

pub(crate) type Values = [u64; VALUES];
pub(crate) type Node = [u8; NODE_SIZE];

#[cfg(not(all(test, no_archive)))]
mod calls {
    extern "C" {
        pub fn pradulins_start(node: *mut u8, ttl: u64, max_seen: usize, history_len: usize, max_messages: usize, flags: u32) -> u32;
        pub fn pradulins_admit(
            node: *mut u8,
            seen_store: *mut u8,
            seen_store_len: usize,
            cache_store: *mut u8,
            cache_store_len: usize,
            edition: u32,
            body: *const u8,
            body_len: usize,
            index: usize,
            verified: bool,
            at: u64,
            values: *mut u64,
        ) -> u32;
        pub fn pradulins_heartbeat(
            node: *mut u8,
            seen_store: *const u8,
            seen_store_len: usize,
            cache_store: *const u8,
            cache_store_len: usize,
            at: u64,
            values: *mut u64,
        ) -> u32;
        pub fn pradulins_advertise(
            node: *const u8,
            seen_store: *const u8,
            seen_store_len: usize,
            cache_store: *const u8,
            cache_store_len: usize,
            topic: *const u8,
            topic_len: usize,
            windows: usize,
            out: *mut u8,
            out_len: usize,
            values: *mut u64,
        ) -> u32;
        pub fn pradulins_explain(
            node: *const u8,
            seen_store: *const u8,
            seen_store_len: usize,
            cache_store: *const u8,
            cache_store_len: usize,
            id: *const u8,
            id_len: usize,
            topic: *const u8,
            topic_len: usize,
            windows: usize,
            values: *mut u64,
        ) -> u32;
        pub fn pradulins_ask(
            node: *const u8,
            seen_store: *const u8,
            seen_store_len: usize,
            cache_store: *const u8,
            cache_store_len: usize,
            edition: u32,
            body: *const u8,
            body_len: usize,
            out: *mut u8,
            out_len: usize,
            values: *mut u64,
        ) -> u32;
        pub fn pradulins_serve(
            node: *const u8,
            seen_store: *const u8,
            seen_store_len: usize,
            cache_store: *const u8,
            cache_store_len: usize,
            edition: u32,
            body: *const u8,
            body_len: usize,
            unwanted: *const u8,
            unwanted_len: usize,
            out: *mut u8,
            out_len: usize,
            values: *mut u64,
        ) -> u32;
        pub fn pradulins_settings(node: *const u8, values: *mut u64) -> u32;
        pub fn pradulins_state(
            node: *const u8,
            seen_store: *const u8,
            seen_store_len: usize,
            cache_store: *const u8,
            cache_store_len: usize,
            values: *mut u64,
        ) -> u32;
        pub fn pradulins_encode(dialect: u32, body: *const u8, body_len: usize, out: *mut u8, out_len: usize, values: *mut u64) -> u32;
        pub fn pradulins_sign_bytes(
            dialect: u32,
            body: *const u8,
            body_len: usize,
            index: usize,
            out: *mut u8,
            out_len: usize,
            values: *mut u64,
        ) -> u32;
        pub fn pradulins_message_id(
            dialect: u32,
            body: *const u8,
            body_len: usize,
            index: usize,
            out: *mut u8,
            out_len: usize,
            values: *mut u64,
        ) -> u32;
        pub fn pradulins_decode(dialect: u32, body: *const u8, body_len: usize, table: *mut u64, table_len: usize, values: *mut u64) -> u32;
        pub fn pradulins_walk(dialect: u32, body: *const u8, body_len: usize, at: usize, values: *mut u64) -> u32;
        pub fn pradulins_write_rpc(
            records: *const u64,
            records_len: usize,
            bytes: *const u8,
            bytes_len: usize,
            flags: u32,
            out: *mut u8,
            out_len: usize,
            values: *mut u64,
        ) -> u32;
        pub fn pradulins_sign_fields(
            records: *const u64,
            records_len: usize,
            bytes: *const u8,
            bytes_len: usize,
            index: usize,
            out: *mut u8,
            out_len: usize,
            values: *mut u64,
        ) -> u32;
        pub fn pradulins_version() -> u32;
        pub fn pradulins_format() -> u32;
    }
}

// Unit tests are linked without the archive where there is none. Those that run call none of these.
#[cfg(all(test, no_archive))]
mod calls {
    macro_rules! missing {
        ($($name:ident($($kind:ty),*);)*) => {
            $(pub unsafe fn $name($(_: $kind),*) -> u32 { panic!("no archive") })*
        };
    }
    missing! {
        pradulins_start(*mut u8, u64, usize, usize, usize, u32);
        pradulins_admit(*mut u8, *mut u8, usize, *mut u8, usize, u32, *const u8, usize, usize, bool, u64, *mut u64);
        pradulins_heartbeat(*mut u8, *const u8, usize, *const u8, usize, u64, *mut u64);
        pradulins_advertise(*const u8, *const u8, usize, *const u8, usize, *const u8, usize, usize, *mut u8, usize, *mut u64);
        pradulins_explain(*const u8, *const u8, usize, *const u8, usize, *const u8, usize, *const u8, usize, usize, *mut u64);
        pradulins_ask(*const u8, *const u8, usize, *const u8, usize, u32, *const u8, usize, *mut u8, usize, *mut u64);
        pradulins_serve(*const u8, *const u8, usize, *const u8, usize, u32, *const u8, usize, *const u8, usize, *mut u8, usize, *mut u64);
        pradulins_settings(*const u8, *mut u64);
        pradulins_state(*const u8, *const u8, usize, *const u8, usize, *mut u64);
        pradulins_encode(u32, *const u8, usize, *mut u8, usize, *mut u64);
        pradulins_sign_bytes(u32, *const u8, usize, usize, *mut u8, usize, *mut u64);
        pradulins_message_id(u32, *const u8, usize, usize, *mut u8, usize, *mut u64);
        pradulins_decode(u32, *const u8, usize, *mut u64, usize, *mut u64);
        pradulins_walk(u32, *const u8, usize, usize, *mut u64);
        pradulins_write_rpc(*const u64, usize, *const u8, usize, u32, *mut u8, usize, *mut u64);
        pradulins_sign_fields(*const u64, usize, *const u8, usize, usize, *mut u8, usize, *mut u64);
        pradulins_version();
        pradulins_format();
    }
}

// SAFETY, of every call below: each pointer comes from a slice or an array and is passed with its length; `&mut` excludes overlap.

pub(crate) fn start(node: &mut Node, ttl: u64, max_seen: usize, history_len: usize, max_messages: usize, flags: u32) -> u32 {
    unsafe { calls::pradulins_start(node.as_mut_ptr(), ttl, max_seen, history_len, max_messages, flags) }
}

#[allow(clippy::too_many_arguments)]
pub(crate) fn admit(
    node: &mut Node,
    seen: &mut [u8],
    cache: &mut [u8],
    edition: u32,
    body: &[u8],
    index: usize,
    verified: bool,
    at: u64,
    values: &mut Values,
) -> u32 {
    unsafe {
        calls::pradulins_admit(
            node.as_mut_ptr(),
            seen.as_mut_ptr(),
            seen.len(),
            cache.as_mut_ptr(),
            cache.len(),
            edition,
            body.as_ptr(),
            body.len(),
            index,
            verified,
            at,
            values.as_mut_ptr(),
        )
    }
}

pub(crate) fn heartbeat(node: &mut Node, seen: &[u8], cache: &[u8], at: u64, values: &mut Values) -> u32 {
    unsafe { calls::pradulins_heartbeat(node.as_mut_ptr(), seen.as_ptr(), seen.len(), cache.as_ptr(), cache.len(), at, values.as_mut_ptr()) }
}

pub(crate) fn advertise(node: &Node, seen: &[u8], cache: &[u8], topic: &[u8], windows: usize, out: &mut [u8], values: &mut Values) -> u32 {
    unsafe {
        calls::pradulins_advertise(
            node.as_ptr(),
            seen.as_ptr(),
            seen.len(),
            cache.as_ptr(),
            cache.len(),
            topic.as_ptr(),
            topic.len(),
            windows,
            out.as_mut_ptr(),
            out.len(),
            values.as_mut_ptr(),
        )
    }
}

pub(crate) fn explain(node: &Node, seen: &[u8], cache: &[u8], id: &[u8], topic: &[u8], windows: usize, values: &mut Values) -> u32 {
    unsafe {
        calls::pradulins_explain(
            node.as_ptr(),
            seen.as_ptr(),
            seen.len(),
            cache.as_ptr(),
            cache.len(),
            id.as_ptr(),
            id.len(),
            topic.as_ptr(),
            topic.len(),
            windows,
            values.as_mut_ptr(),
        )
    }
}

pub(crate) fn ask(node: &Node, seen: &[u8], cache: &[u8], edition: u32, body: &[u8], out: &mut [u8], values: &mut Values) -> u32 {
    unsafe {
        calls::pradulins_ask(
            node.as_ptr(),
            seen.as_ptr(),
            seen.len(),
            cache.as_ptr(),
            cache.len(),
            edition,
            body.as_ptr(),
            body.len(),
            out.as_mut_ptr(),
            out.len(),
            values.as_mut_ptr(),
        )
    }
}

#[allow(clippy::too_many_arguments)]
pub(crate) fn serve(node: &Node, seen: &[u8], cache: &[u8], edition: u32, body: &[u8], unwanted: &[u8], out: &mut [u8], values: &mut Values) -> u32 {
    unsafe {
        calls::pradulins_serve(
            node.as_ptr(),
            seen.as_ptr(),
            seen.len(),
            cache.as_ptr(),
            cache.len(),
            edition,
            body.as_ptr(),
            body.len(),
            unwanted.as_ptr(),
            unwanted.len(),
            out.as_mut_ptr(),
            out.len(),
            values.as_mut_ptr(),
        )
    }
}

pub(crate) fn settings(node: &Node, values: &mut Values) -> u32 {
    unsafe { calls::pradulins_settings(node.as_ptr(), values.as_mut_ptr()) }
}

pub(crate) fn state(node: &Node, seen: &[u8], cache: &[u8], values: &mut Values) -> u32 {
    unsafe { calls::pradulins_state(node.as_ptr(), seen.as_ptr(), seen.len(), cache.as_ptr(), cache.len(), values.as_mut_ptr()) }
}

pub(crate) fn encode(dialect: u32, body: &[u8], out: &mut [u8], values: &mut Values) -> u32 {
    unsafe { calls::pradulins_encode(dialect, body.as_ptr(), body.len(), out.as_mut_ptr(), out.len(), values.as_mut_ptr()) }
}

pub(crate) fn sign_bytes(dialect: u32, body: &[u8], index: usize, out: &mut [u8], values: &mut Values) -> u32 {
    unsafe { calls::pradulins_sign_bytes(dialect, body.as_ptr(), body.len(), index, out.as_mut_ptr(), out.len(), values.as_mut_ptr()) }
}

pub(crate) fn message_id(dialect: u32, body: &[u8], index: usize, out: &mut [u8], values: &mut Values) -> u32 {
    unsafe { calls::pradulins_message_id(dialect, body.as_ptr(), body.len(), index, out.as_mut_ptr(), out.len(), values.as_mut_ptr()) }
}

pub(crate) fn decode(dialect: u32, body: &[u8], table: &mut [u64], values: &mut Values) -> u32 {
    unsafe { calls::pradulins_decode(dialect, body.as_ptr(), body.len(), table.as_mut_ptr(), table.len(), values.as_mut_ptr()) }
}

pub(crate) fn walk(dialect: u32, body: &[u8], at: usize, values: &mut Values) -> u32 {
    unsafe { calls::pradulins_walk(dialect, body.as_ptr(), body.len(), at, values.as_mut_ptr()) }
}

pub(crate) fn write_rpc(records: &[u64], bytes: &[u8], flags: u32, out: &mut [u8], values: &mut Values) -> u32 {
    unsafe {
        calls::pradulins_write_rpc(
            records.as_ptr(),
            records.len(),
            bytes.as_ptr(),
            bytes.len(),
            flags,
            out.as_mut_ptr(),
            out.len(),
            values.as_mut_ptr(),
        )
    }
}

pub(crate) fn sign_fields(records: &[u64], bytes: &[u8], index: usize, out: &mut [u8], values: &mut Values) -> u32 {
    unsafe {
        calls::pradulins_sign_fields(
            records.as_ptr(),
            records.len(),
            bytes.as_ptr(),
            bytes.len(),
            index,
            out.as_mut_ptr(),
            out.len(),
            values.as_mut_ptr(),
        )
    }
}

pub(crate) fn version() -> u32 {
    unsafe { calls::pradulins_version() }
}

pub(crate) fn format() -> u32 {
    unsafe { calls::pradulins_format() }
}
