//! The Rust, behind C functions that each run a whole loop. `message.rs`, `seen.rs` and `gossipsub/mcache.rs` beside it are its files,
//! put there by `bench`. What a loop answers depends on every call.
#![allow(dead_code)]

extern crate alloc;

mod gossipsub;
mod message;
mod seen;

use message::{RawMessage, Rpc};
use seen::SeenCache;
use std::hint::black_box;
use std::slice::from_raw_parts;

/// # Safety
/// `at` is a pointer to `len` bytes.
unsafe fn slice<'a>(at: *const u8, len: usize) -> &'a [u8] {
    unsafe { from_raw_parts(at, len) }
}

#[unsafe(no_mangle)]
pub unsafe extern "C" fn theirs_decode(body: *const u8, len: usize, times: u64) -> u64 {
    let body = unsafe { slice(body, len) };
    (0..times).map(|_| Rpc::decode(black_box(body)).map_or(0, |rpc| black_box(&rpc).publish.len() as u64 + 1)).sum()
}

#[unsafe(no_mangle)]
pub unsafe extern "C" fn theirs_encode(body: *const u8, len: usize, times: u64) -> u64 {
    let body = unsafe { slice(body, len) };
    (0..times).map(|_| Rpc::decode(black_box(body)).map_or(0, |rpc| black_box(rpc.encode()).len() as u64)).sum()
}

fn signed(body: &[u8], index: usize) -> Vec<u8> {
    let rpc = Rpc::decode(black_box(body));
    rpc.ok().and_then(|rpc| rpc.publish.get(index).map(RawMessage::sign_bytes)).unwrap_or_default()
}

#[unsafe(no_mangle)]
pub unsafe extern "C" fn theirs_sign(body: *const u8, len: usize, index: usize, times: u64) -> u64 {
    let body = unsafe { slice(body, len) };
    (0..times).map(|_| black_box(signed(body, index)).len() as u64).sum()
}

/// What the Rust makes of a body, to compare: its encoding, or the bytes to sign of a message.
#[unsafe(no_mangle)]
pub unsafe extern "C" fn theirs_made(body: *const u8, len: usize, index: usize, sign: bool, out: *mut u8, room: usize) -> u64 {
    let body = unsafe { slice(body, len) };
    let made = if sign { signed(body, index) } else { Rpc::decode(body).map(|rpc| rpc.encode()).unwrap_or_default() };
    let out = unsafe { std::slice::from_raw_parts_mut(out, room) };
    out[..made.len()].copy_from_slice(&made);
    made.len() as u64
}

/// The RPC of a body, whose messages are to be made anew from their fields.
fn anew(body: &[u8]) -> Rpc {
    let mut rpc = Rpc::decode(body).unwrap_or_default();
    for message in &mut rpc.publish {
        message.raw.clear();
    }
    rpc
}

#[unsafe(no_mangle)]
pub unsafe extern "C" fn theirs_write(body: *const u8, len: usize, times: u64) -> u64 {
    let rpc = anew(unsafe { slice(body, len) });
    (0..times).map(|_| black_box(black_box(&rpc).encode()).len() as u64).sum()
}

#[unsafe(no_mangle)]
pub unsafe extern "C" fn theirs_sign_fields(body: *const u8, len: usize, index: usize, times: u64) -> u64 {
    let rpc = anew(unsafe { slice(body, len) });
    (0..times).map(|_| black_box(black_box(&rpc).publish[index].sign_bytes()).len() as u64).sum()
}

/// What the Rust makes of the fields of a body, to compare: an encoding, or the bytes to sign of a message.
#[unsafe(no_mangle)]
pub unsafe extern "C" fn theirs_written(body: *const u8, len: usize, index: usize, sign: bool, out: *mut u8, room: usize) -> u64 {
    let rpc = anew(unsafe { slice(body, len) });
    let made = if sign { rpc.publish[index].sign_bytes() } else { rpc.encode() };
    let out = unsafe { std::slice::from_raw_parts_mut(out, room) };
    out[..made.len()].copy_from_slice(&made);
    made.len() as u64
}

fn parts(bytes: &[u8], size: usize) -> Vec<Vec<u8>> {
    bytes.chunks_exact(size).map(<[u8]>::to_vec).collect()
}

/// The cache after so many inserts of the ids in turn.
fn inserts(ids: &[Vec<u8>], max: usize, times: u64) -> SeenCache {
    let mut cache = SeenCache::default();
    for id in ids.iter().cycle().take(times as usize) {
        black_box(cache.insert(id.clone(), 0, 1000, max));
    }
    cache
}

#[unsafe(no_mangle)]
pub unsafe extern "C" fn theirs_seen_insert(ids: *const u8, len: usize, size: usize, max: usize, times: u64) -> u64 {
    let ids = parts(unsafe { slice(ids, len) }, size);
    inserts(&ids, max, times).next_expiry().unwrap_or(0)
}

#[unsafe(no_mangle)]
pub unsafe extern "C" fn theirs_seen_contains(ids: *const u8, len: usize, asked: *const u8, asked_len: usize, size: usize, max: usize, times: u64) -> u64 {
    let cache = inserts(&parts(unsafe { slice(ids, len) }, size), max, max as u64);
    let asked = parts(unsafe { slice(asked, asked_len) }, size);
    asked.iter().cycle().take(times as usize).map(|id| u64::from(black_box(&cache).contains(black_box(id)))).sum()
}
