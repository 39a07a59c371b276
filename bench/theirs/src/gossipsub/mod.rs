//! The module that holds the Rust's file `mcache.rs`, and the loops over its cache. A put begins with a body, as ours does: it is decoded, and the
//! id is formed.

mod mcache;

use crate::message::Rpc;
use crate::seen::message_id;
use crate::slice;
use mcache::MessageCache;
use std::hint::black_box;

fn put(cache: &mut MessageCache, body: &[u8]) {
    if let Ok(mut rpc) = Rpc::decode(black_box(body)) {
        if !rpc.publish.is_empty() {
            let message = rpc.publish.swap_remove(0);
            if let (Some(from), Some(seqno)) = (&message.from, &message.seqno) {
                let id = message_id(from, seqno);
                let topics = message.topic_ids.clone();
                cache.put(id, message, topics);
            }
        }
    }
}

fn filled(bodies: &[u8], size: usize, max: usize, times: u64) -> MessageCache {
    let mut cache = MessageCache::new(4, max);
    let count = bodies.len() / size;
    for i in 0..times as usize {
        let at = i % count * size;
        put(&mut cache, &bodies[at..at + size]);
    }
    cache
}

#[unsafe(no_mangle)]
pub unsafe extern "C" fn theirs_cache_put(bodies: *const u8, len: usize, size: usize, max: usize, times: u64) -> u64 {
    let cache = filled(unsafe { slice(bodies, len) }, size, max, times);
    black_box(&cache).gossip_ids("t", 4).len() as u64
}

#[unsafe(no_mangle)]
pub unsafe extern "C" fn theirs_cache_gossip(bodies: *const u8, len: usize, size: usize, max: usize, times: u64) -> u64 {
    let cache = filled(unsafe { slice(bodies, len) }, size, max, max as u64);
    (0..times).map(|_| black_box(black_box(&cache).gossip_ids(black_box("t"), 4)).len() as u64).sum()
}

#[unsafe(no_mangle)]
pub unsafe extern "C" fn theirs_cache_get(
    bodies: *const u8,
    len: usize,
    size: usize,
    max: usize,
    ids: *const u8,
    ids_len: usize,
    id_size: usize,
    times: u64,
) -> u64 {
    let cache = filled(unsafe { slice(bodies, len) }, size, max, max as u64);
    let ids: Vec<Vec<u8>> = unsafe { slice(ids, ids_len) }.chunks_exact(id_size).map(<[u8]>::to_vec).collect();
    let found = |id| black_box(&cache).get(black_box(id)).map_or(0, |message| message.raw.len() as u64);
    ids.iter().cycle().take(times as usize).map(found).sum()
}
