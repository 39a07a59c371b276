//! Harness: the module that holds the original file `mcache.rs`. `MessageCache`
//! is `pub(super)`, so its session is kept here.
//!
//! `mcache_open.rs` is made by build.sh: the bytes of `mcache.rs` followed by
//! `mcache_open_tail.rs`, which sets the arrival number. It is used only for
//! `mc_new` with a third number; without one the unchanged file answers.

mod mcache;
mod mcache_open;

use crate::dump::{Res, hex};
use crate::message::RawMessage;
use crate::seen::MessageId;
use crate::value::Value;

#[allow(private_interfaces)]
pub(crate) enum Cache {
    Plain(mcache::MessageCache),
    Open(mcache_open::MessageCache),
}

macro_rules! each {
    ($self:expr, $cache:ident => $body:expr) => {
        match $self {
            Cache::Plain($cache) => $body,
            Cache::Open($cache) => $body,
        }
    };
}

impl Cache {
    pub(crate) fn new(history_len: usize, max_messages: usize, arrival: Option<u64>) -> Self {
        match arrival {
            None => Self::Plain(mcache::MessageCache::new(history_len, max_messages)),
            Some(n) => {
                let mut cache = mcache_open::MessageCache::new(history_len, max_messages);
                cache.oracle_set_next_generation(n);
                Self::Open(cache)
            }
        }
    }

    pub(crate) fn put(&mut self, id: MessageId, message: RawMessage, topics: Vec<String>) {
        each!(self, c => c.put(id, message, topics))
    }

    pub(crate) fn get(&self, id: &MessageId) -> Option<&RawMessage> {
        each!(self, c => c.get(id))
    }

    pub(crate) fn gossip_ids(&self, topic: &str, windows: usize) -> Vec<MessageId> {
        each!(self, c => c.gossip_ids(topic, windows))
    }

    pub(crate) fn shift(&mut self) {
        each!(self, c => c.shift())
    }

    /// `next=N windows=K held=ID:GEN,.. order=ID:GEN,.. history=ID:GEN,..|..`
    /// with the windows newest first, and `-` for an empty list.
    pub(crate) fn dump(&self) -> Res<String> {
        let v = each!(self, c => Value::of(c));
        let joined = |list: Vec<String>| match list.is_empty() {
            true => String::from("-"),
            false => list.join(","),
        };
        let pair = |id: &Value, n: &Value| format!("{}:{}", hex(&id.bytes()), n.number());
        let held = v
            .field("messages")
            .map()
            .iter()
            .map(|(id, e)| pair(id, e.field("generation")))
            .collect();
        let order = v
            .field("insertion_order")
            .list()
            .iter()
            .map(|t| pair(&t.list()[0], &t.list()[1]))
            .collect();
        let windows: Vec<String> = v
            .field("history")
            .list()
            .iter()
            .map(|w| joined(w.map().iter().map(|(id, n)| pair(id, n)).collect()))
            .collect();
        Ok(format!(
            "ok next={} windows={} held={} order={} history={}",
            v.field("next_generation").number(),
            windows.len(),
            joined(held),
            joined(order),
            windows.join("|")
        ))
    }
}
