//! The node with its two stores.

use crate::{
    answered, fits, flags, made, sys, Dialect, Edition, Refusal, ALLOW_UNSIGNED, CACHE_PLACE, GROUPS, MAX_BODY, NODE_SIZE, SEEN_ROW, VALUES,
};

/// What a gateway keeps, and how long.
#[derive(Clone, Copy, Debug, PartialEq, Eq, Hash)]
pub struct Settings {
    /// How long an id counts as seen, in units of the host's clock; with [`Clock`](crate::Clock), in milliseconds.
    pub ttl: u64,
    /// The most ids that are kept as seen: 0 to 256.
    pub max_seen: usize,
    /// For how many windows a message is kept: 1 to 16.
    pub history_len: usize,
    /// The most messages that are kept: 0 to 64.
    pub max_messages: usize,
    /// Whether messages that nobody signed, with neither signature nor key, are taken: `false` but in a training mesh ([Unsigned
    /// messages](crate#unsigned-messages)).
    pub allow_unsigned: bool,
    /// Whether groups, the wire types 3 and 4, are skipped in all bodies that it reads; `false` refuses them, as the Rust does. All gateways of a mesh are to
    /// be set alike ([Groups](crate#groups)).
    pub skip_groups: bool,
}

/// What an admitted message is.
#[derive(Clone, Copy, Debug, PartialEq, Eq, Hash)]
pub enum Admitted {
    /// Its id was not seen before, or its time was over. It is kept, to be offered and served.
    New,
    /// Its id was seen. Nothing is kept of it.
    Duplicate,
}

/// Whether a notice is offered, and why it is not: what [`Gateway::explain`] answers.
#[derive(Clone, Copy, Debug, PartialEq, Eq, Hash)]
pub enum Offer {
    /// Its id is in the advertisement.
    Listed,
    /// No message with that id is in the cache: it never came, or it left by its age or by [`Settings::max_messages`].
    NotCached,
    /// Its message is in the cache, without that topic.
    WithoutTopic,
    /// Its message is in the cache with that topic, in a window that the newest windows asked for do not reach.
    OlderWindow {
        /// How many heartbeats ago the window was the newest: 0 is the newest itself. More windows than this would list it.
        age: usize,
    },
}

/// What a gateway serves.
#[derive(Clone, Debug, PartialEq, Eq, Hash)]
pub struct Reply {
    /// A body with the messages that were asked for; empty where none is kept.
    pub body: Vec<u8>,
    /// How many messages it holds, at the indexes from 0 on.
    pub messages: usize,
    /// How many more are kept and did not fit, to be asked for again.
    pub left: usize,
}

/// What was written to a lent buffer by [`Gateway::serve_into`] or [`Gateway::serve_without_into`].
#[derive(Clone, Copy, Debug, PartialEq, Eq, Hash)]
pub struct Served {
    /// How many bytes were written.
    pub bytes: usize,
    /// How many messages these are, at the indexes from 0 on.
    pub messages: usize,
    /// How many more are kept and did not fit, to be asked for again.
    pub left: usize,
}

/// A gateway's state: ids that were seen, recent messages, and the clock.
///
/// Every reading of the clock that is passed to it must be at least the last one; an earlier one is refused and changes nothing.
/// [`Clock`](crate::Clock) gives readings that never fall.
///
/// Each call tests the state. One of a gateway that was started here, or saved by such a one, is always well formed. A gateway that was loaded from
/// damaged bytes (which still passed the tests of loading) may meet [`Refusal::Malformed`] (42) at any call, before all that is said there.
#[derive(Clone, PartialEq, Eq)]
pub struct Gateway {
    node: Box<sys::Node>,
    seen: Vec<u8>,
    cache: Vec<u8>,
}

// Where the numbers of a node stand in its bytes, each in 8, the lowest first.
const TTL: usize = 0;
const MAX_SEEN: usize = 8;
const CLOCK: usize = 16;
const SEEN_COUNT: usize = 32;
const HISTORY_LEN: usize = 40;
const MAX_MESSAGES: usize = 48;
const MESSAGE_COUNT: usize = 72;
const FLAGS: usize = 12432;

/// The number in 8 bytes of a node.
fn number_at(node: &[u8], at: usize) -> u64 {
    let mut bytes = [0; 8];
    bytes.copy_from_slice(&node[at..at + 8]);
    u64::from_le_bytes(bytes)
}

impl Gateway {
    /// A gateway that holds nothing, with its clock at 0.
    ///
    /// Refused: [`Refusal::BadSetting`].
    ///
    /// # Panics
    ///
    /// If the program is linked with an archive of another [`FORMAT`](crate::FORMAT). So do the calls that load a gateway.
    pub fn start(settings: Settings) -> Result<Gateway, Refusal> {
        fits(sys::format(), sys::version());
        let mut node = Box::new([0; NODE_SIZE]);
        let Settings { ttl, max_seen, history_len, max_messages, allow_unsigned, skip_groups } = settings;
        answered(sys::start(&mut node, ttl, max_seen, history_len, max_messages, flags(allow_unsigned, skip_groups)), &[0; VALUES])?;
        Ok(Gateway { node, seen: vec![0; max_seen * SEEN_ROW], cache: vec![0; max_messages * CACHE_PLACE] })
    }

    /// Admits the message at `index` of `body` (from 0), which came by a stream of this edition. `verified` is the host's word that its signature was verified, and of a sender that is a SHA-256,
    /// that the message's key maps to it ([Senders](crate#senders)); `now` is the host's clock ([`Clock::now`](crate::Clock::now)).
    ///
    /// From its start on a gateway calls no id new twice (a signed message's and an unsigned one's are two), unless `now` is `ttl` or more above that of the first time, or `max_seen` or more other ids
    /// were new between; readings that step back are refused and change nothing of this. So choose a [`ttl`](Settings::ttl) above the time in which a message can still come in again, and then a
    /// [`max_seen`](Settings::max_seen) so large that at most `max_seen` + 1 messages are new within any stretch of `ttl`. This is of readings below [`u64::MAX`].
    ///
    /// Refused: what is wrong with the body (10, 1 to 7 and 14 to 16, 11), the index (20) or the message (21, 22, 34, 23 to 26, 35, 36, 27 to 30), in this order, and then
    /// [`Refusal::ClockBack`]. With [`Settings::allow_unsigned`] a message with neither signature nor key meets none of 25, 26, 35, 36 and 27, whatever `verified` is.
    pub fn admit(&mut self, edition: Edition, body: &[u8], index: usize, verified: bool, now: u64) -> Result<Admitted, Refusal> {
        let mut values = [0; VALUES];
        let edition = edition.number();
        answered(sys::admit(&mut self.node, &mut self.seen, &mut self.cache, edition, body, index, verified, now, &mut values), &values)?;
        Ok(if values[0] == 1 { Admitted::New } else { Admitted::Duplicate })
    }

    /// Opens a window: ids whose time is over and messages that are too old leave.
    ///
    /// Refused: [`Refusal::ClockBack`].
    pub fn heartbeat(&mut self, now: u64) -> Result<(), Refusal> {
        let mut values = [0; VALUES];
        answered(sys::heartbeat(&mut self.node, &self.seen, &self.cache, now, &mut values), &values)
    }

    /// A body that offers the messages of a topic in the newest `windows` windows; empty where there is none.
    ///
    /// Refused: [`Refusal::TopicTooLong`].
    pub fn advertise(&self, topic: &[u8], windows: usize) -> Result<Vec<u8>, Refusal> {
        made(MAX_BODY, |out, values| sys::advertise(&self.node, &self.seen, &self.cache, topic, windows, out, values))
    }

    /// The same into a lent buffer; how many bytes were written.
    ///
    /// Refused also: [`Refusal::Room`].
    pub fn advertise_into(&self, topic: &[u8], windows: usize, out: &mut [u8]) -> Result<usize, Refusal> {
        let mut values = [0; VALUES];
        answered(sys::advertise(&self.node, &self.seen, &self.cache, topic, windows, out, &mut values), &values)?;
        Ok(values[0] as usize)
    }

    /// Whether an id is in the advertisement of a topic ([`Gateway::advertise`] with the same `windows`), and why it is not. Where both the topic and the
    /// window rule it out, the topic is told.
    ///
    /// The id is that of [`message_id`](crate::message_id), and may have any length. What was seen says nothing here: only messages in the cache are offered.
    ///
    /// Refused: [`Refusal::TopicTooLong`].
    pub fn explain(&self, id: &[u8], topic: &[u8], windows: usize) -> Result<Offer, Refusal> {
        let mut values = [0; VALUES];
        answered(sys::explain(&self.node, &self.seen, &self.cache, id, topic, windows, &mut values), &values)?;
        Ok(match values[0] {
            0 => Offer::Listed,
            1 => Offer::NotCached,
            2 => Offer::WithoutTopic,
            _ => Offer::OlderWindow { age: values[1] as usize },
        })
    }

    /// A body that asks for what `body`, which came by a stream of this edition, offers and was not seen; empty where that is nothing.
    ///
    /// Refused: what is wrong with the body (10, 1 to 7 and 14 to 16, 11).
    pub fn ask(&self, edition: Edition, body: &[u8]) -> Result<Vec<u8>, Refusal> {
        made(MAX_BODY, |out, values| sys::ask(&self.node, &self.seen, &self.cache, edition.number(), body, out, values))
    }

    /// The same into a lent buffer; how many bytes were written.
    ///
    /// Refused also: [`Refusal::Room`].
    pub fn ask_into(&self, edition: Edition, body: &[u8], out: &mut [u8]) -> Result<usize, Refusal> {
        let mut values = [0; VALUES];
        answered(sys::ask(&self.node, &self.seen, &self.cache, edition.number(), body, out, &mut values), &values)?;
        Ok(values[0] as usize)
    }

    /// The messages that `body`, which came by a stream of this edition, asks for and are kept, as many as fit a body.
    ///
    /// Refused: what is wrong with the body (10, 1 to 7 and 14 to 16, 11).
    pub fn serve(&self, edition: Edition, body: &[u8]) -> Result<Reply, Refusal> {
        self.serve_without(edition, body, &[])
    }

    /// The same into a lent buffer.
    ///
    /// Refused also: [`Refusal::Room`], where not even the first message fits.
    pub fn serve_into(&self, edition: Edition, body: &[u8], out: &mut [u8]) -> Result<Served, Refusal> {
        self.serve_without_into(edition, body, &[], out)
    }

    /// As [`Gateway::serve`], without the messages that the neighbour does not want: those whose ids are in the IDONTWANTs of `unwanted`, a body that it sent
    /// before. They count neither as written nor as left.
    ///
    /// `unwanted` is read in [`Edition::V1_2`] whatever the edition of `body`, and what else stands in it changes nothing. IDONTWANTs in `body` itself do not
    /// count. An empty `unwanted` is none.
    ///
    /// Refused: what is wrong with `body` (10, 1 to 7 and 14 to 16, 11), then the same of `unwanted`. A [`Place`](crate::Place) is one in the body that is refused; which of the
    /// two that is, [`decode`](crate::decode) tells.
    pub fn serve_without(&self, edition: Edition, body: &[u8], unwanted: &[u8]) -> Result<Reply, Refusal> {
        let (mut messages, mut left) = (0, 0);
        let body = made(MAX_BODY, |out, values| {
            let number = sys::serve(&self.node, &self.seen, &self.cache, edition.number(), body, unwanted, out, values);
            (messages, left) = (values[1] as usize, values[2] as usize);
            number
        })?;
        Ok(Reply { body, messages, left })
    }

    /// The same into a lent buffer.
    ///
    /// Refused also: [`Refusal::Room`], where not even the first message that is wanted fits.
    pub fn serve_without_into(&self, edition: Edition, body: &[u8], unwanted: &[u8], out: &mut [u8]) -> Result<Served, Refusal> {
        let mut values = [0; VALUES];
        answered(sys::serve(&self.node, &self.seen, &self.cache, edition.number(), body, unwanted, out, &mut values), &values)?;
        Ok(Served { bytes: values[0] as usize, messages: values[1] as usize, left: values[2] as usize })
    }

    /// How it reads a body that came by a stream of this edition: for the calls on a body alone, such as [`messages`](crate::messages) and
    /// [`sign_bytes`](crate::sign_bytes), before it is admitted.
    pub fn dialect(&self, edition: Edition) -> Dialect {
        Dialect { edition, skip_groups: self.settings().skip_groups }
    }

    /// The settings that it was started with.
    pub fn settings(&self) -> Settings {
        Settings {
            ttl: self.number(TTL),
            max_seen: self.number(MAX_SEEN) as usize,
            history_len: self.number(HISTORY_LEN) as usize,
            max_messages: self.number(MAX_MESSAGES) as usize,
            allow_unsigned: self.number(FLAGS) & u64::from(ALLOW_UNSIGNED) != 0,
            skip_groups: self.number(FLAGS) & u64::from(GROUPS) != 0,
        }
    }

    /// Its clock: the last reading that was taken.
    pub fn clock(&self) -> u64 {
        self.number(CLOCK)
    }

    /// How many ids are kept as seen.
    pub fn seen(&self) -> usize {
        self.number(SEEN_COUNT) as usize
    }

    /// How many messages are kept.
    pub fn messages(&self) -> usize {
        self.number(MESSAGE_COUNT) as usize
    }

    /// A node and what stands after it, as the library finds them: its settings (42), the lengths of the stores (41), and whether all is well formed
    /// (42).
    pub(crate) fn tested(node: &[u8], stores: &[u8]) -> Result<Gateway, Refusal> {
        fits(sys::format(), sys::version());
        let mut own = Box::new([0; NODE_SIZE]);
        own.copy_from_slice(node);
        let mut values = [0; VALUES];
        answered(sys::settings(&own, &mut values), &values)?;
        let (seen, cache) = (values[1] as usize * SEEN_ROW, values[3] as usize * CACHE_PLACE);
        if stores.len() != seen + cache {
            return Err(Refusal::BadStore);
        }
        let (seen, cache) = stores.split_at(seen);
        let gateway = Gateway::from_parts(own, seen.to_vec(), cache.to_vec());
        answered(sys::state(&gateway.node, &gateway.seen, &gateway.cache, &mut values), &values)?;
        Ok(gateway)
    }

    /// A gateway of bytes that nothing has tested, for the tests of the boundary: each call on it tests them.
    #[doc(hidden)]
    pub fn from_parts(node: Box<[u8; NODE_SIZE]>, seen: Vec<u8>, cache: Vec<u8>) -> Gateway {
        Gateway { node, seen, cache }
    }

    /// The bytes of the node and of its two stores.
    #[doc(hidden)]
    pub fn parts(&self) -> (&[u8; NODE_SIZE], &[u8], &[u8]) {
        (&self.node, &self.seen, &self.cache)
    }

    fn number(&self, at: usize) -> u64 {
        number_at(&self.node[..], at)
    }
}

impl std::fmt::Debug for Gateway {
    fn fmt(&self, f: &mut std::fmt::Formatter<'_>) -> std::fmt::Result {
        f.debug_struct("Gateway")
            .field("settings", &self.settings())
            .field("clock", &self.clock())
            .field("seen", &self.seen())
            .field("messages", &self.messages())
            .finish()
    }
}

#[cfg(all(test, not(no_archive)))]
mod tests {
    use super::*;
    use crate::body_of;

    /// What the library says of a gateway, beside what is read in its bytes.
    fn agree(gateway: &Gateway) {
        let mut values = [u64::MAX; VALUES];
        assert_eq!(sys::settings(&gateway.node, &mut values), 0);
        let Settings { ttl, max_seen, history_len, max_messages, allow_unsigned, skip_groups } = gateway.settings();
        let flags = allow_unsigned as u64 + 2 * skip_groups as u64;
        assert_eq!(values[..5], [ttl, max_seen as u64, history_len as u64, max_messages as u64, flags]);
        assert_eq!(values[5..], [u64::MAX; VALUES - 5]);
        values = [u64::MAX; VALUES];
        assert_eq!(sys::state(&gateway.node, &gateway.seen, &gateway.cache, &mut values), 0);
        assert_eq!(values[..3], [gateway.clock(), gateway.seen() as u64, gateway.messages() as u64]);
        assert_eq!(values[3..], [u64::MAX; VALUES - 3]);
    }

    #[test]
    fn what_a_gateway_says_of_itself() {
        for (ttl, max_seen, history_len, max_messages, allow_unsigned, skip_groups) in
            [(0, 0, 1, 0, true, false), (1000, 4, 2, 3, false, true), (u64::MAX, 256, 16, 64, true, true), (3_600_000, 1, 16, 64, false, false)]
        {
            let settings = Settings { ttl, max_seen, history_len, max_messages, allow_unsigned, skip_groups };
            let mut gateway = Gateway::start(settings).unwrap();
            agree(&gateway);
            for edition in [Edition::V1_1, Edition::V1_2] {
                assert_eq!(gateway.dialect(edition), Dialect { edition, skip_groups });
            }
            assert_eq!((gateway.settings(), gateway.clock(), gateway.seen(), gateway.messages()), (settings, 0, 0, 0));
            for from in 1..=7 {
                let now = 1 << (9 * u64::from(from) - 1);
                gateway.admit(Edition::V1_1, &body_of(from, &[0x1a, 1, 1, 0x22, 1, b't']), 0, true, now).unwrap();
                agree(&gateway);
                assert_eq!((gateway.clock(), gateway.messages()), (now, usize::from(from).min(max_messages)));
            }
            gateway.heartbeat(u64::MAX).unwrap();
            agree(&gateway);
            assert_eq!((gateway.clock(), gateway.seen()), (u64::MAX, 0));
        }
    }

    #[test]
    fn bytes_that_nothing_tested() {
        let mut gateway =
            Gateway::start(Settings { ttl: 1, max_seen: 1, history_len: 1, max_messages: 1, allow_unsigned: false, skip_groups: false }).unwrap();
        let (node, seen, cache) = gateway.parts();
        assert!(Gateway::from_parts(Box::new(*node), seen.to_vec(), cache.to_vec()) == gateway);
        let told = |gateway: &Gateway| (gateway.settings().allow_unsigned, gateway.settings().skip_groups);
        for (flags, known) in [(1, (true, false)), (2, (false, true)), (3, (true, true))] {
            gateway.node[FLAGS] = flags;
            assert_eq!((told(&gateway), gateway.heartbeat(1)), (known, Ok(())));
        }
        for (flags, known) in [(4, (false, false)), (7, (true, true)), (0x82, (false, true))] {
            gateway.node[FLAGS] = flags;
            assert_eq!((told(&gateway), gateway.heartbeat(1)), (known, Err(Refusal::Malformed)));
        }
        (gateway.node[FLAGS], gateway.node[NODE_SIZE - 1]) = (0, 1);
        assert_eq!(gateway.heartbeat(1), Err(Refusal::Malformed));
        gateway.node[NODE_SIZE - 1] = 0;
        gateway.node[HISTORY_LEN] = 0;
        assert_eq!(gateway.heartbeat(1), Err(Refusal::Malformed));
        gateway.node.fill(0xff);
        assert_eq!(gateway.heartbeat(1).unwrap_err().number(), 40);
        assert_eq!((gateway.clock(), gateway.seen()), (u64::MAX, usize::MAX));
    }
}
