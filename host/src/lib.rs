//! A gossip node for gateways: it calls each notice new exactly once, and catches up with other gateways. Every call is a call of a library in which
//! each function is proved to meet its contract; this crate owns the memory that the library is lent, and gives refusals a type. It depends on
//! nothing, and its users write no `unsafe`.
//!
//! A host admits each message of a body that came in. Here `verify` and `file` are its own: the check of a signature, and what it does with a notice
//! that is new. The [`Edition`] is that of the stream by which the body came; see "Editions". Calls on a body alone take a [`Dialect`], which is an edition and
//! whether groups are skipped; see "Groups".
//!
#![cfg_attr(not(no_archive), doc = "```")]
#![cfg_attr(no_archive, doc = "```no_run")]
//! use pradulins::{messages, sign_bytes, Admitted, Clock, Edition, Gateway, LoadError, Message, Settings};
//! use std::io::ErrorKind;
//! # fn verify(_message: &Message, _signed: &[u8]) -> bool { true }
//! # fn file(_message: &Message) {}
//! # let sender = [&[0, 0x24, 8, 1, 0x12, 0x20][..], &[b'A'; 32]].concat();
//! # let body = [&[0x12, 0x70, 0x0a, 0x26][..], &sender, &[0x1a, 1, 1, 0x22, 1, b't', 0x2a, 0x40], &[0; 64]].concat();
//! # let path = std::env::temp_dir().join(format!("pradulins-page-{}", std::process::id()));
//!
//! let settings = Settings { ttl: 3_600_000, max_seen: 256, history_len: 4, max_messages: 64, allow_unsigned: false, skip_groups: false };
//! let mut gateway = match Gateway::load_from(&path) {
//!     Err(LoadError::Read(why)) if why.kind() == ErrorKind::NotFound => Gateway::start(settings)?, // the first start of all
//!     loaded => loaded?,
//! };
//! let clock = Clock::after(&gateway);
//! let edition = Edition::V1_1;
//! let dialect = gateway.dialect(edition);
//! for message in messages(dialect, &body)? {
//!     let verified = verify(&message, &sign_bytes(dialect, &body, message.index)?);
//!     match gateway.admit(edition, &body, message.index, verified, clock.now()) {
//!         Ok(Admitted::New) => file(&message),
//!         Ok(Admitted::Duplicate) => {}
//!         Err(refusal) => eprintln!("message {}: {refusal}", message.index),
//!     }
//! }
//! gateway.heartbeat(clock.now())?;
//! gateway.save_to(&path)?;
//! # assert_eq!((gateway.seen(), gateway.messages(), Gateway::load_from(&path)? == gateway), (1, 1, true));
//! # std::fs::remove_file(&path)?;
//! # Ok::<(), Box<dyn std::error::Error>>(())
//! ```
//!
//! Another gateway catches up: it is told what there is, asks for what it lacks, and admits the reply. If it lacks n messages of the topic, n/15 such
//! rounds, rounded up, are enough, under the premises that docs/PROMISES.md of the repository names.
//!
#![cfg_attr(not(no_archive), doc = "```")]
#![cfg_attr(no_archive, doc = "```no_run")]
//! # use pradulins::{Admitted, Edition, Gateway, Settings};
//! # let settings = Settings { ttl: 3_600_000, max_seen: 256, history_len: 4, max_messages: 64, allow_unsigned: false, skip_groups: false };
//! # let edition = Edition::V1_2;
//! # let (mut first, mut second) = (Gateway::start(settings)?, Gateway::start(settings)?);
//! # let sender = [&[0, 0x24, 8, 1, 0x12, 0x20][..], &[b'A'; 32]].concat();
//! # let body = [&[0x12, 0x70, 0x0a, 0x26][..], &sender, &[0x1a, 1, 1, 0x22, 1, b't', 0x2a, 0x40], &[0; 64]].concat();
//! # first.admit(edition, &body, 0, true, 100)?;
//! let offer = first.advertise(b"t", 4)?;
//! let request = second.ask(edition, &offer)?;
//! let reply = first.serve(edition, &request)?;
//! assert_eq!((reply.messages, reply.left), (1, 0));
//! assert_eq!(second.admit(edition, &reply.body, 0, true, 7)?, Admitted::New);
//! assert_eq!(first.advertise(b"t", 4)?, second.advertise(b"t", 4)?);
//! # Ok::<(), pradulins::Refusal>(())
//! ```
//!
//! A host speaks first, too: it joins a topic, leaves it, publishes. [`Rpc`] is what it says, and [`Draft`] a message that it signs before it is said; `sign` is
//! the host's own. What is written is what a neighbour reads, and a message that was written is admitted there, if its signature verifies.
//!
#![cfg_attr(not(no_archive), doc = "```")]
#![cfg_attr(no_archive, doc = "```no_run")]
//! use pradulins::{Draft, Rpc};
//! # use pradulins::{Admitted, Edition, Gateway, Settings};
//! # fn sign(_bytes: &[u8]) -> [u8; 64] { [0; 64] }
//! # let sender = [&[0, 0x24, 8, 1, 0x12, 0x20][..], &[b'A'; 32]].concat();
//! # let mut neighbour = Gateway::start(Settings { ttl: 3_600_000, max_seen: 256, history_len: 4, max_messages: 64, allow_unsigned: false, skip_groups: false })?;
//!
//! let draft = Draft { from: &sender, seqno: &17u64.to_be_bytes(), data: Some(b"study 17"), topics: &["ct"], key: None };
//! let signature = sign(&draft.sign_fields()?);
//! let body = Rpc::new().subscribe("ct").graft("ct").publish(&draft, &signature).write()?;
//! # assert_eq!(neighbour.admit(Edition::V1_1, &body, 0, true, 1)?, Admitted::New);
//! # Ok::<(), pradulins::Refusal>(())
//! ```
//!
//! [`write_rpc`] and [`sign_fields`] do the same on [`Record`]s, as [`decode`] gives them.
//!
//! Where somebody asks why a notice is not offered, [`Gateway::explain`] says it by the notice's id: that it is not in the cache, that it is there without
//! the topic, or how old its window is ([`Offer`]). What a gateway that was saved would say, `tools/why` of the repository tells.
//!
//! # Editions
//!
//! A stream speaks one [`Edition`] of gossipsub, 1.1 or 1.2: the one that both sides agreed on when it was opened. Each call that reads a body is told it. In 1.2 a
//! neighbour says which messages it has already, by IDONTWANTs ([`Record::IDontWant`]). Keep the body in which it said so, and lend it beside the neighbour's next
//! request: [`Gateway::serve_without`] leaves these messages out.
//!
#![cfg_attr(not(no_archive), doc = "```")]
#![cfg_attr(no_archive, doc = "```no_run")]
//! # use pradulins::{message_id, Edition, Gateway, Settings};
//! # let mut gateway = Gateway::start(Settings { ttl: 3_600_000, max_seen: 256, history_len: 4, max_messages: 64, allow_unsigned: false, skip_groups: false })?;
//! # let sender = [&[0, 0x24, 8, 1, 0x12, 0x20][..], &[b'A'; 32]].concat();
//! # let body = [&[0x12, 0x70, 0x0a, 0x26][..], &sender, &[0x1a, 1, 1, 0x22, 1, b't', 0x2a, 0x40], &[0; 64]].concat();
//! # gateway.admit(Edition::V1_2, &body, 0, true, 100)?;
//! # let id = message_id(Edition::V1_2, &body, 0)?;
//! # let request = [&[0x1a, 0x2b, 0x12, 0x29, 0x0a, 0x27], &id[..]].concat();
//! # let unwanted = [&[0x1a, 0x2b, 0x2a, 0x29, 0x0a, 0x27], &id[..]].concat();
//! # assert_eq!(gateway.serve(Edition::V1_2, &request)?.messages, 1);
//! let reply = gateway.serve_without(Edition::V1_2, &request, &unwanted)?;
//! # assert_eq!((reply.body.len(), reply.messages, reply.left), (0, 0, 0));
//! # Ok::<(), pradulins::Refusal>(())
//! ```
//!
//! # Groups
//!
//! A group is an old form of a field in Protocol Buffers: a start tag (wire type 3), fields, and an end tag (wire type 4) of the same number. The Rust that was ported
//! refuses both types ([`Refusal::WireType`]), and so does this library in its first mode. For neighbours whose software sends groups as fields that nobody knows there
//! is a second one, in which groups are skipped, up to 32 deep: [`Settings::skip_groups`] of a gateway, fixed at start, and `skip_groups` of a [`Dialect`] for calls on a body alone.
//! [`Gateway::dialect`] is the dialect of a gateway. New in that mode are [`Refusal::EndGroup`], [`Refusal::GroupDepth`] and [`Refusal::GroupOpen`].
//!
#![cfg_attr(not(no_archive), doc = "```")]
#![cfg_attr(no_archive, doc = "```no_run")]
//! # use pradulins::{reencode, sign_bytes, Dialect, Edition, Refusal};
//! let skipping = Dialect { edition: Edition::V1_1, skip_groups: true };
//! // A group with the number 1, in it a field of its own; behind it an empty control.
//! let body = [0x0b, 0x10, 0x96, 1, 0x0c, 0x1a, 0];
//! assert_eq!(reencode(Edition::V1_1, &body).unwrap_err().number(), 5);
//! assert_eq!(reencode(skipping, &body)?, [0x1a, 0]);
//! // A message keeps its bytes; what is signed has no groups.
//! let body = [0x12, 8, 0x0a, 1, 0x42, 0x0b, 0x0a, 1, 0x41, 0x0c];
//! assert_eq!(reencode(skipping, &body)?, body);
//! assert_eq!(sign_bytes(skipping, &body, 0)?, b"libp2p-pubsub:\x0a\x01\x42");
//! # Ok::<(), Refusal>(())
//! ```
//!
//! What the first mode accepts the second accepts, and it means the same. But a gateway in the second mode passes messages on that neighbours in the first mode refuse:
//! with one such message in it they refuse a whole reply. All gateways of a mesh are to be set alike.
//!
//! # What the host does
//!
//! - Framing: how bodies are parted on the wire. The example in host/examples/catch_up has one way.
//! - Which [`Edition`] a stream speaks.
//! - The making of signatures: over [`Draft::sign_fields`], before a message is published.
//! - The check of signatures: over [`sign_bytes`] of a message, with its key or that of its sender. What came of it is passed to [`Gateway::admit`],
//!   which takes it at its word; see "Senders".
//! - Readings of a clock, by [`Clock`], which does not step when the wall clock does.
//! - A heartbeat at regular times ([`Gateway::heartbeat`]), and saving ([`Gateway::save_to`]).
//!
//! # Senders
//!
//! `from` of a message is a libp2p peer id, and any other is refused ([`Refusal::NotPeerId`]). It holds a key of at most 42 bytes (`00`, the key's length, the
//! key), or it is the SHA-256 of a key (`12 20` and 32 bytes). The peer id of an Ed25519 key has 38 bytes:
//!
//! ```
//! fn peer_id(key: [u8; 32]) -> [u8; 38] {
//!     let mut id = [0; 38];
//!     id[..6].copy_from_slice(&[0x00, 0x24, 0x08, 0x01, 0x12, 0x20]);
//!     id[6..].copy_from_slice(&key);
//!     id
//! }
//! # assert_eq!(peer_id([7; 32])[4..8], [0x12, 0x20, 7, 7]);
//! ```
//!
//! The bytes from the third on are the key as libp2p writes it: its type (RSA 0, Ed25519 1, Secp256k1 2, ECDSA 3), the length of its data, its data. A message
//! need not have a key of its own then; one that it has must decode ([`Refusal::InvalidKey`]) and be that of its sender ([`Refusal::KeyPeerIdMismatch`]). Where
//! the sender is a SHA-256, the message must have a key, and `verified` says two things: that the signature verifies under this key, and that the key's SHA-256
//! is the sender. The library does no cryptography: it takes the host's word for both.
//!
//! # Unsigned messages
//!
//! In a training mesh, whose gateways have no keys, messages may be without signature and key. [`Settings::allow_unsigned`] lets a gateway take them, and
//! [`Rpc::allow_unsigned`] lets them be written. Everybody can make such a message, under any sender, so it is never to be set in production. All gateways of a mesh
//! are to be set alike: one without it asks for what others offer, refuses what is unsigned ([`Refusal::MissingSignature`]), and asks again.
//!
//! Signed and unsigned messages are seen apart, and only among the ones or the others is a message new exactly once: a signed and an unsigned message with one
//! id are both new. The cache keeps the one that came first. A flood of unsigned messages drives ids of signed ones out of the list of seen ids, as other messages
//! do past `max_seen`.
//!
#![cfg_attr(not(no_archive), doc = "```")]
#![cfg_attr(no_archive, doc = "```no_run")]
//! # use pradulins::{Admitted, Draft, Edition, Gateway, Rpc, Settings};
//! # let sender = [&[0, 0x24, 8, 1, 0x12, 0x20][..], &[b'A'; 32]].concat();
//! let settings = Settings { ttl: 3_600_000, max_seen: 256, history_len: 4, max_messages: 64, allow_unsigned: true, skip_groups: false };
//! let mut gateway = Gateway::start(settings)?;
//! let draft = Draft { from: &sender, seqno: &[1], data: Some(b"a study to learn with"), topics: &["ct"], key: None };
//! let body = Rpc::new().allow_unsigned(settings.allow_unsigned).publish_unsigned(&draft).write()?;
//! assert_eq!(gateway.admit(Edition::V1_1, &body, 0, false, 1)?, Admitted::New);
//! # Ok::<(), pradulins::Refusal>(())
//! ```
//!
//! # Saved states
//!
//! [`Gateway::save`] writes a name, a format, a length and a checksum before the state, and [`Gateway::load`] says which of them is wrong, in a
//! [`LoadError`]. The checksum is there since damaged bytes may still be well formed. [`Gateway::save_to`] and [`Gateway::load_from`] do the same
//! with a file, written so that a crash leaves the old state or the new; [`write_file`] does that for any bytes. At the next start load it, make the
//! clock by [`Clock::after`], and look at [`Clock::ahead_of`]: a gateway that is started anew has seen nothing. A state that a version before 0.7.0 saved is
//! of another format, and refused ([`LoadError::Format`]): start a new gateway then.
//!
//! # Sizes
//!
//! `max_seen` is at least as many notices as are new within one `ttl`: past it the oldest id leaves, and its notice is new if it comes again. How to
//! choose this and the other [`Settings`], the windows of an offer, and buffers is in docs/OPERATING.md of the repository.
//!
//! # Refusals
//!
//! A call that is refused has changed nothing. [`Refusal`] has a case for each number of the table of refusals, with the values beside it;
//! docs/OPERATING.md says what each means for those who run a gateway.
//!
#![cfg_attr(not(no_archive), doc = "```")]
#![cfg_attr(no_archive, doc = "```no_run")]
//! # use pradulins::{Gateway, Refusal, Settings};
//! # let mut gateway = Gateway::start(Settings { ttl: 1000, max_seen: 4, history_len: 2, max_messages: 4, allow_unsigned: false, skip_groups: false })?;
//! gateway.heartbeat(100)?;
//! let refusal = gateway.heartbeat(99).unwrap_err();
//! assert_eq!(refusal, Refusal::ClockBack { clock: 100 });
//! assert_eq!((refusal.number(), refusal.to_string()), (31, "refused 31: the reading is before the clock, 100".to_string()));
//! # Ok::<(), Refusal>(())
//! ```
//!
//! What is wrong with the bytes of a body (1 to 7) has a [`Place`]: how many bytes after the start of the whole body it stands, and which fields enclose it. What is
//! wrong with its groups (14 to 16) has none.
//!
#![cfg_attr(not(no_archive), doc = "```")]
#![cfg_attr(no_archive, doc = "```no_run")]
//! # use pradulins::{decode, Edition, Place};
//! // A control, in it a prune, in it a peer: its field 1 is to have 5 bytes, and none is there.
//! let refusal = decode(Edition::V1_1, &[0x1a, 6, 0x22, 4, 0x12, 2, 0x0a, 5]).unwrap_err();
//! let place = refusal.place().unwrap();
//! assert_eq!((place.offset(), place.fields()), (8, &[3, 4, 2][..]));
//! assert_eq!(refusal.to_string(), "refused 4: a field of 5 bytes passes the end, 0 remain, at byte 8 of the body, in control, prune, peer");
//! ```
//!
//! # Linking
//!
//! The archive libpradulins.a is for x86-64 Linux. It is looked for where `tools/build pradulins` writes it in the repository that this crate stands
//! in, or in the folder that the environment variable `PRADULINS_LIB_DIR` names (by its whole path: another counts from this crate's folder). Where
//! there is none, or only one from before version 0.6.0, or for another machine, the crate can be checked and those of its tests run that call nothing of it;
//! `tools/host` of the repository runs all tests and the example on Arm, too. An archive of another [`FORMAT`], or of a version with other values or other
//! refusals, is found when a gateway is started or loaded, before a body is read or an RPC is written, and when a call is refused, which then panics. A crate from
//! before 0.9.0 does not find it before a walk, one from before 0.8.0 not before a body is read, one from before 0.7.0 not before an RPC is written, and one from before
//! 0.4.0 not at all: do not link these with an archive of this version.

mod body;
mod clock;
mod compose;
mod gateway;
mod place;
mod refusal;
mod saved;
mod sys;

pub use body::{decode, message_id, messages, reencode, sign_bytes, walk, walk_from, Decoded, Dialect, Edition, Field, Message, Record, Walk};
pub use clock::Clock;
pub use compose::{sign_fields, sign_fields_into, write_rpc, write_rpc_into, Draft, Rpc};
pub use gateway::{Admitted, Gateway, Offer, Reply, Served, Settings};
pub use place::Place;
pub use refusal::Refusal;
pub use saved::{write_file, LoadError};

/// The version of this crate.
pub const VERSION: &str = env!("CARGO_PKG_VERSION");

/// The format of a node's bytes and its stores. A state that was saved in another is not loaded: up to version 0.2.0 that was 1, and up to 0.6.0 it was 2.
pub const FORMAT: u32 = 3;

/// The version of the archive that the program is linked with: 10000 times the first number, 100 times the second, and the third.
pub fn archive_version() -> u32 {
    sys::version()
}

/// How many bytes the node itself takes, without its two stores.
pub const NODE_SIZE: usize = 12440;

/// How many bytes a row of the seen store takes.
pub const SEEN_ROW: usize = 129;

/// How many bytes a place of the cache store takes.
pub const CACHE_PLACE: usize = 4096;

/// The largest body that is read or written.
pub const MAX_BODY: usize = 65536;

/// The most records that a body may have.
pub const MAX_RECORDS: usize = 512;

/// The archives that this crate can be linked with, by their version without its last number: in others a call hands out other values or other refusals.
const ARCHIVES: u32 = 9;

/// Holds the archive that the program is linked with to this crate: another format, or a version with other answers, is a fault of the build.
fn fits(format: u32, version: u32) {
    assert!(
        format == FORMAT,
        "libpradulins.a is for format {format}, and this crate for format {FORMAT}: link the archive of the crate's own version"
    );
    assert!(
        version / 100 == ARCHIVES,
        "libpradulins.a is of version {}.{}.{}, and this crate of {VERSION}: link the archive of the crate's own version",
        version / 10000,
        version / 100 % 100,
        version % 100
    );
}

/// How many numbers a record takes in the table that the library fills.
const RECORD_WORDS: usize = 20;

/// How many numbers stand beside an answer: four (of settings five), and the place of a refusal.
const VALUES: usize = 8;

/// Among the flags of a gateway: messages that nobody signed are taken.
const ALLOW_UNSIGNED: u32 = 1;

/// Among the flags of a gateway, and in the number of a dialect: groups are skipped.
const GROUPS: u32 = 2;

/// The flags as the library has them, one number.
fn flags(allow_unsigned: bool, skip_groups: bool) -> u32 {
    u32::from(allow_unsigned) * ALLOW_UNSIGNED + u32::from(skip_groups) * GROUPS
}

/// What a call did, or why it was refused.
fn answered(number: u32, values: &sys::Values) -> Result<(), Refusal> {
    if number == 0 {
        return Ok(());
    }
    // An archive of an earlier version hands out no place, or knows fewer refusals.
    fits(sys::format(), sys::version());
    Err(Refusal::from_call(number, values))
}

/// The bytes that a writer made: it is lent as much room as it can need.
fn made(room: usize, write: impl FnOnce(&mut [u8], &mut sys::Values) -> u32) -> Result<Vec<u8>, Refusal> {
    let mut out = vec![0; room];
    let mut values = [0; VALUES];
    answered(write(&mut out, &mut values), &values)?;
    out.truncate(values[0] as usize);
    out.shrink_to_fit();
    Ok(out)
}

/// A body with one message, for tests. Its sender is the peer id of an Ed25519 key, 32 times the same byte; what the message has between sender and signature is given.
#[cfg(all(test, not(no_archive)))]
fn body_of(key: u8, fields: &[u8]) -> Vec<u8> {
    let message = [&[0x0a, 0x26, 0, 0x24, 8, 1, 0x12, 0x20], &[key; 32][..], fields, &[0x2a, 0x40], &[0; 64]].concat();
    [&[0x12, message.len() as u8], &message[..]].concat()
}

#[cfg(test)]
mod tests {
    use super::*;

    #[test]
    #[should_panic(expected = "is for format 4, and this crate for format 3: link the archive of the crate's own version")]
    fn an_archive_of_another_format() {
        fits(FORMAT, 900);
        fits(FORMAT, 999);
        fits(FORMAT + 1, 900);
    }

    #[test]
    #[should_panic(expected = "is of version 0.8.0, and this crate of 0.9.")]
    fn an_archive_of_an_earlier_version() {
        fits(FORMAT, 800);
    }

    #[test]
    #[should_panic(expected = "is of version 0.10.0, and this crate of 0.9.")]
    fn an_archive_of_a_later_version() {
        fits(FORMAT, 1000);
    }

    #[test]
    fn a_bit_for_each_flag() {
        assert_eq!([flags(false, false), flags(true, false), flags(false, true), flags(true, true)], [0, 1, 2, 3]);
    }

    #[cfg(not(no_archive))]
    #[test]
    fn versions_agree() {
        let numbers: Vec<u32> = VERSION.split('.').map(|part| part.parse().unwrap()).collect();
        assert_eq!(numbers.len(), 3);
        assert_eq!(archive_version(), 10000 * numbers[0] + 100 * numbers[1] + numbers[2]);
        assert_eq!(sys::format(), FORMAT);
        let header = include_str!("../../include/pradulins.h");
        assert!(header.contains(&format!("#define PRADULINS_VERSION {}\n", archive_version())));
        assert!(header.contains(&format!("#define PRADULINS_FORMAT {FORMAT}\n")));
        assert!(header.contains(&format!("#define PRADULINS_VALUES {VALUES}\n")));
        assert!(header.contains(&format!("#define PRADULINS_NODE_SIZE {NODE_SIZE}\n")));
        assert!(header.contains(&format!("#define PRADULINS_ALLOW_UNSIGNED {ALLOW_UNSIGNED}\n")));
        assert!(header.contains(&format!("#define PRADULINS_GROUPS {GROUPS}\n")));
        for (name, edition) in [("1_1", Edition::V1_1), ("1_2", Edition::V1_2)] {
            assert!(header.contains(&format!("#define PRADULINS_V{name} {}\n", edition.number())));
        }
        assert_eq!(archive_version() / 100, ARCHIVES);
    }
}
