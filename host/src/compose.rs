//! Speaking first: an RPC of the host's own, from records, and the bytes to sign of a message before it is signed.

use crate::{answered, fits, flags, made, sys, Record, Refusal, MAX_BODY, RECORD_WORDS, VALUES};

/// The bytes of the RPC that records say: those that a host made ([`Rpc`] makes them for it), or those of [`decode`](crate::decode).
///
/// Records come in any mixture: a topic is of the last message before it, a peer of the last prune. What is written is accepted, and [`decode`](crate::decode) gives
/// the same records again: subscriptions first, then messages, grafts and prunes, each in the order in which they came. A message is made anew from its fields:
/// its `raw` is not looked at.
///
/// Refused: [`Refusal::Malformed`], of a topic without a message or a peer without a prune before it, and of offers, requests, IDONTWANTs and ids, which are not written so;
/// [`Refusal::TooManyRecords`]; what admission would refuse of a message (21, 22, 34, 23, 26, 35, 36, 28, 29, 30), message by message, where an absent signature
/// is one of 0 bytes ([`Rpc::allow_unsigned`] has such messages written); [`Refusal::RpcTooLong`].
///
/// # Panics
///
/// If the program is linked with an archive of another version.
pub fn write_rpc(records: &[Record<'_>]) -> Result<Vec<u8>, Refusal> {
    written(records, false)
}

/// The same into a lent buffer; how many bytes were written.
///
/// Refused also: [`Refusal::Room`].
pub fn write_rpc_into(records: &[Record<'_>], out: &mut [u8]) -> Result<usize, Refusal> {
    written_into(records, false, out)
}

// An archive of an earlier version takes no flags: it is not to be called. What is written has no groups, so that flag is off.

fn written(records: &[Record<'_>], allow_unsigned: bool) -> Result<Vec<u8>, Refusal> {
    fits(sys::format(), sys::version());
    let rows = Rows::of(records);
    made(MAX_BODY, |out, values| sys::write_rpc(&rows.table, &rows.bytes, flags(allow_unsigned, false), out, values))
}

fn written_into(records: &[Record<'_>], allow_unsigned: bool, out: &mut [u8]) -> Result<usize, Refusal> {
    fits(sys::format(), sys::version());
    let rows = Rows::of(records);
    let mut values = [0; VALUES];
    answered(sys::write_rpc(&rows.table, &rows.bytes, flags(allow_unsigned, false), out, &mut values), &values)?;
    Ok(values[0] as usize)
}

/// The bytes that the signature of message `index` of the records is to be made over (from 0), whether it has a signature already or not: those that
/// [`sign_bytes`](crate::sign_bytes) gives of the body that [`write_rpc`] makes. For one message alone there is [`Draft::sign_fields`].
///
/// Refused: [`Refusal::Malformed`] and [`Refusal::TooManyRecords`] as by [`write_rpc`]; [`Refusal::NoMessage`].
pub fn sign_fields(records: &[Record<'_>], index: usize) -> Result<Vec<u8>, Refusal> {
    let rows = Rows::of(records);
    made(rows.sign_room(), |out, values| sys::sign_fields(&rows.table, &rows.bytes, index, out, values))
}

/// The same into a lent buffer; how many bytes were written. For a message that can be written 4,110 are enough.
///
/// Refused also: [`Refusal::Room`].
pub fn sign_fields_into(records: &[Record<'_>], index: usize, out: &mut [u8]) -> Result<usize, Refusal> {
    let rows = Rows::of(records);
    let mut values = [0; VALUES];
    answered(sys::sign_fields(&rows.table, &rows.bytes, index, out, &mut values), &values)?;
    Ok(values[0] as usize)
}

/// Records as the library is lent them: rows of its table over bytes. Each row begins at 0, so that its places count from the start of all bytes; a topic's own
/// bytes are the row's.
struct Rows {
    table: Vec<u64>,
    bytes: Vec<u8>,
}

impl Rows {
    fn of(records: &[Record<'_>]) -> Rows {
        let mut rows = Rows { table: Vec::with_capacity(records.len() * RECORD_WORDS), bytes: Vec::new() };
        for record in records {
            rows.push(record);
        }
        rows
    }

    fn push(&mut self, record: &Record<'_>) {
        match *record {
            Record::SubOpts { subscribe, topic_id } => self.row(1, b"", subscribe.map(u64::from), &[topic_id.map(str::as_bytes)]),
            Record::Message { raw: _, from, data, seqno, signature, key } => self.row(2, b"", None, &[from, data, seqno, signature, key]),
            Record::Topic(topic) => self.row(3, topic.as_bytes(), None, &[]),
            Record::IHave { topic_id } => self.row(5, b"", None, &[topic_id.map(str::as_bytes)]),
            Record::IWant => self.row(6, b"", None, &[]),
            Record::MessageId(id) => self.row(7, id, None, &[]),
            Record::Graft { topic_id } => self.row(8, b"", None, &[topic_id.map(str::as_bytes)]),
            Record::Prune { topic_id, backoff } => self.row(9, b"", backoff, &[topic_id.map(str::as_bytes)]),
            Record::PeerInfo { peer_id, signed_peer_record } => self.row(10, b"", None, &[peer_id, signed_peer_record]),
            Record::IDontWant => self.row(11, b"", None, &[]),
        }
    }

    /// A row: its kind, its own bytes where it has any, its number and its fields.
    fn row(&mut self, kind: u64, own: &[u8], number: Option<u64>, fields: &[Option<&[u8]>]) {
        let [start, end] = if own.is_empty() { [0, 0] } else { self.put(own) };
        self.table.extend([kind, start, end, u64::from(number.is_some()), number.unwrap_or(0)]);
        for i in 0..5 {
            match fields.get(i).copied().flatten() {
                Some(bytes) => {
                    let [start, end] = self.put(bytes);
                    self.table.extend([1, start, end]);
                }
                None => self.table.extend([0, 0, 0]),
            }
        }
    }

    /// Where some bytes stand from now on.
    fn put(&mut self, bytes: &[u8]) -> [u64; 2] {
        let start = self.bytes.len() as u64;
        self.bytes.extend_from_slice(bytes);
        [start, start + bytes.len() as u64]
    }

    /// As many bytes as are to be signed of any message: the prefix, all bytes, and a tag and a length before each field.
    fn sign_room(&self) -> usize {
        14 + self.bytes.len() + 11 * (3 + self.table.len() / RECORD_WORDS)
    }
}

/// An RPC of the host's own, said entry by entry and then written.
///
#[cfg_attr(not(no_archive), doc = "```")]
#[cfg_attr(no_archive, doc = "```no_run")]
/// use pradulins::Rpc;
///
/// let body = Rpc::new().subscribe("ct").graft("ct").write()?;
/// assert_eq!(body, [0x0a, 6, 8, 1, 0x12, 2, b'c', b't', 0x1a, 6, 0x1a, 4, 0x0a, 2, b'c', b't']);
/// # Ok::<(), pradulins::Refusal>(())
/// ```
///
/// Of entries that it has no word for, such as a subscription without a topic or a peer with a signed record, [`Rpc::push`] takes the [`Record`].
#[derive(Clone, Debug, Default, PartialEq, Eq)]
pub struct Rpc<'a> {
    records: Vec<Record<'a>>,
    allow_unsigned: bool,
}

impl<'a> Rpc<'a> {
    /// One that says nothing yet; written so, it has no bytes.
    pub fn new() -> Rpc<'a> {
        Rpc::default()
    }

    /// The host joins a topic: it is to be told of it.
    pub fn subscribe(self, topic: &'a str) -> Rpc<'a> {
        self.push(Record::SubOpts { subscribe: Some(true), topic_id: Some(topic) })
    }

    /// The host leaves a topic.
    pub fn unsubscribe(self, topic: &'a str) -> Rpc<'a> {
        self.push(Record::SubOpts { subscribe: Some(false), topic_id: Some(topic) })
    }

    /// The neighbour is taken into the mesh of a topic.
    pub fn graft(self, topic: &'a str) -> Rpc<'a> {
        self.push(Record::Graft { topic_id: Some(topic) })
    }

    /// The neighbour is taken out of the mesh of a topic, and is not to graft again for so long, in seconds; it may turn to these peers, by their peer ids.
    pub fn prune(mut self, topic: &'a str, backoff: Option<u64>, peers: &[&'a [u8]]) -> Rpc<'a> {
        self.records.push(Record::Prune { topic_id: Some(topic), backoff });
        self.records.extend(peers.iter().map(|peer| Record::PeerInfo { peer_id: Some(peer), signed_peer_record: None }));
        self
    }

    /// A message, with the signature that the host made over [`Draft::sign_fields`].
    pub fn publish(mut self, draft: &Draft<'a>, signature: &'a [u8]) -> Rpc<'a> {
        self.records.extend(draft.records(Some(signature)));
        self
    }

    /// A message that nobody signs, for a training mesh. It is refused when it is written, as not signed (26 with 0), unless [`Rpc::allow_unsigned`] was said. A draft
    /// with a key is then refused, too ([`Refusal::KeyWithoutSignature`]).
    pub fn publish_unsigned(mut self, draft: &Draft<'a>) -> Rpc<'a> {
        self.records.extend(draft.records(None));
        self
    }

    /// Whether messages with neither signature nor key may be written, as they are; `false` unless it is said. Give it
    /// [`Settings::allow_unsigned`](crate::Settings::allow_unsigned) of the gateways that shall admit them, which is never `true` in production ([Unsigned
    /// messages](crate#unsigned-messages)).
    pub fn allow_unsigned(mut self, allow: bool) -> Rpc<'a> {
        self.allow_unsigned = allow;
        self
    }

    /// An entry as [`decode`](crate::decode) would give it.
    pub fn push(mut self, record: Record<'a>) -> Rpc<'a> {
        self.records.push(record);
        self
    }

    /// What it says so far.
    pub fn records(&self) -> &[Record<'a>] {
        &self.records
    }

    /// Its bytes; refused as by [`write_rpc`], but for messages that nobody signed where [`Rpc::allow_unsigned`] was said.
    pub fn write(&self) -> Result<Vec<u8>, Refusal> {
        written(&self.records, self.allow_unsigned)
    }

    /// The same into a lent buffer; how many bytes were written.
    ///
    /// Refused also: [`Refusal::Room`].
    pub fn write_into(&self, out: &mut [u8]) -> Result<usize, Refusal> {
        written_into(&self.records, self.allow_unsigned, out)
    }
}

/// A message before it is signed, to be published by [`Rpc::publish`]; or one that nobody signs, by [`Rpc::publish_unsigned`].
///
#[cfg_attr(not(no_archive), doc = "```")]
#[cfg_attr(no_archive, doc = "```no_run")]
/// use pradulins::{Draft, Rpc};
/// # fn sign(_bytes: &[u8]) -> [u8; 64] { [0; 64] }
/// # let peer_id = [&[0, 0x24, 8, 1, 0x12, 0x20][..], &[b'A'; 32]].concat();
///
/// let draft = Draft { from: &peer_id, seqno: &17u64.to_be_bytes(), data: Some(b"study 17"), topics: &["ct"], key: None };
/// let signature = sign(&draft.sign_fields()?); // by the host's own key
/// let body = Rpc::new().publish(&draft, &signature).write()?;
/// # assert_eq!(pradulins::sign_bytes(pradulins::Edition::V1_1, &body, 0), draft.sign_fields());
/// # Ok::<(), pradulins::Refusal>(())
/// ```
#[derive(Clone, Copy, Debug, PartialEq, Eq)]
pub struct Draft<'a> {
    /// Who publishes it: the host's peer id ([Senders](crate#senders)).
    pub from: &'a [u8],
    /// Its number, 1 to 64 bytes. It and `from` are the message's id: no two messages of one sender may have the same.
    pub seqno: &'a [u8],
    /// What it says.
    pub data: Option<&'a [u8]>,
    /// Its topics, 1 to 4.
    pub topics: &'a [&'a str],
    /// The key of the signature. It is to be there where `from` is the SHA-256 of a key, and may be left out where `from` holds the key itself.
    pub key: Option<&'a [u8]>,
}

impl<'a> Draft<'a> {
    /// The message with that signature, and its topics behind it.
    fn records(self, signature: Option<&'a [u8]>) -> impl Iterator<Item = Record<'a>> {
        let Draft { from, seqno, data, topics, key } = self;
        let message = Record::Message { raw: b"", from: Some(from), data, seqno: Some(seqno), signature, key };
        std::iter::once(message).chain(topics.iter().map(|topic| Record::Topic(topic)))
    }

    /// The bytes that its signature is to be made over: those that [`sign_bytes`](crate::sign_bytes) gives of the body, when it is written.
    ///
    /// Refused: [`Refusal::TooManyRecords`], of above 511 topics.
    pub fn sign_fields(&self) -> Result<Vec<u8>, Refusal> {
        sign_fields(&self.records(None).collect::<Vec<_>>(), 0)
    }
}

#[cfg(test)]
mod tests {
    use super::*;

    /// The numbers of a row, and what stands behind its last field.
    fn row(kind: u64, own: [u64; 2], number: Option<u64>, fields: &[Option<[u64; 2]>]) -> Vec<u64> {
        let mut row = vec![kind, own[0], own[1], number.is_some() as u64, number.unwrap_or(0)];
        for i in 0..5 {
            match fields.get(i).copied().flatten() {
                Some([start, end]) => row.extend([1, start, end]),
                None => row.extend([0, 0, 0]),
            }
        }
        row
    }

    #[test]
    fn records_are_rows() {
        let records = [
            Record::SubOpts { subscribe: Some(false), topic_id: Some("ab") },
            Record::SubOpts { subscribe: None, topic_id: None },
            Record::Message { raw: b"not looked at", from: Some(b"f"), data: None, seqno: Some(b""), signature: Some(b"sig"), key: Some(b"k") },
            Record::Topic("t"),
            Record::Topic(""),
            Record::Graft { topic_id: Some("") },
            Record::Prune { topic_id: None, backoff: Some(u64::MAX) },
            Record::PeerInfo { peer_id: Some(b"p"), signed_peer_record: Some(b"r") },
            Record::IHave { topic_id: Some("u") },
            Record::IWant,
            Record::MessageId(b"id"),
            Record::IDontWant,
        ];
        let rows = Rows::of(&records);
        assert_eq!(rows.bytes, b"abfsigktpruid");
        let wanted = [
            row(1, [0, 0], Some(0), &[Some([0, 2])]),
            row(1, [0, 0], None, &[]),
            row(2, [0, 0], None, &[Some([2, 3]), None, Some([3, 3]), Some([3, 6]), Some([6, 7])]),
            row(3, [7, 8], None, &[]),
            row(3, [0, 0], None, &[]),
            row(8, [0, 0], None, &[Some([8, 8])]),
            row(9, [0, 0], Some(u64::MAX), &[]),
            row(10, [0, 0], None, &[Some([8, 9]), Some([9, 10])]),
            row(5, [0, 0], None, &[Some([10, 11])]),
            row(6, [0, 0], None, &[]),
            row(7, [11, 13], None, &[]),
            row(11, [0, 0], None, &[]),
        ];
        assert_eq!(rows.table, wanted.concat());
        assert_eq!(rows.sign_room(), 14 + 13 + 11 * 15);
    }

    #[test]
    fn entries_are_records() {
        let draft = Draft { from: b"f", seqno: b"n", data: Some(b"d"), topics: &["t", "u"], key: Some(b"k") };
        let rpc =
            Rpc::new().subscribe("a").unsubscribe("b").graft("c").prune("d", Some(60), &[b"p", b"qq"]).publish(&draft, b"s").push(Record::IWant);
        let peer = |id| Record::PeerInfo { peer_id: Some(id), signed_peer_record: None };
        let wanted = [
            Record::SubOpts { subscribe: Some(true), topic_id: Some("a") },
            Record::SubOpts { subscribe: Some(false), topic_id: Some("b") },
            Record::Graft { topic_id: Some("c") },
            Record::Prune { topic_id: Some("d"), backoff: Some(60) },
            peer(b"p"),
            peer(b"qq"),
            Record::Message { raw: b"", from: Some(b"f"), data: Some(b"d"), seqno: Some(b"n"), signature: Some(b"s"), key: Some(b"k") },
            Record::Topic("t"),
            Record::Topic("u"),
            Record::IWant,
        ];
        assert_eq!(rpc.records(), wanted);
        assert!(Rpc::new().records().is_empty());
        let bare = Draft { key: None, topics: &["t"], ..draft };
        let unsigned = Record::Message { raw: b"", from: Some(b"f"), data: Some(b"d"), seqno: Some(b"n"), signature: None, key: None };
        assert_eq!(Rpc::new().publish_unsigned(&bare).records(), [unsigned, Record::Topic("t")]);
        assert!(!Rpc::new().allow_unsigned && Rpc::new().allow_unsigned(true).allow_unsigned);
        assert_eq!(Rpc::new().prune("d", None, &[]).records(), [Record::Prune { topic_id: Some("d"), backoff: None }]);
    }
}
