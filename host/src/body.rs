//! Bodies: read into records, walked field by field, written anew; the bytes to sign and the id of a message.

use crate::{answered, fits, made, sys, Refusal, GROUPS, MAX_BODY, MAX_RECORDS, RECORD_WORDS, VALUES};

/// The edition of gossipsub in which a body is read: that of the stream by which it came, which both sides agreed on when it was opened.
///
/// It is no setting of a gateway: each call that reads a body is told the edition, and one gateway may be given bodies of either. What
/// [`V1_2`](Edition::V1_2) adds is [`Record::IDontWant`]. All else is read alike, and a message is the same in both; a body that is accepted in 1.2 is
/// accepted in 1.1.
///
#[cfg_attr(not(no_archive), doc = "```")]
#[cfg_attr(no_archive, doc = "```no_run")]
/// use pradulins::{decode, Edition, Record};
///
/// // A control with field 5, and in that an id.
/// let body = [0x1a, 5, 0x2a, 3, 0x0a, 1, b'A'];
/// assert_eq!(decode(Edition::V1_1, &body)?.records, []);
/// assert_eq!(decode(Edition::V1_2, &body)?.records, [Record::IDontWant, Record::MessageId(b"A")]);
/// # Ok::<(), pradulins::Refusal>(())
/// ```
#[derive(Clone, Copy, Debug, PartialEq, Eq, Hash)]
pub enum Edition {
    /// Gossipsub 1.1, `/meshsub/1.1.0`, and what is older. Field 5 of a control is skipped, whatever it holds.
    V1_1,
    /// Gossipsub 1.2, `/meshsub/1.2.0`. Field 5 of a control is an IDONTWANT.
    V1_2,
}

impl Edition {
    /// The number by which the library knows it. An archive of an earlier version takes none, so that it is not to be called.
    pub(crate) fn number(self) -> u32 {
        fits(sys::format(), sys::version());
        match self {
            Edition::V1_1 => 0,
            Edition::V1_2 => 1,
        }
    }
}

/// How a body is read by the calls on a body alone: its edition, and whether groups are skipped ([Groups](crate#groups)).
///
/// An [`Edition`] by itself is the dialect in which groups are refused, so that each of these calls takes either. What a gateway reads in is [`Gateway::dialect`](crate::Gateway::dialect).
///
#[cfg_attr(not(no_archive), doc = "```")]
#[cfg_attr(no_archive, doc = "```no_run")]
/// use pradulins::{decode, Dialect, Edition, Refusal};
///
/// let skipping = Dialect { edition: Edition::V1_2, skip_groups: true };
/// assert_eq!(decode(skipping, &[0x0b, 0x0c])?.records, []);
/// assert_eq!(decode(skipping, &[0x0b]), Err(Refusal::GroupOpen));
/// assert_eq!(Dialect::from(Edition::V1_2), Dialect { skip_groups: false, ..skipping });
/// # Ok::<(), Refusal>(())
/// ```
#[derive(Clone, Copy, Debug, PartialEq, Eq, Hash)]
pub struct Dialect {
    /// The edition of the stream by which the body came.
    pub edition: Edition,
    /// Whether groups, the wire types 3 and 4, are skipped; else they are refused ([`Refusal::WireType`]).
    pub skip_groups: bool,
}

impl From<Edition> for Dialect {
    fn from(edition: Edition) -> Dialect {
        Dialect { edition, skip_groups: false }
    }
}

impl Dialect {
    /// The number by which the library knows it.
    fn number(self) -> u32 {
        self.edition.number() | if self.skip_groups { GROUPS } else { 0 }
    }
}

/// A body in canonical bytes: bodies that mean the same give the same bytes, and they are never longer. Groups outside messages are dropped; a message keeps its bytes.
///
/// Refused: what is wrong with the body (1 to 7, 14 to 16, 10, 11).
///
/// # Panics
///
/// If the program is linked with an archive of another version. So do [`sign_bytes`], [`message_id`], [`decode`], [`messages`] and [`walk`].
pub fn reencode(dialect: impl Into<Dialect>, body: &[u8]) -> Result<Vec<u8>, Refusal> {
    let dialect = dialect.into().number();
    made(body.len().min(MAX_BODY), |out, values| sys::encode(dialect, body, out, values))
}

/// The bytes that the signature of the message at `index` is made over. They never hold groups.
///
/// Refused: what is wrong with the body (1 to 7, 14 to 16, 10, 11), [`Refusal::NoMessage`].
pub fn sign_bytes(dialect: impl Into<Dialect>, body: &[u8], index: usize) -> Result<Vec<u8>, Refusal> {
    let dialect = dialect.into().number();
    made(body.len().min(MAX_BODY) + 14, |out, values| sys::sign_bytes(dialect, body, index, out, values))
}

/// The id of the message at `index`: its from and its seqno.
///
/// Refused: what is wrong with the body (1 to 7, 14 to 16, 10, 11), [`Refusal::NoMessage`], and 21, 22 and 23.
pub fn message_id(dialect: impl Into<Dialect>, body: &[u8], index: usize) -> Result<Vec<u8>, Refusal> {
    let dialect = dialect.into().number();
    made(128, |out, values| sys::message_id(dialect, body, index, out, values))
}

/// What a body says.
#[derive(Clone, Debug, PartialEq, Eq)]
pub struct Decoded<'a> {
    /// Whether it has a control, which is no record itself and may be empty.
    pub control: bool,
    /// Its records in the order in which it has them, each before what stands inside it.
    pub records: Vec<Record<'a>>,
}

/// A record of a body. Absent is `None`, apart from present and empty.
#[derive(Clone, Copy, Debug, PartialEq, Eq)]
pub enum Record<'a> {
    /// A subscription, or its end.
    SubOpts {
        /// Whether it subscribes.
        subscribe: Option<bool>,
        /// The topic.
        topic_id: Option<&'a str>,
    },
    /// A message; its topics follow.
    Message {
        /// All its bytes, groups with them.
        raw: &'a [u8],
        /// Who published it: a peer id, if it is to be admitted.
        from: Option<&'a [u8]>,
        /// What it says.
        data: Option<&'a [u8]>,
        /// Its number.
        seqno: Option<&'a [u8]>,
        /// The signature.
        signature: Option<&'a [u8]>,
        /// The key of the signature.
        key: Option<&'a [u8]>,
    },
    /// A topic of the message before it.
    Topic(&'a str),
    /// An offer; the ids follow.
    IHave {
        /// The topic.
        topic_id: Option<&'a str>,
    },
    /// A request; the ids follow.
    IWant,
    /// An id of the offer, the request or the IDONTWANT before it.
    MessageId(&'a [u8]),
    /// A peer joins the mesh of a topic.
    Graft {
        /// The topic.
        topic_id: Option<&'a str>,
    },
    /// A peer leaves the mesh of a topic; peers to turn to follow.
    Prune {
        /// The topic.
        topic_id: Option<&'a str>,
        /// For how long.
        backoff: Option<u64>,
    },
    /// A peer of the prune before it.
    PeerInfo {
        /// Its id.
        peer_id: Option<&'a [u8]>,
        /// Its record.
        signed_peer_record: Option<&'a [u8]>,
    },
    /// In [`Edition::V1_2`] alone: a peer has messages already and does not want to be sent them ([`Gateway::serve_without`](crate::Gateway::serve_without)); the ids
    /// follow.
    IDontWant,
}

/// The bytes of a field of a record, from the numbers of its row.
fn field<'a>(record: &'a [u8], row: &[u64], i: usize) -> Option<&'a [u8]> {
    let at = 5 + 3 * i;
    (row[at] == 1).then(|| &record[row[at + 1] as usize..row[at + 2] as usize])
}

/// A topic. The library accepts only topics that are UTF-8.
fn text(bytes: &[u8]) -> &str {
    std::str::from_utf8(bytes).expect("an accepted topic is UTF-8")
}

/// The record that a row of the table is.
fn record_of<'a>(body: &'a [u8], row: &[u64]) -> Record<'a> {
    let raw = &body[row[1] as usize..row[2] as usize];
    let number = (row[3] == 1).then_some(row[4]);
    let bytes = |i| field(raw, row, i);
    let topic_id = || bytes(0).map(text);
    match row[0] {
        1 => Record::SubOpts { subscribe: number.map(|n| n != 0), topic_id: topic_id() },
        2 => Record::Message { raw, from: bytes(0), data: bytes(1), seqno: bytes(2), signature: bytes(3), key: bytes(4) },
        3 => Record::Topic(text(raw)),
        5 => Record::IHave { topic_id: topic_id() },
        6 => Record::IWant,
        7 => Record::MessageId(raw),
        8 => Record::Graft { topic_id: topic_id() },
        9 => Record::Prune { topic_id: topic_id(), backoff: number },
        10 => Record::PeerInfo { peer_id: bytes(0), signed_peer_record: bytes(1) },
        11 => Record::IDontWant,
        kind => panic!("libpradulins.a wrote a record of kind {kind}, which there is not"),
    }
}

/// Reads a body.
///
/// Refused: what is wrong with it (1 to 7, 14 to 16, 10, 11).
pub fn decode(dialect: impl Into<Dialect>, body: &[u8]) -> Result<Decoded<'_>, Refusal> {
    let dialect = dialect.into().number();
    // A record takes at least a byte of tag and one of length.
    let mut table = vec![0; (body.len() / 2).min(MAX_RECORDS) * RECORD_WORDS];
    let mut values = [0; VALUES];
    answered(sys::decode(dialect, body, &mut table, &mut values), &values)?;
    let rows = &table[..values[0] as usize * RECORD_WORDS];
    Ok(Decoded { control: values[1] == 1, records: rows.chunks_exact(RECORD_WORDS).map(|row| record_of(body, row)).collect() })
}

/// A message of a body, with its topics. Absent is `None`, apart from present and empty.
#[derive(Clone, Debug, PartialEq, Eq)]
pub struct Message<'a> {
    /// Its index among the messages of the body, from 0: that of [`Gateway::admit`](crate::Gateway::admit), [`sign_bytes`] and [`message_id`].
    pub index: usize,
    /// All its bytes, groups with them.
    pub raw: &'a [u8],
    /// Who published it: a peer id, if it is to be admitted.
    pub from: Option<&'a [u8]>,
    /// What it says.
    pub data: Option<&'a [u8]>,
    /// Its number.
    pub seqno: Option<&'a [u8]>,
    /// The signature, over [`sign_bytes`].
    pub signature: Option<&'a [u8]>,
    /// The key of the signature.
    pub key: Option<&'a [u8]>,
    /// Its topics, in the order in which it has them.
    pub topics: Vec<&'a str>,
}

/// The messages among records, each with the topics that follow it.
fn messages_of<'a>(records: &[Record<'a>]) -> Vec<Message<'a>> {
    let mut messages: Vec<Message<'a>> = Vec::new();
    for record in records {
        match *record {
            Record::Message { raw, from, data, seqno, signature, key } => {
                messages.push(Message { index: messages.len(), raw, from, data, seqno, signature, key, topics: Vec::new() });
            }
            Record::Topic(topic) => messages.last_mut().expect("a topic stands after its message").topics.push(topic),
            _ => {}
        }
    }
    messages
}

/// The messages of a body, in one reading of it. Whether they would be admitted is not looked at.
///
/// Refused: what is wrong with the body (1 to 7, 14 to 16, 10, 11).
pub fn messages(dialect: impl Into<Dialect>, body: &[u8]) -> Result<Vec<Message<'_>>, Refusal> {
    Ok(messages_of(&decode(dialect, body)?.records))
}

/// A top-level field of a body.
#[derive(Clone, Copy, Debug, PartialEq, Eq)]
pub struct Field<'a> {
    /// The field's number.
    pub number: u64,
    /// Its wire type: 0, 1, 2 or 5, and where groups are skipped, 3.
    pub wire_type: u8,
    /// What follows its tag: a varint, 8 bytes, a length and as many bytes, 4 bytes, or the fields of a group with its end tag.
    pub bytes: &'a [u8],
    /// Where it ends in the body, and the next begins.
    pub end: usize,
}

/// The top-level fields of a body, one after the other; it ends after the first refusal. Made by [`walk`].
#[derive(Clone, Debug)]
pub struct Walk<'a> {
    dialect: u32,
    body: &'a [u8],
    at: usize,
    done: bool,
}

/// Walks over the top-level fields of a body. What a field holds is not looked at, so the edition does not matter; a group that is skipped is one field.
///
/// Refused: what is wrong with a field (1 to 6, 14 to 16), or a body above 65,536 bytes. No field encloses the [`Place`](crate::Place) of such a refusal.
pub fn walk(dialect: impl Into<Dialect>, body: &[u8]) -> Walk<'_> {
    walk_from(dialect, body, 0)
}

/// The same from a place on, which should be the end of a field. A place past the end of the body is its end.
pub fn walk_from(dialect: impl Into<Dialect>, body: &[u8], at: usize) -> Walk<'_> {
    Walk { dialect: dialect.into().number(), body, at, done: false }
}

impl<'a> Iterator for Walk<'a> {
    type Item = Result<Field<'a>, Refusal>;

    fn next(&mut self) -> Option<Self::Item> {
        if self.done {
            return None;
        }
        let mut values = [0; VALUES];
        if let Err(refusal) = answered(sys::walk(self.dialect, self.body, self.at, &mut values), &values) {
            self.done = true;
            return Some(Err(refusal));
        }
        let [number, wire_type, tag_end, next, ..] = values;
        if number == 0 {
            self.done = true;
            return None;
        }
        self.at = next as usize;
        Some(Ok(Field { number, wire_type: wire_type as u8, bytes: &self.body[tag_end as usize..self.at], end: self.at }))
    }
}

impl std::iter::FusedIterator for Walk<'_> {}

#[cfg(test)]
mod tests {
    use super::*;

    fn row(kind: u64, start: u64, end: u64, number: Option<u64>, fields: &[Option<(u64, u64)>]) -> Vec<u64> {
        let mut row = vec![kind, start, end, number.is_some() as u64, number.unwrap_or(0)];
        for i in 0..5 {
            match fields.get(i).copied().flatten() {
                Some((start, end)) => row.extend([1, start, end]),
                None => row.extend([0, 0, 0]),
            }
        }
        row
    }

    #[test]
    fn rows_are_records() {
        let body = b"..abcdefgh..";
        let at = |kind, number, fields: &[Option<(u64, u64)>]| record_of(body, &row(kind, 2, 10, number, fields));
        assert_eq!(at(1, Some(7), &[Some((0, 2))]), Record::SubOpts { subscribe: Some(true), topic_id: Some("ab") });
        assert_eq!(at(1, Some(0), &[]), Record::SubOpts { subscribe: Some(false), topic_id: None });
        assert_eq!(
            at(2, None, &[Some((0, 1)), None, Some((3, 3)), Some((2, 4)), Some((7, 8))]),
            Record::Message { raw: b"abcdefgh", from: Some(b"a"), data: None, seqno: Some(b""), signature: Some(b"cd"), key: Some(b"h") }
        );
        assert_eq!(at(3, None, &[]), Record::Topic("abcdefgh"));
        assert_eq!(at(5, None, &[Some((1, 2))]), Record::IHave { topic_id: Some("b") });
        assert_eq!(at(6, None, &[]), Record::IWant);
        assert_eq!(at(7, None, &[]), Record::MessageId(b"abcdefgh"));
        assert_eq!(at(8, None, &[]), Record::Graft { topic_id: None });
        assert_eq!(at(9, Some(60), &[Some((0, 1))]), Record::Prune { topic_id: Some("a"), backoff: Some(60) });
        assert_eq!(at(10, None, &[None, Some((0, 8))]), Record::PeerInfo { peer_id: None, signed_peer_record: Some(b"abcdefgh") });
        assert_eq!(at(11, None, &[]), Record::IDontWant);
    }

    #[test]
    #[should_panic(expected = "wrote a record of kind 12, which there is not")]
    fn no_other_kind() {
        record_of(b"", &row(12, 0, 0, None, &[]));
    }

    #[test]
    fn records_are_messages() {
        let empty = Record::Message { raw: b"", from: None, data: None, seqno: None, signature: None, key: None };
        let full = Record::Message { raw: b"r", from: Some(b"f"), data: Some(b"d"), seqno: Some(b"n"), signature: Some(b"s"), key: Some(b"k") };
        let records = [Record::SubOpts { subscribe: None, topic_id: None }, full, Record::Topic("t"), Record::Topic("u"), empty, Record::IWant];
        let wanted = [
            Message {
                index: 0,
                raw: b"r",
                from: Some(&b"f"[..]),
                data: Some(&b"d"[..]),
                seqno: Some(&b"n"[..]),
                signature: Some(&b"s"[..]),
                key: Some(&b"k"[..]),
                topics: vec!["t", "u"],
            },
            Message { index: 1, raw: b"", from: None, data: None, seqno: None, signature: None, key: None, topics: vec![] },
        ];
        assert_eq!(messages_of(&records), wanted);
        assert!(messages_of(&[]).is_empty());
    }
}
