//! Why a call was refused: the scope's table, with the values beside each number.

use crate::{Place, VALUES};
use std::error::Error;
use std::fmt;

/// Where the place of a refusal begins among the values of a call.
const PLACE: usize = 4;

/// Why a call was refused. A refused call has changed nothing.
///
/// What is wrong with the bytes of a body, 1 to 7, has a [`Place`] in the whole body; [`Refusal::place`] gives it, too, and there is none beside the others, also not
/// beside 14 to 16.
/// An `offset` is counted from the start of the innermost field that encloses it. [`Refusal::number`] and [`Refusal::values`] give the refusal as the
/// library's other programs print it, before its place.
#[derive(Clone, Copy, Debug, PartialEq, Eq, Hash)]
pub enum Refusal {
    /// 1: a varint is cut short.
    VarintShort {
        /// The varint's first byte, or where it was to begin.
        place: Place,
    },
    /// 2: a varint is above 64 bits.
    VarintOverflow {
        /// The varint's first byte.
        place: Place,
    },
    /// 3: a varint is longer than it needs to be.
    VarintNotMinimal {
        /// The varint's first byte.
        place: Place,
    },
    /// 4: a field passes the end of its message.
    FieldOverflow {
        /// Where the field's bytes were to begin.
        offset: u64,
        /// How many they were to be.
        length: u64,
        /// How many there are.
        remaining: u64,
        /// Where the field's bytes were to begin.
        place: Place,
    },
    /// 5: a wire type other than 0, 1, 2 and 5, or where groups are skipped, 6 or 7.
    WireType {
        /// The wire type.
        wire_type: u64,
        /// After the tag.
        offset: u64,
        /// After the tag.
        place: Place,
    },
    /// 6: a field number outside 1 to 536870911.
    FieldNumber {
        /// The field number.
        number: u64,
        /// The tag's first byte.
        offset: u64,
        /// The tag's first byte.
        place: Place,
    },
    /// 14, where groups are skipped: an end tag with no open group, or of another number than the group that was opened last.
    EndGroup,
    /// 15, where groups are skipped: groups more than 32 deep.
    GroupDepth,
    /// 16, where groups are skipped: the body, or the submessage in which a group began, ends inside the group.
    GroupOpen,
    /// 7: a topic is not UTF-8.
    Utf8 {
        /// The first byte of the topic's length.
        offset: u64,
        /// The first byte of the topic's length.
        place: Place,
    },
    /// 10: a body above 65,536 bytes.
    BodyTooLarge {
        /// Its length.
        length: u64,
    },
    /// 11: a body above 512 records.
    TooManyRecords {
        /// How many it has.
        records: u64,
    },
    /// 12: the lent buffer is too short.
    Room {
        /// How many bytes are needed.
        needed: u64,
    },
    /// 13: an RPC to be written would have above 65,536 bytes.
    RpcTooLong {
        /// How many it would have.
        length: u64,
    },
    /// 20: the body has no message at that index.
    NoMessage {
        /// How many messages it has.
        messages: u64,
    },
    /// 21: the message has no from.
    MissingFrom,
    /// 22: from has 0 or above 64 bytes.
    InvalidFrom {
        /// Its length.
        length: u64,
    },
    /// 23: seqno is missing, or has 0 or above 64 bytes.
    InvalidSeqno,
    /// 24: a key without a signature.
    KeyWithoutSignature,
    /// 25: neither signature nor key, where unsigned messages are not allowed.
    MissingSignature,
    /// 26: the signature does not have 64 bytes.
    SignatureLength {
        /// Its length.
        length: u64,
    },
    /// 27: the host did not verify the signature.
    NotVerified,
    /// 28: the message has no topic, or above 4.
    TopicCount {
        /// How many it has.
        topics: u64,
    },
    /// 29: a topic above 1,024 bytes.
    TopicTooLong {
        /// Its length.
        length: u64,
    },
    /// 30: a message above 4,096 bytes.
    MessageTooLong {
        /// Its length.
        length: u64,
    },
    /// 31: the reading is before the gateway's clock.
    ClockBack {
        /// The gateway's clock.
        clock: u64,
    },
    /// 34: the sender, from, is no peer id.
    NotPeerId,
    /// 35: the message has a key, and it does not decode.
    InvalidKey,
    /// 36: the key is not the one that the sender's peer id holds; or there is none, neither in the message nor in the peer id.
    KeyPeerIdMismatch,
    /// 40: a setting out of range, or a seen store shorter than the settings say. (Flags that are not known, which 40 is for in C, cannot be said here.)
    BadSetting,
    /// 41: a store whose length the settings do not say.
    BadStore,
    /// 42: node and stores are not well formed; or of an RPC to be written, its records are not: a topic that no message stands before, a peer that no prune
    /// does, or an offer or a request.
    Malformed,
}

impl Refusal {
    /// All numbers of refusals that a call of this crate can meet.
    pub const NUMBERS: [u32; 32] =
        [1, 2, 3, 4, 5, 6, 7, 10, 11, 12, 13, 14, 15, 16, 20, 21, 22, 23, 24, 25, 26, 27, 28, 29, 30, 31, 34, 35, 36, 40, 41, 42];

    /// The refusal that a call answered. A number that no contract allows is a fault of the archive.
    pub(crate) fn from_call(number: u32, values: &[u64; VALUES]) -> Refusal {
        let [a, b, c, ..] = *values;
        let place = || Place::from_call(&values[PLACE..]);
        match number {
            1 => Refusal::VarintShort { place: place() },
            2 => Refusal::VarintOverflow { place: place() },
            3 => Refusal::VarintNotMinimal { place: place() },
            4 => Refusal::FieldOverflow { offset: a, length: b, remaining: c, place: place() },
            5 => Refusal::WireType { wire_type: a, offset: b, place: place() },
            6 => Refusal::FieldNumber { number: a, offset: b, place: place() },
            14 => Refusal::EndGroup,
            15 => Refusal::GroupDepth,
            16 => Refusal::GroupOpen,
            7 => Refusal::Utf8 { offset: a, place: place() },
            10 => Refusal::BodyTooLarge { length: a },
            11 => Refusal::TooManyRecords { records: a },
            12 => Refusal::Room { needed: a },
            13 => Refusal::RpcTooLong { length: a },
            20 => Refusal::NoMessage { messages: a },
            21 => Refusal::MissingFrom,
            22 => Refusal::InvalidFrom { length: a },
            23 => Refusal::InvalidSeqno,
            24 => Refusal::KeyWithoutSignature,
            25 => Refusal::MissingSignature,
            26 => Refusal::SignatureLength { length: a },
            27 => Refusal::NotVerified,
            28 => Refusal::TopicCount { topics: a },
            29 => Refusal::TopicTooLong { length: a },
            30 => Refusal::MessageTooLong { length: a },
            31 => Refusal::ClockBack { clock: a },
            34 => Refusal::NotPeerId,
            35 => Refusal::InvalidKey,
            36 => Refusal::KeyPeerIdMismatch,
            40 => Refusal::BadSetting,
            41 => Refusal::BadStore,
            42 => Refusal::Malformed,
            _ => panic!("libpradulins.a answered {number}, which is no refusal"),
        }
    }

    /// The number in the table of refusals.
    pub fn number(&self) -> u32 {
        match self {
            Refusal::VarintShort { .. } => 1,
            Refusal::VarintOverflow { .. } => 2,
            Refusal::VarintNotMinimal { .. } => 3,
            Refusal::FieldOverflow { .. } => 4,
            Refusal::WireType { .. } => 5,
            Refusal::FieldNumber { .. } => 6,
            Refusal::EndGroup => 14,
            Refusal::GroupDepth => 15,
            Refusal::GroupOpen => 16,
            Refusal::Utf8 { .. } => 7,
            Refusal::BodyTooLarge { .. } => 10,
            Refusal::TooManyRecords { .. } => 11,
            Refusal::Room { .. } => 12,
            Refusal::RpcTooLong { .. } => 13,
            Refusal::NoMessage { .. } => 20,
            Refusal::MissingFrom => 21,
            Refusal::InvalidFrom { .. } => 22,
            Refusal::InvalidSeqno => 23,
            Refusal::KeyWithoutSignature => 24,
            Refusal::MissingSignature => 25,
            Refusal::SignatureLength { .. } => 26,
            Refusal::NotVerified => 27,
            Refusal::TopicCount { .. } => 28,
            Refusal::TopicTooLong { .. } => 29,
            Refusal::MessageTooLong { .. } => 30,
            Refusal::ClockBack { .. } => 31,
            Refusal::NotPeerId => 34,
            Refusal::InvalidKey => 35,
            Refusal::KeyPeerIdMismatch => 36,
            Refusal::BadSetting => 40,
            Refusal::BadStore => 41,
            Refusal::Malformed => 42,
        }
    }

    /// Where in the body it stands: of what is wrong with a body's bytes, 1 to 7. All other refusals have no place.
    pub fn place(&self) -> Option<Place> {
        match *self {
            Refusal::VarintShort { place }
            | Refusal::VarintOverflow { place }
            | Refusal::VarintNotMinimal { place }
            | Refusal::FieldOverflow { place, .. }
            | Refusal::WireType { place, .. }
            | Refusal::FieldNumber { place, .. }
            | Refusal::Utf8 { place, .. } => Some(place),
            _ => None,
        }
    }

    /// The values beside the number, in the table's order.
    pub fn values(&self) -> Vec<u64> {
        match *self {
            Refusal::FieldOverflow { offset, length, remaining, .. } => vec![offset, length, remaining],
            Refusal::WireType { wire_type, offset, .. } => vec![wire_type, offset],
            Refusal::FieldNumber { number, offset, .. } => vec![number, offset],
            Refusal::Utf8 { offset, .. } => vec![offset],
            Refusal::BodyTooLarge { length } => vec![length],
            Refusal::TooManyRecords { records } => vec![records],
            Refusal::Room { needed } => vec![needed],
            Refusal::RpcTooLong { length } => vec![length],
            Refusal::NoMessage { messages } => vec![messages],
            Refusal::InvalidFrom { length } => vec![length],
            Refusal::SignatureLength { length } => vec![length],
            Refusal::TopicCount { topics } => vec![topics],
            Refusal::TopicTooLong { length } => vec![length],
            Refusal::MessageTooLong { length } => vec![length],
            Refusal::ClockBack { clock } => vec![clock],
            Refusal::VarintShort { .. }
            | Refusal::VarintOverflow { .. }
            | Refusal::VarintNotMinimal { .. }
            | Refusal::EndGroup
            | Refusal::GroupDepth
            | Refusal::GroupOpen
            | Refusal::MissingFrom
            | Refusal::InvalidSeqno
            | Refusal::KeyWithoutSignature
            | Refusal::MissingSignature
            | Refusal::NotVerified
            | Refusal::NotPeerId
            | Refusal::InvalidKey
            | Refusal::KeyPeerIdMismatch
            | Refusal::BadSetting
            | Refusal::BadStore
            | Refusal::Malformed => vec![],
        }
    }
}

impl fmt::Display for Refusal {
    fn fmt(&self, f: &mut fmt::Formatter<'_>) -> fmt::Result {
        write!(f, "refused {}: ", self.number())?;
        match *self {
            Refusal::VarintShort { place } => write!(f, "a varint is cut short, at {place}"),
            Refusal::VarintOverflow { place } => write!(f, "a varint is above 64 bits, at {place}"),
            Refusal::VarintNotMinimal { place } => write!(f, "a varint is longer than it needs to be, at {place}"),
            Refusal::FieldOverflow { length, remaining, place, .. } => {
                write!(f, "a field of {length} bytes passes the end, {remaining} remain, at {place}")
            }
            Refusal::WireType { wire_type, place, .. } => write!(f, "wire type {wire_type}, in the tag that ends at {place}"),
            Refusal::FieldNumber { number, place, .. } => write!(f, "field number {number}, at {place}"),
            Refusal::EndGroup => write!(f, "an end tag with no open group, or of another number"),
            Refusal::GroupDepth => write!(f, "groups are more than 32 deep"),
            Refusal::GroupOpen => write!(f, "the body ends inside a group"),
            Refusal::Utf8 { place, .. } => write!(f, "a topic is not UTF-8: its length stands at {place}"),
            Refusal::BodyTooLarge { length } => write!(f, "a body of {length} bytes, above 65,536"),
            Refusal::TooManyRecords { records } => write!(f, "a body of {records} records, above 512"),
            Refusal::Room { needed } => write!(f, "the buffer is too short: {needed} are needed"),
            Refusal::RpcTooLong { length } => write!(f, "an RPC of {length} bytes, above 65,536"),
            Refusal::NoMessage { messages } => write!(f, "no message at that index: there are {messages}"),
            Refusal::MissingFrom => write!(f, "the message has no from"),
            Refusal::InvalidFrom { length } => write!(f, "from has {length} bytes, not 1 to 64"),
            Refusal::InvalidSeqno => write!(f, "seqno is missing, or has 0 or above 64 bytes"),
            Refusal::KeyWithoutSignature => write!(f, "the message has a key and no signature"),
            Refusal::MissingSignature => write!(f, "the message has no signature and no key"),
            Refusal::SignatureLength { length } => write!(f, "the signature has {length} bytes, not 64"),
            Refusal::NotVerified => write!(f, "the host did not verify the signature"),
            Refusal::TopicCount { topics } => write!(f, "the message has {topics} topics, not 1 to 4"),
            Refusal::TopicTooLong { length } => write!(f, "a topic of {length} bytes, above 1,024"),
            Refusal::MessageTooLong { length } => write!(f, "a message of {length} bytes, above 4,096"),
            Refusal::ClockBack { clock } => write!(f, "the reading is before the clock, {clock}"),
            Refusal::NotPeerId => write!(f, "the sender is no peer id"),
            Refusal::InvalidKey => write!(f, "the key does not decode"),
            Refusal::KeyPeerIdMismatch => write!(f, "the key is not the sender's, or there is none"),
            Refusal::BadSetting => write!(f, "a setting is out of range, or the seen store is too short"),
            Refusal::BadStore => write!(f, "a store has not the length that the settings say"),
            Refusal::Malformed => write!(f, "node and stores, or the rows of an RPC, are not well formed"),
        }
    }
}

impl Error for Refusal {}

#[cfg(test)]
mod tests {
    use super::*;

    /// Values as a call leaves them: four, then a place.
    const GIVEN: [u64; VALUES] = [11, 12, 13, 14, 8, 3, 4, 2];

    #[test]
    fn numbers_stay() {
        for number in Refusal::NUMBERS {
            let refusal = Refusal::from_call(number, &GIVEN);
            assert_eq!(refusal.number(), number);
            assert!(refusal.to_string().starts_with(&format!("refused {number}: ")));
        }
    }

    /// What is wrong with a body's bytes has a place, and says it; nothing else does, whatever stands in the values.
    #[test]
    fn places() {
        for number in Refusal::NUMBERS {
            let refusal = Refusal::from_call(number, &GIVEN);
            let placed = (number <= 7).then(|| Place::new(8, &[3, 4, 2]));
            assert_eq!(refusal.place(), placed);
            assert_eq!(refusal.to_string().ends_with(" at byte 8 of the body, in control, prune, peer"), placed.is_some());
            assert_eq!(refusal.to_string().contains(" byte "), placed.is_some());
            let plain = Refusal::from_call(number, &[11, 12, 13, 14, 0, 0, 0, 0]);
            assert_eq!(plain.to_string().ends_with(" at byte 0 of the body"), placed.is_some());
            assert_eq!((plain.number(), plain.values(), plain == refusal), (number, refusal.values(), placed.is_none()));
        }
    }

    #[test]
    fn words_with_a_place() {
        let words = |number, values: [u64; 4]| {
            let [a, b, c, d] = values;
            Refusal::from_call(number, &[a, b, c, d, 6, 3, 4, 0]).to_string()
        };
        assert_eq!(words(1, [0; 4]), "refused 1: a varint is cut short, at byte 6 of the body, in control, prune");
        assert_eq!(words(4, [2, 5, 0, 0]), "refused 4: a field of 5 bytes passes the end, 0 remain, at byte 6 of the body, in control, prune");
        assert_eq!(words(5, [3, 1, 0, 0]), "refused 5: wire type 3, in the tag that ends at byte 6 of the body, in control, prune");
        assert_eq!(words(6, [0; 4]), "refused 6: field number 0, at byte 6 of the body, in control, prune");
        assert_eq!(words(7, [1, 0, 0, 0]), "refused 7: a topic is not UTF-8: its length stands at byte 6 of the body, in control, prune");
    }

    #[test]
    fn values_stand_in_order() {
        for number in Refusal::NUMBERS {
            let values = Refusal::from_call(number, &GIVEN).values();
            let count = match number {
                4 => 3,
                5 | 6 => 2,
                1 | 2 | 3 | 14 | 15 | 16 | 21 | 23 | 24 | 25 | 27 | 34 | 35 | 36 | 40 | 41 | 42 => 0,
                _ => 1,
            };
            assert_eq!(values, [11, 12, 13][..count]);
        }
    }

    /// The words of refusals without values are those of the C header; behind them may stand a place.
    #[test]
    fn words_are_the_headers() {
        let header = include_str!("../../include/pradulins.h");
        let after = |start: String, end: &str| {
            let from = header.find(&start).unwrap_or_else(|| panic!("the header has no `{start}`")) + start.len();
            &header[from..from + header[from..].find(end).unwrap()]
        };
        for refusal in Refusal::NUMBERS.map(|number| Refusal::from_call(number, &[0; VALUES])) {
            if refusal.values().is_empty() {
                let number = refusal.number();
                let name = header.lines().filter_map(|line| line.strip_prefix("#define ")?.split_once(' ')).find(|(name, rest)| {
                    rest.split_whitespace().next() == Some(number.to_string().as_str()) && header.contains(&format!("case {name}: return \""))
                });
                let name = name.unwrap_or_else(|| panic!("the header has no refusal {number}")).0;
                let place = refusal.place().map_or(String::new(), |place| format!(", at {place}"));
                assert_eq!(refusal.to_string(), format!("refused {number}: {}{place}", after(format!("case {name}: return \""), "\"")));
            }
        }
    }

    #[test]
    #[should_panic(expected = "which is no refusal")]
    fn other_numbers_are_a_fault() {
        Refusal::from_call(33, &[0; VALUES]);
    }
}
