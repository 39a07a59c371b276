//! Notices: bodies with one message each. Key and signature are stand-ins, to show where a host's own stand: anybody can make them.

use pradulins::{decode, sign_bytes, Draft, Edition, Message, Record, Refusal, Rpc};

/// What all links of the story speak. A host asks its stream, by the protocol that both sides agreed on.
pub const EDITION: Edition = Edition::V1_2;

/// 64 bytes over what is to be signed. A host signs with its key instead.
fn stand_in(signed: &[u8]) -> [u8; 64] {
    let mut state: u64 = 0x9e37_79b9_7f4a_7c15;
    let mut out = [0; 64];
    for (i, byte) in signed.iter().chain(&[0; 64]).enumerate() {
        state = (state ^ u64::from(*byte)).wrapping_mul(0x0100_0000_01b3).rotate_left(23);
        out[i % 64] ^= (state >> 32) as u8;
    }
    out
}

/// The public key of a site. A host has the one that belongs to its secret key instead.
fn key_of(site: &str) -> [u8; 32] {
    let mut key = [0; 32];
    key[..site.len()].copy_from_slice(site.as_bytes());
    key
}

/// The peer id of an Ed25519 key. It holds the key: 00 and the length of the rest, 36; then the key as libp2p writes it, which is its type, 1 for Ed25519, its
/// length, 32, and its bytes.
fn peer_id(key: [u8; 32]) -> [u8; 38] {
    let mut id = [0; 38];
    id[..6].copy_from_slice(&[0x00, 36, 0x08, 1, 0x12, 32]);
    id[6..].copy_from_slice(&key);
    id
}

/// The peer id by which a site is known as the sender of its notices.
pub fn sender(site: &str) -> [u8; 38] {
    peer_id(key_of(site))
}

/// What a site says, and a notice of its own behind it, signed.
pub fn said_with(rpc: Rpc, site: &str, seqno: u64, topic: &str, data: &[u8]) -> Result<Vec<u8>, Refusal> {
    let (from, seqno) = (sender(site), seqno.to_be_bytes());
    let draft = Draft { from: &from, seqno: &seqno, data: Some(data), topics: &[topic], key: None };
    let signature = stand_in(&draft.sign_fields()?);
    rpc.publish(&draft, &signature).write()
}

/// A body with one message of a site, signed.
pub fn notice(site: &str, seqno: u64, topic: &str, data: &[u8]) -> Result<Vec<u8>, Refusal> {
    said_with(Rpc::new(), site, seqno, topic, data)
}

/// The host's word on a message of a body: whether its signature is right. A host verifies it with the key in the sender's peer id; or, where that is a hash,
/// with the message's own key, and tests that the key has this hash.
pub fn verified(body: &[u8], message: &Message) -> Result<bool, Refusal> {
    Ok(message.signature == Some(&stand_in(&sign_bytes(EDITION, body, message.index)?)[..]))
}

/// The ids that a body names.
pub fn ids(body: &[u8]) -> Result<Vec<&[u8]>, Refusal> {
    let id = |record| if let Record::MessageId(id) = record { Some(id) } else { None };
    Ok(decode(EDITION, body)?.records.into_iter().filter_map(id).collect())
}

/// A field with a length before it; of up to 16,383 bytes.
fn field(number: u8, content: &[u8]) -> Vec<u8> {
    let length = match content.len() {
        size @ 0..=127 => vec![size as u8],
        size => vec![size as u8 | 128, (size >> 7) as u8],
    };
    [&[number << 3 | 2], &length[..], content].concat()
}

/// A body that says which notices are not wanted: a control, in it one IDONTWANT with their ids.
pub fn unwanted(ids: &[&[u8]]) -> Vec<u8> {
    let ids: Vec<Vec<u8>> = ids.iter().map(|id| field(1, id)).collect();
    field(3, &field(5, &ids.concat()))
}
