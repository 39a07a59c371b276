//! Harness: one answer line per command line. See README.md for the commands.

use crate::dump::{self, Res, hex, rpc_error, unhex, varint_error, wire_error};
use crate::gossipsub::Cache;
use crate::json::Json;
use crate::message::*;
use crate::seen::{SeenCache, message_id, seen_message_id, seen_message_id_from_wire};
use crate::value::Value;
use minip2p_core::{
    PeerId, WireError, read_len_delimited, read_string, read_tag, read_varint_value, skip_field,
    tag_byte, write_tag,
};
use minip2p_identity::{
    PeerIdError, PublicKey, PublicKeyError, read_uvarint, read_uvarint_with_remainder,
    uvarint_len, write_uvarint,
};

#[derive(Default)]
pub struct State {
    seen: SeenCache,
    cache: Option<Cache>,
}

/// The words of a command; a missing byte string at the end reads as empty.
struct Words<'a> {
    words: Vec<&'a str>,
    at: usize,
}

impl<'a> Words<'a> {
    fn bytes(&mut self) -> Res<Vec<u8>> {
        let word = self.words.get(self.at).copied().unwrap_or("-");
        self.at += 1;
        unhex(word)
    }

    fn word(&mut self) -> Res<&'a str> {
        let word = self.words.get(self.at).ok_or("bad: word missing")?;
        self.at += 1;
        Ok(word)
    }

    fn number(&mut self) -> Res<u64> {
        self.word()?
            .parse()
            .map_err(|_| String::from("bad number"))
    }

    fn size(&mut self) -> Res<usize> {
        usize::try_from(self.number()?).map_err(|_| String::from("bad number"))
    }

    fn flag(&mut self) -> Res<bool> {
        match self.number()? {
            0 => Ok(false),
            1 => Ok(true),
            _ => Err(String::from("bad flag")),
        }
    }

    fn end(&self) -> Res<()> {
        if self.at < self.words.len() {
            return Err(String::from("bad: too many words"));
        }
        Ok(())
    }
}

/// The answer to one line. `Err` carries an answer too: a refusal or `bad`.
pub fn answer(state: &mut State, line: &str) -> String {
    match run(state, line) {
        Ok(text) | Err(text) => text,
    }
}

fn run(state: &mut State, line: &str) -> Res<String> {
    if let Some(rest) = line.strip_prefix("encode ") {
        return encode(rest);
    }
    let words: Vec<&str> = line.split_ascii_whitespace().collect();
    let Some(command) = words.first().copied() else {
        return Err(String::from("bad: empty line"));
    };
    let mut w = Words { words, at: 1 };
    let ok = || Ok(String::from("ok"));
    match command {
        // --- bodies ---
        "decode" => {
            let body = w.bytes()?;
            w.end()?;
            let rpc = Rpc::decode(&body).map_err(rpc_error)?;
            let mut out = format!("ok records={} encode={} rpc=", dump::records(&rpc), hex(&rpc.encode()));
            dump::rpc(&mut out, &rpc);
            Ok(out)
        }
        "accept" => {
            let body = w.bytes()?;
            w.end()?;
            let rpc = Rpc::decode(&body).map_err(rpc_error)?;
            Ok(format!("ok records={} messages={}", dump::records(&rpc), rpc.publish.len()))
        }
        "reencode" => {
            let body = w.bytes()?;
            w.end()?;
            let rpc = Rpc::decode(&body).map_err(rpc_error)?;
            Ok(format!("ok {}", hex(&rpc.encode())))
        }
        "writes" => {
            let body = w.bytes()?;
            w.end()?;
            let rpc = Rpc::decode(&body).map_err(rpc_error)?;
            let each: Vec<String> = rpc
                .publish
                .iter()
                .map(|m| format!("{}/{}", hex(&m.sign_bytes()), id_word(m)))
                .collect();
            let messages = if each.is_empty() { String::from("none") } else { each.join(",") };
            let (records, encoded) = (dump::records(&rpc), hex(&rpc.encode()));
            Ok(format!("ok records={records} encode={encoded} messages={messages}"))
        }
        "part" => {
            let kind = w.word()?;
            let body = w.bytes()?;
            w.end()?;
            part(kind, &body)
        }
        "sign" => {
            let message = message_of(&mut w)?;
            w.end()?;
            Ok(format!("ok {}", hex(&message.sign_bytes())))
        }
        "wire" => {
            let message = message_of(&mut w)?;
            w.end()?;
            let fresh = RawMessage { raw: Vec::new(), ..message.clone() };
            Ok(format!("ok wire={} canonical={}", hex(&message.to_wire()), hex(&fresh.to_wire())))
        }
        "ids" => {
            let message = message_of(&mut w)?;
            w.end()?;
            let (from, seqno) = id_parts(&message)?;
            let wire = message_id(from, seqno);
            let signed = seen_message_id(from, seqno, true);
            assert_eq!(signed, seen_message_id_from_wire(&wire, true));
            Ok(format!(
                "ok id={} signed={} unsigned={}",
                hex(&wire),
                hex(&signed),
                hex(&seen_message_id(from, seqno, false))
            ))
        }

        "verify" => {
            let message = message_of(&mut w)?;
            let allow_unsigned = w.flag()?;
            w.end()?;
            match message.verify(allow_unsigned) {
                Ok((from, seqno, signed)) => Ok(format!(
                    "ok {} {} {}",
                    hex(&from.to_bytes()),
                    hex(&seqno),
                    u8::from(signed)
                )),
                Err(error) => Err(format!("err {error:?}")),
            }
        }
        "word" => {
            let word = w.flag()?;
            w.end()?;
            ed25519_dalek::set_word(word);
            ok()
        }

        // --- varints, text, fields ---
        "uvarint" => {
            let input = w.bytes()?;
            w.end()?;
            let (value, used) = read_uvarint(&input).map_err(varint_error)?;
            let (again, rest) = read_uvarint_with_remainder(&input).map_err(varint_error)?;
            assert!(again == value && rest.len() + used == input.len());
            Ok(format!("ok {value} {used}"))
        }
        "write_uvarint" => {
            let value = w.number()?;
            w.end()?;
            let mut out = Vec::new();
            write_uvarint(value, &mut out);
            Ok(format!("ok {}", hex(&out)))
        }
        "uvarint_len" => {
            let value = w.number()?;
            w.end()?;
            Ok(format!("ok {}", uvarint_len(value)))
        }
        "utf8" => {
            let input = w.bytes()?;
            w.end()?;
            match core::str::from_utf8(&input) {
                Ok(_) => ok(),
                Err(_) => Err(String::from("no")),
            }
        }
        "walk" => {
            let body = w.bytes()?;
            let mut idx = w.size()?;
            w.end()?;
            match step(&body, &mut idx).map_err(wire_error)? {
                None => Ok(String::from("end")),
                Some((field, wire, tag_end)) => {
                    Ok(format!("field {field} wire {wire} tag_end {tag_end} next {idx}"))
                }
            }
        }
        "walkall" => {
            let body = w.bytes()?;
            w.end()?;
            let mut out = String::from("fields");
            let mut idx = 0;
            loop {
                let start = idx;
                match step(&body, &mut idx) {
                    Ok(None) => return Ok(out + " end"),
                    Ok(Some((field, wire, tag_end))) => {
                        out += &format!(" {field}:{wire}:{start}:{tag_end}:{idx}");
                    }
                    Err(error) => return Ok(out + " " + &wire_error(error)),
                }
            }
        }
        "read_tag" => at(&mut w, |body, idx| {
            Ok(match read_tag(body, idx)? {
                None => String::from("end"),
                Some((field, wire)) => format!("ok {field} {wire} {idx}"),
            })
        }),
        "read_len" => at(&mut w, |body, idx| {
            let bytes = hex(read_len_delimited(body, idx)?);
            Ok(format!("ok {bytes} {idx}"))
        }),
        "read_string" => at(&mut w, |body, idx| {
            let text = hex(read_string(body, idx)?.as_bytes());
            Ok(format!("ok {text} {idx}"))
        }),
        "read_varint" => at(&mut w, |body, idx| {
            let value = read_varint_value(body, idx)?;
            Ok(format!("ok {value} {idx}"))
        }),
        "skip" => {
            let body = w.bytes()?;
            let mut idx = w.size()?;
            let wire = u8::try_from(w.number()?).map_err(|_| "bad number")?;
            w.end()?;
            skip_field(&body, &mut idx, wire).map_err(wire_error)?;
            Ok(format!("ok {idx}"))
        }
        "tag" => {
            let field = w.number()?;
            let wire = u8::try_from(w.number()?).map_err(|_| "bad number")?;
            w.end()?;
            let mut out = Vec::new();
            write_tag(&mut out, field, wire);
            let byte = u8::try_from(field).ok().and_then(|f| tag_byte(f, wire));
            assert!(byte.is_none_or(|b| out == [b]));
            Ok(format!("ok {}", hex(&out)))
        }

        // --- seen ---
        "seen_new" => {
            w.end()?;
            state.seen = SeenCache::default();
            ok()
        }
        "seen_insert" => {
            let (id, now, ttl, max) = (w.bytes()?, w.number()?, w.number()?, w.size()?);
            w.end()?;
            let fresh = state.seen.insert(id, now, ttl, max);
            Ok(String::from(if fresh { "fresh" } else { "held" }))
        }
        "seen_gc" => {
            let now = w.number()?;
            w.end()?;
            state.seen.gc(now);
            ok()
        }
        "seen_contains" => {
            let id = w.bytes()?;
            w.end()?;
            Ok(String::from(if state.seen.contains(&id) { "yes" } else { "no" }))
        }
        "seen_next_expiry" => {
            w.end()?;
            Ok(match state.seen.next_expiry() {
                Some(at) => format!("some {at}"),
                None => String::from("none"),
            })
        }
        "seen_dump" => {
            w.end()?;
            seen_dump(&state.seen)
        }

        // --- message cache ---
        "mc_new" => {
            let (history_len, max) = (w.size()?, w.size()?);
            let arrival = if w.words.len() > 3 { Some(w.number()?) } else { None };
            w.end()?;
            state.cache = Some(Cache::new(history_len, max, arrival));
            ok()
        }
        "mc_put" => {
            let message = message_of(&mut w)?;
            w.end()?;
            let (from, seqno) = id_parts(&message)?;
            let id = message_id(from, seqno);
            let topics = message.topic_ids.clone();
            let text = hex(&id);
            cache(state)?.put(id, message, topics);
            Ok(format!("ok {text}"))
        }
        "mc_put_raw" => {
            let (id, raw) = (w.bytes()?, w.bytes()?);
            let mut topics = Vec::new();
            while w.at < w.words.len() {
                topics.push(String::from_utf8(w.bytes()?).map_err(|_| "bad topic utf8")?);
            }
            let message = RawMessage { raw, ..RawMessage::default() };
            cache(state)?.put(id, message, topics);
            ok()
        }
        "mc_shift" => {
            w.end()?;
            cache(state)?.shift();
            ok()
        }
        "mc_get" => {
            let id = w.bytes()?;
            w.end()?;
            Ok(match cache(state)?.get(&id) {
                Some(message) => format!("some {}", hex(&message.to_wire())),
                None => String::from("none"),
            })
        }
        "mc_gossip" => {
            let topic = String::from_utf8(w.bytes()?).map_err(|_| "bad topic utf8")?;
            let windows = w.size()?;
            w.end()?;
            let ids = cache(state)?.gossip_ids(&topic, windows);
            let mut out = format!("ok {}", ids.len());
            for id in ids {
                out += " ";
                out += &hex(&id);
            }
            Ok(out)
        }
        "mc_dump" => {
            w.end()?;
            cache(state)?.dump()
        }

        // --- identity ---
        "key" => {
            let input = w.bytes()?;
            w.end()?;
            let key = PublicKey::decode_protobuf(&input).map_err(key_error)?;
            Ok(format!(
                "ok {:?} {} encode={}",
                key.key_type(),
                hex(key.data()),
                hex(&key.encode_protobuf())
            ))
        }
        "peerid" => {
            let input = w.bytes()?;
            w.end()?;
            peer_answer(PeerId::from_bytes(&input))
        }

        "about" => Ok(format!("ok {}", env!("ORACLE_SOURCES"))),
        _ => Err(String::from("bad: unknown command")),
    }
}

/// HEX INDEX: the message at that index of the decoded body.
fn message_of(w: &mut Words) -> Res<RawMessage> {
    let body = w.bytes()?;
    let index = w.size()?;
    let mut rpc = Rpc::decode(&body).map_err(rpc_error)?;
    if index >= rpc.publish.len() {
        return Err(format!("noindex {}", rpc.publish.len()));
    }
    Ok(rpc.publish.swap_remove(index))
}

fn id_parts(message: &RawMessage) -> Res<(&[u8], &[u8])> {
    let from = message.from.as_deref().ok_or("nofrom")?;
    let seqno = message.seqno.as_deref().ok_or("noseqno")?;
    Ok((from, seqno))
}

/// `nofrom`, `LENGTH:noseqno` or `LENGTH:ID`, the length being that of `from`.
/// `source_and_seqno` judges the seqno, in a copy whose `from` is a peer id.
fn id_word(message: &RawMessage) -> String {
    let Some(from) = message.from.as_deref() else {
        assert!(matches!(message.source_and_seqno(), Err(MessageVerifyError::MissingFrom)));
        return String::from("nofrom");
    };
    let named = RawMessage { from: Some(vec![0, 0]), ..message.clone() };
    match named.source_and_seqno() {
        Ok((_, seqno)) => format!("{}:{}", from.len(), hex(&message_id(from, &seqno))),
        Err(MessageVerifyError::InvalidSeqno) => format!("{}:noseqno", from.len()),
        Err(error) => panic!("{error:?}"),
    }
}

fn cache(state: &mut State) -> Res<&mut Cache> {
    state.cache.as_mut().ok_or_else(|| String::from("bad: no mc_new yet"))
}

/// `read_tag` and `skip_field` once: field, wire type, place after the tag.
fn step(body: &[u8], idx: &mut usize) -> Result<Option<(u64, u8, usize)>, WireError> {
    let Some((field, wire)) = read_tag(body, idx)? else {
        return Ok(None);
    };
    let tag_end = *idx;
    skip_field(body, idx, wire)?;
    Ok(Some((field, wire, tag_end)))
}

/// HEX PLACE: one reader of protobuf.rs at that place.
fn at(
    w: &mut Words,
    read: impl Fn(&[u8], &mut usize) -> Result<String, WireError>,
) -> Res<String> {
    let body = w.bytes()?;
    let mut idx = w.size()?;
    w.end()?;
    read(&body, &mut idx).map_err(wire_error)
}

fn part(kind: &str, body: &[u8]) -> Res<String> {
    macro_rules! one {
        ($ty:ident, $write:path, $encode:ident) => {{
            let value = $ty::decode(body).map_err(rpc_error)?;
            let mut out = format!("ok encode={} part=", hex(&value.$encode()));
            $write(&mut out, &value);
            Ok(out)
        }};
    }
    match kind {
        "subopts" => one!(SubOpts, dump::sub, encode),
        "message" => one!(RawMessage, dump::message, to_wire),
        "control" => one!(ControlMessage, dump::control, encode),
        "ihave" => one!(ControlIHave, dump::ihave, encode),
        "iwant" => one!(ControlIWant, dump::iwant, encode),
        "graft" => one!(ControlGraft, dump::graft, encode),
        "prune" => one!(ControlPrune, dump::prune, encode),
        "peer" => one!(PeerInfo, dump::peer, encode),
        _ => Err(String::from("bad part")),
    }
}

fn encode(text: &str) -> Res<String> {
    let rpc = dump::to_rpc(&Json::parse(text)?)?;
    let signs: Vec<String> = rpc.publish.iter().map(|m| hex(&m.sign_bytes())).collect();
    let signs = if signs.is_empty() { String::from("none") } else { signs.join(",") };
    Ok(format!("ok records={} encode={} sign={signs}", dump::records(&rpc), hex(&rpc.encode())))
}

fn seen_dump(seen: &SeenCache) -> Res<String> {
    let v = Value::of(seen);
    let ids: Vec<Vec<u8>> = v.field("ids").list().iter().map(Value::bytes).collect();
    let mut held = Vec::new();
    let order = v.field("order").list();
    let mut out = format!("ok {}", order.len());
    for entry in order {
        let id = entry.list()[1].bytes();
        out += &format!(" {}:{}", entry.list()[0].number(), hex(&id));
        held.push(id);
    }
    held.sort();
    if held != ids {
        return Err(String::from("err ids and order differ"));
    }
    Ok(out)
}

fn key_error(error: PublicKeyError) -> String {
    match error {
        PublicKeyError::EmptyInput => String::from("err EmptyInput"),
        PublicKeyError::InvalidFieldTag { expected, found } => match found {
            Some(found) => format!("err InvalidFieldTag {expected} {found}"),
            None => format!("err InvalidFieldTag {expected} none"),
        },
        PublicKeyError::Varint(error) => {
            format!("err Varint {}", &varint_error(error)["err ".len()..])
        }
        PublicKeyError::UnknownKeyType(value) => format!("err UnknownKeyType {value}"),
        PublicKeyError::LengthOverflow => String::from("err LengthOverflow"),
        PublicKeyError::InvalidLength {
            expected_total,
            actual_total,
        } => format!("err InvalidLength {expected_total} {actual_total}"),
    }
}

fn peer_answer(result: Result<PeerId, PeerIdError>) -> Res<String> {
    match result {
        Ok(peer) => Ok(format!(
            "ok {} {} bytes={}",
            peer.multihash().code(),
            hex(peer.digest_bytes()),
            hex(&peer.to_bytes())
        )),
        Err(PeerIdError::InvalidMultihash(text)) => Err(format!("err InvalidMultihash {text}")),
        Err(PeerIdError::InvalidSha256DigestLength { actual }) => {
            Err(format!("err InvalidSha256DigestLength {actual}"))
        }
        Err(PeerIdError::InvalidIdentityDigestLength { actual }) => {
            Err(format!("err InvalidIdentityDigestLength {actual}"))
        }
        Err(PeerIdError::UnsupportedMultihashCode(code)) => {
            Err(format!("err UnsupportedMultihashCode {code}"))
        }
        Err(other) => Err(format!("err {other:?}")),
    }
}
