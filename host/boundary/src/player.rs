//! Plays the records of the programs `inspect`, `trace`, `states` and `why` through the crate, and prints their lines; where the crate does not have the
//! call, or has no records for its rows or no word for its flags, the record's number and `-`. In `trace` and `why` the gateway is saved and loaded again before each call. In `states` it is made before each call
//! of bytes that nothing has tested, since a damaged state would not be loaded.

use crate::rows::lists;
use pradulins::{decode, message_id, reencode, sign_bytes, sign_fields, sign_fields_into, walk_from, write_rpc, write_rpc_into};
use pradulins::{Admitted, Dialect, Edition, Gateway, Offer, Record, Refusal, Rpc, Settings, CACHE_PLACE, MAX_BODY, NODE_SIZE, SEEN_ROW};
use std::fmt::Write as _;
use std::io::{Result, Write};

fn hex(bytes: &[u8]) -> String {
    bytes.iter().fold(String::new(), |mut text, byte| {
        let _ = write!(text, "{byte:02x}");
        text
    })
}

fn number(bytes: &[u8]) -> u64 {
    bytes.iter().rev().fold(0, |v, byte| v << 8 | u64::from(*byte))
}

fn shown(bytes: Option<&[u8]>) -> String {
    bytes.map_or("-".to_string(), |bytes| format!("={}", hex(bytes)))
}

fn refused(refusal: Refusal, full: bool) -> String {
    let mut text = format!("refused {}", refusal.number());
    for value in refusal.values().iter().filter(|_| full) {
        let _ = write!(text, " {value}");
    }
    if let Some(place) = refusal.place().filter(|_| full) {
        let _ = write!(text, " at {}", place.offset());
        for (n, field) in place.fields().iter().enumerate() {
            let _ = write!(text, "{} {field}", if n == 0 { " in" } else { "" });
        }
    }
    text
}

fn made(bytes: &[u8]) -> String {
    if bytes.is_empty() {
        return "0".to_string();
    }
    format!("{} {}", bytes.len(), hex(bytes))
}

/// What a call says: its answer, or the refusal.
fn said(answer: std::result::Result<String, Refusal>, full: bool) -> String {
    answer.unwrap_or_else(|refusal| refused(refusal, full))
}

fn record(record: &Record) -> String {
    let text = |topic: &Option<&str>| shown(topic.map(str::as_bytes));
    match record {
        Record::SubOpts { subscribe, topic_id } => {
            format!("sub {} {}", subscribe.map_or("-".to_string(), |s| u8::from(s).to_string()), text(topic_id))
        }
        Record::Message { raw, from, data, seqno, signature, key } => {
            let fields: Vec<String> = [from, data, seqno, signature, key].iter().map(|field| shown(**field)).collect();
            format!("message {} {}", shown(Some(raw)), fields.join(" "))
        }
        Record::Topic(topic) => format!("topic {}", shown(Some(topic.as_bytes()))),
        Record::IHave { topic_id } => format!("ihave {}", text(topic_id)),
        Record::IWant => "iwant".to_string(),
        Record::MessageId(id) => format!("id {}", shown(Some(id))),
        Record::Graft { topic_id } => format!("graft {}", text(topic_id)),
        Record::Prune { topic_id, backoff } => format!("prune {} {}", text(topic_id), backoff.map_or("-".to_string(), |b| b.to_string())),
        Record::PeerInfo { peer_id, signed_peer_record } => format!("peer {} {}", shown(*peer_id), shown(*signed_peer_record)),
        Record::IDontWant => "idontwant".to_string(),
    }
}

/// Whether each message among the records has a signature: it is then written alike where unsigned messages are allowed.
fn all_signed(records: &[Record]) -> bool {
    records.iter().all(|record| !matches!(record, Record::Message { signature: None, .. }))
}

/// A call on rows, by the crate's records: what it writes into the room that is lent. The same without a lent buffer has room for all.
fn on_rows(records: &[Record], room: usize, index: Option<usize>) -> std::result::Result<String, Refusal> {
    let mut out = vec![7; 65600];
    let (answer, whole) = match index {
        None => (write_rpc_into(records, &mut out[..room]), write_rpc(records)),
        Some(index) => (sign_fields_into(records, index, &mut out[..room]), sign_fields(records, index)),
    };
    if index.is_none() && all_signed(records) {
        assert!(records.iter().fold(Rpc::new().allow_unsigned(true), |rpc, record| rpc.push(*record)).write() == whole);
    }
    match &answer {
        Ok(count) => assert!(whole.is_ok_and(|bytes| bytes == out[..*count]) && out[*count..].iter().all(|byte| *byte == 7)),
        Err(refusal) => {
            let needed = whole.map(|bytes| Refusal::Room { needed: bytes.len() as u64 }).unwrap_or_else(|refusal| refusal);
            assert!(*refusal == needed && out.iter().all(|byte| *byte == 7));
        }
    }
    answer.map(|count| made(&out[..count]))
}

/// The edition that a number names, and what stands behind it; an error where it names none.
fn in_edition(content: &[u8]) -> std::result::Result<(Edition, &[u8]), ()> {
    match content.split_first() {
        Some((0, rest)) => Ok((Edition::V1_1, rest)),
        Some((1, rest)) => Ok((Edition::V1_2, rest)),
        _ => Err(()),
    }
}

/// The same of a dialect: an edition, and whether groups are skipped.
fn in_dialect(content: &[u8]) -> std::result::Result<(Dialect, &[u8]), ()> {
    let (number, rest) = content.split_first().ok_or(())?;
    if *number > 3 {
        return Err(());
    }
    let edition = if number & 1 == 0 { Edition::V1_1 } else { Edition::V1_2 };
    Ok((Dialect { edition, skip_groups: number & 2 != 0 }, rest))
}

/// The line of a call on a body; an error where the record ends the run. Kinds 21 to 25 are 1 to 5 with a dialect before their content.
fn inspect(kind: u64, content: &[u8], n: u64) -> std::result::Result<String, ()> {
    if (21..=25).contains(&kind) {
        let (dialect, content) = in_dialect(content)?;
        return inspect_in(dialect, kind - 20, content, n);
    }
    inspect_in(Edition::V1_1.into(), kind, content, n)
}

fn inspect_in(dialect: Dialect, kind: u64, content: &[u8], n: u64) -> std::result::Result<String, ()> {
    let indexed = |least| if content.len() < least { Err(()) } else { Ok(content.split_at(least)) };
    let line = match kind {
        1 => {
            let mut lines = String::new();
            let answer = decode(dialect, content).map(|decoded| {
                for one in &decoded.records {
                    let _ = write!(lines, "\n  {}", record(one));
                }
                format!("ok {} {}", decoded.records.len(), if decoded.control { "control" } else { "plain" })
            });
            format!("{n} decode {}{lines}", said(answer, true))
        }
        2 => format!("{n} encode {}", said(reencode(dialect, content).map(|bytes| made(&bytes)), true)),
        3 => {
            let (index, body) = indexed(2)?;
            format!("{n} sign {}", said(sign_bytes(dialect, body, number(index) as usize).map(|bytes| made(&bytes)), true))
        }
        4 => {
            let (index, body) = indexed(2)?;
            format!("{n} id {}", said(message_id(dialect, body, number(index) as usize).map(|bytes| made(&bytes)), true))
        }
        5 => {
            let (place, body) = indexed(8)?;
            let field = walk_from(dialect, body, number(place) as usize).next();
            let answer = field
                .map_or(Ok("end".to_string()), |field| field.map(|f| format!("{} {} {} {}", f.number, f.wire_type, f.end - f.bytes.len(), f.end)));
            format!("{n} walk {}", said(answer, true))
        }
        6..=9 => format!("{n} -"),
        10 | 11 => {
            let (index, content) = indexed(if kind == 10 { 0 } else { 2 })?;
            let lists = lists(content).ok_or(())?;
            match lists.records() {
                Some(records) if kind == 10 => format!("{n} write {}", said(on_rows(&records, lists.room, None), true)),
                Some(records) => format!("{n} tosign {}", said(on_rows(&records, lists.room, Some(number(index) as usize)), true)),
                None => format!("{n} -"),
            }
        }
        _ => return Err(()),
    };
    Ok(line)
}

/// The settings of a record, for a program that keeps at most so many messages. Behind them may stand flags, 0 to 3.
fn start(content: &[u8], most: usize) -> std::result::Result<Gateway, Refusal> {
    let flags = number(&content[14..]);
    let settings = Settings {
        ttl: number(&content[..8]),
        max_seen: number(&content[8..10]) as usize,
        history_len: number(&content[10..12]) as usize,
        max_messages: number(&content[12..14]) as usize,
        allow_unsigned: flags & 1 != 0,
        skip_groups: flags & 2 != 0,
    };
    if settings.max_messages > most {
        return Err(Refusal::BadSetting);
    }
    Gateway::start(settings)
}

/// Windows, id and topic of a question; nothing where the record is none.
fn question(content: &[u8]) -> Option<(usize, &[u8], &[u8])> {
    let rest = content.get(4..)?;
    let size = number(&content[2..4]) as usize;
    Some((number(&content[..2]) as usize, rest.get(..size)?, rest.get(size..)?))
}

/// What is said of an id.
fn why(gateway: &Gateway, windows: usize, id: &[u8], topic: &[u8]) -> std::result::Result<String, Refusal> {
    Ok(match gateway.explain(id, topic, windows)? {
        Offer::Listed => "listed".to_string(),
        Offer::NotCached => "missing".to_string(),
        Offer::WithoutTopic => "topic".to_string(),
        Offer::OlderWindow { age } => format!("window {age}"),
    })
}

/// The gateway of a node's bytes and its stores, if these are as long as its maxima say and all is well formed.
fn given(node: &[u8], stores: &[u8]) -> std::result::Result<Gateway, Refusal> {
    let size = |at: usize, row: usize| usize::try_from(number(&node[at..at + 8])).ok()?.checked_mul(row);
    let (seen, cache) = size(8, SEEN_ROW).zip(size(48, CACHE_PLACE)).ok_or(Refusal::BadStore)?;
    if seen.checked_add(cache) != Some(stores.len()) {
        return Err(Refusal::BadStore);
    }
    let mut own = Box::new([0; NODE_SIZE]);
    own.copy_from_slice(node);
    let gateway = Gateway::from_parts(own, stores[..seen].to_vec(), stores[seen..].to_vec());
    gateway.advertise(b"", 0)?; // tests the state, as each call does
    Ok(gateway)
}

/// The program `why`: a trace, and two kinds more.
fn asked(kind: u64, content: &[u8], n: u64, gateway: &mut Option<Gateway>) -> std::result::Result<String, ()> {
    match kind {
        12 => {
            let saved = gateway.as_ref().ok_or(())?.save();
            let (windows, id, topic) = question(content).ok_or(())?;
            Ok(format!("{n} why {}", said(why(&Gateway::load(&saved).map_err(|_| ())?, windows, id, topic), false)))
        }
        13 if content.len() >= NODE_SIZE => {
            let (node, stores) = content.split_at(NODE_SIZE);
            let answer = given(node, stores).map(|one| {
                *gateway = Some(one);
                "ok".to_string()
            });
            Ok(format!("{n} gateway {}", said(answer, false)))
        }
        13 => Err(()),
        _ => trace(kind, content, n, gateway),
    }
}

/// A call on a gateway.
fn trace(kind: u64, content: &[u8], n: u64, gateway: &mut Option<Gateway>) -> std::result::Result<String, ()> {
    if kind == 1 {
        if content.len() != 14 {
            return Err(());
        }
        let answer = start(content, 8).map(|fresh| {
            *gateway = Some(fresh);
            "ok".to_string()
        });
        return Ok(format!("{n} set {}", said(answer, false)));
    }
    let saved = gateway.as_ref().ok_or(())?.save();
    let mut node = Gateway::load(&saved).map_err(|_| ())?;
    let line = match kind {
        2 if content.len() >= 11 && content[10] <= 1 => {
            let admitted = node.admit(Edition::V1_1, &content[11..], number(&content[8..10]) as usize, content[10] == 1, number(&content[..8]));
            let word = |admitted| if admitted == Admitted::New { "new" } else { "dup" };
            format!("{n} admit {}", said(admitted.map(|a| word(a).to_string()), false))
        }
        3 if content.len() == 8 => format!("{n} beat {}", said(node.heartbeat(number(content)).map(|()| "ok".to_string()), false)),
        4 if content.len() >= 2 => {
            format!("{n} advertise {}", said(node.advertise(&content[2..], number(&content[..2]) as usize).map(|b| made(&b)), false))
        }
        5 => format!("{n} ask {}", said(node.ask(Edition::V1_1, content).map(|bytes| made(&bytes)), false)),
        6 => {
            let reply = node.serve(Edition::V1_1, content).map(|reply| format!("{} {} {}", made(&reply.body), reply.messages, reply.left));
            format!("{n} serve {}", said(reply, false))
        }
        _ => return Err(()),
    };
    *gateway = Some(node);
    Ok(line)
}

/// The state of a run of `states`: a node and its stores, how much of each store is lent, and the buffer.
struct States {
    node: Box<[u8; NODE_SIZE]>,
    seen: Vec<u8>,
    cache: Vec<u8>,
    lent: [usize; 2],
    made: Vec<u8>,
}

impl States {
    fn new() -> States {
        let mut states = States { node: Box::new([0; NODE_SIZE]), seen: vec![0; 33282], cache: vec![0; 266240], lent: [0, 0], made: vec![0; 65600] };
        if let Ok(fresh) = Gateway::start(Settings { ttl: 0, max_seen: 0, history_len: 1, max_messages: 0, allow_unsigned: false, skip_groups: false }) {
            states.save(&fresh);
        }
        states
    }

    /// The gateway of the bytes as they stand.
    fn gateway(&self) -> Gateway {
        Gateway::from_parts(self.node.clone(), self.seen[..self.lent[0]].to_vec(), self.cache[..self.lent[1]].to_vec())
    }

    fn save(&mut self, gateway: &Gateway) {
        let (node, seen, cache) = gateway.parts();
        self.node.copy_from_slice(node);
        self.seen[..seen.len()].copy_from_slice(seen);
        self.cache[..cache.len()].copy_from_slice(cache);
    }

    fn set(&mut self, content: &[u8]) -> std::result::Result<String, Refusal> {
        let fresh = start(content, 65535)?;
        let settings = fresh.settings();
        self.lent = [settings.max_seen * 129, settings.max_messages * 4096];
        self.node.copy_from_slice(fresh.parts().0);
        Ok("ok".to_string())
    }

    fn admit(&mut self, edition: Edition, content: &[u8]) -> std::result::Result<String, Refusal> {
        let mut gateway = self.gateway();
        let admitted = gateway.admit(edition, &content[11..], number(&content[8..10]) as usize, content[10] == 1, number(&content[..8]))?;
        self.save(&gateway);
        Ok(if admitted == Admitted::New { "new" } else { "dup" }.to_string())
    }

    fn beat(&mut self, content: &[u8]) -> std::result::Result<String, Refusal> {
        let mut gateway = self.gateway();
        gateway.heartbeat(number(content))?;
        self.save(&gateway);
        Ok("ok".to_string())
    }

    fn advertise(&mut self, content: &[u8], room: usize) -> std::result::Result<String, Refusal> {
        let count = self.gateway().advertise_into(&content[2..], number(&content[..2]) as usize, &mut self.made[..room])?;
        Ok(made(&self.made[..count]))
    }

    fn ask(&mut self, edition: Edition, body: &[u8], room: usize) -> std::result::Result<String, Refusal> {
        let count = self.gateway().ask_into(edition, body, &mut self.made[..room])?;
        Ok(made(&self.made[..count]))
    }

    fn serve(&mut self, edition: Edition, body: &[u8], unwanted: &[u8], room: usize) -> std::result::Result<String, Refusal> {
        let gateway = self.gateway();
        let served = gateway.serve_without_into(edition, body, unwanted, &mut self.made[..room])?;
        if room == MAX_BODY {
            let reply = gateway.serve_without(edition, body, unwanted)?;
            assert!(reply.body == self.made[..served.bytes] && (reply.messages, reply.left) == (served.messages, served.left));
            assert!(!unwanted.is_empty() || gateway.serve(edition, body)? == reply);
        }
        Ok(format!("{} {} {}", made(&self.made[..served.bytes]), served.messages, served.left))
    }

    /// Kinds 22, 25 and 26: an edition, and then what 2, 5 and 6 have; of the last the lent body stands between room and body, with its length before it.
    fn in_edition(&mut self, kind: u64, content: &[u8], n: u64) -> std::result::Result<String, ()> {
        let (edition, content) = in_edition(content)?;
        if kind == 22 {
            return if content.len() < 11 { Err(()) } else { Ok(format!("{n} admit {}", said(self.admit(edition, content), true))) };
        }
        let room = number(content.get(..4).ok_or(())?) as usize;
        if room > self.made.len() {
            return Err(());
        }
        let body = &content[4..];
        if kind == 25 {
            return Ok(format!("{n} ask {}", said(self.ask(edition, body, room), true)));
        }
        let size = number(body.get(..4).ok_or(())?) as usize;
        let unwanted = body[4..].get(..size).ok_or(())?;
        Ok(format!("{n} serve {}", said(self.serve(edition, &body[4 + size..], unwanted, room), true)))
    }

    /// Sets a number of the node or a byte of a store, as the C player does.
    fn hurt(&mut self, what: u8, p: usize, value: u64) {
        const HEAD: [usize; 12] = [0, 8, 16, 24, 32, 0, 0, 40, 48, 56, 64, 72];
        let (at, len) = match what {
            17 | 18 => {
                let i = usize::from(what - 17);
                let store = if i == 0 { &mut self.seen } else { &mut self.cache };
                if p < self.lent[i] {
                    store[p] = value as u8;
                }
                return;
            }
            5 | 6 if p >= 256 => return,
            5 => (80 + p * 8, 8),
            6 => (2768 + p, 1),
            0..=11 => (HEAD[usize::from(what)], 8),
            12 => (2128 + p % 64 * 8, 8),
            13 => (3024 + p % 64, 1),
            14 => (2640 + p % 64 * 2, 2),
            15 => (3088 + p % 64, 1),
            19 => (11344 + p % 64, 1),
            20 => (11408 + p % 256 * 2, 2),
            21 => (11920 + p % 256 * 2, 2),
            22 => (12432, 8),
            _ => (3152 + p % 8192, 1),
        };
        self.node[at..at + len].copy_from_slice(&value.to_le_bytes()[..len]);
    }

    fn told(&self) -> String {
        let sum = |bytes: &[u8]| {
            let sums = bytes.iter().fold((0u64, 0u64), |(front, total), byte| {
                let front = front.wrapping_add(u64::from(*byte));
                (front, total.wrapping_add(front))
            });
            sums.1
        };
        let mut numbers: Vec<u64> = [16, 24, 32, 64, 72, 56].iter().map(|at| number(&self.node[*at..*at + 8])).collect();
        numbers.extend([sum(&self.seen[..self.lent[0]]), sum(&self.cache[..self.lent[1]]), sum(&self.made)]);
        numbers.iter().map(u64::to_string).collect::<Vec<_>>().join(" ")
    }

    /// The line of a record; `-` for the parts of a node alone, which the crate does not have.
    fn line(&mut self, kind: u64, content: &[u8], n: u64) -> std::result::Result<String, ()> {
        let room = if content.len() < 4 { 0 } else { number(&content[..4]) as usize };
        let line = match kind {
            1 if content.len() == 14 => format!("{n} set {}", said(self.set(content), true)),
            2 if content.len() >= 11 => format!("{n} admit {}", said(self.admit(Edition::V1_1, content), true)),
            3 if content.len() == 8 => format!("{n} beat {}", said(self.beat(content), true)),
            4 if content.len() >= 6 && room <= 65600 => format!("{n} advertise {}", said(self.advertise(&content[4..], room), true)),
            5 if content.len() >= 4 && room <= 65600 => format!("{n} ask {}", said(self.ask(Edition::V1_1, &content[4..], room), true)),
            6 if content.len() >= 4 && room <= 65600 => format!("{n} serve {}", said(self.serve(Edition::V1_1, &content[4..], &[], room), true)),
            7 if content.len() == 8 && room <= self.seen.len() && number(&content[4..]) as usize <= self.cache.len() => {
                self.lent = [room, number(&content[4..]) as usize];
                format!("{n} lend ok")
            }
            8 if content.len() == 13 => {
                self.hurt(content[0], number(&content[1..5]) as usize, number(&content[5..]));
                format!("{n} hurt ok")
            }
            9 | 10 => format!("{n} -"),
            11 => format!("{n} state {}", self.told()),
            12 => {
                let (windows, id, topic) = question(content).ok_or(())?;
                format!("{n} why {}", said(why(&self.gateway(), windows, id, topic), true))
            }
            21 if content.len() == 16 && number(&content[14..]) > 3 => format!("{n} -"),
            21 if content.len() == 16 => format!("{n} set {}", said(self.set(content), true)),
            22 | 25 | 26 => self.in_edition(kind, content, n)?,
            _ => return Err(()),
        };
        Ok(line)
    }
}

/// The next record, or the word that ends the run. A gateway, kind 13, may have more than the others, `largest`.
fn next<'a>(data: &mut &'a [u8], most: u64, largest: u64) -> std::result::Result<(u64, &'a [u8]), &'static str> {
    if data.is_empty() {
        return Err("");
    }
    if data.len() >= 4 && number(&data[..4]) > largest {
        return Err("long\n");
    }
    if data.len() >= 6 && number(&data[4..6]) != 13 && number(&data[..4]) > most {
        return Err("long\n");
    }
    if data.len() < 6 || data.len() - 6 < number(&data[..4]) as usize {
        return Err("bad\n");
    }
    let (header, rest) = data.split_at(6);
    let (content, rest) = rest.split_at(number(&header[..4]) as usize);
    *data = rest;
    Ok((number(&header[4..]), content))
}

/// Plays a whole input.
pub fn play(program: &[u8], mut data: &[u8], out: &mut dyn Write) -> Result<()> {
    let most = if program == b"trace" || program == b"why" { 32768 } else { 65600 };
    let largest = if program == b"why" { 307608 } else { most };
    let mut gateway = None;
    let mut states = States::new();
    for n in 1.. {
        let (kind, content) = match next(&mut data, most, largest) {
            Ok(record) => record,
            Err(word) => return write!(out, "{word}"),
        };
        let line = match program {
            b"inspect" => inspect(kind, content, n),
            b"trace" => trace(kind, content, n, &mut gateway),
            b"why" => asked(kind, content, n, &mut gateway),
            _ => states.line(kind, content, n),
        };
        match line {
            Ok(line) => writeln!(out, "{line}")?,
            Err(()) => return writeln!(out, "bad"),
        }
    }
    Ok(())
}
