//! The crate's calls with the archive: answers and refusals by their types, states saved, loaded and damaged.
#![cfg(not(no_archive))]

use pradulins::{decode, message_id, messages, reencode, sign_bytes, sign_fields, sign_fields_into, walk, walk_from, write_rpc, write_rpc_into};
use pradulins::{
    Admitted, Clock, Dialect, Draft, Edition, Gateway, LoadError, Message, Offer, Place, Record, Refusal, Reply, Rpc, Served, Settings, NODE_SIZE,
};
use Edition::{V1_1, V1_2};

const SETTINGS: Settings = Settings { ttl: 1000, max_seen: 4, history_len: 2, max_messages: 4, allow_unsigned: false, skip_groups: false };

/// The key of the scope's trace.
const KEY: [u8; 32] = [
    0x1e, 0xd1, 0xe8, 0xfa, 0xe2, 0xc4, 0xa1, 0x44, 0xb8, 0xbe, 0x8f, 0xd4, 0xb4, 0x7b, 0xf3, 0xd3, 0xb3, 0x4b, 0x87, 0x1c, 0x3c, 0xac, 0xf6, 0x01,
    0x0f, 0x0e, 0x42, 0xd4, 0x74, 0xfc, 0xe2, 0x7e,
];

/// The peer id of an Ed25519 key: 00, how long the rest is, and the key as libp2p writes it, which is its type, how long it is, and its bytes.
fn peer_id(key: [u8; 32]) -> [u8; 38] {
    let mut id = [0; 38];
    id[..6].copy_from_slice(&[0x00, 0x24, 0x08, 0x01, 0x12, 0x20]);
    id[6..].copy_from_slice(&key);
    id
}

/// The id of a message: its sender, whose key is so many equal bytes, and its seqno.
fn id(key: u8, seqno: u8) -> Vec<u8> {
    [&peer_id([key; 32])[..], &[seqno]].concat()
}

/// A field of a message or a body.
fn field(number: u8, bytes: &[u8]) -> Vec<u8> {
    let length = match bytes.len() {
        n @ 0..=0x7f => vec![n as u8],
        n => vec![n as u8 | 0x80, (n >> 7) as u8],
    };
    [&[number << 3 | 2], &length[..], bytes].concat()
}

/// A message: the fields that it has, in their order.
#[derive(Clone)]
struct Notice {
    from: Option<Vec<u8>>,
    seqno: Option<Vec<u8>>,
    topics: Vec<Vec<u8>>,
    signature: Option<Vec<u8>>,
    key: Option<Vec<u8>>,
}

/// The message of the scope's trace, with another sender.
fn notice(from: &[u8]) -> Notice {
    Notice { from: Some(from.to_vec()), seqno: Some(vec![1]), topics: vec![b"t".to_vec()], signature: Some(vec![0; 64]), key: None }
}

impl Notice {
    /// A body with this message alone.
    fn body(&self) -> Vec<u8> {
        let one = |number, bytes: &Option<Vec<u8>>| bytes.iter().map(move |bytes| field(number, bytes)).collect::<Vec<_>>();
        let topics = self.topics.iter().map(|topic| field(4, topic)).collect();
        let parts = [one(1, &self.from), one(3, &self.seqno), topics, one(5, &self.signature), one(6, &self.key)];
        field(2, &parts.concat().concat())
    }

    fn key(&self, key: &[u8]) -> Notice {
        Notice { key: Some(key.to_vec()), ..self.clone() }
    }

    fn seqno(&self, seqno: Option<&[u8]>) -> Notice {
        Notice { seqno: seqno.map(<[u8]>::to_vec), ..self.clone() }
    }

    fn signature(&self, signature: Option<&[u8]>) -> Notice {
        Notice { signature: signature.map(<[u8]>::to_vec), ..self.clone() }
    }

    fn topics(&self, topic: &[u8], times: usize) -> Notice {
        Notice { topics: vec![topic.to_vec(); times], ..self.clone() }
    }
}

/// The body of the scope's trace, with another sender, whose key is so many equal bytes.
fn body(key: u8) -> Vec<u8> {
    notice(&peer_id([key; 32])).body()
}

#[test]
fn the_trace_of_the_scope() {
    let sender = peer_id(KEY);
    let x = [&[0x12, 0x70, 0x0a, 0x26][..], &sender, &[0x1a, 1, 1, 0x22, 1, b't', 0x2a, 0x40], &[0; 64]].concat();
    assert_eq!((x.len(), &x), (114, &notice(&sender).body()));
    let mut gateway = Gateway::start(SETTINGS).unwrap();
    assert_eq!(gateway.admit(V1_1, &x, 0, true, 100), Ok(Admitted::New));
    let offer = [&[0x1a, 0x2e, 0x0a, 0x2c, 0x0a, 1, b't', 0x12, 0x27][..], &sender, &[1]].concat();
    assert_eq!((gateway.advertise(b"t", 1), offer.len()), (Ok(offer), 48));
    assert_eq!(gateway.admit(V1_1, &x, 0, true, 100), Ok(Admitted::Duplicate));
    assert_eq!(gateway.heartbeat(1100), Ok(()));
    assert_eq!(gateway.advertise(b"t", 1), Ok(vec![]));
    assert_eq!(gateway.admit(V1_1, &x, 0, true, 1099), Err(Refusal::ClockBack { clock: 1100 }));
    assert_eq!(gateway.admit(V1_1, &x, 0, true, 1100), Ok(Admitted::New));
    assert_eq!((gateway.settings(), gateway.clock(), gateway.seen(), gateway.messages()), (SETTINGS, 1100, 1, 1));
}

#[test]
fn settings_are_tested() {
    for (max_seen, history_len, max_messages) in [(257, 2, 4), (4, 0, 4), (4, 17, 4), (4, 2, 65), (usize::MAX, 1, 0)] {
        let settings = Settings { ttl: 0, max_seen, history_len, max_messages, allow_unsigned: false, skip_groups: false };
        assert_eq!(Gateway::start(settings).err(), Some(Refusal::BadSetting));
    }
    for (allow_unsigned, skip_groups) in [(false, false), (false, true), (true, false), (true, true)] {
        assert!(Gateway::start(Settings { ttl: u64::MAX, max_seen: 0, history_len: 1, max_messages: 0, allow_unsigned, skip_groups }).is_ok());
    }
}

/// A mesh whose gateways have no keys: the scope's rows on a gateway that allows unsigned messages.
#[test]
fn a_training_mesh() {
    let training = Settings { allow_unsigned: true, ..SETTINGS };
    let sender = peer_id(KEY);
    let (signed, unsigned) = (notice(&sender), notice(&sender).signature(None));
    let (x, u) = (signed.body(), unsigned.body());
    assert_eq!((u.len(), &u[..4]), (48, &[0x12, 0x2e, 0x0a, 0x26][..]));
    let id = [&sender[..], &[1]].concat();
    let offer = [&[0x1a, 0x2e, 0x0a, 0x2c, 0x0a, 1, b't', 0x12, 0x27][..], &id].concat();
    let request = [&[0x1a, 0x2b, 0x12, 0x29, 0x0a, 0x27][..], &id].concat();
    let mut gateway = Gateway::start(training).unwrap();
    assert_eq!(gateway.settings(), training);
    assert_eq!(gateway.ask(V1_1, &offer), Ok(request.clone()));
    assert_eq!(gateway.admit(V1_1, &u, 0, false, 100), Ok(Admitted::New));
    assert_eq!(gateway.admit(V1_1, &u, 0, true, 100), Ok(Admitted::Duplicate));
    assert_eq!(gateway.ask(V1_1, &offer), Ok(vec![]));
    // The signed message of the same id is tested as ever, and new; the cache keeps the one that came first.
    assert_eq!(gateway.admit(V1_1, &x, 0, false, 100), Err(Refusal::NotVerified));
    assert_eq!(gateway.admit(V1_1, &x, 0, true, 100), Ok(Admitted::New));
    assert_eq!(gateway.admit(V1_1, &x, 0, true, 100), Ok(Admitted::Duplicate));
    assert_eq!(gateway.admit(V1_1, &u, 0, true, 100), Ok(Admitted::Duplicate));
    assert_eq!(gateway.serve(V1_1, &request), Ok(Reply { body: u.clone(), messages: 1, left: 0 }));
    assert_eq!((gateway.seen(), gateway.messages()), (2, 1));
    assert!(Gateway::load(&gateway.save()).unwrap() == gateway);
    // And the other way round.
    let mut other = Gateway::start(training).unwrap();
    assert_eq!(other.admit(V1_1, &x, 0, true, 100), Ok(Admitted::New));
    assert_eq!((other.ask(V1_1, &offer), other.admit(V1_1, &u, 0, false, 100)), (Ok(vec![]), Ok(Admitted::New)));
    assert_eq!(other.serve(V1_1, &request), Ok(Reply { body: x.clone(), messages: 1, left: 0 }));
    // What else an unsigned message must be.
    for (message, told) in [
        (unsigned.key(&[]), Err(Refusal::KeyWithoutSignature)),
        (unsigned.signature(Some(&[])), Err(Refusal::SignatureLength { length: 0 })),
        (unsigned.seqno(None), Err(Refusal::InvalidSeqno)),
        (unsigned.topics(b"t", 5), Err(Refusal::TopicCount { topics: 5 })),
        (notice(b"A").signature(None), Err(Refusal::NotPeerId)),
        (notice(&[0, 0]).signature(None), Ok(Admitted::New)),
        (notice(&[&[0x12, 0x20][..], &[7; 32]].concat()).signature(None), Ok(Admitted::New)),
    ] {
        for verified in [false, true] {
            assert_eq!(gateway.clone().admit(V1_1, &message.body(), 0, verified, 100), told);
        }
    }
    // One that does not allow them.
    let mut strict = Gateway::start(SETTINGS).unwrap();
    assert_eq!(strict.admit(V1_1, &u, 0, true, 100), Err(Refusal::MissingSignature));
    assert_eq!(strict.ask(V1_1, &gateway.advertise(b"t", 2).unwrap()), Ok(request.clone()));
    assert_eq!(strict.admit(V1_1, &gateway.serve(V1_1, &request).unwrap().body, 0, true, 100), Err(Refusal::MissingSignature));
    assert_eq!((strict.ask(V1_1, &offer), strict.admit(V1_1, &x, 0, true, 100)), (Ok(request), Ok(Admitted::New)));
}

/// An unsigned message is written where it is allowed, as it is; a key alone is not.
#[test]
fn unsigned_messages_are_written() {
    let sender = peer_id(KEY);
    let draft = Draft { from: &sender, seqno: &[1], data: None, topics: &["t"], key: None };
    let rpc = Rpc::new().publish_unsigned(&draft);
    assert_eq!(rpc.write(), Err(Refusal::SignatureLength { length: 0 }));
    assert_eq!(write_rpc(rpc.records()), Err(Refusal::SignatureLength { length: 0 }));
    let rpc = rpc.allow_unsigned(true);
    let body = notice(&sender).signature(None).body();
    assert_eq!(rpc.write().as_ref(), Ok(&body));
    let mut out = [7; 60];
    assert_eq!(rpc.write_into(&mut out[..47]), Err(Refusal::Room { needed: 48 }));
    assert_eq!((out, rpc.write_into(&mut out)), ([7; 60], Ok(48)));
    assert_eq!((&out[..48], &out[48..]), (&body[..], &[7; 12][..]));
    assert_eq!(rpc.clone().allow_unsigned(false).write(), Err(Refusal::SignatureLength { length: 0 }));
    let mut neighbour = Gateway::start(Settings { allow_unsigned: true, ..SETTINGS }).unwrap();
    assert_eq!(neighbour.admit(V1_1, &body, 0, false, 5), Ok(Admitted::New));
    // Of other messages it changes nothing, and the tests of an unsigned one stay.
    let refused = |rpc: Rpc| rpc.allow_unsigned(true).write().unwrap_err();
    assert_eq!(refused(Rpc::new().publish_unsigned(&Draft { key: Some(&[]), ..draft })), Refusal::KeyWithoutSignature);
    assert_eq!(refused(Rpc::new().publish(&draft, &[])), Refusal::SignatureLength { length: 0 });
    assert_eq!(refused(Rpc::new().publish(&Draft { key: Some(&KEY), ..draft }, &[0; 64])), Refusal::InvalidKey);
    assert_eq!(refused(Rpc::new().publish_unsigned(&Draft { from: b"gate", ..draft })), Refusal::NotPeerId);
    assert_eq!(refused(Rpc::new().publish_unsigned(&Draft { topics: &[], ..draft })), Refusal::TopicCount { topics: 0 });
    assert_eq!(Rpc::new().allow_unsigned(true).publish(&draft, &[0; 64]).write(), Ok(notice(&sender).body()));
    let hash = [&[0x12, 0x20][..], &[7; 32]].concat();
    for from in [&[0, 0][..], &hash] {
        assert_eq!(Rpc::new().allow_unsigned(true).publish_unsigned(&Draft { from, ..draft }).write(), Ok(notice(from).signature(None).body()));
    }
}

/// What docs/OPERATING.md says of it: within one ttl, the notice after max_seen others drives the oldest out, which is new when it comes again; nothing is refused.
#[test]
fn the_257th_notice() {
    let mut gateway =
        Gateway::start(Settings { ttl: 1_000_000, max_seen: 256, history_len: 4, max_messages: 64, allow_unsigned: false, skip_groups: false })
            .unwrap();
    let notice = |n: u16| {
        let sender = notice(&peer_id([b'A'; 32]));
        sender.seqno(Some(&n.to_be_bytes())).body()
    };
    for n in 1..=256 {
        assert_eq!(gateway.admit(V1_1, &notice(n), 0, true, u64::from(n)), Ok(Admitted::New));
    }
    assert_eq!(gateway.admit(V1_1, &notice(1), 0, true, 256), Ok(Admitted::Duplicate));
    assert_eq!((gateway.seen(), gateway.messages()), (256, 64));
    assert_eq!(gateway.admit(V1_1, &notice(257), 0, true, 257), Ok(Admitted::New));
    assert_eq!((gateway.seen(), gateway.messages()), (256, 64));
    assert_eq!(gateway.admit(V1_1, &notice(2), 0, true, 257), Ok(Admitted::Duplicate));
    assert_eq!(gateway.admit(V1_1, &notice(1), 0, true, 257), Ok(Admitted::New));
    assert_eq!(gateway.admit(V1_1, &notice(2), 0, true, 257), Ok(Admitted::New));
}

/// Each answer, the edges of id and topic, and that `Listed` is said of exactly what is advertised.
#[test]
fn why_a_notice_is_not_offered() {
    let mut gateway = Gateway::start(SETTINGS).unwrap();
    let (a, b) = (&id(b'A', 1)[..], &id(b'B', 1)[..]);
    let older = |age| Ok::<_, Refusal>(Offer::OlderWindow { age });
    assert_eq!(gateway.explain(a, b"t", 1), Ok(Offer::NotCached));
    gateway.admit(V1_1, &body(b'A'), 0, true, 100).unwrap();
    assert_eq!(gateway.explain(a, b"t", 1), Ok(Offer::Listed));
    assert_eq!(gateway.explain(a, b"t", usize::MAX), Ok(Offer::Listed));
    assert_eq!(gateway.explain(a, b"t", 0), older(0));
    for topic in [&b"u"[..], b"", b"tt", b"\xff", &[b't'; 1024]] {
        assert_eq!(gateway.explain(a, topic, 0), Ok(Offer::WithoutTopic));
        assert_eq!(gateway.explain(&id(b'A', 2), topic, 1), Ok(Offer::NotCached));
    }
    let (longer, marked) = ([a, &[0]].concat(), [&[1], a].concat());
    for id in [&b""[..], b"A\x01", &a[..38], &a[1..], &longer, &marked, &[b'A'; 128], &[b'A'; 129], &[0; 1000]] {
        assert_eq!(gateway.explain(id, b"t", 1), Ok(Offer::NotCached));
        assert_eq!(gateway.explain(id, &[b't'; 1025], 1), Err(Refusal::TopicTooLong { length: 1025 }));
    }
    assert_eq!(gateway.explain(a, &[b't'; 1025], 1), Err(Refusal::TopicTooLong { length: 1025 }));
    gateway.heartbeat(200).unwrap();
    gateway.admit(V1_1, &body(b'B'), 0, true, 200).unwrap();
    assert_eq!((gateway.explain(a, b"t", 1), gateway.explain(b, b"t", 1)), (older(1), Ok(Offer::Listed)));
    assert_eq!(gateway.explain(a, b"t", 0), older(1));
    assert_eq!(gateway.explain(a, b"u", 0), Ok(Offer::WithoutTopic));
    for (topic, windows) in [(b"t", 0), (b"t", 1), (b"t", 2), (b"t", 9), (b"u", 2)] {
        let offer = gateway.advertise(topic, windows).unwrap();
        let records = decode(V1_1, &offer).unwrap().records;
        for id in [a, b, &id(b'C', 1), &a[..38], b""] {
            assert_eq!(gateway.explain(id, topic, windows) == Ok(Offer::Listed), records.contains(&Record::MessageId(id)));
        }
    }
    // It leaves the cache by its age, though it is still seen.
    gateway.heartbeat(201).unwrap();
    assert_eq!((gateway.seen(), gateway.explain(a, b"t", 2)), (2, Ok(Offer::NotCached)));
    assert_eq!(gateway.explain(b, b"t", 1), older(1));
}

#[test]
fn lent_buffers_may_be_too_short() {
    let x = body(b'A');
    let mut gateway = Gateway::start(SETTINGS).unwrap();
    gateway.admit(V1_1, &x, 0, true, 100).unwrap();
    let mut out = [7; 117];
    assert_eq!(gateway.advertise_into(b"t", 1, &mut out[..47]), Err(Refusal::Room { needed: 48 }));
    let request = [&[0x1a, 0x2b, 0x12, 0x29, 0x0a, 0x27], &id(b'A', 1)[..]].concat();
    assert_eq!(gateway.serve_into(V1_1, &request, &mut out[..113]), Err(Refusal::Room { needed: 114 }));
    assert_eq!(out, [7; 117]);
    assert_eq!(gateway.serve_into(V1_1, &request, &mut out), Ok(Served { bytes: 114, messages: 1, left: 0 }));
    assert_eq!((&out[..114], &out[114..]), (&x[..], &[7; 3][..]));
    let fresh = Gateway::start(SETTINGS).unwrap();
    assert_eq!(fresh.ask_into(V1_1, &gateway.advertise(b"t", 1).unwrap(), &mut out), Ok(45));
    assert_eq!(out[..45], request);
}

#[test]
fn bodies() {
    let x = body(b'A');
    assert_eq!(reencode(V1_1, &[0x1a, 0, 0x1a, 0]), Ok(vec![0x1a, 0]));
    assert_eq!(reencode(V1_1, &x).as_ref(), Ok(&x));
    assert_eq!(message_id(V1_1, &x, 0), Ok(id(b'A', 1)));
    // Ids are of any sender: that it is a peer id is asked where a message is admitted.
    assert_eq!(message_id(V1_1, &notice(b"A").body(), 0), Ok(vec![b'A', 1]));
    assert_eq!(message_id(V1_1, &x, 1), Err(Refusal::NoMessage { messages: 1 }));
    assert_eq!(sign_bytes(V1_1, &[0x12, 6, 0x0a, 1, 0x41, 0x0a, 1, 0x42], 0).unwrap(), b"libp2p-pubsub:\x0a\x01\x42");
    assert_eq!(reencode(V1_1, &vec![0; 65537]), Err(Refusal::BodyTooLarge { length: 65537 }));
    assert_eq!(decode(V1_1, &[0x0a, 0].repeat(513)), Err(Refusal::TooManyRecords { records: 513 }));
    for (bytes, refusal) in [
        (&[0x80][..], Refusal::VarintShort { place: Place::new(0, &[]) }),
        (&[0x80, 0], Refusal::VarintNotMinimal { place: Place::new(0, &[]) }),
        (&[0], Refusal::FieldNumber { number: 0, offset: 0, place: Place::new(0, &[]) }),
        (&[0x0b], Refusal::WireType { wire_type: 3, offset: 1, place: Place::new(1, &[]) }),
        (&[0x0a, 5, 8], Refusal::FieldOverflow { offset: 2, length: 5, remaining: 1, place: Place::new(2, &[]) }),
        (&[0x0a, 3, 0x12, 1, 0xff], Refusal::Utf8 { offset: 1, place: Place::new(3, &[1]) }),
    ] {
        assert_eq!(decode(V1_1, bytes), Err(refusal));
    }
}

/// A body that every call which reads it refuses alike, in the gateway's mode.
fn refused_by_each(gateway: &mut Gateway, edition: Edition, bytes: &[u8], refusal: Refusal) {
    let dialect = gateway.dialect(edition);
    assert_eq!(decode(dialect, bytes), Err(refusal), "{bytes:02x?}");
    assert_eq!(messages(dialect, bytes), Err(refusal));
    assert_eq!(reencode(dialect, bytes), Err(refusal));
    assert_eq!(sign_bytes(dialect, bytes, 0), Err(refusal));
    assert_eq!(message_id(dialect, bytes, 0), Err(refusal));
    assert_eq!(gateway.admit(edition, bytes, 0, true, 5), Err(refusal));
    assert_eq!(gateway.ask(edition, bytes), Err(refusal));
    assert_eq!(gateway.serve(edition, bytes), Err(refusal));
    assert_eq!(gateway.ask_into(edition, bytes, &mut []), Err(refusal));
    assert_eq!(gateway.serve_into(edition, bytes, &mut []), Err(refusal));
    assert_eq!(gateway.serve_without(edition, bytes, &[0x80]), Err(refusal));
}

/// Where in a body a refusal stands: bodies, the number, the offset and the fields around it; by every call that reads a body.
#[test]
fn places() {
    let long = [&[0x12, 0x80, 1, 0x12, 0x7b][..], &[0; 123], &[0x22, 1, 0xff]].concat();
    let overflow = [&[0x80; 9][..], &[2]].concat();
    let rows: [(&[u8], u32, usize, &[u64]); 22] = [
        (&[0x80], 1, 0, &[]),
        (&[0x80, 0], 3, 0, &[]),
        (&overflow, 2, 0, &[]),
        (&[0], 6, 0, &[]),
        (&[0x0b], 5, 1, &[]),
        (&[0x0a, 5, 8], 4, 2, &[]),
        (&[0x08], 1, 1, &[]),
        (&[0x0a], 1, 1, &[]),
        (&[0x09], 4, 1, &[]),
        (&[0x0a, 0, 0x0b], 5, 3, &[]),
        (&[0x0a, 1, 0x80, 0x0b], 1, 2, &[1]),
        (&[0x0a, 1, 0x80, 1], 1, 2, &[1]),
        (&[0x0a, 1, 8, 0x0a, 0], 1, 3, &[1]),
        (&[0x0a, 3, 0x12, 1, 0xff], 7, 3, &[1]),
        (&[0x12, 3, 0x22, 1, 0xff], 7, 3, &[2]),
        (&long, 7, 129, &[2]),
        (&[0x1a, 0, 0x1a, 1, 0x80], 1, 4, &[3]),
        (&[0x1a, 5, 0x0a, 3, 0x0a, 1, 0xff], 7, 5, &[3, 1]),
        (&[0x1a, 4, 0x22, 2, 0x12, 5], 4, 6, &[3, 4]),
        (&[0x1a, 6, 0x22, 4, 0x12, 2, 0x0a, 5], 4, 8, &[3, 4, 2]),
        (&[0x1a, 5, 0x22, 3, 0x12, 1, 0x0b], 5, 7, &[3, 4, 2]),
        (&[0x1a, 5, 0x22, 3, 0x12, 1, 0], 6, 6, &[3, 4, 2]),
    ];
    let mut gateway = Gateway::start(SETTINGS).unwrap();
    for (bytes, number, offset, fields) in rows {
        let refusal = decode(V1_1, bytes).unwrap_err();
        assert_eq!((refusal.number(), refusal.place()), (number, Some(Place::new(offset, fields))), "{bytes:02x?}");
        assert!(refusal.to_string().contains(&format!(" at byte {offset} of the body")), "{refusal}");
        for edition in [V1_1, V1_2] {
            refused_by_each(&mut gateway, edition, bytes, refusal);
        }
        // A walk looks at the body's own fields alone: what a field encloses it does not find.
        let walked = walk(V1_1, bytes).find_map(Result::err);
        if fields.is_empty() {
            assert_eq!(walked, Some(refusal), "{bytes:02x?}");
        }
        assert!(walked.map_or(true, |refusal| refusal.place().is_some_and(|place| place.fields().is_empty())));
    }
    // What is no fault of a body's bytes has no place.
    let x = body(b'A');
    for refusal in [
        decode(V1_1, &vec![0; 65537]).unwrap_err(),
        decode(V1_1, &[0x0a, 0].repeat(513)).unwrap_err(),
        message_id(V1_1, &x, 1).unwrap_err(),
        gateway.admit(V1_1, &x, 0, false, 5).unwrap_err(),
        gateway.advertise(&[b't'; 1025], 1).unwrap_err(),
    ] {
        assert_eq!(refusal.place(), None);
        assert!(!refusal.to_string().contains("of the body"));
    }
}

/// The scope's rows on editions: field 5 of a control, skipped in 1.1 and read in 1.2.
#[test]
fn editions() {
    const ID: Record = Record::MessageId(b"A");
    let prune = Record::Prune { topic_id: None, backoff: None };
    // Bodies that both accept: what each writes, and the records in 1.2; in 1.1 there are none but the prune.
    type Row<'a> = (&'a [u8], &'a [u8], &'a [u8], &'a [Record<'a>]);
    let rows: [Row; 5] = [
        (&[0x1a, 5, 0x2a, 3, 0x0a, 1, 0xff], &[0x1a, 0], &[0x1a, 5, 0x2a, 3, 0x0a, 1, 0xff], &[Record::IDontWant, Record::MessageId(&[0xff])]),
        (
            &[0x1a, 7, 0x2a, 3, 0x0a, 1, b'A', 0x22, 0],
            &[0x1a, 2, 0x22, 0],
            &[0x1a, 7, 0x22, 0, 0x2a, 3, 0x0a, 1, b'A'],
            &[Record::IDontWant, ID, prune],
        ),
        (&[0x1a, 2, 0x2a, 0, 0x1a, 2, 0x22, 0], &[0x1a, 2, 0x22, 0], &[0x1a, 4, 0x22, 0, 0x2a, 0], &[Record::IDontWant, prune]),
        (&[0x1a, 2, 0x28, 7], &[0x1a, 0], &[0x1a, 0], &[]),
        (&[0x1a, 4, 0x2a, 2, 0x10, 7], &[0x1a, 0], &[0x1a, 2, 0x2a, 0], &[Record::IDontWant]),
    ];
    for (body, first, second, records) in rows {
        let older: Vec<Record> = records.iter().copied().filter(|record| *record == prune).collect();
        for (edition, written, records) in [(V1_1, first, &older[..]), (V1_2, second, records)] {
            assert_eq!(reencode(edition, body).as_deref(), Ok(written), "{body:02x?}");
            let decoded = decode(edition, body).unwrap();
            assert_eq!((decoded.control, &decoded.records[..]), (true, records), "{body:02x?}");
            // What was written means the same, and is in canonical form.
            assert_eq!(reencode(edition, written).as_deref(), Ok(written));
        }
    }
    // Bodies that 1.2 alone refuses, where it says so, and in which fields.
    let mut gateway = Gateway::start(SETTINGS).unwrap();
    let short = Refusal::VarintShort { place: Place::new(4, &[3, 5]) };
    let long = Refusal::FieldOverflow { offset: 2, length: 2, remaining: 1, place: Place::new(6, &[3, 5]) };
    for (body, refusal) in [(&[0x1a, 3, 0x2a, 1, 0x80][..], short), (&[0x1a, 5, 0x2a, 3, 0x0a, 2, b'A'], long)] {
        assert_eq!(reencode(V1_1, body), Ok(vec![0x1a, 0]));
        assert_eq!((gateway.ask(V1_1, body), gateway.serve(V1_1, body).map(|reply| reply.left)), (Ok(vec![]), Ok(0)));
        assert_eq!(gateway.admit(V1_1, body, 0, true, 5), Err(Refusal::NoMessage { messages: 0 }));
        refused_by_each(&mut gateway, V1_2, body, refusal);
        assert_eq!(gateway.serve_without(V1_1, &[], body), Err(refusal));
        assert!(refusal.to_string().ends_with(" of the body, in control, idontwant"), "{refusal}");
    }
    // Each entry and each id is a record.
    for (ids, told) in [(511, Ok(512)), (512, Err(Refusal::TooManyRecords { records: 513 }))] {
        let body = field(3, &field(5, &[0x0a, 0].repeat(ids)));
        assert_eq!(decode(V1_1, &body).map(|decoded| decoded.records.len()), Ok(0));
        assert_eq!(decode(V1_2, &body).map(|decoded| decoded.records.len()), told);
    }
    // A message is the same in both, its signature, field 5, too.
    let x = [&body(b'A')[..], &[0x1a, 5, 0x2a, 3, 0x0a, 1, b'A']].concat();
    for edition in [V1_1, V1_2] {
        assert_eq!(messages(edition, &x), messages(V1_1, &x[..114]));
        assert_eq!((sign_bytes(edition, &x, 0), message_id(edition, &x, 0)), (sign_bytes(V1_1, &x[..114], 0), Ok(id(b'A', 1))));
        assert_eq!(gateway.clone().admit(edition, &x, 0, true, 5), Ok(Admitted::New));
    }
    // They are read, and not written from records.
    let records = decode(V1_2, &x[114..]).unwrap().records;
    assert_eq!((records.len(), write_rpc(&records)), (2, Err(Refusal::Malformed)));
}

/// A control with one entry of ids, in its field: an IWANT (2) or an IDONTWANT (5).
fn named(entry: u8, ids: &[&[u8]]) -> Vec<u8> {
    field(3, &field(entry, &ids.iter().map(|id| field(1, id)).collect::<Vec<_>>().concat()))
}

/// The scope's rows on serve with a second body.
#[test]
fn served_without() {
    let sender = notice(&peer_id(KEY));
    let (x, y) = (sender.body(), sender.seqno(Some(&[2])).body());
    let (mx, my) = (message_id(V1_1, &x, 0).unwrap(), message_id(V1_1, &y, 0).unwrap());
    let mut gateway = Gateway::start(SETTINGS).unwrap();
    for body in [&x, &y] {
        assert_eq!(gateway.admit(V1_2, body, 0, true, 5), Ok(Admitted::New));
    }
    let gateway = gateway;
    let (request, offer) = (named(2, &[&mx, &my]), gateway.advertise(b"t", 1).unwrap());
    let (dont_x, dont_y, want_x) = (named(5, &[&mx]), named(5, &[&my]), named(2, &[&mx]));
    let reply =
        |bodies: &[&Vec<u8>], left| Ok(Reply { body: bodies.iter().flat_map(|body| body.iter().copied()).collect(), messages: bodies.len(), left });
    for edition in [V1_1, V1_2] {
        let serve = |unwanted: &[u8]| gateway.serve_without(edition, &request, unwanted);
        assert_eq!((serve(&[]), gateway.serve(edition, &request)), (reply(&[&x, &y], 0), reply(&[&x, &y], 0)));
        assert_eq!((serve(&dont_x), serve(&dont_y)), (reply(&[&y], 0), reply(&[&x], 0)));
        assert_eq!((serve(&[&dont_x[..], &dont_y].concat()), serve(&named(5, &[&my, &mx, &my]))), (reply(&[], 0), reply(&[], 0)));
        // Only the IDONTWANTs of the second body count.
        assert_eq!((serve(&want_x), serve(&offer), serve(&x)), (reply(&[&x, &y], 0), reply(&[&x, &y], 0), reply(&[&x, &y], 0)));
        assert_eq!(gateway.serve(edition, &[&request[..], &dont_x].concat()), reply(&[&x, &y], 0));
        assert_eq!(
            (serve(&named(5, &[&mx[..38], b"", &[&mx[..], &[0]].concat()])), serve(&named(5, &[]))),
            (reply(&[&x, &y], 0), reply(&[&x, &y], 0))
        );
        assert_eq!(gateway.serve_without(edition, &want_x, &dont_x), reply(&[], 0));
        // Room is for what is wanted: the field of Y has as many bytes as its body.
        let mut out = vec![7; 300];
        assert_eq!(gateway.serve_without_into(edition, &request, &dont_x, &mut out[..y.len() - 1]), Err(Refusal::Room { needed: y.len() as u64 }));
        assert_eq!(out, [7; 300]);
        assert_eq!(gateway.serve_without_into(edition, &request, &dont_x, &mut out[..y.len()]), Ok(Served { bytes: 114, messages: 1, left: 0 }));
        assert_eq!((&out[..114], &out[114..]), (&y[..], &[7; 186][..]));
        assert_eq!(gateway.serve_into(edition, &request, &mut out[..114]), Ok(Served { bytes: 114, messages: 1, left: 1 }));
        assert_eq!(gateway.serve_without_into(edition, &want_x, &dont_x, &mut []), Ok(Served { bytes: 0, messages: 0, left: 0 }));
        // The request is tested first, and each body by itself.
        let number = Refusal::FieldNumber { number: 0, offset: 0, place: Place::new(0, &[]) };
        let short = Refusal::VarintShort { place: Place::new(0, &[]) };
        assert_eq!((serve(&[0]), gateway.serve_without(edition, &[0x80], &[0])), (Err(number), Err(short)));
        assert_eq!(serve(&[0x1a, 3, 0x2a, 1, 0x80]), Err(Refusal::VarintShort { place: Place::new(4, &[3, 5]) }));
        assert_eq!(serve(&[0x0a, 0].repeat(513)), Err(Refusal::TooManyRecords { records: 513 }));
        assert_eq!(serve(&vec![0; 65_537]), Err(Refusal::BodyTooLarge { length: 65_537 }));
        assert_eq!(serve(&named(5, &[&b""[..]; 511])), reply(&[&x, &y], 0));
        assert_eq!(serve(&named(5, &[&b""[..]; 512])), Err(Refusal::TooManyRecords { records: 513 }));
        assert_eq!(gateway.serve_without_into(edition, &request, &[0], &mut []), Err(number));
    }
}

/// Who may send, and with which key: the scope's message with one change. None is new; a refusal by its number and values.
#[test]
fn senders() {
    let sender = peer_id(KEY);
    let x = notice(&sender);
    let key = |kind: u8| [&[8, kind, 0x12, 0x20][..], &KEY].concat();
    let with = |head: &[u8], byte: u8, times: usize| notice(&[head, &vec![byte; times]].concat());
    let hash = with(&[0x12, 0x20], 7, 32);
    let abc = notice(b"\x00\x03ABC");
    let name = notice(b"A");
    type Row = (Notice, Option<(u32, &'static [u64])>);
    let rows: [Row; 46] = [
        (x.clone(), None),
        // Host names, and what is too long or too short for any sender.
        (name.clone(), Some((34, &[]))),
        (notice(b"gate"), Some((34, &[]))),
        (notice(&[b'A'; 64]), Some((34, &[]))),
        (notice(&[b'A'; 65]), Some((22, &[65]))),
        (notice(b""), Some((22, &[0]))),
        (Notice { from: None, ..x.clone() }, Some((21, &[]))),
        // 34 comes after 22 and before 23.
        (name.seqno(None), Some((34, &[]))),
        (x.seqno(None), Some((23, &[]))),
        (x.seqno(Some(b"")), Some((23, &[]))),
        (name.signature(None), Some((34, &[]))),
        (name.key(b"\xff"), Some((34, &[]))),
        // Identities: of no key, of what is no key, of the shortest and the longest key.
        (notice(&[0, 0]), Some((36, &[]))),
        (abc.clone(), Some((36, &[]))),
        (abc.key(b"ABC"), Some((35, &[]))),
        (notice(&[0, 4, 8, 1, 0x12, 0]), None),
        (with(&[0, 0x2a, 8, 1, 0x12, 0x26], 7, 38), None),
        (with(&[0, 0x2b, 8, 1, 0x12, 0x27], 7, 39), Some((34, &[]))),
        (with(&sender, 0, 1), Some((34, &[]))),
        (notice(&sender[..37]), Some((34, &[]))),
        (with(&[0, 0x24, 8, 4, 0x12, 0x20], 7, 32), Some((36, &[]))),
        // Hashes: SHA-256 with 32 bytes, and no other.
        (with(&[0x12, 0x20], 7, 31), Some((34, &[]))),
        (with(&[0x12, 0x20], 7, 33), Some((34, &[]))),
        (with(&[0x12, 0x21], 7, 33), Some((34, &[]))),
        (with(&[0x11, 0x14], 7, 20), Some((34, &[]))),
        (notice(&[0x80, 0, 0]), Some((34, &[]))),
        (notice(&[0, 0x80, 0]), Some((34, &[]))),
        (notice(&[0]), Some((34, &[]))),
        // A key beside an identity: the same, another, or none that decodes.
        (x.key(&key(1)), None),
        (x.key(&key(2)), Some((36, &[]))),
        (x.key(&key(1)[..35]), Some((35, &[]))),
        (x.key(b"\xff"), Some((35, &[]))),
        (x.key(b""), Some((35, &[]))),
        (x.key(&[8, 1, 0x12, 0]), Some((36, &[]))),
        // They come after 24, 25 and 26.
        (x.key(b"\xff").signature(Some(&[0; 63])), Some((26, &[63]))),
        (x.key(b"\xff").signature(None), Some((24, &[]))),
        (abc.signature(None), Some((25, &[]))),
        // A hash needs a key. Whether it maps to the hash is the host's word.
        (hash.clone(), Some((36, &[]))),
        (hash.key(b"\xff"), Some((35, &[]))),
        (hash.key(&key(1)), None),
        (hash.key(&[8, 0, 0x12, 0]), None),
        (hash.key(&[&[8, 0, 0x12, 0xac, 2][..], &[7; 300]].concat()), None),
        (with(&[0x12, 0x20, 8, 1, 0x12, 0x1c], b'A', 28), Some((36, &[]))),
        // They come before 28 to 30.
        (x.topics(b"t", 5), Some((28, &[5]))),
        (x.topics(b"t", 5).key(&key(2)), Some((36, &[]))),
        (x.topics(&[b't'; 1025], 1).key(b"\xff"), Some((35, &[]))),
    ];
    for (n, (notice, refused)) in rows.into_iter().enumerate() {
        let body = notice.body();
        let mut gateway = Gateway::start(SETTINGS).unwrap();
        gateway.heartbeat(100).unwrap();
        let before = gateway.clone();
        let told = |answer: Result<Admitted, Refusal>| answer.map_err(|refusal| (refusal.number(), refusal.values(), refusal.place()));
        // Without the host's word, 34, 35 and 36 are told all the same, and also where the reading is before the clock.
        for (verified, now, fit) in [(false, 100, Some((27, &[][..]))), (true, 99, Some((31, &[100][..]))), (true, 100, None)] {
            let wanted = match (refused, fit) {
                (Some((number, _)), Some((27, _))) if matches!(number, 28..=30) => fit,
                _ => refused.or(fit),
            };
            let answer = told(gateway.admit(V1_1, &body, 0, verified, now));
            assert_eq!(answer, wanted.map_or(Ok(Admitted::New), |(number, values)| Err((number, values.to_vec(), None))), "row {n}");
            assert_eq!(gateway == before, answer.is_err());
        }
        // What is admitted can be kept and loaded.
        assert!(Gateway::load(&gateway.save()).is_ok_and(|loaded| loaded == gateway));
        // And it can be written; what is not admitted cannot, and is refused by the same number. A message that is not signed is one with a signature of 0 bytes.
        let refused = match refused {
            Some((24 | 25, _)) => Some((26, &[0][..])),
            refused => refused,
        };
        let written = write_rpc(&decode(V1_1, &body).unwrap().records).map_err(|refusal| (refusal.number(), refusal.values()));
        assert_eq!(written, refused.map_or(Ok(body), |(number, values)| Err((number, values.to_vec()))), "row {n}");
    }
}

#[test]
fn records() {
    let x = body(b'A');
    let decoded = decode(V1_1, &x).unwrap();
    assert!(!decoded.control);
    let sender = peer_id([b'A'; 32]);
    let message = Record::Message { raw: &x[2..], from: Some(&sender), data: None, seqno: Some(&[1]), signature: Some(&[0; 64]), key: None };
    assert_eq!(decoded.records, [message, Record::Topic("t")]);
    let id = id(b'A', 1);
    let offer = [&[0x1a, 0x2e, 0x0a, 0x2c, 0x0a, 1, b't', 0x12, 0x27], &id[..]].concat();
    let decoded = decode(V1_1, &offer).unwrap();
    assert!(decoded.control);
    assert_eq!(decoded.records, [Record::IHave { topic_id: Some("t") }, Record::MessageId(&id)]);
}

#[test]
fn messages_with_their_topics() {
    // Two messages with a subscription between them; the second has two topics, a key that is none, and no signature.
    let first = body(b'A');
    let (a, b) = (peer_id([b'A'; 32]), peer_id([b'B'; 32]));
    let second = [&[0x12, 0x33, 0x0a, 0x26][..], &b, &[0x12, 0, 0x22, 1, b't', 0x22, 1, b'u', 0x32, 1, b'k']].concat();
    let both = [&first[..], &[0x0a, 2, 8, 1], &second].concat();
    let one = Message {
        index: 0,
        raw: &first[2..],
        from: Some(&a),
        data: None,
        seqno: Some(&[1]),
        signature: Some(&[0; 64]),
        key: None,
        topics: vec!["t"],
    };
    let other = Message {
        index: 1,
        raw: &second[2..],
        from: Some(&b),
        data: Some(b""),
        seqno: None,
        signature: None,
        key: Some(b"k"),
        topics: vec!["t", "u"],
    };
    assert_eq!(messages(V1_1, &both), Ok(vec![one, other]));
    for message in messages(V1_1, &both).unwrap() {
        assert_eq!(sign_bytes(V1_1, &both, message.index).unwrap()[16..54], *message.from.unwrap());
    }
    assert_eq!(messages(V1_1, &[]), Ok(vec![]));
    assert_eq!(messages(V1_1, &[0x80]), Err(Refusal::VarintShort { place: Place::new(0, &[]) }));
}

/// A subscription, a message that is absent in every field, and a graft.
const SUB: Record = Record::SubOpts { subscribe: None, topic_id: None };
const EMPTY: Record = Record::Message { raw: b"", from: None, data: None, seqno: None, signature: None, key: None };

fn graft(topic: &str) -> Record<'_> {
    Record::Graft { topic_id: Some(topic) }
}

/// The scope's rows of what a host says by itself, as far as records can say them.
#[test]
fn speaking_first() {
    let subscribe = Record::SubOpts { subscribe: Some(true), topic_id: Some("t") };
    let prune = Record::Prune { topic_id: Some("u"), backoff: Some(60) };
    let peer = Record::PeerInfo { peer_id: Some(&[1, 2]), signed_peer_record: None };
    let rows: [(&[Record], &[u8]); 6] = [
        (&[], &[]),
        (&[subscribe], &[0x0a, 5, 8, 1, 0x12, 1, b't']),
        (&[Record::SubOpts { subscribe: Some(false), topic_id: None }], &[0x0a, 2, 8, 0]),
        (&[SUB, Record::SubOpts { subscribe: None, topic_id: Some("") }], &[0x0a, 0, 0x0a, 2, 0x12, 0]),
        (&[prune, peer, graft("t")], &[0x1a, 0x12, 0x1a, 3, 0x0a, 1, b't', 0x22, 0x0b, 0x0a, 1, b'u', 0x12, 4, 0x0a, 2, 1, 2, 0x18, 0x3c]),
        (&[graft("t"), subscribe, graft("u")], &[0x0a, 5, 8, 1, 0x12, 1, b't', 0x1a, 10, 0x1a, 3, 0x0a, 1, b't', 0x1a, 3, 0x0a, 1, b'u']),
    ];
    for (records, body) in rows {
        assert_eq!(write_rpc(records).as_deref(), Ok(body));
        let mut out = [7; 40];
        assert_eq!(write_rpc_into(records, &mut out), Ok(body.len()));
        assert_eq!((&out[..body.len()], &out[body.len()..]), (body, &[7; 40][body.len()..]));
        if !body.is_empty() {
            let mut out = [7; 40];
            assert_eq!(write_rpc_into(records, &mut out[..body.len() - 1]), Err(Refusal::Room { needed: body.len() as u64 }));
            assert_eq!(out, [7; 40]);
        }
    }
    // How much: records, a body.
    assert_eq!(write_rpc(&vec![Record::Graft { topic_id: None }; 512]).map(|body| body.len()), Ok(1027));
    assert_eq!(write_rpc(&vec![Record::Graft { topic_id: None }; 513]), Err(Refusal::TooManyRecords { records: 513 }));
    assert_eq!(write_rpc(&vec![EMPTY; 513]), Err(Refusal::TooManyRecords { records: 513 }));
    let long = "t".repeat(65_525);
    assert_eq!(write_rpc(&[graft(&long[1..])]).map(|body| body.len()), Ok(65_536));
    assert_eq!(write_rpc(&[graft(&long)]), Err(Refusal::RpcTooLong { length: 65_537 }));
    assert_eq!(write_rpc_into(&[graft(&long)], &mut []), Err(Refusal::RpcTooLong { length: 65_537 }));
    assert_eq!(write_rpc(&vec![graft(&long[..1000]); 66]), Err(Refusal::RpcTooLong { length: 66_400 }));
    // What stands before all that it could belong to; offers and requests.
    let ihave = Record::IHave { topic_id: Some("t") };
    let entries = [&[ihave][..], &[Record::IWant], &[Record::IDontWant]];
    for records in [&[Record::Topic("t"), EMPTY][..], &[peer, prune], &[EMPTY, peer], &[prune, Record::Topic("t")]].into_iter().chain(entries) {
        assert_eq!(write_rpc(records), Err(Refusal::Malformed));
        assert_eq!(sign_fields(records, 0), Err(Refusal::Malformed));
    }
    assert_eq!(write_rpc(&[Record::IWant, Record::MessageId(b"A\x01")]), Err(Refusal::Malformed));
    // A refusal of the whole before one of a message, and the first message's before the second's.
    assert_eq!(write_rpc(&[EMPTY, graft(&long), graft(&long)]), Err(Refusal::MissingFrom));
}

/// A message is signed over what a neighbour then verifies, whatever signature and key it has; and the neighbour admits it.
#[test]
fn published_messages() {
    let (sender, key) = (peer_id(KEY), [&[8, 1, 0x12, 0x20], &KEY[..]].concat());
    let draft = Draft { from: &sender, seqno: &[1], data: None, topics: &["t"], key: None };
    let prefix = b"libp2p-pubsub:\x0a\x26";
    let signed = [&prefix[..], &sender, &[0x1a, 1, 1, 0x22, 1, b't']].concat();
    assert_eq!((draft.sign_fields(), signed.len()), (Ok(signed.clone()), 60));
    let rpc = Rpc::new().publish(&draft, &[0; 64]);
    assert_eq!(rpc.write(), Ok(notice(&sender).body()));
    let unsigned = [EMPTY, Rpc::new().publish(&draft, &[]).records()[0], Record::Topic("t")];
    assert_eq!(sign_fields(&unsigned, 1), Ok(signed.clone()));
    assert_eq!(sign_fields(&unsigned, 0).as_deref(), Ok(&prefix[..14]));
    assert_eq!(sign_fields(&unsigned, 2), Err(Refusal::NoMessage { messages: 2 }));
    assert_eq!(sign_fields(&[], 0), Err(Refusal::NoMessage { messages: 0 }));
    let mut out = [7; 64];
    assert_eq!(sign_fields_into(&unsigned, 1, &mut out[..59]), Err(Refusal::Room { needed: 60 }));
    assert_eq!(out, [7; 64]);
    assert_eq!(sign_fields_into(&unsigned, 1, &mut out), Ok(60));
    assert_eq!((&out[..60], &out[60..]), (&signed[..], &[7; 4][..]));

    // Two messages, one with a key, among other entries. Each is signed as the neighbour reads it.
    let other = Draft { seqno: &[2; 64], data: Some(b"study 17"), topics: &["t", "", "t"], key: Some(&key), ..draft };
    let rpc = Rpc::new().graft("t").publish(&other, &[9; 64]).subscribe("t").publish(&draft, &[8; 64]).prune("u", None, &[&sender]);
    let body = rpc.write().unwrap();
    let mut neighbour = Gateway::start(SETTINGS).unwrap();
    for (index, draft, signature) in [(0, other, [9; 64]), (1, draft, [8; 64])] {
        assert_eq!(sign_bytes(V1_1, &body, index), draft.sign_fields());
        assert_eq!(sign_fields(rpc.records(), index), draft.sign_fields());
        let message = &messages(V1_1, &body).unwrap()[index];
        assert_eq!((message.from, message.seqno, message.data), (Some(draft.from), Some(draft.seqno), draft.data));
        assert_eq!((&message.topics[..], message.signature, message.key), (draft.topics, Some(&signature[..]), draft.key));
        assert_eq!(neighbour.admit(V1_1, &body, index, true, 5), Ok(Admitted::New));
    }
    // What was read can be said again: it comes out as it was read, for it is in order.
    assert_eq!(write_rpc(&decode(V1_1, &body).unwrap().records), Ok(body));

    // What admission would refuse.
    let refused = |draft: &Draft, signature: &[u8]| Rpc::new().publish(draft, signature).write().unwrap_err();
    assert_eq!(refused(&Draft { from: b"", ..draft }, &[0; 64]), Refusal::InvalidFrom { length: 0 });
    assert_eq!(refused(&Draft { from: b"gate", ..draft }, &[0; 64]), Refusal::NotPeerId);
    assert_eq!(refused(&Draft { seqno: b"", ..draft }, &[0; 64]), Refusal::InvalidSeqno);
    assert_eq!(refused(&draft, &[]), Refusal::SignatureLength { length: 0 });
    assert_eq!(refused(&draft, &[0; 63]), Refusal::SignatureLength { length: 63 });
    assert_eq!(refused(&Draft { key: Some(&KEY), ..draft }, &[0; 64]), Refusal::InvalidKey);
    assert_eq!(refused(&Draft { key: Some(&[8, 1, 0x12, 0]), ..draft }, &[0; 64]), Refusal::KeyPeerIdMismatch);
    assert_eq!(refused(&Draft { topics: &[], ..draft }, &[0; 64]), Refusal::TopicCount { topics: 0 });
    assert_eq!(refused(&Draft { topics: &["t"; 5], ..draft }, &[0; 64]), Refusal::TopicCount { topics: 5 });
    assert_eq!(refused(&Draft { topics: &["t", &"t".repeat(1025)], ..draft }, &[0; 64]), Refusal::TopicTooLong { length: 1025 });
    let large = Draft { data: Some(&[0; 4000]), ..draft };
    let two = Rpc::new().publish(&large, &[0; 64]).push(EMPTY);
    assert_eq!(two.write(), Err(Refusal::MessageTooLong { length: 4115 }));
    // Whether it can be written is not asked where the bytes to sign are.
    assert_eq!(large.sign_fields().map(|bytes| bytes.len()), Ok(60 + 4003));
    assert_eq!(Draft { topics: &["t"; 512], ..draft }.sign_fields(), Err(Refusal::TooManyRecords { records: 513 }));
    assert_eq!(Draft { topics: &["t"; 511], ..draft }.sign_fields().map(|bytes| bytes.len()), Ok(57 + 3 * 511));
}

#[test]
fn a_walk_ends() {
    let bytes = [0x1a, 0, 0x0a, 2, 8, 1, 0x80];
    let fields: Vec<_> = walk(V1_1, &bytes).map(|field| field.map(|f| (f.number, f.wire_type, f.bytes, f.end))).collect();
    assert_eq!(fields, [Ok((3, 2, &[0][..], 2)), Ok((1, 2, &[2, 8, 1][..], 6)), Err(Refusal::VarintShort { place: Place::new(6, &[]) })]);
    assert!(walk_from(V1_1, &bytes, usize::MAX).next().is_none());
}

/// An edition in which groups are skipped.
fn skipping(edition: Edition) -> Dialect {
    Dialect { edition, skip_groups: true }
}

/// A body in 1.1 or 1.2, in the first mode: type 3 or 4 is refused, by the place after its tag.
fn unsupported(wire_type: u64, offset: u64, place: usize, fields: &[u64]) -> Refusal {
    Refusal::WireType { wire_type, offset, place: Place::new(place, fields) }
}

/// The scope's rows on groups that are accepted: what each is written as, and how the first mode refuses it.
#[test]
fn groups_that_are_skipped() {
    let (deep, inside) = ([[0x0b; 32], [0x0c; 32]].concat(), [&[0x1a, 0x40][..], &[0x0b; 32], &[0x0c; 32]].concat());
    let message = [0x12, 8, 0x0a, 1, 0x42, 0x0b, 0x0a, 1, 0x41, 0x0c];
    type Row<'a> = (&'a [u8], &'a [u8], Refusal);
    let rows: [Row; 11] = [
        (&[0x0b, 0x0c], &[], unsupported(3, 1, 1, &[])),
        (&[0x1b, 0x1c], &[], unsupported(3, 1, 1, &[])),
        (&[0x83, 1, 0x84, 1], &[], unsupported(3, 2, 2, &[])),
        (&[0x0b, 0x13, 0x14, 0x0c], &[], unsupported(3, 1, 1, &[])),
        (&deep, &[], unsupported(3, 1, 1, &[])),
        (&inside, &[0x1a, 0], unsupported(3, 1, 3, &[3])),
        (&[0x12, 2, 0x0b, 0x0c], &[0x12, 2, 0x0b, 0x0c], unsupported(3, 1, 3, &[2])),
        (&message, &message, unsupported(3, 4, 6, &[2])),
        (&[0x1a, 2, 0x0b, 0x0c], &[0x1a, 0], unsupported(3, 1, 3, &[3])),
        (&[0x0a, 5, 0x0b, 0x12, 1, 0xff, 0x0c], &[0x0a, 0], unsupported(3, 1, 3, &[1])),
        (&[0x0b, 0x10, 0x96, 1, 0x0c, 0x1a, 0], &[0x1a, 0], unsupported(3, 1, 1, &[])),
    ];
    let mut first = Gateway::start(SETTINGS).unwrap();
    let second = Gateway::start(Settings { skip_groups: true, ..SETTINGS }).unwrap();
    for (body, written, refusal) in rows {
        for edition in [V1_1, V1_2] {
            refused_by_each(&mut first, edition, body, refusal);
            assert_eq!(reencode(skipping(edition), body).as_deref(), Ok(written), "{body:02x?}");
            assert_eq!(second.ask(edition, body), Ok(vec![]));
            assert_eq!(second.serve_without(edition, body, body), Ok(Reply { body: vec![], messages: 0, left: 0 }));
        }
    }
    // Bytes that are not read are the same in both modes; what is read in a control of 1.2 is not.
    for dialect in [Dialect::from(V1_1), Dialect::from(V1_2), skipping(V1_1), skipping(V1_2)] {
        assert_eq!(reencode(dialect, &[0x2a, 1, 0x0b]), Ok(vec![]));
    }
    let declined = [0x1a, 3, 0x2a, 1, 0x0b];
    assert_eq!((reencode(skipping(V1_1), &declined), reencode(skipping(V1_2), &declined)), (Ok(vec![0x1a, 0]), Err(Refusal::GroupOpen)));
    // What a message holds, and what is signed: nothing of a group.
    let read = messages(skipping(V1_1), &message).unwrap();
    assert_eq!((read[0].raw, read[0].from, read[0].topics.len()), (&message[2..], Some(&b"B"[..]), 0));
    assert_eq!(sign_bytes(skipping(V1_1), &message, 0).unwrap(), b"libp2p-pubsub:\x0a\x01\x42");
    assert_eq!(sign_bytes(skipping(V1_1), &[0x12, 2, 0x0b, 0x0c], 0).unwrap(), b"libp2p-pubsub:");
    // A walk has a group as one field.
    let body = [0x0b, 0x10, 0x96, 1, 0x0c, 0x1a, 0];
    let fields: Vec<_> = walk(skipping(V1_1), &body).map(|field| field.map(|f| (f.number, f.wire_type, f.bytes, f.end))).collect();
    assert_eq!(fields, [Ok((1, 3, &[0x10, 0x96, 1, 0x0c][..], 5)), Ok((3, 2, &[0][..], 7))]);
    assert_eq!(walk(V1_1, &body).next(), Some(Err(unsupported(3, 1, 1, &[]))));
    assert_eq!(walk_from(skipping(V1_2), &body, 1).nth(1), Some(Err(Refusal::EndGroup)));
}

/// The scope's rows on groups that are refused: by every call that reads a body, and where no submessage is around them by a walk.
#[test]
fn groups_that_are_refused() {
    let (deeper, closed) = ([0x0b; 33], [[0x0b; 33], [0x0c; 33]].concat());
    let (deep, none) = ([0x0b; 32], [&[0x0b; 32][..], &[3]].concat());
    let place = |offset| Place::new(offset, &[]);
    let rows: [(&[u8], Refusal); 18] = [
        (&[0x0b], Refusal::GroupOpen),
        (&[0x0b, 8, 1], Refusal::GroupOpen),
        (&[0x1a, 1, 0x0b, 0x0c], Refusal::GroupOpen),
        (&deep, Refusal::GroupOpen),
        (&[0x0c], Refusal::EndGroup),
        (&[0x0b, 0x14], Refusal::EndGroup),
        (&[0x0b, 0x13, 0x0c], Refusal::EndGroup),
        (&[0x0b, 0x0c, 0x0c], Refusal::EndGroup),
        (&[0x12, 1, 0x0c], Refusal::EndGroup),
        (&deeper, Refusal::GroupDepth),
        (&closed, Refusal::GroupDepth),
        (&none, Refusal::FieldNumber { number: 0, offset: 32, place: place(32) }),
        (&[0x0b, 4], Refusal::FieldNumber { number: 0, offset: 1, place: place(1) }),
        (&[0x0b, 0x0e], Refusal::WireType { wire_type: 6, offset: 2, place: place(2) }),
        (&[0x0b, 0x0a, 5, 8], Refusal::FieldOverflow { offset: 3, length: 5, remaining: 1, place: place(3) }),
        (&[0x0b, 8], Refusal::VarintShort { place: place(2) }),
        (&[0x0b, 0x80], Refusal::VarintShort { place: place(1) }),
        (&[0x0b, 0x8c, 0], Refusal::VarintNotMinimal { place: place(1) }),
    ];
    let mut gateway = Gateway::start(Settings { skip_groups: true, ..SETTINGS }).unwrap();
    for (body, refusal) in rows {
        for edition in [V1_1, V1_2] {
            refused_by_each(&mut gateway, edition, body, refusal);
            assert_eq!(gateway.serve_without(edition, &[], body), Err(refusal));
        }
        // A walk enters no submessage; what stands behind one is at the top.
        let walked = match body {
            [0x12, ..] => None,
            [0x1a, ..] => Some(Refusal::EndGroup),
            _ => Some(refusal),
        };
        assert_eq!(walk(skipping(V1_1), body).find_map(Result::err), walked, "{body:02x?}");
        if matches!(refusal.number(), 14..=16) {
            assert_eq!((refusal.values(), refusal.place()), (vec![], None));
        }
    }
    // What the first mode refuses is refused alike, but for types 3 and 4.
    let first = Gateway::start(SETTINGS).unwrap();
    for body in [&[0x80][..], &[0], &[0x0e], &[0x0f], &[0x0a, 5, 8], &[0x0a, 3, 0x12, 1, 0xff]] {
        assert_eq!((gateway.ask(V1_1, body), walk(skipping(V1_1), body).next()), (first.ask(V1_1, body), walk(V1_1, body).next()));
    }
}

/// A group of 32,767 fields, the most that a body has room for, and groups 32 deep need no more stack than the header says.
#[test]
fn groups_on_a_small_stack() {
    let wide = [&[0x0b][..], &[8, 0].repeat(32_767), &[0x0c]].concat();
    let deep = [[0x0b; 32], [0x0c; 32]].concat().repeat(1024);
    let run = move || {
        let gateway = Gateway::start(Settings { skip_groups: true, ..SETTINGS }).unwrap();
        for body in [&wide, &deep] {
            assert_eq!((body.len(), reencode(skipping(V1_2), body), gateway.ask(V1_2, body)), (65_536, Ok(vec![]), Ok(vec![])));
            assert_eq!(walk(skipping(V1_2), body).filter(Result::is_ok).count(), if body == &wide { 1 } else { 1024 });
        }
    };
    std::thread::Builder::new().stack_size(1 << 20).spawn(run).unwrap().join().unwrap();
}

/// Messages that have a group: a gateway that skips groups keeps and serves them as they came, and one that does not refuses the whole reply.
#[test]
fn groups_between_gateways() {
    let sender = notice(&peer_id(KEY));
    let (x, plain) = (sender.body(), sender.seqno(Some(&[2])).body());
    let grouped = field(2, &[&x[2..], &[0x0b, 0x22, 1, 0xff, 0x0c]].concat());
    let dialect = skipping(V1_1);
    // The id and what is signed are those of the message without its group; a topic in a group is none, and is not tested.
    assert_eq!((message_id(dialect, &grouped, 0), sign_bytes(dialect, &grouped, 0)), (message_id(V1_1, &x, 0), sign_bytes(V1_1, &x, 0)));
    assert_eq!(messages(dialect, &grouped).unwrap()[0].topics, ["t"]);
    let settings = Settings { skip_groups: true, ..SETTINGS };
    let (mut one, mut other, mut first) = (Gateway::start(settings).unwrap(), Gateway::start(settings).unwrap(), Gateway::start(SETTINGS).unwrap());
    assert_eq!((one.settings(), one.dialect(V1_1)), (settings, dialect));
    assert_eq!(one.admit(V1_1, &grouped, 0, true, 5), Ok(Admitted::New));
    assert_eq!((one.admit(V1_1, &x, 0, true, 5), one.admit(V1_1, &plain, 0, true, 5)), (Ok(Admitted::Duplicate), Ok(Admitted::New)));
    assert!(Gateway::load(&one.save()).unwrap() == one);
    // They catch up with each other, and then make the same advertisement.
    let offer = one.advertise(b"t", 1).unwrap();
    let reply = one.serve(V1_1, &other.ask(V1_1, &offer).unwrap()).unwrap();
    assert_eq!(reply, Reply { body: [&grouped[..], &plain].concat(), messages: 2, left: 0 });
    assert_eq!([0, 1].map(|index| other.admit(V1_1, &reply.body, index, true, 7)), [Ok(Admitted::New), Ok(Admitted::New)]);
    assert_eq!(other.advertise(b"t", 1), Ok(offer.clone()));
    // One in the first mode asks for both, refuses the reply, and asks for both again.
    let request = first.ask(V1_1, &offer).unwrap();
    for index in [0, 1] {
        assert_eq!(first.admit(V1_1, &reply.body, index, true, 7), Err(unsupported(3, 113, 115, &[2])));
    }
    assert_eq!((first.ask(V1_1, &offer), first.seen()), (Ok(request.clone()), 0));
    // The second body of serve is read in the gateway's mode, too.
    let unwanted = [&[0x0b, 0x0c][..], &named(5, &[&message_id(V1_1, &x, 0).unwrap()])].concat();
    assert_eq!(one.serve_without(V1_1, &request, &unwanted), Ok(Reply { body: plain.clone(), messages: 1, left: 0 }));
    assert_eq!(first.admit(V1_1, &plain, 0, true, 7), Ok(Admitted::New));
    assert_eq!(first.serve_without(V1_1, &request, &unwanted), Err(unsupported(3, 1, 1, &[])));
}

/// Saved and loaded after every call, as a host might do it, each time with a new clock. An hour of ttl: the test may be slow.
#[test]
fn a_state_is_saved_and_loaded() {
    let mut gateway = Gateway::start(Settings { ttl: 3_600_000, ..SETTINGS }).unwrap();
    let mut clock = Clock::after(&gateway);
    for key in b'A'..b'H' {
        assert_eq!(gateway.admit(V1_1, &body(key), 0, true, clock.now()), Ok(Admitted::New));
        let loaded = Gateway::load(&gateway.save()).unwrap();
        assert!(loaded == gateway);
        assert_eq!(loaded.advertise(b"t", 2), gateway.advertise(b"t", 2));
        gateway = loaded;
        clock = Clock::after(&gateway);
        assert_eq!(gateway.admit(V1_1, &body(key), 0, true, clock.now()), Ok(Admitted::Duplicate));
    }
    let saved = gateway.save();
    assert!(matches!(Gateway::load(&[]), Err(LoadError::Short { found: 0 })));
    assert!(matches!(Gateway::load(&saved[1..]), Err(LoadError::Name)));
    assert!(matches!(Gateway::load(&[0; NODE_SIZE]), Err(LoadError::Name)));
    assert!(matches!(Gateway::load(&saved[..100]), Err(LoadError::Length { found: 64, .. })));
}

/// Bytes of a node or a store changed, past the header: a call on them is refused, or they are well formed and it answers. A call may then leave a
/// state that is refused: with another ttl the next expiry may fall below the last one.
#[test]
fn damage_is_refused_or_harmless() {
    let mut gateway = Gateway::start(SETTINGS).unwrap();
    for key in b'A'..b'D' {
        gateway.admit(V1_1, &body(key), 0, true, 5).unwrap();
    }
    let (node, seen, cache) = gateway.parts();
    let whole = [&node[..], seen, cache].concat();
    let mut refused = 0;
    for at in (0..whole.len()).step_by(7).chain(0..160) {
        let mut bytes = whole.clone();
        bytes[at] ^= 0x81;
        let (node, stores) = bytes.split_at(NODE_SIZE);
        let (seen, cache) = stores.split_at(seen.len());
        let mut other = Gateway::from_parts(Box::new(node.try_into().unwrap()), seen.to_vec(), cache.to_vec());
        let (before, clock) = (other.clone(), other.clock());
        let loaded = Gateway::load(&other.save());
        assert_eq!(other.explain(&id(b'A', 1), b"t", 1).is_err(), loaded.is_err());
        match other.admit(V1_1, &body(b'Z'), 0, true, clock) {
            Err(refusal) => {
                assert!(matches!(refusal.number(), 40..=42));
                assert!(other == before && matches!(loaded, Err(LoadError::Refused(Refusal::BadStore | Refusal::Malformed))));
                refused += 1;
            }
            Ok(_) => {
                assert!(loaded.is_ok_and(|loaded| loaded == before));
                assert!(matches!(other.heartbeat(clock), Ok(()) | Err(Refusal::Malformed)));
            }
        }
    }
    assert!(refused > 40, "{refused}");
}
