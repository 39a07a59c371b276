/*
 * Pradulins: a gossip node for gateways, and the reading and writing of gossipsub bodies, as C programs link them. The archive is made by
 * `tools/build pradulins` (target/staticlib/libpradulins.a, x86-64 Linux).
 *
 * Every call but those of "the archive", below, returns 0 or the number of a refusal (PRADULINS_..., below); where it is lent `values`, it hands numbers out in
 * them, from the first on: what it did, or what stands beside the refusal. A refusal 1 to 7 of a body also says where in the body it stands, from values[4] on
 * ("sizes", below). Entries of `values` that a call does not name are left as they were. A refused call changes no other memory: not the node, not the stores, not
 * the buffer or the table. A call that succeeds writes only the bytes or records that it counts.
 *
 * The library keeps nothing itself and allocates nothing. A node lives in PRADULINS_NODE_SIZE bytes and two stores, all three the host's own; they may
 * be copied, saved and loaded as bytes. Every call that is lent all three tests them anew, so bytes that are no node are refused and harm nothing. What calls make
 * of a node, beginning with pradulins_start, is always well formed; a number that was changed from outside and still fits the others (a clock, a ttl) is not found out.
 *
 * What a caller owes, as in any C program: each pointer is to as many elements as are said beside it, and is not null, also where the number is 0;
 * what a call may write (the pointers that are not const) overlaps nothing else that is passed to it; numbers of 64 bits are aligned; `verified` is
 * 0 or 1. Two calls on one node must not run at once; apart from that, threads need no lock. The calls take some stack; 1 MB is more than enough, also where groups
 * stand in one another ("groups", below), which takes some 65 frames more at most.
 */
#ifndef PRADULINS_H
#define PRADULINS_H

#include <stdbool.h>
#include <stddef.h>
#include <stdint.h>

#ifdef __cplusplus
extern "C" {
#endif

/* ---- version */

/*
 * The version that this header is of, 0.9.0: 10000 times the first number, 100 times the second, and the third. pradulins_version() is that of the archive.
 * Since 0.4.0 `values` has 8 numbers, where it had 4; since 0.7.0 pradulins_start and pradulins_write_rpc have an argument more, since 0.8.0 all calls that read a
 * body, but for pradulins_walk, and since 0.9.0 that one, too: a program that was made with an earlier header is not to be linked with this archive. Make it anew, and
 * hold pradulins_version() to PRADULINS_VERSION before the first call.
 * Since 0.5.0 a message's from is a peer id, and pradulins_admit meets 34, 35 and 36 ("senders", below).
 * Since 0.6.0 a host speaks first: pradulins_write_rpc and pradulins_sign_fields ("speaking first", below), and the refusal 13.
 * Since 0.7.0 a node has flags, of which the first allows messages that nobody signed ("flags", below); with flags 0 every answer is as before.
 * Since 0.8.0 a body is read in an edition of gossipsub, 1.1 or 1.2 ("editions", below), and pradulins_serve can be lent a second body; in 1.1, and without a second body,
 * every answer is as before.
 * Since 0.9.0 groups can be skipped where they were refused ("groups", below): a bit of a dialect and a flag of a node, and the refusals 14, 15 and 16; without that bit
 * and that flag every answer is as before.
 * The format is that of a node's bytes and its stores: a state that was saved under another format is not to be loaded. pradulins_format() is the archive's: hold
 * it to PRADULINS_FORMAT before the first call, since a node of another format may have another length. Format 3 came with 0.7.0: a node keeps its flags in 8 bytes at
 * its end, and has 12,440 bytes where it had 12,432. Nodes of the formats 1 and 2 are not taken over: start anew, and catch up.
 */
#define PRADULINS_VERSION 900
#define PRADULINS_FORMAT 3

/* ---- sizes */

/* A node, in bytes. It needs no alignment. */
#define PRADULINS_NODE_SIZE 12440

/* The seen store has max_seen rows, the cache store max_messages places: exactly so many bytes. */
#define PRADULINS_SEEN_ROW 129
#define PRADULINS_CACHE_PLACE 4096
#define PRADULINS_SEEN_STORE_SIZE(max_seen) ((size_t)(max_seen) * PRADULINS_SEEN_ROW)
#define PRADULINS_CACHE_STORE_SIZE(max_messages) ((size_t)(max_messages) * PRADULINS_CACHE_PLACE)

/* The largest settings; history_len is at least 1. */
#define PRADULINS_MAX_SEEN 256
#define PRADULINS_MAX_HISTORY 16
#define PRADULINS_MAX_MESSAGES 64

/* The largest body, and the most records that a body may have. */
#define PRADULINS_MAX_BODY 65536
#define PRADULINS_MAX_RECORDS 512

/* Room that is always enough: for advertise, ask, serve, encode and write_rpc; for sign_bytes (and sign_fields, see there); for message_id. */
#define PRADULINS_OUT_SIZE 65536
#define PRADULINS_SIGN_SIZE 65550
#define PRADULINS_ID_SIZE 128

/* How many numbers `values` has. */
#define PRADULINS_VALUES 8

/*
 * Where in the body a refusal 1 to 7 stands. values[PRADULINS_OFFSET]: how many bytes after the start of the whole body. For 1 to 3 that is the first byte of
 * the varint, or where it was to begin, and for 4 to 7 the point that the offset among the first values names within the innermost field. From
 * values[PRADULINS_FIELDS] on: the numbers of the fields that enclose it, the outermost first, at most three, 0 for none; the refused field is not among them.
 */
#define PRADULINS_OFFSET 4
#define PRADULINS_FIELDS 5
#define PRADULINS_MAX_FIELDS 3

/* ---- refusals, and what `values` gets beside each. Offsets here count from the start of the innermost field that encloses the refused one */

#define PRADULINS_OK 0
#define PRADULINS_VARINT_SHORT 1        /* a varint is cut short */
#define PRADULINS_VARINT_OVERFLOW 2     /* a varint is above 64 bits */
#define PRADULINS_VARINT_NOT_MINIMAL 3  /* a varint is longer than it needs to be */
#define PRADULINS_FIELD_OVERFLOW 4      /* a field passes the end: offset, length, remaining */
#define PRADULINS_WIRE_TYPE 5           /* a wire type other than 0, 1, 2, 5, where groups are skipped other than 0 to 5: type, offset */
#define PRADULINS_FIELD_NUMBER 6        /* a field number outside 1 to 536870911: number, offset */
#define PRADULINS_END_GROUP 14          /* an end tag with no open group, or of another number */
#define PRADULINS_GROUP_DEPTH 15        /* groups more than 32 deep */
#define PRADULINS_GROUP_OPEN 16         /* the body, or the submessage, ends inside a group */
#define PRADULINS_UTF8 7                /* a topic is not UTF-8: offset; of rows that are lent, where it begins in their bytes */
#define PRADULINS_BODY_TOO_LARGE 10     /* a body above PRADULINS_MAX_BODY bytes: its length */
#define PRADULINS_TOO_MANY_RECORDS 11   /* above PRADULINS_MAX_RECORDS records, or rows: their number */
#define PRADULINS_ROOM 12               /* the table or the buffer is too short: the room needed, in records or bytes */
#define PRADULINS_RPC_TOO_LONG 13       /* an RPC to be written above PRADULINS_MAX_BODY bytes: its length */
#define PRADULINS_NO_MESSAGE 20         /* no message at that index: the number of messages */
#define PRADULINS_MISSING_FROM 21       /* the message has no from */
#define PRADULINS_INVALID_FROM 22       /* from has 0 or above 64 bytes: its length */
#define PRADULINS_INVALID_SEQNO 23      /* seqno is missing, or has 0 or above 64 bytes */
#define PRADULINS_KEY_WITHOUT_SIGNATURE 24
#define PRADULINS_MISSING_SIGNATURE 25  /* no signature and no key, where unsigned messages are not allowed */
#define PRADULINS_SIGNATURE_LENGTH 26   /* the signature does not have 64 bytes: its length */
#define PRADULINS_NOT_VERIFIED 27       /* the host did not verify the signature */
#define PRADULINS_TOPIC_COUNT 28        /* a message of 0 or above 4 topics: their number */
#define PRADULINS_TOPIC_TOO_LONG 29     /* a topic above 1,024 bytes: its length */
#define PRADULINS_MESSAGE_TOO_LONG 30   /* a message above 4,096 bytes: its length */
#define PRADULINS_CLOCK_BACK 31         /* the reading is before the node's clock: the clock */
#define PRADULINS_NOT_PEER_ID 34        /* from is no peer id */
#define PRADULINS_INVALID_KEY 35        /* the message has a key, and it does not decode */
#define PRADULINS_KEY_MISMATCH 36       /* the key is not the one that from holds; or there is none, neither in the message nor in from */
#define PRADULINS_BAD_SETTING 40        /* a setting out of range, flags that are not known, or a seen store shorter than max_seen rows */
#define PRADULINS_BAD_STORE 41          /* a store whose length the settings do not say */
#define PRADULINS_MALFORMED 42          /* node and stores, or the rows of an RPC, are not well formed */

/* ---- records: what pradulins_decode writes for each, and what pradulins_write_rpc reads, in 20 numbers */

#define PRADULINS_RECORD_WORDS 20
#define PRADULINS_TABLE_WORDS (PRADULINS_MAX_RECORDS * PRADULINS_RECORD_WORDS)

/*
 * The numbers of a record: its kind; where its bytes begin and end in the body; then its number, as 1 and the value, or 0 and 0; then its five fields,
 * each as 1, start and end, or as 0, 0 and 0 where it is absent. Starts and ends of fields are counted from the record's own start.
 */
#define PRADULINS_RECORD_KIND 0
#define PRADULINS_RECORD_START 1
#define PRADULINS_RECORD_END 2
#define PRADULINS_RECORD_HAS_NUMBER 3
#define PRADULINS_RECORD_NUMBER 4
#define PRADULINS_RECORD_FIELD(i) (5 + 3 * (i)) /* i is 0 to 4: the place of its three numbers */

#define PRADULINS_KIND_SUB_OPTS 1    /* number: subscribe, true for all but 0. Field 0: topic_id */
#define PRADULINS_KIND_MESSAGE 2     /* fields: from, data, seqno, signature, key */
#define PRADULINS_KIND_TOPIC 3       /* a topic of the message before it: all its bytes */
#define PRADULINS_KIND_IHAVE 5       /* field 0: topic_id */
#define PRADULINS_KIND_IWANT 6
#define PRADULINS_KIND_MESSAGE_ID 7  /* an id of the IHAVE, IWANT or IDONTWANT before it: all its bytes */
#define PRADULINS_KIND_GRAFT 8       /* field 0: topic_id */
#define PRADULINS_KIND_PRUNE 9       /* field 0: topic_id. Number: backoff */
#define PRADULINS_KIND_PEER_INFO 10  /* of the PRUNE before it. Fields: peer_id, signed_peer_record */
#define PRADULINS_KIND_IDONTWANT 11  /* in edition 1.2 alone. Its ids follow it, as those of an IWANT do */

/* ---- editions */

/*
 * A stream speaks one edition of gossipsub: the one that both sides agreed on when it was opened (/meshsub/1.1.0 or /meshsub/1.2.0). So each call that reads a body is told
 * the edition of the stream that the body came by. It is no setting of a node, and one node may be given bodies of either. An older stream is read as 1.1.
 *
 * What 1.2 adds is the IDONTWANT: field 5 of a control, with ids in its field 1. Whoever sends it has these messages, and does not want to be sent them. In 1.1 this field
 * is skipped as an unknown one, whatever it holds. In 1.2 it is read: what is wrong in it is refused (1 to 6, with a place in the fields 3, 5), the IDONTWANT and each of
 * its ids are records, and pradulins_encode writes IDONTWANTs behind the PRUNEs. All else is read alike, and a message is the same in both. A body that is accepted in 1.2
 * is accepted in 1.1; one without such a field gets the same answers in both.
 *
 * `edition`, of calls on a node, is one of these two: only the lowest bit counts; leave the others 0. `dialect`, of calls on a body alone, is one of them, and where groups
 * are to be skipped also PRADULINS_GROUPS ("groups", below).
 */
#define PRADULINS_V1_1 0
#define PRADULINS_V1_2 1

/* ---- groups */

/*
 * A group is an old form of a field: a start tag (wire type 3), fields, and an end tag (wire type 4) of the same number. Some software sends groups as fields that nobody
 * knows. There are two modes of reading. In the first a tag of type 3 or 4 is refused (5), as in the Rust. In the second, which PRADULINS_GROUPS stands for, a group is
 * skipped from its start tag up to its end tag, whatever its number. What stands in it is no field of the message around it: no record, no text that is tested. A group's
 * fields may be groups again.
 *
 * Refused are, in the second mode: an end tag where no group is open, or whose number is not that of the group that was opened last (14); a start tag where 32 groups are
 * open (15); a body that ends inside a group (16). Each submessage is a body of its own: no group is open where it begins, and one that is open where it ends is 16. Beside
 * 14 to 16 stands nothing, and they have no place. Types 6 and 7 are 5 as before. 1 to 6 are met inside a group, too: their offsets and places are as elsewhere, and the
 * fields that enclose a place are submessages only. Of 1 to 7 and 14 to 16 the first in reading order is given.
 *
 * What the first mode accepts the second accepts, and it means the same. The two differ only where the first refuses type 3 or 4.
 *
 * A call on a body takes the mode in `dialect`: PRADULINS_V1_2 | PRADULINS_GROUPS, for example; only the two lowest bits count, leave the others 0. Of a node it is a flag
 * ("flags", below), chosen at start: the node reads every body in its mode, the second one of pradulins_serve and the messages that it keeps, too.
 *
 * pradulins_encode drops groups outside messages; a message keeps all its bytes, groups with them. Sign bytes hold none. So a gateway in the second mode passes messages on
 * that neighbours in the first mode refuse: with one such message they refuse the whole body (5), and ask for all of it again. All gateways of a mesh must be set alike.
 */
#define PRADULINS_GROUPS 2

/* ---- senders */

/*
 * The from of a message that is admitted is a libp2p peer id, else it is refused (34). A peer id has one of two forms:
 *
 *     00 n KEY      a key of n bytes, at most 42. An Ed25519 sender is 00 24 08 01 12 20 and the 32 bytes of its key, 38 bytes in all
 *     12 20 HASH    32 bytes, the SHA-256 of a key
 *
 * A key is a libp2p public key: 08 TYPE 12, the length of DATA as a minimal varint, DATA, and nothing else; TYPE is 0 (RSA), 1 (Ed25519), 2 (Secp256k1) or
 * 3 (ECDSA). What a message has as its key must be one (35). Where from is 00 n KEY, that must be KEY; a message without a key needs a KEY that is one. Where
 * from is 12 20 HASH, the message must have a key (36).
 *
 * `verified` is the host's word: the signature verifies over pradulins_sign_bytes under the message's key, or where it has none, under KEY; and HASH is the SHA-256
 * of that key. The library does no cryptography: it tests neither, nor whether DATA is fit for its TYPE. Calls on ids (pradulins_message_id, pradulins_explain)
 * do not ask for a peer id.
 */

/* ---- flags */

/*
 * A node's flags are one number, in which each bit is a flag; pradulins_write_rpc is given the same. 0 is none of them, and is what a gateway in production has. A
 * number with another bit than the two is refused: 40 at start and by pradulins_write_rpc, 42 where it stands in a node that is lent.
 *
 * PRADULINS_ALLOW_UNSIGNED is for a training mesh, whose gateways have no keys. A message with neither signature nor key is then admitted, and written by
 * pradulins_write_rpc, if it passes what is left to test: 21, 22, 34, 23, 28, 29, 30. `verified` says nothing of it, and whoever sends it can put any sender
 * into it. So NEVER SET THIS FLAG IN PRODUCTION. What is signed is tested as without the flag, 27 with it, and a key without a signature is refused (24) either way.
 *
 * - Signed and unsigned messages are seen apart. Only among the ones or the others is a message called new exactly once: a signed and an unsigned message
 *   with the same id both come out new, in either order. The cache keeps the one that came first, and serves that.
 * - With the flag, pradulins_ask takes an id for seen where either was seen; without it, where the signed one was.
 * - Unsigned messages take their places among max_seen and max_messages as others do: a flood of them, which anybody can make, drives signed ids out of the list
 *   of seen ids, and signed messages that come in again are then new.
 * - All gateways of a mesh must be set alike. One without the flag that catches up with one that has it asks for unsigned messages, refuses each (25), and asks again.
 *
 * PRADULINS_GROUPS is the mode of reading ("groups", above). What pradulins_write_rpc writes has no groups, so the flag changes nothing there.
 *
 * Flags are chosen at start, each by itself: PRADULINS_ALLOW_UNSIGNED | PRADULINS_GROUPS are both. In a node's bytes they can be changed from outside: turned off while a
 * message is cached that needs it (an unsigned one, or one that has a group), the node is not well formed (42); turned on, nothing finds it out.
 */
#define PRADULINS_ALLOW_UNSIGNED 1

/* ---- the node */

/*
 * Clocks. `at` is a reading in milliseconds (or another unit: that of ttl). A reading below the node's clock is refused (31), and one that is ttl or more
 * above the last empties the list of seen ids, as its rules say; so do not pass the wall clock, which steps. Take it once, at start, or the node's clock
 * (pradulins_state) if that is later, and from then on add what a clock says that never steps:
 *
 *     first = later of CLOCK_REALTIME, in UTC milliseconds, and the clock of the node that was loaded;     since = CLOCK_MONOTONIC;
 *     at = first + (CLOCK_MONOTONIC - since)
 *
 * One such clock for each node, made once. Where a node was loaded and first is ttl or more above its clock, the next admit or heartbeat forgets all that it has
 * seen: after a short stop that means a wrong clock, so stop and ask a person.
 *
 * Saved states. Bytes that were changed on disk may still be well formed: no call finds another byte of stored data or of an id in the seen store, or a clock that
 * was moved; the newest expiry far ahead is found (42) only after the next new notice. Keep a checksum over node and stores, with PRADULINS_FORMAT and the length,
 * and test it before they are used; write a new file beside the old one, flush it, and rename it over the old one, so that a crash leaves one of the two.
 * examples/c/gateway.c does all of this; docs/OPERATING.md says more.
 */

/*
 * Makes a node that holds nothing, with its clock at 0. An id counts as seen for `ttl` units of the host's clock; at most `max_seen` ids (0 to 256) and
 * `max_messages` messages (0 to 64) are kept, messages for `history_len` windows (1 to 16). `flags` is 0, or what is said under "flags",
 * above. The stores' content does not matter yet.
 * Refused: 40.
 */
uint32_t pradulins_start(uint8_t node[PRADULINS_NODE_SIZE], uint64_t ttl, size_t max_seen, size_t history_len, size_t max_messages, uint32_t flags);

/*
 * Admits the message at `index` of `body` (from 0), read in `edition`, where `verified` is the host's word on its signature ("senders", above), and `at` the reading
 * of the host's clock. The node drops the ids whose time is over, and then takes the message if its id is not seen.
 * values[0]: 1 where the message is new, and was stored; 0 where it is a duplicate. Both set the clock.
 * From pradulins_start on no id is new twice (a signed message's and an unsigned one's are two), unless `at` is ttl or more above that of the first time, or max_seen or more other
 * ids were new between; readings that step back are refused and change nothing of this. So choose a ttl above the time in which a message can still come in
 * again, and then a max_seen so large that at most max_seen + 1 messages are new within any stretch of ttl: docs/OPERATING.md, "Sizes". This is of readings below 2^64 - 1.
 * Refused: 40, 41, 42, 10, 1 to 7 and 14 to 16, 11, 20, 21, 22, 34, 23, 24 or 25, 26, 35, 36, 27, 28, 29, 30, 31, in this order (14 to 16 by a node that skips groups,
 * here and below). Where unsigned messages are allowed ("flags", above), one with neither signature nor key meets none of 25, 26, 35, 36 and 27, whatever `verified` is.
 */
uint32_t pradulins_admit(uint8_t node[PRADULINS_NODE_SIZE], uint8_t *seen_store, size_t seen_store_len, uint8_t *cache_store,
                         size_t cache_store_len, uint32_t edition, const uint8_t *body, size_t body_len, size_t index, bool verified, uint64_t at,
                         uint64_t values[PRADULINS_VALUES]);

/*
 * Opens a window, at a reading of the host's clock: drops the ids whose time is over and the messages beyond history_len windows, and sets the clock.
 * values: nothing.
 * Refused: 40, 41, 42, 31.
 */
uint32_t pradulins_heartbeat(uint8_t node[PRADULINS_NODE_SIZE], const uint8_t *seen_store, size_t seen_store_len, const uint8_t *cache_store,
                             size_t cache_store_len, uint64_t at, uint64_t values[PRADULINS_VALUES]);

/*
 * Writes to `out` a body that offers the messages of a topic in the newest `windows` windows: one IHAVE with their ids in byte order.
 * values[0]: how many bytes were written; 0 where there is nothing to offer.
 * Refused: 40, 41, 42, 29, 12.
 */
uint32_t pradulins_advertise(const uint8_t node[PRADULINS_NODE_SIZE], const uint8_t *seen_store, size_t seen_store_len, const uint8_t *cache_store,
                             size_t cache_store_len, const uint8_t *topic, size_t topic_len, size_t windows, uint8_t *out, size_t out_len,
                             uint64_t values[PRADULINS_VALUES]);

/*
 * Says whether `id` stands in the body that pradulins_advertise writes for the same topic and windows, and if not, why. Only cached messages are looked at: one
 * that was seen may have left the cache. `id` is a message's from and its seqno, as an IHAVE has it, and may have any length; one that is empty or longer than
 * PRADULINS_ID_SIZE is not cached. Where both topic and window rule it out, the topic is named. A topic that is not UTF-8 is carried by no message.
 * values[0]: one of the four PRADULINS_OFFER_... below; beside the last of them values[1]: the age of the window, 0 for the newest.
 * Refused: 40, 41, 42, 29.
 */
uint32_t pradulins_explain(const uint8_t node[PRADULINS_NODE_SIZE], const uint8_t *seen_store, size_t seen_store_len, const uint8_t *cache_store,
                           size_t cache_store_len, const uint8_t *id, size_t id_len, const uint8_t *topic, size_t topic_len, size_t windows,
                           uint64_t values[PRADULINS_VALUES]);

#define PRADULINS_OFFER_LISTED 0        /* it is in the advertisement */
#define PRADULINS_OFFER_NOT_CACHED 1    /* no message with that id is in the cache */
#define PRADULINS_OFFER_WITHOUT_TOPIC 2 /* its message is in the cache, without that topic */
#define PRADULINS_OFFER_OLDER_WINDOW 3  /* its message is in the cache with that topic, in a window that the newest `windows` do not reach */

/*
 * Writes to `out` a body that requests what `body`, read in `edition`, offers and the node has not seen ("flags", above): one IWANT, each id once.
 * values[0]: how many bytes were written; 0 where there is nothing to ask for.
 * Refused: 40, 41, 42, 10, 1 to 7 and 14 to 16, 11, 12.
 */
uint32_t pradulins_ask(const uint8_t node[PRADULINS_NODE_SIZE], const uint8_t *seen_store, size_t seen_store_len, const uint8_t *cache_store,
                       size_t cache_store_len, uint32_t edition, const uint8_t *body, size_t body_len, uint8_t *out, size_t out_len,
                       uint64_t values[PRADULINS_VALUES]);

/*
 * Writes to `out` a body with the cached messages that `body`, read in `edition`, requests, each once, as many as fit `out` and PRADULINS_MAX_BODY.
 *
 * `unwanted` is a second body: one that the same neighbour sent before, with IDONTWANTs in it. It is read in 1.2 whatever `edition` is. Messages with the ids of its
 * IDONTWANTs are passed over, and are counted neither as written nor as left out. What else stands in it changes nothing, and neither do IDONTWANTs in `body` itself. Where
 * `unwanted_len` is 0 there is none, wherever `unwanted` points to: pass `body, 0`, for example.
 *
 * values[0]: how many bytes were written; values[1]: how many messages these are; values[2]: how many cached ones were left out, to be requested again.
 * Refused: 40, 41, 42; 10, 1 to 7 and 14 to 16, 11 of `body`; the same of `unwanted`; 12, where not even the first message that is wanted fits, with the bytes that it
 * needs. A place (1 to 7) counts from the start of the body that is refused, and 10 and 11 are of each body by itself; which of the two it is, pradulins_decode tells.
 */
uint32_t pradulins_serve(const uint8_t node[PRADULINS_NODE_SIZE], const uint8_t *seen_store, size_t seen_store_len, const uint8_t *cache_store,
                         size_t cache_store_len, uint32_t edition, const uint8_t *body, size_t body_len, const uint8_t *unwanted,
                         size_t unwanted_len, uint8_t *out, size_t out_len, uint64_t values[PRADULINS_VALUES]);

/* ---- what a node holds */

/*
 * The settings of a node: those that it was started with. The stores' lengths follow from them, so this is the first call on a node that was saved.
 * values[0]: ttl; values[1]: max_seen; values[2]: history_len; values[3]: max_messages; values[4]: flags.
 * Refused: 42, where no node is started with them.
 */
uint32_t pradulins_settings(const uint8_t node[PRADULINS_NODE_SIZE], uint64_t values[PRADULINS_VALUES]);

/*
 * The clock and the counts of a node. It tests node and stores as every call does and writes to none of them: call it after loading a saved state.
 * values[0]: the clock, the last reading that was taken; values[1]: how many ids are kept as seen; values[2]: how many messages are kept.
 * Refused: 40, 41, 42.
 */
uint32_t pradulins_state(const uint8_t node[PRADULINS_NODE_SIZE], const uint8_t *seen_store, size_t seen_store_len, const uint8_t *cache_store,
                         size_t cache_store_len, uint64_t values[PRADULINS_VALUES]);

/* ---- bodies: each is read in the edition and the mode that `dialect` says; 14 to 16 are met where groups are skipped */

/*
 * Writes `body` anew to `out`, in canonical bytes: what means the same gives the same bytes. They are never longer than the body.
 * values[0]: how many bytes were written.
 * Refused: 10, 1 to 7 and 14 to 16, 11, 12.
 */
uint32_t pradulins_encode(uint32_t dialect, const uint8_t *body, size_t body_len, uint8_t *out, size_t out_len, uint64_t values[PRADULINS_VALUES]);

/*
 * Writes to `out` the bytes that the signature of the message at `index` is made over. They are at most 14 bytes longer than the body.
 * values[0]: how many bytes were written.
 * Refused: 10, 1 to 7 and 14 to 16, 11, 20, 12.
 */
uint32_t pradulins_sign_bytes(uint32_t dialect, const uint8_t *body, size_t body_len, size_t index, uint8_t *out, size_t out_len,
                              uint64_t values[PRADULINS_VALUES]);

/*
 * Writes to `out` the id of the message at `index`: its from and its seqno.
 * values[0]: how many bytes were written.
 * Refused: 10, 1 to 7 and 14 to 16, 11, 20, 21, 22, 23, 12.
 */
uint32_t pradulins_message_id(uint32_t dialect, const uint8_t *body, size_t body_len, size_t index, uint8_t *out, size_t out_len,
                              uint64_t values[PRADULINS_VALUES]);

/*
 * Reads a body into a table of records, 20 numbers each (see above), in the order in which the body has them. `table_len` counts numbers.
 * values[0]: how many records were written; values[1]: 1 where the body has a control, which is no record itself; else 0.
 * Refused: 10, 1 to 7 and 14 to 16, 11, 12.
 */
uint32_t pradulins_decode(uint32_t dialect, const uint8_t *body, size_t body_len, uint64_t *table, size_t table_len, uint64_t values[PRADULINS_VALUES]);

/*
 * The top-level field at a place of a body. Start at 0 and go on at values[3].
 * values[0]: the field's number, 0 at the end (then nothing else is handed out); values[1]: its wire type; values[2]: the place after its tag;
 * values[3]: the place of the next field. What the field holds is not read further than to skip it: of `dialect` the edition does not matter, and the mode does. Where
 * groups are skipped, a whole group is one field, of type 3, and the next begins behind its end tag.
 * Refused: 10, 1 to 6 and 14 to 16.
 */
uint32_t pradulins_walk(uint32_t dialect, const uint8_t *body, size_t body_len, size_t at, uint64_t values[PRADULINS_VALUES]);

/* ---- speaking first */

/*
 * An RPC of the host's own is written from rows: records as pradulins_decode writes them, 20 numbers each, over bytes that the host lends. What pradulins_decode
 * gave of a body without IHAVE, IWANT and IDONTWANT can be lent as it is, beside that body. A row that is made by hand (pradulins_row, below) has start = end = 0; then the
 * places of its fields count from the start of the lent bytes. Places may overlap, and rows may share them.
 *
 *     PRADULINS_KIND_SUB_OPTS    number: 1 subscribes and 0 ends it; any other is written as 1. Field 0: topic_id
 *     PRADULINS_KIND_MESSAGE     fields: from, data, seqno, signature, key
 *     PRADULINS_KIND_TOPIC       a topic of the last message before it: the bytes from the row's start to its end, no field
 *     PRADULINS_KIND_GRAFT       field 0: topic_id
 *     PRADULINS_KIND_PRUNE       number: backoff. Field 0: topic_id
 *     PRADULINS_KIND_PEER_INFO   a peer of the last PRUNE before it. Fields: peer_id, signed_peer_record
 *
 * Rows come in any mixture; within a kind their order is kept. A number or a field is there where its flag is not 0: absent is not empty. Fields that a kind does
 * not have are not looked at. A message is made of its fields alone: what else stood in its bytes is not written again.
 *
 * Refused are: rows that are not well formed (42), which is where a place passes the lent bytes or a start its end, also of the row itself, where
 * `records_len` is no number of whole rows, where a kind is none of these six, where a topic has no message before it or a peer no PRUNE; a topic that is not
 * UTF-8 (7), the first in the order of the rows, with where it begins in the lent bytes and no place in a body; more than PRADULINS_MAX_RECORDS rows (11).
 */

/*
 * Writes to `out` the RPC that the rows say. `records_len` counts numbers, as `table_len` of pradulins_decode does. `flags` are those of the gateways that shall admit
 * it ("flags", above): 0, or PRADULINS_ALLOW_UNSIGNED in a training mesh, for example. What is written is read back as these rows, and each of its messages is admitted by
 * a node with these flags, if its signature verifies: what admission would refuse is not written.
 * values[0]: how many bytes were written; 0 where there are no rows.
 * Refused: 40 (flags), 42, 7, 11; then message by message 21, 22, 34, 23, 26, 35, 36, 28, 29, 30; then 13, 12. A message without a signature is 26 with 0; where
 * unsigned messages are allowed, one that has no key either is written as it is, and one with a key is 24. Beside 13 and 30 stands a length that stops at 2^64 - 1.
 */
uint32_t pradulins_write_rpc(const uint64_t *records, size_t records_len, const uint8_t *bytes, size_t bytes_len, uint32_t flags, uint8_t *out,
                             size_t out_len, uint64_t values[PRADULINS_VALUES]);

/*
 * Writes to `out` the bytes that the signature of message `index` of the rows is made over (from 0, in the order of the rows): those that pradulins_sign_bytes
 * gives of the body that is written from them. The message may be without a signature still; one that is there, and a key, change nothing. PRADULINS_SIGN_SIZE is
 * room enough for each message that can be written.
 * values[0]: how many bytes were written.
 * Refused: 42, 7, 11, 20, 12. What stands beside 12 stops at 2^64 - 1.
 */
uint32_t pradulins_sign_fields(const uint64_t *records, size_t records_len, const uint8_t *bytes, size_t bytes_len, size_t index, uint8_t *out,
                               size_t out_len, uint64_t values[PRADULINS_VALUES]);

/* Makes a row of a kind by hand: everything in it is absent. For PRADULINS_KIND_TOPIC, `start` and `end` are where the topic stands; for others both are 0. */
static inline void pradulins_row(uint64_t row[PRADULINS_RECORD_WORDS], uint64_t kind, uint64_t start, uint64_t end)
{
    for (int i = 0; i < PRADULINS_RECORD_WORDS; i++)
        row[i] = 0;
    row[PRADULINS_RECORD_KIND] = kind;
    row[PRADULINS_RECORD_START] = start;
    row[PRADULINS_RECORD_END] = end;
}

/* Sets the number of a row: subscribe, or backoff. */
static inline void pradulins_row_number(uint64_t row[PRADULINS_RECORD_WORDS], uint64_t number)
{
    row[PRADULINS_RECORD_HAS_NUMBER] = 1;
    row[PRADULINS_RECORD_NUMBER] = number;
}

/* Sets field i of a row, 0 to 4: where it begins and ends, counted from the row's start. */
static inline void pradulins_row_field(uint64_t row[PRADULINS_RECORD_WORDS], int i, uint64_t start, uint64_t end)
{
    row[PRADULINS_RECORD_FIELD(i)] = 1;
    row[PRADULINS_RECORD_FIELD(i) + 1] = start;
    row[PRADULINS_RECORD_FIELD(i) + 2] = end;
}

/* ---- the archive */

/* PRADULINS_VERSION and PRADULINS_FORMAT as they were when the archive was made. */
uint32_t pradulins_version(void);
uint32_t pradulins_format(void);

/* ---- words */

/* How many of `values` a refusal gets, from the first on. */
static inline int pradulins_refusal_values(uint32_t number)
{
    switch (number) {
    case PRADULINS_FIELD_OVERFLOW: return 3;
    case PRADULINS_WIRE_TYPE:
    case PRADULINS_FIELD_NUMBER: return 2;
    case PRADULINS_UTF8:
    case PRADULINS_BODY_TOO_LARGE:
    case PRADULINS_TOO_MANY_RECORDS:
    case PRADULINS_ROOM:
    case PRADULINS_RPC_TOO_LONG:
    case PRADULINS_NO_MESSAGE:
    case PRADULINS_INVALID_FROM:
    case PRADULINS_SIGNATURE_LENGTH:
    case PRADULINS_TOPIC_COUNT:
    case PRADULINS_TOPIC_TOO_LONG:
    case PRADULINS_MESSAGE_TOO_LONG:
    case PRADULINS_CLOCK_BACK: return 1;
    default: return 0;
    }
}

/* Whether `values` also gets the place of a refusal in the body. A 7 of pradulins_write_rpc and pradulins_sign_fields, which read no body, has none. */
static inline bool pradulins_refusal_has_place(uint32_t number)
{
    return PRADULINS_VARINT_SHORT <= number && number <= PRADULINS_UTF8;
}

/* What a refusal means, in a few words; never null. It is for people: programs go by the number. */
static inline const char *pradulins_refusal_text(uint32_t number)
{
    switch (number) {
    case PRADULINS_OK: return "not refused";
    case PRADULINS_VARINT_SHORT: return "a varint is cut short";
    case PRADULINS_VARINT_OVERFLOW: return "a varint is above 64 bits";
    case PRADULINS_VARINT_NOT_MINIMAL: return "a varint is longer than it needs to be";
    case PRADULINS_FIELD_OVERFLOW: return "a field passes the end";
    case PRADULINS_WIRE_TYPE: return "a wire type that is not supported";
    case PRADULINS_FIELD_NUMBER: return "a field number out of range";
    case PRADULINS_END_GROUP: return "an end tag with no open group, or of another number";
    case PRADULINS_GROUP_DEPTH: return "groups are more than 32 deep";
    case PRADULINS_GROUP_OPEN: return "the body ends inside a group";
    case PRADULINS_UTF8: return "a topic is not UTF-8";
    case PRADULINS_BODY_TOO_LARGE: return "the body has above 65,536 bytes";
    case PRADULINS_TOO_MANY_RECORDS: return "the body has above 512 records";
    case PRADULINS_ROOM: return "no room for the answer";
    case PRADULINS_RPC_TOO_LONG: return "the RPC has above 65,536 bytes";
    case PRADULINS_NO_MESSAGE: return "no message at that index";
    case PRADULINS_MISSING_FROM: return "the message has no from";
    case PRADULINS_INVALID_FROM: return "from has 0 or above 64 bytes";
    case PRADULINS_INVALID_SEQNO: return "seqno is missing, or has 0 or above 64 bytes";
    case PRADULINS_KEY_WITHOUT_SIGNATURE: return "the message has a key and no signature";
    case PRADULINS_MISSING_SIGNATURE: return "the message has no signature and no key";
    case PRADULINS_SIGNATURE_LENGTH: return "the signature does not have 64 bytes";
    case PRADULINS_NOT_VERIFIED: return "the host did not verify the signature";
    case PRADULINS_TOPIC_COUNT: return "the message has no topic, or above 4";
    case PRADULINS_TOPIC_TOO_LONG: return "a topic has above 1,024 bytes";
    case PRADULINS_MESSAGE_TOO_LONG: return "the message has above 4,096 bytes";
    case PRADULINS_CLOCK_BACK: return "the reading is before the node's clock";
    case PRADULINS_NOT_PEER_ID: return "the sender is no peer id";
    case PRADULINS_INVALID_KEY: return "the key does not decode";
    case PRADULINS_KEY_MISMATCH: return "the key is not the sender's, or there is none";
    case PRADULINS_BAD_SETTING: return "a setting is out of range, or the seen store is too short";
    case PRADULINS_BAD_STORE: return "a store has not the length that the settings say";
    case PRADULINS_MALFORMED: return "node and stores, or the rows of an RPC, are not well formed";
    default: return "no refusal has this number";
    }
}

#ifdef __cplusplus
}
#endif

#endif
