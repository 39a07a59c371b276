/*
 * The calls of pradulins.h that no program has a line for: settings and state of a node, version and format, and the words for refusals. They are
 * made on nodes that are fresh, filled and damaged, and on stores of other lengths. Each time the answer and the values are tested, that values which
 * are not named stay, and that no byte of the node and the stores changed. And rows that no record of a program can say: flags that are neither 0 nor 1, numbers
 * where nothing is to be looked at, a table that is no whole rows, and the table that decode wrote. And a node's flags, and messages that nobody signed, admitted and
 * written. And editions: the numbers that say one, and what serve is lent as its second body. And groups: the numbers that say whether they are skipped, in a dialect and in a
 * node's flags.
 */
#include "player.h"

#include <stdio.h>
#include <string.h>

#include "pradulins.h"

/* The numbers of the crate's refusals; 0 past their end. */
uint32_t boundary_refusal(size_t place);

enum { SEEN = PRADULINS_MAX_SEEN * PRADULINS_SEEN_ROW, CACHE = PRADULINS_MAX_MESSAGES * PRADULINS_CACHE_PLACE };

#define UNTOUCHED 0x5e5e5e5e5e5e5e5eu

static uint8_t node[PRADULINS_NODE_SIZE], node_before[PRADULINS_NODE_SIZE];
static uint8_t seen[SEEN], seen_before[SEEN];
static uint8_t cache[CACHE], cache_before[CACHE];
static uint64_t values[PRADULINS_VALUES];
static int checks, faults;

static void expect(int ok, const char *what)
{
    checks++;
    if (!ok) {
        faults++;
        fprintf(stderr, "boundary: check %d: %s\n", checks, what);
    }
}

static void before(void)
{
    memcpy(node_before, node, sizeof node);
    memcpy(seen_before, seen, sizeof seen);
    memcpy(cache_before, cache, sizeof cache);
    for (int i = 0; i < PRADULINS_VALUES; i++)
        values[i] = UNTOUCHED;
}

/* Nothing changed, and `values` has these numbers and no others. */
static void after(int count, const uint64_t *wanted, const char *what)
{
    for (int i = 0; i < PRADULINS_VALUES; i++)
        expect(values[i] == (i < count ? wanted[i] : UNTOUCHED), what);
    expect(memcmp(node, node_before, sizeof node) == 0, "the node changed");
    expect(memcmp(seen, seen_before, sizeof seen) == 0, "the seen store changed");
    expect(memcmp(cache, cache_before, sizeof cache) == 0, "the cache store changed");
}

/* ---- calls */

static void settings_are(uint64_t ttl, uint64_t max_seen, uint64_t history_len, uint64_t max_messages, uint64_t flags)
{
    const uint64_t wanted[] = {ttl, max_seen, history_len, max_messages, flags};
    before();
    expect(pradulins_settings(node, values) == PRADULINS_OK, "the settings are refused");
    after(5, wanted, "other settings");
}

static void settings_are_refused(void)
{
    before();
    expect(pradulins_settings(node, values) == PRADULINS_MALFORMED, "settings that are none are not refused");
    after(0, NULL, "values beside a refusal of the settings");
}

static void state_is(size_t seen_len, size_t cache_len, uint64_t clock, uint64_t ids, uint64_t messages)
{
    const uint64_t wanted[] = {clock, ids, messages};
    before();
    expect(pradulins_state(node, seen, seen_len, cache, cache_len, values) == PRADULINS_OK, "the state is refused");
    after(3, wanted, "another clock or other counts");
}

static void state_is_refused(size_t seen_len, size_t cache_len, uint32_t number)
{
    before();
    expect(pradulins_state(node, seen, seen_len, cache, cache_len, values) == number, "the state is not refused as it should be");
    after(0, NULL, "values beside a refusal of the state");
    /* The same as a call that changes the node: it is refused alike, and changes nothing. */
    before();
    expect(pradulins_heartbeat(node, seen, seen_len, cache, cache_len, UINT64_MAX, values) == number, "heartbeat answers otherwise");
    after(0, NULL, "values beside a refusal of heartbeat");
}

/* ---- nodes */

/* A body with one message. Its sender is the peer id of an Ed25519 key, 32 equal bytes. */
enum { NOTICE = 114 };

static void put_notice(uint8_t body[NOTICE], uint8_t key)
{
    static const uint8_t head[10] = {0x12, 0x70, 0x0a, 0x26, 0, 0x24, 8, 1, 0x12, 0x20}, rest[8] = {0x1a, 1, 1, 0x22, 1, 't', 0x2a, 0x40};
    memset(body, 0, NOTICE);
    memcpy(body, head, sizeof head);
    memset(body + 10, key, 32);
    memcpy(body + 42, rest, sizeof rest);
}

static void admit(uint8_t key, uint64_t at, size_t seen_len, size_t cache_len)
{
    uint8_t body[NOTICE];
    put_notice(body, key);
    expect(pradulins_admit(node, seen, seen_len, cache, cache_len, PRADULINS_V1_1, body, sizeof body, 0, true, at, values) == PRADULINS_OK && values[0] == 1,
           "a notice is not new");
}

/* Sets 8 bytes of the node, tests, and sets them back. */
static void with_number(size_t at, uint64_t value, void (*test)(void))
{
    uint8_t kept[8];
    memcpy(kept, node + at, sizeof kept);
    for (size_t i = 0; i < sizeof kept; i++, value >>= 8)
        node[at + i] = (uint8_t)value;
    test();
    memcpy(node + at, kept, sizeof kept);
}

/* Where the numbers stand: crates/stored/specs/Layout.antt. */
enum { TTL_AT = 0, MAX_SEEN_AT = 8, CLOCK_AT = 16, SEEN_COUNT_AT = 32, HISTORY_AT = 40, MAX_MESSAGES_AT = 48, COUNT_AT = 72, EXPIRIES_AT = 80 };
enum { IDS_AT = 3152, TOPIC_COUNTS_AT = 11344, TOPIC_STARTS_AT = 11408, TOPIC_LENGTHS_AT = 11920, FLAGS_AT = 12432 };

/* Sets a byte of the newest message's sender, in its place and in its id, tests, and sets it back. Both rings begin anew with the fourth message. */
static void with_sender(size_t at, uint8_t value, void (*test)(void))
{
    uint8_t *in_place = cache + 2 + at, *in_id = node + IDS_AT + at, kept = *in_place;
    expect(*in_id == kept, "the newest message's id stands elsewhere");
    *in_place = *in_id = value;
    test();
    *in_place = *in_id = kept;
}

static void refused_42(void)
{
    settings_are(1000, 4, 2, 3, 0);
    state_is_refused(4 * 129, 3 * 4096, PRADULINS_MALFORMED);
}

static void taken(void)
{
    settings_are(1000, 4, 2, 3, 0);
    state_is(4 * 129, 3 * 4096, 103, 4, 3);
}

static void another_ttl(void)
{
    settings_are(UINT64_MAX, 4, 2, 3, 0);
    state_is(4 * 129, 3 * 4096, 103, 4, 3);
}

/* That unsigned messages are allowed, or groups skipped, is not found out, where no message is kept that needs it. */
static void other_flags(void)
{
    settings_are(1000, 4, 2, 3, node[FLAGS_AT]);
    state_is(4 * 129, 3 * 4096, 103, 4, 3);
}

/* Flags that are not known: they are no settings, and every call finds them. */
static void unknown_flags(void)
{
    settings_are_refused();
    state_is_refused(4 * 129, 3 * 4096, PRADULINS_MALFORMED);
}

static void another_clock(void)
{
    settings_are(1000, 4, 2, 3, 0);
    state_is(4 * 129, 3 * 4096, 0xfedcba9876543210, 4, 3);
}

static void nodes(void)
{
    static const uint64_t legal[][5] = {{0, 0, 1, 0, 0}, {UINT64_MAX, 256, 16, 64, 1}, {3600000, 1, 2, 3, PRADULINS_GROUPS}, {0, 0, 1, 0, PRADULINS_ALLOW_UNSIGNED},
                                        {7, 2, 3, 4, PRADULINS_ALLOW_UNSIGNED | PRADULINS_GROUPS}};
    static const uint32_t unknown[] = {4, 5, 6, 7, 8, UINT32_C(1) << 31, UINT32_MAX};
    memset(seen, 0xa5, sizeof seen);
    memset(cache, 0xa5, sizeof cache);
    for (size_t i = 0; i < sizeof legal / sizeof *legal; i++) {
        const uint64_t *s = legal[i];
        expect(pradulins_start(node, s[0], s[1], s[2], s[3], (uint32_t)s[4]) == PRADULINS_OK, "settings are refused at start");
        settings_are(s[0], s[1], s[2], s[3], s[4]);
        state_is(PRADULINS_SEEN_STORE_SIZE(s[1]), PRADULINS_CACHE_STORE_SIZE(s[3]), 0, 0, 0);
    }
    for (size_t i = 0; i < sizeof unknown / sizeof *unknown; i++) {
        before();
        expect(pradulins_start(node, 0, 0, 1, 0, unknown[i]) == PRADULINS_BAD_SETTING, "flags that are not known are taken at start");
        after(0, NULL, "values beside a refusal of a start");
    }

    /* Filled. */
    expect(pradulins_start(node, 1000, 4, 2, 3, 0) == PRADULINS_OK, "settings are refused at start");
    for (uint8_t i = 0; i < 4; i++) {
        admit('A' + i, 100 + i, 4 * 129, 3 * 4096);
        state_is(4 * 129, 3 * 4096, 100 + i, i + 1u, i < 3 ? i + 1u : 3);
    }
    settings_are(1000, 4, 2, 3, 0);

    /* Stores of other lengths. */
    state_is_refused(3 * 129, 3 * 4096, PRADULINS_BAD_SETTING);
    state_is_refused(4 * 129 - 1, 3 * 4096, PRADULINS_BAD_SETTING);
    state_is_refused(4 * 129 + 1, 3 * 4096, PRADULINS_BAD_STORE);
    state_is_refused(5 * 129, 3 * 4096, PRADULINS_BAD_STORE);
    state_is_refused(4 * 129, 2 * 4096, PRADULINS_BAD_STORE);
    state_is_refused(4 * 129, 3 * 4096 + 1, PRADULINS_BAD_STORE);
    state_is_refused(4 * 129, 0, PRADULINS_BAD_STORE);

    /* Damaged: settings that are none, counts and expiries that do not fit, and numbers that still do. */
    with_number(MAX_SEEN_AT, 257, settings_are_refused);
    with_number(MAX_SEEN_AT, UINT64_MAX, settings_are_refused);
    with_number(HISTORY_AT, 0, settings_are_refused);
    with_number(HISTORY_AT, 17, settings_are_refused);
    with_number(MAX_MESSAGES_AT, 65, settings_are_refused);
    with_number(MAX_MESSAGES_AT, UINT64_MAX, settings_are_refused);
    with_number(SEEN_COUNT_AT, 5, refused_42);
    with_number(SEEN_COUNT_AT, UINT64_MAX, refused_42);
    with_number(COUNT_AT, 4, refused_42);
    with_number(EXPIRIES_AT, UINT64_MAX, refused_42);
    /* Senders: another peer id is taken; what is none, or holds no key, is not. */
    with_sender(37, 'Z', taken);
    with_sender(0, 'n', refused_42);
    with_sender(0, 0x12, refused_42);
    with_sender(1, 0x23, refused_42);
    with_sender(3, 3, taken);
    with_sender(3, 4, refused_42);
    /* The places of topics. Each message has one, of 1 byte from the 45th on; 8 bytes are the four slots of a row, or the counts of eight rows. */
    with_number(TOPIC_COUNTS_AT, 0x000101, refused_42);
    with_number(TOPIC_COUNTS_AT, 0x010201, refused_42);
    with_number(TOPIC_COUNTS_AT, 0x050101, refused_42);
    with_number(TOPIC_COUNTS_AT, UINT64_MAX, refused_42);
    with_number(TOPIC_COUNTS_AT, 0xffffffffff010101, taken);
    with_number(TOPIC_STARTS_AT, 44, refused_42);
    with_number(TOPIC_STARTS_AT + 8, 46, refused_42);
    with_number(TOPIC_STARTS_AT + 16, 0xffff, refused_42);
    with_number(TOPIC_STARTS_AT, 0xffffffffffff002d, taken);
    with_number(TOPIC_STARTS_AT + 24, UINT64_MAX, taken);
    with_number(TOPIC_LENGTHS_AT, 2, refused_42);
    with_number(TOPIC_LENGTHS_AT + 8, 0, refused_42);
    with_number(TOPIC_LENGTHS_AT + 16, 0xffff, refused_42);
    with_number(TOPIC_LENGTHS_AT, 0xffffffffffff0001, taken);
    with_number(FLAGS_AT - 8, UINT64_MAX, taken);
    /* Flags. */
    with_number(FLAGS_AT, PRADULINS_ALLOW_UNSIGNED, other_flags);
    with_number(FLAGS_AT, PRADULINS_GROUPS, other_flags);
    with_number(FLAGS_AT, PRADULINS_ALLOW_UNSIGNED | PRADULINS_GROUPS, other_flags);
    with_number(FLAGS_AT, 4, unknown_flags);
    with_number(FLAGS_AT, 7, unknown_flags);
    with_number(FLAGS_AT, UINT64_C(1) << 32, unknown_flags);
    with_number(FLAGS_AT, UINT64_C(1) << 63, unknown_flags);
    with_number(PRADULINS_NODE_SIZE - 8, UINT64_MAX, unknown_flags);
    with_number(TTL_AT, UINT64_MAX, another_ttl);
    with_number(CLOCK_AT, 0xfedcba9876543210, another_clock);
    state_is(4 * 129, 3 * 4096, 103, 4, 3);

    /* Bytes that were never a node. */
    memset(node, 0, sizeof node);
    settings_are_refused();
    memset(node, 0xff, sizeof node);
    settings_are_refused();
    state_is_refused(4 * 129, 3 * 4096, PRADULINS_BAD_SETTING);
}

/* ---- rows */

enum { ROWS = 8 };
static uint64_t rows[ROWS * PRADULINS_RECORD_WORDS];
static uint8_t out[200];

static void before_rows(void)
{
    memset(out, 0x5e, sizeof out);
    before();
}

/* So many numbers of rows, over bytes, say this body. */
static void rows_say(size_t words, const uint8_t *bytes, size_t len, const uint8_t *body, size_t body_len)
{
    const uint64_t wanted[] = {body_len};
    before_rows();
    expect(pradulins_write_rpc(rows, words, bytes, len, 0, out, sizeof out, values) == PRADULINS_OK, "rows are refused");
    after(1, wanted, "another number of bytes");
    expect(memcmp(out, body, body_len) == 0, "another body");
    for (size_t i = body_len; i < sizeof out; i++)
        expect(out[i] == 0x5e, "a byte behind the body changed");
}

/* They are refused by both calls, as not well formed, and nothing is written. */
static void rows_are_none(size_t words, const uint8_t *bytes, size_t len)
{
    before_rows();
    expect(pradulins_write_rpc(rows, words, bytes, len, 0, out, sizeof out, values) == PRADULINS_MALFORMED, "rows that are none are written");
    after(0, NULL, "values beside 42");
    expect(pradulins_write_rpc(rows, words, bytes, len, 4, out, sizeof out, values) == PRADULINS_BAD_SETTING, "flags that are not known are taken");
    after(0, NULL, "values beside 40");
    expect(pradulins_sign_fields(rows, words, bytes, len, 0, out, sizeof out, values) == PRADULINS_MALFORMED, "rows that are none are signed");
    after(0, NULL, "values beside 42");
    for (size_t i = 0; i < sizeof out; i++)
        expect(out[i] == 0x5e, "a byte changed beside 42");
}

static void lists(void)
{
    static const uint8_t t[] = {'t'}, graft[] = {0x1a, 5, 0x1a, 3, 0x0a, 1, 't'}, sub[] = {0x0a, 5, 8, 1, 0x12, 1, 't'};
    uint64_t *row = rows;

    /* A flag is set where it is not 0. */
    pradulins_row(row, PRADULINS_KIND_GRAFT, 0, 0);
    pradulins_row_field(row, 0, 0, 1);
    rows_say(20, t, 1, graft, sizeof graft);
    row[PRADULINS_RECORD_FIELD(0)] = 2;
    rows_say(20, t, 1, graft, sizeof graft);
    row[PRADULINS_RECORD_FIELD(0)] = UINT64_MAX;
    rows_say(20, t, 1, graft, sizeof graft);
    /* What the kind does not have may be anything. */
    for (int i = PRADULINS_RECORD_FIELD(1); i < PRADULINS_RECORD_WORDS; i++)
        row[i] = UINT64_MAX - (uint64_t)i;
    row[PRADULINS_RECORD_HAS_NUMBER] = row[PRADULINS_RECORD_NUMBER] = UINT64_MAX;
    rows_say(20, t, 1, graft, sizeof graft);
    row[PRADULINS_RECORD_KIND] = PRADULINS_KIND_SUB_OPTS;
    rows_say(20, t, 1, sub, sizeof sub);
    row[PRADULINS_RECORD_HAS_NUMBER] = UINT64_C(1) << 63;
    row[PRADULINS_RECORD_NUMBER] = UINT64_C(1) << 32;
    rows_say(20, t, 1, sub, sizeof sub);
    /* Where the flag is 0, no number is looked at. */
    row[PRADULINS_RECORD_FIELD(0)] = row[PRADULINS_RECORD_HAS_NUMBER] = 0;
    row[PRADULINS_RECORD_FIELD(0) + 1] = row[PRADULINS_RECORD_FIELD(0) + 2] = UINT64_MAX;
    rows_say(20, t, 1, (const uint8_t *)"\x0a\x00", 2);

    /* A kind is looked at whole. */
    row[PRADULINS_RECORD_KIND] = PRADULINS_KIND_SUB_OPTS + (UINT64_C(1) << 32);
    rows_are_none(20, t, 1);
    row[PRADULINS_RECORD_KIND] = UINT64_MAX;
    rows_are_none(20, t, 1);

    /* Whole rows. */
    pradulins_row(row, PRADULINS_KIND_GRAFT, 0, 0);
    pradulins_row(row + PRADULINS_RECORD_WORDS, PRADULINS_KIND_GRAFT, 0, 0);
    for (size_t words = 0; words <= 2 * PRADULINS_RECORD_WORDS; words++)
        if (words % PRADULINS_RECORD_WORDS != 0)
            rows_are_none(words, t, 1);
    rows_say(0, t, 0, t, 0);
    rows_say(20, t, 0, (const uint8_t *)"\x1a\x02\x1a\x00", 4);
    rows_say(40, t, 0, (const uint8_t *)"\x1a\x04\x1a\x00\x1a\x00", 6);
}

/* What decode wrote of a body is lent as it is, beside the body: it is written again, and what was read with it is signed. */
static void read_and_said(void)
{
    static const uint8_t more[] = {0x0a, 2, 0x12, 0, 0x1a, 12, 0x1a, 0, 0x22, 8, 0x12, 4, 0x0a, 2, 1, 2, 0x18, 60};
    uint8_t body[NOTICE + sizeof more], in_order[sizeof body], sign[80];
    put_notice(body, 'A');
    memcpy(body + NOTICE, more, sizeof more);
    /* The subscription comes first when it is written. */
    memcpy(in_order, more, 4);
    memcpy(in_order + 4, body, NOTICE);
    memcpy(in_order + 4 + NOTICE, more + 4, sizeof more - 4);

    before();
    expect(pradulins_decode(PRADULINS_V1_1, body, sizeof body, rows, ROWS * PRADULINS_RECORD_WORDS, values) == PRADULINS_OK && values[0] == 6, "a body is not read");
    size_t words = values[0] * PRADULINS_RECORD_WORDS;
    rows_say(words, body, sizeof body, in_order, sizeof in_order);
    before_rows();
    expect(pradulins_sign_fields(rows, words, body, sizeof body, 0, out, sizeof out, values) == PRADULINS_OK && values[0] == 60, "nothing to sign");
    before();
    expect(pradulins_sign_bytes(PRADULINS_V1_1, body, sizeof body, 0, sign, sizeof sign, values) == PRADULINS_OK && values[0] == 60, "no sign bytes");
    expect(memcmp(sign, out, 60) == 0, "other bytes to sign than are verified");
}

/* ---- messages that nobody signed */

/* A body with one message without signature and key, of the same id as put_notice's. */
enum { UNSIGNED = 48 };

static void put_unsigned(uint8_t body[UNSIGNED], uint8_t key)
{
    uint8_t whole[NOTICE];
    put_notice(whole, key);
    memcpy(body, whole, UNSIGNED);
    body[1] = UNSIGNED - 2;
}

/* What an admit answers: a refusal, and nothing changed; or new (1) or not (0). */
static void admits(const uint8_t *body, size_t len, bool verified, uint32_t number, int is_new, size_t seen_len, size_t cache_len)
{
    before();
    uint32_t r = pradulins_admit(node, seen, seen_len, cache, cache_len, PRADULINS_V1_1, body, len, 0, verified, 100, values);
    expect(r == number, "an admit answers otherwise");
    if (r)
        after(0, NULL, "values beside a refusal of an admit");
    else
        expect(values[0] == (uint64_t)is_new && values[1] == UNTOUCHED, "new is not told as new, or not as a duplicate");
}

static void refused_without_the_flag(void)
{
    settings_are(1000, 4, 2, 3, 0);
    state_is_refused(4 * 129, 3 * 4096, PRADULINS_MALFORMED);
}

/* A training mesh: both forms of one id are new, each once, and the first is kept; flags that are taken from a node that keeps an unsigned message are found. */
static void unsigned_messages(void)
{
    static const uint8_t ask_head[] = {0x1a, 0x2e, 0x0a, 0x2c, 0x0a, 1, 't', 0x12, 0x27}, serve_head[] = {0x1a, 0x2b, 0x12, 0x29, 0x0a, 0x27};
    uint8_t with[NOTICE], without[UNSIGNED], offer[sizeof ask_head + 39], request[sizeof serve_head + 39], made[NOTICE];
    put_notice(with, 'A');
    put_unsigned(without, 'A');
    memcpy(offer, ask_head, sizeof ask_head);
    memcpy(request, serve_head, sizeof serve_head);
    memcpy(offer + sizeof ask_head, with + 4, 38);
    memcpy(request + sizeof serve_head, with + 4, 38);
    offer[sizeof offer - 1] = request[sizeof request - 1] = 1;

    expect(pradulins_start(node, 1000, 4, 2, 3, PRADULINS_ALLOW_UNSIGNED) == PRADULINS_OK, "settings are refused at start");
    admits(without, UNSIGNED, false, PRADULINS_OK, 1, 4 * 129, 3 * 4096);
    admits(without, UNSIGNED, true, PRADULINS_OK, 0, 4 * 129, 3 * 4096);
    expect(pradulins_ask(node, seen, 4 * 129, cache, 3 * 4096, PRADULINS_V1_1, offer, sizeof offer, made, sizeof made, values) == PRADULINS_OK
           && values[0] == 0, "what was seen unsigned is asked for");
    admits(with, NOTICE, false, PRADULINS_NOT_VERIFIED, 0, 4 * 129, 3 * 4096);
    admits(with, NOTICE, true, PRADULINS_OK, 1, 4 * 129, 3 * 4096);
    admits(with, NOTICE, true, PRADULINS_OK, 0, 4 * 129, 3 * 4096);
    state_is(4 * 129, 3 * 4096, 100, 2, 1);
    expect(pradulins_serve(node, seen, 4 * 129, cache, 3 * 4096, PRADULINS_V1_1, request, sizeof request, request, 0, made, sizeof made, values)
           == PRADULINS_OK && values[0] == UNSIGNED && values[1] == 1 && values[2] == 0 && memcmp(made, without, UNSIGNED) == 0,
           "what came first is not served");
    with_number(FLAGS_AT, 0, refused_without_the_flag);

    /* A node without the flag, in whose list only the unsigned form stands, asks, and refuses what it gets. */
    expect(pradulins_start(node, 1000, 4, 2, 3, 0) == PRADULINS_OK, "settings are refused at start");
    admits(without, UNSIGNED, true, PRADULINS_MISSING_SIGNATURE, 0, 4 * 129, 3 * 4096);
    admits(with, NOTICE, true, PRADULINS_OK, 1, 4 * 129, 3 * 4096);
    expect(seen[0] == 1, "the mark of the first id stands elsewhere");
    seen[0] = 0;
    expect(pradulins_ask(node, seen, 4 * 129, cache, 3 * 4096, PRADULINS_V1_1, offer, sizeof offer, made, sizeof made, values) == PRADULINS_OK
           && values[0] == sizeof request && memcmp(made, request, sizeof request) == 0, "what was seen signed alone is not asked for");
    seen[0] = 1;
}

/* What pradulins_write_rpc makes of the rows of a message, under flags. */
static void writes(size_t words, const uint8_t *bytes, size_t len, uint32_t flags, uint32_t number, uint64_t beside, const uint8_t *body)
{
    before_rows();
    expect(pradulins_write_rpc(rows, words, bytes, len, flags, out, sizeof out, values) == number, "a message is written otherwise");
    after(number && !pradulins_refusal_values(number) ? 0 : 1, &beside, "another value beside a written message");
    expect(number || memcmp(out, body, beside) == 0, "another body of a message");
    for (size_t i = number ? 0 : beside; i < sizeof out; i++)
        expect(out[i] == 0x5e, "a byte behind a written message changed");
}

static void unsigned_messages_written(void)
{
    uint8_t with[NOTICE], without[UNSIGNED];
    size_t words = 2 * PRADULINS_RECORD_WORDS;
    put_notice(with, 'A');
    put_unsigned(without, 'A');
    expect(pradulins_decode(PRADULINS_V1_1, without, UNSIGNED, rows, ROWS * PRADULINS_RECORD_WORDS, values) == PRADULINS_OK && values[0] == 2, "a body is not read");
    writes(words, without, UNSIGNED, 0, PRADULINS_SIGNATURE_LENGTH, 0, NULL);
    writes(words, without, UNSIGNED, PRADULINS_ALLOW_UNSIGNED, PRADULINS_OK, UNSIGNED, without);
    writes(words, without, UNSIGNED, PRADULINS_GROUPS, PRADULINS_SIGNATURE_LENGTH, 0, NULL);
    writes(words, without, UNSIGNED, PRADULINS_ALLOW_UNSIGNED | PRADULINS_GROUPS, PRADULINS_OK, UNSIGNED, without);
    writes(words, without, UNSIGNED, 4, PRADULINS_BAD_SETTING, 0, NULL);
    writes(words - 1, without, UNSIGNED, 5, PRADULINS_BAD_SETTING, 0, NULL);
    writes(words - 1, without, UNSIGNED, PRADULINS_ALLOW_UNSIGNED, PRADULINS_MALFORMED, 0, NULL);
    /* A key alone, whatever it is; and a signature of no bytes. */
    pradulins_row_field(rows, 4, 0, 0);
    writes(words, without, UNSIGNED, PRADULINS_ALLOW_UNSIGNED, PRADULINS_KEY_WITHOUT_SIGNATURE, 0, NULL);
    writes(words, without, UNSIGNED, 0, PRADULINS_SIGNATURE_LENGTH, 0, NULL);
    pradulins_row_field(rows, 3, 0, 0);
    writes(words, without, UNSIGNED, PRADULINS_ALLOW_UNSIGNED, PRADULINS_SIGNATURE_LENGTH, 0, NULL);
    /* A signed one, under either. */
    expect(pradulins_decode(PRADULINS_V1_1, with, NOTICE, rows, ROWS * PRADULINS_RECORD_WORDS, values) == PRADULINS_OK && values[0] == 2, "a body is not read");
    writes(words, with, NOTICE, 0, PRADULINS_OK, NOTICE, with);
    writes(words, with, NOTICE, PRADULINS_ALLOW_UNSIGNED, PRADULINS_OK, NOTICE, with);
}

/* ---- editions */

/* Numbers of each edition: only the lowest bit counts. In a dialect the second is the mode, in which these bodies, which have no groups, are read alike. */
static const uint32_t v1_1[] = {PRADULINS_V1_1, 2, 4, 256, UINT32_C(1) << 31, UINT32_MAX - 1}, v1_2[] = {PRADULINS_V1_2, 3, 5, 257, (UINT32_C(1) << 31) + 1, UINT32_MAX};
enum { NUMBERS = sizeof v1_1 / sizeof *v1_1 };

/* A record of the table: its kind and where it stands, and nothing in it. */
static void row_is(size_t place, uint64_t kind, uint64_t start, uint64_t end)
{
    uint64_t wanted[PRADULINS_RECORD_WORDS];
    pradulins_row(wanted, kind, start, end);
    expect(memcmp(rows + place * PRADULINS_RECORD_WORDS, wanted, sizeof wanted) == 0, "another record");
}

/* A body in one edition: how many records it has, and what it is written as. */
static void reads(uint32_t dialect, const uint8_t *body, size_t len, uint64_t records, const uint8_t *as, size_t as_len)
{
    const uint64_t wanted[] = {records, 1}, written[] = {as_len};
    memset(rows, 0x5e, sizeof rows);
    before_rows();
    expect(pradulins_decode(dialect, body, len, rows, sizeof rows / sizeof *rows, values) == PRADULINS_OK, "a body is not read");
    after(2, wanted, "another number of records");
    before_rows();
    expect(pradulins_encode(dialect, body, len, out, sizeof out, values) == PRADULINS_OK, "a body is not written anew");
    after(1, written, "another number of bytes anew");
    expect(memcmp(out, as, as_len) == 0, "other bytes anew");
}

static void bodies_in_editions(void)
{
    static const uint8_t body[] = {0x1a, 7, 0x2a, 3, 0x0a, 1, 'A', 0x22, 0}, older[] = {0x1a, 2, 0x22, 0}, newer[] = {0x1a, 7, 0x22, 0, 0x2a, 3, 0x0a, 1, 'A'};
    static const uint8_t cut[] = {0x1a, 3, 0x2a, 1, 0x80};
    static const uint64_t place[] = {UNTOUCHED, UNTOUCHED, UNTOUCHED, UNTOUCHED, 4, 3, 5, 0};
    uint8_t notice[NOTICE], sign[80];
    put_notice(notice, 'A');
    for (int i = 0; i < NUMBERS; i++) {
        reads(v1_1[i], body, sizeof body, 1, older, sizeof older);
        row_is(0, PRADULINS_KIND_PRUNE, 9, 9);
        reads(v1_2[i], body, sizeof body, 3, newer, sizeof newer);
        row_is(0, PRADULINS_KIND_IDONTWANT, 4, 7);
        row_is(1, PRADULINS_KIND_MESSAGE_ID, 6, 7);
        row_is(2, PRADULINS_KIND_PRUNE, 9, 9);
        /* What 1.2 alone refuses, with its place. */
        reads(v1_1[i], cut, sizeof cut, 0, (const uint8_t *)"\x1a\x00", 2);
        before();
        expect(pradulins_decode(v1_2[i], cut, sizeof cut, rows, sizeof rows / sizeof *rows, values) == PRADULINS_VARINT_SHORT, "a cut IDONTWANT is read");
        after(PRADULINS_VALUES, place, "another place in an IDONTWANT");
        /* The signature of a message, which is its field 5, is never signed. */
        for (int edition = 0; edition < 2; edition++) {
            uint32_t dialect = edition ? v1_2[i] : v1_1[i];
            expect(pradulins_sign_bytes(dialect, notice, NOTICE, 0, sign, sizeof sign, values) == PRADULINS_OK && values[0] == 60, "no sign bytes");
            expect(memcmp(sign, "libp2p-pubsub:", 14) == 0 && memcmp(sign + 14, notice + 2, 46) == 0, "other sign bytes");
            expect(pradulins_message_id(dialect, notice, NOTICE, 0, sign, sizeof sign, values) == PRADULINS_OK && values[0] == 39, "no id");
        }
    }
    /* They are read, and not written from rows. */
    reads(PRADULINS_V1_2, body, sizeof body, 3, newer, sizeof newer);
    rows_are_none(PRADULINS_RECORD_WORDS, body, sizeof body);
    rows_are_none(3 * PRADULINS_RECORD_WORDS, body, sizeof body);
}

/* A body with one control, in it one entry with ids of 39 bytes: those of the notices of these keys. */
static size_t put_ids(uint8_t *body, uint8_t entry, const char *keys)
{
    size_t count = strlen(keys), at = 4;
    body[0] = 0x1a;
    body[1] = (uint8_t)(2 + 41 * count);
    body[2] = entry;
    body[3] = (uint8_t)(41 * count);
    for (; *keys; keys++, at += 41) {
        uint8_t notice[NOTICE];
        put_notice(notice, (uint8_t)*keys);
        body[at] = 0x0a;
        body[at + 1] = 39;
        memcpy(body + at + 2, notice + 4, 38);
        body[at + 40] = 1;
    }
    return at;
}

enum { IWANT = 0x12, IDONTWANT = 0x2a, IDS_SIZE = 4 + 3 * 41 };

/* What serve answers to a request with a second body, in so much room: messages of these keys, and so many left. */
static void serves(const uint8_t *body, size_t len, const uint8_t *unwanted, size_t unwanted_len, size_t room, const char *keys, uint64_t left)
{
    const uint64_t wanted[] = {NOTICE * strlen(keys), strlen(keys), left};
    for (int i = 0; i < 2 * NUMBERS; i++) {
        before_rows();
        expect(pradulins_serve(node, seen, 4 * 129, cache, 3 * 4096, i < NUMBERS ? v1_1[i] : v1_2[i - NUMBERS], body, len, unwanted, unwanted_len, out, room, values)
               == PRADULINS_OK, "serve is refused");
        after(3, wanted, "another reply");
        for (size_t k = 0; k < strlen(keys); k++) {
            uint8_t notice[NOTICE];
            put_notice(notice, (uint8_t)keys[k]);
            expect(memcmp(out + k * NOTICE, notice, NOTICE) == 0, "another message in a reply");
        }
        for (size_t k = NOTICE * strlen(keys); k < sizeof out; k++)
            expect(out[k] == 0x5e, "a byte behind a reply changed");
    }
}

/* Or a refusal, with so many values. */
static void serve_refuses(const uint8_t *body, size_t len, const uint8_t *unwanted, size_t unwanted_len, size_t room, uint32_t number, int count, const uint64_t *wanted)
{
    for (int i = 0; i < 2 * NUMBERS; i++) {
        before_rows();
        expect(pradulins_serve(node, seen, 4 * 129, cache, 3 * 4096, i < NUMBERS ? v1_1[i] : v1_2[i - NUMBERS], body, len, unwanted, unwanted_len, out, room, values)
               == number, "serve is not refused as it should be");
        after(count, wanted, "other values beside a refusal of serve");
        for (size_t k = 0; k < sizeof out; k++)
            expect(out[k] == 0x5e, "a byte changed beside a refusal of serve");
    }
}

static void second_bodies(void)
{
    static const uint64_t room[] = {NOTICE}, number[] = {0, 0, UNTOUCHED, UNTOUCHED, 0, 0, 0, 0}, many[] = {513}, large[] = {PRADULINS_MAX_BODY + 1};
    static const uint64_t short_at_0[] = {UNTOUCHED, UNTOUCHED, UNTOUCHED, UNTOUCHED, 0, 0, 0, 0}, in_entry[] = {UNTOUCHED, UNTOUCHED, UNTOUCHED, UNTOUCHED, 4, 3, 5, 0};
    static uint8_t long_body[PRADULINS_MAX_BODY + 1], records[2 * 513];
    uint8_t both[IDS_SIZE], one[IDS_SIZE], dont[IDS_SIZE], other[IDS_SIZE], joined[2 * IDS_SIZE];
    size_t both_len = put_ids(both, IWANT, "AB"), one_len = put_ids(one, IWANT, "A"), dont_len = put_ids(dont, IDONTWANT, "A"), other_len;

    expect(pradulins_start(node, 1000, 4, 2, 3, 0) == PRADULINS_OK, "settings are refused at start");
    admit('A', 100, 4 * 129, 3 * 4096);
    admit('B', 100, 4 * 129, 3 * 4096);

    serves(both, both_len, both, 0, sizeof out, "A", 1);
    serves(both, both_len, dont, dont_len, sizeof out, "B", 0);
    serves(both, both_len, dont, dont_len, NOTICE, "B", 0);
    serve_refuses(both, both_len, dont, dont_len, NOTICE - 1, PRADULINS_ROOM, 1, room);
    serves(one, one_len, dont, dont_len, sizeof out, "", 0);
    serves(one, one_len, dont, dont_len, 0, "", 0);
    /* Not its IWANTs; nor the IDONTWANTs of the body itself, unless it is lent as the second, too. */
    serves(both, both_len, one, one_len, sizeof out, "A", 1);
    memcpy(joined, both, both_len);
    memcpy(joined + both_len, dont, dont_len);
    serves(joined, both_len + dont_len, joined, 0, sizeof out, "A", 1);
    serves(joined, both_len + dont_len, joined, both_len + dont_len, sizeof out, "B", 0);
    /* In any order, several times, in several controls. */
    other_len = put_ids(other, IDONTWANT, "BA");
    serves(both, both_len, other, other_len, sizeof out, "", 0);
    other_len = put_ids(other, IDONTWANT, "CBB");
    serves(both, both_len, other, other_len, sizeof out, "A", 0);
    memcpy(joined, other, other_len);
    memcpy(joined + other_len, dont, dont_len);
    serves(both, both_len, joined, other_len + dont_len, sizeof out, "", 0);

    /* The body that asks is tested first; a place counts from the start of the body that is refused. */
    serve_refuses(both, both_len, (const uint8_t *)"", 1, sizeof out, PRADULINS_FIELD_NUMBER, PRADULINS_VALUES, number);
    serve_refuses((const uint8_t *)"\x80", 1, (const uint8_t *)"", 1, sizeof out, PRADULINS_VARINT_SHORT, PRADULINS_VALUES, short_at_0);
    serve_refuses(both, both_len, (const uint8_t *)"\x1a\x03\x2a\x01\x80", 5, 0, PRADULINS_VARINT_SHORT, PRADULINS_VALUES, in_entry);
    for (size_t i = 0; i < sizeof records; i += 2)
        records[i] = 0x0a;
    serve_refuses(both, both_len, records, sizeof records, 0, PRADULINS_TOO_MANY_RECORDS, 1, many);
    serves(both, both_len, records, sizeof records - 2, sizeof out, "A", 1);
    serve_refuses(both, both_len, long_body, sizeof long_body, 0, PRADULINS_BODY_TOO_LARGE, 1, large);
    serve_refuses(long_body, sizeof long_body, records, sizeof records, 0, PRADULINS_BODY_TOO_LARGE, 1, large);
}

/* ---- groups */

/* Numbers of dialects that refuse groups, and of those that skip them: the second bit. */
static const uint32_t refusing[] = {PRADULINS_V1_1, PRADULINS_V1_2, 4, 5, 256, (UINT32_C(1) << 31) + 1, UINT32_MAX - 3, UINT32_MAX - 2};
static const uint32_t skipping[] = {PRADULINS_GROUPS, PRADULINS_V1_2 | PRADULINS_GROUPS, 6, 7, 258, (UINT32_C(1) << 31) + 3, UINT32_MAX - 1, UINT32_MAX};
enum { MODES = sizeof skipping / sizeof *skipping };

/* A body with groups that is skipped: so many records and bytes are read and written anew. */
static void skips(const uint8_t *body, size_t len, uint64_t records, const uint8_t *as, size_t as_len)
{
    const uint64_t written[] = {as_len};
    for (int i = 0; i < MODES; i++) {
        before_rows();
        expect(pradulins_decode(skipping[i], body, len, rows, sizeof rows / sizeof *rows, values) == PRADULINS_OK && values[0] == records, "groups are not skipped");
        before_rows();
        expect(pradulins_encode(skipping[i], body, len, out, sizeof out, values) == PRADULINS_OK, "a body with groups is not written anew");
        after(1, written, "another number of bytes without groups");
        expect(memcmp(out, as, as_len) == 0, "other bytes without groups");
    }
}

/* A body that is refused under the dialects of one mode: by the number, with these values. */
static void group_refused(const uint32_t *dialects, const uint8_t *body, size_t len, uint32_t number, int count, const uint64_t *wanted)
{
    for (int i = 0; i < MODES; i++) {
        before_rows();
        expect(pradulins_decode(dialects[i], body, len, rows, sizeof rows / sizeof *rows, values) == number, "decode answers a group otherwise");
        after(count, wanted, "other values beside a refusal of a group");
        before_rows();
        expect(pradulins_encode(dialects[i], body, len, out, sizeof out, values) == number, "encode answers a group otherwise");
        after(count, wanted, "other values beside a refusal of a group");
        before_rows();
        expect(pradulins_sign_bytes(dialects[i], body, len, 0, out, sizeof out, values) == number, "sign_bytes answers a group otherwise");
        after(count, wanted, "other values beside a refusal of a group");
        before_rows();
        expect(pradulins_message_id(dialects[i], body, len, 0, out, sizeof out, values) == number, "message_id answers a group otherwise");
        after(count, wanted, "other values beside a refusal of a group");
        before_rows();
        expect(pradulins_walk(dialects[i], body, len, 0, values) == number, "a walk answers a group otherwise");
        after(count, wanted, "other values beside a refusal of a group");
        for (size_t k = 0; k < sizeof out; k++)
            expect(out[k] == 0x5e, "a byte changed beside a refusal of a group");
    }
}

static void bodies_with_groups(void)
{
    static const uint8_t group[] = {0x0b, 0x10, 0x96, 1, 0x0c, 0x1a, 0}, other_end[] = {0x0b, 0x14}, number[] = {0x0b, 4}, message[] = {0x12, 2, 0x0b, 0x0c};
    static const uint64_t type[] = {3, 1, UNTOUCHED, UNTOUCHED, 1, 0, 0, 0}, zero[] = {0, 1, UNTOUCHED, UNTOUCHED, 1, 0, 0, 0};
    static const uint64_t steps[][4] = {{1, 3, 1, 5}, {3, 2, 6, 7}, {0}};
    uint8_t deep[66];
    memset(deep, 0x0b, 33);
    memset(deep + 33, 0x0c, 33);

    skips(group, sizeof group, 0, group + 5, 2);
    skips(message, sizeof message, 1, message, sizeof message);
    skips(deep + 1, 64, 0, out, 0);
    group_refused(refusing, group, sizeof group, PRADULINS_WIRE_TYPE, PRADULINS_VALUES, type);
    /* 14 to 16: no values, and no place. */
    group_refused(skipping, deep + 33, 1, PRADULINS_END_GROUP, 0, NULL);
    group_refused(skipping, other_end, sizeof other_end, PRADULINS_END_GROUP, 0, NULL);
    group_refused(skipping, deep, 66, PRADULINS_GROUP_DEPTH, 0, NULL);
    group_refused(skipping, deep, 33, PRADULINS_GROUP_DEPTH, 0, NULL);
    group_refused(skipping, deep, 32, PRADULINS_GROUP_OPEN, 0, NULL);
    group_refused(skipping, number, sizeof number, PRADULINS_FIELD_NUMBER, PRADULINS_VALUES, zero);
    for (int i = 0; i < MODES; i++) {
        size_t at = 0;
        for (int step = 0; step < 3; step++, at = values[3]) {
            before();
            expect(pradulins_walk(skipping[i], group, sizeof group, at, values) == PRADULINS_OK, "a walk over a group is refused");
            after(steps[step][0] ? 4 : 1, steps[step], "another step over a group");
        }
        expect(pradulins_sign_bytes(skipping[i], message, sizeof message, 0, out, sizeof out, values) == PRADULINS_OK && values[0] == 14
               && memcmp(out, "libp2p-pubsub:", 14) == 0, "a group is signed");
    }
}

/* A notice with a group in its message. */
enum { GROUPED = NOTICE + 2 };

static void put_grouped(uint8_t body[GROUPED], uint8_t key)
{
    put_notice(body, key);
    body[1] += 2;
    body[NOTICE] = 0x0b;
    body[NOTICE + 1] = 0x0c;
}

static void refused_in_the_first_mode(void)
{
    settings_are(1000, 4, 2, 3, node[FLAGS_AT]);
    state_is_refused(4 * 129, 3 * 4096, PRADULINS_MALFORMED);
}

static void taken_with_both_flags(void)
{
    settings_are(1000, 4, 2, 3, PRADULINS_ALLOW_UNSIGNED | PRADULINS_GROUPS);
    state_is(4 * 129, 3 * 4096, 100, 1, 1);
}

/* A node that skips groups keeps and serves a message as it came; one that does not refuses it. */
static void nodes_with_groups(void)
{
    static const uint64_t type[] = {3, 113, UNTOUCHED, UNTOUCHED, 115, 2, 0, 0}, top[] = {3, 1, UNTOUCHED, UNTOUCHED, 1, 0, 0, 0};
    static const uint8_t open[] = {0x0b};
    const uint64_t served[] = {GROUPED, 1, 0};
    uint8_t with[GROUPED], plain[NOTICE], request[IDS_SIZE], unwanted[2 + IDS_SIZE] = {0x0b, 0x0c};
    size_t request_len = put_ids(request, IWANT, "A"), unwanted_len = 2 + put_ids(unwanted + 2, IDONTWANT, "A");
    put_grouped(with, 'A');
    put_notice(plain, 'A');

    expect(pradulins_start(node, 1000, 4, 2, 3, PRADULINS_GROUPS) == PRADULINS_OK, "settings are refused at start");
    admits(with, GROUPED, true, PRADULINS_OK, 1, 4 * 129, 3 * 4096);
    admits(plain, NOTICE, true, PRADULINS_OK, 0, 4 * 129, 3 * 4096);
    admits(open, sizeof open, true, PRADULINS_GROUP_OPEN, 0, 4 * 129, 3 * 4096);
    /* Its mode is its own: of an edition only the lowest bit counts. */
    for (int i = 0; i < 2 * NUMBERS; i++) {
        uint32_t edition = i < NUMBERS ? v1_1[i] : v1_2[i - NUMBERS];
        before_rows();
        expect(pradulins_serve(node, seen, 4 * 129, cache, 3 * 4096, edition, request, request_len, request, 0, out, sizeof out, values) == PRADULINS_OK,
               "serve is refused");
        after(3, served, "another reply with a group");
        expect(memcmp(out, with, GROUPED) == 0, "a message is not served with its group");
        expect(pradulins_serve(node, seen, 4 * 129, cache, 3 * 4096, edition, request, request_len, unwanted, unwanted_len, out, sizeof out, values)
               == PRADULINS_OK && values[0] == 0, "a second body with a group is not read");
        before();
        expect(pradulins_ask(node, seen, 4 * 129, cache, 3 * 4096, edition, open, sizeof open, out, sizeof out, values) == PRADULINS_GROUP_OPEN,
               "a group that is open is taken");
        after(0, NULL, "values beside 16");
    }
    /* It keeps a message that it needs the flag for. */
    with_number(FLAGS_AT, 0, refused_in_the_first_mode);
    with_number(FLAGS_AT, PRADULINS_ALLOW_UNSIGNED, refused_in_the_first_mode);
    with_number(FLAGS_AT, PRADULINS_ALLOW_UNSIGNED | PRADULINS_GROUPS, taken_with_both_flags);

    expect(pradulins_start(node, 1000, 4, 2, 3, 0) == PRADULINS_OK, "settings are refused at start");
    for (int i = 0; i < 2 * NUMBERS; i++) {
        uint32_t edition = i < NUMBERS ? v1_1[i] : v1_2[i - NUMBERS];
        before();
        expect(pradulins_admit(node, seen, 4 * 129, cache, 3 * 4096, edition, with, GROUPED, 0, true, 100, values) == PRADULINS_WIRE_TYPE, "a group is taken");
        after(PRADULINS_VALUES, type, "another place of a group");
        before();
        expect(pradulins_serve(node, seen, 4 * 129, cache, 3 * 4096, edition, request, request_len, unwanted, unwanted_len, out, sizeof out, values)
               == PRADULINS_WIRE_TYPE, "a second body with a group is taken");
        after(PRADULINS_VALUES, top, "another place of a group in the second body");
    }
}

/* ---- words */

static void words(void)
{
    const char *none = pradulins_refusal_text(UINT32_MAX);
    uint32_t last = 0;
    for (uint32_t number = 0; number <= 50; number++)
        expect(pradulins_refusal_text(number) != NULL && *pradulins_refusal_text(number) != 0, "no words for a number");
    for (size_t i = 0; boundary_refusal(i) != 0; i++) {
        uint32_t number = boundary_refusal(i);
        /* Each in words of its own, and no number between it and the one before it. */
        expect(strcmp(pradulins_refusal_text(number), none) != 0, "a refusal without words of its own");
        for (size_t j = 0; j < i; j++)
            expect(strcmp(pradulins_refusal_text(number), pradulins_refusal_text(boundary_refusal(j))) != 0, "two refusals in the same words");
        for (uint32_t other = last + 1; other < number; other++)
            expect(strcmp(pradulins_refusal_text(other), none) == 0, "words for a number that is no refusal");
        last = number;
    }
    expect(last == PRADULINS_MALFORMED, "another last refusal");
    for (uint32_t other = last + 1; other <= 50; other++)
        expect(strcmp(pradulins_refusal_text(other), none) == 0, "words for a number that is no refusal");
    expect(strcmp(pradulins_refusal_text(PRADULINS_OK), none) != 0, "no words for 0");
    for (uint32_t number = 0; number <= 50; number++)
        expect(pradulins_refusal_has_place(number) == (number >= 1 && number <= 7), "a place beside another refusal than 1 to 7");
    expect(PRADULINS_FIELDS == PRADULINS_OFFSET + 1 && PRADULINS_VALUES == PRADULINS_FIELDS + PRADULINS_MAX_FIELDS, "values that are no place");
}

int test_self(void)
{
    expect(pradulins_version() == PRADULINS_VERSION, "another version");
    expect(pradulins_format() == PRADULINS_FORMAT, "another format");
    words();
    nodes();
    lists();
    read_and_said();
    unsigned_messages();
    unsigned_messages_written();
    bodies_in_editions();
    second_bodies();
    bodies_with_groups();
    nodes_with_groups();
    printf("%d checks, %d failed\n", checks, faults);
    return faults ? 1 : 0;
}
