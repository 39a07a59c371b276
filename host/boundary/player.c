/*
 * Plays the records of the programs `inspect`, `trace`, `states` and `why` through pradulins.h, and prints their lines: on the same input the same lines are
 * expected. For what the interface does not have (kinds 6 to 9 of `inspect`, 9 and 10 of `states`) the line is the record's number and `-`. Beside that
 * it watches the memory of each call: a refused one changes none but `values`, one that succeeds writes only what it counts, and `values` gets as many
 * numbers as the header says. Each call on a body or on rows is made again with room that just suffices and with one byte or number less, and each on a body under other
 * numbers of the same dialect or edition: only the two lowest bits count, or the lowest. Where groups are refused, each call on a body is also made where they are skipped:
 * it answers the same, unless the body was refused by the type of a group. A reply without a second body is also made with second bodies that decline nothing. Rows are also
 * written where unsigned messages are allowed, which changes nothing where all messages have a signature, where groups are skipped, which changes nothing at all, and under
 * flags that are not known. Before each call on a node, pradulins_settings and pradulins_state are asked: they tell what stands in the node's bytes, or the refusal that the
 * call then answers.
 */
#include "player.h"

#include <stdio.h>
#include <stdlib.h>
#include <string.h>

#include "pradulins.h"

/* The lengths of the programs' own buffers. */
enum { CONTENT = 307608, SEEN = 33282, CACHE = 266240, MADE = 65600, ROWS = 640 };

#define UNTOUCHED 0x5e5e5e5e5e5e5e5eu

static uint8_t content[CONTENT];
static uint8_t node[PRADULINS_NODE_SIZE], node_before[PRADULINS_NODE_SIZE];
static uint8_t seen[SEEN], seen_before[SEEN];
static uint8_t cache[CACHE], cache_before[CACHE];
static uint8_t made[MADE], made_before[MADE];
static uint64_t table[PRADULINS_TABLE_WORDS], table_before[PRADULINS_TABLE_WORDS];
static uint64_t rows[ROWS * PRADULINS_RECORD_WORDS], rows_before[ROWS * PRADULINS_RECORD_WORDS];
static uint64_t values[PRADULINS_VALUES];
static size_t seen_len, cache_len;
static int started, on_rows;
static uint64_t n;
static const char *fault;

/* ---- watching a call */

static void before(void)
{
    memcpy(node_before, node, sizeof node);
    memcpy(seen_before, seen, sizeof seen);
    memcpy(cache_before, cache, sizeof cache);
    memcpy(made_before, made, sizeof made);
    memcpy(table_before, table, sizeof table);
    memcpy(rows_before, rows, sizeof rows);
    for (int i = 0; i < PRADULINS_VALUES; i++)
        values[i] = UNTOUCHED;
}

static void expect(int ok, const char *what)
{
    if (!ok && !fault) {
        fault = what;
        fprintf(stderr, "record %llu: %s\n", (unsigned long long)n, what);
    }
}

/* Whether a refusal has a place. A call on rows reads no body: its 7 has none. */
static int has_place(uint32_t number)
{
    return !on_rows && pradulins_refusal_has_place(number);
}

/*
 * After a call. `count` is how many values a success hands out, `bytes` and `records` how much it wrote; a call that `keeps` leaves node and stores.
 */
static void after(uint32_t number, int count, size_t bytes, size_t records, int keeps)
{
    int placed = has_place(number);
    if (number != 0) {
        count = pradulins_refusal_values(number);
        bytes = records = 0;
        keeps = 1;
    }
    for (int i = 0; i < PRADULINS_VALUES; i++)
        expect((i < count || (placed && i >= PRADULINS_OFFSET)) == (values[i] != UNTOUCHED), "another number of values");
    if (keeps) {
        expect(memcmp(node, node_before, sizeof node) == 0, "the node changed");
        expect(memcmp(seen, seen_before, sizeof seen) == 0, "the seen store changed");
        expect(memcmp(cache, cache_before, sizeof cache) == 0, "the cache store changed");
    }
    expect(memcmp(seen + seen_len, seen_before + seen_len, sizeof seen - seen_len) == 0, "bytes after the seen store changed");
    expect(memcmp(cache + cache_len, cache_before + cache_len, sizeof cache - cache_len) == 0, "bytes after the cache store changed");
    expect(bytes <= sizeof made && memcmp(made + bytes, made_before + bytes, sizeof made - bytes) == 0, "the buffer changed");
    size_t words = records * PRADULINS_RECORD_WORDS;
    expect(words <= PRADULINS_TABLE_WORDS && memcmp(table + words, table_before + words, sizeof table - words * 8) == 0, "the table changed");
    expect(memcmp(rows, rows_before, sizeof rows) == 0, "the rows changed");
}

/* ---- lines */

static void put_hex(const uint8_t *s, size_t len)
{
    for (size_t i = 0; i < len; i++)
        printf("%02x", s[i]);
}

static void put_number(uint64_t v)
{
    printf(" %llu", (unsigned long long)v);
}

/* A refusal; where `full`, with its values and its place. */
static void put_refused(uint32_t number, int full)
{
    printf(" refused %u", number);
    for (int i = 0; full && i < pradulins_refusal_values(number); i++)
        put_number(values[i]);
    if (!full || !has_place(number))
        return;
    const uint64_t *fields = values + PRADULINS_FIELDS;
    printf(" at");
    put_number(values[PRADULINS_OFFSET]);
    for (int i = 0; i < PRADULINS_MAX_FIELDS && fields[i] != 0; i++) {
        fputs(i == 0 ? " in" : "", stdout);
        put_number(fields[i]);
    }
    for (int i = 1; i < PRADULINS_MAX_FIELDS; i++)
        expect(fields[i] == 0 || fields[i - 1] != 0, "a field number behind one that is none");
}

/* The bytes that a writer made: their number and, above 0, their hex. */
static void put_made(void)
{
    put_number(values[0]);
    if (values[0] > 0) {
        putchar(' ');
        put_hex(made, values[0]);
    }
}

static void start_line(const char *word)
{
    printf("%llu %s", (unsigned long long)n, word);
}

/* ---- records in */

static uint64_t number_at(const uint8_t *s, size_t at, size_t len)
{
    uint64_t v = 0;
    while (len-- > 0)
        v = v << 8 | s[at + len];
    return v;
}

enum next { END, BAD, LONG, RECORD };

/* A gateway, kind 13, may have more than the others, `largest`. */
static enum next next_record(size_t most, size_t largest, uint64_t *kind, size_t *len)
{
    uint8_t header[6];
    size_t got = fread(header, 1, sizeof header, stdin);
    if (got == 0)
        return END;
    if (got >= 4 && number_at(header, 0, 4) > largest)
        return LONG;
    if (got < sizeof header)
        return BAD;
    *len = number_at(header, 0, 4);
    *kind = number_at(header, 4, 2);
    if (*kind != 13 && *len > most)
        return LONG;
    return fread(content, 1, *len, stdin) == *len ? RECORD : BAD;
}

static int not_there(void)
{
    start_line("-\n");
    return 1;
}

/* ---- inspect */

static void put_place(const uint64_t *row, const uint8_t *body, int i)
{
    const uint64_t *place = row + PRADULINS_RECORD_FIELD(i);
    if (!place[0]) {
        printf(" -");
        return;
    }
    printf(" =");
    put_hex(body + row[PRADULINS_RECORD_START] + place[1], place[2] - place[1]);
}

static void put_whole(const uint64_t *row, const uint8_t *body)
{
    printf(" =");
    put_hex(body + row[PRADULINS_RECORD_START], row[PRADULINS_RECORD_END] - row[PRADULINS_RECORD_START]);
}

static void put_record(const uint64_t *row, const uint8_t *body)
{
    int has = row[PRADULINS_RECORD_HAS_NUMBER] == 1;
    uint64_t number = row[PRADULINS_RECORD_NUMBER];
    switch (row[PRADULINS_RECORD_KIND]) {
    case PRADULINS_KIND_SUB_OPTS:
        printf("  sub %s", !has ? "-" : number ? "1" : "0");
        put_place(row, body, 0);
        break;
    case PRADULINS_KIND_MESSAGE:
        printf("  message");
        put_whole(row, body);
        for (int i = 0; i < 5; i++)
            put_place(row, body, i);
        break;
    case PRADULINS_KIND_TOPIC:
        printf("  topic");
        put_whole(row, body);
        break;
    case PRADULINS_KIND_IHAVE:
        printf("  ihave");
        put_place(row, body, 0);
        break;
    case PRADULINS_KIND_IWANT:
        printf("  iwant");
        break;
    case PRADULINS_KIND_MESSAGE_ID:
        printf("  id");
        put_whole(row, body);
        break;
    case PRADULINS_KIND_GRAFT:
        printf("  graft");
        put_place(row, body, 0);
        break;
    case PRADULINS_KIND_PRUNE:
        printf("  prune");
        put_place(row, body, 0);
        if (has)
            put_number(number);
        else
            printf(" -");
        break;
    case PRADULINS_KIND_PEER_INFO:
        printf("  peer");
        put_place(row, body, 0);
        put_place(row, body, 1);
        break;
    case PRADULINS_KIND_IDONTWANT:
        printf("  idontwant");
        break;
    default:
        expect(0, "a record of no known kind");
    }
}

/* A call on a body, by its kind, with so much room. */
static uint32_t body_call(uint64_t kind, uint32_t dialect, const uint8_t *body, size_t len, size_t index, size_t room)
{
    switch (kind) {
    case 1:
        return pradulins_decode(dialect, body, len, table, room, values);
    case 2:
        return pradulins_encode(dialect, body, len, made, room, values);
    case 3:
        return pradulins_sign_bytes(dialect, body, len, index, made, room, values);
    default:
        return pradulins_message_id(dialect, body, len, index, made, room, values);
    }
}

/* The same edition by another number: only the lowest bit counts. Which one depends on the record. */
static uint32_t other_number(uint32_t edition)
{
    static const uint32_t more[] = {2, UINT32_C(1) << 31, 256, UINT32_MAX - 1};
    return edition ^ more[n % (sizeof more / sizeof *more)];
}

/* The same dialect by another number: only the two lowest bits count. */
static uint32_t other_dialect(uint32_t dialect)
{
    static const uint32_t more[] = {4, UINT32_C(1) << 31, 256, UINT32_MAX - 3};
    return dialect ^ more[n % (sizeof more / sizeof *more)];
}

/* Whether a body was refused since a group begins or ends: in the other mode it is read otherwise. */
static int is_group(uint32_t number)
{
    return number == PRADULINS_WIRE_TYPE && (values[0] == 3 || values[0] == 4);
}

/* The same call with other room: what it answered before, with the room that it needed and with none to spare; and 12 with less. */
static void rooms(uint64_t kind, uint32_t dialect, const uint8_t *body, size_t len, size_t index, uint32_t r)
{
    uint64_t first = values[0], place[PRADULINS_VALUES - PRADULINS_OFFSET];
    memcpy(place, values + PRADULINS_OFFSET, sizeof place);
    size_t unit = kind == 1 ? PRADULINS_RECORD_WORDS : 1, needed = r ? 0 : first * unit;
    before();
    uint32_t again = body_call(kind, other_dialect(dialect), body, len, index, needed);
    after(again, kind == 1 ? 2 : 1, kind == 1 || again ? 0 : values[0], kind == 1 && !again ? values[0] : 0, 1);
    expect(again == r && (pradulins_refusal_values(r) == 0 || values[0] == first), "another answer with just enough room");
    expect(memcmp(place, values + PRADULINS_OFFSET, sizeof place) == 0, "another place with just enough room");
    if (needed > 0) {
        before();
        again = body_call(kind, dialect, body, len, index, needed - 1);
        after(again, 0, 0, 0, 1);
        expect(again == PRADULINS_ROOM && values[0] == first, "no refusal 12 with too little room");
    }
}

/* The same call where groups are skipped: where none is met, the answer `r`, the values and what was written stay. */
static void skipping(uint64_t kind, uint32_t dialect, const uint8_t *body, size_t len, size_t index, size_t room, uint32_t r)
{
    uint64_t first[PRADULINS_VALUES];
    if (dialect & PRADULINS_GROUPS || is_group(r))
        return;
    memcpy(first, values, sizeof first);
    before();
    uint32_t again = body_call(kind, dialect | PRADULINS_GROUPS, body, len, index, room);
    expect(again == r && memcmp(first, values, sizeof first) == 0, "another answer where groups are skipped");
    expect(memcmp(made, made_before, sizeof made) == 0 && memcmp(table, table_before, sizeof table) == 0, "something else is written where groups are skipped");
}

static void inspect_body(uint64_t kind, uint32_t dialect, const char *word, const uint8_t *body, size_t len, size_t index, size_t room)
{
    uint32_t r = body_call(kind, dialect, body, len, index, room);
    after(r, kind == 1 ? 2 : 1, kind == 1 || r ? 0 : values[0], kind == 1 && !r ? values[0] : 0, 1);
    skipping(kind, dialect, body, len, index, room, r);
    start_line(word);
    if (r) {
        put_refused(r, 1);
    } else if (kind == 1) {
        printf(" ok %llu %s", (unsigned long long)values[0], values[1] ? "control" : "plain");
        for (uint64_t row = 0; row < values[0]; row++) {
            putchar('\n');
            put_record(table + row * PRADULINS_RECORD_WORDS, body);
        }
    } else {
        put_made();
    }
    putchar('\n');
    rooms(kind, dialect, body, len, index, r);
}

/* The same step under another number of the dialect and in the other edition, which does not matter; and where groups are skipped, if none is met. */
static void same_step(uint32_t dialect, const uint8_t *body, size_t len, size_t at, uint32_t r)
{
    const uint32_t others[] = {other_dialect(dialect), dialect ^ PRADULINS_V1_2, dialect | PRADULINS_GROUPS};
    uint64_t first[PRADULINS_VALUES];
    memcpy(first, values, sizeof first);
    for (int i = 0; i < (is_group(r) ? 2 : 3); i++) {
        before();
        expect(pradulins_walk(others[i], body, len, at, values) == r && memcmp(first, values, sizeof first) == 0, "another step of a walk");
    }
}

static void inspect_walk(uint32_t dialect, const uint8_t *body, size_t len, size_t at)
{
    uint32_t r = pradulins_walk(dialect, body, len, at, values);
    after(r, !r && values[0] == 0 ? 1 : 4, 0, 0, 1);
    same_step(dialect, body, len, at, r);
    start_line("walk");
    if (r)
        put_refused(r, 1);
    else if (values[0] == 0)
        printf(" end");
    else
        for (int i = 0; i < 4; i++)
            put_number(values[i]);
    putchar('\n');
}

/* ---- rows, kinds 10 and 11 of inspect */

/* The rows of a record from `at` on: 0, or 1 where there are `count` of them, with `*end` behind them. */
static int read_rows(size_t at, size_t len, size_t count, size_t *end)
{
    memset(rows, 0, sizeof rows);
    for (size_t i = 0; i < count; i++) {
        uint64_t *row = rows + i * PRADULINS_RECORD_WORDS;
        if (len - at < 18 || content[at + 1] > 63)
            return 0;
        int mask = content[at + 1];
        pradulins_row(row, content[at], number_at(content, at + 2, 8), number_at(content, at + 10, 8));
        at += 18;
        for (int bit = 0; bit < 6; bit++) {
            if (!(mask >> bit & 1))
                continue;
            size_t size = bit ? 16 : 8;
            if (len - at < size)
                return 0;
            if (bit)
                pradulins_row_field(row, bit - 1, number_at(content, at, 8), number_at(content, at + 8, 8));
            else
                pradulins_row_number(row, number_at(content, at, 8));
            at += size;
        }
    }
    *end = at;
    return 1;
}

static uint32_t rows_call(uint64_t kind, size_t count, const uint8_t *bytes, size_t len, uint32_t flags, size_t index, size_t room)
{
    size_t words = count * PRADULINS_RECORD_WORDS;
    before();
    uint32_t r = kind == 10 ? pradulins_write_rpc(rows, words, bytes, len, flags, made, room, values)
                            : pradulins_sign_fields(rows, words, bytes, len, index, made, room, values);
    after(r, 1, r ? 0 : values[0], 0, 1);
    return r;
}

/* Whether each message among the rows has a signature. */
static int all_signed(size_t count)
{
    for (const uint64_t *row = rows; row < rows + count * PRADULINS_RECORD_WORDS; row += PRADULINS_RECORD_WORDS)
        if (row[PRADULINS_RECORD_KIND] == PRADULINS_KIND_MESSAGE && !row[PRADULINS_RECORD_FIELD(3)])
            return 0;
    return 1;
}

/* The rows written under other flags: they answered `r` with `first` under none. What is then made, where they are written, stands in `made` already. */
static void other_flags(size_t count, const uint8_t *bytes, size_t len, size_t room, uint32_t r, uint64_t first)
{
    static const uint32_t unknown[] = {4, 7, UINT32_C(1) << 16, UINT32_MAX};
    static const uint32_t known[] = {PRADULINS_GROUPS, PRADULINS_ALLOW_UNSIGNED, PRADULINS_ALLOW_UNSIGNED | PRADULINS_GROUPS};
    for (size_t i = 0; i < sizeof unknown / sizeof *unknown; i++)
        expect(rows_call(10, count, bytes, len, unknown[i], 0, room) == PRADULINS_BAD_SETTING, "flags that are not known are taken");
    for (size_t i = 0; i < (all_signed(count) ? sizeof known / sizeof *known : 1); i++) {
        uint32_t again = rows_call(10, count, bytes, len, known[i], 0, room);
        expect(again == r && ((r && pradulins_refusal_values(r) == 0) || values[0] == first), "another answer under other flags");
        expect(r || memcmp(made, made_before, sizeof made) == 0, "other bytes under other flags");
    }
}

/* room, count, so many rows, and the bytes that they are over; before that, of kind 11, an index. */
static int inspect_rows(uint64_t kind, size_t len)
{
    size_t at = kind == 10 ? 0 : 2, index = number_at(content, 0, at), end = 0;
    if (len < at + 6)
        return 0;
    size_t room = number_at(content, at, 4), count = number_at(content, at + 4, 2);
    if (room > MADE || count > ROWS || !read_rows(at + 6, len, count, &end))
        return 0;
    on_rows = 1;
    uint32_t r = rows_call(kind, count, content + end, len - end, 0, index, room);
    uint64_t first = values[0];
    start_line(kind == 10 ? "write" : "tosign");
    if (r)
        put_refused(r, 1);
    else
        put_made();
    putchar('\n');
    if (kind == 10)
        other_flags(count, content + end, len - end, room, r, first);
    /* The same answer with room that just suffices, and with none where it is refused; 12 with less. */
    int made_it = r == 0 || (r == PRADULINS_ROOM && first <= MADE);
    size_t needed = made_it ? first : 0;
    uint32_t again = rows_call(kind, count, content + end, len - end, 0, index, needed);
    expect(again == (made_it ? 0 : r) && ((r && pradulins_refusal_values(r) == 0) || values[0] == first), "another answer with just enough room");
    if (needed > 0)
        expect(rows_call(kind, count, content + end, len - end, 0, index, needed - 1) == PRADULINS_ROOM && values[0] == first,
               "no refusal 12 with too little room");
    on_rows = 0;
    return 1;
}

/* Kinds 1 to 4; what they are given stands from `at` on. */
static int inspect_in(uint64_t kind, uint32_t dialect, size_t at, size_t len)
{
    const uint8_t *body = content + at;
    len -= at;
    switch (kind) {
    case 1:
        inspect_body(kind, dialect, "decode", body, len, 0, PRADULINS_TABLE_WORDS);
        return 1;
    case 2:
        inspect_body(kind, dialect, "encode", body, len, 0, 65536);
        return 1;
    default:
        if (len < 2)
            return 0;
        inspect_body(kind, dialect, kind == 3 ? "sign" : "id", body + 2, len - 2, number_at(body, 0, 2), kind == 3 ? 65600 : 65536);
        return 1;
    }
}

static int inspect(uint64_t kind, size_t len)
{
    before();
    switch (kind) {
    case 1:
    case 2:
    case 3:
    case 4:
        return inspect_in(kind, PRADULINS_V1_1, 0, len);
    case 21:
    case 22:
    case 23:
    case 24:
        return len > 0 && content[0] <= 3 && inspect_in(kind - 20, content[0], 1, len);
    case 5:
        if (len < 8)
            return 0;
        inspect_walk(PRADULINS_V1_1, content + 8, len - 8, number_at(content, 0, 8));
        return 1;
    case 25:
        if (len < 9 || content[0] > 3)
            return 0;
        inspect_walk(content[0], content + 9, len - 9, number_at(content, 1, 8));
        return 1;
    case 6:
    case 7:
    case 8:
    case 9:
        return not_there();
    case 10:
    case 11:
        return inspect_rows(kind, len);
    default:
        return 0;
    }
}

/* ---- trace and states */

/* The settings of a record, for a node that keeps at most `most` messages; behind them stand flags, of so many bytes. */
static int set(size_t len, size_t most, size_t flags_len)
{
    if (len != 14 + flags_len)
        return 0;
    uint64_t max_seen = number_at(content, 8, 2), history_len = number_at(content, 10, 2), max_messages = number_at(content, 12, 2);
    uint32_t r = PRADULINS_BAD_SETTING;
    before();
    if (max_messages <= most)
        r = pradulins_start(node, number_at(content, 0, 8), max_seen, history_len, max_messages, (uint32_t)number_at(content, 14, flags_len));
    after(r, 0, 0, 0, 0);
    start_line("set");
    if (r) {
        put_refused(r, 1);
    } else {
        printf(" ok");
        seen_len = PRADULINS_SEEN_STORE_SIZE(max_seen);
        cache_len = PRADULINS_CACHE_STORE_SIZE(max_messages);
        started = 1;
    }
    putchar('\n');
    return 1;
}

/* What the node's settings and state are told to be. 0, or the refusal that every call on it must answer. */
static uint32_t told_fault(void)
{
    before();
    uint32_t settings = pradulins_settings(node, values);
    after(settings, 5, 0, 0, 1);
    if (settings == 0)
        expect(values[0] == number_at(node, 0, 8) && values[1] == number_at(node, 8, 8) && values[2] == number_at(node, 40, 8)
               && values[3] == number_at(node, 48, 8) && values[4] == number_at(node, 12432, 8), "other settings are told");
    before();
    uint32_t state = pradulins_state(node, seen, seen_len, cache, cache_len, values);
    after(state, 3, 0, 0, 1);
    if (state == 0)
        expect(values[0] == number_at(node, 16, 8) && values[1] == number_at(node, 32, 8) && values[2] == number_at(node, 72, 8),
               "another clock or other counts are told");
    expect(settings == 0 || (settings == PRADULINS_MALFORMED && state != 0), "settings are refused, and the state is not");
    return state;
}

/* Whether a call answered the fault that was told before it. */
static void expect_fault(uint32_t told, uint32_t answered)
{
    expect(told == (answered >= PRADULINS_BAD_SETTING ? answered : 0), "the state is told to be otherwise than the call finds it");
}

/* What it is given stands from `at` on. */
static int admit(uint32_t edition, size_t at, size_t len, int full)
{
    const uint8_t *given = content + at;
    if (len < at + 11 || (!full && given[10] > 1))
        return 0;
    uint32_t told = told_fault();
    before();
    uint32_t r = pradulins_admit(node, seen, seen_len, cache, cache_len, edition, given + 11, len - at - 11, number_at(given, 8, 2), given[10] == 1,
                                 number_at(given, 0, 8), values);
    after(r, 1, 0, 0, 0);
    expect_fault(told, r);
    start_line("admit");
    if (r)
        put_refused(r, full);
    else
        printf(values[0] ? " new" : " dup");
    putchar('\n');
    return 1;
}

static int beat(size_t len, int full)
{
    if (len != 8)
        return 0;
    uint32_t told = told_fault();
    before();
    uint32_t r = pradulins_heartbeat(node, seen, seen_len, cache, cache_len, number_at(content, 0, 8), values);
    after(r, 0, 0, 0, 0);
    expect_fault(told, r);
    start_line("beat");
    if (r)
        put_refused(r, full);
    else
        printf(" ok");
    putchar('\n');
    return 1;
}

/* The same reply in other ways: under another number of the edition, and beside second bodies that decline nothing. `r` was answered, in `made` and `values`. */
static void same_reply(uint32_t edition, const uint8_t *body, size_t len, const uint8_t *unwanted, size_t unwanted_len, size_t room, uint32_t r)
{
    /* An id that no message has, an IWANT of nothing, a control with a field 5 of another type. */
    static const uint8_t others[][6] = {{0x1a, 4, 0x2a, 2, 0x0a, 0}, {0x1a, 2, 0x12, 0, 0x1a, 0}, {0x1a, 2, 0x28, 7, 0x1a, 0}};
    uint64_t first[PRADULINS_VALUES];
    memcpy(first, values, sizeof first);
    for (size_t i = 0; i < (unwanted_len ? 1 : 1 + sizeof others / sizeof *others); i++) {
        before();
        uint32_t again = pradulins_serve(node, seen, seen_len, cache, cache_len, other_number(edition), body, len, i ? others[i - 1] : unwanted,
                                         i ? sizeof *others : unwanted_len, made, room, values);
        after(again, 3, again ? 0 : values[0], 0, 1);
        expect(again == r && memcmp(first, values, sizeof first) == 0, "another reply by another number, or beside a body that declines nothing");
        expect(memcmp(made, made_before, sizeof made) == 0, "another reply's bytes");
    }
}

/*
 * advertise, ask and serve, with a buffer of this room; what they are given stands from `at` on. Of serve, the first `unwanted_len` bytes of that are the second body.
 */
static int write_call(uint64_t kind, uint32_t edition, size_t at, size_t unwanted_len, size_t len, size_t room, int full)
{
    const uint8_t *body = content + at + unwanted_len;
    size_t body_len = len - at - unwanted_len;
    uint32_t r, told = told_fault();
    before();
    switch (kind) {
    case 4:
        if (len < at + 2)
            return 0;
        r = pradulins_advertise(node, seen, seen_len, cache, cache_len, content + at + 2, len - at - 2, number_at(content, at, 2), made, room, values);
        start_line("advertise");
        break;
    case 5:
        r = pradulins_ask(node, seen, seen_len, cache, cache_len, edition, body, body_len, made, room, values);
        start_line("ask");
        break;
    default:
        r = pradulins_serve(node, seen, seen_len, cache, cache_len, edition, body, body_len, content + at, unwanted_len, made, room, values);
        start_line("serve");
    }
    after(r, kind == 6 ? 3 : 1, r ? 0 : values[0], 0, 1);
    expect_fault(told, r);
    if (r) {
        put_refused(r, full);
    } else {
        put_made();
        if (kind == 6) {
            put_number(values[1]);
            put_number(values[2]);
        }
    }
    putchar('\n');
    if (kind == 6)
        same_reply(edition, body, body_len, content + at, unwanted_len, room, r);
    return 1;
}

/* What the values of pradulins_explain say. */
static void put_offer(void)
{
    switch (values[0]) {
    case PRADULINS_OFFER_LISTED:
        printf(" listed");
        break;
    case PRADULINS_OFFER_NOT_CACHED:
        printf(" missing");
        break;
    case PRADULINS_OFFER_WITHOUT_TOPIC:
        printf(" topic");
        break;
    case PRADULINS_OFFER_OLDER_WINDOW:
        printf(" window");
        put_number(values[1]);
        break;
    default:
        expect(0, "an answer that is none of the four");
    }
}

static int why(size_t len, int full)
{
    if (len < 4 || number_at(content, 2, 2) > len - 4)
        return 0;
    size_t id_len = number_at(content, 2, 2), windows = number_at(content, 0, 2);
    uint32_t told = told_fault();
    before();
    uint32_t r = pradulins_explain(node, seen, seen_len, cache, cache_len, content + 4, id_len, content + 4 + id_len, len - 4 - id_len, windows, values);
    after(r, values[0] == PRADULINS_OFFER_OLDER_WINDOW ? 2 : 1, 0, 0, 1);
    expect_fault(told, r);
    start_line("why");
    if (r)
        put_refused(r, full);
    else
        put_offer();
    putchar('\n');
    return 1;
}

static int trace(uint64_t kind, size_t len)
{
    if (kind == 1)
        return set(len, 8, 0);
    if (!started)
        return 0;
    switch (kind) {
    case 2:
        return admit(PRADULINS_V1_1, 0, len, 0);
    case 3:
        return beat(len, 0);
    case 4:
    case 5:
    case 6:
        return write_call(kind, PRADULINS_V1_1, 0, 0, len, 65536, 0);
    default:
        return 0;
    }
}

/* Whether the stores behind a node in the content are as long as its maxima say. The maxima may be any numbers. */
static int are_stores(size_t len)
{
    uint64_t max_seen = number_at(content, 8, 8), max_messages = number_at(content, 48, 8);
    return max_seen <= CONTENT && max_messages <= CONTENT
           && PRADULINS_SEEN_STORE_SIZE(max_seen) + PRADULINS_CACHE_STORE_SIZE(max_messages) == len - PRADULINS_NODE_SIZE;
}

/* Kind 13 of `why`: a node and its stores, which are tested where they stand. */
static int gateway(size_t len)
{
    if (len < PRADULINS_NODE_SIZE)
        return 0;
    const uint8_t *ids = content + PRADULINS_NODE_SIZE;
    uint32_t r = PRADULINS_BAD_STORE;
    if (are_stores(len)) {
        size_t ids_len = PRADULINS_SEEN_STORE_SIZE(number_at(content, 8, 8)), messages_len = len - PRADULINS_NODE_SIZE - ids_len;
        before();
        r = pradulins_state(content, ids, ids_len, ids + ids_len, messages_len, values);
        after(r, 3, 0, 0, 1);
        if (r == 0) {
            memcpy(node, content, sizeof node);
            memcpy(seen, ids, seen_len = ids_len);
            memcpy(cache, ids + ids_len, cache_len = messages_len);
            started = 1;
        }
    }
    start_line("gateway");
    if (r)
        put_refused(r, 0);
    else
        printf(" ok");
    putchar('\n');
    return 1;
}

/* The program `why`: a trace, and two kinds more. */
static int why_program(uint64_t kind, size_t len)
{
    if (kind == 13)
        return gateway(len);
    if (kind == 12)
        return started && why(len, 0);
    return trace(kind, len);
}

/* Sets a number of the node, of so many bytes. */
static void set_number(size_t at, size_t len, uint64_t value)
{
    for (size_t i = 0; i < len; i++, value >>= 8)
        node[at + i] = (uint8_t)value;
}

/* Kind 8 of states: what the numbers mean stands in crates/states/src/hurt.rt, where they lie in crates/stored/specs/Layout.antt. */
static int hurt(size_t len)
{
    /* where ttl, max_seen, clock; start and count of the seen part; history_len, max_messages, next arrival number, start, count of the cache stand */
    static const size_t head[] = {0, 8, 16, 24, 32, 0, 0, 40, 48, 56, 64, 72};
    if (len != 13)
        return 0;
    uint64_t what = content[0], p = number_at(content, 1, 4), value = number_at(content, 5, 8);
    if (what == 17) {
        if (p < seen_len)
            seen[p] = (uint8_t)value;
    } else if (what == 18) {
        if (p < cache_len)
            cache[p] = (uint8_t)value;
    } else if (what == 5 || what == 6) {
        if (p < 256 && what == 5)
            set_number(80 + p * 8, 8, value);
        else if (p < 256)
            set_number(2768 + p, 1, value);
    } else if (what < 12) {
        set_number(head[what], 8, value);
    } else if (what == 12) {
        set_number(2128 + p % 64 * 8, 8, value);
    } else if (what == 13) {
        set_number(3024 + p % 64, 1, value);
    } else if (what == 14) {
        set_number(2640 + p % 64 * 2, 2, value);
    } else if (what == 15) {
        set_number(3088 + p % 64, 1, value);
    } else if (what == 19) {
        set_number(11344 + p % 64, 1, value);
    } else if (what == 20) {
        set_number(11408 + p % 256 * 2, 2, value);
    } else if (what == 21) {
        set_number(11920 + p % 256 * 2, 2, value);
    } else if (what == 22) {
        set_number(12432, 8, value);
    } else {
        set_number(3152 + p % 8192, 1, value);
    }
    start_line("hurt ok\n");
    return 1;
}

static int lend(size_t len)
{
    if (len != 8)
        return 0;
    uint64_t for_seen = number_at(content, 0, 4), for_cache = number_at(content, 4, 4);
    if (for_seen > SEEN || for_cache > CACHE)
        return 0;
    seen_len = for_seen;
    cache_len = for_cache;
    start_line("lend ok\n");
    return 1;
}

/* The sum of the sums of all fronts: it tells where a byte changed, too. */
static uint64_t sum(const uint8_t *s, size_t len)
{
    uint64_t front = 0, total = 0;
    for (size_t i = 0; i < len; i++) {
        front += s[i];
        total += front;
    }
    return total;
}

static int state(void)
{
    static const size_t numbers[] = {16, 24, 32, 64, 72, 56};
    start_line("state");
    for (size_t i = 0; i < 6; i++)
        put_number(number_at(node, numbers[i], 8));
    put_number(sum(seen, seen_len));
    put_number(sum(cache, cache_len));
    put_number(sum(made, MADE));
    putchar('\n');
    return 1;
}

/* A room that stands at a place, and what follows it. */
static int write_in(uint64_t kind, uint32_t edition, size_t at, size_t len)
{
    if (len < at + 4 || number_at(content, at, 4) > MADE)
        return 0;
    return write_call(kind, edition, at + 4, 0, len, number_at(content, at, 4), 1);
}

/* Kinds 22, 25 and 26: an edition, and then what 2, 5 and 6 have; of the last the second body stands between room and body, with its length before it. */
static int in_edition(uint64_t kind, size_t len)
{
    if (len < 1 || content[0] > 1)
        return 0;
    if (kind == 22)
        return admit(content[0], 1, len, 1);
    if (kind == 25)
        return write_in(5, content[0], 1, len);
    if (len < 9 || number_at(content, 1, 4) > MADE || number_at(content, 5, 4) > len - 9)
        return 0;
    return write_call(6, content[0], 9, number_at(content, 5, 4), len, number_at(content, 1, 4), 1);
}

static int states(uint64_t kind, size_t len)
{
    switch (kind) {
    case 1:
        return set(len, 65535, 0);
    case 2:
        return admit(PRADULINS_V1_1, 0, len, 1);
    case 3:
        return beat(len, 1);
    case 4:
    case 5:
    case 6:
        return write_in(kind, PRADULINS_V1_1, 0, len);
    case 7:
        return lend(len);
    case 8:
        return hurt(len);
    case 9:
    case 10:
        return not_there();
    case 11:
        return state();
    case 12:
        return why(len, 1);
    case 21:
        return set(len, 65535, 2);
    case 22:
    case 25:
    case 26:
        return in_edition(kind, len);
    default:
        return 0;
    }
}

int play(const char *program)
{
    int (*call)(uint64_t, size_t) = strcmp(program, "inspect") == 0 ? inspect : strcmp(program, "trace") == 0 ? trace
                                    : strcmp(program, "why") == 0 ? why_program : states;
    size_t most = call == trace || call == why_program ? 32768 : 65600, largest = call == why_program ? CONTENT : most;
    if (call == states)
        pradulins_start(node, 0, 0, 1, 0, 0);
    for (n = 1;; n++) {
        uint64_t kind = 0;
        size_t len = 0;
        enum next next = next_record(most, largest, &kind, &len);
        if (next == LONG) {
            puts("long");
            break;
        }
        if (next == END)
            break;
        if (next == BAD || !call(kind, len)) {
            puts("bad");
            break;
        }
    }
    return fault ? 1 : 0;
}
