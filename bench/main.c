/*
 * Times calls of this library and of the Rust on the same inputs, in one run, one after the other in turn. `bench` makes the inputs and reads
 * what this prints.
 *
 *     compare time|count REPETITIONS CLEAR FOLDER FILE...
 *
 * A FILE is a body (.bin), a body of edition 1.2, which the Rust does not have (.v12), one with groups, which it refuses (.groups), or lists (.rows).
 * For each case a line: its name, and then for each repetition the nanoseconds per call of ours and of the Rust's (0 where the Rust has no such call).
 * With `count`, the line has the number of calls, and each loop stands between marks: system calls `getppid`, which the counting plugin of the emulator looks for,
 * and requests to write down what was counted, which valgrind takes.
 * CLEAR 1 has the lent buffers filled with zeros before each of our calls.
 */
#define _POSIX_C_SOURCE 200809L
#define _DEFAULT_SOURCE

#include <stdio.h>
#include <stdlib.h>
#include <string.h>
#include <sys/syscall.h>
#include <time.h>
#include <unistd.h>

#if __has_include(<valgrind/callgrind.h>)
#include <valgrind/callgrind.h>
#else
#define CALLGRIND_DUMP_STATS
#endif

#include "pradulins.h"

/* ---- the loops of the crate `timed`, and those of the Rust */

uint64_t timed_seen_insert(uint8_t *store, size_t store_len, const uint8_t *ids, size_t ids_len, size_t max, uint64_t times);
uint64_t timed_seen_contains(uint8_t *store, size_t store_len, const uint8_t *ids, size_t ids_len, const uint8_t *asked, size_t asked_len,
                             size_t max, uint64_t times);
uint64_t timed_seen_lent(uint8_t *store, size_t store_len, const uint8_t *ids, size_t ids_len, size_t max, uint64_t times);
uint64_t timed_cache_put(uint8_t *store, size_t store_len, const uint8_t *bodies, size_t bodies_len, size_t size, size_t max, uint64_t times);
uint64_t timed_cache_gossip(uint8_t *store, size_t store_len, const uint8_t *bodies, size_t bodies_len, size_t size, size_t max,
                            const uint8_t *topic, size_t topic_len, uint64_t times);
uint64_t timed_cache_get(uint8_t *store, size_t store_len, const uint8_t *bodies, size_t bodies_len, size_t size, size_t max, const uint8_t *ids,
                         size_t ids_len, size_t id_size, uint64_t times);
uint64_t timed_cache_lent(uint8_t *store, size_t store_len, const uint8_t *bodies, size_t bodies_len, size_t size, size_t max, uint64_t times);

uint64_t theirs_decode(const uint8_t *body, size_t len, uint64_t times);
uint64_t theirs_encode(const uint8_t *body, size_t len, uint64_t times);
uint64_t theirs_sign(const uint8_t *body, size_t len, size_t index, uint64_t times);
uint64_t theirs_made(const uint8_t *body, size_t len, size_t index, bool sign, uint8_t *out, size_t room);
uint64_t theirs_write(const uint8_t *body, size_t len, uint64_t times);
uint64_t theirs_sign_fields(const uint8_t *body, size_t len, size_t index, uint64_t times);
uint64_t theirs_written(const uint8_t *body, size_t len, size_t index, bool sign, uint8_t *out, size_t room);
uint64_t theirs_seen_insert(const uint8_t *ids, size_t len, size_t size, size_t max, uint64_t times);
uint64_t theirs_seen_contains(const uint8_t *ids, size_t len, const uint8_t *asked, size_t asked_len, size_t size, size_t max, uint64_t times);
uint64_t theirs_cache_put(const uint8_t *bodies, size_t len, size_t size, size_t max, uint64_t times);
uint64_t theirs_cache_gossip(const uint8_t *bodies, size_t len, size_t size, size_t max, uint64_t times);
uint64_t theirs_cache_get(const uint8_t *bodies, size_t len, size_t size, size_t max, const uint8_t *ids, size_t ids_len, size_t id_size,
                          uint64_t times);

/* ---- inputs */

struct bytes {
    uint8_t *at;
    size_t len;
};

static void fail(const char *what, const char *name)
{
    fprintf(stderr, "compare: %s: %s\n", what, name);
    exit(1);
}

static struct bytes read_file(const char *folder, const char *name)
{
    char path[4096];
    snprintf(path, sizeof path, "%s/%s", folder, name);
    FILE *f = fopen(path, "rb");
    if (!f)
        fail("cannot read", path);
    struct bytes b = {malloc(1 << 24), 0};
    b.len = fread(b.at, 1, 1 << 24, f);
    fclose(f);
    return b;
}

/* ---- what a loop is given */

static struct bytes body, ids, others, bodies, cached_ids, offer, request, unwanted;
static uint32_t dialect = PRADULINS_V1_1;
static uint32_t node_flags = 0;
static size_t message_index, rows, body_size, cached_id_size;
static int clear;

static uint64_t values[PRADULINS_VALUES], table[PRADULINS_TABLE_WORDS];
static uint8_t out[PRADULINS_SIGN_SIZE], wanted[PRADULINS_SIGN_SIZE];
static uint8_t node[PRADULINS_NODE_SIZE], kept[PRADULINS_NODE_SIZE];
static uint8_t seen[PRADULINS_SEEN_STORE_SIZE(PRADULINS_MAX_SEEN)];
static uint8_t cache[PRADULINS_CACHE_STORE_SIZE(PRADULINS_MAX_MESSAGES)];
static size_t seen_len, cache_len;

typedef uint64_t loop(uint64_t times);

/* ---- bodies */

static void clear_out(void)
{
    if (clear)
        memset(out, 0, sizeof out);
}

static uint64_t our_decode(uint64_t times)
{
    uint64_t sum = 0;
    while (times-- > 0) {
        if (clear)
            memset(table, 0, sizeof table);
        sum += pradulins_decode(dialect, body.at, body.len, table, PRADULINS_TABLE_WORDS, values) + values[0];
    }
    return sum;
}

static uint64_t our_encode(uint64_t times)
{
    uint64_t sum = 0;
    while (times-- > 0) {
        clear_out();
        sum += pradulins_encode(dialect, body.at, body.len, out, sizeof out, values) + values[0];
    }
    return sum;
}

static uint64_t our_sign(uint64_t times)
{
    uint64_t sum = 0;
    while (times-- > 0) {
        clear_out();
        sum += pradulins_sign_bytes(dialect, body.at, body.len, message_index, out, sizeof out, values) + values[0];
    }
    return sum;
}

/* Over all fields of the body. */
static uint64_t our_walk(uint64_t times)
{
    uint64_t sum = 0;
    while (times-- > 0)
        for (size_t at = 0; pradulins_walk(dialect, body.at, body.len, at, values) == 0 && values[0] != 0; at = values[3])
            sum += values[0];
    return sum;
}

static uint64_t their_decode(uint64_t times)
{
    return theirs_decode(body.at, body.len, times);
}

static uint64_t their_encode(uint64_t times)
{
    return theirs_encode(body.at, body.len, times);
}

static uint64_t their_sign(uint64_t times)
{
    return theirs_sign(body.at, body.len, message_index, times);
}

/* ---- lists: rows over bytes; the Rust has the RPC that they say */

static const uint64_t *records;
static size_t words;
static struct bytes lent;

static uint64_t our_write(uint64_t times)
{
    uint64_t sum = 0;
    while (times-- > 0) {
        clear_out();
        sum += pradulins_write_rpc(records, words, lent.at, lent.len, 0, out, PRADULINS_OUT_SIZE, values) + values[0];
    }
    return sum;
}

static uint64_t our_sign_fields(uint64_t times)
{
    uint64_t sum = 0;
    while (times-- > 0) {
        clear_out();
        sum += pradulins_sign_fields(records, words, lent.at, lent.len, message_index, out, sizeof out, values) + values[0];
    }
    return sum;
}

static uint64_t their_write(uint64_t times)
{
    return theirs_write(body.at, body.len, times);
}

static uint64_t their_sign_fields(uint64_t times)
{
    return theirs_sign_fields(body.at, body.len, message_index, times);
}

/* ---- the seen cache: `rows` ids of 65 bytes are held; `others` are not */

enum { ID = 65 };

static uint64_t our_insert(uint64_t times)
{
    return timed_seen_insert(seen, rows * PRADULINS_SEEN_ROW, ids.at, 2 * rows * ID, rows, times);
}

static uint64_t our_held(uint64_t times)
{
    return timed_seen_insert(seen, rows * PRADULINS_SEEN_ROW, ids.at, rows * ID, rows, times);
}

static uint64_t our_contains(uint64_t times)
{
    return timed_seen_contains(seen, rows * PRADULINS_SEEN_ROW, ids.at, rows * ID, ids.at, rows * ID, rows, times);
}

static uint64_t our_misses(uint64_t times)
{
    return timed_seen_contains(seen, rows * PRADULINS_SEEN_ROW, ids.at, rows * ID, others.at, rows * ID, rows, times);
}

static uint64_t our_seen_lent(uint64_t times)
{
    return timed_seen_lent(seen, rows * PRADULINS_SEEN_ROW, ids.at, rows * ID, rows, times);
}

static uint64_t their_insert(uint64_t times)
{
    return theirs_seen_insert(ids.at, 2 * rows * ID, ID, rows, times);
}

static uint64_t their_held(uint64_t times)
{
    return theirs_seen_insert(ids.at, rows * ID, ID, rows, times);
}

static uint64_t their_contains(uint64_t times)
{
    return theirs_seen_contains(ids.at, rows * ID, ids.at, rows * ID, ID, rows, times);
}

static uint64_t their_misses(uint64_t times)
{
    return theirs_seen_contains(ids.at, rows * ID, others.at, rows * ID, ID, rows, times);
}

/* ---- the message cache: `rows` messages are held, of bodies of one size */

static uint64_t our_put(uint64_t times)
{
    return timed_cache_put(cache, rows * PRADULINS_CACHE_PLACE, bodies.at, 2 * rows * body_size, body_size, rows, times);
}

static uint64_t our_gossip(uint64_t times)
{
    return timed_cache_gossip(cache, rows * PRADULINS_CACHE_PLACE, bodies.at, rows * body_size, body_size, rows, (const uint8_t *)"t", 1, times);
}

static uint64_t our_get(uint64_t times)
{
    return timed_cache_get(cache, rows * PRADULINS_CACHE_PLACE, bodies.at, rows * body_size, body_size, rows, cached_ids.at, rows * cached_id_size,
                           cached_id_size, times);
}

static uint64_t our_cache_lent(uint64_t times)
{
    return timed_cache_lent(cache, rows * PRADULINS_CACHE_PLACE, bodies.at, rows * body_size, body_size, rows, times);
}

static uint64_t their_put(uint64_t times)
{
    return theirs_cache_put(bodies.at, 2 * rows * body_size, body_size, rows, times);
}

static uint64_t their_gossip(uint64_t times)
{
    return theirs_cache_gossip(bodies.at, rows * body_size, body_size, rows, times);
}

static uint64_t their_get(uint64_t times)
{
    return theirs_cache_get(bodies.at, rows * body_size, body_size, rows, cached_ids.at, rows * cached_id_size, cached_id_size, times);
}

/* ---- the node, at full capacity */

static uint64_t turn;

static uint32_t admit_next(void)
{
    size_t at = turn++ % (bodies.len / body_size) * body_size;
    return pradulins_admit(node, seen, seen_len, cache, cache_len, PRADULINS_V1_1, bodies.at + at, body_size, 0, true, 1, values);
}

static void fill_node(void)
{
    seen_len = sizeof seen;
    cache_len = sizeof cache;
    turn = 0;
    if (pradulins_start(node, 1000000, PRADULINS_MAX_SEEN, PRADULINS_MAX_HISTORY, PRADULINS_MAX_MESSAGES, node_flags))
        fail("refused", "start");
    for (int i = 0; i < PRADULINS_MAX_SEEN; i++)
        if (admit_next() || values[0] != 1)
            fail("refused", "admit");
    memcpy(kept, node, sizeof node);
}

static uint64_t node_admit_new(uint64_t times)
{
    uint64_t sum = 0;
    while (times-- > 0)
        sum += admit_next() + values[0];
    return sum;
}

static uint64_t node_admit_dup(uint64_t times)
{
    uint64_t sum = 0;
    while (times-- > 0) {
        sum += pradulins_admit(node, seen, seen_len, cache, cache_len, PRADULINS_V1_1, bodies.at + 255 * body_size, body_size, 0, true, 1, values);
        sum += values[0];
    }
    return sum;
}

static uint64_t node_heartbeat(uint64_t times)
{
    uint64_t sum = 0;
    while (times-- > 0) {
        memcpy(node, kept, sizeof node);
        sum += pradulins_heartbeat(node, seen, seen_len, cache, cache_len, 1, values);
    }
    return sum;
}

static uint64_t advertise(size_t windows, uint64_t times)
{
    uint64_t sum = 0;
    while (times-- > 0) {
        clear_out();
        sum += pradulins_advertise(node, seen, seen_len, cache, cache_len, (const uint8_t *)"t", 1, windows, out, PRADULINS_OUT_SIZE, values) + values[0];
    }
    return sum;
}

static uint64_t node_advertise(uint64_t times)
{
    return advertise(PRADULINS_MAX_HISTORY, times);
}

/* Of the id that was admitted last, which is found last. */
static uint64_t node_explain(uint64_t times)
{
    uint64_t sum = 0;
    if (pradulins_message_id(PRADULINS_V1_1, bodies.at + 255 * body_size, body_size, 0, out, PRADULINS_OUT_SIZE, values))
        fail("refused", "message_id");
    size_t id_len = values[0];
    while (times-- > 0) {
        if (pradulins_explain(node, seen, seen_len, cache, cache_len, out, id_len, (const uint8_t *)"t", 1, PRADULINS_MAX_HISTORY, values) || values[0])
            fail("not listed", "explain");
        sum++;
    }
    return sum;
}

static uint64_t node_ask(uint64_t times)
{
    uint64_t sum = 0;
    while (times-- > 0) {
        clear_out();
        sum += pradulins_ask(node, seen, seen_len, cache, cache_len, PRADULINS_V1_1, offer.at, offer.len, out, PRADULINS_OUT_SIZE, values) + values[0];
    }
    return sum;
}

static uint64_t serve(uint32_t edition, struct bytes second, uint64_t times)
{
    uint64_t sum = 0;
    while (times-- > 0) {
        clear_out();
        sum += pradulins_serve(node, seen, seen_len, cache, cache_len, edition, request.at, request.len, second.at, second.len, out, PRADULINS_OUT_SIZE, values);
        sum += values[0];
    }
    return sum;
}

static uint64_t node_serve(uint64_t times)
{
    return serve(PRADULINS_V1_1, (struct bytes){request.at, 0}, times);
}

/* The same, lent a body that declines 511 messages: the half of what is requested, and others. */
static uint64_t node_serve_without(uint64_t times)
{
    return serve(PRADULINS_V1_2, unwanted, times);
}

/* Only the node's bytes are read, and the call is refused for the length of a store. */
static uint64_t node_load(uint64_t times)
{
    uint64_t sum = 0;
    while (times-- > 0)
        sum += pradulins_advertise(node, seen, 0, cache, cache_len, (const uint8_t *)"t", 1, 0, out, PRADULINS_OUT_SIZE, values);
    return sum;
}

/* They are read and written back. */
static uint64_t node_store(uint64_t times)
{
    uint64_t sum = 0;
    while (times-- > 0)
        sum += pradulins_heartbeat(node, seen, 0, cache, cache_len, 1, values);
    return sum;
}

/* They are read, node and stores are tested, and nothing is written. */
static uint64_t node_test(uint64_t times)
{
    return advertise(0, times);
}

/* ---- measuring */

static int counting, repetitions;
static volatile uint64_t sink;

/* The processor's time, so that other work on the machine counts little. */
static double now(void)
{
    struct timespec t;
    clock_gettime(CLOCK_PROCESS_CPUTIME_ID, &t);
    return t.tv_sec * 1e9 + t.tv_nsec;
}

static void mark(void)
{
    syscall(SYS_getppid);
    CALLGRIND_DUMP_STATS;
}

static void run(loop *f, uint64_t times)
{
    if (counting)
        mark();
    sink += f(times);
}

static double timed(loop *f, uint64_t times)
{
    double begin = now();
    run(f, times);
    return now() - begin;
}

/* Nanoseconds per call: the loop of so many calls more than `base`, without those of `base`. */
static double per_call(loop *f, uint64_t base, uint64_t times)
{
    double all = timed(f, base + times);
    double less = timed(f, base);
    return (all - less) / times;
}

/* Whether so many calls take some milliseconds, and longer than what stands before them in their loop. */
static int long_enough(loop *f, uint64_t base, uint64_t times)
{
    double all = timed(f, base + times);
    double less = timed(f, base);
    return all - less > 3e6 && all > 2 * less;
}

static uint64_t enough(loop *f, uint64_t base)
{
    uint64_t times = 4;
    while (times < 1 << 22 && !long_enough(f, base, times))
        times *= 2;
    return times;
}

/* `counted` is how many calls are counted. */
static void measure(const char *name, loop *ours, loop *theirs, uint64_t base, uint64_t counted)
{
    if (counting) {
        uint64_t times = counted;
        for (int side = 0; side < 2; side++) {
            loop *f = side ? theirs : ours;
            if (!f)
                continue;
            run(f, base + times);
            run(f, base);
            mark();
            printf("%s %s %llu\n", name, side ? "theirs" : "ours", (unsigned long long)times);
        }
        return;
    }
    uint64_t our_times = enough(ours, base), their_times = theirs ? enough(theirs, base) : 0;
    printf("%s", name);
    for (int i = 0; i < repetitions; i++) {
        double b = theirs && i % 2 ? per_call(theirs, base, their_times) : 0;
        double a = per_call(ours, base, our_times);
        if (theirs && !(i % 2))
            b = per_call(theirs, base, their_times);
        printf(" %.1f %.1f", a, b);
    }
    printf("\n");
    fflush(stdout);
}

/* ---- the cases */

/* Both make the same bytes. */
static void agree(const char *name, uint32_t number, bool sign)
{
    uint64_t len = theirs_made(body.at, body.len, message_index, sign, wanted, sizeof wanted);
    if (number != 0 ? len != 0 : len != values[0] || memcmp(out, wanted, len) != 0)
        fail("other bytes than the Rust's", name);
}

static void measure_in(const char *what, const char *file, size_t stem, loop *ours)
{
    char name[256];
    snprintf(name, sizeof name, "%s/%.*s", what, (int)stem, file);
    measure(name, ours, NULL, 0, 8);
}

/* Each call on the body where groups are skipped. */
static void where_skipped(const char *file, size_t stem)
{
    dialect = PRADULINS_V1_1 | PRADULINS_GROUPS;
    measure_in("decode-groups", file, stem, our_decode);
    measure_in("reencode-groups", file, stem, our_encode);
    if (pradulins_sign_bytes(dialect, body.at, body.len, (size_t)-1, out, sizeof out, values) == PRADULINS_NO_MESSAGE && values[0] > 0) {
        message_index = values[0] - 1;
        measure_in("sign-groups", file, stem, our_sign);
    }
    measure_in("walk-groups", file, stem, our_walk);
    dialect = PRADULINS_V1_1;
}

/* With groups: ours alone. Where they are refused it is refused, where they are skipped it is written anew. */
static void group_cases(const char *folder, const char *file)
{
    body = read_file(folder, file);
    if (pradulins_encode(PRADULINS_V1_1, body.at, body.len, out, sizeof out, values) != PRADULINS_WIRE_TYPE
        || pradulins_encode(PRADULINS_V1_1 | PRADULINS_GROUPS, body.at, body.len, out, sizeof out, values))
        fail("refused or taken otherwise", file);
    where_skipped(file, strlen(file) - 7);
    free(body.at);
}

static void body_cases(const char *folder, const char *file)
{
    char name[256];
    body = read_file(folder, file);
    size_t stem = strlen(file) - 4;
    agree(file, pradulins_encode(dialect, body.at, body.len, out, sizeof out, values), false);
    snprintf(name, sizeof name, "decode/%.*s", (int)stem, file);
    measure(name, our_decode, their_decode, 0, 8);
    snprintf(name, sizeof name, "reencode/%.*s", (int)stem, file);
    measure(name, our_encode, their_encode, 0, 8);
    /* of the last message */
    if (pradulins_sign_bytes(dialect, body.at, body.len, (size_t)-1, out, sizeof out, values) == PRADULINS_NO_MESSAGE && values[0] > 0) {
        message_index = values[0] - 1;
        agree(file, pradulins_sign_bytes(dialect, body.at, body.len, message_index, out, sizeof out, values), true);
        snprintf(name, sizeof name, "sign/%.*s", (int)stem, file);
        measure(name, our_sign, their_sign, 0, 8);
    }
    /* Bodies without groups where groups are skipped: ours alone, and the same bytes. */
    if (strncmp(file, "mixed-", 6) == 0 || strncmp(file, "unknown-fields", 14) == 0) {
        measure_in("walk", file, stem, our_walk);
        where_skipped(file, stem);
    }
    free(body.at);
}

/* In edition 1.2: ours alone. What is written anew is the body itself. */
static void edition_cases(const char *folder, const char *file)
{
    char name[256];
    body = read_file(folder, file);
    size_t stem = strlen(file) - 4;
    dialect = PRADULINS_V1_2;
    if (pradulins_decode(dialect, body.at, body.len, table, PRADULINS_TABLE_WORDS, values) || values[0] != PRADULINS_MAX_RECORDS)
        fail("other records than are there", file);
    if (pradulins_encode(dialect, body.at, body.len, out, sizeof out, values) || values[0] != body.len || memcmp(out, body.at, body.len) != 0)
        fail("other bytes than its own", file);
    snprintf(name, sizeof name, "decode-1.2/%.*s", (int)stem, file);
    measure(name, our_decode, NULL, 0, 8);
    snprintf(name, sizeof name, "reencode-1.2/%.*s", (int)stem, file);
    measure(name, our_encode, NULL, 0, 8);
    dialect = PRADULINS_V1_1;
    free(body.at);
}

/* Both make the same bytes of the same fields. */
static void agree_on_lists(const char *name, uint32_t number, bool sign)
{
    uint64_t len = theirs_written(body.at, body.len, message_index, sign, wanted, sizeof wanted);
    if (number != 0 || len != values[0] || memcmp(out, wanted, len) != 0)
        fail("other bytes than the Rust's", name);
}

static void list_cases(const char *folder, const char *file)
{
    char name[256];
    struct bytes all = read_file(folder, file);
    size_t stem = strlen(file) - 5;
    records = (const uint64_t *)all.at + 1;
    words = *(const uint64_t *)all.at;
    lent.at = all.at + 8 * (1 + words);
    lent.len = all.len - 8 * (1 + words);
    uint32_t number = pradulins_write_rpc(records, words, lent.at, lent.len, 0, out, PRADULINS_OUT_SIZE, values);
    body = (struct bytes){malloc(PRADULINS_OUT_SIZE), values[0]};
    memcpy(body.at, out, number ? 0 : body.len);
    agree_on_lists(file, number, false);
    snprintf(name, sizeof name, "write/%.*s", (int)stem, file);
    measure(name, our_write, their_write, 1, 8);
    /* of the last message */
    if (pradulins_sign_fields(records, words, lent.at, lent.len, (size_t)-1, out, sizeof out, values) == PRADULINS_NO_MESSAGE && values[0] > 0) {
        message_index = values[0] - 1;
        agree_on_lists(file, pradulins_sign_fields(records, words, lent.at, lent.len, message_index, out, sizeof out, values), true);
        snprintf(name, sizeof name, "tosign/%.*s", (int)stem, file);
        measure(name, our_sign_fields, their_sign_fields, 1, 8);
    }
    free(body.at);
    free(all.at);
}

static bool ends_in(const char *file, const char *end)
{
    size_t len = strlen(file), less = strlen(end);
    return len > less && strcmp(file + len - less, end) == 0;
}

static void seen_cases(size_t count)
{
    char name[64];
    rows = count;
    if (our_contains(2 * count) != 2 * count || their_contains(2 * count) != 2 * count || our_misses(count) != 0 || their_misses(count) != 0)
        fail("other ids are held", "seen");
    snprintf(name, sizeof name, "seen-insert/%zu", count);
    measure(name, our_insert, their_insert, count, 512);
    snprintf(name, sizeof name, "seen-insert-held/%zu", count);
    measure(name, our_held, their_held, count, 512);
    snprintf(name, sizeof name, "seen-contains/%zu", count);
    measure(name, our_contains, their_contains, 0, 512);
    snprintf(name, sizeof name, "seen-contains-not/%zu", count);
    measure(name, our_misses, their_misses, 0, 512);
    snprintf(name, sizeof name, "seen-test/%zu", count);
    measure(name, our_seen_lent, NULL, 0, 512);
}

static void cache_cases(size_t count)
{
    char name[64];
    rows = count;
    if (our_gossip(1) != count || their_gossip(1) != count || our_get(count) != their_get(count) || our_get(1) == 0)
        fail("other messages are held", "cache");
    snprintf(name, sizeof name, "cache-put/%zu", count);
    measure(name, our_put, their_put, count, 512);
    snprintf(name, sizeof name, "cache-gossip_ids/%zu", count);
    measure(name, our_gossip, their_gossip, 0, 512);
    snprintf(name, sizeof name, "cache-get/%zu", count);
    measure(name, our_get, their_get, 0, 512);
    snprintf(name, sizeof name, "cache-test/%zu", count);
    measure(name, our_cache_lent, NULL, 0, 512);
}

/* The two calls that move the clock, on a full node under `node_flags`; then it is filled anew. */
static void node_clock_cases(const char *duplicate, const char *heartbeat)
{
    fill_node();
    measure(duplicate, node_admit_dup, NULL, 0, 8);
    measure(heartbeat, node_heartbeat, NULL, 0, 8);
    fill_node();
}

static void node_cases(void)
{
    node_clock_cases("node/admit-duplicate", "node/heartbeat");
    measure("node/advertise", node_advertise, NULL, 0, 8);
    measure("node/explain", node_explain, NULL, 0, 8);
    measure("node/ask", node_ask, NULL, 0, 8);
    measure("node/serve", node_serve, NULL, 0, 8);
    if (node_serve_without(1) != 16 * body_size || values[1] != 16 || values[2] != 16)
        fail("other messages are left out", "serve");
    measure("node/serve-without", node_serve_without, NULL, 0, 8);
    measure("node/read", node_load, NULL, 0, 8);
    measure("node/read-write", node_store, NULL, 0, 8);
    measure("node/read-test", node_test, NULL, 0, 8);
    measure("node/admit-new", node_admit_new, NULL, 0, 8);
    node_flags = PRADULINS_GROUPS;
    node_clock_cases("node-groups/admit-duplicate", "node-groups/heartbeat");
    measure("node-groups/ask", node_ask, NULL, 0, 8);
    measure("node-groups/serve", node_serve, NULL, 0, 8);
}

int main(int argc, char **argv)
{
    if (argc < 5)
        fail("usage", "compare time|count REPETITIONS CLEAR FOLDER FILE...");
    counting = strcmp(argv[1], "count") == 0;
    repetitions = atoi(argv[2]);
    clear = atoi(argv[3]);
    const char *folder = argv[4];
    for (int i = 5; i < argc; i++) {
        if (ends_in(argv[i], ".rows"))
            list_cases(folder, argv[i]);
        else if (ends_in(argv[i], ".v12"))
            edition_cases(folder, argv[i]);
        else if (ends_in(argv[i], ".groups"))
            group_cases(folder, argv[i]);
        else
            body_cases(folder, argv[i]);
    }
    ids = read_file(folder, "ids");
    others = read_file(folder, "others");
    seen_cases(16);
    seen_cases(256);
    bodies = read_file(folder, "small-bodies");
    cached_ids = read_file(folder, "small-ids");
    body_size = bodies.len / 128;
    cached_id_size = cached_ids.len / 128;
    cache_cases(8);
    cache_cases(64);
    bodies = read_file(folder, "large-bodies");
    body_size = bodies.len / 512;
    offer = read_file(folder, "offer");
    request = read_file(folder, "request");
    unwanted = read_file(folder, "unwanted");
    node_cases();
    return 0;
}
