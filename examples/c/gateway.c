/*
 * A small gateway in C, to copy from: a clock that does not step, a state that is kept in a file, a notice that is published, and one that is admitted.
 *
 *     gateway STATE [NOTICE] [--forget]
 *
 * loads the gateway of the file STATE, or starts a new one where there is no such file; admits each message of the body in the file NOTICE, or, where none is
 * named, of what it says by itself, as its neighbours will: that it joins a topic, and a notice. It prints for each message `new`, `duplicate`, or why it is
 * refused; opens a window; offers what it has; and saves itself to STATE.
 * Run it twice on one file: the notice is first new, then a duplicate. A file that was damaged is never replaced by a new gateway, which would have
 * seen nothing: the program says what is wrong. Where the clock is so far after the state that all it has seen would be forgotten, the program stops,
 * too, unless it is told to go on by `--forget`: after a short stop, a clock is wrong.
 *
 * Status: 0, or 1 where something was refused or failed, or 2 for other arguments.
 *
 * Its buffers and the table of its checksum are static: it is for one gateway and one thread.
 *
 * To build it, on x86-64 Linux in the repository's folder, after `tools/build pradulins`:
 *
 *     cc -std=c99 -Iinclude examples/c/gateway.c target/staticlib/libpradulins.a -o gateway
 *
 * or, after `tools/install PREFIX`, with PKG_CONFIG_PATH=PREFIX/lib/pkgconfig:
 *
 *     cc -std=c99 examples/c/gateway.c $(pkg-config --cflags --libs pradulins) -o gateway
 *
 * On Arm, `tools/host example c` builds it for x86-64 and runs it under an emulator.
 */
#define _POSIX_C_SOURCE 200809L

#include <errno.h>
#include <fcntl.h>
#include <inttypes.h>
#include <stdio.h>
#include <stdlib.h>
#include <string.h>
#include <sys/stat.h>
#include <time.h>
#include <unistd.h>

#include "pradulins.h"

/*
 * The settings of a new gateway. An id counts as seen for an hour. Every message must be signed: PRADULINS_ALLOW_UNSIGNED is for a training mesh alone. And groups are
 * refused: PRADULINS_GROUPS is for a mesh all of whose gateways skip them.
 */
enum { TTL = 3600000, MAX_SEEN = 256, HISTORY_LEN = 4, MAX_MESSAGES = 64, FLAGS = 0 };

/* The most windows that are offered. */
enum { WINDOWS = 4 };

/* The edition in which a body is read. A file has none: a real gateway takes that of the stream by which the body came, which both sides agreed on. */
enum { EDITION = PRADULINS_V1_1 };

/* What calls on a body alone are told: the edition, and the mode in which the gateway reads. */
enum { DIALECT = EDITION | (FLAGS & PRADULINS_GROUPS) };

/* A node and its two stores. The stores lie one after the other, as in a saved state. */
struct gateway {
    uint8_t node[PRADULINS_NODE_SIZE];
    uint8_t *seen, *cache;
    size_t seen_len, cache_len;
};

/* The settings and the state of a gateway, as pradulins_settings and pradulins_state hand them out. */
enum { SET_TTL, SET_MAX_SEEN, SET_HISTORY_LEN, SET_MAX_MESSAGES, SET_FLAGS };
enum { STATE_CLOCK, STATE_SEEN, STATE_MESSAGES };

/* ---- what goes wrong */

static int failed(const char *what, const char *why)
{
    fprintf(stderr, "gateway: %s: %s\n", what, why);
    return 1;
}

/* A refusal in words, with its values, and, by a call that reads a body, where in the body it stands. */
static void put_refusal(FILE *out, uint32_t number, const uint64_t values[PRADULINS_VALUES], bool of_a_body)
{
    fprintf(out, "refused %" PRIu32 ": %s", number, pradulins_refusal_text(number));
    for (int i = 0; i < pradulins_refusal_values(number); i++)
        fprintf(out, "%s %" PRIu64, i == 0 ? ":" : ",", values[i]);
    if (of_a_body && pradulins_refusal_has_place(number)) {
        const uint64_t *fields = values + PRADULINS_FIELDS;
        fprintf(out, "; at byte %" PRIu64 " of the body", values[PRADULINS_OFFSET]);
        for (int i = 0; i < PRADULINS_MAX_FIELDS && fields[i] != 0; i++)
            fprintf(out, "%s %" PRIu64, i == 0 ? ", in field" : ",", fields[i]);
    }
    putc('\n', out);
}

static int refused(const char *what, uint32_t number, const uint64_t values[PRADULINS_VALUES])
{
    fprintf(stderr, "gateway: %s: ", what);
    put_refusal(stderr, number, values, false);
    return 1;
}

/* ---- the clock: the wall clock once, and then what the monotonic clock adds */

struct clock {
    uint64_t first, since;
};

static uint64_t milliseconds(clockid_t id)
{
    struct timespec t;
    if (clock_gettime(id, &t) != 0 || t.tv_sec < 0)
        return 0;
    return (uint64_t)t.tv_sec * 1000 + (uint64_t)t.tv_nsec / 1000000;
}

/* It never starts before the node's own clock, so no reading is refused. */
static struct clock start_clock(uint64_t node_clock)
{
    struct clock clock = {milliseconds(CLOCK_REALTIME), milliseconds(CLOCK_MONOTONIC)};
    if (clock.first < node_clock)
        clock.first = node_clock;
    return clock;
}

static uint64_t read_clock(const struct clock *clock)
{
    uint64_t now = milliseconds(CLOCK_MONOTONIC), passed = now > clock->since ? now - clock->since : 0;
    return passed > UINT64_MAX - clock->first ? UINT64_MAX : clock->first + passed;
}

/* ---- saved states: the file that the crate for Rust writes and reads, too */

/*
 * The header: a name of 16 bytes; the format, 4 bytes, the length of what follows the header, 8 bytes, and its checksum, 8 bytes, the lowest byte
 * first. Then come the node and its two stores. The checksum is CRC-64/XZ.
 */
#define NAME "pradulins-saved\n"
enum { NAME_SIZE = 16, HEADER = 36 };

/* No state is longer. */
enum { MAX_SAVED = HEADER + PRADULINS_NODE_SIZE + PRADULINS_MAX_SEEN * PRADULINS_SEEN_ROW + PRADULINS_MAX_MESSAGES * PRADULINS_CACHE_PLACE };

/* What each byte does to a checksum. main fills it, once. */
static uint64_t sums[256];

static void fill_sums(void)
{
    for (unsigned byte = 0; byte < 256; byte++) {
        uint64_t rest = byte;
        for (int bit = 0; bit < 8; bit++)
            rest = rest & 1 ? rest >> 1 ^ UINT64_C(0xc96c5795d7870f42) : rest >> 1;
        sums[byte] = rest;
    }
}

/* The checksum of bytes that follow others with the checksum `sum`; 0 where they follow none. */
static uint64_t checksum_on(uint64_t sum, const uint8_t *bytes, size_t len)
{
    sum = ~sum;
    for (size_t i = 0; i < len; i++)
        sum = sum >> 8 ^ sums[(sum ^ bytes[i]) & 0xff];
    return ~sum;
}

static uint64_t checksum_of(const struct gateway *g)
{
    uint64_t sum = checksum_on(0, g->node, sizeof g->node);
    sum = checksum_on(sum, g->seen, g->seen_len);
    return checksum_on(sum, g->cache, g->cache_len);
}

static void put_number(uint8_t *at, size_t len, uint64_t value)
{
    for (size_t i = 0; i < len; i++, value >>= 8)
        at[i] = (uint8_t)value;
}

static uint64_t get_number(const uint8_t *at, size_t len)
{
    uint64_t value = 0;
    while (len-- > 0)
        value = value << 8 | at[len];
    return value;
}

/* Stores for these settings. They are never null, as the calls ask. */
static int lend_stores(struct gateway *g, uint64_t max_seen, uint64_t max_messages)
{
    g->seen_len = PRADULINS_SEEN_STORE_SIZE(max_seen);
    g->cache_len = PRADULINS_CACHE_STORE_SIZE(max_messages);
    g->seen = calloc(g->seen_len + g->cache_len + 1, 1);
    if (!g->seen)
        return failed("the stores", "no memory");
    g->cache = g->seen + g->seen_len;
    return 0;
}

/* All bytes of a file, at most `room`; `*len` is then how many. */
static int read_all(const char *path, uint8_t *bytes, size_t room, size_t *len)
{
    FILE *file = fopen(path, "rb");
    if (!file)
        return failed(path, strerror(errno));
    *len = fread(bytes, 1, room, file);
    int bad = ferror(file), more = !bad && fgetc(file) != EOF;
    fclose(file);
    if (bad)
        return failed(path, "it cannot be read");
    return more ? failed(path, "it is too long") : 0;
}

/* The gateway of a file. Each test says what is wrong; none of them is left out, since damaged bytes may still be well formed. */
static int load(struct gateway *g, const char *path)
{
    static uint8_t bytes[MAX_SAVED];
    uint64_t values[PRADULINS_VALUES];
    size_t len;
    if (read_all(path, bytes, sizeof bytes, &len))
        return 1;
    if (len < HEADER)
        return failed(path, "no saved state: it is shorter than the header");
    if (memcmp(bytes, NAME, NAME_SIZE) != 0)
        return failed(path, "no saved state: it does not begin with the name of one");
    if (get_number(bytes + 16, 4) != PRADULINS_FORMAT)
        return failed(path, "the state was saved in another format");
    if (get_number(bytes + 20, 8) != len - HEADER)
        return failed(path, "the saved state is not as long as its header says");
    if (get_number(bytes + 28, 8) != checksum_on(0, bytes + HEADER, len - HEADER))
        return failed(path, "the saved state was damaged: its checksum is another");

    /* Its bytes are those that were saved. Now the library tests them. */
    if (len - HEADER < PRADULINS_NODE_SIZE)
        return failed(path, "too few bytes for a node");
    memcpy(g->node, bytes + HEADER, PRADULINS_NODE_SIZE);
    uint32_t r = pradulins_settings(g->node, values);
    if (r)
        return refused(path, r, values);
    if (values[SET_FLAGS] != FLAGS)
        return failed(path, "the state is of a gateway with other flags: all of a mesh are set alike, and a training mesh is not for production");
    if (lend_stores(g, values[SET_MAX_SEEN], values[SET_MAX_MESSAGES]))
        return 1;
    if (len - HEADER - PRADULINS_NODE_SIZE != g->seen_len + g->cache_len)
        return failed(path, pradulins_refusal_text(PRADULINS_BAD_STORE));
    memcpy(g->seen, bytes + HEADER + PRADULINS_NODE_SIZE, g->seen_len + g->cache_len);
    r = pradulins_state(g->node, g->seen, g->seen_len, g->cache, g->cache_len, values);
    return r ? refused(path, r, values) : 0;
}

/* Flushes the folder of a file, so that a rename in it stays. */
static int flush_folder(const char *path)
{
    const char *slash = strrchr(path, '/');
    size_t len = slash ? (size_t)(slash - path) + 1 : 1;
    char *folder = malloc(len + 1);
    if (!folder)
        return -1;
    memcpy(folder, slash ? path : ".", len);
    folder[len] = 0;
    int fd = open(folder, O_RDONLY);
    free(folder);
    if (fd < 0)
        return -1;
    int r = fsync(fd);
    return close(fd) != 0 ? -1 : r;
}

/*
 * A new file, to be written. A state holds what notices hold: the file has the mode of the old one, and where there is none, its owner alone may read
 * it. What a crash left under its name is removed.
 */
static FILE *open_beside(const char *path, const char *old)
{
    struct stat of_old, of_new;
    if (unlink(path) != 0 && errno != ENOENT)
        return NULL;
    int fd = open(path, O_WRONLY | O_CREAT | O_EXCL, 0600);
    if (fd < 0)
        return NULL;
    FILE *file = NULL;
    if (stat(old, &of_old) != 0 || (fstat(fd, &of_new) == 0 && of_new.st_mode == of_old.st_mode) || fchmod(fd, of_old.st_mode & 07777) == 0)
        file = fdopen(fd, "wb");
    int why = errno;
    if (!file)
        close(fd);
    errno = why;
    return file;
}

/* Writes a new file beside the old one, flushed. */
static int write_beside(const struct gateway *g, const char *path, const char *old)
{
    uint8_t header[HEADER];
    memcpy(header, NAME, NAME_SIZE);
    put_number(header + 16, 4, PRADULINS_FORMAT);
    put_number(header + 20, 8, PRADULINS_NODE_SIZE + g->seen_len + g->cache_len);
    put_number(header + 28, 8, checksum_of(g));
    FILE *file = open_beside(path, old);
    if (!file)
        return -1;
    int ok = fwrite(header, 1, HEADER, file) == HEADER && fwrite(g->node, 1, sizeof g->node, file) == sizeof g->node
             && fwrite(g->seen, 1, g->seen_len, file) == g->seen_len && fwrite(g->cache, 1, g->cache_len, file) == g->cache_len
             && fflush(file) == 0 && fsync(fileno(file)) == 0;
    int why = errno;
    if (fclose(file) != 0 && ok)
        return -1;
    errno = why;
    return ok ? 0 : -1;
}

/* Saves to a file, so that a crash leaves the old state or the new: it is written beside, flushed and renamed. One writer at a time. */
static int save(const struct gateway *g, const char *path)
{
    size_t len = strlen(path);
    char *beside = malloc(len + 5);
    if (!beside)
        return failed(path, "no memory");
    memcpy(beside, path, len);
    memcpy(beside + len, ".new", 5);
    int bad = write_beside(g, beside, path) != 0 || rename(beside, path) != 0;
    int why = errno;
    if (bad)
        remove(beside);
    free(beside);
    if (bad)
        return failed(path, strerror(why));
    return flush_folder(path) != 0 ? failed(path, strerror(errno)) : 0;
}

/* ---- what it says by itself */

/* An Ed25519 key has 32 bytes. Where a real one stands, this has 32 times `C`. */
#define FOUR 'C', 'C', 'C', 'C'
#define KEY FOUR, FOUR, FOUR, FOUR, FOUR, FOUR, FOUR, FOUR

/* Its peer id, 38 bytes: 00 and the length of the rest, 36; then the key as libp2p writes it, which is its type, 1, its length, 32, and its bytes. */
#define PEER_ID 0x00, 36, 0x08, 1, 0x12, 32, KEY

/* The bytes that are said, one after the other, and where each part begins. The notice's number, its seqno, is always 1: a real gateway counts them up. */
enum { FROM_AT = 0, DATA_AT = 38, SEQNO_AT = 46, TOPIC_AT = 47, SIGNATURE_AT = 49, END_AT = 113 };
static uint8_t parts[END_AT] = {PEER_ID, 's', 't', 'u', 'd', 'y', ' ', '1', '7', 1, 'c', 't'};

/* The signature of a notice over the bytes to sign. A real gateway makes it with its secret key, by a library for that; this one has 64 bytes 00. */
static void put_signature(uint8_t signature[64], const uint8_t *sign, size_t sign_len)
{
    (void)sign, (void)sign_len;
    memset(signature, 0, 64);
}

/* Writes the body: the gateway joins the topic, is to be taken into its mesh, and publishes a notice. `*len` is then how long it is. */
static int speak(uint8_t body[PRADULINS_OUT_SIZE], size_t *len)
{
    enum { SUBSCRIBE, GRAFT, NOTICE, TOPIC, COUNT };
    static uint8_t sign[PRADULINS_SIGN_SIZE];
    uint64_t rows[COUNT][PRADULINS_RECORD_WORDS], values[PRADULINS_VALUES];
    pradulins_row(rows[SUBSCRIBE], PRADULINS_KIND_SUB_OPTS, 0, 0);
    pradulins_row_number(rows[SUBSCRIBE], 1);
    pradulins_row_field(rows[SUBSCRIBE], 0, TOPIC_AT, SIGNATURE_AT);
    pradulins_row(rows[GRAFT], PRADULINS_KIND_GRAFT, 0, 0);
    pradulins_row_field(rows[GRAFT], 0, TOPIC_AT, SIGNATURE_AT);
    pradulins_row(rows[NOTICE], PRADULINS_KIND_MESSAGE, 0, 0);
    pradulins_row_field(rows[NOTICE], 0, FROM_AT, DATA_AT);
    pradulins_row_field(rows[NOTICE], 1, DATA_AT, SEQNO_AT);
    pradulins_row_field(rows[NOTICE], 2, SEQNO_AT, TOPIC_AT);
    pradulins_row_field(rows[NOTICE], 3, SIGNATURE_AT, END_AT);
    pradulins_row(rows[TOPIC], PRADULINS_KIND_TOPIC, TOPIC_AT, SIGNATURE_AT);

    /* First what is to be signed of message 0, which the signature is no part of; then the whole. */
    uint32_t r = pradulins_sign_fields(rows[0], COUNT * PRADULINS_RECORD_WORDS, parts, sizeof parts, 0, sign, sizeof sign, values);
    if (r)
        return refused("the notice", r, values);
    put_signature(parts + SIGNATURE_AT, sign, values[0]);
    r = pradulins_write_rpc(rows[0], COUNT * PRADULINS_RECORD_WORDS, parts, sizeof parts, FLAGS, body, PRADULINS_OUT_SIZE, values);
    if (r)
        return refused("the notice", r, values);
    *len = values[0];
    printf("says that it joins ct, and publishes: %zu bytes\n", *len);
    return 0;
}

/* ---- what comes in */

/*
 * The host's word on a message. `sign` holds the bytes that its signature is made over; a real gateway tests the signature in the record against
 * them, by a library for that: with the key in the sender's peer id; or, where that is a SHA-256, with the message's own key, and it tests that the key
 * has this SHA-256. This one believes everybody.
 */
static bool verified(const uint8_t *sign, size_t sign_len, const uint64_t *record, const uint8_t *body)
{
    (void)sign, (void)sign_len, (void)record, (void)body;
    return true;
}

/* Admits each message of a body. 1 where something is refused. */
static int admit_all(struct gateway *g, const struct clock *clock, const uint8_t *body, size_t body_len)
{
    static uint64_t table[PRADULINS_TABLE_WORDS];
    static uint8_t sign[PRADULINS_SIGN_SIZE];
    uint64_t values[PRADULINS_VALUES];
    int bad = 0;
    uint32_t r = pradulins_decode(DIALECT, body, body_len, table, PRADULINS_TABLE_WORDS, values);
    if (r) {
        printf("the body is ");
        put_refusal(stdout, r, values, true);
        return 1;
    }
    size_t records = values[0], index = 0;
    for (size_t i = 0; i < records; i++) {
        const uint64_t *record = table + i * PRADULINS_RECORD_WORDS;
        if (record[PRADULINS_RECORD_KIND] != PRADULINS_KIND_MESSAGE)
            continue;
        r = pradulins_sign_bytes(DIALECT, body, body_len, index, sign, sizeof sign, values);
        if (!r) {
            bool word = verified(sign, values[0], record, body);
            r = pradulins_admit(g->node, g->seen, g->seen_len, g->cache, g->cache_len, EDITION, body, body_len, index, word, read_clock(clock), values);
        }
        printf("message %zu: ", index);
        if (r)
            put_refusal(stdout, r, values, true);
        else
            puts(values[0] ? "new" : "duplicate");
        bad |= r != 0;
        index++;
    }
    if (index == 0)
        puts("the body has no message");
    return bad;
}

/* ---- the program */

static int run(struct gateway *g, const char *path, const uint8_t *body, size_t body_len, bool forget)
{
    static uint8_t out[PRADULINS_OUT_SIZE];
    uint64_t settings[PRADULINS_VALUES], values[PRADULINS_VALUES];
    uint32_t r = pradulins_settings(g->node, settings);
    if (!r)
        r = pradulins_state(g->node, g->seen, g->seen_len, g->cache, g->cache_len, values);
    if (r)
        return refused("the gateway", r, values);

    /*
     * The clock, and whether a reading now empties the list of seen ids. Then a person is asked, before a call. If the stop was short, the clock is
     * wrong, or was when the state was saved; a gateway that is to go on all the same starts its clock at node_clock, the wall clock left aside.
     */
    uint64_t node_clock = values[STATE_CLOCK];
    struct clock clock = start_clock(node_clock);
    if (!forget && values[STATE_SEEN] > 0 && read_clock(&clock) - node_clock >= settings[SET_TTL])
        return failed(path, "the clock is ttl or more after the state, and all that it has seen would be forgotten. After a short stop, a clock is "
                            "wrong; after a long one, go on by --forget");

    int bad = admit_all(g, &clock, body, body_len);
    r = pradulins_heartbeat(g->node, g->seen, g->seen_len, g->cache, g->cache_len, read_clock(&clock), values);
    if (r)
        return refused("heartbeat", r, values);
    r = pradulins_advertise(g->node, g->seen, g->seen_len, g->cache, g->cache_len, (const uint8_t *)"ct", 2, WINDOWS, out, sizeof out, values);
    if (r)
        return refused("advertise", r, values);
    printf("offers of the topic ct: %" PRIu64 " bytes", values[0]);
    for (uint64_t i = 0; i < values[0]; i++)
        printf("%s%02x", i == 0 ? "  " : "", out[i]);
    putchar('\n');
    r = pradulins_state(g->node, g->seen, g->seen_len, g->cache, g->cache_len, values);
    if (r)
        return refused("the gateway", r, values);
    if (save(g, path))
        return 1;
    printf("saved: %" PRIu64 " seen, %" PRIu64 " kept\n", values[STATE_SEEN], values[STATE_MESSAGES]);
    return bad;
}

int main(int argc, char **argv)
{
    static struct gateway g;
    static uint8_t body[PRADULINS_MAX_BODY];
    size_t body_len;
    bool forget = argc > 1 && strcmp(argv[argc - 1], "--forget") == 0;
    argc -= forget;
    if (argc != 2 && argc != 3) {
        fprintf(stderr, "usage: gateway STATE [NOTICE] [--forget]\n");
        return 2;
    }
    fill_sums();
    if (pradulins_version() != PRADULINS_VERSION || pradulins_format() != PRADULINS_FORMAT)
        return failed("libpradulins.a", "it is of another version than pradulins.h");
    if (argc == 3 && read_all(argv[2], body, sizeof body, &body_len))
        return 1;
    if (access(argv[1], F_OK) == 0) {
        if (load(&g, argv[1]))
            return 1;
        puts("loaded");
    } else if (errno == ENOENT) {
        uint32_t r = pradulins_start(g.node, TTL, MAX_SEEN, HISTORY_LEN, MAX_MESSAGES, FLAGS);
        if (r)
            return failed("the settings", pradulins_refusal_text(r));
        if (lend_stores(&g, MAX_SEEN, MAX_MESSAGES))
            return 1;
        puts("started");
    } else {
        return failed(argv[1], strerror(errno));
    }
    if (argc == 2 && speak(body, &body_len))
        return 1;
    int status = run(&g, argv[1], body, body_len, forget);
    free(g.seen);
    return status;
}
