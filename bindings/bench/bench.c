/* What a call takes: this library beside libknot and ldns, where they are there (-DWITH_KNOT, -DWITH_LDNS).
 *
 *     bench FILE       FILE has the messages that are read as a whole, as bench.py writes them
 *
 * A line for each: operation, input, library, nanoseconds of one call. Libraries take turns of some 100 microseconds,
 * so that all meet the same weather on the machine, and the best turn of each counts. */
#define _POSIX_C_SOURCE 199309L
#include "dnsnames.h"
#include <stdio.h>
#include <stdlib.h>
#include <string.h>
#include <time.h>
#ifdef WITH_KNOT
#include <libknot/libknot.h>
#endif
#ifdef WITH_LDNS
#include <ldns/ldns.h>
#endif

struct input {
    const char *title;
    uint8_t message[600];
    size_t message_len, offset;
    uint8_t name[DNSNAMES_MAX_LEN], other[DNSNAMES_MAX_LEN]; /* without compression, and one that precedes it */
    size_t len, other_len;
    char text[DNSNAMES_MAX_TEXT + 1];
};

static struct input *in;
static volatile size_t sink;

static void fail(const char *what)
{
    fprintf(stderr, "bench: %s is refused\n", what);
    exit(1);
}

static void ours_read(void)
{
    uint8_t name[DNSNAMES_MAX_LEN];
    size_t length, end;
    uint32_t compressed;

    if (dnsnames_read(in->message, in->message_len, in->offset, 255, name, sizeof name, &length, &end, &compressed))
        fail("read");
    sink += length;
}

static void ours_compare(void)
{
    int32_t order;

    if (dnsnames_compare(in->name, in->len, in->other, in->other_len, &order) || order != 1)
        fail("compare");
    sink += (size_t)order;
}

static void ours_to_text(void)
{
    uint8_t text[DNSNAMES_MAX_TEXT];
    size_t length;

    if (dnsnames_to_text(in->name, in->len, 1, text, sizeof text, &length))
        fail("to_text");
    sink += length;
}

static void ours_from_text(void)
{
    uint8_t name[DNSNAMES_MAX_LEN];
    size_t length;

    if (dnsnames_from_text((const uint8_t *)in->text, strlen(in->text), name, sizeof name, &length))
        fail("from_text");
    sink += length;
}

static const uint8_t KEY[DNSNAMES_KEY_LEN] = "0123456789abcde";

static void ours_hash(void)
{
    uint64_t hash;

    if (dnsnames_hash(KEY, in->name, in->len, &hash))
        fail("hash");
    sink += (size_t)hash;
}

/* A header alone, and a header with the other name, which has its offsets in the table. */
static struct {
    uint8_t octets[12 + 2 * DNSNAMES_MAX_LEN];
    uint16_t table[DNSNAMES_MAX_TABLE];
    size_t len, table_len;
} header = {.len = 12}, other_written;

/* The lengths are those before in each turn, so each turn writes the same octets and offsets anew. */
static void ours_append_first(void)
{
    size_t len = header.len, table_len = header.table_len;

    if (dnsnames_append(header.octets, sizeof header.octets, &len, header.table, DNSNAMES_MAX_TABLE, &table_len,
                        in->name, in->len))
        fail("append");
    sink += len;
}

static void ours_append(void)
{
    size_t len = other_written.len, table_len = other_written.table_len;

    if (dnsnames_append(other_written.octets, sizeof other_written.octets, &len, other_written.table,
                        DNSNAMES_MAX_TABLE, &table_len, in->name, in->len))
        fail("append");
    sink += len;
}

static void prepare_append(void)
{
    other_written.len = 12;
    other_written.table_len = 0;
    if (dnsnames_append(other_written.octets, sizeof other_written.octets, &other_written.len, other_written.table,
                        DNSNAMES_MAX_TABLE, &other_written.table_len, in->other, in->other_len))
        fail("append");
}

static uint64_t word_at(const uint8_t *octets)
{
    uint64_t word = 0;
    unsigned i;

    for (i = 0; i < 8; i++)
        word |= (uint64_t)octets[i] << 8 * i;
    return word;
}

#define TURNED(word, bits) ((word) << (bits) | (word) >> (64 - (bits)))

static void sip_round(uint64_t v[4])
{
    v[0] += v[1];
    v[2] += v[3];
    v[1] = TURNED(v[1], 13) ^ v[0];
    v[3] = TURNED(v[3], 16) ^ v[2];
    v[0] = TURNED(v[0], 32);
    v[2] += v[1];
    v[0] += v[3];
    v[1] = TURNED(v[1], 17) ^ v[2];
    v[3] = TURNED(v[3], 21) ^ v[0];
    v[2] = TURNED(v[2], 32);
}

/* SipHash-2-4 of a name in lower case: whole words, and then the rest with the size above it. */
static uint64_t plain_hash(const uint8_t *key, const uint8_t *name, size_t len)
{
    uint8_t lower[DNSNAMES_MAX_LEN + 8];
    uint64_t k0 = word_at(key), k1 = word_at(key + 8), word;
    uint64_t v[4] = {k0 ^ 0x736f6d6570736575u, k1 ^ 0x646f72616e646f6du, k0 ^ 0x6c7967656e657261u,
                     k1 ^ 0x7465646279746573u};
    size_t at, i;

    for (i = 0; i < len; i++)
        lower[i] = (uint8_t)(name[i] + (name[i] >= 'A' && name[i] <= 'Z' ? 32 : 0));
    memset(lower + len, 0, 8);
    for (at = 0; at <= len; at += 8) {
        word = word_at(lower + at);
        if (len - at < 8)
            word |= (uint64_t)len << 56;
        v[3] ^= word;
        sip_round(v);
        sip_round(v);
        v[0] ^= word;
    }
    v[2] ^= 255;
    for (i = 0; i < 4; i++)
        sip_round(v);
    return v[0] ^ v[1] ^ v[2] ^ v[3];
}

static void plain_c_hash(void)
{
    sink += (size_t)plain_hash(KEY, in->name, in->len);
}

/* The messages that are read as a whole, and the one whose turn it is. */
static struct {
    const uint8_t *octets;
    size_t len;
} *messages;
static size_t message_count, message_turn;

static void ours_read_all(void)
{
    static uint32_t rows[64 * DNSNAMES_ROW_LEN];
    static uint8_t names[64 * DNSNAMES_MAX_LEN];
    size_t row_count, names_len;

    if (dnsnames_table(messages[message_turn].octets, messages[message_turn].len, DNSNAMES_MAX_POINTERS, rows,
                       sizeof rows / sizeof *rows, names, sizeof names, &row_count, &names_len))
        fail("table");
    sink += row_count + names_len;
}

#ifdef WITH_KNOT
/* Memory that is lent anew to each message, and never freed: what parsing takes without malloc. */
static _Alignas(16) uint8_t lent[1 << 16];
static size_t lent_len;

static void *lend(void *context, size_t len)
{
    uint8_t *begin = lent + lent_len;

    (void)context;
    lent_len += (len + 15) / 16 * 16;
    return lent_len <= sizeof lent ? begin : NULL;
}

static void knot_read_all(void)
{
    knot_mm_t memory = {.alloc = lend};
    knot_pkt_t *packet;

    lent_len = 0;
    packet = knot_pkt_new((void *)messages[message_turn].octets, (uint16_t)messages[message_turn].len, &memory);
    if (packet == NULL || knot_pkt_parse(packet, 0) != KNOT_EOK)
        fail("knot_pkt_parse");
    sink += packet->rrset_count;
    knot_pkt_free(packet);
}

static void knot_read(void)
{
    knot_dname_storage_t name;

    if (knot_dname_wire_check(in->message + in->offset, in->message + in->message_len, in->message) <= 0)
        fail("knot_dname_wire_check");
    sink += (size_t)knot_dname_unpack(name, in->message + in->offset, sizeof name, in->message);
}

static void knot_compare(void)
{
    int order = knot_dname_cmp(in->name, in->other);

    if (order <= 0)
        fail("knot_dname_cmp");
    sink += (size_t)order;
}

static void knot_to_text(void)
{
    char text[KNOT_DNAME_TXT_MAXLEN + 1];

    if (knot_dname_to_str(text, in->name, sizeof text) == NULL)
        fail("knot_dname_to_str");
    sink += (size_t)text[0];
}

static void knot_from_text(void)
{
    knot_dname_storage_t name;

    if (knot_dname_from_str(name, in->text, sizeof name) == NULL)
        fail("knot_dname_from_str");
    sink += name[0];
}
#endif

#ifdef WITH_LDNS
static void ldns_read_all(void)
{
    ldns_pkt *packet;

    if (ldns_wire2pkt(&packet, messages[message_turn].octets, messages[message_turn].len) != LDNS_STATUS_OK)
        fail("ldns_wire2pkt");
    sink += ldns_pkt_ancount(packet);
    ldns_pkt_free(packet);
}

static ldns_rdf *ldns_name, *ldns_other;
static ldns_buffer *ldns_text;

static void ldns_read(void)
{
    ldns_rdf *name;
    size_t pos = in->offset;

    if (ldns_wire2dname(&name, in->message, in->message_len, &pos) != LDNS_STATUS_OK)
        fail("ldns_wire2dname");
    sink += ldns_rdf_size(name);
    ldns_rdf_deep_free(name);
}

static void ldns_compare(void)
{
    int order = ldns_dname_compare(ldns_name, ldns_other);

    if (order <= 0)
        fail("ldns_dname_compare");
    sink += (size_t)order;
}

static void ldns_to_text(void)
{
    ldns_buffer_clear(ldns_text);
    if (ldns_rdf2buffer_str_dname(ldns_text, ldns_name) != LDNS_STATUS_OK)
        fail("ldns_rdf2buffer_str_dname");
    sink += ldns_buffer_position(ldns_text);
}

static void ldns_from_text(void)
{
    ldns_rdf *name;

    if (ldns_str2rdf_dname(&name, in->text) != LDNS_STATUS_OK)
        fail("ldns_str2rdf_dname");
    sink += ldns_rdf_size(name);
    ldns_rdf_deep_free(name);
}

static void prepare_ldns(void)
{
    ldns_name = ldns_dname_new_frm_data((uint16_t)in->len, in->name);
    ldns_other = ldns_dname_new_frm_data((uint16_t)in->other_len, in->other);
    if (ldns_text == NULL)
        ldns_text = ldns_buffer_new(2048);
}
#endif

struct call {
    const char *operation, *library;
    void (*run)(void);
};

static const struct call CALLS[] = {
    {"read", "dnsnames", ours_read},
    {"compare", "dnsnames", ours_compare},
    {"to text", "dnsnames", ours_to_text},
    {"from text", "dnsnames", ours_from_text},
    {"hash", "dnsnames", ours_hash},
    {"hash", "plain C", plain_c_hash},
    {"append to a header", "dnsnames", ours_append_first},
    {"append after the other", "dnsnames", ours_append},
#ifdef WITH_KNOT
    {"read", "libknot", knot_read},
    {"compare", "libknot", knot_compare},
    {"to text", "libknot", knot_to_text},
    {"from text", "libknot", knot_from_text},
#endif
#ifdef WITH_LDNS
    {"read", "ldns", ldns_read},
    {"compare", "ldns", ldns_compare},
    {"to text", "ldns", ldns_to_text},
    {"from text", "ldns", ldns_from_text},
#endif
};
enum { CALL_COUNT = sizeof CALLS / sizeof *CALLS, TURNS = 400 };

static double now(void)
{
    struct timespec time;

    clock_gettime(CLOCK_MONOTONIC, &time);
    return 1e9 * (double)time.tv_sec + (double)time.tv_nsec;
}

static double turn(void (*run)(void), unsigned times)
{
    double begun = now();
    unsigned i;

    for (i = 0; i < times; i++)
        run();
    return (now() - begun) / times;
}

static void measure(void)
{
    double best[CALL_COUNT];
    unsigned times[CALL_COUNT], i, k;

    for (k = 0; k < CALL_COUNT; k++) {
        turn(CALLS[k].run, 100);
        best[k] = turn(CALLS[k].run, 1000);
        times[k] = (unsigned)(1e5 / best[k]) + 1;
    }
    for (i = 0; i < TURNS; i++) {
        for (k = 0; k < CALL_COUNT; k++) {
            double took = turn(CALLS[k].run, times[k]);
            if (took < best[k])
                best[k] = took;
        }
    }
    for (k = 0; k < CALL_COUNT; k++)
        printf("%s\t%s\t%s\t%.1f\n", CALLS[k].operation, in->title, CALLS[k].library, best[k]);
}

static const struct call MESSAGE_CALLS[] = {
    {"read all", "dnsnames", ours_read_all},
#ifdef WITH_KNOT
    {"read all", "libknot", knot_read_all},
#endif
#ifdef WITH_LDNS
    {"read all", "ldns", ldns_read_all},
#endif
};
enum { MESSAGE_CALL_COUNT = sizeof MESSAGE_CALLS / sizeof *MESSAGE_CALLS, MESSAGE_TURNS = 40, TOGETHER = 100 };

/* Of each hundred messages the best of some turns, in which the libraries alternate, and of these the mean. */
static void measure_messages(void)
{
    double total[MESSAGE_CALL_COUNT] = {0};
    size_t begin;
    unsigned i, k;

    for (begin = 0; begin < message_count; begin += TOGETHER) {
        size_t end = message_count - begin < TOGETHER ? message_count : begin + TOGETHER;
        double best[MESSAGE_CALL_COUNT];
        for (i = 0; i < MESSAGE_TURNS; i++) {
            for (k = 0; k < MESSAGE_CALL_COUNT; k++) {
                double begun = now(), took;
                for (message_turn = begin; message_turn < end; message_turn++)
                    MESSAGE_CALLS[k].run();
                took = now() - begun;
                if (i == 0 || took < best[k])
                    best[k] = took;
            }
        }
        for (k = 0; k < MESSAGE_CALL_COUNT; k++)
            total[k] += best[k];
    }
    for (k = 0; k < MESSAGE_CALL_COUNT; k++)
        printf("%s\t10 records\t%s\t%.1f\n", MESSAGE_CALLS[k].operation, MESSAGE_CALLS[k].library,
               total[k] / (double)message_count);
}

static void load_messages(const char *path)
{
    FILE *file = fopen(path, "rb");
    uint8_t size[2], *octets;
    size_t len;

    if (file == NULL)
        fail(path);
    while (fread(size, 1, 2, file) == 2) {
        len = (size_t)size[0] << 8 | size[1];
        octets = malloc(len);
        messages = realloc(messages, (message_count + 1) * sizeof *messages);
        if (octets == NULL || messages == NULL || fread(octets, 1, len, file) != len)
            fail(path);
        messages[message_count].octets = octets;
        messages[message_count].len = len;
        message_count++;
    }
    fclose(file);
}

/* The name at the message's offset in its other forms. */
static void complete(struct input *input, const char *other)
{
    size_t end, text_len;
    uint32_t compressed;

    if (dnsnames_read(input->message, input->message_len, input->offset, 255, input->name, sizeof input->name,
                      &input->len, &end, &compressed) ||
        dnsnames_to_text(input->name, input->len, 1, (uint8_t *)input->text, DNSNAMES_MAX_TEXT, &text_len) ||
        dnsnames_from_text((const uint8_t *)other, strlen(other), input->other, sizeof input->other,
                           &input->other_len))
        fail("the input");
    input->text[text_len] = 0;
}

int main(int argc, char **argv)
{
    static struct input typical = {.title = "typical"}, longest = {.title = "127 labels"};
    static const uint8_t response[] = "\0\0\0\0\0\0\0\0\0\0\0\0\7example\3com\0\0\1\0\1\3www\300\014";
    size_t i;

    memcpy(typical.message, response, sizeof response - 1);
    typical.message_len = sizeof response - 1;
    typical.offset = 29;
    complete(&typical, "mail.example.com.");
    longest.offset = 12;
    for (i = 0; i < 254; i += 2) {
        longest.message[12 + i] = 1;
        longest.message[12 + i + 1] = 'a' + i / 2 % 26;
    }
    longest.message_len = 12 + 255;
    complete(&longest, "w.");
    /* Its other differs in the first label alone. */
    memcpy(longest.other, longest.name, longest.len);
    longest.other_len = longest.len;
    longest.other[1] = '0';

    for (i = 0; i < 2; i++) {
        uint64_t hash;
        in = i == 0 ? &typical : &longest;
        prepare_append();
#ifdef WITH_LDNS
        prepare_ldns();
#endif
        if (dnsnames_hash(KEY, in->name, in->len, &hash) || hash != plain_hash(KEY, in->name, in->len))
            fail("the hash");
        measure();
    }
    if (argc > 1) {
        load_messages(argv[1]);
        measure_messages();
    }
    return 0;
}
