/* 10,000 random messages: the library and the second reader must answer alike, and write the same, each call but
 * those of texts of messages and records, which worked cases try (calls.c).
 *
 *     random [MESSAGES [SEED]]
 *
 * What a call reads ends where a page begins that can't be read, so that an octet too far ends the program. */
#define _DEFAULT_SOURCE
#include "check.h"
#include "dnsnames.h"
#include "same.h"
#include "second.h"
#include <stdlib.h>
#include <string.h>
#include <sys/mman.h>
#include <unistd.h>

/* All that one call may write. Both sides begin with the same octets. */
struct answer {
    uint32_t status, flag;
    int32_t order;
    uint64_t hash;
    size_t size[3];
    uint16_t number[1];
    dnsnames_header_fields header;
    dnsnames_question_fields question;
    dnsnames_record_fields record;
    dnsnames_opt_fields opt;
    dnsnames_subnet_fields subnet;
    dnsnames_field field;
    uint8_t buffer[1100];
    uint32_t rows[12 * DNSNAMES_ROW_LEN];
};

static struct answer of_library, of_second;
static struct answer *x; /* the side that is asked */

static void same(const char *call)
{
    test(memcmp(&of_library, &of_second, sizeof of_library) == 0, __FILE__, __LINE__, call);
    if (failures > 20)
        exit(told("calls"));
}

/* Asks both sides. The arguments name results by x, and are the same when they are read a second time. */
#define BOTH(call, ...)                                       \
    do {                                                      \
        memset(&of_library, 0x5a, sizeof of_library);         \
        memset(&of_second, 0x5a, sizeof of_second);           \
        x = &of_library;                                      \
        x->status = dnsnames_##call(__VA_ARGS__);             \
        x = &of_second;                                       \
        x->status = second_##call(__VA_ARGS__);               \
        same(#call);                                          \
    } while (0)

static uint64_t state = 88172645463325252u;

/* Xorshift: the same messages on every machine. */
static uint32_t random_below(uint32_t bound)
{
    state ^= state << 13;
    state ^= state >> 7;
    state ^= state << 17;
    return (uint32_t)(state >> 32) % bound;
}

static uint8_t *fence;

enum { FENCED = 4096 };

static void raise_fence(void)
{
    size_t page = (size_t)sysconf(_SC_PAGESIZE);
    size_t room = (FENCED + page - 1) / page * page;
    uint8_t *memory = mmap(NULL, room + page, PROT_READ | PROT_WRITE, MAP_PRIVATE | MAP_ANONYMOUS, -1, 0);

    if (memory == MAP_FAILED || mprotect(memory + room, page, PROT_NONE) != 0) {
        perror("random");
        exit(2);
    }
    fence = memory + room;
}

/* Octets that look like names: labels that share few letters, pointers that mostly lead back, heads of all types. */
static size_t make_message(uint8_t *octets, size_t most)
{
    static const uint8_t letters[] = "aAbBzZ019-. \\[@\0\x7f\xff";
    size_t len = random_below((uint32_t)most + 1), at = 0, k;
    uint32_t longest = random_below(8) == 0 ? 63 : 1 + random_below(6);

    while (at < len) {
        uint32_t kind = random_below(20);
        if (kind < 11) {
            size_t label = 1 + random_below(longest);
            octets[at++] = (uint8_t)label;
            for (k = 0; k < label && at < len; k++)
                octets[at++] = letters[random_below(random_below(4) == 0 ? sizeof letters - 1 : 6)];
        } else if (kind < 15) {
            size_t to = random_below(10) == 0 ? random_below(16384) : random_below((uint32_t)at + 2);
            octets[at++] = (uint8_t)(192 + to / 256);
            if (at < len)
                octets[at++] = (uint8_t)to;
        } else if (kind < 19) {
            octets[at++] = 0;
        } else {
            octets[at++] = (uint8_t)random_below(256);
        }
    }
    return len;
}

/* Labels with 250 to 260 octets in all, and what ends them: names about as long as one may be. */
static size_t make_long(uint8_t *octets)
{
    size_t total = 250 + random_below(11), at = 0, label;

    while (at < total) {
        label = 1 + random_below(63);
        if (total - at < 66)
            label = total - at - 1 > 63 ? (total - at) / 2 : total - at - 1;
        if (label == 0)
            break;
        octets[at] = (uint8_t)label;
        memset(octets + at + 1, 'a' + (int)random_below(26), label);
        at += 1 + label;
    }
    octets[at++] = random_below(3) == 0 ? 0xc0 : 0;
    octets[at++] = 0;
    return at;
}

static void ask_of_name(const uint8_t *name, size_t len, const uint8_t *other, size_t other_len)
{
    static uint8_t key[DNSNAMES_KEY_LEN];
    size_t index = random_below(6), text_capacity = random_below(60), capacity = random_below(30);
    uint32_t dot = random_below(2);

    key[random_below(sizeof key)] = (uint8_t)random_below(256);
    BOTH(check, name, len);
    BOTH(check_relative, name, len);
    BOTH(to_text, name, len, dot, x->buffer, sizeof x->buffer, &x->size[0]);
    BOTH(to_text, name, len, dot, x->buffer, text_capacity, &x->size[0]);
    BOTH(lower, name, len, x->buffer, sizeof x->buffer, &x->size[0]);
    BOTH(lower, name, len, x->buffer, capacity, &x->size[0]);
    BOTH(hash, key, name, len, &x->hash);
    BOTH(label_count, name, len, &x->size[0]);
    BOTH(label, name, len, index, &x->size[0]);
    BOTH(label_back, name, len, index, &x->size[0]);
    BOTH(parent, name, len, &x->size[0]);
    BOTH(eq, name, len, other, other_len, &x->flag);
    BOTH(compare, name, len, other, other_len, &x->order);
    BOTH(compare, other, other_len, name, len, &x->order);
    BOTH(ends_with, name, len, other, other_len, &x->flag);
    BOTH(ends_with, other, other_len, name, len, &x->flag);
}

static void ask_of_text(void)
{
    static const char letters[] = "aAbB.\\[ 0127z\xc3\xa4";
    static uint8_t octets[600], long_text[DNSNAMES_MAX_TEXT];
    uint8_t *text;
    size_t text_len = random_below(6) == 0 ? random_below(400) : random_below(30), capacity = random_below(20), k;

    text = fence - text_len;
    for (k = 0; k < text_len; k++)
        text[k] = (uint8_t)letters[random_below(text_len > 60 ? 5 : sizeof letters - 1)];
    BOTH(from_text, text, text_len, x->buffer, sizeof x->buffer, &x->size[0]);
    BOTH(from_text, text, text_len, x->buffer, capacity, &x->size[0]);

    /* A text about as long as one may be: the labels, with dots in place of their lengths. */
    text_len = make_long(octets) - 2;
    memcpy(long_text, octets, text_len);
    for (k = 0; k < text_len; k += 1 + octets[k])
        long_text[k] = '.';
    text = fence - (text_len - 1);
    memcpy(text, long_text + 1, text_len - 1);
    BOTH(from_text, text, text_len - 1, x->buffer, sizeof x->buffer, &x->size[0]);
}

/* Writes names behind each other, each compressed against those before it. Both sides keep octets and table. */
static void ask_to_append(uint8_t names[][255], const size_t *lens, size_t count)
{
    static uint8_t octets[2][700];
    uint16_t table[2][DNSNAMES_MAX_TABLE];
    size_t len[2] = {12, 12}, table_len[2] = {0, 0}, i, k;
    uint32_t status[2];
    size_t capacity = random_below(4) == 0 ? 12 + random_below(100) : sizeof octets[0];

    memset(octets, 0, sizeof octets);
    memset(table, 0, sizeof table);
    for (i = 0; i < count * 2; i++) {
        k = random_below((uint32_t)count);
        BOTH(plan, octets[0], len[0], table[0], table_len[0], names[k], lens[k], &x->size[0], &x->number[0]);
        status[0] = dnsnames_append(octets[0], capacity, &len[0], table[0], DNSNAMES_MAX_TABLE, &table_len[0],
                                    names[k], lens[k]);
        status[1] = second_append(octets[1], capacity, &len[1], table[1], DNSNAMES_MAX_TABLE, &table_len[1],
                                  names[k], lens[k]);
        CHECK(status[0] == status[1] && len[0] == len[1] && table_len[0] == table_len[1]);
        CHECK(memcmp(octets[0], octets[1], sizeof octets[0]) == 0);
        CHECK(memcmp(table[0], table[1], sizeof table[0]) == 0);
    }
}

/* Data that are the fields of a type, with some of the names and others that end as one of them; now and then cut, too
 * long, or with a pointer in a name. */
static size_t fields_of(uint16_t *type, uint8_t *data, uint8_t names[][255], const size_t *lens, size_t count)
{
    static const uint8_t TYPES[][4] = {
        {2, 0, 1, 0},  {3, 0, 1, 0},  {4, 0, 1, 0},  {5, 0, 1, 0},  {6, 0, 2, 20}, {7, 0, 1, 0},  {8, 0, 1, 0},
        {9, 0, 1, 0},  {12, 0, 1, 0}, {14, 0, 2, 0}, {15, 2, 1, 0}, {33, 6, 1, 0}, {39, 0, 1, 0}, {17, 0, 2, 0},
        {18, 2, 1, 0}, {21, 2, 1, 0}, {26, 2, 2, 0}, {36, 2, 1, 0},
    };
    const uint8_t *row = TYPES[random_below(sizeof TYPES / sizeof *TYPES)];
    size_t len = row[1], left, k;

    *type = row[0];
    for (k = 0; k < len; k++)
        data[k] = (uint8_t)random_below(256);
    for (left = row[2]; left > 0; left--) {
        k = random_below((uint32_t)count);
        if (random_below(3) == 0 && lens[k] < 250) {
            memcpy(data + len, "\1q", 2);
            len += 2;
        }
        memcpy(data + len, names[k], lens[k]);
        len += lens[k];
    }
    for (k = 0; k < row[3]; k++)
        data[len++] = (uint8_t)random_below(256);
    if (random_below(12) == 0)
        data[random_below((uint32_t)len)] = 192;
    if (random_below(12) == 0)
        data[len++] = 0;
    return random_below(12) == 0 ? random_below((uint32_t)len + 1) : len;
}

/* Builds a message in turn on both sides, with names that share ends, and fields or random data; both keep octets and
 * builder. */
static void ask_to_build(uint8_t names[][255], const size_t *lens, size_t count)
{
    static uint8_t octets[2][700], fields[600];
    dnsnames_builder builder[2];
    size_t capacity = random_below(3) == 0 ? random_below(120) : sizeof octets[0], turns = random_below(14), size[2];
    uint32_t status[2], side;

    memset(octets, 0x5a, sizeof octets);
    memset(builder, 0, sizeof builder);
    status[0] = dnsnames_builder_start(&builder[0], octets[0], capacity, (uint16_t)capacity, 0x0100);
    status[1] = second_builder_start(&builder[1], octets[1], capacity, (uint16_t)capacity, 0x0100);
    CHECK(status[0] == status[1]);
    builder[0].octets = octets[0];
    builder[1].octets = octets[1];
    while (turns-- > 0) {
        uint32_t kind = random_below(13), section = random_below(8) == 0 ? random_below(6) : 1 + random_below(3);
        size_t k = random_below((uint32_t)count), data_len = random_below(30), len = lens[k] - random_below(30) / 29;
        uint16_t type = (uint16_t)random_below(300);
        const uint8_t *data = names[0];
        if (random_below(2) == 0) {
            data_len = fields_of(&type, fields, names, lens, count);
            data = fields;
        }
        if (random_below(60) == 0) {
            size_t at = random_below(12 + (uint32_t)sizeof builder[0].state), bit = 1u << random_below(8);
            for (side = 0; side < 2; side++) {
                uint8_t *where = at < 12 ? octets[side] + at : (uint8_t *)&builder[side].state + (at - 12);
                *where = (uint8_t)(*where ^ bit);
            }
        }
        for (side = 0; side < 2; side++) {
            dnsnames_builder *b = &builder[side];
#define TURN(call, ...) (side == 0 ? dnsnames_builder_##call(b, __VA_ARGS__) : second_builder_##call(b, __VA_ARGS__))
            if (kind < 3)
                status[side] = TURN(question, names[k], len, type, 1);
            else if (kind < 10)
                status[side] = TURN(record, section, names[k], len, type, 1, 0x10203040u + type, data, data_len);
            else if (kind == 10)
                status[side] = TURN(opt, type, (uint8_t)type, (uint8_t)(type / 2), type % 2, data, data_len);
            else if (kind == 11)
                status[side] = TURN(opt_flags, type, (uint8_t)type, (uint8_t)(type / 2), (uint16_t)(type * 511), data,
                                    data_len);
            else
                status[side] = side == 0 ? dnsnames_builder_truncate(b) : second_builder_truncate(b);
        }
        CHECK(status[0] == status[1]);
        CHECK(same_states(&builder[0].state, &builder[1].state));
        CHECK(memcmp(octets[0], octets[1], sizeof octets[0]) == 0);
    }
    size[0] = size[1] = 77;
    status[0] = dnsnames_builder_finish(&builder[0], &size[0]);
    status[1] = second_builder_finish(&builder[1], &size[1]);
    CHECK(status[0] == status[1] && size[0] == size[1]);
    CHECK(memcmp(octets[0], octets[1], sizeof octets[0]) == 0);
}

/* Pushes an RRset of a few equal data on each side, by the call of this number. */
static void push_rrsets(dnsnames_builder *builder, uint32_t call, uint8_t names[][255], const size_t *lens, size_t count)
{
    static uint8_t data[3 * 600];
    uint32_t section = random_below(8) == 0 ? random_below(6) : 1 + random_below(3), status[2], pushed[2] = {77, 77}, side;
    size_t k = random_below((uint32_t)count), datas = random_below(4), len = lens[k] - random_below(30) / 29, i, size;
    uint16_t type, each[3];

    size = fields_of(&type, data, names, lens, count);
    for (i = 0; i < 3; i++) {
        memcpy(data + i * size, data, size);
        each[i] = (uint16_t)size;
    }
    if (random_below(12) == 0)
        each[random_below(3)]++;
#define PUSH(side, call, ...) \
    side##_builder_##call(b, section, names[k], len, type, 1, 60, data, datas * size, each, datas __VA_ARGS__)
#define AND(pushed) , pushed
    for (side = 0; side < 2; side++) {
        dnsnames_builder *b = &builder[side];
        if (call == 0)
            status[side] = side == 0 ? PUSH(dnsnames, rrset, ) : PUSH(second, rrset, );
        else if (call == 1)
            status[side] = side == 0 ? PUSH(dnsnames, extra, AND(&pushed[0])) : PUSH(second, extra, AND(&pushed[1]));
        else
            status[side] = side == 0 ? PUSH(dnsnames, required, AND(&pushed[0])) : PUSH(second, required, AND(&pushed[1]));
    }
    CHECK(status[0] == status[1] && pushed[0] == pushed[1]);
}

/* Pushes RRsets in turn on both sides, and goes back to marks, some of which are none; both keep octets and builder. */
static void ask_for_rrsets(uint8_t names[][255], const size_t *lens, size_t count)
{
    static uint8_t octets[2][700];
    dnsnames_builder builder[2];
    dnsnames_builder_state mark[2];
    size_t capacity = random_below(3) == 0 ? sizeof octets[0] : 12 + random_below(200), turns = random_below(12), at;
    uint32_t status[2], side;

    memset(octets, 0x5a, sizeof octets);
    memset(builder, 0, sizeof builder);
    dnsnames_builder_start(&builder[0], octets[0], capacity, 7, 0x0100);
    second_builder_start(&builder[1], octets[1], capacity, 7, 0x0100);
    memset(mark, 0, sizeof mark);
    while (turns-- > 0) {
        uint32_t call = random_below(9);
        if (call < 7) {
            push_rrsets(builder, call / 2, names, lens, count);
        } else if (call == 7) {
            mark[0] = builder[0].state;
            mark[1] = builder[1].state;
            at = random_below(20 * (uint32_t)sizeof mark[0]);
            for (side = 0; side < 2 && at < sizeof mark[0]; side++)
                ((uint8_t *)&mark[side])[at] ^= (uint8_t)(1u << at % 8);
        } else {
            status[0] = dnsnames_builder_rewind(&builder[0], &mark[0]);
            status[1] = second_builder_rewind(&builder[1], &mark[1]);
            CHECK(status[0] == status[1]);
        }
        CHECK(same_states(&builder[0].state, &builder[1].state));
        CHECK(memcmp(octets[0], octets[1], builder[0].state.len) == 0);
        CHECK(memcmp(octets[0] + capacity, octets[1] + capacity, sizeof octets[0] - capacity) == 0);
    }
}

/* Strings and options of data that begin at an offset, up to the first that is none, and what an OPT record says. */
static void ask_of_parts(const uint8_t *message, size_t len, size_t offset)
{
    uint16_t type = random_below(9) == 0 ? (uint16_t)random_below(110) : random_below(4) == 0 ? 99 : 16, code = 0;
    size_t data_len = random_below(random_below(4) == 0 ? (uint32_t)len + 4 : 20), passed = random_below(8) / 7, at, size;
    uint32_t ttl = random_below(256) << 24 | random_below(1 << 24);
    int more = 1;

    while (more) {
        BOTH(data_string, message, len, offset, data_len, type, (x->size[2] = passed, &x->size[2]), &x->size[0],
             &x->size[1]);
        more = second_data_string(message, len, offset, data_len, type, &passed, &at, &size) == DNSNAMES_OK;
    }
    type = random_below(9) == 0 ? (uint16_t)random_below(60) : 41;
    passed = random_below(8) / 7;
    for (more = 1; more;) {
        BOTH(data_option, message, len, offset, data_len, type, (x->size[2] = passed, &x->size[2]), &x->number[0],
             &x->size[0], &x->size[1]);
        more = second_data_option(message, len, offset, data_len, type, &passed, &code, &at, &size) == DNSNAMES_OK;
    }
    BOTH(opt, type, (uint16_t)(ttl / 7 % 1500), ttl, (uint16_t)(ttl / 3), &x->opt);
}

/* Options that are written by name after some octets, and that are read by name: of such, or of random octets. */
static void ask_of_options(void)
{
    static const uint8_t texts[] = "a\xc3\xa9\xe2\x82\xac\xf0\x9f\x98\x80\xed\xa0\x80\xc0\x80\xf4\x90\xff";
    uint8_t octets[40] = {0};
    size_t len = random_below(41), capacity = random_below(4) == 0 ? random_below(50) : sizeof x->buffer, i;
    size_t at = random_below(8) == 0 ? random_below(60) : random_below(4), from = random_below(sizeof texts - 1);
    size_t text_len = random_below((uint32_t)(sizeof texts - from)), spare = len > 4 ? random_below(8) : 0;
    uint16_t number = (uint16_t)random_below(4), code = (uint16_t)(number * 9999);
    uint8_t source = (uint8_t)random_below(random_below(4) == 0 ? 256 : 40);

    for (i = 0; i < len; i++)
        octets[i] = (uint8_t)random_below(random_below(2) == 0 ? 256 : 3);
    BOTH(append_option, x->buffer, capacity, (x->size[0] = at, &x->size[0]), code, octets, len);
    BOTH(append_cookie, x->buffer, capacity, (x->size[0] = at, &x->size[0]), octets, octets, len);
    BOTH(append_client_subnet, x->buffer, capacity, (x->size[0] = at, &x->size[0]), number, source, (uint8_t)len,
         octets, len);
    BOTH(append_extended_error, x->buffer, capacity, (x->size[0] = at, &x->size[0]), code, texts + from, text_len);
    BOTH(cookie, octets, len, &x->size[0]);
    BOTH(extended_error, octets, len, &x->number[0]);
    if (len >= 4 && random_below(4) != 0) {
        octets[0] = 0;
        octets[1] = (uint8_t)random_below(3);
        octets[2] = (uint8_t)(8 * (len - 4) - spare);
        if (random_below(4) != 0)
            octets[len - 1] = (uint8_t)(octets[len - 1] << spare);
    }
    BOTH(client_subnet, octets, len, &x->subnet);
}

/* Names in data that begin at an offset: of any type and size, and as large as the names there are. */
static void ask_of_data(const uint8_t *message, size_t len, size_t offset)
{
    static const uint16_t types[] = {1, 2, 5, 6, 12, 14, 15, 17, 18, 26, 33, 39};
    uint16_t type = random_below(8) == 0 ? (uint16_t)random_below(70) : types[random_below(12)];
    size_t index = random_below(6) == 0 ? random_below(3) : random_below(2), capacity = random_below(20), end = offset;
    size_t data_len = random_below(100), begin = offset, number = random_below(6), address_len = random_below(20);
    uint16_t address_type = random_below(2) == 0 ? 1 : (uint16_t)(27 + random_below(2));
    uint16_t class_ = (uint16_t)(1 + random_below(2));

    if (random_below(3) != 0)
        address_len = address_type == 1 ? 4 : 16;

    BOTH(data_name, message, len, offset, data_len, type, index, x->buffer, sizeof x->buffer, &x->size[0]);
    BOTH(data_number, message, len, offset, data_len, type, index, &x->flag);
    BOTH(data_address, message, len, offset, address_len, address_type, x->buffer, capacity, &x->size[0]);
    if (second_skip(message, len, offset, &end) == DNSNAMES_OK && random_below(2) == 0)
        second_skip(message, len, end, &end);
    begin -= begin < 6 ? 0 : 2 * random_below(4);
    data_len = end - begin + (random_below(3) == 0 ? 20 : 0) + random_below(2);
    BOTH(data_name, message, len, begin, data_len, type, index, x->buffer, sizeof x->buffer, &x->size[0]);
    BOTH(data_name, message, len, begin, data_len, type, index, x->buffer, capacity, &x->size[0]);
    BOTH(data_number, message, len, begin, data_len, type, number, &x->flag);
    BOTH(data_field, message, len, begin, data_len, type, class_, index, &x->field);
}

/* So many random octets. */
static size_t put_random(uint8_t *octets, size_t at, size_t count)
{
    while (count-- > 0)
        octets[at++] = (uint8_t)random_below(256);
    return at;
}

/* Octets of a field of this letter, most of which are right. */
static size_t put_field(uint8_t *octets, size_t at, char letter)
{
    unsigned named = 0, i;

    switch (letter) {
    case '1': return put_random(octets, at, 1);
    case '2': case 'y': return put_random(octets, at, 2);
    case '6': return put_random(octets, at, 6);
    case '8': return put_random(octets, at, 8);
    case 'A': return put_random(octets, at, 16);
    case 'n':
        if (random_below(2) == 0) {
            octets[at++] = 1;
            octets[at++] = 'x';
        }
        octets[at++] = random_below(3) == 0 ? 0 : 0xc0;
        if (octets[at - 1] != 0)
            octets[at++] = (uint8_t)(random_below(8) == 0 ? random_below(64) : 0);
        return at;
    case 'o': case 'c': case 'h': case 'H':
        octets[at] = (uint8_t)random_below(4);
        return put_random(octets, at + 1, octets[at]);
    case 'g':
        octets[at] = (uint8_t)random_below(6);
        memcpy(octets + at + 1, "issue", 5);
        return at + 1 + octets[at];
    case 'b':
        octets[at] = 0;
        octets[at + 1] = (uint8_t)random_below(4);
        return put_random(octets, at + 2, octets[at + 1]);
    case 'C':
        do {
            octets[at] = (uint8_t)random_below(3);
            at = put_random(octets, at + 1, octets[at]);
        } while (random_below(3) != 0 && at < 200);
        return at;
    case 'w': case 'W':
        for (i = random_below(3); i > 0; i--) {
            octets[at] = (uint8_t)(named += random_below(5));
            octets[at + 1] = (uint8_t)(random_below(8) == 0 ? random_below(40) : 1 + random_below(3));
            at = put_random(octets, at + 2, octets[at + 1]);
        }
        return at;
    case 'p':
        for (i = random_below(3); i > 0; i--) {
            octets[at] = 0;
            octets[at + 1] = (uint8_t)(named += random_below(4));
            octets[at + 2] = 0;
            octets[at + 3] = (uint8_t)random_below(4);
            at = put_random(octets, at + 4, octets[at + 3]);
        }
        return at;
    case 'q': case 'x': case 'X': case '*': return put_random(octets, at, random_below(6));
    default: return put_random(octets, at, 4);
    }
}

/* Data of any type and class, most of which are right, behind a name: each of their fields, and one more. */
static void ask_of_fields(void)
{
    static const uint16_t some[] = {35, 46, 47, 50, 64, 65, 99, 104, 105, 106, 107, 108, 109, 249, 250, 256, 257, 258, 32769};
    uint8_t octets[600] = "\1b\1a";
    uint16_t type = random_below(2) == 0 ? some[random_below(19)] : (uint16_t)random_below(66);
    uint16_t class_ = random_below(4) == 0 ? (uint16_t)(1 + random_below(4)) : 1;
    size_t data = 5, end = data, len, data_len, index;
    const char *letter;
    uint8_t *message;

    for (letter = field_letters(type, class_); *letter != 0; letter++)
        end = put_field(octets, end, *letter);
    if (random_below(4) == 0)
        octets[data + random_below((uint32_t)(end - data) + 1)] = (uint8_t)random_below(256);
    len = end + random_below(3);
    data_len = random_below(3) == 0 ? random_below((uint32_t)(end - data) + 3) : end - data;
    message = fence - len;
    memcpy(message, octets, len);
    for (index = 0; index < 11; index++) {
        BOTH(data_field, message, len, data, data_len, type, class_, index, &x->field);
        BOTH(data_name, message, len, data, data_len, type, index, x->buffer, sizeof x->buffer, &x->size[0]);
        BOTH(data_number, message, len, data, data_len, type, index, &x->flag);
    }
    BOTH(data_address, message, len, data, data_len, type, x->buffer, sizeof x->buffer, &x->size[0]);
}

/* A message of a few questions and records, most of whose names are read; in some an octet is another, or the last are
 * missing. */
static size_t make_entries(uint8_t *octets)
{
    size_t begun[12], at = 12, count, k, i;

    for (k = 0; k < 12; k++)
        octets[k] = (uint8_t)(k > 4 && k % 2 == 1 ? random_below(4) : 0);
    count = (size_t)octets[5] + octets[7] + octets[9] + octets[11];
    for (k = 0; k < count; k++) {
        size_t labels = random_below(3), to, size = k < octets[5] ? 4 : 10;
        begun[k] = at;
        while (labels-- > 0) {
            octets[at++] = 1;
            octets[at++] = (uint8_t)('a' + random_below(3));
        }
        if (k > 0 && random_below(2) == 0) {
            to = begun[random_below((uint32_t)k)];
            octets[at++] = (uint8_t)(192 + to / 256);
            octets[at++] = (uint8_t)to;
        } else {
            octets[at++] = 0;
        }
        for (i = 0; i < size; i++)
            octets[at++] = (uint8_t)random_below(256);
        if (size == 10) {
            size = random_below(6);
            octets[at - 2] = 0;
            octets[at - 1] = (uint8_t)size;
            while (size-- > 0)
                octets[at++] = (uint8_t)random_below(256);
        }
    }
    if (random_below(3) == 0) {
        i = random_below((uint32_t)at);
        octets[i] = (uint8_t)(octets[i] ^ 1u << random_below(8));
    }
    return at - (random_below(6) == 0 ? random_below((uint32_t)at) : 0);
}

static void ask_of_table(const uint8_t *message, size_t len)
{
    size_t rows = random_below(3) == 0 ? random_below(100) : sizeof x->rows / sizeof *x->rows;
    size_t names = random_below(3) == 0 ? random_below(100) : sizeof x->buffer;
    uint8_t limit = random_below(4) == 0 ? (uint8_t)random_below(3) : 255;

    BOTH(table, message, len, limit, x->rows, rows, x->buffer, names, &x->size[0], &x->size[1]);
}

/* A response of a few questions and CNAME records over three names, and its query; in some an octet is another. */
static size_t make_aliases(uint8_t *octets, size_t *query_len, uint8_t *query)
{
    size_t at = 12, k, count, size;

    memset(octets, 0, 12);
    octets[2] = random_below(8) == 0 ? 0 : 0x80;
    octets[5] = (uint8_t)(random_below(8) == 0 ? random_below(3) : 1);
    octets[7] = (uint8_t)random_below(6);
    for (k = 0, count = (size_t)octets[5] + octets[7]; k < count; k++) {
        octets[at++] = 1;
        octets[at++] = (uint8_t)("abcA"[random_below(4)]);
        octets[at++] = 0;
        octets[at++] = 0;
        octets[at++] = k < octets[5] ? 1 : (uint8_t)(random_below(6) == 0 ? 1 : 5);
        octets[at++] = 0;
        octets[at++] = 1;
        if (k + 1 == octets[5] || (octets[5] == 0 && k == 0))
            memcpy(query, octets, *query_len = at);
        if (k < octets[5])
            continue;
        size = random_below(8) == 0 ? random_below(5) : 3;
        memset(octets + at, 0, 6);
        octets[at + 5] = (uint8_t)size;
        at += 6;
        octets[at] = 1;
        octets[at + 1] = (uint8_t)("abcB"[random_below(4)]);
        octets[at + 2] = 0;
        octets[at + 3] = 0;
        at += size;
    }
    if (count == 0)
        memcpy(query, octets, *query_len = at);
    query[2] = 0;
    if (random_below(3) == 0)
        octets[random_below((uint32_t)at)] ^= (uint8_t)(1u << random_below(8));
    return at - (random_below(8) == 0 ? random_below((uint32_t)at) : 0);
}

static void ask_of_aliases(const uint8_t *message, size_t len, const uint8_t *query, size_t query_len)
{
    uint16_t limit = (uint16_t)random_below(5);
    size_t capacity = random_below(5);

    BOTH(is_answer, message, len, query, query_len, &x->flag);
    BOTH(is_answer, query, query_len, message, len, &x->flag);
    BOTH(canonical_name, message, len, limit, x->buffer, sizeof x->buffer, &x->size[0]);
    BOTH(canonical_name, message, len, 9, x->buffer, capacity, &x->size[0]);
}

static void ask_of_message(const uint8_t *message, size_t len)
{
    static uint8_t names[8][255];
    size_t lens[8], count = 0, k;
    uint32_t compressed;
    size_t end;

    for (k = 0; k < 24; k++) {
        size_t offset = k < 2 ? len + k : k == 2 ? 0 : random_below((uint32_t)len + 1);
        uint8_t limit = random_below(4) == 0 ? (uint8_t)random_below(4) : 255;
        size_t capacity = random_below(20);
        BOTH(read, message, len, offset, limit, x->buffer, sizeof x->buffer, &x->size[0], &x->size[1], &x->flag);
        BOTH(read, message, len, offset, limit, x->buffer, capacity, &x->size[0], &x->size[1], &x->flag);
        BOTH(skip, message, len, offset, &x->size[0]);
        BOTH(question, message, len, offset, &x->question);
        BOTH(record, message, len, offset, &x->record);
        ask_of_data(message, len, offset);
        ask_of_parts(message, len, offset);
        if (count < 8 && second_read(message, len, offset, 255, names[count], 255, &lens[count], &end,
                                     &compressed) == DNSNAMES_OK)
            count++;
    }
    BOTH(header, message, len, &x->header);
    if (len > 0) {
        size_t from = random_below((uint32_t)len), size = random_below((uint32_t)(len - from) + 1);
        ask_of_name(message + from, size, message, len);
    }
    for (k = 0; k + 1 < count; k++)
        ask_of_name(names[k], lens[k], names[k + 1], lens[k + 1]);
    if (count > 0) {
        ask_to_append(names, lens, count);
        ask_to_build(names, lens, count);
        ask_for_rrsets(names, lens, count);
    }
    ask_of_table(message, len);
}

int main(int argc, char **argv)
{
    static uint8_t octets[FENCED], query[200];
    size_t query_len = 0;
    unsigned long messages = argc > 1 ? strtoul(argv[1], NULL, 10) : 10000, i;

    if (argc > 2)
        state ^= strtoull(argv[2], NULL, 10);
    raise_fence();
    for (i = 0; i < messages; i++) {
        size_t most = i % 50 == 0 ? FENCED - 1 : i % 4 == 0 ? 600 : 80;
        size_t len = i % 8 == 3 ? make_long(octets) : make_message(octets, most);
        uint8_t *message = fence - len;
        memcpy(message, octets, len);
        ask_of_message(message, len);
        ask_of_fields();
        ask_of_options();
        ask_of_text();
        len = make_entries(octets);
        message = fence - len;
        memcpy(message, octets, len);
        ask_of_table(message, len);
        len = make_aliases(octets, &query_len, query);
        message = fence - len;
        memcpy(message, octets, len);
        ask_of_aliases(message, len, query, query_len);
    }
    printf("%lu messages: ", messages);
    return told("calls compared with the second reader");
}
