/* The worked cases of each call, and every bad input. The answers are those of RFC 1035 and RFC 4034. */
#include "check.h"
#include "dnsnames.h"
#include "same.h"
#include <string.h>

#define OCTETS(text) ((const uint8_t *)(text))
#define NAME(text) OCTETS(text), sizeof(text)         /* the root is the zero octet behind the text */
#define SPELLED(text) OCTETS(text), sizeof(text) - 1

/* F.ISI.ARPA at 20, FOO and a pointer to it at 40, a pointer to ARPA at 64, the root at 92 (RFC 1035, 4.1.4). */
static const uint8_t STANDARD[93] = {
    [20] = 1, 'F', 3, 'I', 'S', 'I', 4, 'A', 'R', 'P', 'A', 0,
    [40] = 3, 'F', 'O', 'O', 0xc0, 20,
    [64] = 0xc0, 26,
    [92] = 0,
};

/* A response: www.example.com A IN, answered by a CNAME, an A record and an empty record of the root. */
static const uint8_t RESPONSE[] =
    "\x12\x34\x81\x80\0\1\0\2\0\0\0\1"
    "\3www\7example\3com\0\0\1\0\1"
    "\300\014\0\5\0\1\0\0\016\020\0\7\4host\300\020"
    "\300\055\0\1\0\1\0\0\0\74\0\4\300\0\2\1"
    "\0\0\51\20\0\0\0\0\0\0";
enum { RESPONSE_LEN = sizeof RESPONSE, QUESTION = 12, CNAME = 33, ADDRESS = 52, EMPTY = 68 };

static const uint8_t HOSTILE[] =
    "\300\000"         /* 0: a pointer to itself */
    "\300\004\300\002" /* 2 and 4: a ring of two */
    "\1a\300\006"      /* 6: a label, and a pointer back to it: the name grows past 255 octets */
    "\100\0"           /* 10: a head of an extended label type */
    "\200\0"           /* 12: a head of a label type that isn't in use */
    "\5abc";           /* 14: a label that ends past the message, which has the zero octet behind it */
enum { HOSTILE_LEN = sizeof HOSTILE };

static uint8_t buffer[1100];
static size_t length, end, offset;
static uint32_t flag;

/* Before a call that is to be refused: what it must leave. */
static void mark(void)
{
    memset(buffer, 0x5a, sizeof buffer);
    length = end = offset = 77;
    flag = 77;
}

static int is_marked(void)
{
    size_t i;

    for (i = 0; i < sizeof buffer; i++)
        if (buffer[i] != 0x5a)
            return 0;
    return length == 77 && end == 77 && offset == 77 && flag == 77;
}

#define REFUSES(status, call) \
    do {                      \
        mark();               \
        CHECK((call) == (status)); \
        CHECK(is_marked());   \
    } while (0)

/* The buffer begins with the octets, and what is behind them is as it was. */
static int holds(const uint8_t *octets, size_t len)
{
    size_t i;

    for (i = len; i < sizeof buffer; i++)
        if (buffer[i] != 0x5a)
            return 0;
    return memcmp(buffer, octets, len) == 0;
}

static uint32_t read_in(const uint8_t *message, size_t len, size_t at, uint8_t limit, size_t capacity)
{
    return dnsnames_read(message, len, at, limit, buffer, capacity, &length, &end, &flag);
}

static void reads(const uint8_t *message, size_t len, size_t at, const uint8_t *name, size_t name_len, size_t behind,
                  uint32_t is_compressed)
{
    size_t capacity;

    for (capacity = 0; capacity < name_len; capacity++) {
        mark();
        CHECK(read_in(message, len, at, DNSNAMES_MAX_POINTERS, capacity) == DNSNAMES_NO_ROOM);
        CHECK(length == name_len);
        CHECK(holds(name, 0));
    }
    mark();
    CHECK(read_in(message, len, at, DNSNAMES_MAX_POINTERS, name_len) == DNSNAMES_OK);
    CHECK(length == name_len && end == behind && flag == is_compressed);
    CHECK(holds(name, name_len));
    end = 77;
    CHECK(dnsnames_skip(message, len, at, &end) == DNSNAMES_OK && end == behind);
}

static void reading(void)
{
    reads(STANDARD, sizeof STANDARD, 20, NAME("\1F\3ISI\4ARPA"), 32, 0);
    reads(STANDARD, sizeof STANDARD, 40, NAME("\3FOO\1F\3ISI\4ARPA"), 46, 1);
    reads(STANDARD, sizeof STANDARD, 64, NAME("\4ARPA"), 66, 0); /* in one piece, behind a pointer */
    reads(STANDARD, sizeof STANDARD, 92, NAME(""), 93, 0);
    reads(RESPONSE, RESPONSE_LEN, QUESTION, NAME("\3www\7example\3com"), 29, 0);
    reads(RESPONSE, RESPONSE_LEN, CNAME, NAME("\3www\7example\3com"), 35, 0);
    reads(RESPONSE, RESPONSE_LEN, ADDRESS, NAME("\4host\7example\3com"), 54, 1);

    /* As many pointers as are followed, and one fewer. */
    mark();
    CHECK(read_in(STANDARD, sizeof STANDARD, 40, 1, 255) == DNSNAMES_OK && length == 16);
    REFUSES(DNSNAMES_TOO_MANY_POINTERS, read_in(STANDARD, sizeof STANDARD, 40, 0, 255));
    CHECK(read_in(STANDARD, sizeof STANDARD, 20, 0, 255) == DNSNAMES_OK);
    REFUSES(DNSNAMES_TOO_MANY_POINTERS, read_in(RESPONSE, RESPONSE_LEN, ADDRESS, 1, 255));

    /* The end of the message at each octet of a name. */
    {
        size_t len;
        for (len = 20; len < 32; len++)
            REFUSES(DNSNAMES_SHORT_INPUT, read_in(STANDARD, len, 20, 255, 255));
        for (len = 40; len < 46; len++) {
            REFUSES(DNSNAMES_SHORT_INPUT, read_in(STANDARD, len, 40, 255, 255));
            REFUSES(DNSNAMES_SHORT_INPUT, dnsnames_skip(STANDARD, len, 40, &end));
        }
    }
}

static void hostile(void)
{
    static const size_t rings[] = {0, 2, 4};
    size_t i;

    for (i = 0; i < sizeof rings / sizeof *rings; i++)
        REFUSES(DNSNAMES_TOO_MANY_POINTERS, read_in(HOSTILE, HOSTILE_LEN, rings[i], 255, 255));
    REFUSES(DNSNAMES_LONG_NAME, read_in(HOSTILE, HOSTILE_LEN, 6, 255, 255));
    REFUSES(DNSNAMES_TOO_MANY_POINTERS, read_in(HOSTILE, HOSTILE_LEN, 6, 126, 255));
    CHECK(dnsnames_skip(HOSTILE, HOSTILE_LEN, 6, &end) == DNSNAMES_OK && end == 10);
    REFUSES(DNSNAMES_LABEL_TYPE, read_in(HOSTILE, HOSTILE_LEN, 10, 255, 255));
    REFUSES(DNSNAMES_LABEL_TYPE, read_in(HOSTILE, HOSTILE_LEN, 12, 255, 255));
    REFUSES(DNSNAMES_SHORT_INPUT, read_in(HOSTILE, HOSTILE_LEN, 14, 255, 255));
    REFUSES(DNSNAMES_LABEL_TYPE, dnsnames_skip(HOSTILE, HOSTILE_LEN, 10, &end));
    REFUSES(DNSNAMES_SHORT_INPUT, dnsnames_skip(HOSTILE, HOSTILE_LEN, 14, &end));

    /* Past the end, wherever that is. */
    REFUSES(DNSNAMES_SHORT_INPUT, read_in(HOSTILE, HOSTILE_LEN, HOSTILE_LEN, 255, 255));
    REFUSES(DNSNAMES_SHORT_INPUT, read_in(HOSTILE, HOSTILE_LEN, HOSTILE_LEN + 1, 255, 255));
    REFUSES(DNSNAMES_SHORT_INPUT, read_in(HOSTILE, HOSTILE_LEN, SIZE_MAX, 255, 255));
    REFUSES(DNSNAMES_SHORT_INPUT, read_in(HOSTILE, HOSTILE_LEN, SIZE_MAX / 2 + 1, 255, 255));
    REFUSES(DNSNAMES_SHORT_INPUT, read_in(HOSTILE, 0, 0, 255, 255));
    REFUSES(DNSNAMES_SHORT_INPUT, dnsnames_skip(HOSTILE, HOSTILE_LEN, HOSTILE_LEN, &end));
    REFUSES(DNSNAMES_SHORT_INPUT, dnsnames_skip(HOSTILE, HOSTILE_LEN, SIZE_MAX, &end));
    REFUSES(DNSNAMES_SHORT_INPUT, dnsnames_skip(HOSTILE, 0, 0, &end));
}

/* Names of 255 and 256 octets, 128 labels, 255 and 256 pointers, a message of 65,535 octets. */
static void limits(void)
{
    static uint8_t octets[65535];
    size_t i;

    for (i = 0; i < 300; i += 2) {
        octets[i] = 1;
        octets[i + 1] = 'a';
    }
    octets[254] = 0;
    CHECK(dnsnames_check(octets, 255) == DNSNAMES_OK);
    CHECK(dnsnames_check_relative(octets, 254) == DNSNAMES_OK);
    CHECK(dnsnames_label_count(octets, 255, &length) == DNSNAMES_OK && length == 128);
    reads(octets, sizeof octets, 0, octets, 255, 255, 0);
    CHECK(dnsnames_check(octets, 256) == DNSNAMES_LONG_NAME);
    octets[254] = 1;
    octets[255] = 'a';
    octets[256] = 0;
    CHECK(dnsnames_check(octets, 257) == DNSNAMES_LONG_NAME);
    CHECK(dnsnames_check_relative(octets, 256) == DNSNAMES_LONG_NAME);
    REFUSES(DNSNAMES_LONG_NAME, read_in(octets, sizeof octets, 0, 255, 255));
    REFUSES(DNSNAMES_LONG_NAME, dnsnames_skip(octets, sizeof octets, 0, &end));

    /* A label of two octets in place of one: 256 octets, 255 of them before the root. */
    memmove(octets + 3, octets + 2, 253);
    octets[0] = 2;
    octets[1] = octets[2] = 'a';
    octets[255] = 0;
    CHECK(dnsnames_check(octets, 256) == DNSNAMES_LONG_NAME);
    CHECK(dnsnames_check_relative(octets, 255) == DNSNAMES_LONG_NAME);
    REFUSES(DNSNAMES_LONG_NAME, read_in(octets, sizeof octets, 0, 255, 255));
    REFUSES(DNSNAMES_LONG_NAME, dnsnames_skip(octets, sizeof octets, 0, &end));
    /* No root is passed over where a pointer stands, so these 255 octets can be. */
    octets[255] = 0xc0;
    octets[256] = 0;
    REFUSES(DNSNAMES_LONG_NAME, read_in(octets, sizeof octets, 0, 255, 255));
    CHECK(dnsnames_skip(octets, sizeof octets, 0, &end) == DNSNAMES_OK && end == 257);

    /* The root at 0, and pointers from 1 on, each to the one before it. */
    memset(octets, 0, sizeof octets);
    for (i = 1; i < 1000; i += 2) {
        octets[i] = (uint8_t)(192 + (i < 3 ? 0 : i - 2) / 256);
        octets[i + 1] = (uint8_t)(i < 3 ? 0 : i - 2);
    }
    mark();
    CHECK(read_in(octets, sizeof octets, 1 + 2 * 254, 255, 255) == DNSNAMES_OK && length == 1);
    REFUSES(DNSNAMES_TOO_MANY_POINTERS, read_in(octets, sizeof octets, 1 + 2 * 255, 255, 255));
    REFUSES(DNSNAMES_TOO_MANY_POINTERS, read_in(octets, sizeof octets, 1 + 2 * 254, 254, 255));

    /* The name a at 0, and a chain of pointers to it: a 256th would be written. */
    {
        const uint16_t after_254[] = {3 + 2 * 253}, after_255[] = {3 + 2 * 254};
        uint16_t to = 77;
        size_t begin = 77;
        octets[0] = 1;
        octets[1] = 'a';
        octets[2] = 0;
        for (i = 3; i < 600; i += 2) {
            octets[i] = (uint8_t)(192 + (i < 5 ? 0 : i - 2) / 256);
            octets[i + 1] = (uint8_t)(i < 5 ? 0 : i - 2);
        }
        CHECK(dnsnames_plan(octets, 600, after_255, 1, NAME("\1a"), &begin, &to) == DNSNAMES_FLAT);
        CHECK(begin == 77 && to == 77);
        CHECK(dnsnames_plan(octets, 600, after_254, 1, NAME("\1a"), &begin, &to) == DNSNAMES_OK);
        CHECK(begin == 0 && to == after_254[0]);
    }

    /* The last octet of the longest message that TCP carries (RFC 1035, 4.2.2), and one past it. */
    octets[65534] = 0;
    reads(octets, sizeof octets, 65534, NAME(""), 65535, 0);
    REFUSES(DNSNAMES_SHORT_INPUT, read_in(octets, sizeof octets, 65535, 255, 255));
    octets[65533] = 0xff;
    octets[65534] = 0xff; /* to 16,383 */
    reads(octets, sizeof octets, 65533, NAME(""), 65535, 0);
}

static void checking(void)
{
    CHECK(dnsnames_check(NAME("")) == DNSNAMES_OK);
    CHECK(dnsnames_check(NAME("\3www\7example\3com")) == DNSNAMES_OK);
    CHECK(dnsnames_check(OCTETS(""), 0) == DNSNAMES_SHORT_INPUT);
    CHECK(dnsnames_check(SPELLED("\3www\7example\3com")) == DNSNAMES_RELATIVE);
    CHECK(dnsnames_check(SPELLED("\3ww")) == DNSNAMES_SHORT_INPUT);
    CHECK(dnsnames_check(SPELLED("\3www\7exa")) == DNSNAMES_SHORT_INPUT);
    CHECK(dnsnames_check(NAME("\3www\0")) == DNSNAMES_TRAILING_DATA);
    CHECK(dnsnames_check(NAME("\0")) == DNSNAMES_TRAILING_DATA);
    CHECK(dnsnames_check(NAME("\300")) == DNSNAMES_COMPRESSED);
    CHECK(dnsnames_check(NAME("\3www\300")) == DNSNAMES_COMPRESSED);
    CHECK(dnsnames_check(SPELLED("\300")) == DNSNAMES_SHORT_INPUT);
    CHECK(dnsnames_check(SPELLED("\100")) == DNSNAMES_LABEL_TYPE);
    CHECK(dnsnames_check(SPELLED("\277")) == DNSNAMES_LABEL_TYPE);

    CHECK(dnsnames_check_relative(OCTETS(""), 0) == DNSNAMES_OK);
    CHECK(dnsnames_check_relative(SPELLED("\3www\7example")) == DNSNAMES_OK);
    CHECK(dnsnames_check_relative(NAME("\3www")) == DNSNAMES_ABSOLUTE);
    CHECK(dnsnames_check_relative(NAME("")) == DNSNAMES_ABSOLUTE);
    CHECK(dnsnames_check_relative(SPELLED("\3www\7exa")) == DNSNAMES_SHORT_INPUT);
    CHECK(dnsnames_check_relative(SPELLED("\3www\300\0")) == DNSNAMES_COMPRESSED);
    CHECK(dnsnames_check_relative(SPELLED("\3www\200")) == DNSNAMES_LABEL_TYPE);
}

static void spells(const uint8_t *text, size_t text_len, const uint8_t *name, size_t name_len)
{
    size_t capacity;

    for (capacity = 0; capacity < name_len; capacity++) {
        mark();
        CHECK(dnsnames_from_text(text, text_len, buffer, capacity, &length) == DNSNAMES_NO_ROOM);
        CHECK(length == name_len && holds(name, 0));
    }
    mark();
    CHECK(dnsnames_from_text(text, text_len, buffer, name_len, &length) == DNSNAMES_OK);
    CHECK(length == name_len && holds(name, name_len));
}

static void is_shown(const uint8_t *name, size_t name_len, uint32_t dot, const uint8_t *text, size_t text_len)
{
    size_t capacity;

    for (capacity = 0; capacity < text_len; capacity++) {
        mark();
        CHECK(dnsnames_to_text(name, name_len, dot, buffer, capacity, &length) == DNSNAMES_NO_ROOM);
        CHECK(length == text_len && holds(text, 0));
    }
    mark();
    CHECK(dnsnames_to_text(name, name_len, dot, buffer, text_len, &length) == DNSNAMES_OK);
    CHECK(length == text_len && holds(text, text_len));
    /* With room for it a zero octet follows, and nothing else. */
    CHECK(dnsnames_to_text(name, name_len, dot, buffer, sizeof buffer, &length) == DNSNAMES_OK);
    CHECK(length == text_len && buffer[text_len] == 0);
    buffer[text_len] = 0x5a;
    CHECK(holds(text, text_len));
}

static uint32_t from(const uint8_t *text, size_t text_len)
{
    return dnsnames_from_text(text, text_len, buffer, 255, &length);
}

#define SIXTEEN "0123456789abcdef"
#define LABEL_OF_63 SIXTEEN SIXTEEN SIXTEEN "0123456789abcde"

static void texts(void)
{
    spells(SPELLED("www.example.com"), NAME("\3www\7example\3com"));
    spells(SPELLED("www.example.com."), NAME("\3www\7example\3com"));
    spells(SPELLED("."), NAME(""));
    spells(SPELLED("a\\.b.c"), NAME("\3a.b\1c"));
    spells(SPELLED("\\007\\255\\000"), NAME("\3\7\377\0"));
    spells(SPELLED("a\\[b"), NAME("\3a[b"));
    spells(SPELLED("[x]"), NAME("\3[x]"));
    spells(SPELLED("\\ \\\\ \""), NAME("\4 \\ \""));
    spells(SPELLED(LABEL_OF_63), NAME("\77" LABEL_OF_63));

    is_shown(NAME("\3www\7example\3com"), 1, SPELLED("www.example.com."));
    is_shown(NAME("\3www\7example\3com"), 0, SPELLED("www.example.com"));
    is_shown(NAME(""), 0, SPELLED("."));
    is_shown(NAME(""), 1, SPELLED("."));
    is_shown(NAME("\3a.b\1\7"), 1, SPELLED("a\\.b.\\007."));
    is_shown(NAME("\4\\ \0\177"), 0, SPELLED("\\\\\\ \\000\\127"));
    is_shown(NAME("\3*@\""), 0, SPELLED("*@\""));

    REFUSES(DNSNAMES_SHORT_INPUT, from(OCTETS(""), 0));
    REFUSES(DNSNAMES_SHORT_INPUT, from(SPELLED("a\\")));
    REFUSES(DNSNAMES_SHORT_INPUT, from(SPELLED("a\\25")));
    REFUSES(DNSNAMES_BAD_ESCAPE, from(SPELLED("a\\25x")));
    REFUSES(DNSNAMES_BAD_ESCAPE, from(SPELLED("a\\256")));
    REFUSES(DNSNAMES_BAD_ESCAPE, from(SPELLED("a\\\n")));
    REFUSES(DNSNAMES_BAD_SYMBOL, from(SPELLED("a\nb")));
    REFUSES(DNSNAMES_BAD_SYMBOL, from(SPELLED("b\303\274cher"))); /* UTF-8, and no octet of a name */
    REFUSES(DNSNAMES_BAD_SYMBOL, from(SPELLED("a.\377")));        /* no UTF-8 */
    REFUSES(DNSNAMES_BAD_SYMBOL, from(SPELLED("a.\355\240\200"))); /* a surrogate */
    REFUSES(DNSNAMES_BAD_SYMBOL, from(NAME("a")));                 /* a zero octet */
    /* That a text is no UTF-8 is told before any other fault. */
    REFUSES(DNSNAMES_EMPTY_LABEL, from(SPELLED("..\303\274")));
    REFUSES(DNSNAMES_BAD_SYMBOL, from(SPELLED("..\303")));
    REFUSES(DNSNAMES_BAD_SYMBOL, from(SPELLED("..\355\240\200")));
    REFUSES(DNSNAMES_BAD_SYMBOL, from(SPELLED("..\364\220\200\200")));
    REFUSES(DNSNAMES_BAD_ESCAPE, from(SPELLED("\\\303\274")));
    REFUSES(DNSNAMES_BINARY_LABEL, from(SPELLED("\\[x01]")));
    REFUSES(DNSNAMES_BINARY_LABEL, from(SPELLED("a.\\[x01]")));
    REFUSES(DNSNAMES_LONG_LABEL, from(SPELLED(LABEL_OF_63 "f")));
    REFUSES(DNSNAMES_EMPTY_LABEL, from(SPELLED("a..b")));
    REFUSES(DNSNAMES_EMPTY_LABEL, from(SPELLED("..")));
    REFUSES(DNSNAMES_EMPTY_LABEL, from(SPELLED(".a")));
    REFUSES(DNSNAMES_LONG_NAME,
            from(SPELLED(LABEL_OF_63 "." LABEL_OF_63 "." LABEL_OF_63 "." LABEL_OF_63)));
    REFUSES(DNSNAMES_LONG_NAME,
            from(SPELLED(LABEL_OF_63 "." LABEL_OF_63 "." LABEL_OF_63 "." SIXTEEN SIXTEEN SIXTEEN "0123456789abcd")));
    CHECK(from(SPELLED(LABEL_OF_63 "." LABEL_OF_63 "." LABEL_OF_63 "." SIXTEEN SIXTEEN SIXTEEN "0123456789abc")) ==
          DNSNAMES_OK);
    CHECK(length == 255);
    REFUSES(DNSNAMES_NO_NAME, dnsnames_to_text(SPELLED("\3www"), 1, buffer, sizeof buffer, &length));
    REFUSES(DNSNAMES_NO_NAME, dnsnames_to_text(OCTETS(""), 0, 0, buffer, sizeof buffer, &length));
}

/* RFC 4034, 6.1, in order. */
static const char *const SORTED[] = {"example", "a.example", "yljkjljk.a.example", "Z.a.example", "zABC.a.EXAMPLE",
                                     "z.example", "\\001.z.example", "*.z.example", "\\200.z.example"};
enum { SORTED_LEN = sizeof SORTED / sizeof *SORTED };

/* The hashes are those that OpenSSL has of the octets under the key 0, 1, 2 and so on. */
static void hashing(void)
{
    uint8_t key[DNSNAMES_KEY_LEN], longest[DNSNAMES_MAX_LEN];
    uint64_t hash = 77, other = 77;
    size_t i;

    for (i = 0; i < sizeof key; i++)
        key[i] = (uint8_t)i;
    for (i = 0; i < sizeof longest; i++)
        longest[i] = i == 254 ? 0 : i % 2 == 0 ? 1 : 'a';
    CHECK(dnsnames_hash(key, NAME(""), &hash) == DNSNAMES_OK && hash == 0x74f839c593dc67fdu);
    CHECK(dnsnames_hash(key, NAME("\3www"), &hash) == DNSNAMES_OK && hash == 0x97a50a29856cbc4eu);
    CHECK(dnsnames_hash(key, NAME("\3WwW"), &other) == DNSNAMES_OK && hash == other);
    CHECK(dnsnames_hash(key, NAME("\3www\7EXAMPLE\3com"), &hash) == DNSNAMES_OK && hash == 0x5b0354ca837acfd7u);
    CHECK(dnsnames_hash(key, longest, sizeof longest, &hash) == DNSNAMES_OK && hash == 0x15499418958d68f8u);
    for (i = 0; i < sizeof longest; i++)
        longest[i] = longest[i] == 'a' ? 'A' : longest[i];
    CHECK(dnsnames_hash(key, longest, sizeof longest, &other) == DNSNAMES_OK && hash == other);
    for (i = 0; i < sizeof key; i++) {
        key[i] ^= 0x80;
        CHECK(dnsnames_hash(key, longest, sizeof longest, &hash) == DNSNAMES_OK && hash != other);
        key[i] ^= 0x80;
    }
    hash = 77;
    CHECK(dnsnames_hash(key, SPELLED("\3www"), &hash) == DNSNAMES_NO_NAME && hash == 77);
}

static void comparing(void)
{
    uint8_t names[SORTED_LEN][DNSNAMES_MAX_LEN];
    size_t lens[SORTED_LEN], i, k;
    int32_t order = 77;

    for (i = 0; i < SORTED_LEN; i++)
        CHECK(dnsnames_from_text(OCTETS(SORTED[i]), strlen(SORTED[i]), names[i], sizeof names[i], &lens[i]) ==
              DNSNAMES_OK);
    for (i = 0; i < SORTED_LEN; i++) {
        for (k = 0; k < SORTED_LEN; k++) {
            CHECK(dnsnames_compare(names[i], lens[i], names[k], lens[k], &order) == DNSNAMES_OK);
            CHECK(order == (i > k) - (i < k));
            CHECK(dnsnames_eq(names[i], lens[i], names[k], lens[k], &flag) == DNSNAMES_OK && flag == (i == k));
            CHECK(dnsnames_ends_with(names[i], lens[i], names[k], lens[k], &flag) == DNSNAMES_OK);
            CHECK(flag == (i == k || k == 0 || (k == 1 && i > 1 && i < 5) || (k == 5 && i > 5)));
        }
    }
    CHECK(dnsnames_eq(NAME("\3WWW\7Example"), NAME("\3www\7eXAMPLE"), &flag) == DNSNAMES_OK && flag == 1);
    CHECK(dnsnames_eq(NAME("\1@"), NAME("\1`"), &flag) == DNSNAMES_OK && flag == 0);
    CHECK(dnsnames_ends_with(NAME("\4wxyz"), NAME("\3xyz"), &flag) == DNSNAMES_OK && flag == 0);
    CHECK(dnsnames_ends_with(NAME("\4wxyz"), NAME(""), &flag) == DNSNAMES_OK && flag == 1);
    order = 77;
    REFUSES(DNSNAMES_NO_NAME, dnsnames_eq(NAME("\3www"), SPELLED("\3www"), &flag));
    REFUSES(DNSNAMES_NO_NAME, dnsnames_eq(OCTETS(""), 0, NAME(""), &flag));
    REFUSES(DNSNAMES_NO_NAME, dnsnames_ends_with(NAME("\3www"), SPELLED("\3www"), &flag));
    REFUSES(DNSNAMES_NO_NAME, dnsnames_ends_with(SPELLED("\3www"), NAME("\3www"), &flag));
    CHECK(dnsnames_compare(SPELLED("\3www"), NAME(""), &order) == DNSNAMES_NO_NAME && order == 77);
    CHECK(dnsnames_compare(NAME(""), OCTETS(""), 0, &order) == DNSNAMES_NO_NAME && order == 77);

    hashing();

    mark();
    CHECK(dnsnames_lower(NAME("\3WWW\4A-@["), buffer, 10, &length) == DNSNAMES_OK && length == 10);
    CHECK(holds(NAME("\3www\4a-@[")));
    for (i = 0; i < 10; i++) {
        mark();
        CHECK(dnsnames_lower(NAME("\3WWW\4A-@["), buffer, i, &length) == DNSNAMES_NO_ROOM && length == 10);
        CHECK(holds(OCTETS(""), 0));
    }
    REFUSES(DNSNAMES_NO_NAME, dnsnames_lower(SPELLED("\3WWW"), buffer, sizeof buffer, &length));
}

static void labels(void)
{
    static const size_t offsets[] = {0, 4, 12, 16};
    size_t i;

    CHECK(dnsnames_label_count(NAME("\3www\7example\3com"), &length) == DNSNAMES_OK && length == 4);
    CHECK(dnsnames_label_count(NAME(""), &length) == DNSNAMES_OK && length == 1);
    for (i = 0; i < 4; i++) {
        CHECK(dnsnames_label(NAME("\3www\7example\3com"), i, &offset) == DNSNAMES_OK && offset == offsets[i]);
        CHECK(dnsnames_label_back(NAME("\3www\7example\3com"), i, &offset) == DNSNAMES_OK && offset == offsets[3 - i]);
    }
    REFUSES(DNSNAMES_NO_LABEL, dnsnames_label(NAME("\3www\7example\3com"), 4, &offset));
    REFUSES(DNSNAMES_NO_LABEL, dnsnames_label(NAME("\3www\7example\3com"), SIZE_MAX, &offset));
    REFUSES(DNSNAMES_NO_LABEL, dnsnames_label_back(NAME("\3www\7example\3com"), 4, &offset));
    REFUSES(DNSNAMES_NO_LABEL, dnsnames_label_back(NAME("\3www\7example\3com"), SIZE_MAX, &offset));
    CHECK(dnsnames_parent(NAME("\3www\7example\3com"), &offset) == DNSNAMES_OK && offset == 4);
    CHECK(dnsnames_parent(NAME("\3com"), &offset) == DNSNAMES_OK && offset == 4);
    REFUSES(DNSNAMES_NO_LABEL, dnsnames_parent(NAME(""), &offset));
    REFUSES(DNSNAMES_NO_NAME, dnsnames_label_count(SPELLED("\3www"), &length));
    REFUSES(DNSNAMES_NO_NAME, dnsnames_label(SPELLED("\3www"), 0, &offset));
    REFUSES(DNSNAMES_NO_NAME, dnsnames_label_back(SPELLED("\3www"), 0, &offset));
    REFUSES(DNSNAMES_NO_NAME, dnsnames_parent(SPELLED("\3www"), &offset));
    REFUSES(DNSNAMES_NO_NAME, dnsnames_label(OCTETS(""), 0, 0, &offset));
}

static void messages(void)
{
    dnsnames_header_fields header = {77, 77, 77, 77, 77, 77};
    dnsnames_question_fields question = {77, 77, 77};
    dnsnames_record_fields record = {77, 77, 77, 77, 77, 77};
    size_t len;

    CHECK(dnsnames_header(RESPONSE, 11, &header) == DNSNAMES_SHORT_INPUT);
    CHECK(dnsnames_header(RESPONSE, 0, &header) == DNSNAMES_SHORT_INPUT);
    CHECK(header.id == 77 && header.flags == 77 && header.questions == 77 && header.answers == 77);
    CHECK(header.authority == 77 && header.additional == 77);
    CHECK(dnsnames_header(RESPONSE, 12, &header) == DNSNAMES_OK);
    CHECK(header.id == 0x1234 && header.flags == (DNSNAMES_FLAG_QR | DNSNAMES_FLAG_RD | DNSNAMES_FLAG_RA));
    CHECK(header.questions == 1 && header.answers == 2 && header.authority == 0 && header.additional == 1);

    for (len = QUESTION; len < CNAME; len++)
        CHECK(dnsnames_question(RESPONSE, len, QUESTION, &question) == DNSNAMES_SHORT_INPUT);
    CHECK(dnsnames_question(RESPONSE, RESPONSE_LEN, SIZE_MAX, &question) == DNSNAMES_SHORT_INPUT);
    CHECK(dnsnames_question(HOSTILE, HOSTILE_LEN, 10, &question) == DNSNAMES_LABEL_TYPE);
    CHECK(question.type == 77 && question.class_ == 77 && question.end == 77);
    CHECK(dnsnames_question(RESPONSE, CNAME, QUESTION, &question) == DNSNAMES_OK);
    CHECK(question.type == 1 && question.class_ == 1 && question.end == CNAME);

    for (len = CNAME; len < ADDRESS; len++)
        CHECK(dnsnames_record(RESPONSE, len, CNAME, &record) == DNSNAMES_SHORT_INPUT);
    CHECK(dnsnames_record(RESPONSE, RESPONSE_LEN, SIZE_MAX, &record) == DNSNAMES_SHORT_INPUT);
    CHECK(record.type == 77 && record.class_ == 77 && record.ttl == 77 && record.data == 77);
    CHECK(record.data_len == 77 && record.end == 77);
    CHECK(dnsnames_record(RESPONSE, ADDRESS, CNAME, &record) == DNSNAMES_OK);
    CHECK(record.type == 5 && record.class_ == 1 && record.ttl == 3600);
    CHECK(record.data == 45 && record.data_len == 7 && record.end == ADDRESS);
    reads(RESPONSE, RESPONSE_LEN, record.data, NAME("\4host\7example\3com"), record.data + record.data_len, 1);
    CHECK(dnsnames_record(RESPONSE, RESPONSE_LEN, ADDRESS, &record) == DNSNAMES_OK);
    CHECK(record.type == 1 && record.ttl == 60 && record.data_len == 4 && record.end == EMPTY);
    CHECK(memcmp(RESPONSE + record.data, "\300\0\2\1", 4) == 0);
    CHECK(dnsnames_record(RESPONSE, RESPONSE_LEN, EMPTY, &record) == DNSNAMES_OK);
    CHECK(record.type == 41 && record.class_ == 4096 && record.ttl == 0);
    CHECK(record.data == RESPONSE_LEN && record.data_len == 0 && record.end == RESPONSE_LEN);
}

/* All that a message has, in one call; and what is left of it where rows, names or octets end too soon. */
static void tables(void)
{
    static const uint32_t wanted[] = {
        0, 17, 1, 1, 0, CNAME, 0, CNAME,
        17, 17, 5, 1, 3600, 45, 7, ADDRESS,
        34, 18, 1, 1, 60, 64, 4, EMPTY,
        52, 1, 41, 4096, 0, RESPONSE_LEN, 0, RESPONSE_LEN,
    };
    static const uint8_t names[] = "\3www\7example\3com\0\3www\7example\3com\0\4host\7example\3com\0";
    static const size_t ends[] = {QUESTION, CNAME, ADDRESS, EMPTY, RESPONSE_LEN}, octets[] = {0, 17, 34, 52, 53};
    uint32_t rows[40];
    size_t rows_len = sizeof wanted / sizeof *wanted, capacity, count, len;
    uint8_t twisted[RESPONSE_LEN];

#define TABLE(octets, len, limit, rows_len, names_len) \
    dnsnames_table(octets, len, limit, rows, rows_len, buffer, names_len, &count, &length)
#define HAS(number)                                                                        \
    CHECK(count == (number) && length == octets[number]);                                  \
    CHECK(memcmp(rows, wanted, 32 * (number)) == 0 && rows[8 * (number)] == 0x5a5a5a5a);   \
    CHECK(holds(names, octets[number]))
#define MARK() (mark(), memset(rows, 0x5a, sizeof rows))

    MARK();
    CHECK(TABLE(RESPONSE, RESPONSE_LEN, 2, rows_len, octets[4]) == DNSNAMES_OK);
    HAS(4);
    for (len = 0; len < RESPONSE_LEN; len++) {
        MARK();
        CHECK(TABLE(RESPONSE, len, 255, 40, sizeof buffer) == DNSNAMES_SHORT_INPUT);
        for (capacity = 0; capacity < 4 && ends[capacity + 1] <= len; capacity++)
            ;
        HAS(capacity);
    }
    for (capacity = 0; capacity < rows_len; capacity++) {
        MARK();
        CHECK(TABLE(RESPONSE, RESPONSE_LEN, 255, capacity, sizeof buffer) == DNSNAMES_NO_ROOM);
        HAS(capacity / 8);
    }
    for (capacity = 0; capacity < octets[4]; capacity++) {
        MARK();
        CHECK(TABLE(RESPONSE, RESPONSE_LEN, 255, 40, capacity) == DNSNAMES_NO_ROOM);
        HAS(capacity < 17 ? 0u : capacity < 34 ? 1u : capacity < 52 ? 2u : 3u);
    }
    MARK();
    CHECK(TABLE(RESPONSE, RESPONSE_LEN, 1, 40, sizeof buffer) == DNSNAMES_TOO_MANY_POINTERS);
    HAS(2);
    /* A fault comes before a lack of room. */
    memcpy(twisted, RESPONSE, RESPONSE_LEN);
    twisted[ADDRESS] = 0x80;
    MARK();
    CHECK(TABLE(twisted, RESPONSE_LEN, 255, 16, sizeof buffer) == DNSNAMES_LABEL_TYPE);
    HAS(2);
#undef MARK
#undef HAS
#undef TABLE
}

static uint32_t name_in(const uint8_t *message, size_t len, size_t data, size_t data_len, uint16_t type, size_t index,
                        size_t capacity)
{
    return dnsnames_data_name(message, len, data, data_len, type, index, buffer, capacity, &length);
}

/* The name in data from an offset on, so many octets, of this type. */
static void has_name(const uint8_t *message, size_t len, size_t data, size_t data_len, uint16_t type, size_t index,
                     const uint8_t *name, size_t name_len)
{
    size_t capacity;

    for (capacity = 0; capacity < name_len; capacity++) {
        mark();
        CHECK(name_in(message, len, data, data_len, type, index, capacity) == DNSNAMES_NO_ROOM);
        CHECK(length == name_len && holds(name, 0));
    }
    mark();
    CHECK(name_in(message, len, data, data_len, type, index, name_len) == DNSNAMES_OK);
    CHECK(length == name_len && holds(name, name_len));
}

static void names_in_data(void)
{
    /* com at 0, two octets, a.com and b.com at 7, and 20 octets. */
    static const uint8_t octets[] = "\3com\0\0\12\1a\300\0\1b\300\0" "12345678901234567890";
    static const uint16_t alone[] = {2, 3, 4, 5, 7, 8, 9, 12, 39}, after_two[] = {15, 18, 21, 36};
    static const uint16_t none[] = {0, 1, 10, 11, 13, 16, 28, 41, 43, 257, 65535};
    size_t i, all = sizeof octets - 1;

    for (i = 0; i < sizeof alone / sizeof *alone; i++) {
        has_name(octets, all, 7, 4, alone[i], 0, NAME("\1a\3com"));
        REFUSES(DNSNAMES_NO_FIELD, name_in(octets, all, 7, 4, alone[i], 1, 255));
        REFUSES(DNSNAMES_NO_FIELD, name_in(octets, all, 7, 4, alone[i], SIZE_MAX, 255));
    }
    for (i = 0; i < sizeof after_two / sizeof *after_two; i++)
        has_name(octets, all, 5, 6, after_two[i], 0, NAME("\1a\3com"));
    has_name(octets, all, 1, 10, 33, 0, NAME("\1a\3com"));
    has_name(octets, all, 5, 6, 107, 0, NAME("\1a\3com"));
    has_name(octets, all, 7, 8, 58, 1, NAME("\1b\3com"));
    has_name(octets, all, 7, 8, 14, 0, NAME("\1a\3com"));
    has_name(octets, all, 7, 8, 17, 1, NAME("\1b\3com"));
    has_name(octets, all, 5, 10, 26, 1, NAME("\1b\3com"));
    has_name(octets, all, 7, 28, 6, 0, NAME("\1a\3com"));
    has_name(octets, all, 7, 28, 6, 1, NAME("\1b\3com"));
    has_name(RESPONSE, RESPONSE_LEN, 45, 7, 5, 0, NAME("\4host\7example\3com"));
    for (i = 0; i < sizeof none / sizeof *none; i++)
        REFUSES(DNSNAMES_NO_FIELD, name_in(octets, all, 7, 4, none[i], 0, 255));

    /* The name goes on after the data, or what follows it does; the data go on after them. */
    for (i = 0; i < 4; i++)
        REFUSES(DNSNAMES_SHORT_INPUT, name_in(octets, all, 7, i, 5, 0, 255));
    for (i = 0; i < 6; i++)
        REFUSES(DNSNAMES_SHORT_INPUT, name_in(octets, all, 5, i, 15, 0, 255));
    for (i = 0; i < 28; i++)
        REFUSES(DNSNAMES_SHORT_INPUT, name_in(octets, all, 7, i, 6, 0, 255));
    for (i = 5; i <= all - 7; i++)
        REFUSES(DNSNAMES_TRAILING_DATA, name_in(octets, all, 7, i, 5, 0, 255));
    /* The data end past the message. */
    REFUSES(DNSNAMES_SHORT_INPUT, name_in(octets, 10, 7, 4, 5, 0, 255));
    REFUSES(DNSNAMES_SHORT_INPUT, name_in(octets, all, all + 1, 0, 5, 0, 255));
    REFUSES(DNSNAMES_SHORT_INPUT, name_in(octets, all, SIZE_MAX, 4, 5, 0, 255));
    REFUSES(DNSNAMES_SHORT_INPUT, name_in(octets, all, 7, SIZE_MAX, 5, 0, 255));
    REFUSES(DNSNAMES_SHORT_INPUT, name_in(octets, all, SIZE_MAX, SIZE_MAX, 33, 0, 255));

    REFUSES(DNSNAMES_TOO_MANY_POINTERS, name_in(HOSTILE, HOSTILE_LEN, 0, 2, 5, 0, 255));
    REFUSES(DNSNAMES_LONG_NAME, name_in(HOSTILE, HOSTILE_LEN, 6, 4, 5, 0, 255));
    REFUSES(DNSNAMES_LABEL_TYPE, name_in(HOSTILE, HOSTILE_LEN, 10, 2, 5, 0, 255));
    /* The second name is read, too, where the first is asked for. */
    REFUSES(DNSNAMES_TOO_MANY_POINTERS, name_in(OCTETS("\1a\0\300\3"), 5, 0, 5, 14, 0, 255));
}

/* The number in data from an offset on, so many octets, of this type. */
static uint32_t number_in(const uint8_t *message, size_t len, size_t data, size_t data_len, uint16_t type, size_t index)
{
    return dnsnames_data_number(message, len, data, data_len, type, index, &flag);
}

static void has_number(const uint8_t *message, size_t len, size_t data, size_t data_len, uint16_t type, size_t index,
                       uint32_t number)
{
    size_t less;

    mark();
    CHECK(number_in(message, len, data, data_len, type, index) == DNSNAMES_OK && flag == number);
    for (less = 0; less < data_len; less++)
        REFUSES(DNSNAMES_SHORT_INPUT, number_in(message, len, data, less, type, index));
}

static void numbers_in_data(void)
{
    /* com at 0, five numbers at 5, a.com and b.com at 13, and the numbers of the SOA record of RFC 1035, 5.3. */
    static const uint8_t octets[] = "\3com\0" "\0\1\377\376\0\65\0\12" "\1a\300\0" "\1b\300\0"
                                    "\0\0\0\24" "\0\0\34\40" "\0\0\2\130" "\0\66\356\200" "\0\0\0\74" "\0";
    static const uint16_t preferred[] = {15, 18, 21, 36}, none[] = {0, 1, 2, 5, 12, 13, 14, 16, 17, 28, 39, 41, 108, 109, 65535};
    static const uint32_t times[] = {20, 7200, 600, 3600000, 60};
    size_t i, all = sizeof octets - 1;

    for (i = 0; i < sizeof preferred / sizeof *preferred; i++) {
        has_number(octets, all, 11, 6, preferred[i], DNSNAMES_PREFERENCE, 10);
        REFUSES(DNSNAMES_NO_FIELD, number_in(octets, all, 11, 6, preferred[i], 1));
        REFUSES(DNSNAMES_NO_FIELD, number_in(octets, all, 11, 6, preferred[i], SIZE_MAX));
    }
    has_number(octets, all, 11, 10, 26, DNSNAMES_PREFERENCE, 10);
    has_number(octets, all, 7, 10, 33, DNSNAMES_PRIORITY, 65534);
    has_number(octets, all, 7, 10, 33, DNSNAMES_WEIGHT, 53);
    has_number(octets, all, 7, 10, 33, DNSNAMES_PORT, 10);
    REFUSES(DNSNAMES_NO_FIELD, number_in(octets, all, 7, 10, 33, 3));
    for (i = 0; i < 5; i++)
        has_number(octets, all, 13, 28, 6, i, times[i]);
    REFUSES(DNSNAMES_NO_FIELD, number_in(octets, all, 13, 28, 6, 5));
    for (i = 0; i < sizeof none / sizeof *none; i++)
        REFUSES(DNSNAMES_NO_FIELD, number_in(octets, all, 13, 4, none[i], 0));
    /* L64 has a number of 16 bits, and one of 64, which isn't given. */
    has_number(octets, all, 5, 10, 106, 0, 1);
    REFUSES(DNSNAMES_NO_FIELD, number_in(octets, all, 5, 10, 106, 1));
    REFUSES(DNSNAMES_TRAILING_DATA, number_in(octets, all, 13, 29, 6, 0));
    REFUSES(DNSNAMES_TRAILING_DATA, number_in(octets, all, 11, 7, 15, 0));
    REFUSES(DNSNAMES_SHORT_INPUT, number_in(octets, 16, 11, 6, 15, 0));
    REFUSES(DNSNAMES_SHORT_INPUT, number_in(octets, all, SIZE_MAX, SIZE_MAX, 15, 0));
    REFUSES(DNSNAMES_LABEL_TYPE, number_in(HOSTILE, HOSTILE_LEN, 8, 6, 15, 0));
}

static uint32_t address_in(const uint8_t *message, size_t len, size_t data, size_t data_len, uint16_t type,
                           size_t capacity)
{
    return dnsnames_data_address(message, len, data, data_len, type, buffer, capacity, &length);
}

static void addresses_in_data(void)
{
    /* 192.0.2.1 and 2001:db8::1 (RFC 5737, 3; RFC 3849, 4). */
    static const uint8_t octets[] = "\300\0\2\1" "\40\1\15\270\0\0\0\0\0\0\0\0\0\0\0\1" "\0";
    size_t i;

    mark();
    CHECK(address_in(octets, 20, 0, 4, DNSNAMES_TYPE_A, 4) == DNSNAMES_OK && length == 4 && holds(octets, 4));
    mark();
    CHECK(address_in(octets, 20, 4, 16, DNSNAMES_TYPE_AAAA, 16) == DNSNAMES_OK && length == 16);
    CHECK(holds(octets + 4, 16));
    mark();
    CHECK(address_in(octets, 20, 4, 16, DNSNAMES_TYPE_AAAA, 15) == DNSNAMES_NO_ROOM && length == 16 && holds(octets, 0));
    for (i = 0; i < 16; i++)
        REFUSES(DNSNAMES_SHORT_INPUT, address_in(octets, 20, 4, i, DNSNAMES_TYPE_AAAA, 16));
    for (i = 0; i < 4; i++)
        REFUSES(DNSNAMES_SHORT_INPUT, address_in(octets, 20, 0, i, DNSNAMES_TYPE_A, 16));
    REFUSES(DNSNAMES_TRAILING_DATA, address_in(octets, 20, 0, 5, DNSNAMES_TYPE_A, 16));
    REFUSES(DNSNAMES_TRAILING_DATA, address_in(octets, 21, 4, 17, DNSNAMES_TYPE_AAAA, 16));
    REFUSES(DNSNAMES_SHORT_INPUT, address_in(octets, 19, 4, 16, DNSNAMES_TYPE_AAAA, 16));
    REFUSES(DNSNAMES_SHORT_INPUT, address_in(octets, 20, SIZE_MAX, 4, DNSNAMES_TYPE_A, 16));
    REFUSES(DNSNAMES_NO_FIELD, address_in(octets, 20, 0, 4, DNSNAMES_TYPE_NS, 16));
    /* L32 has a number before its address. */
    mark();
    CHECK(address_in(octets, 20, 0, 6, 105, 16) == DNSNAMES_OK && length == 4 && holds(octets + 2, 4));
}

/* Data behind the name a.b., at 5: to these and to its root lead pointers to 0 and 4. */
#define DATA(text) OCTETS("\1a\1b\0" text), sizeof("\1a\1b\0" text) - 1

static dnsnames_field field;

/* The field with `index` fields before it in all octets from 5 on. */
static uint32_t field_in(const uint8_t *message, size_t len, uint16_t type, uint16_t class_, size_t index)
{
    return dnsnames_data_field(message, len, 5, len - 5, type, class_, index, &field);
}

/* The fields of such data: for each its kind, its end and its number. */
struct told {
    uint32_t kind;
    size_t end;
    uint64_t number;
};

static void has_fields(const uint8_t *message, size_t len, uint16_t type, uint16_t class_, const struct told *fields,
                       size_t count)
{
    size_t i, begin = 5;

    for (i = 0; i < count; i++) {
        memset(&field, 0x5a, sizeof field);
        CHECK(field_in(message, len, type, class_, i) == DNSNAMES_OK);
        CHECK(field.kind == fields[i].kind && field.begin == begin && field.end == fields[i].end);
        CHECK(field.number == fields[i].number);
        begin = fields[i].end;
    }
    CHECK(begin == len);
    for (i = count; i < count + 2; i++)
        CHECK(field_in(message, len, type, class_, i) == DNSNAMES_NO_MORE && field.end == len);
    CHECK(field_in(message, len, type, class_, SIZE_MAX) == DNSNAMES_NO_MORE && field.end == len);
}

/* Such data are refused, whichever field is asked for, and nothing is changed. */
static void has_fault(uint32_t status, const uint8_t *message, size_t len, uint16_t type)
{
    size_t i;

    for (i = 0; i < 12; i++) {
        field.kind = 77;
        field.number = field.begin = field.end = 77;
        CHECK(field_in(message, len, type, DNSNAMES_CLASS_IN, i) == status);
        CHECK(field.kind == 77 && field.begin == 77 && field.end == 77 && field.number == 77);
    }
}

#define HAS_FIELDS(data, type, class_, ...)                                             \
    do {                                                                                \
        static const struct told fields[] = {__VA_ARGS__};                              \
        has_fields(data, type, class_, fields, sizeof fields / sizeof *fields);         \
    } while (0)

static void fields_in_data(void)
{
    size_t i;

    HAS_FIELDS(DATA("\300\0\2\1"), DNSNAMES_TYPE_A, 1, {DNSNAMES_FIELD_IPV4, 9, 0});
    HAS_FIELDS(DATA("\0\12\1m\300\0"), DNSNAMES_TYPE_MX, 1, {DNSNAMES_FIELD_NUMBER16, 7, 10}, {DNSNAMES_FIELD_NAME, 11, 0});
    /* MX is of every class (RFC 1035, 3.3), SRV of class IN alone (RFC 2782). */
    HAS_FIELDS(DATA("\0\12\1m\300\0"), DNSNAMES_TYPE_MX, 3, {DNSNAMES_FIELD_NUMBER16, 7, 10}, {DNSNAMES_FIELD_NAME, 11, 0});
    HAS_FIELDS(DATA("\0\1\0\2\377\376\300\2"), DNSNAMES_TYPE_SRV, 1, {DNSNAMES_FIELD_NUMBER16, 7, 1},
               {DNSNAMES_FIELD_NUMBER16, 9, 2}, {DNSNAMES_FIELD_NUMBER16, 11, 65534}, {DNSNAMES_FIELD_NAME, 13, 0});
    HAS_FIELDS(DATA("\0\1\0\2\377\376\300\2"), DNSNAMES_TYPE_SRV, 3, {DNSNAMES_FIELD_OCTETS, 13, 0});
    HAS_FIELDS(DATA("\300\0\300\2\0\0\0\24\0\0\34\40\0\0\2\130\0\66\356\200\0\0\0\74"), DNSNAMES_TYPE_SOA, 1,
               {DNSNAMES_FIELD_NAME, 7, 0}, {DNSNAMES_FIELD_NAME, 9, 0}, {DNSNAMES_FIELD_SERIAL, 13, 20},
               {DNSNAMES_FIELD_TTL, 17, 7200}, {DNSNAMES_FIELD_TTL, 21, 600}, {DNSNAMES_FIELD_TTL, 25, 3600000},
               {DNSNAMES_FIELD_TTL, 29, 60});
    /* Salt aabb, a hash of two octets, and the types A and MX. */
    HAS_FIELDS(DATA("\1\0\0\14\2\252\273\2xy\0\2\100\1"), DNSNAMES_TYPE_NSEC3, 1, {DNSNAMES_FIELD_NUMBER8, 6, 1},
               {DNSNAMES_FIELD_NUMBER8, 7, 0}, {DNSNAMES_FIELD_NUMBER16, 9, 12}, {DNSNAMES_FIELD_COUNTED_BASE16, 12, 0},
               {DNSNAMES_FIELD_COUNTED_BASE32, 15, 0}, {DNSNAMES_FIELD_OPTIONAL_TYPE_BITMAPS, 19, 0});
    HAS_FIELDS(DATA("\0\61\10\2\0\1\121\200\177\377\377\377\200\0\0\0\60\71\300\0sig"), DNSNAMES_TYPE_RRSIG, 1,
               {DNSNAMES_FIELD_TYPE, 7, 49}, {DNSNAMES_FIELD_NUMBER8, 8, 8}, {DNSNAMES_FIELD_NUMBER8, 9, 2},
               {DNSNAMES_FIELD_TTL, 13, 86400}, {DNSNAMES_FIELD_TIME, 17, 2147483647}, {DNSNAMES_FIELD_TIME, 21, 2147483648},
               {DNSNAMES_FIELD_NUMBER16, 23, 12345}, {DNSNAMES_FIELD_NAME, 25, 0}, {DNSNAMES_FIELD_BASE64, 28, 0});
    HAS_FIELDS(DATA("\200\5issueca.b"), DNSNAMES_TYPE_CAA, 1, {DNSNAMES_FIELD_NUMBER8, 6, 128}, {DNSNAMES_FIELD_TAG, 12, 0},
               {DNSNAMES_FIELD_QUOTED_TEXT, 16, 0});
    HAS_FIELDS(DATA("\0\1\0\2\1S\0\2!!\0"), DNSNAMES_TYPE_NAPTR, 1, {DNSNAMES_FIELD_NUMBER16, 7, 1},
               {DNSNAMES_FIELD_NUMBER16, 9, 2}, {DNSNAMES_FIELD_CHAR_STRING, 11, 0}, {DNSNAMES_FIELD_CHAR_STRING, 12, 0},
               {DNSNAMES_FIELD_CHAR_STRING, 15, 0}, {DNSNAMES_FIELD_NAME, 16, 0});
    HAS_FIELDS(DATA("\0\1\0\0\1\0\3\2h2\0\3\0\2\1\273"), DNSNAMES_TYPE_SVCB, 1, {DNSNAMES_FIELD_NUMBER16, 7, 1},
               {DNSNAMES_FIELD_NAME, 8, 0}, {DNSNAMES_FIELD_SVC_PARAMS, 21, 0});
    HAS_FIELDS(DATA("\3abc\0"), DNSNAMES_TYPE_TXT, 1, {DNSNAMES_FIELD_CHAR_STRINGS, 10, 0});
    HAS_FIELDS(DATA("\1a"), 20, 1, {DNSNAMES_FIELD_CHAR_STRING, 7, 0}, {DNSNAMES_FIELD_OPTIONAL_STRING, 7, 0});
    HAS_FIELDS(DATA("\0\1\0\1\2\3\4\5\6\7"), 106, 1, {DNSNAMES_FIELD_NUMBER16, 7, 1},
               {DNSNAMES_FIELD_NUMBER64, 15, 0x0001020304050607});
    HAS_FIELDS(DATA("\377\1\2\3\4\5"), 108, 1, {DNSNAMES_FIELD_NUMBER48, 11, 0xff0102030405});
    /* Types of which nothing is known, and no octet at all. */
    HAS_FIELDS(DATA("abc"), 65535, 1, {DNSNAMES_FIELD_OCTETS, 8, 0});
    HAS_FIELDS(DATA(""), 10, 1, {DNSNAMES_FIELD_OCTETS, 5, 0});

    has_fault(DNSNAMES_SHORT_INPUT, DATA("\0"), DNSNAMES_TYPE_MX);
    has_fault(DNSNAMES_SHORT_INPUT, DATA("\0\1"), DNSNAMES_TYPE_MX);
    has_fault(DNSNAMES_TRAILING_DATA, DATA("\0\1\0\0"), DNSNAMES_TYPE_MX);
    has_fault(DNSNAMES_LABEL_TYPE, DATA("\0\1\100"), DNSNAMES_TYPE_MX);
    has_fault(DNSNAMES_TOO_MANY_POINTERS, DATA("\0\1\300\7"), DNSNAMES_TYPE_MX);
    has_fault(DNSNAMES_LONG_NAME, DATA("\0\1\1a\300\7"), DNSNAMES_TYPE_MX);
    has_fault(DNSNAMES_BAD_TAG, DATA("\0\0value"), DNSNAMES_TYPE_CAA);
    has_fault(DNSNAMES_BAD_TAG, DATA("\0\1-value"), DNSNAMES_TYPE_CAA);
    has_fault(DNSNAMES_SHORT_INPUT, DATA("\0\7issue"), DNSNAMES_TYPE_CAA);
    has_fault(DNSNAMES_EMPTY_HASH, DATA("\1\0\0\14\0\0\0\1\100"), DNSNAMES_TYPE_NSEC3);
    has_fault(DNSNAMES_WINDOW_ORDER, DATA("\0\1\1\100\1\1\100"), DNSNAMES_TYPE_NSEC);
    has_fault(DNSNAMES_WINDOW_ORDER, DATA("\0\1\1\100\0\0"), DNSNAMES_TYPE_NSEC);
    has_fault(DNSNAMES_BITMAP_LENGTH, DATA("\0\0\0"), DNSNAMES_TYPE_NSEC);
    has_fault(DNSNAMES_BITMAP_LENGTH, DATA("\0\0\41"), DNSNAMES_TYPE_NSEC);
    has_fault(DNSNAMES_SHORT_INPUT, DATA("\0"), DNSNAMES_TYPE_NSEC);
    has_fault(DNSNAMES_KEY_ORDER, DATA("\0\1\0\0\3\0\2\1\273\0\1\0\3\2h2"), DNSNAMES_TYPE_HTTPS);
    has_fault(DNSNAMES_SHORT_INPUT, DATA("\0\1\0\0\3\0\3\1\273"), DNSNAMES_TYPE_HTTPS);
    has_fault(DNSNAMES_SHORT_INPUT, DATA(""), DNSNAMES_TYPE_TXT);
    /* The data end past the message. */
    for (i = 0; i < 3; i++) {
        static const size_t at[] = {6, 5, SIZE_MAX}, len[] = {4, SIZE_MAX, SIZE_MAX};
        CHECK(dnsnames_data_field(DATA("abcd"), at[i], len[i], 65535, 1, 0, &field) == DNSNAMES_SHORT_INPUT);
    }
    /* What follows the data isn't read. */
    CHECK(dnsnames_data_field(DATA("\0\1\1a\0"), 5, 4, 15, 1, 0, &field) == DNSNAMES_SHORT_INPUT);
}

static uint32_t string_in(const uint8_t *message, size_t len, size_t data, size_t data_len, uint16_t type)
{
    return dnsnames_data_string(message, len, data, data_len, type, &offset, &end, &length);
}

static void strings_in_data(void)
{
    /* An octet, and the strings "abc", "" and "d". */
    static const uint8_t octets[] = "\7" "\3abc" "\0" "\1d";
    size_t i, all = sizeof octets - 1;

    offset = 0;
    CHECK(string_in(octets, all, 1, 7, DNSNAMES_TYPE_TXT) == DNSNAMES_OK && offset == 4 && end == 2 && length == 3);
    CHECK(string_in(octets, all, 1, 7, DNSNAMES_TYPE_TXT) == DNSNAMES_OK && offset == 5 && end == 6 && length == 0);
    CHECK(string_in(octets, all, 1, 7, 99) == DNSNAMES_OK && offset == 7 && end == 7 && length == 1);
    CHECK(string_in(octets, all, 1, 7, DNSNAMES_TYPE_TXT) == DNSNAMES_NO_MORE && offset == 7 && length == 1);
    REFUSES(DNSNAMES_NO_MORE, string_in(octets, all, 1, 7, DNSNAMES_TYPE_TXT)); /* as many as 77 were passed */
    REFUSES(DNSNAMES_NO_FIELD, string_in(octets, all, 1, 7, DNSNAMES_TYPE_HINFO));
    offset = 0;
    CHECK(string_in(octets, all, 1, 7, 258) == DNSNAMES_OK && offset == 4);
    REFUSES(DNSNAMES_SHORT_INPUT, string_in(octets, all, 2, 7, DNSNAMES_TYPE_TXT));
    REFUSES(DNSNAMES_SHORT_INPUT, string_in(octets, all, SIZE_MAX, SIZE_MAX, DNSNAMES_TYPE_TXT));
    for (i = 0; i < 4; i++) {
        offset = 0;
        CHECK(string_in(octets, all, 1, i, DNSNAMES_TYPE_TXT) == DNSNAMES_SHORT_INPUT && offset == 0);
    }
    /* The second string ends past the data, though not past the message. */
    offset = 5;
    CHECK(string_in(octets, all, 1, 6, DNSNAMES_TYPE_TXT) == DNSNAMES_SHORT_INPUT && offset == 5);
}

static void opt_records(void)
{
    /* Code 10 with two octets, and code 65001 with none (RFC 6891, 6.1.2). */
    static const uint8_t octets[] = "\0\12\0\2xy" "\375\351\0\0" "\0";
    static dnsnames_opt_fields opt;
    uint16_t code = 0;
    size_t passed = 0, i;

    CHECK(dnsnames_opt(DNSNAMES_TYPE_OPT, 1232, 0x01028000, 0x8183, &opt) == DNSNAMES_OK);
    CHECK(opt.size == 1232 && opt.rcode == 19 && opt.version == 2 && opt.dnssec_ok == 1);
    CHECK(opt.flags == DNSNAMES_EDNS_FLAG_DO);
    CHECK(dnsnames_opt(DNSNAMES_TYPE_OPT, 511, 0x00007fff, 0, &opt) == DNSNAMES_OK);
    CHECK(opt.size == 512 && opt.rcode == 0 && opt.version == 0 && opt.dnssec_ok == 0 && opt.flags == 0x7fff);
    /* CO without DO (RFC 9824, 5.1). */
    CHECK(dnsnames_opt(DNSNAMES_TYPE_OPT, 511, 0x00004000, 0, &opt) == DNSNAMES_OK);
    CHECK(opt.flags == DNSNAMES_EDNS_FLAG_CO && opt.dnssec_ok == 0);
    /* The flags stand where no field of earlier versions was. */
    CHECK(sizeof opt == 12 && offsetof(dnsnames_opt_fields, dnssec_ok) == 8);
    CHECK(dnsnames_opt(DNSNAMES_TYPE_TXT, 1232, 0x01028000, 3, &opt) == DNSNAMES_NO_FIELD && opt.size == 512);

#define OPTION(len, data_len) dnsnames_data_option(octets, len, 0, data_len, DNSNAMES_TYPE_OPT, &passed, &code, &end, &length)
    CHECK(OPTION(10, 10) == DNSNAMES_OK && passed == 6 && code == 10 && end == 4 && length == 2);
    CHECK(OPTION(10, 10) == DNSNAMES_OK && passed == 10 && code == 65001 && end == 10 && length == 0);
    CHECK(OPTION(10, 10) == DNSNAMES_NO_MORE && passed == 10 && code == 65001);
    passed = 0;
    CHECK(OPTION(10, 0) == DNSNAMES_NO_MORE && OPTION(9, 10) == DNSNAMES_SHORT_INPUT && passed == 0);
    for (i = 1; i < 6; i++)
        CHECK(OPTION(10, i) == DNSNAMES_SHORT_INPUT && passed == 0);
    CHECK(dnsnames_data_option(octets, 10, 0, 10, 40, &passed, &code, &end, &length) == DNSNAMES_NO_FIELD);
    CHECK(passed == 0 && code == 65001);
#undef OPTION
}

/* An option is written after three octets, whatever is there, or not at all. */
#define APPENDS(call, octets, ...)                                                                      \
    do {                                                                                                \
        mark();                                                                                         \
        length = 3;                                                                                     \
        CHECK(call(buffer, sizeof buffer, &length, __VA_ARGS__) == DNSNAMES_OK);                        \
        CHECK(length == 2 + sizeof(octets) && memcmp(buffer + 3, octets, sizeof(octets) - 1) == 0);     \
        CHECK(buffer[2] == 0x5a && buffer[length] == 0x5a);                                             \
        APPENDS_NONE(DNSNAMES_NO_ROOM, call, 1 + sizeof(octets), __VA_ARGS__);                          \
        APPENDS_NONE(DNSNAMES_BAD_LENGTH, call, 2, __VA_ARGS__);                                        \
    } while (0)

#define APPENDS_NONE(status, call, capacity, ...)                                                       \
    do {                                                                                                \
        mark();                                                                                         \
        length = 3;                                                                                     \
        CHECK(call(buffer, capacity, &length, __VA_ARGS__) == (status));                                \
        CHECK(length == 3 && holds(OCTETS(""), 0));                                                     \
    } while (0)

static void options_by_name(void)
{
    /* RFC 9018, A.1: the cookies of a client and of a server. */
    static const uint8_t client[8] = {0x24, 0x64, 0xc4, 0xab, 0xcf, 0x10, 0xc9, 0x57};
    static const uint8_t server[33] = {0x01, 0, 0, 0, 0x5c, 0xf7, 0x9f, 0x11, 0x1f, 0x81, 0x30, 0xc3, 0xee, 0xe2, 0x94,
                                       0x80};
    /* RFC 7871, 12: 2001:0db8:fd13:4231:2112:8a2e:c37b:7334, of which 56 bits are encoded. */
    static const uint8_t ipv6[16] = {0x20, 0x01, 0x0d, 0xb8, 0xfd, 0x13, 0x42, 0x31, 0x21, 0x12, 0x8a, 0x2e, 0xc3, 0x7b,
                                     0x73, 0x34};
    static const uint8_t ipv4[4] = {192, 0, 2, 255};
    static const uint8_t zeros[65532];
    static uint8_t padded[65536];
    size_t k;

    APPENDS(dnsnames_append_option, "\0\3\0\0", DNSNAMES_OPTION_NSID, NULL, 0);
    APPENDS(dnsnames_append_option, "\375\351\0\2xy", 65001, OCTETS("xy"), 2);
    length = 0;
    CHECK(dnsnames_append_option(padded, sizeof padded, &length, DNSNAMES_OPTION_PADDING, zeros, 65532) ==
          DNSNAMES_NO_ROOM);
    CHECK(length == 0);
    CHECK(dnsnames_append_option(padded, sizeof padded, &length, DNSNAMES_OPTION_PADDING, zeros, 65531) ==
          DNSNAMES_OK);
    CHECK(length == 65535 && memcmp(padded, "\0\14\377\373", 4) == 0);
    CHECK(dnsnames_append_option(padded, sizeof padded, &length, DNSNAMES_OPTION_NSID, NULL, 0) == DNSNAMES_NO_ROOM);

    APPENDS(dnsnames_append_cookie, "\0\12\0\10" "\x24\x64\xc4\xab\xcf\x10\xc9\x57", client, NULL, 0);
    APPENDS(dnsnames_append_cookie, "\0\12\0\30" "\x24\x64\xc4\xab\xcf\x10\xc9\x57"
            "\1\0\0\0\x5c\xf7\x9f\x11\x1f\x81\x30\xc3\xee\xe2\x94\x80", client, server, 16);
    for (k = 1; k <= 33; k++)
        if (k < 8 || k > 32)
            APPENDS_NONE(DNSNAMES_BAD_FORM, dnsnames_append_cookie, 99, client, server, k);

    APPENDS(dnsnames_append_client_subnet, "\0\10\0\13" "\0\2\70\0" "\x20\x01\x0d\xb8\xfd\x13\x42", 2, 56, 0,
            ipv6, 16);
    APPENDS(dnsnames_append_client_subnet, "\0\10\0\10" "\0\1\37\30" "\300\0\2\376", 1, 31, 24, ipv4, 4);
    APPENDS(dnsnames_append_client_subnet, "\0\10\0\7" "\0\1\30\0" "\300\0\2", 1, 24, 0, ipv4, 3);
    APPENDS(dnsnames_append_client_subnet, "\0\10\0\4" "\0\0\0\0", 0, 0, 0, NULL, 0);
    APPENDS_NONE(DNSNAMES_BAD_FORM, dnsnames_append_client_subnet, 99, 3, 0, 0, ipv6, 16);
    APPENDS_NONE(DNSNAMES_BAD_FORM, dnsnames_append_client_subnet, 99, 0, 1, 0, ipv6, 16);
    APPENDS_NONE(DNSNAMES_BAD_FORM, dnsnames_append_client_subnet, 99, 1, 33, 0, ipv6, 16);
    APPENDS_NONE(DNSNAMES_BAD_FORM, dnsnames_append_client_subnet, 99, 2, 129, 0, ipv6, 16);
    APPENDS_NONE(DNSNAMES_SHORT_INPUT, dnsnames_append_client_subnet, 99, 1, 25, 0, ipv4, 3);

    APPENDS(dnsnames_append_extended_error, "\0\17\0\2" "\0\7", 7, NULL, 0);
    APPENDS(dnsnames_append_extended_error, "\0\17\0\4" "\0\26" "\303\251", 22, OCTETS("\303\251"), 2);
    APPENDS_NONE(DNSNAMES_BAD_SYMBOL, dnsnames_append_extended_error, 99, 22, OCTETS("\303"), 1);
}

/* Data of options, of which the first octets are read, and what is read of them. */
static void reading_options(void)
{
    /* 24 bits of 192.0.2.0, for an answer that is meant for 16. */
    static const uint8_t octets[41] = {0, 1, 24, 16, 192, 0, 2};
    uint8_t faulty[8] = {0, 1, 31, 0, 192, 0, 2, 1};
    dnsnames_subnet_fields subnet;
    uint16_t code;
    size_t k;

    for (k = 0; k <= 41; k++) {
        dnsnames_status status = k < 8 ? DNSNAMES_SHORT_INPUT
                                 : k == 8 || (k >= 16 && k <= 40) ? DNSNAMES_OK : DNSNAMES_BAD_FORM;
        length = 77;
        CHECK(dnsnames_cookie(octets, k, &length) == status && length == (status == DNSNAMES_OK ? k - 8 : 77));
    }
    memset(&subnet, 0x5a, sizeof subnet);
    for (k = 0; k < 7; k++)
        CHECK(dnsnames_client_subnet(octets, k, &subnet) == DNSNAMES_SHORT_INPUT && subnet.family == 0x5a5a);
    CHECK(dnsnames_client_subnet(octets, 8, &subnet) == DNSNAMES_BAD_FORM && subnet.family == 0x5a5a);
    CHECK(dnsnames_client_subnet(octets, 7, &subnet) == DNSNAMES_OK);
    CHECK(subnet.family == 1 && subnet.source_prefix_len == 24 && subnet.scope_prefix_len == 16);
    CHECK(dnsnames_client_subnet(faulty, 8, &subnet) == DNSNAMES_BAD_FORM && subnet.source_prefix_len == 24);
    faulty[2] = 32;
    CHECK(dnsnames_client_subnet(faulty, 8, &subnet) == DNSNAMES_OK && subnet.source_prefix_len == 32);
    faulty[1] = 3;
    CHECK(dnsnames_client_subnet(faulty, 8, &subnet) == DNSNAMES_BAD_FORM && subnet.family == 1);

    code = 77;
    CHECK(dnsnames_extended_error(octets, 1, &code) == DNSNAMES_SHORT_INPUT && code == 77);
    CHECK(dnsnames_extended_error(octets, 2, &code) == DNSNAMES_OK && code == 1);
    CHECK(dnsnames_extended_error(octets + 2, 5, &code) == DNSNAMES_OK && code == 0x1810);
}

static void answers_and_aliases(void)
{
    static const uint8_t QUERY[] = "\x12\x34\1\0\0\1\0\0\0\0\0\0\3WWW\7example\3COM\0\0\1\0\1";
    enum { QUERY_LEN = sizeof QUERY - 1 };
    uint8_t other[RESPONSE_LEN];
    size_t len, capacity;

    CHECK(dnsnames_is_answer(RESPONSE, RESPONSE_LEN, QUERY, QUERY_LEN, &flag) == DNSNAMES_OK && flag == 1);
    CHECK(dnsnames_is_answer(QUERY, QUERY_LEN, RESPONSE, RESPONSE_LEN, &flag) == DNSNAMES_OK && flag == 0);
    /* Not with another identifier, as no response, with another name, type or class, or with one question more. */
    for (len = 0; len < 6; len++) {
        static const size_t at[] = {1, 2, 5, 15, 30, 32};
        memcpy(other, RESPONSE, sizeof other);
        other[at[len]] ^= len == 1 ? 0x80 : 2;
        CHECK(dnsnames_is_answer(other, sizeof other, QUERY, QUERY_LEN, &flag) == DNSNAMES_OK && flag == 0);
    }
    for (len = 12; len < QUERY_LEN; len++)
        CHECK(dnsnames_is_answer(RESPONSE, RESPONSE_LEN, QUERY, len, &flag) == DNSNAMES_OK && flag == 0);
    for (len = 0; len < 12; len++) {
        REFUSES(DNSNAMES_SHORT_INPUT, dnsnames_is_answer(RESPONSE, len, QUERY, QUERY_LEN, &flag));
        REFUSES(DNSNAMES_SHORT_INPUT, dnsnames_is_answer(RESPONSE, RESPONSE_LEN, QUERY, len, &flag));
        REFUSES(DNSNAMES_SHORT_INPUT, dnsnames_canonical_name(RESPONSE, len, 16, buffer, sizeof buffer, &length));
    }

    for (capacity = 0; capacity < 18; capacity++) {
        mark();
        CHECK(dnsnames_canonical_name(RESPONSE, RESPONSE_LEN, 1, buffer, capacity, &length) == DNSNAMES_NO_ROOM);
        CHECK(length == 18 && holds(OCTETS(""), 0));
    }
    mark();
    CHECK(dnsnames_canonical_name(RESPONSE, RESPONSE_LEN, 1, buffer, 18, &length) == DNSNAMES_OK && length == 18);
    CHECK(holds(OCTETS("\4host\7example\3com"), 18));
    REFUSES(DNSNAMES_NO_END, dnsnames_canonical_name(RESPONSE, RESPONSE_LEN, 0, buffer, sizeof buffer, &length));
    mark();
    CHECK(dnsnames_canonical_name(QUERY, QUERY_LEN, 0, buffer, sizeof buffer, &length) == DNSNAMES_OK);
    CHECK(length == 17 && holds(OCTETS("\3WWW\7example\3COM"), 17));
    REFUSES(DNSNAMES_NO_END, dnsnames_canonical_name(QUERY, QUERY_LEN - 1, 16, buffer, sizeof buffer, &length));
    /* The alias leads back to its own owner. */
    memcpy(other, RESPONSE, sizeof other);
    memcpy(other + CNAME + 12, "\3www\300\020", 6);
    other[CNAME + 11] = 6;
    memmove(other + CNAME + 18, other + ADDRESS, RESPONSE_LEN - ADDRESS);
    REFUSES(DNSNAMES_NO_END, dnsnames_canonical_name(other, RESPONSE_LEN - 1, 65535, buffer, sizeof buffer, &length));
}

/* The response as dig writes it, with an OPT record at its end. */
static const char SHOWN[] =
    ";; opcode: QUERY, status: NOERROR, id: 4660\n"
    ";; flags: qr rd ra; QUESTION: 1, ANSWER: 2, AUTHORITY: 0, ADDITIONAL: 1\n"
    ";; QUESTION SECTION\n"
    "www.example.com. IN A\n"
    ";; ANSWER SECTION\n"
    "www.example.com. 3600 IN CNAME host.example.com.\n"
    "host.example.com. 60 IN A 192.0.2.1\n"
    ";; AUTHORITY SECTION\n"
    ";; ADDITIONAL SECTION\n"
    "; EDNS: version: 0, flags:; udp: 4096\n";
enum { SHOWN_LEN = sizeof SHOWN - 1 };

static void texts_of_messages(void)
{
    static const char LINE[] = "host.example.com. 60 IN A 192.0.2.1\n";
    static const char TRAILING[] = "; trailing octets: 1\n";
    uint8_t broken[RESPONSE_LEN], longer[RESPONSE_LEN + 1];
    size_t capacity, len;

    /* A room of each size: the beginning of the text, and what is behind the room as it was. */
    for (capacity = 0; capacity < SHOWN_LEN; capacity++) {
        mark();
        CHECK(dnsnames_message_text(RESPONSE, RESPONSE_LEN, buffer, capacity, &length) == DNSNAMES_NO_ROOM);
        CHECK(length == SHOWN_LEN && holds(OCTETS(SHOWN), capacity));
    }
    mark();
    CHECK(dnsnames_message_text(RESPONSE, RESPONSE_LEN, buffer, SHOWN_LEN, &length) == DNSNAMES_OK);
    CHECK(length == SHOWN_LEN && holds(OCTETS(SHOWN), SHOWN_LEN));
    mark();
    CHECK(dnsnames_message_text(RESPONSE, RESPONSE_LEN, buffer, sizeof buffer, &length) == DNSNAMES_OK);
    CHECK(length == SHOWN_LEN && holds(OCTETS(SHOWN), sizeof SHOWN)); /* with its zero octet */

    /* The message ends at each octet: the text is that of what stands before, with its zero octet. */
    for (len = 0; len < RESPONSE_LEN; len++) {
        mark();
        CHECK(dnsnames_message_text(RESPONSE, len, buffer, sizeof buffer, &length) == DNSNAMES_SHORT_INPUT);
        CHECK(length < SHOWN_LEN && memcmp(buffer, SHOWN, length) == 0 && buffer[length] == 0);
        CHECK(length == 0 ? len < 12 : buffer[length - 1] == '\n');
    }
    memcpy(broken, RESPONSE, sizeof broken);
    broken[ADDRESS] = 0x80;
    CHECK(dnsnames_message_text(broken, sizeof broken, buffer, sizeof buffer, &length) == DNSNAMES_BAD_FORM);
    CHECK(length == (size_t)(strstr(SHOWN, "host.example.com. 60") - SHOWN) && memcmp(buffer, SHOWN, length) == 0);

    /* An octet after the last record, and a name that begins with what begins a comment. */
    memcpy(longer, RESPONSE, sizeof broken);
    longer[RESPONSE_LEN] = 0;
    CHECK(dnsnames_message_text(longer, sizeof longer, buffer, sizeof buffer, &length) == DNSNAMES_OK);
    CHECK(length == SHOWN_LEN + sizeof TRAILING - 1 && memcmp(buffer, SHOWN, SHOWN_LEN) == 0);
    CHECK(strcmp((const char *)buffer + SHOWN_LEN, TRAILING) == 0);
    longer[13] = ';';
    CHECK(dnsnames_message_text(longer, RESPONSE_LEN, buffer, sizeof buffer, &length) == DNSNAMES_OK);
    CHECK(length == SHOWN_LEN + 2 && strstr((const char *)buffer, "\n\\;ww.example.com. IN A\n") != NULL);
    CHECK(strstr((const char *)buffer, "\n\\;ww.example.com. 3600 IN CNAME host.example.com.\n") != NULL);

    for (capacity = 0; capacity < sizeof LINE - 1; capacity++) {
        mark();
        CHECK(dnsnames_record_text(RESPONSE, RESPONSE_LEN, ADDRESS, buffer, capacity, &length) == DNSNAMES_NO_ROOM);
        CHECK(length == sizeof LINE - 1 && holds(OCTETS(LINE), capacity));
    }
    mark();
    CHECK(dnsnames_record_text(RESPONSE, RESPONSE_LEN, ADDRESS, buffer, sizeof buffer, &length) == DNSNAMES_OK);
    CHECK(length == sizeof LINE - 1 && holds(OCTETS(LINE), sizeof LINE));
    REFUSES(DNSNAMES_BAD_FORM, dnsnames_record_text(broken, sizeof broken, ADDRESS, buffer, sizeof buffer, &length));
    REFUSES(DNSNAMES_SHORT_INPUT, dnsnames_record_text(RESPONSE, EMPTY, ADDRESS + 1, buffer, sizeof buffer, &length));
    for (len = RESPONSE_LEN; len < RESPONSE_LEN + 3; len++)
        REFUSES(DNSNAMES_SHORT_INPUT,
                dnsnames_record_text(RESPONSE, RESPONSE_LEN, len, buffer, sizeof buffer, &length));
}

static void planning(void)
{
    static const uint8_t octets[] = "\0\0\0\0\0\0\0\0\0\0\0\0\003www\007example\003com";
    uint16_t table[DNSNAMES_MAX_TABLE + 1] = {12, 16, 24}, far[] = {16384}, to = 77;
    size_t begin = 77;

    CHECK(dnsnames_plan(octets, 29, table, 3, NAME("\4mail\7EXAMPLE\3com"), &begin, &to) == DNSNAMES_OK);
    CHECK(begin == 5 && to == 16);
    CHECK(dnsnames_plan(octets, 29, table, 3, NAME("\3www\7example\3com"), &begin, &to) == DNSNAMES_OK);
    CHECK(begin == 0 && to == 12);
    /* Of two offsets at which the end stands the first in the table. */
    {
        uint16_t twice[] = {24, 30, 16};
        CHECK(dnsnames_plan(OCTETS("\0\0\0\0\0\0\0\0\0\0\0\0\3www\7example\3com\0\1a\3COM\0"), 37, twice, 3,
                            NAME("\1b\3com"), &begin, &to) == DNSNAMES_OK && begin == 2 && to == 24);
        twice[0] = 31;
        twice[1] = 24;
        CHECK(dnsnames_plan(OCTETS("\0\0\0\0\0\0\0\0\0\0\0\0\3www\7example\3com\0\1a\3COM\0"), 37, twice, 3,
                            NAME("\1b\3com"), &begin, &to) == DNSNAMES_OK && begin == 2 && to == 31);
    }
    begin = to = 77;
    CHECK(dnsnames_plan(octets, 29, table, 0, NAME("\3www\7example\3com"), &begin, &to) == DNSNAMES_FLAT);
    CHECK(dnsnames_plan(octets, 0, table, 3, NAME("\3www\7example\3com"), &begin, &to) == DNSNAMES_FLAT);
    CHECK(dnsnames_plan(octets, 29, table, 3, NAME("\3org"), &begin, &to) == DNSNAMES_FLAT);
    CHECK(dnsnames_plan(octets, 29, table, 3, NAME(""), &begin, &to) == DNSNAMES_FLAT);
    CHECK(dnsnames_plan(octets, 29, table, DNSNAMES_MAX_TABLE + 1, NAME("\3com"), &begin, &to) == DNSNAMES_NO_TABLE);
    CHECK(dnsnames_plan(octets, 29, far, 1, NAME("\3com"), &begin, &to) == DNSNAMES_NO_TABLE);
    CHECK(dnsnames_plan(octets, 29, table, 3, SPELLED("\3com"), &begin, &to) == DNSNAMES_NO_NAME);
    CHECK(begin == 77 && to == 77);
}

static void appending(void)
{
    uint8_t octets[64] = {0};
    uint16_t table[DNSNAMES_MAX_TABLE] = {0};
    size_t octets_len = 12, table_len = 0;

#define APPEND(capacity, name) \
    dnsnames_append(octets, capacity, &octets_len, table, DNSNAMES_MAX_TABLE, &table_len, name)
    CHECK(APPEND(28, NAME("\3www\7example\3com")) == DNSNAMES_NO_ROOM);
    CHECK(APPEND(64, SPELLED("\3www")) == DNSNAMES_NO_NAME);
    CHECK(octets_len == 12 && table_len == 0 && octets[12] == 0 && table[0] == 0);
    CHECK(APPEND(29, NAME("\3www\7example\3com")) == DNSNAMES_OK);
    CHECK(octets_len == 29 && memcmp(octets + 12, "\3www\7example\3com", 17) == 0);
    CHECK(table_len == 3 && table[0] == 12 && table[1] == 16 && table[2] == 24);
    CHECK(APPEND(35, NAME("\4mail\7EXAMPLE\3com")) == DNSNAMES_NO_ROOM && octets_len == 29 && octets[29] == 0);
    CHECK(APPEND(36, NAME("\4mail\7EXAMPLE\3com")) == DNSNAMES_OK);
    CHECK(octets_len == 36 && memcmp(octets + 29, "\4mail\300\020", 7) == 0);
    CHECK(table_len == 4 && table[3] == 29);
    CHECK(APPEND(37, NAME("\4MAIL\7example\3com")) == DNSNAMES_NO_ROOM && octets_len == 36 && octets[36] == 0);
    CHECK(APPEND(38, NAME("\4MAIL\7example\3com")) == DNSNAMES_OK);
    CHECK(octets_len == 38 && memcmp(octets + 36, "\300\035", 2) == 0 && table_len == 4);
    CHECK(APPEND(38, NAME("")) == DNSNAMES_NO_ROOM && octets_len == 38);
    octets[38] = 9;
    CHECK(APPEND(39, NAME("")) == DNSNAMES_OK && octets_len == 39 && octets[38] == 0 && table_len == 4);
    reads(octets, octets_len, 29, NAME("\4mail\7example\3com"), 36, 1);
#undef APPEND

    /* Lengths that don't fit together, tables that are none. */
    table_len = DNSNAMES_MAX_TABLE + 1;
    CHECK(dnsnames_append(octets, 64, &octets_len, table, DNSNAMES_MAX_TABLE, &table_len, NAME("\3com")) ==
          DNSNAMES_BAD_LENGTH);
    table_len = 4;
    CHECK(dnsnames_append(octets, 64, &octets_len, table, 3, &table_len, NAME("\3com")) == DNSNAMES_BAD_LENGTH);
    CHECK(dnsnames_append(octets, 38, &octets_len, table, 4, &table_len, NAME("\3com")) == DNSNAMES_BAD_LENGTH);
    table[3] = 16384;
    CHECK(dnsnames_append(octets, 64, &octets_len, table, 4, &table_len, NAME("\3com")) == DNSNAMES_NO_TABLE);
    CHECK(octets_len == 39 && table_len == 4 && octets[39] == 0);
    table[3] = 29;
    /* A full table: the name is written, and its offsets are not kept. */
    CHECK(dnsnames_append(octets, 64, &octets_len, table, 4, &table_len, NAME("\3net")) == DNSNAMES_OK);
    CHECK(octets_len == 44 && table_len == 4);
    table_len = 0;
    CHECK(dnsnames_append(octets, 64, &octets_len, NULL, 0, &table_len, NAME("\3net")) == DNSNAMES_OK);
    CHECK(octets_len == 49 && table_len == 0);
}

/* A pointer has fourteen bits: labels past offset 16,383 are not kept. */
static void far_off(void)
{
    static uint8_t octets[17000];
    uint16_t table[DNSNAMES_MAX_TABLE] = {0};
    size_t octets_len = 16380, table_len = 0;

    CHECK(dnsnames_append(octets, sizeof octets, &octets_len, table, DNSNAMES_MAX_TABLE, &table_len,
                          NAME("\1a\1b\1c\1d")) == DNSNAMES_OK);
    CHECK(octets_len == 16389 && table_len == 2 && table[0] == 16380 && table[1] == 16382);
    CHECK(dnsnames_append(octets, sizeof octets, &octets_len, table, DNSNAMES_MAX_TABLE, &table_len,
                          NAME("\1x\1b\1c\1d")) == DNSNAMES_OK);
    CHECK(octets_len == 16393 && table_len == 2);
    CHECK(memcmp(octets + 16389, "\1x\377\376", 4) == 0);
}

typedef dnsnames_status text_call(uint16_t, uint8_t *, size_t, size_t *);
typedef dnsnames_status from_text_call(const uint8_t *, size_t, uint16_t *);

/* A number has this text, with each capacity; and the text, in any case, is that of the number. */
static void is_mnemonic(text_call *text_of, from_text_call *number_of, uint16_t number, const char *text)
{
    size_t len = strlen(text), capacity, i;
    uint8_t low[32];
    uint16_t found = 7;

    for (capacity = 0; capacity < len; capacity++) {
        mark();
        CHECK(text_of(number, buffer, capacity, &length) == DNSNAMES_NO_ROOM && length == len && holds(OCTETS(""), 0));
    }
    mark();
    CHECK(text_of(number, buffer, len, &length) == DNSNAMES_OK && length == len && holds(OCTETS(text), len));
    mark();
    CHECK(text_of(number, buffer, len + 1, &length) == DNSNAMES_OK && holds(OCTETS(text), len + 1));
    CHECK(number_of(OCTETS(text), len, &found) == DNSNAMES_OK && found == number);
    for (i = 0; i < len; i++)
        low[i] = (uint8_t)(text[i] >= 'A' && text[i] <= 'Z' ? text[i] + 32 : text[i]);
    found = 7;
    CHECK(number_of(low, len, &found) == DNSNAMES_OK && found == number);
}

static void names_nothing(from_text_call *number_of, const char *text)
{
    uint16_t found = 77;

    CHECK(number_of(OCTETS(text), strlen(text), &found) == DNSNAMES_NO_MNEMONIC && found == 77);
}

/* Each number below the bound has a text that is the number's, and no number past it is read. */
static void all_numbers(text_call *text_of, from_text_call *number_of, uint32_t bound)
{
    uint32_t number;
    uint16_t found;
    int same = 1;

    for (number = 0; number < 65536; number++) {
        if (text_of((uint16_t)number, buffer, DNSNAMES_MAX_MNEMONIC, &length) != DNSNAMES_OK || buffer[length] != 0) {
            same = 0;
            continue;
        }
        found = (uint16_t)~number;
        same &= (number_of(buffer, length, &found) == DNSNAMES_OK) == (number < bound) &&
                found == (uint16_t)(number < bound ? number : ~number);
    }
    CHECK(same);
}

static void mnemonics(void)
{
    uint16_t number = 7;

    is_mnemonic(dnsnames_type_text, dnsnames_type_from_text, DNSNAMES_TYPE_A, "A");
    is_mnemonic(dnsnames_type_text, dnsnames_type_from_text, DNSNAMES_TYPE_MX, "MX");
    is_mnemonic(dnsnames_type_text, dnsnames_type_from_text, 51, "NSEC3PARAM");
    is_mnemonic(dnsnames_type_text, dnsnames_type_from_text, 23, "NSAP-PTR");
    is_mnemonic(dnsnames_type_text, dnsnames_type_from_text, DNSNAMES_TYPE_ANY, "ANY");
    is_mnemonic(dnsnames_type_text, dnsnames_type_from_text, 65280, "TYPE65280");
    is_mnemonic(dnsnames_type_text, dnsnames_type_from_text, 0, "TYPE0");
    CHECK(dnsnames_type_from_text(SPELLED("TYPE15"), &number) == DNSNAMES_OK && number == 15);
    CHECK(dnsnames_type_from_text(SPELLED("*"), &number) == DNSNAMES_OK && number == 255);
    names_nothing(dnsnames_type_from_text, "");
    names_nothing(dnsnames_type_from_text, "MXX");
    names_nothing(dnsnames_type_from_text, " MX");
    names_nothing(dnsnames_type_from_text, "TYPE");
    names_nothing(dnsnames_type_from_text, "TYPE+1");
    names_nothing(dnsnames_type_from_text, "TYPE65536");
    names_nothing(dnsnames_type_from_text, "15");
    names_nothing(dnsnames_type_from_text, "\303\244");
    names_nothing(dnsnames_type_from_text, "MX\377");
    is_mnemonic(dnsnames_class_text, dnsnames_class_from_text, DNSNAMES_CLASS_IN, "IN");
    is_mnemonic(dnsnames_class_text, dnsnames_class_from_text, DNSNAMES_CLASS_NONE, "NONE");
    is_mnemonic(dnsnames_class_text, dnsnames_class_from_text, 65535, "CLASS65535");
    names_nothing(dnsnames_class_from_text, "TYPE1");
    is_mnemonic(dnsnames_opcode_text, dnsnames_opcode_from_text, DNSNAMES_OPCODE_NOTIFY, "NOTIFY");
    is_mnemonic(dnsnames_opcode_text, dnsnames_opcode_from_text, 15, "OPCODE15");
    names_nothing(dnsnames_opcode_from_text, "OPCODE16");
    is_mnemonic(dnsnames_rcode_text, dnsnames_rcode_from_text, DNSNAMES_RCODE_NXDOMAIN, "NXDOMAIN");
    is_mnemonic(dnsnames_rcode_text, dnsnames_rcode_from_text, DNSNAMES_RCODE_BADVERS, "BADVERS");
    is_mnemonic(dnsnames_rcode_text, dnsnames_rcode_from_text, 4095, "RCODE4095");
    names_nothing(dnsnames_rcode_from_text, "RCODE4096");
    all_numbers(dnsnames_type_text, dnsnames_type_from_text, 65536);
    all_numbers(dnsnames_class_text, dnsnames_class_from_text, 65536);
    all_numbers(dnsnames_opcode_text, dnsnames_opcode_from_text, 16);
    all_numbers(dnsnames_rcode_text, dnsnames_rcode_from_text, 4096);
}

/* A message is begun in the first octets of the buffer. */
static dnsnames_builder begun(size_t capacity)
{
    dnsnames_builder builder;

    mark();
    CHECK(dnsnames_builder_start(&builder, buffer, capacity, 0x1234, DNSNAMES_FLAG_RD) == DNSNAMES_OK);
    return builder;
}

/* The response above as it is built: it compresses the name that the CNAME's data have by hand. */
static dnsnames_status build_response(dnsnames_builder *builder)
{
    dnsnames_status status = dnsnames_builder_question(builder, NAME("\3www\7example\3com"), DNSNAMES_TYPE_A,
                                                       DNSNAMES_CLASS_IN);

    if (status == DNSNAMES_OK)
        status = dnsnames_builder_record(builder, DNSNAMES_ANSWER, NAME("\3WWW\7example\3com"), DNSNAMES_TYPE_CNAME,
                                         DNSNAMES_CLASS_IN, 3600, SPELLED("\4host\300\020"));
    if (status == DNSNAMES_OK)
        status = dnsnames_builder_record(builder, DNSNAMES_ANSWER, NAME("\4host\7example\3com"), DNSNAMES_TYPE_A,
                                         DNSNAMES_CLASS_IN, 60, SPELLED("\300\0\2\1"));
    if (status == DNSNAMES_OK)
        status = dnsnames_builder_opt(builder, 4096, 0, 0, 0, NULL, 0);
    return status;
}

/* As it was before a refused call: the builder, and the octets that it has. */
#define STAYS(status, builder, call)                             \
    do {                                                         \
        dnsnames_builder before;                                 \
        uint8_t octets[sizeof buffer];                           \
        before = (builder);                                      \
        memcpy(octets, buffer, sizeof octets);                   \
        CHECK((call) == (status));                               \
        CHECK(same_states(&before.state, &(builder).state));     \
        CHECK(memcmp(octets, buffer, sizeof octets) == 0);       \
    } while (0)

static void building(void)
{
    dnsnames_builder builder = begun(sizeof buffer);
    size_t size, capacity;
    /* The address's owner is written as a label and a pointer: `host` is remembered nowhere else. */
    static const uint8_t built[] =
        "\x12\x34\x81\x80\0\1\0\2\0\0\0\1"
        "\3www\7example\3com\0\0\1\0\1"
        "\300\014\0\5\0\1\0\0\016\020\0\7\4host\300\020"
        "\4host\300\020\0\1\0\1\0\0\0\74\0\4\300\0\2\1"
        "\0\0\51\20\0\0\0\0\0\0";

    CHECK(build_response(&builder) == DNSNAMES_OK);
    builder.state.flags |= DNSNAMES_FLAG_QR | DNSNAMES_FLAG_RA;
    CHECK(dnsnames_builder_finish(&builder, &size) == DNSNAMES_OK && size == sizeof built);
    CHECK(holds(built, size));
    STAYS(DNSNAMES_NO_BUILDER, builder, dnsnames_builder_finish(&builder, &size));
    STAYS(DNSNAMES_NO_BUILDER, builder, dnsnames_builder_truncate(&builder));
    STAYS(DNSNAMES_NO_BUILDER, builder, dnsnames_builder_opt(&builder, 1232, 0, 0, 0, NULL, 0));

    /* One octet too few, at each push. */
    for (capacity = 12; capacity < size; capacity++) {
        builder = begun(capacity);
        CHECK(build_response(&builder) == DNSNAMES_NO_ROOM && builder.state.len <= capacity);
        CHECK(buffer[capacity] == 0x5a);
    }
    for (capacity = 0; capacity < 12; capacity++)
        REFUSES(DNSNAMES_NO_ROOM, dnsnames_builder_start(&builder, buffer, capacity, 1, 0));

    /* What is cut has its questions and TC, and an OPT record still has room. */
    builder = begun(56);
    CHECK(build_response(&builder) == DNSNAMES_NO_ROOM);
    CHECK(dnsnames_builder_truncate(&builder) == DNSNAMES_OK);
    CHECK(dnsnames_builder_opt(&builder, 1232, 1, 0, 1, NULL, 0) == DNSNAMES_OK);
    CHECK(dnsnames_builder_finish(&builder, &size) == DNSNAMES_OK && size == 44);
    CHECK(memcmp(buffer, "\x12\x34\3\0\0\1\0\0\0\0\0\1\3www\7example\3com\0\0\1\0\1"
                       "\0\0\51\4\320\1\0\200\0\0\0", 44) == 0);

    /* DO and CO, and a version. */
    builder = begun(23);
    CHECK(dnsnames_builder_opt_flags(&builder, 1232, 1, 2, DNSNAMES_EDNS_FLAG_DO | DNSNAMES_EDNS_FLAG_CO, NULL, 0) ==
          DNSNAMES_OK);
    CHECK(memcmp(buffer + 12, "\0\0\51\4\320\1\2\300\0\0\0", 11) == 0);
    STAYS(DNSNAMES_NO_ROOM, builder, dnsnames_builder_opt_flags(&builder, 1232, 0, 0, 0, NULL, 0));
    CHECK(dnsnames_builder_finish(&builder, &size) == DNSNAMES_OK && size == 23);
    STAYS(DNSNAMES_NO_BUILDER, builder, dnsnames_builder_opt_flags(&builder, 1232, 0, 0, 0, NULL, 0));
}

/* The data of a record as they are written into a message whose question is www.example.com, and whose record is of
 * example.com: so the labels of the question's name are at 12, 16 and 24, and the data at 45. */
static int writes_data(uint16_t type, const uint8_t *data, size_t data_len, const uint8_t *written, size_t len)
{
    dnsnames_builder builder = begun(512);

    CHECK(dnsnames_builder_question(&builder, NAME("\3www\7example\3com"), 1, 1) == DNSNAMES_OK);
    CHECK(dnsnames_builder_record(&builder, 2, NAME("\7example\3com"), type, 1, 0, data, data_len) == DNSNAMES_OK);
    return builder.state.len == 45 + len && buffer[43] == len >> 8 && buffer[44] == (len & 255) &&
           memcmp(buffer + 45, written, len) == 0;
}
#define WRITES(type, data, written) CHECK(writes_data(type, SPELLED(data), SPELLED(written)))

static void building_names(void)
{
    static const uint16_t ONE[] = {2, 3, 4, 5, 7, 8, 9, 12}, LEFT[] = {1, 10, 11, 13, 16, 39, 65, 255, 65535};
    size_t k;

    for (k = 0; k < sizeof ONE / sizeof *ONE; k++) {
        WRITES(ONE[k], "\2ns\7example\3com\0", "\2ns\300\020");
        WRITES(ONE[k], "\3WWW\7exAMple\3com\0", "\300\014");
        WRITES(ONE[k], "\1a\3net\0", "\1a\3net\0");
        WRITES(ONE[k], "\0", "\0");
        /* No data, a pointer, what is cut and what follows: as they are. */
        WRITES(ONE[k], "", "");
        WRITES(ONE[k], "\2ns\300\020", "\2ns\300\020");
        WRITES(ONE[k], "\7example\3com", "\7example\3com");
        WRITES(ONE[k], "\7example\3com\0\0", "\7example\3com\0\0");
        WRITES(ONE[k], "\100example\0", "\100example\0");
    }
    WRITES(15, "\0\12\2mx\7example\3com\0", "\0\12\2mx\300\020");
    WRITES(15, "\0", "\0");
    WRITES(15, "\7example\3com\0", "\7example\3com\0");
    WRITES(14, "\7example\3com\0\1e\7example\3com\0", "\300\020\1e\300\020");
    WRITES(14, "\7example\3com\0", "\7example\3com\0");
    /* The second name isn't looked for in the first. */
    WRITES(6, "\1a\3net\0\1b\1a\3net\0AAAABBBBCCCCDDDDEEEE", "\1a\3net\0\1b\1a\3net\0AAAABBBBCCCCDDDDEEEE");
    WRITES(6, "\2ns\7example\3com\0\4host\7example\3com\0AAAABBBBCCCCDDDDEEEE",
           "\2ns\300\020\4host\300\020AAAABBBBCCCCDDDDEEEE");
    WRITES(6, "\7example\3com\0\7example\3com\0AAAABBBBCCCCDDDD", "\7example\3com\0\7example\3com\0AAAABBBBCCCCDDDD");
    /* Types that are newer, or have no name. */
    WRITES(33, "\0\1\0\2\0\3\7example\3com\0", "\0\1\0\2\0\3\7example\3com\0");
    WRITES(17, "\7example\3com\0\7example\3com\0", "\7example\3com\0\7example\3com\0");
    WRITES(18, "\0\1\7example\3com\0", "\0\1\7example\3com\0");
    WRITES(21, "\0\1\7example\3com\0", "\0\1\7example\3com\0");
    WRITES(26, "\0\1\7example\3com\0\7example\3com\0", "\0\1\7example\3com\0\7example\3com\0");
    WRITES(36, "\0\1\7example\3com\0", "\0\1\7example\3com\0");
    for (k = 0; k < sizeof LEFT / sizeof *LEFT; k++)
        WRITES(LEFT[k], "\7example\3com\0", "\7example\3com\0");
}

/* A delegation: the data's name ends as its owner's, which is there for the first time, and glue has the data's name. Each
 * limit that is too small refuses the record and leaves all; the next push still has its room. */
static void building_glue(void)
{
    static const uint8_t built[] = "\7example\3net\0\0\2\0\1\0\0\0\0\0\5\2ns\300\014"
                                   "\300\043\0\1\0\1\0\0\0\0\0\4\300\0\2\1";
    dnsnames_builder builder = begun(512);
    size_t limit;

    CHECK(dnsnames_builder_record(&builder, 2, NAME("\7example\3net"), 2, 1, 0, NAME("\2ns\7example\3net")) ==
          DNSNAMES_OK);
    CHECK(builder.state.len == 40 && builder.state.table_len == 3 && builder.state.table[2] == 35);
    CHECK(dnsnames_builder_record(&builder, 3, NAME("\2ns\7example\3net"), 1, 1, 0, SPELLED("\300\0\2\1")) ==
          DNSNAMES_OK);
    CHECK(builder.state.len == 56 && memcmp(buffer + 12, built, 44) == 0);
    for (limit = 12; limit < 40; limit++) {
        builder = begun(512);
        builder.state.limit = limit;
        STAYS(DNSNAMES_NO_ROOM, builder,
              dnsnames_builder_record(&builder, 2, NAME("\7example\3net"), 2, 1, 0, NAME("\2ns\7example\3net")));
        builder.state.limit = 40;
        CHECK(dnsnames_builder_record(&builder, 2, NAME("\7example\3net"), 2, 1, 0,
                                      NAME("\2ns\7example\3net")) == DNSNAMES_OK);
        CHECK(builder.state.len == 40 && memcmp(buffer + 12, built, 28) == 0);
    }
}

static void building_refused(void)
{
    dnsnames_builder builder = begun(512);
    size_t size = 77, i;

    CHECK(dnsnames_builder_question(&builder, NAME("\1a"), 1, 1) == DNSNAMES_OK);
    STAYS(DNSNAMES_NO_NAME, builder, dnsnames_builder_question(&builder, SPELLED("\1a"), 1, 1));
    CHECK(dnsnames_builder_record(&builder, DNSNAMES_AUTHORITY, NAME("\1a"), 2, 1, 0, NAME("\1b")) == DNSNAMES_OK);
    STAYS(DNSNAMES_WRONG_ORDER, builder, dnsnames_builder_question(&builder, NAME("\1a"), 1, 1));
    STAYS(DNSNAMES_WRONG_ORDER, builder, dnsnames_builder_record(&builder, DNSNAMES_ANSWER, NAME("\1a"), 1, 1, 0, NULL, 0));
    STAYS(DNSNAMES_NO_SECTION, builder, dnsnames_builder_record(&builder, 0, NAME("\1a"), 1, 1, 0, NULL, 0));
    STAYS(DNSNAMES_NO_SECTION, builder, dnsnames_builder_record(&builder, 4, NAME("\1a"), 1, 1, 0, NULL, 0));
    STAYS(DNSNAMES_NO_NAME, builder, dnsnames_builder_record(&builder, 2, SPELLED("\1a"), 1, 1, 0, NULL, 0));
    STAYS(DNSNAMES_NO_ROOM, builder, dnsnames_builder_record(&builder, 2, NAME("\1a"), 1, 1, 0, buffer, 500));
    builder.state.authority = 65535;
    STAYS(DNSNAMES_TOO_MANY_ENTRIES, builder, dnsnames_builder_record(&builder, 2, NAME("\1a"), 1, 1, 0, NULL, 0));
    builder.state.authority = 0;
    builder.state.questions = 65535;
    STAYS(DNSNAMES_TOO_MANY_ENTRIES, builder, dnsnames_builder_question(&builder, NAME("\1a"), 1, 1));

    /* What no call leaves so. */
    for (i = 0; i < 8; i++) {
        builder = begun(512);
        CHECK(dnsnames_builder_question(&builder, NAME("\1a"), 1, 1) == DNSNAMES_OK);
        if (i == 0)
            builder.state.limit = 513;
        else if (i == 1)
            builder.state.limit = builder.state.len - 1;
        else if (i == 2)
            builder.state.answer_start = 11;
        else if (i == 3)
            builder.state.additional_start = builder.state.len + 1;
        else if (i == 4)
            builder.state.table_len = DNSNAMES_MAX_TABLE + 1;
        else if (i == 5)
            builder.state.table[0] = 16384;
        else if (i == 6)
            buffer[11] = 0;
        else
            builder.state.authority_start = 12;
        STAYS(DNSNAMES_NO_BUILDER, builder, dnsnames_builder_question(&builder, NAME("\1b"), 1, 1));
        STAYS(DNSNAMES_NO_BUILDER, builder, dnsnames_builder_record(&builder, 1, NAME("\1b"), 1, 1, 0, NULL, 0));
        STAYS(DNSNAMES_NO_BUILDER, builder, dnsnames_builder_opt(&builder, 512, 0, 0, 0, NULL, 0));
        STAYS(DNSNAMES_NO_BUILDER, builder, dnsnames_builder_opt_flags(&builder, 512, 0, 0, 0, NULL, 0));
        STAYS(DNSNAMES_NO_BUILDER, builder, dnsnames_builder_truncate(&builder));
        STAYS(DNSNAMES_NO_BUILDER, builder, dnsnames_builder_finish(&builder, &size));
    }
    CHECK(size == 77);
}

/* Two addresses, and their lengths. */
static const uint8_t addresses[8] = {192, 0, 2, 1, 192, 0, 2, 2};
static const uint16_t both[2] = {4, 4};

/* The addresses of a.example as an RRset. */
#define RRSET(call, builder, section, ...) \
    call(builder, section, NAME("\1a\7example"), DNSNAMES_TYPE_A, DNSNAMES_CLASS_IN, 60, addresses, 8, both, 2 __VA_ARGS__)
#define AND(pushed) , pushed

/* As it was before a refused call, but for what the buffer has after the message. */
#define MESSAGE_STAYS(status, builder, call)                     \
    do {                                                         \
        uint8_t message[512];                                    \
        dnsnames_builder_state before = (builder).state;         \
                                                                 \
        memcpy(message, (builder).octets, before.len);           \
        CHECK((call) == (status));                               \
        CHECK(same_states(&before, &(builder).state));           \
        CHECK(memcmp(message, (builder).octets, before.len) == 0); \
    } while (0)

/* RRsets of two records at each limit: both, or none; TC exactly where a required one has no room. */
static void building_rrsets(void)
{
    static const uint8_t built[] =
        "\1a\7example\0" "\0\1\0\1\0\0\0\74\0\4\300\0\2\1" "\300\14\0\1\0\1\0\0\0\74\0\4\300\0\2\2";
    size_t whole = 12 + sizeof built - 1, limit, size;
    uint32_t pushed;
    dnsnames_builder builder = begun(512);

    CHECK(RRSET(dnsnames_builder_rrset, &builder, DNSNAMES_ANSWER, ) == DNSNAMES_OK);
    CHECK(builder.state.len == whole && builder.state.answers == 2 && memcmp(buffer + 12, built, whole - 12) == 0);
    for (limit = 12; limit < whole; limit++) {
        builder = begun(512);
        builder.state.limit = limit;
        MESSAGE_STAYS(DNSNAMES_NO_ROOM, builder, RRSET(dnsnames_builder_rrset, &builder, DNSNAMES_ANSWER, ));
        pushed = 77;
        MESSAGE_STAYS(DNSNAMES_OK, builder, RRSET(dnsnames_builder_extra, &builder, DNSNAMES_ANSWER, AND(&pushed)));
        CHECK(pushed == 0);
        pushed = 77;
        CHECK(RRSET(dnsnames_builder_required, &builder, DNSNAMES_ANSWER, AND(&pushed)) == DNSNAMES_OK && pushed == 0);
        CHECK(builder.state.flags == (DNSNAMES_FLAG_RD | DNSNAMES_FLAG_TC));
        builder.state.flags = DNSNAMES_FLAG_RD;
        MESSAGE_STAYS(DNSNAMES_NO_ROOM, builder, RRSET(dnsnames_builder_rrset, &builder, DNSNAMES_ANSWER, ));
        CHECK(builder.state.len == 12 && builder.state.answers == 0);
    }
    builder.state.limit = whole;
    CHECK(RRSET(dnsnames_builder_required, &builder, DNSNAMES_ANSWER, AND(&pushed)) == DNSNAMES_OK && pushed == 1);
    CHECK(builder.state.flags == DNSNAMES_FLAG_RD && memcmp(buffer + 12, built, whole - 12) == 0);
    pushed = 77;
    CHECK(RRSET(dnsnames_builder_extra, &builder, DNSNAMES_ADDITIONAL, AND(&pushed)) == DNSNAMES_OK && pushed == 0);
    builder.state.limit = 512;
    CHECK(RRSET(dnsnames_builder_extra, &builder, DNSNAMES_ADDITIONAL, AND(&pushed)) == DNSNAMES_OK && pushed == 1);
    CHECK(builder.state.flags == DNSNAMES_FLAG_RD && builder.state.additional == 2);
    CHECK(dnsnames_builder_finish(&builder, &size) == DNSNAMES_OK && size == whole + 32);
}

static void rrsets_refused(void)
{
    static const uint16_t long_one[2] = {4, 5}, short_one[2] = {4, 3};
    dnsnames_builder builder = begun(512);
    uint32_t pushed = 77;

    STAYS(DNSNAMES_OK, builder, dnsnames_builder_rrset(&builder, 1, NAME("\1a"), 1, 1, 0, NULL, 0, NULL, 0));
    STAYS(DNSNAMES_BAD_LENGTH, builder, dnsnames_builder_rrset(&builder, 1, NAME("\1a"), 1, 1, 0, addresses, 8, long_one, 2));
    STAYS(DNSNAMES_BAD_LENGTH, builder, dnsnames_builder_rrset(&builder, 1, NAME("\1a"), 1, 1, 0, addresses, 8, short_one, 2));
    STAYS(DNSNAMES_BAD_LENGTH, builder, dnsnames_builder_rrset(&builder, 1, NAME("\1a"), 1, 1, 0, addresses, 8, both, 1));
    STAYS(DNSNAMES_BAD_LENGTH, builder,
          dnsnames_builder_required(&builder, 1, NAME("\1a"), 1, 1, 0, addresses, 8, both, 1, &pushed));
    STAYS(DNSNAMES_NO_SECTION, builder, RRSET(dnsnames_builder_rrset, &builder, 0, ));
    STAYS(DNSNAMES_NO_SECTION, builder, RRSET(dnsnames_builder_extra, &builder, 4, AND(&pushed)));
    STAYS(DNSNAMES_NO_NAME, builder, dnsnames_builder_rrset(&builder, 1, SPELLED("\1a"), 1, 1, 0, NULL, 0, NULL, 0));
    CHECK(RRSET(dnsnames_builder_rrset, &builder, DNSNAMES_AUTHORITY, ) == DNSNAMES_OK);
    MESSAGE_STAYS(DNSNAMES_WRONG_ORDER, builder, RRSET(dnsnames_builder_required, &builder, DNSNAMES_ANSWER, AND(&pushed)));
    MESSAGE_STAYS(DNSNAMES_WRONG_ORDER, builder, RRSET(dnsnames_builder_extra, &builder, DNSNAMES_ANSWER, AND(&pushed)));
    builder.state.authority = 65534;
    MESSAGE_STAYS(DNSNAMES_TOO_MANY_ENTRIES, builder, RRSET(dnsnames_builder_required, &builder, DNSNAMES_AUTHORITY, AND(&pushed)));
    buffer[11] = 0;
    STAYS(DNSNAMES_NO_BUILDER, builder, RRSET(dnsnames_builder_rrset, &builder, DNSNAMES_ADDITIONAL, ));
    CHECK(pushed == 77);
}

/* Back to a mark, with the flags and the limit of now; and marks that are none. */
static void going_back(void)
{
    dnsnames_builder builder = begun(512), other;
    dnsnames_builder_state mark, longer, wanted;
    size_t i;

    CHECK(dnsnames_builder_question(&builder, NAME("\1a"), 1, 1) == DNSNAMES_OK);
    mark = wanted = builder.state;
    CHECK(RRSET(dnsnames_builder_rrset, &builder, DNSNAMES_ANSWER, ) == DNSNAMES_OK);
    longer = builder.state;
    CHECK(RRSET(dnsnames_builder_rrset, &builder, DNSNAMES_ADDITIONAL, ) == DNSNAMES_OK);
    builder.state.flags = wanted.flags = DNSNAMES_FLAG_QR;
    builder.state.limit = wanted.limit = 300;
    CHECK(dnsnames_builder_rewind(&builder, &mark) == DNSNAMES_OK && same_states(&builder.state, &wanted));
    STAYS(DNSNAMES_NO_MARK, builder, dnsnames_builder_rewind(&builder, &longer));
    STAYS(DNSNAMES_OK, builder, dnsnames_builder_rewind(&builder, &builder.state));
    CHECK(RRSET(dnsnames_builder_rrset, &builder, DNSNAMES_ANSWER, ) == DNSNAMES_OK);
    CHECK(dnsnames_builder_rewind(&builder, &longer) == DNSNAMES_OK && builder.state.len == longer.len);
    for (i = 0; i < 5; i++) {
        longer = mark;
        if (i == 0)
            longer.answer_start = 11;
        else if (i == 1)
            longer.answer_start = longer.authority_start + 1;
        else if (i == 2)
            longer.additional_start = longer.len + 1;
        else if (i == 3)
            longer.table_len = DNSNAMES_MAX_TABLE + 1;
        else
            longer.table[0] = 16384;
        STAYS(DNSNAMES_NO_MARK, builder, dnsnames_builder_rewind(&builder, &longer));
    }
    other = builder;
    other.state.len = other.state.limit + 1;
    STAYS(DNSNAMES_NO_BUILDER, other, dnsnames_builder_rewind(&other, &mark));
}

/* Data that are as large as a message may be, and one octet more; a buffer that is larger than any message. */
static void building_large(void)
{
    static uint8_t octets[70000], data[65536];
    dnsnames_builder builder;
    size_t size;

    CHECK(dnsnames_builder_start(&builder, octets, sizeof octets, 0, 0) == DNSNAMES_OK);
    CHECK(builder.state.limit == 65535);
    CHECK(dnsnames_builder_record(&builder, 1, NAME(""), 10, 1, 0, data, 65536) == DNSNAMES_NO_ROOM);
    CHECK(dnsnames_builder_record(&builder, 1, NAME(""), 10, 1, 0, data, 65513) == DNSNAMES_NO_ROOM);
    CHECK(dnsnames_builder_record(&builder, 1, NAME(""), 10, 1, 0, data, 65512) == DNSNAMES_OK);
    CHECK(dnsnames_builder_finish(&builder, &size) == DNSNAMES_OK && size == 65535);
}

static void statuses(void)
{
    uint32_t i, k;

    for (i = 0; i <= DNSNAMES_KEY_ORDER; i++) {
        CHECK(dnsnames_strerror(i) != NULL && dnsnames_strerror(i)[0] != 0);
        for (k = 0; k < i; k++)
            CHECK(strcmp(dnsnames_strerror(i), dnsnames_strerror(k)) != 0);
    }
    CHECK(dnsnames_strerror(UINT32_MAX) != NULL);
    CHECK(strcmp(dnsnames_version(), DNSNAMES_VERSION) == 0);
}

int main(void)
{
    reading();
    hostile();
    limits();
    checking();
    texts();
    comparing();
    labels();
    messages();
    tables();
    fields_in_data();
    names_in_data();
    numbers_in_data();
    addresses_in_data();
    strings_in_data();
    opt_records();
    options_by_name();
    reading_options();
    answers_and_aliases();
    texts_of_messages();
    planning();
    appending();
    far_off();
    mnemonics();
    building();
    building_names();
    building_glue();
    building_refused();
    building_rrsets();
    rrsets_refused();
    going_back();
    building_large();
    statuses();
    return told("worked cases and refusals");
}
