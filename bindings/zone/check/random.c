/* 10,000 random and mutated queries: each is answered within its limit, or not at all where it is no query.
 *
 *     random [QUERIES [SEED]]
 *
 * What a call reads, and what it may write, ends where a page begins that is neither, so that an octet too far ends the
 * program. */
#define _DEFAULT_SOURCE
#include "dnsnames_zone.h"

#include "check.h"

#include <stdlib.h>
#include <string.h>
#include <sys/mman.h>
#include <unistd.h>

static const char TEXT[] = "$TTL 3600\n"
                           "@ SOA ns.example.com. admin.example. 1 7200 900 1209600 86400\n"
                           "@ NS ns.example.com.\n@ NS b.a.example.\n"
                           "* TXT \"wildcard\"\n* MX 10 a.example.\n"
                           "a A 192.0.2.1\na AAAA 2001:db8::1\nb.a A 192.0.2.2\n"
                           "b CNAME a.example.\nc DNAME a.example.\n"
                           "d NS a.d.example.\nd DS 1 8 2 AA\na.d A 192.0.2.3\n"
                           "e TXT \"1234567890123456789012345678901234567890123456789012345678901234567890\"\n"
                           "e TXT \"2234567890123456789012345678901234567890123456789012345678901234567890\"\n"
                           "e TXT \"3234567890123456789012345678901234567890123456789012345678901234567890\"\n"
                           "e TXT \"4234567890123456789012345678901234567890123456789012345678901234567890\"\n"
                           "e TXT \"5234567890123456789012345678901234567890123456789012345678901234567890\"\n"
                           "e TXT \"6234567890123456789012345678901234567890123456789012345678901234567890\"\n"
                           "e TXT \"7234567890123456789012345678901234567890123456789012345678901234567890\"\n"
                           "e TXT \"8234567890123456789012345678901234567890123456789012345678901234567890\"\n"
                           "x.y.z A 192.0.2.4\n";

static uint64_t state = 88172645463325252u;

/* Xorshift: the same queries on every machine. */
static uint32_t random_below(uint32_t bound)
{
    state ^= state << 13;
    state ^= state >> 7;
    state ^= state << 17;
    return (uint32_t)(state >> 32) % bound;
}

enum { MOST = 65536 };

/* The end of memory after which nothing may be read or written. */
static uint8_t *fence(void)
{
    size_t page = (size_t)sysconf(_SC_PAGESIZE);
    uint8_t *memory = mmap(NULL, MOST + page, PROT_READ | PROT_WRITE, MAP_PRIVATE | MAP_ANONYMOUS, -1, 0);
    if (memory == MAP_FAILED || mprotect(memory + MOST, page, PROT_NONE) != 0) {
        perror("random");
        exit(2);
    }
    return memory + MOST;
}

static size_t put_name(uint8_t *octets)
{
    static const char *const LABELS[] = {"a", "B", "c", "d", "e", "*", "x", "y", "z", "none"};
    uint32_t count = random_below(5), i;
    size_t len = 0;
    for (i = 0; i < count; i++) {
        const char *label = LABELS[random_below(sizeof LABELS / sizeof *LABELS)];
        octets[len] = (uint8_t)strlen(label);
        memcpy(octets + len + 1, label, strlen(label));
        len += 1 + strlen(label);
    }
    if (random_below(10) != 0) {
        memcpy(octets + len, "\x07"
                             "example", 8);
        len += 8;
    }
    octets[len] = 0;
    return len + 1;
}

/* A query, some with an OPT record. */
static size_t make_query(uint8_t *octets)
{
    static const uint8_t TYPES[] = {1, 2, 5, 6, 12, 15, 16, 28, 33, 39, 41, 43, 46, 47, 48, 250, 252, 255};
    static const uint8_t OPT[] = "\x00\x00\x29\x04\xd0\x00\x00\x80\x00\x00";
    size_t len = 12;
    memcpy(octets, "\x00\x00\x01\x00\x00\x01\x00\x00\x00\x00\x00\x00", 12);
    octets[0] = (uint8_t)random_below(256);
    octets[1] = (uint8_t)random_below(256);
    len += put_name(octets + len);
    memcpy(octets + len, "\x00\x01\x00\x01", 4);
    octets[len + 1] = TYPES[random_below(sizeof TYPES)];
    len += 4;
    if (random_below(3) == 0) {
        memcpy(octets + len, OPT, sizeof OPT);
        octets[len + 3] = (uint8_t)random_below(16);
        octets[11] = 1;
        len += sizeof OPT;
    }
    return len;
}

/* Some octets are others, or are gone, or more follow; or all are random. */
static size_t mutate(uint8_t *octets, size_t len)
{
    uint32_t kind = random_below(8), count = 1 + random_below(4), i;
    if (kind < 3)
        return len;
    if (kind == 3)
        return random_below((uint32_t)len + 1);
    if (kind == 4) {
        for (i = 0; i < count; i++)
            octets[len++] = (uint8_t)random_below(256);
        return len;
    }
    if (kind == 5) {
        len = random_below(600);
        for (i = 0; i < len; i++)
            octets[i] = (uint8_t)random_below(256);
        return len;
    }
    for (i = 0; i < count; i++)
        octets[random_below((uint32_t)len)] ^= (uint8_t)(1 << random_below(8));
    return len;
}

static void check_query(dnsnames_zone *zone, const uint8_t *query, size_t query_len, uint8_t *end)
{
    static uint8_t first[MOST];
    uint32_t transport = random_below(2), status;
    uint16_t size = (uint16_t)(512 + random_below(4096));
    size_t len = 1234567, again = 1234567, i;
    int is_query = query_len >= 12 && query[2] < 128;
    memset(end - MOST, 0x5a, MOST);
    status = dnsnames_zone_answer(zone, transport, size, query, query_len, end - MOST, MOST, &len);
    CHECK(status == (is_query ? DNSNAMES_ZONE_OK : DNSNAMES_ZONE_NO_RESPONSE));
    if (status != DNSNAMES_ZONE_OK) {
        CHECK(len == 1234567 && end[-MOST] == 0x5a && end[-1] == 0x5a);
        return;
    }
    CHECK(len >= 12 && len <= (transport == DNSNAMES_ZONE_TCP ? 65535u : size));
    memcpy(first, end - MOST, MOST);
    CHECK(first[0] == query[0] && first[1] == query[1] && first[2] >= 128 && (first[2] & 0x78) == (query[2] & 0x78));
    CHECK(transport == DNSNAMES_ZONE_UDP || (first[2] & 2) == 0);
    for (i = len; i < MOST; i++)
        if (first[i] != 0x5a)
            break;
    CHECK(i == MOST);
    /* In exactly as much room it is the same, and in less nothing is written. */
    CHECK(dnsnames_zone_answer(zone, transport, size, query, query_len, end - len, len, &again) == DNSNAMES_ZONE_OK);
    CHECK(again == len && memcmp(end - len, first, len) == 0);
    memset(end - len, 0x5a, len);
    CHECK(dnsnames_zone_answer(zone, transport, size, query, query_len, end - len + 1, len - 1, &again) ==
          DNSNAMES_ZONE_NO_ROOM);
    CHECK(again == len);
    for (i = 0; i < len; i++)
        if ((end - len)[i] != 0x5a)
            break;
    CHECK(i == len);
}

int main(int argc, char **argv)
{
    static const uint8_t APEX[] = "\x07"
                                  "example";
    static uint8_t made[2048];
    unsigned long queries = argc > 1 ? strtoul(argv[1], NULL, 10) : 10000, i;
    dnsnames_zone zone = DNSNAMES_ZONE_INIT;
    dnsnames_zone_place place = {0, 0, 0};
    uint8_t *read_end = fence(), *written_end = fence();
    if (argc > 2)
        state = strtoull(argv[2], NULL, 10) | 1;
    CHECK(dnsnames_zone_load(&zone, (const uint8_t *)TEXT, strlen(TEXT), APEX, sizeof APEX, 1, &place) ==
          DNSNAMES_ZONE_OK);
    for (i = 0; i < queries && failures == 0; i++) {
        size_t len = mutate(made, make_query(made));
        memcpy(read_end - len, made, len);
        check_query(&zone, read_end - len, len, written_end);
    }
    dnsnames_zone_free(&zone);
    return told("tests of random queries");
}
