/* Worked cases and refusals of the calls of zones. */
#include "dnsnames_zone.h"

#include "check.h"

#include <string.h>

/* The zone of RFC 4592, 2.2.1. */
static const char TEXT[] = "$TTL 3600\n"
                           "@ SOA ns.example.com. admin.example. 1 7200 900 1209600 86400\n"
                           "@ NS ns.example.com.\n"
                           "@ NS ns.example.net.\n"
                           "* TXT \"this is a wildcard\"\n"
                           "* MX 10 host1.example.\n"
                           "sub.* TXT \"this is not a wildcard\"\n"
                           "host1 A 192.0.2.1\n"
                           "_ssh._tcp.host1 SRV 0 0 22 host1.example.\n"
                           "_ssh._tcp.host2 SRV 0 0 22 host2.example.\n"
                           "subdel NS ns.example.com.\n"
                           "subdel NS ns.example.net.\n";

static const uint8_t APEX[] = "\x07"
                              "example";

enum { A = 1, MX = 15, TXT = 16, SRV = 33, QUERY_MOST = 300 };

static uint32_t load(dnsnames_zone *zone, const char *text, dnsnames_zone_place *place)
{
    return dnsnames_zone_load(zone, (const uint8_t *)text, strlen(text), APEX, sizeof APEX, DNSNAMES_ZONE_IN, place);
}

/* A query for a name without escapes, and its length. */
static size_t query_of(uint8_t *query, const char *name, unsigned type)
{
    size_t len = 12;
    memcpy(query, "\x12\x34\x01\x00\x00\x01\x00\x00\x00\x00\x00\x00", 12);
    while (*name != 0) {
        size_t label = strcspn(name, ".");
        query[len] = (uint8_t)label;
        memcpy(query + len + 1, name, label);
        len += label + 1;
        name += label + (name[label] == '.');
    }
    memcpy(query + len, "\x00\x00\x00\x00\x01", 5);
    query[len + 2] = (uint8_t)type;
    return len + 5;
}

/* What RFC 4592, 2.2.1 says of a question: response code, AA, and the records of the answer and of the authority. */
static const struct {
    const char *name;
    unsigned type, code, aa, answers, authority;
} CASES[] = {
    {"host3.example.", MX, 0, 1, 1, 0},
    {"host3.example.", A, 0, 1, 0, 1},
    {"foo.bar.example.", TXT, 0, 1, 1, 0},
    {"host1.example.", MX, 0, 1, 0, 1},
    {"sub.*.example.", MX, 0, 1, 0, 1},
    {"_telnet._tcp.host1.example.", SRV, 3, 1, 0, 1},
    {"host.subdel.example.", A, 0, 0, 0, 2},
    {"ghost.*.example.", MX, 3, 1, 0, 1},
    {"host1.example.", A, 0, 1, 1, 0},
    {"example.org.", A, 5, 0, 0, 0},
};

static void check_wildcards(void)
{
    dnsnames_zone zone = DNSNAMES_ZONE_INIT;
    dnsnames_zone_place place = {7, 7, 7};
    size_t i;
    CHECK(load(&zone, TEXT, &place) == DNSNAMES_ZONE_OK);
    CHECK(place.line == 7 && place.column == 7 && place.index == 7);
    for (i = 0; i < sizeof CASES / sizeof *CASES; i++) {
        uint8_t query[QUERY_MOST], octets[512];
        size_t query_len = query_of(query, CASES[i].name, CASES[i].type), len = 0;
        uint32_t status = dnsnames_zone_answer(&zone, 0, 1232, query, query_len, octets, sizeof octets, &len);
        test(status == DNSNAMES_ZONE_OK && len >= query_len && octets[0] == 0x12 && octets[1] == 0x34 &&
                 octets[2] == (CASES[i].aa ? 0x85 : 0x81) && octets[3] == CASES[i].code && octets[5] == 1 &&
                 octets[7] == CASES[i].answers && octets[9] == CASES[i].authority,
             __FILE__, __LINE__, CASES[i].name);
    }
    dnsnames_zone_free(&zone);
}

/* The address of www.example., and its response (RFC 1034, 4.3.2): owners are compressed. The names in data go on with
 * the apex. */
static const char SMALL[] = "$TTL 3600\n@ SOA ns admin 1 7200 900 1209600 86400\n"
                            "@ NS ns\nns A 192.0.2.1\nwww A 192.0.2.2\n";

static const char CHAOS[] = "$TTL 3600\n@ SOA ns.example. admin.example. 1 7200 900 1209600 86400\n@ NS ns.example.\n";

static const uint8_t RESPONSE[] = "\x12\x34\x85\x00\x00\x01\x00\x01\x00\x00\x00\x00"
                                  "\x03www\x07"
                                  "example\x00\x00\x01\x00\x01"
                                  "\xc0\x0c\x00\x01\x00\x01\x00\x00\x0e\x10\x00\x04\xc0\x00\x02\x02";

static void check_octets(void)
{
    dnsnames_zone zone = DNSNAMES_ZONE_INIT;
    dnsnames_zone_place place = {0, 0, 0};
    uint8_t query[QUERY_MOST], octets[512], before[512];
    size_t len = 99, query_len = query_of(query, "www.example.", A);
    memset(before, 0x5a, sizeof before);
    memcpy(octets, before, sizeof octets);
    CHECK(dnsnames_zone_answer(&zone, 0, 1232, query, query_len, octets, sizeof octets, &len) == DNSNAMES_ZONE_NONE);
    CHECK(len == 99);
    CHECK(load(&zone, SMALL, &place) == DNSNAMES_ZONE_OK);
    CHECK(dnsnames_zone_answer(&zone, 0, 1232, query, query_len, octets, 44, &len) == DNSNAMES_ZONE_NO_ROOM);
    CHECK(len == 45 && memcmp(octets, before, sizeof octets) == 0);
    CHECK(dnsnames_zone_answer(&zone, 0, 1232, query, query_len, NULL, 0, &len) == DNSNAMES_ZONE_NO_ROOM && len == 45);
    CHECK(dnsnames_zone_answer(&zone, 0, 1232, query, query_len, octets, 45, &len) == DNSNAMES_ZONE_OK);
    CHECK(len == sizeof RESPONSE - 1 && memcmp(octets, RESPONSE, len) == 0);
    CHECK(memcmp(octets + 45, before + 45, sizeof octets - 45) == 0);
    len = 99;
    CHECK(dnsnames_zone_answer(&zone, 0, 1232, query, 11, octets, sizeof octets, &len) == DNSNAMES_ZONE_NO_RESPONSE);
    CHECK(dnsnames_zone_answer(&zone, 0, 1232, NULL, 0, octets, sizeof octets, &len) == DNSNAMES_ZONE_NO_RESPONSE);
    CHECK(dnsnames_zone_answer(&zone, 0, 1232, RESPONSE, 28, octets, sizeof octets, &len) == DNSNAMES_ZONE_NO_RESPONSE);
    CHECK(len == 99);
    dnsnames_zone_free(&zone);
    CHECK(dnsnames_zone_answer(&zone, 0, 1232, query, query_len, octets, sizeof octets, &len) == DNSNAMES_ZONE_NONE);
    dnsnames_zone_free(&zone);
}

/* A response that doesn't fit a datagram has TC; over TCP it is whole (RFC 2181, 9; RFC 6891, 6.2.3). */
static void check_limits(void)
{
    static const uint8_t OPT[] = "\x00\x00\x29\x10\x00\x00\x00\x00\x00\x00";
    static char text[4096];
    static uint8_t octets[65535];
    dnsnames_zone zone = DNSNAMES_ZONE_INIT;
    dnsnames_zone_place place = {0, 0, 0};
    uint8_t query[QUERY_MOST];
    size_t len, i, query_len = query_of(query, "big.example.", TXT);
    strcpy(text, SMALL);
    for (i = 0; i < 9; i++) {
        char *line = text + strlen(text);
        memset(line, 'x', 220);
        memcpy(line, "big TXT ", 8);
        line[8] = (char)('0' + i);
        strcpy(line + 208, "\n");
    }
    CHECK(load(&zone, text, &place) == DNSNAMES_ZONE_OK);
    CHECK(dnsnames_zone_answer(&zone, DNSNAMES_ZONE_UDP, 4096, query, query_len, octets, sizeof octets, &len) == 0);
    CHECK(len <= 512 && octets[2] == 0x87);
    CHECK(dnsnames_zone_answer(&zone, DNSNAMES_ZONE_TCP, 4096, query, query_len, octets, sizeof octets, &len) == 0);
    CHECK(len > 1800 && octets[2] == 0x85 && octets[7] == 9);
    query[11] = 1;
    memcpy(query + query_len, OPT, sizeof OPT);
    query_len += sizeof OPT;
    CHECK(dnsnames_zone_answer(&zone, DNSNAMES_ZONE_UDP, 4096, query, query_len, octets, sizeof octets, &len) == 0);
    CHECK(len > 1800 && octets[2] == 0x85 && octets[7] == 9 && octets[11] == 1);
    CHECK(dnsnames_zone_answer(&zone, DNSNAMES_ZONE_UDP, 1232, query, query_len, octets, sizeof octets, &len) == 0);
    CHECK(len <= 1232 && octets[2] == 0x87 && octets[11] == 1);
    dnsnames_zone_free(&zone);
}

/* What is wrong with texts, and where. */
static const struct {
    const char *text;
    uint32_t status;
    size_t line, column, index;
} REFUSALS[] = {
    {"$TTL 1h\n@ SOA a. b. 1 2 3 4 x\n", 85, 2, 21, 0},
    {"$TTL 1h\n@ SOA a. b. 1 2 3 4 5\n@ A (192.0.2.1\n", 62, 3, 5, 0},
    {"$TTL 1h\n$INCLUDE other\n", 44, 2, 1, 0},
    {"$TTL 1h\n@ SOA a. b. 1 2 3 4 5\n@ NS a.\n\n@ CH TXT x\n$NONE", 45, 5, 1, 0},
    {"$TTL 1h\n@ SOA a. b. 1 2 3 4 5\na.org. A 192.0.2.1\n", 46, 3, 1, 0},
    {"$TTL 1h\n@ SOA a. b. 1 2 3 4 5\n@ TYPE251 \\# 0\n", 47, 3, 1, 0},
    {"", 51, 0, 0, 0},
    {"$TTL 1h\na A 192.0.2.1\n", 51, 0, 0, 0},
    {"$TTL 1h\n@ SOA a. b. 1 2 3 4 5\n", 52, 0, 0, 0},
    {"$TTL 1h\n@ SOA a. b. 1 2 3 4 5\n@ NS a.\n@ DS 1 8 2 AA\n", 53, 0, 0, 0},
    {"$TTL 1h\n@ SOA a. b. 1 2 3 4 5\n@ NS a.\nw CNAME a.\nw A 192.0.2.1\n", 117, 0, 0, 2},
};

static void check_refusals(void)
{
    dnsnames_zone zone = DNSNAMES_ZONE_INIT;
    dnsnames_zone_place place = {0, 0, 0};
    uint8_t query[QUERY_MOST], octets[512];
    size_t i, len, query_len = query_of(query, "www.example.", A);
    CHECK(load(&zone, SMALL, &place) == DNSNAMES_ZONE_OK);
    for (i = 0; i < sizeof REFUSALS / sizeof *REFUSALS; i++) {
        uint32_t status = load(&zone, REFUSALS[i].text, &place);
        test(status == REFUSALS[i].status && place.line == REFUSALS[i].line && place.column == REFUSALS[i].column &&
                 place.index == REFUSALS[i].index,
             __FILE__, __LINE__, REFUSALS[i].text);
        CHECK(strcmp(dnsnames_zone_strerror(status), "no status") != 0);
    }
    /* The zone of before is kept. */
    CHECK(dnsnames_zone_answer(&zone, 0, 1232, query, query_len, octets, sizeof octets, &len) == DNSNAMES_ZONE_OK);
    place.line = 7;
    CHECK(dnsnames_zone_load(&zone, NULL, 0, (const uint8_t *)"\x01", 1, 1, &place) == DNSNAMES_ZONE_NO_NAME);
    CHECK(dnsnames_zone_load(&zone, NULL, 0, NULL, 0, 1, &place) == DNSNAMES_ZONE_NO_NAME);
    CHECK(place.line == 7);
    CHECK(dnsnames_zone_load(&zone, NULL, 1, APEX, sizeof APEX, 1, &place) == DNSNAMES_ZONE_NULL);
    CHECK(dnsnames_zone_load(&zone, NULL, 0, NULL, 1, 1, &place) == DNSNAMES_ZONE_NULL);
    CHECK(dnsnames_zone_load(NULL, NULL, 0, APEX, sizeof APEX, 1, &place) == DNSNAMES_ZONE_NULL);
    CHECK(dnsnames_zone_load(&zone, NULL, 0, APEX, sizeof APEX, 1, NULL) == DNSNAMES_ZONE_NULL);
    CHECK(dnsnames_zone_answer(NULL, 0, 1232, query, query_len, octets, sizeof octets, &len) == DNSNAMES_ZONE_NULL);
    CHECK(dnsnames_zone_answer(&zone, 0, 1232, NULL, 1, octets, sizeof octets, &len) == DNSNAMES_ZONE_NULL);
    CHECK(dnsnames_zone_answer(&zone, 0, 1232, query, 12, NULL, 1, &len) == DNSNAMES_ZONE_NULL);
    CHECK(dnsnames_zone_answer(&zone, 0, 1232, query, 12, octets, 1, NULL) == DNSNAMES_ZONE_NULL);
    /* A zone in the place of another, and one of another class. */
    CHECK(load(&zone, TEXT, &place) == DNSNAMES_ZONE_OK);
    CHECK(dnsnames_zone_load(&zone, (const uint8_t *)CHAOS, strlen(CHAOS), APEX, sizeof APEX, 3, &place) == 0);
    CHECK(dnsnames_zone_answer(&zone, 0, 1232, query, query_len, octets, sizeof octets, &len) == DNSNAMES_ZONE_OK);
    CHECK(octets[3] == 5);
    dnsnames_zone_free(&zone);
    dnsnames_zone_free(NULL);
}

int main(void)
{
    check_wildcards();
    check_octets();
    check_limits();
    check_refusals();
    return told("cases");
}
