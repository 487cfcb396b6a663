/* Each request for memory is refused in turn, alone and with all after it: the call returns DNSNAMES_ZONE_NO_MEMORY and
 * changes nothing, or it does without. It returns that only where a request was refused, and frees all in the end. */
#include "dnsnames_zone.h"

#include "check.h"

#include <stdlib.h>
#include <string.h>

static const char TEXT[] = "$TTL 3600\n"
                           "@ SOA ns.example. admin.example. 1 7200 900 1209600 86400\n"
                           "@ NS ns.example.\n@ NS b.example.\nns A 192.0.2.1\n"
                           "* TXT \"wildcard\"\nd NS ns.d.example.\nns.d A 192.0.2.3\nc CNAME ns.example.\n";

static const uint8_t APEX[] = "\x07"
                              "example";

static const uint8_t QUERY[] = "\x12\x34\x01\x00\x00\x01\x00\x00\x00\x00\x00\x00\x01" "a\x01" "d\x07"
                               "example\x00\x00\x01\x00\x01";

/* How many requests there were, the first that is refused, how many from there on, and how many were. */
static unsigned long requests, refused_from, refused_count, refused;
static long blocks;

void *__real_malloc(size_t size);
void *__real_realloc(void *at, size_t size);
void __real_free(void *at);
void *__wrap_malloc(size_t size);
void *__wrap_realloc(void *at, size_t size);
void __wrap_free(void *at);

static int is_refused(void)
{
    requests++;
    if (requests < refused_from || requests - refused_from >= refused_count)
        return 0;
    refused++;
    return 1;
}

void *__wrap_malloc(size_t size)
{
    void *made = is_refused() ? NULL : __real_malloc(size);
    blocks += made != NULL;
    return made;
}

void *__wrap_realloc(void *at, size_t size)
{
    void *made = is_refused() ? NULL : __real_realloc(at, size);
    blocks += at == NULL && made != NULL;
    return made;
}

void __wrap_free(void *at)
{
    blocks -= at != NULL;
    __real_free(at);
}

static void refuse(unsigned long from, unsigned long count)
{
    requests = refused = 0;
    refused_from = from;
    refused_count = count;
}

static uint32_t load(dnsnames_zone *zone, dnsnames_zone_place *place)
{
    return dnsnames_zone_load(zone, (const uint8_t *)TEXT, strlen(TEXT), APEX, sizeof APEX, DNSNAMES_ZONE_IN, place);
}

static uint32_t answer(dnsnames_zone *zone, uint8_t octets[512], size_t *len)
{
    return dnsnames_zone_answer(zone, 0, 1232, QUERY, sizeof QUERY - 1, octets, 512, len);
}

/* A text is loaded into a slot that holds none, or a zone. */
static void check_load(unsigned long count, int holds)
{
    dnsnames_zone_place place = {0, 0, 0};
    unsigned long from;
    for (from = 1;; from++) {
        dnsnames_zone zone = DNSNAMES_ZONE_INIT, before;
        uint8_t octets[512];
        size_t len;
        uint32_t status;
        refuse(0, 0);
        if (holds)
            CHECK(load(&zone, &place) == DNSNAMES_ZONE_OK);
        before = zone;
        refuse(from, count);
        status = load(&zone, &place);
        CHECK(status == DNSNAMES_ZONE_OK || (status == DNSNAMES_ZONE_NO_MEMORY && refused > 0));
        CHECK(status == DNSNAMES_ZONE_OK || (zone.at == before.at && zone.full == before.full));
        from = refused == 0 ? 0 : from;
        refuse(0, 0);
        CHECK(answer(&zone, octets, &len) ==
              (holds || status == DNSNAMES_ZONE_OK ? DNSNAMES_ZONE_OK : DNSNAMES_ZONE_NONE));
        dnsnames_zone_free(&zone);
        CHECK(blocks == 0);
        if (from == 0)
            break;
    }
}

static void check_answer(unsigned long count)
{
    dnsnames_zone zone = DNSNAMES_ZONE_INIT;
    dnsnames_zone_place place = {0, 0, 0};
    uint8_t wanted[512], octets[512], before[512];
    size_t wanted_len, len;
    unsigned long from;
    long held;
    refuse(0, 0);
    CHECK(load(&zone, &place) == DNSNAMES_ZONE_OK && answer(&zone, wanted, &wanted_len) == DNSNAMES_ZONE_OK);
    held = blocks;
    memset(before, 0x5a, sizeof before);
    for (from = 1;; from++) {
        uint32_t status;
        memcpy(octets, before, sizeof octets);
        len = 99;
        refuse(from, count);
        status = answer(&zone, octets, &len);
        if (status == DNSNAMES_ZONE_OK)
            CHECK(len == wanted_len && memcmp(octets, wanted, len) == 0);
        else
            CHECK(status == DNSNAMES_ZONE_NO_MEMORY && refused > 0 && len == 99 && memcmp(octets, before, 512) == 0);
        CHECK(blocks == held);
        if (refused == 0)
            break;
    }
    dnsnames_zone_free(&zone);
    CHECK(blocks == 0);
}

int main(void)
{
    check_load(1, 0);
    check_load(1, 1);
    check_load((unsigned long)-1, 0);
    check_load((unsigned long)-1, 1);
    check_answer(1);
    check_answer((unsigned long)-1);
    return told("tests of refused memory");
}
