/* Loads a zone by dnsnames_zone.h, answers queries from it, and says what both cost:
 * large APEX FILE QUERIES COUNT WORD.
 *
 * APEX is a name without escapes, FILE has the zone's text, and QUERIES has queries, each behind its length in two
 * octets. COUNT of them are answered, from the first on again where there are fewer. Each line printed has words and
 * their number. Under callgrind the instructions of all calls that WORD names are counted: load or answer. */
#include "dnsnames_zone.h"
#include "large.h"

#include <malloc.h>
#include <string.h>
#include <sys/resource.h>
#include <valgrind/callgrind.h>

#define PAYLOAD_SIZE 1232
#define MAX_NAME 255

/* The wire format of a name without escapes, and its length. */
static size_t wire_of(const char *name, uint8_t wire[MAX_NAME])
{
    size_t len = 0;
    while (*name != 0) {
        size_t label = strcspn(name, ".");
        if (label > 63 || len + label + 2 > MAX_NAME)
            return 0;
        wire[len] = (uint8_t)label;
        memcpy(wire + len + 1, name, label);
        len += label + 1;
        name += label + (name[label] == '.');
    }
    wire[len] = 0;
    return len + 1;
}

/* The most memory that the process has had, in kilobytes. */
static long peak(void)
{
    struct rusage usage;
    getrusage(RUSAGE_SELF, &usage);
    return usage.ru_maxrss;
}

/* What malloc has given and not got back, in octets. */
static size_t allocated(void)
{
    struct mallinfo2 it = mallinfo2();
    return it.uordblks + it.hblkhd;
}

static void load(dnsnames_zone *zone, const char *name, const char *path, int is_counted)
{
    uint8_t apex[MAX_NAME];
    size_t len, apex_len = wire_of(name, apex);
    dnsnames_zone_place place = {0, 0, 0};
    uint8_t *text = read_file(path, &len);
    size_t before = allocated();
    double clock, processor;
    uint32_t status;
    if (is_counted)
        CALLGRIND_START_INSTRUMENTATION;
    clock = now(CLOCK_MONOTONIC), processor = now(CLOCK_PROCESS_CPUTIME_ID);
    CALLGRIND_TOGGLE_COLLECT;
    status = dnsnames_zone_load(zone, text, len, apex, apex_len, DNSNAMES_ZONE_IN, &place);
    CALLGRIND_TOGGLE_COLLECT;
    printf("load-clock %.3f\nload-processor %.3f\n", now(CLOCK_MONOTONIC) - clock,
           now(CLOCK_PROCESS_CPUTIME_ID) - processor);
    if (is_counted)
        CALLGRIND_STOP_INSTRUMENTATION;
    if (status != DNSNAMES_ZONE_OK) {
        fprintf(stderr, "%s:%zu:%zu: %s\n", path, place.line, place.column, dnsnames_zone_strerror(status));
        exit(1);
    }
    printf("load-peak %ld\ntext %zu\nkept %zu\n", peak(), len, allocated() - before);
    free(text);
}

static void answer(dnsnames_zone *zone, const uint8_t *queries, size_t queries_len, long count)
{
    static uint8_t response[MAX_MESSAGE];
    long counts[KINDS] = {0}, left;
    unsigned long long octets = 0;
    size_t at = 0, len;
    double clock = now(CLOCK_MONOTONIC), processor = now(CLOCK_PROCESS_CPUTIME_ID);
    for (left = count; left > 0; left--) {
        size_t query_len = length_at(queries, at);
        uint32_t status;
        CALLGRIND_TOGGLE_COLLECT;
        status = dnsnames_zone_answer(zone, DNSNAMES_ZONE_UDP, PAYLOAD_SIZE, queries + at + 2, query_len, response,
                                      sizeof response, &len);
        CALLGRIND_TOGGLE_COLLECT;
        if (status != DNSNAMES_ZONE_OK) {
            fprintf(stderr, "%s\n", dnsnames_zone_strerror(status));
            exit(1);
        }
        counts[kind_of(response)]++;
        octets += len;
        at = at + query_len + 2 == queries_len ? 0 : at + query_len + 2;
    }
    printf("answer-clock %.4f\nanswer-processor %.4f\nanswers %ld\noctets %llu\n", now(CLOCK_MONOTONIC) - clock,
           now(CLOCK_PROCESS_CPUTIME_ID) - processor, count, octets);
    print_kinds(counts);
}

static void answer_all(dnsnames_zone *zone, const char *path, long count, int is_counted)
{
    size_t len;
    uint8_t *queries = read_file(path, &len);
    if (is_counted)
        CALLGRIND_START_INSTRUMENTATION;
    answer(zone, queries, len, count);
    if (is_counted)
        CALLGRIND_STOP_INSTRUMENTATION;
    free(queries);
}

int main(int argc, char **argv)
{
    dnsnames_zone zone = DNSNAMES_ZONE_INIT;
    long count;
    double processor;
    if (argc != 6) {
        fprintf(stderr, "usage: large APEX FILE QUERIES COUNT load | answer\n");
        return 2;
    }
    count = strtol(argv[4], NULL, 10);
    load(&zone, argv[1], argv[2], strcmp(argv[5], "load") == 0);
    if (count > 0)
        answer_all(&zone, argv[3], count, strcmp(argv[5], "answer") == 0);
    processor = now(CLOCK_PROCESS_CPUTIME_ID);
    dnsnames_zone_free(&zone);
    printf("free-processor %.3f\n", now(CLOCK_PROCESS_CPUTIME_ID) - processor);
    return 0;
}
