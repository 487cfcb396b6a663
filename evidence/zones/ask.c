/* Sends queries to a server on loopback by UDP, and says how fast responses come: ask PORT QUERIES COUNT WINDOW.
 *
 * QUERIES has queries, each behind its length in two octets, and COUNT of them are sent, from the first on again where
 * there are fewer. At most WINDOW of them wait for a response at a time. Where none comes for a second, those that
 * wait are lost. Each line printed has words and their number. */
#include "large.h"

#include <arpa/inet.h>
#include <netinet/in.h>
#include <string.h>
#include <sys/socket.h>
#include <sys/time.h>

/* Of each identifier, whether a query with it waits for a response. */
static uint8_t waits[65536];
static const uint8_t *queries;
static size_t queries_len;

static int open_to(uint16_t port)
{
    struct sockaddr_in address;
    struct timeval patience = {1, 0};
    int made = socket(AF_INET, SOCK_DGRAM, 0);
    memset(&address, 0, sizeof address);
    address.sin_family = AF_INET;
    address.sin_addr.s_addr = htonl(INADDR_LOOPBACK);
    address.sin_port = htons(port);
    if (made < 0 || connect(made, (struct sockaddr *)&address, sizeof address) != 0 ||
        setsockopt(made, SOL_SOCKET, SO_RCVTIMEO, &patience, sizeof patience) != 0)
        fail("socket");
    return made;
}

/* Sends the query at this offset, and returns the offset of the next one. */
static size_t send_one(int udp, size_t at)
{
    size_t len = length_at(queries, at);
    if (send(udp, queries + at + 2, len, 0) != (ssize_t)len)
        fail("send");
    waits[queries[at + 2] * 256 + queries[at + 3]] = 1;
    return at + len + 2 == queries_len ? 0 : at + len + 2;
}

/* Takes a response, and returns its octets; 0 where no query waits for it, and -1 where none came in time. */
static long take_one(int udp, long counts[KINDS])
{
    static uint8_t response[MAX_MESSAGE];
    ssize_t got = recv(udp, response, sizeof response, 0);
    uint8_t *wait = &waits[response[0] * 256 + response[1]];
    if (got < 12)
        return -1;
    if (!*wait)
        return 0;
    *wait = 0;
    counts[kind_of(response)]++;
    return (long)got;
}

static void ask(int udp, long count, long window)
{
    long counts[KINDS] = {0}, sent = 0, came = 0, lost = 0, octets = 0, got;
    size_t at = 0;
    double clock = now(CLOCK_MONOTONIC), processor = now(CLOCK_PROCESS_CPUTIME_ID);
    while (came + lost < count) {
        for (; sent < count && sent - came - lost < window; sent++)
            at = send_one(udp, at);
        got = take_one(udp, counts);
        if (got < 0) {
            lost = sent - came;
            memset(waits, 0, sizeof waits);
        } else if (got > 0) {
            came++;
            octets += got;
        }
    }
    printf("clock %.4f\nclient-processor %.4f\nanswers %ld\nlost %ld\noctets %ld\n", now(CLOCK_MONOTONIC) - clock,
           now(CLOCK_PROCESS_CPUTIME_ID) - processor, came, lost, octets);
    print_kinds(counts);
}

int main(int argc, char **argv)
{
    if (argc != 5) {
        fprintf(stderr, "usage: ask PORT QUERIES COUNT WINDOW\n");
        return 2;
    }
    queries = read_file(argv[2], &queries_len);
    ask(open_to((uint16_t)strtoul(argv[1], NULL, 10)), strtol(argv[3], NULL, 10), strtol(argv[4], NULL, 10));
    return 0;
}
