/* Serves a zone over UDP and TCP on 127.0.0.1: serve APEX FILE PORT COUNT.
 *
 * APEX is the name of the zone, without escapes, and FILE has its text. With PORT 0 the system chooses one. The first line printed is the port. The server ends
 * after COUNT queries, or at SIGINT or SIGTERM. Each TCP connection carries any number of queries (RFC 7766), one
 * connection after another. */
#include "dnsnames_zone.h"

#include <arpa/inet.h>
#include <netinet/in.h>
#include <poll.h>
#include <signal.h>
#include <stdio.h>
#include <stdlib.h>
#include <string.h>
#include <sys/socket.h>
#include <sys/time.h>
#include <unistd.h>

/* What fits into a packet on most paths. */
#define PAYLOAD_SIZE 1232
#define MAX_MESSAGE 65535
#define MAX_NAME 255

static volatile sig_atomic_t is_ended;

static void end(int number)
{
    (void)number;
    is_ended = 1;
}

static int fail(const char *what)
{
    perror(what);
    exit(1);
}

/* Reads a file into memory. */
static uint8_t *read_file(const char *path, size_t *len)
{
    FILE *file = fopen(path, "rb");
    uint8_t *octets = NULL;
    size_t capacity = 0, got;
    if (file == NULL)
        fail(path);
    *len = 0;
    do {
        if (*len == capacity) {
            capacity = capacity == 0 ? 4096 : 2 * capacity;
            octets = realloc(octets, capacity);
            if (octets == NULL)
                fail("realloc");
        }
        got = fread(octets + *len, 1, capacity - *len, file);
        *len += got;
    } while (got > 0);
    fclose(file);
    return octets;
}

/* The wire format of a name without escapes, and its length: each label behind its length, and the root. */
static size_t wire_of(const char *name, uint8_t wire[MAX_NAME])
{
    size_t len = 0;
    while (*name != 0) {
        size_t label = strcspn(name, ".");
        if (label > 63 || len + label + 2 > MAX_NAME)
            return 0;
        wire[len] = (uint8_t)label;
        memcpy(wire + len + 1, name, label);
        len += label + 1;
        name += label + (name[label] == '.');
    }
    wire[len] = 0;
    return len + 1;
}

static void load(dnsnames_zone *zone, const char *name, const char *path)
{
    uint8_t apex[MAX_NAME];
    size_t len, apex_len = wire_of(name, apex);
    dnsnames_zone_place place = {0, 0, 0};
    uint8_t *text = read_file(path, &len);
    uint32_t status = dnsnames_zone_load(zone, text, len, apex, apex_len, DNSNAMES_ZONE_IN, &place);
    free(text);
    if (status == DNSNAMES_ZONE_OK)
        return;
    fprintf(stderr, "%s:%lu:%lu: %s\n", path, (unsigned long)place.line, (unsigned long)place.column,
            dnsnames_zone_strerror(status));
    exit(1);
}

/* A socket of this type at a port of 127.0.0.1, whose port is then in *port. */
static int open_at(int type, uint16_t *port)
{
    struct sockaddr_in address;
    socklen_t len = sizeof address;
    int yes = 1, made = socket(AF_INET, type, 0);
    memset(&address, 0, sizeof address);
    address.sin_family = AF_INET;
    address.sin_addr.s_addr = htonl(INADDR_LOOPBACK);
    address.sin_port = htons(*port);
    if (made < 0 || setsockopt(made, SOL_SOCKET, SO_REUSEADDR, &yes, sizeof yes) != 0 ||
        bind(made, (struct sockaddr *)&address, sizeof address) != 0 ||
        getsockname(made, (struct sockaddr *)&address, &len) != 0)
        fail("socket");
    *port = ntohs(address.sin_port);
    return made;
}

/* Answers one query by a datagram. */
static void answer_datagram(dnsnames_zone *zone, int udp, uint8_t *query, uint8_t *response)
{
    struct sockaddr_in peer;
    socklen_t peer_len = sizeof peer;
    size_t len;
    ssize_t got = recvfrom(udp, query, MAX_MESSAGE, 0, (struct sockaddr *)&peer, &peer_len);
    if (got < 0 || dnsnames_zone_answer(zone, DNSNAMES_ZONE_UDP, PAYLOAD_SIZE, query, (size_t)got, response, MAX_MESSAGE,
                                        &len) != DNSNAMES_ZONE_OK)
        return;
    sendto(udp, response, len, 0, (struct sockaddr *)&peer, peer_len);
}

/* Reads that many octets. */
static int read_all(int stream, uint8_t *octets, size_t len)
{
    while (len > 0) {
        ssize_t got = recv(stream, octets, len, 0);
        if (got <= 0)
            return 0;
        octets += got;
        len -= (size_t)got;
    }
    return 1;
}

static int write_all(int stream, const uint8_t *octets, size_t len)
{
    while (len > 0) {
        ssize_t sent = send(stream, octets, len, MSG_NOSIGNAL);
        if (sent <= 0)
            return 0;
        octets += sent;
        len -= (size_t)sent;
    }
    return 1;
}

/* Answers the queries of a connection, each behind its two octets of length, and returns how many there were. */
static long answer_stream(dnsnames_zone *zone, int tcp, uint8_t *query, uint8_t *response, long most)
{
    struct timeval patience = {2, 0};
    uint8_t size[2];
    long count = 0;
    int stream = accept(tcp, NULL, NULL);
    if (stream < 0)
        return 0;
    setsockopt(stream, SOL_SOCKET, SO_RCVTIMEO, &patience, sizeof patience);
    while (count < most && !is_ended && read_all(stream, size, 2)) {
        size_t query_len = (size_t)size[0] * 256 + size[1], len;
        if (!read_all(stream, query, query_len))
            break;
        count++;
        if (dnsnames_zone_answer(zone, DNSNAMES_ZONE_TCP, PAYLOAD_SIZE, query, query_len, response, MAX_MESSAGE, &len) !=
            DNSNAMES_ZONE_OK)
            break;
        size[0] = (uint8_t)(len / 256);
        size[1] = (uint8_t)(len % 256);
        if (!write_all(stream, size, 2) || !write_all(stream, response, len))
            break;
    }
    close(stream);
    return count;
}

int main(int argc, char **argv)
{
    static uint8_t query[MAX_MESSAGE], response[MAX_MESSAGE];
    dnsnames_zone zone = DNSNAMES_ZONE_INIT;
    struct sigaction action;
    struct pollfd sockets[2];
    uint16_t port;
    long left;
    if (argc != 5) {
        fprintf(stderr, "usage: serve APEX FILE PORT COUNT\n");
        return 2;
    }
    memset(&action, 0, sizeof action);
    action.sa_handler = end;
    sigaction(SIGINT, &action, NULL);
    sigaction(SIGTERM, &action, NULL);
    load(&zone, argv[1], argv[2]);
    port = (uint16_t)strtoul(argv[3], NULL, 10);
    left = strtol(argv[4], NULL, 10);
    sockets[0].fd = open_at(SOCK_DGRAM, &port);
    sockets[1].fd = open_at(SOCK_STREAM, &port);
    sockets[0].events = sockets[1].events = POLLIN;
    if (listen(sockets[1].fd, 16) != 0)
        fail("listen");
    printf("%u\n", (unsigned)port);
    fflush(stdout);
    while (left > 0 && !is_ended) {
        if (poll(sockets, 2, -1) <= 0)
            continue;
        if (sockets[0].revents & POLLIN) {
            answer_datagram(&zone, sockets[0].fd, query, response);
            left--;
        } else if (sockets[1].revents & POLLIN) {
            left -= answer_stream(&zone, sockets[1].fd, query, response, left);
        }
    }
    close(sockets[0].fd);
    close(sockets[1].fd);
    dnsnames_zone_free(&zone);
    return 0;
}
