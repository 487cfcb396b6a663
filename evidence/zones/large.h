/* What large.c and ask.c share: files of queries, clocks, and the counts of responses. */
#ifndef LARGE_H
#define LARGE_H

#include <stdint.h>
#include <stdio.h>
#include <stdlib.h>
#include <time.h>

#define MAX_MESSAGE 65535
#define KINDS 5

static void fail(const char *what)
{
    perror(what);
    exit(1);
}

static uint8_t *read_file(const char *path, size_t *len)
{
    FILE *file = fopen(path, "rb");
    uint8_t *octets;
    long size;
    if (file == NULL || fseek(file, 0, SEEK_END) != 0 || (size = ftell(file)) < 0)
        fail(path);
    rewind(file);
    *len = (size_t)size;
    octets = malloc(*len + 1);
    if (octets == NULL || fread(octets, 1, *len, file) != *len)
        fail(path);
    fclose(file);
    return octets;
}

/* Seconds of a clock. */
static double now(clockid_t clock)
{
    struct timespec it;
    clock_gettime(clock, &it);
    return (double)it.tv_sec + (double)it.tv_nsec / 1e9;
}

/* The length of the query at this offset of a file of queries: each is behind its length in two octets. */
static size_t length_at(const uint8_t *queries, size_t at)
{
    return (size_t)queries[at] * 256 + queries[at + 1];
}

/* What a response says, by its response code, the bit AA and the number of its answers. */
static int kind_of(const uint8_t *response)
{
    int rcode = response[3] & 15;
    if (rcode != 0)
        return rcode == 3 ? 0 : 4;
    if ((response[2] & 4) == 0)
        return 1;
    return response[6] == 0 && response[7] == 0 ? 2 : 3;
}

static void print_kinds(const long counts[KINDS])
{
    printf("no such name %ld\nreferral %ld\nno data %ld\nfound %ld\nother %ld\n", counts[0], counts[1], counts[2],
           counts[3], counts[4]);
}

#endif
