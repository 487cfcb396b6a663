/* A zone (RFC 1034, 4.2.1), read from a text and asked with queries by proved functions.
 *
 * A zone is in memory that these calls allocate by malloc. The caller keeps a dnsnames_zone, which leads there:
 *
 *     dnsnames_zone zone = DNSNAMES_ZONE_INIT;
 *     dnsnames_zone_place place;
 *     uint32_t status = dnsnames_zone_load(&zone, text, text_len, apex, apex_len, DNSNAMES_ZONE_IN, &place);
 *     ..
 *     status = dnsnames_zone_answer(&zone, DNSNAMES_ZONE_UDP, 1232, query, query_len, buffer, sizeof buffer, &len);
 *     ..
 *     dnsnames_zone_free(&zone);
 *
 * No proof can see what a pointer from C leads to. So the caller owes:
 * - a dnsnames_zone is DNSNAMES_ZONE_INIT at first, and then as the calls leave it. It is used in one place: a copy is
 *   made only to forget the first. At most one call at a time is passed it, from whichever thread;
 * - a pointer leads to as many octets as the length or capacity beside it says, at most PTRDIFF_MAX, and a result's
 *   pointer to one value; a buffer or a result overlaps nothing else that the call is passed;
 * - malloc, realloc and free are those of one allocator, and no call is made from a signal handler.
 * A null pointer stands for no octets where its length is 0, and is refused elsewhere.
 */
#ifndef DNSNAMES_ZONE_H
#define DNSNAMES_ZONE_H

#include <stddef.h>
#include <stdint.h>

#ifdef __cplusplus
extern "C" {
#endif

/* A zone, or none. Its fields are those of the library. */
typedef struct dnsnames_zone {
    void *at;
    size_t full;
} dnsnames_zone;

#define DNSNAMES_ZONE_INIT {0, 0}

/* Where the text of a zone is refused: line and column of the first entry that is refused, or of its fault, counted from
 * 1. Where all entries are taken and they are no zone, both are 0, and the index is that of an RRset with a fault, in
 * canonical order (RFC 4034, 6.1), or 0. */
typedef struct dnsnames_zone_place {
    size_t line;
    size_t column;
    size_t index;
} dnsnames_zone_place;

/* The class Internet. */
enum { DNSNAMES_ZONE_IN = 1 };

/* What carries a response. */
enum { DNSNAMES_ZONE_UDP = 0, DNSNAMES_ZONE_TCP = 1 };

typedef enum dnsnames_zone_status {
    DNSNAMES_ZONE_OK = 0,
    /* The buffer is too small. It is unchanged, and *length is how many octets are needed. */
    DNSNAMES_ZONE_NO_ROOM = 8,
    /* The apex is no absolute name in wire format. */
    DNSNAMES_ZONE_NO_NAME = 9,
    /* A pointer is null: that of a result, or one whose length or capacity is not 0. */
    DNSNAMES_ZONE_NULL = 18,
    /* The dnsnames_zone holds none. */
    DNSNAMES_ZONE_NONE = 40,
    /* No message is sent: the query has fewer than 12 octets, or is a response. */
    DNSNAMES_ZONE_NO_RESPONSE = 41,
    /* An allocation failed. */
    DNSNAMES_ZONE_NO_MEMORY = 42
    /* Any other number says why a text is that of no zone: dnsnames_zone_strerror has it as a text. */
} dnsnames_zone_status;

/* Reads the text of a zone (RFC 1035, 5) at this apex, a name in wire format, and of this class. Until $ORIGIN says
 * otherwise, relative names go on with the apex, in data too, and @ is the apex; until a record says otherwise, its
 * class is that of the zone. $INCLUDE is refused.
 *
 * Another number than DNSNAMES_ZONE_OK says why the text is that of no zone, and *place where. A zone that was held is
 * freed where the new one is loaded, and else kept. */
uint32_t dnsnames_zone_load(dnsnames_zone *zone, const uint8_t *text, size_t text_len, const uint8_t *apex,
                            size_t apex_len, uint16_t class_, dnsnames_zone_place *place);

/* Gives the message that answers a query: over UDP, or over TCP, from a server that takes `payload_size` octets in a
 * datagram. *length becomes its size, at most 65,535 octets.
 * A query with the bit DO gets the records of DNSSEC that the zone has (RFC 4035, 3.1).
 *
 * NONE, NO_RESPONSE, NO_MEMORY: nothing is changed. NO_ROOM: the buffer is unchanged. */
uint32_t dnsnames_zone_answer(dnsnames_zone *zone, uint32_t transport, uint16_t payload_size, const uint8_t *query,
                              size_t query_len, uint8_t *buffer, size_t capacity, size_t *length);

/* Frees the zone, if one is held. None is held then. */
void dnsnames_zone_free(dnsnames_zone *zone);

/* What a status says: a text that stays. */
const char *dnsnames_zone_strerror(uint32_t status);

#ifdef __cplusplus
}
#endif

#endif
