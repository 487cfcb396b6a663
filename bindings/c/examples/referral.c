/* Writes a referral of at most so many octets.
 *
 *     referral LIMIT
 *
 * The name servers, and the address of the one below the zone cut (glue), are required: the first of these RRsets that has
 * no room sets the flag TC and ends the message (RFC 2181, 9; RFC 9471, 3). The address of the other server is left out
 * without it. */
#include "dnsnames.h"
#include <stdio.h>
#include <stdlib.h>
#include <string.h>

#define NAME(text) (const uint8_t *)(text), sizeof(text) /* the root is the zero octet behind the text */

static dnsnames_status push_all(dnsnames_builder *builder)
{
    static const uint8_t servers[] = "\3ns1\3sub\7example\3com\0\2ns\7example\3net";
    static const uint16_t names[2] = {21, 16}, one[1] = {4};
    static const uint8_t glue[4] = {192, 0, 2, 1}, other[4] = {192, 0, 2, 2};
    uint32_t pushed = 1;
    dnsnames_status status = dnsnames_builder_question(builder, NAME("\3www\3sub\7example\3com"), DNSNAMES_TYPE_A,
                                                       DNSNAMES_CLASS_IN);

    if (status == DNSNAMES_OK)
        status = dnsnames_builder_required(builder, DNSNAMES_AUTHORITY, NAME("\3sub\7example\3com"), DNSNAMES_TYPE_NS,
                                           DNSNAMES_CLASS_IN, 3600, servers, sizeof servers, names, 2, &pushed);
    if (status == DNSNAMES_OK && pushed)
        status = dnsnames_builder_required(builder, DNSNAMES_ADDITIONAL, NAME("\3ns1\3sub\7example\3com"),
                                           DNSNAMES_TYPE_A, DNSNAMES_CLASS_IN, 3600, glue, sizeof glue, one, 1,
                                           &pushed);
    if (status == DNSNAMES_OK && pushed)
        status = dnsnames_builder_extra(builder, DNSNAMES_ADDITIONAL, NAME("\2ns\7example\3net"), DNSNAMES_TYPE_A,
                                        DNSNAMES_CLASS_IN, 3600, other, sizeof other, one, 1, &pushed);
    return status;
}

int main(int argc, char **argv)
{
    uint8_t message[512];
    size_t limit = argc == 2 ? strtoul(argv[1], NULL, 10) : 0, len, i;
    dnsnames_builder builder;
    dnsnames_status status = dnsnames_builder_start(&builder, message, limit < sizeof message ? limit : sizeof message,
                                                    0x1234, DNSNAMES_FLAG_QR);

    if (status == DNSNAMES_OK)
        status = push_all(&builder);
    if (status == DNSNAMES_OK)
        status = dnsnames_builder_finish(&builder, &len);
    if (status != DNSNAMES_OK) {
        fprintf(stderr, "%s\n", dnsnames_strerror(status));
        return 1;
    }
    for (i = 0; i < len; i++)
        printf("%02x", (unsigned)message[i]);
    printf("\n");
    return 0;
}
