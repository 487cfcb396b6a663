/* Writes a query (RFC 1035, 4.1) for the records of a type that a name has, as hexadecimal digits. It takes answers of
 * 1,232 octets over UDP (RFC 6891, 6.2.3).
 *
 *     ask NAME TYPE
 *
 * TYPE is a mnemonic, as MX, or TYPE and a number. Status 1 where NAME is no name, or TYPE no type. */
#include "dnsnames.h"
#include <stdio.h>
#include <string.h>

/* An identifier, which a program that sends it draws at random. */
enum { ID = 0x1234 };

static dnsnames_status write_query(uint8_t *message, size_t capacity, size_t *len, const char *text, const char *type)
{
    uint8_t name[DNSNAMES_MAX_LEN];
    size_t name_len;
    uint16_t number;
    dnsnames_builder builder;
    dnsnames_status status = dnsnames_from_text((const uint8_t *)text, strlen(text), name, sizeof name, &name_len);

    if (status == DNSNAMES_OK)
        status = dnsnames_type_from_text((const uint8_t *)type, strlen(type), &number);
    if (status == DNSNAMES_OK)
        status = dnsnames_builder_start(&builder, message, capacity, ID, DNSNAMES_FLAG_RD);
    if (status == DNSNAMES_OK)
        status = dnsnames_builder_question(&builder, name, name_len, number, DNSNAMES_CLASS_IN);
    if (status == DNSNAMES_OK)
        status = dnsnames_builder_opt(&builder, 1232, 0, 0, 0, NULL, 0);
    if (status == DNSNAMES_OK)
        status = dnsnames_builder_finish(&builder, len);
    return status;
}

int main(int argc, char **argv)
{
    uint8_t message[512];
    size_t len, i;
    dnsnames_status status;

    if (argc != 3) {
        fprintf(stderr, "usage: ask NAME TYPE\n");
        return 2;
    }
    status = write_query(message, sizeof message, &len, argv[1], argv[2]);
    if (status != DNSNAMES_OK) {
        fprintf(stderr, "%s\n", dnsnames_strerror(status));
        return 1;
    }
    for (i = 0; i < len; i++)
        printf("%02x", (unsigned)message[i]);
    printf("\n");
    return 0;
}
