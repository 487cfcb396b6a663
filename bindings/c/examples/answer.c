/* Writes a response with one MX record, and reads it back.
 *
 *     answer
 *
 * The zone's name is compressed where it is repeated, in the data too, since names in those of MX may be (RFC 1035). */
#include "dnsnames.h"
#include <stdio.h>
#include <string.h>

/* How many questions and records are read at most. */
enum { MOST = 8 };

struct name {
    uint8_t octets[DNSNAMES_MAX_LEN];
    size_t len;
};

static dnsnames_status write_response(uint8_t *message, size_t capacity, size_t *len, const char *zone,
                                      const char *exchange)
{
    struct name owner, target;
    uint8_t data[2 + DNSNAMES_MAX_LEN] = {0, 10};
    uint16_t flags = DNSNAMES_FLAG_QR | DNSNAMES_FLAG_RD | DNSNAMES_FLAG_RA;
    dnsnames_builder builder;
    dnsnames_status status;

    if ((status = dnsnames_from_text((const uint8_t *)zone, strlen(zone), owner.octets, sizeof owner.octets,
                                     &owner.len)) != DNSNAMES_OK ||
        (status = dnsnames_from_text((const uint8_t *)exchange, strlen(exchange), target.octets,
                                     sizeof target.octets, &target.len)) != DNSNAMES_OK ||
        (status = dnsnames_builder_start(&builder, message, capacity, 0x1234, flags)) != DNSNAMES_OK ||
        (status = dnsnames_builder_question(&builder, owner.octets, owner.len, DNSNAMES_TYPE_MX,
                                            DNSNAMES_CLASS_IN)) != DNSNAMES_OK)
        return status;
    memcpy(data + 2, target.octets, target.len);
    status = dnsnames_builder_record(&builder, DNSNAMES_ANSWER, owner.octets, owner.len, DNSNAMES_TYPE_MX,
                                     DNSNAMES_CLASS_IN, 3600, data, 2 + target.len);
    return status == DNSNAMES_OK ? dnsnames_builder_finish(&builder, len) : status;
}

/* Prints the owner, the time to live, the preference and the exchange of an MX record. */
static dnsnames_status print_mx(const uint8_t *message, size_t len, const uint32_t *row, const uint8_t *names)
{
    struct name exchange;
    uint8_t owner[DNSNAMES_MAX_TEXT], target[DNSNAMES_MAX_TEXT];
    size_t data = row[DNSNAMES_ROW_DATA], data_len = row[DNSNAMES_ROW_DATA_LEN], text_len;
    uint32_t preference;
    dnsnames_status status;

    if ((status = dnsnames_data_number(message, len, data, data_len, DNSNAMES_TYPE_MX, DNSNAMES_PREFERENCE,
                                       &preference)) != DNSNAMES_OK ||
        (status = dnsnames_data_name(message, len, data, data_len, DNSNAMES_TYPE_MX, 0, exchange.octets,
                                     sizeof exchange.octets, &exchange.len)) != DNSNAMES_OK ||
        (status = dnsnames_to_text(names + row[DNSNAMES_ROW_NAME], row[DNSNAMES_ROW_NAME_LEN], 1, owner,
                                   sizeof owner, &text_len)) != DNSNAMES_OK ||
        (status = dnsnames_to_text(exchange.octets, exchange.len, 1, target, sizeof target, &text_len)) !=
            DNSNAMES_OK)
        return status;
    printf("%s %lu MX %lu %s\n", (const char *)owner, (unsigned long)row[DNSNAMES_ROW_TTL],
           (unsigned long)preference, (const char *)target);
    return DNSNAMES_OK;
}

/* The answers of a message stand behind its questions. */
static dnsnames_status print_answers(const uint8_t *message, size_t len)
{
    uint32_t rows[MOST * DNSNAMES_ROW_LEN];
    uint8_t names[MOST * DNSNAMES_MAX_LEN];
    size_t row_count, names_len, i;
    dnsnames_header_fields header;
    dnsnames_status status = dnsnames_header(message, len, &header);

    if (status == DNSNAMES_OK)
        status = dnsnames_table(message, len, DNSNAMES_MAX_POINTERS, rows, sizeof rows / sizeof *rows, names,
                                sizeof names, &row_count, &names_len);
    if (status != DNSNAMES_OK)
        return status;
    for (i = header.questions; status == DNSNAMES_OK && i < (size_t)header.questions + header.answers; i++)
        if (rows[i * DNSNAMES_ROW_LEN + DNSNAMES_ROW_TYPE] == DNSNAMES_TYPE_MX)
            status = print_mx(message, len, rows + i * DNSNAMES_ROW_LEN, names);
    return status;
}

int main(void)
{
    uint8_t message[512];
    size_t len, i;
    dnsnames_status status = write_response(message, sizeof message, &len, "example.com", "mail.example.com");

    if (status == DNSNAMES_OK) {
        for (i = 0; i < len; i++)
            printf("%02x", (unsigned)message[i]);
        printf("\n");
        status = print_answers(message, len);
    }
    if (status != DNSNAMES_OK) {
        fprintf(stderr, "%s\n", dnsnames_strerror(status));
        return 1;
    }
    return 0;
}
