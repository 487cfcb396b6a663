/* Prints every name of the DNS message in a file: those that questions and records are of, with their type, and those
 * in the data of records.
 *
 *     names FILE
 *
 * Status 1 where the message is refused; what could be read before is printed. */
#include "dnsnames.h"
#include <stdio.h>
#include <stdlib.h>

static uint8_t message[65535];
static size_t message_len;

static int refuse(const char *what, size_t offset, dnsnames_status status)
{
    fprintf(stderr, "%s at offset %lu: %s\n", what, (unsigned long)offset, dnsnames_strerror(status));
    return 1;
}

static int print(const char *section, const uint8_t *name, size_t len, unsigned type, const char *note)
{
    uint8_t text[DNSNAMES_MAX_TEXT];
    size_t text_len;
    dnsnames_status status = dnsnames_to_text(name, len, 1, text, sizeof text, &text_len);

    if (status != DNSNAMES_OK)
        return refuse("name", 0, status);
    printf("%-10s %.*s %u%s\n", section, (int)text_len, (const char *)text, type, note);
    return 0;
}

/* Prints the name at an offset. */
static int print_name(const char *section, size_t offset, unsigned type)
{
    uint8_t name[DNSNAMES_MAX_LEN];
    size_t len, end;
    uint32_t compressed;
    dnsnames_status status = dnsnames_read(message, message_len, offset, DNSNAMES_MAX_POINTERS, name, sizeof name,
                                           &len, &end, &compressed);

    if (status != DNSNAMES_OK)
        return refuse("name", offset, status);
    return print(section, name, len, type, compressed ? " (compressed)" : "");
}

/* Prints the names in a record's data, of which data of most types have none. */
static int print_data(const dnsnames_record_fields *record)
{
    uint8_t name[DNSNAMES_MAX_LEN];
    size_t index, len;

    for (index = 0;; index++) {
        dnsnames_status status = dnsnames_data_name(message, message_len, record->data, record->data_len, record->type,
                                                    index, name, sizeof name, &len);
        if (status == DNSNAMES_NO_FIELD)
            return 0;
        if (status != DNSNAMES_OK)
            return refuse("data", record->data, status);
        if (print("  data", name, len, record->type, "") != 0)
            return 1;
    }
}

static int print_names(void)
{
    static const char *const sections[] = {"answer", "authority", "additional"};
    dnsnames_header_fields header;
    dnsnames_question_fields question;
    dnsnames_record_fields record;
    size_t offset = 12;
    unsigned counts[3], section, i;
    dnsnames_status status = dnsnames_header(message, message_len, &header);

    if (status != DNSNAMES_OK)
        return refuse("header", 0, status);
    for (i = 0; i < header.questions; i++, offset = question.end) {
        status = dnsnames_question(message, message_len, offset, &question);
        if (status != DNSNAMES_OK)
            return refuse("question", offset, status);
        if (print_name("question", offset, question.type) != 0)
            return 1;
    }
    counts[0] = header.answers;
    counts[1] = header.authority;
    counts[2] = header.additional;
    for (section = 0; section < 3; section++) {
        for (i = 0; i < counts[section]; i++, offset = record.end) {
            status = dnsnames_record(message, message_len, offset, &record);
            if (status != DNSNAMES_OK)
                return refuse("record", offset, status);
            if (print_name(sections[section], offset, record.type) != 0 || print_data(&record) != 0)
                return 1;
        }
    }
    return 0;
}

int main(int argc, char **argv)
{
    FILE *file;

    if (argc != 2 || (file = fopen(argv[1], "rb")) == NULL) {
        fprintf(stderr, "usage: names FILE\n");
        return 2;
    }
    message_len = fread(message, 1, sizeof message, file);
    fclose(file);
    return print_names();
}
