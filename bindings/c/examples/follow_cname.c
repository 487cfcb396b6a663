/* Follows the CNAME records (RFC 1034, 3.6.2) of the response in a file, from the name in its question, and prints
 * each name on the way.
 *
 *     follow_cname FILE
 *
 * Status 1 where the message is refused, or the chain has more links than there are CNAME records: it then comes back to
 * a name. So its cost goes by the records that are there, and not by how many the header tells of. */
#include "dnsnames.h"
#include <stdio.h>
#include <string.h>

enum { TYPE_CNAME = 5 };

struct name {
    uint8_t octets[DNSNAMES_MAX_LEN];
    size_t len;
};

static uint8_t message[65535];
static size_t message_len;

static dnsnames_status read_name(size_t offset, struct name *name)
{
    size_t end;
    uint32_t compressed;

    return dnsnames_read(message, message_len, offset, DNSNAMES_MAX_POINTERS, name->octets, sizeof name->octets,
                         &name->len, &end, &compressed);
}

static void print(const struct name *name)
{
    uint8_t text[DNSNAMES_MAX_TEXT];
    size_t text_len;

    if (dnsnames_to_text(name->octets, name->len, 1, text, sizeof text, &text_len) == DNSNAMES_OK)
        puts((const char *)text);
}

struct answers {
    size_t offset;    /* of the first */
    unsigned count;   /* how many the header tells of */
    unsigned aliases; /* how many CNAME records are there */
};

/* Counts the CNAME records, up to the first record that can't be read. */
static void count_aliases(struct answers *answers)
{
    dnsnames_record_fields record;
    size_t offset = answers->offset;
    unsigned left;

    answers->aliases = 0;
    for (left = answers->count; left > 0; left--, offset = record.end) {
        if (dnsnames_record(message, message_len, offset, &record) != DNSNAMES_OK)
            return;
        answers->aliases += record.type == TYPE_CNAME;
    }
}

/* Looks among the answers for the alias of a name. *found becomes 1 where it is there, and the name its target. */
static dnsnames_status find_alias(const struct answers *answers, struct name *name, uint32_t *found)
{
    struct name owner;
    dnsnames_record_fields record;
    size_t offset = answers->offset;
    unsigned left;
    dnsnames_status status;

    *found = 0;
    for (left = answers->count; left > 0; left--, offset = record.end) {
        status = dnsnames_record(message, message_len, offset, &record);
        if (status != DNSNAMES_OK)
            return status;
        if (record.type != TYPE_CNAME)
            continue;
        if ((status = read_name(offset, &owner)) != DNSNAMES_OK ||
            (status = dnsnames_eq(owner.octets, owner.len, name->octets, name->len, found)) != DNSNAMES_OK)
            return status;
        if (*found)
            return dnsnames_data_name(message, message_len, record.data, record.data_len, record.type, 0, name->octets,
                                      sizeof name->octets, &name->len);
    }
    return DNSNAMES_OK;
}

static int refuse(dnsnames_status status)
{
    fprintf(stderr, "refused: %s\n", dnsnames_strerror(status));
    return 1;
}

static int follow(void)
{
    struct name name;
    struct answers answers;
    dnsnames_header_fields header;
    dnsnames_question_fields question;
    uint32_t found = 1;
    unsigned links;
    dnsnames_status status;

    status = dnsnames_header(message, message_len, &header);
    if (status == DNSNAMES_OK)
        status = dnsnames_question(message, message_len, 12, &question);
    if (status == DNSNAMES_OK)
        status = read_name(12, &name);
    if (status != DNSNAMES_OK)
        return refuse(status);
    answers.offset = question.end;
    answers.count = header.answers;
    count_aliases(&answers);
    for (links = 0; found; links++) {
        if (links > answers.aliases) {
            fprintf(stderr, "the aliases lead in a ring\n");
            return 1;
        }
        print(&name);
        status = find_alias(&answers, &name, &found);
        if (status != DNSNAMES_OK)
            return refuse(status);
    }
    return 0;
}

int main(int argc, char **argv)
{
    FILE *file;

    if (argc != 2 || (file = fopen(argv[1], "rb")) == NULL) {
        fprintf(stderr, "usage: follow_cname FILE\n");
        return 2;
    }
    message_len = fread(message, 1, sizeof message, file);
    fclose(file);
    return follow();
}
