/* Writing with compression, and round trips: dnsnames_append, dnsnames_plan. The input is a capacity (or that the
 * writing begins shortly before the offsets that no pointer leads to) and a message, of which all names that follow
 * one another are written. */
#include "harness.h"

/* The longest suffix, but the root, that is read at an offset of the table, and the first such offset: where it begins
 * in the name, or -1. */
static int plan(const uint8_t *octets, size_t len, const uint16_t *table, size_t table_len, const struct name *name,
                size_t *offset)
{
    for (size_t at = 0; name->wire[at] != 0; at += 1u + name->wire[at]) {
        struct name suffix = { name->len - at, { 0 } }, found;
        memcpy(suffix.wire, name->wire + at, suffix.len);
        for (size_t i = 0; i < table_len; i++) {
            size_t end;
            bool compressed;
            if (reader_name(octets, len, table[i], 255, &found, &end, &compressed) && same_name(&found, &suffix)) {
                *offset = table[i];
                return (int)at;
            }
        }
    }
    return -1;
}

/* Whether the text of a name reads as the name. */
static bool comes_back(const struct name *name)
{
    uint8_t text[DNSNAMES_MAX_TEXT];
    struct name back;
    size_t len;
    return dnsnames_to_text(name->wire, name->len, 1, text, sizeof text, &len) == DNSNAMES_OK
        && dnsnames_from_text(text, len, back.wire, 255, &back.len) == DNSNAMES_OK
        && back.len == name->len && memcmp(back.wire, name->wire, back.len) == 0;
}

enum { FAR = 16384, CAPACITY = FAR + 1024 };

/* A message that names are written to, and what it was before the last one. */
struct message {
    size_t capacity, len, old_len, table_len, old_table_len;
    uint16_t table[DNSNAMES_MAX_TABLE];
    uint8_t octets[CAPACITY + 1], old[CAPACITY + 1];
    /* Where the first names begin, those that are a pointer alone, too: a table in which a name can stand often. */
    size_t begin_count;
    uint16_t begins[DNSNAMES_MAX_TABLE];
};

/* dnsnames_plan with the table of names' beginnings, to which the next one is then added. */
static void check_plan(struct message *message, const struct name *name)
{
    size_t want_offset = 0, begin = 7;
    uint16_t offset = 7;
    int want = plan(message->octets, message->len, message->begins, message->begin_count, name, &want_offset);
    uint32_t status = dnsnames_plan(message->octets, message->len, message->begins, message->begin_count, name->wire,
                                    name->len, &begin, &offset);
    MUST(status == (want < 0 ? DNSNAMES_FLAT : DNSNAMES_OK));
    MUST(want < 0 ? begin == 7 && offset == 7 : begin == (size_t)want && offset == want_offset);
    if (message->begin_count < DNSNAMES_MAX_TABLE && message->len < FAR)
        message->begins[message->begin_count++] = (uint16_t)message->len;
}

/* The table has the labels that were written, as long as there is room for them and a pointer can lead there. `last`
 * is the size of what ends the name: a root or a pointer. */
static void check_table(const struct message *message, size_t last)
{
    size_t added = message->old_table_len, at = message->old_len;
    while (at + last < message->len && at < FAR && added < DNSNAMES_MAX_TABLE) {
        MUST(message->table[added++] == at);
        at += 1u + message->octets[at];
    }
    MUST(message->table_len == added);
}

/* What was written last reads as the name, by both readers, but for the case of shared letters. */
static void check_read(const struct message *message, const struct name *name)
{
    struct name back;
    size_t end, read_len, read_end;
    bool compressed;
    uint8_t read[255];
    uint32_t flag;
    MUST(reader_name(message->octets, message->len, message->old_len, 255, &back, &end, &compressed));
    MUST(same_name(&back, name) && end == message->len);
    MUST(dnsnames_read(message->octets, message->len, message->old_len, 255, read, sizeof read, &read_len, &read_end,
                       &flag) == DNSNAMES_OK);
    MUST(read_len == back.len && memcmp(read, back.wire, read_len) == 0 && read_end == end && flag == compressed);
}

/* Writes a name; false where there is no room for it. */
static bool append(struct message *message, const struct name *name)
{
    size_t target = 0, len = message->old_len = message->len;
    int begin = plan(message->octets, len, message->table, message->table_len, name, &target);
    size_t want = begin < 0 ? name->len : (size_t)begin + 2;
    message->old_table_len = message->table_len;
    memcpy(message->old, message->octets, message->capacity + 1);
    uint32_t status = dnsnames_append(message->octets, message->capacity, &message->len, message->table,
                                      DNSNAMES_MAX_TABLE, &message->table_len, name->wire, name->len);
    if (len + want > message->capacity) {
        MUST(status == DNSNAMES_NO_ROOM && message->len == len && message->table_len == message->old_table_len);
        MUST(memcmp(message->old, message->octets, message->capacity + 1) == 0);
        return false;
    }
    MUST(status == DNSNAMES_OK && message->len == len + want && memcmp(message->old, message->octets, len) == 0);
    len += want;
    MUST(memcmp(message->old + len, message->octets + len, message->capacity + 1 - len) == 0);
    if (begin >= 0)
        MUST(message->octets[len - 2] * 256u + message->octets[len - 1] == 0xC000 + target);
    check_read(message, name);
    check_table(message, begin < 0 ? 1 : 2);
    return true;
}

int LLVMFuzzerTestOneInput(const uint8_t *data, size_t size)
{
    static struct message message;
    if (size < 1)
        return 0;
    bool begins_far = data[0] >= 96 && data[0] < 128;
    message.capacity = begins_far ? CAPACITY : data[0] < 128 ? 2048 : data[0] * 2u;
    message.len = begins_far ? FAR + 96u - data[0] : 12;
    message.table_len = message.begin_count = 0;
    memset(message.octets, 0, message.capacity + 1);
    struct name name;
    for (size_t at = 1, end = 0; at < size; at = end) {
        bool compressed;
        if (!reader_name(data, size, at, 255, &name, &end, &compressed))
            break;
        MUST(comes_back(&name));
        check_plan(&message, &name);
        if (!append(&message, &name))
            break;
    }
    return 0;
}
