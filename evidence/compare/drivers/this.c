/* This project, by its library for C. */
#include "dnsnames.h"
#include "line.h"

#ifndef LIBRARY_VERSION
#define LIBRARY_VERSION "unknown"
#endif

static const char *version(void)
{
    return LIBRARY_VERSION;
}

static bool read_name(const uint8_t *message, size_t len, size_t offset, struct name *name, size_t *end)
{
    uint8_t wire[255];
    size_t size;
    uint32_t compressed;
    if (dnsnames_read(message, len, offset, 255, wire, sizeof wire, &size, end, &compressed) != DNSNAMES_OK)
        return false;
    if (name != NULL) {
        name->len = size;
        memcpy(name->wire, wire, size);
    }
    return true;
}

static bool from_text(const char *text, size_t len, struct name *name)
{
    return dnsnames_from_text((const uint8_t *)text, len, name->wire, NAME_ROOM, &name->len) == DNSNAMES_OK;
}

static bool to_text(const struct name *name, char *text, size_t *len)
{
    return dnsnames_to_text(name->wire, name->len, 1, (uint8_t *)text, TEXT_ROOM, len) == DNSNAMES_OK;
}

static int compare(const struct name *left, const struct name *right)
{
    int32_t order;
    if (dnsnames_compare(left->wire, left->len, right->wire, right->len, &order) != DNSNAMES_OK)
        exit(2);
    return order;
}

static size_t compose(const struct name *names, size_t count, uint8_t *message)
{
    uint16_t table[128];
    size_t len = 12, table_len = 0;
    memset(message, 0, len);
    for (size_t i = 0; i < count; i++)
        if (dnsnames_append(message, MESSAGE_ROOM, &len, table, 128, &table_len, names[i].wire, names[i].len)
            != DNSNAMES_OK)
            break;
    return len;
}

const struct library library = { version, read_name, from_text, to_text, compare, compose };
