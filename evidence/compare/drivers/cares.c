/* c-ares. It makes names of text only inside of a query, and shows names only as it reads them. */
#include <ares.h>
#include "line.h"

static const char *version(void)
{
    return ares_version(NULL);
}

static bool read_name(const uint8_t *message, size_t len, size_t offset, struct name *name, size_t *end)
{
    char *text;
    long taken;
    if (ares_expand_name(message + offset, message, (int)len, &text, &taken) != ARES_SUCCESS)
        return false;
    *end = offset + (size_t)taken;
    bool fits = name == NULL || name_of_text(text, name);
    ares_free_string(text);
    return fits;
}

static bool from_text(const char *text, size_t len, struct name *name)
{
    (void)len;
    uint8_t *query;
    int size;
    if (ares_create_query(text, 1, 1, 0, 0, &query, &size, 0) != ARES_SUCCESS)
        return false;
    name->len = (size_t)size - 12 - 4;
    memcpy(name->wire, query + 12, name->len);
    ares_free_string(query);
    return true;
}

static bool to_text(const struct name *name, char *text, size_t *len)
{
    char *made;
    long taken;
    if (ares_expand_name(name->wire, name->wire, (int)name->len, &made, &taken) != ARES_SUCCESS)
        return false;
    *len = strlen(made);
    memcpy(text, made, *len);
    ares_free_string(made);
    return true;
}

const struct library library = { version, read_name, from_text, to_text, NULL, NULL };
