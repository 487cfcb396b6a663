/* The C library's names (libresolv): dn_expand, ns_name_pton, ns_name_ntop, dn_comp. It has no canonical order. */
#include <arpa/nameser.h>
#include <gnu/libc-version.h>
#include <netinet/in.h>
#include <resolv.h>
#include "line.h"

static const char *version(void)
{
    return gnu_get_libc_version();
}

static bool read_name(const uint8_t *message, size_t len, size_t offset, struct name *name, size_t *end)
{
    char text[TEXT_ROOM];
    int taken = dn_expand(message, message + len, message + offset, text, sizeof text);
    if (taken < 0)
        return false;
    *end = offset + (size_t)taken;
    return name == NULL || name_of_text(text, name);
}

static bool from_text(const char *text, size_t len, struct name *name)
{
    (void)len;
    uint8_t wire[NS_MAXCDNAME];
    if (ns_name_pton(text, wire, sizeof wire) < 0)
        return false;
    name->len = 0;
    while (wire[name->len] != 0)
        name->len += wire[name->len] + 1u;
    name->len++;
    memcpy(name->wire, wire, name->len);
    return true;
}

static bool to_text(const struct name *name, char *text, size_t *len)
{
    if (ns_name_ntop(name->wire, text, TEXT_ROOM) < 0)
        return false;
    *len = strlen(text);
    return true;
}

/* dn_comp takes text, which it reads again for each name. */
static size_t compose(const struct name *names, size_t count, uint8_t *message)
{
    static const uint8_t *written[MESSAGE_ROOM];
    const uint8_t **last = written + sizeof written / sizeof *written;
    size_t len = 12;
    memset(message, 0, len);
    written[0] = message;
    written[1] = NULL;
    for (size_t i = 0; i < count; i++) {
        char text[TEXT_ROOM];
        if (ns_name_ntop(names[i].wire, text, sizeof text) < 0)
            break;
        int taken = dn_comp(text, message + len, (int)(MESSAGE_ROOM - len), (uint8_t **)written, (uint8_t **)last);
        if (taken < 0)
            break;
        len += (size_t)taken;
    }
    return len;
}

const struct library library = { version, read_name, from_text, to_text, NULL, compose };
