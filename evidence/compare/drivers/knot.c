/* libknot. It composes names of records alone, so an answer of a message has one A record for each name. */
#include <libknot/libknot.h>
#include <libknot/version.h>
#include "line.h"

static const char *version(void)
{
    static char text[32];
    snprintf(text, sizeof text, "%d.%d.%d", KNOT_VERSION_MAJOR, KNOT_VERSION_MINOR, KNOT_VERSION_PATCH);
    return text;
}

static bool read_name(const uint8_t *message, size_t len, size_t offset, struct name *name, size_t *end)
{
    uint8_t wire[KNOT_DNAME_MAXLEN];
    int taken = knot_dname_wire_check(message + offset, message + len, message);
    if (taken <= 0)
        return false;
    int size = knot_dname_unpack(wire, message + offset, sizeof wire, message);
    if (size <= 0)
        return false;
    *end = offset + (size_t)taken;
    if (name != NULL) {
        name->len = (size_t)size;
        memcpy(name->wire, wire, name->len);
    }
    return true;
}

static bool from_text(const char *text, size_t len, struct name *name)
{
    (void)len;
    if (knot_dname_from_str(name->wire, text, KNOT_DNAME_MAXLEN) == NULL)
        return false;
    name->len = knot_dname_size(name->wire);
    return true;
}

static bool to_text(const struct name *name, char *text, size_t *len)
{
    if (knot_dname_to_str(text, name->wire, TEXT_ROOM) == NULL)
        return false;
    *len = strlen(text);
    return true;
}

/* Both in lower case, as libknot wants them. */
static int compare(const struct name *left, const struct name *right)
{
    knot_dname_storage_t low_left, low_right;
    knot_dname_copy_lower(low_left, left->wire);
    knot_dname_copy_lower(low_right, right->wire);
    return knot_dname_cmp(low_left, low_right);
}

static size_t compose(const struct name *names, size_t count, uint8_t *message)
{
    static const uint8_t address[4] = { 192, 0, 2, 1 };
    (void)message;
    knot_pkt_t *packet = need(knot_pkt_new(NULL, MESSAGE_ROOM, NULL));
    knot_pkt_begin(packet, KNOT_ANSWER);
    for (size_t i = 0; i < count; i++) {
        knot_rrset_t set;
        knot_rrset_init(&set, (knot_dname_t *)names[i].wire, KNOT_RRTYPE_A, KNOT_CLASS_IN, 3600);
        bool put = knot_rrset_add_rdata(&set, address, sizeof address, NULL) == 0
            && knot_pkt_put(packet, KNOT_COMPR_HINT_NONE, &set, 0) == 0;
        knot_rdataset_clear(&set.rrs, NULL);
        if (!put)
            break;
    }
    size_t written = packet->size;
    knot_pkt_free(packet);
    return written;
}

const struct library library = { version, read_name, from_text, to_text, compare, compose };
