/* The calls of dnsnames_zone.h over those that are proved: null pointers are found here, and all else is theirs.
 *
 * The proved calls are in the archive of the crate dnsnames_zone_c under the same names; the Makefile puts proved_
 * before them. */
#include "dnsnames_zone.h"

/* Stands for a null pointer to no octets: a slice's pointer isn't null in the proved calls. Nothing is read there, and
 * nothing is written. */
static const uint8_t nothing[1] = {0};

uint32_t proved_dnsnames_zone_load(dnsnames_zone *zone, const uint8_t *text, size_t text_len, const uint8_t *apex,
                                   size_t apex_len, uint16_t class_, size_t *line, size_t *column, size_t *index);
uint32_t proved_dnsnames_zone_answer(dnsnames_zone *zone, uint32_t transport, uint16_t payload_size,
                                     const uint8_t *query, size_t query_len, uint8_t *buffer, size_t capacity,
                                     size_t *length);
void proved_dnsnames_zone_free(dnsnames_zone *zone);

/* Whether a pointer is null that leads to octets. */
static int is_lacking(const void *octets, size_t len)
{
    return octets == NULL && len != 0;
}

static const uint8_t *octets_or_nothing(const uint8_t *octets)
{
    return octets == NULL ? nothing : octets;
}

uint32_t dnsnames_zone_load(dnsnames_zone *zone, const uint8_t *text, size_t text_len, const uint8_t *apex,
                            size_t apex_len, uint16_t class_, dnsnames_zone_place *place)
{
    if (zone == NULL || place == NULL || is_lacking(text, text_len) || is_lacking(apex, apex_len))
        return DNSNAMES_ZONE_NULL;
    return proved_dnsnames_zone_load(zone, octets_or_nothing(text), text_len, octets_or_nothing(apex), apex_len, class_,
                                     &place->line, &place->column, &place->index);
}

uint32_t dnsnames_zone_answer(dnsnames_zone *zone, uint32_t transport, uint16_t payload_size, const uint8_t *query,
                              size_t query_len, uint8_t *buffer, size_t capacity, size_t *length)
{
    if (zone == NULL || length == NULL || is_lacking(query, query_len) || is_lacking(buffer, capacity))
        return DNSNAMES_ZONE_NULL;
    return proved_dnsnames_zone_answer(zone, transport, payload_size, octets_or_nothing(query), query_len,
                                       buffer == NULL ? (uint8_t *)nothing : buffer, capacity, length);
}

void dnsnames_zone_free(dnsnames_zone *zone)
{
    if (zone != NULL)
        proved_dnsnames_zone_free(zone);
}

const char *dnsnames_zone_strerror(uint32_t status)
{
    switch (status) {
    case 0:
        return "no error";
    case 8:
        return "the buffer is too small";
    case 9:
        return "no absolute name";
    case 18:
        return "a null pointer";
    case 40:
        return "no zone";
    case 41:
        return "no message is sent";
    case 42:
        return "out of memory";
    case 44:
        return "$INCLUDE isn't taken";
    case 45:
        return "class other than that of the zone";
    case 46:
        return "owner not at or below the apex";
    case 47:
        return "type that no record of a zone has";
    case 50:
        return "RRsets not in canonical order, or two of one owner and type";
    case 51:
        return "no SOA at the apex";
    case 52:
        return "no name servers at the apex";
    case 53:
        return "DS at the apex";
    case 60:
        return "a quote without a second one";
    case 61:
        return "a backslash at the end";
    case 62:
        return "a parenthesis that isn't closed";
    case 63:
        return "a closing parenthesis without an opening one";
    case 64:
        return "not a name";
    case 65:
        return "the type is missing";
    case 66:
        return "not a TTL";
    case 67:
        return "not a type or a class";
    case 68:
        return "no owner before this record";
    case 69:
        return "no TTL for this record";
    case 70:
        return "not a directive";
    case 71:
        return "a word is missing";
    case 72:
        return "a word too many";
    case 80:
        return "a quote without a second one";
    case 81:
        return "a backslash at the end";
    case 82:
        return "a parenthesis in data";
    case 83:
        return "a word is missing";
    case 84:
        return "a word too many";
    case 85:
        return "not a number of this field";
    case 86:
        return "not a type";
    case 87:
        return "not a time";
    case 88:
        return "not an IPv4 address";
    case 89:
        return "not an IPv6 address";
    case 90:
        return "not a name";
    case 91:
        return "not a character string";
    case 92:
        return "not a tag of letters and digits";
    case 93:
        return "not the text of octets";
    case 94:
        return "not hexadecimal digits";
    case 95:
        return "not base64";
    case 96:
        return "not a hyphen or hexadecimal digits";
    case 97:
        return "not base32hex digits";
    case 98:
        return "data of this type is taken after \\# alone";
    case 99:
        return "not as many octets as \\# states";
    case 100:
        return "not data of this type";
    case 101:
        return "more than 65,535 octets of data";
    case 110:
        return "owner not at or below the apex";
    case 111:
        return "type that no record of a zone has";
    case 112:
        return "no records";
    case 113:
        return "data not in ascending order, or repeated";
    case 114:
        return "SOA below the apex, or more than one SOA record";
    case 115:
        return "CNAME or DNAME that is not one record with one name";
    case 116:
        return "NS or DNAME at a wildcard below the apex";
    case 117:
        return "type that cannot be beside a CNAME";
    case 118:
        return "DNAME with records below its owner";
    case 119:
        return "DNAME at a zone cut";
    default:
        return "no status";
    }
}
