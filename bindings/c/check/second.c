#include "second.h"
#include <string.h>

/* What stands at an offset (RFC 1035, 4.1.4). */
enum kind { ROOT, LABEL, POINTER, BAD_TYPE, CUT };

struct head {
    enum kind kind;
    size_t len;    /* of a label */
    size_t target; /* of a pointer */
};

static struct head head_at(const uint8_t *octets, size_t octets_len, size_t offset)
{
    struct head head = {CUT, 0, 0};
    uint8_t first;

    if (offset >= octets_len)
        return head;
    first = octets[offset];
    if (first == 0) {
        head.kind = ROOT;
    } else if (first < 64) {
        head.len = first;
        if (octets_len - offset - 1 >= first)
            head.kind = LABEL;
    } else if (first < 192) {
        head.kind = BAD_TYPE;
    } else if (octets_len - offset >= 2) {
        head.kind = POINTER;
        head.target = (size_t)(first & 63) << 8 | octets[offset + 1];
    }
    return head;
}

/* The name at an offset, uncompressed in 255 octets. */
static uint32_t walk(const uint8_t *message, size_t message_len, size_t offset, unsigned limit, uint8_t *name,
                     size_t *length, size_t *end, uint32_t *compressed)
{
    unsigned pointers = 0;
    size_t len = 0, behind = 0;
    uint32_t scattered = 0;

    for (;;) {
        struct head head = head_at(message, message_len, offset);
        switch (head.kind) {
        case CUT:
            return DNSNAMES_SHORT_INPUT;
        case BAD_TYPE:
            return DNSNAMES_LABEL_TYPE;
        case ROOT:
            name[len] = 0;
            *length = len + 1;
            *end = pointers ? behind : offset + 1;
            *compressed = scattered;
            return DNSNAMES_OK;
        case LABEL:
            /* 255 octets at most, and the root is still to come (RFC 1035, 3.1). */
            if (len + 1 + head.len + 1 > 255)
                return DNSNAMES_LONG_NAME;
            memcpy(name + len, message + offset, 1 + head.len);
            len += 1 + head.len;
            offset += 1 + head.len;
            break;
        case POINTER:
            if (head.target >= offset || pointers == limit)
                return DNSNAMES_TOO_MANY_POINTERS;
            if (pointers == 0)
                behind = offset + 2;
            if (len > 0)
                scattered = 1;
            pointers++;
            offset = head.target;
            break;
        }
    }
}

/* Puts octets into a caller's buffer. */
static uint32_t give(const uint8_t *octets, size_t len, uint8_t *buffer, size_t capacity, size_t *length)
{
    *length = len;
    if (capacity < len)
        return DNSNAMES_NO_ROOM;
    if (len > 0)
        memcpy(buffer, octets, len);
    return DNSNAMES_OK;
}

uint32_t SECOND(read)(const uint8_t *message, size_t message_len, size_t offset, uint8_t limit, uint8_t *buffer,
                      size_t capacity, size_t *length, size_t *end, uint32_t *compressed)
{
    uint8_t name[255];
    size_t len, behind;
    uint32_t through, status = walk(message, message_len, offset, limit, name, &len, &behind, &through);

    if (status != DNSNAMES_OK)
        return status;
    status = give(name, len, buffer, capacity, length);
    *end = behind;
    *compressed = through;
    return status;
}

uint32_t SECOND(skip)(const uint8_t *message, size_t message_len, size_t offset, size_t *end)
{
    size_t len = 0;

    for (;;) {
        struct head head = head_at(message, message_len, offset);
        switch (head.kind) {
        case CUT:
            return DNSNAMES_SHORT_INPUT;
        case BAD_TYPE:
            return DNSNAMES_LABEL_TYPE;
        case ROOT:
            if (len + 1 > 255)
                return DNSNAMES_LONG_NAME;
            *end = offset + 1;
            return DNSNAMES_OK;
        case POINTER:
            *end = offset + 2;
            return DNSNAMES_OK;
        case LABEL:
            if (len + 1 + head.len > 255)
                return DNSNAMES_LONG_NAME;
            len += 1 + head.len;
            offset += 1 + head.len;
            break;
        }
    }
}

uint32_t SECOND(check)(const uint8_t *octets, size_t len)
{
    size_t offset = 0;

    if (len > 255)
        return DNSNAMES_LONG_NAME;
    for (;;) {
        struct head head = head_at(octets, len, offset);
        switch (head.kind) {
        case CUT:
            return offset > 0 && offset == len ? DNSNAMES_RELATIVE : DNSNAMES_SHORT_INPUT;
        case BAD_TYPE:
            return DNSNAMES_LABEL_TYPE;
        case POINTER:
            return DNSNAMES_COMPRESSED;
        case ROOT:
            return offset + 1 == len ? DNSNAMES_OK : DNSNAMES_TRAILING_DATA;
        case LABEL:
            offset += 1 + head.len;
            break;
        }
    }
}

uint32_t SECOND(check_relative)(const uint8_t *octets, size_t len)
{
    size_t offset = 0;

    if (len > 254)
        return DNSNAMES_LONG_NAME;
    while (offset < len) {
        struct head head = head_at(octets, len, offset);
        switch (head.kind) {
        case CUT:
            return DNSNAMES_SHORT_INPUT;
        case BAD_TYPE:
            return DNSNAMES_LABEL_TYPE;
        case POINTER:
            return DNSNAMES_COMPRESSED;
        case ROOT:
            return DNSNAMES_ABSOLUTE;
        case LABEL:
            offset += 1 + head.len;
            break;
        }
    }
    return DNSNAMES_OK;
}

/* Whether octets are UTF-8 (RFC 3629, 4). */
static int is_utf8(const uint8_t *text, size_t len)
{
    size_t i = 0;

    while (i < len) {
        uint8_t first = text[i];
        uint8_t low = 0x80, high = 0xbf;
        size_t more, k;
        if (first < 0x80)
            more = 0;
        else if (first >= 0xc2 && first <= 0xdf)
            more = 1;
        else if (first >= 0xe0 && first <= 0xef)
            more = 2;
        else if (first >= 0xf0 && first <= 0xf4)
            more = 3;
        else
            return 0;
        if (len - i - 1 < more)
            return 0;
        if (first == 0xe0)
            low = 0xa0;
        else if (first == 0xed)
            high = 0x9f;
        else if (first == 0xf0)
            low = 0x90;
        else if (first == 0xf4)
            high = 0x8f;
        for (k = 1; k <= more; k++) {
            if (text[i + k] < low || text[i + k] > high)
                return 0;
            low = 0x80;
            high = 0xbf;
        }
        i += 1 + more;
    }
    return 1;
}

static int is_digit(uint8_t c)
{
    return c >= '0' && c <= '9';
}

/* The symbol at *at (RFC 1035, 5.1): a character, or an escape. */
static uint32_t symbol(const uint8_t *text, size_t len, size_t *at, uint8_t *octet, int *escaped)
{
    uint8_t c = text[(*at)++];
    unsigned value = 0;
    int k;

    *escaped = 0;
    *octet = c;
    if (c != '\\')
        return c < 32 || c > 126 ? DNSNAMES_BAD_SYMBOL : DNSNAMES_OK;
    if (*at == len)
        return DNSNAMES_SHORT_INPUT;
    if (!is_digit(text[*at])) {
        *octet = text[(*at)++];
        *escaped = 1;
        return *octet < 32 || *octet > 126 ? DNSNAMES_BAD_ESCAPE : DNSNAMES_OK;
    }
    for (k = 0; k < 3; k++) {
        if (*at == len)
            return DNSNAMES_SHORT_INPUT;
        if (!is_digit(text[*at]))
            return DNSNAMES_BAD_ESCAPE;
        value = value * 10 + (text[(*at)++] - '0');
    }
    *octet = (uint8_t)value;
    *escaped = 2;
    return value > 255 ? DNSNAMES_BAD_ESCAPE : DNSNAMES_OK;
}

uint32_t SECOND(from_text)(const uint8_t *text, size_t text_len, uint8_t *buffer, size_t capacity, size_t *length)
{
    uint8_t name[256];
    /* head: where the open label's length stands; open: how many octets it has. */
    size_t at = 0, head = 0, open = 0;

    if (!is_utf8(text, text_len))
        return DNSNAMES_BAD_SYMBOL;
    if (text_len == 0)
        return DNSNAMES_SHORT_INPUT;
    if (text_len == 1 && text[0] == '.')
        return give((const uint8_t *)"", 1, buffer, capacity, length);
    while (at < text_len) {
        uint8_t octet;
        int escaped;
        uint32_t status = symbol(text, text_len, &at, &octet, &escaped);
        if (status != DNSNAMES_OK)
            return status;
        if (octet == '.' && !escaped) {
            if (open == 0)
                return DNSNAMES_EMPTY_LABEL;
            name[head] = (uint8_t)open;
            head += 1 + open;
            open = 0;
            continue;
        }
        if (octet == '[' && escaped == 1 && open == 0)
            return DNSNAMES_BINARY_LABEL;
        if (head + 1 + open + 1 > 254)
            return DNSNAMES_LONG_NAME;
        if (open + 1 > 63)
            return DNSNAMES_LONG_LABEL;
        name[head + 1 + open++] = octet;
    }
    if (open > 0) {
        name[head] = (uint8_t)open;
        head += 1 + open;
    }
    name[head] = 0;
    return give(name, head + 1, buffer, capacity, length);
}

uint32_t SECOND(to_text)(const uint8_t *name, size_t len, uint32_t final_dot, uint8_t *buffer, size_t capacity,
                         size_t *length)
{
    uint8_t text[1020];
    size_t size = 0, at = 0, k;
    uint32_t status;

    if (SECOND(check)(name, len) != DNSNAMES_OK)
        return DNSNAMES_NO_NAME;
    if (len == 1)
        text[size++] = '.';
    while (name[at] != 0) {
        for (k = 0; k < name[at]; k++) {
            uint8_t c = name[at + 1 + k];
            if (c < 32 || c > 126) {
                text[size++] = '\\';
                text[size++] = (uint8_t)('0' + c / 100);
                text[size++] = (uint8_t)('0' + c / 10 % 10);
                text[size++] = (uint8_t)('0' + c % 10);
                continue;
            }
            if (c == ' ' || c == '.' || c == '\\')
                text[size++] = '\\';
            text[size++] = c;
        }
        text[size++] = '.';
        at += 1 + (size_t)name[at];
    }
    status = give(text, final_dot || len == 1 ? size : size - 1, buffer, capacity, length);
    if (status == DNSNAMES_OK && *length < capacity)
        buffer[*length] = 0;
    return status;
}

static uint8_t low(uint8_t c)
{
    return c >= 'A' && c <= 'Z' ? (uint8_t)(c + 32) : c;
}

uint32_t SECOND(lower)(const uint8_t *name, size_t len, uint8_t *buffer, size_t capacity, size_t *length)
{
    uint8_t lowered[255];
    size_t at = 0, k;

    if (SECOND(check)(name, len) != DNSNAMES_OK)
        return DNSNAMES_NO_NAME;
    for (; name[at] != 0; at += 1 + (size_t)name[at]) {
        lowered[at] = name[at];
        for (k = 1; k <= name[at]; k++)
            lowered[at + k] = low(name[at + k]);
    }
    lowered[at] = 0;
    return give(lowered, len, buffer, capacity, length);
}

/* The offsets of a name's labels, the root's last; how many there are. */
static size_t labels_of(const uint8_t *name, size_t *offsets)
{
    size_t count = 0, at = 0;

    for (;;) {
        offsets[count++] = at;
        if (name[at] == 0)
            return count;
        at += 1 + (size_t)name[at];
    }
}

/* Two labels as octets without case (RFC 4034, 6.1): the absence of an octet comes first. */
static int order_labels(const uint8_t *left, const uint8_t *right)
{
    size_t k;

    for (k = 1; k <= left[0] && k <= right[0]; k++)
        if (low(left[k]) != low(right[k]))
            return low(left[k]) < low(right[k]) ? -1 : 1;
    return (left[0] > right[0]) - (left[0] < right[0]);
}

/* Two names by their labels from the root on (RFC 4034, 6.1). */
static int order_names(const uint8_t *left, const uint8_t *right)
{
    size_t of_left[128], of_right[128], i = labels_of(left, of_left), j = labels_of(right, of_right);

    while (i > 0 && j > 0) {
        int order = order_labels(left + of_left[--i], right + of_right[--j]);
        if (order != 0)
            return order;
    }
    return (i > 0) - (j > 0);
}

static int are_names(const uint8_t *left, size_t left_len, const uint8_t *right, size_t right_len)
{
    return SECOND(check)(left, left_len) == DNSNAMES_OK && SECOND(check)(right, right_len) == DNSNAMES_OK;
}

uint32_t SECOND(eq)(const uint8_t *left, size_t left_len, const uint8_t *right, size_t right_len, uint32_t *equal)
{
    if (!are_names(left, left_len, right, right_len))
        return DNSNAMES_NO_NAME;
    *equal = order_names(left, right) == 0;
    return DNSNAMES_OK;
}

uint32_t SECOND(compare)(const uint8_t *left, size_t left_len, const uint8_t *right, size_t right_len,
                         int32_t *order)
{
    if (!are_names(left, left_len, right, right_len))
        return DNSNAMES_NO_NAME;
    *order = order_names(left, right);
    return DNSNAMES_OK;
}

uint32_t SECOND(ends_with)(const uint8_t *name, size_t len, const uint8_t *suffix, size_t suffix_len,
                           uint32_t *ends)
{
    size_t offsets[128], count, i;

    if (!are_names(name, len, suffix, suffix_len))
        return DNSNAMES_NO_NAME;
    *ends = 0;
    count = labels_of(name, offsets);
    for (i = 0; i < count; i++)
        if (order_names(name + offsets[i], suffix) == 0)
            *ends = 1;
    return DNSNAMES_OK;
}

/* SipHash-2-4, from the text of its paper. */
struct sip {
    uint64_t v[4];
};

static uint64_t turned(uint64_t word, int by)
{
    return word << by | word >> (64 - by);
}

static void sip_rounds(struct sip *s, int count)
{
    while (count-- > 0) {
        int half;
        for (half = 0; half < 2; half++) {
            int other = half == 0 ? 1 : 3;
            s->v[0] += s->v[other];
            s->v[2] += s->v[4 - other];
            s->v[other] = turned(s->v[other], half == 0 ? 13 : 21) ^ s->v[0];
            s->v[4 - other] = turned(s->v[4 - other], half == 0 ? 16 : 17) ^ s->v[2];
            s->v[half == 0 ? 0 : 2] = turned(s->v[half == 0 ? 0 : 2], 32);
        }
    }
}

/* The eight octets from an offset on, the low one first; zero past the end. */
static uint64_t sip_word(const uint8_t *octets, size_t len, size_t at)
{
    uint64_t word = 0;
    size_t i;

    for (i = 0; i < 8; i++)
        if (at + i < len)
            word |= (uint64_t)octets[at + i] << (8 * i);
    return word;
}

static uint64_t sip_hash(const uint8_t *key, const uint8_t *octets, size_t len)
{
    static const uint64_t begin[4] = {0x736f6d6570736575u, 0x646f72616e646f6du, 0x6c7967656e657261u,
                                      0x7465646279746573u};
    struct sip s;
    size_t at;
    int i;

    for (i = 0; i < 4; i++)
        s.v[i] = sip_word(key, 16, i % 2 == 0 ? 0 : 8) ^ begin[i];
    for (at = 0; at <= len; at += 8) {
        uint64_t word = sip_word(octets, len, at);
        if (len - at < 8)
            word |= (uint64_t)(len & 255) << 56;
        s.v[3] ^= word;
        sip_rounds(&s, 2);
        s.v[0] ^= word;
    }
    s.v[2] ^= 255;
    sip_rounds(&s, 4);
    return s.v[0] ^ s.v[1] ^ s.v[2] ^ s.v[3];
}

uint32_t SECOND(hash)(const uint8_t *key, const uint8_t *name, size_t len, uint64_t *hash)
{
    uint8_t lowered[255];
    size_t size;

    if (SECOND(lower)(name, len, lowered, sizeof lowered, &size) != DNSNAMES_OK)
        return DNSNAMES_NO_NAME;
    *hash = sip_hash(key, lowered, size);
    return DNSNAMES_OK;
}

uint32_t SECOND(label_count)(const uint8_t *name, size_t len, size_t *count)
{
    size_t offsets[128];

    if (SECOND(check)(name, len) != DNSNAMES_OK)
        return DNSNAMES_NO_NAME;
    *count = labels_of(name, offsets);
    return DNSNAMES_OK;
}

uint32_t SECOND(label)(const uint8_t *name, size_t len, size_t index, size_t *offset)
{
    size_t offsets[128];

    if (SECOND(check)(name, len) != DNSNAMES_OK)
        return DNSNAMES_NO_NAME;
    if (index >= labels_of(name, offsets))
        return DNSNAMES_NO_LABEL;
    *offset = offsets[index];
    return DNSNAMES_OK;
}

uint32_t SECOND(label_back)(const uint8_t *name, size_t len, size_t index, size_t *offset)
{
    size_t offsets[128], count;

    if (SECOND(check)(name, len) != DNSNAMES_OK)
        return DNSNAMES_NO_NAME;
    count = labels_of(name, offsets);
    if (index >= count)
        return DNSNAMES_NO_LABEL;
    *offset = offsets[count - 1 - index];
    return DNSNAMES_OK;
}

uint32_t SECOND(parent)(const uint8_t *name, size_t len, size_t *offset)
{
    return SECOND(label)(name, len, 1, offset);
}

/* The first entry of the table at which a name equal to this one is read. */
static int find(const uint8_t *octets, size_t octets_len, const uint16_t *table, size_t table_len,
                const uint8_t *name, uint16_t *offset)
{
    size_t i, length, end;
    uint32_t compressed;
    uint8_t found[255];

    for (i = 0; i < table_len; i++) {
        if (walk(octets, octets_len, table[i], 255, found, &length, &end, &compressed) == DNSNAMES_OK &&
            order_names(found, name) == 0) {
            *offset = table[i];
            return 1;
        }
    }
    return 0;
}

/* Whether the pointer is a 256th where it is followed behind these octets. */
static int is_one_too_many(const uint8_t *octets, size_t octets_len, uint16_t offset)
{
    size_t length, end;
    uint32_t compressed;
    uint8_t found[255];

    return walk(octets, octets_len, offset, 254, found, &length, &end, &compressed) != DNSNAMES_OK;
}

uint32_t SECOND(plan)(const uint8_t *octets, size_t octets_len, const uint16_t *table, size_t table_len,
                      const uint8_t *name, size_t len, size_t *begin, uint16_t *offset)
{
    size_t at;
    uint16_t found;

    if (table_len > 128)
        return DNSNAMES_NO_TABLE;
    for (at = 0; at < table_len; at++)
        if (table[at] >= 16384)
            return DNSNAMES_NO_TABLE;
    if (SECOND(check)(name, len) != DNSNAMES_OK)
        return DNSNAMES_NO_NAME;
    for (at = 0; name[at] != 0; at += 1 + (size_t)name[at]) {
        if (find(octets, octets_len, table, table_len, name + at, &found)) {
            if (is_one_too_many(octets, octets_len, found))
                return DNSNAMES_FLAT;
            *begin = at;
            *offset = found;
            return DNSNAMES_OK;
        }
    }
    return DNSNAMES_FLAT;
}

uint32_t SECOND(append)(uint8_t *octets, size_t capacity, size_t *octets_len, uint16_t *table,
                        size_t table_capacity, size_t *table_len, const uint8_t *name, size_t len)
{
    size_t begin = len, old_len = *octets_len, new_len, at;
    uint16_t offset = 0;
    uint32_t status;

    if (old_len > capacity || *table_len > table_capacity)
        return DNSNAMES_BAD_LENGTH;
    status = SECOND(plan)(octets, old_len, table, *table_len, name, len, &begin, &offset);
    if (status != DNSNAMES_OK && status != DNSNAMES_FLAT)
        return status;
    new_len = old_len + begin + (status == DNSNAMES_OK ? 2 : 0);
    if (new_len > capacity)
        return DNSNAMES_NO_ROOM;
    memcpy(octets + old_len, name, begin);
    if (status == DNSNAMES_OK) {
        octets[new_len - 2] = (uint8_t)(192 + offset / 256);
        octets[new_len - 1] = (uint8_t)(offset % 256);
    }
    for (at = 0; at < begin && name[at] != 0; at += 1 + (size_t)name[at])
        if (*table_len < 128 && *table_len < table_capacity && old_len + at < 16384)
            table[(*table_len)++] = (uint16_t)(old_len + at);
    *octets_len = new_len;
    return DNSNAMES_OK;
}

static uint16_t number16(const uint8_t *octets)
{
    return (uint16_t)(octets[0] << 8 | octets[1]);
}

uint32_t SECOND(header)(const uint8_t *message, size_t message_len, dnsnames_header_fields *header)
{
    if (message_len < 12)
        return DNSNAMES_SHORT_INPUT;
    header->id = number16(message);
    header->flags = number16(message + 2);
    header->questions = number16(message + 4);
    header->answers = number16(message + 6);
    header->authority = number16(message + 8);
    header->additional = number16(message + 10);
    return DNSNAMES_OK;
}

uint32_t SECOND(question)(const uint8_t *message, size_t message_len, size_t offset,
                          dnsnames_question_fields *question)
{
    size_t at;
    uint32_t status = SECOND(skip)(message, message_len, offset, &at);

    if (status != DNSNAMES_OK)
        return status;
    if (message_len - at < 4)
        return DNSNAMES_SHORT_INPUT;
    question->type = number16(message + at);
    question->class_ = number16(message + at + 2);
    question->end = at + 4;
    return DNSNAMES_OK;
}

uint32_t SECOND(record)(const uint8_t *message, size_t message_len, size_t offset, dnsnames_record_fields *record)
{
    size_t at, len;
    uint32_t status = SECOND(skip)(message, message_len, offset, &at);

    if (status != DNSNAMES_OK)
        return status;
    if (message_len - at < 10)
        return DNSNAMES_SHORT_INPUT;
    len = number16(message + at + 8);
    if (message_len - at - 10 < len)
        return DNSNAMES_SHORT_INPUT;
    record->type = number16(message + at);
    record->class_ = number16(message + at + 2);
    record->ttl = (uint32_t)number16(message + at + 4) << 16 | number16(message + at + 6);
    record->data = at + 10;
    record->data_len = len;
    record->end = at + 10 + len;
    return DNSNAMES_OK;
}

/* The numbers of a row but the first two, of a question or of a record. */
static uint32_t entry(const uint8_t *message, size_t message_len, size_t offset, int is_question, uint32_t *row)
{
    dnsnames_question_fields question;
    dnsnames_record_fields record;
    uint32_t status;

    if (is_question) {
        status = SECOND(question)(message, message_len, offset, &question);
        if (status != DNSNAMES_OK)
            return status;
        record.type = question.type;
        record.class_ = question.class_;
        record.ttl = 0;
        record.data = record.end = question.end;
        record.data_len = 0;
    } else {
        status = SECOND(record)(message, message_len, offset, &record);
        if (status != DNSNAMES_OK)
            return status;
    }
    row[2] = record.type;
    row[3] = record.class_;
    row[4] = record.ttl;
    row[5] = (uint32_t)record.data;
    row[6] = (uint32_t)record.data_len;
    row[7] = (uint32_t)record.end;
    return DNSNAMES_OK;
}

uint32_t SECOND(table)(const uint8_t *message, size_t message_len, uint8_t limit, uint32_t *rows,
                       size_t rows_capacity, uint8_t *names, size_t names_capacity, size_t *row_count,
                       size_t *names_len)
{
    dnsnames_header_fields header;
    size_t offset = 12, total, length, end;
    uint32_t compressed, row[8], status = SECOND(header)(message, message_len, &header);
    uint8_t name[255];

    *row_count = *names_len = 0;
    if (status != DNSNAMES_OK)
        return status;
    total = (size_t)header.questions + header.answers + header.authority + header.additional;
    while (*row_count < total) {
        status = SECOND(read)(message, message_len, offset, limit, name, sizeof name, &length, &end, &compressed);
        if (status == DNSNAMES_OK)
            status = entry(message, message_len, offset, *row_count < header.questions, row);
        if (status != DNSNAMES_OK)
            return status;
        if (rows_capacity < 8 * (*row_count + 1) || names_capacity < *names_len + length)
            return DNSNAMES_NO_ROOM;
        row[0] = (uint32_t)*names_len;
        row[1] = (uint32_t)length;
        memcpy(rows + 8 * *row_count, row, sizeof row);
        memcpy(names + *names_len, name, length);
        *names_len += length;
        ++*row_count;
        offset = row[7];
    }
    return DNSNAMES_OK;
}

/* A question whose name was read. */
struct asked {
    uint8_t name[255];
    size_t len;
    dnsnames_question_fields fields;
};

static int read_asked(const uint8_t *message, size_t message_len, size_t offset, struct asked *asked)
{
    size_t end;
    uint32_t compressed;

    return SECOND(read)(message, message_len, offset, 255, asked->name, 255, &asked->len, &end, &compressed) ==
               DNSNAMES_OK &&
           SECOND(question)(message, message_len, offset, &asked->fields) == DNSNAMES_OK;
}

/* RFC 1035, 4.1.1 and 7.3: the opcode is copied into the response. */
uint32_t SECOND(is_answer)(const uint8_t *message, size_t message_len, const uint8_t *query, size_t query_len,
                           uint32_t *yes)
{
    struct asked ours, theirs;
    unsigned left;

    if (message_len < 12 || query_len < 12)
        return DNSNAMES_SHORT_INPUT;
    *yes = 0;
    left = number16(message + 4);
    if (message[2] < 128 || memcmp(message, query, 2) != 0 || ((message[2] ^ query[2]) & 0x78) != 0 ||
        left != number16(query + 4))
        return DNSNAMES_OK;
    for (ours.fields.end = theirs.fields.end = 12; left > 0; left--)
        if (!read_asked(message, message_len, ours.fields.end, &ours) ||
            !read_asked(query, query_len, theirs.fields.end, &theirs) || order_names(ours.name, theirs.name) != 0 ||
            ours.fields.type != theirs.fields.type || ours.fields.class_ != theirs.fields.class_)
            return DNSNAMES_OK;
    *yes = 1;
    return DNSNAMES_OK;
}

/* The target of the first CNAME record of a name, among so many records from an offset on, or as many as are there. */
static int alias_of(const uint8_t *message, size_t message_len, size_t offset, unsigned left, struct asked *name)
{
    struct asked owner, target;
    dnsnames_record_fields record;
    uint32_t compressed;
    size_t end;

    for (; left > 0; left--, offset = record.end) {
        if (SECOND(read)(message, message_len, offset, 255, owner.name, 255, &owner.len, &end, &compressed) !=
                DNSNAMES_OK ||
            SECOND(record)(message, message_len, offset, &record) != DNSNAMES_OK)
            return 0;
        if (record.type != 5 || order_names(owner.name, name->name) != 0 ||
            SECOND(read)(message, record.end, record.data, 255, target.name, 255, &target.len, &end, &compressed) !=
                DNSNAMES_OK ||
            end != record.end)
            continue;
        memcpy(name->name, target.name, target.len);
        name->len = target.len;
        return 1;
    }
    return 0;
}

/* RFC 1034, 3.6.2. */
uint32_t SECOND(canonical_name)(const uint8_t *message, size_t message_len, uint16_t limit, uint8_t *buffer,
                                size_t capacity, size_t *length)
{
    struct asked name, other;
    unsigned left, questions;
    size_t answers = 12;

    if (message_len < 12)
        return DNSNAMES_SHORT_INPUT;
    questions = number16(message + 4);
    if (questions == 0)
        return DNSNAMES_NO_END;
    for (left = questions; left > 0; left--) {
        struct asked *asked = left == questions ? &name : &other;
        if (!read_asked(message, message_len, answers, asked))
            return DNSNAMES_NO_END;
        answers = asked->fields.end;
    }
    for (left = limit; alias_of(message, message_len, answers, number16(message + 6), &name); left--)
        if (left == 0)
            return DNSNAMES_NO_END;
    return give(name.name, name.len, buffer, capacity, length);
}

/* What a field is, by a letter: 1 2 4 6 8 numbers of so many octets; t TTL, s serial, T time, y type; a and A addresses;
 * n name; c string, o string or nothing, C strings, g tag, q text; h and H octets counted by one octet, b by two; w and
 * W type bitmaps; p service parameters; x X * the rest. The number of a kind is the place of its letter. */
static const char KINDS[] = "12468tsTyaAncoCgqhHbwWpxX*";

/* The fields of data of a type. Those with a minus before them are of class IN alone. */
static const struct {
    unsigned type;
    const char *fields;
} DATA[] = {
    {1, "-a"},          /* A: RFC 1035, 3.4.1 */
    {2, "n"},           /* NS: 3.3.11 */
    {3, "n"},           /* MD: 3.3.4 */
    {4, "n"},           /* MF: 3.3.5 */
    {5, "n"},           /* CNAME: 3.3.1 */
    {6, "nnstttt"},     /* SOA: 3.3.13 */
    {7, "n"},           /* MB: 3.3.3 */
    {8, "n"},           /* MG: 3.3.6 */
    {9, "n"},           /* MR: 3.3.8 */
    {12, "n"},          /* PTR: 3.3.12 */
    {13, "cc"},         /* HINFO: 3.3.2 */
    {14, "nn"},         /* MINFO: 3.3.7 */
    {15, "2n"},         /* MX: 3.3.9 */
    {16, "C"},          /* TXT: 3.3.14 */
    {17, "nn"},         /* RP: RFC 1183, 2.2 */
    {18, "2n"},         /* AFSDB: RFC 1183, 1 */
    {19, "c"},          /* X25: RFC 1183, 3.1 */
    {20, "co"},         /* ISDN: RFC 1183, 3.2 */
    {21, "2n"},         /* RT: RFC 1183, 3.3 */
    {24, "y11tTT2nX"},  /* SIG: RFC 2535, 4.1 */
    {25, "211X"},       /* KEY: RFC 2535, 3.1 */
    {26, "-2nn"},       /* PX: RFC 2163, 4 */
    {27, "ccc"},        /* GPOS: RFC 1712, 3 */
    {28, "-A"},         /* AAAA: RFC 3596, 2.2 */
    {30, "n*"},         /* NXT: RFC 2535, 5.2 */
    {33, "-222n"},      /* SRV: RFC 2782 */
    {35, "22cccn"},     /* NAPTR: RFC 3403, 4.1 */
    {36, "-2n"},        /* KX: RFC 2230, 3.1 */
    {37, "221X"},       /* CERT: RFC 4398, 2 */
    {39, "n"},          /* DNAME: RFC 6672, 2.1 */
    {43, "211x"},       /* DS: RFC 4034, 5.1 */
    {44, "11x"},        /* SSHFP: RFC 4255, 3.1 */
    {46, "y11tTT2nX"},  /* RRSIG: RFC 4034, 3.1 */
    {47, "nw"},         /* NSEC: RFC 4034, 4.1 */
    {48, "211X"},       /* DNSKEY: RFC 4034, 2.1 */
    {49, "-X"},         /* DHCID: RFC 4701, 3.1 */
    {50, "112hHW"},     /* NSEC3: RFC 5155, 3.2 */
    {51, "112h"},       /* NSEC3PARAM: RFC 5155, 4.2 */
    {52, "111x"},       /* TLSA: RFC 6698, 2.1 */
    {53, "111x"},       /* SMIMEA: RFC 8162, 2 */
    {56, "C"},          /* NINFO */
    {57, "211X"},       /* RKEY */
    {58, "nn"},         /* TALINK */
    {59, "211x"},       /* CDS: RFC 7344, 3.1 */
    {60, "211X"},       /* CDNSKEY: RFC 7344, 3.2 */
    {61, "X"},          /* OPENPGPKEY: RFC 7929, 2.1 */
    {62, "s2W"},        /* CSYNC: RFC 7477, 2.1 */
    {63, "s11x"},       /* ZONEMD: RFC 8976, 2.2 */
    {64, "-2np"},       /* SVCB: RFC 9460, 2.2 */
    {65, "-2np"},       /* HTTPS: RFC 9460, 2.2 */
    {67, "X"},          /* HHIT: RFC 9886, 5.1 */
    {68, "X"},          /* BRID: RFC 9886, 5.2 */
    {99, "C"},          /* SPF: RFC 4408, 3.1.1 */
    {104, "28"},        /* NID: RFC 6742, 2.1 */
    {105, "2a"},        /* L32: RFC 6742, 2.2 */
    {106, "28"},        /* L64: RFC 6742, 2.3 */
    {107, "2n"},        /* LP: RFC 6742, 2.4 */
    {108, "6"},         /* EUI48: RFC 7043, 3 */
    {109, "8"},         /* EUI64: RFC 7043, 4 */
    {249, "nTT22bb"},   /* TKEY: RFC 2930, 2 */
    {250, "n62b22b"},   /* TSIG: RFC 8945, 4.2 */
    {256, "22q"},       /* URI: RFC 7553, 4 */
    {257, "1gq"},       /* CAA: RFC 8659, 4.1 */
    {258, "C"},         /* AVC */
    {261, "C"},         /* RESINFO: RFC 9606, 4 */
    {262, "C"},         /* WALLET */
    {263, "C"},         /* CLA */
    {32769, "211x"},    /* DLV: RFC 4431, 2 */
};

const char *field_letters(unsigned type, unsigned class_)
{
    size_t row;

    for (row = 0; row < sizeof DATA / sizeof *DATA; row++)
        if (DATA[row].type == type) {
            if (DATA[row].fields[0] != '-')
                return DATA[row].fields;
            return class_ == DNSNAMES_CLASS_IN ? DATA[row].fields + 1 : "*";
        }
    return "*";
}

static int is_letter_or_digit(unsigned octet)
{
    return (octet >= '0' && octet <= '9') || (octet >= 'A' && octet <= 'Z') || (octet >= 'a' && octet <= 'z');
}

/* Blocks of a type bitmap, and parameters, from *at on to the end: each of the octets that name it, of those that count
 * what follows, and of this. What names them ascends. */
static uint32_t pass_ascending(const uint8_t *message, size_t end, size_t *at, int is_bitmap)
{
    long least = 0, name;
    size_t len;

    while (*at < end) {
        if (end - *at < 2)
            return DNSNAMES_SHORT_INPUT;
        name = is_bitmap ? message[*at] : number16(message + *at);
        if (name < least)
            return is_bitmap ? DNSNAMES_WINDOW_ORDER : DNSNAMES_KEY_ORDER;
        if (is_bitmap) {
            len = message[*at + 1];
            if (len == 0 || len > 32)
                return DNSNAMES_BITMAP_LENGTH;
            *at += 2;
        } else {
            if (end - *at < 4)
                return DNSNAMES_SHORT_INPUT;
            len = number16(message + *at + 2);
            *at += 4;
        }
        if (end - *at < len)
            return DNSNAMES_SHORT_INPUT;
        *at += len;
        least = name + 1;
    }
    return DNSNAMES_OK;
}

/* So many octets, and as many more as `counted` octets before them count. */
static uint32_t pass_octets(const uint8_t *message, size_t end, size_t *at, size_t len, size_t counted)
{
    if (end - *at < counted)
        return DNSNAMES_SHORT_INPUT;
    if (counted != 0)
        len += counted + (counted == 1 ? message[*at] : number16(message + *at));
    if (end - *at < len)
        return DNSNAMES_SHORT_INPUT;
    *at += len;
    return DNSNAMES_OK;
}

/* A field by its letter: *at becomes the offset after it. */
static uint32_t pass_field(char letter, const uint8_t *message, size_t end, size_t *at)
{
    uint8_t name[255];
    size_t begin = *at, len;
    uint32_t status, through;

    switch (letter) {
    case '1': return pass_octets(message, end, at, 1, 0);
    case '2': case 'y': return pass_octets(message, end, at, 2, 0);
    case '4': case 't': case 's': case 'T': case 'a': return pass_octets(message, end, at, 4, 0);
    case '6': return pass_octets(message, end, at, 6, 0);
    case '8': return pass_octets(message, end, at, 8, 0);
    case 'A': return pass_octets(message, end, at, 16, 0);
    case 'n': return walk(message, end, begin, 255, name, &len, at, &through);
    case 'o': return begin == end ? DNSNAMES_OK : pass_octets(message, end, at, 0, 1);
    case 'c': case 'h': return pass_octets(message, end, at, 0, 1);
    case 'b': return pass_octets(message, end, at, 0, 2);
    case 'H':
        status = pass_octets(message, end, at, 0, 1);
        return status == DNSNAMES_OK && message[begin] == 0 ? DNSNAMES_EMPTY_HASH : status;
    case 'g':
        status = pass_octets(message, end, at, 0, 1);
        if (status != DNSNAMES_OK)
            return status;
        for (len = begin + 1; len < *at; len++)
            if (!is_letter_or_digit(message[len]))
                return DNSNAMES_BAD_TAG;
        return message[begin] == 0 ? DNSNAMES_BAD_TAG : DNSNAMES_OK;
    case 'C':
        do
            status = pass_octets(message, end, at, 0, 1);
        while (status == DNSNAMES_OK && *at < end);
        return status;
    case 'w': return begin == end ? DNSNAMES_SHORT_INPUT : pass_ascending(message, end, at, 1);
    case 'W': return pass_ascending(message, end, at, 1);
    case 'p': return pass_ascending(message, end, at, 0);
    default: *at = end; return DNSNAMES_OK;
    }
}

uint32_t SECOND(data_field)(const uint8_t *message, size_t message_len, size_t data, size_t data_len, uint16_t type,
                            uint16_t class_, size_t index, dnsnames_field *field)
{
    const char *fields = field_letters(type, class_);
    dnsnames_field found = {0, 0, 0, 0};
    size_t k, at = data;
    uint32_t status;

    if (data > message_len || data_len > message_len - data)
        return DNSNAMES_SHORT_INPUT;
    for (k = 0; fields[k] != 0; k++) {
        size_t begin = at, i;
        status = pass_field(fields[k], message, data + data_len, &at);
        if (status != DNSNAMES_OK)
            return status;
        if (k != index)
            continue;
        found.kind = (uint32_t)(strchr(KINDS, fields[k]) - KINDS + 1);
        found.begin = begin;
        found.end = at;
        for (i = begin; found.kind <= 9 && i < at; i++)
            found.number = found.number << 8 | message[i];
    }
    if (at < data + data_len)
        return DNSNAMES_TRAILING_DATA;
    if (index >= k)
        return DNSNAMES_NO_MORE;
    field->kind = found.kind;
    field->begin = found.begin;
    field->end = found.end;
    field->number = found.number;
    return DNSNAMES_OK;
}

/* The field of one of these letters with `index` such fields before it, of class IN. */
static uint32_t find_field(const uint8_t *message, size_t message_len, size_t data, size_t data_len, uint16_t type,
                           const char *letters, size_t index, dnsnames_field *field)
{
    const char *fields = field_letters(type, DNSNAMES_CLASS_IN);
    size_t k;

    for (k = 0; fields[k] != 0; k++)
        if (strchr(letters, fields[k]) != NULL && index-- == 0)
            return SECOND(data_field)(message, message_len, data, data_len, type, DNSNAMES_CLASS_IN, k, field);
    return DNSNAMES_NO_FIELD;
}

uint32_t SECOND(data_name)(const uint8_t *message, size_t message_len, size_t data, size_t data_len, uint16_t type,
                           size_t index, uint8_t *buffer, size_t capacity, size_t *length)
{
    uint8_t name[255];
    dnsnames_field field;
    size_t len, end;
    uint32_t through, status = find_field(message, message_len, data, data_len, type, "n", index, &field);

    if (status != DNSNAMES_OK)
        return status;
    walk(message, data + data_len, field.begin, 255, name, &len, &end, &through);
    return give(name, len, buffer, capacity, length);
}

uint32_t SECOND(data_number)(const uint8_t *message, size_t message_len, size_t data, size_t data_len,
                             uint16_t type, size_t index, uint32_t *value)
{
    dnsnames_field field;
    uint32_t status = find_field(message, message_len, data, data_len, type, "124tsTy", index, &field);

    if (status == DNSNAMES_OK)
        *value = (uint32_t)field.number;
    return status;
}

uint32_t SECOND(data_address)(const uint8_t *message, size_t message_len, size_t data, size_t data_len,
                              uint16_t type, uint8_t *buffer, size_t capacity, size_t *length)
{
    dnsnames_field field;
    uint32_t status = find_field(message, message_len, data, data_len, type, "aA", 0, &field);

    return status == DNSNAMES_OK ? give(message + field.begin, field.end - field.begin, buffer, capacity, length) : status;
}

uint32_t SECOND(data_string)(const uint8_t *message, size_t message_len, size_t data, size_t data_len,
                             uint16_t type, size_t *passed, size_t *string, size_t *string_len)
{
    if (strcmp(field_letters(type, DNSNAMES_CLASS_IN), "C") != 0)
        return DNSNAMES_NO_FIELD;
    if (data > message_len || data_len > message_len - data)
        return DNSNAMES_SHORT_INPUT;
    if (*passed != 0 && *passed >= data_len)
        return DNSNAMES_NO_MORE;
    if (data_len == 0 || message[data + *passed] >= data_len - *passed)
        return DNSNAMES_SHORT_INPUT;
    *string_len = message[data + *passed];
    *string = data + *passed + 1;
    *passed += 1 + *string_len;
    return DNSNAMES_OK;
}

uint32_t SECOND(opt)(uint16_t type, uint16_t class_, uint32_t ttl, uint16_t flags, dnsnames_opt_fields *opt)
{
    if (type != 41)
        return DNSNAMES_NO_FIELD;
    opt->size = class_ > 512 ? class_ : 512;
    opt->rcode = (uint16_t)((ttl >> 24) << 4 | (flags & 15));
    opt->version = (uint8_t)(ttl >> 16);
    opt->flags = (uint16_t)ttl;
    opt->dnssec_ok = ttl >> 15 & 1;
    return DNSNAMES_OK;
}

uint32_t SECOND(data_option)(const uint8_t *message, size_t message_len, size_t data, size_t data_len,
                             uint16_t type, size_t *passed, uint16_t *code, size_t *option, size_t *option_len)
{
    size_t left, len;

    if (type != 41)
        return DNSNAMES_NO_FIELD;
    if (data > message_len || data_len > message_len - data)
        return DNSNAMES_SHORT_INPUT;
    if (*passed >= data_len)
        return DNSNAMES_NO_MORE;
    left = data_len - *passed;
    if (left < 4)
        return DNSNAMES_SHORT_INPUT;
    len = number16(message + data + *passed + 2);
    if (left - 4 < len)
        return DNSNAMES_SHORT_INPUT;
    *code = number16(message + data + *passed);
    *option = data + *passed + 4;
    *option_len = len;
    *passed += 4 + len;
    return DNSNAMES_OK;
}

static void put16(uint8_t *octets, uint32_t number)
{
    octets[0] = (uint8_t)(number >> 8);
    octets[1] = (uint8_t)number;
}

/* An option whose data are in two parts, and how many octets there are then; the first has 20 octets at most. */
static uint32_t add_option(uint8_t *options, size_t capacity, size_t *options_len, uint16_t code, const uint8_t *first,
                           size_t first_len, const uint8_t *second, size_t second_len)
{
    uint8_t *at;

    if (*options_len > capacity)
        return DNSNAMES_BAD_LENGTH;
    if (second_len > 65535 || *options_len + 4 + first_len + second_len > (capacity > 65535 ? 65535 : capacity))
        return DNSNAMES_NO_ROOM;
    at = options + *options_len;
    put16(at, code);
    put16(at + 2, (uint32_t)(first_len + second_len));
    if (first_len != 0)
        memcpy(at + 4, first, first_len);
    if (second_len != 0)
        memcpy(at + 4 + first_len, second, second_len);
    *options_len += 4 + first_len + second_len;
    return DNSNAMES_OK;
}

uint32_t SECOND(append_option)(uint8_t *options, size_t capacity, size_t *options_len, uint16_t code,
                               const uint8_t *data, size_t data_len)
{
    return add_option(options, capacity, options_len, code, NULL, 0, data, data_len);
}

/* RFC 7873, 4: 8 octets, or 16 to 40. */
static uint32_t cookie_status(size_t len)
{
    return len < 8 ? DNSNAMES_SHORT_INPUT : len == 8 || (len >= 16 && len <= 40) ? DNSNAMES_OK : DNSNAMES_BAD_FORM;
}

uint32_t SECOND(append_cookie)(uint8_t *options, size_t capacity, size_t *options_len, const uint8_t *client,
                               const uint8_t *server, size_t server_len)
{
    if (server_len > 32 || cookie_status(8 + server_len) != DNSNAMES_OK)
        return DNSNAMES_BAD_FORM;
    return add_option(options, capacity, options_len, 10, client, 8, server, server_len);
}

uint32_t SECOND(cookie)(const uint8_t *option, size_t option_len, size_t *server_len)
{
    uint32_t status = cookie_status(option_len);

    (void)option;
    if (status == DNSNAMES_OK)
        *server_len = option_len - 8;
    return status;
}

/* How many bits of an address are wanted, and what there is: RFC 7871, 6. */
static uint32_t prefix_status(uint16_t family, unsigned bits, size_t address_len)
{
    static const unsigned most[3] = {0, 32, 128};

    if (family > 2 || bits > most[family])
        return DNSNAMES_BAD_FORM;
    return 8 * address_len < bits ? DNSNAMES_SHORT_INPUT : DNSNAMES_OK;
}

uint32_t SECOND(append_client_subnet)(uint8_t *options, size_t capacity, size_t *options_len, uint16_t family,
                                      uint8_t source_prefix_len, uint8_t scope_prefix_len, const uint8_t *address,
                                      size_t address_len)
{
    uint32_t status = prefix_status(family, source_prefix_len, address_len), bit;
    uint8_t data[20] = {0};

    if (status != DNSNAMES_OK)
        return status;
    put16(data, family);
    data[2] = source_prefix_len;
    data[3] = scope_prefix_len;
    for (bit = 0; bit < source_prefix_len; bit++)
        data[4 + bit / 8] |= (uint8_t)(address[bit / 8] & 128 >> bit % 8);
    return add_option(options, capacity, options_len, 8, data, 4 + (source_prefix_len + 7u) / 8, NULL, 0);
}

uint32_t SECOND(client_subnet)(const uint8_t *option, size_t option_len, dnsnames_subnet_fields *subnet)
{
    uint32_t status, bit;

    if (option_len < 4)
        return DNSNAMES_SHORT_INPUT;
    status = prefix_status((uint16_t)number16(option), option[2], option_len - 4);
    if (status != DNSNAMES_OK)
        return status;
    if (option_len - 4 > (option[2] + 7u) / 8)
        return DNSNAMES_BAD_FORM;
    for (bit = option[2]; bit < 8 * (option_len - 4); bit++)
        if (option[4 + bit / 8] & 128 >> bit % 8)
            return DNSNAMES_BAD_FORM;
    subnet->family = (uint16_t)number16(option);
    subnet->source_prefix_len = option[2];
    subnet->scope_prefix_len = option[3];
    return DNSNAMES_OK;
}

uint32_t SECOND(append_extended_error)(uint8_t *options, size_t capacity, size_t *options_len, uint16_t info_code,
                                       const uint8_t *text, size_t text_len)
{
    uint8_t code[2];

    if (!is_utf8(text, text_len))
        return DNSNAMES_BAD_SYMBOL;
    put16(code, info_code);
    return add_option(options, capacity, options_len, 15, code, 2, text, text_len);
}

uint32_t SECOND(extended_error)(const uint8_t *option, size_t option_len, uint16_t *info_code)
{
    if (option_len < 2)
        return DNSNAMES_SHORT_INPUT;
    *info_code = (uint16_t)number16(option);
    return DNSNAMES_OK;
}

/* Whether a state's sections and offsets are as a call left them. */
static int is_place(const dnsnames_builder_state *s)
{
    size_t i;

    if (s->answer_start < 12 || s->authority_start < s->answer_start || s->additional_start < s->authority_start ||
        s->len < s->additional_start || s->table_len > DNSNAMES_MAX_TABLE)
        return 0;
    for (i = 0; i < s->table_len; i++)
        if (s->table[i] >= 16384)
            return 0;
    return 1;
}

/* Whether the builder is as a call left it. */
static int is_built(const dnsnames_builder *builder)
{
    const dnsnames_builder_state *s = &builder->state;
    size_t i;

    if (s->limit > builder->capacity || s->limit > 65535 || s->len > s->limit || !is_place(s))
        return 0;
    for (i = 0; i < 12; i++)
        if (builder->octets[i] != 128)
            return 0;
    return 1;
}

uint32_t SECOND(builder_start)(dnsnames_builder *builder, uint8_t *octets, size_t capacity, uint16_t id,
                               uint16_t flags)
{
    if (capacity < 12)
        return DNSNAMES_NO_ROOM;
    memset(octets, 128, 12);
    builder->octets = octets;
    builder->capacity = capacity;
    memset(&builder->state, 0, sizeof builder->state);
    builder->state.limit = capacity < 65535 ? capacity : 65535;
    builder->state.len = builder->state.answer_start = builder->state.authority_start =
        builder->state.additional_start = 12;
    builder->state.id = id;
    builder->state.flags = flags;
    return DNSNAMES_OK;
}

/* Writes a name and what follows it: a head, and data. */
static uint32_t build(dnsnames_builder *builder, const uint8_t *name, size_t len, const uint8_t *head,
                      size_t head_len, const uint8_t *data, size_t data_len)
{
    dnsnames_builder_state *s = &builder->state;
    size_t begin = len, named, at = s->len;
    uint16_t offset;

    named = SECOND(plan)(builder->octets, at, s->table, s->table_len, name, len, &begin, &offset) == DNSNAMES_OK
                ? begin + 2 : len;
    if (named + head_len > s->limit - at || data_len > s->limit - at - named - head_len)
        return DNSNAMES_NO_ROOM;
    SECOND(append)(builder->octets, s->limit, &s->len, s->table, DNSNAMES_MAX_TABLE, &s->table_len, name, len);
    memcpy(builder->octets + s->len, head, head_len);
    if (data_len > 0)
        memcpy(builder->octets + s->len + head_len, data, data_len);
    s->len += head_len + data_len;
    return DNSNAMES_OK;
}

/* Where data of a type end before their names and after each, if the names may be compressed: if the type is one of RFC
 * 1035, and the data are its fields, with no pointer in a name. How many names there are; 0 where none may be. */
static size_t ends_of_names(unsigned type, const uint8_t *data, size_t data_len, size_t ends[3])
{
    const char *fields = type > 15 ? "" : field_letters(type, DNSNAMES_CLASS_IN);
    size_t begin = 0, names = 0, at;

    if (strspn(fields, "n2st") != strlen(fields))
        return 0;
    for (; *fields != 0; fields++) {
        if (*fields != 'n') {
            begin += *fields == '2' ? 2 : 4;
            continue;
        }
        if (names == 0)
            ends[0] = begin;
        for (at = begin; at < data_len && data[at] != 0; at += 1 + (size_t)data[at])
            if (data[at] > 63)
                return 0;
        if (at >= data_len || at + 1 - begin > 255)
            return 0;
        begin = ends[++names] = at + 1;
    }
    return begin == data_len ? names : 0;
}

/* Writes a record whose data have so many names, each told over what ends with the owner's name: into a copy of the
 * message, which becomes the message where it has room. */
static uint32_t build_named(dnsnames_builder *builder, const uint8_t *owner, size_t owner_len, const uint8_t *head,
                            const uint8_t *data, size_t data_len, const size_t *ends, size_t names)
{
    static uint8_t copy[67000];
    dnsnames_builder_state s = builder->state, after_owner;
    size_t before_data, k, at, begin;
    uint16_t offset;

    memcpy(copy, builder->octets, s.len);
    if (SECOND(append)(copy, s.limit, &s.len, s.table, DNSNAMES_MAX_TABLE, &s.table_len, owner, owner_len) !=
        DNSNAMES_OK)
        return DNSNAMES_NO_ROOM;
    after_owner = s;
    memcpy(copy + s.len, head, 8);
    before_data = s.len += 10;
    memcpy(copy + s.len, data, ends[0]);
    s.len += ends[0];
    for (k = 0; k < names; k++) {
        const uint8_t *name = data + ends[k];
        size_t len = ends[k + 1] - ends[k];
        int is_flat = SECOND(plan)(copy, after_owner.len, after_owner.table, after_owner.table_len, name, len,
                                   &begin, &offset) != DNSNAMES_OK;
        if (is_flat)
            begin = len;
        memcpy(copy + s.len, name, begin);
        for (at = 0; at < begin && name[at] != 0; at += 1 + (size_t)name[at])
            if (s.table_len < DNSNAMES_MAX_TABLE && s.len + at < 16384)
                s.table[s.table_len++] = (uint16_t)(s.len + at);
        s.len += begin;
        if (!is_flat) {
            put16(copy + s.len, 0xc000u + offset);
            s.len += 2;
        }
    }
    memcpy(copy + s.len, data + ends[names], data_len - ends[names]);
    s.len += data_len - ends[names];
    if (s.len > s.limit)
        return DNSNAMES_NO_ROOM;
    put16(copy + before_data - 2, (uint32_t)(s.len - before_data));
    memcpy(builder->octets, copy, s.len);
    builder->state = s;
    return DNSNAMES_OK;
}

uint32_t SECOND(builder_question)(dnsnames_builder *builder, const uint8_t *name, size_t len, uint16_t type,
                                  uint16_t class_)
{
    dnsnames_builder_state *s = &builder->state;
    uint8_t head[4];
    uint32_t status;

    if (!is_built(builder))
        return DNSNAMES_NO_BUILDER;
    if (SECOND(check)(name, len) != DNSNAMES_OK)
        return DNSNAMES_NO_NAME;
    if (s->answers + s->authority + s->additional > 0)
        return DNSNAMES_WRONG_ORDER;
    if (s->questions == 65535)
        return DNSNAMES_TOO_MANY_ENTRIES;
    put16(head, type);
    put16(head + 2, class_);
    status = build(builder, name, len, head, sizeof head, NULL, 0);
    if (status == DNSNAMES_OK) {
        s->questions++;
        s->answer_start = s->authority_start = s->additional_start = s->len;
    }
    return status;
}

static uint32_t build_record(dnsnames_builder *builder, uint32_t section, const uint8_t *owner, size_t owner_len,
                             uint16_t type, uint16_t class_, uint32_t ttl, const uint8_t *data, size_t data_len)
{
    dnsnames_builder_state *s = &builder->state;
    uint16_t *counts[] = {&s->answers, &s->authority, &s->additional};
    uint8_t head[10];
    uint32_t later, status;
    size_t ends[3], names;

    for (later = section; later < 3; later++)
        if (*counts[later] > 0)
            return DNSNAMES_WRONG_ORDER;
    if (*counts[section - 1] == 65535)
        return DNSNAMES_TOO_MANY_ENTRIES;
    put16(head, type);
    put16(head + 2, class_);
    put16(head + 4, ttl >> 16);
    put16(head + 6, ttl);
    put16(head + 8, (uint32_t)data_len);
    names = ends_of_names(type, data, data_len, ends);
    status = names > 0 ? build_named(builder, owner, owner_len, head, data, data_len, ends, names)
                       : build(builder, owner, owner_len, head, sizeof head, data, data_len);
    if (status == DNSNAMES_OK) {
        (*counts[section - 1])++;
        if (section == DNSNAMES_ANSWER)
            s->authority_start = s->len;
        if (section != DNSNAMES_ADDITIONAL)
            s->additional_start = s->len;
    }
    return status;
}

uint32_t SECOND(builder_record)(dnsnames_builder *builder, uint32_t section, const uint8_t *owner, size_t owner_len,
                                uint16_t type, uint16_t class_, uint32_t ttl, const uint8_t *data, size_t data_len)
{
    if (!is_built(builder))
        return DNSNAMES_NO_BUILDER;
    if (section < 1 || section > 3)
        return DNSNAMES_NO_SECTION;
    if (SECOND(check)(owner, owner_len) != DNSNAMES_OK)
        return DNSNAMES_NO_NAME;
    return build_record(builder, section, owner, owner_len, type, class_, ttl, data, data_len);
}

uint32_t SECOND(builder_rrset)(dnsnames_builder *builder, uint32_t section, const uint8_t *owner, size_t owner_len,
                               uint16_t type, uint16_t class_, uint32_t ttl, const uint8_t *data, size_t data_len,
                               const uint16_t *lens, size_t lens_len)
{
    dnsnames_builder_state before = builder->state;
    uint32_t status = DNSNAMES_OK;
    size_t k, sum = 0;

    if (!is_built(builder))
        return DNSNAMES_NO_BUILDER;
    if (section < 1 || section > 3)
        return DNSNAMES_NO_SECTION;
    if (SECOND(check)(owner, owner_len) != DNSNAMES_OK)
        return DNSNAMES_NO_NAME;
    for (k = 0; k < lens_len; k++)
        sum += lens[k];
    if (sum != data_len)
        return DNSNAMES_BAD_LENGTH;
    for (k = 0; k < lens_len && status == DNSNAMES_OK; data += lens[k++])
        status = build_record(builder, section, owner, owner_len, type, class_, ttl, data, lens[k]);
    if (status != DNSNAMES_OK)
        builder->state = before;
    return status;
}

uint32_t SECOND(builder_extra)(dnsnames_builder *builder, uint32_t section, const uint8_t *owner, size_t owner_len,
                               uint16_t type, uint16_t class_, uint32_t ttl, const uint8_t *data, size_t data_len,
                               const uint16_t *lens, size_t lens_len, uint32_t *pushed)
{
    uint32_t status = SECOND(builder_rrset)(builder, section, owner, owner_len, type, class_, ttl, data, data_len,
                                            lens, lens_len);

    if (status != DNSNAMES_OK && status != DNSNAMES_NO_ROOM)
        return status;
    *pushed = status == DNSNAMES_OK;
    return DNSNAMES_OK;
}

uint32_t SECOND(builder_required)(dnsnames_builder *builder, uint32_t section, const uint8_t *owner,
                                  size_t owner_len, uint16_t type, uint16_t class_, uint32_t ttl,
                                  const uint8_t *data, size_t data_len, const uint16_t *lens, size_t lens_len,
                                  uint32_t *pushed)
{
    uint32_t status = SECOND(builder_extra)(builder, section, owner, owner_len, type, class_, ttl, data, data_len,
                                            lens, lens_len, pushed);

    if (status == DNSNAMES_OK && !*pushed)
        builder->state.flags |= DNSNAMES_FLAG_TC;
    return status;
}

uint32_t SECOND(builder_rewind)(dnsnames_builder *builder, const dnsnames_builder_state *mark)
{
    dnsnames_builder_state now = builder->state;

    if (!is_built(builder))
        return DNSNAMES_NO_BUILDER;
    if (mark->len > now.len || !is_place(mark))
        return DNSNAMES_NO_MARK;
    builder->state = *mark;
    builder->state.limit = now.limit;
    builder->state.id = now.id;
    builder->state.flags = now.flags;
    return DNSNAMES_OK;
}

uint32_t SECOND(builder_opt_flags)(dnsnames_builder *builder, uint16_t size, uint8_t rcode_ext, uint8_t version,
                                   uint16_t flags, const uint8_t *options, size_t options_len)
{
    static const uint8_t root[1] = {0};
    uint32_t ttl = (uint32_t)rcode_ext << 24 | (uint32_t)version << 16 | flags;

    if (!is_built(builder))
        return DNSNAMES_NO_BUILDER;
    return build_record(builder, DNSNAMES_ADDITIONAL, root, 1, 41, size, ttl, options, options_len);
}

uint32_t SECOND(builder_opt)(dnsnames_builder *builder, uint16_t size, uint8_t rcode_ext, uint8_t version,
                             uint32_t dnssec_ok, const uint8_t *options, size_t options_len)
{
    return SECOND(builder_opt_flags)(builder, size, rcode_ext, version, dnssec_ok ? 0x8000 : 0, options, options_len);
}

uint32_t SECOND(builder_truncate)(dnsnames_builder *builder)
{
    dnsnames_builder_state *s = &builder->state;

    if (!is_built(builder))
        return DNSNAMES_NO_BUILDER;
    s->len = s->authority_start = s->additional_start = s->answer_start;
    s->answers = s->authority = s->additional = 0;
    s->flags |= DNSNAMES_FLAG_TC;
    return DNSNAMES_OK;
}

uint32_t SECOND(builder_finish)(dnsnames_builder *builder, size_t *length)
{
    const dnsnames_builder_state *s = &builder->state;
    const uint16_t numbers[6] = {s->id, s->flags, s->questions, s->answers, s->authority, s->additional};
    size_t i;

    if (!is_built(builder))
        return DNSNAMES_NO_BUILDER;
    for (i = 0; i < 6; i++)
        put16(builder->octets + 2 * i, numbers[i]);
    *length = s->len;
    return DNSNAMES_OK;
}
