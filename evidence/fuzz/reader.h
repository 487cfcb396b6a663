/* A second reader of names, from the text of the standards and the header dnsnames.h alone: short, and not quick. */
#include <stdbool.h>
#include <stddef.h>
#include <stdint.h>
#include <string.h>

struct name {
    size_t len; /* at most 255 */
    uint8_t wire[256];
};

/* The name at an offset through at most `limit` pointers (RFC 1035, 3.1 and 4.1.4): its uncompressed wire format, the
 * offset after it, and whether a pointer follows a label. A pointer must lead to an offset before its own. */
static inline bool reader_name(const uint8_t *message, size_t len, size_t offset, unsigned limit, struct name *name,
                               size_t *end, bool *compressed)
{
    unsigned pointers = 0;
    name->len = 0;
    *compressed = false;
    for (size_t at = offset; at < len;) {
        size_t first = message[at];
        if (first >= 0xC0) {
            if (len - at < 2)
                return false;
            size_t target = (first & 0x3F) * 256 + message[at + 1];
            if (pointers == 0)
                *end = at + 2;
            if (target >= at || ++pointers > limit)
                return false;
            *compressed = *compressed || name->len > 0;
            at = target;
            continue;
        }
        /* With a label that isn't the root, the root is still to come. */
        if (first > 63 || first >= len - at || name->len + 1 + first > (first == 0 ? 255 : 254))
            return false;
        memcpy(name->wire + name->len, message + at, 1 + first);
        name->len += 1 + first;
        at += 1 + first;
        if (first == 0) {
            if (pointers == 0)
                *end = at;
            return true;
        }
    }
    return false;
}

/* The offset after the root or first pointer, which isn't followed; labels and root have at most 255 octets. */
static inline bool reader_skip(const uint8_t *message, size_t len, size_t offset, size_t *end)
{
    for (size_t at = offset, sum = 0; at < len; at = *end) {
        size_t first = message[at];
        *end = at + (first >= 0xC0 ? 2 : 1 + first);
        if ((first > 63 && first < 0xC0) || *end > len)
            return false;
        if (first >= 0xC0)
            return true;
        sum += 1 + first;
        if (sum > 255 || first == 0)
            return sum <= 255;
    }
    return false;
}

/* The name of a text (RFC 1035, 5.1) with or without a final dot. Printed ASCII stands for itself, a label doesn't
 * begin with `\[`, and a text has at least one character. */
static inline bool reader_text(const uint8_t *text, size_t len, struct name *name)
{
    size_t label = 0; /* the offset of the open label's length octet */
    name->len = 1;
    name->wire[0] = 0;
    if (len == 1 && text[0] == '.')
        return true;
    for (size_t at = 0; at < len; at++) {
        unsigned octet = text[at];
        if (octet < 0x20 || octet > 0x7E)
            return false;
        if (octet == '.') {
            if (name->len - label == 1)
                return false;
            label = name->len;
            name->wire[name->len++] = 0;
            continue;
        }
        if (octet == '\\') {
            if (++at == len || text[at] < 0x20 || text[at] > 0x7E)
                return false;
            octet = text[at];
            if (octet == '[' && name->len - label == 1)
                return false;
            if (octet >= '0' && octet <= '9') {
                octet = 0;
                for (size_t digits = at + 3; at < digits; at++) {
                    if (at >= len || text[at] < '0' || text[at] > '9')
                        return false;
                    octet = octet * 10 + (text[at] - '0');
                }
                at--;
            }
        }
        /* The root's octet has to follow. */
        if (octet > 255 || name->len - label > 63 || name->len > 253)
            return false;
        name->wire[name->len++] = (uint8_t)octet;
        name->wire[label]++;
    }
    if (len > 0 && name->wire[label] != 0)
        name->wire[name->len++] = 0;
    return len > 0;
}

/* The text of a name: its size. */
static inline size_t reader_show(const struct name *name, bool final_dot, uint8_t *text)
{
    size_t len = 0;
    for (size_t at = 0; name->wire[at] != 0; at += 1u + name->wire[at]) {
        if (at > 0)
            text[len++] = '.';
        for (size_t i = 1; i <= name->wire[at]; i++) {
            uint8_t octet = name->wire[at + i];
            bool printed = octet >= 0x20 && octet <= 0x7E;
            if (!printed || octet == ' ' || octet == '.' || octet == '\\')
                text[len++] = '\\';
            if (!printed) {
                text[len++] = (uint8_t)('0' + octet / 100);
                text[len++] = (uint8_t)('0' + octet / 10 % 10);
            }
            text[len++] = printed ? octet : (uint8_t)('0' + octet % 10);
        }
    }
    if (final_dot || len == 0)
        text[len++] = '.';
    return len;
}

static inline unsigned reader_low(uint8_t octet)
{
    return octet >= 'A' && octet <= 'Z' ? octet + 32u : octet;
}

/* The offsets of the labels; their number, without the root. */
static inline size_t reader_labels(const struct name *name, size_t offsets[128])
{
    size_t count = 0;
    for (size_t at = 0; name->wire[at] != 0; at += 1u + name->wire[at])
        offsets[count++] = at;
    return count;
}

/* The canonical order (RFC 4034, 6.1): -1, 0 or 1. */
static inline int reader_order(const struct name *left, const struct name *right)
{
    size_t lefts[128], rights[128];
    size_t i = reader_labels(left, lefts), j = reader_labels(right, rights);
    while (i > 0 && j > 0) {
        const uint8_t *a = left->wire + lefts[--i], *b = right->wire + rights[--j];
        for (size_t k = 1; k <= a[0] && k <= b[0]; k++)
            if (reader_low(a[k]) != reader_low(b[k]))
                return reader_low(a[k]) < reader_low(b[k]) ? -1 : 1;
        if (a[0] != b[0])
            return a[0] < b[0] ? -1 : 1;
    }
    return i == j ? 0 : i < j ? -1 : 1;
}
