/* Reads lines of hexadecimal digits, each the octets of a name without compression, and writes for each line the
 * name's text, or why the octets are no name. Spaces between digits are passed over.
 *
 *     tell_hex < LINES
 *
 * Status 1 where a line was refused. */
#include "dnsnames.h"
#include <ctype.h>
#include <stdio.h>
#include <string.h>

/* The octets that a line spells; -1 where it has another character, an odd digit, or more octets than fit. */
static long octets_of(const char *line, uint8_t *octets, size_t capacity)
{
    static const char digits[] = "0123456789abcdef";
    size_t count = 0;
    unsigned value = 0;

    for (; *line != 0; line++) {
        const char *digit;
        if (isspace((unsigned char)*line))
            continue;
        digit = strchr(digits, tolower((unsigned char)*line));
        if (digit == NULL || count / 2 == capacity)
            return -1;
        value = value << 4 | (unsigned)(digit - digits);
        if (count++ % 2 == 1)
            octets[count / 2 - 1] = (uint8_t)value;
    }
    return count % 2 == 0 ? (long)(count / 2) : -1;
}

static uint32_t tell(const uint8_t *octets, size_t len)
{
    uint8_t text[DNSNAMES_MAX_TEXT];
    size_t text_len;
    uint32_t status = dnsnames_check(octets, len);

    if (status == DNSNAMES_OK)
        status = dnsnames_to_text(octets, len, 1, text, sizeof text, &text_len);
    if (status == DNSNAMES_OK)
        printf("%.*s\n", (int)text_len, (const char *)text);
    else
        printf("refused (%u): %s\n", (unsigned)status, dnsnames_strerror(status));
    return status;
}

int main(void)
{
    char line[2050];
    uint8_t octets[1024];
    int refused = 0;

    while (fgets(line, sizeof line, stdin) != NULL) {
        long len = octets_of(line, octets, sizeof octets);
        if (len < 0) {
            printf("refused: not hexadecimal octets\n");
            refused = 1;
        } else if (tell(octets, (size_t)len) != DNSNAMES_OK) {
            refused = 1;
        }
    }
    return refused;
}
