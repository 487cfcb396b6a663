/* Shows the DNS message in a file as dig writes it, and the name that its aliases lead to.
 *
 *     show FILE
 *
 * Status 1 where the message can't be shown to its end: what stands before is printed, and why. */
#include "dnsnames.h"
#include <stdio.h>
#include <stdlib.h>

enum { ALIASES = 16 };

static uint8_t message[65535];

/* Prints the canonical name of the first question, where there is one. */
static void print_canonical(size_t message_len)
{
    uint8_t name[DNSNAMES_MAX_LEN], text[DNSNAMES_MAX_TEXT];
    size_t len, text_len;

    if (dnsnames_canonical_name(message, message_len, ALIASES, name, sizeof name, &len) == DNSNAMES_OK &&
        dnsnames_to_text(name, len, 1, text, sizeof text, &text_len) == DNSNAMES_OK)
        printf("canonical name: %s\n", (const char *)text);
}

int main(int argc, char **argv)
{
    FILE *file = argc == 2 ? fopen(argv[1], "rb") : NULL;
    size_t message_len, len = 0;
    dnsnames_status status;
    uint8_t *text;

    if (file == NULL) {
        fprintf(stderr, "usage: show FILE\n");
        return 2;
    }
    message_len = fread(message, 1, sizeof message, file);
    fclose(file);
    /* Without a buffer the call tells how much room the text needs. */
    dnsnames_message_text(message, message_len, NULL, 0, &len);
    text = malloc(len + 1);
    if (text == NULL) {
        fprintf(stderr, "out of memory\n");
        return 1;
    }
    status = dnsnames_message_text(message, message_len, text, len + 1, &len);
    fwrite(text, 1, len, stdout);
    free(text);
    if (status != DNSNAMES_OK) {
        fprintf(stderr, "%s\n", dnsnames_strerror(status));
        return 1;
    }
    print_canonical(message_len);
    return 0;
}
