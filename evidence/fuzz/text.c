/* Texts: dnsnames_from_text and back by dnsnames_to_text, and libknot. The input is a text. */
#include "harness.h"

int LLVMFuzzerTestOneInput(const uint8_t *data, size_t size)
{
    const uint8_t *text = before_the_wall(data, size);
    struct name want, got = { 7, { 0 } };
    bool accepts = reader_text(text, size, &want);
    memset(got.wire, 0xAA, sizeof got.wire);
    MUST((dnsnames_from_text(text, size, got.wire, 255, &got.len) == DNSNAMES_OK) == accepts);
    if (!accepts) {
        MUST(got.len == 7 && got.wire[0] == 0xAA && got.wire[254] == 0xAA);
        return 0;
    }
    MUST(got.len == want.len && memcmp(got.wire, want.wire, got.len) == 0 && got.wire[got.len] == 0xAA);
    for (unsigned final_dot = 0; final_dot < 2; final_dot++) {
        uint8_t shown[DNSNAMES_MAX_TEXT + 1], want_shown[DNSNAMES_MAX_TEXT + 1];
        size_t length, want_length = reader_show(&want, final_dot, want_shown);
        MUST(dnsnames_to_text(got.wire, got.len, final_dot, shown, DNSNAMES_MAX_TEXT, &length) == DNSNAMES_OK);
        MUST(length == want_length && memcmp(shown, want_shown, length) == 0);
        MUST(dnsnames_from_text(shown, length, want.wire, 255, &want.len) == DNSNAMES_OK);
        MUST(got.len == want.len && memcmp(got.wire, want.wire, got.len) == 0);
    }
#ifdef WITH_LIBKNOT
    char copy[4096], shown[KNOT_DNAME_TXT_MAXLEN + 1];
    knot_dname_storage_t name;
    if (size < sizeof copy) {
        memcpy(copy, text, size);
        copy[size] = '\0';
        MUST(knot_dname_from_str(name, copy, sizeof name) != NULL);
        MUST(memcmp(name, got.wire, got.len) == 0);
        MUST(knot_dname_to_str(shown, name, sizeof shown) != NULL);
        /* It writes [ as \[, which isn't read where it begins a label. */
        accepts = reader_text((const uint8_t *)shown, strlen(shown), &want);
        uint32_t status = dnsnames_from_text((const uint8_t *)shown, strlen(shown), want.wire, 255, &want.len);
        MUST((status == DNSNAMES_OK) == accepts);
        MUST(!accepts || (got.len == want.len && memcmp(got.wire, want.wire, got.len) == 0));
    }
#endif
    return 0;
}
