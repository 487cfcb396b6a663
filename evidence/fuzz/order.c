/* Comparing: dnsnames_compare, dnsnames_eq, dnsnames_ends_with, dnsnames_lower, dnsnames_hash, dnsnames_check, and
 * libknot. The input is a message with two names one after another. */
#include "harness.h"

int LLVMFuzzerTestOneInput(const uint8_t *data, size_t size)
{
    struct name left, right, low;
    size_t end = 0, last = 0;
    bool compressed, absolute = reader_name(data, size, 0, 0, &left, &end, &compressed);
    MUST((dnsnames_check(before_the_wall(data, size), size) == DNSNAMES_OK) == (absolute && end == size));
    if (!reader_name(data, size, 0, 255, &left, &end, &compressed)
        || !reader_name(data, size, end, 255, &right, &last, &compressed))
        return 0;

    int32_t order = 7;
    int want = reader_order(&left, &right);
    MUST(dnsnames_compare(left.wire, left.len, right.wire, right.len, &order) == DNSNAMES_OK && order == want);
    MUST(dnsnames_compare(right.wire, right.len, left.wire, left.len, &order) == DNSNAMES_OK && order == -want);

    uint32_t equal = 7, ends = 7;
    MUST(dnsnames_eq(left.wire, left.len, right.wire, right.len, &equal) == DNSNAMES_OK && equal == (want == 0));

    /* The right name is the end of the left one where one of the left one's suffixes equals it. */
    bool want_ends = false;
    for (size_t at = 0; at < left.len; at += 1u + left.wire[at]) {
        struct name suffix = { left.len - at, { 0 } };
        memcpy(suffix.wire, left.wire + at, suffix.len);
        want_ends = want_ends || same_name(&suffix, &right);
    }
    MUST(dnsnames_ends_with(left.wire, left.len, right.wire, right.len, &ends) == DNSNAMES_OK && ends == want_ends);

    MUST(dnsnames_lower(left.wire, left.len, low.wire, 255, &low.len) == DNSNAMES_OK && low.len == left.len);
    for (size_t i = 0; i < left.len; i++)
        MUST(low.wire[i] == reader_low(left.wire[i]));

    static const uint8_t key[DNSNAMES_KEY_LEN] = { 0, 1, 2, 3, 4, 5, 6, 7, 8, 9, 10, 11, 12, 13, 14, 15 };
    uint64_t hash, low_hash;
    MUST(dnsnames_hash(key, left.wire, left.len, &hash) == DNSNAMES_OK);
    MUST(dnsnames_hash(key, low.wire, low.len, &low_hash) == DNSNAMES_OK && low_hash == hash);
#ifdef WITH_LIBKNOT
    /* libknot compares labels as if an octet 0 ended each, so it isn't asked where a label has one. */
    bool zero = false;
    for (const struct name *name = &left; name != NULL; name = name == &left ? &right : NULL)
        for (size_t at = 0; name->wire[at] != 0; at += 1u + name->wire[at])
            zero = zero || memchr(name->wire + at + 1, 0, name->wire[at]) != NULL;
    knot_dname_storage_t low_right;
    knot_dname_copy_lower(low_right, right.wire);
    int knot = knot_dname_cmp(low.wire, low_right);
    MUST(zero || (knot > 0) - (knot < 0) == want);
#endif
    return 0;
}
