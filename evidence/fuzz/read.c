/* Reading names: dnsnames_read, dnsnames_check, and libknot. The input is an offset, a limit of pointers, and a
 * message. */
#include "harness.h"

int LLVMFuzzerTestOneInput(const uint8_t *data, size_t size)
{
    if (size < 3)
        return 0;
    size_t len = size - 3, offset = data[0] + 256u * (data[1] & 0x3F), end = 7, want_end = 0, length = 7;
    uint8_t limit = data[1] & 0x40 ? data[2] : 255, buffer[256];
    const uint8_t *message = before_the_wall(data + 3, len);
    struct name want;
    bool want_compressed, accepts = reader_name(message, len, offset, limit, &want, &want_end, &want_compressed);
    uint32_t compressed = 7;
    memset(buffer, 0xAA, sizeof buffer);
    uint32_t status = dnsnames_read(message, len, offset, limit, buffer, 255, &length, &end, &compressed);
    MUST((status == DNSNAMES_OK) == accepts);
    if (accepts) {
        MUST(length == want.len && memcmp(buffer, want.wire, length) == 0 && buffer[length] == 0xAA);
        MUST(end == want_end && compressed == want_compressed);
        MUST(dnsnames_check(buffer, length) == DNSNAMES_OK);
        /* A buffer that is an octet too small stays as it is. */
        memset(buffer, 0xAA, sizeof buffer);
        status = dnsnames_read(message, len, offset, limit, buffer, want.len - 1, &length, &end, &compressed);
        MUST(status == DNSNAMES_NO_ROOM);
        MUST(length == want.len && buffer[0] == 0xAA && buffer[want.len - 1] == 0xAA);
    } else {
        MUST(length == 7 && end == 7 && compressed == 7 && buffer[0] == 0xAA && buffer[254] == 0xAA);
    }
#ifdef WITH_LIBKNOT
    /* libknot has no limit of pointers, so it is asked where there are less than 256 octets of them. */
    if (limit == 255 && len < 512 && offset < len) {
        knot_dname_storage_t name;
        int taken = knot_dname_wire_check(message + offset, message + len, message);
        MUST((taken > 0) == accepts);
        if (accepts) {
            MUST(offset + (size_t)taken == want_end);
            MUST(knot_dname_unpack(name, message + offset, sizeof name, message) == (int)want.len);
            MUST(memcmp(name, want.wire, want.len) == 0);
        }
    }
#endif
    return 0;
}
