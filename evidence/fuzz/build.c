/* Messages that are built: dnsnames_builder_start, _question, _record, _opt, _truncate, _finish. The input is a
 * capacity, and then pushes: a kind, a name and data. What is finished is read back by the second reader. */
#include "harness.h"

enum { MOST = 64, ROOM = 1024 };

/* What was pushed into a section; section 0 is that of questions, which have neither TTL nor data. */
struct pushed {
    unsigned section;
    struct name name;
    uint16_t type, class_;
    uint32_t ttl;
    const uint8_t *data;
    size_t data_len;
};

/* A message, what was pushed, and the octets before the last push. */
struct message {
    dnsnames_builder builder;
    struct pushed pushed[MOST];
    size_t count;
    uint16_t flags;
    uint8_t octets[ROOM + 1], before[ROOM + 1];
};

static unsigned number16(const uint8_t *octets)
{
    return octets[0] * 256u + octets[1];
}

/* Whether something is in a section after this one: any is after the questions. */
static bool is_late(const struct message *message, unsigned section)
{
    for (size_t i = 0; i < message->count; i++)
        if (message->pushed[i].section > section)
            return true;
    return false;
}

static dnsnames_status push(struct message *message, const struct pushed *it, bool as_opt)
{
    dnsnames_builder *builder = &message->builder;
    if (as_opt)
        return dnsnames_builder_opt(builder, it->class_, it->ttl >> 24, it->ttl >> 16 & 255, it->ttl & 0x8000, it->data,
                                    it->data_len);
    if (it->section == 0)
        return dnsnames_builder_question(builder, it->name.wire, it->name.len, it->type, it->class_);
    return dnsnames_builder_record(builder, it->section, it->name.wire, it->name.len, it->type, it->class_, it->ttl,
                                   it->data, it->data_len);
}

/* Pushes it, and looks at what is left: the octets before, or all of them. */
static void check_push(struct message *message, const struct pushed *it, bool as_opt)
{
    dnsnames_builder_state before = message->builder.state;
    size_t flat = before.len + it->name.len + (it->section == 0 ? 4 : 10 + it->data_len);
    memcpy(message->before, message->octets, sizeof message->octets);
    dnsnames_status status = push(message, it, as_opt);
    const dnsnames_builder_state *after = &message->builder.state;
    MUST(memcmp(message->before, message->octets, before.len) == 0);
    if (is_late(message, it->section)) {
        MUST(status == DNSNAMES_WRONG_ORDER);
    } else if (status == DNSNAMES_OK) {
        MUST(after->len <= before.limit && after->len <= flat);
        message->pushed[message->count++] = *it;
        return;
    } else {
        MUST(status == DNSNAMES_NO_ROOM && flat > before.limit);
    }
    MUST(memcmp(message->before, message->octets, sizeof message->octets) == 0);
    MUST(after->len == before.len && after->table_len == before.table_len && after->questions == before.questions);
    MUST(after->answers == before.answers && after->authority == before.authority);
    MUST(after->additional == before.additional);
}

static void check_truncate(struct message *message)
{
    size_t kept = 0;
    MUST(dnsnames_builder_truncate(&message->builder) == DNSNAMES_OK);
    while (kept < message->count && message->pushed[kept].section == 0)
        kept++;
    message->count = kept;
    message->flags |= DNSNAMES_FLAG_TC;
}

/* What data are of a type of RFC 1035 (3.3) that has names: octets, names, octets. False for any other type. */
static bool has_names(unsigned type, size_t *before, size_t *names, size_t *after)
{
    *before = type == 15 ? 2 : 0;
    *names = type == 6 || type == 14 ? 2 : 1;
    *after = type == 6 ? 20 : 0;
    return (type >= 2 && type <= 9) || type == 12 || type == 14 || type == 15;
}

/* The octets of the message from `at` to `end` are the data that were pushed: octet for octet, or, where these are the
 * fields of a type of RFC 1035, with names that are read in the message up to their end and equal those. */
static bool same_data(const uint8_t *octets, size_t at, size_t end, const struct pushed *it)
{
    size_t before, names, after, from;
    struct name ours, theirs;
    bool compressed;
    if (end - at == it->data_len && (it->data_len == 0 || memcmp(octets + at, it->data, it->data_len) == 0))
        return true;
    if (!has_names(it->type, &before, &names, &after) || it->data_len < before || end - at < before ||
        memcmp(octets + at, it->data, before) != 0)
        return false;
    at += before;
    for (from = before; names > 0; names--)
        if (!reader_name(it->data, it->data_len, from, 0, &theirs, &from, &compressed) ||
            !reader_name(octets, end, at, 255, &ours, &at, &compressed) || !same_name(&ours, &theirs))
            return false;
    return it->data_len - from == after && end - at == after && memcmp(octets + at, it->data + from, after) == 0;
}

/* The entry at an offset is this one; the offset after it. */
static size_t check_entry(const uint8_t *octets, size_t len, size_t at, const struct pushed *it)
{
    struct name name;
    bool compressed;
    MUST(reader_name(octets, len, at, 255, &name, &at, &compressed) && same_name(&name, &it->name));
    MUST(len - at >= 4 && number16(octets + at) == it->type && number16(octets + at + 2) == it->class_);
    if (it->section == 0)
        return at + 4;
    MUST(len - at >= 10);
    size_t data_len = number16(octets + at + 8);
    MUST(data_len <= it->data_len && len - at - 10 >= data_len);
    MUST(number16(octets + at + 4) * 65536u + number16(octets + at + 6) == it->ttl);
    MUST(same_data(octets, at + 10, at + 10 + data_len, it));
    return at + 10 + data_len;
}

static void check_finished(struct message *message)
{
    size_t len = 0, at = 12, again = 7;
    unsigned counts[4] = { 0 };
    MUST(dnsnames_builder_finish(&message->builder, &len) == DNSNAMES_OK);
    MUST(number16(message->octets) == 0x1234 && number16(message->octets + 2) == message->flags);
    for (size_t i = 0; i < message->count; i++) {
        counts[message->pushed[i].section]++;
        at = check_entry(message->octets, len, at, &message->pushed[i]);
    }
    MUST(at == len);
    for (size_t i = 0; i < 4; i++)
        MUST(number16(message->octets + 4 + 2 * i) == counts[i]);
    MUST(dnsnames_builder_finish(&message->builder, &again) == DNSNAMES_NO_BUILDER && again == 7);
}

/* The push that the input has at an offset: false where it has none. */
static bool take_push(const uint8_t *data, size_t size, size_t *at, struct pushed *it, bool *as_opt)
{
    bool compressed;
    if (size - *at < 3)
        return false;
    unsigned kind = data[*at], numbers = data[*at + 1], few = data[*at + 2] % 40u;
    *at += 3;
    *as_opt = kind % 8 == 7;
    it->section = *as_opt ? 3 : kind % 4;
    it->type = *as_opt ? 41 : kind & 16 ? numbers % 40 : numbers * 257u & 0xffff;
    it->class_ = kind * 9u;
    it->ttl = *as_opt ? numbers << 24 | kind << 16 | (numbers & 1) << 15 : numbers * 0x01020304u;
    if (*as_opt)
        it->name = (struct name){ 1, { 0 } };
    else if (!reader_name(data, size, *at, 0, &it->name, at, &compressed))
        return false;
    if (size - *at < few)
        return false;
    it->data = data + *at;
    it->data_len = it->section == 0 ? 0 : few;
    *at += it->data_len;
    return true;
}

int LLVMFuzzerTestOneInput(const uint8_t *data, size_t size)
{
    static struct message message;
    if (size < 1)
        return 0;
    size_t capacity = data[0] * 4u, at = 1;
    memset(message.octets, 0x5a, sizeof message.octets);
    message.count = 0;
    message.flags = DNSNAMES_FLAG_RD;
    dnsnames_status status = dnsnames_builder_start(&message.builder, message.octets, capacity, 0x1234, message.flags);
    MUST(status == (capacity < 12 ? DNSNAMES_NO_ROOM : DNSNAMES_OK));
    if (status != DNSNAMES_OK)
        return 0;
    struct pushed it;
    bool as_opt;
    while (message.count < MOST && at < size) {
        if (data[at] == 255) {
            at++;
            check_truncate(&message);
            continue;
        }
        if (!take_push(data, size, &at, &it, &as_opt))
            break;
        check_push(&message, &it, as_opt);
        MUST(message.octets[capacity] == 0x5a);
    }
    check_finished(&message);
    return 0;
}
