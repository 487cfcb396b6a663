/* Null pointers: with the length 0 one is the empty slice, else the answer is DNSNAMES_NULL, and nothing is written. */
#include "check.h"
#include "dnsnames.h"
#include <string.h>

static const uint8_t *const NONE = NULL;
static const uint8_t NAME[] = "\3www"; /* 5 octets with the root */
static const uint8_t KEY[DNSNAMES_KEY_LEN];

static uint8_t buffer[DNSNAMES_MAX_TEXT];
static size_t length, end;
static uint16_t number[6], table[DNSNAMES_MAX_TABLE];
static uint32_t flag, rows[DNSNAMES_ROW_LEN];
static dnsnames_header_fields header;
static dnsnames_question_fields question;
static dnsnames_record_fields record;
static int32_t order;
static uint64_t hash;
static dnsnames_opt_fields opt;
static dnsnames_subnet_fields subnet;
static dnsnames_field field;
static dnsnames_builder builder;
static const dnsnames_builder_state place;

/* What a refused call must leave. */
static void mark(void)
{
    memset(buffer, 0x5a, sizeof buffer);
    length = end = 77;
    memset(number, 0x5a, sizeof number);
    memset(table, 0x5a, sizeof table);
    memset(rows, 0x5a, sizeof rows);
    memset(&header, 0x5a, sizeof header);
    memset(&question, 0x5a, sizeof question);
    memset(&record, 0x5a, sizeof record);
    memset(&opt, 0x5a, sizeof opt);
    memset(&subnet, 0x5a, sizeof subnet);
    memset(&field, 0x5a, sizeof field);
    memset(&builder.state, 0x5a, sizeof builder.state);
    flag = 77;
    order = 77;
    hash = 77;
}

static int is_5a(const void *octets, size_t len)
{
    const uint8_t *at = octets;

    while (len > 0 && *at == 0x5a) {
        at++;
        len--;
    }
    return len == 0;
}

static int is_marked(void)
{
    size_t i;

    for (i = 0; i < sizeof buffer; i++)
        if (buffer[i] != 0x5a)
            return 0;
    for (i = 0; i < 6; i++)
        if (number[i] != 0x5a5a)
            return 0;
    return length == 77 && end == 77 && table[0] == 0x5a5a && flag == 77 && order == 77 && hash == 77 &&
           is_5a(&header, sizeof header) && is_5a(&question, sizeof question) && is_5a(&record, sizeof record) &&
           is_5a(rows, sizeof rows) && is_5a(&opt, sizeof opt) && is_5a(&subnet, sizeof subnet) &&
           is_5a(&field, sizeof field) && is_5a(&builder.state, sizeof builder.state);
}

#define REFUSES(status, call)      \
    do {                           \
        mark();                    \
        CHECK((call) == (status)); \
        CHECK(is_marked());        \
    } while (0)

#define NULLED(call) REFUSES(DNSNAMES_NULL, call)

/* With the length 0 a null pointer is an empty slice. */
static void empty(void)
{
    REFUSES(DNSNAMES_SHORT_INPUT, dnsnames_read(NONE, 0, 0, 255, buffer, sizeof buffer, &length, &end, &flag));
    REFUSES(DNSNAMES_SHORT_INPUT, dnsnames_skip(NONE, 0, 0, &end));
    REFUSES(DNSNAMES_SHORT_INPUT, dnsnames_check(NONE, 0));
    REFUSES(DNSNAMES_OK, dnsnames_check_relative(NONE, 0));
    REFUSES(DNSNAMES_SHORT_INPUT, dnsnames_from_text(NONE, 0, buffer, sizeof buffer, &length));
    REFUSES(DNSNAMES_NO_NAME, dnsnames_to_text(NONE, 0, 1, buffer, sizeof buffer, &length));
    REFUSES(DNSNAMES_NO_NAME, dnsnames_lower(NONE, 0, buffer, sizeof buffer, &length));
    REFUSES(DNSNAMES_NO_NAME, dnsnames_eq(NONE, 0, NAME, sizeof NAME, &flag));
    REFUSES(DNSNAMES_NO_NAME, dnsnames_eq(NAME, sizeof NAME, NONE, 0, &flag));
    REFUSES(DNSNAMES_NO_NAME, dnsnames_compare(NONE, 0, NAME, sizeof NAME, &order));
    REFUSES(DNSNAMES_NO_NAME, dnsnames_compare(NAME, sizeof NAME, NONE, 0, &order));
    REFUSES(DNSNAMES_NO_NAME, dnsnames_ends_with(NONE, 0, NAME, sizeof NAME, &flag));
    REFUSES(DNSNAMES_NO_NAME, dnsnames_ends_with(NAME, sizeof NAME, NONE, 0, &flag));
    REFUSES(DNSNAMES_NO_NAME, dnsnames_hash(KEY, NONE, 0, &hash));
    REFUSES(DNSNAMES_NO_NAME, dnsnames_label_count(NONE, 0, &length));
    REFUSES(DNSNAMES_NO_NAME, dnsnames_label(NONE, 0, 0, &length));
    REFUSES(DNSNAMES_NO_NAME, dnsnames_label_back(NONE, 0, 0, &length));
    REFUSES(DNSNAMES_NO_NAME, dnsnames_parent(NONE, 0, &length));
    REFUSES(DNSNAMES_NO_NAME, dnsnames_plan(NONE, 0, NULL, 0, NONE, 0, &length, &number[0]));
    REFUSES(DNSNAMES_FLAT, dnsnames_plan(NONE, 0, NULL, 0, NAME, sizeof NAME, &length, &number[0]));
    REFUSES(DNSNAMES_SHORT_INPUT, dnsnames_header(NONE, 0, &header));
    REFUSES(DNSNAMES_SHORT_INPUT, dnsnames_question(NONE, 0, 0, &question));
    REFUSES(DNSNAMES_SHORT_INPUT, dnsnames_record(NONE, 0, 0, &record));
    mark();
    CHECK(dnsnames_table(NONE, 0, 255, NULL, 0, NULL, 0, &length, &end) == DNSNAMES_SHORT_INPUT);
    CHECK(length == 0 && end == 0);
    REFUSES(DNSNAMES_SHORT_INPUT, dnsnames_data_field(NONE, 0, 0, 0, 5, 1, 0, &field));
    REFUSES(DNSNAMES_SHORT_INPUT, dnsnames_data_name(NONE, 0, 0, 0, 5, 0, buffer, sizeof buffer, &length));
    REFUSES(DNSNAMES_SHORT_INPUT, dnsnames_data_number(NONE, 0, 0, 0, 15, 0, &flag));
    REFUSES(DNSNAMES_SHORT_INPUT, dnsnames_data_address(NONE, 0, 0, 0, 1, buffer, sizeof buffer, &length));
    REFUSES(DNSNAMES_SHORT_INPUT, dnsnames_data_string(NONE, 0, 0, 1, 16, &length, &end, &end));
    REFUSES(DNSNAMES_NO_MORE, dnsnames_data_option(NONE, 0, 0, 0, 41, &length, &number[0], &end, &end));
    REFUSES(DNSNAMES_SHORT_INPUT, dnsnames_cookie(NONE, 0, &length));
    REFUSES(DNSNAMES_SHORT_INPUT, dnsnames_client_subnet(NONE, 0, &subnet));
    REFUSES(DNSNAMES_SHORT_INPUT, dnsnames_extended_error(NONE, 0, &number[0]));
    REFUSES(DNSNAMES_BAD_LENGTH, dnsnames_append_option(NULL, 0, &length, 3, NONE, 0));
    REFUSES(DNSNAMES_BAD_LENGTH, dnsnames_append_cookie(NULL, 0, &length, KEY, NONE, 0));
    REFUSES(DNSNAMES_BAD_LENGTH, dnsnames_append_client_subnet(NULL, 0, &length, 0, 0, 0, NONE, 0));
    REFUSES(DNSNAMES_BAD_LENGTH, dnsnames_append_extended_error(NULL, 0, &length, 0, NONE, 0));
    REFUSES(DNSNAMES_SHORT_INPUT, dnsnames_is_answer(NONE, 0, NONE, 0, &flag));
    REFUSES(DNSNAMES_SHORT_INPUT, dnsnames_canonical_name(NONE, 0, 16, buffer, sizeof buffer, &length));
    REFUSES(DNSNAMES_SHORT_INPUT, dnsnames_record_text(NONE, 0, 0, buffer, sizeof buffer, &length));
    REFUSES(DNSNAMES_NO_MNEMONIC, dnsnames_type_from_text(NONE, 0, &number[0]));
    REFUSES(DNSNAMES_NO_MNEMONIC, dnsnames_class_from_text(NONE, 0, &number[0]));
    REFUSES(DNSNAMES_NO_MNEMONIC, dnsnames_opcode_from_text(NONE, 0, &number[0]));
    REFUSES(DNSNAMES_NO_MNEMONIC, dnsnames_rcode_from_text(NONE, 0, &number[0]));
}

/* So is a buffer: the answer tells how many octets it needs. */
static void no_buffer(void)
{
    size_t octets_len = 0, table_len = 0;

    mark();
    CHECK(dnsnames_read(NAME, sizeof NAME, 0, 255, NULL, 0, &length, &end, &flag) == DNSNAMES_NO_ROOM && length == 5);
    CHECK(dnsnames_from_text(NAME + 1, 3, NULL, 0, &length) == DNSNAMES_NO_ROOM && length == 5);
    CHECK(dnsnames_to_text(NAME, sizeof NAME, 1, NULL, 0, &length) == DNSNAMES_NO_ROOM && length == 4);
    CHECK(dnsnames_lower(NAME, sizeof NAME, NULL, 0, &length) == DNSNAMES_NO_ROOM && length == 5);
    CHECK(dnsnames_data_name(NAME, sizeof NAME, 0, 5, 5, 0, NULL, 0, &length) == DNSNAMES_NO_ROOM && length == 5);
    CHECK(dnsnames_data_address(NAME, sizeof NAME, 0, 4, 1, NULL, 0, &length) == DNSNAMES_NO_ROOM && length == 4);
    CHECK(dnsnames_type_text(1, NULL, 0, &length) == DNSNAMES_NO_ROOM && length == 1);
    CHECK(dnsnames_class_text(1, NULL, 0, &length) == DNSNAMES_NO_ROOM && length == 2);
    CHECK(dnsnames_opcode_text(0, NULL, 0, &length) == DNSNAMES_NO_ROOM && length == 5);
    CHECK(dnsnames_rcode_text(0, NULL, 0, &length) == DNSNAMES_NO_ROOM && length == 7);
    CHECK(dnsnames_append(NULL, 0, &octets_len, NULL, 0, &table_len, NAME, sizeof NAME) != DNSNAMES_OK);
    CHECK(octets_len == 0 && table_len == 0);
}

/* With another length it is refused. */
static void slices(void)
{
    size_t octets_len = 0, table_len = 0;

    NULLED(dnsnames_read(NONE, 1, 0, 255, buffer, sizeof buffer, &length, &end, &flag));
    NULLED(dnsnames_read(NAME, sizeof NAME, 0, 255, NULL, 1, &length, &end, &flag));
    NULLED(dnsnames_skip(NONE, 1, 0, &end));
    NULLED(dnsnames_check(NONE, 1));
    NULLED(dnsnames_check(NONE, SIZE_MAX));
    NULLED(dnsnames_check_relative(NONE, 1));
    NULLED(dnsnames_from_text(NONE, 1, buffer, sizeof buffer, &length));
    NULLED(dnsnames_from_text(NAME + 1, 3, NULL, 1, &length));
    NULLED(dnsnames_to_text(NONE, 1, 1, buffer, sizeof buffer, &length));
    NULLED(dnsnames_to_text(NAME, sizeof NAME, 1, NULL, 1, &length));
    NULLED(dnsnames_lower(NONE, 1, buffer, sizeof buffer, &length));
    NULLED(dnsnames_lower(NAME, sizeof NAME, NULL, 1, &length));
    NULLED(dnsnames_eq(NONE, 1, NAME, sizeof NAME, &flag));
    NULLED(dnsnames_eq(NAME, sizeof NAME, NONE, 1, &flag));
    NULLED(dnsnames_compare(NONE, 1, NAME, sizeof NAME, &order));
    NULLED(dnsnames_compare(NAME, sizeof NAME, NONE, 1, &order));
    NULLED(dnsnames_ends_with(NONE, 1, NAME, sizeof NAME, &flag));
    NULLED(dnsnames_ends_with(NAME, sizeof NAME, NONE, 1, &flag));
    NULLED(dnsnames_hash(KEY, NONE, 1, &hash));
    NULLED(dnsnames_label_count(NONE, 1, &length));
    NULLED(dnsnames_label(NONE, 1, 0, &length));
    NULLED(dnsnames_label_back(NONE, 1, 0, &length));
    NULLED(dnsnames_parent(NONE, 1, &length));
    NULLED(dnsnames_plan(NONE, 1, table, 0, NAME, sizeof NAME, &length, &number[0]));
    NULLED(dnsnames_plan(NAME, sizeof NAME, NULL, 1, NAME, sizeof NAME, &length, &number[0]));
    NULLED(dnsnames_plan(NAME, sizeof NAME, table, 0, NONE, 1, &length, &number[0]));
    NULLED(dnsnames_append(NULL, 1, &octets_len, table, 128, &table_len, NAME, sizeof NAME));
    NULLED(dnsnames_append(buffer, sizeof buffer, &octets_len, NULL, 1, &table_len, NAME, sizeof NAME));
    NULLED(dnsnames_append(buffer, sizeof buffer, &octets_len, table, 128, &table_len, NONE, 1));
    CHECK(octets_len == 0 && table_len == 0);
    NULLED(dnsnames_header(NONE, 12, &header));
    NULLED(dnsnames_question(NONE, 1, 0, &question));
    NULLED(dnsnames_record(NONE, 1, 0, &record));
    NULLED(dnsnames_table(NONE, 1, 255, rows, 8, buffer, sizeof buffer, &length, &end));
    NULLED(dnsnames_table(NAME, sizeof NAME, 255, NULL, 1, buffer, sizeof buffer, &length, &end));
    NULLED(dnsnames_table(NAME, sizeof NAME, 255, rows, 8, NULL, 1, &length, &end));
    NULLED(dnsnames_data_field(NONE, 1, 0, 0, 5, 1, 0, &field));
    NULLED(dnsnames_data_name(NONE, 1, 0, 0, 5, 0, buffer, sizeof buffer, &length));
    NULLED(dnsnames_data_number(NONE, 1, 0, 0, 15, 0, &flag));
    NULLED(dnsnames_data_address(NONE, 1, 0, 0, 1, buffer, sizeof buffer, &length));
    NULLED(dnsnames_data_address(NAME, sizeof NAME, 0, 4, 1, NULL, 1, &length));
    NULLED(dnsnames_data_string(NONE, 1, 0, 0, 16, &length, &end, &end));
    NULLED(dnsnames_is_answer(NONE, 1, NAME, sizeof NAME, &flag));
    NULLED(dnsnames_is_answer(NAME, sizeof NAME, NONE, 1, &flag));
    NULLED(dnsnames_canonical_name(NONE, 1, 16, buffer, sizeof buffer, &length));
    NULLED(dnsnames_canonical_name(NAME, sizeof NAME, 16, NULL, 1, &length));
    NULLED(dnsnames_message_text(NONE, 1, buffer, sizeof buffer, &length));
    NULLED(dnsnames_message_text(NAME, sizeof NAME, NULL, 1, &length));
    NULLED(dnsnames_record_text(NONE, 1, 0, buffer, sizeof buffer, &length));
    NULLED(dnsnames_record_text(NAME, sizeof NAME, 0, NULL, 1, &length));
    NULLED(dnsnames_data_option(NONE, 1, 0, 0, 41, &length, &number[0], &end, &end));
    NULLED(dnsnames_append_option(buffer, sizeof buffer, &length, 3, NONE, 1));
    NULLED(dnsnames_append_cookie(buffer, sizeof buffer, &length, KEY, NONE, 8));
    NULLED(dnsnames_append_cookie(buffer, sizeof buffer, &length, NULL, NONE, 0));
    NULLED(dnsnames_append_client_subnet(buffer, sizeof buffer, &length, 1, 0, 0, NONE, 1));
    NULLED(dnsnames_append_extended_error(buffer, sizeof buffer, &length, 0, NONE, 1));
    NULLED(dnsnames_cookie(NONE, 8, &length));
    NULLED(dnsnames_client_subnet(NONE, 4, &subnet));
    NULLED(dnsnames_extended_error(NONE, 2, &number[0]));
    NULLED(dnsnames_type_text(1, NULL, 1, &length));
    NULLED(dnsnames_type_from_text(NONE, 1, &number[0]));
    NULLED(dnsnames_class_text(1, NULL, 1, &length));
    NULLED(dnsnames_class_from_text(NONE, 1, &number[0]));
    NULLED(dnsnames_opcode_text(1, NULL, 1, &length));
    NULLED(dnsnames_opcode_from_text(NONE, 1, &number[0]));
    NULLED(dnsnames_rcode_text(1, NULL, 1, &length));
    NULLED(dnsnames_rcode_from_text(NONE, 1, &number[0]));
    NULLED(dnsnames_data_name(NAME, sizeof NAME, 0, 5, 5, 0, NULL, 1, &length));
}

/* A builder, and the octets that it leads to. */
static void builders(void)
{
    NULLED(dnsnames_builder_start(NULL, buffer, sizeof buffer, 0, 0));
    NULLED(dnsnames_builder_start(&builder, NULL, 1, 0, 0));
    REFUSES(DNSNAMES_NO_ROOM, dnsnames_builder_start(&builder, NULL, 0, 0, 0));
    NULLED(dnsnames_builder_question(NULL, NAME, sizeof NAME, 1, 1));
    NULLED(dnsnames_builder_record(NULL, 1, NAME, sizeof NAME, 1, 1, 0, NULL, 0));
    NULLED(dnsnames_builder_opt(NULL, 512, 0, 0, 0, NULL, 0));
    NULLED(dnsnames_builder_opt_flags(NULL, 512, 0, 0, 0, NULL, 0));
    NULLED(dnsnames_builder_truncate(NULL));
    NULLED(dnsnames_builder_finish(NULL, &length));
    NULLED(dnsnames_builder_rrset(NULL, 1, NAME, sizeof NAME, 1, 1, 0, NULL, 0, NULL, 0));
    NULLED(dnsnames_builder_required(NULL, 1, NAME, sizeof NAME, 1, 1, 0, NULL, 0, NULL, 0, &flag));
    NULLED(dnsnames_builder_extra(NULL, 1, NAME, sizeof NAME, 1, 1, 0, NULL, 0, NULL, 0, &flag));
    NULLED(dnsnames_builder_rewind(NULL, &place));
    builder.octets = NULL;
    builder.capacity = 0;
    REFUSES(DNSNAMES_NO_BUILDER, dnsnames_builder_question(&builder, NAME, sizeof NAME, 1, 1));
    REFUSES(DNSNAMES_NO_BUILDER, dnsnames_builder_record(&builder, 1, NAME, sizeof NAME, 1, 1, 0, NULL, 0));
    REFUSES(DNSNAMES_NO_BUILDER, dnsnames_builder_opt(&builder, 512, 0, 0, 0, NULL, 0));
    REFUSES(DNSNAMES_NO_BUILDER, dnsnames_builder_opt_flags(&builder, 512, 0, 0, 0, NULL, 0));
    REFUSES(DNSNAMES_NO_BUILDER, dnsnames_builder_truncate(&builder));
    REFUSES(DNSNAMES_NO_BUILDER, dnsnames_builder_finish(&builder, &length));
    REFUSES(DNSNAMES_NO_BUILDER, dnsnames_builder_rrset(&builder, 1, NAME, sizeof NAME, 1, 1, 0, NULL, 0, NULL, 0));
    REFUSES(DNSNAMES_NO_BUILDER, dnsnames_builder_required(&builder, 1, NAME, sizeof NAME, 1, 1, 0, NULL, 0, NULL, 0, &flag));
    REFUSES(DNSNAMES_NO_BUILDER, dnsnames_builder_extra(&builder, 1, NAME, sizeof NAME, 1, 1, 0, NULL, 0, NULL, 0, &flag));
    REFUSES(DNSNAMES_NO_BUILDER, dnsnames_builder_rewind(&builder, &place));
    builder.capacity = 1;
    NULLED(dnsnames_builder_question(&builder, NAME, sizeof NAME, 1, 1));
    NULLED(dnsnames_builder_record(&builder, 1, NAME, sizeof NAME, 1, 1, 0, NULL, 0));
    NULLED(dnsnames_builder_opt(&builder, 512, 0, 0, 0, NULL, 0));
    NULLED(dnsnames_builder_opt_flags(&builder, 512, 0, 0, 0, NULL, 0));
    NULLED(dnsnames_builder_truncate(&builder));
    NULLED(dnsnames_builder_finish(&builder, &length));
    NULLED(dnsnames_builder_rrset(&builder, 1, NAME, sizeof NAME, 1, 1, 0, NULL, 0, NULL, 0));
    NULLED(dnsnames_builder_required(&builder, 1, NAME, sizeof NAME, 1, 1, 0, NULL, 0, NULL, 0, &flag));
    NULLED(dnsnames_builder_extra(&builder, 1, NAME, sizeof NAME, 1, 1, 0, NULL, 0, NULL, 0, &flag));
    NULLED(dnsnames_builder_rewind(&builder, &place));
    builder.octets = buffer;
    builder.capacity = sizeof buffer;
    NULLED(dnsnames_builder_question(&builder, NONE, 1, 1, 1));
    NULLED(dnsnames_builder_record(&builder, 1, NONE, 1, 1, 1, 0, NULL, 0));
    NULLED(dnsnames_builder_record(&builder, 1, NAME, sizeof NAME, 1, 1, 0, NONE, 1));
    NULLED(dnsnames_builder_opt(&builder, 512, 0, 0, 0, NONE, 1));
    NULLED(dnsnames_builder_opt_flags(&builder, 512, 0, 0, 0, NONE, 1));
    NULLED(dnsnames_builder_finish(&builder, NULL));
    NULLED(dnsnames_builder_rewind(&builder, NULL));
}

/* So are RRsets of which a pointer is. */
static void rrsets(void)
{
    static const uint16_t lens[1] = {0};

    builder.octets = buffer;
    builder.capacity = sizeof buffer;
    NULLED(dnsnames_builder_rrset(&builder, 1, NONE, 1, 1, 1, 0, NULL, 0, lens, 1));
    NULLED(dnsnames_builder_rrset(&builder, 1, NAME, sizeof NAME, 1, 1, 0, NONE, 1, lens, 1));
    NULLED(dnsnames_builder_rrset(&builder, 1, NAME, sizeof NAME, 1, 1, 0, NULL, 0, NULL, 1));
    NULLED(dnsnames_builder_required(&builder, 1, NONE, 1, 1, 1, 0, NULL, 0, lens, 1, &flag));
    NULLED(dnsnames_builder_required(&builder, 1, NAME, sizeof NAME, 1, 1, 0, NONE, 1, lens, 1, &flag));
    NULLED(dnsnames_builder_required(&builder, 1, NAME, sizeof NAME, 1, 1, 0, NULL, 0, NULL, 1, &flag));
    NULLED(dnsnames_builder_required(&builder, 1, NAME, sizeof NAME, 1, 1, 0, NULL, 0, lens, 1, NULL));
    NULLED(dnsnames_builder_extra(&builder, 1, NONE, 1, 1, 1, 0, NULL, 0, lens, 1, &flag));
    NULLED(dnsnames_builder_extra(&builder, 1, NAME, sizeof NAME, 1, 1, 0, NONE, 1, lens, 1, &flag));
    NULLED(dnsnames_builder_extra(&builder, 1, NAME, sizeof NAME, 1, 1, 0, NULL, 0, NULL, 1, &flag));
    NULLED(dnsnames_builder_extra(&builder, 1, NAME, sizeof NAME, 1, 1, 0, NULL, 0, lens, 1, NULL));
}

/* So is one where a result is to go. */
static void results(void)
{
    static const uint8_t message[29] = {0};
    size_t octets_len = 0, table_len = 0;

    NULLED(dnsnames_read(NAME, sizeof NAME, 0, 255, buffer, sizeof buffer, NULL, &end, &flag));
    NULLED(dnsnames_read(NAME, sizeof NAME, 0, 255, buffer, sizeof buffer, &length, NULL, &flag));
    NULLED(dnsnames_read(NAME, sizeof NAME, 0, 255, buffer, sizeof buffer, &length, &end, NULL));
    NULLED(dnsnames_skip(NAME, sizeof NAME, 0, NULL));
    NULLED(dnsnames_from_text(NAME + 1, 3, buffer, sizeof buffer, NULL));
    NULLED(dnsnames_to_text(NAME, sizeof NAME, 1, buffer, sizeof buffer, NULL));
    NULLED(dnsnames_lower(NAME, sizeof NAME, buffer, sizeof buffer, NULL));
    NULLED(dnsnames_eq(NAME, sizeof NAME, NAME, sizeof NAME, NULL));
    NULLED(dnsnames_compare(NAME, sizeof NAME, NAME, sizeof NAME, NULL));
    NULLED(dnsnames_ends_with(NAME, sizeof NAME, NAME, sizeof NAME, NULL));
    NULLED(dnsnames_hash(KEY, NAME, sizeof NAME, NULL));
    NULLED(dnsnames_hash(NULL, NAME, sizeof NAME, &hash));
    NULLED(dnsnames_data_field(NAME, sizeof NAME, 0, 5, 5, 1, 0, NULL));
    NULLED(dnsnames_data_name(NAME, sizeof NAME, 0, 5, 5, 0, buffer, sizeof buffer, NULL));
    NULLED(dnsnames_data_number(NAME, sizeof NAME, 0, 5, 15, 0, NULL));
    NULLED(dnsnames_data_address(NAME, sizeof NAME, 0, 4, 1, buffer, sizeof buffer, NULL));
    NULLED(dnsnames_data_string(NAME, sizeof NAME, 0, 5, 16, NULL, &length, &end));
    NULLED(dnsnames_data_string(NAME, sizeof NAME, 0, 5, 16, &length, NULL, &end));
    NULLED(dnsnames_data_string(NAME, sizeof NAME, 0, 5, 16, &length, &end, NULL));
    NULLED(dnsnames_is_answer(NAME, sizeof NAME, NAME, sizeof NAME, NULL));
    NULLED(dnsnames_canonical_name(NAME, sizeof NAME, 16, buffer, sizeof buffer, NULL));
    NULLED(dnsnames_message_text(NAME, sizeof NAME, buffer, sizeof buffer, NULL));
    NULLED(dnsnames_record_text(NAME, sizeof NAME, 0, buffer, sizeof buffer, NULL));
    NULLED(dnsnames_opt(41, 512, 0, 0, NULL));
    NULLED(dnsnames_data_option(NAME, sizeof NAME, 0, 5, 41, NULL, &number[0], &length, &end));
    NULLED(dnsnames_data_option(NAME, sizeof NAME, 0, 5, 41, &length, NULL, &end, &end));
    NULLED(dnsnames_data_option(NAME, sizeof NAME, 0, 5, 41, &length, &number[0], NULL, &end));
    NULLED(dnsnames_data_option(NAME, sizeof NAME, 0, 5, 41, &length, &number[0], &end, NULL));
    NULLED(dnsnames_append_option(buffer, sizeof buffer, NULL, 3, NAME, 1));
    NULLED(dnsnames_append_option(NULL, 1, &octets_len, 3, NAME, 1));
    NULLED(dnsnames_append_cookie(buffer, sizeof buffer, NULL, KEY, NAME, 0));
    NULLED(dnsnames_append_cookie(NULL, 1, &octets_len, KEY, NAME, 0));
    NULLED(dnsnames_append_client_subnet(buffer, sizeof buffer, NULL, 1, 8, 0, NAME, 1));
    NULLED(dnsnames_append_client_subnet(NULL, 1, &octets_len, 1, 8, 0, NAME, 1));
    NULLED(dnsnames_append_extended_error(buffer, sizeof buffer, NULL, 0, NAME, 1));
    NULLED(dnsnames_append_extended_error(NULL, 1, &octets_len, 0, NAME, 1));
    NULLED(dnsnames_cookie(KEY, 8, NULL));
    NULLED(dnsnames_client_subnet(KEY, 4, NULL));
    NULLED(dnsnames_extended_error(KEY, 2, NULL));
    NULLED(dnsnames_type_text(1, buffer, sizeof buffer, NULL));
    NULLED(dnsnames_type_from_text(NAME + 1, 3, NULL));
    NULLED(dnsnames_class_text(1, buffer, sizeof buffer, NULL));
    NULLED(dnsnames_class_from_text(NAME + 1, 3, NULL));
    NULLED(dnsnames_opcode_text(1, buffer, sizeof buffer, NULL));
    NULLED(dnsnames_opcode_from_text(NAME + 1, 3, NULL));
    NULLED(dnsnames_rcode_text(1, buffer, sizeof buffer, NULL));
    NULLED(dnsnames_rcode_from_text(NAME + 1, 3, NULL));
    NULLED(dnsnames_label_count(NAME, sizeof NAME, NULL));
    NULLED(dnsnames_label(NAME, sizeof NAME, 0, NULL));
    NULLED(dnsnames_label_back(NAME, sizeof NAME, 0, NULL));
    NULLED(dnsnames_parent(NAME, sizeof NAME, NULL));
    NULLED(dnsnames_plan(NAME, sizeof NAME, table, 0, NAME, sizeof NAME, NULL, &number[0]));
    NULLED(dnsnames_plan(NAME, sizeof NAME, table, 0, NAME, sizeof NAME, &length, NULL));
    NULLED(dnsnames_append(buffer, sizeof buffer, NULL, table, 128, &table_len, NAME, sizeof NAME));
    NULLED(dnsnames_append(buffer, sizeof buffer, &octets_len, table, 128, NULL, NAME, sizeof NAME));
    CHECK(octets_len == 0 && table_len == 0);
    NULLED(dnsnames_header(message, sizeof message, NULL));
    NULLED(dnsnames_question(message, sizeof message, 12, NULL));
    NULLED(dnsnames_record(message, sizeof message, 12, NULL));
    NULLED(dnsnames_table(message, sizeof message, 255, rows, 8, buffer, sizeof buffer, NULL, &end));
    NULLED(dnsnames_table(message, sizeof message, 255, rows, 8, buffer, sizeof buffer, &length, NULL));
}

int main(void)
{
    empty();
    no_buffer();
    slices();
    builders();
    rrsets();
    results();
    return told("calls with null pointers");
}
