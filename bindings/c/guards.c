/* The calls of dnsnames.h over those that are proved: null pointers are found here, the fields of structs are passed one
 * by one, a text gets its zero octet, and all else is theirs.
 *
 * The proved calls stand in the archive of the crate dnsnames_c under the same names; the Makefile puts proved_ before
 * them (objcopy), and joins both to one object, in which only the names that dnsnames.h declares are seen. */
#include "dnsnames.h"

/* Stands for a null pointer to no octets, no offsets or no rows: a slice's pointer isn't null in the proved calls. Nothing
 * is read there, and nothing written. */
static const uint32_t nothing[1] = {0};

/* What is proved. */
uint32_t proved_dnsnames_read(const uint8_t *message, size_t message_len, size_t offset, uint8_t limit,
                              uint8_t *buffer, size_t capacity, size_t *length, size_t *end, uint32_t *compressed);
uint32_t proved_dnsnames_skip(const uint8_t *message, size_t message_len, size_t offset, size_t *end);
uint32_t proved_dnsnames_check(const uint8_t *octets, size_t len);
uint32_t proved_dnsnames_check_relative(const uint8_t *octets, size_t len);
uint32_t proved_dnsnames_from_text(const uint8_t *text, size_t text_len, uint8_t *buffer, size_t capacity,
                                   size_t *length);
uint32_t proved_dnsnames_to_text(const uint8_t *name, size_t len, uint32_t final_dot, uint8_t *buffer,
                                 size_t capacity, size_t *length);
uint32_t proved_dnsnames_lower(const uint8_t *name, size_t len, uint8_t *buffer, size_t capacity, size_t *length);
uint32_t proved_dnsnames_eq(const uint8_t *left, size_t left_len, const uint8_t *right, size_t right_len,
                            uint32_t *equal);
uint32_t proved_dnsnames_compare(const uint8_t *left, size_t left_len, const uint8_t *right, size_t right_len,
                                 int32_t *order);
uint32_t proved_dnsnames_ends_with(const uint8_t *name, size_t len, const uint8_t *suffix, size_t suffix_len,
                                   uint32_t *ends);
uint32_t proved_dnsnames_hash(const uint8_t *key, const uint8_t *name, size_t len, uint64_t *hash);
uint32_t proved_dnsnames_label_count(const uint8_t *name, size_t len, size_t *count);
uint32_t proved_dnsnames_label(const uint8_t *name, size_t len, size_t index, size_t *offset);
uint32_t proved_dnsnames_label_back(const uint8_t *name, size_t len, size_t index, size_t *offset);
uint32_t proved_dnsnames_parent(const uint8_t *name, size_t len, size_t *offset);
uint32_t proved_dnsnames_plan(const uint8_t *octets, size_t octets_len, const uint16_t *table, size_t table_len,
                              const uint8_t *name, size_t len, size_t *begin, uint16_t *offset);
uint32_t proved_dnsnames_append(uint8_t *octets, size_t capacity, size_t *octets_len, uint16_t *table,
                                size_t table_capacity, size_t *table_len, const uint8_t *name, size_t len);
uint32_t proved_dnsnames_header(const uint8_t *message, size_t message_len, uint16_t *id, uint16_t *flags,
                                uint16_t *questions, uint16_t *answers, uint16_t *authority, uint16_t *additional);
uint32_t proved_dnsnames_question(const uint8_t *message, size_t message_len, size_t offset, uint16_t *type,
                                  uint16_t *class_, size_t *end);
uint32_t proved_dnsnames_record(const uint8_t *message, size_t message_len, size_t offset, uint16_t *type,
                                uint16_t *class_, uint32_t *ttl, size_t *data, size_t *data_len, size_t *end);
uint32_t proved_dnsnames_table(const uint8_t *message, size_t message_len, uint8_t limit, uint32_t *rows,
                               size_t rows_capacity, uint8_t *names, size_t names_capacity, size_t *row_count,
                               size_t *names_len);
uint32_t proved_dnsnames_is_answer(const uint8_t *message, size_t message_len, const uint8_t *query, size_t query_len,
                                   uint32_t *yes);
uint32_t proved_dnsnames_canonical_name(const uint8_t *message, size_t message_len, uint16_t limit, uint8_t *buffer,
                                        size_t capacity, size_t *length);
uint32_t proved_dnsnames_data_field(const uint8_t *message, size_t message_len, size_t data, size_t data_len,
                                    uint16_t type, uint16_t class_, size_t index, uint32_t *kind, size_t *begin,
                                    size_t *end, uint64_t *number);
uint32_t proved_dnsnames_data_name(const uint8_t *message, size_t message_len, size_t data, size_t data_len,
                                   uint16_t type, size_t index, uint8_t *buffer, size_t capacity, size_t *length);
uint32_t proved_dnsnames_data_number(const uint8_t *message, size_t message_len, size_t data, size_t data_len,
                                     uint16_t type, size_t index, uint32_t *value);
uint32_t proved_dnsnames_data_address(const uint8_t *message, size_t message_len, size_t data, size_t data_len,
                                      uint16_t type, uint8_t *buffer, size_t capacity, size_t *length);
uint32_t proved_dnsnames_data_string(const uint8_t *message, size_t message_len, size_t data, size_t data_len,
                                     uint16_t type, size_t *passed, size_t *string, size_t *string_len);
uint32_t proved_dnsnames_opt(uint16_t type, uint16_t class_, uint32_t ttl, uint16_t flags, uint16_t *size,
                             uint16_t *rcode, uint8_t *version, uint16_t *bits, uint32_t *dnssec_ok);
uint32_t proved_dnsnames_data_option(const uint8_t *message, size_t message_len, size_t data, size_t data_len,
                                     uint16_t type, size_t *passed, uint16_t *code, size_t *option,
                                     size_t *option_len);
uint32_t proved_dnsnames_append_option(uint8_t *options, size_t capacity, size_t *options_len, uint16_t code,
                                       const uint8_t *data, size_t data_len);
uint32_t proved_dnsnames_append_cookie(uint8_t *options, size_t capacity, size_t *options_len, const uint8_t *client,
                                       const uint8_t *server, size_t server_len);
uint32_t proved_dnsnames_append_client_subnet(uint8_t *options, size_t capacity, size_t *options_len, uint16_t family,
                                              uint8_t source_prefix_len, uint8_t scope_prefix_len,
                                              const uint8_t *address, size_t address_len);
uint32_t proved_dnsnames_append_extended_error(uint8_t *options, size_t capacity, size_t *options_len,
                                               uint16_t info_code, const uint8_t *text, size_t text_len);
uint32_t proved_dnsnames_cookie(const uint8_t *option, size_t option_len, size_t *server_len);
uint32_t proved_dnsnames_client_subnet(const uint8_t *option, size_t option_len, uint16_t *family,
                                       uint8_t *source_prefix_len, uint8_t *scope_prefix_len);
uint32_t proved_dnsnames_extended_error(const uint8_t *option, size_t option_len, uint16_t *info_code);
uint32_t proved_dnsnames_message_text(const uint8_t *message, size_t message_len, uint8_t *buffer, size_t capacity,
                                      size_t *length);
uint32_t proved_dnsnames_record_text(const uint8_t *message, size_t message_len, size_t offset, uint8_t *buffer,
                                     size_t capacity, size_t *length);
uint32_t proved_dnsnames_type_text(uint16_t type, uint8_t *buffer, size_t capacity, size_t *length);
uint32_t proved_dnsnames_type_from_text(const uint8_t *text, size_t text_len, uint16_t *type);
uint32_t proved_dnsnames_class_text(uint16_t class_, uint8_t *buffer, size_t capacity, size_t *length);
uint32_t proved_dnsnames_class_from_text(const uint8_t *text, size_t text_len, uint16_t *class_);
uint32_t proved_dnsnames_opcode_text(uint16_t opcode, uint8_t *buffer, size_t capacity, size_t *length);
uint32_t proved_dnsnames_opcode_from_text(const uint8_t *text, size_t text_len, uint16_t *opcode);
uint32_t proved_dnsnames_rcode_text(uint16_t rcode, uint8_t *buffer, size_t capacity, size_t *length);
uint32_t proved_dnsnames_rcode_from_text(const uint8_t *text, size_t text_len, uint16_t *rcode);
uint32_t proved_dnsnames_builder_start(uint8_t *octets, size_t capacity, dnsnames_builder_state *state, uint16_t id,
                                       uint16_t flags);
uint32_t proved_dnsnames_builder_question(uint8_t *octets, size_t capacity, dnsnames_builder_state *state,
                                          const uint8_t *name, size_t len, uint16_t type, uint16_t class_);
uint32_t proved_dnsnames_builder_record(uint8_t *octets, size_t capacity, dnsnames_builder_state *state,
                                        uint32_t section, const uint8_t *owner, size_t owner_len, uint16_t type,
                                        uint16_t class_, uint32_t ttl, const uint8_t *data, size_t data_len);
uint32_t proved_dnsnames_builder_rrset(uint8_t *octets, size_t capacity, dnsnames_builder_state *state,
                                       uint32_t section, const uint8_t *owner, size_t owner_len, uint16_t type,
                                       uint16_t class_, uint32_t ttl, const uint8_t *data, size_t data_len,
                                       const uint16_t *lens, size_t lens_len);
uint32_t proved_dnsnames_builder_required(uint8_t *octets, size_t capacity, dnsnames_builder_state *state,
                                          uint32_t section, const uint8_t *owner, size_t owner_len, uint16_t type,
                                          uint16_t class_, uint32_t ttl, const uint8_t *data, size_t data_len,
                                          const uint16_t *lens, size_t lens_len, uint32_t *pushed);
uint32_t proved_dnsnames_builder_extra(uint8_t *octets, size_t capacity, dnsnames_builder_state *state,
                                       uint32_t section, const uint8_t *owner, size_t owner_len, uint16_t type,
                                       uint16_t class_, uint32_t ttl, const uint8_t *data, size_t data_len,
                                       const uint16_t *lens, size_t lens_len, uint32_t *pushed);
uint32_t proved_dnsnames_builder_rewind(const uint8_t *octets, size_t capacity, dnsnames_builder_state *state,
                                        const dnsnames_builder_state *mark);
uint32_t proved_dnsnames_builder_opt(uint8_t *octets, size_t capacity, dnsnames_builder_state *state, uint16_t size,
                                     uint8_t rcode_ext, uint8_t version, uint32_t dnssec_ok, const uint8_t *options,
                                     size_t options_len);
uint32_t proved_dnsnames_builder_opt_flags(uint8_t *octets, size_t capacity, dnsnames_builder_state *state,
                                           uint16_t size, uint8_t rcode_ext, uint8_t version, uint16_t flags,
                                           const uint8_t *options, size_t options_len);
uint32_t proved_dnsnames_builder_truncate(const uint8_t *octets, size_t capacity, dnsnames_builder_state *state);
uint32_t proved_dnsnames_builder_finish(uint8_t *octets, size_t capacity, const dnsnames_builder_state *state,
                                        size_t *length);

/* The status where a null pointer is among what is passed, and that of the call otherwise. */
#define GUARDED(null, call) ((null) ? DNSNAMES_NULL : (dnsnames_status)(call))

/* A null pointer to something. */
static int is_null(const void *pointer, size_t len)
{
    return pointer == NULL && len != 0;
}

static const uint8_t *octets_at(const uint8_t *octets)
{
    return octets == NULL ? (const uint8_t *)nothing : octets;
}

static uint8_t *room_at(uint8_t *buffer)
{
    return buffer == NULL ? (uint8_t *)nothing : buffer;
}

static uint16_t *offsets_at(uint16_t *table)
{
    return table == NULL ? (uint16_t *)nothing : table;
}

static uint32_t *rows_at(uint32_t *rows)
{
    return rows == NULL ? (uint32_t *)nothing : rows;
}

const char *dnsnames_version(void)
{
    return DNSNAMES_VERSION;
}

dnsnames_status dnsnames_read(const uint8_t *message, size_t message_len, size_t offset, uint8_t limit,
                              uint8_t *buffer, size_t capacity, size_t *length, size_t *end, uint32_t *compressed)
{
    return GUARDED(is_null(message, message_len) || is_null(buffer, capacity) || length == NULL || end == NULL ||
                   compressed == NULL,
                   proved_dnsnames_read(octets_at(message), message_len, offset, limit, room_at(buffer), capacity,
                                        length, end, compressed));
}

dnsnames_status dnsnames_skip(const uint8_t *message, size_t message_len, size_t offset, size_t *end)
{
    return GUARDED(is_null(message, message_len) || end == NULL,
                   proved_dnsnames_skip(octets_at(message), message_len, offset, end));
}

dnsnames_status dnsnames_check(const uint8_t *octets, size_t len)
{
    return GUARDED(is_null(octets, len), proved_dnsnames_check(octets_at(octets), len));
}

dnsnames_status dnsnames_check_relative(const uint8_t *octets, size_t len)
{
    return GUARDED(is_null(octets, len), proved_dnsnames_check_relative(octets_at(octets), len));
}

dnsnames_status dnsnames_from_text(const uint8_t *text, size_t text_len, uint8_t *buffer, size_t capacity,
                                   size_t *length)
{
    return GUARDED(is_null(text, text_len) || is_null(buffer, capacity) || length == NULL,
                   proved_dnsnames_from_text(octets_at(text), text_len, room_at(buffer), capacity, length));
}

/* Puts a zero octet after a text that was given, where there is room for it. */
static dnsnames_status ended(dnsnames_status status, uint8_t *buffer, size_t capacity, const size_t *length)
{
    if (status == DNSNAMES_OK && *length < capacity)
        buffer[*length] = 0;
    return status;
}

dnsnames_status dnsnames_to_text(const uint8_t *name, size_t len, uint32_t final_dot, uint8_t *buffer,
                                 size_t capacity, size_t *length)
{
    return ended(GUARDED(is_null(name, len) || is_null(buffer, capacity) || length == NULL,
                         proved_dnsnames_to_text(octets_at(name), len, final_dot, room_at(buffer), capacity, length)),
                 buffer, capacity, length);
}

dnsnames_status dnsnames_lower(const uint8_t *name, size_t len, uint8_t *buffer, size_t capacity, size_t *length)
{
    return GUARDED(is_null(name, len) || is_null(buffer, capacity) || length == NULL,
                   proved_dnsnames_lower(octets_at(name), len, room_at(buffer), capacity, length));
}

dnsnames_status dnsnames_eq(const uint8_t *left, size_t left_len, const uint8_t *right, size_t right_len,
                            uint32_t *equal)
{
    return GUARDED(is_null(left, left_len) || is_null(right, right_len) || equal == NULL,
                   proved_dnsnames_eq(octets_at(left), left_len, octets_at(right), right_len, equal));
}

dnsnames_status dnsnames_compare(const uint8_t *left, size_t left_len, const uint8_t *right, size_t right_len,
                                 int32_t *order)
{
    return GUARDED(is_null(left, left_len) || is_null(right, right_len) || order == NULL,
                   proved_dnsnames_compare(octets_at(left), left_len, octets_at(right), right_len, order));
}

dnsnames_status dnsnames_ends_with(const uint8_t *name, size_t len, const uint8_t *suffix, size_t suffix_len,
                                   uint32_t *ends)
{
    return GUARDED(is_null(name, len) || is_null(suffix, suffix_len) || ends == NULL,
                   proved_dnsnames_ends_with(octets_at(name), len, octets_at(suffix), suffix_len, ends));
}

dnsnames_status dnsnames_hash(const uint8_t key[DNSNAMES_KEY_LEN], const uint8_t *name, size_t len, uint64_t *hash)
{
    return GUARDED(key == NULL || is_null(name, len) || hash == NULL,
                   proved_dnsnames_hash(key, octets_at(name), len, hash));
}

dnsnames_status dnsnames_label_count(const uint8_t *name, size_t len, size_t *count)
{
    return GUARDED(is_null(name, len) || count == NULL, proved_dnsnames_label_count(octets_at(name), len, count));
}

dnsnames_status dnsnames_label(const uint8_t *name, size_t len, size_t index, size_t *offset)
{
    return GUARDED(is_null(name, len) || offset == NULL,
                   proved_dnsnames_label(octets_at(name), len, index, offset));
}

dnsnames_status dnsnames_label_back(const uint8_t *name, size_t len, size_t index, size_t *offset)
{
    return GUARDED(is_null(name, len) || offset == NULL,
                   proved_dnsnames_label_back(octets_at(name), len, index, offset));
}

dnsnames_status dnsnames_parent(const uint8_t *name, size_t len, size_t *offset)
{
    return GUARDED(is_null(name, len) || offset == NULL, proved_dnsnames_parent(octets_at(name), len, offset));
}

dnsnames_status dnsnames_plan(const uint8_t *octets, size_t octets_len, const uint16_t *table, size_t table_len,
                              const uint8_t *name, size_t len, size_t *begin, uint16_t *offset)
{
    return GUARDED(is_null(octets, octets_len) || is_null(table, table_len) || is_null(name, len) ||
                   begin == NULL || offset == NULL,
                   proved_dnsnames_plan(octets_at(octets), octets_len,
                                        table == NULL ? (const uint16_t *)nothing : table, table_len,
                                        octets_at(name), len, begin, offset));
}

dnsnames_status dnsnames_append(uint8_t *octets, size_t capacity, size_t *octets_len, uint16_t *table,
                                size_t table_capacity, size_t *table_len, const uint8_t *name, size_t len)
{
    return GUARDED(is_null(octets, capacity) || octets_len == NULL || is_null(table, table_capacity) ||
                   table_len == NULL || is_null(name, len),
                   proved_dnsnames_append(room_at(octets), capacity, octets_len, offsets_at(table),
                                          table_capacity, table_len, octets_at(name), len));
}

dnsnames_status dnsnames_header(const uint8_t *message, size_t message_len, dnsnames_header_fields *header)
{
    return GUARDED(is_null(message, message_len) || header == NULL,
                   proved_dnsnames_header(octets_at(message), message_len, &header->id, &header->flags,
                                          &header->questions, &header->answers, &header->authority,
                                          &header->additional));
}

dnsnames_status dnsnames_question(const uint8_t *message, size_t message_len, size_t offset,
                                  dnsnames_question_fields *question)
{
    return GUARDED(is_null(message, message_len) || question == NULL,
                   proved_dnsnames_question(octets_at(message), message_len, offset, &question->type,
                                            &question->class_, &question->end));
}

dnsnames_status dnsnames_record(const uint8_t *message, size_t message_len, size_t offset,
                                dnsnames_record_fields *record)
{
    return GUARDED(is_null(message, message_len) || record == NULL,
                   proved_dnsnames_record(octets_at(message), message_len, offset, &record->type, &record->class_,
                                          &record->ttl, &record->data, &record->data_len, &record->end));
}

dnsnames_status dnsnames_table(const uint8_t *message, size_t message_len, uint8_t limit, uint32_t *rows,
                               size_t rows_capacity, uint8_t *names, size_t names_capacity, size_t *row_count,
                               size_t *names_len)
{
    return GUARDED(is_null(message, message_len) || is_null(rows, rows_capacity) || is_null(names, names_capacity) ||
                   row_count == NULL || names_len == NULL,
                   proved_dnsnames_table(octets_at(message), message_len, limit, rows_at(rows), rows_capacity,
                                         room_at(names), names_capacity, row_count, names_len));
}

dnsnames_status dnsnames_is_answer(const uint8_t *message, size_t message_len, const uint8_t *query, size_t query_len,
                                   uint32_t *yes)
{
    return GUARDED(is_null(message, message_len) || is_null(query, query_len) || yes == NULL,
                   proved_dnsnames_is_answer(octets_at(message), message_len, octets_at(query), query_len, yes));
}

dnsnames_status dnsnames_canonical_name(const uint8_t *message, size_t message_len, uint16_t limit, uint8_t *buffer,
                                        size_t capacity, size_t *length)
{
    return GUARDED(is_null(message, message_len) || is_null(buffer, capacity) || length == NULL,
                   proved_dnsnames_canonical_name(octets_at(message), message_len, limit, room_at(buffer), capacity,
                                                  length));
}

dnsnames_status dnsnames_data_field(const uint8_t *message, size_t message_len, size_t data, size_t data_len,
                                    uint16_t type, uint16_t class_, size_t index, dnsnames_field *field)
{
    return GUARDED(is_null(message, message_len) || field == NULL,
                   proved_dnsnames_data_field(octets_at(message), message_len, data, data_len, type, class_, index,
                                              &field->kind, &field->begin, &field->end, &field->number));
}

dnsnames_status dnsnames_data_name(const uint8_t *message, size_t message_len, size_t data, size_t data_len,
                                   uint16_t type, size_t index, uint8_t *buffer, size_t capacity, size_t *length)
{
    return GUARDED(is_null(message, message_len) || is_null(buffer, capacity) || length == NULL,
                   proved_dnsnames_data_name(octets_at(message), message_len, data, data_len, type, index,
                                             room_at(buffer), capacity, length));
}

dnsnames_status dnsnames_data_number(const uint8_t *message, size_t message_len, size_t data, size_t data_len,
                                     uint16_t type, size_t index, uint32_t *value)
{
    return GUARDED(is_null(message, message_len) || value == NULL,
                   proved_dnsnames_data_number(octets_at(message), message_len, data, data_len, type, index, value));
}

dnsnames_status dnsnames_data_address(const uint8_t *message, size_t message_len, size_t data, size_t data_len,
                                      uint16_t type, uint8_t *buffer, size_t capacity, size_t *length)
{
    return GUARDED(is_null(message, message_len) || is_null(buffer, capacity) || length == NULL,
                   proved_dnsnames_data_address(octets_at(message), message_len, data, data_len, type,
                                                room_at(buffer), capacity, length));
}

dnsnames_status dnsnames_data_string(const uint8_t *message, size_t message_len, size_t data, size_t data_len,
                                     uint16_t type, size_t *passed, size_t *string, size_t *string_len)
{
    return GUARDED(is_null(message, message_len) || passed == NULL || string == NULL || string_len == NULL,
                   proved_dnsnames_data_string(octets_at(message), message_len, data, data_len, type, passed, string,
                                               string_len));
}

dnsnames_status dnsnames_opt(uint16_t type, uint16_t class_, uint32_t ttl, uint16_t flags, dnsnames_opt_fields *opt)
{
    return GUARDED(opt == NULL, proved_dnsnames_opt(type, class_, ttl, flags, &opt->size, &opt->rcode, &opt->version,
                                                    &opt->flags, &opt->dnssec_ok));
}

dnsnames_status dnsnames_data_option(const uint8_t *message, size_t message_len, size_t data, size_t data_len,
                                     uint16_t type, size_t *passed, uint16_t *code, size_t *option,
                                     size_t *option_len)
{
    return GUARDED(is_null(message, message_len) || passed == NULL || code == NULL || option == NULL ||
                   option_len == NULL,
                   proved_dnsnames_data_option(octets_at(message), message_len, data, data_len, type, passed, code,
                                               option, option_len));
}

/* Whether a buffer of options or its length is null. */
static int no_options(const uint8_t *options, size_t capacity, const size_t *options_len)
{
    return is_null(options, capacity) || options_len == NULL;
}

dnsnames_status dnsnames_append_option(uint8_t *options, size_t capacity, size_t *options_len, uint16_t code,
                                       const uint8_t *data, size_t data_len)
{
    return GUARDED(no_options(options, capacity, options_len) || is_null(data, data_len),
                   proved_dnsnames_append_option(room_at(options), capacity, options_len, code, octets_at(data),
                                                 data_len));
}

dnsnames_status dnsnames_append_cookie(uint8_t *options, size_t capacity, size_t *options_len, const uint8_t *client,
                                       const uint8_t *server, size_t server_len)
{
    return GUARDED(no_options(options, capacity, options_len) || client == NULL || is_null(server, server_len),
                   proved_dnsnames_append_cookie(room_at(options), capacity, options_len, client, octets_at(server),
                                                 server_len));
}

dnsnames_status dnsnames_append_client_subnet(uint8_t *options, size_t capacity, size_t *options_len, uint16_t family,
                                              uint8_t source_prefix_len, uint8_t scope_prefix_len,
                                              const uint8_t *address, size_t address_len)
{
    return GUARDED(no_options(options, capacity, options_len) || is_null(address, address_len),
                   proved_dnsnames_append_client_subnet(room_at(options), capacity, options_len, family,
                                                        source_prefix_len, scope_prefix_len, octets_at(address),
                                                        address_len));
}

dnsnames_status dnsnames_append_extended_error(uint8_t *options, size_t capacity, size_t *options_len,
                                               uint16_t info_code, const uint8_t *text, size_t text_len)
{
    return GUARDED(no_options(options, capacity, options_len) || is_null(text, text_len),
                   proved_dnsnames_append_extended_error(room_at(options), capacity, options_len, info_code,
                                                         octets_at(text), text_len));
}

dnsnames_status dnsnames_cookie(const uint8_t *option, size_t option_len, size_t *server_len)
{
    return GUARDED(is_null(option, option_len) || server_len == NULL,
                   proved_dnsnames_cookie(octets_at(option), option_len, server_len));
}

dnsnames_status dnsnames_client_subnet(const uint8_t *option, size_t option_len, dnsnames_subnet_fields *subnet)
{
    return GUARDED(is_null(option, option_len) || subnet == NULL,
                   proved_dnsnames_client_subnet(octets_at(option), option_len, &subnet->family,
                                                 &subnet->source_prefix_len, &subnet->scope_prefix_len));
}

dnsnames_status dnsnames_extended_error(const uint8_t *option, size_t option_len, uint16_t *info_code)
{
    return GUARDED(is_null(option, option_len) || info_code == NULL,
                   proved_dnsnames_extended_error(octets_at(option), option_len, info_code));
}

/* Puts a zero octet after a text that is whole or ends at a fault, where there is room for it. */
static dnsnames_status ended_text(dnsnames_status status, uint8_t *buffer, size_t capacity, const size_t *length)
{
    if (status != DNSNAMES_NULL && status != DNSNAMES_NO_TEXT && *length < capacity)
        buffer[*length] = 0;
    return status;
}

dnsnames_status dnsnames_message_text(const uint8_t *message, size_t message_len, uint8_t *buffer, size_t capacity,
                                      size_t *length)
{
    return ended_text(GUARDED(is_null(message, message_len) || is_null(buffer, capacity) || length == NULL,
                              proved_dnsnames_message_text(octets_at(message), message_len, room_at(buffer), capacity,
                                                           length)),
                      buffer, capacity, length);
}

dnsnames_status dnsnames_record_text(const uint8_t *message, size_t message_len, size_t offset, uint8_t *buffer,
                                     size_t capacity, size_t *length)
{
    return ended(GUARDED(is_null(message, message_len) || is_null(buffer, capacity) || length == NULL,
                         proved_dnsnames_record_text(octets_at(message), message_len, offset, room_at(buffer), capacity,
                                                     length)),
                 buffer, capacity, length);
}

dnsnames_status dnsnames_type_text(uint16_t type, uint8_t *buffer, size_t capacity, size_t *length)
{
    return ended(GUARDED(is_null(buffer, capacity) || length == NULL,
                         proved_dnsnames_type_text(type, room_at(buffer), capacity, length)),
                 buffer, capacity, length);
}

dnsnames_status dnsnames_type_from_text(const uint8_t *text, size_t text_len, uint16_t *type)
{
    return GUARDED(is_null(text, text_len) || type == NULL,
                   proved_dnsnames_type_from_text(octets_at(text), text_len, type));
}

dnsnames_status dnsnames_class_text(uint16_t class_, uint8_t *buffer, size_t capacity, size_t *length)
{
    return ended(GUARDED(is_null(buffer, capacity) || length == NULL,
                         proved_dnsnames_class_text(class_, room_at(buffer), capacity, length)),
                 buffer, capacity, length);
}

dnsnames_status dnsnames_class_from_text(const uint8_t *text, size_t text_len, uint16_t *class_)
{
    return GUARDED(is_null(text, text_len) || class_ == NULL,
                   proved_dnsnames_class_from_text(octets_at(text), text_len, class_));
}

dnsnames_status dnsnames_opcode_text(uint16_t opcode, uint8_t *buffer, size_t capacity, size_t *length)
{
    return ended(GUARDED(is_null(buffer, capacity) || length == NULL,
                         proved_dnsnames_opcode_text(opcode, room_at(buffer), capacity, length)),
                 buffer, capacity, length);
}

dnsnames_status dnsnames_opcode_from_text(const uint8_t *text, size_t text_len, uint16_t *opcode)
{
    return GUARDED(is_null(text, text_len) || opcode == NULL,
                   proved_dnsnames_opcode_from_text(octets_at(text), text_len, opcode));
}

dnsnames_status dnsnames_rcode_text(uint16_t rcode, uint8_t *buffer, size_t capacity, size_t *length)
{
    return ended(GUARDED(is_null(buffer, capacity) || length == NULL,
                         proved_dnsnames_rcode_text(rcode, room_at(buffer), capacity, length)),
                 buffer, capacity, length);
}

dnsnames_status dnsnames_rcode_from_text(const uint8_t *text, size_t text_len, uint16_t *rcode)
{
    return GUARDED(is_null(text, text_len) || rcode == NULL,
                   proved_dnsnames_rcode_from_text(octets_at(text), text_len, rcode));
}

/* A builder that leads to nothing. */
static int leads_nowhere(const dnsnames_builder *builder)
{
    return builder == NULL || is_null(builder->octets, builder->capacity);
}

dnsnames_status dnsnames_builder_start(dnsnames_builder *builder, uint8_t *octets, size_t capacity, uint16_t id,
                                       uint16_t flags)
{
    dnsnames_builder_state state = {0};
    dnsnames_status status;

    if (builder == NULL || is_null(octets, capacity))
        return DNSNAMES_NULL;
    status = (dnsnames_status)proved_dnsnames_builder_start(room_at(octets), capacity, &state, id, flags);
    if (status == DNSNAMES_OK) {
        builder->octets = octets;
        builder->capacity = capacity;
        builder->state = state;
    }
    return status;
}

dnsnames_status dnsnames_builder_question(dnsnames_builder *builder, const uint8_t *name, size_t len, uint16_t type,
                                          uint16_t class_)
{
    return GUARDED(leads_nowhere(builder) || is_null(name, len),
                   proved_dnsnames_builder_question(room_at(builder->octets), builder->capacity, &builder->state,
                                                    octets_at(name), len, type, class_));
}

dnsnames_status dnsnames_builder_record(dnsnames_builder *builder, uint32_t section, const uint8_t *owner,
                                        size_t owner_len, uint16_t type, uint16_t class_, uint32_t ttl,
                                        const uint8_t *data, size_t data_len)
{
    return GUARDED(leads_nowhere(builder) || is_null(owner, owner_len) || is_null(data, data_len),
                   proved_dnsnames_builder_record(room_at(builder->octets), builder->capacity, &builder->state,
                                                  section, octets_at(owner), owner_len, type, class_, ttl,
                                                  octets_at(data), data_len));
}

/* The lengths of data. */
static const uint16_t *lens_at(const uint16_t *lens)
{
    return lens == NULL ? (const uint16_t *)nothing : lens;
}

/* An RRset of which a pointer is null. */
static int has_null(const dnsnames_builder *builder, const uint8_t *owner, size_t owner_len, const uint8_t *data,
                    size_t data_len, const uint16_t *lens, size_t lens_len)
{
    return leads_nowhere(builder) || is_null(owner, owner_len) || is_null(data, data_len) || is_null(lens, lens_len);
}

dnsnames_status dnsnames_builder_rrset(dnsnames_builder *builder, uint32_t section, const uint8_t *owner,
                                       size_t owner_len, uint16_t type, uint16_t class_, uint32_t ttl,
                                       const uint8_t *data, size_t data_len, const uint16_t *lens, size_t lens_len)
{
    return GUARDED(has_null(builder, owner, owner_len, data, data_len, lens, lens_len),
                   proved_dnsnames_builder_rrset(room_at(builder->octets), builder->capacity, &builder->state, section,
                                                 octets_at(owner), owner_len, type, class_, ttl, octets_at(data),
                                                 data_len, lens_at(lens), lens_len));
}

dnsnames_status dnsnames_builder_required(dnsnames_builder *builder, uint32_t section, const uint8_t *owner,
                                          size_t owner_len, uint16_t type, uint16_t class_, uint32_t ttl,
                                          const uint8_t *data, size_t data_len, const uint16_t *lens,
                                          size_t lens_len, uint32_t *pushed)
{
    return GUARDED(has_null(builder, owner, owner_len, data, data_len, lens, lens_len) || pushed == NULL,
                   proved_dnsnames_builder_required(room_at(builder->octets), builder->capacity, &builder->state,
                                                    section, octets_at(owner), owner_len, type, class_, ttl,
                                                    octets_at(data), data_len, lens_at(lens), lens_len, pushed));
}

dnsnames_status dnsnames_builder_extra(dnsnames_builder *builder, uint32_t section, const uint8_t *owner,
                                       size_t owner_len, uint16_t type, uint16_t class_, uint32_t ttl,
                                       const uint8_t *data, size_t data_len, const uint16_t *lens, size_t lens_len,
                                       uint32_t *pushed)
{
    return GUARDED(has_null(builder, owner, owner_len, data, data_len, lens, lens_len) || pushed == NULL,
                   proved_dnsnames_builder_extra(room_at(builder->octets), builder->capacity, &builder->state, section,
                                                 octets_at(owner), owner_len, type, class_, ttl, octets_at(data),
                                                 data_len, lens_at(lens), lens_len, pushed));
}

dnsnames_status dnsnames_builder_rewind(dnsnames_builder *builder, const dnsnames_builder_state *mark)
{
    dnsnames_builder_state copy;

    if (leads_nowhere(builder) || mark == NULL)
        return DNSNAMES_NULL;
    /* The mark may be the builder's own state. */
    copy = *mark;
    return (dnsnames_status)proved_dnsnames_builder_rewind(octets_at(builder->octets), builder->capacity,
                                                           &builder->state, &copy);
}

dnsnames_status dnsnames_builder_opt(dnsnames_builder *builder, uint16_t size, uint8_t rcode_ext, uint8_t version,
                                     uint32_t dnssec_ok, const uint8_t *options, size_t options_len)
{
    return GUARDED(leads_nowhere(builder) || is_null(options, options_len),
                   proved_dnsnames_builder_opt(room_at(builder->octets), builder->capacity, &builder->state, size,
                                               rcode_ext, version, dnssec_ok, octets_at(options), options_len));
}

dnsnames_status dnsnames_builder_opt_flags(dnsnames_builder *builder, uint16_t size, uint8_t rcode_ext, uint8_t version,
                                           uint16_t flags, const uint8_t *options, size_t options_len)
{
    return GUARDED(leads_nowhere(builder) || is_null(options, options_len),
                   proved_dnsnames_builder_opt_flags(room_at(builder->octets), builder->capacity, &builder->state, size,
                                                     rcode_ext, version, flags, octets_at(options), options_len));
}

dnsnames_status dnsnames_builder_truncate(dnsnames_builder *builder)
{
    return GUARDED(leads_nowhere(builder),
                   proved_dnsnames_builder_truncate(octets_at(builder->octets), builder->capacity, &builder->state));
}

dnsnames_status dnsnames_builder_finish(dnsnames_builder *builder, size_t *length)
{
    return GUARDED(leads_nowhere(builder) || length == NULL,
                   proved_dnsnames_builder_finish(room_at(builder->octets), builder->capacity, &builder->state,
                                                  length));
}
