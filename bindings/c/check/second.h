/* A second reader of names, in plain C, written from RFC 1035 and RFC 4034 and not from the library.
 *
 * The checks give both the same input and compare their answers. It tests every index that it uses, and it is for
 * checks alone: nothing of it is proved. Its calls have the arguments and the statuses of those in dnsnames.h, whose
 * names begin with dnsnames_ in place of second_. */
#ifndef SECOND_H
#define SECOND_H

#include "dnsnames.h"

/* With this macro defined as dnsnames_ the file second.c stands in for the library itself. */
#ifndef SECOND
#define SECOND(call) second_##call
#endif

/* The fields of data of a type in a class, a letter for each (second.c says which). */
const char *field_letters(unsigned type, unsigned class_);

uint32_t SECOND(read)(const uint8_t *message, size_t message_len, size_t offset, uint8_t limit, uint8_t *buffer,
                      size_t capacity, size_t *length, size_t *end, uint32_t *compressed);
uint32_t SECOND(skip)(const uint8_t *message, size_t message_len, size_t offset, size_t *end);
uint32_t SECOND(check)(const uint8_t *octets, size_t len);
uint32_t SECOND(check_relative)(const uint8_t *octets, size_t len);
uint32_t SECOND(from_text)(const uint8_t *text, size_t text_len, uint8_t *buffer, size_t capacity, size_t *length);
uint32_t SECOND(to_text)(const uint8_t *name, size_t len, uint32_t final_dot, uint8_t *buffer, size_t capacity,
                         size_t *length);
uint32_t SECOND(lower)(const uint8_t *name, size_t len, uint8_t *buffer, size_t capacity, size_t *length);
uint32_t SECOND(eq)(const uint8_t *left, size_t left_len, const uint8_t *right, size_t right_len, uint32_t *equal);
uint32_t SECOND(compare)(const uint8_t *left, size_t left_len, const uint8_t *right, size_t right_len,
                         int32_t *order);
uint32_t SECOND(ends_with)(const uint8_t *name, size_t len, const uint8_t *suffix, size_t suffix_len,
                           uint32_t *ends);
uint32_t SECOND(hash)(const uint8_t *key, const uint8_t *name, size_t len, uint64_t *hash);
uint32_t SECOND(label_count)(const uint8_t *name, size_t len, size_t *count);
uint32_t SECOND(label)(const uint8_t *name, size_t len, size_t index, size_t *offset);
uint32_t SECOND(label_back)(const uint8_t *name, size_t len, size_t index, size_t *offset);
uint32_t SECOND(parent)(const uint8_t *name, size_t len, size_t *offset);
uint32_t SECOND(plan)(const uint8_t *octets, size_t octets_len, const uint16_t *table, size_t table_len,
                      const uint8_t *name, size_t len, size_t *begin, uint16_t *offset);
uint32_t SECOND(append)(uint8_t *octets, size_t capacity, size_t *octets_len, uint16_t *table,
                        size_t table_capacity, size_t *table_len, const uint8_t *name, size_t len);
uint32_t SECOND(header)(const uint8_t *message, size_t message_len, dnsnames_header_fields *header);
uint32_t SECOND(question)(const uint8_t *message, size_t message_len, size_t offset,
                          dnsnames_question_fields *question);
uint32_t SECOND(record)(const uint8_t *message, size_t message_len, size_t offset, dnsnames_record_fields *record);
uint32_t SECOND(table)(const uint8_t *message, size_t message_len, uint8_t limit, uint32_t *rows,
                       size_t rows_capacity, uint8_t *names, size_t names_capacity, size_t *row_count,
                       size_t *names_len);
uint32_t SECOND(is_answer)(const uint8_t *message, size_t message_len, const uint8_t *query, size_t query_len,
                           uint32_t *yes);
uint32_t SECOND(canonical_name)(const uint8_t *message, size_t message_len, uint16_t limit, uint8_t *buffer,
                                size_t capacity, size_t *length);
uint32_t SECOND(data_field)(const uint8_t *message, size_t message_len, size_t data, size_t data_len, uint16_t type,
                            uint16_t class_, size_t index, dnsnames_field *field);
uint32_t SECOND(data_name)(const uint8_t *message, size_t message_len, size_t data, size_t data_len, uint16_t type,
                           size_t index, uint8_t *buffer, size_t capacity, size_t *length);
uint32_t SECOND(data_number)(const uint8_t *message, size_t message_len, size_t data, size_t data_len,
                             uint16_t type, size_t index, uint32_t *value);
uint32_t SECOND(data_address)(const uint8_t *message, size_t message_len, size_t data, size_t data_len,
                              uint16_t type, uint8_t *buffer, size_t capacity, size_t *length);
uint32_t SECOND(data_string)(const uint8_t *message, size_t message_len, size_t data, size_t data_len,
                             uint16_t type, size_t *passed, size_t *string, size_t *string_len);
uint32_t SECOND(opt)(uint16_t type, uint16_t class_, uint32_t ttl, uint16_t flags, dnsnames_opt_fields *opt);
uint32_t SECOND(data_option)(const uint8_t *message, size_t message_len, size_t data, size_t data_len,
                             uint16_t type, size_t *passed, uint16_t *code, size_t *option, size_t *option_len);
uint32_t SECOND(append_option)(uint8_t *options, size_t capacity, size_t *options_len, uint16_t code,
                               const uint8_t *data, size_t data_len);
uint32_t SECOND(append_cookie)(uint8_t *options, size_t capacity, size_t *options_len, const uint8_t *client,
                               const uint8_t *server, size_t server_len);
uint32_t SECOND(append_client_subnet)(uint8_t *options, size_t capacity, size_t *options_len, uint16_t family,
                                      uint8_t source_prefix_len, uint8_t scope_prefix_len, const uint8_t *address,
                                      size_t address_len);
uint32_t SECOND(append_extended_error)(uint8_t *options, size_t capacity, size_t *options_len, uint16_t info_code,
                                       const uint8_t *text, size_t text_len);
uint32_t SECOND(cookie)(const uint8_t *option, size_t option_len, size_t *server_len);
uint32_t SECOND(client_subnet)(const uint8_t *option, size_t option_len, dnsnames_subnet_fields *subnet);
uint32_t SECOND(extended_error)(const uint8_t *option, size_t option_len, uint16_t *info_code);
uint32_t SECOND(builder_start)(dnsnames_builder *builder, uint8_t *octets, size_t capacity, uint16_t id,
                               uint16_t flags);
uint32_t SECOND(builder_question)(dnsnames_builder *builder, const uint8_t *name, size_t len, uint16_t type,
                                  uint16_t class_);
uint32_t SECOND(builder_record)(dnsnames_builder *builder, uint32_t section, const uint8_t *owner, size_t owner_len,
                                uint16_t type, uint16_t class_, uint32_t ttl, const uint8_t *data, size_t data_len);
uint32_t SECOND(builder_rrset)(dnsnames_builder *builder, uint32_t section, const uint8_t *owner, size_t owner_len,
                               uint16_t type, uint16_t class_, uint32_t ttl, const uint8_t *data, size_t data_len,
                               const uint16_t *lens, size_t lens_len);
uint32_t SECOND(builder_required)(dnsnames_builder *builder, uint32_t section, const uint8_t *owner,
                                  size_t owner_len, uint16_t type, uint16_t class_, uint32_t ttl,
                                  const uint8_t *data, size_t data_len, const uint16_t *lens, size_t lens_len,
                                  uint32_t *pushed);
uint32_t SECOND(builder_extra)(dnsnames_builder *builder, uint32_t section, const uint8_t *owner, size_t owner_len,
                               uint16_t type, uint16_t class_, uint32_t ttl, const uint8_t *data, size_t data_len,
                               const uint16_t *lens, size_t lens_len, uint32_t *pushed);
uint32_t SECOND(builder_rewind)(dnsnames_builder *builder, const dnsnames_builder_state *mark);
uint32_t SECOND(builder_opt)(dnsnames_builder *builder, uint16_t size, uint8_t rcode_ext, uint8_t version,
                             uint32_t dnssec_ok, const uint8_t *options, size_t options_len);
uint32_t SECOND(builder_opt_flags)(dnsnames_builder *builder, uint16_t size, uint8_t rcode_ext, uint8_t version,
                                   uint16_t flags, const uint8_t *options, size_t options_len);
uint32_t SECOND(builder_truncate)(dnsnames_builder *builder);
uint32_t SECOND(builder_finish)(dnsnames_builder *builder, size_t *length);

#endif
