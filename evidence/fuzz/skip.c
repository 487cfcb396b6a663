/* Passing over names, questions and records: dnsnames_skip, dnsnames_question, dnsnames_record, dnsnames_header. The
 * input is an offset and a message. */
#include "harness.h"

static unsigned number(const uint8_t *octets)
{
    return octets[0] * 256u + octets[1];
}

int LLVMFuzzerTestOneInput(const uint8_t *data, size_t size)
{
    if (size < 2)
        return 0;
    size_t len = size - 2, offset = data[0] + 256u * (data[1] & 0x3F), end = 7, want = 0;
    const uint8_t *message = before_the_wall(data + 2, len);
    bool accepts = reader_skip(message, len, offset, &want);
    MUST((dnsnames_skip(message, len, offset, &end) == DNSNAMES_OK) == accepts);
    MUST(end == (accepts ? want : 7));

    dnsnames_question_fields asked = { 7, 7, 7 };
    bool question = accepts && len - want >= 4;
    MUST((dnsnames_question(message, len, offset, &asked) == DNSNAMES_OK) == question);
    if (question)
        MUST(asked.type == number(message + want) && asked.class_ == number(message + want + 2)
             && asked.end == want + 4);
    else
        MUST(asked.type == 7 && asked.class_ == 7 && asked.end == 7);

    dnsnames_record_fields got = { 7, 7, 7, 7, 7, 7 };
    bool record = accepts && len - want >= 10 && len - want - 10 >= number(message + want + 8);
    MUST((dnsnames_record(message, len, offset, &got) == DNSNAMES_OK) == record);
    if (record) {
        MUST(got.type == number(message + want) && got.class_ == number(message + want + 2));
        MUST(got.ttl == number(message + want + 4) * 65536u + number(message + want + 6));
        MUST(got.data == want + 10 && got.data_len == number(message + want + 8) && got.end == got.data + got.data_len);
    } else {
        MUST(got.type == 7 && got.class_ == 7 && got.ttl == 7 && got.data == 7 && got.data_len == 7 && got.end == 7);
    }

    dnsnames_header_fields header = { 7, 7, 7, 7, 7, 7 };
    bool whole = len >= 12;
    MUST((dnsnames_header(message, len, &header) == DNSNAMES_OK) == whole);
    const uint16_t head[6] = { header.id, header.flags, header.questions, header.answers, header.authority,
                               header.additional };
    for (size_t i = 0; i < 6; i++)
        MUST(head[i] == (whole ? number(message + 2 * i) : 7));
    return 0;
}
