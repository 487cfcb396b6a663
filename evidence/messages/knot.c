/*
 * libknot's writer and reader of messages, for writers.py beside this file: a line of standard input is
 *
 *     write MESSAGE    answered by the octets that libknot writes
 *     read OCTETS      answered by the message that libknot reads
 *
 * in hexadecimal digits. A MESSAGE is five words: the twelve octets of a header, and the questions and records of each
 * section, `qd=`, `an=`, `ns=`, `ar=`, each before a semicolon. A question is NAME/TYPE/CLASS, a record
 * NAME/TYPE/CLASS/TTL/DATA, the name and the data as octets without compression. Counts are not read of a header that
 * is to be written. What libknot refuses is answered by `err` and its words.
 */
#include <stdio.h>
#include <stdlib.h>
#include <string.h>

#include <libknot/libknot.h>

enum { MOST = 65535, LINE = 1 << 20 };

static uint8_t octets[MOST];

static int digit(char c)
{
    const char *digits = "0123456789abcdef", *at = c == '\0' ? NULL : strchr(digits, c);
    return at == NULL ? -1 : (int)(at - digits);
}

/* Reads hexadecimal digits up to what is none, and moves the text after them. */
static size_t take_octets(char **text, uint8_t *to, size_t room)
{
    size_t len = 0;
    while (digit((*text)[0]) >= 0 && digit((*text)[1]) >= 0 && len < room) {
        to[len++] = (uint8_t)(digit((*text)[0]) * 16 + digit((*text)[1]));
        *text += 2;
    }
    return len;
}

static unsigned long take_number(char **text)
{
    (*text)++; /* the slash before it */
    return strtoul(*text, text, 10);
}

static void put_octets(const uint8_t *from, size_t len)
{
    for (size_t at = 0; at < len; at++) {
        printf("%02x", from[at]);
    }
}

static int put_record(knot_pkt_t *pkt, char **text)
{
    static uint8_t owner[KNOT_DNAME_MAXLEN + 1];
    static uint8_t data[MOST];
    take_octets(text, owner, sizeof owner);
    uint16_t type = (uint16_t)take_number(text);
    uint16_t rclass = (uint16_t)take_number(text);
    uint32_t ttl = (uint32_t)take_number(text);
    (*text)++;
    size_t len = take_octets(text, data, sizeof data);
    (*text)++; /* the semicolon */
    knot_rrset_t *rrset = knot_rrset_new(owner, type, rclass, ttl, &pkt->mm);
    if (rrset == NULL) {
        return KNOT_ENOMEM;
    }
    int code = knot_rrset_add_rdata(rrset, data, (uint16_t)len, &pkt->mm);
    if (code != KNOT_EOK) {
        return code;
    }
    const knot_dname_t *question = knot_pkt_wire_qname(pkt);
    bool is_asked = question != NULL && knot_dname_is_case_equal(question, owner);
    uint16_t hint = is_asked ? KNOT_COMPR_HINT_QNAME : KNOT_COMPR_HINT_NONE;
    return knot_pkt_put(pkt, hint, rrset, KNOT_PF_NULL);
}

static int write_message(knot_pkt_t *pkt, char *text)
{
    static uint8_t header[KNOT_WIRE_HEADER_SIZE];
    static uint8_t name[KNOT_DNAME_MAXLEN + 1];
    static const char *const words[] = { " qd=", " an=", " ns=", " ar=" };
    static const knot_section_t sections[] = { KNOT_ANSWER, KNOT_ANSWER, KNOT_AUTHORITY, KNOT_ADDITIONAL };
    take_octets(&text, header, sizeof header);
    memcpy(pkt->wire, header, 4);
    for (size_t place = 0; place < 4; place++) {
        if (strncmp(text, words[place], 4) != 0) {
            return KNOT_EMALF;
        }
        text += 4;
        int code = place < 2 ? KNOT_EOK : knot_pkt_begin(pkt, sections[place]);
        while (code == KNOT_EOK && *text != ' ' && *text != '\0') {
            if (place > 0) {
                code = put_record(pkt, &text);
                continue;
            }
            take_octets(&text, name, sizeof name);
            uint16_t type = (uint16_t)take_number(&text);
            uint16_t rclass = (uint16_t)take_number(&text);
            text++;
            code = knot_pkt_put_question(pkt, name, rclass, type);
        }
        if (code == KNOT_EOK && place == 0) {
            code = knot_pkt_begin(pkt, KNOT_ANSWER);
        }
        if (code != KNOT_EOK) {
            return code;
        }
    }
    put_octets(pkt->wire, pkt->size);
    return KNOT_EOK;
}

static void list_section(const knot_pkt_t *pkt, const char *word, knot_section_t which)
{
    const knot_pktsection_t *section = knot_pkt_section(pkt, which);
    printf("%s", word);
    for (uint16_t at = 0; at < section->count; at++) {
        const knot_rrset_t *rrset = knot_pkt_rr(section, at);
        knot_rdata_t *data = rrset->rrs.rdata;
        for (uint16_t item = 0; item < rrset->rrs.count; item++) {
            put_octets(rrset->owner, knot_dname_size(rrset->owner));
            printf("/%u/%u/%u/", rrset->type, rrset->rclass, rrset->ttl);
            put_octets(data->data, data->len);
            printf(";");
            data = knot_rdataset_next(data);
        }
    }
}

static int read_message(knot_pkt_t *pkt)
{
    int code = knot_pkt_parse(pkt, KNOT_PF_KEEPWIRE);
    if (code != KNOT_EOK) {
        return code;
    }
    if (pkt->parsed != pkt->size) {
        return KNOT_EMALF;
    }
    put_octets(pkt->wire, KNOT_WIRE_HEADER_SIZE);
    printf(" qd=");
    const knot_dname_t *name = knot_pkt_qname(pkt);
    if (name != NULL) {
        put_octets(name, knot_dname_size(name));
        printf("/%u/%u;", knot_pkt_qtype(pkt), knot_pkt_qclass(pkt));
    }
    list_section(pkt, " an=", KNOT_ANSWER);
    list_section(pkt, " ns=", KNOT_AUTHORITY);
    list_section(pkt, " ar=", KNOT_ADDITIONAL);
    return KNOT_EOK;
}

static void answer(char *line)
{
    int code = KNOT_EMALF;
    if (strncmp(line, "write ", 6) == 0) {
        knot_pkt_t *pkt = knot_pkt_new(NULL, MOST, NULL);
        code = pkt == NULL ? KNOT_ENOMEM : write_message(pkt, line + 6);
        knot_pkt_free(pkt);
    } else if (strncmp(line, "read ", 5) == 0) {
        char *text = line + 5;
        size_t len = take_octets(&text, octets, sizeof octets);
        knot_pkt_t *pkt = knot_pkt_new(octets, (uint16_t)len, NULL);
        code = pkt == NULL ? KNOT_ENOMEM : read_message(pkt);
        knot_pkt_free(pkt);
    }
    if (code != KNOT_EOK) {
        printf("err %s", knot_strerror(code));
    }
    printf("\n");
}

int main(int argc, char **argv)
{
    static char line[LINE];
    if (argc == 2 && strcmp(argv[1], "version") == 0) {
        printf("%d.%d.%d\n", KNOT_VERSION_MAJOR, KNOT_VERSION_MINOR, KNOT_VERSION_PATCH);
        return 0;
    }
    while (fgets(line, sizeof line, stdin) != NULL) {
        line[strcspn(line, "\n")] = '\0';
        answer(line);
    }
    return 0;
}
