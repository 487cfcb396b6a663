/* Domain names, and messages with their questions and records (RFC 1035), read and written by proved functions.
 *
 * An uncompressed name is the wire format of an absolute name with no pointer in it: its labels, each behind its
 * length octet, the root label (one zero octet) last; at most DNSNAMES_MAX_LEN octets. `name, len` means one. Sizes,
 * offsets and ends are counted in octets from 0; an end is the offset after the last octet.
 *
 * Every call answers a status, and gives its results through pointers. A refused call, whose status is not
 * DNSNAMES_OK, leaves what the pointers lead to as it was; with DNSNAMES_NO_ROOM alone it tells in *length (and
 * dnsnames_read in its other results) what an answer has, and leaves the buffer; dnsnames_table keeps what it read
 * before, and texts of messages and records have their beginning there. Where an RRset is refused or has no room, what
 * the buffer has after the message, up to the limit, may be written over. No call allocates, keeps a pointer or has a
 * state, so each may be made from any thread and at any time.
 *
 * What is proved of each call is what it says here, for all octets and all lengths: which results it gives, when it
 * refuses and with which status, what it leaves, that it ends, and that it reads and writes within the lengths that it
 * is passed. Before it stands plain C (guards.c), which looks for null pointers, passes the fields of a struct one by
 * one, and puts a zero octet after a text. No proof can see what a pointer from C leads to. So the caller owes:
 * - a pointer leads to as many octets (of a table: numbers) as the length or capacity beside it says, at most
 *   PTRDIFF_MAX octets, aligned as its type wants, and a result's pointer to one value;
 * - a buffer or a result overlaps nothing else that the call is passed, and nobody else writes what is passed or reads
 *   the results while the call runs.
 * - a null pointer stands for no octets where its length or capacity is 0. With another length, or where a result or
 *   a key is to be, it is refused as DNSNAMES_NULL, and nothing is written. This holds for callers from any language.
 */
#ifndef DNSNAMES_H
#define DNSNAMES_H

#include <stddef.h>
#include <stdint.h>

#ifdef __cplusplus
extern "C" {
#endif

/* The most octets of an uncompressed name: a buffer of this size has room for each. */
#define DNSNAMES_MAX_LEN 255
/* A buffer of this size has room for the text of each name, which has at most 1,004 octets, and a zero octet after it. */
#define DNSNAMES_MAX_TEXT 1020
/* The limit of pointers that allows all that a name can have. */
#define DNSNAMES_MAX_POINTERS 255
/* The most offsets that a table for compressing has. */
#define DNSNAMES_MAX_TABLE 128
/* The most octets of the text of a type, a class or a code, with a zero octet after it. */
#define DNSNAMES_MAX_MNEMONIC 12
/* The octets of a key of dnsnames_hash. */
#define DNSNAMES_KEY_LEN 16

/* The version of this header; dnsnames_version tells that of the library. */
#define DNSNAMES_VERSION "0.7.0"

typedef enum dnsnames_status {
    DNSNAMES_OK = 0,
    /* The octets or the text end too soon. */
    DNSNAMES_SHORT_INPUT = 1,
    /* A length octet is of a label type that is not in use (0x40 to 0xbf). */
    DNSNAMES_LABEL_TYPE = 2,
    /* A pointer does not lead back, or is one more than the limit. */
    DNSNAMES_TOO_MANY_POINTERS = 3,
    /* The name has more than 255 octets. */
    DNSNAMES_LONG_NAME = 4,
    /* Uncompressed octets: a pointer stands among the labels. */
    DNSNAMES_COMPRESSED = 5,
    /* Octets of an absolute name: they end after a label that is not the root. */
    DNSNAMES_RELATIVE = 6,
    /* Octets of an absolute name: more octets follow the root. Data of a record: more octets follow the last field. */
    DNSNAMES_TRAILING_DATA = 7,
    /* The buffer is too small. It is as it was, and *length tells how many octets are needed. */
    DNSNAMES_NO_ROOM = 8,
    /* What is passed as an uncompressed name is none: dnsnames_check tells why. */
    DNSNAMES_NO_NAME = 9,
    /* The name has no such label. */
    DNSNAMES_NO_LABEL = 10,
    /* Text: an escape is broken. */
    DNSNAMES_BAD_ESCAPE = 11,
    /* Text: a character stands for no octet, or the text is not UTF-8. */
    DNSNAMES_BAD_SYMBOL = 12,
    /* Text: a label begins with \[. */
    DNSNAMES_BINARY_LABEL = 13,
    /* Text: a label has more than 63 octets. */
    DNSNAMES_LONG_LABEL = 14,
    /* Text: a label is empty. */
    DNSNAMES_EMPTY_LABEL = 15,
    /* Compressing: the table has more than 128 offsets, or one past 16,383. */
    DNSNAMES_NO_TABLE = 16,
    /* Compressing: the name is to be written uncompressed. No fault. */
    DNSNAMES_FLAT = 17,
    /* A pointer is null: that of a result, or one whose length or capacity is not 0. */
    DNSNAMES_NULL = 18,
    /* Octets of a relative name: a root label stands in them. */
    DNSNAMES_ABSOLUTE = 19,
    /* A length that is passed is larger than the capacity beside it, or lengths don't make up the octets beside them. */
    DNSNAMES_BAD_LENGTH = 20,
    /* Data of records of this type have no such field: name, number, address, string or option. */
    DNSNAMES_NO_FIELD = 21,
    /* The text names no type, class or code. */
    DNSNAMES_NO_MNEMONIC = 22,
    /* Building: the builder is not as its calls leave it, or its message is finished. */
    DNSNAMES_NO_BUILDER = 23,
    /* Building: a record was pushed before a question, or one of a later section. */
    DNSNAMES_WRONG_ORDER = 24,
    /* Building: the section has 65,535 entries, which is all that its count can tell. */
    DNSNAMES_TOO_MANY_ENTRIES = 25,
    /* Building: there is no such section. */
    DNSNAMES_NO_SECTION = 26,
    /* All fields, strings or options of the data were given: no fault, but the end. */
    DNSNAMES_NO_MORE = 27,
    /* Text of a message: an entry hasn't the form of one. EDNS: an option hasn't the form of its standard. */
    DNSNAMES_BAD_FORM = 28,
    /* Text of a message: it wasn't made. This doesn't come, but no proof tells so. */
    DNSNAMES_NO_TEXT = 29,
    /* Aliases: the first question has no canonical name, or more records lead on than the limit allows. */
    DNSNAMES_NO_END = 30,
    /* Building: the mark is no builder as its calls leave it, or is longer than the message. */
    DNSNAMES_NO_MARK = 31,
    /* Data of a record: a tag is empty, or has another octet than letters and digits (RFC 8659, 4.1). */
    DNSNAMES_BAD_TAG = 32,
    /* Data of a record: the hash of NSEC3 is empty (RFC 5155, 3.1.6). */
    DNSNAMES_EMPTY_HASH = 33,
    /* Data of a record: the windows of a type bitmap don't ascend (RFC 4034, 4.1.2). */
    DNSNAMES_WINDOW_ORDER = 34,
    /* Data of a record: a block of a type bitmap has no octet, or more than 32 (RFC 4034, 4.1.2). */
    DNSNAMES_BITMAP_LENGTH = 35,
    /* Data of a record: the keys of service parameters don't ascend (RFC 9460, 2.2). */
    DNSNAMES_KEY_ORDER = 36
} dnsnames_status;

/* The version of the library: a text that stays. */
const char *dnsnames_version(void);

/* ---- Names in messages ---- */

/* Reads the name at an offset of a message (RFC 1035, 4.1.4), through at most `limit` pointers, each of which must
 * lead back. The buffer gets the uncompressed name, *length its size, *end the offset after its root or first pointer.
 * *compressed becomes 0 where all its octets lie one after the other, be it at the offset or where pointers at the
 * offset lead to, and 1 where a pointer follows a label.
 *
 * SHORT_INPUT (also where the offset is at or past the end), LABEL_TYPE, TOO_MANY_POINTERS, LONG_NAME: the fault that
 * a walk along the name meets first. NO_ROOM: *length, *end and *compressed are given, the buffer is as it was.
 *
 *     uint8_t name[DNSNAMES_MAX_LEN];
 *     size_t len, end;
 *     uint32_t compressed;
 *     dnsnames_status status = dnsnames_read(message, message_len, 12, DNSNAMES_MAX_POINTERS, name, sizeof name, &len,
 *                                            &end, &compressed);
 *     if (status != DNSNAMES_OK)
 *         fprintf(stderr, "%s\n", dnsnames_strerror(status));
 */
dnsnames_status dnsnames_read(const uint8_t *message, size_t message_len, size_t offset, uint8_t limit,
                              uint8_t *buffer, size_t capacity, size_t *length, size_t *end, uint32_t *compressed);

/* *end becomes the offset after the root or the first pointer of the name at an offset; the pointer is not followed,
 * so it may lead anywhere. SHORT_INPUT, LABEL_TYPE, LONG_NAME. */
dnsnames_status dnsnames_skip(const uint8_t *message, size_t message_len, size_t offset, size_t *end);

/* ---- Octets and text ---- */

/* Whether octets are an uncompressed name: OK. LONG_NAME where there are more than 255; otherwise the fault that a
 * walk along them meets first: SHORT_INPUT, LABEL_TYPE, COMPRESSED, RELATIVE, TRAILING_DATA. */
dnsnames_status dnsnames_check(const uint8_t *octets, size_t len);

/* Whether octets are an uncompressed relative name, which is labels with no root label after them, or no label at all:
 * OK. LONG_NAME where there are more than 254; otherwise the fault that a walk along them meets first: SHORT_INPUT,
 * LABEL_TYPE, COMPRESSED, ABSOLUTE. */
dnsnames_status dnsnames_check_relative(const uint8_t *octets, size_t len);

/* Reads the text of an absolute name (RFC 1035, 5.1), which is UTF-8; a final dot may be left out. The buffer gets the
 * uncompressed name, *length its size.
 *
 * SHORT_INPUT where the text is empty or ends inside an escape; LONG_NAME, BAD_ESCAPE, BAD_SYMBOL, BINARY_LABEL,
 * LONG_LABEL, EMPTY_LABEL; NO_ROOM.
 *
 *     const char text[] = "www.example.com";
 *     dnsnames_status status = dnsnames_from_text((const uint8_t *)text, strlen(text), name, sizeof name, &len);
 */
dnsnames_status dnsnames_from_text(const uint8_t *text, size_t text_len, uint8_t *buffer, size_t capacity,
                                   size_t *length);

/* The text of an uncompressed name, which is ASCII: space, dot and backslash have a backslash before them, and what is
 * not printed is a backslash and three digits. *length becomes its size; a zero octet follows where the buffer has room
 * for it, and isn't counted. With final_dot 0 labels have dots between them, otherwise also after the last; either way the root alone is a dot.
 * NO_NAME, NO_ROOM. */
dnsnames_status dnsnames_to_text(const uint8_t *name, size_t len, uint32_t final_dot, uint8_t *buffer,
                                 size_t capacity, size_t *length);

/* The canonical form of an uncompressed name: A to Z as a to z (RFC 4034, 6.2). *length becomes its size, which is
 * len. NO_NAME, NO_ROOM. */
dnsnames_status dnsnames_lower(const uint8_t *name, size_t len, uint8_t *buffer, size_t capacity, size_t *length);

/* ---- Comparing ---- */

/* *equal becomes 1 where two names are equal without ASCII case (RFC 4343, 3), otherwise 0. NO_NAME where one is no
 * name. */
dnsnames_status dnsnames_eq(const uint8_t *left, size_t left_len, const uint8_t *right, size_t right_len,
                            uint32_t *equal);

/* *order becomes -1, 0 or 1: the canonical order of two names (RFC 4034, 6.1). NO_NAME where one is no name. */
dnsnames_status dnsnames_compare(const uint8_t *left, size_t left_len, const uint8_t *right, size_t right_len,
                                 int32_t *order);

/* *ends becomes 1 where the labels of the suffix, compared without ASCII case, are the last ones of the name,
 * otherwise 0. NO_NAME where one is none. */
dnsnames_status dnsnames_ends_with(const uint8_t *name, size_t len, const uint8_t *suffix, size_t suffix_len,
                                   uint32_t *ends);

/* *hash becomes the SipHash-2-4 of the canonical form under a key of DNSNAMES_KEY_LEN octets: names that are equal have
 * one hash. NO_NAME.
 *
 * It is for tables that strangers fill, as those of a cache: who doesn't know the key can't choose names that fall
 * together. So draw the key at random when the program starts (by getrandom or getentropy), one for all tables or one
 * for each, and keep it: neither a constant, nor the time, nor a number that is told to others. Hashes under one key
 * must not be told either, nor be kept for another run. */
dnsnames_status dnsnames_hash(const uint8_t key[DNSNAMES_KEY_LEN], const uint8_t *name, size_t len, uint64_t *hash);

/* ---- Labels ---- */

/* *count becomes the number of labels, the root among them: 1 to 128. NO_NAME. */
dnsnames_status dnsnames_label_count(const uint8_t *name, size_t len, size_t *count);

/* *offset becomes that of the label that has `index` labels before it. name[*offset] is its length, and its octets
 * follow; name + *offset is an uncompressed name itself, of len - *offset octets. NO_LABEL where the name has no more
 * than `index` labels; NO_NAME. */
dnsnames_status dnsnames_label(const uint8_t *name, size_t len, size_t index, size_t *offset);

/* The same of the label that has `index` labels after it: the root has none after it. NO_LABEL, NO_NAME. */
dnsnames_status dnsnames_label_back(const uint8_t *name, size_t len, size_t index, size_t *offset);

/* *offset becomes that of the second label: name + *offset is the parent, an uncompressed name of len - *offset
 * octets. NO_LABEL for the root, which has none; NO_NAME. */
dnsnames_status dnsnames_parent(const uint8_t *name, size_t len, size_t *offset);

/* ---- Writing names with compression (RFC 1035, 4.1.4) ---- */

/* How a name is to be written after the octets of a message, whose first octet is the message's first. The table has
 * offsets at which labels of names were written: at most DNSNAMES_MAX_TABLE, each below 16,384.
 *
 * OK: the first *begin octets of the name are to be written, and then the two octets of a pointer to *offset, which
 * are 0xc0 + *offset / 256 and *offset % 256. The pointer stands for the longest end of the name, but the root, that
 * is read without ASCII case at one of the offsets, and leads to the first such one. FLAT: no end is read at any of
 * them, or more than 255 pointers would lead along the name; all of it is to be written. NO_TABLE, NO_NAME. */
dnsnames_status dnsnames_plan(const uint8_t *octets, size_t octets_len, const uint16_t *table, size_t table_len,
                              const uint8_t *name, size_t len, size_t *begin, uint16_t *offset);

/* Writes a name after the first *octets_len octets of a message, as dnsnames_plan tells, and adds its size there to
 * *octets_len. The offsets of the labels that were written, but of the root, are added to the table as long as they
 * are below 16,384, and the table has fewer than DNSNAMES_MAX_TABLE and than its capacity; *table_len becomes how many
 * it has. A message begins with *table_len 0.
 *
 * It is for names of questions, owners of records, and names in data of the types of RFC 1035 alone: in data of other types,
 * as SRV or DNAME, names are written uncompressed (RFC 3597, 4).
 *
 * BAD_LENGTH where *octets_len or *table_len is larger than its capacity, NO_TABLE, NO_NAME, NO_ROOM where the octets
 * don't fit: octets, table and both lengths are then as they were.
 *
 *     uint8_t message[512] = {0};
 *     size_t message_len = 12;
 *     uint16_t table[DNSNAMES_MAX_TABLE];
 *     size_t table_len = 0;
 *     status = dnsnames_append(message, sizeof message, &message_len, table, DNSNAMES_MAX_TABLE, &table_len, name,
 *                              len);
 */
dnsnames_status dnsnames_append(uint8_t *octets, size_t capacity, size_t *octets_len, uint16_t *table,
                                size_t table_capacity, size_t *table_len, const uint8_t *name, size_t len);

/* ---- Messages (RFC 1035, 4.1) ---- */

/* The flags of a message's header. The four bits of the opcode are flags >> 11 & 15, those of the response code
 * flags & 15. */
enum {
    DNSNAMES_FLAG_QR = 0x8000,
    DNSNAMES_FLAG_AA = 0x0400,
    DNSNAMES_FLAG_TC = 0x0200,
    DNSNAMES_FLAG_RD = 0x0100,
    DNSNAMES_FLAG_RA = 0x0080,
    DNSNAMES_FLAG_AD = 0x0020,
    DNSNAMES_FLAG_CD = 0x0010
};

/* The twelve octets that a message begins with (RFC 1035, 4.1.1): its identifier, its sixteen bits of flags, and how
 * many questions and records it says to have. */
typedef struct dnsnames_header_fields {
    uint16_t id;
    uint16_t flags;
    uint16_t questions;
    uint16_t answers;
    uint16_t authority;
    uint16_t additional;
} dnsnames_header_fields;

/* A question (RFC 1035, 4.1.2) after its name, and the offset after it. */
typedef struct dnsnames_question_fields {
    uint16_t type;
    uint16_t class_;
    size_t end;
} dnsnames_question_fields;

/* A record (RFC 1035, 4.1.3) after its name: its time to live in seconds, the offset and the size of its data, and the
 * offset after it. */
typedef struct dnsnames_record_fields {
    uint16_t type;
    uint16_t class_;
    uint32_t ttl;
    size_t data;
    size_t data_len;
    size_t end;
} dnsnames_record_fields;

/* The header of a message. SHORT_INPUT where it has fewer than twelve octets. */
dnsnames_status dnsnames_header(const uint8_t *message, size_t message_len, dnsnames_header_fields *header);

/* The question at an offset, whose name begins there (dnsnames_read reads it). SHORT_INPUT, LABEL_TYPE, LONG_NAME as
 * dnsnames_skip has them; SHORT_INPUT also where fewer than four octets follow the name. The first question is at
 * offset 12. */
dnsnames_status dnsnames_question(const uint8_t *message, size_t message_len, size_t offset,
                                  dnsnames_question_fields *question);

/* The record at an offset, whose name begins there. SHORT_INPUT, LABEL_TYPE, LONG_NAME as dnsnames_skip has them;
 * SHORT_INPUT also where the ten octets after the name, or the data, end past the message. */
dnsnames_status dnsnames_record(const uint8_t *message, size_t message_len, size_t offset,
                                dnsnames_record_fields *record);

/* How many numbers a row of dnsnames_table has. */
#define DNSNAMES_ROW_LEN 8
/* What such a row has at which place: where the entry's name begins in the buffer of names and how many
 * octets it has there, its type, its class, its time to live in seconds, the offset and the size of its data in the
 * message, and the offset after it, at which the next entry begins. A question has the time to live 0, and no data: the
 * size 0, at the offset after it. */
enum {
    DNSNAMES_ROW_NAME = 0,
    DNSNAMES_ROW_NAME_LEN = 1,
    DNSNAMES_ROW_TYPE = 2,
    DNSNAMES_ROW_CLASS = 3,
    DNSNAMES_ROW_TTL = 4,
    DNSNAMES_ROW_DATA = 5,
    DNSNAMES_ROW_DATA_LEN = 6,
    DNSNAMES_ROW_END = 7
};

/* All questions and records that the header counts, in their order: a row of eight numbers for each, and their names,
 * uncompressed, one after another. rows has room for rows_capacity numbers, so for an eighth as many rows. Each name is
 * read through at most `limit` pointers. *row_count becomes how many rows there are, *names_len how many octets in names;
 * what is after them there stays.
 *
 * OK where all are there. Else the rows are those of the entries before the first that has none, and the status says why:
 * SHORT_INPUT, LABEL_TYPE, TOO_MANY_POINTERS, LONG_NAME as dnsnames_read has them of its name; SHORT_INPUT where the
 * octets after the name, or the data, end past the message, and, with no row, where the message has no header of twelve
 * octets; NO_ROOM where it is there, but its row or its name doesn't fit, and, with no row, where the message has 2^32
 * octets or more.
 *
 * At most one entry more than there are rows is read, and of each at most 128 labels and `limit` pointers: what a sender
 * can make it cost is bounded by the size of the message and by the room that the caller gives.
 *
 *     uint32_t rows[32 * DNSNAMES_ROW_LEN];
 *     uint8_t names[32 * DNSNAMES_MAX_LEN];
 *     size_t row_count, names_len;
 *     status = dnsnames_table(message, message_len, DNSNAMES_MAX_POINTERS, rows, sizeof rows / sizeof *rows, names,
 *                             sizeof names, &row_count, &names_len);
 */
dnsnames_status dnsnames_table(const uint8_t *message, size_t message_len, uint8_t limit, uint32_t *rows,
                               size_t rows_capacity, uint8_t *names, size_t names_capacity, size_t *row_count,
                               size_t *names_len);

/* Whether a message answers a query: *yes becomes 1 where it is a response with the query's identifier, opcode and
 * questions, in their order, names without ASCII case, and 0 otherwise. A message with a question missing answers none, and
 * none answers it. SHORT_INPUT where one of the two has fewer than twelve octets. */
dnsnames_status dnsnames_is_answer(const uint8_t *message, size_t message_len, const uint8_t *query, size_t query_len,
                                   uint32_t *yes);

/* The canonical name of the first question, uncompressed: that to which at most `limit` CNAME records of the answers lead
 * from the question's, and from which none leads on (RFC 1034, 3.6.2); the question's own, where none does. The records may
 * be in any order; of two of one name the first is followed; classes, and the type that is asked for, aren't heeded.
 *
 * NO_END where more records lead on, as where a name leads back to itself, where there is no question, or where one that
 * the header counts is missing. SHORT_INPUT where the message has fewer than twelve octets. The answers are read at most
 * once more often than the limit says; resolvers follow 11 to 16. */
dnsnames_status dnsnames_canonical_name(const uint8_t *message, size_t message_len, uint16_t limit, uint8_t *buffer,
                                        size_t capacity, size_t *length);

/* What the fields of data are. Those up to DNSNAMES_FIELD_TYPE are numbers, the high octet first (RFC 1035, 2.3.2). What
 * is counted begins with the octets that count it. */
enum {
    DNSNAMES_FIELD_NUMBER8 = 1,
    DNSNAMES_FIELD_NUMBER16 = 2,
    DNSNAMES_FIELD_NUMBER32 = 3,
    DNSNAMES_FIELD_NUMBER48 = 4,
    DNSNAMES_FIELD_NUMBER64 = 5,
    DNSNAMES_FIELD_TTL = 6,     /* of 32 bits: a time to live or an interval, in seconds */
    DNSNAMES_FIELD_SERIAL = 7,  /* of 32 bits (RFC 1982) */
    DNSNAMES_FIELD_TIME = 8,    /* of 32 bits: seconds since the beginning of 1970, as a serial (RFC 4034, 3.1.5) */
    DNSNAMES_FIELD_TYPE = 9,    /* of 16 bits: a type of records */
    DNSNAMES_FIELD_IPV4 = 10,
    DNSNAMES_FIELD_IPV6 = 11,
    DNSNAMES_FIELD_NAME = 12,   /* dnsnames_read reads it at its offset, with data + data_len for the message's size */
    DNSNAMES_FIELD_CHAR_STRING = 13,     /* counted by an octet (RFC 1035, 3.3) */
    DNSNAMES_FIELD_OPTIONAL_STRING = 14, /* the same, or no octet at all where the data end (RFC 1183, 3.2) */
    DNSNAMES_FIELD_CHAR_STRINGS = 15,    /* one after another to the end of the data, one or more */
    DNSNAMES_FIELD_TAG = 16,             /* letters and digits, one or more, counted by an octet (RFC 8659, 4.1) */
    DNSNAMES_FIELD_QUOTED_TEXT = 17,     /* all octets to the end of the data, shown between quotes */
    DNSNAMES_FIELD_COUNTED_BASE16 = 18,  /* counted by an octet, shown in hexadecimal */
    DNSNAMES_FIELD_COUNTED_BASE32 = 19,  /* counted by an octet, one or more, shown in base32hex */
    DNSNAMES_FIELD_COUNTED_BASE64 = 20,  /* counted by two octets, shown in base64 */
    DNSNAMES_FIELD_TYPE_BITMAPS = 21,    /* to the end of the data, one block or more (RFC 4034, 4.1.2) */
    DNSNAMES_FIELD_OPTIONAL_TYPE_BITMAPS = 22, /* the same, or no octet at all */
    DNSNAMES_FIELD_SVC_PARAMS = 23,      /* to the end of the data (RFC 9460, 2.2) */
    DNSNAMES_FIELD_BASE16 = 24,          /* all octets to the end of the data, shown in hexadecimal */
    DNSNAMES_FIELD_BASE64 = 25,          /* all octets to the end of the data, shown in base64 */
    DNSNAMES_FIELD_OCTETS = 26           /* all octets to the end of the data, of which no more is known */
};

/* A field of data: what it is, the offset in the message at which it begins, the one after it, and the number that it is,
 * or 0 where it is none. */
typedef struct dnsnames_field {
    uint32_t kind;
    size_t begin;
    size_t end;
    uint64_t number;
} dnsnames_field;

/* The field with `index` fields before it in the data of a record: data, data_len, type and class_ are those that
 * dnsnames_record gives. The fields of each type, without DNSNAMES_FIELD_ before them:
 *
 *     A *                                IPV4
 *     AAAA *                             IPV6
 *     NS MD MF CNAME MB MG MR PTR DNAME  NAME
 *     MINFO RP TALINK                    NAME NAME
 *     SOA                                NAME NAME SERIAL TTL TTL TTL TTL
 *     MX AFSDB RT KX * LP                NUMBER16 NAME
 *     PX *                               NUMBER16 NAME NAME
 *     SRV *                              NUMBER16 NUMBER16 NUMBER16 NAME
 *     NAPTR                              NUMBER16 NUMBER16 CHAR_STRING CHAR_STRING CHAR_STRING NAME
 *     X25                                CHAR_STRING
 *     HINFO                              CHAR_STRING CHAR_STRING
 *     GPOS                               CHAR_STRING CHAR_STRING CHAR_STRING
 *     ISDN                               CHAR_STRING OPTIONAL_STRING
 *     TXT NINFO SPF AVC RESINFO          CHAR_STRINGS
 *     WALLET CLA                         CHAR_STRINGS
 *     CAA                                NUMBER8 TAG QUOTED_TEXT
 *     URI                                NUMBER16 NUMBER16 QUOTED_TEXT
 *     SVCB * HTTPS *                     NUMBER16 NAME SVC_PARAMS
 *     SIG RRSIG                          TYPE NUMBER8 NUMBER8 TTL TIME TIME NUMBER16 NAME BASE64
 *     KEY DNSKEY RKEY CDNSKEY            NUMBER16 NUMBER8 NUMBER8 BASE64
 *     DS CDS DLV                         NUMBER16 NUMBER8 NUMBER8 BASE16
 *     NSEC                               NAME TYPE_BITMAPS
 *     NSEC3                              NUMBER8 NUMBER8 NUMBER16 COUNTED_BASE16 COUNTED_BASE32 OPTIONAL_TYPE_BITMAPS
 *     NSEC3PARAM                         NUMBER8 NUMBER8 NUMBER16 COUNTED_BASE16
 *     CSYNC                              SERIAL NUMBER16 OPTIONAL_TYPE_BITMAPS
 *     ZONEMD                             SERIAL NUMBER8 NUMBER8 BASE16
 *     CERT                               NUMBER16 NUMBER16 NUMBER8 BASE64
 *     SSHFP                              NUMBER8 NUMBER8 BASE16
 *     TLSA SMIMEA                        NUMBER8 NUMBER8 NUMBER8 BASE16
 *     DHCID * OPENPGPKEY HHIT BRID       BASE64
 *     NID L64                            NUMBER16 NUMBER64
 *     L32                                NUMBER16 IPV4
 *     EUI48                              NUMBER48
 *     EUI64                              NUMBER64
 *     NXT                                NAME OCTETS
 *     TKEY                               NAME TIME TIME NUMBER16 NUMBER16 COUNTED_BASE64 COUNTED_BASE64
 *     TSIG                               NAME NUMBER48 NUMBER16 COUNTED_BASE64 NUMBER16 NUMBER16 COUNTED_BASE64
 *     all others                         OCTETS
 *
 * Types with a star have them in class IN alone, and OCTETS in another class.
 *
 * NO_MORE where the data have no more than `index` fields. The data are read whole or not at all, whatever `index` is:
 * otherwise the status is that of their first error, from the left. SHORT_INPUT where they end past the message, inside a
 * field, or where one is due; LABEL_TYPE, TOO_MANY_POINTERS, LONG_NAME as dnsnames_read has them of a name, which is read
 * as in a message that ends with the data; BAD_TAG, EMPTY_HASH, WINDOW_ORDER, BITMAP_LENGTH, KEY_ORDER; TRAILING_DATA
 * where octets follow the last field.
 *
 *     dnsnames_field field;
 *     size_t index = 0;
 *     while ((status = dnsnames_data_field(message, message_len, record.data, record.data_len, record.type, record.class_,
 *                                          index++, &field)) == DNSNAMES_OK)
 *         if (field.kind <= DNSNAMES_FIELD_TYPE)
 *             printf("%llu\n", (unsigned long long)field.number);
 *     if (status != DNSNAMES_NO_MORE)
 *         fprintf(stderr, "%s\n", dnsnames_strerror(status));
 */
dnsnames_status dnsnames_data_field(const uint8_t *message, size_t message_len, size_t data, size_t data_len,
                                    uint16_t type, uint16_t class_, size_t index, dnsnames_field *field);

/* The name with `index` names before it in the data of a record of class IN, as this call isn't passed a class: data,
 * data_len and type are those that dnsnames_record gives. The buffer gets the uncompressed name, *length its size. Unlike
 * dnsnames_read it reads no octet after the data as a part of the name: pointers lead before, and none leads back into
 * what follows.
 *
 * NO_FIELD where data of this type have no such name. Otherwise the data are read whole or not at all, and the status is
 * that of their first error, as dnsnames_data_field has it; NO_ROOM.
 *
 *     dnsnames_record_fields record;
 *     status = dnsnames_record(message, message_len, offset, &record);
 *     if (status == DNSNAMES_OK)
 *         status = dnsnames_data_name(message, message_len, record.data, record.data_len, record.type, 0, name,
 *                                     sizeof name, &len);
 */
dnsnames_status dnsnames_data_name(const uint8_t *message, size_t message_len, size_t data, size_t data_len,
                                   uint16_t type, size_t index, uint8_t *buffer, size_t capacity, size_t *length);

/* Numbers of some data, by how many numbers are before them: of MX, RT, PX and KX the preference (of AFSDB the subtype), of
 * SRV priority, weight and port, of SOA serial, refresh, retry, expire and minimum. */
enum {
    DNSNAMES_PREFERENCE = 0,
    DNSNAMES_PRIORITY = 0,
    DNSNAMES_WEIGHT = 1,
    DNSNAMES_PORT = 2,
    DNSNAMES_SERIAL = 0,
    DNSNAMES_REFRESH = 1,
    DNSNAMES_RETRY = 2,
    DNSNAMES_EXPIRE = 3,
    DNSNAMES_MINIMUM = 4
};

/* The number with `index` numbers before it in the data of a record of class IN, as this call isn't passed a class. Only
 * numbers of at most 32 bits are counted and given; dnsnames_data_field gives the others, too.
 *
 * NO_FIELD where data of this type have no such number; otherwise the status is that of the data's first error, as
 * dnsnames_data_field has it. */
dnsnames_status dnsnames_data_number(const uint8_t *message, size_t message_len, size_t data, size_t data_len,
                                     uint16_t type, size_t index, uint32_t *value);

/* The first address in the data of a record of class IN, as this call isn't passed a class: 4 octets of an IPv4 address,
 * as A (RFC 1035, 3.4.1) and L32 have one, 16 of an IPv6 address, as AAAA has (RFC 3596, 2.2). The buffer gets them,
 * *length their number.
 *
 * NO_FIELD where data of this type have no address; otherwise the status is that of the data's first error, as
 * dnsnames_data_field has it; NO_ROOM. */
dnsnames_status dnsnames_data_address(const uint8_t *message, size_t message_len, size_t data, size_t data_len,
                                      uint16_t type, uint8_t *buffer, size_t capacity, size_t *length);

/* The character strings of data whose only field is CHAR_STRINGS, as of TXT (RFC 1035, 3.3.14) and SPF (RFC 4408, 3.1.1),
 * one after another: *passed is how many octets of the data were passed, 0 for the first string and then as the call leaves
 * it. *string becomes the offset of the string's octets in the message, *string_len how many there are.
 *
 * NO_MORE where all strings were passed. NO_FIELD where the type is another; SHORT_INPUT where the data end past the
 * message, where they end in the string, or where they have no octet, since there is one string at least.
 *
 *     size_t passed = 0, string, string_len;
 *     while ((status = dnsnames_data_string(message, message_len, record.data, record.data_len, record.type, &passed,
 *                                           &string, &string_len)) == DNSNAMES_OK)
 *         fwrite(message + string, 1, string_len, stdout);
 *     if (status != DNSNAMES_NO_MORE)
 *         fprintf(stderr, "%s\n", dnsnames_strerror(status));
 */
dnsnames_status dnsnames_data_string(const uint8_t *message, size_t message_len, size_t data, size_t data_len,
                                     uint16_t type, size_t *passed, size_t *string, size_t *string_len);

/* The flags of EDNS (RFC 6891, 6.1.4): the sender takes records of DNSSEC (DO: RFC 3225, 3), and compact denials of
 * existence (CO: RFC 9824, 5.1). */
enum { DNSNAMES_EDNS_FLAG_DO = 0x8000, DNSNAMES_EDNS_FLAG_CO = 0x4000 };

/* What an OPT record says by its class and its TTL (RFC 6891, 6.1.2 to 6.1.4): how many octets its sender takes in a
 * message over UDP (512 where it tells fewer), the response code of twelve bits, the version of EDNS, the sixteen
 * flags of EDNS, and DO of these once more, 0 or 1. */
typedef struct dnsnames_opt_fields {
    uint16_t size;
    uint16_t rcode;
    uint8_t version;
    uint16_t flags;
    uint32_t dnssec_ok;
} dnsnames_opt_fields;

/* What an OPT record says: type, class_ and ttl are those that dnsnames_record gives, flags those of the message's header,
 * which have the lower four bits of the response code. NO_FIELD where the type isn't OPT. Whether the record is of the
 * root, as it must be, and the only one, is for the caller to see. */
dnsnames_status dnsnames_opt(uint16_t type, uint16_t class_, uint32_t ttl, uint16_t flags, dnsnames_opt_fields *opt);

/* The options in the data of an OPT record (RFC 6891, 6.1.2), one after another: *passed is how many octets of the data were
 * passed, 0 for the first option and then as the call leaves it. *code becomes its code, *option the offset of its data in
 * the message, *option_len how many octets these have.
 *
 * NO_MORE where all options were passed. NO_FIELD where the type isn't OPT; SHORT_INPUT where the data end past the message
 * or in the option. */
dnsnames_status dnsnames_data_option(const uint8_t *message, size_t message_len, size_t data, size_t data_len,
                                     uint16_t type, size_t *passed, uint16_t *code, size_t *option,
                                     size_t *option_len);

/* ---- EDNS options by name ---- */

/* How many octets the cookie of a client has, and the most that one of a server has. */
#define DNSNAMES_CLIENT_COOKIE_LEN 8
#define DNSNAMES_MAX_SERVER_COOKIE 32

/* The codes of some options, by the numbers that IANA registered them under. */
enum {
    DNSNAMES_OPTION_NSID = 3,            /* RFC 5001: the identifier of a name server, any octets; none in a query */
    DNSNAMES_OPTION_CLIENT_SUBNET = 8,   /* RFC 7871 */
    DNSNAMES_OPTION_COOKIE = 10,         /* RFC 7873 */
    DNSNAMES_OPTION_TCP_KEEPALIVE = 11,  /* RFC 7828: 16 bits, in units of 100 milliseconds; no octets in a query */
    DNSNAMES_OPTION_PADDING = 12,        /* RFC 7830: zeros */
    DNSNAMES_OPTION_EXTENDED_ERROR = 15  /* RFC 8914 */
};

/* These four write an option after the first *options_len octets of a buffer, and add its size to *options_len:
 * dnsnames_builder_opt takes these octets. *options_len is 0 before the first option.
 *
 * BAD_LENGTH where *options_len is larger than the capacity. NO_ROOM where the option doesn't fit, or where there
 * would be more than 65,535 octets of options. Buffer and *options_len are then as they were, as after each refusal.
 *
 * This one writes any option (RFC 6891, 6.1.2): its code, its length, and its data.
 *
 *     uint8_t options[64];
 *     size_t options_len = 0;
 *     status = dnsnames_append_cookie(options, sizeof options, &options_len, client, NULL, 0);
 *     if (status == DNSNAMES_OK)
 *         status = dnsnames_append_option(options, sizeof options, &options_len, DNSNAMES_OPTION_NSID, NULL, 0);
 *     if (status == DNSNAMES_OK)
 *         status = dnsnames_builder_opt(&builder, 1232, 0, 0, 0, options, options_len);
 */
dnsnames_status dnsnames_append_option(uint8_t *options, size_t capacity, size_t *options_len, uint16_t code,
                                       const uint8_t *data, size_t data_len);

/* Writes the cookie of a client, which the program draws at random, and after it that of a server, if server_len
 * isn't 0 (RFC 7873, 4). The client's has DNSNAMES_CLIENT_COOKIE_LEN octets. BAD_FORM where the server's has 1 to 7
 * octets, or more than 32. */
dnsnames_status dnsnames_append_cookie(uint8_t *options, size_t capacity, size_t *options_len, const uint8_t *client,
                                       const uint8_t *server, size_t server_len);

/* Writes the subnet of a client (RFC 7871, 6): the family of its address (1 IPv4, 2 IPv6, 0 where no bit of it is
 * encoded), how many bits of it are encoded, for how many an answer is meant (0 in a query), and these bits, in as
 * few octets as have them. The address may have more octets: the bits after the encoded ones are written as zeros, or
 * not at all. BAD_FORM where the family is another, or its addresses have fewer bits; SHORT_INPUT where the address
 * has. */
dnsnames_status dnsnames_append_client_subnet(uint8_t *options, size_t capacity, size_t *options_len, uint16_t family,
                                              uint8_t source_prefix_len, uint8_t scope_prefix_len,
                                              const uint8_t *address, size_t address_len);

/* Writes an extended error: its code, and its text, which may be empty (RFC 8914, 2). BAD_SYMBOL where this isn't
 * UTF-8. */
dnsnames_status dnsnames_append_extended_error(uint8_t *options, size_t capacity, size_t *options_len,
                                               uint16_t info_code, const uint8_t *text, size_t text_len);

/* These three read the octets of an option, as dnsnames_data_option gives them: message + option, of option_len. A
 * server answers by FORMERR a query whose cookies or subnet are refused (RFC 7873, 5.2.2; RFC 7871, 6).
 *
 * Of cookies the first 8 octets are the client's, and *server_len becomes how many after them are the server's: 0, or
 * 8 to 32 (RFC 7873, 4). SHORT_INPUT where there are fewer than 8 octets, BAD_FORM where there are 9 to 15 or more
 * than 40. */
dnsnames_status dnsnames_cookie(const uint8_t *option, size_t option_len, size_t *server_len);

/* What the subnet of a client says (RFC 7871, 6): the family of its address, how many bits of it are encoded, and for
 * how many an answer is meant. */
typedef struct dnsnames_subnet_fields {
    uint16_t family;
    uint8_t source_prefix_len;
    uint8_t scope_prefix_len;
} dnsnames_subnet_fields;

/* Of the subnet of a client the octets after the first 4 are the address: as few as have the encoded bits, and the
 * others are zero. SHORT_INPUT where there are fewer than 4 octets; BAD_FORM where the family isn't 0, 1 or 2, or
 * more bits are encoded than its addresses have; SHORT_INPUT where the address has fewer octets than the encoded bits
 * take; BAD_FORM where it has more, or a bit after them isn't zero: the first of these. */
dnsnames_status dnsnames_client_subnet(const uint8_t *option, size_t option_len, dnsnames_subnet_fields *subnet);

/* Of an extended error *info_code becomes its code, and the octets after the first 2 are its text, which is UTF-8 by
 * its sender's word alone, and may end in a zero octet (RFC 8914, 2). SHORT_INPUT where there are fewer than 2
 * octets. */
dnsnames_status dnsnames_extended_error(const uint8_t *option, size_t option_len, uint16_t *info_code);

/* ---- Messages as text ---- */

/* The text of a message, as dig writes it: two lines of its header, and for each section its heading and a line for each
 * question or record, each with a newline:
 *
 *     ;; opcode: QUERY, status: NOERROR, id: 4660
 *     ;; flags: qr rd ra; QUESTION: 1, ANSWER: 1, AUTHORITY: 0, ADDITIONAL: 1
 *     ;; QUESTION SECTION
 *     www.example.com. IN A
 *     ;; ANSWER SECTION
 *     www.example.com. 300 IN A 192.0.2.1
 *     ;; AUTHORITY SECTION
 *     ;; ADDITIONAL SECTION
 *     ; EDNS: version: 0, flags: do; udp: 1232
 *
 * Names are as in a zone: ; " ( ) @ and $ have a backslash before them, too. Where octets follow the last record, a last
 * line says how many, as "; trailing octets: 4".
 *
 * Data that can't be read by their type are shown as octets (RFC 3597, 5), with the reason behind them. Names that pointers
 * lead to are written out, so a message of 65,535 octets can be made whose text has more than nine million.
 *
 * The buffer gets what fits of it, *length its whole size: with NO_ROOM, too, which tells so where not all fits. Where all
 * fits and there is room, a zero octet follows it. SHORT_INPUT where the message ends before all that its header counts, or
 * in that, and BAD_FORM where an entry hasn't the form of one: the text is then that of what stands before, and NO_ROOM comes
 * first. NO_TEXT leaves *length, and anything in the buffer. */
dnsnames_status dnsnames_message_text(const uint8_t *message, size_t message_len, uint8_t *buffer, size_t capacity,
                                      size_t *length);

/* The line of the record at an offset of a message, with a newline: owner, time to live, class, type and data. An OPT record
 * is shown as octets here. The buffer and *length as dnsnames_message_text has them. SHORT_INPUT where the message ends in
 * the record, and BAD_FORM where its owner hasn't the form of a name: these leave all as it was. */
dnsnames_status dnsnames_record_text(const uint8_t *message, size_t message_len, size_t offset, uint8_t *buffer,
                                     size_t capacity, size_t *length);

/* ---- Building messages (RFC 1035, 4.1) ---- */

/* The sections of records. */
enum { DNSNAMES_ANSWER = 1, DNSNAMES_AUTHORITY = 2, DNSNAMES_ADDITIONAL = 3 };

/* What a message that is built has so far: how many octets it has at most, and how many it has; the identifier and the
 * flags that it gets; how many entries each section has; where the sections of records begin; and the offsets to which
 * pointers lead, of which the first table_len count.
 *
 * `id` and `flags` may be changed at any time, and `limit` to any size from `len` to the capacity and to 65,535: so
 * octets are set aside, as for an OPT record. All else is the calls'. */
typedef struct dnsnames_builder_state {
    size_t limit;
    size_t len;
    uint16_t id;
    uint16_t flags;
    uint16_t questions;
    uint16_t answers;
    uint16_t authority;
    uint16_t additional;
    size_t answer_start;
    size_t authority_start;
    size_t additional_start;
    size_t table_len;
    uint16_t table[DNSNAMES_MAX_TABLE];
} dnsnames_builder_state;

/* A message that is built in a buffer of the caller's. No call keeps the builder or the buffer: each looks first whether
 * they are as these calls leave them, and refuses what isn't as NO_BUILDER. The buffer's first twelve octets are 128
 * each until the message is finished. */
typedef struct dnsnames_builder {
    uint8_t *octets;
    size_t capacity;
    dnsnames_builder_state state;
} dnsnames_builder;

/* Begins a message in the buffer, with an identifier and flags (DNSNAMES_FLAG_.., an opcode at bit 11, a response code
 * at bit 0), and nothing in it. It has at most as many octets as the buffer, and 65,535. NO_ROOM where there are not
 * even twelve for the header.
 *
 * Then questions are pushed, and then records, section by section: each whole, or not at all. After a refusal all is
 * as it was, and the next push is as good as any. Compressed are the names of questions, the owners of records of all
 * types, and names in data by the record's type (dnsnames_builder_record): they are written as dnsnames_plan tells. What
 * a reader of the message finds after dnsnames_builder_finish is what was pushed, in order, and nothing else; names that
 * are compressed without ASCII case, all else octet for octet.
 *
 *     uint8_t octets[512];
 *     dnsnames_builder builder;
 *     size_t len;
 *     dnsnames_status status = dnsnames_builder_start(&builder, octets, sizeof octets, id, DNSNAMES_FLAG_RD);
 *     if (status == DNSNAMES_OK)
 *         status = dnsnames_builder_question(&builder, name, name_len, DNSNAMES_TYPE_A, DNSNAMES_CLASS_IN);
 *     if (status == DNSNAMES_OK)
 *         status = dnsnames_builder_opt(&builder, 1232, 0, 0, 0, NULL, 0);
 *     if (status == DNSNAMES_OK)
 *         status = dnsnames_builder_finish(&builder, &len);
 */
dnsnames_status dnsnames_builder_start(dnsnames_builder *builder, uint8_t *octets, size_t capacity, uint16_t id,
                                       uint16_t flags);

/* Pushes a question (4.1.2). NO_BUILDER, NO_NAME; WRONG_ORDER where a record was pushed; TOO_MANY_ENTRIES; NO_ROOM where it
 * exceeds the limit. */
dnsnames_status dnsnames_builder_question(dnsnames_builder *builder, const uint8_t *name, size_t len, uint16_t type,
                                          uint16_t class_);

/* Pushes a record (4.1.3) into a section: DNSNAMES_ANSWER, DNSNAMES_AUTHORITY, DNSNAMES_ADDITIONAL.
 *
 * Names in its data are passed uncompressed, and are compressed here where the standards allow it: in records of the
 * types of RFC 1035 (3.3) that have names, if the data are exactly the type's fields: of NS, MD, MF, CNAME, MB, MG, MR
 * and PTR a name, of MINFO two, of MX two octets and a name, of SOA two names and twenty octets. Each name is written as
 * dnsnames_plan tells over the message up to the owner's name, and this too; it isn't looked for in the same data. The
 * offsets of its labels are remembered, so that later names lead there, as glue's owners do.
 *
 * All other data are written octet for octet as they are passed, and no pointer leads into them: data of newer types,
 * whose names must not be compressed (RFC 3597, 4), as those of SRV and DNAME, and data that aren't such fields, as the
 * empty ones of an update, or those in which a name has a pointer. A pointer in data that were cut out of another
 * message would lead elsewhere in this one: read such names by dnsnames_data_name.
 *
 * NO_BUILDER, NO_SECTION, NO_NAME; WRONG_ORDER where a later section has a record; TOO_MANY_ENTRIES; NO_ROOM where it
 * exceeds the limit, as data of more than 65,535 octets do. */
dnsnames_status dnsnames_builder_record(dnsnames_builder *builder, uint32_t section, const uint8_t *owner,
                                        size_t owner_len, uint16_t type, uint16_t class_, uint32_t ttl,
                                        const uint8_t *data, size_t data_len);

/* Pushes an RRset into a section, or nothing (RFC 2181, 5): records of one owner, type, class and TTL, one for each of the
 * data, in their order. The data stand one after the other, and lens has how many octets each has: `lens_len` lengths,
 * which make up `data_len`. Each record is written as dnsnames_builder_record writes it. Of no data nothing is pushed.
 *
 * NO_BUILDER, NO_SECTION, NO_NAME, BAD_LENGTH; then WRONG_ORDER, TOO_MANY_ENTRIES and NO_ROOM as dnsnames_builder_record
 * has them, of the first record that is refused after those before it. After a refusal the message is as it was.
 *
 *     // The two addresses of a name.
 *     static const uint8_t data[8] = {192, 0, 2, 1, 192, 0, 2, 2};
 *     static const uint16_t lens[2] = {4, 4};
 *     status = dnsnames_builder_rrset(&builder, DNSNAMES_ANSWER, name, name_len, DNSNAMES_TYPE_A, DNSNAMES_CLASS_IN, 60,
 *                                     data, sizeof data, lens, 2);
 */
dnsnames_status dnsnames_builder_rrset(dnsnames_builder *builder, uint32_t section, const uint8_t *owner,
                                       size_t owner_len, uint16_t type, uint16_t class_, uint32_t ttl,
                                       const uint8_t *data, size_t data_len, const uint16_t *lens, size_t lens_len);

/* Pushes an RRset that an answer can't do without: those of the answer section, the name servers of a referral, and those
 * of their addresses that are glue (RFC 9471, 3). *pushed becomes 1. Where the RRset has no room, *pushed becomes 0, the
 * flag TC is set, and nothing else changes (RFC 2181, 9): smaller RRsets may be pushed after it. The statuses are those
 * of dnsnames_builder_rrset without NO_ROOM: the message and *pushed are then as they were. */
dnsnames_status dnsnames_builder_required(dnsnames_builder *builder, uint32_t section, const uint8_t *owner,
                                          size_t owner_len, uint16_t type, uint16_t class_, uint32_t ttl,
                                          const uint8_t *data, size_t data_len, const uint16_t *lens,
                                          size_t lens_len, uint32_t *pushed);

/* The same of an RRset that an answer can do without: where it has no room, *pushed becomes 0, and the message is as it
 * was, without TC. */
dnsnames_status dnsnames_builder_extra(dnsnames_builder *builder, uint32_t section, const uint8_t *owner,
                                       size_t owner_len, uint16_t type, uint16_t class_, uint32_t ttl,
                                       const uint8_t *data, size_t data_len, const uint16_t *lens, size_t lens_len,
                                       uint32_t *pushed);

/* Takes away what was pushed after a mark, which is a copy of the builder's state that was made then. The message is what
 * it was; its identifier, its flags and its limit stay as they are now. NO_BUILDER; NO_MARK where the mark isn't as the
 * calls leave a state, or has more octets than the message: nothing is changed.
 *
 * Void is a mark of another message, one that was made later than a mark that the message went back to, and one that was
 * made before dnsnames_builder_truncate. No call can tell it from others: then the message can be one that no reader takes.
 *
 *     // An RRset and its signatures, both or none.
 *     dnsnames_builder_state mark = builder.state;
 *     status = push_rrset(&builder, rrset);
 *     if (status == DNSNAMES_OK && (status = push_rrset(&builder, signatures)) != DNSNAMES_OK)
 *         dnsnames_builder_rewind(&builder, &mark);
 */
dnsnames_status dnsnames_builder_rewind(dnsnames_builder *builder, const dnsnames_builder_state *mark);

/* Pushes an OPT record into the additional section (RFC 6891, 6.1): how many octets of a message over UDP its sender
 * takes, the upper eight bits of a response code of twelve (code >> 4), the version of EDNS, which is 0, the bit DO
 * where dnssec_ok isn't 0 (RFC 3225, 3), and options in wire format: each a code and a length of 16 bits and its
 * octets, as dnsnames_append_option writes them. They aren't checked: a reader refuses octets that end inside an
 * option. A message has at most one OPT record, which isn't checked either. NO_BUILDER, TOO_MANY_ENTRIES, NO_ROOM.
 *
 *     // The cookie of a client (RFC 7873, 4), of 8 octets, which the program draws at random.
 *     uint8_t options[12];
 *     size_t options_len = 0;
 *     status = dnsnames_append_cookie(options, sizeof options, &options_len, cookie, NULL, 0);
 *     if (status == DNSNAMES_OK)
 *         status = dnsnames_builder_opt(&builder, 1232, 0, 0, 0, options, options_len);
 */
dnsnames_status dnsnames_builder_opt(dnsnames_builder *builder, uint16_t size, uint8_t rcode_ext, uint8_t version,
                                     uint32_t dnssec_ok, const uint8_t *options, size_t options_len);

/* The same, with these flags of EDNS (DNSNAMES_EDNS_FLAG_..) in place of DO alone. */
dnsnames_status dnsnames_builder_opt_flags(dnsnames_builder *builder, uint16_t size, uint8_t rcode_ext, uint8_t version,
                                           uint16_t flags, const uint8_t *options, size_t options_len);

/* Takes all records away again, and sets the flag TC: what is left of an answer that has no room (RFC 2181, 9). An OPT
 * record may be pushed after it. NO_BUILDER. */
dnsnames_status dnsnames_builder_truncate(dnsnames_builder *builder);

/* Writes the header: the first *length octets of the buffer are the message. It can be changed no more. NO_BUILDER. */
dnsnames_status dnsnames_builder_finish(dnsnames_builder *builder, size_t *length);

/* ---- Types, classes and codes ---- */

/* Types by the numbers that IANA registered them under, as far as their records are read or written often. The calls
 * below know 97 of them, and all numbers. */
enum {
    DNSNAMES_TYPE_A = 1,
    DNSNAMES_TYPE_NS = 2,
    DNSNAMES_TYPE_CNAME = 5,
    DNSNAMES_TYPE_SOA = 6,
    DNSNAMES_TYPE_PTR = 12,
    DNSNAMES_TYPE_HINFO = 13,
    DNSNAMES_TYPE_MX = 15,
    DNSNAMES_TYPE_TXT = 16,
    DNSNAMES_TYPE_AAAA = 28,
    DNSNAMES_TYPE_SRV = 33,
    DNSNAMES_TYPE_NAPTR = 35,
    DNSNAMES_TYPE_DNAME = 39,
    DNSNAMES_TYPE_OPT = 41,
    DNSNAMES_TYPE_DS = 43,
    DNSNAMES_TYPE_SSHFP = 44,
    DNSNAMES_TYPE_RRSIG = 46,
    DNSNAMES_TYPE_NSEC = 47,
    DNSNAMES_TYPE_DNSKEY = 48,
    DNSNAMES_TYPE_NSEC3 = 50,
    DNSNAMES_TYPE_TLSA = 52,
    DNSNAMES_TYPE_SVCB = 64,
    DNSNAMES_TYPE_HTTPS = 65,
    DNSNAMES_TYPE_TSIG = 250,
    DNSNAMES_TYPE_IXFR = 251,
    DNSNAMES_TYPE_AXFR = 252,
    DNSNAMES_TYPE_ANY = 255,
    DNSNAMES_TYPE_CAA = 257
};

/* Classes (RFC 1035, 3.2.4; NONE and ANY RFC 2136, 2.4). */
enum { DNSNAMES_CLASS_IN = 1, DNSNAMES_CLASS_CH = 3, DNSNAMES_CLASS_HS = 4, DNSNAMES_CLASS_NONE = 254,
       DNSNAMES_CLASS_ANY = 255 };

/* Kinds of query (RFC 1035, 4.1.1; NOTIFY RFC 1996, UPDATE RFC 2136, DSO RFC 8490). */
enum { DNSNAMES_OPCODE_QUERY = 0, DNSNAMES_OPCODE_IQUERY = 1, DNSNAMES_OPCODE_STATUS = 2, DNSNAMES_OPCODE_NOTIFY = 4,
       DNSNAMES_OPCODE_UPDATE = 5, DNSNAMES_OPCODE_DSO = 6 };

/* Response codes (RFC 1035, 4.1.1; from 6 on RFC 2136, 2.2; those past 15 have eight bits in an OPT record, RFC 6891,
 * 6.1.3). */
enum {
    DNSNAMES_RCODE_NOERROR = 0,
    DNSNAMES_RCODE_FORMERR = 1,
    DNSNAMES_RCODE_SERVFAIL = 2,
    DNSNAMES_RCODE_NXDOMAIN = 3,
    DNSNAMES_RCODE_NOTIMP = 4,
    DNSNAMES_RCODE_REFUSED = 5,
    DNSNAMES_RCODE_YXDOMAIN = 6,
    DNSNAMES_RCODE_YXRRSET = 7,
    DNSNAMES_RCODE_NXRRSET = 8,
    DNSNAMES_RCODE_NOTAUTH = 9,
    DNSNAMES_RCODE_NOTZONE = 10,
    DNSNAMES_RCODE_DSOTYPENI = 11,
    DNSNAMES_RCODE_BADVERS = 16,
    DNSNAMES_RCODE_BADCOOKIE = 23
};

/* The text of a type: its mnemonic, as MX, or TYPE and its number in decimal digits where it has none (RFC 3597, 5).
 * *length becomes its size; a zero octet follows where the buffer has room for it, and isn't counted. A buffer of
 * DNSNAMES_MAX_MNEMONIC has room for each. NO_ROOM. */
dnsnames_status dnsnames_type_text(uint16_t type, uint8_t *buffer, size_t capacity, size_t *length);

/* *type becomes the number of the type that a text names: by its mnemonic, or by TYPE immediately followed by a number
 * of at most 65,535 in decimal digits, without ASCII case. NO_MNEMONIC where it names none. */
dnsnames_status dnsnames_type_from_text(const uint8_t *text, size_t text_len, uint16_t *type);

/* The same of classes, and of CLASS and a number (RFC 3597, 5). */
dnsnames_status dnsnames_class_text(uint16_t class_, uint8_t *buffer, size_t capacity, size_t *length);
dnsnames_status dnsnames_class_from_text(const uint8_t *text, size_t text_len, uint16_t *class_);

/* The same of kinds of query, and of OPCODE and a number, which has four bits in a text that is read. */
dnsnames_status dnsnames_opcode_text(uint16_t opcode, uint8_t *buffer, size_t capacity, size_t *length);
dnsnames_status dnsnames_opcode_from_text(const uint8_t *text, size_t text_len, uint16_t *opcode);

/* The same of response codes, and of RCODE and a number, which has twelve bits in a text that is read: four are in the
 * header, eight in an OPT record if there is one. */
dnsnames_status dnsnames_rcode_text(uint16_t rcode, uint8_t *buffer, size_t capacity, size_t *length);
dnsnames_status dnsnames_rcode_from_text(const uint8_t *text, size_t text_len, uint16_t *rcode);

/* ---- Statuses ---- */

/* What a status means, in English: a text that stays. */
static inline const char *dnsnames_strerror(uint32_t status)
{
    switch (status) {
    case DNSNAMES_OK: return "no error";
    case DNSNAMES_SHORT_INPUT: return "unexpected end of input";
    case DNSNAMES_LABEL_TYPE: return "invalid label type";
    case DNSNAMES_TOO_MANY_POINTERS: return "too many compression pointers";
    case DNSNAMES_LONG_NAME: return "long domain name";
    case DNSNAMES_COMPRESSED: return "compressed domain name";
    case DNSNAMES_RELATIVE: return "relative domain name";
    case DNSNAMES_TRAILING_DATA: return "trailing data";
    case DNSNAMES_NO_ROOM: return "buffer too small";
    case DNSNAMES_NO_NAME: return "not an uncompressed domain name";
    case DNSNAMES_NO_LABEL: return "no such label";
    case DNSNAMES_BAD_ESCAPE: return "invalid escape sequence";
    case DNSNAMES_BAD_SYMBOL: return "invalid character";
    case DNSNAMES_BINARY_LABEL: return "binary label";
    case DNSNAMES_LONG_LABEL: return "long label";
    case DNSNAMES_EMPTY_LABEL: return "empty label";
    case DNSNAMES_NO_TABLE: return "invalid table of offsets";
    case DNSNAMES_FLAT: return "to be written uncompressed";
    case DNSNAMES_NULL: return "null pointer";
    case DNSNAMES_ABSOLUTE: return "absolute domain name";
    case DNSNAMES_BAD_LENGTH: return "length larger than its capacity, or lengths of other octets";
    case DNSNAMES_NO_FIELD: return "no such field in data of this type";
    case DNSNAMES_NO_MNEMONIC: return "no name of a type, a class or a code";
    case DNSNAMES_NO_BUILDER: return "no builder, or its message is finished";
    case DNSNAMES_WRONG_ORDER: return "a later section was begun";
    case DNSNAMES_TOO_MANY_ENTRIES: return "too many entries in a section";
    case DNSNAMES_NO_SECTION: return "no such section";
    case DNSNAMES_NO_MORE: return "no more fields, strings or options";
    case DNSNAMES_BAD_FORM: return "an entry or an option hasn't the form of one";
    case DNSNAMES_NO_TEXT: return "the text wasn't made";
    case DNSNAMES_NO_END: return "aliases lead to no name";
    case DNSNAMES_NO_MARK: return "no mark of this message";
    case DNSNAMES_BAD_TAG: return "invalid tag";
    case DNSNAMES_EMPTY_HASH: return "empty hash";
    case DNSNAMES_WINDOW_ORDER: return "windows of a type bitmap don't ascend";
    case DNSNAMES_BITMAP_LENGTH: return "a block of a type bitmap has no octet or more than 32";
    case DNSNAMES_KEY_ORDER: return "keys of service parameters don't ascend";
    default: return "unknown status";
    }
}

#ifdef __cplusplus
}
#endif

#endif
