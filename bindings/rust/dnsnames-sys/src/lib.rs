//! The calls, types and constants of the library for C as its header `dnsnames.h` declares them, for crates that
//! make something safe of them, as `dnsnames` does.
//!
//! The header describes each call in full: what it does, when it refuses, and what the caller must provide. A pointer
//! must lead to as many octets as the length beside it says, and what is written must overlap nothing else. The names
//! are those of C. A call that refuses returns a status other than [`DNSNAMES_OK`], and leaves what its pointers lead to
//! unchanged.
#![no_std]
#![allow(non_camel_case_types)]

use core::ffi::c_char;

/// The most octets of an uncompressed name.
pub const DNSNAMES_MAX_LEN: usize = 255;
/// Room for the text of each name, which has at most 1,004 octets, and a zero octet after it.
pub const DNSNAMES_MAX_TEXT: usize = 1020;
/// The limit of pointers that allows all that a name can have.
pub const DNSNAMES_MAX_POINTERS: u8 = 255;
/// The most offsets that a table for compressing has.
pub const DNSNAMES_MAX_TABLE: usize = 128;
/// The most octets of the text of a type, a class or a code, with a zero octet after it.
pub const DNSNAMES_MAX_MNEMONIC: usize = 12;
/// The octets of a key of [`dnsnames_hash`].
pub const DNSNAMES_KEY_LEN: usize = 16;
/// The version of these declarations; [`dnsnames_version`] returns that of the library.
pub const DNSNAMES_VERSION: &str = "0.7.0";

/// What a call returns: one of the constants below, which say why it refuses.
pub type dnsnames_status = u32;

/// What was asked for is there.
pub const DNSNAMES_OK: dnsnames_status = 0;
/// The octets or the text end too soon.
pub const DNSNAMES_SHORT_INPUT: dnsnames_status = 1;
/// A length octet is of a label type that is not in use (0x40 to 0xbf).
pub const DNSNAMES_LABEL_TYPE: dnsnames_status = 2;
/// A pointer does not lead back, or is one more than the limit.
pub const DNSNAMES_TOO_MANY_POINTERS: dnsnames_status = 3;
/// The name has more than 255 octets.
pub const DNSNAMES_LONG_NAME: dnsnames_status = 4;
/// Uncompressed octets: a pointer stands among the labels.
pub const DNSNAMES_COMPRESSED: dnsnames_status = 5;
/// Octets of an absolute name: they end after a label that is not the root.
pub const DNSNAMES_RELATIVE: dnsnames_status = 6;
/// Octets of an absolute name: more octets follow the root. Data of a record: more octets follow the last field.
pub const DNSNAMES_TRAILING_DATA: dnsnames_status = 7;
/// The buffer is too small. It is unchanged, and `*length` is how many octets are needed.
pub const DNSNAMES_NO_ROOM: dnsnames_status = 8;
/// What is passed as an uncompressed name is none: [`dnsnames_check`] returns why.
pub const DNSNAMES_NO_NAME: dnsnames_status = 9;
/// The name has no such label.
pub const DNSNAMES_NO_LABEL: dnsnames_status = 10;
/// Text: an escape is broken.
pub const DNSNAMES_BAD_ESCAPE: dnsnames_status = 11;
/// Text: a character stands for no octet, or the text is not UTF-8.
pub const DNSNAMES_BAD_SYMBOL: dnsnames_status = 12;
/// Text: a label begins with `\[`.
pub const DNSNAMES_BINARY_LABEL: dnsnames_status = 13;
/// Text: a label has more than 63 octets.
pub const DNSNAMES_LONG_LABEL: dnsnames_status = 14;
/// Text: a label is empty.
pub const DNSNAMES_EMPTY_LABEL: dnsnames_status = 15;
/// Compressing: the table has more than 128 offsets, or one past 16,383.
pub const DNSNAMES_NO_TABLE: dnsnames_status = 16;
/// Compressing: the name is to be written uncompressed. No fault.
pub const DNSNAMES_FLAT: dnsnames_status = 17;
/// A pointer is null: that of a result, or one whose length or capacity is not 0.
pub const DNSNAMES_NULL: dnsnames_status = 18;
/// Octets of a relative name: a root label stands in them.
pub const DNSNAMES_ABSOLUTE: dnsnames_status = 19;
/// A length that is passed is larger than the capacity beside it, or lengths don't make up the octets beside them.
pub const DNSNAMES_BAD_LENGTH: dnsnames_status = 20;
/// Data of records of this type have no such field: name, number, address, string or option.
pub const DNSNAMES_NO_FIELD: dnsnames_status = 21;
/// The text names no type, class or code.
pub const DNSNAMES_NO_MNEMONIC: dnsnames_status = 22;
/// Building: the builder is not as its calls leave it, or its message is finished.
pub const DNSNAMES_NO_BUILDER: dnsnames_status = 23;
/// Building: a record was pushed before a question, or one of a later section.
pub const DNSNAMES_WRONG_ORDER: dnsnames_status = 24;
/// Building: the section has 65,535 entries, which is all that its count can tell.
pub const DNSNAMES_TOO_MANY_ENTRIES: dnsnames_status = 25;
/// Building: there is no such section.
pub const DNSNAMES_NO_SECTION: dnsnames_status = 26;
/// All fields, strings or options of the data were given: no fault, but the end.
pub const DNSNAMES_NO_MORE: dnsnames_status = 27;
/// Text of a message: an entry hasn't the form of one. EDNS: an option hasn't the form of its standard.
pub const DNSNAMES_BAD_FORM: dnsnames_status = 28;
/// Text of a message: it wasn't made. This doesn't come.
pub const DNSNAMES_NO_TEXT: dnsnames_status = 29;
/// Aliases: the first question has no canonical name, or more records lead on than the limit allows.
pub const DNSNAMES_NO_END: dnsnames_status = 30;
/// Building: the mark is no builder as its calls leave it, or is longer than the message.
pub const DNSNAMES_NO_MARK: dnsnames_status = 31;
/// Data of a record: a tag is empty, or has another octet than letters and digits (RFC 8659, 4.1).
pub const DNSNAMES_BAD_TAG: dnsnames_status = 32;
/// Data of a record: the hash of NSEC3 is empty (RFC 5155, 3.1.6).
pub const DNSNAMES_EMPTY_HASH: dnsnames_status = 33;
/// Data of a record: the windows of a type bitmap don't ascend (RFC 4034, 4.1.2).
pub const DNSNAMES_WINDOW_ORDER: dnsnames_status = 34;
/// Data of a record: a block of a type bitmap has no octet, or more than 32 (RFC 4034, 4.1.2).
pub const DNSNAMES_BITMAP_LENGTH: dnsnames_status = 35;
/// Data of a record: the keys of service parameters don't ascend (RFC 9460, 2.2).
pub const DNSNAMES_KEY_ORDER: dnsnames_status = 36;

// What a row of `dnsnames_table` has at which place, and how many numbers it has.
pub const DNSNAMES_ROW_NAME: usize = 0;
pub const DNSNAMES_ROW_NAME_LEN: usize = 1;
pub const DNSNAMES_ROW_TYPE: usize = 2;
pub const DNSNAMES_ROW_CLASS: usize = 3;
pub const DNSNAMES_ROW_TTL: usize = 4;
pub const DNSNAMES_ROW_DATA: usize = 5;
pub const DNSNAMES_ROW_DATA_LEN: usize = 6;
pub const DNSNAMES_ROW_END: usize = 7;
pub const DNSNAMES_ROW_LEN: usize = 8;

// The flags of a message's header.
pub const DNSNAMES_FLAG_QR: u16 = 0x8000;
pub const DNSNAMES_FLAG_AA: u16 = 0x0400;
pub const DNSNAMES_FLAG_TC: u16 = 0x0200;
pub const DNSNAMES_FLAG_RD: u16 = 0x0100;
pub const DNSNAMES_FLAG_RA: u16 = 0x0080;
pub const DNSNAMES_FLAG_AD: u16 = 0x0020;
pub const DNSNAMES_FLAG_CD: u16 = 0x0010;

// The flags of EDNS (RFC 6891, 6.1.4): DO (RFC 3225, 3) and CO (RFC 9824, 5.1).
pub const DNSNAMES_EDNS_FLAG_DO: u16 = 0x8000;
pub const DNSNAMES_EDNS_FLAG_CO: u16 = 0x4000;

// The codes of some EDNS options, and the sizes of cookies.
pub const DNSNAMES_OPTION_NSID: u16 = 3;
pub const DNSNAMES_OPTION_CLIENT_SUBNET: u16 = 8;
pub const DNSNAMES_OPTION_COOKIE: u16 = 10;
pub const DNSNAMES_OPTION_TCP_KEEPALIVE: u16 = 11;
pub const DNSNAMES_OPTION_PADDING: u16 = 12;
pub const DNSNAMES_OPTION_EXTENDED_ERROR: u16 = 15;
pub const DNSNAMES_CLIENT_COOKIE_LEN: usize = 8;
pub const DNSNAMES_MAX_SERVER_COOKIE: usize = 32;

// What the fields of data are.
pub const DNSNAMES_FIELD_NUMBER8: u32 = 1;
pub const DNSNAMES_FIELD_NUMBER16: u32 = 2;
pub const DNSNAMES_FIELD_NUMBER32: u32 = 3;
pub const DNSNAMES_FIELD_NUMBER48: u32 = 4;
pub const DNSNAMES_FIELD_NUMBER64: u32 = 5;
pub const DNSNAMES_FIELD_TTL: u32 = 6;
pub const DNSNAMES_FIELD_SERIAL: u32 = 7;
pub const DNSNAMES_FIELD_TIME: u32 = 8;
pub const DNSNAMES_FIELD_TYPE: u32 = 9;
pub const DNSNAMES_FIELD_IPV4: u32 = 10;
pub const DNSNAMES_FIELD_IPV6: u32 = 11;
pub const DNSNAMES_FIELD_NAME: u32 = 12;
pub const DNSNAMES_FIELD_CHAR_STRING: u32 = 13;
pub const DNSNAMES_FIELD_OPTIONAL_STRING: u32 = 14;
pub const DNSNAMES_FIELD_CHAR_STRINGS: u32 = 15;
pub const DNSNAMES_FIELD_TAG: u32 = 16;
pub const DNSNAMES_FIELD_QUOTED_TEXT: u32 = 17;
pub const DNSNAMES_FIELD_COUNTED_BASE16: u32 = 18;
pub const DNSNAMES_FIELD_COUNTED_BASE32: u32 = 19;
pub const DNSNAMES_FIELD_COUNTED_BASE64: u32 = 20;
pub const DNSNAMES_FIELD_TYPE_BITMAPS: u32 = 21;
pub const DNSNAMES_FIELD_OPTIONAL_TYPE_BITMAPS: u32 = 22;
pub const DNSNAMES_FIELD_SVC_PARAMS: u32 = 23;
pub const DNSNAMES_FIELD_BASE16: u32 = 24;
pub const DNSNAMES_FIELD_BASE64: u32 = 25;
pub const DNSNAMES_FIELD_OCTETS: u32 = 26;

// Numbers of some data, by how many numbers are before them.
pub const DNSNAMES_PREFERENCE: usize = 0;
pub const DNSNAMES_PRIORITY: usize = 0;
pub const DNSNAMES_WEIGHT: usize = 1;
pub const DNSNAMES_PORT: usize = 2;
pub const DNSNAMES_SERIAL: usize = 0;
pub const DNSNAMES_REFRESH: usize = 1;
pub const DNSNAMES_RETRY: usize = 2;
pub const DNSNAMES_EXPIRE: usize = 3;
pub const DNSNAMES_MINIMUM: usize = 4;

// The sections of records.
pub const DNSNAMES_ANSWER: u32 = 1;
pub const DNSNAMES_AUTHORITY: u32 = 2;
pub const DNSNAMES_ADDITIONAL: u32 = 3;

// Types.
pub const DNSNAMES_TYPE_A: u16 = 1;
pub const DNSNAMES_TYPE_NS: u16 = 2;
pub const DNSNAMES_TYPE_CNAME: u16 = 5;
pub const DNSNAMES_TYPE_SOA: u16 = 6;
pub const DNSNAMES_TYPE_PTR: u16 = 12;
pub const DNSNAMES_TYPE_HINFO: u16 = 13;
pub const DNSNAMES_TYPE_MX: u16 = 15;
pub const DNSNAMES_TYPE_TXT: u16 = 16;
pub const DNSNAMES_TYPE_AAAA: u16 = 28;
pub const DNSNAMES_TYPE_SRV: u16 = 33;
pub const DNSNAMES_TYPE_NAPTR: u16 = 35;
pub const DNSNAMES_TYPE_DNAME: u16 = 39;
pub const DNSNAMES_TYPE_OPT: u16 = 41;
pub const DNSNAMES_TYPE_DS: u16 = 43;
pub const DNSNAMES_TYPE_SSHFP: u16 = 44;
pub const DNSNAMES_TYPE_RRSIG: u16 = 46;
pub const DNSNAMES_TYPE_NSEC: u16 = 47;
pub const DNSNAMES_TYPE_DNSKEY: u16 = 48;
pub const DNSNAMES_TYPE_NSEC3: u16 = 50;
pub const DNSNAMES_TYPE_TLSA: u16 = 52;
pub const DNSNAMES_TYPE_SVCB: u16 = 64;
pub const DNSNAMES_TYPE_HTTPS: u16 = 65;
pub const DNSNAMES_TYPE_TSIG: u16 = 250;
pub const DNSNAMES_TYPE_IXFR: u16 = 251;
pub const DNSNAMES_TYPE_AXFR: u16 = 252;
pub const DNSNAMES_TYPE_ANY: u16 = 255;
pub const DNSNAMES_TYPE_CAA: u16 = 257;

// Classes.
pub const DNSNAMES_CLASS_IN: u16 = 1;
pub const DNSNAMES_CLASS_CH: u16 = 3;
pub const DNSNAMES_CLASS_HS: u16 = 4;
pub const DNSNAMES_CLASS_NONE: u16 = 254;
pub const DNSNAMES_CLASS_ANY: u16 = 255;

// Kinds of query.
pub const DNSNAMES_OPCODE_QUERY: u16 = 0;
pub const DNSNAMES_OPCODE_IQUERY: u16 = 1;
pub const DNSNAMES_OPCODE_STATUS: u16 = 2;
pub const DNSNAMES_OPCODE_NOTIFY: u16 = 4;
pub const DNSNAMES_OPCODE_UPDATE: u16 = 5;
pub const DNSNAMES_OPCODE_DSO: u16 = 6;

// Response codes.
pub const DNSNAMES_RCODE_NOERROR: u16 = 0;
pub const DNSNAMES_RCODE_FORMERR: u16 = 1;
pub const DNSNAMES_RCODE_SERVFAIL: u16 = 2;
pub const DNSNAMES_RCODE_NXDOMAIN: u16 = 3;
pub const DNSNAMES_RCODE_NOTIMP: u16 = 4;
pub const DNSNAMES_RCODE_REFUSED: u16 = 5;
pub const DNSNAMES_RCODE_YXDOMAIN: u16 = 6;
pub const DNSNAMES_RCODE_YXRRSET: u16 = 7;
pub const DNSNAMES_RCODE_NXRRSET: u16 = 8;
pub const DNSNAMES_RCODE_NOTAUTH: u16 = 9;
pub const DNSNAMES_RCODE_NOTZONE: u16 = 10;
pub const DNSNAMES_RCODE_DSOTYPENI: u16 = 11;
pub const DNSNAMES_RCODE_BADVERS: u16 = 16;
pub const DNSNAMES_RCODE_BADCOOKIE: u16 = 23;

/// The twelve octets that a message begins with (RFC 1035, 4.1.1).
#[derive(Clone, Copy, Debug, Default, PartialEq, Eq)]
#[repr(C)]
pub struct dnsnames_header_fields {
    pub id: u16,
    pub flags: u16,
    pub questions: u16,
    pub answers: u16,
    pub authority: u16,
    pub additional: u16,
}

/// A question (RFC 1035, 4.1.2) after its name, and the offset after it.
#[derive(Clone, Copy, Debug, Default, PartialEq, Eq)]
#[repr(C)]
pub struct dnsnames_question_fields {
    pub r#type: u16,
    pub class_: u16,
    pub end: usize,
}

/// A record (RFC 1035, 4.1.3) after its name: the offset and the size of its data, and the offset after it.
#[derive(Clone, Copy, Debug, Default, PartialEq, Eq)]
#[repr(C)]
pub struct dnsnames_record_fields {
    pub r#type: u16,
    pub class_: u16,
    pub ttl: u32,
    pub data: usize,
    pub data_len: usize,
    pub end: usize,
}

/// A field of data: what it is, where it begins and ends in the message, and the number that it is, or 0.
#[derive(Clone, Copy, Debug, Default, PartialEq, Eq)]
#[repr(C)]
pub struct dnsnames_field {
    pub kind: u32,
    pub begin: usize,
    pub end: usize,
    pub number: u64,
}

/// What an OPT record says (RFC 6891, 6.1.2 to 6.1.4).
#[derive(Clone, Copy, Debug, Default, PartialEq, Eq)]
#[repr(C)]
pub struct dnsnames_opt_fields {
    pub size: u16,
    pub rcode: u16,
    pub version: u8,
    pub flags: u16,
    pub dnssec_ok: u32,
}

/// What the subnet of a client says (RFC 7871, 6).
#[derive(Clone, Copy, Debug, Default, PartialEq, Eq)]
#[repr(C)]
pub struct dnsnames_subnet_fields {
    pub family: u16,
    pub source_prefix_len: u8,
    pub scope_prefix_len: u8,
}

/// What a message that is built has so far. `id` and `flags` may be changed at any time, and `limit` to any size from
/// `len` to the capacity and to 65,535. All else is the calls'.
#[derive(Clone, Copy, Debug)]
#[repr(C)]
pub struct dnsnames_builder_state {
    pub limit: usize,
    pub len: usize,
    pub id: u16,
    pub flags: u16,
    pub questions: u16,
    pub answers: u16,
    pub authority: u16,
    pub additional: u16,
    pub answer_start: usize,
    pub authority_start: usize,
    pub additional_start: usize,
    pub table_len: usize,
    pub table: [u16; DNSNAMES_MAX_TABLE],
}

/// A message that is built in a buffer of the caller's.
#[derive(Clone, Copy, Debug)]
#[repr(C)]
pub struct dnsnames_builder {
    pub octets: *mut u8,
    pub capacity: usize,
    pub state: dnsnames_builder_state,
}

extern "C" {
    /// The version of the library: a text that stays, with a zero octet after it.
    pub fn dnsnames_version() -> *const c_char;
    /// Reads the name at an offset of a message, through at most `limit` pointers.
    pub fn dnsnames_read(
        message: *const u8,
        message_len: usize,
        offset: usize,
        limit: u8,
        buffer: *mut u8,
        capacity: usize,
        length: *mut usize,
        end: *mut usize,
        compressed: *mut u32,
    ) -> dnsnames_status;
    /// Tells where the name at an offset of a message ends; its pointer isn't followed.
    pub fn dnsnames_skip(message: *const u8, message_len: usize, offset: usize, end: *mut usize) -> dnsnames_status;
    /// Whether octets are an uncompressed name.
    pub fn dnsnames_check(octets: *const u8, len: usize) -> dnsnames_status;
    /// Whether octets are an uncompressed relative name.
    pub fn dnsnames_check_relative(octets: *const u8, len: usize) -> dnsnames_status;
    /// Reads the text of an absolute name.
    pub fn dnsnames_from_text(
        text: *const u8,
        text_len: usize,
        buffer: *mut u8,
        capacity: usize,
        length: *mut usize,
    ) -> dnsnames_status;
    /// Writes the text of an uncompressed name.
    pub fn dnsnames_to_text(
        name: *const u8,
        len: usize,
        final_dot: u32,
        buffer: *mut u8,
        capacity: usize,
        length: *mut usize,
    ) -> dnsnames_status;
    /// Writes the canonical form of an uncompressed name.
    pub fn dnsnames_lower(
        name: *const u8,
        len: usize,
        buffer: *mut u8,
        capacity: usize,
        length: *mut usize,
    ) -> dnsnames_status;
    /// Whether two names are equal without ASCII case: `*equal` becomes 1, otherwise 0.
    pub fn dnsnames_eq(
        left: *const u8,
        left_len: usize,
        right: *const u8,
        right_len: usize,
        equal: *mut u32,
    ) -> dnsnames_status;
    /// The canonical order of two names: `*order` becomes -1, 0 or 1.
    pub fn dnsnames_compare(
        left: *const u8,
        left_len: usize,
        right: *const u8,
        right_len: usize,
        order: *mut i32,
    ) -> dnsnames_status;
    /// Whether the last labels of a name are those of another: `*ends` becomes 1, otherwise 0.
    pub fn dnsnames_ends_with(
        name: *const u8,
        len: usize,
        suffix: *const u8,
        suffix_len: usize,
        ends: *mut u32,
    ) -> dnsnames_status;
    /// The SipHash-2-4 of a name's canonical form under a key of [`DNSNAMES_KEY_LEN`] octets.
    pub fn dnsnames_hash(key: *const u8, name: *const u8, len: usize, hash: *mut u64) -> dnsnames_status;
    /// How many labels a name has, the root among them.
    pub fn dnsnames_label_count(name: *const u8, len: usize, count: *mut usize) -> dnsnames_status;
    /// The offset of the label that has `index` labels before it.
    pub fn dnsnames_label(name: *const u8, len: usize, index: usize, offset: *mut usize) -> dnsnames_status;
    /// The offset of the label that has `index` labels after it.
    pub fn dnsnames_label_back(name: *const u8, len: usize, index: usize, offset: *mut usize) -> dnsnames_status;
    /// The offset of the second label, at which the parent begins.
    pub fn dnsnames_parent(name: *const u8, len: usize, offset: *mut usize) -> dnsnames_status;
    /// Plans how a name is to be written after the octets of a message.
    pub fn dnsnames_plan(
        octets: *const u8,
        octets_len: usize,
        table: *const u16,
        table_len: usize,
        name: *const u8,
        len: usize,
        begin: *mut usize,
        offset: *mut u16,
    ) -> dnsnames_status;
    /// Writes a name after the octets of a message, with compression.
    pub fn dnsnames_append(
        octets: *mut u8,
        capacity: usize,
        octets_len: *mut usize,
        table: *mut u16,
        table_capacity: usize,
        table_len: *mut usize,
        name: *const u8,
        len: usize,
    ) -> dnsnames_status;
    /// The header of a message.
    pub fn dnsnames_header(
        message: *const u8,
        message_len: usize,
        header: *mut dnsnames_header_fields,
    ) -> dnsnames_status;
    /// The question at an offset.
    pub fn dnsnames_question(
        message: *const u8,
        message_len: usize,
        offset: usize,
        question: *mut dnsnames_question_fields,
    ) -> dnsnames_status;
    /// The record at an offset.
    pub fn dnsnames_record(
        message: *const u8,
        message_len: usize,
        offset: usize,
        record: *mut dnsnames_record_fields,
    ) -> dnsnames_status;
    /// All questions and records that the header counts.
    pub fn dnsnames_table(
        message: *const u8,
        message_len: usize,
        limit: u8,
        rows: *mut u32,
        rows_capacity: usize,
        names: *mut u8,
        names_capacity: usize,
        row_count: *mut usize,
        names_len: *mut usize,
    ) -> dnsnames_status;
    /// Whether a message answers a query.
    pub fn dnsnames_is_answer(
        message: *const u8,
        message_len: usize,
        query: *const u8,
        query_len: usize,
        yes: *mut u32,
    ) -> dnsnames_status;
    /// The canonical name of the first question.
    pub fn dnsnames_canonical_name(
        message: *const u8,
        message_len: usize,
        limit: u16,
        buffer: *mut u8,
        capacity: usize,
        length: *mut usize,
    ) -> dnsnames_status;
    /// The name with `index` names before it in the data of a record.
    pub fn dnsnames_data_field(
        message: *const u8,
        message_len: usize,
        data: usize,
        data_len: usize,
        r#type: u16,
        class_: u16,
        index: usize,
        field: *mut dnsnames_field,
    ) -> dnsnames_status;

    pub fn dnsnames_data_name(
        message: *const u8,
        message_len: usize,
        data: usize,
        data_len: usize,
        r#type: u16,
        index: usize,
        buffer: *mut u8,
        capacity: usize,
        length: *mut usize,
    ) -> dnsnames_status;
    /// The number with `index` numbers before it in the data of a record.
    pub fn dnsnames_data_number(
        message: *const u8,
        message_len: usize,
        data: usize,
        data_len: usize,
        r#type: u16,
        index: usize,
        value: *mut u32,
    ) -> dnsnames_status;
    /// The address that is the data of an A or AAAA record.
    pub fn dnsnames_data_address(
        message: *const u8,
        message_len: usize,
        data: usize,
        data_len: usize,
        r#type: u16,
        buffer: *mut u8,
        capacity: usize,
        length: *mut usize,
    ) -> dnsnames_status;
    /// The next character string in the data of a TXT or SPF record.
    pub fn dnsnames_data_string(
        message: *const u8,
        message_len: usize,
        data: usize,
        data_len: usize,
        r#type: u16,
        passed: *mut usize,
        string: *mut usize,
        string_len: *mut usize,
    ) -> dnsnames_status;
    /// What an OPT record says by its class and its TTL.
    pub fn dnsnames_opt(
        r#type: u16,
        class_: u16,
        ttl: u32,
        flags: u16,
        opt: *mut dnsnames_opt_fields,
    ) -> dnsnames_status;
    /// The next option in the data of an OPT record.
    pub fn dnsnames_data_option(
        message: *const u8,
        message_len: usize,
        data: usize,
        data_len: usize,
        r#type: u16,
        passed: *mut usize,
        code: *mut u16,
        option: *mut usize,
        option_len: *mut usize,
    ) -> dnsnames_status;
    /// Writes an EDNS option after the first `*options_len` octets.
    pub fn dnsnames_append_option(
        options: *mut u8,
        capacity: usize,
        options_len: *mut usize,
        code: u16,
        data: *const u8,
        data_len: usize,
    ) -> dnsnames_status;
    /// The same of the cookies of a client and of a server. The client's has 8 octets.
    pub fn dnsnames_append_cookie(
        options: *mut u8,
        capacity: usize,
        options_len: *mut usize,
        client: *const u8,
        server: *const u8,
        server_len: usize,
    ) -> dnsnames_status;
    /// The same of the subnet of a client.
    pub fn dnsnames_append_client_subnet(
        options: *mut u8,
        capacity: usize,
        options_len: *mut usize,
        family: u16,
        source_prefix_len: u8,
        scope_prefix_len: u8,
        address: *const u8,
        address_len: usize,
    ) -> dnsnames_status;
    /// The same of an extended error.
    pub fn dnsnames_append_extended_error(
        options: *mut u8,
        capacity: usize,
        options_len: *mut usize,
        info_code: u16,
        text: *const u8,
        text_len: usize,
    ) -> dnsnames_status;
    /// Reads the data of an option as cookies.
    pub fn dnsnames_cookie(option: *const u8, option_len: usize, server_len: *mut usize) -> dnsnames_status;
    /// Reads the data of an option as the subnet of a client.
    pub fn dnsnames_client_subnet(
        option: *const u8,
        option_len: usize,
        subnet: *mut dnsnames_subnet_fields,
    ) -> dnsnames_status;
    /// Reads the data of an option as an extended error.
    pub fn dnsnames_extended_error(option: *const u8, option_len: usize, info_code: *mut u16) -> dnsnames_status;
    /// The text of a message.
    pub fn dnsnames_message_text(
        message: *const u8,
        message_len: usize,
        buffer: *mut u8,
        capacity: usize,
        length: *mut usize,
    ) -> dnsnames_status;
    /// The line of the record at an offset of a message.
    pub fn dnsnames_record_text(
        message: *const u8,
        message_len: usize,
        offset: usize,
        buffer: *mut u8,
        capacity: usize,
        length: *mut usize,
    ) -> dnsnames_status;
    /// Begins a message in a buffer.
    pub fn dnsnames_builder_start(
        builder: *mut dnsnames_builder,
        octets: *mut u8,
        capacity: usize,
        id: u16,
        flags: u16,
    ) -> dnsnames_status;
    /// Pushes a question.
    pub fn dnsnames_builder_question(
        builder: *mut dnsnames_builder,
        name: *const u8,
        len: usize,
        r#type: u16,
        class_: u16,
    ) -> dnsnames_status;
    /// Pushes a record. Names in its data are compressed as the standards allow it by type; else they are as passed.
    pub fn dnsnames_builder_record(
        builder: *mut dnsnames_builder,
        section: u32,
        owner: *const u8,
        owner_len: usize,
        r#type: u16,
        class_: u16,
        ttl: u32,
        data: *const u8,
        data_len: usize,
    ) -> dnsnames_status;
    /// Pushes an RRset, or nothing: data one after the other, and how many octets each has.
    pub fn dnsnames_builder_rrset(
        builder: *mut dnsnames_builder,
        section: u32,
        owner: *const u8,
        owner_len: usize,
        r#type: u16,
        class_: u16,
        ttl: u32,
        data: *const u8,
        data_len: usize,
        lens: *const u16,
        lens_len: usize,
    ) -> dnsnames_status;
    /// Pushes an RRset that is required, or sets the flag TC where it has no room.
    pub fn dnsnames_builder_required(
        builder: *mut dnsnames_builder,
        section: u32,
        owner: *const u8,
        owner_len: usize,
        r#type: u16,
        class_: u16,
        ttl: u32,
        data: *const u8,
        data_len: usize,
        lens: *const u16,
        lens_len: usize,
        pushed: *mut u32,
    ) -> dnsnames_status;
    /// Pushes an RRset, or leaves it out where it has no room.
    pub fn dnsnames_builder_extra(
        builder: *mut dnsnames_builder,
        section: u32,
        owner: *const u8,
        owner_len: usize,
        r#type: u16,
        class_: u16,
        ttl: u32,
        data: *const u8,
        data_len: usize,
        lens: *const u16,
        lens_len: usize,
        pushed: *mut u32,
    ) -> dnsnames_status;
    /// Takes away what was pushed after a copy of the state was made.
    pub fn dnsnames_builder_rewind(
        builder: *mut dnsnames_builder,
        mark: *const dnsnames_builder_state,
    ) -> dnsnames_status;
    /// Pushes an OPT record.
    pub fn dnsnames_builder_opt(
        builder: *mut dnsnames_builder,
        size: u16,
        rcode_ext: u8,
        version: u8,
        dnssec_ok: u32,
        options: *const u8,
        options_len: usize,
    ) -> dnsnames_status;
    /// Pushes an OPT record with these flags of EDNS.
    pub fn dnsnames_builder_opt_flags(
        builder: *mut dnsnames_builder,
        size: u16,
        rcode_ext: u8,
        version: u8,
        flags: u16,
        options: *const u8,
        options_len: usize,
    ) -> dnsnames_status;
    /// Takes all records away again, and sets the flag TC.
    pub fn dnsnames_builder_truncate(builder: *mut dnsnames_builder) -> dnsnames_status;
    /// Writes the header: the message is done.
    pub fn dnsnames_builder_finish(builder: *mut dnsnames_builder, length: *mut usize) -> dnsnames_status;
    /// Writes the text of a type.
    pub fn dnsnames_type_text(r#type: u16, buffer: *mut u8, capacity: usize, length: *mut usize) -> dnsnames_status;
    /// The type that a text names.
    pub fn dnsnames_type_from_text(text: *const u8, text_len: usize, r#type: *mut u16) -> dnsnames_status;
    /// Writes the text of a class.
    pub fn dnsnames_class_text(class_: u16, buffer: *mut u8, capacity: usize, length: *mut usize) -> dnsnames_status;
    /// The class that a text names.
    pub fn dnsnames_class_from_text(text: *const u8, text_len: usize, class_: *mut u16) -> dnsnames_status;
    /// Writes the text of a kind of query.
    pub fn dnsnames_opcode_text(opcode: u16, buffer: *mut u8, capacity: usize, length: *mut usize) -> dnsnames_status;
    /// The kind of query that a text names.
    pub fn dnsnames_opcode_from_text(text: *const u8, text_len: usize, opcode: *mut u16) -> dnsnames_status;
    /// Writes the text of a response code.
    pub fn dnsnames_rcode_text(rcode: u16, buffer: *mut u8, capacity: usize, length: *mut usize) -> dnsnames_status;
    /// The response code that a text names.
    pub fn dnsnames_rcode_from_text(text: *const u8, text_len: usize, rcode: *mut u16) -> dnsnames_status;
}
