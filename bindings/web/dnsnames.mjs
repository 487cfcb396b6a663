// Domain names and DNS messages (RFC 1035) in JavaScript, read by the proved module dnsnames_c.wasm.
//
//     import { load } from "./dnsnames.mjs";
//     const dns = await load(fetch("dnsnames_c.wasm"));
//     dns.readName(message, 12).text          // "www.example.com."
//
// Octets go in as Uint8Array and come back as new ones. A refusal throws NameFault; a number that isn't whole or is out
// of range throws RangeError, and what is no number TypeError, which name it. What octets and texts spell is decided by
// the module; this file passes them on, and isn't proved.

const MAX_LEN = 255;
const MAX_TEXT = 1020;
const MAX_TABLE = 128;
const MAX_MNEMONIC = 12;

// What the module keeps of a message that is built: how many octets there are in all, and where its flags and its size are.
const BUILDER = { size: 320, len: 8, flags: 18 };
const SECTIONS = ["answer", "authority", "additional"];
// The type of an OPT record.
const OPT = 41;

/** The flags, where they stand in the header's 16 bits (RFC 1035, 4.1.1; AD and CD RFC 4035, 3.1.6 and 3.2). The four bits
 *  of the opcode are flags >> 11 & 15, those of the response code flags & 15. */
export const FLAGS = Object.freeze({
    QR: 0x8000, AA: 0x0400, TC: 0x0200, RD: 0x0100, RA: 0x0080, AD: 0x0020, CD: 0x0010,
});

/** What the fields of record data are, as `fieldsInData` has them. Those up to TYPE are numbers. */
export const FIELDS = Object.freeze({
    NUMBER8: 1, NUMBER16: 2, NUMBER32: 3, NUMBER48: 4, NUMBER64: 5, TTL: 6, SERIAL: 7, TIME: 8, TYPE: 9, IPV4: 10, IPV6:
    11, NAME: 12, CHAR_STRING: 13, OPTIONAL_STRING: 14, CHAR_STRINGS: 15, TAG: 16, QUOTED_TEXT: 17, COUNTED_BASE16: 18,
    COUNTED_BASE32: 19, COUNTED_BASE64: 20, TYPE_BITMAPS: 21, OPTIONAL_TYPE_BITMAPS: 22, SVC_PARAMS: 23, BASE16: 24,
    BASE64: 25, OCTETS: 26,
});

/** The codes of some EDNS options, by the numbers that IANA registered them under. */
export const OPTIONS = Object.freeze({
    NSID: 3, CLIENT_SUBNET: 8, COOKIE: 10, TCP_KEEPALIVE: 11, PADDING: 12, EXTENDED_ERROR: 15,
});
// The flags of EDNS (RFC 6891, 6.1.4; RFC 3225, 3; RFC 9824, 5.1).
const EDNS = { DO: 0x8000, CO: 0x4000 };
// An option begins with its code and its length; the cookie of a client has as many octets, that of a server at most.
const OPTION_HEAD = 4, CLIENT_COOKIE = 8, SERVER_COOKIE = 32;

// A row of the module's table has eight numbers of 32 bits; no question or record has fewer than five octets.
const ROW_LEN = 8;
const LEAST_ENTRY = 5;

// What a status is called, what it means, and where the standard has it.
const FAULTS = new Map([
    [1, ["ShortInput", "unexpected end of input", "RFC 1035, 3.1 and 4.1.4"]],
    [2, ["BadLabelType", "invalid label type", "RFC 1035, 4.1.4; RFC 6891, 5"]],
    [3, ["TooManyPointers", "too many compression pointers", "RFC 1035, 4.1.4"]],
    [4, ["LongName", "long domain name", "RFC 1035, 2.3.4 and 3.1"]],
    [5, ["CompressedName", "compressed domain name", "RFC 1035, 4.1.4"]],
    [6, ["RelativeName", "relative domain name", "RFC 1035, 3.1"]],
    [7, ["TrailingData", "trailing data", "RFC 1035, 3.1 and 3.3"]],
    [8, ["NoRoom", "buffer too small", ""]],
    [9, ["NoName", "not an uncompressed domain name", "RFC 1035, 3.1"]],
    [10, ["NoLabel", "no such label", ""]],
    [11, ["BadEscape", "invalid escape sequence", "RFC 1035, 5.1"]],
    [12, ["BadSymbol", "invalid character", "RFC 1035, 5.1"]],
    [13, ["BinaryLabel", "binary label", "RFC 6891, 5"]],
    [14, ["LongLabel", "long label", "RFC 1035, 2.3.4 and 3.1"]],
    [15, ["EmptyLabel", "empty label", "RFC 1035, 3.1"]],
    [16, ["NoTable", "invalid table of offsets", ""]],
    [19, ["AbsoluteName", "absolute domain name", "RFC 1035, 3.1"]],
    [20, ["BadLength", "length larger than its capacity", ""]],
    [21, ["NoField", "no such field in data of this type", ""]],
    [22, ["NoMnemonic", "no name of a type, a class or a code", "RFC 3597, 5"]],
    [23, ["NoBuilder", "no builder, or its message is finished", ""]],
    [24, ["WrongOrder", "a later section was begun", "RFC 1035, 4.1"]],
    [25, ["TooManyEntries", "too many entries in a section", "RFC 1035, 4.1.1"]],
    [26, ["NoSection", "no such section", "RFC 1035, 4.1"]],
    [28, ["BadForm", "an entry or an option hasn't the form of one", "RFC 1035, 4.1; RFC 6891, 6.1.2"]],
    [32, ["BadTag", "invalid tag", "RFC 8659, 4.1"]],
    [33, ["EmptyHash", "empty hash", "RFC 5155, 3.1.6"]],
    [34, ["WindowOrder", "windows of a type bitmap don't ascend", "RFC 4034, 4.1.2"]],
    [35, ["BitmapLength", "a block of a type bitmap has no octet or more than 32", "RFC 4034, 4.1.2"]],
    [36, ["KeyOrder", "keys of service parameters don't ascend", "RFC 9460, 2.2"]],
]);

// The status of the module where all fields, strings or options of data were given.
const NO_MORE = 27;
// Its status where a text needs more room.
const NO_ROOM = 8;
// Its status where an option hasn't its form.
const BAD_FORM = 28;
// Its status where aliases lead to no name.
const NO_END = 30;

/** Why something is refused: `fault` is its name, `status` the module's number, `section` the standard's. */
export class NameFault extends Error {
    constructor(status, offset) {
        const [fault, text, section] = FAULTS.get(status) ?? ["Unknown", `status ${status}`, ""];
        super(text);
        this.name = "NameFault";
        this.status = status;
        this.fault = fault;
        this.section = section;
        this.offset = offset;
    }
}

/** The module made ready, of its octets (an ArrayBuffer or Uint8Array) or of what `fetch` gives: dnsnames_c.wasm, or its copy
 *  dnsnames_c32.wasm where there is no 64-bit memory, so that WebAssembly.validate says no of the other. */
export async function load(source) {
    const given = await source, isOctets = given instanceof ArrayBuffer || ArrayBuffer.isView(given);
    const { instance } = await (isOctets ? WebAssembly.instantiate(given, {}) : WebAssembly.instantiateStreaming(given, {}));
    return new DnsNames(instance.exports);
}

/** The calls of one module. Each copies what it is given into the module's memory, and the results out of it. */
export class DnsNames {
    #exports;
    #next = 0;
    #pages = BigInt;

    constructor(exports) {
        this.#exports = exports;
        try {
            exports.memory.grow(0n);
        } catch {
            this.#pages = Number; // the memory has 32 bits
        }
    }

    /** The name at an offset of a message, through at most `limit` pointers: its octets without compression, its text
     *  and labels, the offset after it, and whether a pointer follows a label. */
    readName(message, offset = 12, limit = 255) {
        const [slice, room] = this.#begin(message, MAX_LEN);
        const [length, end, compressed] = this.#results(3);
        const from = [toSize("offset", offset), whole("limit", limit, 8)];
        this.#call("read", offset, ...slice, ...from, ...room, length, end, compressed);
        const found = {
            octets: this.#octets(room, length), end: this.#size(end),
            compressed: this.#view().getUint32(Number(compressed), true) === 1,
        };
        return { ...found, text: this.toText(found.octets), labels: labelsOf(found.octets) };
    }

    /** The offset after the root or first pointer of the name at an offset. */
    skipName(message, offset = 12) {
        const [slice] = this.#begin(message);
        const [end] = this.#results(1);
        this.#call("skip", offset, ...slice, toSize("offset", offset), end);
        return this.#size(end);
    }

    /** Throws where octets are no name without compression. */
    checkName(octets) {
        const [slice] = this.#begin(octets);
        this.#call("check", undefined, ...slice);
    }

    /** Throws where octets are no labels without a root. */
    checkRelativeName(octets) {
        const [slice] = this.#begin(octets);
        this.#call("check_relative", undefined, ...slice);
    }

    /** The octets of the name that a text spells. */
    fromText(text) {
        return this.#made("from_text", utf8(text), [], MAX_LEN);
    }

    /** The text of a name. */
    toText(name, { finalDot = true } = {}) {
        return new TextDecoder().decode(this.#made("to_text", name, [finalDot ? 1 : 0], MAX_TEXT));
    }

    /** The canonical form of a name (RFC 4034, 6.2). */
    lower(name) {
        return this.#made("lower", name, [], MAX_LEN);
    }

    /** Whether two names are equal without ASCII case. */
    equal(left, right) {
        return this.#ofTwo("eq", left, right) === 1;
    }

    /** The canonical order of two names (RFC 4034, 6.1): -1, 0 or 1, as `sort` takes it. */
    compare(left, right) {
        return this.#ofTwo("compare", left, right) | 0;
    }

    /** Whether a name ends with all labels of another. */
    endsWith(name, suffix) {
        return this.#ofTwo("ends_with", name, suffix) === 1;
    }

    /** A text that is the same for equal names, for the keys of a Map or a Set: the octets of `lower`, each a character.
     *  The hash behind it is the browser's own, so strangers can't choose names that fall together. */
    key(name) {
        return String.fromCharCode(...this.lower(name));
    }

    /** The octets of a name's labels, the root's last. */
    labels(name) {
        this.checkName(name);
        return labelsOf(name);
    }

    /** The name without its first label. */
    parent(name) {
        const [slice] = this.#begin(name);
        const [offset] = this.#results(1);
        this.#call("parent", undefined, ...slice, offset);
        return name.slice(this.#size(offset));
    }

    /** The first 12 octets of a message (RFC 1035, 4.1.1). */
    header(message) {
        const [slice] = this.#begin(message);
        const fields = this.#results(6);
        this.#call("header", 0, ...slice, ...fields);
        const [id, flags, questions, answers, authority, additional] = fields.map((field) => this.#number16(field));
        return { id, flags, questions, answers, authority, additional };
    }

    /** The question at an offset, without its name. */
    question(message, offset = 12) {
        const [slice] = this.#begin(message);
        return this.#question(slice, offset);
    }

    #question(slice, offset) {
        const [type, class_, end] = this.#results(3);
        this.#call("question", offset, ...slice, toSize("offset", offset), type, class_, end);
        return { offset, type: this.#number16(type), class: this.#number16(class_), end: this.#size(end) };
    }

    /** The record at an offset, without its name: `data` are its octets, and `dataOffset` where they begin. */
    record(message, offset) {
        const [slice] = this.#begin(message);
        return this.#record(message, slice, offset);
    }

    #record(message, slice, offset) {
        const [type, class_, ttl, data, dataLen, end] = this.#results(6);
        this.#call("record", offset, ...slice, toSize("offset", offset), type, class_, ttl, data, dataLen, end);
        const dataOffset = this.#size(data);
        return {
            offset, type: this.#number16(type), class: this.#number16(class_),
            ttl: this.#view().getUint32(Number(ttl), true), dataOffset,
            data: message.slice(dataOffset, dataOffset + this.#size(dataLen)), end: this.#size(end),
        };
    }

    /** The fields of the data of a record of this message, in their order, by its type and class: of each its kind (one of
     *  FIELDS), its octets as they are in the message, its offset there, and the number that it is, if it is one: of 64 bits a
     *  BigInt. The data are read whole or not at all: throws their first error. */
    fieldsInData(message, record) {
        const [slice] = this.#begin(message), fields = [];
        const values = [...slice, ...dataOf(record), whole("class", record.class, 16)];
        const results = this.#results(4), [kindAt, beginAt, endAt, numberAt] = results;
        for (;;) {
            const index = BigInt(fields.length);
            const status = this.#exports.dnsnames_data_field(...values, index, ...results) >>> 0;
            if (status === NO_MORE) return fields;
            if (status !== 0) throw new NameFault(status, record.dataOffset);
            const kind = this.#view().getUint32(Number(kindAt), true), offset = this.#size(beginAt);
            const field = { kind, offset, octets: message.slice(offset, this.#size(endAt)) };
            if (kind <= FIELDS.TYPE) {
                const number = this.#view().getBigUint64(Number(numberAt), true);
                field.number = kind === FIELDS.NUMBER64 ? number : Number(number);
            }
            fields.push(field);
        }
    }

    /** The name with so many names before it in the data of a record of this message, as of class IN: its octets, text and
     *  labels. It doesn't leave the data. NoField where data of its type have no such name, and the data's first error. */
    nameInData(message, record, index = 0) {
        const [slice, room] = this.#begin(message, MAX_LEN);
        const [length] = this.#results(1);
        this.#call(
            "data_name", record.dataOffset, ...slice, ...dataOf(record), toSize("index", index), ...room, length,
        );
        const octets = this.#octets(room, length);
        return { octets, text: this.toText(octets), labels: labelsOf(octets) };
    }

    /** The number of at most 32 bits with so many such numbers before it in the data of a record of this message, as of class
     *  IN: of MX the preference, of SRV priority, weight and port, of SOA serial, refresh, retry, expire and minimum. NoField
     *  where data of its type have no such number, and the data's first error. */
    numberInData(message, record, index = 0) {
        const [slice] = this.#begin(message);
        const [value] = this.#results(1);
        this.#call("data_number", record.dataOffset, ...slice, ...dataOf(record), toSize("index", index), value);
        return this.#view().getUint32(Number(value), true);
    }

    /** The octets of the first address in the data of a record of this message, as of class IN: 4 of A and L32, 16 of AAAA.
     *  NoField for another type, and the data's first error. */
    addressInData(message, record) {
        const [slice, room] = this.#begin(message, 16);
        const [length] = this.#results(1);
        this.#call("data_address", record.dataOffset, ...slice, ...dataOf(record), ...room, length);
        return this.#octets(room, length);
    }

    /** The character strings of a TXT, SPF or AVC record of this message, each as its octets. NoField for another type, ShortInput
     *  where the data have no string or end in one. */
    *stringsInData(message, record) {
        const read = ([string, length]) => [this.#size(string), this.#size(length)];
        for (const [begin, length] of this.#each("data_string", message, record, 2, read)) {
            yield message.slice(begin, begin + length);
        }
    }

    /** What an OPT record says, of the message whose header has these flags (RFC 6891, 6.1). NoField for another type. */
    opt(record, flags = 0) {
        const fields = [whole("type", record.type, 16), whole("class", record.class, 16), whole("ttl", record.ttl, 32)];
        this.#begin();
        const results = this.#results(5), [size, rcode, version, bits] = results;
        this.#call("opt", record.offset, ...fields, whole("flags", flags, 16), ...results);
        const told = this.#number16(bits);
        return {
            size: this.#number16(size), rcode: this.#number16(rcode), version: this.#view().getUint8(Number(version)),
            dnssecOk: (told & EDNS.DO) !== 0, compactOk: (told & EDNS.CO) !== 0,
        };
    }

    /** The options of an OPT record of this message, each a code and octets (RFC 6891, 6.1.2). NoField for another type,
     *  ShortInput where the data end in an option. */
    *optionsInData(message, record) {
        const read = ([code, option, length]) => [this.#number16(code), this.#size(option), this.#size(length)];
        for (const [code, begin, length] of this.#each("data_option", message, record, 3, read)) {
            yield { code, data: message.slice(begin, begin + length) };
        }
    }

    /** An option with the cookie of a client, of 8 octets, which the program draws at random, and that of a server, of 8
     *  to 32 octets, if it isn't empty (RFC 7873, 4). BadForm for other lengths. */
    makeCookie(client, server = new Uint8Array(0)) {
        if (client instanceof Uint8Array && client.length !== CLIENT_COOKIE) throw new NameFault(BAD_FORM);
        const most = CLIENT_COOKIE + SERVER_COOKIE;
        return this.#option("append_cookie", most, [client, server], ([[at], slice]) => [at, ...slice]);
    }

    /** The cookies that an option is; null for another code. ShortInput below 8 octets, BadForm for other lengths. */
    readCookie({ code, data }) {
        if (code !== OPTIONS.COOKIE) return null;
        const [slice] = this.#begin(data);
        const [length] = this.#results(1);
        this.#call("cookie", undefined, ...slice, length);
        return { client: data.slice(0, CLIENT_COOKIE), server: data.slice(data.length - this.#size(length)) };
    }

    /** An option with the subnet of a client (RFC 7871, 6): the family of its address (1 IPv4, 2 IPv6), how many bits of
     *  it are encoded, and for how many an answer is meant, which is 0 in a query. The other bits of the address aren't
     *  written. BadForm for another family, or more bits than its addresses have; ShortInput where the address has
     *  fewer. */
    makeClientSubnet({ family, source, scope = 0, address }) {
        const numbers = [whole("family", family, 16), whole("source", source, 8), whole("scope", scope, 8)];
        return this.#option("append_client_subnet", 20, [address], ([slice]) => [...numbers, ...slice]);
    }

    /** The subnet that an option is; null for another code. Its address has as few octets as have the encoded bits.
     *  ShortInput where it ends too soon, BadForm for another family, more bits, or an address longer than these. */
    readClientSubnet({ code, data }) {
        if (code !== OPTIONS.CLIENT_SUBNET) return null;
        const [slice] = this.#begin(data);
        const results = this.#results(3);
        this.#call("client_subnet", undefined, ...slice, ...results);
        const [source, scope] = results.slice(1).map((result) => this.#view().getUint8(Number(result)));
        return { family: this.#number16(results[0]), source, scope, address: data.slice(OPTION_HEAD) };
    }

    /** An option with an extended error: its code, and its text (RFC 8914, 2). */
    makeExtendedError(infoCode, text = "") {
        const octets = utf8(text), number = whole("infoCode", infoCode, 16);
        return this.#option("append_extended_error", 2 + octets.length, [octets], ([slice]) => [number, ...slice]);
    }

    /** The extended error that an option is; null for another code. What of its text isn't UTF-8 is shown as U+FFFD.
     *  ShortInput below 2 octets. */
    readExtendedError({ code, data }) {
        if (code !== OPTIONS.EXTENDED_ERROR) return null;
        const [slice] = this.#begin(data);
        const [result] = this.#results(1);
        this.#call("extended_error", undefined, ...slice, result);
        const text = new TextDecoder("utf-8", { ignoreBOM: true }).decode(data.subarray(2));
        return { infoCode: this.#number16(result), text };
    }

    // The option that a call writes, with at most this many octets of data.
    #option(call, most, parts, values) {
        const [room, ...slices] = this.#begin(OPTION_HEAD + most, ...parts);
        const [length] = this.#results(1);
        this.#view().setBigUint64(Number(length), 0n, true);
        this.#call(call, undefined, ...room, length, ...values(slices));
        const octets = this.#octets(room, length);
        return { code: octets[0] * 256 + octets[1], data: octets.slice(OPTION_HEAD) };
    }

    // What `read` finds in so many results of a call for each string or option of data, up to its fault. All are
    // read before the first is given, as other calls use the same memory: the message is copied once.
    *#each(call, message, record, count, read) {
        const [slice] = this.#begin(message), values = [...slice, ...dataOf(record)], found = [];
        const [passed, ...results] = this.#results(1 + count);
        this.#view().setBigUint64(Number(passed), 0n, true);
        let status;
        do {
            status = this.#exports["dnsnames_" + call](...values, passed, ...results) >>> 0;
            if (status === 0) found.push(read(results));
        } while (status === 0);
        yield* found;
        if (status !== NO_MORE) throw new NameFault(status, record.dataOffset);
    }

    /** Whether a message answers a query: a response with the query's identifier, opcode and questions. ShortInput. */
    isAnswer(message, query) {
        const slices = this.#begin(message, query);
        const [yes] = this.#results(1);
        this.#call("is_answer", 0, ...slices.flat(), yes);
        return this.#view().getUint32(Number(yes), true) === 1;
    }

    /** The name to which at most `limit` CNAME records of the answers lead from the first question's (RFC 1034, 3.6.2): its
     *  octets and its text. Null where more of them lead on, as they do in a ring, or a question is missing. */
    canonicalName(message, limit = 16) {
        const [slice, room] = this.#begin(message, MAX_LEN);
        const [length] = this.#results(1);
        const status = this.#exports.dnsnames_canonical_name(...slice, whole("limit", limit, 16), ...room, length) >>> 0;
        if (status === NO_END) return null;
        if (status !== 0) throw new NameFault(status, 0);
        const octets = this.#octets(room, length);
        return { octets, text: this.toText(octets) };
    }

    /** The text of a message as dig writes it: two lines of its header, and for each section its heading and a line for each
     *  question or record. Data that can't be read by their type are shown as octets, and why (RFC 3597, 5). Names
     *  are as in a zone: ; " ( ) @ and $ have a backslash before them, too. A last line says how many octets
     *  follow the last record, if any do. ShortInput where the message ends before all that its header counts, BadForm where
     *  an entry hasn't the form of one: `shown` is then the text of what stands before. */
    messageText(message) {
        return this.#text("message_text", 0, message, []);
    }

    /** The line of the record at an offset of a message: owner, time to live, class, type and data. ShortInput, BadForm. */
    recordText(message, offset) {
        return this.#text("record_text", offset, message, [toSize("offset", offset)]).slice(0, -1);
    }

    // The text that a call gives, with as much room as it needs.
    #text(call, offset, message, more) {
        for (let capacity = 4096; ;) {
            const [slice, room] = this.#begin(message, capacity);
            const [length] = this.#results(1);
            const status = this.#exports["dnsnames_" + call](...slice, ...more, ...room, length) >>> 0;
            if (status === NO_ROOM && this.#size(length) > capacity) {
                capacity = this.#size(length);
                continue;
            }
            if (status === 0) return new TextDecoder().decode(this.#octets(room, length));
            const fault = new NameFault(status, offset);
            if (call === "message_text" && FAULTS.has(status)) fault.shown = new TextDecoder().decode(this.#octets(room, length));
            throw fault;
        }
    }

    /** The questions and records of a message in turn, each with its `section`, and with the octets of its `name` where that
     *  and all names before it can be read. Throws the fault of the first question or record that can't be read; a name that
     *  can't be stops nothing. */
    *entries(message) {
        this.header(message);
        const found = this.#table(message);
        const { entries, fault } = found.status === 0 ? { entries: [] } : this.#rest(message, found.numbers);
        yield* this.#rows(message, found);
        yield* entries;
        if (fault) throw fault;
    }

    // The questions and records behind these rows, and the fault of the first that can't be read: read at once, so
    // the message is copied once.
    #rest(message, numbers) {
        const [slice] = this.#begin(message), counts = countsOf(message), entries = [];
        let offset = numbers.at(-1) ?? 12, passed = numbers.length / ROW_LEN;
        try {
            for (const [i, section] of ["question", ...SECTIONS].entries()) {
                for (let left = counts[i]; left > 0; left--) {
                    if (passed-- > 0) continue;
                    const entry = section === "question" ? this.#question(slice, offset) : this.#record(message, slice, offset);
                    entries.push({ section, ...entry });
                    offset = entry.end;
                }
            }
        } catch (fault) {
            if (!(fault instanceof NameFault)) throw fault;
            return { entries, fault };
        }
        return { entries };
    }

    /** All questions and records of a message in an array, each with its `section` and the octets of its `name`, read in one
     *  call. Throws the fault of the first that can't be read, or whose name can't: ShortInput, BadLabelType, TooManyPointers,
     *  LongName; its `entries` are then those before. */
    table(message) {
        const found = this.#table(message), entries = [...this.#rows(message, found)];
        if (found.status === 0) return entries;
        throw Object.assign(new NameFault(found.status, entries.at(-1)?.end ?? 12), { entries });
    }

    // All rows of a message, their names one after another, and why there are no more. There is room for as many entries as
    // the header counts, and the octets have.
    #table(message) {
        const most = Math.min(sum(countsOf(message)), Math.floor(Math.max(message.length - 12, 0) / LEAST_ENTRY));
        const [slice, rows, names] = this.#begin(message, 4 * ROW_LEN * most, MAX_LEN * most);
        const [count, length] = this.#results(2);
        const room = [rows[0], BigInt(ROW_LEN * most), ...names];
        const status = this.#exports.dnsnames_table(...slice, 255, ...room, count, length) >>> 0;
        const numbers = new Uint32Array(this.#exports.memory.buffer, Number(rows[0]), ROW_LEN * this.#size(count)).slice();
        return { status, numbers, names: this.#octets(names, length) };
    }

    // The questions and records of these rows. A row has the offset and the length of its name, type, class, time to live,
    // the offset and the length of its data, and its end.
    *#rows(message, { numbers, names }) {
        const counts = countsOf(message);
        let offset = 12, row = 0;
        for (const [i, section] of ["question", ...SECTIONS].entries()) {
            for (let left = counts[i]; left > 0 && row < numbers.length; left--, row += ROW_LEN) {
                const name = names.slice(numbers[row], numbers[row] + numbers[row + 1]);
                const type = numbers[row + 2], class_ = numbers[row + 3], end = numbers[row + 7];
                if (section === "question") {
                    yield { section, name, offset, type, class: class_, end };
                } else {
                    const ttl = numbers[row + 4], dataOffset = numbers[row + 5];
                    const data = message.slice(dataOffset, dataOffset + numbers[row + 6]);
                    yield { section, name, offset, type, class: class_, ttl, dataOffset, data, end };
                }
                offset = end;
            }
        }
    }

    /** The text of a number: of a "type", a "class", an "opcode" or an "rcode" its mnemonic, or a word and the number (RFC
     *  3597, 5). */
    mnemonic(kind, number) {
        const [room] = this.#begin(MAX_MNEMONIC);
        const [length] = this.#results(1);
        this.#call(`${kind}_text`, undefined, whole("number", number, 16), ...room, length);
        return new TextDecoder().decode(this.#octets(room, length));
    }

    /** The number that such a text names, without ASCII case. NoMnemonic where it names none. */
    numberOf(kind, text) {
        const [slice] = this.#begin(new TextEncoder().encode(text));
        const [number] = this.#results(1);
        this.#call(`${kind}_from_text`, undefined, ...slice, number);
        return this.#number16(number);
    }

    /** A message that is built (RFC 1035, 4.1), of at most so many octets: questions, and then records, section by
     *  section. Each is pushed whole, or throws and changes nothing. Names of questions and owners of records are
     *  compressed, and names in data of the types of RFC 1035. */
    builder({ capacity = 65535, id = 0, flags = 0 } = {}) {
        const octets = new Uint8Array(whole("capacity", capacity, 53)), state = new Uint8Array(BUILDER.size);
        const view = new DataView(state.buffer);
        const push = (call, parts, values) => this.#build(call, octets, state, parts, values);
        push("start", [], () => [whole("id", id, 16), whole("flags", flags, 16)]);
        return {
            /** Pushes a question. WrongOrder where a record was pushed, NoRoom, TooManyEntries, NoBuilder. */
            question: (name, type, class_ = 1) =>
                push("question", [name], ([slice]) => [...slice, whole("type", type, 16), whole("class", class_, 16)]),
            /** Pushes a record into "answer", "authority" or "additional". A name in its data is its octets without
             *  compression; it is compressed where the type is one of RFC 1035, 3.3, and the data are exactly its fields.
             *  All other data are written as they are. */
            record: (section, owner, type, data, { ttl = 0, class: class_ = 1 } = {}) =>
                push("record", [owner, data], ([slice, rest]) => [
                    SECTIONS.indexOf(section) + 1, ...slice, whole("type", type, 16), whole("class", class_, 16),
                    whole("ttl", ttl, 32), ...rest,
                ]),
            /** Pushes an OPT record (RFC 6891, 6.1): the size of messages over UDP, the upper eight bits of a response
             *  code of twelve, the bits DO and CO, and options, each a `code` and octets as `data`. Octets in place of
             *  the list are options in wire format: RangeError where they end inside one. */
            opt: ({ size = 1232, rcode = 0, version = 0, dnssecOk = false, compactOk = false, options = [] } = {}) =>
                push("opt_flags", [this.#wireOptions(options)], ([slice]) => [
                    whole("size", size, 16), whole("rcode", rcode, 12) >> 4, whole("version", version, 8),
                    (dnssecOk ? EDNS.DO : 0) | (compactOk ? EDNS.CO : 0), ...slice,
                ]),
            /** Takes all records away again, and sets the flag TC (RFC 2181, 9). */
            truncate: () => push("truncate", [], () => []),
            /** Sets the header's 16 bits of flags. */
            setFlags: (bits) => view.setUint16(BUILDER.flags, whole("bits", bits, 16), true),
            /** How many octets the message has. */
            length: () => Number(view.getBigUint64(BUILDER.len, true)),
            /** Writes the header, and gives the message; it can be changed no more. */
            finish: () => {
                push("finish", [], (_, result) => [result]);
                return octets.slice(0, Number(view.getBigUint64(BUILDER.len, true)));
            },
        };
    }

    // Options in wire format (RFC 6891, 6.1.2), as a reader of their record takes them.
    #wireOptions(options) {
        if (!(options instanceof Uint8Array)) return listedOptions(options);
        try {
            [...this.optionsInData(options, { dataOffset: 0, data: options, type: OPT })];
        } catch (fault) {
            if (!(fault instanceof NameFault)) throw fault;
            throw new RangeError("the octets end inside an option", { cause: fault });
        }
        return options;
    }

    // A call on a builder: octets and state go into the module's memory, and come back.
    #build(call, octets, state, parts, values) {
        const [buffer, kept, ...slices] = this.#begin(octets, state, ...parts);
        const [result] = this.#results(1);
        this.#call("builder_" + call, undefined, ...buffer, kept[0], ...values(slices, result));
        const memory = new Uint8Array(this.#exports.memory.buffer);
        octets.set(memory.subarray(Number(buffer[0]), Number(buffer[0]) + octets.length));
        state.set(memory.subarray(Number(kept[0]), Number(kept[0]) + state.length));
    }

    /** A writer of names with compression into at most so many octets. */
    composer(capacity = 65535) {
        const octets = new Uint8Array(whole("capacity", capacity, 53)), table = new Uint16Array(MAX_TABLE);
        let length = 0, tableLength = 0;
        return {
            /** Appends a name; throws NoRoom, and changes nothing then. */
            append: (name) => {
                [length, tableLength] = this.#append(octets, length, table, tableLength, name);
            },
            /** Appends octets as they are, as a header or the fields between names; throws NoRoom, and changes nothing then. */
            appendOctets: (more) => {
                if (!(more instanceof Uint8Array)) throw new TypeError("octets are a Uint8Array");
                if (more.length > capacity - length) throw new NameFault(NO_ROOM);
                octets.set(more, length);
                length += more.length;
            },
            /** The two octets at an offset of what was composed become this number, the high one first: a count of the
             *  header, or the length of data behind it. Throws RangeError where they aren't there. */
            setUint16: (offset, number) => {
                const view = new DataView(octets.buffer, 0, length);
                view.setUint16(whole("offset", offset, 53), whole("number", number, 16));
            },
            /** What was composed. */
            octets: () => octets.slice(0, length),
        };
    }

    #append(octets, length, table, tableLength, name) {
        const [slice, buffer, offsets] = this.#begin(name, octets.length, 2 * MAX_TABLE);
        const [at, tableAt] = this.#results(2);
        const memory = new Uint8Array(this.#exports.memory.buffer);
        memory.set(octets.subarray(0, length), Number(buffer[0]));
        new Uint16Array(memory.buffer, Number(offsets[0]), MAX_TABLE).set(table);
        this.#view().setBigUint64(Number(at), BigInt(length), true);
        this.#view().setBigUint64(Number(tableAt), BigInt(tableLength), true);
        this.#call("append", undefined, ...buffer, at, offsets[0], BigInt(MAX_TABLE), tableAt, ...slice);
        octets.set(this.#octets(buffer, at));
        table.set(new Uint16Array(memory.buffer, Number(offsets[0]), MAX_TABLE));
        return [this.#size(at), this.#size(tableAt)];
    }

    // What a call puts into a buffer.
    #made(call, octets, more, capacity) {
        const [slice, room] = this.#begin(octets, capacity);
        const [length] = this.#results(1);
        this.#call(call, undefined, ...slice, ...more, ...room, length);
        return this.#octets(room, length);
    }

    #ofTwo(call, left, right) {
        const [one, other] = this.#begin(left, right);
        const [answer] = this.#results(1);
        this.#call(call, undefined, ...one, ...other, answer);
        return this.#view().getUint32(Number(answer), true);
    }

    // Lays octets, and rooms of so many, into the module's memory behind what is its own; a pair of address and length
    // for each.
    #begin(...parts) {
        const starts = [];
        let next = aligned(Number(this.#exports.__heap_base.value) + 15);
        for (const part of parts) {
            if (typeof part !== "number" && !(part instanceof Uint8Array)) throw new TypeError("octets are a Uint8Array");
            starts.push(next);
            next = aligned(next + (typeof part === "number" ? part : part.length) + 31);
        }
        this.#next = next;
        this.#grow(next + 128);
        const memory = new Uint8Array(this.#exports.memory.buffer);
        return parts.map((part, i) => {
            if (typeof part === "number") return [BigInt(starts[i]), BigInt(part)];
            memory.set(part, starts[i]);
            return [BigInt(starts[i]), BigInt(part.length)];
        });
    }

    #grow(size) {
        const missing = size - this.#exports.memory.buffer.byteLength;
        if (missing > 0) this.#exports.memory.grow(this.#pages(Math.ceil(missing / 65536)));
    }

    // Addresses for so many results, of 8 octets each.
    #results(count) {
        return Array.from({ length: count }, (_, i) => BigInt(this.#next + 8 * i));
    }

    #call(call, offset, ...values) {
        const status = this.#exports["dnsnames_" + call](...values) >>> 0;
        if (status !== 0) throw new NameFault(status, offset);
    }

    #view() {
        return new DataView(this.#exports.memory.buffer);
    }

    #size(address) {
        return Number(this.#view().getBigUint64(Number(address), true));
    }

    #number16(address) {
        return this.#view().getUint16(Number(address), true);
    }

    #octets([start], length) {
        return new Uint8Array(this.#exports.memory.buffer, Number(start), this.#size(length)).slice();
    }
}

// How many questions and records the header of a message counts in each section.
function countsOf(message) {
    if (message.length < 12) return [0, 0, 0, 0];
    const view = new DataView(message.buffer, message.byteOffset);
    return [4, 6, 8, 10].map((at) => view.getUint16(at));
}

const aligned = (address) => address - address % 16;
const sum = (numbers) => numbers.reduce((left, right) => left + right, 0);

// Where the data of a record are, and of which type.
function dataOf({ dataOffset, data, type }) {
    return [toSize("dataOffset", dataOffset), BigInt(data.length), whole("type", type, 16)];
}

// Options in wire format: of each its code and its length, of 16 bits each, and its octets.
function listedOptions(options) {
    if (typeof options?.[Symbol.iterator] !== "function") throw new TypeError("options are a list, or a Uint8Array");
    const octets = [];
    for (const option of options) {
        const { code, data } = Object(option);
        if (!(data instanceof Uint8Array)) throw new TypeError("the data of an option are a Uint8Array");
        const length = whole("length", data.length, 16);
        octets.push(whole("code", code, 16) >> 8, code & 255, length >> 8, length & 255);
        for (const octet of data) octets.push(octet);
    }
    return Uint8Array.from(octets);
}

// The labels of octets that are a name.
function labelsOf(octets) {
    const labels = [];
    for (let at = 0; at < octets.length; at += 1 + octets[at]) labels.push(octets.slice(at + 1, at + 1 + octets[at]));
    return labels;
}

// A lone surrogate is no character; as an octet that is no UTF-8 it is refused as one.
function utf8(text) {
    return isWellFormed(text) ? new TextEncoder().encode(text) : Uint8Array.of(0xff);
}

function isWellFormed(text) {
    return !/[\ud800-\udbff](?![\udc00-\udfff])|(?<![\ud800-\udbff])[\udc00-\udfff]/.test(text);
}

// The number of this name, if it is a whole one of so many bits: the module would take the lower bits of any other.
function whole(name, number, bits) {
    if (typeof number !== "number") throw new TypeError(`${name} isn't a number`);
    if (!Number.isInteger(number) || number < 0 || number >= 2 ** bits) {
        throw new RangeError(`${name} isn't a whole number from 0 to ${2 ** bits - 1}`);
    }
    return number;
}

// An offset, an index or a size: as many bits as numbers have that are exact.
function toSize(name, number) {
    return BigInt(whole(name, number, 53));
}
