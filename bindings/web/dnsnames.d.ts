// The types of dnsnames.mjs. A module of TypeScript has them where this file lies beside that one.

/** Why something is refused: `fault` is its name, `status` the module's number, `section` the standard's, `offset` where
 *  what was asked for begins, `shown`, of a message's text, that of what stands before, and `entries`, of its table, those
 *  that do. */
export class NameFault extends Error {
    readonly name: "NameFault";
    readonly status: number;
    readonly fault: string;
    readonly section: string;
    readonly offset: number | undefined;
    readonly shown?: string;
    readonly entries?: NamedEntry[];
    constructor(status: number, offset?: number);
}

/** The flags, where they stand in the header's 16 bits. */
export const FLAGS: Readonly<Record<"QR" | "AA" | "TC" | "RD" | "RA" | "AD" | "CD", number>>;

/** A name that was read: its wire format without compression, its text with a final dot, and its labels, the root's last. */
export interface NameRead {
    octets: Uint8Array;
    text: string;
    labels: Uint8Array[];
}

export interface Header {
    id: number;
    flags: number;
    questions: number;
    answers: number;
    authority: number;
    additional: number;
}

export interface Question {
    offset: number;
    type: number;
    class: number;
    end: number;
}

export interface DnsRecord extends Question {
    ttl: number;
    dataOffset: number;
    data: Uint8Array;
}

/** What the fields of record data are. */
export const FIELDS: Readonly<Record<
    "NUMBER8" | "NUMBER16" | "NUMBER32" | "NUMBER48" | "NUMBER64" | "TTL" | "SERIAL" | "TIME" | "TYPE" | "IPV4" | "IPV6"
    | "NAME" | "CHAR_STRING" | "OPTIONAL_STRING" | "CHAR_STRINGS" | "TAG" | "QUOTED_TEXT" | "COUNTED_BASE16" |
    "COUNTED_BASE32" | "COUNTED_BASE64" | "TYPE_BITMAPS" | "OPTIONAL_TYPE_BITMAPS" | "SVC_PARAMS" | "BASE16" | "BASE64"
    | "OCTETS",
    number
>>;

/** A field of record data: `kind` is one of FIELDS, and `number` there where it is a number: of 64 bits a BigInt. */
export interface Field {
    kind: number;
    offset: number;
    octets: Uint8Array;
    number?: number | bigint;
}

/** What an OPT record says: `rcode` has twelve bits. */
export interface Opt {
    size: number;
    rcode: number;
    version: number;
    dnssecOk: boolean;
    compactOk: boolean;
}

/** An option of an OPT record. */
export interface EdnsOption {
    code: number;
    data: Uint8Array;
}

/** The codes of some options. */
export const OPTIONS: Readonly<
    Record<"NSID" | "CLIENT_SUBNET" | "COOKIE" | "TCP_KEEPALIVE" | "PADDING" | "EXTENDED_ERROR", number>
>;

/** Cookies: `client` has 8 octets, `server` 8 to 32, or none. */
export interface Cookie {
    client: Uint8Array;
    server: Uint8Array;
}

/** The subnet of a client: `source` is how many bits of the address are encoded, `scope` for how many an answer is
 *  meant. */
export interface ClientSubnet {
    family: number;
    source: number;
    scope: number;
    address: Uint8Array;
}

/** An extended error. */
export interface ExtendedError {
    infoCode: number;
    text: string;
}

/** The sections of records (RFC 1035, 4.1). */
export type Section = "answer" | "authority" | "additional";
/** A question or a record: `name` are the octets of its name, without compression, if all names so far can be read. */
export type Entry = ((Question & { section: "question" }) | (DnsRecord & { section: Section })) & { name?: Uint8Array };
export type NamedEntry = Entry & { name: Uint8Array };
export type Kind = "type" | "class" | "opcode" | "rcode";

/** A writer of names with compression. */
export interface Composer {
    append(name: Uint8Array): void;
    appendOctets(more: Uint8Array): void;
    setUint16(offset: number, number: number): void;
    octets(): Uint8Array;
}

/** A message that is built: names in data are compressed where the record's type is one of RFC 1035. */
export interface MessageBuilder {
    question(name: Uint8Array, type: number, class_?: number): void;
    record(
        section: Section,
        owner: Uint8Array,
        type: number,
        data: Uint8Array,
        options?: { ttl?: number; class?: number },
    ): void;
    opt(options?: {
        size?: number;
        rcode?: number;
        version?: number;
        dnssecOk?: boolean;
        compactOk?: boolean;
        /** Each a code and octets; octets in place of the list are options in wire format. */
        options?: Iterable<EdnsOption> | Uint8Array;
    }): void;
    truncate(): void;
    setFlags(bits: number): void;
    length(): number;
    finish(): Uint8Array;
}

/** The module made ready, of its octets or of what `fetch` gives: dnsnames_c.wasm, or dnsnames_c32.wasm where there is no
 *  64-bit memory. */
export function load(source: BufferSource | Response | PromiseLike<BufferSource | Response>): Promise<DnsNames>;

/** The calls of one module. A number that isn't whole, or is out of the range of its argument, throws RangeError. */
export class DnsNames {
    constructor(exports: WebAssembly.Exports);
    readName(message: Uint8Array, offset?: number, limit?: number): NameRead & { end: number; compressed: boolean };
    skipName(message: Uint8Array, offset?: number): number;
    checkName(octets: Uint8Array): void;
    checkRelativeName(octets: Uint8Array): void;
    fromText(text: string): Uint8Array;
    toText(name: Uint8Array, options?: { finalDot?: boolean }): string;
    lower(name: Uint8Array): Uint8Array;
    equal(left: Uint8Array, right: Uint8Array): boolean;
    compare(left: Uint8Array, right: Uint8Array): -1 | 0 | 1;
    endsWith(name: Uint8Array, suffix: Uint8Array): boolean;
    key(name: Uint8Array): string;
    labels(name: Uint8Array): Uint8Array[];
    parent(name: Uint8Array): Uint8Array;
    header(message: Uint8Array): Header;
    question(message: Uint8Array, offset?: number): Question;
    record(message: Uint8Array, offset: number): DnsRecord;
    fieldsInData(message: Uint8Array, record: DnsRecord): Field[];
    nameInData(message: Uint8Array, record: DnsRecord, index?: number): NameRead;
    numberInData(message: Uint8Array, record: DnsRecord, index?: number): number;
    addressInData(message: Uint8Array, record: DnsRecord): Uint8Array;
    stringsInData(message: Uint8Array, record: DnsRecord): Generator<Uint8Array, void, undefined>;
    opt(record: DnsRecord, flags?: number): Opt;
    optionsInData(message: Uint8Array, record: DnsRecord): Generator<EdnsOption, void, undefined>;
    makeCookie(client: Uint8Array, server?: Uint8Array): EdnsOption;
    readCookie(option: EdnsOption): Cookie | null;
    makeClientSubnet(subnet: Omit<ClientSubnet, "scope"> & { scope?: number }): EdnsOption;
    readClientSubnet(option: EdnsOption): ClientSubnet | null;
    makeExtendedError(infoCode: number, text?: string): EdnsOption;
    readExtendedError(option: EdnsOption): ExtendedError | null;
    isAnswer(message: Uint8Array, query: Uint8Array): boolean;
    canonicalName(message: Uint8Array, limit?: number): { octets: Uint8Array; text: string } | null;
    messageText(message: Uint8Array): string;
    recordText(message: Uint8Array, offset: number): string;
    entries(message: Uint8Array): Generator<Entry, void, undefined>;
    table(message: Uint8Array): NamedEntry[];
    mnemonic(kind: Kind, number: number): string;
    numberOf(kind: Kind, text: string): number;
    builder(options?: { capacity?: number; id?: number; flags?: number }): MessageBuilder;
    composer(capacity?: number): Composer;
}
