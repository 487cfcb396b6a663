// The calls of dnsnames.mjs over the proved module, in node: test_module.mjs MODULE
//
//     node test_module.mjs dnsnames_c32.wasm
//     node --experimental-wasm-memory64 test_module.mjs dnsnames_c.wasm
import assert from "node:assert/strict";
import { readFileSync } from "node:fs";
import { DnsNames, FIELDS, FLAGS, load, NameFault, OPTIONS } from "./dnsnames.mjs";

const dns = await load(readFileSync(process.argv[2]));
const from = (text) => dns.fromText(text);
const faultOf = (call) => {
    try {
        call();
    } catch (error) {
        assert.ok(error instanceof NameFault, String(error));
        return error.fault;
    }
    return "";
};

assert.ok(dns instanceof DnsNames);

// Keys of a Map: the same for equal names, and for no others.
const hosts = new Map([[dns.key(from("www.Example.com")), 1]]);
assert.equal(hosts.get(dns.key(from("WWW.example.COM."))), 1);
assert.equal(hosts.get(dns.key(from("example.com"))), undefined);
assert.equal(dns.key(from("\\255")).charCodeAt(1), 255);

// A response: the name a, answered by a CNAME record whose data are a pointer to it, and an SOA record.
const octets = (text) => Uint8Array.from(text.match(/../g) ?? [], (digits) => parseInt(digits, 16));
const message = octets(
    "000781800001000100010000" + "016100" + "00010001" + "c00c000500010000003c0002c00c" +
    "00000600010000000000" + "1b" + "016200" + "0163c02c" + "00".repeat(20),
);
const [question, alias, authority] = [...dns.entries(message)];
assert.deepEqual([question.section, alias.section, authority.section], ["question", "answer", "authority"]);
assert.equal(dns.nameInData(message, alias).text, "a.");
assert.equal(faultOf(() => dns.nameInData(message, alias, 1)), "NoField");
assert.deepEqual([0, 1].map((index) => dns.nameInData(message, authority, index).text), ["b.", "c.b."]);
assert.equal(faultOf(() => dns.nameInData(message, authority, 2)), "NoField");

// Whether it answers, and where its aliases lead: in a ring.
const query = Uint8Array.of(...message.slice(0, 2), 1, 0, 0, 1, 0, 0, 0, 0, 0, 0, 1, 65, 0, 0, 1, 0, 1);
assert.deepEqual([dns.isAnswer(message, query), dns.isAnswer(query, message)], [true, false]);
assert.equal(faultOf(() => dns.isAnswer(message, new Uint8Array(11))), "ShortInput");
assert.equal(dns.canonicalName(message), null);
assert.equal(dns.canonicalName(query, 0).text, "A.");

// The text of the message, and of a record.
assert.equal(dns.messageText(message), [
    ";; opcode: QUERY, status: NOERROR, id: 7",
    ";; flags: qr rd ra; QUESTION: 1, ANSWER: 1, AUTHORITY: 1, ADDITIONAL: 0",
    ";; QUESTION SECTION", "a. IN A", ";; ANSWER SECTION", "a. 60 IN CNAME a.", ";; AUTHORITY SECTION",
    ". 0 IN SOA b. c.b. 0 0 0 0 0", ";; ADDITIONAL SECTION", "",
].join("\n"));
assert.equal(dns.recordText(message, alias.offset), "a. 60 IN CNAME a.");
assert.equal(faultOf(() => dns.messageText(message.slice(0, -1))), "ShortInput");
assert.throws(() => dns.messageText(message.slice(0, 12)), ({ shown }) => shown.endsWith(";; QUESTION SECTION\n"));
assert.equal(faultOf(() => dns.recordText(Uint8Array.of(128), 0)), "BadForm");

// Data that end in the name, or go on after it.
const cut = { ...alias, data: alias.data.slice(1) };
assert.equal(faultOf(() => dns.nameInData(message, cut)), "ShortInput");
const longer = { ...alias, data: message.slice(alias.dataOffset, alias.dataOffset + 3) };
assert.equal(faultOf(() => dns.nameInData(message, longer)), "TrailingData");

// Numbers, addresses, strings and options of data. The numbers are those of RFC 1035, 5.3.
const ofData = (type, data, class_ = 1, ttl = 0) => {
    const builder = dns.builder({ capacity: 200, flags: 0x8183 });
    builder.record("answer", Uint8Array.of(0), type, data, { class: class_, ttl });
    const message = builder.finish();
    return [message, dns.record(message, 12)];
};
const soa = ofData(6, octets("016100" + "016200" + "00000014" + "00001c20" + "00000258" + "0036ee80" + "0000003c"));
assert.deepEqual([0, 1, 2, 3, 4].map((index) => dns.numberInData(...soa, index)), [20, 7200, 600, 3600000, 60]);
assert.equal(faultOf(() => dns.numberInData(...soa, 5)), "NoField");
assert.equal(faultOf(() => dns.numberInData(...ofData(15, octets("000a0161")))), "ShortInput");
assert.deepEqual([...dns.addressInData(...ofData(1, octets("c0000201")))], [192, 0, 2, 1]);
assert.equal(dns.addressInData(...ofData(28, new Uint8Array(16))).length, 16);
assert.equal(faultOf(() => dns.addressInData(...ofData(28, new Uint8Array(17)))), "TrailingData");
// Fields: SRV has some in class IN alone (RFC 2782); L64 has a number of 64 bits.
const fieldsOf = (...args) => dns.fieldsInData(...ofData(...args)).map(({ kind, octets, number }) => [kind, octets.length, number]);
const srv = octets("0001" + "0002" + "0035" + "00");
assert.deepEqual(fieldsOf(33, srv), [
    [FIELDS.NUMBER16, 2, 1], [FIELDS.NUMBER16, 2, 2], [FIELDS.NUMBER16, 2, 53], [FIELDS.NAME, 1, undefined],
]);
assert.deepEqual(fieldsOf(33, srv, 3), [[FIELDS.OCTETS, 7, undefined]]);
assert.deepEqual(fieldsOf(106, octets("00010001020304050607")).at(-1), [FIELDS.NUMBER64, 8, 0x0001020304050607n]);
assert.equal(dns.fieldsInData(...soa)[2].offset, soa[1].dataOffset + 6);
assert.equal(faultOf(() => fieldsOf(257, octets("0000"))), "BadTag");
assert.equal(faultOf(() => fieldsOf(15, octets("00010000"))), "TrailingData");
const texts = [...dns.stringsInData(...ofData(16, octets("03616263" + "00" + "0164")))];
assert.deepEqual(texts.map((text) => new TextDecoder().decode(text)), ["abc", "", "d"]);
assert.equal(faultOf(() => [...dns.stringsInData(...ofData(16, new Uint8Array(0)))]), "ShortInput");
const edns = ofData(41, octets("000a00027879" + "fde90000"), 1232, 0x01028000);
assert.deepEqual(dns.opt(edns[1], dns.header(edns[0]).flags), {
    size: 1232, rcode: 19, version: 2, dnssecOk: true, compactOk: false,
});
assert.deepEqual([...dns.optionsInData(...edns)].map(({ code, data }) => [code, ...data]), [[10, 120, 121], [65001]]);
assert.equal(faultOf(() => [...dns.optionsInData(...ofData(41, octets("000a0001")))]), "ShortInput");
assert.equal(faultOf(() => dns.opt(soa[1])), "NoField");

// Types and codes; flags, as the text of a message has them.
for (const [name, bit] of Object.entries(FLAGS)) {
    const text = dns.messageText(dns.builder({ flags: bit }).finish());
    assert.equal(text.match(/;; flags: (\w+);/)[1], name.toLowerCase());
}
assert.equal(Object.values(FLAGS).reduce((left, right) => left | right), 0x87b0);
assert.deepEqual([dns.mnemonic("type", 15), dns.mnemonic("class", 4660), dns.mnemonic("rcode", 3)], ["MX", "CLASS4660", "NXDOMAIN"]);
assert.deepEqual([dns.numberOf("type", "aaaa"), dns.numberOf("type", "TYPE65280"), dns.numberOf("opcode", "UPDATE")], [28, 65280, 5]);
assert.equal(faultOf(() => dns.numberOf("type", "MXX")), "NoMnemonic");
assert.equal(faultOf(() => dns.numberOf("type", "\u00e4")), "NoMnemonic");

// A message that is built is read as what was pushed; what doesn't fit changes nothing.
const builder = dns.builder({ capacity: 60, id: 7, flags: 0x0100 });
const owner = from("www.example.com");
builder.question(owner, 1);
builder.record("answer", owner, 1, Uint8Array.of(192, 0, 2, 1), { ttl: 60 });
const length = builder.length();
assert.equal(faultOf(() => builder.record("answer", from("a.b"), 16, new Uint8Array(9))), "NoRoom");
assert.equal(builder.length(), length);
assert.equal(faultOf(() => builder.question(owner, 1)), "WrongOrder");
for (const section of ["answers", "question", "", undefined]) {
    assert.equal(faultOf(() => builder.record(section, owner, 1, new Uint8Array(0))), "NoSection");
}
builder.opt({ size: 1232, rcode: 16, dnssecOk: true });
builder.setFlags(0x8180);
const built = builder.finish();
assert.equal(faultOf(() => builder.truncate()), "NoBuilder");
assert.deepEqual(dns.header(built), { id: 7, flags: 0x8180, questions: 1, answers: 1, authority: 0, additional: 1 });
const [asked, address, opt] = [...dns.entries(built)];
assert.deepEqual([dns.readName(built, asked.offset).text, dns.readName(built, address.offset).text], ["www.example.com.", "www.example.com."]);
assert.deepEqual([address.ttl, [...address.data], opt.type, opt.class, opt.ttl], [60, [192, 0, 2, 1], 41, 1232, 0x01008000]);
assert.equal(faultOf(() => dns.builder({ capacity: 11 })), "NoRoom");

// Options are a list of codes and octets, or octets in wire format. All else is refused, and nothing is changed.
const cookie = { code: 10, data: Uint8Array.of(1, 2, 3, 4, 5, 6, 7, 8) };
const wireCookie = octets("000a0008" + "0102030405060708");
const withOptions = (options) => {
    const building = dns.builder({ capacity: 600 });
    building.opt({ options });
    const message = building.finish(), [record] = dns.table(message);
    return [...dns.optionsInData(message, record)];
};
const manyOptions = [
    cookie, { code: 65535, data: new Uint8Array(0) }, { code: 0, data: new Uint8Array(300).fill(7) },
];
assert.deepEqual(withOptions([cookie]), [cookie]);
assert.deepEqual(withOptions(manyOptions), manyOptions);
assert.deepEqual(withOptions(new Set(manyOptions)), manyOptions);
assert.deepEqual(withOptions(withOptions(manyOptions)), manyOptions);
assert.deepEqual([withOptions([]), withOptions(undefined), withOptions(new Uint8Array(0))], [[], [], []]);
assert.deepEqual(withOptions(wireCookie), [cookie]);
assert.deepEqual(withOptions(Buffer.from([0, ...wireCookie]).subarray(1)), [cookie]);
const optioned = dns.builder({ capacity: 600 });
for (let end = 1; end < wireCookie.length; end++) {
    for (const before of [[], wireCookie]) {
        const options = Uint8Array.of(...before, ...wireCookie.subarray(0, end));
        const refusal = { name: "RangeError", message: "the octets end inside an option" };
        assert.throws(() => optioned.opt({ options }), refusal);
    }
}
for (const options of [
    null, 10, {}, cookie, "ab", [10], [null], [undefined], [[10, cookie.data]], [cookie, 3], cookie.data.buffer,
    [{ code: 10 }], [{ code: 10, data: [1, 2] }], [{ code: 10, data: "8 octets" }],
    [{ data: cookie.data }], [{ code: "10", data: cookie.data }],
]) {
    assert.throws(() => optioned.opt({ options }), TypeError);
}
for (const option of [
    { code: 65536, data: cookie.data }, { code: -1, data: cookie.data }, { code: 1, data: new Uint8Array(65536) },
]) {
    assert.throws(() => optioned.opt({ options: [option] }), RangeError);
}
assert.equal(faultOf(() => optioned.opt({ options: [{ code: 1, data: new Uint8Array(65535) }] })), "NoRoom");
assert.equal(optioned.length(), 12);

// The bits DO and CO.
for (const bits of [0, 0x8000, 0x4000, 0xc000]) {
    const dnssecOk = bits >= 0x8000, compactOk = (bits & 0x4000) !== 0;
    const building = dns.builder();
    building.opt({ dnssecOk, compactOk });
    const [record] = dns.table(building.finish());
    assert.equal(record.ttl, bits);
    assert.deepEqual([dns.opt(record).dnssecOk, dns.opt(record).compactOk], [dnssecOk, compactOk]);
}

// Options by name. The cookies are those of RFC 9018, A.1, the second subnet is that of RFC 7871, 12.
const client = octets("2464c4abcf10c957"), server = octets("010000005cf79f111f8130c3eee29480");
assert.deepEqual(dns.makeCookie(client), { code: OPTIONS.COOKIE, data: client });
assert.deepEqual(dns.makeCookie(client, server), { code: 10, data: Uint8Array.of(...client, ...server) });
assert.deepEqual(dns.readCookie(dns.makeCookie(client, server)), { client, server });
assert.deepEqual(dns.readCookie(dns.makeCookie(client)), { client, server: new Uint8Array(0) });
for (const length of [1, 7, 33]) assert.equal(faultOf(() => dns.makeCookie(client, new Uint8Array(length))), "BadForm");
for (const length of [0, 7, 9]) assert.equal(faultOf(() => dns.makeCookie(new Uint8Array(length))), "BadForm");
for (let length = 0; length < 42; length++) {
    const read = () => dns.readCookie({ code: 10, data: new Uint8Array(length) });
    if (length === 8 || (length >= 16 && length <= 40)) assert.equal(read().server.length, length - 8);
    else assert.equal(faultOf(read), length < 8 ? "ShortInput" : "BadForm");
}
for (const [family, source, scope, address, data] of [
    [1, 31, 24, "c00002ff", "00011f18c00002fe"],
    [2, 56, 0, "20010db8fd13423121128a2ec37b7334", "0002380020010db8fd1342"],
    [1, 0, 0, "", "00010000"], [0, 0, 0, "", "00000000"],
]) {
    const option = dns.makeClientSubnet({ family, source, scope, address: octets(address) });
    assert.deepEqual(option, { code: OPTIONS.CLIENT_SUBNET, data: octets(data) });
    assert.deepEqual(dns.readClientSubnet(option), { family, source, scope, address: octets(data.slice(8)) });
}
for (const [family, source, length, fault] of [
    [3, 0, 4, "BadForm"], [1, 33, 16, "BadForm"], [1, 25, 3, "ShortInput"],
]) {
    const address = new Uint8Array(length);
    assert.equal(faultOf(() => dns.makeClientSubnet({ family, source, address })), fault);
}
for (const [data, fault] of [
    ["000118", "ShortInput"], ["00011800c0000200", "BadForm"], ["00011700c00001", "BadForm"],
]) {
    assert.equal(faultOf(() => dns.readClientSubnet({ code: 8, data: octets(data) })), fault);
}
assert.deepEqual(dns.makeExtendedError(22, "\u00e9"), { code: OPTIONS.EXTENDED_ERROR, data: octets("0016c3a9") });
assert.deepEqual(dns.readExtendedError(dns.makeExtendedError(65535, "\ufeffa")), { infoCode: 65535, text: "\ufeffa" });
assert.deepEqual(dns.readExtendedError({ code: 15, data: octets("0007ff") }), { infoCode: 7, text: "\ufffd" });
assert.equal(faultOf(() => dns.makeExtendedError(1, "\ud800")), "BadSymbol");
assert.equal(faultOf(() => dns.makeExtendedError(1, "a".repeat(65530))), "NoRoom");
assert.equal(faultOf(() => dns.readExtendedError({ code: 15, data: octets("00") })), "ShortInput");
for (const read of ["readCookie", "readClientSubnet", "readExtendedError"]) {
    assert.equal(dns[read]({ code: OPTIONS.NSID, data: client }), null);
}

// Names in data are compressed by the record's type: those of MX are, those of SRV aren't.
const dataOf = (type, hex) => {
    const building = dns.builder({ capacity: 200 });
    building.question(owner, 1);
    building.record("authority", from("example.com"), type, octets(hex));
    return Buffer.from(building.finish().subarray(45)).toString("hex");
};
assert.equal(dataOf(15, "000a" + "026d78" + "076578616d706c6503636f6d00"), "000a026d78c010");
assert.equal(dataOf(33, "000000000000" + "076578616d706c6503636f6d00"), "000000000000" + "076578616d706c6503636f6d00");
assert.equal(dataOf(15, "000a"), "000a");

// A number that isn't whole, or is out of its argument's range, isn't cut: it is reported by name, and nothing is changed.
const numbered = dns.builder({ capacity: 200, id: 65535, flags: 65535 }), placed = dns.composer(12);
placed.appendOctets(new Uint8Array(12));
for (const [name, bits, call] of [
    ["offset", 53, (number) => dns.readName(message, number)], ["limit", 8, (number) => dns.readName(message, 12, number)],
    ["offset", 53, (number) => dns.skipName(message, number)], ["offset", 53, (number) => dns.question(message, number)],
    ["offset", 53, (number) => dns.record(message, number)], ["offset", 53, (number) => dns.recordText(message, number)],
    ["index", 53, (number) => dns.nameInData(message, alias, number)],
    ["index", 53, (number) => dns.numberInData(message, alias, number)],
    ["dataOffset", 53, (number) => dns.nameInData(message, { ...alias, dataOffset: number })],
    ["type", 16, (number) => dns.nameInData(message, { ...alias, type: number })],
    ["type", 16, (number) => dns.numberInData(message, { ...alias, type: number })],
    ["type", 16, (number) => dns.addressInData(message, { ...alias, type: number })],
    ["type", 16, (number) => [...dns.stringsInData(message, { ...alias, type: number })]],
    ["type", 16, (number) => [...dns.optionsInData(message, { ...alias, type: number })]],
    ["type", 16, (number) => dns.opt({ ...edns[1], type: number })], ["class", 16, (number) => dns.opt({ ...edns[1], class: number })],
    ["ttl", 32, (number) => dns.opt({ ...edns[1], ttl: number })], ["flags", 16, (number) => dns.opt(edns[1], number)],
    ["limit", 16, (number) => dns.canonicalName(message, number)], ["number", 16, (number) => dns.mnemonic("type", number)],
    ["capacity", 53, (number) => dns.builder({ capacity: number })], ["id", 16, (number) => dns.builder({ id: number })],
    ["flags", 16, (number) => dns.builder({ flags: number })], ["bits", 16, (number) => numbered.setFlags(number)],
    ["type", 16, (number) => numbered.question(owner, number)], ["class", 16, (number) => numbered.question(owner, 1, number)],
    ["type", 16, (number) => numbered.record("answer", owner, number, new Uint8Array(4))],
    ["class", 16, (number) => numbered.record("answer", owner, 1, new Uint8Array(4), { class: number })],
    ["ttl", 32, (number) => numbered.record("answer", owner, 1, new Uint8Array(4), { ttl: number })],
    ["size", 16, (number) => numbered.opt({ size: number })], ["rcode", 12, (number) => numbered.opt({ rcode: number })],
    ["version", 8, (number) => numbered.opt({ version: number })],
    ["family", 16, (number) => dns.makeClientSubnet({ family: number, source: 0, address: client })],
    ["source", 8, (number) => dns.makeClientSubnet({ family: 1, source: number, address: client })],
    ["scope", 8, (number) => dns.makeClientSubnet({ family: 1, source: 0, scope: number, address: client })],
    ["infoCode", 16, (number) => dns.makeExtendedError(number)],
    ["capacity", 53, (number) => dns.composer(number)],
    ["offset", 53, (number) => placed.setUint16(number, 1)], ["number", 16, (number) => placed.setUint16(4, number)],
]) {
    const tells = (kind, number) => assert.throws(() => call(number), (error) => {
        return error instanceof kind && error.message.startsWith(`${name} isn't a `);
    }, `${name} ${String(number)}`);
    for (const number of [-1, 2 ** bits, 2 ** bits + 70000, 2 ** 64, 0.5, NaN, Infinity, -Infinity]) tells(RangeError, number);
    for (const other of ["1", null, true, 1n, {}]) tells(TypeError, other);
}
assert.throws(() => placed.appendOctets([256]), TypeError);
assert.deepEqual(placed.octets(), new Uint8Array(12));
assert.equal(numbered.length(), 12);
// The largest are written as they are; an offset past all octets is past the end.
numbered.record("answer", owner, 65535, new Uint8Array(0), { ttl: 0xffffffff, class: 65535 });
numbered.opt({ size: 65535, rcode: 4095, version: 255, dnssecOk: true });
const largest = numbered.finish(), [record, largestOpt] = dns.table(largest);
assert.deepEqual(dns.header(largest), { id: 65535, flags: 65535, questions: 0, answers: 1, authority: 0, additional: 1 });
assert.deepEqual([record.type, record.class, record.ttl], [65535, 65535, 0xffffffff]);
assert.deepEqual(dns.opt(largestOpt, 65535), {
    size: 65535, rcode: 4095, version: 255, dnssecOk: true, compactOk: false,
});
assert.deepEqual([dns.mnemonic("type", 65535), dns.canonicalName(query, 65535).text], ["TYPE65535", "A."]);
for (const past of [2 ** 32, 2 ** 32 + 12, Number.MAX_SAFE_INTEGER]) {
    assert.equal(faultOf(() => dns.readName(message, past)), "ShortInput");
    assert.equal(faultOf(() => dns.record(message, past)), "ShortInput");
}

// Strings, options and entries copy the message once, however many there are, and not at each step. What is called
// between steps, and memory that grows there, disturb nothing.
const copiesOf = (octets, call) => {
    const { set } = Uint8Array.prototype;
    let copies = 0;
    Uint8Array.prototype.set = function (source, ...more) {
        copies += source === octets ? 1 : 0;
        return set.call(this, source, ...more);
    };
    try {
        call();
    } finally {
        delete Uint8Array.prototype.set;
    }
    return copies;
};
let grown = 1 << 20;
const stepped = (steps) => {
    const found = [];
    for (const step of steps) {
        grown += 1 << 13;
        assert.equal(dns.readName(new Uint8Array(grown), grown - 1).text, ".");
        found.push(step);
    }
    return found;
};
for (const count of [1, 2, 40]) {
    const strung = ofData(16, octets("026162".repeat(count))), opted = ofData(41, octets("000a0000".repeat(count)));
    assert.equal(copiesOf(strung[0], () => assert.equal(stepped(dns.stringsInData(...strung)).length, count)), 1);
    assert.equal(copiesOf(opted[0], () => assert.equal(stepped(dns.optionsInData(...opted)).length, count)), 1);
    assert.deepEqual(stepped(dns.stringsInData(...strung)), new Array(count).fill(Uint8Array.of(97, 98)));
    assert.deepEqual(stepped(dns.optionsInData(...opted)), new Array(count).fill({ code: 10, data: new Uint8Array(0) }));
    // Questions whose names lead to themselves: the header, the table, and the entries each copy it once.
    const looped = Uint8Array.of(0, 7, 0, 0, 0, count, 0, 0, 0, 0, 0, 0, ...new Array(count).fill([192, 12, 0, 1, 0, 1]).flat());
    assert.equal(copiesOf(looped, () => assert.equal(stepped(dns.entries(looped)).length, count)), 3);
}
// A record whose owner leads to itself, behind a question that can be read, and more behind it.
const mixed = octets(
    "000780000001000200000001" + "0161000001" + "0001" + "c01300010001000000000000" + "c00c00010001000000000000" +
    "00002904d0000000000000",
);
const mixedEntries = stepped(dns.entries(mixed));
assert.deepEqual(mixedEntries.map(({ section, offset }) => [section, offset]), [
    ["question", 12], ["answer", 19], ["answer", 31], ["additional", 43],
]);
assert.deepEqual(mixedEntries.map(({ name }) => name?.length), [3, undefined, undefined, undefined]);
const { section, ...last } = mixedEntries.at(-1);
assert.deepEqual([section, last], ["additional", dns.record(mixed, 43)]);
assert.equal(copiesOf(mixed, () => stepped(dns.entries(mixed))), 3);
const ending = dns.entries(mixed.slice(0, -1));
for (const { offset } of mixedEntries.slice(0, -1)) assert.equal(ending.next().value.offset, offset);
assert.throws(() => ending.next(), ({ fault, offset }) => fault === "ShortInput" && offset === 43);
// What stands before a fault is given first.
const broken = dns.stringsInData(...ofData(16, octets("026162" + "0361")));
assert.deepEqual(broken.next().value, Uint8Array.of(97, 98));
assert.equal(faultOf(() => broken.next()), "ShortInput");
const missing = dns.entries(Uint8Array.of(0, 7, 0, 0, 0, 2, 0, 0, 0, 0, 0, 0, 192, 12, 0, 1, 0, 1, 0));
assert.deepEqual(missing.next().value, { section: "question", offset: 12, type: 1, class: 1, end: 18 });
assert.equal(faultOf(() => missing.next()), "ShortInput");

// A message that is composed by hand: a header, a CNAME record with compressed data, whose length is set behind them.
const composer = dns.composer(47);
composer.appendOctets(Uint8Array.of(0, 7, 128, 0, 0, 0, 0, 1, 0, 0, 0, 0));
composer.append(from("www.example.com"));
composer.appendOctets(Uint8Array.of(0, 5, 0, 1, 0, 0, 0, 60, 0, 0));
composer.append(from("host.EXAMPLE.com"));
assert.equal(faultOf(() => composer.appendOctets(new Uint8Array(2))), "NoRoom");
composer.setUint16(37, 7);
assert.throws(() => composer.setUint16(45, 0), RangeError);
const composed = composer.octets();
assert.deepEqual([composed.length, dns.recordText(composed, 12)], [46, "www.example.com. 60 IN CNAME host.example.com."]);

// The module of what fetch gives.
const headers = { "content-type": "application/wasm" };
const fetched = await load(Promise.resolve(new Response(readFileSync(process.argv[2]), { headers })));
assert.equal(fetched.readName(message).text, "a.");

// A table has what the calls for one name, question or record have, up to the first fault.
const oneByOne = (message) => {
    const entries = [];
    try {
        const { questions, answers, authority, additional } = dns.header(message);
        const counts = { question: questions, answer: answers, authority, additional };
        let offset = 12;
        for (const [section, count] of Object.entries(counts)) {
            for (let i = 0; i < count; i++) {
                const name = dns.readName(message, offset).octets;
                const entry = section === "question" ? dns.question(message, offset) : dns.record(message, offset);
                entries.push({ section, name, ...entry });
                offset = entry.end;
            }
        }
        return { entries, fault: "" };
    } catch (error) {
        assert.ok(error instanceof NameFault, String(error));
        return { entries, fault: error.fault };
    }
};
const tableOf = (message) => {
    try {
        return { entries: dns.table(message), fault: "" };
    } catch (error) {
        assert.ok(error instanceof NameFault, String(error));
        assert.equal(error.offset, error.entries.at(-1)?.end ?? 12);
        return { entries: error.entries, fault: error.fault };
    }
};
assert.deepEqual(dns.table(message).map(({ name }) => dns.toText(name)), ["a.", "a.", "."]);
for (let end = 0; end <= message.length; end++) {
    assert.deepEqual(tableOf(message.slice(0, end)), oneByOne(message.slice(0, end)));
    assert.equal(tableOf(message.slice(0, end)).fault, end < message.length ? "ShortInput" : "");
}
// A part of a larger buffer, as node's Buffer is one.
assert.deepEqual(dns.table(Uint8Array.of(...new Array(5).fill(255), ...message).subarray(5)), dns.table(message));
let state = 7;
const random = (below) => (state = (Math.imul(state, 1664525) + 1013904223) >>> 0, Math.floor(state / 2 ** 32 * below));
let whole = 0;
for (let i = 0; i < 5000; i++) {
    const disturbed = message.slice(0, message.length - random(2) * random(30));
    for (let k = random(4); k > 0; k--) disturbed[random(disturbed.length)] = random(256);
    const found = tableOf(disturbed);
    assert.deepEqual(found, oneByOne(disturbed));
    whole += found.fault === "" ? 1 : 0;
}
assert.ok(whole > 500 && whole < 4500, String(whole));

// Every fault of a table; entries go on where a name alone can't be read.
const counting = (counts, entries) => Uint8Array.of(0, 0, 0, 0, ...counts, ...entries);
const asking = (...name) => counting([0, 1, 0, 0, 0, 0, 0, 0], [...name, 0, 1, 0, 1]);
const label = [63, ...new Uint8Array(63).fill(97)];
for (const [octets, fault, count] of [
    [new Uint8Array(0), "ShortInput", 0], [new Uint8Array(11), "ShortInput", 0], [asking(), "ShortInput", 0],
    [asking(64), "BadLabelType", 0], [asking(192, 12), "TooManyPointers", 1], [asking(255, 255), "TooManyPointers", 1],
    [asking(...label, 192, 12), "LongName", 1], [asking(...label, ...label, ...label, ...label, 0), "LongName", 0],
]) {
    assert.deepEqual(tableOf(octets), { entries: [], fault });
    const read = [];
    assert.equal(faultOf(() => { for (const entry of dns.entries(octets)) read.push(entry); }), count === 0 ? fault : "");
    assert.deepEqual(read, count === 0 ? [] : [{ section: "question", ...dns.question(octets) }]);
}
assert.throws(() => dns.table("0".repeat(12)), TypeError);

// As many entries as have room, of a header that counts more than any message has; and each with the longest name.
const full = counting(new Uint8Array(8).fill(255), new Array(13104).fill([0, 0, 1, 0, 1]).flat());
assert.deepEqual([full.length, tableOf(full).entries.length, tableOf(full).fault], [65532, 13104, "ShortInput"]);
const longest = new Array(127).fill([1, 97]).flat();
const led = [...longest, 0, 0, 1, 0, 1, ...new Array(10877).fill([192, 12, 0, 1, 0, 1]).flat()];
const amplified = dns.table(counting([10878 >> 8, 10878 & 255, 0, 0, 0, 0, 0, 0], led));
assert.deepEqual([amplified.length, new Set(amplified.map(({ name }) => name.length))], [10878, new Set([255])]);
const longText = dns.messageText(counting([10878 >> 8, 10878 & 255, 0, 0, 0, 0, 0, 0], led));
assert.equal(longText.match(/^(a\.){127} IN A$/gm).length, 10878);
console.log("passed");
