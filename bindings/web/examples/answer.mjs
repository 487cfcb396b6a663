// Writes a response with one MX record, and reads it back, in node:
//
//     node answer.mjs MODULE
//
// The zone's name is compressed where it is repeated, in the data too, since names in those of MX may be (RFC 1035).
import { readFileSync } from "node:fs";
import { FLAGS, load } from "../dnsnames.mjs";

const dns = await load(readFileSync(process.argv[2]));
const MX = dns.numberOf("type", "MX");

// The octets of the response (RFC 1035, 4.1).
function response(zone, ttl, preference, exchange) {
    const builder = dns.builder({ capacity: 512, id: 0x1234, flags: FLAGS.QR | FLAGS.RD | FLAGS.RA });
    builder.question(zone, MX);
    builder.record("answer", zone, MX, Uint8Array.of(preference >> 8, preference & 255, ...exchange), { ttl });
    return builder.finish();
}

const message = response(dns.fromText("example.com"), 3600, 10, dns.fromText("mail.example.com"));
console.log(Buffer.from(message).toString("hex"));
for (const record of dns.table(message).filter(({ section }) => section === "answer")) {
    const type = dns.mnemonic("type", record.type), preference = dns.numberInData(message, record);
    console.log(dns.toText(record.name), record.ttl, type, preference, dns.nameInData(message, record).text);
}
