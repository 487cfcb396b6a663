// Writes a query with a client cookie (RFC 7873), as hexadecimal digits, and reads the cookie back, in node:
//
//     node ask.mjs MODULE NAME TYPE COOKIE
//
// TYPE is a mnemonic, as MX, and COOKIE has sixteen hexadecimal digits. A client draws a cookie at random for each server,
// as by `openssl rand -hex 8`.
import { readFileSync } from "node:fs";
import { FLAGS, load } from "../dnsnames.mjs";

// A program that sends it draws the identifier at random.
const ID = 0x1234;
const [module, text, mnemonic, digits] = process.argv.slice(2);
const dns = await load(readFileSync(module));

// The octets of the query (RFC 1035, 4.1). A client's cookie has eight octets.
function query(name, type, cookie) {
    const builder = dns.builder({ capacity: 512, id: ID, flags: FLAGS.RD });
    builder.question(name, type);
    builder.opt({ size: 1232, options: [dns.makeCookie(cookie)] });
    return builder.finish();
}

const hex = (octets) => Buffer.from(octets).toString("hex");
const message = query(dns.fromText(text), dns.numberOf("type", mnemonic), Buffer.from(digits, "hex"));
console.log(hex(message));
for (const record of dns.table(message).filter(({ section }) => section === "additional")) {
    for (const { code, data } of dns.optionsInData(message, record)) console.log(`option ${code}: ${hex(data)}`);
}
