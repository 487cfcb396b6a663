//! Writes a query with a client cookie (RFC 7873), as hexadecimal digits, and reads the cookie back:
//!
//! ```text
//! ask NAME TYPE COOKIE
//! ```
//!
//! TYPE is a mnemonic, as MX, and COOKIE has sixteen hexadecimal digits. A client draws a cookie at random for each
//! server, as by `openssl rand -hex 8`.

use dnsnames::{Class, EdnsOption, EdnsOptions, Fault, Header, Message, MessageBuilder, Name, Type, MAX_LEN};
use std::error::Error;

/// A program that sends it draws the identifier at random.
const ID: u16 = 0x1234;

/// The query in the octets (RFC 1035, 4.1). A client's cookie has eight octets.
fn query<'a>(octets: &'a mut [u8], name: Name<'_>, qtype: Type, cookie: &[u8; 8]) -> Result<&'a [u8], Fault> {
    let mut room = [0; 12];
    let mut builder = MessageBuilder::new(octets, ID, Header::RD)?;
    builder.question(name, qtype, Class::IN)?;
    let mut options = EdnsOptions::new(&mut room);
    options.push_cookie(cookie, b"")?;
    builder.opt(1232, 0, 0, false, options.as_slice())?;
    builder.finish()
}

fn digits(octets: &[u8]) -> String {
    octets.iter().map(|octet| format!("{octet:02x}")).collect()
}

fn main() -> Result<(), Box<dyn Error>> {
    let words: Vec<String> = std::env::args().skip(1).collect();
    let [name, qtype, cookie] = &words[..] else { return Err("usage: ask NAME TYPE COOKIE".into()) };
    let (mut octets, mut buffer) = ([0; 512], [0; MAX_LEN]);
    let name = Name::from_text(name, &mut buffer)?;
    let cookie = u64::from_str_radix(cookie, 16)?.to_be_bytes();
    let message = Message::new(query(&mut octets, name, qtype.parse()?, &cookie)?);
    println!("{}", digits(message.as_slice()));
    for record in message.records()? {
        for option in message.options_in_data(&record?) {
            let EdnsOption { code, data } = option?;
            println!("option {code}: {}", digits(data));
        }
    }
    Ok(())
}
