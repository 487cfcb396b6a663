//! Writes a response with one MX record, and reads it back.
//!
//! The zone's name is compressed where it is repeated, in the data too, since names in those of MX may be (RFC 1035).

use dnsnames::{Class, Fault, Header, Message, MessageBuilder, Name, Row, Section, Type, MAX_LEN};

const FLAGS: u16 = Header::QR | Header::RD | Header::RA;

/// The response in the octets (RFC 1035, 4.1).
fn response<'a>(octets: &'a mut [u8], zone: Name<'_>, ttl: u32, exchange: Name<'_>) -> Result<&'a [u8], Fault> {
    let mut builder = MessageBuilder::new(octets, 0x1234, FLAGS)?;
    builder.question(zone, Type::MX, Class::IN)?;
    let data = [&[0, 10], exchange.as_slice()].concat();
    builder.record(Section::Answer, zone, Type::MX, Class::IN, ttl, &data)?;
    builder.finish()
}

fn main() -> Result<(), Fault> {
    let (mut octets, mut buffer, mut other) = ([0; 512], [0; MAX_LEN], [0; MAX_LEN]);
    let zone = Name::from_text("example.com", &mut buffer)?;
    let exchange = Name::from_text("mail.example.com", &mut other)?;
    let message = Message::new(response(&mut octets, zone, 3600, exchange)?);
    println!("{}", message.as_slice().iter().map(|octet| format!("{octet:02x}")).collect::<String>());
    let (mut rows, mut names) = ([Row::EMPTY; 8], [0; 8 * MAX_LEN]);
    for entry in message.table(&mut rows, &mut names).records() {
        let (owner, record) = entry?;
        let (ttl, preference) = (record.ttl, message.number_in_data(&record, 0)?);
        let exchange = message.name_in_data(&record, 0, &mut buffer)?;
        println!("{owner:#} {ttl} {} {preference} {exchange:#}", record.rtype);
    }
    Ok(())
}
