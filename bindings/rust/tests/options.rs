//! EDNS options by name, and the bits DO and CO. The octets are those of the standards' own examples where they have one.

use dnsnames::*;
use std::net::IpAddr;

/// RFC 9018, A.1.
const CLIENT: [u8; 8] = *b"\x24\x64\xc4\xab\xcf\x10\xc9\x57";
const SERVER: &[u8] = b"\x01\0\0\0\x5c\xf7\x9f\x11\x1f\x81\x30\xc3\xee\xe2\x94\x80";

/// The option that a call writes, and what is written where there is an octet too few: nothing.
fn written(write: impl Fn(&mut EdnsOptions<'_>) -> Result<(), Fault>) -> Result<Vec<u8>, Fault> {
    let mut room = [0; 64];
    let mut options = EdnsOptions::new(&mut room);
    options.push(EdnsOptions::NSID, b"")?;
    write(&mut options)?;
    let octets = options.as_slice()[4..].to_vec();
    let mut short = vec![0; octets.len() - 1];
    let mut options = EdnsOptions::new(&mut short);
    assert_eq!((write(&mut options), options.as_slice()), (Err(Fault::NoRoom(None)), &b""[..]));
    Ok(octets)
}

/// What the data of an option of this code are.
fn option(code: u16, octets: &[u8]) -> EdnsOption<'_> {
    EdnsOption { code, data: octets }
}

#[test]
fn cookies() {
    for len in 0..=33 {
        let server = &[SERVER, SERVER, SERVER].concat()[..len];
        let wanted = [&[0, 10, 0, 8 + len as u8][..], &CLIENT, server].concat();
        let is_length = len == 0 || (8..=32).contains(&len);
        let told = written(|options| options.push_cookie(&CLIENT, server));
        assert_eq!(told, if is_length { Ok(wanted.clone()) } else { Err(Fault::BadForm) });
        let read = option(EdnsOptions::COOKIE, &wanted[4..]).cookie();
        assert_eq!(read, if is_length { Ok(Some(Cookie { client: &CLIENT, server })) } else { Err(Fault::BadForm) });
    }
    for len in 0..8 {
        assert_eq!(option(EdnsOptions::COOKIE, &CLIENT[..len]).cookie(), Err(Fault::ShortInput));
    }
    assert_eq!(option(EdnsOptions::NSID, &CLIENT).cookie(), Ok(None));
}

#[test]
fn subnets() {
    // The second is of RFC 7871, 12.
    for (address, source, scope, octets) in [
        ("192.0.2.255", 31, 24, &b"\0\x08\0\x08\0\x01\x1f\x18\xc0\0\x02\xfe"[..]),
        ("2001:db8:fd13:4231:2112:8a2e:c37b:7334", 56, 0, b"\0\x08\0\x0b\0\x02\x38\0\x20\x01\x0d\xb8\xfd\x13\x42"),
        ("0.0.0.0", 0, 0, b"\0\x08\0\x04\0\x01\0\0"),
    ] {
        let ip: IpAddr = address.parse().unwrap();
        assert_eq!(written(|options| options.push_client_subnet(ip, source, scope)), Ok(octets.to_vec()));
        let read = option(EdnsOptions::CLIENT_SUBNET, &octets[4..]).client_subnet().unwrap().unwrap();
        assert_eq!((read.source_prefix_len, read.scope_prefix_len, read.address), (source, scope, &octets[8..]));
        assert_eq!(read.ip().unwrap().is_ipv4(), ip.is_ipv4());
    }
    let ip = IpAddr::from([192, 0, 2, 0]);
    assert_eq!(written(|options| options.push_client_subnet(ip, 33, 0)), Err(Fault::BadForm));
    for (octets, told) in [
        (&b"\0\x01\x18"[..], Fault::ShortInput),
        (b"\0\x01\x18\0\xc0\0", Fault::ShortInput),
        (b"\0\x01\x18\0\xc0\0\x02\0", Fault::BadForm),
        (b"\0\x01\x17\0\xc0\0\x01", Fault::BadForm),
        (b"\0\x03\0\0", Fault::BadForm),
    ] {
        assert_eq!(option(EdnsOptions::CLIENT_SUBNET, octets).client_subnet(), Err(told));
    }
    assert_eq!(option(EdnsOptions::CLIENT_SUBNET, &[0; 4]).client_subnet().unwrap().unwrap().ip(), None);
    let long = ClientSubnet { family: 2, source_prefix_len: 0, scope_prefix_len: 0, address: &[1; 20] };
    assert_eq!(long.ip(), Some(IpAddr::from([1; 16])));
}

#[test]
fn errors() {
    let octets = b"\0\x0f\0\x04\0\x16\xc3\xa9";
    assert_eq!(written(|options| options.push_extended_error(22, "\u{e9}")), Ok(octets.to_vec()));
    let read = option(EdnsOptions::EXTENDED_ERROR, &octets[4..]).extended_error();
    assert_eq!(read, Ok(Some(ExtendedError { info_code: 22, text: b"\xc3\xa9" })));
    assert_eq!(option(EdnsOptions::EXTENDED_ERROR, b"\0").extended_error(), Err(Fault::ShortInput));
    assert_eq!(option(EdnsOptions::PADDING, b"\0").extended_error(), Ok(None));
}

#[test]
fn bits() {
    for flags in [0, Opt::DO, Opt::CO, Opt::DO | Opt::CO, 0x3fff] {
        let mut octets = [0; 64];
        let mut builder = MessageBuilder::new(&mut octets, 1, 0).unwrap();
        builder.opt_flags(1232, 1, 2, flags, &[]).unwrap();
        let message = Message::new(builder.finish().unwrap());
        let record = message.records().unwrap().next().unwrap().unwrap();
        assert_eq!(record.ttl, 0x0102_0000 | u32::from(flags));
        let opt = message.opt(&record, 0).unwrap();
        assert_eq!((opt.dnssec_ok, opt.compact_ok), (flags & Opt::DO != 0, flags & Opt::CO != 0));
    }
}
