//! The worked cases of RFC 1035 and RFC 4034, and every fault.

use dnsnames::*;
use std::collections::HashSet;

/// RFC 1035, 4.1.4: F.ISI.ARPA at 20, FOO.F.ISI.ARPA at 40, ARPA at 64, the root at 92.
fn standard() -> Vec<u8> {
    let mut octets = vec![0; 93];
    octets[20..32].copy_from_slice(b"\x01F\x03ISI\x04ARPA\x00");
    octets[40..46].copy_from_slice(b"\x03FOO\xc0\x14");
    octets[64..66].copy_from_slice(b"\xc0\x1a");
    octets
}

const RESPONSE: &[u8] = b"\x12\x34\x81\x80\0\x01\0\x02\0\0\0\x01\x03www\x07example\x03com\0\0\x01\0\x01\
    \xc0\x0c\0\x05\0\x01\0\0\x0e\x10\0\x07\x04host\xc0\x10\xc0\x2d\0\x01\0\x01\0\0\0\x3c\0\x04\xc0\0\x02\x01\
    \0\0\x29\x10\0\0\0\0\0\0\0";

fn name<'b>(text: &str, buffer: &'b mut [u8; MAX_LEN]) -> Name<'b> {
    Name::from_text(text, buffer).unwrap()
}

#[test]
fn the_standards_message() {
    let (message, mut buffer) = (standard(), [0; MAX_LEN]);
    for (offset, text, end, compressed) in
        [(20, "F.ISI.ARPA", 32, false), (40, "FOO.F.ISI.ARPA", 46, true), (64, "ARPA", 66, false), (92, ".", 93, false)]
    {
        let found = read(&message, offset, MAX_POINTERS, &mut buffer).unwrap();
        assert_eq!((found.name.to_string().as_str(), found.end, found.compressed), (text, end, compressed));
        assert_eq!(skip(&message, offset), Ok(end));
    }
    assert_eq!(read(&message, 40, 0, &mut buffer), Err(Fault::TooManyPointers));
    assert_eq!(read(&message, 40, 1, &mut buffer[..15]), Err(Fault::NoRoom(Some(16))));
    assert_eq!(read(&message, 40, 1, &mut []), Err(Fault::NoRoom(Some(16))));
    assert!(read(&message, 40, 1, &mut buffer[..16]).is_ok());
}

#[test]
fn faults_of_messages() {
    let mut buffer = [0; MAX_LEN];
    for (octets, offset, fault) in [
        (&b""[..], 0, Fault::ShortInput),
        (b"\0", 1, Fault::ShortInput),
        (b"\0", usize::MAX, Fault::ShortInput),
        (b"\x03ww", 0, Fault::ShortInput),
        (b"\x40", 0, Fault::BadLabelType),
        (b"\xbf", 0, Fault::BadLabelType),
        (b"\xc0\0", 0, Fault::TooManyPointers),
        (b"\x01a\xc0\0", 0, Fault::LongName),
    ] {
        assert_eq!(read(octets, offset, MAX_POINTERS, &mut buffer), Err(fault));
    }
    let mut longest = vec![0; 65535];
    longest[65533..].copy_from_slice(b"\xff\xff");
    assert_eq!(read(&longest, 65533, MAX_POINTERS, &mut buffer).unwrap().end, 65535);
}

#[test]
fn faults_of_octets() {
    for (octets, fault) in [
        (&b""[..], Fault::ShortInput),
        (b"\x03ww", Fault::ShortInput),
        (b"\x03www", Fault::RelativeName),
        (b"\0\0", Fault::TrailingData),
        (b"\xc0\0", Fault::CompressedName),
        (b"\x41\0", Fault::BadLabelType),
        (&[0; 256], Fault::LongName),
    ] {
        assert_eq!(Name::from_slice(octets), Err(fault));
        assert_eq!(Name::try_from(octets), Err(fault));
    }
    assert_eq!(check_relative(b"\x03www"), Ok(()));
    assert_eq!(check_relative(b""), Ok(()));
    assert_eq!(check_relative(b"\x03www\0"), Err(Fault::AbsoluteName));
}

#[test]
fn texts() {
    let mut buffer = [0; MAX_LEN];
    assert_eq!(name("a\\.b.\\007", &mut buffer).as_slice(), b"\x03a.b\x01\x07\0");
    assert_eq!(format!("{:#}", name("a\\.b.\\007", &mut buffer)), "a\\.b.\\007.");
    assert_eq!(format!("{:>6}|{:?}", name("a", &mut buffer), Name::ROOT), "     a|Name(.)");
    for (text, fault) in [
        ("", Fault::ShortInput),
        ("a\\", Fault::ShortInput),
        ("a\\25x", Fault::BadEscape),
        ("ü", Fault::BadSymbol),
        ("\\[x", Fault::BinaryLabel),
        ("a..b", Fault::EmptyLabel),
        (&"a".repeat(64), Fault::LongLabel),
        (&"a.".repeat(128), Fault::LongName),
    ] {
        assert_eq!(Name::from_text(text, &mut buffer), Err(fault));
    }
    assert_eq!(Name::from_text("a.", &mut buffer[..2]), Err(Fault::NoRoom(Some(3))));
    assert_eq!(name("www", &mut buffer).to_text(true, &mut [0; 3]), Err(Fault::NoRoom(Some(4))));
    let fault: &dyn std::error::Error = &Fault::EmptyLabel;
    assert_eq!(fault.to_string(), "empty label");
}

/// RFC 4034, 6.1.
#[test]
fn canonical_order() {
    let sorted = [
        "example",
        "a.example",
        "yljkjljk.a.example",
        "Z.a.example",
        "zABC.a.EXAMPLE",
        "z.example",
        "\\001.z.example",
        "*.z.example",
        "\\200.z.example",
    ];
    let mut buffers = [[0; MAX_LEN]; 9];
    let names: Vec<Name> = buffers.iter_mut().zip(sorted).map(|(buffer, text)| name(text, buffer)).collect();
    let mut others = names.clone();
    others.reverse();
    others.sort();
    assert_eq!(others, names);
    assert!(names.is_sorted_by(|left, right| left < right));
}

#[test]
fn equality_and_hash() {
    let mut buffers = [[0; MAX_LEN]; 3];
    let [one, two, three] = &mut buffers;
    let names = [name("www.Example.com", one), name("WWW.example.COM", two), name("com", three)];
    assert_eq!(names[0], names[1]);
    assert_eq!(names.into_iter().collect::<HashSet<_>>().len(), 2);
    assert!(names[0].ends_with(names[2]) && !names[2].ends_with(names[0]) && names[2].ends_with(Name::ROOT));
    assert_eq!(names[1].to_lowercase(&mut [0; MAX_LEN]).unwrap().as_slice(), b"\x03www\x07example\x03com\0");
}

#[test]
fn labels() {
    let name = Name::from_slice(b"\x03www\x07example\x03com\0").unwrap();
    assert_eq!(name.label_count(), 4);
    assert!(name.labels().eq([&b"www"[..], b"example", b"com", b""]));
    assert_eq!(
        (name.label(0), name.label_back(0), name.label_back(3)),
        (Some(&b"www"[..]), Some(&b""[..]), name.label(0))
    );
    assert_eq!((name.label(4), name.label(usize::MAX), name.label_back(4)), (None, None, None));
    assert_eq!(name.parent().unwrap().parent().unwrap().to_string(), "com");
    assert_eq!(Name::ROOT.parent(), None);
}

#[test]
fn entries() {
    let message = Message::new(RESPONSE);
    let header = Header { id: 0x1234, flags: 0x8180, questions: 1, answers: 2, authority: 0, additional: 1 };
    assert_eq!(message.header(), Ok(header));
    let questions: Vec<_> = message.questions().unwrap().collect();
    assert_eq!(questions, [Ok(Question { offset: 12, qtype: Type::A, class: Class::IN, end: 33 })]);
    let records: Vec<Record> = message.records().unwrap().map(Result::unwrap).collect();
    assert_eq!(records.iter().map(|record| record.rtype).collect::<Vec<_>>(), [Type::CNAME, Type::A, Type::OPT]);
    assert_eq!((records[0].class, records[2].class), (Class::IN, Class(4096)));
    assert_eq!((records[0].ttl, records[1].data, records[2].section), (3600, &[192, 0, 2, 1][..], Section::Additional));
    let mut buffer = [0; MAX_LEN];
    assert_eq!(message.name(records[0].data_offset, &mut buffer).unwrap().name.to_string(), "host.example.com");
    for (section, wanted) in
        [(Section::Answer, &records[..2]), (Section::Authority, &[]), (Section::Additional, &records[2..])]
    {
        assert!(message.section(section).unwrap().map(Result::unwrap).eq(wanted.iter().copied()));
    }
    let cut = Message::new(&RESPONSE[..RESPONSE.len() - 1]);
    assert!(cut.section(Section::Authority).unwrap().next().is_none());
    assert!(cut.section(Section::Additional).unwrap().eq([Err(Fault::ShortInput)]));
    let cut = Message::new(&RESPONSE[..60]);
    assert!(cut.section(Section::Answer).unwrap().map(Result::err).eq([None, Some(Fault::ShortInput)]));
    assert_eq!(cut.section(Section::Authority).err(), Some(Fault::ShortInput));
    for len in 0..RESPONSE.len() {
        let cut = Message::new(&RESPONSE[..len]);
        let read = cut.records().and_then(|mut records| records.try_for_each(|record| record.map(|_| ())));
        assert_eq!(read, Err(Fault::ShortInput));
    }
}

#[test]
fn composing() {
    let mut octets = [0; 40];
    let mut composer = Composer::new(&mut octets);
    let mut buffer = [0; MAX_LEN];
    composer.append_octets(&[0; 12]).unwrap();
    composer.append(name("www.example.com", &mut buffer)).unwrap();
    composer.append(name("mail.EXAMPLE.com", &mut buffer)).unwrap();
    assert_eq!(&composer.as_slice()[29..], b"\x04mail\xc0\x10");
    assert_eq!(composer.append(name("example.org", &mut buffer)), Err(Fault::NoRoom(None)));
    assert_eq!(composer.append_octets(&[0; 5]), Err(Fault::NoRoom(Some(5))));
    assert_eq!((composer.as_slice().len(), composer.len(), composer.capacity()), (36, 36, 40));
    composer.clear();
    assert!(composer.is_empty());
    composer.append(name("www.example.com", &mut buffer)).unwrap();
    composer.append(name("www.example.com", &mut buffer)).unwrap();
    assert_eq!(composer.as_slice(), b"\x03www\x07example\x03com\0\xc0\0");
    assert_eq!(Composer::new(&mut []).append(Name::ROOT), Err(Fault::NoRoom(None)));
}

#[test]
fn names_in_data() {
    let mut buffer = [0; MAX_LEN];
    let message = Message::new(RESPONSE);
    let records: Vec<Record> = message.records().unwrap().map(Result::unwrap).collect();
    let found = message.name_in_data(&records[0], 0, &mut buffer).unwrap();
    assert_eq!(found.to_string(), "host.example.com");
    assert_eq!(message.name_in_data(&records[0], 0, &mut buffer[..17]), Err(Fault::NoRoom(Some(18))));
    assert_eq!(message.name_in_data(&records[0], 1, &mut buffer), Err(Fault::NoField));
    assert_eq!(message.name_in_data(&records[1], 0, &mut buffer), Err(Fault::NoField));
    // A CNAME whose name goes on in the record behind it, and one with an octet too many.
    for (octets, fault) in [
        (&b"\0\0\x81\x80\0\0\0\x01\0\0\0\0\0\0\x05\0\x01\0\0\0\0\0\x02\x01b\0"[..], Fault::ShortInput),
        (b"\0\0\x81\x80\0\0\0\x01\0\0\0\0\0\0\x05\0\x01\0\0\0\0\0\x04\x01b\0\0", Fault::TrailingData),
        (b"\0\0\x81\x80\0\0\0\x01\0\0\0\0\0\0\x05\0\x01\0\0\0\0\0\x02\xc0\x17", Fault::TooManyPointers),
    ] {
        let message = Message::new(octets);
        let record = message.records().unwrap().next().unwrap().unwrap();
        assert_eq!(message.name_in_data(&record, 0, &mut buffer), Err(fault));
    }
}

/// What a hasher is fed.
#[derive(Default)]
struct Fed(Vec<u8>);

impl std::hash::Hasher for Fed {
    fn finish(&self) -> u64 {
        0
    }

    fn write(&mut self, octets: &[u8]) {
        self.0.extend_from_slice(octets);
    }
}

/// The hasher gets the octets in lower case and not a hash of them, so that its own key decides.
#[test]
fn what_is_hashed() {
    use std::hash::Hash;
    let mut buffer = [0; MAX_LEN];
    let mut fed = Fed::default();
    name("www.EXAMPLE.com", &mut buffer).hash(&mut fed);
    assert_eq!(fed.0, b"\x03www\x07example\x03com\0");
}

#[cfg(feature = "alloc")]
#[test]
fn names_of_their_own() {
    let names: Vec<NameBuf> = ["b.example", "A.example", "a.EXAMPLE"].map(|text| text.parse().unwrap()).into();
    assert_eq!((&names[1], names[1].as_name(), names[1].as_slice().len()), (&names[2], names[2].as_name(), 11));
    assert!(names[1] < names[0] && names[1] == names[2].as_name());
    assert_eq!(names.iter().collect::<HashSet<_>>().len(), 2);
    assert_eq!(format!("{} {:#} {:?}", names[1], names[1], names[1].clone()), "A.example A.example. Name(A.example.)");
    assert_eq!("a..b".parse::<NameBuf>(), Err(Fault::EmptyLabel));
    let owned = { names[0].as_name().parent().unwrap().to_buf() };
    assert_eq!(owned.to_string(), "example");
}

#[test]
fn patching() {
    let mut octets = [0; 5];
    let mut composer = Composer::new(&mut octets);
    composer.append_octets(b"abcd").unwrap();
    assert!(composer.set_u16(2, 0x102) && !composer.set_u16(3, 0) && !composer.set_u16(4, 0));
    assert!(!composer.set_u16(usize::MAX, 0));
    assert_eq!(composer.as_slice(), b"ab\x01\x02");
}

#[test]
fn what_a_newer_library_answers() {
    assert_eq!((Fault::Other(77).status(), Fault::NoField.status()), (77, 21));
    assert_eq!(Fault::Other(77).to_string(), "refused by the library");
}

#[test]
fn mnemonics() {
    for (text, number) in [("MX", 15), ("NSEC3PARAM", 51), ("TYPE65280", 65280)] {
        assert_eq!((text.parse(), Type(number).to_string().as_str()), (Ok(Type(number)), text));
    }
    assert_eq!((Class(255).to_string(), "any".parse::<Class>()), ("ANY".to_string(), Ok(Class(255))));
    assert_eq!((Opcode(5).to_string(), "OPCODE16".parse::<Opcode>()), ("UPDATE".to_string(), Err(Fault::NoMnemonic)));
    assert_eq!((Rcode(16).to_string(), "nxdomain".parse::<Rcode>()), ("BADVERS".to_string(), Ok(Rcode(3))));
    assert_eq!(format!("{:>5}|{:<5}|", Type(1), Class(1)), "    A|IN   |");
    assert_eq!("\u{e4}".parse::<Type>(), Err(Fault::NoMnemonic));
}

#[test]
fn names_of_numbers() {
    macro_rules! named {
        ($kind:ident: $($name:ident)+) => {
            $(assert_eq!($kind::$name.to_string(), stringify!($name));)+
        };
    }
    named!(Type: A NS CNAME SOA PTR HINFO MX TXT AAAA SRV NAPTR DNAME OPT DS SSHFP RRSIG NSEC DNSKEY NSEC3);
    named!(Type: TLSA SVCB HTTPS TSIG IXFR AXFR ANY CAA);
    named!(Class: IN CH HS NONE ANY);
    named!(Opcode: QUERY IQUERY STATUS NOTIFY UPDATE DSO);
    named!(Rcode: NOERROR FORMERR SERVFAIL NXDOMAIN NOTIMP REFUSED YXDOMAIN YXRRSET NXRRSET NOTAUTH NOTZONE);
    named!(Rcode: DSOTYPENI BADVERS BADCOOKIE);
    let flags = [Header::QR, Header::AA, Header::TC, Header::RD, Header::RA, Header::AD, Header::CD];
    assert_eq!(flags, [0x8000, 0x400, 0x200, 0x100, 0x80, 0x20, 0x10]);
    let header = Header { flags: 0xaf9b, ..Header::default() };
    assert_eq!((header.opcode(), header.rcode()), (Opcode::UPDATE, Rcode(11)));
}

#[test]
fn built() {
    let (mut octets, mut buffer, mut other) = ([0; 56], [0; MAX_LEN], [0; MAX_LEN]);
    let (owner, host) = (name("www.example.com", &mut buffer), name("host.example.com", &mut other));
    let mut builder = MessageBuilder::new(&mut octets, 7, 0x0100).unwrap();
    builder.question(owner, 1, 1).unwrap();
    builder.record(Section::Answer, owner, 5, 1, 60, b"").unwrap();
    assert_eq!(builder.question(owner, 1, 1), Err(Fault::WrongOrder));
    let len = builder.len();
    assert_eq!(builder.record(Section::Answer, host, 1, 1, 60, &[192, 0, 2, 1]), Err(Fault::NoRoom(None)));
    assert_eq!((builder.len(), builder.set_limit(57)), (len, Err(Fault::NoRoom(None))));
    builder.truncate().unwrap();
    builder.opt(1232, 0, 0, true, b"").unwrap();
    builder.set_id(9);
    builder.set_flags(builder.flags() | 0x8000);
    let message = Message::new(builder.finish().unwrap());
    let header = Header { id: 9, flags: 0x8300, questions: 1, answers: 0, authority: 0, additional: 1 };
    assert_eq!((message.header(), message.as_slice().len()), (Ok(header), 44));
    assert_eq!(message.records().unwrap().next().unwrap().unwrap().ttl, 0x8000);
    assert!(matches!(MessageBuilder::new(&mut [0; 11], 0, 0), Err(Fault::NoRoom(Some(12)))));
}

/// Types and classes are taken as such, as numbers, and as literals without a type.
#[test]
fn types_and_classes() {
    let (mut octets, name, number) = ([0; 128], Name::ROOT, 15_u16);
    let mut builder = MessageBuilder::new(&mut octets, 7, 0).unwrap();
    builder.question(name, Type::MX, Class::CH).unwrap();
    builder.question(name, number, 3_u16).unwrap();
    builder.question(name, 15, 3).unwrap();
    builder.record(Section::Answer, name, Type::MX, Class::CH, 0, b"").unwrap();
    builder.record(Section::Answer, name, 15, 3, 0, b"").unwrap();
    let message = Message::new(builder.finish().unwrap());
    let questions: Vec<_> = message.questions().unwrap().map(|it| it.map(|it| (it.qtype, it.class))).collect();
    assert_eq!(questions, [Ok((Type::MX, Class::CH)); 3]);
    let records: Vec<_> = message.records().unwrap().map(|it| it.map(|it| (it.rtype, it.class))).collect();
    assert_eq!(records, [Ok((Type::MX, Class::CH)); 2]);
    // Numbers become types and classes, and the other way around.
    assert_eq!((Type::from(15), Class::from(3), u16::from(Type::MX)), (Type::MX, Class::CH, 15));
    assert_eq!((Opcode::from(5), Rcode::from(3), u16::from(Rcode::REFUSED)), (Opcode::UPDATE, Rcode::NXDOMAIN, 5));
    assert!(matches!(Type::from(28), Type::AAAA));
}

/// The data of the OPT record that a builder pushes with these options, or why it doesn't.
fn opt_of(options: &[u8]) -> Result<Vec<u8>, Fault> {
    let mut octets = [0; 512];
    let mut builder = MessageBuilder::new(&mut octets, 7, 0)?;
    let len = builder.len();
    if let Err(fault) = builder.opt(1232, 0, 0, false, options) {
        assert_eq!(builder.len(), len);
        return Err(fault);
    }
    let message = Message::new(builder.finish()?);
    let record = record_of(message);
    message.options_in_data(&record).try_for_each(|option| option.map(|_| ()))?;
    Ok(record.data.to_vec())
}

#[test]
fn options() {
    let long = [7; 300];
    let cookie = EdnsOption { code: 10, data: b"8 octets" };
    let all = [cookie, EdnsOption { code: 0xffff, data: b"" }, EdnsOption { code: 0, data: &long }];
    let mut room = [1; 320];
    assert_eq!(EdnsOption::write_all(&[cookie], &mut room), Ok(&b"\0\x0a\0\x088 octets"[..]));
    assert_eq!(EdnsOption::write_all(&[], &mut []), Ok(&b""[..]));
    let written = EdnsOption::write_all(&all, &mut room).unwrap();
    assert_eq!(written.len(), 12 + 4 + 304);
    // What is written is read.
    let octets = of_data(41, 1232, 0, written);
    let message = Message::new(&octets);
    assert!(message.options_in_data(&record_of(message)).eq(all.map(Ok)));
    assert_eq!(opt_of(written), Ok(written.to_vec()));
    for end in 0..written.len() {
        let wanted = if [0, 12, 16].contains(&end) { Ok(written[..end].to_vec()) } else { Err(Fault::ShortInput) };
        assert_eq!(opt_of(&written[..end]), wanted);
    }
    for capacity in 0..320 {
        assert_eq!(EdnsOption::write_all(&all, &mut vec![0; capacity]), Err(Fault::NoRoom(Some(320))));
    }
    let (longest, longer) = (vec![0; 65535], vec![0; 65536]);
    let mut room = vec![0; 70000];
    let written = EdnsOption::write_all(&[EdnsOption { code: 1, data: &longest }], &mut room).unwrap();
    assert_eq!((written.len(), opt_of(written)), (65539, Err(Fault::NoRoom(None))));
    let longer = EdnsOption { code: 1, data: &longer };
    assert_eq!(EdnsOption::write_all(&[cookie, longer], &mut room), Err(Fault::NoRoom(None)));
}

#[test]
fn built_data() {
    let data_of = |rtype: u16, data: &[u8]| {
        let (mut octets, mut buffer, mut other) = ([0; 512], [0; MAX_LEN], [0; MAX_LEN]);
        let (asked, owner) = (name("www.example.com", &mut buffer), name("example.com", &mut other));
        let mut builder = MessageBuilder::new(&mut octets, 7, 0).unwrap();
        builder.question(asked, 1, 1).unwrap();
        builder.record(Section::Authority, owner, rtype, 1, 0, data).unwrap();
        builder.finish().unwrap()[45..].to_vec()
    };
    // MX is a type of RFC 1035; SRV is newer; and data that aren't the fields of MX stay.
    assert_eq!(data_of(15, b"\0\x0a\x02mx\x07example\x03com\0"), b"\0\x0a\x02mx\xc0\x10");
    for (rtype, data) in [(33, &b"\0\0\0\0\0\0\x07example\x03com\0"[..]), (15, b""), (15, b"\0\x0a\x02mx\xc0\x10")] {
        assert_eq!(data_of(rtype, data), data);
    }
}

/// A message of one record: of the root, of class IN, with this type, TTL and data.
fn of_data(rtype: u16, class: u16, ttl: u32, data: &[u8]) -> Vec<u8> {
    let mut octets = b"\0\0\x81\x83\0\0\0\x01\0\0\0\0\0".to_vec();
    octets.extend(rtype.to_be_bytes());
    octets.extend(class.to_be_bytes());
    octets.extend(ttl.to_be_bytes());
    octets.extend((data.len() as u16).to_be_bytes());
    octets.extend(data);
    octets
}

fn record_of(message: Message<'_>) -> Record<'_> {
    message.records().unwrap().next().unwrap().unwrap()
}

#[test]
fn fields_in_data() {
    // SRV of class IN, and of class CH, of which it has no fields (RFC 2782).
    let srv = of_data(33, 1, 0, b"\0\x01\0\x02\0\x35\0");
    let message = Message::new(&srv);
    let record = record_of(message);
    let field = |index| message.field_in_data(&record, index).unwrap().unwrap();
    assert_eq!([0, 1, 2, 3].map(|index| field(index).number), [Some(1), Some(2), Some(53), None]);
    assert_eq!([2, 3].map(|index| field(index).kind), [FieldKind::Number16, FieldKind::Name]);
    assert_eq!((field(3).offset, field(3).octets), (srv.len() - 1, &b"\0"[..]));
    assert_eq!(message.field_in_data(&record, 4), Ok(None));
    let other = message.field_in_data(&Record { class: Class::CH, ..record }, 0);
    assert_eq!(other.unwrap().unwrap().kind, FieldKind::Octets);
    let cut = Record { data: &record.data[..6], ..record };
    assert_eq!(message.field_in_data(&cut, 0), Err(Fault::ShortInput));
}

/// Each fault of data that no name has.
#[test]
fn faults_of_data() {
    for (rtype, data, fault) in [
        (257, &b"\0\0"[..], Fault::BadTag),
        (50, b"\x01\0\0\x0c\0\0", Fault::EmptyHash),
        (47, b"\0\x01\x01\x40\0\x01\x40", Fault::WindowOrder),
        (47, b"\0\0\0", Fault::BitmapLength),
        (65, b"\0\x01\0\0\x03\0\0\0\x01\0\0", Fault::KeyOrder),
        (15, b"\0\x01\0\0", Fault::TrailingData),
    ] {
        let octets = of_data(rtype, 1, 0, data);
        let message = Message::new(&octets);
        assert_eq!(message.field_in_data(&record_of(message), 0), Err(fault));
    }
}

#[test]
fn numbers_in_data() {
    // The record of RFC 1035, 5.3.
    let soa = of_data(6, 1, 0, b"\x01a\0\x01b\0\0\0\0\x14\0\0\x1c\x20\0\0\x02\x58\0\x36\xee\x80\0\0\0\x3c");
    let message = Message::new(&soa);
    let record = record_of(message);
    let numbers = (0..5).map(|index| message.number_in_data(&record, index).unwrap());
    assert_eq!(numbers.collect::<Vec<_>>(), [20, 7200, 600, 3600000, 60]);
    assert_eq!(message.number_in_data(&record, 5), Err(Fault::NoField));
    let cut = Record { data: &record.data[1..], ..record };
    assert_eq!(message.number_in_data(&cut, 0), Err(Fault::ShortInput));
    let srv = of_data(33, 1, 0, b"\0\x01\xff\xfe\0\x35\x01a\0");
    let message = Message::new(&srv);
    let record = record_of(message);
    assert_eq!([0, 1, 2].map(|index| message.number_in_data(&record, index).unwrap()), [1, 65534, 53]);
    assert_eq!(message.number_in_data(&Record { rtype: Type::PTR, ..record }, 0), Err(Fault::NoField));
}

#[test]
fn addresses_in_data() {
    let octets = of_data(28, 1, 0, b"\x20\x01\x0d\xb8\0\0\0\0\0\0\0\0\0\0\0\x01");
    let message = Message::new(&octets);
    let record = record_of(message);
    assert_eq!(message.address_in_data(&record), Ok("2001:db8::1".parse().unwrap()));
    assert_eq!(message.address_in_data(&Record { rtype: Type::A, ..record }), Err(Fault::TrailingData));
    assert_eq!(message.address_in_data(&Record { rtype: Type::NS, ..record }), Err(Fault::NoField));
    let short = Record { data: &record.data[..15], ..record };
    assert_eq!(message.address_in_data(&short), Err(Fault::ShortInput));
    let four = Record { rtype: Type::A, data: &record.data[..4], ..record };
    assert_eq!(message.address_in_data(&four), Ok("32.1.13.184".parse().unwrap()));
}

#[test]
fn strings_and_options() {
    let octets = of_data(16, 1, 0, b"\x03abc\0\x01d");
    let message = Message::new(&octets);
    let record = record_of(message);
    assert!(message.strings_in_data(&record).eq([Ok(&b"abc"[..]), Ok(b""), Ok(b"d")]));
    let cut = Record { data: &record.data[..6], ..record };
    assert!(message.strings_in_data(&cut).eq([Ok(&b"abc"[..]), Ok(b""), Err(Fault::ShortInput)]));
    assert!(message.strings_in_data(&Record { data: b"", ..record }).eq([Err(Fault::ShortInput)]));
    assert!(message.options_in_data(&record).eq([Err(Fault::NoField)]));
    assert_eq!(message.opt(&record, 0), Err(Fault::NoField));

    let octets = of_data(41, 1232, 0x0102_8000, b"\0\x0a\0\x02xy\xfd\xe9\0\0");
    let message = Message::new(&octets);
    let record = record_of(message);
    let flags = message.header().unwrap().flags;
    assert_eq!(
        message.opt(&record, flags),
        Ok(Opt { size: 1232, rcode: Rcode(19), version: 2, dnssec_ok: true, compact_ok: false })
    );
    let (first, last) = (EdnsOption { code: 10, data: b"xy" }, EdnsOption { code: 65001, data: b"" });
    assert!(message.options_in_data(&record).eq([Ok(first), Ok(last)]));
    let cut = Record { data: &record.data[..9], ..record };
    assert!(message.options_in_data(&cut).eq([Ok(first), Err(Fault::ShortInput)]));
    assert!(message.strings_in_data(&record).eq([Err(Fault::NoField)]));
}

#[test]
fn answers_and_aliases() {
    let query = b"\x12\x34\x01\0\0\x01\0\0\0\0\0\0\x01A\0\0\x01\0\x01";
    let ring = b"\x12\x34\x81\x80\0\x01\0\x01\0\0\0\0\x01a\0\0\x01\0\x01\xc0\x0c\0\x05\0\x01\0\0\0\x3c\0\x02\xc0\x0c";
    let led = b"\x12\x34\x81\x80\0\x01\0\x01\0\0\0\0\x01a\0\0\x01\0\x01\xc0\x0c\0\x05\0\x01\0\0\0\x3c\0\x03\x01b\0";
    let (query, ring, led) = (Message::new(query), Message::new(ring), Message::new(led));
    assert_eq!((led.is_answer(&query), query.is_answer(&led)), (Ok(true), Ok(false)));
    assert_eq!(led.is_answer(&Message::new(b"")), Err(Fault::ShortInput));
    let mut buffer = [0; MAX_LEN];
    assert_eq!(led.canonical_name(1, &mut buffer).unwrap().unwrap().to_string(), "b");
    assert_eq!(query.canonical_name(0, &mut buffer).unwrap().unwrap().to_string(), "A");
    assert_eq!((led.canonical_name(0, &mut buffer), ring.canonical_name(16, &mut [0; 1])), (Ok(None), Ok(None)));
    assert_eq!(led.canonical_name(1, &mut [0; 2]), Err(Fault::NoRoom(Some(3))));
}

#[test]
fn texts_of_messages() {
    let octets = b"\x12\x34\x81\x80\0\x01\0\x01\0\0\0\0\x01a\0\0\x01\0\x01\xc0\x0c\0\x05\0\x01\0\0\0\x3c\0\x02\xc0\x0c";
    let message = Message::new(octets);
    let mut buffer = [0; 512];
    let text = message.text(&mut buffer).unwrap();
    assert!(text.starts_with(";; opcode: QUERY, status: NOERROR, id: 4660\n;; flags: qr rd ra;"));
    assert!(text.ends_with(";; ANSWER SECTION\na. 60 IN CNAME a.\n;; AUTHORITY SECTION\n;; ADDITIONAL SECTION\n"));
    let len = text.len();
    assert_eq!(message.text(&mut [0; 40]), Err(Fault::NoRoom(Some(len))));
    assert_eq!(message.record_text(19, &mut buffer), Ok("a. 60 IN CNAME a.\n"));
    assert_eq!(message.record_text(octets.len(), &mut buffer), Err(Fault::ShortInput));
    assert_eq!(Message::new(b"\x80").record_text(0, &mut buffer), Err(Fault::BadForm));
    assert_eq!(Message::new(&octets[..30]).text(&mut buffer), Err(Fault::ShortInput));
}
