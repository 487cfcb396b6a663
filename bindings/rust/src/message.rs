//! Messages.

use crate::fault::Fault;
use crate::field::Field;
use crate::mnemonic::{Class, Opcode, Rcode, Type};
use crate::name::{read, Name, Read};
use crate::MAX_POINTERS;
use core::net::IpAddr;
use dnsnames_sys::*;

/// A message's first 12 octets (RFC 1035, 4.1.1).
#[derive(Clone, Copy, Debug, PartialEq, Eq, Default)]
pub struct Header {
    pub id: u16,
    /// The sixteen bits of flags: QR is 0x8000, RCODE the low four.
    pub flags: u16,
    pub questions: u16,
    pub answers: u16,
    pub authority: u16,
    pub additional: u16,
}

/// The flags, where they stand in the sixteen bits (RFC 1035, 4.1.1; AD and CD RFC 4035, 3.1.6 and 3.2).
///
/// ```
/// use dnsnames::{Header, Opcode, Rcode};
///
/// let header = Header { flags: Header::QR | Header::AA | 3, ..Header::default() };
/// assert!(header.has(Header::QR | Header::AA) && !header.has(Header::QR | Header::TC));
/// assert_eq!((header.opcode(), header.rcode()), (Opcode::QUERY, Rcode::NXDOMAIN));
/// ```
impl Header {
    pub const QR: u16 = DNSNAMES_FLAG_QR;
    pub const AA: u16 = DNSNAMES_FLAG_AA;
    pub const TC: u16 = DNSNAMES_FLAG_TC;
    pub const RD: u16 = DNSNAMES_FLAG_RD;
    pub const RA: u16 = DNSNAMES_FLAG_RA;
    pub const AD: u16 = DNSNAMES_FLAG_AD;
    pub const CD: u16 = DNSNAMES_FLAG_CD;

    /// Whether all of these flags are set.
    pub fn has(&self, flags: u16) -> bool {
        self.flags & flags == flags
    }

    /// The kind of query.
    pub fn opcode(&self) -> Opcode {
        Opcode(self.flags >> 11 & 15)
    }

    /// The four bits of the response code that the header has; with an OPT record there are eight more.
    pub fn rcode(&self) -> Rcode {
        Rcode(self.flags & 15)
    }
}

/// A question (RFC 1035, 4.1.2). Its name is read at its offset.
#[derive(Clone, Copy, Debug, PartialEq, Eq)]
pub struct Question {
    pub offset: usize,
    pub qtype: Type,
    pub class: Class,
    pub end: usize,
}

/// A section of records.
#[derive(Clone, Copy, Debug, PartialEq, Eq, Hash)]
pub enum Section {
    Answer,
    Authority,
    Additional,
}

/// A resource record (RFC 1035, 4.1.3). Its name is read at its offset, and those in its data
/// by [`Message::name_in_data`].
#[derive(Clone, Copy, Debug, PartialEq, Eq)]
pub struct Record<'a> {
    pub section: Section,
    pub offset: usize,
    pub rtype: Type,
    pub class: Class,
    /// In seconds.
    pub ttl: u32,
    pub data_offset: usize,
    pub data: &'a [u8],
    pub end: usize,
}

/// The octets of a DNS message (RFC 1035, 4.1). They are read when they are asked for.
///
/// ```
/// use dnsnames::{Message, Type, MAX_LEN};
///
/// let octets = b"\x12\x34\x81\x80\0\x01\0\x01\0\0\0\0\x01a\0\0\x01\0\x01\xc0\x0c\0\x05\0\x01\0\0\0\x3c\0\x02\xc0\x0c";
/// let message = Message::new(octets);
/// let mut buffer = [0; MAX_LEN];
/// for record in message.records()? {
///     let record = record?;
///     assert_eq!(message.name(record.offset, &mut buffer)?.name.to_string(), "a");
///     assert_eq!((record.rtype, record.ttl, record.data), (Type::CNAME, 60, &b"\xc0\x0c"[..]));
/// }
/// # Ok::<(), dnsnames::Fault>(())
/// ```
#[derive(Clone, Copy, Debug)]
pub struct Message<'a> {
    octets: &'a [u8],
}

impl<'a> Message<'a> {
    pub fn new(octets: &'a [u8]) -> Message<'a> {
        Message { octets }
    }

    pub fn as_slice(&self) -> &'a [u8] {
        self.octets
    }

    /// `ShortInput` where there are fewer than 12 octets.
    pub fn header(&self) -> Result<Header, Fault> {
        let mut found = dnsnames_header_fields::default();
        // SAFETY: as in `read`.
        let status = unsafe { dnsnames_header(self.octets.as_ptr(), self.octets.len(), &mut found) };
        Fault::check(status, None)?;
        let dnsnames_header_fields { id, flags, questions, answers, authority, additional } = found;
        Ok(Header { id, flags, questions, answers, authority, additional })
    }

    /// The name at an offset, as [`read`] reads it through any number of pointers.
    pub fn name<'b>(&self, offset: usize, buffer: &'b mut [u8]) -> Result<Read<'b>, Fault> {
        read(self.octets, offset, MAX_POINTERS, buffer)
    }

    /// Whether this message answers the query: a response with the query's identifier, opcode and questions.
    /// `ShortInput` where one of the two has fewer than 12 octets.
    pub fn is_answer(&self, query: &Message<'_>) -> Result<bool, Fault> {
        let mut yes = 0;
        let (ours, theirs) = (self.octets, query.octets);
        // SAFETY: as in `read`.
        let status = unsafe { dnsnames_is_answer(ours.as_ptr(), ours.len(), theirs.as_ptr(), theirs.len(), &mut yes) };
        Fault::check(status, None)?;
        Ok(yes == 1)
    }

    /// The name to which at most `limit` CNAME records of the answers lead from the first question's (RFC 1034, 3.6.2).
    /// `None` where more of them lead on, as they do in a ring, or a question is missing. `ShortInput`, `NoRoom`.
    pub fn canonical_name<'b>(&self, limit: u16, buffer: &'b mut [u8]) -> Result<Option<Name<'b>>, Fault> {
        let mut len = 0;
        let (octets, capacity) = (self.octets, buffer.len());
        // SAFETY: as in `read`.
        let status = unsafe {
            dnsnames_canonical_name(octets.as_ptr(), octets.len(), limit, buffer.as_mut_ptr(), capacity, &mut len)
        };
        if status == DNSNAMES_NO_END {
            return Ok(None);
        }
        Fault::check(status, Some(len))?;
        Name::from_slice(&buffer[..len]).map(Some)
    }

    /// The text of the message as `dig` writes it, in the buffer: two lines of its header, and for each section its
    /// heading and a line for each question or record. Data that can't be read by their type are shown as octets, and why
    /// (RFC 3597, 5). Names are as in a zone: `;` `"` `(` `)` `@` `$` have a backslash before them, too. A last line says
    /// how many octets follow the last record, if any do.
    ///
    /// `NoRoom` has how many octets it is. `ShortInput` where the message ends before all that its header counts,
    /// `BadForm` where an entry hasn't the form of one.
    pub fn text<'b>(&self, buffer: &'b mut [u8]) -> Result<&'b str, Fault> {
        let mut len = 0;
        let (octets, capacity) = (self.octets, buffer.len());
        // SAFETY: as in `read`.
        let status =
            unsafe { dnsnames_message_text(octets.as_ptr(), octets.len(), buffer.as_mut_ptr(), capacity, &mut len) };
        Fault::check(status, Some(len))?;
        ascii(&buffer[..len])
    }

    /// The line of the record at an offset, with a newline: owner, time to live, class, type and data. The faults of
    /// [`text`](Message::text).
    pub fn record_text<'b>(&self, offset: usize, buffer: &'b mut [u8]) -> Result<&'b str, Fault> {
        let mut len = 0;
        let (octets, capacity) = (self.octets, buffer.len());
        // SAFETY: as in `read`.
        let status = unsafe {
            dnsnames_record_text(octets.as_ptr(), octets.len(), offset, buffer.as_mut_ptr(), capacity, &mut len)
        };
        Fault::check(status, Some(len))?;
        ascii(&buffer[..len])
    }

    /// The question at an offset: `ShortInput`, `BadLabelType`, `LongName`. The name's pointer isn't followed.
    pub fn question(&self, offset: usize) -> Result<Question, Fault> {
        let mut found = dnsnames_question_fields::default();
        // SAFETY: as in `read`.
        let status = unsafe { dnsnames_question(self.octets.as_ptr(), self.octets.len(), offset, &mut found) };
        Fault::check(status, None)?;
        Ok(Question { offset, qtype: Type(found.r#type), class: Class(found.class_), end: found.end })
    }

    /// The record at an offset, of this section: `ShortInput`, `BadLabelType`, `LongName`. The name's pointer isn't
    /// followed.
    pub fn record(&self, section: Section, offset: usize) -> Result<Record<'a>, Fault> {
        let mut found = dnsnames_record_fields::default();
        // SAFETY: as in `read`.
        let status = unsafe { dnsnames_record(self.octets.as_ptr(), self.octets.len(), offset, &mut found) };
        Fault::check(status, None)?;
        Ok(Record {
            section,
            offset,
            rtype: Type(found.r#type),
            class: Class(found.class_),
            ttl: found.ttl,
            data_offset: found.data,
            data: &self.octets[found.data..][..found.data_len],
            end: found.end,
        })
    }

    /// The field with `index` fields before it in the data of a record of this message, by its type and class; `None`
    /// where there are no more. Data of which nothing is known are one field of octets.
    ///
    /// The data are read whole or not at all, whatever `index` is: otherwise their first error, from the left.
    /// `ShortInput` where they end inside a field or where one is due, `TrailingData` where octets follow the last one.
    /// A fault of [`read`] at a name; `BadTag`, `EmptyHash`, `WindowOrder`, `BitmapLength`, `KeyOrder`.
    ///
    /// ```
    /// use dnsnames::{FieldKind, Message};
    ///
    /// let message = Message::new(b"\0\0\x81\x80\0\0\0\x01\0\0\0\0\0\0\x0f\0\x01\0\0\0\0\0\x05\0\x0a\x01a\0");
    /// let record = message.records()?.next().unwrap()?;
    /// assert_eq!(message.field_in_data(&record, 0)?.unwrap().number, Some(10));
    /// assert_eq!(message.field_in_data(&record, 1)?.unwrap().kind, FieldKind::Name);
    /// assert_eq!(message.field_in_data(&record, 2), Ok(None));
    /// # Ok::<(), dnsnames::Fault>(())
    /// ```
    pub fn field_in_data(&self, record: &Record<'_>, index: usize) -> Result<Option<Field<'a>>, Fault> {
        let mut found = dnsnames_field::default();
        // SAFETY: as in `read`.
        let status = unsafe {
            dnsnames_data_field(
                self.octets.as_ptr(),
                self.octets.len(),
                record.data_offset,
                record.data.len(),
                record.rtype.0,
                record.class.0,
                index,
                &mut found,
            )
        };
        if status == DNSNAMES_NO_MORE {
            return Ok(None);
        }
        Fault::check(status, None)?;
        Ok(Some(Field::of(self.octets, found)))
    }

    /// The name with `index` names before it in the data of a record of this message, as of class IN; it doesn't leave
    /// them.
    ///
    /// `NoField` where data of this type have no such name, and the faults of [`Message::field_in_data`].
    ///
    /// ```
    /// use dnsnames::{Fault, Message, MAX_LEN};
    ///
    /// let message = Message::new(b"\0\0\x81\x80\0\0\0\x01\0\0\0\0\0\0\x0f\0\x01\0\0\0\0\0\x05\0\x0a\x01a\0");
    /// let mut buffer = [0; MAX_LEN];
    /// let record = message.records()?.next().unwrap()?;
    /// assert_eq!(message.name_in_data(&record, 0, &mut buffer)?.to_string(), "a");
    /// assert_eq!(message.name_in_data(&record, 1, &mut buffer), Err(Fault::NoField));
    /// # Ok::<(), Fault>(())
    /// ```
    pub fn name_in_data<'b>(&self, record: &Record<'_>, index: usize, buffer: &'b mut [u8]) -> Result<Name<'b>, Fault> {
        let mut length = 0;
        // SAFETY: as in `read`.
        let status = unsafe {
            dnsnames_data_name(
                self.octets.as_ptr(),
                self.octets.len(),
                record.data_offset,
                record.data.len(),
                record.rtype.0,
                index,
                buffer.as_mut_ptr(),
                buffer.len(),
                &mut length,
            )
        };
        Fault::check(status, Some(length))?;
        Ok(Name::of(&buffer[..length]))
    }

    /// The number of at most 32 bits with `index` such numbers before it in the data of a record of this message, as of
    /// class IN: of MX the preference, of SRV priority, weight and port, of SOA serial, refresh, retry, expire and minimum.
    /// `NoField` where data of this type have no such number, and the faults of [`Message::field_in_data`].
    ///
    /// ```
    /// use dnsnames::{Fault, Message};
    ///
    /// let message = Message::new(b"\0\0\x81\x80\0\0\0\x01\0\0\0\0\0\0\x0f\0\x01\0\0\0\0\0\x05\0\x0a\x01a\0");
    /// let record = message.records()?.next().unwrap()?;
    /// assert_eq!(message.number_in_data(&record, 0), Ok(10));
    /// assert_eq!(message.number_in_data(&record, 1), Err(Fault::NoField));
    /// # Ok::<(), Fault>(())
    /// ```
    pub fn number_in_data(&self, record: &Record<'_>, index: usize) -> Result<u32, Fault> {
        let mut value = 0;
        // SAFETY: as in `read`.
        let status = unsafe {
            dnsnames_data_number(
                self.octets.as_ptr(),
                self.octets.len(),
                record.data_offset,
                record.data.len(),
                record.rtype.0,
                index,
                &mut value,
            )
        };
        Fault::check(status, None)?;
        Ok(value)
    }

    /// The first address in the data of a record of this message, as of class IN: of A, AAAA and L32. `NoField` where data
    /// of this type have none, and the faults of [`Message::field_in_data`].
    pub fn address_in_data(&self, record: &Record<'_>) -> Result<IpAddr, Fault> {
        let (mut octets, mut length) = ([0; 16], 0);
        // SAFETY: as in `read`.
        let status = unsafe {
            dnsnames_data_address(
                self.octets.as_ptr(),
                self.octets.len(),
                record.data_offset,
                record.data.len(),
                record.rtype.0,
                octets.as_mut_ptr(),
                octets.len(),
                &mut length,
            )
        };
        Fault::check(status, Some(length))?;
        Ok(match octets {
            [a, b, c, d, ..] if length == 4 => IpAddr::from([a, b, c, d]),
            octets => IpAddr::from(octets),
        })
    }

    /// The character strings of a TXT record of this message, or one of a type like it, one after another. Its fault ends them: `NoField` where
    /// the type is another, `ShortInput` where the data have no string or end in one.
    ///
    /// ```
    /// use dnsnames::{Fault, Message};
    ///
    /// let message = Message::new(b"\0\0\x81\x80\0\0\0\x01\0\0\0\0\0\0\x10\0\x01\0\0\0\0\0\x03\x01a\0");
    /// let record = message.records()?.next().unwrap()?;
    /// assert!(message.strings_in_data(&record).eq([Ok(&b"a"[..]), Ok(b"")]));
    /// # Ok::<(), Fault>(())
    /// ```
    pub fn strings_in_data(&self, record: &Record<'a>) -> Strings<'a> {
        Strings { message: *self, record: *record, passed: Some(0) }
    }

    /// What an OPT record says, of the message whose header has these flags. `NoField` where the type is another.
    pub fn opt(&self, record: &Record<'_>, flags: u16) -> Result<Opt, Fault> {
        let mut found = dnsnames_opt_fields::default();
        // SAFETY: as in `read`.
        let status = unsafe { dnsnames_opt(record.rtype.0, record.class.0, record.ttl, flags, &mut found) };
        Fault::check(status, None)?;
        let dnsnames_opt_fields { size, rcode, version, flags, .. } = found;
        let (dnssec_ok, compact_ok) = (flags & Opt::DO != 0, flags & Opt::CO != 0);
        Ok(Opt { size, rcode: Rcode(rcode), version, dnssec_ok, compact_ok })
    }

    /// The options of an OPT record of this message, one after another. Its fault ends them: `NoField` where the type is
    /// another, `ShortInput` where the data end in an option.
    pub fn options_in_data(&self, record: &Record<'a>) -> Options<'a> {
        Options { message: *self, record: *record, passed: Some(0) }
    }

    /// The questions that the header counts, up to the first that can't be read, whose fault ends them.
    pub fn questions(&self) -> Result<Questions<'a>, Fault> {
        Ok(Questions { message: *self, offset: 12, left: self.header()?.questions })
    }

    /// The records of one section, up to the first that can't be read, whose fault ends them. The fault of an entry before
    /// the section comes at once.
    pub fn section(&self, section: Section) -> Result<Records<'a>, Fault> {
        let mut records = self.records()?;
        for before in [Section::Answer, Section::Authority].into_iter().take(section as usize) {
            for _ in 0..records.left[before as usize] {
                records.next().transpose()?;
            }
        }
        records.left[section as usize + 1..].fill(0);
        Ok(records)
    }

    /// The records of all sections, up to the first that can't be read, whose fault ends them. A question's fault comes
    /// at once.
    pub fn records(&self) -> Result<Records<'a>, Fault> {
        let header = self.header()?;
        let mut offset = 12;
        for question in self.questions()? {
            offset = question?.end;
        }
        Ok(Records { message: *self, offset, left: [header.answers, header.authority, header.additional] })
    }
}

/// What an OPT record says (RFC 6891, 6.1).
#[derive(Clone, Copy, Debug, PartialEq, Eq)]
pub struct Opt {
    /// How many octets its sender takes in a message over UDP, at least 512.
    pub size: u16,
    /// The response code of twelve bits.
    pub rcode: Rcode,
    /// The version of EDNS.
    pub version: u8,
    /// The bit DO: records of DNSSEC are taken (RFC 3225).
    pub dnssec_ok: bool,
    /// The bit CO: compact denials of existence are taken (RFC 9824).
    pub compact_ok: bool,
}

impl Opt {
    /// The bit DO, where it stands in the sixteen flags of EDNS (RFC 6891, 6.1.4).
    pub const DO: u16 = DNSNAMES_EDNS_FLAG_DO;
    /// The bit CO.
    pub const CO: u16 = DNSNAMES_EDNS_FLAG_CO;
}

/// The character strings of a record.
#[derive(Clone, Debug)]
pub struct Strings<'a> {
    message: Message<'a>,
    record: Record<'a>,
    passed: Option<usize>,
}

impl<'a> Iterator for Strings<'a> {
    type Item = Result<&'a [u8], Fault>;

    fn next(&mut self) -> Option<Result<&'a [u8], Fault>> {
        let (mut passed, mut string, mut len) = (self.passed.take()?, 0, 0);
        let octets = self.message.octets;
        // SAFETY: as in `read`.
        let status = unsafe {
            dnsnames_data_string(
                octets.as_ptr(),
                octets.len(),
                self.record.data_offset,
                self.record.data.len(),
                self.record.rtype.0,
                &mut passed,
                &mut string,
                &mut len,
            )
        };
        if status == DNSNAMES_NO_MORE {
            return None;
        }
        if let Err(fault) = Fault::check(status, None) {
            return Some(Err(fault));
        }
        self.passed = Some(passed);
        Some(Ok(&octets[string..][..len]))
    }
}

/// An option of an OPT record (RFC 6891, 6.1.2).
#[derive(Clone, Copy, Debug, PartialEq, Eq)]
pub struct EdnsOption<'a> {
    pub code: u16,
    pub data: &'a [u8],
}

impl EdnsOption<'_> {
    /// Writes options into a buffer in wire format, for [`MessageBuilder::opt`](crate::MessageBuilder::opt): of each
    /// option its code and its length, of 16 bits each, and its data.
    ///
    /// `NoRoom` has how many octets are needed. It has no number where an option has more than 65,535 octets: no
    /// message has room for it.
    pub fn write_all<'b>(options: &[EdnsOption<'_>], buffer: &'b mut [u8]) -> Result<&'b [u8], Fault> {
        let needed = options.iter().fold(0_usize, |sum, option| sum.saturating_add(4 + option.data.len()));
        let mut written = 0;
        for EdnsOption { code, data } in options {
            let size = u16::try_from(data.len()).map_err(|_| Fault::NoRoom(None))?;
            let room = buffer[written..].get_mut(..4 + data.len()).ok_or(Fault::NoRoom(Some(needed)))?;
            room[..2].copy_from_slice(&code.to_be_bytes());
            room[2..4].copy_from_slice(&size.to_be_bytes());
            room[4..].copy_from_slice(data);
            written += room.len();
        }
        Ok(&buffer[..written])
    }
}

/// The options of an OPT record.
#[derive(Clone, Debug)]
pub struct Options<'a> {
    message: Message<'a>,
    record: Record<'a>,
    passed: Option<usize>,
}

impl<'a> Iterator for Options<'a> {
    type Item = Result<EdnsOption<'a>, Fault>;

    fn next(&mut self) -> Option<Result<EdnsOption<'a>, Fault>> {
        let (mut passed, mut code, mut option, mut len) = (self.passed.take()?, 0, 0, 0);
        let octets = self.message.octets;
        // SAFETY: as in `read`.
        let status = unsafe {
            dnsnames_data_option(
                octets.as_ptr(),
                octets.len(),
                self.record.data_offset,
                self.record.data.len(),
                self.record.rtype.0,
                &mut passed,
                &mut code,
                &mut option,
                &mut len,
            )
        };
        if status == DNSNAMES_NO_MORE {
            return None;
        }
        if let Err(fault) = Fault::check(status, None) {
            return Some(Err(fault));
        }
        self.passed = Some(passed);
        Some(Ok(EdnsOption { code, data: &octets[option..][..len] }))
    }
}

/// The questions of a message.
#[derive(Clone, Debug)]
pub struct Questions<'a> {
    message: Message<'a>,
    offset: usize,
    left: u16,
}

impl Iterator for Questions<'_> {
    type Item = Result<Question, Fault>;

    fn next(&mut self) -> Option<Result<Question, Fault>> {
        self.left = self.left.checked_sub(1)?;
        let question = self.message.question(self.offset);
        match question {
            Ok(question) => self.offset = question.end,
            Err(_) => self.left = 0,
        }
        Some(question)
    }
}

/// The records of a message.
#[derive(Clone, Debug)]
pub struct Records<'a> {
    message: Message<'a>,
    offset: usize,
    left: [u16; 3],
}

impl<'a> Iterator for Records<'a> {
    type Item = Result<Record<'a>, Fault>;

    fn next(&mut self) -> Option<Result<Record<'a>, Fault>> {
        let sections = [Section::Answer, Section::Authority, Section::Additional];
        let (left, section) = self.left.iter_mut().zip(sections).find(|(left, _)| **left > 0)?;
        *left -= 1;
        let record = self.message.record(section, self.offset);
        match record {
            Ok(record) => self.offset = record.end,
            Err(_) => self.left = [0; 3],
        }
        Some(record)
    }
}

/// Octets of a caller to which names are appended with compression (RFC 1035, 4.1.4).
///
/// ```
/// use dnsnames::{Composer, Name};
///
/// let mut octets = [0; 64];
/// let mut composer = Composer::new(&mut octets);
/// composer.append(Name::from_slice(b"\x07example\x03com\x00")?)?;
/// composer.append(Name::from_slice(b"\x03www\x07EXAMPLE\x03com\x00")?)?;
/// assert_eq!(&composer.as_slice()[13..], b"\x03www\xc0\x00");
/// # Ok::<(), dnsnames::Fault>(())
/// ```
#[derive(Debug)]
pub struct Composer<'a> {
    octets: &'a mut [u8],
    len: usize,
    table: [u16; DNSNAMES_MAX_TABLE],
    table_len: usize,
}

impl<'a> Composer<'a> {
    /// Composes into these octets, from their beginning on, which is the message's.
    pub fn new(octets: &'a mut [u8]) -> Composer<'a> {
        Composer { octets, len: 0, table: [0; DNSNAMES_MAX_TABLE], table_len: 0 }
    }

    /// Appends a name: a pointer stands for it, or for its longest end, where that was appended before. `NoRoom` where
    /// the octets don't fit, and nothing is changed then.
    pub fn append(&mut self, name: Name<'_>) -> Result<(), Fault> {
        let octets = name.as_slice();
        // SAFETY: as in `read`.
        let status = unsafe {
            dnsnames_append(
                self.octets.as_mut_ptr(),
                self.octets.len(),
                &mut self.len,
                self.table.as_mut_ptr(),
                DNSNAMES_MAX_TABLE,
                &mut self.table_len,
                octets.as_ptr(),
                octets.len(),
            )
        };
        Fault::check(status, None)
    }

    /// Appends octets as they are. `NoRoom`, and nothing is changed then.
    pub fn append_octets(&mut self, octets: &[u8]) -> Result<(), Fault> {
        let room = self.octets[self.len..].get_mut(..octets.len());
        room.ok_or(Fault::NoRoom(Some(octets.len())))?.copy_from_slice(octets);
        self.len += octets.len();
        Ok(())
    }

    /// The two octets at an offset of what was composed become this number, the high one first: a count of the header,
    /// or the length of data after it. `false` where they aren't there: nothing is changed.
    pub fn set_u16(&mut self, offset: usize, number: u16) -> bool {
        match self.octets[..self.len].get_mut(offset..).and_then(|rest| rest.get_mut(..2)) {
            Some(place) => {
                place.copy_from_slice(&number.to_be_bytes());
                true
            }
            None => false,
        }
    }

    /// What was composed.
    pub fn as_slice(&self) -> &[u8] {
        &self.octets[..self.len]
    }

    /// How many octets were composed.
    pub fn len(&self) -> usize {
        self.len
    }

    /// Whether none were.
    pub fn is_empty(&self) -> bool {
        self.len == 0
    }

    /// How many octets there can be.
    pub fn capacity(&self) -> usize {
        self.octets.len()
    }

    /// Takes away what was composed, so that another message begins.
    pub fn clear(&mut self) {
        (self.len, self.table_len) = (0, 0);
    }
}

/// A text of the library, which is ASCII.
fn ascii(octets: &[u8]) -> Result<&str, Fault> {
    core::str::from_utf8(octets).map_err(|_| Fault::BadSymbol)
}
