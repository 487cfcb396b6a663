//! Building messages.

use crate::fault::Fault;
use crate::message::{Message, Opt, Record, Section};
use crate::mnemonic::{Class, Type};
use crate::name::Name;
use core::marker::PhantomData;
use dnsnames_sys::*;

/// A message that is built in octets of the caller's (RFC 1035, 4.1): questions, and then records, section by section.
///
/// Each is pushed whole, or not at all: after a fault all is as it was. Names of questions and owners of records are
/// compressed, and names in data of the types of RFC 1035. Types and classes are passed as such, or as numbers.
///
/// ```
/// use dnsnames::{Class, Message, MessageBuilder, Name, Section, Type};
///
/// let mut octets = [0; 512];
/// let mut builder = MessageBuilder::new(&mut octets, 0x1234, 0x8180)?;
/// let name = Name::from_slice(b"\x01a\x07example\0")?;
/// builder.question(name, Type::A, Class::IN)?;
/// builder.record(Section::Answer, name, 1, 1, 60, &[192, 0, 2, 1])?;
/// builder.opt(1232, 0, 0, false, &[])?;
/// let message = Message::new(builder.finish()?);
/// assert_eq!(message.records()?.map(|record| record.unwrap().rtype).collect::<Vec<_>>(), [Type::A, Type::OPT]);
/// # Ok::<(), dnsnames::Fault>(())
/// ```
#[derive(Debug)]
pub struct MessageBuilder<'a> {
    fields: dnsnames_builder,
    octets: PhantomData<&'a mut [u8]>,
}

// SAFETY: the octets that the pointer leads to are lent to the builder alone, as by a `&mut [u8]`.
unsafe impl Send for MessageBuilder<'_> {}
// SAFETY: no call reads or writes them through a shared reference.
unsafe impl Sync for MessageBuilder<'_> {}

impl<'a> MessageBuilder<'a> {
    /// Begins a message of at most these octets, and 65,535, with an identifier and the header's sixteen bits of flags.
    /// `NoRoom` below the header's twelve octets.
    pub fn new(octets: &'a mut [u8], id: u16, flags: u16) -> Result<MessageBuilder<'a>, Fault> {
        let state = dnsnames_builder_state {
            limit: 0,
            len: 0,
            id,
            flags,
            questions: 0,
            answers: 0,
            authority: 0,
            additional: 0,
            answer_start: 0,
            authority_start: 0,
            additional_start: 0,
            table_len: 0,
            table: [0; DNSNAMES_MAX_TABLE],
        };
        let mut fields = dnsnames_builder { octets: octets.as_mut_ptr(), capacity: octets.len(), state };
        // SAFETY: as in `read`.
        let status = unsafe { dnsnames_builder_start(&mut fields, octets.as_mut_ptr(), octets.len(), id, flags) };
        Fault::check(status, Some(12))?;
        Ok(MessageBuilder { fields, octets: PhantomData })
    }

    /// Pushes a question. `WrongOrder` where a record was pushed, `NoRoom`, `TooManyEntries`.
    pub fn question(&mut self, name: Name<'_>, qtype: impl Into<Type>, class: impl Into<Class>) -> Result<(), Fault> {
        let (name, Type(qtype), Class(class)) = (name.as_slice(), qtype.into(), class.into());
        // SAFETY: as in `read`.
        let status = unsafe { dnsnames_builder_question(&mut self.fields, name.as_ptr(), name.len(), qtype, class) };
        Fault::check(status, None)
    }

    /// Pushes a record into a section. A name in its data is its [`Name::as_slice`]; data that were cut out of another
    /// message may have pointers, which would lead elsewhere here. Names are compressed in data that are exactly the
    /// fields of a type of RFC 1035, 3.3: NS, MD, MF, CNAME, SOA, MB, MG, MR, PTR, MINFO, MX. All other data are
    /// written unchanged. `WrongOrder` where a later section has a record, `NoRoom`, `TooManyEntries`.
    pub fn record(
        &mut self,
        section: Section,
        owner: Name<'_>,
        rtype: impl Into<Type>,
        class: impl Into<Class>,
        ttl: u32,
        data: &[u8],
    ) -> Result<(), Fault> {
        let section = match section {
            Section::Answer => DNSNAMES_ANSWER,
            Section::Authority => DNSNAMES_AUTHORITY,
            Section::Additional => DNSNAMES_ADDITIONAL,
        };
        let (owner, Type(rtype), Class(class)) = (owner.as_slice(), rtype.into(), class.into());
        // SAFETY: as in `read`.
        let status = unsafe {
            dnsnames_builder_record(
                &mut self.fields,
                section,
                owner.as_ptr(),
                owner.len(),
                rtype,
                class,
                ttl,
                data.as_ptr(),
                data.len(),
            )
        };
        Fault::check(status, None)
    }

    /// Pushes an OPT record into the additional section (RFC 6891, 6.1). It has the number of octets of a message over
    /// UDP that are taken, the upper eight bits of a response code of twelve, the version and the bit DO. Its options
    /// are in wire format, as [`EdnsOptions`](crate::EdnsOptions) and
    /// [`EdnsOption::write_all`](crate::EdnsOption::write_all) write them. A message has one OPT record at most.
    /// `ShortInput` where the octets end inside an option, `NoRoom`, `TooManyEntries`.
    ///
    /// ```
    /// use dnsnames::{EdnsOption, Fault, MessageBuilder};
    ///
    /// let (mut octets, mut room) = ([0; 512], [0; 32]);
    /// let mut builder = MessageBuilder::new(&mut octets, 0x1234, 0x100)?;
    /// let options = EdnsOption::write_all(&[EdnsOption { code: 10, data: b"8 octets" }], &mut room)?;
    /// assert_eq!(builder.opt(1232, 0, 0, false, &options[1..]), Err(Fault::ShortInput));
    /// builder.opt(1232, 0, 0, false, options)?;
    /// assert_eq!(&builder.finish()?[21..], b"\0\x0c\0\x0a\0\x088 octets");
    /// # Ok::<(), Fault>(())
    /// ```
    pub fn opt(&mut self, size: u16, rcode_ext: u8, version: u8, dnssec_ok: bool, options: &[u8]) -> Result<(), Fault> {
        self.opt_flags(size, rcode_ext, version, if dnssec_ok { Opt::DO } else { 0 }, options)
    }

    /// The same with these flags of EDNS in place of the bit DO alone: [`Opt::DO`], [`Opt::CO`].
    pub fn opt_flags(
        &mut self,
        size: u16,
        rcode_ext: u8,
        version: u8,
        flags: u16,
        options: &[u8],
    ) -> Result<(), Fault> {
        check_options(options)?;
        // SAFETY: as in `read`.
        let status = unsafe {
            dnsnames_builder_opt_flags(
                &mut self.fields,
                size,
                rcode_ext,
                version,
                flags,
                options.as_ptr(),
                options.len(),
            )
        };
        Fault::check(status, None)
    }

    /// Takes all records away again, and sets the flag TC (RFC 2181, 9).
    pub fn truncate(&mut self) -> Result<(), Fault> {
        // SAFETY: as in `read`.
        Fault::check(unsafe { dnsnames_builder_truncate(&mut self.fields) }, None)
    }

    /// Sets the identifier.
    pub fn set_id(&mut self, id: u16) {
        self.fields.state.id = id;
    }

    /// Sets the header's sixteen bits of flags.
    pub fn set_flags(&mut self, flags: u16) {
        self.fields.state.flags = flags;
    }

    /// The header's sixteen bits of flags.
    pub fn flags(&self) -> u16 {
        self.fields.state.flags
    }

    /// Sets how many octets the message has at most: a smaller limit sets octets aside, as the eleven of an OPT record, and
    /// the old one gives them back. `NoRoom` where the message has more, or the limit is past the octets or past 65,535:
    /// nothing is changed.
    pub fn set_limit(&mut self, limit: usize) -> Result<(), Fault> {
        if limit < self.fields.state.len || limit > self.fields.capacity.min(65535) {
            return Err(Fault::NoRoom(None));
        }
        self.fields.state.limit = limit;
        Ok(())
    }

    /// How many octets the message has, with its header.
    #[allow(clippy::len_without_is_empty)]
    pub fn len(&self) -> usize {
        self.fields.state.len
    }

    /// Writes the header, and gives the message.
    pub fn finish(mut self) -> Result<&'a [u8], Fault> {
        let mut length = 0;
        // SAFETY: as in `read`.
        let status = unsafe { dnsnames_builder_finish(&mut self.fields, &mut length) };
        Fault::check(status, None)?;
        // SAFETY: the octets were lent for 'a, and the message has at most as many.
        Ok(unsafe { core::slice::from_raw_parts(self.fields.octets, length) })
    }
}

/// Refuses options that a reader of their record refuses.
fn check_options(options: &[u8]) -> Result<(), Fault> {
    let record = Record {
        section: Section::Additional,
        offset: 0,
        rtype: Type::OPT,
        class: Class(0),
        ttl: 0,
        data_offset: 0,
        data: options,
        end: options.len(),
    };
    Message::new(options).options_in_data(&record).try_for_each(|option| option.map(|_| ()))
}
