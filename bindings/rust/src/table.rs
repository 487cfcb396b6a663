//! All questions and records of a message, and their names, read in one call.

use crate::fault::Fault;
use crate::message::{Header, Message, Question, Record, Section};
use crate::mnemonic::{Class, Type};
use crate::name::Name;
use crate::MAX_POINTERS;
use core::ops::Range;
use dnsnames_sys::*;

/// No question or record has fewer octets: a root label, a type and a class.
const LEAST_ENTRY: usize = 5;

/// Room for what [`Message::table`] returns of one question or record.
#[derive(Clone, Copy, Debug, Default)]
#[repr(transparent)]
pub struct Row([u32; DNSNAMES_ROW_LEN]);

impl Row {
    /// A row in which nothing was written.
    pub const EMPTY: Row = Row([0; DNSNAMES_ROW_LEN]);

    fn size(&self, place: usize) -> usize {
        self.0[place] as usize
    }

    /// A number that has 16 bits in a message.
    fn number(&self, place: usize) -> u16 {
        self.0[place] as u16
    }

    fn end(&self) -> usize {
        self.size(DNSNAMES_ROW_END)
    }
}

/// The questions and records of a message with their names, as [`Message::table`] read them: all that the header counts,
/// or those before the first that can't be read or has no room, whose fault ends the iterators.
#[derive(Clone, Copy, Debug)]
pub struct Table<'a, 'b> {
    message: Message<'a>,
    rows: &'b [Row],
    names: &'b [u8],
    /// Before so many entries the answers, the authority and the additional section begin, as the header counts them.
    begins: [usize; 3],
    fault: Option<Fault>,
}

impl<'a> Message<'a> {
    /// More questions and records than so many can't be read: the header counts no more, or no more have room in the
    /// octets. For a message of 65,535 octets it is 13,104 at most; 0 where there is no header.
    ///
    /// So many rows, and as many times [`MAX_LEN`](crate::MAX_LEN) octets for names, are room enough for
    /// [`table`](Message::table), whatever the message.
    pub fn most_entries(&self) -> usize {
        let Ok(Header { questions, answers, authority, additional, .. }) = self.header() else { return 0 };
        let counted = [questions, answers, authority, additional].map(usize::from).iter().sum();
        ((self.as_slice().len() - 12) / LEAST_ENTRY).min(counted)
    }

    /// All questions and records that the header counts, and their names, read in one call into room of the caller's: a
    /// row for each, and octets in which the names lie without compression, one after another.
    ///
    /// The first that can't be read, or has no room, ends them: `ShortInput` (also where there is no header),
    /// `BadLabelType`, `TooManyPointers`, `LongName`, `NoRoom`. A name that can't be read ends them here, while
    /// [`questions`](Message::questions) and [`records`](Message::records), which read no name, go on.
    ///
    /// What a sender can make it cost is bounded by the room: one entry more than fits is read at most.
    ///
    /// ```
    /// use dnsnames::{Message, Row, Type, MAX_LEN};
    ///
    /// let octets = b"\x12\x34\x81\x80\0\x01\0\x01\0\0\0\0\x01a\0\0\x01\0\x01\xc0\x0c\0\x05\0\x01\0\0\0\x3c\0\x02\xc0\x0c";
    /// let message = Message::new(octets);
    /// let (mut rows, mut names) = ([Row::EMPTY; 32], [0; 32 * MAX_LEN]);
    /// let table = message.table(&mut rows, &mut names);
    /// for entry in table.questions() {
    ///     let (name, question) = entry?;
    ///     assert_eq!((name.to_string().as_str(), question.qtype), ("a", Type::A));
    /// }
    /// for entry in table.records() {
    ///     let (owner, record) = entry?;
    ///     assert_eq!((owner.to_string().as_str(), record.rtype, record.ttl), ("a", Type::CNAME, 60));
    /// }
    /// # Ok::<(), dnsnames::Fault>(())
    /// ```
    pub fn table<'b>(&self, rows: &'b mut [Row], names: &'b mut [u8]) -> Table<'a, 'b> {
        let octets = self.as_slice();
        let (mut count, mut len) = (0, 0);
        // SAFETY: as in `read`; a row is as many numbers.
        let status = unsafe {
            dnsnames_table(
                octets.as_ptr(),
                octets.len(),
                MAX_POINTERS,
                rows.as_mut_ptr().cast(),
                rows.len() * DNSNAMES_ROW_LEN,
                names.as_mut_ptr(),
                names.len(),
                &mut count,
                &mut len,
            )
        };
        // Without a header the question that can't be read is the first.
        let begins = self.header().map_or([1; 3], |header| {
            let answers = usize::from(header.questions);
            let authority = answers + usize::from(header.answers);
            [answers, authority, authority + usize::from(header.authority)]
        });
        let fault = Fault::check(status, None).err();
        Table { message: *self, rows: &rows[..count], names: &names[..len], begins, fault }
    }
}

impl<'a, 'b> Table<'a, 'b> {
    /// Why there aren't all questions and records that the header counts, where there aren't.
    pub fn fault(&self) -> Option<Fault> {
        self.fault
    }

    /// The questions and their names. A fault among them ends them.
    pub fn questions(&self) -> TableQuestions<'a, 'b> {
        let [answers, ..] = self.begins;
        let end = self.rows.len().min(answers);
        TableQuestions { table: *self, left: 0..end, fault: self.fault.filter(|_| end < answers) }
    }

    /// The records of all sections and their owners. A fault among them, or among the questions, ends them.
    pub fn records(&self) -> TableRecords<'a, 'b> {
        let end = self.rows.len();
        TableRecords { table: *self, left: end.min(self.begins[0])..end, fault: self.fault }
    }

    fn name(&self, index: usize) -> Name<'b> {
        let row = &self.rows[index];
        Name::of(&self.names[row.size(DNSNAMES_ROW_NAME)..][..row.size(DNSNAMES_ROW_NAME_LEN)])
    }

    /// Where an entry begins: at the end of the one before.
    fn offset(&self, index: usize) -> usize {
        index.checked_sub(1).map_or(12, |before| self.rows[before].end())
    }

    fn question(&self, index: usize) -> Question {
        let row = &self.rows[index];
        Question {
            offset: self.offset(index),
            qtype: Type(row.number(DNSNAMES_ROW_TYPE)),
            class: Class(row.number(DNSNAMES_ROW_CLASS)),
            end: row.end(),
        }
    }

    fn record(&self, index: usize) -> Record<'a> {
        let row = &self.rows[index];
        let data_offset = row.size(DNSNAMES_ROW_DATA);
        let [_, authority, additional] = self.begins;
        Record {
            section: match index {
                _ if index >= additional => Section::Additional,
                _ if index >= authority => Section::Authority,
                _ => Section::Answer,
            },
            offset: self.offset(index),
            rtype: Type(row.number(DNSNAMES_ROW_TYPE)),
            class: Class(row.number(DNSNAMES_ROW_CLASS)),
            ttl: row.0[DNSNAMES_ROW_TTL],
            data_offset,
            data: &self.message.as_slice()[data_offset..][..row.size(DNSNAMES_ROW_DATA_LEN)],
            end: row.end(),
        }
    }
}

/// The questions of a [`Table`].
#[derive(Clone, Debug)]
pub struct TableQuestions<'a, 'b> {
    table: Table<'a, 'b>,
    left: Range<usize>,
    fault: Option<Fault>,
}

impl<'b> Iterator for TableQuestions<'_, 'b> {
    type Item = Result<(Name<'b>, Question), Fault>;

    fn next(&mut self) -> Option<Self::Item> {
        match self.left.next() {
            Some(index) => Some(Ok((self.table.name(index), self.table.question(index)))),
            None => self.fault.take().map(Err),
        }
    }
}

/// The records of a [`Table`].
#[derive(Clone, Debug)]
pub struct TableRecords<'a, 'b> {
    table: Table<'a, 'b>,
    left: Range<usize>,
    fault: Option<Fault>,
}

impl<'a, 'b> Iterator for TableRecords<'a, 'b> {
    type Item = Result<(Name<'b>, Record<'a>), Fault>;

    fn next(&mut self) -> Option<Self::Item> {
        match self.left.next() {
            Some(index) => Some(Ok((self.table.name(index), self.table.record(index)))),
            None => self.fault.take().map(Err),
        }
    }
}
