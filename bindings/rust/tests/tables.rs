//! Tables of messages: beside the calls for one name, question or record, with too little room, and of hostile messages.

use dnsnames::*;

/// A question and three records.
const RESPONSE: &[u8] = b"\x12\x34\x81\x80\0\x01\0\x02\0\0\0\x01\x03www\x07example\x03com\0\0\x01\0\x01\
    \xc0\x0c\0\x05\0\x01\0\0\x0e\x10\0\x07\x04host\xc0\x10\xc0\x2d\0\x01\0\x01\0\0\0\x3c\0\x04\xc0\0\x02\x01\
    \0\0\x29\x10\0\0\0\0\0\0\0";
/// Where their names end, one after another.
const NAME_ENDS: [usize; 4] = [17, 34, 52, 53];

/// The entries of a message up to the first fault, each with its name in wire format.
#[derive(Debug, Default, PartialEq)]
struct Entries<'a> {
    questions: Vec<(Vec<u8>, Question)>,
    records: Vec<(Vec<u8>, Record<'a>)>,
    fault: Option<Fault>,
}

impl<'a> Entries<'a> {
    fn of_table(table: &Table<'a, '_>) -> Entries<'a> {
        let questions = table.questions().map_while(Result::ok).map(|(name, it)| (name.as_slice().to_vec(), it));
        let records = table.records().map_while(Result::ok).map(|(owner, it)| (owner.as_slice().to_vec(), it));
        Entries { questions: questions.collect(), records: records.collect(), fault: table.fault() }
    }

    fn of_calls(message: Message<'a>) -> Entries<'a> {
        let mut entries = Entries::default();
        entries.fault = entries.read(message).err();
        entries
    }

    fn read(&mut self, message: Message<'a>) -> Result<(), Fault> {
        let (header, mut offset, mut buffer) = (message.header()?, 12, [0; MAX_LEN]);
        for _ in 0..header.questions {
            let name = message.name(offset, &mut buffer)?.name;
            let question = message.question(offset)?;
            self.questions.push((name.as_slice().to_vec(), question));
            offset = question.end;
        }
        let sections = [Section::Answer, Section::Authority, Section::Additional];
        for (section, count) in sections.into_iter().zip([header.answers, header.authority, header.additional]) {
            for _ in 0..count {
                let owner = message.name(offset, &mut buffer)?.name;
                let record = message.record(section, offset)?;
                self.records.push((owner.as_slice().to_vec(), record));
                offset = record.end;
            }
        }
        Ok(())
    }

    fn len(&self) -> usize {
        self.questions.len() + self.records.len()
    }
}

/// The entries of a message's table, with room for this many rows and octets of names.
fn with_room(octets: &[u8], rows: usize, names: usize) -> Entries<'_> {
    let (mut rows, mut names) = (vec![Row::EMPTY; rows], vec![0; names]);
    Entries::of_table(&Message::new(octets).table(&mut rows, &mut names))
}

/// The same with the room that is always enough.
fn with_most_room(octets: &[u8]) -> Entries<'_> {
    let most = Message::new(octets).most_entries();
    with_room(octets, most, most * MAX_LEN)
}

#[test]
fn the_response() {
    let found = with_room(RESPONSE, 4, 53);
    let names: Vec<&[u8]> = found.records.iter().map(|(owner, _)| owner.as_slice()).collect();
    assert_eq!(names, [&b"\x03www\x07example\x03com\0"[..], b"\x04host\x07example\x03com\0", b"\0"]);
    assert_eq!(found.records[1].1.data, [192, 0, 2, 1]);
    assert_eq!((Message::new(RESPONSE).most_entries(), found), (4, Entries::of_calls(Message::new(RESPONSE))));
}

/// Cut anywhere, what stands before is there, and the fault ends the questions or the records, each time once.
#[test]
fn cut() {
    for len in 0..RESPONSE.len() {
        let message = Message::new(&RESPONSE[..len]);
        let found = with_most_room(&RESPONSE[..len]);
        assert_eq!((found.fault, &found), (Some(Fault::ShortInput), &Entries::of_calls(message)));
        let (mut rows, mut names) = ([Row::EMPTY; 4], [0; 53]);
        let table = message.table(&mut rows, &mut names);
        let (mut questions, mut records) = (table.questions(), table.records());
        let fault = questions.by_ref().find_map(Result::err);
        assert_eq!(fault, found.questions.is_empty().then_some(Fault::ShortInput));
        assert_eq!(records.by_ref().find_map(Result::err), Some(Fault::ShortInput));
        assert!(questions.next().is_none() && records.next().is_none());
        assert_eq!(table.records().count(), found.records.len() + 1);
    }
}

#[test]
fn without_room() {
    let whole = with_room(RESPONSE, 4, 53);
    for (rows, names) in (0..4).map(|rows| (rows, 53)).chain((0..53).map(|names| (4, names))) {
        let found = with_room(RESPONSE, rows, names);
        assert_eq!(found.fault, Some(Fault::NoRoom(None)));
        assert_eq!(found.len(), NAME_ENDS.iter().filter(|end| **end <= names).count().min(rows));
        assert_eq!(found.questions, whole.questions[..found.questions.len()]);
        assert_eq!(found.records, whole.records[..found.records.len()]);
    }
    // A fault comes before a lack of room.
    let mut twisted = RESPONSE.to_vec();
    twisted[33] = 0x80;
    assert_eq!(with_room(&twisted, 1, 17).fault, Some(Fault::BadLabelType));
}

/// A message with these counts, and these octets behind its header.
fn counting(counts: [u8; 8], entries: &[u8]) -> Vec<u8> {
    [&[0; 4], &counts[..], entries].concat()
}

#[test]
fn faults() {
    const QUESTION: [u8; 8] = [0, 1, 0, 0, 0, 0, 0, 0];
    const ANSWER: [u8; 8] = [0, 0, 0, 1, 0, 0, 0, 0];
    let label = [&b"\x3f"[..], &[b'a'; 63]].concat();
    for (octets, fault) in [
        (b"".to_vec(), Fault::ShortInput),
        (vec![0; 11], Fault::ShortInput),
        (counting(QUESTION, b""), Fault::ShortInput),
        (counting(QUESTION, b"\0\0\x01\0"), Fault::ShortInput),
        (counting(QUESTION, b"\x40\0\x01\0\x01"), Fault::BadLabelType),
        (counting(QUESTION, b"\xc0\x0c\0\x01\0\x01"), Fault::TooManyPointers),
        (counting(QUESTION, b"\xff\xff\0\x01\0\x01"), Fault::TooManyPointers),
        (counting(QUESTION, &[&label[..], b"\xc0\x0c\0\x01\0\x01"].concat()), Fault::LongName),
        (counting(QUESTION, &label.repeat(4)), Fault::LongName),
        (counting(ANSWER, b"\0\0\x01\0\x01\0\0\0\0\0\x01"), Fault::ShortInput),
        (counting(ANSWER, b"\xc0\x0c\0\x01\0\x01\0\0\0\0\0\0"), Fault::TooManyPointers),
        (counting([0xff; 8], b"\0\0\x01\0"), Fault::ShortInput),
    ] {
        let entries = Entries { fault: Some(fault), ..Entries::default() };
        assert_eq!(with_most_room(&octets), entries);
        assert_eq!(Entries::of_calls(Message::new(&octets)), entries);
        let table = Message::new(&octets).table(&mut [], &mut []);
        let asked = octets.len() < 12 || octets[5] > 0;
        assert_eq!((table.questions().count(), table.records().count()), (usize::from(asked), 1));
    }
}

/// As many questions as have room, of a header that counts more than any message has.
#[test]
fn as_many_as_fit() {
    let octets = counting([0xff; 8], &b"\0\0\x01\0\x01".repeat(13104));
    assert_eq!((octets.len(), Message::new(&octets).most_entries()), (65532, 13104));
    for (rows, names, count, fault) in [
        (13104, 13104, 13104, Fault::ShortInput),
        (13103, 13104, 13103, Fault::NoRoom(None)),
        (13104, 13103, 13103, Fault::NoRoom(None)),
    ] {
        let found = with_room(&octets, rows, names);
        assert_eq!((found.len(), found.fault), (count, Some(fault)));
    }
}

/// The response with up to three octets changed, and often cut.
fn disturbed(state: &mut u64) -> Vec<u8> {
    let mut random = |below: usize| {
        *state = state.wrapping_mul(6364136223846793005).wrapping_add(1442695040888963407);
        (*state >> 33) as usize % below
    };
    let mut octets = RESPONSE.to_vec();
    for _ in 0..random(4) {
        let at = random(octets.len());
        octets[at] = random(256) as u8;
    }
    octets.truncate(octets.len() - random(2) * random(40));
    octets
}

#[test]
fn disturbed_messages_as_by_single_calls() {
    let (mut state, mut whole) = (7, 0);
    for _ in 0..20_000 {
        let octets = disturbed(&mut state);
        let found = with_most_room(&octets);
        assert_eq!(found, Entries::of_calls(Message::new(&octets)));
        whole += usize::from(found.fault.is_none());
    }
    assert!((2_000..18_000).contains(&whole), "{whole}");
}
