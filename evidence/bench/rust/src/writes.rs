//! Writing messages with the crate's names, data of records and `Composer`.
//!
//! The crate's modules for messages and its compressors aren't among the sources that are at hand. So this is a plain
//! builder, which like the crate's counts each entry in the header and takes a refused one away again. Beside it are
//! three composers, which find suffixes in the ways of the crate's three:
//!
//! - `StaticCompressor`: the offsets gone over one by one, at most 24;
//! - `TreeCompressor`: a tree of labels;
//! - `HashCompressor`: a hash table of labels with what follows them.

use crate::{REFUSED, and_label, told};
use domain::base::iana::Rtype;
use domain::base::name::{Label, Name, ParsedName, ToName};
use domain::base::net::Ipv4Addr;
use domain::base::rdata::{ComposeRecordData, RecordData, UnknownRecordData};
use domain::base::wire::{Compose, Composer};
use octseq::array::Array;
use octseq::builder::{OctetsBuilder, Truncate};
use octseq::parse::Parser;
use std::borrow::Borrow;
use std::collections::HashMap;
use std::hash::{BuildHasher, Hash, Hasher, RandomState};

/// A pointer leads no further.
const FAR: usize = 0x4000;

fn pointer(offset: u16) -> [u8; 2] {
    (0xc000 | offset).to_be_bytes()
}

//------------ Composers -----------------------------------------------------

/// A composer over another.
pub trait Compressor<T>: Composer {
    fn over(target: T) -> Self;
}

/// What a composer passes on to its target.
macro_rules! passes_on {
    ($composer:ident) => {
        impl<T: AsRef<[u8]>> AsRef<[u8]> for $composer<T> {
            fn as_ref(&self) -> &[u8] {
                self.target.as_ref()
            }
        }

        impl<T: AsMut<[u8]>> AsMut<[u8]> for $composer<T> {
            fn as_mut(&mut self) -> &mut [u8] {
                self.target.as_mut()
            }
        }

        impl<T: OctetsBuilder> OctetsBuilder for $composer<T> {
            type AppendError = T::AppendError;

            fn append_slice(&mut self, slice: &[u8]) -> Result<(), Self::AppendError> {
                self.target.append_slice(slice)
            }
        }
    };
}

/// Up to 24 offsets, gone over one by one.
pub struct Scanning<T> {
    target: T,
    offsets: [u16; 24],
    count: usize,
}

passes_on!(Scanning);

impl<T: Composer> Compressor<T> for Scanning<T> {
    fn over(target: T) -> Self {
        Scanning { target, offsets: [0; 24], count: 0 }
    }
}

impl<T: Truncate> Truncate for Scanning<T> {
    fn truncate(&mut self, len: usize) {
        self.target.truncate(len);
        while self.count > 0 && usize::from(self.offsets[self.count - 1]) >= len {
            self.count -= 1;
        }
    }
}

impl<T: Composer> Composer for Scanning<T> {
    fn append_compressed_name<N: ToName + ?Sized>(&mut self, name: &N) -> Result<(), Self::AppendError> {
        let mut rest = name.iter_labels();
        loop {
            let suffix = rest.clone();
            let Some(label) = rest.next() else {
                return Ok(());
            };
            if !label.is_root() {
                let octets = self.target.as_ref();
                let is_there = |offset: &&u16| Label::iter_slice(octets, usize::from(**offset)).eq(suffix.clone());
                if let Some(offset) = self.offsets[..self.count].iter().find(is_there) {
                    return self.target.append_slice(&pointer(*offset));
                }
                let here = octets.len();
                if here < FAR && self.count < self.offsets.len() {
                    self.offsets[self.count] = here as u16;
                    self.count += 1;
                }
            }
            label.compose(&mut self.target)?;
        }
    }

    fn can_compress(&self) -> bool {
        true
    }
}

/// A label as a key.
struct Key {
    octets: [u8; 63],
    len: u8,
}

impl Key {
    fn new(label: &Label) -> Self {
        let mut octets = [0; 63];
        octets[..label.len()].copy_from_slice(label.as_slice());
        octets.make_ascii_lowercase();
        Key { octets, len: label.len() as u8 }
    }

    fn as_slice(&self) -> &[u8] {
        &self.octets[..usize::from(self.len)]
    }
}

impl Hash for Key {
    fn hash<H: Hasher>(&self, state: &mut H) {
        self.as_slice().hash(state)
    }
}

impl PartialEq for Key {
    fn eq(&self, other: &Self) -> bool {
        self.as_slice() == other.as_slice()
    }
}

impl Eq for Key {}

impl Borrow<[u8]> for Key {
    fn borrow(&self) -> &[u8] {
        self.as_slice()
    }
}

/// The labels that follow some labels, and where a name that ends with these stands.
#[derive(Default)]
struct Node {
    next: HashMap<Key, Node>,
    offset: Option<u16>,
}

/// A tree of labels.
pub struct Tree<T> {
    target: T,
    root: Node,
}

passes_on!(Tree);

impl<T: Composer> Compressor<T> for Tree<T> {
    fn over(target: T) -> Self {
        Tree { target, root: Node::default() }
    }
}

impl Node {
    fn forget(&mut self, len: usize) {
        self.offset = self.offset.filter(|offset| usize::from(*offset) < len);
        self.next.values_mut().for_each(|node| node.forget(len));
    }

    fn find<'a>(&self, suffix: impl Iterator<Item = &'a Label>) -> Option<u16> {
        let mut node = self;
        for label in suffix.take_while(|label| !label.is_root()) {
            node = node.next.get(Key::new(label).as_slice())?;
        }
        node.offset
    }

    fn remember<'a>(&mut self, suffix: impl Iterator<Item = &'a Label>, offset: u16) {
        let mut node = self;
        for label in suffix.take_while(|label| !label.is_root()) {
            node = node.next.entry(Key::new(label)).or_default();
        }
        node.offset = Some(offset);
    }
}

impl<T: Truncate> Truncate for Tree<T> {
    fn truncate(&mut self, len: usize) {
        self.target.truncate(len);
        self.root.forget(len);
    }
}

impl<T: Composer> Composer for Tree<T> {
    fn append_compressed_name<N: ToName + ?Sized>(&mut self, name: &N) -> Result<(), Self::AppendError> {
        let mut rest = name.iter_labels();
        loop {
            let suffix = rest.clone();
            let Some(label) = rest.next() else {
                return Ok(());
            };
            if !label.is_root() {
                if let Some(offset) = self.root.find(suffix.clone()) {
                    return self.target.append_slice(&pointer(offset));
                }
                let here = self.target.as_ref().len();
                if here < FAR {
                    self.root.remember(suffix, here as u16);
                }
            }
            label.compose(&mut self.target)?;
        }
    }

    fn can_compress(&self) -> bool {
        true
    }
}

/// A label at an offset, and where what follows it stands: 0 for the root.
#[derive(Clone, Copy, Default)]
struct Entry {
    hash: u64,
    head: u16,
    tail: u16,
}

/// A hash table of labels, each with what follows it. A vacant slot has the head 0, which is in the header.
pub struct Hashed<T> {
    target: T,
    slots: Vec<Entry>,
    count: usize,
    hasher: RandomState,
}

passes_on!(Hashed);

impl<T: Composer> Compressor<T> for Hashed<T> {
    fn over(target: T) -> Self {
        Hashed { target, slots: vec![Entry::default(); 32], count: 0, hasher: RandomState::new() }
    }
}

impl<T> Hashed<T> {
    fn hash(&self, label: &Label, tail: u16) -> u64 {
        let mut state = self.hasher.build_hasher();
        label.hash(&mut state);
        state.write_u16(tail);
        state.finish()
    }

    /// Puts it into the first vacant slot from its own on.
    fn put(&mut self, entry: Entry) {
        let mask = self.slots.len() - 1;
        let mut at = entry.hash as usize & mask;
        while self.slots[at].head != 0 {
            at = (at + 1) & mask;
        }
        self.slots[at] = entry;
        self.count += 1;
    }

    fn refill(&mut self, slots: usize, keeps: impl Fn(&Entry) -> bool) {
        let old = std::mem::replace(&mut self.slots, vec![Entry::default(); slots]);
        self.count = 0;
        old.into_iter().filter(|entry| entry.head != 0 && keeps(entry)).for_each(|entry| self.put(entry));
    }
}

impl<T: AsRef<[u8]>> Hashed<T> {
    fn find(&self, label: &Label, tail: u16) -> Option<u16> {
        let hash = self.hash(label, tail);
        let mask = self.slots.len() - 1;
        let mut at = hash as usize & mask;
        while self.slots[at].head != 0 {
            let entry = self.slots[at];
            let mut there = Label::iter_slice(self.target.as_ref(), usize::from(entry.head));
            if entry.hash == hash && entry.tail == tail && there.next() == Some(label) {
                return Some(entry.head);
            }
            at = (at + 1) & mask;
        }
        None
    }
}

impl<T: Truncate> Truncate for Hashed<T> {
    fn truncate(&mut self, len: usize) {
        self.target.truncate(len);
        self.refill(self.slots.len(), |entry| usize::from(entry.head) < len);
    }
}

impl<T: Composer> Composer for Hashed<T> {
    fn append_compressed_name<N: ToName + ?Sized>(&mut self, name: &N) -> Result<(), Self::AppendError> {
        let labels = name.iter_labels().filter(|label| !label.is_root());
        // the longest suffix that is there, from the last label on
        let (mut tail, mut known) = (0, 0);
        for label in labels.clone().rev() {
            let Some(head) = self.find(label, tail) else {
                break;
            };
            (tail, known) = (head, known + 1);
        }
        let new = labels.clone().count() - known;
        let mut at = self.target.as_ref().len();
        for (index, label) in labels.take(new).enumerate() {
            let after = at + usize::from(label.compose_len());
            let follows = if index + 1 < new { after } else { usize::from(tail) };
            label.compose(&mut self.target)?;
            if at < FAR && follows < FAR {
                if 2 * (self.count + 1) > self.slots.len() {
                    self.refill(2 * self.slots.len(), |_| true);
                }
                let hash = self.hash(label, follows as u16);
                self.put(Entry { hash, head: at as u16, tail: follows as u16 });
            }
            at = after;
        }
        match tail {
            0 => self.target.append_slice(&[0]),
            _ => self.target.append_slice(&pointer(tail)),
        }
    }

    fn can_compress(&self) -> bool {
        true
    }
}

//------------ Data of records -----------------------------------------------

struct A(Ipv4Addr);

impl RecordData for A {
    fn rtype(&self) -> Rtype {
        Rtype::from_int(1)
    }
}

impl ComposeRecordData for A {
    fn rdlen(&self, _compress: bool) -> Option<u16> {
        Some(4)
    }

    fn compose_rdata<Target: Composer + ?Sized>(&self, target: &mut Target) -> Result<(), Target::AppendError> {
        self.0.compose(target)
    }

    fn compose_canonical_rdata<Target: Composer + ?Sized>(
        &self,
        target: &mut Target,
    ) -> Result<(), Target::AppendError> {
        self.0.compose(target)
    }
}

struct Ns<N>(N);

impl<N> RecordData for Ns<N> {
    fn rtype(&self) -> Rtype {
        Rtype::from_int(2)
    }
}

impl<N: ToName> ComposeRecordData for Ns<N> {
    fn rdlen(&self, compress: bool) -> Option<u16> {
        if compress { None } else { Some(self.0.compose_len()) }
    }

    fn compose_rdata<Target: Composer + ?Sized>(&self, target: &mut Target) -> Result<(), Target::AppendError> {
        target.append_compressed_name(&self.0)
    }

    fn compose_canonical_rdata<Target: Composer + ?Sized>(
        &self,
        target: &mut Target,
    ) -> Result<(), Target::AppendError> {
        self.0.compose_canonical(target)
    }
}

//------------ The builder ---------------------------------------------------

#[derive(Clone, Copy)]
enum Section {
    Question,
    Answer,
    Authority,
    Additional,
}

struct Builder<T> {
    target: T,
    limit: usize,
}

impl<T: Composer> Builder<T> {
    fn begin(mut target: T, limit: usize, id: u16, flags: u16) -> Option<Self> {
        target.truncate(0);
        target.append_slice(&[0; 12]).ok()?;
        target.as_mut()[..2].copy_from_slice(&id.to_be_bytes());
        target.as_mut()[2..4].copy_from_slice(&flags.to_be_bytes());
        Some(Builder { target, limit })
    }

    /// An entry, whole or not at all.
    fn push(&mut self, section: Section, compose: impl FnOnce(&mut T) -> Result<(), T::AppendError>) -> Option<()> {
        let start = self.target.as_ref().len();
        if compose(&mut self.target).is_err() || self.target.as_ref().len() > self.limit {
            self.target.truncate(start);
            return None;
        }
        let at = 4 + 2 * section as usize;
        let count: &mut [u8; 2] = (&mut self.target.as_mut()[at..at + 2]).try_into().ok()?;
        match u16::from_be_bytes(*count).checked_add(1) {
            Some(more) => *count = more.to_be_bytes(),
            None => {
                self.target.truncate(start);
                return None;
            }
        }
        Some(())
    }

    fn push_question(&mut self, name: &impl ToName) -> Option<()> {
        self.push(Section::Question, |target| {
            target.append_compressed_name(name)?;
            1u16.compose(target)?;
            1u16.compose(target)
        })
    }

    fn push_record(
        &mut self,
        section: Section,
        owner: &impl ToName,
        class: u16,
        ttl: u32,
        data: &impl ComposeRecordData,
    ) -> Option<()> {
        self.push(section, |target| {
            target.append_compressed_name(owner)?;
            data.rtype().to_int().compose(target)?;
            class.compose(target)?;
            ttl.compose(target)?;
            data.compose_len_rdata(target)
        })
    }
}

//------------ Messages ------------------------------------------------------

/// The flags of a query, and of an answer to it: RD, and QR beside it.
const ASKS: u16 = 0x0100;
const ANSWERS: u16 = 0x8100;

const IN: u16 = 1;
const TTL: u32 = 3600;

fn address(id: u16, number: u8) -> A {
    A(Ipv4Addr::new(192, 0, id as u8, number))
}

/// A question, and how many octets of an answer are taken.
fn query<T: Composer>(target: T, id: u16, names: &[Name<&[u8]>]) -> Option<()> {
    let [qname] = names else { return None };
    let mut message = Builder::begin(target, 512, id, ASKS)?;
    message.push_question(qname)?;
    let opt = UnknownRecordData::from_octets(Rtype::from_int(41), b"".as_slice()).ok()?;
    message.push_record(Section::Additional, &Name::root_ref(), 1232, 0, &opt)
}

/// A question, and ten addresses of its name.
fn answer<T: Composer>(target: T, id: u16, names: &[Name<&[u8]>]) -> Option<()> {
    let [qname] = names else { return None };
    let mut message = Builder::begin(target, 512, id, ANSWERS)?;
    message.push_question(qname)?;
    for number in 0..10 {
        message.push_record(Section::Answer, qname, IN, TTL, &address(id, number))?;
    }
    Some(())
}

/// A question, the four servers of a zone, and an address of each.
fn referral<T: Composer>(target: T, id: u16, names: &[Name<&[u8]>]) -> Option<()> {
    let [qname, zone, servers @ ..] = names else { return None };
    let mut message = Builder::begin(target, 512, id, ANSWERS)?;
    message.push_question(qname)?;
    for server in servers {
        message.push_record(Section::Authority, zone, IN, TTL, &Ns(server))?;
    }
    for server in servers {
        message.push_record(Section::Additional, server, IN, TTL, &address(id, 53))?;
    }
    Some(())
}

/// How many messages a call writes, so that the names are read once for all of them.
pub const MESSAGES: u16 = 16;

fn read_names<const N: usize>(names: &[u8]) -> Option<[Name<&[u8]>; N]> {
    let mut parser = Parser::from_ref(names);
    let mut all = [(); N].map(|_| Name::root_ref());
    for name in &mut all {
        *name = Name::parse(&mut parser).ok()?;
    }
    Some(all)
}

/// The operations of each kind of message by one composer.
macro_rules! by {
    ($module:ident, $composer:ident) => {
        pub mod $module {
            use super::*;

            by!(query, 1, $composer, write_query, written_query);
            by!(answer, 1, $composer, write_answer, written_answer);
            by!(referral, 6, $composer, write_referral, written_referral);
        }
    };
    ($message:ident, $names:literal, $composer:ident, $write:ident, $written:ident) => {
        /// A number that has something of each message.
        #[inline(always)]
        pub fn $write(names: &[u8], place: usize) -> u64 {
            let Some(names) = read_names::<$names>(names) else {
                return REFUSED;
            };
            let mut octets = Array::<512>::new();
            let mut sum = 0;
            for id in 0..MESSAGES {
                if $message($composer::over(&mut octets), id, &names).is_none() {
                    return REFUSED;
                }
                sum = and_label(sum, told(octets.as_slice(), place) as usize);
            }
            sum
        }

        /// One message.
        pub fn $written(names: &[u8], message: &mut [u8]) -> u64 {
            let Some(names) = read_names::<$names>(names) else {
                return REFUSED;
            };
            let mut octets = Array::<512>::new();
            if $message($composer::over(&mut octets), 7, &names).is_none() {
                return REFUSED;
            }
            let octets = octets.as_slice();
            message[..octets.len()].copy_from_slice(octets);
            octets.len() as u64
        }
    };
}

by!(scanning, Scanning);
by!(tree, Tree);
by!(hashed, Hashed);

//------------ What a reader finds -------------------------------------------

/// A record's section, owner, type, class, TTL and data, with names uncompressed.
type Found = (usize, Vec<u8>, u16, u16, u32, Vec<u8>);

/// What a message says.
#[derive(Debug, PartialEq)]
pub struct Content {
    id: u16,
    flags: u16,
    question: (Vec<u8>, u16, u16),
    records: Vec<Found>,
}

fn flat(parser: &mut Parser<'_, [u8]>) -> Option<Vec<u8>> {
    Some(ParsedName::parse(parser).ok()?.to_vec().into_octets())
}

impl Content {
    /// Reads a message of one question to its end.
    pub fn read(message: &[u8]) -> Option<Content> {
        let mut parser = Parser::from_ref(message);
        let [id, flags, questions, counts @ ..] = [(); 6].map(|_| parser.parse_u16_be());
        let (id, flags) = (id.ok()?, flags.ok()?);
        if questions.ok()? != 1 {
            return None;
        }
        let question = (flat(&mut parser)?, parser.parse_u16_be().ok()?, parser.parse_u16_be().ok()?);
        let mut records = Vec::new();
        for (section, count) in counts.into_iter().enumerate() {
            for _ in 0..count.ok()? {
                let owner = flat(&mut parser)?;
                let (rtype, class) = (parser.parse_u16_be().ok()?, parser.parse_u16_be().ok()?);
                let ttl = parser.parse_u32_be().ok()?;
                let len = parser.parse_u16_be().ok()?;
                let mut data = parser.parse_parser(len.into()).ok()?;
                let read = if rtype == 2 { flat(&mut data)? } else { data.peek_all().to_vec() };
                if rtype == 2 && data.remaining() > 0 {
                    return None;
                }
                records.push((section, owner, rtype, class, ttl, read));
            }
        }
        (parser.remaining() == 0).then_some(Content { id, flags, question, records })
    }

    /// What the message of this operation says: with the identifier 7, of these names.
    pub fn wanted(op: &str, names: &[&[u8]]) -> Content {
        let owned = |name: &[u8]| name.to_vec();
        let address = |number| vec![192, 0, 7, number];
        let records = match op {
            "written_query" => vec![(2, vec![0], 41, 1232, 0, vec![])],
            "written_answer" => (0..10).map(|k| (0, owned(names[0]), 1, IN, TTL, address(k))).collect(),
            _ => {
                let servers = names[2..].iter().map(|name| (1, owned(names[1]), 2, IN, TTL, owned(name)));
                servers.chain(names[2..].iter().map(|name| (2, owned(name), 1, IN, TTL, address(53)))).collect()
            }
        };
        let flags = if op == "written_query" { ASKS } else { ANSWERS };
        Content { id: 7, flags, question: (owned(names[0]), 1, IN), records }
    }
}
