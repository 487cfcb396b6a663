//! Measures `domain` 0.12.3 on the files of inputs.py, and what build.rs links beside it.
//!
//!     bench FOLDER [--once] [--turns N] [--rounds PEER N] [WORD]
//!
//! prints `PEER TAB operation TAB file TAB nanoseconds TAB checksum` for each
//! operation (whose name contains WORD; `parse,check`: these operations). The
//! time is that of one call, the best of several rounds over all cases of the
//! file; several implementations take turns. The checksum is over the results of
//! all cases of the file; another implementation of the same operation gives the
//! same one.
//!
//! With `--rounds PEER N` nothing is measured or printed: one implementation makes
//! all calls of each file so often, for a program that counts its instructions.
//!
//! With `--once` nothing is measured: each operation is called once for each case.
//! Names that were composed with compression are read back, and compared octet by
//! octet with what a plain search composes. Each difference is printed, and the
//! status is 1 where there was one.
//!
//! Each operation is a function of slices and numbers that gives a number, so
//! that an implementation behind `extern "C"` can stand beside it (see build.rs).

use domain::base::iana::Rtype;
use domain::base::name::{Name, NameBuilder, ParsedName, RelativeName, ToLabelIter, ToName};
use domain::base::rdata::UnknownRecordData;
use domain::base::wire::ParseError;
use octseq::array::Array;
use octseq::parse::Parser;
use std::fmt::Write;
use std::hash::{Hash, Hasher};
use std::hint::black_box;
use std::path::{Path, PathBuf};
use std::time::{Duration, Instant};

mod writes;

const REFUSED: u64 = u64::MAX;

//------------ Operations ----------------------------------------------------

/// FNV-1a over 64 bits.
struct Fnv(u64);

impl Fnv {
    fn new() -> Self {
        Fnv(0xcbf2_9ce4_8422_2325)
    }
}

impl Hasher for Fnv {
    fn finish(&self) -> u64 {
        self.0
    }

    fn write(&mut self, bytes: &[u8]) {
        for byte in bytes {
            self.0 = (self.0 ^ *byte as u64).wrapping_mul(0x100_0000_01b3);
        }
    }
}

fn sum(slice: &[u8]) -> u64 {
    let mut hash = Fnv::new();
    hash.write(slice);
    hash.finish()
}

/// One of the octets, and how many there are. Which of them is known when it
/// runs only, so that no implementation can leave them unwritten.
fn told(octets: &[u8], at: usize) -> u64 {
    match octets {
        [] => 0,
        [.., last] => (octets.len() as u64) << 8 | *octets.get(at).unwrap_or(last) as u64,
    }
}

fn and_label(sum: u64, len: usize) -> u64 {
    sum.wrapping_mul(31).wrapping_add(len as u64)
}

fn parsed(message: &[u8], place: usize) -> Option<(ParsedName<&[u8]>, usize)> {
    let mut parser = Parser::from_ref(message);
    parser.advance(place).ok()?;
    let name = ParsedName::parse(&mut parser).ok()?;
    Some((name, parser.pos()))
}

/// Reads the name: the place behind it, its length, whether it is compressed.
#[inline(always)]
fn parse(message: &[u8], place: usize) -> u64 {
    match parsed(message, place) {
        Some((name, behind)) => {
            (behind as u64) << 16 | (name.compose_len() as u64) << 1 | name.is_compressed() as u64
        }
        None => REFUSED,
    }
}

/// The same by a call that isn't inlined, so that the name is handed on in memory.
#[inline(always)]
fn kept(message: &[u8], place: usize) -> u64 {
    match handed_on(message, place) {
        Some((name, behind)) => {
            (behind as u64) << 16 | (name.compose_len() as u64) << 1 | name.is_compressed() as u64
        }
        None => REFUSED,
    }
}

#[inline(never)]
fn handed_on(message: &[u8], place: usize) -> Option<(ParsedName<&[u8]>, usize)> {
    let mut parser = Parser::from_ref(message);
    parser.advance(place).ok()?;
    let name = ParsedName::parse(&mut parser).ok()?;
    Some((name, parser.pos()))
}

/// The place behind the name.
#[inline(always)]
fn skip(message: &[u8], place: usize) -> u64 {
    let mut parser = Parser::from_ref(message);
    if parser.advance(place).is_err() {
        return REFUSED;
    }
    match ParsedName::skip(&mut parser) {
        Ok(()) => parser.pos() as u64,
        Err(_) => REFUSED,
    }
}

/// Reads the name and composes it into a buffer of 255 octets.
#[inline(always)]
fn flatten(message: &[u8], place: usize) -> u64 {
    match parsed(message, place) {
        Some((name, _)) => {
            let mut target = Array::<255>::new();
            match name.compose(&mut target) {
                Ok(()) => told(target.as_slice(), place),
                Err(_) => REFUSED,
            }
        }
        None => REFUSED,
    }
}

/// The same in canonical form.
#[inline(always)]
fn flatten_canonical(message: &[u8], place: usize) -> u64 {
    match parsed(message, place) {
        Some((name, _)) => {
            let mut target = Array::<255>::new();
            match name.compose_canonical(&mut target) {
                Ok(()) => told(target.as_slice(), place),
                Err(_) => REFUSED,
            }
        }
        None => REFUSED,
    }
}

/// Reads the name and makes a flat name over a `Vec<u8>` of it.
#[inline(always)]
fn to_name(message: &[u8], place: usize) -> u64 {
    match parsed(message, place) {
        Some((name, _)) => {
            let flat: Name<Vec<u8>> = name.to_name();
            told(flat.as_slice(), place)
        }
        None => REFUSED,
    }
}

/// Reads the name and makes a flat name over an array of 255 octets of it.
#[inline(always)]
fn to_name_array(message: &[u8], place: usize) -> u64 {
    match parsed(message, place) {
        Some((name, _)) => match name.try_to_name::<Array<255>>() {
            Ok(flat) => told(flat.as_slice(), place),
            Err(_) => REFUSED,
        },
        None => REFUSED,
    }
}

/// Reads the name and counts its labels.
#[inline(always)]
fn label_count(message: &[u8], place: usize) -> u64 {
    match parsed(message, place) {
        Some((name, _)) => name.label_count() as u64,
        None => REFUSED,
    }
}

/// Reads the name and takes its suffixes.
#[inline(always)]
fn parents(message: &[u8], place: usize) -> u64 {
    match parsed(message, place) {
        Some((name, _)) => name
            .iter_suffixes()
            .fold(0, |sum, suffix| and_label(sum, suffix.compose_len() as usize)),
        None => REFUSED,
    }
}

/// Reads the name and hashes it.
#[inline(always)]
fn parse_hash(message: &[u8], place: usize) -> u64 {
    match parsed(message, place) {
        Some((name, _)) => {
            let mut hash = Fnv::new();
            name.hash(&mut hash);
            hash.finish()
        }
        None => REFUSED,
    }
}

/// Reads the name and takes its labels from the front, and from the back.
#[inline(always)]
fn labels(message: &[u8], place: usize) -> u64 {
    match parsed(message, place) {
        Some((name, _)) => name
            .iter()
            .fold(0, |sum: u64, label| sum.wrapping_mul(31) + label.len() as u64),
        None => REFUSED,
    }
}

#[inline(always)]
fn labels_back(message: &[u8], place: usize) -> u64 {
    match parsed(message, place) {
        Some((name, _)) => name
            .iter()
            .rev()
            .fold(0, |sum: u64, label| sum.wrapping_mul(31) + label.len() as u64),
        None => REFUSED,
    }
}

/// Reads the name and shows it with a final dot.
#[inline(always)]
fn parse_show(message: &[u8], place: usize) -> u64 {
    match parsed(message, place) {
        Some((name, _)) => {
            let mut text = String::with_capacity(1024);
            write!(text, "{}", name.fmt_with_dot()).unwrap();
            told(text.as_bytes(), place)
        }
        None => REFUSED,
    }
}

/// Reads the name and compares it with a flat one.
#[inline(always)]
fn parse_eq(message: &[u8], place: usize, flat: &[u8]) -> u64 {
    match (parsed(message, place), Name::from_slice(flat)) {
        (Some((name, _)), Ok(flat)) => name.name_eq(flat) as u64,
        _ => REFUSED,
    }
}

/// Reads the name, and its order by a flat one.
#[inline(always)]
fn parse_cmp(message: &[u8], place: usize, flat: &[u8]) -> u64 {
    match (parsed(message, place), Name::from_slice(flat)) {
        (Some((name, _)), Ok(flat)) => name.name_cmp(flat) as i8 as u8 as u64,
        _ => REFUSED,
    }
}

/// Reads the name, and whether it ends with a flat one.
#[inline(always)]
fn parse_ends(message: &[u8], place: usize, flat: &[u8]) -> u64 {
    match (parsed(message, place), Name::from_slice(flat)) {
        (Some((name, _)), Ok(flat)) => name.ends_with(&flat) as u64,
        _ => REFUSED,
    }
}

#[inline(always)]
fn check(name: &[u8]) -> u64 {
    match Name::from_slice(name) {
        Ok(name) => name.len() as u64,
        Err(_) => REFUSED,
    }
}

/// The name read by a parser, without pointers.
#[inline(always)]
fn name_parse(name: &[u8]) -> u64 {
    let mut parser = Parser::from_ref(name);
    match Name::parse(&mut parser) {
        Ok(name) => name.len() as u64,
        Err(_) => REFUSED,
    }
}

#[inline(always)]
fn check_labels(name: &[u8]) -> u64 {
    match Name::from_slice(name) {
        Ok(name) => name
            .iter()
            .fold(0, |sum, label| and_label(sum, label.len())),
        Err(_) => REFUSED,
    }
}

#[inline(always)]
fn check_back(name: &[u8]) -> u64 {
    match Name::from_slice(name) {
        Ok(name) => name
            .iter()
            .rev()
            .fold(0, |sum, label| and_label(sum, label.len())),
        Err(_) => REFUSED,
    }
}

/// Text in an array.
struct Fixed {
    octets: [u8; 1024],
    len: usize,
}

impl Write for Fixed {
    fn write_str(&mut self, text: &str) -> std::fmt::Result {
        let end = self.len + text.len();
        let Some(room) = self.octets.get_mut(self.len..end) else {
            return Err(std::fmt::Error);
        };
        room.copy_from_slice(text.as_bytes());
        self.len = end;
        Ok(())
    }
}

/// Shows the name into an array, without memory.
#[inline(always)]
fn check_show_fixed(name: &[u8]) -> u64 {
    match Name::from_slice(name) {
        Ok(name) => {
            let mut text = Fixed {
                octets: [0; 1024],
                len: 0,
            };
            write!(text, "{}", name.fmt_with_dot()).unwrap();
            told(&text.octets[..text.len], 7)
        }
        Err(_) => REFUSED,
    }
}

/// Shows the name without a final dot.
#[inline(always)]
fn check_display(name: &[u8]) -> u64 {
    match Name::from_slice(name) {
        Ok(name) => {
            let mut text = String::with_capacity(1024);
            write!(text, "{name}").unwrap();
            told(text.as_bytes(), 7)
        }
        Err(_) => REFUSED,
    }
}

#[inline(always)]
fn check_compose(name: &[u8]) -> u64 {
    match Name::from_slice(name) {
        Ok(name) => {
            let mut target = Array::<255>::new();
            match name.compose(&mut target) {
                Ok(()) => told(target.as_slice(), 7),
                Err(_) => REFUSED,
            }
        }
        Err(_) => REFUSED,
    }
}

#[inline(always)]
fn check_canonical(name: &[u8]) -> u64 {
    match Name::from_slice(name) {
        Ok(name) => {
            let mut target = Array::<255>::new();
            match name.compose_canonical(&mut target) {
                Ok(()) => told(target.as_slice(), 7),
                Err(_) => REFUSED,
            }
        }
        Err(_) => REFUSED,
    }
}

#[inline(always)]
fn check_to_vec(name: &[u8]) -> u64 {
    match Name::from_slice(name) {
        Ok(name) => told(name.to_vec().as_slice(), name.len()),
        Err(_) => REFUSED,
    }
}

#[inline(always)]
fn check_suffixes(name: &[u8]) -> u64 {
    match Name::from_slice(name) {
        Ok(name) => name
            .iter_suffixes()
            .fold(0, |sum, suffix| and_label(sum, suffix.len())),
        Err(_) => REFUSED,
    }
}

/// Splits the name at the first label from the middle on.
#[inline(always)]
fn check_split(name: &[u8]) -> u64 {
    match Name::from_slice(name) {
        Ok(name) => {
            for place in name.len() / 2..name.len() {
                if name.is_label_start(place) {
                    let (left, right) = name.split(place);
                    return and_label(left.len() as u64, right.len());
                }
            }
            0
        }
        Err(_) => REFUSED,
    }
}

#[inline(always)]
fn check_composed(left: &[u8], right: &[u8]) -> u64 {
    match (Name::from_slice(left), Name::from_slice(right)) {
        (Ok(left), Ok(right)) => left.composed_cmp(right) as i8 as u8 as u64,
        _ => REFUSED,
    }
}

#[inline(always)]
fn check_lower_composed(left: &[u8], right: &[u8]) -> u64 {
    match (Name::from_slice(left), Name::from_slice(right)) {
        (Ok(left), Ok(right)) => left.lowercase_composed_cmp(right) as i8 as u8 as u64,
        _ => REFUSED,
    }
}

#[inline(always)]
fn check_starts(left: &[u8], right: &[u8]) -> u64 {
    match (Name::from_slice(left), Name::from_slice(right)) {
        (Ok(left), Ok(right)) => left.starts_with(&right) as u64,
        _ => REFUSED,
    }
}

#[inline(always)]
fn check_ends(left: &[u8], right: &[u8]) -> u64 {
    match (Name::from_slice(left), Name::from_slice(right)) {
        (Ok(left), Ok(right)) => left.ends_with(&right) as u64,
        _ => REFUSED,
    }
}

#[inline(always)]
fn check_strip(left: &[u8], right: &[u8]) -> u64 {
    match (Name::from_octets(left), Name::from_slice(right)) {
        (Ok(left), Ok(right)) => match left.strip_suffix(&right) {
            Ok(rest) => rest.len() as u64,
            Err(name) => 1000 + name.len() as u64,
        },
        _ => REFUSED,
    }
}

#[inline(always)]
fn check_eq(left: &[u8], right: &[u8]) -> u64 {
    match (Name::from_slice(left), Name::from_slice(right)) {
        (Ok(left), Ok(right)) => left.name_eq(right) as u64,
        _ => REFUSED,
    }
}

#[inline(always)]
fn check_cmp(left: &[u8], right: &[u8]) -> u64 {
    match (Name::from_slice(left), Name::from_slice(right)) {
        (Ok(left), Ok(right)) => left.name_cmp(right) as i8 as u8 as u64,
        _ => REFUSED,
    }
}

#[inline(always)]
fn check_hash(name: &[u8]) -> u64 {
    match Name::from_slice(name) {
        Ok(name) => {
            let mut hash = Fnv::new();
            name.hash(&mut hash);
            hash.finish()
        }
        Err(_) => REFUSED,
    }
}

#[inline(always)]
fn check_show(name: &[u8]) -> u64 {
    match Name::from_slice(name) {
        Ok(name) => {
            let mut text = String::with_capacity(1024);
            write!(text, "{}", name.fmt_with_dot()).unwrap();
            told(text.as_bytes(), 7)
        }
        Err(_) => REFUSED,
    }
}

/// Reads a name from text: over a `Vec<u8>`, and over an array of 255 octets.
#[inline(always)]
fn from_chars(text: &[u8]) -> u64 {
    let at = text.len() / 2;
    let Ok(text) = std::str::from_utf8(text) else {
        return REFUSED;
    };
    match Name::<Vec<u8>>::from_chars(text.chars()) {
        Ok(name) => told(name.as_slice(), at),
        Err(_) => REFUSED,
    }
}

#[inline(always)]
fn from_chars_array(text: &[u8]) -> u64 {
    let at = text.len() / 2;
    let Ok(text) = std::str::from_utf8(text) else {
        return REFUSED;
    };
    match Name::<Array<255>>::from_chars(text.chars()) {
        Ok(name) => told(name.as_slice(), at),
        Err(_) => REFUSED,
    }
}

/// The same by the calls that take a `&str`.
#[inline(always)]
fn vec_from_str(text: &[u8]) -> u64 {
    let at = text.len() / 2;
    let Ok(text) = std::str::from_utf8(text) else {
        return REFUSED;
    };
    match Name::<Vec<u8>>::vec_from_str(text) {
        Ok(name) => told(name.as_slice(), at),
        Err(_) => REFUSED,
    }
}

#[inline(always)]
fn from_str_array(text: &[u8]) -> u64 {
    let at = text.len() / 2;
    let Ok(text) = std::str::from_utf8(text) else {
        return REFUSED;
    };
    match text.parse::<Name<Array<255>>>() {
        Ok(name) => told(name.as_slice(), at),
        Err(_) => REFUSED,
    }
}

/// Checks the name, appends its labels to a builder over a `Vec<u8>`.
#[inline(always)]
fn append_labels(name: &[u8]) -> u64 {
    let Ok(name) = Name::from_slice(name) else {
        return REFUSED;
    };
    let mut builder = NameBuilder::new_vec();
    for label in name.iter() {
        if builder.append_label(label.as_slice()).is_err() {
            return REFUSED;
        }
    }
    match builder.into_name() {
        Ok(name) => sum(name.as_slice()),
        Err(_) => REFUSED,
    }
}

/// Checks the name, pushes its octets one by one to a builder over an array.
#[inline(always)]
fn push_octets(name: &[u8]) -> u64 {
    let Ok(name) = Name::from_slice(name) else {
        return REFUSED;
    };
    let mut builder = NameBuilder::<Array<255>>::new();
    for label in name.iter() {
        for octet in label.iter() {
            if builder.push(octet).is_err() {
                return REFUSED;
            }
        }
        builder.end_label();
    }
    match builder.into_name() {
        Ok(name) => sum(name.as_slice()),
        Err(_) => REFUSED,
    }
}

#[inline(always)]
fn chained(name: &[u8]) -> u64 {
    let Ok(name) = Name::from_slice(name) else {
        return REFUSED;
    };
    let relative = unsafe { RelativeName::from_octets_unchecked(&name.as_slice()[..name.len() - 1]) };
    let chain = relative.chain_root();
    let mut target = Array::<255>::new();
    match chain.compose(&mut target) {
        Ok(()) => sum(target.as_slice()),
        Err(_) => REFUSED,
    }
}

//------------ Whole messages ------------------------------------------------

// The crate's modules for messages aren't among the sources that are at hand. So this is a plain reader over its
// parser, names and unknown data. It keeps of a record what theirs keeps.

struct ParsedRecord<'a> {
    owner: ParsedName<&'a [u8]>,
    rtype: Rtype,
    class: u16,
    ttl: u32,
    data: Parser<'a, [u8]>,
}

impl<'a> ParsedRecord<'a> {
    fn parse(parser: &mut Parser<'a, [u8]>) -> Result<Self, ParseError> {
        let owner = ParsedName::parse(parser)?;
        let rtype = Rtype::from_int(parser.parse_u16_be()?);
        let class = parser.parse_u16_be()?;
        let ttl = parser.parse_u32_be()?;
        let len = parser.parse_u16_be()?;
        let data = parser.parse_parser(len.into())?;
        Ok(ParsedRecord { owner, rtype, class, ttl, data })
    }
}

/// The records of a section.
struct Records<'a> {
    parser: Parser<'a, [u8]>,
    left: u16,
}

impl<'a> Iterator for Records<'a> {
    type Item = Result<ParsedRecord<'a>, ParseError>;

    fn next(&mut self) -> Option<Self::Item> {
        if self.left == 0 {
            return None;
        }
        let record = ParsedRecord::parse(&mut self.parser);
        self.left = if record.is_ok() { self.left - 1 } else { 0 };
        Some(record)
    }
}

/// The records of the answer section, after the questions.
fn answers(message: &[u8]) -> Option<Records<'_>> {
    let mut parser = Parser::from_ref(message);
    parser.advance(4).ok()?;
    let questions = parser.parse_u16_be().ok()?;
    let left = parser.parse_u16_be().ok()?;
    parser.advance(4).ok()?;
    for _ in 0..questions {
        ParsedName::parse(&mut parser).ok()?;
        parser.advance(4).ok()?;
    }
    Some(Records { parser, left })
}

/// Type, class, TTL and length of the data of each record.
#[inline(always)]
fn records(message: &[u8]) -> u64 {
    let Some(records) = answers(message) else {
        return REFUSED;
    };
    let mut sum = 0;
    for record in records {
        let Ok(record) = record else {
            return REFUSED;
        };
        sum = and_label(sum, record.rtype.to_int().into());
        sum = and_label(sum, record.class.into());
        sum = and_label(sum, record.ttl as usize);
        sum = and_label(sum, record.data.remaining());
    }
    sum
}

/// The rest, which must be a name.
fn whole_name<'a>(data: &mut Parser<'a, [u8]>) -> Result<ParsedName<&'a [u8]>, ParseError> {
    let name = ParsedName::parse(data)?;
    match data.remaining() {
        0 => Ok(name),
        _ => Err(ParseError::form_error("trailing data")),
    }
}

fn whole_octets<const N: usize>(data: &mut Parser<'_, [u8]>) -> Result<[u8; N], ParseError> {
    let mut octets = [0; N];
    data.parse_buf(&mut octets)?;
    match data.remaining() {
        0 => Ok(octets),
        _ => Err(ParseError::form_error("trailing data")),
    }
}

/// A number that has something of each field of the data, which is read by its type.
fn number_of(record: &ParsedRecord<'_>) -> Result<usize, ParseError> {
    let mut data = record.data;
    match record.rtype.to_int() {
        1 => Ok(whole_octets::<4>(&mut data)?[3].into()),
        28 => Ok(whole_octets::<16>(&mut data)?[15].into()),
        2 | 5 => Ok(whole_name(&mut data)?.compose_len().into()),
        15 => {
            let preference = data.parse_u16_be()?;
            Ok(usize::from(preference) + usize::from(whole_name(&mut data)?.compose_len()))
        }
        _ => match UnknownRecordData::from_octets(record.rtype, data.peek_all()) {
            Ok(data) => Ok(data.data().len()),
            Err(_) => Err(ParseError::form_error("long data")),
        },
    }
}

/// The owner's length of each record, and its data.
#[inline(always)]
fn record_data(message: &[u8]) -> u64 {
    let Some(records) = answers(message) else {
        return REFUSED;
    };
    let mut sum = 0;
    for record in records {
        let Ok(record) = record else {
            return REFUSED;
        };
        let Ok(number) = number_of(&record) else {
            return REFUSED;
        };
        sum = and_label(sum, record.owner.compose_len().into());
        sum = and_label(sum, number);
    }
    sum
}

/// The addresses of the records with IPv4 addresses.
#[inline(always)]
fn records_of_type(message: &[u8]) -> u64 {
    let Some(records) = answers(message) else {
        return REFUSED;
    };
    let mut sum = 0;
    for record in records {
        let Ok(mut record) = record else {
            return REFUSED;
        };
        if record.rtype.to_int() != 1 {
            continue;
        }
        let Ok(octets) = whole_octets::<4>(&mut record.data) else {
            return REFUSED;
        };
        sum = and_label(sum, octets[3].into());
    }
    sum
}

//------------ Files ---------------------------------------------------------

struct Case {
    place: usize,
    octets: Vec<u8>,
}

fn read(path: &Path) -> Vec<Case> {
    let data = std::fs::read(path).unwrap_or_else(|err| panic!("{}: {err}", path.display()));
    let word = |at: usize| u32::from_le_bytes(data[at..at + 4].try_into().unwrap()) as usize;
    let mut at = 4;
    (0..word(0))
        .map(|_| {
            let (place, len) = (word(at), word(at + 4));
            at += 8 + len;
            Case {
                place,
                octets: data[at - len..at].to_vec(),
            }
        })
        .collect()
}

//------------ Measuring -----------------------------------------------------

/// One implementation of an operation: all cases of a file, once.
type Round<'a> = Box<dyn FnMut() -> u64 + 'a>;

/// One implementation, and how often it makes all calls of a file.
#[derive(Clone)]
struct Rounds {
    peer: String,
    count: usize,
}

/// How an operation is measured.
#[derive(Clone, Copy)]
struct Weather<'a> {
    /// Where its instructions are counted by another program.
    counted: Option<&'a Rounds>,
    /// The most turns of each implementation; none where results alone are compared.
    turns: usize,
    /// No turn begins later than this, except the first five.
    longest: Duration,
}

/// Prints the best time of one call in nanoseconds, and the sum over the
/// results, of each implementation. They take turns, so that all meet the same
/// weather on the machine. Tells whether the sums are the same.
fn measure(
    op: &str,
    file: &str,
    calls: usize,
    weather: Weather<'_>,
    mut peers: Vec<(&str, Round<'_>)>,
) -> bool {
    if let Some(Rounds { peer, count }) = weather.counted {
        for (_, round) in peers.iter_mut().filter(|(name, _)| name == peer) {
            for _ in 0..*count {
                black_box(round());
            }
        }
        return true;
    }
    let mut all: Vec<(usize, f64, u64)> = peers
        .iter_mut()
        .map(|(_, round)| (1, f64::MAX, round()))
        .collect();
    let same = all.iter().all(|(_, _, result)| *result == all[0].2);
    if weather.turns == 0 {
        if !same {
            println!("different: {op} of {file}");
        }
        return same;
    }
    for ((_, round), (repeat, _, _)) in peers.iter_mut().zip(&mut all) {
        let start = Instant::now();
        black_box(round());
        let once = start.elapsed().max(Duration::from_nanos(100));
        // (slices are short, so that on a busy machine many are not cut in two)
        *repeat = (Duration::from_millis(1).as_nanos() / once.as_nanos()).max(1) as usize;
    }
    let begun = Instant::now();
    for turn in 0..weather.turns {
        if turn >= 5 && begun.elapsed() > weather.longest {
            break;
        }
        for ((_, round), (repeat, best, _)) in peers.iter_mut().zip(&mut all) {
            let start = Instant::now();
            for _ in 0..*repeat {
                black_box(round());
            }
            let each = start.elapsed().as_nanos() as f64 / (*repeat * calls) as f64;
            *best = best.min(each);
        }
    }
    for ((peer, _), (_, best, result)) in peers.iter().zip(&all) {
        println!("{peer}\t{op}\t{file}\t{best:.1}\t{result:016x}");
    }
    same
}

//------------ Composing with compression ------------------------------------

/// The wire forms of the names, one behind the other.
fn split(stream: &[u8]) -> Vec<&[u8]> {
    let mut parser = Parser::from_ref(stream);
    let mut names = Vec::new();
    while parser.remaining() > 0 {
        let start = parser.pos();
        Name::<&[u8]>::parse(&mut parser).unwrap();
        names.push(&stream[start..parser.pos()]);
    }
    names
}

/// The places of a name's labels but the root.
fn label_starts(name: &[u8]) -> Vec<usize> {
    let mut starts = Vec::new();
    let mut at = 0;
    while name[at] != 0 {
        starts.push(at);
        at += 1 + name[at] as usize;
    }
    starts
}

/// The names composed into one message, each with a pointer to the first of at
/// most 128 remembered places where its longest end is read: RFC 1035, 4.1.4.
fn compressed(names: &[&[u8]]) -> Vec<u8> {
    let mut message: Vec<u8> = Vec::new();
    let mut places: Vec<usize> = Vec::new();
    for name in names {
        let starts = label_starts(name);
        let found = starts.iter().find_map(|start| {
            let end = Name::from_slice(&name[*start..]).unwrap();
            let place = places.iter().find(|place| {
                let (there, _) = parsed(&message, **place).unwrap();
                there.name_eq(end)
            })?;
            Some((*start, *place))
        });
        let here = message.len();
        let (written, pointer) = match found {
            Some((start, place)) => (start, (0xc000 | place as u16).to_be_bytes().to_vec()),
            None => (name.len(), Vec::new()),
        };
        message.extend(&name[..written]);
        message.extend(pointer);
        for start in starts.iter().filter(|start| **start < written) {
            if places.len() < 128 && here + start < 16384 {
                places.push(here + start);
            }
        }
    }
    message
}

/// Whether a peer composes the names as the plain search does, and whether the
/// crate reads them back.
fn composes(file: &str, stream: &[u8], peer: &Peer) -> bool {
    let names = split(stream);
    let wanted = compressed(&names);
    let mut same = true;
    for (op, compose) in peer.composing {
        let mut message = vec![0; 2 * stream.len()];
        let len = compose(stream, &mut message);
        let message = message.get(..len as usize).unwrap_or_default();
        let mut parser = Parser::from_ref(message);
        let read = names.iter().all(|name| {
            let name = Name::from_slice(name).unwrap();
            ParsedName::parse(&mut parser).is_ok_and(|there| there.name_eq(name))
        });
        if !read || parser.remaining() > 0 {
            println!("different: {op} of {file} is not read back");
            same = false;
        }
        if message != wanted {
            println!("different: {op} of {file}");
            same = false;
        }
    }
    same
}

/// Whether a reader finds in the messages of all implementations what was to be written, and whether those of others
/// are no longer than those with the crate's names.
fn writes_same(op: &str, file: &str, cases: &[Case], peers: &[&Peer]) -> bool {
    let mut same = true;
    for case in cases {
        let wanted = writes::Content::wanted(op, &split(&case.octets));
        let mut shortest = usize::MAX;
        for peer in peers {
            let Some((_, write)) = peer.written.iter().find(|(other, _)| *other == op) else {
                continue;
            };
            let mut message = vec![0; 512];
            let len = write(&case.octets, &mut message) as usize;
            let message = message.get(..len).unwrap_or_default();
            if writes::Content::read(message).as_ref() != Some(&wanted) {
                println!("different: {op} of {file} by {} is not read back", peer.name);
                same = false;
            }
            if len > shortest {
                println!("different: {op} of {file} by {} is longer", peer.name);
                same = false;
            }
            shortest = shortest.min(len);
        }
    }
    same
}

fn add(sum: u64, result: u64) -> u64 {
    (sum ^ result)
        .wrapping_mul(0x9e37_79b9_7f4a_7c15)
        .rotate_left(29)
}

//------------ The border ----------------------------------------------------

/// The octets that a C function is lent. The test for null is the one that the port's compiler makes of each slice
/// there, instruction by instruction.
#[inline(always)]
fn lent<'a>(octets: *const u8, len: usize) -> &'a [u8] {
    let octets = octets.wrapping_add(usize::from(octets.is_null()) << 12);
    unsafe { std::slice::from_raw_parts(octets, len) }
}

/// An operation behind a C function, as another implementation's is, so that the border between two languages costs
/// the same on both sides. The function is called by an address that is read anew for each call, as that of a function
/// of another library is. Otherwise the compiler would see that no slice is null, and leave the test out.
macro_rules! on_message {
    ($op:ident) => {
        (stringify!($op), {
            #[inline(never)]
            extern "C" fn border(octets: *const u8, len: usize, place: usize) -> u64 {
                $op(lent(octets, len), place)
            }
            fn call(message: &[u8], place: usize) -> u64 {
                static BORDER: extern "C" fn(*const u8, usize, usize) -> u64 = border;
                let border = unsafe { std::ptr::read_volatile(&BORDER) };
                border(message.as_ptr(), message.len(), place)
            }
            call
        })
    };
}

macro_rules! on_name {
    ($op:ident) => {
        (stringify!($op), {
            #[inline(never)]
            extern "C" fn border(octets: *const u8, len: usize) -> u64 {
                $op(lent(octets, len))
            }
            fn call(name: &[u8]) -> u64 {
                static BORDER: extern "C" fn(*const u8, usize) -> u64 = border;
                let border = unsafe { std::ptr::read_volatile(&BORDER) };
                border(name.as_ptr(), name.len())
            }
            call
        })
    };
}

macro_rules! on_pair {
    ($op:ident) => {
        (stringify!($op), {
            #[inline(never)]
            extern "C" fn border(
                left: *const u8,
                left_len: usize,
                right: *const u8,
                right_len: usize,
            ) -> u64 {
                $op(lent(left, left_len), lent(right, right_len))
            }
            fn call(left: &[u8], right: &[u8]) -> u64 {
                static BORDER: extern "C" fn(*const u8, usize, *const u8, usize) -> u64 = border;
                let border = unsafe { std::ptr::read_volatile(&BORDER) };
                border(left.as_ptr(), left.len(), right.as_ptr(), right.len())
            }
            call
        })
    };
}

macro_rules! on_message_and_name {
    ($op:ident) => {
        (stringify!($op), {
            #[inline(never)]
            extern "C" fn border(
                octets: *const u8,
                len: usize,
                place: usize,
                name: *const u8,
                name_len: usize,
            ) -> u64 {
                $op(lent(octets, len), place, lent(name, name_len))
            }
            fn call(message: &[u8], place: usize, name: &[u8]) -> u64 {
                static BORDER: extern "C" fn(*const u8, usize, usize, *const u8, usize) -> u64 = border;
                let border = unsafe { std::ptr::read_volatile(&BORDER) };
                border(message.as_ptr(), message.len(), place, name.as_ptr(), name.len())
            }
            call
        })
    };
}

macro_rules! on_written {
    ($module:ident, $op:ident) => {{
        use writes::$module::$op;
        on_message!($op)
    }};
}

type OnMessage = fn(&[u8], usize) -> u64;
type OnName = fn(&[u8]) -> u64;
type OnPair = fn(&[u8], &[u8]) -> u64;
type OnMessageAndName = fn(&[u8], usize, &[u8]) -> u64;
type Composing = fn(&[u8], &mut [u8]) -> u64;

struct Peer {
    name: &'static str,
    messages: &'static [(&'static str, OnMessage)],
    names: &'static [(&'static str, OnName)],
    pairs: &'static [(&'static str, OnPair)],
    texts: &'static [(&'static str, OnName)],
    mixed: &'static [(&'static str, OnMessageAndName)],
    wholes: &'static [(&'static str, OnName)],
    streams: &'static [(&'static str, OnName)],
    composing: &'static [(&'static str, Composing)],
    writes: &'static [(&'static str, OnMessage)],
    written: &'static [(&'static str, Composing)],
}

const DOMAIN: Peer = Peer {
    name: "rust-domain",
    messages: &[
        on_message!(parse),
        on_message!(kept),
        on_message!(skip),
        on_message!(flatten),
        on_message!(flatten_canonical),
        on_message!(to_name),
        on_message!(to_name_array),
        on_message!(parse_hash),
        on_message!(labels),
        on_message!(labels_back),
        on_message!(label_count),
        on_message!(parents),
        on_message!(parse_show),
    ],
    names: &[
        on_name!(check),
        on_name!(name_parse),
        on_name!(check_hash),
        on_name!(check_labels),
        on_name!(check_back),
        on_name!(check_show),
        on_name!(check_show_fixed),
        on_name!(check_display),
        on_name!(check_compose),
        on_name!(check_canonical),
        on_name!(check_to_vec),
        on_name!(check_suffixes),
        on_name!(check_split),
        on_name!(append_labels),
        on_name!(push_octets),
        on_name!(chained),
    ],
    pairs: &[
        on_pair!(check_eq),
        on_pair!(check_cmp),
        on_pair!(check_composed),
        on_pair!(check_lower_composed),
        on_pair!(check_starts),
        on_pair!(check_ends),
        on_pair!(check_strip),
    ],
    texts: &[
        on_name!(from_chars),
        on_name!(from_chars_array),
        on_name!(vec_from_str),
        on_name!(from_str_array),
    ],
    mixed: &[
        on_message_and_name!(parse_eq),
        on_message_and_name!(parse_cmp),
        on_message_and_name!(parse_ends),
    ],
    wholes: &[
        on_name!(records),
        on_name!(record_data),
        on_name!(records_of_type),
    ],
    streams: &[],
    composing: &[],
    writes: &[],
    written: &[],
};

/// The crate's names and data, written by one composer.
macro_rules! writer {
    ($constant:ident, $name:literal, $module:ident) => {
        const $constant: Peer = Peer {
            name: $name,
            messages: &[],
            names: &[],
            pairs: &[],
            texts: &[],
            mixed: &[],
            wholes: &[],
            writes: &[
                on_written!($module, write_query),
                on_written!($module, write_answer),
                on_written!($module, write_referral),
            ],
            written: &[
                ("written_query", writes::$module::written_query),
                ("written_answer", writes::$module::written_answer),
                ("written_referral", writes::$module::written_referral),
            ],
            ..DOMAIN
        };
    };
}

writer!(SCANNING, "domain-scanning", scanning);
writer!(TREE, "domain-tree", tree);
writer!(HASHED, "domain-hashed", hashed);

/// What is measured as names get more labels and pointers.
const GROWING: &[&str] = &["parse", "skip", "flatten", "parse_eq", "parse_cmp"];

// `OTHERS`: the implementation behind `extern "C"`, if build.rs was given one.
include!(concat!(env!("OUT_DIR"), "/others.rs"));

/// What is wanted.
struct Wanted {
    folder: PathBuf,
    once: bool,
    turns: usize,
    counted: Option<Rounds>,
    word: String,
}

fn arguments() -> Wanted {
    let mut wanted = Wanted {
        folder: PathBuf::new(),
        once: false,
        turns: 300,
        counted: None,
        word: String::new(),
    };
    let mut args = std::env::args().skip(1);
    wanted.folder = args.next().expect("usage: bench FOLDER [..] [WORD]").into();
    while let Some(arg) = args.next() {
        match arg.as_str() {
            "--once" => wanted.once = true,
            "--turns" => wanted.turns = args.next().unwrap().parse().unwrap(),
            "--rounds" => {
                let peer = args.next().unwrap();
                let count = args.next().unwrap().parse().unwrap();
                wanted.counted = Some(Rounds { peer, count });
            }
            word => wanted.word = word.to_string(),
        }
    }
    wanted
}

/// The files of a kind, those with smaller numbers first.
fn files(folder: &Path, begins: &str, ends: &str) -> Vec<String> {
    let numbers = |name: &String| -> Vec<usize> {
        name.split(['-', '.']).filter_map(|part| part.parse().ok()).collect()
    };
    let mut names: Vec<String> = std::fs::read_dir(folder)
        .unwrap()
        .map(|entry| entry.unwrap().file_name().into_string().unwrap())
        .filter(|name| name.starts_with(begins) && name.ends_with(ends))
        .collect();
    names.sort_by_key(|name| (numbers(name), name.clone()));
    names
}

fn main() {
    let Wanted { folder, once, turns, counted, word } = arguments();
    let wanted = |op: &str| match word.contains(',') {
        true => word.split(',').any(|word| word == op),
        false => op.contains(&word),
    };
    let mut same = true;
    let rows = Weather {
        counted: counted.as_ref(),
        turns: if once { 0 } else { turns },
        longest: Duration::from_secs(2),
    };
    let lines = Weather {
        counted: counted.as_ref(),
        turns: rows.turns.min(60),
        longest: Duration::from_millis(400),
    };

    let peers: Vec<&Peer> = [&DOMAIN, &SCANNING, &TREE, &HASHED].into_iter().chain(OTHERS).collect();
    macro_rules! run {
        ($kind:ident, $from:expr, $file:expr, $calls:expr, $weather:expr, $wanted:expr, |$f:ident| $round:expr) => {
            for (op, _) in $from.$kind.iter().filter(|(op, _)| $wanted(op)) {
                let rounds = peers
                    .iter()
                    .filter_map(|peer| {
                        let (_, f) = peer.$kind.iter().find(|(other, _)| other == op)?;
                        let $f = *f;
                        Some((peer.name, Box::new(move || $round) as Round<'_>))
                    })
                    .collect();
                same &= measure(op, $file, $calls, $weather, rounds);
            }
        };
    }

    let named = [
        "typical.msg",
        "pointer.msg",
        "deep.msg",
        "worst.msg",
        "short.msg",
        "long.msg",
    ];
    let growing = files(&folder, "grow-", ".msg");
    for file in named.into_iter().chain(growing.iter().map(String::as_str)) {
        let grows = file.starts_with("grow-");
        let weather = if grows { lines } else { rows };
        let wanted = |op: &str| wanted(op) && (!grows || GROWING.contains(&op));
        let cases = &read(&folder.join(file));
        run!(messages, DOMAIN, file, cases.len(), weather, wanted, |f| cases
            .iter()
            .fold(0, |sum, case| add(
                sum,
                f(black_box(&case.octets), black_box(case.place))
            )));
        let flat: &Vec<Vec<u8>> = &cases
            .iter()
            .map(|case| {
                let (name, _) = parsed(&case.octets, case.place).unwrap();
                let mut flat: Vec<u8> = name.to_vec().into_octets();
                flat[1] ^= 0x20;
                flat
            })
            .collect();
        run!(mixed, DOMAIN, file, cases.len(), weather, wanted, |f| cases
            .iter()
            .zip(flat)
            .fold(0, |sum, (case, flat)| add(
                sum,
                f(
                    black_box(&case.octets),
                    black_box(case.place),
                    black_box(flat)
                )
            )));
    }
    for file in ["typical.names", "deep.names"] {
        let cases = &read(&folder.join(file));
        run!(names, DOMAIN, file, cases.len(), rows, wanted, |f| cases
            .iter()
            .fold(0, |sum, case| add(sum, f(black_box(&case.octets)))));
        run!(pairs, DOMAIN, file, cases.len() / 2, rows, wanted, |f| cases
            .chunks_exact(2)
            .fold(0, |sum, pair| add(
                sum,
                f(black_box(&pair[0].octets), black_box(&pair[1].octets))
            )));
    }
    for file in ["typical.texts", "escaped.texts"] {
        let cases = &read(&folder.join(file));
        run!(texts, DOMAIN, file, cases.len(), rows, wanted, |f| cases
            .iter()
            .fold(0, |sum, case| add(sum, f(black_box(&case.octets)))));
    }
    for file in &files(&folder, "records-", ".whole") {
        let cases = &read(&folder.join(file));
        run!(wholes, DOMAIN, file, cases.len(), rows, wanted, |f| cases
            .iter()
            .fold(0, |sum, case| add(sum, f(black_box(&case.octets)))));
    }
    for file in &files(&folder, "", ".stream") {
        let case = &read(&folder.join(file))[0];
        for other in OTHERS {
            run!(streams, other, file, case.place, rows, wanted, |f| f(
                black_box(&case.octets)
            ));
            if once {
                same &= composes(file, &case.octets, other);
            }
        }
    }
    for kind in ["query", "answer", "referral"] {
        let file = &format!("{kind}.writes");
        let cases = &read(&folder.join(file));
        let wanted = |op: &str| wanted(op) && op.ends_with(kind);
        let calls = cases.len() * usize::from(writes::MESSAGES);
        run!(writes, SCANNING, file, calls, rows, wanted, |f| cases
            .iter()
            .fold(0, |sum, case| add(
                sum,
                f(black_box(&case.octets), black_box(case.place))
            )));
        if once {
            same &= writes_same(&format!("written_{kind}"), file, cases, &peers);
        }
    }
    if !same {
        std::process::exit(1);
    }
    if once {
        println!("the same results");
    }
}
