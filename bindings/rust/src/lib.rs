//! Domain names and DNS messages (RFC 1035), read by a library whose every function is proved.
//!
//! ```
//! use dnsnames::{Message, Name, MAX_LEN};
//!
//! let mut buffer = [0; MAX_LEN];
//! let name = Name::from_text("www.Example.com", &mut buffer)?;
//! assert_eq!(name.as_slice(), b"\x03www\x07Example\x03com\x00");
//! assert_eq!(name.parent().map(|name| name.to_string()).as_deref(), Some("Example.com"));
//! # Ok::<(), dnsnames::Fault>(())
//! ```
//!
//! What octets and texts spell is decided by the library. What is here passes slices on; it isn't proved. Nothing is
//! allocated but by `NameBuf`, which the feature `alloc` has: what a call makes goes into a buffer of the caller's. The
//! library is declared, and found when a program is linked, by the crate `dnsnames-sys`.
#![no_std]

#[cfg(feature = "alloc")]
extern crate alloc;

mod builder;
mod fault;
mod field;
mod message;
mod mnemonic;
mod name;
#[cfg(feature = "alloc")]
mod name_buf;
mod option;
mod table;

pub use builder::MessageBuilder;
pub use fault::Fault;
pub use field::{Field, FieldKind};
pub use message::{
    Composer, EdnsOption, Header, Message, Opt, Options, Question, Questions, Record, Records, Section, Strings,
};
pub use mnemonic::{Class, Opcode, Rcode, Type};
pub use name::{check_relative, read, skip, Labels, Name, Read};
#[cfg(feature = "alloc")]
pub use name_buf::NameBuf;
pub use option::{ClientSubnet, Cookie, EdnsOptions, ExtendedError};
pub use table::{Row, Table, TableQuestions, TableRecords};

/// The most octets of a name: a buffer of this size has room for each.
pub const MAX_LEN: usize = dnsnames_sys::DNSNAMES_MAX_LEN;
/// A buffer of this size has room for the text of each name, which has at most 1,004 octets.
pub const MAX_TEXT: usize = dnsnames_sys::DNSNAMES_MAX_TEXT;
/// The limit on pointers that allows all that a name can have.
pub const MAX_POINTERS: u8 = dnsnames_sys::DNSNAMES_MAX_POINTERS;

#[cfg(doctest)]
#[doc = include_str!("../README.md")]
struct TheReadme;
