//! Why something is refused.

use core::fmt;
use dnsnames_sys::*;

/// Why octets or a text are no name, or a message is none, or an entry can't be pushed.
#[derive(Clone, Copy, Debug, PartialEq, Eq, Hash)]
#[non_exhaustive]
pub enum Fault {
    /// The octets or the text end too soon.
    ShortInput,
    /// A label is of a type that isn't in use (RFC 1035, 4.1.4; RFC 6891, 5).
    BadLabelType,
    /// A pointer doesn't lead back, or is one more than the limit (RFC 1035, 4.1.4).
    TooManyPointers,
    /// The name has more than 255 octets (RFC 1035, 3.1).
    LongName,
    /// A pointer stands where a name without compression is wanted.
    CompressedName,
    /// The octets of an absolute name end behind a label that isn't the root.
    RelativeName,
    /// Octets follow the root of an absolute name, or the last field of data.
    TrailingData,
    /// The buffer is too small. The number of octets that are needed, where it is known.
    NoRoom(Option<usize>),
    /// An escape of the text is broken (RFC 1035, 5.1).
    BadEscape,
    /// A character of the text stands for no octet.
    BadSymbol,
    /// A label's text begins with `\[` (RFC 6891, 5).
    BinaryLabel,
    /// A label has more than 63 octets (RFC 1035, 3.1).
    LongLabel,
    /// A label of the text is empty.
    EmptyLabel,
    /// A root label stands in a relative name.
    AbsoluteName,
    /// Data of records of this type have no such field: name, number, address, string or option.
    NoField,
    /// The text names no type, no class or no code.
    NoMnemonic,
    /// A question was pushed after a record, or a record after one of a later section.
    WrongOrder,
    /// The section has 65,535 entries.
    TooManyEntries,
    /// An entry of a message hasn't the form of one: its name can't be read. Or an EDNS option hasn't its form.
    BadForm,
    /// A tag in data is empty, or has another octet than letters and digits (RFC 8659, 4.1).
    BadTag,
    /// The hash in data of NSEC3 is empty (RFC 5155, 3.1.6).
    EmptyHash,
    /// The windows of a type bitmap don't ascend (RFC 4034, 4.1.2).
    WindowOrder,
    /// A block of a type bitmap has no octet, or more than 32 (RFC 4034, 4.1.2).
    BitmapLength,
    /// The keys of service parameters don't ascend (RFC 9460, 2.2).
    KeyOrder,
    /// What a newer library answers, by its number.
    Other(u32),
}

impl Fault {
    /// The number that the library answers for it, as dnsnames.h has it.
    pub fn status(self) -> u32 {
        match self {
            Fault::ShortInput => DNSNAMES_SHORT_INPUT,
            Fault::BadLabelType => DNSNAMES_LABEL_TYPE,
            Fault::TooManyPointers => DNSNAMES_TOO_MANY_POINTERS,
            Fault::LongName => DNSNAMES_LONG_NAME,
            Fault::CompressedName => DNSNAMES_COMPRESSED,
            Fault::RelativeName => DNSNAMES_RELATIVE,
            Fault::TrailingData => DNSNAMES_TRAILING_DATA,
            Fault::NoRoom(_) => DNSNAMES_NO_ROOM,
            Fault::BadEscape => DNSNAMES_BAD_ESCAPE,
            Fault::BadSymbol => DNSNAMES_BAD_SYMBOL,
            Fault::BinaryLabel => DNSNAMES_BINARY_LABEL,
            Fault::LongLabel => DNSNAMES_LONG_LABEL,
            Fault::EmptyLabel => DNSNAMES_EMPTY_LABEL,
            Fault::AbsoluteName => DNSNAMES_ABSOLUTE,
            Fault::NoField => DNSNAMES_NO_FIELD,
            Fault::NoMnemonic => DNSNAMES_NO_MNEMONIC,
            Fault::WrongOrder => DNSNAMES_WRONG_ORDER,
            Fault::TooManyEntries => DNSNAMES_TOO_MANY_ENTRIES,
            Fault::BadForm => DNSNAMES_BAD_FORM,
            Fault::BadTag => DNSNAMES_BAD_TAG,
            Fault::EmptyHash => DNSNAMES_EMPTY_HASH,
            Fault::WindowOrder => DNSNAMES_WINDOW_ORDER,
            Fault::BitmapLength => DNSNAMES_BITMAP_LENGTH,
            Fault::KeyOrder => DNSNAMES_KEY_ORDER,
            Fault::Other(status) => status,
        }
    }

    /// What a status tells: nothing, or a fault.
    pub(crate) fn check(status: u32, needed: Option<usize>) -> Result<(), Fault> {
        Err(match status {
            DNSNAMES_OK => return Ok(()),
            DNSNAMES_SHORT_INPUT => Fault::ShortInput,
            DNSNAMES_LABEL_TYPE => Fault::BadLabelType,
            DNSNAMES_TOO_MANY_POINTERS => Fault::TooManyPointers,
            DNSNAMES_LONG_NAME => Fault::LongName,
            DNSNAMES_COMPRESSED => Fault::CompressedName,
            DNSNAMES_RELATIVE => Fault::RelativeName,
            DNSNAMES_TRAILING_DATA => Fault::TrailingData,
            DNSNAMES_NO_ROOM => Fault::NoRoom(needed),
            DNSNAMES_BAD_ESCAPE => Fault::BadEscape,
            DNSNAMES_BAD_SYMBOL => Fault::BadSymbol,
            DNSNAMES_BINARY_LABEL => Fault::BinaryLabel,
            DNSNAMES_LONG_LABEL => Fault::LongLabel,
            DNSNAMES_EMPTY_LABEL => Fault::EmptyLabel,
            DNSNAMES_ABSOLUTE => Fault::AbsoluteName,
            DNSNAMES_NO_FIELD => Fault::NoField,
            DNSNAMES_NO_MNEMONIC => Fault::NoMnemonic,
            DNSNAMES_WRONG_ORDER => Fault::WrongOrder,
            DNSNAMES_TOO_MANY_ENTRIES => Fault::TooManyEntries,
            DNSNAMES_BAD_FORM => Fault::BadForm,
            DNSNAMES_BAD_TAG => Fault::BadTag,
            DNSNAMES_EMPTY_HASH => Fault::EmptyHash,
            DNSNAMES_WINDOW_ORDER => Fault::WindowOrder,
            DNSNAMES_BITMAP_LENGTH => Fault::BitmapLength,
            DNSNAMES_KEY_ORDER => Fault::KeyOrder,
            status => Fault::Other(status),
        })
    }
}

impl fmt::Display for Fault {
    fn fmt(&self, f: &mut fmt::Formatter<'_>) -> fmt::Result {
        f.write_str(match self {
            Fault::ShortInput => "unexpected end of input",
            Fault::BadLabelType => "invalid label type",
            Fault::TooManyPointers => "too many compression pointers",
            Fault::LongName => "long domain name",
            Fault::CompressedName => "compressed domain name",
            Fault::RelativeName => "relative domain name",
            Fault::TrailingData => "trailing data",
            Fault::NoRoom(_) => "buffer too small",
            Fault::BadEscape => "invalid escape sequence",
            Fault::BadSymbol => "invalid character",
            Fault::BinaryLabel => "binary label",
            Fault::LongLabel => "long label",
            Fault::EmptyLabel => "empty label",
            Fault::AbsoluteName => "absolute domain name",
            Fault::NoField => "no such field in data of this type",
            Fault::NoMnemonic => "no name of a type, a class or a code",
            Fault::WrongOrder => "a later section was begun",
            Fault::TooManyEntries => "too many entries in a section",
            Fault::BadForm => "an entry or an option hasn\'t the form of one",
            Fault::BadTag => "invalid tag",
            Fault::EmptyHash => "empty hash",
            Fault::WindowOrder => "windows of a type bitmap don\'t ascend",
            Fault::BitmapLength => "a block of a type bitmap has no octet or more than 32",
            Fault::KeyOrder => "keys of service parameters don\'t ascend",
            Fault::Other(_) => "refused by the library",
        })
    }
}

impl core::error::Error for Fault {}
