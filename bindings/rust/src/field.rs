//! Fields of record data (RFC 1035, 3.3).

use dnsnames_sys::*;

/// What a field of record data is.
#[derive(Clone, Copy, Debug, PartialEq, Eq, Hash)]
#[non_exhaustive]
pub enum FieldKind {
    /// A number of 8 bits.
    Number8,
    /// A number of 16 bits.
    Number16,
    /// A number of 32 bits.
    Number32,
    /// A number of 48 bits.
    Number48,
    /// A number of 64 bits.
    Number64,
    /// A time to live or an interval, in seconds.
    Ttl,
    /// A serial number of 32 bits (RFC 1982).
    Serial,
    /// A point in time, as a serial number of seconds (RFC 4034, 3.1.5).
    Time,
    /// A type of records.
    Type,
    /// An IPv4 address.
    Ipv4,
    /// An IPv6 address.
    Ipv6,
    /// A name.
    Name,
    /// A character string, with the octet that counts it.
    CharString,
    /// The same, or no octet at all where the data end.
    OptionalString,
    /// Character strings to the end of the data.
    CharStrings,
    /// A tag, with the octet that counts it (RFC 8659, 4.1).
    Tag,
    /// The octets to the end of the data, shown between quotes.
    QuotedText,
    /// Octets behind one that counts them, shown in hexadecimal.
    CountedBase16,
    /// Octets behind one that counts them, shown in base32hex.
    CountedBase32,
    /// Octets behind two that count them, shown in base64.
    CountedBase64,
    /// Bitmaps of types, one block or more (RFC 4034, 4.1.2).
    TypeBitmaps,
    /// The same, or no octet at all.
    OptionalTypeBitmaps,
    /// Service parameters (RFC 9460, 2.2).
    SvcParams,
    /// The octets to the end of the data, shown in hexadecimal.
    Base16,
    /// The octets to the end of the data, shown in base64.
    Base64,
    /// The octets to the end of the data, of which no more is known.
    Octets,
    /// What a newer library answers, by its number.
    Other(u32),
}

impl FieldKind {
    /// The kind of a number of dnsnames.h.
    fn of(number: u32) -> FieldKind {
        match number {
            DNSNAMES_FIELD_NUMBER8 => FieldKind::Number8,
            DNSNAMES_FIELD_NUMBER16 => FieldKind::Number16,
            DNSNAMES_FIELD_NUMBER32 => FieldKind::Number32,
            DNSNAMES_FIELD_NUMBER48 => FieldKind::Number48,
            DNSNAMES_FIELD_NUMBER64 => FieldKind::Number64,
            DNSNAMES_FIELD_TTL => FieldKind::Ttl,
            DNSNAMES_FIELD_SERIAL => FieldKind::Serial,
            DNSNAMES_FIELD_TIME => FieldKind::Time,
            DNSNAMES_FIELD_TYPE => FieldKind::Type,
            DNSNAMES_FIELD_IPV4 => FieldKind::Ipv4,
            DNSNAMES_FIELD_IPV6 => FieldKind::Ipv6,
            DNSNAMES_FIELD_NAME => FieldKind::Name,
            DNSNAMES_FIELD_CHAR_STRING => FieldKind::CharString,
            DNSNAMES_FIELD_OPTIONAL_STRING => FieldKind::OptionalString,
            DNSNAMES_FIELD_CHAR_STRINGS => FieldKind::CharStrings,
            DNSNAMES_FIELD_TAG => FieldKind::Tag,
            DNSNAMES_FIELD_QUOTED_TEXT => FieldKind::QuotedText,
            DNSNAMES_FIELD_COUNTED_BASE16 => FieldKind::CountedBase16,
            DNSNAMES_FIELD_COUNTED_BASE32 => FieldKind::CountedBase32,
            DNSNAMES_FIELD_COUNTED_BASE64 => FieldKind::CountedBase64,
            DNSNAMES_FIELD_TYPE_BITMAPS => FieldKind::TypeBitmaps,
            DNSNAMES_FIELD_OPTIONAL_TYPE_BITMAPS => FieldKind::OptionalTypeBitmaps,
            DNSNAMES_FIELD_SVC_PARAMS => FieldKind::SvcParams,
            DNSNAMES_FIELD_BASE16 => FieldKind::Base16,
            DNSNAMES_FIELD_BASE64 => FieldKind::Base64,
            DNSNAMES_FIELD_OCTETS => FieldKind::Octets,
            number => FieldKind::Other(number),
        }
    }
}

/// A field of record data.
#[derive(Clone, Copy, Debug, PartialEq, Eq, Hash)]
pub struct Field<'a> {
    /// What it is.
    pub kind: FieldKind,
    /// The offset in the message at which it begins. `read` reads a name there.
    pub offset: usize,
    /// Its octets, with those that count others, and as they are in the message: a name may end in a pointer.
    pub octets: &'a [u8],
    /// The number that it is, or none.
    pub number: Option<u64>,
}

impl<'a> Field<'a> {
    /// The field that the library found in a message.
    pub(crate) fn of(message: &'a [u8], found: dnsnames_field) -> Field<'a> {
        Field {
            kind: FieldKind::of(found.kind),
            offset: found.begin,
            octets: &message[found.begin..found.end],
            number: (found.kind <= DNSNAMES_FIELD_TYPE).then_some(found.number),
        }
    }
}
