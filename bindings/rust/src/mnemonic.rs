//! Types, classes and codes as text.

use crate::fault::Fault;
use core::fmt;
use core::str::FromStr;
use dnsnames_sys::*;

type TextCall = unsafe extern "C" fn(u16, *mut u8, usize, *mut usize) -> dnsnames_status;
type FromTextCall = unsafe extern "C" fn(*const u8, usize, *mut u16) -> dnsnames_status;

/// Writes the text of a number.
fn write_text(call: TextCall, number: u16, f: &mut fmt::Formatter<'_>) -> fmt::Result {
    let (mut buffer, mut length) = ([0; DNSNAMES_MAX_MNEMONIC], 0);
    // SAFETY: as in `read`.
    let status = unsafe { call(number, buffer.as_mut_ptr(), buffer.len(), &mut length) };
    if status != DNSNAMES_OK {
        return Err(fmt::Error);
    }
    let text = core::str::from_utf8(&buffer[..length]).map_err(|_| fmt::Error)?;
    f.pad(text)
}

/// The number that a text names.
fn read_text(call: FromTextCall, text: &str) -> Result<u16, Fault> {
    let mut number = 0;
    // SAFETY: as in `read`.
    let status = unsafe { call(text.as_ptr(), text.len(), &mut number) };
    Fault::check(status, None)?;
    Ok(number)
}

macro_rules! number {
    ($(#[$note:meta])* $name:ident, $text:ident, $from_text:ident) => {
        $(#[$note])*
        #[derive(Clone, Copy, Debug, PartialEq, Eq, PartialOrd, Ord, Hash)]
        pub struct $name(pub u16);

        impl fmt::Display for $name {
            fn fmt(&self, f: &mut fmt::Formatter<'_>) -> fmt::Result {
                write_text($text, self.0, f)
            }
        }

        impl From<u16> for $name {
            fn from(number: u16) -> $name {
                $name(number)
            }
        }

        impl From<$name> for u16 {
            fn from(number: $name) -> u16 {
                number.0
            }
        }

        /// `NoMnemonic` where the text names none.
        impl FromStr for $name {
            type Err = Fault;

            fn from_str(text: &str) -> Result<$name, Fault> {
                read_text($from_text, text).map($name)
            }
        }
    };
}

/// Those that dnsnames.h names.
macro_rules! named {
    ($kind:ident: $($name:ident = $number:ident),+) => {
        impl $kind {
            $(pub const $name: $kind = $kind($number);)+
        }
    };
}

number!(
    /// The type of a record (RFC 1035, 3.2.2). Its text is its mnemonic, or `TYPE` and the number (RFC 3597, 5).
    ///
    /// ```
    /// use dnsnames::{Fault, Type};
    ///
    /// assert_eq!(("mx".parse(), "TYPE65280".parse()), (Ok(Type(15)), Ok(Type(65280))));
    /// assert_eq!((Type::MX, Type(28).to_string().as_str()), (Type(15), "AAAA"));
    /// assert_eq!("MXX".parse::<Type>(), Err(Fault::NoMnemonic));
    /// ```
    Type, dnsnames_type_text, dnsnames_type_from_text
);
number!(
    /// The class of a record (RFC 1035, 3.2.4). Its text is its mnemonic, or `CLASS` and the number (RFC 3597, 5).
    Class, dnsnames_class_text, dnsnames_class_from_text
);
number!(
    /// The kind of query (RFC 1035, 4.1.1), a number of four bits. Its text is its mnemonic, or `OPCODE` and the number.
    Opcode, dnsnames_opcode_text, dnsnames_opcode_from_text
);
number!(
    /// The response code: four bits of the header (RFC 1035, 4.1.1), and eight more where there is an OPT record (RFC 6891,
    /// 6.1.3). Its text is its mnemonic, or `RCODE` and the number.
    Rcode, dnsnames_rcode_text, dnsnames_rcode_from_text
);

named!(
    Type:
    A = DNSNAMES_TYPE_A, NS = DNSNAMES_TYPE_NS, CNAME = DNSNAMES_TYPE_CNAME, SOA = DNSNAMES_TYPE_SOA,
    PTR = DNSNAMES_TYPE_PTR, HINFO = DNSNAMES_TYPE_HINFO, MX = DNSNAMES_TYPE_MX, TXT = DNSNAMES_TYPE_TXT,
    AAAA = DNSNAMES_TYPE_AAAA, SRV = DNSNAMES_TYPE_SRV, NAPTR = DNSNAMES_TYPE_NAPTR, DNAME = DNSNAMES_TYPE_DNAME,
    OPT = DNSNAMES_TYPE_OPT, DS = DNSNAMES_TYPE_DS, SSHFP = DNSNAMES_TYPE_SSHFP, RRSIG = DNSNAMES_TYPE_RRSIG,
    NSEC = DNSNAMES_TYPE_NSEC, DNSKEY = DNSNAMES_TYPE_DNSKEY, NSEC3 = DNSNAMES_TYPE_NSEC3, TLSA = DNSNAMES_TYPE_TLSA,
    SVCB = DNSNAMES_TYPE_SVCB, HTTPS = DNSNAMES_TYPE_HTTPS, TSIG = DNSNAMES_TYPE_TSIG, IXFR = DNSNAMES_TYPE_IXFR,
    AXFR = DNSNAMES_TYPE_AXFR, ANY = DNSNAMES_TYPE_ANY, CAA = DNSNAMES_TYPE_CAA
);
named!(
    Class:
    IN = DNSNAMES_CLASS_IN, CH = DNSNAMES_CLASS_CH, HS = DNSNAMES_CLASS_HS, NONE = DNSNAMES_CLASS_NONE,
    ANY = DNSNAMES_CLASS_ANY
);
named!(
    Opcode:
    QUERY = DNSNAMES_OPCODE_QUERY, IQUERY = DNSNAMES_OPCODE_IQUERY, STATUS = DNSNAMES_OPCODE_STATUS,
    NOTIFY = DNSNAMES_OPCODE_NOTIFY, UPDATE = DNSNAMES_OPCODE_UPDATE, DSO = DNSNAMES_OPCODE_DSO
);
named!(
    Rcode:
    NOERROR = DNSNAMES_RCODE_NOERROR, FORMERR = DNSNAMES_RCODE_FORMERR, SERVFAIL = DNSNAMES_RCODE_SERVFAIL,
    NXDOMAIN = DNSNAMES_RCODE_NXDOMAIN, NOTIMP = DNSNAMES_RCODE_NOTIMP, REFUSED = DNSNAMES_RCODE_REFUSED,
    YXDOMAIN = DNSNAMES_RCODE_YXDOMAIN, YXRRSET = DNSNAMES_RCODE_YXRRSET, NXRRSET = DNSNAMES_RCODE_NXRRSET,
    NOTAUTH = DNSNAMES_RCODE_NOTAUTH, NOTZONE = DNSNAMES_RCODE_NOTZONE, DSOTYPENI = DNSNAMES_RCODE_DSOTYPENI,
    BADVERS = DNSNAMES_RCODE_BADVERS, BADCOOKIE = DNSNAMES_RCODE_BADCOOKIE
);
