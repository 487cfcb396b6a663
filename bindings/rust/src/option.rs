//! EDNS options by name.

use crate::fault::Fault;
use crate::message::EdnsOption;
use core::net::IpAddr;
use dnsnames_sys::*;

/// EDNS options that are written one after another into octets of the caller's, for
/// [`MessageBuilder::opt`](crate::MessageBuilder::opt). Each is written whole, or not at all: after a fault all is as it
/// was.
///
/// `NoRoom` where one doesn't fit, or there would be more than 65,535 octets.
///
/// ```
/// use dnsnames::{EdnsOptions, Fault, MessageBuilder};
/// use std::net::IpAddr;
///
/// let (mut octets, mut room) = ([0; 512], [0; 64]);
/// let mut options = EdnsOptions::new(&mut room);
/// options.push_cookie(b"8 octets", b"")?;
/// options.push_client_subnet(IpAddr::from([192, 0, 2, 1]), 24, 0)?;
/// let mut builder = MessageBuilder::new(&mut octets, 0x1234, 0x100)?;
/// builder.opt(1232, 0, 0, false, options.as_slice())?;
/// assert_eq!(&builder.finish()?[23..], b"\0\x0a\0\x088 octets\0\x08\0\x07\0\x01\x18\0\xc0\0\x02");
/// # Ok::<(), Fault>(())
/// ```
#[derive(Debug)]
pub struct EdnsOptions<'a> {
    octets: &'a mut [u8],
    len: usize,
}

impl<'a> EdnsOptions<'a> {
    /// The code of a name server's identifier (RFC 5001): any octets; none in a query.
    pub const NSID: u16 = DNSNAMES_OPTION_NSID;
    /// The code of [`ClientSubnet`].
    pub const CLIENT_SUBNET: u16 = DNSNAMES_OPTION_CLIENT_SUBNET;
    /// The code of [`Cookie`].
    pub const COOKIE: u16 = DNSNAMES_OPTION_COOKIE;
    /// The code of a timeout in units of 100 milliseconds, of 16 bits (RFC 7828).
    pub const TCP_KEEPALIVE: u16 = DNSNAMES_OPTION_TCP_KEEPALIVE;
    /// The code of padding (RFC 7830).
    pub const PADDING: u16 = DNSNAMES_OPTION_PADDING;
    /// The code of [`ExtendedError`].
    pub const EXTENDED_ERROR: u16 = DNSNAMES_OPTION_EXTENDED_ERROR;

    /// No options so far.
    pub fn new(octets: &'a mut [u8]) -> EdnsOptions<'a> {
        EdnsOptions { octets, len: 0 }
    }

    /// The options, in wire format (RFC 6891, 6.1.2).
    pub fn as_slice(&self) -> &[u8] {
        &self.octets[..self.len]
    }

    /// Writes an option of any code.
    pub fn push(&mut self, code: u16, data: &[u8]) -> Result<(), Fault> {
        let (octets, capacity) = (self.octets.as_mut_ptr(), self.octets.len());
        // SAFETY: as in `read`.
        let status =
            unsafe { dnsnames_append_option(octets, capacity, &mut self.len, code, data.as_ptr(), data.len()) };
        Fault::check(status, None)
    }

    /// Writes the cookie of a client, which the program draws at random, and that of a server, if it isn't empty (RFC
    /// 7873, 4). `BadForm` where the server's has 1 to 7 octets, or more than 32.
    pub fn push_cookie(&mut self, client: &[u8; 8], server: &[u8]) -> Result<(), Fault> {
        let (octets, capacity) = (self.octets.as_mut_ptr(), self.octets.len());
        let (client, server, server_len) = (client.as_ptr(), server.as_ptr(), server.len());
        // SAFETY: as in `read`. The client's has eight octets.
        let status = unsafe { dnsnames_append_cookie(octets, capacity, &mut self.len, client, server, server_len) };
        Fault::check(status, None)
    }

    /// Writes the subnet of a client (RFC 7871, 6): so many first bits of its address, and for how many an answer is
    /// meant, which is 0 in a query. The other bits aren't written. `BadForm` where the address has fewer.
    pub fn push_client_subnet(&mut self, address: IpAddr, source: u8, scope: u8) -> Result<(), Fault> {
        match address {
            IpAddr::V4(address) => self.subnet(1, source, scope, &address.octets()),
            IpAddr::V6(address) => self.subnet(2, source, scope, &address.octets()),
        }
    }

    fn subnet(&mut self, family: u16, source: u8, scope: u8, address: &[u8]) -> Result<(), Fault> {
        // SAFETY: as in `read`.
        let status = unsafe {
            dnsnames_append_client_subnet(
                self.octets.as_mut_ptr(),
                self.octets.len(),
                &mut self.len,
                family,
                source,
                scope,
                address.as_ptr(),
                address.len(),
            )
        };
        Fault::check(status, None)
    }

    /// Writes an extended error: its code, and its text, which may be empty (RFC 8914, 2).
    pub fn push_extended_error(&mut self, info_code: u16, text: &str) -> Result<(), Fault> {
        let (octets, capacity) = (self.octets.as_mut_ptr(), self.octets.len());
        let (text, text_len) = (text.as_ptr(), text.len());
        // SAFETY: as in `read`.
        let status =
            unsafe { dnsnames_append_extended_error(octets, capacity, &mut self.len, info_code, text, text_len) };
        Fault::check(status, None)
    }
}

/// Cookies (RFC 7873, 4): the client's, of 8 octets, and the server's, of 8 to 32, or of none.
#[derive(Clone, Copy, Debug, PartialEq, Eq)]
pub struct Cookie<'a> {
    pub client: &'a [u8],
    pub server: &'a [u8],
}

/// The subnet of a client (RFC 7871, 6).
#[derive(Clone, Copy, Debug, PartialEq, Eq)]
pub struct ClientSubnet<'a> {
    /// The family of the address: 1 for IPv4, 2 for IPv6, 0 where no bit of it is encoded.
    pub family: u16,
    /// How many bits of the address are encoded.
    pub source_prefix_len: u8,
    /// For how many bits an answer is meant; 0 in a query.
    pub scope_prefix_len: u8,
    /// The encoded bits in the fewest octets that hold them; the others are zero.
    pub address: &'a [u8],
}

impl ClientSubnet<'_> {
    /// The address, with zero for each bit that isn't encoded. `None` for the family 0.
    pub fn ip(&self) -> Option<IpAddr> {
        let mut octets = [0; 16];
        for (octet, told) in octets.iter_mut().zip(self.address) {
            *octet = *told;
        }
        let [a, b, c, d, ..] = octets;
        match self.family {
            1 => Some(IpAddr::from([a, b, c, d])),
            2 => Some(IpAddr::from(octets)),
            _ => None,
        }
    }
}

/// An extended error (RFC 8914, 2).
#[derive(Clone, Copy, Debug, PartialEq, Eq)]
pub struct ExtendedError<'a> {
    /// The kind of error.
    pub info_code: u16,
    /// What people may read of it, in UTF-8 by its sender's word alone. It may end in a zero octet.
    pub text: &'a [u8],
}

impl<'a> EdnsOption<'a> {
    /// The cookies that this option is; `None` for another code. `ShortInput` where it has fewer than 8 octets, `BadForm`
    /// where it has 9 to 15 or more than 40.
    ///
    /// ```
    /// use dnsnames::{Cookie, EdnsOption, Fault};
    ///
    /// let option = EdnsOption { code: 10, data: b"8 octets" };
    /// assert_eq!(option.cookie(), Ok(Some(Cookie { client: b"8 octets", server: b"" })));
    /// assert_eq!(EdnsOption { code: 10, data: b"nine here" }.cookie(), Err(Fault::BadForm));
    /// ```
    pub fn cookie(&self) -> Result<Option<Cookie<'a>>, Fault> {
        if self.code != DNSNAMES_OPTION_COOKIE {
            return Ok(None);
        }
        let mut server_len = 0;
        // SAFETY: as in `read`.
        let status = unsafe { dnsnames_cookie(self.data.as_ptr(), self.data.len(), &mut server_len) };
        Fault::check(status, None)?;
        let (client, server) = self.data.split_at(self.data.len() - server_len);
        Ok(Some(Cookie { client, server }))
    }

    /// The subnet of a client that this option is; `None` for another code. `ShortInput` where it ends too soon, `BadForm`
    /// where the family is unknown, more bits are encoded than its addresses have, or the address is longer than these.
    pub fn client_subnet(&self) -> Result<Option<ClientSubnet<'a>>, Fault> {
        if self.code != DNSNAMES_OPTION_CLIENT_SUBNET {
            return Ok(None);
        }
        let mut found = dnsnames_subnet_fields::default();
        // SAFETY: as in `read`.
        let status = unsafe { dnsnames_client_subnet(self.data.as_ptr(), self.data.len(), &mut found) };
        Fault::check(status, None)?;
        let dnsnames_subnet_fields { family, source_prefix_len, scope_prefix_len } = found;
        Ok(Some(ClientSubnet { family, source_prefix_len, scope_prefix_len, address: &self.data[4..] }))
    }

    /// The extended error that this option is; `None` for another code. `ShortInput` where it has fewer than two octets.
    pub fn extended_error(&self) -> Result<Option<ExtendedError<'a>>, Fault> {
        if self.code != DNSNAMES_OPTION_EXTENDED_ERROR {
            return Ok(None);
        }
        let mut info_code = 0;
        // SAFETY: as in `read`.
        let status = unsafe { dnsnames_extended_error(self.data.as_ptr(), self.data.len(), &mut info_code) };
        Fault::check(status, None)?;
        Ok(Some(ExtendedError { info_code, text: &self.data[2..] }))
    }
}
