//! Names that own their octets.

use crate::fault::Fault;
use crate::name::Name;
use crate::MAX_LEN;
use alloc::boxed::Box;
use core::cmp::Ordering;
use core::fmt;
use core::hash::{Hash, Hasher};
use core::str::FromStr;

/// A name with octets of its own, for fields and maps. It is equal, ordered, hashed and shown as its [`Name`].
///
/// ```
/// use dnsnames::NameBuf;
/// use std::collections::HashMap;
///
/// let mut hosts = HashMap::new();
/// hosts.insert("www.Example.com".parse::<NameBuf>()?, 1);
/// assert_eq!(hosts.get(&"WWW.example.com.".parse()?), Some(&1));
/// # Ok::<(), dnsnames::Fault>(())
/// ```
#[derive(Clone)]
pub struct NameBuf {
    octets: Box<[u8]>,
}

impl NameBuf {
    /// The name that a text spells, with the faults of [`Name::from_text`] but `NoRoom`.
    pub fn from_text(text: &str) -> Result<NameBuf, Fault> {
        Name::from_text(text, &mut [0; MAX_LEN]).map(NameBuf::from)
    }

    /// The name, of these octets.
    pub fn as_name(&self) -> Name<'_> {
        Name::of(&self.octets)
    }

    /// The wire format.
    pub fn as_slice(&self) -> &[u8] {
        &self.octets
    }
}

impl From<Name<'_>> for NameBuf {
    fn from(name: Name<'_>) -> NameBuf {
        NameBuf { octets: name.as_slice().into() }
    }
}

impl FromStr for NameBuf {
    type Err = Fault;

    fn from_str(text: &str) -> Result<NameBuf, Fault> {
        NameBuf::from_text(text)
    }
}

impl PartialEq for NameBuf {
    fn eq(&self, other: &NameBuf) -> bool {
        self.as_name() == other.as_name()
    }
}

impl Eq for NameBuf {}

impl Ord for NameBuf {
    fn cmp(&self, other: &NameBuf) -> Ordering {
        self.as_name().cmp(&other.as_name())
    }
}

impl PartialOrd for NameBuf {
    fn partial_cmp(&self, other: &NameBuf) -> Option<Ordering> {
        Some(self.cmp(other))
    }
}

impl PartialEq<Name<'_>> for NameBuf {
    fn eq(&self, other: &Name<'_>) -> bool {
        self.as_name() == *other
    }
}

impl Hash for NameBuf {
    fn hash<H: Hasher>(&self, state: &mut H) {
        self.as_name().hash(state);
    }
}

impl fmt::Display for NameBuf {
    fn fmt(&self, f: &mut fmt::Formatter<'_>) -> fmt::Result {
        fmt::Display::fmt(&self.as_name(), f)
    }
}

impl fmt::Debug for NameBuf {
    fn fmt(&self, f: &mut fmt::Formatter<'_>) -> fmt::Result {
        fmt::Debug::fmt(&self.as_name(), f)
    }
}
