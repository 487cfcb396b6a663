//! Names.

use crate::fault::Fault;
use crate::{MAX_LEN, MAX_TEXT};
use core::cmp::Ordering;
use core::fmt;
use core::hash::{Hash, Hasher};
use core::ops::Range;
use dnsnames_sys::*;

/// An absolute name in its wire format without compression (RFC 1035, 3.1): labels, the root last, at most 255 octets.
///
/// Names are equal, ordered and hashed without ASCII case, in the canonical order of RFC 4034, 6.1. `Display` writes
/// the text without a final dot, `{:#}` with it; the root is a dot alone.
///
/// ```
/// use dnsnames::Name;
///
/// let name = Name::from_slice(b"\x03www\x07Example\x03com\x00")?;
/// assert_eq!(name.to_string(), "www.Example.com");
/// assert_eq!(format!("{name:#}"), "www.Example.com.");
/// assert_eq!(name, Name::from_slice(b"\x03WWW\x07example\x03com\x00")?);
/// assert!(Name::from_slice(b"\x03com\x00")? < name);
/// # Ok::<(), dnsnames::Fault>(())
/// ```
#[derive(Clone, Copy)]
pub struct Name<'a> {
    octets: &'a [u8],
}

/// A name that was read in a message.
#[derive(Clone, Copy, Debug, PartialEq, Eq)]
pub struct Read<'a> {
    /// The name, in the buffer that was lent.
    pub name: Name<'a>,
    /// The offset after its root or first pointer.
    pub end: usize,
    /// Whether a pointer follows a label of it.
    pub compressed: bool,
}

/// Reads the name at an offset of a message into a buffer, through at most `limit` pointers (RFC 1035, 4.1.4). Each
/// pointer must lead back. A buffer of [`MAX_LEN`](crate::MAX_LEN) octets has room for each name.
///
/// The fault that a walk along the name meets first is `ShortInput` (also at and past the end), `BadLabelType`,
/// `TooManyPointers` or `LongName`; `NoRoom` has how many octets the name is.
///
/// ```
/// use dnsnames::{read, Fault, MAX_LEN, MAX_POINTERS};
///
/// let message = b"\x03com\x00\x07example\xc0\x00\xc0\x0f";
/// let mut buffer = [0; MAX_LEN];
/// let found = read(message, 5, MAX_POINTERS, &mut buffer)?;
/// assert_eq!((found.name.to_string().as_str(), found.end, found.compressed), ("example.com", 15, true));
/// assert_eq!(read(message, 15, MAX_POINTERS, &mut buffer), Err(Fault::TooManyPointers));
/// # Ok::<(), Fault>(())
/// ```
pub fn read<'b>(message: &[u8], offset: usize, limit: u8, buffer: &'b mut [u8]) -> Result<Read<'b>, Fault> {
    let (mut length, mut end, mut compressed) = (0, 0, 0);
    // SAFETY: each pointer and length are those of one slice or number, lent for the call, that overlaps no other.
    let status = unsafe {
        dnsnames_read(
            message.as_ptr(),
            message.len(),
            offset,
            limit,
            buffer.as_mut_ptr(),
            buffer.len(),
            &mut length,
            &mut end,
            &mut compressed,
        )
    };
    Fault::check(status, Some(length))?;
    Ok(Read { name: Name { octets: &buffer[..length] }, end, compressed: compressed != 0 })
}

/// The offset after the root or first pointer of the name at an offset of a message; the pointer isn't followed.
/// `ShortInput`, `BadLabelType`, `LongName`.
pub fn skip(message: &[u8], offset: usize) -> Result<usize, Fault> {
    let mut end = 0;
    // SAFETY: as in `read`.
    let status = unsafe { dnsnames_skip(message.as_ptr(), message.len(), offset, &mut end) };
    Fault::check(status, None)?;
    Ok(end)
}

/// Whether octets are labels without a root, at most 254 octets, or none at all: a relative name.
/// `ShortInput`, `BadLabelType`, `CompressedName`, `LongName`, `AbsoluteName`.
pub fn check_relative(octets: &[u8]) -> Result<(), Fault> {
    // SAFETY: as in `read`.
    Fault::check(unsafe { dnsnames_check_relative(octets.as_ptr(), octets.len()) }, None)
}

impl<'a> Name<'a> {
    /// Octets that the library has answered, or that were checked.
    pub(crate) fn of(octets: &'a [u8]) -> Name<'a> {
        Name { octets }
    }

    /// The root.
    pub const ROOT: Name<'static> = Name { octets: &[0] };

    /// The name of these octets, all of them. `ShortInput`, `BadLabelType`, `LongName`, `CompressedName`,
    /// `RelativeName`, `TrailingData`.
    pub fn from_slice(octets: &'a [u8]) -> Result<Name<'a>, Fault> {
        // SAFETY: as in `read`.
        Fault::check(unsafe { dnsnames_check(octets.as_ptr(), octets.len()) }, None)?;
        Ok(Name { octets })
    }

    /// The name that a text spells (RFC 1035, 5.1); a final dot may be left out. `ShortInput` where the text is empty
    /// or ends inside an escape, `LongName`, `LongLabel`, `EmptyLabel`, `BadEscape`, `BadSymbol`, `BinaryLabel`,
    /// `NoRoom`.
    ///
    /// ```
    /// use dnsnames::{Fault, Name, MAX_LEN};
    ///
    /// let mut buffer = [0; MAX_LEN];
    /// assert_eq!(Name::from_text("a.b", &mut buffer)?.as_slice(), b"\x01a\x01b\x00");
    /// assert_eq!(Name::from_text("a..b", &mut buffer), Err(Fault::EmptyLabel));
    /// # Ok::<(), Fault>(())
    /// ```
    pub fn from_text(text: &str, buffer: &'a mut [u8]) -> Result<Name<'a>, Fault> {
        let mut length = 0;
        // SAFETY: as in `read`.
        let status =
            unsafe { dnsnames_from_text(text.as_ptr(), text.len(), buffer.as_mut_ptr(), buffer.len(), &mut length) };
        Fault::check(status, Some(length))?;
        Ok(Name { octets: &buffer[..length] })
    }

    /// The wire format.
    pub fn as_slice(&self) -> &'a [u8] {
        self.octets
    }

    /// The text in a buffer; one of [`MAX_TEXT`] octets has room for each. `NoRoom`.
    pub fn to_text<'b>(&self, final_dot: bool, buffer: &'b mut [u8]) -> Result<&'b str, Fault> {
        let mut length = 0;
        // SAFETY: as in `read`.
        let status = unsafe {
            dnsnames_to_text(
                self.octets.as_ptr(),
                self.octets.len(),
                final_dot.into(),
                buffer.as_mut_ptr(),
                buffer.len(),
                &mut length,
            )
        };
        Fault::check(status, Some(length))?;
        Ok(core::str::from_utf8(&buffer[..length]).expect("the text of a name is ASCII"))
    }

    /// The canonical form in a buffer: A to Z become a to z (RFC 4034, 6.2). `NoRoom`.
    pub fn to_lowercase<'b>(&self, buffer: &'b mut [u8]) -> Result<Name<'b>, Fault> {
        let mut length = 0;
        // SAFETY: as in `read`.
        let status = unsafe {
            dnsnames_lower(self.octets.as_ptr(), self.octets.len(), buffer.as_mut_ptr(), buffer.len(), &mut length)
        };
        Fault::check(status, Some(length))?;
        Ok(Name { octets: &buffer[..length] })
    }

    /// Whether the name ends with all labels of another: it is that name, or lies below it.
    pub fn ends_with(&self, suffix: Name<'_>) -> bool {
        let mut ends = 0;
        // SAFETY: as in `read`. Both are names, so the answer is 0.
        unsafe {
            dnsnames_ends_with(
                self.octets.as_ptr(),
                self.octets.len(),
                suffix.octets.as_ptr(),
                suffix.octets.len(),
                &mut ends,
            )
        };
        ends == 1
    }

    /// How many labels there are, the root among them: 1 to 128.
    pub fn label_count(&self) -> usize {
        self.labels().len()
    }

    /// The label that has so many labels before it.
    pub fn label(&self, index: usize) -> Option<&'a [u8]> {
        self.labels().nth(index)
    }

    /// The label that has so many labels after it: the root has none.
    pub fn label_back(&self, index: usize) -> Option<&'a [u8]> {
        self.labels().nth_back(index)
    }

    /// The labels, from the front or the back, the root among them. The name is walked once.
    ///
    /// ```
    /// let name = dnsnames::Name::from_slice(b"\x03www\x03com\x00")?;
    /// assert!(name.labels().eq([&b"www"[..], b"com", b""]));
    /// assert!(name.labels().rev().skip(1).eq([&b"com"[..], b"www"]));
    /// # Ok::<(), dnsnames::Fault>(())
    /// ```
    pub fn labels(&self) -> Labels<'a> {
        let (mut begins, mut count, mut at) = ([0; 128], 0, 0);
        while at < self.octets.len() {
            begins[count] = at as u8;
            count += 1;
            at += 1 + usize::from(self.octets[at]);
        }
        Labels { octets: self.octets, begins, left: 0..count }
    }

    /// The name without its first label; the root has no parent.
    pub fn parent(&self) -> Option<Name<'a>> {
        let rest = &self.octets[1 + usize::from(self.octets[0])..];
        (!rest.is_empty()).then_some(Name { octets: rest })
    }

    /// The name with octets of its own.
    #[cfg(feature = "alloc")]
    pub fn to_buf(&self) -> crate::NameBuf {
        crate::NameBuf::from(*self)
    }
}

/// The labels of a name.
#[derive(Clone, Debug)]
pub struct Labels<'a> {
    octets: &'a [u8],
    /// Where each label begins, of the at most 128.
    begins: [u8; 128],
    left: Range<usize>,
}

impl<'a> Labels<'a> {
    fn label(&self, index: usize) -> &'a [u8] {
        let begin = usize::from(self.begins[index]);
        &self.octets[begin + 1..][..usize::from(self.octets[begin])]
    }
}

impl<'a> Iterator for Labels<'a> {
    type Item = &'a [u8];

    fn next(&mut self) -> Option<&'a [u8]> {
        self.left.next().map(|index| self.label(index))
    }

    fn nth(&mut self, n: usize) -> Option<&'a [u8]> {
        self.left.nth(n).map(|index| self.label(index))
    }

    fn size_hint(&self) -> (usize, Option<usize>) {
        self.left.size_hint()
    }
}

impl<'a> DoubleEndedIterator for Labels<'a> {
    fn next_back(&mut self) -> Option<&'a [u8]> {
        self.left.next_back().map(|index| self.label(index))
    }

    fn nth_back(&mut self, n: usize) -> Option<&'a [u8]> {
        self.left.nth_back(n).map(|index| self.label(index))
    }
}

impl ExactSizeIterator for Labels<'_> {}

impl PartialEq for Name<'_> {
    fn eq(&self, other: &Name<'_>) -> bool {
        let mut equal = 0;
        // SAFETY: as in `Name::ends_with`.
        unsafe {
            dnsnames_eq(self.octets.as_ptr(), self.octets.len(), other.octets.as_ptr(), other.octets.len(), &mut equal)
        };
        equal == 1
    }
}

impl Eq for Name<'_> {}

impl Ord for Name<'_> {
    fn cmp(&self, other: &Name<'_>) -> Ordering {
        let mut order = 0;
        // SAFETY: as in `Name::ends_with`.
        unsafe {
            dnsnames_compare(
                self.octets.as_ptr(),
                self.octets.len(),
                other.octets.as_ptr(),
                other.octets.len(),
                &mut order,
            )
        };
        order.cmp(&0)
    }
}

impl PartialOrd for Name<'_> {
    fn partial_cmp(&self, other: &Name<'_>) -> Option<Ordering> {
        Some(self.cmp(other))
    }
}

/// The octets in lower case go to the caller's hasher, so the key is its own: that of a `HashMap` is drawn at random.
impl Hash for Name<'_> {
    fn hash<H: Hasher>(&self, state: &mut H) {
        // Length octets are below 64, so none of them is a letter.
        let mut lower = [0; MAX_LEN];
        for (low, octet) in lower.iter_mut().zip(self.octets) {
            *low = octet.to_ascii_lowercase();
        }
        state.write(&lower[..self.octets.len()]);
    }
}

impl fmt::Display for Name<'_> {
    fn fmt(&self, f: &mut fmt::Formatter<'_>) -> fmt::Result {
        let mut buffer = [0; MAX_TEXT];
        let text = self.to_text(f.alternate(), &mut buffer).map_err(|_| fmt::Error)?;
        f.pad(text)
    }
}

impl fmt::Debug for Name<'_> {
    fn fmt(&self, f: &mut fmt::Formatter<'_>) -> fmt::Result {
        write!(f, "Name({self:#})")
    }
}

impl<'a> TryFrom<&'a [u8]> for Name<'a> {
    type Error = Fault;

    fn try_from(octets: &'a [u8]) -> Result<Name<'a>, Fault> {
        Name::from_slice(octets)
    }
}
