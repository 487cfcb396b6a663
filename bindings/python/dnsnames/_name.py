"""Names."""

from __future__ import annotations

from ctypes import byref, c_int32, c_size_t, c_uint32
from typing import Any, Iterator, NamedTuple, Tuple, Union

from ._library import (
    MAX_LEN, MAX_POINTERS, MAX_TEXT, Buffer, NoLabel, Octets, Text, as_octets, as_size, library, refuse,
)


_set = object.__setattr__


class Name:
    """An absolute domain name: labels of octets, the root label last. It doesn't change.

    Names are equal, ordered and hashed without ASCII case, in the canonical order of RFC 4034, 6.1. The hash is Python's
    own of the octets in lower case, which has a key that strangers don't know (PYTHONHASHSEED unset).

    >>> Name.from_text("www.Example.com") == Name.from_text("WWW.example.com.")
    True
    >>> sorted(map(Name.from_text, ["z.example", "a.example", "example", "Z.a.example"]))
    [Name('example.'), Name('a.example.'), Name('Z.a.example.'), Name('z.example.')]
    >>> list(Name.from_text("www.example.com"))
    [b'www', b'example', b'com', b'']
    """

    __slots__ = ("_octets", "_hash")
    _octets: bytes
    _hash: int

    def __init__(self, text: str) -> None:
        """The name that a text spells, as `from_text`."""
        _set(self, "_octets", Name.from_text(text)._octets)

    @classmethod
    def _of(cls, octets: bytes) -> Name:
        name = object.__new__(cls)
        _set(name, "_octets", octets)
        return name

    def __setattr__(self, name: str, value: object) -> None:
        raise AttributeError("a name doesn't change")

    def __delattr__(self, name: str) -> None:
        raise AttributeError("a name doesn't change")

    def __reduce__(self) -> tuple:
        return Name.from_wire, (self._octets,)

    @classmethod
    def from_text(cls, text: str) -> Name:
        """The name that a text spells (RFC 1035, 5.1). A final dot may be left out; a dot alone is the root.

        Raises ShortInput where the text is empty or ends inside an escape, LongName, LongLabel, EmptyLabel,
        BadEscape, BadSymbol, BinaryLabel; TypeError for what is no text.

        >>> bytes(Name.from_text("a.b"))
        b'\\x01a\\x01b\\x00'
        >>> Name.from_text("a..b")
        Traceback (most recent call last):
        dnsnames.EmptyLabel: empty label
        """
        if not isinstance(text, str):
            raise TypeError(f"the text of a name is a str, not {type(text).__name__}")
        octets = text.encode("utf-8", "surrogatepass")
        buffer, length = Buffer(), c_size_t()
        status = library.dnsnames_from_text(octets, len(octets), buffer, MAX_LEN, byref(length))
        if status:
            refuse(status)
        return cls._of(buffer[: length.value])

    @classmethod
    def from_wire(cls, octets: Octets) -> Name:
        """The name of these octets, all of them: its wire format without compression (RFC 1035, 3.1).

        Raises ShortInput, BadLabelType, LongName, CompressedName, RelativeName, TrailingData.

        >>> Name.from_wire(b"\\x03www\\x00")
        Name('www.')
        """
        octets = as_octets(octets)
        status = library.dnsnames_check(octets, len(octets))
        if status:
            refuse(status)
        return cls._of(octets)

    @classmethod
    def from_message(cls, message: Octets, offset: int = 12, limit: int = MAX_POINTERS) -> Name:
        """The name at an offset of a message; `read` gives the offset behind it, too.

        >>> Name.from_message(b"\\x03com\\x00\\x07example\\xc0\\x00", 5)
        Name('example.com.')
        """
        return read(message, offset, limit).name

    def __bytes__(self) -> bytes:
        """The wire format without compression: 1 to 255 octets."""
        return self._octets

    def to_text(self, final_dot: bool = True) -> str:
        """The text in ASCII, with escapes; that of the root is a dot alone.

        >>> Name.from_wire(b"\\x03a.b\\x01\\xff\\x00").to_text(final_dot=False)
        'a\\\\.b.\\\\255'
        """
        buffer, length = Text(), c_size_t()
        library.dnsnames_to_text(self._octets, len(self._octets), final_dot, buffer, MAX_TEXT, byref(length))
        return buffer[: length.value].decode("ascii")

    def __str__(self) -> str:
        """The text with a final dot."""
        return self.to_text()

    def __repr__(self) -> str:
        return f"Name({str(self)!r})"

    def __eq__(self, other: object) -> bool:
        if not isinstance(other, Name):
            return NotImplemented
        return self._octets.lower() == other._octets.lower()

    def _order(self, other: Name) -> int:
        order = c_int32()
        library.dnsnames_compare(self._octets, len(self._octets), other._octets, len(other._octets), byref(order))
        return order.value

    def __lt__(self, other: Name) -> bool:
        return self._order(other) < 0 if isinstance(other, Name) else NotImplemented

    def __le__(self, other: Name) -> bool:
        return self._order(other) <= 0 if isinstance(other, Name) else NotImplemented

    def __gt__(self, other: Name) -> bool:
        return self._order(other) > 0 if isinstance(other, Name) else NotImplemented

    def __ge__(self, other: Name) -> bool:
        return self._order(other) >= 0 if isinstance(other, Name) else NotImplemented

    def __hash__(self) -> int:
        try:
            return self._hash
        except AttributeError:
            # Length octets are below 64, so none of them is a letter.
            _set(self, "_hash", hash(self._octets.lower()))
            return self._hash

    def is_subdomain_of(self, zone: AnyName) -> bool:
        """Whether the name is the zone's or lies below it: whether it ends with all labels of the other, a name or its
        text.

        >>> Name("www.example.com").is_subdomain_of(Name("EXAMPLE.com"))
        True
        >>> Name("wwwexample").is_subdomain_of("example")
        False
        """
        suffix, ends = as_name(zone)._octets, c_uint32()
        library.dnsnames_ends_with(self._octets, len(self._octets), suffix, len(suffix), byref(ends))
        return ends.value == 1

    def lower(self) -> Name:
        """The canonical form: A to Z become a to z (RFC 4034, 6.2)."""
        buffer, length = Buffer(), c_size_t()
        library.dnsnames_lower(self._octets, len(self._octets), buffer, MAX_LEN, byref(length))
        return Name._of(buffer[: length.value])

    @property
    def labels(self) -> Tuple[bytes, ...]:
        """The octets of the labels, that of the root last: 1 to 128.

        >>> Name("www.com").labels
        (b'www', b'com', b'')
        """
        octets, labels, size, at = self._octets, [], 1, 0
        while size:
            size = octets[at]
            labels.append(octets[at + 1 : at + 1 + size])
            at += 1 + size
        return tuple(labels)

    def __len__(self) -> int:
        """How many labels there are, the root among them."""
        return len(self.labels)

    def __getitem__(self, index: int) -> bytes:
        """The octets of a label; a negative index counts from the root, which is -1. Raises NoLabel.

        >>> Name("www.example.com")[0], Name("www.example.com")[-2]
        (b'www', b'com')
        """
        try:
            return self.labels[index]
        except IndexError:
            raise NoLabel() from None

    def __iter__(self) -> Iterator[bytes]:
        return iter(self.labels)

    def parent(self) -> Name:
        """The name without its first label. Raises NoLabel for the root.

        >>> Name("www.example.com").parent()
        Name('example.com.')
        """
        if self.is_root():
            raise NoLabel()
        return Name._of(self._octets[1 + self._octets[0] :])

    def is_root(self) -> bool:
        return len(self._octets) == 1


# How a caller writes a name: as such, or as its text.
AnyName = Union[Name, str]


def as_name(value: Any) -> Name:
    """The name that a caller wrote. Raises what `Name` raises of a text."""
    if isinstance(value, Name):
        return value
    if isinstance(value, str):
        return Name(value)
    raise TypeError(f"a name is a Name or a str, not {type(value).__name__}")


class Reading(NamedTuple):
    """A name that was read in a message, the offset behind it, and whether a pointer was followed."""

    name: Name
    end: int
    compressed: bool


def read(message: Octets, offset: int = 12, limit: int = MAX_POINTERS) -> Reading:
    """Reads the name at an offset of a message through at most `limit` compression pointers, 0 to 255, each of which
    must lead back (RFC 1035, 4.1.4).

    Raises ShortInput (also at and past the end of the message), BadLabelType, TooManyPointers, LongName: the first
    fault on the way.

    >>> read(b"\\x03com\\x00\\x07example\\xc0\\x00", 5)
    Reading(name=Name('example.com.'), end=15, compressed=True)
    >>> read(b"\\xc0\\x00", 0)
    Traceback (most recent call last):
    dnsnames.TooManyPointers: too many compression pointers (asked for at offset 0)
    """
    message = as_octets(message)
    if not 0 <= limit <= MAX_POINTERS:
        raise ValueError("the limit is from 0 to 255")
    buffer, length, end, compressed = Buffer(), c_size_t(), c_size_t(), c_uint32()
    status = library.dnsnames_read(
        message, len(message), as_size(offset), limit, buffer, MAX_LEN, byref(length), byref(end), byref(compressed)
    )
    if status:
        refuse(status, offset)
    return Reading(Name._of(buffer[: length.value]), end.value, compressed.value == 1)


def skip(message: Octets, offset: int = 12) -> int:
    """The offset behind the name at an offset of a message: behind its root or first pointer, which isn't followed.

    Raises ShortInput, BadLabelType, LongName.

    >>> skip(b"\\x07example\\xc0\\x00", 0)
    10
    """
    message, end = as_octets(message), c_size_t()
    status = library.dnsnames_skip(message, len(message), as_size(offset), byref(end))
    if status:
        refuse(status, offset)
    return end.value
