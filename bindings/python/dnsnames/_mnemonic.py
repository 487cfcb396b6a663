"""Types, classes and codes: numbers that have names."""

from __future__ import annotations

from ctypes import byref, c_size_t, c_uint16
from enum import IntFlag
from typing import Any, Union

from ._library import Mnemonic, MAX_MNEMONIC, NoMnemonic, library, refuse


class _Names(type):
    """Gives each class of numbers its members by name: `Type["MX"]`, and `Type.MX` where the name is a word."""

    def __getitem__(cls, text: str) -> Any:
        octets, found = text.encode("utf-8", "surrogatepass"), c_uint16()
        status = cls._from_text(octets, len(octets), byref(found))
        if status:
            refuse(status)
        return cls(found.value)

    def __getattr__(cls, name: str) -> Any:
        if name.startswith("_"):
            raise AttributeError(name)
        try:
            return cls[name]
        except NoMnemonic:
            raise AttributeError(f"{cls.__name__} has no member {name}") from None


class _Number(int, metaclass=_Names):
    """A number that has a name; it is equal to the number, and hashed as it."""

    __slots__ = ()
    _text: Any
    _from_text: Any
    _bound = 65536

    def __new__(cls, number: int) -> Any:
        if not 0 <= number < cls._bound:
            raise ValueError(f"numbers are from 0 to {cls._bound - 1}")
        return super().__new__(cls, number)

    def __str__(self) -> str:
        buffer, length = Mnemonic(), c_size_t()
        type(self)._text(self, buffer, MAX_MNEMONIC, byref(length))
        return buffer[: length.value].decode("ascii")

    @property
    def name(self) -> str:
        """The mnemonic, or a word and the number where there is none."""
        return str(self)

    def __repr__(self) -> str:
        return f"{type(self).__name__}[{str(self)!r}]"

    def __format__(self, spec: str) -> str:
        return format(str(self), spec) if not spec or spec[-1] in "s<>^0123456789" else int.__format__(self, spec)

    def __reduce__(self) -> tuple:
        return type(self), (int(self),)


class Type(_Number):
    """The type of a record (RFC 1035, 3.2.2): a number of 16 bits. Those without a mnemonic are written as `TYPE` and
    the number (RFC 3597, 5).

    >>> Type.MX, Type["mx"], Type(65280), int(Type["TYPE15"]), str(Type(28))
    (Type['MX'], Type['MX'], Type['TYPE65280'], 15, 'AAAA')
    >>> Type["MXX"]
    Traceback (most recent call last):
    dnsnames.NoMnemonic: no name of a type, a class or a code
    """

    __slots__ = ()
    _text, _from_text = library.dnsnames_type_text, library.dnsnames_type_from_text


class Class(_Number):
    """The class of a record (RFC 1035, 3.2.4): a number of 16 bits.

    >>> Class.IN, Class(255), Class(4660)
    (Class['IN'], Class['ANY'], Class['CLASS4660'])
    """

    __slots__ = ()
    _text, _from_text = library.dnsnames_class_text, library.dnsnames_class_from_text


class _Each(dict):
    """The number of a kind for each that a message had, made once."""

    __slots__ = ("_kind",)

    def __init__(self, kind: Any) -> None:
        super().__init__()
        self._kind = kind

    def __missing__(self, number: int) -> Any:
        self[number] = made = self._kind(number)
        return made


# At most 65,536 of each.
types, classes = _Each(Type), _Each(Class)
# How a caller writes a type or a class: as such, as a number, or as its mnemonic.
AnyType, AnyClass = Union[Type, int, str], Union[Class, int, str]


def as_number(kind: Any, value: Any) -> Any:
    """The type or the class, whichever kind it is, that a caller wrote. That of another kind is refused."""
    if isinstance(value, kind):
        return value
    if isinstance(value, str):
        return kind[value]
    if isinstance(value, int) and not isinstance(value, _Number):
        return kind(value)
    name = kind.__name__
    raise TypeError(f"a {name.lower()} is a {name}, an int or a str, not {type(value).__name__}")


class Opcode(_Number):
    """The kind of query (RFC 1035, 4.1.1): a number of four bits.

    >>> Opcode(0), Opcode.UPDATE, Opcode(15)
    (Opcode['QUERY'], Opcode['UPDATE'], Opcode['OPCODE15'])
    """

    __slots__ = ()
    _bound = 16
    _text, _from_text = library.dnsnames_opcode_text, library.dnsnames_opcode_from_text


class Rcode(_Number):
    """The response code: four bits of the header (RFC 1035, 4.1.1), and eight more where there is an OPT record (RFC
    6891, 6.1.3).

    >>> Rcode(3), Rcode.BADVERS, f"{Rcode(5)}"
    (Rcode['NXDOMAIN'], Rcode['BADVERS'], 'REFUSED')
    """

    __slots__ = ()
    _bound = 4096
    _text, _from_text = library.dnsnames_rcode_text, library.dnsnames_rcode_from_text


class Flags(IntFlag):
    """The flags of a header (RFC 1035, 4.1.1; AD and CD RFC 4035, 3.1.6 and 3.2), where they stand in its 16 bits. Their
    text is that of those that are set, as `dig` writes it.

    >>> Flags.QR | Flags.AA in Flags(0x8580), int(Flags.RD)
    (True, 256)
    >>> print(Flags.QR | Flags.AA)
    qr aa
    """

    QR = 0x8000
    AA = 0x0400
    TC = 0x0200
    RD = 0x0100
    RA = 0x0080
    AD = 0x0020
    CD = 0x0010

    def __str__(self) -> str:
        return " ".join(flag.name.lower() for flag in type(self) if flag in self)

    def __format__(self, spec: str) -> str:
        return format(str(self), spec) if not spec or spec[-1] in "s<>^0123456789" else int.__format__(self, spec)
