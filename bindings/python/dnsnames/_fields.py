"""Fields of record data (RFC 1035, 3.3)."""

from __future__ import annotations

from ctypes import byref
from enum import IntEnum
from ipaddress import IPv4Address, IPv6Address
from typing import Any, Callable, Dict, Iterator, NamedTuple, Tuple, Union

from ._library import NO_MORE, DataField, library, refuse
from ._mnemonic import Class, Type
from ._name import Name, read


class FieldKind(IntEnum):
    """What a field of record data is. `dnsnames.h` says of each where it ends."""

    NUMBER8 = 1
    NUMBER16 = 2
    NUMBER32 = 3
    NUMBER48 = 4
    NUMBER64 = 5
    TTL = 6
    SERIAL = 7
    TIME = 8
    TYPE = 9
    IPV4 = 10
    IPV6 = 11
    NAME = 12
    CHAR_STRING = 13
    OPTIONAL_STRING = 14
    CHAR_STRINGS = 15
    TAG = 16
    QUOTED_TEXT = 17
    COUNTED_BASE16 = 18
    COUNTED_BASE32 = 19
    COUNTED_BASE64 = 20
    TYPE_BITMAPS = 21
    OPTIONAL_TYPE_BITMAPS = 22
    SVC_PARAMS = 23
    BASE16 = 24
    BASE64 = 25
    OCTETS = 26


FieldValue = Union[
    int, Type, IPv4Address, IPv6Address, Name, bytes, None, Tuple[bytes, ...], Tuple[Type, ...],
    Tuple[Tuple[int, bytes], ...],
]


class Field(NamedTuple):
    """A field of record data: what it is, its value, its octets as they are in the message, and its offset there.

    The value of a number is an `int`, of a type a `Type`, of an address an `IPv4Address` or `IPv6Address`, of a name a
    `Name`. Strings, tags and what is counted are `bytes` without what counts them, an optional string that isn't there
    is None. Strings to the end are a tuple of `bytes`, type bitmaps a tuple of `Type`s, service parameters a tuple of
    keys and values. All else is `bytes`.
    """

    kind: FieldKind
    value: FieldValue
    octets: bytes
    offset: int


def _strings(octets: bytes) -> Tuple[bytes, ...]:
    found = []
    while octets:
        found.append(octets[1 : 1 + octets[0]])
        octets = octets[1 + octets[0] :]
    return tuple(found)


def _types(octets: bytes) -> Tuple[Type, ...]:
    """The types whose bits are set, in their order (RFC 4034, 4.1.2)."""
    found = []
    while octets:
        for at, octet in enumerate(octets[2 : 2 + octets[1]]):
            found += [Type(octets[0] * 256 + at * 8 + bit) for bit in range(8) if octet & 128 >> bit]
        octets = octets[2 + octets[1] :]
    return tuple(found)


def _params(octets: bytes) -> Tuple[Tuple[int, bytes], ...]:
    """The key and the value of each parameter (RFC 9460, 2.2)."""
    found = []
    while octets:
        end = 4 + int.from_bytes(octets[2:4], "big")
        found.append((int.from_bytes(octets[:2], "big"), octets[4:end]))
        octets = octets[end:]
    return tuple(found)


# The values of the kinds that neither a number nor a name nor all of their octets are.
_VALUES: Dict[FieldKind, Callable[[bytes], Any]] = {
    FieldKind.IPV4: IPv4Address,
    FieldKind.IPV6: IPv6Address,
    FieldKind.CHAR_STRING: lambda octets: octets[1:],
    FieldKind.OPTIONAL_STRING: lambda octets: octets[1:] if octets else None,
    FieldKind.CHAR_STRINGS: _strings,
    FieldKind.TAG: lambda octets: octets[1:],
    FieldKind.COUNTED_BASE16: lambda octets: octets[1:],
    FieldKind.COUNTED_BASE32: lambda octets: octets[1:],
    FieldKind.COUNTED_BASE64: lambda octets: octets[2:],
    FieldKind.TYPE_BITMAPS: _types,
    FieldKind.OPTIONAL_TYPE_BITMAPS: _types,
    FieldKind.SVC_PARAMS: _params,
}


def _field(message: bytes, found: DataField) -> Field:
    kind, octets = FieldKind(found.kind), message[found.begin : found.end]
    value: FieldValue
    if kind is FieldKind.TYPE:
        value = Type(found.number)
    elif kind < FieldKind.TYPE:
        value = found.number
    elif kind is FieldKind.NAME:
        value = read(message[: found.end], found.begin).name
    else:
        value = _VALUES.get(kind, bytes)(octets)
    return Field(kind, value, octets, found.begin)


def fields_in(message: bytes, data: int, data_len: int, type_: Type, class_: Class) -> Iterator[Field]:
    """The fields of the data of a record, one after another. Raises the data's first error at the first of them."""
    found, index = DataField(), 0
    while True:
        status = library.dnsnames_data_field(message, len(message), data, data_len, type_, class_, index, byref(found))
        if status == NO_MORE:
            return
        if status:
            refuse(status, data)
        yield _field(message, found)
        index += 1
