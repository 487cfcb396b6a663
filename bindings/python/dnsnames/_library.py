"""The calls of the C library, and what its statuses are here."""

from __future__ import annotations

import ctypes
import ctypes.util
import os
import pathlib
from typing import List, Optional, Union

Octets = Union[bytes, bytearray, memoryview]

VERSION = "0.7.0"

MAX_LEN = 255
MAX_TEXT = 1020
MAX_POINTERS = 255
MAX_TABLE = 128
MAX_MNEMONIC = 12
ROW_LEN = 8
# The flags of EDNS: records of DNSSEC, and compact denials of existence, are taken.
EDNS_DO, EDNS_CO = 0x8000, 0x4000
_MAX_SIZE = 2 ** (8 * ctypes.sizeof(ctypes.c_size_t)) - 1


class DnsError(ValueError):
    """Why octets or a text are no name, or a message or what is asked of it is refused. Each reason has a class of its
    own below this one.

    `status` is the number that the library answered, and `offset` the offset at which the name, the question, the
    record or its data begin that were asked for; None where none was. `shown`, of the text of a message, is the text of
    all before the entry that is refused; else None.
    """

    status: int = 0
    text: str = "refused by the library"

    def __init__(self, offset: Optional[int] = None, shown: Optional[str] = None) -> None:
        super().__init__(self.text if offset is None else f"{self.text} (asked for at offset {offset})")
        self.offset, self.shown = offset, shown

    def __reduce__(self) -> tuple:
        return type(self), (self.offset, self.shown)


class ShortInput(DnsError):
    """The octets or the text end too soon."""

    status, text = 1, "unexpected end of input"


class BadLabelType(DnsError):
    """A label is of a type that isn't in use (RFC 1035, 4.1.4; RFC 6891, 5)."""

    status, text = 2, "invalid label type"


class TooManyPointers(DnsError):
    """A pointer doesn't lead back, or is one more than the limit allows (RFC 1035, 4.1.4)."""

    status, text = 3, "too many compression pointers"


class LongName(DnsError):
    """The name has more than 255 octets (RFC 1035, 3.1)."""

    status, text = 4, "long domain name"


class CompressedName(DnsError):
    """A pointer stands where a name without compression is wanted."""

    status, text = 5, "compressed domain name"


class RelativeName(DnsError):
    """The octets end behind a label that isn't the root."""

    status, text = 6, "relative domain name"


class TrailingData(DnsError):
    """Octets follow the root, or the last field of data."""

    status, text = 7, "trailing data"


class NoLabel(DnsError, IndexError):
    """The name has no such label, or, for the root, no parent."""

    status, text = 10, "no such label"


class BadEscape(DnsError):
    """The text has a broken escape (RFC 1035, 5.1)."""

    status, text = 11, "invalid escape sequence"


class BadSymbol(DnsError):
    """A character of the text stands for no octet."""

    status, text = 12, "invalid character"


class BinaryLabel(DnsError):
    """A label's text begins with `\\[` (RFC 6891, 5)."""

    status, text = 13, "binary label"


class LongLabel(DnsError):
    """A label has more than 63 octets (RFC 1035, 3.1)."""

    status, text = 14, "long label"


class EmptyLabel(DnsError):
    """A label of the text is empty."""

    status, text = 15, "empty label"


class NoRoom(DnsError):
    """What is composed doesn't fit."""

    status, text = 8, "buffer too small"


class NoField(DnsError):
    """Data of records of this type have no such field: name, number, address, string or option."""

    status, text = 21, "no such field in data of this type"


class NoMnemonic(DnsError, KeyError):
    """The text names no type, no class or no code."""

    status, text = 22, "no name of a type, a class or a code"
    __str__ = Exception.__str__


class NoBuilder(DnsError):
    """The message that is built is finished."""

    status, text = 23, "no builder, or its message is finished"


class WrongOrder(DnsError):
    """A question was pushed after a record, or a record after one of a later section."""

    status, text = 24, "a later section was begun"


class TooManyEntries(DnsError):
    """The section has 65,535 entries."""

    status, text = 25, "too many entries in a section"


class BadForm(DnsError):
    """An entry of the message hasn't the form of one: its name can't be read. Or an EDNS option hasn't its form."""

    status, text = 28, "an entry or an option hasn't the form of one"


class BadTag(DnsError):
    """A tag in data is empty, or has another octet than letters and digits (RFC 8659, 4.1)."""

    status, text = 32, "invalid tag"


class EmptyHash(DnsError):
    """The hash in data of NSEC3 is empty (RFC 5155, 3.1.6)."""

    status, text = 33, "empty hash"


class WindowOrder(DnsError):
    """The windows of a type bitmap don't ascend (RFC 4034, 4.1.2)."""

    status, text = 34, "windows of a type bitmap don't ascend"


class BitmapLength(DnsError):
    """A block of a type bitmap has no octet or more than 32 (RFC 4034, 4.1.2)."""

    status, text = 35, "a block of a type bitmap has no octet or more than 32"


class KeyOrder(DnsError):
    """The keys of service parameters don't ascend (RFC 9460, 2.2)."""

    status, text = 36, "keys of service parameters don't ascend"


# All fields, strings or options of data were given: no fault, but the end.
NO_MORE = 27
# Aliases lead to no name.
NO_END = 30

FAULTS = {
    fault.status: fault
    for fault in (
        ShortInput, BadLabelType, TooManyPointers, LongName, CompressedName, RelativeName, TrailingData, NoRoom,
        NoLabel, BadEscape, BadSymbol, BinaryLabel, LongLabel, EmptyLabel, NoField, NoMnemonic, NoBuilder,
        WrongOrder, TooManyEntries, BadForm, BadTag, EmptyHash, WindowOrder, BitmapLength, KeyOrder,
    )
}

_octets, _size, _buffer = ctypes.c_char_p, ctypes.c_size_t, ctypes.c_void_p
_to_size = ctypes.POINTER(ctypes.c_size_t)
_to_16 = ctypes.POINTER(ctypes.c_uint16)
_to_32 = ctypes.POINTER(ctypes.c_uint32)


class HeaderFields(ctypes.Structure):
    _fields_ = [(name, ctypes.c_uint16) for name in ("id", "flags", "questions", "answers", "authority", "additional")]


class QuestionFields(ctypes.Structure):
    _fields_ = [("type", ctypes.c_uint16), ("class_", ctypes.c_uint16), ("end", ctypes.c_size_t)]


class RecordFields(ctypes.Structure):
    _fields_ = [
        ("type", ctypes.c_uint16), ("class_", ctypes.c_uint16), ("ttl", ctypes.c_uint32), ("data", ctypes.c_size_t),
        ("data_len", ctypes.c_size_t), ("end", ctypes.c_size_t),
    ]


class DataField(ctypes.Structure):
    _fields_ = [
        ("kind", ctypes.c_uint32), ("begin", ctypes.c_size_t), ("end", ctypes.c_size_t), ("number", ctypes.c_uint64),
    ]


class BuilderState(ctypes.Structure):
    _fields_ = [
        ("limit", ctypes.c_size_t), ("len", ctypes.c_size_t),
        *((name, ctypes.c_uint16) for name in ("id", "flags", "questions", "answers", "authority", "additional")),
        ("answer_start", ctypes.c_size_t), ("authority_start", ctypes.c_size_t), ("additional_start", ctypes.c_size_t),
        ("table_len", ctypes.c_size_t), ("table", ctypes.c_uint16 * MAX_TABLE),
    ]


class OptFields(ctypes.Structure):
    _fields_ = [
        ("size", ctypes.c_uint16), ("rcode", ctypes.c_uint16), ("version", ctypes.c_uint8), ("flags", ctypes.c_uint16),
        ("dnssec_ok", ctypes.c_uint32),
    ]


class SubnetFields(ctypes.Structure):
    _fields_ = [
        ("family", ctypes.c_uint16), ("source_prefix_len", ctypes.c_uint8), ("scope_prefix_len", ctypes.c_uint8),
    ]


class BuilderFields(ctypes.Structure):
    _fields_ = [("octets", ctypes.c_void_p), ("capacity", ctypes.c_size_t), ("state", BuilderState)]


_to_builder = ctypes.POINTER(BuilderFields)
# Section, owner, type, class, TTL, the data one after another, and their lengths.
_rrset = [
    ctypes.c_uint32, _octets, _size, ctypes.c_uint16, ctypes.c_uint16, ctypes.c_uint32, _octets, _size, _to_16, _size,
]

# As dnsnames.h declares them.
_ARGUMENTS = {
    "read": [_octets, _size, _size, ctypes.c_uint8, _buffer, _size, _to_size, _to_size, _to_32],
    "skip": [_octets, _size, _size, _to_size],
    "check": [_octets, _size],
    "from_text": [_octets, _size, _buffer, _size, _to_size],
    "to_text": [_octets, _size, ctypes.c_uint32, _buffer, _size, _to_size],
    "lower": [_octets, _size, _buffer, _size, _to_size],
    "compare": [_octets, _size, _octets, _size, ctypes.POINTER(ctypes.c_int32)],
    "ends_with": [_octets, _size, _octets, _size, _to_32],
    "append": [_buffer, _size, _to_size, _to_16, _size, _to_size, _octets, _size],
    "header": [_octets, _size, ctypes.POINTER(HeaderFields)],
    "question": [_octets, _size, _size, ctypes.POINTER(QuestionFields)],
    "record": [_octets, _size, _size, ctypes.POINTER(RecordFields)],
    "table": [_octets, _size, ctypes.c_uint8, _to_32, _size, _buffer, _size, _to_size, _to_size],
    "builder_start": [_to_builder, _buffer, _size, ctypes.c_uint16, ctypes.c_uint16],
    "builder_question": [_to_builder, _octets, _size, ctypes.c_uint16, ctypes.c_uint16],
    "builder_record": [
        _to_builder, ctypes.c_uint32, _octets, _size, ctypes.c_uint16, ctypes.c_uint16, ctypes.c_uint32, _octets, _size,
    ],
    "builder_opt_flags": [
        _to_builder, ctypes.c_uint16, ctypes.c_uint8, ctypes.c_uint8, ctypes.c_uint16, _octets, _size,
    ],
    "builder_rrset": [_to_builder, *_rrset],
    "builder_required": [_to_builder, *_rrset, _to_32],
    "builder_extra": [_to_builder, *_rrset, _to_32],
    "builder_rewind": [_to_builder, ctypes.POINTER(BuilderState)],
    "builder_truncate": [_to_builder],
    "builder_finish": [_to_builder, _to_size],
    "type_text": [ctypes.c_uint16, _buffer, _size, _to_size],
    "type_from_text": [_octets, _size, _to_16],
    "class_text": [ctypes.c_uint16, _buffer, _size, _to_size],
    "class_from_text": [_octets, _size, _to_16],
    "opcode_text": [ctypes.c_uint16, _buffer, _size, _to_size],
    "opcode_from_text": [_octets, _size, _to_16],
    "rcode_text": [ctypes.c_uint16, _buffer, _size, _to_size],
    "rcode_from_text": [_octets, _size, _to_16],
    "data_field": [
        _octets, _size, _size, _size, ctypes.c_uint16, ctypes.c_uint16, _size, ctypes.POINTER(DataField),
    ],
    "data_name": [_octets, _size, _size, _size, ctypes.c_uint16, _size, _buffer, _size, _to_size],
    "data_number": [_octets, _size, _size, _size, ctypes.c_uint16, _size, _to_32],
    "data_address": [_octets, _size, _size, _size, ctypes.c_uint16, _buffer, _size, _to_size],
    "data_string": [_octets, _size, _size, _size, ctypes.c_uint16, _to_size, _to_size, _to_size],
    "data_option": [_octets, _size, _size, _size, ctypes.c_uint16, _to_size, _to_16, _to_size, _to_size],
    "append_cookie": [_buffer, _size, _to_size, _octets, _octets, _size],
    "append_client_subnet": [
        _buffer, _size, _to_size, ctypes.c_uint16, ctypes.c_uint8, ctypes.c_uint8, _octets, _size,
    ],
    "append_extended_error": [_buffer, _size, _to_size, ctypes.c_uint16, _octets, _size],
    "cookie": [_octets, _size, _to_size],
    "client_subnet": [_octets, _size, ctypes.POINTER(SubnetFields)],
    "extended_error": [_octets, _size, _to_16],
    "is_answer": [_octets, _size, _octets, _size, _to_32],
    "canonical_name": [_octets, _size, ctypes.c_uint16, _buffer, _size, _to_size],
    "message_text": [_octets, _size, _buffer, _size, _to_size],
    "record_text": [_octets, _size, _size, _buffer, _size, _to_size],
    "opt": [ctypes.c_uint16, ctypes.c_uint16, ctypes.c_uint32, ctypes.c_uint16, ctypes.POINTER(OptFields)],
}
# The shared object that a wheel carries.
_BUNDLED = pathlib.Path(__file__).with_name("libdnsnames.so.0")


def _path() -> str:
    named = os.environ.get("DNSNAMES_LIBRARY")
    if named:
        return named
    if _BUNDLED.exists():
        return str(_BUNDLED)
    return ctypes.util.find_library("dnsnames") or "libdnsnames.so.0"


def _load() -> ctypes.CDLL:
    path = _path()
    try:
        library = ctypes.CDLL(path)
        library.dnsnames_version.restype = ctypes.c_char_p
        version = library.dnsnames_version().decode("ascii")
    except (OSError, AttributeError) as error:
        raise ImportError(
            f"the library isn't there, or is too old: {error}. bindings/build makes it, DNSNAMES_LIBRARY names it"
        ) from error
    if version != VERSION:
        raise ImportError(f"this is dnsnames {VERSION}, and the library {path} is {version}")
    for name, arguments in _ARGUMENTS.items():
        call = getattr(library, "dnsnames_" + name)
        call.argtypes, call.restype = arguments, ctypes.c_uint32
    return library


library = _load()


def refuse(status: int, offset: Optional[int] = None, shown: Optional[str] = None) -> None:
    """Raises the error of a status that isn't 0."""
    raise FAULTS.get(status, DnsError)(offset, shown)


def as_octets(value: Octets) -> bytes:
    return value if isinstance(value, bytes) else memoryview(value).tobytes()


def as_size(number: int) -> int:
    """An offset or a count as the library takes it. One past all that is is as good as any other such one."""
    if number < 0:
        raise ValueError("offsets and counts are not negative")
    return min(number, _MAX_SIZE)


class Room:
    """What is lent to dnsnames_table: room for so many rows and their names, and what it tells of them."""

    __slots__ = ("_rows", "_numbers", "_names", "_row_count", "_names_len", "_lent")

    def __init__(self, rows: int) -> None:
        self._rows = (ctypes.c_uint32 * (ROW_LEN * rows))()
        self._numbers = memoryview(self._rows).cast("B").cast("I")
        self._names = ctypes.create_string_buffer(MAX_LEN * rows)
        self._row_count, self._names_len = ctypes.c_size_t(), ctypes.c_size_t()
        self._lent = (
            MAX_POINTERS, self._rows, ROW_LEN * rows, self._names, MAX_LEN * rows, ctypes.byref(self._row_count),
            ctypes.byref(self._names_len),
        )

    def fill(self, message: bytes) -> int:
        """The status of the call."""
        return library.dnsnames_table(message, len(message), *self._lent)

    def numbers(self) -> List[int]:
        """The numbers of all rows, one row after another."""
        return self._numbers[: ROW_LEN * self._row_count.value].tolist()

    def names(self) -> bytes:
        """All names, one after another."""
        return self._names[: self._names_len.value]


# What a caller lends to a call.
Buffer = ctypes.c_char * MAX_LEN
Text = ctypes.c_char * MAX_TEXT
Mnemonic = ctypes.c_char * MAX_MNEMONIC
