"""Zones (RFC 1034, 4.2.1): read from a text, and asked with queries.

    >>> from dnsnames.zone import Zone
    zone = Zone.from_text(text, "example")
    response = zone.answer(query)

The library of zones is one of its own, since it allocates: what the variable DNSNAMES_ZONE_LIBRARY names, else
`libdnsnames_zone.so.0` beside this package or where the system finds it.
"""

from __future__ import annotations

import ctypes
import ctypes.util
import os
import pathlib
from threading import Lock
from typing import Any, Optional, Union

from ._library import Octets, as_octets
from ._mnemonic import AnyClass, Class, as_number
from ._name import Name, as_name

_OK, _NO_ROOM, _NO_RESPONSE, _NO_MEMORY = 0, 8, 41, 42
_MAX_MESSAGE = 65535
_size = ctypes.c_size_t


class ZoneError(ValueError):
    """Why a text is that of no zone.

    `status` is the number that the library returned, and `reason` says what is wrong. `line` and `column`, counted from
    1, are those of the first entry that is refused, or of its fault. They are None where all entries are taken and they
    are no zone; `index` is then that of an RRset with a fault in canonical order (RFC 4034, 6.1), or None.
    """

    def __init__(
        self, status: int, reason: str, line: Optional[int] = None, column: Optional[int] = None,
        index: Optional[int] = None,
    ) -> None:
        at = "".join((
            "" if line is None else f"line {line}",
            "" if column is None else f", column {column}",
            "" if index is None else f"RRset at index {index}",
        ))
        super().__init__(f"{at}: {reason}" if at else reason)
        self.status, self.reason, self.line, self.column, self.index = status, reason, line, column, index

    def __reduce__(self) -> tuple:
        return type(self), (self.status, self.reason, self.line, self.column, self.index)


class _ZoneFields(ctypes.Structure):
    _fields_ = [("at", ctypes.c_void_p), ("full", _size)]


class _PlaceFields(ctypes.Structure):
    _fields_ = [("line", _size), ("column", _size), ("index", _size)]


def _path() -> str:
    beside = pathlib.Path(__file__).with_name("libdnsnames_zone.so.0")
    named = os.environ.get("DNSNAMES_ZONE_LIBRARY")
    if named:
        return named
    return str(beside) if beside.exists() else ctypes.util.find_library("dnsnames_zone") or "libdnsnames_zone.so.0"


def _load() -> ctypes.CDLL:
    try:
        library = ctypes.CDLL(_path())
        zone, octets = ctypes.POINTER(_ZoneFields), ctypes.c_char_p
        library.dnsnames_zone_load.argtypes = [
            zone, octets, _size, octets, _size, ctypes.c_uint16, ctypes.POINTER(_PlaceFields),
        ]
        library.dnsnames_zone_answer.argtypes = [
            zone, ctypes.c_uint32, ctypes.c_uint16, octets, _size, octets, _size, ctypes.POINTER(_size),
        ]
        library.dnsnames_zone_free.argtypes = [zone]
        library.dnsnames_zone_strerror.argtypes = [ctypes.c_uint32]
    except (OSError, AttributeError) as error:
        raise ImportError(
            f"the library of zones isn't there: {error}. bindings/zone makes it, DNSNAMES_ZONE_LIBRARY names it"
        ) from error
    library.dnsnames_zone_load.restype = library.dnsnames_zone_answer.restype = ctypes.c_uint32
    library.dnsnames_zone_free.restype, library.dnsnames_zone_strerror.restype = None, ctypes.c_char_p
    return library


_library = _load()


def _refuse(status: int, place: _PlaceFields) -> None:
    if status == _NO_MEMORY:
        raise MemoryError
    reason = _library.dnsnames_zone_strerror(status).decode("ascii")
    index = place.index if 110 <= status < 120 and not place.line else None
    raise ZoneError(status, reason, place.line or None, place.column or None, index)


class Zone:
    """A zone. `from_text` makes one. Threads may share it: each call waits until that of another thread has ended."""

    __slots__ = ("_fields", "_lock")

    def __init__(self) -> None:
        raise TypeError("a Zone is made by Zone.from_text")

    @classmethod
    def from_text(cls, text: Union[str, Octets], apex: Union[Name, str], class_: AnyClass = 1) -> Zone:
        """The zone of a text (RFC 1035, 5), at this apex and of this class. Until `$ORIGIN` says otherwise, relative
        names go on with the apex, in data too, and `@` is the apex; until a record says otherwise, its class is that
        of the zone.

        Raises ZoneError of a text that is that of no zone, and MemoryError.
        """
        octets = text.encode("utf-8", "surrogatepass") if isinstance(text, str) else as_octets(text)
        name, number = bytes(as_name(apex)), as_number(Class, class_)
        made, place = object.__new__(cls), _PlaceFields()
        made._fields, made._lock = _ZoneFields(), Lock()
        status = _library.dnsnames_zone_load(
            ctypes.byref(made._fields), octets, len(octets), name, len(name), number, ctypes.byref(place)
        )
        if status != _OK:
            _refuse(status, place)
        return made

    def answer(self, query: Octets, limit: Optional[int] = 1232) -> Optional[bytes]:
        """The message that answers a query, or None where none is sent: a query has 12 octets or more, and is no
        response. `limit` is how many octets this server takes in a datagram, 512 to 65,535 (RFC 6891, 6.2.5), or None
        for a response by TCP.
        """
        if limit is not None and not 512 <= limit <= 65535:
            raise ValueError("a datagram's limit is 512 to 65,535 octets")
        octets, length = as_octets(query), _size()
        buffer = ctypes.create_string_buffer(_MAX_MESSAGE)
        with self._lock:
            status = _library.dnsnames_zone_answer(
                ctypes.byref(self._fields), int(limit is None), limit or 1232, octets, len(octets), buffer, _MAX_MESSAGE,
                ctypes.byref(length),
            )
        if status == _NO_RESPONSE:
            return None
        if status != _OK:
            raise MemoryError
        return buffer.raw[: length.value]

    def __del__(self) -> None:
        fields = getattr(self, "_fields", None)
        if fields is not None:
            _library.dnsnames_zone_free(ctypes.byref(fields))

    def __copy__(self) -> Any:
        raise TypeError("a Zone can't be copied")

    __reduce__ = __copy__
