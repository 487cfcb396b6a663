"""Messages."""

from __future__ import annotations

from ctypes import byref, c_size_t, c_uint16, c_uint32, create_string_buffer, string_at
from ipaddress import IPv4Address, IPv6Address
from itertools import chain, islice
from struct import Struct
from threading import Lock
from typing import Any, Callable, Dict, Iterator, List, NamedTuple, Optional, Tuple, Union

from ._library import (
    EDNS_CO, EDNS_DO, FAULTS, MAX_LEN, MAX_TABLE, NO_END, NO_MORE, ROW_LEN, Buffer, HeaderFields, NoField, NoRoom,
    Octets, OptFields, QuestionFields, RecordFields, Room, as_octets, as_size, library, refuse,
)
from ._fields import Field, fields_in
from ._mnemonic import Class, Flags, Opcode, Rcode, Type, classes, types
from ._name import AnyName, Name, as_name, read
from ._option import EdnsOption


class Header(NamedTuple):
    """What a message's first 12 octets tell (RFC 1035, 4.1.1): its id, its flags as they stand there, and how many
    entries each section has."""

    id: int
    flags: int
    questions: int
    answers: int
    authority: int
    additional: int

    @property
    def is_response(self) -> bool:
        return self.flags & 0x8000 != 0

    @property
    def flag_names(self) -> Flags:
        """The flags that are set, without the opcode, the response code and the bit that isn't in use."""
        return Flags(self.flags & 0x87B0)

    @property
    def opcode(self) -> Opcode:
        return Opcode(self.flags >> 11 & 15)

    @property
    def is_authoritative(self) -> bool:
        return self.flags & 0x0400 != 0

    @property
    def is_truncated(self) -> bool:
        return self.flags & 0x0200 != 0

    @property
    def is_recursion_desired(self) -> bool:
        return self.flags & 0x0100 != 0

    @property
    def is_recursion_available(self) -> bool:
        return self.flags & 0x0080 != 0

    @property
    def rcode(self) -> Rcode:
        """The four bits that the header has; with EDNS there are eight more (RFC 6891, 6.1.3)."""
        return Rcode(self.flags & 15)


class Question(NamedTuple):
    """A question (RFC 1035, 4.1.2) of the message with these octets: it begins at `offset` and ends before `end`. A bad
    name stops nothing else. `owner` is the name where it was read with the question, else None; `name` reads it then."""

    message: bytes
    type: Type
    class_: Class
    offset: int
    end: int
    owner: Optional[Name] = None

    @property
    def name(self) -> Name:
        """Raises what `read` raises."""
        owner = self.owner
        return read(self.message, self.offset).name if owner is None else owner

    def __repr__(self) -> str:
        return f"<question of type {self.type} at offset {self.offset}>"


class Opt(NamedTuple):
    """What an OPT record says (RFC 6891, 6.1): how many octets its sender takes over UDP, the response code of twelve
    bits, the version of EDNS, the bit DO (RFC 3225), and the bit CO (RFC 9824)."""

    size: int
    rcode: Rcode
    version: int
    dnssec_ok: bool
    compact_ok: bool = False


class Record(NamedTuple):
    """A resource record (RFC 1035, 4.1.3) of the message with these octets: it begins at `offset`, and its data at
    `data_offset`. `section` is "answer", "authority" or "additional". Its names are read when they are asked for, so a bad
    one stops nothing else. `owner` is its own where that was read with the record, else None; `name` reads it then."""

    message: bytes
    section: str
    type: Type
    class_: Class
    ttl: int
    data: bytes
    offset: int
    data_offset: int
    end: int
    owner: Optional[Name] = None

    @property
    def name(self) -> Name:
        """Whose record it is. Raises what `read` raises."""
        owner = self.owner
        return read(self.message, self.offset).name if owner is None else owner

    def to_text(self) -> str:
        """Its line as `dig` shows it: owner, time to live, class, type and data. Data that can't be read by its type are
        shown as octets, and why (RFC 3597, 5). Raises BadForm where the owner can't be read."""
        status, text = _text(library.dnsnames_record_text, len(self.data), self.message, len(self.message), self.offset)
        if status:
            refuse(status, self.offset)
        return text[:-1]

    def fields(self) -> Tuple[Field, ...]:
        """The fields of its data, in their order, by its type and class. Data of which nothing is known are one field of
        octets.

        >>> record = next(Message(bytes.fromhex("1234 8180 0000 0001 0000 0000 00 000f 0001 0000003c 0005 000a016d00")).answers())
        >>> [field.value for field in record.fields()]
        [10, Name('m.')]

        The data are read whole or not at all: raises their first error, from the left. That is ShortInput where they end
        inside a field or where one is due, what `read` raises of a name, BadTag, EmptyHash, WindowOrder,
        BitmapLength, KeyOrder, or TrailingData where octets follow the last field.
        """
        return tuple(fields_in(self.message, self.data_offset, len(self.data), self.type, self.class_))

    def name_in_data(self, index: int = 0) -> Name:
        """The name with so many names before it in the data, as of class IN; it doesn't leave them.

        Raises NoField where data of this type have no such name, and what `fields` raises of the data.
        """
        buffer, length = Buffer(), c_size_t()
        status = library.dnsnames_data_name(
            self.message, len(self.message), self.data_offset, len(self.data), self.type, as_size(index), buffer,
            MAX_LEN, byref(length),
        )
        if status:
            refuse(status, self.data_offset)
        return Name._of(buffer[: length.value])

    def names_in_data(self) -> Tuple[Name, ...]:
        """All names in the data, as of class IN: none, one or two. Raises as `name_in_data`, but not NoField."""
        names = []
        try:
            while True:
                names.append(self.name_in_data(len(names)))
        except NoField:
            return tuple(names)

    def number(self, index: int = 0) -> int:
        """The number of at most 32 bits with so many such numbers before it in the data, as of class IN: of MX the
        preference, of SRV priority, weight and port, of SOA serial, refresh, retry, expire and minimum.

        Raises NoField where data of this type have no such number, and what `fields` raises of the data.
        """
        value = c_uint32()
        status = library.dnsnames_data_number(*self._data(), as_size(index), byref(value))
        if status:
            refuse(status, self.data_offset)
        return value.value

    def address(self) -> Union[IPv4Address, IPv6Address]:
        """The first address in the data, as of class IN: of an A, AAAA or L32 record. Raises NoField for another type,
        and what `fields` raises of the data."""
        buffer, length = Buffer(), c_size_t()
        status = library.dnsnames_data_address(*self._data(), buffer, MAX_LEN, byref(length))
        if status:
            refuse(status, self.data_offset)
        octets = buffer[: length.value]
        return IPv4Address(octets) if len(octets) == 4 else IPv6Address(octets)

    def strings(self) -> Iterator[bytes]:
        """The character strings of a TXT record, or one of a type like it, one after another. Raises NoField for another type, and
        ShortInput where the data have no string, or at the string in which they end."""
        passed, offset, length = c_size_t(), c_size_t(), c_size_t()
        while True:
            status = library.dnsnames_data_string(*self._data(), byref(passed), byref(offset), byref(length))
            if status == NO_MORE:
                return
            if status:
                refuse(status, self.data_offset + passed.value)
            yield self.message[offset.value : offset.value + length.value]

    def opt(self) -> Opt:
        """What an OPT record says. Raises NoField for another type, and ShortInput where the message has no header."""
        found = OptFields()
        flags = Message(self.message).header.flags
        status = library.dnsnames_opt(self.type, self.class_, self.ttl, flags, byref(found))
        if status:
            refuse(status, self.offset)
        return Opt(
            found.size, Rcode(found.rcode), found.version, found.flags & EDNS_DO != 0, found.flags & EDNS_CO != 0
        )

    def options(self) -> Iterator[EdnsOption]:
        """The options of an OPT record, one after another. Raises NoField for another type, and ShortInput at the option
        in which the data end."""
        passed, code, offset, length = c_size_t(), c_uint16(), c_size_t(), c_size_t()
        while True:
            status = library.dnsnames_data_option(
                *self._data(), byref(passed), byref(code), byref(offset), byref(length)
            )
            if status == NO_MORE:
                return
            if status:
                refuse(status, self.data_offset + passed.value)
            yield EdnsOption(code.value, self.message[offset.value : offset.value + length.value])

    def _data(self) -> Tuple[bytes, int, int, int, int]:
        return self.message, len(self.message), self.data_offset, len(self.data), self.type

    def __repr__(self) -> str:
        return f"<record of type {self.type} in section {self.section} at offset {self.offset}>"


class Sections(NamedTuple):
    """The entries of each section that were read in one call, and whether they are all that the header counts."""

    questions: List[Question]
    answers: List[Record]
    authority: List[Record]
    additional: List[Record]
    is_whole: bool


# Rooms that no call has: each is one call's alone, whatever the thread.
_rooms: List[Room] = []
# How many rows these have.
_ROWS = 64
# How many entries the header counts in each section, of a message that has one.
_COUNTS = Struct("!4x4H").unpack_from
# What NamedTuple makes a tuple of its kind with.
_make: Callable[..., Any] = tuple.__new__


def _table(octets: bytes) -> Tuple[List[int], bytes]:
    """The rows of the first entries of a message and their names: of all, or of those before the first that has none."""
    try:
        room = _rooms.pop()
    except IndexError:
        room = Room(_ROWS)
    status = room.fill(octets)
    if status == NoRoom.status and len(octets) >= 12:
        # No entry has fewer than five octets.
        larger = Room(min(sum(_COUNTS(octets)), len(octets) // 5) + 1)
        larger.fill(octets)
        found = larger.numbers(), larger.names()
    else:
        found = room.numbers(), room.names()
    _rooms.append(room)
    return found


def _text(call, size: int, *arguments) -> Tuple[int, str]:
    """The status of a call and the text that it gives of what has so many octets. One call has the room that a text of
    ordinary names needs; a longer one is written again, with the room that the first call asked for."""
    length, capacity = c_size_t(), 4096 + 8 * size
    while True:
        buffer = create_string_buffer(capacity)
        status = call(*arguments, buffer, capacity, byref(length))
        if status == NoRoom.status and length.value > capacity:
            capacity = length.value
            continue
        return status, string_at(buffer, min(length.value, capacity)).decode("ascii")


class Message:
    """A DNS message (RFC 1035, 4.1). Its octets are read when they are asked for, all entries at once: each iterator goes
    on to the first entry that can't be read, and raises its fault there.

    >>> message = Message(bytes.fromhex("1234 8180 0001 0001 0000 0000 0161 00 0001 0001 c00c 0005 0001 0000003c 0002 c00c"))
    >>> message.header
    Header(id=4660, flags=33152, questions=1, answers=1, authority=0, additional=0)
    >>> for question in message.questions():
    ...     print(question.name, question.class_, question.type)
    a. IN A
    >>> for record in message.answers():
    ...     print(record.name, record.ttl, record.type, *record.names_in_data())
    a. 60 CNAME a.
    """

    __slots__ = ("_octets", "_sections")

    def __init__(self, octets: Octets) -> None:
        self._octets = as_octets(octets)
        self._sections: Optional[Sections] = None

    def __bytes__(self) -> bytes:
        return self._octets

    def __reduce__(self) -> tuple:
        return Message, (self._octets,)

    @property
    def header(self) -> Header:
        """Raises ShortInput where there are fewer than 12 octets."""
        found = HeaderFields()
        status = library.dnsnames_header(self._octets, len(self._octets), byref(found))
        if status:
            refuse(status, 0)
        return Header(found.id, found.flags, found.questions, found.answers, found.authority, found.additional)

    def is_answer_to(self, query: Message) -> bool:
        """Whether this is a response with the query's identifier, opcode and questions. Raises ShortInput where one of the
        two has fewer than 12 octets."""
        yes = c_uint32()
        status = library.dnsnames_is_answer(
            self._octets, len(self._octets), query._octets, len(query._octets), byref(yes)
        )
        if status:
            refuse(status, 0)
        return yes.value == 1

    def canonical_name(self, limit: int = 16) -> Optional[Name]:
        """The name to which at most so many CNAME records of the answers lead from the first question's, and from which
        none leads on (RFC 1034, 3.6.2). None where more of them lead on, as they do in a ring, or a question is missing."""
        if not 0 <= limit <= 65535:
            raise ValueError("the limit is from 0 to 65,535")
        buffer, length = Buffer(), c_size_t()
        status = library.dnsnames_canonical_name(
            self._octets, len(self._octets), limit, buffer, MAX_LEN, byref(length)
        )
        if status == NO_END:
            return None
        if status:
            refuse(status, 0)
        return Name._of(buffer[: length.value])

    def to_text(self) -> str:
        """The message as `dig` shows it: two lines of its header, and for each section its heading and a line for each
        question or record. Data that can't be read by their type are shown as octets, and why (RFC 3597, 5). Names
        are as in a zone: `;` `"` `(` `)` `@` `$` have a backslash before them, too. A last line says how many octets
        follow the last record, if any do. Raises ShortInput where the message ends before all that its
        header counts, BadForm where an entry hasn't the form of one: `shown` of the error is the text of all before that.

        >>> try:
        ...     Message(bytes.fromhex("1234 0100 0001 0000 0000 0000 0161 00 0001")).to_text()
        ... except DnsError as error:
        ...     print(error.shown + str(error))
        ;; opcode: QUERY, status: NOERROR, id: 4660
        ;; flags: rd; QUESTION: 1, ANSWER: 0, AUTHORITY: 0, ADDITIONAL: 0
        ;; QUESTION SECTION
        unexpected end of input (asked for at offset 0)
        """
        status, text = _text(library.dnsnames_message_text, len(self._octets), self._octets, len(self._octets))
        if status:
            refuse(status, 0, text if status in FAULTS else None)
        return text

    def name(self, offset: int) -> Name:
        """The name at an offset, as `read` reads it."""
        return read(self._octets, offset).name

    def _question(self, offset: int) -> Question:
        found = QuestionFields()
        status = library.dnsnames_question(self._octets, len(self._octets), as_size(offset), byref(found))
        if status:
            refuse(status, offset)
        return Question(self._octets, Type(found.type), Class(found.class_), offset, found.end)

    def _record(self, section: str, offset: int) -> Record:
        found = RecordFields()
        status = library.dnsnames_record(self._octets, len(self._octets), as_size(offset), byref(found))
        if status:
            refuse(status, offset)
        data = found.data
        octets = self._octets[data : data + found.data_len]
        return Record(
            self._octets, section, Type(found.type), Class(found.class_), found.ttl, octets, offset, data, found.end
        )

    def _read(self) -> Sections:
        """The entries of each section as far as `_table` has them, and whether those are all."""
        if self._sections is not None:
            return self._sections
        octets = self._octets
        numbers, names = _table(octets)
        it = iter(numbers)
        rows = zip(it, it, it, it, it, it, it, it)
        counts = _COUNTS(octets) if numbers else (0, 0, 0, 0)
        owners: Dict[bytes, Name] = {}
        questions: List[Question] = []
        offset = 12
        for at, size, type_, class_, _, _, _, end in islice(rows, counts[0]):
            wire = names[at : at + size]
            owners[wire] = owner = Name._of(wire)
            questions.append(_make(Question, (octets, types[type_], classes[class_], offset, end, owner)))
            offset = end
        sections: List[List[Record]] = []
        for section, count in zip(("answer", "authority", "additional"), counts[1:]):
            records: List[Record] = []
            for at, size, type_, class_, ttl, begin, length, end in islice(rows, count):
                wire = names[at : at + size]
                owner = owners.get(wire)
                if owner is None:
                    owners[wire] = owner = Name._of(wire)
                records.append(_make(Record, (
                    octets, section, types[type_], classes[class_], ttl, octets[begin : begin + length], offset, begin,
                    end, owner,
                )))
                offset = end
            sections.append(records)
        is_whole = len(octets) >= 12 and sum(_COUNTS(octets)) * ROW_LEN == len(numbers)
        self._sections = found = Sections(questions, *sections, is_whole)
        return found

    def _one_by_one(self) -> Iterator[Union[Question, Record]]:
        """All entries: those of `_read`, and then each by a call of its own, which raises where there is none."""
        header, offset, read_before = self.header, 12, chain(*self._read()[:4])
        for section, count in zip(("question", "answer", "authority", "additional"), header[2:]):
            for _ in range(count):
                entry = next(read_before, None)
                if entry is None:
                    entry = self._question(offset) if section == "question" else self._record(section, offset)
                yield entry
                offset = entry.end

    def _entries_of(self, sections: Tuple[str, ...]) -> Iterator[Record]:
        for entry in self._one_by_one():
            if isinstance(entry, Record):
                if entry.section == sections[-1]:
                    yield entry
                elif entry.section not in sections:
                    return

    def questions(self) -> Iterator[Question]:
        """The questions that the header counts."""
        found = self._read()
        return iter(found.questions) if found.is_whole else self._questions_one_by_one()

    def _questions_one_by_one(self) -> Iterator[Question]:
        yield from islice(self._one_by_one(), self.header.questions)

    def records(self) -> Iterator[Record]:
        """The records of all sections, behind the questions."""
        found = self._read()
        if found.is_whole:
            return chain(found.answers, found.authority, found.additional)
        return (entry for entry in self._one_by_one() if isinstance(entry, Record))

    def answers(self) -> Iterator[Record]:
        """The records of the answer section."""
        found = self._read()
        return iter(found.answers) if found.is_whole else self._entries_of(("answer",))

    def authority(self) -> Iterator[Record]:
        """The records of the authority section."""
        found = self._read()
        return iter(found.authority) if found.is_whole else self._entries_of(("answer", "authority"))

    def additional(self) -> Iterator[Record]:
        """The records of the additional section."""
        found = self._read()
        return iter(found.additional) if found.is_whole else self._entries_of(("answer", "authority", "additional"))


class Composer:
    """Octets to which names are appended with compression (RFC 1035, 4.1.4): of a name that was written before, or
    of its longest such end, a pointer is written. Threads may share it: each call waits until that of another thread
    has ended.

    >>> composer = Composer(64)
    >>> composer.append(Name("example.com"))
    >>> composer.append("www.EXAMPLE.com")
    >>> bytes(composer)
    b'\\x07example\\x03com\\x00\\x03www\\xc0\\x00'
    """

    # A call of the library lets other threads run, so the lock is held while it reads or writes what is here.
    __slots__ = ("_buffer", "_capacity", "_length", "_table", "_table_length", "_lock")

    def __init__(self, capacity: int = 65535) -> None:
        self._capacity = as_size(capacity)
        self._buffer = create_string_buffer(max(1, self._capacity))
        self._length, self._table_length = c_size_t(), c_size_t()
        self._table = (c_uint16 * MAX_TABLE)()
        self._lock = Lock()

    def __deepcopy__(self, memo: Dict[int, Any]) -> Composer:
        """A composer of its own, with what was composed. A lock isn't copied."""
        other = Composer(self._capacity)
        with self._lock:
            other._buffer[:], other._table[:] = self._buffer[:], self._table[:]
            other._length.value, other._table_length.value = self._length.value, self._table_length.value
        return other

    def append(self, name: AnyName) -> None:
        """Appends a name, or that of a text. Raises NoRoom where the octets don't fit, and changes nothing then."""
        octets = bytes(as_name(name))
        with self._lock:
            status = library.dnsnames_append(
                self._buffer, self._capacity, byref(self._length), self._table, MAX_TABLE, byref(self._table_length),
                octets, len(octets),
            )
        if status:
            refuse(status)

    def append_octets(self, octets: Octets) -> None:
        """Appends octets that aren't a name's as they are. Raises NoRoom, and changes nothing then."""
        octets = as_octets(octets)
        with self._lock:
            length = self._length.value
            if self._capacity - length < len(octets):
                refuse(NoRoom.status)
            self._buffer[length : length + len(octets)] = octets
            self._length.value += len(octets)

    def set16(self, offset: int, number: int) -> None:
        """The two octets at an offset of what was composed become this number, the high one first: a count of the
        header, or the length of data behind it. Raises IndexError where they aren't there."""
        with self._lock:
            if not 0 <= offset <= self._length.value - 2:
                raise IndexError("no two octets were composed there")
            self._buffer[offset : offset + 2] = number.to_bytes(2, "big")

    def __len__(self) -> int:
        with self._lock:
            return self._length.value

    def __bytes__(self) -> bytes:
        with self._lock:
            return self._buffer[: self._length.value]
