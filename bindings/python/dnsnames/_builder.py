"""Building messages."""

from __future__ import annotations

from ctypes import byref, c_size_t, c_uint16, c_uint32, create_string_buffer
from threading import Lock
from typing import Any, Callable, Dict, Iterable, List, Tuple, Union

from ._library import (
    EDNS_CO, EDNS_DO, BuilderFields, BuilderState, Octets, ShortInput, as_octets, as_size, library, refuse,
)
from ._message import Record
from ._mnemonic import AnyClass, AnyType, Class, Type, as_number
from ._name import AnyName, as_name

_SECTIONS = {"answer": 1, "authority": 2, "additional": 3}
# Options of an OPT record: each a code and octets, or all in wire format.
Options = Union[Octets, Iterable[Tuple[int, Octets]]]


def _word(number: int, bits: int) -> int:
    if not isinstance(number, int):
        raise TypeError(f"a number is an int, not {type(number).__name__}")
    if not 0 <= number < 1 << bits:
        raise ValueError(f"this number has {bits} bits")
    return number


def _option(option: Tuple[int, Octets]) -> bytes:
    """An option in wire format (RFC 6891, 6.1.2)."""
    try:
        code, data = option
    except (TypeError, ValueError):
        raise TypeError(f"an option is a code and octets, not {option!r}") from None
    octets = as_octets(data)
    if len(octets) > 65535:
        raise ValueError("an option has at most 65,535 octets")
    return _word(code, 16).to_bytes(2, "big") + len(octets).to_bytes(2, "big") + octets


def _options(options: Options) -> bytes:
    """Options in wire format, as a reader takes them."""
    try:
        octets = as_octets(options)
    except TypeError:
        octets = None
    if octets is None:
        return b"".join(map(_option, options))
    try:
        list(Record(octets, "additional", Type.OPT, Class(0), 0, octets, 0, 0, len(octets)).options())
    except ShortInput as error:
        raise ValueError(f"the octets end inside the option that begins at offset {error.offset}") from None
    return octets


def _section(section: str) -> int:
    if section not in _SECTIONS:
        raise ValueError('the sections are "answer", "authority" and "additional"')
    return _SECTIONS[section]


def _rrset(
    section: str, name: AnyName, type: AnyType, datas: Iterable[Octets], ttl: int, class_: AnyClass
) -> Tuple[Any, ...]:
    """What the library takes of an RRset."""
    number, owner, each = _section(section), bytes(as_name(name)), [as_octets(data) for data in datas]
    if any(len(data) > 65535 for data in each):
        raise ValueError("data have at most 65,535 octets")
    whole, lens = b"".join(each), (c_uint16 * len(each))(*map(len, each))
    return (
        number, owner, len(owner), as_number(Type, type), as_number(Class, class_), _word(ttl, 32), whole, len(whole),
        lens, len(each),
    )


class Mark:
    """What a message had when `MessageBuilder.mark` made this."""

    __slots__ = ("_state",)

    def __init__(self, state: BuilderState) -> None:
        self._state = BuilderState.from_buffer_copy(state)


class MessageBuilder:
    """A message that is built (RFC 1035, 4.1): questions, and then records, section by section. Each is pushed whole, or
    not at all: after a refusal all is as it was. Names of questions and owners of records are compressed, and names in
    data of the types of RFC 1035. Threads may share it: each call waits until that of another thread has ended.

    A name is a `Name` or its text. A type is a `Type`, a number or a mnemonic, and a class likewise. Anything else raises
    TypeError. A bad text raises what `Name` or `Type` raises, and a number out of range ValueError.

    >>> from dnsnames import Flags, Message, Name, NoRoom, Type
    >>> query = MessageBuilder(id=0x1234, flags=Flags.RD)
    >>> query.question("example.com", Type.MX)
    >>> query.opt(size=1232)
    >>> Message(query.finish()).header
    Header(id=4660, flags=256, questions=1, answers=0, authority=0, additional=1)
    """

    # A call of the library lets other threads run, so the lock is held while it reads or writes fields and buffer.
    __slots__ = ("_buffer", "_fields", "_lock", "_marks")

    def __init__(self, capacity: int = 65535, id: int = 0, flags: int = 0) -> None:
        """Begins a message of at most so many octets, and 65,535. `flags` are the header's 16 bits, with the opcode at bit
        11 and the response code at bit 0. Raises NoRoom below the header's twelve octets."""
        capacity = as_size(capacity)
        self._buffer = create_string_buffer(max(1, capacity))
        self._fields = BuilderFields()
        self._lock = Lock()
        self._marks: List[Mark] = []
        self._call(library.dnsnames_builder_start, self._buffer, capacity, _word(id, 16), _word(flags, 16))

    def __deepcopy__(self, memo: Dict[int, Any]) -> MessageBuilder:
        """A builder of its own, with what was pushed. A lock isn't copied."""
        other = MessageBuilder(self._fields.capacity)
        with self._lock:
            other._buffer[:], other._fields.state = self._buffer[:], self._fields.state
        return other

    def _call(self, call: Callable[..., int], *arguments: Any) -> None:
        with self._lock:
            status = call(byref(self._fields), *arguments)
        if status:
            refuse(status)

    @property
    def id(self) -> int:
        """The identifier; it may be set until the message is finished."""
        with self._lock:
            return self._fields.state.id

    @id.setter
    def id(self, number: int) -> None:
        number = _word(number, 16)
        with self._lock:
            self._fields.state.id = number

    @property
    def flags(self) -> int:
        """The header's 16 bits of flags; they may be set until the message is finished."""
        with self._lock:
            return self._fields.state.flags

    @flags.setter
    def flags(self, number: int) -> None:
        number = _word(number, 16)
        with self._lock:
            self._fields.state.flags = number

    @property
    def limit(self) -> int:
        """How many octets the message has at most. A smaller limit sets octets aside, as for an OPT record: eleven, and
        those of its options. Set to what it was before, it gives them back."""
        with self._lock:
            return self._fields.state.limit

    @limit.setter
    def limit(self, octets: int) -> None:
        with self._lock:
            if not self._fields.state.len <= octets <= min(self._fields.capacity, 65535):
                raise ValueError("the limit is from the message's octets to the capacity and 65,535")
            self._fields.state.limit = octets

    def __len__(self) -> int:
        """How many octets the message has, with its header."""
        with self._lock:
            return self._fields.state.len

    def question(self, name: AnyName, type: AnyType, class_: AnyClass = Class.IN) -> None:
        """Pushes a question. Raises WrongOrder where a record was pushed, NoRoom, TooManyEntries, NoBuilder."""
        octets = bytes(as_name(name))
        self._call(
            library.dnsnames_builder_question, octets, len(octets), as_number(Type, type), as_number(Class, class_)
        )

    def record(
        self, section: str, name: AnyName, type: AnyType, data: Octets, ttl: int = 0, class_: AnyClass = Class.IN
    ) -> None:
        """Pushes a record into a section: "answer", "authority" or "additional". A name in its data is `bytes(name)`, as
        data that were cut out of another message may have pointers, which would lead elsewhere here. It is compressed where
        the type is one of RFC 1035, 3.3 (NS, MD, MF, CNAME, SOA, MB, MG, MR, PTR, MINFO, MX), and the data are exactly the
        fields of that type. All other data are written as they are.

        Raises WrongOrder where a later section has a record, NoRoom, TooManyEntries, NoBuilder; ValueError for another
        section.

        >>> answer = MessageBuilder(512)
        >>> answer.record("answer", "a.example", "MX", b"\\0\\x0a" + bytes(Name("b.example")), ttl=60)
        >>> answer.record("answer", "b.example", Type.A, bytes([192, 0, 2, 1]), ttl=60)
        >>> for record in Message(answer.finish()).answers():
        ...     print(record.name, record.ttl, record.type, *record.names_in_data())
        a.example. 60 MX b.example.
        b.example. 60 A
        """
        number, owner, octets = _section(section), bytes(as_name(name)), as_octets(data)
        self._call(
            library.dnsnames_builder_record, number, owner, len(owner), as_number(Type, type),
            as_number(Class, class_), _word(ttl, 32), octets, len(octets),
        )

    def push_rrset(
        self, section: str, name: AnyName, type: AnyType, datas: Iterable[Octets], ttl: int = 0,
        class_: AnyClass = Class.IN,
    ) -> None:
        """Pushes the records of an RRset, one for each of the data and in their order, or none (RFC 2181, 5). Each is
        written as `record` writes it. Raises as `record` does, for the first that is refused after those before it:
        nothing is then changed. Raises ValueError where data have more than 65,535 octets.

        >>> answer = MessageBuilder(512)
        >>> answer.push_rrset("answer", "a.example", Type.A, [bytes([192, 0, 2, 1]), bytes([192, 0, 2, 2])], ttl=60)
        >>> Message(answer.finish()).header.answers
        2
        """
        self._call(library.dnsnames_builder_rrset, *_rrset(section, name, type, datas, ttl, class_))

    def push_required(
        self, section: str, name: AnyName, type: AnyType, datas: Iterable[Octets], ttl: int = 0,
        class_: AnyClass = Class.IN,
    ) -> bool:
        """Pushes an RRset that an answer can't do without, or sets the flag TC where it has no room, and changes nothing
        else (RFC 2181, 9). Returns whether it was pushed. These are the RRsets of the answer section, the name servers
        of a referral, and those of their addresses that are glue (RFC 9471, 3). Raises as `push_rrset` does, except
        NoRoom.

        >>> answer = MessageBuilder(32)
        >>> answer.push_required("answer", "a.example", Type.TXT, [b"\\x04more", b"\\x04text"])
        False
        >>> Message(answer.finish()).header.is_truncated
        True
        """
        return self._choose(library.dnsnames_builder_required, *_rrset(section, name, type, datas, ttl, class_))

    def push_extra(
        self, section: str, name: AnyName, type: AnyType, datas: Iterable[Octets], ttl: int = 0,
        class_: AnyClass = Class.IN,
    ) -> bool:
        """Pushes an RRset that an answer can do without, or leaves it out where it has no room: TC isn't set for it (RFC
        2181, 9). Returns whether it was pushed. Raises as `push_rrset` does, except NoRoom: nothing is then changed."""
        return self._choose(library.dnsnames_builder_extra, *_rrset(section, name, type, datas, ttl, class_))

    def _choose(self, call: Callable[..., int], *arguments: Any) -> bool:
        pushed = c_uint32()
        self._call(call, *arguments, byref(pushed))
        return bool(pushed.value)

    def mark(self) -> Mark:
        """A mark of the message as it is, for `rewind`."""
        with self._lock:
            mark = Mark(self._fields.state)
            self._marks.append(mark)
        return mark

    def rewind(self, mark: Mark) -> None:
        """Takes away what was pushed after the mark. The identifier, the flags and the limit stay. The mark can be used
        again. Raises ValueError for a mark of another message, for one that was made later than a mark that the message
        went back to, and for one that was made before `truncate`. Raises NoBuilder.

        >>> answer = MessageBuilder(64)
        >>> mark = answer.mark()
        >>> try:
        ...     answer.push_rrset("answer", "a.example", Type.A, [bytes([192, 0, 2, 1])])
        ...     answer.push_rrset("answer", "a.example", Type.RRSIG, [bytes(64)])
        ... except NoRoom:
        ...     answer.rewind(mark)
        >>> len(answer)
        12
        """
        with self._lock:
            places = [place for place, it in enumerate(self._marks) if it is mark]
            if not places:
                raise ValueError("no mark of this message, or one that was taken away")
            status = library.dnsnames_builder_rewind(byref(self._fields), byref(mark._state))
            if not status:
                del self._marks[places[0] + 1 :]
        if status:
            refuse(status)

    def opt(
        self, size: int = 1232, rcode: int = 0, version: int = 0, dnssec_ok: bool = False, options: Options = (),
        compact_ok: bool = False,
    ) -> None:
        """Pushes an OPT record into the additional section (RFC 6891, 6.1): how many octets of a message over UDP are
        taken, and options, each an `EdnsOption` or a pair of code and octets. Octets in place of the list are options in
        wire format. Of a response code of twelve bits the upper eight are written here; the lower four are those of
        `flags`. Records of DNSSEC are taken with `dnssec_ok` (RFC 3225), compact denials of existence with `compact_ok`
        (RFC 9824). A message has one at most.

        Raises NoRoom, TooManyEntries, NoBuilder. Raises ValueError where such octets end inside an option, or an option
        has a code of more than 16 bits or more than 65,535 octets, and TypeError for what is no option.

        >>> query = MessageBuilder(512)
        >>> query.opt(options=[EdnsOption.of_cookie(b"8 octets"), (3, b"")])
        >>> for record in Message(query.finish()).additional():
        ...     print(*record.options())
        EdnsOption(code=10, data=b'8 octets') EdnsOption(code=3, data=b'')
        """
        octets = _options(options)
        bits = (EDNS_DO if dnssec_ok else 0) | (EDNS_CO if compact_ok else 0)
        self._call(
            library.dnsnames_builder_opt_flags, _word(size, 16), _word(rcode, 12) >> 4, _word(version, 8), bits,
            octets, len(octets),
        )

    def truncate(self) -> None:
        """Takes all records away again, and sets the flag TC (RFC 2181, 9). Raises NoBuilder.

        >>> answer = MessageBuilder(64)
        >>> answer.question("a.example", Type.TXT)
        >>> try:
        ...     answer.record("answer", "a.example", Type.TXT, b"\\x32" + b"x" * 50)
        ... except NoRoom:
        ...     answer.truncate()
        >>> Message(answer.finish()).header.is_truncated
        True
        """
        with self._lock:
            status = library.dnsnames_builder_truncate(byref(self._fields))
            if not status:
                self._marks.clear()
        if status:
            refuse(status)

    def finish(self) -> bytes:
        """Writes the header, and returns the message. It can be changed no more: then each call raises NoBuilder."""
        length = c_size_t()
        self._call(library.dnsnames_builder_finish, byref(length))
        # A finished message is written no more.
        return self._buffer[: length.value]
