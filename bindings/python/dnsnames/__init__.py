"""Domain names and DNS messages (RFC 1035), read by a library whose every function is proved.

    >>> from dnsnames import Name
    >>> Name("www.Example.com") == Name("WWW.example.com.")
    True
    >>> str(Name("www.example.com").parent())
    'example.com.'

What octets and texts spell is decided by the library; this package passes them on, and raises an error of its own
class below DnsError where they are refused. The library is what the variable DNSNAMES_LIBRARY names, else the one that
the package's wheel carries, else `libdnsnames.so.0` where the system finds it. To turn a name into Unicode text or back
(IDNA) is left to the caller: labels are octets here.
"""

from ._library import VERSION as __version__
from ._library import (
    BadEscape, BadForm, BadLabelType, BadSymbol, BadTag, BinaryLabel, BitmapLength, CompressedName, DnsError, EmptyHash,
    EmptyLabel, KeyOrder, LongLabel, LongName, NoBuilder, NoField, NoLabel, NoMnemonic, NoRoom, RelativeName,
    ShortInput, TooManyEntries, TooManyPointers, TrailingData, WindowOrder, WrongOrder,
)
from ._builder import Mark, MessageBuilder
from ._fields import Field, FieldKind
from ._message import Composer, Header, Message, Opt, Question, Record
from ._mnemonic import Class, Flags, Opcode, Rcode, Type
from ._name import Name, Reading, read, skip
from ._option import ClientSubnet, Cookie, EdnsOption, ExtendedError, OptionCode

for _public in (
    BadEscape, BadForm, BadLabelType, BadSymbol, BadTag, BinaryLabel, BitmapLength, CompressedName, DnsError, EmptyHash,
    EmptyLabel, KeyOrder, LongLabel, LongName, NoBuilder, NoField, NoLabel, NoMnemonic, NoRoom, RelativeName,
    ShortInput, TooManyEntries, TooManyPointers, TrailingData, WindowOrder, WrongOrder,
    Mark, MessageBuilder, Class, Flags, Opcode, Rcode, Type, Field, FieldKind, Composer, Header, Message,
    Opt, Question, Record, Name, Reading, read, skip, ClientSubnet, Cookie, EdnsOption, ExtendedError, OptionCode,
):
    _public.__module__ = __name__
del _public

__all__ = [
    "BadEscape", "BadForm", "BadLabelType", "BadSymbol", "BadTag", "BinaryLabel", "BitmapLength", "Class",
    "ClientSubnet", "Composer", "CompressedName", "Cookie", "DnsError", "EdnsOption", "EmptyHash", "EmptyLabel",
    "ExtendedError", "Field", "FieldKind", "Flags", "Header", "KeyOrder", "LongLabel", "LongName", "Mark", "Message",
    "MessageBuilder", "Name", "NoBuilder", "NoField", "NoLabel", "NoMnemonic", "NoRoom", "Opcode", "Opt", "OptionCode",
    "Question", "Rcode", "Reading", "Record", "RelativeName", "ShortInput", "TooManyEntries", "TooManyPointers",
    "TrailingData", "Type", "WindowOrder", "WrongOrder", "read", "skip",
]
