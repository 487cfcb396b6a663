"""EDNS options, and some of them by name."""

from __future__ import annotations

from ctypes import byref, c_char, c_size_t, c_uint16
from enum import IntEnum
from ipaddress import IPv4Network, IPv6Network, ip_network
from typing import Any, Callable, NamedTuple, Optional, Union

from ._library import Octets, SubnetFields, as_octets, library, refuse

# An option begins with its code and its length (RFC 6891, 6.1.2).
_HEAD_LEN = 4
_CLIENT_LEN = 8
# The families of addresses (RFC 7871, 6).
_FAMILIES = {4: 1, 6: 2}


class OptionCode(IntEnum):
    """The codes of some options, by the numbers that IANA registered them under."""

    NSID = 3
    CLIENT_SUBNET = 8
    COOKIE = 10
    TCP_KEEPALIVE = 11
    PADDING = 12
    EXTENDED_ERROR = 15


class Cookie(NamedTuple):
    """Cookies (RFC 7873, 4): the client's, of 8 octets, and the server's, of 8 to 32, or of none."""

    client: bytes
    server: bytes


class ClientSubnet(NamedTuple):
    """The subnet of a client (RFC 7871, 6), and for how many bits of its address an answer is meant, which is 0 in a
    query. The network is None where no bit is encoded of an address of no family."""

    network: Union[IPv4Network, IPv6Network, None]
    scope: int


class ExtendedError(NamedTuple):
    """An extended error (RFC 8914, 2): its code, and its text. What of it isn't UTF-8 is shown as U+FFFD."""

    info_code: int
    text: str


class EdnsOption(NamedTuple):
    """An option of an OPT record (RFC 6891, 6.1.2)."""

    code: int
    data: bytes

    @classmethod
    def of_cookie(cls, client: Octets, server: Octets = b"") -> EdnsOption:
        """An option with the cookie of a client, which the program draws at random, and that of a server, if there is
        one (RFC 7873, 4). Raises BadForm where the server's has 1 to 7 octets or more than 32, and ValueError where the
        client's hasn't 8.

        >>> EdnsOption.of_cookie(bytes(8)).cookie()
        Cookie(client=b'\\x00\\x00\\x00\\x00\\x00\\x00\\x00\\x00', server=b'')
        """
        asked, answered = as_octets(client), as_octets(server)
        if len(asked) != _CLIENT_LEN:
            raise ValueError("a client's cookie has 8 octets")
        return cls._written(library.dnsnames_append_cookie, 40, asked, answered, len(answered))

    @classmethod
    def of_client_subnet(cls, network: Union[str, IPv4Network, IPv6Network], scope: int = 0) -> EdnsOption:
        """An option with the subnet of a client (RFC 7871, 6), and for how many bits an answer is meant: 0 in a query.
        Raises ValueError for a text that is no network, as where bits follow its prefix.

        >>> EdnsOption.of_client_subnet("192.0.2.0/24")
        EdnsOption(code=8, data=b'\\x00\\x01\\x18\\x00\\xc0\\x00\\x02')
        """
        told = ip_network(network)
        if not 0 <= scope < 256:
            raise ValueError("the scope has 8 bits")
        address = told.network_address.packed
        return cls._written(
            library.dnsnames_append_client_subnet, 20, _FAMILIES[told.version], told.prefixlen, scope, address,
            len(address),
        )

    @classmethod
    def of_extended_error(cls, info_code: int, text: str = "") -> EdnsOption:
        """An option with an extended error: its code, and its text (RFC 8914, 2). Raises BadSymbol where the text has a
        lone surrogate, and NoRoom where it has more than 65,529 octets in UTF-8.

        >>> EdnsOption.of_extended_error(7, "expired").extended_error()
        ExtendedError(info_code=7, text='expired')
        """
        if not 0 <= info_code < 65536:
            raise ValueError("the code has 16 bits")
        octets = text.encode("utf-8", "surrogatepass")
        return cls._written(library.dnsnames_append_extended_error, 2 + len(octets), info_code, octets, len(octets))

    @classmethod
    def _written(cls, call: Callable[..., int], most: int, *arguments: Any) -> EdnsOption:
        """The option that a call writes, which has at most so many octets of data."""
        buffer, length = (c_char * (_HEAD_LEN + most))(), c_size_t()
        status = call(buffer, len(buffer), byref(length), *arguments)
        if status:
            refuse(status)
        octets = buffer[: length.value]
        return cls(int.from_bytes(octets[:2], "big"), octets[_HEAD_LEN:])

    def cookie(self) -> Optional[Cookie]:
        """The cookies that this option is; None for another code. Raises ShortInput where it has fewer than 8 octets,
        and BadForm where it has 9 to 15 or more than 40."""
        if self.code != OptionCode.COOKIE:
            return None
        server_len = c_size_t()
        status = library.dnsnames_cookie(self.data, len(self.data), byref(server_len))
        if status:
            refuse(status)
        return Cookie(self.data[:_CLIENT_LEN], self.data[_CLIENT_LEN : _CLIENT_LEN + server_len.value])

    def client_subnet(self) -> Optional[ClientSubnet]:
        """The subnet that this option is; None for another code. Raises ShortInput where it ends too soon, and BadForm
        where the family is unknown, it has more bits than its addresses, or the address is longer than its prefix."""
        if self.code != OptionCode.CLIENT_SUBNET:
            return None
        found = SubnetFields()
        status = library.dnsnames_client_subnet(self.data, len(self.data), byref(found))
        if status:
            refuse(status)
        if not found.family:
            return ClientSubnet(None, found.scope_prefix_len)
        made, size = (IPv4Network, 4) if found.family == 1 else (IPv6Network, 16)
        address = self.data[4:].ljust(size, b"\0")
        return ClientSubnet(made((address, found.source_prefix_len)), found.scope_prefix_len)

    def extended_error(self) -> Optional[ExtendedError]:
        """The extended error that this option is; None for another code. Raises ShortInput where it has fewer than two
        octets."""
        if self.code != OptionCode.EXTENDED_ERROR:
            return None
        info_code = c_uint16()
        status = library.dnsnames_extended_error(self.data, len(self.data), byref(info_code))
        if status:
            refuse(status)
        return ExtendedError(info_code.value, self.data[2:].decode("utf-8", "replace"))
