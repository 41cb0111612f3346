"""Lists of servers as others publish them: JSON (draft 19, 8.3)."""

from __future__ import annotations

from ctypes import create_string_buffer
from dataclasses import dataclass
from typing import Any, Callable, List, Optional, Tuple, TypeVar

from ._lent import Text, encoded
from ._raw import library
from .codes import Refusal
from .errors import Refused, passed

SERVER_LENGTH = 64
LISTED_SERVERS = 64
LISTED_ADDRESSES = 8

_T = TypeVar("_T")


@dataclass(frozen=True)
class Address:
    """An address of a server: a host, a colon and a port, by TCP or by UDP. An IPv6 address stands
    in brackets."""

    host_and_port: str
    tcp: bool

    def host(self) -> str:
        """The host, without brackets."""
        return self.host_and_port.rpartition(":")[0].strip("[]")

    def port(self) -> int:
        """The port."""
        return int(self.host_and_port.rpartition(":")[2])


@dataclass(frozen=True)
class Server:
    """A server that can be asked. Its name may hold any characters, and should not go to a terminal
    as it is."""

    name: str
    key: bytes
    srv: bytes
    addresses: Tuple[Address, ...]


@dataclass(frozen=True)
class ServerList:
    """The servers of a list that can be asked, in its order. sources are URLs of newer lists,
    reports is the URL for reports, and passed_over counts the servers that cannot be asked."""

    servers: Tuple[Server, ...]
    sources: Tuple[str, ...]
    reports: Optional[str]
    passed_over: int


class _Reader:
    """A text, and room for whatever stands in it, which is never longer."""

    def __init__(self, text: Text) -> None:
        lent = encoded(text)
        self.lent = (lent, len(lent))
        self.room = create_string_buffer(len(lent) or 1)
        self.out = (self.room, len(lent))

    def written(self, told: Any) -> str:
        passed(told.code)
        return self.room.raw[: told.length].decode("utf-8")

    def name(self, place: int) -> str:
        return self.written(library.tb_server_name(*self.lent, place, *self.out))

    def address(self, place: int, which: int) -> Address:
        told = library.tb_server_address(*self.lent, place, which, *self.out)
        return Address(self.written(told), told.tcp == 1)

    def addresses(self, place: int) -> Tuple[Address, ...]:
        return tuple(_all(lambda which: self.address(place, which)))

    def source(self, place: int) -> str:
        return self.written(library.tb_list_source(*self.lent, place, *self.out))

    def reports(self) -> Optional[str]:
        told = library.tb_list_reports(*self.lent, *self.out)
        return None if told.code == Refusal.LIST_PLACE else self.written(told)


def _all(at: Callable[[int], _T]) -> List[_T]:
    """What stands at each place, up to the one at which there is nothing."""
    found: List[_T] = []
    while True:
        try:
            found.append(at(len(found)))
        except Refused as refused:
            if refused.code != Refusal.LIST_PLACE:
                raise
            return found


def read_servers(text: Text) -> ServerList:
    """Reads a list of servers in JSON. Raises Refused with 24 or 25. Its time grows with the length
    times the number of sources: limit the size of a text from others before."""
    reader = _Reader(text)
    room = LISTED_SERVERS * SERVER_LENGTH
    records = create_string_buffer(room)
    read = library.tb_read_servers(*reader.lent, records, room)
    passed(read.code)
    servers = []
    for place in range(read.records):
        start = place * SERVER_LENGTH
        key, srv = records.raw[start : start + 32], records.raw[start + 32 : start + 64]
        servers.append(Server(reader.name(place), key, srv, reader.addresses(place)))
    sources = tuple(_all(reader.source))
    return ServerList(tuple(servers), sources, reader.reports(), read.passed_over)
