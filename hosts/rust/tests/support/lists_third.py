"""Reads lists of servers (draft 19, section 8.3) with what Python has for JSON, base64 and addresses.

Each text comes on the standard input behind its length, four bytes with the least significant first.
The length 2^32 - 1 ends a round: then for each of its texts what it says is written, behind its
length in the same form: the code 24 or 25, or a line for each server, address and URL.
"""

import base64
import binascii
import ipaddress
import json
import re
import sys

DEEPEST = 16
LABEL = re.compile(r"[A-Za-z0-9](?:[A-Za-z0-9-]{0,61}[A-Za-z0-9])?")
PORT = re.compile(r"0|[1-9][0-9]{0,4}")
BEHIND = r"(?:[A-Za-z0-9\-._~!$&'()*+,;=:@/?]|%[0-9A-Fa-f]{2})*"
URL = re.compile(r"[Hh][Tt][Tt][Pp][Ss]://([^/?#]*)(" + BEHIND + r"(?:#" + BEHIND + r")?)")


class Wrong(Exception):
    """The text is refused with this code."""


class Whole(str):
    """A number with no fraction and no exponent."""


class Other(str):
    """A number with one of them."""


class Members(list):
    """The members of an object, repeated ones too."""

    def of(self, name):
        found = [value for known, value in self if known == name]
        if len(found) > 1:
            raise Wrong(24)
        return found

    def one(self, name):
        found = self.of(name)
        if not found:
            raise Wrong(24)
        return found[0]


def need(holds):
    if not holds:
        raise Wrong(24)


def no_constant(_):
    raise Wrong(24)


def depth(value):
    if isinstance(value, Members):
        return 1 + max((depth(one) for _, one in value), default=0)
    if isinstance(value, list):
        return 1 + max((depth(one) for one in value), default=0)
    return 0


def is_list(value):
    return isinstance(value, list) and not isinstance(value, Members)


def is_string(value):
    return isinstance(value, str) and not isinstance(value, (Whole, Other))


def text(value):
    need(is_string(value))
    try:
        return value.encode("utf-8")
    except UnicodeEncodeError:
        raise Wrong(24) from None


def is_ip(kind, host):
    try:
        kind(host)
        return True
    except ValueError:
        return False


def is_name(host):
    labels = (host[:-1] if host.endswith(".") else host).split(".")
    short = len(".".join(labels)) <= 253
    return short and all(map(LABEL.fullmatch, labels)) and not labels[-1].isdigit()


def is_host(host):
    if not host.isascii():
        return False
    if host.startswith("[") and host.endswith("]"):
        return "%" not in host and is_ip(ipaddress.IPv6Address, host[1:-1])
    return is_ip(ipaddress.IPv4Address, host) or is_name(host)


def is_port(port):
    return PORT.fullmatch(port) is not None and int(port) <= 65535


def is_address(address):
    host, colon, port = address.rpartition(":")
    return colon == ":" and is_host(host) and is_port(port)


def is_url(url):
    found = URL.fullmatch(url)
    if len(url.encode("utf-8")) > 2048 or found is None:
        return False
    authority = found.group(1)
    host, colon, port = authority.rpartition(":")
    return is_host(authority) or (colon == ":" and is_host(host) and (not port or is_port(port)))


def key_of(value):
    need(is_string(value) and value.isascii())
    try:
        key = base64.b64decode(value, validate=True)
    except binascii.Error:
        raise Wrong(24) from None
    # The reader forgives bits that no byte takes.
    need(base64.b64encode(key).decode() == value)
    return key


def address_of(value):
    need(isinstance(value, Members))
    protocol, address = value.one("protocol"), value.one("address")
    need(is_string(protocol) and protocol in ("tcp", "udp"))
    octets = text(address)
    need(is_address(address))
    return f"A {protocol} {octets.hex()}"


def server_of(value):
    need(isinstance(value, Members))
    name, version, scheme = value.one("name"), value.one("version"), value.one("publicKeyType")
    key, addresses = key_of(value.one("publicKey")), value.one("addresses")
    need(isinstance(version, Whole) and is_string(scheme) and is_list(addresses))
    scheme = scheme.encode("utf-8", "surrogatepass").hex()
    first = f"S {text(name).hex()} {version} {scheme} {key.hex()}"
    return [first] + [address_of(address) for address in addresses]


def url_of(letter, value):
    octets = text(value)
    need(is_url(value))
    return f"{letter} {octets.hex()}"


def lines(octets):
    try:
        whole = json.loads(
            octets.decode("utf-8"),
            object_pairs_hook=Members,
            parse_int=Whole,
            parse_float=Other,
            parse_constant=no_constant,
        )
        need(isinstance(whole, Members) and depth(whole) <= DEEPEST)
    except (UnicodeDecodeError, json.JSONDecodeError, RecursionError):
        raise Wrong(24) from None
    servers, sources, reports = whole.one("servers"), whole.of("sources"), whole.of("reports")
    need(is_list(servers) and all(map(is_list, sources)))
    told = [server_of(server) for server in servers]
    urls = [url_of("U", url) for url in (sources[0] if sources else [])]
    urls += [url_of("R", url) for url in reports]
    if not 1 <= len(servers) <= 64 or any(len(server) > 9 for server in told):
        raise Wrong(25)
    return sum(told, []) + urls


def answer(octets):
    try:
        return "\n".join(lines(octets))
    except Wrong as wrong:
        return str(wrong)


def main():
    answers = []
    while True:
        head = sys.stdin.buffer.read(4)
        if not head:
            return
        length = int.from_bytes(head, "little")
        if length == 0xFFFFFFFF:
            for said in answers:
                sys.stdout.buffer.write(len(said).to_bytes(4, "little") + said.encode())
            sys.stdout.flush()
            answers = []
        else:
            answers.append(answer(sys.stdin.buffer.read(length)))


main()
