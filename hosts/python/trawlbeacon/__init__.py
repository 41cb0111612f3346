"""The proved Roughtime library, for Python.

The functions and classes here call the shared library libtrawlbeacon by ctypes. The library is
proved. This package is tested. To ask one server, whose long-term key is known:

    request = write_request(key, new_nonce())
    # send it by UDP, and receive the response
    window = check_signed(key, request, response)
    # this server says that the time is from window.low to window.high

The example ask_several.py is a whole program, which asks several servers.

Bytes are taken in any form. What the library refuses raises Refused, with its code. A number that
is too large raises OverflowError, and a key, nonce or rand of another length ValueError.
"""

from .clocks import CLOCK_SERVERS, Clock, Time
from .codes import Refusal, words
from .errors import Refused
from .lists import LISTED_ADDRESSES, LISTED_SERVERS, Address, Server, ServerList, read_servers
from .packets import (
    LONGEST_PACKET,
    REQUEST_LENGTH,
    Request,
    Response,
    Window,
    check_signed,
    link,
    new_nonce,
    read_request,
    read_response,
    sha512,
    srv_value,
    verify,
    write_request,
)
from .piles import LONGEST_REPORT, MOST_RECORDS, RECORD_LENGTH, Cut, Pair, Pile, Record
from .reports import CutText, cut_report, read_report
from .walks import FEWEST_SERVERS, MOST_SERVERS, Asked, Outcome, Taken, Walk

__version__ = "1.3.1"

__all__ = [
    "CLOCK_SERVERS",
    "FEWEST_SERVERS",
    "LISTED_ADDRESSES",
    "LISTED_SERVERS",
    "LONGEST_PACKET",
    "LONGEST_REPORT",
    "MOST_RECORDS",
    "MOST_SERVERS",
    "RECORD_LENGTH",
    "REQUEST_LENGTH",
    "Address",
    "Asked",
    "Clock",
    "Cut",
    "CutText",
    "Outcome",
    "Pair",
    "Pile",
    "Record",
    "Refusal",
    "Refused",
    "Request",
    "Response",
    "Server",
    "ServerList",
    "Taken",
    "Time",
    "Walk",
    "Window",
    "check_signed",
    "cut_report",
    "link",
    "new_nonce",
    "read_report",
    "read_request",
    "read_response",
    "read_servers",
    "sha512",
    "srv_value",
    "verify",
    "words",
    "write_request",
]
