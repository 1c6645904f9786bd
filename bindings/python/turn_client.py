"""A TURN client (RFC 8656, RFC 6062, RFC 6156) over UDP or TCP that does no input or output: turn_client.h by ctypes.

The program owns sockets and clock, and takes turns: it sends what poll_transmit gives until that is None, asks poll
what is due, and takes what poll_event tells until that is None. A turn is due after each call, and when the moment has
come that poll told; at once where something happened in the one before. What comes from the server is handed to recv,
over TCP then poll_recv is asked until that is None. What send_to gives is sent at once. example.py does all this.

Names are those of the Rust crate turn-client-proto. Answers are frozen, and a refusal is a TurnError of its own class.
An address is a pair of an IP address as text and a port; a scope of IPv6 isn't looked at. Addresses that are told are
written as those of sockets are. A moment is a number of nanoseconds, as time.monotonic_ns() gives them: none is to be
earlier than one before, and none is past MOMENT_MAX. A ValueError tells an address, a port, a moment or another number
that can't be one: then nothing has changed.

Calls may come from any thread: one waits for the other. None is to be made in a signal handler, which might wait for
the call that it interrupted. After a fork one of the two processes goes on with a client, and the other at most closes
it: two that go on send the same transaction IDs.
"""

from __future__ import annotations

import ctypes
import enum
import ipaddress
import os
import platform
import secrets
import socket
import sys
import threading
import warnings
import weakref
from collections.abc import Callable, Iterable, Sequence
from dataclasses import dataclass, field
from pathlib import Path
from types import TracebackType
from typing import Any, ClassVar, TypeVar, Union

__version__ = "0.1.0"  # of the file VERSION

Address = tuple[str, int]
Buffer = Union[bytes, bytearray, memoryview]

NAME_MAX = 513            # bytes of a user's name
SOFTWARE_MAX = 763        # bytes of the text of SOFTWARE
PAYLOAD_MAX = 65504       # bytes of a payload over UDP between server and peers
PERMIT_MAX = 32           # addresses of create_permissions
MOMENT_MAX = 1 << 62      # nanoseconds
_MESSAGE_MAX = 65555      # bytes of any message
_SEND_EXTRA = 64          # bytes beside the payload in the buffer of a send
_SEED_SIZE = 32
# of a reservation (RFC 8656, section 18.10)
_TOKEN_SIZE = 8
# of turn_settings: no time between two messages, and the port that is reserved
_NO_PACE, _PORT_RESERVED = 0xFFFFFFFF, 3
_IPV4, _IPV4_SIZE = 4, 4  # the family, and octets of its addresses
_ROOM = 8                 # elements for which a getter has room at first


# ---- what is refused


class TurnError(Exception):
    """The client refused a call. Nothing has changed where its class doesn't say otherwise."""

    status: ClassVar[int] = 0

    def __init__(self, text: str | None = None) -> None:
        super().__init__(text or " ".join((type(self).__doc__ or type(self).__name__).split()))


class NoClient(TurnError):
    """The client was closed."""

    status = -1


class AlreadyOpen(TurnError):
    """The handle is open. This module opens each once."""

    status = -2


class BadFamily(TurnError):
    """An address of neither IPv4 nor IPv6. In this module a ValueError tells that before."""

    status = -3


class BadText(TurnError):
    """A name or a password that isn't UTF-8: half of a surrogate pair stands in it."""

    status = -4


class LongName(TurnError):
    """A name of more than 513 bytes (NAME_MAX)."""

    status = -5


class BadSetting(TurnError):
    """A transport, family, algorithm or choice that there isn't; or an allocation over TCP of a client over UDP."""

    status = -6


class SmallBuffer(TurnError):
    """A buffer under the size that the call states. This module hands in none."""

    status = -7


class Unread(TurnError):
    """Joined bytes wait to be read. This module reads them at once."""

    status = -8


class NoAllocation(TurnError):
    """No allocation serves this: it was never made, or is over, or the client has ended."""

    status = -9


class AlreadyExists(TurnError):
    """It stands, or was asked for."""

    status = -10


class NoPermission(TurnError):
    """No permission for the peer's address stands."""

    status = -11


class NoChannel(TurnError):
    """No channel number is free."""

    status = -12


class ExpiredChannelExists(TurnError):
    """A channel to the peer ended a short while ago. `until` is the last moment at which that holds."""

    status = -13
    until = 0


class NoTcpSocket(TurnError):
    """No connection to the peer is bound."""

    status = -14


class TooLarge(TurnError):
    """More bytes than a message carries: over UDP between server and peers 65504 (PAYLOAD_MAX)."""

    status = -15


class NoMemory(TurnError):
    """malloc refused. After recv, poll_recv, poll_transmit and poll the client has failed: it holds nothing, and is to
    be closed. After another call it goes on, and the call may be made again."""

    status = -16


class ZeroSeed(TurnError):
    """A seed of zeros."""

    status = -17


class BadLength(TurnError):
    """A length that nothing has. This module hands in none."""

    status = -18


class InvalidAddresses(TurnError):
    """There is no address, or more than PERMIT_MAX, or they are of two families."""

    status = -19


_REFUSALS = {kind.status: kind for kind in TurnError.__subclasses__()}


def _checked(status: int) -> int:
    """A status that tells no refusal."""
    if status >= 0:
        return status
    if status in _REFUSALS:
        raise _REFUSALS[status]()
    raise TurnError(f"status {status}, which turn_client.h doesn't name")


# ---- settings


class Transport(enum.IntEnum):
    TCP = 6
    UDP = 17


class Families(enum.IntFlag):
    """Of relayed addresses."""

    IPV4 = 1
    IPV6 = 2


class Integrity(enum.IntFlag):
    """Algorithms."""

    SHA1 = 1
    SHA256 = 2
    SHA512 = 4


class RelayedPort(enum.IntEnum):
    """The port that is asked for the relayed address (RFC 8656, section 7.1): any; an even one, by EVEN-PORT; an even
    one, and the next one reserved for another client, which servers refuse beside two families."""

    ANY = 0
    EVEN = 1
    EVEN_AND_NEXT = 2


class Anonymous(enum.IntEnum):
    """Whether the user's name is hidden (RFC 8489, section 9.2): where the server can, always, never."""

    AUTO = 0
    REQUIRED = 1
    DISABLED = 2


@dataclass(frozen=True)
class RequestRetransmits:
    """How often a request is sent in all over UDP, and the waits in milliseconds: behind the first, each next one being
    twice as long; the longest between two; behind the last."""

    sends: int
    first_wait: int
    most_wait: int
    last_wait: int


@dataclass(frozen=True)
class TurnConfig:
    """What a client asks for, and how. allocation_transport is the one between the server and peers: TCP wants TCP to
    the server, too (RFC 6062). Without request_retransmits waits are those of RFC 8489. A hardened client ignores
    responses to no request of its own, refuses a challenge that lacks the list of algorithms which its nonce announces,
    and ignores what doesn't validate while it allocates.

    If max_connection_attempts connections of an allocation wait for their socket, one more that a peer opens gets error
    447 (RFC 6062); while as many messages wait to be sent, an attempt that would get an error is ignored. 0 is 64, or
    no limit if the client isn't hardened.

    With short_lifetimes, a lifetime under 600 seconds in the response to a REFRESH is believed (RFC 8656, section 8.3),
    so that it shortens the allocation, unless the client isn't hardened. Without, such a response changes nothing, and
    the allocation may outlast the server's. What the response to the ALLOCATE says is always believed.

    With attempt_indications, a CONNECTION_ATTEMPT indication announces a connection that a peer opens (RFC 6062,
    section 4.4), as coturn sends it; without, only a signed request of the server does. An indication has no signature,
    so whoever can write into the control connection can make one, with any ID and any peer (see
    TurnClient.allocated_tcp_socket). If as many connections wait for their socket as max_connection_attempts allows, or
    64 if there is no limit, one more is ignored.

    requested_lifetime is asked for by each ALLOCATE and each REFRESH that renews, in seconds; 0 would delete, and is
    refused. The server decides. Two messages that the client sends are at least `pace` milliseconds apart; 0: no time.
    relayed_port is asked for the relayed address; with a reservation_token of another client
    (TurnClient.reservation_token) it is the port that the server reserved under it (RFC 8656, section 7.1)."""

    username: str
    password: str = field(repr=False)
    allocation_transport: Transport = Transport.UDP
    address_families: Families = Families.IPV4
    supported_integrity: Integrity = Integrity.SHA1 | Integrity.SHA256
    anonymous_username: Anonymous = Anonymous.AUTO
    request_retransmits: RequestRetransmits | None = None
    hardened: bool = True
    max_connection_attempts: int = 0
    short_lifetimes: bool = True
    requested_lifetime: int = 1800
    pace: int = 50
    relayed_port: RelayedPort = RelayedPort.ANY
    reservation_token: bytes | None = field(default=None, repr=False)
    attempt_indications: bool = False


# ---- answers


@dataclass(frozen=True)
class Transmit:
    """Bytes to send. Over TCP `source` tells by which connection to the server: the client's own, or a peer's."""

    data: bytes
    transport: Transport
    source: Address
    to: Address


@dataclass(frozen=True)
class Handled:
    """The bytes were for the client."""


@dataclass(frozen=True)
class Ignored:
    """The bytes are not for the client."""


@dataclass(frozen=True)
class PeerData:
    """What a peer sent. `data` is a view of the bytes that were handed in where it stands there (of a copy where these
    aren't `bytes`), else bytes."""

    transport: Transport
    peer: Address
    data: bytes | memoryview


@dataclass(frozen=True)
class PeerIcmp:
    """A report in ICMP on the way to a peer."""

    transport: Transport
    peer: Address
    icmp_type: int
    icmp_code: int
    icmp_data: int


@dataclass(frozen=True)
class WaitUntil:
    """Nothing is to be done until this moment. One that isn't later than now asks for another turn at once."""

    moment: int


@dataclass(frozen=True)
class AllocateTcpSocket:
    """A connection is to be opened from an address, whose port is free to choose, to the server. allocated_tcp_socket
    is told of it by the number and the peer. It is asked once."""

    id: int
    transport: Transport
    source: Address
    to: Address
    peer: Address


@dataclass(frozen=True)
class TcpClose:
    """A connection to the server is to be closed. It is told once."""

    local: Address
    remote: Address


@dataclass(frozen=True)
class Closed:
    """The client has ended, or holds no allocation any more."""


@dataclass(frozen=True)
class AllocationCreated:
    transport: Transport
    relayed: Address


@dataclass(frozen=True)
class AllocationCreateFailed:
    """There is no relayed address of that family: the cause says why."""

    family: Families


@dataclass(frozen=True)
class PermissionCreated:
    transport: Transport
    peer: str


@dataclass(frozen=True)
class PermissionCreateFailed:
    """It was refused, or ended."""

    transport: Transport
    peer: str


@dataclass(frozen=True)
class ChannelCreated:
    transport: Transport
    peer: Address


@dataclass(frozen=True)
class ChannelCreateFailed:
    """It was refused, or ended."""

    transport: Transport
    peer: Address


@dataclass(frozen=True)
class TcpConnected:
    """From now on bytes go both ways."""

    peer: Address


@dataclass(frozen=True)
class TcpConnectFailed:
    peer: Address


@dataclass(frozen=True)
class AllocationExpired:
    """The time of an allocation was over, and it isn't held any more."""

    transport: Transport
    relayed: Address


@dataclass(frozen=True)
class Rejected:
    """The server rejected the request, by an error response with this code, 300 to 699. The reason phrase is the
    server's words, or those of whoever sent the response: remove control characters before it is printed. It is empty
    if the response had none. (One that isn't UTF-8 makes the response malformed: Unusable.) A response that isn't
    signed, which means that it wasn't validated under the password, may be anybody's."""

    code: int
    reason: str
    is_signed: bool


@dataclass(frozen=True)
class Unanswered:
    """No response came in time."""


@dataclass(frozen=True)
class BadIntegrity:
    """The response wasn't signed, or not by the password."""


@dataclass(frozen=True)
class NoCommonAlgorithm:
    """The server's challenge names no algorithm that the client supports, or lacks what the settings require, as to
    hide the name."""


@dataclass(frozen=True)
class OtherFamily:
    """The server allocated addresses of other families only."""


@dataclass(frozen=True)
class CauseLost:
    """Memory for the cause ran out, so it wasn't stored."""


@dataclass(frozen=True)
class Deleted:
    """delete was called before: whatever fails or ends after it, by a response or without one."""


@dataclass(frozen=True)
class Expired:
    """Its time was over."""


@dataclass(frozen=True)
class SocketClosed:
    """A layer above ended the client. No call of this module does that."""


@dataclass(frozen=True)
class Unusable:
    """The response was malformed, or lacked what the client needs of it."""


@dataclass(frozen=True)
class Channel:
    number: int
    peer: Address


@dataclass(frozen=True)
class Connection:
    """A connection to a peer that has a socket, by its own address. `id` is the server's name for it."""

    local: Address
    peer: Address
    id: int
    is_bound: bool


TurnRecvRet = Union[Handled, Ignored, PeerData, PeerIcmp]
TurnPollRet = Union[WaitUntil, AllocateTcpSocket, TcpClose, Closed]
TurnEvent = Union[AllocationCreated, AllocationCreateFailed, PermissionCreated, PermissionCreateFailed, ChannelCreated,
                  ChannelCreateFailed, TcpConnected, TcpConnectFailed]
TurnCause = Union[Rejected, Unanswered, BadIntegrity, NoCommonAlgorithm, OtherFamily, CauseLost, Deleted, Expired,
                  SocketClosed, Unusable]


# ---- the structs of turn_client.h


class _Address(ctypes.Structure):
    ip: ctypes.Array[ctypes.c_uint8]
    port: int
    family: int
    _fields_ = [("ip", ctypes.c_uint8 * 16), ("port", ctypes.c_uint16), ("family", ctypes.c_uint8)]


class _Settings(ctypes.Structure):
    _fields_ = [
        ("size", ctypes.c_size_t), ("local", _Address), ("server", _Address), ("transport", ctypes.c_uint32),
        ("peers", ctypes.c_uint32), ("families", ctypes.c_uint32), ("integrity", ctypes.c_uint32),
        ("anonymous", ctypes.c_uint32), ("sends", ctypes.c_uint32), ("first_wait", ctypes.c_uint32),
        ("most_wait", ctypes.c_uint32), ("last_wait", ctypes.c_uint32), ("compatible", ctypes.c_uint32),
        ("max_connection_attempts", ctypes.c_size_t), ("ignore_short_lifetimes", ctypes.c_uint32),
        ("lifetime", ctypes.c_uint32), ("pace", ctypes.c_uint32), ("port", ctypes.c_uint32),
        ("reservation", ctypes.c_uint64), ("attempt_indications", ctypes.c_uint32),
    ]


class _Seed(ctypes.Structure):
    _fields_ = [("bytes", ctypes.c_uint8 * _SEED_SIZE)]


class _Transmit(ctypes.Structure):
    size: int
    transport: int
    from_: _Address
    to: _Address
    _fields_ = [("size", ctypes.c_size_t), ("transport", ctypes.c_uint32), ("from_", _Address), ("to", _Address)]


class _Payload(ctypes.Structure):
    start: int
    size: int
    transport: int
    peer: _Address
    is_joined: bool
    icmp_type: int
    icmp_code: int
    icmp_data: int
    _fields_ = [
        ("start", ctypes.c_size_t), ("size", ctypes.c_size_t), ("transport", ctypes.c_uint32), ("peer", _Address),
        ("is_joined", ctypes.c_bool), ("icmp_type", ctypes.c_uint8), ("icmp_code", ctypes.c_uint8),
        ("icmp_data", ctypes.c_uint32),
    ]


class _Wait(ctypes.Structure):
    until: int
    id: int
    transport: int
    from_: _Address
    to: _Address
    peer: _Address
    _fields_ = [
        ("until", ctypes.c_uint64), ("id", ctypes.c_uint32), ("transport", ctypes.c_uint32), ("from_", _Address),
        ("to", _Address), ("peer", _Address),
    ]


class _Event(ctypes.Structure):
    kind: int
    transport: int
    address: _Address
    _fields_ = [("kind", ctypes.c_uint32), ("transport", ctypes.c_uint32), ("address", _Address)]


class _Cause(ctypes.Structure):
    kind: int
    code: int
    is_signed: bool
    reason_size: int
    alternate: _Address
    domain_size: int
    _fields_ = [
        ("kind", ctypes.c_uint32), ("code", ctypes.c_uint32), ("is_signed", ctypes.c_bool),
        ("reason_size", ctypes.c_size_t), ("alternate", _Address), ("domain_size", ctypes.c_size_t),
    ]


class _Relayed(ctypes.Structure):
    transport: int
    address: _Address
    _fields_ = [("transport", ctypes.c_uint32), ("address", _Address)]


class _Channel(ctypes.Structure):
    number: int
    peer: _Address
    _fields_ = [("number", ctypes.c_uint16), ("peer", _Address)]


class _Connection(ctypes.Structure):
    local: _Address
    peer: _Address
    id: int
    is_bound: bool
    _fields_ = [("local", _Address), ("peer", _Address), ("id", ctypes.c_uint32), ("is_bound", ctypes.c_bool)]


class _Client(ctypes.Structure):
    _fields_ = [("private_client", ctypes.c_void_p), ("private_is_open", ctypes.c_bool)]


# ---- its calls

_NOTHING, _IGNORED, _PAYLOAD, _ICMP, _CLOSED, _OPEN_SOCKET, _CLOSE_SOCKET = range(1, 8)

_STATUS, _NUMBER, _SIZE, _MOMENT, _BYTES = (ctypes.c_int32, ctypes.c_uint32, ctypes.c_size_t, ctypes.c_uint64,
                                            ctypes.c_char_p)
_AT = ctypes.POINTER(_Address)

# what each answers and takes behind the handle
_CALLS: dict[str, tuple[Any, Sequence[Any]]] = {
    "open": (_STATUS, (ctypes.POINTER(_Settings), _BYTES, _SIZE, _BYTES, _SIZE, ctypes.POINTER(_Seed))),
    "close": (None, ()),
    "credentials": (_STATUS, (_BYTES, _SIZE, _BYTES, _SIZE)),
    "software": (_STATUS, (_BYTES, _SIZE)),
    "fingerprint": (_STATUS, (ctypes.c_bool,)),
    "delete": (_STATUS, (_MOMENT,)),
    "feed": (_STATUS, (_AT, _AT, _BYTES, _SIZE, _MOMENT, ctypes.POINTER(_Payload))),
    "pull": (_STATUS, (_MOMENT, ctypes.POINTER(_Payload))),
    "read": (_STATUS, (_BYTES, _SIZE)),
    "draw": (_STATUS, (_MOMENT, _BYTES, _SIZE, ctypes.POINTER(_Transmit))),
    "send": (_STATUS, (_NUMBER, _AT, _BYTES, _SIZE, _MOMENT, _BYTES, _SIZE, ctypes.POINTER(_Transmit))),
    "poll": (_STATUS, (_MOMENT, ctypes.POINTER(_Wait))),
    "event": (_STATUS, (ctypes.POINTER(_Event),)),
    "expired": (_STATUS, (ctypes.POINTER(_Relayed),)),
    "cause": (_STATUS, (ctypes.POINTER(_Cause),)),
    "reason": (_STATUS, (_BYTES, _SIZE)),
    "domain": (_STATUS, (_BYTES, _SIZE)),
    "mapped": (_STATUS, (_AT,)),
    "reservation": (_STATUS, (ctypes.POINTER(ctypes.c_uint64),)),
    "permit": (_STATUS, (_NUMBER, _AT, _MOMENT)),
    "permit_several": (_STATUS, (_NUMBER, _AT, _SIZE, _MOMENT)),
    "bind": (_STATUS, (_NUMBER, _AT, _MOMENT, ctypes.POINTER(_MOMENT))),
    "connect": (_STATUS, (_AT, _MOMENT)),
    "socket": (_STATUS, (_NUMBER, _AT, _AT, _MOMENT)),
    "closed": (_STATUS, (_AT, _AT, _MOMENT)),
    "relayed": (_SIZE, (ctypes.POINTER(_Relayed), _SIZE)),
    "permissions": (_SIZE, (_NUMBER, _AT, _AT, _SIZE)),
    "is_permitted": (ctypes.c_bool, (_NUMBER, _AT)),
    "channels": (_SIZE, (ctypes.POINTER(_Channel), _SIZE)),
    "connections": (_SIZE, (ctypes.POINTER(_Connection), _SIZE)),
}


_UNPROVED = "libturn_client_unproved.so"  # which bindings/c/try makes, for tests


def _is_released_for_here() -> bool:
    """Whether this is the platform of the released library: x86-64 Linux with glibc."""
    has_glibc = "CS_GNU_LIBC_VERSION" in getattr(os, "confstr_names", ())
    return (sys.platform, platform.machine(), has_glibc, sys.maxsize) == ("linux", "x86_64", True, 2**63 - 1)


def _library() -> Path:
    """The shared library: in the folder that TURN_CLIENT_LIB names, else beside this file, else the released one."""
    name, here = "libturn_client.so", Path(__file__).resolve().parent
    if named := os.environ.get("TURN_CLIENT_LIB"):
        path, unproved = Path(named, name).absolute(), Path(named, _UNPROVED).absolute()
        return unproved if unproved.exists() and not path.exists() else path
    if not _is_released_for_here():
        raise ImportError(f"{name} is made for x86-64 Linux with glibc, and this is {platform.platform()}")
    beside = here / name
    return beside if beside.exists() else here.parent.parent / "dist" / "x86_64-linux-gnu" / name


def _loaded(path: Path) -> dict[str, Callable[..., Any]]:
    if path.name == _UNPROVED:
        warnings.warn(f"{path} is NOT PROVED", stacklevel=1)
    try:
        library = ctypes.CDLL(str(path))
        calls: dict[str, Any] = {name: getattr(library, f"turn_client_{name}") for name in (*_CALLS, "version")}
    except (OSError, AttributeError) as error:
        raise ImportError(f"{error}\nthe library of turn_client can't be loaded from {path}") from error
    for name, (answer, given) in _CALLS.items():
        calls[name].restype, calls[name].argtypes = answer, [ctypes.POINTER(_Client), *given]
    calls["version"].restype, calls["version"].argtypes = ctypes.c_uint32, []
    return calls


_CALL = _loaded(_library())


def library_version() -> int:
    """The version of the library that is loaded: major * 10000 + minor * 100 + patch."""
    number: int = _CALL["version"]()
    return number


# ---- values


def _number(value: int, most: int, what: str) -> int:
    """A number within bounds, which ctypes would cut."""
    if not 0 <= value <= most:
        raise ValueError(f"{value} is no {what}: 0 to {most}")
    return value


def _moment(now: int) -> int:
    return _number(now, MOMENT_MAX, "moment")


def _word(value: int) -> int:
    return _number(value, 0xFFFFFFFF, "number of 32 bits")


def _size(value: int) -> int:
    return _number(value, ctypes.c_size_t(-1).value, "size")


def _bytes(data: Buffer) -> bytes:
    """The bytes, or a copy where they may be changed later."""
    return data if isinstance(data, bytes) else memoryview(data).tobytes()


def _asked(config: TurnConfig) -> dict[str, int]:
    """The fields of turn_settings for what an ALLOCATE asks for besides, and for the pace."""
    if config.requested_lifetime == 0:
        raise ValueError("a lifetime of 0 deletes the allocation")
    if not 0 <= config.pace < _NO_PACE:
        raise ValueError(f"{config.pace} milliseconds between two messages")
    asked = {"lifetime": _word(config.requested_lifetime), "pace": config.pace or _NO_PACE}
    if config.reservation_token is None:
        return asked | {"port": _word(config.relayed_port)}
    if len(config.reservation_token) != _TOKEN_SIZE:
        raise ValueError(f"a token of {len(config.reservation_token)} bytes: {_TOKEN_SIZE} are wanted")
    return asked | {"port": _PORT_RESERVED, "reservation": int.from_bytes(config.reservation_token, "big")}


def _to_c(address: Address) -> _Address:
    ip, port = address
    parsed = ipaddress.ip_address(ip)
    made = _Address(port=_number(port, 0xFFFF, "port"), family=parsed.version)
    made.ip[: len(parsed.packed)] = list(parsed.packed)
    return made


def _host(address: _Address) -> str:
    """As sockets write it; ipaddress may write an IPv4 address within IPv6 in another way."""
    if address.family == _IPV4:
        return socket.inet_ntop(socket.AF_INET, bytes(address.ip[:_IPV4_SIZE]))
    return socket.inet_ntop(socket.AF_INET6, bytes(address.ip))


def _of_c(address: _Address) -> Address:
    return _host(address), address.port


# in the order of turn_event_kind, which begins with 1
_EVENTS: tuple[Callable[[_Event], TurnEvent], ...] = (
    lambda it: AllocationCreated(Transport(it.transport), _of_c(it.address)),
    lambda it: AllocationCreateFailed(Families.IPV4 if it.address.family == _IPV4 else Families.IPV6),
    lambda it: PermissionCreated(Transport(it.transport), _host(it.address)),
    lambda it: PermissionCreateFailed(Transport(it.transport), _host(it.address)),
    lambda it: ChannelCreated(Transport(it.transport), _of_c(it.address)),
    lambda it: ChannelCreateFailed(Transport(it.transport), _of_c(it.address)),
    lambda it: TcpConnected(_of_c(it.address)),
    lambda it: TcpConnectFailed(_of_c(it.address)),
)

_REJECTED = 1
# the others, in the order of turn_cause_kind, which follow that one
_OTHER_CAUSES: tuple[Callable[[], TurnCause], ...] = (
    Unanswered, BadIntegrity, NoCommonAlgorithm, OtherFamily, CauseLost, Deleted, Expired, SocketClosed, Unusable,
)

_T = TypeVar("_T", bound=ctypes.Structure)


# ---- the client


class TurnClient:
    """A client of one user at one server. What comes to another address than `local` is ignored, but for the sockets of
    connections. Nothing is sent before poll_transmit gives it. It is freed by close, at the end of a `with`, and when
    nobody knows it any more; the server is told nothing by that: see delete.

    The seed, where there is one, is 32 random bytes. It is for tests: without it they are the system's
    (secrets.token_bytes), as they have to be. A seed of zeros is refused."""

    def __init__(self, local: Address, server: Address, config: TurnConfig, transport: Transport = Transport.UDP, *,
                 seed: bytes | None = None) -> None:
        """BadSetting, BadText, LongName, ZeroSeed, NoMemory."""
        self.local_addr, self.remote_addr, self.transport = local, server, transport
        self._local, self._server = _to_c(local), _to_c(server)
        self._lock = threading.Lock()
        self._client = _Client()
        self._out = ctypes.create_string_buffer(_MESSAGE_MAX)
        self._free = weakref.finalize(self, _CALL["close"], self._client)
        self._free.atexit = False  # another thread may be in a call when the program ends
        self._open(config, secrets.token_bytes(_SEED_SIZE) if seed is None else seed)

    def _open(self, config: TurnConfig, seed: bytes) -> None:
        if len(seed) != _SEED_SIZE:
            raise ValueError(f"a seed of {len(seed)} bytes: {_SEED_SIZE} are wanted")
        waits = config.request_retransmits or RequestRetransmits(0, 0, 0, 0)
        settings = _Settings(
            size=ctypes.sizeof(_Settings), local=self._local, server=self._server, transport=_word(self.transport),
            peers=_word(config.allocation_transport), families=_word(config.address_families),
            integrity=_word(config.supported_integrity), anonymous=_word(config.anonymous_username),
            sends=_word(waits.sends), first_wait=_word(waits.first_wait), most_wait=_word(waits.most_wait),
            last_wait=_word(waits.last_wait), compatible=int(not config.hardened),
            max_connection_attempts=_size(config.max_connection_attempts),
            ignore_short_lifetimes=int(not config.short_lifetimes),
            attempt_indications=int(config.attempt_indications), **_asked(config))
        name, password = (it.encode("utf-8", "surrogatepass") for it in (config.username, config.password))
        self._status("open", settings, name, len(name), password, len(password), _Seed.from_buffer_copy(seed))

    def close(self) -> None:
        """Frees the client. Another call of it is refused then (NoClient), but for this one, and getters show
        nothing."""
        with self._lock:
            self._free()

    def __enter__(self) -> TurnClient:
        return self

    def __exit__(self, kind: type[BaseException] | None, error: BaseException | None,
                 trace: TracebackType | None) -> None:
        self.close()

    def _status(self, name: str, *given: Any) -> int:
        """Makes a call that answers a status."""
        with self._lock:
            return _checked(_CALL[name](self._client, *given))

    def set_credentials(self, username: str, password: str) -> None:
        """Sets other credentials, which replace the present ones with the next challenge that the client accepts: for
        passwords that expire. Until then it signs and validates as before. Call it before they expire, once the
        server accepts the others: each challenge counts, also that for a stale nonce. BadText, LongName, NoMemory."""
        name, secret = (it.encode("utf-8", "surrogatepass") for it in (username, password))
        self._status("credentials", name, len(name), secret, len(secret))

    def set_software(self, text: str) -> None:
        """Sets the text of SOFTWARE, which requests carry from now on; an empty text for none, as at first. It has at
        most SOFTWARE_MAX bytes. BadText, TooLarge, NoMemory."""
        given = text.encode("utf-8", "surrogatepass")
        self._status("software", given, len(given))

    def set_fingerprint(self, fingerprint: bool) -> None:
        """Sets whether requests end with FINGERPRINT from now on. At first they don't."""
        self._status("fingerprint", bool(fingerprint))

    def delete(self, now: int) -> None:
        """Asks for the end of the allocations, which are over for the client at once: take turns until poll answers
        Closed. NoAllocation, NoMemory."""
        self._status("delete", _moment(now))

    # ---- what comes and goes

    def recv(self, data: Buffer, now: int, *, source: Address | None = None,
             local: Address | None = None) -> TurnRecvRet:
        """Takes what came: a datagram, or what was read of a connection to the server, cut anywhere; of a connection no
        bytes tell that the server closed it. It came from the server to the client's own address unless others are
        told; over a peer's connection it came to `local`. Over TCP call poll_recv then until that is None.
        NoMemory: the client has failed."""
        payload, came = _Payload(), _bytes(data)
        given = (self._server if source is None else _to_c(source), self._local if local is None else _to_c(local),
                 came, len(came), _moment(now), payload)
        with self._lock:
            status = _checked(_CALL["feed"](self._client, *given))
            if status == _PAYLOAD:
                return self._given(payload, came)
        if status == _ICMP:
            return PeerIcmp(Transport(payload.transport), _of_c(payload.peer), payload.icmp_type, payload.icmp_code,
                            payload.icmp_data)
        return Ignored() if status == _IGNORED else Handled()

    def poll_recv(self, now: int) -> PeerData | None:
        """The next data of a peer that waits in a stream, over TCP. NoMemory: the client has failed."""
        payload = _Payload()
        with self._lock:
            if _checked(_CALL["pull"](self._client, _moment(now), payload)) == _PAYLOAD:
                return self._given(payload, b"")
        return None

    def _given(self, payload: _Payload, data: bytes) -> PeerData:
        """A payload that was told now: where it stands, or its joined bytes, which are read."""
        given: bytes | memoryview = b""
        if not payload.is_joined:
            given = memoryview(data)[payload.start : payload.start + payload.size]
        elif payload.size > 0:
            joined = ctypes.create_string_buffer(payload.size)
            _checked(_CALL["read"](self._client, joined, payload.size))
            given = joined.raw
        return PeerData(Transport(payload.transport), _of_c(payload.peer), given)

    def poll_transmit(self, now: int) -> Transmit | None:
        """The next message to send. NoMemory: the client has failed."""
        transmit = _Transmit()
        with self._lock:
            if _checked(_CALL["draw"](self._client, _moment(now), self._out, _MESSAGE_MAX, transmit)) == _NOTHING:
                return None
            return self._sent(self._out, transmit)

    def send_to(self, transport: Transport, to: Address, data: Buffer, now: int) -> Transmit:
        """What carries a payload to a peer; it is to be sent at once. `transport` is the one between server and peers:
        UDP, or TCP over a connection. NoPermission, NoTcpSocket, TooLarge, NoMemory."""
        transmit, payload = _Transmit(), _bytes(data)
        out = ctypes.create_string_buffer(len(payload) + _SEND_EXTRA)
        self._status("send", _word(transport), _to_c(to), payload, len(payload), _moment(now), out, len(out), transmit)
        return self._sent(out, transmit)

    @staticmethod
    def _sent(out: ctypes.Array[ctypes.c_char], transmit: _Transmit) -> Transmit:
        return Transmit(ctypes.string_at(out, transmit.size), Transport(transmit.transport), _of_c(transmit.from_),
                        _of_c(transmit.to))

    # ---- time and events

    def poll(self, now: int) -> TurnPollRet:
        """Does what is due, and tells what is to be done. NoMemory: the client has failed."""
        wait = _Wait()
        status = self._status("poll", _moment(now), wait)
        if status == _CLOSED:
            return Closed()
        if status == _OPEN_SOCKET:
            return AllocateTcpSocket(wait.id, Transport(wait.transport), _of_c(wait.from_), _of_c(wait.to),
                                     _of_c(wait.peer))
        if status == _CLOSE_SOCKET:
            return TcpClose(_of_c(wait.from_), _of_c(wait.to))
        return WaitUntil(wait.until)

    def poll_event(self) -> TurnEvent | None:
        """The event that has waited longest."""
        event = _Event()
        return None if self._status("event", event) == _NOTHING else _EVENTS[event.kind - 1](event)

    def poll_expired(self) -> AllocationExpired | None:
        """The allocation that has waited longest of those that poll removed because their time was over (RFC 8656,
        section 6), where the settings believe short_lifetimes. Ask it after poll, until it is None: no event tells the
        end of an allocation. What goes after delete isn't told."""
        expired = _Relayed()
        if self._status("expired", expired) == _NOTHING:
            return None
        return AllocationExpired(Transport(expired.transport), _of_c(expired.address))

    def poll_event_with_cause(self) -> tuple[TurnEvent, TurnCause | None] | None:
        """Takes the event that has waited longest, as poll_event does, with its cause: None for one that reports no
        failure."""
        event = _Event()
        with self._lock:
            if _checked(_CALL["event"](self._client, event)) == _NOTHING:
                return None
            return _EVENTS[event.kind - 1](event), self._cause()

    def cause(self) -> TurnCause | None:
        """Returns why the event happened that was taken last, until another is taken. None if it reports no failure, or
        none was taken yet."""
        with self._lock:
            return self._cause()

    def _cause(self) -> TurnCause | None:
        """The same, by who holds the lock."""
        cause = self._noted()
        if cause.kind == _REJECTED:
            return Rejected(cause.code, self._text("reason", cause.reason_size) or "", cause.is_signed)
        return None if cause.kind == 0 else _OTHER_CAUSES[cause.kind - _REJECTED - 1]()

    def _noted(self) -> _Cause:
        cause = _Cause()
        _checked(_CALL["cause"](self._client, cause))
        return cause

    def _text(self, name: str, size: int) -> str | None:
        """A text of so many bytes that a call copies; None if there is no such text."""
        out = ctypes.create_string_buffer(max(size, 1))
        if _checked(_CALL[name](self._client, out, size)) == _NOTHING:
            return None
        return out.raw[:size].decode()

    def mapped_address(self) -> Address | None:
        """Returns the client's own address as the server saw it: the XOR-MAPPED-ADDRESS of the signed response that
        allocated (RFC 8656, section 7.3). None before that, or if the response had no such address."""
        mapped = _Address()
        return None if self._status("mapped", mapped) == _NOTHING else _of_c(mapped)

    def reservation_token(self) -> bytes | None:
        """Returns the token of the port that the server reserved beside the relayed one, eight bytes: the
        RESERVATION-TOKEN of the signed response that allocated (RFC 8656, section 18.10). None before that, or if the
        response had none. A server gives one for RelayedPort.EVEN_AND_NEXT, and holds the port for at least 30 seconds;
        another client asks for it by TurnConfig.reservation_token."""
        token = ctypes.c_uint64()
        return None if self._status("reservation", token) == _NOTHING else token.value.to_bytes(_TOKEN_SIZE, "big")

    def alternate_server(self) -> Address | None:
        """Returns the server that a response 300 named which ended the client (RFC 8489, section 10); None if there was
        none. cause() says whether that response was signed: if not, it may be anybody's. The client doesn't follow
        it."""
        with self._lock:
            alternate = self._noted().alternate
        return _of_c(alternate) if alternate.family else None

    def alternate_domain(self) -> str | None:
        """Returns the name of the domain of that server (RFC 8489, section 14.16); None if the response had none."""
        with self._lock:
            return self._text("domain", self._noted().domain_size)

    # ---- what the server is asked for: answers come by events

    def create_permission(self, transport: Transport, peer: str, now: int) -> None:
        """Asks for a permission for an IP address; it is renewed. NoAllocation, AlreadyExists, NoMemory."""
        self._status("permit", _word(transport), _to_c((peer, 0)), _moment(now))

    def create_permissions(self, transport: Transport, peers: Iterable[str], now: int) -> None:
        """Asks for permissions for several IP addresses by one request, which names each of them once: the server
        grants all or none. Each gets an event of its own, in their order, and is renewed by itself. There are at most
        PERMIT_MAX, of one family. InvalidAddresses, NoAllocation, AlreadyExists, NoMemory."""
        all_of_them = [_to_c((peer, 0)) for peer in peers]
        addresses = (_Address * len(all_of_them))(*all_of_them)
        self._status("permit_several", _word(transport), addresses, len(addresses), _moment(now))

    def bind_channel(self, transport: Transport, peer: Address, now: int) -> None:
        """Asks for a channel, and for the permission where none stands; both are renewed. NoAllocation, AlreadyExists,
        ExpiredChannelExists, NoChannel, NoMemory."""
        until = _MOMENT()
        try:
            self._status("bind", _word(transport), _to_c(peer), _moment(now), until)
        except ExpiredChannelExists as error:
            error.until = until.value
            raise

    def tcp_connect(self, peer: Address, now: int) -> None:
        """Asks for a connection to a peer, over an allocation over TCP. poll then asks for its socket. NoAllocation,
        NoPermission, AlreadyExists, NoMemory."""
        self._status("connect", _to_c(peer), _moment(now))

    # ---- what the program did

    def allocated_tcp_socket(self, id: int, peer: Address, local: Address | None, now: int) -> None:
        """Tells the own address of the socket that was opened for a connection, or that none was. Of a connection that
        a peer opens the server gets a response, if a signed request announced it; none if an indication did. An
        announced peer may be refused by None. NoAllocation: no such connection waits; AlreadyExists: another has that
        own address; NoMemory."""
        own = _Address() if local is None else _to_c(local)
        self._status("socket", _word(id), _to_c(peer), own, _moment(now))

    def tcp_closed(self, local: Address, remote: Address, now: int) -> None:
        """Tells that the socket of a connection was closed. NoMemory."""
        self._status("closed", _to_c(local), _to_c(remote), _moment(now))

    # ---- what the client holds

    def _held(self, name: str, kind: type[_T], *given: Any) -> list[_T]:
        """What a getter shows, by as much room as that wants."""
        with self._lock:
            out = (kind * _ROOM)()
            count: int = _CALL[name](self._client, *given, out, len(out))
            if count > len(out):
                out = (kind * count)()
                count = _CALL[name](self._client, *given, out, len(out))
            return out[:count]

    def relayed_addresses(self) -> list[tuple[Transport, Address]]:
        return [(Transport(it.transport), _of_c(it.address)) for it in self._held("relayed", _Relayed)]

    def permissions(self, transport: Transport, relayed: Address) -> list[str]:
        """The IP addresses that are permitted at a relayed address."""
        return [_host(it) for it in self._held("permissions", _Address, _word(transport), _to_c(relayed))]

    def have_permission(self, transport: Transport, to: str) -> bool:
        with self._lock:
            permitted: bool = _CALL["is_permitted"](self._client, _word(transport), _to_c((to, 0)))
        return permitted

    def channels(self) -> list[Channel]:
        return [Channel(it.number, _of_c(it.peer)) for it in self._held("channels", _Channel)]

    def connections(self) -> list[Connection]:
        return [Connection(_of_c(it.local), _of_c(it.peer), it.id, it.is_bound)
                for it in self._held("connections", _Connection)]
