"""URIs of TURN servers (RFC 7065) and STUN servers (RFC 7064), by the rules of `turn_uri_parse` of turn_driver.h."""

from __future__ import annotations

import enum
import re
import socket
from dataclasses import dataclass
from ssl import SSLContext

from turn_client import Address, Transport

PORT, SECURE_PORT = 3478, 5349  # RFC 8489, section 18.6; RFC 8656, section 18.9
HOST_MAX = 253                  # bytes of a name (RFC 1035), without a dot at its end
LABEL_MAX = 63

NAME = re.compile(r"[A-Za-z0-9._-]+")
REG_NAME = re.compile(r"[A-Za-z0-9._~!$&'()*+,;=%-]*")  # RFC 3986, section 3.2.2
NUMBER = re.compile(r"0[xX][0-9A-Fa-f]*|[0-9]*")        # as a system's resolver may take the last label for one
VALUE = re.compile(r"[A-Za-z0-9._~-]+")                 # RFC 7065, section 3.1


class UriScheme(enum.Enum):
    """TURN and TURNS are of TURN servers (RFC 7065), STUN and STUNS of STUN servers (RFC 7064)."""

    TURN = "turn"
    TURNS = "turns"
    STUN = "stun"
    STUNS = "stuns"


class UriRefusal(enum.Enum):
    """What is wrong with a URI, in words."""

    BAD_SCHEME = "it does not begin with stun:, stuns:, turn: or turns:"
    NO_HOST = "there is no host after the scheme"
    BAD_HOST = "the host is no name and no IP address"
    LONG_HOST = "the host has more than 253 bytes"
    UNSUPPORTED_HOST = "the host is of a form that is not supported"
    BAD_PORT = "the port is no number of 1 to 65535"
    BAD_QUERY = "what follows the host is not ?transport= with a value"
    UNSUPPORTED_TRANSPORT = "the transport is neither udp nor tcp"
    NOT_TURN = "it is one of STUN"
    DTLS = "turns: over UDP is DTLS, which is not there"


class UriError(ValueError):
    """A text is no URI of a server, or the drivers can't go to that server. `refusal` says why, `uri` is the text, which
    isn't printed: somebody may have put a password there."""

    def __init__(self, uri: str, refusal: UriRefusal) -> None:
        super().__init__(f"the URI of the server is refused: {refusal.value}")
        self.uri, self.refusal = uri, refusal


class _Refused(Exception):
    """What a part of a URI is refused for."""


@dataclass(frozen=True)
class TurnUri:
    """The URI of a TURN or a STUN server. `parse` reads one, `str` writes it. An IPv6 address has no brackets in `host`.
    `explicit_port` and `explicit_transport` are None if the URI has none."""

    scheme: UriScheme
    host: str
    explicit_port: int | None = None
    explicit_transport: Transport | None = None

    @staticmethod
    def parse(text: str) -> TurnUri:
        """Reads scheme ":" host [ ":" port ] [ "?transport=" transport ]. Nothing is looked up.

        Scheme and query are compared without case. A colon without a port after it is the default port (RFC 3986,
        section 3.2.3). A name whose last label is a number is no name, so 127.1 is not taken for 127.0.0.1.

        UriError: the refusals before NOT_TURN, in the order in which the text shows what is wrong."""
        try:
            return _read(text)
        except _Refused as refused:
            raise UriError(text, refused.args[0]) from None

    @property
    def is_secure(self) -> bool:
        """Whether the server is reached over TLS or DTLS."""
        return self.scheme in (UriScheme.TURNS, UriScheme.STUNS)

    @property
    def is_turn(self) -> bool:
        """Whether the server is a TURN server."""
        return self.scheme in (UriScheme.TURN, UriScheme.TURNS)

    @property
    def port(self) -> int:
        """That of the URI, or 3478; with turns: and stuns: 5349."""
        return self.explicit_port or (SECURE_PORT if self.is_secure else PORT)

    @property
    def transport(self) -> Transport:
        """That of the URI, or UDP; with turns: and stuns: TCP."""
        return self.explicit_transport or (Transport.TCP if self.is_secure else Transport.UDP)

    def __str__(self) -> str:
        host = f"[{self.host}]" if ":" in self.host else self.host
        port = f":{self.explicit_port}" if self.explicit_port is not None else ""
        by = f"?transport={self.explicit_transport.name.lower()}" if self.explicit_transport is not None else ""
        return f"{self.scheme.value}:{host}{port}{by}"


# ---- the parts of a URI: each with what follows it


def _read(text: str) -> TurnUri:
    name, colon, rest = text.partition(":")
    scheme = next((it for it in UriScheme if colon and it.value == name.lower()), None)
    if scheme is None:
        raise _Refused(UriRefusal.BAD_SCHEME)
    host, rest = _literal(rest) if rest.startswith("[") else _name(rest)
    port: int | None = None
    if rest.startswith(":"):
        port, rest = _port(rest[1:])
    elif rest and not rest.startswith("?"):
        raise _Refused(UriRefusal.BAD_HOST)
    return TurnUri(scheme, host, port, _transport(scheme, rest))


def _is_address(family: socket.AddressFamily, text: str) -> bool:
    try:
        return bool(socket.inet_pton(family, text))
    except (OSError, ValueError):  # ValueError: a zero is in it
        return False


def _literal(text: str) -> tuple[str, str]:
    """An IPv6 address in brackets."""
    host, close, rest = text[1:].partition("]")
    if close and host[:1] in ("v", "V"):
        raise _Refused(UriRefusal.UNSUPPORTED_HOST)
    if not close or not _is_address(socket.AF_INET6, host):
        raise _Refused(UriRefusal.BAD_HOST)
    return host, rest


def _name(text: str) -> tuple[str, str]:
    """A name or an IPv4 address. A dot at the end isn't in what is returned."""
    found = REG_NAME.match(text)
    host = found.group() if found else ""
    rest = text[len(host):]
    if rest[:1] not in ("", ":", "?"):
        raise _Refused(UriRefusal.BAD_HOST)
    if not host:
        raise _Refused(UriRefusal.NO_HOST)
    if not NAME.fullmatch(host):
        raise _Refused(UriRefusal.UNSUPPORTED_HOST)
    host = host.removesuffix(".")
    if len(host) > HOST_MAX:
        raise _Refused(UriRefusal.LONG_HOST)
    labels = host.split(".")
    if not _is_address(socket.AF_INET, host) and (
            NUMBER.fullmatch(labels[-1]) or not all(0 < len(it) <= LABEL_MAX for it in labels)):
        raise _Refused(UriRefusal.BAD_HOST)
    return host, rest


def _port(text: str) -> tuple[int | None, str]:
    """The digits after a colon; no digits are the default port."""
    digits, query, rest = text.partition("?")
    rest = query + rest
    if not digits:
        return None, rest
    number = digits.lstrip("0")
    if not re.fullmatch("[0-9]+", digits) or not 0 < len(number) <= 5 or int(number) > 0xFFFF:
        raise _Refused(UriRefusal.BAD_PORT)
    return int(number), rest


def _transport(scheme: UriScheme, query: str) -> Transport | None:
    if not query:
        return None
    name, _, value = query.partition("=")
    is_turn = scheme in (UriScheme.TURN, UriScheme.TURNS)
    if not is_turn or name.lower() != "?transport" or not VALUE.fullmatch(value):
        raise _Refused(UriRefusal.BAD_QUERY)
    if value.upper() not in Transport.__members__:
        raise _Refused(UriRefusal.UNSUPPORTED_TRANSPORT)
    return Transport[value.upper()]


# ---- what a driver makes of one


def way_to(uri: TurnUri, transport: Transport | None, ssl: SSLContext | bool | None) -> tuple[
        Address, Transport, SSLContext | bool | None]:
    """The server of a URI, and how it is reached, with the arguments that stand beside it. UriError tells that there is
    no way; ValueError, that an argument says otherwise than the URI."""
    if not uri.is_turn:
        raise UriError(str(uri), UriRefusal.NOT_TURN)
    if uri.is_secure and Transport.UDP in (uri.explicit_transport, transport):
        raise UriError(str(uri), UriRefusal.DTLS)
    if transport is not None and uri.explicit_transport not in (None, Transport(transport)):
        raise ValueError(f"{uri} is over {uri.transport.name}, and transport says otherwise")
    by = uri.transport if transport is None else Transport(transport)
    if uri.is_secure and ssl is False or ssl and not uri.is_secure:
        raise ValueError(f"{uri} is {'over' if uri.is_secure else 'without'} TLS, and ssl says otherwise")
    return (uri.host, uri.port), by, True if uri.is_secure and ssl is None else ssl
