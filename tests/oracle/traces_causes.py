"""Traces in which the client is looked at (`docs/TRACE.md`): why its events happened, its own address as the server saw
it, and the server that it was sent to. `traces.py` puts them behind its own.

What an event's cause is follows from what ended its request: an error response and its code (RFC 8489, section
14.8), no response (section 6.2.1), a response that isn't signed under the key (section 9.2.5), or one that lacks
what was asked for (RFC 8656, sections 7.3 and 7.4). A response to a request that isn't outstanding is none. The own
address is the XOR-MAPPED-ADDRESS of the success that allocates (RFC 8656, section 7.3), the other server the
ALTERNATE-SERVER of a response 300 (RFC 8489, section 10).
"""

import socket
import struct

from traces_base import (
    ADDITIONAL_FAMILY, ALLOCATE, CHANNEL_BIND, CLIENT, CREATE_PERMISSION, ERROR, FAMILY, HASHED, MAPPED, MS, NAMED,
    OTHER, PASSWORD_ALGORITHMS, REALM, NONCE, REFRESH, REFUSED, RELAYED, SIXTH, SUCCESS, Trace, V6, challenge,
    code, create_permission, entries, error, first, grant, lifetime, number, refresh, relayed, setup, signed_allocate,
    stale, success, unsigned, xored,
)
from traces_bound_connections_base import NOW, joining
from traces_channels import A, ONE
from traces_connection_sockets import CONNECTION_BIND
from traces_connections import AT, asking, connect, decided
from traces_permissions import FORBIDDEN, LAPSE, PEER_1, PEER_2, holding
from traces_tcp_base import over

ALTERNATE_SERVER, ALTERNATE_DOMAIN, ADDRESS_ERROR_CODE = 0x8023, 0x8003, 0x8001
NEXT, NEXT_6 = "198.51.100.7:3479", "[2001:db8::9]:3478"
DOMAIN = b"turn.example.org"
# an address of the client in front of a NAT
OUTSIDE, OUTSIDE_6 = "198.51.100.9:4321", "[2001:db8::3]:4321"
TRY, UNAUTHORIZED, FULL = b"Try Alternate", b"Unauthorized", b"Insufficient Capacity"


def plain(address):
    """The value of an attribute that has an address as it is."""
    host, port = address.rsplit(":", 1)
    family, kind = (2, socket.AF_INET6) if host[0] == "[" else (1, socket.AF_INET)
    return bytes([0, family]) + struct.pack(">H", int(port)) + socket.inet_pton(kind, host.strip("[]"))


def family_error(family):
    """ADDRESS-ERROR-CODE (RFC 8656, section 18.12): there are no addresses of this family."""
    return ADDRESS_ERROR_CODE, bytes([family, 0, 4, 40]) + b"Address Family not Supported"


def elsewhere(address=NEXT, *more):
    """A server sends its client to another one."""
    return [code(300, TRY), (ALTERNATE_SERVER, plain(address)), *more]


def seen(address, k):
    return MAPPED, xored(address, number(k))


def nothing(t):
    """Nothing is known of the client."""
    t.cause()
    t.mapped()
    t.alternate()


# ---- where a trace looks


def looked_at_before():
    front, made = setup().rsplit("client ", 1)
    t = Trace(f"client {made}")
    nothing(t)
    t.lines += front
    nothing(t)
    t.draw(0, first())
    nothing(t)
    return "A client is looked at before there is a desk, before the first event, and behind it", t


def looked_at_between():
    t = Trace(setup())
    drawn = t.draw(0, first())
    nothing(t)
    line = t.ask(0, f"@{drawn}", "refuse 400", challenge(0))
    nothing(t)
    t.hear(0, f"@{line}")
    t.cause()
    t.is_granted(50 * MS, 1, HASHED)
    t.cause()
    return "A look isn't counted: what later lines name are the answers of events", t


def looked_at_late():
    t = Trace(setup())
    t.say(f"draw {2**62 + 1}", "out of range")
    nothing(t)
    return "A client is looked at behind an event that is out of range", t


# ---- what the server saw


def mapped():
    t = Trace(setup())
    t.mapped()
    line = t.granted()
    t.mapped()
    t.hear(50 * MS, f"@{line}")
    t.mapped(CLIENT)
    t.is_created(RELAYED)
    t.cause()
    t.mapped(CLIENT)
    yield "The success that allocates says the client's address: it is known from then on", t
    for address in (OUTSIDE, OUTSIDE_6):
        t = Trace(setup())
        t.refused()
        t.hear(50 * MS, success(ALLOCATE, 1, seen(address, 1), relayed(OTHER, 1), lifetime(1000)))
        t.is_created(OTHER)
        t.mapped(address)
        yield f"The server sees the client at {address}", t
    t = Trace(setup())
    t.refused()
    two = [seen(OUTSIDE, 1), seen(CLIENT, 1)]
    t.hear(50 * MS, success(ALLOCATE, 1, *two, relayed(OTHER, 1), lifetime(1000)))
    t.mapped(OUTSIDE)
    yield "Two addresses of the client: the first counts", t
    for remark, told in (
        ("None", []), ("One of a family that there isn't", [(MAPPED, b"\0\3" + bytes(6))]),
        ("One that is cut", [(MAPPED, seen(OUTSIDE, 1)[1][:7])]),
    ):
        t = Trace(setup())
        t.refused()
        t.hear(50 * MS, success(ALLOCATE, 1, *told, relayed(OTHER, 1), lifetime(1000)))
        t.is_created(OTHER)
        t.mapped()
        yield f"{remark}, as the address of the client", t


def mapped_by_nobody():
    t = Trace(setup())
    t.refused()
    forged = [seen(OUTSIDE, 1), relayed(OTHER, 1), lifetime(1000)]
    t.hear(50 * MS, unsigned(ALLOCATE | SUCCESS, 1, forged), "ignored")
    nothing(t)
    t.hear(50 * MS, success(ALLOCATE, 1, seen(CLIENT, 1), relayed(OTHER, 1), lifetime(1000)))
    t.is_created(OTHER)
    t.mapped(CLIENT)
    yield "An unsigned success says the client's address: it doesn't count, the signed one does", t
    t = Trace(setup())
    t.draw(0, first())
    t.hear(0, unsigned(ALLOCATE | SUCCESS, 0, [seen(OUTSIDE, 0), relayed(OTHER, 0), lifetime(1000)]))
    t.fails(0)
    t.cause("unusable")
    t.mapped()
    yield "The first ALLOCATE is a success at once, which nobody signed: it says no address", t
    t = Trace(setup())
    t.refused()
    t.hear(50 * MS, unsigned(ALLOCATE | ERROR, 1, [*REFUSED, seen(OUTSIDE, 1)]))
    t.mapped()
    t.draw(100 * MS, signed_allocate(2, NAMED))
    t.hear(100 * MS, error(ALLOCATE, 2, code(508), seen(OUTSIDE, 2)))
    t.fails(100 * MS)
    t.mapped()
    yield "A challenge and a signed error say the client's address: neither counts", t


def mapped_stays():
    t = Trace(setup())
    now = t.allocated()
    t.mapped()
    t.draw(now, refresh(2, 1800, NAMED))
    t.hear(now, success(REFRESH, 2, lifetime(1000), seen(OUTSIDE, 2)))
    t.mapped()
    return "A REFRESH is granted, and says an address: that of the ALLOCATE counts alone", t


# ---- an ALLOCATE that fails


def wrong_password():
    t = Trace(setup().replace("user user pass", "user user word"))
    line = t.challenged()
    t.hear(0, f"@{line}")
    for k in range(1, 10):
        nothing(t)
        now = 50 * MS * k
        drawn = t.draw(now, signed_allocate(k, HASHED))
        t.hear(now, f"@{t.ask(now, f'@{drawn}', f'allocate {RELAYED} 600', challenge(k))}")
    t.cause()
    t.fails(450 * MS)
    t.rejected(401, UNAUTHORIZED, "unsigned")
    t.mapped()
    return "The password is wrong: the tenth challenge ends the client, and is why", t


def refused_unsigned():
    t = Trace(setup())
    t.draw(0, first())
    t.hear(0, unsigned(ALLOCATE | ERROR, 0, [code(508, FULL)]))
    t.cause()
    t.fails(0)
    t.rejected(508, FULL, "unsigned")
    yield "No capacity, before there is a key: anybody may say that", t
    t = Trace(setup())
    t.draw(0, first())
    t.hear(0, unsigned(ALLOCATE | ERROR, 0, [(REALM, b"realm"), (NONCE, b"nonce")]))
    t.fails(0)
    t.cause("unusable")
    yield "An error without a code, before there is a key", t


def refused_signed():
    for value, reason in (
        (300, b""), (400, b"Bad Request"), (403, b"Forbidden"), (486, b"Allocation Quota Reached"), (508, FULL),
        (699, "Überfüllt".encode()), (500, b"\xff"), (508, b"a\nb"),
    ):
        t = Trace(setup())
        t.refused()
        t.hear(50 * MS, error(ALLOCATE, 1, code(value, reason)))
        t.fails(50 * MS)
        if reason == b"\xff":
            # An ERROR-CODE whose reason isn't UTF-8 is malformed (RFC 8489, section 14.8), and counts as absent.
            t.cause("unusable")
        else:
            t.rejected(value, reason)
        t.mapped()
        t.alternate()
        yield f"The signed ALLOCATE is rejected with {value} and the reason {reason!r}", t


def unusable():
    for remark, text, what in (
        ("An error without a code", error(ALLOCATE, 1), "unusable"),
        ("A success without an address", success(ALLOCATE, 1, lifetime(1000)), "unusable"),
        ("A success without a lifetime", success(ALLOCATE, 1, relayed(OTHER, 1)), "unusable"),
        ("A success with an address of the other family", success(ALLOCATE, 1, relayed(SIXTH, 1), lifetime(1000)),
         "other-family"),
        # A server that allocates no address has to reject the request (RFC 8656, section 7.2).
        ("A success without an address, but with the error of its family",
         success(ALLOCATE, 1, family_error(1), lifetime(1000)), "unusable"),
    ):
        t = Trace(setup())
        t.refused()
        t.hear(50 * MS, text)
        t.event("AllocationCreateFailed 4")
        t.cause(what)
        yield f"{remark} is why nothing is allocated", t


def forged():
    t = Trace(setup())
    line = t.granted()
    size = len(grant(1))
    t.hear(50 * MS, f"@{line}:0:27+43+@{line}:28:{size}")
    t.fails(50 * MS)
    t.cause("integrity")
    t.mapped()
    return "A byte of the success is changed on the way: it isn't signed by the server", t


def no_algorithm():
    for remark, how in (
        ("The two sides have no algorithm in common", {"algorithms": "sha1", "desk": "sha256 auto"}),
        ("The client wants its name to be hashed, and the desk takes no such name",
         {"anonymity": "required", "desk": "sha1 disabled"}),
    ):
        t = Trace(setup(**how))
        drawn = t.draw(0, first())
        listed = [(PASSWORD_ALGORITHMS, entries("sha256"))] if "algorithms" in how else []
        bits = b"wAAA" if listed else b"AAAA"
        t.hear(0, f"@{t.ask(0, f'@{drawn}', 'refuse 400', challenge(0, bits, listed))}")
        t.fails(0)
        t.cause("no-algorithm")
        yield f"{remark}: that is why", t


def one_family():
    t = Trace(setup(families="4,6"))
    t.refused((ADDITIONAL_FAMILY, V6))
    t.hear(50 * MS, error(ALLOCATE, 1, code(440, b"Address Family not Supported")))
    t.cause()
    t.event("AllocationCreateFailed 4")
    t.rejected(440, b"Address Family not Supported")
    t.draw(100 * MS, signed_allocate(2, NAMED, (FAMILY, V6)))
    t.hear(100 * MS, success(ALLOCATE, 2, relayed(SIXTH, 2), lifetime(1000), seen(OUTSIDE, 2)))
    t.rejected(440, b"Address Family not Supported")
    t.is_created(SIXTH)
    t.cause()
    t.mapped(OUTSIDE)
    return "The server has no addresses of IPv4: that is why, and IPv6 has no such cause", t


def other_family_rejected():
    for remark, more in (("without its error", ()), ("with its error", (family_error(2),))):
        t = Trace(setup(families="4,6"))
        t.refused((ADDITIONAL_FAMILY, V6))
        t.hear(50 * MS, success(ALLOCATE, 1, relayed(OTHER, 1), *more, lifetime(1000)))
        t.event(f"AllocationCreated udp {OTHER}")
        t.cause()
        t.event("AllocationCreateFailed 6")
        t.cause("other-family")
        t.shows(OTHER)
        yield f"A success has an address of IPv4, and none of IPv6, {remark}: that is why there is none", t


def unanswered():
    t = Trace(setup(rto="rto 600 1000 3 3000\n"))
    for now, until in ((0, 600), (600, 1600), (1600, 4600)):
        t.draw(now * MS, first())
        t.poll(now * MS, until * MS)
        t.cause()
    t.poll(4600 * MS, None)
    t.fails(4600 * MS)
    t.cause("unanswered")
    yield "Nobody answers: that is why", t
    t = over(rto="rto 600 1000 3 3000\n")
    t.draw(0, first())
    t.poll(4600 * MS, None)
    t.fails(4600 * MS)
    t.cause("unanswered")
    yield "Nobody answers over TCP: that is why", t


def closed():
    t = Trace(setup())
    t.held()
    t.say("error", "ok")
    t.event("AllocationCreateFailed 4")
    t.cause("socket-closed")
    t.poll(50 * MS, None)
    t.mapped(CLIENT)
    return "A layer above met an error: that is why; the client's address is known on", t


# ---- another server


def redirected():
    for remark, told, server, domain in (
        ("to another server", elsewhere(), NEXT, b""),
        ("to a server of IPv6, with its domain", elsewhere(NEXT_6, (ALTERNATE_DOMAIN, DOMAIN)), NEXT_6, DOMAIN),
        ("to the first of two servers", elsewhere(NEXT, (ALTERNATE_SERVER, plain(NEXT_6))), NEXT, b""),
        ("nowhere", [code(300, TRY)], "none", b""),
    ):
        t = Trace(setup())
        t.refused()
        t.alternate()
        t.hear(50 * MS, error(ALLOCATE, 1, *told))
        t.fails(50 * MS)
        t.rejected(300, TRY)
        t.alternate(server, domain)
        yield f"A signed 300 sends the client {remark}", t
    t = Trace(setup())
    t.draw(0, first())
    t.hear(0, unsigned(ALLOCATE | ERROR, 0, elsewhere(NEXT, (ALTERNATE_DOMAIN, DOMAIN))))
    t.fails(0)
    t.rejected(300, TRY, "unsigned")
    t.alternate(NEXT, DOMAIN)
    yield "An unsigned 300, before there is a key, sends the client to another server: anybody may say that", t


def not_redirected():
    t = Trace(setup())
    t.draw(0, first())
    t.hear(0, unsigned(ALLOCATE | ERROR, 9, elsewhere()), "ignored")
    nothing(t)
    t.event("none")
    yield "A 300 for a request that isn't outstanding sends the client nowhere", t
    t = Trace(setup())
    t.refused()
    t.hear(50 * MS, error(ALLOCATE, 9, *elsewhere()), "ignored")
    t.hear(50 * MS, unsigned(ALLOCATE | ERROR, 1, elsewhere()), "ignored")
    nothing(t)
    t.hear(50 * MS, success(ALLOCATE, 1, relayed(OTHER, 1), lifetime(1000)))
    t.is_created(OTHER)
    nothing(t)
    yield "A signed 300 for another request, and an unsigned one: neither sends the client anywhere", t
    t = Trace(setup())
    t.refused()
    t.hear(50 * MS, error(ALLOCATE, 1, code(508), *elsewhere()[1:]))
    t.fails(50 * MS)
    t.rejected(508)
    t.alternate()
    yield "Another code than 300 names a server: the client isn't sent there", t


# ---- what comes behind an allocation


def forbidden():
    t = holding()
    drawn = t.asks(50 * MS, 2, PEER_1)
    t.decides(100 * MS, drawn, "refuse 403", error(CREATE_PERMISSION, 2, FORBIDDEN))
    t.cause()
    t.is_forbidden(PEER_1)
    t.rejected(403, b"Forbidden")
    t.permitted(100 * MS, 3, PEER_1)
    t.cause()
    return "A permission is rejected: that is why; the next one is granted, and has no such cause", t


def two_errors():
    t = holding()
    t.permission(50 * MS, PEER_1)
    t.permission(50 * MS, PEER_2)
    one = t.draw(100 * MS, create_permission(2, PEER_1))
    other = t.draw(150 * MS, create_permission(3, PEER_2))
    t.decides(150 * MS, one, "refuse 403", error(CREATE_PERMISSION, 2, FORBIDDEN))
    t.decides(150 * MS, other, "refuse 508", error(CREATE_PERMISSION, 3, code(508, FULL)))
    t.event(f"PermissionCreateFailed udp {PEER_1}")
    t.rejected(403, b"Forbidden")
    t.event(f"PermissionCreateFailed udp {PEER_2}")
    t.rejected(508, FULL)
    yield "Two permissions are rejected, and both wait to be reported: each has its own cause", t
    t = holding()
    t.permission(50 * MS, PEER_1)
    t.permission(50 * MS, PEER_2)
    one = t.draw(100 * MS, create_permission(2, PEER_1))
    other = t.draw(150 * MS, create_permission(3, PEER_2))
    t.decides(150 * MS, one, "refuse 403", error(CREATE_PERMISSION, 2, FORBIDDEN))
    t.event(f"PermissionCreateFailed udp {PEER_1}")
    t.decides(150 * MS, other, "refuse 508", error(CREATE_PERMISSION, 3, code(508, FULL)))
    t.rejected(403, b"Forbidden")
    t.event(f"PermissionCreateFailed udp {PEER_2}")
    t.rejected(508, FULL)
    yield "Another permission is rejected: the event before keeps its cause until the next one is reported", t


def not_outstanding():
    t = holding()
    drawn = t.asks(50 * MS, 2, PEER_1)
    line = t.decides(100 * MS, drawn, "refuse 403", error(CREATE_PERMISSION, 2, FORBIDDEN))
    t.event(f"PermissionCreateFailed udp {PEER_1}")
    t.rejected(403, b"Forbidden")
    t.hear(100 * MS, error(CREATE_PERMISSION, 9, code(508, FULL)), "ignored")
    t.rejected(403, b"Forbidden")
    t.hear(100 * MS, f"@{line}", "ignored")
    t.hear(100 * MS, unsigned(CREATE_PERMISSION | ERROR, 2, [code(300), *elsewhere()[1:]]), "ignored")
    t.rejected(403, b"Forbidden")
    t.alternate()
    return "Errors for requests that aren't outstanding: no cause changes", t


def channel_forbidden():
    t = holding()
    drawn = t.binds(50 * MS, 2, A, ONE)
    t.decides(100 * MS, drawn, "refuse 403", error(CHANNEL_BIND, 2, FORBIDDEN))
    t.event(f"ChannelCreateFailed udp {ONE}")
    t.rejected(403, b"Forbidden")
    t.event(f"PermissionCreateFailed udp {ONE.split(':')[0]}")
    t.rejected(403, b"Forbidden")
    yield "A channel is rejected, and the permission with it: each has that cause", t
    t = holding()
    t.binds(50 * MS, 2, A, ONE)
    t.poll(39550 * MS, 39550 * MS)
    t.event(f"PermissionCreateFailed udp {ONE.split(':')[0]}")
    t.cause("unanswered")
    t.event(f"ChannelCreateFailed udp {ONE}")
    t.cause("unanswered")
    yield "Nobody answers a CHANNEL_BIND: channel and permission have that cause", t


def connection_forbidden():
    t = asking(AT)
    decided(t, 150 * MS, connect(3, AT), "refuse 447", error(0x00A, 3, code(447, b"Connection Timeout or Failure")))
    t.cause()
    t.event(f"TcpConnectFailed {AT}")
    t.rejected(447, b"Connection Timeout or Failure")
    return "A connection is rejected: that is why", t


def permissions_end():
    t = holding(PEER_1)
    asked = LAPSE - 39500 * MS
    t.permission(asked, PEER_2)
    t.draw(asked, create_permission(3, PEER_2))
    t.poll(asked, asked + 50 * MS)
    t.poll(LAPSE, LAPSE)
    t.cause()
    t.event(f"PermissionCreateFailed udp {PEER_2}")
    t.cause("unanswered")
    t.event(f"PermissionCreateFailed udp {PEER_1}")
    t.cause("expired")
    return "A request ends when a permission's time is over: each has its own cause", t


def challenged_again():
    t = holding(PEER_1)
    t.asks(100 * MS, 3, PEER_2)
    for k in range(3, 12):
        t.hear(50 * MS * k, stale(k, CREATE_PERMISSION))
        t.draw(50 * MS * (k + 1), create_permission(k + 1, PEER_2))
    t.hear(600 * MS, stale(12, CREATE_PERMISSION))
    t.event("AllocationCreateFailed 4")
    t.rejected(438, b"Stale Nonce", "unsigned")
    t.mapped(CLIENT)
    return "Ten challenges of one permission end the client: the tenth is why", t


# ---- what comes behind the end that the user asks for


def deleted():
    t = holding()
    t.asks(50 * MS, 2, PEER_1)
    t.say(f"delete {100 * MS}", "ok")
    t.cause()
    t.poll(39550 * MS, 39550 * MS)
    t.event(f"PermissionCreateFailed udp {PEER_1}")
    t.cause("deleted")
    t.mapped(CLIENT)
    yield "The allocation is deleted while a permission is awaited, and no response to its request comes", t
    t = holding()
    drawn = t.asks(50 * MS, 2, PEER_1)
    t.say(f"delete {100 * MS}", "ok")
    t.decides(100 * MS, drawn, "refuse 403", error(CREATE_PERMISSION, 2, FORBIDDEN))
    t.event(f"PermissionCreateFailed udp {PEER_1}")
    t.cause("deleted")
    yield "The allocation is deleted while a permission is awaited, which is rejected then: the deletion is why", t
    t = asking(AT)
    t.say(f"delete {100 * MS}", "ok")
    decided(t, 150 * MS, connect(3, AT), "refuse 447", error(0x00A, 3, code(447, b"Connection Timeout or Failure")))
    t.event(f"TcpConnectFailed {AT}")
    t.cause("deleted")
    yield "The same of a connection", t
    t, s = joining()
    t.say(f"delete {NOW}", "ok")
    s.piece(NOW, error(CONNECTION_BIND, 4, code(447)))
    t.event(f"TcpConnectFailed {AT}")
    t.cause("deleted")
    yield "The same of a connection that is rejected over its socket", t


def deleted_later():
    t = holding()
    drawn = t.asks(50 * MS, 2, PEER_1)
    t.decides(100 * MS, drawn, "refuse 403", error(CREATE_PERMISSION, 2, FORBIDDEN))
    t.say(f"delete {100 * MS}", "ok")
    t.event(f"PermissionCreateFailed udp {PEER_1}")
    t.rejected(403, b"Forbidden")
    return "A permission is rejected, and before that is reported the allocation is deleted: the server is why", t


def deletion_unanswered():
    t = holding()
    t.say(f"delete {50 * MS}", "ok")
    t.draw(100 * MS, refresh(2, 0, HASHED))
    t.poll(39550 * MS, None)
    t.event("none")
    t.cause()
    t.shows()
    return "No response to a deletion comes: the allocation ends, and no event reports it", t


def deletion_challenged():
    t = holding()
    t.say(f"delete {50 * MS}", "ok")
    t.draw(100 * MS, refresh(2, 0, HASHED))
    for k in range(2, 11):
        t.hear(50 * MS * k, stale(k, REFRESH))
        t.draw(50 * MS * (k + 1), refresh(k + 1, 0, HASHED))
    t.hear(550 * MS, stale(11, REFRESH))
    t.event("AllocationCreateFailed 4")
    t.cause("deleted")
    return "Ten challenges of a deletion end the client, which was to end", t


def not_deleted():
    t = Trace(setup())
    t.draw(0, first())
    t.say("delete 0", "refused NoAllocation")
    t.hear(0, unsigned(ALLOCATE | ERROR, 0, [code(508, FULL)]))
    t.fails(0)
    t.rejected(508, FULL, "unsigned")
    yield "A deletion is refused, since there is no allocation: the server's error is why there is none", t
    t = holding()
    t.say(f"delete {50 * MS}", "ok")
    t.say("error", "ok")
    t.event("AllocationCreateFailed 4")
    t.cause("socket-closed")
    yield "The allocation is deleted, and then a layer above meets an error: that is why the client ends", t


def cause_traces():
    yield from (
        looked_at_before(), looked_at_between(), looked_at_late(), *mapped(), *mapped_by_nobody(), mapped_stays(),
        wrong_password(), *refused_unsigned(), *refused_signed(), *unusable(), forged(), *no_algorithm(), one_family(),
        *other_family_rejected(), *unanswered(), closed(), *redirected(), *not_redirected(), forbidden(), *two_errors(),
        not_outstanding(), *channel_forbidden(), connection_forbidden(), permissions_end(), challenged_again(),
        *deleted(), deleted_later(), deletion_unanswered(), deletion_challenged(), *not_deleted(),
    )
