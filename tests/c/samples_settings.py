"""Exchanges of clients with other settings: families, algorithms, failures and ends, other credentials, what is asked
for. samples.py writes them to samples.h.
"""

from samples_base import (
    A, ADDITIONAL_FAMILY, ALLOCATE, ALL_ALGORITHMS, BY_SHA1, BY_SHA256, BY_SHA512, CHANNEL_BIND, CHOSEN, CONNECT,
    CONNECTION_ATTEMPT, CONNECTION_BIND, CREATE_PERMISSION, ELSEWHERE, Exchange, FAMILY, FEATURED, FIRST, FOURTH,
    HIDDEN, INDICATION, MS, NEXT, NOBODY, OLD, ONE, OTHER, OWN, REFRESH, RELAYED, RELAYED_6, RELAYED_KIND, SECOND,
    SECOND_SOCKET, SIX, SOFTWARE, STRANGER, STRONGEST, SUCCESS, TCP, TWO, TWO_ALGORITHMS, UDP, V6, allocate,
    announcement, asks_socket, attempt, attempted, bind, challenge, closes_socket, code, connect, data, elsewhere,
    fingerprinted, first, grant, host, identified, indication, join, lifetime, named, number, opens_socket, permit,
    refresh, rejection, success, xored,
)


# ---- other settings


def both():
    t = Exchange("both families, both algorithms", families=3, integrity=3)
    more = ADDITIONAL_FAMILY, V6
    t.begins()
    t.draws(first(UDP, more))
    t.feeds(challenge(0, ALLOCATE, code(401, b"Unauthorized"), FEATURED, TWO_ALGORITHMS))
    t.at(50)
    t.draws(allocate(UDP, more, told=HIDDEN, by=BY_SHA256))
    t.at(60)
    t.feeds(grant(RELAYED, RELAYED_6, by=BY_SHA256))
    t.tells("TURN_ALLOCATION_CREATED", RELAYED)
    t.tells("TURN_ALLOCATION_CREATED", RELAYED_6)
    t.tells_no_more()
    t.holds_relayed(RELAYED, RELAYED_6)
    t.part("a peer of IPv6")
    t.reaches("permit", SIX)
    t.at(100)
    t.draws(permit(2, SIX, HIDDEN, BY_SHA256))
    t.feeds(success(CREATE_PERMISSION, 2, by=BY_SHA256))
    t.tells("TURN_PERMISSION_CREATED", host(SIX))
    t.permits()
    t.holds("permissions", {"peer": host(SIX)}, transport="udp", to=RELAYED_6)
    t.gives(data(SIX, b"hello"), SIX, b"hello", 20 + 24 + 4)
    t.sends(SIX, b"hello", indication(3, SIX, b"hello"))
    t.sends_not(ONE, "TURN_NO_PERMISSION")
    t.part("the end")
    t.at(150)
    t.deleted(4, HIDDEN, BY_SHA256)
    t.does("close")
    return t


def the_others():
    t = Exchange("the other of two", families=2, integrity=2, anonymous="TURN_ANONYMOUS_DISABLED")
    t.part("IPv6, SHA-256, and the name in the open")
    t.does("open")
    t.draws(first(UDP, (FAMILY, V6)))
    t.feeds(challenge(0, ALLOCATE, code(401, b"Unauthorized"), FEATURED, TWO_ALGORITHMS))
    t.at(50)
    t.draws(allocate(UDP, (FAMILY, V6), told=CHOSEN, by=BY_SHA256))
    t.at(60)
    t.feeds(grant(RELAYED_6, by=BY_SHA256))
    t.tells("TURN_ALLOCATION_CREATED", RELAYED_6)
    t.reaches("permit", ONE, "TURN_NO_ALLOCATION")
    t.at(100)
    t.deleted(2, CHOSEN, BY_SHA256)
    t.does("close")
    return t


def strongest():
    t = Exchange("all three algorithms", integrity=7)
    t.part("SHA-512, and the name is hidden")
    t.does("open")
    t.draws(first())
    t.feeds(challenge(0, ALLOCATE, code(401, b"Unauthorized"), FEATURED, ALL_ALGORITHMS))
    t.at(50)
    t.draws(allocate(told=STRONGEST, by=BY_SHA512))
    t.at(60)
    t.feeds(grant(RELAYED, by=BY_SHA512))
    t.tells("TURN_ALLOCATION_CREATED", RELAYED)
    t.tells_no_more()
    t.part("the end")
    t.at(100)
    t.deleted(2, STRONGEST, BY_SHA512)
    t.does("close")
    return t


def fails(t, *cause, **more):
    """That no address is allocated is told, and why, and the client has ended."""
    t.step("event", {}, {"number": "TURN_ALLOCATION_FAILED", "transport": "none", "peer": "0.0.0.0:0"})
    t.because(*cause, **more)
    t.does("mapped", "TURN_NOTHING")
    t.tells_no_more()
    t.ends()
    t.draws_nothing()
    t.does("delete", "TURN_NO_ALLOCATION")
    t.does("close")


def unanswered():
    t = Exchange("other waits", sends=3, first_wait=600, most_wait=1000, last_wait=3000)
    t.part("nobody answers")
    t.does("open")
    for now, until in ((0, 600), (600, 1600), (1600, 4600)):
        t.at(now)
        t.draws(first())
        t.draws_nothing()
        t.waits(until * MS)
    t.at(4599)
    t.waits(4600 * MS)
    t.at(4600)
    t.ends()
    fails(t, "TURN_UNANSWERED")
    return t


def hidden():
    t = Exchange("the name is to be hidden", anonymous="TURN_ANONYMOUS_REQUIRED")
    t.part("the server can't")
    t.does("open")
    t.draws(first())
    t.feeds(challenge())
    fails(t, "TURN_NO_ALGORITHM")
    return t


def none_in_common():
    t = Exchange("an algorithm that the server has not", integrity=4)
    t.part("SHA-512 alone")
    t.does("open")
    t.draws(first())
    t.feeds(challenge(0, ALLOCATE, code(401, b"Unauthorized"), FEATURED, TWO_ALGORITHMS))
    fails(t, "TURN_NO_ALGORITHM")
    return t


def permissions_rejected(t):
    t.part("two permissions, and each for its own reason")
    t.reaches("permit", ONE)
    t.reaches("permit", TWO)
    t.at(100)
    t.draws(permit(2, ONE))
    t.at(150)
    t.draws(permit(3, TWO))
    t.feeds(rejection(CREATE_PERMISSION, 2, 403, b"Forbidden"))
    t.feeds(rejection(CREATE_PERMISSION, 3, 508, b"Insufficient Capacity"))
    t.because("TURN_CAUSE_NONE")
    t.tells("TURN_PERMISSION_FAILED", host(ONE))
    t.because("TURN_REJECTED", 403, True, b"Forbidden")
    t.because("TURN_REJECTED", 403, True, b"Forbidden")
    t.tells("TURN_PERMISSION_FAILED", host(TWO))
    t.because("TURN_REJECTED", 508, True, b"Insufficient Capacity")
    t.tells_no_more()
    t.because("TURN_REJECTED", 508, True, b"Insufficient Capacity")


def permission_granted(t):
    t.part("a success has no cause, and an error without a phrase has one")
    t.reaches("permit", ONE)
    t.at(200)
    t.draws(permit(4, ONE))
    t.feeds(success(CREATE_PERMISSION, 4))
    t.tells("TURN_PERMISSION_CREATED", host(ONE))
    t.because("TURN_CAUSE_NONE")
    t.reaches("permit", TWO)
    t.at(250)
    t.draws(permit(5, TWO))
    t.feeds(rejection(CREATE_PERMISSION, 5, 403, b""))
    t.tells("TURN_PERMISSION_FAILED", host(TWO))
    t.because("TURN_REJECTED", 403, True)
    t.is_mapped(OWN)


def rejected():
    t = Exchange("what the server rejects")
    t.begins()
    t.challenged()
    t.granted()
    permissions_rejected(t)
    permission_granted(t)
    t.part("the end")
    t.at(300)
    t.deleted(6)
    t.does("close")
    return t


DOMAIN_ELSEWHERE, TRY_ALTERNATE = b"turn.example.net", b"Try Alternate"


def redirected():
    """The signed ALLOCATE is rejected by a signed response."""
    t = Exchange("another server")
    t.begins()
    t.challenged()
    t.at(50)
    t.draws(allocate())
    t.feeds(rejection(ALLOCATE, 1, 300, TRY_ALTERNATE, *elsewhere(ELSEWHERE, DOMAIN_ELSEWHERE)))
    fails(t, "TURN_REJECTED", 300, True, TRY_ALTERNATE, ELSEWHERE, DOMAIN_ELSEWHERE)
    return t


def redirected_unsigned():
    """The first ALLOCATE is rejected, by a response that nothing signs, with an address of IPv6 and no name."""
    t = Exchange("another server, which anybody may name")
    t.begins()
    t.draws(first())
    t.feeds(rejection(ALLOCATE, 0, 300, TRY_ALTERNATE, elsewhere(SIX, b"")[0], by=None))
    fails(t, "TURN_REJECTED", 300, False, TRY_ALTERNATE, SIX)
    return t


def another_password():
    """Nine challenges are answered, and the tenth ends the client (crates/turn_client_proto/CALLING.md)."""
    t = Exchange("another password")
    t.begins()
    t.draws(first())
    for k in range(9):
        t.at(50 * (k + 1))
        t.feeds(challenge(k))
        t.tells_no_more()
        t.draws(allocate(k=k + 1))
    t.feeds(challenge(9))
    fails(t, "TURN_REJECTED", 401, False, b"Unauthorized")
    return t


def binds(t):
    """A channel to peer ONE is bound by the third request, 100 ms after the exchange began."""
    t.reaches("bind", ONE)
    t.at(100)
    t.draws(bind(2, A, ONE))
    t.feeds(success(CHANNEL_BIND, 2))
    t.tells("TURN_PERMISSION_CREATED", host(ONE))
    t.tells("TURN_CHANNEL_CREATED", ONE)


def lapsed():
    """Nothing is drawn until a channel is over, and so nothing renewed."""
    t = Exchange("a channel ends")
    t.begins()
    t.challenged()
    t.at(50)
    t.draws(allocate())
    t.feeds(grant(RELAYED, seconds=3600))
    t.tells("TURN_ALLOCATION_CREATED", RELAYED)
    t.part("it was granted 600 seconds before")
    binds(t)
    t.at(300_100)
    t.waits(t.now)
    t.tells("TURN_PERMISSION_FAILED", host(ONE))
    t.because("TURN_EXPIRED")
    t.at(600_100)
    t.waits(t.now)
    t.tells("TURN_CHANNEL_FAILED", ONE)
    t.because("TURN_EXPIRED")
    t.holds_channels()
    free = 900 * SECOND + 100 * MS
    given = {"transport": "udp", "to": ONE}
    t.step("bind", given, {"until": free}, "TURN_EXPIRED_CHANNEL")
    t.now = free
    t.step("bind", given, {"until": free}, "TURN_EXPIRED_CHANNEL")
    t.now = free + 1
    t.reaches("bind", ONE)
    t.does("close")
    return t


def ends_by_itself(title, *expired, **settings):
    """Nothing is drawn until an allocation of 600 seconds is over, and so it isn't renewed. Whether that is told is up
    to the settings (crates/turn_client_proto/CALLING.md)."""
    t = Exchange(f"an allocation ends, {title}", **settings)
    t.begins()
    t.challenged()
    t.at(50)
    t.draws(allocate())
    t.feeds(grant(RELAYED, seconds=600))
    t.tells("TURN_ALLOCATION_CREATED", RELAYED)
    t.has_expired()
    t.part("it was granted 600 seconds before")
    t.at(600_050)
    t.holds_relayed(RELAYED)
    t.has_expired()
    t.ends()
    t.holds_relayed()
    t.tells_no_more()
    t.has_expired(*expired)
    t.ends()
    t.has_expired()
    t.does("close")
    return t


def expired():
    return ends_by_itself("and that is told", RELAYED)


def expired_untold():
    return ends_by_itself("and that isn't told", ignore_short_lifetimes=1)


def expired_behind_deletion():
    """No response to the deletion comes: the allocation goes as it was asked to."""
    t = Exchange("an allocation goes after its deletion was requested")
    t.begins()
    t.challenged()
    t.granted()
    t.part("no response comes")
    t.at(100)
    t.does("delete")
    t.draws(refresh(2, 0, named(), BY_SHA1, OLD))
    for when in (600, 1600, 3600, 7600, 15_600, 31_600):
        t.at(when)
        t.draws(refresh(2, 0, named(), BY_SHA1, OLD))
    t.at(39_600)
    t.ends()
    t.has_expired()
    t.does("close")
    return t


# ---- how the client introduces itself

BY_NEXT = named(OTHER, NEXT)


def permits_one(t, k, peer, when, told, user):
    """A permission is asked for, and granted, under the credentials of a user."""
    t.reaches("permit", peer)
    t.at(when)
    t.draws(permit(k, peer, told, user=user))
    t.feeds(success(CREATE_PERMISSION, k, user=user))
    t.tells("TURN_PERMISSION_CREATED", host(peer))
    t.tells_no_more()


def replaced_amid(t):
    t.part("other credentials, while a request waits for its response")
    t.reaches("permit", ONE)
    t.at(100)
    t.draws(permit(2, ONE))
    t.sets_credentials((b"mallory", b"never used"))
    t.sets_credentials(NEXT)
    t.at(110)
    t.feeds(success(CREATE_PERMISSION, 2))
    t.tells("TURN_PERMISSION_CREATED", host(ONE))
    t.tells_no_more()
    t.part("until a challenge comes, requests go as before")
    permits_one(t, 3, TWO, 150, named(), OLD)


def replaced_by_challenge(t, reason):
    t.part("the next challenge is answered under them")
    t.reaches("permit", STRANGER)
    t.at(200)
    t.draws(permit(4, STRANGER))
    t.at(210)
    t.feeds(challenge(4, CREATE_PERMISSION, reason, OTHER))
    t.tells_no_more()
    t.at(250)
    t.draws(permit(5, STRANGER, BY_NEXT, user=NEXT))
    t.at(260)
    t.feeds(success(CREATE_PERMISSION, 5, user=NEXT))
    t.tells("TURN_PERMISSION_CREATED", host(STRANGER))
    t.tells_no_more()
    t.permits(ONE, TWO, STRANGER)


def replaced():
    """The password expires: other credentials are set, and the server no longer accepts the present ones."""
    t = Exchange("other credentials")
    t.begins()
    t.challenged()
    t.granted()
    replaced_amid(t)
    replaced_by_challenge(t, code(401, b"Unauthorized"))
    t.part("the former key counts no more")
    t.reaches("permit", FOURTH)
    t.at(300)
    t.draws(permit(6, FOURTH, BY_NEXT, user=NEXT))
    t.feeds(success(CREATE_PERMISSION, 6), "TURN_IGNORED", "signed by the former key")
    t.tells_no_more()
    t.feeds(success(CREATE_PERMISSION, 6, user=NEXT))
    t.tells("TURN_PERMISSION_CREATED", host(FOURTH))
    t.tells_no_more()
    t.part("the end")
    t.at(350)
    t.deleted(7, BY_NEXT, user=NEXT)
    t.does("close")
    return t


def replaced_by_stale_nonce():
    """A challenge with 438 counts as one with 401 does; here over TCP."""
    t = Exchange("other credentials, and a stale nonce", "tcp")
    t.begins()
    t.challenged()
    t.granted()
    replaced_amid(t)
    replaced_by_challenge(t, code(438, b"Stale Nonce"))
    t.part("the end")
    t.at(350)
    t.deleted(6, BY_NEXT, user=NEXT)
    t.does("close")
    return t


def replaced_at_first():
    """Other credentials are set before the first challenge, which is answered under them."""
    t = Exchange("other credentials, at first")
    t.begins()
    t.sets_credentials(NEXT)
    t.draws(first())
    t.feeds(challenge())
    t.at(50)
    t.draws(allocate(told=named(user=NEXT), user=NEXT))
    t.feeds(grant(RELAYED, user=NEXT))
    t.tells("TURN_ALLOCATION_CREATED", RELAYED)
    t.tells_no_more()
    t.part("the end")
    t.at(100)
    t.deleted(2, named(user=NEXT), user=NEXT)
    t.does("close")
    return t


PROGRAM, OTHER_PROGRAM = (SOFTWARE, b"Pakhvizhe test"), (SOFTWARE, "Пахвиже".encode())


def introduced_otherwise(t):
    t.part("another text, and then neither")
    t.does("software", bytes=OTHER_PROGRAM[1])
    t.reaches("permit", ONE)
    t.at(650)
    t.draws(fingerprinted(permit(2, ONE, [OTHER_PROGRAM, *named()])))
    t.feeds(fingerprinted(success(CREATE_PERMISSION, 2)))
    t.tells("TURN_PERMISSION_CREATED", host(ONE))
    t.sends(ONE, b"hello", indication(3, ONE, b"hello"), name="an indication has neither")
    t.does("fingerprint", number=0)
    t.reaches("bind", ONE)
    t.at(700)
    t.draws(bind(4, A, ONE, [OTHER_PROGRAM, *named()]))
    t.feeds(success(CHANNEL_BIND, 4))
    t.tells("TURN_CHANNEL_CREATED", ONE)
    t.does("software", bytes=b"")
    permits_one(t, 5, TWO, 750, named(), OLD)


def introduced():
    """Each request has SOFTWARE before what says who signs it, and ends with FINGERPRINT."""
    t = Exchange("SOFTWARE and FINGERPRINT")
    t.part("both ALLOCATEs have them")
    t.does("open")
    t.does("software", bytes=PROGRAM[1])
    t.does("fingerprint", number=1)
    t.draws(fingerprinted(first(UDP, PROGRAM)))
    t.at(500)
    t.draws(fingerprinted(first(UDP, PROGRAM)), name="the same request again")
    t.feeds(fingerprinted(challenge()))
    t.at(550)
    t.draws(fingerprinted(allocate(UDP, PROGRAM)))
    t.at(600)
    t.feeds(fingerprinted(grant(RELAYED)))
    t.tells("TURN_ALLOCATION_CREATED", RELAYED)
    t.tells_no_more()
    introduced_otherwise(t)
    t.part("the end")
    t.at(800)
    t.does("fingerprint", number=1)
    t.does("delete")
    t.draws(fingerprinted(refresh(6, 0)))
    t.feeds(success(REFRESH, 6, lifetime(0)))
    t.ends()
    t.does("close")
    return t


def introduced_to_peers():
    """The name is hidden, and the digest SHA-256's. An answer to the server has neither."""
    t = Exchange("SOFTWARE and FINGERPRINT, over TCP", "tcp", "tcp", integrity=3)
    told = [PROGRAM, *HIDDEN]
    t.part("a connection to a peer")
    t.does("open")
    t.does("software", bytes=PROGRAM[1])
    t.does("fingerprint", number=1)
    t.draws(fingerprinted(first(TCP, PROGRAM)))
    t.feeds(challenge(0, ALLOCATE, code(401, b"Unauthorized"), FEATURED, TWO_ALGORITHMS))
    t.at(50)
    t.draws(fingerprinted(allocate(TCP, told=told, by=BY_SHA256)))
    t.feeds(grant(RELAYED, by=BY_SHA256))
    t.tells("TURN_ALLOCATION_CREATED", RELAYED)
    t.reaches("permit", ONE)
    t.at(100)
    t.draws(fingerprinted(permit(2, ONE, told, BY_SHA256)))
    t.feeds(success(CREATE_PERMISSION, 2, by=BY_SHA256))
    t.tells("TURN_PERMISSION_CREATED", host(ONE))
    t.reaches("connect", ONE)
    t.at(150)
    t.draws(fingerprinted(connect(3, ONE, told, BY_SHA256)))
    t.feeds(success(CONNECT, 3, identified(7), by=BY_SHA256))
    asks_socket(t, 7, ONE)
    opens_socket(t, 7, ONE, FIRST)
    t.at(200)
    t.draws(fingerprinted(join(4, 7, told, BY_SHA256)), FIRST)
    t.feeds(success(CONNECTION_BIND, 4, by=BY_SHA256), local=FIRST)
    t.tells("TURN_TCP_CONNECTED", ONE)
    t.part("a peer begins one")
    t.feeds(attempt(1, 12, "198.51.100.1:9100", BY_SHA256))
    asks_socket(t, 12, "198.51.100.1:9100")
    opens_socket(t, 12, "198.51.100.1:9100", SECOND_SOCKET)
    t.draws(attempted(1, kind=CONNECTION_ATTEMPT | SUCCESS, by=BY_SHA256))
    t.at(250)
    t.draws(fingerprinted(join(5, 12, told, BY_SHA256)), SECOND_SOCKET)
    t.does("close")
    return t


# ---- what is asked for otherwise

# what a server tells of a reserved port, and the number that it is (RFC 8656, section 18.10)
RESERVED, TOKEN = 0x0022, bytes.fromhex("ff00010203040506")
EVEN = 0x0018


def asked_otherwise():
    """An hour, an even port with the next one reserved (RFC 8656, section 18.7), and no time between messages."""
    t = Exchange("an hour and a pair of ports", lifetime=3600, pace=0xFFFFFFFF, port="TURN_PORT_EVEN_AND_NEXT")
    t.begins()
    t.does("reservation", "TURN_NOTHING")
    t.draws(first(UDP, (EVEN, b"\x80"), seconds=3600))
    t.feeds(challenge())
    t.draws(allocate(UDP, (EVEN, b"\x80"), seconds=3600))
    told = [(RELAYED_KIND, xored(RELAYED, number(1))), lifetime(3600), (RESERVED, TOKEN)]
    t.feeds(success(ALLOCATE, 1, *told))
    t.tells("TURN_ALLOCATION_CREATED", RELAYED)
    t.is_reserved(int.from_bytes(TOKEN, "big"))
    t.part("a minute before its end an hour is asked for again, and other requests are drawn at that moment")
    t.at(3_540_000)
    t.draws(refresh(2, 3600))
    t.feeds(success(REFRESH, 2, lifetime(3600)))
    t.reaches("permit", ONE)
    t.reaches("permit", TWO)
    t.draws(permit(3, ONE))
    t.draws(permit(4, TWO))
    t.does("close")
    return t


def reserved():
    """The port that was reserved: no family is named beside it (RFC 8656, section 7.1)."""
    token = int.from_bytes(TOKEN, "big")
    t = Exchange("a reserved port", families=2, port="TURN_PORT_RESERVED", reservation=token)
    t.begins()
    t.draws(first(UDP, (RESERVED, TOKEN)))
    t.feeds(challenge())
    t.at(50)
    t.draws(allocate(UDP, (RESERVED, TOKEN)))
    t.feeds(success(ALLOCATE, 1, (RELAYED_KIND, xored(RELAYED_6, number(1))), lifetime(1800)))
    t.tells("TURN_ALLOCATION_CREATED", RELAYED_6)
    t.does("reservation", "TURN_NOTHING")
    t.does("close")
    return t


def even():
    """An even port, and 90 ms between two messages; the server has none."""
    t = Exchange("an even port", port="TURN_PORT_EVEN", pace=90, lifetime=60)
    t.begins()
    t.draws(first(UDP, (EVEN, b"\0"), seconds=60))
    t.feeds(challenge())
    t.at(89)
    t.draws_nothing()
    t.at(90)
    t.draws(allocate(UDP, (EVEN, b"\0"), seconds=60))
    t.feeds(rejection(ALLOCATE, 1, 508, b"Insufficient Capacity"))
    fails(t, "TURN_REJECTED", 508, True, b"Insufficient Capacity")
    return t


# ---- connections that indications announce


def announced_one(t):
    t.part("a peer's connection is bound, and no response to the server is due")
    t.at(100)
    t.feeds_cut(announcement(1, 7, ONE), 30)
    t.draws_nothing()
    t.tells_no_more()
    asks_socket(t, 7, ONE)
    t.holds_connections()
    opens_socket(t, 7, ONE, FIRST)
    t.holds_connections((FIRST, ONE, 7, False))
    t.draws(join(2, 7), FIRST)
    t.draws_nothing()
    t.feeds(success(CONNECTION_BIND, 2) + b"hi", local=FIRST)
    t.pulls(ONE, b"hi")
    t.tells("TURN_TCP_CONNECTED", ONE)
    t.tells_no_more()
    t.gives(b"any bytes", ONE, b"any bytes", 0, local=FIRST)
    t.sends_not(ONE, "TURN_NO_PERMISSION")
    t.reaches("permit", ONE)
    t.at(150)
    t.draws(permit(3, ONE))
    t.feeds(success(CREATE_PERMISSION, 3))
    t.tells("TURN_PERMISSION_CREATED", host(ONE))
    t.sends(ONE, b"hello", b"hello", FIRST)


def announced():
    """Indications announce connections of peers (RFC 6062, sections 4.4 and 5.4): one is bound, another one gets no
    socket, the server rejects a third, and others change nothing."""
    t = Exchange("connections that indications announce", "tcp", "tcp", attempt_indications=1)
    t.begins()
    t.challenged(TCP)
    t.feeds(announcement(1, 7, ONE), "TURN_IGNORED", "before there is an allocation")
    t.granted(TCP)
    announced_one(t)
    t.part("what changes nothing")
    t.feeds(announcement(2, 8, ONE), name="a peer with a connection")
    t.feeds(announcement(3, 8, SIX), name="a peer of another family")
    t.feeds(attempted(4, identified(8), kind=CONNECTION_ATTEMPT | INDICATION, by=None), name="no peer")
    t.draws_nothing()
    t.holds_connections((FIRST, ONE, 7, True))
    t.part("no socket is opened, and no response is due")
    t.feeds(announcement(5, 8, TWO))
    asks_socket(t, 8, TWO)
    opens_socket(t, 8, TWO, NOBODY)
    t.draws_nothing()
    opens_socket(t, 8, TWO, SECOND_SOCKET, "TURN_NO_ALLOCATION")
    t.part("the server rejects its ID")
    t.feeds(announcement(6, 9, TWO))
    asks_socket(t, 9, TWO)
    opens_socket(t, 9, TWO, SECOND_SOCKET)
    t.at(200)
    t.draws(join(4, 9), SECOND_SOCKET)
    t.feeds(rejection(CONNECTION_BIND, 4, 447, b"Connection Timeout or Failure"), local=SECOND_SOCKET)
    t.tells("TURN_TCP_FAILED", TWO)
    # any error in place of the success ends it, and isn't validated (SECURITY.md)
    t.because("TURN_REJECTED", 447, False, b"Connection Timeout or Failure")
    closes_socket(t, SECOND_SOCKET)
    t.holds_connections((FIRST, ONE, 7, True))
    t.part("the end")
    t.at(250)
    t.deleted(5)
    t.feeds(announcement(7, 10, TWO), "TURN_IGNORED")
    t.does("close")
    return t


def not_announced():
    t = Exchange("indications that announce nothing", "tcp", "tcp")
    t.begins()
    t.challenged(TCP)
    t.granted(TCP)
    t.part("without the setting")
    t.feeds(announcement(1, 7, ONE), "TURN_IGNORED")
    t.draws_nothing()
    t.holds_connections()
    t.at(100)
    t.deleted(2)
    t.does("close")
    return t


def announced_over_udp():
    t = Exchange("indications beside an allocation over UDP", "tcp", attempt_indications=1)
    t.begins()
    t.challenged()
    t.granted()
    t.part("they announce nothing")
    t.feeds(announcement(1, 7, ONE), "TURN_IGNORED")
    t.draws_nothing()
    t.holds_connections()
    t.does("close")
    return t
