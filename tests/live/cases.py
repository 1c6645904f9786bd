"""What is run with each program, and what is wanted of it."""

import time
from dataclasses import dataclass, replace

ALL_BACK, SOME_LOST, BAD_USAGE, FAILED, NO_ANSWER = range(5)  # exit status, as turn_client --help tells it
LIMIT = 120  # seconds that a case may take
MANY = 1000  # payloads each way

REFRESHED, STALE = r"refreshed, .*lifetime=[1-9]", "error 438"
PERMITTED, BOUND = "CREATE_PERMISSION processed, success", "CHANNEL_BIND processed, success"
CONNECTED = "CONNECTION_BIND processed, success"
GRANTED = "ALLOCATE processed, success"

RESERVED = "TOKEN"  # an option's value: the token that the first client tells
WRONG_TOKEN = "0123456789abcdef"

SHORT_SERVER = ("--max-allocate-lifetime=70",)  # a lifetime that clients renew after 35 seconds
IGNORING = ("--ignore-short-lifetimes",)

# An hour of lifetimes of 70 seconds, by clocks that run PACE times as fast, or as --pace says. A nonce is stale after 600
# seconds, a permission is renewed after 240, a channel after 540. The last payload goes a minute before the end.
HOUR, PACE, PAYLOADS = 3600, 40, 61
HOUR_RENEWALS = ((REFRESHED, 90), (STALE, 5), (PERMITTED, 14), (BOUND, 6), (r"(?m)^3[6-9]\d\d: ", 1))
HOUR_SPENT = r"\n36\d\d\.\d{3}  gives the address back"

# Renewals: allocations stand ten minutes. The client renews a permission after 240 seconds, an allocation and a channel
# after 540; they would end after 300 and 600. Payloads that go after 600 show that all were. Each nonce is stale then.
# The system may wait for longer than a program says: for a socket, by an eighth.
RENEWING_SERVER = ("--stale-nonce=50", "--max-allocate-lifetime=600")
RENEWALS = ((REFRESHED, 1), (STALE, 3), (PERMITTED, 3))
RENEWING_SECONDS, RENEWING_INTERVAL, RENEWING_PAYLOADS = 655, 10000, 62

PAUSED_AFTER, PAUSED_FOR = 1.0, 3.0  # seconds: after the peer's first payload, and how long
FIRST_WITHIN = 60  # seconds that this one may take
# While the server is stopped: 600 payloads of 1,200 bytes, more than its socket holds; 60 of 100, which it holds.
STEADY = {"count": 1000, "interval": 5, "size": 1200}
SLOW = {"count": 100, "interval": 50}


def let_go(peer):
    """Waits until payloads go for a while."""
    until = time.monotonic() + FIRST_WITHIN
    while peer.count() == 0 and time.monotonic() < until:
        time.sleep(0.01)
    time.sleep(PAUSED_AFTER)


def pause(server, peer):
    """The server is stopped for a while, and continues: how many payloads the peer had until then."""
    let_go(peer)
    server.pause()
    time.sleep(PAUSED_FOR)
    had = peer.count()
    server.go_on()
    return had


def kill(server, peer):
    let_go(peer)
    server.kill()
    return 0


def restart(server, peer):
    """The server is killed, and another one that knows nothing of the allocation is at its place."""
    kill(server, peer)
    server.start()
    return 0


@dataclass(frozen=True)
class Case:
    name: str
    want: int = ALL_BACK
    transport: str = "udp"  # to the server: udp, tcp, or tls over TCP
    host: str = "127.0.0.1"  # the server's
    count: int = 20  # payloads
    size: int = 100  # bytes of each
    interval: int = 0  # milliseconds between two; 0 is as the program does
    seconds: int = 0  # that the address is kept
    family: str = "4"  # of the relayed address, or `both`
    algorithms: str = "sha1"
    indications: bool = False  # no channel
    # who sends back: `run` (and counts), the program's own `echo`, `stream` over TCP, or `none`; with `opens` a peer
    # opens a connection, and the program sends back
    peer: str = "run"
    options: tuple = ()  # more of them
    server: tuple = ()  # options of the server
    is_absent: bool = False  # there is no server
    password: str = ""  # another one
    logged: tuple = ()  # what is to stand in the server's log, and how often at least
    says: tuple = ()  # what is to stand in the program's transcript
    is_occupied: bool = False  # before it another client of the same user has an address
    first: tuple = ()  # more options of that client, in place of `options`
    port: str = ""  # of the relayed address: `even`, or `next` to that of the first client, which is even
    is_translated: bool = False  # a translator of addresses is between it and the server
    is_redirected: bool = False  # the server names another one
    has_loop: bool = False  # which names this one in turn
    visits: int = 0  # how many requests without a signature the other one gets
    during: object = None  # what is done to the server meanwhile
    lasts: tuple = (0, LIMIT)  # seconds, at least and at most
    spans: float = 0  # seconds from the first payload at the peer to the last one, at least
    pace: int = 1  # how many times as fast the clocks of server and program run; `lasts` and `spans` are real
    is_idle: bool = False  # it waits more than it works, and runs beside others
    is_long: bool = False  # it takes ten minutes
    driver: bool = False  # it is one of programs over a driver of the repository, not of those with a loop of their own
    is_distrusted: bool = False  # the program trusts another certificate than the server's


def _both_ways(transport, host):
    family = "6" if ":" in host else "4"
    one = Case(f"1,000 by a channel, IPv{family}, {transport.upper()}", transport=transport, host=host, count=MANY,
               interval=2, family=family, logged=((BOUND, 1),))
    return [one, replace(one, name=one.name.replace("a channel", "indications"), indications=True,
                         logged=((PERMITTED, 1),))]


def payloads():
    return [case for transport in ("udp", "tcp") for host in ("127.0.0.1", "::1")
            for case in _both_ways(transport, host)]


def settings():
    large = Case("100 of 8,000 bytes, UDP", count=100, size=8000, interval=20)
    return [
        Case("HMAC-SHA1 and SHA-256 offered", algorithms="both"),
        Case("SHA-256 alone: coturn has none", FAILED, algorithms="sha256", says=("cause: no-algorithm",)),
        Case("both families asked for", family="both"),
        Case("IPv6 address of a server over IPv4", family="6"),
        Case("IPv4 address of a server over IPv6", host="::1", says=(r"public address: \[::1\]:\d+\n",)),
        large,
        replace(large, name="100 of 8,000 bytes, TCP", transport="tcp"),
        Case("its own echo, UDP", peer="echo", says=(r"public address: 127\.0\.0\.1:\d+\n",)),
        Case("its own echo, TCP", transport="tcp", peer="echo", says=(r"public address: 127\.0\.0\.1:\d+\n",)),
        Case("another public address than its own", is_translated=True),
    ]


def refusals():
    absent = Case("no server, UDP", NO_ANSWER, is_absent=True, lasts=(39, 60), is_idle=True,
                  says=("cause: unanswered",))
    # nine challenges are answered, and the tenth is the cause
    wrong = Case("a wrong password, UDP", FAILED, password="wrong", logged=(("error 401", 10),),
                 says=("cause: rejected 401 unsigned",))
    return [
        wrong,
        replace(wrong, name="a wrong password, TCP", transport="tcp"),
        Case("a peer that the server denies", FAILED, peer="none", options=("--peer", "192.0.2.1:9"),
             server=("--denied-peer-ip=192.0.2.0-192.0.2.255",), logged=(("error 403", 1),),
             says=("cause: rejected 403 signed",)),
        Case("a second address of a user who may have one", FAILED, peer="none", server=("--user-quota=1",),
             is_occupied=True, logged=(("error 486", 1),), says=("cause: rejected 486 signed",)),
        Case("an option without a value", BAD_USAGE, peer="none", options=("--user",), is_absent=True),
        absent,
        replace(absent, name="no server, TCP", transport="tcp", lasts=(0, 20), says=()),
    ]


def ports():
    """EVEN-PORT and RESERVATION-TOKEN (RFC 8656, section 7.1): the second client gets the port that the first one had
    reserved."""
    even = Case("an even port", options=("--even-port",), port="even")
    follows = Case("the port that another client reserved, UDP", is_occupied=True, first=("--reserve",), port="next",
                   options=("--token", RESERVED), logged=(("Local reserved relay addr", 1), (GRANTED, 2)))
    # coturn rejects it by 404; RFC 8656, section 7.2, says 508
    wrong = Case("a token under which nothing is reserved, UDP", FAILED, peer="none", is_occupied=True,
                 first=("--reserve",), options=("--token", WRONG_TOKEN), logged=(("error 404", 1),),
                 says=("cause: rejected 404 signed Cannot find reserved socket",))
    return [even, follows, replace(follows, name=follows.name.replace("UDP", "TCP"), transport="tcp"), wrong,
            replace(wrong, name=wrong.name.replace("UDP", "TCP"), transport="tcp")]


def redirections():
    # coturn rejects the first ALLOCATE so, which isn't signed
    named = r"cause: rejected 300 unsigned Try Alternate\n.*alternate server: 127\.0\.0\.1:\d+\n"
    refused = Case("a server that names another one, UDP", FAILED, peer="none", is_redirected=True, says=(named,))
    followed = replace(refused, name="another server, which is followed, UDP", want=ALL_BACK, peer="run",
                       options=("--follow",), visits=1,
                       says=(named, r"goes on with 127\.0\.0\.1:\d+", "public address: "))
    twice = replace(refused, name="another server, which names this one, UDP", has_loop=True, options=("--follow",),
                    visits=1, says=(named, r"(?s)^(?!.*goes on with.*goes on with).*goes on with"))
    over_udp = [refused, followed, twice]
    return over_udp + [replace(it, name=it.name.replace("UDP", "TCP"), transport="tcp") for it in over_udp]


def troubles():
    anew = Case("killed and restarted, UDP", SOME_LOST, seconds=15, during=restart, server=SHORT_SERVER, is_idle=True,
                logged=(("error 437", 2),), **STEADY)
    return [
        Case("stopped for 3 s, UDP: more than its socket holds", SOME_LOST, during=pause, **STEADY),
        Case("stopped for 3 s, UDP: less than its socket holds", during=pause, **SLOW),
        Case("stopped for 3 s, TCP: less than its socket holds", transport="tcp", during=pause, **SLOW),
        Case("killed, UDP", SOME_LOST, during=kill, is_idle=True, lasts=(40, 110), **STEADY),
        Case("killed, TCP", FAILED, transport="tcp", during=kill, **STEADY),
        anew,
        replace(anew, name="killed and restarted, TCP", want=FAILED, transport="tcp", logged=()),
    ]


def lifetimes(pace):
    """A server that grants 70 seconds: an allocation is renewed before each end, unless that is ignored."""
    one = Case("lifetimes of 70 s, for 90 s", seconds=90, server=SHORT_SERVER, lasts=(90, 100), is_idle=True,
               logged=((REFRESHED, 2),))
    hour = replace(one, name="lifetimes of 70 s, for an hour, UDP", pace=pace, seconds=HOUR, count=PAYLOADS,
                   interval=(HOUR - 60) * 1000 // (PAYLOADS - 1), logged=HOUR_RENEWALS, says=(HOUR_SPENT,),
                   spans=(HOUR - 61) / pace, lasts=(HOUR / pace, HOUR / pace + 15))
    return [
        one,
        replace(one, name="lifetimes of 70 s, ignored", want=FAILED, options=IGNORING, lasts=(69, 89),
                logged=((REFRESHED, 1),)),
        hour,
        replace(hour, name="lifetimes of 70 s, for an hour, TCP", transport="tcp"),
        replace(hour, name="lifetimes of 70 s, for an hour, ignored", want=FAILED, options=IGNORING, says=(), spans=0,
                lasts=(69 / pace, 70 / pace + 20), logged=((REFRESHED, 1),)),
    ]


def connections():
    """RFC 6062: an allocation over TCP, and a connection through it to a peer."""
    one = Case("1,000 by a connection to a peer, IPv4", transport="tcp", count=MANY, peer="stream",
               logged=((CONNECTED, 1),))
    return [one, replace(one, name=one.name.replace("IPv4", "IPv6"), host="::1", family="6")]


def accepted():
    """RFC 6062: a peer opens a connection, which coturn announces by an indication; 20,000 bytes go both ways. A program
    that isn't set to accept such waits in vain."""
    one = Case("a peer's connection is announced and accepted, IPv4", transport="tcp", count=200, peer="opens",
               seconds=30, options=("--attempt-indications",), logged=((CONNECTED, 1),), lasts=(0, 20))
    return [one, replace(one, name=one.name.replace("IPv4", "IPv6"), host="::1", family="6"),
            replace(one, name="a peer's connection is announced, and indications are not accepted", want=SOME_LOST,
                    seconds=4, options=(), logged=(), lasts=(4, 10))]


def drivers(pace):
    """What a driver does in place of the program: turn_client_asyncio, turn_driver.h of C, TurnSocket of Rust."""
    both = [replace(case, name=f"driver: {case.name}") for case in (*payloads(), *connections())]
    tls = [replace(case, transport="tls", name=case.name.replace(", TCP", "") + ", TLS") for case in both
           if case.transport == "tcp"]
    large = Case("driver: 100 of 8,000 bytes, UDP", count=100, size=8000, interval=20)
    rejected = {it.name: it for it in refusals()}
    wrong, denied, absent = (replace(rejected[name], name=f"driver: {name}") for name in (
        "a wrong password, UDP", "a peer that the server denies", "no server, UDP"))
    redirected = replace(redirections()[0], name="driver: a server that names another one, UDP",
                         says=("cause: rejected 300 unsigned", r"alternate server: 127\.0\.0\.1:\d+\n"))
    followed = replace(redirected, name="driver: another server, which is followed, UDP", want=ALL_BACK, peer="run",
                       options=("--redirects", "1"), visits=1, says=("public address: ",))
    untrusted = Case("driver: a certificate that nobody vouches for", NO_ANSWER, transport="tls", peer="none",
                     is_distrusted=True, says=(r"(?i)certificate.verify.failed|UnknownIssuer",))
    # the renewal is rejected after 35 seconds, and the allocation ends after 70
    restarted = Case("driver: killed and restarted, UDP", FAILED, count=100, interval=50, seconds=90, during=restart,
                     server=SHORT_SERVER, is_idle=True, logged=(("error 437", 1),), lasts=(69, 89),
                     says=("the relayed address is gone",))
    killed = Case("driver: killed, TCP", FAILED, transport="tcp", during=kill, says=("the server is closed",), **STEADY)
    hour = next(it for it in lifetimes(pace) if it.name == "lifetimes of 70 s, for an hour, UDP")
    found = [*both, *tls, large, replace(large, name="driver: 100 of 8,000 bytes, TLS", transport="tls"), wrong, denied,
             absent, redirected, followed, untrusted, restarted, killed, replace(hour, name=f"driver: {hour.name}")]
    return [replace(it, driver=True) for it in found]


def renewals():
    one = Case("renewed for 655 s, channel, UDP", count=RENEWING_PAYLOADS,
               interval=RENEWING_INTERVAL, seconds=RENEWING_SECONDS, spans=600, server=RENEWING_SERVER,
               logged=(*RENEWALS, (BOUND, 2)), lasts=(RENEWING_SECONDS, RENEWING_SECONDS + 10), is_idle=True,
               is_long=True)
    return [one, replace(one, name="renewed for 655 s, channel, TCP", transport="tcp"),
            replace(one, name="renewed for 655 s, indications, UDP", indications=True, logged=RENEWALS)]


def all_of_them(is_quick, pace=PACE):
    return [*([] if is_quick else renewals()), *lifetimes(pace), *troubles(), *refusals(), *ports(), *redirections(),
            *payloads(), *settings(), *connections(), *accepted(), *drivers(pace)]
