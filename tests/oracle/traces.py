#!/usr/bin/env python3
"""Makes traces of a client and a desk, and what their events are answered (`docs/TRACE.md`).

It knows nothing of the repository's code: messages and numbers are written by `traces_base.py`. The moments were worked
out by hand, from the waits that a client is documented to have. It writes eleven examples, and the traces of a client
and a desk in the stored run of `turn_replay`, behind those of a desk alone.

Here are the handshake, renewal and end of an allocation, each pair of settings, and what is no trace. Strangers are in
`traces_other_addresses.py`, each method that a desk rejects in `traces_each_method.py`, permissions in
`traces_permissions.py`, channels in `traces_channels.py` and `traces_channel_lifetimes.py`, payloads in
`traces_payloads.py`, TCP in `traces_tcp.py`, connections in `traces_connections.py`, their sockets in
`traces_connection_sockets.py`, what comes over these in `traces_bound_connections.py`, connections that peers begin in
`traces_attempt_timing.py`, one that nobody answers in `traces_unanswered.py`, a hardened one in `traces_hardened.py`,
why events happened in `traces_causes.py`, and permissions of several addresses by one request in
`traces_several_permissions.py`.
"""

import hashlib
import sys

from traces_base import (
    ADDITIONAL_FAMILY, ALGORITHMS, ALLOCATE, BINDING, CLIENT, END, ERROR, FAMILY, INDICATION, MS, NAMED,
    NONCE, NONCES, OTHER, PASSWORD_ALGORITHM, PASSWORD_ALGORITHMS, REALM, REFRESH, REFUSED, RELAYED, SECOND,
    SERVER, SHA1, SIXTH, STALE, SUCCESS, TOP, Trace, UNKNOWN, USERHASH, USERNAME, V6, challenge, code,
    entries, error, first, grant, hashed, lifetime, message, number, refresh, relayed, setup, signed_allocate,
    stale, success, unsigned,
)


# ---- a client and a desk


def handshake():
    t = Trace(setup())
    t.held()
    return "A client is challenged, and granted", t


def forged_grant():
    t = Trace(setup())
    line = t.granted()
    size = len(grant(1))
    t.hear(50 * MS, f"@{line}:0:27+43+@{line}:28:{size}")
    t.shows()
    t.poll(50 * MS, 50 * MS)
    t.fails(50 * MS)
    return "A byte of the relayed address is changed on the way: the client ends", t


def repeated_grant():
    t = Trace(setup())
    line = t.held()
    t.hear(50 * MS, f"@{line}", "ignored")
    t.event("none")
    t.shows(RELAYED)
    return "A success comes twice: it counts once", t


def reflected_request():
    t = Trace(setup())
    line = t.granted()
    size = len(grant(1))
    t.hear(50 * MS, f"@{line - 1}", "ignored")
    t.hear(50 * MS, f"01030020+@{line}:4:{size - 24}", "ignored")
    t.shows()
    t.hear(50 * MS, f"@{line}")
    t.is_created(RELAYED)
    return "The client's own request comes back, and a success that isn't signed: neither counts, the true one does", t


def address_behind_the_signature():
    t = Trace(setup())
    line = t.granted()
    size = len(grant(1))
    t.hear(50 * MS, f"01030044+@{line}:4:{size}+001600080001e242ea12d546")
    t.is_created(RELAYED)
    t.event("none")
    return "An address stands behind the signature of a success: it doesn't count", t


def added_signature():
    t = Trace(setup())
    line = t.granted()
    size = len(grant(1))
    t.hear(50 * MS, f"0103005c+@{line}:4:{size}+001c0020{'00' * 32}")
    t.fails(50 * MS)
    return "A second signature is added to a success, and it is wrong: the client ends", t


def foreign_datagrams():
    t = Trace(setup())
    line = t.challenged()
    t.hear(0, f"@{line}", "ignored", source="10.0.0.3:2000")
    t.hear(0, f"@{line}", "ignored", to="192.168.0.2:1000")
    t.hear(0, "00", "ignored")
    t.hear(0, "-", "ignored")
    return "From another address, to another one, and what is no message", t


def forged_challenge():
    t = Trace(setup())
    t.draw(0, first())
    told = [code(401, b"Unauthorized"), (REALM, b"evil"), (NONCE, b"n")]
    t.hear(0, unsigned(ALLOCATE | ERROR, 0, told))
    named = [(USERNAME, b"user"), (REALM, b"evil"), (NONCE, b"n")]
    drawn = t.draw(50 * MS, signed_allocate(1, named, realm=b"evil"))
    again = t.ask(50 * MS, f"@{drawn}", "refuse 400", stale(1))
    t.hear(50 * MS, f"@{again}")
    t.poll(50 * MS, 100 * MS)
    t.is_granted(100 * MS, 2, hashed(b"QAAA"))
    return "A forged challenge of another realm: the desk's own one mends it", t


def repeated_challenge():
    t = Trace(setup())
    line = t.challenged()
    t.hear(0, f"@{line}")
    t.hear(0, f"@{line}", "ignored")
    t.draw(50 * MS, signed_allocate(1, hashed(b"QAAA")))
    t.draw(100 * MS, None)
    return "A challenge comes twice: the request is signed anew once", t


def ten_challenges():
    t = Trace(setup())
    t.draw(0, first())
    for k in range(9):
        t.hear(50 * MS * k, unsigned(ALLOCATE | ERROR, k, REFUSED))
        t.draw(50 * MS * (k + 1), signed_allocate(k + 1, NAMED))
    t.hear(450 * MS, unsigned(ALLOCATE | ERROR, 9, REFUSED))
    t.fails(450 * MS)
    return "Ten challenges, one behind the other: nine are answered, and the tenth ends the client", t


def what_a_desk_passes_by():
    t = Trace(setup())
    line = t.challenged()
    t.ask(0, f"@{line}", "grant", None)
    t.ask(0, unsigned(BINDING | INDICATION, 5, []).hex(), "grant", None)
    t.ask(0, unsigned(ALLOCATE | SUCCESS, 5, []).hex(), "grant", None)
    t.ask(0, f"@{line}:0:19", "grant", None)
    return "A desk's own reply, an indication, a response, and nineteen bytes: it answers none of them", t


def offered(algorithms, desk, chosen):
    """The desk offers its algorithms: the client names the chosen one and signs by it; where there is none, it ends."""
    t = Trace(setup(algorithms=algorithms, desk=f"{desk} auto"))
    drawn = t.draw(0, first())
    listed = (PASSWORD_ALGORITHMS, entries(*desk.split(",")))
    line = t.ask(0, f"@{drawn}", "refuse 400", challenge(0, b"wAAA", [listed]))
    t.hear(0, f"@{line}")
    if chosen is None:
        t.fails(0)
    else:
        by, entry = ALGORITHMS[chosen]
        t.is_granted(50 * MS, 1, [*hashed(b"wAAA"), listed, (PASSWORD_ALGORITHM, entry)], by)
    return t


TWO, THREE = "sha1,sha256", "sha1,sha256,sha512"


def offers():
    yield "Both sides know SHA-256: it is taken", offered(TWO, TWO, "sha256")
    yield "The client knows SHA-1 alone: that is taken", offered("sha1", TWO, "sha1")
    yield "The two sides have no algorithm in common: the client ends", offered("sha1", "sha256", None)
    t = offered(THREE, THREE, "sha512")
    # the ends of the challenge and of the grant's request, and where that, and the grant, begin, worked by hand
    for part in ("reply 011300542112a442", "8002000c0001000000020000ff120000\n", " 000300c02112a442",
                 "reply 010300642112a442"):
        assert part in t.answers
    yield "Both sides know SHA-512: it is taken", t
    yield "The client knows no SHA-512: SHA-256 is taken", offered(TWO, THREE, "sha256")
    yield "The client knows SHA-512 alone, and the desk all but that: the client ends", offered("sha512", TWO, None)
    yield "Both sides know SHA-512 alone, and no other", offered("sha512", "sha512", "sha512")


def no_hashed_names():
    t = Trace(setup(anonymity="required", desk="sha1 disabled"))
    drawn = t.draw(0, first())
    line = t.ask(0, f"@{drawn}", "refuse 400", challenge(0, b"AAAA"))
    t.hear(0, f"@{line}")
    t.fails(0)
    return "The client wants its name to be hashed, and the desk takes no such name: the client ends", t


def lost_replies():
    t = Trace(setup())
    line = t.challenged_again()
    t.hear(500 * MS, f"@{line}")
    t.poll(500 * MS, 550 * MS)
    drawn = t.draw(550 * MS, signed_allocate(1, hashed(b"QAAA")))
    t.ask(550 * MS, f"@{drawn}", f"allocate {RELAYED} 600", grant(1))
    # the waits of a request begin when it is made, which is when the challenge comes
    t.poll(550 * MS, 1000 * MS)
    t.is_granted(1000 * MS, 1, hashed(b"QAAA"))
    return "The first reply is lost, and so is the grant: each request goes out again, and the client is granted", t


def lost_reply():
    t = Trace(setup())
    line = t.challenged_again()
    t.poll(500 * MS, 1500 * MS)
    t.draw(1500 * MS, first())
    t.hear(1500 * MS, f"@{line}")
    t.poll(1500 * MS, 1550 * MS)
    t.draw(1550 * MS, signed_allocate(1, hashed(b"QAAA")))
    return "A reply is lost: the request goes out again, with the same bytes, until one comes", t


def nobody_answers():
    t = Trace(setup(rto="rto 600 1000 3 3000\n"))
    for now, until in ((0, 600), (600, 1600), (1600, 4600)):
        t.draw(now * MS, first())
        t.draw(now * MS, None)
        t.poll(now * MS, until * MS)
    t.poll(4600 * MS - 1, 4600 * MS)
    t.poll(4600 * MS, None)
    t.fails(4600 * MS)
    return "Nobody answers: three transmissions, and the end", t


def deleted():
    t = Trace(setup())
    t.say("delete 0", "refused NoAllocation")
    t.held()
    t.say("delete 100000000", "ok")
    t.shows()
    drawn = t.draw(100 * MS, refresh(2, 0, hashed(b"QAAA")))
    mismatch = error(REFRESH, 2, code(437, b"Allocation Mismatch"))
    line = t.ask(100 * MS, f"@{drawn}", "refuse 437", mismatch)
    t.hear(100 * MS, f"@{line}")
    t.poll(100 * MS, None)
    t.say("delete 100000000", "refused NoAllocation")
    return "The allocation is deleted: a REFRESH of no time, answered by an error that there is none", t


def renewed():
    t = Trace(setup())
    t.held()
    t.poll(50 * MS, 540 * SECOND + 50 * MS)
    now = 540 * SECOND + 50 * MS
    t.draw(now - 1, None)
    drawn = t.draw(now, refresh(2, 1800, hashed(b"QAAA")))
    line = t.ask(now, f"@{drawn}", "refresh 600", success(REFRESH, 2, lifetime(600)))
    t.hear(now, f"@{line}")
    t.poll(600 * SECOND + 50 * MS, 1080 * SECOND + 50 * MS)
    t.shows(RELAYED)
    return "The allocation is renewed a minute before its end", t


def repeated_renewal():
    t = Trace(setup())
    t.held()
    first_renewal = 540 * SECOND + 50 * MS
    second_renewal = first_renewal + 540 * SECOND
    t.poll(50 * MS, first_renewal)
    drawn = t.draw(first_renewal, refresh(2, 1800, hashed(b"QAAA")))
    line = t.ask(first_renewal, f"@{drawn}", "refresh 600", success(REFRESH, 2, lifetime(600)))
    t.hear(first_renewal, f"@{line}")
    t.poll(first_renewal, second_renewal)
    t.draw(second_renewal, refresh(3, 1800, hashed(b"QAAA")))
    t.hear(second_renewal, f"@{line}", "ignored")
    t.poll(second_renewal, second_renewal + 500 * MS)
    t.poll(first_renewal + 600 * SECOND, None)
    t.shows()
    return "The grant of one REFRESH comes again where another is awaited: it doesn't count, and the time is over", t


def error_above():
    t = Trace(setup())
    t.say("error", "ok")
    t.poll(0, 0)
    t.fails(0)
    t.draw(0, None)
    return "A layer above met an error", t


def last_moment():
    t = Trace(setup())
    last = 2**62
    t.poll(last, last)
    t.draw(last, first())
    t.say(f"draw {last + 1}", "out of range")
    t.hear(last + 1, "00", "out of range")
    t.say("poll 18446744073709551615", "out of range")
    t.say(f"delete {last + 1}", "out of range")
    return "The last moment at which something happens to a client, and the one behind it", t


# ---- a client, and a server that is no desk of ours


def nothing_yet():
    t = Trace(setup())
    t.poll(0, 0)
    t.event("none")
    t.shows()
    return "A client of which nothing was asked", t


def first_refused(name, kind, attributes):
    t = Trace(setup())
    t.draw(0, first())
    t.hear(0, unsigned(kind, 0, attributes))
    t.fails(0)
    return name, t


def first_answered():
    realm, nonce = (REALM, b"realm"), (NONCE, b"nonce")
    yield first_refused("The first ALLOCATE is a bad request", ALLOCATE | ERROR, [code(400, b"Bad Request")])
    yield first_refused("No capacity, and a nonce without a realm", ALLOCATE | ERROR, [nonce, code(508)])
    yield first_refused("No capacity, and a realm without a nonce", ALLOCATE | ERROR, [realm, code(508)])
    yield first_refused("Realm and nonce, and no code", ALLOCATE | ERROR, [realm, nonce])
    yield first_refused("No capacity, with realm and nonce", ALLOCATE | ERROR, [realm, nonce, code(508)])
    yield first_refused("The first ALLOCATE is a success at once", ALLOCATE | SUCCESS, [realm, nonce])


def request_for_a_response():
    t = Trace(setup())
    t.draw(0, first())
    t.hear(0, unsigned(ALLOCATE, 9, []), "ignored")
    return "A request comes where a response is awaited", t


def default_timeout():
    t = Trace(setup())
    slots = [0, 500, 1500, 3500, 7500, 15500, 31500, 39500]
    for now, until in zip(slots, slots[1:]):
        t.draw(now * MS, first())
        t.poll(now * MS, until * MS)
    t.poll(39500 * MS, None)
    t.fails(39500 * MS)
    return "Nobody answers, with the waits of RFC 8489: seven transmissions, and the end", t


def signed_refused(name, text):
    t = Trace(setup())
    t.refused()
    t.hear(50 * MS, text)
    t.fails(50 * MS)
    return name, t


def signed_answered():
    yield signed_refused("The signed ALLOCATE is a bad request", error(ALLOCATE, 1, code(400, b"Bad Request")))
    yield signed_refused("The signed ALLOCATE is refused without a code", error(ALLOCATE, 1))
    yield signed_refused("A success without an address", success(ALLOCATE, 1, lifetime(1000)))
    yield signed_refused("A success without a lifetime", success(ALLOCATE, 1, relayed(OTHER, 1)))


def signed_request():
    t = Trace(setup())
    t.refused()
    t.hear(50 * MS, message(ALLOCATE, number(9), [], SHA1), "ignored")
    return "A signed request comes where a response is awaited", t


def expired():
    t = Trace(setup())
    now = t.allocated()
    t.poll(now + 61 * SECOND, None)
    t.shows()
    return "An allocation's time is over", t


def stale_allocate():
    t = Trace(setup())
    t.refused()
    t.hear(50 * MS, unsigned(ALLOCATE | ERROR, 1, STALE))
    t.poll(50 * MS, 100 * MS)
    t.draw(100 * MS, signed_allocate(2, NAMED))
    t.hear(100 * MS, success(ALLOCATE, 2, relayed(OTHER, 2), lifetime(1000)))
    t.is_created(OTHER)
    return "The nonce of the signed ALLOCATE is stale: it is signed anew", t


def half_stale():
    t = Trace(setup())
    t.refused()
    t.hear(50 * MS, unsigned(ALLOCATE | ERROR, 1, [code(438), (NONCE, b"nonce")]), "ignored")
    t.hear(50 * MS, unsigned(ALLOCATE | ERROR, 1, [code(438), (REALM, b"realm")]), "ignored")
    t.hear(50 * MS, unsigned(ALLOCATE | ERROR, 1, [(REALM, b"realm"), (NONCE, b"nonce")]), "ignored")
    t.hear(50 * MS, success(ALLOCATE, 1, relayed(OTHER, 1), lifetime(1000)))
    t.is_created(OTHER)
    return "Half a challenge, three times: none counts, and the success behind them does", t


def family_unknown():
    t = Trace(setup(families="6"))
    t.refused((FAMILY, V6))
    unknown = error(ALLOCATE, 1, code(420), (UNKNOWN, b"\0\x17"))
    t.hear(50 * MS, unknown)
    t.fails(50 * MS, "6")
    return "The server knows no REQUESTED-ADDRESS-FAMILY", t


def family_not_supported():
    t = Trace(setup(families="4,6"))
    t.refused((ADDITIONAL_FAMILY, V6))
    t.hear(50 * MS, error(ALLOCATE, 1, code(440)))
    t.event("AllocationCreateFailed 4")
    t.shows()
    t.poll(50 * MS, 100 * MS)
    t.draw(100 * MS, signed_allocate(2, NAMED, (FAMILY, V6)))
    t.hear(100 * MS, success(ALLOCATE, 2, relayed(SIXTH, 2), lifetime(1000)))
    t.is_created(SIXTH)
    return "The server has no addresses of IPv4: the client asks for IPv6 alone", t


def both_families():
    t = Trace(setup(families="4,6"))
    t.refused((ADDITIONAL_FAMILY, V6))
    t.hear(50 * MS, success(ALLOCATE, 1, relayed(SIXTH, 1), relayed(OTHER, 1), lifetime(1000)))
    t.is_created(SIXTH, OTHER)
    return "An address of each family", t


def refresh_times_out():
    t = Trace(setup())
    now = t.renews()
    slots = [0, 500, 1500, 3500, 7500, 15500, 31500, 39500]
    for at, until in zip(slots, slots[1:]):
        if at:
            t.draw(now + at * MS, refresh(2, 1800, NAMED))
        t.poll(now + at * MS, now + until * MS)
    over = now + 39500 * MS
    t.poll(over, over)
    for at, until in zip(slots, slots[1:6]):
        t.draw(over + at * MS, refresh(3, 1800, NAMED))
        t.poll(over + at * MS, over + until * MS)
    t.draw(over + 15500 * MS, refresh(3, 1800, NAMED))
    t.poll(over + 15500 * MS, END)
    t.poll(END, None)
    t.shows()
    t.poll(END + 60 * SECOND, None)
    return "A REFRESH is not answered, nor is the next one: the allocation's time is over", t


def refresh_answered(name, text):
    """The REFRESH is answered by what renews nothing."""
    t = Trace(setup())
    now = t.renews()
    t.hear(now, text)
    t.poll(now, END)
    t.shows(OTHER)
    t.poll(now + 61 * SECOND, None)
    t.shows()
    return name, t


def refreshes_answered():
    yield refresh_answered("A REFRESH is granted without a lifetime: it renews nothing", success(REFRESH, 2))
    yield refresh_answered("A REFRESH is refused: it renews nothing", error(REFRESH, 2))
    for seconds in (0, 1, 70, 599):
        yield refresh_answered(
            f"A REFRESH is granted for {seconds} seconds: it renews nothing", success(REFRESH, 2, lifetime(seconds))
        )


def stale_refresh():
    t = Trace(setup())
    now = t.renews()
    t.hear(now, unsigned(REFRESH | ERROR, 2, STALE))
    t.poll(now, now + 50 * MS)
    now += 50 * MS
    t.draw(now, refresh(3, 1800, NAMED))
    t.hear(now, success(REFRESH, 3, lifetime(1000)))
    t.poll(now + 61 * SECOND, now + 940 * SECOND)
    t.shows(OTHER)
    return "The nonce of a REFRESH is stale: it is signed anew, and granted", t


def stale_refresh_lost():
    t = Trace(setup())
    now = t.renews()
    t.hear(now, unsigned(REFRESH | ERROR, 2, STALE))
    t.poll(now, now + 50 * MS)
    t.draw(now + 50 * MS, refresh(3, 1800, NAMED))
    t.poll(now + 61 * SECOND + 50 * MS, None)
    t.shows()
    return "The same, and the REFRESH that is signed anew is lost", t


def stale_deletion():
    t = Trace(setup())
    t.allocated()
    t.say("delete 50000000", "ok")
    t.poll(50 * MS, 100 * MS)
    t.draw(100 * MS, refresh(2, 0, NAMED))
    t.hear(100 * MS, unsigned(REFRESH | ERROR, 2, STALE))
    t.poll(100 * MS, 150 * MS)
    t.draw(150 * MS, refresh(3, 0, NAMED))
    t.hear(150 * MS, success(REFRESH, 3, lifetime(0)))
    t.poll(150 * MS, None)
    t.shows()
    return "The nonce of a deletion is stale: it is signed anew, and granted", t


def mismatched_deletion():
    t = Trace(setup())
    now = t.allocated()
    t.say(f"delete {now}", "ok")
    t.draw(now, refresh(2, 0, NAMED))
    t.hear(now, error(REFRESH, 2, code(437)))
    t.poll(now, None)
    t.shows()
    return "A deletion, answered by the error that there is no allocation", t


# ---- settings of both sides


def features(desk_algorithms, desk_anonymity):
    """The four characters of a nonce: a list of algorithms is shown but where SHA-1 is the only one."""
    has_list, hashes = desk_algorithms != ["sha1"], desk_anonymity != "disabled"
    return {(False, False): b"AAAA", (False, True): b"QAAA", (True, False): b"gAAA", (True, True): b"wAAA"}[
        has_list, hashes
    ]


def settings(algorithms, anonymity, desk_algorithms, desk_anonymity):
    """A client and a desk of these settings: granted by the strongest algorithm that they have in common."""
    t = Trace(
        setup(
            algorithms=",".join(algorithms),
            anonymity=anonymity,
            desk=f"{','.join(desk_algorithms)} {desk_anonymity}",
        )
    )
    bits = features(desk_algorithms, desk_anonymity)
    listed = (PASSWORD_ALGORITHMS, entries(*desk_algorithms))
    has_list, hashes = bits in (b"gAAA", b"wAAA"), bits in (b"QAAA", b"wAAA")
    drawn = t.draw(0, first())
    line = t.ask(0, f"@{drawn}", "refuse 400", challenge(0, bits, [listed] if has_list else []))
    t.hear(0, f"@{line}")
    common = [it for it in ALGORITHMS if it in algorithms and it in desk_algorithms]
    name = (
        f"The client has {' and '.join(algorithms)}, {anonymity}; "
        f"the desk has {' and '.join(desk_algorithms)}, {desk_anonymity}"
    )
    if not common or (anonymity == "required" and not hashes):
        t.fails(0)
        return name, t
    is_hashed = hashes and anonymity != "disabled"
    who = (USERHASH, hashlib.sha256(b"user:realm").digest()) if is_hashed else (USERNAME, b"user")
    told = [who, (REALM, b"realm"), (NONCE, NONCES[bits])]
    by, entry = ALGORITHMS[common[-1]]
    if has_list:
        told += [listed, (PASSWORD_ALGORITHM, entry)]
    t.is_granted(50 * MS, 1, told, by)
    return name, t


def each_setting():
    both = ["sha1", "sha256"]
    for algorithms in (["sha1"], ["sha256"], both):
        for desk_algorithms in (["sha1"], ["sha256"], both, both[::-1]):
            for anonymity in ("auto", "required", "disabled"):
                for desk_anonymity in ("auto", "disabled"):
                    yield settings(algorithms, anonymity, desk_algorithms, desk_anonymity)
    three, ends = [*both, "sha512"], ["sha512", "sha1"]
    for algorithms in (["sha512"], three, three[::-1], ends):
        for desk_algorithms in (["sha1"], both, three, ["sha512", "sha256", "sha1"], ends):
            yield settings(algorithms, "auto", desk_algorithms, "auto")


def good_traces():
    # they take their words from this file
    from traces_address_limits import address_traces
    from traces_attempt_indications import announced_traces, good_words
    from traces_attempt_limits import limited_traces
    from traces_attempt_timing import attempt_traces
    from traces_bound_connections import bound_traces
    from traces_causes import cause_traces
    from traces_channel_lifetimes import channel_traces
    from traces_each_method import method_traces
    from traces_payloads import payload_traces
    from traces_permissions import permission_traces
    from traces_several_permissions import several_traces
    from traces_short_lifetimes import short_traces
    from traces_connections import connection_traces
    from traces_connection_sockets import socket_traces
    from traces_hardened import hardened_traces
    from traces_other_addresses import stranger_traces
    from traces_tcp import stream_traces
    from traces_unanswered import unanswered_traces

    yield from (
        handshake(), forged_grant(), repeated_grant(), reflected_request(),
        address_behind_the_signature(), added_signature(), foreign_datagrams(), forged_challenge(),
        repeated_challenge(), ten_challenges(), what_a_desk_passes_by(), *offers(), no_hashed_names(),
        lost_replies(), lost_reply(), nobody_answers(), deleted(), renewed(), repeated_renewal(), error_above(),
        last_moment(), nothing_yet(), *first_answered(), request_for_a_response(), default_timeout(),
        *signed_answered(), signed_request(), expired(), stale_allocate(), half_stale(),
        family_unknown(), family_not_supported(), both_families(), refresh_times_out(),
        *refreshes_answered(), *short_traces(), stale_refresh(), stale_refresh_lost(), stale_deletion(),
        mismatched_deletion(), *each_setting(), *stranger_traces(), *address_traces(), *method_traces(),
        *permission_traces(), *channel_traces(), *payload_traces(), *stream_traces(), *connection_traces(),
        *socket_traces(), *bound_traces(), *attempt_traces(), *limited_traces(), *announced_traces(),
        *good_words(), *unanswered_traces(),
        *hardened_traces(honest_traces()), *cause_traces(), *several_traces(),
    )


def honest_traces():
    """Traces whose answers a hardened client gives as well."""
    yield from (
        handshake(), repeated_grant(), reflected_request(), address_behind_the_signature(), foreign_datagrams(),
        forged_challenge(), repeated_challenge(), ten_challenges(), *offers(), no_hashed_names(), lost_replies(),
        nobody_answers(), deleted(), renewed(), repeated_renewal(), error_above(), last_moment(),
        request_for_a_response(), signed_request(), stale_allocate(), half_stale(), family_not_supported(),
        both_families(), stale_refresh(), stale_deletion(), mismatched_deletion(),
    )


DESK = "desk realm sha1 auto\nuser user pass\n"
BOTH = setup()
MADE = BOTH[len(DESK) :]
TCP = MADE.replace("client udp", "client tcp")


def bad_events(lines):
    """Of each remark and the event line behind it: a trace of a desk and a client that has this line alone."""
    for line in lines.strip().split("\n"):
        remark, _, event = line.strip().partition(": ")
        yield remark, f"{BOTH}{event}\n", "", 5


def bad_traces():
    """A remark, lines, what is printed before the bad one, and its number."""
    from traces_attempt_indications import bad_words

    rto = "rto 600 1000 3 3000\n"
    yield "An event of the client, and no client", "desk realm sha1 auto\ndraw 0\n", "", 3
    yield "An event, and no desk", MADE + "draw 0\n", "", 3
    yield "Two clients", MADE + MADE, "", 3
    yield "How long is waited, behind the client", MADE + rto, "", 3
    yield "The same twice", rto + rto, "", 3
    yield "An allocation over TCP of a client over UDP", MADE.replace("udp 4", "tcp 4"), "", 2
    yield "A client over another transport", MADE.replace("udp 192", "sctp 192"), "", 2
    yield "A client over TCP, and an allocation over another transport", TCP.replace("udp 4", "sctp 4"), "", 2
    yield "A client over TCP, and no transport of its allocation", TCP.replace("udp 4", "4"), "", 2
    yield "A client over TCP without a seed", TCP[:-3] + "\n", "", 2
    yield "A client over TCP, and no more", "client tcp\n", "", 2
    yield "A client over TCP without its server", TCP.replace(f" {SERVER}", ""), "", 2
    yield "A client over TCP with a word more", TCP[:-1] + " 0\n", "", 2
    yield "A client over each transport", TCP + MADE, "", 3
    yield "One family twice", MADE.replace("udp 4", "udp 4,4"), "", 2
    for remark, words in (
        ("spelled otherwise", "Hardened"), ("with a letter less", "hardene"), ("twice", "hardened hardened"),
        ("and a word behind it", "hardened 0"), ("behind an empty one", " hardened"), ("that is a number", "1"),
    ):
        yield f"A client with the word that hardens it, {remark}", f"{MADE[:-1]} {words}\n", "", 2
    for remark, words in (
        ("alone", "attempts"), ("with a word that is no number", "attempts many"),
        ("with a negative number", "attempts -1"), ("with a number of 33 bits", "attempts 4294967296"),
        ("with two numbers", "attempts 1 1"), ("twice", "attempts 1 attempts 1"),
        ("before the word that hardens it", "attempts 1 hardened"), ("spelled otherwise", "Attempts 1"),
        ("alone behind the word that hardens it", "hardened attempts"),
        ("behind the word that hardens it, with two numbers", "hardened attempts 1 1"),
    ):
        yield f"A client with the word of its limit, {remark}", f"{MADE[:-1]} {words}\n", "", 2
    for remark, words in (
        ("spelled otherwise", "Short"), ("with a letter less", "shor"), ("twice", "short short"),
        ("and a word behind it", "short 0"), ("before the word that hardens it", "short hardened"),
        ("behind the word of its limit", "attempts 1 short"), ("between the words of its limit", "attempts short 1"),
        ("and the word of its limit alone", "short attempts"), ("and a limit that is no number", "short attempts many"),
        ("twice behind the word that hardens it", "hardened short short"),
        ("behind the word that hardens it, and the word of its limit alone", "hardened short attempts"),
        ("behind the word that hardens it, and two limits", "hardened short attempts 1 1"),
        ("behind the word that hardens it twice", "hardened hardened short"),
    ):
        yield f"A client that a REFRESH may shorten, with that word {remark}", f"{MADE[:-1]} {words}\n", "", 2
    for remark, words in bad_words():
        yield remark, f"{MADE[:-1]} {words}\n", "", 2
    yield "A client with the word that hardens it in the place of its seed", MADE[:-3] + " hardened\n", "", 2
    yield "A client with the word that hardens it before its seed", MADE[:-3] + " hardened 0\n", "", 2
    yield "A client over TCP with the word that hardens it twice", TCP[:-1] + " hardened hardened\n", "", 2
    yield "A desk with the word that hardens a client", "desk realm sha1 auto hardened\n", "", 2
    for remark, words in (
        ("alone", "clients"), ("with a word that is no number", "clients many"),
        ("with a negative number", "clients -1"), ("with a number of 33 bits", "clients 4294967296"),
        ("of none", "clients 0"), ("with two numbers", "clients 1 1"), ("twice", "clients 1 clients 1"),
        ("spelled otherwise", "Clients 1"), ("for connections", "attempts 1"),
    ):
        yield f"A desk with the word of its limit, {remark}", f"desk realm sha1 auto {words}\n", "", 2
    yield "A desk with the word of its limit in the place of its setting", "desk realm sha1 clients 1\n", "", 2
    yield "Behind an event", BOTH + "relayed\n" + rto, "relayed\n", 6
    yield from bad_events(f"""
        A moment too much: event 0
        A permission of no peer: permission 0 udp
        A permission, and no transport: permission 0 10.0.0.1
        A permission over another transport: permission 0 sctp 10.0.0.1
        A permission for a port: permission 0 udp 10.0.0.1:0
        A permission for an address in brackets: permission 0 udp [::1]
        A bad peer, at a moment out of range: permission {2**62 + 1} udp x
        Permissions of no peer: permit 0 udp
        Permissions, and no transport: permit 0 10.0.0.1,10.0.0.2
        Permissions over another transport: permit 0 sctp 10.0.0.1,10.0.0.2
        Permissions of an empty list: permit 0 udp ,
        Permissions of a list that ends in a comma: permit 0 udp 10.0.0.1,
        Permissions of a list that begins with a comma: permit 0 udp ,10.0.0.1
        Permissions of a port among others: permit 0 udp 10.0.0.1,10.0.0.2:0
        Permissions of two words: permit 0 udp 10.0.0.1 10.0.0.2
        Permissions of what no event answered: permit 0 udp @1
        A bad peer among others, at a moment out of range: permit {2**62 + 1} udp 10.0.0.1,x
        A permission is looked for at a moment: have 0 udp 10.0.0.1
        Permissions of an address without a port: permissions udp 203.0.113.5
        A channel to no peer: bind 0 udp
        A channel, and no transport: bind 0 10.0.0.3:9000
        A channel over another transport: bind 0 sctp 10.0.0.3:9000
        A channel to an address without a port: bind 0 udp 10.0.0.3
        A channel of a number that the trace tells: bind 0 udp 10.0.0.3:9000 16384
        A bad peer of a channel, at a moment out of range: bind {2**62 + 1} udp x
        Channels at a moment: channels 0
        Channels of one allocation: channels udp 203.0.113.5:50000
    """)
    yield "A send, and no client", "desk realm sha1 auto\nsend 0 udp 10.0.0.1:5 00\n", "", 3
    yield from bad_events("""
        A send of nothing: send 0 udp 10.0.0.1:5
        A send at no moment: send udp 10.0.0.1:5 00
        A send, and no transport: send 0 10.0.0.1:5 00
        A send over another transport: send 0 sctp 10.0.0.1:5 00
        A send to an address without a port: send 0 udp 10.0.0.1 00
        A send of half a byte: send 0 udp 10.0.0.1:5 0
        A send in upper case: send 0 udp 10.0.0.1:5 AA
        A send of two words: send 0 udp 10.0.0.1:5 00 00
        A send of what no event answered: send 0 udp 10.0.0.1:5 @1
    """)
    yield "A send of an answer that has no bytes", BOTH + "event\nsend 0 udp 10.0.0.1:5 @1\n", "none\n", 6
    yield "A bad peer of a send, at a moment out of range", BOTH + f"send {2**62 + 1} udp x 00\n", "", 5
    yield "A connection, and no client", "desk realm sha1 auto\nconnect 0 10.0.0.3:9000\n", "", 3
    yield from bad_events(f"""
        A connection to no peer: connect 0
        A connection at no moment: connect 10.0.0.3:9000
        A connection over a transport: connect 0 tcp 10.0.0.3:9000
        A connection to an address without a port: connect 0 10.0.0.3
        A connection of a number: connect 0 10.0.0.3:9000 7
        A bad peer of a connection, at a moment out of range: connect {2**62 + 1} x
    """)
    for line in (f"socket 0 7 10.0.0.3:9000 {CLIENT}", f"closed 0 {CLIENT} {SERVER}", "connections"):
        yield f"No client: {line.split()[0]}", f"desk realm sha1 auto\n{line}\n", "", 3
    yield from bad_events(f"""
        A socket at no moment: socket 7 10.0.0.3:9000 none
        A socket of no number: socket 0 10.0.0.3:9000 none
        A socket of a number that is too great: socket 0 {2**32} 10.0.0.3:9000 none
        A socket to a peer without a port: socket 0 7 10.0.0.3 none
        A socket that is neither an address nor none: socket 0 7 10.0.0.3:9000 no
        A socket that is none, in upper case: socket 0 7 10.0.0.3:9000 None
        A socket of one word less: socket 0 7 10.0.0.3:9000
        A socket of one word more: socket 0 7 10.0.0.3:9000 none none
        A socket that was closed at no moment: closed {CLIENT} {SERVER}
        A socket that was closed, of one address: closed 0 {CLIENT}
        A socket that was closed, of three addresses: closed 0 {CLIENT} {SERVER} {SERVER}
        A socket that was closed, of none: closed 0 none {SERVER}
        A bad socket at a moment out of range: socket {2**62 + 1} 7 10.0.0.3:9000 x
        Connections at a moment: connections 0
    """)
    yield "What waits is asked for, and no client", "desk realm sha1 auto\nrecv 0\n", "", 3
    yield "What waits is asked for at no moment", DESK + TCP + "recv\n", "", 5
    yield "What waits is asked for at two moments", DESK + TCP + "recv 0 0\n", "", 5
    yield "What waits is asked for at a moment that is no number", DESK + TCP + "recv now\n", "", 5
    yield "What waits is asked for at a moment with a sign", BOTH + "recv +0\n", "", 5
    named = f"recv 0\ntoclient 0 {SERVER} {CLIENT} @1\n"
    yield "What waits is named where there is none", DESK + TCP + named, "none\n", 6


def bad_looks():
    """Lines that look at a client, and that are bad."""
    for word in ("cause", "mapped", "alternate"):
        yield f"No client: {word}", f"{DESK}{word}\n", "", 4
        yield f"Neither a desk nor a client: {word}", f"{word}\n", "", 2
    yield from bad_events("""
        A cause at a moment: cause 0
        An address that the server saw, at a moment: mapped 0
        Another server at a moment: alternate 0
        A cause, spelled otherwise: Cause
        An address that the server saw, with a letter less: mappe
        Another server, with a letter more: alternates
        A cause of an event: cause event
    """)
    named = f"todesk 0 {CLIENT} @1 0 grant\n"
    yield "A look is no event: nothing has its number", f"{BOTH}cause\n{named}", "cause none\n", 6


def all_traces():
    """Each as its lines, and what is printed, with the status."""
    for name, t in good_traces():
        yield f"# {name}\n{t.lines}", t.answers + "status 0\n"
    for name, lines, front, at in (*bad_traces(), *bad_looks()):
        yield f"# {name}\n{lines}", f"{front}bad trace: line {at}\nstatus 1\n"


def examples():
    from traces_attempts import example as example_of_attempts
    from traces_bound_connections import example as example_of_connections
    from traces_channels import granted_channel_again
    from traces_hardened import examples_of_hardened
    from traces_payloads import example
    from traces_permissions import granted_reply_again
    from traces_tcp import example as example_over_tcp

    yield "handshake", handshake()
    yield "forged", forged_challenge()
    yield "lost", lost_replies()
    yield "permission", granted_reply_again()
    yield "channel", granted_channel_again()
    yield "payload", example()
    yield "tcp", example_over_tcp()
    yield "connection", example_of_connections()
    yield "attempt", example_of_attempts()
    yield from examples_of_hardened()


def with_shortest_decisions(lines):
    """The lines of an example. Where the desk has no use for a decision, the traces have `refuse 400`, and use that
    nowhere else; an example has `grant`, the shortest decision."""
    return lines.replace(" refuse 400\n", " grant\n")


def store_examples():
    for name, (remark, t) in examples():
        (TOP / f"examples/{name}.trace").write_text(f"# {remark}\n{with_shortest_decisions(t.lines)}")
        (TOP / f"examples/{name}.out").write_text(t.answers)


def store_traces():
    """Puts the traces in the place of those that stand there from the first of them on, or behind all."""
    given, printed = (TOP / f"crates/turn_replay/{it}" for it in ("stdin", "stdout"))
    before = given.read_bytes().split(b"%")[1:]
    mark = b"# " + handshake()[0].encode()
    names = [it.split(b"\n")[0] for it in before]
    if mark in names:
        del before[names.index(mark) :]
    left, front = len(before), []
    for line in printed.read_bytes().splitlines(keepends=True):
        if left:
            front.append(line)
            left -= line.startswith(b"status ")
    made = list(all_traces())
    given.write_bytes(b"".join(b"%" + it for it in before + [it.encode() for it, _ in made]))
    printed.write_bytes(b"".join(front + [it.encode() for _, it in made]))


if __name__ == "__main__":
    # what is imported leaves no folder of compiled files behind
    sys.dont_write_bytecode = True
    store_examples()
    store_traces()
