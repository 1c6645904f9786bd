"""The traces of channels that are renewed, lapse, are challenged, forged and deleted (`traces_channels.py`,
`docs/TRACE.md`)."""

from traces_base import (
    BINDING, CHANNEL_BIND, CREATE_PERMISSION, HASHED, MS, NAMED, OTHER, PASSWORD_ALGORITHM,
    PASSWORD_ALGORITHMS, REFRESH, RELAYED, SECOND, SHA1, SHA256, Trace, challenge, channel_bind,
    create_permission, error, first, hashed, lifetime, message, number, refresh, setup, stale,
    success, unsigned,
)
from traces_channels import (
    A, B, BOUND, C, CHANNEL_DUE, CHANNEL_FREE, CHANNEL_LAPSE, D, FOUR, LATER_RENEWAL, ONE, ONE_IP, SIX,
    THREE, THREE_IP, TWO, TWO_IP, UNBOUND, abroad, asked_traces, bound, created, ended, failed, host,
    lasting, of_both_families, renewing,
)
from traces_permissions import (
    DUE, FORBIDDEN, LAPSE, NAMED_ANEW, OTHER_NONCE, PEER_6, RELAYED_6, RENEWAL, answered_by, holding,
)


# ---- renewed, and lapsed


def under_no_permission():
    """A channel stands whose permission has lapsed."""
    t = lasting(ONE)
    t.poll(LAPSE, LAPSE)
    t.event(f"PermissionCreateFailed udp {ONE_IP}")
    return t


def channel_renewed():
    t = lasting(ONE)
    t.poll(100 * MS, DUE)
    renewing(t, DUE, 3, ONE_IP)
    second = DUE + 240 * SECOND
    t.poll(DUE, second)
    renewing(t, second, 4, ONE_IP)
    t.poll(second, CHANNEL_DUE)
    t.draw(CHANNEL_DUE - 1, None)
    drawn = t.draw(CHANNEL_DUE, channel_bind(5, A, ONE))
    t.draw(CHANNEL_DUE + 50 * MS, None)
    t.poll(CHANNEL_DUE + 50 * MS, CHANNEL_DUE + 500 * MS)
    now = CHANNEL_DUE + 50 * MS
    t.decides(now, drawn, "grant", success(CHANNEL_BIND, 5))
    t.event("none")
    t.channels((A, ONE))
    third = second + 240 * SECOND
    t.poll(CHANNEL_LAPSE, third)
    renewing(t, third, 6, ONE_IP)
    renewing(t, third + 240 * SECOND, 7, ONE_IP)
    again = now + 540 * SECOND
    t.poll(third + 240 * SECOND, again)
    t.channels((A, ONE))
    t.draw(again - 1, None)
    t.draw(again, channel_bind(8, A, ONE))
    t.event("none")
    return "A channel is renewed a minute before its end, twice, and its permission every 240 seconds", t


def renewal_without_a_permission():
    t = under_no_permission()
    t.poll(LAPSE, CHANNEL_DUE)
    t.channels((A, ONE))
    drawn = t.draw(CHANNEL_DUE, channel_bind(3, A, ONE))
    t.decides(CHANNEL_DUE, drawn, "grant", success(CHANNEL_BIND, 3))
    t.event("none")
    t.has(ONE_IP, "no")
    t.permits()
    t.channels((A, ONE))
    t.poll(CHANNEL_LAPSE, CHANNEL_DUE + 540 * SECOND)
    return "A channel's permission has lapsed: the channel stands on and is renewed, and no permission comes of it", t


def renewed_in_order():
    t = of_both_families(RELAYED, RELAYED_6)
    t.is_created(RELAYED, RELAYED_6)
    bound(t, 50 * MS, 2, A, ONE)
    bound(t, 100 * MS, 3, B, SIX)
    # late renewals of the permissions, so that these and the channels are to be renewed at one moment
    now = LAPSE - 10 * SECOND
    renewing(t, now, 4, ONE_IP)
    renewing(t, now + 50 * MS, 5, PEER_6)
    now += 250 * SECOND
    t.poll(now, now)
    told = (
        channel_bind(6, A, ONE), create_permission(7, ONE_IP), channel_bind(8, B, SIX), create_permission(9, PEER_6),
    )
    for i, text in enumerate(told):
        t.draw(now + 50 * MS * i, text)
        t.poll(now + 50 * MS * i, now + (50 * MS * (i + 1) if i < 3 else 500 * MS))
        t.draw(now + 50 * MS * i, None)
    return "Channels and permissions of both families are to be renewed: by allocation, the channel before", t


def renewed_behind_a_refresh():
    t = holding()
    bound(t, 50 * MS, 2, A, ONE)
    now = LAPSE - 10 * SECOND
    renewing(t, now, 3, ONE_IP)
    now = 545 * SECOND
    t.poll(now, now)
    told = (refresh(4, 1800, HASHED), channel_bind(5, A, ONE), create_permission(6, ONE_IP))
    for i, text in enumerate(told):
        t.draw(now + 50 * MS * i, text)
        t.poll(now + 50 * MS * i, now + (50 * MS * (i + 1) if i < 2 else 500 * MS))
    return "An allocation, its channel and its permission are to be renewed: they are, in that order", t


def channel_renewal_forbidden():
    t = under_no_permission()
    drawn = t.draw(CHANNEL_DUE, channel_bind(3, A, ONE))
    t.decides(CHANNEL_DUE, drawn, "refuse 403", error(CHANNEL_BIND, 3, FORBIDDEN))
    failed(t, ONE, permission=False)
    t.event("none")
    t.channels()
    t.draw(CHANNEL_DUE + 50 * MS, None)
    t.poll(CHANNEL_DUE + 50 * MS, LATER_RENEWAL)
    t.bind(CHANNEL_DUE + 50 * MS, ONE, f"refused ExpiredChannelExists {CHANNEL_FREE}")
    t.permitted(CHANNEL_DUE + 50 * MS, 4, ONE_IP)
    bound(t, CHANNEL_DUE + 100 * MS, 5, B, TWO)
    t.channels((B, TWO))
    return "A channel isn't renewed, but refused: it is gone at once, and protected as if it had stood to its end", t


def permission_not_renewed_under_a_channel():
    t = lasting(ONE)
    drawn = t.draw(DUE, create_permission(3, ONE_IP))
    t.decides(DUE, drawn, "refuse 403", error(CREATE_PERMISSION, 3, FORBIDDEN))
    t.is_forbidden(ONE_IP)
    t.channels((A, ONE))
    t.poll(DUE, CHANNEL_DUE)
    t.bind(DUE, ONE, "refused AlreadyExists")
    t.permitted(DUE, 4, ONE_IP)
    t.channels((A, ONE))
    return "The permission of a channel isn't renewed, but refused: the channel stands", t


def channel_renewal_lost():
    t = under_no_permission()
    t.draw(CHANNEL_DUE, channel_bind(3, A, ONE))
    t.poll(CHANNEL_DUE, CHANNEL_DUE + 500 * MS)
    slots = [500, 1500, 3500, 7500, 15500, 31500, 39500]
    for at, until in zip(slots, slots[1:]):
        t.draw(CHANNEL_DUE + at * MS, channel_bind(3, A, ONE))
        t.poll(CHANNEL_DUE + at * MS, CHANNEL_DUE + until * MS)
    over = CHANNEL_DUE + 39500 * MS
    t.poll(over, over)
    t.event("none")
    t.channels((A, ONE))
    t.poll(over, over)
    t.hear(over, success(CHANNEL_BIND, 3), "ignored")
    for at, until in ((0, 500), (500, 1500), (1500, 3500), (3500, 7500), (7500, 15500)):
        t.draw(over + at * MS, channel_bind(4, A, ONE))
        t.poll(over + at * MS, over + until * MS)
    t.draw(over + 15500 * MS, channel_bind(4, A, ONE))
    t.poll(over + 15500 * MS, CHANNEL_LAPSE)
    t.poll(CHANNEL_LAPSE - 1, CHANNEL_LAPSE)
    t.channels((A, ONE))
    t.poll(CHANNEL_LAPSE, CHANNEL_LAPSE)
    t.event(f"ChannelCreateFailed udp {ONE}")
    t.event("none")
    t.channels()
    t.poll(CHANNEL_LAPSE, over + 31500 * MS)
    t.hear(CHANNEL_LAPSE, success(CHANNEL_BIND, 4), "ignored")
    t.channels()
    t.bind(CHANNEL_LAPSE, ONE, f"refused ExpiredChannelExists {CHANNEL_FREE}")
    t.poll(CHANNEL_LAPSE, LATER_RENEWAL)
    return "Nobody renews a channel, nor at a second request: it lapses, and a grant comes too late", t


def renewed_at_the_last_moment():
    t = lasting(ONE)
    t.draw(CHANNEL_LAPSE, channel_bind(3, A, ONE))
    t.hear(CHANNEL_LAPSE, success(CHANNEL_BIND, 3))
    t.event("none")
    t.channels((A, ONE))
    t.poll(CHANNEL_LAPSE, CHANNEL_LAPSE)
    t.event(f"PermissionCreateFailed udp {ONE_IP}")
    t.poll(CHANNEL_LAPSE, CHANNEL_LAPSE + 540 * SECOND)
    t.channels((A, ONE))
    return "A channel is renewed at the moment at which it ends, before the client is polled: it stands on", t


def channel_lapsed():
    t = lasting(ONE)
    now = CHANNEL_LAPSE + 1
    t.channels((A, ONE))
    t.bind(now, ONE, "refused AlreadyExists")
    t.draw(now, None)
    t.poll(now, now)
    t.channels()
    t.permits()
    t.event(f"PermissionCreateFailed udp {ONE_IP}")
    t.event(f"ChannelCreateFailed udp {ONE}")
    t.event("none")
    t.bind(now, ONE, f"refused ExpiredChannelExists {CHANNEL_FREE}")
    t.permitted(now, 3, ONE_IP)
    t.bind(CHANNEL_FREE, ONE, f"refused ExpiredChannelExists {CHANNEL_FREE}")
    t.bind(CHANNEL_FREE + 1, ONE)
    t.draw(CHANNEL_FREE + 1, channel_bind(4, A, ONE))
    t.hear(CHANNEL_FREE + 1, success(CHANNEL_BIND, 4))
    created(t, ONE, permission=False)
    t.event("none")
    t.channels((A, ONE))
    return "A channel has lapsed: its peer is barred for 300 seconds, to the last moment of them, and free then", t


def protected_window():
    """All that is to be renewed is renewed, but for the channel, until its protection is over."""
    t = lasting(ONE)
    told, k = DUE, 3
    while told < CHANNEL_LAPSE:
        renewing(t, told, k, ONE_IP)
        t.event("none")
        told, k = told + 240 * SECOND, k + 1
        t.poll(told - 240 * SECOND, min(told, CHANNEL_DUE))
    t.draw(CHANNEL_DUE, channel_bind(k, A, ONE))
    # nobody answers: at its end the request goes out again, and once more until the channel lapses
    over = CHANNEL_DUE + 39500 * MS
    t.poll(over, over)
    t.poll(over, over)
    t.draw(over, channel_bind(k + 1, A, ONE))
    t.poll(CHANNEL_LAPSE, CHANNEL_LAPSE)
    t.event(f"ChannelCreateFailed udp {ONE}")
    t.event("none")
    t.bind(CHANNEL_LAPSE + SECOND, ONE, f"refused ExpiredChannelExists {CHANNEL_FREE}")
    t.permits(ONE_IP)
    ended_at = over + 39500 * MS
    t.poll(ended_at, ended_at)
    t.event("none")
    t.poll(ended_at, told)
    renewing(t, told, k + 2, ONE_IP)
    t.poll(CHANNEL_FREE + 1, told + 240 * SECOND)
    t.event("none")
    drawn = t.binds(CHANNEL_FREE + 1, k + 3, A, ONE)
    t.decides(CHANNEL_FREE + 50 * MS + 1, drawn, "grant", success(CHANNEL_BIND, k + 3))
    created(t, ONE, permission=False)
    t.channels((A, ONE))
    t.permits(ONE_IP)
    return "A channel lapses under a permission that is renewed: its peer is barred, and bound again behind that", t


def number_protected():
    t = lasting(ONE)
    t.poll(CHANNEL_LAPSE, CHANNEL_LAPSE)
    t.event(f"PermissionCreateFailed udp {ONE_IP}")
    t.event(f"ChannelCreateFailed udp {ONE}")
    bound(t, CHANNEL_FREE - 100 * MS, 3, B, TWO)
    t.bind(CHANNEL_FREE - 1, THREE)
    t.bind(CHANNEL_FREE, ONE, f"refused ExpiredChannelExists {CHANNEL_FREE}")
    t.bind(CHANNEL_FREE, FOUR)
    t.draw(CHANNEL_FREE, channel_bind(4, C, THREE))
    t.draw(CHANNEL_FREE + 50 * MS, channel_bind(5, A, FOUR))
    t.hear(CHANNEL_FREE + 50 * MS, success(CHANNEL_BIND, 5))
    created(t, FOUR)
    t.channels((B, TWO), (A, FOUR))
    return "A channel has lapsed: its number is no other's for 300 seconds, and free at the end of them", t


def three_lapsed():
    t = lasting(ONE, TWO, THREE)
    now = CHANNEL_LAPSE + 100 * MS
    t.poll(LAPSE + 100 * MS, LAPSE + 100 * MS)
    for it in (ONE_IP, TWO_IP, THREE_IP):
        t.event(f"PermissionCreateFailed udp {it}")
    left = [(A, ONE), (B, TWO), (C, THREE)]
    while left:
        t.channels(*left)
        t.poll(now, now)
        t.event(f"ChannelCreateFailed udp {left.pop()[1]}")
        t.event("none")
    t.channels()
    t.poll(now, LATER_RENEWAL)
    t.bind(now, THREE, f"refused ExpiredChannelExists {CHANNEL_FREE + 100 * MS}")
    t.bind(now, TWO, f"refused ExpiredChannelExists {CHANNEL_FREE + 50 * MS}")
    t.bind(now, ONE, f"refused ExpiredChannelExists {CHANNEL_FREE}")
    t.bind(now, FOUR)
    t.draw(now, channel_bind(5, D, FOUR))
    return "Three channels have lapsed: the client tells one of them at each poll, the last one first", t


def ended_and_lapsed_at_once():
    t = lasting(ONE)
    asked = CHANNEL_LAPSE - 39500 * MS
    t.bind(asked, TWO)
    t.draw(asked, channel_bind(3, B, TWO))
    t.poll(CHANNEL_LAPSE, CHANNEL_LAPSE)
    ended(t, TWO)
    t.event(f"PermissionCreateFailed udp {ONE_IP}")
    t.event(f"ChannelCreateFailed udp {ONE}")
    t.event("none")
    t.channels()
    t.poll(CHANNEL_LAPSE, LATER_RENEWAL)
    return "A request ends when a permission and a channel lapse: they are told in that order", t


# ---- challenged


def stale_channel():
    t = abroad()
    t.binds(50 * MS, 2, A, ONE, NAMED)
    t.hear(100 * MS, unsigned(UNBOUND, 2, OTHER_NONCE))
    t.poll(100 * MS, 150 * MS)
    t.draw(100 * MS, None)
    t.hear(100 * MS, unsigned(UNBOUND, 2, OTHER_NONCE), "ignored")
    t.draw(150 * MS, channel_bind(3, A, ONE, NAMED_ANEW))
    t.draw(200 * MS, None)
    t.poll(200 * MS, 600 * MS)
    t.hear(200 * MS, success(CHANNEL_BIND, 2), "ignored")
    t.channels()
    t.has(ONE_IP, "no")
    t.hear(200 * MS, success(CHANNEL_BIND, 3))
    created(t, ONE)
    t.event("none")
    t.channels((A, ONE))
    t.permits(ONE_IP, at=OTHER)
    t.poll(200 * MS, 240 * SECOND + 200 * MS)
    return "The nonce of a CHANNEL_BIND is stale: it is signed anew, and that one counts for both", t


def stale_channel_refused():
    t = abroad()
    t.binds(50 * MS, 2, A, ONE, NAMED)
    t.hear(100 * MS, unsigned(UNBOUND, 2, OTHER_NONCE))
    t.draw(150 * MS, channel_bind(3, A, ONE, NAMED_ANEW))
    t.hear(150 * MS, error(CHANNEL_BIND, 3, FORBIDDEN))
    failed(t, ONE)
    t.event("none")
    t.channels()
    t.permits(at=OTHER)
    return "The same, and the one that is signed anew is refused: there is neither a channel nor a permission", t


def stale_channel_lost():
    t = abroad()
    t.binds(50 * MS, 2, A, ONE, NAMED)
    t.hear(100 * MS, unsigned(UNBOUND, 2, OTHER_NONCE))
    t.draw(150 * MS, channel_bind(3, A, ONE, NAMED_ANEW))
    over = 39600 * MS
    t.poll(over - 1, over - 1)
    t.poll(over, over)
    ended(t, ONE)
    t.event("none")
    t.channels()
    return "The same, and the one that is signed anew is lost", t


def stale_channel_beside_a_permission():
    t = abroad()
    t.permission(50 * MS, ONE_IP)
    t.bind(50 * MS, ONE)
    t.draw(100 * MS, create_permission(2, ONE_IP, NAMED))
    t.draw(150 * MS, channel_bind(3, A, ONE, NAMED))
    t.hear(150 * MS, unsigned(UNBOUND, 3, OTHER_NONCE))
    t.draw(200 * MS, channel_bind(4, A, ONE, NAMED_ANEW))
    t.hear(200 * MS, error(CHANNEL_BIND, 4, FORBIDDEN))
    failed(t, ONE, permission=False)
    t.event("none")
    t.hear(200 * MS, success(CREATE_PERMISSION, 2))
    t.is_permitted(ONE_IP, at=OTHER)
    t.channels()
    return "A permission was asked for by itself: that a channel is challenged and refused is nothing to it", t


def stale_channel_renewal():
    t = abroad()
    t.binds(50 * MS, 2, A, ONE, NAMED)
    t.hear(100 * MS, success(CHANNEL_BIND, 2))
    created(t, ONE)
    t.poll(LAPSE, LAPSE)
    t.event(f"PermissionCreateFailed udp {ONE_IP}")
    t.draw(CHANNEL_DUE, channel_bind(3, A, ONE, NAMED))
    t.hear(CHANNEL_DUE, unsigned(UNBOUND, 3, OTHER_NONCE))
    t.event("none")
    now = CHANNEL_DUE + 50 * MS
    t.poll(CHANNEL_DUE, now)
    t.draw(now, channel_bind(4, A, ONE, NAMED_ANEW))
    t.poll(now, CHANNEL_DUE + 500 * MS)
    t.hear(now, success(CHANNEL_BIND, 3), "ignored")
    t.hear(now, success(CHANNEL_BIND, 4))
    t.event("none")
    t.poll(CHANNEL_LAPSE, now + 540 * SECOND)
    t.channels((A, ONE))
    t.permits(at=OTHER)
    return "The nonce is stale where a channel is to be renewed: it is signed anew, and granted", t


def stale_renewals_of_both():
    """As in the exchange that one would see: first the permission is renewed, then the channel."""
    t = abroad()
    t.binds(50 * MS, 2, A, ONE, NAMED)
    t.hear(100 * MS, success(CHANNEL_BIND, 2))
    created(t, ONE)
    t.poll(100 * MS, DUE)
    for k, now in ((3, DUE), (4, DUE + 240 * SECOND)):
        t.draw(now, create_permission(k, ONE_IP, NAMED))
        t.hear(now, success(CREATE_PERMISSION, k))
    t.poll(DUE + 240 * SECOND, CHANNEL_DUE)
    t.draw(CHANNEL_DUE, channel_bind(5, A, ONE, NAMED))
    t.hear(CHANNEL_DUE, unsigned(UNBOUND, 5, OTHER_NONCE))
    now = CHANNEL_DUE + 50 * MS
    t.poll(CHANNEL_DUE, now)
    t.draw(now, channel_bind(6, A, ONE, NAMED_ANEW))
    t.hear(now, error(CHANNEL_BIND, 6, FORBIDDEN))
    failed(t, ONE, permission=False)
    t.event("none")
    t.channels()
    t.permits(ONE_IP, at=OTHER)
    t.poll(now, DUE + 480 * SECOND)
    return ("The same under a permission that is renewed: "
            "the one that is signed anew is refused, the permission stands"), t


def ten_bound():
    t = holding()
    peers = [f"10.0.0.{i}:9000" for i in range(1, 11)]
    for i, peer in enumerate(peers):
        asked, k = (50 + 100 * i) * MS, 2 + 2 * i
        t.binds(asked, k, A + i, peer)
        t.hear(asked + 50 * MS, stale(k, CHANNEL_BIND))
        now = asked + 100 * MS
        drawn = t.draw(now, channel_bind(k + 1, A + i, peer))
        t.decides(now, drawn, "grant", success(CHANNEL_BIND, k + 1))
        created(t, peer)
    t.channels(*((A + i, peer) for i, peer in enumerate(peers)))
    t.permits(*(host(peer) for peer in peers))
    return "Ten channels, each of them granted behind a challenge: a grant ends the count of challenges", t


def ten_stale_channels():
    t = holding()
    bound(t, 50 * MS, 2, A, ONE)
    t.binds(100 * MS, 3, B, TWO)
    for k in range(3, 12):
        t.hear(50 * MS * k, stale(k, CHANNEL_BIND))
        t.draw(50 * MS * (k + 1), channel_bind(k + 1, B, TWO))
    t.hear(600 * MS, stale(12, CHANNEL_BIND))
    t.event("AllocationCreateFailed 4")
    t.event("none")
    t.poll(600 * MS, None)
    t.hear(600 * MS, success(CHANNEL_BIND, 12), "ignored")
    t.channels((A, ONE))
    t.bind(600 * MS, THREE, "refused NoAllocation")
    t.draw(1050 * MS - 1, None)
    t.draw(1050 * MS, channel_bind(12, B, TWO))
    return "Ten challenges of one channel: nine are answered, and the tenth ends the client", t


# ---- forged, ended and deleted


def forged_channel():
    t = holding()
    drawn = t.binds(50 * MS, 2, A, ONE)
    now = 100 * MS
    t.hear(now, unsigned(BOUND, 2, []), "ignored")
    t.hear(now, message(BOUND, number(2), [], SHA1, b"evil"), "ignored")
    t.hear(now, message(BOUND, number(2), [], SHA256), "ignored")
    t.hear(now, success(CHANNEL_BIND, 9), "ignored")
    t.hear(now, unsigned(UNBOUND, 2, [FORBIDDEN]), "ignored")
    t.hear(now, f"@{drawn}", "ignored")
    t.event("none")
    t.channels()
    t.permits()
    t.poll(now, 550 * MS)
    t.decides(now, drawn, "grant", success(CHANNEL_BIND, 2))
    created(t, ONE)
    t.channels((A, ONE))
    return "No signature, another key, another number, and the request itself: none counts, the true grant does", t


def forged_channel_renewal():
    t = under_no_permission()
    drawn = t.draw(CHANNEL_DUE, channel_bind(3, A, ONE))
    t.hear(CHANNEL_DUE, unsigned(BOUND, 3, []), "ignored")
    t.hear(CHANNEL_DUE, message(BOUND, number(3), [], SHA1, b"evil"), "ignored")
    t.hear(CHANNEL_DUE, unsigned(UNBOUND, 3, [FORBIDDEN]), "ignored")
    t.event("none")
    t.channels((A, ONE))
    t.poll(CHANNEL_DUE, CHANNEL_DUE + 500 * MS)
    now = CHANNEL_DUE + 50 * MS
    t.draw(now, None)
    t.decides(now, drawn, "grant", success(CHANNEL_BIND, 3))
    t.event("none")
    t.poll(CHANNEL_LAPSE, now + 540 * SECOND)
    return "The same where a channel is to be renewed: it neither ends nor stands longer", t


def channel_of_another_method():
    t = holding()
    drawn = t.binds(50 * MS, 2, A, ONE)
    t.hear(100 * MS, success(BINDING, 2), "ignored")
    line = t.ask(100 * MS, f"@{drawn}", "grant", success(CHANNEL_BIND, 2))
    t.hear(100 * MS, f"@{line}", "ignored")
    t.event("none")
    t.channels()
    t.permission(100 * MS, ONE_IP, "refused AlreadyExists")
    t.poll(100 * MS, RENEWAL)
    bound(t, 100 * MS, 3, B, TWO)
    t.channels((B, TWO))
    return "A CHANNEL_BIND is answered by a signed success of BINDING: its request ends, and stays pending", t


def permission_answered_as_a_channel():
    t = answered_by(CHANNEL_BIND)
    t.channels()
    bound(t, 100 * MS, 3, A, ONE)
    return "A CREATE_PERMISSION is answered by a signed success of CHANNEL_BIND: there is neither", t


def above_an_error():
    t = holding()
    bound(t, 50 * MS, 2, A, ONE)
    drawn = t.binds(100 * MS, 3, B, TWO)
    t.say("error", "ok")
    t.event("AllocationCreateFailed 4")
    t.poll(150 * MS, None)
    line = t.ask(150 * MS, f"@{drawn}", "grant", success(CHANNEL_BIND, 3))
    t.hear(150 * MS, f"@{line}", "ignored")
    t.event("none")
    t.bind(150 * MS, ONE, "refused AlreadyExists")
    t.bind(150 * MS, THREE, "refused NoAllocation")
    t.channels((A, ONE))
    t.permits(ONE_IP)
    return "A layer above met an error: the channel that is held is shown on, and none comes to it", t


def deleted_with_channels():
    t = holding()
    bound(t, 50 * MS, 2, A, ONE)
    now = 150 * MS
    drawn = t.binds(100 * MS, 3, B, TWO)
    line = t.ask(now, f"@{drawn}", "grant", success(CHANNEL_BIND, 3))
    t.say(f"delete {now}", "ok")
    t.channels()
    t.permits()
    t.has(ONE_IP, "no")
    t.shows()
    t.event("none")
    t.bind(now, ONE, "refused NoAllocation")
    t.hear(now, f"@{line}")
    created(t, TWO)
    t.event("none")
    t.channels()
    t.has(TWO_IP, "no")
    t.poll(now, now + 50 * MS)
    now += 50 * MS
    drawn = t.draw(now, refresh(4, 0, HASHED))
    t.decides(now, drawn, "refresh 0", success(REFRESH, 4, lifetime(0)))
    t.poll(now, None)
    t.event("none")
    t.channels()
    t.bind(now, ONE, "refused NoAllocation")
    return "A deletion, where a channel stands and another is awaited: it is told of, and neither is held", t


# ---- under other settings


def channel_by_the_stronger_algorithm(name, algorithms, value, by):
    t = Trace(setup(algorithms=algorithms, desk="sha1,sha256 auto"))
    drawn = t.draw(0, first())
    offered = (PASSWORD_ALGORITHMS, b"\0\1\0\0\0\2\0\0")
    t.decides(0, drawn, "refuse 400", challenge(0, b"wAAA", [offered]))
    told = [*hashed(b"wAAA"), offered, (PASSWORD_ALGORITHM, value)]
    t.is_granted(50 * MS, 1, told, by)
    t.bind(50 * MS, ONE)
    t.bind(50 * MS, TWO)
    one = t.draw(100 * MS, channel_bind(2, A, ONE, told, by))
    other = t.draw(150 * MS, channel_bind(3, B, TWO, told, by))
    wrong = SHA1 if by == SHA256 else SHA256
    t.hear(150 * MS, message(BOUND, number(2), [], wrong), "ignored")
    t.decides(150 * MS, one, "grant", message(BOUND, number(2), [], by))
    created(t, ONE)
    t.decides(150 * MS, other, "refuse 403", message(UNBOUND, number(3), [FORBIDDEN], by))
    failed(t, TWO)
    t.channels((A, ONE))
    return name, t


def by_each_algorithm():
    yield channel_by_the_stronger_algorithm(
        "Both sides know SHA-256: channels are asked for, granted and refused by it", "sha1,sha256", b"\0\2\0\0", SHA256
    )
    yield channel_by_the_stronger_algorithm(
        "The client knows SHA-1 alone: channels are asked for, granted and refused by that", "sha1", b"\0\1\0\0", SHA1
    )


def channel_traces():
    yield from (
        *asked_traces(), channel_renewed(), renewal_without_a_permission(), renewed_in_order(),
        renewed_behind_a_refresh(), channel_renewal_forbidden(), permission_not_renewed_under_a_channel(),
        channel_renewal_lost(), renewed_at_the_last_moment(), channel_lapsed(), protected_window(),
        number_protected(), three_lapsed(), ended_and_lapsed_at_once(), stale_channel(),
        stale_channel_refused(), stale_channel_lost(), stale_channel_beside_a_permission(),
        stale_channel_renewal(), stale_renewals_of_both(), ten_bound(), ten_stale_channels(), forged_channel(),
        forged_channel_renewal(), channel_of_another_method(), permission_answered_as_a_channel(),
        above_an_error(), deleted_with_channels(), *by_each_algorithm(),
    )
