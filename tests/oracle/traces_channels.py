"""The traces of channels, which `traces.py` puts behind those of permissions (`docs/TRACE.md`).

Each channel stands for 600 seconds from its grant, and is to be renewed from a minute before its end. Its
number and its peer are kept from others for 300 seconds more. The permission that comes with a channel
stands for 300 seconds, and a renewal of the channel doesn't renew it.
"""

from traces_base import (
    ADDITIONAL_FAMILY, ALLOCATE, CHANNEL_BIND, CREATE_PERMISSION, ERROR, HASHED, MS, OTHER, RELAYED, SECOND,
    SUCCESS, Trace, V6, challenge, channel_bind, create_permission, error, first, grant, lifetime,
    relayed, setup, signed_allocate, success,
)
from traces_permissions import DUE, FORBIDDEN, LAPSE, OVER, PEER_6, RELAYED_6, RENEWAL, holding

# peers, and the numbers that channels have, the least one first
ONE, TWO, THREE, FOUR = (f"10.0.0.{i}:9000" for i in (3, 4, 5, 6))
ONE_IP, TWO_IP, THREE_IP, FOUR_IP = (it.split(":")[0] for it in (ONE, TWO, THREE, FOUR))
ONE_TOO, SIX = "10.0.0.3:9001", f"[{PEER_6}]:9000"
A, B, C, D = range(0x4000, 0x4004)
LAST = 0x7FFF
BOUND, UNBOUND = CHANNEL_BIND | SUCCESS, CHANNEL_BIND | ERROR

# when a channel that was granted at 100 ms is to be renewed, when it ends, and when its protection does
CHANNEL_DUE, CHANNEL_LAPSE, CHANNEL_FREE = (it * SECOND + 100 * MS for it in (540, 600, 900))
# when an allocation is to be renewed that was granted at 50 ms for an hour
LATER_RENEWAL = 3540 * SECOND + 50 * MS


def host(peer):
    return peer.rsplit(":", 1)[0].strip("[]")


def created(t, peer, permission=True):
    """The client tells of a channel, and of a permission that came with it."""
    if permission:
        t.event(f"PermissionCreated udp {host(peer)}")
    t.event(f"ChannelCreated udp {peer}")


def failed(t, peer, permission=True):
    """The client tells that a channel was refused, and a permission with it."""
    t.event(f"ChannelCreateFailed udp {peer}")
    if permission:
        t.event(f"PermissionCreateFailed udp {host(peer)}")


def ended(t, peer, permission=True):
    """The client tells that no response to a CHANNEL_BIND came."""
    if permission:
        t.event(f"PermissionCreateFailed udp {host(peer)}")
    t.event(f"ChannelCreateFailed udp {peer}")


def bound(t, now, k, channel, peer, permission=True):
    """A channel is asked for, granted and told: the number of the reply's line."""
    drawn = t.binds(now, k, channel, peer)
    line = t.decides(now + 50 * MS, drawn, "grant", success(CHANNEL_BIND, k))
    created(t, peer, permission)
    return line


def lasting(*peers):
    """A client that is granted an hour, with channels to these peers: asked for at 50 ms, 100 ms and so on."""
    t = Trace(setup())
    t.held(3600)
    for i, peer in enumerate(peers):
        bound(t, 50 * MS * (i + 1), i + 2, A + i, peer)
    return t


def renewing(t, now, k, ip):
    """A permission is renewed."""
    drawn = t.draw(now, create_permission(k, ip))
    t.decides(now, drawn, "grant", success(CREATE_PERMISSION, k))


def of_both_families(*addresses):
    """A client that asked for both families, and is granted these addresses for an hour."""
    t = Trace(setup(families="4,6"))
    drawn = t.draw(0, first((ADDITIONAL_FAMILY, V6)))
    t.decides(0, drawn, "refuse 400", challenge(0))
    drawn = t.draw(50 * MS, signed_allocate(1, HASHED, (ADDITIONAL_FAMILY, V6)))
    reply = grant(1, addresses=addresses, seconds=3600)
    t.decides(50 * MS, drawn, f"allocate {','.join(addresses)} 3600", reply)
    return t


def abroad():
    """A client whose server is no desk of ours, and grants it an hour."""
    t = Trace(setup())
    t.refused()
    t.hear(50 * MS, success(ALLOCATE, 1, relayed(OTHER, 1), lifetime(3600)))
    t.is_created(OTHER)
    return t


# ---- asked for, granted and refused


def channel_granted():
    t = holding()
    now = 100 * MS
    t.bind(50 * MS, ONE)
    t.channels()
    t.has(ONE_IP, "no")
    t.poll(50 * MS, now)
    t.draw(now - 1, None)
    drawn = t.draw(now, channel_bind(2, A, ONE))
    t.draw(now, None)
    t.poll(now, 550 * MS)
    line = t.ask(now, f"@{drawn}", "grant", success(CHANNEL_BIND, 2))
    t.channels()
    t.permits()
    t.hear(now, f"@{line}")
    t.poll(now, now)
    created(t, ONE)
    t.event("none")
    t.channels((A, ONE))
    t.has(ONE_IP)
    t.permits(ONE_IP)
    t.bind(now, ONE, "refused AlreadyExists")
    t.permission(now, ONE_IP, "refused AlreadyExists")
    t.poll(now, DUE)
    return "A channel is asked for and granted: it is held, and a permission for its peer with it", t


def granted_channel_again():
    t = holding()
    line = bound(t, 50 * MS, 2, A, ONE)
    t.channels((A, ONE))
    drawn = t.binds(100 * MS, 3, B, TWO)
    t.hear(150 * MS, f"@{line}", "ignored")
    t.event("none")
    t.channels((A, ONE))
    t.has(TWO_IP, "no")
    t.decides(150 * MS, drawn, "grant", success(CHANNEL_BIND, 3))
    created(t, TWO)
    t.channels((A, ONE), (B, TWO))
    t.permits(ONE_IP, TWO_IP)
    return "The grant of one channel comes again behind another that was asked for: it doesn't count", t


def channels_answered_in_reverse():
    t = holding()
    t.bind(50 * MS, ONE)
    t.bind(50 * MS, TWO)
    one = t.draw(100 * MS, channel_bind(2, A, ONE))
    t.poll(100 * MS, 150 * MS)
    other = t.draw(150 * MS, channel_bind(3, B, TWO))
    granted = t.ask(100 * MS, f"@{one}", "grant", success(CHANNEL_BIND, 2))
    refused = t.ask(150 * MS, f"@{other}", "refuse 403", error(CHANNEL_BIND, 3, FORBIDDEN))
    t.hear(150 * MS, f"@{refused}")
    t.hear(150 * MS, f"@{granted}")
    failed(t, TWO)
    created(t, ONE)
    t.event("none")
    t.channels((A, ONE))
    t.permits(ONE_IP)
    return "Two channels, of which one is granted; the refusal comes first: each reply counts for its own", t


def channels_refused():
    t = Trace(setup())
    t.bind(0, ONE, "refused NoAllocation")
    t.channels()
    line = t.granted()
    t.bind(50 * MS, ONE, "refused NoAllocation")
    t.hear(50 * MS, f"@{line}")
    t.is_created(RELAYED)
    t.bind(50 * MS, ONE, "refused NoAllocation", "tcp")
    t.bind(50 * MS, SIX, "refused NoAllocation")
    t.bind(2**62 + 1, ONE, "out of range")
    bound(t, 50 * MS, 2, A, ONE)
    t.bind(100 * MS, ONE, "refused AlreadyExists")
    t.draw(150 * MS, None)
    bound(t, 150 * MS, 3, B, TWO)
    t.channels((A, ONE), (B, TWO))
    return "A channel can't be had without an allocation of its kind, nor where one to its peer stands", t


def no_allocation_of_the_family():
    t = of_both_families(RELAYED)
    t.event(f"AllocationCreated udp {RELAYED}")
    t.event("AllocationCreateFailed 6")
    t.bind(50 * MS, SIX, "refused NoAllocation")
    bound(t, 50 * MS, 2, A, ONE)
    t.channels((A, ONE))
    return "The server has no addresses of IPv6: no channel to such a peer can be had", t


def no_permission_of_the_family():
    t = of_both_families(RELAYED)
    t.event(f"AllocationCreated udp {RELAYED}")
    t.event("AllocationCreateFailed 6")
    t.permission(50 * MS, PEER_6, "refused NoAllocation")
    t.permitted(50 * MS, 2, ONE_IP)
    t.has(PEER_6, "no")
    return "The server has no addresses of IPv6: no permission for such a peer can be had", t


def refused_at_the_end_of_its_allocation():
    t = holding()
    bound(t, 400 * SECOND, 2, A, ONE)
    t.bind(OVER - 1, ONE, "refused AlreadyExists")
    t.channels((A, ONE))
    t.bind(OVER, TWO, "refused NoAllocation")
    t.channels()
    t.permits()
    t.shows()
    t.draw(OVER, None)
    t.poll(OVER, None)
    t.event("none")
    t.channels()
    return "A channel is asked for when the allocation's time is over: nothing of it is shown from then on", t


def gone_with_its_allocation():
    t = holding()
    bound(t, 400 * SECOND, 2, A, ONE)
    t.poll(400 * SECOND + 50 * MS, RENEWAL)
    t.poll(OVER - 1, OVER - 1)
    t.channels((A, ONE))
    t.poll(OVER, None)
    t.event("none")
    t.channels()
    t.bind(OVER, ONE, "refused NoAllocation")
    return "An allocation's time is over: its channel is gone, and nothing is told of it", t


def forbidden_channel():
    t = holding()
    drawn = t.binds(50 * MS, 2, A, ONE)
    t.permission(100 * MS, ONE_IP, "refused AlreadyExists")
    t.decides(100 * MS, drawn, "refuse 403", error(CHANNEL_BIND, 2, FORBIDDEN))
    failed(t, ONE)
    t.event("none")
    t.channels()
    t.has(ONE_IP, "no")
    t.permits()
    t.poll(100 * MS, RENEWAL)
    t.permitted(100 * MS, 3, ONE_IP)
    return "A channel is refused, and so its permission is; that can be asked for by itself, and is granted", t


def forbidden():
    """A client whose first channel the desk has refused, with its permission."""
    t = holding()
    drawn = t.binds(50 * MS, 2, A, ONE)
    t.decides(100 * MS, drawn, "refuse 403", error(CHANNEL_BIND, 2, FORBIDDEN))
    failed(t, ONE)
    return t


def forbidden_channel_again():
    t = forbidden()
    bound(t, 100 * MS, 3, A, ONE)
    t.channels((A, ONE))
    t.permits(ONE_IP)
    return "A channel is refused; it is asked for again, under the same number, and granted", t


def channel_lost():
    t = holding()
    t.binds(50 * MS, 2, A, ONE)
    slots = [50, 550, 1550, 3550, 7550, 15550, 31550, 39550]
    t.poll(100 * MS, 550 * MS)
    for now, until in zip(slots[1:], slots[2:]):
        t.draw(now * MS - 1, None)
        t.draw(now * MS, channel_bind(2, A, ONE))
        t.poll(now * MS, until * MS)
        t.channels()
        t.permits()
    over = 39550 * MS
    t.poll(over - 1, over)
    t.permission(over, ONE_IP, "refused AlreadyExists")
    t.poll(over, over)
    ended(t, ONE)
    t.event("none")
    t.channels()
    t.permits()
    t.poll(over, RENEWAL)
    t.draw(over, None)
    bound(t, over, 3, A, ONE)
    t.channels((A, ONE))
    return "Nobody answers: seven transmissions, and there is neither a permission nor a channel", t


# ---- beside a permission, and beside another channel


def under_a_permission():
    t = holding()
    t.permitted(50 * MS, 2, ONE_IP)
    bound(t, 50 * SECOND, 3, A, ONE, permission=False)
    t.event("none")
    t.channels((A, ONE))
    t.permits(ONE_IP)
    t.poll(50 * SECOND + 50 * MS, DUE)
    return "A channel is bound where a permission for its peer stands: that stands no longer for it", t


def forbidden_under_a_permission():
    t = holding()
    t.permitted(50 * MS, 2, ONE_IP)
    drawn = t.binds(100 * MS, 3, A, ONE)
    t.decides(150 * MS, drawn, "refuse 403", error(CHANNEL_BIND, 3, FORBIDDEN))
    failed(t, ONE, permission=False)
    t.event("none")
    t.channels()
    t.permits(ONE_IP)
    return "The same, and it is refused: the permission stands on", t


def beside_a_permission():
    t = holding()
    t.permission(50 * MS, ONE_IP)
    t.bind(50 * MS, ONE)
    one = t.draw(100 * MS, create_permission(2, ONE_IP))
    other = t.draw(150 * MS, channel_bind(3, A, ONE))
    t.decides(150 * MS, other, "grant", success(CHANNEL_BIND, 3))
    created(t, ONE, permission=False)
    t.event("none")
    t.channels((A, ONE))
    t.has(ONE_IP, "no")
    t.decides(150 * MS, one, "grant", success(CREATE_PERMISSION, 2))
    t.is_permitted(ONE_IP)
    t.event("none")
    return "A channel is granted while a permission is awaited that was asked for before: it brings none", t


def lost_beside_a_permission():
    t = holding()
    t.permission(50 * MS, ONE_IP)
    t.bind(100 * MS, ONE)
    t.draw(100 * MS, create_permission(2, ONE_IP))
    t.draw(150 * MS, channel_bind(3, A, ONE))
    over = 39550 * MS
    t.poll(over, over)
    t.event(f"PermissionCreateFailed udp {ONE_IP}")
    t.event("none")
    # the other request is due again, for nobody drew it since
    t.poll(over, over)
    t.poll(over + 50 * MS, over + 50 * MS)
    ended(t, ONE, permission=False)
    t.event("none")
    return "The same, and nobody answers: each request ends by itself", t


def another_port():
    t = holding()
    bound(t, 50 * MS, 2, A, ONE)
    bound(t, 50 * SECOND, 3, B, ONE_TOO, permission=False)
    t.event("none")
    t.channels((A, ONE), (B, ONE_TOO))
    t.permits(ONE_IP)
    t.bind(51 * SECOND, ONE_TOO, "refused AlreadyExists")
    t.poll(51 * SECOND, DUE)
    return "A channel to another port of a host: a number of its own, under the permission that stands", t


def twice_to_one_peer():
    t = holding()
    t.bind(50 * MS, ONE)
    t.bind(50 * MS, ONE)
    one = t.draw(100 * MS, channel_bind(2, A, ONE))
    other = t.draw(150 * MS, channel_bind(3, B, ONE))
    t.decides(150 * MS, one, "grant", success(CHANNEL_BIND, 2))
    created(t, ONE)
    t.channels((A, ONE))
    t.bind(150 * MS, ONE, "refused AlreadyExists")
    t.decides(150 * MS, other, "grant", success(CHANNEL_BIND, 3))
    created(t, ONE, permission=False)
    t.event("none")
    t.channels((A, ONE), (B, ONE))
    t.permits(ONE_IP)
    return "A channel is asked for twice: the second has a number of its own, and both are granted", t


def the_second_granted_alone():
    t = holding()
    t.bind(50 * MS, ONE)
    t.bind(50 * MS, ONE)
    one = t.draw(100 * MS, channel_bind(2, A, ONE))
    other = t.draw(150 * MS, channel_bind(3, B, ONE))
    t.decides(150 * MS, other, "grant", success(CHANNEL_BIND, 3))
    created(t, ONE, permission=False)
    t.channels((B, ONE))
    t.has(ONE_IP, "no")
    t.decides(150 * MS, one, "refuse 403", error(CHANNEL_BIND, 2, FORBIDDEN))
    failed(t, ONE)
    t.event("none")
    t.channels((B, ONE))
    t.permits()
    bound(t, 150 * MS, 4, A, TWO)
    t.channels((B, ONE), (A, TWO))
    return "The same, and the first is refused, and the permission with it; the second stands", t


def twice_to_one_peer_lapsed():
    t = lasting()
    t.bind(50 * MS, ONE)
    t.bind(50 * MS, ONE)
    one = t.draw(100 * MS, channel_bind(2, A, ONE))
    t.decides(100 * MS, one, "grant", success(CHANNEL_BIND, 2))
    created(t, ONE)
    other = t.draw(150 * MS, channel_bind(3, B, ONE))
    t.decides(150 * MS, other, "grant", success(CHANNEL_BIND, 3))
    created(t, ONE, permission=False)
    t.poll(LAPSE, LAPSE)
    t.event(f"PermissionCreateFailed udp {ONE_IP}")
    t.poll(CHANNEL_LAPSE, CHANNEL_LAPSE)
    t.event(f"ChannelCreateFailed udp {ONE}")
    t.channels((B, ONE))
    t.bind(CHANNEL_LAPSE, ONE, "refused AlreadyExists")
    t.poll(CHANNEL_LAPSE, CHANNEL_LAPSE)
    t.poll(CHANNEL_LAPSE + 50 * MS, CHANNEL_LAPSE + 50 * MS)
    t.event(f"ChannelCreateFailed udp {ONE}")
    t.event("none")
    t.bind(CHANNEL_LAPSE + 50 * MS, ONE, f"refused ExpiredChannelExists {CHANNEL_FREE}")
    t.bind(CHANNEL_FREE, ONE, f"refused ExpiredChannelExists {CHANNEL_FREE}")
    t.bind(CHANNEL_FREE + 1, ONE, f"refused ExpiredChannelExists {CHANNEL_FREE + 50 * MS}")
    bound(t, CHANNEL_FREE + 50 * MS + 1, 4, A, ONE)
    t.channels((A, ONE))
    return "Two channels to one peer lapse, one behind the other: it is barred as long as either is protected", t


# ---- numbers


def channels_of_both_families():
    t = of_both_families(RELAYED, RELAYED_6)
    t.is_created(RELAYED, RELAYED_6)
    bound(t, 50 * MS, 2, A, ONE)
    bound(t, 100 * MS, 3, B, SIX)
    t.channels((A, ONE), (B, SIX))
    t.permits(ONE_IP)
    t.permits(PEER_6, at=RELAYED_6)
    t.bind(150 * MS, ONE, "refused AlreadyExists")
    t.bind(150 * MS, SIX, "refused AlreadyExists")
    bound(t, 150 * MS, 4, C, TWO)
    t.channels((A, ONE), (C, TWO), (B, SIX))
    return "A channel in the allocation of each family: no two of a client's channels have one number", t


def shown_by_allocation():
    t = of_both_families(RELAYED_6, RELAYED)
    t.is_created(RELAYED_6, RELAYED)
    t.bind(50 * MS, ONE)
    t.bind(50 * MS, SIX)
    one = t.draw(100 * MS, channel_bind(2, A, ONE))
    other = t.draw(150 * MS, channel_bind(3, B, SIX))
    t.decides(150 * MS, one, "grant", success(CHANNEL_BIND, 2))
    t.decides(150 * MS, other, "grant", success(CHANNEL_BIND, 3))
    created(t, ONE)
    created(t, SIX)
    t.channels((B, SIX), (A, ONE))
    return "The same, asked for both at once; they are shown in the order of the allocations", t


def number_of_the_other_family():
    t = of_both_families(RELAYED, RELAYED_6)
    t.is_created(RELAYED, RELAYED_6)
    drawn = t.binds(50 * MS, 2, A, SIX)
    other = t.binds(100 * MS, 3, B, ONE)
    t.decides(150 * MS, drawn, "refuse 403", error(CHANNEL_BIND, 2, FORBIDDEN))
    failed(t, SIX)
    t.decides(150 * MS, other, "grant", success(CHANNEL_BIND, 3))
    created(t, ONE)
    bound(t, 150 * MS, 4, A, TWO)
    t.channels((B, ONE), (A, TWO))
    t.permits(at=RELAYED_6)
    return "A number that was asked for in one allocation, and refused, is free in the other one", t


def refused_in_the_middle():
    t = holding()
    drawn = [t.binds(50 * MS * (i + 1), i + 2, A + i, it) for i, it in enumerate((ONE, TWO, THREE))]
    now = 200 * MS
    t.decides(now, drawn[1], "refuse 403", error(CHANNEL_BIND, 3, FORBIDDEN))
    failed(t, TWO)
    t.decides(now, drawn[0], "grant", success(CHANNEL_BIND, 2))
    created(t, ONE)
    t.decides(now, drawn[2], "grant", success(CHANNEL_BIND, 4))
    created(t, THREE)
    t.channels((A, ONE), (C, THREE))
    bound(t, now, 5, B, FOUR)
    t.channels((A, ONE), (C, THREE), (B, FOUR))
    t.permits(ONE_IP, THREE_IP, FOUR_IP)
    return "Three channels are asked for, and the middle one is refused: its number is free at once", t


def gone_from_the_middle():
    t = lasting(ONE, TWO, THREE)
    t.channels((A, ONE), (B, TWO), (C, THREE))
    t.poll(LAPSE + 100 * MS, LAPSE + 100 * MS)
    for it in (ONE_IP, TWO_IP, THREE_IP):
        t.event(f"PermissionCreateFailed udp {it}")
    # the three are to be renewed one behind the other, each a minute before its end
    now, told = CHANNEL_DUE + 100 * MS, ((5, A, ONE), (6, B, TWO), (7, C, THREE))
    drawn = [t.draw(now + 50 * MS * i, channel_bind(*it)) for i, it in enumerate(told)]
    now += 100 * MS
    t.decides(now, drawn[0], "grant", success(CHANNEL_BIND, 5))
    t.decides(now, drawn[1], "refuse 403", error(CHANNEL_BIND, 6, FORBIDDEN))
    t.decides(now, drawn[2], "grant", success(CHANNEL_BIND, 7))
    t.event(f"ChannelCreateFailed udp {TWO}")
    t.event("none")
    t.channels((A, ONE), (C, THREE))
    # it was granted at 150 ms, and stays protected as if it had lapsed when it would have
    free = CHANNEL_FREE + 50 * MS
    t.bind(now, TWO, f"refused ExpiredChannelExists {free}")
    bound(t, now, 8, D, FOUR)
    t.channels((A, ONE), (C, THREE), (D, FOUR))
    t.bind(free, TWO, f"refused ExpiredChannelExists {free}")
    t.bind(free, ONE_TOO)
    # by now the permission is to be renewed that came with the last channel, but what was asked for goes first
    t.draw(free, channel_bind(9, B, ONE_TOO))
    return ("Of three channels the middle one isn't renewed, but refused: "
            "its number is kept until its protection ends"), t


def numbers_used_up():
    t = holding()
    count = LAST - A + 1
    for _ in range(count):
        t.bind(50 * MS, ONE)
    t.bind(50 * MS, ONE, "refused NoChannel")
    t.bind(50 * MS, TWO, "refused NoChannel")
    drawn = t.draw(100 * MS, channel_bind(2, A, ONE))
    t.decides(100 * MS, drawn, "refuse 403", error(CHANNEL_BIND, 2, FORBIDDEN))
    failed(t, ONE)
    t.channels()
    # numbers of messages are drawn for what is asked for alone: the next is behind those of all the others
    t.bind(100 * MS, TWO)
    t.bind(100 * MS, THREE, "refused NoChannel")
    t.hear(100 * MS, success(CHANNEL_BIND, count + 2))
    created(t, TWO)
    t.hear(100 * MS, success(CHANNEL_BIND, count + 1))
    created(t, ONE, permission=False)
    t.event("none")
    t.channels((A, TWO), (LAST, ONE))
    t.bind(100 * MS, THREE, "refused NoChannel")
    t.bind(100 * MS, TWO, "refused AlreadyExists")
    return f"A channel is asked for {count} times, and no number is left; one is refused, and its number free again", t


def asked_traces():
    return (
        channel_granted(), granted_channel_again(), channels_answered_in_reverse(), channels_refused(),
        no_allocation_of_the_family(), no_permission_of_the_family(), refused_at_the_end_of_its_allocation(),
        gone_with_its_allocation(), forbidden_channel(), forbidden_channel_again(), channel_lost(),
        under_a_permission(), forbidden_under_a_permission(), beside_a_permission(), lost_beside_a_permission(),
        another_port(), twice_to_one_peer(), the_second_granted_alone(), twice_to_one_peer_lapsed(),
        channels_of_both_families(), shown_by_allocation(), number_of_the_other_family(),
        refused_in_the_middle(), gone_from_the_middle(), numbers_used_up(),
    )
