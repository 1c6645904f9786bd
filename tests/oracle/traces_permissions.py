"""The traces of permissions, which `traces.py` puts behind its own (`docs/TRACE.md`).

Each permission stands for 300 seconds from its grant, and is to be renewed from a minute before its end.
"""

from traces_base import (
    ADDITIONAL_FAMILY, BINDING, CREATE_PERMISSION, ERROR, HASHED, MS, NAMED, NONCE, OTHER, REALM, REFRESH,
    RELAYED, SECOND, SHA1, SHA256, SUCCESS, USERNAME, V6, Trace, challenge, code, create_permission, error,
    first, grant, lifetime, message, number, refresh, setup, signed_allocate, stale, success, unsigned,
)

PEER_1, PEER_2, PEER_3, PEER_6 = "10.0.0.1", "10.0.0.2", "10.0.0.3", "2001:db8::7"
RELAYED_6 = "[2001:db8::5]:50000"
PERMIT, FORBID = CREATE_PERMISSION | SUCCESS, CREATE_PERMISSION | ERROR
FORBIDDEN = code(403, b"Forbidden")
# a challenge with another nonce than the first one, and what is told under that
OTHER_NONCE = [code(438), (REALM, b"realm"), (NONCE, b"other")]
NAMED_ANEW = [(USERNAME, b"user"), (REALM, b"realm"), (NONCE, b"other")]

# when a permission that was granted at 100 ms is to be renewed, and when it ends
DUE, LAPSE = 240 * SECOND + 100 * MS, 300 * SECOND + 100 * MS
# the same of an allocation that was granted at 50 ms for 600 seconds
RENEWAL, OVER = 540 * SECOND + 50 * MS, 600 * SECOND + 50 * MS


def holding(*peers):
    """A client that is granted, with permissions for these peers: asked for at 50 ms, 100 ms and so on."""
    t = Trace(setup())
    t.held()
    for i, ip in enumerate(peers):
        t.permitted(50 * MS * (i + 1), i + 2, ip, *peers[:i])
    return t


def permission_granted():
    t = holding()
    now = 100 * MS
    t.permission(50 * MS, PEER_1)
    t.has(PEER_1, "no")
    t.poll(50 * MS, now)
    t.draw(now - 1, None)
    drawn = t.draw(now, create_permission(2, PEER_1))
    t.draw(now, None)
    t.poll(now, 550 * MS)
    line = t.ask(now, f"@{drawn}", "grant", success(CREATE_PERMISSION, 2))
    t.permits()
    t.hear(now, f"@{line}")
    t.poll(now, now)
    t.is_permitted(PEER_1)
    t.event("none")
    t.poll(now, DUE)
    return "A permission is asked for and granted: it is held, and to be renewed a minute before its end", t


def permissions_looked_for():
    t = holding(PEER_1)
    t.has(PEER_2, "no")
    t.has("0.0.0.0", "no")
    t.has("::ffff:10.0.0.1", "no")
    t.has(PEER_1, "no", "tcp")
    t.permits(transport="tcp")
    t.permits(at="203.0.113.5:50001")
    t.permits(at="203.0.113.6:50000")
    t.permits(PEER_1)
    return "A permission is of one peer, one transport and one relayed address", t


def granted_reply_again():
    t = holding()
    line = t.permitted(50 * MS, 2, PEER_1)
    drawn = t.asks(100 * MS, 3, PEER_3)
    t.hear(150 * MS, f"@{line}", "ignored")
    t.event("none")
    t.has(PEER_3, "no")
    t.permits(PEER_1)
    t.decides(150 * MS, drawn, "grant", success(CREATE_PERMISSION, 3))
    t.is_permitted(PEER_3, PEER_1)
    return "The grant of one permission comes again behind another that was asked for: it doesn't count", t


def answered_in_reverse():
    t = holding()
    t.permission(50 * MS, PEER_1)
    t.permission(50 * MS, PEER_2)
    one = t.draw(100 * MS, create_permission(2, PEER_1))
    t.poll(100 * MS, 150 * MS)
    other = t.draw(150 * MS, create_permission(3, PEER_2))
    granted = t.ask(100 * MS, f"@{one}", "grant", success(CREATE_PERMISSION, 2))
    refused = t.ask(150 * MS, f"@{other}", "refuse 403", error(CREATE_PERMISSION, 3, FORBIDDEN))
    t.hear(150 * MS, f"@{refused}")
    t.hear(150 * MS, f"@{granted}")
    t.is_forbidden(PEER_2, PEER_1)
    t.is_permitted(PEER_1)
    t.event("none")
    return "Two permissions, of which one is granted; the refusal comes first: each reply counts for its own", t


def permissions_refused():
    t = Trace(setup())
    t.permission(0, PEER_1, "refused NoAllocation")
    line = t.granted()
    t.permission(50 * MS, PEER_1, "refused NoAllocation")
    t.hear(50 * MS, f"@{line}")
    t.is_created(RELAYED)
    t.permission(50 * MS, PEER_1)
    t.permission(50 * MS, PEER_1, "refused AlreadyExists")
    t.permission(50 * MS, PEER_1, "refused NoAllocation", "tcp")
    t.permission(50 * MS, PEER_6, "refused NoAllocation")
    t.permission(2**62 + 1, PEER_2, "out of range")
    drawn = t.draw(100 * MS, create_permission(2, PEER_1))
    t.draw(150 * MS, None)
    t.decides(150 * MS, drawn, "grant", success(CREATE_PERMISSION, 2))
    t.is_permitted(PEER_1)
    t.permission(150 * MS, PEER_1, "refused AlreadyExists")
    t.permitted(150 * MS, 3, PEER_2, PEER_1)
    return "A permission can't be had without an allocation of its kind, nor twice: nothing is sent then", t


def refused_at_the_end():
    t = holding()
    t.permitted(400 * SECOND, 2, PEER_1)
    t.permission(OVER - 1, PEER_1, "refused AlreadyExists")
    t.has(PEER_1)
    t.shows(RELAYED)
    t.permission(OVER, PEER_1, "refused NoAllocation")
    t.has(PEER_1, "no")
    t.permits()
    t.shows()
    t.draw(OVER, None)
    t.poll(OVER, None)
    t.event("none")
    return "A permission is asked for when the allocation's time is over: nothing of it is shown from then on", t


def ends_with_its_allocation():
    t = holding()
    t.permitted(400 * SECOND, 2, PEER_1)
    t.poll(400 * SECOND + 50 * MS, RENEWAL)
    t.poll(OVER - 1, OVER - 1)
    t.has(PEER_1)
    t.poll(OVER, None)
    t.event("none")
    t.has(PEER_1, "no")
    t.permits()
    return "An allocation's time is over: its permission is gone, and nothing is told of it", t


def forbidden():
    t = holding()
    drawn = t.asks(50 * MS, 2, PEER_1)
    t.decides(100 * MS, drawn, "refuse 403", error(CREATE_PERMISSION, 2, FORBIDDEN))
    t.is_forbidden(PEER_1)
    t.event("none")
    t.poll(100 * MS, RENEWAL)
    t.permitted(100 * MS, 3, PEER_1)
    return "A permission is refused; it is asked for again, and granted", t


def permission_lost():
    t = holding()
    t.asks(50 * MS, 2, PEER_1)
    slots = [50, 550, 1550, 3550, 7550, 15550, 31550, 39550]
    t.poll(100 * MS, 550 * MS)
    for now, until in zip(slots[1:], slots[2:]):
        t.draw(now * MS - 1, None)
        t.draw(now * MS, create_permission(2, PEER_1))
        t.poll(now * MS, until * MS)
    over = 39550 * MS
    t.permission(over - 1, PEER_1, "refused AlreadyExists")
    t.poll(over - 1, over)
    t.poll(over, over)
    t.is_forbidden(PEER_1)
    t.poll(over, RENEWAL)
    t.draw(over, None)
    t.permitted(over, 3, PEER_1)
    return "Nobody answers: seven transmissions, and there is no permission; it can be asked for again", t


def drawn_late():
    t = holding()
    t.permission(50 * MS, PEER_1)
    t.draw(550 * MS, create_permission(2, PEER_1))
    t.draw(550 * MS, None)
    t.poll(550 * MS, 600 * MS)
    t.draw(600 * MS, create_permission(2, PEER_1))
    t.poll(600 * MS, 1550 * MS)
    return "A request is drawn late: its waits began when the permission was asked for, so it goes out twice", t


def permission_renewed():
    t = holding(PEER_1)
    t.poll(100 * MS, DUE)
    t.draw(DUE - 1, None)
    drawn = t.draw(DUE, create_permission(3, PEER_1))
    t.draw(DUE + 50 * MS, None)
    t.poll(DUE + 50 * MS, DUE + 500 * MS)
    t.decides(DUE + 50 * MS, drawn, "grant", success(CREATE_PERMISSION, 3))
    t.event("none")
    again = DUE + 240 * SECOND + 50 * MS
    t.poll(LAPSE, again)
    t.event("none")
    t.has(PEER_1)
    t.draw(again - 1, None)
    t.draw(again, create_permission(4, PEER_1))
    return "A permission is renewed a minute before its end: nothing is told, and it stands on", t


def renewed_behind_its_allocation():
    t = holding()
    t.permitted(300 * SECOND, 2, PEER_1)
    t.poll(300 * SECOND + 50 * MS, RENEWAL)
    t.poll(RENEWAL, RENEWAL)
    one = t.draw(RENEWAL, refresh(3, 1800, HASHED))
    t.poll(RENEWAL, RENEWAL + 50 * MS)
    t.draw(RENEWAL + 50 * MS - 1, None)
    now = RENEWAL + 50 * MS
    other = t.draw(now, create_permission(4, PEER_1))
    t.decides(now, one, "refresh 600", success(REFRESH, 3, lifetime(600)))
    t.decides(now, other, "grant", success(CREATE_PERMISSION, 4))
    t.event("none")
    t.poll(OVER, now + 240 * SECOND)
    t.shows(RELAYED)
    t.permits(PEER_1)
    return "An allocation and its permission are to be renewed at one moment: the REFRESH goes first", t


def renewal_forbidden():
    t = holding(PEER_1)
    drawn = t.draw(DUE, create_permission(3, PEER_1))
    t.decides(DUE, drawn, "refuse 403", error(CREATE_PERMISSION, 3, FORBIDDEN))
    t.is_forbidden(PEER_1)
    t.poll(DUE, RENEWAL)
    t.draw(DUE + 50 * MS, None)
    return "A permission isn't renewed, but refused: it is gone at once", t


def renewal_lost():
    t = holding(PEER_1)
    t.draw(DUE, create_permission(3, PEER_1))
    t.poll(DUE, DUE + 500 * MS)
    over = DUE + 39500 * MS
    t.poll(over, over)
    t.event("none")
    t.has(PEER_1)
    t.poll(over, over)
    t.hear(over, success(CREATE_PERMISSION, 3), "ignored")
    for at, until in ((0, 500), (500, 1500), (1500, 3500), (3500, 7500), (7500, 15500)):
        t.draw(over + at * MS, create_permission(4, PEER_1))
        t.poll(over + at * MS, over + until * MS)
    t.draw(over + 15500 * MS, create_permission(4, PEER_1))
    t.poll(over + 15500 * MS, LAPSE)
    t.poll(LAPSE - 1, LAPSE)
    t.has(PEER_1)
    t.poll(LAPSE, LAPSE)
    t.poll(LAPSE, LAPSE)
    t.is_forbidden(PEER_1)
    t.poll(LAPSE, over + 31500 * MS)
    t.hear(LAPSE, success(CREATE_PERMISSION, 4), "ignored")
    t.has(PEER_1, "no")
    t.poll(LAPSE, RENEWAL)
    return "Nobody renews a permission, nor at a second request: it lapses, and a grant comes too late", t


def lapsed():
    t = holding(PEER_1, PEER_2)
    now = LAPSE + 50 * MS
    drawn = t.draw(now, create_permission(4, PEER_2))
    line = t.ask(now, f"@{drawn}", "grant", success(CREATE_PERMISSION, 4))
    t.has(PEER_1)
    t.permits(PEER_1, PEER_2)
    t.permission(now, PEER_1, "refused AlreadyExists")
    t.poll(now, now)
    t.permits()
    t.event(f"PermissionCreateFailed udp {PEER_1}")
    t.event(f"PermissionCreateFailed udp {PEER_2}")
    t.event("none")
    t.hear(now, f"@{line}", "ignored")
    t.has(PEER_2, "no")
    t.permitted(now, 5, PEER_1)
    return "Two permissions have lapsed: they are shown until the client is polled, and the elder isn't renewed", t


def ended_and_lapsed():
    t = holding(PEER_1)
    asked = LAPSE - 39500 * MS
    t.permission(asked, PEER_2)
    t.draw(asked, create_permission(3, PEER_2))
    t.poll(asked, asked + 50 * MS)
    t.poll(LAPSE, LAPSE)
    t.event(f"PermissionCreateFailed udp {PEER_2}")
    t.is_forbidden(PEER_1)
    t.event("none")
    return "A request ends when a permission lapses: the request is told of first", t


def stale_permission():
    t = Trace(setup())
    t.allocated()
    t.asks(50 * MS, 2, PEER_1, NAMED)
    t.hear(100 * MS, unsigned(FORBID, 2, OTHER_NONCE))
    t.poll(100 * MS, 150 * MS)
    t.draw(100 * MS, None)
    t.hear(100 * MS, unsigned(FORBID, 2, OTHER_NONCE), "ignored")
    t.draw(150 * MS, create_permission(3, PEER_1, NAMED_ANEW))
    t.draw(200 * MS, None)
    t.poll(200 * MS, 600 * MS)
    t.hear(200 * MS, success(CREATE_PERMISSION, 2), "ignored")
    t.has(PEER_1, "no")
    t.hear(200 * MS, success(CREATE_PERMISSION, 3))
    t.is_permitted(PEER_1, at=OTHER)
    t.poll(200 * MS, 240 * SECOND + 200 * MS)
    return "The nonce of a CREATE_PERMISSION is stale: it is signed anew, and that one counts alone", t


def stale_permission_lost():
    t = Trace(setup())
    t.allocated()
    t.asks(50 * MS, 2, PEER_1, NAMED)
    t.hear(100 * MS, unsigned(FORBID, 2, OTHER_NONCE))
    t.draw(150 * MS, create_permission(3, PEER_1, NAMED_ANEW))
    over = 39600 * MS
    t.poll(over - 1, over - 1)
    t.poll(over, over)
    t.is_forbidden(PEER_1, at=OTHER)
    return "The same, and the one that is signed anew is lost: there is no permission", t


def stale_permission_renewal():
    t = Trace(setup())
    t.allocated()
    t.asks(50 * MS, 2, PEER_1, NAMED)
    t.hear(100 * MS, success(CREATE_PERMISSION, 2))
    t.is_permitted(PEER_1, at=OTHER)
    t.draw(DUE, create_permission(3, PEER_1, NAMED))
    t.hear(DUE, unsigned(FORBID, 3, OTHER_NONCE))
    t.event("none")
    now = DUE + 50 * MS
    t.poll(DUE, now)
    t.draw(now, create_permission(4, PEER_1, NAMED_ANEW))
    t.poll(now, DUE + 500 * MS)
    t.hear(now, success(CREATE_PERMISSION, 3), "ignored")
    t.hear(now, success(CREATE_PERMISSION, 4))
    t.event("none")
    t.poll(LAPSE, now + 240 * SECOND)
    t.has(PEER_1)
    return "The nonce is stale where a permission is to be renewed: it is signed anew, and granted", t


def ten_peers():
    t = holding()
    peers = [f"10.0.0.{i}" for i in range(1, 11)]
    for i, ip in enumerate(peers):
        asked, k = (50 + 100 * i) * MS, 2 + 2 * i
        t.asks(asked, k, ip)
        t.hear(asked + 50 * MS, stale(k, CREATE_PERMISSION))
        now = asked + 100 * MS
        drawn = t.draw(now, create_permission(k + 1, ip))
        t.decides(now, drawn, "grant", success(CREATE_PERMISSION, k + 1))
        t.event(f"PermissionCreated udp {ip}")
    t.permits(*peers)
    return "Ten permissions, each of them granted behind a challenge: a grant ends the count of challenges", t


def ten_stale_permissions():
    t = holding(PEER_1)
    t.asks(100 * MS, 3, PEER_2)
    for k in range(3, 12):
        t.hear(50 * MS * k, stale(k, CREATE_PERMISSION))
        t.draw(50 * MS * (k + 1), create_permission(k + 1, PEER_2))
    t.hear(600 * MS, stale(12, CREATE_PERMISSION))
    t.event("AllocationCreateFailed 4")
    t.event("none")
    t.poll(600 * MS, None)
    t.hear(600 * MS, success(CREATE_PERMISSION, 12), "ignored")
    t.has(PEER_2, "no")
    t.draw(1050 * MS - 1, None)
    t.draw(1050 * MS, create_permission(12, PEER_2))
    return "Ten challenges of one permission: nine are answered, and the tenth ends the client", t


def permission_above_an_error():
    t = holding(PEER_1)
    drawn = t.asks(100 * MS, 3, PEER_2)
    t.say("error", "ok")
    t.event("AllocationCreateFailed 4")
    t.poll(150 * MS, None)
    line = t.ask(150 * MS, f"@{drawn}", "grant", success(CREATE_PERMISSION, 3))
    t.hear(150 * MS, f"@{line}", "ignored")
    t.event("none")
    t.permission(150 * MS, PEER_1, "refused AlreadyExists")
    t.permission(150 * MS, PEER_3, "refused NoAllocation")
    t.shows(RELAYED)
    t.permits(PEER_1)
    return "A layer above met an error: what is held is shown on, and no permission comes to it", t


def permissions_of_both_families():
    t = Trace(setup(families="4,6"))
    drawn = t.draw(0, first((ADDITIONAL_FAMILY, V6)))
    t.decides(0, drawn, "refuse 400", challenge(0))
    drawn = t.draw(50 * MS, signed_allocate(1, HASHED, (ADDITIONAL_FAMILY, V6)))
    both = RELAYED, RELAYED_6
    t.decides(50 * MS, drawn, f"allocate {','.join(both)} 600", grant(1, addresses=both))
    t.is_created(*both)
    drawn = t.asks(50 * MS, 2, PEER_6)
    t.decides(100 * MS, drawn, "grant", success(CREATE_PERMISSION, 2))
    t.is_permitted(PEER_6, at=RELAYED_6)
    t.permits()
    t.permitted(100 * MS, 3, PEER_1)
    t.permits(PEER_6, at=RELAYED_6)
    t.poll(150 * MS, DUE)
    now = DUE + 50 * MS
    t.draw(now, create_permission(4, PEER_1))
    t.poll(now, now + 50 * MS)
    t.draw(now + 50 * MS, create_permission(5, PEER_6))
    t.poll(now + 50 * MS, now + 500 * MS)
    return "A permission of each family stands in the allocation of that family: they are renewed in that order", t


def forged_permission():
    t = holding()
    drawn = t.asks(50 * MS, 2, PEER_1)
    now = 100 * MS
    t.hear(now, unsigned(PERMIT, 2, []), "ignored")
    t.hear(now, message(PERMIT, number(2), [], SHA1, b"evil"), "ignored")
    t.hear(now, message(PERMIT, number(2), [], SHA256), "ignored")
    t.hear(now, success(CREATE_PERMISSION, 9), "ignored")
    t.hear(now, unsigned(FORBID, 2, [FORBIDDEN]), "ignored")
    t.hear(now, f"@{drawn}", "ignored")
    t.event("none")
    t.has(PEER_1, "no")
    t.permits()
    t.poll(now, 550 * MS)
    t.decides(now, drawn, "grant", success(CREATE_PERMISSION, 2))
    t.is_permitted(PEER_1)
    return "No signature, another key, another number, and the request itself: none counts, the true grant does", t


def forged_renewal():
    t = holding(PEER_1)
    drawn = t.draw(DUE, create_permission(3, PEER_1))
    t.hear(DUE, unsigned(PERMIT, 3, []), "ignored")
    t.hear(DUE, message(PERMIT, number(3), [], SHA1, b"evil"), "ignored")
    t.hear(DUE, unsigned(FORBID, 3, [FORBIDDEN]), "ignored")
    t.event("none")
    t.has(PEER_1)
    t.poll(DUE, DUE + 500 * MS)
    t.draw(DUE + 50 * MS, None)
    t.decides(DUE + 50 * MS, drawn, "grant", success(CREATE_PERMISSION, 3))
    t.poll(LAPSE, DUE + 240 * SECOND + 50 * MS)
    return "The same where a permission is to be renewed: it neither ends nor stands longer", t


def answered_by(method):
    """A CREATE_PERMISSION is answered by a signed success of another method, and then granted too late."""
    t = holding()
    drawn = t.asks(50 * MS, 2, PEER_1)
    t.hear(100 * MS, success(method, 2), "ignored")
    line = t.ask(100 * MS, f"@{drawn}", "grant", success(CREATE_PERMISSION, 2))
    t.hear(100 * MS, f"@{line}", "ignored")
    t.event("none")
    t.has(PEER_1, "no")
    return t


def permission_of_another_method():
    t = answered_by(BINDING)
    t.permission(100 * MS, PEER_1, "refused AlreadyExists")
    t.poll(100 * MS, RENEWAL)
    return "A CREATE_PERMISSION is answered by a signed success of BINDING: its request ends, and stays pending", t


def deleted_with_permissions():
    t = holding(PEER_1)
    now = 150 * MS
    drawn = t.asks(100 * MS, 3, PEER_2)
    line = t.ask(now, f"@{drawn}", "grant", success(CREATE_PERMISSION, 3))
    t.say(f"delete {now}", "ok")
    t.has(PEER_1, "no")
    t.permits()
    t.shows()
    t.hear(now, f"@{line}")
    t.event(f"PermissionCreated udp {PEER_2}")
    t.has(PEER_2, "no")
    t.permits()
    t.permission(now, PEER_3, "refused NoAllocation")
    t.poll(now, now + 50 * MS)
    drawn = t.draw(now + 50 * MS, refresh(4, 0, HASHED))
    t.decides(now + 50 * MS, drawn, "refresh 0", success(REFRESH, 4, lifetime(0)))
    t.poll(now + 50 * MS, None)
    t.event("none")
    t.permission(now + 50 * MS, PEER_3, "refused NoAllocation")
    return "A deletion, where a permission stands and another is awaited: it is told of, and neither is held", t


def permission_traces():
    yield from (
        permission_granted(), permissions_looked_for(), granted_reply_again(), answered_in_reverse(),
        permissions_refused(), refused_at_the_end(), ends_with_its_allocation(), forbidden(), permission_lost(),
        drawn_late(), permission_renewed(), renewed_behind_its_allocation(), renewal_forbidden(), renewal_lost(),
        lapsed(), ended_and_lapsed(), stale_permission(), stale_permission_lost(), stale_permission_renewal(),
        ten_peers(), ten_stale_permissions(), permission_above_an_error(), permissions_of_both_families(),
        forged_permission(), forged_renewal(), permission_of_another_method(), deleted_with_permissions(),
    )
