"""The traces of permissions of several addresses by one CREATE_PERMISSION (RFC 8656, section 10.1), which `traces.py`
puts behind its own (`docs/TRACE.md`).

A request names each address once. It is granted or rejected as a whole, and each address is told of; each permission
is renewed by a request of its own, as one that was asked for alone.
"""

from traces_base import (
    CREATE_PERMISSION, ERROR, MS, NAMED, OTHER, RELAYED, SECOND, Trace, create_permission, error, setup, success,
    unsigned,
)
from traces_permissions import (
    DUE, FORBIDDEN, LAPSE, NAMED_ANEW, OTHER_NONCE, PEER_1, PEER_2, PEER_3, PEER_6, RENEWAL, holding,
)

THREE = PEER_1, PEER_2, PEER_3
# how many addresses one request may name, and one more
MOST = [f"10.0.1.{k}" for k in range(32)]
TOO_MANY = [*MOST, "10.0.1.32"]


def are_permitted(t, ips, *others, at=RELAYED):
    """The client tells of each permission in order, and holds them behind others."""
    for ip in ips:
        t.event(f"PermissionCreated udp {ip}")
    t.event("none")
    t.permits(*others, *ips, at=at)


def are_forbidden(t, ips, *others, cause, at=RELAYED):
    """The client tells in order that there is no such permission, and why, and holds others alone."""
    for ip in ips:
        t.event(f"PermissionCreateFailed udp {ip}")
        t.cause(cause)
    t.event("none")
    t.permits(*others, at=at)


def asks(t, now, k, ips, credentials=None):
    """Permissions are asked for, and the request is drawn as soon as may be behind a message of that moment."""
    t.permit(now, ips)
    return t.draw(now + 50 * MS, create_permission(k, ips, *([credentials] if credentials else [])))


def are_granted(t, now, k, ips, *others):
    """Permissions are asked for, granted, told of and held behind others."""
    drawn = asks(t, now, k, ips)
    t.decides(now + 50 * MS, drawn, "grant", success(CREATE_PERMISSION, k))
    are_permitted(t, ips, *others)


def granted_together():
    t = holding()
    t.permit(50 * MS, THREE)
    t.has(PEER_2, "no")
    t.poll(50 * MS, 100 * MS)
    drawn = t.draw(100 * MS, create_permission(2, THREE))
    t.draw(150 * MS, None)
    line = t.ask(100 * MS, f"@{drawn}", "grant", success(CREATE_PERMISSION, 2))
    t.permits()
    t.hear(100 * MS, f"@{line}")
    are_permitted(t, THREE)
    t.has(PEER_2)
    t.poll(100 * MS, DUE)
    t.hear(100 * MS, f"@{line}", "ignored")
    return "Permissions of three addresses are asked for by one request: all are granted, and told of in order", t


def renewed_alone():
    t = holding()
    are_granted(t, 50 * MS, 2, THREE)
    t.draw(DUE - 1, None)
    for i, ip in enumerate(THREE):
        now = DUE + 50 * MS * i
        drawn = t.draw(now, create_permission(3 + i, ip))
        t.decides(now, drawn, "grant", success(CREATE_PERMISSION, 3 + i))
    t.event("none")
    t.poll(DUE + 100 * MS, DUE + 240 * SECOND)
    t.permits(*THREE)
    return "Permissions that were granted together are renewed by a request each, in order", t


def named_twice():
    t = holding()
    t.permit(50 * MS, [PEER_1, PEER_2, PEER_1, PEER_2, PEER_1])
    drawn = t.draw(100 * MS, create_permission(2, (PEER_1, PEER_2)))
    t.decides(100 * MS, drawn, "grant", success(CREATE_PERMISSION, 2))
    are_permitted(t, (PEER_1, PEER_2))
    return "An address is named several times: it is asked for once, and told of once", t


def named_alone():
    t = holding(PEER_1)
    are_granted(t, 100 * MS, 3, [PEER_2], PEER_1)
    return "A permission of one address is asked for as those of several are", t


def refused():
    t = Trace(setup())
    t.permit(0, THREE, "refused NoAllocation")
    t.permit(0, TOO_MANY, "refused InvalidAddresses")
    t.held()
    t.permit(50 * MS, TOO_MANY, "refused InvalidAddresses")
    t.permit(50 * MS, [PEER_1] * 33, "refused InvalidAddresses")
    t.permit(50 * MS, [PEER_1, PEER_6], "refused InvalidAddresses")
    t.permit(50 * MS, [PEER_1, "::ffff:10.0.0.2"], "refused InvalidAddresses")
    t.permit(50 * MS, [PEER_6, "::1"], "refused NoAllocation")
    t.permit(50 * MS, THREE, "refused NoAllocation", "tcp")
    t.permit(2**62 + 1, THREE, "out of range")
    t.permission(50 * MS, PEER_2)
    t.permit(50 * MS, THREE, "refused AlreadyExists")
    drawn = t.draw(100 * MS, create_permission(2, PEER_2))
    t.draw(150 * MS, None)
    t.decides(150 * MS, drawn, "grant", success(CREATE_PERMISSION, 2))
    t.is_permitted(PEER_2)
    t.permit(150 * MS, THREE, "refused AlreadyExists")
    drawn = asks(t, 150 * MS, 3, (PEER_1, PEER_3))
    t.permit(200 * MS, [PEER_3, "10.0.0.4"], "refused AlreadyExists")
    t.permission(200 * MS, PEER_3, "refused AlreadyExists")
    t.decides(200 * MS, drawn, "grant", success(CREATE_PERMISSION, 3))
    are_permitted(t, (PEER_1, PEER_3), PEER_2)
    return "Permissions of several addresses can't be had in each of these ways: nothing is sent for any of them", t


def as_many_as_may_be():
    t = holding()
    are_granted(t, 50 * MS, 2, MOST)
    return "Permissions of 32 addresses, as many as one request may name, are granted", t


def rejected():
    t = holding("10.0.0.9")
    drawn = asks(t, 100 * MS, 3, THREE)
    t.decides(150 * MS, drawn, "refuse 403", error(CREATE_PERMISSION, 3, FORBIDDEN))
    are_forbidden(t, THREE, "10.0.0.9", cause=f"rejected 403 signed {b'Forbidden'.hex()}")
    t.poll(150 * MS, DUE)
    are_granted(t, 150 * MS, 4, (PEER_3, PEER_1), "10.0.0.9")
    return "A request for three is rejected: each of them is told of; two are asked for again, and granted", t


def unanswered():
    t = holding()
    asks(t, 50 * MS, 2, THREE)
    slots = [50, 550, 1550, 3550, 7550, 15550, 31550, 39550]
    for now, until in zip(slots[1:], slots[2:]):
        t.draw(now * MS, create_permission(2, THREE))
        t.poll(now * MS, until * MS)
    over = 39550 * MS
    t.permit(over - 1, [PEER_3], "refused AlreadyExists")
    t.poll(over, over)
    are_forbidden(t, THREE, cause="unanswered")
    t.hear(over, success(CREATE_PERMISSION, 2), "ignored")
    t.poll(over, RENEWAL)
    return "Nobody answers a request for three: each of them is told of, and a grant comes too late", t


def challenged():
    t = Trace(setup())
    t.allocated()
    asks(t, 50 * MS, 2, THREE, NAMED)
    t.hear(100 * MS, unsigned(CREATE_PERMISSION | ERROR, 2, OTHER_NONCE))
    t.poll(100 * MS, 150 * MS)
    t.draw(150 * MS, create_permission(3, THREE, NAMED_ANEW))
    t.hear(200 * MS, success(CREATE_PERMISSION, 2), "ignored")
    t.hear(200 * MS, success(CREATE_PERMISSION, 3))
    are_permitted(t, THREE, at=OTHER)
    return "The nonce of a request for three is stale: all are asked for again under the new one", t


def lapse_together():
    t = holding()
    are_granted(t, 50 * MS, 2, (PEER_1, PEER_2))
    t.has(PEER_1)
    t.poll(LAPSE, LAPSE)
    are_forbidden(t, (PEER_1, PEER_2), cause="expired")
    return "Two permissions that were granted together lapse together", t


def several_traces():
    return (
        granted_together(), renewed_alone(), named_twice(), named_alone(), refused(), as_many_as_may_be(), rejected(),
        unanswered(), challenged(), lapse_together(),
    )
