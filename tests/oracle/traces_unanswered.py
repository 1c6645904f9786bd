"""Traces of a client that is never answered, one for each of some settings of its waits and each transport
(`docs/TRACE.md`): it is drawn until nothing comes and polled, at each moment that it awaits.

The moments are sums of the waits (RFC 8489, section 6.2.1): the first wait, each next one twice as long and
at most the greatest, and the last one behind the last transmission. Over TCP there is one transmission, and
the end is the same (section 6.2.2).
"""

from traces_base import MS, SECOND, Trace, first, setup
from traces_tcp_base import over

# how long an agent with a request that isn't answered waits at most: an hour
PAUSE = 3600 * SECOND

# the first wait, the greatest, how many transmissions, and the last wait, in milliseconds
SETTINGS = (
    (500, 16000, 7, 8000),
    (500, 64000, 7, 8000),
    (600, 1000, 3, 3000),
    (100, 50, 4, 10),
    (1, 1000000, 12, 1),
    (500, 16000, 1, 100),
    (500, 16000, 0, 100),
    (500, 16000, 3, 0),
    (0, 16000, 3, 100),
    (0, 0, 3, 0),
    (0, 0, 1, 0),
    (20000000, 20000000, 2, 5000),
)


def slots(initial, most, many):
    """The moments of the transmissions."""
    found = [0]
    for i in range(max(many, 1) - 1):
        found.append(found[-1] + min(initial * 2**i, most) * MS)
    return found


def unanswered(setting, transport):
    initial, most, many, last = setting
    rto = "rto {} {} {} {}\n".format(*setting)
    t = Trace(setup(rto=rto)) if transport == "udp" else over(rto=rto)
    times = slots(initial, most, many)
    end = times[-1] + last * MS
    left = times if transport == "udp" else times[:1]
    now = 0
    while True:
        while left and left[0] <= now:
            t.draw(now, first())
            left = left[1:]
        t.draw(now, None)
        if end <= now:
            break
        until = min(now + PAUSE, left[0] if left else end)
        t.poll(now, until)
        t.event("none")
        now = until
    t.poll(end, None)
    t.fails(end)
    t.draw(end, None)
    waits = "{}, {}, {}, {}".format(*setting)
    return f"Nobody answers over {transport.upper()}, with waits of {waits}", t


def unanswered_traces():
    for setting in SETTINGS:
        for transport in ("udp", "tcp"):
            yield unanswered(setting, transport)
