"""The traces of a client whose allocation a REFRESH may shorten (`docs/TRACE.md`: `short`; RFC 8656, section 8.3).

It believes a lifetime under 600 seconds of the response to a REFRESH. The next REFRESH goes out when half of that
lifetime is left, if it is 120 seconds or less, or else a minute before the end. After a longer lifetime it goes out as
long before the end as after the one before. Without the word, a lifetime under 600 seconds renews nothing: `traces.py`.
"""

from traces_base import (
    END, MS, NAMED, OTHER, REFRESH, SECOND, Trace, error, lifetime, refresh, setup, success,
)


def ahead(seconds):
    """How long before its end an allocation of so many seconds is renewed."""
    return seconds * SECOND // 2 if seconds <= 120 else 60 * SECOND


def granted_for(t, now, k, seconds, before):
    """The REFRESH is granted for so many seconds. The next goes out so long before the end, and no sooner: then."""
    t.hear(now, success(REFRESH, k, lifetime(seconds)))
    due = now + seconds * SECOND - before
    # An agent without requests is polled again within an hour.
    t.poll(now, min(due, now + 3600 * SECOND))
    t.shows(OTHER)
    t.draw(due - 1, None)
    t.draw(due, refresh(k + 1, 1800, NAMED))
    return due


def ends(t, now):
    t.poll(now, None)
    t.shows()


def each_length(**how):
    t = Trace(setup(short=True, **how))
    now = t.renews()
    for k, (seconds, before) in enumerate((
        (599, ahead(599)), (600, ahead(599)), (70, ahead(70)), (600, ahead(70)), (2**32 - 1, ahead(70)),
        (121, ahead(121)), (120, ahead(120)), (119, ahead(119)), (1, ahead(1)), (599, ahead(599)), (70, ahead(70)),
    ), 2):
        now = granted_for(t, now, k, seconds, before)
    t.hear(now, success(REFRESH, 13, lifetime(0)))
    ends(t, now)
    return t


def of_none():
    t = Trace(setup(short=True))
    now = t.renews()
    t.hear(now, success(REFRESH, 2, lifetime(0)))
    ends(t, now)
    return "A REFRESH may shorten, and is granted for no time: the allocation ends at once", t


def of_ten_minutes():
    t = Trace(setup(short=True))
    now = granted_for(t, t.renews(), 2, 600, 60 * SECOND)
    t.hear(now, success(REFRESH, 3, lifetime(1000)))
    t.poll(now, now + 940 * SECOND)
    t.shows(OTHER)
    return "A REFRESH may shorten, and is granted for ten minutes and more: as without the word", t


def unanswered():
    t = Trace(setup(short=True))
    now = granted_for(t, t.renews(), 2, 70, 35 * SECOND)
    t.poll(now, now + 500 * MS)
    # A retransmission is due, since nothing was drawn.
    t.poll(now + 35 * SECOND - 1, now + 35 * SECOND - 1)
    t.shows(OTHER)
    ends(t, now + 35 * SECOND)
    return "A REFRESH shortens the allocation to 70 seconds, and the next is not answered: its time is over", t


def of_no_lifetime():
    t = Trace(setup(short=True))
    now = t.renews()
    t.hear(now, success(REFRESH, 2))
    t.poll(now, END)
    t.shows(OTHER)
    ends(t, END)
    return "A REFRESH may shorten, and is granted without a lifetime: it renews nothing", t


def refused():
    t = Trace(setup(short=True))
    now = t.renews()
    t.hear(now, error(REFRESH, 2))
    t.poll(now, END)
    t.shows(OTHER)
    ends(t, END)
    return "A REFRESH may shorten, and is refused: it renews nothing", t


def short_traces():
    yield "A REFRESH shortens the allocation, the next ones lengthen and shorten it: 599, 600, 70 seconds, and others", each_length()
    yield "The same of a hardened client", each_length(hardened=True)
    yield "The same of a hardened client with a limit on connections of peers", each_length(hardened=True, attempts=1)
    yield from (of_none(), of_ten_minutes(), unanswered(), of_no_lifetime(), refused())
