#!/usr/bin/env python3
"""Makes the rows of `test_rows_client`: what it is asked, and what it is to answer.

Nothing here knows the repository's code. What is to be answered is worked out by RFC 8489 and RFC 8656, and by what
the calls of a client's settings, errors, payloads and sends are documented to do and to print. Waits are those of
`rows_proto_base.py`.
"""

import itertools
import sys
from pathlib import Path

# what is imported leaves no folder of compiled files behind
sys.dont_write_bytecode = True

from rows_client_permits import permits
from rows_client_requests import requests
from rows_proto_base import BINDING, DEFAULT, GREATEST, HERE, HOUR, LONGEST, THERE, Waits, message as bare
from rows_wire_base import NUMBER, ROWS, SMALL, part, row, write
from rows_wire_frames import TCP_WAY
from traces_base import INDICATION, MS, PEER, message, xored
from traces_payloads import DATA, SEND, frame

CRATE = Path(__file__).resolve().parents[2] / "crates/test_rows_client"


# ---- settings, and the agent that they make

FAMILIES = {"v4": "IPV4", "v6": "IPV6"}
ALGORITHMS = {"sha1": "Sha1", "sha256": "Sha256", "sha512": "Sha512"}


# ports that are asked for, as they are printed
PORTS = {"any": "Any", "even": "Even", "pair": "EvenAndNextReserved"}


def changed(names, known, how, name):
    """A list behind a change: `=` leaves one name, and `+` puts one behind that is not there."""
    if how == "=":
        return (known[name],)
    return names if known[name] in names else (*names, known[name])


class Settings:
    """Settings of an account behind changes in order, each a word or the four numbers of waits."""

    def __init__(self, name, password, changes):
        self.account = name or "-", password or "-"
        self.transport, self.families, self.algorithms = "UDP", ("IPV4",), ("Sha1",)
        self.anonymity, self.is_hardened, self.attempts, self.waits = "Auto", False, None, None
        self.believes_short, self.accepts_indications, self.refused = False, False, []
        self.lifetime, self.port, self.pace = 1800, "Any", 50 * MS
        self.words = []
        for it in changes:
            self.words += ["waits", *it] if isinstance(it, tuple) else it.split(" ")
            self.change(it)

    def change(self, it):
        if isinstance(it, tuple):
            self.waits = it
            return
        if it in ("hardened", "softened"):
            self.is_hardened = it == "hardened"
            return
        if it in ("short", "long"):
            self.believes_short = it == "short"
            return
        if it in ("indications", "requests"):
            self.accepts_indications = it == "indications"
            return
        kind, *given = it.split(" ")
        if kind in ("lifetime", "port", "pace"):
            self.ask(kind, *given)
            return
        if it.startswith("attempts ") or it == "unlimited":
            self.attempts = None if it == "unlimited" else it.split(" ")[1]
            return
        how = "+" if "+" in it else "="
        kind, name = it.split(how)
        if kind == "family":
            self.families = changed(self.families, FAMILIES, how, name)
        elif kind == "algorithm":
            self.algorithms = changed(self.algorithms, ALGORITHMS, how, name)
        elif kind == "transport":
            self.transport = name.upper()
        else:
            self.anonymity = name.capitalize()

    def ask(self, kind, first, *token):
        if kind == "port":
            self.port = f"Reserved({token[0]})" if token else PORTS[first]
        elif kind == "pace":
            self.pace = nanos("max" if first == "max" else int(first))
        elif first == "0":
            # a REFRESH for that long deletes (RFC 8656, section 8.1)
            self.refused.append("a lifetime of 0 deletes the allocation")
        else:
            self.lifetime = int(first)

    def told(self):
        last = ["indications"] * self.accepts_indications + ["hardened"] * self.is_hardened
        last += ["short"] * self.believes_short
        last += [] if self.attempts is None else ["attempts", self.attempts]
        last += ["lifetime", self.lifetime] * (self.lifetime != 1800) + ["port", self.port] * (self.port != "Any")
        last += ["pace", self.pace] * (self.pace != 50 * MS)
        return [*self.account, self.transport, *self.families, *self.algorithms, self.anonymity, *last]

    def schedule(self):
        """How long the requests of an agent wait: as those of every agent, where no waits are set."""
        if self.waits is None:
            return DEFAULT
        initial, most, times, last = self.waits
        return Waits(nanos(initial), nanos(most), times, nanos(last))


def nanos(millis):
    return LONGEST if millis == "max" else millis * MS


KEPT = []


def settings(*changes, name="user", password="pass"):
    """A row of settings, which are held against all that were made before and against themselves. Returns the indexes
    of those that equal them."""
    made = Settings(name, password, changes)
    KEPT.append(made)
    equal = [at for at, it in enumerate(KEPT) if (it.told(), it.waits) == (made.told(), made.waits)]
    answer = [*made.refused, *made.told(), "equals", *equal, "is equalled by", *equal]
    row("settings", *made.account, *made.words)(*answer)
    return equal


def step_by_step(steps):
    """Each front of some changes."""
    for count in range(len(steps) + 1):
        settings(*steps[:count])


def lists():
    part("settings at first, and each that is set alone")
    settings()
    settings("transport=tcp")
    settings("anonymity=required")
    settings("transport=tcp", "anonymity=required")
    settings("transport=tcp", "family=v6", "algorithm=sha256", "anonymity=disabled", (600, 1000, 3, 3000))
    part("families are added and set: what is there already stays where it is")
    step_by_step(
        [f"family{it}" for it in ("+v4", "+v6", "+v4", "+v6", "=v6", "+v6", "+v4", "+v6", "=v4")],
    )
    part("algorithms are added and set: what is there already stays where it is")
    step_by_step(
        [
            f"algorithm{it}"
            for it in ("+sha1", "+sha256", "+sha1", "+sha256", "=sha256", "+sha256", "+sha1", "+sha256", "=sha1")
        ],
    )
    step_by_step([f"algorithm{it}" for it in ("+sha512", "+sha1", "+sha256", "+sha512", "=sha512", "+sha256", "+sha1")])


AT_FIRST = (500, "max", 7, 8000)


def kinds():
    part("settings are equal where each of them is: these are as at first")
    settings("transport=tcp", "transport=udp")
    settings("family=v4", "family+v4")
    settings("family+v6", "family=v4")
    settings("algorithm=sha1", "algorithm+sha1")
    settings("anonymity=disabled", "anonymity=auto")
    part("another account; the same letters, parted elsewhere")
    settings(name="uses")
    settings(password="past")
    settings(name="userp", password="ass")
    settings(name="", password="")
    part("another transport, other families, and the same families in another order")
    settings("transport=tcp")
    settings("family=v6")
    settings("family+v6", "family=v6")
    settings("family+v6")
    settings("family=v6", "family+v4")
    part("other algorithms, and the same in another order")
    settings("algorithm=sha256")
    settings("algorithm+sha256")
    settings("algorithm=sha256", "algorithm+sha1")
    for order in itertools.permutations(ALGORITHMS):
        settings(*(f"algorithm{sign}{it}" for sign, it in zip("=++", order)))
    settings("algorithm=sha512")
    settings("algorithm=sha512", "algorithm+sha256")
    settings("algorithm+sha512")
    part("names that are hidden always, and never")
    settings("anonymity=required")
    settings("anonymity=disabled")
    part("waits, each of them another one; not at all counts as once, and yet is set otherwise")
    for waits in (
        [(600, 1000, 3, 3000)],
        [AT_FIRST, (600, 1000, 3, 3000)],
        [(601, 1000, 3, 3000)],
        [(600, 1001, 3, 3000)],
        [(600, 1000, 4, 3000)],
        [(600, 1000, 3, 3001)],
        [(600, 1000, 0, 3000)],
        [(600, 1000, 1, 3000)],
        [(1000, 600, 3, 3000)],
        [(600, 3000, 3, 1000)],
        [("max", "max", 4294967295, "max")],
    ):
        settings(*waits)
    part("the waits of a new agent: where none are set there is no greatest one")
    settings(AT_FIRST)


def no_settings():
    part("an agent of no settings")
    row("agent", "UDP", DEFAULT.end(0))("bad line")


def agent(transport):
    """The agent of the last settings: the end is named, and the request is sent again at each of its moments."""
    waits = KEPT[-1].schedule()
    end = waits.end(0)
    again = [waits.slot(0, place) for place in range(1, waits.times(transport == "TCP"))]
    number = f"0x{1:024x}"
    assert bare(BINDING, 1).hex() == "000100002112a442000000000000000000000001"
    behind = [f"{end - 1} waits {end}", f"{end} timed out {number}", f"{end} waits {min(end + HOUR, GREATEST)}"]
    row("agent", transport, end)(transport, HERE, "None", THERE, "again", *again, *behind)


def agents():
    part("an agent waits as the settings say: those of RFC 8489, section 6.2.1, where none are set")
    for waits in (
        None,
        (600, 1000, 3, 3000),
        AT_FIRST,
        # no wait is longer than the greatest one, but the last may be
        (600, 100, 4, 9000),
        (600, 600, 4, 100),
        (100, 1000, 5, 1),
        # not at all counts as once
        (600, 1000, 1, 3000),
        (600, 1000, 0, 3000),
        # past an hour
        (5_000_000, 5_000_000, 3, 5_000_000),
    ):
        settings(*[waits] * (waits is not None))
        for transport in ("UDP", "TCP"):
            agent(transport)
    part("other settings change nothing of it")
    settings("transport=tcp", "family=v6", "algorithm=sha256", "anonymity=required", (600, 1000, 3, 3000))
    agent("UDP")


# ---- errors

NO_MEMORY = "no memory"
NO_PERMISSION = "There is no permission installed for the requested peer"
NO_SERVER = "There is no connection to the TURN server"
EXISTS = "The TCP connection already exists and cannot be recreated."
NO_SOCKET = f"{NO_SERVER} that can handle this TCP socket."

ERRORS = {
    "bind": {
        "already-exists": "The channel identifier already exists and cannot be recreated.",
        "no-allocation": f"{NO_SERVER} that can handle this channel.",
        "no-channel": "no channel number is free",
    },
    "permission": {
        "already-exists": "The permission already exists and cannot be recreated.",
        "no-allocation": f"{NO_SERVER} that can handle this permission",
    },
    "permissions": {
        "invalid-addresses": "there is no address, there are too many, or they are of two families",
        "already-exists": "The permission already exists and cannot be recreated.",
        "no-allocation": f"{NO_SERVER} that can handle this permission",
    },
    "delete": {"no-allocation": NO_SERVER},
    "send": {
        "no-allocation": NO_SERVER,
        "no-permission": NO_PERMISSION,
        "no-tcp-socket": "There is no local TCP socket for the requested peer",
        "too-large": "payload too large",
    },
    "connect": {"already-exists": EXISTS, "no-allocation": NO_SOCKET, "no-permission": NO_PERMISSION},
    "socket": {"already-exists": EXISTS, "no-allocation": NO_SOCKET},
}


def errors():
    part("texts of errors, and the error that is made of want of memory")
    for kind, texts in ERRORS.items():
        for variant, text in {**texts, "no-memory": NO_MEMORY, "memory": NO_MEMORY}.items():
            row("error", kind, variant)(text)
    part("the moment through which a channel's number stays reserved, in nanoseconds")
    for moment in (0, 1, 7, 1_000_000_000, GREATEST):
        text = f"The channel for requested peer address has expired and cannot be recreated until {moment}."
        row("error", "bind", "expired", moment)(text)


# ---- payloads

BYTES = b"abcde"


def payload_of(data):
    """What is held; the payload, its copy, and the copy once more."""
    return [data, *[data, data, "TCP", "10.0.0.2:2000"] * 3]


def payloads():
    part("payloads are the bytes of their range: past the end there is nothing")
    for start in (*range(8), "max"):
        for end in (*range(8), 9, "max"):
            first, last = (2**64 - 1 if it == "max" else it for it in (start, end))
            row("payload", start, end)(*payload_of(BYTES[first:last]))
    part("payloads of bytes of their own")
    for data in (b"", b"a", BYTES, bytes(range(32))):
        row("owned", data.hex() or "-")(*payload_of(data))


# ---- sends


def sent(data):
    """What is said of bytes that are built, and then written over bytes of 09."""
    return [len(data), not data, TCP_WAY, data, len(data), data]


def sends():
    part("channel frames as they are built and written: over a stream they are padded to four bytes")
    of_sizes = [bytes(range(1, size + 1)) for size in range(10)]
    for channel in (0x4567, 0x4000, 0x7FFF):
        for data in (b"\5" * 5, *of_sizes):
            text = frame(channel, data)
            row("send", "frame", f"{channel:04x}", data.hex() or "-")(*sent(text))
            row("send", "padded", f"{channel:04x}", data.hex() or "-")(*sent(text + bytes(-len(text) % 4)))
    part("SEND indications as they are built and written")
    expected = {
        "127.0.0.1:1": "001600182112a442ade0b876903df1a0e56a5d40"
        "00120008000121135e12a443001300050505050505000000",
        "[2001:db8::1]:3478": "001600242112a442ade0b876903df1a0e56a5d40"
        "0012001400022c840113a9faade0b876903df1a0e56a5d41001300050505050505000000",
    }
    for peer, worked in expected.items():
        for number in (NUMBER, SMALL, b"\xff" * 12):
            for data in (b"\5" * 5, *of_sizes):
                text = message(SEND | INDICATION, number, [(PEER, xored(peer, number)), (DATA, data)])
                assert (number, data) != (NUMBER, b"\5" * 5) or text.hex() == worked
                row("send", "indication", peer, int.from_bytes(number, "big"), data.hex() or "-")(*sent(text))
    part("bytes as they are, and bytes that are written already")
    for kind in ("data", "owned"):
        for data in (b"\5" * 5, b"\7" * 7, b"abc", *of_sizes):
            row("send", kind, data.hex() or "-")(*sent(data))


def bad_lines():
    part("lines that can't be read; settings of such a line are not kept")
    for line in (
        "nothing",
        "settings",
        "settings user",
        "settings user pass family=v5",
        "settings user pass transport=sctp",
        "settings user pass Transport=tcp",
        "settings user pass algorithm=md5",
        "settings user pass anonymity=none",
        "settings user pass waits",
        "settings user pass waits 600 1000 3",
        "settings user pass waits 600 1000 max 3000",
        "settings user pass waits 600 1000 4294967296 3000",
        "settings user pass waits -1 1000 3 3000",
        "settings user pass waits 18446744073709551616 1000 3 3000",
        "agent",
        "agent udp 39500000000",
        "agent UDP",
        "agent UDP 18446744073709551616",
        "debug",
        "debug user",
        "debug user pass",
        "error",
        "error bind",
        "error bind expired",
        "error bind expired x",
        "error bind no-permission",
        "error permission expired",
        "error delete already-exists",
        "error send already-exists",
        "error connect too-large",
        "error socket no-permission",
        "error other no-memory",
        "payload",
        "payload 1",
        "payload 1 18446744073709551616",
        "payload -1 1",
        "owned",
        "owned 0",
        "owned AB",
        "send",
        "send other 05",
        "send frame 4567",
        "send frame 3fff 05",
        "send frame 8000 05",
        "send frame 14567 05",
        "send padded x 05",
        "send indication 127.0.0.1 1 05",
        "send indication 127.0.0.1:1 x 05",
        "send indication 127.0.0.1:1 1",
        "send data",
        "send owned 5",
    ):
        row(*line.split(" "))("bad line")
    for line in (" settings user pass", "settings  user pass", "settings user pass "):
        ROWS.append((line, "bad line"))
    part("the next settings")
    settings()


OTHERS = ("transport=tcp", "family=v6", "algorithm+sha256", "anonymity=required", (600, 1000, 3, 3000))


def hardened():
    part("hardened settings equal their copy, and none that are not hardened")
    alone = settings("hardened")
    assert alone == [len(KEPT) - 1]
    assert settings("softened") == settings()[:-1]
    part("what was set last counts, however often")
    for words, is_hardened in (
        (["hardened", "hardened"], True),
        (["softened", "hardened"], True),
        (["hardened", "softened", "hardened"], True),
        (["hardened", "softened"], False),
        (["softened", "softened"], False),
        (["hardened", "hardened", "softened"], False),
    ):
        assert (alone[0] in settings(*words)) == is_hardened
    part("with each other setting: hardened first, hardened last, and not hardened")
    for others in (*([it] for it in OTHERS), OTHERS):
        first, last = settings("hardened", *others), settings(*others, "hardened")
        assert last[:-1] == first and not {*last} & {*settings(*others)}
    part("of other accounts, the same letters parted elsewhere, and none")
    for account in ({"name": "uses"}, {"password": "past"}, {"name": "userp", "password": "ass"}):
        assert settings("hardened", **account) == [len(KEPT) - 1]
        settings(**account)
    settings("hardened", name="", password="")
    part("an agent's waits are the same")
    for waits in ([], [(600, 1000, 3, 3000)]):
        settings("hardened", *waits)
        agent("UDP")
        agent("TCP")
    part("words that mean no such change; settings of such a line are not kept")
    for word in ("Hardened", "hardened=true", "hardened=", "harden", "soften", "not-hardened", "hardened 1"):
        row("settings", "user", "pass", *word.split(" "))("bad line")
    part("the next settings")
    settings("hardened")


def limited():
    part("settings with a limit on connections of peers equal their copy, and none with another limit or none")
    for limit in ("0", "1", "64", "18446744073709551615"):
        assert settings(f"attempts {limit}") == [len(KEPT) - 1]
        assert settings("hardened", f"attempts {limit}") == [len(KEPT) - 1]
    part("what was set last counts")
    assert len(settings("attempts 1", "attempts 64")) == 2
    assert settings("attempts 1", "unlimited") == settings()[:-1]
    for others in (*([it] for it in OTHERS), OTHERS):
        first, last = settings("attempts 2", *others), settings(*others, "attempts 2")
        assert last[:-1] == first and not {*last} & {*settings(*others)}
    part("words that mean no such change")
    bad = ("attempts", "attempts many", "attempts -1", f"attempts {2**64}", "Attempts 1", "unlimited 1")
    for word in bad:
        row("settings", "user", "pass", *word.split(" "))("bad line")


def short_lived():
    part("settings with which a REFRESH may shorten an allocation equal their copy, and none with which it may not")
    alone = settings("short")
    assert alone == [len(KEPT) - 1]
    assert settings("hardened", "short") == [len(KEPT) - 1]
    assert settings("short", "attempts 64") == [len(KEPT) - 1]
    assert settings("hardened", "short", "attempts 64") == [len(KEPT) - 1]
    part("what was set last counts")
    assert settings("long", "short")[:-1] == settings("short", "short")[:-2]
    assert settings("short", "long") == settings()[:-1]
    for others in (*([it] for it in OTHERS), OTHERS):
        first, last = settings("short", *others), settings(*others, "short")
        assert last[:-1] == first and not {*last} & {*settings(*others)}
    part("words that mean no such change")
    for word in ("Short", "short=true", "short 1", "shorter", "long 0"):
        row("settings", "user", "pass", *word.split(" "))("bad line")


def announced():
    part("settings with which indications announce connections equal their copy, and none with which they don't")
    alone = settings("indications")
    assert alone == [len(KEPT) - 1]
    for others in (["hardened"], ["short"], ["attempts 64"], ["hardened", "short", "attempts 64"]):
        assert settings("indications", *others) == [len(KEPT) - 1]
    part("what was set last counts")
    assert settings("requests", "indications")[:-1] == settings("indications", "indications")[:-2]
    assert settings("indications", "requests") == settings()[:-1]
    for others in (*([it] for it in OTHERS), OTHERS):
        first, last = settings("indications", *others), settings(*others, "indications")
        assert last[:-1] == first and not {*last} & {*settings(*others)}
    part("words that mean no such change")
    for word in ("Indications", "indications=true", "indications 1", "indication", "requests 0"):
        row("settings", "user", "pass", *word.split(" "))("bad line")


def asked_otherwise():
    part("settings that ask for another lifetime or port, or leave other time between messages")
    for change in ("lifetime 1", "lifetime 4294967295", "port even", "port pair", "port reserved 0",
                   f"port reserved {2**64 - 1}", "pace 0", "pace 49", "pace 51", "pace max"):
        assert settings(change) == [len(KEPT) - 1]
    part("what is as in new settings makes no difference, and what was set last counts")
    for change in ("lifetime 1800", "port any", "pace 50"):
        assert settings(change)[:-1] == settings()[:-2]
    assert settings("port even", "port any", "lifetime 9", "lifetime 1800", "pace 9", "pace 50")[:-1] == settings()[:-2]
    for others in (*([it] for it in OTHERS), OTHERS):
        first, last = settings("port pair", "pace 9", *others), settings(*others, "pace 9", "port pair")
        assert last[:-1] == first and not {*last} & {*settings(*others)}
    part("a lifetime of 0 is refused, and the other stays")
    assert settings("lifetime 7", "lifetime 0")[:-1] == settings("lifetime 7")[:-2]
    part("words that mean no such change")
    for word in ("lifetime", "lifetime -1", f"lifetime {2**32}", "port", "port odd", "port reserved",
                 f"port reserved {2**64}", "pace", "pace x", "Pace 5"):
        row("settings", "user", "pass", *word.split(" "))("bad line")


def debugs():
    part("what credentials are printed as for who looks for a fault: no password is")
    for name, password, realm in (("user", "pass", "realm"), ("", "", ""), ("a\"b", "secret", "r")):
        quoted = name.replace('"', '\\"')
        row("debug", name or "-", password or "-", realm or "-")(
            f'TurnCredentials {{ username: "{quoted}", password: .. }}',
            f'LongTermCredentials {{ username: "{quoted}", password: .. }}',
            f'LongTermKeyCredentials {{ username: "{quoted}", realm: "{realm}", password: .. }}',
            "ShortTermCredentials { password: .. }",
        )


def main():
    for made in (
        no_settings, lists, kinds, agents, errors, payloads, sends, debugs, bad_lines, hardened, limited, short_lived,
        announced, asked_otherwise, requests, permits,
    ):
        made()
    write(CRATE)


if __name__ == "__main__":
    main()
