"""What error responses came to a client from its server's address: read from their bytes alone (RFC 8489, sections 14.8
and 14.15). A message may be cut in a stream; so it is looked for in all that came, at its magic cookie.
"""

import socket
import struct

from hostile_messages import ERROR, header, is_signed, read, text_of
from traces_base import ERROR_CODE, MAGIC, REALM

COOKIE = MAGIC.to_bytes(4, "big")
ALTERNATE_SERVER = 0x8023
# the longest message of which a piece may have come before
LONGEST = 2000


class Errors:
    """Codes, reasons, whether they are signed under a key of the user, and the servers that a 300 names."""

    def __init__(self, name, password):
        self.name, self.password, self.realms = name, password, set()
        self.found, self.servers = set(), set()

    def hear(self, came, size):
        """So many bytes came, behind others."""
        at = came.find(COOKIE, max(4, len(came) - size - LONGEST))
        while at >= 0:
            front = header(came[at - 4 : at + 16])
            message = read(came[at - 4 : at + 16 + front[1]]) if front else None
            if message:
                self.take(message)
            at = came.find(COOKIE, at + 1)

    def take(self, message):
        self.realms.update(it.decode(errors="replace") for it in message.all(REALM))
        value = message.first(ERROR_CODE)
        if message.form != ERROR or value is None or len(value) < 4:
            return
        code, reason = (value[2] & 7) * 100 + value[3], shown(value[4:])
        self.found.add((str(code), "unsigned", reason))
        if any(is_signed(message, self.name, it, self.password) for it in self.realms):
            self.found.add((str(code), "signed", reason))
        if code == 300:
            self.servers.add(server_in(message.first(ALTERNATE_SERVER)))

    def has(self, code, how, reason):
        return (code, how, reason) in self.found


def shown(reason):
    """A reason in hex; `-` stands for an empty one, and for one that is no UTF-8."""
    try:
        reason.decode()
    except UnicodeDecodeError:
        return "-"
    return reason.hex() or "-"


def server_in(value):
    """The address that a value names as it is, or None."""
    if value is None or len(value) < 8 or len(value) != {1: 8, 2: 20}.get(value[1]):
        return None
    host = socket.inet_ntop(socket.AF_INET if value[1] == 1 else socket.AF_INET6, value[4:])
    return text_of(host, struct.unpack(">H", value[2:4])[0])
