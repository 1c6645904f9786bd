"""Peers on loopback that send back what they get, and count the payloads that differ; and a translator of addresses."""

import contextlib
import re
import socket
import threading
import time

MOST = 65536  # bytes that are read at once
PIECE, SILENCE = 1000, 5  # bytes that a peer sends at once; seconds without any after which it closes
WAITS = re.compile(r"waits for a connection to (\S+):(\d+)\n")
HELD = 1 << 22  # bytes that a socket is to hold, so that a burst isn't lost there


class Peer:
    """Over UDP: a payload is a datagram."""

    def __init__(self, host):
        family = socket.AF_INET6 if ":" in host else socket.AF_INET
        self._socket = socket.socket(family, socket.SOCK_DGRAM)
        self._socket.setsockopt(socket.SOL_SOCKET, socket.SO_RCVBUF, HELD)
        self._socket.bind((host, 0))
        self._socket.settimeout(0.2)
        self._seen = set()
        self._first = self._last = 0.0
        self._is_over = False
        self._thread = threading.Thread(target=self._serve, daemon=True)
        self._thread.start()

    @property
    def address(self):
        host, port = self._socket.getsockname()[:2]
        return f"[{host}]:{port}" if ":" in host else f"{host}:{port}"

    def _serve(self):
        while not self._is_over:
            try:
                payload, sender = self._socket.recvfrom(MOST)
                self._last = time.monotonic()
                self._first = self._first or self._last
                self._seen.add(payload)
                self._socket.sendto(payload, sender)
            except OSError:  # nothing came, or nobody is there to answer to
                continue

    def count(self):
        """How many payloads came that differ."""
        return len(self._seen)

    def seconds(self):
        """How long after the first payload the last one came."""
        return self._last - self._first

    def end(self):
        self._is_over = True
        self._thread.join()
        self._socket.close()


class StreamPeer:
    """Over TCP: it counts bytes, for there are no payloads in a stream."""

    def __init__(self, host):
        family = socket.AF_INET6 if ":" in host else socket.AF_INET
        self._socket = socket.create_server((host, 0), family=family)
        self._socket.settimeout(0.2)
        self._bytes = 0
        self._is_over = False
        self._thread = threading.Thread(target=self._serve, daemon=True)
        self._thread.start()

    address = Peer.address

    def _serve(self):
        while not self._is_over:
            try:
                one, _ = self._socket.accept()
            except OSError:
                continue
            with one:
                one.settimeout(0.2)
                self._send_back(one)

    def _send_back(self, one):
        while not self._is_over:
            try:
                came = one.recv(MOST)
                if not came:
                    return
                self._bytes += len(came)
                one.sendall(came)
            except TimeoutError:
                continue
            except OSError:
                return

    def count(self):
        """How many bytes came."""
        return self._bytes

    end = Peer.end


class OpeningPeer:
    """Over TCP: once the program waits for a connection, it opens one, sends bytes piece by piece, each when the one
    before is back, and counts those that come back as they went. The first piece goes before the connection is bound.
    It closes when all are back, or none came for a while. (Before that coturn keeps 16 reads, and drops the rest.)"""

    def __init__(self, host, transcript, size):
        self.address = host
        self._transcript, self._size = transcript, size
        self._bytes = 0
        self._is_over = False
        self._thread = threading.Thread(target=self._work, daemon=True)
        self._thread.start()

    def _relayed(self):
        """Where the program waits for it, by its transcript."""
        while not self._is_over:
            with contextlib.suppress(OSError), open(self._transcript, encoding="utf-8", errors="replace") as text:
                found = WAITS.search(text.read())
                if found:
                    return found.group(1).strip("[]"), int(found.group(2))
            time.sleep(0.05)
        return None

    def _work(self):
        relayed = self._relayed()
        if relayed is None:
            return
        sent = bytes(33 + number % 90 for number in range(self._size))
        with contextlib.suppress(OSError), socket.create_connection(relayed, timeout=SILENCE) as one:
            while self._bytes < self._size and not self._is_over:
                if self._bytes % PIECE == 0:
                    one.sendall(sent[self._bytes : self._bytes + PIECE])
                came = one.recv(MOST)
                if not came or came != sent[self._bytes : self._bytes + len(came)]:
                    return
                self._bytes += len(came)

    def count(self):
        """How many bytes came back."""
        return self._bytes

    def end(self):
        self._is_over = True
        self._thread.join()


class Translator:
    """Between one client and its server over UDP: the server sees its `public` address, and not the client's."""

    def __init__(self, server):
        self._inner, self._outer = (socket.socket(socket.AF_INET, socket.SOCK_DGRAM) for _ in range(2))
        for one in (self._inner, self._outer):
            one.bind(("127.0.0.1", 0))
            one.settimeout(0.2)
        self.port = self._inner.getsockname()[1]  # where the client finds its server
        self.public = "{}:{}".format(*self._outer.getsockname())
        self._server, self._client = server, None
        self._is_over = False
        self._threads = [threading.Thread(target=it, daemon=True) for it in (self._go_out, self._come_in)]
        for thread in self._threads:
            thread.start()

    def _go_out(self):
        while not self._is_over:
            try:
                came, self._client = self._inner.recvfrom(MOST)
                self._outer.sendto(came, self._server)
            except OSError:
                continue

    def _come_in(self):
        while not self._is_over:
            try:
                came, source = self._outer.recvfrom(MOST)
                if source == self._server:
                    self._inner.sendto(came, self._client)
            except OSError:
                continue

    def end(self):
        self._is_over = True
        for thread in self._threads:
            thread.join()
        for one in (self._inner, self._outer):
            one.close()
