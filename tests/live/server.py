"""coturn on loopback, over IPv4 and where there is one IPv6, for the user alice with the password secret."""

import os
import random
import re
import secrets
import shutil
import signal
import socket
import subprocess
import threading
import time

PROGRAM = "turnserver"
USER, PASSWORD, REALM = "alice", "secret", "example.org"
FIRST_PORT, LAST_PORT, PORTS = 20000, 32000, 200  # a server takes PORTS in a row, from some port on
RELAY_FROM, RELAY_TO = 100, 199  # of these the relayed ones
READY_WITHIN = 10  # seconds

COOKIE = bytes.fromhex("2112a442")
# a certificate for a case over TLS, whose names are those by which programs reach the server
CERTIFICATE, KEY, ANOTHER = "certificate.pem", "key.pem", "another.pem"
CERTIFIED = ("openssl", "req", "-x509", "-newkey", "ec", "-pkeyopt", "ec_paramgen_curve:P-256", "-nodes", "-days", "2",
             "-subj", "/CN=localhost", "-addext", "subjectAltName=IP:127.0.0.1,IP:::1,DNS:localhost",
             "-addext", "basicConstraints=critical,CA:FALSE")  # rustls takes no certificate of an authority for a server's

BINDING_REQUEST = bytes.fromhex("00010000") + COOKIE


def version():
    """Its version as it tells it; None where it isn't there."""
    try:
        told = subprocess.run([PROGRAM, "--version"], capture_output=True, text=True, check=False)
    except FileNotFoundError:
        return None
    found = re.search(r"\d+\.\d+(\.\d+)?", told.stdout + told.stderr)
    return found.group() if found else "of unknown version"


def _family(host):
    return socket.AF_INET6 if ":" in host else socket.AF_INET


def _is_there(host):
    """Whether this machine has the address."""
    try:
        with socket.socket(_family(host), socket.SOCK_DGRAM) as one:
            one.bind((host, 0))
            return True
    except OSError:
        return False


HOSTS = tuple(filter(_is_there, ("127.0.0.1", "::1")))


def is_free(port):
    """Whether both transports have the port over each family."""
    for host in HOSTS:
        for kind in (socket.SOCK_STREAM, socket.SOCK_DGRAM):
            with socket.socket(_family(host), kind) as one:
                try:
                    one.bind((host, port))
                except OSError:
                    return False
    return True


class Ports:
    """The ports of one run: no two of its cases have the same at once, though coturn would share them."""

    def __init__(self):
        self._lock = threading.Lock()
        self._taken = set()

    def take(self):
        """A port with those behind it, which nobody has now."""
        with self._lock:
            while True:
                port = random.randrange(FIRST_PORT, LAST_PORT, PORTS)
                if port not in self._taken and is_free(port) and is_free(port + 1):
                    self._taken.add(port)
                    return port

    def give_back(self, port):
        with self._lock:
            self._taken.discard(port)


def _answers(host, port):
    """Whether a BINDING request is answered."""
    with socket.socket(_family(host), socket.SOCK_DGRAM) as one:
        one.settimeout(0.1)
        try:
            one.connect((host, port))
            one.send(BINDING_REQUEST + secrets.token_bytes(12))
            return len(one.recv(1500)) > 0
        except OSError:
            return False


def certify(folder):
    """Makes a certificate with its key in a folder, and another one. Where that can't be, a RuntimeError says why."""
    if shutil.which(CERTIFIED[0]) is None:
        raise RuntimeError("there is no openssl, which makes the certificate: apt-get install openssl")
    for key, certificate in (("another-key.pem", ANOTHER), (KEY, CERTIFICATE)):
        made = (*CERTIFIED, "-keyout", os.path.join(folder, key), "-out", os.path.join(folder, certificate))
        subprocess.run(made, stdin=subprocess.DEVNULL, stderr=subprocess.DEVNULL, check=True)


class Server:
    """One coturn. Its log stands in its folder; `variables` are more of its environment. With TLS it has a certificate
    of its own in its folder, and takes that at the port behind `port`, too."""

    def __init__(self, processes, port, folder, options, variables=None, has_tls=False):
        self.port, self._variables, self._has_tls = port, variables or {}, has_tls
        self.log = os.path.join(folder, "coturn.log")
        self._processes, self._folder, self._options = processes, folder, options
        self._process = None

    def _command(self):
        folder = self._folder
        own = ["--listening-ip=" + host for host in HOSTS] + ["--relay-ip=" + host for host in HOSTS]
        own += [f"--cert={folder}/{CERTIFICATE}", f"--pkey={folder}/{KEY}"] if self._has_tls else ["--no-tls"]
        return [PROGRAM, "-n", *own, f"--listening-port={self.port}", f"--tls-listening-port={self.port + 1}",
                f"--min-port={self.port + RELAY_FROM}", f"--max-port={self.port + RELAY_TO}", "--lt-cred-mech",
                "--realm=" + REALM, f"--user={USER}:{PASSWORD}", "--allow-loopback-peers", "--no-dtls",
                "--no-cli", "--relay-threads=1", "--verbose", "--log-file=" + self.log, "--simple-log",
                f"--pidfile={folder}/coturn.pid", f"--userdb={folder}/coturn.users", *self._options]

    def start(self):
        if self._has_tls:
            certify(self._folder)
        with open(os.path.join(self._folder, "coturn.out"), "ab") as out:
            self._process = self._processes.start(self._command(), stdout=out, stderr=out,
                                                  env={**os.environ, **self._variables})
        until = time.monotonic() + READY_WITHIN
        while not all(_answers(host, self.port) for host in HOSTS):
            if self._process.poll() is not None or time.monotonic() > until:
                raise RuntimeError(f"{PROGRAM} doesn't start: see {self._folder}/coturn.out")
            time.sleep(0.05)

    def pause(self):
        self._process.send_signal(signal.SIGSTOP)

    def go_on(self):
        self._process.send_signal(signal.SIGCONT)

    def kill(self):
        self._processes.end(self._process, kill=True)

    def end(self):
        if self._process is not None:
            self._processes.end(self._process)

    def wait(self):
        """Waits until it ends by itself: its exit status."""
        return self._process.wait()

    def logged(self, pattern):
        """How often its log has this."""
        with open(self.log, encoding="utf-8", errors="replace") as log:
            return len(re.findall(pattern, log.read()))
