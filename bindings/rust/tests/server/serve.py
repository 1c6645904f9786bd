#!/usr/bin/env python3
"""serve.py udp|tcp: bindings/python/fake_server.py for the tests of Rust, which share no code with it.

It prints its address, and then takes commands, a line each, to each of which it answers by a line:

    rejects METHOD CODE     requests of a method get this error response; 0 for none
    denies HOST             requests of permissions for this host, and of no other one, get the error response 403
    silent METHOD [no]      requests of a method get no response; or they do
    elsewhere ADDRESS       a challenge names this server by a response 300
    chunk BYTES             how many bytes are written at once over TCP
    data PEER TEXT COUNT    sends so many DATA indications of a peer, with the text and a number
    icmp PEER               sends an indication with an ICMP report: type 3, code 3, data 5 (RFC 8656, section 18.13)
    hang up                 closes each connection
    greeting TEXT           what a peer sends as soon as its connection is bound
    requests | permissions | lifetimes | unsigned | payloads | bound

It ends with its input.
"""

import asyncio
import sys
from pathlib import Path

sys.dont_write_bytecode = True
sys.path.insert(0, str(Path(__file__).resolve().parents[3] / "python"))

from fake_server import FakeServer, base  # noqa: E402


def payload(noted):
    peer, data, is_by_channel = noted
    return f"{peer}|{data.decode()}|{'channel' if is_by_channel else 'indication'}"


def bound_to_peer(server):
    return str(server.bound is not None).lower()


def follow(server, command, given):
    """Does what a command says. What there is to answer."""
    if command == "rejects":
        server.rejects = {} if given[1] == "0" else {int(given[0]): int(given[1])}
    elif command == "denies":
        server.denies = {given[0]}
    elif command == "silent":
        (server.silent.discard if given[1:] == ["no"] else server.silent.add)(int(given[0]))
    elif command == "elsewhere":
        server.elsewhere = given[0]
    elif command == "chunk":
        server.chunk = int(given[0])
    elif command == "greeting":
        server.greeting = given[0].encode()
    elif command == "data":
        for k in range(int(given[2])):
            server.brings(base.data(given[0], f"{given[1]}{k}".encode()))
    elif command == "icmp":
        report = [base.to(given[0], base.ANY), (base.ICMP, bytes((0, 0, 3, 3, 0, 0, 0, 5)))]
        server.brings(base.message(base.TOLD, base.ANY, report))
    elif command == "hang":
        for writer in server.writers:
            writer.close()
    elif command == "payloads":
        return " ".join(map(payload, server.payloads))
    elif command == "bound":
        return bound_to_peer(server)
    elif command == "unsigned":
        return str(server.unsigned)
    elif command == "permissions":
        return " ".join(map(",".join, server.permissions))
    elif command in ("requests", "lifetimes"):
        return " ".join(map(str, getattr(server, command)))
    else:
        return f"no such command: {command}"
    return "done"


async def main():
    server = FakeServer()
    host, port = await server.start(sys.argv[1] == "tcp")
    print(f"{host}:{port}", flush=True)
    loop = asyncio.get_running_loop()
    while line := await loop.run_in_executor(None, sys.stdin.readline):
        command, *given = line.split() or [""]
        print(follow(server, command, given), flush=True)
    server.stop()


asyncio.run(main())
