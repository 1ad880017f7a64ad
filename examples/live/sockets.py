#!/usr/bin/env python3
"""A node whose line 0 is a socket: `sockets.py listen PORT` at one end, `sockets.py connect HOST PORT` at the other.

Each end sends packets, and says how many of the other's came. Both send first what leaves in a turn, by a thread of its
own, and then take what comes: so neither waits for the other for ever. OTN_LIVE says where the program otn_live is.
"""
import pathlib
import socket
import sys
import threading

sys.path.insert(0, str(pathlib.Path(__file__).resolve().parents[2] / "python"))
import otn_live  # noqa: E402

TURNS = 64
PLAN = f"""
turns = {TURNS}
[[connection]]
name = "out"
kind = "odu0"
from = {{ client = 0 }}
to = {{ line = 0, port = 1, slots = [3] }}
[[connection]]
name = "in"
kind = "odu0"
from = {{ line = 0, port = 1, slots = [3] }}
to = {{ client = 1 }}
"""


def other_end():
    if sys.argv[1] == "listen":
        with socket.create_server(("127.0.0.1", int(sys.argv[2]))) as server:
            return server.accept()[0]
    return socket.create_connection((sys.argv[2], int(sys.argv[3])), timeout=30)


def receive(peer, count):
    frames = bytearray()
    while len(frames) < count:
        some = peer.recv(count - len(frames))
        if not some:
            raise EOFError("the other end is gone")
        frames += some
    return bytes(frames)


sent, came = 0, []
with other_end() as peer, otn_live.Node(PLAN) as node:
    for turn in range(1, TURNS + 1):
        sender = threading.Thread(target=peer.sendall, args=(node.out.lines[0],))
        sender.start()
        frames = receive(peer, otn_live.MULTIFRAME)
        sender.join()
        packets = [f"{sys.argv[1]} {turn} {k}".encode() for k in range(turn % 4)]
        sent += len(packets)
        came += node.turn({0: frames}, {0: packets}).clients.get(1, [])
print(f"{sys.argv[1]}: {sent} packets sent, {len(came)} came, the last: {came[-1].decode()}")
