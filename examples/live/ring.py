#!/usr/bin/env python3
"""A ring of three nodes, with customers both ways, and faults that are put in while it runs: `ring.py [TURNS]`.

Line 0 leads on, line 1 back. Each node has a customer to each other node. In one of twenty turns a fibre has wrong bits.
OTN_LIVE says where the program otn_live is.
"""
import pathlib
import random
import sys

sys.path.insert(0, str(pathlib.Path(__file__).resolve().parents[2] / "python"))
import otn_live  # noqa: E402

TURNS = int(sys.argv[1]) if len(sys.argv) > 1 else 100
NODES = 3
rng = random.Random(1)


def entry(name, source, to):
    return f'[[connection]]\nname = "{name}"\nkind = "odu0"\nfrom = {{ {source} }}\nto = {{ {to} }}\n'


def plan():
    """The same for each node: client 0 goes on, client 1 back, and what comes of either goes to clients 2 and 3."""
    slot = "line = {0}, port = 1, slots = [1]".format
    return f"turns = {TURNS}\n" + entry("on", "client = 0", slot(0)) + entry("back", "client = 1", slot(1)) \
        + entry("came-on", slot(0), "client = 2") + entry("came-back", slot(1), "client = 3")


def faulty(frames):
    """A fibre, which now and then has wrong bits."""
    if rng.random() > 0.05:
        return frames
    harmed = bytearray(frames)
    for _ in range(20):
        harmed[rng.randrange(len(harmed))] ^= 1 << rng.randrange(8)
    return bytes(harmed)


nodes = [otn_live.Node(plan()) for _ in range(NODES)]
outs = [node.out for node in nodes]
sent = came = 0
for turn in range(1, TURNS + 1):
    lines = [{0: faulty(outs[i - 1].lines[0]), 1: faulty(outs[(i + 1) % NODES].lines[1])} for i in range(NODES)]
    packets = [{n: [rng.randbytes(rng.randrange(1, 1500)) for _ in range(rng.randrange(4))] for n in (0, 1)} for _ in range(NODES)]
    outs = [nodes[i].turn(lines[i], packets[i]) for i in range(NODES)]
    sent += sum(len(them) for each in packets for them in each.values())
    came += sum(len(them) for out in outs for them in out.clients.values())
reports = [node.turn().report.decode() for node in nodes]
for node in nodes:
    node.close()
print(f"{NODES} nodes, {TURNS} turns: {sent} packets sent, {came} came")
print("node 0 reports:", *reports[0].splitlines()[1:3], sep="\n    ")
