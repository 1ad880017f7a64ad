#!/usr/bin/env python3
"""Two nodes in a row in one process: the plans and packets of examples/two-nodes, with the line handed on in memory.

    library/build python && python3 examples/library/two_nodes.py
"""
import pathlib
import sys

top = pathlib.Path(__file__).resolve().parent.parent.parent
sys.path.insert(0, str(top / "python"))
import otn

nodes = top / "examples" / "two-nodes"
plan_a, plan_b = (nodes / name / "plan.toml" for name in ("node-a", "node-b"))
sent = {n: otn.packets((nodes / "node-a" / f"client-{n:02}.in").read_bytes()) for n in (0, 1)}

first = otn.run(plan_a.read_bytes(), clients=sent)
second = otn.run(plan_b.read_bytes(), lines={0: first.lines[0]})
print(f"node A: {first.status.name.lower()}, line 0: {len(first.lines[0])} bytes")
print(f"node B: {second.status.name.lower()}")
for client, packets in sorted(second.clients.items()):
    print(f"client {client}: {len(packets)} packets, the first: {packets[0]!r}")
assert second.clients == {4: sent[0], 5: sent[1]}

# a line of which some bytes are damaged on the way
damaged = bytearray(first.lines[0])
damaged[200_000:200_400] = bytes(400)
third = otn.run(plan_b.read_bytes(), lines={0: bytes(damaged)})
print(f"after damage: {[len(it) for _, it in sorted(third.clients.items())]} packets")
