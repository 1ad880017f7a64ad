#!/usr/bin/env python3
"""A simulation by events: `events.py [LOAD [TURNS]] > delays.svg`.

Packets arrive at a client at random (Poisson), in time that is counted in turns of 97.9 microseconds. They cross two
nodes. What comes out is a histogram of their delays as SVG, and on standard error a line of numbers. LOAD is how much
of an ODU0 they fill, 0.6 if none is said. OTN_LIVE says where the program otn_live is.
"""
import collections
import itertools
import pathlib
import random
import sys

sys.path.insert(0, str(pathlib.Path(__file__).resolve().parents[2] / "python"))
import otn_live  # noqa: E402

LOAD = float(sys.argv[1]) if len(sys.argv) > 1 else 0.6
TURNS = int(sys.argv[2]) if len(sys.argv) > 2 else 400
MOST, PAYLOAD = 1400, 15_000                            # bytes of a packet, and of an ODU0's packets in a turn
rng = random.Random(5)
END = "line = 0, port = 1, slots = [1]"


def plan(source, to):
    return f'turns = {TURNS}\n[[connection]]\nname = "x"\nkind = "odu0"\nfrom = {{ {source} }}\nto = {{ {to} }}\n'


def arrivals():
    """Times and sizes of packets."""
    now = 0.0
    while True:
        now += rng.expovariate(LOAD * PAYLOAD / (MOST / 2))
        yield now, rng.randrange(8, MOST)


delays = collections.Counter()
coming = arrivals()
numbers = itertools.count()
event = next(coming)
began = {}
with otn_live.Node(plan("client = 0", END)) as here, otn_live.Node(plan(END, "client = 0")) as there:
    for turn in range(TURNS):
        packets = []
        while event[0] < turn:                          # all that came before this turn
            number = next(numbers).to_bytes(7, "big") + b"\1"
            began[number] = event[0]
            packets.append(number + bytes(event[1] - 8))
            event = next(coming)
        frames = here.out.lines[0]
        here.turn(clients={0: packets})
        for packet in there.turn({0: frames}).clients.get(0, ()):
            delays[round(4 * (turn + 1 - began.pop(packet[:8])))] += 1
came = sum(delays.values())
print(f"load {LOAD}: {came} packets came, most after {max(delays, default=0) / 4} turns", file=sys.stderr)
high = max(delays.values(), default=1)
print(f'<svg xmlns="http://www.w3.org/2000/svg" viewBox="0 0 {10 * max(delays, default=1) + 20} 130" font-size="8">')
for quarter, count in sorted(delays.items()):
    print(f'<rect x="{10 * quarter}" y="{110 - 100 * count / high:.1f}" width="9" height="{100 * count / high:.1f}"/>')
    if quarter % 4 == 0:
        print(f'<text x="{10 * quarter}" y="120">{quarter // 4}</text>')
print("</svg>")
