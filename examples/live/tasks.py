#!/usr/bin/env python3
"""Two nodes and the fibres between them as tasks of one program: `tasks.py [TURNS]`.

Each node is a task of asyncio. It puts what leaves in a turn on a fibre, awaits what comes of the other one, and does the
turn. One fibre has a delay of three turns, and now and then a wrong bit. OTN_LIBRARY says where the library is.
"""
import asyncio
import pathlib
import random
import sys
from typing import List

sys.path.insert(0, str(pathlib.Path(__file__).resolve().parents[2] / "python"))
import otn  # noqa: E402

TURNS = int(sys.argv[1]) if len(sys.argv) > 1 else 40
PLAN = f"""
turns = {TURNS}
[[connection]]
name = "out"
kind = "odu0"
from = {{ client = 0 }}
to = {{ line = 0, port = 1, slots = [2] }}
[[connection]]
name = "in"
kind = "odu0"
from = {{ line = 0, port = 1, slots = [2] }}
to = {{ client = 1 }}
"""
rng = random.Random(4)


def wrong_bit(frames: bytes) -> bytes:
    """Every tenth turn has one."""
    harmed = bytearray(frames)
    harmed[rng.randrange(len(harmed))] ^= 1 if rng.random() < 0.1 else 0
    return bytes(harmed)


async def run(name: str, to: "asyncio.Queue[bytes]", came: "asyncio.Queue[bytes]", fibre: otn.Fibre) -> List[bytes]:
    """A node, whose line 0 goes to one queue and comes of the other."""
    packets: List[bytes] = []
    with otn.Node(PLAN) as node:
        for turn in range(1, TURNS + 1):
            await to.put(node.out.lines[0])
            out = node.turn({0: fibre.carry(await came.get())}, {0: [f"{name} {turn}".encode()]})
            packets += out.clients.get(1, [])
    return packets


async def main() -> None:
    east: "asyncio.Queue[bytes]" = asyncio.Queue(1)
    west: "asyncio.Queue[bytes]" = asyncio.Queue(1)
    here, there = await asyncio.gather(
        run("here", east, west, otn.Fibre()), run("there", west, east, otn.Fibre(delay=3, damage=wrong_bit)))
    print(f"{TURNS} turns: {len(there)} packets came there, the first: {there[0].decode()}; {len(here)} came here")


asyncio.run(main())
