#!/usr/bin/env python3
"""The promise of isolation as a property test: what leaves on a connection depends on its own entry of the plan, its
own bytes, and the MFAS bytes of the line that brings them, and on nothing else.

    library/build python && python3 examples/library/isolation.py [CASES]

A case has one connection that is watched, from a client to a line, from a line to a client, or across, with what comes
in on it. Two worlds are drawn around it. In each the other connections are others, in another order, with other clients
and lines, of which some bring nothing, end early or are no packets; every byte of the watched connection's own input
line that is not its own is noise; and the ports are served in another order. What leaves on it has to be the same. To
see that the comparison is no empty one, its own input is changed as well, and then something else has to leave.

A port in memory fails for want of memory alone; checks/calls/refused.c has that. With `hypothesis` installed the cases
are drawn by it.
"""
import pathlib
import random
import sys
from dataclasses import dataclass, replace
from typing import Dict, List, Optional, Tuple, Union

top = pathlib.Path(__file__).resolve().parent.parent.parent
sys.path.insert(0, str(top / "python"))
import otn

FRAMES = otn.MULTIFRAME // otn.FRAME  # of a turn
End = Union[int, Tuple[int, int, Tuple[int, ...]]]  # a client, or a line, a tributary port and slots


@dataclass(frozen=True)
class Connection:
    """An entry of the plan."""

    name: str
    source: End
    target: End
    start: int
    stop: int
    retire: bool

    def entry(self) -> str:
        slots = next(len(end[2]) for end in (self.source, self.target) if not isinstance(end, int))
        kind = "odu0" if slots == 1 else "flex"
        ends = [
            f"client = {end}" if isinstance(end, int) else f"line = {end[0]}, port = {end[1]}, slots = {list(end[2])}"
            for end in (self.source, self.target)
        ]
        said = f'[[connection]]\nname = "{self.name}"\nkind = "{kind}"\nfrom = {{ {ends[0]} }}\nto = {{ {ends[1]} }}\n'
        said += f"start = {self.start}\nstop = {self.stop}\n"
        return said + ("retire = true\n" if self.retire else "")


@dataclass(frozen=True)
class World:
    """All that a call is handed."""

    plan: str
    lines: Dict[int, bytes]
    clients: Dict[int, bytes]
    order: Optional[int]

    def run(self) -> otn.Result:
        result = otn.run(self.plan, self.lines, self.clients, self.order)
        assert result.status in (otn.Status.DONE, otn.Status.UNFINISHED), (result, self.plan)
        return result


def own_places(slots: Tuple[int, ...], frames: range) -> List[slice]:
    """The places of a tributary in an OTU2 line, where frame 0 has MFAS 0: its payload columns, the justification bytes
    of its greatest slot, and the MSI bytes of its slots."""
    found = []
    for f in frames:
        for row in range(4):
            first = otn.FRAME * f + 4080 * row
            found += [slice(first + 16 + slot - 1, first + 3824, 8) for slot in slots]
            if row < 3 and f % 8 == slots[-1] - 1:
                found.append(slice(first + 14, first + 16))
            if row == 3 and f % 256 - 1 in slots:
                found.append(slice(first + 14, first + 15))
    return found


def amid_noise(line: bytes, slots: Tuple[int, ...], seed: int) -> bytes:
    """Another line with the same bytes in the tributary's places, and the same MFAS bytes; all else is noise."""
    noise = random.Random(seed)
    frames = len(line) // otn.FRAME
    made = bytearray(noise.randbytes(otn.FRAME * frames + noise.randrange(otn.FRAME)))
    for place in own_places(slots, range(frames)):
        made[place] = line[place]
    made[6 : otn.FRAME * frames : otn.FRAME] = line[6 : otn.FRAME * frames : otn.FRAME]
    return bytes(made)


def noise_line(frames: int, seed: int) -> bytes:
    """A line of noise, but for MFAS bytes that count up."""
    noise = random.Random(seed)
    made = bytearray(noise.randbytes(otn.FRAME * frames))
    made[6::otn.FRAME] = bytes(f % 256 for f in range(frames))
    return bytes(made)


def some_packets(draw: random.Random) -> bytes:
    """The text of some packets, now and then with a bad line at the end."""
    noise = random.Random(draw.getrandbits(32))
    text = otn.text([noise.randbytes(noise.randint(1, 1500)) for _ in range(draw.randrange(60))])
    return text + (b"" if draw.randrange(4) else b"!\n")


def some_slots(draw: random.Random, free: List[int], count: int) -> Tuple[int, ...]:
    return tuple(sorted(draw.sample(free, count)))


def watched(draw: random.Random, turns: int) -> Connection:
    """The connection that is watched."""
    count = draw.randint(1, 4)
    slots = [some_slots(draw, list(range(1, 9)), count) for _ in "ab"]
    ends: List[End] = [(draw.randrange(4), draw.randint(1, 8), it) for it in slots]
    form = draw.randrange(3)
    if form < 2:
        ends[form] = draw.randrange(16)
    start = 1 if draw.randrange(3) else draw.randint(1, turns // 2)
    stop = turns if draw.randrange(3) else draw.randint(turns // 2, turns)
    return Connection("watched", ends[0], ends[1], start, stop, form < 2 and not draw.randrange(4))


def own_input(draw: random.Random, own: Connection, turns: int) -> bytes:
    """What comes in on it: packets, or a line that a node made of packets, with some of its MFAS bytes wrong."""
    packets = some_packets(draw)
    if isinstance(own.source, int):
        return packets
    there = replace(own, source=0, target=own.source, start=1, stop=turns, retire=False)
    line = bytearray(otn.run(f"turns = {turns}\n{there.entry()}", clients={0: packets}).lines[own.source[0]])
    for turn in range(1, turns):
        if not draw.randrange(4):
            line[otn.FRAME * (FRAMES * turn + draw.randrange(FRAMES)) + 6] ^= 0xFF
    if not draw.randrange(4):
        del line[otn.FRAME * draw.randrange(FRAMES * turns) :]
    return bytes(line)


def others(draw: random.Random, own: Connection, turns: int) -> List[Connection]:
    """Other connections, which have no slot, no tributary port and no client in common with the one that is watched."""
    slots = {n: list(range(1, 9)) for n in range(4)}
    ports = {n: list(range(1, 9)) for n in range(4)}
    clients = [[n for n in range(16) if n != end] for end in (own.source, own.target)]
    if not isinstance(own.target, int):
        slots[own.target[0]] = [n for n in slots[own.target[0]] if n not in own.target[2]]
        ports[own.target[0]].remove(own.target[1])
    found = []
    for number in range(draw.randrange(8)):
        count, line = draw.randint(1, 3), draw.randrange(4)
        ends: List[End] = [(draw.randrange(4), draw.randint(1, 8), some_slots(draw, list(range(1, 9)), count)), 0]
        form = draw.randrange(3)
        if form == 1:
            ends[1] = clients[1].pop(draw.randrange(len(clients[1])))
        else:
            if len(slots[line]) < count:
                continue
            taken = some_slots(draw, slots[line], count)
            slots[line] = [n for n in slots[line] if n not in taken]
            ends[1] = (line, ports[line].pop(draw.randrange(len(ports[line]))), taken)
        if form == 0:
            ends[0] = clients[0].pop(draw.randrange(len(clients[0])))
        start = draw.randint(1, turns)
        retire = form < 2 and not draw.randrange(3)
        found.append(Connection(f"other-{number}", ends[0], ends[1], start, draw.randint(start, turns), retire))
    return found


def world(draw: random.Random, own: Connection, given: bytes, turns: int) -> World:
    """One world around the watched connection."""
    entries = others(draw, own, turns)
    entries.insert(draw.randint(0, len(entries)), own)
    lines = {n: noise_line(draw.randrange(FRAMES * turns), draw.getrandbits(32)) for n in range(4) if draw.randrange(3)}
    clients = {n: some_packets(draw) for n in range(16) if draw.randrange(3)}
    if isinstance(own.source, int):
        clients[own.source] = given
    else:
        lines[own.source[0]] = amid_noise(given, own.source[2], draw.getrandbits(32))
    plan = f"turns = {turns}\n" + "".join(it.entry() for it in entries)
    return World(plan, lines, clients, draw.getrandbits(64) if draw.randrange(2) else None)


def leaving(result: otn.Result, own: Connection) -> List[bytes]:
    """What left on the watched connection: its client's text, or the bytes of its places in the frames of its turns."""
    if isinstance(own.target, int):
        return [result.texts.get(own.target, b"")]
    line = result.lines[own.target[0]]
    return [line[place] for place in own_places(own.target[2], range(FRAMES * (own.start - 1), FRAMES * own.stop))]


class Seen:
    """How many cases there were, and in how many the two worlds differed, and another input sent something else."""

    cases = worlds = inputs = 0


def isolated(draw: random.Random) -> None:
    """One case of the promise."""
    turns = draw.randint(8, 14)
    own = watched(draw, turns)
    given = own_input(draw, own, turns)
    one, other = (world(draw, own, given, turns) for _ in range(2))
    results = [it.run() for it in (one, other)]
    left = [leaving(it, own) for it in results]
    assert left[0] == left[1], f"what leaves on the watched connection differs:\n{one.plan}\n{other.plan}"
    changed = world(draw, own, own_input(draw, own, turns), turns)
    Seen.cases += 1
    Seen.worlds += results[0] != results[1]
    Seen.inputs += leaving(changed.run(), own) != left[0]


def main(cases: int) -> None:
    try:
        from hypothesis import HealthCheck, given, settings, strategies
    except ImportError:
        for seed in range(cases):
            isolated(random.Random(seed))
        by = "drawn here"
    else:
        how = settings(max_examples=cases, deadline=None, database=None, suppress_health_check=list(HealthCheck))
        how(given(strategies.randoms(use_true_random=False))(isolated))()
        by = "drawn by hypothesis"
    print(f"{Seen.cases} cases {by}: what left was the same in both worlds of each")
    print(f"the worlds differed elsewhere in {Seen.worlds}; another own input changed what left in {Seen.inputs}")
    assert Seen.worlds * 2 > Seen.cases and Seen.inputs * 4 > Seen.cases, "the cases say too little"


main(int(sys.argv[1]) if len(sys.argv) > 1 else 100)
