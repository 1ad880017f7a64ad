"""The packets that a page keeps: as many as fit into a number of bytes, the first ones of each turn before others.

All packets are counted by the reader. What is kept becomes less in steps, each over the whole line: whole packets, then
the first bytes of each, then the first packets of each turn and customer, then turns at equal distances.
"""
import zlib

BUDGET = 3_000_000                                    # bytes
COST = 8                                              # of a packet, beside its own bytes
WHOLE = 65536
STEPS = [(WHOLE, WHOLE, 1), (512, WHOLE, 1), (192, WHOLE, 1), (96, WHOLE, 1), (64, WHOLE, 1),
         *((64, 64 >> n, 1) for n in range(7)), *((64, 1, 2 << n) for n in range(14))]
REFUSED, NONE, RIGHT = 0, 1, 2                        # of a packet: its GFP checks are wrong; no frame check sequence


class Packet:
    """A packet of a turn: which of its customer's in this turn it is, from 0, its length, and its first bytes."""
    __slots__ = ('turn', 'tributary', 'place', 'length', 'check', 'head')


def check_of(packet):
    """Whether its last four bytes are the frame check sequence of Ethernet over the others."""
    if packet is None:
        return REFUSED
    right = len(packet) > 17 and zlib.crc32(packet[:-4]) == int.from_bytes(packet[-4:], 'little')
    return RIGHT if right else NONE


class Kept:
    """Hands itself to the reader as `seen`: see otnlines.Line.read."""

    def __init__(self, budget=BUDGET):
        self.budget, self.step, self.size, self.all = budget, 0, 0, 0
        self.packets, self.last = [], {}

    @property
    def rule(self):
        """The bytes of each that are kept, the packets of a turn and customer, and the distance of turns."""
        return STEPS[self.step]

    def __call__(self, tributary, turn, packet, size):
        p = Packet()
        before, place = self.last.get(id(tributary), (0, 0))
        p.place = place + 1 if before == turn else 0
        self.last[id(tributary)] = turn, p.place
        p.turn, p.tributary, p.check = turn, tributary, check_of(packet)
        p.length, p.head = (size, b'') if packet is None else (len(packet), packet)
        self.all += 1
        self.put(p)
        while self.size > self.budget and self.step + 1 < len(STEPS):
            self.step += 1
            packets, self.packets, self.size = self.packets, [], 0
            for q in packets:
                self.put(q)

    def put(self, p):
        most, many, distance = self.rule
        if p.place < many and (p.turn - 1) % distance == 0:
            p.head = p.head[:most]
            self.packets.append(p)
            self.size += COST + len(p.head)
