"""Packets of a test, each with a number, a time and a known pattern, and counts of what came of them.

>>> import otn
>>> sent = otn.test_packets(turns=3, seed=1)
>>> len(sent), min(map(len, sent)) >= 64, max(map(len, sent)) <= 1518
(59, True, True)
>>> otn.count(sent[:20] + sent[24:], sent=len(sent))
Counts(came 55, lost 4, behind 0, doubled 0, out of order 0, changed 0, foreign 0, unknown 0)

A packet is an Ethernet frame of type 88B5, with its frame check sequence:

    bytes      have
    0 to 13    the addresses 02:00:00:00:00:02 and 02:00:00:00:00:01, and the type
    14         which pattern: 15, 23 or 31
    15         the stream: a number from 0 to 255
    16 to 21   the number of the packet in its stream, from 0
    22 to 25   the turn in which its client hands it in
    26 to 27   its length
    28 to 31   the CRC-32 of bytes 14 to 27
    32 ..      the pattern: of packet n from byte 1,531 * n modulo 2^20 on
    the last 4 the frame check sequence

The pattern is a PRBS (ITU-T O.150) that begins with ones: 31 is x^31 + x^28 + 1, 23 is x^23 + x^18 + 1, 15 is x^15 +
x^14 + 1; none is inverted. The turn is that in which the first byte of the packet leaves its client, by the rules of
docs/FORMATS.md, "Client frame". A client sends its packets without a gap. So a lower rate is made by packets of zeros
between them, which no count looks at.
"""
from __future__ import annotations

import bisect
import functools
import random
import struct
import zlib
from dataclasses import dataclass
from typing import Dict, Iterable, List, Optional, Sequence, Tuple

__all__ = ["Counts", "Tested", "capture", "count", "packets_of", "test_packets"]

HEAD = bytes.fromhex("02000000000202000000000188b5")
FIELDS = struct.Struct(">BBHIIH")  # pattern, stream, number (high and low), turn, length
FIRST = len(HEAD) + FIELDS.size + 4
LEAST = FIRST + 4
TAPS = {15: 14, 23: 18, 31: 28}
PERIOD, STRIDE = 1 << 20, 1_531
ODU_PAYLOAD, ODU, ROW, COLUMNS = 15_232, 15_296, 3_824, 3_808
PCAP = struct.pack("<IHHIIII", 0xA1B2C3D4, 2, 4, 0, 0, 0xFFFF, 1)


@functools.lru_cache(maxsize=None)
def pattern(degree: int) -> bytes:
    """The first bytes of a PRBS, as many as packets need.

    >>> import otn_packets
    >>> otn_packets.pattern(31)[:8].hex()
    'fffffffe0000001c'
    """
    if degree not in TAPS:
        raise ValueError(f"a pattern is 15, 23 or 31, and not {degree}")
    bits, size, wanted = (1 << degree) - 1, degree, 8 * (PERIOD + 65_536)
    while size < wanted:
        # (a bit is the XOR of two before it, and so it is at twice, four times, .. their distances)
        scale = 1
        while 2 * scale * degree <= size:
            scale *= 2
        far, near = scale * degree, scale * TAPS[degree]
        far_bits = (bits & (1 << far) - 1) >> (far - near)
        near_bits = bits & (1 << near) - 1
        bits, size = bits << near | far_bits ^ near_bits, size + near
    return (bits >> (size - wanted)).to_bytes(wanted // 8, "big")


def _packet(number: int, turn: int, size: int, stream: int, degree: int) -> bytes:
    fields = FIELDS.pack(degree, stream, number >> 32, number & 0xFFFFFFFF, turn, size)
    first = STRIDE * number % PERIOD
    body = HEAD + fields + zlib.crc32(fields).to_bytes(4, "big") + pattern(degree)[first : first + size - LEAST]
    return body + zlib.crc32(body).to_bytes(4, "little")


class _Client:
    """Where a client's packets stand in what it sends."""

    def __init__(self, pace: Sequence[int], start: int, fcs: bool) -> None:
        if not pace or min(pace) < 1:
            raise ValueError("a pace is one number or several, each of 1 or more bytes a turn")
        self.sums = [0]
        for one in pace:
            self.sums.append(self.sums[-1] + one)
        self.start, self.over, self.place = start, 12 if fcs else 8, 4

    def turn(self) -> int:
        """The turn in which the next packet begins."""
        frame, x = divmod(self.place, ODU_PAYLOAD)
        row, column = divmod(x, COLUMNS)
        rounds, left = divmod(frame * ODU + row * ROW + 16 + column, self.sums[-1])
        return self.start + rounds * (len(self.sums) - 1) + bisect.bisect_right(self.sums, left) - 1

    def send(self, size: int) -> int:
        """Sends a packet; answers how many bytes it takes."""
        self.place += size + self.over
        return size + self.over


def test_packets(
    packets: int = 0,
    turns: int = 0,
    *,
    seed: int = 0,
    stream: int = 0,
    sizes: Tuple[int, int] = (64, 1518),
    rate: float = 1.0,
    prbs: int = 31,
    slots: int = 1,
    pace: Optional[Sequence[int]] = None,
    start: int = 1,
    fcs: bool = True,
) -> List[bytes]:
    """The packets of a client: `packets` of them, or as many as begin in `turns` turns. Lengths are drawn between two
    `sizes`. `rate` is the part of the client's bytes that they take; packets of zeros take the rest. `slots`, `pace`,
    `start` and `fcs` are those of the connection in the plan, and say in which turn each packet leaves.
    """
    least, most = sizes
    if not LEAST <= least <= most <= 65_523:
        raise ValueError(f"a packet of a test has {LEAST} to 65,523 bytes, and not {least} to {most}")
    if not 0 < rate <= 1:
        raise ValueError(f"a rate is above 0 and not above 1, and not {rate}")
    if bool(packets) == bool(turns):
        raise ValueError("say how many packets, or how many turns")
    if not 0 <= stream <= 255:
        raise ValueError(f"a stream is 0 to 255, and not {stream}")
    client, dice, made = _Client(pace or [15_168 * slots], start, fcs), random.Random(seed), []
    number, owed = 0, 0.0
    while (number < packets) if packets else client.turn() < start + turns:
        size = least + int(dice.random() * (most - least + 1))
        made.append(_packet(number, client.turn(), size, stream, prbs))
        number += 1
        owed += client.send(size) * (1 / rate - 1)
        while owed > client.over:
            size = min(int(owed - client.over) or 1, most)
            made.append(bytes(size))
            owed -= client.send(size)
    return made


@dataclass(frozen=True)
class Tested:
    """A packet of a test that came."""

    number: int
    turn: int  #: in which it was handed in
    stream: int
    bits: int  #: how many were compared
    changed: int  #: how many of them are others; those that are missing or too many count as changed


def tested(packet: bytes) -> Optional[Tested]:
    """What a packet says of itself; None where it is no packet of a test, or its own words are changed."""
    fields = packet[len(HEAD) : FIRST - 4]
    if len(packet) < FIRST or zlib.crc32(fields) != int.from_bytes(packet[FIRST - 4 : FIRST], "big"):
        return None
    degree, stream, high, low, turn, size = FIELDS.unpack(fields)
    if degree not in TAPS or size < LEAST:
        return None
    wanted = _packet(high << 32 | low, turn, size, stream, degree)
    longest = max(len(wanted), len(packet))
    one, other = (int.from_bytes(it.ljust(longest, b"\0"), "big") for it in (wanted, packet))
    changed = bin(one ^ other).count("1")
    if len(packet) != size:
        shorter = min(len(packet), size)
        alike = int.from_bytes(wanted[:shorter], "big") ^ int.from_bytes(packet[:shorter], "big")
        changed = bin(alike).count("1") + 8 * (longest - shorter)
    return Tested(high << 32 | low, turn, stream, 8 * longest, changed)


@dataclass(frozen=True, repr=False)
class Counts:
    """What came of the packets of a test."""

    came: int  #: packets of the stream that came, each number once
    lost: int  #: numbers that did not come, below the greatest that came
    behind: Optional[int]  #: numbers that did not come, above it; None where it is not known how many were sent
    doubled: int  #: packets whose number had come before
    disordered: int  #: packets that came behind one of a greater number
    changed: int  #: packets with changed bits
    foreign: int  #: packets of other streams
    unknown: int  #: packets that are none of a test, or of which what they say of themselves is changed
    bits: int  #: bits that came and were compared
    changed_bits: int
    delay: Optional[Tuple[int, int, int]]  #: least, median and most turns, where the turns are known in which they came
    disruption: Tuple[int, int, int]  #: the most turns in a row in which none came, the first of them, the last; or 0
    burst: Tuple[int, int, int]  #: the most numbers in a row that did not come, the first of them, the last; or 0

    def __repr__(self) -> str:
        behind = "?" if self.behind is None else self.behind
        return (
            f"Counts(came {self.came}, lost {self.lost}, behind {behind}, doubled {self.doubled}, out of order "
            f"{self.disordered}, changed {self.changed}, foreign {self.foreign}, unknown {self.unknown})"
        )

    def text(self) -> str:
        """The counts as `otn-count` writes them."""
        rate = self.changed_bits / self.bits if self.bits else 0
        behind = "-" if self.behind is None else self.behind
        delay = "least {} median {} most {}".format(*self.delay) if self.delay else "-"
        gap, burst = (f"{it[0]} from {it[1]} to {it[2]}" if it[0] else "0" for it in (self.disruption, self.burst))
        return (
            f"packets came {self.came} lost {self.lost} behind {behind} doubled {self.doubled} "
            f"out-of-order {self.disordered} changed {self.changed} foreign {self.foreign} unknown {self.unknown}\n"
            f"bits compared {self.bits} changed {self.changed_bits} rate {rate:.2e}\n"
            f"delay in turns {delay}\ndisruption in turns {gap}\nlongest loss in packets {burst}\n"
        )


def _gap(values: Iterable[int]) -> Tuple[int, int, int]:
    """The longest gap between values that rise: its size, and the first and last in it."""
    longest, before = (0, 0, 0), None
    for value in values:
        if before is not None and value - before - 1 > longest[0]:
            longest = value - before - 1, before + 1, value - 1
        before = value
    return longest


def count(
    packets: Sequence[bytes],
    arrived: Optional[Sequence[int]] = None,
    sent: Optional[int] = None,
    stream: Optional[int] = None,
) -> Counts:
    """Counts packets that came, in their order. `arrived` is the turn in which each came, where it is known; `sent` how
    many were sent in the stream. Without `stream` it is that of the most packets.

    The disruption is counted in turns of arrival where they are known, else in the turns in which they were sent.
    """
    found = [(tested(it), n) for n, it in enumerate(packets) if any(it)]
    streams: Dict[int, int] = {}
    for it, _ in found:
        if it:
            streams[it.stream] = streams.get(it.stream, 0) + 1
    chosen = max(sorted(streams), key=lambda it: streams[it], default=0) if stream is None else stream
    own = [(it, n) for it, n in found if it and it.stream == chosen]
    seen: Dict[int, int] = {}
    doubled = disordered = 0
    greatest = -1
    for it, n in own:
        if it.number in seen:
            doubled += 1
        elif it.number < greatest:
            disordered += 1
        seen.setdefault(it.number, n)
        greatest = max(greatest, it.number)
    once = sorted(seen)
    delays = sorted(arrived[n] - it.turn for it, n in own if seen[it.number] == n) if arrived is not None else []
    turns = {arrived[n] for _, n in own} if arrived is not None else {it.turn for it, _ in own}
    return Counts(
        len(once), greatest + 1 - len(once), None if sent is None else max(sent - greatest - 1, 0), doubled, disordered,
        sum(it.changed > 0 for it, _ in own), sum(streams.values()) - len(own), sum(it is None for it, _ in found),
        sum(it.bits for it, _ in own), sum(it.changed for it, _ in own),
        (delays[0], delays[len(delays) // 2], delays[-1]) if delays else None,
        _gap(sorted(turns)), _gap([-1, *once]),
    )


def capture(packets: Sequence[bytes]) -> bytes:
    """A classic capture (pcap) of packets, without times."""
    return PCAP + b"".join(struct.pack("<IIII", 0, 0, len(it), len(it)) + it for it in packets)


def packets_of(data: bytes) -> List[bytes]:
    """The packets of a file: a classic capture, or a text with a line of hex digits for each."""
    orders = {bytes.fromhex(it): order for it, order in
              (("d4c3b2a1", "<"), ("a1b2c3d4", ">"), ("4d3cb2a1", "<"), ("a1b23c4d", ">"))}
    order = orders.get(data[:4])
    if order is None:
        try:
            return [bytes.fromhex(line.decode("ascii")) for line in data.split(b"\n") if line.strip()]
        except ValueError as why:
            raise ValueError("neither a classic capture nor lines of hex digits") from why
    found, place = [], 24
    while place + 16 <= len(data):
        (size,) = struct.unpack_from(order + "I", data, place + 8)
        found.append(data[place + 16 : place + 16 + size])
        place += 16 + size
    return found
