#!/usr/bin/env python3
"""A hundred damaged copies of a line, and how many packets come through of each.

    library/build python && python3 examples/library/damaged.py [SEED]

Two clients' packets go into a line by the plan of examples/two-nodes/node-a. The line is copied a hundred times, and
each copy damaged in one of four ways. Node B gets each copy as its line, and the packets that come out are counted. The
"letters" have a frame check sequence (FCS), so that no packet of theirs comes out changed. The "archive" has none.
"""
import pathlib
import random
import sys
from typing import List, Tuple

top = pathlib.Path(__file__).resolve().parent.parent.parent
sys.path.insert(0, str(top / "python"))
import otn

COPIES = 100


def bits(line: bytearray, draw: random.Random) -> None:
    """Single wrong bits, 1 to 50 of them."""
    for _ in range(draw.randint(1, 50)):
        line[draw.randrange(len(line))] ^= 1 << draw.randrange(8)


def noise(line: bytearray, draw: random.Random) -> None:
    """Noise in the place of 100 to 20,000 bytes."""
    length = draw.randint(100, 20_000)
    at = draw.randrange(len(line) - length)
    line[at : at + length] = draw.randbytes(length)


def slot(line: bytearray, draw: random.Random) -> None:
    """Another customer writes over all of slot 4, which is a slot of the archive."""
    for row in range(len(line) // 4080):
        first = 4080 * row + 16 + 3
        line[first : first + 3808 - 3 : 8] = draw.randbytes(476)


def end(line: bytearray, draw: random.Random) -> None:
    """The line ends too early."""
    del line[draw.randrange(len(line)) :]


def came(sent: List[bytes], got: List[bytes]) -> Tuple[int, int]:
    """How many of these packets came, in the order in which they were sent, and how many came that nobody sent."""
    left = iter(sent)
    whole = [packet for packet in got if packet in sent]
    assert all(packet in left for packet in whole), "packets came in another order"
    return len(whole), len(got) - len(whole)


def main(seed: int) -> None:
    draw = random.Random(seed)
    nodes = top / "examples" / "two-nodes"
    plan_a, plan_b = ((nodes / name / "plan.toml").read_bytes() for name in ("node-a", "node-b"))
    sent = {n: [draw.randbytes(draw.randint(64, 1500)) for _ in range(count)] for n, count in ((0, 100), (1, 300))}
    line = otn.run(plan_a, clients=sent).lines[0]
    assert otn.run(plan_b, lines={0: line}).clients == {4: sent[0], 5: sent[1]}
    print(f"{COPIES} copies of {len(line)} bytes of line with {len(sent[0])} letters and {len(sent[1])} of the archive")
    print("damage   copies   letters came  changed   archive came  changed  SM errors")
    for number, damage in enumerate((bits, noise, slot, end)):
        counts = []
        for _ in range(number, COPIES, 4):
            copy = bytearray(line)
            damage(copy, draw)
            result = otn.run(plan_b, lines={0: bytes(copy)})
            letters, archive = (came(sent[n], result.clients.get(n + 4, [])) for n in (0, 1))
            counts.append((*letters, *archive, result.records.line_in[0].sm))
        columns = list(zip(*counts))
        assert not any(columns[1]), "a changed packet came through in spite of its FCS"
        assert damage is not slot or set(columns[0]) == {len(sent[0])}, "one customer's slot touched another's packets"
        a, b, c, d, e = (f"{min(it)} to {max(it)}" for it in columns)
        print(f"{damage.__name__:8} {len(counts):6} {a:>14} {b:>8} {c:>14} {d:>8} {e:>10}")


main(int(sys.argv[1]) if len(sys.argv) > 1 else 1)
