"""Where the bytes of a client's frames stand in a line, by the messages of its tributary.

>>> import otn
>>> plan = '''
... turns = 8
... [[connection]]
... name = "letters"
... kind = "odu0"
... from = { client = 0 }
... to = { line = 0, port = 1, slots = [3] }
... '''
>>> line = otn.run(plan, clients={0: [b"hello"]}).lines[0]
>>> otn.damage(line, "stat AIS of port 1").changes[0].now.hex()
'07'

The rules are those of docs/FORMATS.md: "Tributary slots", "Justification", "Client frame". Nothing of this is proved.
checks/damage looks for the damage by the reader of see/.
"""
from __future__ import annotations

from typing import TYPE_CHECKING, Dict, Iterator, List, Optional, Sequence, Tuple

if TYPE_CHECKING:
    from otn_lines import Line, Tributary, Turn

__all__ = ["PLACES", "frames_of"]

FRAME, ROW, GROUPS = 16_320, 4_080, 15_232
ODU, ODU_ROW = 15_296, 3_824
FAS = bytes.fromhex("f6f6f6282828")

#: Places of a client frame, by name.
PLACES: Dict[str, range] = {
    "odu fas": range(6),
    "odu mfas": range(6, 7),
    "odu tti": range(2 * ODU_ROW + 9, 2 * ODU_ROW + 10),
    "odu bip8": range(2 * ODU_ROW + 10, 2 * ODU_ROW + 11),
    "odu stat": range(2 * ODU_ROW + 11, 2 * ODU_ROW + 12),
    "odu psi": range(3 * ODU_ROW + 14, 3 * ODU_ROW + 15),
}

#: Which bits a change inverts, first bit first, and what it adds; with the direction in II and DI.
CHANGES = {
    (2, 0b10101010101010): 1,
    (1, 0b01010101010101): -1,
    (2, 0b01100110011001): 2,
    (1, 0b10011001100110): -2,
}


def _rest(value: int, bits: int, generator: int, degree: int) -> int:
    """What is left of the bits, followed by as many zeros as the degree, by the generator."""
    value <<= degree
    for bit in range(bits + degree - 1, degree - 1, -1):
        if value >> bit & 1:
            value ^= generator << bit - degree
    return value


def _said(former: Optional[int], message: Sequence[int], slots: int) -> Tuple[str, Optional[int]]:
    """What a message says: "heard" and Cm, "damaged", or "lost" where a change leads to no number."""
    jc1, jc2, jc3, jc4, jc5, jc6 = message
    cnd = (jc4 & 31) << 5 | jc5 & 31
    if _rest(jc1 << 8 | jc2, 16, 0x10D, 8) != jc3 or _rest(cnd, 10, 0x23, 5) != jc6 & 31 or cnd >= slots:
        return "damaged", None
    bits, way = jc1 << 6 | jc2 >> 2, jc2 & 3
    if way in (1, 2):
        step = None if former is None else CHANGES.get((way, former ^ bits))
        if former is None or step is None:
            return "lost", None
        bits = former + step
    return ("heard", bits) if 0 <= bits <= GROUPS else ("damaged", None)


def _message(line: Line, turn: Turn, slot: int) -> List[int]:
    frame = line.frame(turn.frames[slot - 1])
    return [frame[ROW * row + column] for column in (15, 14) for row in (0, 1, 2)]


def _bytes_of(line: Line, tributary: Tributary) -> Iterator[int]:
    """Which bytes of the file are the client's, in the order in which it sent them; -1 where some are missing."""
    number: Optional[int] = None
    s, damaged = line.slots, 0
    columns, per_frame = 3_808 // s, GROUPS // s
    for turn in line.turns:
        if not tributary.start <= turn.number <= tributary.stop:
            continue
        if turn.state != "whole":
            number = None
            yield -1
            continue
        if number is not None:
            for group in range(1, GROUPS + 1):
                if group * number % GROUPS < number:
                    n, x = divmod(group - 1, per_frame)
                    row, run = divmod(x, columns)
                    first = FRAME * turn.frames[n] + ROW * row + 16 + run * s
                    for slot in tributary.slots:
                        yield first + slot - 1
        word, heard = _said(number, _message(line, turn, tributary.slots[-1]), len(tributary.slots))
        damaged = damaged + 1 if word == "damaged" else 0
        if word == "lost" or damaged == 3:
            yield -1
        number = heard if word == "heard" else number if word == "damaged" and damaged < 3 else None


def frames_of(line: Line, tributary: Tributary) -> Iterator[List[int]]:
    """The client frames that begin with the FAS: of each the bytes of the file, in its order; of the last, those that
    came."""
    parts: List[List[int]] = [[]]
    for byte in _bytes_of(line, tributary):
        if byte < 0:
            parts.append([])
        else:
            parts[-1].append(byte)
    for part in parts:
        data = bytes(line.data[byte] for byte in part)
        if line.scrambled:
            mask = _mask()
            data = bytes(b ^ mask[byte % FRAME] for b, byte in zip(data, part))
        at = data.find(FAS)
        while at >= 0:
            yield part[at : at + ODU]
            at = at + ODU if data.startswith(FAS, at + ODU) else data.find(FAS, at + 6)


def _mask() -> bytes:
    from otn_lines import mask

    return mask()
