"""A line file: its frames, its overhead, and the places that a tributary has in it, by name.

>>> import otn
>>> line = otn.lines.Line(bytes.fromhex("f6f6f6282828") + bytes(otn.FRAME - 6))
>>> line
Line(OTU2, plain, 1 frames, 0 turns)
>>> line.read("fas").hex(), line.read("mfas")
('f6f6f6282828', b'\\x00')

Frames count from 0; turns, slots, ports, rows and columns from 1 (docs/FORMATS.md). A scrambled line is told as it is
behind the descrambler. `Line.read` gives bytes; `Line.array` gives the same as numpy arrays, where numpy is installed.

Nothing of this is proved. checks/damage compares it with the readers of see/ and with otn_view.
"""
from __future__ import annotations

import functools
import re
from dataclasses import dataclass
from typing import TYPE_CHECKING, Any, Dict, Iterator, List, Mapping, Optional, Sequence, Tuple, Union

import otn_clients

if TYPE_CHECKING:
    import numpy

__all__ = ["FRAME", "PLACES", "Line", "Place", "Run", "Tributary", "Turn", "mask", "parity_of", "planned"]

ROW = 4_080  #: the columns of a frame
FRAME = 4 * ROW  #: the bytes of a frame
FAS = bytes.fromhex("f6f6f6282828")

Bytes = Union[bytes, bytearray, memoryview]


def at(row: int, column: int) -> int:
    """Which byte of a frame stands in a row and column.

    >>> import otn
    >>> otn.lines.at(3, 11)
    8170
    """
    return ROW * (row - 1) + column - 1


#: Places that stand in every frame, by name: pieces of a row (row, first column, last column).
PLACES: Dict[str, Tuple[Tuple[int, int, int], ...]] = {
    "fas": ((1, 1, 6),),
    "mfas": ((1, 7, 7),),
    "sm tti": ((1, 8, 8),),
    "sm bip8": ((1, 9, 9),),
    "pm tti": ((3, 10, 10),),
    "pm bip8": ((3, 11, 11),),
    "stat": ((3, 12, 12),),
    "psi": ((4, 15, 15),),
    "overhead": ((1, 1, 14), (2, 1, 14), (3, 1, 14), (4, 1, 15)),
    "payload": tuple((row, 17, 3_824) for row in (1, 2, 3, 4)),
    "fec": tuple((row, 3_825, ROW) for row in (1, 2, 3, 4)),
    "any": tuple((row, 1, ROW) for row in (1, 2, 3, 4)),
}

#: Places of slots, by name: the rows and the column of their bytes.
JUSTIFICATION = {"jc": ((1, 2, 3), 16), "cnd": ((1, 2, 3), 15), "msi": ((4,), 15)}


@dataclass(frozen=True)
class Run:
    """Bytes of a frame at equal distances: `frame[start:stop:step]`. Among all bytes of their place, in the order of
    the frame, they are number `first`, `first + stride`, and so on."""

    start: int
    stop: int
    step: int = 1
    first: int = 0
    stride: int = 1

    def __len__(self) -> int:
        return len(range(self.start, self.stop, self.step))


@dataclass(frozen=True)
class Tributary:
    """A tributary port on some slots of a line, in the turns from `start` to `stop`, both included."""

    port: int
    slots: Tuple[int, ...]
    name: str = ""
    start: int = 1
    stop: int = 1 << 62


@dataclass(frozen=True)
class Place:
    """Some bytes of a frame, and in which frames they stand: `mfas` is the MFAS of these, modulo `modulus`."""

    name: str
    runs: Tuple[Run, ...]
    mfas: Optional[Tuple[int, ...]] = None
    modulus: int = 256
    turns: Optional[Tuple[int, int]] = None  #: in these turns alone, both included
    frames: Optional[Tuple[int, ...]] = None  #: in these frames alone

    @property
    def offsets(self) -> Sequence[int]:
        """The bytes of a frame, in order."""
        return _offsets(self.runs)


@dataclass(frozen=True)
class Turn:
    """A turn of a line, as docs/FORMATS.md has it under "Alignment of a line"."""

    number: int
    state: str  #: "whole", "lost", "none" (no multiframe was found) or "end", as otn_view says it
    lead: range  #: frames that were passed over
    frames: range  #: the frames of its multiframe; also of one that is lost or not whole
    mfas: Optional[int]  #: the MFAS that is expected in the first of them

    @property
    def used(self) -> range:
        """The frames of the turn, with those that were passed over."""
        return range(self.lead.start, max(self.lead.stop, self.frames.stop))


@functools.lru_cache(maxsize=None)
def mask() -> bytes:
    """What each frame of a scrambled line is XORed with (G.709 clause 11.2).

    >>> import otn
    >>> otn.lines.mask()[:10].hex()
    '000000000000ffff4e91'
    """
    bits = [1] * 16
    for i in range(16, (FRAME - 6) * 8):
        bits.append(bits[i - 1] ^ bits[i - 3] ^ bits[i - 12] ^ bits[i - 16])
    return bytes(6) + int("".join(map(str, bits)), 2).to_bytes(FRAME - 6, "big")


def xor(one: Bytes, other: Bytes) -> bytes:
    """The XOR of as many bytes."""
    return (int.from_bytes(one, "big") ^ int.from_bytes(other, "big")).to_bytes(len(one), "big")


def folded(data: Bytes) -> int:
    """The XOR of all bytes."""
    x, size = int.from_bytes(data, "big"), len(data)
    while size > 1:
        half = size // 2
        x, size = (x >> 8 * half) ^ (x & (1 << 8 * half) - 1), size - half
    return x


def parity_of(frame: Bytes) -> int:
    """The parity (BIP-8) of a frame: the XOR of columns 15 to 3824 of its rows. Frame i + 2 carries it."""
    return folded(b"".join(frame[at(row, 15) : at(row, 3_825)] for row in (1, 2, 3, 4)))


def planned(plan: Union[str, bytes], side: str, number: int) -> Tuple[int, bool, List[Tributary]]:
    """The line input ("in") or line output ("out") of a plan: its slots, 8 or 32, whether it is scrambled, and its
    tributaries.

    >>> import otn
    >>> plan = '''
    ... turns = 12
    ... [[connection]]
    ... name = "letters"
    ... kind = "odu0"
    ... from = { client = 0 }
    ... to = { line = 0, port = 1, slots = [3] }
    ... '''
    >>> otn.lines.planned(plan, "out", 0)
    (8, False, [Tributary(port=1, slots=(3,), name='letters', start=1, stop=12)])
    """
    table = _toml(plan)
    if side not in ("in", "out") or number not in range(4):
        raise ValueError(f"a plan has lines in 0 to in 3 and out 0 to out 3, and not {side} {number}")
    found = []
    for one in table.get("connection", []):
        end = one["from" if side == "in" else "to"]
        if end.get("line") == number:
            turns = one.get("start", 1), one.get("stop", table["turns"])
            found.append(Tributary(end["port"], tuple(end["slots"]), one["name"], *turns))
    return 32 if number in table.get(f"otu3-{side}", []) else 8, number in table.get(f"scrambled-{side}", []), found


def _toml(plan: Union[str, bytes]) -> Any:
    try:
        import tomllib
    except ImportError as why:
        raise ImportError("a plan is read by Python 3.11 or later") from why
    return tomllib.loads(plan if isinstance(plan, str) else plan.decode())


class Line:
    """A line in memory. The bytes are kept and not changed.

    `tributaries` are those of a plan, where `planned` has found them. Else they are those that most MSI bytes of the
    line tell, and of two that come as often the later one.
    """

    def __init__(
        self,
        data: Bytes,
        otu3: bool = False,
        scrambled: bool = False,
        tributaries: Optional[Sequence[Tributary]] = None,
    ) -> None:
        self.data = data
        self.slots = 32 if otu3 else 8  #: the tributary slots, and the frames of a multiframe
        self.scrambled = scrambled
        self.count, self.rest = divmod(len(data), FRAME)  #: whole frames, and the bytes behind the last
        self._given = tributaries

    def __repr__(self) -> str:
        kind, form = "OTU3" if self.slots == 32 else "OTU2", "scrambled" if self.scrambled else "plain"
        return f"Line({kind}, {form}, {self.count} frames, {sum(t.state == 'whole' for t in self.turns)} turns)"

    def frame(self, number: int) -> bytes:
        """A frame, as it is behind the descrambler."""
        if not 0 <= number < self.count:
            raise IndexError(f"the line has frames 0 to {self.count - 1}, and not {number}")
        found = bytes(self.data[FRAME * number : FRAME * (number + 1)])
        return xor(found, mask()) if self.scrambled else found

    def frames(self) -> Iterator[bytes]:
        """All whole frames."""
        return map(self.frame, range(self.count))

    @functools.cached_property
    def mfas(self) -> bytes:
        """The MFAS bytes that came."""
        found = bytes(self.data[6 : FRAME * self.count : FRAME])
        return xor(found, bytes([mask()[6]]) * self.count) if self.scrambled else found

    @functools.cached_property
    def turns(self) -> List[Turn]:
        """The turns of the line. The last is the one in which it ends."""
        found: List[Turn] = []
        first, expected = 0, None
        while not found or found[-1].state != "end":
            turn = self._turn(len(found) + 1, first, expected)
            found.append(turn)
            first = turn.used.stop
            expected = None if turn.state != "whole" or turn.mfas is None else (turn.mfas + self.slots) % 256
        return found

    def _turn(self, number: int, first: int, expected: Optional[int]) -> Turn:
        s, mfas, lead = self.slots, self.mfas, 0
        if expected is None:
            while lead < s and not self._locks(first + lead):
                lead += 1
            passed = range(first, min(first + lead, self.count))
            if lead == s:
                if first + s <= self.count:
                    return Turn(number, "none", passed, range(passed.stop, passed.stop), None)
                return Turn(number, "end", range(first, self.count), range(self.count, self.count), None)
            expected = mfas[first + lead]
        begin = first + lead
        frames = range(begin, min(begin + s, self.count))
        if len(frames) < s:
            return Turn(number, "end", range(first, begin), frames, expected)
        wrong = sum(mfas[f] != (expected + n) % 256 for n, f in enumerate(frames))
        return Turn(number, "lost" if wrong > s // 2 else "whole", range(first, begin), frames, expected)

    def _locks(self, f: int) -> bool:
        mfas = self.mfas
        return f + 1 < self.count and mfas[f] % self.slots == 0 and mfas[f + 1] == mfas[f] + 1

    @functools.cached_property
    def expected(self) -> bytes:
        """The MFAS of each frame as its turn expects it; where no turn does, the one that came."""
        found = bytearray(self.mfas)
        for turn in self.turns:
            if turn.mfas is not None:
                for n, f in enumerate(turn.frames):
                    found[f] = (turn.mfas + n) % 256
        return bytes(found)

    @functools.cached_property
    def turn_of(self) -> List[int]:
        """The number of the turn of each frame."""
        return [turn.number for turn in self.turns for _ in turn.used]

    @functools.cached_property
    def tributaries(self) -> List[Tributary]:
        """The tributaries: those that were given, else by most of the MSI bytes of each slot."""
        if self._given is not None:
            return list(self._given)
        came: Dict[int, List[int]] = {}
        psi, x = at(4, 15), mask()[at(4, 15)] if self.scrambled else 0
        for turn in self.turns:
            for f in turn.frames if turn.state == "whole" else ():
                if 2 <= self.expected[f] <= 1 + self.slots:
                    came.setdefault(self.expected[f] - 1, []).append(self.data[FRAME * f + psi] ^ x)
        ports: Dict[int, List[int]] = {}
        for slot in sorted(came):
            byte = max(reversed(came[slot]), key=came[slot].count)
            if 0x80 <= byte < 0x80 + self.slots:
                ports.setdefault(byte - 0x7F, []).append(slot)
        return [Tributary(port, tuple(slots)) for port, slots in sorted(ports.items())]

    def of_port(self, port: int) -> List[Tributary]:
        """The tributaries of a port: one, or of a plan several, in turns of their own."""
        found = [t for t in self.tributaries if t.port == port]
        if not found:
            raise ValueError(f"the line has no port {port}; its ports are {[t.port for t in self.tributaries]}")
        return found

    def of_name(self, name: str) -> List[Tributary]:
        """The tributary of a customer, by the name that the plan gives to the connection."""
        found = [t for t in self.tributaries if t.name == name]
        if not found:
            names = ", ".join(t.name for t in self.tributaries if t.name)
            there = f"there are {names}" if names else "give its plan"
            raise ValueError(f"no customer {name!r} on this line; {there}")
        return found

    def places(self, name: str) -> List[Place]:
        """The places of a name, as `otn.damage` says it: "sm bip8", "jc of port 2", "payload of slots 4,5",
        "msi of customer north", "row 3 columns 10-12". "any of port 2" are all places that this tributary has, and
        "any but any of port 2 but mfas" is the frame without these and without MFAS. "odu stat of port 2" are the
        status bytes of the client frames that the tributary carries.

        >>> import otn
        >>> otn.lines.Line(b"").places("jc of slot 3")[0]
        Place(name='jc of slot 3', runs=(Run(start=15, stop=16, step=1, first=0, stride=1), \
Run(start=4095, stop=4096, step=1, first=1, stride=1), \
Run(start=8175, stop=8176, step=1, first=2, stride=1)), mfas=(2,), modulus=8, turns=None, frames=None)
        """
        if " but " in name:
            return self._without(name, *name.split(" but "))
        what, _, whose = name.partition(" of ")
        if what in otn_clients.PLACES:
            return self._places_of_client(name, otn_clients.PLACES[what], whose)
        if what == "any" and whose:
            parts = [f"{one} of {whose}" for one in ("payload", *JUSTIFICATION)]
            return [place for part in parts for place in self.places(part)]
        if whose and what not in ("payload", *JUSTIFICATION):
            raise ValueError(f"{what!r} is of the line, and of no slot or port")
        if whose:
            return self._places_of(name, what, whose)
        if what in JUSTIFICATION:
            rows, column = JUSTIFICATION[what]
            mfas = tuple(range(2, 2 + self.slots)) if what == "msi" else None
            return [Place(name, _runs([(row, column, column) for row in rows]), mfas)]
        if what in PLACES:
            return [Place(name, _runs(PLACES[what]))]
        found = re.fullmatch(r"row ([1-4]) columns? (\d+)(?:-(\d+))?", what)
        if not found:
            raise ValueError(f"no place of a frame: {name!r}")
        row, first, last = int(found[1]), int(found[2]), int(found[3] or found[2])
        if not 1 <= first <= last <= ROW:
            raise ValueError(f"columns are 1 to {ROW}: {name!r}")
        return [Place(name, _runs([(row, first, last)]))]

    def _places_of(self, name: str, what: str, whose: str) -> List[Place]:
        kind, _, value = whose.partition(" ")
        if kind in ("slot", "slots") and re.fullmatch(r"\d+(,\d+)*", value):
            slots = sorted(set(map(int, value.split(","))))
            if not 1 <= slots[0] <= slots[-1] <= self.slots:
                raise ValueError(f"the line has slots 1 to {self.slots}: {name!r}")
            return [self._place(name, what, slots, slots, None)]
        found = []
        for t in self.of(whose):
            turns = None if t.stop >> 62 else (t.start, t.stop)
            found.append(self._place(name, what, t.slots, t.slots[-1:], turns))
        return found

    def of(self, whose: str) -> List[Tributary]:
        """The tributaries of "port 2" or "customer north"."""
        kind, _, value = whose.partition(" ")
        if kind == "port" and value.isdigit():
            return self.of_port(int(value))
        if kind == "customer" and value:
            return self.of_name(value)
        raise ValueError(f"slot K, slots K,K, port P or customer NAME, and not {whose!r}")

    def _places_of_client(self, name: str, offsets: range, whose: str) -> List[Place]:
        """Bytes of client frames: a place for each frame of the line in which some of them stand."""
        found: Dict[int, List[int]] = {}
        for tributary in self.of(whose):
            for client in otn_clients.frames_of(self, tributary):
                for byte in client[offsets.start : offsets.stop]:
                    found.setdefault(byte // FRAME, []).append(byte % FRAME)
        return [Place(name, _joined(sorted(it)), frames=(f,)) for f, it in sorted(found.items())]

    def _place(
        self, name: str, what: str, slots: Sequence[int], said: Sequence[int], turns: Optional[Tuple[int, int]]
    ) -> Place:
        """Of these slots; `said` are those whose justification bytes count."""
        if what == "payload":
            return Place(name, _payload(tuple(slots), self.slots), turns=turns)
        rows, column = JUSTIFICATION[what]
        runs = _runs([(row, column, column) for row in rows])
        if what == "msi":
            return Place(name, runs, tuple(k + 1 for k in slots), turns=turns)
        return Place(name, runs, tuple(k - 1 for k in said), self.slots, turns)

    def _without(self, name: str, whole: str, *parts: str) -> List[Place]:
        """A place without some others: one for each kind of frames that have the same ones of them."""
        of_frame: Dict[int, List[Place]] = {}
        for place in self.places(whole):
            for f in self.stands(place):
                of_frame.setdefault(f, []).append(place)
        out_of: Dict[int, List[Place]] = {}
        for part in parts:
            for place in self.places(part):
                for f in self.stands(place):
                    out_of.setdefault(f, []).append(place)
        kinds: Dict[Tuple[Tuple[Place, ...], Tuple[Place, ...]], List[int]] = {}
        for f, whole_of in of_frame.items():
            kinds.setdefault((tuple(whole_of), tuple(out_of.get(f, ()))), []).append(f)
        found = []
        for (within, out), those in kinds.items():
            left = {x for place in within for x in place.offsets}.difference(*(place.offsets for place in out))
            if left:
                found.append(Place(name, _joined(sorted(left)), frames=tuple(sorted(those))))
        return found

    def stands(self, place: Place) -> List[int]:
        """The frames in which a place stands."""
        frames: Sequence[int] = range(self.count) if place.frames is None else place.frames
        if place.mfas is not None:
            values = set(place.mfas)
            frames = [f for f in frames if self.expected[f] % place.modulus in values]
        if place.turns is not None:
            first, last = place.turns
            frames = [f for f in frames if first <= self.turn_of[f] <= last]
        return list(frames)

    def read(self, name: str) -> bytes:
        """The bytes of a place in all frames in which it stands, one frame behind the other."""
        parts = []
        for place in self.places(name):
            for f in self.stands(place):
                frame = self.frame(f)
                parts.append(bytes(frame[x] for x in place.offsets))
        return b"".join(parts)

    def array(self, name: str = "any") -> "numpy.ndarray[Any, numpy.dtype[numpy.uint8]]":
        """The same as a numpy array: a row for each frame, a column for each byte of the place in it. ImportError where
        numpy is not installed (`apt install python3-numpy`)."""
        import numpy

        whole = numpy.frombuffer(self.data, numpy.uint8, FRAME * self.count).reshape(self.count, FRAME)
        if self.scrambled:
            whole = whole ^ numpy.frombuffer(mask(), numpy.uint8)
        return numpy.concatenate([whole[self.stands(place)][:, place.offsets] for place in self.places(name)])


@functools.lru_cache(maxsize=256)
def _offsets(runs: Tuple[Run, ...]) -> Sequence[int]:
    if len(runs) == 1:
        return range(runs[0].start, runs[0].stop, runs[0].step)
    return sorted(x for run in runs for x in range(run.start, run.stop, run.step))


def _joined(offsets: Sequence[int]) -> Tuple[Run, ...]:
    """Bytes of a frame, rising, as runs."""
    found, first = [], 0
    for number in range(1, len(offsets) + 1):
        if number == len(offsets) or offsets[number] != offsets[number - 1] + 1:
            found.append(Run(offsets[first], offsets[number - 1] + 1, 1, first))
            first = number
    return tuple(found)


def _runs(pieces: Sequence[Tuple[int, int, int]]) -> Tuple[Run, ...]:
    """Pieces of rows, one behind another; those that join are one."""
    found: List[Run] = []
    first = 0
    for row, left, right in pieces:
        run = Run(at(row, left), at(row, right) + 1, 1, first)
        first += len(run)
        if found and found[-1].stop == run.start:
            last = found.pop()
            run = Run(last.start, run.stop, 1, last.first)
        found.append(run)
    return tuple(found)


@functools.lru_cache(maxsize=None)
def _payload(slots: Tuple[int, ...], s: int) -> Tuple[Run, ...]:
    """The payload bytes of some slots: a run for each row and slot, with its place among the bytes of all of them."""
    m, columns = len(slots), 3_808 // s
    return tuple(
        Run(at(row, 16 + k), at(row, 3_824) + 1, s, (row - 1) * columns * m + x, m)
        for row in (1, 2, 3, 4)
        for x, k in enumerate(slots)
    )
