"""Damage to a line, by words in the terms of the field.

>>> import otn
>>> line = bytes.fromhex("f6f6f6282828") + bytes(otn.FRAME - 6)
>>> damaged = otn.damage(line * 4, "frame 2 fas xor 01")
>>> print(damaged.log, end="")
# frame 2 fas xor 01
frame 2 byte 32640 from f6f6f6282828 to f7f7f7292929
>>> otn.undo(damaged.line, damaged.log) == line * 4
True

A damage is said as WHERE WHAT HOW, of which the first two may be left out. Several are joined by the word "then", or
stand in a list; each finds the line as the one before left it. docs/ALARMS.md says which alarm answers to which.

WHERE, all of the line without it. Frames count from 0, turns from 1:

    frame 60    frames 60-75    frames 60-    turn 20    turns 20-22
    every 256 frames    every 4 turns    some 10 frames       each alone, or behind one of the first line

WHAT, the whole frame without it:

    fas    mfas    sm tti    sm bip8    pm tti    pm bip8    stat    psi    overhead    payload    fec    any
    jc    cnd    msi          of all slots: JC1 to JC3, JC4 to JC6, the MSI bytes
    jc of slot 3    payload of slots 2,4    msi of port 2    payload of customer north
    any of port 2             all places that it has: payload, jc, cnd and msi
    odu fas of port 2         of the client frames that it carries; also odu mfas, odu tti, odu bip8, odu stat, odu psi
    row 3 column 10    row 1 columns 10-14
    any but any of port 2 but mfas    payload but payload of slot 3

HOW:

    xor 01           each byte of it; more bytes than one are laid over it again and again
    set ff           likewise
    stat AIS         (or LCK, OCI) in the place of WHAT and HOW: the last three bits of the status byte, which `otn`
                     does not look at; "stat AIS of port 2" those of its client frames, which it does
    ber 1e-4         each bit of it by chance
    burst 40 bits    in each run of frames 40 bits, of which the first and the last are wrong, and others by chance
    slip +3 bytes    before the first byte of each run three bytes come in; -3: three are missing
    noise            random bytes
    drop             the frames are missing
    repeat           each run of frames comes twice
    ais              the frames are all ones, as the fibre carries them

A run are frames that follow one another. What is drawn by chance depends on `seed` alone, in any version of Python.
"""
from __future__ import annotations

import functools
import hashlib
import math
import random
import re
from dataclasses import dataclass
from typing import Dict, Iterable, Iterator, List, NamedTuple, Optional, Sequence, Tuple, TypeVar, Union

from otn_lines import FRAME, Bytes, Line, Place, at, folded, mask, parity_of, planned, xor

__all__ = ["Change", "Damaged", "changes_of", "damage", "undo"]

T = TypeVar("T")
STAT = {"AIS": 7, "OCI": 6, "LCK": 5}
SM, PM = at(1, 9), at(3, 11)
FEW = 32  # runs of a place that are written one by one

_WHERE = r"(?:(?P<base>frame|turn)s? (?P<first>\d+)(?P<to>-(?P<last>\d*))? )?" \
    r"(?:every (?P<every>\d+) (?P<unit>frame|turn)s? )?(?:some (?P<some>\d+) frames? )?"
_HOW = r"(?:(?P<name>xor|set) (?P<hex>(?:[0-9a-fA-F]{2})+)|stat (?P<signal>AIS|LCK|OCI)(?: of (?P<whose>.+))?" \
    r"|ber (?P<rate>[0-9.eE+-]+)|burst (?P<bits>\d+) bits?" \
    r"|slip (?P<slip>[+-]\d+) bytes?|(?P<noise>noise)|(?P<alone>drop|repeat|ais))"
_DAMAGE = re.compile(rf"{_WHERE}(?:(?P<what>[a-z].*?) )?{_HOW}")
_CHANGE = re.compile(r"frame (\d+) byte (\d+)(?: step (\d+))? from ([0-9a-f]+|-) to ([0-9a-f]+|-)")


class Change(NamedTuple):
    """Bytes that are others now. They stand at byte `byte` of the file and each `step` bytes on; where there are more
    or fewer of them than before, those behind have moved. Byte and frame are those of the file with all changes before.
    """

    frame: int
    byte: int
    was: bytes
    now: bytes
    step: int = 1

    def __str__(self) -> str:
        step = f" step {self.step}" if self.step > 1 else ""
        return f"frame {self.frame} byte {self.byte}{step} from {self.was.hex() or '-'} to {self.now.hex() or '-'}"

    @property
    def moves(self) -> bool:
        """Whether what stands behind has another place now."""
        return len(self.was) != len(self.now)

    @property
    def offsets(self) -> range:
        """Which bytes of the file it changed."""
        return range(self.byte, self.byte + self.step * len(self.now), self.step)


@dataclass(frozen=True)
class Damaged:
    """A line that was damaged, and how: each damage with its words and its changes, in order."""

    line: bytes
    steps: Tuple[Tuple[str, Tuple[Change, ...]], ...]

    @property
    def changes(self) -> List[Change]:
        """All changes, in the order in which they were made."""
        return [change for _, changes in self.steps for change in changes]

    @property
    def log(self) -> str:
        """What was done, a line for each change; `undo` takes it back."""
        return "".join(f"# {words}\n" + "".join(f"{change}\n" for change in changes) for words, changes in self.steps)

    def __repr__(self) -> str:
        return f"Damaged(line: {len(self.line)} bytes, {len(self.changes)} changes)"


def damage(
    line: Bytes,
    what: Union[str, Sequence[str]],
    *,
    seed: int = 0,
    otu3: bool = False,
    scrambled: bool = False,
    plan: Union[str, bytes] = "",
    of: str = "",
    fix_parity: bool = False,
) -> Damaged:
    """A damaged copy of a line. ValueError where the words have no such form, or name what the line has not.

    `plan` and `of`, "in 0" to "out 3", say which line of a plan it is: its form, and its customers by their names. With
    `fix_parity` the parity bytes of section and path fit again: of bytes that were changed, the change goes into the
    parity that frame i + 2 carries; behind frames that are missing or come twice it is put right.
    """
    tributaries = None
    if plan or of:
        side, _, number = of.partition(" ")
        slots, scrambled, tributaries = planned(plan, side, int(number) if number.isdigit() else -1)
        otu3 = slots == 32
    said = [one for it in ([what] if isinstance(what, str) else what) for one in re.split(r"\bthen\b", it)]
    data, dice, steps = bytearray(line), random.Random(seed), []
    for words in (" ".join(it.split()) for it in said):
        step = _Step(words, Line(data, otu3, scrambled, tributaries), dice, fix_parity)
        data, changes = step.done(data)
        steps.append((words, tuple(changes)))
        if fix_parity:
            more = tuple(step.parity(data, changes))
            steps += [("parity", more)] if more else []
    return Damaged(bytes(data), tuple(steps))


def changes_of(log: str) -> List[Change]:
    """The changes of a log. ValueError for a line that is none."""
    found = []
    for text in log.splitlines():
        if not text or text.startswith("#"):
            continue
        match = _CHANGE.fullmatch(text)
        if not match:
            raise ValueError(f"no line of a log: {text[:80]!r}")
        was, now = (b"" if it == "-" else bytes.fromhex(it) for it in match.group(4, 5))
        found.append(Change(int(match[1]), int(match[2]), was, now, int(match[3] or 1)))
    return found


def undo(line: Bytes, log: Union[str, Iterable[Change]]) -> bytes:
    """The line as it was before. ValueError where it is not as the log left it."""
    data = bytearray(line)
    for group in reversed(_groups(changes_of(log) if isinstance(log, str) else log)):
        if group[0].moves:
            data = _moved_back(data, group)
            continue
        for change in reversed(group):
            where = slice(change.offsets.start, change.offsets.stop, change.step)
            _compare(change, data[where])
            data[where] = change.was
    return bytes(data)


def _groups(changes: Iterable[Change]) -> List[List[Change]]:
    """The changes in groups that are undone in one go: those that move nothing, and those that move and rise."""
    found: List[List[Change]] = []
    for change in changes:
        last = found[-1][-1] if found else None
        joins = last is not None and last.moves == change.moves
        if joins and last is not None and change.moves:
            joins = change.byte >= last.byte + len(last.now)
        if joins:
            found[-1].append(change)
        else:
            found.append([change])
    return found


def _compare(change: Change, found: Bytes) -> None:
    if bytes(found) != change.now:
        raise ValueError(f"the line is not as the log left it: {str(change)[:80]}")


def _moved_back(data: bytearray, changes: List[Change]) -> bytearray:
    back, place = bytearray(), 0
    for change in changes:
        stop = change.byte + len(change.now)
        _compare(change, data[change.byte : stop])
        back += data[place : change.byte] + change.was
        place = stop
    return back + data[place:]


def _moved(data: bytearray, edits: Iterable[Tuple[int, int, bytes]]) -> Tuple[bytearray, List[Change]]:
    """The data with edits that rise: each a place, how many bytes are taken out there, and what comes in."""
    made, place, changes = bytearray(), 0, []
    for byte, out, now in edits:
        if byte < place:
            raise ValueError("one slip reaches into the next")
        made += data[place:byte]
        place = min(byte + out, len(data))
        if place > byte or now:
            changes.append(Change(len(made) // FRAME, len(made), bytes(data[byte:place]), now))
        made += now
    return made + data[place:], changes


class _Step:
    """One damage: its words, and the line that it finds."""

    def __init__(self, words: str, line: Line, dice: random.Random, fix_parity: bool) -> None:
        found = _DAMAGE.fullmatch(words)
        if not found:
            raise ValueError(f"no damage: {words!r} (WHERE WHAT HOW, as `otn-damage --help` says)")
        self.words, self.line, self.dice, self.said = words, line, dice, found.groupdict()
        self.how = next(it for it in ("name", "signal", "rate", "bits", "slip", "noise", "alone") if self.said[it])
        self.what = self.said["what"]
        if self.how == "signal":
            self.what = f"odu stat of {self.said['whose']}" if self.said["whose"] else "stat"
        if self.what and (self.how == "alone" or self.how == "signal" and self.said["what"]):
            raise ValueError(f"{words!r}: only whole frames are lost, repeated or all ones")
        if fix_parity and (self.how == "slip" or self.said["alone"] == "ais"):
            raise ValueError(f"{words!r}: no parity fits behind a slip, or in frames that are all ones")
        self.mask = mask() if line.scrambled else bytes(FRAME)
        self.frames = self._frames()
        self.order: Optional[List[int]] = None

    def _below(self, value: int) -> int:
        return int(self.dice.random() * value)

    # Where.

    def _frames(self) -> List[int]:
        """The frames that WHERE says, rising."""
        said, line = self.said, self.line
        frames: Sequence[int]
        if said["base"] == "turn" or said["unit"] == "turn":
            if said["base"] == "frame":
                raise ValueError(f"{self.words!r}: every N turns is of turns, and not of frames")
            turns = self._among(1, [t for t in line.turns if t.used])
            if said["unit"] == "turn":
                turns = turns[:: int(said["every"]) or 1]
            frames = [f for t in turns for f in (t.frames or t.lead)]
        else:
            frames = self._among(0, range(line.count))
        if said["unit"] == "frame":
            frames = frames[:: int(said["every"]) or 1]
        if said["some"]:
            frames = self._some(frames, int(said["some"]))
        if not frames:
            raise ValueError(f"{self.words!r}: the line has no such frames")
        return list(frames)

    def _among(self, first: int, all_of: Sequence[T]) -> Sequence[T]:
        """Those from the first number of WHERE to the last; the numbers of all begin with `first`."""
        said = self.said
        if said["base"] is None:
            return all_of
        begin = int(said["first"]) - first
        stop = begin + 1 if said["to"] is None else int(said["last"]) - first + 1 if said["last"] else len(all_of)
        if not 0 <= begin < stop <= len(all_of):
            name = f"{said['base']}s {first} to {len(all_of) - 1 + first}"
            raise ValueError(f"{self.words!r}: the line has {name}")
        return all_of[begin:stop]

    def _some(self, frames: Sequence[int], count: int) -> List[int]:
        left = list(frames)
        if count > len(left):
            raise ValueError(f"{self.words!r}: there are {len(left)} frames")
        for i in range(count):
            j = i + self._below(len(left) - i)
            left[i], left[j] = left[j], left[i]
        return sorted(left[:count])

    def _places(self) -> Iterator[Tuple[Place, List[int]]]:
        """The places of WHAT, and the frames among those of WHERE in which each stands."""
        wanted, some = set(self.frames), False
        for place in self.line.places(self.what or "any"):
            frames = [f for f in self.line.stands(place) if f in wanted]
            if frames:
                some = True
                yield place, frames
        if not some:
            raise ValueError(f"{self.words!r}: {self.what} stands in none of these frames")

    # How.

    def done(self, data: bytearray) -> Tuple[bytearray, List[Change]]:
        """The data with the damage, and what was changed."""
        if self.how == "slip":
            return _moved(data, list(self._slips()))
        if self.said["alone"] in ("drop", "repeat"):
            self.order = list(self._order())
            return _moved(data, [(FRAME * f, n, now) for f, n, now in self._frames_moved(data)])
        if self.how in ("rate", "bits"):
            changes = list(self._flipped(data))
        else:
            changes = [change for byte, now, step in self._written(data) for change in _changed(data, byte, now, step)]
        for change in changes:
            data[change.byte : change.byte + change.step * len(change.now) : change.step] = change.now
        return data, changes

    def _written(self, data: bytearray) -> Iterator[Tuple[int, bytes, int]]:
        """What is written: from which byte on, the bytes, and their distance."""
        if self.said["alone"] == "ais":
            yield from ((FRAME * f, b"\xff" * FRAME, 1) for f in self.frames)
            return
        for place, frames in self._places():
            writes = self._apart if len(place.runs) <= FEW else self._at_once
            yield from writes(data, place, frames, *self._pattern(place))

    def _pattern(self, place: Place) -> Tuple[int, Optional[bytes]]:
        """Which bits of a byte stay as they are, and what they are XORed with: a byte for each of the place in a frame.
        Of noise nothing stays, and what comes is drawn for each frame."""
        size = len(place.offsets)
        if self.how == "signal":
            return 0xF8, bytes([STAT[self.said["signal"]]]) * size
        if self.how == "noise":
            return 0, None
        pattern = bytes.fromhex(self.said["hex"])
        return 0xFF if self.said["name"] == "xor" else 0, (pattern * (size // len(pattern) + 1))[:size]

    def _noise(self, size: int) -> bytes:
        return hashlib.shake_256(self.dice.random().hex().encode()).digest(size)

    def _apart(
        self, data: bytearray, place: Place, frames: List[int], keep: int, put: Optional[bytes]
    ) -> Iterator[Tuple[int, bytes, int]]:
        """What is written of a place, run by run."""
        size = len(place.offsets)
        noise = self._noise(size * len(frames)) if put is None else b""
        for n, f in enumerate(frames):
            drawn = put if put is not None else noise[n * size : (n + 1) * size]
            for run in place.runs:
                now = drawn[run.first : run.first + run.stride * len(run) : run.stride]
                where, masked = FRAME * f + run.start, self.mask[run.start : run.stop : run.step]
                old = data[where : FRAME * f + run.stop : run.step]
                yield where, self._over(old, keep, now, masked), run.step

    def _at_once(
        self, data: bytearray, place: Place, frames: List[int], keep: int, put: Optional[bytes]
    ) -> Iterator[Tuple[int, bytes, int]]:
        """What is written of a place of many runs, a frame at once."""
        within, laid = bytearray(FRAME), bytearray(FRAME)
        for n, x in enumerate(place.offsets):
            within[x], laid[x] = 0xFF, put[n] if put else 0
        inside = int.from_bytes(within, "big")
        for f in frames:
            now = self._noise(FRAME) if put is None else bytes(laid)
            old = data[FRAME * f : FRAME * (f + 1)]
            new = int.from_bytes(self._over(old, keep, now, self.mask), "big")
            kept = int.from_bytes(old, "big")
            yield FRAME * f, (kept ^ (kept ^ new) & inside).to_bytes(FRAME, "big"), 1

    @staticmethod
    def _over(old: Bytes, keep: int, put: bytes, masked: bytes) -> bytes:
        """Bytes of which some bits stay and the others are XORed: as they are behind the descrambler."""
        if keep == 0xFF:
            return xor(old, put)
        kept = int.from_bytes(bytes([keep]) * len(old), "big")
        now = (int.from_bytes(old, "big") ^ int.from_bytes(masked, "big")) & kept
        return (now ^ int.from_bytes(put, "big") ^ int.from_bytes(masked, "big")).to_bytes(len(old), "big")

    def _flipped(self, data: bytearray) -> Iterator[Change]:
        """Single bytes with bits that are wrong by ber and burst."""
        flips: Dict[int, int] = {}
        for place, frames in self._places():
            size = 8 * len(place.offsets)
            offsets = place.offsets
            for bit in self._bits(frames, size):
                frame, x = divmod(bit, size)
                byte = FRAME * frames[frame] + offsets[x // 8]
                flips[byte] = flips.get(byte, 0) ^ 0x80 >> x % 8
        for byte in sorted(flips):
            if flips[byte]:
                was = data[byte]
                yield Change(byte // FRAME, byte, bytes((was,)), bytes((was ^ flips[byte],)))

    def _bits(self, frames: List[int], size: int) -> Iterator[int]:
        """The bits that are wrong: of these frames, each with `size` bits, as one list."""
        if self.how == "rate":
            return self._by_chance(len(frames) * size)
        return self._bursts(frames, size)

    def _by_chance(self, total: int) -> Iterator[int]:
        try:
            rate = float(self.said["rate"])
        except ValueError:
            rate = -1.0
        if not 0 < rate <= 1:
            raise ValueError(f"{self.words!r}: a rate is above 0 and not above 1")
        if rate == 1:
            yield from range(total)
            return
        bit, scale = -1, math.log1p(-rate)
        while True:
            gap = math.log(1 - self.dice.random()) / scale
            if gap >= total - bit - 1:
                return
            bit += 1 + int(gap)
            yield bit

    def _bursts(self, frames: List[int], size: int) -> Iterator[int]:
        wanted, begin = int(self.said["bits"]), 0
        for run in _runs_of(frames) if wanted else ():
            total = len(run) * size
            length = min(wanted, total)
            first = begin + self._below(total - length + 1)
            for bit in range(length):
                if bit in (0, length - 1) or self.dice.random() < 0.5:
                    yield first + bit
            begin += total

    def _slips(self) -> Iterator[Tuple[int, int, bytes]]:
        offset, count = 0, int(self.said["slip"])
        frames = self.frames
        if self.what:
            place, frames = next(self._places())
            offset = place.offsets[0]
        for run in _runs_of(frames):
            now = bytes(self._below(256) for _ in range(count))
            yield FRAME * run[0] + offset, max(-count, 0), now

    def _frames_moved(self, data: bytearray) -> Iterator[Tuple[int, int, bytes]]:
        if self.said["alone"] == "drop":
            return ((f, FRAME, b"") for f in self.frames)
        return ((r[-1] + 1, 0, bytes(data[FRAME * r[0] : FRAME * r[-1] + FRAME])) for r in _runs_of(self.frames))

    # Parity.

    def _order(self) -> Iterator[int]:
        """The frames as they stand after a drop or a repeat, by their numbers before."""
        gone, ends = set(self.frames), {run[-1]: run for run in _runs_of(self.frames)}
        for f in range(self.line.count):
            if self.said["alone"] == "repeat" or f not in gone:
                yield f
            if self.said["alone"] == "repeat" and f in ends:
                yield from ends[f]

    def parity(self, data: bytearray, changes: List[Change]) -> Iterator[Change]:
        """What is changed besides, so that the parity bytes fit."""
        wanted: Dict[int, int] = {}
        if self.order is not None:
            for f, was in enumerate(self.order):
                if f >= 2 and self.order[f - 2] != was - 2:
                    right = parity_of(xor(data[FRAME * (f - 2) : FRAME * (f - 1)], self.mask))
                    for place in (SM, PM):
                        wanted[FRAME * f + place] = right ^ self.mask[place]
        else:
            for f, wrong in _parity_changes(changes).items():
                for place in (SM, PM) if f + 2 < self.line.count else ():
                    byte = FRAME * (f + 2) + place
                    wanted[byte] = data[byte] ^ wrong
        for byte, now in sorted(wanted.items()):
            for change in _changed(data, byte, bytes([now]), 1):
                data[byte] = now
                yield change


def _changed(data: bytearray, byte: int, now: bytes, step: int) -> Iterator[Change]:
    """The changes where these bytes are written."""
    was = bytes(data[byte : byte + step * len(now) : step])
    # (few equal bytes between two that differ are told with them)
    for found in re.finditer(b"[^\\0]+" if step > 1 else b"[^\\0]+(?:\\0{1,8}[^\\0]+)*", xor(was, now)):
        a, b = found.span()
        first = byte + step * a
        yield Change(first // FRAME, first, was[a:b], now[a:b], step if b - a > 1 else 1)


def _runs_of(frames: Sequence[int]) -> List[List[int]]:
    """The frames in runs that follow one another."""
    found: List[List[int]] = []
    for f in frames:
        if found and found[-1][-1] == f - 1:
            found[-1].append(f)
        else:
            found.append([f])
    return found


@functools.lru_cache(maxsize=None)
def _covered() -> bytes:
    """FF where the parity covers a byte of a frame."""
    row = bytes(14) + b"\xff" * 3_810 + bytes(256)
    return row * 4


def _parity_changes(changes: Iterable[Change]) -> Dict[int, int]:
    """How the parity of each frame is another one."""
    found: Dict[int, int] = {}
    for change in changes:
        begin = change.byte - FRAME * change.frame
        covered = _covered()[begin : begin + change.step * len(change.now) : change.step]
        wrong = int.from_bytes(xor(change.was, change.now), "big") & int.from_bytes(covered, "big")
        found[change.frame] = found.get(change.frame, 0) ^ folded(wrong.to_bytes(len(change.now), "big"))
    return {f: wrong for f, wrong in found.items() if wrong}
