"""A node that is driven turn by turn: for simulators, rings, and lines that are sockets.

>>> import otn_live
>>> there = '''
... turns = 8
... [[connection]]
... name = "letters"
... kind = "odu0"
... from = { client = 0 }
... to = { line = 0, port = 1, slots = [3] }
... '''
>>> back = '''
... turns = 8
... [[connection]]
... name = "letters"
... kind = "odu0"
... from = { line = 0, port = 1, slots = [3] }
... to = { client = 4 }
... '''
>>> with otn_live.Node(there) as one, otn_live.Node(back) as other:
...     for turn in range(1, 9):
...         leaves = one.out.lines[0]                       # what leaves in this turn was there before it
...         packets = [b"hello"] if turn == 1 else []
...         _ = one.turn(clients={0: packets})
...         came = other.turn(lines={0: leaves}).clients
...         if came.get(4):
...             print(turn, came[4])
5 [b'hello']

`Node` opens a node by a plan (docs/FORMATS.md, "Plan file"); `Node.out` has what leaves in turn 1. `Node.turn` hands in
what comes in a turn, does the turn, and answers with what leaves in the next one. What leaves in a turn is there before
anything of that turn is handed in, so nodes may stand in a ring. docs/LIVE.md says the rules.

The node is the program `otn_live` at the other end of two pipes. It is looked for where the environment's OTN_LIVE says,
else on the path. Python 3.9 or later, and nothing beside its standard library. No proof speaks of this file; it is
tested by `checks/live`.
"""
from __future__ import annotations

import io
import os
import struct
import subprocess
from collections import deque
from dataclasses import dataclass, field
from typing import Callable, Deque, Dict, List, Mapping, Optional, Sequence, Union

__all__ = [
    "CLIENTS", "FRAME", "LINES", "MULTIFRAME", "Fibre", "Node", "Out", "PlanRefused", "Refused", "Waits", "input_name",
]

LINES = 4  #: how many lines go in, and how many go out: 0 to 3
CLIENTS = 16  #: how many clients there are: 0 to 15
FRAME = 16_320  #: the bytes of a frame of a line
MULTIFRAME = 8 * FRAME  #: the bytes of an OTU2 line in a turn; an OTU3 line has four times as many

_ENDS = 0xFFFFFFFF
_DONE, _WAITS, _OVER, _PLAN, _MEMORY, _REFUSED = range(6)

Buffer = Union[bytes, bytearray, memoryview]


class Waits(Exception):
    """An input lacks something for the turn: `input` names it. What was handed in stays: hand in more by a further
    `turn`."""

    def __init__(self, number: int) -> None:
        self.input = input_name(number)
        super().__init__(self.input)


class PlanRefused(ValueError):
    """The plan breaks the rule of this number (`otn --rules`)."""

    def __init__(self, rule: int) -> None:
        self.rule = rule
        super().__init__(f"the plan breaks rule {rule}")


class Refused(ValueError):
    """The bytes of an input were no whole frames or no whole lines, or the input has ended. The node is closed."""


@dataclass(repr=False)
class Out:
    """What leaves in a turn: the frames of each line, and the text of each client. Once all turns of the plan are done
    `over` is true, nothing leaves, and `report` is the report of the run."""

    lines: Dict[int, bytes] = field(default_factory=dict)
    texts: Dict[int, bytes] = field(default_factory=dict)
    over: bool = False
    report: bytes = b""

    def __repr__(self) -> str:
        sizes = [{n: f"{len(it)} bytes" for n, it in each.items()} for each in (self.lines, self.texts)]
        return f"Out(lines: {sizes[0]}, texts: {sizes[1]}, over: {self.over})"

    @property
    def clients(self) -> Dict[int, List[bytes]]:
        """The packets of each client, without those of bytes 0 alone, by which nodes fill idle time."""
        packets = {n: [bytes.fromhex(line) for line in text.decode().splitlines()] for n, text in self.texts.items()}
        return {n: [packet for packet in these if any(packet)] for n, these in packets.items()}


class Node:
    """A node of a plan. Close it by `close`, or use it by `with`."""

    def __init__(self, plan: Union[str, bytes], program: Optional[str] = None) -> None:
        path = program or os.environ.get("OTN_LIVE") or "otn_live"
        self._run = subprocess.Popen([path], stdin=subprocess.PIPE, stdout=subprocess.PIPE, bufsize=0)
        assert isinstance(self._run.stdin, io.FileIO) and isinstance(self._run.stdout, io.FileIO)
        self._to, self._from = self._run.stdin, self._run.stdout
        for pipe in (self._to, self._from):
            _widen(pipe.fileno())
        text = plan.encode() if isinstance(plan, str) else plan
        self.turns = 0  #: how many turns were done
        try:
            self._send([_number(len(text)), text])
            self.out = self._answer()
        except BaseException:
            self.close()
            raise
        self.turns = 0

    def __enter__(self) -> "Node":
        return self

    def __exit__(self, *why: object) -> None:
        self.close()

    def close(self) -> None:
        """Ends the node. All its memory is given back."""
        if self._run.poll() is None:
            try:
                self._send([_number(0)])
            except OSError:
                pass
        self._to.close()
        self._from.close()
        self._run.wait()

    def turn(self, lines: Mapping[int, Buffer] = {}, clients: Mapping[int, Sequence[bytes]] = {},
             texts: Mapping[int, Buffer] = {}, ends: Sequence[int] = ()) -> Out:
        """Hands in what comes in a turn, does it, and answers with what leaves in the next one. `texts` are packets as
        text, in place of `clients`. `ends` are inputs of which no more comes: lines 0 to 3, clients 4 to 19. Raises
        `Waits` where an input lacks something, and then does nothing else."""
        parts: List[Buffer] = [_number(1)]
        for n in range(LINES + CLIENTS):
            if n in ends:
                parts.append(_number(_ENDS))
                continue
            given = lines.get(n, b"") if n < LINES else texts.get(n - LINES)
            if given is None:
                given = b"".join(packet.hex().encode() + b"\n" for packet in clients.get(n - LINES, ()))
            parts += [_number(len(given)), given]
        self._send(parts)
        self.out = self._answer()
        return self.out

    def _send(self, parts: Sequence[Buffer]) -> None:
        for part in parts if sum(map(len, parts)) > 1 << 16 else [b"".join(parts)]:
            view = memoryview(part)
            while view:
                view = view[self._to.write(view):]

    def _receive(self, count: int) -> bytes:
        room = bytearray(count)
        view = memoryview(room)
        while view:
            got = self._from.readinto(view)
            if not got:
                raise EOFError("the node has ended")
            view = view[got:]
        return bytes(room)

    def _answer(self) -> Out:
        word, told = struct.unpack("<II", self._receive(8))
        if word == _WAITS:
            raise Waits(told)
        if word == _PLAN:
            raise PlanRefused(told)
        if word == _MEMORY:
            raise MemoryError
        if word == _REFUSED:
            raise Refused(input_name(told))
        if word == _OVER:
            return Out(over=True, report=self._receive(self._length()))
        self.turns += 1
        out = Out()
        for n in range(LINES + CLIENTS):
            length = self._length()
            if length:
                (out.lines if n < LINES else out.texts)[n if n < LINES else n - LINES] = self._receive(length)
        return out

    def _length(self) -> int:
        return int(struct.unpack("<I", self._receive(4))[0])


class Fibre:
    """A fibre to a line input. What goes in comes out `delay` turns later, as `damage` makes it; what comes out before
    is dark, frames of bytes 255: 8 a turn, and 32 of an OTU3.

    >>> import otn_live
    >>> fibre = otn_live.Fibre(delay=1, damage=lambda frames: frames[::-1])
    >>> fibre.carry(b"first" * 26112) == b"\xff" * otn_live.MULTIFRAME
    True
    >>> fibre.carry(b"")[:5]
    b'tsrif'
    """

    def __init__(self, delay: int = 0, damage: Callable[[bytes], bytes] = bytes, frames: int = 8) -> None:
        self._damage = damage
        self._way: Deque[bytes] = deque([b"\xff" * (frames * FRAME)] * delay)

    def carry(self, frames: bytes) -> bytes:
        """What comes out in a turn in which these frames go in."""
        self._way.append(frames)
        return self._damage(self._way.popleft())


def input_name(number: int) -> str:
    """The name of an input by its number among all 20."""
    return f"line {number}" if number < LINES else f"client {number - LINES}"


def _number(n: int) -> bytes:
    return struct.pack("<I", n)


def _widen(pipe: int) -> None:
    """Gives a pipe room for a turn, where the system lets it."""
    try:
        import fcntl
        fcntl.fcntl(pipe, getattr(fcntl, "F_SETPIPE_SZ", 1031), 1 << 20)
    except (ImportError, OSError):
        pass


if __name__ == "__main__":
    import doctest
    import sys
    sys.exit(doctest.testmod().failed > 0)
