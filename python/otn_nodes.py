"""A node that is driven turn by turn, in this process: `otn.Node`, over the calls otn_open to otn_close of the library.

It has the methods and answers of `otn_live.Node`, which drives a node in another process. docs/LIVE.md has the rules.
Nothing beside Python's standard library. No proof speaks of this file; it is tested by `checks/live`.
"""
from __future__ import annotations

import ctypes
import functools
from typing import Any, Dict, Mapping, Sequence, Union

from otn_live import CLIENTS, LINES, Out, PlanRefused, Refused, Waits, input_name

__all__ = ["Node"]

Buffer = Union[bytes, bytearray, memoryview]

_DONE, _PLAN, _MEMORY, _NO_ROOM, _NO_CALL, _WAITS, _OVER, _NO_PORT, _NOT_WHOLE = 0, 3, 7, 8, 9, 10, 11, 12, 13
_ROOM = 1 << 20


class _Handle(ctypes.Structure):
    """`struct otn_node` of include/otn.h."""

    _fields_ = [("at", ctypes.c_void_p)]


class _Told(ctypes.Structure):
    """`struct otn_told` of include/otn.h."""

    _fields_ = [("rule", ctypes.c_uint32), ("place", ctypes.c_uint64), ("length", ctypes.c_size_t)]


@functools.lru_cache(maxsize=None)
def _calls() -> Any:
    import otn
    library = otn._library()
    handle, told, port = ctypes.POINTER(_Handle), ctypes.POINTER(_Told), ctypes.c_uint32
    block, size = ctypes.c_void_p, ctypes.c_size_t
    kinds: Dict[str, Sequence[Any]] = {
        "otn_open": (block, size, handle, told), "otn_hand_in": (handle, port, block, size), "otn_end": (handle, port),
        "otn_lack": (handle, port, told), "otn_turn": (handle, told), "otn_left": (handle, port, block, size, told),
        "otn_report": (handle, block, size, told), "otn_close": (handle,),
    }
    for name, kind in kinds.items():
        call = getattr(library, name)
        call.restype, call.argtypes = ctypes.c_uint32, kind
    return library


def _lent(given: Buffer) -> Any:
    """Where bytes lie. Those of `bytes`, and of a contiguous buffer that may be written, are not copied."""
    if isinstance(given, bytes):
        return given
    view = memoryview(given).cast("B")
    return view.tobytes() if view.readonly else (ctypes.c_char * len(view)).from_buffer(view)


class Node:
    """A node of a plan. Close it by `close`, or use it by `with`. One thread calls it, from its opening to its end;
    further nodes may be called by other threads, side by side."""

    def __init__(self, plan: Union[str, Buffer]) -> None:
        self._handle, self._told = _Handle(), _Told()
        self._room = bytearray(_ROOM)
        self.turns = 0  #: how many turns were done
        text = plan.encode() if isinstance(plan, str) else bytes(plan)
        code = _calls().otn_open(text, len(text), self._handle, self._told)
        if code == _PLAN:
            raise PlanRefused(int(self._told.rule))
        self._expect(code)
        self.out = self._leaves()  #: what leaves in the next turn

    def __enter__(self) -> "Node":
        return self

    def __exit__(self, *why: object) -> None:
        self.close()

    def __del__(self) -> None:
        self.close()

    def close(self) -> None:
        """Ends the node. All its memory is given back. A node that is closed is left as it is."""
        if self._handle.at:
            _calls().otn_close(self._handle)

    def turn(self, lines: Mapping[int, Buffer] = {}, clients: Mapping[int, Sequence[bytes]] = {},
             texts: Mapping[int, Buffer] = {}, ends: Sequence[int] = ()) -> Out:
        """Hands in what comes in a turn, does it, and answers with what leaves in the next one. `texts` are packets as
        text, in place of `clients`. `ends` are inputs of which no more comes: lines 0 to 3, clients 4 to 19. Raises
        `Waits` where an input lacks something, and keeps what was handed in. Raises `Refused` where the bytes of an
        input were not taken; those of the inputs before it were."""
        for n in range(LINES + CLIENTS):
            if n in ends:
                self._expect(_calls().otn_end(self._handle, n))
                continue
            given = lines.get(n, b"") if n < LINES else texts.get(n - LINES)
            if given is None:
                given = b"".join(packet.hex().encode() + b"\n" for packet in clients.get(n - LINES, ()))
            if len(given):
                self._hand_in(n, given)
        for n in range(LINES, LINES + CLIENTS):
            self._fill(n)
        code = _calls().otn_turn(self._handle, self._told)
        if code == _WAITS:
            raise Waits(int(self._told.place))
        if code == _OVER:
            return Out(over=True, report=self.report())
        self._expect(code)
        self.turns += 1
        self.out = self._leaves()
        return self.out

    def report(self) -> bytes:
        """The report: the numbers as they stand, and after the last turn those of the run."""
        return self._taken(functools.partial(_calls().otn_report, self._handle))

    def _hand_in(self, n: int, given: Buffer) -> None:
        size = memoryview(given).nbytes
        code = _calls().otn_hand_in(self._handle, n, _lent(given), size)
        if code in (_NO_PORT, _NOT_WHOLE):
            raise Refused(input_name(n))
        self._expect(code)

    def _fill(self, n: int) -> None:
        """Fills up a client: packets of bytes 0, and then empty lines up to the end of a block of text."""
        while True:
            self._expect(_calls().otn_lack(self._handle, n, self._told))
            packet, lines = int(self._told.length), int(self._told.place)
            if not packet and not lines:
                return
            self._hand_in(n, b"00" * packet + b"\n" if packet else b"\n" * lines)

    def _leaves(self) -> Out:
        out = Out()
        for n in range(LINES + CLIENTS):
            given = self._taken(functools.partial(_calls().otn_left, self._handle, n))
            if given:
                (out.lines if n < LINES else out.texts)[n if n < LINES else n - LINES] = given
        return out

    def _taken(self, call: Any) -> bytes:
        """What a call puts out, in as much room as it wants."""
        while True:
            code = call((ctypes.c_char * len(self._room)).from_buffer(self._room), len(self._room), self._told)
            if code != _NO_ROOM:
                self._expect(code)
                return bytes(memoryview(self._room)[:self._told.length])
            self._room = bytearray(self._told.length)

    def _expect(self, code: int) -> None:
        if code == _MEMORY:
            raise MemoryError
        if code == _NO_CALL:
            raise ValueError("the node is closed")
        if code != _DONE:
            raise ValueError(f"the library answers {code}")
