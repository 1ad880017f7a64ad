"""otn in this process, over bytes in memory: no files, no folders, no other program.

otn is a node of an optical transport network (ITU-T G.709). Clients bring packets. Connections take them into tributary
slots of lines, across from line to line, and out to clients again. A plan says which connections there are.

>>> import otn
>>> there = '''
... turns = 12
... [[connection]]
... name = "letters"
... kind = "odu0"
... from = { client = 0 }
... to = { line = 0, port = 1, slots = [3] }
... '''
>>> back = '''
... turns = 12
... [[connection]]
... name = "letters"
... kind = "odu0"
... from = { line = 0, port = 1, slots = [3] }
... to = { client = 4 }
... '''
>>> first = otn.run(there, clients={0: [b"hello", b"world"]})
>>> first
Result(DONE, report: 106 bytes, lines: {0: 1566720 bytes}, clients: {})
>>> second = otn.run(back, lines={0: first.lines[0]})
>>> second.clients
{4: [b'hello', b'world']}
>>> second.records.line_in[0].frames, second.records.connections
(96, {'letters': 'up'})

What goes in and what comes out:

- a plan: TOML, as a `str` or as UTF-8 bytes (docs/FORMATS.md, "Plan file"). Its `turns` say how long all runs: a turn
  is a multiframe of each line, eight frames of an OTU2;
- lines, by numbers 0 to 3: `bytes`, frame after frame of 16,320 bytes;
- clients, by numbers 0 to 15: lists of packets, each `bytes`. `Result.texts` has them as they are handed out, in hex.

Output lags input: what a client brings in turn t leaves at a client of the next node in turn t + 4. So plan some turns
more than the packets take. A line or client that is not named brings nothing, and one that nothing came out of is not
in the result.

**What is promised.** What a connection sends depends on its own entry of the plan, its own bytes, and the MFAS bytes of
the line that brings them, and on nothing else. That is proved of the library, and of the very bytes that are handed in.
No proof speaks of this file, which is tested.

**To test a line** there are modules beside this one: `otn.lines` has its frames and places by name, `otn.damage`
damages it by words, `otn.view` and `otn.events` tell what it carries and what happened on it, `otn.test_packets` and
`otn.count` are packets that know their number and what came of them. docs/TUTORIAL-PYTHON.md shows them in a row.

**Turn by turn**: `otn.Node` is a node that is handed what comes in a turn, and answers with what leaves in the next one,
for simulators, rings and lines that are sockets. `otn.Fibre` is a fibre with a delay and damage. docs/LIVE.md has the
rules.

>>> with otn.Node(there) as one, otn.Node(back) as other:
...     for turn in range(1, 9):
...         leaves = one.out.lines[0]                       # what leaves in this turn was there before it
...         _ = one.turn(clients={0: [b"hello"] if turn == 1 else []})
...         came = other.turn(lines={0: leaves}).clients
...         if came.get(4):
...             print(turn, came[4])
5 [b'hello']

**The library** is looked for where the environment's OTN_LIBRARY says. Else it is libotn.so beside this file, where
`library/build python` makes it and where a wheel has it. Else it is the system's libotn.so.1, of the package libotn1. A
call keeps nothing for the next one, and lets other threads run; so calls of several threads run side by side. Python
3.9 or later, and nothing beside its standard library.

`python3 python/otn.py` tries all the examples in this file.
"""
from __future__ import annotations

import ctypes
import enum
import functools
import mmap
import os
import pathlib
import re
import sys
from dataclasses import dataclass, field
from typing import Dict, List, Mapping, Optional, Sequence, Tuple, Union

import otn_lines as lines
from otn_damage import Damaged, damage, undo
from otn_events import Events, events
from otn_live import Fibre, Out, PlanRefused, Refused, Waits
from otn_nodes import Node
from otn_packets import Counts, count, test_packets
from otn_views import View, view

__all__ = [
    "CLIENTS", "FRAME", "LINES", "MULTIFRAME", "RULES", "VERSION", "ClientIn", "ClientOut", "Counts", "Damaged",
    "Events", "Fibre", "LineIn", "LineOut", "Node", "Out", "PlanRefused", "Records", "Refused", "Result", "Status",
    "View", "Waits", "call", "check", "count", "damage", "events", "lines", "packets", "protect", "pull", "run", "slot",
    "test_packets", "text", "trial", "undo", "version", "view",
]

VERSION = 2  #: the version of the library that this file is for (OTN_VERSION of include/otn.h)
_ABI = 1  # the number in the name of the shared library (OTN_ABI of include/otn.h)
LINES = 4  #: how many lines go in, and how many go out: 0 to 3
CLIENTS = 16  #: how many clients there are: 0 to 15
FRAME = 16_320  #: the bytes of a frame of a line
MULTIFRAME = 8 * FRAME  #: the bytes of an OTU2 line in a turn; an OTU3 line has four times as many

#: The rules of a plan, in order: a refused plan breaks rule `Result.rule`, and `RULES[Result.rule - 1]` is its name.
RULES = (
    "NotToml", "UnknownKey", "MissingKey", "WrongKind", "Turns", "TooMany", "BadName", "NameTwice",
    "BadPlace", "BadSlots", "SlotTwice", "PortTwice", "ClientTwice", "BadPace", "BadSpan",
)

_PORTS = LINES + CLIENTS
_NO_ROOM, _NO_CALL = 8, 9

Bytes = Union[bytes, bytearray, memoryview]
#: What a client brings: its packets, or their text as the program reads it.
Client = Union[Sequence[bytes], Bytes]


class Status(enum.IntEnum):
    """How a command ended, by the number that the program ends with."""

    DONE = 0  #: nothing was left over
    UNFINISHED = 1  #: a line has more bytes than the plan's turns want, or a client has packets left
    WORDS = 2  #: the words are no command
    PLAN = 3  #: the plan is refused: `Result.rule` and `Result.place` say why
    PLAN_FAULT = 4  #: (not of a plan in memory)
    REPORT_FAULT = 5  #: there was no memory for the report
    CUT = 6  #: there was no memory for an output; all others are whole
    MEMORY = 7  #: there was no memory: nothing came out


@dataclass(frozen=True)
class LineIn:
    """What the report says of an input line."""

    frames: int  #: whole frames used, lead-in among them
    lead_in: int  #: frames passed over until the MFAS counted up
    lost: int  #: multiframes of which more than half of the MFAS bytes were wrong
    rest: int  #: bytes behind the last whole frame
    fas: int  #: used frames whose frame alignment is wrong
    sm: int  #: used frames whose section parity is wrong
    pm: int  #: used frames whose path parity is wrong
    state: str  #: "live", "dead" or "empty"


@dataclass(frozen=True)
class LineOut:
    """What the report says of an output line."""

    frames: int  #: frames that went out whole
    state: str  #: "live", "dead" or "empty"


@dataclass(frozen=True)
class ClientIn:
    """What the report says of a client that brings packets."""

    packets: int  #: packets whose GFP frame was begun
    word: str  #: "spent" where all of them went, "bad" where a line of its text is none, else "open"
    bad_line: Optional[int]  #: which line of its text is bad, from 1
    state: str  #: "live", "dead" or "empty"


@dataclass(frozen=True)
class ClientOut:
    """What the report says of a client that gets packets."""

    frames: int  #: whole client frames
    packets: int  #: packets that went out whole
    state: str  #: "live", "dead" or "empty"


@dataclass(frozen=True)
class Records:
    """The report of a `run`: its lines as records, by the numbers of their ports and the names of their connections."""

    turns: int
    line_in: Dict[int, LineIn]
    line_out: Dict[int, LineOut]
    client_in: Dict[int, ClientIn]
    client_out: Dict[int, ClientOut]
    #: what each connection came from after the last turn: "client", "signal", "waiting", "up", "down" or "off"
    connections: Dict[str, str]
    status: str  #: "done", "unfinished" or "cut"


@dataclass(frozen=True, repr=False)
class Result:
    """What a command answered, and what its report and outputs got. Outputs that got nothing are not in it.

    >>> import otn
    >>> refused = otn.check("turns = 0")
    >>> refused.status, refused.rule_name, refused.place, refused.complaint
    (<Status.PLAN: 3>, 'Turns', 0, 'plan 5 at 0')
    """

    status: Status
    report: bytes  #: of `slot` and `pull` the bytes themselves, of all other commands a text
    lines: Dict[int, bytes] = field(default_factory=dict)  #: what each line output got
    texts: Dict[int, bytes] = field(default_factory=dict)  #: what each client output got: a line of hex digits a packet
    rule: int = 0  #: of a refused plan the number of the rule that it breaks, 1 to 15; else 0
    place: int = 0  #: of a refused plan where: 0 the top, 1 the first connection, and so on; else 0

    @functools.cached_property
    def clients(self) -> Dict[int, List[bytes]]:
        """The packets that each client got."""
        return {n: packets(it) for n, it in self.texts.items()}

    @functools.cached_property
    def words(self) -> List[List[str]]:
        """The words of each line of a report that is a text: of `run`, `check`, `trial`, `protect` and the like.

        >>> import otn
        >>> otn.check("turns = 64").words
        [['plan', 'connections', '0', 'turns', '64']]
        """
        return [line.split() for line in self.report.decode("ascii").splitlines()]

    @functools.cached_property
    def records(self) -> Records:
        """The report of a `run` as records. ValueError where it is the report of something else, or not whole.

        >>> import otn
        >>> otn.run("turns = 3").records
        Records(turns=3, line_in={}, line_out={}, client_in={}, client_out={}, connections={}, status='done')
        """
        return _records(self.report)

    @property
    def rule_name(self) -> str:
        """The name of the rule that a refused plan breaks; empty else."""
        return RULES[self.rule - 1] if self.rule else ""

    @property
    def complaint(self) -> str:
        """What the program says of the status on standard error, without its name; empty for DONE."""
        if self.status == Status.DONE:
            return ""
        if self.status == Status.PLAN:
            return f"plan {self.rule} at {self.place}"
        return self.status.name.lower().replace("_", " ")

    def __repr__(self) -> str:
        why = f" by rule {self.rule}, {self.rule_name}, at {self.place}" if self.rule else ""
        lines = ", ".join(f"{n}: {len(it)} bytes" for n, it in self.lines.items())
        clients = ", ".join(f"{n}: {it.count(10)} packets" for n, it in self.texts.items())
        name = f"{self.status.name}{why}"
        return f"Result({name}, report: {len(self.report)} bytes, lines: {{{lines}}}, clients: {{{clients}}})"


# The lines of the report of a run, by their first word.
_NUMBER, _STATE = r"(\d+)", r"(live|dead|empty)"
_FORMS = {
    "turns": f"turns {_NUMBER}",
    "line-in": f"line-in {_NUMBER} frames {_NUMBER} lead-in {_NUMBER} lost {_NUMBER} rest {_NUMBER} fas {_NUMBER} "
    f"sm {_NUMBER} pm {_NUMBER} {_STATE}",
    "line-out": f"line-out {_NUMBER} frames {_NUMBER} {_STATE}",
    "client-in": f"client-in {_NUMBER} packets {_NUMBER} (spent|open|bad)(?: {_NUMBER})? {_STATE}",
    "client-out": f"client-out {_NUMBER} frames {_NUMBER} packets {_NUMBER} {_STATE}",
    "connection": r"connection ([a-z0-9-]+) (client|signal|waiting|up|down|off)",
    "status": "status (done|unfinished|cut)",
}


def _records(report: bytes) -> Records:
    turns, status = -1, ""
    line_in: Dict[int, LineIn] = {}
    line_out: Dict[int, LineOut] = {}
    client_in: Dict[int, ClientIn] = {}
    client_out: Dict[int, ClientOut] = {}
    connections: Dict[str, str] = {}
    for line in report.decode("ascii", "replace").splitlines():
        first = line.partition(" ")[0]
        found = re.fullmatch(_FORMS[first], line) if first in _FORMS else None
        if found is None:
            raise ValueError(f"no line of the report of a run: {line[:80]!r}")
        it = found.groups()
        if first == "turns":
            turns = int(it[0])
        elif first == "line-in":
            line_in[int(it[0])] = LineIn(*map(int, it[1:8]), it[8])  # type: ignore[arg-type, call-arg]
        elif first == "line-out":
            line_out[int(it[0])] = LineOut(int(it[1]), it[2])
        elif first == "client-in":
            client_in[int(it[0])] = ClientIn(int(it[1]), it[2], int(it[3]) if it[3] else None, it[4])
        elif first == "client-out":
            client_out[int(it[0])] = ClientOut(int(it[1]), int(it[2]), it[3])
        elif first == "connection":
            connections[it[0]] = it[1]
        else:
            status = it[0]
    if turns < 0 or not status:
        raise ValueError("no whole report of a run")
    return Records(turns, line_in, line_out, client_in, client_out, connections, status)


def text(packets: Sequence[bytes]) -> bytes:
    """The text of packets as the program reads it: a line of hex digits for each. A packet has 1 to 65,527 bytes.

    >>> import otn
    >>> otn.text([b"hello", b"world"])
    b'68656c6c6f\\n776f726c64\\n'
    """
    for packet in packets:
        if not 1 <= len(packet) <= 65_527:
            raise ValueError(f"a packet has 1 to 65,527 bytes, and not {len(packet)}")
    return b"".join(packet.hex().encode() + b"\n" for packet in packets)


def packets(text: Bytes) -> List[bytes]:
    """The packets of a text; what stands behind its last LF is no packet.

    >>> import otn
    >>> otn.packets(b"68656c6c6f\\n776f")
    [b'hello']
    """
    return [bytes.fromhex(line.decode("ascii")) for line in bytes(text).split(b"\n")[:-1]]


class _Answer(ctypes.Structure):
    """`struct otn_answer` of include/otn.h."""

    _fields_ = [
        ("status", ctypes.c_uint32),
        ("rule", ctypes.c_uint32),
        ("place", ctypes.c_uint64),
        ("report", ctypes.c_size_t),
        ("outputs", ctypes.c_size_t),
    ]


@functools.lru_cache(maxsize=None)
def _library() -> ctypes.CDLL:
    beside = pathlib.Path(__file__).with_name("libotn.so")
    named = os.environ.get("OTN_LIBRARY") or (str(beside) if beside.exists() else "")
    path = os.path.abspath(named) if named else f"libotn.so.{_ABI}"
    try:
        library = ctypes.CDLL(path)
    except OSError as why:
        raise OSError(f"{why} (library/build python makes it; OTN_LIBRARY says where it is)") from why
    read, write, number = ctypes.c_char_p, ctypes.c_void_p, ctypes.c_size_t
    if not hasattr(library, "otn_version"):
        raise OSError(f"{path} says no version, and otn.py is for version {VERSION}")
    library.otn_version.restype = ctypes.c_uint32
    library.otn_version.argtypes = []
    if library.otn_version() != VERSION:
        raise OSError(f"{path} is of version {library.otn_version()}, and otn.py is for version {VERSION}")
    library.otn_run.restype = ctypes.c_uint32
    library.otn_run.argtypes = [read, number] * 3 + [write, number, read, number] + [write, number] * 3 + [write]
    return library


def version() -> int:
    """The version of the library that is loaded. It is `VERSION`: another one is refused when it is loaded.

    >>> import otn
    >>> otn.version() == otn.VERSION
    True
    """
    return int(_library().otn_version())


def _memory(size: int) -> mmap.mmap:
    # (memory of the system's own, so that only what is written is ever made; in large pages where the system has them)
    if sys.platform == "win32":
        return mmap.mmap(-1, size)
    made = mmap.mmap(-1, size, flags=mmap.MAP_PRIVATE | mmap.MAP_ANONYMOUS)
    if hasattr(mmap, "MADV_HUGEPAGE") and size >= 1 << 22:
        made.madvise(mmap.MADV_HUGEPAGE)
    return made


def _bytes(given: Bytes) -> bytes:
    # (a number is no bytes: `bytes(5)` would be five of them)
    return given if isinstance(given, bytes) else bytes(memoryview(given))


def _inputs(lines: Optional[Mapping[int, Bytes]], clients: Optional[Mapping[int, Client]]) -> Dict[int, bytes]:
    """All inputs, by the numbers of the library: lines 0 to 3, then clients as 4 to 19."""
    found: Dict[int, bytes] = {}
    for n, line in (lines or {}).items():
        if n not in range(LINES):
            raise ValueError(f"a line has a number from 0 to 3, and not {n!r}")
        found[n] = _bytes(line)
    for n, client in (clients or {}).items():
        if n not in range(CLIENTS):
            raise ValueError(f"a client has a number from 0 to 15, and not {n!r}")
        found[LINES + n] = _bytes(client) if isinstance(client, (bytes, bytearray, memoryview)) else text(client)
    return found


def _room(said: str, plan: bytes, block: bytes) -> int:
    """Enough room for the outputs of nearly every command: a line has a multiframe a turn."""
    words = said.split() + [""] * 4
    if words[0] == "run":
        outputs = len(set(re.findall(rb"line *= *([0-3])", plan)))
        found = [it.decode() for it in re.findall(rb"^ *turns *= *(\d{1,5})", plan, re.MULTILINE)[:1]]
    else:
        outputs, found = 1, [{"protect": words[3], "bundle": words[2]}.get(words[0], "")]
    turns = min(int(found[0]) if found and re.fullmatch("[0-9]{1,5}", found[0]) else 0, 16_384)
    kinds = 4 if b"otu3-out" in plan else 1
    return min((1 << 20) + 4 * len(block) + outputs * turns * MULTIFRAME * kinds, 1 << 32)


def call(
    words: Union[str, Sequence[str]],
    plan: Union[str, Bytes] = b"",
    lines: Optional[Mapping[int, Bytes]] = None,
    clients: Optional[Mapping[int, Client]] = None,
    room: int = 0,
) -> Result:
    """Any command, by its words: a list, or one text with a blank between each two. Words that are no command are
    answered with `Status.WORDS`, and ValueError is raised for a word with a blank in it.

    >>> import otn
    >>> otn.call("trial 7").words[0]
    ['line', '0', 'check', '1c2b80b1']
    >>> otn.call(["slot", "9"]).status
    <Status.WORDS: 2>
    >>> otn.call("unbundle 20", lines={0: bytes(otn.MULTIFRAME)}).words     # the channels of slot 1, each to its client
    [['other', '0']]

    `room` is how many bytes there is room for at first; where it is too little, the command is carried out once more.
    """
    if not isinstance(words, str):
        if any(" " in word for word in words):
            raise ValueError("no word has a blank in it")
        words = " ".join(words)
    said, plan = words.encode(), plan.encode() if isinstance(plan, str) else _bytes(plan)
    inputs = _inputs(lines, clients)
    parts = [inputs.get(n, b"") for n in range(_PORTS)]
    block = next(iter(inputs.values())) if len(inputs) == 1 else b"".join(parts)
    ends, total = (ctypes.c_size_t * _PORTS)(), 0
    for n, part in enumerate(parts):
        total += len(part)
        ends[n] = total
    present = bytes(n in inputs for n in range(_PORTS))
    output_ends, told = (ctypes.c_size_t * _PORTS)(), _Answer()
    outputs_room, report_room = room or _room(words, plan, block), room or (1 << 20) + 2 * len(block)
    while True:
        outputs, report = _memory(outputs_room), _memory(report_room)
        at = [ctypes.addressof(ctypes.c_char.from_buffer(it)) for it in (outputs, report)]
        code = _library().otn_run(
            said, len(said), plan, len(plan), block, len(block), ends, _PORTS, present, _PORTS,
            at[0], outputs_room, output_ends, _PORTS, at[1], report_room, ctypes.byref(told),
        )
        if code != _NO_ROOM:
            break
        outputs_room, report_room = max(told.outputs, 1), max(told.report, 1)
    if code == _NO_CALL:
        raise ValueError("the library says that this is no call")
    if code == Status.MEMORY:
        return Result(Status.MEMORY, b"")
    starts = [0, *output_ends[:-1]]
    got = {n: outputs[start:end] for n, (start, end) in enumerate(zip(starts, output_ends)) if end > start}
    return Result(
        Status(code),
        report[: told.report],
        {n: it for n, it in got.items() if n < LINES},
        {n - LINES: it for n, it in got.items() if n >= LINES},
        told.rule,
        told.place,
    )


def run(
    plan: Union[str, Bytes],
    lines: Optional[Mapping[int, Bytes]] = None,
    clients: Optional[Mapping[int, Client]] = None,
    order: Optional[int] = None,
) -> Result:
    """Carries a plan over lines and clients. `order` is a number below 2^64 that settles in which order ports are
    served; what comes out is the same in every order.

    >>> import otn
    >>> plan = '''
    ... turns = 8
    ... [[connection]]
    ... name = "across"
    ... kind = "flex"
    ... from = { line = 2, port = 1, slots = [1, 2] }
    ... to = { line = 3, port = 5, slots = [7, 8] }
    ... '''
    >>> result = otn.run(plan, lines={2: bytes(8 * otn.MULTIFRAME)})  # (no MFAS in it counts up)
    >>> result.records.line_in[2].lead_in, result.records.connections["across"]
    (64, 'down')
    >>> len(result.lines[3]) == 8 * otn.MULTIFRAME
    True
    """
    return call("run" if order is None else f"run --order {order}", plan, lines, clients)


def check(plan: Union[str, Bytes]) -> Result:
    """Whether a plan is one: the status is DONE or PLAN."""
    return call("check", plan)


def slot(number: int, line: Bytes) -> Result:
    """The payload bytes of a tributary slot, 1 to 8, of each whole frame of an OTU2 line: the report has them.

    >>> import otn
    >>> len(otn.slot(3, bytes(2 * otn.FRAME)).report)
    3808
    """
    return call(f"slot {number}", lines={0: line})


def pull(port: int, slots: Sequence[int], line: Bytes) -> Result:
    """What the sink of a tributary, by its port and slots, emits in each turn of an OTU2 line: the report has it."""
    return call(f"pull {port} {','.join(map(str, slots))}", lines={0: line})


def protect(port: int, slots: Sequence[int], turns: int, wait: int, working: Bytes, protection: Bytes) -> Result:
    """The better one of two OTU2 lines: of the tributary of this port and these slots of both, what the one that is up
    brings goes to line 0. It goes back to `working` after `wait` turns in which that was up again, and never where
    `wait` is 0. `Result.words` has the switches.

    >>> import otn
    >>> plan = '''
    ... turns = 12
    ... [[connection]]
    ... name = "letters"
    ... kind = "odu0"
    ... from = { client = 0 }
    ... to = { line = 0, port = 1, slots = [3] }
    ... '''
    >>> line = otn.run(plan, clients={0: [b"hello"]}).lines[0]
    >>> otn.protect(1, [3], 12, 0, line, line).words                  # both are well: nothing is switched
    []
    >>> otn.protect(1, [3], 12, 0, b"", line).words                   # no working line
    [['turn', '1', 'protection', 'defect']]
    """
    words = f"protect {port} {','.join(map(str, slots))} {turns} {wait}"
    return call(words, lines={0: working, 1: protection})


def trial(number: int) -> Result:
    """Carries packets drawn from a number below 2^64 through four nodes in a row, and says what came back."""
    return call(f"trial {number}")


def _self_test() -> int:
    """Tries the examples in this file."""
    import doctest

    try:
        _library()
    except OSError as why:
        print(f"otn.py: {why}", file=sys.stderr)
        return 1
    failed, tried = doctest.testmod()
    print(f"{tried - failed} passed, {failed} failed")
    return 1 if failed or not tried else 0


if __name__ == "__main__":
    sys.exit(_self_test())
