"""What happened on a line, in the order of its turns, as `otn_view FILE .. events` tells it: as records.

>>> import otn
>>> plan = '''
... turns = 12
... [[connection]]
... name = "letters"
... kind = "odu0"
... from = { client = 0 }
... to = { line = 0, port = 1, slots = [3] }
... '''
>>> line = otn.run(plan, clients={0: [b"hello"]}).lines[0]
>>> damaged = otn.damage(line, "turns 6-8 jc of port 1 xor 01").line
>>> told = otn.events(damaged, plan=plan, of="out 0")
>>> [str(event) for event in told.of("letters")]
['turn 1 letters up cm 0 cnd 0 after 0 turns', 'turn 8 letters down messages damaged', \
'turn 9 letters up cm 15168 cnd 0 after 1 turns']
>>> told.tributaries["letters"].times_down, told.line.sm
(1, 3)

docs/VIEW.md says what each line of it means, docs/ALARMS.md which alarm of the standard answers to it. Where the
program otn_view is older than its events, they are made here, of the view that it tells: `Events.proved` says which.
"""
from __future__ import annotations

import re
from dataclasses import dataclass
from typing import Dict, Iterator, List, Optional, Sequence, Tuple, Union

from otn_lines import Bytes
from otn_views import Heard, TurnView, View, text_of, view_of, words_of

__all__ = ["Event", "Events", "LineSum", "TributarySum", "events", "events_of", "text_of_events"]


@dataclass(frozen=True)
class Event:
    """What changed in a turn."""

    turn: int
    who: str  #: "line", "slot 3", or the label of a tributary: its name in the plan, or the words "2:4,5"
    #: "whole", "lost multiframe", "no multiframe", "end", "passed over", "errors" of the line; "port", "no port" or
    #: "msi" of a slot; "up" or "down" of a tributary
    what: str
    words: str  #: all that is said behind the turn
    cause: str = ""  #: why it is down

    def __str__(self) -> str:
        return f"turn {self.turn} {self.words}"

    @property
    def numbers(self) -> Dict[str, int]:
        """The numbers in its words, by the word before each.

        >>> import otn_events
        >>> otn_events.Event(44, "campus", "up", "campus up cm 15000 cnd 2 after 3 turns").numbers
        {'cm': 15000, 'cnd': 2, 'after': 3}
        """
        words = self.words.split()
        return {a: int(b) for a, b in zip(words, words[1:]) if b.isdigit() and not a.isdigit()}


@dataclass(frozen=True)
class LineSum:
    """The sums of a line."""

    whole: int  #: turns with their multiframe
    lost: int  #: turns that lost it
    none: int  #: turns in which none was found
    fas: int  #: frames with a wrong FAS, section parity, path parity
    sm: int
    pm: int


@dataclass(frozen=True)
class TributarySum:
    """The sums of a tributary."""

    up: int  #: turns after which it was up, waiting, down
    waiting: int
    down: int
    times_down: int  #: how often it went down
    longest_down: int  #: the most turns in a row in which it was down
    first: int  #: the first turn in which it is told of, and the last
    last: int


@dataclass(frozen=True)
class Events:
    """What happened on a line."""

    otu3: bool
    scrambled: bool
    events: List[Event]
    turns: int
    rest: int  #: bytes behind the last whole frame
    line: LineSum
    tributaries: Dict[str, TributarySum]
    proved: bool = False  #: whether the text is that of otn_view, which is proved

    def of(self, who: str) -> List[Event]:
        """The events of "line", of "slot 3", or of a tributary."""
        return [event for event in self.events if event.who == who]

    def at(self, turn: int) -> List[Event]:
        """The events of a turn."""
        return [event for event in self.events if event.turn == turn]

    def __repr__(self) -> str:
        kind, form = "OTU3" if self.otu3 else "OTU2", "scrambled" if self.scrambled else "plain"
        return f"Events({kind}, {form}, {self.turns} turns, {len(self.events)} events, {list(self.tributaries)})"


def events(
    line: Bytes,
    tributaries: Optional[Sequence[str]] = None,
    *,
    otu3: bool = False,
    scrambled: bool = False,
    plan: Union[str, bytes] = "",
    of: str = "",
) -> Events:
    """What happened on a line. What is given is as of `otn.view`."""
    words = words_of(line, tributaries, otu3, scrambled, plan, of)
    try:
        return _events(text_of(line, [*words, "events"], plan).splitlines(), True)
    except ValueError as why:
        if str(why) != "otn_view: words":
            raise
    return events_of(view_of(text_of(line, words, plan)))


def events_of(view: View) -> Events:
    """The events of a view."""
    return _events(list(text_of_events(view)), False)


# The text of the events, by the records of a view.

ALIGNED = {"lost": "lost multiframe", "none": "no multiframe", "end": "end"}


class _Slots:
    """The MSI bytes that came, of the line and of each tributary."""

    def __init__(self) -> None:
        self.last: Dict[int, int] = {}
        self.wrong: Dict[Tuple[str, int], Tuple[bool, bool]] = {}

    def take(self, turn: TurnView) -> Iterator[str]:
        for slot, byte in turn.msi.items():
            if self.last.get(slot) != byte:
                other = "no port" if byte == 0xC0 else f"msi {byte:02x}"
                yield f"{f'port {byte - 0x7F}' if 0x80 <= byte < 0xC0 else other} in slot {slot}"
            self.last[slot] = byte
            for name, heard in turn.tributaries.items():
                if slot in heard.slots:
                    before = self.wrong.get((name, slot), (False, False))[1]
                    self.wrong[name, slot] = before, byte != 0x7F + heard.port

    def twice(self, name: str, heard: Heard) -> List[int]:
        return [slot for slot in heard.slots if self.wrong.get((name, slot)) == (True, True)]


class _Sum:
    """One tributary, as far as it was told of."""

    def __init__(self, first: int) -> None:
        self.first = self.last = first
        self.turns = {"up": 0, "waiting": 0, "down": 0}
        self.times = self.longest = self.row = self.not_up = 0
        self.state = ""

    def take(self, turn: TurnView, name: str, heard: Heard, slots: _Slots) -> Iterator[str]:
        if heard.state == "up" and self.state != "up":
            yield f"{name} up cm {heard.cm} cnd {heard.cnd} after {self.not_up} turns"
        if heard.state == "down" and self.state != "down":
            self.times += 1
            yield f"{name} down {self._cause(turn, name, heard, slots)}"
        self.state, self.last = heard.state, turn.number
        self.turns[heard.state] += 1
        self.row = self.row + 1 if heard.state == "down" else 0
        self.not_up = 0 if heard.state == "up" else self.not_up + 1
        self.longest = max(self.longest, self.row)

    def _cause(self, turn: TurnView, name: str, heard: Heard, slots: _Slots) -> str:
        if self.state == "waiting":
            return "never came up"
        if turn.state != "whole":
            return "no multiframe"
        twice = slots.twice(name, heard)
        return f"MSI of slot {twice[0]} wrong twice" if twice else "messages damaged"


def _of_line(turn: TurnView, before: str, without: int) -> Iterator[str]:
    if turn.state != before or turn.state == "lost":
        yield "line " + (f"whole after {without} turns" if turn.state == "whole" else ALIGNED[turn.state])
    if turn.lead_in:
        yield f"line passed over {turn.lead_in} frames"
    if turn.fas or turn.sm or turn.pm:
        yield f"line fas {turn.fas} sm {turn.sm} pm {turn.pm}"


def text_of_events(view: View) -> Iterator[str]:
    """The text of the events of a view, as docs/VIEW.md has it."""
    slots, sums, before, without = _Slots(), {}, "", 0  # type: _Slots, Dict[str, _Sum], str, int
    yield f"line otu{3 if view.otu3 else 2} {'scrambled' if view.scrambled else 'plain'}"
    for turn in view.turns:
        said = [*_of_line(turn, before, without), *slots.take(turn)]
        for name, heard in turn.tributaries.items():
            said += sums.setdefault(name, _Sum(turn.number)).take(turn, name, heard, slots)
        yield from (f"turn {turn.number} {words}" for words in said)
        before, without = turn.state, 0 if turn.state == "whole" else without + 1
    yield f"end turns {len(view.turns)} rest {view.rest}"
    states = [turn.state for turn in view.turns]
    fas, sm, pm = (sum(getattr(turn, name) for turn in view.turns) for name in ("fas", "sm", "pm"))
    yield (f"end line whole {states.count('whole')} lost {states.count('lost')} none {states.count('none')} "
           f"fas {fas} sm {sm} pm {pm}")
    for name, it in sums.items():
        yield (f"end {name} up {it.turns['up']} waiting {it.turns['waiting']} down {it.turns['down']} "
               f"times {it.times} longest {it.longest} first {it.first} last {it.last}")


# The records of the text.

_EVENTS = (
    (r"(line) (whole) after \d+ turns", ""), (r"(line) (lost multiframe|no multiframe|end)", ""),
    (r"(line) (passed over) \d+ frames", ""), (r"(line) fas \d+ sm \d+ pm \d+", "errors"),
    (r"(?:(port) \d+|(no port)|(msi) [0-9a-f]{2}) in (slot \d+)", "slot"),
    (r"(\S+) (up) cm \d+ cnd \d+ after \d+ turns", ""), (r"(\S+) (down) (.+)", ""),
)
_SUM = re.compile(r"end (\S+) up (\d+) waiting (\d+) down (\d+) times (\d+) longest (\d+) first (\d+) last (\d+)")
_LINE_SUM = re.compile(r"end line whole (\d+) lost (\d+) none (\d+) fas (\d+) sm (\d+) pm (\d+)")


def _event(text: str) -> Event:
    turn = re.fullmatch(r"turn (\d+) (.+)", text)
    for form, kind in _EVENTS if turn else ():
        assert turn
        found = re.fullmatch(form, turn[2])
        if found is None:
            continue
        if kind == "slot":
            return Event(int(turn[1]), found[4], found[1] or found[2] or found[3], turn[2])
        if kind == "errors":
            return Event(int(turn[1]), "line", kind, turn[2])
        return Event(int(turn[1]), found[1], found[2], turn[2], found[3] if found[2] == "down" else "")
    raise ValueError(f"no line of the events of a line: {text[:80]!r}")


def _events(lines: Sequence[str], proved: bool) -> Events:
    found: List[Event] = []
    form = re.fullmatch(r"line otu([23]) (plain|scrambled)", lines[0] if lines else "")
    end: Optional["re.Match[str]"] = None
    line: Optional[LineSum] = None
    tributaries: Dict[str, TributarySum] = {}
    for text in lines[1:]:
        if not text.startswith("end "):
            found.append(_event(text))
            continue
        end = end or re.fullmatch(r"end turns (\d+) rest (\d+)", text)
        sums, of_line = _SUM.fullmatch(text), _LINE_SUM.fullmatch(text)
        if of_line:
            a, b, c, d, e, f = map(int, of_line.groups())
            line = LineSum(a, b, c, d, e, f)
        elif sums:
            a, b, c, d, e, f, g = map(int, sums.groups()[1:])
            tributaries[sums[1]] = TributarySum(a, b, c, d, e, f, g)
    if form is None or end is None or line is None:
        raise ValueError("no whole text of events")
    return Events(form[1] == "3", form[2] == "scrambled", found, int(end[1]), int(end[2]), line, tributaries, proved)
