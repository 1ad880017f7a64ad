"""What a line carries, turn by turn, as otn_view tells it: as records in place of text.

>>> import otn
>>> plan = '''
... turns = 12
... [[connection]]
... name = "letters"
... kind = "odu0"
... from = { client = 0 }
... to = { line = 0, port = 1, slots = [3] }
... '''
>>> line = otn.run(plan, clients={0: [b"hello"]}).lines[0]
>>> seen = otn.view(line, plan=plan, of="out 0")                     # the customers by their names, from the plan
>>> seen
View(OTU2, plain, 13 turns, ['letters'])
>>> seen.turns[4].tributaries["letters"]
Heard(port=1, slots=(3,), state='up', cm=15168, cnd=0, bytes=15168)
>>> otn.view(line, ["1:3"]).turns[4].tributaries["1:3"].state        # the same by port and slots
'up'

The numbers are those of the program otn_view, which are proved (docs/VIEW.md). It runs as a process of its own, and the
line goes to it through a file of a temporary folder. The library has no such words: the program is proved up to what it
writes, and what is left to trust is that it was handed this line, and that its text is read aright. That is tested, and
not proved. OTN_VIEW says which program it is, else it is the one that was built in crates/otn_view, or stands on the
path.
"""
from __future__ import annotations

import os
import pathlib
import re
import shutil
import subprocess
import tempfile
from dataclasses import dataclass, field
from typing import Dict, List, Optional, Sequence, Tuple, Union

from otn_lines import Bytes, Line

__all__ = ["Heard", "TurnView", "View", "text_of", "view", "view_of", "words_of"]

BUILT = pathlib.Path(__file__).resolve().parent.parent / "crates/otn_view/out/otn_view"


@dataclass(frozen=True)
class Heard:
    """What is told of a tributary in a turn."""

    port: int
    slots: Tuple[int, ...]
    state: str  #: "waiting", "up" or "down": how its sink stands after the turn
    cm: Optional[int]  #: Cm of the turn; None where it is not up
    cnd: Optional[int]  #: CnD
    bytes: int  #: how many bytes its sink emits


@dataclass(frozen=True)
class TurnView:
    """What is told of a turn."""

    number: int
    state: str  #: "whole", "lost", "none" (no multiframe was found) or "end"
    frames: int  #: frames used in it, and those of them that were passed over
    lead_in: int
    fas: int  #: frames with a wrong FAS, section parity, path parity
    sm: int
    pm: int
    msi: Dict[int, int] = field(default_factory=dict)  #: the MSI bytes that came, by slots
    tributaries: Dict[str, Heard] = field(default_factory=dict)  #: by name, or as the words name it: "2:4,5"


@dataclass(frozen=True)
class View:
    """What is told of a line."""

    otu3: bool
    scrambled: bool
    turns: List[TurnView]
    rest: int  #: bytes behind the last whole frame

    def __repr__(self) -> str:
        names = list(dict.fromkeys(name for turn in self.turns for name in turn.tributaries))
        kind, form = "OTU3" if self.otu3 else "OTU2", "scrambled" if self.scrambled else "plain"
        return f"View({kind}, {form}, {len(self.turns)} turns, {names})"


def program() -> str:
    """otn_view: as OTN_VIEW says, as it was built here, or as it stands on the path."""
    found = os.environ.get("OTN_VIEW") or (str(BUILT) if BUILT.exists() else shutil.which("otn_view"))
    if not found:
        raise OSError("there is no otn_view (`rt run` in crates/otn_view builds it; OTN_VIEW says where it is)")
    return os.path.abspath(found)


def words_of(
    line: Bytes, tributaries: Optional[Sequence[str]], otu3: bool, scrambled: bool, plan: Union[str, bytes], of: str
) -> List[str]:
    """The words of otn_view, but for the file."""
    if plan or of:
        if otu3 or scrambled or tributaries is not None:
            raise ValueError("a plan says the form of the line and its tributaries")
        return of.split()
    if tributaries is None:
        found = Line(line, otu3, scrambled).tributaries
        tributaries = [f"{t.port}:{','.join(map(str, t.slots))}" for t in found]
    return ["otu3"] * otu3 + ["scrambled"] * scrambled + list(tributaries)


def text_of(line: Bytes, words: Sequence[str], plan: Union[str, bytes] = "") -> str:
    """What otn_view writes of a line, with these words behind the file's name. ValueError where it refuses them."""
    with tempfile.TemporaryDirectory(prefix="otn-view-") as folder:
        pathlib.Path(folder, "line").write_bytes(line)
        if plan:
            pathlib.Path(folder, "plan.toml").write_bytes(plan.encode() if isinstance(plan, str) else plan)
        run = subprocess.run([program(), "line", *words], cwd=folder, capture_output=True)
    if run.returncode > 1:
        raise ValueError(run.stderr.decode(errors="replace").strip() or f"otn_view ended with {run.returncode}")
    return run.stdout.decode("ascii")


def view(
    line: Bytes,
    tributaries: Optional[Sequence[str]] = None,
    *,
    otu3: bool = False,
    scrambled: bool = False,
    plan: Union[str, bytes] = "",
    of: str = "",
) -> View:
    """What a line carries, turn by turn.

    The tributaries are told by words such as "2:4,5,8", the port and its slots. Without any they are those of most of
    the MSI bytes of the line. With `plan` and `of`, "in 0" to "out 3", form and tributaries are those of that line of
    the plan. ValueError where otn_view refuses the words or the plan, OSError where there is none.
    """
    words = words_of(line, tributaries, otu3, scrambled, plan, of)
    return view_of(text_of(line, words, plan))


_FORMS = {
    "line": r"line (otu[23]) (plain|scrambled)",
    "turn": r"turn (\d+) (whole|lost|none|end) frames (\d+) lead-in (\d+) fas (\d+) sm (\d+) pm (\d+)",
    "msi": r"msi (\d+) ([0-9a-f]{2})",
    "tributary": r"tributary (\S+) port (\d+) slots ([\d,]+) (waiting|up|down) cm (\d+|-) cnd (\d+|-) bytes (\d+)",
    "end": r"end turns (\d+) rest (\d+)",
}


def view_of(written: str) -> View:
    """The records of what otn_view wrote."""
    turns: List[TurnView] = []
    form, rest = ("", ""), -1
    for text in written.splitlines():
        first = text.partition(" ")[0]
        found = re.fullmatch(_FORMS[first], text) if first in _FORMS else None
        if found is None:
            raise ValueError(f"no line of a view: {text[:80]!r}")
        it = found.groups()
        if first == "line":
            form = it[0], it[1]
        elif first == "turn":
            turns.append(TurnView(int(it[0]), it[1], *_five(it[2:])))
        elif first == "msi":
            turns[-1].msi[int(it[0])] = int(it[1], 16)
        elif first == "tributary":
            turns[-1].tributaries[f"{it[1]}:{it[2]}" if it[0] == "-" else it[0]] = _heard(it)
        else:
            rest = int(it[1])
    if rest < 0 or not form[0]:
        raise ValueError("no whole view of a line")
    return View(form[0] == "otu3", form[1] == "scrambled", turns, rest)


def _five(it: Sequence[str]) -> Tuple[int, int, int, int, int]:
    a, b, c, d, e = map(int, it)
    return a, b, c, d, e


def _heard(it: Tuple[str, ...]) -> Heard:
    cm, cnd = (None if word == "-" else int(word) for word in it[4:6])
    return Heard(int(it[1]), tuple(map(int, it[2].split(","))), it[3], cm, cnd, int(it[6]))
