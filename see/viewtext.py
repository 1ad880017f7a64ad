"""The numbers of a line as otn_view tells them, which is proved: alignment, counts, MSI bytes, states, Cm, CnD, bytes.

`lay_over` runs otn_view on a line that otnlines.py has read, and puts its numbers in the place of those read there.
What the text does not say stays as it was read: traces, wrong MFAS bytes, how a message was damaged, client packets and
signals.
"""
import os
import pathlib
import shutil
import subprocess
import sys
import tempfile

BUILT = pathlib.Path(__file__).resolve().parent.parent / 'crates/otn_view/out/otn_view'
ALIGNED = {'whole': 'ok', 'lost': 'lost', 'none': 'hunt', 'end': 'end'}
PAIRS = ('frames', 'lead-in', 'fas', 'sm', 'pm')

# whose the numbers are, as pictures and maps say it
TOLD = ('otn_view, proved: turns, FAS, SM and PM counts, MSI, states, Cm, CnD, bytes emitted',
        'this script, not proved: traces, MFAS counts, damaged messages, client packets, AIS, LCK, OCI')
NOT_BUILT = 'otn_view is not built'
MOST_TURNS = 16384                                    # that otn_view tells


def program():
    """otn_view: as OTN_VIEW says, as it was built here, or as it stands on the path; None where there is none."""
    if 'OTN_VIEW' in os.environ:
        return shutil.which(os.environ['OTN_VIEW'])
    return str(BUILT) if BUILT.exists() else shutil.which('otn_view')


def plan_of(line):
    """A plan that has the line's tributaries on line input 0, each in its turns."""
    wide = ', '.join(['0'] if line.s == 32 else [])
    mask = '0' if line.scrambled else ''
    text = f'version = 2\nturns = 16384\notu3-in = [{wide}]\notu3-out = [{wide}]\nscrambled-in = [{mask}]\n'
    for i, t in enumerate(t for t in line.tributaries if t.start <= MOST_TURNS):
        place = f'{{ line = 0, port = {t.port}, slots = {list(t.slots)} }}'
        text += (f'[[connection]]\nname = "t{i}"\nkind = "{"odu0" if t.m == 1 else "flex"}"\n'
                 f'from = {place}\nto = {place}\nstart = {t.start}\nstop = {min(max(t.start, t.stop), MOST_TURNS)}\n')
    return text


def text_of(path, plan, side, number):
    """What otn_view tells of line `number` of a plan, and its complaint where it tells nothing."""
    with tempfile.TemporaryDirectory() as folder:
        pathlib.Path(folder, 'plan.toml').write_text(plan)
        run = subprocess.run([os.path.abspath(program()), os.path.abspath(path), side, str(number)], cwd=folder,
                             capture_output=True, text=True)
    return ([], run.stderr.strip()) if run.returncode > 1 else (run.stdout.splitlines(), '')


def put_turn(turn, words, first):
    """A line of a turn: `turn T ALIGN frames A lead-in B fas C sm D pm E`. Answers the first frame of the next turn."""
    numbers = dict(zip(words[3::2], map(int, words[4::2])))
    frames, turn.lead, turn.fas, turn.sm, turn.pm = (numbers[k] for k in PAIRS)
    turn.alignment, turn.used, turn.msi = ALIGNED[words[2]], range(first, first + frames), {}
    return first + frames


def put_heard(heard, words):
    """A line of a tributary: `tributary NAME port P slots K,K STATE cm C cnd D bytes N`."""
    heard.state, heard.size = words[6], int(words[12])
    heard.c, heard.d = (None if word == '-' else int(word) for word in (words[8], words[10]))


def lay(line, text):
    """Puts the numbers of the text into the line."""
    first = number = 0
    for words in map(str.split, text):
        if words[0] == 'turn':
            number = int(words[1])
            first = put_turn(line.turns[number - 1], words, first)
            active = iter([t for t in line.tributaries if t.start <= number <= t.stop])
        elif words[0] == 'msi':
            line.turns[number - 1].msi[int(words[1])] = int(words[2], 16)
        elif words[0] == 'tributary':
            t = next(active)
            put_heard(t.turns[number - t.start], words)
        elif words[0] == 'end':
            line.rest = int(words[4])


def lay_over(line, plan=None, side='in', number=0):
    """Puts what otn_view tells of the line in the place of what was read of it: by this plan, or as it was read. Then
    `sources` says whose the numbers are, `told` of how many turns otn_view told, `complaint` why of none."""
    line.told, line.planned, text = 0, plan is not None, []
    line.complaint = NOT_BUILT if program() is None else '' if os.path.isfile(line.path) else \
        f'{line.path} is no file, and can be read once only'
    if not line.complaint:
        text, line.complaint = text_of(line.path, plan_of(line) if plan is None else plan, side, number)
    if line.complaint:
        if plan is not None and program() is not None and os.path.isfile(line.path):
            sys.exit(line.complaint)
        print(f'{line.complaint}: these numbers are not proved (see/README.md)', file=sys.stderr)
        line.sources = (f'this script, not proved: all numbers, since {line.complaint}',)
        return
    lay(line, text)
    line.told = min(len(line.turns), MOST_TURNS)
    line.sources = TOLD
