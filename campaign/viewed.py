"""In how many turns each tributary of a line was down, as otn_view says it, whose text is proved (docs/VIEW.md).

otn_view is the program that OTN_VIEW names, else the one on the path, else the one of this checkout. The line is a file
in memory, which has no name but for the program.
"""
import collections
import functools
import os
import pathlib
import shutil
import subprocess
import tempfile

BUILT = pathlib.Path(__file__).resolve().parent.parent / 'crates' / 'otn_view' / 'out' / 'otn_view'


@functools.lru_cache(maxsize=None)
def _program():
    found = os.environ.get('OTN_VIEW') or shutil.which('otn_view') or (str(BUILT) if BUILT.exists() else '')
    if not found:
        raise OSError('no otn_view here, which tells in which turns a tributary is down: OTN_VIEW names it, the package '
                      'otn has it, and `view = false` in the spec does without')
    return os.path.abspath(found)


@functools.lru_cache(maxsize=None)
def _folder(plan):
    """A folder with this plan, kept while this process lives."""
    room = tempfile.TemporaryDirectory(prefix='otn-campaign.')
    (pathlib.Path(room.name) / 'plan.toml').write_text(plan)
    return room


def down_turns(plan, line, names):
    """By customer, in the order of `names`: turns of the line in which its sink is down."""
    file = os.memfd_create('line')
    try:
        with open(file, 'wb', closefd=False) as out:
            out.write(line)
        words = [_program(), f'/proc/self/fd/{file}', 'in', '0']
        done = subprocess.run(words, pass_fds=[file], cwd=_folder(plan).name, capture_output=True)
    finally:
        os.close(file)
    if done.returncode not in (0, 1):
        raise ValueError(f'otn_view: {done.stderr.decode().strip()}')
    rows = (row.split() for row in done.stdout.decode().splitlines() if row.startswith('tributary '))
    counts = collections.Counter(row[1] for row in rows if row[6] == 'down')
    return [counts[name] for name in names]
