"""Proves the crates of a tower, each as soon as those below it are proved."""
import os
import shutil
import signal
import subprocess
import time

from proving.forecast import heights, left, minutes

QUIET = 25                                                     # seconds without a line, at most
LINKED = ('src', 'specs', 'proofs', 'out/rlib')                # of each crate below, in the copy that a proof works in
OWN = ('stdin', 'stdout', 'args', 'status', 'data', 'out/incremental')


class Task:
    """The proof of one crate, under way."""

    def __init__(self, name, process, log):
        self.name, self.process, self.log = name, process, log
        self.begun = time.monotonic()

    def took(self):
        return time.monotonic() - self.begun


class Prover:
    """All proofs of one call."""

    def __init__(self, checkout, asked, processors):
        self.checkout, self.processors = checkout, processors
        self.tower = checkout.tower(asked)
        self.why = {name: checkout.why(name) for name in self.tower}
        self.todo = [name for name in self.tower if self.why[name]]
        self.height = heights(checkout, self.todo)
        self.room = os.path.join(checkout.top, 'crates', 'otn', 'out', 'copies')
        self.running, self.done, self.measured = {}, set(), []
        self.spoke = time.monotonic()

    def say(self, text):
        print(text, flush=True)
        self.spoke = time.monotonic()

    def run(self):
        """Whether all came out proved."""
        self.say_what_is_done()
        while len(self.done) < len(self.todo):
            self.begin_ready()
            task = self.next_ended()
            if task and not self.end(task):
                return False
        return True

    def say_what_is_done(self):
        kept = len(self.tower) - len(self.todo)
        if not self.todo:
            return self.say(f'All {kept} crates stand as they were proved.')
        fresh = all(self.why[name] == 'not proved here yet' for name in self.todo)
        forecast = minutes(self.left())
        self.say(f'{len(self.todo)} crates to prove, {kept} stand as they were proved: {forecast} on '
                 f'{self.processors} processors.')
        if not fresh:
            for name in self.todo:
                self.say(f'  anew: {name} ({self.why[name]})')

    # what is begun

    def ready(self):
        """Those that wait for nothing, with the longest chain above first."""
        waiting = set(self.todo) - self.done
        return sorted((name for name in waiting if name not in self.running
                       and not waiting.intersection(self.checkout.own_below(name))),
                      key=lambda name: -self.height[name])

    def begin_ready(self):
        free = self.processors - len(self.running)
        for name in self.ready()[:max(0, free)]:
            self.begin(name)

    def begin(self, name):
        copy = self.copy_of(name)
        where = os.path.join(copy, 'crates', name)
        has_page = os.path.exists(os.path.join(self.checkout.top, 'man', f'{name}.1'))
        words = ['rt', 'run', '--jobs', '1', '--', '--help' if has_page else '--version'] \
            if self.checkout.is_program(name) else ['rt', 'lib', '--jobs', '1']
        log = open(os.path.join(copy, 'log'), 'w+', encoding='utf-8', errors='replace')
        process = subprocess.Popen(words, cwd=where, stdin=subprocess.DEVNULL, stdout=log, stderr=log,
                                   start_new_session=True)
        self.running[name] = Task(name, process, log)

    def copy_of(self, name):
        """A copy of the checkout for one proof. rt works on one crate of a checkout at a time; in a copy it waits for no
        other. It has links to the files of the crates below, so it takes no room."""
        copy = os.path.join(self.room, name)
        shutil.rmtree(copy, ignore_errors=True)
        tower = self.checkout.tower([name])
        os.makedirs(os.path.join(copy, 'crates'))
        for file in ('HANDLES',):
            shutil.copy(os.path.join(self.checkout.top, file), copy)
        with open(os.path.join(self.checkout.top, 'crates.txt'), encoding='utf-8') as text, \
                open(os.path.join(copy, 'crates.txt'), 'w', encoding='utf-8') as into:
            into.writelines(line for line in text if line.split(':')[0].split(' ')[0] in tower)
        for other in tower:
            for part in LINKED + (OWN if other == name else ()):
                link_all(os.path.join(self.checkout.folder(other), part), os.path.join(copy, 'crates', other, part))
        return copy

    # what ends

    def next_ended(self):
        while True:
            for task in list(self.running.values()):
                if task.process.poll() is not None:
                    del self.running[task.name]
                    return task
            if time.monotonic() - self.spoke > QUIET:
                self.say_under_way()
            time.sleep(0.2)

    def end(self, task):
        copy = os.path.join(self.room, task.name)
        made = os.path.join(copy, 'crates', task.name, 'out')
        if os.path.isdir(made):
            out = os.path.join(self.checkout.folder(task.name), 'out')
            keep_beside(out, made, self.room)
        if task.process.returncode != 0:
            task.log.seek(0)
            self.say(f'not proved: {task.name}\n' + ''.join(task.log.readlines()[-8:]))
            return False
        self.checkout.keep_mark(task.name)
        shutil.rmtree(copy, ignore_errors=True)
        self.done.add(task.name)
        self.measured.append((task.took(), self.checkout.expected(task.name)))
        rest = minutes(self.left()) + ' left' if len(self.done) < len(self.todo) else 'all proved'
        self.say(f'[{len(self.done)}/{len(self.todo)}] proved: {task.name}, {task.took():.0f} s; {rest}')
        return True

    def say_under_way(self):
        longest = max(self.running.values(), key=Task.took)
        others = len(self.running) - 1
        more = f', and {others} more under way' if others else ''
        self.say(f'[{len(self.done)}/{len(self.todo)}] {longest.name} for {longest.took():.0f} s now, of some '
                 f'{self.checkout.expected(longest.name) * self.pace():.0f}{more}; {minutes(self.left())} left')

    # how long it still takes

    def pace(self):
        """How long a proof takes here for each second that was measured once."""
        told = sum(expected for _, expected in self.measured)
        return sum(took for took, _ in self.measured) / told if told > 60 else 1

    def left(self):
        names = [name for name in self.todo if name not in self.done]
        pace = self.pace()
        running = {name: max(5, self.checkout.expected(name) - task.took() / pace)
                   for name, task in self.running.items()}
        return pace * left(self.checkout, names, running, self.height, self.processors)

    def stop(self):
        """Ends all that is under way, and takes the copies away."""
        for task in self.running.values():
            try:
                os.killpg(task.process.pid, signal.SIGTERM)
            except ProcessLookupError:
                pass
        shutil.rmtree(self.room, ignore_errors=True)


def link_all(path, into):
    """The file or folder at `path`, as links."""
    if os.path.isdir(path):
        shutil.copytree(path, into, copy_function=os.link)
    elif os.path.exists(path):
        os.makedirs(os.path.dirname(into), exist_ok=True)
        os.link(path, into)


def keep_beside(out, made, room):
    """Puts what was made in the place of what was there; the copies of others, below it, stay."""
    os.makedirs(out, exist_ok=True)
    for name in os.listdir(out):
        path = os.path.join(out, name)
        if path != room:
            shutil.rmtree(path) if os.path.isdir(path) else os.remove(path)
    for name in os.listdir(made):
        shutil.move(os.path.join(made, name), os.path.join(out, name))
