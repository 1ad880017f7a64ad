"""The crates of a checkout: what each stands on, how long its proof takes, and whether it is to be proved anew."""
import hashlib
import json
import os
import re
import subprocess

PARTS = ('src', 'specs', 'proofs')
UNKNOWN = 60                                    # seconds, of a crate that tools/prove.seconds does not name


class Checkout:
    """A checkout, by its crates.txt."""

    def __init__(self, top):
        self.top = top
        self.below = read_crates(os.path.join(top, 'crates.txt'))
        self.seconds = read_seconds(os.path.join(top, 'tools', 'prove.seconds'))
        self.kit = subprocess.run(['rt', 'version'], capture_output=True, text=True, check=True).stdout.strip()
        self.marks = {}

    def folder(self, name):
        return os.path.join(self.top, 'crates', name)

    def own_below(self, name):
        """The crates of this repository that it stands on, directly."""
        return [other for other in self.below[name] if other in self.below]

    def tower(self, names):
        """These crates and all below them, lowest first."""
        found = []

        def visit(name):
            for other in self.own_below(name):
                visit(other)
            if name not in found:
                found.append(name)
        for name in names:
            visit(name)
        return found

    def expected(self, name):
        return self.seconds.get(name, UNKNOWN)

    def is_program(self, name):
        return os.path.exists(os.path.join(self.folder(name), 'src', 'main.rt'))

    def is_static(self, name):
        with open(os.path.join(self.top, 'crates.txt'), encoding='utf-8') as text:
            return any(line.startswith(f'{name} staticlib') for line in text)

    def product(self, name):
        """What its proof leaves."""
        out = os.path.join(self.folder(name), 'out')
        if self.is_program(name):
            return os.path.join(out, name)
        if self.is_static(name):
            return os.path.join(out, f'lib{name}.a')
        return os.path.join(out, 'rlib', f'{name}.rlib')

    def mark(self, name):
        """What its proof hangs on: the kit, its files, and the marks of the crates below."""
        if name not in self.marks:
            files = {path: digest(os.path.join(self.folder(name), path)) for path in own_files(self.folder(name))}
            below = {other: self.mark(other)['sum'] for other in self.own_below(name)}
            text = json.dumps([self.kit, files, below], sort_keys=True)
            self.marks[name] = {'kit': self.kit, 'files': files, 'below': below,
                                'sum': hashlib.sha256(text.encode()).hexdigest()}
        return self.marks[name]

    def mark_path(self, name):
        return os.path.join(self.folder(name), 'out', 'proved.json')

    def keep_mark(self, name):
        with open(self.mark_path(name), 'w', encoding='utf-8') as kept:
            json.dump(self.mark(name), kept)

    def why(self, name):
        """Why it is to be proved, or None where it stands as it was proved."""
        try:
            with open(self.mark_path(name), encoding='utf-8') as kept:
                was = json.load(kept)
        except (OSError, ValueError):
            return 'not proved here yet'
        now = self.mark(name)
        if was['kit'] != now['kit']:
            return f'{now["kit"].split(" ")[0]} in place of {was["kit"].split(" ")[0]}'
        changed = sorted(path for path in was['files'].keys() | now['files'].keys()
                         if was['files'].get(path) != now['files'].get(path))
        if changed:
            return 'changed: ' + changed[0] + (f' and {len(changed) - 1} more' if len(changed) > 1 else '')
        moved = sorted(other for other in now['below'] if was['below'].get(other) != now['below'][other])
        if moved:
            return f'it stands on {moved[0]}' + (f' and {len(moved) - 1} more' if len(moved) > 1 else '')
        return None if os.path.exists(self.product(name)) else 'what it leaves is gone'


def read_crates(path):
    """What each crate of a crates.txt stands on."""
    below = {}
    with open(path, encoding='utf-8') as text:
        for line in text:
            match = re.match(r'([a-z][a-z0-9_]*)(?: staticlib)?:(.*)', line)
            if match:
                below[match[1]] = match[2].split()
    return below


def read_seconds(path):
    """How long each proof took where it was measured."""
    seconds = {}
    try:
        with open(path, encoding='utf-8') as text:
            for line in text:
                parts = line.split()
                if len(parts) == 2 and not line.startswith('#'):
                    seconds[parts[0]] = int(parts[1])
    except OSError:
        pass
    return seconds


def own_files(folder):
    """The files that its proof reads, by their paths in its folder."""
    found = []
    for part in PARTS:
        for at, _, names in os.walk(os.path.join(folder, part)):
            found += [os.path.relpath(os.path.join(at, name), folder) for name in names]
    return sorted(found)


def digest(path):
    with open(path, 'rb') as file:
        return hashlib.sha256(file.read()).hexdigest()
