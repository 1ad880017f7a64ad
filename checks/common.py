"""What the Python scripts of checks/ have in common: the programs that they try, what is left out, and stored cases."""
import hashlib
import os
import pathlib
import shutil
import subprocess
import sys
import tarfile

TOP = pathlib.Path(__file__).resolve().parent.parent
CASES = TOP / "checks" / "cases"
ARCHIVE = CASES / "vectors.tar.xz"
LEFT_OUT = 77  # the exit status of a check that is left out as a whole
SECONDS = 60  # what a stored case may take


# ---- what is missing on this machine

def left_out(what, needs):
    """Says what is left out since a program or a tool is missing."""
    print(f"left out: {what}: needs {needs}", flush=True)


def leave(needs):
    """Ends a check that can't do without this."""
    left_out(f"all of {pathlib.Path(sys.argv[0]).name}", needs)
    sys.exit(LEFT_OUT)


def path_of(name):
    """Where a built program is: what OTN= (or OTN_VIEW=, ..) names, else where `rt run` builds it."""
    return pathlib.Path(os.environ.get(name.upper(), TOP / "crates" / name / "out" / name)).resolve()


def program(name):
    """A built program; where it is not there the check is left out."""
    if not path_of(name).exists():
        leave(name)
    return path_of(name)


def has_tool(tool, what):
    """Whether a tool is there; says what is left out where it is not."""
    if shutil.which(tool):
        return True
    left_out(what, tool)
    return False


# ---- stored cases: a folder with `words`, one a line; `in/`, the files that the program finds; `want/`, what it leaves

def unpacked(room, archive=ARCHIVE):
    """The folder that an archive of cases is unpacked to, once: in it a folder for each kind."""
    into = room / "cases" / archive.name
    if not into.exists():
        with tarfile.open(archive) as it:
            it.extractall(into)
    return into


def kept_cases():
    """The cases that stand unpacked in checks/cases."""
    return [path.parent for path in sorted(CASES.glob("*/words"))]


def words_of(case):
    return (case / "words").read_bytes().split(b"\n")[:-1]


def wanted_of(case):
    """The files that a case wants, by name and none of them empty, and the sums of those that stand there as sums."""
    files = {path.name: path.read_bytes() for path in (case / "want").iterdir()}
    sums = b"".join(files.pop(name, b"") for name in ("sums.sha256", "outputs.sha256")).decode()
    return {name: it for name, it in files.items() if it}, {line[66:]: line[:64] for line in sums.splitlines()}


def program_of(case):
    """The name of the program that runs a case."""
    return "hostile_ports" if (case / "ports.txt").exists() else "otn"


def left_by(case, here):
    """What the program leaves of a case in the folder `here`: its files by name, but for the empty ones."""
    if (case / "in").exists():
        shutil.copytree(case / "in", here)
    else:
        here.mkdir()
    if (case / "ports.txt").exists():
        shutil.copy(case / "ports.txt", here)
    words = [str(program(program_of(case))), *words_of(case)]
    try:
        done = subprocess.run(words, cwd=here, capture_output=True, timeout=SECONDS)
    except subprocess.TimeoutExpired:
        return {"status.txt": b"no answer"}
    files = {path.name: path.read_bytes() for path in [*here.glob("*.out"), *here.glob("places.txt")]}
    files |= {"report.txt": done.stdout, "stderr.txt": done.stderr, "status.txt": b"%d\n" % done.returncode}
    return {name: it for name, it in files.items() if it}


def differences(got, files, sums):
    """What of these files is not as it is wanted, a line each."""
    for name in sorted(got.keys() | files.keys() | sums.keys()):
        one, other = got.get(name, b""), files.get(name, b"")
        if name in sums:
            if hashlib.sha256(one).hexdigest() != sums[name]:
                yield f"{name}: another sum, of {len(one)} bytes"
        elif one.strip() != other.strip() if name == "status.txt" else one != other:
            at = next((i for i, (a, b) in enumerate(zip(one, other)) if a != b), min(len(one), len(other)))
            yield f"{name}: {len(one)} bytes, wanted {len(other)}, first difference at {at}"
