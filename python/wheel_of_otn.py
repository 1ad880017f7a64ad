"""Makes the wheel of otn, for pip (PEP 517 and 660): the modules of this folder, with the proved library in `otn`.

    library/build python && pip install ./python     in the clone; nothing is fetched
    pip wheel --no-deps -w FOLDER ./python           the wheel alone
    python3 python/wheel_of_otn.py FOLDER            the same without pip

Each module otn*.py becomes a package of its name with py.typed beside it, since only packages are typed (PEP 561). The
library is libotn.so beside this file, or where OTN_LIBRARY says; it has to be of the version that otn.py is for, and is
loaded once to see that. The wheel is for this kind of machine. Where the library wants no symbol of a C library newer
than 2.17 its tag is manylinux_2_17, else linux. Two builds of the same files make the same bytes.
"""
import base64
import ctypes
import hashlib
import os
import pathlib
import re
import sys
import sysconfig
import zipfile

HERE = pathlib.Path(__file__).resolve().parent
OLDEST = (2, 17)  # the C library of manylinux_2_17 (PEP 600)


def _found(pattern, name):
    """What the pattern finds in a file of this folder."""
    return re.search(pattern, (HERE / name).read_text(encoding="utf-8"), re.MULTILINE)[1]


VERSION = _found(r'^version = "(.*)"$', "pyproject.toml")
SUMMARY = _found(r'^description = "(.*)"$', "pyproject.toml")
PYTHON = _found(r'^requires-python = "(.*)"$', "pyproject.toml")


def _library():
    path = pathlib.Path(os.environ.get("OTN_LIBRARY") or HERE / "libotn.so")
    if not path.exists():
        raise SystemExit(f"{path} is not there: `library/build python` in the clone makes it")
    told, wanted = ctypes.CDLL(str(path.resolve())).otn_version(), int(_found(r"^VERSION = (\d+)", "otn.py"))
    if told != wanted:
        raise SystemExit(f"{path} is of version {told}, and otn.py is for version {wanted}")
    return path.read_bytes()


def _tag(library):
    """The wheel's tag: any Python 3, and the machine that the library is for."""
    wanted = {tuple(map(int, it.split(b"."))) for it in re.findall(rb"\0GLIBC_(\d+\.\d+)(?:\.\d+)?(?=\0)", library)}
    platform = sysconfig.get_platform().replace("-", "_").replace(".", "_")
    if platform.startswith("linux_") and wanted and max(wanted) <= OLDEST:
        platform = platform.replace("linux_", f"manylinux_{OLDEST[0]}_{OLDEST[1]}_")
    return f"py3-none-{platform}"


def _record(name, it):
    digest = base64.urlsafe_b64encode(hashlib.sha256(it).digest()).rstrip(b"=").decode()
    return f"{name},sha256={digest},{len(it)}\n"


def _wheel(folder, files, tag):
    """Writes a wheel of these files, by name, and says what it is called."""
    info = f"otn-{VERSION}.dist-info"
    told = f"Metadata-Version: 2.1\nName: otn\nVersion: {VERSION}\nSummary: {SUMMARY}\nRequires-Python: {PYTHON}\n"
    about = f"Wheel-Version: 1.0\nGenerator: wheel_of_otn\nRoot-Is-Purelib: false\nTag: {tag}\n"
    files = {**files, f"{info}/METADATA": told.encode(), f"{info}/WHEEL": about.encode()}
    record = "".join(_record(name, it) for name, it in files.items()) + f"{info}/RECORD,,\n"
    files[f"{info}/RECORD"] = record.encode()
    name = f"otn-{VERSION}-{tag}.whl"
    with zipfile.ZipFile(os.path.join(folder, name), "w", zipfile.ZIP_DEFLATED) as wheel:
        for path, it in files.items():
            entry = zipfile.ZipInfo(path, (2020, 1, 1, 0, 0, 0))
            entry.external_attr = (0o755 if path.endswith(".so") else 0o644) << 16
            entry.compress_type = zipfile.ZIP_DEFLATED
            wheel.writestr(entry, it)
    return name


def build_wheel(wheel_directory, config_settings=None, metadata_directory=None):
    library, files = _library(), {}
    for module in sorted(HERE.glob("otn*.py")):
        files[f"{module.stem}/__init__.py"] = module.read_bytes()
        files[f"{module.stem}/py.typed"] = b""
    return _wheel(wheel_directory, {**files, "otn/libotn.so": library}, _tag(library))


def build_editable(wheel_directory, config_settings=None, metadata_directory=None):
    """`pip install -e ./python`: the modules where they stand, with libotn.so beside them."""
    return _wheel(wheel_directory, {"otn_here.pth": f"{HERE}\n".encode()}, _tag(_library()))


def build_sdist(sdist_directory, config_settings=None):
    raise SystemExit("there is no source archive of the wheel alone: the library is proved in the clone")


def get_requires_for_build_wheel(config_settings=None):
    return []


if __name__ == "__main__":
    print(build_wheel(sys.argv[1]))
