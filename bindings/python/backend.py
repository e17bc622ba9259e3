"""Makes the wheel of the package `x25`, with the library in it, for `pip install .` (PEP 517). It
needs the standard library alone.

The library is that of the folder that the variable X25_LIBRARY names, or the one that `make lib`
leaves in `build` of the repository.
"""

import base64
import hashlib
import os
import re
import sysconfig
import zipfile

HERE = os.path.dirname(os.path.abspath(__file__))
BUILT = os.path.join(HERE, "..", "..", "build")


def _setting(name):
    """A setting of the project, as pyproject.toml has it."""
    with open(os.path.join(HERE, "pyproject.toml")) as file:
        return re.search(rf'^{name} = "(.*)"$', file.read(), re.MULTILINE)[1]


def _files():
    """The files of the package, by their names in the wheel."""
    folder = os.path.join(HERE, "x25")
    files = {
        f"x25/{name}": os.path.join(folder, name)
        for name in sorted(os.listdir(folder))
        if name.endswith((".py", ".typed"))
    }
    library = os.path.join(os.environ.get("X25_LIBRARY", BUILT), "libx25.so")
    if not os.path.exists(library):
        raise SystemExit(f"There is no {os.path.normpath(library)}: make lib leaves it there.")
    return {**files, "x25/libx25.so": library}


def build_wheel(wheel_directory, config_settings=None, metadata_directory=None):
    """Writes the wheel into a folder, and answers its name."""
    version, tag = (
        _setting("version"),
        f"py3-none-{sysconfig.get_platform().replace('-', '_').replace('.', '_')}",
    )
    told = f"x25-{version}.dist-info"
    texts = {
        f"{told}/METADATA": f"Metadata-Version: 2.1\nName: x25\nVersion: {version}\nSummary: "
        f"{_setting('description')}\n"
        f"Requires-Python: {_setting('requires-python')}\n",
        f"{told}/WHEEL": (
            f"Wheel-Version: 1.0\nGenerator: x25\nRoot-Is-Purelib: false\nTag: {tag}\n"
        ),
    }
    name, record = f"x25-{version}-{tag}.whl", ""
    with zipfile.ZipFile(os.path.join(wheel_directory, name), "w", zipfile.ZIP_DEFLATED) as wheel:
        for path, octets in [
            *((path, _read(file)) for path, file in _files().items()),
            *((path, text.encode()) for path, text in texts.items()),
        ]:
            wheel.writestr(path, octets)
            digest = (
                base64.urlsafe_b64encode(hashlib.sha256(octets).digest()).rstrip(b"=").decode()
            )
            record += f"{path},sha256={digest},{len(octets)}\n"
        wheel.writestr(f"{told}/RECORD", f"{record}{told}/RECORD,,\n")
    return name


def _read(path):
    with open(path, "rb") as file:
        return file.read()
