"""Makes the wheel: the package, the shared library, and the grammars of formats. It is what pip calls, by pyproject.toml, and uses nothing else.

IPG_TARGET=aarch64-linux or x86_64-windows makes the wheel for another machine, of the library that targets/build.sh kept for it.
"""

from __future__ import annotations

import base64
import hashlib
import os
import sys
import sysconfig
import zipfile
from collections.abc import Iterator
from typing import Any, Dict, Optional

PYTHON = os.path.dirname(os.path.dirname(os.path.abspath(__file__)))
TOP = os.path.dirname(os.path.dirname(PYTHON))
PACKAGE = os.path.join(PYTHON, "ipg")
FORMATS = os.path.join(TOP, "formats")
# the same wheel from the same files
DATE = (2020, 1, 1, 0, 0, 0)


# by target: the library in dist/, its name in the wheel, and the wheel's platform
TARGETS = {
    "": ("libipg.so", "libipg.so", sysconfig.get_platform().replace("-", "_").replace(".", "_")),
    "aarch64-linux": ("libipg-aarch64.so", "libipg.so", "manylinux2014_aarch64"),
    "x86_64-windows": ("ipg.dll", "ipg.dll", "win_amd64"),
}
LIBRARY, NAME, PLATFORM = TARGETS[os.environ.get("IPG_TARGET", "")]


def library() -> str:
    return os.environ.get("IPG_LIBRARY", "") or os.path.join(TOP, "dist", LIBRARY)


def version() -> str:
    """The program's, as the library tells it."""
    sys.path.insert(0, PYTHON)
    import ipg

    return ipg.__version__


def files() -> Iterator[tuple[str, str]]:
    """The places in the wheel, and the files that go there."""
    for name in sorted(os.listdir(PACKAGE)):
        if name.endswith((".py", ".typed")):
            yield f"ipg/{name}", os.path.join(PACKAGE, name)
    yield f"ipg/{NAME}", library()
    for name in sorted(os.listdir(FORMATS)):
        if name.endswith(".ipg"):
            yield f"ipg/formats/{name}", os.path.join(FORMATS, name)
    for name in ("LICENSE-APACHE", "LICENSE-MIT", "NOTICE"):
        yield f"ipg-{version()}.dist-info/{name}", os.path.join(TOP, name)


def texts(tag: str) -> Dict[str, str]:
    """What a wheel tells of itself."""
    about = "Parse binary files by Interval Parsing Grammars, with the proved parser"
    return {
        "METADATA": f"Metadata-Version: 2.1\nName: ipg\nVersion: {version()}\nSummary: {about}\nRequires-Python: >=3.9\n",
        "WHEEL": f"Wheel-Version: 1.0\nGenerator: ipg\nRoot-Is-Purelib: false\nTag: {tag}\n",
    }


def recorded(name: str, data: bytes) -> str:
    digest = base64.urlsafe_b64encode(hashlib.sha256(data).digest()).rstrip(b"=").decode()
    return f"{name},sha256={digest},{len(data)}\n"


def build_wheel(folder: str, config_settings: Optional[Dict[str, Any]] = None, metadata_directory: Optional[str] = None) -> str:
    """What pip calls: makes the wheel in a folder, and tells its name."""
    tag = f"py3-none-{PLATFORM}"
    told = f"ipg-{version()}.dist-info"
    contents = {}
    for name, path in files():
        with open(path, "rb") as file:
            contents[name] = file.read()
    contents.update({f"{told}/{name}": text.encode() for name, text in texts(tag).items()})
    record = "".join(recorded(name, data) for name, data in contents.items()) + f"{told}/RECORD,,\n"
    contents[f"{told}/RECORD"] = record.encode()
    wheel = f"ipg-{version()}-{tag}.whl"
    with zipfile.ZipFile(os.path.join(folder, wheel), "w", zipfile.ZIP_DEFLATED) as out:
        for name, data in contents.items():
            entry = zipfile.ZipInfo(name, DATE)
            entry.compress_type = zipfile.ZIP_DEFLATED
            entry.external_attr = 0o100644 << 16
            out.writestr(entry, data)
    return wheel


def get_requires_for_build_wheel(config_settings: Optional[Dict[str, Any]] = None) -> list[str]:
    """What pip asks first: nothing is needed."""
    return []
