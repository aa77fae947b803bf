"""Makes a wheel of the package, with the library that bindings/c/build has put into it.

It needs nothing but Python, so that `pip install` needs no network. The version is the one that bindings/c/build has put
beside the library.
"""

import base64
import hashlib
import os
import re
import sysconfig
import zipfile

NAME = "htmd"
ROOT = os.path.dirname(os.path.dirname(os.path.abspath(__file__)))
FILES = ["__init__.py", "_convert.py", "_library.py", "_version.py", "libhtmd.so", "py.typed"]


def _content(name):
    path = os.path.join(ROOT, NAME, name)
    if not os.path.exists(path):
        raise RuntimeError(f"{path} isn't there; bindings/c/build makes it")
    with open(path, "rb") as file:
        return file.read()


VERSION = re.search(r'^__version__ = "(.+)"$', _content("_version.py").decode(), re.MULTILINE).group(1)
INFO = f"{NAME}-{VERSION}.dist-info"
METADATA = f"""\
Metadata-Version: 2.1
Name: {NAME}
Version: {VERSION}
Summary: HTML to Markdown, by a converter that is proved to follow its rules
License: Apache-2.0
Requires-Python: >=3.8
"""


def build_wheel(wheel_directory, config_settings=None, metadata_directory=None):
    """Writes the wheel into a folder, and returns its name. It is for this machine's platform, unless the settings name
    another `platform`."""
    platform = (config_settings or {}).get("platform") or sysconfig.get_platform()
    tag = "py3-none-" + platform.replace("-", "_").replace(".", "_")
    wheel = f"Wheel-Version: 1.0\nGenerator: {NAME}\nRoot-Is-Purelib: false\nTag: {tag}\n"
    parts = [(f"{NAME}/{name}", _content(name)) for name in FILES]
    parts += [(f"{INFO}/METADATA", METADATA.encode()), (f"{INFO}/WHEEL", wheel.encode())]
    parts.append((f"{INFO}/RECORD", _record(parts)))
    name = f"{NAME}-{VERSION}-{tag}.whl"
    with zipfile.ZipFile(os.path.join(wheel_directory, name), "w", zipfile.ZIP_DEFLATED) as archive:
        for path, content in parts:
            info = zipfile.ZipInfo(path)
            info.external_attr = 0o100644 << 16
            info.compress_type = zipfile.ZIP_DEFLATED
            archive.writestr(info, content)
    return name


def build_sdist(sdist_directory, config_settings=None):
    """There is none: the library is built from the repository, by its toolchain."""
    raise RuntimeError("htmd has no source distribution: install it from its repository")


def _record(parts):
    lines = []
    for path, content in parts:
        digest = base64.urlsafe_b64encode(hashlib.sha256(content).digest()).rstrip(b"=").decode()
        lines.append(f"{path},sha256={digest},{len(content)}\n")
    lines.append(f"{INFO}/RECORD,,\n")
    return "".join(lines).encode()
