"""Builds the wheel of this folder for pip, from the standard library alone, so that `pip install` needs no network."""

import base64
import hashlib
import os
import zipfile

NAME, VERSION = "agc_client", "1.0.0"
INFO = f"{NAME}-{VERSION}.dist-info"
KINDS = (".py", ".html", ".css", ".js", ".svg")
TEXTS = {
    "METADATA": f"""Metadata-Version: 2.1
Name: agc-client
Version: {VERSION}
Summary: A client of agc-console, an Apollo Guidance Computer that listens, and its page agc-web
Requires-Python: >=3.8
""",
    "WHEEL": "Wheel-Version: 1.0\nGenerator: wheel_of_client\nRoot-Is-Purelib: true\nTag: py3-none-any\n",
    "entry_points.txt": "[console_scripts]\nagc-web = agc_web.command:main\n",
}


def build_wheel(folder, config_settings=None, metadata_directory=None):
    """Writes the wheel into a folder, and returns its name."""
    here = os.path.dirname(os.path.abspath(__file__))
    parts = {path: _read(os.path.join(here, path)) for path in ["agc.py", *_files(here, "agc_web")]}
    parts.update((f"{INFO}/{name}", text.encode()) for name, text in TEXTS.items())
    record = f"{INFO}/RECORD"
    lines = [f"{path},sha256={_digest(data)},{len(data)}\n" for path, data in parts.items()]
    parts[record] = "".join([*lines, f"{record},,\n"]).encode()
    name = f"{NAME}-{VERSION}-py3-none-any.whl"
    with zipfile.ZipFile(os.path.join(folder, name), "w", zipfile.ZIP_DEFLATED) as wheel:
        for path, data in parts.items():
            wheel.writestr(zipfile.ZipInfo(path, (2000, 1, 1, 0, 0, 0)), data)
    return name


def _files(here, package):
    """Returns the files of a package that belong into the wheel."""
    found = []
    for folder, _, names in os.walk(os.path.join(here, package)):
        inside = os.path.relpath(folder, here).replace(os.sep, "/")
        found += [f"{inside}/{name}" for name in names if name.endswith(KINDS)]
    return sorted(found)


def _read(path):
    with open(path, "rb") as file:
        return file.read()


def _digest(data):
    """Returns a digest as a wheel's record has it."""
    return base64.urlsafe_b64encode(hashlib.sha256(data).digest()).decode().rstrip("=")
