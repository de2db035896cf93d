"""Builds the wheel with Python alone, as pip asks (PEP 517). It takes lib/libtevondimby.so, or that of the folder TEVONDIMBY_LIB."""
import base64
import hashlib
import os
import zipfile

NAME, VERSION, TAG = "tevondimby", "0.1.0", "py3-none-linux_x86_64"
INFO = f"{NAME}-{VERSION}.dist-info"
LIBRARY = "libtevondimby.so"
SOURCES = ("__init__.py", "_native.py", "py.typed")
METADATA = f"Metadata-Version: 2.1\nName: {NAME}\nVersion: {VERSION}\nRequires-Python: >=3.9\n"
WHEEL = f"Wheel-Version: 1.0\nGenerator: build_wheel\nRoot-Is-Purelib: false\nTag: {TAG}\n"


def read(path):
    """Returns the bytes of a file."""
    with open(path, "rb") as file:
        return file.read()


def row(name, data):
    """Returns the line of a file in the wheel's record."""
    digest = base64.urlsafe_b64encode(hashlib.sha256(data).digest()).rstrip(b"=").decode()
    return f"{name},sha256={digest},{len(data)}\n"


def build_wheel(wheel_directory, config_settings=None, metadata_directory=None):
    """Writes the wheel to a folder. Returns its name."""
    here = os.path.dirname(os.path.abspath(__file__))
    lib = os.environ.get("TEVONDIMBY_LIB", f"{here}/../../lib")
    parts = {f"{NAME}/{name}": read(f"{here}/{NAME}/{name}") for name in SOURCES}
    parts |= {f"{NAME}/{LIBRARY}": read(f"{lib}/{LIBRARY}"), f"{INFO}/METADATA": METADATA.encode(), f"{INFO}/WHEEL": WHEEL.encode()}
    parts[f"{INFO}/RECORD"] = "".join([*(row(*part) for part in parts.items()), f"{INFO}/RECORD,,\n"]).encode()
    name = f"{NAME}-{VERSION}-{TAG}.whl"
    with zipfile.ZipFile(os.path.join(wheel_directory, name), "w", zipfile.ZIP_DEFLATED) as wheel:
        for path, data in parts.items():
            wheel.writestr(path, data)
    return name
