"""Builds the wheel: the module of python/ and the shared library that make has built, and nothing that needs a compiler.

The library is that of the target which TIPSHARE_TARGET names, x86_64-linux without it. The library lies in the folder lib of
the installation, two above the module, where the module looks. The same files give the same wheel: its times are those of
SOURCE_DATE_EPOCH, else 1980.
"""

import base64
import hashlib
import os
import pathlib
import re
import time
import zipfile

ROOT = pathlib.Path(__file__).resolve().parent.parent.parent
# Of each target the folder of the library, and the oldest C library that it asks for, as wheels name it.
TARGETS = {
    "x86_64-linux": ("target/lib", "manylinux_2_17_x86_64"),
    "aarch64-linux": ("target/aarch64-linux", "manylinux_2_17_aarch64"),
}


def version():
    return re.search(r'^version = "(.*)"', (ROOT / "Cargo.toml").read_text(), re.M)[1]


def metadata():
    page = (ROOT / "python/README.md").read_text()
    fields = {
        "Metadata-Version": "2.1",
        "Name": "tipshare",
        "Version": version(),
        "Summary": "Which suction tip of a desktop placer picks which part: the proved library, from Python",
        "License": "Apache-2.0",
        "Requires-Python": ">=3.7",
        "Description-Content-Type": "text/markdown",
    }
    return "".join(f"{name}: {value}\n" for name, value in fields.items()) + "\n" + page


def build_wheel(wheel_directory, config_settings=None, metadata_directory=None):
    folder, platform = TARGETS[os.environ.get("TIPSHARE_TARGET", "x86_64-linux")]
    library = ROOT / folder / f"libtipshare.so.{version()}"
    if not library.is_file():
        raise SystemExit(f"there is no {library.relative_to(ROOT)}: run make first, or make {folder.rpartition('/')[2]}")
    tag, info = f"py3-none-{platform}", f"tipshare-{version()}.dist-info"
    soname = f"libtipshare.so.{version().partition('.')[0]}"
    files = {
        "tipshare.py": (ROOT / "python/tipshare.py").read_bytes(),
        f"tipshare-{version()}.data/data/lib/{soname}": library.read_bytes(),
        f"{info}/METADATA": metadata().encode(),
        f"{info}/WHEEL": f"Wheel-Version: 1.0\nGenerator: tipshare\nRoot-Is-Purelib: true\nTag: {tag}\n".encode(),
    }
    record = ""
    for name, data in files.items():
        digest = base64.urlsafe_b64encode(hashlib.sha256(data).digest()).rstrip(b"=").decode()
        record += f"{name},sha256={digest},{len(data)}\n"
    files[f"{info}/RECORD"] = (record + f"{info}/RECORD,,\n").encode()
    moment = time.gmtime(max(int(os.environ.get("SOURCE_DATE_EPOCH", 0)), 315532800))
    wheel = f"tipshare-{version()}-{tag}.whl"
    with zipfile.ZipFile(pathlib.Path(wheel_directory) / wheel, "w", zipfile.ZIP_DEFLATED) as archive:
        for name, data in files.items():
            entry = zipfile.ZipInfo(name, moment[:6])
            entry.external_attr = (0o100755 if name.endswith(soname) else 0o100644) << 16
            entry.compress_type = zipfile.ZIP_DEFLATED
            archive.writestr(entry, data)
    return wheel
