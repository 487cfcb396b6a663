"""Wheels of the package with the shared object in them, by Python's standard library alone: for build-wheel, and for pip,
which pyproject.toml tells to build by this (PEP 517).

A wheel is for the platform that it is built on, as sysconfig names it, and for each Python 3 there. The same input makes
the same octets. Installed by pip it needs no network, no compiler and no other package.
"""

import base64
import hashlib
import pathlib
import re
import sysconfig
import zipfile

HERE = pathlib.Path(__file__).resolve().parent
LICENSE = HERE.parents[1] / "LICENSE"
# The earliest time that a zip file can tell of.
WHEN = (1980, 1, 1, 0, 0, 0)


def setting(name: str) -> str:
    """What pyproject.toml says; it has one line for each."""
    return re.search(rf'^{name} = "(.*)"$', (HERE / "pyproject.toml").read_text(), re.MULTILINE)[1]


def metadata() -> str:
    classifiers = re.findall(r'^    "(.* :: .*)",$', (HERE / "pyproject.toml").read_text(), re.MULTILINE)
    lines = [
        "Metadata-Version: 2.1",
        f"Name: {setting('name')}",
        f"Version: {setting('version')}",
        f"Summary: {setting('description')}",
        f"Requires-Python: {setting('requires-python')}",
        f"License: {setting('license')}",
        "License-File: LICENSE",
        *(f"Classifier: {it}" for it in classifiers),
        "Description-Content-Type: text/markdown",
    ]
    return "\n".join([*lines, "", (HERE / "README.md").read_text()])


def files(library: pathlib.Path, tag: str) -> dict:
    """The octets of each file in the wheel but RECORD."""
    package = HERE / "dnsnames"
    info = f"dnsnames-{setting('version')}.dist-info"
    found = {f"dnsnames/{it.name}": it.read_bytes() for it in sorted(package.iterdir()) if it.suffix == ".py"}
    return {
        **found,
        "dnsnames/py.typed": (package / "py.typed").read_bytes(),
        "dnsnames/libdnsnames.so.0": library.read_bytes(),
        f"{info}/LICENSE": LICENSE.read_bytes(),
        f"{info}/METADATA": metadata().encode(),
        f"{info}/WHEEL": f"Wheel-Version: 1.0\nGenerator: build-wheel\nRoot-Is-Purelib: false\nTag: {tag}\n".encode(),
    }


def record(content: dict, name: str) -> bytes:
    """The checksum and size of each file, as RECORD has them."""
    lines = []
    for path, octets in content.items():
        checksum = base64.urlsafe_b64encode(hashlib.sha256(octets).digest()).rstrip(b"=").decode()
        lines.append(f"{path},sha256={checksum},{len(octets)}\n")
    return "".join([*lines, f"{name},,\n"]).encode()


def build(library: pathlib.Path, folder: pathlib.Path) -> pathlib.Path:
    """Puts the wheel with this shared object into a folder."""
    tag = "py3-none-" + re.sub(r"[-.]", "_", sysconfig.get_platform())
    content = files(library, tag)
    name = f"dnsnames-{setting('version')}.dist-info/RECORD"
    content[name] = record(content, name)
    folder.mkdir(parents=True, exist_ok=True)
    wheel = folder / f"dnsnames-{setting('version')}-{tag}.whl"
    with zipfile.ZipFile(wheel, "w", zipfile.ZIP_DEFLATED) as archive:
        for path, octets in content.items():
            entry = zipfile.ZipInfo(path, WHEN)
            entry.compress_type = zipfile.ZIP_DEFLATED
            entry.external_attr = (0o755 if ".so" in path else 0o644) << 16
            archive.writestr(entry, octets)
    return wheel


def build_wheel(wheel_directory, config_settings=None, metadata_directory=None) -> str:
    """What pip calls to install this folder: the wheel has the shared object that bindings/build made."""
    library = HERE.parent / "c" / "out" / "libdnsnames.so"
    if not library.exists():
        raise FileNotFoundError(f"{library} isn't there: bindings/build makes it")
    return build(library, pathlib.Path(wheel_directory)).name


def build_sdist(sdist_directory, config_settings=None) -> str:
    raise NotImplementedError("there is no source distribution: the library is proved and built in its repository")
