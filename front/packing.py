"""Builds the package for pip (PEP 517), with the standard library alone.

A wheel is the package's modules with the page of codes `docs/CODES.md`, from which faults are explained.
"""

from __future__ import annotations

import base64
import hashlib
import io
import re
import tarfile
import zipfile
from pathlib import Path
from typing import Any, Optional

FRONT = Path(__file__).resolve().parent
PACKAGE = FRONT / "vutselqi"
NAME = "vutselqi"
VERSION = re.findall(r'__version__ = "(.*)"', (PACKAGE / "__init__.py").read_text(encoding="utf-8"))[0]
ABOUT = f"{NAME}-{VERSION}.dist-info"
METADATA = f"""\
Metadata-Version: 2.1
Name: {NAME}
Version: {VERSION}
Summary: What changes of Cedar policies do, in words, from the answers of the proved program cedar_symcc
Requires-Python: >=3.9
"""
WHEEL = "Wheel-Version: 1.0\nGenerator: vutselqi packing\nRoot-Is-Purelib: true\nTag: py3-none-any\n"
SCRIPTS = f"[console_scripts]\n{NAME} = {NAME}.commands:main\n"


def codes_page() -> bytes:
    """The page of codes, from the checkout or from an unpacked source archive."""
    for page in (PACKAGE / "CODES.md", FRONT.parent / "docs" / "CODES.md"):
        if page.is_file():
            return page.read_bytes()
    raise FileNotFoundError("docs/CODES.md of the checkout, which belongs to the package")


def modules() -> dict[str, bytes]:
    """The package's files by their names in an archive."""
    files = {path.relative_to(FRONT).as_posix(): path.read_bytes() for path in sorted(PACKAGE.rglob("*.py"))}
    return {**files, f"{NAME}/CODES.md": codes_page()}


def record_line(name: str, content: bytes) -> str:
    """A file's line in a wheel's list of files."""
    digest = base64.urlsafe_b64encode(hashlib.sha256(content).digest()).rstrip(b"=").decode()
    return f"{name},sha256={digest},{len(content)}\n"


def write_wheel(folder: str, files: dict[str, bytes]) -> str:
    """Writes a wheel of some files, and returns its name."""
    files = {
        **files,
        f"{ABOUT}/METADATA": METADATA.encode(),
        f"{ABOUT}/WHEEL": WHEEL.encode(),
        f"{ABOUT}/entry_points.txt": SCRIPTS.encode(),
    }
    record = "".join(record_line(name, content) for name, content in files.items()) + f"{ABOUT}/RECORD,,\n"
    wheel = f"{NAME}-{VERSION}-py3-none-any.whl"
    with zipfile.ZipFile(Path(folder) / wheel, "w", zipfile.ZIP_DEFLATED) as archive:
        for name, content in {**files, f"{ABOUT}/RECORD": record.encode()}.items():
            archive.writestr(zipfile.ZipInfo(name), content)
    return wheel


def build_wheel(
    wheel_directory: str, config_settings: Optional[Any] = None, metadata_directory: Optional[str] = None
) -> str:
    """Builds a wheel."""
    return write_wheel(wheel_directory, modules())


def build_editable(
    wheel_directory: str, config_settings: Optional[Any] = None, metadata_directory: Optional[str] = None
) -> str:
    """Builds a wheel that leads to this folder (PEP 660)."""
    return write_wheel(wheel_directory, {f"{NAME}.pth": f"{FRONT}\n".encode()})


def build_sdist(sdist_directory: str, config_settings: Optional[Any] = None) -> str:
    """Builds a source archive, which can be built in turn."""
    top = f"{NAME}-{VERSION}"
    files = {**modules(), "PKG-INFO": METADATA.encode()}
    files.update(
        (path.name, path.read_bytes()) for path in (FRONT / "pyproject.toml", FRONT / "packing.py", FRONT / "README.md")
    )
    with tarfile.open(Path(sdist_directory) / f"{top}.tar.gz", "w:gz") as archive:
        for name, content in files.items():
            entry = tarfile.TarInfo(f"{top}/{name}")
            entry.size = len(content)
            archive.addfile(entry, io.BytesIO(content))
    return f"{top}.tar.gz"
