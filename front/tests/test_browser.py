"""The page, as a real browser shows it."""

from __future__ import annotations

import re
import shutil
import struct
import subprocess
import unittest
import zlib
from pathlib import Path

from tests.support import FrontTest, needs_program

BROWSERS = ("chromium", "chromium-browser", "google-chrome", "chrome")
BROWSER = next(filter(None, map(shutil.which, BROWSERS)), None)
FLAGS = (
    "--headless",
    "--no-sandbox",
    "--disable-gpu",
    "--disable-dev-shm-usage",
    "--hide-scrollbars",
    "--window-size=1000,1400",
    "--force-device-scale-factor=0.5",
)
PRINCIPAL, RESOURCE = (0xDC, 0xEB, 0xFA), (0xFB, 0xEE, 0xD5)  # the colours of their boxes in pictures


def colours(png: bytes) -> dict[tuple[int, ...], int]:
    """How many points of each colour a picture in PNG has, eight bits a channel and not interlaced."""
    at, packed, width, size = 8, b"", 0, 3
    while at < len(png):
        length, kind = struct.unpack(">I4s", png[at : at + 8])
        content = png[at + 8 : at + 8 + length]
        if kind == b"IHDR":
            width, size = struct.unpack(">I", content[:4])[0], {2: 3, 6: 4}[content[9]]
        packed += content if kind == b"IDAT" else b""
        at += length + 12
    found: dict[tuple[int, ...], int] = {}
    before = bytearray(width * size)
    rows, length = zlib.decompress(packed), width * size + 1
    for start in range(0, len(rows), length):
        before = unfiltered(rows[start], bytearray(rows[start + 1 : start + length]), before, size)
        for point in range(0, len(before), size):
            colour = tuple(before[point : point + 3])
            found[colour] = found.get(colour, 0) + 1
    return found


def unfiltered(form: int, row: bytearray, above: bytearray, size: int) -> bytearray:
    """A row of a picture without its filter (PNG, section 9)."""
    for at in range(len(row)) if form else ():
        left, up, corner = (row[at - size], above[at], above[at - size]) if at >= size else (0, above[at], 0)
        guess = left + up - corner
        nearest = min((left, up, corner), key=lambda value: abs(guess - value))
        row[at] = (row[at] + (0, left, up, (left + up) // 2, nearest)[form]) & 255
    return row


@needs_program
@unittest.skipUnless(BROWSER, f"no browser is installed: none of {', '.join(BROWSERS)}")
class Browser(FrontTest):
    """What a browser makes of the page."""

    def setUp(self) -> None:
        super().setUp()
        self.page = self.folder / "page.html"
        run = self.recorded(
            "taxdesk", "compare", "--schema", "schema.json", "--html", str(self.page), "v1.cedar", "v3.cedar"
        )
        self.assertEqual((run.status, run.err), (1, ""))

    def browse(self, *words: str) -> bytes:
        """Runs the browser on the page, with a folder of its own for what it keeps."""
        command = [str(BROWSER), *FLAGS, f"--user-data-dir={self.folder}/kept", *words, self.page.as_uri()]
        run = subprocess.run(command, cwd=self.folder, capture_output=True, timeout=60, check=False)
        self.assertEqual(run.returncode, 0, run.stderr.decode("utf-8", "replace"))
        return run.stdout

    def test_what_it_holds(self) -> None:
        held = self.browse("--dump-dom").decode()
        self.assertEqual(len(re.findall(r"<tr>", held)), 5)
        self.assertEqual(len(re.findall(r'<div class="finding error">', held)), 6)
        self.assertIn("Preparer 0, who is in Org audit, with place", held)
        self.assertEqual(len(re.findall(r"<svg ", held)), 6 if shutil.which("dot") else 0)

    def test_how_it_looks(self) -> None:
        self.browse("--screenshot=page.png")
        found = colours(Path(self.folder / "page.png").read_bytes())
        self.assertGreater(found[255, 255, 255], 100_000)
        self.assertGreater(len(found), 50)
        for colour in (PRINCIPAL, RESOURCE) if shutil.which("dot") else ():
            self.assertGreater(found.get(colour, 0), 300, colour)
